#!/usr/bin/env python3
"""Compares the drawing of docs/ARCHITECTURE.md with crates.txt.

Each crate of crates.txt is drawn once, and each crate that is drawn is in crates.txt; crates of tests and of cases, which
nothing uses, are named in docs/CONTRIBUTING.md instead. A crate uses crates that are drawn below it alone, or to its
right. The script names what differs, and ends with status 1 if anything does."""
import pathlib
import re
import sys

sys.path.insert(0, str(pathlib.Path(__file__).resolve().parents[1]))
from support.tree import TOP, crates


def uses():
    """The crates of crates.txt, each with those of this repository that it uses."""
    found = crates()
    return {name: [it for it in used if it in found] for name, used in found.items()}


def drawn():
    """The crates of the drawing, from its top to its bottom."""
    text = (TOP / "docs/ARCHITECTURE.md").read_text(encoding="utf-8")
    return re.findall(r"\bbsp_\w+", text.split("```text\n")[1].split("```")[0])


def main():
    known, order = uses(), drawn()
    aside = set(
        re.findall(r"\bbsp_(?:\w+_)?(?:tests|probe|examples)\b", (TOP / "docs/CONTRIBUTING.md").read_text(encoding="utf-8"))
    )
    faults = [f"{it} is drawn, and is not in crates.txt" for it in order if it not in known]
    faults += [f"{it} is drawn twice" for it in sorted(set(order)) if order.count(it) > 1]
    faults += [f"{it} is neither drawn nor named in docs/CONTRIBUTING.md" for it in known if it not in order and it not in aside]
    for name in (it for it in order if it in known):
        faults += [
            f"{name} uses {it}, which is drawn above it"
            for it in known[name]
            if it in order and order.index(it) < order.index(name)
        ]
    print(
        "\n".join(
            faults
            + [f"architecture: {len(order)} crates drawn, {len(known)} in crates.txt, {sum(map(len, known.values()))} uses"]
        )
    )
    return 1 if faults else 0


if __name__ == "__main__":
    sys.exit(main())
