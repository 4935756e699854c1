#!/usr/bin/env python3
"""Compares the README.md of each crate with its sources: what the crate is, its files, what it is built on, and who uses it,
by the //! lines of its files, or the first /// where there are none, and by crates.txt. With --write it writes them.
What follows the first line that begins with `## ` is written by hand: it is neither compared nor changed.

usage: tests/docs/readmes.py [--write]
"""
import pathlib
import re
import sys

sys.path.insert(0, str(pathlib.Path(__file__).resolve().parents[1]))
from support import tree
from support.tree import TOP


def said(path):
    """The //! text at the top of a file, in paragraphs."""
    lines = []
    for line in path.read_text().splitlines():
        if not line.startswith("//!"):
            break
        lines.append(line[4:])
    # a link to an item of the code is its name alone
    text = re.sub(r"\[(`[^`]*`)\](\([^)]*\))?", r"\1", "\n".join(lines))
    return [" ".join(it.split()) for it in text.split("\n\n") if it.strip()]


def purpose(path):
    """What a file has: its //! text, or else the first sentence on one of its items."""
    if found := said(path):
        return found[0]
    item = re.search(r"(?m)^ *///.*(\n *///.*)*", path.read_text())
    text = " ".join(it.strip()[3:].strip() for it in item[0].splitlines()) if item else ""
    return re.sub(r"\[(`[^`]*`)\](\([^)]*\))?", r"\1", text.split(". ")[0].rstrip(".") + ".") if text else "?"


def named(names):
    return ", ".join(f"[{it}](../{it}/README.md)" for it in names)


def readme(name, crates):
    """The text of a crate's README.md."""
    folder = TOP / "crates" / name
    root = next(it for it in (folder / "src" / "lib.rt", folder / "src" / "main.rt") if it.exists())
    lines = [f"# {name}", ""]
    for paragraph in said(root):
        lines += [paragraph, ""]
    files = [it for it in sorted((folder / "src").glob("*.rt")) if it != root]
    if files:
        lines += ["| File of `src` | What it has |", "|---|---|"]
        lines += [f"| `{it.name}` | {purpose(it)} |" for it in files] + [""]
    own = [it for it in crates[name] if it in crates]
    kit = [f"`{it}`" for it in crates[name] if it not in crates]
    above = sorted(it for it, below in crates.items() if name in below)
    lines.append(f"Built on: {named(own) or 'no crate of this repository'}{'; of the kit ' + ', '.join(kit) if kit else ''}.")
    if above:
        lines.append(f"Used by: {named(above)}.")
    lines.append("What is proved: [PROVED](../../docs/proofs/PROVED.md). Its place: [ARCHITECTURE](../../docs/ARCHITECTURE.md).")
    return "\n".join(lines) + "\n"


def halves(path):
    """The part of a README that is made of the sources, and the part that is written by hand."""
    text = path.read_text() if path.exists() else ""
    at = text.find("\n## ")
    return (text, "") if at < 0 else (text[:at], text[at:])


def main():
    crates, wrong = tree.crates(), []
    for name in crates:
        path, wanted = TOP / "crates" / name / "README.md", readme(name, crates)
        made, by_hand = halves(path)
        if "--write" in sys.argv[1:]:
            path.write_text(wanted + by_hand)
        elif made != wanted:
            wrong.append(name)
            print(f"{path.relative_to(TOP)} is not what tests/docs/readmes.py --write writes")
        if "| ? |" in wanted:
            wrong.append(name)
            print(f"{name}: a file of src has neither //! nor ///")
    if not wrong:
        print(f"the README of each of {len(crates)} crates is as its sources are")
    sys.exit(min(len(wrong), 255))


main()
