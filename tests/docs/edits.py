#!/usr/bin/env python3
"""Tries whether each edit of crates/*/must-fail and crates/*/more-edits can be applied, as `rt must-fail` applies it.

A line `file:` names a file of the crate. Each line `old:` has a text that is in that file once, after the pairs before
it, and the line `new:` after it has another, or none. The script names each edit that is not so, and each name that two
edits of a crate have. The edits of must-fail are those of the table of wrong bodies in docs/proofs/README.md: it names each
that is in one of the two places alone. It ends with status 1 if there is any."""
import pathlib
import re
import sys

sys.path.insert(0, str(pathlib.Path(__file__).resolve().parents[1]))
from support.tree import TOP, page


def pairs(lines):
    """The file, the old and the new text of each pair of an edit."""
    file = old = None
    for word, text in (line.split(":", 1) for line in lines if ":" in line):
        text = text.removeprefix(" ")
        if word == "file":
            file = text
        elif word == "old":
            old = text
        elif word == "new":
            yield file, old, text


def fault(edit):
    """Why an edit cannot be applied; nothing where it can."""
    crate, texts = edit.parent.parent, {}
    for file, old, new in pairs(edit.read_text(encoding="utf-8").splitlines()):
        if not file or not old or old == new:
            return "a pair has no file or no old text, or it changes nothing"
        if file not in texts:
            if not (crate / file).is_file():
                return f"there is no file {file}"
            texts[file] = (crate / file).read_text(encoding="utf-8")
        if (found := texts[file].count(old)) != 1:
            return f"this text is in {file} {found} times, and not once: {old}"
        texts[file] = texts[file].replace(old, new)
    return None if texts else "it has no pair of an old and a new text"


def of_the_table():
    """The edits that the table of wrong bodies names, as CRATE/NAME; a name alone is of the crate before it."""
    named, crate = set(), None
    section = page("proofs/README.md").partition("## Wrong bodies that the gate tries\n")[2].partition("\n## ")[0]
    for line in section.splitlines():
        if line.startswith("| ") and line.count("|") == 3:
            for word in re.findall(r"`([a-z_0-9/]+)`", line.split("|")[2]):
                before, slash, name = word.rpartition("/")
                crate = before if slash else crate
                named.add(f"{crate}/{name}")
    return named


def main():
    edits = sorted((TOP / "crates").glob("*/m*/*.edit"))
    faults = [f"{it.relative_to(TOP)}: {why}" for it in edits if (why := fault(it))]
    places = {}
    for it in edits:
        if places.setdefault((it.parts[-3], it.name), it) is not it:
            faults.append(f"{it.relative_to(TOP)}: must-fail has an edit of this name, too")
    in_gate = {f"{it.parts[-3]}/{it.stem}" for it in edits if it.parent.name == "must-fail"}
    faults += [f"{it}: in must-fail or in the table of docs/proofs/README.md alone" for it in sorted(in_gate ^ of_the_table())]
    print(
        "\n".join(
            faults + [f"edits: {len(in_gate)} in the gate, {len(edits) - len(in_gate)} in more-edits, {len(faults)} at fault"]
        )
    )
    return 1 if faults else 0


if __name__ == "__main__":
    sys.exit(main())
