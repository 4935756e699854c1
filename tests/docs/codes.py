#!/usr/bin/env python3
"""Compares docs/CODES.md with the table of crates/bsp_fault_texts, and that with the codes that the sources write.

The table has an entry for each code: the status of a reply, what it means, what to do and, of some, its causes. A row of
docs/CODES.md is made of each, and a section `### E07 by its causes` of causes. A code that another source writes is a
letter and two digits in a text of crates/*/src, tests and comments apart, as `E05` or `{"code":"N02"}`. Each has one
entry, and there is no other. The script names what differs, and ends with status 1 if anything does.

usage: tests/docs/codes.py            compares
       tests/docs/codes.py --write    makes the rows and the causes of docs/CODES.md of the table"""
import json
import pathlib
import re
import sys

sys.path.insert(0, str(pathlib.Path(__file__).resolve().parents[1]))
from support.tree import TOP

COMMENT = re.compile(r"^\s*//.*$|\s//\s.*$", re.M)
TEXT = re.compile(r'"(?:[^"\\]|\\.)*"')
CODE = re.compile(r"(?<!\w)[A-Z]\d\d(?!\w)")
ROW = re.compile(r"^\| `?([A-Z]\d\d)`? \|.*$", re.M)
CAUSES = re.compile(r"^### ([A-Z]\d\d) by its causes\n\n((?:- .*\n)*)", re.M)
PAGE = TOP / "docs/CODES.md"
# the headings to which the links of some rows lead
HEADINGS = {"M03": "#what-can-follow-each-state-of-a-memo", "N02": "#methods-and-paths", "T05": "#a-proxy-in-front"}
# a row of the table: the code, the status, the meaning, the remedy and the causes
ENTRY = re.compile(r'\(\n\s+("[A-Z]\d\d",.*?)^ *\)[],]', re.M | re.S)


def texts(part):
    """The texts of a part of a source."""
    return [json.loads(it) for it in TEXT.findall(part)]


def table():
    """The table: of each code the status, the meaning, the remedy, and the causes."""
    found = {}
    for path in sorted((TOP / "crates/bsp_fault_texts/src").glob("*.rt")):
        for entry in ENTRY.findall(path.read_text(encoding="utf-8")):
            code, status, meaning, remedy, *causes = texts(entry)
            found[code] = (status, meaning, remedy, causes)
    return found


def as_page(code, text, causes):
    """A text of the table as the page has it: with links to pages and to the causes."""
    if causes:
        text = text.replace("its causes", f"[{code} by its causes](#{code.lower()}-by-its-causes)")
    return re.sub(r"\bdocs/([A-Z]+\.md)", lambda found: f"[{found[1]}]({found[1]}{HEADINGS.get(code, '')})", text)


def made(page, entries):
    """The page with its rows and its causes made of the table."""

    def row(code, has_status):
        status, meaning, remedy, causes = entries[code]
        cells = [code, status] if has_status else [code]
        cells += [as_page(code, meaning, causes), as_page(code, remedy, causes)]
        return f"| {' | '.join(cells)} |".replace("|  |", "| |")

    def section(match):
        listed = entries.get(match[1], ("", "", "", []))[3]
        return f"### {match[1]} by its causes\n\n" + "".join(f"- {it}.\n" for it in listed)

    lines, has_status = [], False
    for line in page.splitlines():
        found = ROW.match(line)
        if line.startswith("| Code |"):
            has_status = line.startswith("| Code | Status |")
        lines.append(row(found[1], has_status) if found and found[1] in entries else line)
    return CAUSES.sub(section, "\n".join(lines) + "\n")


def written():
    """The codes in the texts of the other sources, each with the first file that has it."""
    found = {}
    for path in sorted(TOP.glob("crates/*/src/**/*.rt")):
        source = path.read_text(encoding="utf-8")
        if "tests" in path.parts or path.stem == "tests" or ENTRY.search(source):
            continue
        text = COMMENT.sub("", source)
        for code in CODE.findall(" ".join(TEXT.findall(text))):
            found.setdefault(code, path.relative_to(TOP))
    return found


def main():
    known, entries = written(), table()
    page = PAGE.read_text(encoding="utf-8")
    if "--write" in sys.argv[1:]:
        page = made(page, entries)
        PAGE.write_text(page, encoding="utf-8")
    rows, sections = ROW.findall(page), [it[0] for it in CAUSES.findall(page)]
    faults = [f"the table has no {code}, which {known[code]} writes" for code in sorted(known) if code not in entries]
    faults += [f"the table has {code}, which no source writes" for code in sorted(entries) if code not in known]
    faults += [f"docs/CODES.md has no row of {code}" for code in sorted(entries) if code not in rows]
    faults += [
        f"docs/CODES.md has a row of {code}, which is not in the table" for code in sorted(set(rows)) if code not in entries
    ]
    faults += [f"docs/CODES.md has {code} in more than one row" for code in sorted(set(rows)) if rows.count(code) > 1]
    faults += [
        f"docs/CODES.md has no section of the causes of {code}"
        for code in sorted(entries)
        if entries[code][3] and code not in sections
    ]
    for has, wants in zip(page.splitlines(), made(page, entries).splitlines()):
        if has != wants:
            faults.append(f"docs/CODES.md differs from the table:\n  has   {has}\n  wants {wants}")
            break
    print("\n".join(faults + [f"codes: {len(known)} in the sources, {len(entries)} in the table, {len(rows)} rows"]))
    return 1 if faults else 0


if __name__ == "__main__":
    sys.exit(main())
