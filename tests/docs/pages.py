#!/usr/bin/env python3
"""Tests the pages for readers: README.md, docs/ and the READMEs of folders.

- Each link to a file of the repository, and each anchor of one, leads somewhere.
- No twelve words in a row are on two of the pages README.md and docs/*.md, blocks of code apart: a fact has one home.
- There are at most 14 such pages, docs/DECISIONS.md apart, which is a record.
- README.md has at most 900 words, and all these pages have at most 32,000, as `wc -w` counts them.

It first tries itself on small pages: those without a fault pass, and one fault of each kind is found. It names each fault, and
ends with status 1 if there is any.

usage: tests/docs/pages.py"""
import pathlib
import re
import sys
import tempfile

TOP = pathlib.Path(__file__).resolve().parents[2]
LINKED = (
    "README.md",
    "CHANGELOG.md",
    "docs/**/*.md",
    "examples/README.md",
    "samples/README.md",
    "bench/README.md",
    "crates/*/README.md",
)
PAGES = ("README.md", "docs/*.md")
RECORD = "docs/DECISIONS.md"
RUN, MOST_PAGES, MOST_WORDS, MOST_README = 12, 14, 32_000, 900

FENCE = re.compile(r"^ *```.*?^ *```", re.M | re.S)
INDENTED = re.compile(r"(?<=\n\n)(?: {4,}.*\n|\n(?= {4,}))+")
CODE = re.compile(r"(`+)(.+?)\1")
LINK = re.compile(r"\[[^\]]*\]\(<?([^)\s>]+)>?\)")
HEADING = re.compile(r"^#+ +(.+?) *#*$", re.M)
WORD = re.compile(r"[\w'.-]+")


def found(top, patterns):
    """The files of these patterns, by their names."""
    return {str(it.relative_to(top)): it for pattern in patterns for it in sorted(top.glob(pattern))}


def without_code(text):
    """The text with empty lines in the place of its blocks of code."""

    def blank(it):
        return "\n" * it[0].count("\n")

    return INDENTED.sub(blank, FENCE.sub(blank, text))


def line_of(text, at):
    return text.count("\n", 0, at) + 1


def anchors(text):
    """The anchors of the headings of a page, as GitHub makes them."""
    names, seen = set(), {}
    for title in HEADING.findall(without_code(text)):
        plain = LINK.sub(lambda it: it[0][1 : it[0].index("]")], title).replace("`", "").lower()
        name = re.sub(r"[^\w\- ]", "", plain).replace(" ", "-")
        names.add(f"{name}-{seen[name]}" if name in seen else name)
        seen[name] = seen.get(name, 0) + 1
    return names


def dead_links(top):
    """The links that lead to no file, or to no heading of one."""
    texts = {name: path.read_text(encoding="utf-8") for name, path in found(top, LINKED).items()}
    for name, text in texts.items():
        plain = CODE.sub(lambda it: " " * len(it[0]) if "](" in it[0] else it[0], without_code(text))
        for it in LINK.finditer(plain):
            if re.match(r"[a-z]+:", it[1]):
                continue
            path, _, anchor = it[1].partition("#")
            target = (top / name).parent / path if path else top / name
            place = f"{name}:{line_of(plain, it.start())}"
            if not target.exists():
                yield f"{place}: {it[1]}: there is no such file"
            elif anchor and (target.suffix != ".md" or anchor not in anchors(target.read_text(encoding="utf-8"))):
                yield f"{place}: {it[1]}: there is no such heading"


def blocks(text):
    """The paragraphs, list items, rows and headings of a page, each with its line."""
    plain, at = without_code(text), 0
    for part in re.split(r"\n(?=\s*\n|\s*[-*|>#]|\s*\d+\. )", plain):
        yield line_of(plain, at + len(part) - len(part.lstrip())), part
        at += len(part) + 1


def repetitions(pages):
    """The first words of each row of words that two pages have."""
    first, told = {}, set()
    for name, text in pages.items():
        for line, part in blocks(text):
            words = [it.lower() for it in WORD.findall(LINK.sub(lambda it: it[0][1 : it[0].index("]")], part))]
            for at in range(len(words) - RUN + 1):
                row = tuple(words[at : at + RUN])
                other, place = first.setdefault(row, (name, f"{name}:{line}"))
                if other != name and (place, name, line) not in told:
                    told.add((place, name, line))
                    yield f"{name}:{line}: {place} has it too: {' '.join(row)}"


def too_many(pages):
    """What is more than it may be: pages, words of README.md, words of all."""
    counted = [it for it in pages if it != RECORD]
    if len(counted) > MOST_PAGES:
        yield f"{len(counted)} pages, and not {MOST_PAGES}: {' '.join(counted)}"
    words = {name: len(text.split()) for name, text in pages.items()}
    if words.get("README.md", 0) > MOST_README:
        yield f"README.md has {words['README.md']} words, and not {MOST_README}"
    if sum(words.values()) > MOST_WORDS:
        yield f"the pages have {sum(words.values()):,} words, and not {MOST_WORDS:,}"


def faults(top):
    pages = {name: path.read_text(encoding="utf-8") for name, path in found(top, PAGES).items()}
    return [*dead_links(top), *repetitions(pages), *too_many(pages)]


SENTENCE = "one two three four five six seven eight nine ten eleven twelve"
SMALL = {
    "README.md": "# Top\n\nSee [one](docs/ONE.md#a-part), [it](#top) and [all](docs/proofs/README.md).\n\n    a block [of](code)\n",
    "docs/ONE.md": f"# One\n\n## A `part`\n\n{SENTENCE}\n\n```text\n{SENTENCE} thirteen\n```\n",
    "docs/TWO.md": f"# Two\n\n{SENTENCE.replace('six', 'seven')}\n\n    {SENTENCE}\n",
    "docs/proofs/README.md": f"# Proofs\n\n[Two](../TWO.md) {SENTENCE}\n",
}
# what is planted into a page, and what is said then
PLANTED = [
    ("README.md", "[x](docs/NONE.md)\n", "README.md:6: docs/NONE.md: there is no such file"),
    ("docs/proofs/README.md", "[x](../ONE.md#no-part)\n", "docs/proofs/README.md:4: ../ONE.md#no-part: there is no such heading"),
    ("docs/TWO.md", f"\nsaid again: {SENTENCE}\n", f"docs/TWO.md:7: docs/ONE.md:5 has it too: {SENTENCE}"),
    *((f"docs/N{at}.md", "# N\n", "15 pages, and not 14") for at in range(12)),
    ("README.md", "word\n\n" * MOST_README, "README.md has 910 words, and not 900"),
    ("docs/TWO.md", "word\n\n" * MOST_WORDS, "the pages have 32,068 words, and not 32,000"),
]


def tried():
    """What goes wrong where faults are planted into small pages."""
    wrong, kinds = [], dict.fromkeys(said for _, _, said in PLANTED)
    for wanted in (None, *kinds):
        with tempfile.TemporaryDirectory() as folder:
            top = pathlib.Path(folder)
            for name, text in SMALL.items():
                (top / name).parent.mkdir(parents=True, exist_ok=True)
                (top / name).write_text(text, encoding="utf-8")
            for name, text, said in PLANTED:
                if said == wanted:
                    with (top / name).open("a", encoding="utf-8") as file:
                        file.write(text)
            came = faults(top)
        if [it[: len(wanted or "")] for it in came] != ([wanted] if wanted else []):
            wrong.append(f"planted: {wanted}; found: {came}")
    return wrong


def main():
    wrong = tried() + faults(TOP)
    pages = found(TOP, PAGES)
    words = sum(len(it.read_text(encoding="utf-8").split()) for it in pages.values())
    print("\n".join(wrong + [f"pages: {len(pages)} with {words:,} words, {len(wrong)} faults"]))
    return 1 if wrong else 0


if __name__ == "__main__":
    sys.exit(main())
