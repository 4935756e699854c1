"""`check` and `hotcheck` report on the texts of examples/checks.txt, byte for byte. The head of that file says how it is written."""
import re
import typing

import pytest

from support import program
from support.records import RECORD, line, numbered
from support.tree import EXAMPLES

PAGE = EXAMPLES / "checks.txt"
LINES = PAGE.read_text(encoding="utf-8").splitlines()

FILE = re.compile(r"([A-Z_\d]+):")
FIELDS = re.compile(r"  (?:([A-Z_\d]+) )?([^ |]*\|.*)")
CASE = re.compile(r"(check|hotcheck)(?: (.+))? = ([01])(?: (.+))?")
OUTPUT = re.compile(r"    (.+)")
REMARK = re.compile(r"#.*|")


class Case(typing.NamedTuple):
    """A text, given to a command, and the status, the line on standard error and the lines of the output that are wanted."""

    line: str
    command: str
    parts: str
    status: int
    error: str
    out: list

    def wanted(self):
        """The status, the output and the text on standard error that are wanted."""
        error = f"bsp_office: standard input: {self.error}\n" if self.error else ""
        return self.status, "".join(self.out).encode(), error.encode()


def field_of(text):
    """A field: so many spaces, a total of 0, or the characters."""
    if spaces := re.fullmatch(r"\((\d+)\)", text):
        return " " * int(spaces[1])
    return "00000000000000{" if text == "0{" else text


def record_of(fields):
    """A record: its fields, spaces, and an LF."""
    text = line("".join(map(field_of, fields.split("|"))))
    assert len(text) == RECORD, f"{PAGE}: a record is too long: {fields}"
    return text.encode()


def named(lines):
    """The bytes of each file, and of each record with a name."""
    found, file = {}, None
    for text in lines:
        if it := FILE.fullmatch(text):
            file = it[1]
            found[file] = b""
        elif it := FIELDS.fullmatch(text):
            record = record_of(it[2])
            found[file] += record
            found[it[1]] = record
    return found


def cases(lines):
    """The cases, each with the lines of its output."""
    found = []
    for text in lines:
        if it := CASE.fullmatch(text):
            found.append(Case(text, it[1], it[2] or "", int(it[3]), it[4], []))
        elif it := OUTPUT.fullmatch(text):
            found[-1].out.append(f"{it[1]}\n")
        else:
            assert any(form.fullmatch(text) for form in (FILE, FIELDS, REMARK)), f"{PAGE}: this line is of no form: {text}"
    return found


NAMES, CASES = named(LINES), cases(LINES)


def quoted(text):
    """The bytes in quotation marks; `\\x0a` is the one with that code."""
    characters = re.fullmatch('"(.*)"', text)[1]
    return re.sub(rb"\\x([0-9a-f]{2})", lambda it: bytes([int(it[1], 16)]), characters.encode())


def put(text, place, characters):
    """A text with these characters from a place on, in the place of as many."""
    end = place + len(characters)
    assert 0 <= place < end <= len(text), f"a text of {len(text)} bytes has no place {place} for {characters}"
    return text[:place] + characters + text[end:]


def applied(text, part):
    """A text, changed as a part of a case says."""
    word, _, rest = part.partition(" ")
    number, _, last = rest.partition(" ")
    match word:
        case "crlf":
            return text.replace(b"\n", b"\r\n")
        case "numbered":
            return numbered(text)
        case "add":
            return text + quoted(rest)
        case "cut":
            return text[: int(rest)]
        case "less":
            return text[: len(text) - int(rest)]
        case "at":
            return put(text, len(text) - RECORD + int(number) - 1, quoted(last))
        case "replace":
            return put(text, (int(number) - 1) * RECORD, record_of(last))
    return text + b"".join(NAMES[it] for it in part.split())


def test_both_commands_have_cases():
    assert {it.command for it in CASES} == {"check", "hotcheck"}


@pytest.mark.parametrize("case", CASES, ids=[it.line for it in CASES])
def test_a_text_is_reported(case):
    text = b""
    for part in case.parts.split(", "):
        text = applied(text, part)
    assert program.run(case.command, "-", text=text) == case.wanted()
