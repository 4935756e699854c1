#!/usr/bin/env python3
"""The mistakes of mistakes.txt, and what the program says of each. The head of that file says how it is written.

usage: tests/program/mistakes.py PROGRAM --texts|--write

--texts prints for each mistake its number and its name, and, indented, the command and what the program says. --write records what
the program says as what is wanted: whoever reads the difference judges it.
"""
import concurrent.futures
import json
import pathlib
import re
import shlex
import shutil
import sys
import tempfile

sys.path.insert(0, str(pathlib.Path(__file__).resolve().parents[1]))
from support import program
from support.records import WIDTH, numbered
from support.tree import SAMPLES, sample

PAGE = pathlib.Path(__file__).with_name("mistakes.txt")
COUNTS = {"ret": 64, "plan": 44, "hot": 20, "body": 10}
FILES = {"ret": "report.ret", "plan": "next.toml", "hot": "125.hot", "body": "body.json"}
SETTING = {"--plan": "plan.toml", "--day": "2024-01-05", "--agent": "12345675", "--stock": "1300000000-1300000099"}


class Mistake:
    """A mistake: how its file is made, the words of the command, and the lines that are wanted."""

    def __init__(self, kind, name):
        self.kind, self.name = kind, name
        self.lines, self.edits, self.words, self.wanted = [], [], [], []

    def take(self, line):
        """Takes a line of the page."""
        if line[:2] in ("= ", "! "):
            self.wanted.append(line)
            return
        self.lines.append(line)
        word, _, rest = line.partition(" ")
        if word == "run":
            self.words = shlex.split(rest)
        else:
            self.edits.append((word, values_of(rest)))

    def command(self):
        """The words that the program is given."""
        command, *words = self.words or ["hotcheck"]
        if command == "judge":
            for option, value in SETTING.items():
                words = words if option in words else [option, value, *words]
        return [command, *words, FILES[self.kind]]


def values_of(text):
    """The values on a line: numbers, texts in quotes with the escapes of JSON, and words."""
    found = re.findall(r'"(?:[^"\\]|\\.)*"|\S+', text)
    return [json.loads(it) if it[0] == '"' else int(it) if it.isdigit() else it for it in found]


def mistakes():
    """The mistakes of the page, in its order, and the lines above them."""
    head, found = [], []
    for line in PAGE.read_text(encoding="utf-8").splitlines():
        if line.startswith("  "):
            found[-1].take(line[2:])
        elif line and line[0] != "#":
            found.append(Mistake(*line.split(" ", 1)))
        elif line:
            head.append(line)
    return head, found


def padded(kind, text):
    """A line as it is written in the page, filled with spaces where it is a record."""
    return text.ljust(WIDTH) if kind in ("ret", "hot") else text


def replaced(text, old, new):
    """A text with one text in place of another."""
    if old not in text:
        raise ValueError(f"{old!r} is not there")
    return text.replace(old, new)


def edited_lines(kind, lines, word, values):
    """Lines, changed as an edit says; a number on it is a line, counted from 1."""
    at = values[0] - 1
    if word == "put":
        line, (_, column, new) = lines[at], values
        lines[at] = line[: column - 1] + new + line[column - 1 + len(new) :]
    elif word == "line":
        lines[at] = replaced(lines[at], *values[1:])
    elif word == "remove":
        del lines[at : values[-1]]
    elif word == "double":
        lines.insert(at, lines[at])
    elif word == "insert":
        lines[at:at] = [padded(kind, it) for it in values[1:]]
    else:
        raise ValueError(f"{word} is no edit")
    return lines


def edited(kind, text, word, values):
    """A text, changed as an edit says."""
    match word:
        case "from":
            return sample(values[0]).decode()
        case "text":
            return "".join(f"{it}\n" for it in values)
        case "replace":
            return replaced(text, *values)
        case "add":
            return text + values[0]
        case "cut":
            return text[: values[0]]
        case "strip":
            return re.sub(" +$", "", text, flags=re.M)
        case "number":
            return numbered(text.encode()).decode()
    return "".join(f"{it}\n" for it in edited_lines(kind, text.split("\n")[:-1], word, values))


def write_files(mistake, folder):
    """Writes the file of a mistake into a folder, beside the samples."""
    for it in SAMPLES.iterdir():
        if it.suffix in (".ret", ".toml", ".hot"):
            shutil.copy(it, folder)
    texts, name, encoding = {}, FILES[mistake.kind], {}
    for word, values in mistake.edits:
        if word == "in":
            name = values[0]
            texts[name] = sample(name).decode()
        elif word == "save":
            encoding[name] = values[0]
        else:
            texts[name] = edited(mistake.kind if name == FILES[mistake.kind] else "", texts.get(name, ""), word, values)
    for name, text in texts.items():
        pathlib.Path(folder, name).write_bytes(text.encode(encoding.get(name, "utf-8")))


def said(mistake):
    """What the program says of a mistake: its output, and its lines on standard error."""
    with tempfile.TemporaryDirectory() as folder:
        write_files(mistake, folder)
        ended = program.run(*mistake.command(), cwd=folder)
    lines = [f"= {it}" for it in ended.out.decode(errors="replace").splitlines()]
    return lines + [f"! {it}" for it in ended.err.decode(errors="replace").splitlines()]


def written(head, found, texts):
    """The page with these texts as what is wanted."""
    lines = [*head]
    for mistake, text in zip(found, texts):
        lines += ["", f"{mistake.kind} {mistake.name}", *(f"  {it}" for it in mistake.lines + text)]
    return "\n".join(lines) + "\n"


def main():
    if len(sys.argv) != 3 or sys.argv[2] not in ("--texts", "--write"):
        sys.exit(__doc__)
    program.choose(sys.argv[1])
    head, found = mistakes()
    with concurrent.futures.ThreadPoolExecutor(4) as pool:
        texts = list(pool.map(said, found))
    if sys.argv[2] == "--write":
        PAGE.write_text(written(head, found, texts), encoding="utf-8")
        return
    for number, (mistake, text) in enumerate(zip(found, texts), 1):
        print(f"{number} {mistake.kind} {mistake.name}\n  {shlex.join(mistake.command())}", *text, "", sep="\n  ")


if __name__ == "__main__":
    main()
