#!/usr/bin/env python3
"""Asks the built program the requests of examples/, and compares its replies byte for byte with those that the files have.
examples/README.md says how a file is written, and what is compared.

Each example is run over a book in memory; over a book in tables in memory; over a book in a file; and over a book in a file
with the office killed, and started again, between each two requests. Requests that differ in a number alone are sent many at
once. Each difference is printed with its file and line, and with the ways that have it. A body of which a file has the end
alone must be the same in all ways. The status is 1 where something differs, or where a file is not in its form.

usage: tests/support/examples.py PROGRAM [NAME..]   (NAME as in 05-sale; with none all are run)
"""
import concurrent.futures
import contextlib
import dataclasses
import hashlib
import http.client
import itertools
import json
import pathlib
import re
import sys
import tempfile
import time

sys.path.insert(0, str(pathlib.Path(__file__).resolve().parents[1]))
from support import program as program_under_test, served, wire
from support.tree import EXAMPLES as FOLDER, TOP

# a way: the word of --db, and whether the office is killed between each two requests
WAYS = {"memory": ("", False), "tables": (":memory:", False), "file": ("{}.db", False), "restarts": ("{}.db", True)}

# so many requests that differ in a number alone are sent at once
AT_ONCE = 100

AFTER = re.compile(r"# after:((?: [\w./-]+\.hurl)+)")
EACH = re.compile(r"# each number: (\d+) to (\d+)")
REQUEST = re.compile(r"([A-Z]+) \{\{base\}\}(/[^\s#{}]*)")
TOKEN_FIELD = re.compile(r"Bsp-Token: ([0-9A-Za-z]+)")
STATUS = re.compile(r"HTTP ([1-5]\d\d)")
FIELD = re.compile(r"([A-Z][A-Za-z-]*): ([^\s#{}\\][^#{}\\]*)")
FENCE = re.compile("```")
ONE_LINE = re.compile(r"`([^`\\]*)`")
FILE = re.compile(r"file,((?:samples|examples/files)/[\w.-]+);")
HEX = re.compile(r"hex,((?:[0-9a-f]{2})+);")
JSON = re.compile(r"[{\[].*")
ASSERTS = re.compile(r"\[Asserts\]")
END = re.compile(r'body endsWith "([^"\\]*)\\n"')


# ---- the files


class Mistake(Exception):
    """A file that is not in its form."""


@dataclasses.dataclass(frozen=True)
class Entry:
    """A request, and the reply that is wanted. A place is a file and a line."""

    place: tuple
    method: str
    path: str
    token: str
    body: bytes
    reply_place: tuple
    status: int
    fields: dict
    body_place: tuple
    wanted: bytes
    is_end: bool = False
    is_repeated: bool = False


class Lines:
    """The lines of a file, read one after the other."""

    def __init__(self, file):
        self.name, self.at, self.used, self.has_number = str(file.relative_to(TOP)), 0, set(), False
        try:
            self.lines = file.read_bytes().decode().split("\n")
        except (OSError, UnicodeDecodeError) as fault:
            raise self.mistake(str(fault)) from fault
        if not re.fullmatch("# .+", self.lines[0]) or self.lines[-1]:
            raise self.mistake("it does not begin with a comment, or not end with a line end")

    def mistake(self, text, back=0):
        """A mistake at the next line, or so many lines before it."""
        return Mistake(f"{self.name}:{self.at + 1 - back}: {text}")

    def unlike(self, wanted):
        """The mistake that the next line is something else."""
        return self.mistake(f"{self.lines[self.at] if self.skip() else 'the end of the file'!r} is not {wanted}")

    def place(self):
        """The place of the next line that is neither empty nor a comment."""
        self.skip()
        return self.name, self.at + 1

    def skip(self):
        """Goes on to that line; whether there is one."""
        while self.at < len(self.lines) and re.fullmatch("#.*|", self.lines[self.at]):
            self.at += 1
        return self.at < len(self.lines)

    def take(self, pattern):
        """The match of that line, which is then read; None where it has another form."""
        found = pattern.fullmatch(self.lines[self.at]) if self.skip() else None
        self.at += found is not None
        return found

    def comment(self, pattern, at):
        """The match of the comment in this line."""
        found = pattern.fullmatch(self.lines[at])
        if found:
            self.used.add(at)
        return found

    def close(self):
        """Each line that begins as such a comment was one, and at its place."""
        for self.at, line in enumerate(self.lines):
            if re.match("# (after|each)", line) and self.at not in self.used:
                raise self.mistake("not a line '# after: FILE..' or '# each number: N to N', or not at its place")


def plain(lines, text):
    """The bytes of a text, in which hurl would take two braces for a variable."""
    if "{{" in (text.replace("{{number}}", "") if lines.has_number else text):
        raise lines.mistake("a variable that is neither base nor the number of '# each'", 1)
    return text.encode()


def fenced(lines):
    """The lines up to the closing fence."""
    begun = lines.at
    while lines.lines[lines.at] != "```":
        lines.at += 1
        if lines.at == len(lines.lines):
            raise lines.mistake("the text has no end")
    lines.at += 1
    return "".join(it + "\n" for it in lines.lines[begun : lines.at - 1])


def body(lines):
    """The media type and the bytes of the body that comes next; None where there is none."""
    if lines.take(FENCE):
        return "text/plain", plain(lines, fenced(lines))
    if found := lines.take(ONE_LINE):
        return "text/plain", plain(lines, found[1])
    if found := lines.take(HEX):
        return "text/plain", bytes.fromhex(found[1])
    if found := lines.take(FILE):
        if (TOP / found[1]).is_file():
            return "text/plain", (TOP / found[1]).read_bytes()
        raise lines.mistake("there is no such file", 1)
    if found := lines.take(JSON):
        try:
            json.loads(found[0])
        except ValueError as fault:
            raise lines.mistake(f"no JSON text: {fault}", 1) from fault
        return "application/json", plain(lines, found[0])
    return None


def wanted_body(lines):
    """The place, the media type and the bytes of the body that is wanted, and whether they are its end alone."""
    place = lines.place()
    if not lines.take(ASSERTS):
        found = body(lines)
        if not found:
            raise lines.unlike("a field or a body of the reply")
        return place, *found, False
    found = lines.take(END)
    if not found:
        raise lines.unlike('body endsWith "TEXT\\n"')
    return place, "text/plain", plain(lines, found[1] + "\n"), True


def entry(lines):
    """The next request and its reply."""
    place, request = lines.place(), lines.take(REQUEST)
    if not request:
        raise lines.unlike("a request, METHOD {{base}}/PATH")
    token, sent = lines.take(TOKEN_FIELD), body(lines)
    reply_place, status = lines.place(), lines.take(STATUS)
    if not status:
        raise lines.unlike("a field Bsp-Token, a body, or a line HTTP STATUS")
    fields = {}
    while found := lines.take(FIELD):
        fields[found[1]] = found[2]
    body_place, media, wanted, is_end = wanted_body(lines)
    fields.setdefault("Content-Type", media)
    return Entry(
        place,
        *request.groups(),
        token and token[1],
        sent[1] if sent else b"",
        reply_place,
        int(status[1]),
        fields,
        body_place,
        wanted,
        is_end,
    )


def entries_of(lines):
    """The next request, once or with each number."""
    lines.skip()
    each = lines.comment(EACH, lines.at - 1)
    lines.has_number = bool(each)
    first = entry(lines)
    if not each:
        yield first
        return
    for number in range(int(each[1]), int(each[2]) + 1):
        sent = first.body.replace(b"{{number}}", str(number).zfill(len(each[1])).encode())
        yield dataclasses.replace(first, body=sent, is_repeated=number > int(each[1]))


def read(file):
    """The entries of a file, and its beginnings: for each the names of the files that come before it."""
    lines = Lines(file)
    lines.at, beginnings, entries = 1, [], []
    while found := lines.comment(AFTER, lines.at):
        beginnings.append(found[1].split())
        lines.at += 1
    while lines.skip() or not entries:
        entries += entries_of(lines)
    lines.close()
    return entries, beginnings or [[]]


def conversations(file):
    """The entries of a file behind those of each of its beginnings, with a name where there are several."""
    entries, beginnings = read(file)
    found = []
    for number, names in enumerate(beginnings, 1):
        before = [it for name in names for it in read(FOLDER / name)[0]]
        found.append((f" after line {number + 1}" if len(beginnings) > 1 else "", before + entries))
    return found


# ---- the office


def ask(it, entry):
    """The reply to the request of an entry: its status, its fields and its body."""
    it.peer.request(entry.method, entry.path, entry.body or None, {"Bsp-Token": entry.token} if entry.token else {})
    reply = it.peer.getresponse()
    return reply.status, reply.headers, reply.read()


def ask_at_once(it, entries):
    """The replies to the requests of entries, which are sent one behind the other on a connection of their own."""
    with contextlib.closing(wire.connected(it.port, it.seconds)) as peer, peer.makefile("rb") as came:
        peer.sendall(b"".join(wire.message(entry.method, entry.path, entry.token, entry.body) for entry in entries))
        return [wire.next_reply(came) for _ in entries]


def parts(entries):
    """The entries one by one, but those that repeat one with another number many at once."""
    for is_repeated, found in itertools.groupby(entries, lambda entry: entry.is_repeated):
        while part := list(itertools.islice(found, AT_ONCE if is_repeated else 1)):
            yield part


def replies(words, entries, is_killed):
    """The entries with their replies. Where there is none, what failed is the last reply."""
    it = None
    for part in parts(entries):
        try:
            if it and is_killed and not part[0].is_repeated:
                it.kill()
                it = None
            it = it or served.Office(*words)
            found = ask_at_once(it, part) if part[0].is_repeated else [ask(it, part[0])]
        except (RuntimeError, OSError, http.client.HTTPException) as fault:
            found = [f"{type(fault).__name__}: {fault}"]
        yield from zip(part, found)
        if isinstance(found[-1], str):
            break
    if it:
        it.kill()


def first_difference(wanted, found):
    """The number of the first line that differs, and both lines."""
    pairs = itertools.zip_longest(wanted.splitlines(True), found.splitlines(True))
    return next((f"line {at} of the body", *pair) for at, pair in enumerate(pairs, 1) if pair[0] != pair[1])


def differences(entry, reply):
    """What differs from the reply that is wanted: the place, what it is, what is wanted and what came."""
    if isinstance(reply, str):
        yield entry.place, "the reply", f"HTTP {entry.status}", reply
        return
    status, fields, found = reply
    if status != entry.status:
        yield entry.reply_place, "the status", entry.status, status
    for name, wanted in entry.fields.items():
        if fields.get(name) != wanted:
            yield entry.reply_place, f"the field {name}", wanted, fields.get(name)
    if entry.is_end and not found.endswith(entry.wanted):
        yield entry.body_place, "the end of the body", entry.wanted, found[-len(entry.wanted) :]
    elif not entry.is_end and found != entry.wanted:
        yield entry.body_place, *first_difference(entry.wanted, found)


def whole(entry, reply):
    """What stands for the whole body of a reply of which the file has the end alone."""
    if entry.is_end and not isinstance(reply, str):
        yield entry.body_place, hashlib.sha256(reply[2]).hexdigest()


def run(program, folder, file, number, way):
    """The name of a conversation in this way, how many requests it has, its differences, and what stands for its bodies."""
    program_under_test.choose(program)
    word, is_killed = WAYS[way]
    name, entries = conversations(file)[number]
    book = ["--db", word.format(f"{folder}/{file.stem}-{number}-{way}")] if word else []
    pairs = list(replies(book, entries, is_killed))
    return (
        way + name,
        len(entries),
        [it for pair in pairs for it in differences(*pair)],
        [it for pair in pairs for it in whole(*pair)],
    )


# ---- all


def files_of(names):
    """The files of these names, or all."""
    found = [FOLDER / f"{name.removesuffix('.hurl')}.hurl" for name in names] or sorted(FOLDER.glob("*.hurl"))
    missing = [str(it) for it in found if not it.is_file()]
    if missing or not found:
        sys.exit(f"there is no example {' '.join(missing)}")
    return found


def checked(files):
    """The files, each with a number for each of its conversations. Ends the script where one is not in its form."""
    jobs, mistakes = [], []
    for file in files:
        try:
            jobs += [(file, number) for number, _ in enumerate(conversations(file))]
        except Mistake as mistake:
            mistakes.append(str(mistake))
    if mistakes:
        sys.exit("\n".join(dict.fromkeys(mistakes)))
    return jobs


def run_all(program, files):
    """How many requests were made, and the differences, each with the ways that have it."""
    jobs, count, found, bodies = checked(files), 0, {}, {}
    with tempfile.TemporaryDirectory() as folder, concurrent.futures.ProcessPoolExecutor(4) as pool:
        runs = [pool.submit(run, program, folder, *job, way) for way in reversed(WAYS) for job in jobs]
        for name, requests, differing, wholes in (it.result() for it in runs):
            count += requests
            for it in differing:
                found.setdefault(it, []).append(name)
            for place, body in wholes:
                if body != bodies.setdefault(place, body):
                    found.setdefault((place, "the whole body", bodies[place], body), []).append(name)
    return count, found


def main():
    if len(sys.argv) < 2:
        sys.exit(__doc__)
    begun, files = time.monotonic(), files_of(sys.argv[2:])
    count, found = run_all(sys.argv[1], files)
    for (place, what, wanted, came), ways in sorted(found.items(), key=lambda it: it[0][0]):
        print(f"{place[0]}:{place[1]}: {what} ({', '.join(ways)}):\n  wanted {wanted!r}\n  came   {came!r}")
    seconds = time.monotonic() - begun
    print(f"{len(files)} examples, {count} requests, {len(found)} differences, in {seconds:.0f} seconds")
    sys.exit(1 if found else 0)


if __name__ == "__main__":
    main()
