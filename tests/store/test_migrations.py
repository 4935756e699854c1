"""Books of earlier versions, which SQLite makes of the texts in samples/books/, and audits: a book of version 1 or 2 that was opened
has the rows of a new book of the same requests, and gives the same replies, in the closed period and in the next one; a program
that is killed at each of its writes to the file, or at any moment, leaves the old book or the new one, whole; a damaged book is
refused, and stays as it is; a book of another version is B04; and `audit` reports on each without a change of its files."""
import contextlib
import os
import pathlib
import sqlite3
import subprocess
import time

import pytest
from books import (
    LARGER,
    LARGER_TAXES,
    SALES,
    VERSIONS,
    afterwards,
    bytes_of,
    copied,
    dump_of,
    made,
    opened,
    requests,
    rows_of,
    tables_of,
    text_of,
)

from support import examples, program, shims
from support.callers import A, B, OFFICE
from support.compare import expect, expect_end


# ---- the program


def answers(served, asked):
    """The method and the path of each request, with the status and the bytes of its reply."""
    return [(it[:2], served.ask(*it)[::2]) for it in asked]


def ended(file, **how):
    """The program as it opens a book and ends: its status, and what it says on standard error."""
    found = program.run("run", "--token", OFFICE, "--db", file, timeout=600, **how)
    return found.status, found.err.decode()


def refusal(what, file, code, status=1):
    """The book is refused with this code, and its rows stay as they are."""
    before = dump_of(file)
    told, said = ended(file)
    lines = said.splitlines()
    first = f"bsp_office: {file}: {code} "
    wanted = [code, first] if status == 1 else [first]
    found = [*lines[:-1], lines[-1][: len(first)]] if lines else []
    expect(what, (status, wanted), (told, found))
    expect(f"{what}: what it leaves", before, dump_of(file))


def audited(what, file, status, printed):
    """The report of `audit` on a book, whose files stay as they are."""
    before = bytes_of(file)
    expect_end(f"audit: {what}", (status, printed.encode(), b""), [program.path(), "audit", file])
    expect(f"audit: {what}: what it leaves", True, before == bytes_of(file))


# ---- replies


def new_book(version):
    """The rows that a new book of the same requests has in a file, and its replies."""
    file = f"new-{version}.db"
    served = opened(file)
    asked = answers(served, requests(version))
    expect(f"the requests of version {version}", {200}, {status for _, (status, _) in asked})
    served.kill()
    rows = tables_of(file)
    served = opened(file)
    replies = answers(served, afterwards())
    served.kill()
    return rows, replies


@pytest.mark.parametrize("version", VERSIONS)
def test_a_book_of_an_earlier_version(version):
    """A book of the version is opened, and is then one of version 3."""
    file = f"old-{version}.db"
    made(file, text_of(version))
    audited(f"version {version}", file, 1, f"B04 version {version}\n")
    rows, replies = new_book(version)
    served = opened(file)
    line = "day 2024-01-16, 1 of 2 periods closed, 2 agents, 2 airlines"
    expect(f"version {version}: its line", True, line in served.opened)
    for entry in examples.read(examples.FOLDER / "16-reports.hurl")[0]:
        expect(f"version {version}: {entry.path}", [], list(examples.differences(entry, examples.ask(served, entry))))
    served.kill()
    expect(f"version {version}: its rows", rows, tables_of(file))
    items = 2 if version == 1 else 3
    report = f"OK version 3 day 2024-01-16 agents 2 items {items} memos 2 periods 1\n"
    audited(f"version {version}, migrated", file, 0, report)
    served = opened(file)
    for wanted, found in zip(replies, answers(served, afterwards())):
        expect(f"version {version}: {wanted[0]}", wanted, found)
    served.kill()
    expect(f"version {version}: integrity", [("ok",)], rows_of(file, "PRAGMA integrity_check"))
    expect(f"version {version}: the schema", schema_of(f"new-{version}.db"), schema_of(file))


def schema_of(file):
    """The names of the tables with those of their columns, in the order of the tables."""
    names = [name for name, in rows_of(file, "SELECT name FROM sqlite_schema WHERE type = 'table' ORDER BY rowid")]
    return [(name, rows_of(file, f"PRAGMA table_info({name})")) for name in names]


# ---- a program that is killed


def is_whole(what, file, old, new):
    """The book is the old one or the new one; which."""
    found = tables_of(file)
    kind = "old" if found == old else "new" if found == new else "another"
    expect(f"{what}: the book", True, kind != "another")
    return kind


@pytest.mark.parametrize("version", VERSIONS)
def test_a_kill_at_each_write(version):
    """Killed at the first write to its files, then at the second, and so on until it is not killed."""
    preload = shims.built("killed")
    made("whole.db", text_of(version))
    old = tables_of("whole.db")
    copied("whole.db", "new.db")
    ended("new.db")
    new, left = tables_of("new.db"), []
    for call in range(1, 1000):
        copied("whole.db", "killed.db")
        how = {"LD_PRELOAD": preload, "KILL_AT": str(call)}
        told, _ = ended("killed.db", env={**os.environ, **how})
        if told == 0:
            break
        what = f"version {version}, killed at call {call}"
        left.append(is_whole(what, "killed.db", old, new))
        expect(f"{what}: opened again", 0, ended("killed.db")[0])
        expect(f"{what}: opened again, its rows", True, new == tables_of("killed.db"))
    expect(f"version {version}, killed: what it leaves first and last", ["old", "new"], [*left[:1], *left[-1:]])
    expect(f"version {version}, killed: old ones come first", sorted(left, reverse=True), left)


@pytest.mark.parametrize("version", VERSIONS)
def test_a_kill_at_any_moment(version):
    """A larger book, whose program is killed after times that grow up to that of an opening."""
    made("large.db", text_of(version), LARGER + (LARGER_TAXES if version > 1 else ""))
    old = tables_of("large.db")
    copied("large.db", "new.db")
    begun = time.monotonic()
    expect(f"a larger book of version {version}", 0, ended("new.db")[0])
    seconds, new = time.monotonic() - begun, tables_of("new.db")
    expect(f"a larger book of version {version}: its items", (SALES + version + 1, 3), (len(new["item"]), new["meta"][0][1]))
    for part in range(1, 13):
        copied("large.db", "killed.db")
        quiet = {"stdout": subprocess.DEVNULL, "stderr": subprocess.DEVNULL}
        process = subprocess.Popen(
            [program.path(), "run", "--token", OFFICE, "--db", "killed.db"], stdin=subprocess.PIPE, **quiet
        )
        time.sleep(seconds * part / 12)
        process.kill()
        process.communicate()
        what = f"a larger book of version {version}, killed after {part} of 12 parts"
        is_whole(what, "killed.db", old, new)
        expect(f"{what}: opened again", 0, ended("killed.db")[0])
        expect(f"{what}: opened again, its rows", True, new == tables_of("killed.db"))


# ---- books that are refused

ITEM = """agent number canx airline code issued period alive name fare taxes rate commission rel_airline rel_number
    ca cc ex vendor""".split()
TICKET, EXCHANGE, CARD, ADMA = (f"number = '{it}'" for it in (1300000001, 1300000003, 1300000008, 7000000001))


def item_like(which, **other):
    """Puts in an item like another, with other values in some columns."""
    return f"INSERT INTO item SELECT {', '.join(str(other.get(it, it)) for it in ITEM)} FROM item WHERE {which} AND NOT canx;"


def tally_with(values, airline="125"):
    """Gives a tally of the closed period other values."""
    return f"UPDATE tally SET {values} WHERE agent = '{A}' AND airline = '{airline}' AND period = '24011';"


def tax_of(number, canx=0):
    """Puts in the tax of an item, 0."""
    return f"INSERT INTO item_tax VALUES ('{A}', '{number}', {canx}, 0, 0);"


# example 12's ticket, in exchange for the first one of example 16, and another like it
SALE = tally_with("accepted = accepted + 1, living = living + 1, cash = cash + 5000, commission = commission + 250")
OF_TICKET = {"rel_airline": "'125'", "rel_number": "'1300000001'"}
EXCHANGED = item_like(TICKET, number="'1300000003'", fare=25000, commission=250, ca=5000, ex=23500, **OF_TICKET) + SALE
AGAIN = item_like(EXCHANGE, number="'1300000004'") + SALE
# the first one's CANX
CANCELLED = (
    item_like(TICKET, canx=1, code="'CANX'", **dict.fromkeys(ITEM[ITEM.index("fare") :], "NULL"))
    + f"UPDATE item SET alive = 0 WHERE {TICKET} AND NOT canx;"
    + tally_with("accepted = accepted + 1, living = living - 1, canx = canx + 1, cash = cash - 23500")
    + tally_with("commission = commission - 1000")
)
# the memo of 220 is billed in the open period
BILLED = (
    f"UPDATE memo SET billed = '24012' WHERE {ADMA};"
    + tally_with("memo_count = 0, memos = 0", "220")
    + f"INSERT INTO tally VALUES ('{A}', '220', '24012', 0, 0, 0, 1, 0, 0, 0, 3000);"
)
ENDED = f"UPDATE item SET alive = 0 WHERE {CARD};" + tally_with("living = living - 1, credit = credit - 10000", "220")
UNPAID = f"UPDATE item SET ca = NULL WHERE {TICKET};" + tally_with("cash = cash - 23500")

# the changes of example 49 as it was first written: SQL, what is changed beside it in the tables of version 2 so that nothing
# else is at fault, and how the line of what is at fault begins
DAMAGES = {
    "a range that meets another": (f"UPDATE stock SET lo = '1300000050' WHERE agent = '{B}'", "", "ranges meet"),
    "an item out of stock": (
        f"UPDATE item SET number = '1500000000' WHERE {CARD}",
        f"UPDATE item_tax SET number = '1500000000' WHERE {CARD}",
        "item ",
    ),
    "a second item of the same number": (item_like(CARD, canx=1), tax_of(1300000008, 1), "item "),
    "a related document of another airline": (f"UPDATE item SET rel_airline = '220' WHERE {EXCHANGE}", "", "item "),
    "a second living relation": (AGAIN, tax_of(1300000004), "ranges meet"),
    "a memo billed in an open period": (BILLED, f"INSERT INTO tally_tax VALUES ('{A}', '220', '24012', 0)", "memo "),
    "cash that is one more": (tally_with("cash = cash + 1"), "", "tally "),
    "a ticket that ended without a CANX": (ENDED, "", "item "),
    "a CANX of an exchanged ticket": (CANCELLED, tax_of(1300000001, 1), "item "),
    "a ticket without a form of payment": (UNPAID, "", "item "),
    "a disputed memo that is billed": (f"UPDATE memo SET state = 'disputed' WHERE {ADMA}", "", "memo "),
    "a memo of no kind": (f"UPDATE memo SET kind = 'X' WHERE {ADMA}", "", "memo "),
}
TAXES = {
    "a tax that is one more": "UPDATE item_tax SET tax = tax + 1 WHERE number = '1300000010'",
    "a tax of no item": tax_of(1300000077),
    "an item without a tax": f"DELETE FROM item_tax WHERE {TICKET}",
    "a tax of a tally too few": "DELETE FROM tally_tax WHERE airline = '220'",
    "a tax that is published out of its place": "UPDATE commission_tax SET place = 2",
}


# tables that are those of no version
SCHEMAS = {
    "no table of memos": "DROP TABLE memo",
    "a table more": "CREATE TABLE spare (id INTEGER)",
    "an index": "CREATE INDEX spare ON item (airline)",
}


def base(version):
    """The text of the book of example 49 of a version; one of version 3 is that of version 2 with its last table."""
    text = text_of(min(version, 2)) + EXCHANGED + (tax_of(1300000003) if version > 1 else "")
    return (
        text
        if version < 3
        else text
        + """UPDATE meta SET version = 3;
        CREATE TABLE second_related (agent TEXT NOT NULL, number TEXT NOT NULL, airline TEXT NOT NULL, rel_number TEXT NOT NULL,
          PRIMARY KEY (agent, number)) STRICT;"""
    )


def audited_as_damaged(what, fault, file="damaged.db"):
    """The report of `audit` on a damaged book begins so, and its files stay as they are."""
    before = bytes_of(file)
    told = subprocess.run([program.path(), "audit", file], input=b"", capture_output=True, timeout=60)
    lines = told.stdout.decode().splitlines()
    found = told.returncode, told.stderr, lines[:1], [it.startswith(fault) for it in lines[1:]]
    expect(f"audit: {what}", (1, b"", ["B02"], [True]), found)
    expect(f"audit: {what}: what it leaves", True, before == bytes_of(file))


ALL_VERSIONS = [1, 2, 3]


@pytest.mark.parametrize("what", DAMAGES)
@pytest.mark.parametrize("version", ALL_VERSIONS)
def test_a_damage_is_seen(version, what):
    """A change of example 49 over a book of the version."""
    script, beside, fault = DAMAGES[what]
    made("damaged.db", base(version), script, beside if version > 1 else "")
    if version == 3:
        audited_as_damaged(what, fault)
    else:
        audited(what, "damaged.db", 1, f"B04 version {version}\n")
    refusal(what, "damaged.db", "B02")


@pytest.mark.parametrize("what", SCHEMAS)
@pytest.mark.parametrize("version", ALL_VERSIONS)
def test_tables_that_are_those_of_no_version(version, what):
    made("damaged.db", base(version), SCHEMAS[what])
    audited_as_damaged(what, "")
    refusal(what, "damaged.db", "B02")


@pytest.mark.parametrize("what", TAXES)
@pytest.mark.parametrize("version", [2, 3])
def test_a_tax_that_is_damaged(version, what):
    made("damaged.db", base(version), TAXES[what])
    refusal(what, "damaged.db", "B02")


@pytest.mark.parametrize("version", ALL_VERSIONS)
def test_a_book_that_is_not_damaged(version):
    made("damaged.db", base(version))
    assert ended("damaged.db")[0] == 0


NUMBERS = [(version, number) for version in ALL_VERSIONS for number in (1, 2, 3, 4, 9, 0, -1) if number != version]


@pytest.mark.parametrize("version, number", NUMBERS)
def test_a_number_that_is_not_that_of_the_tables(version, number):
    """It is B04 where no version has it, and else B02."""
    made("other.db", base(version), f"UPDATE meta SET version = {number}")
    what, is_known = f"the tables of version {version} with the number {number}", number in ALL_VERSIONS
    refusal(what, "other.db", "B02" if is_known else "B04")
    if is_known:
        audited_as_damaged(what, "", "other.db")
    else:
        audited(what, "other.db", 1, f"B04 version {number}\n")


@pytest.mark.parametrize("version", ALL_VERSIONS)
def test_tables_with_no_number(version):
    made("other.db", base(version), "DELETE FROM meta")
    refusal(f"the tables of version {version} with no number", "other.db", "B02")


# ---- audits


def test_an_audit_of_a_file_that_is_no_book():
    """Files that are no book, and books as they are left. Nothing is made, and nothing is changed."""
    lacking = b"bsp_office: missing.db: B03 unable to open database file: No such file or directory (os error 2)\n"
    expect_end("audit: a file that is not there", (3, b"", lacking), [program.path(), "audit", "missing.db"])
    expect("audit: nothing is made", {}, bytes_of("missing.db"))
    pathlib.Path("empty.db").touch()
    audited("an empty file", "empty.db", 1, "B02\nthe file is empty\n")
    made("bare.db", "CREATE TABLE note (text TEXT); DROP TABLE note")
    audited("a database without tables", "bare.db", 1, "B02\nthe table meta is missing or another\n")
    made("note.db", "CREATE TABLE note (text TEXT)")
    audited("another database", "note.db", 1, 'B02\nthe table "note" is none of a book\n')
    pathlib.Path("text").write_text("no database\n" * 1000, encoding="utf-8")
    before = bytes_of("text")
    line = b"bsp_office: text: B03 file is not a database that obeys its schema\n"
    expect_end("audit: a text", (3, b"", line), [program.path(), "audit", "text"])
    expect("audit: a text: what it leaves", before, bytes_of("text"))


def test_an_audit_of_a_book():
    """While it is served, after a kill, with its log, without it, and by a link."""
    book = "OK version 3 day 2024-01-16 agents 2 items 2 memos 2 periods 1\n"
    served = opened("served.db")
    answers(served, requests(1))
    line = b"bsp_office: served.db: B03 database is locked\n"
    expect_end("audit: a held file", (3, b"", line), [program.path(), "audit", "served.db"])
    served.kill()
    expect("what was written last is in the log", True, os.path.getsize("served.db-wal") > 4096)
    audited("a book after a kill", "served.db", 0, book)
    made("alone.db")
    with contextlib.closing(sqlite3.connect("served.db")) as it, contextlib.closing(sqlite3.connect("alone.db")) as to:
        it.backup(to)
    audited("a backup", "alone.db", 0, book)
    os.symlink("alone.db", "link.db")
    expect_end("audit: a link", (0, book.encode(), b""), [program.path(), "audit", "link.db"])
    expect("audit: a link: no log is made", {"alone.db", "link.db"}, {*bytes_of("alone.db"), *bytes_of("link.db")})
    served = opened("first.db")
    served.kill()
    audited("a new book", "first.db", 0, "OK version 3 day 2000-01-01 agents 0 items 0 memos 0 periods 0\n")
