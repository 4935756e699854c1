"""samples/backup.sh copies a book while sales are posted one after another, 30 times. Each copy passes the audit, and has all sales
that were acknowledged before it began. Nothing but the copies is left in their folder, their files can be read by their user
alone, and the office goes on. A process that has not opened the book is not stopped, and a copy that does not pass the audit is
not kept. The test prints how long the copies took."""
import itertools
import os
import pathlib
import sqlite3
import stat
import statistics
import subprocess
import tempfile
import threading
import time

import books
import pytest

from support import program
from support.callers import A, TOKENS, of_agent, of_office
from support.compare import expect
from support.tree import SAMPLES

BACKUP = SAMPLES / "backup.sh"
COPIES = 30
# sales between two copies: the log is copied into the book, and begins anew, at about each second one
SALES = 80
FIRST = 1500000000


class Poster(threading.Thread):
    """Posts sales one after another until it is to end, and notes the last number that was acknowledged."""

    def __init__(self, it):
        super().__init__()
        self.office, self.acknowledged, self.is_ending, self.refused = it, FIRST - 1, False, []

    def run(self):
        for number in itertools.count(FIRST):
            if self.is_ending:
                return
            status, _, body = self.office.ask(*of_agent(A, "POST", "ret", books.sale_of(number)))
            if status != 200 or b"accepted" not in body:
                self.refused.append((number, status, body))
                return
            self.acknowledged = number
            time.sleep(0.003)

    def await_sales(self, last):
        """Waits until this number is acknowledged, or one was refused."""
        while self.acknowledged < last and not self.refused:
            time.sleep(0.01)


def copy(process, book, folder, auditor=None):
    """What samples/backup.sh ends with."""
    return subprocess.run(
        [BACKUP, str(process), book, folder, auditor or program.path()], capture_output=True, timeout=60, text=True
    )


def numbers_in(path):
    """The numbers that SQLite finds in a copy, of which it makes another one."""
    with tempfile.TemporaryDirectory() as own:
        for name in os.listdir(path):
            (pathlib.Path(own) / name).write_bytes((path / name).read_bytes())
        with sqlite3.connect(f"{own}/office.db") as book:
            return {int(number) for (number,) in book.execute("SELECT number FROM item")}


def try_copies(it, folder, poster):
    """Makes the copies, and compares each with what was acknowledged before it."""
    seconds, seen = [], set()
    for index in range(COPIES):
        acknowledged, begun = poster.acknowledged, time.monotonic()
        ended = copy(it.process.pid, "office.db", folder)
        seconds.append(time.monotonic() - begun)
        expect(f"copy {index}", (0, "", "OK"), (ended.returncode, ended.stderr, ended.stdout[:2]))
        new = set(os.listdir(folder)) - seen
        if not expect(f"copy {index}: folders", 1, len(new)):
            continue
        seen |= new
        path = pathlib.Path(folder) / new.pop()
        expect(f"copy {index}: files", {"office.db", "office.db-wal"}, set(os.listdir(path)))
        modes = {stat.S_IMODE(os.stat(file).st_mode) & 0o077 for file in (path, *path.iterdir())}
        expect(f"copy {index}: modes", {0}, modes)
        missing = set(range(FIRST, acknowledged + 1)) - numbers_in(path)
        expect(f"copy {index}: sales that are missing", set(), missing)
        poster.await_sales(acknowledged + SALES)
    return seconds


def try_refusals(it, folder):
    """No copy is made of another process, or kept where it does not pass the audit."""
    before = sorted(os.listdir(folder))
    ended = copy(os.getpid(), "office.db", folder)
    expect(
        "another process", (1, f"backup.sh: process {os.getpid()} has not opened office.db\n"), (ended.returncode, ended.stderr)
    )
    ended = copy(it.process.pid, "office.db", folder, "false")
    expect(
        "a copy that is refused",
        (1, "backup.sh: the copy of office.db does not pass the audit\n"),
        (ended.returncode, ended.stderr),
    )
    expect("the folder after it", before, sorted(os.listdir(folder)))
    expect("the office after it", 200, it.ask("GET", f"/agents/{A}/stock", TOKENS[A])[0])


@pytest.fixture
def served(office, monkeypatch):
    """An office over a book in a file, in which an agent has much stock. Of one airline and agent there are more sales than the
    sample's limit."""
    monkeypatch.setenv("LC_ALL", "C")
    it = office(book="office.db")
    for method, path, token, body in books.setting_up():
        body = body.replace(b"documents_limit = 1000", b"documents_limit = 100000") if path == "/office/plan" else body
        it.ask(method, path, token, body)
    stock = f'{{"agent":"{A}","first":"{FIRST}","last":"{FIRST + 99999}"}}'
    it.ask(*of_office("POST", "stock/allot", stock))
    return it


def test_copies_of_a_book_in_use(served):
    poster = Poster(served)
    poster.start()
    try:
        seconds = try_copies(served, "copies", poster)
    finally:
        poster.is_ending = True
        poster.join()
    expect("sales that were refused", [], poster.refused)
    try_refusals(served, "copies")
    sales = poster.acknowledged - FIRST + 1
    expect("enough sales", True, sales >= SALES * COPIES)
    print(f"{COPIES} copies while {sales} sales were posted; one took {statistics.median(seconds):.2f} seconds")
