#!/usr/bin/env python3
"""Measures the office over a book in a file against one in memory: the requests of bench/desk, over HTTP on one connection,
their files of sales cut to what a body may have. Prints, for each request, the median of its microseconds over both, and
their ratio; what an opening of the file takes; and what the file adds to a sale, of a file of 5,000 sales and of one
alone, against twin.c, which has SQLite's own library write the same rows into the same book. For the last the sales are
sent one behind another to `run`, as twin.c runs its transactions: neither waits for a peer. It needs gcc, libsqlite3-dev and a disk whose syncs both can share.

With `taxed` the plan has a tax on commission.

usage: bench/store/run.py [taxed] [PROGRAM [ITEMS..]]     (by default the one that is built, 10,000 and 100,000 items)
"""
import contextlib
import http.client
import os
import pathlib
import shutil
import socket
import sqlite3
import statistics
import subprocess
import sys
import tempfile
import threading
import time

TOP = pathlib.Path(__file__).resolve().parents[2]
sys.dont_write_bytecode = True
sys.path.append(str(TOP / "bench" / "desk"))
import make_requests

IS_TAXED = sys.argv[1:2] == ["taxed"]
WORDS = sys.argv[1 + IS_TAXED:]
PROGRAM = os.path.abspath(WORDS[0]) if WORDS else f"{TOP}/crates/bsp_office/out/bsp_office"
SIZES = [int(it) for it in WORDS[1:]] or [10_000, 100_000]
# a body has at most 4 MiB, about 7,600 sales
MOST = 5_000
# of what the file adds to a sale
ROUNDS = 3


class Market(make_requests.Market):
    """The requests of bench/desk, with no file of more sales than a body may have."""

    def __init__(self, folder):
        super().__init__(folder, IS_TAXED)
        self.filled = []

    def post(self, name, path, token, file, sales):
        if name == "sales":
            self.filled += sales
        for at in range(0, len(sales), MOST):
            super().post(name, path, token, f"{file}-{at}", sales[at:at + MOST])


def free_port():
    with socket.socket() as it:
        it.bind(("127.0.0.1", 0))
        return it.getsockname()[1]


class Office:
    """The program as it serves, over a book in the file, or in memory where there is none."""

    def __init__(self, file=None):
        port, begun = free_port(), time.perf_counter()
        words = ["serve", "--port", str(port), "--token", make_requests.OFFICE, *(["--db", file] if file else [])]
        self.it = subprocess.Popen([PROGRAM, *words], stderr=subprocess.PIPE, text=True)
        if not any("listening" in line for line in self.it.stderr):
            sys.exit("the program does not listen")
        self.opening = time.perf_counter() - begun
        self.peer = http.client.HTTPConnection("127.0.0.1", port, timeout=600)

    def ask(self, method, path, token, body):
        """The status of the reply and its microseconds."""
        begun = time.perf_counter()
        self.peer.request(method, path, body or None, {"Bsp-Token": token})
        reply = self.peer.getresponse()
        reply.read()
        return reply.status, (time.perf_counter() - begun) * 1e6

    def most_memory(self):
        """The most megabytes that it has had."""
        text = pathlib.Path(f"/proc/{self.it.pid}/status").read_text()
        return int(text.split("VmHWM:")[1].split()[0]) / 1024

    def end(self):
        self.peer.close()
        self.it.kill()
        self.it.wait()


def make(items, folder):
    """Writes the requests, and gives them, with the sales of the fill and those that are posted one by one."""
    market = Market(folder)
    ones = market.ask_all(items)
    return [it.split("\t") for it in market.lines], market.filled, ones


def body_of(folder, body):
    """The bytes of a body, which may be those of a file."""
    return (folder / body[1:]).read_bytes() if body.startswith("@") else body.encode()


class Stream:
    """The program as it runs on standard input and output, over a book in the file, or in memory where there is none."""

    def __init__(self, file=None):
        words = ["run", "--token", make_requests.OFFICE, *(["--db", file] if file else [])]
        self.it = subprocess.Popen([PROGRAM, *words], stdin=subprocess.PIPE, stdout=subprocess.PIPE)

    def seconds(self, texts):
        """The seconds from the first of these requests to the reply to the last, none waiting for a reply."""
        def write():
            self.it.stdin.write(b"".join(texts))
            self.it.stdin.flush()

        writer, begun, replies, rest = threading.Thread(target=write), time.perf_counter(), 0, b""
        writer.start()
        while replies < len(texts):
            piece = os.read(self.it.stdout.fileno(), 1 << 20)
            if not piece:
                sys.exit("the program has ended")
            text = rest + piece
            replies += text.count(b"HTTP/1.1 ")
            rest = text[-8:]
        writer.join()
        return time.perf_counter() - begun

    def end(self):
        self.it.kill()
        self.it.wait()


def text_of(folder, method, path, token, body):
    """A request as it is sent."""
    data = body_of(folder, body)
    return f"{method} {path} HTTP/1.1\r\nHost: bsp\r\nBsp-Token: {token}\r\nContent-Length: {len(data)}\r\n\r\n".encode() + data


def sales_in(folder, lines, name, file=None):
    """The microseconds of the requests of this name, all of them sent one behind another, after those before the first."""
    first = next(at for at, it in enumerate(lines) if it[0] == name)
    stream = Stream(file)
    stream.seconds([text_of(folder, *it[1:]) for it in lines[:first]])
    took = stream.seconds([text_of(folder, *it[1:]) for it in lines if it[0] == name])
    stream.end()
    return took * 1e6


def served(folder, lines, file=None):
    """By name, the microseconds of the requests and the statuses of their replies; and the most memory."""
    office, times, statuses = Office(file), {}, []
    for name, method, path, token, body in lines:
        status, took = office.ask(method, path, token, body_of(folder, body))
        times.setdefault(name, []).append(took)
        statuses.append(status)
    memory = office.most_memory()
    office.end()
    return times, statuses, memory


def as_text(value):
    """A value as twin.c reads it."""
    return "n" if value is None else f"i{value}" if isinstance(value, int) else f"t{value}"


def line_of(kind, values):
    return "\t".join([kind, *map(as_text, values)]) + "\n"


def rows_of(book, sales):
    """The rows of the sales of one commit, and those of their tallies, each once. Both have a second row for the tax."""
    tallies, lines = {}, []
    for it in sales:
        for table in "item", "item_tax":
            row, = book.execute(f"SELECT * FROM {table} WHERE agent = ? AND number = ? AND canx = 0", (it.agent, str(it.number)))
            lines.append(line_of(table, row))
            if table == "item":
                tallies[row[0], row[3], row[6]] = None
    for key in tallies:
        for table in "tally", "tally_tax":
            row, = book.execute(f"SELECT * FROM {table} WHERE agent = ? AND airline = ? AND period = ?", key)
            lines.append(line_of(table, row))
    return "".join(lines) + "commit\n"


def twin_of(folder, commits, clear):
    """The microseconds of SQLite's own library for the rows of these sales, of each commit, in a copy of the book
    without them."""
    for end in "", "-wal":
        shutil.copy(folder / f"office.db{end}", folder / f"twin.db{end}")
    with contextlib.closing(sqlite3.connect(folder / "twin.db", isolation_level=None)) as book:
        (folder / "rows").write_text("".join(rows_of(book, it) for it in commits))
        book.execute("BEGIN")
        clear(book)
        book.execute("COMMIT")
    subprocess.run(["gcc", "-O2", "-o", folder / "twin", TOP / "bench/store/twin.c", "-lsqlite3"], check=True)
    ended = subprocess.run([folder / "twin", folder / "twin.db", folder / "rows"], check=True, capture_output=True)
    return [int(it) / 1000 for it in ended.stdout.split()]


def without(sales):
    """Takes these sales out of a book."""
    def clear(book):
        for it in sales:
            for table in "item", "item_tax":
                book.execute(f"DELETE FROM {table} WHERE agent = ? AND number = ?", (it.agent, str(it.number)))
    return clear


def without_any(book):
    """Takes all items and tallies out of a book."""
    for table in "item", "item_tax", "tally", "tally_tax":
        book.execute(f"DELETE FROM {table}")


def compared(folder, lines, name, count, commits, clear):
    """What the file adds to each of so many sales, and the same by SQLite's library: the middle of the rounds by their
    ratio, and the ratios."""
    rounds = []
    for at in range(ROUNDS):
        added = (sales_in(folder, lines, name, str(folder / f"{name}-{at}.db")) - sales_in(folder, lines, name)) / count
        twin = sum(twin_of(folder, commits, clear)) / count
        rounds.append((added / twin, added, twin))
    return statistics.median_low(rounds), [it[0] for it in rounds]


def measure(items, folder):
    lines, fill, ones = make(items, folder)
    file = str(folder / "office.db")
    memory, wanted, least = served(folder, lines)
    stored, found, most = served(folder, lines, file)
    if wanted != found:
        sys.exit("the statuses differ")
    print(f"\n{items:,} items\n\n| Request | Requests | In memory | In a file | Ratio |\n|---|---|---|---|---|")
    for name, times in memory.items():
        ours, theirs = statistics.median(stored[name]), statistics.median(times)
        print(f"| {name} | {len(times)} | {theirs:,.0f} | {ours:,.0f} | {ours / theirs:.2f} |")
    of_files = [fill[at:at + MOST] for at in range(0, len(fill), MOST)]
    for what, name, commits, clear in (
            ("a file of sales", "sales", of_files, without_any), ("a file of one sale", "one", [[it] for it in ones], without(ones))):
        (ratio, added, twin), rounds = compared(folder, lines, name, sum(map(len, commits)), commits, clear)
        print(f"\n{what}, one behind another: the file adds {added:,.1f} microseconds a sale, {ratio:.2f} times the")
        print(f"{twin:,.1f} of SQLite's library; the {ROUNDS} rounds: {', '.join(f'{it:.2f}' for it in rounds)}")
    waited = statistics.median(stored["one"]) - statistics.median(memory["one"])
    print(f"a sale whose reply a peer waits for: the file adds {waited:,.0f} microseconds")
    openings = []
    for _ in range(3):
        office = Office(file)
        openings.append(office.opening)
        peak = office.most_memory()
        office.end()
    sizes = [os.path.getsize(it) / 1e6 for it in (file, f"{file}-wal")]
    print(f"\nan opening: {min(openings):.2f} s, {peak:.0f} MB; the file {sizes[0]:.1f} MB, its log {sizes[1]:.1f} MB;")
    print(f"the most memory over all requests: {most:.0f} MB in a file, {least:.0f} MB in memory")


def main():
    for items in SIZES:
        with tempfile.TemporaryDirectory() as folder:
            measure(items, pathlib.Path(folder))


main()
