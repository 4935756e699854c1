"""The program with some of the descriptors 0 to 2 closed, as a careless parent may start it: it serves, each of its responses is
whole, and no line of its log is in a response or in the file of its book. So it is with `run`. With a standard error that nobody
reads, or whose reader is gone, it goes on answering; what was left out is counted. No query of a target is written to the log. A
token file that others can read has a line of warning."""
import contextlib
import fcntl
import itertools
import os
import pathlib
import re
import socket
import subprocess
import tempfile
import time

import pytest

from support import program, wire
from support.callers import OFFICE
from support.compare import expect
from support.served import free_port

SECONDS = 10
# what is asked of an office with an empty book, and the replies
DAY = wire.message("POST", "/office/day", OFFICE, '{"day":"2024-01-05"}')
MALFORMED = wire.message("POST", "/office/day", OFFICE, '{"day":"x"}')
NO_ROUTE = wire.message("GET", "/x", "")
TALK = [
    (DAY, "200 OK", '{"result":"done"}'),
    (MALFORMED, "400 Bad Request", '{"code":"N04"}'),
    (NO_ROUTE, "404 Not Found", '{"code":"N02"}'),
    (DAY, "200 OK", '{"result":"held"}'),
]
# so many messages have more lines than a pipe holds
MANY = 20_000
QUERY = "token=officetoken00001"
# a line of --log of a target: whole, with the connection's number and some microseconds
LOGGED = re.compile(r"bsp_office: .*\bGET /x\b.*\n")


NONE = wire.response("404 Not Found", '{"code":"N02"}')


@contextlib.contextmanager
def started(*words, closed=(), **how):
    """The program as it serves on a free port, once something answers there. These descriptors are closed when it starts."""

    def close():
        for number in closed:
            os.close(number)

    port = free_port()
    all_words = [program.path(), "serve", "--port", str(port), "--log", *words]
    streams = {"stdin": subprocess.DEVNULL, "stdout": subprocess.DEVNULL, "stderr": subprocess.DEVNULL}
    it = subprocess.Popen(all_words, **{**streams, **how}, preexec_fn=close)
    try:
        it.port = port
        yield it
    finally:
        it.kill()
        it.wait(SECONDS)


def connected(it):
    """A connection to the program, as soon as it listens."""
    until = time.monotonic() + SECONDS
    while True:
        try:
            return socket.create_connection(("127.0.0.1", it.port), timeout=SECONDS)
        except ConnectionRefusedError:
            if it.poll() is not None or time.monotonic() > until:
                raise
            time.sleep(0.02)


def talk(it):
    """All that comes for the talk, up to the end."""
    with connected(it) as peer:
        peer.sendall(b"".join(sent for sent, *_ in TALK))
        peer.shutdown(socket.SHUT_WR)
        return wire.all_on(peer)


CLOSED = [closed for count in range(1, 4) for closed in itertools.combinations(range(3), count)]


@pytest.mark.parametrize("closed", CLOSED, ids=str)
def test_an_office_with_closed_descriptors(closed):
    """/dev/null is in their place, so that neither a socket nor the book is."""
    wanted = b"".join(wire.response(*rest) for _, *rest in TALK)
    try:
        with started("--token", OFFICE, "--db", "book.db", closed=closed) as it:
            expect("the responses", wanted, talk(it))
            places = {number: os.readlink(f"/proc/{it.pid}/fd/{number}") for number in closed}
            expect("descriptors", dict.fromkeys(closed, "/dev/null"), places)
    except OSError as fault:
        expect("it serves", None, fault)
    book_alone("book.db")


def book_alone(book):
    """The book is sound, and its files have neither a line of the log nor a response."""
    files = [pathlib.Path(book + end) for end in ("", "-wal")]
    kept = b"".join(path.read_bytes() for path in files if path.exists())
    expect("what is not in the book", [], [text for text in (b"bsp_office:", b"GET /x", b"HTTP/1.1") if text in kept])
    audited = subprocess.run([program.path(), "audit", book], capture_output=True, text=True, timeout=SECONDS)
    expect("the book", (0, "OK"), (audited.returncode, audited.stdout[:2]))


@pytest.mark.parametrize("closed", CLOSED, ids=str)
def test_run_with_closed_descriptors(closed):
    """It ends with status 3 where standard input or standard output is closed."""
    sent, wanted = b"".join(it[0] for it in TALK), b"".join(wire.response(*rest) for _, *rest in TALK)
    words = ["run", "--token", OFFICE, "--db", "run.db"]
    ended = program.run(*words, text=sent, timeout=SECONDS, preexec_fn=lambda: [os.close(number) for number in closed])
    status, output = (3, b"") if {0, 1} & set(closed) else (0, wanted)
    expect("the end", (status, output), ended[:2])
    book_alone("run.db")


def asks_many(it):
    """How many of many messages on one connection are answered right."""
    with connected(it) as peer:
        peer.settimeout(2)
        found = b""
        try:
            for _ in range(MANY // 100):
                peer.sendall(NO_ROUTE * 100)
                until = len(found) + 100 * len(NONE)
                while len(found) < until and (piece := peer.recv(65536)):
                    found += piece
        except OSError:
            pass
    return found.count(NONE)


def all_of(reader):
    """What comes from the pipe, whose writers are gone or write no more."""
    found = b""
    os.set_blocking(reader, False)
    with contextlib.suppress(BlockingIOError):
        while piece := os.read(reader, 65536):
            found += piece
    return found.decode()


@pytest.mark.alone
def test_a_log_that_nobody_reads():
    """Standard error is a pipe that nobody reads: lines are left out whole, and are counted in a later line."""
    reader, writer = os.pipe()
    fcntl.fcntl(writer, fcntl.F_SETPIPE_SZ, 4096)
    with started("--token", OFFICE, "--connections", "3", stderr=writer) as it:
        os.close(writer)
        expect("a log that nobody reads: answered", MANY, asks_many(it))
        with connected(it) as peer:
            if not expect("a log that nobody reads: another client", NONE, wire.asks(peer, NO_ROUTE)):
                return
        said = all_of(reader)
        with connected(it) as peer:
            expect("a log that nobody reads: a third", NONE, wire.asks(peer, NO_ROUTE))
        expect("a log that nobody reads: its end", 0, it.wait(SECONDS))
        said += all_of(reader)
    os.close(reader)
    lines = said.splitlines(keepends=True)
    whole = [line for line in lines if LOGGED.fullmatch(line)]
    others = [line for line in lines if line not in whole]
    left_out = MANY + 2 - len(whole)
    print(f"a log that nobody reads: {len(whole):,} lines came, {left_out:,} did not; the others are {others}", flush=True)
    expect("a log that nobody reads: lines are left out", True, left_out > 0)
    expect(
        "a log that nobody reads: each line is whole", [], [line for line in others if not re.fullmatch("bsp_office: .*\n", line)]
    )
    numbers = [int(word.replace(",", "")) for line in others for word in re.findall(r"\d[\d,]*", line)]
    expect(f"a log that nobody reads: {left_out} are counted", True, left_out in numbers)


def test_a_log_whose_reader_is_gone():
    """Standard error is a pipe whose reader is gone."""
    reader, writer = os.pipe()
    with started("--token", OFFICE, stderr=writer) as it:
        os.close(writer)
        with connected(it) as peer:
            expect("a log whose reader is there", NONE, wire.asks(peer, NO_ROUTE))
            os.close(reader)
            for _ in range(20):
                if not expect("a log whose reader is gone", NONE, wire.asks(peer, NO_ROUTE)):
                    break
        expect("a log whose reader is gone: it goes on", None, it.poll())


def test_no_query_is_in_the_log():
    """No query is in the log, of a route or of another target; the path is."""
    with tempfile.TemporaryFile() as log:
        targets = [
            f"/x?{QUERY}",
            f"/office/settlement/24011?{QUERY}",
            f"/x?{QUERY}?{QUERY}",
            f"/?{QUERY}",
            f"http://bsp/x?{QUERY}",
        ]
        with started("--token", OFFICE, stderr=log) as it:
            for target in targets:
                with connected(it) as peer:
                    expect(f"{target}: the reply", NONE, wire.asks(peer, wire.message("GET", target, "")))
        log.seek(0)
        said = log.read().decode()
    expect("queries: none is in the log", False, "token" in said or OFFICE in said)
    expect("queries: the paths are", True, len(LOGGED.findall(said)) >= 2 and " /office/settlement/24011" in said)


@pytest.mark.parametrize("mode", [0o600, 0o400, 0o640, 0o644, 0o604, 0o666], ids=oct)
def test_a_token_file(mode):
    """One that the group or others can read has one line more, with its name; another has none."""
    path = pathlib.Path(f"token{mode:o}")
    path.write_text(f"{OFFICE}\n", encoding="utf-8")
    path.chmod(mode)
    with tempfile.TemporaryFile() as log:
        with started("--token-file", str(path), stderr=log) as it:
            expect("it serves", 4, talk(it).count(b"HTTP/1.1 "))
        log.seek(0)
        said = log.read().decode()
    lines = [line for line in said.splitlines() if path.name in line]
    expect("lines of warning", int(bool(mode & 0o077)), len(lines))
    expect("its token is not said", False, OFFICE in said)
