"""Files, standard input and output, sockets and peers that give or take little at a time, are interrupted or fail, by the shim
steps.c in front of the C library: what the program prints, its status and how far it reads. The longest input takes 1.1 GB."""
import contextlib
import os
import pathlib
import socket
import struct
import subprocess

import pytest

from support import program, shims, wire
from support.callers import OFFICE
from support.compare import expect
from support.served import Office
from support.tree import sample
from support.wire import FORBIDDEN

SALE = b"000001 TKTT 12345675 125-1300000001-6 2024-01-05 235.00\nrecords 5 transactions 1 sum 235.00\n"
NO_DOCUMENTS = b"OK records 4 documents 0 net 0.00\n"
ASKED = wire.message("GET", "/agents/12345675/stock", "x")
MOST = 1_073_741_824

# the command, what its reads do, and the status, the output and the number of bytes read that are wanted
READS = [
    ("check", "1 200 136", 0, SALE, 685),
    ("check", "137 interrupted", 0, SALE, 685),
    ("check", "interrupted interrupted", 0, SALE, 685),
    ("check", "1 " * 685 + "0", 0, SALE, 685),
    ("check", "fails", 3, b"", 0),
    ("check", "137 fails", 3, b"", 137),
    ("check", "685 fails", 3, b"", 685),
    ("check", "137 0", 1, b"F08 record 2\n", 137),
    ("hotcheck", "1 interrupted 200", 0, NO_DOCUMENTS, 548),
    ("hotcheck", "1 " * 548 + "0", 0, NO_DOCUMENTS, 548),
    ("hotcheck", "fails", 3, b"", 0),
    ("hotcheck", "411 fails", 3, b"", 411),
    ("hotcheck", "548 fails", 3, b"", 548),
    ("hotcheck", "137 0", 1, b"H04 record 2\n", 137),
]

# the command, what its writes do, and the status and the number of the report's first bytes that are wanted
WRITES = [
    ("check", "1 10 interrupted", 0, 92),
    ("check", "1 " * 91 + "1", 0, 92),
    ("check", "fails", 3, 0),
    ("check", "0", 3, 0),
    ("check", "10 fails", 3, 10),
    ("check", "10 0", 3, 10),
    ("check", "91 fails", 3, 91),
    ("hotcheck", "interrupted 10", 0, 34),
    ("hotcheck", "fails", 3, 0),
    ("hotcheck", "10 0", 3, 10),
    ("hotcheck", "33 fails", 3, 33),
]

# what the reads or writes of `run` do, and the status and the reply that are wanted
RUNS = [
    ("read 0 1 10", 0, FORBIDDEN),
    ("read 0 " + "1 " * 64 + "0", 0, FORBIDDEN),
    ("read 0 fails", 3, b""),
    ("read 0 63 fails", 3, b""),
    ("read 0 64 fails", 3, FORBIDDEN),
    ("write 1 1 10", 0, FORBIDDEN),
    ("write 1 " + "1 " * 91 + "1", 0, FORBIDDEN),
    ("write 1 fails", 3, b""),
    ("write 1 10 fails", 3, FORBIDDEN[:10]),
    ("write 1 10 0", 3, FORBIDDEN[:10]),
]

# peers that wait behind an idle one: how many connections the office serves, and what each peer sends and receives
CLOSED, RESET = "it is gone, and has closed", "it is gone, and has reset"
PEERS = [
    ("peers in turn", 4, [(ASKED, FORBIDDEN), (ASKED[:20], b""), (ASKED, FORBIDDEN)]),
    ("a peer that has closed", 3, [(ASKED, CLOSED), (ASKED, FORBIDDEN)]),
    ("a peer that has reset", 3, [(ASKED, RESET), (ASKED, FORBIDDEN)]),
    ("more peers than connections", 2, [(ASKED, FORBIDDEN), (ASKED, b"")]),
]
# how many connections `serve` serves, as it is told
CONNECTIONS = "1", "02", "1000"
# the descriptor of the listener
LISTENER = 3
INPUTS = {"check": "v1.ret", "hotcheck": "v3.hot"}
CUT = {
    "check": "record 2: the file ends without a trailer: write `Z0000002000000000000000000000{`, and 106 spaces up to 136 characters",
    "hotcheck": "record 2: the file ends before its last record BFT99: after BFH01 comes BCH02: fetch the file again; if it stays so, ask the office",
}
PASSED = {"check": "", "hotcheck": "airline 220, period 24012"}
REPORTS = {"check": SALE, "hotcheck": NO_DOCUMENTS}


def passed(command, file):
    """What standard error says of a file that passes."""
    place = "standard input" if file == "-" else file
    return f"bsp_office: {place}: {PASSED[command]}\n" if PASSED[command] else ""


@contextlib.contextmanager
def stepped(steps, log="log"):
    """The programs that begin meanwhile have these steps. The file has their log."""
    pathlib.Path(log).unlink(missing_ok=True)
    names = shims.stepping(steps, log)
    os.environ.update(names)
    try:
        yield
    finally:
        for name in names:
            del os.environ[name]


def run(steps, words, text="/dev/null"):
    """The status, the output and the error text, and how far standard input, which is this file, was read."""
    with open(text, "rb") as it, stepped(steps):
        ended = subprocess.run([program.path(), *words], stdin=it, capture_output=True, timeout=300)
        return ended.returncode, ended.stdout, ended.stderr.decode(), os.lseek(it.fileno(), 0, os.SEEK_CUR)


def made_calls(what, steps):
    """All steps were made, and no call behind one that fails or moves no byte."""
    calls, wanted = shims.logged()[0], len(steps.split()) - 2
    ends = steps.endswith(("fails", " 0"))
    expect(f"{what}: calls", wanted if ends else max(calls, wanted), calls)


@pytest.fixture(autouse=True)
def devices():
    """The shim, and the two files that are read."""
    shims.built("steps")
    pathlib.Path("v1.ret").write_bytes(sample("sale.ret"))
    pathlib.Path("v3.hot").write_bytes(sample("no-documents.hot"))


@pytest.mark.parametrize("command, steps, status, output, length", READS, ids=[f"{it[0]}, {it[1][:40]}" for it in READS])
def test_reads(command, steps, status, output, length):
    for file, descriptor in (INPUTS[command], 3), ("-", 0):
        what, all_steps = f"{command} {file}, reads {steps[:40]}", f"read {descriptor} {steps}"
        found = run(all_steps, [command, file], INPUTS[command])
        place = "standard input" if file == "-" else file
        text = {
            0: passed(command, file),
            1: f"bsp_office: {place}: {CUT[command]}\n",
            3: f"bsp_office: {place}: a read failed\n",
        }[status]
        expect(what, (status, output, text, length if file == "-" else 0), found)
        expect(f"{what}: bytes read", length, shims.logged()[1])
        made_calls(what, all_steps)


@pytest.mark.parametrize("command, steps, status, length", WRITES, ids=[f"{it[0]}, {it[1][:40]}" for it in WRITES])
def test_writes(command, steps, status, length):
    for file in INPUTS[command], "-":
        what, all_steps = f"{command} {file}, writes {steps[:40]}", f"write 1 {steps}"
        found = run(all_steps, [command, file], INPUTS[command])
        text = "bsp_office: standard output: a write failed\n" if status == 3 else passed(command, file)
        whole = pathlib.Path(INPUTS[command]).stat().st_size if file == "-" else 0
        expect(what, (status, REPORTS[command][:length], text, whole), found)
        made_calls(what, all_steps)


def many():
    """A RET file that takes several reads: 300 sales, and the report on it."""
    lines = sample("sale.ret").decode().splitlines()
    middle = [f"{it[0]}{number:06}{it[7:]}" for number in range(1, 301) for it in lines[1:4]]
    text = "\n".join([lines[0], *middle, f"Z{902:07}{300:07}{705000:014}{{".ljust(136)])
    report = [f"{number:06} TKTT 12345675 125-1300000001-6 2024-01-05 235.00\n" for number in range(1, 301)]
    return text.encode() + b"\n", "".join(report).encode() + b"records 902 transactions 300 sum 70500.00\n"


def each_in_turn(words, text, function, report):
    """Each call of the function in turn moves one byte, is interrupted, or fails."""
    name = f"{' '.join(words)}, {text}, {function}"
    expect(name, (0, report, passed(*words)), run(function, words, text)[:3])
    calls, _ = shims.logged()
    expect(f"{name}: at least one call", True, calls > 0)
    for number in range(calls):
        for kind in "1", "interrupted", "fails":
            steps = f"{function} " + "65536 " * number + kind
            status, output, _, _ = run(steps, words, text)
            what = f"{name}: call {number + 1} {kind}"
            expect(f"{what}: status", 3 if kind == "fails" else 0, status)
            part = b"" if function.startswith("read") else report[: shims.logged()[1]]
            expect(f"{what}: output", part if kind == "fails" else report, output)
            if kind == "fails":
                made_calls(what, steps)


@pytest.mark.parametrize("function", ["read 3", "read 0", "write 1"])
@pytest.mark.parametrize("file", ["v1.ret", "v3.hot", "many.ret"])
def test_each_call_in_turn(file, function):
    text, report = many()
    pathlib.Path("many.ret").write_bytes(text)
    command = "hotcheck" if file == "v3.hot" else "check"
    reports = {"v1.ret": SALE, "v3.hot": NO_DOCUMENTS, "many.ret": report}
    each_in_turn([command, "-" if function == "read 0" else file], file, function, reports[file])


@pytest.mark.parametrize("command", INPUTS)
def test_a_longer_input_than_the_most(command):
    """One byte more than the limit is read, and nothing is printed."""
    with open("long", "wb") as it:
        it.truncate(MOST + 11)
    text = f"bsp_office: standard input: longer than {MOST:,} bytes\n"
    assert run("read 0", [command, "-"], "long") == (3, b"", text, MOST + 1)


@pytest.mark.parametrize("steps, status, reply", RUNS, ids=[it[0][:40] for it in RUNS])
def test_run(steps, status, reply):
    pathlib.Path("asked").write_bytes(ASKED)
    found = run(steps, ["run", "--token", OFFICE], "asked")
    expect("the end", (status, reply, ""), found[:3])
    made_calls("run", steps)


def peer(port, sent):
    """A peer that sends these bytes and no more."""
    it = wire.connected(port)
    it.sendall(sent)
    it.shutdown(socket.SHUT_WR)
    return it


def received(it):
    """What the peer receives to its end."""
    with it:
        return wire.all_on(it)


def leave(it, by):
    """The peer is gone: it closes its connection, or resets it."""
    if by == RESET:
        it.setsockopt(socket.SOL_SOCKET, socket.SO_LINGER, struct.pack("ii", 1, 0))
    it.close()


@pytest.mark.parametrize("connections, waiting", [it[1:] for it in PEERS], ids=[it[0] for it in PEERS])
def test_peers_that_wait(connections, waiting):
    it = Office("--connections", connections, seconds=30)
    with wire.connected(it.port):
        asking = [peer(it.port, sent) for sent, _ in waiting]
        for one, (_, reply) in zip(asking, waiting):
            if reply in (CLOSED, RESET):
                leave(one, reply)
    for number, (one, (_, reply)) in enumerate(zip(asking, waiting)):
        if reply not in (CLOSED, RESET):
            expect(f"peer {number + 1}", reply, received(one))
    status, text = it.ended()
    lines = [line for line in text.splitlines() if not line.startswith("bsp_office: connection ")]
    expect("the end", (0, [f"bsp_office: {connections} connection{'s' * (connections != 1)} served"]), (status, lines))


@pytest.mark.parametrize("how", ["fails", "interrupted"])
def test_accepting_is_tried_again(how):
    """The second connection cannot be accepted, or accepting is interrupted."""
    steps = f"accept4 {LISTENER} 1 {how}"
    with stepped(steps):
        it = Office("--connections", 2, seconds=30)
    for number in "first", "second":
        expect(f"the {number}", FORBIDDEN, received(peer(it.port, ASKED)))
    expect("the end", (0, "bsp_office: 2 connections served\n"), it.ended())
    expect("tried again", True, shims.logged()[0] > len(steps.split()) - 2)


@pytest.mark.parametrize("port", ["1", "8080", "65535"])
def test_the_port_of_the_words_is_bound(port):
    found = run(f"bind {LISTENER} fails", ["serve", "--port", port, "--token", OFFICE])
    assert found == (3, b"", f"bsp_office: port {port}: Input/output error (os error 5)\n", 0)


@pytest.mark.parametrize("count", CONNECTIONS)
def test_the_office_ends_after_so_many_connections(count):
    it = Office("--connections", count, seconds=30)
    for _ in range(int(count)):
        expect("a peer that sends nothing", b"", received(peer(it.port, b"")))
    served = f"{int(count)} connection{'s' * (int(count) != 1)} served"
    expect("the end", (0, f"bsp_office: {served}\n"), it.ended())
