#!/usr/bin/env python3
"""Measures the office with many peers. A fresh client asks on a new connection each time, of an office that it has alone and of
one beside 1,000 idle peers, 20 that send a byte each 5 seconds, and 5 that never read: medians and 99 of 100, in turn, by
`curl` too. Then one connection and 64 send the same messages, each connection 16 before their responses are read. Then an
office at rest with 5,000 connections: its processor time, and its memory for each.

usage: bench/peers/run.py [PROGRAM]
"""
import os
import pathlib
import resource
import socket
import statistics
import subprocess
import sys
import tempfile
import time

TOP = pathlib.Path(__file__).resolve().parents[2]
sys.path.insert(0, str(TOP / "tests"))
sys.argv[1:] = sys.argv[1:] or [str(TOP / "crates/bsp_office/out/bsp_office")]
from support import program, wire  # noqa: E402
from support.callers import AGENT_TOKEN as AGENT, OFFICE  # noqa: E402
from support.served import Office  # noqa: E402
from support.tree import sample  # noqa: E402

program.choose(sys.argv[1])
NONE = wire.message("GET", "/x", "x")
STOCK = wire.message("GET", "/agents/12345675/stock", AGENT)
DRIP = wire.message("POST", "/office/day", OFFICE, '{"day":"2024-01-05"}')
IDLE, DRIPPING, NEVER_READING, RANGES = 1_000, 20, 5, 3_000
TIMES, CURLS, RESTING, SECONDS = 2_000, 200, 5_000, 10
MESSAGES, DEPTH, MANY = 12_800, 16, 64


def serving(*words):
    return Office("--peers", "10000", "--timeout", "600", "--idle", "0", *words, seconds=60)


def connected(port):
    return socket.create_connection(("127.0.0.1", port), timeout=60)


def fresh(port):
    """Microseconds of a request on a connection of its own."""
    begun = time.perf_counter()
    with connected(port) as peer:
        peer.sendall(NONE)
        wire.reply_on(peer)
    return (time.perf_counter() - begun) * 1e6


def curl(port):
    """Microseconds of a request by curl, without the time that curl takes to begin."""
    words = ["curl", "-s", "-o", os.devnull, "-w", "%{time_total}", f"http://127.0.0.1:{port}/x"]
    return float(subprocess.run(words, check=True, capture_output=True, text=True).stdout) * 1e6


def stock(port):
    """An agent with a stock of many ranges, whose text is a long response."""
    asked = [("plan", sample("plan.toml")), ("day", '{"day":"2024-01-05"}'),
             ("agents", '{"agent":"12345675","token":"%s"}' % AGENT)]
    asked += [("stock/allot", '{"agent":"12345675","first":"%d","last":"%d"}' % (first, first + 8))
              for first in range(1_300_000_000, 1_300_000_000 + 10 * RANGES, 10)]
    with connected(port) as peer:
        for path, body in asked:
            peer.sendall(wire.message("POST", f"/office/{path}", OFFICE, body))
            wire.reply_on(peer)


def one_in(part, times):
    return sorted(times)[int(len(times) * part)]


def beside():
    with serving() as alone, serving() as busy:
        stock(busy.port)
        never = [connected(busy.port) for _ in range(NEVER_READING)]
        for peer in never:
            peer.setblocking(False)
            try:
                while peer.send(STOCK * 10):
                    pass
            except BlockingIOError:
                pass
        idle = [connected(busy.port) for _ in range(IDLE)]
        dripping, at, last = [connected(busy.port) for _ in range(DRIPPING)], 0, 0
        for ask, count in (fresh, TIMES), (curl, CURLS):
            times = []
            for _ in range(count):
                if at < len(DRIP) - 1 and time.monotonic() > last + 5:
                    last = time.monotonic()
                    for peer in dripping:
                        peer.sendall(DRIP[at:at + 1])
                    at += 1
                times.append((ask(alone.port), ask(busy.port)))
            for name, pick in ("median", statistics.median), ("99 of 100", lambda it: one_in(0.99, it)):
                one, other = (pick(it) for it in zip(*times))
                print(f"{ask.__name__}, {name}: {one:.0f} microseconds alone, {other:.0f} beside the crowd, ratio {other / one:.2f}", flush=True)
        for peer in (*never, *idle, *dripping):
            peer.close()


def at_once():
    """The messages of one connection, and of many at once."""
    subprocess.run(["rustc", "-O", "-o", "many", str(TOP / "bench/peers/many.rs")], check=True)
    with serving() as it:
        for count in 1, MANY:
            words = ["./many", *map(str, (it.port, MESSAGES, DEPTH, count))]
            said = subprocess.run(words, check=True, capture_output=True, text=True).stdout
            print(f"{count} connections, {DEPTH} messages at once on each: {said.strip()} nanoseconds a message", flush=True)


def used(pid):
    """The processor seconds and the kilobytes in memory of a process."""
    fields = pathlib.Path(f"/proc/{pid}/stat").read_text().rsplit(")", 1)[1].split()
    size = [line for line in pathlib.Path(f"/proc/{pid}/status").read_text().splitlines() if line.startswith("VmRSS")]
    return (int(fields[11]) + int(fields[12])) / os.sysconf("SC_CLK_TCK"), int(size[0].split()[1])


def resting():
    resource.setrlimit(resource.RLIMIT_NOFILE, (resource.getrlimit(resource.RLIMIT_NOFILE)[1],) * 2)
    with serving() as it:
        fresh(it.port)
        _, before = used(it.process.pid)
        peers = [connected(it.port) for _ in range(RESTING)]
        for peer in peers[::2]:
            peer.sendall(NONE)
            wire.reply_on(peer)
        time.sleep(1)
        first, _ = used(it.process.pid)
        time.sleep(SECONDS)
        last, after = used(it.process.pid)
        print(f"{RESTING:,} connections at rest: {last - first:.2f} processor seconds in {SECONDS},"
              f" {(after - before) * 1024 / RESTING:,.0f} bytes of memory for each", flush=True)
        for peer in peers:
            peer.close()


def main():
    with tempfile.TemporaryDirectory() as folder:
        os.chdir(folder)
        beside()
        at_once()
        resting()
        os.chdir(TOP)


main()
