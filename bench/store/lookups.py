#!/usr/bin/env python3
"""Measures look-ups by key where one agent has all items: GET of a document of its, and of its stock of four ranges, from an
office in memory or, with `file`, over a book in a file. The agent posts its sales in files. Then ROUNDS rounds send each
request a few hundred times on one connection, none waiting for a reply. Prints the microseconds of the best round for one
request, with the part of the connection in them, the growth from the first number of items to the last, and what a sale of
the fill took. A request with no route shows the part of the connection alone.

usage: bench/store/lookups.py [file] [PROGRAM [ITEMS..]]     (by default the one that is built, 100,000 and 1,000,000 items)
"""
import os
import pathlib
import socket
import sys
import tempfile
import time

TOP = pathlib.Path(__file__).resolve().parents[2]
sys.dont_write_bytecode = True
sys.path += [str(TOP / "bench" / "desk"), str(TOP / "tests")]
import make_requests
from make_requests import LARGE, OFFICE, PLAN, Sale, agent_code, agent_token
from support import program
from support.served import Office

IS_IN_FILE = sys.argv[1:2] == ["file"]
WORDS = sys.argv[1 + IS_IN_FILE:]
program.choose(WORDS[0] if WORDS else program.BUILT)
SIZES = [int(it) for it in WORDS[1:]] or [100_000, 1_000_000]
AGENT, AIRLINES, RANGES, ROUNDS, SENT = 7, 50, 4, 7, 400
# of each range, so that no block of numbers begins or ends with it
WIDTH, FIRST = 300_000, 1_234_567_891
# a body has at most 4 MiB
MOST = 5_000


def number(n):
    """The number of the sale of this place: the ranges take turns."""
    return FIRST + n % RANGES * WIDTH * 3 + n // RANGES


class Market(make_requests.Market):
    """Files of sales of the agent, each written over the last."""

    def file(self, first, count):
        airlines = range(LARGE, LARGE + AIRLINES)
        sales = [Sale(AGENT, number(n), airlines[n % AIRLINES], "240105", fare=20_000 + n % 977) for n in range(first, first + count)]
        self.post("sales", "", "", "file", sales)
        return (self.folder / "file").read_bytes()


def expect(office, path, body):
    status, _, text = office.ask("POST", path, OFFICE if path.startswith("/office") else agent_token(AGENT), body)
    if status != 200:
        sys.exit(f"{path}: {status} {text[:200]}")
    return text


def fill(office, market, items):
    """The microseconds that a sale took."""
    airlines = range(LARGE, LARGE + AIRLINES)
    plan = PLAN.replace("documents_limit = 300", f"documents_limit = {items}")
    expect(office, "/office/plan", plan % (", ".join(f'"{code}"' for code in airlines), "\n".join(make_requests.RATE % code for code in airlines)))
    expect(office, "/office/day", '{"day":"2024-01-10"}')
    expect(office, "/office/agents", f'{{"agent":"{agent_code(AGENT)}","token":"{agent_token(AGENT)}"}}')
    for code in airlines:
        expect(office, "/office/airlines", f'{{"airline":"{code}","token":"airlinetoken{code:04d}"}}')
    for place in range(RANGES):
        first = number(place)
        expect(office, "/office/stock/allot", f'{{"agent":"{agent_code(AGENT)}","first":"{first}","last":"{first + WIDTH - 1}"}}')
    spent = 0
    for first in range(0, items, MOST):
        body = market.file(first, min(MOST, items - first))
        begun = time.perf_counter()
        text = expect(office, f"/agents/{agent_code(AGENT)}/ret", body)
        spent += time.perf_counter() - begun
        if b"refused" in text:
            sys.exit(f"a sale is refused: {text[:300]}")
    return spent / items * 1e6


def best(port, requests, status):
    """The microseconds of a request, in the best round."""
    text, found = b"".join(requests), []
    for _ in range(ROUNDS):
        with socket.create_connection(("127.0.0.1", port)) as peer:
            begun, replies, rest = time.perf_counter(), 0, b""
            peer.sendall(text)
            while replies < len(requests):
                piece = peer.recv(1 << 20)
                if not piece:
                    sys.exit("the office has closed the connection")
                rest += piece
                replies += rest.count(b"HTTP/1.1 " + status)
                rest = rest[-11:]
            found.append((time.perf_counter() - begun) / len(requests) * 1e6)
    return min(found)


def get(path):
    return f"GET {path} HTTP/1.1\r\nHost: bsp\r\nBsp-Token: {agent_token(AGENT)}\r\n\r\n".encode()


def measured(items, folder):
    """What a request takes, by its name."""
    words = ["--db", str(folder / f"book{items}")] if IS_IN_FILE else []
    (folder / "token").write_text(OFFICE + "\n")
    os.chmod(folder / "token", 0o600)
    with Office(*words, token_file=folder / "token", seconds=600) as office:
        found = {"a sale of the fill": fill(office, Market(folder), items)}
        own = f"/agents/{agent_code(AGENT)}"
        numbers = [number(n * 7919 % items) for n in range(SENT)]
        found["no route"] = best(office.port, [get("/none")] * SENT, b"404")
        found["document"] = best(office.port, [get(f"{own}/documents/{it}") for it in numbers], b"200")
        found["stock"] = best(office.port, [get(f"{own}/stock")] * SENT, b"200")
        # the connection has been idle
        office.close()
        shown = office.ask("GET", f"{own}/stock", agent_token(AGENT))[2]
        if shown.count(f'"used":{items // RANGES}'.encode()) != RANGES:
            sys.exit(f"the stock shows other counts: {shown}")
        return found


def main():
    with tempfile.TemporaryDirectory() as name:
        found = [measured(items, pathlib.Path(name)) for items in SIZES]
    for what in found[0]:
        times = [it[what] for it in found]
        print(f"{what}: {', '.join(f'{it:.1f}' for it in times)} microseconds at {', '.join(map(str, SIZES))} items, growth {times[-1] / times[0]:.2f}")


if __name__ == "__main__":
    main()
