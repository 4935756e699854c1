#!/usr/bin/env python3
"""Gives the built program random and mutated bytes: RET and HOT files, plan texts, JSON bodies and HTTP messages.

`check` and `hotcheck` end with status 0 or 1 and a report in its form. Two offices, one with its book in memory and one with
it in a file, are sent the same requests and the same bytes of connections. All have limits of time and of memory. Their
replies are equal, each has a status of docs/API.md, and none is 503. What is refused, held or shown leaves the same to
be shown. A change that was done is held when it is sent again, and so is a transaction that was accepted. In the end the
office with the file is killed; started again, it shows what the other one shows.

The line at the end has the numbers of what was tried. A difference is printed with what was sent; the same seed sends
the same again, as long as the time lasts.

usage: tests/http/fuzz.py PROGRAM [SECONDS [SEED]]     (by default 10 seconds, and the seed 1)
       .ci/fuzz [SECONDS [SEED]]                       (the program that is built)
"""
import collections
import http.client
import json
import os
import pathlib
import random
import re
import resource
import socket
import subprocess
import sys
import tempfile
import time

sys.path.insert(0, str(pathlib.Path(__file__).resolve().parents[1]))
from support import compare, program
from support.callers import OFFICE
from support.compare import expect
from support.records import zoned
from support.served import Office
from support.tree import TOP, example_file, sample

program.choose(sys.argv[1])
SECONDS = float(sys.argv[2]) if len(sys.argv) > 2 else 10
RANDOM = random.Random(int(sys.argv[3]) if len(sys.argv) > 3 else 1)
TRIED = collections.Counter()

FIRST_AGENTS = {"12345675": "agenttoken000001", "76543213": "agenttoken000002"}
FIRST_AIRLINES = {"125": "airlinetoken0125", "220": "airlinetoken0220"}
# the tokens that they have now
AGENTS, AIRLINES = dict(FIRST_AGENTS), dict(FIRST_AIRLINES)
# the first two digits of an agent's numbers, and an airline's rate in hundredths of a percent
STOCK = {"12345675": 13, "76543213": 14}
RATES = {"125": 500, "220": 0}
PERIODS = ["24011", "24012", "24021"]
NUMBERS = [first + at for first in (1300000000, 1400000000) for at in range(7)]
# by agent and airline, the numbers of tickets of 235.00 that were put into some file of this market
SOLD = collections.defaultdict(set)
MEMOS = [f"600000000{at}" for at in range(4)]
STATUSES = {200, 400, 403, 404, 405, 409, 422}
# of one market
TRIES = 60
# a refused allocation of 1 GiB ends as want of memory: no input below has a reason for as much
MEMORY = 1 << 30

RET = [sample(f"{name}.ret") for name in ("sale", "card-sale", "exchange", "exchange-of-two", "refund-and-sale", "six-tickets")]
HOT = [sample(f"{name}.hot") for name in ("no-documents", "two-agents", "commission-tax")]
HOT.append(example_file("125-taxed-kinds.hot"))
# without a tax on commission, with one from the second period on, and with one from the first business day on
PLAN, TAXED = sample("plan.toml"), sample("commission-tax.toml")
PLANS = [PLAN, TAXED, TAXED.replace(b'from = "2024-01-16"', b'from = "2024-01-05"')]
TERMS = PLAN[: PLAN.index(b"airline")]

CHECKED = re.compile(
    rb"(\d{6} (TKTT|RFND|CANX) \d{8} \d{3}-\d{10}-\d \d{4}-\d\d-\d\d -?\d+\.\d\d\n)*"
    rb"records \d+ transactions \d+ sum -?\d+\.\d\d\n"
)
REPORTS = {
    ("check", 0): CHECKED,
    ("check", 1): re.compile(rb"F0[1-9] record \d+\n"),
    ("hotcheck", 0): re.compile(rb"OK records \d+ documents \d+ net -?\d+\.\d\d\n"),
    ("hotcheck", 1): re.compile(rb"H\d\d record \d+\n"),
}


# ---- bytes


def mutated(text):
    """The text with some mistakes, as of a person, a program or a line."""
    text = bytearray(text)
    for _ in range(RANDOM.choice((1, 1, 1, 2, 5))):
        at = RANDOM.randrange(len(text) + 1)
        to = min(len(text), at + RANDOM.choice((1, 1, 2, 8, 136, 137)))
        way = RANDOM.randrange(9)
        if way == 0:
            text[at:to] = b""
        elif way == 1:
            text[at:at] = RANDOM.randbytes(RANDOM.choice((1, 1, 3, 200)))
        elif way == 2:
            text[at:at] = text[at:to]
        elif way == 3 and at < len(text):
            text[at] ^= 1 << RANDOM.randrange(8)
        elif way == 4 and at < len(text):
            text[at] = RANDOM.choice(b"0123456789{}AJR \r\n\0\x7f\xc3\"'=,:;/?%[]")
        elif way == 5:
            del text[at:]
        elif way == 6:
            lines = bytes(text).splitlines(keepends=True)
            RANDOM.shuffle(lines)
            text = bytearray(b"".join(lines[: RANDOM.randrange(len(lines) + 1)] if RANDOM.random() < 0.2 else lines))
        elif way == 7:
            digits = [at for at, byte in enumerate(text) if 48 <= byte < 58]
            for at in RANDOM.sample(digits, min(len(digits), 3)):
                text[at] = RANDOM.choice(b"0123456789")
        else:
            text = text.replace(b"\n", b"\r\n")
    return bytes(text)


def perhaps(text, share=0.5):
    """The text, or this share of the times a mutated one."""
    return mutated(text) if RANDOM.random() < share else text


# ---- RET files


class Ret:
    """A RET file that is written record by record."""

    def __init__(self):
        self.profile = RANDOM.choice(("001", "002"))
        self.lines, self.number, self.sum = [f"1TSTA2401050930DE000001PROD{self.profile}"], 0, 0

    def begin(self, code, agent, airline, document, issued):
        self.number += 1
        check = document % 7 if RANDOM.random() < 0.97 else RANDOM.randrange(10)
        self.lines.append(f"2{self.number:06}{code}{agent}{airline}{document:010}{check}{issued}DOE/JANE")

    def relate(self, airline, document):
        self.lines.append(f"3{self.number:06}{airline}{document:010}{document % 7}")

    def pay(self, airline, fare, tax, *forms, basis=None):
        rate = RATES.get(airline, 0) if RANDOM.random() < 0.95 else RANDOM.randrange(10001)
        basis = fare if basis is None else basis
        commission = (abs(basis) * rate + 5000) // 10000 * (1 if basis >= 0 else -1) if RANDOM.random() < 0.95 else 0
        places = f"RA{zoned(tax)}".ljust(78)
        self.lines.append(f"5{self.number:06}{zoned(fare)}{places}{rate:05}{zoned(commission)}")
        for form, amount in forms:
            self.sum += amount
            self.lines.append(f"8{self.number:06}{form}{zoned(amount)}{'VI' if form == 'CC' else ''}")

    def exchange(self, airline, fare, others):
        """The rest of a sale that is paid with one ticket of this fare or with two."""
        for it in others:
            self.relate(airline, it)
        count = len(others)
        self.pay(airline, count * fare + 5000, count * 3500, ("CA", 5000), ("EX", count * (fare + 3500)), basis=5000)

    def others(self, sold, own):
        """One related document or two, mostly among the tickets sold: two mostly where the profile has them, and rising."""
        among = sorted(sold) if len(sold) > 1 and RANDOM.random() < 0.9 else own
        if RANDOM.random() < (0.6 if self.profile == "002" else 0.05):
            two = RANDOM.sample(among, 2)
            return sorted(two) if RANDOM.random() < 0.95 else two
        return [RANDOM.choice(among)]

    def add_exchange_of_two(self, agent):
        """Two sales, and the exchange of both for a third."""
        *two, third = RANDOM.sample([it for it in NUMBERS if it // 100000000 == STOCK.get(agent, 13)], 3)
        for it in two:
            self.begin("TKTT", agent, "125", it, "240105")
            self.pay("125", 20_000, 3500, ("CA", 23_500))
        self.begin("TKTT", agent, "125", third, "240105")
        self.exchange("125", 20_000, sorted(two))

    def add(self, agent):
        """A further transaction, which is often one that the office accepts."""
        own = [it for it in NUMBERS if it // 100000000 == STOCK.get(agent, 13)]
        code = RANDOM.choice(("TKTT", "TKTT", "TKTT", "RFND", "CANX"))
        airline = RANDOM.choice(("125",) * 6 + ("220", "220", "999"))
        fare = RANDOM.choice((20_000, 20_000, 20_000, 20_000, 1, 99_999_996_499))
        sold = SOLD[agent, airline]
        fresh = [it for it in own if it not in sold] or own
        document = RANDOM.choice(fresh if RANDOM.random() < 0.6 else own if RANDOM.random() < 0.9 else NUMBERS)
        self.begin(code, agent, airline, document, RANDOM.choice(("240105",) * 8 + ("240106", "240116")))
        if code == "RFND":
            self.relate(airline, RANDOM.choice(sorted(sold) if sold and RANDOM.random() < 0.9 else own))
            self.pay(airline, -fare, -3500, ("CA", -fare - 3500))
        elif code == "TKTT" and RANDOM.random() < 0.3:
            self.exchange(airline, min(fare, 20_000), self.others(sold, own))
        elif code == "TKTT":
            self.pay(airline, fare, 3500, (RANDOM.choice(("CA", "CC")), fare + 3500))
            if fare == 20_000:
                sold.add(document)

    def text(self):
        last = f"Z{len(self.lines) + 1:07}{self.number:07}{zoned(self.sum, 15)}"
        return "".join(f"{line:136}\n" for line in [*self.lines, last]).encode()


def ret_file(agent):
    """A RET file of an agent, in which now and then a transaction is another's."""
    file = Ret()
    if file.profile == "002" and RANDOM.random() < 0.2:
        file.add_exchange_of_two(agent)
    for _ in range(RANDOM.choice((0, 1, 1, 2, 3, 8))):
        file.add(agent if RANDOM.random() < 0.95 else RANDOM.choice(list(AGENTS)))
    return file.text()


# ---- commands


def limit_memory():
    resource.setrlimit(resource.RLIMIT_AS, (MEMORY, MEMORY))


def try_command():
    """A report on mutated bytes."""
    command = RANDOM.choice(("check", "hotcheck"))
    base = (
        RANDOM.choice(RET)
        if command == "check" and RANDOM.random() < 0.5
        else ret_file("12345675")
        if command == "check"
        else RANDOM.choice(HOT)
    )
    text = perhaps(base, 0.9)
    ended = subprocess.run([program.path(), command, "-"], input=text, capture_output=True, timeout=20, preexec_fn=limit_memory)
    form, lines = REPORTS.get((command, ended.returncode)), ended.stderr.splitlines()
    expect(f"{command} of {text!r}: its status, {ended.returncode}", True, form is not None)
    expect(f"{command} of {text!r}: its report", True, form is not None and form.fullmatch(ended.stdout) is not None)
    expect(f"{command} of {text!r}: its lines for people", 1 if command == "hotcheck" else ended.returncode, len(lines))
    TRIED["files"] += 1


# ---- requests


def body_of(**fields):
    return json.dumps(fields).encode()


def code(codes, share=0.95):
    """A code, which now and then is another one of its length."""
    one = RANDOM.choice(list(codes))
    return one if RANDOM.random() < share else "".join(RANDOM.choice("0123456789") for _ in one)


def tax_entry():
    """A tax on commission, as an entry of a plan text."""
    first = RANDOM.choice(("2024-01-05", "2024-01-06", "2024-01-16", "2024-01-17", "2024-02-01", "2024-02-30"))
    hundredths = RANDOM.choice((0, 1, 1900, 5000, 10000, 10001))
    return f'[[commission_tax]]\nfrom = "{first}"\nhundredths = {hundredths}\n'.encode()


def office_request():
    """A path and a body of the office."""
    first = RANDOM.choice(NUMBERS) // 10 * 10
    span = {"agent": code(AGENTS), "first": f"{first:010}", "last": f"{first + RANDOM.choice((9, 9, 3, -1)):010}"}
    return RANDOM.choice(
        (
            lambda: ("plan", perhaps(RANDOM.choice(PLANS), 0.7)),
            lambda: ("plan", perhaps(TERMS + tax_entry(), 0.2)),
            lambda: ("day", body_of(day=RANDOM.choice(("2024-01-05", "2024-01-06", "2024-01-16", "2024-02-01", "2023-12-31")))),
            lambda: ("agents", body_of(agent=code(AGENTS), token=RANDOM.choice(list(AGENTS.values())))),
            lambda: ("airlines", body_of(airline=code(AIRLINES), token=RANDOM.choice(list(AIRLINES.values())))),
            lambda: ("stock/allot", body_of(**span)),
            lambda: ("stock/withdraw", body_of(**span)),
            lambda: ("ret", perhaps(ret_file(RANDOM.choice(list(AGENTS))), 0.3)),
            lambda: ("close", body_of(period=code(PERIODS))),
        )
    )()


def agent_request():
    """A path and a body of an agent, and its code."""
    agent = RANDOM.choice(list(AGENTS))
    memo = body_of(airline=code(AIRLINES), document=RANDOM.choice(MEMOS))
    path, body = RANDOM.choice(
        (
            lambda: ("ret", perhaps(ret_file(agent), 0.3)),
            lambda: ("ret", ret_file(agent)),
            lambda: ("memos/dispute", memo),
            lambda: ("memos/agree", memo),
        )
    )()
    return agent, path, body


def airline_request():
    """A path and a body of an airline, and its code."""
    airline, document = RANDOM.choice(list(AIRLINES)), RANDOM.choice(MEMOS)
    amount = RANDOM.choice((1, 100, 5000, 99_999_999_999, 100_000_000_000, 0, -1, 1 << 63))
    issue = body_of(agent=code(AGENTS), amount=amount, document=document, kind=RANDOM.choice(("ADMA", "ACMA")), reason="fare")
    path, body = RANDOM.choice(
        (
            ("memos", issue),
            ("memos", issue),
            ("memos/uphold", body_of(document=document)),
            ("memos/withdraw", body_of(document=document)),
            ("memos/reduce", body_of(amount=amount, document=document)),
        )
    )
    return airline, path, body


def request():
    """A method, a path, a token and a body."""
    caller = RANDOM.randrange(10)
    if caller < 4:
        path, body = office_request()
        method, path, token = "POST", f"/office/{path}", OFFICE
    elif caller < 8:
        agent, path, body = agent_request()
        method, path, token = "POST", f"/agents/{agent}/{path}", AGENTS[agent]
    else:
        airline, path, body = airline_request()
        method, path, token = "POST", f"/airlines/{airline}/{path}", AIRLINES[airline]
    if path.endswith(("plan", "ret")) is False:
        body = perhaps(body, 0.1)
    if RANDOM.random() < 0.03:
        token = RANDOM.choice((None, OFFICE, *AGENTS.values(), *AIRLINES.values(), "0" * 16))
    if RANDOM.random() < 0.03:
        path = re.sub(r"[^\x21-\x7e]|%", "x", mutated(path.encode()).decode("latin-1")) or "/"
        path = path if path.startswith("/") else f"/{path}"
    if RANDOM.random() < 0.02:
        method = RANDOM.choice(("GET", "PUT", "HEAD", "DELETE", "OPTIONS"))
    return method, path, token, body


def looks():
    """What shows a book: paths and tokens."""
    for agent, token in AGENTS.items():
        for path in (
            "stock",
            "memos",
            *(f"periods/{it}" for it in PERIODS),
            *(f"statements/{it}" for it in PERIODS),
            *(f"documents/{it:010}" for it in NUMBERS),
        ):
            yield f"/agents/{agent}/{path}", token
    for airline, token in AIRLINES.items():
        for path in ("memos", *(f"hot/{it}" for it in PERIODS)):
            yield f"/airlines/{airline}/{path}", token
    for period in PERIODS:
        yield f"/office/settlement/{period}", OFFICE


class Pair:
    """Two offices, of which the second has its book in a file."""

    def __init__(self):
        self.offices = [Office(memory=MEMORY), self.with_file()]
        self.seen = None

    @staticmethod
    def with_file():
        return Office("--db", "office.db", memory=MEMORY)

    def ask(self, method, path, token=None, body=None):
        """The reply of both."""
        first, second = (it.ask(method, path, token, body) for it in self.offices)
        expect(f"{method} {path} {token} {body!r}: the office with a file", first, second)
        TRIED["requests"] += 1
        return first

    def shown(self):
        """All that shows the book."""
        if self.seen is None:
            self.seen = [self.ask("GET", path, token) for path, token in looks()]
        return self.seen

    def try_request(self):
        """A request, what it leaves, and the same again."""
        asked = method, path, token, body = request()
        before = self.shown()
        status, _, reply = self.ask(*asked)
        expect(f"{asked}: its status, {status} {reply!r}", True, status in STATUSES)
        done = status == 200 and (reply == b'{"result":"done"}' or b'"verdict":"accepted"' in reply)
        self.seen = None
        if not done:
            expect(f"{asked}: what {status} {reply!r} leaves", before, self.shown())
            return
        TRIED["changes"] += 1
        if path in ("/office/agents", "/office/airlines"):
            new = json.loads(body)
            (AGENTS if path.endswith("agents") else AIRLINES)[new.get("agent", new.get("airline"))] = new["token"]
        again = self.ask(*asked)[2]
        if reply != b'{"result":"done"}':
            first, second = (json.loads(it)["results"] for it in (reply, again))
            for one, other in zip(first, second, strict=True):
                if one["verdict"] == "accepted":
                    expect(f"{asked}: sent again", {**one, "verdict": "held"}, other)
        elif not path.endswith("/withdraw") or "/memos/" in path:
            expect(f"{asked}: sent again", b'{"result":"held"}', again)

    def try_connection(self):
        """Bytes of a connection, which may be several requests."""
        text = b""
        for _ in range(RANDOM.choice((1, 1, 2, 4))):
            method, path, token, body = request()
            fields = ["Host: bsp", f"Bsp-Token: {token}", f"Content-Length: {len(body)}"]
            RANDOM.shuffle(fields)
            text += "\r\n".join((f"{method} {path} HTTP/1.1", *fields, "", "")).encode("latin-1") + body
        text = perhaps(text, 0.9)
        replies = []
        for it in self.offices:
            it.close()
            replies.append(exchanged(it.port, text))
        expect(f"the bytes {text!r}: the office with a file", replies[0], replies[1])
        heads = re.match(rb"(HTTP/1\.1 [1-5]\d\d |$)", replies[0])
        expect(f"the bytes {text!r}: the reply {replies[0][:200]!r}", True, heads is not None)
        expect(f"the bytes {text!r}: no 503", False, b"HTTP/1.1 503" in replies[0])
        self.seen = None
        TRIED["connections"] += 1

    def restart(self):
        """The office with the file is killed and started again."""
        before = self.shown()
        self.offices[1].kill()
        self.offices[1] = self.with_file()
        self.seen = None
        expect("what is shown after a restart", before, self.shown())
        TRIED["restarts"] += 1


def exchanged(port, text):
    """What a connection gives for bytes, after which the peer sends no more."""
    with socket.create_connection(("127.0.0.1", port), timeout=20) as peer:
        got = b""
        try:
            peer.sendall(text)
            peer.shutdown(socket.SHUT_WR)
        except OSError:
            pass
        try:
            while more := peer.recv(65536):
                got += more
        except ConnectionResetError:
            pass
        return got


def open_market(pair):
    """The plan, the callers and their stock."""
    for path, body in (
        ("plan", RANDOM.choice(PLANS)),
        ("day", body_of(day="2024-01-05")),
        *(("agents", body_of(agent=it, token=token)) for it, token in AGENTS.items()),
        *(("airlines", body_of(airline=it, token=token)) for it, token in AIRLINES.items()),
        *(("stock/allot", body_of(agent=it, first=f"{first}00000000", last=f"{first}00000009")) for it, first in STOCK.items()),
    ):
        expect(f"the opening: {path}", 200, pair.ask("POST", f"/office/{path}", OFFICE, body)[0])


def try_one(pair):
    """A report, a connection, a request or a restart."""
    way = RANDOM.randrange(100)
    if way < 10:
        try_command()
    elif way < 25:
        pair.try_connection()
    elif way < 99:
        pair.try_request()
    else:
        pair.restart()


def try_market(until):
    """Some tries over a new market, in which numbers are still free and periods not closed."""
    AGENTS.update(FIRST_AGENTS)
    AIRLINES.update(FIRST_AIRLINES)
    SOLD.clear()
    with tempfile.TemporaryDirectory(prefix="fuzz-") as folder:
        os.chdir(folder)
        pair = Pair()
        try:
            open_market(pair)
            for _ in range(TRIES):
                if time.monotonic() > until or compare.is_different():
                    break
                try_one(pair)
            pair.restart()
        finally:
            for it in pair.offices:
                it.stop()
            os.chdir(TOP)
    TRIED["markets"] += 1


def main():
    until = time.monotonic() + SECONDS
    while time.monotonic() < until and not compare.is_different():
        try:
            try_market(until)
        except (http.client.HTTPException, OSError, subprocess.TimeoutExpired, RuntimeError) as fault:
            expect(f"the programs go on: {fault!r}", True, False)
    print("fuzz: " + ", ".join(f"{count:,} {what}" for what, count in sorted(TRIED.items())))
    print(compare.differences() or "no difference")
    sys.exit(compare.is_different())


main()
