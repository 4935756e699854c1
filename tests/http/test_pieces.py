"""What `serve` sends on many connections at once is, byte for byte, what `run` writes for the messages of each.

A connection is an agent of its own, so that its replies do not depend on the others. The messages are drawn: routes of an agent,
bodies that are kept, ignored and read record by record, RET files with and without a fault, tokens that are wrong, HEAD, Expect,
heads that are refused, and messages that close. They come in random pieces, several in one or a byte alone; the client ends its
side, waits for the end, is cut within a message, or resets the connection. What comes before a reset is a first part of what `run`
writes. Talks that fail are made as few and as short as can be, and are printed as commands that can be pasted."""
import collections
import concurrent.futures
import os
import random
import selectors
import socket
import struct
import time

import hypothesis
import pytest
from hypothesis import strategies

from support import program, wire
from support.callers import OFFICE
from support.served import Office
from support.tree import sample
from support.wire import connected, replies, reply_on

# so many connections talk at once, of which some are left out
CONNECTIONS, SECONDS = 55, 12
FIRST = 1_300_000_000
SALE = sample("sale.ret").decode()
CHANCES = strategies.integers(0, 2**16 - 1)


class Agent:
    """An agent with numbers of its own, and what it may say on a connection."""

    def __init__(self, number):
        root = 1_000_000 + number
        self.code, self.token = f"{root}{root % 7}", f"agenttoken{number:06}"
        self.first, self.used, self.random = FIRST + 1000 * number, 0, random.Random(0)

    def set_up(self):
        """What the office says of it."""
        return [
            (f"/office/{path}", body)
            for path, body in (
                ("agents", '{"agent":"%s","token":"%s"}' % (self.code, self.token)),
                ("stock/allot", '{"agent":"%s","first":"%d","last":"%d"}' % (self.code, self.first, self.first + 999)),
            )
        ]

    def sale(self):
        """A RET file with a sale, mostly of a number that was not sold before."""
        self.used += self.random.random() < 0.8
        number = self.first + self.used
        return SALE.replace("12345675", self.code).replace("13000000016", f"{number}{number % 7}")

    def file(self):
        """A sale, or a file at fault: cut, of several records at once, or with another sum."""
        text = self.sale()
        return self.random.choice(
            [text, text, text, text[: self.random.randrange(len(text))], text + text, text.replace("235", "236", 1), ""]
        )

    def head(self, asked, *fields, version="HTTP/1.1", body=None, token=None):
        """A message with these fields, in any order and with lines that end by LF or CR LF."""
        fields = ["Host: bsp", f"Bsp-Token: {token or self.token}", *fields]
        if body is not None:
            fields.append(f"Content-Length: {len(body)}")
        self.random.shuffle(fields)
        end = self.random.choice(["\r\n", "\r\n", "\n"])
        return (end * self.random.choice([0, 0, 0, 1]) + end.join([f"{asked} {version}", *fields, "", ""])).encode() + (
            body or ""
        ).encode()

    def message(self, way):
        """A message of this kind, after which the connection stays open."""
        at = f"/agents/{self.code}"
        path = self.random.choice(
            [
                f"{at}/stock",
                f"{at}/memos",
                f"{at}/periods/24011",
                f"{at}/periods/24012",
                f"{at}/statements/24011",
                f"{at}/documents/{self.first + self.random.randrange(self.used + 2)}",
                "/office/settlement/24011",
                f"{at}/x",
                "/?x",
            ]
        )
        memo = '{"airline":"125","document":"%d"}' % self.random.randrange(6_000_000_000, 6_000_000_003)
        expects = self.random.choice(["Expect: 100-continue", "Expect: 100-Continue", "Expect: x", "Accept: */*", "Accept: */*"])
        return (
            [
                lambda: self.head(f"GET {path}"),
                lambda: self.head(f"GET {path}", token="x"),
                lambda: self.head(f"HEAD {path}"),
                lambda: self.head(f"GET {path}", expects, body="i" * self.random.randrange(20_000)),
                lambda: self.head(f"PUT {path}", expects, body="i" * self.random.randrange(200)),
                lambda: self.head("POST /x", expects, body="i" * self.random.randrange(200_000)),
                lambda: self.head(f"POST {at}/memos/{self.random.choice(['agree', 'dispute', 'x'])}", expects, body=memo),
                lambda: self.head(f"POST {at}/memos/agree", expects, body=memo[:-1]),
                lambda: self.head(f"POST {at}/ret", expects, body=self.file()),
                lambda: self.head(f"POST {at}/ret", expects, body=self.file()),
                lambda: self.head(f"POST {at}/ret", expects, body=self.file(), token="y" * 16),
            ]
        )[way]()

    def last(self, way):
        """A message of this kind, after which the connection closes: a head that is refused, or one that says so."""
        stock = f"/agents/{self.code}/stock"
        return (
            [
                lambda: b"no head\r\n\r\n",
                lambda: f"GET {stock} HTTP/1.1\r\n\r\n".encode(),
                lambda: self.head(f"HEAD {stock}", "Host: bsp"),
                lambda: self.head(f"POST /agents/{self.code}/ret"),
                lambda: self.head(f"POST /agents/{self.code}/ret", "Content-Length: 4194305")
                + b"1" * self.random.randrange(100_000),
                lambda: self.head(f"POST /agents/{self.code}/ret", "Content-Length: 5x"),
                lambda: self.head(f"GET {stock}", "X: ".ljust(20_000, "x")),
                lambda: self.head(f"GET {stock}", *["X: x"] * 64),
                lambda: self.head(f"POST {stock}", "Transfer-Encoding: chunked") + b"5\r\n12345\r\n0\r\n\r\n",
                lambda: self.head(f"GET {stock}", "Connection: close"),
                lambda: self.head(f"POST /agents/{self.code}/ret", "Connection: x, Close", body=self.file()),
                lambda: self.head(f"GET {stock}", version="HTTP/1.0"),
            ]
        )[way]()


MESSAGES, LASTS = 11, 12
# how a client ends; where it waits, the office closes
ENDINGS = ["ends its side", "ends its side", "waits", "waits at its end", "is cut", "resets"]
# the most bytes of a piece; None is all of what is sent
MOST = [None, 30_000, 3_000, 300, 30, 3, 1]


def pieces(text, most, chance):
    """The text in pieces of at most so many bytes."""
    found, at, most = [], 0, most or len(text)
    while at < len(text):
        # bytes alone for 500 bytes at most
        length = len(text) if most >= len(text) else chance.randrange(1, max(most, 2 if at < 500 else 3_000) + 1)
        found.append(text[at : at + length])
        at += length
    return collections.deque(found)


class Talk:
    """What is sent on a connection, how the client ends it, and what comes."""

    def __init__(self, agent, kinds, last, ending, most, chance):
        chance = agent.random = random.Random(chance)
        self.agent, self.ending = agent, ending
        messages = [self.drawn(agent.message, *it) for it in kinds]
        if ending in ("waits", "waits at its end"):
            after = [self.drawn(agent.message, *it) for it in kinds[: chance.randrange(3)]]
            messages += [self.drawn(agent.last, *last), *after]
        self.sent = b"".join(messages)
        if ending == "is cut":
            self.sent = self.sent[: -chance.randrange(1, len(messages[-1]) + 1)]
        self.pieces, self.got, self.wanted = pieces(self.sent, most, chance), b"", b""
        if ending == "resets":
            for _ in range(chance.randrange(len(self.pieces))):
                self.pieces.pop()
        # where the office closes, a client may end its side or wait
        self.ends = ending != "waits"

    def drawn(self, kind, way, chance):
        """A message of this kind, drawn by chance."""
        self.agent.random = random.Random(chance)
        return kind(way)

    def commands(self):
        """What is sent as commands that can be pasted: of curl, and of nc to the port of the office."""
        setting_up = [wire.curl(f"POST {path}", body.encode(), OFFICE) for path, body in self.agent.set_up()]
        text = "".join(chr(it) if 32 <= it < 127 and it not in b"'\\\\" else f"\\\\x{it:02x}" for it in self.sent)
        return "\n".join([*setting_up, f"printf '%b' '{text}' | nc 127.0.0.1 $PORT   # the client {self.ending}"])

    def begin(self, port):
        self.peer = connected(port, SECONDS)
        self.peer.setsockopt(socket.IPPROTO_TCP, socket.TCP_NODELAY, 1)
        self.peer.setblocking(False)

    def sends(self):
        """Sends the next piece, or what comes after the last. Whether it goes on sending."""
        try:
            if self.pieces:
                piece = self.pieces.popleft()
                count = self.peer.send(piece)
                if piece[count:]:
                    self.pieces.appendleft(piece[count:])
                return True
            if self.ending == "resets":
                self.peer.setsockopt(socket.SOL_SOCKET, socket.SO_LINGER, struct.pack("ii", 1, 0))
            elif self.ends:
                self.peer.shutdown(socket.SHUT_WR)
        except BlockingIOError:
            return True
        except OSError as fault:
            self.got += f"(a send failed: {fault})".encode()
        return False

    def receives(self):
        """Takes what came. Whether more may come."""
        try:
            piece = self.peer.recv(65536)
        except BlockingIOError:
            return True
        except OSError as fault:
            piece = f"(a read failed: {fault})".encode()
            self.got += piece
            return False
        self.got += piece
        return piece != b""


def talk_all(talks, chance):
    """Lets all talk at once, in a random order, until each is at its end."""
    waits = selectors.DefaultSelector()
    for talk in talks:
        waits.register(talk.peer, selectors.EVENT_READ | selectors.EVENT_WRITE, talk)
    until = time.monotonic() + SECONDS
    while waits.get_map() and time.monotonic() < until:
        ready = waits.select(1)
        chance.shuffle(ready)
        for key, events in ready[: chance.randrange(1, len(ready) + 1) if ready else 0]:
            talk = key.data
            if events & selectors.EVENT_READ and not talk.receives():
                waits.unregister(talk.peer)
                talk.peer.close()
            elif events & selectors.EVENT_WRITE and not talk.sends():
                if talk.ending == "resets":
                    waits.unregister(talk.peer)
                    talk.peer.close()
                else:
                    waits.modify(talk.peer, selectors.EVENT_READ, talk)
    for key in list(waits.get_map().values()):
        key.data.got += f"(its end did not come in {SECONDS} seconds)".encode()
        key.data.peer.close()


PLAN = [("/office/plan", sample("plan.toml")), ("/office/day", '{"day":"2024-01-05"}')]
DONE = wire.response("200 OK", '{"result":"done"}')


def messages_of(posted):
    """What the office sends, as it is sent."""
    return [wire.message("POST", path, OFFICE, body) for path, body in posted]


def run(talk):
    """What `run` writes for what is sent, after the set-up."""
    set_up = messages_of(PLAN + talk.agent.set_up())
    ended = program.run("run", "--token", OFFICE, text=b"".join(set_up) + talk.sent)
    found = replies(ended.out)[: len(set_up)]
    assert found == [DONE] * len(set_up)
    talk.wanted = ended.out[sum(map(len, found)) :]


def compare(talk):
    """All of it came; before a reset a first part."""
    wanted = talk.wanted[: len(talk.got)] if talk.ending == "resets" else talk.wanted
    at = len(os.path.commonprefix([wanted, talk.got]))
    what = f"{len(talk.sent):,} bytes, where the client {talk.ending}, from byte {at} of the replies on:\n{talk.commands()}"
    assert talk.got[at : at + 300] == wanted[at : at + 300], what


KINDS = strategies.lists(strategies.tuples(strategies.integers(0, MESSAGES - 1), CHANCES), min_size=1, max_size=11)
TALKS = strategies.tuples(
    KINDS,
    strategies.tuples(strategies.integers(0, LASTS - 1), CHANCES),
    strategies.sampled_from(ENDINGS),
    strategies.sampled_from(MOST),
    CHANCES,
)


@strategies.composite
def talks(draw):
    """A talk for each connection, or none for some."""
    return [draw(TALKS) if draw(strategies.sampled_from([False] + 10 * [True])) else None for _ in range(CONNECTIONS)]


@pytest.mark.alone
def test_connections_at_once_have_the_bytes_that_each_has_alone(examples):
    ways = collections.Counter()

    @examples(5)
    @hypothesis.given(talks(), CHANCES)
    def are_the_same(drawn, chance):
        all_talks = [Talk(Agent(number), *it) for number, it in enumerate(drawn) if it]
        words = "--connections", len(all_talks) + 1, "--timeout", SECONDS
        with Office(*words, seconds=10) as it:
            with connected(it.port) as peer:
                for sent in messages_of(PLAN + [posted for talk in all_talks for posted in talk.agent.set_up()]):
                    peer.sendall(sent)
                    assert reply_on(peer) == DONE
            for talk in all_talks:
                talk.begin(it.port)
            talk_all(all_talks, random.Random(chance))
            status, said = it.ended()
        with concurrent.futures.ThreadPoolExecutor(os.cpu_count()) as pool:
            list(pool.map(run, all_talks))
        for talk in all_talks:
            compare(talk)
            ways[talk.ending] += 1
        plural = "s" * bool(all_talks)
        assert (status, said.endswith(f"bsp_office: {len(all_talks) + 1} connection{plural} served\n")) == (0, True)

    are_the_same()
    print(", ".join(f"{count} {way}" for way, count in sorted(ways.items())))
