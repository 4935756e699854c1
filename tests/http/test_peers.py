"""Nobody who connects holds up another. Beside 200 idle connections, 5 that send a byte each second and 3 that never read their
response, the requests of a fresh client take at most 5 times what they take alone. Those that are slow are closed after
`--timeout`, those that are idle after `--idle`, and a slow reader that keeps to its time is not. Many messages of one client are
answered in turn with those of others. Two clients that keep their connections do not wait for each other. With `--peers 3`, where
three connections are idle, a fourth gets its answer, and where three have begun a message it waits. With `--peers 1` one is served
after the other. Each test prints its numbers."""
import concurrent.futures
import random
import select
import statistics
import time

import pytest

from support import wire
from support.callers import AGENT_TOKEN as AGENT, OFFICE
from support.compare import expect
from support.served import Office
from support.tree import sample
from support.wire import FORBIDDEN, asks, connected

pytestmark = pytest.mark.alone
RANDOM = random.Random(1)
ASKED = wire.message("GET", "/agents/12345675/periods/24011", "x")
STOCK = wire.message("GET", "/agents/12345675/stock", AGENT)
DRIP = wire.message("POST", "/office/day", OFFICE, '{"day":"2024-01-05"}')
# the seconds of --timeout and of --idle, and those that a busy machine may take more
TIMEOUT, IDLE, SLACK = 3, 5, 4
IDLE_PEERS, DRIPPING, NEVER_READING = 200, 5, 3
TIMES, MOST = 100, 5
# so many ranges make a long response; so many of these are more than the buffers of two sockets hold
RANGES, RESPONSES = 3_000, 60
# so many of them take a second to answer
FLOOD = 1_000
# what a slow reader takes in a second: twice what it has to take in the whole timeout
READ_EACH_SECOND = 131_072


def serving(*words):
    return Office(*words, seconds=10)


def fresh(port):
    """The seconds of a request on a connection of its own."""
    begun = time.monotonic()
    with connected(port) as peer:
        expect("a fresh client", FORBIDDEN, asks(peer, ASKED))
    return time.monotonic() - begun


def sends(peer, text):
    """Whether the peer takes this."""
    try:
        peer.sendall(text)
        return True
    except OSError:
        return False


def ended(peer):
    """Whether the connection was closed."""
    try:
        return peer.recv(65536) == b""
    except ConnectionError:
        return True
    except TimeoutError:
        return False


def rest_of(peer):
    """How many bytes come up to the end, or up to a reset."""
    count = 0
    try:
        while piece := peer.recv(1 << 20):
            count += len(piece)
    except ConnectionError:
        pass
    return count


def set_up(port):
    """An agent with a long stock: the length of the response that has it."""
    with connected(port) as peer:
        asked = [
            ("plan", sample("plan.toml")),
            ("day", '{"day":"2024-01-05"}'),
            ("agents", '{"agent":"12345675","token":"%s"}' % AGENT),
        ]
        for first in range(1_300_000_000, 1_300_000_000 + 10 * RANGES, 10):
            asked.append(("stock/allot", '{"agent":"12345675","first":"%d","last":"%d"}' % (first, first + 8)))
        with concurrent.futures.ThreadPoolExecutor(1) as pool:
            sent = pool.submit(
                peer.sendall, b"".join(wire.message("POST", f"/office/{path}", OFFICE, body) for path, body in asked)
            )
            done = b""
            while done.count(b"}") < len(asked):
                piece = peer.recv(65536)
                if not piece:
                    break
                done += piece
            sent.result()
        expect("the set-up", len(asked), done.count(b'{"result":"done"}'))
        return len(asks(peer, STOCK))


class Crowd:
    """Peers that hold up an office if anybody does, since when each is idle or has begun, and when it was closed."""

    def __init__(self, port):
        self.port, self.since, self.closed = port, {}, {}
        self.never = [connected(port, 4096) for _ in range(NEVER_READING)]
        for peer in self.never:
            sends(peer, STOCK * RESPONSES)
        self.idle = []
        for _ in range(IDLE_PEERS):
            self.since[peer := connected(port)] = time.monotonic()
            self.idle.append(peer)
        # half of them have been answered before
        for peer in RANDOM.sample(self.idle, IDLE_PEERS // 2):
            expect("a peer before it is idle", FORBIDDEN, asks(peer, ASKED))
            self.since[peer] = time.monotonic()
        self.dripping = [connected(port) for _ in range(DRIPPING)]
        self.at = dict.fromkeys(self.dripping, RANDOM.randrange(1, 90))
        for peer in self.dripping:
            sends(peer, DRIP[: self.at[peer]])
            self.since[peer] = time.monotonic()
        self.begun = self.dripped = time.monotonic()

    def drips(self):
        """Sends a further byte of each message that is begun, a second after the last."""
        if time.monotonic() > self.dripped + 1:
            self.dripped += 1
            for peer in self.dripping:
                sends(peer, DRIP[self.at[peer] :][:1])
                self.at[peer] += 1

    def watch(self, seconds):
        """Notes which connections are closed meanwhile, and when."""
        poll, peers = select.poll(), {it.fileno(): it for it in self.since if it not in self.closed}
        for number in peers:
            poll.register(number, select.POLLIN)
        until = time.monotonic() + seconds
        while peers and time.monotonic() < until:
            self.drips()
            for number, _ in poll.poll(50):
                if ended(peers[number]):
                    self.closed[peers.pop(number)] = time.monotonic()
                    poll.unregister(number)

    def lasted(self, peers):
        """The least and the most seconds before these were closed; a day where one was not."""
        seconds = [self.closed.get(it, self.since[it] + 86_400) - self.since[it] for it in peers]
        return min(seconds), max(seconds)


def in_time(what, wanted, least, most):
    """Connections are closed after these seconds, and not before."""
    print(f"{what}: closed after {least:.1f} to {most:.1f} seconds, {wanted} wanted", flush=True)
    expect(f"{what}: not before", True, least > wanted - 0.1)
    expect(f"{what}: by then", True, most < wanted + SLACK)


def slow_reader(port, length):
    """How much comes to a peer that takes little each second, for longer than the timeout, and then the rest."""
    with connected(port, 4096) as peer:
        peer.sendall(STOCK * RESPONSES)
        count = 0
        for _ in range(2 * TIMEOUT + 1):
            until, most = time.monotonic() + 1, count + READ_EACH_SECOND
            while count < most and (piece := peer.recv(most - count)):
                count += len(piece)
            time.sleep(max(0, until - time.monotonic()))
        count += rest_of_replies(peer, length * RESPONSES - count)
    return count


def rest_of_replies(peer, most):
    """How many bytes come, at most so many."""
    count = 0
    try:
        while count < most and (piece := peer.recv(min(1 << 20, most - count))):
            count += len(piece)
    except OSError:
        pass
    return count


def flood(port, length):
    """A client that asks now is answered between the many messages of another, which were sent before."""
    with connected(port) as peer, concurrent.futures.ThreadPoolExecutor(1) as pool:
        begun = time.monotonic()
        peer.sendall(STOCK * FLOOD)
        count = pool.submit(rest_of_replies, peer, length * FLOOD)
        between = sum(fresh(port) for _ in range(5))
        expect("many messages of one client: bytes", length * FLOOD, count.result())
        whole = time.monotonic() - begun
    print(
        f"beside {FLOOD:,} messages of one client, which take {whole:.2f} seconds: 5 fresh clients take {between:.2f}", flush=True
    )
    expect("many messages of one client do not hold up others", True, between < whole / 2)


def test_a_fresh_client_beside_a_crowd():
    """A fresh client asks two offices in turn: one that serves it alone, and one that serves a crowd."""
    words = "--peers", 256, "--timeout", TIMEOUT, "--idle", IDLE
    with serving() as alone, serving(*words) as busy, concurrent.futures.ThreadPoolExecutor(1) as pool:
        length = set_up(busy.port)
        flood(busy.port, length)
        reader = pool.submit(slow_reader, busy.port, length)
        crowd = Crowd(busy.port)
        times = []
        for _ in range(TIMES):
            times.append((fresh(alone.port), fresh(busy.port)))
            crowd.drips()
        one, other = (statistics.median(it) for it in zip(*times))
        print(
            f"a fresh client: {one * 1e6:.0f} microseconds alone, {other * 1e6:.0f} beside {IDLE_PEERS} idle peers,"
            f" {DRIPPING} that drip and {NEVER_READING} that never read",
            flush=True,
        )
        expect(f"a fresh client takes at most {MOST} times what it takes alone", True, other <= MOST * one)
        crowd.watch(IDLE + SLACK)
        in_time("peers that drip", TIMEOUT, *crowd.lasted(crowd.dripping))
        in_time("idle peers", IDLE, *crowd.lasted(crowd.idle))
        # one that never reads is late after one span of twice the timeout, or after two
        time.sleep(max(0, crowd.begun + 4 * TIMEOUT + 1 - time.monotonic()))
        for peer in crowd.never:
            count = rest_of(peer)
            print(f"a peer that never read: {count:,} of {length * RESPONSES:,} bytes were sent", flush=True)
            expect("a peer that never read: it is closed", True, 0 < count < length * RESPONSES)
        expect("a slow reader that keeps to its time: bytes", length * RESPONSES, reader.result())
        for peer in (*crowd.never, *crowd.since):
            peer.close()


def test_two_clients_that_keep_their_connections():
    """Two clients that keep their connections ask in turn, and none waits for the other."""
    with serving("--timeout", 10) as it, connected(it.port) as one, connected(it.port) as other:
        begun = time.monotonic()
        for _ in range(50):
            for peer in one, other:
                expect("two clients", FORBIDDEN, asks(peer, ASKED))
        seconds = time.monotonic() - begun
        print(f"two clients that keep their connections: {seconds * 1e3:.0f} milliseconds for 100 requests", flush=True)
        expect("two clients do not wait for each other", True, seconds < SLACK)


def answered_within(peer, seconds):
    """Whether something comes to the peer meanwhile."""
    return bool(select.select([peer], [], [], seconds)[0])


def test_a_place_is_given_to_a_fourth():
    """Where three of three places are of idle connections, the one that was idle longest is closed for a fourth."""
    with serving("--peers", 3, "--timeout", 20, "--idle", 0) as it:
        three = [connected(it.port) for _ in range(3)]
        for peer in RANDOM.sample(three, 3) + three:
            expect("one of three", FORBIDDEN, asks(peer, ASKED))
            time.sleep(0.05)
        with connected(it.port) as fourth:
            begun = time.monotonic()
            fourth.sendall(ASKED)
            expect("a fourth of three: its answer comes", True, answered_within(fourth, 1 + SLACK))
            print(f"a fourth of three: answered after {time.monotonic() - begun:.1f} seconds", flush=True)
            expect("a fourth of three", FORBIDDEN, asks(fourth, b""))
            expect("the one that was idle longest is closed", True, ended(three[0]))
            for peer in three[1:]:
                expect("the others are not closed", FORBIDDEN, asks(peer, ASKED))
        for peer in three:
            peer.close()


def test_no_place_is_taken_from_a_begun_message():
    """Where three of three have begun a message none is closed for a fourth, which waits until one is gone."""
    with serving("--peers", 3, "--timeout", 20, "--idle", 1) as it:
        three = [connected(it.port) for _ in range(3)]
        for peer in three:
            peer.sendall(DRIP[: RANDOM.randrange(1, len(DRIP))])
        time.sleep(0.2)
        with connected(it.port) as fourth:
            fourth.sendall(ASKED)
            expect("a fourth beside three that have begun: none", False, answered_within(fourth, 2))
            RANDOM.choice(three).close()
            expect("a fourth after one of them is gone", True, answered_within(fourth, SLACK))
        for peer in three:
            peer.close()


def test_one_place():
    """With --peers 1 the second is served after the first is gone."""
    with serving("--peers", 1, "--timeout", 20, "--idle", 20) as it, connected(it.port) as first, connected(it.port) as second:
        expect("the first", FORBIDDEN, asks(first, ASKED))
        second.sendall(ASKED)
        expect("the second beside the first: none", False, answered_within(second, 0.5))
        expect("the first again", FORBIDDEN, asks(first, ASKED))
        first.close()
        expect("the second after the first", True, answered_within(second, SLACK))
