"""Stops the machine under the built program over a book in a file, and has its files fail: nothing is lost of what was
acknowledged, whatever call is the last one, and a book is made, or migrated, whole or not at all.

Stops: the shim calls.c notes the calls of one run of the program. A stop before any of them may leave each of the book's two files
as written, or as synced: with what was written up to its last sync. The next write may be torn, with a half of it made. Of
what was written since a sync some may be on the disk and some not, as a disk may reorder writes. For each stop the two files
are made. SQLite reads their rows, and the program opens them and answers requests that only look.

Failures: the log, the main file or both fail from some call on, while the program goes on. Each reply before that is as with
no failure. The request that meets it is answered 503 B03, and so is each later one; an opening that meets it ends with status
3. What is left, as written and as synced, is then looked at as above.

- The rows of all tables, and what the callers see, are those of the requests that were acknowledged, or those and the next
  one. A request is acknowledged by the last byte of its reply, an opening by its line on standard error.
- An opening that was not acknowledged leaves no table or those of an empty book. Of a book of an earlier version it leaves the
  rows or their migration. SQLite may not read a new file that is not made yet: then the rows after the next opening count.

A new book gets the requests of a month of books.py, and books of the versions 1 and 2 those that are there for them. One is opened again
with a part of it in the log. One grows until its log is copied into the main file between two replies: there all stops about
that copy are tried, and each fiftieth of the others. Files fail from each call of a short run on; of reads, and of the calls
about that copy, from each fifth on. Each test prints the number of stops of each kind.
"""
import bisect
import collections
import concurrent.futures
import contextlib
import hashlib
import itertools
import os
import random
import re
import sqlite3
import subprocess
import threading

import books
import pytest

from support import program, shims, wire
from support.callers import A, OFFICE, of_agent, of_office
from support.compare import expect

FAILED = b'HTTP/1.1 503 Service Unavailable\r\nContent-Type: application/json\r\nContent-Length: 14\r\n\r\n{"code":"B03"}'
# the log is copied once it has 1,000 frames, and a sale takes six or seven of them
SALES = 160
# each so many places are tried, where not all are
FEW = 5
names = itertools.count()

# a call of the program, as calls.c notes it
Call = collections.namedtuple("Call", "what file at data")
Pair = collections.namedtuple("Pair", "log main")
Found = collections.namedtuple("Found", "rows replies")
NO_FILES = Pair(None, None)
READS = "read", "look"


# ---- files


def noted(path):
    """The calls in a file that calls.c made."""
    with open(path, "rb") as it:
        while line := it.readline():
            what, file, at, count = line.decode().split()
            yield Call(what, file, int(at), it.read(int(count)))


def changed(content, changes):
    """The bytes of a file after these changes."""
    found = bytearray(content or b"")
    for it in changes:
        end = it.at + len(it.data)
        found.extend(bytes(max(0, end - len(found))))
        if it.what == "cut":
            del found[it.at :]
        found[it.at : end] = it.data
    return bytes(found)


class File(collections.namedtuple("File", "content changes is_made is_named")):
    """A file at some moment: what it had when it was last synced, and what was written since; whether it was made, and whether
    its name is on the disk."""

    @staticmethod
    def first(content):
        """A file that is on the disk, or one that is not made yet."""
        return File(content, (), content is not None, content is not None)

    def after(self, name, call):
        """The file of this name after a call."""
        if (call.what, call.file) == ("sync", "folder"):
            return self._replace(is_named=self.is_made)
        if call.file != name or call.what in (*READS, "fail"):
            return self
        if call.what == "sync":
            return File(self.written(), (), True, self.is_named)
        return self._replace(changes=(*self.changes, call), is_made=True)

    def synced(self):
        return self.content if self.is_named else None

    def written(self):
        return changed(self.content, self.changes) if self.is_made else None


def halves(call):
    """The two parts of a write that is torn."""
    middle = len(call.data) // 2
    if call.what == "write" and middle:
        yield call._replace(data=call.data[:middle])
        yield call._replace(at=call.at + middle, data=call.data[middle:])


def some_of(changes):
    """Some of these changes, in their order, and all of them with one torn. Of many changes it is a choice."""
    step = max(1, len(changes) // 10)
    if len(changes) <= 4:
        for size in range(1, len(changes)):
            yield from itertools.combinations(changes, size)
    else:
        chance = random.Random(len(changes))
        for at in range(0, len(changes), step):
            yield (changes[at],)
            yield changes[:at] + changes[at + 1 :]
            yield tuple(it for it in changes if chance.random() < 0.5)
    for at in range(0, len(changes), step):
        for part in halves(changes[at]):
            yield (*changes[:at], part, *changes[at + 1 :])


WHOLE, TORN, SOME = "files as written or as synced", "a write torn", "some of the writes since a sync"


def leavings(file, name, call):
    """What a stop before a call may leave of the file of this name: of which kind that is, and the bytes."""
    yield WHOLE, file.synced()
    if file.is_made:
        yield WHOLE, file.written()
    if (call.what, call.file) == ("write", name):
        part = next(halves(call), call)
        yield TORN, changed(file.content, (*file.changes, part))
        yield TORN, changed(file.content, (part,))
    # before a sync there is the most to choose from; a reply or an end between syncs acknowledges more
    if (call.what, call.file) in (("sync", name), ("say", "output"), ("end", "")):
        yield from ((SOME, changed(file.content, it)) for it in some_of(file.changes))


def present(content):
    """A file that is missing may also have been made, and be empty."""
    return (None, b"") if content is None else (content,)


def pairs(log, main, call):
    """What a stop before a call may leave of both files. At most one of them is neither as written nor as synced."""
    for (of_log, one), (of_main, other) in itertools.product(leavings(log, "log", call), leavings(main, "main", call)):
        if WHOLE in (of_log, of_main):
            kind = of_main if of_log == WHOLE else of_log
            yield from ((kind, Pair(*it)) for it in itertools.product(present(one), present(other)))


# ---- the program


def put(pair):
    """Makes the two files, and gives the name of the main one."""
    name = f"{next(names)}.db"
    for end, content in ("-wal", pair.log), ("", pair.main):
        if content is not None:
            with open(name + end, "wb") as it:
                it.write(content)
    return name


def content_of(path):
    with contextlib.suppress(FileNotFoundError), open(path, "rb") as it:
        return it.read()


def taken(name):
    """What the two files have. They are removed, and what was made beside them."""
    pair = Pair(content_of(f"{name}-wal"), content_of(name))
    for end in "", "-wal", "-shm", "-calls":
        with contextlib.suppress(FileNotFoundError):
            os.remove(name + end)
    return pair


def run(requests, name=None, **variables):
    """How the program ends with these requests on standard input, over a book in memory or in the file."""
    words = [program.path(), "run", "--token", OFFICE, *(["--db", name] if name else [])]
    sent = b"".join(wire.message(*it) for it in requests)
    how = {"capture_output": True, "timeout": 60, "close_fds": False, "env": {**os.environ, **variables}}
    return subprocess.run(words, input=sent, **how)


def watched(requests, pair, **variables):
    """The same over these two files: also what it says, its calls, and what it leaves."""
    name = put(pair)
    ended = run(
        requests, name, LD_PRELOAD=os.path.abspath("calls.so"), BOOK=os.path.realpath(name), CALLS=f"{name}-calls", **variables
    )
    calls = [*noted(f"{name}-calls")]
    return ended, ended.stderr.decode().replace(name, "FILE"), calls, taken(name)


def rows_in(name):
    """The rows of all tables as SQLite reads them; None where it reads nothing."""
    try:
        with contextlib.closing(sqlite3.connect(name)) as it:
            tables = it.execute("SELECT name FROM sqlite_schema WHERE type = 'table' ORDER BY rowid").fetchall()
            return [(table, it.execute(f"SELECT * FROM {table}").fetchall()) for table, in tables]
    except sqlite3.DatabaseError:
        return None


def rows_of(pair):
    """The same of a copy of these files."""
    name = put(pair)
    rows = rows_in(name)
    taken(name)
    return rows


def found_in(pair, looks):
    """The rows that SQLite reads from the files, and what is found once the program has opened them."""
    before, name = rows_of(pair), put(pair)
    ended = run(looks, name)
    found = Found(rows_in(name), ended.stdout if ended.returncode == 0 else ended.stderr)
    taken(name)
    return before, found


# ---- trials

FILES = {"the log": ("log",), "the main file": ("main",), "both files": ("log", "main")}


class Trial:
    """Requests to the book in two files, after `earlier` ones, to which a new book has the same rows. With a step only each so
    many places are tried, and those about a copy of the log."""

    def __init__(self, name, start, earlier, requests, looks, step=1):
        self.name, self.start, self.step = name, start, step
        self.earlier, self.requests, self.looks = [*earlier], [*requests], [*looks]

    def prepare(self):
        """Has the program run with no stop, and looks at what is found after each number of requests that is asked for later."""
        ended, said, self.calls, left = watched(self.requests, self.start)
        self.replies = wire.replies(ended.stdout)
        expect(f"{self.name}: the run", (0, 1), (ended.returncode, said.count("\n")))
        over_memory = wire.replies(run([*self.earlier, *self.requests]).stdout)[len(self.earlier) :]
        expect(f"{self.name}: the replies are those over memory", over_memory, self.replies)
        *_, (log, main, *_) = self.moments()
        expect(f"{self.name}: the calls make the files", True, (log.written(), main.written()) == left)
        expect(f"{self.name}: other calls", [], [it for it in self.calls if it.what in ("remove", "fail")])
        self.opened = next(at for at, it in enumerate(self.calls) if it.file == "error")
        self.before, self.found, self.places = rows_of(self.start), {}, self.chosen_places()
        counted = [count for at, (*_, count, _, _) in enumerate(self.moments()) if at in self.places]
        self.find({it for count in counted for it in (count, count + 1) if it <= len(self.requests)})
        return self

    def moments(self):
        """Before each call, and in the end: the two files, how many replies were acknowledged, whether the opening was, and the
        call."""
        log, main = (File.first(it) for it in self.start)
        ends = [*itertools.accumulate(len(it) for it in self.replies)]
        written, is_opened = 0, False
        for call in (*self.calls, Call("end", "", 0, b"")):
            yield log, main, bisect.bisect(ends, written), is_opened, call
            log, main = log.after("log", call), main.after("main", call)
            written += len(call.data) if call.file == "output" else 0
            is_opened = is_opened or call.file == "error"

    def chosen_places(self):
        """Before which calls the machine stops."""
        copies = [at for at, it in enumerate(self.calls) if it.file == "main" and at > self.opened]
        expect(f"{self.name}: the log is copied between replies", self.step > 1, bool(copies))
        every = range(0, len(self.calls) + 1, self.step)
        return {*every, len(self.calls), *(range(copies[0] - 20, copies[-1] + 20) if copies else ())}

    def numbers(self, which):
        """From which of its calls on a file fails, each with its place among all calls. The last one does not come."""
        places = [at for at, it in enumerate(self.calls) if it.file in FILES[which]]
        for number, at in enumerate(places):
            is_short = self.step == 1 and self.calls[at].what not in READS
            if at in self.places and (number % FEW == 0 or is_short):
                yield number, at
        yield len(places), len(self.calls)

    def find(self, counts):
        """What is found after so many requests, with the program ended after each of these numbers."""
        pair, done = self.start, 0
        for count in sorted(counts):
            name = put(pair)
            ended = run(self.requests[done:count], name)
            expect(f"{self.name}: after {count} requests", 0, ended.returncode)
            pair, done = taken(name), count
            before, found = found_in(pair, self.looks)
            asked = [*self.earlier, *self.requests[:count]]
            over_memory = wire.replies(run([*asked, *self.looks]).stdout)[len(asked) :]
            expect(f"{self.name}: what is seen after {count} requests", over_memory, wire.replies(found.replies))
            expect(f"{self.name}: SQLite's rows after {count} requests", True, before == found.rows)
            self.found[count] = found

    def is_after(self, count, before, found):
        return count in self.found and found == self.found[count] and before == found.rows

    def is_promised(self, stop, before, found):
        """Whether this may be found after a stop: how many requests were acknowledged, whether one more may be there, and
        whether the opening was acknowledged."""
        count, may_be_next, is_opened = stop
        if not is_opened:
            is_unmade = before is None and not self.before
            return found == self.found[0] and (is_unmade or before in (self.before, found.rows))
        return self.is_after(count, before, found) or may_be_next and self.is_after(count + 1, before, found)

    def describe(self, before, found):
        """After how many requests there are such rows, before and after an opening, and such replies; what it says if it fails."""
        after = [
            (count, it.rows == before, it.rows == found.rows, it.replies == found.replies) for count, it in self.found.items()
        ]
        return [it for it in after if any(it[1:])], found.replies if found.replies.startswith(b"bsp_office: ") else b""


class Kind:
    """The stops of one kind."""

    def __init__(self, trial):
        self.trial, self.count, self.next, self.unread, self.wrong = trial, 0, 0, 0, []

    def add(self, where, stop, before, found):
        count, _, is_opened = stop
        self.count += 1
        self.next += is_opened and not self.trial.is_after(count, before, found)
        self.unread += before is None
        if not self.trial.is_promised(stop, before, found):
            self.wrong.append((where, stop, self.trial.describe(before, found)))

    def report(self, what):
        """Prints the number of stops, and expects that there are some and that none is wrong."""
        kept = f", {self.next} kept the next request" if self.next else ""
        unread = f", {self.unread} are not read by SQLite" if self.unread else ""
        print(f"{self.trial.name}: {what}: {self.count} stops{kept}{unread}", flush=True)
        expect(f"{self.trial.name}: {what}", (True, 0, []), (self.count > 0, len(self.wrong), self.wrong[:3]))
        return self.count


class Pool(concurrent.futures.ThreadPoolExecutor):
    """Takes only so much work at a time that few files are held in memory."""

    def __init__(self):
        super().__init__(os.cpu_count())
        self.room = threading.Semaphore(32)

    def take(self, *work):
        self.room.acquire()
        doing = self.submit(*work)
        doing.add_done_callback(lambda _: self.room.release())
        return doing


def stops(trial, pool):
    """Stops before each call, and tries each pair of files once."""
    tried, stopped = {}, []
    for at, (log, main, count, is_opened, call) in enumerate(trial.moments()):
        # a read changes nothing: a stop before it is one before the next call
        is_tried = at in trial.places and call.what not in READS
        for kind, pair in pairs(log, main, call) if is_tried else ():
            key = tuple(it if it is None else hashlib.sha256(it).digest() for it in pair)
            if key not in tried:
                tried[key] = pool.take(found_in, pair, trial.looks)
            stopped.append((kind, f"before call {at}", (count, True, is_opened), tried[key]))
    kinds = {it: Kind(trial) for it in (WHOLE, TORN, SOME)}
    for kind, where, stop, doing in stopped:
        kinds[kind].add(where, stop, *doing.result())
    return sum(it.report(what) for what, it in kinds.items())


# ---- files that fail

ANSWERED = re.compile(r"bsp_office: (GET|POST) \S+ 503 B03 14: disk I/O error")
CAUSES = "disk I/O error|unable to open database file|the database was closed by an earlier failure"
NOT_OPENED = re.compile(rf"bsp_office: FILE: B03 ({CAUSES})\n")


def failed(trial, fail):
    """A run whose files fail: how it ended, what it said, whether a call failed, and what is then found."""
    ended, said, calls, _ = watched(trial.requests, trial.start, FAIL=fail)
    log, main = (File.first(it) for it in trial.start)
    for call in calls:
        log, main = log.after("log", call), main.after("main", call)
    left = {*itertools.product((log.synced(), log.written()), (main.synced(), main.written()))}
    return ended, said, any(it.what == "fail" for it in calls), [found_in(Pair(*it), trial.looks) for it in left]


def judged(trial, ended, said):
    """How a run whose files fail was stopped, as `is_promised` takes it, and whether it ended as promised."""
    if NOT_OPENED.fullmatch(said):
        return (0, False, False), (ended.returncode, ended.stdout) == (3, b"")
    replies, lines = wire.replies(ended.stdout), said.splitlines()[1:]
    count = replies.index(FAILED) if FAILED in replies else len(replies)
    failures = len(trial.requests) - count
    is_right = (
        ended.returncode == 0
        and replies == trial.replies[:count] + [FAILED] * failures
        and len(lines) == failures
        and all(ANSWERED.fullmatch(it) for it in lines)
    )
    return (count, failures > 0, True), is_right


def failures(trial, pool):
    """Has the log, the main file or both fail."""
    count = 0
    for which, files in FILES.items():
        kind, numbers = Kind(trial), [*trial.numbers(which)]
        runs = [pool.take(failed, trial, f"{','.join(files)} {number}") for number, _ in numbers]
        for (number, at), doing in zip(numbers, runs):
            ended, said, has_failed, left = doing.result()
            stop, is_right = judged(trial, ended, said)
            goes_on = has_failed and stop == (len(trial.requests), False, True)
            if not is_right or has_failed != (at < len(trial.calls)) or goes_on:
                kind.wrong.append((number, has_failed, ended.returncode, said, ended.stdout[-200:]))
            for it in left:
                kind.add(f"{which} from call {number} on", stop, *it)
        count += kind.report(f"{which} failing from {len(runs) - 1} calls on")
    return count


# ---- the books


def book_of(requests):
    """The two files of a book after these requests, with the program ended."""
    name = put(NO_FILES)
    run(requests, name)
    return taken(name)


def old_book(version):
    """Those of the book of a version in samples/books/."""
    name = put(NO_FILES)
    books.changed(name, books.text_of(version))
    return taken(name)


def sales():
    """Sales, each in a request of its own."""
    yield of_office("POST", "stock/allot", f'{{"agent":"{A}","first":"1500000000","last":"1500000999"}}')
    for number in range(SALES):
        yield of_agent(A, "POST", "ret", books.sale_of(1500000000 + number))


def looking_at_both():
    """Both periods of a book of an earlier version."""
    return [*books.looking_at(), *books.looking_at("24012")]


def new_book():
    return Trial("a new book", NO_FILES, [], [*books.setting_up(), *books.working()], books.looking())


def from_version(version):
    return Trial(f"from version {version}", old_book(version), books.requests(version), books.going_on(), looking_at_both())


def opened_again():
    setting_up, working = [*books.setting_up()], [*books.working()]
    earlier = setting_up + working[:5]
    return Trial("opened again", book_of(earlier), earlier, working[5:10], books.looking())


def long_log():
    return Trial("a long log", NO_FILES, [], [*books.setting_up(), *sales()], books.looking(), step=10 * FEW)


TRIALS = {
    "a new book": new_book,
    "from version 1": lambda: from_version(1),
    "from version 2": lambda: from_version(2),
    "opened again": opened_again,
    "a long log": long_log,
}


@pytest.fixture(autouse=True)
def shim():
    """The shim that notes the calls of a file, or has them fail."""
    shims.built("calls")


@pytest.mark.parametrize("name", TRIALS)
def test_nothing_is_lost_that_was_acknowledged(name):
    with Pool() as pool:
        trial = TRIALS[name]().prepare()
        count = stops(trial, pool) + failures(trial, pool)
    print(f"{count} stops")
