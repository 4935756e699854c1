"""The built programs with their first allocation refused, then with their second, and so on until a run refuses none:
- bsp_record_examples on a page with each call of fields and RET files that takes memory, and a run of requests with reports.
  A call then answers as with ample memory, or names the lack of memory; the same case after it answers as with ample memory.
- bsp_office on words and files. It ends as with ample memory, or with status 3, no output and the line that memory was short.
- its command `run`, which is sent each request of some conversations twice; these have each request of docs/API.md. Each reply
  is that of ample memory; or one is 503 B01, and the same request after it has the reply of ample memory to the first of the two.
- the same over a book in a file, for each allocation of a short conversation, one in 23 of three others (--one-in), and one in forty of
  the opening before them; the file is then opened again, and of several with the same bytes one is.
- the same over books of earlier versions, of samples/books/, for the first hundred allocations and one in forty after them; the
  file is then opened again, and shows what ample memory shows.
- its command `audit` on such a file and on a damaged one, and an opening of the damaged one, for the first hundred allocations and
  one in forty after them: it reports as with ample memory, or prints nothing, with status 3 and the line that memory was short. Of
  the damaged one it may say no more than that it is damaged."""
import concurrent.futures
import contextlib
import hashlib
import itertools
import os
import pathlib
import re
import shlex
import shutil
import sqlite3
import subprocess
import threading
import typing

import pytest

from support import examples, program, shims, wire
from support.callers import OFFICE
from support.compare import expect
from support.tree import EXAMPLES, SAMPLES, example_file, sample
from support.wire import replies

SHORT = re.compile(rb"bsp_office: .*out of memory\n")
NOTES = re.compile(rb"(bsp_office: (\S+\.db: (new book|day .*)|[A-Z]+ /\S* 503 B01 14)\n)*")
# how a call names the lack of memory
LACKS = re.compile(rb"F10|NoRoom|out of memory|standard input or output failed")
JUDGE = "judge --plan plan.toml --day 2024-01-05 --agent 12345675 --stock 1300000000-1300000099"
WORDS = [
    "check v1.ret",
    "check kinds.ret",
    "check two.ret",
    "check sum.ret",
    "hotcheck v3.hot",
    "hotcheck taxed.hot",
    "hotcheck short.hot",
    "--help",
    "--version",
    "check --help",
    "",
    "check",
    "report v1.ret",
    "check --unknown",
    "hotcheck v3.hot v3.hot",
    "check --quiet sum.ret",
    "explain",
    "explain E07",
    "explain E99",
    "plan plan.toml",
    "plan taxed.toml --after plan.toml",
    "plan v1.ret",
    "body 'POST /office/day' day.json",
    "body 'POST /office/day' late.json",
    "body 'POST /office/day' none.json",
    "body 'POST /office/stock/allot' range.json",
    "body 'POST /office/ret' sum.ret",
    "body 'POST /office/plan' v1.ret",
    "body 'POST /x' v1.ret",
    f"{JUDGE} v1.ret",
    f"{JUDGE} --file v1.ret kinds.ret",
    f"{JUDGE} sum.ret",
]
CONVERSATIONS = [
    "05-sale",
    "11b-cancelled-in-one-file",
    "14-memos",
    "16-reports",
    "19-stock",
    "23b-malformed-bodies",
    "38-reduced-memo",
    "50-commission-tax",
    "53b-exchange-of-two-cancelled",
    "callers-refused",
    "memo-actions",
]
# those of which the same is tried over a book in a file: the rows of the first are in all tables but that of memos
KEPT = ["exchange-once", "14-memos", "16-reports", "19-stock"]


@pytest.fixture(autouse=True)
def shim():
    """The shim that refuses an allocation."""
    shims.built("refuse")


class Run(typing.NamedTuple):
    """How a program ended, and whether an allocation was refused."""

    status: int
    out: bytes
    err: bytes
    is_refused: bool = True


def preloaded(**names):
    """The variables of the shim, beside those of this process."""
    return {**os.environ, "LD_PRELOAD": os.path.abspath("refuse.so"), **names}


def run(words, text, number):
    """Runs the words with the allocation of this number refused; with 0 none is."""
    mark = pathlib.Path(f"mark-{number}")
    names = preloaded(REFUSED_ALLOCATION=str(number), REFUSAL_MARK=str(mark))
    ended = subprocess.run(words, input=text, capture_output=True, env=names, timeout=60)
    is_refused = mark.exists()
    mark.unlink(missing_ok=True)
    return Run(ended.returncode, ended.stdout, ended.stderr, is_refused)


def expect_right(what, ample, found, number, is_right):
    """A judge says that a run with the allocation of this number refused is right."""
    expect(f"{what}, allocation {number} refused: {found[:3]}, and {ample[:3]} with ample memory", True, is_right)


def expect_some(what, count):
    """Some allocation was refused."""
    expect(f"{what}: some allocation was refused", True, count > 0)
    print(f"{what}: {count} allocations refused in turn")


def with_children(words, text):
    """Runs the words, with a child at each allocation in which it is refused: the run itself, and that of each child."""
    pathlib.Path("given").write_bytes(text)
    with open("given", "rb") as given, open("out", "wb") as out, open("err", "wb") as err:
        names = preloaded(REFUSALS=os.path.abspath("refused"))
        status = subprocess.run(words, stdin=given, stdout=out, stderr=err, env=names, timeout=600).returncode
    ample = Run(status, *(pathlib.Path(it).read_bytes() for it in ("out", "err")), False)
    return ample, children(ample)


def children(ample):
    """How each child ended: it put out what the run itself did before it, and then its own."""
    out, err = (pathlib.Path(f"refused.{it}").read_bytes() for it in ("out", "err"))
    out_at = err_at = 0
    for line in pathlib.Path("refused.ended").read_text().splitlines():
        ended, out_before, err_before, out_more, err_more = map(int, line.split())
        own_out, own_err = out[out_at : out_at + out_more], err[err_at : err_at + err_more]
        out_at, err_at = out_at + out_more, err_at + err_more
        yield Run(os.waitstatus_to_exitcode(ended), ample.out[:out_before] + own_out, ample.err[:err_before] + own_err)


def each_child_refused(what, words, text, judge):
    """Judges a run for each allocation, over nothing but the text and files that are not changed."""
    count = 0
    ample, found = with_children(words, text)
    expect(f"{what}: the run that has the children", run(words, text, 0), ample)
    for count, it in enumerate(found, 1):
        expect_right(what, ample, it, count, judge(ample, it, count))
    expect_some(what, count)


def each_refused(what, words_of, text, judge, numbers):
    """Judges a run for each of these allocations, up to the first that refuses none."""
    ample, count = run(words_of(0), text, 0), 0

    def judged(number):
        found = run(words_of(number), text, number)
        return found, judge(ample, found, number)

    with concurrent.futures.ThreadPoolExecutor(4) as pool:
        while True:
            batch = list(itertools.islice(numbers, 64))
            for number, (found, is_right) in zip(batch, pool.map(judged, batch)):
                if not found.is_refused:
                    expect_some(what, count)
                    return
                count += 1
                expect_right(what, ample, found, number, is_right)


def last_refused(words, text):
    """How many allocations a run of these words has; they may be a function of the number of the one that is refused."""
    words_of = words if callable(words) else lambda _: words
    least, most = 0, 1 << 20
    while most - least > 1:
        number = (least + most) // 2
        least, most = (number, most) if run(words_of(number), text, number).is_refused else (least, number)
        removed(number)
    return least


def is_same(ample, found):
    return found[:3] == ample[:3]


# ---- pages of cases


def is_page(ample, found, _number):
    """The page is the same, but for one line at most that names the lack of memory; or it ends there, by status 1."""
    lines, wanted = found.out.splitlines(), ample.out.splitlines()
    if found.status == 1:
        return LACKS.search(found.err) is not None and wanted[: max(len(lines) - 1, 0)] == lines[:-1]
    others = [(line, it) for line, it in zip(lines, wanted) if line != it]
    is_whole = found.status == 0 and not found.err and len(lines) == len(wanted)
    return is_whole and len(others) <= 1 and all(LACKS.search(line) for line, _ in others)


def test_a_page_of_calls():
    records = program.EXAMPLES
    page = (records.parents[1] / "data" / "calls").read_bytes()
    each_child_refused(records.name, [records], page, is_page)


# ---- words


def is_same_or_failed(ample, found, _number):
    return is_same(ample, found) or (found.status == 3 and not found.out and SHORT.fullmatch(found.err) is not None)


def is_same_or_quiet(ample, found, number):
    return is_same_or_failed(ample, found, number) or (found.status == 3 and not found.out and not found.err)


def files():
    """The files of the words, each with its bytes."""
    hot, kinds = sample("no-documents.hot"), example_file("kinds.ret")
    return {
        "v1.ret": sample("sale.ret"),
        "kinds.ret": kinds,
        "v3.hot": hot,
        "short.hot": b"".join(hot.splitlines(True)[:3]),
        "sum.ret": kinds.replace(b"7551A", b"7552A"),
        "two.ret": sample("exchange-of-two.ret"),
        "taxed.hot": sample("commission-tax.hot"),
        "plan.toml": sample("plan.toml"),
        "taxed.toml": sample("commission-tax.toml"),
        "day.json": b'{"day":"2024-01-05"}',
        "late.json": b'{"day":"2024-02-30"}',
        "none.json": b'{"day":"2024-01-05"}}',
        "range.json": b'{"agent":"12345670","first":"1300000000","last":"1300000099"}',
    }


@pytest.mark.parametrize("line", WORDS)
def test_words(line):
    """Files and words, some of them wrong."""
    for name, text in files().items():
        pathlib.Path(name).write_bytes(text)
    judge = is_same_or_quiet if "--quiet" in line else is_same_or_failed
    each_child_refused(f"bsp_office {line}", [program.path(), *shlex.split(line)], b"", judge)


# ---- conversations


def message(entry):
    """A request of an example as it is sent."""
    return wire.message(entry.method, entry.path, entry.token, entry.body)


def is_lacking(reply):
    return reply.startswith(b"HTTP/1.1 503 ") and reply.endswith(b'{"code":"B01"}')


lacking, tried = 0, []
one_counts = threading.Lock()


def is_answered(ample, found, _number):
    """Each reply is that of ample memory, but for one of 503 B01 at most; or there is none, by status 3."""
    global lacking
    if is_same(ample, found):
        return True
    if found.status == 3:
        return not found.out and (NOTES.fullmatch(found.err) or SHORT.fullmatch(found.err)) is not None
    wanted, came = replies(ample.out), replies(found.out)
    at = next((it for it, pair in enumerate(zip(wanted, came)) if pair[0] != pair[1]), len(came))
    if found.status != 0 or at == len(came) or not is_lacking(came[at]) or not NOTES.fullmatch(found.err):
        return False
    with one_counts:
        lacking += 1
    if b"Connection: close" in came[at]:
        return at + 1 == len(came) and b" 503 B01 14\n" in found.err
    again = [wanted[at]] if at % 2 == 0 else []
    return came[at + 1 :] == again + wanted[at + 1 + len(again) :] and b" 503 B01 14\n" in found.err


def twice(name):
    """The requests of an example, each twice, after those that come before it."""
    _, entries = examples.conversations(EXAMPLES / f"{name}.hurl")[0]
    return b"".join(message(it) * 2 for it in entries)


@pytest.mark.xdist_group("conversations")
@pytest.mark.parametrize("name", CONVERSATIONS)
def test_a_conversation(name):
    each_child_refused(name, [program.path(), "run", "--token", OFFICE], twice(name), is_answered)
    tried.append(name)


@pytest.mark.xdist_group("conversations")
def test_some_reply_was_503_b01():
    """Of the conversations above."""
    if tried != CONVERSATIONS:
        pytest.skip("some conversations were not tried")
    assert lacking > 0


def over(number):
    return [program.path(), "run", "--token", OFFICE, "--db", f"{number}.db"]


def removed(number):
    for it in pathlib.Path().glob(f"{number}.db*"):
        it.unlink()


def over_new(number):
    """The words of an office over a new book."""
    removed(number)
    return over(number)


def opened_again(text):
    """Opens the book that a run left, and takes it away: how an office over it ended that was sent this text, and what that put out.
    Of several books with the same bytes the first alone is opened."""
    found = {}

    def ended(number):
        files = hashlib.sha256()
        for it in sorted(pathlib.Path().glob(f"{number}.db*")):
            files.update(b"%s %d " % (it.suffix.encode(), it.stat().st_size) + it.read_bytes())
        book = files.digest()
        if book not in found:
            again = subprocess.run(over(number), input=text, capture_output=True, timeout=60)
            found[book] = again.returncode, again.stdout
        removed(number)
        return found[book]

    return ended


def is_kept(asked):
    """The same; and the file opens again, with an answer to each of these requests for a report."""
    again = opened_again(b"".join(asked))

    def judge(ample, found, number):
        status, out = again(number)
        found = found._replace(err=found.err.replace(b"%d.db" % number, b"0.db"))
        answered = [it for it in replies(out) if re.match(rb"HTTP/1.1 [24]0\d ", it)]
        return is_answered(ample, found, number) and status == 0 and len(answered) == len(asked)

    return judge


@pytest.mark.parametrize("name", KEPT)
def test_a_conversation_over_a_file(name, request):
    opened = last_refused(over_new, b"")
    _, entries = examples.conversations(EXAMPLES / f"{name}.hurl")[0]
    asked = [message(it) for it in entries if it.method == "GET"]
    # the opening is the same for each, and the first conversation is the short one
    is_short, one_in = name == KEPT[0], request.config.getoption("one_in")
    later = itertools.count(opened + 1, 1 if is_short else one_in)
    numbers = itertools.chain(range(1, opened, 1 if one_in == 1 else 40), later) if is_short else later
    each_refused(name, over_new, twice(name), is_kept(asked), numbers)


# ---- books of earlier versions


def migrated(version):
    """The words of an office over a copy of a book of that version."""

    def words(number):
        removed(number)
        shutil.copy(f"version-{version}.db", f"{number}.db")
        return over(number)

    return words


def is_migrated(text):
    """The same, or no reply by status 3; and the file opens again, with the replies of ample memory."""
    again = opened_again(text)

    def judge(ample, found, number):
        opened = again(number)
        found = found._replace(err=found.err.replace(b"%d.db" % number, b"0.db"))
        return is_answered(ample, found, number) and opened == (0, ample.out)

    return judge


@pytest.mark.parametrize("version", [1, 2])
def test_a_book_of_an_earlier_version(version):
    """For the first hundred allocations and one in forty after them."""
    looks = [
        ("agents/12345675/statements/24011", "agenttoken000001"),
        ("agents/76543213/memos", "agenttoken000002"),
        ("airlines/125/hot/24011", "airlinetoken0125"),
        ("office/settlement/24011", OFFICE),
    ]
    text = b"".join(wire.message("GET", f"/{path}", token) * 2 for path, token in looks)
    with contextlib.closing(sqlite3.connect(f"version-{version}.db", isolation_level=None)) as it:
        it.executescript((SAMPLES / "books" / f"version-{version}.sql").read_text())
    each_refused(f"a book of version {version}", migrated(version), text, is_migrated(text), some_numbers())


def some_numbers():
    """The first hundred allocations, and one in forty after them."""
    return itertools.chain(range(1, 100), itertools.count(101, 40))


# ---- audits, and openings of a damaged book


def audited(book):
    """The words of an audit of a copy of that book."""

    def words(number):
        removed(number)
        shutil.copy(f"{book}.db", f"{number}.db")
        return [program.path(), "audit", f"{number}.db"]

    return words


def is_as_it_was(book, number):
    """Whether the copy is as it was; it is taken away."""
    is_kept = pathlib.Path(f"{number}.db").read_bytes() == pathlib.Path(f"{book}.db").read_bytes()
    pathlib.Path(f"{number}.db").unlink()
    return is_kept


def is_audited(book):
    """The report on the copy, perhaps without what damages it, or the line that memory was short; the copy is as it was
    and has no log."""

    def judge(ample, found, number):
        bare = ample._replace(out=re.sub(rb"B02\n.*\n", b"B02\nno book, or a damaged one\n", ample.out))
        is_right = is_same_or_failed(ample, found, number) or is_same(bare, found)
        is_right = is_as_it_was(book, number) and is_right
        return is_right and not list(pathlib.Path().glob(f"{number}.db*"))

    return judge


def opened(number):
    """The words of an office over a copy of the damaged book."""
    audited("damaged")(number)
    return over(number)


def is_not_opened(ample, found, number):
    """What damages the copy, or that it is damaged alone, or the line that memory was short; the copy is as it was."""
    found = found._replace(err=found.err.replace(b"%d.db" % number, b"0.db"))
    bare = ample._replace(err=re.sub(rb"(B02 no book, or a damaged one): .*", rb"\1", ample.err))
    is_right = is_same_or_failed(ample, found, number) or is_same(bare, found)
    is_right = is_as_it_was("damaged", number) and is_right
    removed(number)
    return is_right


@pytest.fixture
def two_books():
    """A book, and one like it that is damaged, both without a log."""
    assert program.run("run", "--token", OFFICE, "--db", "book.db", text=twice(KEPT[0])).status == 0
    with contextlib.closing(sqlite3.connect("book.db")) as it:
        it.execute("PRAGMA wal_checkpoint")
    shutil.copy("book.db", "damaged.db")
    with contextlib.closing(sqlite3.connect("damaged.db", isolation_level=None)) as it:
        it.execute("UPDATE tally SET living = living + 1")


@pytest.mark.parametrize("book", ["book", "damaged"])
def test_an_audit(book, two_books):
    each_refused(f"audit, {book}", audited(book), b"", is_audited(book), some_numbers())


def test_an_opening_of_a_damaged_book(two_books):
    each_refused("run --db, damaged", opened, b"", is_not_opened, some_numbers())
