"""A book in a file, which SQLite's own library reads too.

The requests of a month, with the program killed after each reply, are answered as over a book in memory; sales that were answered
before a kill at any moment are there afterwards; the file passes SQLite's integrity check; a book that SQLite wrote is opened, and
has nothing of a transaction that was left open; the queries of docs/TABLES.md agree with the replies; the examples 22, 26, 27, 41
to 43 and 49 of examples/README.md are as it says; a book of 10,000 requests, opened again, gives the same statements; and a file
that is no book, or is a damaged one (damages.py), is refused with its status and one line on standard error."""
import contextlib
import http.client
import os
import pathlib
import random
import re
import shutil
import sqlite3
import subprocess
import sys
import tempfile
import threading

import damages
import pytest
from books import (
    answers,
    ask,
    billed_memos,
    dump_of,
    looking,
    opened,
    rows_of,
    sale_of,
    setting_up,
    working,
)

from support import program
from support.callers import A, B, OFFICE, TOKENS, of_agent, of_office
from support.compare import expect, expect_end
from support.records import minor_units, trailer
from support.served import Office
from support.tree import TOP, example_file, page, sample

sys.path.append(str(TOP / "bench" / "desk"))
import make_requests  # noqa: E402


def over(file):
    """The words of an office over this file."""
    return [program.path(), "run", "--token", OFFICE, "--db", file]


def statement_net(text):
    """The net of a statement or the total of a settlement, in minor units."""
    return minor_units(text.split()[-1])


# ---- a month


REQUESTS = [*setting_up(), *working(), *looking()]


@pytest.fixture(scope="module")
def month():
    """The replies to a month over memory; those over a file, in which the program was killed after each reply; the folder of the
    file; and what SQLite says of it, which writes its log into it."""
    with tempfile.TemporaryDirectory() as folder:
        served = opened()
        wanted = answers(served, REQUESTS)
        served.kill()
        found = []
        for request in REQUESTS:
            served = opened(f"{folder}/office.db")
            found.append(ask(served, request))
            served.kill()
        yield wanted, found, folder, rows_of(f"{folder}/office.db", "PRAGMA integrity_check")


@pytest.fixture
def replies(month):
    """The replies to a month, whose book is in the file office.db."""
    wanted, _, folder, _ = month
    shutil.copy(f"{folder}/office.db", "office.db")
    return wanted


def test_all_is_answered_over_memory(month):
    assert [it for it in month[0] if it[0] == 503] == []


@pytest.mark.parametrize("number", range(len(REQUESTS)), ids=[f"{at} {it[0]} {it[1]}" for at, it in enumerate(REQUESTS)])
def test_a_reply_over_a_file_is_that_over_memory(number, month):
    wanted, found, *_ = month
    assert found[number] == wanted[number]


def test_integrity(month):
    assert month[3] == [("ok",)]


# ---- books of other requests


TALLIES = """SELECT tally.*, tax FROM tally LEFT JOIN tally_tax USING (agent, airline, period)
    WHERE period IN ('24011', '24012') ORDER BY agent, airline, period"""


def kept_tallies(file, requests, wanted):
    """A book of the requests has these tallies. The last request is accepted."""
    served = opened(file)
    replies = answers(served, requests)
    expect(f"{file}: the last reply", 200, replies[-1][0])
    served.kill()
    expect(f"{file}: its tallies", wanted, rows_of(file, TALLIES))


def test_example_42():
    """The tallies of the closed period of example 16."""
    work = [of_agent(A, "POST", "ret", sample(it)) for it in ("sale.ret", "card-sale.ret")]
    close = [of_office("POST", "day", '{"day":"2024-01-16"}'), of_office("POST", "close", '{"period":"24011"}')]
    kept_tallies(
        "closed.db",
        [*setting_up(), *work, *billed_memos(), *close],
        [
            # accepted, living, canx, memo_count, cash, credit, commission, memos, tax
            (A, "125", "24011", 1, 1, 0, 0, 23500, 0, 1000, 0, 190),
            (A, "220", "24011", 1, 1, 0, 1, 0, 10000, 0, 3000, 0),
            (B, "125", "24011", 0, 0, 0, 1, 0, 0, 0, -5000, 0),
        ],
    )


def test_examples_26_and_27():
    """Six tickets posted by their agent, and one by another."""
    served = opened("six.db")
    answers(served, setting_up())
    found = ask(served, of_agent(A, "POST", "ret", sample("six-tickets.ret")))[1]
    wanted = ["accepted", "held", "E06", "E05", "E07", "E03"]
    expect("six tickets", wanted, re.findall(r'"verdict":"(\w+)"', found))
    reply = ask(served, of_agent(B, "POST", "ret", sample("sale.ret")))
    expect("a sale of another agent", (200, '{"results":[{"n":1,"verdict":"E02"}]}'), reply)
    reply = ask(served, of_agent(B, "GET", "periods/24011"))
    expect("its net", (200, '{"closed":false,"documents":0,"net":"0.00","period":"24011"}'), reply)
    served.kill()


def canx_of_sale():
    """A CANX of the sale of samples/sale.ret, issued on 2024-01-16."""
    sale = sample("sale.ret").decode().splitlines()
    lines = [sale[0].replace("240105", "240116"), sale[1].replace("TKTT", "CANX").replace("240105", "240116")]
    return "\n".join([*lines, trailer(3, 1, 0).rstrip("\n"), ""]).encode()


def test_example_43():
    """A sale, and its CANX in the next period. With other cash in the tally the book is damaged."""
    cancelled = [
        of_agent(A, "POST", "ret", sample("sale.ret")),
        of_office("POST", "day", '{"day":"2024-01-16"}'),
        of_agent(A, "POST", "ret", canx_of_sale()),
    ]
    kept_tallies(
        "cancelled.db",
        [*setting_up(), *cancelled],
        [
            (A, "125", "24011", 1, 0, 0, 0, 0, 0, 0, 0, 0),
            (A, "125", "24012", 1, 0, 1, 0, 0, 0, 0, 0, 0),
        ],
    )
    with contextlib.closing(sqlite3.connect("cancelled.db", isolation_level=None)) as it:
        it.execute("UPDATE tally SET cash = 1 WHERE period = '24011'")
    refusal("other cash", "cancelled.db", DAMAGED + ': tally "12345675" "125" "24011"', 1)


def test_the_order_of_airlines_and_taxes_is_kept():
    """Airlines that do not rise are kept as they were published, and a sale with two taxes as it was reported."""
    plan = sample("plan.toml").replace(b'["125", "220"]', b'["220", "125"]')
    taxes = sample("sale.ret").replace(b"RA0000000350{" + 13 * b" ", b"AB0000000100{RA0000000250{")
    further = plan.replace(b'["220", "125"]', b'["005"]')
    requests = [
        *(of_office("POST", "plan", it) for it in (plan, further)),
        *list(setting_up())[1:4],
        of_agent(A, "POST", "ret", taxes),
    ]
    for verdict in "accepted", "held":
        served = opened("order.db")
        reply = answers(served, requests)[-1]
        expect("a sale with two taxes", (200, f'{{"results":[{{"n":1,"period":"24011","verdict":"{verdict}"}}]}}'), reply)
        served.kill()
    expect(
        "airlines", [("220", 1), ("125", 2), ("005", 3)], rows_of("order.db", "SELECT code, place FROM airline ORDER BY place")
    )


def granted(file, requests):
    """A book takes these requests. It is opened before, and closed after them."""
    served = opened(file)
    expect(f"{file}: requests", [200 for _ in requests], [it[0] for it in answers(served, requests)])
    served.kill()


def test_airlines_with_places_and_tokens():
    """An airline has one row, with its place, its token or both. No request registers an airline that no plan has, but a
    file may have one."""
    plan, file = sample("plan.toml"), "airlines.db"
    register = of_office("POST", "airlines", f'{{"airline":"220","token":"{TOKENS["220"]}"}}')
    granted(file, [of_office("POST", "plan", plan), register])
    with contextlib.closing(sqlite3.connect(file, isolation_level=None)) as it:
        it.execute("INSERT INTO airline VALUES ('999', NULL, 'airlinetoken0999')")
    granted(file, [of_office("POST", "plan", plan.replace(b'["125", "220"]', b'["005", "999"]'))])
    wanted = [("005", 3, None), ("125", 1, None), ("220", 2, TOKENS["220"]), ("999", 4, "airlinetoken0999")]
    expect("airlines with places and tokens", wanted, rows_of(file, "SELECT * FROM airline ORDER BY code"))
    granted(file, [register])


ITEM_TAXES = "SELECT number, canx, tax, hundredths FROM item_tax ORDER BY agent, number, canx"


def test_taxes_are_kept():
    """Taxes are kept as they were published, and each item has its own. So is the second ticket of an exchange. A cancelled
    sale adds no tax to its tally."""
    further = sample("plan.toml") + b'[[commission_tax]]\nfrom = "2024-02-01"\nhundredths = 0\n'
    sales = [
        of_agent(A, "POST", "ret", it)
        for it in (sample("sale.ret"), sample("exchange-of-two.ret"), sale_of(1300000005, "sale-and-cancellation.ret"))
    ]
    later = sale_of(1300000010).replace(b"240105DOE", b"240116DOE")
    refund = example_file("refund-of-1-on-16.ret").replace(b"13000000112", b"13000000156")
    granted("taxes.db", [*setting_up(), of_office("POST", "plan", further), *sales])
    granted("taxes.db", [of_office("POST", "day", '{"day":"2024-01-16"}'), of_agent(A, "POST", "ret", later)])
    granted("taxes.db", [of_agent(A, "POST", "ret", refund)])
    taxes = [(damages.day("05"), 2, 1900), (damages.day("16"), 1, 2000), (damages.day("31") + 1, 3, 0)]
    expect("published taxes", taxes, rows_of("taxes.db", "SELECT * FROM commission_tax ORDER BY begins"))
    wanted = [
        ("1300000001", 0, 190, 1900),
        ("1300000005", 0, 190, 1900),
        ("1300000005", 1, 0, 0),
        ("1300000010", 0, 200, 2000),
        ("1300000011", 0, 190, 1900),
        ("1300000012", 0, 190, 1900),
        ("1300000013", 0, 48, 1900),
        ("1300000015", 0, -190, 1900),
    ]
    expect("taxes of items", wanted, rows_of("taxes.db", ITEM_TAXES))
    wanted = [(A, "125", "24011", 618), (A, "125", "24012", 10)]
    expect("taxes of tallies", wanted, rows_of("taxes.db", "SELECT * FROM tally_tax ORDER BY agent, airline, period"))
    expect("second tickets", [(A, "1300000013", "125", "1300000012")], rows_of("taxes.db", "SELECT * FROM second_related"))
    served = opened("taxes.db")
    net = '{"closed":false,"documents":4,"net":"716.32","period":"24011"}'
    expect("the net of a period", (200, net), ask(served, of_agent(A, "GET", "periods/24011")))
    for it in sales:
        expect("a sale of a book opened again is held", {"held"}, set(re.findall(r'"verdict":"(\w+)"', ask(served, it)[1])))
    served.kill()


class Market(make_requests.Market):
    """The requests of bench/desk."""

    def month(self, sales):
        """The callers, and so many sales, each in a file of its own; then the close."""
        self.open()
        for at in range(sales):
            sale = self.sale("240105")
            self.post_of_agent("sale", int(sale.agent[:7]) - 1_000_000, f"sale-{at}", [sale])
        self.office("day", '{"day":"2024-01-16"}')
        self.office("close", '{"period":"24011"}')
        for line in self.lines:
            _, method, path, token, body = line.split("\t")
            yield method, path, token, (self.folder / body[1:]).read_bytes() if body.startswith("@") else body


def statements():
    """What 100 of the agents and the office may see of the closed period."""
    for agent in range(0, make_requests.AGENTS, 5):
        code = make_requests.agent_code(agent)
        yield "GET", f"/agents/{code}/statements/24011", make_requests.agent_token(agent), ""
    yield of_office("GET", "settlement/24011")


def test_a_book_of_10_000_requests():
    """A book of 10,000 requests, opened again, gives the same statements."""
    folder = pathlib.Path("month")
    folder.mkdir()
    requests = list(Market(folder).month(8_946))
    expect("the requests", 10_000, len(requests))
    served = opened("month.db")
    expect("all is answered over a file", {200}, {ask(served, it)[0] for it in requests})
    wanted = answers(served, statements())
    served.kill()
    served = opened("month.db")
    expect("statements of a book opened again", wanted, answers(served, statements()))
    expect("they are there", {200}, {it[0] for it in wanted})
    served.kill()


def is_there(served, number):
    return ask(served, of_agent(A, "GET", f"documents/{number}"))[0] == 200


def test_a_kill_at_any_moment():
    """Sales are reported until a kill: each that was answered is there, and at most one more."""
    served = opened("any.db")
    answers(served, setting_up())
    moments, number = random.Random(1), 1300000000
    for _ in range(8):
        first, answered = number, []
        stop = threading.Timer(moments.uniform(0.02, 0.3), served.process.kill)
        stop.start()
        with contextlib.suppress(OSError, http.client.HTTPException):
            while number < 1300000090:
                expect("a sale", 200, ask(served, of_agent(A, "POST", "ret", sale_of(number)))[0])
                answered.append(number)
                number += 1
        stop.join()
        served.kill()
        served = opened("any.db")
        there = [it for it in range(first, number + 1) if is_there(served, it)]
        expect("sales after a kill", answered, there[: len(answered)])
        expect("at most one more", True, len(there) <= len(answered) + 1)
        number += 1
    served.kill()
    expect("integrity of any.db", [("ok",)], rows_of("any.db", "PRAGMA integrity_check"))


def test_a_full_disk():
    """Where the disk is full a request is answered 503 B03, and so is each later one; a line has the store's error. What was
    answered before is there when the office is started again."""
    served = opened("full.db")
    answers(served, setting_up())
    served.kill()
    most = max(os.path.getsize(it) for it in ("full.db", "full.db-wal")) // 1024 + 16
    pathlib.Path("limited").write_text(
        f"#!/bin/bash\ntrap '' XFSZ\nulimit -f {most}\nexec {program.path()} \"$@\"\n", encoding="utf-8"
    )
    os.chmod("limited", 0o755)
    served = Office("--db", "full.db", path="./limited")
    number, replies = 1300000000, []
    while number < 1300000090 and 503 not in replies:
        replies.append(ask(served, of_agent(A, "POST", "ret", sale_of(number)))[0])
        number += 1
    for request in of_agent(A, "GET", "stock"), of_office("POST", "day", '{"day":"2024-01-16"}'):
        expect("after a full disk", (503, '{"code":"B03"}'), ask(served, request))
    served.process.terminate()
    lines = served.process.stderr.read().splitlines()
    error = r" 503 B03 14: (disk I/O error|database or disk is full)"
    for line, wanted in zip(lines, ("POST /agents/12345675/ret", "GET /agents/12345675/stock", "POST /office/day")):
        expect(f"a full disk: {line}", True, re.fullmatch(f"bsp_office: {wanted}{error}", line) is not None)
    expect("a full disk: the lines", 3, len(lines))
    served.kill()
    served = opened("full.db")
    there = [is_there(served, it) for it in range(1300000000, number - 1)]
    expect("sales before a full disk", [True] * replies.count(200), there)
    served.kill()


def copied_by_sqlite(file, texts):
    """A database that SQLite makes with these texts of tables, with the rows of the book."""
    with contextlib.closing(sqlite3.connect(file, isolation_level=None)) as it:
        for text in texts:
            it.execute(text)
        it.execute("ATTACH 'office.db' AS office")
        for (name,) in it.execute("SELECT name FROM main.sqlite_schema WHERE type = 'table'").fetchall():
            it.execute(f"INSERT INTO main.{name} SELECT * FROM office.{name}")


def test_books_that_sqlite_wrote(replies):
    """What SQLite writes is opened: the tables and rows anew, a backup, and the book made small."""
    texts = [text for text, in rows_of("office.db", "SELECT sql FROM sqlite_schema WHERE type = 'table' ORDER BY rowid")]
    copied_by_sqlite("copied.db", texts)
    with contextlib.closing(sqlite3.connect("office.db")) as it, contextlib.closing(sqlite3.connect("backup.db")) as to:
        it.backup(to)
    shutil.copy("backup.db", "small.db")
    with contextlib.closing(sqlite3.connect("small.db", isolation_level=None)) as it:
        it.execute("VACUUM")
    for file in "copied.db", "backup.db", "small.db":
        served = opened(file)
        expect(f"replies over {file}", replies[-len(list(looking())) :], answers(served, looking()))
        expect(f"a sale over {file}", 200, ask(served, of_agent(A, "POST", "ret", sale_of(1300000070)))[0])
        served.kill()
        expect(f"integrity of {file}", [("ok",)], rows_of(file, "PRAGMA integrity_check"))


def test_a_transaction_left_open(replies):
    """A transaction that another program began, and in which it was killed, leaves nothing, although the log has its pages."""
    changed("")
    names = [it for it, in rows_of("copy.db", "SELECT name FROM sqlite_schema WHERE type = 'table'")]
    begun = "PRAGMA cache_size = 1; BEGIN; " + "; ".join(f"DELETE FROM {it}" for it in names)
    script = "import os, sqlite3, sys; sqlite3.connect('copy.db').executescript(sys.argv[1]); os.kill(os.getpid(), 9)"
    subprocess.run([sys.executable, "-c", script, begun], check=False)
    expect("a transaction left open: its log has pages", True, os.path.getsize("copy.db-wal") > 4096)
    served = opened("copy.db")
    expect("replies after a transaction left open", replies[-len(list(looking())) :], answers(served, looking()))
    served.kill()
    expect("integrity after a transaction left open", [("ok",)], rows_of("copy.db", "PRAGMA integrity_check"))


def columns_of_the_page():
    """The columns of each table that docs/TABLES.md names, those of its key first."""
    items = re.findall(r"^- \*\*`(\w+)`\*\* \((.*?)\): (.*?)\.$", re.sub(r"\n  ", " ", page("TABLES.md")), re.MULTILINE)
    firsts = {name: (key, re.sub(r"\(.*?\)", "", others).split(". ")[0]) for name, key, others in items}
    return {name: re.findall(r"`(\w+)`", key) + re.findall(r"`(\w+)`", others) for name, (key, others) in firsts.items()}


def test_the_tables_are_those_of_every_office_of_this_version(replies):
    """The texts of the tables are byte for byte those that version 3 has had from the start, and the page has their columns."""
    texts = pathlib.Path(__file__).with_name("tables.sql").read_text(encoding="ascii")
    made = [it for it, in rows_of("office.db", "SELECT sql FROM sqlite_schema WHERE type = 'table'")]
    expect("the texts of the tables", texts, "".join(it + ";\n" for it in made))
    names = re.findall(r"^CREATE TABLE (\w+)", texts, re.MULTILINE)
    in_file = {it: [row[1] for row in rows_of("office.db", f"PRAGMA table_info({it})")] for it in names}
    expect("the columns that the page has", in_file, columns_of_the_page())


def queries():
    """The queries that docs/TABLES.md shows."""
    text = page("TABLES.md")
    return re.findall(r"^```sql\n(.*?)^```$", text, re.MULTILINE | re.DOTALL)


def test_the_queries_of_an_auditor(replies):
    """The queries of an auditor against what the program replied."""
    shown = dict(zip((it[1] for it in looking()), (it[1] for it in replies[-len(list(looking())) :])))
    nets, memos, cancelled, tallies, taxes, taken, paid_with, stock = (rows_of("office.db", it) for it in queries())
    expect("nets", [(it, "24011", statement_net(shown[f"/agents/{it}/statements/24011"])) for it in (A, B)], nets)
    agents = re.search(r"TOTAL +AGENTS +(\S+)", shown["/office/settlement/24011"])[1]
    expect("their sum", statement_net(agents), sum(it[2] for it in nets))
    expect("memos", [("125", "6000000002", A, "ADMA", 5000, "disputed", "2024-01-05")], memos)
    expect("cancelled tickets", [(A, "1300000005", "125", "24011", "24011")], cancelled)
    expect("tallies that differ", [], tallies)
    expect("taxes of tallies that differ", [], taxes)
    sales = (
        ("01", 1000, 190),
        ("03", 250, 48),
        ("05", 1000, 190),
        ("08", 0, 0),
        ("11", 1000, 190),
        ("12", 1000, 190),
        ("13", 250, 48),
    )
    found = [(A, f"13000000{it}", "TKTT", commission, 1900, tax, 1900) for it, commission, tax in sales]
    expect("what was taken of commissions", found, taken)
    found = [(A, f"13000000{it}", f"13000000{ticket}") for it, ticket in (("03", "01"), ("13", "11"), ("13", "12"))]
    expect("what tickets were paid with", found, paid_with)
    used = [
        (it, *found)
        for it in (A, B)
        for found in re.findall(r'"first":"(\d+)","last":"(\d+)","used":(\d+)', shown[f"/agents/{it}/stock"])
    ]
    expect("stock", [(agent, first, last, int(count)) for agent, first, last, count in used], stock)


def test_the_stored_run():
    """The stored run of the program has the same bytes over a file."""
    crate = TOP / "crates" / "bsp_office"
    words = (crate / "args").read_text(encoding="utf-8").split()
    wanted = 0, (crate / "stdout").read_bytes(), b"bsp_office: stored.db: new book\n"
    expect_end("the stored run", wanted, [program.path(), *words, "--db", "stored.db"], input=(crate / "stdin").read_bytes())


def test_example_39_on_standard_input():
    """Example 39 on standard input and output, over a new file and over the same again, which a start leaves with its log."""
    head = b"POST /office/day HTTP/1.1\r\nHost: bsp\r\nBsp-Token: %s\r\n" % OFFICE.encode()
    asked = head + b'Expect: 100-continue\r\nContent-Length: 20\r\n\r\n{"day":"2024-01-05"}'
    day = "day 2024-01-05, 0 of 0 periods closed, 0 agents, 0 airlines, 0 items, 0 memos"
    for result, book in (b"done", "new book"), (b"held", day):
        reply = (
            b"HTTP/1.1 100 Continue\r\n\r\nHTTP/1.1 200 OK\r\nContent-Type: application/json\r\n"
            b'Content-Length: 17\r\n\r\n{"result":"%s"}' % result
        )
        expect_end(f"run, {result.decode()}", (0, reply, f"bsp_office: run.db: {book}\n".encode()), over("run.db"), input=asked)
    expect("the log, after an opening", True, os.path.getsize("run.db-wal") > 4096)
    expect("the file and its log", [(damages.day("05"),)], rows_of("run.db", "SELECT day FROM meta"))


def refusal(what, file, cause, status):
    """The program is not started over this file, and says why in one line; B02 and B04 are a line of their own before it."""
    code = f"{cause[:3]}\n" if status == 1 else ""
    expect_end(what, (status, b"", f"{code}bsp_office: {file}: {cause}\n".encode()), over(file))


OTHER_VERSION = "B04 a book of another version"
DAMAGED = "B02 no book, or a damaged one"
IN_USE = "B03 database is locked"
NOT_OPENED = "B03 unable to open database file: "
DENIED = "Permission denied (os error 13)"
NO_DATABASE = "B03 file is not a database that obeys its schema"


def tallies_anew():
    """Statements that make the tallies and their taxes anew, with the sums of docs/TABLES.md."""
    made = []
    for table, query in ("tally", queries()[3]), ("tally_tax", queries()[4]):
        sums, _, _ = query.partition("SELECT * FROM (")
        made.append(f"DELETE FROM {table}; {sums} INSERT INTO {table} SELECT * FROM summed")
    return "; ".join(made)


BOTH = [*((True, *it) for it in damages.RULES.items()), *((False, *it) for it in damages.TAXES.items())]


@pytest.mark.parametrize("are_taxes_anew, what, rule", BOTH, ids=[it[1] for it in BOTH])
def test_a_row_that_breaks_a_rule(are_taxes_anew, what, rule, replies):
    """It is refused, although its taxes and tallies agree, or for a rule on taxes its tallies alone. The nearest row that breaks none
    is opened."""
    anew = f"{damages.TAXES_ANEW}; {tallies_anew()}" if are_taxes_anew else tallies_anew()
    change, *texts, fault = rule
    broken, sound = (f"{change.replace('?', str(it))}; {anew}" for it in texts)
    changed(broken)
    if fault is damages.NO_PARENT:
        refusal(what, "copy.db", NO_DATABASE, 3)
    else:
        refusal(what, "copy.db", f"{DAMAGED}: {fault}", 1)
    changed(sound)
    ended = program.run("run", "--token", OFFICE, "--db", "copy.db")
    opened_it = re.fullmatch(rb"bsp_office: copy\.db: day .*\n", ended.err) is not None
    expect(f"nearly {what}", (0, b"", True), (ended.status, ended.out, opened_it))


@pytest.mark.parametrize("what", damages.DAMAGES)
def test_a_damage_is_seen(what, replies):
    script, fault = damages.DAMAGES[what]
    changed(script)
    refusal(what, "copy.db", f"{DAMAGED}: {fault}", 1)


@pytest.mark.parametrize("what", damages.VERSIONS)
def test_a_book_of_another_version(what, replies):
    changed(damages.VERSIONS[what])
    before = dump_of("copy.db")
    refusal(what, "copy.db", OTHER_VERSION, 1)
    expect(f"{what}: what it leaves", before, dump_of("copy.db"))


def test_a_copy_of_the_book_that_is_held(replies):
    changed("")
    served = opened("copy.db")
    expect("a copy of the book", 200, ask(served, of_office("GET", "settlement/24011"))[0])
    refusal("a held file", "copy.db", IN_USE, 3)
    served.kill()


def changed(script):
    """A copy of the book, with a change."""
    for it in pathlib.Path().glob("copy.db*"):
        it.unlink()
    shutil.copy("office.db", "copy.db")
    with contextlib.closing(sqlite3.connect("copy.db")) as it:
        it.executescript(script)


def test_files_that_are_no_book(replies):
    """None is opened, and none is made."""
    os.mkdir("folder")
    refusal("a directory", "folder", NOT_OPENED + "it is a directory", 3)
    refusal("no folder", "missing/it", NOT_OPENED + "No such file or directory (os error 2)", 3)
    refusal("a URI", "file:it", NOT_OPENED + "it names no file", 3)
    expect_end("tables in memory", (0, b"", b"bsp_office: :memory:: new book\n"), over(":memory:"))
    expect("no file is made", [], [str(it) for it in pathlib.Path().glob("*:*")])
    shutil.copy("office.db", "one.db")
    os.link("one.db", "two.db")
    refusal("a second name", "one.db", NOT_OPENED + "it has a second name", 3)
    pathlib.Path("text").write_text("no database\n" * 1000, encoding="utf-8")
    refusal("a text", "text", NO_DATABASE, 3)
    expect("the text is as it was", "no database\n" * 1000, pathlib.Path("text").read_text(encoding="utf-8"))
    with contextlib.closing(sqlite3.connect("held.db", isolation_level=None)) as it:
        it.execute("CREATE TABLE note (text TEXT)")
        it.execute("BEGIN EXCLUSIVE")
        refusal("a file that sqlite3 holds", "held.db", IN_USE, 3)
    refusal("another database", "held.db", DAMAGED + ': the table "note" is none of a book', 1)


def test_a_read_only_file(replies):
    """A file that this user may not write: root may write any, so it asks as another user."""
    shutil.copy("office.db", "read-only.db")
    os.chmod("read-only.db", 0o444)
    if os.getuid() != 0:
        refusal("a read-only file", "read-only.db", NOT_OPENED + DENIED, 3)
        return
    os.chmod(".", 0o777)
    shutil.copy(program.path(), "program")
    line = f"bsp_office: read-only.db: {NOT_OPENED}{DENIED}\n".encode()
    other = {"user": 65534, "group": 65534, "extra_groups": []}
    expect_end("a read-only file", (3, b"", line), ["./program", *over("read-only.db")[1:]], **other)
