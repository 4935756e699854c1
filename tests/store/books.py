"""Books in files: the requests that make them, and what SQLite reads in them."""
import contextlib
import os
import pathlib
import shutil
import sqlite3

from support import examples
from support.callers import A, B, TOKENS, of_agent, of_airline, of_office
from support.served import Office
from support.tree import SAMPLES, example_file, sample

# ---- the requests of a month

# a tax of 20.00 % from the second period on, and then one of 19.00 % from the first business day on
TAXES = b"".join(
    b'[[commission_tax]]\nfrom = "%s"\nhundredths = %d\n' % it for it in ((b"2024-01-16", 2000), (b"2024-01-05", 1900))
)
PLAN = sample("plan.toml") + TAXES


def sale_of(number, name="sale.ret"):
    """A sample of the ticket 1300000001 with another number."""
    return sample(name).replace(b"13000000016", b"%d%d" % (number, number % 7))


def memo(agent, document, kind, amount):
    """The body by which a memo is issued."""
    return f'{{"agent":"{agent}","amount":{amount},"document":"{document}","kind":"{kind}","reason":"fare"}}'


def setting_up():
    """The plan, the day, the callers and their stock."""
    yield of_office("POST", "plan", PLAN)
    yield of_office("POST", "day", '{"day":"2024-01-05"}')
    for agent, first in (A, 1300000000), (B, 1400000000):
        yield of_office("POST", "agents", f'{{"agent":"{agent}","token":"{TOKENS[agent]}"}}')
        yield of_office("POST", "stock/allot", f'{{"agent":"{agent}","first":"{first}","last":"{first + 99}"}}')
    for airline in "125", "220":
        yield of_office("POST", "airlines", f'{{"airline":"{airline}","token":"{TOKENS[airline]}"}}')


def billed_memos():
    """The memos of example 16, that a close bills."""
    yield of_airline("220", "POST", "memos", memo(A, 7000000001, "ADMA", 3000))
    yield of_agent(A, "POST", "memos/agree", '{"airline":"220","document":"7000000001"}')
    yield of_airline("125", "POST", "memos", memo(B, 6000000001, "ACMA", 5000))


def disputed_memo():
    """A memo that no close bills."""
    yield of_airline("125", "POST", "memos", memo(A, 6000000002, "ADMA", 5000))
    yield of_agent(A, "POST", "memos/dispute", '{"airline":"125","document":"6000000002"}')


def working():
    """What the agents and the airlines report, and the close."""
    for name in "sale.ret", "exchange.ret", "card-sale.ret", "sale.ret", "exchange-of-two.ret":
        yield of_agent(A, "POST", "ret", sample(name))
    yield of_agent(A, "POST", "ret", sale_of(1300000005, "sale-and-cancellation.ret"))
    yield from billed_memos()
    yield from disputed_memo()
    yield of_office("POST", "stock/allot", f'{{"agent":"{B}","first":"1300000050","last":"1300000149"}}')
    yield of_office("POST", "stock/allot", f'{{"agent":"{B}","first":"1500000000","last":"1500000009"}}')
    yield of_office("POST", "stock/withdraw", f'{{"agent":"{B}","first":"1500000000","last":"1500000009"}}')
    yield of_office("POST", "day", '{"day":"2024-01-16"}')
    yield of_office("POST", "close", '{"period":"24011"}')


def looking():
    """What the callers may see."""
    for agent in A, B:
        for path in "stock", "memos", "periods/24011", "statements/24011", "documents/1300000005", "documents/1300000012":
            yield of_agent(agent, "GET", path)
    for airline in "125", "220":
        yield of_airline(airline, "GET", "memos")
        yield of_airline(airline, "GET", "hot/24011")
    yield of_office("GET", "settlement/24011")


# ---- the requests of books of earlier versions

VERSIONS = 1, 2
# the tables that a later version has beside those of the one before it
NEWER = {1: ("commission_tax", "item_tax", "tally_tax", "second_related"), 2: ("second_related",), 3: ()}


def opening(name):
    """The requests of a file of examples/opening."""
    entries, _ = examples.read(examples.FOLDER / "opening" / f"{name}.hurl")
    return [(it.method, it.path, it.token, it.body) for it in entries]


def requests(version):
    """Those of which a new book has the rows of the book of that version."""
    if version == 1:
        return [*opening("plan"), *opening("callers"), *opening("month")]
    later = of_agent(A, "POST", "ret", example_file("sale-of-10.ret"))
    return [*opening("plan-with-tax"), *opening("callers"), *opening("month"), later]


def afterwards():
    """The closed period, what is done after it, and then both periods."""
    return [*looking_at(), *going_on(), *looking_at(), *looking_at("24012")]


def looking_at(period="24011"):
    """What the callers may see, among them all reports of a period."""
    for agent in A, B:
        for path in f"statements/{period}", f"periods/{period}", "memos", "stock", "documents/1300000001":
            yield of_agent(agent, "GET", path)
    for airline in "125", "220":
        yield of_airline(airline, "GET", f"hot/{period}")
        yield of_airline(airline, "GET", "memos")
    yield of_office("GET", f"settlement/{period}")


def going_on():
    """A month's end: sales are held, exchanged and cancelled, a tax is published, and 24012 is closed."""
    yield of_agent(A, "POST", "ret", sample("sale.ret"))
    yield of_agent(A, "POST", "ret", sample("exchange.ret"))
    yield of_agent(A, "POST", "ret", sample("exchange-of-two.ret"))
    yield of_agent(A, "POST", "ret", example_file("canx.ret"))
    yield of_office("POST", "plan", sample("plan.toml") + b'[[commission_tax]]\nfrom = "2024-01-20"\nhundredths = 2000\n')
    yield of_office("POST", "day", '{"day":"2024-02-01"}')
    yield of_office("POST", "close", '{"period":"24012"}')


# the statements that make a larger book of version 1, and those of a later version
SALES = 6000
LARGER = f"""
    UPDATE terms SET documents = 20000;
    UPDATE stock SET hi = '1300009999' WHERE agent = '{A}';
    WITH RECURSIVE sale (number) AS (
      SELECT 1300000100 UNION ALL SELECT number + 1 FROM sale WHERE number < {1300000099 + SALES})
    INSERT INTO item
    SELECT '{A}', number, 0, '220', 'TKTT', 19727, '24011', 1, printf('%-49s', 'DOE/JANE'), 10000, printf('%78s', ''), 0, 0,
      NULL, NULL, NULL, 10000, NULL, 'VI'
    FROM sale;
    UPDATE tally SET accepted = accepted + {SALES}, living = living + {SALES}, credit = credit + {SALES} * 10000
    WHERE agent = '{A}' AND airline = '220'"""
LARGER_TAXES = "; INSERT INTO item_tax SELECT agent, number, 0, 0, 0 FROM item WHERE number >= '1300000100'"


# ---- what SQLite reads and writes


def rows_of(file, query):
    with contextlib.closing(sqlite3.connect(file)) as it:
        return it.execute(query).fetchall()


def changed(file, script):
    """Changes a book by SQLite."""
    with contextlib.closing(sqlite3.connect(file, isolation_level=None)) as it:
        it.executescript(script)


def removed(file):
    for it in pathlib.Path().glob(f"{file}*"):
        it.unlink()


def made(file, *scripts):
    """Makes a database of these texts, in place of what was there."""
    removed(file)
    for it in scripts:
        changed(file, it)


def text_of(version):
    """The text of the book of a version."""
    return (SAMPLES / "books" / f"version-{version}.sql").read_text(encoding="utf-8")


def dump_of(file):
    """The texts of the tables and all rows."""
    with contextlib.closing(sqlite3.connect(file)) as it:
        return list(it.iterdump())


def tables_of(file):
    """The rows of each table, in the order of their values."""
    names = [name for name, in rows_of(file, "SELECT name FROM sqlite_schema WHERE type = 'table'")]
    return {name: sorted(rows_of(file, f"SELECT * FROM {name}"), key=repr) for name in names}


def copied(file, to):
    """A copy of a book, with its log, in place of what was there."""
    removed(to)
    for end in "", "-wal":
        if os.path.exists(file + end):
            shutil.copy(file + end, to + end)


def bytes_of(file):
    """What the files of a book have, by name."""
    return {str(it): it.read_bytes() for it in pathlib.Path().glob(f"{file}*")}


# ---- the program over them


def opened(file=None):
    """The program as it serves, over a book in the file, or in memory where there is none."""
    return Office(*(["--db", file] if file else []))


def ask(program, request):
    """The status of a reply, and its body as text."""
    status, _, body = program.ask(*request)
    return status, body.decode()


def answers(program, requests):
    """The replies to these requests."""
    return [ask(program, it) for it in requests]
