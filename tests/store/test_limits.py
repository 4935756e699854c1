"""A book is filled in a file under a limit of memory, until a file of sales is answered 503. Under the same limit the program
opens it again, with each sale that was accepted."""
import itertools

import pytest

from support.callers import A, DONE, TOKENS, of_agent, of_office
from support.compare import expect
from support.records import line, ret_file, tax_places, zoned
from support.served import Office
from support.tree import sample

FIRST, LAST, SALES = 1300000000, 1399999999, 1_000
SALE = 20_000, 3_500, 1_000, 23_500
PLAN = sample("plan.toml").replace(b"documents_limit = 1000\n", b"documents_limit = 1000000\n")


def sale(place, number):
    """The records of a sale of a document."""
    fare, tax, commission, cash = map(zoned, SALE)
    return [
        line(f"2{place:06}TKTT{A}125{number}{number % 7}240105DOE/JANE"),
        line(f"5{place:06}{fare}{tax_places([('RA', SALE[1])])}00500{commission}"),
        line(f"8{place:06}CA{cash}"),
    ]


def sales_from(first):
    """A RET file of so many sales, of documents from a number on."""
    groups = [it for place in range(SALES) for it in sale(place + 1, first + place)]
    return ret_file(groups, SALES, SALES * SALE[3])


def set_up(it):
    """The plan, the day, an agent and its stock."""
    expect("the plan", DONE, it.ask(*of_office("POST", "plan", PLAN)))
    expect("the day", DONE, it.ask(*of_office("POST", "day", '{"day":"2024-01-05"}')))
    expect("the agent", DONE, it.ask(*of_office("POST", "agents", f'{{"agent":"{A}","token":"{TOKENS[A]}"}}')))
    expect("the stock", DONE, it.ask(*of_office("POST", "stock/allot", f'{{"agent":"{A}","first":"{FIRST}","last":"{LAST}"}}')))


def filled(it):
    """How many sales were accepted before a file of them was answered 503."""
    for first in itertools.count(FIRST, SALES):
        status, _, body = it.ask(*of_agent(A, "POST", "ret", sales_from(first)))
        if status != 200:
            expect("a file of sales without memory", (503, b'{"code":"B01"}'), (status, body))
            return first - FIRST
        expect("accepted sales", SALES, body.count(b'"accepted"'))


@pytest.mark.parametrize("megabytes", [80, 96, 120, 144, 176])
def test_book_is_opened_under_the_limit_under_which_it_was_filled(megabytes, tmp_path):
    words = "--db", tmp_path / "book.db"
    with Office(*words, memory=megabytes << 20) as it:
        set_up(it)
        accepted = filled(it)
    with Office(*words, memory=megabytes << 20) as it:
        expect("sales in the book", True, f" {accepted} items" in it.opened)
    print(f"{megabytes} MB of addresses: {accepted:,} sales")
