"""`plan --of` prints a text that publishes what an office was sent.

Random plans are published in an office over a file, each in a few texts, on business days in between. What `plan --of` prints of
the file is a text that publishes all their entries, in the order in which they came first: `plan` says so, and a second office
takes it, and its file has the same text. Neither file is changed."""
import datetime
import json
import pathlib
import tempfile

import hypothesis
from hypothesis import strategies

from support import program
from support.callers import OFFICE
from support.served import Office

FIRST_DAY = datetime.date(2000, 1, 1)


def day_of(number):
    """The day that is so many days after the opening day, as a text."""
    return (FIRST_DAY + datetime.timedelta(number)).isoformat()


def table(name, **keys):
    """A table of a list."""
    return f"[[{name}]]\n" + "".join(f"{key} = {json.dumps(value)}\n" for key, value in keys.items())


class Market:
    """A plan that is published in some texts: what each of them adds, and the lines of all entries in their order."""

    def __init__(self, it):
        self.it = it
        self.terms = f'currency = "{it.choice(["EUR", "USD", "XAF"])}"\nreview_days = {it.randint(1, 60)}\ndocuments_limit = {it.randint(1, 1000000)}\n'
        self.airlines, self.rates, self.periods, self.taxes = {}, {}, {}, {}
        self.day, self.end = 0, it.randint(0, 9000)

    def add_rates(self):
        """Some rates and taxes that begin after the business day."""
        for _ in range(self.it.randint(0, 4)):
            rate = {
                "airline": self.it.choice([*self.airlines]),
                "from": day_of(self.day + self.it.randint(1, 400)),
                "hundredths": self.it.randint(0, 10000),
            }
            self.rates.setdefault((rate["airline"], rate["from"]), rate)
        if self.it.random() < 0.3:
            tax = {"from": day_of(self.day + self.it.randint(1, 400)), "hundredths": self.it.randint(0, 10000)}
            self.taxes.setdefault(tax["from"], tax)

    def add_periods(self):
        """Some periods after the last."""
        for _ in range(self.it.randint(0, 3)):
            first, last = self.end, self.end + self.it.randint(0, 20)
            code = f"{self.it.randint(0, 99999):05}"
            if code not in self.periods:
                self.periods[code] = {
                    "code": code,
                    "first": day_of(first),
                    "last": day_of(last),
                    "remit": day_of(last + self.it.randint(1, 30)),
                }
                self.end = last + 1

    def grow(self):
        """Adds entries, and answers a text that has them and some of those before."""
        known = [{**it} for it in (self.airlines, self.rates, self.periods, self.taxes)]
        for _ in range(self.it.randint(0 if self.airlines else 1, 3)):
            self.airlines.setdefault(f"{self.it.randint(0, 999):03}")
        self.add_rates()
        self.add_periods()
        kept = lambda all, old: [value for key, value in all.items() if key not in old or self.it.random() < 0.5]
        text = self.terms + f"airline = {json.dumps([*self.airlines])}\n"
        text += "".join(table("rate", **it) for it in kept(self.rates, known[1]))
        text += "".join(table("period", **it) for it in kept(self.periods, known[2]))
        return text + "".join(table("commission_tax", **it) for it in kept(self.taxes, known[3]))

    def lines(self):
        """What `plan` prints of all entries."""
        found = self.terms.replace("\n", " ").replace(" =", "").replace('"', "").strip() + "\n"
        found += "".join(f"airline {it}\n" for it in self.airlines)
        found += "".join(f"rate {it['airline']} from {it['from']} hundredths {it['hundredths']}\n" for it in self.rates.values())
        found += "".join(
            f"period {it['code']} first {it['first']} last {it['last']} remit {it['remit']}\n" for it in self.periods.values()
        )
        return (
            "done\n"
            + found
            + "".join(f"commission_tax from {it['from']} hundredths {it['hundredths']}\n" for it in self.taxes.values())
        )


def published(book, texts):
    """Publishes texts in an office over a file, the business day being set before each but the first."""
    with Office("--db", book) as it:
        for day, text in texts:
            hypothesis.note(f"on {day_of(day)}:\n{text}")
            if day:
                assert it.ask("POST", "/office/day", OFFICE, json.dumps({"day": day_of(day)}))[0] == 200
            assert it.ask("POST", "/office/plan", OFFICE, text)[0] == 200


def plan_of(book):
    """What `plan --of` prints of a file, which it does not change."""
    before = book.read_bytes()
    ended = program.run("plan", "--of", book)
    assert (ended.status, ended.err) == (0, b"")
    assert book.read_bytes() == before
    return ended.out


def test_a_random_plan_is_printed_as_a_text_that_publishes_it(examples):
    @examples(12)
    @hypothesis.given(strategies.randoms(use_true_random=False))
    def is_the_same(random):
        market, texts = Market(random), []
        for step in range(random.randint(1, 4)):
            if step:
                market.day += random.randint(1, 200)
            texts.append((market.day, market.grow()))
        with tempfile.TemporaryDirectory() as name:
            first, second = pathlib.Path(name, "first.db"), pathlib.Path(name, "second.db")
            published(first, texts)
            text = plan_of(first)
            assert program.run("plan", "-", text=text) == (0, market.lines().encode(), b"")
            published(second, [(0, text.decode())])
            assert plan_of(second) == text

    is_the_same()


def test_a_book_without_a_plan(book):
    published(book, [])
    assert program.run("plan", "--of", book) == (0, b"", f"bsp_office: {book}: no plan is published\n".encode())


def test_a_file_that_is_no_book(book):
    book.write_bytes(b"no book")
    assert program.run("plan", "--of", book).status == program.run("audit", book).status
