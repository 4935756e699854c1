"""An office written in Python from the pages of docs/ alone: RULES, API, CODES and FORMATS. It shares nothing with
the program. tests/store/test_markets.py asks both the same.

    second = Second("officetoken00001")
    status, media, body = reply(lambda: second.set_day(datetime.date(2024, 1, 5)))
"""
import collections
import dataclasses
import datetime
import json

from support.callers import compact
from support.records import line, money, ret_file, tax_places, zoned

# the codes of documents in the order of a HOT file
CODES = ["TKTT", "RFND", "CANX", "ADMA", "ACMA"]
# the states of a memo before an action, and the one after it
ACTIONS = {
    "dispute": (["open"], "disputed"),
    "agree": (["open"], "agreed"),
    "uphold": (["disputed"], "upheld"),
    "reduce": (["disputed"], "reduced"),
    "withdraw": (["open", "disputed"], "withdrawn"),
}


# ---- values


def commission(rate, basis):
    """The whole number nearest to rate * basis / 10,000; of two the one of greater size."""
    size = (2 * rate * abs(basis) + 10_000) // 20_000
    return size if basis >= 0 else -size


def yymmdd(day):
    return day.strftime("%y%m%d")


def is_agent(code):
    return len(code) == 8 and code.isdigit() and int(code[:7]) % 7 == int(code[7])


# ---- transactions, items and memos


@dataclasses.dataclass(frozen=True)
class Transaction:
    """What the records of a transaction say, but for its number in the file. A related document is an airline, a number and a
    check digit; a tax is a code and an amount; a form of payment is its name, an amount and a card vendor."""

    code: str
    agent: str
    airline: str
    number: int
    check: int
    issued: datetime.date
    name: str
    related: tuple = ()
    fare: int = 0
    taxes: tuple = ()
    rate: int = 0
    commission: int = 0
    forms: tuple = ()

    def form(self, name):
        return sum(amount for form, amount, _ in self.forms if form == name)

    def has(self, name):
        return any(form == name for form, _, _ in self.forms)

    def value(self):
        """Fare and taxes."""
        return self.fare + sum(amount for _, amount in self.taxes)

    def records(self, number):
        """Its records as a part of a RET file."""
        head = f"2{number:06}{self.code}{self.agent}{self.airline}{self.number:010}{self.check}{yymmdd(self.issued)}{self.name}"
        lines = [head, *(f"3{number:06}{airline}{document:010}{check}" for airline, document, check in self.related)]
        if self.code != "CANX":
            lines.append(f"5{number:06}{zoned(self.fare)}{tax_places(self.taxes)}{self.rate:05}{zoned(self.commission)}")
            lines += [f"8{number:06}{form}{zoned(amount)}{vendor}" for form, amount, vendor in self.forms]
        return lines


def ret_text(transactions):
    """A RET file of them."""
    profile = 2 if any(len(it.related) == 2 for it in transactions) else 1
    records = [line(record) for at, it in enumerate(transactions) for record in it.records(at + 1)]
    return ret_file(records, len(transactions), sum(amount for it in transactions for _, amount, _ in it.forms), profile)


@dataclasses.dataclass
class Item:
    """An accepted transaction, with its period, the tax on its commission and the hundredths of a percent that were taken."""

    of: Transaction
    period: str
    hundredths: int
    tax: int
    lives: bool = True

    def net(self):
        return self.of.form("CA") - self.of.commission - self.tax


@dataclasses.dataclass
class Memo:
    airline: str
    document: int
    agent: str
    kind: str
    issued_amount: int
    reason: str
    issued: datetime.date
    amount: int
    state: str = "open"
    billed: str = None

    def signed(self):
        return self.amount if self.kind == "ADMA" else -self.amount

    def shown(self):
        return {
            "agent": self.agent,
            "airline": self.airline,
            "amount": self.amount,
            "billed": self.billed,
            "document": f"{self.document:010}",
            "issued": str(self.issued),
            "kind": self.kind,
            "reason": self.reason,
            "state": self.state,
        }


# ---- the plan


class Refused(Exception):
    """A request is refused with this code."""


@dataclasses.dataclass(frozen=True)
class PlanText:
    """What a plan text publishes. Days are dates, and entries are tuples in the order of their keys in docs/FORMATS.md."""

    terms: tuple
    airlines: tuple = ()
    rates: tuple = ()
    periods: tuple = ()
    taxes: tuple = ()

    def toml(self):
        currency, review, limit = self.terms
        lines = [f'currency = "{currency}"', f"review_days = {review}", f"documents_limit = {limit}"]
        lines.append(f"airline = {json.dumps(self.airlines)}")
        for airline, first, hundredths in self.rates:
            lines += ["[[rate]]", f'airline = "{airline}"', f'from = "{first}"', f"hundredths = {hundredths}"]
        for code, first, last, remit in self.periods:
            lines += ["[[period]]", f'code = "{code}"', f'first = "{first}"', f'last = "{last}"', f'remit = "{remit}"']
        for first, hundredths in self.taxes:
            lines += ["[[commission_tax]]", f'from = "{first}"', f"hundredths = {hundredths}"]
        return "\n".join([*lines, ""]).encode()


class Plan:
    def __init__(self):
        self.terms, self.airlines, self.rates, self.taxes = None, [], {}, {}
        self.periods, self.closed, self.day = {}, 0, datetime.date(2000, 1, 1)

    def publish(self, text):
        """Publishes a text; whether anything of it is new."""
        airlines = [*self.airlines, *dict.fromkeys(it for it in text.airlines if it not in self.airlines)]
        self.test_bounds(text, airlines)
        if self.terms not in (None, text.terms):
            raise Refused("P08")
        rates = self.added(self.rates, [((airline, first), hundredths) for airline, first, hundredths in text.rates])
        periods = self.added(self.periods, [(code, days) for code, *days in text.periods])
        taxes = self.added(self.taxes, list(text.taxes))
        test_periods(list(periods.values()))
        new = [key[1] for key in rates if key not in self.rates] + [first for first in taxes if first not in self.taxes]
        if any(first <= self.day for first in new):
            raise Refused("P05")
        was = self.terms, self.airlines, self.rates, self.periods, self.taxes
        self.terms, self.airlines, self.rates, self.periods, self.taxes = text.terms, airlines, rates, periods, taxes
        return was != (text.terms, airlines, rates, periods, taxes)

    @staticmethod
    def test_bounds(text, airlines):
        _, review, limit = text.terms
        shares = [it[-1] for it in (*text.rates, *text.taxes)]
        if not 1 <= review <= 60 or not 1 <= limit <= 1_000_000 or any(it > 10_000 for it in shares):
            raise Refused("P02")
        if any(airline not in airlines for airline, _, _ in text.rates):
            raise Refused("P02")

    @staticmethod
    def added(old, entries):
        new = dict(old)
        for key, value in entries:
            if new.setdefault(key, value) != value:
                raise Refused("P08")
        return new

    def rate(self, airline, day):
        return latest({first: it for (of, first), it in self.rates.items() if of == airline}, day)

    def tax(self, day):
        return latest(self.taxes, day)

    def is_closed(self, code):
        return code in list(self.periods)[: self.closed]

    def target(self, issued):
        """The period that takes a date of issue, if one does."""
        for code, (first, last, _) in list(self.periods.items())[self.closed :]:
            if last >= issued:
                return code if first <= self.day else None
        return None

    def close(self, code):
        """Closes a period; whether it was open."""
        if self.is_closed(code):
            return False
        if code != next(iter(list(self.periods)[self.closed :]), None):
            raise Refused("P06")
        if self.day <= self.periods[code][1]:
            raise Refused("P07")
        self.closed += 1
        return True

    def form(self, code):
        return 2 if any(first <= self.periods[code][1] for first in self.taxes) else 1


def latest(entries, day):
    """The value of the latest day that is not after this one, else 0."""
    begun = [first for first in entries if first <= day]
    return entries[max(begun)] if begun else 0


def test_periods(periods):
    before = None
    for first, last, remit in periods:
        if not first <= last < remit or before and first != before + datetime.timedelta(days=1):
            raise Refused("P03")
        before = last


# ---- the second office


class Second:
    """The office of docs/, over rows of its own."""

    def __init__(self, token):
        self.token, self.plan, self.agents, self.airlines = token, Plan(), {}, {}
        self.ranges, self.items, self.memos = [], [], {}

    def answer(self, path, token, call):
        """What a call answers to the caller that the path names, if the token is its own."""
        _, callers, code, *_ = path.split("/")
        known = self.token if callers == "office" else getattr(self, callers).get(code)
        if token is None or token != known:
            raise Refused("N01")
        return call()

    # verdicts

    def of_agent(self, agent):
        return [it for it in self.items if it.of.agent == agent]

    def verdict(self, reporter, it):
        """The code of the first row that applies, or what is answered with a period."""
        if not is_agent(it.agent) or it.agent not in self.agents or reporter not in (None, it.agent):
            return "E02", None
        own = self.of_agent(it.agent)
        same = [item for item in own if item.of.number == it.number and item.of == it]
        if same:
            return "held", same[0].period
        target = self.plan.target(it.issued)
        rows = [
            ("E01", lambda: it.airline not in self.plan.airlines),
            ("E03", lambda: it.check != it.number % 7 or any(check != number % 7 for _, number, check in it.related)),
            ("E04", lambda: it.issued > self.plan.day),
            ("E05", lambda: not any(of == it.agent and first <= it.number <= last for of, first, last in self.ranges)),
            ("E06", lambda: any(item.of.number == it.number and (it.code != "CANX" or item.of.code == "CANX") for item in own)),
            ("E07", lambda: not self.agrees(it)),
            ("E08", lambda: self.lacks_document(own, it)),
            ("E09", lambda: self.is_used_up(own, it)),
            ("E12", lambda: not self.agrees_with_tickets(own, it)),
            ("E10", lambda: target is None),
            ("E11", lambda: self.count(own, it.airline, target) >= self.plan.terms[2]),
        ]
        for code, applies in rows:
            if applies():
                return code, None
        return "accepted", target

    @staticmethod
    def count(own, airline, period):
        return sum(item.of.airline == airline and item.period == period for item in own)

    def agrees(self, it):
        """Whether E07 does not apply."""
        amounts = [it.fare, it.commission, *(amount for _, amount in it.taxes), *(amount for _, amount, _ in it.forms)]
        paid = sum(amount for _, amount, _ in it.forms)
        if it.code == "CANX":
            return True
        if it.code == "RFND":
            return all(amount <= 0 for amount in amounts) and it.value() == paid
        if any(amount < 0 for amount in amounts) or it.value() != paid or it.rate > self.plan.rate(it.airline, it.issued):
            return False
        return it.has("EX") or it.commission == commission(it.rate, it.fare)

    @staticmethod
    def ticket(own, airline, number):
        """The accepted TKTT of this airline and number, if there is one."""
        of_number = (item for item in own if item.of.number == number)
        found = [item for item in of_number if (item.of.code, item.of.airline) == ("TKTT", airline)]
        return found[0] if found else None

    def lacks_document(self, own, it):
        if it.code == "CANX":
            return any(item.of.number == it.number and item.of.airline != it.airline for item in own)
        return any(airline != it.airline or self.ticket(own, airline, number) is None for airline, number, _ in it.related)

    @staticmethod
    def related(own, number):
        """The living TKTT and RFND that relate to the number."""
        relating = (item for item in own if item.of.related and item.lives)
        return [item for item in relating if any(number == other for _, other, _ in item.of.related)]

    def is_used_up(self, own, it):
        if it.code == "CANX":
            closed = any(item.of.number == it.number and self.plan.is_closed(item.period) for item in own)
            return closed or bool(self.related(own, it.number))
        tickets = [self.ticket(own, airline, number) for airline, number, _ in it.related]
        return any(not ticket.lives or self.related(own, ticket.of.number) for ticket in tickets)

    def agrees_with_tickets(self, own, it):
        """Whether E12 does not apply."""
        tickets = [self.ticket(own, airline, number).of for airline, number, _ in it.related]
        if it.code == "RFND":
            fare, taxes, rate = tickets[0].fare, dict(tickets[0].taxes), tickets[0].rate
            within = all(code in taxes and abs(amount) <= abs(taxes[code]) for code, amount in it.taxes)
            return within and abs(it.fare) <= abs(fare) and it.rate == rate and it.commission == commission(rate, it.fare)
        if not it.has("EX"):
            return True
        beyond = max(it.fare - sum(ticket.fare for ticket in tickets), 0)
        return it.form("EX") == sum(ticket.value() for ticket in tickets) and it.commission == commission(it.rate, beyond)

    def tax_on(self, own, it):
        """The hundredths of a percent that are taken of a commission."""
        if it.code == "CANX":
            return 0
        days = [it.issued]
        if it.code == "RFND":
            days.append(self.ticket(own, *it.related[0][:2]).of.issued)
        return self.plan.tax(min(days))

    def report(self, reporter, transactions):
        results = []
        for at, it in enumerate(transactions):
            verdict, period = self.verdict(reporter, it)
            if verdict == "accepted":
                own = self.of_agent(it.agent)
                hundredths = self.tax_on(own, it)
                if it.code == "CANX":
                    for item in own:
                        item.lives = item.lives and item.of.number != it.number
                self.items.append(Item(it, period, hundredths, commission(hundredths, it.commission)))
            results.append({"n": at + 1, "verdict": verdict, **({"period": period} if period else {})})
        return {"results": results}

    # the office

    def register(self, known, code, token, is_refused, refusal):
        if is_refused:
            raise Refused(refusal)
        was, known[code] = known.get(code), token
        return was != token

    def register_agent(self, agent, token):
        return self.register(self.agents, agent, token, not is_agent(agent), "N05")

    def register_airline(self, airline, token):
        return self.register(self.airlines, airline, token, airline not in self.plan.airlines, "N06")

    def set_day(self, day):
        if not 2000 <= day.year <= 2099:
            raise Refused("N04")
        if day < self.plan.day:
            raise Refused("P04")
        was, self.plan.day = self.plan.day, day
        return was != day

    def expect_range(self, agent, first, last):
        if first > last:
            raise Refused("K01")
        if agent not in self.agents:
            raise Refused("K02")

    def allot(self, agent, first, last):
        self.expect_range(agent, first, last)
        if (agent, first, last) in self.ranges:
            return False
        if any(first <= high and low <= last for _, low, high in self.ranges):
            raise Refused("K03")
        self.ranges.append((agent, first, last))
        return True

    def withdraw_range(self, agent, first, last):
        self.expect_range(agent, first, last)
        if (agent, first, last) not in self.ranges:
            raise Refused("K04")
        if any(first <= item.of.number <= last for item in self.of_agent(agent)):
            raise Refused("K05")
        self.ranges.remove((agent, first, last))
        return True

    def close(self, code):
        if not self.plan.close(code):
            return False
        for memo in self.memos.values():
            if memo.billed is None and self.is_due(memo):
                memo.billed = code
        return True

    def last_review_day(self, memo):
        return memo.issued + datetime.timedelta(days=self.plan.terms[1])

    def is_due(self, memo):
        if memo.kind == "ACMA" or memo.state in ("agreed", "upheld", "reduced"):
            return True
        return memo.state == "open" and self.last_review_day(memo) < self.plan.day

    # memos

    def issue(self, airline, agent, amount, document, kind, reason):
        if agent not in self.agents:
            raise Refused("M08")
        if not 1 <= amount <= 99_999_999_999:
            raise Refused("M04")
        memo = self.memos.get((airline, document))
        if memo:
            if (memo.agent, memo.kind, memo.reason, memo.issued_amount) == (agent, kind, reason, amount):
                return False
            raise Refused("M05")
        if sum(it.airline == airline and it.agent == agent for it in self.memos.values()) >= self.plan.terms[2]:
            raise Refused("M07")
        self.memos[airline, document] = Memo(airline, document, agent, kind, amount, reason, self.plan.day, amount)
        return True

    def act(self, action, airline, document, agent=None, amount=None):
        """An action on a memo; whether it changed the memo."""
        memo = self.memos.get((airline, document))
        if memo is None or agent not in (None, memo.agent):
            raise Refused("M01")
        before, after = ACTIONS[action]
        if memo.kind == "ACMA":
            raise Refused("M06")
        if memo.state == after and (action != "reduce" or memo.amount == amount):
            return False
        if memo.state not in before or action == "withdraw" and memo.billed:
            raise Refused("M03")
        if action in ("dispute", "agree") and (self.last_review_day(memo) < self.plan.day or memo.billed):
            raise Refused("M02")
        if action == "reduce" and not 1 <= amount < memo.amount:
            raise Refused("M04")
        memo.state, memo.amount = after, memo.amount if amount is None else amount
        return True

    # what is shown

    def document(self, agent, number):
        own = self.of_agent(agent)
        of_number = sorted((item for item in own if item.of.number == number), key=lambda item: item.of.code == "CANX")
        if not of_number:
            raise Refused("D01")
        item = of_number[0]
        related = self.related(own, number)
        state = "cancelled" if not item.lives or item.of.code == "CANX" else "alive"
        if state == "alive" and related:
            state = "refunded" if related[0].of.code == "RFND" else "exchanged"
        return {
            "airline": item.of.airline,
            "cash": item.of.form("CA"),
            "code": item.of.code,
            "commission": item.of.commission,
            "credit": item.of.form("CC"),
            "issued": str(item.of.issued),
            "period": item.period,
            "state": state,
        }

    def counted(self, period, agent=None):
        """The items and the memos of a period that count, of one agent or of all."""
        living = [it for it in self.items if it.period == period and it.lives and it.of.code != "CANX"]
        billed = [it for it in self.memos.values() if it.billed == period]
        return [it for it in living if agent in (None, it.of.agent)], [it for it in billed if agent in (None, it.agent)]

    def period(self, agent, code):
        if code not in self.plan.periods:
            raise Refused("S01")
        items, memos = self.counted(code, agent)
        net = sum(it.net() for it in items) + sum(it.signed() for it in memos)
        return {"closed": self.plan.is_closed(code), "documents": len(items), "net": money(net), "period": code}

    def stock(self, agent):
        used = {item.of.number for item in self.of_agent(agent)}
        return {
            "ranges": [
                {"first": f"{first:010}", "last": f"{last:010}", "used": sum(first <= it <= last for it in used)}
                for of, first, last in sorted(self.ranges)
                if of == agent
            ]
        }

    def shown_memos(self, agent=None, airline=None):
        memos = [it for _, it in sorted(self.memos.items())]
        return {"memos": [it.shown() for it in memos if agent in (None, it.agent) and airline in (None, it.airline)]}

    def expect_closed(self, code, refusal):
        if not self.plan.is_closed(code):
            raise Refused(refusal)

    def sums(self, items, memos, form):
        """What a line of a statement has behind its name."""
        cash, credit = sum(it.of.form("CA") for it in items), sum(it.of.form("CC") for it in items)
        taken, tax = sum(it.of.commission for it in items), sum(it.tax for it in items)
        claims = sum(it.signed() for it in memos)
        amounts = [cash, credit, taken, *([tax] if form == 2 else []), claims, cash - taken - tax + claims]
        return [str(len(items)), *(money(it) for it in amounts)]

    def statement(self, agent, code):
        self.expect_closed(code, "S01")
        items, memos = self.counted(code, agent)
        form, (_, _, remit) = self.plan.form(code), self.plan.periods[code]
        heads = ["DOCS", "CASH", "CREDIT", "COMMISSION", *(["COMMISSION TAX"] if form == 2 else []), "MEMOS", "NET"]
        lines = [f"STATEMENT {agent} PERIOD {code} REMIT {remit} {self.plan.terms[0]}", row("AIR", heads)]
        for airline in sorted({it.of.airline for it in items} | {it.airline for it in memos}):
            sold, claimed = [it for it in items if it.of.airline == airline], [it for it in memos if it.airline == airline]
            lines.append(row(airline, self.sums(sold, claimed, form)))
        return text_of([*lines, row("TOT", self.sums(items, memos, form))])

    def settlement(self, code):
        self.expect_closed(code, "S01")
        items, memos = self.counted(code)
        agents, airlines = collections.Counter(), collections.Counter()
        posted = [(it.of.agent, it.of.airline, it.net()) for it in items]
        for agent, airline, net in (*posted, *((it.agent, it.airline, it.signed()) for it in memos)):
            agents[agent] += net
            airlines[airline] += net
        lines = [f"SETTLEMENT PERIOD {code} REMIT {self.plan.periods[code][2]} {self.plan.terms[0]}"]
        for label, nets, name in (("AGENT", agents, "AGENTS"), ("AIRLINE", airlines, "AIRLINES")):
            lines += [f"{label:8}{code:8}{money(net):>16}" for code, net in sorted(nets.items())]
            lines.append(f"{'TOTAL':8}{name:8}{money(sum(nets.values())):>16}")
        return text_of(lines)

    def hot(self, airline, code):
        self.expect_closed(code, "H02")
        items = [it for it in self.items if it.of.airline == airline and it.period == code and it.lives]
        memos = [it for it in self.memos.values() if it.airline == airline and it.billed == code]
        return Hot(self.plan, airline, code).text([entry_of(it) for it in items] + [entry_of_memo(it) for it in memos])


def row(name, texts):
    count, *others = texts
    return f"{name:3}{count:>8}" + "".join(f"{it:>16}" for it in others)


def text_of(lines):
    return "".join(f"{line}\n" for line in lines).encode()


# ---- HOT files


@dataclasses.dataclass
class Entry:
    """An item of a HOT file: its values, and which records follow its BKS24."""

    agent: str
    code: str
    number: int
    issued: datetime.date
    name: str
    fare: int = 0
    taxes: tuple = ()
    rate: int = None
    commission: int = 0
    hundredths: int = 0
    tax: int = 0
    related: tuple = ()
    forms: tuple = ()

    def form(self, name):
        return sum(amount for form, amount, _ in self.forms if form == name)


def entry_of(item):
    it = item.of
    if it.code == "CANX":
        return Entry(it.agent, it.code, it.number, it.issued, it.name)
    return Entry(
        it.agent,
        it.code,
        it.number,
        it.issued,
        it.name,
        it.fare,
        it.taxes,
        it.rate,
        it.commission,
        item.hundredths,
        item.tax,
        it.related,
        it.forms,
    )


def entry_of_memo(memo):
    amount = memo.signed()
    return Entry(memo.agent, memo.kind, memo.document, memo.issued, memo.reason, fare=amount, forms=(("CA", amount, ""),))


class Hot:
    """A HOT file as it is written."""

    def __init__(self, plan, airline, code):
        self.plan, self.airline, self.code = plan, airline, code
        self.form, self.lines, self.number = plan.form(code), [], 0

    def push(self, name, text):
        self.lines.append(f"{name[:3]}{len(self.lines) + 1:08}{name[3:]}{text}")

    def push_own(self, name, text):
        """A record of the transaction."""
        self.push(name, f"{self.number:08}{text}")

    def totals(self, entries):
        """Documents, CA, CC, commission and net, and in form 2 the tax."""
        cash, credit = sum(it.form("CA") for it in entries), sum(it.form("CC") for it in entries)
        taken, tax = sum(it.commission for it in entries), sum(it.tax for it in entries)
        amounts = [cash, credit, taken, cash - taken - tax, *([tax] if self.form == 2 else [])]
        return f"{len(entries):08}" + "".join(zoned(it, 15) for it in amounts)

    def push_entry(self, it):
        self.number += 1
        self.push_own("BKT06", self.airline)
        self.push_own("BKS24", f"{yymmdd(it.issued)}{it.number:010}{it.number % 7}{it.code}{it.agent}{it.name}")
        if it.code == "CANX":
            return
        self.push_own("BKS30", f"{zoned(it.fare)}{tax_places(it.taxes)}")
        if it.rate is not None:
            self.push_own("BKS39", f"{it.rate:05}{zoned(it.commission)}")
            if self.form == 2:
                self.push_own("BKS42", f"{it.hundredths:05}{zoned(it.tax)}")
        for airline, number, check in it.related:
            self.push_own("BKS45", f"{airline}{number:010}{check}")
        for form, amount, vendor in it.forms:
            self.push_own("BKP84", f"{form}{zoned(amount)}{vendor}")

    def push_office(self, agent, entries):
        self.push("BOH03", f"{agent}{self.code}{self.plan.terms[0]}")
        for it in sorted(entries, key=lambda it: (CODES.index(it.code), it.number)):
            self.push_entry(it)
        for code in CODES:
            of_code = [it for it in entries if it.code == code]
            if of_code:
                self.push("BOT93", f"{agent}{code}{self.totals(of_code)}")
        self.push("BOT94", f"{agent}{self.totals(entries)}")

    def text(self, entries):
        first, last, remit = (yymmdd(it) for it in self.plan.periods[self.code])
        self.push("BFH01", f"{self.airline}{self.code}{remit}{self.plan.terms[0]}PROD{self.form:03}")
        self.push("BCH02", f"{self.code}{first}{last}{remit}")
        agents = sorted({it.agent for it in entries})
        for agent in agents:
            self.push_office(agent, [it for it in entries if it.agent == agent])
        self.push("BCT95", f"{self.code}{len(agents):08}{self.totals(entries)}")
        self.push("BFT99", f"{self.airline}{len(self.lines) + 1:08}{self.totals(entries)}")
        return text_of(f"{it:136}" for it in self.lines)


# ---- replies

STATUSES = {"P01": 400, "P02": 400, "N01": 403, "N04": 400, "M01": 404, "D01": 404}


def reply(answer):
    """The status, the media type and the body of what a call answers."""
    try:
        found = answer()
    except Refused as refused:
        code = str(refused)
        return STATUSES.get(code, 409), "application/json", compact({"code": code})
    if isinstance(found, bytes):
        return 200, "text/plain", found
    return 200, "application/json", compact({"result": "done" if found else "held"} if isinstance(found, bool) else found)
