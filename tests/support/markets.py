"""Random markets, which the program and the office of second_office.py are asked the same.

In a market sales, refunds, exchanges, cancellations, memos, disputes and closes follow one another, often with one value that is
wrong. Each reply has to be the same, byte for byte; in the end all that shows the rows is asked for. A trial is of one agent, several
plan texts and ranges: `judge` is asked the same as the offices before each file, closes among it, and for the statement of a period
as it is once that is closed after the file.

    market = Market(random.Random(1), collections.Counter())
    market.open()
    market.step("report", random.Random(2))
"""
import collections
import copy
import dataclasses
import datetime
import json
import pathlib
import random
import tempfile

from support import program, wire
from support.callers import OFFICE, compact
from support.records import minor_units, money
from support.second_office import PlanText, Second, Transaction, commission, reply, ret_text
from support.served import Office

DAY = datetime.timedelta(days=1)
# how many numbers an agent has
SPAN = 120
AGENTS = ["12345675", "76543213", "00000000"]
AIRLINES = ["125", "220", "057"]


def related_to(tickets):
    """These tickets as the related documents of a transaction."""
    return tuple((it.airline, it.number, it.number % 7) for it in tickets)


class Market:
    """Random requests, of which most are ones that the second office accepts, or almost."""

    # the part of the requests that bear another token
    strangers = 0.02

    def __init__(self, chance=None, counts=None):
        self.random, self.second = chance or random.Random(1), Second(OFFICE)
        self.counts = collections.Counter() if counts is None else counts
        self.first = Office()
        self.sent, self.numbers, self.agent_tokens, self.posted, self.callers = [], {}, {}, [], 3
        self.is_open = False

    def stop(self):
        self.first.stop()

    # asking

    def ask(self, method, path, token, body, answer):
        """Asks both, and compares. Once the market is open the token is another one now and then."""
        if self.is_open and self.random.random() < self.strangers:
            token = self.random.choice([None, "0" * 16, token[:-1], f"{token[:-1]}_", self.agent_tokens.get(AGENTS[0])])
        wanted, found = reply(lambda: self.second.answer(path, token, answer)), self.first.ask(method, path, token, body)
        self.count(path, wanted[2])
        asked = f"{method} {path}", body or b"", token
        self.expect(lambda: wire.curl(*asked), wanted, found)
        if method == "POST":
            self.posted.append(asked)

    def expect(self, what, wanted, found):
        """Fails with all that was sent before, where the two differ. What is shown changes nothing, and is left out."""
        if wanted != found:
            sent = "\n".join([*(wire.curl(*it) for it in self.posted), what()])
            raise AssertionError(
                f"the second office answers something else after\n{sent}\n  wanted {wanted!r}\n  found  {found!r}"
            )

    def count(self, path, body):
        """Counts an answer: verdicts by their words, refusals by their codes, and what is shown by its path."""
        if body[:1] == b"{" and b'"results"' in body:
            for it in json.loads(body)["results"]:
                self.counts[it["verdict"]] += 1
        elif body[:1] == b"{" and len(body) < 20:
            value = json.loads(body)
            self.counts[value.get("code") or value.get("result") or "shown"] += 1
        else:
            self.counts[path.split("/")[-2] if body[:1] != b"{" else "shown"] += 1

    def post_office(self, path, body, answer):
        self.ask("POST", f"/office/{path}", OFFICE, body, answer)

    def post_agent(self, agent, path, body, answer):
        self.ask("POST", f"/agents/{agent}/{path}", self.agent_token(agent), body, answer)

    def post_airline(self, airline, path, body, answer):
        self.ask("POST", f"/airlines/{airline}/{path}", self.airline_token(airline), body, answer)

    def agent_token(self, agent):
        """Its token; that of nobody, while it has none."""
        return self.agent_tokens.get(agent, "0" * 16)

    def airline_token(self, airline):
        """Its token; that of nobody, while it has none."""
        return self.second.airlines.get(airline, "0" * 16)

    def agent(self):
        return self.random.choice(sorted(self.second.agents) or AGENTS)

    def airline(self):
        return self.random.choice(sorted(self.second.airlines) or AIRLINES)

    def own_numbers(self, agent):
        """The numbers that were an agent's at the beginning; those of the first one for one without any."""
        return self.numbers.get(agent, self.numbers[AGENTS[0]])

    # the office

    def open(self, callers=3):
        """The first plan, so many callers of each kind and the agents' stock. With one there is no airline yet."""
        self.callers = callers
        start = datetime.date(2024, 1, 1)
        length, periods, first = self.random.choice([2, 4, 9]), [], start
        for at in range(1, 7):
            last = first + (length - 1) * DAY
            periods.append((f"{self.random.choice('01289')}401{at}", first, last, last + self.random.choice([1, 20]) * DAY))
            first = last + DAY
        self.days = [start + at * DAY for at in range(6 * length + 3)]
        firsts = [start, start + length * DAY, datetime.date(2000, 1, 2)]
        rates = tuple((airline, self.random.choice(firsts), self.share(50, 500, 733)) for airline in AIRLINES[:2])
        taxes = {self.random.choice(self.days): self.share(1, 1900, 3333) for _ in range(self.random.choice([0, 0, 1, 2]))}
        terms = ("EUR", self.random.choice([1, 3, 60]), self.random.choice([3, 8, 1000, 1_000_000]))
        airlines = tuple(AIRLINES[: self.random.choice([2, 3])])
        self.publish(PlanText(terms, airlines, rates, tuple(periods[:4]), tuple(taxes.items())))
        self.later = PlanText(terms, tuple(AIRLINES), (), tuple(periods), ())
        self.set_day(start)
        for at, agent in enumerate(AGENTS[: self.callers]):
            self.register_agent(agent)
            self.numbers[agent] = range(1300000000 + at * 1000, 1300000000 + at * 1000 + SPAN)
            self.allot(agent, self.numbers[agent][0], self.numbers[agent][-1])
        for airline in AIRLINES[: self.callers] if self.callers > 1 else ():
            self.register_airline(airline)
        self.is_open = True

    def share(self, *some):
        """Hundredths of a percent."""
        return self.random.choice([0, *some, 10_000])

    def publish(self, text):
        self.post_office("plan", text.toml(), lambda: self.second.plan.publish(text))

    def publish_more(self):
        """The first text again, or one with more or other entries."""
        text, day = self.later, self.random.choice(self.days)
        apart = ("99999", *(self.days[-1] + at * DAY for at in (20, 21, self.random.choice([21, 30]))))
        change = self.random.choice(
            [
                {},
                {"periods": text.periods[: self.random.choice([4, 5, 6])]},
                {"periods": (apart,)},
                {"rates": ((self.random.choice(AIRLINES), day, self.share(250, 600)),)},
                {"rates": (("999", day, 1),)},
                {"taxes": ((day, self.share(777, 1900)),)},
                {"taxes": ((day, 10_001),)},
                {"terms": ("EUR", 5, 9)},
                {"airlines": ("125", "057", "057")},
            ]
        )
        self.publish(dataclasses.replace(text, **{"periods": (), **change}))

    def set_day(self, day):
        self.post_office("day", compact({"day": str(day)}), lambda: self.second.set_day(day))

    def next_day(self):
        self.set_day(self.second.plan.day + self.random.choice([0, 1, 1, 1, 2, -1]) * DAY)

    def register_agent(self, agent):
        token = f"agent{agent}{self.random.choice('abc')}00"
        self.agent_tokens[agent] = token
        self.post_office("agents", compact({"agent": agent, "token": token}), lambda: self.second.register_agent(agent, token))
        self.agent_tokens[agent] = self.second.agents.get(agent, token)

    def register_airline(self, airline):
        token = f"airline{airline}{self.random.choice('abc')}00000"
        body = compact({"airline": airline, "token": token})
        self.post_office("airlines", body, lambda: self.second.register_airline(airline, token))

    def register(self):
        if self.random.random() < 0.5:
            self.register_agent(self.random.choice([*AGENTS, "12345674", "11111111"]))
        else:
            self.register_airline(self.random.choice([*AIRLINES, "999"]))

    def span(self, agent, first, last):
        return compact({"agent": agent, "first": f"{first:010}", "last": f"{last:010}"})

    def allot(self, agent, first, last):
        self.post_office("stock/allot", self.span(agent, first, last), lambda: self.second.allot(agent, first, last))

    def change_stock(self):
        agent = self.random.choice([*AGENTS, AGENTS[0], "11111110", "12345674"])
        first = self.random.choice([it for numbers in self.numbers.values() for it in (numbers[0], numbers[-1] + 1, numbers[-1])])
        last = first + self.random.choice([SPAN - 1, SPAN - 1, 4, 0, -1])
        if self.random.random() < 0.6:
            self.allot(agent, first, last)
        else:
            span = self.span(agent, first, last)
            self.post_office("stock/withdraw", span, lambda: self.second.withdraw_range(agent, first, last))

    def close(self):
        codes = list(self.second.plan.periods)
        code = self.random.choice([*codes, *codes[self.second.plan.closed :][:1] * 8, "99999"])
        self.post_office("close", compact({"period": code}), lambda: self.second.close(code))

    # transactions

    def sale(self, agent, **more):
        airline = self.random.choice([*self.second.plan.airlines * 8, "057", "999"])
        issued = max(self.second.plan.day - self.random.choice([0] * 12 + [1, 1, 3, -1]) * DAY, datetime.date(2000, 1, 1))
        number = self.number(agent)
        fare = self.random.choice([0, 1, 99, 100, 12_345, 20_000, 20_000, 99_999])
        codes = sorted(self.random.sample(["1A", "DE", "RA", "ZZ"], self.random.choice([0, 1, 1, 2, 4])))
        taxes = tuple((code, self.random.choice([0, 1, 350, 3500])) for code in codes)
        rate = self.second.plan.rate(airline, issued) if airline in self.second.plan.airlines else 0
        rate = self.random.choice([rate, rate, rate, rate // 2, 0])
        name = self.random.choice(["DOE/JANE", "", "O'NEIL/PAT  MR"])
        made = Transaction(
            "TKTT", agent, airline, number, number % 7, issued, name, (), fare, taxes, rate, commission(rate, fare)
        )
        return self.paid(dataclasses.replace(made, **more))

    def number(self, agent):
        """A number for a sale or a refund, which is mostly a new one."""
        used = {it.of.number for it in self.second.of_agent(agent)}
        free = [it for it in self.own_numbers(agent) if it not in used]
        return self.random.choice(free if free and self.random.random() < 0.93 else self.own_numbers(agent))

    def paid(self, it, value=None):
        """It with forms for its fare and taxes, in cash, by card or both."""
        value = it.value() if value is None else value
        card = self.random.choice([0, 0, value, value // 3])
        forms = [("CA", value - card, "")] if card != value or self.random.random() < 0.1 else []
        forms += [("CC", card, self.random.choice(["VI", "AX", "7Q"]))] if card or not forms or self.random.random() < 0.1 else []
        return dataclasses.replace(it, forms=(*forms, *(form for form in it.forms if form[0] == "EX")))

    def tickets(self, agent, count):
        """So many accepted sales of the agent, as they were reported; those that live most of the time."""
        own = [it for it in self.second.of_agent(agent) if it.of.code == "TKTT" and (it.lives or self.random.random() < 0.15)]
        free = [it.of for it in own if not self.second.related(own, it.of.number) or self.random.random() < 0.15]
        return sorted(self.random.sample(free, min(count, len(free))), key=lambda it: (it.airline, it.number))

    def refund(self, agent):
        tickets = self.tickets(agent, 1)
        if not tickets:
            return self.cancellation(agent)
        ticket = tickets[0]
        fare = -self.random.choice([ticket.fare] * 8 + [ticket.fare // 2, 0, ticket.fare + 1])
        given = [it for it in ticket.taxes if self.random.random() < 0.8]
        taxes = tuple((code, -self.random.choice([amount] * 8 + [0, amount + 1])) for code, amount in given)
        taxes += (("ZZ", 0),) if self.random.random() < 0.05 and "ZZ" not in dict(taxes) else ()
        rate = self.random.choice([ticket.rate] * 20 + [ticket.rate // 2, 10_000])
        related = related_to([ticket])
        return self.paid(
            self.sale(
                agent,
                code="RFND",
                airline=ticket.airline,
                related=related,
                fare=fare,
                taxes=taxes,
                rate=rate,
                commission=commission(rate, fare),
            )
        )

    def exchange(self, agent):
        """A sale that is paid with one ticket or two, whose fare is now and then below theirs."""
        tickets = self.tickets(agent, self.random.choice([1, 1, 2]))
        if not tickets:
            return self.sale(agent)
        value, fares = sum(it.value() for it in tickets), sum(it.fare for it in tickets)
        value += self.random.choice([0] * 15 + [1])
        fares = self.random.choice([fares] * 15 + [0, tickets[0].fare])
        more = self.random.choice([0, 1, 99, 5000])
        taxes = self.random.choice([tickets[0].taxes, (("YQ", min(value + more, 7000)),)])
        fare = value + more - sum(amount for _, amount in taxes)
        airline, day = tickets[0].airline, self.second.plan.day
        rate = self.second.plan.rate(airline, day)
        it = self.sale(
            agent,
            airline=airline,
            issued=day,
            related=related_to(tickets),
            fare=fare,
            taxes=taxes,
            rate=rate,
            commission=commission(rate, max(fare - fares, 0)),
            forms=(("EX", value, ""),),
        )
        if not more and self.random.random() < 0.7:
            return dataclasses.replace(it, forms=(("EX", value, ""),))
        return self.paid(it, more)

    def cancellation(self, agent):
        own = [it.of for it in self.second.of_agent(agent) if it.of.code != "CANX"]
        if own and self.random.random() < 0.95:
            it = self.random.choice(own)
            issued, name = self.random.choice([it.issued, self.second.plan.day]), self.random.choice([it.name, "X"])
            return Transaction("CANX", agent, it.airline, it.number, it.check, issued, name)
        number = self.random.choice(self.own_numbers(agent))
        return Transaction("CANX", agent, self.random.choice(AIRLINES), number, number % 7, self.second.plan.day, "")

    def wrong(self, it):
        """It with one value that is another, mostly a near one."""
        near = self.random.choice([-1, 1])
        values = {"check": (it.check + 1) % 10, "airline": self.random.choice(AIRLINES), "issued": it.issued + DAY}
        if it.code != "CANX":
            values |= {"fare": it.fare + near, "rate": min(max(it.rate + near, 0), 10_000), "commission": it.commission + near}
            values["forms"] = tuple(
                (form, amount + near * (at == 0), vendor) for at, (form, amount, vendor) in enumerate(it.forms)
            )
            values["taxes"] = (*it.taxes[:-1], ("ZZ", 0)) if it.taxes else (("AA", near),)
        if it.related:
            values["related"] = tuple((airline, number, (check + 1) % 7) for airline, number, check in it.related)
            values["related "] = tuple((airline, number + 1, (number + 1) % 7) for airline, number, _ in it.related)
        name = self.random.choice(sorted(values))
        return dataclasses.replace(it, **{name.strip(): values[name]})

    def transaction(self, agent):
        if self.sent and self.random.random() < 0.1:
            return self.random.choice(self.sent)
        ways = [self.sale] * 3 + [self.refund] * 2 + [self.exchange] * 2 + [self.cancellation]
        it = self.random.choice(ways)(agent)
        if self.random.random() < 0.12:
            it = self.wrong(it)
        if self.random.random() < 0.03:
            it = dataclasses.replace(it, agent=self.random.choice([*AGENTS, "12345674"]))
        self.sent.append(it)
        return it

    def report(self):
        agent, by_office = self.agent(), self.random.random() < 0.1
        count = self.random.choice([0, 1, 1, 1, 2, 3, 5])
        transactions = [self.transaction(self.agent() if by_office else agent) for _ in range(count)]
        text = ret_text(transactions)
        if by_office:
            self.post_office("ret", text, lambda: self.second.report(None, transactions))
        else:
            self.post_agent(agent, "ret", text, lambda: self.second.report(agent, transactions))

    # memos

    def key(self):
        """The airline and the number of a memo, which mostly is there."""
        known = sorted(self.second.memos)
        if known and self.random.random() < 0.9:
            return self.random.choice(known)
        return self.airline(), 6000000000 + self.random.randrange(9)

    def issue(self):
        airline, document = self.airline(), 6000000000 + self.random.randrange(40)
        agent, kind = self.random.choice([*AGENTS, self.agent(), "11111110"]), self.random.choice(["ADMA", "ADMA", "ACMA"])
        amount = self.random.choice([1, 50, 5000, 5000, 99_999_999_999, 100_000_000_000, 0, -5])
        reason = self.random.choice(["fare", 'a "word" \\ and more', "~" * 40])
        body = compact({"agent": agent, "amount": amount, "document": f"{document:010}", "kind": kind, "reason": reason})
        self.post_airline(airline, "memos", body, lambda: self.second.issue(airline, agent, amount, document, kind, reason))

    def act_of_agent(self):
        (airline, document), action = self.key(), self.random.choice(["dispute", "dispute", "agree"])
        memo = self.second.memos.get((airline, document))
        agent = memo.agent if memo and self.random.random() < 0.9 else self.agent()
        body = compact({"airline": airline, "document": f"{document:010}"})
        self.post_agent(agent, f"memos/{action}", body, lambda: self.second.act(action, airline, document, agent=agent))

    def act_of_airline(self):
        (airline, document), action = self.key(), self.random.choice(["uphold", "reduce", "reduce", "withdraw"])
        memo = self.second.memos.get((airline, document))
        body = {"document": f"{document:010}"}
        amount = None
        if action == "reduce":
            known = memo.amount if memo else 1
            amount = body["amount"] = self.random.choice([1, 0, known, known - 1, known // 2])
        self.post_airline(
            airline, f"memos/{action}", compact(body), lambda: self.second.act(action, airline, document, amount=amount)
        )

    # what is shown

    def show(self, path, token, answer):
        self.ask("GET", path, token, None, answer)

    def look(self):
        """One thing of a caller."""
        agent, airline = self.agent(), self.airline()
        code = self.random.choice([*self.second.plan.periods, "99999", "x"])
        number = self.random.choice([*self.own_numbers(agent), 5])
        own, other = self.agent_token(agent), self.airline_token(airline)
        self.random.choice(
            [
                lambda: self.show(f"/agents/{agent}/documents/{number:010}", own, lambda: self.second.document(agent, number)),
                lambda: self.show(f"/agents/{agent}/periods/{code}", own, lambda: self.second.period(agent, code)),
                lambda: self.show(f"/agents/{agent}/stock", own, lambda: self.second.stock(agent)),
                lambda: self.show(f"/agents/{agent}/memos", own, lambda: self.second.shown_memos(agent=agent)),
                lambda: self.show(f"/agents/{agent}/statements/{code}", own, lambda: self.second.statement(agent, code)),
                lambda: self.show(f"/airlines/{airline}/memos", other, lambda: self.second.shown_memos(airline=airline)),
                lambda: self.show(f"/airlines/{airline}/hot/{code}", other, lambda: self.second.hot(airline, code)),
                lambda: self.show(f"/office/settlement/{code}", OFFICE, lambda: self.second.settlement(code)),
            ]
        )()

    def look_at_all(self):
        """All that shows the rows."""
        for agent in sorted(self.second.agents):
            own = self.agent_tokens[agent]
            for number in self.numbers.get(agent, ()):
                self.show(f"/agents/{agent}/documents/{number:010}", own, lambda: self.second.document(agent, number))
            self.show(f"/agents/{agent}/stock", own, lambda: self.second.stock(agent))
            for code in self.second.plan.periods:
                self.show(f"/agents/{agent}/periods/{code}", own, lambda: self.second.period(agent, code))
                self.show(f"/agents/{agent}/statements/{code}", own, lambda: self.second.statement(agent, code))
        for airline, token in sorted(self.second.airlines.items()):
            self.show(f"/airlines/{airline}/memos", token, lambda: self.second.shown_memos(airline=airline))
            for code in self.second.plan.periods:
                self.show(f"/airlines/{airline}/hot/{code}", token, lambda: self.second.hot(airline, code))
        for code in self.second.plan.periods:
            self.show(f"/office/settlement/{code}", OFFICE, lambda: self.second.settlement(code))

    def step(self, way, chance):
        """Makes a request of this kind, drawn by chance."""
        self.random = chance
        getattr(self, way)()

    def run(self, requests):
        """An opened market: so many requests, and all that is shown."""
        for way in self.random.choices(list(WAYS), list(WAYS.values()), k=requests):
            getattr(self, way)()
        self.look_at_all()


# the kinds of requests of a market, each with how often it comes
WAYS = {
    "report": 50,
    "look": 14,
    "issue": 8,
    "act_of_agent": 8,
    "act_of_airline": 8,
    "next_day": 3,
    "close": 4,
    "change_stock": 2,
    "register": 1,
    "publish_more": 1,
}
TRIAL_WAYS = {"report": 2, "close_next": 1}


class Trial(Market):
    """Plan texts, ranges, files and closes of one agent on one business day: each file is judged too."""

    strangers = 0

    def __init__(self, chance=None, counts=None):
        super().__init__(chance, counts)
        self.words, self.folder = [], tempfile.TemporaryDirectory()

    def stop(self):
        super().stop()
        self.folder.cleanup()

    def file(self, text):
        """The name of a new file with this text."""
        folder = pathlib.Path(self.folder.name)
        path = folder / str(len(list(folder.iterdir())))
        path.write_bytes(text if isinstance(text, bytes) else text.encode())
        return str(path)

    def publish(self, text):
        super().publish(text)
        self.words += ["--plan", self.file(text.toml())]

    def set_day(self, day):
        """The last day of all is set first, so that periods can be closed."""
        day = self.random.choice(self.days)
        super().set_day(day)
        self.words += ["--day", str(day)]

    def register_agent(self, agent):
        if agent == AGENTS[0]:
            super().register_agent(agent)
            self.words += ["--agent", agent]

    def register_airline(self, airline):
        pass

    def allot(self, agent, first, last):
        """In two ranges, of which one is left out now and then."""
        if agent != AGENTS[0]:
            return
        middle = self.random.randrange(first, last)
        ranges = self.random.choice(
            [[(first, middle), (middle + 1, last)]] * 3 + [[(middle, last)], [(middle + 1, last), (first, middle)]]
        )
        for one, other in ranges:
            super().allot(agent, one, other)
            self.words += ["--stock", f"{one:010}-{other:010}"]

    def owed(self):
        """What the agent owes over all periods, in minor units, as the first office says."""
        agent, token = AGENTS[0], self.agent_tokens[AGENTS[0]]
        paths = [f"/agents/{agent}/periods/{code}" for code in self.second.plan.periods]
        return sum(minor_units(json.loads(self.first.ask("GET", path, token, None)[2])["net"]) for path in paths)

    def judged(self, text, *words):
        """The status and the output of `judge` of a text, after all that came before."""
        status, out, _ = program.run("judge", *self.words, *words, self.file(text))
        return status, out.decode()

    def statement(self, transactions, code):
        """The statement of a period, if the second office reports these and closes the period; none where it has no such period."""
        second = copy.deepcopy(self.second)
        second.report(AGENTS[0], transactions)
        if code not in second.plan.periods:
            return None
        second.set_day(max(second.plan.day, second.plan.periods[code][2]))
        while not second.plan.is_closed(code):
            second.close(list(second.plan.periods)[second.plan.closed])
        return second.statement(AGENTS[0], code).decode()

    def report(self):
        """A file, which is judged after all that came before."""
        transactions = [self.transaction(AGENTS[0]) for _ in range(self.random.choice([1, 2, 3, 5]))]
        text = ret_text(transactions)
        code = self.random.choice([*self.second.plan.periods, "99999"])
        said, stated, before = self.judged(text), self.judged(text, "--statement", code), self.owed()
        statement = self.statement(transactions, code)
        status, _, body = self.first.ask("POST", f"/agents/{AGENTS[0]}/ret", self.agent_tokens[AGENTS[0]], text)
        self.second.report(AGENTS[0], transactions)
        self.posted.append((f"POST /agents/{AGENTS[0]}/ret", text, self.agent_tokens[AGENTS[0]]))
        results = json.loads(body)["results"]
        lines = "".join(f"{it['n']:06} {it['verdict']}{' ' + it['period'] if 'period' in it else ''}\n" for it in results)
        units = self.owed() - before
        net = f"net {money(units)}\n"
        self.expect(lambda: f"judge {' '.join(self.words)}", (200, (int(" E" in lines), lines + net)), (status, said))
        wanted = (int(" E" in lines), lines + net + statement) if statement else (1, "S01\n")
        self.expect(lambda: f"judge {' '.join(self.words)} --statement {code}", wanted, stated)
        self.counts["judged"] += 1
        self.words += ["--file", self.file(text)]

    def close_next(self):
        """The earliest open period; a close that the office refuses ends a trial with its code."""
        code = list(self.second.plan.periods)[self.second.plan.closed :][:1]
        if not code:
            return
        status, _, body = self.first.ask("POST", "/office/close", OFFICE, compact({"period": code[0]}))
        words = [*self.words, "--closed", code[0]]
        if status == 200:
            reply(lambda: self.second.answer("/office/close", OFFICE, lambda: self.second.close(code[0])))
            self.words = words
            return
        ended = program.run("judge", *words, self.file(ret_text([])))
        wanted = 1, json.loads(body)["code"] + "\n"
        self.expect(lambda: f"judge {' '.join(words)}", wanted, (ended.status, ended.out.decode()))
        self.counts["judge stopped"] += 1

    def open(self, callers=1):
        """The plan texts, the agent and its ranges."""
        super().open(callers)
        if self.random.random() < 0.7:
            self.publish(dataclasses.replace(self.later, rates=()))
