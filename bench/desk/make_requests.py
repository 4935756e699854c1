#!/usr/bin/env python3
"""Writes the requests of ITEMS sales (a multiple of 10,000), and their bodies, into FOLDER, with `taxed` those of a plan with
a tax on commission: make_requests.py ITEMS FOLDER [taxed]

A line of FOLDER/requests is a name, a method, a path, a token and a body, with tabs between. A body that begins
with @ is that of the file of this name in FOLDER. `sales` is the fill of the book, 10,000 sales in a file.
"""
import pathlib
import random
import sys

sys.dont_write_bytecode = True
sys.path.append(str(pathlib.Path(__file__).resolve().parents[1] / "check"))
from make_mixed_file import record, zoned

AGENTS, AIRLINES, MEMOS = 500, 50, 10_000
# Of this airline 2,000 sales are in the first 10,000, and none in later ones.
LARGE = 100
OFFICE = "officetoken00001"
BUSY, MIXED, FULL = 7, 8, 9

PLAN = """currency = "EUR"
review_days = 5
documents_limit = 300
airline = [%s]
%s
[[period]]
code = "24011"
first = "2024-01-01"
last = "2024-01-15"
remit = "2024-02-15"
[[period]]
code = "24012"
first = "2024-01-16"
last = "2024-01-31"
remit = "2024-02-29"
"""
TAX = '[[commission_tax]]\nfrom = "2024-01-01"\nhundredths = 1900\n'
RATE = '[[rate]]\nairline = "%d"\nfrom = "2024-01-01"\nhundredths = 500'


def agent_code(agent):
    front = 1_000_000 + agent
    return f"{front}{front % 7}"


def agent_token(agent):
    return f"agenttoken{agent:06d}"


def commission(basis):
    return (500 * abs(basis) + 5_000) // 10_000 * (1 if basis >= 0 else -1)


class Sale:
    """A transaction: its fields may be changed before it is written."""

    def __init__(self, agent, number, airline, day, code="TKTT", fare=20_000, related=None, exchange=0):
        sign = -1 if code == "RFND" else 1
        self.agent, self.number, self.airline, self.day, self.code = agent_code(agent), number, airline, day, code
        self.digit = number % 7
        self.fare, self.tax = sign * fare, sign * (3_500 + fare % 31)
        self.related, self.exchange = related, exchange
        above = max(0, fare - related.fare) if exchange else self.fare
        self.commission = commission(above)
        self.cash = self.fare + self.tax - exchange

    def group(self, place):
        """The records, as the transaction of this place, and the sum of the forms."""
        name = f"2{place:06d}{self.code}{self.agent}{self.airline}{self.number}{self.digit}{self.day}DOE/JANE"
        if self.code == "CANX":
            return [name], 0
        lines = [name]
        if self.related:
            number = self.related.number
            lines.append(f"3{place:06d}{self.related.airline}{number}{number % 7}")
        taxes = "RA" + zoned(self.tax, 11)
        lines.append(f"5{place:06d}{zoned(self.fare, 11)}{taxes:78}00500{zoned(self.commission, 11)}")
        lines.append(f"8{place:06d}CA{zoned(self.cash, 11)}")
        if self.exchange:
            lines.append(f"8{place:06d}EX{zoned(self.exchange, 11)}")
        return lines, self.cash + self.exchange


def with_fields(sale, **fields):
    """The transaction with other fields."""
    other = Sale.__new__(Sale)
    other.__dict__ = {**sale.__dict__, **fields}
    return other


class Market:
    """The numbers of the agents, and what has been written."""

    def __init__(self, folder, is_taxed=False):
        self.folder, self.is_taxed, self.random = folder, is_taxed, random.Random(1)
        self.used = [0] * AGENTS
        self.lines = []

    def number(self, agent):
        self.used[agent] += 1
        return 1_000_000_000 + agent * 1_000_000 + self.used[agent] - 1

    def sale(self, day, agent=None, airline=None, **fields):
        agent = self.random.randrange(AGENTS) if agent is None else agent
        airline = self.random.randrange(LARGE + 1, LARGE + AIRLINES) if airline is None else airline
        fare = 20_000 + self.random.randrange(977)
        return Sale(agent, self.number(agent), airline, day, fare=fare, **fields)

    def ask(self, name, method, path, token, body=""):
        self.lines.append("\t".join((name, method, path, token, body)))

    def post(self, name, path, token, file, sales):
        """A RET file of the sales."""
        records, total, texts = 2, 0, [record("1TSTA2401160930DE000001PROD001")]
        for place, sale in enumerate(sales, 1):
            group, paid = sale.group(place)
            records += len(group)
            total += paid
            texts += map(record, group)
        texts.append(record(f"Z{records:07d}{len(sales):07d}{zoned(total, 15)}"))
        (self.folder / file).write_text("".join(texts), newline="\n")
        self.ask(name, "POST", path, token, "@" + file)

    def post_of_agent(self, name, agent, file, sales):
        self.post(name, f"/agents/{agent_code(agent)}/ret", agent_token(agent), file, sales)

    def office(self, path, body, name="setup"):
        self.ask(name, "POST", "/office/" + path, OFFICE, body)

    def open(self):
        """The plan, and all callers."""
        airlines = range(LARGE, LARGE + AIRLINES)
        text = PLAN % (", ".join(f'"{code}"' for code in airlines), "\n".join(RATE % code for code in airlines))
        (self.folder / "plan").write_text(text + TAX * self.is_taxed)
        self.office("plan", "@plan")
        self.office("day", '{"day":"2024-01-10"}')
        for code in airlines:
            self.office("airlines", f'{{"airline":"{code}","token":"airlinetoken{code:04d}"}}')
        for agent in range(AGENTS):
            code, first = agent_code(agent), 1_000_000_000 + agent * 1_000_000
            self.office("agents", f'{{"agent":"{code}","token":"{agent_token(agent)}"}}')
            self.office("stock/allot", f'{{"agent":"{code}","first":"{first}","last":"{first + 999_999}"}}')

    def fill(self, items):
        """Files of 10,000 sales of the office. Gives those of the first."""
        first = [self.sale("240105", airline=LARGE) for _ in range(2_000)]
        first += [self.sale("240105") for _ in range(8_000)]
        self.random.shuffle(first)
        for at in range(0, items, 10_000):
            sales = [self.sale("240105") for _ in range(10_000)] if at else first
            self.post("sales", "/office/ret", OFFICE, f"sales-{at}", sales)
        return first

    def issue_memos(self):
        for place in range(MEMOS):
            airline, kind = LARGE + place % AIRLINES, ("ADMA", "ACMA")[place // AIRLINES % 2]
            agent = agent_code(self.random.randrange(AGENTS))
            document = 6_000_000_000 + place
            body = f'{{"agent":"{agent}","amount":5000,"document":"{document}","kind":"{kind}","reason":"fare"}}'
            self.ask("memo", "POST", f"/airlines/{airline}/memos", f"airlinetoken{airline:04d}", body)

    def ask_agents(self, first):
        for sale in self.random.sample(first, 200):
            agent = int(sale.agent[:7]) - 1_000_000
            for name, path in (
                ("period", "periods/24011"),
                ("document", f"documents/{sale.number}"),
                ("stock", "stock"),
                ("statement", "statements/24011"),
                ("open statement", "statements/24012"),
            ):
                self.ask(name, "GET", f"/agents/{sale.agent}/{path}", agent_token(agent))

    def ask_reports(self):
        for _ in range(5):
            self.ask("settlement", "GET", "/office/settlement/24011", OFFICE)
            for name, period in (("hot", "24011"), ("open hot", "24012")):
                self.ask(name, "GET", f"/airlines/{LARGE}/hot/{period}", f"airlinetoken{LARGE:04d}")

    def post_sales(self):
        """Files of one sale of any agents, then a file of one agent and one of the office. Gives the first ones."""
        ones = [self.sale("240116") for _ in range(1_000)]
        for place, sale in enumerate(ones):
            self.post_of_agent("one", int(sale.agent[:7]) - 1_000_000, f"one-{place}", [sale])
        self.post_of_agent("of agent", BUSY, "of-agent", [self.sale("240116", agent=BUSY) for _ in range(10_000)])
        self.post("of office", "/office/ret", OFFICE, "of-office", [self.sale("240116") for _ in range(10_000)])
        return ones

    def post_mixed(self, first, ones):
        """A file of all codes and most verdicts."""
        old = iter(first)
        fresh = [self.sale("240116", agent=MIXED) for _ in range(8)]
        number = self.number(MIXED)

        def of(sale, code, **fields):
            agent = int(sale.agent[:7]) - 1_000_000
            return Sale(agent, self.number(agent), sale.airline, "240116", code=code, related=sale, **fields)

        refund, exchange, wide, twice = (next(old) for _ in range(4))
        refunded = of(refund, "RFND", fare=refund.fare)
        sales = [
            refunded,
            of(exchange, "TKTT", fare=exchange.fare + 5_000, exchange=exchange.cash),
            of(wide, "RFND", fare=wide.fare + 1),
            of(refund, "RFND", fare=refund.fare),
            of(exchange, "RFND", fare=exchange.fare),
            with_fields(ones[0], code="CANX"),
            with_fields(ones[0]),
            with_fields(ones[1], fare=ones[1].fare + 31, cash=ones[1].cash + 31),
            with_fields(next(old), code="CANX"),
            with_fields(twice, code="CANX", airline=LARGE + 1),
            with_fields(next(old)),
            with_fields(refunded, code="CANX"),
            of(refund, "RFND", fare=refund.fare),
            of(with_fields(wide, number=wide.number + 900_000), "RFND", fare=wide.fare),
            with_fields(fresh[0], airline=999),
            with_fields(fresh[1], agent="99999995"),
            with_fields(fresh[1], agent="99999990"),
            with_fields(fresh[2], digit=(fresh[2].digit + 1) % 7),
            with_fields(fresh[3], day="240117"),
            with_fields(fresh[4], number=3_000_000_000, digit=3_000_000_000 % 7),
            with_fields(fresh[5], commission=fresh[5].commission + 1),
            with_fields(fresh[6], cash=fresh[6].cash + 1),
            with_fields(fresh[7], number=number, digit=number % 7),
        ]
        sales += [self.sale("240116", agent=FULL, airline=LARGE) for _ in range(310)]
        self.post("mixed", "/office/ret", OFFICE, "mixed", sales)
        self.office("day", '{"day":"2024-02-01"}')
        self.post("mixed", "/office/ret", OFFICE, "late", [self.sale("240201")])

    def ask_all(self, items):
        """All requests of a market of so many items. Gives the sales that are posted one by one."""
        self.open()
        first = self.fill(items)
        self.issue_memos()
        self.office("day", '{"day":"2024-01-16"}')
        self.office("close", '{"period":"24011"}', name="close")
        self.ask_agents(first)
        self.ask_reports()
        ones = self.post_sales()
        self.post_mixed(first, ones)
        return ones


def main():
    items, folder = int(sys.argv[1]), pathlib.Path(sys.argv[2])
    folder.mkdir()
    market = Market(folder, sys.argv[3:] == ["taxed"])
    market.ask_all(items)
    (folder / "requests").write_text("\n".join(market.lines) + "\n")


if __name__ == "__main__":
    main()
