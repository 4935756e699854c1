"""What is as large as its users or its formats have it. So nothing gives up at a size that memory has room for:
- `check` a RET file of 999,999 transactions of the most records, 959 MB, which is the largest that there is, and `hotcheck` a HOT
  file of 1 GiB;
- `judge` and `plan` a RET file and a plan text as large as a body, after 100 earlier ones;
- an office with its book in memory and one with it in a file: a plan text of 85,000 entries, nearly the most that a body has room
  for; a RET file of 4,194,304 bytes, the most that a body has, and the same again; one of 30,613 transactions, the most that a
  body has; so many further files until there are --items items; a close; the statement, the HOT file, and the settlement of the
  period; and the book in the file opened and audited again, and opened as one of version 1 and of version 2;
- the same with many of all else: 1,000 airlines, 1,000 agents, as many ranges of one agent, 20,001 memos to it, which one close
  bills, 60,000 periods and taxes, and 500 closes;
- `run` with 65,536 requests of strangers, the most that one connection has, and with as many of an agent;
- `bsp_record_examples` with a RET file of 10,000 sales, read and written; and with such a file in a run of requests, with the reports
  over its rows.
Each test prints how long its parts took."""
import contextlib
import datetime
import hashlib
import json
import os
import pathlib
import sqlite3
import subprocess
import threading
import time

import pytest

from support import program
from support.callers import AGENT, AGENT_TOKEN, DONE, HELD, OFFICE
from support.compare import expect
from support.records import RECORD, header, line, money, trailer, zoned
from support.served import Office
from support.wire import message, response

AIRLINE = "airlinetoken0125"
MOST_BODY = 4_194_304
# the first number of the agent's stock; each sale has the next one
FIRST = 1_300_000_000


# ---- the time that each part takes


def timed(what, function, *words):
    begun = time.monotonic()
    found = function(*words)
    print(f"{what}: {time.monotonic() - begun:.1f} s", flush=True)
    return found


# ---- files


AMOUNTS = f"{zoned(20_000, 11)}{'RA' + zoned(3_500, 11):78}00500{zoned(1_000, 11)}"


def sale(number, document):
    """The records of a ticket of 235.00, sold for cash."""
    name = line(f"2{number:06}TKTT{AGENT}125{document}{document % 7}240105DOE/JANE")
    return name + line(f"5{number:06}{AMOUNTS}") + line(f"8{number:06}CA{zoned(23_500, 11)}")


def ret_pieces(transactions):
    """A RET file of so many exchanges of two tickets, with all records that a group may have, in pieces. All are of the same
    documents, which `check` does not judge."""
    number = f"{FIRST}{FIRST % 7}"
    rests = [
        line(" " * 7 + it)[7:]
        for it in (
            f"TKTT{AGENT}125{number}240105DOE/JANE",
            f"125{number}",
            f"220{number}",
            AMOUNTS,
            f"CA{zoned(23_500, 11)}",
            f"CC{zoned(0, 11)}VI",
            f"EX{zoned(0, 11)}",
        )
    ]
    yield header(2).encode()
    # ten thousand transactions are as those before them, but for the first two digits of their numbers
    texts = "".join(f"{kind}@@{it:04}{rest}" for it in range(10_000) for kind, rest in zip("2335888", rests)).encode()
    for begun in range(0, transactions + 1, 10_000):
        first, end = max(begun, 1) - begun, min(begun + 10_000, transactions + 1) - begun
        yield texts[7 * RECORD * first : 7 * RECORD * end].replace(b"@@", b"%02d" % (begun // 10_000))
    yield trailer(7 * transactions + 2, transactions, 23_500 * transactions).encode()


def ret_file(transactions, first):
    """A RET file of so many sales, of documents from this one on."""
    groups = "".join(sale(it + 1, first + it) for it in range(transactions))
    return (header() + groups + trailer(3 * transactions + 2, transactions, 23_500 * transactions)).encode()


def hot_pieces(documents):
    """A HOT file of so many tickets of one agent, in pieces."""
    begins, amounts, commission, paid = (
        line(" " * 21 + it)[21:]
        for it in ("125", f"{zoned(20_000, 11)}RA{zoned(3_500, 11)}", f"00500{zoned(1_000, 11)}", f"CA{zoned(23_500, 11)}")
    )
    name = line(" " * 38 + f"TKTT{AGENT}DOE/JANE")[38:]
    count = 3
    yield (
        line("BFH000000010112524011240215EURPROD001")
        + line("BCH000000020224011240101240115240215")
        + line(f"BOH0000000303{AGENT}24011EUR")
    ).encode()
    for begun in range(0, documents, 10_000):
        texts = []
        for it in range(begun, min(begun + 10_000, documents)):
            n, document = f"{it + 1:08}", FIRST + it
            texts.append(
                f"BKT{count + 1:08}06{n}{begins}BKS{count + 2:08}24{n}240105{document}{document % 7}{name}"
                f"BKS{count + 3:08}30{n}{amounts}BKS{count + 4:08}39{n}{commission}BKP{count + 5:08}84{n}{paid}"
            )
            count += 5
        yield "".join(texts).encode()
    sums = f"{documents:08}" + "".join(zoned(it * documents, 15) for it in (23_500, 0, 1_000, 22_500))
    for text in (f"93{AGENT}TKTT{sums}", f"94{AGENT}{sums}"):
        count += 1
        yield line(f"BOT{count:08}{text}").encode()
    yield line(f"BCT{count + 1:08}9524011{1:08}{sums}").encode()
    yield line(f"BFT{count + 2:08}99125{count + 2:08}{sums}").encode()


def reported(command, pieces):
    """The status and the last line of the report on a file that comes in pieces."""
    words = [program.path(), command, "-"]
    with subprocess.Popen(words, stdin=subprocess.PIPE, stdout=subprocess.PIPE, bufsize=1 << 20) as it:

        def send():
            for piece in pieces:
                it.stdin.write(piece)
            it.stdin.close()

        sender = threading.Thread(target=send)
        sender.start()
        last = b""
        while more := it.stdout.read(1 << 20):
            last = (last + more)[-200:]
        sender.join()
        return it.wait(60), (last.splitlines() or [b""])[-1]


def test_check_of_the_most_transactions():
    count = 999_999
    found = timed(f"check {count:,} transactions", reported, "check", ret_pieces(count))
    expect("check", (0, f"records {7 * count + 2} transactions {count} sum {money(23_500 * count)}".encode()), found)


def test_hotcheck_of_the_largest_file():
    count = 1_567_000
    found = timed(f"hotcheck {count:,} documents", reported, "hotcheck", hot_pieces(count))
    expect("hotcheck", (0, f"OK records {5 * count + 7} documents {count} net {money(22_500 * count)}".encode()), found)


# ---- a plan


PLAN = """currency = "EUR"
review_days = 14
documents_limit = 1000000
airline = [%s]
[[rate]]
airline = "125"
from = "2000-01-02"
hundredths = 500
[[period]]
code = "24011"
first = "2000-01-02"
last = "2024-01-15"
remit = "2024-02-15"
"""


def day(number):
    return (datetime.date(2000, 1, 2) + datetime.timedelta(days=number)).isoformat()


def plan_text(entries):
    """A plan text of so many entries: 1,000 airlines, a period, one rate of 125, and further rates of the others."""
    airlines = ",".join(f'"{it:03}"' for it in range(1_000))
    others = [it for it in range(1_000) if it != 125]
    rates = ",".join(f'{{airline="{others[it % 999]:03}",from="{day(it // 999)}",hundredths=1}}' for it in range(entries - 1_002))
    return (
        (PLAN % airlines)
        .replace("[[rate]]\nairline", "rate=[" + rates + ",{airline")
        .replace('\nfrom = "2000-01-02"\nhundredths = 500\n', ',from="2000-01-02",hundredths=500}]\n')
    )


# ---- an office


def body_of(**fields):
    return json.dumps(fields)


def largest_body():
    """A RET file of just as many bytes as a body may have, and its transactions: some lines end by CR LF."""
    records = MOST_BODY // RECORD
    sales = (records - 2) // 3
    more = records - 2 - 3 * sales
    # each further record is the cancellation of a sale
    groups = "".join(sale(it + 1, FIRST + it) for it in range(sales))
    for it in range(more):
        document = FIRST + it
        groups += line(f"2{sales + it + 1:06}CANX{AGENT}125{document}{document % 7}240105DOE/JANE")
    last = trailer(records, sales + more, 23_500 * sales)
    text = (header() + groups + last).encode()
    text = text.replace(b"\n", b"\r\n", MOST_BODY - len(text))
    return text, sales, more


def verdicts(verdict, count):
    """The reply to a RET file of which each transaction has this verdict."""
    each = ",".join('{"n":%d,"period":"24011","verdict":"%s"}' % (it, verdict) for it in range(1, count + 1))
    return 200, "application/json", b'{"results":[%s]}' % each.encode()


def expect_reply(what, wanted, found):
    """As `expect`, of replies that may be long."""
    if wanted != found:
        expect(what, (wanted[0], len(wanted[2]), wanted[2][:200]), (found[0], len(found[2]), found[2][:200]))


def open_market(it):
    plan = plan_text(85_000)
    for what, path, body in (
        ("the plan", "plan", plan),
        ("the day", "day", body_of(day="2024-01-05")),
        ("the agent", "agents", body_of(agent=AGENT, token=AGENT_TOKEN)),
        ("the airline", "airlines", body_of(airline="125", token=AIRLINE)),
        ("the stock", "stock/allot", body_of(agent=AGENT, first=f"{FIRST}", last=f"{FIRST + 9_999_999}")),
    ):
        expect_reply(what, DONE, it.ask("POST", f"/office/{path}", OFFICE, body))
    expect_reply("the plan again", HELD, it.ask("POST", "/office/plan", OFFICE, plan))
    return len(plan)


def most_transactions(done):
    """A RET file of as many transactions as a body may have, all cancellations: of 1,000 sales, from this one on, and of numbers
    that were not reported. How many they are."""
    count = MOST_BODY // RECORD - 2
    groups = []
    for it in range(count):
        document = FIRST + done + it if it < 1_000 else FIRST + 5_000_000 + it
        groups.append(line(f"2{it + 1:06}CANX{AGENT}125{document}{document % 7}240105DOE/JANE"))
    return (header() + "".join(groups) + trailer(count + 2, count, 0)).encode(), count


def report(it, items):
    """Reports so many items in files, of which the first has the most bytes, and the second the most transactions. How many live,
    how many are cancellations, and the number of the last sale."""
    path = f"/agents/{AGENT}/ret"
    text, sales, cancelled = largest_body()
    expect("the largest body", MOST_BODY, len(text))
    for verdict in "accepted", "held":
        expect_reply(
            f"the largest RET file: {verdict}", verdicts(verdict, sales + cancelled), it.ask("POST", path, AGENT_TOKEN, text)
        )
    status, _, body = it.ask("POST", path, AGENT_TOKEN, text + b"\n")
    expect("a body of one byte more", (413, b'{"code":"T03"}'), (status, body))
    it.close()
    canx, count = most_transactions(cancelled)
    expect_reply("the most transactions", verdicts("accepted", count), it.ask("POST", path, AGENT_TOKEN, canx))
    living, cancelled, last = sales - cancelled - 1_000, cancelled + count, FIRST + sales
    while (left := items - (last - FIRST) - cancelled) > 0:
        count = min(10_000, left)
        expect_reply("a further RET file", verdicts("accepted", count), it.ask("POST", path, AGENT_TOKEN, ret_file(count, last)))
        last += count
        living += count
    return living, cancelled, last - 1


def looks(it):
    """What a book shows: statuses and bytes."""
    found = [
        it.ask("GET", f"/agents/{AGENT}/{path}", AGENT_TOKEN)
        for path in ("stock", "periods/24011", "statements/24011", f"documents/{FIRST}")
    ]
    found.append(it.ask("GET", "/airlines/125/hot/24011", AIRLINE))
    return found + [it.ask("GET", "/office/settlement/24011", OFFICE)]


def close(it, living, cancelled, last):
    """Closes the period, and compares the nets of what is shown."""
    for what, path, body in (("the next day", "day", body_of(day="2024-01-16")), ("the close", "close", body_of(period="24011"))):
        expect_reply(what, DONE, it.ask("POST", f"/office/{path}", OFFICE, body))
    shown, net = looks(it), money(22_500 * living)
    document = it.ask("GET", f"/agents/{AGENT}/documents/{last}", AGENT_TOKEN)
    expect("the last sale", (200, True), (document[0], b"alive" in document[2]))
    expect("the period", f'{{"closed":true,"documents":{living},"net":"{net}","period":"24011"}}'.encode(), shown[1][2])
    expect("the statement's net", True, shown[2][2].rstrip().endswith(net.encode()))
    expect("the settlement has this net", True, net.encode() in shown[5][2])
    ended = subprocess.run([program.path(), "hotcheck", "-"], input=shown[4][2], capture_output=True, timeout=600)
    records = 5 * living + 2 * cancelled + 8
    expect(
        "hotcheck of the HOT file",
        (0, f"OK records {records} documents {living + cancelled} net {net}\n".encode()),
        (ended.returncode, ended.stdout),
    )
    return shown


def month(name, items, *words):
    """A month of an office with so many items. What it shows at its end."""
    with Office(*words, seconds=600) as it:
        timed(f"{name}: a plan of 85,000 entries, twice", open_market, it)
        counts = timed(f"{name}: {max(items, 40_826):,} items in files of up to {MOST_BODY:,} bytes", report, it, items)
        return timed(f"{name}: a close, and what is shown", close, it, *counts)


def digests(shown):
    return [(status, media, hashlib.sha256(body).hexdigest()) for status, media, body in shown]


def reopened(file, look):
    with Office("--db", file, seconds=600) as it:
        return look(it)


# the tables that a book of version 3 has beside those of an earlier version
NEWER = {1: ("commission_tax", "item_tax", "tally_tax", "second_related"), 2: ("second_related",)}


def earlier_book(version):
    """Makes of the book one of an earlier version, which is the same without these tables: no tax was published."""
    with contextlib.closing(sqlite3.connect("books/sizes.db")) as it, contextlib.closing(
        sqlite3.connect(f"books/version-{version}.db")
    ) as to:
        it.backup(to)
        for table in NEWER[version]:
            to.execute(f"DROP TABLE {table}")
        to.execute("UPDATE meta SET version = ?", (version,))
        to.commit()


@pytest.fixture
def books():
    """A folder for books."""
    os.mkdir("books")


def test_a_month_of_many_items(books, request):
    items = request.config.getoption("items")
    in_memory = digests(month("in memory", items))
    in_file = digests(month("in a file", items, "--db", "books/sizes.db"))
    expect("what both show", in_memory, in_file)
    expect(
        "what is shown when the book is opened again",
        in_file,
        digests(timed("the book opened again", reopened, "books/sizes.db", looks)),
    )
    for version in NEWER:
        earlier_book(version)
        found = timed(f"as a book of version {version}", reopened, f"books/version-{version}.db", looks)
        expect(f"what is shown of version {version}", in_file, digests(found))
    ended = timed(
        "the audit", lambda: subprocess.run([program.path(), "audit", "books/sizes.db"], capture_output=True, timeout=600)
    )
    expect("the audit", (0, True), (ended.returncode, ended.stdout.startswith(b"OK version 3 day 2024-01-16 agents 1 ")))


# ---- an office with many of all else


MANY = 1_000
# so many memos does airline 125 issue to the first agent
MEMOS = 20_001
# one-day periods, and taxes of nothing; so many of the periods are closed
DAYS, CLOSES = 30_000, 500
# so many rates has the plan text that is tried beside these
RATES = 40_000
TERMS = 'currency="EUR"\nreview_days=14\ndocuments_limit=1000000\n'
AIRLINES = ",".join(f'"{it:03}"' for it in range(MANY))
# the ranges of the first agent begin here, those of the others there
OWN, OTHERS = 1_000_000_000, 2_000_000_000


def agent_code(number):
    return f"{1_000_000 + number}{(1_000_000 + number) % 7}"


def agent_token(number):
    return f"agenttoken{number:06}"


def airline_token(number):
    return f"airlinetoken0{number:03}"


def long_plan():
    """A plan text of 1,000 airlines, and so many periods and taxes."""
    periods = ",".join(f'{{code="{it:05}",first="{day(it)}",last="{day(it)}",remit="{day(it + 1)}"}}' for it in range(DAYS))
    taxes = ",".join(f'{{from="{day(it)}",hundredths=0}}' for it in range(DAYS))
    return f"{TERMS}airline=[{AIRLINES}]\nperiod=[{periods}]\ncommission_tax=[{taxes}]\n"


def free_sale(number, agent, airline, document):
    """The records of a ticket of 235.00 without commission."""
    name = line(f"2{number:06}TKTT{agent}{airline:03}{document}{document % 7}000102DOE/JANE")
    amounts = line(f"5{number:06}{zoned(20_000, 11)}{'RA' + zoned(3_500, 11):78}00000{zoned(0, 11)}")
    return name + amounts + line(f"8{number:06}CA{zoned(23_500, 11)}")


def file_of(sales):
    """A RET file of these tickets: their agents, airlines and documents."""
    groups = "".join(free_sale(number, *it) for number, it in enumerate(sales, 1))
    return (header() + groups + trailer(3 * len(sales) + 2, len(sales), 23_500 * len(sales))).encode()


def callers():
    """The requests that register all callers, and give the first agent as many ranges as there are agents, and the others one each."""
    yield "day", {"day": "2000-01-02"}
    for it in range(MANY):
        first = OTHERS + 1_000 * it
        yield "agents", {"agent": agent_code(it), "token": agent_token(it)}
        yield "airlines", {"airline": f"{it:03}", "token": airline_token(it)}
        yield "stock/allot", {"agent": agent_code(0), "first": f"{OWN + 10 * it}", "last": f"{OWN + 10 * it + 9}"}
        yield "stock/allot", {"agent": agent_code(it), "first": f"{first}", "last": f"{first + 999}"}
    yield "stock/withdraw", {"agent": agent_code(0), "first": f"{OTHERS}", "last": f"{OTHERS + 999}"}


def open_long_market(it):
    expect_reply("the long plan", DONE, it.ask("POST", "/office/plan", OFFICE, long_plan()))
    for path, fields in callers():
        expect_reply(f"{path} {fields}", DONE, it.ask("POST", f"/office/{path}", OFFICE, body_of(**fields)))


def verdicts_in(reply):
    """The verdicts of a reply, each with how many there are."""
    return {word: reply[2].count(b'"verdict":"%s"' % word.encode()) for word in ("accepted", "held", "E")}


def sell(it):
    """The first agent sells a ticket of each airline; the office reports as many tickets of airline 125 of all agents as a body
    has room for. The airline issues memos to the first agent, which disputes one, and cancels all its tickets but one."""
    own = file_of([(agent_code(0), at, OWN + 10 * at) for at in range(MANY)])
    all_agents = file_of(
        [
            (agent_code(1 + at % (MANY - 1)), 125, OTHERS + 1_000 * (1 + at % (MANY - 1)) + at // (MANY - 1))
            for at in range(10_000)
        ]
    )
    for what, path, token, text, count in (
        ("a ticket of each airline", f"agents/{agent_code(0)}", agent_token(0), own, MANY),
        ("tickets of all agents", "office", OFFICE, all_agents, 10_000),
    ):
        for verdict in "accepted", "held":
            found = it.ask("POST", f"/{path}/ret", token, text)
            expect(
                f"{what}: {verdict}", (200, {"accepted": 0, "held": 0, "E": 0, verdict: count}), (found[0], verdicts_in(found))
            )
    for at in range(MEMOS):
        memo = body_of(agent=agent_code(0), amount=100, document=f"{at:010}", kind="ADMA", reason="fare")
        expect_reply(f"memo {at}", DONE, it.ask("POST", "/airlines/125/memos", airline_token(125), memo))
    named = body_of(airline="125", document=f"{MEMOS - 1:010}")
    expect_reply("a dispute", DONE, it.ask("POST", f"/agents/{agent_code(0)}/memos/dispute", agent_token(0), named))


def close_many(it):
    """Closes so many periods."""
    expect_reply("a later day", DONE, it.ask("POST", "/office/day", OFFICE, body_of(day=day(CLOSES))))
    for at in range(CLOSES):
        expect_reply(f"close {at}", DONE, it.ask("POST", "/office/close", OFFICE, body_of(period=f"{at:05}")))


def look_at_many(it):
    """What a book with many of all shows."""
    found = [
        it.ask("GET", f"/agents/{agent_code(0)}/{path}", agent_token(0))
        for path in ("stock", "memos", "periods/00000", "statements/00000")
    ]
    found += [it.ask("GET", f"/airlines/125/{path}", airline_token(125)) for path in ("memos", "hot/00000")]
    return found + [it.ask("GET", f"/office/settlement/{period}", OFFICE) for period in ("00000", f"{CLOSES - 1:05}")]


def expect_many(shown):
    """Compares what is shown of many: ranges, memos, lines and nets."""
    stock, memos, _, statement, of_airline, hot, settlement, _ = (it[2] for it in shown)
    expect("all is shown", [200] * 8, [it[0] for it in shown])
    expect("the ranges", MANY, stock.count(b'"first"'))
    expect("the memos", (MEMOS, MEMOS), (memos.count(b'"kind"'), of_airline.count(b'"kind"')))
    net = 23_500 * MANY + 100 * (MEMOS - 1)
    expect("the statement", (MANY + 3, money(net).encode()), (statement.count(b"\n"), statement.split()[-1]))
    total = net + 23_500 * 10_000
    expect("the settlement", (2 * MANY + 3, money(total).encode()), (settlement.count(b"\n"), settlement.split()[-1]))
    ended = subprocess.run([program.path(), "hotcheck", "-"], input=hot, capture_output=True, timeout=600)
    documents, of_125 = 10_001 + MEMOS - 1, 23_500 * 10_001 + 100 * (MEMOS - 1)
    expect(
        "hotcheck of its HOT file",
        (0, True, True),
        (
            ended.returncode,
            f" documents {documents} ".encode() in ended.stdout,
            ended.stdout.endswith(f" net {money(of_125)}\n".encode()),
        ),
    )


def many(name, *words):
    """An office with many of all. What it shows at its end."""
    with Office(*words, seconds=600) as it:
        timed(
            f"{name}: a plan of {2 * DAYS:,} periods and taxes, {MANY:,} agents and airlines, {2 * MANY - 1:,} ranges",
            open_long_market,
            it,
        )
        timed(f"{name}: tickets of all agents and of all airlines, {MEMOS:,} memos", sell, it)
        timed(f"{name}: {CLOSES} closes", close_many, it)
        shown = look_at_many(it)
        expect_many(shown)
        return digests(shown)


def test_an_office_of_many_of_all_else(books):
    in_memory = many("many in memory")
    in_file = many("many in a file", "--db", "books/many.db")
    expect("what both show of many", in_memory, in_file)
    expect(
        "what is shown of many when the book is opened again",
        in_file,
        digests(timed("many opened again", reopened, "books/many.db", look_at_many)),
    )


# ---- commands over no book


def lines_of(what, wanted, words, text):
    """The status, the number of lines and the first and the last line of a command on this text."""
    ended = timed(what, lambda: subprocess.run([program.path(), *words, "-"], input=text, capture_output=True, timeout=600))
    lines = ended.stdout.splitlines()
    expect(what, wanted, (ended.returncode, len(lines), lines[:1], lines[-1:]))


def test_plan_after_100_texts():
    """A text of these entries after 100 texts, of which the first publishes all airlines and 40,000 rates."""
    rates = ",".join(f'{{airline="{it % MANY:03}",from="{day(it // MANY)}",hundredths=1}}' for it in range(RATES))
    text, before = long_plan() + f"rate=[{rates}]\n", []
    for at in range(100):
        lists = f"airline=[{AIRLINES}]\nrate=[{rates}]\n" if at == 0 else f'airline=["{at:03}"]\n'
        pathlib.Path(f"plan-{at}").write_text(f"{TERMS}{lists}", encoding="utf-8")
        before += ["--after", f"plan-{at}"]
    last = f"commission_tax from {day(DAYS - 1)} hundredths 0".encode()
    wanted = 0, 2 * DAYS + 2, [b"done"], [last]
    lines_of(f"plan with {2 * DAYS + RATES + MANY:,} entries", wanted, ["plan", *before], text.encode())


def test_judge_after_100_files():
    """A RET file of 10,000 sales after 100 files, of which one is as large."""
    files = []
    for at in range(100):
        file = ret_file(10_000 if at == 0 else 1, FIRST + 10_000 + (9_999 + at if at else 0))
        pathlib.Path(f"file-{at}").write_bytes(file)
        files += ["--file", f"file-{at}"]
    pathlib.Path("plan").write_text(PLAN % '"125"', encoding="utf-8")
    setting = ["--plan", "plan", "--day", "2024-01-05", "--agent", AGENT, "--stock", f"{FIRST}-{FIRST + 99_999}"]
    wanted = 0, 10_001, [b"000001 accepted 24011"], [f"net {money(22_500 * 10_000)}".encode()]
    lines_of("judge with 10,000 sales", wanted, ["judge", *setting, *files], ret_file(10_000, FIRST))


# ---- a connection


STOCK = f"/agents/{AGENT}/stock"
STRANGER = "403 Forbidden", '{"code":"N01"}'
REGISTERED = message("POST", "/office/agents", OFFICE, body_of(agent=AGENT, token=AGENT_TOKEN))
# the first request, the reply to it, and the one to each other
MANY_ON_ONE = {
    "a stranger": (message("GET", STOCK, AGENT_TOKEN), response(*STRANGER), STRANGER),
    "an agent": (REGISTERED, response("200 OK", DONE[2].decode()), ("200 OK", '{"ranges":[]}')),
}


@pytest.mark.parametrize("caller", MANY_ON_ONE)
def test_the_most_requests_of_a_connection(caller):
    """A request, and after it as many of an agent as one connection takes, and one more. It closes after message 65,536."""
    (first, reply, wanted), count = MANY_ON_ONE[caller], 65_536
    sent = first + message("GET", STOCK, AGENT_TOKEN) * count
    one, last = response(*wanted), response(*wanted, "Connection: close")
    ended = timed(f"run with {count:,} requests", lambda: program.run("run", "--token", OFFICE, text=sent, timeout=600))
    expect("the end", (0, True), (ended.status, ended.out == reply + one * (count - 2) + last))


# ---- calls that no request makes


READS = "reader bytes MOST; finish; file", "reader feed MOST; finish; file", "write MOST; MOST"


def test_calls_on_a_ret_file():
    """Reads a RET file of 10,000 sales, in one piece and byte by byte, and writes it again."""
    count, text = 10_000, ret_file(10_000, FIRST).decode()
    records = "".join(f"  MOST {it.rstrip()}\n" for it in text.splitlines())
    page = records + "".join(f"{it}\n" for it in READS)
    ended = timed(
        "calls on a RET file", lambda: subprocess.run([program.EXAMPLES], input=page.encode(), capture_output=True, timeout=600)
    )
    if not expect("calls on a RET file: their end", (0, b""), (ended.returncode, ended.stderr)):
        return
    found = f"done; done; records {3 * count + 2}, transactions {count}, sum {23_500 * count}"
    wanted = [f"{case} = {it}" for case, it in zip(READS, (found, found, f"the same, {len(text)} bytes"))]
    expect("calls on a RET file", wanted, ended.stdout.decode().splitlines()[-len(READS) :])


def test_a_run_with_reports():
    """Asks the requests of a period in one run, with a RET file of 10,000 sales, and writes the reports over its rows."""
    count, text = 10_000, ret_file(10_000, FIRST).decode()
    case = "run MOST_PLAN; MOST"
    plan = (
        'currency = "EUR"\nreview_days = 14\ndocuments_limit = 99999\nairline = ["125"]\n'
        '[[rate]]\nairline = "125"\nfrom = "2024-01-01"\nhundredths = 500\n'
        '[[period]]\ncode = "24011"\nfirst = "2024-01-01"\nlast = "2024-01-15"\nremit = "2024-02-15"\n'
    )
    named = (("MOST_PLAN", plan), ("MOST", text))
    records = "".join(f"  {name} {it.rstrip()}\n" for name, lines in named for it in lines.splitlines())
    page = f"{records}{case}\n".encode()
    ended = timed("a run with reports", lambda: subprocess.run([program.EXAMPLES], input=page, capture_output=True, timeout=600))
    lines = ended.stdout.decode().splitlines()
    expect("its end", (0, b"", True), (ended.returncode, ended.stderr, f'{case} = 200 {{"result":"done"}}' in lines))
    results = [it for it in lines if it.startswith('200 {"results"')]
    expect("verdicts", [count], [it.count('"verdict":"accepted"') for it in results])
    gross, commission = money(23_500 * count), money(1_000 * count)
    net = money(22_500 * count + 5_000)
    wanted = f"TOT {count} {gross} 0.00 {commission} 50.00 {net}"
    totals = [" ".join(it.split()) for it in lines if it.startswith(("sound", "TOT ", "TOTAL "))]
    expect("reports", ["sound", wanted, f"TOTAL AGENTS {net}", f"TOTAL AIRLINES {net}"], totals)
    expect(
        "the HOT file",
        5 * count + 4 + 8,
        sum(len(it) == 136 and it[:3] in ("BFH", "BCH", "BOH", "BKT", "BKS", "BKP", "BOT", "BCT", "BFT") for it in lines),
    )
