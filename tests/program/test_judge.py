"""`judge` and `plan` say what an office says that serves, and `explain` what docs/CODES.md has.

Each RET file of samples/ and of examples/files/ is judged over each plan of samples/, alone and after other files and closes. An
office with the same plans, day, agent and ranges is asked the same. The verdicts are the same, and the net is what the periods of
the agent gained. A plan text is tried over others; an office to which they are posted answers the same code."""
import json
import pathlib
import re

import pytest

from support import program, tree
from support.callers import AGENT, AGENT_TOKEN, OFFICE, registered
from support.compare import expect
from support.records import minor_units, money
from support.served import Office
from support.tree import EXAMPLES, SAMPLES, sample

DAY, FIRST, LAST = "2024-01-16", "1300000000", "1300000099"
PLAN, SALE, TAX = SAMPLES / "plan.toml", SAMPLES / "sale.ret", SAMPLES / "commission-tax.toml"
SETTING = ["--day", DAY, "--agent", AGENT, "--stock", f"{FIRST}-{LAST}"]
STOCKS = [[(FIRST, LAST)], [("1300000050", LAST), (FIRST, "1300000049"), ("1400000000", "1400000009")]]


def asked(it, method, path, body=None, token=OFFICE):
    """The status of a reply of an office, and its body read as JSON."""
    status, _, text = it.ask(method, path, token, body)
    return status, json.loads(text)


def open_office(plans, stock):
    """An office with these plans, the agent and its ranges."""
    it = Office()
    agent, *_ = registered()
    ranges = [registered(AGENT, *it)[1] for it in stock]
    for path, body in [*(("plan", plan) for plan in plans), ("day", json.dumps({"day": DAY})), agent, *ranges]:
        expect(f"the office takes {path}", 200, asked(it, "POST", f"/office/{path}", body)[0])
    return it


def periods_of(plan):
    """The codes of the periods of a plan text."""
    return re.findall(rb'^code = "(\d{5})"', plan, re.M)


def owed(it, plan):
    """What the agent owes over all periods, in minor units."""
    nets = [
        asked(it, "GET", f"/agents/{AGENT}/periods/{code.decode()}", token=AGENT_TOKEN)[1]["net"] for code in periods_of(plan)
    ]
    return sum(map(minor_units, nets))


def line_of(result):
    """The line of a verdict in a reply."""
    word = result["verdict"]
    return f"{result['n']:06} {word}{' ' + result['period'] if 'period' in result else ''}\n"


def repeat(it, earlier):
    """Asks for what came before: the texts of files, and the codes of periods that are closed."""
    for text in earlier:
        if isinstance(text, str):
            expect(f"the office closes {text}", 200, asked(it, "POST", "/office/close", json.dumps({"period": text}))[0])
        else:
            asked(it, "POST", f"/agents/{AGENT}/ret", text, AGENT_TOKEN)


def office_says(plans, stock, earlier, file):
    """What an office says of a file after the earlier files and closes: the lines and the status of `judge`."""
    with open_office(plans, stock) as it:
        repeat(it, earlier)
        before = owed(it, plans[0])
        status, reply = asked(it, "POST", f"/agents/{AGENT}/ret", file, AGENT_TOKEN)
        if status != 200:
            return 1, f"{reply['code']} record {reply['record']}\n"
        net = owed(it, plans[0]) - before
    lines = "".join(map(line_of, reply["results"])) + f"net {money(net)}\n"
    return int(any(it["verdict"][0] == "E" for it in reply["results"])), lines


def judged(words):
    """The status and the output of `judge`, and its lines on standard error."""
    ended = program.run("judge", *words)
    return (ended.status, ended.out.decode()), ended.err.decode()


def words_of(plans, stock, earlier):
    """The words of `judge` but for its file. What came before is files, and codes of periods that are closed."""
    return [
        *(word for it in plans for word in ("--plan", str(it))),
        "--day",
        DAY,
        "--agent",
        AGENT,
        *(word for first, last in stock for word in ("--stock", f"{first}-{last}")),
        *(word for it in earlier for word in (("--closed", it) if isinstance(it, str) else ("--file", str(it)))),
    ]


def texts_of(earlier):
    """What came before, with the texts of the files."""
    return [it if isinstance(it, str) else it.read_bytes() for it in earlier]


def compare(plans, stock, earlier, file):
    """Compares `judge` with an office."""
    status_and_lines, errors = judged([*words_of(plans, stock, earlier), str(file)])
    names = [it if isinstance(it, str) else it.name for it in earlier]
    if file in earlier and status_and_lines[1].startswith("F"):
        return  # the earlier file has a fault, which is reported
    wanted = office_says([it.read_bytes() for it in plans], stock, texts_of(earlier), file.read_bytes())
    expect(f"judge {[it.name for it in plans]} {names} {file.name}", wanted, status_and_lines)
    refusals = re.findall(r"^\d{6} E\d\d$", status_and_lines[1], re.M)
    own = [line for line in errors.splitlines() if not re.match(r"\S+: \d{6}", line) and "uses the number up" not in line]
    expect(
        f"judge {names} {file.name}: a line for each refusal", len(refusals) or int(status_and_lines[1].startswith("F")), len(own)
    )


FILES = sorted([*SAMPLES.glob("*.ret"), *(EXAMPLES / "files").glob("*.ret")])
MARKETS = {"plan": ([PLAN], STOCKS[0]), "tax": ([TAX], STOCKS[1]), "plan and tax": ([PLAN, TAX], STOCKS[1])}


@pytest.mark.parametrize("file", FILES, ids=[it.name for it in FILES])
@pytest.mark.parametrize("market", MARKETS)
def test_a_file_is_judged_as_by_an_office(market, file):
    plans, stock = MARKETS[market]
    for earlier in ([], [SALE], [SALE, file], ["24011"], [SALE, "24011"], ["24011", SALE, file]):
        compare(plans, stock, earlier, file)


SECOND_PERIOD = '[[period]]\ncode = "24012"\nfirst = "2024-01-16"\nlast = "2024-01-31"\nremit = "2024-02-29"\n'
# of a refusal: the sample, the samples reported before, edits of the sample and of the plan, and the line on standard error
REMARKS = [
    ("sale", [], {"12513000000016": "99913000000016"}, "E01: the airline 999 is not in the plan"),
    ("sale", [], {"TKTT12345675": "TKTT76543213"}, "E02: record 2 has the agent 76543213, and 12345675 reports"),
    ("sale", [], {"13000000016": "13000000015"}, "E03: record 2 has the check digit 5, and that of 1300000001 is 6"),
    ("exchange", ["sale"], {"13000000016": "13000000014"}, "E03: record 3 has the check digit 4, and that of 1300000001 is 6"),
    (
        "sale",
        [],
        {"240105DOE": "240117DOE"},
        "E04: it is issued 2024-01-17, after the business day 2024-01-16: report it from 2024-01-17 on, or correct the date",
    ),
    ("sale", [], {"13000000016": "14000000011"}, "E05: 1400000001 is not in the range 1300000000-1300000099"),
    ("sale", ["sale"], {"JANE": "JOHN"}, "E06: 1300000001 was accepted before, with other content: take another number"),
    ("sale", [], {"CA0000002350{": "CA0000002340{", "00002350{": "00002340{"}, "E07: fare + taxes are 235.00, forms 234.00"),
    ("sale", [], {" 00500": " 00600"}, "E07: the rate is 600, and the published one of 125 on 2024-01-05 is 500"),
    ("sale", [], {"0000000100{": "0000001000{"}, "E07: the commission is 100.00, by rate and fare 10.00"),
    ("sale", [], {"10000002000{": "10000002000}"}, "E07: the fare is -200.00, and no amount of a sale is below zero"),
    ("refund-and-sale", [], {}, "E08: no ticket 1300000001 of 125 was reported before: report the sale before its refund"),
    (
        "exchange",
        ["sale", "refund-and-sale"],
        {},
        "E09: 1300000001 was refunded by 1300000002: a ticket is given back once; take this transaction out",
    ),
    (
        "exchange",
        ["sale"],
        {"CA0000000500{": "CA0000000510{", "EX0000002350{": "EX0000002340{"},
        "E12: EX is 234.00, fare + taxes of the tickets are 235.00",
    ),
    (
        "exchange",
        ["sale"],
        {"0000000025{": "0000000125{"},
        "E12: the commission is 12.50, by rate and difference of the fares 2.50",
    ),
    (
        "refund-and-sale",
        ["sale"],
        {"2000}RA0000000350}": "2100}RA0000000250}"},
        "E12: the fare is -210.00, that of the ticket 200.00",
    ),
    (
        "refund-and-sale",
        ["sale"],
        {"2000}RA0000000350}": "1900}RA0000000450}"},
        "E12: the tax RA is -45.00, that of the ticket 35.00",
    ),
    ("refund-and-sale", ["sale"], {"00500000000010": "00400000000008"}, "E12: the rate is 400, that of the ticket 500"),
    ("refund-and-sale", ["sale"], {"0000000100}": "0000000090}"}, "E12: the commission is -9.00, by rate and fare -10.00"),
    (
        "sale",
        ["sale"],
        {"13000000016240105": "13000000020240116", SECOND_PERIOD: ""},
        "E10: it is issued 2024-01-16, and the last period ends 2024-01-15: a later period has to be published",
    ),
    (
        "sale",
        ["sale"],
        {"13000000016": "13000000020", "limit = 1000": "limit = 1"},
        "E11: the documents limit of 1 is reached for 125 in 24011: report it again after the close of 24011",
    ),
]


def edited(name, edits):
    """A sample as a text, with each edit made once."""
    text = sample(name).decode()
    for old, new in edits.items():
        text = text.replace(old, new, 1)
    return text


@pytest.mark.parametrize("name, earlier, edits, remark", REMARKS, ids=[it[3] for it in REMARKS])
def test_a_refusal_has_a_remark(name, earlier, edits, remark):
    pathlib.Path("plan.toml").write_text(edited("plan.toml", edits))
    before = [word for it in earlier for word in ("--file", SAMPLES / f"{it}.ret")]
    ended = program.run("judge", "--plan", "plan.toml", *SETTING, *before, "-", text=edited(f"{name}.ret", edits).encode())
    assert (ended.status, ended.err.decode()) == (1, f"000001 {remark}\n")


def judged_over_plan(*words, text=b""):
    """The end of `judge` over the plan of samples/, in the usual setting."""
    return program.run("judge", "--plan", PLAN, *SETTING, *words, text=text)


def test_a_refusal_in_an_earlier_file_has_a_remark():
    refund = SAMPLES / "refund-and-sale.ret"
    why = "000001 E08: no ticket 1300000001 of 125 was reported before: report the sale before its refund"
    assert judged_over_plan("--file", refund, SALE).err.decode() == f"{refund}: {why}\n"


def test_a_canx_of_a_number_that_no_file_sold_has_a_remark():
    text = sample("sale-and-cancellation.ret").decode().splitlines(True)
    last = text[-1].replace("0000006000000200000000002350{", "0000003000000100000000000000{")
    alone = text[0] + text[-2].replace("000002CANX", "000001CANX") + last
    said = (
        b"000001: 1300000001 was never sold; the cancellation uses the number up: if the number is a slip, "
        b"correct columns 23-32 of record 2\n"
    )
    assert judged_over_plan("-", text=alone.encode()) == (0, b"000001 accepted 24011\nnet 0.00\n", said)


BAD_RANGES = {
    f"{LAST}-{FIRST}": (b"K01\n", f"--stock {LAST}-{FIRST}: the first number is after the last"),
    f"{LAST}-1300000149": (b"K03\n", f"--stock {LAST}-1300000149: it meets {FIRST}-{LAST}"),
}


@pytest.mark.parametrize("range_of", BAD_RANGES)
def test_a_range_is_refused(range_of):
    code, said = BAD_RANGES[range_of]
    ranges = ["--stock", f"{FIRST}-{LAST}"] * (code != b"K01\n") + ["--stock", range_of]
    found = program.run("judge", "--plan", PLAN, "--day", DAY, "--agent", AGENT, *ranges, SALE)
    assert found == (1, code, f"bsp_office: {said}\n".encode())


CLOSES = {
    "24012": (b"P06\n", "24012: the period 24011 is to be closed first"),
    "24099": (b"P06\n", "24099: no period of the plan has this code"),
    "24011 24012": (b"P07\n", f"24012: it ends 2024-01-31, and the business day is {DAY}"),
}


@pytest.mark.parametrize("codes", CLOSES)
def test_a_close_is_refused(codes):
    code, why = CLOSES[codes]
    closes = [word for it in codes.split() for word in ("--closed", it)]
    assert judged_over_plan(*closes, SALE) == (1, code, f"bsp_office: --closed {why}\n".encode())


WORDS = {
    ("--day", "2024-02-30"): b"error: DAY is a day of the calendar, as 2024-01-05\n",
    ("--agent", "12345674"): b"error: A is eight digits, of which the last is the first seven modulo 7\n",
    ("--stock", "1300000000"): b"error: FIRST-LAST is two numbers of ten digits, as 1300000000-1300000099\n",
}


@pytest.mark.parametrize("option, value", WORDS)
def test_a_word_is_refused(option, value):
    words = ["--plan", PLAN, *SETTING, SALE]
    words[words.index(option) + 1] = value
    assert program.run("judge", *words) == (2, b"", WORDS[option, value])


def test_a_plan_that_is_not_there():
    said = b"bsp_office: none.toml: No such file or directory (os error 2)\n"
    assert program.run("judge", "--plan", "none.toml", *SETTING, SALE) == (3, b"", said)


@pytest.mark.parametrize("plan, given", [(SALE, b""), ("-", b"currency = EUR\n")], ids=["a RET file", "standard input"])
def test_a_plan_that_is_no_toml(plan, given):
    ended = program.run("judge", "--plan", plan, *SETTING, SALE, text=given)
    assert (ended.status, ended.out, ended.err.count(b"\n")) == (1, b"P01\n", 1)


PLANS = [
    ([], "", "", None, "done"),
    ([], 'currency = "EUR"', "currency = EUR", 'line 1: EUR is no value: a text is in quotes, as "EUR"', "P01"),
    ([], "hundredths = 500", "hundredths = 0500", "line 8: 0500 has a zero in front: write 500", "P01"),
    ([], "= 1000", "= 1,000", 'line 3: after the value comes ",000": a number has no comma, and a line has one key', "P01"),
    ([], 'from = "2024-01-01"', 'from = "2024-01-01', "line 7: a text has no quote at its end", "P01"),
    ([], "review_days", "currency", "line 2: currency comes twice", "P01"),
    ([], 'currency = "EUR"', 'currency = "eur"', 'currency is "eur", and not three capital letters in quotes, as "EUR"', "P02"),
    ([], "review_days = 14\n", "", "review_days is missing: it is a whole number from 1 to 60", "P02"),
    (
        [],
        "[[rate]]",
        "[[rates]]",
        "rates is unknown: the keys are currency, review_days, documents_limit, airline, rate, period and commission_tax",
        "P02",
    ),
    ([], "[[rate]]", "[rate]", "rate is no list: write [[rate]] in place of [rate]", "P02"),
    ([], 'from = "2024-01-01"', 'from = "2024-02-30"', 'rate 1: from is "2024-02-30", which is no day of the calendar', "P02"),
    ([], 'from = "2024-01-01"', 'from = "01.01.2024"', 'rate 1: from is "01.01.2024", and not a day as "2024-01-05"', "P02"),
    ([], 'from = "2024-01-01"', 'from = "1999-01-01"', 'rate 1: from is "1999-01-01", and not of the years 2000 to 2099', "P02"),
    ([], 'from = "2024-01-01"', "from = 2024-01-01", 'rate 1: from is 2024-01-01 without quotes: write "2024-01-01"', "P02"),
    ([], 'code = "24011"', "code = 24011", 'period 1: code is 24011 without quotes: write "24011"', "P02"),
    ([], "= 14", '= "14"', 'review_days is "14" in quotes, and not a whole number from 1 to 60, as 14', "P02"),
    ([], "= 1000", "= 1.000", "documents_limit is 1.000, and not a whole number from 1 to 1,000,000, without a point", "P02"),
    ([], "= 500", "= 50000", "rate 1: hundredths is 50000, and not a whole number from 0 to 10,000: 5.00 percent is 500", "P02"),
    ([], '"125", "220"]', '"125", 220]', 'airline: 220 has no quotes: write "220"', "P02"),
    (
        [],
        "hundredths = 500",
        "hundredths = 500\ndocuments_limit = 1",
        "rate 1: documents_limit is a key of the text: write it above the first table",
        "P02",
    ),
    ([], '"125", "220"', '"220"', "a rate is of 125, which is in neither the text nor the plan: add it to airline", "P02"),
    (
        [],
        'first = "2024-01-16"',
        'first = "2024-01-17"',
        "period 24012 begins 2024-01-17, and period 24011 before it ends 2024-01-15: it has to begin 2024-01-16",
        "P03",
    ),
    (
        [],
        'remit = "2024-02-15"',
        'remit = "2024-01-15"',
        "period 24011 ends 2024-01-15, and its remit is 2024-01-15: it has to be after the last day",
        "P03",
    ),
    (
        [],
        'from = "2024-01-01"',
        'from = "2000-01-01"',
        "a rate of 125 begins 2000-01-01, and the business day is 2000-01-01: it has to begin on a later day",
        "P05",
    ),
    (["plan"], "", "", None, "held"),
    (
        ["plan"],
        "hundredths = 500",
        "hundredths = 600",
        "the rate of 125 from 2024-01-01 is 600 here and 500 before: a new rate is a further [[rate]] from a later day",
        "P08",
    ),
    (
        ["plan"],
        "review_days = 14",
        "review_days = 15",
        "review_days is 15 here and 14 before: it stays as it was published",
        "P08",
    ),
    (
        ["plan"],
        'last = "2024-01-31"',
        'last = "2024-01-30"',
        "period 24012: last is 2024-01-30 here and 2024-01-31 before: a published period stays",
        "P08",
    ),
    (
        ["plan"],
        'remit = "2024-02-15"',
        'remit = "2024-02-16"',
        "period 24011: remit is 2024-02-16 here and 2024-02-15 before: a published period stays",
        "P08",
    ),
    (
        [],
        "[[period]]",
        '[[rate]]\nairline = "125"\nfrom = "2024-01-01"\nhundredths = 700\n[[period]]',
        "the rate of 125 from 2024-01-01 is 500 in the first entry and 700 in the second: a new rate is a further [[rate]] from a later day",
        "P08",
    ),
]


@pytest.mark.parametrize("published, old, new, reason, code", PLANS, ids=[f"{it[4]} {it[3] or it[2]}" for it in PLANS])
def test_a_plan_text_is_answered_as_by_an_office(published, old, new, reason, code, office):
    plan = sample("plan.toml").decode()
    text = plan.replace(old, new, 1) if old else f"{new}\n{plan}" if new else plan
    pathlib.Path("plan").write_text(plan)
    pathlib.Path("text").write_text(text)
    ended = program.run("plan", *(word for it in published for word in ("--after", it)), "text")
    it = office()
    for name in published:
        asked(it, "POST", "/office/plan", pathlib.Path(name).read_text())
    reply = asked(it, "POST", "/office/plan", text)[1]
    expect("the office", code, reply.get("code", reply.get("result")))
    expect("the command", (int(code[0] == "P"), code), (ended.status, ended.out.decode().split("\n")[0]))
    if reason:
        expect("why", f"bsp_office: text: {reason}\n", ended.err.decode())


@pytest.mark.parametrize("day, code", [("2024-01-15", b"done"), ("2024-01-16", b"P05")])
def test_a_plan_text_on_a_day(day, code):
    assert program.run("plan", "--after", PLAN, "--day", day, TAX).out.split(b"\n")[0] == code


def test_what_a_plan_text_publishes():
    wanted = (
        b"done\ncurrency EUR review_days 14 documents_limit 1000\nairline 125\nairline 220\n"
        b"rate 125 from 2024-01-01 hundredths 500\nperiod 24011 first 2024-01-01 last 2024-01-15 remit 2024-02-15\n"
        b"period 24012 first 2024-01-16 last 2024-01-31 remit 2024-02-29\n"
    )
    assert program.run("plan", PLAN) == (0, wanted, b"")


def test_what_is_new_in_a_plan_text():
    wanted = b"done\ncurrency EUR review_days 14 documents_limit 1000\ncommission_tax from 2024-01-16 hundredths 1900\n"
    assert program.run("plan", "--after", PLAN, TAX) == (0, wanted, b"")


# the status of the codes whose table in docs/CODES.md has none in its rows, but one for all that a caller sees
STATUSES = {"F": " (status 422)"}


def plain(text):
    """A text of docs/CODES.md without its links."""
    text = re.sub(r"\[[A-Z]\d\d by its causes\]\(#[^)]*\)", "its causes", text)
    return re.sub(r"\[([A-Z]+\.md)\]\(\1(?:#[^)]*)?\)", r"docs/\1", text)


def explained(page, code):
    """What `explain` prints of a code, by its row and its causes in docs/CODES.md."""
    *status, meaning, remedy = (plain(it.strip()) for it in re.search(rf"^\| {code} \|(.*)\|$", page, re.M)[1].split("|"))
    causes = re.search(rf"^### {code} by its causes\n\n((?:- .*\n)*)", page, re.M)
    seen = "" if "No caller sees it" in meaning else STATUSES.get(code[0], "")
    status = f" (status {status[0]})" if any(status) else seen
    return f"{code}{status}\n{meaning}.\nWhat to do: {remedy}.\n{causes[1] if causes else ''}"


PAGE = tree.page("CODES.md")
CODES = re.findall(r"^\| ([A-Z]\d\d) \|", PAGE, re.M)


def test_explain_lists_the_codes():
    listed = program.run("explain")
    found = sorted(line[:3] for line in listed.out.decode().splitlines())
    assert (listed.status, found) == (0, sorted(CODES))


@pytest.mark.parametrize("code", CODES)
def test_explain_has_the_words_of_the_page(code):
    assert program.run("explain", code) == (0, explained(PAGE, code).encode(), b"")


@pytest.mark.parametrize("word", ["E13", "E00", "e7", "E7", "Q01", "E007", ""])
def test_explain_of_no_code(word):
    assert program.run("explain", word) == (2, b"", f"bsp_office: {word} is no code: explain alone lists all\n".encode())
