"""`body` says of bodies what the rows below have, and what an office answers that serves.

Each row has a request, a body, the line that is printed, and what standard error says of the file. The same request is then sent
to an office: it answers the same code, or where `OK` is printed none that comes of the body alone. With --log the line of an N04
has the same cause. No text has the value of a token."""
import json
import pathlib
import re

import hypothesis
import pytest
from hypothesis import strategies

from support import program
from support.callers import AGENT, AGENT_TOKEN, OFFICE
from support.compare import expect
from support.served import Office
from support.tree import SAMPLES
from support.wire import curl

AIRLINE_TOKEN = "airlinetoken0001"
TOKENS = {"office": OFFICE, "agents": AGENT_TOKEN, "airlines": AIRLINE_TOKEN}
DAYS, AGENTS, AIRLINES, ALLOT = (f"POST /office/{it}" for it in ("day", "agents", "airlines", "stock/allot"))
CLOSE, DISPUTE = "POST /office/close", f"POST /agents/{AGENT}/memos/dispute"
ISSUE, UPHOLD, REDUCE = (f"POST /airlines/125/memos{it}" for it in ("", "/uphold", "/reduce"))
IS_DAY = 'a day of the calendar from 2000 to 2099, as "2024-01-05"'
IS_AMOUNT = "a whole number in minor units, as 5000 for 50.00"
IS_TOKEN = "16 to 64 letters A to Z, a to z and digits"
NO_JSON = 'the body is no JSON text ({}): {{"day":"2024-01-05"}}'


def memo(**changed):
    """The body of an issue, with some values changed; a value None leaves the key out."""
    values = {"agent": AGENT, "amount": 5000, "document": "6000000001", "kind": "ADMA", "reason": "fare"} | changed
    return json.dumps({key: value for key, value in values.items() if value is not None}, ensure_ascii=False)


def stock(**changed):
    """The body by which a range is allotted, with some values changed."""
    return json.dumps({"agent": AGENT, "first": "1400000000", "last": "1400000099"} | changed)


# the request, the body, the line on standard output, and what standard error says of the file
ROWS = [
    (DAYS, '{"day":"2024-01-05"}', "OK", None),
    (DAYS, ' {\n"day" : "2024-01-05" }\n', "OK", None),
    (DAYS, '{"day":"x","day":"2024-01-05"}', "OK", None),
    (DAYS, "", "N04", 'the body is empty: {"day":"2024-01-05"}'),
    (DAYS, "day=2024-01-05", "N04", NO_JSON.format("line 1, column 1 has a letter")),
    (DAYS, "{'day':'2024-01-05'}", "N04", NO_JSON.format("line 1, column 2 has '")),
    (DAYS, '{day:"2024-01-05"}', "N04", NO_JSON.format("line 1, column 2 has a letter")),
    (DAYS, '{"day":2024-01-05}', "N04", NO_JSON.format("line 1, column 8 has a digit")),
    (DAYS, '{"day":"2024-01-05",}', "N04", NO_JSON.format("line 1, column 21 has }")),
    (DAYS, '{\n"day":“2024-01-05”}', "N04", NO_JSON.format("line 2, column 7 has a character that is not ASCII")),
    (
        DAYS,
        '{"day":"2024-\n01-05"}',
        "N04",
        NO_JSON.format("line 1, column 8 has a text that is not allowed there, or a line break, a tab or a wrong \\ in it"),
    ),
    (DAYS, '{"day":"2024-01-05"', "N04", NO_JSON.format("it ends at line 1, column 19")),
    (DAYS, '{"day":"2024-01-05"}}', "N04", "text follows the object (line 1, column 21)"),
    (DAYS, '{"day":"2024-01-05"}{}', "N04", "text follows the object (line 1, column 21)"),
    (DAYS, '\ufeff{"day":"2024-01-05"}', "N04", "the body begins with a byte order mark: save it without one"),
    (DAYS, b'{"day":"\xe9"}', "N04", "the body is no UTF-8: save it as UTF-8"),
    (DAYS, '["2024-01-05"]', "N04", 'the body is a list, and not one object: {"day":"2024-01-05"}'),
    (DAYS, '"2024-01-05"', "N04", 'the body is a text, and not one object: {"day":"2024-01-05"}'),
    (DAYS, "null", "N04", 'the body is null, and not one object: {"day":"2024-01-05"}'),
    (DAYS, "{}", "N04", f"day is missing: it is {IS_DAY}"),
    (DAYS, '{"Day":"2024-01-05"}', "N04", "Day is unknown: the body has exactly day"),
    (DAYS, '{"day":"2024-01-05","time":1}', "N04", "time is unknown: the body has exactly day"),
    (DAYS, '{"":1}', "N04", " is unknown: the body has exactly day"),
    (DAYS, '{"d\u00e4y":1}', "N04", "a key is unknown: the body has exactly day"),
    (DAYS, '{"businessdayofoffice":1}', "N04", "businessdayo... is unknown: the body has exactly day"),
    (DAYS, '{"day":"2024-02-30"}', "N04", 'day is "2024-02-30", which is no day of the calendar'),
    (DAYS, '{"day":"2024-1-5"}', "N04", f'day is "2024-1-5", and not {IS_DAY}'),
    (DAYS, '{"day":"05.01.2024"}', "N04", f'day is "05.01.2024", and not {IS_DAY}'),
    (DAYS, '{"day":"1999-12-31"}', "N04", f'day is "1999-12-31", and not {IS_DAY}'),
    (DAYS, '{"day":"2024-01-05T00:00:00"}', "N04", f"day has 19 characters, and not {IS_DAY}"),
    (DAYS, '{"day":20240105}', "N04", f"day is a number, and not {IS_DAY}"),
    (DAYS, '{"day":null}', "N04", f"day is null, and not {IS_DAY}"),
    (DAYS, '{"day":"é"}', "N04", f"day is not {IS_DAY}"),
    (AGENTS, json.dumps({"agent": "20000002", "token": "otheragenttoken1"}), "OK", None),
    (
        AGENTS,
        json.dumps({"agent": "20000003", "token": "otheragenttoken1"}),
        "OK",
        'agent is "20000003", whose check digit is wrong: nobody has this code',
    ),
    (AGENTS, '{"agent":"12345675"}', "N04", f"token is missing: it is a text of {IS_TOKEN}"),
    (AGENTS, '{"agent":12345675,"token":"agenttoken000001"}', "N04", 'agent is 12345675 without quotes: write "12345675"'),
    (AGENTS, '{"agent":"1234567","token":"agenttoken000001"}', "N04", 'agent is "1234567", and not eight digits'),
    (AGENTS, '{"agent":"1234567X","token":"agenttoken000001"}', "N04", 'agent is "1234567X", and not eight digits'),
    (AGENTS, '{"agent":"1234567é","token":"agenttoken000001"}', "N04", "agent has a character that is not a digit"),
    (AGENTS, '{"agent":"agenttoken000001","token":"12345675"}', "N04", "agent has 16 characters, and not eight digits"),
    (AGENTS, '{"agent":"12345675","token":"agenttoken00001"}', "N04", "token has 15 characters, and not 16 to 64"),
    (
        AGENTS,
        '{"agent":"12345675","token":"agent-token-000001"}',
        "N04",
        "token has another character than letters A to Z, a to z and digits",
    ),
    (AGENTS, '{"agent":"12345675","token":1234567890123456}', "N04", f"token is a number, and not a text of {IS_TOKEN}"),
    (AGENTS, '{"agent":"12345675","token":12345678}', "N04", f"token is a number, and not a text of {IS_TOKEN}"),
    (AIRLINES, '{"airline":"12","token":"airlinetoken0001"}', "N04", 'airline is "12", and not three digits'),
    (AIRLINES, '{"airline":125,"token":"airlinetoken0001"}', "N04", 'airline is 125 without quotes: write "125"'),
    (AIRLINES, '{"airline":57,"token":"airlinetoken0001"}', "N04", "airline is a number, and not a text of three digits"),
    (ALLOT, stock(), "OK", None),
    (ALLOT, stock(agent="12345670"), "OK", 'agent is "12345670", whose check digit is wrong: nobody has this code'),
    (ALLOT, "[]", "N04", 'the body is a list, and not one object: {"agent":"12345675","first":"1300000000","last":"1300000099"}'),
    (ALLOT, stock(count=100), "N04", "count is unknown: the body has exactly agent, first and last"),
    (ALLOT, stock(first="13000000000"), "N04", 'first is "13000000000", and not ten digits: it has no check digit'),
    (ALLOT, stock(last=True), "N04", "last is true or false, and not a text of ten digits"),
    (CLOSE, '{"period":"2401"}', "N04", 'period is "2401", and not five digits'),
    (CLOSE, '{"period":24011}', "N04", 'period is 24011 without quotes: write "24011"'),
    (DISPUTE, '{"document":"6000000001"}', "N04", "airline is missing: it is a text of three digits"),
    (DISPUTE, '{"airline":"125","document":"6000000001"}', "OK", None),
    (ISSUE, memo(agent="12345670"), "OK", 'agent is "12345670", whose check digit is wrong: nobody has this code'),
    (ISSUE, memo(amount=None), "N04", f"amount is missing: it is {IS_AMOUNT}"),
    (ISSUE, memo(amount="5000"), "N04", f'amount is "5000" in quotes, and not {IS_AMOUNT}'),
    (ISSUE, memo(amount="5" * 16), "N04", f"amount is a text, and not {IS_AMOUNT}"),
    (ISSUE, memo(amount=12.5), "N04", f"amount has a point or an exponent, and is not {IS_AMOUNT}"),
    (ISSUE, memo(amount=0).replace(" 0,", " -0,"), "N04", f"amount is -0, and not {IS_AMOUNT}: write 0"),
    (ISSUE, memo(amount=2**63), "N04", "amount is not from -9223372036854775808 to 9223372036854775807, as 64 bits hold it"),
    (
        ISSUE,
        memo(amount=-(2**63) - 1),
        "N04",
        "amount is not from -9223372036854775808 to 9223372036854775807, as 64 bits hold it",
    ),
    (ISSUE, memo(amount=2**64), "N04", "amount is not from -9223372036854775808 to 9223372036854775807, as 64 bits hold it"),
    (ISSUE, memo(amount=[]), "N04", f"amount is a list, and not {IS_AMOUNT}"),
    (ISSUE, memo(document="60000000012"), "N04", 'document is "60000000012", and not ten digits: it has no check digit'),
    (ISSUE, memo(kind="adma"), "N04", 'kind is "adma", and not "ADMA" (debit) or "ACMA" (credit)'),
    (ISSUE, memo(kind=""), "N04", 'kind is "", and not "ADMA" (debit) or "ACMA" (credit)'),
    (ISSUE, memo(kind='A"A'), "N04", 'kind is not "ADMA" (debit) or "ACMA" (credit)'),
    (ISSUE, memo(reason=""), "N04", "reason has 0 characters, and not 1 to 40"),
    (ISSUE, memo(reason="r" * 41), "N04", "reason has 41 characters, and not 1 to 40"),
    (ISSUE, memo(reason="tarif erroné"), "N04", "reason has a character that is not from space to ~"),
    (ISSUE, memo(reason={}), "N04", "reason is an object, and not a text of 1 to 40 characters from space to ~"),
    (UPHOLD, '{"document":"600000001"}', "N04", 'document is "600000001", and not ten digits'),
    (REDUCE, '{"document":"6000000001","amount":5e3}', "N04", f"amount has a point or an exponent, and is not {IS_AMOUNT}"),
    (REDUCE, '{"document":"6000000001","amount":-5}', "OK", None),
]

# requests that are none, or have no body
REQUESTS = [
    ("POST /office/days", "N02", 1, "POST /office/days: it is no request: write one of docs/API.md, as 'POST /office/day'"),
    ("/office/day", "N02", 1, "/office/day: it is no request: write one of docs/API.md, as 'POST /office/day'"),
    ("GET /office/day", "N03", 1, "GET /office/day: the path has the method POST"),
    ("PUT /airlines/125/memos", "N03", 1, "PUT /airlines/125/memos: the path has the methods GET, POST"),
    ("GET /office/settlement/24011", "OK", 0, "GET /office/settlement/24011: it has no body: what comes with it is ignored"),
]


def tried(request, body):
    """The status of the command, its standard output and its standard error."""
    pathlib.Path("body.json").write_bytes(body)
    ended = program.run("body", request, "body.json")
    return ended.status, ended.out.decode(), ended.err.decode()


def code_of(reply):
    """The code of a refusal, and its record, where it has one."""
    said = json.loads(reply)
    return said.get("code", "") + (f" record {said['record']}" if "record" in said else "")


def opened():
    """An office with a plan, an agent and an airline, which logs each reply and ends with its one connection."""
    it = Office("--log", "--connections", 1, "--timeout", 0)
    callers = {"agents": {"agent": AGENT, "token": AGENT_TOKEN}, "airlines": {"airline": "125", "token": AIRLINE_TOKEN}}
    for path, body in ("plan", (SAMPLES / "plan.toml").read_bytes()), *((path, json.dumps(it)) for path, it in callers.items()):
        expect(f"the office takes {path}", 200, it.ask("POST", f"/office/{path}", OFFICE, body)[0])
    return it


def sent(it, request, body):
    """The status, the code and the bytes of the office's reply to a body."""
    method, target = request.split(" ")
    status, _, reply = it.ask(method, target, TOKENS[target.split("/")[1]], body)
    return status, code_of(reply), reply


def bytes_of(body):
    """A body as it is sent."""
    return body.encode() if isinstance(body, str) else body


@pytest.mark.parametrize("request_line, body, line, text", ROWS, ids=[f"{it[0]} {bytes_of(it[1])[:50]!r}" for it in ROWS])
def test_a_body_is_tried(request_line, body, line, text):
    said = "" if text is None else f"bsp_office: body.json: {text}\n"
    assert tried(request_line, bytes_of(body)) == (0 if line == "OK" else 1, f"{line}\n", said)


def logged(request, status, line, reply, text):
    """The line of the log of an N04, without the connection and the microseconds."""
    return f"bsp_office: {request} {status} {line} {len(reply)}: {text}"


def test_an_office_answers_the_bodies_the_same():
    """The rows in their order, since what one leaves is there for the next, and the lines of the log."""
    it, wanted = opened(), []
    for request, body, line, text in ROWS:
        status, code, reply = sent(it, request, bytes_of(body))
        what = f"body {request} {bytes_of(body)[:60]!r}"
        if line == "OK":
            expect(f"{what}: the office reads it", False, bool(re.match("N04|P01|P02|F", code)))
            continue
        expect(f"{what}: the office", line, code)
        if line == "N04":
            wanted.append(logged(request, status, line, reply, text))
    lines = [it for it in it.ended()[1].splitlines() if " N04 " in it]
    found = [re.sub(r"^bsp_office: 1 (.*? N04 \d+) \d+:", r"bsp_office: \1:", it) for it in lines]
    expect("the log lines of N04", wanted, found)


FILES = sorted(SAMPLES.glob("*.ret")) + sorted(SAMPLES.glob("*.toml"))


@pytest.mark.parametrize("file", FILES, ids=[it.name for it in FILES])
def test_faults_of_files_are_those_of_check_and_plan(file):
    """RET files and plan texts, whole, cut and with another character."""
    it, whole = opened(), file.read_bytes()
    request = "POST /office/plan" if file.suffix == ".toml" else "POST /office/ret"
    for body in whole, whole[:-2], whole[:1], b"", whole.replace(b"0", b"X", 1):
        status, line, _ = tried(request, body)
        code = code_of(it.ask("POST", request.split(" ")[1], OFFICE, body)[2])
        fault = code if re.match("P01|P02|F", code) else ""
        expect(f"{request} {file.name} of {len(body)} bytes", (1, f"{fault}\n") if fault else (0, "OK\n"), (status, line))
    expect("the office ends", 0, it.ended()[0])


TAKEN = [(request, body.encode()) for request, body, line, _ in ROWS if line == "OK"]
CHANGES = strategies.lists(
    strategies.tuples(strategies.integers(0, 200), strategies.sampled_from(b'{}[]",:0123456789abXY-. \n\xc3\xa9')),
    min_size=1,
    max_size=2,
)


def test_a_changed_body_is_read_as_by_an_office(examples):
    """Bodies with a byte or two changed: the command says OK if and only if the office does not answer N04."""
    it = opened()

    @examples(150)
    @hypothesis.given(strategies.sampled_from(TAKEN), CHANGES)
    def is_the_same(taken, changes):
        request, body = taken[0], bytearray(taken[1])
        for place, byte in changes:
            body[place % len(body)] = byte
        hypothesis.note(curl(request, bytes(body)))
        _, code, _ = sent(it, request, bytes(body))
        _, line, error = tried(request, bytes(body))
        assert line.strip() == ("N04" if code == "N04" else "OK")
        assert re.findall(r"(?:agent|airline)token\w+", error) == []

    is_the_same()
    expect("the office ends", 0, it.ended()[0])


@pytest.mark.parametrize("request_line, line, status, text", REQUESTS, ids=[it[0] for it in REQUESTS])
def test_a_request_that_is_none_or_has_no_body(request_line, line, status, text):
    assert tried(request_line, b"") == (status, f"{line}\n", f"bsp_office: {text}\n")


def test_a_body_on_standard_input():
    said = f"bsp_office: standard input: day is missing: it is {IS_DAY}\n"
    assert program.run("body", DAYS, "-", text=b"{}").err.decode() == said


def test_a_body_in_no_file():
    assert program.run("body", DAYS, "nobody")[:2] == (3, b"")


def test_a_body_of_many_keys():
    """It is refused in a time that grows with its bytes; its log line has no cause."""
    body = ("{" + ",".join(f'"k{n}":1' for n in range(300_000)) + "}").encode()
    expect("the command", (1, "N04\n", "bsp_office: body.json: k0 is unknown: the body has exactly day\n"), tried(DAYS, body))
    it = opened()
    expect("the office", "N04", code_of(it.ask("POST", "/office/day", OFFICE, body)[2]))
    line = it.ended()[1].splitlines()[-2]
    expect(line, True, bool(re.fullmatch(r"bsp_office: 1 POST /office/day 400 N04 14 \d+", line)))
