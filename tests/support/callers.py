"""The office, two agents and two airlines, with their tokens, and what they ask."""
import json

OFFICE = "officetoken00001"
A, B = "12345675", "76543213"
TOKENS = {A: "agenttoken000001", B: "agenttoken000002", "125": "airlinetoken0125", "220": "airlinetoken0220"}
AGENT, AGENT_TOKEN = A, TOKENS[A]
DONE, HELD = ((200, "application/json", b'{"result":"%s"}' % it) for it in (b"done", b"held"))


def compact(value):
    """The bytes of a value as the office writes it."""
    return json.dumps(value, separators=(",", ":"), sort_keys=True).encode()


def of_office(method, path, body=""):
    """A request of the office."""
    return method, f"/office/{path}", OFFICE, body


def of_agent(agent, method, path, body=""):
    """A request of an agent."""
    return method, f"/agents/{agent}/{path}", TOKENS[agent], body


def of_airline(airline, method, path, body=""):
    """A request of an airline."""
    return method, f"/airlines/{airline}/{path}", TOKENS[airline], body


def registered(agent=A, first="1300000000", last="1300000099"):
    """What the office is sent of an agent: its token, and a range."""
    return [
        ("agents", json.dumps({"agent": agent, "token": TOKENS[agent]})),
        ("stock/allot", json.dumps({"agent": agent, "first": first, "last": last})),
    ]
