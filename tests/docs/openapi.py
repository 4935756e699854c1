#!/usr/bin/env python3
"""Validates docs/openapi.yaml with the tools that the machine has; asks a new office its examples in the order of x-walk,
and compares each reply, byte for byte; and asks each operation with a wrong token, and each path with another method. A
client that is generated of it makes a month. Exits with the number of cases that differ.

usage: tests/docs/openapi.py [PROGRAM]   (with no PROGRAM it takes the one that is built)
"""
import pathlib
import subprocess
import sys
import tempfile

sys.path.insert(0, str(pathlib.Path(__file__).resolve().parents[1]))
from support import compare, program as program_under_test
from support.callers import compact
from support.compare import expect
from support.served import Office
from support.tree import TOP

try:
    import yaml
except ImportError as missing:
    sys.exit(f"{missing}: docs/openapi.yaml is not tried (pip install pyyaml)")

PAGE = TOP / "docs" / "openapi.yaml"
TOKENS = {"office": "officetoken00001", "agent": "agenttoken000001", "airline": "airlinetoken0001"}

# Each tool that validates: its name, words that end with 0 where the machine has it, and words that print what is wrong.
BY_SCHEMA = """
import json, sys, yaml, jsonschema
schema = json.load(open("/usr/share/openapi-specification/schemas/v3.0/schema.json"))
for fault in jsonschema.Draft4Validator(schema).iter_errors(yaml.safe_load(open(sys.argv[1]))):
    print(list(fault.path), fault.message)
"""
BY_PERL = "print map { qq($_\\n) } @{JSON::Validator->new->schema($ARGV[0])->schema->errors}"
BY_PYTHON = "import sys, yaml, openapi_spec_validator; openapi_spec_validator.validate(yaml.safe_load(open(sys.argv[1])))"
TOOLS = [
    ("libjson-validator-perl", ["perl", "-MJSON::Validator", "-e"], "1", BY_PERL),
    (
        "openapi-specification and python3-jsonschema",
        ["/usr/bin/python3", "-W", "ignore", "-c"],
        "import jsonschema, yaml; open('/usr/share/openapi-specification/schemas/v3.0/schema.json')",
        BY_SCHEMA,
    ),
    ("openapi-spec-validator", [sys.executable, "-c"], "import openapi_spec_validator", BY_PYTHON),
]


class Description:
    """The operations of the description, each with its method and its path."""

    def __init__(self, text):
        self.whole = yaml.safe_load(text)
        self.operations = {}
        for path, item in self.whole["paths"].items():
            for method in "get", "post":
                if method in item:
                    it = item[method]
                    self.operations[it["operationId"]] = (method.upper(), self.target(path, item), it)

    def found(self, it):
        """What a reference names."""
        while "$ref" in it:
            place, it = it["$ref"], self.whole
            for word in place[2:].split("/"):
                it = it[word]
        return it

    def target(self, path, item):
        """The path with the examples of its parameters."""
        for it in item.get("parameters", []):
            it = self.found(it)
            path = path.replace("{%s}" % it["name"], it["example"])
        return path

    def body(self, operation, example):
        """The bytes of the example of a request, and its media type."""
        if "requestBody" not in operation:
            return None, None
        [(media, content)] = operation["requestBody"]["content"].items()
        it = content["examples"][example]
        if "externalValue" in it:
            return (TOP / "docs" / it["externalValue"]).read_bytes(), media
        return compact(it["value"]), media

    def reply(self, operation, example):
        """The bytes of the example of its reply, or none, and its media type."""
        [(media, content)] = self.found(operation["responses"]["200"])["content"].items()
        examples = content.get("examples")
        if examples is None:
            return None, media
        it = examples.get(example) or examples["done"]
        return it["value"].encode() if media == "text/plain" else compact(it["value"]), media


def walk(description, program, served):
    """Asks the examples in their order."""
    for place in description.whole["x-walk"]:
        name, example = place.split("/")
        method, target, operation = description.operations[name]
        body, media = description.body(operation, example)
        wanted, wanted_media = description.reply(operation, example)
        token = TOKENS[operation["tags"][0]]
        status, found_media, found = served.ask(method, target, token, body if method == "POST" else None, media)
        expect(f"{place}: status and media type", (200, wanted_media), (status, found_media))
        if wanted is not None:
            expect(place, wanted, found)
        else:
            with tempfile.NamedTemporaryFile() as file:
                file.write(found)
                file.flush()
                checked = subprocess.run([program, "hotcheck", file.name], capture_output=True)
            expect(f"{place}: hotcheck", 0, checked.returncode)


def refusals(description, served):
    """Each operation refuses a wrong token, and each path another method; another path has no route. So `default` says."""
    codes = description.whole["components"]["responses"]["Unserved"]["content"]["application/json"]["examples"]
    expect("another path", (404, "application/json", compact(codes["noRoute"]["value"])), served.ask("GET", "/x", "x"))
    for name, (method, target, operation) in description.operations.items():
        wanted = (403, "application/json", b'{"code":"N01"}')
        expect(f"{name} with a wrong token", wanted, served.ask(method, target, "x" * 16))
        wanted = (405, "application/json", compact(codes["otherMethod"]["value"]))
        expect(f"{name} with another method", wanted, served.ask("PUT", target, "x" * 16))


def has(words):
    """Whether the words end with 0."""
    try:
        return subprocess.run(words, capture_output=True).returncode == 0
    except OSError:
        return False


def validate():
    """Loads the description with each tool that the machine has."""
    for name, words, there, text in TOOLS:
        if not has([*words, there]):
            print(f"this machine has no {name}: it does not validate docs/openapi.yaml")
            continue
        ended = subprocess.run([*words, text, str(PAGE)], capture_output=True, text=True)
        expect(f"docs/openapi.yaml by {name}", (0, "", ""), (ended.returncode, ended.stdout, ended.stderr[-2000:]))


def month(program):
    """Makes a month by a client that is generated of the description."""
    if not has(["perl", "-MOpenAPI::Client", "-e", "1"]):
        print("this machine has no libopenapi-client-perl: no client of docs/openapi.yaml makes a month")
        return
    with tempfile.TemporaryDirectory() as folder, Office(seconds=10) as served:
        hot = pathlib.Path(folder, "125.hot")
        words = ["perl", TOP / "tests" / "docs" / "month.pl", PAGE, f"http://127.0.0.1:{served.port}", hot]
        made = subprocess.run(words, capture_output=True, text=True, timeout=60)
        wanted = (TOP / "tests" / "docs" / "month.txt").read_text(encoding="utf-8")
        expect("a month by a generated client", (0, wanted, ""), (made.returncode, made.stdout, made.stderr))
        checked = subprocess.run([program, "hotcheck", "--quiet", hot], capture_output=True)
        expect("its HOT file", (0, b"OK records 36 documents 5 net 322.50\n"), (checked.returncode, checked.stdout))


def main():
    if len(sys.argv) > 1:
        program_under_test.choose(sys.argv[1])
    program = program_under_test.path()
    description = Description(PAGE.read_text(encoding="utf-8"))
    validate()
    asked = {place.split("/")[0] for place in description.whole["x-walk"]}
    expect("the operations that x-walk asks", sorted(description.operations), sorted(asked))
    served = Office("--connections", 1, seconds=10)
    walk(description, program, served)
    refusals(description, served)
    expect("the office's end", (0, "bsp_office: 1 connection served\n"), served.ended())
    month(program)
    print(compare.differences() or f"docs/openapi.yaml: {len(description.whole['x-walk'])} examples are answered as it says")
    sys.exit(compare.is_different())


if __name__ == "__main__":
    main()
