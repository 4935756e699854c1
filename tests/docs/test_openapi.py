"""docs/openapi.yaml, by the parts of openapi.py."""
import openapi
import pytest

from support.compare import expect
from support.served import Office

DESCRIPTION = openapi.Description(openapi.PAGE.read_text(encoding="utf-8"))


def test_it_is_valid():
    openapi.validate()


def test_all_operations_are_asked():
    asked = {place.split("/")[0] for place in DESCRIPTION.whole["x-walk"]}
    assert sorted(asked) == sorted(DESCRIPTION.operations)


def test_its_examples_are_answered(program):
    served = Office("--connections", 1, seconds=10)
    openapi.walk(DESCRIPTION, program, served)
    openapi.refusals(DESCRIPTION, served)
    expect("the office's end", (0, "bsp_office: 1 connection served\n"), served.ended())


def test_a_client_that_is_generated_makes_a_month(program):
    if not openapi.has(["perl", "-MOpenAPI::Client", "-e", "1"]):
        pytest.skip("this machine has no libopenapi-client-perl")
    openapi.month(program)
