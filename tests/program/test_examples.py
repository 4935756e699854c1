"""The conversations of examples/ over lists in memory, over tables in memory, over a book in a file, and over one whose office is
killed, and started again, between each two requests. A body of which a file has the end alone is the same in all ways."""
import pytest

from support import examples
from support.compare import expect

FILES = sorted(examples.FOLDER.glob("*.hurl"))


@pytest.mark.parametrize("file", FILES, ids=[it.stem for it in FILES])
def test_an_example(file, folder, program):
    bodies = {}
    for number, _ in enumerate(examples.conversations(file)):
        for way in examples.WAYS:
            name, count, differences, wholes = examples.run(program, folder, file, number, way)
            expect(f"{file.name}, {name}, {count} requests", [], differences)
            for place, body in wholes:
                expect(f"{file.name}, {name}: the whole body of {place}", bodies.setdefault(place, body), body)
