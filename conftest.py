"""The options of the tests. They are here, and not beside the tests, so that `--program PATH` may name a path of this repository; one
of another place is given as `--program=PATH`, since pytest takes an existing path that stands alone for a place of tests."""


def pytest_addoption(parser):
    parser.addoption("--program", metavar="PATH", help="the program under test, by default the one that is built")
    parser.addoption(
        "--markets", type=int, metavar="N", default=40, help="N random markets, and as many more of all that is random"
    )
    parser.addoption("--one-in", type=int, metavar="N", default=23, help="over a file one in N allocations is refused")
    parser.addoption("--items", type=int, metavar="N", default=50_000, help="the items of the largest books")
