"""What all tests have: the program under test, a folder of their own, offices that serve, and comparisons that go on."""
import contextlib
import os
import pathlib
import shutil
import tempfile

import hypothesis
import pytest

from support import compare, program as program_under_test
from support.markets import Market
from support.served import Office

# so many random markets does the gate try
MARKETS = 40
# with so many examples Hypothesis begins, which are of few draws
SMALL = 11
# the file system in memory, if there is one, and the bytes that have to be free there
MEMORY = pathlib.Path("/dev/shm")
ROOM = 500_000_000


def has_room_in_memory():
    """Whether temporary files are made in memory: a disk takes most of the time of a commit. Shims are run from there."""
    return MEMORY.is_dir() and shutil.disk_usage(MEMORY).free > ROOM and not os.statvfs(MEMORY).f_flag & os.ST_NOEXEC


def pytest_configure(config):
    config.addinivalue_line("markers", "alone: a test that counts seconds, and has no other beside it")
    program_under_test.choose(config.getoption("program") or program_under_test.BUILT)
    if has_room_in_memory():
        tempfile.tempdir = str(MEMORY)
    # with --hypothesis-seed N other markets are drawn
    is_seeded = config.getoption("hypothesis_seed", None) is not None
    hypothesis.settings.register_profile(
        "gate",
        derandomize=not is_seeded,
        database=None,
        deadline=None,
        print_blob=False,
        suppress_health_check=list(hypothesis.HealthCheck),
    )
    hypothesis.settings.load_profile("gate")


def pytest_report_header(config):
    seed = config.getoption("hypothesis_seed", None)
    return (
        f"{config.getoption('markets')} random markets, drawn {'each time the same' if seed is None else f'by the seed {seed}'}"
    )


# ---- comparisons that go on


@pytest.hookimpl(tryfirst=True)
def pytest_runtest_setup(item):
    compare.begin()


@pytest.hookimpl(hookwrapper=True)
def pytest_runtest_makereport(item, call):
    """A test in which something differed fails at its end. Each report has the number of its comparisons."""
    report = (yield).get_result()
    if call.when != "call":
        return
    report.user_properties.append(("comparisons", max(compare.counted(), 1)))
    if not compare.is_different():
        return
    if report.passed:
        report.outcome, report.longrepr = "failed", compare.differences()
    else:
        report.sections.append(("what differed before", compare.differences()))


def pytest_terminal_summary(terminalreporter):
    reports = [it for kind in ("passed", "failed") for it in terminalreporter.stats.get(kind, []) if it.when == "call"]
    count = sum(number for it in reports for name, number in it.user_properties if name == "comparisons")
    terminalreporter.write_line(f"{count:,} comparisons in {len(reports):,} tests")


# ---- fixtures


@pytest.fixture(autouse=True)
def folder(monkeypatch):
    """The test runs in a new folder, which is taken away after it."""
    with new_folder() as name:
        monkeypatch.chdir(name)
        yield pathlib.Path(name)


@contextlib.contextmanager
def new_folder():
    """A new folder of temporary files."""
    with tempfile.TemporaryDirectory(prefix="bsp_office-") as name:
        yield name


@pytest.fixture(scope="session")
def program():
    """The path of the program under test."""
    return program_under_test.path()


@pytest.fixture
def book(folder):
    """The path of a file that is no book yet."""
    return folder / "book.db"


@pytest.fixture
def office():
    """Starts an office with these words. With a book it is over that file, or with `:memory:` over tables in memory; with none over
    lists in memory. All are stopped after the test."""
    with contextlib.ExitStack() as offices:

        def started(*words, book=None, **how):
            return offices.enter_context(Office(*words, *(["--db", book] if book else []), **how))

        yield started


@pytest.fixture
def market():
    """A random market that is open: an office, and a second one in Python that is asked the same."""
    it = Market()
    try:
        it.open()
        yield it
    finally:
        it.stop()


@pytest.fixture
def times(request):
    """How many times as much is tried at random as the gate tries."""
    return request.config.getoption("markets") / MARKETS


@pytest.fixture
def examples(times):
    """The settings for so many random examples, or as many times more. Hypothesis begins with small ones beside them."""

    def settings(count, **how):
        return hypothesis.settings(max_examples=SMALL + round(count * times), **how)

    return settings
