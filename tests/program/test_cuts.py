"""`check` and `hotcheck` report on RET and HOT files of samples/ that are cut after each of their bytes. A file whose last LF alone
is cut is whole."""
import pytest

from support import program
from support.compare import expect
from support.records import RECORD
from support.tree import SAMPLES

RETS, HOTS = (sorted(SAMPLES.glob(it)) for it in ("*.ret", "*.hot"))


def reported(command, text):
    """The status and the report of a text on standard input."""
    return program.run(command, "-", text=text)[:2]


def whole_records(length):
    """How many records are whole in so many bytes, and whether the text ends in the next one."""
    count, rest = divmod(length, RECORD)
    return (count + 1, False) if rest == RECORD - 1 else (count, rest > 0)


def ret_report(length):
    """What `check` reports of a RET file that is cut. F08: no trailer; F01: a record of another width."""
    count, is_in_record = whole_records(length)
    return 1, b"F0%d record %d\n" % (1 if is_in_record else 8, count + 1)


def hot_report(length):
    """What `hotcheck` reports of a HOT file that is cut."""
    return 1, b"H04 record %d\n" % (whole_records(length)[0] + 1)


def is_whole(text, length):
    """Whether so many bytes have all records of the text."""
    return whole_records(length)[0] == len(text) // RECORD


def test_there_are_files():
    assert len(RETS) > 1 and len(HOTS) > 1


@pytest.mark.parametrize("path", [*RETS, *HOTS], ids=lambda it: it.name)
def test_a_file_is_cut_after_each_byte(path):
    command, report = ("check", ret_report) if path.suffix == ".ret" else ("hotcheck", hot_report)
    text = path.read_bytes()
    expect("whole records", 0, len(text) % RECORD)
    whole = reported(command, text)
    expect("the whole file", 0, whole[0])
    for length in range(len(text)):
        expect(f"{length} bytes", whole if is_whole(text, length) else report(length), reported(command, text[:length]))
