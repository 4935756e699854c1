"""Comparisons that go on where something differs. tests/conftest.py fails the test at its end, with all that differed."""
import subprocess

MOST_SHOWN = 20
_counted, _differences = [0], []


def expect(what, wanted, found):
    """Notes where the two differ, and returns whether they are the same."""
    _counted[0] += 1
    if wanted != found:
        _differences.append(f"{what}:\n  wanted {wanted!r}\n  found  {found!r}")
    return wanted == found


def expect_end(what, wanted, words, **how):
    """Runs the words to their end, and compares the status, the output and the text on standard error."""
    ended = subprocess.run(words, capture_output=True, timeout=60, **{"input": b"", **how})
    return expect(what, wanted, (ended.returncode, ended.stdout, ended.stderr))


def is_different():
    """Whether anything differed in this test so far."""
    return bool(_differences)


def begin():
    """Forgets the comparisons of the test before."""
    _counted[0] = 0
    _differences.clear()


def counted():
    """How many comparisons this test has made so far."""
    return _counted[0]


def differences():
    """What differed, as text: the first ones, and how many more there are."""
    more = len(_differences) - MOST_SHOWN
    return "\n".join(_differences[:MOST_SHOWN] + ([f"and {more} more differences"] if more > 0 else []))
