"""The program under test, run to its end."""
import os
import subprocess
import typing

from support.tree import TOP

BUILT = TOP / "crates" / "bsp_office" / "out" / "bsp_office"
# the program of examples, which `rt ci` builds beside it
EXAMPLES = TOP / "crates" / "bsp_record_examples" / "out" / "bsp_record_examples"
_path = [str(BUILT)]


class Ended(typing.NamedTuple):
    """How a program ended."""

    status: int
    out: bytes
    err: bytes


def choose(path):
    """Has the tests try the program of this path."""
    _path[0] = os.path.abspath(path)


def path():
    """The path of the program under test."""
    if not os.access(_path[0], os.X_OK):
        raise RuntimeError(f"{_path[0]} is not built: give another by --program=PATH")
    return _path[0]


def run(*words, text=b"", **how):
    """Runs the program with these words and this standard input to its end."""
    ended = subprocess.run([path(), *map(str, words)], input=text, capture_output=True, **{"timeout": 60, **how})
    return Ended(ended.returncode, ended.stdout, ended.stderr)
