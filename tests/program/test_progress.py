"""`check` and `hotcheck` show on a terminal how much of an input was read that takes more than a second, and else nothing."""
import os
import pty
import subprocess
import time

import pytest

from support import program
from support.tree import TOP

SALE = (TOP / "samples" / "sale.ret").read_bytes()
# so many pieces, more than a second apart
PIECES = 3


def shown(words, terminal=True):
    """What a program writes on standard error, a terminal or a pipe, whose input comes in pieces with pauses; and its output."""
    ours, theirs = pty.openpty() if terminal else os.pipe()
    run = subprocess.Popen([program.path(), *words, "-"], stdin=subprocess.PIPE, stdout=subprocess.PIPE, stderr=theirs)
    os.close(theirs)
    for at in range(PIECES):
        run.stdin.write(SALE[at : at + 1] if at + 1 < PIECES else SALE[at:])
        run.stdin.flush()
        time.sleep(1.2 if at + 1 < PIECES else 0)
    run.stdin.close()
    out = run.stdout.read()
    run.wait(60)
    said = b""
    try:
        while piece := os.read(ours, 4096):
            said += piece
    except OSError:
        # the terminal has no more writers
        pass
    os.close(ours)
    return run.returncode, out, said


@pytest.mark.parametrize("command", ["check", "hotcheck"])
def test_shown_on_a_terminal(command):
    """A line is shown, changed in place and taken away before the report."""
    status, out, said = shown([command])
    assert out == program.run(command, "-", text=SALE).out
    assert said.startswith(b"\rread 0 MB")
    assert b"\r" + b" " * 40 + b"\r" in said
    assert status == (0 if command == "check" else 1)


def test_quiet():
    """Nothing is shown where it is to be quiet."""
    assert shown(["check", "--quiet"])[2] == b""


def test_no_terminal():
    """Nothing is shown where standard error is no terminal."""
    assert shown(["check"], terminal=False)[2] == b""
