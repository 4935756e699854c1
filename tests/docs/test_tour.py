"""The commands of README.md, of docs/ and of samples/README.md print, as they are printed there, what is shown there.

The commands are in the blocks that begin with ```console; a file without one is left out. A line that begins with $ is a
command, those that follow it are what it prints. Those of a file are pasted whole into one shell, with no wait between
them, in a folder that has samples/ and ./bsp_office, a link to the program. Lines of the office itself, which begin with its
name, may come between others: they are compared apart. A line of curl that it could not connect is left out, since curl
tries again until the office listens. A free port takes the place of 8080, so that two tours can run on one machine."""
import os
import re
import shutil
import signal
import subprocess
import tempfile

import pytest

from support.compare import expect
from support.served import free_port
from support.tree import SAMPLES, TOP

# curl, whose lines on standard error are written at once, before what it answers, as on a terminal
CURL = """#!/bin/bash
said=$(mktemp) answer=$(mktemp)
{curl} "$@" >"$answer" 2>"$said"
status=$?
cat "$said" >&2
cat "$answer"
rm "$said" "$answer"
exit $status
"""
BLOCK = re.compile(r"^```console\n(.*?)^```$", re.MULTILINE | re.DOTALL)
SECONDS = 120


def commands_of(text):
    """The commands of the blocks, each with the lines that it prints."""
    found = []
    for block in BLOCK.findall(text):
        for line in block.splitlines():
            if line.startswith("$ "):
                found.append((line[2:], []))
            else:
                found[-1][1].append(line)
    return found


def path_with_curl(folder):
    """The path of programs, with CURL in the folder before all others."""
    with open(f"{folder}/curl", "w", encoding="utf-8") as file:
        file.write(CURL.format(curl=shutil.which("curl")))
    os.chmod(f"{folder}/curl", 0o755)
    return f"{folder}:{os.environ['PATH']}"


def printed_by(script, folder, path):
    """The lines that a shell prints which is given the script at once."""
    shell = subprocess.Popen(
        ["bash"],
        cwd=folder,
        stdin=subprocess.PIPE,
        stdout=subprocess.PIPE,
        stderr=subprocess.STDOUT,
        text=True,
        start_new_session=True,
        env={**os.environ, "PATH": path},
    )
    try:
        return shell.communicate(script, timeout=SECONDS)[0].splitlines()
    except subprocess.TimeoutExpired:
        return [f"(the commands did not end in {SECONDS} seconds)"]
    finally:
        try:
            os.killpg(shell.pid, signal.SIGKILL)
        except ProcessLookupError:
            pass


def apart(lines):
    """The lines of the office itself, and the others, without empty ones and those of a connection that is tried again."""
    own = [it for it in lines if it.startswith("bsp_office: ")]
    return own, [it for it in lines if it and it not in own and not it.startswith("curl: (7) ")]


PAGES = [TOP / "README.md", *sorted(TOP.glob("docs/*.md")), SAMPLES / "README.md"]
TOURS = [str(it.relative_to(TOP)) for it in PAGES if BLOCK.search(it.read_text(encoding="utf-8"))]


def test_there_are_tours():
    assert "README.md" in TOURS


@pytest.mark.parametrize("name", TOURS)
def test_the_commands_of_a_page(name, program):
    commands = commands_of((TOP / name).read_text(encoding="utf-8"))
    port = str(free_port())
    with tempfile.TemporaryDirectory() as folder, tempfile.TemporaryDirectory() as programs:
        shutil.copytree(SAMPLES, f"{folder}/samples")
        os.symlink(program, f"{folder}/bsp_office")
        script = "".join(f"{it}\n" for it, _ in commands).replace("8080", port)
        printed = printed_by(script, folder, path_with_curl(programs))
    wanted = [line.replace("8080", port) for _, lines in commands for line in lines]
    for what, one, other in zip(("the office", "the commands"), apart(wanted), apart(printed)):
        expect(what, one, other)
