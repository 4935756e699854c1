"""The pages are linked, short and without repetitions, and agree with the sources: each script of this folder prints what
differs."""
import subprocess
import sys

import pytest

from support.tree import TOP

SCRIPTS = ["pages", "definitions", "architecture", "codes", "refusals", "readmes", "edits"]


@pytest.mark.parametrize("name", SCRIPTS)
def test_pages(name):
    words = [sys.executable, "-B", TOP / "tests" / "docs" / f"{name}.py"]
    ended = subprocess.run(words, stdout=subprocess.PIPE, stderr=subprocess.STDOUT, text=True)
    print(ended.stdout)
    assert ended.returncode == 0, ended.stdout
