#!/usr/bin/env python3
"""Measures the opening of a book of version 1, which is migrated, and the two openings after it, of a book with ITEMS
sales of one agent beside those of tests/store/books.py. Prints the seconds of each, the best of five, and their ratio.

usage: bench/store/migration.py [PROGRAM [ITEMS]]     (by default the one that is built, 100,000 items)
"""
import os
import pathlib
import shutil
import subprocess
import sys
import tempfile
import time

TOP = pathlib.Path(__file__).resolve().parents[2]
WORDS = sys.argv[1:]
ITEMS = int(WORDS[1]) if WORDS[1:] else 100_000
sys.dont_write_bytecode = True
sys.path += [str(TOP / "tests"), str(TOP / "tests" / "store")]
import books
from support import program
from support.callers import OFFICE

program.choose(WORDS[0] if WORDS else program.BUILT)

# of the documents limit of the terms and of the range of stock, and of the sales
MORE = [("20000", str(2 * ITEMS)), ("1300009999", "1300999999"), (str(books.SALES), str(ITEMS)),
        (str(1300000099 + books.SALES), str(1300000099 + ITEMS))]


def larger():
    """The statements that make the sales."""
    text = books.LARGER
    for old, new in sorted(MORE, key=lambda it: -len(it[0])):
        text = text.replace(old, new)
    return text


def seconds():
    """Those of an opening."""
    begun = time.monotonic()
    words = [program.path(), "run", "--token", OFFICE, "--db", "book.db"]
    subprocess.run(words, stdin=subprocess.DEVNULL, capture_output=True, check=True)
    return time.monotonic() - begun


def rounds():
    books.made("large.db", books.text_of(1), larger())
    for _ in range(5):
        for name in "book.db", "book.db-wal":
            pathlib.Path(name).unlink(missing_ok=True)
        shutil.copy("large.db", "book.db")
        yield seconds(), min(seconds(), seconds())


with tempfile.TemporaryDirectory() as folder:
    os.chdir(folder)
    migrated, opened = (min(it) for it in zip(*rounds()))
    print(f"{ITEMS:,} items: migrated in {migrated:.2f} s, opened in {opened:.2f} s, ratio {migrated / opened:.2f}")
