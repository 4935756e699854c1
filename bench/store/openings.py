"""Measures an opening of a book by the office and by the kit's sqlite alone, in turn, over the same files: those that an office
leaves which was filled with the sales of lookups.py and then killed. The kit opens them, and reads the rows of all tables. Prints
the best of ROUNDS rounds of each, their ratio, and the most memory of the office in an opening. library.sh builds the kit's
program.

usage: bench/store/openings.py KIT [PROGRAM [ITEMS..]]     (by default the one that is built, 100,000 and 1,000,000 items)
"""
import os
import pathlib
import subprocess
import sys
import tempfile
import time

sys.dont_write_bytecode = True
KIT, WORDS = sys.argv[1], sys.argv[2:]
# lookups.py reads the words of the command line too
sys.argv[1:] = ["file", *WORDS]
import lookups
from lookups import OFFICE, Market, fill
from support import program
from support.served import Office

ROUNDS = 5


def opened(book):
    """The seconds in which the office opens the book, and its most memory in megabytes."""
    words = [program.path(), "run", "--token-file", book.parent / "token", "--db", book]
    begun = time.perf_counter()
    it = subprocess.Popen(words, stdin=subprocess.DEVNULL, stdout=subprocess.PIPE, stderr=subprocess.PIPE)
    it.stdout.read()
    it.stderr.read()
    _, status, used = os.wait4(it.pid, 0)
    if status:
        sys.exit(f"the book is not opened: {status}")
    return time.perf_counter() - begun, used.ru_maxrss / 1024


def by_the_kit(book):
    """The seconds in which the kit opens the book, and those in which it reads the rows."""
    ended = subprocess.run([KIT], cwd=book.parent, check=True, capture_output=True, text=True)
    words = ended.stdout.split()
    return int(words[1]) / 1e6, int(words[3]) / 1e6


def measured(items, folder):
    (folder / "token").write_text(OFFICE + "\n")
    os.chmod(folder / "token", 0o600)
    book = folder / "book.db"
    with Office("--db", str(book), token_file=folder / "token", seconds=600) as office:
        fill(office, Market(folder), items)
    log = os.path.getsize(f"{book}-wal") / 1e6
    rounds = [(opened(book), by_the_kit(book)) for _ in range(ROUNDS)]
    ours, memory = min(it[0][0] for it in rounds), max(it[0][1] for it in rounds)
    kits, reading = min(it[1][0] for it in rounds), min(it[1][1] for it in rounds)
    print(f"{items} items: an opening {ours / items * 1e6:.1f} microseconds an item, the kit {kits / items * 1e6:.1f}, ratio {ours / kits:.2f};")
    print(f"    with the rows read the kit {(kits + reading) / items * 1e6:.1f}, ratio {ours / (kits + reading):.2f};")
    print(f"    at most {memory:.0f} MB, {memory * 1048.576 / items:.2f} KB an item; the file {os.path.getsize(book) / 1e6:.1f} MB, the log {log:.1f} MB at first", flush=True)


for items in lookups.SIZES:
    with tempfile.TemporaryDirectory() as name:
        measured(items, pathlib.Path(name))
