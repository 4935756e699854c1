#!/usr/bin/env python3
"""Tries edits of crates/NAME/more-edits: the prover must refuse each by a contract. `rt ci` tries them in a copy of their
crates and of those below, in which they take the place of must-fail/. The script names each edit that is not refused, or
is refused only because a proof file names what it took away, and ends with status 1 if there is any.

usage: .ci/more_edits.py [CRATE..]           the edits of these crates, or of all; CRATE/NAME is one edit
       .ci/more_edits.py --changed COMMIT    those of the crates that changed since the commit
       .ci/more_edits.py --tenth N           each tenth edit of all crates, from the Nth on: N is 0 to 9
"""
import pathlib
import shutil
import subprocess
import sys
import tempfile

sys.path.insert(0, str(pathlib.Path(__file__).resolve().parents[1] / "tests"))
from support.tree import TOP, crates

PARTS = "src", "specs", "proofs", "data", "args", "stdin", "stdout", "status"
REFUSED = "refused, as it must be"
BY_NAME = "only because a proof file names"


def edits_of(word):
    """The edits of a crate, or the one that CRATE/NAME names."""
    crate, _, name = word.partition("/")
    return sorted((TOP / "crates" / crate / "more-edits").glob(f"{name or '*'}.edit"))


def changed(commit):
    """The crates with a file that differs from that of the commit."""
    words = ["git", "-C", str(TOP), "diff", "--name-only", commit, "--", "crates"]
    paths = subprocess.run(words, check=True, stdout=subprocess.PIPE, text=True).stdout.splitlines()
    return sorted({it.split("/")[1] for it in paths})


def tried(words):
    """The edits that the command line asks for; ends the script where a word names none."""
    match words:
        case ["--changed", commit]:
            return [edit for it in changed(commit) for edit in edits_of(it)]
        case []:
            return [edit for it in sorted(crates()) for edit in edits_of(it)]
        case ["--tenth", number] if number.isdecimal():
            return tried([])[int(number) % 10 :: 10]
    for it in words:
        if not edits_of(it):
            sys.exit(f"{it} names no edit")
    return [edit for it in words for edit in edits_of(it)]


def below(names, known):
    """These crates, and all that they use."""
    found, left = set(), list(names)
    while left:
        if (it := left.pop()) not in found:
            found.add(it)
            left += [used for used in known[it] if used in known]
    return found


def lay_out(room, edits):
    """Copies the crates of the edits, and those below, into a tree of their own."""
    known = crates()
    names = sorted(below({it.parts[-3] for it in edits}, known))
    for name in names:
        for part in (TOP / "crates" / name / it for it in PARTS):
            if part.is_dir():
                shutil.copytree(part, room / "crates" / name / part.name)
            elif part.is_file():
                shutil.copy(part, room / "crates" / name)
    for it in edits:
        (room / "crates" / it.parts[-3] / "must-fail").mkdir(exist_ok=True)
        shutil.copy(it, room / "crates" / it.parts[-3] / "must-fail")
    (room / "crates.txt").write_text("".join(f"{it}: {' '.join(known[it])}\n" for it in names), encoding="utf-8")
    shutil.copy(TOP / "HANDLES", room)


def said_in(room):
    """What `rt ci` says there, which is also printed."""
    said = []
    with subprocess.Popen(
        ["rt", "ci"],
        cwd=room,
        stdin=subprocess.DEVNULL,
        stdout=subprocess.PIPE,
        stderr=subprocess.STDOUT,
        text=True,
        errors="replace",
    ) as it:
        for line in it.stdout:
            if line.startswith("rt: ") or ": error" in line:
                print(line, end="", flush=True)
                said.append(line)
    return said


def faults(edits, said):
    """Each edit that no contract is seen to refuse."""
    for it in edits:
        name = f"{it.parts[-3]}/{it.name}"
        line = next((line for line in said if f"must-fail {name}: " in line), "")
        if REFUSED not in line:
            yield f"{name} is not refused"
        elif BY_NAME in line:
            yield f"{name} is refused only by a name in a proof file"


def main():
    edits = tried(sys.argv[1:])
    with tempfile.TemporaryDirectory() as folder:
        room = pathlib.Path(folder)
        lay_out(room, edits)
        found = list(faults(edits, said_in(room) if edits else []))
    print("\n".join(found + [f"{len(edits) - len(found)} of {len(edits)} edits refused"]))
    return 1 if found else 0


if __name__ == "__main__":
    sys.exit(main())
