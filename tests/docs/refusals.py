#!/usr/bin/env python3
"""Compares the tables of docs/proofs/REFUSALS.md with the sources: each public function of the crates that the tables have whose
result may be an error is in a row of its crate, each call of a row is such a function, and has each clause that the row names.
So is each public function that has a `requires` in the table of conditions. Each crate is named, in the tables or beside them;
`bsp_store_*` names all crates that begin so.

A call is NAME or TYPE::NAME; **`=`** is a clause without a name. Ends with status 1 if anything differs."""
import fnmatch
import pathlib
import re
import sys

sys.path.insert(0, str(pathlib.Path(__file__).resolve().parents[1]))
from support.tree import TOP, crates

ROW = re.compile(r"^\| `(bsp_\w+)` \| (.+?) \| .+? \|(.*?)\|(.*?)\|$", re.M)
CONDITION = re.compile(r"^\| `(bsp_\w+)` \| ([^|]+) \| [^|]+ \|$", re.M)
CODE = re.compile(r"`([^`]+)`")
IMPL = re.compile(r"^impl\b(?:<[^>]*>+)?\s*(?:[\w<>:' ]+ for )?(\w+)", re.M)
FUNCTION = re.compile(r"^( *)pub (?:const )?fn (\w+)", re.M)
CLAUSE = re.compile(r"^\s*ensures(?: (\w+))? \{", re.M)


def contract(text, at, margin):
    """What comes before the body of the function that begins there."""
    end = re.compile(rf"^{margin}\{{|\{{$|^{margin}\{{\}}", re.M)
    return text[at : end.search(text, at).start()]


def type_around(text, at):
    """The type of the block that the place is in, if its function is indented."""
    return [*IMPL.finditer(text, 0, at)][-1][1]


def given(crate):
    """The names that the root of a library gives; of a program there are none to compare."""
    root = TOP / "crates" / crate / "src" / "lib.rt"
    if not root.exists():
        return None
    return {
        name for it in re.findall(r"^pub use ([^;]+);", root.read_text(encoding="utf-8"), re.M) for name in re.findall(r"\w+", it)
    }


def functions_of(crate):
    """The public functions of a crate that may err, each with its clauses; and those with a condition."""
    found, conditional, names = {}, set(), given(crate)
    for file in sorted((TOP / "crates" / crate / "src").rglob("*.rt")):
        text = file.read_text(encoding="utf-8")
        for it in FUNCTION.finditer(text):
            head = contract(text, it.start(), it[1])
            signature = re.split(r"^\s*(?://.*\n\s*)*(?:requires|ensures)\b", head, maxsplit=1, flags=re.M)[0]
            name = f"{type_around(text, it.start())}::{it[2]}" if it[1] else it[2]
            if names is not None and name.split("::")[0] not in names:
                continue
            if re.search(r"^\s*requires\b", head, re.M):
                conditional.add(name)
            if re.search(r"->\s*\(?Result<", signature):
                found[name] = {clause or "=" for clause in CLAUSE.findall(head)}
    return found, conditional


def differences(rows, conditions, crate):
    """What differs between the rows of a crate and its functions."""
    (functions, conditional), named = functions_of(crate), set()
    listed = {call for of, calls in conditions if of == crate for call in CODE.findall(calls)}
    for call in sorted(listed ^ conditional):
        yield f"docs/proofs/REFUSALS.md: {crate}, {call}: {'no row of' if call in conditional else 'it has no'} condition"
    for of, calls, clauses, left in rows:
        if of != crate:
            continue
        for call in CODE.findall(calls):
            named.add(call)
            if call not in functions:
                yield f"docs/proofs/REFUSALS.md: {crate} has no public {call} that may err"
                continue
            cited = {*CODE.findall(clauses), *re.findall(r"\(`(=|[a-z_]+)`", left)}
            for clause in sorted(cited - functions[call]):
                yield f"docs/proofs/REFUSALS.md: {crate}, {call} has no clause {clause}"
    for call in sorted(functions.keys() - named):
        yield f"docs/proofs/REFUSALS.md: {crate}, {call} is in no row"


def unnamed(text):
    """The crates that the text does not name."""
    names = [it for it in CODE.findall(text) if it.startswith("bsp_")]
    return [
        f"docs/proofs/REFUSALS.md: {it} is not named" for it in crates() if not any(fnmatch.fnmatch(it, name) for name in names)
    ]


def main():
    text = (TOP / "docs" / "proofs" / "REFUSALS.md").read_text(encoding="utf-8")
    rows, conditions = ROW.findall(text), CONDITION.findall(text)
    tables = sorted({it[0] for it in rows + conditions})
    found = unnamed(text) + [it for crate in tables for it in differences(rows, conditions, crate)]
    print("\n".join(found) or f"refusals: {sum(len(CODE.findall(it[1])) for it in rows)} calls of {len(tables)} crates")
    sys.exit(bool(found))


main()
