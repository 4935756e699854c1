#!/usr/bin/env python3
"""Compares the words that public clauses cite with those that docs/proofs/DEFINITIONS.md explains.

A word is a name that a file of crates/*/src, tests apart, imports from the specs of a crate of this repository and that a
public clause cites: `requires` or `ensures` of a public function or of a function of a public trait, or a `ghost` member of
a public trait or type, as `ghost means` or `ghost invariant`. A clause may have several lines. The name of a proof, which
the specs declare without a keyword, is no word.

Each word must be bold in a section of docs/proofs/DEFINITIONS.md whose heading names the crate of its specs, and each bold word
of a section must be a name in the specs or the types of those crates. The script lists the words that are not, and ends
with status 1 if there are any."""
import functools
import pathlib
import re
import sys

sys.path.insert(0, str(pathlib.Path(__file__).resolve().parents[1]))
from support.tree import TOP

NAME = re.compile(r"[^\W\d][\w\-']*")
COMMENT = re.compile(r"(?:--|//).*")
WORD = re.compile(r"(?<![\w.])(?:(?:\w+)\.)?[^\W\d][\w\-']*")
LIST = re.compile(r"ghost use Rattle\.(bsp_\w+)\.specs\.([\w.]+)\.\{([^}]*)\}")
WHOLE = re.compile(r"ghost use Rattle\.(bsp_\w+)\.specs\.([\w.]+) as (\w+);")
GIVEN = re.compile(r"^pub use Rattle\.(bsp_\w+)\.specs\.([\w.]+)(?: as (\w+))?$", re.M)
PASSED = re.compile(r"^(?:unfoldable )?pub use Rattle\.(\w+)\.(specs|proofs)\.([\w.]+)\.\{([^}]*)\}$", re.M)
ITEM = re.compile(r"^(pub )?(?:trait (\w+)|(?:struct|enum) (\w+)|impl\b(.*))")
FUNCTION = re.compile(r"^\s*(pub(?:\s*\([^)]*\))?\s+)?(?:const\s+)?fn\s+\w+")
CLAUSE = re.compile(r"^\s*(requires|ensures|ghost (?!use\b)\w+)\b[^{]*\{")


@functools.cache
def given_back(crate):
    """The modules of lower crates that the specs of a crate give back: their names there, each with its crate and its path."""
    lib = TOP / "crates" / crate / "specs/Lib.antt"
    found = GIVEN.findall(lib.read_text(encoding="utf-8")) if lib.exists() else []
    return {alias or path.split(".")[-1]: (of, path) for of, path, alias in found}


def home(crate, path):
    """The crate whose specs have the module that this crate names so."""
    while path.split(".")[0] in given_back(crate):
        crate, path = given_back(crate)[path.split(".")[0]]
    return crate


@functools.cache
def passed_on(crate, path):
    """The names that a module of the specs of a crate only passes on, each with its crate and its module there."""
    module = TOP / "crates" / crate / "specs" / f"{path.replace('.', '/')}.antt"
    found = PASSED.findall(module.read_text(encoding="utf-8")) if module.exists() else []
    return {name.strip(): (of, there) for of, _, there, listed in found for name in listed.split(",")}


def home_of(crate, path, name):
    """The crate that declares a name of this module, or none where it is of the kit."""
    while name in passed_on(crate, path):
        crate, path = passed_on(crate, path)[name]
    return home(crate, path) if crate.startswith("bsp_") else None


def names_of(text):
    """The names that a file imports, each with its crate and its name there; and the modules that it imports whole."""
    names = {}
    for crate, path, listed in LIST.findall(text):
        for name in filter(None, (it.strip() for it in listed.split(","))):
            if of := home_of(crate, path, name.split(" as ")[0].strip()):
                names[name.split(" as ")[-1].strip()] = of, name.split(" as ")[0].strip()
    return names, {alias: home(crate, path) for crate, path, alias in WHOLE.findall(text)}


def named_in(crate, files, pattern):
    """The names that a pattern finds in some files of a crate."""
    texts = (COMMENT.sub("", it.read_text(encoding="utf-8")) for it in (TOP / "crates" / crate).glob(files))
    return {name for text in texts for name in re.findall(pattern, text, re.M)}


def clauses_of(text, types):
    """The texts of the public clauses of a file."""
    lines, is_public, in_public, in_trait, at = COMMENT.sub("", text).split("\n"), False, False, False, 0
    while at < len(lines):
        item, function, clause = ITEM.match(lines[at]), FUNCTION.match(lines[at]), CLAUSE.match(lines[at])
        if item:
            of = re.sub(r"^.*\bfor\b|^\s*<.*?>\s", "", item[4] or "")
            in_trait = bool(item[1] and item[2])
            in_public = in_trait or bool(item[1] and item[3]) or bool(types & set(NAME.findall(of)[:1]))
        if function:
            is_public = (function[1] or "").strip() == "pub" or in_trait
        if clause:
            taken = lines[at]
            while taken.count("{") > taken.count("}") and at + 1 < len(lines):
                at += 1
                taken += "\n" + lines[at]
            if in_public if clause[1].startswith("ghost") else is_public:
                yield taken
        at += 1


def main():
    explained, unknown = set(), []
    for section in re.split(r"^## ", (TOP / "docs/proofs/DEFINITIONS.md").read_text(encoding="utf-8"), flags=re.M)[1:]:
        crates = re.findall(r"bsp_\w+", section.split("\n")[0])
        known = {
            name for crate in crates for files in ("specs/*.antt", "src/**/*.rt") for name in named_in(crate, files, NAME.pattern)
        }
        for bold in re.findall(r"\*\*(.+?)\*\*", section, re.S):
            for word in (NAME.match(it.strip(" .\n`")) for it in bold.split(",")):
                explained |= {(crate, word[0]) for crate in crates}
                if word[0] not in known:
                    unknown.append((", ".join(crates), word[0]))
    cited = {}
    for path in sorted(TOP.glob("crates/*/src/**/*.rt")):
        text = path.read_text(encoding="utf-8")
        if "tests" in path.parts or path.stem == "tests" or not LIST.search(text):
            continue
        names, modules = names_of(text)
        types = named_in(path.relative_to(TOP).parts[1], "src/**/*.rt", r"^pub (?:struct|enum) (\w+)")
        for clause in clauses_of(text, types):
            for word in WORD.findall(clause):
                module, _, name = word.rpartition(".")
                found = (modules[module], name) if module in modules else names.get(word) or names.get(module)
                if found:
                    cited.setdefault(found, path.relative_to(TOP))
    proofs = {crate: named_in(crate, "specs/*.antt", r"^pub ([\w\-']+) :") for crate, _ in cited}
    cited = {word: path for word, path in cited.items() if word[1] not in proofs[word[0]]}
    missing = sorted(it for it in cited if it not in explained)
    for crate, name in missing:
        print(f"docs/proofs/DEFINITIONS.md has no word on {name} of {crate}, which {cited[crate, name]} cites")
    for crates, name in unknown:
        print(f"docs/proofs/DEFINITIONS.md explains {name}, which {crates} has not")
    print(f"definitions: {len(cited)} words cited, {len(missing)} not explained; {len(unknown)} explained that are no names")
    return 1 if missing or unknown else 0


if __name__ == "__main__":
    sys.exit(main())
