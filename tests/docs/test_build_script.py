"""./bsp_office, which builds the program, in small trees, with build_script_rt.sh in place of rt."""
import os
import pathlib
import pty
import re
import shutil
import signal
import subprocess
import time

import pytest

from support.compare import expect
from support.tree import TOP

CRATES = "# the crates\nbsp_office: middle low clap # and not other\nlow: thiserror\nmiddle: low\nother: low\n"
NO_RT = "/usr/bin:/bin"
MADE = "bsp_office-src middle-src low-src"
OTHER = MADE.replace("low-src", "other")
FIRST = (
    "bsp_office: a first build proves every crate, in three quarters of an hour on four processors, or up to twice that on two. "
    "For a first look without a proof, in about five minutes: ./bsp_office --unproved WORDS"
)
PROVED = [FIRST, *(f"bsp_office: {crate} is proved, {at} of 3" for at, crate in enumerate(("low", "middle", "bsp_office"), 1))]
UNPROVED = "bsp_office: this program is not proved; ./bsp_office without --unproved proves it first, in about an hour"
RT = pathlib.Path(__file__).with_name("build_script_rt.sh").read_text(encoding="utf-8")


class Room:
    """A folder with a tree of three crates that the program uses and one that it does not, and a kit."""

    def __init__(self, folder):
        self.folder, self.tree, self.path = folder, folder / "a tree", f"{folder}/kit/bin:{NO_RT}"
        self.program = self.tree / "crates/bsp_office/out/bsp_office"
        files = {f"a tree/crates/{it}/src/one.rt": f"{it}-src" for it in ("low", "middle", "other", "bsp_office")}
        files |= {"a tree/crates.txt": CRATES, "a tree/HANDLES": "none", "kit/KIT-ID": "one", "kit/bin/rt": RT}
        for it in files.items():
            self.write(*it)
        (folder / "kit/bin/rt").chmod(0o755)
        (folder / "temporary").mkdir()
        shutil.copy(TOP / "bsp_office", self.tree)

    def write(self, name, text):
        (self.folder / name).parent.mkdir(parents=True, exist_ok=True)
        (self.folder / name).write_text(text + "\n")

    def start(self, *words, script="a tree/bsp_office", during="", failing="", **how):
        how = {"stdin": subprocess.PIPE, "stdout": subprocess.PIPE, "stderr": subprocess.PIPE, "text": True, **how}
        how["env"] = {"PATH": self.path, "TMPDIR": f"{self.folder}/temporary", "during": during, "failing": failing}
        return subprocess.Popen([self.folder / script, *words], cwd=self.folder, **how)

    def call(self, *words, given="", **how):
        """The status, the output and the lines on standard error."""
        it = self.start(*words, **how)
        out, err = it.communicate(given, timeout=60)
        return it.returncode, out.rstrip("\n"), err.splitlines()

    def expect(self, what, made, builds, unproved=False, **how):
        """Compares a call that prints what the program was made from, and whether it builds."""
        self.write("kit/calls", "")
        said, verb, words = ([UNPROVED], "try", ["--unproved", "made"]) if unproved else (PROVED * builds, "ci", ["made"])
        expect(what, (0, made, said), self.call(*words, **how))
        expect(f"{what}: calls of rt", [verb] * builds, (self.folder / "kit/calls").read_text().split())

    def sources(self):
        self.expect("the first call", MADE, True)
        for name in "other/src/one.rt", "low/out/one.rt", "low/must-fail/one.edit", "middle/more-edits/one.edit":
            self.write(f"a tree/crates/{name}", "not of the program")
        self.write("a tree/crates.txt", CRATES + "more: low")
        self.expect("what the program does not use", MADE, False)
        self.write("a tree/crates/low/src/one.rt", "other")
        self.expect("a changed file", OTHER, True)
        self.write("a tree/crates/middle/specs/one.antt", "new")
        self.expect("a new file", OTHER.replace("middle", "new middle"), True)
        shutil.rmtree(self.tree / "crates/middle/specs")
        self.expect("no such folder", OTHER, True)
        for name, text in {
            "a tree/crates.txt": CRATES.replace("low clap", "low"),
            "a tree/HANDLES": "Net",
            "kit/KIT-ID": "two",
            "a tree/crates/bsp_office/out/bsp_office": "#!/bin/sh",
        }.items():
            self.write(name, text)
            self.expect(f"another {name}", OTHER, True)
        self.program.unlink()
        self.expect("no program, and a change", OTHER, True, during=f"echo later >'{self.tree}/crates/low/src/one.rt'")
        self.expect("the change", OTHER.replace("other", "later"), True)
        (self.folder / "kit/KIT-ID").rename(self.folder / "kit/version")
        expect("rt version", (0, OTHER.replace("other", "later"), []), self.call("made"))

    def two_calls_at_once(self):
        during = f"for it in {{1..200}}; do grep -q waiting '{self.folder}'/err* && break; sleep 0.05; done"
        errors = [open(self.folder / f"err{at}", "w+") for at in range(2)]
        calls = [self.start("made", during=during, stderr=it) for it in errors]
        expect("both", [(f"{MADE}\n", None)] * 2, [it.communicate(timeout=60) for it in calls])
        expect("one builds", "ci\n", (self.folder / "kit/calls").read_text())
        lines = [line for it in errors if not it.seek(0) for line in it.read().splitlines()]
        expect(
            "one waits", sorted([*PROVED, "bsp_office: waiting for another call, which is building the program"]), sorted(lines)
        )

    def not_built(self):
        self.call()
        self.write("a tree/HANDLES", "Net")
        head = "bsp_office: the program is not built. Of the crate that failed first, rt says, but for what is proved:"
        said, log = [
            "== middle",
            "fn middle::second: no proof",
            "rt: middle NOT PROVED",
        ], f"bsp_office: all of it is in {self.program}.log"
        expect("not proved", (4, "", [*PROVED[:2], head, *said, log]), self.call("made", failing="middle"))
        expect("rt stops", (4, "", [FIRST, head, "why", log]), self.call("made", during="echo why; exit 2"))
        self.expect("mended", MADE, True)
        other = {"user": 65534, "group": 65534, "extra_groups": []} if os.getuid() == 0 else {}
        self.folder.parent.chmod(0o755)
        subprocess.run(["chmod", "-R", "a-w,a+rX", self.tree], check=True)
        expect("a tree that cannot be written", (0, MADE, []), self.call("made", **other))
        self.write("kit/KIT-ID", "two")
        line = f"bsp_office: the program is not up to date, and it is not built, since this tree cannot be written: {self.tree}"
        expect("the same, and another kit", (4, "", [line]), self.call("made", **other))
        subprocess.run(["chmod", "-R", "u+w", self.tree], check=True)
        self.path = NO_RT
        expect("no rt", (0, MADE, []), self.call("made"))
        self.program.unlink()
        line = "and rt, which builds it, is not on the path: it comes with the Rattle toolchain kit whose version README.md gives"
        expect("no rt and no program", (4, "", [f"bsp_office: the program is missing, {line}"]), self.call("made"))

    def words_and_terminal(self):
        ours, theirs = pty.openpty()
        it = self.start("made", stderr=theirs, during="sleep 1")
        expect("on a terminal", (f"{MADE}\n", None), it.communicate(timeout=60))
        line = re.escape(FIRST) + r"\r\n(\r\x1b\[Kbsp_office: \d of 3 crates are proved, \d+ s)+\r\x1b\[K"
        expect("one line, written over", True, bool(re.fullmatch(line, os.read(ours, 65536).decode())))
        (self.folder / "link").symlink_to(self.tree / "bsp_office")
        words = ["a b", "", "*", "a\nb", "--", "$HOME", "it's", '"', "\\"]
        printed = "\n".join([str(self.folder), *(f"<{it}>" for it in words), "some text"])
        self.write("a tree/HANDLES", "Net")
        for what in "built by this call", "built before":
            expect(f"words and input, {what}", (0, printed), self.call(*words, given="some text", script="link")[:2])
        expect("status", (3, "", []), self.call("status", "3"))

    def unproved(self):
        """A program that is not proved: each call says so."""
        stamp, kept = self.program.with_suffix(".stamp"), self.program.with_suffix(".unproved")
        self.expect("unproved", MADE, True, unproved=True)
        for page in "README.md", "docs/OPERATION.md":
            expect(f"{page} shows the line", True, f"\n    {UNPROVED}\n" in (TOP / page).read_text(encoding="utf-8"))
        self.expect("unproved, kept", MADE, False, unproved=True)
        expect("only this one", [True, False, False], [it.exists() for it in (kept, self.program, stamp)])
        self.write("a tree/crates/low/src/one.rt", "other")
        self.expect("unproved, a changed file", OTHER, True, unproved=True)
        self.write("kit/KIT-ID", "two")
        self.expect("unproved, another kit", OTHER, True, unproved=True)
        expect("unproved, status", (3, "", [UNPROVED]), self.call("--unproved", "status", "3"))
        words = ["a b", "", "--unproved", "$HOME"]
        printed = "\n".join([str(self.folder), *(f"<{it}>" for it in words), "some text"])
        expect("unproved, words and input", (0, printed, [UNPROVED]), self.call("--unproved", *words, given="some text"))
        expect("nothing is left", [], os.listdir(self.folder / "temporary"))
        self.expect("proved", OTHER, True)
        expect("proved, and --unproved", (0, OTHER, []), self.call("--unproved", "made"))
        self.write("a tree/HANDLES", "Net")
        line = f"bsp_office: rt try compiled no program, and says in {kept}.log: no tool"
        expect("no tool", (4, "", [line]), self.call("--unproved", "made", during="echo no tool; echo why; exit 2"))
        self.expect("a tool", OTHER, True, unproved=True)
        self.path = NO_RT
        expect("unproved, no rt", (0, OTHER, [UNPROVED]), self.call("--unproved", "made"))
        kept.unlink()
        line = "and rt, which builds it, is not on the path: it comes with the Rattle toolchain kit whose version README.md gives"
        expect(
            "unproved, no rt and no program",
            (4, "", [f"bsp_office: the program is missing, {line}"]),
            self.call("--unproved", "made"),
        )

    def unproved_on_a_terminal(self):
        ours, theirs = pty.openpty()
        it = self.start("--unproved", "made", stderr=theirs, during="sleep 1")
        expect("unproved, on a terminal", (f"{MADE}\n", None), it.communicate(timeout=60))
        line = (
            r"(\r\x1b\[Kbsp_office: compiling without a proof, which takes about five minutes, \d+ s)+\r\x1b\[K"
            + re.escape(UNPROVED)
            + r"\r\n"
        )
        expect("unproved, written over", True, bool(re.fullmatch(line, os.read(ours, 65536).decode())))

    def signals(self, *words, said=f"{FIRST}\n"):
        process = self.folder / "kit/process"
        for number in signal.SIGHUP, signal.SIGINT, signal.SIGPIPE, signal.SIGTERM:
            self.write("kit/process", "")
            it = self.start(*words, "made", during='echo $$ >"$kit/process"; exec sleep 60')
            while it.poll() is None and not process.read_text().strip():
                time.sleep(0.05)
            it.send_signal(number)
            expect(number.name, ("", said, -number), (*it.communicate(timeout=60), it.returncode))
            left = [os.path.exists(f"/proc/{process.read_text().strip()}"), *os.listdir(self.folder / "temporary")]
            expect(f"{number.name}: neither rt nor the copy is left", [False], left)

    def signals_unproved(self):
        self.signals("--unproved", said="")


CASES = [
    Room.sources,
    Room.two_calls_at_once,
    Room.not_built,
    Room.words_and_terminal,
    Room.signals,
    Room.unproved,
    Room.unproved_on_a_terminal,
    Room.signals_unproved,
]


@pytest.fixture
def signals():
    """A signal that the tests were begun without, as under nohup, is one for the scripts that they begin."""
    before = {number: signal.signal(number, signal.SIG_DFL) for number in (signal.SIGHUP, signal.SIGINT)}
    yield
    for number, handler in before.items():
        signal.signal(number, handler)


@pytest.mark.parametrize("case", CASES, ids=[it.__name__ for it in CASES])
def test_the_build_script(case, folder, signals):
    case(Room(folder / case.__name__))
