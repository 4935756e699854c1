"""The C shims of tests/support/shims: libraries that LD_PRELOAD puts in front of the C library."""
import os
import pathlib
import subprocess
import tempfile

SOURCES = pathlib.Path(__file__).parent / "shims"
_libraries = {}


def built(name):
    """Puts a shim into this folder, which is compiled once: the path of its library."""
    if name not in _libraries:
        with tempfile.TemporaryDirectory() as folder:
            path = pathlib.Path(folder, f"{name}.so")
            words = [os.environ.get("CC", "cc"), "-O2", "-shared", "-fPIC", "-o", path, SOURCES / f"{name}.c"]
            subprocess.run(words, check=True)
            _libraries[name] = path.read_bytes()
    pathlib.Path(f"{name}.so").write_bytes(_libraries[name])
    return os.path.abspath(f"{name}.so")


def stepping(steps, log="log"):
    """The variables with which a program that begins in this folder has these steps. The file has their log."""
    return {"LD_PRELOAD": os.path.abspath("steps.so"), "STEPS": steps, "STEPS_LOG": log}


def logged(log="log"):
    """How many calls there were of what the steps name, and how many bytes they moved; -1 where there is no log."""
    path = pathlib.Path(log)
    calls, moved = path.read_text().split() if path.exists() else (-1, -1)
    return int(calls), int(moved)
