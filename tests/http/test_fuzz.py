"""Random and mutated bytes, by fuzz.py, for so many seconds."""
import subprocess
import sys

from support.tree import TOP

SECONDS, SEED = 10, 1


def test_random_bytes(program, times):
    words = [sys.executable, "-B", TOP / "tests" / "http" / "fuzz.py", program, str(SECONDS * times), str(SEED)]
    ended = subprocess.run(words, stdout=subprocess.PIPE, stderr=subprocess.STDOUT, text=True)
    print(ended.stdout)
    assert ended.returncode == 0, ended.stdout
