"""The files of the repository that tests read."""
import pathlib

TOP = pathlib.Path(__file__).resolve().parents[2]
SAMPLES = TOP / "samples"
EXAMPLES = TOP / "examples"


def sample(name):
    """The bytes of a file of samples/."""
    return (SAMPLES / name).read_bytes()


def example_file(name):
    """The bytes of a file of examples/files/."""
    return (EXAMPLES / "files" / name).read_bytes()


def page(name):
    """The text of a page of docs/."""
    return (TOP / "docs" / name).read_text(encoding="utf-8")


def crates():
    """The crates of crates.txt, each with the libraries that it uses."""
    found = {}
    for line in (TOP / "crates.txt").read_text(encoding="utf-8").splitlines():
        name, colon, used = line.partition("#")[0].partition(":")
        if colon:
            found[name.split()[0]] = used.split()
    return found
