"""What the program says of each mistake of mistakes.txt. The head of that file says how it is written."""
import mistakes
import pytest

_, MISTAKES = mistakes.mistakes()


@pytest.mark.parametrize("kind, count", mistakes.COUNTS.items())
def test_there_are_mistakes_of_all_kinds(kind, count):
    assert sum(it.kind == kind for it in MISTAKES) == count


@pytest.mark.parametrize("mistake", MISTAKES, ids=[f"{it.kind} {it.name}" for it in MISTAKES])
def test_a_mistake_is_answered(mistake):
    assert mistakes.said(mistake) == mistake.wanted
