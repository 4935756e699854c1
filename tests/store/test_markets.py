"""The program and the office of second_office.py answer the same in random markets and trials of markets.py. A market that fails is
made as short as can be, and is printed as commands of curl, which can be pasted to an office at $BASE with the token officetoken00001.
--markets N tries more of them; --hypothesis-seed N draws others."""
import collections
import random

import pytest
from hypothesis import strategies
from hypothesis.stateful import RuleBasedStateMachine, initialize, rule, run_state_machine_as_test

from support.markets import TRIAL_WAYS, WAYS, Market, Trial

CHANCES = strategies.integers(0, 2**16 - 1)


def weighted(ways):
    """The kinds of requests, each as often as it comes."""
    return strategies.sampled_from([way for way, count in ways.items() for _ in range(count)])


def machine(kind, ways, callers, counts):
    """A state machine of a market: it is opened, takes steps, and in the end all is shown."""

    class Machine(RuleBasedStateMachine):
        def __init__(self):
            super().__init__()
            self.market, self.is_open = kind(counts=counts), False

        @initialize(callers=strategies.sampled_from(callers), chance=CHANCES)
        def open(self, callers, chance):
            self.market.random = random.Random(chance)
            self.market.open(callers)
            self.is_open = True

        @rule(way=weighted(ways), chance=CHANCES)
        def step(self, way, chance):
            self.is_open = False
            self.market.step(way, random.Random(chance))
            self.is_open = True

        def teardown(self):
            try:
                if self.is_open:
                    self.market.look_at_all()
            finally:
                self.market.stop()

    return Machine


def try_markets(settings, *words):
    """Tries markets, and says how often each answer came."""
    counts = collections.Counter()
    run_state_machine_as_test(lambda: machine(*words, counts)(), settings=settings)
    print(", ".join(f"{word} {count:,}" for word, count in sorted(counts.items())))
    return counts


ANSWERS = ["done", "held", "accepted", "shown", "hot", "settlement", "statements", "N01", *(f"E{it:02}" for it in range(1, 13))]


def test_random_markets(examples):
    counts = try_markets(examples(40, stateful_step_count=400), Market, WAYS, [1, 3, 3, 3, 3, 2])
    assert [it for it in ANSWERS if not counts[it]] == []


def test_random_trials(examples):
    counts = try_markets(examples(40, stateful_step_count=12), Trial, TRIAL_WAYS, [1])
    assert counts["judged"] and counts["judge stopped"]


@pytest.mark.parametrize("requests", [0, 100])
def test_a_market(market, requests):
    """One that no example is drawn for."""
    market.run(requests)
