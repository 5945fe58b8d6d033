"""Choices that hypothesis makes, for what scripts/generated.py makes of choices, and what makes a test of generated cases.

Of a case that fails hypothesis leaves out and takes back what it can, so that few records are left, and these plain ones.
"""
import functools
import random

import pytest
import rooms

hypothesis = pytest.importorskip("hypothesis", reason="python3-hypothesis isn't installed")
from hypothesis import event, given, strategies as st  # noqa: E402, F401 (the tests note events)

# (of so many things hypothesis makes each by choices of its own, which a case has room for)
MOST_DRAWN = 120


class Choices:
    """Has the calls of `random.Random` that the makers use, and draws each choice by hypothesis."""

    def __init__(self, draw):
        self.draw = draw

    def __repr__(self):
        return "choices"

    def random(self):
        """A number from 0 to below 1; the largest is the plainest, so what happens below a bound is left out of what is shrunk."""
        return 0.999 - self.draw(st.integers(0, 999)) / 1000

    def randint(self, least, most):
        return self.draw(st.integers(least, most))

    def randrange(self, *ends):
        return self.randint(ends[0] if len(ends) > 1 else 0, ends[-1] - 1)

    def choice(self, things):
        return things[self.randrange(len(things))]

    def choices(self, things, k):
        return [self.choice(things) for _ in range(k)]

    def sample(self, things, count):
        rest = list(things)
        return [rest.pop(self.randrange(len(rest))) for _ in range(count)]

    def shuffle(self, things):
        things[:] = self.sample(things, len(things))

    def series(self, most, make):
        """Up to so many things, of which each can be left out; where there may be many, now and then as many behind them by a seed.

        Hypothesis makes lists of five things or so, so these are made in lists of ten at most.
        """
        lists = max(1, min(most, MOST_DRAWN) // 10)
        some = st.lists(made(make), max_size=min(most, 10))
        things = [it for few in self.draw(st.lists(some, min_size=min(lists, 3), max_size=lists)) for it in few]
        if most > MOST_DRAWN and self.random() < 0.4:
            seed = random.Random(self.randrange(2**16))
            things += [make(seed) for _ in range(self.randint(0, most - len(things)))]
        return things


@st.composite
def made(draw, make):
    """What a call makes of choices."""
    return make(Choices(draw))


choices = functools.partial(made, lambda it: it)


def tries(count):
    """Makes a test of a function that tries one case in a room: of so many cases in the gate."""

    def of(test):
        @hypothesis.settings(max_examples=max(1, round(count * rooms.TIMES)))
        @given(rng=choices())
        @functools.wraps(test)
        def tried(room, rng, **fixtures):
            room.begin(test.__name__)
            test(room, rng, **fixtures)
            rooms.TRIED[test.__name__] += 1

        return pytest.mark.generated(tried)

    return of
