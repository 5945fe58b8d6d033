"""The cases of cases/*.case, each a test by its file and its name, as scripts/cases.py runs them without pytest."""
import os

import cases
import pytest


@pytest.fixture(scope="session")
def cases_room(program):
    with cases.room_of(program) as room:
        yield room


CASES = cases.all_cases("cases")
NAMES = [f"{os.path.basename(it.place).partition('.')[0]}: {it.name}" for it in CASES]


@pytest.mark.parametrize("number, case", enumerate(CASES), ids=NAMES)
def test_case(number, case, cases_room):
    why = cases.try_case(case, number, cases_room)
    if why:
        pytest.fail(f"{case.place}: {why}", pytrace=False)
