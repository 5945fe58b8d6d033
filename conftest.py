"""How the tests of tests/ and of python/tests are run: by pytest, those first that take longest (LONGEST), the others in the order of
their files. Processes that share tests keep those together for which something is set up, where they are told --dist loadgroup.

    pytest tests [--program PATH] [-k WORDS] [-x] [-n 4 --dist loadgroup] [--times N] [--hypothesis-seed N]
    pytest python/tests [--program PATH] [-k WORDS] [-x] [-n 12 --dist loadgroup] [--long]

The program is the one at PATH, else the one that `./datacube` would run. Generated cases are the same in each run, as many as
the gate tries; with --times N so many times as many, and with a seed others. With --tally the last line is `N passed, M failed`,
in which each generated case counts, and the reasons of what was left out stand before it. With --found FOLDER the smallest case
of each generated test that failed is written there, in the form of cases/*.case.
"""
import os
import sys
import tempfile

import pytest

sys.path.insert(0, f"{os.path.dirname(os.path.realpath(__file__))}/scripts")
sys.dont_write_bytecode = True
import programs  # noqa: E402

# What takes longest, the longest first: files, classes, tests, and those that share a browser.
LONGEST = (
    "test_types", "Wheels", "browser", "OfAFollower", "OfASession", "test_spoiled_cubes", "test_sessions_over_a_store", "test_a_package", "test_listening",
    "test_a_body_that_doesnt_come", "test_what_leads_to_a_copy", "test_a_store_that_isnt_the_one_that_was_noted", "test_what_leads_to_a_new_copy",
    "test_while_the_follower_is_halted", "test_many_at_once", "test_it_notices_a_change_that_is_made_at_once",
    "test_it_notices_each_change_of_a_source_or_of_the_program", "test_store_trials", "test_installing", "test_spoiled", "test_commands", "test_progress",
    "test_postgres_streamed", "test_postgres_store", "Served", "Commands", "test_postgres", "test_sessions", "test_serve", "test_show", "test_shown",
)


def pytest_addoption(parser):
    parser.addoption("--program", help="the program that is tried")
    parser.addoption("--times", type=float, default=1, help="how many times as many generated cases as in the gate")
    parser.addoption("--tally", action="store_true", help="end with the line `N passed, M failed`")
    parser.addoption("--long", action="store_true", help="make the long form of trials")
    parser.addoption("--each", action="store_true", help="refuse each allocation of a session over a store, and not one of eleven")
    parser.addoption("--seed", type=int, default=1, help="the seed of the trials of a store")
    parser.addoption("--records", type=int, metavar="N", help="try a session of so many records")
    parser.addoption("--found", metavar="FOLDER", help="where the smallest cases that fail are written")
    parser.addoption("--library", metavar="PATH", help="the driver of calls of the library, where it isn't the one that was built here")
    parser.addoption("--rows", type=int, default=1_000_000, help="the lines of the large cube that the explorer opens")
    parser.addoption("--all-cases", action="store_true", help="ask the page for files of one's own for all cases, and not each fifth")
    parser.addoption("--large", action="store_true", help="drop large files on that page, and say what they took")
    parser.addoption("--screenshots", action="store_true", help="take the pictures of docs/explorer/ anew")


@pytest.hookimpl(tryfirst=True)
def pytest_configure(config):
    if not config.option.basetemp and not hasattr(config, "workerinput"):
        # (the folder in which processes that share tests have theirs, which pytest would leave)
        folder = tempfile.TemporaryDirectory(prefix="pytest-")
        os.chmod(folder.name, 0o755)
        config.option.basetemp = f"{folder.name}/shared"
        os.environ["DATACUBE_SHARED"] = folder.name
        config.add_cleanup(folder.cleanup)
    config.addinivalue_line("markers", "xdist_group(name): is run by the process that runs the others of that name")
    # (what the tests of the Python package read)
    if config.option.program:
        os.environ["DATACUBE"] = os.path.abspath(config.option.program)
    if config.option.long:
        os.environ["DATACUBE_LONG"] = "1"
    if config.option.tally and not hasattr(config, "workerinput"):
        config.pluginmanager.register(Tally(), "tally")


@pytest.hookimpl(tryfirst=True)
def pytest_collection_modifyitems(items):
    """Begins with what takes longest, so that processes which share tests end together. Tests for which a class sets something up, or
    which share a browser, stay in one process."""
    items.sort(key=place_of)
    for it in items:
        if group_of(it):
            it.add_marker(pytest.mark.xdist_group(group_of(it)))


def place_of(item):
    """Where a test's place is among all."""
    names = [item.fspath.purebasename, group_of(item), *item.nodeid.split("::")[1:], item.name.partition("[")[0]]
    return min((LONGEST.index(it) for it in names if it in LONGEST), default=len(LONGEST))


def group_of(item):
    """The name of those tests with which one stays, or None."""
    sets_up = item.cls and any("setUpClass" in vars(it) for it in item.cls.__mro__ if it.__module__ != "unittest.case")
    return getattr(item.obj, "group", None) or (f"{item.fspath.purebasename}.{item.cls.__name__}" if sets_up else None)


class Tally:
    """Counts what passed and failed, in all and of each file, and notes why something was left out."""

    def __init__(self):
        self.passed = self.failed = 0
        self.left_out = {}
        self.files = {}

    def pytest_runtest_logreport(self, report):
        if report.when == "call" and report.passed:
            self.passed += dict(report.user_properties).get("cases", 1)
        self.failed += report.failed
        file = self.files.setdefault(report.nodeid.partition("::")[0], [0, 0, 0])
        file[0] += report.when == "call" and report.passed
        file[1] += report.skipped
        file[2] += report.duration
        self.note(report)

    def pytest_collectreport(self, report):
        self.failed += report.failed
        if report.skipped:
            self.files[report.nodeid] = [0, 1, 0]
        self.note(report)

    def note(self, report):
        if report.skipped:
            self.left_out[report.longrepr[2].removeprefix("Skipped: ")] = None

    def pytest_sessionfinish(self, session, exitstatus):
        if exitstatus in (pytest.ExitCode.OK, pytest.ExitCode.NO_TESTS_COLLECTED) and self.left_out and not self.passed:
            session.exitstatus = programs.LEFT_OUT

    def pytest_unconfigure(self):
        for name, file in self.files.items():
            print("{}: {} passed, {} left out, {:.0f} seconds".format(name, *file))
        for it in self.left_out:
            print(f"left out: {it}")
        print(f"{self.passed} passed, {self.failed} failed", flush=True)
