"""What the tests of tests/ share: the program, a folder to run it in, how many generated cases there are, and a page in a browser."""
import collections
import os
import tempfile

import programs
import pytest

pytest.register_assert_rewrite("browser")
import browser  # noqa: E402
import rooms  # noqa: E402

# (how often each test asserted something, where that is counted)
ASSERTED = collections.Counter()


def pytest_configure(config):
    config.addinivalue_line("markers", "generated: tries generated cases beside a slow program of its own")
    config.addinivalue_line("markers", "asked(option): is left out but where an option asks for it")
    rooms.TIMES = config.getoption("--times")
    try:
        from hypothesis import HealthCheck, settings
    except ImportError:
        return
    settings.register_profile("new", deadline=None, database=None, print_blob=False, report_multiple_bugs=False,
                              suppress_health_check=list(HealthCheck))
    settings.register_profile("gate", settings.get_profile("new"), derandomize=True)
    settings.load_profile("gate" if config.getoption("--hypothesis-seed", None) is None else "new")


@pytest.hookimpl(hookwrapper=True)
def pytest_runtest_call(item):
    yield
    asserted = ASSERTED.pop(item.nodeid, 0)
    tried = rooms.TRIED.pop(getattr(item, "originalname", item.name), asserted)
    if tried:
        item.user_properties.append(("cases", tried))


def pytest_assertion_pass(item):
    ASSERTED[item.nodeid] += 1


def pytest_collection_modifyitems(config, items):
    is_asked = lambda it: all(config.getoption(f"--{mark.args[0]}") for mark in it.iter_markers("asked"))
    config.hook.pytest_deselected(items=[it for it in items if not is_asked(it)])
    items[:] = filter(is_asked, items)


@pytest.hookimpl(hookwrapper=True)
def pytest_runtest_makereport(item, call):
    yield
    folder = item.config.getoption("--found")
    if folder and call.excinfo:
        why = call.excinfo.value
        text = why.block if isinstance(why, rooms.Differs) else f"# {item.name}: {why!r}\n"
        programs.write(f"{folder}/{item.name}.case", text)


@pytest.fixture(scope="session")
def program(request):
    """The path of the program that is tried."""
    path = os.path.abspath(request.config.getoption("--program") or programs.datacube())
    if not os.access(path, os.X_OK):
        pytest.exit(f"no program is there to run: {path}", 2)
    return path


@pytest.fixture(scope="session")
def room(program):
    """A folder in which the program is run."""
    with tempfile.TemporaryDirectory(prefix="datacube-generated-") as folder:
        yield rooms.Room(program, folder)


@pytest.fixture(scope="session")
def driver(request):
    """The path of the driver of calls of the library."""
    path = request.config.getoption("--library") or f"{programs.ROOT}/crates/cube_calls/out/cube_calls"
    if not os.path.exists(path):
        pytest.skip("crates/cube_calls isn't built, which rt run does there")
    return os.path.abspath(path)


@pytest.fixture(scope="session")
def explorer():
    """The explorer in a browser."""
    with browser.chromium() as driver:
        yield browser.Page(driver)


@pytest.fixture
def page(explorer):
    """The same, in light colours and the size of its window."""
    explorer.plain()
    return explorer


@pytest.fixture(scope="session")
def shop(tmp_path_factory):
    """The path of the shop's printed cube."""
    return browser.print_cube(f"{tmp_path_factory.mktemp('shop')}/shop.csv", browser.SHOP_SCHEMA, *browser.SHOP)


@pytest.fixture
def tell(capsys):
    """Says a figure, though the test that found it passes."""

    def line(text):
        with capsys.disabled():
            print(f"\n{text}", flush=True)

    return line
