"""What the tests of a process share ends with them; many feeds of theirs have refused lines, and `test_shown.py` alone asks whether they
are warned of."""
import beside
import private_server
import pytest


def pytest_configure(config):
    config.addinivalue_line("filterwarnings", "ignore::jackraisin.RefusedLines")


@pytest.fixture(scope="session", autouse=True)
def shared_server():
    yield
    private_server.end_shared()
    beside.end_browser()
