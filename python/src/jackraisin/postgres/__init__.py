"""A cube that follows a table of PostgreSQL.

    from jackraisin.postgres import Follower

    with Follower("dbname=shop", "sales", "schema.toml") as follower:
        follower.wait()
        follower.slice({"city": "York"})[0]["sum(cents)"]

`python -m jackraisin.postgres` is the same as a command. It needs psycopg2, and nothing that isn't the server's own.
"""
import sys

try:
    import psycopg2
except ImportError:
    WHY = "jackraisin.postgres needs psycopg2 (Debian: python3-psycopg2)"
    # (so Python calls itself while it looks for what `python -m` is to run)
    if sys.argv[:1] == ["-m"]:
        sys.exit(WHY)
    raise ImportError(WHY) from None

from ._errors import CantFollow, ColumnsChanged, NotCaughtUp, RowUnsayable
from ._follower import Follower, State
from ._server import Server
from ._slot import drop_slot, slot_name

__all__ = ["CantFollow", "ColumnsChanged", "Follower", "NotCaughtUp", "RowUnsayable", "Server", "State", "drop_slot", "slot_name"]
