"""How wide aligned columns are on a terminal, where the variable COLUMNS says so."""
import os
import pty
import subprocess
import tty

import oracle
import pytest
import views

SCHEMA = oracle.Schema(["city"], ["price"], [("count", None), ("sum", 0), ("avg", 0)])
RECORDS = [[b"I", b"1", b"York", b"2"], [b"I", b"2", b"York", b"3"], [b"I", b"3", b"Leeds", b"-1"]]
# (the value of COLUMNS or None, options, whether there is a terminal, and the columns that a line may have or None)
TERMINALS = [(it, [], True, int(it) if it in ("20", "30", "10000") else None) for it in
             (None, "20", "30", "10000", "19", "10001", "0", "", "x", "-30", "99999999999999999999")]
TERMINALS += [("30", ["--width", "25"], True, 25), ("30", [], False, None), (None, [], False, None)]


def on_terminal(room, words, env):
    """What a run writes to a terminal."""
    ours, theirs = pty.openpty()
    tty.setraw(theirs)
    subprocess.run([room.program, *words], cwd=room.folder, env=env, stdout=theirs, stderr=subprocess.DEVNULL)
    os.close(theirs)
    try:
        return os.read(ours, 4096)
    except OSError:
        return b""
    finally:
        os.close(ours)


@pytest.mark.parametrize("columns, options, has_terminal, most", TERMINALS)
def test_columns(room, request, columns, options, has_terminal, most):
    room.begin(request.node.name)
    files = [room.write("s.toml", SCHEMA.toml()), room.write("f.csv", oracle.encode([SCHEMA.header(), *RECORDS]))]
    words = ["print", "--aligned", *options, *files]
    env = {name: value for name, value in os.environ.items() if name != "COLUMNS"}
    env.update({"COLUMNS": columns} if columns is not None else {})
    if has_terminal:
        got = on_terminal(room, words, env)
    else:
        got = subprocess.run([room.program, *words], cwd=room.folder, env=env, stdout=subprocess.PIPE).stdout
    assert got == views.aligned_form(oracle.Run(SCHEMA, [RECORDS]).print(), 1, most=most)
