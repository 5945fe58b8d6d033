#!/usr/bin/python3
"""Measures what the program takes, beside its peers where they are installed, and prints a table for docs/PERFORMANCE.md.

    benchmarks/bench.py COMMAND [OPTION..] [WORKLOAD..]       benchmarks/bench.py COMMAND --help says what each does

What servers and files a command needs it makes for itself, in a folder that it takes away. A cell of a table has wall seconds,
processor seconds of all processes, and the largest memory in MiB, each the best of N runs. The workloads are those of
scripts/workloads.py. Peers are Debian's packages postgresql, clickhouse-server with clickhouse-client, and r-cran-data.table.
Plots are drawn by python3-matplotlib.
"""
import argparse
import os
import sys

sys.dont_write_bytecode = True
sys.path.insert(0, f"{os.path.dirname(os.path.realpath(__file__))}/../scripts")
import frames  # noqa: E402
import own_file  # noqa: E402
import plots  # noqa: E402
import runs  # noqa: E402
import sessions  # noqa: E402
from peers import PEERS  # noqa: E402
from workloads import WORKLOADS  # noqa: E402

OPTIONS = {
    "--runs": {"type": int, "default": 3, "help": "how many rounds, of which the best counts"},
    "--scale": {"type": float, "default": 1.0, "help": "how many times the records of a workload"},
    "--threads": {"type": int, "default": os.cpu_count(), "help": "of the program and of each peer; all processors where left out"},
    "--peers": {"default": ",".join(PEERS), "help": "names with commas between; '' for none"},
    "--beside": {"metavar": "COMMAND", "help": "another program with the words of ours"},
    "--busy": {"type": int, "default": 0, "help": "how many programs run beside, each of which uses a processor"},
    "--most": {"type": float, "default": plots.SCALES[-1], "help": "the most times the records of a workload"},
    "--lines": {"type": int, "default": 1_080_000, "help": "of the file"},
    "--facts": {"type": int, "default": 300_000, "help": "of the feed"},
    "--values": {"type": int, "default": 100_000, "help": "of the cell"},
    "--batches": {"type": int, "default": 20, "help": "of a thousand changes and a question"},
    "--many": {"type": int, "default": 0, "help": "so many changes more at the end, and what memory they add"},
    "--changes": {"type": int, "default": 1_000_000, "help": "in bulk"},
    "--answers": {"type": int, "default": 2_000, "help": "of one change each"},
    "--folder": {"help": "where the store is made"},
    "--rows": {"type": int, "default": 200_000, "help": "of a cube"},
    "--times": {"type": float, "default": 2.0, "help": "how many times as long a frame may take"},
}
# (what runs a command, and its options; those that take workloads end with None)
COMMANDS = {
    "print": (runs.compare, "--runs", "--scale", "--threads", "--peers", "--beside", "--busy", None),
    "statistics": (runs.statistics, "--runs", "--scale", "--threads", "--peers", "--beside"),
    "growth": (plots.growth, "--runs", "--most", None),
    "threads": (plots.threads, "--runs", "--scale", "--peers", None),
    "steps": (runs.steps, "--scale", None),
    "shards": (runs.shards, "--scale", "--threads", None),
    "own-file": (own_file.measure, "--runs", "--lines", "--threads"),
    "live": (sessions.live, "--facts", "--batches", "--many", "--threads"),
    "cell": (sessions.cell, "--values", "--beside"),
    "store": (sessions.store, "--changes", "--answers", "--folder"),
    "frames": (frames.measure, "--runs", "--rows", "--times"),
}


def main():
    given = sys.argv[1:]
    end = given.index("--") if "--" in given else len(given)
    how = {"formatter_class": argparse.RawDescriptionHelpFormatter}
    asks = argparse.ArgumentParser(description=__doc__, **how)
    commands = asks.add_subparsers(dest="command", required=True, metavar="COMMAND")
    for name, (call, *options) in COMMANDS.items():
        command = commands.add_parser(name, help=call.__doc__.partition("\n")[0], description=call.__doc__, **how)
        for it in filter(None, options):
            command.add_argument(it, **OPTIONS[it])
        if None in options:
            command.add_argument("workloads", nargs="*", metavar="WORKLOAD", help=", ".join(WORKLOADS))
    asked = asks.parse_args(given[:end])
    asked.ours = given[end + 1 :]
    if unknown := set(getattr(asked, "workloads", [])) - set(WORKLOADS):
        asks.error(f"no such workload: {', '.join(unknown)}")
    if unknown := set(filter(None, getattr(asked, "peers", "").split(","))) - set(PEERS):
        asks.error(f"no such peer: {', '.join(unknown)}")
    return COMMANDS[asked.command][0](asked)


if __name__ == "__main__":
    sys.exit(main())
