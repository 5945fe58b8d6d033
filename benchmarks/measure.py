"""Runs programs and measures them."""
import collections
import hashlib
import os
import resource
import subprocess
import sys
import threading
import time

import programs
from processes import memory_of, of_family, spent_by

ROOT = programs.ROOT
DATACUBE = programs.datacube()

# processor seconds of all threads, wall seconds, the largest memory in MiB
Use = collections.namedtuple("Use", "processor wall memory")


def run(words):
    """What a run used, and a digest of what it wrote."""
    start = time.monotonic()
    child = subprocess.Popen(words, stdout=subprocess.PIPE)
    digest = hashlib.sha256()
    while piece := child.stdout.read(1 << 20):
        digest.update(piece)
    return used_by(child, start), digest.hexdigest()


def run_into(words, out):
    """What a run used that wrote to a file."""
    start = time.monotonic()
    with open(out, "wb") as file:
        return used_by(subprocess.Popen(words, stdout=file), start)


def used_by(child, start):
    """What a program used that began then; it is waited for, and this ends where it failed."""
    _, status, use = os.wait4(child.pid, 0)
    wall = time.monotonic() - start
    child.returncode = os.waitstatus_to_exitcode(status)
    if child.returncode != 0:
        sys.exit(f"{child.args[0]} ended with {child.returncode}")
    return Use(use.ru_utime + use.ru_stime, wall, use.ru_maxrss / 1024)


def run_at(server, job):
    """What a job used of a server, by its process, and of the commands that the job runs."""
    commands = lambda: sum(resource.getrusage(resource.RUSAGE_CHILDREN)[:2])
    before = of_family(server, spent_by) + commands()
    watch = Watch(server)
    start = time.monotonic()
    job()
    wall = time.monotonic() - start
    memory = watch.end()
    # (until a server's process that served the job has ended)
    time.sleep(0.3)
    return Use(of_family(server, spent_by) + commands() - before, wall, memory)


class Watch(threading.Thread):
    """Looks twenty times a second at the memory of a process and those that it started."""

    def __init__(self, server):
        super().__init__(daemon=True)
        self.server, self.most, self.ended = server, 0, threading.Event()
        self.start()

    def run(self):
        while not self.ended.wait(0.05):
            self.most = max(self.most, of_family(self.server, memory_of))

    def end(self):
        """Ends the looking, and gives the largest memory that was seen, in MiB."""
        self.ended.set()
        self.join()
        return self.most


def best_of(ways, runs):
    """The best of each figure of each way, over so many runs in turn. All must write the same bytes."""
    found = [[] for _ in ways]
    digests = set()
    for _ in range(runs):
        for words, uses in zip(ways, found):
            use, digest = run(words)
            uses.append(use)
            digests.add(digest)
    if len(digests) != 1:
        sys.exit("the runs wrote different bytes")
    return [Use(*map(min, zip(*uses))) for uses in found]


def head(*names):
    """Begins a table."""
    print("| " + " | ".join(names) + " |\n|" + "---|" * len(names), flush=True)


def row(*cells):
    """A line of a table."""
    print("| " + " | ".join(map(str, cells)) + " |", flush=True)


def cell(use):
    return f"{use.wall:.2f} s, {use.processor:.2f} s, {use.memory:.0f} MiB"
