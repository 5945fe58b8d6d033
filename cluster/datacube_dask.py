#!/usr/bin/env python3
"""The cube of more feeds than one machine takes: shares of them, printed by the workers of a Dask cluster and merged.

    cluster/datacube_dask.py --scheduler ADDRESS [OPTION...] SCHEMA FEED...
    cluster/datacube_dask.py --scheduler ADDRESS [OPTION...] --list FILE SCHEMA

Feeds are numbered in the order of the words, or of the lines of FILE. What comes out is, byte for byte, what one machine
would print, with its status: 4 where a line was refused. Where something fails, nothing is printed, and standard error
says what, with the number of the feed over all feeds. All machines see the feeds and the scratch folder under the same
paths, and have the program. Needs Debian's python3-distributed; docs/CLUSTER.md says more.
"""
from __future__ import annotations

import argparse
import collections
import contextlib
import heapq
import logging
import os
import re
import secrets
import shutil
import signal
import subprocess
import sys
import tempfile
import time
import uuid
from dataclasses import dataclass, field
from typing import Any, Deque, Dict, Iterator, List, Optional, Sequence, TextIO, Tuple

MOST_FEEDS = MOST_CUBES = 64
MOST_SHARDS = 65536
SIZE = re.compile(r"([1-9][0-9]*)([KMGT]?)")
UNITS = {"": 1, "K": 10**3, "M": 10**6, "G": 10**9, "T": 10**12}
# (what a second try, perhaps on another worker, doesn't mend)
FINAL = re.compile(r"G3 \d+ F[34]|M[4-8] .*")
REFUSALS_HEAD = b"source,record,code\n"


class Stop(Exception):
    """The end without a cube: the line that is told, and the status."""

    def __init__(self, line: str, status: int = 1) -> None:
        super().__init__(line, status)
        self.line, self.status = line, status


# What the workers run.


@dataclass(frozen=True)
class Job:
    """What all shares have in common: the program, the folder that all machines see, and what is asked."""

    program: str
    folder: str
    threads: int
    is_of_refusals: bool

    @property
    def schema(self) -> str:
        return f"{self.folder}/schema.toml"


@dataclass(frozen=True)
class Share:
    """Feeds by their numbers over all feeds, ascending, and their paths; the J-th of N shards of them."""

    number: int
    sources: Tuple[int, ...]
    paths: Tuple[str, ...]
    size: int
    shard: Tuple[int, int] = (1, 1)

    def __str__(self) -> str:
        feeds = f"feed {self.sources[0]}" + (f" and {len(self.sources) - 1} more" if len(self.sources) > 1 else "")
        part = f", shard {self.shard[0]} of {self.shard[1]}" if self.shard[1] > 1 else ""
        return f"share {self.number} ({feeds}{part}, {self.size} bytes)"


@dataclass(frozen=True)
class Outcome:
    """What a worker made: a file, and whether lines were refused; or the line and the status of what was at fault."""

    path: str = ""
    refused: bool = False
    line: str = ""
    status: int = 0


class Failed(Exception):
    """What a second try may mend: the line, the status, and what failed where. It is pickled by its arguments."""

    def __init__(self, line: str, status: int, where: str) -> None:
        super().__init__(line, status, where)
        self.line, self.status, self.where = line, status, where


def place() -> str:
    """This worker, by its name and address."""
    from distributed import get_worker

    worker = get_worker()
    return named(worker.name, worker.address)


def named(name: object, address: str) -> str:
    return f"worker {address}" if name == address else f"worker {name} at {address}"


def over_all(line: str, sources: Sequence[int]) -> str:
    """A line in which a source of a share has its number over all feeds."""
    numbered = lambda found: f"{found[1]}{sources[int(found[2]) - 1]}"
    return re.sub(r"^(G3 |G5 |feed )(\d+)\b", numbered, line)


def said(status: int, told: bytes) -> str:
    """What a program said in the end; one that a signal ended says nothing itself."""
    if status < 0:
        return "killed" if status == -signal.SIGKILL else f"killed by signal {-status}"
    text = told.decode("utf-8", "replace").strip()
    return text[len("datacube: ") :] if text.startswith("datacube: ") else text or f"status {status}"


def run(job: Job, words: Sequence[str], what: str, sources: Sequence[int] = ()) -> Outcome:
    """Runs the program into a new file of the folder."""
    path = f"{job.folder}/{uuid.uuid4().hex}.csv"
    try:
        with open(path, "xb") as out:
            ran = subprocess.run([job.program, *words], stdin=subprocess.DEVNULL, stdout=out, stderr=subprocess.PIPE)
    except OSError as why:
        raise Failed(f"{job.program} can't be run into {path}: {why}", 1, f"{what}, {place()}") from None
    if ran.returncode in (0, 4):
        return Outcome(path, ran.returncode == 4)
    os.unlink(path)
    line = over_all(said(ran.returncode, ran.stderr), sources)
    if ran.returncode in (2, 3) or FINAL.fullmatch(line):
        return Outcome(line=line, status=ran.returncode)
    raise Failed(line, 1, f"{what}, {place()}")


def run_share(job: Job, share: Share) -> Outcome:
    """The partial cube, or the refusals, of a share."""
    command = ["refusals"] if job.is_of_refusals else ["print", "--partial"]
    shard = ["--shard", f"{share.shard[0]}/{share.shard[1]}"] if share.shard[1] > 1 else []
    words = [*command, "--threads", str(job.threads), *shard, "--", job.schema, *share.paths]
    made = run(job, words, str(share), share.sources)
    return numbered_anew(job, share, made) if job.is_of_refusals and made.path else made


def numbered_anew(job: Job, share: Share, made: Outcome) -> Outcome:
    """The refusals of a share with the numbers of its feeds over all."""
    path = f"{job.folder}/{uuid.uuid4().hex}.csv"
    with open(made.path, "rb") as lines, open(path, "xb") as out:
        next(lines)
        for line in lines:
            source, rest = line.split(b",", 1)
            out.write(b"%d,%b" % (share.sources[int(source) - 1], rest))
    os.unlink(made.path)
    return Outcome(path, made.refused)


def run_merge(job: Job, parts: Sequence[Outcome], is_last: bool) -> Outcome:
    """One file of several: the last has the schema's own form."""
    paths = [it.path for it in parts]
    what = f"the last merge of {len(paths)}" if is_last else f"a merge of {len(paths)}"
    if job.is_of_refusals:
        path = merge_refusals(job, paths, REFUSALS_HEAD if is_last else b"")
    else:
        made = run(job, ["merge", *([] if is_last else ["--partial"]), "--", job.schema, *paths], what)
        if made.line:
            return made
        path = made.path
    return Outcome(path, any(it.refused for it in parts))


def merge_refusals(job: Job, paths: Sequence[str], head: bytes) -> str:
    """Refusals in the order of their sources and records."""
    path = f"{job.folder}/{uuid.uuid4().hex}.csv"
    in_order = lambda line: tuple(map(int, line.split(b",")))
    with contextlib.ExitStack() as files, open(path, "xb") as out:
        out.write(head)
        out.writelines(heapq.merge(*(files.enter_context(open(it, "rb")) for it in paths), key=in_order))
    return path


def look(job: Job, feeds: Sequence[str], needs_shards: bool) -> Tuple[str, str]:
    """What this worker lacks, or the empty text, and the version of its program."""
    if not os.access(job.schema, os.R_OK) or not os.access(job.folder, os.W_OK):
        return f"can't see the folder {job.folder}, or can't write in it", ""
    pipe = subprocess.PIPE
    asked = [["--version"], ["merge", "--help"], ["print", "--help"]]
    try:
        version, merges, prints = (subprocess.run([job.program, *it], stdin=subprocess.DEVNULL, stdout=pipe, stderr=pipe) for it in asked)
    except OSError as why:
        return f"can't run the program {job.program}: {why.strerror}", ""
    if version.returncode or merges.returncode:
        return f"has a program {job.program} without the command merge", ""
    if needs_shards and b"--shard" not in prints.stdout:
        return f"has a program {job.program} without the option --shard", ""
    for number, path in enumerate(feeds, 1):
        if not os.access(path, os.R_OK):
            return f"can't read feed {number}, {path}", ""
    return "", version.stdout.decode("utf-8", "replace").strip()


# What the driver does.


@dataclass
class Group:
    """Feeds that make a share, by their places, and their bytes together."""

    size: int = 0
    feeds: List[int] = field(default_factory=list)


def groups_of(sizes: Sequence[int], most: Optional[int], slots: int) -> List[Group]:
    """Groups of at most 64 feeds and so many bytes, but that a feed which has more is a group alone: each feed, largest
    first, goes to the group with the fewest bytes. There are two or more for each slot, where there are feeds enough."""
    wanted = max(-(-len(sizes) // MOST_FEEDS), min(len(sizes), 2 * slots), -(-sum(sizes) // most) if most else 0)
    groups = [Group() for _ in range(min(wanted, len(sizes)))]
    heap = [(0, at) for at in range(len(groups))]
    for feed in sorted(range(len(sizes)), key=lambda it: -sizes[it]):
        if not heap or most and groups[heap[0][1]].feeds and heap[0][0] + sizes[feed] > most:
            heapq.heappush(heap, (-1, len(groups)))
            groups.append(Group())
        at = heapq.heappop(heap)[1]
        groups[at].feeds.append(feed)
        groups[at].size += sizes[feed]
        if len(groups[at].feeds) < MOST_FEEDS:
            heapq.heappush(heap, (groups[at].size, at))
    return [it for it in groups if it.feeds]


def shares_of(feeds: Sequence[str], sizes: Sequence[int], most: Optional[int], shards: int, slots: int) -> List[Share]:
    """The shares of feeds, largest first. A group above the bytes, or any where none are given, is cut into shards."""
    shares: List[Share] = []
    for group in sorted(groups_of(sizes, most, slots), key=lambda it: -it.size):
        places = sorted(group.feeds)
        count = shards if most is None or group.size > most else 1
        for shard in range(1, count + 1):
            sources, paths = tuple(it + 1 for it in places), tuple(feeds[it] for it in places)
            shares.append(Share(len(shares) + 1, sources, paths, group.size, (shard, count)))
    return shares


class Progress:
    """Says on standard error how far it is: in one line of a terminal, else in a line a second."""

    def __init__(self, shares: Sequence[Share], out: Optional[TextIO]) -> None:
        self.count, self.size, self.out = len(shares), sum(it.size for it in shares), out
        self.done = self.read = self.merges = 0
        self.last, self.text = 0.0, ""

    def note(self, share: Optional[Share]) -> None:
        self.done, self.read = self.done + (share is not None), self.read + (share.size if share else 0)
        self.merges += share is None
        if self.out and (self.out.isatty() or time.monotonic() >= self.last + 1):
            self.say()

    def say(self, end: str = "") -> None:
        text = f"{self.done} of {self.count} shares, {self.read / 1e6:.1f} of {self.size / 1e6:.1f} MB, {self.merges} merges"
        if self.out and self.out.isatty():
            self.out.write(f"\r{text}\x1b[K{end}")
        elif self.out and text != self.text:
            self.out.write(f"{text}\n")
        if self.out:
            self.out.flush()
        self.last, self.text = time.monotonic(), text


class Run:
    """Shares and merges on a cluster: as soon as there are enough files for a merge, it begins."""

    def __init__(self, client: Any, job: Job, words: argparse.Namespace, progress: Progress) -> None:
        from distributed import as_completed

        self.client, self.job, self.progress = client, job, progress
        self.retries, self.fan_in, self.wait = words.retries, words.fan_in, words.wait
        self.looked = self.seen = time.monotonic()
        self.running: Dict[str, Tuple[Any, Optional[Share], List[Outcome]]] = {}
        self.completed = as_completed([])
        self.ready: Deque[Outcome] = collections.deque()
        self.faults: List[Tuple[str, int, str]] = []

    def begin(self, share: Optional[Share], parts: List[Outcome], function: Any, *given: Any) -> None:
        future = self.client.submit(function, self.job, *given, retries=self.retries, pure=False, key=f"datacube-{uuid.uuid4().hex}")
        self.running[future.key] = future, share, parts
        self.completed.add(future)

    def merge(self, count: int, is_last: bool) -> None:
        parts = [self.ready.popleft() for _ in range(count)]
        self.begin(None, parts, run_merge, parts, is_last)

    def end(self, future: Any) -> Optional[Outcome]:
        """What a share or a merge gave, once it is over; what it was made of is taken away."""
        from distributed import CancelledError, KilledWorker

        _, share, parts = self.running.pop(future.key)
        try:
            made = self.result_of(future)
        except Failed as why:
            self.faults.append((why.line, why.status, f"{why.where}, tried {self.retries + 1} times"))
            return None
        except KilledWorker:
            self.faults.append(("killed", 1, f"{share or 'a merge'}, with each worker that it was at"))
            return None
        except CancelledError:
            raise Stop(f"datacube_dask: the scheduler is lost, and {share or 'a merge'} with it") from None
        except Exception as why:
            raise Stop(f"datacube_dask: {share or 'a merge'}: {why}") from None
        finally:
            future.release()
        if made.line:
            self.faults.append((made.line, made.status, ""))
            return None
        for it in parts:
            os.unlink(it.path)
        self.progress.note(share)
        return made

    def result_of(self, future: Any) -> Outcome:
        """The result of what is over; where its worker went meanwhile, it is made again."""
        from distributed import TimeoutError

        while True:
            try:
                made: Outcome = future.result(timeout=1)
                return made
            except TimeoutError:
                self.see_workers()

    def over(self) -> Iterator[Any]:
        """Shares and merges as they are over, until none runs."""
        while self.running:
            if self.completed.has_ready():
                yield next(self.completed)
            else:
                time.sleep(0.02)
                self.see_workers()

    def see_workers(self) -> None:
        """Looks once a second, and stops where there has been no worker for so long as is waited for one."""
        if time.monotonic() < self.looked + 1:
            return
        try:
            are_there = bool(self.client.nthreads())
        except Exception as why:
            raise Stop(f"datacube_dask: the scheduler is lost: {why}") from None
        self.looked = time.monotonic()
        self.seen = self.looked if are_there else self.seen
        if self.looked > self.seen + self.wait:
            raise Stop(f"datacube_dask: no worker is left, and none came in {self.wait} seconds")

    def all(self, shares: Sequence[Share]) -> Outcome:
        """The whole cube in a file, or the fault of the lowest feed."""
        for share in shares:
            self.begin(share, [], run_share, share)
        for future in self.over():
            made = self.end(future)
            if made:
                self.ready.append(made)
            if not self.faults and len(self.ready) >= self.fan_in and (self.running or len(self.ready) > self.fan_in):
                self.merge(self.fan_in, False)
        self.stop_at_fault()
        self.merge(len(self.ready), True)
        for future in self.over():
            self.ready.extend(filter(None, [self.end(future)]))
        self.stop_at_fault()
        return self.ready.pop()

    def stop_at_fault(self) -> None:
        if self.faults:
            line, status, where = min(self.faults, key=first_told)
            raise Stop(f"datacube: {line}" + (f"\ndatacube_dask: {where}" if where else ""), status)


def first_told(fault: Tuple[str, int, str]) -> Tuple[int, int]:
    """What one machine would tell first: a feed that can't be opened, then one at fault, by their numbers; then the rest."""
    found = re.match(r"(feed|G3) (\d+)\b", fault[0])
    return (["feed", "G3"].index(found[1]), int(found[2])) if found else (2, 0)


def look_around(client: Any, job: Job, feeds: Sequence[str], needs_shards: bool) -> None:
    """Stops where a worker lacks something, or where two have programs of different versions."""
    try:
        found = client.run(look, job, feeds, needs_shards)
    except Exception as why:
        raise Stop(f"datacube_dask: the workers can't be asked what they have: {why}") from None
    names = {address: it["id"] for address, it in client.scheduler_info()["workers"].items()}
    lacks = [f"datacube_dask: {named(names.get(at, at), at)} {lack}" for at, (lack, _) in sorted(found.items()) if lack]
    if lacks:
        raise Stop("\n".join(lacks))
    versions = {version for _, version in found.values()}
    if len(versions) > 1:
        raise Stop(f"datacube_dask: the workers have different programs: {', '.join(sorted(versions))}")


def security_of(words: argparse.Namespace) -> Any:
    """What Dask is told of TLS: nothing, or the authority, the certificate and its key, and that nothing goes without them."""
    files = words.tls_ca_file, words.tls_cert, words.tls_key
    if not any(files):
        return None
    from distributed.security import Security

    for path in files:
        if not os.access(path, os.R_OK):
            raise Stop(f"datacube_dask: {path} can't be read", 2)
    ca_file, cert, key = files
    return Security(tls_ca_file=ca_file, tls_client_cert=cert, tls_client_key=key, require_encryption=True)


@contextlib.contextmanager
def connected(words: argparse.Namespace) -> Iterator[Any]:
    """A client of a scheduler that has a worker."""
    from distributed import Client

    address, seconds = words.scheduler, words.wait
    try:
        client = Client(address, timeout=seconds, security=security_of(words))
    except (OSError, ValueError, RuntimeError, TypeError) as why:
        raise Stop(f"datacube_dask: there is no scheduler at {address}: {why}") from None
    with client:
        try:
            client.wait_for_workers(1, timeout=seconds)
        except TimeoutError:
            raise Stop(f"datacube_dask: the scheduler at {address} has no worker") from None
        except Exception as why:
            raise Stop(f"datacube_dask: the scheduler at {address} has no worker: {why}") from None
        yield client


def sizes_of(feeds: Sequence[str]) -> List[int]:
    """The bytes of feeds; the first that isn't there is told as one machine would."""
    sizes = []
    for number, path in enumerate(feeds, 1):
        try:
            sizes.append(os.stat(path).st_size)
        except OSError:
            raise Stop(f"datacube: feed {number} unreadable") from None
    return sizes


def hand_out(path: str, to: Optional[str]) -> None:
    """Puts the finished text where it is wanted: a file is there whole or not at all."""
    try:
        if to:
            put_whole(path, to)
            return
        with open(path, "rb") as text:
            shutil.copyfileobj(text, sys.stdout.buffer)
        sys.stdout.buffer.flush()
    except OSError as why:
        # (what standard output still holds is not to be tried again at the end)
        os.dup2(os.open(os.devnull, os.O_WRONLY), 1)
        raise Stop(f"datacube_dask: the output couldn't be written to its end: {why.strerror}") from None


def put_whole(path: str, to: str) -> None:
    """Copies a file beside its place, into a new one of a name that can't be guessed, and then renames it. So nothing that
    lies there already is written through, whoever put it."""
    part = os.path.join(os.path.dirname(to), f".datacube-{secrets.token_hex(16)}.part")
    flags = os.O_WRONLY | os.O_CREAT | os.O_EXCL | os.O_NOFOLLOW | os.O_CLOEXEC
    with open(os.open(part, flags, 0o666), "wb") as out:
        try:
            with open(path, "rb") as text:
                shutil.copyfileobj(text, out)
            out.close()
            os.replace(part, to)
        except BaseException:
            os.unlink(part)
            raise


@contextlib.contextmanager
def scratch_in(folder: str, schema: str) -> Iterator[str]:
    """A new folder with the schema, which is taken away in the end."""
    try:
        made = tempfile.TemporaryDirectory(prefix="datacube-", dir=os.path.abspath(folder), ignore_cleanup_errors=True)
    except OSError as why:
        raise Stop(f"datacube_dask: no folder can be made in {folder}: {why.strerror}") from None
    with made:
        try:
            shutil.copyfile(schema, f"{made.name}/schema.toml")
        except OSError:
            raise Stop("datacube: schema unreadable", 3) from None
        yield made.name


def cube(words: argparse.Namespace, feeds: Sequence[str]) -> int:
    """Computes and writes the cube, or the refusals; the status."""
    with scratch_in(words.scratch, words.schema) as folder:
        sizes = sizes_of(feeds)
        job = Job(words.program, folder, words.threads, words.refusals)
        with connected(words) as client:
            look_around(client, job, feeds, words.shards > 1)
            slots = sum(client.nthreads().values())
            shares = shares_of(feeds, sizes, words.share_bytes, words.shards, slots)
            progress = Progress(shares, None if words.quiet else sys.stderr)
            try:
                made = Run(client, job, words, progress).all(shares)
            finally:
                progress.say("\n")
        hand_out(made.path, words.out)
        return 4 if made.refused else 0


def bytes_of(word: str) -> int:
    """A number of bytes, as `500M`."""
    found = SIZE.fullmatch(word)
    if not found:
        raise argparse.ArgumentTypeError(f"{word} is no number of bytes, as 500M is")
    return int(found[1]) * UNITS[found[2]]


def up_to(least: int, most: int) -> Any:
    def number(word: str) -> int:
        if not re.fullmatch(r"0|[1-9][0-9]*", word) or not least <= int(word) <= most:
            raise argparse.ArgumentTypeError(f"{word} isn't from {least} to {most}")
        return int(word)

    return number


def asked() -> argparse.Namespace:
    asks = argparse.ArgumentParser(description=__doc__, formatter_class=argparse.RawDescriptionHelpFormatter)
    asks.add_argument("--scheduler", required=True, metavar="ADDRESS", help="of Dask's scheduler, as tcp://10.0.0.1:8786")
    asks.add_argument("--list", metavar="FILE", help="the feeds, a path a line; - is standard input")
    asks.add_argument("--scratch", default=".", metavar="FOLDER", help="a folder that all machines see, for what shares print [.]")
    asks.add_argument("--out", metavar="FILE", help="where the text goes, rather than to standard output")
    asks.add_argument("--program", default="datacube", metavar="PATH", help="the program, on the workers [datacube]")
    asks.add_argument("--share-bytes", type=bytes_of, metavar="BYTES", help="the most bytes of feeds in a share, as 500M")
    asks.add_argument("--shards", type=up_to(1, MOST_SHARDS), default=1, metavar="N", help="in how many shards a share is cut that has more, or any where --share-bytes isn't given [1]")
    asks.add_argument("--threads", type=up_to(1, 16), default=1, metavar="N", help="the threads of each share [1]")
    asks.add_argument("--retries", type=up_to(0, 100), default=2, metavar="N", help="how often a share is tried again [2]")
    asks.add_argument("--fan-in", type=up_to(2, MOST_CUBES), default=MOST_CUBES, metavar="N", help="how many cubes a merge takes [64]")
    asks.add_argument("--tls-ca-file", metavar="FILE", help="the certificate of the authority by which scheduler and workers are known")
    asks.add_argument("--tls-cert", metavar="FILE", help="the certificate by which this run is known to them")
    asks.add_argument("--tls-key", metavar="FILE", help="its key; the three are given together, for a scheduler at tls://..")
    asks.add_argument("--wait", type=up_to(1, 3600), default=10, metavar="SECONDS", help="for the scheduler, and for a worker where none is there [10]")
    asks.add_argument("--refusals", action="store_true", help="the refused lines of all feeds, in place of the cube")
    asks.add_argument("--quiet", action="store_true", help="say nothing of how far it is")
    asks.add_argument("schema")
    asks.add_argument("feeds", nargs="*", metavar="feed")
    words = asks.parse_args()
    if bool(words.feeds) == bool(words.list):
        asks.error("feeds are named as words, or by --list")
    if len({bool(it) for it in (words.tls_ca_file, words.tls_cert, words.tls_key)}) > 1:
        asks.error("--tls-ca-file, --tls-cert and --tls-key are given together")
    return words


def feeds_of(words: argparse.Namespace) -> List[str]:
    """The paths of the feeds, as they are from anywhere."""
    if words.list:
        try:
            with sys.stdin if words.list == "-" else open(words.list, errors="surrogateescape") as file:
                feeds = [it for it in file.read().split("\n") if it]
        except OSError as why:
            raise Stop(f"datacube_dask: {words.list} can't be read: {why.strerror}", 2) from None
        if not feeds:
            raise Stop(f"datacube_dask: {words.list} names no feed", 2)
    else:
        feeds = words.feeds
    return [os.path.abspath(it) for it in feeds]


def main() -> int:
    words = asked()
    # (what Dask logs of workers that come and go is its scheduler's to keep)
    logging.disable()
    try:
        return cube(words, feeds_of(words))
    except Stop as why:
        print(why.line, file=sys.stderr)
        return why.status
    except ImportError as why:
        print(f"datacube_dask: {why}: install Debian's python3-distributed", file=sys.stderr)
        return 1
    except KeyboardInterrupt:
        return 130


if __name__ == "__main__":
    sys.exit(main())
