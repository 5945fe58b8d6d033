#!/usr/bin/env python3
"""Measures `jackraisin.serve`: clients that read slices, while changes come, each answered when it is certain.

    scripts/serve_speed.py [--facts N] [--readers N] [--reads N] [--changes N] [--together N] [--whole N] [--seconds N] [--server CPUS] [--clients CPUS]

The facts are those of the workload `tall` of scripts/workloads.py, as many as `--facts` says. A reader asks for the slice of one
value of one dimension, over a connection that stays. `--reads` is how many all of them ask for in a second, each at its time, and
late ones count from that time; with 0 each asks again once it is answered. `--changes` is how many changes come in
a second, `--together` how many one request has. `--whole` is how many more readers ask for the whole cube, again as soon as they have
it (`scripts/readers_speed.py` does so with a follower). The server runs on the processors of `--server`, the clients on those of
`--clients`, as taskset takes them. It needs python3-aiohttp and python3-prometheus-client, of the Python that runs it.
"""
import asyncio
import multiprocessing
import os
import random
import subprocess
import sys
import tempfile
import time

sys.dont_write_bytecode = True
import processes
import programs
import workloads

ROOT = programs.ROOT
RECORDS, CARDS, MEASURES = workloads.WORKLOADS["tall"][:3]


class Client:
    """A connection that stays."""

    def __init__(self, reader, writer, token):
        self.reader, self.writer, self.token = reader, writer, token

    @classmethod
    async def of(cls, port, token):
        return cls(*await asyncio.open_connection("127.0.0.1", port), token)

    async def ask(self, method, path, body=b"", kind="text/csv"):
        """The seconds until an answer was there."""
        start = time.perf_counter()
        head = f"{method} {path} HTTP/1.1\r\nHost: localhost\r\nAuthorization: Bearer {self.token}\r\n"
        rest = f"Content-Type: {kind}\r\nContent-Length: {len(body)}\r\n" if method == "POST" else ""
        self.writer.write(f"{head}{rest}\r\n".encode() + body)
        found = await self.reader.readuntil(b"\r\n\r\n")
        if not found.startswith(b"HTTP/1.1 200 "):
            sys.exit(f"the server answered {found}")
        await self.reader.readexactly(int(found.lower().partition(b"content-length: ")[2].split(b"\r\n")[0]))
        return time.perf_counter() - start


def path_of(pick):
    at = pick.randrange(len(CARDS))
    return f"/slice?d{at + 1}=value-{int(CARDS[at] * pick.random() ** 1.5)}"


async def read(port, token, readers, rate, seconds, path=None):
    async def one(at):
        pick, client, times = random.Random(at), await Client.of(port, token), []
        start = time.perf_counter()
        pause, due = (1 / rate if rate else 0), start + pick.random() * (1 / rate if rate else 0)
        while time.perf_counter() < start + seconds:
            await asyncio.sleep(max(0, due - time.perf_counter()) if rate else 0)
            begun = due if rate else time.perf_counter()
            await client.ask("GET", path or path_of(pick))
            times.append(time.perf_counter() - begun)
            due += pause
        return times
    return [it for each in await asyncio.gather(*map(one, range(readers))) for it in each]


async def change(port, token, rate, together, seconds):
    """Posts at its times, whether or not the ones before were answered."""
    pick, start, ids = random.Random(7), time.monotonic(), iter(range(10**9))
    free = [await Client.of(port, token) for _ in range(16)]

    async def one():
        client = free.pop() if free else await Client.of(port, token)
        rows = "".join(f"2,I,n{next(ids)},{workloads.values(pick, CARDS, MEASURES)}\n" for _ in range(together))
        found = await client.ask("POST", "/changes", rows.encode())
        free.append(client)
        return found
    tasks = []
    for at in range(int(rate / together * seconds)):
        await asyncio.sleep(max(0, start + at * together / rate - time.monotonic()))
        tasks.append(asyncio.ensure_future(one()))
    return await asyncio.gather(*tasks)


def work(name, cpus, out, *given):
    os.sched_setaffinity(0, cpus)
    out.put((name, asyncio.run({"reads": read, "posts": change, "whole cubes": read}[name](*given))))


def share(times, part):
    return sorted(times)[int(part * (len(times) - 1))] * 1000


def main():
    given = programs.words_of(__doc__, facts=20000, readers=32, reads=1000, changes=1000, together=10, whole=0, seconds=10, server="0,1", clients="2,3")
    cpus = [int(it) for it in given.clients.split(",")]
    with tempfile.TemporaryDirectory(prefix="serve-") as folder:
        files = workloads.make(folder, "tall", 1, given.facts / RECORDS)
        words = [sys.executable, "-m", "jackraisin.serve", *files, "--store", "sales.db", "--listen", "127.0.0.1:0"]
        env = {**os.environ, "PYTHONPATH": f"{ROOT}/python/src", "DATACUBE": programs.datacube()}
        server = subprocess.Popen(["taskset", "-c", given.server, *words], cwd=folder, env=env, stdout=subprocess.PIPE, stderr=subprocess.PIPE, text=True)
        address = server.stdout.readline().strip()
        server.stderr.readline()
        port, token = int(address.split(":")[2].split("/")[0]), address.partition("_token=")[2]
        found, results = multiprocessing.Queue(), {"reads": [], "posts": [], "whole cubes": []}
        before = processes.spent_by(server.pid, has_children=False)
        half, rate = given.readers // 2, given.reads / given.readers
        jobs = [("reads", port, token, it, rate, given.seconds) for it in (half, given.readers - half)]
        jobs += [("posts", port, token, given.changes, given.together, given.seconds)] if given.changes else []
        jobs += [("whole cubes", port, token, given.whole, 0, given.seconds, "/cube.csv")] if given.whole else []
        workers = [multiprocessing.Process(target=work, args=(name, cpus, found, *rest)) for name, *rest in jobs]
        for it in workers:
            it.start()
        for _ in workers:
            name, times = found.get()
            results[name] += times
        for it in workers:
            it.join()
        spent = processes.spent_by(server.pid, has_children=False) - before
        server.terminate()
        server.communicate()
    for name, times in results.items():
        if times:
            print(f"{name}: {len(times) / given.seconds:.0f} a second; {share(times, 0.5):.1f} ms median, {share(times, 0.99):.1f} ms p99, {max(times) * 1000:.1f} ms at most")
    print(f"the server took {spent / sum(map(len, results.values())) * 1000:.2f} ms of a processor for each of them")


if __name__ == "__main__":
    main()
