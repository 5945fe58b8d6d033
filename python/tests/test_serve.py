"""One cube for a team, over HTTP: beside scripts/oracle.py, the program's own forms, and a session that is asked directly."""
import asyncio
import collections
import configparser
import contextlib
import csv
import functools
import gzip
import http.client
import importlib.util
import io
import itertools
import json
import os
import random
import re
import shutil
import signal
import socket
import sqlite3
import stat
import subprocess
import sys
import tempfile
import threading
import time
import types
import unittest
import urllib.parse
from fractions import Fraction
from unittest import mock

import beside
import jackraisin
import oracle
from jackraisin import ALL, ANY

LACKS = [it for it in ("aiohttp", "prometheus_client") if not importlib.util.find_spec(it)]
WHY = f"{' and '.join(LACKS)} (Debian: python3-aiohttp, python3-prometheus-client) isn't installed for this Python" if LACKS else None
if WHY is None:
    from jackraisin._errors import Failure
    from jackraisin.serve import _access, _browsers, _command, _connections, _events, _forms, _http, _keys, _making, _metrics, _pace, _places
    from jackraisin.serve import _query, _reading, _served, _session, _stored, _taking, _words
    from jackraisin.serve._errors import CantServe

SECONDS = 30
SHOP = [f"{beside.SHOP}/{it}.csv" for it in ("market", "street", "online")]
SCHEMA = f"{beside.SHOP}/schema.toml"
CSV, JSON = {"Content-Type": "text/csv"}, {"Content-Type": "application/x-ndjson"}
NAMED = """dimensions = ["city", "_kind"]
measures = ["price"]
aggregates = ["count(*)", "sum(price)", "avg(price)"]
version = 2
feed = { null = ["", "NA"], delimiter = ";", columns = { city = "Town" } }
decimals = { price = 2 }
"""


ELSEWHERE = """<!DOCTYPE html>
<title>elsewhere</title>
<iframe src="ADDRESS/"></iframe>
<script>
  const asked = ["/slice", "/cube.csv?_token=TOKEN", "/healthz"].map((it) => fetch("ADDRESS" + it, { credentials: "include" }));
  asked.push(fetch("ADDRESS/changes", { method: "POST", mode: "no-cors", credentials: "include", body: "9,D,a" }));
  Promise.allSettled(asked).then((all) => document.title = all.map((it) => it.status).join());
</script>
"""

# (three lines of the shop are refused)
REFUSED = "jackraisin.serve: lines of the feeds are refused, 3 of them: /refusals shows them\n"


def setUpModule():
    if WHY:
        raise unittest.SkipTest(f"a cube that is served: {WHY}")


def command(words):
    return [sys.executable, "-m", "jackraisin.serve", *words]


def heed_signals():
    """Heeds what a shell has its jobs in the background ignore, as the server would then."""
    for it in (signal.SIGINT, signal.SIGHUP):
        signal.signal(it, signal.SIG_DFL)


class UnixConnection(http.client.HTTPConnection):
    """A connection to a Unix socket."""

    def __init__(self, path):
        super().__init__("localhost", timeout=SECONDS)
        self.path = path

    def connect(self):
        self.sock = socket.socket(socket.AF_UNIX)
        self.sock.settimeout(SECONDS)
        self.sock.connect(self.path)


class Server:
    """A running server, over the shop's feeds where nothing else is given."""

    def __init__(self, store, *words, schema=SCHEMA, feeds=SHOP, listen="127.0.0.1:0", is_awaited=True, **env):
        line = command([schema, *feeds, "--store", store, "--listen", listen, *words])
        how = {"stdout": subprocess.PIPE, "stderr": subprocess.PIPE, "text": True, "env": beside.environment(**env), "preexec_fn": heed_signals}
        self.process = subprocess.Popen(line, **how)
        self.address = self.process.stdout.readline().strip()
        at, _, self.token = self.address.partition("?_token=")
        self.path = at[len("unix:") :] if at.startswith("unix:") else None
        self.port = None if self.path or not at else int(at.rstrip("/").rpartition(":")[2])
        if is_awaited:
            self.wait()

    def wait(self):
        until(lambda: self.get("/readyz").status == 200 or self.process.poll() is not None)

    def connection(self):
        return UnixConnection(self.path) if self.path else http.client.HTTPConnection("127.0.0.1", self.port, timeout=SECONDS)

    def ask(self, method, path, body=None, headers={}, token=True, is_text=True):
        with contextlib.closing(self.connection()) as connection:
            given = {"Authorization": f"Bearer {self.token}"} if token and self.token else {}
            connection.request(method, path, body, {**given, **headers})
            answer = connection.getresponse()
            answer.body = answer.read()
            answer.text = answer.body.decode() if is_text else None
            return answer

    def get(self, path, **how):
        return self.ask("GET", path, **how)

    def change(self, body, headers=CSV, **how):
        return self.ask("POST", "/changes", body, headers, **how)

    def made(self, body, headers=CSV):
        answer = self.change(body, headers)
        assert answer.status == 200, answer.text
        return json.loads(answer.text)

    def end(self, signal=signal.SIGTERM):
        """The status, and what was told."""
        if self.process.poll() is None:
            self.process.send_signal(signal)
        told = self.process.communicate(timeout=SECONDS)[1]
        return self.process.returncode, told


    def close(self):
        if self.process.poll() is None:
            self.process.kill()
        self.process.wait()
        self.process.stdout.close()
        self.process.stderr.close()


until = functools.partial(beside.until, seconds=SECONDS)


def threads_of(process):
    """How many threads a process has."""
    with open(f"/proc/{process}/status", encoding="utf-8") as file:
        return int(dict(line.split(":", 1) for line in file)["Threads"])


def records(rows):
    out = io.StringIO(newline="")
    csv.writer(out).writerows(rows)
    return out.getvalue().encode()


class Case(unittest.TestCase):
    """A test with a folder, and servers that end behind it."""

    def setUp(self):
        folder = tempfile.TemporaryDirectory(prefix="datacube-test-")
        self.addCleanup(folder.cleanup)
        self.folder = folder.name
        self.store = f"{self.folder}/sales.db"

    def server(self, *words, **how):
        server = Server(self.store, *words, **how)
        self.addCleanup(server.close)
        return server

    def written(self, name, text):
        path = f"{self.folder}/{name}"
        with open(path, "w", encoding="utf-8", newline="") as out:
            out.write(text)
        return path

    def stored(self, *question):
        """What a command over the store of an ended server says."""
        command, *words = question
        ran = subprocess.run([jackraisin.program(), command, "--store", self.store, SCHEMA, *words, *SHOP], stdout=subprocess.PIPE, text=True)
        self.assertIn(ran.returncode, (0, 4))
        return ran.stdout


class Shared(Case):
    """Tests that ask one server, and change nothing."""

    words = ()

    @classmethod
    def setUpClass(cls):
        folder = tempfile.TemporaryDirectory(prefix="datacube-test-")
        cls.addClassCleanup(folder.cleanup)
        cls.shop = Server(f"{folder.name}/sales.db", *cls.words, **cls.given(folder.name))
        cls.addClassCleanup(cls.shop.close)

    @classmethod
    def given(cls, folder):
        """The schema and the feeds, where they aren't the shop's."""
        return {}


class Questions(Shared):
    """Over the shop's feeds, beside the program's own commands."""

    def program(self, command, *words):
        return subprocess.run([jackraisin.program(), command, *words], stdout=subprocess.PIPE, text=True).stdout

    def test_each_question_in_each_form(self):
        questions = {
            "cube": ("print", []), "slice?city=*": ("slice", ["?,\\A,\\A"]), "slice?product=tea,%20green&payment=*": ("slice", ['\\A,"=tea, green",?']),
            "slice?city=%5CN&product=*": ("slice", ["\\N,?,\\A"]), "drill?_along=product&city=Leeds": ("drill", ["=Leeds,\\A,\\A", "product"]),
            "rollup?_along=product&city=York&product=tea": ("rollup", ["=York,=tea,\\A", "product"]), "slice": ("slice", ["\\A,\\A,\\A"]),
        }
        for asked, (command, words) in questions.items():
            path, _, query = asked.partition("?")
            wanted = self.program(command, SCHEMA, *words, *SHOP)
            self.assertEqual(self.shop.get(f"/{asked}").text, wanted)
            self.assertEqual(self.shop.get(f"/{path}.csv?{query}").text, wanted)
            objects = [json.loads(it) for it in self.program(command, "--json", SCHEMA, *words, *SHOP).splitlines()]
            self.assertEqual(json.loads(self.shop.get(f"/{path}.json?{query}").text), objects)
            self.assertEqual(self.shop.get(f"/{path}.txt?{query}").text, self.program(command, "--aligned", SCHEMA, *words, *SHOP))

    def test_the_form_that_is_accepted(self):
        kinds = {
            "": "text/csv; charset=utf-8", "*/*": "text/csv; charset=utf-8", "application/json": "application/json",
            "text/plain;q=0.5, application/json;q=0.9": "application/json", "text/plain": "text/plain; charset=utf-8",
            "text/csv;q=0, image/png": "text/csv; charset=utf-8",
        }
        for accept, kind in kinds.items():
            answer = self.shop.get("/slice?city=*", headers={"Accept": accept})
            self.assertEqual((answer.status, answer.headers["Content-Type"], accept), (200, kind, accept))

    def test_refusals(self):
        self.assertEqual(self.shop.get("/refusals").text, self.program("refusals", SCHEMA, *SHOP))
        self.assertEqual(self.shop.get("/refusals?_source=3&_after=3").text, "source,record,code\n3,4,5\n")
        self.assertEqual(json.loads(self.shop.get("/refusals.json?_source=2").text), [{"source": 2, "record": 5, "code": 7}])
        self.assertEqual(self.shop.get("/refusals.txt?_source=2").text, "source  record  code\n     2       5     7\n")

    def test_what_is_refused(self):
        told = {
            "/slice?town=York": "no dimension is named town", "/slice?city=York&city=Leeds": "city stands twice", "/slice?city=*a": "city=*a: ",
            "/slice?city=%5CA": "city=\\A: ", "/slice?_form=x": "/slice has no word _form", "/cube?city=York": "/cube takes no dimension",
            "/drill?city=York": "/drill goes along a dimension", "/drill?_along=city&city=York": "P4: ", "/drill?_along=town": "P5: ",
            "/drill?_along=city&product=*": "P3: ", "/refusals?_source=70": "Q2: ", "/refusals?_after=1": "_after goes with _source",
            "/refusals?_source=a": "_source is a whole number", "/slice?city=%ff": "the address can't be read", "/rollup?_along=x": "P5: ",
        }
        for path, why in told.items():
            answer = self.shop.get(path)
            self.assertEqual((path, answer.status, answer.text[: len(why)]), (path, 400, why))
        self.assertEqual(self.shop.get("/nothing").status, 404)
        self.assertEqual(self.shop.ask("DELETE", "/cube").status, 405)
        self.assertEqual(self.shop.get("/changes").headers["Allow"], "POST")
        head = self.shop.ask("HEAD", "/cube.csv")
        self.assertEqual((head.status, head.text, head.headers["Content-Length"]), (200, "", str(len(self.shop.get("/cube").text.encode()))))


class Words(Case):
    def test_texts_and_names_that_look_like_words(self):
        feed = self.written("feed.csv", "Town;_kind;price\n*;=;1\n\\x;a&b;2.50\n=*;;3\nNA;é;4\n")
        server = self.server(schema=self.written("schema.toml", NAMED), feeds=[feed])
        wanted = {
            "city==*": "1.00", "city==%5Cx": "2.50", "city===*": "3.00", "city=%5CN": "4.00", "__kind==%3D": "1.00", "__kind=a%26b": "2.50",
            "__kind=%C3%A9&city=%5CN": "4.00", "__kind=%5CN": "3.00",
        }
        for query, total in wanted.items():
            lines = list(csv.reader(io.StringIO(server.get(f"/slice?{query}").text, newline="")))
            self.assertEqual((query, lines[1][5]), (query, total))
        self.assertEqual(server.get("/slice?_kind=a").status, 400)
        self.assertEqual(len(server.get("/drill?_along=_kind").text.splitlines()), 5)


class Changes(Case):
    def test_generated(self):
        """Bodies of CSV and of JSON lines, beside the oracle's session: what was taken, what was refused, and the cube."""
        for seed in range(3):
            rng = random.Random(f"served {seed}")
            schema, feeds = beside.small_case(rng)
            schema.max_records, feeds = 2**32 - 1, feeds[: rng.choice([0, 1, 3])]
            self.store = f"{self.folder}/{seed}.db"
            with self.subTest(seed=seed), beside.written(schema, feeds, rng) as paths:
                given, played = beside.schema_like(schema), oracle.Session(schema, feeds)
                server = self.server(schema=self.written(f"{seed}.toml", given.toml()), feeds=paths)
                for _ in range(12):
                    body, wanted = self.body(rng, given)
                    known = set(played.refused())
                    for it in wanted:
                        played.reply([field.encode() for field in it])
                    new = set(played.refused()) - known
                    made = server.made(*body)
                    self.assertEqual((made["taken"], len(made["refused"])), (len(wanted) - len(new), len(new)))
                    told = {(it["source"], it["record"], it["code"]): wanted[it["change"] - 1] for it in made["refused"]}
                    self.assertEqual(sorted(told), sorted(new))
                    self.assertTrue(all(int(record[0]) == source for (source, _, _), record in told.items()))
                    self.assertTrue(all(it["means"] for it in made["refused"]))
                    self.assertEqual(server.get("/cube.csv").text.encode(), played.run().print())
                self.assertEqual(server.end()[0], 0)

    def body(self, rng, schema):
        """A body with its headers, and the records that it stands for."""
        made = [self.change(rng, schema) for _ in range(rng.choice([0, 1, 5, 30]))]
        lines = [record for record, _ in made]
        if rng.random() < 0.5:
            return (records(lines), CSV), lines
        return ("\n".join(json.dumps(it) for _, it in made).encode(), JSON), lines

    def change(self, rng, schema):
        """A change as a record, and as an object."""
        source, name, op = rng.choice([1, 2, 5]), f"id {rng.randrange(8)}", rng.choice("IIUD")
        said = {"source": source, "op": op, "id": name}
        if op == "D":
            return [str(source), op, name], said
        texts = {it: rng.choice([None, "west", "a,b", 'say "no"', "é\n", "x" * 200]) for it in schema.dimensions}
        units = lambda it: [0, -7, 7 if schema.decimals.get(it) else 2**63 - 1]
        numbers = {it: rng.choice([None, *(["west", "", "a,b"] if it in schema.texts else units(it))]) for it in schema.measures}
        said.update(texts, **{it: value if rng.random() < 0.5 or value is None else str(value) for it, value in numbers.items()})
        fields = ["\\N" if it is None else str(it) for it in [*texts.values(), *numbers.values()]]
        return [str(source), op, name, *fields], said

    def test_what_isnt_whole_changes_nothing(self):
        shop = self.server()
        good = b"1,I,new,York,tea,card,1,100\n"
        bodies = {
            good + b'1,I,other,"York,tea,card,1,100\n': "record 2: ", good + b"x,I,other\n": "record 2: it begins with 'x'",
            good + b"0,D,other\n": "record 2: ", good + b"65,D,a\n": "record 2: ", good + b"01,D,a\n": "record 2: ", b"print\n": "record 1: ",
            good + b"1,I,\xff": "byte 33 isn't UTF-8", b'""\n': "record 1: ", b'1,I,"a"b\n': "record 1: ", b" 1,D,a\n": "record 1: ",
        }
        for body, why in bodies.items():
            answer = shop.change(body)
            self.assertEqual((body, answer.status, answer.text[: len(why)]), (body, 400, why))
        line = '{"source": 1, "op": "I", "id": "j", "city": "York", "product": "tea", "payment": null, "pieces": 1, "cents": %s}'
        lines = {
            line % "1.5": "line 1: 1.5 is no whole number", line % "1e2": "line 1: ", line % "NaN": "line 1: ", line % "true": "line 1: ",
            line % '"1.5"': "line 1: measure cents", line % '"many"': "line 1: measure cents: 'many' is no number", line % str(2**63): "line 1: measure cents",
            (line % "1").replace('"York"', '"\\\\N"'): "line 1: dimension city", line % '1, "cents": 2': "line 1: a name stands twice",
            line % '1, "colour": "red"': "line 1: no column is named 'colour'", "[1]": "line 1: it is no object", line[:40]: "line 1: ", "[" * 100000: "line 1: ",
            line % "1" + "\n\n" + (line % "1").replace('"op": "I"', '"op": "X"'): "line 2: 'op' is one of", '{"source": 1, "op": "D"}': "line 1: 'id' is missing",
            (line % "1").replace(', "city": "York"', ""): "line 1: dimension city is missing", (line % "1").replace('"source": 1', '"source": 65'): "line 1: a source",
            (line % "1").replace('"op": "I"', '"op": "P"'): "line 1: what is put", (line % "1").replace('"j"', '""'): "line 1: an id isn't empty",
        }
        for body, why in lines.items():
            answer = shop.change(body.encode(), JSON)
            self.assertEqual((body[:200], answer.status, answer.text[: len(why)]), (body[:200], 400, why))
        self.assertEqual(shop.made(b"\r\n\n"), {"taken": 0, "refused": [], "state": 0})
        self.assertEqual(shop.get("/slice").headers["Datacube-State"], "0")

    def test_puts_and_keeps_by_names(self):
        feed = self.written("feed.csv", "Town;_kind;price\nYork;a;1\n")
        server = self.server(schema=self.written("schema.toml", NAMED), feeds=[feed])
        said = [{"source": 1, "op": "P", "id": "1", "city": "Leeds", "_kind": 7, "price": "3.50"}, {"source": 1, "op": "U", "id": 1, "city": "Hull"},
                {"source": 2, "op": "R", "id": "none"}, {"source": 2, "op": "P", "id": "b", "city": None, "_kind": None, "price": 2}]
        made = server.made("\n".join(map(json.dumps, said)).encode(), JSON)
        self.assertEqual((made["taken"], made["refused"], made["state"]), (4, [], 4))
        cube = jackraisin.Cube(server.get("/cube").text)
        self.assertEqual([(it.key, it["count(*)"], str(it["sum(price)"])) for it in cube.where({"city": ANY, "_kind": ANY})][:1], [(("Hull", "7"), 1, "3.50")])
        self.assertEqual(cube.at({"city": None})["count(*)"], 1)

    def test_texts_that_are_counted(self):
        schema = 'dimensions = ["city"]\nmeasures = ["customer", "cents"]\naggregates = ["count(distinct customer)", "sum(cents)"]\ntexts = ["customer"]\n'
        server = self.server(schema=self.written("schema.toml", schema), feeds=[self.written("feed.csv", "op,id,city,customer,cents\nI,1,York,Ann,5\n")])
        said = [{"source": 1, "op": "I", "id": at, "city": "York", "customer": it, "cents": 1} for at, it in enumerate(["Ann", "Bob", None, 7, "7"], 2)]
        self.assertEqual(server.made("\n".join(map(json.dumps, said)).encode(), JSON)["taken"], 5)
        self.assertEqual(server.made(b"2,I,1,Leeds,Bob,2\n")["taken"], 1)
        self.assertEqual([(it.key, it.answers) for it in jackraisin.Cube(server.get("/cube").text)], [(("Leeds",), (1, 2)), (("York",), (3, 10)), ((jackraisin.ALL,), (3, 12))])
        answer = server.change(json.dumps({**said[0], "id": "9", "customer": 1.5}).encode(), JSON)
        self.assertEqual((answer.status, answer.text[:8]), (400, "line 1: "))

    def test_an_answer_means_that_it_is_in_the_store(self):
        """What was answered is there however the server ends, and goes on from there; other commands take the store."""
        server = self.server()
        self.assertEqual(server.made(b"7,I,a,York,tea,card,1,100\n7,I,a,York,tea,card,1,100\n")["refused"][0]["record"], 2)
        server.process.kill()
        server.process.wait()
        server = self.server()
        self.assertEqual(server.made(b"7,I,a,York,tea,card,1,100\n7,I,b,York,tea,card,1,100\n"), {
            "taken": 1, "refused": [{"change": 1, "source": 7, "record": 3, "code": 7, "means": "An insert of an id that is present."}], "state": 4})
        served = server.get("/cube.csv").text
        self.assertEqual(server.end()[0], 0)
        self.assertEqual(self.stored("print"), served)
        self.assertEqual(self.stored("refusals").splitlines()[-2:], ["7,2,7", "7,3,7"])

    def test_a_store_that_cant_be_counted_at_first(self):
        given = types.SimpleNamespace(schema=SCHEMA, feeds=SHOP, store=self.store, wary=False, threads=None)
        with mock.patch.object(_stored, "stored_counts", side_effect=[None, {}]):
            session = _command.begin_session(given)
        self.assertEqual((session.number, session.stop()), (0, None))
        with mock.patch.object(_stored, "stored_counts", return_value=None), self.assertRaises(CantServe):
            _command.begin_session(given)

    def test_limits(self):
        server = self.server("--max-body", "1K")
        self.assertEqual(server.change(b"1,D,a\n" * 200).status, 413)
        self.assertEqual(server.change(iter([b"1,D,a\n" * 100] * 5), CSV).status, 413)
        for headers in ({}, {"Content-Type": "text/html"}, {"Content-Type": "text/csv; charset=latin-1"}, {**CSV, "Content-Encoding": "gzip"}):
            self.assertEqual(server.change(b"1,D,a\n", headers).status, 415)
        self.assertEqual(server.change(b"1,D,a\n", {"Content-Type": "text/csv; header=absent; charset=UTF-8"}).status, 200)
        self.assertEqual(server.change(iter([b"1,D,", b"a\n"]), {**CSV, "Expect": "100-continue"}).status, 200)
        self.assertEqual(server.get("/slice").headers["Datacube-State"], "2")


class Keys(Case):
    """Bodies under an `Idempotency-Key`."""

    def keyed(self, key, **more):
        return {**CSV, "Idempotency-Key": key, **more}

    def test_once_however_often_it_comes(self):
        server = self.server()
        body = b"5,I,a,York,tea,card,1,100\n5,I,a,York,tea,card,1,100\n6,D,none\n"
        first = server.made(body, self.keyed("till 1, bill 7"))
        self.assertEqual((first["taken"], [it["change"] for it in first["refused"]], first["state"]), (1, [2, 3], 3))
        server.made(b"5,D,other\n6,D,other\n")
        self.assertEqual(server.made(body, self.keyed("till 1, bill 7")), {**first, "state": 5})
        self.assertEqual(server.change(body + b"\n", self.keyed("till 1, bill 7")).status, 422)
        self.assertEqual(server.made(b"", self.keyed("empty"))["taken"], 0)
        self.assertEqual(server.change(b"1,D,a\n", self.keyed("empty")).status, 422)
        for key in ("", "x" * 65, "\x7f", "\xe9"):
            self.assertEqual((key, server.change(body, self.keyed(key)).status), (key, 400))
        self.assertEqual(server.made(b"5,D,a\n", self.keyed("x" * 64))["state"], 6)
        self.assertEqual(stat.S_IMODE(os.stat(f"{self.store}-keys").st_mode), 0o600)
        self.assertEqual(server.end()[0], 0)
        server = self.server()
        self.assertEqual(server.made(body, self.keyed("till 1, bill 7")), {**first, "state": 6})

    def test_a_body_that_a_kill_cut_short(self):
        """Of five changes a kill leaves two, or none, in the store; under the key the rest is made, once."""
        body = records([[8, "I", n % 4, "York", "tea", "card", 1, 100] for n in range(5)])
        state = 0
        for left in (2, 0):
            server = self.server()
            before = server.get("/slice").headers["Datacube-State"]
            wanted = server.made(body, self.keyed(f"left {left}"))
            server.process.kill()
            server.process.wait()
            with contextlib.closing(sqlite3.connect(self.store, timeout=SECONDS)) as connection:
                connection.execute("DELETE FROM changes WHERE number > ?", [int(before) + left])
                connection.commit()
            server = self.server()
            server.made(b"9,D,a\n")
            made = server.made(body, self.keyed(f"left {left}"))
            self.assertEqual((made["taken"], made["state"]), (wanted["taken"], int(before) + 6))
            self.assertEqual([it["change"] for it in made["refused"]], [it["change"] for it in wanted["refused"]])
            self.assertEqual({**server.made(body, self.keyed(f"left {left}"))}, made)
            server.end()

    def test_a_note_is_there_before_the_session_is_told(self):
        """A session that fails has its key noted, with nothing made."""
        session = Pretended()
        session.keys = _keys.KeyNotes(self.store, 0)
        self.addCleanup(session.keys.close)

        def fails(records):
            with contextlib.closing(_keys.KeyNotes(self.store, 0)) as others:
                self.assertEqual(others.of("a").digest, b"digest")
            raise CantServe("it failed")
        session.make = fails
        self.assertRaises(CantServe, _making.make_all, session, [_making.Body([["1", "D", "a"]], b"digest", "a")])

    def test_a_day(self):
        notes = _keys.KeyNotes(self.store, 100)
        self.addCleanup(notes.close)
        place = _places.Place(0, 3, 5, {1: 7, 64: 0})
        notes.begin()
        notes.add("a", b"digest", place, True)
        notes.commit()
        self.assertEqual((notes.of("a"), notes.of("b")), (_keys.Note(b"digest", [place]), None))
        start = _keys.now()
        with mock.patch.object(_keys, "now", return_value=start + 24 * 3600 - 60):
            self.assertEqual(notes.of("a").length, 3)
        with mock.patch.object(_keys, "now", return_value=start + 24 * 3600 + 60):
            self.assertIsNone(notes.of("a"))
            notes.begin()
            notes.commit()
        self.assertIsNone(notes.of("a"))


class Kills(Case):
    """The server and its program are killed again and again while clients post, each until it is answered, then the next body."""

    KILLS = 30 if os.environ.get("DATACUBE_LONG") == "1" else 4

    def test_what_was_acknowledged_is_there_once(self):
        rng = random.Random("kills")
        path = f"{self.folder}/cube.sock"
        self.is_over, self.acknowledged = False, set()
        server = self.server("--no-token", listen=f"unix:{path}")
        clients = [threading.Thread(target=self.client, args=(path, at)) for at in range(8)]
        for it in clients:
            it.start()
        for _ in range(self.KILLS):
            time.sleep(rng.uniform(0.05, 0.6))
            with open(f"/proc/{server.process.pid}/task/{server.process.pid}/children", encoding="ascii") as file:
                victims = [server.process.pid, *map(int, file.read().split())]
            known = len(self.acknowledged)
            for it in rng.sample(victims, len(victims)):
                with contextlib.suppress(ProcessLookupError):
                    os.kill(it, signal.SIGKILL)
            server.process.wait()
            server = self.server("--no-token", listen=f"unix:{path}")
        until(lambda: len(self.acknowledged) > known + 20)
        self.is_over = True
        for it in clients:
            it.join()
        self.assertEqual(server.end()[0], 0)
        with contextlib.closing(sqlite3.connect(self.store)) as connection:
            found = [row[0].decode().split(",")[2] for row in connection.execute("SELECT record FROM changes")]
        counts = collections.Counter(found)
        lost = [it for it in self.acknowledged if it not in counts]
        twice = [it for it, count in counts.items() if count > 1 and not it.startswith("free")]
        self.assertEqual((lost, twice), ([], []))
        self.assertEqual({it for it in counts if not it.startswith("free")}, {it for it in self.acknowledged if not it.startswith("free")})

    def client(self, path, at):
        """Posts bodies, of which the most are under keys, and comes again with each of those until it is answered."""
        rng = random.Random(f"client {at}")
        for body in itertools.count():
            if self.is_over:
                return
            kind, count = rng.choice(["keyed", "keyed", "free"]), rng.choice([1, 10, 10, 300, 12000 if at == 0 else 30])
            name = f"{kind}-{at}-{body}"
            rows = [[at + 1, "I", f"{name}-{it}", "York", "tea", "card", 1, 1] for it in range(count)]
            headers = {**CSV, **({"Idempotency-Key": name} if kind == "keyed" else {})}
            while True:
                try:
                    with contextlib.closing(UnixConnection(path)) as connection:
                        connection.request("POST", "/changes", records(rows), headers)
                        answer = connection.getresponse()
                        text = answer.read()
                    if answer.status == 200:
                        said = json.loads(text)
                        assert said["taken"] == count and not said["refused"], said
                        self.acknowledged.update(it[2] for it in rows)
                        break
                except (OSError, http.client.HTTPException):
                    pass
                if kind == "free":
                    break
                time.sleep(0.02)


class Rights(Case):
    def test_tokens(self):
        file = self.written("tokens", "# the team's\nread reader-1\n\nchange changer-1\n")
        server = self.server("--token-file", file)
        self.assertEqual((server.token, server.get("/readyz").status, server.get("/healthz").status), ("", 200, 200))
        for token, read, change in ((None, 401, 401), ("reader-1", 200, 403), ("changer-1", 200, 200), ("changer-", 401, 401), ("", 401, 401)):
            headers = {} if token is None else {"Authorization": f"Bearer {token}"}
            self.assertEqual((token, server.get("/slice", headers=headers).status), (token, read))
            self.assertEqual((token, server.change(b"9,D,a\n", {**CSV, **headers}).status), (token, change))
            query = "" if token is None else f"?_token={token}"
            self.assertEqual((token, server.get(f"/cube.csv{query}").status), (token, read))
        self.assertEqual(server.get("/nothing").status, 401)
        self.assertEqual(server.get("/slice").headers["WWW-Authenticate"], "Bearer")
        self.assertEqual(server.get("/slice", headers={"Authorization": "Basic cmVhZGVyLTE="}).status, 401)

    def test_a_drawn_token(self):
        server = self.server()
        self.assertRegex(server.address, r"^http://127\.0\.0\.1:[0-9]+/\?_token=[\w-]{32}$")
        self.assertEqual((server.get("/slice").status, server.get("/slice", token=False).status), (200, 401))
        told = server.end()[1]
        self.assertNotIn(server.token, told)

    def test_a_unix_socket(self):
        path = f"{self.folder}/cube.sock"
        server = self.server("--no-token", listen=f"unix:{path}")
        self.assertEqual((server.address, stat.S_IMODE(os.lstat(path).st_mode)), (f"unix:{path}", 0o600))
        self.assertEqual(server.get("/slice").status, 200)
        server.process.kill()
        server.process.wait()
        server = self.server(listen=f"unix:{path}")
        self.assertEqual((server.get("/slice").status, server.get("/slice", token=False).status), (200, 401))
        self.assertEqual(server.end()[0], 0)
        self.assertFalse(os.path.exists(path))


class Commands(Case):
    """What the command says where it can't begin: one line, and status 1."""

    def said(self, *words, **env):
        ran = subprocess.run(command(words), stdout=subprocess.PIPE, stderr=subprocess.PIPE, text=True, env=beside.environment(**env), timeout=SECONDS)
        return ran.returncode, ran.stdout, ran.stderr

    def test_where_it_may_listen(self):
        tokens = self.written("tokens", "read reader-1\n")
        lines = {
            ("--listen", "0.0.0.0:0"): "wants --token-file", ("--listen", "0.0.0.0:0", "--token-file", tokens): "wants --tls-cert and --tls-key, or --behind-tls",
            ("--listen", "127.0.0.1"): "is no address", ("--listen", "127.0.0.1:0", "--no-token"): "--no-token is for a Unix socket",
            ("--listen", "[::]:0"): "wants --token-file", ("--listen", "unix:"): "wants the path", ("--tls-cert", tokens): "go together",
            ("--token-file", f"{self.folder}/none"): "can't be read", ("--token-file", self.written("wrong", "write token-12\n")): "line 1",
        }
        for words, why in lines.items():
            with self.subTest(words=words), self.assertRaisesRegex(CantServe, why):
                _words.given_by([SCHEMA, "--store", self.store, *words])
        for words in (("--listen", "0.0.0.0:0", "--token-file", tokens, "--behind-tls"), ("--listen", "localhost:0"), ("--listen", "[::1]:0"), ("--listen", "127.9.9.9:0")):
            self.assertIsNotNone(_words.given_by([SCHEMA, "--store", self.store, *words]).reach.tokens)
        pair = "--tls-cert", tokens, "--tls-key", tokens, "--listen", "127.0.0.1:0"
        for words, why in ((pair, "the certificate or its key"), (("--listen", "0.0.0.0:0"), "wants --token-file")):
            status, out, told = self.said(SCHEMA, "--store", self.store, *words)
            self.assertEqual((words, status, out, told.count("\n")), (words, 1, "", 1))
            self.assertTrue(told.startswith("jackraisin.serve: ") and why in told, told)
        self.assertFalse(os.path.exists(self.store))

    def test_a_log_of_objects(self):
        status, _, told = self.said(SCHEMA, "--store", f"{self.folder}/none/sales.db", "--listen", "127.0.0.1:0", "--log-format", "json")
        said = [json.loads(it) for it in told.splitlines()]
        self.assertEqual((status, said[0]["level"], said[0]["message"].splitlines()[0]), (1, "error", "D2"))

    def test_what_the_session_says(self):
        self.assertEqual(self.said(f"{self.folder}/none.toml", "--store", self.store)[0], 1)
        self.written("sales.db", "no store")
        for store, line in ((self.store, "D3"), (f"{self.folder}/none/sales.db", "D2")):
            status, _, told = self.said(SCHEMA, *SHOP, "--store", store, "--listen", "127.0.0.1:0")
            self.assertEqual((status, told.splitlines()[0]), (1, f"jackraisin.serve: {line}"))
        with open(self.store) as file:
            self.assertEqual(file.read(), "no store")

    def test_tls(self):
        pair = [f"{self.folder}/{it}.pem" for it in ("cert", "key")]
        made = subprocess.run(["openssl", "req", "-x509", "-newkey", "rsa:2048", "-nodes", "-subj", "/CN=localhost", "-out", pair[0], "-keyout", pair[1]],
                              stderr=subprocess.DEVNULL) if os.path.exists("/usr/bin/openssl") else None
        if made is None or made.returncode:
            self.skipTest("openssl isn't installed")
        import ssl
        server = self.server("--tls-cert", pair[0], "--tls-key", pair[1], is_awaited=False)
        self.assertTrue(server.address.startswith("https://"))
        context = ssl.create_default_context(cafile=pair[0])
        context.check_hostname = False
        server.connection = lambda: http.client.HTTPSConnection("127.0.0.1", server.port, context=context, timeout=SECONDS)
        server.wait()
        self.assertEqual(server.get("/slice").status, 200)

    def test_without_aiohttp(self):
        os.mkdir(f"{self.folder}/aiohttp")
        self.written("aiohttp/__init__.py", "raise ImportError('there is none')\n")
        path = f"{self.folder}:{beside.package()}"
        self.assertEqual(self.said(SCHEMA, "--store", self.store, PYTHONPATH=path), (1, "", "jackraisin.serve: it needs aiohttp (Debian: python3-aiohttp)\n"))
        call = [sys.executable, "-B", "-c", "import jackraisin, sys; print('aiohttp' in sys.modules)"]
        self.assertEqual(subprocess.run(call, stdout=subprocess.PIPE, text=True, env=beside.environment(PYTHONPATH=path)).stdout, "False\n")


class Ends(Case):
    def test_before_it_is_ready(self):
        slow = self.written("slow", f'#!/bin/sh\n[ "$1" != live ] || sleep 0.8\nexec "{jackraisin.program()}" "$@"\n')
        os.chmod(slow, 0o755)
        server = self.server(is_awaited=False, DATACUBE=slow)
        for path in ("/readyz", "/cube.csv"):
            answer = server.get(path)
            self.assertEqual((path, answer.status, answer.headers["Retry-After"]), (path, 503, "1"))
        self.assertEqual((server.change(b"1,D,a\n").status, server.get("/healthz").status), (503, 200))
        server.wait()
        self.assertEqual(server.get("/cube.csv").status, 200)

    def test_refused_lines_of_feeds_are_told(self):
        """In the log, at each start, and no refused change with them; where there are none, nothing is."""
        server = self.server()
        server.made(b"3,D,nobody\n")
        self.assertEqual(server.end(), (0, f"{REFUSED}jackraisin.serve: ready, with 0 changes in {self.store}\n"))
        server = self.server("--log-format", "json", PYTHONWARNINGS="error::UserWarning")
        lines = [json.loads(it) for it in server.end()[1].splitlines()]
        wanted = [("warning", REFUSED.partition(": ")[2].rstrip()), ("info", f"ready, with 1 changes in {self.store}")]
        self.assertEqual([(it["level"], it["message"]) for it in lines], wanted)
        self.store = f"{self.folder}/none.db"
        self.assertEqual(self.server(feeds=SHOP[:1]).end()[1].count("\n"), 1)

    def test_each_signal_ends_it_well(self):
        """While many post: what was answered is in the store, which a command takes then."""
        for it in (signal.SIGTERM, signal.SIGINT, signal.SIGHUP):
            server = self.server()
            answered, number = [], iter(range(10**9))

            def post(server=server, answered=answered, number=number, it=it):
                with contextlib.suppress(OSError, http.client.HTTPException):
                    while True:
                        name = f"{it.name} {next(number)}"
                        answer = server.change(records([[20, "I", name, "Hull", "tea", "cash", 1, 1]]))
                        if answer.status != 200:
                            return
                        answered.append(name)
            threads = [threading.Thread(target=post) for _ in range(8)]
            for each in threads:
                each.start()
            until(lambda: len(answered) > 50)
            self.assertEqual(server.end(it)[0], 0)
            for each in threads:
                each.join()
            with contextlib.closing(sqlite3.connect(self.store)) as connection:
                stored = {row[0].decode().split(",")[2] for row in connection.execute("SELECT record FROM changes")}
            self.assertLessEqual(set(answered), stored)
        self.assertIn("Hull", self.stored("slice", "?,\\A,\\A"))

    def test_a_session_that_ends(self):
        server = self.server()
        children = subprocess.run(["ps", "-o", "pid=", "--ppid", str(server.process.pid)], stdout=subprocess.PIPE, text=True).stdout.split()
        os.kill(int(children[0]), signal.SIGKILL)
        server.change(b"1,D,a\n")
        # (a signal at its very end would be the status)
        server.process.wait(SECONDS)
        status, told = server.end()
        self.assertEqual((status, told.splitlines()[-1]), (1, "jackraisin.serve: the program ended, killed by SIGKILL"))

    def test_a_slow_reader_holds_nobody_up(self):
        server = self.server()
        server.made(records([[30, "I", n, f"city {n}", f"product {n}", "card", 1, 1] for n in range(20000)]))
        idle = []
        for _ in range(20):
            it = socket.create_connection(("127.0.0.1", server.port))
            self.addCleanup(it.close)
            it.sendall(f"GET /cube.csv HTTP/1.1\r\nHost: localhost\r\nAuthorization: Bearer {server.token}\r\n\r\n".encode())
            idle.append(it)
        start = time.monotonic()
        for at in range(50):
            self.assertEqual(server.made(records([[31, "I", at, "York", "tea", "card", 1, 1]]))["taken"], 1)
            self.assertEqual(server.get("/slice?city=York").status, 200)
        self.assertLess(time.monotonic() - start, 10)
        self.assertLess(threads_of(server.process.pid), 20)
        with contextlib.closing(socket.create_connection(("127.0.0.1", server.port))) as listener:
            listener.sendall(f"GET /events HTTP/1.1\r\nHost: localhost\r\nAuthorization: Bearer {server.token}\r\n\r\n".encode())
            listener.recv(1000)
        for it in idle:
            it.close()
        server.made(b"9,D,a\n")
        status, told = server.end()
        self.assertEqual((status, told), (0, f"{REFUSED}jackraisin.serve: ready, with 0 changes in {self.store}\n"))

    def test_a_reader_that_stands_still_is_cut_off(self):
        async def run(server):
            reader, writer = await asyncio.open_connection("127.0.0.1", server, limit=2**10)
            writer.write(b"GET /cube.csv HTTP/1.1\r\nHost: localhost\r\n\r\n")
            await asyncio.sleep(1)
            count = 0
            with contextlib.suppress(ConnectionError):
                while part := await asyncio.wait_for(reader.read(2**20), SECONDS):
                    count += len(part)
            writer.close()
            self.assertLess(count, len(text))

        text = "a,grouping(a),count(*)\n" + "x,0,1\n" * 2**22

        with mock.patch.object(Pretended, "ask", return_value=text), mock.patch.object(_http, "SECONDS_FOR_A_PART", 0.2):
            asyncio.run(self.within(run))

    def test_a_body_that_doesnt_come(self):
        """Within its time it is 408, and the connection is closed."""
        async def run(server):
            reader, writer = await asyncio.open_connection("127.0.0.1", server)
            writer.write(b"POST /changes HTTP/1.1\r\nHost: localhost\r\nContent-Type: text/csv\r\nContent-Length: 100\r\n\r\n1,D,a\n")
            answer = await asyncio.wait_for(reader.read(), SECONDS)
            writer.close()
            return answer

        with mock.patch.object(_reading, "SECONDS_FOR_A_BODY", 0.2):
            answer = asyncio.run(self.within(run))
        self.assertTrue(answer.startswith(b"HTTP/1.1 408 ") and b"\r\nConnection: close\r\n" in answer, answer)

    async def within(self, work):
        """What some work at the port of a server in this process gives, over a pretended session."""
        cube = _session.SessionCube(jackraisin.Schema(["a"], ["n"], ["count(*)"]), Pretended)
        running = asyncio.ensure_future(cube.run(lambda _: None))
        taking = _taking.Taking(cube, str, 2**20, 2**20)
        site = _http.Site(cube, None, _access.Cookie("c", False), _browsers.Browsers(), ("print",), taking=taking)
        server = await asyncio.get_running_loop().create_server(site.connections, "127.0.0.1", 0)
        while cube.state is None:
            await asyncio.sleep(0.001)
        try:
            return await work(server.sockets[0].getsockname()[1])
        finally:
            server.close()
            await site.end(1)
            cube.end()
            await running

    def test_what_isnt_http(self):
        server = self.server()
        for sent in (b"\x16\x03\x01\x00\r\n\r\n", b"GET / HTTP/9\r\n\r\n", b"GET /" + b"x" * 20000 + b" HTTP/1.1\r\n\r\n", b"POST /changes HTTP/1.1\r\nContent-Length: -1\r\n\r\n"):
            with contextlib.closing(socket.create_connection(("127.0.0.1", server.port))) as it:
                it.sendall(sent)
                it.settimeout(SECONDS)
                self.assertRegex(it.recv(12), rb"^HTTP/1\.[01] 400$")
        self.assertEqual(server.get("/slice").headers["Server"], "datacube")
        self.assertEqual(server.end()[1].count("\n"), 2)

    def test_a_session_that_ends_answers_all_who_wait(self):
        """Also those whose body came to its end after it."""
        async def work():
            cube = _session.SessionCube(jackraisin.Schema(["a"], ["n"], ["count(*)"]), Pretended)
            running = asyncio.ensure_future(cube.run(lambda _: None))
            while cube.state is None:
                await asyncio.sleep(0.001)
            with mock.patch.object(Pretended, "codes_at", side_effect=jackraisin.Ended("D7", "", 1)):
                found = await asyncio.gather(cube.make(_making.Body([["1", "D", "a"]])), cube.ask(("print",)), running, return_exceptions=True)
            for it in (cube.make(_making.Body([])), cube.ask(("print",))):
                with self.assertRaises(CantServe):
                    await asyncio.wait_for(it, 5)
            return [type(it).__name__ for it in found]
        self.assertEqual(asyncio.run(work()), ["CantServe", "CantServe", "Ended"])

    def test_idle_connections(self):
        """300 of them, of which a half rests behind a request and a half listens, cost no thread each, and nobody waits for them."""
        server = self.server()
        before, idle = threads_of(server.process.pid), []
        for at in range(300):
            it = socket.create_connection(("127.0.0.1", server.port))
            self.addCleanup(it.close)
            it.settimeout(SECONDS)
            path = "/events" if at % 2 else "/slice"
            it.sendall(f"GET {path} HTTP/1.1\r\nHost: localhost\r\nAuthorization: Bearer {server.token}\r\n\r\n".encode())
            self.assertEqual(it.recv(12), b"HTTP/1.1 200")
            idle.append(it)
        self.assertIn("datacube_serve_connections 301.0", server.get("/metrics").text.splitlines())
        self.assertLess(threads_of(server.process.pid), before + 10)
        server.made(b"9,D,a\n")
        self.assertEqual(server.get("/slice").headers["Datacube-State"], "1")

    def test_too_many_connections(self):
        server = self.server("--max-connections", "3")
        held = [socket.create_connection(("127.0.0.1", server.port)) for _ in range(3)]
        time.sleep(0.2)
        answer = server.get("/healthz")
        self.assertEqual((answer.status, answer.text), (503, "There are too many connections\n"))
        for it in held:
            it.close()
        until(lambda: server.get("/healthz").status == 200)


class Views(Shared):
    """The greatest lines, and the share of each, beside what is made of the cube here."""

    @classmethod
    def given(cls, folder):
        rng = random.Random("views")
        schema = jackraisin.Schema(["city", "kind"], ["price", "odd,name"], ["count(*)", "sum(price)", "avg(price)", "sum(odd,name)"], decimals={"price": 2})
        rows = [["I", n, rng.choice(["York", "Leeds", 'a,"b"', "\\N", "z\nz"]), rng.choice("abcdef"), rng.choice(["\\N", "0", "-1.50", "2", "3.25"]), 0] for n in range(80)]
        with open(f"{folder}/feed.csv", "wb") as feed, open(f"{folder}/schema.toml", "w", encoding="utf-8") as file:
            feed.write(records([["op", "id", "city", "kind", "price", "odd,name"], *rows]))
            file.write(schema.toml())
        cls.cube = jackraisin.cube(schema, feed.name)
        return {"schema": file.name, "feeds": [feed.name]}

    def asked(self, path):
        answer = self.shop.get(path)
        self.assertEqual(answer.status, 200, answer.text)
        return list(csv.reader(io.StringIO(answer.text, newline="")))

    def cell(self, row):
        return tuple(ALL if mark == "1" else None if text == "\\N" else text for text, mark in zip(row[:2], row[2:4]))

    def test_the_greatest(self):
        plain = self.cube.where({"city": ANY, "kind": "a"})
        for by in ("count(*)", "sum(price)", "avg(price)"):
            rows = [it for it in plain if it["city"] is not ALL]
            wanted = sorted(rows, key=lambda it: (it[by] is None, -(it[by] or 0)))
            for top in (0, 1, 3, 100):
                found = self.asked(f"/slice?city=*&kind=a&_top={top}&_by={by}")
                self.assertEqual([self.cell(it) for it in found[1:]], [it.key for it in wanted[:top]])
        lines = self.shop.get("/slice?city=*").text
        self.assertIn(self.shop.get("/slice?city=*&_top=1&_by=count(*)").text.partition("\n")[2], lines)

    def test_shares(self):
        asked = {
            "/slice?city=*": ({"city": ANY}, {}), "/slice?city=*&kind=a": ({"city": ANY, "kind": "a"}, {"kind": "a"}), "/cube": ({"city": ANY, "kind": ANY}, {}),
            "/slice?city=*&kind=*": ({"city": ANY, "kind": ANY}, {}), "/slice?city=%5CN&kind=*": ({"city": None, "kind": ANY}, {"city": None}),
            "/slice?city=York&kind=a": ({"city": "York", "kind": "a"}, {"city": "York", "kind": "a"}),
        }
        for path, (pattern, whole) in asked.items():
            for name in ("count(*)", "sum(price)", "sum(odd,name)"):
                all_of = self.cube.at(whole)[name]
                wanted = {it.key: None if it[name] is None or not all_of else Fraction(it[name]) / Fraction(all_of) for it in self.cube.where(pattern)}
                head, *rows = self.asked(f"{path}{'&' if '?' in path else '?'}_percent={name}")
                self.assertEqual(head[-1], f"percent({name})")
                self.assertEqual({self.cell(it): None if it[-1] == "\\N" else Fraction(it[-1]) for it in rows}, wanted)
                self.assertTrue(all(it[-1] in ("\\N", f"{Fraction(it[-1]).numerator}/{Fraction(it[-1]).denominator}") for it in rows if it[-1] != "\\N"))

    def test_the_shares_of_a_drill_down_are_of_its_cell(self):
        whole = self.cube.at({"city": "York"})["count(*)"]
        for query, count in (("", 100), ("&_top=2&_by=count(*)", 2)):
            rows = self.asked(f"/drill?_along=kind&city=York&_percent=count(*){query}")[1:]
            self.assertTrue(rows and len(rows) <= count and all(Fraction(it[-1]) == Fraction(int(it[4]), whole) for it in rows))
        self.assertEqual(self.shop.get("/drill?_along=city&city=York&_percent=count(*)").text[:4], "P4: ")

    def test_the_other_forms(self):
        path = "slice%s?city=*&_percent=count(*)&_top=1&_by=count(*)"
        row = self.asked("/" + path % "")[1]
        share = Fraction(row[-1])
        found = json.loads(self.shop.get("/" + path % ".json").text)
        self.assertEqual([it["answers"]["percent(count(*))"] for it in found], [row[-1]])
        lines = self.shop.get("/" + path % ".txt").text.splitlines()
        shown = int(share * 10000 + Fraction(1, 2))
        self.assertEqual((lines[0].split()[-1], lines[1].split()[-1]), ("percent(count(*))", f"{shown // 100}.{shown % 100:02}"))

    def test_a_whole_that_isnt_kept(self):
        schema = jackraisin.Schema(["city"], ["n"], ["count(*)"], grouping=[["city"]])
        server = self.server(schema=self.written("schema.toml", schema.toml()), feeds=[])
        server.made(b"1,I,a,York,1\n")
        self.assertEqual(server.get("/slice?city=*&_percent=count(*)").text, "city,grouping(city),count(*),percent(count(*))\nYork,0,1,\\N\n")

    def test_what_is_refused(self):
        told = {
            "/slice?_top=1": "_top goes with _by", "/slice?_by=count(*)": "_top goes with _by", "/slice?_top=x&_by=count(*)": "_top is a whole number",
            "/slice?_top=1&_by=max(price)": "_by: no aggregate is named max(price)", "/slice?_percent=avg(price)": "_percent: only counts and sums",
            "/slice?_percent=x": "_percent: no aggregate", "/rollup?_along=city&_percent=count(*)": "/rollup has no word _percent",
        }
        for path, why in told.items():
            answer = self.shop.get(path)
            self.assertEqual((path, answer.status, answer.text[: len(why)]), (path, 400, why))


class Versions(Shared):
    """Tags, conditional requests and gzip."""

    def test_what_a_client_has_isnt_sent_again(self):
        plain = self.shop.get("/cube.csv")
        packed = self.shop.get("/cube.csv", headers={"Accept-Encoding": "br, gzip;q=0.5"}, is_text=False)
        self.assertEqual(gzip.decompress(packed.body).decode(), plain.text)
        self.assertEqual((packed.headers["Content-Encoding"], plain.headers["Content-Encoding"]), ("gzip", None))
        self.assertNotEqual(packed.headers["ETag"], plain.headers["ETag"])
        self.assertEqual(plain.headers["Vary"], "Accept, Accept-Encoding")
        for tag in (plain.headers["ETag"], packed.headers["ETag"], f'"x", W/{plain.headers["ETag"]}', "*"):
            answer = self.shop.get("/cube.csv", headers={"If-None-Match": tag})
            self.assertEqual((tag, answer.status, answer.text), (tag, 304, ""))
        for tag in ('"x"', self.shop.get("/cube.json").headers["ETag"], ""):
            self.assertEqual((tag, self.shop.get("/cube.csv", headers={"If-None-Match": tag}).status), (tag, 200))
        for coding in ("gzip;q=0", "identity", ""):
            self.assertIsNone(self.shop.get("/cube.csv", headers={"Accept-Encoding": coding}).headers["Content-Encoding"])
        self.assertIsNone(self.shop.get("/slice.csv", headers={"Accept-Encoding": "gzip"}).headers["Content-Encoding"])

    def test_a_change_and_a_start_make_other_tags(self):
        server = self.server()
        tag = server.get("/slice").headers["ETag"]
        server.made(b"9,D,a\n")
        answer = server.get("/slice", headers={"If-None-Match": tag})
        self.assertEqual(answer.status, 200)
        tag = answer.headers["ETag"]
        server.end()
        server = self.server()
        self.assertEqual((server.get("/slice", headers={"If-None-Match": tag}).status, server.get("/slice").headers["Datacube-State"]), (200, "1"))


class Events(Case):
    def test_a_line_for_each_state(self):
        server = self.server()
        with contextlib.closing(server.connection()) as connection:
            connection.request("GET", "/events", headers={"Authorization": f"Bearer {server.token}"})
            answer = connection.getresponse()
            self.assertEqual((answer.status, answer.headers["Content-Type"]), (200, "text/event-stream"))
            for state in range(4):
                self.assertEqual([answer.readline() for _ in range(3)], [b"id: %d\n" % state, b'data: {"state": %d}\n' % state, b"\n"])
                self.assertEqual(server.get("/slice").headers["Datacube-State"], str(state))
                server.made(b"9,D,a\n")
            self.assertEqual([answer.readline() for _ in range(3)][1], b'data: {"state": 4}\n')
            self.assertEqual(server.end()[0], 0)
            self.assertEqual(answer.read(), b"")

    def test_who_doesnt_read_holds_nobody_up(self):
        async def run():
            told, cube = [], types.SimpleNamespace(state=1)
            ended, moves = asyncio.get_running_loop().create_future(), asyncio.Queue()
            cube.moved, cube.news = moves.get, lambda: {"state": cube.state}

            async def write(part):
                told.append(part)
                cube.state += 5
                await asyncio.sleep(0.01)
                if len(told) == 3:
                    ended.set_result(None)
            await asyncio.wait_for(_events.tell_states(cube, write, ended), 5)
            return told
        self.assertEqual([it.split(b"\n")[0] for it in asyncio.run(run())], [b"id: 1", b"id: 6", b"id: 11"])


class Metrics(Case):
    def test_a_slice_and_the_server(self):
        server = self.server("--metrics", "city=*&product=tea", "--max-series", "2")
        server.made(b"9,I,a,York,tea,card,1,100\n9,I,a,York,tea,card,1,100\n")
        server.get("/nothing")
        answer = server.get("/metrics")
        self.assertTrue(answer.headers["Content-Type"].startswith("text/plain; version="), answer.headers["Content-Type"])
        lines = answer.text.splitlines()
        of_york = '{city="York",grouping_city="0",grouping_payment="1",grouping_product="0",payment="\\\\N",product="tea"}'
        for it in (f"datacube_sum_cents{of_york} 450.0", f"datacube_count{of_york} 2.0", "datacube_serve_state 2.0", "datacube_serve_series_left_out 2.0",
                   'datacube_serve_changes_total{outcome="taken"} 1.0', 'datacube_serve_changes_total{outcome="refused"} 1.0',
                   'datacube_serve_requests_total{path="/changes",status="200"} 1.0', 'datacube_serve_requests_total{path="other",status="404"} 1.0'):
            self.assertIn(it, lines)
        self.assertEqual(len([it for it in lines if it.startswith("datacube_avg_cents{")]), 2)
        self.assertIn("openmetrics", server.get("/metrics", headers={"Accept": "application/openmetrics-text"}).headers["Content-Type"])
        self.assertEqual(server.get("/metrics", token=False).status, 401)

    def test_names(self):
        """Of columns whose names are none of Prometheus, or the same there; an answer that is null has no sample."""
        text = "a b,a_b,1,grouping(a b),grouping(a_b),grouping(1),count(*),avg(x),avg(x),sum(a.b)\n\\\\N,\\N,é,0,0,0,2,1/3,1/3,\\N\n"
        families, left_out = _metrics.families_of(text + "x,y,z,0,0,0,1,1/1,1/1,1\n" * 3, True, "t", 1)
        found = {it.name: it.samples for it in families}
        self.assertEqual(left_out, 3)
        labels = {"a_b": "\\N", "a_b_2": "\\N", "d_1": "é", "grouping_a_b": "0", "grouping_a_b_2": "0", "grouping_1": "0", "is_text_a_b": "1"}
        self.assertEqual([(it.labels, it.value) for it in found["datacube_avg_x_2"]], [(labels, 1 / 3)])
        self.assertEqual((sorted(found), found["datacube_sum_a_b"]), (["datacube_avg_x", "datacube_avg_x_2", "datacube_count", "datacube_sum_a_b"], []))

    def test_values_are_no_metric(self):
        families, _ = _metrics.families_of("a,grouping(a),values(x),max(x),values(y)\nq,0,1*2,1,\n", False, "t", 9)
        self.assertEqual([(it.name, [sample.value for sample in it.samples]) for it in families], [("datacube_max_x", [1.0])])

    def test_the_grand_total_by_default(self):
        lines = self.server().get("/metrics").text.splitlines()
        self.assertEqual([it.rpartition(" ")[2] for it in lines if it.startswith("datacube_count{")], ["7.0"])


class Browsers(Shared):
    """What a page of elsewhere may do."""

    words = ("--allow-origin", "https://board.example.org", "--host", "cube.example.org")

    def test_a_page_of_elsewhere_is_refused(self):
        own = f"127.0.0.1:{self.shop.port}"
        refused = [{"Sec-Fetch-Site": "cross-site"}, {"Sec-Fetch-Site": "same-site"}, {"Origin": "http://evil.example"}, {"Origin": "null"},
                   {"Origin": "http://127.0.0.1:1"}, {"Origin": f"http://{own}", "Sec-Fetch-Site": "cross-site"}, {"Origin": "https://board.example.org.evil"}]
        for headers in refused:
            for path in ("/slice", "/", "/healthz"):
                answer = self.shop.get(path, headers=headers)
                self.assertEqual((headers, answer.status, answer.headers["Access-Control-Allow-Origin"]), (headers, 403, None))
            self.assertEqual((headers, self.shop.change(b"9,D,a\n", {**CSV, **headers}).status), (headers, 403))
        for headers in ({"Sec-Fetch-Site": "none"}, {"Sec-Fetch-Site": "same-origin", "Origin": f"http://{own}"}, {}):
            self.assertEqual((headers, self.shop.get("/slice", headers=headers).status), (headers, 200))

    def test_other_names_are_refused(self):
        for host, status in (("127.0.0.1", 200), (f"localhost:{self.shop.port}", 200), ("[::1]:80", 200), ("CUBE.example.org", 200),
                             ("evil.example", 421), ("127.0.0.1.evil.example", 421), ("", 421)):
            self.assertEqual((host, self.shop.get("/slice", headers={"Host": host}).status), (host, status))

    def test_a_page_that_is_named_may_ask(self):
        page = {"Origin": "https://board.example.org", "Sec-Fetch-Site": "cross-site"}
        asks = {**page, "Access-Control-Request-Method": "POST", "Access-Control-Request-Headers": "authorization,content-type"}
        answer = self.shop.ask("OPTIONS", "/changes", headers=asks, token=False)
        self.assertEqual((answer.status, answer.headers["Access-Control-Allow-Origin"]), (204, page["Origin"]))
        self.assertIn("Authorization", answer.headers["Access-Control-Allow-Headers"])
        self.assertEqual(self.shop.ask("OPTIONS", "/changes", headers={**asks, "Origin": "https://other.example"}, token=False).status, 403)
        answer = self.shop.get("/slice", headers=page)
        self.assertEqual((answer.status, answer.headers["Access-Control-Allow-Origin"], answer.headers["Vary"]), (200, page["Origin"], "Accept, Accept-Encoding, Origin"))
        self.assertEqual(self.shop.get("/slice", headers=page, token=False).status, 401)
        self.assertIsNone(self.shop.get("/slice").headers["Access-Control-Allow-Origin"])

    def test_each_reply_has_a_policy(self):
        for path in ("/slice", "/nothing", "/healthz", "/metrics", "/cube.json"):
            headers = self.shop.get(path).headers
            self.assertEqual((headers["Referrer-Policy"], headers["X-Content-Type-Options"], headers["X-Frame-Options"]), ("no-referrer", "nosniff", "DENY"))
            self.assertIn("frame-ancestors 'none'", headers["Content-Security-Policy"])
            self.assertNotIn("unsafe", headers["Content-Security-Policy"])


class Explorer(Case):
    """The page at `/`."""

    def test_the_page_has_a_policy_by_hashes(self):
        server = self.server()
        answer = server.get("/", token=False)
        self.assertEqual(answer.status, 401)
        answer = server.get(f"/?_token={server.token}", token=False)
        self.assertEqual((answer.status, answer.headers["Location"], answer.text), (303, "/", ""))
        said = answer.headers["Set-Cookie"].split("; ")
        self.assertEqual(said, [f"jackraisin-{server.port}={server.token}", "Path=/", "HttpOnly", "SameSite=Strict"])
        page = server.get("/", headers={"Cookie": f"other=1; {said[0]}"}, token=False)
        self.assertEqual((page.status, page.headers["Content-Type"]), (200, "text/html; charset=utf-8"))
        self.assertIn('<meta name="datacube-served" data-name="cube.csv" data-escaped="0">', page.text)
        policy = page.headers["Content-Security-Policy"]
        self.assertEqual((policy.count("'sha256-"), "unsafe" in policy, "unsafe-inline" in page.text, "frame-ancestors 'none'" in policy), (4, False, False, True))
        again = server.get("/", headers={"If-None-Match": page.headers["ETag"]})
        self.assertEqual((again.status, again.headers["Content-Security-Policy"]), (304, policy))
        self.assertEqual(server.get("/", headers={"Cookie": f"jackraisin-1={server.token}"}, token=False).status, 401)
        self.assertEqual(server.change(b"9,D,a\n", {**CSV, "Cookie": said[0], "Origin": "http://evil.example"}, token=False).status, 403)
        self.assertNotIn("token", server.end()[1])

    @beside.in_a_browser
    def test_in_a_browser(self):
        """The cube is seen, its numbers go on when it changes, and nothing is against the policy."""
        server = self.server()
        with beside.browser(self) as driver:
            driver.get(server.address)
            rows = lambda: driver.execute_script(beside.ROWS)
            until(lambda: ["York", "2"] in [it[:2] for it in rows()])
            self.assertNotIn("token", driver.current_url)
            driver.refresh()
            until(lambda: ["York", "2"] in [it[:2] for it in rows()])
            server.made(b"9,I,a,York,tea,card,1,100\n9,I,b,Hull,tea,card,1,100\n")
            until(lambda: {("York", "3"), ("Hull", "1")} <= {tuple(it[:2]) for it in rows()})
            self.assertIn("lines, as they are at", driver.find_element("id", "about").text)
            driver.find_element("id", "as-bars").click()
            until(lambda: driver.find_elements("css selector", "#chart .mark[aria-label^='York: ']"))
            driver.find_element("id", "as-table").click()
            self.see_many_tabs(server, driver, rows)
            self.assertEqual([it for it in driver.get_log("browser") if it["level"] == "SEVERE"], [])
            self.assertEqual(server.end()[0], 0)
            until(lambda: "doesn't answer" in driver.find_element("id", "problem").text)


    def see_many_tabs(self, server, driver, rows):
        """More than a browser has connections to a server; one that is seen again goes on."""
        first = driver.current_window_handle
        for _ in range(7):
            driver.switch_to.new_window("tab")
            driver.get(f"http://127.0.0.1:{server.port}/")
            until(lambda: ("York", "3") in [tuple(it[:2]) for it in rows()])
        server.made(b"9,I,c,York,tea,card,1,100\n")
        driver.switch_to.window(first)
        until(lambda: ("York", "4") in [tuple(it[:2]) for it in rows()])

    @beside.in_a_browser
    def test_a_page_of_elsewhere(self):
        """It can't show the page in a frame, nor read an answer, nor make a change, also where the browser has the cookie."""
        server = self.server()
        page = self.written("elsewhere.html", ELSEWHERE.replace("ADDRESS", f"http://127.0.0.1:{server.port}").replace("TOKEN", server.token))
        with beside.browser(self) as driver:
            driver.get(server.address)
            until(lambda: driver.execute_script(beside.ROWS))
            driver.get(f"file://{page}")
            until(lambda: driver.title != "elsewhere")
            self.assertEqual(driver.title, "rejected,rejected,rejected,rejected")
            told = [it["message"] for it in driver.get_log("browser")]
            self.assertTrue([it for it in told if "frame-ancestors" in it or "X-Frame-Options" in it or "403" in it], told)
            driver.switch_to.frame(0)
            self.assertEqual(driver.find_elements("id", "table"), [])
        self.assertEqual(server.get("/slice").headers["Datacube-State"], "0")


class Systemd(Case):
    def test_it_is_told(self):
        path = f"{self.folder}/notify"
        with socket.socket(socket.AF_UNIX, socket.SOCK_DGRAM) as end:
            end.bind(path)
            end.settimeout(SECONDS)
            server = self.server(NOTIFY_SOCKET=path)
            self.assertEqual(end.recv(100), b"READY=1")
            server.end()
            self.assertEqual(end.recv(100), b"STOPPING=1")

    def test_the_unit_has_words_that_are_taken(self):
        unit = configparser.ConfigParser(strict=False, interpolation=None)
        unit.optionxform = str
        unit.read(f"{beside.ROOT}/examples/serve/datacube-serve.service", encoding="utf-8")
        service = unit["Service"]
        words = service["ExecStart"].replace("${CREDENTIALS_DIRECTORY}/tokens", self.written("tokens", "read reader-1\n")).split()
        self.assertEqual(words[1:3], ["-m", "jackraisin.serve"])
        self.assertEqual(_words.given_by(words[3:]).store, "/var/lib/datacube/sales.db")
        self.assertEqual([service[it] for it in ("Type", "KillMode", "DynamicUser", "ProtectSystem")], ["notify", "mixed", "yes", "strict"])


    @unittest.skipUnless(shutil.which("systemd-analyze"), "systemd-analyze isn't installed")
    def test_the_unit_is_one(self):
        """As systemd itself reads it, and it isn't exposed much."""
        path = f"{beside.ROOT}/examples/serve/datacube-serve.service"
        with open(path, encoding="utf-8") as file:
            spoiled = self.written("spoiled.service", file.read().replace("DynamicUser=", "DynamicUsers="))
        for unit, is_right in ((path, True), (spoiled, False)):
            ran = subprocess.run(["systemd-analyze", "verify", "--man=no", unit], stdout=subprocess.PIPE, stderr=subprocess.STDOUT, text=True)
            self.assertEqual((unit, ran.returncode == 0 and not ran.stdout), (unit, is_right), ran.stdout)


def blocks_of(part, port):
    """The blocks of a part of docs/SERVE.md, each with its kind, in which the server has some port."""
    with open(f"{beside.ROOT}/docs/SERVE.md", encoding="utf-8") as file:
        text = file.read().partition(f"\n## {part}\n")[2].partition("\n## ")[0]
    return [(kind, block.replace("8000", str(port))) for kind, block in re.findall(r"^```(\w*)\n(.*?)^```$", text, re.MULTILINE | re.DOTALL)]


def free_port():
    with socket.socket() as it:
        it.bind(("127.0.0.1", 0))
        return it.getsockname()[1]


class Page(Case):
    """What docs/SERVE.md shows, word for word."""

    def reader(self, *words):
        """A server over the shop's feeds, with the tokens of the page."""
        return self.server("--token-file", self.written("tokens", "read of-the-dashboard\nchange of-the-till\n"), *words, is_awaited=False)

    def test_grafana(self):
        """The requests that its sources make."""
        server = self.reader()
        server.wait()
        blocks = blocks_of("Grafana", server.port)
        ran = subprocess.run(["bash", "-e"], input="".join(text for kind, text in blocks if kind), stdout=subprocess.PIPE, text=True, timeout=SECONDS)
        self.assertEqual((ran.returncode, ran.stdout), (0, "".join(text for kind, text in blocks if not kind)))

    @unittest.skipUnless(shutil.which("prometheus"), "Debian's package prometheus isn't installed")
    def test_prometheus(self):
        """It scrapes a server, by the page's configuration and token, and is asked for what it found."""
        server, port = self.reader("--metrics", "city=*"), free_port()
        (_, token), (_, configured) = blocks_of("Prometheus", server.port)
        subprocess.run(["sh", "-e"], input=token, text=True, cwd=self.folder, check=True)
        path = self.written("prometheus.yml", f"global: {{ scrape_interval: 500ms, scrape_timeout: 500ms }}\n{configured}")
        words = [f"--config.file={path}", f"--storage.tsdb.path={self.folder}/data", f"--web.listen-address=127.0.0.1:{port}", "--log.level=error"]
        process = subprocess.Popen(["prometheus", *words], cwd=self.folder, stdout=subprocess.DEVNULL, stderr=subprocess.DEVNULL)
        try:
            until(lambda: self.asked(port, 'datacube_sum_cents{city="York"}') == ["800"])
            self.assertEqual(self.asked(port, 'sum(datacube_sum_cents{grouping_city="0"}) - on() datacube_sum_cents{grouping_city="1"}'), ["0"])
            server.ask("POST", "/changes", b"9,I,a,York,tea,card,1,100\n", {**CSV, "Authorization": "Bearer of-the-till"})
            until(lambda: self.asked(port, 'datacube_sum_cents{city="York"}') == ["900"])
            self.assertEqual(self.asked(port, 'up{job="cube"}'), ["1"])
        finally:
            process.terminate()
            process.wait()

    def asked(self, port, query):
        """The values that an instant query of Prometheus has."""
        with contextlib.closing(http.client.HTTPConnection("127.0.0.1", port, timeout=SECONDS)) as connection:
            try:
                connection.request("GET", f"/api/v1/query?{urllib.parse.urlencode({'query': query})}")
                found = json.loads(connection.getresponse().read())
            except (OSError, ValueError):
                return []
        return [it["value"][1] for it in found["data"]["result"]]

    def test_five_minutes(self):
        """But the installation."""
        blocks = blocks_of("Five minutes from nothing", free_port())
        self.assertIn("pip install", blocks[0][1])
        script = "set -e\n"
        for kind, text in blocks[1:]:
            if kind and "jackraisin.serve" in text:
                script += f"touch said; {text.rstrip()} > said 2>&1 &\nuntil grep -q ready said; do sleep 0.1; done; cat said\n"
            elif kind:
                script += ("kill %1; wait; " if "--store" in text else "") + text
        for it in ("examples", "release"):
            os.symlink(f"{beside.ROOT}/{it}", f"{self.folder}/{it}")
        script = script.replace("v/bin/python", sys.executable).replace("cd examples/shop\n", "cd -P examples/shop\n").replace("../../", f"{self.folder}/")
        ran = subprocess.run(["bash"], input=script, cwd=self.folder, env=beside.environment(), stdout=subprocess.PIPE, stderr=subprocess.STDOUT, text=True, timeout=SECONDS)
        self.assertEqual(ran.stdout, "".join(text for kind, text in blocks if not kind))


class Pretended:
    """A session that counts what it is asked; each answer takes a while."""

    def __init__(self):
        self.number, self.commits, self.questions = 0, 0, []

    def place(self, records, begin=0):
        self.number += len(records)
        return _places.Place(begin, len(records), self.number, {1: 0})

    def make(self, records):
        self.sent = len(records)

    def codes_at(self, places):
        time.sleep(0.02)
        self.commits += 1
        return {}

    def ask(self, *question):
        time.sleep(0.02)
        self.questions.append(question)
        if question == ("bad",):
            raise Failure("P4")
        return f"text of {question[0]} {self.number}"

    def close(self):
        return 0

    def stop(self):
        pass


class Together(unittest.TestCase):
    """What many ask and change at once."""

    def served(self, work):
        """What some work over a pretended session gives."""
        session = Pretended()

        async def run():
            cube = _session.SessionCube(jackraisin.Schema(["a"], ["n"], ["count(*)"]), lambda: session)
            running = asyncio.ensure_future(cube.run(lambda _: None))
            while cube.state is None:
                await asyncio.sleep(0.001)
            try:
                return await work(cube)
            finally:
                cube.end()
                await running
        return asyncio.run(run()), session

    def test_requests_that_come_together_share_a_commit(self):
        async def work(cube):
            return await asyncio.gather(*(cube.make(_making.Body([["1", "D", str(it)]] * 3)) for it in range(200)))
        made, session = self.served(work)
        self.assertEqual(([it.taken for it in made], session.number), ([3] * 200, 600))
        self.assertLessEqual(session.commits, 2)

    def test_an_answer_is_made_once_in_a_state(self):
        async def work(cube):
            first = await asyncio.gather(*(cube.ask(("print",)) for _ in range(100)))
            again = await cube.ask(("print",))
            await cube.make(_making.Body([["1", "D", "a"]]))
            return first, again, await cube.ask(("print",))
        (first, again, later), session = self.served(work)
        self.assertEqual(({it.state for it in first}, again.state, later.state), ({0}, 0, 1))
        self.assertEqual(session.questions, [("print",), ("print",)])

    def test_a_form_is_made_once(self):
        async def work(cube):
            answer = await cube.ask(("print",))
            with mock.patch.object(_served, "text_in_form", side_effect=lambda text, *_: text) as made:
                await asyncio.gather(*(answer.form(_served.Form.JSON) for _ in range(50)))
                return made.call_count
        self.assertEqual(self.served(work)[0], 1)

    def test_a_question_that_is_refused(self):
        async def work(cube):
            found = await asyncio.gather(*(cube.ask(("bad",)) for _ in range(5)), cube.ask(("print",)), return_exceptions=True)
            return [getattr(it, "line", it) for it in found[:5]], found[5].state
        self.assertEqual(self.served(work)[0], (["P4"] * 5, 0))

    def test_a_view_is_made_once_in_a_state(self):
        text = "a,grouping(a),count(*)\nx,0,1\ny,0,3\n\\N,1,4\n"

        async def work(cube):
            view = _query.View(1, "count(*)", None)
            with mock.patch.object(Pretended, "ask", return_value=text), mock.patch.object(_served, "text_in_view", wraps=_served.text_in_view) as made:
                found = await asyncio.gather(*(cube.ask_in_view(("slice", "?"), view) for _ in range(20)))
                again = await cube.ask_in_view(("slice", "?"), view)
                return {it.text for it in [*found, again]}, made.call_count
        self.assertEqual(self.served(work)[0], ({"a,grouping(a),count(*)\ny,0,3\n"}, 1))

    def test_long_answers_leave_time_for_changes(self):
        """Of one print each takes 20 ms; while changes come, the next begins 60 ms later at the earliest, and cells go through."""
        async def work(cube):
            ended, counts = time.monotonic() + 1.5, collections.Counter()

            async def again(name, work):
                while time.monotonic() < ended:
                    await work()
                    counts[name] += 1
                    await asyncio.sleep(0.001)
            with mock.patch.object(_pace, "LONG_ANSWER", 5):
                await asyncio.gather(
                    *(again("whole", lambda: cube.ask(("print",))) for _ in range(6)), again("cells", lambda: cube.ask(("slice", "=x"))),
                    again("changes", lambda: cube.make(_making.Body([["1", "D", "a"]]))),
                )
            return counts
        with mock.patch.object(_pace.Pace, "is_long", lambda self, question: question[0] == "print"):
            counts, session = self.served(work)
        prints = sum(it == ("print",) for it in session.questions)
        self.assertLessEqual(prints, 1.5 / 0.08 + 2)
        self.assertGreaterEqual(counts["whole"], 5 * (prints - 1))
        self.assertGreater(min(counts["cells"], counts["changes"]), prints, counts)

    def test_changes_come_between_many_questions(self):
        async def work(cube):
            asked = [asyncio.ensure_future(cube.ask((f"question {at}",))) for at in range(40)]
            await asyncio.sleep(0.01)
            await cube.make(_making.Body([["1", "D", "a"]]))
            before = sum(it.done() for it in asked)
            return before, [it.state for it in await asyncio.gather(*asked)]
        (before, states), session = self.served(work)
        self.assertLess(before, 40)
        self.assertEqual((states, len(session.questions)), (sorted(states), 40))
        self.assertEqual(set(states), {0, 1})

    def test_who_asks_during_an_answer_is_told_of_the_state_behind_it(self):
        async def work(cube):
            first = asyncio.ensure_future(cube.ask(("print",)))
            await asyncio.sleep(0.01)
            await cube.make(_making.Body([["1", "D", "a"]]))
            later = await cube.ask(("print",))
            return (await first).state, later.state
        self.assertEqual(self.served(work)[0], (0, 1))

    def test_what_is_kept_of_a_state_is_bounded(self):
        async def work(cube):
            for at in range(50):
                await cube.ask((f"question {at}",))
            return len(cube._answers), list(cube._answers)[-1]
        with mock.patch.object(_served, "MOST_BYTES", 100):
            (count, last), _ = self.served(work)
        self.assertLess(count, 7)
        self.assertEqual(last, ("question 49",))


class Paces(unittest.TestCase):
    """Which questions may be asked now."""

    def test_one_long_one_at_a_time(self):
        pace, questions = _pace.Pace(), [("print",), ("slice", "=x"), ("slice", "?")]
        self.assertEqual([pace.is_long(it) for it in questions], [True, False, True])
        self.assertEqual(pace.due(questions, 1), ([("print",), ("slice", "=x")], 0.0))
        pace.note(("slice", "?"), 100, 5, 1)
        self.assertEqual(pace.due(questions, 1), (questions, None))
        pace.note(("print",), _pace.LONG_ANSWER + 1, 5, 1)
        self.assertEqual(pace.due(questions, 1), (questions, None))
        due, seconds = pace.due(questions, 2)
        self.assertEqual(due, [("slice", "=x"), ("slice", "?")])
        self.assertTrue(14 < seconds <= 15, seconds)


class Forms(unittest.TestCase):
    def test_texts_that_are_escaped(self):
        """In JSON and for people they are as they are, and null is told apart."""
        schema, text = jackraisin.Schema(["a"], ["n"], ["count(*)"]), "a,grouping(a),count(*)\n\\\\N,0,1\n\\N,0,2\n\\N,1,3\n"
        found = json.loads(_forms.text_in_form(text, _forms.Form.JSON, schema, True))
        self.assertEqual([it["dimensions"]["a"] for it in found], ["\\N", None, None])
        self.assertEqual([it.split()[0] for it in _forms.text_in_form(text, _forms.Form.ALIGNED, schema, True).splitlines()], ["a", "\\N", "(null)", "(all)"])
        self.assertEqual(_forms.text_in_form(text, _forms.Form.CSV, schema, True), text)
        words = _query.words_of("a==%5CN")
        self.assertEqual([_query.question_of("slice", words, schema, it) for it in (True, False)], [("slice", "=\\\\N"), ("slice", "=\\N")])


class Heads(unittest.TestCase):
    def test_a_connection_whose_request_doesnt_come_is_cut(self):
        """Also one that sends a byte now and then."""
        async def run():
            connections = _connections.Connections(asyncio.Protocol, 5)
            server = await asyncio.get_running_loop().create_server(connections, "127.0.0.1", 0)
            port = server.sockets[0].getsockname()[1]
            reader, writer = await asyncio.open_connection("127.0.0.1", port)
            start = time.monotonic()
            with contextlib.suppress(ConnectionError):
                while not reader.at_eof() and time.monotonic() < start + 5:
                    writer.write(b"G")
                    with contextlib.suppress(asyncio.TimeoutError):
                        await asyncio.wait_for(reader.read(1), 0.05)
            writer.close()
            server.close()
            return time.monotonic() - start, len(connections)
        with mock.patch.object(_connections, "SECONDS_FOR_A_HEAD", 0.3):
            seconds, left = asyncio.run(run())
        self.assertTrue(0.2 < seconds < 3, seconds)
        self.assertEqual(left, 0)


if __name__ == "__main__":
    unittest.main()
