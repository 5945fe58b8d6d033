"""What a stranger may try on a cube that is served: the same rows on a session's server and on a follower's, as bytes on the wire."""
import contextlib
import importlib.util
import os
import re
import resource
import signal
import socket
import subprocess
import sys
import tempfile
import time
import unittest

import beside
import jackraisin
import private_server
from private_server import until

LACKS = [it for it in ("aiohttp", "prometheus_client") if not importlib.util.find_spec(it)]
WHY = f"{' and '.join(LACKS)} (Debian: python3-aiohttp, python3-prometheus-client) isn't installed for this Python" if LACKS else None
NO_DATABASE = private_server.missing()
SECONDS = 60
SALES = jackraisin.Schema(["city", "product"], ["cents"], ["count(*)", "sum(cents)"])
MOST_CONNECTIONS, MOST_BODY = 40, 2**16
# (a page of elsewhere that is named, and so may ask)
BOARD = "https://board.example.org"
PATHS = ["/", "/cube.csv", "/cube.json", "/cube.txt", "/slice?city=*", "/drill?_along=city", "/rollup?_along=city", "/metrics", "/events"]
OPEN_PATHS = ["/healthz", "/readyz"]

# Each row: what it is, the head of a request, in which {host} and {token} stand for the server's own, and the statuses that it may get. A
# blank line ends a head that hasn't one, and `Host` and `Authorization` stand in it unless it has them, or says `-Host` or `-Authorization`.
CROSS_SITE = [
    (f"cross-site reads: {name}", f"GET {path} HTTP/1.1\r\n{header}", [403])
    for path in [*PATHS, *OPEN_PATHS]
    for name, header in (
        ("another site", "Sec-Fetch-Site: cross-site"),
        ("another port or name of the site", "Sec-Fetch-Site: same-site"),
        ("an origin", "Origin: http://evil.example"),
        ("no origin", "Origin: null"),
        ("an origin that begins like one that is named", f"Origin: {BOARD}.evil"),
        ("another port", "Origin: http://127.0.0.1:1"),
        ("its own origin for another site", "Origin: http://{host}\r\nSec-Fetch-Site: cross-site"),
        ("an origin without a scheme", "Origin: {host}"),
    )
]
CROSS_SITE_CHANGES = [
    ("cross-site changes", "POST /changes HTTP/1.1\r\nContent-Type: text/csv\r\nContent-Length: 0\r\nOrigin: http://evil.example", [403]),
    ("a form of another site", "POST /changes HTTP/1.1\r\nContent-Type: text/plain\r\nContent-Length: 0\r\nSec-Fetch-Site: cross-site", [403]),
    ("asking before a change", "OPTIONS /changes HTTP/1.1\r\nOrigin: http://evil.example\r\nAccess-Control-Request-Method: POST", [403]),
]
HOSTS = [
    (f"a foreign Host: {host!r}", f"GET {path} HTTP/1.1\r\n{host}", [400, 421])
    for path in ("/cube.csv", "/", "/healthz")
    for host in (
        "Host: evil.example", "Host: evil.example:80", "Host: 127.0.0.1.evil.example", "Host: evil.example#127.0.0.1", "Host:", "-Host", "Host: 0.0.0.0",
        "Host: 127.1", "Host: localhost.", "Host: evil.example\r\nX-Forwarded-Host: localhost", "Host: [::1", "Host: user@localhost",
    )
]
TOKENS = [
    (f"wrong tokens: {header}", f"GET {path} HTTP/1.1\r\n{header}", [401])
    for path in PATHS
    for header in (
        "-Authorization", "Authorization:", "Authorization: of-a-reader", "Authorization: Basic b2YtYS1yZWFkZXI=", "Authorization: Bearer",
        "Authorization: Bearer of-a-reade", "Authorization: Bearer of-a-reader-", "Authorization: Bearer OF-A-READER", "Authorization: Bearer read",
        "Authorization: Bearer of-a-reader of-a-reader", "Authorization: Bearer \xff\xfe", "-Authorization\r\nCookie: jackraisin-1=of-a-reader",
        "-Authorization\r\nCookie: of-a-reader", "-Authorization\r\nX-Token: of-a-reader",
    )
] + [
    ("wrong tokens: in an address", "GET /cube.csv?_token=of-a-reade HTTP/1.1\r\n-Authorization", [401]),
    ("a token twice", "GET /cube.csv?_token=of-a-reader&_token=other HTTP/1.1\r\n-Authorization", [400]),
    ("no path is told to who has no token", "GET /nothing HTTP/1.1\r\n-Authorization", [401]),
    ("a token that may only read", "POST /changes HTTP/1.1\r\nContent-Type: text/csv\r\nContent-Length: 0", [403, 404]),
]
TRAVERSAL = [
    (f"path traversal: {path}", f"GET {path} HTTP/1.1", [400, 404])
    for path in (
        "/../../../../etc/passwd", "/%2e%2e/%2e%2e/etc/passwd", "/..%2f..%2fetc%2fpasswd", "/..%5c..%5cetc%5cpasswd", "/%c0%ae%c0%ae/etc/passwd",
        "//etc/passwd", "/etc/passwd", "file:///etc/passwd", "/cube.csv/../../etc/passwd", "/cube.csv/", "/./cube.csv", "/cube.csv%2f..", "/cube.csv;x",
        "/cube.csv%00", "/%00", "/%", "/CUBE.CSV", "/sales.db", "/sales.db-keys", "/tokens", "/live.js", "/index.html", "/.git/config",
    )
]
INJECTION = [
    ("header injection: in a value", "GET /slice?city=a%0d%0aX-Injected:%20yes HTTP/1.1", [200]),
    ("in a name", "GET /slice?a%0d%0aX-Injected:%20yes=b HTTP/1.1", [400]),
    ("in a path", "GET /%0d%0aX-Injected:%20yes HTTP/1.1", [404]),
    ("in a token that becomes a cookie", "GET /?_token=a%0d%0aX-Injected:%20yes HTTP/1.1", [303, 401]),
    ("of the cookie's words", "GET /?_token=a%3b%20Domain%3devil.example HTTP/1.1", [303, 401]),
    ("in an origin", "GET /cube.csv HTTP/1.1\r\nOrigin: http://evil.example\rX-Injected: yes", [400, 403]),
    ("in a tag", 'GET /cube.csv HTTP/1.1\r\nIf-None-Match: "a\rX-Injected: yes"', [200, 400]),
    ("of a name with a space", "GET /cube.csv HTTP/1.1\r\nX Injected: yes", [200, 400]),
    ("a line that goes on", "GET /cube.csv HTTP/1.1\r\nX-A: b\r\n X-Injected: yes", [200, 400]),
]
FRAMING_OF_REQUESTS = [
    ("two lengths", "POST /changes HTTP/1.1\r\nContent-Length: 1\r\nContent-Length: 2", [400]),
    ("a length below zero", "GET /cube.csv HTTP/1.1\r\nContent-Length: -1", [400]),
    ("a length that is none", "GET /cube.csv HTTP/1.1\r\nContent-Length: a", [400]),
    ("a length and chunks", "POST /changes HTTP/1.1\r\nContent-Length: 1\r\nTransfer-Encoding: chunked", [400]),
    ("another version", "GET /cube.csv HTTP/9.1", [505]),
    ("no version yet", "GET /cube.csv HTTP/0.9", [505]),
    ("another protocol", "PRI * HTTP/2.0", [400, 505]),
    ("TLS", "\x16\x03\x01\x00", [400]),
    ("no request", "\r\nwhat", [400]),
]
METHODS = [
    (f"another method: {method}", f"{method} {path} HTTP/1.1", [405])
    for method in ("PUT", "DELETE", "PATCH", "TRACE", "OPTIONS", "PROPFIND")
    for path in ("/", "/cube.csv", "/metrics", "/healthz")
] + [("a change of a question", "POST /cube.csv HTTP/1.1\r\nContent-Length: 0", [405])]
CHANGER = "Content-Type: text/csv\r\nAuthorization: Bearer of-a-changer"
OVERSIZED = [
    ("a long address", f"GET /slice?city={'x' * 20_000} HTTP/1.1", [400]),
    ("a long header", f"GET /cube.csv HTTP/1.1\r\nX-A: {'x' * 20_000}", [400]),
    ("many words", f"GET /slice?{'&'.join(f'a{it}=b' for it in range(100))} HTTP/1.1", [400]),
    ("a large body that doesn't come, where none is taken", "POST /cube.csv HTTP/1.1\r\nContent-Length: 99999999999", [405]),
    ("a large body that doesn't come, of changes", f"POST /changes HTTP/1.1\r\nContent-Length: 99999999999\r\n{CHANGER}", [413, 404]),
    ("a larger one than is taken", f"POST /changes HTTP/1.1\r\nContent-Length: {MOST_BODY + 1}\r\n{CHANGER}", [413, 404]),
]
ROWS = [*CROSS_SITE, *CROSS_SITE_CHANGES, *HOSTS, *TOKENS, *TRAVERSAL, *INJECTION, *FRAMING_OF_REQUESTS, *METHODS, *OVERSIZED]

FOLDER = None


def setUpModule():
    global FOLDER
    if WHY:
        raise unittest.SkipTest(f"strangers: {WHY}")
    FOLDER = tempfile.TemporaryDirectory(prefix="datacube-test-")
    with open(f"{FOLDER.name}/tokens", "w", encoding="utf-8") as out:
        out.write("read of-a-reader\nchange of-a-changer\n")
    with open(f"{FOLDER.name}/schema.toml", "w", encoding="utf-8") as out:
        out.write(SALES.toml())


def tearDownModule():
    # (pytest calls no cleanups of a module)
    if FOLDER:
        FOLDER.cleanup()


class Served:
    """A running server, which those with a token may ask."""

    def __init__(self, module, *words):
        reach = ["--listen", "127.0.0.1:0", "--token-file", f"{FOLDER.name}/tokens", "--max-connections", str(MOST_CONNECTIONS),
        "--allow-origin", BOARD]
        line = [sys.executable, "-B", "-m", module, *words, *reach]
        self.process = subprocess.Popen(line, stdout=subprocess.PIPE, stderr=subprocess.PIPE, text=True, env=beside.environment())
        self.host = self.process.stdout.readline().strip().removeprefix("http://").rstrip("/")
        self.port = int(self.host.rpartition(":")[2])
        until(lambda: self.status("GET /readyz HTTP/1.1") == 200, SECONDS)

    def close(self):
        self.process.send_signal(signal.SIGTERM)
        self.process.communicate(timeout=SECONDS)

    @contextlib.contextmanager
    def connected(self):
        with contextlib.closing(socket.create_connection(("127.0.0.1", self.port))) as it:
            it.settimeout(SECONDS)
            yield it

    def head_of(self, head):
        """The bytes of a request's head, with what a request of the server's own has unless the row says otherwise."""
        own = {"Host": "{host}", "Authorization": "Bearer {token}"}
        lines = head.split("\r\n")
        for name, value in own.items():
            if not any(it.lower().startswith(f"{name.lower()}:") for it in lines) and f"-{name}" not in lines:
                lines.append(f"{name}: {value}")
        text = "\r\n".join(it for it in lines if it not in ("-Host", "-Authorization")) + "\r\n\r\n"
        return text.replace("{host}", self.host).replace("{token}", "of-a-reader").encode("latin-1")

    def answer(self, head, body=b""):
        """The status, the header lines and the first bytes of the body that a request gets."""
        with self.connected() as it:
            it.sendall(self.head_of(head) + body)
            data = b""
            while b"\r\n\r\n" not in data:
                part = it.recv(2**16)
                if not part:
                    break
                data += part
        first, _, rest = data.partition(b"\r\n")
        lines, _, body = rest.partition(b"\r\n\r\n")
        found = re.fullmatch(rb"HTTP/[0-9]\.[0-9] ([0-9]{3}) .*", first)
        return int(found[1]) if found else 0, lines.split(b"\r\n"), body

    def status(self, head, body=b""):
        return self.answer(head, body)[0]


class Strangers:
    """The rows, on a server of a source."""

    @classmethod
    def setUpClass(cls):
        cls.server = cls.begun()
        cls.addClassCleanup(cls.server.close)

    def test_each_row(self):
        wrong = [(name, head[:200], why) for name, head, statuses in ROWS for why in self.faults(head, statuses)]
        self.assertEqual(wrong, [])
        self.see_that_it_goes_on()

    def faults(self, head, statuses):
        """What is wrong with the answer to a row."""
        status, lines, body = self.server.answer(head)
        if status not in statuses:
            yield f"status {status}"
        for it in lines:
            if it.lower().startswith((b"x-injected", b"access-control-allow")) or b"Domain=" in it:
                yield it
        if b"root:" in body:
            yield body
        if status not in (200, 400) and not any(b"frame-ancestors 'none'" in it for it in lines):
            yield "no policy"

    def test_each_reply_is_shown_in_no_frame(self):
        for path in [*PATHS, *OPEN_PATHS, "/nothing", "/slice?city=a&city=b"]:
            self.see_the_policy(self.server.answer(f"GET {path} HTTP/1.1")[1])

    def see_the_policy(self, lines):
        said = {name.lower(): value.strip() for name, _, value in (it.decode("latin-1").partition(":") for it in lines)}
        self.assertIn("frame-ancestors 'none'", said["content-security-policy"])
        self.assertIn("default-src 'none'", said["content-security-policy"])
        self.assertNotIn("unsafe", said["content-security-policy"])
        wanted = {"referrer-policy": "no-referrer", "x-content-type-options": "nosniff", "x-frame-options": "DENY",
        "cross-origin-resource-policy": "same-origin", "server": "datacube"}
        self.assertEqual({it: said.get(it) for it in wanted}, wanted)

    def test_a_page_that_is_named_may_ask(self):
        """And reads no more than its own token lets it."""
        status, lines, _ = self.server.answer(f"GET /cube.csv HTTP/1.1\r\nOrigin: {BOARD}\r\nSec-Fetch-Site: cross-site")
        self.assertEqual((status, f"Access-Control-Allow-Origin: {BOARD}".encode() in lines), (200, True))
        self.assertFalse([it for it in lines if it.lower().startswith(b"access-control-allow-credentials")])
        self.assertEqual(self.server.status(f"GET /cube.csv HTTP/1.1\r\nOrigin: {BOARD}\r\n-Authorization"), 401)

    def test_many_connections(self):
        with contextlib.ExitStack() as held:
            for _ in range(MOST_CONNECTIONS):
                held.enter_context(self.server.connected())
            until(lambda: self.server.status("GET /healthz HTTP/1.1") == 503, SECONDS)
        until(lambda: self.server.status("GET /healthz HTTP/1.1") == 200, SECONDS)

    def test_slow_ones(self):
        """Heads that come byte by byte, bodies that don't come, readers that don't read: others are answered meanwhile."""
        with contextlib.ExitStack() as held:
            slow = [held.enter_context(self.server.connected()) for _ in range(MOST_CONNECTIONS - 10)]
            for at, it in enumerate(slow):
                head = ("GET /cube.csv HTTP/1.1\r\nHo", "POST /changes HTTP/1.1\r\nContent-Type: text/csv\r\nContent-Length: 100",
                "GET /cube.csv HTTP/1.1")[at % 3]
                data = self.server.head_of(head)
                it.sendall(data[:-30] if at % 3 == 0 else data)
            start = time.monotonic()
            for _ in range(50):
                self.assertEqual(self.server.status("GET /slice?city=York HTTP/1.1"), 200)
            self.assertLess(time.monotonic() - start, SECONDS / 2)

    def test_bodies_that_have_no_end(self):
        """They are cut off, and aren't kept."""
        before = self.memory()
        for head, statuses in (
            ("POST /changes HTTP/1.1\r\nContent-Type: text/csv\r\nTransfer-Encoding: chunked\r\nAuthorization: Bearer of-a-changer", (413, 404)),
            ("POST /cube.csv HTTP/1.1\r\nTransfer-Encoding: chunked", (405,)), ("GET /cube.csv HTTP/1.1\r\nTransfer-Encoding: chunked", (200,)),
        ):
            with self.server.connected() as it:
                it.sendall(self.server.head_of(head))
                with contextlib.suppress(ConnectionError, socket.timeout):
                    it.settimeout(1)
                    for _ in range(1000):
                        it.sendall(b"10000\r\n" + b"1,D,a\n\n\n" * 2**13 + b"\r\n")
                it.settimeout(SECONDS)
                with contextlib.suppress(ConnectionError):
                    found = it.recv(12)
                    self.assertIn((head, int(found[9:] or statuses[0])), [(head, status) for status in statuses])
        self.assertLess(self.memory() - before, 40 * 2**20)
        self.see_that_it_goes_on()

    def memory(self):
        """How many bytes the server has in memory."""
        with open(f"/proc/{self.server.process.pid}/statm", encoding="ascii") as file:
            return int(file.read().split()[1]) * resource.getpagesize()

    def see_that_it_goes_on(self):
        self.assertEqual(self.server.status("GET /cube.csv HTTP/1.1"), 200)
        self.assertIsNone(self.server.process.poll())


class OfASession(Strangers, unittest.TestCase):
    @classmethod
    def begun(cls):
        return Served("jackraisin.serve", f"{FOLDER.name}/schema.toml", "--store", f"{FOLDER.name}/sales.db", "--max-body", str(MOST_BODY))


@unittest.skipIf(NO_DATABASE, f"strangers at a follower: {NO_DATABASE}")
class OfAFollower(Strangers, unittest.TestCase):
    # (a name of a table that would end a header)
    TABLE = 'say "no"\r\nX-Injected: yes'

    @classmethod
    def begun(cls):
        private = private_server.shared()
        name = '"' + cls.TABLE.replace('"', '""') + '"'
        private.run(f"CREATE TABLE {name} (id int PRIMARY KEY, city text, product text, cents bigint)",
        f"INSERT INTO {name} VALUES (1, 'York', 'tea', 5)")
        cls.addClassCleanup(private.run, f"DROP TABLE {name}")
        return Served("jackraisin.postgres", "--dsn", private.dsn, "--table", name, "--schema", f"{FOLDER.name}/schema.toml")

    def test_a_name_that_would_end_a_header(self):
        for path in ("/cube.csv", "/", "/metrics"):
            status, lines, body = self.server.answer(f"GET {path} HTTP/1.1")
            self.assertEqual((path, status, [it for it in lines if it.lower().startswith(b"x-injected")]), (path, 200, []))
        said = [it for it in self.server.answer("GET /cube.csv HTTP/1.1")[1] if it.startswith(b"Datacube-Table:")]
        self.assertEqual(said, [b'Datacube-Table: "say ""no""%0D%0AX-Injected: yes"'])


if __name__ == "__main__":
    unittest.main()
