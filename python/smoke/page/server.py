"""Serves the page to browsers on this machine. It holds nothing of a page: each question says what is chosen there.

A page never writes a line, but for the steps of an `ask`. Names and numbers in a question are checked against what there is.
"""
import http.server
import json
import pathlib
import time
import urllib.parse

from smoke.faults import Refused, SmokeError, harmless
from smoke.page.answers import StepsFault, Wrong

STATIC = pathlib.Path(__file__).resolve().parent / "static"
KINDS = {".html": "text/html", ".css": "text/css", ".js": "text/javascript"}
FILES = {"/" if path.name == "page.html" else f"/{path.name}": path for path in STATIC.iterdir() if path.suffix in KINDS}
HEADERS = {
    "Cache-Control": "no-store",
    "Content-Security-Policy": "default-src 'none'; script-src 'self'; style-src 'self'; connect-src 'self'; img-src data:; form-action 'self'; "
                               "base-uri 'none'; frame-ancestors 'none'",
    "Cross-Origin-Opener-Policy": "same-origin", "Cross-Origin-Resource-Policy": "same-origin", "Referrer-Policy": "same-origin",
    "X-Content-Type-Options": "nosniff"}
FRAME = 1 << 16  # bytes of a question beside its marks
MARK = 12  # bytes of a mark


class Server(http.server.ThreadingHTTPServer):
    """Listens on the loopback alone. `answers` is an Answers, once there is one; before, `loading` says what is being done."""

    daemon_threads = True

    def __init__(self, port=0, hosts=()):
        super().__init__(("127.0.0.1", port), Handler)
        self.hosts = {host.lower() for host in hosts}
        self.answers = None
        self.loading, self.began = "starting", time.monotonic()

    @property
    def url(self):
        return f"http://127.0.0.1:{self.server_port}/"

    def handle_error(self, request, client_address):
        """A connection that broke is no news."""

    def is_host(self, host):
        """Whether a page may be asked for under this name: this machine's own, or one that was allowed, then with any port."""
        return host in (f"127.0.0.1:{self.server_port}", f"localhost:{self.server_port}") or host.lower() in self.hosts or (
            host.lower().rpartition(":")[0] in self.hosts and host.rpartition(":")[2].isdecimal())

    @property
    def longest(self):
        """The bytes of the longest question that is read: each bar may be chosen."""
        return FRAME + MARK * sum(len(chart.rows) for chart in self.answers.charts.values()) if self.answers else FRAME


class Handler(http.server.BaseHTTPRequestHandler):
    protocol_version = "HTTP/1.1"
    server_version, sys_version = "smoke", ""
    timeout = 60  # seconds for which a connection may be silent

    def do_GET(self):
        self.reply(self.file)

    def do_POST(self):
        self.reply(self.answered)

    def reply(self, work):
        try:
            self.check()
            work()
        except (ConnectionError, TimeoutError):
            self.close_connection = True
        except Exception as fault:  # of whatever kind: a page is told
            self.close_connection = True  # what is left of the question isn't read
            status, said = told(fault)
            self.send(status, "application/json", json.dumps(said).encode())

    def check(self):
        """Answers only pages from here: another name may lead to this address, and a page from elsewhere may send something to it."""
        hosts, origins = self.headers.get_all("Host") or [], self.headers.get_all("Origin") or []
        if len(hosts) != 1 or not self.server.is_host(hosts[0]):
            raise Wrong(403, "wrong", "that is another host: --host NAME allows one")
        if any(origin not in (f"http://{hosts[0]}", f"https://{hosts[0]}") for origin in origins):
            raise Wrong(403, "wrong", "that is another site")
        if self.command == "POST" and self.headers.get("Sec-Fetch-Site", "same-origin") not in ("same-origin", "none"):
            raise Wrong(403, "wrong", "that is another site")

    def file(self):
        if self.path not in FILES:
            raise Wrong(404, "wrong", "there is no such page")
        path = FILES[self.path]
        self.send(200, KINDS[path.suffix], path.read_bytes())

    def answered(self):
        question = self.question()
        if self.server.answers is None:
            raise Wrong(503, "loading", f"{self.server.loading} ({time.monotonic() - self.server.began:.0f} s)")
        if self.path == "/waiting":
            count, seconds = self.server.answers.engine.waiting
            self.send(200, "application/json", json.dumps({"count": count, "seconds": round(seconds)}).encode())
        elif self.path == "/csv":
            self.stream(self.server.answers.table(question))
        else:
            self.send(200, "application/json", json.dumps(self.server.answers.answer(self.path, question)).encode())

    def question(self):
        """The object of JSON that was sent, by itself or as the field `question` of a form."""
        length = self.headers.get("Content-Length", "")
        if self.headers.get("Transfer-Encoding") or not length.isdecimal() or len(length) > 9 or int(length) > self.server.longest:
            raise Wrong(413, "wrong", "that is too long")
        try:
            body = self.rfile.read(int(length)).decode()
            if self.headers.get_content_type() == "application/x-www-form-urlencoded" and body.startswith("question="):
                body = urllib.parse.unquote_plus(body.removeprefix("question="))
            return dict(json.loads(body))
        except (ValueError, TypeError, RecursionError):
            raise Wrong(400, "wrong", "that is no question") from None

    def send(self, status, kind, body):
        self.head(status, {"Content-Type": f"{kind}; charset=utf-8", "Content-Length": str(len(body))})
        self.wfile.write(body)

    def head(self, status, more):
        self.send_response(status)
        for name, value in {**HEADERS, **more}.items():
            self.send_header(name, value)
        if self.close_connection:
            self.send_header("Connection", "close")
        self.end_headers()

    def stream(self, pieces):
        """Sends a file piece by piece. Where it can't be finished the connection breaks, so that it isn't taken for whole."""
        first = next(pieces)
        self.head(200, {"Content-Type": "text/csv; charset=utf-8", "Content-Disposition": 'attachment; filename="records.csv"',
                        "Transfer-Encoding": "chunked"})
        self.chunk(first)
        try:
            for piece in pieces:
                self.chunk(piece)
            self.chunk(b"")
        except Exception:  # of whatever kind: what was sent isn't ended
            self.close_connection = True

    def chunk(self, piece):
        self.wfile.write(b"%x\r\n%s\r\n" % (len(piece), piece))

    def log_message(self, *_):
        pass


def told(fault):
    """The status and the words of a fault."""
    said = {"said": harmless(str(fault))}
    if isinstance(fault, Wrong):
        return fault.status, {**said, "kind": fault.kind}
    if isinstance(fault, StepsFault):
        return 409, {**said, "kind": "steps", "at": fault.at, "hint": harmless(fault.hint or "")}
    if isinstance(fault, Refused):
        return 409, {"said": harmless(fault.said), "kind": "refused", "hint": harmless(fault.hint or "")}
    if isinstance(fault, MemoryError):
        return 503, {"said": "there isn't enough memory", "kind": "refused"}
    if isinstance(fault, SmokeError):
        return 503, {**said, "kind": "ended"}
    return 500, {"said": f"the server failed with {type(fault).__name__}", "kind": "wrong"}
