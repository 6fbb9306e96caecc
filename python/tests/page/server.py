"""A page's server in tests."""
import contextlib
import http.client
import json
import os
import pathlib
import select
import subprocess
import sys

from smoke import program

LIMIT = 120


class Server:
    """`python3 -m smoke page` over a file, at a free port. `folder` is where it runs, `path` a folder of programs."""

    def __init__(self, *words, folder=None, programs=None):
        env = {**os.environ, "PYTHONPATH": str(program.TOP / "python"), "PYTHONDONTWRITEBYTECODE": "1"}
        if programs:
            env["SMOKE_BIN"] = str(programs)
        self.process = subprocess.Popen([sys.executable, "-m", "smoke", "page", "--port", "0", *words], cwd=folder, env=env, stdout=subprocess.PIPE,
                                        stderr=subprocess.PIPE, bufsize=0)
        try:
            self.url = self.line()
            self.port = int(self.url.rstrip("/").rsplit(":", 1)[1])
        except BaseException:
            self.close()
            raise

    def line(self):
        if not select.select([self.process.stdout], [], [], LIMIT)[0]:
            raise AssertionError(f"the server said nothing in {LIMIT} s")
        return self.process.stdout.readline().decode().rstrip("\n")

    def __enter__(self):
        return self

    def __exit__(self, *_):
        self.close()

    def close(self):
        """Ends the server: its status, and what it said on standard error."""
        self.process.terminate()
        try:
            self.process.wait(LIMIT)
        except subprocess.TimeoutExpired:
            self.process.kill()
        _, said = self.process.communicate()
        return self.process.returncode, said.decode()

    def send(self, method, path, body=None, **headers):
        """Sends a request, and gives its status, its headers and its bytes."""
        connection = http.client.HTTPConnection("127.0.0.1", self.port, timeout=LIMIT)
        try:
            connection.request(method, path, body, {name.replace("_", "-"): value for name, value in headers.items()})
            reply = connection.getresponse()
            return reply.status, dict(reply.getheaders()), reply.read()
        finally:
            connection.close()

    def ask(self, path, **question):
        """The status and the answer to a question. It waits until the engine has started."""
        while True:
            status, _, said = self.send("POST", path, json.dumps(question))
            answer = json.loads(said)
            if answer.get("kind") != "loading":
                return status, answer

    @property
    def engine(self):
        """The process numbers of its programs."""
        found = []
        for task in pathlib.Path(f"/proc/{self.process.pid}/task").iterdir():
            with contextlib.suppress(OSError):  # a thread that has ended meanwhile
                found += map(int, (task / "children").read_text().split())
        return found
