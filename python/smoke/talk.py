"""A program between pipes, and its texts read by the counts in them.

A Talk answers one line after the other. When an answer is cut short, by an exception, an interrupt or a timeout, it is over: what the
program would still say belongs to no later question.
"""
import os
import select
import subprocess
import tempfile
import threading
import time

from smoke import texts
from smoke.faults import SmokeError
from smoke.language import Unwritable


class Ended(SmokeError):
    """The conversation is over, and answers nothing any more. `status` is the program's, if it ended by itself, and `said` is what it said on
    standard error."""

    def __init__(self, why, status=None, said=""):
        self.why, self.status, self.said = why, status, said
        super().__init__(f"the session has ended: {why}" + (f"\n{said}" if said else ""))


class Talk:
    """Starts a program by its words in a folder. `begun` are the parts that it begins with. `timeout` is in seconds for each answer."""

    def __init__(self, words, folder=None, timeout=None):
        self.lock = threading.Lock()
        self.timeout = timeout
        self.over = None  # an Ended, once it is
        self.busy = True  # from before a line is sent until its answer is whole, and has been understood
        self.owner = os.getpid()
        self.buffer = b""
        self.lines = iter(())
        self.said = tempfile.TemporaryFile(prefix="smoke-")
        try:
            self.process = subprocess.Popen(words, cwd=folder, stdin=subprocess.PIPE, stdout=subprocess.PIPE, stderr=self.said, bufsize=0,
                                            process_group=0)
        except BaseException:
            self.said.close()
            raise
        try:
            os.set_blocking(self.process.stdin.fileno(), False)
            os.set_blocking(self.process.stdout.fileno(), False)
            self.deadline = self._deadline()
            self.begun = self._parts("")
            self.busy = False
        except BaseException as fault:
            self._end(fault)
            raise

    def whole(self, work):
        """What a function gives, which says lines and understands their answers. It has the conversation for itself until it ends.

        What it raises for people to read, a SmokeError other than Ended or an Unwritable, it raises where every answer is understood. After any
        other exception behind its first line the conversation is over. Raises Ended.
        """
        if os.getpid() != self.owner:
            raise Ended("it belongs to another process")
        with self.lock:
            if self.busy and self.over is None:
                self._end(None)  # an answer was cut short, and nobody was there to see it
            if self.over is not None:
                raise Ended(self.over.why, self.over.status, self.over.said)
            try:
                given = work()
                self.busy = False
                return given
            except BaseException as fault:
                if isinstance(fault, (SmokeError, Unwritable)) and not isinstance(fault, Ended):
                    self.busy = False
                elif self.busy:
                    self._end(fault)
                raise

    def say(self, line):
        """The parts of the answer to a line, none where it has no question; of a refusal one part, of the kind `refused` or `line`. For use in
        `whole` alone. The count of a part is that of the whole also where `.part` asked for some of its rows."""
        data = line.encode("utf-8", "surrogateescape") + b"\n"
        if data.count(b"\n") != 1:
            raise ValueError("a line has no line feed in it")
        self.busy = True
        self.deadline = self._deadline()
        self._send(data)
        return self._parts(line)

    def ask(self, line):
        """The parts of the answer to one line. Raises Ended."""
        return self.whole(lambda: self.say(line))

    def close(self):
        """Ends the conversation: the program's status, None where it had to be killed."""
        if os.getpid() != self.owner:
            return None
        with self.lock:
            if self.over is None:
                if self.busy:
                    self._end(None)
                else:
                    self._close(5)
                    self.over = Ended("it was closed", self.process.returncode, self._error_text())
            return self.over.status

    # Ending

    def _end(self, fault):
        """Kills the program, and keeps why, which later calls say."""
        if self.over is None:
            if isinstance(fault, Ended):
                why = fault.why
            elif fault is None or isinstance(fault, KeyboardInterrupt):
                why = "an answer was interrupted"
            else:
                why = f"an answer was cut short by {type(fault).__name__}: {fault}"
            self.over = Ended(why)
            self.process.kill()
            self._close(None)
            self.over.said = self._error_text()
        if isinstance(fault, Ended):
            fault.__init__(fault.why, fault.status, self.over.said)
            self.over = fault

    def _close(self, patience):
        """Closes the pipes, and waits for the end. A program that doesn't end within some seconds is killed."""
        for pipe in (self.process.stdin, self.process.stdout):
            try:
                pipe.close()
            except OSError:
                pass
        try:
            self.process.wait(patience)
        except subprocess.TimeoutExpired:
            self.process.kill()
            self.process.wait()

    def _error_text(self):
        """What the program said on standard error."""
        try:
            self.said.seek(0)
            text = self.said.read(1 << 16).decode("utf-8", "surrogateescape").strip()
            self.said.close()
            return text
        except (OSError, ValueError):
            return ""

    def _ended(self):
        """The Ended of a program that ended by itself."""
        try:
            status = self.process.wait(5)
        except subprocess.TimeoutExpired:
            return Ended("the program says nothing more")
        if status < 0:
            return Ended(f"the program was ended by signal {-status}", status)
        return Ended(f"the program ended with status {status}", status)

    # Bytes

    def _deadline(self):
        return None if self.timeout is None else time.monotonic() + self.timeout

    def _wait(self, pipe, event):
        poll = select.poll()
        poll.register(pipe, event)
        while True:
            left = None if self.deadline is None else self.deadline - time.monotonic()
            if left is not None and left <= 0:
                raise Ended(f"no answer came within {self.timeout:g} seconds")
            if poll.poll(None if left is None else max(1, left * 1000)):
                return

    def _send(self, data):
        data = memoryview(data)
        while data:
            try:
                sent = os.write(self.process.stdin.fileno(), data)
                data = data[sent:]
            except BlockingIOError:
                self._wait(self.process.stdin, select.POLLOUT)
            except OSError:
                raise self._ended() from None

    def _line(self):
        """The next line of what is said, a str without its line feed."""
        for line in self.lines:
            return line
        pieces = [self.buffer]
        while True:
            try:
                piece = os.read(self.process.stdout.fileno(), 1 << 20)
            except BlockingIOError:
                self._wait(self.process.stdout, select.POLLIN)
                continue
            if not piece:
                raise self._ended()
            pieces.append(piece)
            if b"\n" in piece:
                break
        whole, _, self.buffer = b"".join(pieces).rpartition(b"\n")
        self.lines = iter(whole.decode("utf-8", "surrogateescape").split("\n"))
        return next(self.lines)

    def _parts(self, line):
        try:
            return texts.read(self._line, line)
        except texts.NoText as fault:
            raise Ended(f"the program said what is no answer: {fault}") from None
