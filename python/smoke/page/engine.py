"""One session for all pages. Before it answers a page, it is brought to that page's brushes."""
import contextlib
import threading
import time

from smoke.talk import Ended


class Engine:
    """Starts sessions by `begin`, a function, and again where the program has ended. `starts` counts them.

    A page's brushes are a dict from views to tuples of marks; each is a brush on every table on which the view is linked, `tables_of` it.
    """

    def __init__(self, begin):
        self._begin = begin
        self._lock = threading.Lock()
        self._asking = []  # when each question that has no answer yet came, the oldest first
        self.starts = 0
        self._start()

    def _start(self):
        self.session = self._begin()
        self.starts += 1
        self.schema = self.session.schema
        self.tables_of = {}
        for link in self.schema.links:
            self.tables_of.setdefault(link.view, {})[link.table] = True
        self._force, self._now = {}, {}

    def close(self):
        self.session.close()

    @property
    def waiting(self):
        """How many questions have no answer yet, and for how many seconds the oldest of them waits."""
        asking = list(self._asking)
        return len(asking), time.monotonic() - asking[0] if asking else 0.0

    def ask(self, work):
        """What a function gives that asks the session. Where the program has ended it is started again, and asked once more."""
        with self._turn():
            with contextlib.suppress(Ended):
                if not self.session.ended:
                    return work()
            self.session.close()
            self._start()
            return work()

    @contextlib.contextmanager
    def _turn(self):
        came = time.monotonic()
        self._asking.append(came)
        try:
            with self._lock:
                yield
        finally:
            self._asking.remove(came)

    def now(self, view):
        """The rows of a view under the brushes in force, a Frame; None where none of them filters it."""
        is_filtered = any(view in link.to for link in self.schema.links if (link.view, link.table) in self._force)
        return self._now[view] if is_filtered else None

    def bring(self, brushes):
        """Makes the brushes in force those of a page, by the lines that this takes."""
        wanted = {(view, table): marks for view, marks in brushes.items() for table in self.tables_of.get(view, ())}
        gone = [pair for pair in self._force if pair not in wanted]
        new = [pair for pair, marks in wanted.items() if self._force.get(pair) != marks]
        if gone and len(gone) + len(new) > len(wanted):
            self.session.clear(brief=True)
            self._force, self._now = {}, {}
            gone, new = [], list(wanted)
        for pair in gone:
            self._take(self.session.clear(*pair, brief=True))
            del self._force[pair]
        for pair in new:
            self._take(self.session.brush(pair[0], wanted[pair], pair[1], brief=True))
            self._force[pair] = wanted[pair]

    def _take(self, answer):
        for view, linked in answer.linked.items():
            self._now[view] = linked.frame
