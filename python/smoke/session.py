"""A session over a book: questions from Python, answered by smoke_live.

    with connect("examples/bikes/book.smk") as smoke:
        frame = smoke.show("by_day")
        rides = smoke.back("by_day", {"day": "Sat"}, "rides")
        smoke.brush("by_day", [5, 6], "rides")

Every number and row is the program's. Nothing here is proved, and nothing here computes an answer.
"""
import os
import tempfile
from collections.abc import Iterable
from dataclasses import dataclass, field
from typing import SupportsIndex

from smoke import hints, language, lines, program, refusals, schema, starts, texts
from smoke.address import is_address
from smoke.check import read
from smoke.faults import BookError, FileError, Refused, SmokeError
from smoke.frame import Frame
from smoke.language import Unwritable
from smoke.talk import Ended, Talk


class NoRow(SmokeError):
    """No row of a view has the values by which it was named: `view`, `values`."""

    def __init__(self, view, values):
        self.view, self.values = view, values
        super().__init__(f"no row of {view} has {', '.join(f'{name} = {value!r}' for name, value in values.items())}")


# What is answered

@dataclass
class Linked:
    """A linked view as it is now: the marks that the selected rows reach, and its rows."""

    view: str
    marks: list
    frame: Frame


@dataclass
class Brushed:
    """A reply to `brush` and `clear`: the number of selected rows and their rids, none for a clear, and each linked view by its name. After
    `.brief` there are neither rids nor marks."""

    view: str | None
    table: str | None
    count: int = 0
    rids: list = field(default_factory=list)
    linked: dict = field(default_factory=dict)


@dataclass
class Violation:
    """A key that breaks a dependency: its mark, the number of rows with it, and these rows."""

    mark: int
    count: int
    frame: Frame


@dataclass
class Appended:
    """A reply to `append`: the number of new rows, and each view that scans the table by its name."""

    table: str
    count: int
    views: dict


def connect(place=None, folder=None, mode="inject", workers=1, read_only=False, program=None, timeout=None, book=None, schema="smoke"):
    """Starts smoke_live over a book, and gives a Session, a context manager.

    `place` is the path of a book or a books.Book. Files are looked up from `folder`: without one, from the book's. `program` is the path of
    smoke_live, `timeout` the seconds that each answer may take. Raises BookError, TableError, LimitError, FileError, or Ended with the
    program's text where it ended otherwise.

    Or `place` is the address of a database, postgresql://.., in whose `schema` a book is loaded: `book`, or without it whichever is there.
    Then the answers are those of the database. Raises address.DatabaseError.
    """
    if is_address(place):
        from smoke.database import DatabaseSession
        return DatabaseSession(place, book, folder, schema, timeout, read_only)
    return Session(book if place is None else place, folder, mode, workers, read_only, program, timeout)


class Session:
    """A conversation. Its calls may come from several threads: one line is answered at a time.

    A line that is refused raises Refused, and changes nothing. After a timeout, an interrupt or another exception within an answer, the
    session is over: each later call raises Ended.
    """

    def __init__(self, book, folder=None, mode="inject", workers=1, read_only=False, program=None, timeout=None):
        self._held = None
        text = getattr(book, "text", None)
        if text is None:
            path = os.path.abspath(os.fspath(book))
            text = read(path)
            folder = os.path.dirname(path) if folder is None else os.path.abspath(folder)
        else:
            folder = os.path.abspath(folder or book.folder or ".")
            self._held = tempfile.NamedTemporaryFile(prefix="smoke-", suffix=".smk")
            self._held.write(text)
            self._held.flush()
            path = self._held.name
        self.book, self.folder, self.text = path, folder, text
        if mode not in ("inject", "defer") or isinstance(workers, bool) or not isinstance(workers, int) or not 1 <= workers <= 64:
            raise ValueError("the mode is inject or defer, and workers are from 1 to 64")
        words = [program or _found(), "--brief", "--mode", mode, "--workers", str(workers), *(["--read-only"] if read_only else []), "--", path]
        if not os.path.isdir(folder):
            raise FileError(folder, "it is no folder")
        try:
            self._talk = Talk(words, folder, timeout)
        except Ended as fault:
            raise starts.fault_of(fault, path, text, folder) from None
        except OSError as fault:
            raise FileError(words[0], fault.strerror) from None
        self._brushes = {}  # each pair of a view and a table that has a brush, and its line
        try:
            self.catalog = language.read_book(text)
            self._talk.whole(lambda: self._set_schema(self._talk.begun))
        except BaseException as fault:
            self.close()
            raise BookError(path, text, fault) if isinstance(fault, language.Fault) else fault

    def __enter__(self):
        return self

    def __exit__(self, *_):
        self.close()

    def close(self):
        """Ends the session, and gives the program's status, or None."""
        status = self._talk.close()
        if self._held is not None:
            self._held.close()
        return status

    @property
    def ended(self):
        """Why the session is over, a str; None while it isn't."""
        return self._talk.over and self._talk.over.why

    def __repr__(self):
        return f"<Session over {self.book}{': ended' if self.ended else ''}>"

    # What there is

    def first(self, view):
        """The rows of a view without brushes, a Frame whose places are marks. It is kept until rows are appended."""
        return self._talk.whole(lambda: self._first_of(view))

    def _set_schema(self, parts):
        try:
            self.schema = schema.read([part.names[0] for part in parts])
        except (ValueError, KeyError, IndexError, TypeError) as fault:
            raise Ended(f"the program said what is no schema: {fault}") from None
        self._first, self._index = {}, {}
        for told, read_here in ((self.schema.tables, self.catalog.tables), (self.schema.views, self.catalog.views)):
            if [columns_of(info) for info in told.values()] != [columns_of(info) for info in read_here.values()]:
                raise Ended(f"{self.book} changed while it was read")

    # Questions

    def show(self, view, part=None):
        """The rows of a view, under the brushes in force: a Frame. Without a brush on it, places are marks."""
        return self._ask(lambda: lines.show(view), part)

    def back(self, view, marks, table, where=None, group=False, now=False, part=None):
        """The rows of the table that the marked rows of the view came from: a Frame whose places are rids.

        Marks are an int, ints, a dict of column values or a list of them, or "all". With `where`, (column, value), those that have this
        value in it; with `group`, grouped as the book says. With `now`, those alone that the brushes select. With `part`, (begin, end),
        the rows numbered so are printed alone, and `count` is that of all.
        """
        if where is not None and now or group and (now or part is not None):
            raise Unwritable("what is selected now can't be asked with where or group, nor a part of a grouping: use ask")
        return self._ask(lambda: lines.back(view, self._marks(view, marks), table, where, group), part, now)

    def fwd(self, table, rids, view):
        """The marks of the view's rows that came from any of these rows of the table: a list of ints."""
        return self._ask(lambda: lines.fwd(table, rids, view))

    def brush(self, view, marks, table, brief=False):
        """Selects the rows of the table that the marked rows came from: a Brushed, with `brief` one without rids and marks."""
        return self._ask(lambda: lines.brief(lines.brush(view, self._marks(view, marks), table), brief))

    def clear(self, view=None, table=None, brief=False):
        """Ends the brush of a view on a table, or all brushes: a Brushed."""
        return self._ask(lambda: lines.brief(lines.clear(view, table), brief))

    def ask(self, view, marks, table, steps, now=False, part=None):
        """What steps, as in "where amount > 5 | group region {n = count}", make of the rows behind the marks: a Frame."""
        return self._ask(lambda: lines.ask(view, self._marks(view, marks), table, steps), part, now)

    def selected(self, table, steps=None, part=None):
        """The rows of a table that all brushes on it select, or what steps make of them: a Frame."""
        return self._ask(lambda: lines.selected(table, steps), part)

    def fd(self, view, brief=False):
        """The keys that break a dependency, each with its rows: a list of Violation. With `brief` they have the numbers of rows alone."""
        return self._ask(lambda: lines.brief(lines.fd(view), brief))

    def append(self, table, file):
        """Adds the rows of a file to the end of a table: an Appended. All brushes end."""
        return self._ask(lambda: lines.append(table, os.fspath(file)))

    def line(self, text):
        """The answer to a line as it is written: what the call for it gives, or None where it has no question."""
        return self._ask(lambda: lines.one_line(text))

    def said(self, text):
        """What the program says to a line as it is written: bytes, without the empty line at the end, also where it refuses."""
        return self._talk.whole(lambda: texts.text_of(self._answer(lines.one_line(text))[0]))

    # Marks by name

    def marks(self, view, marks):
        """Marks as ints, or "all": a dict of column values, or a list of them, is looked up in the view's first content. Raises NoRow."""
        return self._talk.whole(lambda: self._marks(view, marks))

    def _marks(self, view, marks):
        if isinstance(marks, dict):
            marks = [marks]
        if not isinstance(marks, Iterable) or isinstance(marks, (str, bytes)):
            return marks
        found = []
        for mark in marks:
            found += self._looked_up(view, mark) if isinstance(mark, dict) else [mark]
        return found

    def _looked_up(self, view, values):
        frame = self._first_of(view)
        kinds = dict(zip(frame.columns, frame.kinds))
        for name, value in values.items():
            if name not in kinds:
                fault = language.Fault("unknown column", 0, str(name), frame.columns)
                raise Refused(f"the view {view} has no column {name}", None, hints.near(fault))
            if not isinstance(value, str if kinds[name] == "text" else SupportsIndex) or isinstance(value, bool):
                raise NoRow(view, values)
        key = view, tuple(values)
        if key not in self._index:
            places = [frame.columns.index(name) for name in values]
            index = {}
            for mark, row in enumerate(frame.rows):
                index.setdefault(tuple(row[place] for place in places), []).append(mark)
            self._index[key] = index
        found = values and self._index[key].get(tuple(values.values()))
        if not found:
            raise NoRow(view, values)
        return found

    def _first_of(self, view):
        if view not in self.schema.views:
            raise refusals.refused(f"refused unknown view {view}", None, self.catalog)
        if view not in self._first:
            brushes = dict(self._brushes)
            hidden = self._is_brushed(view)
            if hidden:
                self._heard("clear")
            frame = self._heard(lines.show(view))
            for line in brushes.values() if hidden else ():
                if isinstance(again := self._heard(lines.brief(line)), Refused):
                    raise Ended(f"a brush could not be put back: {again.said}")
            self._first[view] = frame
        return self._first[view]

    def _is_brushed(self, view):
        return any(view in self.schema.linked(*pair) for pair in self._brushes)

    # Answers

    def _ask(self, line, part=None, now=False):
        answer = self._talk.whole(lambda: self._heard(self._asked(line(), part, now)))
        if isinstance(answer, Refused):
            raise answer
        return answer

    @staticmethod
    def _asked(line, part, now):
        if now:
            line = lines.now(line)
        return line if part is None else lines.part(line, part)

    def _heard(self, line):
        """The answer to a line: a Refused where it is refused, and None where it has no question."""
        return self._answer(line)[1]

    def _answer(self, line):
        """What the program says to a line, as parts and as it is understood."""
        parts = self._talk.say(line)
        if not parts:
            return parts, None
        if parts[0].kind in ("refused", "line"):
            return parts, refusals.refused(parts[0].names[0], line, self.catalog)
        return parts, ANSWERS.get(parts[0].kind, Session._brushed)(self, line, *parts)

    def _told(self, _, *parts):
        return "\n".join(part.names[0] for part in parts)

    def _shown(self, _, head):
        return self._view(head, not self._is_brushed(head.names[0]))

    def _rows(self, line, head):
        """Rows of a table, or what steps make of them."""
        columns, steps = self.schema.tables[head.names[-1]].columns, self._steps(line)
        if steps:
            return self._frame(head, language.check_steps([language.Column(column.name, column.kind) for column in columns], steps), False)
        return self._frame(head, columns, True, "rid")

    def _grouped(self, _, head):
        form = next(form for view, table, form in self.catalog.backs if [view, table] == head.names and form and form[0] == "group")
        return self._frame(head, form[1], False)

    def _broken(self, _, head, *marks):
        table = next(back.table for back in self.schema.backs if back.view == head.names[0])
        columns = self.schema.tables[table].columns
        return [Violation(mark.numbers[0], mark.count, self._frame(mark, columns, True, "rid")) for mark in marks]

    def _marked(self, _, head):
        return head.numbers

    def _appended(self, _, head, *views):
        self._set_schema(self._talk.say(".schema"))
        self._brushes = {}
        return Appended(head.names[0], head.count, {view.names[0]: self._view(view, True) for view in views})

    def _brushed(self, line, head, *parts):
        """A brush, or the end of one or all."""
        view, table = head.names or (None, None)
        linked, marks = {}, []  # after `.brief` there is no list of marks
        for part in parts:
            if part.kind == "linked":
                marks = part.numbers
            else:
                linked[part.names[0]] = Linked(part.names[0], marks, self._view(part, False))
        if head.kind == "brush":
            self._brushes[view, table] = line[texts.OWN.match(line).end():]
        elif view is None:
            self._brushes = {}
        else:
            self._brushes.pop((view, table), None)
        return Brushed(view, table, head.count, head.numbers or [], linked)

    def _steps(self, line):
        """The steps of an `ask`, or of a `.selected`, that was answered; none of another line."""
        own = texts.OWN.match(line)
        rest = line[own.end():]
        if own["selected"]:
            if not rest.lstrip().startswith("|"):
                return ()
            rest = "ask back v all to t" + rest
        return language.read_line(language.bytes_of(rest)).steps

    def _view(self, part, marked):
        return self._frame(part, self.schema.views[part.names[0]].columns, marked)

    def _frame(self, part, columns, placed, place="row"):
        kinds = [column.kind for column in columns]
        take = [int if kind == "int" else str for kind in kinds]
        records = [tuple([form(value) for form, value in zip(take, record[1:], strict=True)]) for record in part.records]
        places = [int(record[0]) for record in part.records] if placed else None
        return Frame(part.columns[1:], kinds, records, places, part.count, place)


ANSWERS = {"told": Session._told, "view": Session._shown, "back": Session._rows, "ask": Session._rows, "selected": Session._rows,
           "group": Session._grouped, "fd": Session._broken, "fwd": Session._marked, "append": Session._appended}


def columns_of(info):
    """A table's or view's name, and the names and kinds of its columns."""
    return info.name, [(column.name, column.kind) for column in info.columns]


def _found():
    try:
        return program.find("smoke_live")
    except program.NoProgram as fault:
        raise FileError("smoke_live", str(fault)) from None
