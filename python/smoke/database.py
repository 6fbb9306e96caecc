"""A session over a database that speaks PostgreSQL's SQL, in place of a program: the same lines, the same texts. Nothing of it is proved.

Brushes are kept here, as marks; in a statement each is a test on keys or rids. Each view's content, list of marks or rids, and rows behind
marks is one statement. All values are its parameters, and all names those of a checked book.
"""
import functools
import os
import select
import threading
import time

from smoke import address, language, names, own, queries, sql
from smoke.address import DatabaseError
from smoke.check import read
from smoke.copying import copy
from smoke.faults import FileError, TableError
from smoke.language import column_name
from smoke.load import book_of, execute
from smoke.session import Session
from smoke.summaries import Missing
from smoke.talk import Ended, Talk
from smoke.texts import Part, text_of


FEW = 1000  # marks whose keys stand in a statement as values, and answers of which keys are kept


# The parts of tables that lie on other servers.
PARTS = """select p.relname, c.oid::regclass::text
from pg_inherits i join pg_class p on p.oid = i.inhparent join pg_class c on c.oid = i.inhrelid join pg_namespace n on n.oid = p.relnamespace
where n.nspname = %(schema)s and c.relkind = 'f'
order by 1, 2"""


class Refusal(Exception):
    """Why a line is refused."""


class Connection:
    """A connection that waits so that an interrupt is heard, and that gives every value as a str. `timeout` is in seconds for a statement.
    It shares the lock on a schema."""

    def __init__(self, place, schema, timeout=None, read_only=False):
        self.psycopg2 = address.driver()
        self.timeout = timeout
        self.raw = address.connect(place, async_=True)
        try:
            self.wait()
        except self.psycopg2.Error as fault:
            raise address.told(fault) from None
        extensions = self.psycopg2.extensions
        for name, types, form in (("STR", (16, 20, 21, 23, 25, 1043, 1700), lambda value, _: value),
                                  ("BYTES", (17,), lambda value, _: value and language.text_of(bytes.fromhex(value[2:])))):
            extensions.register_type(extensions.new_type(types, name, form), self.raw)
        (free,), = self.rows(
            "set search_path = pg_catalog; set standard_conforming_strings = on; set bytea_output = hex; set jit = off;"
            f" set statement_timeout = {int((timeout or 0) * 1000)}; set default_transaction_read_only = {'on' if read_only else 'off'};"
            f" select pg_try_advisory_lock_shared({names.LOCK}, hashtext(%(schema)s))", {"schema": schema})
        if free != "t":
            self.close()
            raise DatabaseError(f"rows are put into the schema {schema} just now")

    def wait(self):
        """Waits for the end of what was sent. An exception within it cancels what was sent."""
        extensions = self.psycopg2.extensions
        deadline = None if not self.timeout else time.monotonic() + self.timeout + 5  # the server's own limit comes first
        try:
            while True:
                state = self.raw.poll()
                if state == extensions.POLL_OK:
                    return
                left = None if deadline is None else max(0, deadline - time.monotonic())
                pipes = ([self.raw], []) if state == extensions.POLL_READ else ([], [self.raw])
                if not any(select.select(*pipes, [], left)):
                    raise Ended(f"no answer came within {self.timeout:g} seconds")
        except self.psycopg2.Error:
            raise
        except BaseException:
            if self.raw.isexecuting():
                self.raw.cancel()
            raise

    def rows(self, text, values=None):
        """The rows of a statement: a list of tuples of str."""
        cursor = self.raw.cursor()
        execute(cursor, text, values)
        self.wait()
        return cursor.fetchall() if cursor.description else []

    def close(self):
        self.raw.close()


class DatabaseTalk(Talk):
    """A conversation with a database. `begun` is what there is."""

    rare = 400  # rows that are read in the order of rids in the time of one that an index finds: some pages of a hundred or so

    def __init__(self, place, text=None, schema=names.SCHEMA, timeout=None, read_only=False, folder=""):
        self.place, self.timeout, self.read_only, self.folder = place, timeout, read_only, folder
        self.lock = threading.Lock()
        self.over, self.busy, self.owner = None, True, os.getpid()
        self.number = 0
        self.brushes = {}  # the marks, None for all, of each pair of a view and a table
        self.keys = {}  # of marks that were asked for
        self.connection = Connection(place, schema, timeout, read_only)
        try:
            self.book = self._loaded(schema, text)
            self.text = self.book.text
            self._count()
            self.begun = self._schema()
            self.busy = False
        except BaseException:
            self.connection.close()
            raise

    def _loaded(self, schema, text):
        """The book that is loaded in a schema. Raises DatabaseError where it isn't this one."""
        psycopg2 = self.connection.psycopg2
        place = names.Book(b"", schema)
        try:
            (book, texts), = self.connection.rows(f"select book, texts from {place.named(names.LOADED)}")
        except (psycopg2.errors.UndefinedTable, psycopg2.errors.InvalidSchemaName, ValueError):
            raise DatabaseError(f"no book is loaded in the schema {schema}: python3 -m smoke load BOOK ADDRESS does it") from None
        except psycopg2.Error as fault:
            raise address.told(fault) from None
        book = language.bytes_of(book)
        if text is not None and language.without_marks(text) != language.without_marks(book):
            raise DatabaseError(f"another book is loaded in the schema {schema}: load this one again")
        made = book_of(schema, book, schema=schema, texts=texts)
        for table, part in self.connection.rows(PARTS, {"schema": schema}):
            made.parts.setdefault(table, []).append(part.replace("%", "%%"))
        there = {name for name, in self.connection.rows("select matviewname from pg_matviews where schemaname = %(schema)s", {"schema": schema})}
        made.summaries = {view: {table: summary for table, summary in of.items() if summary.name in there} for view, of in sql.summaries(made).items()}
        made.parts = {table: made.parts[name] for (kind, table), name in made.names.items() if kind == "table" and name in made.parts}
        return made

    def _count(self):
        """Finds the numbers of rows of all tables, and of all views without brushes. Rids and marks have no gaps, and an index has the last."""
        book = self.book
        asked = [queries.Writer(book).counted(table, lambda _: []) if table in book.parts else f"select coalesce(max(rid) + 1, 0) from {book.table(table)}"
                 for table in book.catalog.tables]
        asked += [f"select coalesce(max(mark) + 1, 0) from {book.view(view)}" for view in book.catalog.views]
        counts = self.connection.rows("select " + ", ".join(f"({query})" for query in asked))[0] if asked else ()
        counts = list(map(int, counts))
        self.lengths = dict(zip(book.catalog.tables, counts))
        self.counts = dict(zip(book.catalog.views, counts[len(self.lengths):]))

    # Lines

    def say(self, line):
        self.busy = True
        text = language.bytes_of(line)
        if b"\n" in text:
            raise ValueError("a line has no line feed in it")
        self.number += 1
        text = (text if self.number > 1 else language.without_marks(text)).removesuffix(b"\r")
        psycopg2 = self.connection.psycopg2
        try:
            asked = own.read(text)
            return self._answer(asked) if asked else []
        except language.Fault as fault:
            return [Part("line", [f"line {self.number} not read at byte {fault.at}"], 0)]
        except Refusal as why:
            return [Part("refused", [f"refused {why}"], 0)]
        except psycopg2.errors.QueryCanceled:
            return [Part("refused", [f"refused no answer within {self.timeout or 0:g} seconds"], 0)]
        except psycopg2.errors.OutOfMemory:
            return [Part("refused", ["refused no memory"], 0)]
        except psycopg2.Error as fault:
            raise Ended(f"the database said: {str(fault).strip()}") from None

    def _answer(self, asked):
        if asked.word == "help":
            return [Part("told", [line], 0) for line in own.HELP.split("\n")]
        if asked.word == "schema":
            return self._schema()
        if asked.word == "selected":
            return self._selected(asked.line, asked.part)
        answers = {"show": self._show, "back": self._back, "ask": self._ask, "fwd": self._fwd, "brush": self._brush, "clear": self._clear,
                   "fd": self._fd, "append": self._append}
        return answers[asked.line.kind](asked.line, asked)

    # What lines name

    def _view(self, name):
        if name not in self.book.catalog.views:
            raise Refusal(f"unknown view {name}")
        return self.book.catalog.views[name]

    def _table(self, name):
        if name not in self.book.catalog.tables:
            raise Refusal(f"unknown table {name}")
        return self.book.catalog.tables[name]

    def _inside(self, numbers, count):
        for number in numbers or ():
            if number >= count:
                raise Refusal(f"no row {number} of {count}")

    def _declared(self, line):
        """Refuses a backward line whose view, table or query isn't declared."""
        self._view(line.view)
        self._table(line.table)
        if not self.book.catalog.declares_back(line.view, line.table):
            raise Refusal(f"undeclared back {line.view} to {line.table}")

    def _linked(self, line):
        self._view(line.view)
        self._table(line.table)
        if not self.book.catalog.linked(line.view, line.table):
            raise Refusal(f"not linked {line.view} on {line.table}")

    # Rows

    def _rows(self, writer, query):
        return self.connection.rows(query, writer.values)

    def _summed(self, view, query):
        """The rows of the query that a function writes by a Writer: over the summaries for a view where they have all of it, else over tables."""
        writer = queries.Writer(self.book, self.book.summaries.get(view))
        try:
            text = query(writer)
        except Missing:
            writer = queries.Writer(self.book)
            text = query(writer)
        return self._rows(writer, text)

    def _under(self, writer, view, brushes):
        """A function of a table and an alias: the tests of those brushes that select its rows for a view."""
        return lambda table, alias: [self._test(writer, brush, marks, on, alias) for (brush, on), marks in brushes.items()
                                     if on == table and view in self.book.catalog.linked(brush, on)]

    def _test(self, writer, view, marks, table, alias):
        """The test that a row of a table, under an alias, is one that marked rows of a view came from: by their keys, where these are few."""
        return writer.behind(view, marks, table, alias, self._keys_of(view, marks, table))

    def _keys_of(self, view, marks, table):
        if marks is None or len(marks) > FEW:
            return None
        asked = view, table, tuple(marks)
        if asked not in self.keys:
            if len(self.keys) > FEW:
                self.keys.clear()
            writer = queries.Writer(self.book)
            query = writer.keys_of(view, list(marks), table)
            self.keys[asked] = query and [tuple(self._value(*pair) for pair in zip(row, query[1])) for row in self._rows(writer, query[0])]
        return self.keys[asked]

    def _value(self, text, kind):
        """A value as it stands in statements."""
        return int(text) if kind == "int" else language.bytes_of(text) if self.book.texts == "bytea" else text

    @staticmethod
    def _part_of(rows, some, numbered):
        """The records and the number of all rows of a query's rows: of a part, the number of all and the place are in front."""
        if some is None:
            return [[number, *row] for number, row in enumerate(rows)] if numbered else rows, len(rows)
        there = [row for row in rows if row[1] is not None]
        return [[some[0] + number, *row[2:]] for number, row in enumerate(there)] if numbered else [row[1:] for row in there], int(rows[0][0])

    def _content(self, view, brushes, some=None):
        """A view's Part under brushes."""
        info = self.book.catalog.views[view]
        columns = ["row", *[column.name for column in info.columns]]
        if not any(view in self.book.catalog.linked(*pair) for pair in brushes):
            writer = queries.Writer(self.book)
            return Part("view", [view], self.counts[view], columns, self._rows(writer, writer.marked_rows(view, some)))
        rows = self._summed(view, lambda writer: writer.ordered(writer.rows(info.plan, under=self._under(writer, view, brushes)), some))
        records, count = self._part_of(rows, some, True)
        return Part("view", [view], count, columns, records)

    def _table_part(self, kind, names, table, tests, some):
        found = some and self._found(table, tests)
        writer = queries.Writer(self.book)
        if found:
            count, records = found[0], []
            begin, end = some[0], min(some[1], count)
            if begin < end:
                is_rare = min(end, count - begin) * self.lengths[table] > self.rare * count * count
                records = self._rows(writer, writer.part_of_rows(table, tests(writer), (begin, end), found, is_rare))
        else:
            records, count = self._part_of(self._rows(writer, writer.table_rows(table, tests(writer), some)), some, False)
        return Part(kind, names, count, ["rid", *[column.name for column in self.book.catalog.tables[table].columns]], records)

    def _found(self, table, tests):
        """How many rows of a table meet tests, and the least of their rids; None where no summary has it."""
        writer = queries.Writer(self.book, self.book.summaries.get(None))
        try:
            query = writer.found(table, tests(writer))
        except Missing:
            return None
        (count, first), = self._rows(writer, query)
        return int(count), first and int(first)

    def _block_part(self, kind, names, columns, table, tests, steps, some=None):
        """The Part of what steps make of the rows of a table that meet tests, in these columns."""
        def query(writer):
            block = writer.summed(table, lambda _, alias: tests(writer)(alias))
            for step in steps:
                block = writer.over(step, block) if step.kind in ("where", "project") else writer.grouped(step, block)
            return writer.ordered(block, some)
        records, count = self._part_of(self._summed(None, query), some, True)
        return Part(kind, names, count, ["row", *[column.name for column in columns]], records)

    def _stepped(self, kind, names, table, steps, tests, some):
        """The Part of what the steps of a line make of the rows of a table that meet tests."""
        try:
            columns = language.check_steps(self.book.catalog.tables[table].columns, steps)
        except language.Fault as fault:
            raise Refusal(f"steps: {fault}") from None
        return self._block_part(kind, names, columns, table, tests, steps, some)

    # Answers

    def _show(self, line, asked):
        self._view(line.view)
        return [self._content(line.view, self.brushes, asked.part)]

    def _behind(self, line, now):
        """A function of a Writer, which gives one of an alias: the tests of the rows behind the marks of a line, or of those that are selected now."""
        def tests(writer):
            under = self._under(writer, line.view, self.brushes)
            return lambda alias: [self._test(writer, line.view, line.marks, line.table, alias), *(under(line.table, alias) if now else [])]
        return tests

    def _back(self, line, asked):
        self._declared(line)
        view, table = line.view, line.table
        behind = tests = self._behind(line, asked.now)
        if line.column is not None:
            if (view, table, ("by", line.column)) not in self.book.catalog.backs:
                raise Refusal(f"no split of {view} to {table} by {column_name(line.column)}")
            column = next(column for column in self.book.catalog.tables[table].columns if column.name == line.column)
            if isinstance(line.value, str) != (column.kind == "text"):
                raise Refusal(f"wrong kind for {column_name(line.column)}")

            def tests(writer):
                return lambda alias: [*behind(writer)(alias), writer.comparison(writer.columns(table, alias)[line.column], "=", line.value)]
        if line.group:
            if (view, table) not in self.book.groupings:
                raise Refusal(f"no grouping of {view} to {table}")
            if line.marks is None or len(set(line.marks)) > 1:
                raise Refusal("more than one mark")
        self._inside(line.marks, self.counts[view])
        if line.group:
            step = self.book.groupings[view, table]
            columns = language.check_steps(self.book.catalog.tables[table].columns, [step])
            return [self._block_part("group", [view, table], columns, table, tests, [step])]
        return [self._table_part("back", [view, table], table, tests, asked.part)]

    def _ask(self, line, asked):
        self._declared(line)
        self._inside(line.marks, self.counts[line.view])
        return [self._stepped("ask", [line.view, line.table], line.table, line.steps, self._behind(line, asked.now), asked.part)]

    def _selected(self, line, some):
        self._table(line.table)

        def tests(writer):
            return lambda alias: [self._test(writer, view, marks, on, alias) for (view, on), marks in self.brushes.items() if on == line.table]
        if line.steps:
            return [self._stepped("selected", [line.table], line.table, line.steps, tests, some)]
        return [self._table_part("selected", [line.table], line.table, tests, some)]

    def _fwd(self, line, _):
        self._view(line.view)
        self._table(line.table)
        if not self.book.catalog.declares_forward(line.table, line.view):
            raise Refusal(f"undeclared fwd {line.table} to {line.view}")
        self._inside(line.marks, self.lengths[line.table])

        def tests(writer):
            return lambda alias: [] if line.marks is None else [f"{alias}.rid = any({writer.value(list(line.marks))}::bigint[])"]
        marks = self._marks(line.view, line.table, tests)
        return [Part("fwd", [line.table, line.view], len(marks), numbers=marks)]

    def _marks(self, view, table, tests):
        """The marks of a view's rows that came from rows of a table that meet tests."""
        return [int(mark) for mark, in self._summed(view, lambda writer: writer.marks(view, table, tests(writer)))]

    def _brush(self, line, asked):
        self._linked(line)
        self._inside(line.marks, self.counts[line.view])
        brushes = self.brushes | {(line.view, line.table): line.marks}
        tests = self._behind(line, False)
        if asked.brief:
            (count,), = self._summed(None, lambda writer: writer.table_count(line.table, tests(writer)))
            head = Part("brush", [line.view, line.table], int(count))
        else:
            rids = [int(rid) for rid, in self._summed(None, lambda writer: writer.table_rids(line.table, tests(writer)))]
            head = Part("brush", [line.view, line.table], len(rids), numbers=rids)
        parts = [head, *self._linked_parts(line, brushes, asked.brief)]
        self.brushes = brushes
        return parts

    def _clear(self, line, asked):
        if line.view is None:
            self.brushes = {}
            return [Part("cleared", [], 0)]
        self._linked(line)
        brushes = {pair: marks for pair, marks in self.brushes.items() if pair != (line.view, line.table)}
        parts = [Part("cleared", [line.view, line.table], 0), *self._linked_parts(line, brushes, asked.brief)]
        self.brushes = brushes
        return parts

    def _linked_parts(self, line, brushes, brief):
        parts = []
        for view in self.book.catalog.linked(line.view, line.table):
            if not brief:
                marks = self._marks(view, line.table, lambda writer: functools.partial(self._under(writer, view, brushes), line.table))
                parts.append(Part("linked", [view], len(marks), numbers=marks))
            parts.append(self._content(view, brushes))
        return parts

    def _fd(self, line, asked):
        dependency = self._view(line.view).dependency
        if dependency is None:
            raise Refusal(f"no dependency {line.view}")
        writer = queries.Writer(self.book)
        rows = self._rows(writer, writer.violations(dependency, asked.brief))
        columns = ["rid", *[column.name for column in self.book.catalog.tables[dependency.table.name].columns]]
        parts, count = [Part("fd", [line.view], self.counts[line.view], [] if asked.brief else columns)], len(rows)
        if asked.brief:
            return parts + [Part("mark", [], int(count), numbers=[int(mark)]) for mark, count in rows]
        for mark, *row in rows:
            if len(parts) == 1 or parts[-1].numbers != [int(mark)]:
                parts.append(Part("mark", [], 0, columns, numbers=[int(mark)]))
            parts[-1].records.append(row)
            parts[-1].count += 1
        return parts

    def _schema(self):
        catalog = self.book.catalog
        told = [f"schema {len(catalog.tables)} {len(catalog.views)}"]
        for word, infos, counts in (("table", catalog.tables, self.lengths), ("view", catalog.views, self.counts)):
            for name, info in infos.items():
                told.append(f"{word} {name} {counts[name]}")
                told += ["column,kind", *[_record([column.name, column.kind]) for column in info.columns]]
        for view, table, form in catalog.backs:
            told.append(f"back {view} to {table}" + (f" by {column_name(form[1])}" if form and form[0] == "by" else " group" if form else ""))
        told += [f"fwd {table} to {view}" for table, view in catalog.forwards]
        told += [f"link {view} on {table} to {' '.join(views)}" for view, table, views in catalog.links]
        told += [f"fd {name}" for name, info in catalog.views.items() if info.dependency]
        return [Part("told", [line], 0) for line in told]

    # Appended rows

    def _append(self, line, _):
        if self.read_only:
            raise Refusal("read only")
        table = self._table(line.table)
        views = [view for view, info in self.book.catalog.views.items() if table.name in info.tables]
        count = self._appended(table, line.file, views)
        self.brushes, self.keys = {}, {}
        self._count()
        return [Part("append", [table.name], count), *[self._content(view, {}) for view in views]]

    def _appended(self, table, file, views):
        """Appends the rows of a file, and makes these views again, by a connection of its own: the number of rows."""
        psycopg2 = self.connection.psycopg2
        key = {"schema": self.book.schema}
        (free,), = self.connection.rows(f"select pg_try_advisory_lock({names.LOCK}, hashtext(%(schema)s))", key)
        if free != "t":
            raise Refusal("other sessions are at work on these tables")
        other = address.connect(self.place)
        path = os.path.join(self.folder, file) if file else file
        try:
            try:
                return self._copied(other, table, path, views, False)
            except psycopg2.errors.ProgramLimitExceeded:  # a text that is too long for an index
                return self._copied(other, table, path, views, True)
        except FileError:
            raise Refusal(f"cannot read {file}") from None
        except TableError as fault:
            raise Refusal(fault.said.removeprefix("smoke: ")) from None
        finally:
            other.close()
            self.connection.rows(f"select pg_advisory_unlock({names.LOCK}, hashtext(%(schema)s))", key)

    def _copied(self, connection, table, path, views, without_indexes):
        with connection, connection.cursor() as cursor:
            cursor.execute("set search_path = pg_catalog")
            if without_indexes:
                name = self.book.table(table.name).replace("%%", "%")
                cursor.execute("select indexrelid::regclass::text from pg_index where not indisprimary and indrelid = %s::regclass", (name,))
                for index, in cursor.fetchall():
                    cursor.execute(f"drop index {index}")
            count = copy(cursor, self.book, table.name, path, self.lengths[table.name])
            summaries = {of[table.name].sql for of in self.book.summaries.values() if table.name in of}
            for name in [*map(self.book.view, views), *sorted(summaries)]:
                execute(cursor, f"refresh materialized view {name}")
            return count

    # Ending

    def _end(self, fault):
        if self.over is None:
            why = fault.why if isinstance(fault, Ended) else "an answer was interrupted" if fault is None or isinstance(
                fault, KeyboardInterrupt) else f"an answer was cut short by {type(fault).__name__}: {fault}"
            self.over = Ended(why)
            self.connection.close()
        if isinstance(fault, Ended):
            self.over = fault

    def close(self):
        if os.getpid() != self.owner:
            return None
        with self.lock:
            if self.over is None:
                self.over = Ended("it was closed", 0)
                self.connection.close()
            return self.over.status


def _record(fields):
    """A record as all texts have it, without its end."""
    return language.text_of(text_of([Part("view", [], 0, fields)])).split("\n", 1)[1][:-1]


class DatabaseSession(Session):
    """A Session whose answers are those of a database. They aren't proved."""

    def __init__(self, place, book=None, folder=None, schema=names.SCHEMA, timeout=None, read_only=False):
        self._held = None
        text = None
        if book is not None:
            text = getattr(book, "text", None)
            if text is None:
                text = read(os.fspath(book))
                folder = os.path.dirname(os.path.abspath(os.fspath(book))) if folder is None else folder
            else:
                folder = folder or book.folder
        self.book, self.folder = book or schema, os.path.abspath(folder or ".")
        self._talk = DatabaseTalk(place, text, schema, timeout, read_only, self.folder)
        self.text, self.catalog, self._brushes = self._talk.text, self._talk.book.catalog, {}
        try:
            self._talk.whole(lambda: self._set_schema(self._talk.begun))
        except BaseException:
            self.close()
            raise
