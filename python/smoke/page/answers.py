"""What the page is told. A question is an object of JSON from a page; each is checked, and answered by lines of the engine."""
import hashlib
import io

from smoke import language, records
from smoke.faults import Refused, SmokeError
from smoke.page import charts, shown

RECORDS = 100  # of a page of the records
KEYS = 20  # of a page of a rule
SLICE = 10_000  # records of a file that are asked for at a time
BARS = 50  # of one chart that a record is said to be in
MOST_SHOWN = 1_000  # bars of one chart
MOST_FIND = 200  # characters that are searched


class Wrong(SmokeError):
    """A question that isn't answered: a status of HTTP, a word for its kind, and a text."""

    def __init__(self, status, kind, text):
        self.status, self.kind = status, kind
        super().__init__(text)


class Answers:
    """The answers over one engine. `gaps` says that the book was found in a file, where a default of ints stands for empty fields alone."""

    def __init__(self, engine, title, gaps=False):
        self.engine, self.title, self.gaps = engine, title, gaps
        self.charts, self._starts = {}, 0
        engine.ask(self._renew)

    def _renew(self):
        """Makes the charts anew where a session is new, over its views without brushes."""
        engine, session, schema = self.engine, self.engine.session, self.engine.schema
        if self._starts == engine.starts:
            return
        engine.bring({})
        self.shown = shown.of_tables(session.catalog, session.folder, self.gaps)
        backs = [*((back.view, back.table) for back in schema.backs), *((link.view, link.table) for link in schema.links)]
        self.backs = {view: list(dict.fromkeys(table for of, table in backs if of == view)) for view in schema.views}
        forwards = [*((forward.table, forward.view) for forward in schema.fwds), *((link.table, view) for link in schema.links for view in link.to)]
        self.forwards = {table: [view for view in schema.views if (table, view) in forwards] for table in schema.tables}
        self.rows = {name: table.rows for name, table in schema.tables.items()}
        views = self._charted()
        self.charts = {view: charts.Chart(view, session.first(view), session.catalog.views[view].plan, self.shown)
                       for view in views if schema.views[view].rows <= charts.MOST_BARS}
        self.left_out = [view for view in views if view not in self.charts]
        self._broken = {}
        self.data = self._fingerprint()
        self._starts = engine.starts

    def _charted(self):
        """The views that are charts: those that are linked, and those whose records can be asked for; if there is none, all but rules."""
        schema = self.engine.schema
        linked = {view for link in schema.links for view in (link.view, *link.to)}
        views = [view for view in schema.views if view in linked or self.backs[view] and view not in schema.fds]
        return views or [view for view in schema.views if view not in schema.fds]

    def _fingerprint(self):
        """A word for what the page is over: where marks mean other rows, it is another."""
        over = repr((self.engine.schema, [(view, chart.rows) for view, chart in self.charts.items()]))
        return hashlib.sha256(over.encode("utf-8", "surrogateescape")).hexdigest()[:12]

    def answer(self, path, question):
        """The answer to a question at a path, an object of JSON."""
        works = {"/start": self.start, "/charts": self.now, "/records": self.records, "/bars": self.bars, "/rules": self.broken}
        if path not in works:
            raise Wrong(404, "wrong", "there is no such page")

        def asked():
            self._begin(path, question)
            return {**works[path](question), "data": self.data, "starts": self.engine.starts}
        return self.engine.ask(asked)

    def _begin(self, path, question):
        self._renew()
        if path != "/start" and question.get("data") != self.data:
            raise Wrong(409, "changed", "the data has changed")

    # What there is

    def start(self, _):
        engine, schema, catalog = self.engine, self.engine.schema, self.engine.session.catalog
        brushed = {table for tables in engine.tables_of.values() for table in tables}
        tables = [{"name": name, "rows": str(rows), "brushed": name in brushed, "forwards": bool(self.forwards[name]),
                   "example": example(schema.tables[name])} for name, rows in self.rows.items()]
        told = [{**chart.about(), "brushes": view in engine.tables_of, "tables": self.backs[view]} for view, chart in self.charts.items()]
        rules = []
        for view in schema.fds:
            rule = catalog.views[view].dependency
            rules.append({"view": view, "table": rule.table.name, "keys": [key.name for key in rule.keys], "column": rule.column.name})
        left = [{"view": view, "rows": str(schema.views[view].rows)} for view in self.left_out]
        return {"title": self.title, "tables": tables, "charts": told, "rules": rules, "leftOut": left}

    # Charts

    def now(self, question):
        brushes = self.brushes(question)
        wishes = {view: self.wish(of) for view, of in self.object(question, "charts").items() if view in self.charts}
        self.engine.bring(brushes)
        told = []
        for view, wish in wishes.items():
            chart, frame = self.charts[view], self.engine.now(view)
            told.append(chart.bars(None if frame is None else chart.now(frame), wish, brushes.get(view, ())))
        brushed = {table for view in brushes for table in self.engine.tables_of[view]}
        selected = {table: str(self.engine.session.selected(table, part=(0, 0)).count) if table in brushed else str(count)
                    for table, count in self.rows.items()}
        return {"charts": told, "selected": selected}

    def object(self, question, name):
        value = question.get(name)
        if not isinstance(value, dict):
            raise Wrong(400, "wrong", f"{name} is missing")
        return value

    def brushes(self, question):
        """The brushes of a page, a dict from views to tuples of marks."""
        found = {}
        for view, marks in self.object(question, "brushes").items():
            if view not in self.charts or view not in self.engine.tables_of:
                raise Wrong(400, "wrong", "there is no such chart to choose from")
            found[view] = tuple(sorted({self.mark(view, mark) for mark in marks})) if isinstance(marks, list) else ()
            if not found[view]:
                raise Wrong(400, "wrong", "no bar is chosen")
        return found

    def mark(self, view, mark):
        return number(mark, self.engine.schema.views[view].rows - 1, "there is no such bar")

    def wish(self, of):
        if not isinstance(of, dict):
            raise Wrong(400, "wrong", "that is no wish of a chart")
        order, find = of.get("order", "size"), of.get("find", "")
        if not isinstance(find, str) or len(find) > MOST_FIND:
            raise Wrong(400, "wrong", "that can't be searched")
        return charts.Wish(number(of.get("measure", 0), 16, "there is no such measure"), one_of(order, charts.ORDERS, "there is no such order"),
                           number(of.get("shown", charts.SHOWN), MOST_SHOWN, "too many bars"),
                           number(of.get("begin", 0), charts.MOST_BARS, "there is no such bar"), find)

    # Records

    def records(self, question):
        """A page of the records of a selection or behind a bar, or of what steps make of them."""
        begin = number(question.get("begin", 0), language.MOST_MARK - RECORDS, "there is no such record")
        ask, written = self.asked_records(question)
        frame = ask((begin, begin + RECORDS))
        of = question["of"]
        whole = self.rows[of["table"]] if "view" not in of else self.engine.session.back(of["view"], of["mark"], of["table"], part=(0, 0)).count
        name = self.label(of["view"], of["mark"]) if "view" in of else None
        return {"name": name, "columns": list(frame.columns), "ints": [kind == "int" for kind in frame.kinds], "begin": begin,
                "rows": [list(map(str, row)) for row in rows_of(frame, written)], "count": str(frame.count), "whole": str(whole),
                "places": None if frame.places is None else [str(place) for place in frame.places]}

    def asked_records(self, question):
        """A function that asks for a part of the records of a question, and how their columns are written."""
        brushes, of = self.brushes(question), self.object(question, "of")
        view, steps, session = of.get("view"), steps_of(question.get("steps", "")), self.engine.session
        if view is not None:
            mark = self.mark(one_of(view, self.backs, "there is no such chart"), of.get("mark"))
        table = one_of(of.get("table"), self.rows if view is None else self.backs[view], "there are no such records")
        self.engine.bring(brushes)

        def ask(part):
            try:
                if view is None:
                    return session.selected(table, steps or None, part=part)
                if steps:
                    return session.ask(view, mark, table, steps, now=True, part=part)
                return session.back(view, mark, table, now=True, part=part)
            except Refused as fault:
                raise self.fault_of(fault, question.get("steps", ""), steps) from None
        columns = self.shown[table]
        return ask, lambda frame: self.written(frame, columns, steps)

    def written(self, frame, columns, steps):
        """How the columns of records are written, or those that steps make of them."""
        if steps:
            columns = shown.of_steps(columns, language.read_line(language.bytes_of("ask back v all to t | " + steps)).steps)
        return [columns.get(name, shown.PLAIN) for name in frame.columns]

    def fault_of(self, fault, text, steps):
        """What is said of steps that are refused: the text, and the place in it in units of UTF-16."""
        if not steps or fault.at is None:
            return fault
        front = len(language.bytes_of(fault.line)) - len(language.bytes_of(steps))
        before = language.bytes_of(steps)[:max(0, fault.at - front)].decode("utf-8", "surrogateescape")
        wrong = StepsFault(fault)
        wrong.at = len((text[:text.find(steps)] + before).encode("utf-16-le", "surrogatepass")) // 2
        return wrong

    def table(self, question):
        """The records of a question as a CSV file: pieces of bytes, asked for in slices, between which others are answered."""
        def ask(begin):
            def asked():
                self._begin("/csv", question)
                find, written = self.asked_records(question)
                frame = find((begin, begin + SLICE))
                return frame, rows_of(frame, written)
            return self.engine.ask(asked)
        begin, (frame, rows) = 0, ask(0)
        yield csv_of([frame.columns], header=True)
        while rows:
            yield csv_of(rows)
            begin += len(rows)
            if begin >= frame.count:
                return
            _, rows = ask(begin)

    # Bars of a record, and rules

    def bars(self, question):
        """The bars that a record is in."""
        table = one_of(question.get("table"), self.rows, "there is no such table")
        rid = number(question.get("rid"), self.rows[table] - 1, "there is no such record")
        found = []
        for view in self.forwards[table]:
            marks = self.engine.session.fwd(table, rid, view)
            labels = [[mark, self.label(view, mark)] for mark in marks[:BARS]]
            found.append({"view": view, "count": len(marks), "bars": labels, "chart": view in self.charts})
        return {"views": found}

    def label(self, view, mark):
        """What a bar is called, or a row of a view that is no chart."""
        return self.charts[view].labels[mark] if view in self.charts else [str(value) for value in self.row(view, mark)]

    def row(self, view, mark):
        """A row of a view without brushes. Views with many rows aren't held."""
        session = self.engine.session
        if self.engine.schema.views[view].rows <= charts.MOST_BARS:
            return session.first(view).rows[mark]
        self.engine.bring({})
        return session.show(view, part=(mark, mark + 1)).rows[0]

    def broken(self, question):
        """The keys that break a rule, those with most rows first."""
        view = one_of(question.get("view"), self.engine.schema.fds, "there is no such rule")
        begin = number(question.get("begin", 0), language.MOST_MARK, "there is no such key")
        session = self.engine.session
        if view not in self._broken:
            self._broken[view] = sorted(((key.mark, key.count) for key in session.fd(view, brief=True)), key=lambda key: (-key[1], key[0]))
        rule = session.catalog.views[view].dependency
        forms = [self.shown[rule.table.name][column.name] for column in (*rule.keys, rule.column, rule.column)]
        keys = [[mark, [form.text(value) for form, value in zip(forms, self.row(view, mark))], str(count)]
                for mark, count in self._broken[view][begin:begin + KEYS]]
        return {"view": view, "count": len(self._broken[view]), "begin": begin, "keys": keys}


class StepsFault(SmokeError):
    """A fault in the steps of a page: `at` is its place in them, in units of UTF-16."""

    def __init__(self, fault):
        self.at, self.hint = None, fault.hint
        super().__init__(fault.said)


def number(value, most, wrong):
    """An int from 0 to the most; else it is wrong."""
    if type(value) is not int or not 0 <= value <= most:
        raise Wrong(400, "wrong", wrong)
    return value


def one_of(name, names, wrong):
    """A name that is there; else it is wrong."""
    if not isinstance(name, str) or name not in names:
        raise Wrong(400, "wrong", wrong)
    return name


def example(table):
    """Steps that can be asked over a table."""
    kinds = {column.kind: language.column_name(column.name) for column in reversed(table.columns)}
    where = f"where {kinds['int']} > 0 | " if "int" in kinds else ""
    return f"{where}group {kinds.get('text', kinds.get('int'))} {{n = count}}"


def steps_of(text):
    """Steps as they stand on a line, without what is around them."""
    try:
        if not isinstance(text, str) or "\n" in text:
            raise ValueError
        text.encode("utf-8", "surrogateescape")
    except ValueError:
        raise Wrong(400, "wrong", "those are no steps") from None
    return text.strip().removeprefix("|").strip()


def rows_of(frame, written):
    """The rows of a frame as they are shown, with ints and texts where that is what they are."""
    forms = [(place, form) for place, form in enumerate(written(frame)) if form != shown.PLAIN]
    if not forms:
        return frame.rows
    rows = [list(row) for row in frame.rows]
    for row in rows:
        for place, form in forms:
            row[place] = form.text(row[place])
    return rows


def csv_of(rows, header=False):
    """The bytes of records."""

    out = io.StringIO(newline="")
    if header:
        records.write_header(out, rows[0])
    else:
        records.writer(out).writerows(rows)
    return out.getvalue().encode("utf-8", "surrogateescape")
