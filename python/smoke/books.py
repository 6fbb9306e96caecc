"""Books made in Python, and books found by looking at a CSV file.

    book = Book("data")
    book.table("sales", "sales.csv")
    book.view("by_region", "scan sales | group region {n = count, total = sum amount}")
    book.view("by_tens", "scan sales | project bin(amount, 10) as tens | group tens {n = count}")
    book.link_all("sales")
    book.save("data/book.smk")
"""
import os
import pathlib

from smoke import hints, language
from smoke import records as recording
from smoke.faults import BookError, FileError
from smoke.language import column_name, literal, plain_name
from smoke.look import look, new_name, plain, table_name

MEASURES = 3  # of each chart
BARS = 64  # charts at most


class Book:
    """A book that grows statement by statement. Each is checked when it is added; a fault is a BookError, and leaves the book as it was.

    Files are looked up from `folder`, where a Session over the book runs.
    """

    def __init__(self, folder=None):
        self.folder = os.fspath(folder or "")
        self.statements = []

    # Text

    @property
    def text(self):
        """The book's bytes."""
        return "".join(statement + "\n" for statement in self.statements).encode("utf-8", "surrogateescape")

    def __str__(self):
        return self.text.decode("utf-8", "backslashreplace")

    @property
    def catalog(self):
        """What the book declares, a language.Catalog."""
        return language.read_book(self.text)

    def save(self, path):
        """Writes the book to a file, and gives its path."""
        pathlib.Path(path).write_bytes(self.text)
        return path

    def add(self, statement):
        """Adds a statement as it is written in a book."""
        before = self.statements
        self.statements = [*before, statement]
        text = self.text
        try:
            language.read_book(text)
        except language.Fault as fault:
            catalog, _ = language.look_through(text)
            self.statements = before
            raise BookError("book", text, fault, catalog) from None
        return self

    def comment(self, text):
        """Adds a comment."""
        self.statements += ["# " + " ".join(line.split("\r")) for line in text.split("\n")]
        return self

    # Statements

    def table(self, name, source, columns=None, file=None):
        """Declares a table.

        `source` is the path of a CSV file, from the book's folder; or records, a list of dicts, or of tuples with their names in `columns`;
        or a DataFrame. What isn't a file is written to one, `file` or NAME.csv in the folder. `columns` chooses: a list of names, or a dict
        from names to `int`, `text` or a default value; without it, all columns, at most 16, of the kinds that are found by looking.
        """
        plain_name(name)
        if not isinstance(source, (str, os.PathLike)):
            names, records = records_of(source, columns)
            file = file or f"{name}.csv"
            write_records(os.path.join(self.folder, file), names, records)
            columns = columns if isinstance(columns, dict) else names
        else:
            file = os.fspath(source)
        declared = columns
        if not isinstance(columns, dict) or None in columns.values():
            found = {column.name: column for column in look(os.path.join(self.folder, file), name).columns}
            wanted = list(columns or list(found)[:language.COLUMNS])
            declared = {}
            for column in wanted:
                if column not in found:
                    raise FileError(file, hints.near(language.Fault("unknown column", 0, column, found)) or f"it has no column {column!r}")
                declared[column] = found[column]
        parts = ", ".join(self._declared(column, kind) for column, kind in declared.items())
        return self.add(f"table {name} from {literal(file)} ({parts})")

    def _declared(self, name, kind):
        shown = column_name(name)
        if kind in (int, "int"):
            return f"{shown} int"
        if kind in (str, "text"):
            return f"{shown} text"
        if isinstance(kind, tuple):
            return f"{shown} {'int' if kind[0] in (int, 'int') else 'text'} default {literal(kind[1])}"
        if isinstance(kind, int):
            return f"{shown} int default {literal(kind)}"
        return f"{shown} {kind.kind}" + (f" default {kind.default}" if kind.default is not None else "")

    def view(self, name, plan):
        """Declares a view by a plan as it is written in a book."""
        return self.add(f"view {plain_name(name)} = {plan}")

    def lineage(self, view, table, by=None, group=None, forward=False):
        """Declares that one may ask back from the view to the table, or forward from the table to the view.

        With `by`, a column, the rows behind each mark are split by it; with `group`, a text such as "region {n = count}", grouped.
        """
        if forward:
            return self.add(f"lineage fwd {plain_name(table)} to {plain_name(view)}")
        form = f" by {column_name(by)}" if by is not None else f" group {group}" if group is not None else ""
        return self.add(f"lineage back {plain_name(view)} to {plain_name(table)}{form}")

    def link(self, view, table, to):
        """Declares that a brush of the view on the table filters these views."""
        to = [to] if isinstance(to, str) else to
        return self.add(f"link {plain_name(view)} on {plain_name(table)} to {', '.join(map(plain_name, to))}")

    def link_all(self, table, views=None):
        """Links each view that scans the table with each other of them. With one view alone, declares what can be asked of it."""
        catalog = self.catalog
        views = list(views) if views is not None else [view.name for view in catalog.views.values() if table in view.tables]
        if len(views) == 1:
            return self.lineage(views[0], table).lineage(views[0], table, forward=True)
        for view in views:
            self.link(view, table, [other for other in views if other != view])
        return self

    def fd(self, name, table, keys, column):
        """Declares the rule that rows of the table with equal keys have an equal column; `keys` is a name or a list of them."""
        keys = [keys] if isinstance(keys, str) else keys
        return self.add(f"fd {plain_name(name)} on {plain_name(table)} {', '.join(map(column_name, keys))} to {column_name(column)}")


def records_of(source, columns):
    """The names and the records of a list of dicts or tuples, or of a DataFrame."""
    if hasattr(source, "itertuples") and hasattr(source, "columns"):
        names = [str(name) for name in source.columns]
        missing = source.isna()
        rows = zip(source.itertuples(index=False, name=None), missing.itertuples(index=False, name=None))
        return names, [["" if gone else field for field, gone in zip(row, holes)] for row, holes in rows]
    records = list(source)
    if records and isinstance(records[0], dict):
        names = list(columns) if columns else list(dict.fromkeys(name for record in records for name in record))
        return names, [[record.get(name, "") for name in names] for record in records]
    if not columns:
        raise ValueError("records that are no dicts need the names of their columns")
    return list(columns), records


def write_records(path, names, records):
    """Writes records as a CSV file. None is an empty field, and True and False are 1 and 0."""
    def field(value):
        if value is None:
            return ""
        if isinstance(value, bool):
            return int(value)
        return int(value) if isinstance(value, float) and value.is_integer() else value
    with open(path, "w", encoding="utf-8", errors="surrogateescape", newline="") as file:
        recording.write_header(file, names)
        rows = recording.writer(file)
        for record in records:
            if len(record) != len(names):
                raise ValueError(f"a record has {len(record)} fields, and there are {len(names)} columns")
            rows.writerow([field(value) for value in record])


def found_in(path, columns=None, name=None, shown=None):
    """A Book over a CSV file, found by looking at it: a table of at most 16 columns, a chart for each that has few values or many ints, linked
    with each other.

    `columns` chooses columns by name, in place of the most telling; `shown` is the file's name in the book. Raises FileError, TableError
    and LimitError.
    """
    looked = look(path, name)
    name = plain_name(name or table_name(path))
    kept, left = chosen(looked, columns)
    book = Book()
    book.comment(f"Found by looking at {one_line(os.path.basename(str(path)))}: {count_of(looked.rows, 'record')}.")
    for said in looked.left_out:
        book.comment(f"Left out: {one_line(said)}.")
    if left:
        book.comment(f"Left out, and less telling: {one_line(', '.join(column.name for column in left))}.")
    for column in kept:
        if column.default is not None:
            book.comment(f"{one_line(column.name)} is empty in {count_of(column.empty, 'record')}: {column.default} stands there.")
    if not kept:
        raise FileError(str(path), "no column of it can be named in a book: " + "; ".join(looked.left_out))
    book.table(name, shown or os.fspath(path), {column.name: column for column in kept})
    charts = sorted((column for column in kept if column.is_few or column.is_binned), key=lambda column: -column.telling)[:BARS]
    measures = [column for column in kept if column.is_measure]
    names = set()
    for column in charts:
        view = new_name("by_" + plain(column.name, ""), names)
        names.add(view)
        book.view(view, chart(name, column, [measure for measure in measures if measure is not column][:MEASURES]))
    if not charts:
        book.view("whole", f"scan {name} | group {{n = count}}")
    return book.link_all(name)


def chosen(looked, columns):
    """The columns of a book over a file, in the file's order, and those that are left out."""
    if columns is not None:
        by_name = {column.name: column for column in looked.columns}
        for column in columns:
            if column not in by_name:
                said = hints.near(language.Fault("unknown column", 0, column, by_name))
                raise FileError(looked.path, f"it has no column {column!r} that a book can name. {said}")
        columns = list(dict.fromkeys(columns))
        if len(columns) > language.COLUMNS:
            raise FileError(looked.path, f"a table has at most {language.COLUMNS} columns, and {len(columns)} are chosen")
        return [by_name[column] for column in columns], []
    best = sorted(looked.columns, key=lambda column: -column.telling)[:language.COLUMNS]
    return [column for column in looked.columns if column in best], [column for column in looked.columns if column not in best]


def chart(table, column, measures):
    """The plan of a chart: the column's values, or bins of them, with their numbers of records and the sums of the measures."""
    shown = column_name(column.name)
    steps = [f"scan {table}"]
    if column.default is not None:
        steps.append(f"where {shown} != {column.default}")
    key = shown
    taken = {column.name}
    if column.is_binned:
        width = column.width
        made = new_name(f"{plain(column.name, 'bin_')}_by_{width}", {measure.name for measure in measures})
        taken, key = {made}, column_name(made)
        items = [f"bin({shown}, {width}) as {key}"] + [column_name(measure.name) for measure in measures]
        steps.append("project " + ", ".join(items))
    aggregates = []
    for made, what in [("n", "count")] + [(plain(measure.name, "sum_"), f"sum {column_name(measure.name)}") for measure in measures]:
        made = new_name(made, taken)
        taken.add(made)
        aggregates.append(f"{column_name(made)} = {what}")
    steps.append(f"group {key} {{{', '.join(aggregates)}}}")
    return " | ".join(steps)


def one_line(text):
    return "".join(letter if letter.isprintable() else "?" for letter in text)


def count_of(number, what):
    return f"{number:,} {what}{'' if number == 1 else 's'}"


