"""Names of SQL, and a book with its names in a schema of a database."""
from smoke import language
from smoke.address import DatabaseError
from smoke.trees import Back

NAME_BYTES = 63  # of a name in PostgreSQL
# Column names that are taken: PostgreSQL's own, and those of rows.
RESERVED = frozenset(("tableoid", "xmin", "cmin", "xmax", "cmax", "ctid", "rid", "mark", "place"))
LOADED = "smoke.book"  # the table that has the book itself; no table or view of a book has a dot in its name
SCHEMA = "smoke"
LOCK = 1936548715  # the number of the locks of schemas: sessions share one, and what puts rows into tables has it for itself


def quoted(name):
    """A name of SQL in quotes, as part of a text in which values are filled in."""
    return '"' + name.replace('"', '""').replace("%", "%%") + '"'


def fits(text, most=None):
    """Whether a str can be a text of PostgreSQL, or a name of at most so many bytes."""
    try:
        return "\0" not in text and (most is None or len(text.encode()) <= most)
    except UnicodeEncodeError:
        return False


def identifiers(names, reserved=(), other="c"):
    """A name of SQL for each name, in a dict: the name itself where it can be one, else `c` and its number."""
    made, taken = {}, set(reserved) | {name for name in names if fits(name, NAME_BYTES)}
    for place, name in enumerate(names):
        fitting = name
        if not fits(name, NAME_BYTES) or name in reserved:
            fitting = f"{other}{place}"
            while fitting in taken:
                fitting += "_"
            taken.add(fitting)
        made[name] = fitting
    return made


class Book:
    """A checked book, and its names in a schema of a database. `texts` is the type of its texts there: `text`, whose order is that of bytes by
    its collation "C", or `bytea` where some text isn't UTF-8 or has a zero byte."""

    def __init__(self, text, schema=SCHEMA, texts="text"):
        self.text = language.without_marks(text)
        self.statements = language.read_statements(text)
        self.catalog = language.read_book(text)
        self.schema, self.texts = schema, texts
        if not fits(schema, NAME_BYTES):
            raise DatabaseError(f"a schema's name is UTF-8 of at most {NAME_BYTES} bytes")
        self.parts = {}  # of a table that lies on several servers, the SQL names of its parts
        self.summaries = {}  # of a view, or None for the rows behind marks, a dict from tables to a Summary that is there
        self.groupings = {(back.view.name, back.table.name): back.group for back in self.statements if isinstance(back, Back) and back.group}
        tables, views = list(self.catalog.tables), list(self.catalog.views)
        names = identifiers(tables + [f"{name} view" if name in tables else name for name in views], (LOADED,), "t")
        self.names = dict(zip([*[("table", name) for name in tables], *[("view", name) for name in views]], names.values()))
        self.table_columns, self.view_columns = ({info.name: identifiers([column.name for column in info.columns], RESERVED) for info in infos.values()}
                                                 for infos in (self.catalog.tables, self.catalog.views))

    def named(self, name):
        return f"{quoted(self.schema)}.{quoted(name)}"

    def table(self, table):
        return self.named(self.names["table", table])

    def view(self, view):
        return self.named(self.names["view", view])

    def type_of(self, column):
        if column.kind == "text":
            return 'text collate "C"' if self.texts == "text" else "bytea"
        return "numeric" if column.level else "bigint"
