"""Tables of a book into a database that speaks PostgreSQL's SQL: read as the csv module reads them, streamed, in one transaction."""
import codecs
import os
import sys
import time

from smoke import language, names, sql, tables
from smoke.address import DatabaseError, connect, driver, told as told_by
from smoke.check import read
from smoke.copying import PIECE, copy
from smoke.faults import BookError, FileError

LONG = 100_000  # rows of a table from which on it has summaries


def book_of(path, text, **more):
    """The names.Book of a book's bytes. Raises BookError."""
    try:
        return names.Book(text, **more)
    except language.Fault as fault:
        raise BookError(path, text, fault, language.look_through(text)[0]) from None


def execute(cursor, text, values=None):
    """Carries out SQL with values at its places; a text without values has its doubled signs of per cent once."""
    if values:
        cursor.execute(text, values)
    else:
        cursor.execute(text % {})


def make(cursor, made, told=None):
    """Carries out statements, a list of sql.Made."""
    for number, statement in enumerate(made, 1):
        execute(cursor, statement.sql, statement.values)
        if told:
            told("views and indexes", number, number, len(made), "made")


def is_plain(path):
    """Whether a file is UTF-8 without zero bytes."""
    decoder = codecs.getincrementaldecoder("utf-8")()
    try:
        with open(path, "rb") as file:
            while piece := file.read(PIECE):
                if b"\0" in piece:
                    return False
                decoder.decode(piece)
        decoder.decode(b"", True)
        return True
    except UnicodeDecodeError:
        return False
    except (OSError, ValueError) as fault:
        raise FileError(path, getattr(fault, "strerror", None) or str(fault)) from None


def texts_of(catalog, folder, cursor):
    """The type that holds all texts of a book's files: `text` or `bytea`."""
    cursor.execute("show server_encoding")
    columns = [column for table in catalog.tables.values() for column in table.columns]
    if cursor.fetchone()[0] != "UTF8" or not all(names.fits(column.default) for column in columns if isinstance(column.default, str)):
        return "bytea"
    files = {tables.looked_up(table.file, folder) for table in catalog.tables.values()}
    return "text" if all(is_plain(file) for file in files if os.path.isfile(file)) else "bytea"


def load(path, address, folder=None, schema=names.SCHEMA, replace=False, texts=None, told=None, extras=True, there=False, long=LONG):
    """Loads the tables of a book, and makes its views: the number of rows of each table. All of it or nothing.

    `told` is called with a table's name, its rows, and of its file the bytes read and all; and with what is made then. Without `extras` there are
    no indexes, no functions and no summaries, which no answer needs; a table has summaries if it has at least `long` rows. With `there`, the
    schema and its tables are there already, without rows: those of a cluster, say. Raises SmokeError.
    """
    text = getattr(path, "text", None) or read(path)
    folder = folder if folder is not None else getattr(path, "folder", None) or os.path.dirname(os.path.abspath(str(path)))
    book = book_of(str(path), text, schema=schema)
    connection, psycopg2 = connect(address), driver()
    try:
        with connection, connection.cursor() as cursor:
            return load_with(cursor, book, text, folder, replace, texts, told, extras, there, long)
    except psycopg2.errors.DuplicateSchema:
        raise DatabaseError(f"there is a schema {schema} already: --replace drops it first, or --schema names another") from None
    except psycopg2.Error as fault:
        raise told_by(fault) from None
    finally:
        connection.close()


def drop(address, schema):
    """Drops a schema with all that is in it."""
    connection = connect(address)
    try:
        with connection, connection.cursor() as cursor:
            execute(cursor, f"drop schema if exists {names.quoted(schema)} cascade")
    finally:
        connection.close()


def is_short(cursor, summary, book):
    """Whether a sample of a table says that its summary is much shorter than it."""
    execute(cursor, summary.sample(book))
    short, rows = cursor.fetchone()
    return 2 * short <= rows


def summarize(cursor, book, table, told):
    """Makes the summaries of a table that are much shorter than it."""
    wanted = {of[table].name: of[table] for of in sql.summaries(book).values() if table in of}
    for number, summary in enumerate(wanted.values(), 1):
        if is_short(cursor, summary, book):
            execute(cursor, f"create materialized view {summary.sql} as\n{summary.query}; analyze {summary.sql}")
        if told:
            told(f"summaries of {table}", number, number, len(wanted), "looked at")


def load_with(cursor, book, text, folder, replace, texts, told, extras, there, long):
    psycopg2 = driver()
    cursor.execute("set search_path = pg_catalog; set standard_conforming_strings = on; set jit = off")
    book.texts = texts or texts_of(book.catalog, folder, cursor)
    try:
        cursor.execute(f"set local lock_timeout = '10s'; select pg_advisory_xact_lock({names.LOCK}, hashtext(%(schema)s))", {"schema": book.schema})
    except psycopg2.errors.LockNotAvailable:
        raise DatabaseError(f"sessions are at work in the schema {book.schema}: end them first") from None
    if replace:
        execute(cursor, f"drop schema if exists {names.quoted(book.schema)} cascade")
    made = sql.statements(book)
    make(cursor, [statement for statement in made if statement.what in (("book",) if there else ("schema", "book", "table"))])
    execute(cursor, f"insert into {book.named(names.LOADED)} values (%(book)s, %(texts)s)", {"book": text, "texts": book.texts})
    counts = {}
    for table in book.catalog.tables.values():
        counts[table.name] = copy(cursor, book, table.name, tables.looked_up(table.file, folder), told=told)
        if extras:
            execute(cursor, f"analyze {book.table(table.name)}")
    made = [statement for statement in made if statement.what == "view" or extras and statement.what in ("function", "index")]
    cursor.execute("savepoint before")
    try:
        make(cursor, made, told)
    except psycopg2.errors.ProgramLimitExceeded:  # a text that is too long for an index
        cursor.execute("rollback to before")
        make(cursor, [statement for statement in made if statement.what != "index" or statement.table is None], told)
    for table in counts:
        if extras and not there and counts[table] >= long:
            summarize(cursor, book, table, told)
    return counts


class Progress:
    """Shows on standard error how far a loading is."""

    def __init__(self):
        self.start = time.monotonic()
        self.shown = 0

    def __call__(self, what, count, done, size, unit="rows"):
        now = time.monotonic()
        if now - self.shown > 0.2 or done == size:
            self.shown = now
            bar = "#" * (20 * done // max(size, 1))
            end = "\n" if done == size else ""
            print(f"\r{what} [{bar:20}] {count:,} {unit}, {now - self.start:.1f} s", end=end, file=sys.stderr, flush=True)
