"""A book as SQL for PostgreSQL: its tables, its views with their marks, and its lineage as functions. Nothing of it is proved.

    script(book)         all of a names.Book, for people to read and for psql
    statements(book)     what makes it, one by one
"""
from dataclasses import dataclass

from smoke.faults import harmless
from smoke.language import text_of
from smoke.names import LOADED, NAME_BYTES, fits, quoted
from smoke.queries import Writer, grouping_over, literal
from smoke.summaries import Missing, Summary
from smoke.trees import Back, Dependency, Forward, Link, Table, View


@dataclass
class Made:
    """A statement of SQL that makes something: a `schema`, `table`, `index`, `view` or `function`, or the table that has the `book`; its values;
    what a person should read before it; and of an index on the rows of a table that table."""

    what: str
    sql: str
    values: dict
    said: str = ""
    table: str | None = None


def statements(book):
    """What makes the tables and all else of a book, in its order: a list of Made."""
    made = [Made("schema", f"create schema {quoted(book.schema)}", {}, TITLE),
            Made("book", f"create table {book.named(LOADED)} (book bytea not null, texts text not null)", {}, "The book itself.")]
    names, wanted = iter(function_names(book)), set()
    for statement, said in zip(book.statements, said_of(book)):
        if isinstance(statement, Table):
            made.append(Made("table", table_sql(book, statement.name.name), {}, said))
        elif isinstance(statement, (View, Dependency)):
            writer, view = Writer(book), book.view(statement.name.name)
            made.append(Made("view", f"create materialized view {view} as\n{writer.first(statement.name.name)}", writer.values, said))
            made += [Made("index", f"create index on {view} ({column})", {}) for column in ("mark", "place")]
        if isinstance(statement, (Back, Dependency, Link)):
            view = (statement.name if isinstance(statement, Dependency) else statement.view).name
            made.append(back_function(book, next(names), view, statement.table.name, said))
            made += [index for index in key_index(book, view, statement.table.name) if (index.sql, str(index.values)) not in wanted]
            wanted.update((index.sql, str(index.values)) for index in made if index.what == "index")
            said = ""
        if isinstance(statement, (Forward, Link)):
            for view in [word.name for word in statement.to] if isinstance(statement, Link) else [statement.view.name]:
                made.append(forward_function(book, next(names), statement.table.name, view, said))
                said = ""
    return made


def said_of(book):
    """What stands in a book's text for each statement: the lines of comment before it, and its own, the first with its number."""
    places = [statement.at for statement in book.statements]
    _, before = parted(b"\n" + book.text[:places[0]] if places else b"")
    for place, after in zip(places, [*places[1:], len(book.text)]):
        own, behind = parted(book.text[place:after])
        line = book.text.count(b"\n", 0, place) + 1
        yield "\n".join([*before, f"{line}: {own}"])
        before = behind


def parted(text):
    """The text without the lines of comment at its end, and these."""
    lines = text_of(text).split("\n")
    behind = []
    while len(lines) > 1 and (not lines[-1].strip() or lines[-1].lstrip().startswith("#")):
        behind.insert(0, lines.pop().strip())
    return "\n".join(lines).strip(), [line for line in behind if line]


TITLE = """A book of Smoke as SQL for PostgreSQL. Nothing of it is proved.
rid is the place of a row in its table, mark that of a row in its view, both from 0; place is where a row first appears.
python3 -m smoke load fills the tables from their files, and then makes the rest."""


def function_names(book):
    """Names for the functions of a book, in its order."""
    names = []
    for statement in book.statements:
        if isinstance(statement, (Back, Link)):
            names.append(f"back {statement.view.name} to {statement.table.name}")
        elif isinstance(statement, Dependency):
            names.append(f"back {statement.name.name} to {statement.table.name}")
        if isinstance(statement, Forward):
            names.append(f"fwd {statement.table.name} to {statement.view.name}")
        elif isinstance(statement, Link):
            names += [f"fwd {statement.table.name} to {word.name}" for word in statement.to]
    return [name if fits(name, NAME_BYTES) else f"function{number}" for number, name in enumerate(names)]


def table_sql(book, table):
    columns = book.catalog.tables[table].columns
    names = book.table_columns[table]
    listed = ",\n  ".join(["rid bigint primary key", *[f"{quoted(names[column.name])} {book.type_of(column)} not null" for column in columns]])
    return f"create table {book.table(table)} (\n  {listed})"


def back_function(book, name, view, table, said):
    """Makes a function from marks of a view to rids of a table. Its parameter is $1, since a name could be that of a column."""
    writer = Writer(book)
    query = writer.table_rids(table, lambda alias: [writer.behind(view, "$1", table, alias)])
    return function(book, f"{quoted(name)}(marks bigint[])", query, writer.values, said)


def forward_function(book, name, table, view, said):
    """Makes a function from rids of a table to marks of a view."""
    writer = Writer(book)
    return function(book, f"{quoted(name)}(rids bigint[])", writer.marks(view, table, lambda alias: [f"{alias}.rid = any($1)"]), writer.values, said)


def function(book, head, query, values, said):
    return Made("function", f"create or replace function {quoted(book.schema)}.{head} returns setof bigint language sql stable begin atomic\n{query};\nend",
                values, said)


def key_index(book, view, table):
    """The index for the rows of a table behind a row of a view that groups them by expressions over one row: a list of one Made, or of none."""
    plan = grouping_over(book.catalog.views[view].plan, table)
    if plan is None:
        return []
    writer = Writer(book)
    block = writer.chain(plan.input, book.table(table))
    keys = writer.keys(plan, block)
    if not keys or block.place != [f"{book.table(table)}.rid"]:
        return []
    listed = [f"({value.sql.replace(f'{book.table(table)}.', '')})" for value in keys.values()]
    return [Made("index", f"create index on {book.table(table)} ({', '.join([*listed, 'rid'])})", writer.values, table=table)]


def summaries(book):
    """The summaries that a book can have: of each table on which views are linked one for the rows behind marks, under None, and one for each of
    these views; those with the same columns are one. A dict from views to dicts from tables to a Summary."""
    linked = dict.fromkeys((view, table) for _, table, views in book.catalog.links for view in views)
    backs = [*[(view, table) for view, table, _ in book.catalog.backs], *[(view, table) for view, table, _ in book.catalog.links]]
    found, merged = {}, {}
    for view, table in [*linked, *dict.fromkeys((None, table) for _, table, _ in book.catalog.links)]:
        brushes = [brush for brush, on, views in book.catalog.links if on == table and view in views] if view else [of for of, on in backs if on == table]
        summary = Summary(table)
        writer = Writer(book, {table: summary})
        asked = [brush for brush in brushes if grouping_over(book.catalog.views[brush].plan, table)]

        def under(on, alias):
            return [writer.behind(brush, [0], table, alias) for brush in asked] if on == table else []
        try:
            if view is None:
                writer.counted(table, lambda alias: under(table, alias))
            else:
                writer.ordered(writer.rows(book.catalog.views[view].plan, under=under))
        except Missing:
            continue
        one = merged.setdefault((table, *sorted(summary.columns)), Summary(table))
        one.take(summary)
        found.setdefault(view, {})[table] = one
    for summary in merged.values():
        summary.finish(book, Writer(book).aggregated)
    return found


def script(book):
    """All of a book as SQL, a str for people to read and for psql."""
    parts = []
    for made in statements(book):
        comment = "".join(f"-- {line}\n" for line in harmless(made.said).split("\n")) if made.said else ""
        parts.append(comment + made.sql % {name: literal(value) for name, value in made.values.items()} + ";\n")
    return "\n".join(parts)
