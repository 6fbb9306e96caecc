"""What there is in a conversation, as `.schema` tells it."""
import re
from dataclasses import dataclass

from smoke import records


@dataclass(frozen=True)
class Column:
    """`kind` is `int` or `text`."""

    name: str
    kind: str


@dataclass(frozen=True)
class Table:
    """`rows` is their number now."""

    name: str
    rows: int
    columns: tuple


@dataclass(frozen=True)
class View:
    """`rows` is the number of rows without a brush, in which marks are places."""

    name: str
    rows: int
    columns: tuple


@dataclass(frozen=True)
class Back:
    """A backward query that is declared: plain, split by a column, or grouped."""

    view: str
    table: str
    column: str | None = None
    group: bool = False


@dataclass(frozen=True)
class Fwd:
    table: str
    view: str


@dataclass(frozen=True)
class Link:
    """A brush of `view` on `table` selects for the views in `to`. It declares the queries that it needs."""

    view: str
    table: str
    to: tuple


@dataclass(frozen=True)
class Schema:
    """`tables` and `views` are dicts by name, in the book's order, as are `backs`, `fwds`, `links` (one for each statement) and `fds`, the
    names of dependencies, each of which is a view with a back."""

    tables: dict
    views: dict
    backs: tuple
    fwds: tuple
    links: tuple
    fds: tuple

    def linked(self, view, table):
        """The views that a brush of `view` on `table` selects for, in order."""
        return tuple(name for link in self.links if (link.view, link.table) == (view, table) for name in link.to)


def read(lines):
    """The Schema of what `.schema` says, line by line. Raises ValueError where it is none."""
    kinds = {"table": {}, "view": {}}
    declared = {"back": [], "fwd": [], "link": [], "fd": []}
    columns = None
    for line in lines[1:]:
        if columns is not None and line.endswith((",int", ",text")):  # other lines have commas in backquotes alone
            columns.append(Column(*next(records.reader([line]))))
        elif found := re.fullmatch(r"(table|view) (\w+) (\d+)", line):
            columns = []
            kinds[found[1]][found[2]] = int(found[3]), columns
        elif line != "column,kind":
            columns = None
            declared[line.split(" ", 1)[0]].append(line)
    tables, views = ({name: form(name, rows, tuple(columns)) for name, (rows, columns) in kinds[kind].items()}
                     for kind, form in (("table", Table), ("view", View)))
    if lines[0] != f"schema {len(tables)} {len(views)}":
        raise ValueError(f"{lines[0]!r} in front of {len(tables)} tables and {len(views)} views")
    links = [line.split(" ") for line in declared["link"]]
    return Schema(tables, views, tuple(map(_back, declared["back"])), tuple(Fwd(*line.split(" ")[1::2]) for line in declared["fwd"]),
                  tuple(Link(words[1], words[3], tuple(words[5:])) for words in links), tuple(line.split(" ")[1] for line in declared["fd"]))


def _back(line):
    _, view, _, table, *form = line.split(" ", 5)
    if form and form[0] == "by":
        return Back(view, table, form[1].strip("`"))
    return Back(view, table, group=bool(form))
