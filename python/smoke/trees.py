"""The trees of books and lines: what each statement, step and question says, with the places of its words."""
from dataclasses import dataclass


@dataclass(frozen=True)
class Word:
    """A name, and its place."""

    name: str
    at: int


@dataclass(frozen=True)
class Literal:
    """An int or a str, and its place."""

    value: object
    at: int


@dataclass(frozen=True)
class Declared:
    """A column of a table statement."""

    name: Word
    kind: str
    default: Literal | None


@dataclass(frozen=True)
class Item:
    """A column of `project` or `distinct`; with a width it is a `bin`. Without `as` the name is the column's."""

    column: Word
    width: int | None
    name: Word


@dataclass(frozen=True)
class Aggregate:
    """`what` is count, sum, min or max; a count has no column."""

    name: Word
    what: str
    column: Word | None


@dataclass(frozen=True)
class Pair:
    left: Word
    right: Word


@dataclass(frozen=True)
class Comparison:
    left: Word
    operator: str
    right: Word | Literal


@dataclass(frozen=True)
class Both:
    """`and` of two tests."""

    left: object
    right: object


@dataclass(frozen=True)
class Either:
    """`or` of two tests."""

    left: object
    right: object


@dataclass(frozen=True)
class Not:
    test: object


@dataclass(frozen=True)
class Scan:
    at: int
    table: Word


@dataclass(frozen=True)
class Step:
    """A step over a plan. `kind` is its keyword, and `union all` of that step; what the kind doesn't have is empty. In the steps of an `ask`
    the input is None."""

    kind: str
    at: int
    input: object
    source: object = None
    test: object = None
    items: tuple = ()
    keys: tuple = ()
    aggregates: tuple = ()
    pairs: tuple = ()


@dataclass(frozen=True)
class Table:
    at: int
    name: Word
    file: str
    columns: tuple


@dataclass(frozen=True)
class View:
    at: int
    name: Word
    plan: object


@dataclass(frozen=True)
class Back:
    """`lineage back`. `by` is a Word; `group` is a Step of the kind `group`, without an input."""

    at: int
    view: Word
    table: Word
    by: Word | None = None
    group: Step | None = None


@dataclass(frozen=True)
class Forward:
    at: int
    table: Word
    view: Word


@dataclass(frozen=True)
class Link:
    at: int
    view: Word
    table: Word
    to: tuple


@dataclass(frozen=True)
class Dependency:
    at: int
    name: Word
    table: Word
    keys: tuple
    column: Word


@dataclass(frozen=True)
class Line:
    """A question. `kind` is its keyword; `marks` are ints as written, or None for `all`; what the kind doesn't have is None.

    Of a `back` line with `where`, `column` and `value` are there, and with `group` it is True. A `fwd` line has rids as its marks.
    """

    kind: str
    view: str | None = None
    table: str | None = None
    marks: tuple | None = None
    column: str | None = None
    value: object = None
    group: bool = False
    steps: tuple = ()
    file: str | None = None
