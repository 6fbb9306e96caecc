"""The names and kinds of a book: what it declares, and the first statement and step that doesn't fit."""
from dataclasses import dataclass, field

from smoke.trees import (Aggregate, Back, Comparison, Dependency, Forward, Link, Not, Scan, Step, Table, View, Word)
from smoke.words import COLUMNS, SUMS, Fault


@dataclass(frozen=True)
class Column:
    """A column of a table, a view or an answer. The kind is `int` or `text`, and None where a fault before it leaves that open. The level
    is the number of sums on top of each other in it."""

    name: str
    kind: str | None
    level: int = 0
    default: object = None


@dataclass(frozen=True)
class TableInfo:
    """A table that a book declares. `columns` is None where the statement isn't read, in `look_through` alone."""

    name: str
    file: str
    columns: tuple | None


@dataclass(frozen=True)
class ViewInfo:
    """A view that a book declares. `tables` are those that it scans, each once. Of a dependency, `plan` is the plan that stands for it."""

    name: str
    columns: tuple | None
    plan: object
    tables: tuple
    dependency: Dependency | None = None


@dataclass
class Catalog:
    """What a book declares, in its order.

    `backs` are (view, table, form), where the form is None, ("by", column) or ("group", columns); `forwards` are (table, view); `links` are
    (view, table, linked views), one for each statement. A dependency is a view and a back.
    """

    tables: dict = field(default_factory=dict)
    views: dict = field(default_factory=dict)
    backs: list = field(default_factory=list)
    forwards: list = field(default_factory=list)
    links: list = field(default_factory=list)

    def linked(self, view, table):
        """The views that a brush of this view on this table filters, in their order."""
        return [name for first, on, names in self.links for name in names if (first, on) == (view, table)]

    def declares_back(self, view, table):
        return any((view, table) == back[:2] for back in self.backs) or bool(self.linked(view, table))

    def declares_forward(self, table, view):
        return (table, view) in self.forwards or any(on == table and view in names for _, on, names in self.links)


def nodes_of(plan):
    """The nodes of a plan, scans and steps, each at the place of its number."""
    if isinstance(plan, Scan):
        return [plan]
    return nodes_of(plan.input) + (nodes_of(plan.source) if plan.source else []) + [plan]


def plan_of(statement):
    """The view's plan that a dependency stands for."""
    at, column = statement.at, statement.column
    least, most = Word("least", at), Word("most", at)
    group = Step("group", at, Scan(at, statement.table), keys=statement.keys,
                 aggregates=(Aggregate(least, "min", column), Aggregate(most, "max", column)))
    return Step("where", at, group, test=Comparison(least, "!=", most))


class Types:
    """Checks names and kinds of statements, in their order. The first fault is raised; with a list of faults, each is put into it.

    Columns are a list of Column, or None where they aren't known because of a fault before; then nothing is said of them.
    """

    def __init__(self, faults=None):
        self.faults = faults
        self.catalog = Catalog()
        self.step = None

    def fault(self, what, at, name=None, known=(), about=None):
        fault = Fault(what, at, name, known, step=self.step, about=about)
        if self.faults is None:
            raise fault
        self.faults.append(fault)

    # Statements

    def statement(self, statement):
        self.step = None
        {Table: self.table, View: self.view, Back: self.back, Forward: self.forward, Link: self.link,
         Dependency: self.dependency}[type(statement)](statement)

    def table(self, statement):
        self.new(statement.name, self.catalog.tables)
        columns = []
        for declared in statement.columns:
            self.new(declared.name, [column.name for column in columns])
            default = declared.default
            if default and declared.kind != kind_of(default.value):
                self.fault("kind mismatch", default.at, declared.name.name)
            columns.append(Column(declared.name.name, declared.kind, 0, default and default.value))
        self.catalog.tables.setdefault(statement.name.name, TableInfo(statement.name.name, statement.file, tuple(columns)))

    def view(self, statement):
        self.new(statement.name, self.catalog.views)
        self.add_view(statement.name, statement.plan)

    def add_view(self, name, plan, dependency=None):
        columns = self.plan(plan)
        tables = tuple(dict.fromkeys(node.table.name for node in nodes_of(plan) if isinstance(node, Scan)))
        info = ViewInfo(name.name, None if columns is None else tuple(columns), plan, tables, dependency)
        self.catalog.views.setdefault(name.name, info)

    def dependency(self, statement):
        self.new(statement.name, self.catalog.views)
        self.add_view(statement.name, plan_of(statement), statement)
        self.catalog.backs.append((statement.name.name, statement.table.name, None))

    def back(self, statement):
        self.known_view(statement.view)
        columns = self.known_table(statement.table)
        form = None
        if statement.by:
            self.known(statement.by, columns)
            form = "by", statement.by.name
        elif statement.group:
            made = self.group(statement.group, columns)
            form = "group", None if made is None else tuple(made)
        view, table = statement.view.name, statement.table.name
        for other in self.catalog.backs:
            if other[:2] == (view, table) and (other[2] == form or form and other[2] and form[0] == other[2][0] == "group"):
                self.fault("repeated declaration", statement.at, view)
                break
        self.catalog.backs.append((view, table, form))

    def forward(self, statement):
        self.known_table(statement.table)
        self.known_view(statement.view)
        declared = statement.table.name, statement.view.name
        if declared in self.catalog.forwards:
            self.fault("repeated declaration", statement.at, statement.view.name)
        self.catalog.forwards.append(declared)

    def link(self, statement):
        self.known_view(statement.view)
        self.known_table(statement.table)
        view, table, names = statement.view.name, statement.table.name, []
        for word in statement.to:
            self.known_view(word)
            if word.name == view:
                self.fault("self link", word.at, view)
            if word.name in names or word.name in self.catalog.linked(view, table):
                self.fault("repeated declaration", word.at, word.name)
            names.append(word.name)
        self.catalog.links.append((view, table, tuple(names)))

    def new(self, word, names):
        if word.name in names:
            self.fault("duplicate name", word.at, word.name)

    def known_table(self, word):
        table = self.catalog.tables.get(word.name)
        if table is None:
            self.fault("unknown table", word.at, word.name, self.catalog.tables)
        return table and table.columns

    def known_view(self, word):
        if word.name not in self.catalog.views:
            self.fault("unknown view", word.at, word.name, self.catalog.views)

    # Plans

    def plan(self, plan):
        if isinstance(plan, Scan):
            return self.known_table(plan.table)
        columns = self.plan(plan.input)
        right = self.plan(plan.source) if plan.source else None
        return self.columns_of(plan, columns, right)

    def columns_of(self, step, columns, right=None):
        """The columns that a step makes of those before it, and of those of its source."""
        self.step = step
        if step.kind == "where":
            self.test(step.test, columns)
            return columns
        if step.kind in ("project", "distinct"):
            return self.items(step.items, columns)
        if step.kind == "group":
            return self.group(step, columns)
        if step.kind in ("union", "union all"):
            return self.union(step, columns, right)
        for pair in step.pairs:
            left = self.known(pair.left, columns)
            other = self.known(pair.right, right)
            if differ(left, other):
                self.fault("kind mismatch", pair.right.at, pair.right.name)
        both = None
        if columns is not None and right is not None:
            both = [*columns, *right]
            shared = [column.name for column in right if column.name in {column.name for column in columns}]
            if shared:
                self.fault("duplicate name", step.at, shared[0])
            self.narrow(both, step)
        if step.kind == "theta":
            self.test(step.test, both)
        return both

    def narrow(self, columns, step):
        if len(columns) > COLUMNS:
            self.fault("row too wide", step.at, about=len(columns))

    def known(self, word, columns):
        """The column of this name, or None."""
        if columns is None:
            return None
        for column in columns:
            if column.name == word.name:
                return column
        self.fault("unknown column", word.at, word.name, [column.name for column in columns])
        return None

    def test(self, test, columns):
        if isinstance(test, Not):
            self.test(test.test, columns)
        elif not isinstance(test, Comparison):
            self.test(test.left, columns)
            self.test(test.right, columns)
        else:
            left, right = self.known(test.left, columns), test.right
            other = self.known(right, columns) if isinstance(right, Word) else Column("", kind_of(right.value))
            if differ(left, other):
                self.fault("kind mismatch", right.at, test.left.name)

    def items(self, items, columns):
        made = []
        for item in items:
            column = self.known(item.column, columns)
            if item.width and column and column.kind == "text":
                self.fault("kind mismatch", item.column.at, item.column.name)
            self.new(item.name, [column.name for column in made])
            made.append(Column(item.name.name, column and column.kind, column.level if column else 0))
        return made

    def group(self, step, columns):
        made = []
        for key in step.keys:
            column = self.known(key, columns)
            self.new(key, [column.name for column in made])
            made.append(Column(key.name, column and column.kind, column.level if column else 0))
        for aggregate in step.aggregates:
            kind, level = "int", 0
            if aggregate.column:
                column = self.known(aggregate.column, columns)
                kind, level = (column.kind, column.level) if column else (None, 0)
                if aggregate.what == "sum":
                    if kind == "text":
                        self.fault("kind mismatch", aggregate.column.at, aggregate.column.name)
                    elif level == SUMS:
                        self.fault("sum too deep", aggregate.column.at, aggregate.column.name)
                    kind, level = "int", level + 1
            self.new(aggregate.name, [column.name for column in made])
            made.append(Column(aggregate.name.name, kind, level))
        if not made:
            self.fault("empty list", step.at)
        self.narrow(made, step)
        return made

    def union(self, step, columns, right):
        if columns is None or right is None:
            return None
        if len(columns) != len(right) or any(map(differ, columns, right)):
            self.fault("union shape", step.at, about=(tuple(columns), tuple(right)))
            return columns
        return [Column(left.name, left.kind, max(left.level, other.level)) for left, other in zip(columns, right)]


def kind_of(value):
    return "text" if isinstance(value, str) else "int"


def differ(left, right):
    """Whether two columns are known to be of different kinds."""
    return bool(left and right and left.kind and right.kind and left.kind != right.kind)


def check_steps(columns, steps):
    """The columns that the steps of an `ask` make of a table's columns, a list of Column; raises the first Fault."""
    types = Types()
    for step in steps:
        columns = types.columns_of(step, columns)
    return list(columns)
