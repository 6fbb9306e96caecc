"""Queries of SQL over a book that is in a database: rows of views with their marks, and lineage. Nothing of it is proved.

A table has a column `rid`, from 0 in the file's order. A view is a materialized view: its rows without brushes, each with its `mark`, its
columns, and its `place`: where it first appears. The place of a table's row is its rid; of a joined row the places of both sides, an array;
of a grouped row the least of its rows' places; of a row of a union it begins with the side, 0 or 1. So each row of a node has a place of its
own, the rows' order is that of their places, and lineage follows from places and keys: no table of pairs is made.

    book = names.Book(text)              raises language.Fault
    Writer(book).first("by_region")      SQL, in which values stand as %(v0)s, and the Writer's `values`
"""
from dataclasses import dataclass

from smoke import language
from smoke.language import Scan, Step, Word, bytes_of
from smoke.names import fits, quoted
from smoke.summaries import Atom, Missing, Reader
from smoke.trees import Both, Either, Not


def width(plan):
    """The length of the places of a plan's rows."""
    if isinstance(plan, Scan):
        return 1
    if plan.source is None:
        return width(plan.input)
    if plan.kind in ("union", "union all"):
        return 1 + max(width(plan.input), width(plan.source))
    return width(plan.input) + width(plan.source)


def is_chain(plan):
    """Whether a plan only scans, selects and projects."""
    return isinstance(plan, Scan) or plan.kind in ("where", "project") and is_chain(plan.input)


def tables_of(plan):
    return {node.table.name for node in language.nodes_of(plan) if isinstance(node, Scan)}


def grouping_over(plan, table):
    """The grouping of a plan that selects and projects over a grouping of rows that are each of one row of a table; else None."""
    while isinstance(plan, Step) and plan.kind in ("where", "project"):
        plan = plan.input
    fits_here = isinstance(plan, Step) and plan.kind in ("group", "distinct") and is_chain(plan.input) and tables_of(plan) == {table}
    return plan if fits_here else None


def selects_groups(plan):
    """Whether a plan leaves out rows of the last grouping in it."""
    while isinstance(plan, Step) and plan.kind == "project":
        plan = plan.input
    return isinstance(plan, Step) and plan.kind == "where"


@dataclass
class Value:
    """An expression of SQL, with its kind and level. It is simple where it is a column."""

    sql: str
    kind: str
    level: int = 0
    simple: bool = True


@dataclass
class Block:
    """A query whose parts are still apart: what it reads, its tests, its columns by name, and the numbers of its rows' places. With a `weight`,
    each of its rows stands for so many."""

    sources: list
    tests: list
    columns: dict
    place: list
    weight: str = ""

    def single(self):
        """This block, in which each row stands for itself. Raises Missing."""
        if self.weight:
            raise Missing
        return self

    def whole_place(self):
        if len(self.place) == 1:
            return self.place[0]
        front = self.place[0].removesuffix("[1]")
        if front != self.place[0] and self.place == [f"{front}[{number}]" for number in range(1, len(self.place) + 1)]:
            return front
        return f"array[{', '.join(self.place)}]"

    def select(self, what, more=""):
        tests = f"\nwhere {' and '.join(self.tests)}" if self.tests else ""
        return f"select {what}\nfrom {', '.join(self.sources)}{tests}{more}"


def bin_of(sql, width, numeric=False):
    """The SQL of a number by a width, rounded down."""
    quotient = f"div({sql}, {width})" if numeric else f"{sql} / {width}"
    return f"({quotient} - case when {sql} %% {width} < 0 then 1 else 0 end)"


def literal(value):
    """The spelling of a value in SQL."""
    if isinstance(value, bytes):
        return rf"'\x{value.hex()}'::bytea"
    if isinstance(value, list):
        return f"'{{{','.join(map(str, value))}}}'"
    return str(value) if isinstance(value, int) else "'" + value.replace("'", "''") + "'"


class Writer:
    """Writes queries over a book. What a value stands for, at its place %(v0)s, is in `values`: an int, a str, bytes or a list of ints. With
    `summaries`, a dict from tables to a Summary, it raises Missing where they don't have what a query asks."""

    def __init__(self, book, summaries=None):
        self.book = book
        self.summaries = summaries or {}
        self.readers = {}  # of the aliases under which summaries are read
        self.values = {}
        self.aliases = 0
        self.queries = []  # that stand before the statement, each by its name
        self.behind_marks = {}  # those of rids behind marks, which are asked for once

    def value(self, value):
        name = f"v{len(self.values)}"
        self.values[name] = value
        return f"%({name})s"

    def alias(self, front):
        self.aliases += 1
        return f"{front}{self.aliases}"

    def place_before(self, query, form="as"):
        """Puts a query before the statement, and gives its name."""
        name = f"w{len(self.queries) + 1}"
        self.queries.append(f"{name} {form} ({indented(query)})")
        return name

    def whole(self, query):
        """The statement of a query, with all that stands before it."""
        before = ",\n".join(self.queries)
        return f"with {before}\n{query}" if before else query

    # Rows of plans

    def rows(self, plan, within=None, under=None):
        """The rows of a plan, a Block. With `within`, a query of places, those of its rows that have one of them. With `under`, a function of
        a table and an alias that gives tests, over those rows of each table that meet them."""
        if isinstance(plan, Scan):
            return self.scan(plan.table.name, within, under) if within or not under else self.summed(plan.table.name, under)
        if plan.kind in ("where", "project"):
            return self.over(plan, self.rows(plan.input, within, under))
        if plan.kind == "union all":
            return self.both(plan, within, under)
        if plan.kind in ("group", "distinct", "union"):
            inner = self.grouped_rows(plan, None, under)
            if within:
                inner.tests.append(self.has_key(plan, inner, [self.grouped_rows(plan, within, under)]))
            return self.grouped(plan, inner)
        left, right = width(plan.input), width(plan.source)
        block = self.joined(plan, self.rows(plan.input, within and part(within, 0, left), under),
                            self.rows(plan.source, within and part(within, left, right), under))
        if within:
            block.tests.append(f"{block.whole_place()} in ({within})")
        return block

    def scan(self, table, within=None, under=None, alias=None):
        alias = alias or self.alias("t")
        tests = list(under(table, alias)) if under else []
        if within:
            tests.append(f"{alias}.rid in ({within})")
        return Block([f"{self.book.table(table)} {alias}"], tests, self.columns(table, alias), [f"{alias}.rid"])

    def summed(self, table, under):
        """The rows of a table that meet tests, or those of its summary."""
        if table not in self.summaries:
            return self.scan(table, under=under)
        summary, alias = self.summaries[table], self.alias("s")
        self.readers[alias] = Reader(summary, alias)
        tests = list(under(table, alias))
        return Block([f"{summary.sql} {alias}"], tests, self.columns(table, alias), [f"{alias}.rid"], f"{alias}.n")

    def columns(self, table, alias):
        """The columns of a table under an alias, also where they are read from a summary: Values by name."""
        names = self.book.table_columns[table]
        if alias not in self.readers:
            return {column.name: Value(f"{alias}.{quoted(names[column.name])}", column.kind) for column in self.book.catalog.tables[table].columns}
        return {column.name: Atom(self.readers[alias], f"t.{quoted(names[column.name])}", column.kind)
                for column in self.book.catalog.tables[table].columns}

    def tested(self, test, columns):
        """The test of a `where`: a column of a summary where all of it is over one row that is read from one."""
        read = [columns[name] for name in named_in(test)]
        if not all(isinstance(value, Atom) for value in read) or len({value.reader for value in read}) > 1:
            return self.test(test, columns)
        inner = Writer(self.book)
        raw = {name: Value(columns[name].text, columns[name].kind) for name in named_in(test)}
        text = inner.test(test, raw)
        return read[0].reader.column((text % {name: literal(value) for name, value in inner.values.items()}).replace("%", "%%"))

    def over(self, step, block):
        """A block with a `where` or a `project` over it."""
        if step.kind == "where":
            block.tests.append(self.tested(step.test, block.columns))
            return block
        if any(item.width and not block.columns[item.column.name].simple for item in step.items):
            block = self.closed(block, "offset 0")  # an expression in itself, once more in itself, doubles
        block.columns = {item.name.name: self.item(item, block.columns) for item in step.items}
        return block

    def item(self, item, columns):
        value = columns[item.column.name]
        if not item.width:
            return value
        if isinstance(value, Atom):
            return Atom(value.reader, bin_of(value.text, item.width), "int")
        return Value(bin_of(value.sql, self.value(item.width), value.level), "int", value.level, False)

    def joined(self, step, left, right):
        """The block of a join, a theta join or a product of two."""
        tests = [f"{left.columns[pair.left.name].sql} = {right.columns[pair.right.name].sql}" for pair in step.pairs]
        weight = right.weight and left.single() and right.weight or left.weight
        block = Block(left.sources + right.sources, left.tests + right.tests + tests, left.columns | right.columns, left.place + right.place, weight)
        if step.kind == "theta":
            block.tests.append(self.test(step.test, block.columns))
        return block

    def both(self, step, within=None, under=None):
        """The block of the rows of both sides of a union, all of them."""
        sides = []
        for side, plan in enumerate((step.input, step.source)):
            sides.append(self.rows(plan, within and part(within, 1, width(plan), side), under))
        return self.union(step, *sides)

    def union(self, step, left, right):
        """The block of all rows of two blocks, the sides of a union. A side that is None has none."""
        wide = width(step)
        alias = self.alias("u")
        selects = []
        for side, block in enumerate((left, right)):
            if block is not None and block.single():
                place = ", ".join([str(side), *block.place, *["0"] * (wide - 1 - len(block.place))])
                listed = [f"{value.sql} as c{number}" for number, value in enumerate(block.columns.values())]
                selects.append(block.select(", ".join([f"array[{place}]::bigint[] as place", *listed])))
        there = left or right
        columns = {}
        for number, (name, value) in enumerate(there.columns.items()):
            level = value.level if left is None or right is None else max(value.level, list(right.columns.values())[number].level)
            columns[name] = Value(f"{alias}.c{number}", value.kind, level)
        return Block([f"({indented(UNION.join(selects))}) {alias}"], [], columns, [f"{alias}.place[{number}]" for number in range(1, wide + 1)])

    def closed(self, block, more=""):
        """A block over a whole query."""
        alias = self.alias("q")
        listed = [f"{value.sql} as c{number}" for number, value in enumerate(block.columns.values())]
        query = block.single().select(", ".join([f"{block.whole_place()} as place", *listed]), more and f"\n{more}")
        columns = {name: Value(f"{alias}.c{number}", value.kind, value.level) for number, (name, value) in enumerate(block.columns.items())}
        return Block([f"({indented(query)}) {alias}"], [], columns, places(alias, len(block.place)))

    # Groups

    def grouped_rows(self, plan, within=None, under=None):
        """The rows that a `group`, `distinct` or `union` puts together."""
        return self.both(plan, within, under) if plan.kind == "union" else self.rows(plan.input, within, under)

    def keys(self, plan, block):
        """The keys of a `group`, `distinct` or `union` over a block: Values by name."""
        if plan.kind == "union":
            return block.columns
        if plan.kind == "distinct":
            return {item.name.name: self.item(item, block.columns) for item in plan.items}
        return {key.name: block.columns[key.name] for key in plan.keys}

    def grouped(self, plan, block):
        """The block of the groups of a block."""
        if plan.kind == "distinct":
            block = self.over(Step("project", plan.at, None, items=plan.items), block)
            plan = Step("group", plan.at, None, keys=tuple(item.name for item in plan.items))
        keys = self.keys(plan, block)
        made = list(keys.items()) + [(aggregate.name.name, self.aggregate(aggregate, block)) for aggregate in plan.aggregates]
        alias = self.alias("g")
        listed = [f"min({block.whole_place()}) as place", *[f"{value.sql} as c{number}" for number, (_, value) in enumerate(made)]]
        more = f"\ngroup by {', '.join(str(number + 2) for number in range(len(keys)))}" if keys else "\nhaving count(*) > 0"
        query = self.put_together([aggregate.what for aggregate in plan.aggregates], len(keys), [
            part.select(", ".join(listed), more) for part in self.on_servers(block)])
        columns = {name: Value(f"{alias}.c{number}", value.kind, value.level) for number, (name, value) in enumerate(made)}
        return Block([f"({indented(query)}) {alias}"], [], columns, places(alias, len(block.place)))

    def on_servers(self, block):
        """The blocks of which a block is the rows: one for each part of its table where it reads one table that lies on several servers."""
        for table, parts in self.book.parts.items():
            source = f"{self.book.table(table)} "
            if len(block.sources) == 1 and block.sources[0].startswith(source):
                return [Block([f"{part} {block.sources[0].removeprefix(source)}"], block.tests, block.columns, block.place) for part in parts]
        return [block]

    def put_together(self, aggregates, keys, queries):
        """The query of groups of which each of these queries has a part: its places, keys and aggregates."""
        if len(queries) == 1:
            return queries[0]
        alias = self.alias("p")
        forms = {"count": "sum(%s)::bigint", "sum": "sum(%s)", "min": "min(%s)", "max": "max(%s)"}
        listed = [f"min({alias}.place) as place", *[f"{alias}.c{number} as c{number}" for number in range(keys)]]
        listed += [f"{forms[what] % f'{alias}.c{number}'} as c{number}" for number, what in enumerate(aggregates, keys)]
        more = f"\ngroup by {', '.join(str(number + 2) for number in range(keys))}" if keys else "\nhaving count(*) > 0"
        return f"select {', '.join(listed)}\nfrom ({indented(UNION.join(queries))}) {alias}{more}"

    def aggregate(self, aggregate, block):
        if aggregate.what == "count":
            return Value(f"sum({block.weight})::bigint" if block.weight else "count(*)", "int")
        value = block.columns[aggregate.column.name]
        is_sum = aggregate.what == "sum"
        if isinstance(value, Atom):
            sql = value.reader.aggregate(aggregate.what, value)
        else:
            sql = f"{value.sql} * {block.weight}" if block.weight and is_sum else value.sql
        return Value(self.aggregated(aggregate.what, sql, value.kind), value.kind, value.level + is_sum)

    def aggregated(self, what, sql, kind):
        """The SQL of a sum, a least or a most."""
        if kind == "text" and self.book.texts == "bytea":  # PostgreSQL 15 has no least of bytea; the order of hex digits is the same
            return f"""decode({what}(encode({sql}, 'hex') collate "C"), 'hex')"""
        return f"{what}({sql})"

    def has_key(self, plan, block, others):
        """The test that a row of a block, which a grouping puts together, has a key that a row of the other blocks has."""
        keys = [value.sql for value in self.keys(plan, block).values()]
        if not keys:
            return "(" + " or ".join(f"exists ({indented(other.select('1'))})" for other in others) + ")"
        selects = []
        for other in others:
            selects.append(other.select(", ".join(value.sql for value in self.keys(plan, other).values())))
        front = keys[0] if len(keys) == 1 else f"({', '.join(keys)})"
        return f"{front} in ({indented(UNION.join(selects))})"

    # Tests

    def test(self, test, columns):
        if isinstance(test, Not):
            return f"not {self.test(test.test, columns)}"
        if isinstance(test, (Both, Either)):
            return f"({self.test(test.left, columns)} {'and' if isinstance(test, Both) else 'or'} {self.test(test.right, columns)})"
        right = columns[test.right.name] if isinstance(test.right, Word) else test.right.value
        return self.comparison(columns[test.left.name], test.operator, right)

    def comparison(self, left, operator, right):
        """The test of a Value and a Value, an int or a str."""
        operator = "<>" if operator == "!=" else operator
        if isinstance(right, (Value, Atom)):
            return f"({left.sql} {operator} {right.sql})"
        if isinstance(right, int):
            return f"({left.sql} {operator} {self.value(right)})"
        if self.book.texts == "bytea":
            return f"({left.sql} {operator} {self.value(bytes_of(right))})"
        if fits(right):
            return f"({left.sql} {operator} {self.value(right)})"
        return f"(convert_to({left.sql}, 'UTF8') {operator} {self.value(bytes_of(right))})"

    # Lineage

    def marked(self, view, marks):
        """The query of the places of marked rows of a view; `marks` are ints, SQL for an array of them, or None for all."""
        if isinstance(marks, (list, tuple)):
            marks = f"{self.value(list(marks))}::bigint[]"
        test = "" if marks is None else f" where mark = any({marks})"
        return f"select place from {self.book.view(view)}{test}"

    def came_from(self, plan, table, within):
        """Queries of the rids of a table's rows that those rows of a plan came from which have one of the places `within`."""
        if table not in tables_of(plan):
            return []
        if isinstance(plan, Scan):
            return [within]
        if plan.kind in ("where", "project"):
            return self.came_from(plan.input, table, within)
        if plan.kind in ("group", "distinct", "union"):
            inner = self.grouped_rows(plan)
            inner.tests.append(self.has_key(plan, inner, [self.grouped_rows(plan, within)]))
            within = f"select place from {self.place_before(inner.select(f'{inner.whole_place()} as place'))}"
        if plan.source is None:
            return self.came_from(plan.input, table, within)
        left, right = width(plan.input), width(plan.source)
        if plan.kind in ("union", "union all"):
            return self.came_from(plan.input, table, part(within, 1, left, 0)) + self.came_from(plan.source, table, part(within, 1, right, 1))
        return self.came_from(plan.input, table, part(within, 0, left)) + self.came_from(plan.source, table, part(within, left, right))

    def behind(self, view, marks, table, alias, keys=None):
        """The test that a row of a table, under an alias, is one that the marked rows of a view came from. `keys` are those of the marks,
        where they are known: tuples of values, as `keys_of` gives them."""
        plan = self.book.catalog.views[view].plan
        within = self.marked(view, marks)
        grouping = grouping_over(plan, table)
        inner = grouping and self.chain(grouping.input, alias)
        if inner and inner.place == [f"{alias}.rid"]:
            if keys is not None:
                inner.tests.append(self.is_key([value.sql for value in self.keys(grouping, inner).values()], keys))
            elif marks is not None or selects_groups(plan):
                inner.tests.append(self.has_key(grouping, inner, [self.grouped_rows(grouping, within)]))
            return " and ".join(inner.tests) or "true"
        if alias in self.readers:
            raise Missing
        asked = view, str(marks), table
        if asked not in self.behind_marks:
            found = self.came_from(plan, table, within)
            short = len(found) == 1 and len(found[0]) < 200
            self.behind_marks[asked] = found[0] if short else found and f"select place from {self.place_before(UNION.join(found))}"
        return f"{alias}.rid in ({self.behind_marks[asked]})" if self.behind_marks[asked] else "false"

    def is_key(self, expressions, keys):
        """The test that expressions have the values of one of some keys."""
        if not keys:
            return "false"
        if not expressions:
            return "true"
        listed = [f"({', '.join(self.value(value) for value in key)})" for key in keys]
        front = expressions[0] if len(expressions) == 1 else f"({', '.join(expressions)})"
        return f"{front} in ({', '.join(listed)})"

    def keys_of(self, view, marks, table):
        """The query of the keys of marked rows of a view that groups rows of a table, and the kinds of the keys; None for another view."""
        plan = self.book.catalog.views[view].plan
        grouping = grouping_over(plan, table)
        if grouping is None:
            return None
        block = self.rows(grouping.input, self.marked(view, marks))
        values = self.keys(grouping, block).values()
        return block.select(f"distinct {', '.join(value.sql for value in values)}" if values else "1"), [value.kind for value in values]

    def chain(self, plan, alias):
        """The block of a chain whose scan has this alias."""
        if isinstance(plan, Step):
            return self.over(plan, self.chain(plan.input, alias))
        return Block([], [], self.columns(plan.table.name, alias), [f"{alias}.rid"])

    def reached(self, plan, table, under):
        """Blocks of those rows of a plan that came from a row of a table that meets tests, a function of an alias."""
        if table not in tables_of(plan):
            return []
        if isinstance(plan, Scan):
            return [self.scan(table, under=lambda _, alias: under(alias))]
        if plan.kind in ("where", "project"):
            return [self.over(plan, block) for block in self.reached(plan.input, table, under)]
        if plan.kind in ("group", "distinct"):
            inner = self.rows(plan.input)
            inner.tests.append(self.has_key(plan, inner, self.reached(plan.input, table, under)))
            return [self.grouped(plan, inner)]
        left, right = self.reached(plan.input, table, under), self.reached(plan.source, table, under)
        if plan.kind in ("union", "union all"):
            found = [self.union(plan, block, None) for block in left] + [self.union(plan, None, self.renamed(plan, block)) for block in right]
            if plan.kind == "union all":
                return found
            inner = self.both(plan)
            inner.tests.append(self.has_key(plan, inner, found))
            return [self.grouped(plan, inner)]
        return ([self.joined(plan, block, self.rows(plan.source, under=untested)) for block in left]
                + [self.joined(plan, self.rows(plan.input, under=untested), block) for block in right])

    def renamed(self, plan, block):
        """The right side of a union, with the names of the left side."""
        names = self.names(plan.input)
        block.columns = dict(zip(names, block.columns.values()))
        return block

    def names(self, plan):
        """The names of a plan's columns."""
        if isinstance(plan, Scan):
            return [column.name for column in self.book.catalog.tables[plan.table.name].columns]
        if plan.kind in ("project", "distinct"):
            return [item.name.name for item in plan.items]
        if plan.kind == "group":
            return [key.name for key in plan.keys] + [aggregate.name.name for aggregate in plan.aggregates]
        return self.names(plan.input) + (self.names(plan.source) if plan.kind in ("join", "theta", "product") else [])

    def kept_keys(self, plan):
        """Of a view that selects and projects over a grouping and keeps its keys: the grouping, and the view's columns that have the keys.
        Else None."""
        names = {name: name for name in self.names(plan)}  # of the view's columns, by their names before the steps
        while isinstance(plan, Step) and plan.kind in ("where", "project"):
            if plan.kind == "project":
                kept = [item for item in plan.items if item.width is None and item.name.name in names]
                names = {item.column.name: names[item.name.name] for item in kept}
            plan = plan.input
        if not isinstance(plan, Step) or plan.kind not in ("group", "distinct"):
            return None
        keys = self.names(plan)[:len(plan.keys) or len(plan.items)]
        return (plan, [names[key] for key in keys]) if keys and all(key in names for key in keys) else None

    def marks(self, view, table, under):
        """The query of the marks of a view's rows that came from a row of a table that meets tests, a function of an alias."""
        plan = self.book.catalog.views[view].plan
        if table not in tables_of(plan):
            return f"select mark from {self.book.view(view)} where false"
        kept = self.kept_keys(plan)
        if kept:
            plan, names = kept
            columns = [f"v.{quoted(self.book.view_columns[view][name])}" for name in names]
            found = [block.select(", ".join(value.sql for value in self.keys(plan, block).values())) for block in self.reached(plan.input, table, under)]
            front = columns[0] if len(columns) == 1 else f"({', '.join(columns)})"
        elif self.summaries:
            raise Missing  # a summary has the least of some places
        else:
            found = [block.select(block.whole_place()) for block in self.reached(plan, table, under)]
            front = "v.place"
        return self.whole(f"select mark\nfrom {self.book.view(view)} v\nwhere {front} in ({indented(UNION.join(found))})\norder by mark")

    # Answers

    def first(self, view):
        """The query of a view's rows without brushes: mark, place, columns."""
        block = self.rows(self.book.catalog.views[view].plan)
        names = self.book.view_columns[view]
        listed = [f"{value.sql} as {quoted(names[name])}" for name, value in block.columns.items()]
        order = ", ".join(block.place if not block.whole_place().endswith(".place") else [block.whole_place()])
        return block.select(",\n  ".join([f"row_number() over (order by {order}) - 1 as mark", f"{block.whole_place()} as place", *listed]))

    def marked_rows(self, view, some=None):
        """The query of a view's rows without brushes, with marks, all or those numbered from `some[0]` on and below `some[1]`."""
        names = ", ".join(["mark", *[quoted(name) for name in self.book.view_columns[view].values()]])
        test = f" where mark >= {self.value(some[0])} and mark < {self.value(some[1])}" if some else ""
        return f"select {names} from {self.book.view(view)}{test} order by mark"

    def ordered(self, block, some=None):
        """The query of a block's rows in their order, their columns alone. Of a part, (begin, end), there are the number of all rows and the
        place in front of them; a row without a place stands for none. Raises Missing."""
        block.single()
        columns = [value.sql for value in block.columns.values()]
        if some is None:
            return self.whole(block.select(", ".join(columns), f"\norder by {', '.join(block.place)}"))
        listed = [f"{sql} as c{number}" for number, sql in enumerate(columns)]
        query = block.select(", ".join([f"{block.whole_place()} as place", *listed]))
        name = self.place_before(query, "as materialized")
        return self.whole(f"select (select count(*) from {name}), p.*\nfrom (select) one left join"
                          f" (select * from {name} order by place {self.limits(some)}) p on true\norder by p.place")

    def table_rows(self, table, tests, some=None):
        """The query of the rids and columns of a table's rows that meet tests, a function of an alias. A part is as in `ordered`."""
        block = self.scan(table, under=lambda _, alias: tests(alias))
        listed = ", ".join([*block.place, *[value.sql for value in block.columns.values()]])
        if some is None:
            return self.whole(block.select(listed, f"\norder by {block.place[0]}"))
        query = block.select(listed, f"\norder by {block.place[0]} {self.limits(some)}")
        return self.whole(f"select n.n, p.*\nfrom ({indented(self.counted(table, tests))}) n(n) left join"
                          f" ({indented(query)}) p on true\norder by p.rid")

    def part_of_rows(self, table, tests, some, found, is_rare):
        """The query of a part of a table's rows that meet tests; `found` is their number and the least of their rids. They are read in the order of
        rids from the nearer end on till the part is there, or, where they are rare, after the rids of all of them."""
        block = self.scan(table, under=lambda _, alias: tests(alias))
        (begin, end), (count, first), rid = some, found, block.place[0]
        if is_rare:
            rids = self.place_before(block.select(f"{rid} as rid"), "as materialized")
            within = f"select rid from {rids} order by rid {self.limits(some)}"
        else:
            block.tests.append(f"{rid} >= {self.value(first)}")
            is_near = end <= count - begin
            order, some = ("", some) if is_near else (" desc", (count - end, count - begin))
            within = block.select(rid, f"\norder by {rid}{order} {self.limits(some)}")
        block = self.scan(table, f"select rid from ({indented(within)}) r")
        listed = ", ".join([*block.place, *[value.sql for value in block.columns.values()]])
        return self.whole(block.select(listed, f"\norder by {block.place[0]}"))

    def limits(self, some):
        return f"offset {self.value(some[0])} limit {self.value(max(0, some[1] - some[0]))}"

    def table_rids(self, table, tests):
        """The query of the rids of a table's rows that meet tests, a function of an alias."""
        block = self.scan(table, under=lambda _, alias: tests(alias))
        return self.whole(block.select(block.place[0], f"\norder by {block.place[0]}"))

    def table_count(self, table, tests):
        """The query of the number of a table's rows that meet tests, a function of an alias."""
        return self.whole(self.counted(table, tests))

    def found(self, table, tests):
        """The query of the number of a table's rows that meet tests, and of the least of their rids. Raises Missing where no summary has them."""
        block = self.summed(table, lambda _, alias: tests(alias))
        if not block.weight:
            raise Missing
        return self.whole(block.select(f"coalesce(sum({block.weight}), 0)::bigint, min({block.place[0]})"))

    def counted(self, table, tests):
        block = self.summed(table, lambda _, alias: tests(alias))
        if block.weight:
            return block.select(f"coalesce(sum({block.weight}), 0)::bigint")
        return "select " + " + ".join(f"({part.select('count(*)')})" for part in self.on_servers(block))

    def violations(self, statement, brief=False):
        """The query of the rows of each key that breaks a dependency: mark, rid, columns; or of marks and the numbers of these rows."""
        view, table = statement.name.name, statement.table.name
        block = self.scan(table)
        names = self.book.view_columns[view]
        for key in statement.keys:
            block.tests.append(f"v.{quoted(names[key.name])} = {block.columns[key.name].sql}")
        block.sources.insert(0, f"{self.book.view(view)} v")
        if brief:
            return block.select("v.mark, count(*)", "\ngroup by 1\norder by 1")
        listed = ", ".join(["v.mark", *block.place, *[value.sql for value in block.columns.values()]])
        return block.select(listed, f"\norder by v.mark, {block.place[0]}")


UNION = "\nunion all\n"


def untested(_table, _alias):
    """No tests: for rows of which only the keys count, so that they can be those of a summary."""
    return []


def named_in(test):
    """The names of the columns in a test."""
    if isinstance(test, Not):
        return named_in(test.test)
    if isinstance(test, (Both, Either)):
        return named_in(test.left) + named_in(test.right)
    return [test.left.name] + ([test.right.name] if isinstance(test.right, Word) else [])


def places(alias, wide):
    return [f"{alias}.place"] if wide == 1 else [f"{alias}.place[{number}]" for number in range(1, wide + 1)]


def part(within, start, count, side=None):
    """The query of parts of places, each of so many numbers behind the first ones; of those alone that begin with a side."""
    inner = f"s.place[{start + 1}]" if count == 1 else f"s.place[{start + 1}:{start + count}]"
    return f"select {inner} as place from ({indented(within)}) s" + ("" if side is None else f" where s.place[1] = {side}")


def indented(text):
    return text.replace("\n", "\n  ")
