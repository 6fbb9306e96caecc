"""The grammar of books and lines, with its limits: texts to trees, or the first fault."""
from smoke.trees import (Aggregate, Back, Both, Comparison, Declared, Dependency, Either, Forward, Item, Line, Link, Literal, Not, Pair, Scan, Step,
                         Table, View, Word)
from smoke.words import (COLUMNS, COMPARISONS, LEVELS, LINEAGES, LINKED, LINKS, MOST_MARK, NAME_BYTES, NODES, TABLES, VIEWS, Fault, bytes_of,
                         token_at, without_marks)

STATEMENTS = ("table", "view", "lineage", "link", "fd")
LINES = ("show", "back", "fwd", "brush", "clear", "ask", "fd", "append")
STEPS = ("where", "project", "distinct", "group", "join", "theta", "product", "union")
ASK_STEPS = ("where", "project", "distinct", "group")
OPERATORS = ("=", "!=", "<", "<=", ">", ">=")
COLUMN = ("name", "quoted")
LITERAL = ("number", "str")


class Reader:
    """Reads a text by the grammar, token by token. A line has no limits, but in the steps of an `ask`."""

    def __init__(self, text, limits=True):
        self.text, self.limits = text, limits
        self.nodes = self.compares = 0
        self.counts = dict.fromkeys(("tables", "views", "lineages", "links"), 0)
        self.start(0)

    def start(self, place):
        """Goes on reading at a place."""
        self.before = None
        self.expected = {}
        self.token = token_at(self.text, place)

    def advance(self):
        """The token in hand, which is taken."""
        token = self.before = self.token
        self.expected = {}
        self.token = token_at(self.text, token.end)
        return token

    def is_at(self, *kinds):
        self.expected.update(dict.fromkeys(kinds))
        return self.token.kind in kinds

    def took(self, *kinds):
        """Takes a token of one of these kinds, if it is in hand."""
        return self.advance() if self.is_at(*kinds) else None

    def expect(self, *kinds):
        return self.took(*kinds) or self.wrong()

    def wrong(self):
        what = {"bad": "bad token", "huge": "bad number"}.get(self.token.kind, "unexpected token")
        raise Fault(what, self.token.at, expected=self.expected)

    def within(self, few, what):
        if self.limits and not few:
            raise Fault(f"too many {what}", self.token.at)

    def word(self):
        """The name in hand, which is taken."""
        self.within(len(bytes_of(self.token.value)) <= NAME_BYTES, "name bytes")
        token = self.advance()
        return Word(token.value, token.at)

    def name(self):
        return self.word() if self.is_at("name") else self.wrong()

    def column(self):
        return self.word() if self.is_at(*COLUMN) else self.wrong()

    def literal(self):
        token = self.expect(*LITERAL)
        return Literal(token.value, token.at)

    def listed(self, member):
        """Members with commas between them. Each is read with the number of those before it."""
        members = [member(0)]
        while self.took(","):
            members.append(member(len(members)))
        return tuple(members)

    def first_column(self, before):
        """The column that a member of a list begins with."""
        if not self.is_at(*COLUMN):
            self.wrong()
        self.within(before < COLUMNS, "columns")
        return self.word()

    # Statements

    def count(self, *kinds):
        """Takes the keyword of a statement, which is one of each of these kinds."""
        limits = {"tables": TABLES, "views": VIEWS, "lineages": LINEAGES, "links": LINKS}
        for kind in kinds:
            self.within(self.counts[kind] < limits[kind], kind)
        for kind in kinds:
            self.counts[kind] += 1
        self.nodes = self.compares = 0
        return self.advance().at

    def statement(self):
        if self.is_at("table"):
            return self.table_statement(self.count("tables"))
        if self.is_at("view"):
            at = self.count("views")
            name = self.name()
            self.expect("=")
            return View(at, name, self.plan(0))
        if self.is_at("lineage"):
            return self.lineage_statement(self.count("lineages"))
        if self.is_at("link"):
            at = self.count("links")
            view, table = self.names("on")
            self.expect("to")
            return Link(at, view, table, self.listed(self.linked))
        if self.is_at("fd"):
            at = self.count("views", "lineages")
            name, table = self.names("on")
            keys = self.listed(self.first_column)
            self.expect("to")
            return Dependency(at, name, table, keys, self.column())
        return self.wrong()

    def table_statement(self, at):
        name = self.name()
        self.expect("from")
        file = self.expect("str").value
        self.expect("(")
        columns = self.listed(self.declared)
        self.expect(")")
        return Table(at, name, file, columns)

    def declared(self, before):
        name = self.first_column(before)
        kind = self.expect("int", "text").kind
        return Declared(name, kind, self.literal() if self.took("default") else None)

    def names(self, between):
        first = self.name()
        self.expect(between)
        return first, self.name()

    def linked(self, before):
        if not self.is_at("name"):
            self.wrong()
        self.within(before < LINKED, "links")
        return self.word()

    def lineage_statement(self, at):
        if self.expect("back", "fwd").kind == "fwd":
            return Forward(at, *self.names("to"))
        view, table = self.names("to")
        if self.took("by"):
            return Back(at, view, table, by=self.column())
        if self.is_at("group"):
            return Back(at, view, table, group=self.grouping(self.advance().at))
        return Back(at, view, table)

    def grouping(self, at, plan=None):
        keys = self.listed(self.first_column) if self.is_at(*COLUMN) else ()
        aggregates = ()
        if self.took("{"):
            aggregates = self.listed(self.aggregate)
            self.expect("}")
        return Step("group", at, plan, keys=keys, aggregates=aggregates)

    def aggregate(self, before):
        name = self.first_column(before)
        self.expect("=")
        what = self.expect("count", "sum", "min", "max").kind
        return Aggregate(name, what, None if what == "count" else self.column())

    # Plans

    def plan(self, depth):
        plan = self.source(depth)
        while self.took("|"):
            plan = self.step(depth, plan, STEPS)
        return plan

    def source(self, depth):
        if self.is_at("scan"):
            at = self.node().at
            return Scan(at, self.name())
        if not self.is_at("("):
            self.wrong()
        self.within(depth < LEVELS, "levels")
        self.advance()
        plan = self.plan(depth + 1)
        self.expect(")")
        return plan

    def node(self):
        """Takes a keyword that makes a node of the plan."""
        self.within(self.nodes < NODES, "nodes")
        self.nodes += 1
        self.compares = 0
        return self.advance()

    def step(self, depth, plan, kinds):
        if not self.is_at(*kinds):
            self.wrong()
        token = self.node()
        kind, at = token.kind, token.at
        if kind == "where":
            return Step(kind, at, plan, test=self.test(depth))
        if kind in ("project", "distinct"):
            return Step(kind, at, plan, items=self.listed(self.item))
        if kind == "group":
            return self.grouping(at, plan)
        if kind == "join":
            source = self.source(depth)
            self.expect("on")
            return Step(kind, at, plan, source, pairs=self.listed(self.pair))
        if kind == "theta":
            source = self.source(depth)
            self.expect("on")
            self.compares = 0
            return Step(kind, at, plan, source, test=self.test(depth))
        if kind == "union" and self.took("all"):
            kind = "union all"
        return Step(kind, at, plan, self.source(depth))

    def item(self, before):
        if self.is_at("bin"):
            self.within(before < COLUMNS, "columns")
            self.advance()
            self.expect("(")
            column = self.column()
            self.expect(",")
            width = self.width()
            self.expect(")")
            self.expect("as")
            return Item(column, width, self.column())
        column = self.first_column(before)
        return Item(column, None, self.column() if self.took("as") else column)

    def width(self):
        if self.is_at("number") and self.token.value < 1:
            raise Fault("bad number", self.token.at)
        return self.expect("number").value

    def pair(self, before):
        left = self.first_column(before)
        self.expect("=")
        return Pair(left, self.column())

    # Tests

    def test(self, depth):
        test = self.all_of(depth)
        while self.took("or"):
            test = Either(test, self.all_of(depth))
        return test

    def all_of(self, depth):
        test = self.one(depth)
        while self.took("and"):
            test = Both(test, self.one(depth))
        return test

    def one(self, depth):
        if self.is_at("not", "("):
            self.within(depth < LEVELS, "levels")
            if self.advance().kind == "not":
                return Not(self.one(depth + 1))
            test = self.test(depth + 1)
            self.expect(")")
            return test
        if not self.is_at(*COLUMN):
            self.wrong()
        self.within(self.compares < COMPARISONS, "comparisons")
        left = self.word()
        self.compares += 1
        operator = self.expect(*OPERATORS).kind
        return Comparison(left, operator, self.column() if self.is_at(*COLUMN) else self.literal())

    # Lines

    def line(self):
        kind = self.expect(*LINES).kind
        if kind in ("show", "fd"):
            return Line(kind, self.name().name)
        if kind == "clear":
            if not self.is_at("name"):
                return Line(kind)
            view, table = self.names("on")
            return Line(kind, view.name, table.name)
        if kind == "append":
            table = self.name().name
            return Line(kind, table=table, file=self.expect("str").value)
        if kind == "ask":
            self.expect("back")
        first, marks, second = self.marked("on" if kind == "brush" else "to")
        if kind == "fwd":
            return Line(kind, second, first, marks)
        if kind == "ask":
            self.expect("|")
            return Line(kind, first, second, marks, steps=self.steps())
        if kind == "back" and self.took("where"):
            column = self.column().name
            self.expect("=")
            return Line(kind, first, second, marks, column, self.literal().value)
        return Line(kind, first, second, marks, group=bool(kind == "back" and self.took("group")))

    def marked(self, between):
        first = self.name().name
        marks = None if self.took("all") else self.listed(self.mark)
        self.expect(between)
        return first, marks, self.name().name

    def mark(self, _before):
        if self.is_at("number") and not 0 <= self.token.value <= MOST_MARK:
            raise Fault("bad number", self.token.at)
        return self.expect("number").value

    def steps(self):
        self.limits = True
        steps = [self.step(0, None, ASK_STEPS)]
        while self.took("|"):
            steps.append(self.step(0, None, ASK_STEPS))
        return tuple(steps)


def read_statements(text):
    """The statements of a book's bytes; raises the first Fault of its grammar."""
    reader = Reader(without_marks(text))
    statements = []
    while not reader.is_at("end"):
        statements.append(reader.statement())
    return tuple(statements)


def lines_of(script):
    """The lines of a script's bytes, without their ends."""
    pieces = without_marks(script).split(b"\n")
    if not pieces[-1]:
        pieces.pop()
    return [piece[:-1] if piece.endswith(b"\r") else piece for piece in pieces]


def read_line(text):
    """The question of a line's bytes, None where there is none. Raises a Fault where it is not read; its byte is what counts."""
    reader = Reader(text, limits=False)
    if reader.is_at("end"):
        return None
    line = reader.line()
    reader.expect("end")
    return line
