"""Random books that the grammar takes, of which about half have a fault of names or kinds; and random steps and lines over a book."""

COLUMNS = ["a", "b", "c", "d", "e", "`f g`", "n", "s", "`count`", "least"]


class Maker:
    """Makes a book. It knows the columns of each plan that it makes, and mostly takes names that are there."""

    def __init__(self, chance):
        self.chance = chance
        self.tables, self.views = {}, {}
        self.wrong = chance.choice((0, 0.01, 0.04))  # how often it takes any name
        self.levels = chance.random() < 0.3  # whether sums go on top of each other

    def name(self, columns, kind=None):
        fitting = [name for name, other in columns if kind in (None, other)]
        if not fitting or self.chance.random() < self.wrong:
            return self.chance.choice(COLUMNS)
        return self.chance.choice(fitting)

    def new(self, columns):
        taken = {name for name, _ in columns}
        free = [name for name in COLUMNS if name not in taken]
        return self.chance.choice(COLUMNS if not free or self.chance.random() < 2 * self.wrong else free)

    def kind(self, columns, name):
        return dict(columns).get(name, "int")

    def literal(self, kind):
        if self.chance.random() < self.wrong:
            kind = self.chance.choice(("int", "text"))
        return self.chance.choice(("0", "1", "-5", "9223372036854775807", "007")) if kind == "int" else self.chance.choice(('"x"', '""', '"a""b"', '"1"'))

    def table(self):
        name = f"t{len(self.tables)}" if self.chance.random() > self.wrong else "t0"
        columns = []
        for _ in range(self.chance.choice((1, 2, 3, 3, 4, 6, 9))):
            columns.append((self.new(columns) if len(columns) < 9 else f"x{len(columns)}", self.chance.choice(("int", "int", "text"))))
        shown = []
        for column, kind in columns:
            default = f" default {self.literal(kind)}" if self.chance.random() < 0.1 else ""
            shown.append(f"{column} {kind}{default}")
        self.tables.setdefault(name, columns)
        return f'table {name} from "{name}.csv" ({", ".join(shown)})'

    def any_table(self):
        return self.chance.choice([*self.tables] if self.chance.random() > self.wrong else [*self.tables, *self.views, "t9"])

    def any_view(self):
        return self.chance.choice([*self.views] if self.chance.random() > self.wrong else [*self.tables, *self.views, "v9"])

    def plan(self, depth=0):
        table = self.any_table()
        text, columns = f"scan {table}", list(self.tables.get(table, [("a", "int")]))
        if self.levels and depth == 0 and self.chance.random() < 0.5:
            for _ in range(self.chance.choice((3, 4, 4))):
                step, columns = self.group(columns)
                text += f" | {step}"
        for _ in range(self.chance.choice((0, 1, 1, 2, 3, 5))):
            step, columns = self.step(columns, depth)
            text += f" | {step}"
        return text, columns

    def source(self, depth):
        if self.chance.random() < 0.3 and depth < 3:
            text, columns = self.plan(depth + 1)
            made = [(f"{self.chance.choice('uvw')}{depth}{place}", kind) for place, (_, kind) in enumerate(columns)]
            if self.chance.random() < 0.8:
                text += " | project " + ", ".join(f"{old} as {new}" for (old, _), (new, _) in zip(columns[:16], made))
                return f"({text})", made[:16]
            return f"({text})", columns
        table = self.any_table()
        if self.chance.random() < 0.15:
            return f"scan {table}", list(self.tables.get(table, [("a", "int")]))
        columns = self.tables.get(table, [("a", "int")])
        made, items = [], []
        for name, kind in columns[:4]:
            new = f"{self.chance.choice('pqrstuvwxyz')}{self.chance.choice('abcdefgh')}{len(made)}"
            items.append(f"{name} as {new}")
            made.append((new, kind))
        return f"(scan {table} | project {', '.join(items)})", made

    def step(self, columns, depth, alone=False):
        way = self.chance.choice(("where", "project", "distinct", "group") if alone or depth > 2 else
                                 ("where", "project", "distinct", "group", "group", "join", "theta", "product", "union", "union all"))
        if way == "where":
            return f"where {self.test(columns)}", columns
        if way in ("project", "distinct"):
            made, items = [], []
            for _ in range(self.chance.choice((1, 2, 2, 3, 5))):
                if self.chance.random() < 0.2:
                    column = self.name(columns, "int")
                    new = self.new(made)
                    items.append(f"bin({column}, {self.chance.choice((1, 10, 500))}) as {new}")
                    made.append((new, "int"))
                    continue
                column = self.name(columns)
                if self.chance.random() < 0.4 or column in dict(made) and self.chance.random() > self.wrong:
                    new = self.new(made)
                    items.append(f"{column} as {new}")
                else:
                    new = column
                    items.append(column)
                made.append((new, self.kind(columns, column)))
            return f"{way} {', '.join(items)}", made
        if way == "group":
            return self.group(columns)
        if way in ("union", "union all"):
            if self.chance.random() < 0.6:
                return f"{way} ({self.like(columns)})", columns
            return f"{way} {self.source(depth)[0]}", columns
        source, right = self.source(depth)
        both = columns + right
        if way == "product":
            return f"product {source}", both
        if way == "theta":
            return f"theta {source} on {self.test(both)}", both
        pairs = []
        for _ in range(self.chance.choice((1, 1, 2))):
            left = self.name(columns)
            pairs.append(f"{left} = {self.name(right, self.kind(columns, left))}")
        return f"join {source} on {', '.join(pairs)}", both

    def like(self, columns):
        """A plan whose columns mostly have the kinds of these."""
        table = self.any_table()
        there = self.tables.get(table, [("a", "int")])
        items, made = [], []
        for _, kind in columns[:16 if self.chance.random() > self.wrong else 1]:
            new = f"y{len(made)}"
            items.append(f"{self.name(there, kind)} as {new}")
            made.append((new, kind))
        return f"scan {table} | project {', '.join(items)}"

    def group(self, columns):
        made, keys, aggregates = [], [], []
        for _ in range(self.chance.choice((0, 1, 1, 2))):
            key = self.name(columns)
            if key not in dict(made) or self.chance.random() < self.wrong * 4:
                keys.append(key)
                made.append((key, self.kind(columns, key)))
        for _ in range(self.chance.choice((0, 1, 1, 2, 3)) if keys else self.chance.choice((1, 1, 2))):
            new = self.new(made)
            what = self.chance.choice(("count", "sum", "sum", "min", "max") if not self.levels else ("sum", "sum", "max"))
            if what == "count":
                aggregates.append(f"{new} = count")
                made.append((new, "int"))
                continue
            column = self.name(columns, "int" if what == "sum" else None)
            aggregates.append(f"{new} = {what} {column}")
            made.append((new, "int" if what == "sum" else self.kind(columns, column)))
        if self.chance.random() < self.wrong:
            keys, aggregates = [], []
        braces = f" {{{', '.join(aggregates)}}}" if aggregates else ""
        return f"group {', '.join(keys)}{braces}".replace("  ", " ").rstrip(), made

    def test(self, columns, depth=0):
        way = self.chance.randrange(6) if depth < 3 else 0
        if way == 1:
            return f"{self.test(columns, depth + 1)} and {self.test(columns, depth + 1)}"
        if way == 2:
            return f"({self.test(columns, depth + 1)} or {self.test(columns, depth + 1)})"
        if way == 3:
            return f"not {self.test(columns, depth + 1)}"
        left = self.name(columns)
        kind = self.kind(columns, left)
        right = self.name(columns, kind) if self.chance.random() < 0.4 else self.literal(kind)
        return f"{left} {self.chance.choice(('=', '!=', '<', '<=', '>', '>='))} {right}"

    def statement(self):
        way = self.chance.randrange(10)
        if not self.tables or way == 0:
            return self.table()
        if not self.views or way < 4:
            name = f"v{len(self.views)}" if self.chance.random() > self.wrong else "v0"
            text, columns = self.plan()
            self.views.setdefault(name, columns)
            return f"view {name} = {text}"
        if way == 4:
            name = f"v{len(self.views)}" if self.chance.random() > self.wrong else "v0"
            table = self.any_table()
            there = self.tables.get(table, [("a", "int")])
            keys = list(dict.fromkeys(self.name(there) for _ in range(self.chance.choice((1, 1, 2)))))
            self.views.setdefault(name, [(key, "int") for key in keys])
            return f"fd {name} on {table} {', '.join(keys)} to {self.name(there)}"
        if way < 7:
            view, table = self.any_view(), self.any_table()
            there = self.tables.get(table, [("a", "int")])
            form = self.chance.choice(("", f" by {self.name(there)}", f" {self.group(there)[0]}"))
            return f"lineage back {view} to {table}{form}"
        if way == 7:
            return f"lineage fwd {self.any_table()} to {self.any_view()}"
        if len(self.views) < 2:
            return self.table()
        views = [self.any_view() for _ in range(self.chance.choice((1, 1, 2, 3)))]
        first = self.any_view()
        others = [view for view in dict.fromkeys(views) if view != first or self.chance.random() < 0.1]
        if not others and self.chance.random() < 0.9:
            others = [view for view in self.views if view != first][:1]
        return f"link {first} on {self.any_table()} to {', '.join(others or [first])}"

    def book(self):
        count = self.chance.choice((2, 4, 6, 10, 16))
        return "".join(self.statement() + self.chance.choice(("\n", "\n", "  # c\n", "\r\n")) for _ in range(count)).encode()


class Linked(Maker):
    """Makes a book of groupings, most of them over rows of one table each, that are linked with each other."""

    def chain(self, columns):
        step = ""
        while not step.startswith(("where", "project")):
            step, made = self.step(columns, 0, alone=True)
        return f" | {step}", made

    def plan(self, depth=0):
        if depth:
            return super().plan(depth)
        text, columns = "scan t0", self.tables["t0"]
        for _ in range(self.chance.choice((0, 1, 1, 2))):
            step, columns = self.chain(columns)
            text += step
        if self.chance.random() < 0.3:
            source, right = self.source(1)
            left = self.name(columns)
            text += f" | join {source} on {left} = {self.name(right, self.kind(columns, left))}"
            columns = columns + right
        step, columns = self.group(columns) if self.chance.random() < 0.8 else self.step(columns, 0)
        text += f" | {step}"
        if self.chance.random() < 0.3:
            step, columns = self.chain(columns)
            text += step
        return text, columns

    def book(self):
        statements = [self.table() for _ in range(self.chance.choice((1, 2)))]
        for _ in range(self.chance.choice((3, 4, 5))):
            name = f"v{len(self.views)}"
            text, self.views[name] = self.plan()
            statements += [f"view {name} = {text}", f"lineage back {name} to t0"]
        statements += [f"link {view} on t0 to {', '.join(other for other in self.views if other != view)}" for view in self.views]
        return "".join(f"{statement}\n" for statement in statements).encode()
