"""Summaries: rows of a table that are equal in all that a view under its brushes asks of them, put together. Nothing of it is proved.

A summary is a materialized view. It has expressions over one row of a table, one row for each combination of them; the number `n` of the table's
rows that have it, and the least `rid` of these; and of further expressions the sum, the least or the most. A grouping over the table is one over
the summary: counts are sums of `n`. No answer needs one. Where it is much shorter than its table, answers over it are faster.
"""
import hashlib


class Missing(Exception):
    """A query that can't be written over a summary, but over the table."""


MOST_TEXT = 10_000  # characters of an expression


class Summary:
    """What a summary of a table has: `columns` are expressions over a row `t` of it, `aggregates` a word, an expression and its kind, each in SQL
    with its signs of per cent doubled, with the name that it has. It takes what it is asked for until it is finished; then it has a `query` and a
    `name`, which no other query has."""

    def __init__(self, table):
        self.table = table
        self.columns, self.aggregates = {}, {}
        self.query = self.name = self.sql = ""

    def named(self, expressions, key, front):
        if key not in expressions:
            if self.name or len(str(key)) > MOST_TEXT:
                raise Missing
            expressions[key] = f"{front}{len(expressions)}"
        return expressions[key]

    def take(self, other):
        """Takes what another summary has."""
        for text in sorted(other.columns):
            self.named(self.columns, text, "k")
        for key in other.aggregates:
            self.named(self.aggregates, key, "a")

    def finish(self, book, aggregate):
        """Makes the query and the name. `aggregate` gives the SQL of a word, an expression and its kind."""
        listed = [f"{text} as {name}" for text, name in self.columns.items()] + ["count(*) as n", "min(t.rid) as rid"]
        listed += [f"{aggregate(*key)} as {name}" for key, name in self.aggregates.items()]
        self.query = f"select {', '.join(listed)}\nfrom {book.table(self.table)} t\n{self.group()}\nhaving count(*) > 0"
        self.name = f"rows {hashlib.sha256(self.query.encode('utf-8', 'surrogateescape')).hexdigest()[:20]}"
        self.sql = book.named(self.name)

    def group(self):
        return f"group by {', '.join(str(number + 1) for number in range(len(self.columns))) or '()'}"

    def sample(self, book):
        """The query of how many rows it would have of about a sixteenth of the table's, and how many these are."""
        listed = ", ".join([*self.columns, "count(*) as n"])
        return (f"select count(*), coalesce(sum(n), 0) from (select {listed} from {book.table(self.table)} t tablesample system (6.25) repeatable (1)"
                f" {self.group()}) s")


class Reader:
    """A summary that is read under an alias."""

    def __init__(self, summary, alias):
        self.summary, self.alias = summary, alias

    def column(self, text):
        return f"{self.alias}.{self.summary.named(self.summary.columns, text, 'k')}"

    def aggregate(self, what, atom):
        return f"{self.alias}.{self.summary.named(self.summary.aggregates, (what, atom.text, atom.kind), 'a')}"


class Atom:
    """An expression over one row of a table that is read from a summary. It becomes a column of the summary where its `sql` is asked for."""

    simple, level = True, 0

    def __init__(self, reader, text, kind):
        self.reader, self.text, self.kind = reader, text, kind

    @property
    def sql(self):
        return self.reader.column(self.text)
