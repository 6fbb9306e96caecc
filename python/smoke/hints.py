"""What to write instead: hints for faults of books and lines, above all for what looks like SQL."""
import difflib
import re

from smoke import language
from smoke.language import COLUMN, KEYWORDS, STATEMENTS, STEPS

TEXT_KINDS = "string str varchar char character nvarchar clob utf8 symbol factor object category enum uuid".split()
INT_KINDS = "integer number num bigint smallint tinyint long short int64 int32 i64 unsigned serial id".split()
DECIMAL_KINDS = "float double real decimal numeric money currency float64 percent".split()
DATE_KINDS = "date datetime timestamp time year month day".split()
FUNCTIONS = "avg mean average median stddev variance".split()
EXPECTED = {"name": "a name", "quoted": "a name in backquotes", "number": "an int", "str": "a text in double quotes", "end": "the end"}
KINDS = "A column's kind is int or text."
DECIMALS = "Numbers are whole: write decimals in a smaller unit, such as cents. `python3 -m smoke prepare` does that."
DATES = "Write a day as one int, such as 20261031, or as a text such as \"2026-10-31\". `python3 -m smoke prepare` does that."
ARITHMETIC = "There is no arithmetic: have a column for it in the file. `bin(column, width) as name` divides and rounds down."
SCRIPT = "This is a question, and stands in a script or is sent to smoke_live; a book has table, view, lineage, link and fd statements."

STARTS = {
    "select": "A view is a plan: view NAME = scan TABLE | where .. | project ..",
    "create": 'A table is: table NAME from "file.csv" (column int, column text). A view is: view NAME = scan TABLE | ..',
    "with": "A view can't use another view: write the other plan in parentheses where you need it.",
    "from": "A view is a plan: view NAME = scan TABLE | where .. | project ..",
    "import": 'A table is: table NAME from "file.csv" (column int, column text)',
    "load": 'A table is: table NAME from "file.csv" (column int, column text)',
    "insert": "Rows are in the table's file; a line of a script, append TABLE \"file.csv\", adds those of another file.",
    "index": "There are no indexes to declare. `lineage back VIEW to TABLE` declares what you will ask.",
    "drop": "A book only declares: leave the statement out.",
    "let": "A view is: view NAME = scan TABLE | ..",
}
STEP_WORDS = {
    "select": "The step is called project: | project column, column",
    "filter": "The step is called where: | where column = value",
    "having": "Use where after the group: | group region {n = count} | where n > 1",
    "order": "Rows are never sorted: sort the file, or what you show.",
    "sort": "Rows are never sorted: sort the file, or what you show.",
    "limit": "There is no limit on rows: use where.",
    "top": "There is no limit on rows: use where.",
    "left": "There is only the inner join: | join scan TABLE on column = column",
    "right": "There is only the inner join: | join scan TABLE on column = column",
    "inner": "Leave the word out: | join scan TABLE on column = column",
    "outer": "There is only the inner join: | join scan TABLE on column = column",
    "full": "There is only the inner join: | join scan TABLE on column = column",
    "cross": "The step is called product: | product scan TABLE",
    "intersect": "There is no intersect: use a join.",
    "except": "There is no except and no minus.",
    "minus": "There is no except and no minus.",
    "aggregate": "The step is called group: | group key {n = count, total = sum amount}",
    "summarize": "The step is called group: | group key {n = count, total = sum amount}",
    "rename": "Rename in a project: | project old as new",
    "extend": ARITHMETIC,
    "map": "The step is called project: | project column, column",
    "groupby": "The step is called group: | group key {n = count}",
}
OPERATOR_WORDS = {
    "in": 'Write each comparison: (region = "north" or region = "south")',
    "like": "There is no pattern: compare whole texts, or ranges as in column >= \"a\" and column < \"b\".",
    "ilike": "There is no pattern: compare whole texts, or ranges as in column >= \"a\" and column < \"b\".",
    "matches": "There is no pattern: compare whole texts, or ranges as in column >= \"a\" and column < \"b\".",
    "contains": "There is no pattern: compare whole texts, or ranges as in column >= \"a\" and column < \"b\".",
    "between": "Write both comparisons: column >= 1 and column <= 9",
    "is": 'There is no null: compare with a value, such as the default of the column, as in note = ""',
    "eq": "The operators are = != < <= > >=.",
    "not": 'Write not before the test, as in not region = "north", or use !=.',
}


class Around:
    """The tokens around a fault."""

    def __init__(self, text, at):
        self.text, self.at = text, at
        found = language.tokens(text)
        self.before = [token for token in found if token.at < at]
        self.behind = [token for token in found if token.at > at]
        here = [token for token in found if token.at == at]
        self.here = here[0] if here else found[-1]
        self.raw = text[at:]
        self.word = self.here.value if self.here.kind == "name" else self.here.kind
        self.start = next((token for token in reversed(self.before) if token.kind in STATEMENTS or token.kind in language.LINES), None)

    def last(self, back=1):
        """The kind of a token before the fault, the first at 1."""
        return self.before[-back].kind if len(self.before) >= back else ""

    def spelled(self, token):
        return language.text_of(self.text[token.at:token.end])

    def inside(self, brace, other):
        """Whether the fault is in a pair of these symbols that isn't closed before it."""
        depth = 0
        for token in reversed(self.before):
            if token is self.start:
                return False
            depth += (token.kind == other) - (token.kind == brace)
            if depth < 0:
                return True
        return False


def hint_of(text, fault, catalog=None):
    """What to do about a fault of a text, a str of a line or a few; empty where there is nothing to say."""
    around = Around(text, fault.at)
    if b"\x00" in text[:4096]:
        return "There are bytes of no text in it: save it as UTF-8."
    if fault.what == "bad token":
        return bad_token(around)
    if fault.what == "unexpected token":
        return unexpected(around, fault)
    if fault.what == "bad number":
        if around.here.kind == "huge":
            return "An int has 64 bits: from -9223372036854775808 to 9223372036854775807. Keep longer numbers as texts."
        in_bin = "bin" in [token.kind for token in around.before[-4:]]
        return "The width of a bin is 1 or more." if in_bin else f"A mark or rid is from 0 to {language.MOST_MARK}."
    if fault.what.startswith("too many "):
        return too_many(fault.what.removeprefix("too many "))
    return TYPES[fault.what](around, fault, catalog)


# Words

def bad_token(around):
    raw, at = around.raw, around.at
    text = around.text
    if raw.startswith(b"'"):
        inner = re.match(rb"'([^'\n]*)'", raw)
        return f'A text stands in double quotes: "{language.text_of(inner[1])}"' if inner else "A text stands in double quotes, as in \"north\"."
    if raw.startswith(b";"):
        return "Nothing ends a statement: leave the ; out."
    if raw.startswith((b"--", b"//", b"/*", b"*/", b"%")):
        return "A comment begins with # and goes to the end of its line."
    if raw.startswith(b'"'):
        if b'\\"' in text[text.rfind(b"\n", 0, at) + 1:at + 200]:
            return 'A quote in a text is written twice, as in "say ""so""". A backslash is a plain character.'
        return "This quote isn't closed on its line. A quote in a text is written twice."
    if raw.startswith(b"``"):
        return "A name in backquotes has at least one byte."
    if raw.startswith(b"`"):
        return "This backquote isn't closed on its line."
    if raw.startswith(("\u201c".encode(), "\u201d".encode(), "\u201e".encode(), "\u00ab".encode(), "\u00bb".encode())):
        return 'A text stands in plain double quotes: "'
    if raw.startswith(("\u2018".encode(), "\u2019".encode(), "\u201a".encode(), "\u00b4".encode())):
        return 'A text stands in double quotes, as in "north".'
    if raw.startswith("\u00a0".encode()):
        return "This is a space that doesn't break: use a plain one."
    if raw.startswith(b"!"):
        return 'Write not before the test, as in not region = "north", or use !=.'
    if raw.startswith(b"&"):
        return "Write and."
    if raw.startswith(b"-") and around.before and around.last() not in ("=", "!=", "<", "<=", ">", ">=", ",", "default"):
        return "A dependency is: fd NAME on TABLE key, key to column" if raw.startswith(b"->") else ARITHMETIC
    if raw.startswith(b"-"):
        return "A - stands directly before its digits, as in -5."
    if raw.startswith(b".") and around.before and around.before[-1].end == at:
        before = around.before[-1]
        if before.kind in ("number", "huge"):
            return DECIMALS
        if before.kind in ("name", "quoted"):
            return f"A column is named without its table. A name with a point in it stands in backquotes: `{dotted(around)}`"
    if raw.startswith(b"*"):
        if around.last() in ("project", "distinct", "group"):
            return "Name the columns. Without a project all columns stay."
        return "Name the columns, one by one." if around.last() in (",", "(", "scan") else ARITHMETIC
    if raw.startswith((b"+", b"/", b"^")):
        return ARITHMETIC
    if raw.startswith((b"[", b"]")):
        return "A name with spaces or signs stands in backquotes: `card no`"
    if raw.startswith(b"\\"):
        return "A backslash means nothing outside a text; a plan may go over several lines as it is."
    if raw.startswith(b":"):
        return "A view is: view NAME = .. A column is: NAME int, or NAME text." if around.start else ""
    if raw[:1] > b"\x7f" or raw[:1] in (b"$", b"@", b"?", b"~", b"."):
        return f"A name has letters A to Z, digits and _. A column of another name stands in backquotes: `{dotted(around)}`"
    return ""


def dotted(around):
    """The word around a place, with all letters and signs that are no blanks and no symbols."""
    start = around.at
    if around.before and around.before[-1].end == start and around.before[-1].kind in ("name", *KEYWORDS):
        start = around.before[-1].at
    found = re.match(rb"[^ \t\r\n,(){}|=<>\"`#;]+", around.text[start:])
    return language.text_of(found[0] if found else b"")


def unexpected(around, fault):
    here, last, expected = around.here, around.last(), fault.expected
    for find in (symbols, statements, steps, tables, groups, tests, sources, names):
        said = find(around, here, last, expected)
        if said:
            return said
    return wanted(here, expected)


def wanted(here, expected):
    """What can stand there."""
    words = [EXPECTED.get(kind, kind) for kind in expected]
    if set(OPERATORS) <= set(expected):
        words = ["an operator: = != < <= > >="] + [EXPECTED.get(kind, kind) for kind in expected if kind not in OPERATORS]
    if set(STEPS) <= set(expected):
        words = ["a step: " + " ".join(STEPS)]
    if set(STATEMENTS) <= set(expected):
        words = [word for word in words if word not in STATEMENTS and word != "the end"] + ["the next statement"]
    if {"name", "quoted"} <= set(expected):
        words.remove(EXPECTED["quoted"])
    if not words:
        return ""
    end = "The text ends too early. " if here.kind == "end" else ""
    return f"{end}Here can stand {' or '.join(dict.fromkeys(words))}."


OPERATORS = language.OPERATORS


def symbols(around, here, last, expected):
    pair = last + here.kind
    touching = around.before and around.before[-1].end == here.at
    if touching and pair in ("==", "<>", "=>", "=<", "||", "!=="):
        return {"==": "Equal is =, one sign.", "<>": "Unequal is !=.", "=>": "At least is >=.", "=<": "At most is <=.", "||": "Write or."}.get(pair, "")
    if last == "str" and here.at > 1 and around.text[around.before[-1].end - 2:here.at].startswith(b'\\"'):
        return 'A quote in a text is written twice, as in "say ""so""". A backslash is a plain character.'
    if last == "," and here.kind in (")", "}", "|", "end", *STATEMENTS):
        return "There is a comma too many before this."
    if here.kind in ("]",):
        return "Lists have no brackets."
    return ""


def statements(around, here, last, expected):
    if "table" not in expected or "view" not in expected:
        return ""
    word = str(around.word)
    if "|" in expected and (word in STEPS or word.lower() in STEPS):
        return f"A bar stands before each step: | {word.lower()} .."
    if word in ("show", "back", "fwd", "brush", "clear", "ask", "append"):
        return SCRIPT
    if here.kind == "name":
        if word.lower() in STATEMENTS:
            return f"Reserved words are in small letters: {word.lower()}"
        if "|" in expected and word.lower() in STEP_WORDS:
            return STEP_WORDS[word.lower()]
        if "|" in expected and word.lower() in ("and", "or"):
            return f"Reserved words are in small letters: {word.lower()}"
        if word.lower() in STARTS:
            return STARTS[word.lower()]
        near = difflib.get_close_matches(word.lower(), STATEMENTS, 1)
        if near:
            return f"Did you mean {near[0]}?"
    return ""


def steps(around, here, last, expected):
    if "project" not in expected:
        return ""
    word = str(around.word)
    if here.kind == "name":
        if word.lower() in STEPS:
            return f"Reserved words are in small letters: {word.lower()}"
        if word.lower() in STEP_WORDS:
            return STEP_WORDS[word.lower()]
        near = difflib.get_close_matches(word.lower(), STEPS, 1)
        if near:
            return f"Did you mean {near[0]}?"
    if here.kind == "|":
        return "Between two bars stands a step. `or` is written out." if last == "|" else ""
    if here.kind in STEPS and "join" not in expected:
        return "The steps of an ask are where, project, distinct and group."
    return ""


def tables(around, here, last, expected):
    word = str(around.word)
    if "from" in expected and here.kind == "(":
        return 'The file stands before the columns: table NAME from "file.csv" (column int, column text)'
    if "from" in expected and here.kind == "str":
        return 'The word from is missing: table NAME from "file.csv" (..)'
    if last == "from" and "str" in expected:
        return f'The file\'s name stands in double quotes: "{dotted_file(around)}"'
    if expected[:2] == ("int", "text"):
        lower = word.lower()
        if lower in ("int", "text"):
            return f"Reserved words are in small letters: {lower}"
        for kinds, said in ((TEXT_KINDS, "Texts are of the kind text."), (INT_KINDS, "Whole numbers are of the kind int."),
                            (DECIMAL_KINDS, DECIMALS), (DATE_KINDS, DATES), (["bool", "boolean"], "Write int, with 0 and 1, or text.")):
            if lower in kinds:
                return f"{KINDS} {said}"
        return f"{KINDS} It stands behind the column's name: amount int"
    if here.kind in ("int", "text") and around.start and around.start.kind == "table" and "name" in expected:
        return "The kind stands behind the column's name: amount int"
    if around.start and around.start.kind == "table" and "default" in expected:
        if word.lower() in ("not", "null", "primary", "unique", "key", "references", "check"):
            return "There is no null, and a column has no rules: leave this out. An empty field takes the column's default, if it has one."
        if here.kind == "=":
            return "A default is written so: amount int default 0"
        if here.kind == "(":
            return f"{KINDS} It has no length."
    if last == "default":
        return "There is no null: a default is an int, or a text in double quotes." if word.lower() == "null" else \
            "A default is an int, or a text in double quotes."
    return ""


def dotted_file(around):
    found = re.match(rb"[^ \t\r\n()\"]+", around.raw)
    return language.text_of(found[0]).strip("'`") if found else "file.csv"


def groups(around, here, last, expected):
    word = str(around.word)
    if last == "group" and here.kind == "by":
        return "Write group without by: group region"
    if last == "group" and around.word == "BY":
        return "Write group without by: group region"
    if last == "count" and here.kind in ("(", *COLUMN):
        return "A count takes no column: n = count"
    if last in ("sum", "min", "max") and here.kind == "(":
        return f"There are no parentheses: total = {last} amount"
    if last in ("sum", "min", "max") and "name" in expected:
        return f"The column is missing: total = {last} amount" if here.kind in ("}", ",", "end") else ""
    if around.inside("{", "}"):
        if here.kind in ("count", "sum", "min", "max") and "name" in expected:
            shown = {"count": "n = count"}.get(here.kind, f"total = {here.kind} amount")
            return f"Each aggregate has a name: {shown}"
        if "=" in expected:
            lower = str(around.before[-1].value).lower() if around.before else ""
            if lower in FUNCTIONS:
                return "There is no average: ask for the sum and the count, and divide elsewhere."
            if lower in ("count", "sum", "min", "max"):
                return f"Reserved words are in small letters, and each aggregate has a name: n = {lower}"
            return "Each aggregate has a name, = and what it is: {n = count, total = sum amount}"
        if "count" in expected:
            if word.lower() in FUNCTIONS:
                return "There is no average: ask for the sum and the count, and divide elsewhere."
            if word.lower() in ("count", "sum", "min", "max"):
                return f"Reserved words are in small letters: {word.lower()}"
            return "The aggregates are count, sum, min and max."
        if here.kind == "as":
            return "The name of an aggregate stands before it: total = sum amount"
    if here.kind in ("count", "sum", "min", "max") and "{" in expected:
        return "Aggregates stand in braces, each with a name: group region {n = count, total = sum amount}"
    if "{" in expected and here.kind == "(":
        return "Aggregates stand in braces, each with a name: group region {n = count, total = sum amount}"
    return ""


def tests(around, here, last, expected):
    word = str(around.word)
    if set(OPERATORS) <= set(expected):
        if word.lower() in OPERATOR_WORDS:
            return OPERATOR_WORDS[word.lower()]
        if here.kind == "(":
            return "There is no function but bin, which stands in project and distinct: | project bin(amount, 10) as tens | where tens > 1"
        return "A comparison is a column, one of = != < <= > >=, and a column, an int or a text in double quotes."
    if "not" in expected and "(" in expected:
        if here.kind in ("number", "str"):
            return "The column stands on the left: amount > 10. A column has no double quotes, but may have backquotes."
        if here.kind == "bin":
            return "bin stands in project and distinct: | project bin(amount, 10) as tens | where tens > 1"
        if here.kind == "!":
            return "Write not."
    if last in OPERATORS and "number" in expected and "str" in expected:
        if here.kind == "(":
            return "A comparison has a column, an int or a text on its right; there are no lists and no plans in it."
        if word in ("true", "false", "null"):
            return "There is no null, and neither true nor false: compare with an int or a text."
    if here.kind == "name" and word.lower() in ("and", "or", "not") and "and" in expected:
        return f"Reserved words are in small letters: {word.lower()}"
    return ""


def sources(around, here, last, expected):
    word = str(around.word)
    if "scan" in expected and "(" in expected:
        if here.kind == "name":
            if word.lower() == "scan":
                return "Reserved words are in small letters: scan"
            if word.lower() == "select":
                return "A plan begins with scan: scan TABLE | where .. | project .."
            return f"A source begins with scan: scan {word}"
        if here.kind == "table":
            return "A source begins with scan, and the table's name without the word table."
        return "A source is scan and a table, or a plan in parentheses."
    if "on" in expected and here.kind == "|":
        return "A source with steps stands in parentheses: | join (scan regions | where ..) on region = name"
    if "on" in expected and word.lower() in ("using", "where", "as"):
        return "A join is: | join scan TABLE on column = column. Columns are renamed by a project before it."
    if "on" in expected and here.kind == "name" and last == "name":
        return "There are no aliases: rename columns by a project in parentheses before the join."
    if last == "name" and "=" in expected and around.start and around.start.kind == "view":
        if word in ("as", "is", "AS"):
            return "A view is: view NAME = scan TABLE | .."
        if here.kind == "(":
            return "The columns of a view are those of its plan: view NAME = scan TABLE | .."
    if "=" in expected and set(expected) <= {"="} and around.start and here.kind in OPERATORS and here.kind != "=":
        return "A join has pairs of equal columns. For other comparisons there is theta: | theta scan TABLE on a < b"
    if expected[:1] == ("as",) and last == ")":
        return "A bin needs a name: bin(amount, 10) as tens"
    return ""


def names(around, here, last, expected):
    word = str(around.word)
    if here.kind == "name" and word.lower() in expected:
        return f"Reserved words are in small letters: {word.lower()}"
    if around.start and around.start.kind == "lineage" and last == "lineage":
        return "A lineage is: lineage back VIEW to TABLE, or lineage fwd TABLE to VIEW"
    if around.start and around.start.kind == "link" and here.kind == "to" and "on" in expected:
        return "A link names the table that it selects in: link VIEW on TABLE to VIEW, VIEW"
    if around.start and around.start.kind in ("back", "lineage") and here.kind == "on" and "to" in expected:
        return "Write to: back VIEW marks to TABLE"
    if "name" in expected or "quoted" in expected:
        if here.kind in KEYWORDS:
            if "quoted" in expected:
                return f"{here.kind} is a reserved word. A column of this name stands in backquotes: `{here.kind}`"
            return f"{here.kind} is a reserved word and can't be this name. Another spelling can: {here.kind}_, or {here.kind.capitalize()}"
        if here.kind == "quoted":
            return "Names of tables and views can't be in backquotes: letters, digits and _ make one."
        if here.kind == "str":
            return f"A column stands without double quotes, or in backquotes: `{here.value}`" if "quoted" in expected else \
                "A name stands without quotes."
        if here.kind == "number" and around.text[here.end:here.end + 1].isalpha():
            return "A name doesn't begin with a digit. A column of such a name stands in backquotes."
    if last == "number" and here.kind == "name" and around.before[-1].end == here.at:
        return "A name doesn't begin with a digit; an int is digits alone. A column of such a name stands in backquotes."
    if "," in expected and here.kind in COLUMN:
        if around.before and around.before[-1].end == here.at and here.kind == "quoted":
            return ""
        return "A comma is missing before this." if around.start and around.start.kind in ("table", "link", "fd") or around.inside("{", "}") else ""
    if "number" in expected and "all" in expected:
        return "Here stand marks: numbers with commas between them, or all."
    return ""


def too_many(what):
    said = {
        "tables": f"A book has at most {language.TABLES} tables: split it in two.",
        "views": f"A book has at most {language.VIEWS} views, dependencies among them: split it in two.",
        "lineages": f"A book has at most {language.LINEAGES} lineages, dependencies among them: declare those that you will ask.",
        "links": f"A book has at most {language.LINKS} links, and a link at most {language.LINKED} views.",
        "columns": f"A table and a list have at most {language.COLUMNS} columns: declare only those that you use. Others in the file are dropped.",
        "nodes": f"A plan has at most {language.NODES} scans and steps.",
        "comparisons": f"A where or theta has at most {language.COMPARISONS} comparisons. Two steps, | where .. | where .., mean and.",
        "levels": f"Parentheses and not are at most {language.LEVELS} levels deep.",
        "name bytes": f"A name has at most {language.NAME_BYTES} bytes: rename the column in the file.",
    }
    return said.get(what, "")


# Names and kinds

def near(fault):
    """The known name that is nearest to the fault's, or a list of them all."""
    name = fault.name or ""
    same = [known for known in fault.known if known.lower() == name.lower()]
    found = same or difflib.get_close_matches(name, fault.known, 1, 0.6)
    if same:
        return f"Did you mean {found[0]}? Case matters."
    if found:
        return f"Did you mean {shown(found[0])}?"
    if not fault.known:
        return ""
    names = [shown(known) for known in fault.known]
    return f"There are {', '.join(names[:20])}{', ..' if len(names) > 20 else ''}." if len(names) > 1 else f"There is {names[0]}."


def shown(name):
    return name if language.is_name(name) else f"`{name}`"


def declared_below(around, keywords, name):
    """Whether a statement behind the fault declares this name."""
    tokens = around.behind
    return any(token.kind in keywords and after.value == name and after.kind == "name" for token, after in zip(tokens, tokens[1:]))


def unknown_table(around, fault, catalog):
    if declared_below(around, ("table",), fault.name):
        return f"The table {fault.name} is declared further down: declare it above."
    if catalog and fault.name in catalog.views:
        if around.start and around.start.kind in ("lineage", "link", "back", "fwd", "brush"):
            return f"{fault.name} is a view. Here stands the table: " + ", ".join(catalog.tables)
        return f"{fault.name} is a view, and a plan scans tables alone: write that view's plan in parentheses in its place."
    return near(fault) or "Declare it above: table NAME from \"file.csv\" (column int, column text)"


def unknown_view(around, fault, catalog):
    if declared_below(around, ("view", "fd"), fault.name):
        return f"The view {fault.name} is declared further down: declare it above."
    if catalog and fault.name in catalog.tables:
        order = " It is lineage back VIEW to TABLE, lineage fwd TABLE to VIEW, and link VIEW on TABLE to VIEW."
        return f"{fault.name} is a table, and here stands a view.{order}"
    return near(fault) or "Declare it above: view NAME = scan TABLE | .."


def unknown_column(around, fault, catalog):
    lines = []
    if around.last() in OPERATORS and around.here.kind == "name":
        lines.append(f'If it is a text, it stands in double quotes: "{fault.name}"')
    said = near(fault)
    if said:
        lines.append(said)
    if catalog and any(column.name == fault.name for table in catalog.tables.values() for column in table.columns or ()) \
            and not said.startswith("Did"):
        lines.append("A step before this one, or another table, has the column: after project, distinct and group only their own names are known.")
    return "\n".join(lines)


def duplicate_name(around, fault, catalog):
    if around.here.kind in ("join", "theta", "product"):
        name = shown(fault.name)
        return (f"Both sides have a column {name}: rename it on one side, "
                f"as in {around.here.kind} (scan TABLE | project {name} as other, ..)")
    if around.here.kind == "fd":
        return "The view of a dependency has columns least and most: rename the key by a view of your own."
    if around.last() in ("table", "view", "fd"):
        return f"There is already one of the name {fault.name}."
    return f"{shown(fault.name)} is already there: give one of them another name, with as or before the =."


def kind_mismatch(around, fault, catalog):
    here = around.here
    if around.last() == "default":
        return "A default is of the column's kind: an int without quotes, or a text in double quotes."
    if here.kind == "str":
        inner = str(here.value)
        plain = f" If you mean the number, write {inner} without quotes." if re.fullmatch(r"-?[0-9]+", inner) else ""
        return f"{shown(fault.name)} is an int, and this is a text.{plain}"
    if here.kind == "number":
        return f'{shown(fault.name)} is a text, and this is an int: write "{here.value}", or declare the column as an int.'
    if around.last() in ("sum", "("):
        return f"{shown(fault.name)} is a text, and {'a sum' if around.last() == 'sum' else 'a bin'} needs an int."
    return "One side is an int, and the other a text: declare both columns as the same kind."


def union_shape(around, fault, catalog):
    sides = [f"{len(side)} ({', '.join(column.kind or '?' for column in side)})" for side in fault.about or ()]
    shapes = f" The sides have {sides[0]} and {sides[1]}." if len(sides) == 2 else ""
    return f"Both sides need as many columns, of the same kinds in the same order.{shapes} Put a project on each side."


TYPES = {
    "unknown table": unknown_table,
    "unknown view": unknown_view,
    "unknown column": unknown_column,
    "duplicate name": duplicate_name,
    "kind mismatch": kind_mismatch,
    "union shape": union_shape,
    "sum too deep": lambda *_: f"At most {language.SUMS} sums can be on top of each other: sum from the table in one step.",
    "row too wide": lambda around, fault, _: f"This row would have {fault.about or 'too many'} columns, and {language.COLUMNS} is the limit"
                                             f"{' (a dependency has at most 14 keys)' if around.here.kind == 'fd' else ''}: "
                                             "put a project before it.",
    "empty list": lambda *_: "A group needs a key or an aggregate: group region, or group {n = count}",
    "repeated declaration": lambda *_: "This is already declared: leave one of the two out.",
    "self link": lambda *_: "A brush never filters its own chart: take it out of the list.",
}
