"""The language of books and of a script's lines: words, grammar, limits and types, and the first fault of a text.

It says what docs/REFERENCE.md says, and finds the fault that the programs find, at the same byte. Nothing here is proved.

    statements = read_statements(text)     the statements of a book, a tuple; raises Fault
    catalog = read_book(text)              its tables, views and declarations, checked; raises Fault
    catalog, faults = look_through(text)   the same, but goes on behind a fault, and lists all
    line = read_line(text)                 a line of a script, None where it has no question; raises Fault
    columns = check_steps(columns, steps)  the columns that the steps of an `ask` make; raises Fault

Words are in words.py, trees in trees.py, the grammar in grammar.py, names and kinds in kinds.py. All of them can be had from here.
"""
import re

from smoke.grammar import ASK_STEPS, COLUMN, LINES, OPERATORS, STATEMENTS, STEPS, Reader, lines_of, read_line, read_statements
from smoke.kinds import Catalog, Column, TableInfo, Types, ViewInfo, check_steps, nodes_of
from smoke.trees import Line, Scan, Step, View, Word
from smoke.words import (COLUMNS, FILE_BYTES, KEYWORDS, LEAST_INT, LEVELS, LINEAGES, LINKED, LINKS, MOST_INT, MOST_MARK, NAME_BYTES, NODES, PAIRS, ROWS,
                         SUMS, TABLES, VIEWS, COMPARISONS, Fault, Token, Unwritable, bytes_of, column_name, is_name, literal, plain_name, text_of,
                         token_at, tokens, without_marks, writable)

__all__ = [
    "ASK_STEPS", "COLUMN", "COLUMNS", "COMPARISONS", "FILE_BYTES", "KEYWORDS", "LEAST_INT", "LEVELS", "LINEAGES", "LINES", "LINKED", "LINKS", "MOST_INT",
    "MOST_MARK", "NAME_BYTES", "NODES", "OPERATORS", "PAIRS", "ROWS", "STATEMENTS", "STEPS", "SUMS", "TABLES", "VIEWS", "Catalog", "Column", "Fault",
    "Line", "Scan", "Step", "Token", "Unwritable", "Word", "bytes_of", "check_steps", "column_name", "is_name", "lines_of", "literal", "look_through",
    "nodes_of", "plain_name", "read_book", "read_line", "read_statements", "text_of", "tokens", "without_marks", "writable"]


def read_book(text):
    """The Catalog of a book's bytes; raises its first Fault."""
    types = Types()
    for statement in read_statements(text):
        types.statement(statement)
    return types.catalog


def look_through(text):
    """The Catalog of a book's bytes as far as it can be read, and all faults that can be told: those of the grammar by place, and then those
    of names and kinds. The first is the one that the programs find."""
    reader, statements, faults = Reader(without_marks(text)), [], []
    cut = set()  # places in `statements` of those that go on with what isn't read
    while not reader.is_at("end"):
        start, before = reader.token, reader.before
        try:
            statements.append(reader.statement())
        except Fault as fault:
            faults.append(fault)
            goes_on = fault.at == start.at and not reader.text.startswith(b";", fault.at)
            if goes_on and before and statements and b"\n" not in reader.text[before.end:start.at]:
                cut.add(len(statements) - 1)
            statements.append(broken(reader.text, start))
            reader.start(next_statement(reader.text, fault.at, start))
    found = []
    types = Types(found)
    for place, statement in enumerate(statements):
        if isinstance(statement, (TableInfo, ViewInfo)):
            names = types.catalog.tables if isinstance(statement, TableInfo) else types.catalog.views
            names.setdefault(statement.name, statement)
        elif statement is not None:
            told = len(found)
            types.statement(statement)
            if place in cut:
                found[told:] = [fault for fault in found[told:] if fault.what != "empty list"]
                if isinstance(statement, View):
                    types.catalog.views[statement.name.name] = ViewInfo(statement.name.name, None, None, ())
    return types.catalog, faults + found


def broken(text, keyword):
    """What is known of a statement that isn't read, of which this is the first token: a table or view of unknown columns."""
    name = token_at(text, keyword.end)
    if name.kind not in COLUMN or keyword.kind not in ("table", "view", "fd"):
        return None
    if keyword.kind == "table":
        return TableInfo(name.value, "", None)
    return ViewInfo(name.value, None, None, ())


def next_statement(text, at, start):
    """The place at which reading goes on behind a fault in a statement with this first token: the next keyword of a statement that is the
    first word on its line. Behind a foreign comment between statements it is the next line, and behind a `;` the next byte."""
    if at == start.at and text.startswith((b"--", b"//"), at):
        end = text.find(b"\n", at)
        return len(text) if end < 0 else end + 1
    if text.startswith(b";", at):
        return at + 1
    place = max(at, start.end)
    pattern = rb"(?m)^[ \t\r]*(%s)(?![A-Za-z0-9_])" % "|".join(STATEMENTS).encode()
    for found in re.finditer(pattern, text):
        if found.start(1) >= place:
            return found.start(1)
    return len(text)
