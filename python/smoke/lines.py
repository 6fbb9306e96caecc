"""The lines of a conversation, written from values. Every name, mark, value and file on a line is written here, and nowhere else."""
import operator
from collections.abc import Iterable

from smoke import language
from smoke.language import Unwritable, column_name, literal, plain_name, writable


def marks_text(marks):
    """The spelling of marks or rids: "all", an int, or ints."""
    if isinstance(marks, str) and marks == "all":
        return "all"
    if not isinstance(marks, Iterable) or isinstance(marks, (str, bytes)):
        marks = [marks]
    numbers = []
    for mark in marks:
        try:
            number = operator.index(mark)
        except TypeError:
            raise Unwritable(f"{mark!r} is no mark: marks are ints, or dicts of column values, or \"all\"") from None
        if isinstance(mark, bool) or not 0 <= number <= language.MOST_MARK:
            raise Unwritable(f"{mark!r} is no mark: it is from 0 to {language.MOST_MARK}")
        numbers.append(str(number))
    if not numbers:
        raise Unwritable("no marks are given: a line has one or more, or all")
    return ",".join(numbers)


def show(view):
    return f"show {plain_name(view)}"


def back(view, marks, table, where=None, group=False):
    line = f"back {plain_name(view)} {marks_text(marks)} to {plain_name(table)}"
    if where is not None and group:
        raise Unwritable("a back line has where or group, not both")
    if where is not None:
        column, value = pair(where, "where is a pair (column, value)")
        line += f" where {column_name(column)} = {literal(value)}"
    return line + " group" if group else line


def fwd(table, rids, view):
    return f"fwd {plain_name(table)} {marks_text(rids)} to {plain_name(view)}"


def brush(view, marks, table):
    return f"brush {plain_name(view)} {marks_text(marks)} on {plain_name(table)}"


def clear(view=None, table=None):
    if view is None and table is None:
        return "clear"
    return f"clear {plain_name(view)} on {plain_name(table)}"


def ask(view, marks, table, steps):
    return f"ask {back(view, marks, table)} | {steps_text(steps)}"


def steps_text(steps):
    """The spelling of steps, which are a text with bars between them, or a list of texts."""
    text = steps if isinstance(steps, str) else " | ".join(steps)
    return one_line(text.strip().removeprefix("|").strip())


def fd(view):
    return f"fd {plain_name(view)}"


def append(table, file):
    return f"append {plain_name(table)} {literal(file)}"


def selected(table, steps=None):
    return f".selected {plain_name(table)}" + (f" | {steps_text(steps)}" if steps else "")


def now(line):
    return f".now {line}"


def brief(line, wanted=True):
    return f".brief {line}" if wanted else line


def part(line, numbers):
    """Of the rows of a line those numbered from the first number on and below the second."""
    begin, end = pair(numbers, "a part is a pair (begin, end)")
    for number in (begin, end):
        if isinstance(number, bool) or not isinstance(number, int) or not 0 <= number <= language.MOST_MARK:
            raise Unwritable(f"{number!r} is no place of a row: it is from 0 to {language.MOST_MARK}")
    return f".part {begin} {end} {line}"


def pair(values, said):
    """Two values. Raises Unwritable."""
    if not isinstance(values, (tuple, list)) or len(values) != 2:
        raise Unwritable(f"{said}, and not {values!r}")
    return values


def one_line(text):
    if "\n" in text or text.startswith("\ufeff"):
        raise Unwritable("a line has no line feed in it, and no byte order mark at its front")
    return writable(text)
