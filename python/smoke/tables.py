"""A table's file as the programs read it: a header, records, and the faults in them, each with its line."""
import difflib
import itertools
import os
import re

from smoke import language
from smoke import records as recording
from smoke.faults import FileError, LimitError, TableError

INT = re.compile(r"[ \t]*([+-]?[0-9]+)[ \t]*\Z")
CALLED = {";": "semicolon", "\t": "tab", "|": "bar"}  # what stands between fields where it is no comma
SPLIT = "Split the table, or keep only what you need in it."


def int_of(field):
    """The int of a field, or None where it is none of 64 bits."""
    if len(field) < 19 and field.isascii() and field.isdecimal():
        return int(field)
    found = INT.match(field)
    if not found:
        return None
    digits = found[1].lstrip("+-").lstrip("0")
    if len(digits) > 19:
        return None
    value = -int(digits or 0) if found[1].startswith("-") else int(digits or 0)
    return value if language.LEAST_INT <= value <= language.MOST_INT else None


def opened(path):
    """A file of a table to read as text. Bytes that are no UTF-8 are surrogates. Raises FileError."""
    try:
        if not path:
            raise FileNotFoundError(2, "the name is empty")
        return open(path, encoding="utf-8", errors="surrogateescape", newline="")
    except (OSError, ValueError) as fault:
        raise FileError(path, getattr(fault, "strerror", None) or str(fault)) from None


def unmarked(lines):
    """The lines of a file without byte order marks at its front."""
    return itertools.chain([next(lines, "").lstrip("\ufeff")], lines)


def records(file, before=0):
    """Each record of an open file, the header first: the line on which it begins, from 1, and its fields, a list of str. Empty lines are
    none. Or those of lines with so many lines before them."""
    rows = recording.reader(iter(file) if before else unmarked(iter(file)))
    behind = before
    for row in rows:
        if row:
            yield behind + 1, row
        behind = before + rows.line_num


def looked_up(file, folder):
    """The path of a file that a book names, from the folder that the program runs in."""
    return os.path.join(folder or "", file) if file else file


def faults_of(table, folder=None, most=10):
    """The faults of the file of a table, a TableInfo: a list of SmokeErrors, the first that of the program, at most so many."""
    path = looked_up(table.file, folder)
    try:
        with opened(path) as file:
            size = os.fstat(file.fileno()).st_size
            if size > language.FILE_BYTES:
                return [LimitError(f"file {table.file}", size, language.FILE_BYTES, SPLIT + " Columns that you don't declare take room, too.", "bytes")]
            return list(_found(table, file, most))
    except FileError as fault:
        fault.said = f"smoke: cannot read {table.file}"
        return [fault]
    except OSError as fault:
        return [FileError(table.file, fault.strerror)]


def _found(table, file, most):
    rows = records(file)
    line, header = next(rows, (None, None))
    if header is None:
        yield TableError(table.name, table.file, "no header", hint="The file is empty: a table without rows needs a header, too.")
        return
    places, wrong = [], False
    for column in table.columns:
        found = [place for place, name in enumerate(header) if name == column.name]
        shown = language.column_name(column.name)
        if len(found) != 1:
            wrong = True
            yield TableError(table.name, table.file, f"{'repeated' if found else 'missing'} column {shown}", line=line, column=column.name,
                             hint=header_hint(column.name, header, found))
        places.append((column, shown, found[0] if found else None))
    if wrong:
        return
    count = number = 0
    before = None
    for number, (line, row) in enumerate(rows, 1):
        if number == language.ROWS + 1:
            number += sum(1 for _ in rows)
            yield LimitError(f"rows of table {table.name}", number, language.ROWS, SPLIT, "records")
            return
        if count >= most:
            continue
        if len(row) != len(header):
            count += 1
            yield TableError(table.name, table.file, f"record {number} has a wrong number of fields", number, line,
                             hint=f"It has {len(row)}, and the header {len(header)}. {ragged_hint(row, before, len(header))}")
        else:
            for column, shown, place in places:
                field = row[place]
                if column.kind == "int" and int_of(field) is None and not (column.default is not None and not field.strip(" \t")):
                    count += 1
                    yield TableError(table.name, table.file, f"record {number} column {shown} is no int", number, line, column.name, field,
                                     int_hint(column, field))
        before = row


def header_hint(name, header, found):
    if found:
        return "Two fields of the header have this name: rename one in the file."
    for field in header:
        if field.strip(" \t\u00a0\ufeff").lower() == name.lower():
            return f"The header has {field!r}. Names are compared byte for byte: case and spaces matter."
    if len(header) == 1:
        for separator, called in CALLED.items():
            if separator in header[0]:
                return f"The fields of this file seem to have a {called} between them: `python3 -m smoke prepare` makes commas of them."
    if any("\x00" in field for field in header):
        return "The file seems to be UTF-16: `python3 -m smoke prepare` makes UTF-8 of it."
    near = nearest(name, header)
    return f"The header has {', '.join(map(repr, header[:20]))}{', ..' if len(header) > 20 else ''}." + (f" Did you mean {near!r}?" if near else "")


def nearest(name, names):
    found = difflib.get_close_matches(name, names, 1)
    return found[0] if found else ""


def ragged_hint(row, before, wanted, separator=","):
    for fields in (row, before or ()):
        if any("\n" in field or "\r" in field for field in fields):
            return "A field with line ends is in it or before it: look for a quote that isn't closed."
    sign = "comma" if separator == "," else CALLED.get(separator, separator)
    if len(row) > wanted:
        return f"Look for a {sign} that isn't in quotes."
    return f"Look for a {sign} that is missing, or for a line end that isn't in quotes."


def int_hint(column, field):
    empty = not field.strip(" \t")
    if empty:
        return "An empty field needs a default: declare the column as int default 0, say."
    if re.fullmatch(r"\s*[+-]?[0-9]+\s*", field):
        return "An int has 64 bits: declare the column as text."
    if re.fullmatch(r"\s*[+-]?[0-9]+([.,][0-9]+)+\s*", field) or re.fullmatch(r"\s*[+-]?[0-9][0-9.,' \u00a0\u202f]*\s*", field):
        return "Ints have neither points nor commas: `python3 -m smoke prepare` makes them of decimals. Or declare the column as text."
    return "Mend the field, or declare the column as text."
