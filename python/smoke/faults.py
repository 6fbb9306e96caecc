"""What can go wrong, told to people: where it is, what is wrong, and what to write instead.

`BookError`, `TableError`, `LimitError`, `FileError` and `Refused` are each a SmokeError. `str()` of one is for people and may have several
lines; `said` is what the program says of it, or would say.
"""
from smoke import hints, language

WIDTH = 100  # characters of a line that are shown


class SmokeError(Exception):
    """Something that is wrong with a book, a table's file, a size or a question."""

    said = ""


class FileError(SmokeError):
    """A file that can't be read: `file` is its name, `why` the system's text."""

    def __init__(self, file, why=""):
        self.file, self.why = file, why
        self.said = f"smoke: cannot read {file}"
        super().__init__(f"cannot read {file}{': ' + why if why else ''}")


class BookError(SmokeError):
    """A fault of a book: `file`, `line` and `column` (characters, both from 1), `at` (bytes from 0), `what` in the programs' words, `hint`."""

    def __init__(self, file, text, fault, catalog=None):
        text = language.without_marks(text)
        self.file, self.at, self.what = file, fault.at, fault.what
        self.line, self.column, shown, caret = place_of(text, fault.at)
        self.hint = harmless(hints.hint_of(text, fault, catalog))
        self.said = f"smoke: book: {fault}"
        name = f" {harmless(fault.name)}" if fault.name is not None and fault.what.startswith("unknown ") else ""
        lines = [f"{file}:{self.line}:{self.column}: {self.what}{name}", shown, caret]
        super().__init__("\n".join(lines + [self.hint] if self.hint else lines))


class TableError(SmokeError):
    """A fault of a table's file: `table`, `file`, `what`; and as far as there is one, the `record` (from 1), the `line` of the file on which it
    begins (from 1), the `column` and the `field`."""

    def __init__(self, table, file, what, record=None, line=None, column=None, field=None, hint=""):
        self.table, self.file, self.what, self.hint = table, file, what, hint
        self.record, self.line, self.column, self.field = record, line, column, field
        self.said = f"smoke: table {table}: {what}"
        place = f"{file}:{line}" if line else file
        shown = f": {shortened(repr(field))}" if field is not None else ""
        super().__init__(f"{place}: table {table}: {what}{shown}" + (f"\n{hint}" if hint else ""))


class LimitError(SmokeError):
    """A size past its limit: `what` has it, `size` where it is known, `limit`, and a `hint`."""

    def __init__(self, what, size, limit, hint="", unit=""):
        self.what, self.size, self.limit, self.hint = what, size, limit, hint
        self.said = f"smoke: limit: {what}"
        said = f"{size:,}{unit and ' ' + unit}; the limit is {limit:,}" if size is not None else f"more than the limit of {limit:,}"
        super().__init__(f"{what}: {said}" + (f"\n{hint}" if hint else ""))


class Refused(SmokeError):
    """A line that the program refused or didn't read; nothing has changed. `line` is the line, `said` what the program says, `at` the byte in
    the line where there is one."""

    def __init__(self, said, line=None, hint="", at=None):
        self.said, self.line, self.hint, self.at = said, line, hint, at
        lines = [said]
        if line is not None and at is not None:
            lines += place_of(language.bytes_of(line), at)[2:]
        super().__init__("\n".join(lines + [hint] if hint else lines))


def shortened(text):
    return text if len(text) <= WIDTH else text[:WIDTH - 3] + "..."


def place_of(text, at):
    """The line and column, from 1, of a byte of a text; the line as it is shown, and the line with a caret below it."""
    start = text.rfind(b"\n", 0, at) + 1
    end = text.find(b"\n", at)
    line = text[start:len(text) if end < 0 else end]
    before = printable(line[:at - start])
    shown = printable(line.removesuffix(b"\r"))
    cut = max(0, len(before) - WIDTH // 2)
    front = "... " if cut else ""
    tail = " ..." if len(shown) > cut + WIDTH else ""
    caret = " " * len(front) + "".join("\t" if letter == "\t" else " " for letter in before[cut:]) + "^"
    return text.count(b"\n", 0, start) + 1, len(before) + 1, front + shown[cut:cut + WIDTH] + tail, caret


def printable(line):
    """The text of some bytes of a line, one character for each, without any that would move or colour a terminal."""
    return harmless(line.decode("utf-8", "surrogateescape"))


def harmless(text):
    """The text without characters that would move or colour a terminal, or that it can't show; tabs and line feeds stay."""
    return "".join("\ufffd" if "\ud800" <= letter <= "\udfff" or letter < " " and letter not in "\t\n" or "\x7f" <= letter <= "\x9f" else letter
                   for letter in text)
