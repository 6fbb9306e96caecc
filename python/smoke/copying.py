"""The rows of a table's file as COPY takes them: read as the csv module reads them, and streamed."""
import csv
import io
import itertools
import os
import re

from smoke import language, tables
from smoke.address import driver
from smoke.faults import TableError
from smoke.names import fits, quoted

PIECE = 1 << 20  # characters that are sent at a time


def copy(cursor, book, table, path, begin=0, told=None):
    """Puts the rows of a file behind those of a table, the first of which has the rid `begin`: the number of new rows."""
    with tables.opened(path) as file:
        rows = Rows(book.catalog.tables[table], file, book.texts, begin, told)
        listed = ", ".join(["rid", *[quoted(book.table_columns[table][column.name]) for column, _, _ in rows.columns]])
        statement = f"copy {book.table(table)} ({listed}) from stdin (format csv, force_not_null ({listed}))" % {}
        try:
            cursor.copy_expert(statement, rows, PIECE)
        except driver().Error:
            if rows.failed is None:
                raise
            raise rows.failed from None
        return rows.count


class Rows:
    """The rows of an open file of a table, to be read as a file; `count` is their number so far. `told` is called with the table's name, the
    number of rows, and of the file the bytes read and all. `failed` is what reading raised, of which the database would tell in a text."""

    def __init__(self, table, file, texts, begin=0, told=None):
        self.table, self.file, self.texts, self.begin, self.told = table, file, texts, begin, told
        self.count, self.failed, self.left = 0, None, ""
        self.records = tables.records(file)
        self.line, self.header = next(self.records, (None, None))
        self.columns = sorted(self._columns(), key=lambda column: column[1])
        self.pieces = self._pieces()

    def read(self, size):
        try:
            self.left = self.left or next(self.pieces, "")
        except BaseException as fault:
            self.failed = fault
            raise
        given, self.left = self.left[:size], self.left[size:]
        return given

    def fault(self, what, number=None, line=None, column=None, field=None, hint=""):
        return TableError(self.table.name, self.table.file, what, number, line, column, field, hint)

    def _columns(self):
        """Each column with its place in the header, and what reads it."""
        if self.header is None:
            raise self.fault("no header", hint="A table without rows needs a header, too.")
        for column in self.table.columns:
            found = [place for place, name in enumerate(self.header) if name == column.name]
            if len(found) != 1:
                raise self.fault(f"{'repeated' if found else 'missing'} column {language.column_name(column.name)}", line=self.line,
                                 column=column.name, hint=tables.header_hint(column.name, self.header, found))
            yield column, found[0], self._reader(column)

    def _reader(self, column):
        """What makes a value of a field, None where it is none."""
        default, int_of = column.default, tables.int_of
        if column.kind == "int":
            return int_of if default is None else lambda field: int_of(field) if field.strip(" \t") else default
        if self.texts == "bytea":
            return lambda field: "\\x" + language.bytes_of(field or default or "").hex()
        return lambda field: (field if field.isascii() and "\0" not in field or fits(field) else None) if field else default or ""

    def _pieces(self):
        size = os.fstat(self.file.fileno()).st_size
        for piece in self._plain_pieces() if self._is_plain() else ():
            yield piece
            self._tell(size)
        out = io.StringIO(newline="")
        write = csv.writer(out, lineterminator="\r\n").writerow
        for values in self._rows():
            write(values)
            if out.tell() > PIECE:
                yield out.getvalue()
                out.seek(0)
                out.truncate()
                self._tell(size)
        yield out.getvalue()
        self._tell(size, True)

    def _tell(self, size, at_end=False):
        if self.told:
            self.told(self.table.name, self.count, size if at_end else min(self.file.buffer.tell(), size), size)

    # Records without quotes, of which nothing is to be changed

    def _is_plain(self):
        return self.texts == "text" and len(self.columns) == len(self.header) and not any("\n" in name or "\r" in name for name in self.header)

    def _plain_pieces(self):
        """Pieces of records, each with its rid in front, as long as these have no quotes, and nothing that a default or a fault would be for. The
        others are left as `records`."""
        letters = r'[^,"\r\n\0\ud800-\udfff]'
        fields = [r"[+-]?[0-9]{1,18}+" if column.kind == "int" else letters + ("++" if column.default or len(self.header) == 1 else "*+")
                  for column, _, _ in self.columns]
        records = re.compile(f"(?:{','.join(fields)}\n)*+")
        while piece := self.file.read(PIECE):
            piece += self.file.readline()
            lines = piece.replace("\r\n", "\n").removesuffix("\n") + "\n"
            if not records.fullmatch(lines):
                self.records = tables.records(itertools.chain(io.StringIO(piece, newline=""), self.file), self.line + self.count)
                return
            lines = lines.split("\n")[:-1]
            first = self.begin + self.count
            self.count += len(lines)
            yield "".join(map("%d,%s\r\n".__mod__, enumerate(lines, first)))
        self.records = iter(())

    # All others

    def _rows(self):
        before = None
        for line, row in self.records:
            number = self.count + 1
            if len(row) != len(self.header):
                raise self.fault(f"record {number} has a wrong number of fields", number, line,
                                 hint=f"It has {len(row)}, and the header {len(self.header)}. {tables.ragged_hint(row, before, len(self.header))}")
            values = [self.begin + self.count]
            for column, place, take in self.columns:
                value = take(row[place])
                if value is None:
                    self._wrong(column, number, line, row[place])
                values.append(value)
            before, self.count = row, number
            yield values

    def _wrong(self, column, number, line, field):
        shown = language.column_name(column.name)
        if column.kind == "int":
            raise self.fault(f"record {number} column {shown} is no int", number, line, column.name, field, tables.int_hint(column, field))
        raise self.fault(f"record {number} column {shown} has bytes that are no UTF-8, or a zero byte", number, line, column.name, field,
                         "Load the book with --bytes.")
