"""The rows of files as COPY takes them: those that go as they stand are those that the csv module reads."""
import csv
import io
import os
import random
import unittest
import unittest.mock

from smoke import copying, language, tables
from smoke.faults import SmokeError
from tests import running

BOOK = b'table t from "t.csv" (a int, b text, c int default 5, d text default "x")\ntable s from "s.csv" (b text)\n'
FIELDS = {"a": ["1", "-2", "+3", "007", "123456789012345678", "-0"],
          "b": ["x", "", "é", "a b", "\\.", "%s", "'", " y", "\ufeff"], "c": ["1", "2", "-3", "40"], "d": ["x", "y", "z z"]}
HOSTILE = {"a": ["9223372036854775807", " 4", "4 ", "", "1.5", "x", "9223372036854775808", '"8"', "٣"],
           "b": ['"a,b"', '"a""b"', '"l\nf"', '"l\r\nf"', "\udcff", "\0", 'a"b'],
           "c": ["", " ", '"6"'], "d": ["", '""', '"q"']}


def file_of(chance, names, hostile):
    """The text of a file, most of whose records are plain."""
    names = chance.sample(names, len(names)) + (["e"] if chance.random() < 0.1 else [])
    end = chance.choice(("\n", "\n", "\r\n"))
    lines = [",".join(names)]
    for _ in range(chance.randrange(30)):
        fields = [chance.choice(HOSTILE[name] if name in HOSTILE and chance.random() < hostile else FIELDS.get(name, ["9"])) for name in names]
        lines.append(",".join(fields + ([""] if chance.random() < hostile / 9 else [])))
        if chance.random() < hostile / 3:
            lines.append(chance.choice(("", "\r", "1")))
    return chance.choice(("", "", "\ufeff")) + end.join(lines) + chance.choice((end, end, ""))


class Noted(copying.Rows):
    """Notes how many rows went as they stood."""

    plain = 0

    def _rows(self):
        self.plain = self.count
        yield from super()._rows()


class Read(Noted):
    """Reads each field."""

    def _is_plain(self):
        return False


class Rows(unittest.TestCase):
    def given(self, reader, table, path, size):
        """What COPY is given of a file, with ints as ints, or the fault; and how many rows went as they stood."""
        with tables.opened(path) as file, unittest.mock.patch.object(copying, "PIECE", size):
            rows = None
            try:
                rows = reader(table, file, "text", 7)
                pieces = []
                while piece := rows.read(size):
                    pieces.append(piece)
                given = list(csv.reader(io.StringIO("".join(pieces), newline="")))
                kinds = ["int", *(column.kind for column, _, _ in rows.columns)]
                return [[tables.int_of(field) if kind == "int" else field for kind, field in zip(kinds, row, strict=True)] for row in given], rows.plain
            except SmokeError as fault:
                return str(fault), rows and rows.plain

    def test_plain_records_go_as_they_stand(self):
        catalog, chance, plain, read, faults = language.read_book(BOOK), random.Random(71), 0, 0, 0
        with running.Folder() as folder:
            path = os.path.join(folder.path, "t.csv")
            for _ in range(running.COUNT // 40):
                table = catalog.tables[chance.choice("ts")]
                text = file_of(chance, [column.name for column in table.columns], chance.choice((0, 0.01, 0.1)))
                folder.write("t.csv", text.encode("utf-8", "surrogateescape"))
                size = chance.choice((1, 20, 100, 10_000))
                came, count = self.given(Noted, table, path, size)
                wanted, _ = self.given(Read, table, path, size)
                self.assertEqual(came, wanted, text)
                faults += isinstance(wanted, str)
                plain += count or 0
                read += len(wanted) if isinstance(wanted, list) else 0
        self.assertGreater(faults, running.COUNT // 400)
        self.assertGreater(plain, read // 4)
        self.assertLess(plain, read)
