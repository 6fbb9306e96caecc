"""Hostile texts as values, names and files on lines, in a script of one run and in a session."""
import os
import random
import unittest

import smoke
from smoke import Refused, Unwritable, language, lines, texts
from tests import running


def hostile(chance):
    """A text that a careless client would send wrongly."""
    pieces = ['"', '""', "'", "`", "\\", "\r", "\t", "#", "|", " ", ";", ",", "\0", "\x1b[2J", "\u2028", "\u00e9", "\U0001f6b2", "\udcff", "\udc80\udcc3", "show v",
              '" | show v', '" group', "$(x)", "--", "all", "0", "x", "\x85", "\ufeff", ".", ".now ", "-1", "where c = ", "\x7f", "\x0b"]
    text = "".join(chance.choice(pieces) for _ in range(chance.randrange(1, 9)))
    return language.text_of(language.bytes_of(text))  # of two surrogates that together are a character


def hostile_texts(seed, count):
    """So many different hostile texts."""
    chance, texts_made = random.Random(seed), {}
    while len(texts_made) < count:
        texts_made[hostile(chance)] = None
    return list(texts_made)


class Script(unittest.TestCase):
    """The lines that the package writes, in a script of one run."""

    @classmethod
    def setUpClass(cls):
        cls.smoke = running.need("smoke")

    def replies(self, book, folder, said):
        """The parts of the replies to some lines, without those of the views."""
        path = os.path.join(folder, "script.txt")
        with open(path, "wb") as file:
            file.write("".join(line + "\n" for line in said).encode("utf-8", "surrogateescape"))
        book.save(os.path.join(folder, "book.smk"))
        status, out, err = running.run([self.smoke, "book.smk", "script.txt"], folder)
        self.assertEqual((status, err), (0, b""))
        return texts.of_report(out)[len(book.catalog.views):]

    def test_values(self):
        """Each of 10,000 hostile texts finds its row, and no other."""
        values = hostile_texts(14, max(100, running.COUNT // 2))
        with running.Folder() as folder:
            book = smoke.Book(folder.path)
            book.table("t", [{"c": value} for value in values], {"c": "text"})
            book.view("v", "scan t | group {n = count}").lineage("v", "t", by="c")
            replies = self.replies(book, folder.path, [lines.back("v", 0, "t", where=("c", value)) for value in values])
        self.assertEqual([(reply.kind, reply.records) for reply in replies], [("back", [[str(rid), value]]) for rid, value in enumerate(values)])

    def test_names_of_files(self):
        """Files with hostile names are appended, and each name is read as it was written."""
        names = [name for name in hostile_texts(15, max(100, running.COUNT // 2)) if name]
        for name in names:
            line = language.read_line(language.bytes_of(lines.append("t", name)))
            self.assertEqual((line.kind, line.table, line.file), ("append", "t", name))
        made = [name for name in names if "\0" not in name and name not in (".", "..") and not any("\ud800" <= letter <= "\udfff" for letter in name)][:1000]
        with running.Folder(t_csv="c\n") as folder:
            book = smoke.Book(folder.path).table("t", "t.csv", {"c": "text"}).view("v", "scan t | group {n = count}")
            for name in made:
                with open(os.path.join(folder.path, name), "w") as file:
                    file.write("c\nx\n")
            replies = self.replies(book, folder.path, [lines.append("t", name) for name in made])
        counts = [reply.records[0][1] for reply in replies if reply.kind == "view"]
        self.assertEqual(counts, [str(number) for number in range(1, len(made) + 1)])

    def test_marks_and_columns(self):
        chance = random.Random(18)
        names = [name.replace("`", "'") for name in hostile_texts(19, 600)]
        names = [name for name in dict.fromkeys(names) if 0 < len(language.bytes_of(name)) <= 64]
        for start in range(0, len(names) - 16, 16):
            columns = names[start:start + 16]
            with running.Folder() as folder:
                book = smoke.Book(folder.path).table("t", [tuple(range(16)), tuple(range(1, 17))], columns)
                book.view("v", "scan t")
                for column in columns:
                    book.lineage("v", "t", by=column)
                picked = [(column, chance.randrange(2)) for column in columns]
                replies = self.replies(book, folder.path, [lines.back("v", [1, 0], "t", where=(column, columns.index(column) + row)) for column, row in picked])
            self.assertEqual([reply.columns[1:] for reply in replies], [columns] * 16)
            self.assertEqual([reply.records[0][0] for reply in replies], [str(row) for _, row in picked])


class Quoting(unittest.TestCase):
    """Hostile texts through `back .. where` and `append` of a session."""

    @classmethod
    def setUpClass(cls):
        running.need("smoke_live")

    def test_values(self):
        values = hostile_texts(10, max(100, running.COUNT // 2))
        with running.Folder() as folder:
            book = smoke.Book(folder.path)
            book.table("t", [{"c": value} for value in values], {"c": "text"})
            book.view("v", "scan t | group {n = count}").lineage("v", "t", by="c")
            with smoke.connect(book) as session:
                for rid, value in enumerate(values):
                    frame = session.back("v", 0, "t", where=("c", value))
                    self.assertEqual((frame.rows, frame.places), ([(value,)], [rid]), value)
                with self.assertRaises(Unwritable):
                    session.back("v", 0, "t", where=("c", "a\nb"))

    def test_names_of_files(self):
        chance = random.Random(11)
        made = 0
        with running.Folder(t_csv="c\n") as folder:
            book = smoke.Book(folder.path)
            book.table("t", "t.csv", {"c": "text"}).view("v", "scan t | group {n = count}")
            with smoke.connect(book) as session:
                for _ in range(max(100, running.COUNT // 2)):
                    name = hostile(chance)
                    with self.assertRaises(Refused) as caught:
                        session.append("t", name)
                    self.assertEqual(caught.exception.said, f"refused cannot read {name}")
                    utf8 = not any("\ud800" <= letter <= "\udfff" for letter in name)
                    if made < 300 and "\0" not in name and name not in (".", "..") and utf8:
                        path = os.path.join(folder.path, name)
                        with open(path, "w") as file:
                            file.write("c\nx\n")
                        self.assertEqual(session.append("t", name).count, 1)
                        os.remove(path)
                        made += 1
        self.assertGreater(made, 20)

    def test_columns(self):
        chance = random.Random(12)
        names = {}
        while len(names) < 16 * 40:
            name = hostile(chance).replace("`", "'")
            if 0 < len(name.encode("utf-8", "surrogateescape")) <= 64:
                names[name] = None
        names = list(names)
        for start in range(0, len(names), 16):
            columns = names[start:start + 16]
            with running.Folder() as folder:
                book = smoke.Book(folder.path).table("t", [tuple(range(16))], columns)
                book.view("v", "scan t").lineage("v", "t", by=columns[3]).link_all("t")
                with smoke.connect(book) as session:
                    self.assertEqual(session.show("v").columns, tuple(columns))
                    self.assertEqual(session.back("v", {columns[0]: 0}, "t", where=(columns[3], 3)).rows, [tuple(range(16))])
