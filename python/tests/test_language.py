"""The reader of books and lines against the programs: the same fault at the same byte."""
import collections
import io
import random
import unittest

from smoke import language, records
from smoke.language import Fault
from tests import archives, broken, made, running

OWN_CASES = {"book_of_another_name"}  # their book isn't book.smk


def said_of(text):
    """The line that a run says of a book, empty where it has no fault."""
    try:
        language.read_book(text)
    except Fault as fault:
        return f"smoke: book: {fault}\n".encode()
    return b""


def short(text):
    return text if len(text) < 400 else text[:200] + b" .. " + text[-200:]


class Archives(unittest.TestCase):
    def test_faults_of_books_are_those_of_the_cases(self):
        count = 0
        for case in archives.all_cases():
            book = case.files.get("book.smk")
            wants = case.status == 3 or case.status in (0, 1, 4, 5) and not any("--demo" in words for words in case.words)
            if book is None or not wants or case.name in OWN_CASES:
                continue
            count += 1
            with self.subTest(case=case.name):
                self.assertEqual(said_of(book).rstrip(), case.err.rstrip() if case.status == 3 else b"")
        self.assertGreater(count, 1000)


class Books(unittest.TestCase):
    """Books through the program."""

    @classmethod
    def setUpClass(cls):
        cls.smoke = running.need("smoke")

    def compare(self, texts):
        with running.Folder() as folder:
            def differs(text):
                status, out, err = running.run([self.smoke, "/dev/stdin"], folder.path, text)
                mine = said_of(text)
                if mine:
                    return None if (status, out, err) == (3, b"", mine) else (short(text), mine, status, err)
                return None if status != 3 else (short(text), mine, status, err)
            found = [said for said in running.each(differs, texts) if said]
        self.assertEqual(found[:5], [], f"{len(found)} of {len(texts)}")

    def test_all_texts_of_the_archives(self):
        self.compare(archives.texts())

    def test_broken_books(self):
        chance = random.Random(71)
        whole = [text for text in archives.texts() if len(text) < 6000]
        good = [text for text in whole if not said_of(text)]
        texts = [broken.broken(chance, chance.choice(chance.choice((whole, good, good)))) for _ in range(running.COUNT // 4)]
        self.compare(texts)

    def test_books_made_at_random(self):
        chance = random.Random(72)
        texts = [made.Maker(chance).book() for _ in range(running.COUNT // 8)]
        texts += [broken.broken(chance, chance.choice(texts)) for _ in range(running.COUNT // 40)]
        kinds = collections.Counter(said_of(text).decode().partition(" at ")[0] for text in texts)
        self.assertGreater(len(kinds), 11)
        self.compare(texts)


def appends(line, book):
    """Whether a line appends a file to a table of the book: such a run would read it before it says anything."""
    try:
        question = language.read_line(line.removesuffix(b"\r"))
    except Fault:
        return False
    return question is not None and question.kind == "append" and question.table in language.read_book(book).tables


class Lines(unittest.TestCase):
    """Lines of scripts over the books of the archives, with tables that have no rows. Behind each stands a line that is none, and tells
    where its reply ends."""

    @classmethod
    def setUpClass(cls):
        cls.smoke = running.need("smoke")

    def wanted(self, catalog, number, line):
        """What is said of a line, as far as the reader knows it: its first words, or None."""
        try:
            question = language.read_line(line)
        except Fault as fault:
            return f"line {number} not read at byte {fault.at}".encode()
        if question is None:
            return b""
        known = question.view in catalog.views and question.table in catalog.tables
        if question.kind == "ask" and known and question.marks is None and catalog.declares_back(question.view, question.table):
            try:
                columns = language.check_steps(catalog.tables[question.table].columns, question.steps)
            except Fault as fault:
                return f"refused steps: {fault}".encode()
            out = io.StringIO(newline="")
            records.writer(out).writerow(["row", *(column.name for column in columns)])
            return f"ask {question.view} to {question.table} 0\n{out.getvalue()[:-1]}".encode("utf-8", "surrogateescape")
        return None

    def compare(self, book, lines):
        catalog = language.read_book(book)
        with running.Folder() as folder:
            headers = {}
            for table in catalog.tables.values():
                headers.setdefault(table.file, {}).update(dict.fromkeys(column.name for column in table.columns))
            for file, names in headers.items():
                if "/" in file or not file:
                    return 0
                header = ",".join('"' + name.replace('"', '""') + '"' for name in names)
                folder.write(file, header.encode("utf-8", "surrogateescape") + b"\n")
            folder.write("book.smk", book)
            folder.write("script", b"".join(line + b"\n}\n" for line in lines))
            status, out, err = running.run([self.smoke, "book.smk", "script"], folder.path)
        self.assertEqual((status, err), (1, b""))
        answers, reply = [], []
        for part in out.split(b"\n"):
            if part == b"line %d not read at byte 0" % (2 * len(answers) + 2):
                answers.append(b"\n".join(reply))
                reply = []
            else:
                reply.append(part)
        self.assertEqual((len(answers), reply), (len(lines), [b""]))
        views = answers[0].split(b"\n")[:2 * len(catalog.views)]
        answers[0] = b"\n".join(answers[0].split(b"\n")[len(views):])
        for number, line in enumerate(lines, 1):
            line = (line if number > 1 else language.without_marks(line)).removesuffix(b"\r")
            wanted, came = self.wanted(catalog, 2 * number - 1, line), answers[number - 1]
            if wanted is None:
                told = came.startswith((b"refused steps", b"line ")) or came == b""
                self.assertFalse(told, (line, came))
            else:
                self.assertEqual(came, wanted, line)
        return len(lines)

    def test_lines_whole_and_broken(self):
        chance = random.Random(67)
        books, lines = {}, {}
        for case in archives.all_cases():
            book = case.files.get("book.smk", b"")
            if case.status in (0, 1) and not said_of(book) and len(book) < 6000:
                scripts = [text for name, text in case.files.items() if not name.endswith((".smk", ".csv")) and len(text) < 20_000]
                own = [line for script in scripts for line in language.lines_of(script)]
                books.setdefault(book, []).extend(own)
                lines.update(dict.fromkeys(own))
        lines = list(lines)
        asks = [line for line in lines if line.startswith(b"ask")]
        count = 0
        each = -(-running.COUNT // len(books))
        for book, own in books.items():
            tried = list(dict.fromkeys(own))
            for _ in range(each):
                line = chance.choice(chance.choice((own or lines, lines, asks)))
                if line.startswith(b"ask") and chance.randrange(3):
                    words = line.split(b" ")
                    if b"to" in words:
                        line = b" ".join(words[:3] + [b"all"] + words[words.index(b"to"):])
                tried.append(broken.broken(chance, line).replace(b"\n", b" ") if chance.randrange(8) else line)
            count += self.compare(book, [line for line in tried if not appends(line, book)])
        self.assertGreater(count, running.COUNT // 2)
        print(f"{count} lines over {len(books)} books", flush=True)

    def test_steps_made_at_random(self):
        chance = random.Random(68)
        count = 0
        while count < running.COUNT // 4:
            maker = made.Maker(chance)
            book = maker.book()
            if said_of(book):
                continue
            catalog = language.read_book(book)
            maker.wrong = 0.05
            backs = sorted({back[:2] for back in catalog.backs} | {link[:2] for link in catalog.links})
            lines = []
            for _ in range(60 if backs else 0):
                view, table = chance.choice(backs)
                columns, steps = maker.tables[table], []
                for _ in range(chance.choice((1, 2, 3, 5))):
                    step, columns = maker.step(columns, 0, alone=True)
                    steps.append(step)
                lines.append(f"ask back {view} all to {table} | {' | '.join(steps)}".encode())
            count += self.compare(book, lines) if lines else 0
        print(f"{count} lines of steps", flush=True)
