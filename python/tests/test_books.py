"""Books from data: each is accepted, and its views are what the csv module and sqlite3 count."""
import collections
import csv
import io
import pathlib
import random
import sqlite3
import unittest

import smoke
from smoke import BookError, FileError, TableError, Unwritable, books, language, look, texts
from tests import archives, running


class Found(unittest.TestCase):
    """Books found by looking at a file."""

    def counted(self, path, folder, **wishes):
        """Compares each view of the book that is found with sqlite3 and the csv module. Gives the book."""
        book = books.found_in(path, shown=pathlib.Path(path).name, **wishes)
        book.folder = folder
        catalog = book.catalog
        table, = catalog.tables.values()
        with open(path, encoding="utf-8", errors="surrogateescape", newline="") as file:
            text = file.read().lstrip("\ufeff")
        rows = [row for row in csv.reader(io.StringIO(text, newline="")) if row]
        header, records = rows[0], rows[1:]
        columns = {column.name: (header.index(column.name), column) for column in table.columns}

        def value(row, name):
            place, column = columns[name]
            if column.kind == "int":
                return int(row[place]) if row[place].strip(" \t") else column.default
            return row[place]
        base = sqlite3.connect(":memory:")
        base.text_factory = bytes
        names = {name: f"c{number}" for number, name in enumerate(columns)}
        base.execute(f"create table t ({', '.join(names.values())})")

        def stored(held):
            return held.encode("utf-8", "surrogateescape") if isinstance(held, str) else held
        base.executemany(f"insert into t values ({', '.join('?' * len(names))})", ([stored(value(row, name)) for name in names] for row in records))
        with running.Folder(book_smk=book.text) as held:
            status, out, err = running.run([self.smoke, held.path + "/book.smk"], folder)
        self.assertEqual((status, err), (0, b""), str(book))
        for view, part in zip(catalog.views.values(), texts.of_report(out), strict=True):
            take = [int if column.kind == "int" else str for column in view.columns]
            rows_said = [tuple(form(held) for form, held in zip(take, record[1:])) for record in part.records]
            where, step = None, view.plan
            group = step
            step = step.input
            bins = {}
            if getattr(step, "kind", "") == "project":
                bins = {item.name.name: item for item in step.items}
                step = step.input
            if getattr(step, "kind", "") == "where":
                where = step.test
            key = group.keys[0].name if group.keys else None
            chosen = [row for row in records if not where or value(row, where.left.name) != where.right.value]
            groups = collections.Counter()
            for row in chosen:
                held = value(row, bins[key].column.name if bins else key) if key else None
                groups[held // bins[key].width if bins and bins[key].width else held] += 1
            wanted = list(groups.items()) if key else [(count,) for count in groups.values()]
            self.assertEqual([row[:2] for row in rows_said], wanted, (path, view.name))
            sums = [(place, aggregate.column.name) for place, aggregate in enumerate(group.aggregates, len(group.keys)) if aggregate.what == "sum"]
            if key:
                source = names[bins[key].column.name if bins else key]
                width = bins[key].width if bins else None
                shown = f"(({source} / {width}) - (({source} % {width}) < 0))" if width else source
                asked = f"select {shown}, count(*)" + "".join(f", sum({names[name]})" for _, name in sums) + " from t"
                test = f" where {source} != {where.right.value}" if where else ""
                try:
                    counted = {row[0]: row[1:] for row in base.execute(asked + test + " group by 1")}
                except sqlite3.OperationalError as fault:
                    self.assertIn("overflow", str(fault))
                    continue
                places = [len(group.keys), *(place for place, _ in sums)]
                self.assertEqual({stored(row[0]): tuple(row[place] for place in places) for row in rows_said}, counted, (path, view.name))
                self.views += 1
        self.books += 1
        return book

    def test_the_examples_and_what_the_system_has(self):
        self.smoke = running.need("smoke")
        self.books = self.views = 0
        paths = [path for path in sorted(archives.EXAMPLES.glob("*/*.csv")) if path.parent.name != "spreadsheet"]
        paths += [path for path in pathlib.Path("/usr/share").rglob("*.csv") if 0 < path.stat().st_size < 5_000_000][:20]
        for path in paths:
            with self.subTest(path=path):
                try:
                    self.counted(path, str(path.parent))
                except (TableError, FileError) as fault:
                    self.assertFalse(str(path).startswith(str(archives.EXAMPLES)), fault)
        self.assertGreater(self.books, 12)
        print(f"{self.books} books, {self.views} views", flush=True)

    def test_files_made_at_random(self):
        self.smoke = running.need("smoke")
        self.books = self.views = 0
        chance = random.Random(16)
        hostile = ["", " ", "a", "A", "\u00e9", '"', ",", "\n", "\r\n", "007", "1.5", "-1", "n/a", "# x", "`", "x" * 300, "\udcff", "\0", "view", "0", "=1+1"]
        names = ["id", "amount", "group", "card no", "Stra\u00dfe", "a,b", 'say "x"', "#", "1st", "", "amount", "x" * 65, "a`b", "l\nf", " lead", "count", "Count", "by", "n",
                 "sum", "\udcff", "total", "view", "tab\there"]
        for number in range(max(20, running.COUNT // 100)):
            rows = chance.choice((0, 1, 2, 5, 30, 300, 3000 if number % 20 == 0 else 40))
            header = [chance.choice(names) for _ in range(chance.randrange(1, 25))]
            if len(header) == 1 and header[0] in ("", "#"):
                header = ["only"]

            def column():
                way = chance.randrange(9)
                low, high = sorted((chance.choice((0, 1, -5, -10**9, 10**18, -2**63, 2**63 - 1, 5000)), chance.choice((1, 10, 50, 1000, 10**6, 2**63 - 1, 20260101))))
                gaps = chance.choice((0, 0, 0.3))
                for place in range(rows):
                    if gaps and chance.random() < gaps:
                        yield chance.choice(("", " "))
                    elif way < 3:
                        yield str(chance.randint(low, high))
                    elif way == 3:
                        yield str(place + 1)
                    elif way == 4:
                        yield chance.choice(hostile)
                    elif way == 5:
                        yield chance.choice("abc")
                    elif way == 6:
                        yield f"text {place}"
                    elif way == 7:
                        yield str(min(high, max(low, int(chance.expovariate(1) * 50))))
                    else:
                        yield "same"
            columns = [list(column()) for _ in header]
            text = io.StringIO(newline="")
            out = csv.writer(text, lineterminator=chance.choice(("\n", "\r\n")))
            out.writerow(header)
            out.writerows(zip(*columns))
            with running.Folder() as folder:
                path = folder.write("some file.csv", (chance.choice(("", "\ufeff")) + text.getvalue()).encode("utf-8", "surrogateescape"))
                with self.subTest(number=number):
                    try:
                        self.counted(path, folder.path)
                    except FileError as fault:
                        self.assertIn("no column", str(fault))
                    except TableError as fault:
                        self.assertEqual(fault.what, "one column")
        self.assertGreater(self.views, self.books)
        print(f"{self.books} books, {self.views} views", flush=True)

    def test_what_is_found(self):
        with running.Folder() as folder:
            chance = random.Random(17)
            rows = [[number, chance.choice(("north", "south", "east")), "" if number % 7 == 0 else chance.randrange(0, 3), chance.randrange(10_000), f"{number:05}",
                     20250101 + chance.randrange(12) * 100 + chance.randrange(28), "all one", f"note {number}"] for number in range(1000)]
            path = folder.write("2026 sales.csv", "id,region,stars,cents,code,day,one,note\n" + "".join(",".join(map(str, row)) + "\n" for row in rows))
            book = books.found_in(path, shown="2026 sales.csv")
            table, = book.catalog.tables.values()
            self.assertEqual((table.name, [(column.name, column.kind, column.default) for column in table.columns]),
                             ("table_2026_sales", [("id", "int", None), ("region", "text", None), ("stars", "int", -1), ("cents", "int", None), ("code", "text", None),
                                                   ("day", "int", None), ("one", "text", None), ("note", "text", None)]))
            text = str(book)
            self.assertIn("bin(cents, 500)", text)
            self.assertIn("bin(day, 100)", text)
            self.assertIn("where stars != -1", text)
            self.assertEqual(list(book.catalog.views), ["by_cents", "by_day", "by_stars", "by_region"])
            self.assertEqual(book.catalog.linked("by_region", "table_2026_sales"), ["by_cents", "by_day", "by_stars"])
            chosen = books.found_in(path, columns=["region", "id"])
            self.assertEqual([column.name for column in next(iter(chosen.catalog.tables.values())).columns], ["region", "id"])
            with self.assertRaises(FileError) as caught:
                books.found_in(path, columns=["regoin"])
            self.assertIn("region", str(caught.exception))

    def test_at_most_16_columns(self):
        with running.Folder() as folder:
            path = folder.write("wide.csv", ",".join(f"c{number}" for number in range(40)) + "\n" +
                                "".join(",".join(["same"] * 24 + [str(row % (number + 2)) for number in range(16)]) + "\n" for row in range(100)))
            table, = books.found_in(path).catalog.tables.values()
            self.assertEqual([column.name for column in table.columns], [f"c{number}" for number in range(24, 40)])
            with self.assertRaises(FileError):
                books.found_in(path, columns=[f"c{number}" for number in range(17)])

    def test_files_that_no_book_can_read(self):
        with running.Folder() as folder:
            for text, kind in [("", TableError), ("a;b\n1;2\n", TableError), ("a,b\n1\n", TableError), (",\n1,2\n", FileError)]:
                with self.assertRaises(kind):
                    books.found_in(folder.write("f.csv", text))
            with self.assertRaises(FileError):
                books.found_in(folder.path)
            with self.assertRaises(smoke.LimitError):
                books.found_in(folder.write("f.csv", "a\n" + "1\n" * (language.ROWS + 1)))

    def test_widths(self):
        self.assertEqual([look.round_up(number) for number in (0, 1, 1.5, 3, 6, 11, 21, 51, 10**20)], [1, 1, 2, 5, 10, 20, 50, 100, 10**20])


class Made(unittest.TestCase):
    """Books made statement by statement."""

    def test_statements(self):
        with running.Folder(sales_csv="id,region,card no,amount\n1,north,7,\n") as folder:
            book = smoke.Book(folder.path)
            book.table("sales", "sales.csv", {"id": int, "card no": "int", "region": str, "amount": 0})
            book.table("others", "sales.csv", ["card no", "amount"])
            book.view("by_card", "scan sales | group `card no` {n = count}").view("few", "scan sales | where id < 3")
            book.lineage("few", "sales").lineage("few", "sales", by="card no").lineage("few", "sales", group="region {n = count}")
            book.lineage("few", "sales", forward=True).link("by_card", "sales", "few").fd("rule", "sales", ["card no", "id"], "region")
            self.assertEqual(str(book), '''table sales from "sales.csv" (id int, `card no` int, region text, amount int default 0)
table others from "sales.csv" (`card no` int, amount text)
view by_card = scan sales | group `card no` {n = count}
view few = scan sales | where id < 3
lineage back few to sales
lineage back few to sales by `card no`
lineage back few to sales group region {n = count}
lineage fwd sales to few
link by_card on sales to few
fd rule on sales `card no`, id to region
''')
            before = str(book)
            for wrong in (lambda: book.view("v", "scan nowhere"), lambda: book.view("v", "scan sales | where id == 1"), lambda: book.link("few", "sales", "few"),
                          lambda: book.view("few", "scan sales"), lambda: book.fd("f", "sales", "idd", "region")):
                with self.assertRaises(BookError):
                    wrong()
                self.assertEqual(str(book), before)
            for wrong in (lambda: book.view("a b", "scan sales"), lambda: book.view("view", "scan sales"), lambda: book.lineage("few", "sales", by="a`b")):
                with self.assertRaises(Unwritable):
                    wrong()
            with self.assertRaises(FileError) as caught:
                book.table("t", "sales.csv", ["regoin"])
            self.assertIn("region", str(caught.exception))
            self.assertEqual(language.read_book(pathlib.Path(book.save(folder.path + "/book.smk")).read_bytes()), book.catalog)

    def test_records(self):
        with running.Folder() as folder:
            book = smoke.Book(folder.path)
            book.table("t", [{"a": 1, "b": "x"}, {"a": None, "c": True}]).table("u", [(1, 2.0), (3, -4)], ["x", "y"])
            self.assertEqual(pathlib.Path(folder.path, "t.csv").read_text(), "a,b,c\n1,x,\n,,1\n")
            self.assertEqual(pathlib.Path(folder.path, "u.csv").read_text(), "x,y\n1,2\n3,-4\n")
            self.assertIn("(a int default -1, b text, c int default -1)", str(book))
            for wrong in (lambda: book.table("v", [(1, 2)]), lambda: book.table("w", [(1, 2), (3,)], ["x", "y"])):
                with self.assertRaises(ValueError):
                    wrong()
