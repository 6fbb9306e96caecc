"""Sessions over smoke_live: what they give, what they refuse, and why they don't start."""
import io
import os
import unittest

import smoke
from smoke import BookError, Ended, FileError, LimitError, NoRow, Refused, TableError, Unwritable, language, schema
from smoke.frame import Frame
from tests import archives, running

BIKES = str(archives.EXAMPLES / "bikes" / "book.smk")


class Questions(unittest.TestCase):
    @classmethod
    def setUpClass(cls):
        running.need("smoke_live")

    def test_the_shop(self):
        with running.Folder() as folder:
            folder.write("sales.csv", "id,region,amount\n1,north,10\n2,south,20\n3,north,30\n4,east,5\n")
            folder.write("regions.csv", "name,zone\nnorth,A\nsouth,B\neast,A\n")
            folder.write("more.csv", "id,region,amount\n5,east,15\n6,west,25\n")
            folder.write("book.smk", '''table sales from "sales.csv" (id int, region text, amount int)
table regions from "regions.csv" (name text, zone text)
view by_region = scan sales | group region {n = count, total = sum amount}
view by_zone = scan sales | join scan regions on region = name | group zone {total = sum amount}
view big = scan sales | where amount >= 10
view few = scan sales | group region {n = count} | where n < 2
lineage back by_region to sales by amount
lineage back by_zone to regions
lineage back by_zone to sales group region {n = count}
lineage back big to sales
lineage fwd sales to big
fd region_amount on sales region to amount
lineage back region_amount to sales by id
link by_region on sales to by_zone, few
link big on sales to few
''')
            with smoke.connect(folder.path + "/book.smk") as session:
                told = session.schema
                self.assertEqual([(table.name, table.rows, [(column.name, column.kind) for column in table.columns]) for table in told.tables.values()],
                                 [("sales", 4, [("id", "int"), ("region", "text"), ("amount", "int")]), ("regions", 3, [("name", "text"), ("zone", "text")])])
                self.assertEqual([(view.name, view.rows, [column.name for column in view.columns]) for view in told.views.values()],
                                 [("by_region", 3, ["region", "n", "total"]), ("by_zone", 2, ["zone", "total"]), ("big", 3, ["id", "region", "amount"]),
                                  ("few", 2, ["region", "n"]), ("region_amount", 1, ["region", "least", "most"])])
                self.assertEqual(told.backs, (schema.Back("by_region", "sales", "amount"), schema.Back("by_zone", "regions"),
                                              schema.Back("by_zone", "sales", group=True), schema.Back("big", "sales"), schema.Back("region_amount", "sales"),
                                              schema.Back("region_amount", "sales", "id")))
                self.assertEqual((told.fwds, told.fds), ((schema.Fwd("sales", "big"),), ("region_amount",)))
                self.assertEqual(told.links, (schema.Link("by_region", "sales", ("by_zone", "few")), schema.Link("big", "sales", ("few",))))
                self.assertEqual(told.linked("by_region", "sales"), ("by_zone", "few"))
                frame = session.show("by_region")
                self.assertEqual((frame.columns, frame.kinds, frame.rows, frame.places, frame.count),
                                 (("region", "n", "total"), ("text", "int", "int"), [("north", 2, 40), ("south", 1, 20), ("east", 1, 5)], [0, 1, 2], 3))
                north = [("1", "north", 10), (3, "north", 30)]
                north[0] = (1, "north", 10)
                for marks in (0, [0, 0], {"region": "north"}, [{"region": "north"}], {"region": "north", "n": 2}):
                    back = session.back("by_region", marks, "sales")
                    self.assertEqual((back.rows, back.places, back.place), (north, [0, 2], "rid"))
                self.assertEqual(session.back("by_region", [{"region": "east"}, 1], "sales").places, [1, 3])
                self.assertEqual(session.back("by_region", "all", "sales").count, 4)
                self.assertEqual(session.back("by_region", 0, "sales", where=("amount", 30)).places, [2])
                grouped = session.back("by_zone", 0, "sales", group=True)
                self.assertEqual((grouped.columns, grouped.kinds, grouped.rows, grouped.places), (("region", "n"), ("text", "int"), [("north", 2), ("east", 1)], None))
                self.assertEqual(session.fwd("sales", [2, 0], "big"), [0, 2])
                asked = session.ask("by_zone", {"zone": "A"}, "regions", "where name != \"east\" | project zone as z, name")
                self.assertEqual((asked.columns, asked.rows), (("z", "name"), [("A", "north")]))
                self.assertEqual(session.ask("by_region", 0, "sales", ["group {s = sum amount}", "where s > 1"]).rows, [(40,)])
                violation, = session.fd("region_amount")
                self.assertEqual((violation.mark, violation.count, violation.frame.rows, violation.frame.places), (0, 2, north, [0, 2]))
                brushed = session.brush("by_region", {"region": "north"}, "sales")
                self.assertEqual((brushed.view, brushed.table, brushed.rids, brushed.count, list(brushed.linked)), ("by_region", "sales", [0, 2], 2, ["by_zone", "few"]))
                self.assertEqual((brushed.linked["by_zone"].marks, brushed.linked["by_zone"].frame.rows, brushed.linked["by_zone"].frame.places), ([0], [("A", 40)], None))
                self.assertEqual((session.show("by_zone").rows, session.show("by_zone").places, session.show("big").places), ([("A", 40)], None, [0, 1, 2]))
                session.brush("big", 0, "sales")
                self.assertEqual(session.clear("by_region", "sales").linked["few"].frame.rows, [("north", 1)])
                self.assertEqual((session.clear().linked, session.show("by_zone").places), ({}, [0, 1]))
                appended = session.append("sales", "more.csv")
                self.assertEqual((appended.count, appended.views["by_region"].rows[2:]), (2, [("east", 2, 20), ("west", 1, 25)]))
                self.assertEqual(session.back("by_region", {"region": "west"}, "sales").places, [5])
                self.assertEqual((session.schema.views["by_region"].rows, session.schema.tables["sales"].rows), (4, 6))
                self.assertEqual(session.first("by_region").rows, session.show("by_region").rows)
                self.assertIsNone(session.line("  # nothing"))
                self.assertEqual(session.line("fwd sales 5 to big"), [4])
                for question, said, hint in [
                    (lambda: session.show("by_regoin"), "refused unknown view by_regoin", "by_region"),
                    (lambda: session.back("big", 0, "Sales"), "refused unknown table Sales", "Case"),
                    (lambda: session.back("few", 0, "regions"), "refused undeclared back few to regions", "lineage back"),
                    (lambda: session.fwd("regions", 0, "few"), "refused undeclared fwd regions to few", "lineage fwd"),
                    (lambda: session.back("by_region", 9, "sales"), "refused no row 9 of 4", "0"),
                    (lambda: session.back("by_region", 0, "sales", where=("amount", "x")), "refused wrong kind for amount", "int"),
                    (lambda: session.back("by_region", 0, "sales", where=("id", 1)), "refused no split of by_region to sales by id", "by COLUMN"),
                    (lambda: session.back("by_region", 0, "sales", group=True), "refused no grouping of by_region to sales", "group"),
                    (lambda: session.back("by_zone", "all", "sales", group=True), "refused more than one mark", "each"),
                    (lambda: session.brush("few", 0, "sales"), "refused not linked few on sales", "link"),
                    (lambda: session.fd("big"), "refused no dependency big", "fd NAME"),
                    (lambda: session.append("sales", "none.csv"), "refused cannot read none.csv", ""),
                    (lambda: session.ask("by_region", 0, "sales", "where amounts > 5"), "refused steps: unknown column at byte 38", "amount"),
                    (lambda: session.line("back big to sales"), "line ", "marks"),
                    (lambda: session.line("ask back big 0 to sales | where amount == 1"), "line ", "Equal is ="),
                ]:
                    with self.assertRaises(Refused) as caught:
                        question()
                    self.assertTrue(caught.exception.said.startswith(said), caught.exception.said)
                    self.assertIn(hint, caught.exception.hint)
                    self.assertTrue(str(caught.exception).startswith(said))
                for values in ({"region": "nowhere"}, {"region": 5}, {}):
                    with self.assertRaises(NoRow):
                        session.back("by_region", values, "sales")
                with self.assertRaises(Refused):
                    session.back("by_region", {"regio": "north"}, "sales")
                for question in (lambda: session.show("by region"), lambda: session.show("show"), lambda: session.back("big", [], "sales"),
                                 lambda: session.back("big", -1, "sales"), lambda: session.back("big", 2**32, "sales"), lambda: session.back("big", 1.5, "sales"),
                                 lambda: session.back("big", True, "sales"), lambda: session.back("big", None, "sales"), lambda: session.back("big", b"0", "sales"),
                                 lambda: session.back("by_region", 0, "sales", where="ab"), lambda: session.back("big", "0", "sales"), lambda: session.line("show big\nshow big"),
                                 lambda: session.append("sales", "a\nb"), lambda: session.append("sales", "\ud800"),
                                 lambda: session.back("by_region", 0, "sales", where=("a`b", 1)), lambda: session.back("by_region", 0, "sales", where=("a", 2**63)),
                                 lambda: session.back("by_region", 0, "sales", where=("a", 1.5)), lambda: session.back("by_region", 0, "sales", where=("", 1)),
                                 lambda: session.back("by_region", 0, "sales", where=("a", 1), group=True), lambda: session.ask("big", 0, "sales", "where id = 1\nshow big")):
                    with self.assertRaises(Unwritable):
                        question()
                self.assertIsNone(session.ended)
            self.assertEqual(session.ended, "it was closed")
            with self.assertRaises(Ended):
                session.show("big")
            self.assertEqual(session.close(), 1)

    def test_ints_are_exact_and_texts_keep_their_bytes(self):
        with running.Folder() as folder:
            folder.write("e.csv", b"hi,t\n9223372036854775807,\xff\xfe\n9223372036854775807,\"a\n\nb\"\n-9223372036854775808,\"\r\"\"\"\n")
            folder.write("book.smk", 'table e from "e.csv" (hi int, t text)\nview s = scan e | where hi > 0 | group {a = sum hi} | group {a = sum a}\n'
                                     "view all_rows = scan e\nlineage back all_rows to e by t\n")
            with smoke.connect(folder.path + "/book.smk", workers=2, mode="defer") as session:
                self.assertEqual(session.show("s").rows, [(18446744073709551614,)])
                frame = session.show("all_rows")
                self.assertEqual(frame["t"], ["\udcff\udcfe", "a\n\nb", '\r"'])
                self.assertEqual(frame.rows[2][0], -2**63)
                self.assertEqual(session.back("all_rows", "all", "e", where=("t", "\udcff\udcfe")).places, [0])
                out = io.StringIO()
                frame.to_csv(out, places=True)
                self.assertEqual(out.getvalue().split("\n")[0], "row,hi,t")
                frame.to_csv(folder.path + "/out.csv")
                with open(folder.path + "/out.csv", "rb") as file, open(folder.path + "/e.csv", "rb") as first:
                    self.assertEqual(file.read(), first.read())

    def test_a_book_made_in_python(self):
        with running.Folder() as folder:
            book = smoke.Book(folder.path)
            book.table("people", [{"name": "Ann", "card no": 7}, {"name": "B \"b\"", "card no": None}])
            book.view("by_name", "scan people | group name {n = count}").view("cards", "scan people | group `card no` {n = count}").link_all("people")
            with smoke.connect(book, read_only=True) as session:
                self.assertEqual(session.show("cards").rows, [(7, 1), (-1, 1)])
                self.assertEqual(session.brush("cards", {"card no": 7}, "people").linked["by_name"].frame.rows, [("Ann", 1)])
                with self.assertRaises(Refused) as caught:
                    session.append("people", "people.csv")
                self.assertEqual(caught.exception.said, "refused read only")


class Frames(unittest.TestCase):
    def test_a_frame(self):
        frame = Frame(["a", "b c"], ["int", "text"], [(1, "<x>"), (2, "\udcff")], [5, 9], 7, "rid")
        self.assertEqual(list(frame), [{"a": 1, "b c": "<x>"}, {"a": 2, "b c": "\udcff"}])
        self.assertEqual((len(frame), frame["a"], frame[1], frame[:1].places), (2, [1, 2], {"a": 2, "b c": "\udcff"}, [5]))
        self.assertEqual(repr(frame), "<Frame of 2 of 7 rows: a, b c>")
        with self.assertRaises(KeyError):
            frame["c"]
        shown = frame._repr_html_()
        shown.encode()
        self.assertIn("&lt;x&gt;", shown)
        self.assertIn("2 of 7 rows", shown)
        self.assertNotIn("<x>", shown)

    def test_pandas(self):
        try:
            import pandas  # noqa: F401
        except ImportError:
            raise unittest.SkipTest("pandas isn't there") from None
        frame = Frame(["a", "a", "t"], ["int", "int", "text"], [(1, 2**70, "x"), (-2**63, 2, "\udcff")], [5, 9], 2, "rid").to_pandas()
        self.assertEqual((list(frame.index), frame.index.name, list(frame.columns)), ([5, 9], "rid", ["a", "a", "t"]))
        self.assertEqual((frame.iloc[0, 1], frame.iloc[1, 0], frame.iloc[1, 2], str(frame.dtypes.iloc[0])), (2**70, -2**63, "\udcff", "Int64"))
        self.assertEqual(len(Frame(["a"], ["int"], [], [], 0, "rid").to_pandas()), 0)
        running.need("smoke_live")
        with running.Folder() as folder:
            source = pandas.DataFrame({"name": ["Ann", None, "B, b"], "n": [1.0, None, 3.0], "share": [0.5, 2.0, 1.0], "here": [True, False, True]})
            book = smoke.Book(folder.path).table("people", source).view("by_n", "scan people | group n {k = count}").link_all("people")
            with smoke.connect(book) as session:
                self.assertEqual(session.show("by_n").rows, [(1, 1), (-1, 1), (3, 1)])
                back = session.back("by_n", {"n": -1}, "people").to_pandas()
                self.assertEqual((list(back.index), back.iloc[0].tolist()), ([1], ["", -1, "2", 0]))


class Faults(unittest.TestCase):
    """What ends a start, as it is told to people."""

    @classmethod
    def setUpClass(cls):
        cls.live = running.need("smoke_live")

    def start(self, book, **files):
        with running.Folder(book_smk=book, **files) as folder:
            smoke.connect(folder.path + "/book.smk", timeout=600).close()

    def test_faults(self):
        table = 'table t from "t.csv" (a int)\n'
        big = 'table t from "t.csv" (k int)\ntable u from "u.csv" (j int)\n'
        ones = "\n" + "1\n" * 1025
        for kind, said, fields, book, files in [
            (BookError, "smoke: book: unknown table at byte 14", {"line": 1, "column": 15}, "view v = scan t\n", {}),
            (BookError, "smoke: book: bad token at byte 15", {"line": 1}, "view v = scan t;\n", {}),
            (TableError, "smoke: table t: no header", {}, table, {"t_csv": ""}),
            (TableError, "smoke: table t: missing column a", {"line": 1}, table, {"t_csv": "b\n"}),
            (TableError, "smoke: table t: repeated column a", {"line": 1}, table, {"t_csv": "a,a\n"}),
            (TableError, "smoke: table t: record 2 has a wrong number of fields", {"record": 2, "line": 4}, table, {"t_csv": "a\n1\n\n2,3\n"}),
            (TableError, "smoke: table t: record 1 column a is no int", {"field": "x", "line": 2}, table, {"t_csv": "a\nx\n"}),
            (FileError, "smoke: cannot read t.csv", {"file": "t.csv"}, table, {}),
            (LimitError, "smoke: limit: rows of view c at node 2", {"limit": language.ROWS},
             big + "view c = scan t | join scan u on k = j | group {n = count}\n", {"t_csv": "k" + ones, "u_csv": "j" + ones}),
            (LimitError, "smoke: limit: lineage of view g at node 3 to table t", {"limit": language.PAIRS},
             big + "view g = scan t | group k {n = count} | join scan u on k = j\nlineage back g to t\n",
             {"t_csv": "k\n" + "1\n" * 4097, "u_csv": "j\n" + "1\n" * 4097}),
            (LimitError, "smoke: limit: rows of table t", {"size": language.ROWS + 1}, table, {"t_csv": "a\n" + "1\n" * (language.ROWS + 1)}),
            (LimitError, "smoke: limit: file t.csv", {"size": language.FILE_BYTES + 4}, table, {"t_csv": "a\n1\n" + " " * language.FILE_BYTES}),
        ]:
            with self.subTest(said=said):
                with self.assertRaises(kind) as caught:
                    self.start(book, **files)
                fault = caught.exception
                self.assertEqual(fault.said, said)
                for name, value in fields.items():
                    self.assertEqual(getattr(fault, name), value)
                str(fault).encode()

    def test_a_book_that_changes_while_it_is_read(self):
        with running.Folder(t_csv="a,b\n1,2\n") as folder:
            path = folder.write("book.smk", 'table t from "t.csv" (a int)\nview v = scan t\n')
            for other in ('table t from "t.csv" (b int)\nview v = scan t\n', "view v = scan t\n"):
                program = folder.write("changes", f"#!/bin/sh\nprintf 'table t from \"t.csv\" (a int)\\nview v = scan t\\n' >{path}\nexec {self.live} \"$@\"\n")
                os.chmod(program, 0o755)
                with open(path, "w") as file:
                    file.write(other)
                with self.assertRaises(BookError if other.startswith("view") else Ended) as caught:
                    smoke.connect(path, program=program)
                self.assertTrue(str(caught.exception))

    def test_what_isnt_there(self):
        with self.assertRaises(FileError):
            smoke.connect("/nowhere/book.smk")
        with self.assertRaises(FileError):
            smoke.connect(BIKES, program="/nowhere/smoke_live")
        with self.assertRaises(FileError):
            smoke.connect(BIKES, folder="/nowhere")
        with self.assertRaises(ValueError):
            smoke.connect(BIKES, workers=65)
        with self.assertRaises(Ended) as caught:
            smoke.connect(BIKES, program="/bin/false")
        self.assertEqual(caught.exception.status, 1)
        with self.assertRaises(Ended):
            smoke.connect(BIKES, program="/bin/echo")
