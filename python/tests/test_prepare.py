"""Files as they come, made ready."""
import csv
import decimal
import io
import json
import os
import random
import unittest

from smoke import language, prepare, readings, tables
from smoke.faults import FileError, LimitError, SmokeError, TableError
from smoke.readings import Number, moment
from tests import running


class Prepared(unittest.TestCase):
    def ready(self, data, **wishes):
        """The header and records that a file is made to, what was done, and its columns."""
        with running.Folder() as folder:
            source = folder.write("in.csv", data)
            done = prepare.prepare(source, folder.path + "/out.csv", **wishes)
            with open(done.file, newline="", encoding="utf-8") as file:
                text = file.read()
            with open(done.file + ".json", encoding="utf-8") as file:
                said = json.load(file)
            self.assertEqual((said["did"], said["columns"], said["records"]), (done.did, done.columns, done.rows))
            self.assertEqual(sorted(os.listdir(folder.path)), ["in.csv", "out.csv", "out.csv.json"])
        self.assertNotIn("\r", text.replace('"', ""))
        rows = list(csv.reader(io.StringIO(text)))
        self.assertEqual(len(rows) - 1, done.rows)
        return rows, done

    def test_a_german_spreadsheet(self):
        text = ("sep=;\r\nArtikel;Preis;Datum;Menge;Ort\r\n\u00c4pfel;1.234,50 \u20ac;31.10.2026;5;K\u00f6ln\r\n"
                "Birnen;-0,99 \u20ac;01.11.2026;n/a;\"Bad; Ort\"\r\n;;;;\r\nSumme;1.233,51 \u20ac;;5;\r\n")
        for encoding in ("utf-8", "utf-8-sig", "utf-16", "utf-16-le", "utf-16-be", "cp1252"):
            with self.subTest(encoding=encoding):
                rows, done = self.ready(text.encode(encoding), leave_out=["totals"])
                self.assertEqual(rows, [["Artikel", "Preis", "Datum", "Menge", "Ort"], ["\u00c4pfel", "123450", "20261031", "5", "K\u00f6ln"],
                                        ["Birnen", "-99", "20261101", "", "Bad; Ort"]])
                self.assertEqual(done.columns["Preis"], {"kind": "int", "scale": 2, "unit": "\u20ac"})
                self.assertEqual(done.columns["Datum"], {"kind": "int", "date": "day"})
                self.assertTrue(any("line 6" in said for said in done.did), done.did)

    def test_a_total_is_kept_and_told_where_no_rule_says_otherwise(self):
        rows, done = self.ready("a,b\nx,1\nTotal,1\n")
        self.assertEqual(len(rows), 3)
        self.assertIn("--leave-out totals", "\n".join(done.did))
        rows, _ = self.ready("a,b\nx,1\nTotal,1\ny,2\n", leave_out=["a=Total", "b=2"])
        self.assertEqual(rows, [["a", "b"], ["x", "1"]])

    def test_spaces_around_fields_are_told(self):
        rows, done = self.ready("town,n\nBonn,1\nBonn , 2\n")
        self.assertEqual(rows[2], ["Bonn ", "2"])
        self.assertEqual(done.did, ["town: kept spaces around fields, by which they differ: --trim drops them"])
        rows, done = self.ready("town,n\nBonn,1\nBonn , 2\n", trim=True)
        self.assertEqual((rows[2], done.did), (["Bonn", "2"], []))

    def test_titles_above_the_header(self):
        """They are left out where the first record of names tells which lines they are, and else the file is refused as before."""
        rows = "Ort;Betrag;Tag;Art\nBonn;1,50;03.03.2026;\n;2,00;14.03.2026;bar\n"
        for titles, count in (("Sales 2026;;;\n", 1), ("\nSales 2026\n\nfrom;2026\n;;;\n", 5)):
            found, done = self.ready(titles + rows)
            self.assertEqual(found, [["Ort", "Betrag", "Tag", "Art"], ["Bonn", "150", "20260303", ""], ["", "200", "20260314", "bar"]])
            self.assertIn(f"left out {count} line", "\n".join(done.did))
        for text in ("a\n1,2\n3,4\n", "a;b\n1;2;3\n4;5;6\n", "Sales\n1,2,3\n4,5,6\n", "Sales\na,b,a\n4,5,6\n"):
            with self.subTest(text=text), self.assertRaises(TableError) as fault:
                self.ready(text)
            self.assertIn("--skip", str(fault.exception))
        self.assertEqual(self.ready("a,,\n1,,\n")[0], [["a"], ["1"]])
        self.assertEqual(self.ready("\n\na,b\n1,2\n")[1].did, [])

    def test_separators(self):
        for separator in ",;\t|":
            rows, done = self.ready(separator.join("abc") + "\n" + separator.join(["1", "x y", "3"]) + "\n")
            self.assertEqual(rows, [["a", "b", "c"], ["1", "x y", "3"]])
            self.assertEqual(len(done.did), 0 if separator == "," else 1)
        rows, _ = self.ready("a:b\n1:2\n", separator=":")
        self.assertEqual(rows, [["a", "b"], ["1", "2"]])

    def test_numbers(self):
        for fields, wanted, scale in [
            (["1.5", "2", "-0.25"], ["150", "200", "-25"], 2), (["1,5", "2", "-0,25"], ["150", "200", "-25"], 2),
            (["1,234.5", "2"], ["12345", "20"], 1), (["1.234,5", "2"], ["12345", "20"], 1), (["1 234,5", "2"], ["12345", "20"], 1),
            (["1'234.5", "2"], ["12345", "20"], 1), (["1\u00a0234,5", "2"], ["12345", "20"], 1), (["1,234", "2"], ["1234", "2"], None),
            (["1,234,567", "2"], ["1234567", "2"], None), (["$1.50", "$2"], ["150", "200"], 2), (["12 %", "3.5 %"], ["120", "35"], 1),
            (["(1.50)", "2"], ["-150", "200"], 2), (["1,50-", "2"], ["-150", "200"], 2), (["1e3", "2.5E-1"], ["100000", "25"], 2),
            ([".5", "1"], ["5", "10"], 1), (["\u22125.0", "1"], ["-5", "1"], None), (["12", "", " 7 "], ["12", "", "7"], None),
            (["1.10", "2.20"], ["110", "220"], 2), (["1.0", "2.0"], ["1", "2"], None),
        ]:
            with self.subTest(fields=fields):
                text = io.StringIO()
                csv.writer(text).writerows([["n", "t"]] + [[field, "x"] for field in fields])
                rows, done = self.ready(text.getvalue())
                self.assertEqual([row[0] for row in rows[1:]], wanted)
                self.assertEqual(done.columns["n"].get("scale"), scale)

    def test_what_is_no_number_stays(self):
        for fields in (["007", "12"], ["1.2.3", "4"], ["1,2,3", "4"], ["12,34.5", "1"], ["1.5", "x"], ["0x1f", "2"], ["1 2", "3"], ["+49 170", "1"],
                       ["10:30", "11:45"], ["1e400", "1"], ["9223372036854775808", "1"], ["0.12345678901", "1"], ["--1", "2"], ["1/2", "3/4"]):
            with self.subTest(fields=fields):
                text = io.StringIO()
                csv.writer(text).writerows([["n", "t"]] + [[field, "x"] for field in fields])
                rows, done = self.ready(text.getvalue())
                self.assertEqual([row[0] for row in rows[1:]], fields)
                self.assertNotIn("n", done.columns)

    def test_a_scale_that_is_asked_for_rounds(self):
        rows, done = self.ready("n,t\n0.125,x\n0.135,x\n1.23456789012,y\n", scale={"n": 2})
        self.assertEqual([row[0] for row in rows[1:]], ["12", "14", "123"])
        self.assertIn("rounded", "\n".join(done.did))
        rows, _ = self.ready("n,t\n1,x\n", scale={"n": 2})
        self.assertEqual(rows[1][0], "100")

    def test_dates(self):
        for fields, wanted, wishes in [
            (["31.10.2026", "1.1.2026"], ["20261031", "20260101"], {}), (["2026-10-31", "2026-01-01"], ["20261031", "20260101"], {}),
            (["2026/10/31"], ["20261031"], {}), (["31/10/2026", "01/02/2026"], ["20261031", "20260201"], {}),
            (["10/31/2026", "01/02/2026"], ["20261031", "20260102"], {}), (["01/02/2026"], ["01/02/2026"], {}),
            (["01/02/2026"], ["20260201"], {"order": "dmy"}), (["01/02/2026"], ["20260102"], {"order": "mdy"}),
            (["31.10.26"], ["20261031"], {}), (["31.10.2026"], ["2026-10-31"], {"dates": "text"}), (["30.02.2026"], ["30.02.2026"], {}),
            (["31 Oct 2026", "1 Jan 2026"], ["20261031", "20260101"], {}), (["October 31, 2026"], ["20261031"], {}),
            (["31.10.2026 14:05"], ["2026-10-31 14:05"], {}), (["10/31/2026 2:05 PM"], ["2026-10-31 14:05"], {}),
            (["2026-10-31T14:05:09"], ["2026-10-31 14:05:09"], {}), (["2026-10-31", "2026-10-31 09:05"], ["2026-10-31 00:00:00", "2026-10-31 09:05:00"], {}),
            (["2026-10-31 25:00"], ["2026-10-31 25:00"], {}), (["2026-10-31", ""], ["20261031", ""], {}),
        ]:
            with self.subTest(fields=fields, wishes=wishes):
                text = io.StringIO()
                csv.writer(text).writerows([["d", "t"]] + [[field, "x"] for field in fields])
                rows, _ = self.ready(text.getvalue(), **wishes)
                self.assertEqual([row[0] for row in rows[1:]], wanted)

    def test_recipes_of_the_reference(self):
        self.assertEqual(self.ready("1,north,10\n", header=["id", "region", "amount"])[0], [["id", "region", "amount"], ["1", "north", "10"]])
        self.assertEqual(self.ready("Report\nof today\na,b\n1,2\n", skip=2)[0], [["a", "b"], ["1", "2"]])
        rows, done = self.ready("id,amount,amount,,`x`,\"l\nf\"\n1,2,3,4,5,6\n")
        self.assertEqual(rows[0], ["id", "amount", "amount 2", "column 4", "'x'", "l f"])
        self.assertEqual(len(done.did), 4)
        self.assertEqual(self.ready("a,b\n1,2\n", rename={"a": "first"})[0][0], ["first", "b"])
        self.assertEqual(self.ready("a,b\n1,2\n", kept=["b"])[0], [["b"], ["2"]])
        self.assertEqual(self.ready("a,b\n10,x\n9,y\n,z\n", sort="a")[0], [["a", "b"], ["", "z"], ["9", "y"], ["10", "x"]])
        self.assertEqual(self.ready("a,b\n10,x\n9,y\n", sort="b", text=["a"])[0], [["a", "b"], ["10", "x"], ["9", "y"]])
        self.assertEqual(self.ready("a,b\n x ,1.5\n", trim=True)[0], [["a", "b"], ["x", "15"]])
        self.assertEqual(self.ready("a,b\n x ,1.5\n", text=["b"])[0], [["a", "b"], [" x ", "1.5"]])
        self.assertEqual(self.ready("a,b\nx,oops\ny,2\n", empty=["oops"])[0], [["a", "b"], ["x", ""], ["y", "2"]])
        self.assertEqual(self.ready("a,b,\n1,2,\n3,4,\n,,\n")[0], [["a", "b"], ["1", "2"], ["3", "4"]])

    def test_faults_of_files(self):
        for data, wishes, what, line in [
            ('a,b\n1,"x\n2,y\n3,z\n', {}, "not closed", 2), ('a,b\n1,x\n2,"y\n3,z\n4,w"\n5,v\n', {}, "not closed", 3),
            ("a,b\n1\n", {}, "record 1 has a wrong number of fields", 2), ("a,b\n1,2,3\n", {}, "record 1 has", 2), ("", {}, "no header", None),
        ]:
            with self.subTest(data=data):
                with self.assertRaises(TableError) as caught:
                    self.ready(data, **wishes)
                self.assertIn(what, str(caught.exception))
                self.assertEqual(caught.exception.line, line)
        self.assertEqual(self.ready('a,b\n1,x"y\n2,"z\n3,w"\n', quotes=False)[0], [["a", "b"], ["1", 'x"y'], ["2", '"z'], ["3", 'w"']])
        self.assertEqual(self.ready('a,b\n1,"x\n2,y\n3"\n', spread=True)[0], [["a", "b"], ["1", "x\n2,y\n3"]])
        self.assertEqual(self.ready("a,b\n1\n", pad=True)[0], [["a", "b"], ["1", ""]])
        for wishes in ({"kept": ["c"]}, {"text": ["c"]}, {"scale": {"c": 1}}, {"sort": "c"}, {"leave_out": ["c=1"]}, {"leave_out": ["c"]},
                       {"rename": {"c": "d"}}, {"encoding": "utf-99"}, {"encoding": "ascii"}, {"separator": "ab"}, {"scale": {"b": 2}},
                       {"scale": {"a": 19}}):
            with self.subTest(wishes=wishes), self.assertRaises(SmokeError):
                self.ready("a,b\n1,\u00e9\n", **wishes)

    def test_no_new_file_where_it_fails(self):
        with running.Folder(in_csv="a,b\n1\n") as folder:
            with self.assertRaises(TableError):
                prepare.prepare(folder.path + "/in.csv", folder.path + "/out.csv")
            with self.assertRaises(SmokeError):
                prepare.prepare(folder.path + "/in.csv", folder.path + "/in.csv")
            with self.assertRaises(FileError):
                prepare.prepare(folder.path + "/none.csv", folder.path + "/out.csv")
            with self.assertRaises(FileError):
                prepare.prepare(folder.path, folder.path + "/out.csv")
            self.assertEqual(os.listdir(folder.path), ["in.csv"])
            folder.write("in.csv", "a,b\n" + "1,2\n" * (language.ROWS + 1))
            with self.assertRaises(LimitError):
                prepare.prepare(folder.path + "/in.csv", folder.path + "/out.csv")
            self.assertEqual(os.listdir(folder.path), ["in.csv"])


class Readings(unittest.TestCase):
    def test_random_numbers_are_read_as_they_were_written(self):
        chance = random.Random(3)
        for _ in range(running.COUNT // 2):
            sign, group = chance.choice(((".", ","), (",", "."), (".", "'"), (",", " "), (".", "")))
            value = decimal.Decimal(chance.randrange(-10**chance.randrange(1, 14), 10**chance.randrange(1, 14))).scaleb(-chance.randrange(4))
            text = f"{value:,f}" if group else f"{value:f}"
            text = text.replace(",", "\0").replace(".", sign).replace("\0", group)
            self.assertEqual(Number(sign).value(text), value, text)

    def test_hostile_fields(self):
        chance = random.Random(4)
        letters = "0123456789.,-+ '()eE\u20ac%$/:TAPMamp\u0661\u00a0\x00\"\n"
        for _ in range(running.COUNT):
            field = "".join(chance.choice(letters) for _ in range(chance.randrange(12)))
            for sign in ".,":
                value = Number(sign).value(field)
                self.assertTrue(value is None or isinstance(value, decimal.Decimal))
            for order in readings.ORDERS:
                moment(order, field)
            tables.int_of(field)
        for field in ("1" * 100_000, "1," * 50_000, " " * 100_000, "1 " * 50_000):
            self.assertIsNone(Number(".").value(field))
