"""What is told to people: the place, the caret, and what to write instead."""
import random
import unittest

from smoke import check, language, tables
from smoke.faults import BookError, FileError, LimitError, TableError
from tests import archives, broken, running

SALES = 'table sales from "sales.csv" (id int, region text, amount int)\n'
REGIONS = 'table regions from "regions.csv" (name text, zone text)\n'
SHOP = SALES + REGIONS

# What newcomers write behind the two tables of a shop, what stands at the caret, and words of the hint.
NEWCOMERS = [
    ('view v = scan sales | where region == "north"', "=", "Equal is ="),
    ("view v = scan sales | where amount <> 10", ">", "Unequal is !="),
    ("view v = scan sales | where amount => 10", ">", "At least is >="),
    ("view v = scan sales | where region = 'north'", "'north'", 'double quotes: "north"'),
    ("view v = scan sales;", ";", "leave the ; out"),
    ("-- a comment\nview v = scan sales", "--", "begins with #"),
    ("// a comment\nview v = scan sales", "//", "begins with #"),
    ("view v = scan sales | group by region {n = count}", "by", "without by"),
    ("view v = scan sales | group region {n = count(*)}", "(*)", "takes no column: n = count"),
    ("view v = scan sales | group region {count(*)}", "count", "has a name: n = count"),
    ("view v = scan sales | group region {n = count id}", "id", "takes no column"),
    ("view v = scan sales | group region {total = sum(amount)}", "(amount)", "total = sum amount"),
    ("view v = scan sales | group region {sum amount}", "sum", "has a name: total = sum amount"),
    ("view v = scan sales | group region {a = avg amount}", "avg", "no average"),
    ("view v = scan sales | group region {avg(amount)}", "(amount)", "no average"),
    ("view v = scan sales | group region {n = count} | having n > 1", "having", "where after the group"),
    ("view v = scan sales | group region (n = count)", "(n", "in braces"),
    ("view v = scan sales | group region, count", "count", "reserved word"),
    ("view v = scan sales | order by amount", "order", "never sorted"),
    ("view v = scan sales | limit 10", "limit", "no limit"),
    ("view v = scan sales | select id", "select", "called project"),
    ("view v = select id from sales", "select", "begins with scan"),
    ("select id from sales", "select", "view NAME = scan"),
    ("create view v as scan sales", "create", "view NAME = scan"),
    ("view v as scan sales", "as", "view NAME = scan"),
    ("view v = sales", "sales", "begins with scan: scan sales"),
    ("view v = scan sales | join regions on region = name", "regions", "scan regions"),
    ("view v = scan sales | join scan regions | where zone = \"A\" on region = name", "|", "in parentheses"),
    ("view v = scan sales | left join scan regions on region = name", "left", "inner join"),
    ("view v = scan sales s | where s.id = 1", "s |", "next statement"),
    ("view v = scan sales | where sales.id = 1", ".id", "without its table"),
    ('view v = scan sales | where region in ("north", "south")', "in", "each comparison"),
    ('view v = scan sales | where region like "n%"', "like", "no pattern"),
    ("view v = scan sales | where region is null", "is", "no null"),
    ("view v = scan sales | where amount between 1 and 9", "between", "both comparisons"),
    ("view v = scan sales | where 10 < amount", "10", "on the left"),
    ("view v = scan sales | where amount + 1 > 10", "+", "no arithmetic"),
    ("view v = scan sales | project amount * 2 as twice", "*", "no arithmetic"),
    ("view v = scan sales | project *", "*", "all columns stay"),
    ("view v = scan sales | where amount > 1.5", ".5", "whole"),
    ("view v = scan sales | where amount > 1 && id > 1", "&&", "Write and"),
    ("view v = scan sales | where amount > 1 || id > 1", "| id", "Write or"),
    ("view v = scan sales | where ! (amount > 1)", "!", "Write not"),
    ("view v = scan sales | where amount > 1 AND id > 1", "AND", "small letters: and"),
    ("view v = SCAN sales", "SCAN", "small letters: scan"),
    ("VIEW v = scan sales", "VIEW", "small letters: view"),
    ("view v = scan sales | Where id = 1", "Where", "small letters: where"),
    ("view v = scan sales where id = 1", "where", "A bar stands before each step"),
    ("viev v = scan sales", "viev", "Did you mean view?"),
    ("view v = scan sales | projet id", "projet", "Did you mean project?"),
    ("view v = scan sales | project bin(amount, 10)", "", "bin(amount, 10) as tens"),
    ("view v = scan sales | project bin(amount, 0) as tens", "0)", "1 or more"),
    ("view v = scan sales | where bin(amount, 10) = 1", "bin", "stands in project and distinct"),
    ('view v = scan sales | where "region" = "north"', '"region"', "on the left"),
    ("view v = scan sales | project id, count", "count", "`count`"),
    ("view count = scan sales", "count", "can't be this name"),
    ("view `by region` = scan sales", "`by", "can't be in backquotes"),
    ("view v = scan sales | project id, region,", "", "comma too many"),
    ('view v = scan sales | where region = "north', '"north', "isn't closed"),
    ('view v = scan sales | where region = "say \\"so\\""', 'so', "written twice"),
    ("view v = scan sales | where region = \u201cnorth\u201d", "\u201c", "plain double quotes"),
    ("view v = scan sales | project gr\u00f6\u00dfe", "\u00f6\u00dfe", "`gr\u00f6\u00dfe`"),
    ("view v = scan", "", "too early"),
    ('table t from "t.csv" (id integer)', "integer", "kind int"),
    ('table t from "t.csv" (id int, name varchar(20))', "varchar", "kind text"),
    ('table t from "t.csv" (price float)', "float", "whole"),
    ('table t from "t.csv" (day date)', "date", "20261031"),
    ('table t from "t.csv" (int id)', "int", "behind the column's name"),
    ('table t from "t.csv" (id)', ")", "int or text"),
    ('table t from "t.csv" (id int not null)', "not", "no null"),
    ('table t from "t.csv" (id int default null)', "null", "no null"),
    ('table t from "t.csv" (id int = 0)', "=", "default 0"),
    ('table t (id int) from "t.csv"', "(id", "before the columns"),
    ("table t from t.csv (id int)", "t.csv", '"t.csv"'),
    ('table t "t.csv" (id int)', '"t.csv"', "from is missing"),
    ('table t from "t.csv" (id int amount int)', "amount", "comma is missing"),
    ("show by_region", "show", "a script"),
    ("view v = scan sales\nback v 0 to sales", "back", "a script"),
    ("view v = scan sales\nlineage v to sales", "v to", "lineage back VIEW"),
    ("view v = scan sales\nlink v to v", "to", "link VIEW on TABLE"),
    ("view v = scan sales\nview w = scan v", "v", "that view's plan in parentheses"),
    ("view v = scan sales\nlineage back sales to v", "sales", "is a table"),
    ("view v = scan sale", "sale", "Did you mean sales?"),
    ("view v = scan Sales", "Sales", "Case matters"),
    ("view v = scan later\n" 'table later from "l.csv" (a int)', "later", "further down"),
    ("view v = scan sales | where ammount > 1", "ammount", "Did you mean amount?"),
    ("view v = scan sales | where region = north", "north", '"north"'),
    ("view v = scan sales | project id | where region = \"x\"", "region", "A step before this one"),
    ('view v = scan sales | where amount = "10"', '"10"', "without quotes"),
    ("view v = scan sales | where region = 10", "10", 'write "10"'),
    ("view v = scan sales | group {s = sum region}", "region", "needs an int"),
    ("view v = scan sales | join scan regions on amount = name", "name", "same kind"),
    ("view v = scan sales | join scan sales on id = id", "join", "rename it on one side"),
    ("view v = scan sales | union scan regions", "union", "3 (int, text, int)"),
    ("view v = scan sales | group", "group", "a key or an aggregate"),
    ("view v = scan sales\nlink v on sales to v", "v", "never filters its own"),
    ("view v = scan sales\nlineage back v to sales\nlineage back v to sales", "lineage", "already declared"),
    ("view v = scan sales\nfd v on sales id to region", "v on", "already one of the name v"),
    ("fd rule on sales id -> region", "->", "fd NAME on TABLE"),
    ("view v = scan sales | where id = 9223372036854775808", "922", "64 bits"),
    ("view " + "v" * 65 + " = scan sales", "vvv", "64 bytes"),
]


class Hints(unittest.TestCase):
    def test_what_newcomers_write(self):
        self.assertGreaterEqual(len(NEWCOMERS), 100)
        for text, here, hint in NEWCOMERS:
            book = (SHOP + text).encode()
            with self.subTest(text=text):
                found, _ = check.faults_of_text("book.smk", book)
                fault = found[0]
                self.assertTrue(book[fault.at:].startswith(here.encode()), (fault.at, book[fault.at:]))
                self.assertIn(hint, fault.hint)
                self.assertIn(hint.split("\n")[0], str(fault))

    def test_the_line_and_its_caret(self):
        book = SHOP.encode() + b'# \xc3\xa9\n\tview v = scan sales | where r\xc3\xb6 == 1\n'
        fault = check.faults_of_text("shop.smk", book)[0][0]
        place, line, caret, *_ = str(fault).split("\n")
        column, byte = line.index("\u00f6"), book.index("\u00f6".encode())
        self.assertEqual(place, f"shop.smk:4:{column + 1}: bad token")
        self.assertEqual(caret.index("^"), column)
        self.assertEqual(fault.said, f"smoke: book: bad token at byte {byte}")

    def test_a_long_line_is_cut_around_the_caret(self):
        book = b'table t from "t.csv" (a int)\nview v = scan t | where ' + b"a = 1 or " * 60 + b"b = 1"
        fault = check.faults_of_text("b", book)[0][0]
        _, line, caret, *_ = str(fault).split("\n")
        self.assertLess(len(line), 120)
        self.assertEqual(line[caret.index("^")], "b")

    def test_marks_and_hostile_bytes_are_shown_harmless(self):
        fault = check.faults_of_text("b", b"\xef\xbb\xbf\xef\xbb\xbfview \x1b[31m\xff")[0][0]
        self.assertEqual((fault.line, fault.column, fault.at), (1, 6, 5))
        self.assertNotIn("\x1b", str(fault))
        str(fault).encode()

    def test_every_fault_is_told_at_once(self):
        book = SHOP + ("view a = scan sales | where region == 1\nview b = scan a | where x = 1\nview c = scan sales | project idd, amount\n"
                       "lineage back a to sales\nlineage back c to region\nlink b on sales to c, d\n")
        found, _ = check.faults_of_text("b", book.encode())
        self.assertEqual([(fault.line, fault.what) for fault in found],
                         [(3, "unexpected token"), (4, "unknown table"), (5, "unknown column"), (7, "unknown table"), (8, "unknown view")])

    def test_a_book_of_a_newcomer(self):
        book = """-- sales of a shop
CREATE TABLE sales (id integer);
table sales from "sales.csv" (id int, region text, amount int);
view by_region = scan sales | group by region {count(*), avg(amount)}
view north = scan sales | where region == 'north'
view big = scan sales | where ammount > 10 and region = north | project id, amount * 2
view wrong = scan sales | where region > 5 and amout = 3 | project idd, region
view two = scan by_region | where n > 1
lineage back by_regoin to sales; link big on sales to bigg
"""
        found, _ = check.faults_of_text("b", book.encode())
        self.assertEqual([(fault.line, fault.column, fault.what) for fault in found], [
            (1, 1, "bad token"), (2, 1, "unexpected token"), (3, 63, "bad token"), (4, 37, "unexpected token"), (5, 41, "unexpected token"),
            (6, 84, "bad token"), (9, 32, "bad token"), (6, 31, "unknown column"), (6, 57, "unknown column"), (7, 42, "kind mismatch"),
            (7, 48, "unknown column"), (7, 68, "unknown column"), (8, 17, "unknown table"), (9, 14, "unknown view"), (9, 55, "unknown view")])
        self.assertTrue(all(fault.hint for fault in found))

    def test_the_first_is_the_programs_and_each_has_a_hint(self):
        chance = random.Random(5)
        texts = [text for text in archives.texts() if len(text) < 4000]
        count = 0
        for _ in range(running.COUNT // 10):
            text = broken.broken(chance, chance.choice(texts))
            found, _ = check.faults_of_text("b", text)
            try:
                language.read_book(text)
                self.assertEqual(found, [], text)
            except language.Fault as fault:
                self.assertEqual(found[0].said, f"smoke: book: {fault}", text)
            for fault in found:
                count += 1
                self.assertTrue(fault.hint, (text, fault.what))
                str(fault).encode()
        self.assertGreater(count, running.COUNT // 20)


class TablesFaults(unittest.TestCase):
    """The faults of tables' files, against the program."""

    BOOK = 'table t from "t.csv" (a int, `b c` text, d int default 7)\n'

    def said(self, data):
        with running.Folder(t_csv=data, book_smk=self.BOOK) as folder:
            return check.faults_of(folder.path + "/book.smk")

    def test_the_line_and_the_field(self):
        fault, other = self.said("d,b c,a\n1,x,1\n\n2,\"y\nz\",2\n,w,n/a\n,w,\n")
        self.assertIsInstance(fault, TableError)
        self.assertEqual((fault.record, fault.line, fault.column, fault.field), (3, 6, "a", "n/a"))
        self.assertEqual(fault.said, "smoke: table t: record 3 column a is no int")
        self.assertTrue(str(fault).startswith("t.csv:6: table t: record 3 column a is no int: 'n/a'\n"))
        self.assertIn("default", other.hint)

    def test_hints(self):
        for data, said, hint in [
            ("", "no header", "empty"), ("\n\r\n", "no header", "empty"), ("A,b c,d\n", "missing column a", "case"),
            ("a;b c;d\n1;x;2\n", "missing column a", "prepare"), ("a,b c,d,d\n", "repeated column d", "rename"),
            ("a,b c,d\n1,x\n", "record 1 has a wrong number of fields", "missing"), ("a,b c,d\n1,x,2,3\n", "record 1 has", "comma"),
            ("a,b c,d\n1,\"x,2\n3,y,4\n", "record 1 has", "closed"), ("a,b c,d\n1.50,x,2\n", "record 1 column a", "prepare"),
            ("a,b c,d\n9223372036854775808,x,2\n", "record 1 column a", "64 bits"), ("aa,b c,d\n", "missing column a", "The header has"),
        ]:
            with self.subTest(data=data):
                fault = self.said(data)[0]
                self.assertIn(said, fault.said)
                self.assertIn(hint, fault.hint)

    def test_files_and_limits(self):
        with running.Folder(book_smk=self.BOOK) as folder:
            fault, = check.faults_of(folder.path + "/book.smk")
            self.assertIsInstance(fault, FileError)
            self.assertEqual(fault.said, "smoke: cannot read t.csv")
            with open(folder.write("t.csv", b"a,b c,d\n"), "r+b") as file:
                file.truncate(language.FILE_BYTES + 1)
            fault, = check.faults_of(folder.path + "/book.smk")
            self.assertIsInstance(fault, LimitError)
            self.assertEqual((fault.size, fault.limit), (language.FILE_BYTES + 1, language.FILE_BYTES))
            folder.write("t.csv", b"a,b c,d\n" + b"1,,\n" * (language.ROWS + 5))
            fault, = check.faults_of(folder.path + "/book.smk")
            self.assertEqual((fault.said, fault.size), ("smoke: limit: rows of table t", language.ROWS + 5))
            self.assertIsInstance(check.faults_of(folder.path + "/none.smk")[0], FileError)
            self.assertIsInstance(check.faults_of(folder.path)[0], FileError)

    def test_broken_files_against_the_program(self):
        smoke = running.need("smoke")
        chance = random.Random(9)
        fields = ["1", "-2", " +07\t", "", " ", "x", '"a, b"', '"say ""so"""', '"a\nb"', "9223372036854775807", "9223372036854775808", "1.5", '"1"',
                  '"x"y', '"', "a\"b", "\ufeff", "\u00e9", "--1", "+", "0x1", "-0", "1_0", "\u0661", '""', '" 5 "']

        def differs(_):
            names = chance.choice((["a", "b c", "d"], ["d", "x", "b c", "a"], ["a", '"b c"', "d", "x", "x"], ["a", "d"], ["a", "b c", "d", "a"]))
            rows = [names] + [[chance.choice(fields[:4] if chance.randrange(12) else fields) for _ in names[chance.randrange(40) == 0:]]
                              for _ in range(chance.randrange(6))]
            ends = chance.choice((["\n"], ["\r\n"], ["\r"], ["\n", "\r", "\r\n", "\n\n"]))
            data = "".join(",".join(row) + chance.choice(ends) for row in rows)
            data = chance.choice(("", "", "\ufeff", "\n", "\ufeff\ufeff")) + (data.rstrip("\r\n") if chance.randrange(3) == 0 else data)
            data = data.encode() if chance.randrange(9) else data.encode().replace(b"x", b"\xff")
            with running.Folder(t_csv=data, book_smk=self.BOOK) as folder:
                status, _, err = running.run([smoke, "book.smk"], folder.path)
                found = check.faults_of(folder.path + "/book.smk")
            mine = found[0].said.encode("utf-8", "surrogateescape") + b"\n" if found else b""
            return None if mine == err and (status == 4) == bool(found) else (data, mine, err)
        count = running.COUNT // 10
        found = [said for said in running.each(differs, range(count)) if said]
        self.assertEqual(found[:3], [], f"{len(found)} of {count}")
