"""What the pages show of this package: commands and calls, run as they stand there, with what they give."""
import contextlib
import doctest
import io
import os
import pathlib
import re
import shutil
import subprocess
import tempfile
import unittest

from smoke import program
from tests import archives, running

ENV = {**os.environ, "PYTHONPATH": str(archives.TOP / "python"), "PYTHONDONTWRITEBYTECODE": "1"}
PAGES = ["python/README.md", "docs/TUTORIAL.md"]
DATABASE = "postgresql://me@localhost/audit"  # the address on the pages; blocks with it are tried in test_sql
BLOCK = re.compile(r"(?m)^```(sh|text|pycon)\n(.*?)^```$", re.S)


def blocks(page):
    """The blocks of a page, each with its kind and with what stands before the next."""
    text = (archives.TOP / page).read_text()
    return [(found[1], found[2]) for found in BLOCK.finditer(text)]


class Pages(unittest.TestCase):
    @classmethod
    def setUpClass(cls):
        running.need("smoke_live")

    def setUp(self):
        held = tempfile.TemporaryDirectory(prefix="smoke-")
        self.addCleanup(held.cleanup)
        self.folder = held.name
        for name in ("examples", "python"):
            os.symlink(archives.TOP / name, os.path.join(self.folder, name))

    def test_calls(self):
        for page in PAGES:
            with self.subTest(page=page), contextlib.chdir(self.folder):
                text = "\n".join(body for kind, body in blocks(page) if kind == "pycon" and DATABASE not in body).replace("/tmp", self.folder)
                test = doctest.DocTestParser().get_doctest(text, {}, page, page, 0)
                self.assertGreater(len(test.examples), 5)
                said = io.StringIO()
                result = doctest.DocTestRunner(verbose=False).run(test, out=said.write)
                self.assertEqual(result.failed, 0, said.getvalue())

    def test_commands(self):
        """Each block of commands of the tutorial prints the text behind it. It begins where the one before it ended."""
        count, place = 0, os.path.join(self.folder, "place")
        found = blocks("docs/TUTORIAL.md")
        for (kind, body), (after, wanted) in zip(found, found[1:] + [("", "")]):
            if kind == "sh" and "python3 -m smoke " in body and DATABASE not in body:
                folder = pathlib.Path(place).read_text().rstrip("\n") if count else self.folder
                done = subprocess.run(["bash", "-ec", f"{body}pwd >'{place}'"], cwd=folder, capture_output=True, text=True, env=ENV)
                self.assertEqual((done.returncode, done.stderr), (0, ""), body)
                self.assertEqual((after, done.stdout), ("text", wanted), body)
                count += 1
        self.assertGreaterEqual(count, 4)


class Programs(unittest.TestCase):
    """The tutorial's blocks that start the two programs in a folder of an example."""

    def test_programs(self):
        for name in ("smoke", "smoke_live"):
            running.need(name)
        found = [body for kind, body in blocks("docs/TUTORIAL.md") if kind == "sh" and "../../bin/" in body]
        said = (archives.EXAMPLES / "bikes" / "talk.txt").read_text().splitlines(True)
        heard = "".join(line[2:] for line in said if line.startswith("> "))
        wanted = [((archives.EXAMPLES / "audit" / "report.txt").read_text(), 0), ("".join(line for line in said if not line.startswith("> ")), 1)]
        self.assertEqual(len(found), len(wanted))
        with tempfile.TemporaryDirectory(prefix="smoke-") as folder:
            shutil.copytree(archives.EXAMPLES, os.path.join(folder, "examples"))
            os.mkdir(os.path.join(folder, "bin"))
            for name in ("smoke", "smoke_live"):
                os.symlink(program.find(name), os.path.join(folder, "bin", name))
            for body, (text, status) in zip(found, wanted):
                with self.subTest(body=body):
                    done = subprocess.run(["bash", "-ec", body], cwd=folder, input=heard, capture_output=True, text=True)
                    self.assertEqual((done.stdout, done.stderr, done.returncode), (text, "", status))


# Of each command of a recipe: the file that it is given, and the one that it makes.
RECIPES = {
    "python3 -m smoke prepare export.csv sales.csv": ("\"id\";amount;amount;`x`;\"l\nf\"\n1;2;3;4;5\n".encode("utf-16"), "id,amount,amount 2,'x',l f\n1,2,3,4,5\n"),
    "python3 -m smoke prepare export.csv sales.csv --header id,region,amount": ("1,north,10\n", "id,region,amount\n1,north,10\n"),
    "python3 -m smoke prepare export.csv sales.csv --skip 2": ("Sales\n\nid,region\n1,north\n", "id,region\n1,north\n"),
    "python3 -m smoke prepare export.csv sales.csv --rename 'Sale No.=id' --columns id,amount": ("Sale No.,x,amount\n1,2,3\n", "id,amount\n1,3\n"),
    "python3 -m smoke prepare export.csv bills.csv": ("price;day;paid\n12,50;31.10.2026;01.11.2026\n6.077,17;01.11.2026;n/a\n",
                                                      "price,day,paid\n1250,20261031,20261101\n607717,20261101,\n"),
    "python3 -m smoke prepare export.csv bills.csv --dates text": ("day\n31.10.2026\n", "day\n2026-10-31\n"),
    "python3 -m smoke prepare export.csv bills.csv --scale price=2": ("price\n12.505\n3.1249\n", "price\n1250\n312\n"),
    "python3 -m smoke prepare export.csv bills.csv --text zip": ("zip,price\n1.50,1.50\n", "zip,price\n1.50,150\n"),
    "python3 -m smoke prepare export.csv sales.csv --sort region": ("id,region\n10,south\n9,north\n", "id,region\n9,north\n10,south\n"),
}
REFERENCE = (archives.TOP / "docs/REFERENCE.md").read_text()


def run(folder, command):
    """What a command prints in a folder, with its status."""
    env = {**ENV, "PATH": f"{pathlib.Path(program.find('smoke_live')).parent}:{os.environ['PATH']}"}
    done = subprocess.run(["bash", "-c", command], cwd=folder.path, capture_output=True, text=True, env=env)
    return done.returncode, done.stdout, done.stderr


def block(kind, front):
    """The block of docs/REFERENCE.md that begins in this way."""
    found = [text for text in re.findall(rf"(?ms)^```{kind}\n(.*?)^```$", REFERENCE) if text.startswith(front)]
    if len(found) != 1:
        raise AssertionError(f"{len(found)} blocks begin with {front!r}")
    return found[0]


class Recipes(unittest.TestCase):
    """What docs/REFERENCE.md has of commands and plans that no case has."""

    @classmethod
    def setUpClass(cls):
        running.need("smoke")
        running.need("smoke_live")

    def shop(self, book, **files):
        tables = block("book", 'table sales from "sales.csv" (id int, region text, amount int)\ntable regions')
        return running.Folder(sales_csv=block("csv", "id,region,amount\n1,north,10\n2,south"), regions_csv=block("csv", "name,zone"), book_smk=tables + book, **files)

    def test_recipes(self):
        """Each command that makes a file ready."""
        found = re.findall(r"python3 -m smoke prepare [^`\n]+", REFERENCE)
        self.assertEqual(set(found), set(RECIPES))
        for command, (given, wanted) in RECIPES.items():
            with self.subTest(command=command), running.Folder() as folder:
                folder.write("export.csv", given)
                status, _, fault = run(folder, command)
                self.assertEqual((status, fault), (0, ""))
                with open(os.path.join(folder.path, command.split(" ")[5]), encoding="utf-8") as file:
                    self.assertEqual(file.read(), wanted)

    def test_check(self):
        """What `check` says of a bad field, and of a byte of a book."""
        field = 'table sales from "sales.csv" (id int, amount int default 0)\nview total = scan sales | group {n = count, total = sum amount}\n'
        byte = block("book", 'table sales from "sales.csv" (id int, region text, amount int)\nview big = scan sales | where amount >= 10\nview tens')
        for book, table in ((field, "id,amount\n1,10\n2,n/a\n3,\n4,-5\n"), (byte, "id,region,amount\n")):
            self.assertIn(book, REFERENCE)
            with running.Folder(sales_csv=table, book_smk=book) as folder:
                status, said, _ = run(folder, "python3 -m smoke check book.smk")
            self.assertEqual(status, 1)
            self.assertIn(f"```text\n{said}```", REFERENCE)

    def test_plans(self):
        """Rows without a partner, and two halves of a table."""
        book = 'table older from "older.csv" (id int, region text, amount int)\n' + block("text", "view alone")
        with self.shop(book, older_csv="id,region,amount\n7,north,1\n8,west,2\n") as folder:
            folder.write("regions.csv", "name,zone\nnorth,A\nsouth,B\nwest,C\n")
            status, said, fault = run(folder, "smoke book.smk")
        self.assertEqual((status, fault), (0, ""))
        self.assertEqual(said, "view alone 2\nrow,k,n\n0,east,1\n1,west,1\n"
                               "view both 4\nrow,region,n,total\n0,north,3,41\n1,south,1,20\n2,east,1,5\n3,west,1,2\n")

    def test_shell(self):
        """The lines of a script that are questions, a run that is shown if it is whole, and what comes from standard input."""
        with self.shop("view by_region = scan sales | group region {n = count}\nlineage back by_region to sales\n") as folder:
            folder.write("script.txt", block("script", "# Line 1 is"))
            self.assertEqual(run(folder, block("sh", "grep -nvE"))[1],
                             "3:back big 2 to sales\n4:back big 3 to sales\n5:bakc big 0 to sales\n6:back big 0 to sales\n")
            status, said, fault = run(folder, block("sh", "smoke book.smk script.txt"))
            self.assertEqual((status, said[:17], fault), (0, "view by_region 3\n", "refused unknown view big\nrefused unknown view big\nline 5 not read at byte 0\nrefused unknown view big\n"))
            self.assertIn("\nback by_region to sales 2\n", run(folder, block("sh", "echo"))[1])
            folder.write("book.smk", block("text", "table sales") + "view v = scan sales\n")
            self.assertEqual(run(folder, "smoke book.smk <sales.csv")[1][:9], "view v 4\n")
            folder.write("book.smk", "view")
            self.assertEqual(run(folder, block("sh", "smoke book.smk script.txt"))[1:], ("", "smoke: book: unexpected token at byte 4\nthere is no report\n"))
