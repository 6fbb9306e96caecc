"""The commands as they are typed: what they print, their statuses, and that no traceback reaches anybody."""
import contextlib
import io
import os
import pathlib
import subprocess
import sys
import unittest

from smoke import commands
from tests import archives, running

HERE = pathlib.Path(__file__).resolve().parents[1]


class Commands(unittest.TestCase):
    def smoke(self, *words, folder=None, **more):
        """The status, output and error text of a command."""
        done = subprocess.run([sys.executable, "-m", "smoke", *words], cwd=folder or HERE, capture_output=True, timeout=600,
                              env={**os.environ, "PYTHONPATH": str(HERE), **more})
        self.assertNotIn(b"Traceback", done.stderr, words)
        return done.returncode, done.stdout.decode("utf-8", "surrogateescape"), done.stderr.decode("utf-8", "surrogateescape")

    def inside(self, *words, folder):
        """The same of a command that runs in this process."""
        streams = [io.TextIOWrapper(io.BytesIO()), io.TextIOWrapper(io.BytesIO())]
        with contextlib.chdir(folder), contextlib.redirect_stdout(streams[0]), contextlib.redirect_stderr(streams[1]):
            try:
                status = commands.main(words)
            except SystemExit as ended:
                status = ended.code
        for stream in streams:
            stream.flush()
        return status, *(stream.buffer.getvalue().decode("utf-8", "surrogateescape") for stream in streams)

    def test_check(self):
        for book in sorted(archives.EXAMPLES.glob("*/book.smk")):
            self.assertEqual(self.smoke("check", str(book)), (0, f"{book}: no faults\n", ""))
        with running.Folder(t_csv="a\nx\n") as folder:
            folder.write("book.smk", 'table t from "t.csv" (a int)\nview v = scan t | where a == 1\nview w = scan u\n')
            status, out, err = self.smoke("check", "book.smk", folder=folder.path)
            self.assertEqual((status, err), (1, ""))
            self.assertEqual(out, '''book.smk:2:28: unexpected token
view v = scan t | where a == 1
                           ^
Equal is =, one sign.

book.smk:3:15: unknown table u
view w = scan u
              ^
There is t.

t.csv:2: table t: record 1 column a is no int: 'x'
Mend the field, or declare the column as text.
''')

    def test_book_and_ask(self):
        running.need("smoke_live")
        with running.Folder(sales_csv="region,amount\nnorth,1\nsouth,2\nnorth,3\n", semi_csv="region;amount\nnorth;1,5\n") as folder:
            status, out, err = self.smoke("book", "sales.csv", folder=folder.path)
            self.assertEqual((status, err), (0, ""))
            folder.write("book.smk", out)
            self.assertEqual(self.smoke("check", "book.smk", folder=folder.path)[0], 0)
            self.assertEqual(self.smoke("ask", "book.smk", "back by_region 0 to sales", "show by_region", folder=folder.path),
                             (0, "back by_region to sales 2\nrid,region,amount\n0,north,1\n2,north,3\n\nview by_region 2\nrow,region,n,amount\n0,north,2,4\n"
                                 "1,south,1,2\n", ""))
            self.assertEqual(self.smoke("ask", "book.smk", "back by_region 0 to sales", "--csv", folder=folder.path), (0, "region,amount\nnorth,1\nnorth,3\n", ""))
            self.assertEqual(self.smoke("ask", "book.smk", "back by_region 0 to sales", "--csv", "out.csv", "--places", folder=folder.path), (0, "", ""))
            self.assertEqual(pathlib.Path(folder.path, "out.csv").read_text(), "rid,region,amount\n0,north,1\n2,north,3\n")
            self.assertEqual(self.smoke("ask", "book.smk", "show nothing", folder=folder.path), (1, "refused unknown view nothing\n", ""))
            self.assertEqual(self.smoke("ask", "book.smk", "show nothing", "--csv", folder=folder.path)[:2], (1, ""))
            self.assertEqual(self.smoke("ask", "book.smk", "clear", "--csv", folder=folder.path)[0], 2)
            self.assertEqual(self.smoke("ask", "book.smk", "show by_region\nclear", folder=folder.path)[:2], (1, ""))
            status, out, err = self.smoke("book", "semi.csv", folder=folder.path)
            self.assertEqual((status, out), (1, ""))
            self.assertIn("--sep", err)
            status, out, err = self.smoke("book", "semi.csv", "--sep", ";", folder=folder.path)
            self.assertEqual(status, 0)
            self.assertIn('from "semi.ready.csv"', out)
            folder.write("book.smk", out)
            self.assertEqual(self.smoke("ask", "book.smk", "clear", folder=folder.path), (0, "cleared\n", ""))

    def test_prepare(self):
        with running.Folder(in_csv="a;b\nx;1,5\nSumme;1,5\n") as folder:
            status, out, err = self.smoke("prepare", "in.csv", "out.csv", "--leave-out", "totals", folder=folder.path)
            self.assertEqual((status, err), (0, ""))
            self.assertEqual(out, "- between the fields were semicolons, and are commas now\n- left out 1 record (line 3)\n- b: 1,5 is 15\n"
                                  "out.csv: 1 records, and out.csv.json\n")
            self.assertEqual(pathlib.Path(folder.path, "out.csv").read_text(), "a,b\nx,15\n")

    def test_what_goes_wrong(self):
        with running.Folder(binary_csv=bytes(range(256)) * 40, empty_csv="", book_smk=b"\xff\x00 \x1b[31m", wide_csv="a,b\n1\n") as folder:
            os.mkdir(folder.path + "/folder")
            os.symlink("loop", folder.path + "/loop")
            names = ["none", "folder", "binary.csv", "empty.csv", "book.smk", "wide.csv", "loop", "", "a\0b"[:1] + "\udcff", "/dev/null", "\u00e9" * 300]
            for name in names:
                for words in (["check", name], ["book", name], ["prepare", name, "out.csv"], ["ask", name, "clear"], ["prepare", "wide.csv", name],
                              ["book", name, "--sep", "|", "--columns", "a,b"]):
                    with self.subTest(words=words):
                        status, out, err = self.inside(*words, folder=folder.path)
                        self.assertIn(status, (0, 1))
                        if status:
                            self.assertTrue(out or err)
                        self.assertNotIn("\x1b", err if words[0] == "book" else out + err)
            for words in ([], ["nothing"], ["check"], ["book"], ["prepare", "a"], ["ask", "book.smk"], ["prepare", "a", "b", "--scale", "x"],
                          ["prepare", "a", "b", "--scale", "x=y"], ["prepare", "a", "b", "--rename", "x"], ["prepare", "a", "b", "--order", "x"],
                          ["prepare", "a", "b", "--skip", "x"]):
                status, out, err = self.inside(*words, folder=folder.path)
                self.assertEqual((status, out), (2, ""), words)
                self.assertTrue(err)
            status, _, err = self.smoke("ask", str(archives.EXAMPLES / "bikes" / "book.smk"), "clear", SMOKE_BIN=folder.path, PATH="/usr/bin:/bin")
            self.assertEqual(status, 1)
            self.assertIn("build", err)

    def test_an_output_that_closes_early(self):
        with running.Folder() as folder:
            folder.write("book.smk", "view v = scan t\n" * 60)
            command = f"{sys.executable} -m smoke check book.smk | true"
            done = subprocess.run(["bash", "-c", command], cwd=folder.path, capture_output=True, timeout=600, env={**os.environ, "PYTHONPATH": str(HERE)})
            self.assertEqual((done.returncode, done.stderr), (0, b""))
            with open("/dev/full", "w") as full:
                done = subprocess.run([sys.executable, "-m", "smoke", "check", "book.smk"], cwd=folder.path, stdout=full, stderr=subprocess.PIPE, timeout=600,
                                      env={**os.environ, "PYTHONPATH": str(HERE)})
            self.assertEqual(done.returncode, 1)
            self.assertNotIn(b"Traceback", done.stderr)
