"""The package as pip installs it, without a network."""
import os
import subprocess
import sys
import tempfile
import unittest

from tests import archives, running


class Install(unittest.TestCase):
    def test_pip(self):
        with tempfile.TemporaryDirectory(prefix="smoke-") as folder:
            made = subprocess.run([sys.executable, "-m", "venv", folder], capture_output=True, text=True)
            if made.returncode:
                raise unittest.SkipTest(f"no environment can be made here: {made.stdout}{made.stderr}")
            words = [os.path.join(folder, "bin", "pip"), "install", "--no-index", "--disable-pip-version-check", archives.TOP / "python"]
            done = subprocess.run(words, capture_output=True, text=True)
            self.assertEqual(done.returncode, 0, done.stdout + done.stderr)
            python = os.path.join(folder, "bin", "python3")
            book = archives.EXAMPLES / "bikes" / "book.smk"
            code = "import smoke, sys; print(smoke.__file__); print(smoke.connect(sys.argv[1], program=sys.argv[2]).show('by_rider')['rides'])"
            said = subprocess.run([python, "-c", code, book, running.need("smoke_live")], cwd="/", capture_output=True, text=True)
            self.assertEqual((said.stdout.splitlines()[1:], said.stderr), (["[1387, 613]"], ""))
            self.assertTrue(said.stdout.startswith(folder), said.stdout)
            self.assertIn("usage", subprocess.run([os.path.join(folder, "bin", "smoke-page"), "--help"], cwd="/", capture_output=True, text=True).stdout)
