"""Runs of the programs in tests."""
import concurrent.futures
import os
import stat
import subprocess
import sys
import tempfile
import unittest

from smoke import program

WORKERS = 2
COUNT = int(os.environ.get("SMOKE_TESTS", "20000"))  # of what a test makes at random


def need(name):
    """The path of a program; a test that needs it is skipped where it isn't built."""
    try:
        return program.find(name)
    except program.NoProgram as fault:
        raise unittest.SkipTest(str(fault)) from None


def each(work, items):
    """What a function gives for each item, in order, a few at a time."""
    with concurrent.futures.ThreadPoolExecutor(WORKERS) as pool:
        return list(pool.map(work, items))


class Folder:
    """A folder for a test, with files in it."""

    def __init__(self, **files):
        self.held = tempfile.TemporaryDirectory(prefix="smoke-")
        self.path = self.held.name
        for name, text in files.items():
            self.write(name.replace("_csv", ".csv").replace("_smk", ".smk"), text)

    def write(self, name, text):
        path = os.path.join(self.path, name)
        with open(path, "wb") as file:
            file.write(text.encode() if isinstance(text, str) else text)
        return path

    def __enter__(self):
        return self

    def __exit__(self, *_):
        self.held.cleanup()


def run(words, folder, said=b""):
    """The status, standard output and standard error of a run."""
    done = subprocess.run(words, cwd=folder, input=said, capture_output=True, timeout=600)
    return done.returncode, done.stdout, done.stderr


def stub(folder, body):
    """A program that stands in for smoke_live."""
    path = folder.write("stub", f"#!{sys.executable}\nimport sys\n{body}\n")
    os.chmod(path, os.stat(path).st_mode | stat.S_IXUSR)
    return path
