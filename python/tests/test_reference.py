"""Each text of docs/REFERENCE.md that a book, a table, a file or a line brings about, as a session tells it: in the words of the page, in an
exception of its kind. The cases that bring them about are those of the program."""
import re
import unittest

import smoke
from smoke import BookError, FileError, LimitError, Refused, SmokeError, TableError, language
from tests import archives, running

PAGE = archives.TOP / "docs" / "REFERENCE.md"
# No book brings these about, and no line: a usage, want of memory, a stream that fails, and a line of 64 MiB.
OTHERS = re.compile(r"usage: |smoke_live: cannot read|.* no memory$|refused line too long$")
KINDS = {"smoke: book: ": BookError, "smoke: table ": TableError, "smoke: limit: ": LimitError, "smoke: cannot read ": FileError}


def texts_of_the_page():
    """The texts in the first column of the tables that are headed Text."""
    found, inside = [], False
    for line in PAGE.read_text().split("\n"):
        inside = line.startswith("| Text |") or inside and line.startswith("|")
        if inside:
            found += re.findall(r"`([^`]*)`", line.replace(r"\|", "\0").split("|")[1])
    return [text.replace("\0", "|") for text in found]


def form_of(text):
    """The expression of a text: a capital letter by itself stands for a number, as N, P and R do, or for a name."""
    return re.compile(" ".join(r"\d+" if word in ("N", "P", "R") else re.sub(r"^[A-Z](?=:?$)", ".*", re.escape(word)) for word in text.split(" ")).encode() + b"\\Z")


def wanted_of(case):
    """The texts that a case wants."""
    said = case.err if case.err else case.files.get("talk", case.out)
    return [line for line in said.split(b"\n") if line.startswith((b"smoke: ", b"refused ", b"line ")) and not line.startswith(b"line,")]


class Reference(unittest.TestCase):
    def test_each_text(self):
        running.need("smoke_live")
        missing = {text: form_of(text) for text in texts_of_the_page() if not OTHERS.match(text)}
        self.assertGreater(len(missing), 45)
        cases = [case for path in sorted(archives.DATA.glob("*.txt")) for long in (False, True) for case in archives.cases_of(path, long)]
        for case in sorted(cases, key=lambda case: sum(map(len, case.files.values()))):
            new = [text for text, form in missing.items() if any(form.match(line) for line in wanted_of(case))]
            if new and case.whole and "in" not in case.files and "book.smk" in case.files:
                said = self.said(case)
                for text in new:
                    if any(missing[text].match(line) for line in said):
                        del missing[text]
        self.assertEqual(missing, {})

    def said(self, case):
        """What a session says of what is wrong in a case, each in an exception of its kind with something to read."""
        told = []
        with running.Folder() as folder:
            for name, text in case.files.items():
                if name and "/" not in name:
                    folder.write(name, text)
            try:
                with smoke.connect(folder.path + "/book.smk", timeout=600, read_only=any("--read-only" in words for words in case.words)) as session:
                    for line in self.lines(case):
                        try:
                            session.line(language.text_of(line))
                        except Refused as fault:
                            told.append(fault)
            except SmokeError as fault:
                told.append(fault)
        for fault in told:
            kind = next((kind for front, kind in KINDS.items() if fault.said.startswith(front)), Refused)
            self.assertIs(type(fault), kind, (case.name, fault.said))
            self.assertTrue(str(fault).isprintable() or "\n" in str(fault), (case.name, fault.said))
        return [language.bytes_of(fault.said) for fault in told]

    def lines(self, case):
        if "talk" in case.files:
            return re.findall(rb"(?m)^>(?: (.*))?$", case.files["talk"])
        scripts = [name for words in case.words for name in words[1:] if name in case.files]
        return [line for name in scripts for line in language.lines_of(language.without_marks(case.files[name]))]
