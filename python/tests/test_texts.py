"""The program's texts, as they are read and written again; and the lines that a conversation has of its own."""
import re
import unittest

import smoke
from smoke import Ended, Unwritable, language, lines, texts
from smoke.talk import Talk
from tests import archives, running

BIKES = str(archives.EXAMPLES / "bikes" / "book.smk")


class Texts(unittest.TestCase):
    @classmethod
    def setUpClass(cls):
        cls.live = running.need("smoke_live")

    def test_the_reports_of_the_cases(self):
        """Each case's report comes back from what was read of it, byte for byte."""
        def differs(case):
            if case.status not in (0, 1) or any("--demo" in words for words in case.words) or {"book.smk", "talk", "in"} & set(case.files) != {"book.smk"}:
                return None
            if not case.whole:
                return None
            scripts = [name for words in case.words for name in words[1:] if name in case.files]
            if case.name == "own_lines_are_no_lines_of_a_script":
                return None
            if any(b"append" in case.files[name] for name in scripts) or any(word.startswith("-") for words in case.words for word in words):
                return None
            if len(case.words) > 1 or case.words and (case.words[0][0] != "book.smk" or len(case.words[0]) > 2):
                return None
            with running.Folder() as folder:
                for name, text in case.files.items():
                    if "/" in name or not name:
                        return None
                    folder.write(name, text)
                try:
                    talk = Talk([self.live, "book.smk"], folder.path, 600)
                except Ended:
                    return None  # a table that the archive has in a short form
                said = texts.text_of(talk.begun)
                for script in scripts:
                    for line in language.without_marks(case.files[script]).removesuffix(b"\n").split(b"\n"):
                        said += texts.text_of(talk.ask(line.decode("utf-8", "surrogateescape")))
                talk.close()
            self.compared += 1
            return None if said == case.out else (case.name, said[:300], case.out[:300])
        self.compared = 0
        cases = [case for case in archives.all_cases()]
        found = [said for said in running.each(differs, cases) if said and "wrong" not in said[0]]
        self.assertEqual([said for said in found if said[0] not in WRONG_ON_PURPOSE][:3], [])
        self.assertGreater(self.compared, 300)

    def test_the_reports_of_the_examples(self):
        count = 0
        for script in sorted(archives.EXAMPLES.glob("*/script.txt")):
            folder = script.parent
            talk = Talk([self.live, "book.smk"], folder, 600)
            said = texts.text_of(talk.begun)
            for line in language.lines_of(script.read_bytes()):
                said += texts.text_of(talk.ask(line.decode()))
            talk.close()
            self.assertEqual(said, (folder / "report.txt").read_bytes(), folder)
            count += 1
        self.assertGreaterEqual(count, 7)


WRONG_ON_PURPOSE = {case.name for case in archives.cases_of(archives.DATA / "wrong_on_purpose.txt")}


class OwnLines(unittest.TestCase):
    """The lines that a conversation has of its own."""

    @classmethod
    def setUpClass(cls):
        running.need("smoke_live")

    def test_the_cases(self):
        """Each conversation of the cases of own lines, as a session has it, byte for byte."""
        count = 0
        for case in archives.cases_of(archives.DATA / "own_lines.txt"):
            if "talk" not in case.files or "in" in case.files or case.words or not case.whole:
                continue
            begun, *turns = re.split(rb"(?m)^>(?: |$)", case.files["talk"])
            with running.Folder() as folder:
                for name, text in case.files.items():
                    if name != "talk":
                        folder.write(name, text)
                with smoke.connect(folder.path + "/book.smk", timeout=600) as session:
                    self.assertEqual(b"".join(texts.text_of(session._talk.ask(f"show {view}")) for view in session.schema.views) + b"\n", begun, case.name)
                    for turn in turns:
                        line, _, said = turn.partition(b"\n")
                        # A session sends lines of its own too, so it counts others.
                        told = session.said(language.text_of(line)) + b"\n"
                        self.assertEqual(re.sub(rb"\Aline \d+", b"line N", told), re.sub(rb"\Aline \d+", b"line N", said), (case.name, line))
                        count += 1
        self.assertGreater(count, 150)

    def test_parts_now_selected_and_brief(self):
        with smoke.connect(BIKES, timeout=600) as session:
            whole, days = session.back("by_hour", 3, "rides"), session.first("by_day")
            part = session.back("by_hour", 3, "rides", part=(2, 5))
            self.assertEqual((part.rows, part.places, part.count), (whole.rows[2:5], whole.places[2:5], len(whole)))
            self.assertEqual(session.back("by_hour", 3, "rides", now=True), whole)
            brushed = session.brush("by_day", {"day": "Sat"}, "rides", brief=True)
            self.assertEqual((brushed.rids, brushed.linked["by_hour"].marks), ([], []))
            again = session.brush("by_day", {"day": "Sat"}, "rides")
            self.assertEqual(again.rids, session.back("by_day", {"day": "Sat"}, "rides").places)
            self.assertEqual({name: linked.frame for name, linked in brushed.linked.items()}, {name: linked.frame for name, linked in again.linked.items()})
            rows = [(rid, row) for rid, row in zip(whole.places, whole.rows) if row[1] == "Sat"]
            now = session.back("by_hour", 3, "rides", now=True, part=(1, 3))
            self.assertEqual((list(zip(now.places, now.rows)), now.count), (rows[1:3], len(rows)))
            self.assertEqual(session.ask("by_hour", 3, "rides", "group {n = count}", now=True).rows, [(len(rows),)])
            selected = session.selected("rides", part=(0, 4))
            self.assertEqual((selected.places, selected.count, selected.place), (again.rids[:4], len(again.rids), "rid"))
            self.assertEqual(session.selected("rides", "group day {n = count}").rows, [("Sat", len(again.rids))])
            self.assertIsNone(session.show("by_hour", part=(0, 2)).places)
            self.assertEqual((session.first("by_hour").places, session.show("by_hour").rows), (list(range(15)), again.linked["by_hour"].frame.rows))
            self.assertEqual(session.marks("by_hour", [{"hour": 17}, 0]), [10, 0])
            self.assertEqual(session.first("by_day"), days)
            self.assertEqual(session.selected("rides").places, again.rids)
            self.assertEqual(session.clear(brief=True).linked, {})
            self.assertEqual(session.selected("rides", part=(5, 5)).count, 2000)
            for wrong in (lambda: session.back("by_hour", 0, "rides", where=("day", "Sat"), now=True), lambda: session.back("by_hour", 0, "rides", group=True, part=(0, 1))):
                with self.assertRaises(Unwritable):
                    wrong()

    def test_lines(self):
        self.assertEqual(lines.part(lines.now(lines.back("v", [1, 2], "t")), (0, 100)), ".part 0 100 .now back v 1,2 to t")
        for begin in (-1, 2**32, True, 1.5):
            with self.assertRaises(Unwritable):
                lines.part("show v", (begin, 5))
        for part in (5, (1,), (1, 2, 3), "12", None):
            with self.assertRaises(Unwritable):
                lines.part("show v", part)
