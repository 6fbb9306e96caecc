"""The page in a browser: each figure on it against what the engine says, by mouse, keyboard and touch."""
import json
import math
import os
import pathlib
import random
import signal
import tempfile
import time
import unittest

from smoke import program
from tests.page import books, browser
from tests.page.server import LIMIT, Server
from tests.page.trial import RECORDS, SHOWN, Trial, exact, named, short
from tests.running import Folder, need

BIKES = program.TOP / "examples/bikes"
KEYS = {"by_day": 1, "by_hour": 1, "by_length": 1, "by_rider": 1, "by_district": 1}
LABELS = {"by_length": lambda quarter: f"{15 * quarter}\u2013{15 * quarter + 14}"}


def setUpModule():
    global CHROMIUM
    need("smoke_live")
    CHROMIUM = browser.need()
    unittest.addModuleCleanup(CHROMIUM.close)


def bikes_book():
    """The bikes without the view that has a bar for each ride, and their files."""
    text = (BIKES / "book.smk").read_text(encoding="utf-8")
    lines = [line for line in text.splitlines(True) if not line.startswith(("view long", "link long", "lineage back long"))]
    return {"book_smk": "".join(lines), "rides_csv": (BIKES / "rides.csv").read_bytes(), "stations_csv": (BIKES / "stations.csv").read_bytes()}


class Bikes(unittest.TestCase):
    @classmethod
    def setUpClass(cls):
        cls.folder = Folder(**bikes_book())
        cls.addClassCleanup(cls.folder.held.cleanup)
        cls.book = f"{cls.folder.path}/book.smk"
        cls.server = Server(cls.book)
        cls.addClassCleanup(cls.server.close)

    def trial(self, **more):
        return Trial(self, CHROMIUM, self.server, self.book, KEYS, "rides", LABELS, **more)

    def test_mouse(self):
        trial = self.trial()
        trial.compare()
        for view, mark, shift in [
            ("by_day", 5, False), ("by_day", 6, True), ("by_length", 4, False), ("by_length", 5, True), ("by_hour", 0, False), ("by_hour", 0, False),
            ("by_day", 6, True), ("by_rider", 1, False), ("by_rider", 0, False), ("by_day", 5, False), ("by_district", 3, True), ("by_district", 3, True),
        ]:
            trial.click(view, mark, shift)
        trial.tab.click("[data-view=by_length] .clear")
        trial.brush("by_length", ())
        trial.compare()
        trial.tab.click("#clear")
        trial.clear()
        trial.compare()
        chance = random.Random(55)
        for _ in range(15):
            view = chance.choice(list(KEYS))
            trial.click(view, chance.randrange(trial.whole[view].count), chance.random() < 0.6)
        trial.tab.click("h1")
        trial.tab.key("Escape")
        trial.clear()
        trial.compare()

    def test_checkboxes_and_chips(self):
        trial = self.trial()
        for view, mark in [("by_day", 1), ("by_day", 3), ("by_rider", 0), ("by_day", 1)]:
            trial.tab.click(f"[data-view={view}] [data-mark='{mark}'] input")
            trial.turn(view, mark, True)
            trial.compare()
        self.assertEqual(trial.tab.value("[...document.querySelectorAll('#chips .names')].map(it => it.textContent)"), ["Thu", "member"])
        trial.tab.click("#chips li:first-child button")
        trial.brush("by_day", ())
        trial.compare()

    def test_a_drag_over_a_histogram(self):
        trial = self.trial()
        trial.tab.drag(trial.bar("by_hour", 1), trial.bar("by_hour", 4))
        hours = {row[0]: mark for mark, row in enumerate(trial.whole["by_hour"].rows)}
        order = sorted(hours)
        first, last = sorted(order.index(trial.whole["by_hour"].rows[mark][0]) for mark in (1, 4))
        trial.brush("by_hour", [hours[hour] for hour in order[first:last + 1]])
        trial.compare()
        self.assertEqual(trial.tab.text("#chips .names"), f"{order[first]} to {order[last]} ({last + 1 - first})")
        begin, end = hours[order[-1]], hours[order[-3]]
        trial.tab.drag(trial.bar("by_hour", begin), trial.bar("by_hour", end), shift=True)
        trial.brush("by_hour", [*trial.brushes["by_hour"], *(hours[hour] for hour in order[-3:])])
        trial.compare()
        trial.tab.point(trial.bar("by_hour", 2))
        row = trial.whole["by_hour"].rows[2]
        self.assertEqual(trial.tab.text("[data-view=by_hour] .readout"), f"{row[0]}: {exact(row[1])} rides")

    def test_heights_by_logarithms(self):
        trial = self.trial()
        trial.click("by_day", 5)
        trial.tab.click("[data-view=by_hour] .log")
        shown, whole, now = trial.tab.value(SHOWN)["by_hour"], trial.whole["by_hour"].rows, trial.now("by_hour")
        (bottom, top), most = shown["plot"], max(row[1] for row in whole)
        for column in shown["columns"]:
            row = whole[column["mark"]]
            for (low, high), number in zip(column["edges"], (row[1], now[row[:1]][1] if row[:1] in now else 0)):
                self.assertAlmostEqual((low - high) / (bottom - top - 1), math.log1p(number) / math.log1p(most), delta=0.02)
        trial.tab.click("[data-view=by_hour] .log")
        trial.compare()

    def test_keyboard(self):
        trial = self.trial()
        order = sorted(range(7), key=lambda mark: -trial.whole["by_day"].rows[mark][1])
        focus = "(it => [it.closest('[data-view]')?.dataset.view, Number(it.closest('[data-mark]')?.dataset.mark)])(document.activeElement)"
        trial.tab.value(f"document.querySelector(\"[data-view=by_day] [data-mark='{order[0]}'] .bar\").focus()")
        for key, shift, at, marks in [
            ("Enter", False, 0, [0]), ("ArrowDown", False, 1, [0]), ("Enter", True, 1, [0, 1]), (" ", False, 1, [0]), ("End", False, 6, [0]),
            ("ArrowUp", False, 5, [0]), (" ", False, 5, [0, 5]), ("Home", False, 0, [0, 5]), ("Enter", False, 0, [0]), ("Escape", False, 0, []),
        ]:
            trial.tab.key(key, shift)
            self.assertEqual(trial.tab.value(focus), ["by_day", order[at]], key)
            wanted = {order[mark] for mark in marks}
            if wanted != trial.brushes.get("by_day", set()):
                trial.brush("by_day", wanted)
            trial.compare(records=False)
        trial.tab.key("r")
        trial.pin = "by_day", order[0]
        trial.compare()
        trial.tab.value("document.querySelector('[data-view=by_hour] .column').focus()")
        hours = [row[0] for row in trial.whole["by_hour"].rows]
        sorted_hours = sorted(range(15), key=lambda mark: hours[mark])
        for key, at, marks in [("ArrowRight", 1, []), (" ", 1, [1]), ("ArrowRight", 2, [1]), (" ", 2, [1, 2]), ("End", 14, [1, 2]), ("ArrowLeft", 13, [1, 2])]:
            trial.tab.key(key)
            self.assertEqual(trial.tab.value(focus), ["by_hour", sorted_hours[at]], key)
            trial.brush("by_hour", [sorted_hours[mark] for mark in marks])
            trial.compare()

    def test_tab_reaches_each_chart(self):
        trial = self.trial()
        trial.tab.value("document.activeElement.blur()")
        reached = []
        for _ in range(40):
            trial.tab.key("Tab")
            reached.append(trial.tab.value("document.activeElement.closest('[data-view], #records')?.dataset.view ?? document.activeElement.id"))
        self.assertLessEqual(set(KEYS) | {"ask", "later"}, set(reached))

    def test_the_address_keeps_what_is_chosen(self):
        trial = self.trial()
        for view, mark, shift in (("by_day", 5, False), ("by_day", 6, True), ("by_hour", 3, False)):
            trial.click(view, mark, shift)
        trial.tab.click("[data-view=by_rider] [data-mark='1'] .records")
        trial.pin = "by_rider", 1
        trial.compare()
        address = trial.tab.value("location.hash")
        trial.tab.reload()
        trial.compare()
        self.assertEqual(trial.tab.value("location.hash"), address)
        other = self.trial()
        other.click("by_district", 2)
        trial.tab.click("[data-view=by_day] .clear")
        trial.brush("by_day", ())
        trial.compare()
        other.compare()
        other.tab.value("history.back()")
        time.sleep(0.2)
        other.tab.settle()
        other.clear()
        other.compare()
        other.tab.open(address)
        for view, marks in (("by_day", (5, 6)), ("by_hour", (3,))):
            other.brush(view, marks)
        other.pin = "by_rider", 1
        other.compare()

    def test_two_tabs_have_their_own(self):
        chance = random.Random(5)
        trials = [self.trial(), self.trial()]
        for _ in range(6):
            for trial in trials:
                view = chance.choice(list(KEYS))
                trial.click(view, chance.randrange(trial.whole[view].count), chance.random() < 0.5)
        for trial in trials:
            trial.tab.click("[data-view=by_rider] [data-mark='0'] .bar", shift=True)
            trial.turn("by_rider", 0, True)
        for trial in trials:
            trial.compare()

    def test_an_address_of_other_data_is_said(self):
        trial = self.trial()
        data = trial.tab.value("fetch('/start', {method: 'POST', body: '{}'}).then(it => it.json()).then(it => it.data)")
        for fragment, said in [("#data=000000000000&b.by_day=5", "The data has changed"), (f"#data={data}&b.by_day=7", "can't be read"),
                               (f"#data={data}&b.by_day=x", "can't be read"), (f"#data={data}&b.none=1", "can't be read"), (f"#data={data}&m.by_day=1", "can't be read"),
                               (f"#data={data}&o.by_day=rows", "can't be read"), ("#b.by_day=" + "9" * 9000, "can't be read")]:
            trial.tab.open(fragment)
            self.assertIn(said, trial.tab.text("#said"))
            self.assertEqual(trial.tab.text("#selected"), "2,000 rides")
        trial.tab.open(f"#data={data}&b.by_day=0-2,5")
        trial.brush("by_day", (0, 1, 2, 5))
        trial.compare()

    def test_measures_and_orders(self):
        trial = self.trial()
        choose = """(([select, value]) => (select.value = value, select.dispatchEvent(new Event("change"))))([document.querySelector(%s), %s])"""
        trial.click("by_day", 5)
        trial.tab.value(choose % (json.dumps("[data-view=by_district] select"), json.dumps("1")))
        trial.tab.settle()
        trial.measures["by_district"] = 1
        trial.compare()
        for order, key in (("name", lambda row: row[0].casefold()), ("file", lambda row: 0), ("size", lambda row: -row[1])):
            trial.tab.value(choose % (json.dumps("[data-view=by_day] select"), json.dumps(order)))
            trial.tab.settle()
            trial.compare()
            rows = trial.whole["by_day"].rows
            self.assertEqual([bar["mark"] for bar in trial.tab.value(SHOWN)["by_day"]["bars"]], sorted(range(7), key=lambda mark: key(rows[mark])))
        trial.tab.reload()
        trial.compare()

    def test_records_by_pages(self):
        trial = self.trial()
        trial.click("by_day", 2)
        for begin in (100, 200):
            trial.tab.click("#later")
            trial.compare_records(begin)
        trial.tab.click("#earlier")
        trial.compare_records(100)
        self.assertEqual(trial.tab.value("document.querySelectorAll('#records th button').length"), 0, "no order within a part")
        trial.tab.click("[data-view=by_rider] [data-mark='1'] .records")
        trial.pin = "by_rider", 1
        trial.compare_records()
        trial.click("by_district", 1)
        trial.tab.click("#unpin")
        trial.pin = None
        trial.compare()

    def test_an_order_where_all_are_there(self):
        trial = self.trial()
        trial.click("by_day", 2)
        trial.click("by_hour", 3)
        frame = trial.session.selected("rides")
        self.assertLess(frame.count, 100)
        for column, name in ((3, "minutes"), (4, "station")):
            place = frame.columns.index(name)
            for down in (False, True):
                trial.tab.click(f"#records th:nth-child({column + 2}) button")
                rows = trial.tab.value(RECORDS)["rows"][1:]
                wanted = sorted((row[place] for row in frame.rows), reverse=down)
                self.assertEqual([row[place + 1] for row in rows], [str(value) for value in wanted])
                self.assertEqual(sorted(map(tuple, rows)), sorted((str(rid), *map(str, row)) for rid, row in zip(frame.places, frame.rows)))

    def test_all_records_as_a_file(self):
        trial = self.trial()
        trial.click("by_day", 5)
        trial.tab.click("[data-view=by_district] [data-mark='0'] .records")
        with tempfile.TemporaryDirectory(prefix="smoke-") as folder:
            CHROMIUM.call("Browser.setDownloadBehavior", behavior="allow", downloadPath=folder)
            trial.tab.click("#csv button")
            path, end = pathlib.Path(folder, "records.csv"), time.monotonic() + LIMIT
            while not path.exists() and time.monotonic() < end:
                time.sleep(0.05)
            frame = trial.session.back("by_district", 0, "rides", now=True)
            with tempfile.NamedTemporaryFile("r", encoding="utf-8") as wanted:
                frame.to_csv(wanted.name)
                self.assertEqual(path.read_text(encoding="utf-8"), wanted.read())
        self.assertEqual(trial.tab.value("location.pathname"), "/")

    def test_bars_of_a_record(self):
        trial = self.trial()
        trial.click("by_hour", 9)
        rid = trial.session.selected("rides", part=(0, 1)).places[0]
        trial.tab.click("#records tbody .place button")
        shown = trial.tab.value("[...document.querySelectorAll('.bars-of p')].map(it => [it.querySelector('.view').textContent, "
                                "...[...it.querySelectorAll('button')].map(one => one.textContent)])")
        wanted = [[view.replace("_", " "), *(trial.label(view, trial.whole[view].rows[mark]) for mark in trial.session.fwd("rides", [rid], view))] for view in KEYS]
        self.assertEqual(shown, wanted)
        for place, view in enumerate(KEYS, 1):
            trial.tab.click(f".bars-of p:nth-child({place}) button")
            mark, = trial.session.fwd("rides", [rid], view)
            at = "(it => [it.closest('[data-view]').dataset.view, Number(it.closest('[data-mark]').dataset.mark)])(document.activeElement)"
            self.assertEqual(trial.tab.value(at), [view, mark])

    def test_ask(self):
        trial = self.trial()
        trial.click("by_day", 5)
        steps = "where minutes > 20 | group station {n = count, longest = max minutes}"
        for pin, ask in ((None, lambda: trial.session.selected("rides", steps)), (("by_rider", 1), lambda: trial.session.ask("by_rider", 1, "rides", steps, now=True))):
            if pin:
                trial.tab.click("[data-view=by_rider] [data-mark='1'] .records")
            trial.tab.write("#ask", steps)
            trial.tab.key("Enter")
            frame = ask()
            self.assertEqual(trial.tab.value(RECORDS)["rows"], [list(frame.columns), *([str(value) for value in row] for row in frame.rows)])
            self.assertIn(f"{exact(frame.count)} rows", trial.tab.value(RECORDS)["title"])
        trial.tab.write("#ask", "where minuts > 20")
        trial.tab.key("Enter")
        self.assertEqual(trial.tab.value("[...document.querySelectorAll('#fault .text, #fault mark')].map(it => it.textContent)"), ["unknown column", "minuts"])
        self.assertEqual(trial.tab.value("(it => it.value.slice(it.selectionStart, it.selectionEnd))(document.querySelector('#ask'))"), "minuts")
        self.assertIn("minutes", trial.tab.text("#fault .hint"))
        trial.tab.write("#ask", "where minutes >")
        trial.tab.key("Enter")
        self.assertEqual(trial.tab.text("#fault .text"), "not read here")
        trial.tab.write("#ask", "")
        trial.pin = "by_rider", 1
        self.assertTrue(trial.tab.value("document.querySelector('#fault').hidden"))
        trial.compare()

    def test_widths(self):
        """Nothing covers anything, and nothing is wider than the window, where the numbers are longest."""
        for width in (320, 390, 768, 1024, 1600):
            trial = self.trial(width=width, height=740)
            trial.click("by_length", 0)
            trial.compare()
            self.assertLessEqual(trial.tab.value("document.documentElement.scrollWidth"), width)

    def test_phone(self):
        trial = self.trial(width=390, height=844, phone=True)
        trial.compare()
        self.assertEqual(trial.tab.value("document.documentElement.scrollWidth"), 390)
        self.assertFalse(trial.tab.value("document.querySelector('#records-body').checkVisibility()"))
        for mark in (5, 6):
            trial.tab.tap(f"[data-view=by_day] [data-mark='{mark}'] input")
            trial.turn("by_day", mark, True)
            trial.compare()
        trial.tab.tap("[data-view=by_rider] [data-mark='1'] .bar")
        trial.turn("by_rider", 1, False)
        trial.compare()
        trial.tab.tap(trial.bar("by_hour", 10))
        trial.turn("by_hour", 10, False)
        trial.compare()
        trial.tab.tap("[data-view=by_district] [data-mark='2'] .records")
        trial.pin = "by_district", 2
        trial.compare()
        self.assertTrue(trial.tab.value("document.querySelector('#records tbody tr').checkVisibility()"))
        small = trial.tab.value("""[...document.querySelectorAll(".bars input, .bars .records, .bars .bar, #fold, #unpin")]
            .filter(it => it.checkVisibility()).map(it => it.getBoundingClientRect()).filter(it => it.height < 20 || it.width < 20).length""")
        self.assertEqual(small, 0)
        self.assertEqual(trial.tab.value("document.documentElement.scrollWidth"), 390)

    def test_contrast(self):
        """Whole on its card, now and chosen on whole: 3:1 and more; texts 4.5:1, in light and dark."""
        for dark in (False, True):
            trial = self.trial(dark=dark)
            trial.click("by_day", 5)
            colours = trial.tab.value("""Object.fromEntries([["card", ".chart", "backgroundColor"], ["whole", ".bars .whole", "backgroundColor"],
                ["now", "[data-view=by_rider] .now", "backgroundColor"], ["own", ".chosen .now", "backgroundColor"], ["ink", ".chart h2", "color"],
                ["soft", ".number span", "color"], ["chosen", ".chosen .label", "color"]].map(([name, where, what]) =>
                [name, getComputedStyle(document.querySelector(where))[what].match(/[\\d.]+/g).slice(0, 3).map(Number)]))""")
            for one, other, least in [("whole", "card", 3), ("now", "whole", 3), ("own", "whole", 3), ("now", "card", 3), ("ink", "card", 4.5), ("soft", "card", 4.5),
                                      ("chosen", "card", 4.5)]:
                self.assertGreaterEqual(contrast(colours[one], colours[other]), least, (dark, one, other))

    def test_names_for_readers(self):
        trial = self.trial()
        trial.click("by_day", 5)
        nameless = trial.tab.value("""[...document.querySelectorAll("button, input, select, section, [role=button], [role=group], table, aside")]
            .filter(it => it.checkVisibility() && it.tagName !== "TABLE").filter(it => !(it.ariaLabel || it.textContent.trim() || it.title || it.labels?.length
                || document.getElementById(it.getAttribute("aria-labelledby"))?.textContent)).map(it => it.outerHTML)""")
        self.assertEqual(nameless, [])
        self.assertEqual(trial.tab.value("[document.querySelector('#selected').role, document.querySelector('#said').role, document.documentElement.lang]"),
                         ["status", "alert", "en"])


def contrast(one, other):
    """The ratio of two colours by WCAG 2."""
    def light(colour):
        parts = [part / 255 for part in colour]
        red, green, blue = (part / 12.92 if part <= 0.04045 else ((part + 0.055) / 1.055) ** 2.4 for part in parts)
        return 0.2126 * red + 0.7152 * green + 0.0722 * blue
    high, low = sorted((light(one), light(other)), reverse=True)
    return (high + 0.05) / (low + 0.05)


class Many(unittest.TestCase):
    """2,600 bars, two keys, long names, and ints past 2^53."""

    @classmethod
    def setUpClass(cls):
        cls.folder = Folder(book_smk=books.MANY_BOOK, rows_csv=books.many_rows())
        cls.addClassCleanup(cls.folder.held.cleanup)
        cls.book = f"{cls.folder.path}/book.smk"
        cls.server = Server(cls.book)
        cls.addClassCleanup(cls.server.close)

    def trial(self, **more):
        width = 10**18
        bins = {"by_amount": lambda value: f"{value * width:,}\u2013{value * width + width - 1:,}"}
        return Trial(self, CHROMIUM, self.server, self.book, {"by_place": 1, "by_place_and_part": 2, "by_part": 1, "by_year": 1, "by_amount": 1}, "rows", bins, **more)

    def test_many_bars(self):
        trial = self.trial()
        trial.compare()
        shown = trial.tab.value(SHOWN)
        self.assertEqual([len(shown[view]["bars"]) for view in ("by_place", "by_place_and_part")], [20, 20])
        self.assertEqual(shown["by_place"]["bars"][0]["title"], "place 0042 of a name that is longer than its bar can show")
        self.assertTrue(trial.tab.value("(it => it.scrollWidth > it.clientWidth)(document.querySelector('[data-view=by_place] .label'))"), "its label is cut")
        trial.click("by_part", 2)
        trial.click("by_year", 7)
        trial.click("by_place_and_part", trial.tab.value(SHOWN)["by_place_and_part"]["bars"][3]["mark"])
        trial.tab.click("#clear")
        trial.clear()
        trial.compare()

    def test_the_largest_now_are_shown(self):
        trial = self.trial()
        trial.click("by_part", 2)
        now = trial.now("by_place")
        shown = [now[trial.whole["by_place"].rows[bar["mark"]][:1]][1] for bar in trial.tab.value(SHOWN)["by_place"]["bars"]]
        self.assertEqual(shown, sorted((row[1] for row in now.values()), reverse=True)[:20])

    def test_exact_past_53_bits(self):
        trial = self.trial()
        trial.tab.value("""(select => (select.value = "1", select.dispatchEvent(new Event("change"))))(document.querySelector("[data-view=by_part] select"))""")
        trial.tab.settle()
        trial.measures["by_part"] = 1
        trial.click("by_year", 3)
        totals = [row[2] for row in trial.whole["by_part"].rows]
        self.assertTrue(any(abs(total) > 2**63 for total in totals) and all(int(float(total)) != total for total in totals), totals)
        shown = trial.tab.value(SHOWN)["by_part"]["bars"]
        self.assertEqual([bar["exact"].split(" of ")[1] for bar in shown], [exact(totals[bar["mark"]]) for bar in shown])
        self.assertEqual([bar["number"].split(" of ")[1] for bar in shown], [short(totals[bar["mark"]]) for bar in shown])

    def test_short_and_exact_numbers(self):
        chance = random.Random(15)
        values = [0, 999_999, 1_000_000, 1_004_999, 1_005_000, 9_995_000, 999_499_999, 999_500_000, 15_000_000_000, 2**53 + 1, -(2**63), 2**127 - 1]
        values += [chance.randrange(10 ** chance.randrange(1, 36)) * chance.choice((1, -1)) for _ in range(2000)]
        tab = browser.Tab(CHROMIUM, self.server.url)
        self.addCleanup(tab.close)
        shown = tab.value("import('/numbers.js').then(({exact, short}) => %s.map(text => [exact(text), short(text)]))" % json.dumps(list(map(str, values))))
        self.assertEqual(shown, [[exact(value), short(value)] for value in values])
        self.assertEqual(shown[8][1], "15.0\u00a0G")
        self.assertEqual(tab.value("import('/numbers.js').then(({exact}) => ['-1234567.050', '0.5'].map(exact))"), ["\u22121,234,567.050", "0.5"])

    def test_find(self):
        trial = self.trial()
        trial.tab.write("[data-view=by_place] input[type=search]", "PLACE 01")
        bars = trial.tab.value(SHOWN)["by_place"]
        self.assertEqual([bar["title"][:8] for bar in bars["bars"]], ["place 01"] * 20)
        self.assertIn("and 80 others", bars["foot"])
        mark = bars["bars"][2]["mark"]
        trial.tab.click(f"[data-view=by_place] [data-mark='{mark}'] .bar")
        trial.brush("by_place", [mark])
        trial.compare(charts=False)
        trial.tab.write("[data-view=by_place] input[type=search]", "nothing like it")
        self.assertIn("Nothing is found", trial.tab.value(SHOWN)["by_place"]["foot"])
        trial.tab.write("[data-view=by_place] input[type=search]", "")
        trial.compare()
        self.assertIn(mark, [bar["mark"] for bar in trial.tab.value(SHOWN)["by_place"]["bars"]], "a chosen bar is shown")
        trial.tab.write("[data-view=by_place_and_part] input[type=search]", "0007 of a name that is longer than its bar can show · b")
        self.assertEqual([bar["title"][-4:] for bar in trial.tab.value(SHOWN)["by_place_and_part"]["bars"]], [" · b"])

    def test_phone(self):
        trial = self.trial(width=390, height=844, phone=True)
        trial.tab.value("""(select => (select.value = "1", select.dispatchEvent(new Event("change"))))(document.querySelector("[data-view=by_part] select"))""")
        trial.tab.settle()
        trial.measures["by_part"] = 1
        trial.tab.tap("[data-view=by_part] [data-mark='1'] input")
        trial.turn("by_part", 1, True)
        trial.compare()
        mark = trial.tab.value(SHOWN)["by_place"]["bars"][2]["mark"]
        trial.tab.tap(trial.bar("by_place", mark))
        trial.turn("by_place", mark, False)
        trial.compare()
        whole = "(it => [it.innerText, it.scrollWidth <= it.clientWidth])(document.querySelector('[data-view=by_place] .chosen .label'))"
        self.assertEqual(trial.tab.value(whole), [trial.whole["by_place"].rows[mark][0], True], "a chosen bar has its whole label")
        shown = trial.tab.value("document.querySelector('[data-view=by_part] .chosen .exact').checkVisibility()")
        self.assertTrue(shown, "and its exact number")
        self.assertEqual(trial.tab.value("document.documentElement.scrollWidth"), 390)

    def test_more(self):
        trial = self.trial()
        trial.tab.click("[data-view=by_place] .more")
        trial.compare()
        self.assertEqual(len(trial.tab.value(SHOWN)["by_place"]["bars"]), 100)

    def test_all_of_many_chosen(self):
        """More marks than a line of an address is short for; the question is as long as it has to be."""
        trial = self.trial()
        marks = list(range(0, 2600, 2))
        data = trial.tab.value("fetch('/start', {method: 'POST', body: '{}'}).then(it => it.json()).then(it => it.data)")
        trial.tab.open(f"#data={data}&b.by_place={','.join(map(str, marks))}")
        trial.brush("by_place", marks)
        trial.compare(charts=False)
        trial.tab.reload()
        trial.compare(charts=False)


class Groups(unittest.TestCase):
    def test_ten_thousand_groups(self):
        """A chart has no more elements than it shows, and a histogram goes by windows."""
        rows = [[number, f"name {number:05}", number * 3] for number in range(10_000)]
        book = ('table t from "t.csv" (k int, v text, w int)\nview by_v = scan t | group v {n = count, s = sum w}\nview by_k = scan t | group k {n = count}\n'
                "link by_v on t to by_k\nlink by_k on t to by_v\n")
        with Folder(book_smk=book, t_csv=books.table(["k", "v", "w"], rows)) as folder, Server("book.smk", folder=folder.path) as server:
            trial = Trial(self, CHROMIUM, server, f"{folder.path}/book.smk", {"by_v": 1, "by_k": 1}, "t")
            shown = trial.tab.value(SHOWN)
            self.assertEqual((len(shown["by_v"]["bars"]), len(shown["by_k"]["columns"])), (20, 400))
            self.assertIn("bars 1–400 of 10,000", shown["by_k"]["foot"])
            self.assertLess(trial.tab.value("document.querySelectorAll('*').length"), 6000)
            trial.tab.click("[data-view=by_k] footer button:last-child")
            shown = trial.tab.value(SHOWN)["by_k"]
            self.assertEqual([column["mark"] for column in shown["columns"]], list(range(400, 800)))
            trial.tab.drag(trial.bar("by_k", 410), trial.bar("by_k", 420))
            trial.brush("by_k", range(410, 421))
            trial.compare(charts=False)
            self.assertEqual({bar["title"] for bar in trial.tab.value(SHOWN)["by_v"]["bars"][:11]}, {f"name {number:05}" for number in range(410, 421)})


class Texts(unittest.TestCase):
    def test_hostile_texts(self):
        """They are shown as texts, cut where they are long, and nothing of them is run."""
        with Folder(book_smk=books.TEXTS_BOOK, notes_csv=books.hostile_notes()) as folder, Server("book.smk", folder=folder.path) as server:
            trial = Trial(self, CHROMIUM, server, f"{folder.path}/book.smk", {"by_note": 1, "by_kind": 1, "by_both": 2}, "notes")
            trial.tab.value("window.alert = () => { throw new Error('it was run'); }")
            shown = trial.tab.value(SHOWN)
            titles = {bar["title"] for bar in shown["by_note"]["bars"]}
            trial.tab.click("[data-view=by_note] .more")
            titles = {bar["title"].replace("\ufffd", "\udcff") for bar in trial.tab.value(SHOWN)["by_note"]["bars"]}
            self.assertEqual(titles, {named(text) for text in books.HOSTILE})
            self.assertEqual(trial.tab.value("document.querySelectorAll('#charts img, #charts script, #records img, #records script').length"), 0)
            marks = {bar["title"]: bar["mark"] for bar in trial.tab.value(SHOWN)["by_note"]["bars"]}
            for text in books.HOSTILE[:9]:
                mark = marks[named(text)]
                trial.tab.click(f"[data-view=by_note] [data-mark='{mark}'] .records")
                trial.pin = "by_note", mark
                trial.compare(charts=False)
            trial.pin = None
            trial.tab.click("#unpin")
            trial.tab.click("[data-view=by_kind] [data-mark='1'] .bar")
            trial.turn("by_kind", 1, False)
            trial.compare(charts=False)
            trial.tab.click("[data-rule=one_kind] .keys li:first-child button")
            rule = trial.session.fd("one_kind")
            self.assertEqual(trial.tab.text("[data-rule=one_kind] .count"), f"{len(rule)} keys break this rule.")
            mark = trial.tab.value("Number(document.querySelector('[data-rule=one_kind] .keys li').dataset.mark)")
            self.assertEqual(trial.tab.value(RECORDS)["rows"][1:], [[str(place), *map(named, row)] for place, row in
                                                                   zip(rule[mark].frame.places, rule[mark].frame.rows)])
            self.assertLessEqual(trial.tab.value("document.documentElement.scrollWidth"), 1280)

    def test_names_that_objects_have(self):
        names = ("constructor", "__proto__", "toString", "data", "pin")
        book = 'table rows from "t.csv" (k text, v int)\n' + "".join(
            f"view {name} = scan rows | group {'kv'[place % 2]} {{n = count}}\n" for place, name in enumerate(names)) + "".join(
            f"link {name} on rows to {', '.join(other for other in names if other != name)}\n" for name in names)
        with Folder(book_smk=book, t_csv="k,v\na,1\na,2\nb,3\n") as folder, Server("book.smk", folder=folder.path) as server:
            trial = Trial(self, CHROMIUM, server, f"{folder.path}/book.smk", dict.fromkeys(names, 1), "rows")
            trial.click("__proto__", 2)
            trial.click("constructor", 0)
            trial.tab.reload()
            trial.compare()
            trial.tab.click("[data-view=__proto__] [data-mark='2'] .records")
            trial.pin = "__proto__", 2
            trial.compare()

    def test_no_rows(self):
        with Folder(book_smk=books.EMPTY_BOOK, rows_csv="id,part\n") as folder, Server("book.smk", folder=folder.path) as server:
            trial = Trial(self, CHROMIUM, server, f"{folder.path}/book.smk", {"by_part": 1, "by_id": 1}, "rows")
            trial.compare()
            self.assertEqual(trial.tab.text("[data-rule=parts] .count"), "Holds for all records.")

    def test_rows_without_a_number(self):
        """A view with no measure is a list, and rows of a view that are equal aren't told apart."""
        book = ('table t from "t.csv" (k text, v int)\nview names = scan t | distinct k\nview rows = scan t | project k\nview whole = scan t | group {n = count}\n'
                "link names on t to rows, whole\nlink rows on t to names, whole\n")
        with Folder(book_smk=book, t_csv="k,v\na,1\na,2\nb,3\n") as folder, Server("book.smk", folder=folder.path) as server:
            server.ask("/start")
            tab = browser.Tab(CHROMIUM, server.url)
            self.addCleanup(tab.close)
            shown = tab.value(SHOWN)
            self.assertEqual([[bar["label"] for bar in shown[view]["bars"]] for view in ("names", "rows", "whole")], [["a", "b"], ["a", "a", "b"], ["all"]])
            tab.click("[data-view=names] [data-mark='1'] .bar")
            shown = tab.value(SHOWN)
            self.assertIn("1 row of 3 now", shown["rows"]["foot"])
            self.assertEqual(shown["whole"]["bars"][0]["number"], "1 of 3")
            tab.click("[data-view=rows] [data-mark='0'] .bar")
            self.assertEqual(tab.value(SHOWN)["whole"]["bars"][0]["number"], "\u2013 of 3")
            self.assertEqual(tab.text("#selected"), "0 of 3 t")
            self.assertEqual(tab.value(RECORDS)["range"], "No records")


RELAY = """#!/usr/bin/env python3
import os, subprocess, sys, threading, time
sent, said = {sent!r}, {said!r}
program = subprocess.Popen([{program!r}, *sys.argv[1:]], stdin=subprocess.PIPE, stdout=subprocess.PIPE)
def relay():
    for line in program.stdout:
        sys.stdout.buffer.write(said.get(line, line))
        sys.stdout.buffer.flush()
    os._exit(program.wait())
threading.Thread(target=relay).start()
for line in sys.stdin.buffer:
    line = sent.get(line, line)
    if line == b"slow":
        time.sleep(4)
        line = b".brief brush by_hour 7 on rides\\n"
    program.stdin.write(line)
    program.stdin.flush()
program.stdin.close()
"""


class Faults(unittest.TestCase):
    def setUp(self):
        self.folder = Folder(**bikes_book())
        self.addCleanup(self.folder.held.cleanup)
        self.book = f"{self.folder.path}/book.smk"

    def trial(self, sent=None, said=None):
        """A page over a program that sends other lines than it hears, and says other lines than it reads."""
        path = self.folder.write("smoke_live", RELAY.format(sent=sent or {}, said=said or {}, program=program.find("smoke_live")))
        os.chmod(path, 0o755)
        self.server = Server(self.book, programs=self.folder.path)
        self.addCleanup(self.server.close)
        return Trial(self, CHROMIUM, self.server, self.book, KEYS, "rides", LABELS)

    def test_a_wrong_number_is_found(self):
        trial = self.trial(said={b"9,18,15\n": b"9,18,16\n"})
        trial.click("by_day", 5)
        with self.assertRaisesRegex(AssertionError, "16 of 150"):
            trial.click("by_day", 6, shift=True)

    def test_a_refused_click_is_said_at_its_chart(self):
        trial = self.trial(sent={b".brief brush by_rider 1 on rides\n": b".brief brush by_rider 9 on rides\n"})
        trial.click("by_day", 5)
        trial.tab.click(trial.bar("by_rider", 1))
        self.assertEqual(trial.tab.value(SHOWN)["by_rider"]["fault"], "This can't be answered: refused no row 9 of 2. Rows are numbered from 0.")
        trial.tab.click(trial.bar("by_rider", 1))
        trial.compare()

    def test_a_killed_program(self):
        trial = self.trial()
        trial.click("by_day", 5)
        for engine in self.server.engine:
            os.kill(engine, signal.SIGKILL)
        trial.tab.click(trial.bar("by_hour", 3))
        trial.turn("by_hour", 3, False)
        self.assertIn("The program had ended. It was started again", trial.tab.text("#said"))
        for view, chart in trial.tab.value(SHOWN).items():
            trial.compare_chart(view, chart)
        trial.compare_records()
        trial.click("by_day", 2)

    def test_a_program_that_can_not_be_started_again(self):
        trial = self.trial()
        os.rename(f"{self.folder.path}/rides.csv", f"{self.folder.path}/away.csv")
        for engine in self.server.engine:
            os.kill(engine, signal.SIGKILL)
        trial.tab.click(trial.bar("by_hour", 3))
        self.assertIn("The program has ended", trial.tab.text("#said"))
        self.assertIn("rides.csv", trial.tab.text("#said"))
        os.rename(f"{self.folder.path}/away.csv", f"{self.folder.path}/rides.csv")
        trial.tab.click(trial.bar("by_hour", 4))
        trial.turn("by_hour", 4, False)
        for view, chart in trial.tab.value(SHOWN).items():
            trial.compare_chart(view, chart)

    def test_other_data_after_the_end(self):
        trial = self.trial()
        trial.click("by_day", 5)
        path = pathlib.Path(self.folder.path, "rides.csv")
        path.write_bytes(b"\n".join(path.read_bytes().split(b"\n")[:1500]) + b"\n")
        for engine in self.server.engine:
            os.kill(engine, signal.SIGKILL)
        trial.tab.click(trial.bar("by_hour", 3))
        end = time.monotonic() + LIMIT
        while "The data has changed" not in (trial.tab.text("#said") or "") and time.monotonic() < end:
            time.sleep(0.05)
        trial.tab.settle()
        self.assertEqual(trial.tab.text("#selected"), "1,499 rides")

    def test_a_program_that_takes_long_to_start(self):
        path = self.folder.write("smoke_live", f"#!/bin/sh\nsleep 3\nexec {program.find('smoke_live')} \"$@\"\n")
        os.chmod(path, 0o755)
        with Server(self.book, programs=self.folder.path) as server:
            tab = browser.Tab(CHROMIUM, server.url, waits=False)
            self.addCleanup(tab.close)
            tab.call("Page.navigate", url=server.url)
            end, seen = time.monotonic() + LIMIT, ""
            while "Loading: reading" not in seen and time.monotonic() < end:
                seen = tab.text("#charts") or ""
            self.assertRegex(seen, r"^Loading: reading book.smk \(\d+ s\)$")
            tab.settle()
            self.assertEqual(tab.text("#selected"), "2,000 rides")

    def test_without_its_server(self):
        trial = self.trial()
        self.server.close()
        trial.tab.click(trial.bar("by_day", 0))
        self.assertIn("the server isn't running", trial.tab.text("#said"))

    def test_a_slow_answer_is_waited_for_where_the_click_was(self):
        trial = self.trial(sent={b".brief brush by_hour 7 on rides\n": b"slow"})
        other = Trial(self, CHROMIUM, self.server, self.book, KEYS, "rides", LABELS)
        for one, selector in ((trial.tab, trial.bar("by_hour", 7)), (other.tab, other.bar("by_day", 1))):
            at = one.middle(selector)
            one.mouse("mousePressed", *at, held=True)
            one.mouse("mouseReleased", *at)
        end, seen = time.monotonic() + LIMIT, ""
        while "being answered" not in seen and time.monotonic() < end:
            seen = other.tab.text("[data-view=by_day] .wait") or ""
            time.sleep(0.05)
        self.assertRegex(seen, r"Waiting for the answer, \d+ s; \d+ other questions? (is|are) being answered")
        self.assertEqual(other.tab.value("document.querySelector('[data-view=by_day] .chosen .label').textContent"), "Tue")
        for one, view, mark in ((trial, "by_hour", 7), (other, "by_day", 1)):
            one.tab.settle()
            one.turn(view, mark, False)
            one.compare()


if __name__ == "__main__":
    unittest.main()
