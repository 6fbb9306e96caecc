"""A page in a browser, and a session beside it that is asked what the page has to show."""
import decimal

from smoke import connect
from tests.page.browser import Tab

SHOWN = """Object.fromEntries([...document.querySelectorAll("[data-view]")].map(chart => [chart.dataset.view, {
    bars: [...chart.querySelectorAll(".bars li")].map(item => ({
        mark: Number(item.dataset.mark ?? NaN), label: item.querySelector(".label").textContent, title: item.querySelector(".bar").title,
        number: item.querySelector(".number").textContent, exact: item.querySelector(".number").title, aloud: item.querySelector(".bar").ariaLabel,
        pressed: item.querySelector(".bar").ariaPressed, checked: item.querySelector("input")?.checked,
        edges: ["track", "whole", "now"].map(part => item.querySelector("." + part).getBoundingClientRect()).map(it => [it.left, it.right]),
        boxes: [item, ...item.querySelectorAll("input, .label, .track, .number, .records")].map(it => it.getBoundingClientRect()).map(it => [it.left, it.right]),
        size: parseFloat(getComputedStyle(item.querySelector(".number")).fontSize)})),
    columns: [...chart.querySelectorAll(".column")].map(column => ({
        mark: Number(column.dataset.mark ?? NaN), aloud: column.ariaLabel, title: column.title, pressed: column.ariaPressed,
        edges: ["whole", "now"].map(part => column.querySelector("." + part).getBoundingClientRect()).map(it => [it.bottom, it.top])})),
    plot: (it => it && [it.getBoundingClientRect().bottom, it.getBoundingClientRect().top])(chart.querySelector(".plot")),
    zero: chart.querySelector(".zero")?.getBoundingClientRect().bottom,
    foot: chart.querySelector("footer").hidden ? "" : chart.querySelector("footer").innerText,
    fault: chart.querySelector(".fault").textContent}]))"""
RECORDS = """({title: document.querySelector("#records-title").textContent, range: document.querySelector("#range").textContent,
    rows: [...document.querySelectorAll("#records table tr")].map(row => [...row.cells].map(cell => cell.textContent))})"""

UNITS = " kMGTPEZYRQ"


def exact(value):
    return f"{value:,}".replace("-", "\u2212")


def short(value):
    """Three digits and a unit, where there are more than six digits."""
    size = abs(value)
    if size < 1_000_000:
        return exact(value)
    number = decimal.Decimal(size)
    rounded = number.quantize(decimal.Decimal(1).scaleb(number.adjusted() - 2), decimal.ROUND_HALF_UP, decimal.Context(prec=60))
    unit = min(rounded.adjusted() // 3, len(UNITS) - 1)
    shown = rounded.scaleb(-3 * unit, decimal.Context(prec=60))
    digits = format(shown, f".{max(0, 2 - shown.adjusted())}f")
    return f"{'-' if value < 0 else ''}{digits}\u00a0{UNITS[unit]}".replace("-", "\u2212")


def named(value):
    text = str(value)
    return "(empty)" if text == "" else text if text.strip() else "(blank)"


class Trial:
    """`keys` are the numbers of columns that name a bar, by view; `labels` writes an int of a view whose bars are bins."""

    def __init__(self, case, browser, server, book, keys, table, labels=None, **more):
        self.case, self.keys, self.table, self.labels = case, keys, table, labels or {}
        self.session = connect(book)
        case.addCleanup(self.session.close)
        self.whole = {view: self.session.first(view) for view in keys}
        self.rows = self.session.schema.tables[table].rows
        self.brushes, self.pin, self.measures = {}, None, {}
        server.ask("/start")
        self.tab = Tab(browser, server.url, **more)
        case.addCleanup(self.tab.close)

    # What is done

    def bar(self, view, mark):
        return f"[data-view={view}] [data-mark='{mark}'] .bar, [data-view={view}] .column[data-mark='{mark}']"

    def click(self, view, mark, shift=False):
        self.tab.click(self.bar(view, mark), shift)
        self.turn(view, mark, shift)
        self.compare()

    def turn(self, view, mark, several):
        """What a bar that is chosen does to the brushes."""
        before = self.brushes.get(view, set())
        self.brush(view, before ^ {mark} if several else set() if before == {mark} else {mark})

    def brush(self, view, marks):
        self.brushes = {other: of for other, of in self.brushes.items() if other != view}
        if marks:
            self.brushes[view] = set(marks)
            self.session.brush(view, sorted(marks), self.table)
        elif (view, self.table) in {(link.view, link.table) for link in self.session.schema.links}:
            self.session.clear(view, self.table)

    def clear(self):
        self.session.clear()
        self.brushes = {}

    # What is compared

    def label(self, view, row):
        form = self.labels.get(view)
        return " · ".join(form(value) if form else named(value) for value in row[:self.keys[view]]) or "all"

    def compare(self, charts=True, records=True):
        shown = self.tab.value(SHOWN)
        same = self.case.assertEqual
        same(set(shown), set(self.keys))
        if charts:
            for view, chart in shown.items():
                self.compare_chart(view, chart)
        same(self.tab.value("document.querySelector('#said').hidden"), True)
        count = self.session.selected(self.table, part=(0, 0)).count
        head = f"{exact(count)} of {exact(self.rows)} {self.table}" if count != self.rows else f"{exact(self.rows)} {self.table}"
        same(self.tab.value("document.querySelector('#selected').textContent"), head)
        same(self.tab.value("document.querySelectorAll('#chips li').length"), len(self.brushes))
        if records:
            self.compare_records()

    def now(self, view):
        """The rows of a view now by their keys, or None where nothing filters it."""
        links = self.session.schema.links
        if not any(link.view in self.brushes and view in link.to for link in links):
            return None
        return {row[:self.keys[view]]: row for row in self.session.show(view).rows}

    def compare_chart(self, view, chart):
        same, whole, keys = self.case.assertEqual, self.whole[view], self.keys[view]
        place = keys + self.measures.get(view, 0)
        now = self.now(view)
        same(chart["fault"], "")
        marks = [bar["mark"] for bar in chart["bars"] or chart["columns"]]
        same(len(set(marks)), len(marks))
        self.case.assertLessEqual(len(marks), 400)
        if len(marks) < whole.count:
            same(chart["foot"].replace("\n", " "), f"and {exact(whole.count - len(marks))} others")
        else:
            same((sorted(marks), chart["foot"]), (list(range(whole.count)), "" if whole.count else "There are no rows."))
        ends = [0, *(row[place] for row in ([whole.rows[mark] for mark in marks] if chart["bars"] else whole.rows)), *(now[key][place] for key in (whole.rows[mark][:keys] for mark in marks) if now and key in now)]
        low, size = min(ends), max(ends) - min(ends)
        measure = whole.columns[place]
        for bar in chart["bars"] or chart["columns"]:
            row = whole.rows[bar["mark"]]
            found = None if now is None else now.get(row[:keys])
            numbers = [row[place]] if now is None else [None if found is None else found[place], row[place]]
            written, whole_text = (" of ".join("\u2013" if number is None else form(number) for number in numbers) for form in (short, exact))
            label, pressed = self.label(view, row), str(bar["mark"] in self.brushes.get(view, ())).lower()
            same((bar["title"], bar["aloud"], bar["pressed"]), (label, f"{label}: {whole_text} {measure}", pressed))
            if "number" in bar:
                same((bar["label"], bar["number"], bar["exact"], str(bar["checked"]).lower()), (label, written, whole_text, pressed))
                self.readable(view, bar)
                (begin, end), *drawn = bar["edges"]
            else:
                (begin, end), drawn = chart["plot"], bar["edges"]
                end += 1 if begin > end else 0
            room = end - begin
            for edges, number in zip(drawn, (row[place], row[place] if now is None else found and found[place])):
                wanted = sorted(begin + room * (value - low) / (size or 1) for value in (0, number or 0))
                for came, edge in zip(sorted(edges), wanted):
                    self.case.assertAlmostEqual(came, edge, delta=1.6, msg=f"{view}, {label}: {number} is drawn from {edges}")

    def readable(self, view, bar):
        """Nothing of a bar covers anything else of it, and its numbers are large enough."""
        item, *parts = bar["boxes"]
        for one, other in zip([[item[0], item[0]], *parts], [*parts, [item[1], item[1]]]):
            self.case.assertLessEqual(one[1], other[0] + 0.6, f"{view}, {bar['label']}: {bar['boxes']}")
        self.case.assertGreaterEqual(bar["size"], 12)

    def compare_records(self, begin=0):
        if self.pin:
            view, mark = self.pin
            frame = self.session.back(view, mark, self.table, now=True, part=(begin, begin + 100))
            total = self.session.back(view, mark, self.table, part=(0, 0)).count
            whose = f" · {view.replace('_', ' ')}: {self.label(view, self.whole[view].rows[mark])}"
        else:
            frame, total, whose = self.session.selected(self.table, part=(begin, begin + 100)), self.rows, ""
        count = exact(frame.count) + (f" of {exact(total)}" if frame.count != total else "")
        shown = self.tab.value(RECORDS)
        self.case.assertEqual(shown["title"], f"{count} {self.table}{whose}")
        self.case.assertEqual(shown["range"], f"{exact(begin + 1)}\u2013{exact(begin + len(frame.rows))} of {exact(frame.count)}" if frame.rows else "No records")
        self.case.assertEqual(shown["rows"], [["#", *frame.columns], *([str(place), *map(named, row)] for place, row in zip(frame.places, frame.rows))])
