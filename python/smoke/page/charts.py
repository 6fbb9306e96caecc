"""A chart over a view: which of its bars are shown, in which order, and what is written beside them. Its numbers are those of the view's
rows, as they were said."""
import bisect
import functools
import heapq
from dataclasses import dataclass

from smoke.page import shown

SHOWN = 20  # bars that a chart shows at first
WINDOW = 400  # bars that a histogram shows at a time
LIST = 12  # ints up to which a chart in order is a list
NAMED = 3  # chosen bars that are named
MOST_BARS = 100_000  # rows of a view that is a chart
ORDERS = ("size", "name", "file")


@dataclass(frozen=True)
class Wish:
    """What a page wants of a chart: the place of its measure among the measures, an order, how many bars and from which, and what is searched."""

    measure: int = 0
    order: str = "size"
    shown: int = SHOWN
    begin: int = 0
    find: str = ""


class Now:
    """Rows of a view as they are now, found by their keys."""

    def __init__(self, frame, keys):
        self.count = frame.count
        self.rows = {}
        for row in frame.rows:
            self.rows.setdefault(row[:keys], []).append(row)


class Chart:
    """A chart: `keys` columns name a bar, the others that are ints are measures.

    `is_matched` says whether keys name each row, so that the rows of now can be found again among those of the whole.
    """

    def __init__(self, view, frame, plan, tables):
        self.view = view
        self.rows = frame.rows
        self.columns = frame.columns
        self.kinds = frame.kinds
        written = shown.of_plan(plan, tables)
        self.shown = [written.get(name, shown.PLAIN) for name in frame.columns]
        told = shown.keys_of(plan)
        self.keys = unique_columns(frame) if told is None else told
        self.is_matched = self.keys is not None
        if self.keys is None:
            self.keys = len(self.columns)
        others = range(self.keys, len(self.columns))
        self.names = [*range(self.keys), *(place for place in others if self.kinds[place] == "text")]
        self.measures = [place for place in others if self.kinds[place] == "int"]
        self.is_ordered = self.keys == 1 and self.names == [0] and self.kinds[0] == "int"
        self.is_histogram = self.is_ordered and bool(self.measures) and (
            len(self.rows) > LIST or self.shown[0].width is not None and len(self.rows) > 3)
        self.marks = {row[:self.keys]: mark for mark, row in enumerate(self.rows)} if self.is_matched else {}
        self.labels = [self.label(row) for row in self.rows]
        self._sorted, self._domains = {}, {}

    def about(self):
        """What a page is told of it once."""
        measures = [{"name": self.columns[place], "unit": self.shown[place].unit} for place in self.measures]
        return {"view": self.view, "rows": len(self.rows), "names": [self.columns[place] for place in self.names], "measures": measures,
                "measure": self.first_measure, "ordered": self.is_ordered, "histogram": self.is_histogram, "matched": self.is_matched}

    @property
    def first_measure(self):
        """The measure at first: the first aggregate of a group, and the last int of a row of other texts."""
        return 0 if len(self.names) == self.keys else len(self.measures) - 1

    def label(self, row):
        return [self.shown[place].text(row[place]) for place in self.names]

    def int_of(self, row):
        return [str(row[0])] if self.is_histogram else []

    def number(self, row, measure):
        """A measure of a row as a decimal text; None where there is no such row or measure."""
        if row is None or measure is None:
            return None
        place = self.measures[measure]
        return shown.scaled(row[place], self.shown[place].scale if self.shown[place].width is None else 0)

    def now(self, frame):
        return Now(frame, self.keys)

    # Which bars, in which order

    def bars(self, now, wish, chosen):
        """The bars that a page shows. `now` is a Now, or None where nothing filters the chart; `chosen` are marks.

        A bar has its mark, None for a row that isn't in the whole; its label, a list; its numbers in the whole and now; whether it is there now;
        and in a histogram its int.
        """
        measure = wish.measure if wish.measure < len(self.measures) else None
        marks, extra = range(len(self.rows)), []
        current = {}
        if now is not None and self.is_matched:
            for key, rows in now.rows.items():
                mark = self.marks.get(key)
                if mark is not None:
                    current[mark], *rows = rows
                extra += rows
        if wish.find:
            sought = wish.find.casefold()
            marks = [mark for mark in marks if sought in " · ".join(self.labels[mark]).casefold()]
            extra = [row for row in extra if sought in " · ".join(self.label(row)).casefold()]
        count = len(marks) + len(extra)
        begin, end = 0, wish.shown
        if self.is_histogram and not wish.find:
            begin = max(0, min(wish.begin, count - 1) // WINDOW * WINDOW)
            end = begin + WINDOW
        kept = self.ordered(marks, current if now is not None else None, measure, wish, end)[begin:end]
        if not self.is_histogram:
            there, among = set(kept), marks if not wish.find else set(marks)
            kept = [*kept, *[mark for mark in sorted(chosen) if mark not in there and mark in among][:SHOWN]]
        bars = [[mark, self.labels[mark], self.number(self.rows[mark], measure), self.number(current.get(mark), measure),
                 mark in current or now is None or not self.is_matched, *self.int_of(self.rows[mark])] for mark in kept]
        room = max(0, end - len(bars))
        bars += [[None, self.label(row), None, self.number(row, measure), True, *self.int_of(row)] for row in extra[:room]]
        return {"view": self.view, "bars": bars, "count": count, "begin": begin, "others": count - len(bars), "domain": self.domain(measure),
                "filtered": now is not None, "now": now.count if now is not None else len(self.rows), "chosen": self.named(chosen)}

    def named(self, chosen):
        """What is said of chosen bars: how many there are, the labels of the first ones, and whether they are a run, of which the last is
        named instead."""
        if not self.is_ordered:
            return {"count": len(chosen), "labels": [self.labels[mark] for mark in chosen[:NAMED]], "run": False}
        marks = sorted(chosen, key=self._key)
        places = [bisect.bisect_left(self._keys, self._key(mark)) for mark in (marks[0], marks[-1])] if marks else [0, 0]
        is_run = len(marks) >= NAMED and places[1] - places[0] == len(marks) - 1
        return {"count": len(marks), "labels": [self.labels[mark] for mark in ((marks[0], marks[-1]) if is_run else marks[:NAMED])], "run": is_run}

    def _key(self, mark):
        return self.rows[mark][0]

    @functools.cached_property
    def _keys(self):
        return sorted(row[0] for row in self.rows)

    def ordered(self, marks, current, measure, wish, end):
        """The first marks in the order of a chart."""
        if self.is_ordered:
            return self._in(marks, "key", self._key)
        if wish.order == "file" or measure is None and wish.order == "size":
            return list(marks)
        if wish.order == "name":
            return self._in(marks, "name", self._name)
        place = self.measures[measure]
        if current is None or len(self.rows) <= end:
            return self._in(marks, measure, lambda mark: -self.rows[mark][place])
        least = float("-inf")
        return heapq.nsmallest(end, marks, key=lambda mark: (-(current[mark][place] if mark in current else least), -self.rows[mark][place]))

    def _in(self, marks, order, key):
        if order not in self._sorted:
            self._sorted[order] = sorted(range(len(self.rows)), key=key)
        whole = self._sorted[order]
        if len(marks) == len(whole):
            return whole
        among = set(marks)
        return [mark for mark in whole if mark in among]

    def _name(self, mark):
        return [(value, "") if isinstance(value, int) else (0, value.casefold()) for value in (self.rows[mark][place] for place in self.names)]

    def domain(self, measure):
        """The least and the greatest number of the whole, as texts."""
        if measure is None or not self.rows:
            return None
        if measure not in self._domains:
            place = self.measures[measure]
            rows = min(self.rows, key=lambda row: row[place]), max(self.rows, key=lambda row: row[place])
            self._domains[measure] = [self.number(row, measure) for row in rows]
        return self._domains[measure]


def unique_columns(frame):
    """How many columns, from the first, have different values in each row; None where all together don't."""
    for keys in range(len(frame.columns) + 1):
        if len({row[:keys] for row in frame.rows}) == len(frame.rows):
            return max(keys, 1)
    return None
