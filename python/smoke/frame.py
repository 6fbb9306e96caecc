"""Rows of an answer."""
import html
import itertools
import os

from smoke import records
from smoke.language import text_of

SHOWN = 20  # rows that a notebook shows


class Frame:
    """Rows as the program said them, in its order.

    `columns` are the names, and `kinds` an `int` or `text` for each; `rows` are tuples of int and str, exact, in which bytes that are no UTF-8
    are surrogates. `places` are the rids or marks of the rows, or None where they have none. `count` is the number of all rows, where these
    are a part. It iterates as dicts.
    """

    def __init__(self, columns, kinds, rows, places=None, count=None, place="row"):
        self.columns, self.kinds, self.rows, self.places = tuple(columns), tuple(kinds), rows, places
        self.count = len(rows) if count is None else count
        self.place = place

    def __len__(self):
        return len(self.rows)

    def __iter__(self):
        return (dict(zip(self.columns, row)) for row in self.rows)

    def __getitem__(self, which):
        """The row at a place as a dict, a slice as a Frame, or the values of a column by its name."""
        if isinstance(which, str):
            return [row[self.columns.index(which)] for row in self.rows] if which in self.columns else self._missing(which)
        if isinstance(which, slice):
            places = None if self.places is None else self.places[which]
            return Frame(self.columns, self.kinds, self.rows[which], places, self.count, self.place)
        return dict(zip(self.columns, self.rows[which]))

    def _missing(self, name):
        raise KeyError(f"there is no column {name!r}: there are {', '.join(self.columns)}")

    def __eq__(self, other):
        return isinstance(other, Frame) and (self.columns, self.kinds, self.rows, self.places, self.count) == (
            other.columns, other.kinds, other.rows, other.places, other.count)

    def __repr__(self):
        part = f" of {self.count:,}" if self.count != len(self) else ""
        return f"<Frame of {len(self):,}{part} rows: {', '.join(self.columns)}>"

    def to_csv(self, file, places=False):
        """Writes the rows with a header as a CSV file, by its path or to an open one; with `places`, rids or marks come first."""
        if isinstance(file, (str, os.PathLike)):
            with open(file, "w", encoding="utf-8", errors="surrogateescape", newline="") as opened:
                return self.to_csv(opened, places)
        rows = records.writer(file)
        places = places and self.places is not None
        records.write_header(file, [self.place, *self.columns] if places else self.columns)
        rows.writerows(([place, *row] for place, row in zip(self.places, self.rows)) if places else self.rows)
        return None

    def to_pandas(self):
        """A DataFrame with the rids or marks as its index. Ints are Int64, or Python's own where they are longer."""
        import pandas
        index = pandas.Index(self.places, name=self.place) if self.places is not None else None
        data = {}
        for place, kind in enumerate(self.kinds):
            values = [row[place] for row in self.rows]
            long = kind == "int" and any(not -2**63 <= value < 2**63 for value in values)
            data[place] = pandas.array(values, dtype="Int64") if kind == "int" and not long else pandas.Series(values, dtype=object, index=index)
        frame = pandas.DataFrame(data, index=index)
        frame.columns = list(self.columns)
        return frame

    def _repr_html_(self):
        def cell(tag, value):
            side = ' style="text-align:right"' if isinstance(value, int) else ""
            shown = text_of(str(value).encode("utf-8", "surrogateescape")).encode("utf-8", "replace").decode()
            return f"<{tag}{side}>{html.escape(shown)}</{tag}>"
        head = "".join(cell("th", name) for name in ((self.place, *self.columns) if self.places is not None else self.columns))
        lines = []
        for place, row in itertools.islice(enumerate(self.rows), SHOWN):
            front = cell("th", self.places[place]) if self.places is not None else ""
            lines.append(f"<tr>{front}{''.join(cell('td', value) for value in row)}</tr>")
        rest = f"<p>{len(lines):,} of {self.count:,} rows</p>" if self.count > len(lines) else ""
        return f"<table><thead><tr>{head}</tr></thead><tbody>{''.join(lines)}</tbody></table>{rest}"
