"""What a CSV file holds: the kinds and values of its columns, found by looking at every record once."""
import collections
import math
import os
import random
import re
import unicodedata
from dataclasses import dataclass, field

from smoke import language, tables
from smoke.faults import LimitError, TableError

COUNTED = 5_000  # different values that are counted; past these a column has many
SAMPLE = 10_000  # ints of a column that are kept to choose the width of its bins
FEW_INTS = 40  # different ints of a column that has a bar for each
FEW = 200  # the same for texts, whatever the number of rows
FEW_TEXTS = 2_000  # the same for texts, where each is on five rows on average
BINS = 20  # bars, roughly, into which most of a column's ints fall
MOST_BINS = 400
CHUNK = 10_000  # records that are looked at together
ZEROS = re.compile(r"[ \t]*[+-]?0[0-9]")


@dataclass
class LookedColumn:
    """A column of a file. `place` is that in the header, from 0; `empty` the number of fields without a value."""

    name: str
    place: int
    rows: int = 0
    empty: int = 0
    ints: int = 0
    is_int: bool = True  # until a field is none
    zeros: bool = False  # there are fields such as 007, which an int would not keep
    least: int | None = None
    most: int | None = None
    counts: dict | None = field(default_factory=collections.Counter)  # None where there are many
    sample: list = field(default_factory=list)
    bytes: int = 0

    @property
    def kind(self):
        """`int` where each field that isn't empty is one as it is written, else `text`."""
        return "int" if self.ints and self.is_int and not self.zeros else "text"

    @property
    def default(self):
        """For ints with gaps a value that none of them has; None where there is no gap."""
        if self.kind == "text" or not self.empty:
            return None
        if self.least >= 0:
            return -1
        if self.least > language.LEAST_INT:
            return self.least - 1
        if self.most < language.MOST_INT:
            return self.most + 1
        return next(value for value in range(language.LEAST_INT, language.MOST_INT) if value not in (self.counts or ()))

    @property
    def different(self):
        """The number of different values, at least: past COUNTED it is COUNTED + 1."""
        return COUNTED + 1 if self.counts is None else len(self.counts)

    @property
    def is_few(self):
        """Whether a bar for each value makes a chart."""
        if self.different < 2:
            return False
        if self.kind == "int":
            return self.different <= FEW_INTS and not self.is_name_of_rows
        if self.all_different:
            return self.rows <= FEW_INTS
        return self.different <= min(FEW, max(20, self.rows // 2)) or self.different <= min(FEW_TEXTS, self.rows // 5)

    @property
    def is_binned(self):
        """Whether its ints are many, and more than names of rows."""
        return self.kind == "int" and not self.is_few and self.different > 1 and not self.is_name_of_rows

    @property
    def is_name_of_rows(self):
        """Whether it is a number for each row, as an id is: all different, and in a range not much longer than the table."""
        return self.kind == "int" and self.rows > 3 and self.all_different and self.most - self.least < 4 * self.rows

    @property
    def all_different(self):
        filled = self.rows - self.empty
        if self.counts is not None:
            return len(self.counts) - (1 if self.empty else 0) == filled
        return len(set(self.sample)) == len(self.sample)

    @property
    def is_measure(self):
        """Whether a sum of it may mean something: ints without gaps, of many values, that are no names of rows."""
        many = self.different > min(FEW_INTS, self.rows // 2)
        return self.kind == "int" and many and self.different > 2 and not self.empty and not self.is_name_of_rows and not self.is_day

    @property
    def is_day(self):
        """Whether its ints are days, such as 20261031."""
        return self.kind == "int" and bool(self.sample) and all(
            1800 <= value // 10000 <= 2199 and 1 <= value // 100 % 100 <= 12 and 1 <= value % 100 <= 31 for value in self.sample)

    @property
    def width(self):
        """The width of its bins: 1, 2 or 5 and noughts, such that most of the values are in some 20 bars. Of days it is a month or a year."""
        values = sorted(self.sample)
        if self.is_day:
            return 100 if len({value // 100 for value in values}) <= 5 * BINS else 10000
        low, high = values[len(values) // 50], values[-1 - len(values) // 50]
        width = round_up((high - low) / BINS)
        while len({value // width for value in values}) > MOST_BINS:
            width = round_up(width + 1)
        return width

    @property
    def telling(self):
        """How much a chart of it would tell, higher first: the bits of its values up to 4, less for many bars, and little for names of
        rows, for texts that are all different, and for gaps."""
        if self.different < 2:
            return 0.0
        filled = 1 - self.empty / max(1, self.rows)
        if self.is_few:
            bits = 0.0
            for count in self.counts.values():
                share = count / self.rows
                bits -= share * math.log2(share)
            return (1 + min(4.0, bits) - max(0.0, math.log2(self.different / 50))) * (0.3 + 0.7 * filled)
        if self.is_binned:
            return 3.0 * (0.3 + 0.7 * filled)
        return 0.6 if self.is_name_of_rows else 0.4

    def add(self, values, chance):
        """The fields of more records."""
        self.rows += len(values)
        if self.is_int:
            numbers = {value: tables.int_of(value) for value in set(values) if value.strip(" \t")}
            self.is_int = None not in numbers.values()
        if self.is_int:
            self.zeros = self.zeros or any(value[0] in "0+- \t" and ZEROS.match(value) for value in numbers)
            ints = [numbers[value] for value in values if value in numbers]
            self.add_ints(ints, chance)
            self.empty += len(values) - len(ints)
            values = ints + [""] * (len(values) - len(ints))
        else:
            self.empty += values.count("")
        if self.counts is not None:
            self.counts.update(values)
            if len(self.counts) > COUNTED:
                self.counts = None

    def add_ints(self, ints, chance):
        if not ints:
            return
        self.ints += len(ints)
        self.least = min(ints) if self.least is None else min(self.least, min(ints))
        self.most = max(ints) if self.most is None else max(self.most, max(ints))
        room = SAMPLE - len(self.sample)
        self.sample += ints[:room]
        rest = ints[room:]
        for value in chance.sample(rest, SAMPLE * len(rest) // self.ints):
            self.sample[chance.randrange(SAMPLE)] = value


@dataclass
class Looked:
    """A file: its columns in the header's order, those that a book can name; the number of its records; and what is left out, as texts."""

    path: str
    rows: int
    columns: list
    left_out: list


def round_up(number):
    """The least of 1, 2, 5, 10, 20, 50, .. that isn't below a number."""
    power = 1
    while True:
        for digit in (1, 2, 5):
            if digit * power >= number:
                return digit * power
        power *= 10


def look(path, name=None):
    """Looks at a CSV file with a header. Raises FileError, TableError and LimitError, where no book could read it."""
    name = name or table_name(path)
    with tables.opened(path) as file:
        size = os.fstat(file.fileno()).st_size
        if size > language.FILE_BYTES:
            raise LimitError(f"file {path}", size, language.FILE_BYTES, tables.SPLIT, "bytes")
        rows = tables.records(file)
        line, header = next(rows, (None, None))
        if header is None:
            raise TableError(name, path, "no header", hint="The file is empty: a table without rows needs a header, too.")
        if len(header) == 1 and any(separator in header[0] for separator in ";\t|"):
            separator = next(separator for separator in ";\t|" if separator in header[0])
            raise TableError(name, path, "one column", line=line, field=header[0],
                             hint=f"The fields seem to have {separator!r} between them. From the folder python/, or where the package is installed, "
                                  f"`python3 -m smoke prepare` makes a file with commas, and so does `book --sep {separator!r}`.")
        columns, left_out = nameable(header)
        chance, chunk, before, count = random.Random(0), [], None, 0
        for count, (line, row) in enumerate(rows, 1):
            if len(row) != len(header):
                raise TableError(name, path, f"record {count} has a wrong number of fields", count, line,
                                 hint=f"It has {len(row)}, and the header {len(header)}. {tables.ragged_hint(row, before, len(header))}"
                                      + " `python3 -m smoke prepare --pad` fills up short records." * (len(row) < len(header)))
            chunk.append(row)
            if len(chunk) == CHUNK:
                add_all(columns, chunk, chance)
                chunk = []
            before = row
        add_all(columns, chunk, chance)
        if count > language.ROWS:
            raise LimitError(f"rows of table {name}", count, language.ROWS, tables.SPLIT, "records")
    for column in columns:
        whole_texts(column)
    return Looked(str(path), count, columns, left_out)


def add_all(columns, records, chance):
    fields = list(zip(*records))
    for column in columns if records else ():
        column.add(fields[column.place], chance)


def whole_texts(column):
    """Makes the counted values of a column those of its kind: ints that turned out to be texts were counted as ints."""
    if column.kind == "text" and column.counts is not None and any(isinstance(value, int) for value in column.counts):
        spelled = collections.Counter()
        for value, count in column.counts.items():
            spelled[str(value)] += count
        column.counts = spelled


def nameable(header):
    """The columns of a header that a book can name, and texts on the others."""
    columns, left_out = [], []
    for place, name in enumerate(header):
        if not name:
            left_out.append(f"column {place + 1}, which has no name")
        elif header.count(name) > 1:
            if header.index(name) == place:
                left_out.append(f"{header.count(name)} columns of the name {name!r}")
        elif "`" in name or "\n" in name:
            left_out.append(f"{name!r}, which has a backquote or a line feed in its name")
        elif len(language.bytes_of(name)) > language.NAME_BYTES:
            left_out.append(f"{name[:20]!r}.., which has a name of more than {language.NAME_BYTES} bytes")
        else:
            columns.append(LookedColumn(name, place))
    return columns, left_out


def plain(text, front):
    """Letters, digits and _ of a text, accents aside, as a name that begins with a letter: the front is put before it where it doesn't."""
    letters = (letter for letter in unicodedata.normalize("NFKD", text.lower()) if not unicodedata.combining(letter))
    letters = "".join(letter if letter.isascii() and letter.isalnum() else "_" for letter in letters)
    while "__" in letters:
        letters = letters.replace("__", "_")
    letters = letters.strip("_")
    if not letters or letters[0].isdigit() or letters in language.KEYWORDS:
        letters = (front + letters).rstrip("_")
    return letters[:50]


def table_name(path):
    """A name for the table of a file."""
    stem = os.path.basename(str(path))
    return plain(stem.split(".")[0] or stem, "table_") or "rows"


def new_name(name, names):
    """The name, or it with a number behind it where it is taken."""
    made, number = name, 2
    while made in names:
        made, number = f"{name}_{number}", number + 1
    return made
