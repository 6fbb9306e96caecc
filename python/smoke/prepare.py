"""Makes a CSV file ready for Smoke: commas, UTF-8, ints for decimals and dates, without what isn't a record.

    done = prepare("export.csv", "sales.csv")
    done.did        what it did, a list of texts
    done.columns    of each column that isn't shown as it is written, how to show it

Beside the file it writes the same as JSON: OUT.csv.json. A page reads it to show 123.45 for 12345.
"""
import codecs
import csv
import decimal
import json
import os
import re
import tempfile
from dataclasses import dataclass, field

from smoke import language, records, tables
from smoke.faults import FileError, LimitError, SmokeError, TableError
from smoke.readings import MOST_PLACES, SIMPLE, Number, Reading, moment

TOTAL = re.compile(r"\s*(grand\s+|sub)?(totals?|sum|summe|gesamt(summe)?|zwischensumme|insgesamt|somme|totale|totaal|suma)\b", re.I)
NOTHING = {"n/a", "na", "#n/a", "null", "none", "nan", "-", "--", ".", "?", "k.a.", "nil", "#div/0!", "#value!", "\u2013", "\u2014"}
NUMERIC = re.compile(r"[-+]?[.,]?\d")
SEPARATORS = ",;\t|"
SHOWN = {",": "commas", ";": "semicolons", "\t": "tabs", "|": "bars", ":": "colons", " ": "spaces"}
END = "\0end of the file\0"


class Unprepared(SmokeError):
    """What was asked for can't be done with this file."""


@dataclass
class Wishes:
    """What is asked for. What is None is found by looking at the file.

    `decimal` is the sign before decimals; `order` is ymd, dmy or mdy; `dates` is int or text; `scale` has decimal places by column, to which
    is rounded; `leave_out` has texts COLUMN=VALUE, or `totals`; `text` are columns that stay as they are; `kept` are the columns that are
    written; `empty` are texts that stand for no value, in all columns; `spread` takes fields that go over several lines for what they are.
    """

    separator: str | None = None
    encoding: str | None = None
    skip: int = 0
    header: list | None = None
    decimal: str | None = None
    order: str | None = None
    dates: str = "int"
    scale: dict = field(default_factory=dict)
    leave_out: list = field(default_factory=list)
    text: list = field(default_factory=list)
    kept: list | None = None
    rename: dict = field(default_factory=dict)
    empty: list = field(default_factory=list)
    sort: str | None = None
    trim: bool = False
    pad: bool = False
    quotes: bool = True
    spread: bool = False


@dataclass
class Prepared:
    """What was done: the file, its number of records, a list of texts, and of columns how they are shown."""

    file: str
    rows: int
    did: list
    columns: dict


def beside(path):
    """A name for the file that is made of a file, in the folder of that."""
    return os.path.splitext(path)[0] + ".ready.csv"


# Bytes to lines

def encoding_of(path):
    """The encoding of a file, by its first bytes and by whether all of them are UTF-8."""
    with open(path, "rb") as file:
        front = file.read(4096)
        for mark, name in ((codecs.BOM_UTF8, "utf-8-sig"), (codecs.BOM_UTF32_LE, "utf-32"), (codecs.BOM_UTF32_BE, "utf-32"),
                           (codecs.BOM_UTF16_LE, "utf-16"), (codecs.BOM_UTF16_BE, "utf-16")):
            if front.startswith(mark):
                return name
        if front.count(0) > len(front) // 4:
            return "utf-16-be" if front[:1] == b"\0" else "utf-16-le"
        decoder = codecs.getincrementaldecoder("utf-8")()
        piece = front
        try:
            while piece:
                decoder.decode(piece)
                piece = file.read(1 << 20)
            decoder.decode(b"", True)
            return "utf-8"
        except UnicodeDecodeError:
            file.seek(0)
            while piece := file.read(1 << 20):
                if re.search(rb"[\x81\x8d\x8f\x90\x9d]", piece):
                    return "latin-1"
            return "cp1252"


class Source:
    """A file as it comes: its encoding, its separator, and its records, which can be read more than once."""

    def __init__(self, path, wishes, did):
        self.path, self.wishes = path, wishes
        self.table = os.path.basename(path)
        try:
            self.encoding = wishes.encoding or encoding_of(path)
            codecs.lookup(self.encoding)
        except OSError as fault:
            raise FileError(path, fault.strerror) from None
        except LookupError:
            raise Unprepared(f"there is no encoding {wishes.encoding}") from None
        self.skipped = wishes.skip
        front = [line for line, _ in zip(self.lines(), range(200))]
        self.separator = wishes.separator
        said = re.match(r"\s*\"?sep=(.)\"?\s*$", front[0]) if front else None
        if said:
            self.skipped += 1
            self.separator = self.separator or said[1]
            did.append(f"left out the line sep={said[1]}")
            front = front[1:]
        self.separator = self.separator or separator_of(front)
        if len(self.separator) != 1 or self.separator in '"\r\n':
            raise Unprepared(f"{self.separator!r} can't be a separator: it is one character, and no quote or line end")
        if self.encoding not in ("utf-8", "ascii"):
            did.append(f"read as {'UTF-8 with a byte order mark' if self.encoding == 'utf-8-sig' else self.encoding.upper()}, and written as UTF-8")
        if self.separator != ",":
            did.append(f"between the fields were {SHOWN.get(self.separator, repr(self.separator))}, and are commas now")
        if wishes.skip:
            did.append(f"left out the first {wishes.skip} lines")
        elif wishes.header is None and wishes.quotes and (above := lines_above(front, self.separator)):
            title = front[0].strip().strip(self.separator + '"')[:60]
            did.append(f"left out {above} line{'s' if above > 1 else ''} above the header: {title}")
            self.skipped += above

    def lines(self):
        try:
            with open(self.path, encoding=self.encoding, newline="") as file:
                for number, line in enumerate(tables.unmarked(iter(file))):
                    if number >= self.skipped:
                        yield line
        except UnicodeError as fault:
            raise Unprepared(f"{self.path} isn't in the encoding {self.encoding}: {fault}") from None
        except OSError as fault:
            raise FileError(self.path, fault.strerror) from None

    def records(self):
        """Each record with the line on which it begins, from 1; those of no field or of empty fields alone are left out."""
        def ended():
            yield from self.lines()
            yield END + "\n"
        quoting = csv.QUOTE_MINIMAL if self.wishes.quotes else csv.QUOTE_NONE
        rows = csv.reader(ended(), delimiter=self.separator, quoting=quoting)
        behind = self.skipped
        row = None
        for row in rows:
            line, behind = behind + 1, rows.line_num + self.skipped
            if row == [END]:
                return
            if row and END in row[-1]:
                break
            if any(row):
                yield line, row
        if row is not None:
            raise TableError(self.table, self.path, "a quote is not closed", line=line, field=row[-1].partition(END)[0][:60],
                             hint="It takes the rest of the file into its field. Close it, or take --plain-quotes if quotes mean nothing in this file.")


def separator_of(front):
    """The separator of a file by its first lines: the one that makes records of more than one field, and of one length most often."""
    best, most = ",", 0.0
    for separator in SEPARATORS:
        lengths = [len(row) for row in csv.reader(front[:100], delimiter=separator) if row]
        if lengths:
            usual = max(set(lengths), key=lengths.count)
            worth = lengths.count(usual) / len(lengths) * min(usual, 8) if usual > 1 else 0.0
            if worth > most:
                best, most = separator, worth
    return best


def lines_above(front, separator):
    """How many of a file's first lines are titles above its header: those before the first record with more than half as many fields as most
    have, if all its fields are different names. Empty fields at the end of a record don't count."""
    rows, found, above = csv.reader(front, delimiter=separator), [], 0
    for row in rows:
        fields = [field.strip() for field in row]
        while fields and not fields[-1]:
            fields.pop()
        if fields:
            found.append((above, fields))
        above = rows.line_num
    lengths = [len(fields) for _, fields in found]
    usual = max(lengths, key=lambda length: (lengths.count(length), length), default=0)
    above, header = next(((above, fields) for above, fields in found[:20] if 2 * len(fields) > usual), (0, []))
    are_names = all(field and not NUMERIC.match(field) for field in header) and len(set(header)) == len(header)
    return above if header and header is not found[0][1] and are_names else 0


# Columns

def names_of(header, wishes, did):
    """Names that a book can have, each once."""
    made = []
    for place, name in enumerate(header):
        new = " ".join(name.split()).replace("`", "'")
        new = wishes.rename.get(name, wishes.rename.get(new, new)) or f"column {place + 1}"
        if len(new.encode()) > language.NAME_BYTES:
            new = new.encode()[:language.NAME_BYTES - 4].decode("utf-8", "ignore").rstrip()
        number, first = 2, new
        while new in made:
            new, number = f"{first} {number}", number + 1
        if new != name:
            did.append(f"named the column {name!r} {new!r}" if name else f"named column {place + 1}, which had no name, {new!r}")
        made.append(new)
    for name in wishes.rename:
        if name not in header and name not in wishes.rename.values():
            raise Unprepared(f"there is no column {name!r} to rename. {tables.header_hint(name, header, [])}")
    return made


def column_of(name, names, what):
    if name not in names:
        raise Unprepared(f"there is no column {name!r} to {what}. {tables.header_hint(name, names, [])}")
    return names.index(name)


@dataclass
class Way:
    """How a column is written: a function from a field to a field, what is said of it, and how it is shown."""

    write: object
    said: str = ""
    shown: dict | None = None


def same(field):
    return field


def way_of(name, reading, wishes, sign, order):
    """The Way of a column by what its fields can be read as."""
    if name in wishes.text or not reading.filled:
        return Way(same)
    scale = wishes.scale.get(name)
    if reading.plain and scale is None:
        return Way(str.strip, shown={"kind": "int"}) if reading.filled else Way(same)
    if reading.signs:
        return number_way(name, reading, scale, sign if sign in reading.signs else min(reading.signs))
    if scale is not None:
        raise Unprepared(f"{name!r} isn't a column of numbers, and can't be scaled")
    orders = reading.orders
    if orders:
        if {"dmy", "mdy"} <= orders:
            dotted = reading.example and "." in reading.example
            order = order or ("dmy" if dotted else None)
            if order is None:
                return Way(same, f"{name}: left as it is, since days and months can't be told apart: --order dmy or --order mdy says it")
        elif order not in orders:
            order = min(orders)
        return date_way(name, reading, wishes, order)
    return Way(same)


def number_way(name, reading, scale, sign):
    number = Number(sign)
    places = reading.places[sign] if scale is None else scale
    if scale is None and 0 < places < reading.written[sign] <= MOST_PLACES and fits(reading.most[sign], reading.written[sign]):
        places = reading.written[sign]  # 1.50 is in hundredths
    if scale is None and (places > MOST_PLACES or not fits(reading.most[sign], places)):
        return Way(same, f"{name}: left as texts, since its numbers have {places} decimal places: --scale {name}=2 rounds them to two")
    if not fits(reading.most[sign], places):
        raise Unprepared(f"{name!r} scaled by {places} decimal places would not fit into 64 bits")
    units = [unit for unit in reading.units if unit]
    unit = units[0] if len(units) == 1 else ""
    factor = decimal.Decimal(10) ** places

    def write(field):
        field = field.strip()
        if not field:
            return ""
        simple = SIMPLE.match(field)
        if simple and simple[3] == sign and len(simple[4]) <= places:
            digits = (simple[2] + simple[4].ljust(places, "0")).lstrip("0")
            return ("-" if simple[1] == "-" else "") + digits if digits else "0"
        value = number.value(field)
        return str(int((value * factor).to_integral_value(decimal.ROUND_HALF_EVEN)))
    shown = {"kind": "int"} | ({"scale": places} if places else {}) | ({"unit": unit} if unit else {})
    example = reading.example
    said = f"{name}: {example} is {write(example)}"
    if scale is not None and reading.places[sign] > scale:
        said += f", rounded to {scale} decimal places"
    if len(units) > 1:
        said += f"; it has several units, {', '.join(units)}, which are dropped"
    return Way(write, said if write(example) != example else "", shown)


def fits(most, places):
    return most * 10 ** places <= language.MOST_INT


def date_way(name, reading, wishes, order):
    as_int = wishes.dates == "int" and not reading.timed
    mixed = reading.timed and len(reading.lengths) > 1

    def write(field):
        field = field.strip()
        if not field:
            return ""
        found = moment(order, field)
        if as_int:
            return str(found.int)
        return f"{found.text}" if not mixed else f"{found.day.isoformat()} {(found.time or '00:00') + ('' if found.time.count(':') == 2 else ':00')}"
    example = reading.example
    shown = {"kind": "int" if as_int else "text", "date": "time" if reading.timed else "day"}
    said = f"{name}: {example} is {write(example)}" if write(example) != example else ""
    return Way(write, said, shown)


# The work

def prepare(source, target, **wishes):
    """Makes a file of a file, and its JSON, and gives a Prepared. Takes what Wishes has. Raises a SmokeError where the file can't be read as
    records, or what is asked for can't be done; then there is no new file."""
    wishes = Wishes(**wishes)
    if os.path.exists(target) and os.path.exists(source) and os.path.samefile(source, target):
        raise Unprepared("the file that is read can't be the one that is written")
    did = []
    file = Source(source, wishes, did)
    work = Work(file, wishes, did)
    work.look()
    return work.write(target)


class Work:
    def __init__(self, source, wishes, did):
        self.source, self.wishes, self.did = source, wishes, did
        self.left = []  # lines of records that are left out

    def header(self, rows):
        if self.wishes.header is not None:
            header = list(self.wishes.header)
            self.did.append(f"put a header in front: {','.join(header)}")
        else:
            _, header = next(rows, (0, None))
            if header is None:
                raise TableError(self.source.table, self.source.path, "no header", hint="The file is empty.")
        while header and not header[-1] and self.wishes.header is None and len(header) > 1:
            header = header[:-1]
        return header

    def records(self):
        """The header's fields, and then each record with its line, as many fields as the header."""
        rows = self.source.records()
        header = self.header(rows)
        yield 0, header
        wanted, wrong = len(header), []
        marks = {*self.wishes.empty}
        for number, (line, row) in enumerate(rows, 1):
            if len(row) > wanted and not any(row[wanted:]):
                row = row[:wanted]
            if len(row) < wanted and self.wishes.pad:
                row = row + [""] * (wanted - len(row))
            if len(row) != wanted:
                sought = tables.ragged_hint(row, None, wanted, self.source.separator)
                wrong.append(TableError(self.source.table, self.source.path, f"record {number} has a wrong number of fields", number, line,
                                        hint=f"It has {len(row)}, and the header {wanted}. {sought}"
                                             + " Short records are filled up by --pad." * (len(row) < wanted)
                                             + " Lines above the header are left out by --skip." * (number == 1 and len(row) > wanted)))
                if len(wrong) == 5:
                    break
                continue
            if not self.wishes.spread:
                self.swallowed(line, row, wanted)
            if self.wishes.trim:
                row = [field.strip() for field in row]
            if marks:
                row = ["" if field.strip() in marks else field for field in row]
            yield line, row
        if wrong:
            if len(wrong) > 1:
                wrong[0].args = ("\n".join([str(fault).split("\n")[0] for fault in wrong] + [wrong[0].hint]),)
            raise wrong[0]

    def swallowed(self, line, row, wanted):
        """Fails where a field in quotes has whole records in it."""
        for field in row:
            if "\n" not in field:
                continue
            inner = field.split("\n")[1:-1]
            if wanted > 1 and any(text.count(self.source.separator) >= wanted - 1 for text in inner):
                raise TableError(self.source.table, self.source.path, "a quote is not closed, or closed too late", line=line, field=field[:60],
                                 hint="The field has lines in it that look like records. Close the quote, or take --spread if the field is right.")

    def look(self):
        rows = self.records()
        _, header = next(rows)
        self.names = names_of(header, self.wishes, self.did)
        wishes = self.wishes
        for name in [*wishes.text, *wishes.scale, *(wishes.kept or ())]:
            column_of(name, self.names, "prepare")
        self.kept = [column_of(name, self.names, "keep") for name in wishes.kept] if wishes.kept else range(len(self.names))
        self.rules = [rule_of(text, self.names) for text in wishes.leave_out]
        readings = [Reading() for _ in self.names]
        strange = [dict() for _ in self.names]
        totals, spaced = [], set()
        for line, row in rows:
            if any(rule(row) for rule in self.rules):
                self.left.append(line)
                continue
            if is_total(row):
                totals.append(line)
            for name, reading, odd, field in zip(self.names, readings, strange, row):
                if field in reading.seen:
                    reading.filled += 1
                    continue
                stripped = field.strip()
                if len(stripped) < len(field):
                    spaced.add(name)
                if len(stripped) < 9 and stripped.lower() in NOTHING:
                    odd[stripped] = odd.get(stripped, 0) + 1
                else:
                    reading.add(stripped)
        if self.left:
            self.did.append(f"left out {counted(self.left, 'record', 'line')}")
        if totals:
            self.did.append(f"kept {counted(totals, 'record', 'line')}, which may be totals: --leave-out totals leaves them out")
        sign = wishes.decimal or self.sign(readings)
        order = wishes.order or self.order(readings)
        self.ways = []
        self.marks = []
        for name, reading, odd in zip(self.names, readings, strange):
            way = way_of(name, reading, wishes, sign, order)
            if odd and reading.filled and way.shown and name not in wishes.text:
                self.did.append(f"{name}: {', '.join(map(repr, sorted(odd)))} taken for no value, {sum(odd.values())} times")
                self.marks.append(set(odd))
            else:
                if odd:
                    way = Way(same)
                self.marks.append(set())
            if way.said:
                self.did.append(way.said)
            if way.write is same and name in spaced:
                self.did.append(f"{name}: kept spaces around fields, by which they differ: --trim drops them")
            self.ways.append(way)

    def sign(self, readings):
        """The sign before decimals, by the columns in which only one of the two can be."""
        told = [min(reading.signs) for reading in readings if len(reading.signs) == 1 and not reading.plain]
        if told and len(set(told)) == 1:
            return told[0]
        if not told:
            unclear = [name for name, reading in zip(self.names, readings) if len(reading.signs) == 2 and not reading.plain
                       and reading.example and reading.places["."] != reading.places[","]]
            sign = "," if self.source.separator == ";" else "."
            if unclear:
                self.did.append(f"{', '.join(unclear)}: taken for numbers with {'a decimal comma' if sign == ',' else 'a decimal point'}; "
                                "--decimal says it otherwise")
            return sign
        return "."

    def order(self, readings):
        told = {order for reading in readings if len(reading.orders & {"dmy", "mdy"}) == 1 for order in reading.orders & {"dmy", "mdy"}}
        return told.pop() if len(told) == 1 else None

    def written(self):
        """The records as they are written."""
        rows = self.records()
        next(rows)
        columns = [(place, self.ways[place].write, self.marks[place]) for place in self.kept]
        for _, row in rows:
            if not any(rule(row) for rule in self.rules):
                yield ["" if marks and row[place].strip() in marks else write(row[place]) for place, write, marks in columns]

    def write(self, target):
        names = [self.names[place] for place in self.kept]
        rows = self.written()
        if self.wishes.sort is not None:
            rows = self.sorted(rows, names)
        count = 0
        folder = os.path.dirname(os.path.abspath(target))
        try:
            made, path = tempfile.mkstemp(prefix=".smoke-", dir=folder)
        except OSError as fault:
            raise FileError(target, fault.strerror) from None
        try:
            with open(made, "w", encoding="utf-8", newline="") as file:
                records.write_header(file, names)
                out = records.writer(file)
                for count, row in enumerate(rows, 1):
                    out.writerow(row)
            size = os.path.getsize(path)
            if size > language.FILE_BYTES:
                raise LimitError(f"file {target}", size, language.FILE_BYTES, "Write fewer columns: --columns. Or split the file.", "bytes")
            if count > language.ROWS:
                raise LimitError("records", count, language.ROWS, "Split the file, or leave records out.")
            shown = {name: way.shown for name, way in ((self.names[place], self.ways[place]) for place in self.kept) if way.shown}
            done = Prepared(target, count, self.did, shown)
            os.chmod(path, 0o666 & ~current_mask())
            write_json(target + ".json", done)
            os.replace(path, target)
        except OSError as fault:
            raise FileError(target, fault.strerror) from None
        finally:
            if os.path.exists(path):
                os.remove(path)
        return done

    def sorted(self, rows, names):
        place = column_of(self.wishes.sort, names, "sort by")
        rows = list(rows)
        if all(tables.int_of(row[place]) is not None or not row[place] for row in rows):
            rows.sort(key=lambda row: (bool(row[place]), tables.int_of(row[place]) or 0))
        else:
            rows.sort(key=lambda row: row[place].encode("utf-8", "surrogatepass"))
        self.did.append(f"sorted by {self.wishes.sort}")
        return rows


def current_mask():
    mask = os.umask(0)
    os.umask(mask)
    return mask


def write_json(path, done):
    said = {"file": os.path.basename(done.file), "records": done.rows, "columns": done.columns, "did": done.did}
    with open(path, "w", encoding="utf-8") as file:
        json.dump(said, file, ensure_ascii=False, indent=1)
        file.write("\n")


def is_total(row):
    first = next((field for field in row if field.strip()), "")
    return bool(TOTAL.match(first))


def rule_of(text, names):
    """Whether a record is left out, by a text: `totals`, or COLUMN=VALUE."""
    if text == "totals":
        return is_total
    column, equal, value = text.partition("=")
    if not equal:
        raise Unprepared(f"{text!r} is no rule: write totals, or COLUMN=VALUE")
    place = column_of(column, names, "leave out by")
    return lambda row: row[place].strip() == value.strip()


def counted(lines, what, where):
    shown = ", ".join(map(str, lines[:5])) + (", .." if len(lines) > 5 else "")
    return f"{len(lines)} {what}{'s' if len(lines) > 1 else ''} ({where}{'s' if len(lines) > 1 else ''} {shown})"
