"""How the fields of a column can be read: ints, decimals, dates and times as people write them, and as Smoke takes them."""
import datetime
import decimal
import re
from dataclasses import dataclass

from smoke import language

SIMPLE = re.compile(r"([+-]?)(0|[1-9][0-9]{0,17})([.,])([0-9]{1,18})\Z")
PLAIN = re.compile(r"[+-]?(?:0|[1-9][0-9]*)\Z")
MONEY = "\u20ac$\u00a3\u00a5\u20b9"
UNITS = "EUR|USD|GBP|CHF|JPY|SEK|NOK|DKK|PLN|CZK|Euro"
SPACES = " \u00a0\u202f\u2009"
GROUPS = SPACES + "'\u2019"
MOST_PLACES = 9  # decimal places that are kept by themselves

TIME = r"(?:[ T]+([0-9]{1,2}):([0-9]{2})(?::([0-9]{2})(?:[.,]([0-9]+))?)?[ \u202f]?([AaPp]\.?[Mm]\.?)?)?\Z"
DATES = {
    "ymd": re.compile(r"([0-9]{4})([-/.])([0-9]{1,2})\2([0-9]{1,2})" + TIME),
    "dmy": re.compile(r"([0-9]{1,2})([-/.])([0-9]{1,2})\2([0-9]{4}|[0-9]{2}),?" + TIME),
    "mdy": re.compile(r"([0-9]{1,2})([-/.])([0-9]{1,2})\2([0-9]{4}|[0-9]{2}),?" + TIME),
}
MONTHS = {name: number for number, names in enumerate((
    "jan january januar", "feb february februar", "mar march maerz m\u00e4rz m\u00e4r", "apr april", "may mai", "jun june juni", "jul july juli",
    "aug august", "sep sept september", "oct october okt oktober", "nov november", "dec december dez dezember"), 1) for name in names.split()}
NAMED = {
    "d month y": re.compile(r"([0-9]{1,2})\.?[ -]([A-Za-z\u00e4]{3,9})\.?,?[ -]([0-9]{4}|[0-9]{2})" + TIME),
    "month d, y": re.compile(r"([A-Za-z\u00e4]{3,9})\.? ([0-9]{1,2}),? ([0-9]{4})" + TIME),
}


@dataclass(frozen=True)
class Number:
    """Numbers with this sign before their decimals. `value(text)` is a Decimal, or None where the text is no such number."""

    sign: str

    def value(self, text):
        found = self.pattern.match(text.strip(SPACES + "\t"))
        if not found:
            return None
        whole, places, power = found["whole"], found["places"] or "", found["power"] or ""
        digits = "".join(letter for letter in whole if letter.isdigit())
        if len(digits) > 1 and digits[0] == "0" or len(digits) + len(places) > 40 or len(power) > 3:
            return None
        value = decimal.Decimal(f"{digits or 0}.{places or 0}{power}")
        if found["open"] and not found["close"] or found["close"] and not found["open"]:
            return None
        signs = [sign for sign in (found["open"], found["minus"], found["after"], found["behind"]) if sign]
        if len(signs) > 1 or signs == ["+"] and found["group"]:
            return None
        return -value if signs and signs != ["+"] else value

    def places(self, text):
        """The number of decimal places that are written."""
        found = self.pattern.match(text.strip(SPACES + "\t"))
        return len(found["places"] or "") if found and not found["power"] else 0

    def unit(self, text):
        found = self.pattern.match(text.strip(SPACES + "\t"))
        return found and (found["money"] or found["unit"]) or ""

    @property
    def pattern(self):
        return NUMBERS[self.sign]


def _pattern(sign):
    groups = GROUPS + {".": ",", ",": "."}[sign]
    point = re.escape(sign)
    minus = "[-+\u2212]"
    return re.compile(
        rf"(?P<open>\()?(?P<minus>{minus})?(?:(?P<money>[{MONEY}]|(?:{UNITS}))[{SPACES}]*)?(?P<after>{minus})?"
        rf"(?P<whole>[0-9]{{1,3}}(?P<group>[{re.escape(groups)}])[0-9]{{3}}(?:(?P=group)[0-9]{{3}})*|[0-9]+|(?={point}))"
        rf"(?:{point}(?P<places>[0-9]+))?(?P<power>[eE][+-]?[0-9]+)?(?P<behind>-)?"
        rf"(?:[{SPACES}]*(?P<unit>[{MONEY}%]|(?:{UNITS})))?(?P<close>\))?\Z")


NUMBERS = {".": _pattern("."), ",": _pattern(",")}


@dataclass(frozen=True)
class Moment:
    """A day, or a day with a time."""

    day: datetime.date
    time: str = ""  # HH:MM, HH:MM:SS or with decimals, empty without a time

    @property
    def int(self):
        return self.day.year * 10000 + self.day.month * 100 + self.day.day

    @property
    def text(self):
        return self.day.isoformat() + (" " + self.time if self.time else "")


def moment(order, text):
    """The Moment of a text in one of the orders of DATES and NAMED, or None."""
    text = text.strip()
    if order in NAMED:
        found = NAMED[order].match(text)
        if not found:
            return None
        first, second, year, *time = found.groups()
        day, month = (first, second) if order == "d month y" else (second, first)
        month = MONTHS.get(month.lower())
        if month is None:
            return None
    else:
        found = DATES[order].match(text)
        if not found:
            return None
        first, _, second, third, *time = found.groups()
        year, month, day = {"ymd": (first, second, third), "dmy": (third, second, first), "mdy": (third, first, second)}[order]
    year = int(year) + (0 if len(year) == 4 else 2000 if int(year) < 70 else 1900)
    try:
        date = datetime.date(year, int(month), int(day))
    except ValueError:
        return None
    hour, minute, second, places, half = time
    if hour is None:
        return Moment(date)
    hour = int(hour)
    if half:
        if not 1 <= hour <= 12:
            return None
        hour = hour % 12 + (12 if half[0] in "pP" else 0)
    if hour > 23 or int(minute) > 59 or int(second or 0) > 60:
        return None
    shown = f"{hour:02}:{minute}" + (f":{second}" if second else "") + (f".{places}" if places else "")
    return Moment(date, shown)


ORDERS = (*DATES, *NAMED)


class Reading:
    """What a column can be read as, as far as its fields were seen: which ways are left, and what is needed of each."""

    def __init__(self):
        self.filled = self.empty = 0
        self.plain = True
        self.signs = {".", ","}
        self.orders = set(ORDERS)
        self.places = {".": 0, ",": 0}  # decimal places that are needed
        self.written = {".": 0, ",": 0}  # and those that are written
        self.most = {".": 0, ",": 0}  # no number is larger than this, an int
        self.units = {}
        self.timed = False
        self.lengths = set()  # of the times of moments, which sort as texts where all are alike
        self.seen = set()
        self.example = None

    @property
    def is_text(self):
        return not (self.plain or self.signs or self.orders)

    def add(self, field):
        """Another field, with nothing around it."""
        if not field:
            self.empty += 1
            return
        self.filled += 1
        if field in self.seen or self.is_text:
            return
        if len(self.seen) < 50_000:
            self.seen.add(field)
        self.example = self.example or field
        if PLAIN.match(field) and len(field) < 40:
            self.orders.clear()
            size = abs(int(field))
            self.plain = self.plain and size <= language.MOST_INT
            for sign in self.signs:
                if size > self.most[sign]:
                    self.most[sign] = size
            return
        self.plain = False
        for sign in tuple(self.signs):
            self._number(sign, field)
        for order in tuple(self.orders):
            found = moment(order, field)
            if found is None:
                self.orders.discard(order)
            else:
                self.timed = self.timed or bool(found.time)
                self.lengths.add(len(found.time))

    def _number(self, sign, field):
        simple = SIMPLE.match(field)
        if simple and simple[3] == sign:
            size, needed, written, unit = int(simple[2]) + 1, len(simple[4].rstrip("0")), len(simple[4]), ""
        else:
            number = Number(sign)
            value = number.value(field)
            if value is None:
                self.signs.discard(sign)
                return
            size, needed = int(abs(value)) + 1, max(0, -value.normalize().as_tuple().exponent)
            written, unit = number.places(field), number.unit(field)
        self.orders.clear()
        if needed > self.places[sign]:
            self.places[sign] = needed
        if written > self.written[sign]:
            self.written[sign] = written
        if size > self.most[sign]:
            self.most[sign] = size
        self.units[unit] = self.units.get(unit, 0) + 1
