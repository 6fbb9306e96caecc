"""The words of a command for what is asked of a file that is made ready."""
import csv

from smoke.faults import SmokeError

# Each word with its place among the wishes, and with how it is read.
WORDS = {
    "--sep": dict(help="what stands between the fields, tab for a tab; else it is found"),
    "--encoding": dict(help="such as utf-16 or cp1252; else it is found"),
    "--skip": dict(type=int, default=0, metavar="N", help="leave out the first N lines; else titles above the header are found"),
    "--header": dict(action="append", metavar="NAME,..", help="put this header in front of a file that has none"),
    "--decimal": dict(choices=[".", ","], help="the sign before decimals; else it is found"),
    "--order": dict(choices=["ymd", "dmy", "mdy"], help="the order of year, month and day; else it is found"),
    "--dates": dict(choices=["int", "text"], default="int", help="what a day is written as: 20261031, or 2026-10-31"),
    "--scale": dict(action="append", metavar="NAME=N", help="round a column to N decimal places, and write it as an int"),
    "--leave-out": dict(action="append", metavar="RULE", help="leave out records: totals, or COLUMN=VALUE"),
    "--text": dict(action="append", metavar="NAME,..", help="leave these columns as they are"),
    "--columns": dict(action="append", metavar="NAME,..", help="write these columns alone"),
    "--rename": dict(action="append", metavar="OLD=NEW", help="give a column another name"),
    "--empty": dict(action="append", metavar="TEXT,..", help="take these texts for no value"),
    "--sort": dict(metavar="NAME", help="sort the records by a column, as ints where it has ints"),
    "--trim": dict(action="store_true", help="drop spaces around fields"),
    "--pad": dict(action="store_true", help="fill up records with too few fields"),
    "--plain-quotes": dict(action="store_true", help="take quotes for plain characters"),
    "--spread": dict(action="store_true", help="take fields over several lines for what they are"),
}


class Wrong(SmokeError):
    """Words that make no command."""


def add_words(command):
    """Adds the words to those of a command."""
    for word, how in WORDS.items():
        command.add_argument(word, **how)


def of(words):
    """What is asked for, as arguments of `prepare`."""
    scale = pairs(words.scale, "scale")
    if not all(value.isascii() and value.isdigit() and int(value) <= 18 for value in scale.values()):
        raise Wrong("a scale is a number of decimal places, from 0 to 18")
    return dict(
        separator=separator_of(words.sep), encoding=words.encoding, skip=words.skip, header=listed(words.header), decimal=words.decimal,
        order=words.order, dates=words.dates, scale={name: int(value) for name, value in scale.items()}, leave_out=words.leave_out or [],
        text=listed(words.text) or [], kept=listed(words.columns), rename=pairs(words.rename, "new name"), empty=listed(words.empty) or [],
        sort=words.sort, trim=words.trim, pad=words.pad, quotes=not words.plain_quotes, spread=words.spread)


def are_there(words):
    """Whether anything is asked for."""
    given = {word: getattr(words, word[2:].replace("-", "_")) for word in WORDS}
    return any(value != WORDS[word].get("default") for word, value in given.items() if value is not None and value is not False)


def pairs(given, what):
    """A dict of words NAME=VALUE."""
    made = {}
    for text in given or ():
        name, equal, value = text.rpartition("=")
        if not equal:
            raise Wrong(f"{text!r} is no {what}: write NAME=VALUE")
        made[name] = value
    return made


def listed(given):
    """The names in words NAME,NAME."""
    return [name for text in given for name in next(csv.reader([text]))] if given else None


def separator_of(given):
    return {"tab": "\t", "\\t": "\t"}.get(given, given)
