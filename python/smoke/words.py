"""The words of books and lines: reserved words, limits, tokens, and how names and values are spelled.

Texts are bytes, and places in them are bytes from 0. Names and values are str, in which bytes that are no UTF-8 are surrogates.
"""
import re
from dataclasses import dataclass

KEYWORDS = frozenset(
    "all and append as ask back bin brush by clear count default distinct fd from fwd group int join lineage link max min not on or product"
    " project scan show sum table text theta to union view where".split())

TABLES, VIEWS, LINEAGES, LINKS = 16, 64, 256, 64
COLUMNS = 16
NODES, COMPARISONS, LEVELS, LINKED, NAME_BYTES, SUMS = 64, 128, 32, 64, 64, 3
FILE_BYTES, ROWS, PAIRS = 67_108_864, 1_048_576, 16_777_216
LEAST_INT, MOST_INT, MOST_MARK = -2**63, 2**63 - 1, 2**32 - 1

BYTE_ORDER_MARK = b"\xef\xbb\xbf"


def text_of(part):
    """The str of some bytes."""
    return part.decode("utf-8", "surrogateescape")


def bytes_of(part):
    """The bytes of a str."""
    return part.encode("utf-8", "surrogateescape")


def without_marks(text):
    """The bytes without the byte order marks at their front."""
    while text.startswith(BYTE_ORDER_MARK):
        text = text[len(BYTE_ORDER_MARK):]
    return text


class Fault(Exception):
    """A fault of a text: what it is, in the programs' words, and its byte.

    `name` is the name that it is about, if any; `known` are the names that there are in its place, if that is what is wrong; `expected` are
    the words and kinds of words that the grammar allows there; `step` is the step that it is in.
    """

    def __init__(self, what, at, name=None, known=(), expected=(), step=None, about=None):
        super().__init__(f"{what} at byte {at}")
        self.what, self.at, self.name, self.known = what, at, name, tuple(known)
        self.expected, self.step, self.about = tuple(expected), step, about


@dataclass(frozen=True)
class Token:
    """A word, number, text or symbol. The kind of a symbol and of a reserved word is its own spelling; the others are `name`, `quoted`,
    `number`, `huge` (an int past 64 bits), `str`, `end`, and `bad` where nothing of these begins."""

    kind: str
    at: int
    end: int
    value: object = None


WORD = re.compile(
    rb'(?:[ \t\n\r]+|#[^\n]*)*+'
    rb'(?:([A-Za-z_][A-Za-z0-9_]*)|(-?[0-9]+)|("[^"\n]*(?:""[^"\n]*)*")|(`[^`\n]+`)|(!=|<=|>=|[,(){}|=<>]))?')


def token_at(text, place):
    """The token that begins at or behind a place of the text."""
    found = WORD.match(text, place)
    number = found.lastindex
    if number is None:
        return Token("bad" if found.end() < len(text) else "end", found.end(), found.end())
    at, end = found.span(number)
    spelled = found[number]
    if number == 1:
        word = spelled.decode()
        return Token(word if word in KEYWORDS else "name", at, end, word)
    if number == 2:
        digits = spelled.lstrip(b"-").lstrip(b"0")
        value = int(digits or b"0") if len(digits) < 20 else MOST_INT + 2
        value = -value if spelled.startswith(b"-") else value
        return Token("number" if LEAST_INT <= value <= MOST_INT else "huge", at, end, value)
    if number == 3:
        return Token("str", at, end, text_of(spelled[1:-1].replace(b'""', b'"')))
    if number == 4:
        return Token("quoted", at, end, text_of(spelled[1:-1]))
    return Token(spelled.decode(), at, end)


def tokens(text):
    """All tokens of a text up to its end; behind a bad one it goes on at the next byte."""
    found = []
    place = 0
    while True:
        token = token_at(text, place)
        found.append(token)
        if token.kind == "end":
            return found
        place = token.at + 1 if token.kind == "bad" else token.end


NAME = re.compile(r"[A-Za-z_][A-Za-z0-9_]*\Z")


def is_name(name):
    """Whether a str can stand as a name without backquotes."""
    return bool(NAME.match(name)) and name not in KEYWORDS


class Unwritable(ValueError):
    """A value that no book and no line can have: a text with a line feed, an int past its range, a name with a backquote."""


def writable(text):
    """The str, if it has bytes: one with surrogates that stand for no byte has none."""
    try:
        bytes_of(text)
    except UnicodeEncodeError:
        raise Unwritable(f"{text!r} has a surrogate that stands for no byte") from None
    return text


def plain_name(name):
    """The spelling of a table's or view's name; raises Unwritable where it can't be one."""
    if not isinstance(name, str) or not is_name(name):
        raise Unwritable(f"{name!r} can't be the name of a table or view: letters, digits and _ make one, and no reserved word is one")
    return name


def column_name(name):
    """The spelling of a column's name, in backquotes where it needs them; raises Unwritable where it can't be one."""
    if not isinstance(name, str) or not name or "`" in name or "\n" in name:
        raise Unwritable(f"{name!r} can't be the name of a column: it is empty, or has a backquote or a line feed")
    return name if is_name(name) else f"`{writable(name)}`"


def literal(value):
    """The spelling of a value, an int or a str, in a book or a line; raises Unwritable where it has none."""
    if isinstance(value, str):
        if "\n" in value:
            raise Unwritable("a text with a line feed can't be written in a book or a line")
        return '"' + writable(value).replace('"', '""') + '"'
    if isinstance(value, bool) or not isinstance(value, int):
        raise Unwritable(f"{value!r} is no int and no str")
    if not LEAST_INT <= value <= MOST_INT:
        raise Unwritable(f"{value} has more than 64 bits")
    return str(value)
