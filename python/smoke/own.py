"""A conversation's own lines, which begin with a dot, read as the program reads them."""
import re
from dataclasses import dataclass

from smoke import language
from smoke.grammar import ASK_STEPS, Reader
from smoke.language import Fault, Line

BLANKS = b" \t\n\r"
PARTED = ("show", "back", "ask")
BRIEF = ("brush", "clear", "fd")

HELP = """\
show VIEW  # show by_region
back VIEW MARKS to TABLE [where COLUMN = VALUE | group]  # back by_region 0,2 to sales where amount = 30
fwd TABLE RIDS to VIEW  # fwd sales 0,2 to big
ask back VIEW MARKS to TABLE | STEP ..  # ask back by_region all to sales | group id {n = count}
brush VIEW MARKS on TABLE  # brush by_region 0 on sales
clear [VIEW on TABLE]  # clear by_region on sales
fd NAME  # fd towns
append TABLE FILE  # append sales "more.csv"
.now back|ask ..  # .now back by_region 0 to sales
.part FROM BELOW show|back|ask|.now|.selected ..  # .part 0 100 .now back by_region 0 to sales
.selected TABLE [| STEP ..]  # .selected sales | group region {n = count}
.brief brush|clear|fd ..  # .brief brush by_region all on sales
.schema
.help"""


@dataclass(frozen=True)
class Asked:
    """A line of a conversation: a script's `line`, with what stands before it; or `schema`, `help`, or `selected` with a table and steps in
    the line. `part` is (begin, end)."""

    line: Line | None = None
    word: str = ""
    part: tuple | None = None
    now: bool = False
    brief: bool = False


def read(text):
    """The Asked of a line's bytes, None where it has no question; raises Fault."""
    if not text.lstrip(BLANKS).startswith(b"."):
        line = language.read_line(text)
        return line and Asked(line)
    first = Fault("unexpected token", len(text) - len(text.lstrip(BLANKS)))
    word, place = word_at(text, 0)
    part = None
    if word in (b".schema", b".help"):
        if language.tokens(text[place:])[0].kind != "end":
            raise first
        return Asked(word=word[1:].decode())
    if word == b".part":
        begin, place = word_at(text, place)
        end, place = word_at(text, place)
        part = bound(begin), bound(end)
        if None in part:
            raise first
        word, behind = word_at(text, place)
        place = behind if word in (b".selected", b".now") else place
    if word == b".selected":
        return Asked(selected(b" " * place + text[place:]), "selected", part)
    if word not in (b".brief", b".now") and part is None:
        raise first
    line = language.read_line(b" " * place + text[place:])
    if line is None:
        raise Fault("unexpected token", len(text))
    brief, now = word == b".brief", word == b".now"
    fits = line.kind in BRIEF if brief else line.kind in PARTED and not (line.kind == "back" and (line.group or now and line.column)) and (
        line.kind != "show" or not now)
    if not fits:
        raise first
    return Asked(line, "", part, now, brief)


def word_at(text, place):
    """The word at or behind a place, up to a blank, and the place behind it."""
    found = re.compile(rb"[ \t\n\r]*([^ \t\n\r]*)").match(text, place)
    return found[1], found.end()


def bound(word):
    """The number of a word, None where it is none that a part can have."""
    number = int(word) if re.fullmatch(rb"-?[0-9]+", word) and len(word.lstrip(b"-").lstrip(b"0")) < 11 else -1
    return number if 0 <= number <= language.MOST_MARK else None


def selected(text):
    """The table and steps of a `.selected`, as a Line."""
    reader = Reader(text, limits=False)
    table = reader.name().name
    reader.limits = True
    steps = []
    while reader.took("|"):
        steps.append(reader.step(0, None, ASK_STEPS))
    reader.expect("end")
    return Line("selected", table=table, steps=tuple(steps))
