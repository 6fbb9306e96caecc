"""Refused lines, told to people."""
import re

from smoke import hints, language, texts
from smoke.faults import Refused

HINTS = [
    ("refused undeclared back", "Declare it in the book: lineage back VIEW to TABLE"),
    ("refused undeclared fwd", "Declare it in the book: lineage fwd TABLE to VIEW"),
    ("refused no split", "Declare it in the book: lineage back VIEW to TABLE by COLUMN. Or use ask."),
    ("refused no grouping", "Declare it in the book: lineage back VIEW to TABLE group .. Or use ask."),
    ("refused wrong kind", "An int column takes an int, and a text column a str."),
    ("refused more than one mark", "A grouping is for one mark: ask once for each."),
    ("refused not linked", "Declare it in the book: link VIEW on TABLE to VIEW, VIEW"),
    ("refused no row", "Rows are numbered from 0."),
    ("refused no dependency", "Declare it in the book: fd NAME on TABLE key, key to column"),
    ("refused read only", "The session was started with read_only."),
    ("refused too many rows", "Select fewer rows, or put a where or a group into the view."),
]


def refused(said, line, catalog):
    """The Refused of what the program said to a line, with what to do about it. Without a line, one that would be said."""
    hint, at = "", None
    known = re.match(r"refused unknown (view|table) (.*)", said)
    if known:
        hint = hints.near(language.Fault("", 0, known[2], catalog.views if known[1] == "view" else catalog.tables))
    if line is not None:
        place = re.search(r" at byte (\d+)$", said)
        at = int(place[1]) if place else None
        if said.startswith(("line ", "refused steps: ")):
            hint = hint_of_line(line, catalog)
    return Refused(said, line, hint or next((hint for front, hint in HINTS if said.startswith(front)), ""), at)


def hint_of_line(line, catalog):
    """What to write in place of a line, or of what stands behind the words of a conversation's own."""
    own = texts.OWN.match(line)
    front = f"ask back v all to {own['selected']}" if own["selected"] else ""
    text = language.bytes_of(front + line[own.end():])
    if text.lstrip().startswith(b"."):
        return ""
    try:
        line = language.read_line(text)
        if line is not None and line.kind == "ask" and line.table in catalog.tables:
            language.check_steps(catalog.tables[line.table].columns, line.steps)
    except language.Fault as fault:
        return hints.hint_of(text, fault, catalog)
    return ""
