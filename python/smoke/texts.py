"""The texts of the programs: read by the counts in them, and written from what was read."""
import csv
import io
import re
from dataclasses import dataclass, field

from smoke import records as recording

BETWEEN = {"back": " to ", "group": " to ", "ask": " to ", "fwd": " to ", "brush": " on ", "cleared": " on "}
COUNTED = {"back", "group", "ask", "fwd", "brush", "view", "linked", "fd", "mark", "append", "selected"}
WITH_COLUMNS = {"view", "back", "group", "ask", "fd", "selected"}
WITH_RECORDS = {"view", "back", "group", "ask", "selected", "mark"}
NUMBERED = {"brush": "rids", "linked": "marks", "fwd": "marks"}
# What a line of a conversation's own has in front of a line of a script; where nothing of it is there, it matches nothing.
OWN = re.compile(r"""[ \t\r]*(?: (?P<help>\.help\b) | (?P<brief>\.brief\b) |
                     (?:\.part\b [ \t\r]*(?P<begin>-?\d+) [ \t\r]*(?P<end>-?\d+) [ \t\r]*)?
                     (?:\.now\b | \.selected\b [ \t\r]*(?P<selected>\w+))? )""", re.ASCII | re.VERBOSE)


class NoText(Exception):
    """What was said is no text of the programs."""


@dataclass
class Part:
    """A part of a text: a view, or a reply without the views behind it.

    `kind` is the first word, and each mark of a reply to `fd` is a part of the kind `mark`. A line that refuses is a part of the kind `refused`
    or `line`, and each line of a schema or a help one of the kind `told`; the line is its one name. `names` are the views and tables of the
    first line; `count` is the number at its end; `columns` and `records` are those of its rows, each a list of its place and then of str;
    `numbers` are marks or rids, None where it has none.
    """

    kind: str
    names: list
    count: int
    columns: list = field(default_factory=list)
    records: list = field(default_factory=list)
    numbers: list | None = None


def read(next_line, question=""):
    """The parts of the text that answers a question, up to its empty line. `next_line` gives the next line without its end. A part's count
    is that of the whole, also where the question asks for some rows of it by `.part`. Raises NoText."""
    own = OWN.match(question)
    rows = own["begin"] and (int(own["begin"]), int(own["end"]))
    brief, told = own["brief"], own["help"]
    parts = []
    records = csv.reader(iter(lambda: next_line() + "\n", None), strict=True)
    try:
        while head := next_line():
            if head.startswith(("refused ", "line ")):
                parts.append(Part(head.split(" ")[0], [head], 0))
            elif told or head.startswith("schema "):
                told = True
                parts.append(Part("told", [head], 0))
            else:
                parts.append(_part(head, parts, next_line, records, rows, brief))
    except (csv.Error, ValueError, IndexError) as fault:
        raise NoText(str(fault)) from None
    return parts


def _part(head, before, next_line, records, rows, brief):
    kind, *words = head.split(" ")
    if kind not in COUNTED and kind != "cleared":
        raise ValueError(f"{head[:60]!r}")
    count = int(words.pop()) if words and words[-1].isdigit() else 0
    part = Part(kind, [word for word in words if word not in ("to", "on")], count)
    if kind in WITH_COLUMNS and not (kind == "fd" and brief):
        part.columns = next(records)
    if kind in NUMBERED and not brief:
        part.numbers = [int(number) for number in next_line().split(" ")[1:]]
    if kind == "mark":
        part.numbers, part.names, part.columns = [int(words[0])], [], before[-1].columns
    if kind in WITH_RECORDS and not (kind == "mark" and brief):
        many = count if not rows else max(0, min(count, rows[1]) - rows[0])
        part.records = [next(records) for _ in range(many)]
    return part


def of_report(report):
    """The parts of a report's bytes."""
    lines = iter(report.decode("utf-8", "surrogateescape").split("\n"))
    return read(lambda: next(lines, ""))


def text_of(parts):
    """The text that the program says for the parts of an answer, as bytes, each line with its end."""
    out = io.StringIO(newline="")
    rows = recording.writer(out)
    for part in parts:
        if part.kind in ("refused", "line", "told"):
            out.write(part.names[0] + "\n")
            continue
        words = [part.kind, *([BETWEEN.get(part.kind, " ").join(part.names)] if part.names else [])]
        words += [str(part.numbers[0])] if part.kind == "mark" else []
        words += [str(part.count)] if part.kind in COUNTED else []
        out.write(" ".join(words) + "\n")
        if part.kind in WITH_COLUMNS and part.columns:
            rows.writerow(part.columns)
        if part.kind in NUMBERED and part.numbers is not None:
            out.write(" ".join([NUMBERED[part.kind], *map(str, part.numbers)]) + "\n")
        rows.writerows(part.records)
    return out.getvalue().encode("utf-8", "surrogateescape")
