"""How values are written on the page: by where a column comes from, and by the notes that `prepare` wrote beside a table's file."""
import json
import os
from dataclasses import dataclass, replace

from smoke import language

NOTES = 1 << 20  # bytes of notes that are read
MOST_SCALE = 18


@dataclass(frozen=True)
class Shown:
    """How a column is written: `scale` is the number of decimal places in its ints, `unit` a text, `day` whether its ints are days such as
    20261031, and `width` that of its bins, or None; `gap` is the int that stands for an empty field, or None."""

    scale: int = 0
    unit: str = ""
    day: bool = False
    width: int | None = None
    gap: int | None = None

    def text(self, value):
        """The text of an int or a str."""
        if isinstance(value, str):
            return value
        if value == self.gap:
            return ""
        if self.width is None:
            return self._day(value) if self.day else scaled(value, self.scale)
        low = value * self.width
        if self.day and self.width in (100, 10000):
            return self._day(low, 7 if self.width == 100 else 4)
        high = low + self.width - 1
        return "\u2013".join(grouped(scaled(end, self.scale)) for end in dict.fromkeys((low, high)))

    def _day(self, value, length=10):
        digits = str(value)
        return f"{digits[:4]}-{digits[4:6]}-{digits[6:]}"[:length] if len(digits) == 8 and digits.isdigit() else digits


PLAIN = Shown()


def scaled(value, scale):
    """An int as a decimal text: 12345 with a scale of 2 is 123.45."""
    if not scale:
        return str(value)
    digits = str(abs(value)).zfill(scale + 1)
    return ("-" if value < 0 else "") + digits[:-scale] + "." + digits[-scale:]


def grouped(text):
    """A decimal text with its digits in groups of three, from five digits on."""
    whole, point, places = text.partition(".")
    return (f"{int(whole):,}" if len(whole.lstrip("-")) > 4 else whole) + point + places


def of_tables(catalog, folder, gaps=False):
    """How each column of each table is written: a dict of dicts of Shown. `gaps` says that a default of ints stands for empty fields alone."""
    made = {}
    for table in catalog.tables.values():
        notes = notes_beside(os.path.join(folder, table.file))
        made[table.name] = {column.name: replace(shown_by(notes.get(column.name)), gap=column.default if gaps else None)
                            if column.kind == "int" else PLAIN for column in table.columns}
    return made


def notes_beside(path):
    """What the JSON beside a table's file says of its columns; nothing where there is none that can be read."""
    try:
        with open(path + ".json", "rb") as file:
            columns = json.loads(file.read(NOTES))["columns"]
        return columns if isinstance(columns, dict) else {}
    except (OSError, ValueError, KeyError, TypeError, RecursionError):
        return {}


def shown_by(note):
    if not isinstance(note, dict):
        return PLAIN
    scale, unit = note.get("scale", 0), note.get("unit", "")
    return Shown(scale if type(scale) is int and 0 <= scale <= MOST_SCALE else 0, unit if isinstance(unit, str) else "", note.get("date") == "day")


def of_plan(plan, tables):
    """How the columns of a plan are written: a dict of Shown. `tables` is that of `of_tables`."""
    if isinstance(plan, language.Scan):
        return tables[plan.table.name]
    before = of_plan(plan.input, tables)
    if plan.kind in ("join", "theta", "product"):
        return {**before, **of_plan(plan.source, tables)}
    return of_step(plan, before)


def of_steps(columns, steps):
    """The same for the steps of an `ask` over columns."""
    for step in steps:
        columns = of_step(step, columns)
    return columns


def of_step(step, before):
    if step.kind in ("project", "distinct"):
        return {item.name.name: replace(before[item.column.name], width=item.width, gap=None) if item.width else before[item.column.name]
                for item in step.items}
    if step.kind == "group":
        return {key.name: before[key.name] for key in step.keys} | {
            aggregate.name.name: of_aggregate(aggregate, before) for aggregate in step.aggregates}
    return before


def of_aggregate(aggregate, before):
    if aggregate.what == "count":
        return PLAIN
    column = replace(before[aggregate.column.name], gap=None)
    if aggregate.what == "sum":
        return PLAIN if column.width or column.day else column
    return column


def keys_of(plan):
    """How many columns, from the first, name a row of a view by its plan alone: those of its group, or all of a distinct; None where the plan
    doesn't say."""
    while isinstance(plan, language.Step) and plan.kind == "where":
        plan = plan.input
    if isinstance(plan, language.Step):
        if plan.kind == "group":
            return len(plan.keys)
        if plan.kind == "distinct":
            return len(plan.items)
    return None
