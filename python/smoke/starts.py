"""Why a program didn't start, told to people."""
import re

from smoke import language, tables
from smoke.faults import BookError, FileError, LimitError, TableError


def fault_of(ended, book, text, folder):
    """The fault that an Ended at the start is: that of a book, a table, a file or a limit, or itself. `text` is the book's."""
    said = ended.said.removeprefix("smoke: ")
    if ended.status is None or said == ended.said:
        return ended
    try:
        catalog, faults = language.look_through(text)
    except RecursionError:
        return ended
    if faults and said == f"book: {faults[0]}":
        return BookError(book, text, faults[0], catalog)
    if said.startswith("cannot read "):
        return FileError(said.removeprefix("cannot read "), f"files are looked up from {folder}")
    for table in catalog.tables.values():
        if said.startswith(f"table {table.name}: ") or said in (f"limit: file {table.file}", f"limit: rows of table {table.name}"):
            found = tables.faults_of(table, folder, 1)
            if found and found[0].said == ended.said:
                return found[0]
            if said.startswith("table "):
                return TableError(table.name, table.file, said.removeprefix(f"table {table.name}: "))
    return limit_of(said.removeprefix("limit: "), catalog) if said.startswith("limit: ") else ended


def limit_of(said, catalog):
    """The LimitError of a program's text without its front."""
    rows = re.fullmatch(r"rows of view (\w+) at node (\d+)", said)
    pairs = re.fullmatch(r"lineage of view (\w+) at node (\d+) to table (\w+)", said)
    if rows:
        what, limit, hint = "rows", language.ROWS, "Put a where or a group before this node."
    elif pairs:
        what, limit, hint = f"lineage to {pairs[3]}", language.PAIRS, "Declare the query for a view whose nodes have fewer pairs of rows."
    else:
        return LimitError(said, None, language.FILE_BYTES if said.startswith("file ") else language.ROWS)
    view, node = (rows or pairs).groups()[:2]
    place = language.nodes_of(catalog.views[view].plan)[int(node)]
    step = f"the {place.kind}" if isinstance(place, language.Step) else f"the scan of {place.table.name}"
    fault = LimitError(f"{what} of view {view} at node {node}, {step}", None, limit, hint)
    fault.said = f"smoke: limit: {said}"
    return fault
