"""The archives of cases in crates/cases/data, and the examples: books, scripts, and what the programs say of them."""
import pathlib
import re
from dataclasses import dataclass, field

TOP = pathlib.Path(__file__).resolve().parents[2]
DATA = TOP / "crates" / "cases" / "data"
EXAMPLES = TOP / "examples"

ESCAPE = re.compile(rb"\\(?:x([0-9a-f]{2})|(.))", re.S)
ESCAPED = {b"n": b"\n", b"r": b"\r", b"t": b"\t"}


@dataclass
class Case:
    """A case of an archive: its files by name, its shared ones among them; `err`, `out` and `status` as it wants them; and whether it is whole:
    long tables are left out, unless they are asked for, and a file or stream that fails is none."""

    name: str
    files: dict = field(default_factory=dict)
    words: list = field(default_factory=list)
    status: int | None = None
    err: bytes = b""
    out: bytes = b""
    whole: bool = True


def body_of(lines, form):
    body = b"" if lines is None else lines + b"\n"
    if "escaped" in form:
        body = ESCAPE.sub(lambda found: bytes([int(found[1], 16)]) if found[1] else ESCAPED.get(found[2], found[2]), body.replace(b"\n", b""))
    if "repeated" in form:
        body = b"".join(body.replace(b"@", b"%d" % number) for number in range(int(form[-1])))
    return body


def cases_of(path, long=False):
    """The cases of an archive, with `long` also their long tables. What stands before the first belongs to each, but for files that it has of its own."""
    shared, *pieces = path.read_bytes().removesuffix(b"\n").split(b"\n\n-- case ")
    shared = read_case("", shared, long)
    cases = []
    for piece in pieces:
        head, _, sections = piece.partition(b"\n")
        case = read_case(head.decode().removesuffix(" --"), b"\n" + sections, long)
        case.files = shared.files | case.files
        case.whole = case.whole and shared.whole
        cases.append(case)
    return cases


def read_case(name, text, long):
    case = Case(name)
    for section in text.split(b"\n-- ")[1:]:
        head, *rest = section.split(b"\n", 1)
        words = head.decode().removesuffix(" --").split()
        if words[0] in ("fails", "without", "cut") or not long and len(words) > 2 and words[-2] == "repeated" and int(words[-1]) > 10_000:
            case.whole = False
            continue
        body = body_of(rest[0] if rest else None, words)
        if words[0] in ("file", "in", "talk"):
            file = words[1] if words[0] == "file" else words[0]
            case.files[file] = case.files.get(file, b"") + body
        elif words[0] in ("out", "err"):
            setattr(case, words[0], getattr(case, words[0]) + body)
        elif words[0] == "status":
            case.status = int(words[1])
        elif words[0] == "words":
            case.words.append(words[1:])
    return case


def all_cases():
    return [case for path in sorted(DATA.glob("*.txt")) for case in cases_of(path)]


def texts():
    """The books and scripts of the archives and the examples: those of at most 20,000 bytes, each once, without the tables' files."""
    found = {}
    for case in all_cases():
        for name, text in case.files.items():
            if not name.endswith(".csv") and len(text) <= 20_000:
                found[text] = None
    for path in sorted(EXAMPLES.glob("*/*")):
        if path.suffix in (".smk", ".txt") and path.stat().st_size <= 20_000:
            found[path.read_bytes()] = None
    return list(found)
