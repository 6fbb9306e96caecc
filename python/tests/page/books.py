"""Books and tables for tests of the page."""
import csv
import io

HOSTILE = ["", " ", "a,b", 'say "no"', "first\n\nthird", "refused no row 1 of 1", "<img src=x onerror=alert(1)>", "</script><script>alert(1)</script>",
           "&lt;b&gt;", "\u202eabc", "a\rb", "\u0000", "é\udcff", "' OR 1=1", "x" * 5000, "日本語", "👩‍👩‍👧", "__proto__", "constructor", "a · b", "…", "%s", "{{7*7}}"]

TEXTS_BOOK = """table notes from "notes.csv" (id int, note text, kind text, amount int)
view by_note = scan notes | group note {n = count, total = sum amount}
view by_kind = scan notes | group kind {n = count}
view by_both = scan notes | group kind, note {n = count, `most <b>` = max amount}
link by_note on notes to by_kind, by_both
link by_kind on notes to by_note, by_both
link by_both on notes to by_note, by_kind
fd one_kind on notes note to kind
"""


def table(names, rows):
    """The bytes of a CSV file."""
    out = io.StringIO(newline="")
    csv.writer(out, quoting=csv.QUOTE_ALL, lineterminator="\n").writerows([names, *rows])
    return out.getvalue().encode("utf-8", "surrogateescape")


def hostile_notes():
    """Each hostile text in two rows, and under two kinds where its place is even: then it breaks the rule."""
    rows = []
    for place, text in enumerate(HOSTILE):
        rows += [[place, text, "odd", -place], [100 + place, text, "odd" if place % 2 else HOSTILE[6], 2 * place]]
    return table(["id", "note", "kind", "amount"], rows)


MANY_BOOK = """table rows from "rows.csv" (id int, place text, part text, year int, amount int)
view by_place = scan rows | group place {n = count, total = sum amount}
view by_place_and_part = scan rows | group place, part {n = count}
view by_part = scan rows | group part {n = count, total = sum amount, least = min amount}
view by_year = scan rows | group year {n = count}
view by_amount = scan rows | project bin(amount, 1000000000000000000) as amounts, amount | group amounts {n = count, total = sum amount}
link by_place on rows to by_place_and_part, by_part, by_year, by_amount
link by_place_and_part on rows to by_place, by_part, by_year, by_amount
link by_part on rows to by_place, by_place_and_part, by_year, by_amount
link by_year on rows to by_place, by_place_and_part, by_part, by_amount
link by_amount on rows to by_place, by_place_and_part, by_part, by_year
"""


def many_rows(places=2600):
    """Two rows for each place, of different sizes; ints up to the end of 64 bits, whose sums are longer; years in no order."""
    rows = []
    for number in range(2 * places):
        place = number * 7 % places
        amount = ((number + 1) * 6364136223846793005 % 9223372036854775807) * (-1 if number % 5 == 0 else 1)
        rows.append([number, f"place {place:04} of a name that is longer than its bar can show", "abcdef"[number % 6], 1990 + number * 11 % 30, amount])
    rows += [[2 * places + number, "place 0042 of a name that is longer than its bar can show", "a", 2000, 9223372036854775807] for number in range(40)]
    return table(["id", "place", "part", "year", "amount"], rows)


EMPTY_BOOK = """table rows from "rows.csv" (id int, part text)
view by_part = scan rows | group part {n = count}
view by_id = scan rows | group id {n = count}
link by_part on rows to by_id
link by_id on rows to by_part
fd parts on rows id to part
"""
