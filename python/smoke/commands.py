"""The commands of `python3 -m smoke`. Each ends with a status: 0, 1 where something is wrong with what it was given, 2 for wrong words."""
import argparse
import os
import sys

from smoke import wishes
from smoke.address import without_password
from smoke.faults import SmokeError, harmless
from smoke.language import Unwritable
from smoke.page.command import add_words as command_of_page


def check(words):
    from smoke import check as checking
    status = 0
    for name in words.book:
        found = checking.faults_of(name, words.folder)
        print("\n\n".join(harmless(without_password(str(fault))) for fault in found) if found else f"{name}: no faults")
        status = 1 if found else status
    return status


def book(words):
    from smoke import books
    from smoke.prepare import beside, prepare as make
    path = words.file
    if words.sep not in (None, ","):
        path = beside(words.file)
        make(words.file, path, separator=wishes.separator_of(words.sep))
        print(f"{path} is the file made ready, with commas", file=sys.stderr)
    found = books.found_in(path, wishes.listed(words.columns), words.name)
    sys.stdout.flush()
    sys.stdout.buffer.write(found.text)
    return 0


def prepare(words):
    from smoke import prepare as preparing
    done = preparing.prepare(words.source, words.target, **wishes.of(words))
    for said in done.did:
        print(harmless(f"- {said}"))
    print(f"{done.file}: {done.rows:,} records, and {done.file}.json")
    return 0


def ask(words):
    from smoke.session import connect
    with connect(words.book, words.folder, read_only=not words.append) as session:
        answers = [session.line(line) if words.csv else session.said(line) for line in words.line]
    if words.csv:
        frame = answers[-1]
        if not hasattr(frame, "to_csv"):
            raise wishes.Wrong("the answer to the last line has no rows: --csv is for show, back, ask and .selected")
        return saved(words.csv, lambda path: frame.to_csv(path, words.places))
    sys.stdout.flush()
    sys.stdout.buffer.write(b"\n".join(answers))
    return 1 if any(answer.startswith((b"refused ", b"line ")) for answer in answers) else 0


def sql(words):
    from smoke import sql as writing
    from smoke.check import read
    from smoke.load import book_of
    book = book_of(words.book, read(words.book), schema=words.schema, texts="bytea" if words.bytes else "text")
    print(writing.script(book), end="")
    return 0


def load(words):
    from smoke import load as loading
    counts = loading.load(words.book, words.address, words.folder, words.schema, words.replace, "bytea" if words.bytes else None, loading.Progress(),
                          there=words.there)
    for table, count in counts.items():
        print(f"{table}: {count:,} rows")
    return 0


def saved(path, write):
    """Writes a file, or standard output for -."""
    if path != "-":
        write(path)
    else:
        sys.stdout.flush()
        with open(os.dup(1), "w", encoding="utf-8", errors="surrogateescape", newline="") as file:
            write(file)
    return 0


class Parser(argparse.ArgumentParser):
    def error(self, message):
        super().error(without_password(message))


def parser():
    words = Parser(prog="python3 -m smoke", description="Around Smoke: a book from a CSV file, a file made ready, a book checked.")
    commands = words.add_subparsers(required=True, metavar="COMMAND")
    command = commands.add_parser("check", help="say what is wrong with a book and its tables' files, all in one go")
    command.add_argument("book", nargs="+", metavar="BOOK")
    command.add_argument("--folder", help="from which the files are looked up; without it, the book's")
    command.set_defaults(work=check)
    command = commands.add_parser("book", help="print a book for a CSV file, found by looking at it")
    command.add_argument("file", metavar="FILE.csv")
    command.add_argument("--sep", help="what stands between the fields; another than a comma makes a file with commas, beside it")
    command.add_argument("--columns", action="append", metavar="NAME,..", help="the columns of the table, at most 16")
    command.add_argument("--name", help="the table's name")
    command.set_defaults(work=book)
    command = commands.add_parser("prepare", help="make a file ready: commas, UTF-8, ints for decimals and dates")
    command.add_argument("source", metavar="IN.csv")
    command.add_argument("target", metavar="OUT.csv")
    wishes.add_words(command)
    command.set_defaults(work=prepare)
    command = commands.add_parser("ask", help="ask a book, and print the answers, or write the last as a CSV file")
    command.add_argument("book", metavar="BOOK")
    command.add_argument("line", nargs="+", metavar="LINE", help="such as 'back by_region 0 to sales'")
    command.add_argument("--csv", nargs="?", const="-", metavar="FILE", help="the last answer as a CSV file")
    command.add_argument("--places", action="store_true", help="with rids or marks as its first column")
    command.add_argument("--append", action="store_true", help="allow append lines")
    command.add_argument("--folder", help="from which files are looked up; without it, the book's")
    command.set_defaults(work=ask)
    command = commands.add_parser("sql", help="print a book as SQL for PostgreSQL")
    command.add_argument("book", metavar="BOOK")
    command.set_defaults(work=sql)
    loading = commands.add_parser("load", help="load a book's tables into a database, and make its views there")
    loading.add_argument("book", metavar="BOOK")
    loading.add_argument("address", metavar="postgresql://..")
    loading.add_argument("--folder", help="from which the files are looked up; without it, the book's")
    loading.add_argument("--replace", action="store_true", help="drop the schema first, if it is there, with all that is in it")
    loading.add_argument("--there", action="store_true", help="the schema and its tables are there, without rows: those of a cluster, say")
    loading.set_defaults(work=load)
    for command in (command, loading):
        command.add_argument("--schema", default="smoke", metavar="NAME", help="the schema of the database, smoke without it")
        command.add_argument("--bytes", action="store_true", help="texts as bytea, which holds any bytes, also such as are no UTF-8")
    command_of_page(commands)
    return words


def main(given):
    """Carries out a command by its words, and gives a status. A fault is one text on standard error."""
    for stream in (sys.stdout, sys.stderr):
        stream.reconfigure(encoding="utf-8", errors="backslashreplace")
    try:
        words = parser().parse_args(given)
        status = words.work(words)
        sys.stdout.flush()
        return status
    except SmokeError as fault:
        print(harmless(without_password(str(fault))), file=sys.stderr)
        return 2 if isinstance(fault, wishes.Wrong) else 1
    except (Unwritable, ValueError) as fault:
        print(harmless(without_password(str(fault))), file=sys.stderr)
    except BrokenPipeError:
        os.dup2(os.open(os.devnull, os.O_WRONLY), sys.stdout.fileno())
    except KeyboardInterrupt:
        return 130
    except OSError as fault:
        print(without_password(f"{fault.filename or 'smoke'}: {fault.strerror or fault}"), file=sys.stderr)
    except MemoryError:
        print("out of memory", file=sys.stderr)
    return 1


def run_page():
    """The command smoke-page of an installed package."""
    sys.exit(main(["page", *sys.argv[1:]]))
