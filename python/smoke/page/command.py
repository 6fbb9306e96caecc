"""The command `page`: finds the program, the book and a free port, and serves the page."""
import contextlib
import os
import pathlib
import signal
import subprocess
import sys
import tempfile
import threading

from smoke import books, prepare, program, wishes
from smoke.faults import FileError, SmokeError, harmless
from smoke.page.answers import Answers
from smoke.page.engine import Engine
from smoke.page.server import Server
from smoke.session import connect

TIMEOUT = 60  # seconds that a database may take for a statement
READY = 8 << 20  # bytes of a file up to which it is made ready where it can be read as it is, too
BIKES = program.TOP / "examples/bikes/book.smk"


def add_words(commands):
    """Adds the command to a parser of arguments."""
    command = commands.add_parser("page", help="show charts over a CSV file or a book, in a browser on this machine")
    command.add_argument("file", nargs="?", metavar="FILE", help="a CSV file, or a book (.smk); without one, a week of bike rides")
    command.add_argument("--port", type=int, default=8000, help="0 is any free port")
    command.add_argument("--host", action="append", default=[], metavar="NAME", help="another name of this machine, as behind a tunnel")
    command.add_argument("--keep", nargs="?", const="-", metavar="BOOK.smk", help="print the book that is found for a CSV file, or write it")
    command.add_argument("--folder", help="from which the tables' files are looked up; without it, the book's")
    command.add_argument("--on", metavar="postgresql://..", help="ask a database in which the book is loaded; its answers aren't proved")
    command.add_argument("--schema", default="smoke", metavar="NAME", help="the schema of that database, smoke without it")
    wishes.add_words(command.add_argument_group("how a CSV file is made ready"))
    command.set_defaults(work=page)


def page(words):
    """Serves the page until it is interrupted."""
    try:
        server = Server(words.port, words.host)
    except (OSError, OverflowError) as fault:
        raise FileError(f"port {words.port}", f"{getattr(fault, 'strerror', None) or fault}; --port 0 takes a free one") from None
    print(server.url, flush=True)
    signal.signal(signal.SIGTERM, lambda *_: sys.exit())
    threading.Thread(target=server.serve_forever, daemon=True).start()
    engine, made = None, tempfile.TemporaryDirectory(prefix="smoke-")
    try:
        file = pathlib.Path(words.file or BIKES).absolute()
        server.loading = f"reading {file.name}"
        book, folder = book_of(words, made.name)
        server.loading = "building the program"
        path = None if words.on else built()
        server.loading = f"reading {file.name}"
        title = file.parent.name if file.name == "book.smk" else file.name
        if words.on:
            engine = Engine(lambda: connect(words.on, folder, read_only=True, timeout=TIMEOUT, book=book, schema=words.schema))
            title += ", answered by a database, not proved"
        else:
            engine = Engine(lambda: connect(book, folder, workers=min(4, os.cpu_count() or 1), read_only=True, program=path))
        server.answers = Answers(engine, title, gaps=bool(words.file) and not words.file.endswith(".smk"))
        threading.Event().wait()
    except KeyboardInterrupt:
        return 0
    finally:
        server.shutdown()
        server.server_close()
        if engine is not None:
            engine.close()
        made.cleanup()
    return 0


def built():
    """The path of the program, which is built where it isn't there."""
    try:
        return program.find("smoke_live")
    except program.NoProgram as fault:
        build = program.TOP / "build"
        if os.environ.get("SMOKE_BIN") or not build.is_file():
            raise FileError("smoke_live", str(fault)) from None
        if subprocess.run([build, "smoke_live"], stdout=sys.stderr).returncode:
            raise SmokeError("the program couldn't be built") from None
        return program.find("smoke_live")


def book_of(words, made):
    """The book to show, a path or a books.Book, and the folder of its tables' files. `made` is a folder for files that are made."""
    if words.file is None or words.file.endswith(".smk"):
        if wishes.are_there(words):
            raise wishes.Wrong("a book is shown as it is: these words are for a CSV file")
        return words.file or BIKES, words.file and words.folder
    kept = words.keep if words.keep not in (None, "-") else None
    source = pathlib.Path(words.file).absolute()
    target = pathlib.Path(prepare.beside(source) if kept else os.path.join(made, source.name))
    found, path = found_for(source, target, lambda path: os.path.relpath(path, pathlib.Path(kept).absolute().parent) if kept else path.name, words)
    if kept:
        found.save(kept)
        print(f"{kept} is the book", flush=True)
        return kept, None
    if words.keep:
        print(found, end="", flush=True)
    return found, str(path.parent)


def found_for(source, target, shown, words):
    """A Book for a CSV file, and the file that it is over: the source, or the target that is made of it, where something is asked for, or it is
    small or can't be read as it is. `shown` gives a file's name in the book."""
    try:
        is_large = source.stat().st_size > READY
    except OSError as fault:
        raise FileError(str(source), fault.strerror) from None
    asked = wishes.are_there(words)
    if is_large and not asked:
        with contextlib.suppress(SmokeError):
            return books.found_in(str(source), shown=shown(source)), source
    try:
        path = ready(source, target, asked, wishes.of(words))
    except SmokeError:
        if not asked:
            with contextlib.suppress(SmokeError):
                return books.found_in(str(source), shown=shown(source)), source
        raise
    return books.found_in(str(path), shown=shown(path)), path


def ready(source, target, asked, wanted):
    """The file to read: the source, or the target, which is made of it where that is asked or changes something. What is done is printed."""
    done = prepare.prepare(str(source), str(target), **wanted)
    if not done.did and not asked:
        for path in (target, target.with_name(target.name + ".json")):
            path.unlink()
        return source
    print(f"{source.name} was made ready{f' as {target}' if target.parent == source.parent else ''}:", *(f"- {harmless(said)}" for said in done.did),
          sep="\n", flush=True)
    return target
