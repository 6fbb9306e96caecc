"""What is wrong with a book and with the files of its tables, all that can be told in one go."""
import os

from smoke import language, tables
from smoke.faults import BookError, FileError, LimitError


def read(path):
    """The bytes of a book. Raises FileError and LimitError."""
    try:
        if os.path.getsize(path) > language.FILE_BYTES:
            raise LimitError(f"file {path}", os.path.getsize(path), language.FILE_BYTES, "Split the book.", "bytes")
        with open(path, "rb") as file:
            return file.read(language.FILE_BYTES + 1)
    except (OSError, ValueError) as fault:
        raise FileError(path, getattr(fault, "strerror", None) or str(fault)) from None


def faults_of_text(name, text):
    """The faults of a book's bytes, a list of BookError; and its Catalog as far as it can be read."""
    catalog, faults = language.look_through(text)
    return [BookError(name, text, fault, catalog) for fault in faults], catalog


def faults_of(path, folder=None, most=10):
    """The faults of a book and of its tables' files, a list of SmokeErrors. The first is the one that the program finds.

    `folder` is where the program would run, from which it looks up the tables' files; without one it is the book's. Of each table at most
    so many faults are told.
    """
    try:
        text = read(path)
    except (FileError, LimitError) as fault:
        return [fault]
    found, catalog = faults_of_text(path, text)
    folder = os.path.dirname(path) if folder is None else folder
    for table in catalog.tables.values():
        if table.columns is not None:
            found += tables.faults_of(table, folder, most)
    return found
