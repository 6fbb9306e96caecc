"""Around Smoke: sessions, frames, books from data, files made ready, and faults for people. Nothing here is proved; what answers is smoke_live."""
from smoke.address import DatabaseError
from smoke.books import Book, found_in
from smoke.faults import BookError, FileError, LimitError, Refused, SmokeError, TableError
from smoke.frame import Frame
from smoke.language import Unwritable
from smoke.session import NoRow, Session, connect
from smoke.talk import Ended

__all__ = ["Book", "BookError", "DatabaseError", "Ended", "FileError", "Frame", "LimitError", "NoRow", "Refused", "Session", "SmokeError", "TableError", "Unwritable",
           "connect", "found_in"]
