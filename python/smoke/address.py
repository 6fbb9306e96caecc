"""Addresses of databases, postgresql://.., and connections by them. A password in one is never told to anybody."""
import re

from smoke.faults import SmokeError


class DatabaseError(SmokeError):
    """What a database says, or why there is none."""


WRONG = ("that is no address of a database: write postgresql://USER@HOST:PORT/NAME, with %2F for a / in a name or password, %40 for an @, %3A for a :"
         " and %25 for a %")


def is_address(place):
    return isinstance(place, str) and place.startswith(("postgresql://", "postgres://"))


def without_password(text):
    """A text in which the user and the password of each address are dots."""
    return re.sub(r"(postgres(?:ql)?:/*).*@", r"\1...@", re.sub(r"(password=)[^\s&'\"]*", r"\1...", text))


def driver():
    """The module psycopg2. Raises DatabaseError."""
    try:
        import psycopg2
        import psycopg2.errors
        import psycopg2.extensions
        return psycopg2
    except ImportError:
        raise DatabaseError("there is no psycopg2: install it, in Debian as python3-psycopg2, which is for /usr/bin/python3") from None


def connect(address, **more):
    """A connection of psycopg2. Raises DatabaseError, in whose text is nothing of a password, nor of an address that is none."""
    psycopg2 = driver()
    try:
        options = psycopg2.extensions.parse_dsn(address)
    except (psycopg2.Error, ValueError):
        raise DatabaseError(WRONG) from None
    if not is_address(address) or not re.fullmatch("[0-9,]*", options.get("port", "")) or "@" in options.get("dbname", "") + options.get("host", ""):
        raise DatabaseError(WRONG)  # a password with a / or an @ in it
    try:
        return psycopg2.connect(address, client_encoding="UTF8", **more)
    except psycopg2.Error as fault:
        raise told(fault, options.get("password")) from None


def told(fault, password=None):
    """The DatabaseError of a fault of psycopg2."""
    text = str(fault).strip()
    return DatabaseError(without_password(text.replace(password, "...") if password else text))
