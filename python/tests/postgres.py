"""A PostgreSQL server for tests: the one that SMOKE_POSTGRES names by its address, or a throw-away one in a folder of its own. That one listens
on a socket in its folder alone, isn't root's, and ends with the process that started it, however that ends.

    python3 -m tests.postgres      says what isn't there, with status 1
"""
import glob
import os
import pwd
import shutil
import subprocess
import sys
import tempfile
import time
import unittest

# A shell that starts a server by its words, and ends it, and drops the folder, when its standard input is closed.
WATCH = 'trap "" HUP INT TERM; folder=$1; shift; "$@" </dev/null & read -r _; kill -QUIT $!; wait $!; rm -rf "$folder"'
STARTED = []  # the address of the server
WATCHES = []  # the processes of shells, whose standard input ends with this process


def missing():
    """What of it isn't there; empty where all is."""
    try:
        import psycopg2  # noqa: F401
    except ImportError:
        return "psycopg2 is not there"
    return "" if os.environ.get("SMOKE_POSTGRES") or programs() else "PostgreSQL is not there"


def programs():
    """The folder of the server's programs, None where there is none."""
    found = sorted(glob.glob("/usr/lib/postgresql/*/bin/initdb")) or [shutil.which("initdb")]
    return found[-1] and os.path.dirname(found[-1])


def address():
    """The address of a server. A test is skipped where there is none, or no psycopg2."""
    if missing():
        raise unittest.SkipTest(missing())
    if not STARTED and not os.environ.get("SMOKE_POSTGRES"):
        STARTED.append(start())
    return os.environ.get("SMOKE_POSTGRES") or STARTED[0]


def owner():
    """Who starts the server, with the words of subprocess for that: root can't."""
    if os.getuid():
        return pwd.getpwuid(os.getuid()), {}
    found = pwd.getpwnam("postgres")
    return found, {"user": found.pw_uid, "group": found.pw_gid, "extra_groups": []}


def start():
    """Starts a server, and gives its address."""
    who, words = owner()
    folder = tempfile.mkdtemp(prefix="smoke-pg-")
    os.chown(folder, who.pw_uid, who.pw_gid)
    data = os.path.join(folder, "data")
    subprocess.run([f"{programs()}/initdb", "-D", data, "-A", "trust", "-E", "UTF8", "--locale", "C", "--no-sync"], check=True, cwd="/",
                   stdout=subprocess.DEVNULL, stderr=subprocess.DEVNULL, timeout=300, **words)
    settings = {"listen_addresses": "", "unix_socket_directories": folder, "fsync": "off", "full_page_writes": "off", "synchronous_commit": "off"}
    server = [f"{programs()}/postgres", "-D", data, *(f"--{name}={value}" for name, value in settings.items())]
    with open(os.path.join(folder, "log"), "wb") as log:
        WATCHES.append(subprocess.Popen(["sh", "-c", WATCH, "sh", folder, *server], stdin=subprocess.PIPE, stdout=log, stderr=log, cwd="/",
                                        start_new_session=True, **words))
    made = f"postgresql:///postgres?host={folder}&user={who.pw_name}"
    wait(made)
    return made


def wait(address):
    """Waits till a server answers."""
    import psycopg2
    end = time.monotonic() + 300
    while True:
        try:
            return psycopg2.connect(address).close()
        except psycopg2.OperationalError:
            if time.monotonic() > end:
                raise
            time.sleep(0.1)


if __name__ == "__main__":
    print(missing(), end="")
    sys.exit(bool(missing()))
