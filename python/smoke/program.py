"""Where the programs are."""
import os
import pathlib
import shutil

TOP = pathlib.Path(__file__).resolve().parents[2]


class NoProgram(Exception):
    """The program isn't built."""

    def __init__(self, name):
        super().__init__(f"there is no {name}: build it by ./build at the top of the repository, or name its folder in SMOKE_BIN")
        self.name = name


def find(name):
    """The path of a program, `smoke` or `smoke_live`: in the folder that SMOKE_BIN names, else in bin/ of the repository, where ./build puts it,
    or where the shell finds it. Raises NoProgram."""
    folder = pathlib.Path(os.environ.get("SMOKE_BIN") or TOP / "bin")
    found = shutil.which(name, path=folder) or (None if os.environ.get("SMOKE_BIN") else shutil.which(name))
    if not found:
        raise NoProgram(name)
    return os.path.abspath(found)
