"""The proved library by ctypes: found, made where it is missing or older than the code, and asked for its figures."""

import ctypes
import os
import shutil
import subprocess
import sys
import threading
from pathlib import Path

TREE = Path(__file__).resolve().parent.parent.parent
LIBRARY = "target/library/lib/libdamindex.so"  # below the tree, where ./library makes it
NAMED_BY = "DAMINDEX_LIBRARY"
MAJOR = 7  # the version that the desk is written for

# as include/damindex.h has them
FIGURES, ROW_NUMBERS, REQUIRED_NUMBERS = 12, 20, 4
MOST_ROWS, MOST_GROUP_NUMBERS = 500, 420
MEETS, FAILS, UNSETTLED = 1, 2, 3


class NoLibrary(Exception):
    """There is no library to ask; its text says why, and what to do."""


class Engine:
    """The library of a path. Each thread has buffers of its own, so that calls may run at the same time."""

    def __init__(self, path):
        self.path = Path(path)
        library = loaded(self.path)
        self.number = library.damindex_version()
        self.version = "%d.%d.%d" % (self.number // 10000, self.number // 100 % 100, self.number % 100)
        if self.number // 10000 != MAJOR:
            raise NoLibrary("%s is version %s of the library, and the desk needs version %d. ./library makes it." % (path, self.version, MAJOR))
        numbers, size = ctypes.c_void_p, ctypes.c_size_t
        self._figures = function(library, path, "damindex_figures", [ctypes.c_char_p, size, numbers, size, numbers, size])
        self._rows, self._required, self._groups = (
            function(library, path, name, [ctypes.c_char_p, size, numbers, size]) for name in ("damindex_rows", "damindex_required", "damindex_groups")
        )
        self._own = threading.local()

    def figures(self, data):
        """The twelve figures of any bytes: refusal number and line, verdict, rows, then the ends of A, As, Ap and Al."""
        own = self._own
        try:
            sheet, told = own.sheet, own.told
        except AttributeError:
            sheet, told = own.sheet, own.told = (ctypes.c_uint64 * (2 * MOST_ROWS))(), (ctypes.c_uint64 * FIGURES)()
        self._figures(data, len(data), sheet, 2 * MOST_ROWS, told, FIGURES)
        return tuple(told)

    def rows(self, data):
        """Twenty numbers a row: share ends, then at each draught v, bottom, top, marks, and the ends of what the row adds. None where refused."""
        told = self._asked(self._rows, data, ROW_NUMBERS * MOST_ROWS)
        return [tuple(told[at:at + ROW_NUMBERS]) for at in range(0, len(told), ROW_NUMBERS)]

    def required(self, data):
        """R's numerator and denominator, then those of a partial index's mark; none where refused."""
        return tuple(self._asked(self._required, data, REQUIRED_NUMBERS))

    def groups(self, data):
        """The share ends of each zone group down to B/2, by first zone and then by number of zones; none where refused."""
        told = self._asked(self._groups, data, MOST_GROUP_NUMBERS)
        return list(zip(told[::2], told[1::2]))

    @staticmethod
    def _asked(entry, data, most):
        room = (ctypes.c_uint64 * most)()
        return room[:entry(data, len(data), room, most)]


def loaded(path):
    """The shared object of a path, with its version's function declared."""
    try:
        library = ctypes.CDLL(str(path.resolve()))
    except OSError as fault:
        if not path.exists():
            raise NoLibrary("There is no file %s." % path) from None
        raise NoLibrary("%s is no library for this machine (%s)." % (path, fault)) from None
    function(library, path, "damindex_version", [], ctypes.c_uint32)
    return library


def function(library, path, name, takes, gives=ctypes.c_size_t):
    try:
        entry = getattr(library, name)
    except AttributeError:
        words = "%s has no function %s: it is not the library damindex, or one from before version %d. ./library makes it."
        raise NoLibrary(words % (path, name, MAJOR)) from None
    entry.argtypes, entry.restype = takes, gives
    return entry


def is_made(tree):
    """Whether the library is there and no code is newer; definitions and proofs change nothing in it."""
    try:
        made = os.stat(tree / LIBRARY).st_mtime_ns
        newest = max(os.stat(file).st_mtime_ns for file in (tree / "crates.txt", tree / "include/damindex.h", *tree.glob("crates/*/src/*.rt")))
    except OSError:
        return False
    return newest <= made


def make(tree, tell):
    """Has ./library make it, which proves what it stands on; all that is said goes to standard error."""
    library = tree / LIBRARY
    why = "older than its code" if library.exists() else "not there yet"
    if shutil.which("rt") is None:
        raise NoLibrary(
            "The proved library, %s, is %s, and there is no `rt` on the path to make it. Put the Rattle kit's `rt` on the path and run ./library, "
            "or name a library that is made: %s=/a/folder/libdamindex.so" % (LIBRARY, why, NAMED_BY)
        )
    tell("desk: the proved library is %s; ./library makes it, which takes some minutes the first time" % why)
    sys.stderr.flush()
    try:
        status = subprocess.run([str(tree / "library")], stdin=subprocess.DEVNULL, stdout=sys.stderr.fileno(), check=False).returncode
    except OSError as fault:
        raise NoLibrary("./library cannot be run: %s." % fault.strerror) from None
    if status != 0 or not library.exists():
        raise NoLibrary("./library could not make the proved library; what it said stands above and in target/library.log.")


def load(tree=TREE, tell=lambda text: print(text, file=sys.stderr)):
    """The engine of the library that the environment names, else of the tree's own."""
    named = os.environ.get(NAMED_BY)
    if named:
        return Engine(named)
    if not is_made(tree):
        make(tree, tell)
    return Engine(tree / LIBRARY)
