"""Tests how the desk finds, makes and asks the library: any bytes, threads, what it costs, and every way in which there is none."""

import ctypes
import io
import os
import shutil
import stat
import sys
import tempfile
import time
from concurrent.futures import ThreadPoolExecutor
from contextlib import contextmanager, redirect_stderr
from pathlib import Path

sys.path.insert(0, str(Path(__file__).resolve().parent))

import seeds  # noqa: E402
from frontdesk.figures import engine  # noqa: E402
from tally import Tally  # noqa: E402

CALL = 10e-6  # seconds: the most that a call may cost beside the library
tally = Tally()
library = engine.load()
made = library.path.resolve()


def answers():
    """Shapes of what is told, of accepted files and of bytes that are none."""
    for name, data in seeds.examples():
        figures, rows = library.figures(data), library.rows(data)
        tally.that(len(figures) == 12 and figures[0] == 0 and figures[3] == len(rows), name + ": figures")
        tally.that(all(len(row) == 20 for row in rows), name + ": twenty numbers a row")
        tally.that(len(library.required(data)) == 4, name + ": four numbers of R")
        zones = data[28:30] if data.startswith(b"06") else data[18:20]
        tally.same(len(library.groups(data)), int(zones, 16) * (int(zones, 16) + 1) // 2, name + ": every group")
    good = seeds.examples()[0][1]
    for data, number in ((b"", 10), (b"\0\n", 2), (b"no case file\n", 2), (good[:-1], 2), (b"0" * 65_537, 1), (good + good, 10)):
        tally.same(library.figures(data)[0], number, "the refusal of %r.." % data[:9])
        tally.same((library.rows(data), library.required(data), library.groups(data)), ([], (), []), "nothing else is told of %r.." % data[:9])
    empty = b"0126ac064017700fa00205dc\n0f0000\n"
    tally.same((library.figures(empty)[:4], library.rows(empty), len(library.groups(empty))), ((0, 0, 2, 0), [], 3), "a file without rows")


def threads():
    """Calls of several threads at once are told what each alone is told."""
    files = [data for _, data in seeds.examples()]
    alone = [(library.figures(data), library.rows(data), library.groups(data)) for data in files]
    with ThreadPoolExecutor(8) as pool:
        together = list(pool.map(lambda data: (library.figures(data), library.rows(data), library.groups(data)), files * 20))
    tally.that(together == alone * 20, "eight threads")


def cost():
    """What a call costs beside the library, which refuses an empty file at once."""
    best = min(timed(2000) for _ in range(5))
    tally.that(best < CALL, "a call costs %.1f us of 10" % (best * 1e6))


def timed(calls):
    begun = time.thread_time()
    for _ in range(calls):
        library.figures(b"")
    return (time.thread_time() - begun) / calls


@contextmanager
def environment(**changed):
    """The environment with some of it changed, None for away."""
    before = dict(os.environ)
    os.environ.update({name: value for name, value in changed.items() if value is not None})
    for name in [name for name, value in changed.items() if value is None]:
        os.environ.pop(name, None)
    try:
        yield
    finally:
        os.environ.clear()
        os.environ.update(before)


def refusal(call, *parts):
    """There is no library, in words that have these parts."""
    try:
        call()
        tally.that(False, "no library: %s" % (parts,))
    except engine.NoLibrary as none:
        tally.that(all(part in str(none) for part in parts), "no library: %s" % (parts,), str(none))


def named():
    """The library that the environment names, and files that are none."""
    with environment(DAMINDEX_LIBRARY=str(made)):
        tally.same(engine.load(Path("/nowhere")).version, library.version, "the library that is named")
    with open("/proc/self/maps", encoding="utf-8") as maps:
        other = next(line.split()[-1] for line in maps if "libc.so" in line or "libc-" in line)
    for path, parts in (
        ("/nowhere/libdamindex.so", ("There is no file /nowhere/libdamindex.so",)),
        (str(seeds.ROOT / "README.md"), ("README.md", "is no library for this machine")),
        (other, (other, "has no function damindex_version")),
    ):
        with environment(DAMINDEX_LIBRARY=path):
            refusal(engine.load, *parts)


class Fake:
    """A library of some version that lacks a function."""

    def __init__(self, version, lacks=""):
        for name in ("version", "figures", "rows", "required", "groups"):
            if name != lacks:
                setattr(self, "damindex_" + name, type("Entry", (), {"__call__": lambda entry, *_: version})())


def versions():
    real = ctypes.CDLL
    try:
        for fake, parts in (
            (Fake(60_000), ("version 6.0.0", "needs version 7")), (Fake(80_102), ("version 8.1.2", "needs version 7")),
            (Fake(70_000, "groups"), ("has no function damindex_groups", "./library")), (Fake(70_000, "rows"), ("has no function damindex_rows",)),
        ):
            ctypes.CDLL = lambda path, fake=fake: fake
            refusal(lambda: engine.Engine(made), *parts)
        ctypes.CDLL = lambda path: Fake(70_203)
        tally.same(engine.Engine(made).version, "7.2.3", "a later library of the same major version")
    finally:
        ctypes.CDLL = real


LIKE_LIBRARY = """#!/bin/sh
cd "${0%%/*}" || exit 1
echo made >>log
if grep -q fails crates/one/src/lib.rt; then exit 1; fi
rm -rf target/library
mkdir -p target/library/lib
cp %s target/library/lib/libdamindex.so
"""


def tree(folder):
    """A tree with code, and a script ./library that copies the library that is there, or fails where the code says so."""
    for name in ("crates.txt", "include/damindex.h", "crates/one/src/lib.rt", "bin/rt"):
        (folder / name).parent.mkdir(parents=True, exist_ok=True)
        (folder / name).write_text("")
    script = folder / "library"
    script.write_text(LIKE_LIBRARY % made)
    for path in (script, folder / "bin/rt"):
        path.chmod(path.stat().st_mode | stat.S_IXUSR)
    return folder


def age(path, seconds):
    """Sets a file's time so many seconds from now."""
    when = time.time() + seconds
    os.utime(path, (when, when))


def making():
    """It is made where it is missing or older than the code, and not else; where it cannot be made, that is said."""
    folder = Path(tempfile.mkdtemp())
    try:
        here, said = tree(folder), []
        runs = lambda: (here / "log").read_text().count("made") if (here / "log").exists() else 0  # noqa: E731
        with environment(DAMINDEX_LIBRARY=None, PATH="%s:%s" % (here / "bin", os.environ["PATH"])):
            tally.same(engine.load(here, said.append).version, library.version, "a library that was missing")
            tally.that(runs() == 1 and "not there yet" in said[0], "it was made, and that was said")
            engine.load(here, said.append)
            tally.that(runs() == 1 and len(said) == 1, "a library that is there is not made again")
            for number, name in enumerate(("crates/one/src/lib.rt", "crates.txt", "include/damindex.h"), 2):
                age(here / name, 60)
                engine.load(here, said.append)
                tally.that(runs() == number and "older than its code" in said[-1], "%s is newer than the library" % name)
                age(here / name, -60)
            (here / "crates/one/src/lib.rt").write_text("fails")
            age(here / "crates/one/src/lib.rt", 60)
            with redirect_stderr(io.TextIOWrapper(open(os.devnull, "wb"))):
                refusal(lambda: engine.load(here, said.append), "./library could not make", "target/library.log")
            (here / "library").unlink()
            refusal(lambda: engine.load(here, said.append), "./library cannot be run")
        with environment(DAMINDEX_LIBRARY="", PATH="/nowhere"):
            refusal(lambda: engine.load(here, said.append), "older than its code", "`rt`", "./library", "DAMINDEX_LIBRARY=")
            shutil.rmtree(here / "target")
            refusal(lambda: engine.load(here, said.append), "not there yet", "`rt`")
    finally:
        shutil.rmtree(folder)


def main():
    answers()
    threads()
    cost()
    named()
    versions()
    making()
    return tally.close()


if __name__ == "__main__":
    sys.exit(main())
