"""Links a program in C with the archive of a proved crate or with the library's shared object, and says how the program is run on this machine."""

import platform
import shutil
import subprocess
from pathlib import Path

TESTS = Path(__file__).resolve().parent
ROOT = TESTS.parent
STRICT = ["-std=c11", "-Wall", "-Wextra", "-pedantic", "-Werror", "-O2", "-pthread", "-I", TESTS]
FLAGS = [*STRICT, "-I", ROOT / "include"]
AT_HOME = platform.machine() == "x86_64"  # this machine runs what is linked, with no emulator
COMPILER = "cc" if AT_HOME else "x86_64-linux-gnu-gcc"


def archive(crate):
    """The crate's archive, made with `rt` where it is missing or older than a source."""
    folder = ROOT / "crates" / crate
    made = folder / "out" / ("lib%s.a" % crate)
    sources = [ROOT / "crates.txt", *(path for part in ("src", "specs", "proofs") for path in ROOT.glob("crates/*/%s/**/*" % part))]
    if not made.exists() or any(source.stat().st_mtime > made.stat().st_mtime for source in sources):
        subprocess.run(["rt", "lib"], cwd=folder, check=True, stdout=subprocess.DEVNULL)
    return made


def kit_tool(name):
    """A program of the kit's toolchain."""
    return str(Path(shutil.which("rt")).resolve().parent.parent / "toolchain" / "bin" / name)


def tool_for_objects(name):
    """A program, as `nm` or `readelf`, that reads archives and objects for x86-64."""
    return name if AT_HOME else "x86_64-linux-gnu-" + name


def compiled(source, place, words):
    """The program that a source in C becomes, with the compiler's words behind it."""
    program = ROOT / "target" / "linked" / place / source.stem
    program.parent.mkdir(parents=True, exist_ok=True)
    subprocess.run([COMPILER, "-o", program, source, *words], check=True)
    return str(program)


def linked(source, crate, *others):
    """The words that run a program in C, linked with a crate's archive and with other objects and archives; where this machine is no x86-64 one,
    the emulator's come first."""
    words = [*FLAGS, archive(crate), *others]
    if AT_HOME:
        return [compiled(source, crate, words)]
    return [kit_tool("qemu-x86_64"), compiled(source, crate, ["-static", *words])]


def linked_shared(source, place, folder, flags):
    """The words that run a program in C, linked by a package's flags, with the shared object of a folder; where this machine is no x86-64 one,
    those of the emulator and of the cross compiler's own loader come first."""
    program = compiled(source, place, [*STRICT, *flags, "-Wl,-rpath,%s" % folder])
    if AT_HOME:
        return [program]
    loader = subprocess.run([COMPILER, "-print-file-name=ld-linux-x86-64.so.2"], stdout=subprocess.PIPE, check=True, text=True).stdout.strip()
    return [kit_tool("qemu-x86_64"), loader, "--library-path", "%s:%s" % (Path(loader).parent, folder), program]
