"""Makes the library's package by its one command and looks at it: its files, its version wherever that stands, what archive and shared object
show and need, the flags of its pkg-config file, and how the command takes what it is told."""

import filecmp
import os
import re
import shlex
import shutil
import subprocess
import tempfile
from pathlib import Path

from linking import ROOT, linked_shared, tool_for_objects

PACKAGE = ROOT / "target" / "library"
HEADER = (ROOT / "include" / "damindex.h").read_text(encoding="utf-8")
CODE = (ROOT / "crates" / "host" / "src" / "lib.rt").read_text(encoding="utf-8")
DEFINED = (ROOT / "crates" / "host" / "specs" / "Version.antt").read_text(encoding="utf-8")
OF_C = {"memcpy", "memset"}  # what is called of the C library
STARTED = {"INIT", "FINI", "INIT_ARRAY", "FINI_ARRAY", "PREINIT_ARRAY"}  # what would run when the shared object is loaded or left


def command(*words, **settings):
    return subprocess.run([ROOT / "library", *words], stdout=subprocess.PIPE, stderr=subprocess.PIPE, text=True, **settings)


def make():
    """The package, made anew by the command that the guide has."""
    shutil.rmtree(PACKAGE, ignore_errors=True)
    run = command()
    if run.returncode:
        raise SystemExit("./library ended with status %d:\n%s" % (run.returncode, run.stderr))


def told_by(tool, *words):
    return subprocess.run([tool_for_objects(tool), *words], stdout=subprocess.PIPE, check=True, text=True, env={**os.environ, "LC_ALL": "C"}).stdout


# ---- the version, wherever it stands

def parts(pattern, text):
    return [int(re.search(pattern % name, text, re.M).group(1)) for name in ("MAJOR", "MINOR", "PATCH")]


VERSION = parts(r"^const %s: u32 = (\d+);$", CODE)
DOTTED = "%d.%d.%d" % tuple(VERSION)
NUMBER = 10000 * VERSION[0] + 100 * VERSION[1] + VERSION[2]
SONAME, OBJECT = "libdamindex.so.%d" % VERSION[0], "libdamindex.so." + DOTTED


def version_faults():
    """Definition, header and pkg-config file have the version of the code; the names of the shared object are held to it below."""
    places = {
        "the definition": [int(n) for n in re.search(r"^version = numbered (\d+) (\d+) (\d+)$", DEFINED, re.M).groups()],
        "the header": parts(r"^#define DAMINDEX_VERSION_%s (\d+)$", HEADER),
        "the header's string": [int(n) for n in re.search(r'^#define DAMINDEX_VERSION_STRING "(\d+)\.(\d+)\.(\d+)"$', HEADER, re.M).groups()],
        "the pkg-config file": [int(n) for n in pkg_config_file(PACKAGE)["Version"].split(".")],
    }
    for place, found in places.items():
        yield None if found == VERSION else "%s has version %s, the code %s" % (place, found, VERSION)


# ---- what is there

def is_link(file, target, symbolic):
    """Whether a file is a link to another beside it: one of the two kinds, and not of the other."""
    if file.is_symlink() or symbolic:
        return symbolic and file.is_symlink() and os.readlink(file) == target
    return os.path.samefile(file, file.with_name(target))


def file_faults(folder, symbolic=False):
    """Just the files of a package, the shared object under its two links: symbolic ones where it is installed."""
    links = {Path("lib/libdamindex.so"): SONAME, Path("lib", SONAME): OBJECT}
    files = {Path("include/damindex.h"), Path("lib/libdamindex.a"), Path("lib", OBJECT), Path("lib/pkgconfig/damindex.pc")}
    found = {path.relative_to(folder) for path in folder.rglob("*") if path.is_symlink() or not path.is_dir()}
    if found != files | links.keys():
        yield "too much or too little in the package: %s" % sorted(map(str, found ^ (files | links.keys())))
        return
    for link, target in links.items():
        yield None if is_link(folder / link, target, symbolic) else "%s is no link to %s" % (link, target)
    yield None if filecmp.cmp(folder / "include" / "damindex.h", ROOT / "include" / "damindex.h", False) else "the package has another header"


def declared():
    """The functions that the header declares."""
    return set(re.findall(r"^\w[\w ]*[ *](damindex_\w+)\(", HEADER, re.M))


def dynamic():
    return told_by("readelf", "-dW", PACKAGE / "lib" / OBJECT)


def segments():
    """Kind, first place, size and flags of each part of the shared object as it is loaded."""
    told = told_by("readelf", "-lW", PACKAGE / "lib" / OBJECT)
    for kind, at, size, flags in re.findall(r"^ +([A-Z_]+) +0x\w+ 0x(\w+) 0x\w+ 0x\w+ 0x(\w+) ([RWE ]{3})", told, re.M):
        yield kind, int(at, 16), int(size, 16), flags


def symbols(*words):
    """Letter and name of each symbol, the name without the C library's version."""
    return re.findall(r"^[0-9a-f ]*\b([A-Za-z]) ([^\s@]+)", told_by("nm", *words), re.M)


def archive_faults():
    """The archive shows the header's functions and no other, needs two of C, and has no room that a call could leave something in."""
    found = symbols(PACKAGE / "lib" / "libdamindex.a")
    shown = {name for kind, name in found if kind.isupper() and kind != "U"}
    kept = [name for kind, name in found if kind in "BbDdCSsGg"]
    needed = {name for kind, name in found if kind == "U"} - {name for kind, name in found if kind != "U"}
    marked = set(re.findall(r'^#\[unsafe\(no_mangle\)\]\npub extern "C" fn (\w+)', CODE, re.M))
    yield None if declared() == marked else "the header declares %s, and the code has %s" % (sorted(declared()), sorted(marked))
    yield None if shown == declared() else "the archive shows %s" % sorted(shown)
    yield None if needed == OF_C else "the archive calls %s" % sorted(needed)
    yield None if not kept else "the archive keeps %s" % kept


def shared_faults():
    """The same of the shared object. Its loader is asked for the C library and nothing else; nothing runs when it is loaded; nothing of it is
    written afterwards, and nothing is at once written and run."""
    found, told, parts_of_it = symbols("-D", PACKAGE / "lib" / OBJECT), dynamic(), list(segments())
    shown, needed = {name for kind, name in found if kind == "T"}, {name for kind, name in found if kind in "Uwv"}
    tags = set(re.findall(r"^ *0x\w+ +\((\w+)\)", told, re.M))
    asked, named = (re.findall(r"\(%s\).*\[(.*)\]" % tag, told) for tag in ("NEEDED", "SONAME"))
    sealed = [(at, at + size) for kind, at, size, _ in parts_of_it if kind == "GNU_RELRO"]
    written = [(at, at + size) for kind, at, size, flags in parts_of_it if kind == "LOAD" and "W" in flags]
    yield None if shown == declared() and len(found) == len(shown) + len(needed) else "the shared object shows %s" % sorted(found)
    yield None if needed == OF_C else "the shared object calls %s" % sorted(needed)
    yield None if named == [SONAME] else "the shared object is named %s, not %s" % (named, SONAME)
    yield None if asked == ["libc.so.6"] else "the shared object asks for %s" % asked
    yield None if "BIND_NOW" in told and "TEXTREL" not in told else "the shared object is not bound when it is loaded, or has its code changed"
    yield None if not tags & STARTED else "the shared object runs code of its own: %s" % sorted(tags & STARTED)
    yield None if sealed and all(low <= at and end <= high for at, end in written for low, high in sealed) else "some of the shared object stays open"
    yield None if parts_of_it and not any("W" in flags and "E" in flags for *_, flags in parts_of_it) else "written and run at once"


# ---- the flags

def pkg_config_file(folder):
    """What a pkg-config file says, read by hand: variables put in their places, and each field."""
    place = folder / "lib" / "pkgconfig"
    known, fields = {"pcfiledir": str(place)}, {}
    for line in (place / "damindex.pc").read_text(encoding="utf-8").splitlines():
        name, sign, value = re.fullmatch(r"(?:(\w+)(=|: ?)(.*))?(?:#.*)?", line).groups()
        if name:
            value = re.sub(r"\$\{(\w+)\}", lambda found: known[found.group(1)], value)
            (known if sign == "=" else fields)[name] = value
    return fields


def flags(folder):
    fields = pkg_config_file(folder)
    return shlex.split(fields["Cflags"]) + shlex.split(fields["Libs"])


def plain(words):
    """Flags with their folders in the shortest form."""
    return [re.sub(r"^(-[IL])(.*)", lambda flag: flag.group(1) + os.path.normpath(flag.group(2)), word) for word in words]


def flag_faults(folder):
    """The file's fields, and that pkg-config, where there is one, reads it in the same way."""
    fields = pkg_config_file(folder)
    yield None if fields["Name"] == "damindex" and fields["Description"] else "the pkg-config file has no name or description"
    wanted = ["-I%s" % (folder / "include"), "-L%s" % (folder / "lib"), "-ldamindex"]
    yield None if plain(flags(folder)) == wanted else "the pkg-config file has the flags %s" % flags(folder)
    if not shutil.which("pkg-config"):
        print("pkg-config is not installed; its file was read by hand alone")
        return
    settings = {**os.environ, "PKG_CONFIG_LIBDIR": str(folder / "lib" / "pkgconfig")}
    for asked, answer in ((["--modversion"], [DOTTED]), (["--cflags", "--libs"], wanted), (["--static", "--cflags", "--libs"], wanted)):
        run = subprocess.run(["pkg-config", *asked, "damindex"], stdout=subprocess.PIPE, text=True, env=settings)
        yield None if plain(shlex.split(run.stdout)) == answer else "pkg-config %s tells %s" % (asked, run.stdout)


def linked_with_package(source, folder=PACKAGE):
    """The words that run a program in C, compiled and linked by a package's own flags, with its shared object."""
    return linked_shared(source, "shared" if folder == PACKAGE else "moved", folder / "lib", flags(folder))


# ---- the command

def manner_faults():
    """How the command takes what it is told, with a stand-in for `rt` where it would prove anew what was proved just now."""
    with tempfile.TemporaryDirectory() as scratch:
        alone, bad, good = (Path(scratch, name) for name in ("alone", "bad", "good"))
        for folder, text in ((alone, None), (bad, "#!/bin/sh\necho 'no proof'\nexit 1\n"), (good, "#!/bin/sh\n")):
            folder.mkdir()
            if text:
                (folder / "rt").write_text(text, encoding="ascii")
                (folder / "rt").chmod(0o755)
        for tool in ("dirname", "uname"):
            (alone / tool).symlink_to(shutil.which(tool))
        path, before = os.environ["PATH"], {file: file.stat().st_mtime_ns for file in PACKAGE.rglob("*")}
        for words, wanted, said, changes in (
                (["--help"], 0, "--prefix DIR", {}),
                (["--frob"], 2, "--frob", {}),
                (["extra"], 2, "extra", {}),
                (["--prefix"], 2, "--prefix", {}),
                (["--prefix", "--help"], 2, "--prefix", {}),
                ([], 2, "`rt`", {"PATH": str(alone)}),
                ([], 2, "`no-such-compiler`", {"CC": "no-such-compiler"}),
                ([], 1, "no proof", {"PATH": "%s:%s" % (bad, path)})):
            run = command(*words, env={**os.environ, **changes})
            told = run.stdout if wanted == 0 else run.stderr
            right = run.returncode == wanted and said in told and (wanted == 0 or not run.stdout)
            yield None if right else "./library %s ended with status %d and said %r" % (words, run.returncode, told)
        after = {file: file.stat().st_mtime_ns for file in PACKAGE.rglob("*")}
        yield None if after == before else "a call that fails changes the package"

        run = command("--prefix", "in/stalled", cwd=scratch, env={**os.environ, "PATH": "%s:%s" % (good, path)})
        installed = Path(scratch).resolve() / "in" / "stalled"
        right = run.returncode == 0 and run.stdout.startswith("damindex %s " % DOTTED)
        yield None if right else "--prefix: status %d, %s" % (run.returncode, run.stderr)
        yield from file_faults(installed, symbolic=True)
        yield from flag_faults(installed)
        both = ("lib/libdamindex.a", "lib/" + OBJECT, "lib/pkgconfig/damindex.pc")
        same = all(filecmp.cmp(installed / file, PACKAGE / file, False) for file in both)
        yield None if same else "what is installed is not what was made"
        case, words = (ROOT / "examples" / "printed.case").read_bytes(), linked_with_package(ROOT / "examples" / "host.c", installed)
        run = subprocess.run(words, input=case, stdout=subprocess.PIPE)
        yield None if run.returncode == 0 and run.stdout.startswith(b"meets") else "the example, linked with what is installed, says %r" % run.stdout


def package_faults():
    """Every fault of the package, None where something is right, up to the first part that has one: the others build on it."""
    for part in (version_faults(), file_faults(PACKAGE), archive_faults(), shared_faults(), flag_faults(PACKAGE), manner_faults()):
        found = list(part)
        yield from found
        if any(found):
            return
