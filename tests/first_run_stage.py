"""The stage on which tests/first-run tries ./damindex: a copy of what it needs, with stand-ins for `rt` and for the program."""

import os
import pty
import shutil
import subprocess
import tempfile
import time
from pathlib import Path

ROOT = Path(__file__).resolve().parent.parent
TOOLS = "awk cat chmod cp date dirname flock mkdir mv nproc readlink rm setsid sh sleep stty touch".split()
LOADER = "/lib64/ld-linux-x86-64.so.2"
CASE = b"0f0000\n"
ANSWER = b"answer to 0f0000\n"

# The program: tells what it read.
PROGRAM = """#!/bin/sh
read -r line
echo "answer to $line"
"""

# `rt all check`, then `rt run`, in crates/damindex: keeps a note of how it was called and what it could read, prints lines as rt does, and leaves program
# and mark as rt does. FAKE says what else happens: each crate takes a while, one is refused, the program is missing, or it hangs with the program half
# written.
RT = """#!/bin/sh
echo "$* in $(pwd) reads '$(cat)'" >>"$NOTES/calls"
case ${FAKE-} in slow) pause=0.8 ;; *) pause=0 ;; esac
anew() {
    echo "== $1"
    echo 'fn of some crate: proved'
    echo "crate $1: modules loaded=30 checked=4"
    echo 'logic=proved functions=1 sum=0'
}
if [ "$1" = run ]; then
    mkdir -p out
    rm -f out/damindex.stamp
    if [ "${FAKE-}" = hangs ]; then
        echo 'echo half a program' >out/damindex
        chmod +x out/damindex
        sleep 60 &
        echo $! >"$NOTES/child"
        sleep 60
    fi
    echo 'crate damindex: modules loaded=34 checked=0' >&2
    echo 'logic=proved functions=1 sum=0' >&2
    if [ "${FAKE-}" != empty ]; then
        cat "$NOTES/program" >out/damindex
        chmod +x out/damindex
        touch out/damindex.stamp
    fi
    echo 'rt: running out/damindex; to give it other input, run that file yourself' >&2
    echo 'what the program answers to an empty input'
    exit 0
fi
echo 'only=0 proved=0'
for name in laws records numbers; do
    anew $name
    sleep $pause
done
echo '== solas'
if [ "${FAKE-}" = fails ]; then
    echo '== damindex'
    for name in a b c; do echo 'note: advice that says nothing of a place'; done
    echo "src/main.rt:7:1: error: the very reason, at length: $(printf '%2000s' x)"
    for name in a b c d e f g h; do echo "a note: error: of what $name stands on"; done
    echo 'fn of it: not proved'
    for name in a b c d e f g h i j k l m n o; do echo "library $name: modules loaded=4 checked=0"; done
    echo 'crate damindex: modules loaded=30 checked=4'
    echo 'logic=not-proved'
    echo 'rattle build: nothing was built, since only a proved crate is built'
    echo 'rt: rt check --only NAME checks that function and what it calls, and not the rest: advice'
    echo '== summary'
    for name in a b c d e f g h i j k l m n o; do echo "$name: ok"; done
    echo 'damindex: failed (1)'
    for name in a b c d e f g h i j k l m n o; do echo "$name: not run, since damindex failed"; done
    echo '(1: not proved or not passed, 2: rattle failed, 3: antt could not tell)'
    echo '4 of 5 crates ok'
    exit 1
fi
anew damindex
echo '== summary'
for name in laws records numbers solas damindex; do echo "$name: ok"; done
echo '5 of 5 crates ok'
"""


class Tree:
    """A copy of what ./damindex needs, in a folder whose name has blanks, a quote and a star; folders of commands with `rt` and without."""

    def __init__(self, room, loader="/bin/sh"):
        self.notes = Path(tempfile.mkdtemp(dir=room))
        self.top = self.notes / "a folder's *name*"
        self.script = self.top / "damindex"
        shutil.copytree(ROOT / "scripts", self.top / "scripts")
        for source in [ROOT / "crates.txt", *ROOT.glob("crates/*/src/**/*.rt")]:
            copy = self.top / source.relative_to(ROOT)
            copy.parent.mkdir(parents=True, exist_ok=True)
            shutil.copy(source, copy)
        self.script.write_text((ROOT / "damindex").read_text(encoding="utf-8").replace(LOADER, loader), encoding="utf-8")
        self.script.chmod(0o755)
        (self.notes / "program").write_text(PROGRAM)
        self.without_rt, with_rt = self.notes / "commands", self.notes / "kit" / "bin"
        self.without_rt.mkdir()
        with_rt.mkdir(parents=True)
        for tool in filter(shutil.which, TOOLS):
            (self.without_rt / tool).symlink_to(shutil.which(tool))
        (with_rt / "rt").write_text(RT)
        (with_rt / "rt").chmod(0o755)
        self.with_rt = f"{with_rt}:{self.without_rt}"
        self.program, self.log = self.top / "target" / "bin" / "damindex", self.top / "target" / "build.log"

    def environment(self, path, fake):
        return {"PATH": str(path), "NOTES": str(self.notes), "FAKE": fake, "TMPDIR": str(self.notes)}

    def run(self, *words, path=None, fake="", data=CASE, script=None, cwd=None):
        """A run with no terminal: status, what it wrote, and its lines on standard error."""
        run = subprocess.run([script or self.script, *words], input=data, capture_output=True, cwd=cwd or self.notes, timeout=60,
                             env=self.environment(path or self.with_rt, fake))
        return run.returncode, run.stdout, run.stderr.decode().splitlines()

    def on_terminal(self, command, fake="", keys=b"", when=b""):
        """A run in a terminal of its own, where `keys` are struck once `when` has been written, or at once: status, and all that it writes there."""
        child, terminal = pty.fork()
        if child == 0:
            os.chdir(self.top)
            os.execve("/bin/sh", ["sh", "-c", command], self.environment(self.with_rt, fake))
        seen = b""
        while True:
            if keys and when in seen:
                os.write(terminal, keys)
                keys = b""
            try:
                seen += os.read(terminal, 4096)
            except OSError:
                break  # nobody has it open any more
        os.close(terminal)
        return os.waitstatus_to_exitcode(os.waitpid(child, 0)[1]), seen.decode()

    def calls(self):
        """How `rt` was called so far."""
        notes = self.notes / "calls"
        return notes.read_text().splitlines() if notes.exists() else []

    def builds(self):
        """How many builds were begun so far."""
        return sum(call.startswith("all check ") for call in self.calls())

    def built(self):
        self.run()
        return self


def stands_on():
    """How many crates the program stands on, with itself: by crates.txt."""
    lines = (line.partition("#")[0].partition(":") for line in (ROOT / "crates.txt").read_text(encoding="utf-8").splitlines())
    needs = {head.split()[0]: rest.split() for head, colon, rest in lines if colon}
    reached, todo = set(), ["damindex"]
    while todo:
        name = todo.pop()
        if name in needs and name not in reached:
            reached.add(name)
            todo += needs[name]
    return len(reached)


def is_gone(process):
    """Whether a process has ended, its parent's note of it aside."""
    try:
        return Path(f"/proc/{process}/stat").read_text().rpartition(")")[2].split()[0] == "Z"
    except OSError:
        return True


def touched(path):
    """A file that is there, and newer than all others."""
    path.parent.mkdir(parents=True, exist_ok=True)
    path.touch()
    later = time.time() + 5
    os.utime(path, (later, later))
