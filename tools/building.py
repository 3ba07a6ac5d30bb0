"""Building with `rt`, for the commands of this folder and bench/library: one at a time, only where a source has changed, with progress.

What is built is noted in target/built/NAME: the state of its sources, that of the files made, and some words, as those
to run a program by. So what is built runs without `rt`, and commands at the same time don't break each other's work.
"""

import contextlib
import fcntl
import hashlib
import json
import os
import pathlib
import platform
import re
import shutil
import signal
import subprocess

from command import Trouble, reason, say, shown, unstopped

ROOT = pathlib.Path(__file__).resolve().parent.parent
BUILT = ROOT / "target" / "built"


# ---- One at a time ----


@contextlib.contextmanager
def locked():
    """Holds the lock on what is built here, and answers its number. It is the top folder that is locked: `rt` itself locks those of the crates."""
    lock = os.open(ROOT, os.O_RDONLY)
    try:
        try:
            fcntl.flock(lock, fcntl.LOCK_EX | fcntl.LOCK_NB)
        except BlockingIOError:
            say("waiting for another command that is building here")
            fcntl.flock(lock, fcntl.LOCK_EX)
        yield lock
    finally:
        os.close(lock)


# ---- What is built already ----


def state_of(crates, files=()):
    """The names, times and sizes of everything that a build stands on, as one word."""
    parts = ("src", "specs", "proofs", "stdin", "stdout")
    lines = []
    for name in ["crates.txt", *files, *(f"crates/{crate}/{part}" for crate in crates for part in parts)]:
        top = ROOT / name
        lines += [line_of(path) for path in [top, *top.rglob("*")] if path.is_file()]
    return hashlib.sha256("\n".join(sorted(lines)).encode("utf-8", "surrogateescape")).hexdigest()


def line_of(path):
    return f"{path.relative_to(ROOT)} {mark_of(path)}"


def mark_of(path):
    """A file's time and size."""
    is_now = path.stat()
    return [is_now.st_mtime_ns, is_now.st_size]


def built(name, state):
    """The words noted, where what was built is as it was, of the same sources, and all that it needs is there; else None."""
    try:
        note = json.loads((BUILT / name).read_text())
        here = all(mark_of(ROOT / made) == mark for made, mark in note["made"].items())
        here = here and all(os.path.exists(word) for word in note["words"] if word.startswith("/"))
        return note["words"] if here and note["words"] and note["sources"] == state else None
    except (OSError, ValueError, LookupError, TypeError, AttributeError, RecursionError):
        return None


def write_note(name, state, made, words):
    note = {"sources": state, "made": {one: mark_of(ROOT / one) for one in made}, "words": words}
    put_in_place(BUILT / name, lambda new: new.write_text(json.dumps(note)))


def put_in_place(path, make):
    """Makes a file beside its place, then puts it there, so that nobody sees half of it."""
    new = path.with_name(f".{path.name}.new")
    path.parent.mkdir(parents=True, exist_ok=True)
    make(new)
    os.replace(new, path)


# ---- Building ----


def listed(root=ROOT):
    """The crates of crates.txt, each with those that it stands on, which come before it."""
    deps = {}
    for line in (root / "crates.txt").read_text().splitlines():
        words, colon, rest = line.split("#")[0].partition(":")
        if colon:
            # Behind the name may stand what kind of crate it is.
            deps[words.split()[0]] = rest.split()
    return deps


def reached(names, root=ROOT):
    """These crates and those of this repository that they stand on."""
    deps = listed(root)
    wanted = set(names)
    for name in reversed(deps):
        if name in wanted:
            wanted.update(deps[name])
    return [name for name in deps if name in wanted]


class Build:
    """One build, under the lock: says which crate of how many is proved; what the prover says goes to a log."""

    def __init__(self, name, crates, lock):
        self.name = name
        self.crates = crates
        self.lock = lock
        self.seen = set()
        self.rt_path = rt_path(name)
        try:
            BUILT.mkdir(parents=True, exist_ok=True)
            self.log = open(ROOT / "target" / f"{name}.log", "w")
        except OSError as error:
            why = f"the {name} isn't built yet, and {ROOT / 'target'} can't be written: {reason(error)}"
            raise Trouble(f"{why}; run it once as a user who may write there") from None
        say(f"building the {name}, {len(crates)} crates; what isn't proved yet takes some minutes")

    def proved(self, crate):
        if crate in self.crates and crate not in self.seen:
            self.seen.add(crate)
            say(f"crate {len(self.seen)} of {len(self.crates)}: {crate}")

    def rt(self, verb, crate, *flags):
        """Runs `rt` in a crate's folder. It keeps the lock, also where this command is killed; where it is stopped otherwise, `rt` is too."""
        said = []
        process = None
        try:
            with unstopped():
                process = self.started(crate, [verb, *flags])
            for line in process.stdout:
                self.log.write(line)
                self.log.flush()
                said.append(line)
                found = re.match(r"crate (\w+): modules ", line)
                if found:
                    self.proved(found[1])
            status = process.wait()
        except BaseException:
            if process:
                with contextlib.suppress(ProcessLookupError):
                    os.killpg(process.pid, signal.SIGTERM)
                process.wait()
            raise
        if status != 0:
            told = next((line for line in said if re.search(r"not proved|no proof|\berror\b", line)), "".join(said[-1:])).strip()
            raise Trouble(f"the {self.name} isn't built: {shown(told, 200) or 'rt failed'}; all that was said is in {self.log.name}")

    def started(self, crate, words):
        return subprocess.Popen(
            [self.rt_path, *words],
            cwd=ROOT / "crates" / crate,
            stdin=subprocess.DEVNULL,
            stdout=subprocess.PIPE,
            stderr=subprocess.STDOUT,
            text=True,
            errors="replace",
            pass_fds=[self.lock],
            start_new_session=True,
        )

    def run(self, words, said=None):
        """Runs another program that the build needs."""
        words = [str(word) for word in words]
        self.log.write(" ".join(words) + "\n")
        self.log.flush()
        try:
            done = subprocess.run(words, cwd=ROOT, input=said, text=True, stdout=self.log, stderr=subprocess.STDOUT)
        except OSError as error:
            raise Trouble(f"the {self.name} isn't built: {words[0]} can't be run: {reason(error)}") from None
        if done.returncode != 0:
            raise Trouble(f"the {self.name} isn't built: {words[0]} failed; all that was said is in {self.log.name}")


# ---- The kit ----


def rt_path(what):
    """Where `rt` is; RATTLE_HOME may name the kit that it belongs to."""
    home = os.environ.get("RATTLE_HOME")
    path = shutil.which("rt") or (home and shutil.which("rt", path=f"{home}/bin"))
    if not path:
        why = f"the {what} isn't built yet, and rt, which builds it, isn't on the path"
        raise Trouble(f"{why}: install the Rattle kit and put its bin folder on the path")
    return path


def kit(rt):
    """The kit's folder, where the page lies that `rt` tells to read first."""
    page = subprocess.run([rt, "doc"], capture_output=True, text=True).stdout.strip()
    return pathlib.Path(page).parent


def to_run(rt, program):
    """The words that run a built program. It is for x86-64; elsewhere it needs an emulator in the kit."""
    if platform.machine() == "x86_64":
        return [program]
    tools = kit(rt) / "toolchain"
    # Told to be the plain processor, it copies long arrays fast.
    emulator = [tools / "bin/qemu-x86_64", "-cpu", "qemu64"]
    words = [*emulator, tools / "lib/ld-linux-x86-64.so.2", "--library-path", tools / "lib", program]
    missing = [word for word in words if isinstance(word, pathlib.Path) and not word.exists()]
    if missing:
        raise Trouble(f"the kit has no {missing[0]}, which runs programs for x86-64 on this machine")
    return [str(word) for word in words]
