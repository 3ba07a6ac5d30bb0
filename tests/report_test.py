"""Tries tools/report: the proved program on good and bad files, what it does where something fails, and two at once.

    python3 tests/report_test.py

How it builds is tried with a kit that is made up: an `rt` that notes each call, and a report program of two lines.
"""

import os
import pathlib
import platform
import shlex
import shutil
import signal
import subprocess
import sys
import tempfile
import time

from tally import ROOT, case, run
from tools_test import MARK, example, sentence, words

HEAD = ["requests 8", "lru 3 6", "fifo 3 5", "min 3 5", "lru2 3 6", "min 2 6"]
REPORT = "".join(line + "\n" for line in HEAD + ["claim 2 8"]).encode()
BUNDLE = str(ROOT / "examples" / "first.bundle")


def report(*arguments, root=ROOT, **more):
    """Status, output and message."""
    if "input" not in more:
        more.setdefault("stdin", subprocess.DEVNULL)
    done = subprocess.run([str(root / "tools" / "report"), *arguments], stdout=subprocess.PIPE, stderr=subprocess.PIPE, **more)
    return done.returncode, done.stdout, done.stderr.decode()


# ---- The proved program ----


def printed(name, data, lines):
    """An accepted file: these lines, nothing told."""
    text = "".join(line + "\n" for line in lines).encode()
    case(f"report: {name}", report("-", input=data) == (0, text, ""))


def refused(name, data, line, why):
    """A refused one: its line on standard output, a sentence on standard error."""
    status, output, told = report("-", input=data)
    right = (status, output) == (1, f"refused {line}\n".encode()) and sentence("report", told) and why in told
    case(f"report refused: {name}", right, told)


def accepted_files():
    case("the program is built", report(BUNDLE)[:2] == (0, REPORT))
    printed("the example", example(), HEAD + ["claim 2 8"])
    printed("a broken entry", example()[:60] + words(9) + example()[64:], HEAD + ["claim refused 7 at 2"])
    printed("no plan", example()[:48] + words(0), HEAD + ["claim none"])
    none = ["requests 0", "lru 256 0", "fifo 256 0", "min 256 0", "lru2 256 0", "min 1 0", "claim none"]
    printed("no requests", words(2, 256, 1, 0, 0), none)
    printed("the largest file", largest(), ["requests 8000"] + [f"{rule} 256 8000" for rule in ("lru", "fifo", "min", "lru2", "min", "claim")])


def largest():
    return words(2, 256, 256, 8000, *range(8000), 8000, *([MARK] * 256), *range(7744))


def refused_files():
    refused("an empty file", b"", "9 at 0", "standard input is refused: the file is empty (")
    refused("a cut file", example()[:83], "9 at 80", "ends after 83 bytes, inside the word that begins at byte 80")
    refused("a file cut between words", example()[:80], "9 at 80", "ends after 80 bytes, where another word should begin")
    refused("sizes", words(3, 3, 2, 0, 0), "10 at 0", "the count is 3")
    refused("too many requests", words(2, 3, 2, 8001), "10 at 12", "8000 requests at most")
    refused("a plan of another length", words(2, 3, 2, 2, 5, 6, 1, MARK), "10 at 24", "0 words or 2")
    refused("a byte too many", example() + b"\0", "11 at 84", "bytes behind the plan")
    refused("n", words(2, 257, 2, 0, 0), "2 at 4", "n is 257")
    refused("m", words(2, 3, 0, 0, 0), "2 at 8", "m is 0")
    refused("m above n", words(2, 3, 4, 0, 0), "12 at 8", "m is 4, above n")
    refused("the mark", words(2, 3, 2, 2, 5, MARK, 0), "4 at 20", "the request at moment 1 is the mark")
    for length in (64021, 65535, 65536, 65537, 200000):
        refused(f"{length} bytes", largest() + bytes(length - 64020), "11 at 64020", "bytes behind the plan")
    refused("all ones", b"\xff" * 64, "10 at 0", "the count is 4294967295")


def ways_in():
    case("a file by name", report(BUNDLE) == (0, REPORT, ""))
    case("a file by name from elsewhere", report(os.path.relpath(BUNDLE, "/"), cwd="/") == (0, REPORT, ""))
    case("standard input", report("-", input=example()) == (0, REPORT, ""))
    case("standard input without a word", report(input=example()) == (0, REPORT, ""))
    case("a pipe by name", report("/dev/stdin", input=example()) == (0, REPORT, ""))
    with open(BUNDLE, "rb") as file:
        case("a file as standard input", report("-", stdin=file) == (0, REPORT, ""))
    with open("/dev/zero", "rb") as file:
        case("an input without end", report("-", stdin=file)[:2] == (1, b"refused 10 at 0\n"))
    case("a name behind --", report("--", BUNDLE) == (0, REPORT, ""))
    case("no path of Python's own", report(BUNDLE, env=os.environ | {"PYTHONSAFEPATH": "1"}) == (0, REPORT, ""))
    slowly()


def slowly():
    """A pipe that gives its bytes in two parts, and says in between that it has none."""
    out, into = os.pipe()
    os.set_blocking(out, False)
    reading = subprocess.Popen([str(ROOT / "tools" / "report"), "-"], stdin=out, stdout=subprocess.PIPE, stderr=subprocess.PIPE)
    os.close(out)
    for part in (example()[:50], example()[50:]):
        time.sleep(0.3)
        os.write(into, part)
    os.close(into)
    case("an input that comes slowly", reading.communicate() == (REPORT, b"") and reading.returncode == 0)


def trouble(name, told_by, message):
    status, output, told = told_by
    lines = [line for line in told.splitlines() if line.startswith("report: ")]
    case(f"report: {name}", (status, output, len(lines)) == (2, b"", 1) and message in lines[0] and "Traceback" not in told, told)


def wrong_files(root=ROOT):
    text = str(ROOT / "examples" / "first.txt")
    trouble("no such file", report("no-such-file", root=root), "there is no file no-such-file; give")
    trouble("a directory", report(str(ROOT / "examples"), root=root), "is a directory; give")
    trouble("a text", report(text, root=root), f"tools/bundle_from_text {shlex.quote(text)} NEW.bundle")
    trouble("a text as input", report("-", root=root, input=b"requests 5\n"), "standard input is a text")
    for name, data in [
        ("a short text", b"n 3"),
        ("a long text", "ä5 ".encode() * 30000),
        ("a text with a mark of byte order", b"\xef\xbb\xbfn 3\n"),
        ("a text in Latin-1", "# für n\nn 3\n".encode("latin-1")),
        ("a text that ends in a control character", b"n 3\r\n\x1a"),
        ("a text with zeros far behind", b"requests 5 6 7\n" * 20 + b"\0"),
    ]:
        trouble(name, report("-", root=root, input=data), "is a text, not a bundle; make")
    for name, line in [("utf-16", "# für\n"), ("utf-16-le", "n 3\n"), ("utf-16-be", "n 3\n")]:
        trouble(f"a text in {name}", report("-", root=root, input=line.encode(name)), "is a text in UTF-16, not a bundle; save")
    trouble("too many words", report("a", "b", root=root), "there are 2 names")
    trouble("an option that isn't", report("--nope", root=root), "there is no option --nope")
    trouble("an empty name", report("", root=root), "a name is empty")
    closed = subprocess.run(["sh", "-c", 'exec "$0" <&-', str(root / "tools/report")], capture_output=True)
    trouble("no input at all", (closed.returncode, closed.stdout, closed.stderr.decode()), "standard input is closed")


def outputs_that_fail():
    command = [str(ROOT / "tools" / "report"), BUNDLE]
    with open("/dev/full", "wb") as full:
        done = subprocess.run(command, stdout=full, stderr=subprocess.PIPE)
    case("report: a full disk", done.returncode == 2 and b"standard output can't be written: No space left" in done.stderr)
    out, into = os.pipe()
    os.close(out)
    done = subprocess.run(command, stdout=into, stderr=subprocess.PIPE)
    os.close(into)
    case("report: a closed pipe", (done.returncode, done.stderr) == (-signal.SIGPIPE, b""))
    done = subprocess.run(["sh", "-c", 'exec "$0" "$1" >&-', *command], capture_output=True)
    case("report: no output at all", done.returncode == 2 and b"can't be written" in done.stderr)


def two_really_at_once():
    """Two reports begin where the program isn't built but all that it stands on is: one builds it, and both print."""
    with tempfile.TemporaryDirectory() as folder:
        copy = pathlib.Path(folder)
        for part in ("crates", "tools"):
            shutil.copytree(ROOT / part, copy / part, ignore=shutil.ignore_patterns("out"))
        # The libraries are large; `rt` never writes into their files.
        for built in (ROOT / "crates").glob("*/out/rlib"):
            shutil.copytree(built, copy / built.relative_to(ROOT), copy_function=linked)
        shutil.copy2(ROOT / "crates.txt", copy)
        both = [started(copy, BUNDLE) for _ in range(2)]
        ended = [(*one.communicate(), one.returncode) for one in both]
        for output, told, status in ended:
            case("two at once, built by rt", (status, output) == (0, REPORT), told.decode())
        waited = [b"waiting for another command" in told for _, told, _ in ended]
        case("two at once, one waits", sorted(waited) == [False, True])


def linked(one, other):
    try:
        os.link(one, other)
    except OSError:
        shutil.copy2(one, other)


def started(root, *arguments, **more):
    streams = {"stdin": subprocess.DEVNULL, "stdout": subprocess.PIPE, "stderr": subprocess.PIPE}
    return subprocess.Popen([str(root / "tools" / "report"), *arguments], **streams, **more)


# ---- Building, with a kit that is made up ----

RT = """#!/bin/sh
# Says where the kit is; otherwise notes the call, and fails where another is running or where it is told to.
[ "$1" = doc ] && { echo "${0%/bin/rt}/PAGE.md"; exit; }
echo "$* in ${PWD##*/}" >>"$0.calls"
mkdir "$0.running" || { echo "error: two at once"; exit 1; }
trap 'rmdir "$0.running"' EXIT
trap '' PIPE
sleep 0.5
echo "a note of the prover"
echo "crate one: modules loaded=0 checked=9"
[ -f "$0.fails" ] && { echo "fn report::main: not proved"; echo "logic=not-proved"; exit 1; }
echo "crate report: modules loaded=0 checked=9"
mkdir -p out
printf '#!/bin/sh\\ncat >/dev/null\\n%s\\n' "$(cat "$0.prints")" >out/report
chmod +x out/report
echo ended >>"$0.ended"
"""

EMULATOR = """#!/bin/sh
# Its words are five of its own, then the program.
shift 5
exec "$@"
"""


class MadeUp:
    """A folder with the tools, two crates and a kit."""

    def __init__(self, folder):
        self.root = pathlib.Path(folder) / "project"
        shutil.copytree(ROOT / "tools", self.root / "tools")
        (self.root / "crates.txt").write_text("one:\nreport: one\nother staticlib: one\n")
        for crate in ("one", "report", "other"):
            (self.root / "crates" / crate / "src").mkdir(parents=True)
            (self.root / "crates" / crate / "src" / "lib.rt").write_text("\n")
        self.rt = self.script("kit/bin/rt", RT)
        self.emulator = self.script("kit/toolchain/bin/qemu-x86_64", EMULATOR)
        self.script("kit/toolchain/lib/ld-linux-x86-64.so.2", "")
        self.bare = self.script("bare/python3", f'#!/bin/sh\nexec {shlex.quote(sys.executable)} "$@"\n').parent
        (self.bare / "cat").symlink_to(shutil.which("cat"))
        self.tell("prints", "echo printed")

    def script(self, name, text):
        path = self.root.parent / name
        path.parent.mkdir(parents=True)
        path.write_text(text)
        path.chmod(0o755)
        return path

    def tell(self, name, text):
        pathlib.Path(f"{self.rt}.{name}").write_text(text)

    def calls(self, what="calls"):
        path = pathlib.Path(f"{self.rt}.{what}")
        return len(path.read_text().splitlines()) if path.exists() else 0

    def environment(self, with_rt=True):
        """With the kit in front; or with what the command itself and the program need, and no `rt`."""
        here = {name: value for name, value in os.environ.items() if name != "RATTLE_HOME"}
        return here | {"PATH": f"{self.rt.parent}:{here['PATH']}" if with_rt else str(self.bare)}

    def report(self, *arguments, with_rt=True):
        return report(*(arguments or [BUNDLE]), root=self.root, env=self.environment(with_rt))


def building():
    with tempfile.TemporaryDirectory() as folder:
        made = MadeUp(folder)
        trouble("not built, and no rt", made.report(with_rt=False), "rt, which builds it, isn't on the path: install")
        wrong_files(made.root)
        case("a wrong file builds nothing", made.calls() == 0)
        status, output, told = made.report()
        case("the first run builds", (status, output, made.calls()) == (0, b"printed\n", 1))
        case("by one word, in the program's folder", pathlib.Path(f"{made.rt}.calls").read_text() == "run in report\n")
        case("its progress", "crate 1 of 2: one\ncrate 2 of 2: report\n" in told and "note of the prover" not in told, told)
        case("its log", "a note of the prover\n" in (made.root / "target/report.log").read_text())
        case("the second doesn't", made.report() == (0, b"printed\n", "") and made.calls() == 1)
        case("without rt it runs too", made.report(with_rt=False) == (0, b"printed\n", ""))
        rebuilding(made)


def rebuilding(made):
    """What is older than a source is built again, what fails isn't run, and two at once build once."""
    source = made.root / "crates/one/src/lib.rt"
    (made.root / "crates/other/src/lib.rt").write_text("// changed\n")
    case("another crate changes nothing", made.report()[:2] == (0, b"printed\n") and made.calls() == 1)
    source.write_text("// changed\n")
    made.tell("prints", "echo again")
    case("a changed source", made.report()[:2] == (0, b"again\n") and made.calls() == 2)
    (source.parent / "more.rt").write_text("\n")
    case("a new source", made.report()[0] == 0 and made.calls() == 3)
    (source.parent / "more.rt").unlink()
    case("a source less", made.report()[0] == 0 and made.calls() == 4)
    (made.root / "target/built/report.program").write_text("#!/bin/sh\necho wrong\n")
    case("a program that was changed", made.report()[:2] == (0, b"again\n") and made.calls() == 5)
    source.write_text("// wrong\n")
    made.tell("fails", "")
    for _ in range(2):
        trouble("not proved", made.report(), "fn report::main: not proved; all that was said is in")
    case("what isn't proved is tried again", made.calls() == 7)
    pathlib.Path(f"{made.rt}.fails").unlink()
    several = [started(made.root, BUNDLE, env=made.environment()) for _ in range(4)]
    ended = [(one.communicate()[0], one.returncode) for one in several]
    case("four at once build once", ended == [(b"again\n", 0)] * 4 and made.calls() == 8, str(ended))
    source.write_text("// stopped\n")
    stopped = building_now(made)
    stopped.kill()
    stopped.communicate()
    case("one that was stopped breaks nothing", made.report()[:2] == (0, b"again\n") and made.calls() == 10)
    os.utime(source, (time.time() + 99999,) * 2)
    for _ in range(2):
        case("a source from tomorrow", made.report()[:2] == (0, b"again\n") and made.calls() == 11)
    stopping(made, source)
    odd_places(made)
    for name, program in (("a program that fails", "exit 3"), ("a program that prints nothing", "true"), ("a program that is killed", "kill -9 $$")):
        source.write_text(f"// {name}\n")
        made.tell("prints", program)
        trouble(name, made.report(), "the report program ended with status")


def building_now(made, **more):
    """A command that has called `rt`, or has ended."""
    before = made.calls()
    one = started(made.root, BUNDLE, env=made.environment(), **more)
    while made.calls() == before and one.poll() is None:
        time.sleep(0.01)
    return one


def stopping(made, source):
    """A command that is stopped while it builds stops the build too."""
    # Where the tests were started in the background, the shell has them ignore it, and so would what they start.
    signal.signal(signal.SIGINT, signal.default_int_handler)
    for number in (signal.SIGINT, signal.SIGTERM):
        source.write_text(f"// stopped by {number}\n")
        ended = made.calls("ended")
        stopped = building_now(made, start_new_session=True)
        os.killpg(stopped.pid, number)
        told = stopped.communicate()[1]
        case(f"stopped by {number}", stopped.returncode == -number and b"Traceback" not in told, told.decode())
        time.sleep(1)
        case("the build is stopped too", made.calls("ended") == ended)
        shutil.rmtree(f"{made.rt}.running", ignore_errors=True)
    out, into = os.pipe()
    os.close(out)
    done = subprocess.run([str(made.root / "tools/report"), BUNDLE], env=made.environment(), stdout=subprocess.PIPE, stderr=into)
    os.close(into)
    case("progress that nobody reads", (done.returncode, done.stdout) == (0, b"again\n"))


def odd_places(made):
    """What is in the way, and what is noted wrong, is built again or told."""
    note = made.root / "target/built/report"
    for text in ("", "[]", "{}", '{"sources": 1, "made": {}, "words": []}', "[" * 100000):
        note.write_text(text)
        case(f"a note that says {text[:20]}", made.report()[:2] == (0, b"again\n"))
    if platform.machine() == "x86_64":
        (made.root / "target/built/report.program").unlink()
        case("a program that is gone", made.report()[:2] == (0, b"again\n"))
    else:
        made.emulator.rename(made.emulator.with_name("elsewhere"))
        trouble("an emulator that is gone", made.report(), "which runs programs for x86-64 on this machine")
        made.emulator.with_name("elsewhere").rename(made.emulator)
    note.unlink()
    note.mkdir()
    trouble("a folder in the note's place", made.report(), "target/built/")
    note.rmdir()


if __name__ == "__main__":
    sys.exit(run(accepted_files, refused_files, ways_in, wrong_files, outputs_that_fail, two_really_at_once, building))
