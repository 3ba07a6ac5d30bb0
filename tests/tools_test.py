"""Tries tools/bundle_from_text and tools/bundle_to_text, there and back again: good and bad input, files, pipes, a full disk.

    python3 tests/tools_test.py
"""

import os
import pathlib
import random
import signal
import struct
import subprocess
import sys
import tempfile
from unittest import mock

from tally import ROOT, case, run

sys.path.insert(0, str(ROOT / "tools"))
import command  # noqa: E402

MARK = 4294967295
TEXT = "n 3\nm 2\nrequests 5 6 7\n"


def tool(name, data, *arguments, **more):
    """Status, output and message of a tool fed with these bytes."""
    done = subprocess.run([str(ROOT / "tools" / name), *arguments], input=data, capture_output=True, **more)
    return done.returncode, done.stdout, done.stderr.decode()


def from_text(text):
    return tool("bundle_from_text", text.encode(), "-")


def to_text(data):
    return tool("bundle_to_text", data)


def words(*numbers):
    return struct.pack(f"<{len(numbers)}I", *numbers)


def example():
    plan = [MARK, MARK, 5, 6, 7, 5, 8, 6]
    return words(2, 3, 2, 8, 5, 6, 7, 5, 8, 6, 5, 7, 8, *plan)


def sentence(name, told):
    """One line that begins with the tool's name."""
    return told.startswith(f"{name}: ") and told.endswith("\n") and told.count("\n") == 1


def the_example():
    text = (ROOT / "examples" / "first.txt").read_text()
    bundle = (ROOT / "examples" / "first.bundle").read_bytes()
    case("the example has 84 bytes", len(bundle) == 84)
    case("the example's bytes", bundle == example())
    case("the example from text", from_text(text) == (0, bundle, ""))
    status, shown, _ = to_text(bundle)
    case("the example to text", status == 0)
    case("the example there and back", from_text(shown.decode())[1] == bundle)


def round_trips():
    lot = random.Random(7)
    for number in range(40):
        t = lot.choice([0, 1, 2, 15, 16, 17, 40])
        if number == 0:
            t = 8000
        n = lot.randint(1, 256)
        m = lot.randint(1, n)
        requests = [lot.choice([0, 5, MARK - 1, lot.randrange(MARK)]) for _ in range(t)]
        plan = [lot.choice([MARK, 7, lot.randrange(MARK)]) for _ in range(t)]
        if lot.random() < 0.3:
            plan = []
        bundle = words(2, n, m, t, *requests, len(plan), *plan)
        status, text, _ = to_text(bundle)
        case(f"round trip {number} to text", status == 0)
        case(f"round trip {number} back", from_text(text.decode()) == (0, bundle, ""))
        again = to_text(from_text(text.decode())[1])
        case(f"round trip {number} to text again", again[1] == text)


def texts_taken():
    bundle = words(2, 3, 2, 3, 5, 6, 7, 0)
    for name, text in [
        ("any order, remarks, several lines", "requests 5 # first\n\n  # remark\nm 2\nrequests 6 7\nn 3\n"),
        ("one request on a line", "n 3\nm 2\nrequests\n5\n6\n7\n"),
        ("one on a line, remarks between", "n 3\nm 2\nrequests\n5\n\n# remark\n6\n7 # last"),
        ("commas", "n 3\nm 2\nrequests 5,6, 7\n"),
        ("a comma ends a line", "n 3\nm 2\nrequests 5,\n6,\n7,\n"),
        ("a comma behind a space", "n 3\nm 2\nrequests 5 ,6 , 7\n"),
        ("a mark of byte order", "\ufeff" + TEXT),
        ("line ends of two characters", TEXT.replace("\n", "\r\n")),
        ("line ends of the other kind", TEXT.replace("\n", "\r")),
        ("tabs", "n\t3\nm 2\nrequests 5\t6 7\n"),
    ]:
        case(f"text taken: {name}", from_text(text) == (0, bundle, ""), from_text(text)[2])
    planned = words(2, 1, 1, 2, 5, 6, 2, MARK, 5)
    case("a plan over lines", from_text("n 1\nm 1\nplan\n-\n5,\nrequests 5 6")[1] == planned)
    case("no requests", from_text("n 1\nm 1\nrequests\n")[1] == words(2, 1, 1, 0, 0))
    case("an empty plan", from_text("n 1\nm 1\nrequests\nplan\n")[1] == words(2, 1, 1, 0, 0))


def texts_refused():
    for name, text, message in [
        ("no n", "m 2\nrequests 5\n", "no line for n"),
        ("no m", "n 2\nrequests 5\n", "no line for m"),
        ("no requests", "n 2\nm 2\n", "no line of requests"),
        ("n twice", "n 2\n" + TEXT, "line 2, word 1: n is given again; it stands in line 1"),
        ("n without number", "n\nm 2\nrequests\n", "line 1, word 1: n takes one number"),
        ("n with a minus", "n -3\nm 2\nrequests\n", "line 1, word 2: '-3' isn't a number of frames, 1 to 256"),
        ("unknown word", "frames 3\n" + TEXT, "line 1, word 1: 'frames' isn't"),
        ("unknown word in a list", TEXT + "frames 3\n", "line 4, word 1: 'frames' isn't"),
        ("numbers in no list", "n 3\nm 2\n5 6\n", "line 3, word 1: '5' isn't"),
        ("numbers after n", "requests 5\nn 3\n6\nm 2\n", "line 3, word 1: '6' isn't"),
        ("not a number", TEXT + "requests 5 6x\n", "line 4, word 3: '6x' isn't a page"),
        ("minus", TEXT + "requests -5\n", "line 4, word 2: '-5' isn't a page"),
        ("too large", TEXT + "requests 4294967296\n", "isn't a page, 0 to 4294967294"),
        ("other digits", TEXT + "requests \u0665\n", "isn't a page"),
        ("a comma in a number", TEXT + "requests 1,000,000\n", "line 4, word 3: '000' has a zero in front"),
        ("a longer dash in a plan", TEXT + "plan \u2013\n", "isn't a page, 0 to 4294967294, or - for none"),
        ("a comma too many", TEXT + "requests 5,,6\n", "line 4, word 3: there is a comma"),
        ("a comma in front", TEXT + ",6\n", "line 4, word 1: there is a comma"),
        ("commas alone", TEXT + "requests 5\n,\n", "line 5, word 1: there is a comma"),
        ("semicolons", TEXT + "requests 5;6\n", "'5;6' isn't a page"),
        ("mark requested", TEXT + "requests 4294967295\n", "line 4, word 2: 4294967295 is the mark"),
        ("dash requested", TEXT + "requests -\n", "'-' isn't a page"),
        ("mark in plan by number", TEXT + "plan - 4294967295\n", "line 4, word 3: 4294967295 is the mark"),
        ("plan too short", TEXT + "plan -\n", "line 4: the plan that begins here has 1 words"),
        ("plan without words", TEXT + "plan\n", "has 0 words"),
        ("plan too long", TEXT + "plan - - - -\n", "has 4 words"),
        ("n is 0", "m 2\nn 0\nrequests\n", "line 2, word 2: n is 0, not 1 to 256 (refusal 2)"),
        ("n is 257", "n 257\nm 2\nrequests\n", "line 1, word 2: n is 257, not 1 to 256 (refusal 2)"),
        ("m is 0", "n 3\nm 0\nrequests\n", "line 2, word 2: m is 0, not 1 to 256 (refusal 2)"),
        ("m above n", "n 3\nm 4\nrequests\n", "line 2, word 2: m is 4, above n, which is 3 (refusal 12)"),
        ("8,001 requests", "n 3\nm 2\nrequests" + " 5" * 7999 + "\n5 6\n7\n", "line 4, word 2: there are 8002 requests, above 8000 (refusal 3)"),
        ("empty text", "", "no line for n"),
    ]:
        status, output, told = from_text(text)
        right = status == 1 and output == b"" and message in told and sentence("bundle_from_text", told)
        case(f"text refused: {name}", right, told)
    status, output, told = tool("bundle_from_text", b"\xff\xfe", "-")
    case("text refused: not text", (status, output) == (1, b"") and "isn't text in UTF-8" in told)


def messages_are_short():
    for name, word in [("a long number", "9" * 9000), ("a long word", "x" * 9000), ("zeros", "0" * 9000 + "x"), ("two bytes each", "\u00e4" * 9000)]:
        told = from_text(TEXT + word)[2]
        case(f"cut: {name}", "line 4, word 1" in told and len(told) < 150 and "..." in told, told[:200])
    told = from_text(TEXT + "\x1b[31m\a")[2]
    case("control characters are written out", "\\x1b[31m\\x07" in told and "\x1b" not in told)
    status, output, told = tool("bundle_from_text", b"n 1\n" * 4194305, "-")
    case("a text of 16 MiB and more", (status, output) == (1, b"") and "longer than" in told)


def bundle_refused(name, data, number, place):
    status, output, told = to_text(data)
    right = status == 1 and output == b"" and f"refused {number} at {place}:" in told
    case(f"bundle refused: {name}", right)


def bundles_refused():
    for cut in range(84):
        bundle_refused(f"cut at {cut}", example()[:cut], 9, cut // 4 * 4)
    for name, data, number, place in [
        ("sizes count", words(3, 3, 2, 0, 0), 10, 0),
        ("all ones", b"\xff" * 8, 10, 0),
        ("T", words(2, 3, 2, 8001), 10, 12),
        ("T very large", words(2, 3, 2, MARK), 10, 12),
        ("plan count", words(2, 3, 2, 1, 5, 2, 1, 1), 10, 20),
        ("bytes after", example() + b"\0", 11, 84),
        ("n", words(2, 0, 0, 0, 0), 2, 4),
        ("m", words(2, 3, 300, 0, 0), 2, 8),
        ("m above n", words(2, 3, 4, 1, MARK, 0), 12, 8),
        ("mark", words(2, 3, 2, 2, 5, MARK, 0), 4, 20),
        ("end before n", words(2, 0, 0, 1), 9, 16),
    ]:
        bundle_refused(name, data, number, place)


def wrong_files():
    for name, arguments, message in [
        ("no such file", ["no-such-file"], "there is no file no-such-file"),
        ("a directory", [str(ROOT / "examples")], "is a directory"),
        ("a file that can't be read", ["/proc/self/mem"], "can't be read"),
        ("too many words", ["a", "b", "c"], "there are 3 names"),
        ("an option that isn't", ["--nope"], "there is no option --nope"),
        ("an empty name", ["a", ""], "a name is empty"),
    ]:
        for tool_name in ("bundle_from_text", "bundle_to_text"):
            status, output, told = tool(tool_name, b"", *arguments)
            right = status == 2 and output == b"" and message in told and sentence(tool_name, told)
            case(f"{tool_name}: {name}", right, told)
    case("no word, something put in", tool("bundle_from_text", TEXT.encode())[1] == words(2, 3, 2, 3, 5, 6, 7, 0))
    status, output, told = tool("bundle_to_text", b"", str(ROOT / "examples" / "first.txt"))
    case("a text for a bundle", (status, output) == (2, b"") and "tools/bundle_from_text" in told)
    status, output, told = tool("bundle_from_text", example(), "-")
    case("a bundle for a text", (status, output) == (2, b"") and "tools/bundle_to_text" in told)
    for tool_name in ("report", "bundle_from_text", "bundle_to_text", "library"):
        status, output, told = tool(tool_name, b"", "--help")
        case(f"{tool_name} --help", status == 0 and f"    tools/{tool_name}".encode() in output and told == "")


def files_written():
    with tempfile.TemporaryDirectory() as folder:
        text, bundle, link = (pathlib.Path(folder) / name for name in ("a.txt", "a.bundle", "link"))
        text.write_text(TEXT)
        made = words(2, 3, 2, 3, 5, 6, 7, 0)
        case("a file is written", tool("bundle_from_text", b"", str(text), str(bundle)) == (0, b"", "") and bundle.read_bytes() == made)
        case("its mode is a file's", bundle.stat().st_mode & 0o777 == text.stat().st_mode & 0o777)
        bundle.chmod(0o600)
        case("a file is written again", tool("bundle_from_text", b"", str(text), str(bundle))[0] == 0 and bundle.stat().st_mode & 0o777 == 0o600)
        back = pathlib.Path(folder) / "b.txt"
        case("a text is written", tool("bundle_to_text", b"", str(bundle), str(back))[0] == 0 and back.read_text() == TEXT)
        link.symlink_to(text)
        for name in (text, link, pathlib.Path(folder) / "." / "a.txt"):
            status, _, told = tool("bundle_from_text", b"", str(text), str(name))
            case("the input is kept", status == 2 and "is what is read" in told and text.read_text() == TEXT)
        with open(text, "rb") as file, open(text, "ab") as end:
            done = subprocess.run([str(ROOT / "tools/bundle_from_text"), "-", str(text)], stdin=file, capture_output=True)
            case("the input on a pipe is kept", done.returncode == 2 and text.read_text() == TEXT)
            done = subprocess.run([str(ROOT / "tools/bundle_from_text"), str(text)], stdout=end, stderr=subprocess.PIPE)
            case("the input as output is kept", done.returncode == 2 and text.read_text() == TEXT)
        old = bundle.read_bytes()
        text.write_text("n 300\nm 1\nrequests")
        case("a refused text keeps the old bundle", tool("bundle_from_text", b"", str(text), str(bundle))[0] == 1 and bundle.read_bytes() == old)
        status, _, told = tool("bundle_from_text", TEXT.encode(), "-", str(pathlib.Path(folder) / "no" / "where"))
        case("a folder that isn't there", status == 2 and "can't be written: No such file" in told)
        case("nothing is left over", sorted(os.listdir(folder)) == ["a.bundle", "a.txt", "b.txt", "link"])
        text.write_text(TEXT)
        out = pathlib.Path(folder) / "out"
        with open(out, "wb", buffering=0) as file:
            file.write(b"before ")
            subprocess.run([str(ROOT / "tools/bundle_from_text"), str(text), "/dev/stdout"], stdout=file)
            file.write(b" after")
        case("standard output by its name", out.read_bytes() == b"before " + made + b" after")
        case("a pipe by its name", tool("bundle_from_text", b"", str(text), "/dev/stdout") == (0, made, ""))


def files_in_the_way():
    """Modes, which root doesn't feel, and a disk that fills up halfway: told by what the system would answer."""
    denied = PermissionError(13, "Permission denied")
    full = OSError(28, "No space left on device")
    with tempfile.TemporaryDirectory() as folder:
        old, new = os.path.join(folder, "old"), os.path.join(folder, "new")
        pathlib.Path(old).write_bytes(b"old and longer")
        with mock.patch("os.access", return_value=False):
            case("a file that may not be written", fails(old) == "Permission denied")
        with mock.patch("tempfile.mkstemp", side_effect=denied):
            case("a new file in a closed folder", fails(new) == "Permission denied" and not os.path.exists(new))
            case("an old file in a closed folder", fails(old) is None and pathlib.Path(old).read_bytes() == b"data")
            pathlib.Path(old).write_bytes(b"kept")
            with mock.patch("command.put_bytes", side_effect=[full, None]) as put:
                case("a full disk in a closed folder", fails(old) == full.strerror and put.call_args.args[1] == b"kept")
        with mock.patch("os.replace", side_effect=full):
            case("a full disk", fails(old) == full.strerror and pathlib.Path(old).read_bytes() == b"kept")
        case("nothing is left over either", os.listdir(folder) == ["old"])


def fails(path):
    """What writing over a path fails by, if it does."""
    try:
        command.replace(path, b"data")
    except OSError as error:
        return error.strerror
    return None


def outputs_that_fail():
    for name, data in (("bundle_from_text", TEXT.encode()), ("bundle_to_text", example())):
        words_of = [str(ROOT / "tools" / name), "-"]
        with open("/dev/full", "wb") as full:
            done = subprocess.run(words_of, input=data, stdout=full, stderr=subprocess.PIPE)
        case(f"{name}: a full disk", done.returncode == 2 and sentence(name, done.stderr.decode()) and b"No space left" in done.stderr)
        status, _, told = tool(name, data, "-", "/dev/full")
        case(f"{name}: a full disk by name", status == 2 and "/dev/full can't be written: No space left" in told)
        out, into = os.pipe()
        os.close(out)
        done = subprocess.run(words_of, input=data, stdout=into, stderr=subprocess.PIPE)
        os.close(into)
        case(f"{name}: a closed pipe", (done.returncode, done.stderr) == (-signal.SIGPIPE, b""))
        done = subprocess.run(["sh", "-c", 'exec "$0" - >&-', words_of[0]], input=data, capture_output=True)
        case(f"{name}: no output at all", done.returncode == 2 and b"can't be written" in done.stderr)
        done = subprocess.run(["sh", "-c", 'exec "$0" no-such-file 2>&-', words_of[0]], input=data, capture_output=True)
        case(f"{name}: nowhere to tell", (done.returncode, done.stdout) == (2, b""))


if __name__ == "__main__":
    sys.exit(
        run(
            the_example,
            round_trips,
            texts_taken,
            texts_refused,
            messages_are_short,
            bundles_refused,
            wrong_files,
            files_written,
            files_in_the_way,
            outputs_that_fail,
        )
    )
