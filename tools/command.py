"""What the commands of this folder share: their words, reading a file, writing one, and how trouble is told.

Statuses: 0 done; 1 the input is refused; 2 it can't be done (wrong words, a file that can't be read or written).
"""

import codecs
import contextlib
import os
import select
import shlex
import signal
import stat
import sys
import tempfile

REFUSED = 1
TROUBLE = 2
BUNDLE_READ = 65536  # bytes; the report program reads no more, and no bundle is longer
closed = set()  # the standard streams that were closed when the command began
waiting = None  # signals that wait, while something is done that must not be cut short


class Refused(Exception):
    """Input that says something wrong; its words say what."""


class Trouble(Exception):
    """What keeps a command from its work; its words say what to do."""


class Stopped(BaseException):
    """A signal that ends the command, once what it has begun is ended too."""


# ---- A command's frame ----


def run(name, about, most, body):
    """Runs a command on its names, of which there may be so many, and answers its status. `about` is what --help prints."""
    try:
        for number in (signal.SIGINT, signal.SIGTERM, signal.SIGHUP):
            if signal.getsignal(number) != signal.SIG_IGN:
                signal.signal(number, stop)
        fill_closed_streams()
        names = names_of(sys.argv[1:], most)
        if names is None:
            write_output(about.strip().encode() + b"\n")
            return 0
        return body(names)
    except Refused as refusal:
        say(f"{name}: {refusal}")
        return REFUSED
    except Trouble as trouble:
        say(f"{name}: {trouble}")
    except OSError as error:
        say(f"{name}: {shown(str(error.filename), 200)}: {reason(error)}" if error.filename else f"{name}: {reason(error)}")
    except Stopped as stopped:
        end_by(stopped.args[0])
    except Exception as error:  # noqa: BLE001
        say(f"{name}: this shouldn't be, and is a mistake of the command: {type(error).__name__}: {shown(str(error), 200)}")
    return TROUBLE


def names_of(words, most):
    """The names among a command's words, or None where help is asked for."""
    names = []
    for place, word in enumerate(words):
        if word == "--":
            names += words[place + 1:]
            break
        if word in ("-h", "--help"):
            return None
        if word.startswith("-") and word != "-":
            raise Trouble(f"there is no option {shown(word)}; --help tells what there is")
        names.append(word)
    if "" in names:
        raise Trouble("a name is empty; --help tells what is named")
    if len(names) > most:
        raise Trouble(f"there are {len(names)} names, and {most} at most are taken; --help tells which")
    return names


def source_of(names):
    """What is to be read: the first name, or standard input where something was put in."""
    if not names and 0 not in closed and os.isatty(0):
        raise Trouble("no file is named; give the path of one, or - for standard input (--help tells more)")
    return names[0] if names else "-"


def stop(number, _):
    if waiting is None:
        raise Stopped(number)
    waiting.append(number)


@contextlib.contextmanager
def unstopped():
    """Lets a signal that would stop the command wait until this is done."""
    global waiting
    waiting = []
    try:
        yield
    finally:
        came, waiting = waiting, None
        if came:
            raise Stopped(came[0])


def end_by(number):
    """Ends as a command does that knows nothing of the signal."""
    signal.signal(number, signal.SIG_DFL)
    os.kill(os.getpid(), number)


def say(words):
    """Writes a line to standard error; where that can't be written, nothing is left to tell."""
    with contextlib.suppress(OSError):
        os.write(2, words.encode("utf-8", "surrogateescape") + b"\n")


def fill_closed_streams():
    """Where a standard stream is closed, the next file opened would take its number."""
    for number in (0, 1, 2):
        try:
            os.fstat(number)
        except OSError:
            os.open(os.devnull, os.O_RDONLY)
            closed.add(number)


def shown(word, most=40):
    """A word or name as it can stand in a message: control characters written out, and cut where it is long."""
    plain = "".join(c if c.isprintable() or "\udc80" <= c <= "\udcff" else ascii(c)[1:-1] for c in word[:most])
    return plain if len(word) <= most else plain + "..."


def called(name):
    return "standard input" if name == "-" else shown(name, 200)


def reason(error):
    return error.strerror or str(error)


# ---- Reading ----


def read_input(name, most):
    """The first bytes of a file, at most so many; - is standard input."""
    if name == "-" and 0 in closed:
        raise Trouble("standard input is closed; give the path of a file")
    try:
        file = 0 if name == "-" else os.open(name, os.O_RDONLY)
        try:
            return read_front(file, most)
        finally:
            if name != "-":
                os.close(file)
    except FileNotFoundError:
        raise Trouble(f"there is no file {called(name)}; give the path of a file, or - for standard input") from None
    except IsADirectoryError:
        raise Trouble(f"{called(name)} is a directory; give the path of a file in it") from None
    except OSError as error:
        raise Trouble(f"{called(name)} can't be read: {reason(error)}") from None


def read_front(file, most):
    """Up to the end or so many bytes, also where the other side takes its time."""
    parts = []
    while most > 0:
        try:
            part = os.read(file, most)
        except BlockingIOError:
            select.select([file], [], [])
            continue
        if not part:
            break
        parts.append(part)
        most -= len(part)
    return b"".join(parts)


def read_bundle_file(name):
    """The bytes of what should be a bundle."""
    data = read_input(name, BUNDLE_READ)
    coding = text_coding(data)
    if coding == "UTF-16":
        what_to_do = "save it in UTF-8, then make a bundle of it by tools/bundle_from_text"
        raise Trouble(f"{called(name)} is a text in UTF-16, not a bundle; {what_to_do}")
    if coding:
        tool = os.path.join(os.path.dirname(os.path.abspath(__file__)), "bundle_from_text")
        tool = shlex.quote(min(tool, os.path.relpath(tool), key=len))
        text = "TEXT" if name == "-" else shlex.quote(shown(name, 200))
        raise Trouble(f"{called(name)} is a text, not a bundle; make a bundle of it by: {tool} {text} NEW.bundle")
    return data


PRINTABLE = frozenset(map(chr, [*range(32, 127), *b"\t\n\f\r\x1a"]))


def text_coding(data):
    """How bytes are written that are a text by their front, or None. No bundle is one: it begins with a control character."""
    front = data[:256]
    if front[:2] in (codecs.BOM_UTF16_LE, codecs.BOM_UTF16_BE):
        return "UTF-16" if readable(front, "utf-16", 0) else None
    if readable(front, "utf-16-le", 1) or readable(front, "utf-16-be", 1):
        return "UTF-16"
    # In another coding than UTF-8 most of a text is plain all the same.
    return "UTF-8" if readable(front, "utf-8-sig", 0) or readable(front, "latin-1", 0.75) else None


def readable(front, coding, share):
    """Whether bytes that may be cut in a character have no control character in this coding, and so much ASCII."""
    try:
        text = codecs.getincrementaldecoder(coding)().decode(front)
    except UnicodeError:
        return False
    plain = sum(c in PRINTABLE for c in text)
    return text != "" and plain >= share * len(text) and all(c in PRINTABLE or c >= "\xa0" for c in text)


# ---- Writing ----


def write_output(data):
    """Writes all bytes to standard output, or says why it can't. A reader that has gone away ends the command quietly."""
    try:
        while data:
            try:
                data = data[os.write(1, data):]
            except BlockingIOError:
                select.select([], [1], [])
    except BrokenPipeError:
        end_by(signal.SIGPIPE)
    except OSError as error:
        raise Trouble(f"standard output can't be written: {reason(error)}") from None


def write_file(data, name, source):
    """Writes a file whole or leaves it as it was, and never over the file that was read; without a name, standard output."""
    if name in (None, "-") or same_file(name, 1, stat.S_ISREG):
        name = 1
    if same_file(name, 0 if source == "-" else source, stat.S_ISREG):
        raise Trouble(f"{called(source)} is what is read; give another name to write to")
    if name == 1:
        return write_output(data)
    try:
        if os.path.exists(name) and not os.path.isfile(name):
            # A device or a pipe has no file to put in its place.
            write_through(name, data)
        else:
            replace(os.path.realpath(name), data)
    except OSError as error:
        raise Trouble(f"{shown(name, 200)} can't be written: {reason(error)}") from None


def write_through(name, data):
    with open(name, "wb", buffering=0) as file:
        while data:
            data = data[file.write(data):]


def replace(path, data):
    """Puts a new file in the place of an old one, with the old one's mode and owner."""
    old = os.stat(path) if os.path.exists(path) else None
    if old and not os.access(path, os.W_OK):
        raise PermissionError(None, "Permission denied")
    with unstopped():
        try:
            number, new = tempfile.mkstemp(prefix=".new-", dir=os.path.dirname(path))
        except PermissionError:
            if not old:
                raise
            return write_over(path, data)
        try:
            with open(number, "wb") as file:
                file.write(data)
            if old:
                with contextlib.suppress(PermissionError):
                    os.chown(new, old.st_uid, old.st_gid)
            os.chmod(new, stat.S_IMODE(old.st_mode) if old else 0o666 & ~umask())
            os.replace(new, path)
        except BaseException:
            os.unlink(new)
            raise


def write_over(path, data):
    """Where a folder takes no new file: into the old one, which gets its bytes back where that fails."""
    with open(path, "r+b") as file:
        old = file.read()
        try:
            put_bytes(file, data)
        except OSError:
            put_bytes(file, old)
            raise


def put_bytes(file, data):
    file.seek(0)
    file.write(data)
    file.truncate()
    file.flush()


def umask():
    mask = os.umask(0)
    os.umask(mask)
    return mask


def same_file(one, other, kind):
    """Whether two names or numbers are one file, of this kind."""
    try:
        first, second = os.stat(one), os.stat(other)
    except OSError:
        return False
    return kind(first.st_mode) and os.path.samestat(first, second)
