"""Tries what a newcomer and a caller in another language get: the header and the reference's tables against the code,
the examples of README and of the reference, and programs in C.

    python3 tests/callers_test.py

The library (tools/library) is made first where it isn't.
"""

import ctypes
import pathlib
import platform
import re
import shlex
import shutil
import struct
import subprocess
import sys
import tempfile

from tally import ROOT, case, run
from tools_test import MARK, example

HEADER = (ROOT / "include/hedravos.h").read_text()
REFERENCE = (ROOT / "docs/REFERENCE.md").read_text()
README = (ROOT / "README.md").read_text()
LIBRARY = ROOT / "target/library"
TYPES = {
    "u32": ["uint32_t {}"],
    "&[u32]": ["const uint32_t *{}", "size_t {}_length"],
    "&mut [u32]": ["uint32_t *{}", "size_t {}_length"],
    "&[u8]": ["const uint8_t *{}", "size_t {}_length"],
    "&mut [u8]": ["uint8_t *{}", "size_t {}_length"],
}


def code(name):
    return (ROOT / "crates" / name).read_text()


def blocks(text):
    """Each fenced block: its kind, and its text."""
    return re.findall(r"^```(\w*)\n(.*?)^```$", text, re.M | re.S)


def tables_under(heading):
    """The tables under a heading of the reference: the rows of each, as cells."""
    part = REFERENCE.split(f"\n## {heading}\n")[1].split("\n## ")[0]
    found = re.findall(r"(?:^\|.*\n)+", part, re.M)
    return [[[cell.strip() for cell in row.strip("|").split("|")] for row in table.splitlines()[2:]] for table in found]


def table_under(heading):
    return tables_under(heading)[0]


# ---- The header and the code ----


def exported():
    """The functions that the crates export, as C declares them."""
    found = {}
    for source in sorted((ROOT / "crates").glob("exports_*/src/lib.rt")):
        for name, lists in re.findall(r'pub extern "C" fn (\w+)(?:<[^>]*>)?\(([^)]*)\)', source.read_text()):
            parts = [part.strip().replace("'a ", "").split(": ") for part in lists.split(",") if part.strip()]
            found[name] = [text.format(word) for word, kind in parts for text in TYPES[kind]]
    return found


def declared():
    """The functions of the header."""
    plain = re.sub(r"/\*.*?\*/", "", HEADER, flags=re.S)
    return {name: [" ".join(word.split()) for word in lists.split(",")] for name, lists in re.findall(r"void (\w+)\(([^)]*)\);", plain)}


def constants():
    return {name: int(value) for name, value in re.findall(r"HEDRAVOS_(\w+) = (\d+)", HEADER)}


def upper(name):
    """A case of an enum as the header writes it."""
    return re.sub(r"(?<=[a-z0-9])(?=[A-Z])", "_", name).upper()


def refusals():
    """The refusals of the table that the promises go by, each with its number, as the header writes it."""
    rows = re.findall(r"^table \(?(\w+).* = row (\d+) ", code("paging/specs/Refusals.antt"), re.M)
    return {upper(name): int(number) for name, number in rows}


def the_header():
    apart = set(exported()) ^ set(declared())
    case("the header has every exported function", exported() and exported() == declared(), str(apart))
    numbers = constants()
    in_code = re.findall(r"Refusal::(\w+)(?:\(_\))? => ([1-9]\d*),", code("paging/src/lib.rt"))
    case("every refusal has its row", {upper(name) for name, _ in in_code} == set(refusals()))
    for name, number in refusals().items():
        case(f"the header's {name}", numbers.pop(name, None) == number)
    for number, name in re.findall(r"\(eqb number (\d)\) \(Ok (\w+)\)", code("paging/specs/Rules.antt")):
        case(f"the header's rule {name}", numbers.pop(name.upper(), None) == int(number))
    for name, kind in re.findall(r"^reply_numbers \(Ok \(?(\w+).*kind = (\d)", code("cache/specs/Feed.antt"), re.M):
        case(f"the header's kind {name}", numbers.pop(name.upper(), None) == int(kind))
    limits = dict(re.findall(r"pub const (\w+): \w+ = (\d+);", code("calls/src/lib.rt")))
    frames, requests = int(limits["FRAMES"]), int(limits["REQUESTS"])
    sizes = {"RECORD_WORDS": 3 + frames // 32 + 4 * frames, "FILE_BYTES": 4 * (2 + 3 + 2 * requests), "REPORT_BYTES": 256}
    case("the header's limits, and nothing else", numbers == {"FRAMES": frames, "REQUESTS": requests} | sizes, str(numbers))
    case("the header's mark", f"HEDRAVOS_MARK UINT32_C({MARK})" in HEADER and f"MARK: u32 = {MARK};" in code("paging/src/lib.rt"))


# ---- The reference ----


def refusals_told(text):
    """The numbers of a line of refusals, in order."""
    first = re.sub(r"\([^)]*\)", "", text).split(".")[0].split(";")[0].split(":")[0]
    return [int(number) for number in re.findall(r"\d+", first)]


def orders():
    """The refusals of each function in their order, as the reference tells them."""
    found = {}
    for line in REFERENCE.split("\n## Services\n")[1].split("\n## ")[0].splitlines():
        function = re.search(r"`(hedravos_\w+)`", line)
        if function:
            name = function[1]
        if line.startswith("- Refusals:"):
            found[name] = refusals_told(line.split(":", 1)[1])
    return found


def the_tables():
    rows = table_under("Refusals")
    case("the reference has every refusal", {cells[1].strip("`"): int(cells[0]) for cells in rows} == refusals())
    case("each with a sentence in every column", all(len(cells) == 5 and all(cells) for cells in rows))
    comments = re.findall(r"/\*((?:(?!\*/).)*)\*/\s*void (\w+)\(", HEADER, re.S)
    in_header = {name: refusals_told(text.split("Refusals:")[1]) if "Refusals:" in text else [] for text, name in comments}
    for name in declared():
        one, other = in_header.get(name), orders().get(name)
        case(f"the refusals of {name}", one is not None and one == other, f"{one} {other}")
    told = {cells[0]: re.sub(r"(?<=\d),(?=\d)", "", cells[1]) for cells in table_under("Limits")}
    is_so = constants()
    for what, limit in {
        "frames of a cache": f"1 to {is_so['FRAMES']}",
        "requests of a trace": f"0 to {is_so['REQUESTS']}",
        "pages": f"0 to {MARK - 1}",
        "requests that one cache record serves": f"{is_so['REQUESTS']}",
        "bytes of a bundle file": f"{is_so['FILE_BYTES']} at most; the report program reads 65536 and no more",
        "bytes of a report": f"{is_so['REPORT_BYTES']} at most",
        "words of a cache record": f"{is_so['RECORD_WORDS']}",
    }.items():
        case(f"the reference's limit: {what}", told.pop(what, None) == limit)
    case("no other limit", not told)
    lengths = set(re.findall(r"(?:fewer than|a record takes|cache record is) (\d+,\d+)", HEADER + REFERENCE))
    case("a record's length wherever it is asked", lengths == {f"{is_so['RECORD_WORDS']:,}"}, str(lengths))


def the_examples():
    library = ctypes.CDLL(str(LIBRARY / "libhedravos.so"))
    rules = {cells[1]: int(cells[0]) for cells in table_under("The four rules")}
    requests = [5, 6, 7, 5, 8, 6, 5, 7]
    rows = re.findall(r"^\| (\S+) \| ((?:\S ){8})\| (\d) \|$", REFERENCE, re.M)
    case("a plan for each rule", [row[0] for row in rows] == list(rules))
    for name, plan, faults in rows:
        words = [MARK if word == "-" else int(word) for word in plan.split()]
        case(f"the plan of {name}", planned(library, rules[name], 3, requests) == (int(faults), words))
    more = [1, 2, 3, 4, 1, 2, 5, 1, 2, 3, 4, 5]
    case("more frames, more faults", [planned(library, 2, n, more)[0] for n in (3, 4)] == [9, 10])
    text = next(text for kind, text in blocks(REFERENCE) if text.startswith("# a remark"))
    done = subprocess.run([str(ROOT / "tools/bundle_from_text"), "-"], input=text.encode(), capture_output=True)
    case("the text form", done.stdout == example())


def the_orders():
    """Calls with everything wrong, then with one thing right after the other: the numbers come in the order told."""
    library = ctypes.CDLL(str(LIBRARY / "libhedravos.so"))
    marks, long, good = [MARK], [MARK] * 8001, [1, 2]
    full, fine = record(8000), record(1)
    file = example()
    calls = {
        "count": [(5, 0, long), (1, 0, long), (1, 1, long), (1, 1, marks)],
        "plan": [(5, 0, long, []), (1, 0, long, []), (1, 1, long, []), (1, 1, marks, []), (1, 1, good, [])],
        "check": [(0, long, []), (1, long, []), (1, marks, []), (1, good, []), (1, good, [1, 1])],
        "better": [(0, long, [], []), (1, long, [], []), (1, marks, [], []), (1, good, [], [1, 1]), (1, good, [1, 1], [])],
        "better_words": [],
        "fresh": [(3, 0, []), (1, 0, []), (1, 1, [])],
        "sound": [],
        "feed": [([], MARK, []), (full, MARK, []), (full, 5, []), (fine, 5, [])],
        "feed_own": [([], MARK), (full, MARK), (full, 5)],
        "frame": [([], MARK), (full, MARK)],
        "read": [
            (b"", [], []),
            (struct.pack("<I", 3), [], []),
            (struct.pack("<6I", 2, 0, 300, 1, MARK, 0) + b"\0", [], []),
            (struct.pack("<6I", 2, 0, 300, 1, MARK, 0), [], []),
            (struct.pack("<6I", 2, 3, 4, 1, MARK, 0), [], []),
            (struct.pack("<6I", 2, 3, 2, 1, MARK, 0), [], []),
            (file, [], []),
        ],
        "write": [
            (0, 300, long, [1], b""),
            (3, 4, long, [1], b""),
            (3, 2, long, [1], b""),
            (3, 2, [1, MARK], [1], b""),
            (3, 2, good, [1], b""),
            (3, 2, good, [], b""),
        ],
        "report": [],
    }
    for name, rows in calls.items():
        numbers = [called(library, name, *row) for row in rows]
        case(f"the order of hedravos_{name}", numbers == orders().get(f"hedravos_{name}"), str(numbers))
    case("the order of every function", {f"hedravos_{name}" for name in calls} == set(declared()))


def record(clock):
    """A sound record of LRU with one frame, which holds page 5."""
    return [1, 1, clock] + lowest(1) + [5, 0, 0, MARK] + [MARK] * (4 * 255)


def lowest(held):
    """The words of a map with so many of its lowest bits set."""
    return [(2**held - 1) >> 32 * k & 0xFFFFFFFF for k in range(8)]


def called(library, name, *arguments):
    """The number that a function answers."""
    return answered(library, name, *arguments)[0]


def answered(library, name, *arguments):
    """The six words that are lent for an answer, as the function leaves them."""
    sent = []
    for argument in (*arguments, [0] * 6):
        if isinstance(argument, int):
            sent.append(ctypes.c_uint32(argument))
        else:
            kind = ctypes.c_uint8 if isinstance(argument, bytes) else ctypes.c_uint32
            sent += [(kind * len(argument))(*argument), ctypes.c_size_t(len(argument))]
    getattr(library, f"hedravos_{name}")(*sent)
    return list(sent[-2])


def planned(library, rule, n, requests):
    trace, plan, answer = ((ctypes.c_uint32 * length)() for length in (len(requests), len(requests), 3))
    trace[:] = requests
    lists = [word for one in (trace, plan, answer) for word in (one, ctypes.c_size_t(len(one)))]
    library.hedravos_plan(ctypes.c_uint32(rule), ctypes.c_uint32(n), *lists)
    return answer[2], list(plan)


# ---- The record and its dump ----


def fed(library, rule, frames, pages):
    """A record before its first request, and after each."""
    record, answer = (ctypes.c_uint32 * constants()["RECORD_WORDS"])(), (ctypes.c_uint32 * 4)()
    lent, told = (record, ctypes.c_size_t(len(record))), (answer, ctypes.c_size_t(4))
    library.hedravos_fresh(ctypes.c_uint32(rule), ctypes.c_uint32(frames), *lent, *told)
    yield list(record)
    for page in pages:
        library.hedravos_feed_own(*lent, ctypes.c_uint32(page), *told)
        yield list(record)


def span(text):
    """The words that a row is about: '3', or '4 to 10'."""
    ends = [int(word) for word in text.split(" to ")]
    return list(range(ends[0], ends[-1] + 1))


def in_hexadecimal(cell):
    return [int(word, 16) for word in cell.strip("`").split()]


def the_dump():
    """The reference's dump, what it says of each word, and the maps beside it."""
    library = ctypes.CDLL(str(LIBRARY / "libhedravos.so"))
    _, places, meanings, shapes, damaged = tables_under("The cache record")
    *_, words = fed(library, 1, 3, [5, 6])
    shown = f"record: {' '.join(map(str, words[:23]))}\nmap: {' '.join(f'{word:08x}' for word in words[3:11])}\n"
    dumps = [text for _, text in blocks(REFERENCE) if "record: " in text]
    case("the dump", len(dumps) == 2 and dumps[0] == shown and dumps[1].endswith(shown), shown)
    case("nothing but marks behind it", set(words[23:]) == {MARK})
    case("a meaning for each word of it", sum((span(row[0]) for row in meanings), []) == list(range(23)))
    for place, here, _ in meanings:
        case(f"words {place} of the dump", [int(word) for word in here.split()] == [words[i] for i in span(place)])
    case("where the parts of a record are", [row[0] for row in places] == ["0", "1", "2", "3 to 10", "11 + 4 i to 14 + 4 i"])
    case("the dump is sound", called(library, "sound", words) == 1)
    for cell, why in damaged:
        wrong = words[:3] + in_hexadecimal(cell) + words[11:]
        numbers = called(library, "sound", wrong), called(library, "feed_own", wrong, 5), called(library, "frame", wrong, 5)
        case(f"damaged: {why}", wrong != words and len(wrong) == len(words) and numbers == (0, 5, 5), str(numbers))
    ones = [sum(bin(word).count("1") for word in in_hexadecimal(cell)) for cell, _ in damaged]
    case("the first six have two ones", ones == [2] * 6 + [1, 3])
    the_shapes(list(fed(library, 4, 256, range(257))), shapes)
    the_older(library, words)


def the_shapes(records, shapes):
    """The record of 256 frames after so many pages: its map, and where the last page stands."""
    wrong = [held for held in range(257) if records[held][2:11] != [held] + lowest(held)]
    case("the map after each page", not wrong, str(wrong))
    wrong = [frame for frame in range(256) if records[frame + 1][11 + 4 * frame] != frame]
    case("each page in the lowest free frame", not wrong, str(wrong))
    case("with all held the map stays", records[257][2:11] == [257] + lowest(256))
    for cell, occupied, free in shapes:
        held, frames = int(occupied.split(":")[0]), occupied.partition(": ")[2]
        case(f"the frames of {occupied}", frames in ("", "all") or frames.split()[-3:] == ["0", "to" if held > 2 else "and", str(held - 1)])
        case(f"the map of {occupied}", records[held][3:11] == in_hexadecimal(cell) and free == ("none" if held == 256 else str(held)))
    case("maps with none and with all", [shapes[0][1], shapes[-1][2]] == ["0", "none"])


def the_older(library, words):
    """The same record in the older form, which has a number in place of the map."""
    older = words[:3] + [2] + words[11:]
    for form in (older, older + [MARK] * 7, older + [0] * 7):
        case("an older record", called(library, "feed_own", form, 5) == called(library, "frame", form, 5) == 5)
    case("an older record with a map in place", len(older) == 1028 and older[:3] + lowest(older[3]) + older[4:] == words)


def the_frames():
    """The frame of a page, as the record's words have it: along a run of each rule, and with the last request served."""
    library = ctypes.CDLL(str(LIBRARY / "libhedravos.so"))
    for rule in (1, 2, 4):
        wrong = []
        for words in fed(library, rule, 3, [5, 6, 7, 5, 8, 6, 5, 7]):
            for page in (0, 3, 5, 6, 7, 8, 9, MARK - 1):
                frames = [frame for frame in range(3) if words[11 + 4 * frame] == page]
                if answered(library, "frame", words, page) != [0, 0, len(frames), *(frames or [0]), 0, 0]:
                    wrong.append((words[2], page))
        case(f"the frames of rule {rule}", not wrong, str(wrong))
    full = record(8000)
    case("asked after the last request", [answered(library, "frame", full, page)[:4] for page in (5, 6)] == [[0, 0, 1, 0], [0] * 4])


# ---- Commands and programs ----


def the_lines():
    """Commands and programs of README and of the reference, each with the output that stands behind it."""
    found = blocks(REFERENCE)
    for (kind, text), (_, output) in zip(found, found[1:]):
        if kind == "python":
            done = subprocess.run([sys.executable, "-"], input=text, cwd=ROOT, capture_output=True, text=True)
            case("the lines in Python", (done.returncode, done.stdout) == (0, output), done.stderr)
        if kind == "sh":
            shown = [shell(*shlex.split(line)) for line in text.splitlines()]
            case("the lines for C", [status for status, _, _ in shown] == [0] * 3 and shown[-1][1] == output, str(shown))
    case("lines of each kind", {"python", "sh"} <= {kind for kind, _ in found})
    first, shown = (text for _, text in blocks(README)[:2])
    case("README's first run", shell(*shlex.split(first))[:2] == (0, shown) and shown in [text for _, text in found])


def shell(*words):
    done = subprocess.run(words, cwd=ROOT, capture_output=True, text=True)
    return done.returncode, done.stdout, done.stderr


# ---- C ----

EMPTY = """\
count 0 0 0
plan 0 0 0
check 2 0 0
better 0 0 1 0
better_words 0
fresh 6 0
sound 0
feed 5 0 0 4294967295
feed_own 5 0 0 4294967295
frame 5 0 0 0
read 9 0 0 0 0 0
write 6 0 0
report 0
"""

TILES = """\
5 into 0
6 into 1
7 into 2
5 in 0
8 into 1
6 into 2
5 in 0
7 into 1
"""

STRICT = ["-pedantic", "-Wall", "-Wextra", "-Werror", "-I", str(ROOT / "include")]


def in_c():
    for library in ("libhedravos.a", "libhedravos.so"):
        with tempfile.TemporaryDirectory() as folder:
            counts(compiled("examples/count.c", "c99", library, folder))
            shown = shell(compiled("tests/callers/empty.c", "c99", library, folder))
            case(f"empty lists with {library}", shown[:2] == (0, EMPTY), str(shown))
            shown = shell(compiled("tests/callers/host.c", "c11", library, folder))
            case(f"threads, children and signals with {library}", shown == (0, "fine\n", ""), str(shown))
            shown = shell(compiled("tests/callers/tiles.c", "c11", library, folder))
            case(f"tiles in places with {library}", shown == (0, TILES, ""), str(shown))
    languages = [("c99", "cc", "c"), ("c17", "cc", "c")] + [("c++17", "c++", "c++")] * bool(shutil.which("c++"))
    for standard, compiler, language in languages:
        made = subprocess.run([compiler, f"-std={standard}", *STRICT, "-fsyntax-only", "-x", language, "-"], input=b'#include "hedravos.h"\n')
        case(f"the header in {standard}", made.returncode == 0)


def compiled(source, standard, library, folder):
    """The program made of a source and the library."""
    program = str(pathlib.Path(folder) / pathlib.Path(source).stem)
    linked = [str(LIBRARY / library), "-pthread", f"-Wl,-rpath,{LIBRARY}"]
    made = subprocess.run(["cc", f"-std={standard}", *STRICT, str(ROOT / source), *linked, "-o", program])
    case(f"{source} with {library}", made.returncode == 0)
    return program


def counts(program):
    for words, status, output in [
        ("", 0, "6\n5\n5\n6\n"),
        ("1 3 5 6 7 5 8 6 5 7", 0, "6\n"),
        ("3 2 5 6 7 5 8 6 5 7", 0, "6\n"),
        ("2 256", 0, "0\n"),
        ("5 0 1", 1, "refused 1 at 0\n"),
        ("4 257 1", 1, "refused 2 at 0\n"),
        ("1 1" + " 7" * 8000, 0, "1\n"),
        ("1 1" + " 7" * 8001, 1, "refused 3 at 0\n"),
        ("1 3 5 4294967295", 1, "refused 4 at 1\n"),
        ("1", 2, ""),
        ("1 3 5x", 2, ""),
        ("1 3 -5", 2, ""),
        ("1 3 4294967296", 2, ""),
    ]:
        case(f"count {words[:40]}", shell(program, *words.split())[:2] == (status, output))
    with open("/dev/full", "w") as full:
        case("count on a full disk", subprocess.run([program], stdout=full, stderr=subprocess.DEVNULL).returncode == 2)


def the_needs():
    """What the archive asks from outside, as the reference says."""
    if platform.machine() != "x86_64":
        return
    told = subprocess.run(["nm", "-u", str(LIBRARY / "libhedravos.a")], capture_output=True, text=True)
    names = {line.split()[-1] for line in told.stdout.splitlines() if line.split()[:1] == ["U"]}
    case("names from outside", told.returncode == 0 and names == {"memcpy", "memset"})


if __name__ == "__main__":
    subprocess.run([str(ROOT / "tools/library")], check=True, stdout=subprocess.DEVNULL)
    sys.exit(run(the_header, the_tables, the_orders, the_examples, the_dump, the_frames, the_lines, in_c, the_needs))
