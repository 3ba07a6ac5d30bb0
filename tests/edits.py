"""Asks of every wrong program of the must-fail edits that it is refused by itself, at a fact. Runs after `rt ci`.

    python3 tests/edits.py [CRATE..]

`rt` applies all replacements of a file `crates/NAME/must-fail/FILE.edit` together and says only that the file was refused, and where first. So the kit's prover is asked once more: each file is tried on a copy of the crate, over what `rt`
keeps in out/ of the crate and of those below (it is brought up to date first), and all that is said is read here, function by function. It goes to `target/edits/NAME/FILE.log`, and is taken from there where nothing that the prover read has changed since.
Each wrong program of a file is headed by a line `# label: what is wrong.`; a file that holds one may leave the label out, and its name is the label.
- A replacement inside a function of src/, its contract included, asks for an error in that function's own proof or for a note in the function that a fact is not proved.
- A replacement elsewhere (a definition, a statement, a const) says by a line `breaks: NAME` which law or function has such an error; a function is named as in the log, without the crate.
  Such programs stand alone in their file, or share one with their like where each names another law or function: one that the others do not touch, as a case of its own.
An error that only follows from another ("was not admitted") doesn't count. A proof that no longer fits the code shows nothing, so its program fails: one that names a goal or a fact that is gone ("has no `returns-..`", "has no field"), whose
parts are others than are put together (`NAME_spec`), or whose loop has other locals (an error in Invariants.antt).
One error never serves two programs: a file changes a function once, and not beside a change of the contract of what it calls.

Then docs/CONTRACTS.md: each row of its tables names two or more wrong programs that there are, and each public function has a row. Not where crates are named: then only their edits are judged.
Prints a line for each program, and for each row that fails, and `N passed, M failed` as its last line.
"""

import concurrent.futures
import dataclasses
import hashlib
import os
import pathlib
import re
import shutil
import subprocess
import sys
import tempfile

from tally import ROOT

sys.path.insert(0, str(ROOT / "tools"))
import building  # noqa: E402

FOLLOWS = re.compile(r"not admitted|was rejected|(was|were) not checked")
MISFIT = re.compile(r"has no `|has no field|is not in scope")
PROOFS = ("Proof.antt", "Answers.antt", "Invariants.antt")  # of one function
PARTS = ("src", "specs", "proofs")
MEMORY = 2_500_000  # kilobytes that a check may take


class Wrong(Exception):
    """Why a program or a row fails."""


@dataclasses.dataclass
class Program:
    label: str
    breaks: list = dataclasses.field(default_factory=list)
    changes: list = dataclasses.field(default_factory=list)  # (file, old, new)
    places: list = dataclasses.field(default_factory=list)  # (function or None, whether in its contract)


@dataclasses.dataclass(frozen=True)
class Function:
    """A function as an edit names it, without the crate, its folder in proofs/, and the lines of its file that it takes."""

    name: str
    folder: str
    public: bool
    file: str
    first: int
    body: int
    last: int

    def short(self):
        return self.name.split("::")[-1]


@dataclasses.dataclass(frozen=True)
class Error:
    file: str
    line: int
    name: str
    message: str


# The edits


def programs_of(edit):
    """The programs of an edit file. A comment after a replacement begins the next one."""
    programs, file, old = [], "", ""
    for line in edit.read_text().splitlines():
        key, _, value = line.partition(":")
        value = value.removeprefix(" ")
        if line.startswith("#") and (not programs or programs[-1].changes):
            programs.append(Program(label_of(line)))
        elif not programs:
            programs.append(Program(""))
        if key == "file":
            file = value
        elif key == "old":
            old = value
        elif key == "new":
            programs[-1].changes.append((file, old, value))
        elif key == "breaks":
            programs[-1].breaks.append(value)
    if len(programs) == 1:
        programs[0].label = programs[0].label or edit.stem
    return programs


def label_of(line):
    found = re.match(r"# ([a-z][a-z0-9_]*): ", line)
    return found.group(1) if found else ""


def place_changes(crate, programs):
    """Applies the replacements in order, as `rt` does, notes the function that each lies in, and answers the new texts."""
    texts = {}
    for program in programs:
        for file, old, new in program.changes:
            text = texts.get(file) or (crate / file).read_text()
            at = text.find(old)
            if at < 0:
                raise Wrong(f"{file} has no text {old!r}")
            program.places.append(function_at(file, text, text.count("\n", 0, at) + 1))
            texts[file] = text[:at] + new + text[at + len(old) :]
    return texts


def function_at(file, text, line):
    for function in functions_of(file, text):
        if function.first <= line <= function.last:
            return function, line < function.body
    return None, False


# The sources


def functions_of(file, text):
    """The functions of a source file in the layout of `rt fmt`, where each ends with a brace as far in as it begins. What a trait asks for has no body, and is none."""
    if not file.startswith("src/"):
        return []
    module = module_of(file)
    lines = text.splitlines()
    found, owner, folder = [], module, module
    for number, line in enumerate(lines, 1):
        if implemented := re.match(r"impl(?:<[^>]*>)? (?:(.*) for )?(\w+)", line):
            trait, owner = implemented.groups()
            folder = owner + folded(trait or "")
        elif line == "}":
            owner = folder = module
        elif begun := re.match(r'( *)(pub )?(?:pub\(\w+\) )?(?:extern "C" )?fn (\w+)', line):
            indent, public, name = begun.groups()
            if lines[first_line(lines, number, lambda s: s.endswith((";", "{", "{}"))) - 1].endswith(";"):
                continue
            body = first_line(lines, number, lambda s: s.endswith(("{", "{}")))
            last = body if lines[body - 1].endswith("{}") else first_line(lines, body, lambda s: s == indent + "}")
            first = number
            while lines[first - 2].startswith(indent + "#["):
                first -= 1  # what the prover says of a function may stand at its first attribute
            found.append(Function(joined("::", owner, name), joined("/", folder.replace("::", "/"), name), bool(public), file, first, body, last))
    return found


def folded(trait):
    """A trait in the name of a folder: `From<Result<(), Refusal>>` is `FromResultUnitRefusal`."""
    words = re.findall(r"\w+(?!\w*::)|\(\)", re.sub(r"'\w+", "", trait))
    return "".join("Unit" if word == "()" else word[:1].upper() + word[1:] for word in words)


def joined(between, *names):
    return between.join(filter(None, names))


def module_of(file):
    module = file.removeprefix("src/").removesuffix(".rt").replace("/", "::")
    return "" if module in ("lib", "main") else module


def first_line(lines, start, fits):
    return next((n for n in range(start, len(lines) + 1) if fits(lines[n - 1])), len(lines))


def sources(crate):
    return {str(p.relative_to(crate)): p.read_text() for p in sorted((crate / "src").rglob("*.rt"))}


def public_functions(crate):
    """The functions that other crates can call: what stands in a public module, and methods."""
    texts = sources(crate)
    root = texts.get("src/lib.rt", "")
    for file, text in texts.items() if root else ():
        reached = file == "src/lib.rt" or re.search(rf"^pub mod {module_of(file)};", root, re.M)
        for function in functions_of(file, text):
            if function.public and (reached or function.name[:1].isupper()):
                yield function


# The prover


def bring_up_to_date(root, only):
    """Has `rt` prove what it has not kept: all crates, or these."""
    whole = [["rt", "all", "check", "--jobs", str(lanes())]], [root]
    each = [["rt", "check"]] * len(only), [root / "crates" / name for name in only]
    for words, folder in zip(*(each if only else whole)):
        if not folder.is_dir():
            raise Wrong(f"there is no crate {folder.name}")
        done = subprocess.run(words, cwd=folder, stdin=subprocess.DEVNULL, stdout=subprocess.PIPE, stderr=subprocess.STDOUT, text=True, errors="replace")
        if done.returncode != 0:
            print(done.stdout)
            raise Wrong(f"`{' '.join(words)}` failed in {folder}")


def lanes():
    """How many checks at a time: one a core, and no more than memory holds."""
    free = re.search(r"MemAvailable: +(\d+)", pathlib.Path("/proc/meminfo").read_text())
    return max(1, min(os.cpu_count() or 1, int(free[1]) // MEMORY if free else 1))


def told(root, crate, edit, texts):
    """What the prover says of a crate with these texts in place of its own: the log, or the log of an earlier run over the same files."""
    log = root / "target" / "edits" / crate.name / f"{edit.stem}.log"
    below = [name for name in building.reached([crate.name], root) if name != crate.name]
    stamp = stamp_of(root, crate, texts, below)
    if log.is_file():
        first, _, said = log.read_text().partition("\n")
        if first == stamp:
            return said
    said = checked(root, crate, texts, below)
    # Without a verdict, as of a check that was killed, it is asked again.
    first = stamp if last_line(said).startswith("logic=") else "no verdict"
    building.put_in_place(log, lambda new: new.write_text(f"{first}\n{said}"))
    return said


def stamp_of(root, crate, texts, below):
    """The sum of all that the prover reads."""
    files = {str(path.relative_to(crate)): path.read_bytes() for part in PARTS for path in sorted((crate / part).rglob("*")) if path.is_file()}
    files.update((file, text.encode()) for file, text in texts.items())
    built = []
    for name in below:
        note = root / "crates" / name / "out" / "rlib" / "stamp"
        if not note.is_file():
            raise Wrong(f"the library {name} isn't built")
        built.append(note.read_text())
    kit = subprocess.run(["rt", "version"], capture_output=True, text=True).stdout
    return hashlib.sha256(repr([kit, is_static(root, crate.name), sorted(files.items()), built]).encode()).hexdigest()


def is_static(root, name):
    return re.search(rf"^{name}\s+staticlib\b", (root / "crates.txt").read_text(), re.M) is not None


def checked(root, crate, texts, below):
    """Tries a copy of the crate with these texts, as `rt` tries an edit."""
    with tempfile.TemporaryDirectory(prefix="edit-") as folder:
        copy = pathlib.Path(folder)
        for part in PARTS:
            if (crate / part).is_dir():
                shutil.copytree(crate / part, copy / part)
        for file, text in texts.items():
            (copy / file).write_text(text)
        words = words_of(root, crate, below)
        kept = crate / "out" / "incremental"
        if kept.is_dir():
            shutil.copytree(kept, copy / "kept", copy_function=linked)
            words += ["--incremental", "kept"]
        for _ in range(2):
            done = subprocess.run(words, cwd=copy, stdin=subprocess.DEVNULL, stdout=subprocess.PIPE, stderr=subprocess.STDOUT, text=True, errors="replace")
            # One that was killed, most likely for memory, is tried once more.
            if done.returncode >= 0:
                break
    return done.stdout


def words_of(root, crate, below):
    kit = building.kit("rt")
    program = (crate / "src" / "main.rt").is_file()
    words = [str(kit / "bin/rattle"), "check", "--crate-name", crate.name, "src/main.rt" if program else "src/lib.rt", "--jobs", "1"]
    words += ["--extern", f"std={kit}/rlibs/std.rlib", "-L", f"dependency={kit}/rlibs"]
    for name in building.listed(root)[crate.name]:
        built = f"{root}/crates/{name}/out/rlib" if name in below else f"{kit}/rlibs"
        words += ["--extern", f"{name}={built}/{name}.rlib"]
    for name in below:
        words += ["-L", f"dependency={root}/crates/{name}/out/rlib"]
    words += ["--antt-project", f"{kit}/rattle/logic/antt-project.json", "--logic-built", f"{kit}/logic_built"]
    return words + ["--crate-type", "staticlib"] * is_static(root, crate.name)


def linked(one, other):
    """A second name for what was proved, which the prover replaces and never writes into; a copy of what it does write."""
    try:
        if one.endswith(".oantt"):
            return os.link(one, other)
    except OSError:
        pass
    return shutil.copy2(one, other)


# What it says


def last_line(said):
    return said.rstrip().rpartition("\n")[2]


def errors_of(said):
    """The errors of a log, and its notes of facts that are not proved, which have no name."""
    last = last_line(said)
    if last.startswith("logic=proved"):
        raise Wrong("all is still proved")
    if not last.startswith("logic=not-proved"):
        told = next((line for line in said.splitlines() if ": error" in line), last)
        raise Wrong(f"the prover came to no verdict: {told}")
    found = []
    for line in said.splitlines():
        error = re.match(r"(\S+?):(\d+):\d+: error: (?:`([^`]*)`: )?(.*)", line)
        note = re.match(r"note: (\S+?):(\d+):\d+: ()(it is not proved that .*)", line)
        if at := error or note:
            path, number, name, message = at.groups()
            found.append(Error(path.removeprefix("./"), int(number), name or "", message))
    return found


def own_error(errors, function):
    """The first error at a fact of the function's own: in its proof, or a note in its lines."""
    block, between, name = function.folder.rpartition("/")
    folders = function.folder, f"{block}{between}+{name}"  # the second where it calls itself
    own = [e for e in errors if e.file in [f"proofs/{folder}/{proof}" for folder in folders for proof in PROOFS]]
    if any(is_misfit(e, function) for e in own):
        raise Wrong(f"the proof of {function.name} no longer fits the code")
    own += [e for e in errors if e.file == function.file and function.first <= e.line <= function.last]
    return first_fact(own, function.name)


def is_misfit(error, function):
    """Whether what the proof is written for isn't there any more, which no fact decides."""
    frame = error.name == f"{function.short()}_spec" or error.file.endswith("/Invariants.antt")
    return MISFIT.search(error.message) is not None or (frame and not FOLLOWS.search(error.message))


def law_error(errors, name):
    return first_fact([e for e in errors if e.name == name and not is_of_function(e)], name)


def is_of_function(error):
    return error.file.rpartition("/")[2] in PROOFS


def first_fact(errors, name):
    facts = [e for e in errors if not FOLLOWS.search(e.message)]
    if not facts:
        raise Wrong(f"{name} has no error of its own")
    return f"{facts[0].file}:{facts[0].line}"


# The judgement of a file


def judged(crate, edit, ask):
    """A pair for each program of the file: its label, and where it is refused or a `Wrong`. `ask` answers what the prover says of new texts."""
    programs = programs_of(edit) or [Program(edit.stem)]
    try:
        errors = errors_of(ask(place_changes(crate, programs)))
    except Wrong as problem:
        return [(p.label or edit.name, problem) for p in programs]
    return [(p.label or edit.name, verdict(crate, programs, p, errors)) for p in programs]


def verdict(crate, programs, program, errors):
    try:
        check_form(crate, programs, program, errors)
        check_apart(crate, programs, program)
        functions = [f for f, _ in program.places if f]
        named = [named_place(crate, name, errors) for name in program.breaks]
        return ", ".join(dict.fromkeys([own_error(errors, f) for f in functions] + named))
    except Wrong as problem:
        return problem


def check_form(crate, programs, program, errors):
    if not program.label:
        raise Wrong("no label: a program begins with `# label: what is wrong.`")
    if not program.changes:
        raise Wrong("it replaces nothing")
    if all(f for f, _ in program.places):
        return
    if not program.breaks:
        raise Wrong(f"it changes what is in no function and has no line `breaks: NAME`; broken are {broken(crate, errors)}")
    if any(not other.breaks for other in programs):
        raise Wrong("it changes what is in no function and stands beside a program that does not say what it breaks")
    named = [name for other in programs for name in other.breaks]
    if any(named.count(name) > 1 for name in program.breaks):
        raise Wrong("another program of the file breaks the same")


def broken(crate, errors):
    """The names that a line `breaks:` could have here."""
    names = {e.name for e in errors if not is_of_function(e)}
    names.update(f.name for file, text in sources(crate).items() for f in functions_of(file, text))
    return ", ".join(name for name in sorted(names) if is_broken(crate, name, errors)) or "none"


def is_broken(crate, name, errors):
    try:
        return bool(name and named_place(crate, name, errors))
    except Wrong:
        return False


def check_apart(crate, programs, program):
    """No other program of the file changes the same function, or the contract of one that it calls."""
    texts = sources(crate)
    for function, _ in program.places:
        for other in programs:
            for changed, contract in other.places if other is not program and function else ():
                if changed and changed.name == function.name:
                    raise Wrong(f"{other.label} changes {function.name} too")
                if contract and calls(texts[function.file], function, changed):
                    raise Wrong(f"{other.label} changes the contract of {changed.name}, which {function.name} calls")


def calls(text, function, callee):
    lines = text.splitlines()[function.body : function.last]
    return re.search(rf"\b{callee.short()}\(", "\n".join(lines)) is not None


def named_place(crate, name, errors):
    for file, text in sources(crate).items():
        for function in functions_of(file, text):
            if function.name == name:
                return own_error(errors, function)
    return law_error(errors, name)


# The table of contracts


def rows_of(text):
    """Each row of a table under a heading that names crates: the crates, the function, the cell of edits."""
    crates = []
    for line in text.splitlines():
        if line.startswith("## "):
            crates = re.findall(r"`(\w+)`", line.partition(":")[0])
        cells = [cell.strip() for cell in line.split("|")]
        named = re.match(r"`(?:\w+::)*(\w+)", cells[1]) if len(cells) > 3 else None
        if crates and named:
            yield crates, named.group(1), cells[-2]


def labels_named(crates, cell):
    """The labels that a cell names, each with the crates it may be of: `a`, and `paging`'s `b`. A function, `a::b`, is no label."""
    for name, owner in re.findall(r"`(\w+)`('s)?", cell):
        if owner:
            crates = [name]
        else:
            yield crates, name


def check_row(crates, cell, labels):
    named = list(labels_named(crates, cell))
    for owners, label in named:
        if not any(label in labels.get(crate, ()) for crate in owners):
            raise Wrong(f"there is no edit `{label}` of {' or '.join(owners)}")
    if len(set(name for _, name in named)) < 2:
        raise Wrong("it names fewer than two edits")


# The stage


class Tally:
    def __init__(self):
        self.passed = self.failed = 0

    def note(self, what, outcome, quiet=False):
        if isinstance(outcome, Wrong):
            self.failed += 1
            print(f"FAILED {what}: {outcome}")
        else:
            self.passed += 1
            if not quiet:
                print(f"{what}: refused at {outcome}")


def judge_edits(root, tally, only=()):
    """Judges every program, of these crates only if some are named, and answers the labels of each crate."""
    labels = {}
    edits = [(edit.parent.parent, edit) for edit in sorted(root.glob("crates/*/must-fail/*.edit"))]
    edits = [(crate, edit) for crate, edit in edits if not only or crate.name in only]
    with concurrent.futures.ThreadPoolExecutor(lanes()) as pool:
        outcomes = pool.map(lambda one: judged(*one, lambda texts: told(root, *one, texts)), edits)
        for (crate, _), found in zip(edits, outcomes):
            known = labels.setdefault(crate.name, set())
            for label, outcome in found:
                twice = Wrong("two programs of the crate have this label") if label in known else None
                tally.note(f"{crate.name}/{label}", twice or outcome)
                known.add(label)
    return labels


def judge_contracts(root, labels, tally):
    rowed = set()
    for crates, function, cell in rows_of((root / "docs" / "CONTRACTS.md").read_text()):
        rowed.update((crate, function) for crate in crates)
        try:
            check_row(crates, cell, labels)
            tally.note(function, "", quiet=True)
        except Wrong as problem:
            tally.note(f"docs/CONTRACTS.md, {crates[0]}, {function}", problem)
    for crate in sorted((root / "crates").iterdir()):
        for function in public_functions(crate):
            if (crate.name, function.short()) not in rowed:
                tally.note(f"docs/CONTRACTS.md, {crate.name}", Wrong(f"no row for {function.name}"))


def main():
    only = sys.argv[1:]
    tally = Tally()
    try:
        # Nothing that is read may be built anew meanwhile.
        with building.locked():
            bring_up_to_date(ROOT, only)
            labels = judge_edits(ROOT, tally, only)
        if not only:
            judge_contracts(ROOT, labels, tally)
    except Wrong as problem:
        tally.note("the crates", problem)
    print(f"{tally.passed} passed, {tally.failed} failed")
    return 1 if tally.failed else 0


if __name__ == "__main__":
    sys.exit(main())
