"""Tries tests/edits.py: on made-up edits and logs, each good or bad in one way, and on a small crate that the prover is asked about.

    python3 tests/edits_test.py
"""

import contextlib
import io
import pathlib
import subprocess
import sys
import tempfile

import edits
from tally import case, run

SOURCE = """
mod inner;
pub mod place;

pub const LIMIT: u32 = 9;

pub struct Pair(u32, u32);

impl Pair {
    // The first.
    pub fn first(self) -> u32
        ensures { result ≡ self.0 }
    {
        self.0
    }

    fn hidden(self) -> u32 {
        self.1
    }
}

fn seven() -> u32
    ensures { result ≡ 7 }
{
    7
}

pub trait Third {
    fn third(&self) -> u32
        ensures { result ≡ 3 };
}

impl Third for Pair {
    fn third(&self) -> u32 {
        3
    }
}

impl From<Result<(), u32>> for Pair {
    fn from(given: Result<(), u32>) -> Pair {
        Pair(4, 4)
    }
}

pub fn eight() -> u32
    ensures { result ≡ 8 }
{
    seven() + 1
}
"""

MODULE = """
pub fn nine() -> u32
    ensures { result ≡ 9 }
{
    9
}
"""

INNER = """
pub fn ten() -> u32 {
    10
}

impl Pair {
    pub fn second(self) -> u32 {
        self.1
    }
}
"""

CONTRACTS = """
## `small`: numbers

| function | promise | shuts out | edits |
|---|---|---|---|
| `Pair::first(self)` | the first | the second | `a`, `b` |
| `Pair::second(self)` | the second | the first | `a`, `b` |
| `eight()` | 8 | 9 | `a`, and `large`'s `c` |
| `nine()` | 9 | 8 | `a`, `b` |
"""


def quietly(work, *arguments):
    with contextlib.redirect_stdout(io.StringIO()) as shown:
        work(*arguments)
    return shown.getvalue()


# Made-up edits and logs

SEVEN = ("seven", "src/lib.rt", "    7", "    6")
EIGHT = ("eight", "src/lib.rt", "seven() + 1", "seven() + 2")
NINE = ("nine", "src/place.rt", "    9", "    8")
THIRD = ("third", "src/lib.rt", "    3", "    2")
FROM = ("from", "src/lib.rt", "Pair(4, 4)", "Pair(4, 5)")
FIRST = ("first", "src/lib.rt", "self.0", "self.1")
LIMIT = ("limit", "src/lib.rt", "u32 = 9", "u32 = 8")
LAW = ("law", "specs/Law.antt", "law = 1", "law = 2")


def program(change, *more):
    label, file, old, new = change
    return "\n".join([f"# {label}: wrong.", *more, f"file: {file}", f"old: {old}", f"new: {new}", ""])


def error(file, name, message="the two types differ"):
    return f"./{file}:8:13: error: `{name}`: {message}"


def proof(function, name="returns", message="the two types differ", file="Answers.antt"):
    return error(f"proofs/{function}/{file}", name, message)


def note(file, text, begins):
    line = [s.startswith(begins) for s in text.splitlines()].index(True) + 1
    return f"note: {file}:{line}:5: it is not proved that what the function ensures holds when it returns (`returns`)"


def judged(edit, log, name="programs_1", verdict="logic=not-proved"):
    """The labels that pass and those that fail."""
    with tempfile.TemporaryDirectory() as folder:
        crate = pathlib.Path(folder) / "crates" / "small"
        write(crate / "src" / "lib.rt", SOURCE)
        write(crate / "src" / "place.rt", MODULE)
        write(crate / "specs" / "Law.antt", "law = 1\n")
        write(crate / "must-fail" / f"{name}.edit", edit)
        outcomes = edits.judged(crate, crate / "must-fail" / f"{name}.edit", lambda texts: lines(log, verdict))
    failed = [label for label, outcome in outcomes if isinstance(outcome, edits.Wrong)]
    return [label for label, _ in outcomes if label not in failed], failed


def write(path, text):
    path.parent.mkdir(parents=True, exist_ok=True)
    path.write_text(text)


def lines(*parts):
    return "\n".join(parts)


def programs_pass():
    four = program(SEVEN) + program(EIGHT) + program(NINE) + program(FIRST)
    log = lines(proof("seven"), proof("eight"), proof("place/nine"), proof("Pair/first"))
    case("four refused by themselves", judged(four, log) == (["seven", "eight", "nine", "first"], []))
    traits = lines(proof("PairThird/third"), proof("PairFromResultUnitU32/from"))
    case("two that belong to traits", judged(program(THIRD) + program(FROM), traits) == (["third", "from"], []))
    case("one that calls itself", judged(program(FIRST), proof("Pair/+first")) == (["first"], []))
    whole = lines(proof("seven", file="Proof.antt"), proof("eight", file="Proof.antt"))
    case("with whole proofs", judged(program(SEVEN) + program(EIGHT), whole) == (["seven", "eight"], []))
    case("a note in a function without proof file", judged(program(SEVEN), note("src/lib.rt", SOURCE, "fn seven")) == (["seven"], []))
    case("a note in a module", judged(program(NINE), note("src/place.rt", MODULE, "pub fn nine")) == (["nine"], []))
    case("a lone program without label", judged(program(SEVEN)[1:], proof("seven"), "alone") == (["alone"], []))
    law = program(LAW, "breaks: law-holds")
    case("a definition that breaks a law", judged(law, error("proofs/Laws.antt", "law-holds"), "law") == (["law"], []))
    limit = program(LIMIT, "breaks: place::nine")
    case("a const that breaks a function", judged(limit, proof("place/nine"), "limit") == (["limit"], []))
    both = lines(error("proofs/Laws.antt", "law-holds"), proof("place/nine"))
    case("two definitions, each with a law of its own", judged(law + limit, both, "laws") == (["law", "limit"], []))
    swapped = lines("# swap: swapped.", "file: src/lib.rt", "old: seven() + 1", "new: @ + 1", "old: @", "new: eight()")
    case("a text put in between", judged(swapped, proof("eight")) == (["swap"], []))


def harmless_fails():
    three = program(SEVEN) + program(EIGHT) + program(NINE)
    log = lines(proof("seven"), proof("eight"), "fn small::place::nine: proved")
    case("a harmless one among wrong ones", judged(three, log) == (["seven", "eight"], ["nine"]))
    for message in ("`close` was not admitted, so this cannot be checked", "`close` cannot be unfolded because it was not admitted: it has an error"):
        follows = lines(proof("seven"), proof("eight", "returns", message), proof("place/nine"))
        case("an error that only follows", judged(three, follows) == (["seven", "nine"], ["eight"]))
    after = "./proofs/eight/Answers.antt:8:13: error: 1 declaration that depends on `law`, which was rejected, was not checked: returns"
    case("what was not checked", judged(three, lines(proof("seven"), after, proof("place/nine"))) == (["seven", "nine"], ["eight"]))
    case("a note in another function", judged(program(SEVEN) + program(FIRST), note("src/lib.rt", SOURCE, "fn seven")) == (["seven"], ["first"]))
    case("an error in another function", judged(program(FIRST), proof("first")) == ([], ["first"]))
    case("an error in a law above", judged(program(SEVEN), error("proofs/Laws.antt", "law-holds")) == ([], ["seven"]))
    law = program(LAW, "breaks: law-holds")
    case("a law that only follows", judged(law, error("proofs/Laws.antt", "law-holds", "`x` was not admitted"), "law") == ([], ["law"]))
    case("another law", judged(law, error("proofs/Laws.antt", "law-again"), "law") == ([], ["law"]))
    for file in ("Answers.antt", "Proof.antt", "Invariants.antt"):
        case("a step of a proof isn't a law", judged(program(LAW, "breaks: returns"), proof("seven", file=file), "law") == ([], ["law"]))


def bad_form_fails():
    for message in (
        "`goal.returns-then-n-eq0`: module `Rattle.small.proofs.seven.Goals` has no `returns-then-n-eq0` that can be named from here",
        "record `Rattle.small.proofs.seven.Lts.View.In-Returns` has no field `if-n-eq0` (nearest: .if-n-eq1)",
        "`zero_goal` is not in scope",
    ):
        case("a proof that no longer fits", judged(program(SEVEN), lines(proof("seven"), proof("seven", "add-i", message))) == ([], ["seven"]))
    parts = lines(proof("seven"), proof("seven", "seven_spec", "expected type `tie.Need-add-result`", "Proof.antt"))
    case("a proof with other parts", judged(program(SEVEN), parts) == ([], ["seven"]))
    other = lines(proof("seven"), proof("seven", "invariant-loop-i", file="Invariants.antt"))
    case("a loop with other locals", judged(program(SEVEN), other) == ([], ["seven"]))
    for verdict in ("logic=proved functions=4", "rattle: no verdict: antt ran out of memory", "src/lib.rt:4:5: error[unknown-name]: no such name", ""):
        case("not refused", judged(program(SEVEN), proof("seven"), verdict=verdict) == ([], ["seven"]))
    case("no `breaks:`", judged(program(LAW), error("proofs/Laws.antt", "law-holds"), "law") == ([], ["law"]))
    case("no `breaks:` of a const", judged(program(LIMIT), proof("place/nine"), "limit") == ([], ["limit"]))
    beside = program(SEVEN) + program(LAW, "breaks: law-holds")
    case("a definition beside a function", judged(beside, lines(proof("seven"), error("proofs/Laws.antt", "law-holds"))) == (["seven"], ["law"]))
    twice = program(SEVEN) + program(("again", "src/lib.rt", "    6", "    5"))
    case("a function changed twice", judged(twice, proof("seven")) == ([], ["seven", "again"]))
    contract = program(("seven", "src/lib.rt", "result ≡ 7", "result ≡ 6")) + program(EIGHT)
    case("a contract beside a caller", judged(contract, lines(proof("seven"), proof("eight"))) == (["seven"], ["eight"]))
    case("a text that isn't there", judged(program(("x", "src/lib.rt", "no such text", "x")), proof("eight")) == ([], ["x"]))
    unnamed = program(SEVEN).replace("seven: ", "", 1) + program(EIGHT)
    case("no label in a shared file", judged(unnamed, lines(proof("seven"), proof("eight"))) == (["eight"], ["programs_1.edit"]))
    same = program(LAW, "breaks: law-holds") + program(LIMIT, "breaks: law-holds")
    case("two definitions with one law", judged(same, error("proofs/Laws.antt", "law-holds"), "laws") == ([], ["law", "limit"]))
    case("nothing replaced", judged("# seven: wrong.\n", proof("seven")) == ([], ["seven"]))
    case("an empty file", judged("", proof("seven"), "empty") == ([], ["empty"]))


# The table of contracts


def contracts_failed(text, labels):
    with tempfile.TemporaryDirectory() as folder:
        root = pathlib.Path(folder)
        write(root / "crates" / "small" / "src" / "lib.rt", SOURCE)
        write(root / "crates" / "small" / "src" / "place.rt", MODULE)
        write(root / "crates" / "small" / "src" / "inner.rt", INNER)
        write(root / "docs" / "CONTRACTS.md", text)
        count = edits.Tally()
        quietly(edits.judge_contracts, root, labels, count)
    return count.passed, count.failed


def contracts():
    labels = {"small": {"a", "b"}, "large": {"c"}}
    case("every row is right", contracts_failed(CONTRACTS, labels) == (4, 0))
    case("a label that isn't there", contracts_failed(CONTRACTS, labels | {"small": {"a"}}) == (1, 3))
    case("a label of another crate", contracts_failed(CONTRACTS, {"small": {"a", "b", "c"}}) == (3, 1))
    case("one label only", contracts_failed(CONTRACTS.replace("`a`, and", "and"), labels) == (3, 1))
    case("one label twice", contracts_failed(CONTRACTS.replace("8 | `a`, `b`", "8 | `a`, `a`"), labels) == (3, 1))
    case("a function without a row", contracts_failed(CONTRACTS.replace("`eight()`", "`eleven()`"), labels) == (4, 1))
    case("a method of a private module without a row", contracts_failed(CONTRACTS.replace("::second", "::third"), labels) == (4, 1))


# A small crate that the prover is asked about

PROVED = """#![tactic(auto)]

ghost use Rattle.std.specs.Prelude.{◌≡◌, ◌≤◌};

pub fn seven() -> u32
    ensures { result ≡ 7 }
{
    7
}

pub fn eight() -> u32
    ensures { result ≡ 8 }
{
    8
}

pub fn nine() -> u32
    ensures { result ≡ 9 }
{
    9
}

pub fn least(n: u32) -> u32
    ensures { result ≤ n }
{
    if n == 0 {
        return n;
    }
    n - 1
}
"""

EIGHT_ANSWER = """use Rattle.std.proofs.Common.{refl}
use Rattle.small.proofs.eight.Goals as goal

pub returns : goal.returns
returns c = refl
"""

LEAST_ANSWER = """use Rattle.std.proofs.Common.{rules}
use Rattle.small.proofs.least.Goals as goal

pub returns-then-n-eq0 : goal.returns-then-n-eq0
returns-then-n-eq0 c = search rules
"""


def prover():
    """`seven` has no proof file, `eight` and `least` have one. Another test for 0 leaves `least` right, but the goal that its proof answers is gone."""
    wrong = program(SEVEN) + program(("eight", "src/lib.rt", "    8", "    5"))
    harmless = program(("nine", "src/lib.rt", "    9", "    3 * 3"))
    shape = program(("turned", "src/lib.rt", "n == 0", "n < 1"))
    with tempfile.TemporaryDirectory() as folder:
        root = pathlib.Path(folder)
        crate = root / "crates" / "small"
        write(root / "crates.txt", "small:\n")
        write(crate / "src" / "lib.rt", PROVED)
        write(crate / "proofs" / "eight" / "Answers.antt", EIGHT_ANSWER)
        write(crate / "proofs" / "least" / "Answers.antt", LEAST_ANSWER)
        write(crate / "must-fail" / "programs_1.edit", wrong + harmless)
        write(crate / "must-fail" / "turned.edit", shape)
        shown = quietly(edits.bring_up_to_date, root, [])
        done = subprocess.run(["rt", "must-fail"], cwd=root, capture_output=True, text=True)
        shown += quietly(edits.judge_edits, root, edits.Tally())
        log = root / "target/edits/small/programs_1.log"
        asked = log.stat().st_mtime_ns
        again = quietly(edits.judge_edits, root, edits.Tally())
        case("what has not changed isn't asked again", again == shown and log.stat().st_mtime_ns == asked)
        write(crate / "must-fail" / "programs_1.edit", wrong + harmless.replace("3 * 3", "3 * 2"))
        changed = quietly(edits.judge_edits, root, edits.Tally())
        case("what has changed is", "small/nine: refused at src/lib.rt:17" in changed, changed)
    case("the prover refuses both files", done.returncode == 0 and done.stdout.count(": refused, as it must be") == 2, done.stdout)
    case("wrong with no proof file", "small/seven: refused at src/lib.rt:5" in shown, shown)
    case("wrong with a proof file", "small/eight: refused at proofs/eight/Answers.antt:5" in shown, shown)
    case("harmless among wrong ones", "FAILED small/nine: nine has no error of its own" in shown, shown)
    case("harmless in another shape", "FAILED small/turned: the proof of least no longer fits the code" in shown, shown)


if __name__ == "__main__":
    sys.exit(run(programs_pass, harmless_fails, bad_form_fails, contracts, prover))
