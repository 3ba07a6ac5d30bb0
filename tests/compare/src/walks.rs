//! Comparison of Count and Write a plan where a rule's walk over a whole trace might go astray:
//! pages of one hash, hands that pass over many moments, frames that go round, the largest sizes.
//! Each trace goes to all four rules, and Check must count a plan's faults as the walk did.

use crate::calls::compare_plan;
use crate::cases::{self, Rng};
use crate::judge;
use crate::lent::{answer, show, words, Tally};
use second::MARK;

pub fn walks(tally: &mut Tally) {
    let mut rng = Rng::new(109);
    few_frames(tally, &mut rng);
    many_frames(tally, &mut rng);
    long_runs(tally, &mut rng);
    last_moments(tally, &mut rng);
}

/// Short traces of each kind, with pages of each kind.
fn few_frames(tally: &mut Tally, rng: &mut Rng) {
    for _ in 0..25 {
        for kind in KINDS {
            for name in NAMES {
                let n = rng.pick(&[1, 2, 3, 3, 4, 5, 7, 9]);
                let t = cases::length(rng, 60);
                let numbers = kind(rng, t, n);
                compare_walks(tally, rng, n, &named(&numbers, name));
            }
        }
    }
}

/// The two largest caches, filled, and then with pages dropped from them.
fn many_frames(tally: &mut Tally, rng: &mut Rng) {
    for (kind, name) in KINDS.iter().zip([ZEROS_HASH, LASTS_HASH, THREE_HASHES]) {
        for n in [255, 256] {
            let numbers = kind(rng, 900, n);
            compare_walks(tally, rng, n, &named(&numbers, name));
        }
    }
}

/// Hits to one page, so many that a hand passes over hundreds or thousands of moments at once; then
/// another page and the same again, so that it isn't the one to go.
fn long_runs(tally: &mut Tally, rng: &mut Rng) {
    for n in [1, 2, 3] {
        for (hits, name) in [(300, LOW), (2_000, HIGH), (5_000, THREE_HASHES)] {
            let mut numbers = Vec::new();
            while numbers.len() < 8_000 {
                numbers.extend(again(rng, 9, n));
                let page = rng.pick(&numbers);
                numbers.extend(vec![page; hits]);
                let times = rng.between(1, 2);
                numbers.extend(vec![2_000 + numbers.len() as u32; times]);
                numbers.extend(vec![page; times]);
            }
            numbers.truncate(8_000);
            compare_walks(tally, rng, n, &named(&numbers, name));
        }
    }
}

/// The largest caches, full of pages that are hit in any order, and pages dropped up to the last moment
/// that a trace may have: there a page comes that wasn't requested before, or that of the moment before.
fn last_moments(tally: &mut Tally, rng: &mut Rng) {
    for (n, kind, name) in [(255, mixed as Kind, LOW), (256, again, HIGH)] {
        let mut numbers: Vec<u32> = (0..7_000).map(|_| rng.below(n) as u32).collect();
        numbers.extend(kind(rng, 999, n));
        for last in [2_000, numbers[7_998]] {
            numbers.truncate(7_999);
            numbers.push(last);
            compare_walks(tally, rng, n, &named(&numbers, name));
        }
    }
}

// ---- One trace ----

fn compare_walks(tally: &mut Tally, rng: &mut Rng, n: usize, trace: &[u32]) {
    let n = n as u32;
    let t = trace.len();
    for rule in 1..=4 {
        let walk = Walk::new(rule, n, trace);
        walk.count(tally);
        for length in [t, t + rng.between(1, 9)] {
            walk.plan(tally, &cases::random_words(rng, length, true));
        }
        for length in [0, t / 2, t.saturating_sub(1)] {
            let room = cases::random_words(rng, length, true);
            compare_plan(tally, rule, n, trace, &room);
        }
    }
}

/// A rule's plan and answer in the second program, once for all the calls that are to give them.
struct Walk<'a> {
    rule: u32,
    n: u32,
    trace: &'a [u32],
    plan: Vec<u32>,
    ours: [u32; 3],
}

impl Walk<'_> {
    fn new(rule: u32, n: u32, trace: &[u32]) -> Walk<'_> {
        let mut plan = vec![0; trace.len()];
        let ours = second::write_plan(rule, n, trace, &mut plan);
        let ours = [ours.number, ours.place, ours.faults];
        Walk {
            rule,
            n,
            trace,
            plan,
            ours,
        }
    }

    fn count(&self, tally: &mut Tally) {
        let lent = words(self.trace);
        let mut theirs = answer(3);
        judge::count(self.rule, self.n, lent.part(), theirs.part_mut());
        let right = theirs.is(&self.ours) && lent.is(self.trace);
        tally.case(right, || self.tell("count", theirs.part()));
    }

    /// The plan over the front of the room, and Check of the words that came.
    fn plan(&self, tally: &mut Tally, room: &[u32]) {
        let ours = [&self.plan, &room[self.plan.len()..]].concat();
        let lent = words(self.trace);
        let mut came = words(room);
        let mut theirs = answer(3);
        judge::plan(
            self.rule,
            self.n,
            lent.part(),
            came.part_mut(),
            theirs.part_mut(),
        );
        let right = theirs.is(&self.ours) && came.is(&ours) && lent.is(self.trace);
        tally.case(right, || {
            let told = self.tell("plan", theirs.part());
            format!("{told}; {}, not {}", show(came.part()), show(&ours))
        });
        let mut checked = answer(3);
        judge::check(self.n, lent.part(), came.part(), checked.part_mut());
        let right = checked.is(&self.ours) && came.is(&ours) && lent.is(self.trace);
        tally.case(right, || self.tell("check of the plan", checked.part()));
    }

    fn tell(&self, call: &str, theirs: &[u32]) -> String {
        let (rule, n, ours) = (self.rule, self.n, self.ours);
        let trace = show(self.trace);
        format!("{call} rule {rule} n {n} trace {trace}: {theirs:?}, not {ours:?}")
    }
}

// ---- Kinds of traces, in numbers that are named afterwards ----

type Kind = fn(&mut Rng, usize, usize) -> Vec<u32>;

const KINDS: [Kind; 3] = [again, round, mixed];

/// Pages that come, most of them twice, and some that came before: for LRU-2 now there is a page
/// requested only once, and now there is none.
pub fn again(rng: &mut Rng, t: usize, n: usize) -> Vec<u32> {
    let mut list = Vec::new();
    while list.len() < t {
        let page = rng.below(2 * n + 3) as u32;
        list.push(page);
        if !rng.one_in(4) {
            list.push(page);
        }
        if rng.one_in(3) {
            let back = rng.below(list.len().min(2 * n));
            list.push(list[list.len() - 1 - back]);
        }
    }
    list.truncate(t);
    list
}

/// Round and round over a few pages more than there are frames, with hits between.
fn round(rng: &mut Rng, t: usize, n: usize) -> Vec<u32> {
    let pages = n + rng.between(1, 3);
    let mut list: Vec<u32> = Vec::new();
    let mut next = 0;
    while list.len() < t {
        if next > 0 && rng.one_in(4) {
            let back = rng.below(n.min(list.len()));
            list.push(list[list.len() - 1 - back]);
        } else {
            list.push((next % pages) as u32);
            next += 1;
        }
    }
    list
}

/// By lot from a quarter more pages than there are frames.
fn mixed(rng: &mut Rng, t: usize, n: usize) -> Vec<u32> {
    (0..t).map(|_| rng.below(n + n / 4 + 2) as u32).collect()
}

// ---- Pages: the number 0 is page 0 or the last page ----

pub type Name = fn(u32) -> u32;

const LOW: Name = |number| number;
const HIGH: Name = |number| MARK - 1 - number;
pub const ZEROS_HASH: Name = |number| cases::of_hash(0, number);
pub const LASTS_HASH: Name = |number| cases::of_hash(1_564, number ^ 0x11_0C9E);
const THREE_HASHES: Name = |number| cases::of_hash(number % 3, number);
/// One hash, and of 32 numbers in a row the low half of the page is the same too.
pub const LOW_HALVES: Name = |number| cases::of_hash(0, number % 32 << 16 | number / 32);

pub const NAMES: [Name; 6] = [LOW, HIGH, ZEROS_HASH, LASTS_HASH, THREE_HASHES, LOW_HALVES];

fn named(numbers: &[u32], name: Name) -> Vec<u32> {
    numbers.iter().map(|&number| name(number)).collect()
}
