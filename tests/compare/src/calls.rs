//! Comparison of the calls with a trace: Count, Write a plan, Check, Better of two.
//! Everything lent is compared afterwards, guards and words past the end included.

use crate::cases::{self, Rng};
use crate::judge;
use crate::lent::{answer, show, words, Tally};
use second::MARK;

const M: u32 = MARK;
const A: [u32; 8] = [5, 6, 7, 5, 8, 6, 5, 7];

fn compare_count(tally: &mut Tally, rule: u32, n: u32, trace: &[u32]) {
    let ours = second::count(rule, n, trace);
    let ours = [ours.number, ours.place, ours.faults];
    let lent = words(trace);
    let mut theirs = answer(3);
    judge::count(rule, n, lent.part(), theirs.part_mut());
    let right = theirs.is(&ours) && lent.is(trace);
    tally.case(right, || {
        let theirs = theirs.part();
        format!(
            "count rule {rule} n {n} trace {}: {theirs:?}, not {ours:?}",
            show(trace)
        )
    });
}

pub fn compare_plan(tally: &mut Tally, rule: u32, n: u32, trace: &[u32], room: &[u32]) {
    let mut our_words = room.to_vec();
    let ours = second::write_plan(rule, n, trace, &mut our_words);
    let ours = [ours.number, ours.place, ours.faults];
    let lent = words(trace);
    let mut their_words = words(room);
    let mut theirs = answer(3);
    judge::plan(
        rule,
        n,
        lent.part(),
        their_words.part_mut(),
        theirs.part_mut(),
    );
    let right = theirs.is(&ours) && their_words.is(&our_words) && lent.is(trace);
    tally.case(right, || {
        format!(
            "plan rule {rule} n {n} trace {}: {:?} {}, not {ours:?} {}",
            show(trace),
            theirs.part(),
            show(their_words.part()),
            show(&our_words)
        )
    });
}

fn compare_check(tally: &mut Tally, m: u32, trace: &[u32], plan: &[u32]) {
    let ours = second::check(m, trace, plan);
    let ours = [ours.number, ours.place, ours.faults];
    let lent = words(trace);
    let lent_plan = words(plan);
    let mut theirs = answer(3);
    judge::check(m, lent.part(), lent_plan.part(), theirs.part_mut());
    let right = theirs.is(&ours) && lent.is(trace) && lent_plan.is(plan);
    tally.case(right, || {
        format!(
            "check m {m} trace {} plan {}: {:?}, not {ours:?}",
            show(trace),
            show(plan),
            theirs.part()
        )
    });
}

fn compare_better(tally: &mut Tally, m: u32, trace: &[u32], first: &[u32], second: &[u32]) {
    let ours = second::better(m, trace, first, second);
    let ours = [ours.number, ours.place, ours.which, ours.faults];
    let lent = [words(trace), words(first), words(second)];
    let mut theirs = answer(4);
    judge::better(
        m,
        lent[0].part(),
        lent[1].part(),
        lent[2].part(),
        theirs.part_mut(),
    );
    let kept = lent[0].is(trace) && lent[1].is(first) && lent[2].is(second);
    tally.case(theirs.is(&ours) && kept, || {
        format!(
            "better m {m} trace {} first {} second {}: {:?}, not {ours:?}",
            show(trace),
            show(first),
            show(second),
            theirs.part()
        )
    });
    for room in [trace.len() + 2, trace.len() / 2] {
        compare_better_words(tally, m, trace, first, second, room);
    }
}

/// The words themselves, over the front of so many lent ones, and how many they are.
fn compare_better_words(
    tally: &mut Tally,
    m: u32,
    trace: &[u32],
    first: &[u32],
    second: &[u32],
    room: usize,
) {
    let (which, length) = second::better_words(m, trace, first, second);
    let chosen = if which == 2 { second } else { first };
    let mut theirs = answer(room);
    let mut ours = theirs.part().to_vec();
    let fits = length.min(room);
    ours[..fits].copy_from_slice(&chosen[..fits]);
    let lent = [words(trace), words(first), words(second)];
    let mut told = answer(1);
    judge::better_words(
        m,
        lent[0].part(),
        lent[1].part(),
        lent[2].part(),
        theirs.part_mut(),
        told.part_mut(),
    );
    let kept = lent[0].is(trace) && lent[1].is(first) && lent[2].is(second);
    let right = theirs.is(&ours) && told.is(&[length as u32]) && kept;
    tally.case(right, || {
        format!(
            "words m {m} trace {} first {} second {}: {:?} {}, not {length} {}",
            show(trace),
            show(first),
            show(second),
            told.part(),
            show(theirs.part()),
            show(&ours)
        )
    });
}

/// Rubbish to write a plan into: mostly long enough, sometimes not.
fn plan_room(rng: &mut Rng, t: usize) -> Vec<u32> {
    let length = match rng.below(8) {
        0 if t > 0 => t - 1,
        1 if t > 0 => rng.below(t),
        2..=4 => t + rng.between(1, 12),
        _ => t,
    };
    cases::random_words(rng, length, true)
}

/// Document 01's trials, with each rule and in each call that they are about.
pub fn trials(tally: &mut Tally) {
    let traces: [&[u32]; 5] = [&A, &[5, 6, 7], &[4, 4, 4], &[], &[1, 2, 3, 1, 4, 5, 1]];
    for trace in traces {
        for n in [1, 2, 3, 256, 0, 257] {
            for rule in 0..=6 {
                compare_count(tally, rule, n, trace);
                compare_plan(tally, rule, n, trace, &[9; 11]);
            }
        }
    }
    let plan = [M, M, 5, 6, 7, 5, 8, 6];
    compare_check(tally, 2, &A, &plan);
    for wrong in [9, M, 7] {
        let mut changed = plan;
        changed[2] = wrong;
        compare_check(tally, 2, &A, &changed);
        compare_better(tally, 2, &A, &changed, &plan);
        compare_better(tally, 2, &A, &plan, &changed);
        compare_better(tally, 2, &A, &changed, &[M, M]);
    }
    compare_check(tally, 3, &A, &[M, M, M, 5, M, M, M, M]);
    compare_check(tally, 1, &[], &[]);
    compare_better(tally, 1, &[], &[], &[]);
    compare_better(tally, 2, &A, &plan, &plan);
    for page in [MARK - 1, MARK] {
        for rule in 1..=4 {
            compare_count(tally, rule, 1, &[page, 0, page]);
        }
    }
}

pub fn counts(tally: &mut Tally) {
    let mut rng = Rng::new(101);
    for case in 0..20_000 {
        let most = if case % 40 == 0 { 700 } else { 60 };
        let n = cases::frames(&mut rng);
        let t = cases::length(&mut rng, most);
        let trace = cases::lent_trace(&mut rng, t, n);
        compare_count(tally, cases::rule(&mut rng), n, &trace);
    }
}

/// Every number of frames from 0 to 258, with 2n + 30 requests.
pub fn counts_every_size(tally: &mut Tally) {
    let mut rng = Rng::new(102);
    for n in 0..=258 {
        let trace = cases::trace(&mut rng, 2 * n as usize + 30, n);
        for rule in 1..=4 {
            compare_count(tally, rule, n, &trace);
        }
    }
}

pub fn plans(tally: &mut Tally) {
    let mut rng = Rng::new(103);
    for case in 0..12_000 {
        let most = if case % 40 == 0 { 600 } else { 60 };
        let n = cases::frames(&mut rng);
        let t = cases::length(&mut rng, most);
        let trace = cases::lent_trace(&mut rng, t, n);
        let room = plan_room(&mut rng, t);
        compare_plan(tally, cases::rule(&mut rng), n, &trace, &room);
    }
}

pub fn checks(tally: &mut Tally) {
    let mut rng = Rng::new(104);
    for case in 0..16_000 {
        let most = if case % 40 == 0 { 600 } else { 60 };
        let m = cases::frames(&mut rng);
        let t = cases::length(&mut rng, most);
        let trace = cases::lent_trace(&mut rng, t, m);
        let plan = cases::lent_plan(&mut rng, m, &trace);
        compare_check(tally, m, &trace, &plan);
    }
}

pub fn betters(tally: &mut Tally) {
    let mut rng = Rng::new(105);
    for _ in 0..10_000 {
        let m = cases::frames(&mut rng);
        let t = cases::length(&mut rng, 40);
        let trace = cases::lent_trace(&mut rng, t, m);
        let first = cases::lent_plan(&mut rng, m, &trace);
        let second = match rng.below(6) {
            0 => first.clone(),
            _ => cases::lent_plan(&mut rng, m, &trace),
        };
        compare_better(tally, m, &trace, &first, &second);
    }
}

/// Pages that an index can't tell apart by their hashes, in every call.
pub fn shared_hashes(tally: &mut Tally) {
    let mut rng = Rng::new(108);
    for case in 0..1_500 {
        let (most, n) = match case % 50 {
            0 => (700, rng.between(60, 256) as u32),
            _ => (60, rng.between(1, 9) as u32),
        };
        let t = cases::length(&mut rng, most);
        let mut trace = cases::trace(&mut rng, t, n);
        cases::crowd(&mut rng, &mut trace);
        compare_count(tally, rng.between(1, 4) as u32, n, &trace);
        let room = plan_room(&mut rng, t);
        compare_plan(tally, 3, n, &trace, &room);
        let plan = cases::lent_plan(&mut rng, n, &trace);
        compare_check(tally, n, &trace, &plan);
        let other = cases::somebodys_plan(&mut rng, n, &trace);
        compare_better(tally, n, &trace, &plan, &other);
    }
    crowded_frames(tally, &mut rng);
}

/// 256 frames full of pages of one hash, that of the mark, with 44 pages more to come.
fn crowded_frames(tally: &mut Tally, rng: &mut Rng) {
    let (n, turns) = (256, 900);
    let trace: Vec<u32> = (0..turns)
        .map(|t| {
            if t < 600 {
                t % 300
            } else {
                rng.below(300) as u32
            }
        })
        .map(|number| cases::of_hash(cases::MARK_HASH, number))
        .collect();
    for rule in 1..=4 {
        compare_count(tally, rule, n, &trace);
        let room = plan_room(rng, trace.len());
        compare_plan(tally, rule, n, &trace, &room);
    }
    for _ in 0..20 {
        let plan = cases::lent_plan(rng, n, &trace);
        compare_check(tally, n, &trace, &plan);
    }
}

/// Traces of 7,999, 8,000 and 8,001 requests in every call, with few frames and with many.
pub fn longest(tally: &mut Tally) {
    let mut rng = Rng::new(106);
    for t in [7_999, 8_000, 8_001] {
        for n in [1, 3, 40] {
            let trace = cases::trace(&mut rng, t, n);
            long_calls(tally, &mut rng, n, &trace);
            let mut marked = trace.clone();
            marked[t - 1] = MARK;
            long_calls(tally, &mut rng, n, &marked);
        }
    }
}

fn long_calls(tally: &mut Tally, rng: &mut Rng, n: u32, trace: &[u32]) {
    let t = trace.len();
    for rule in 1..=4 {
        compare_count(tally, rule, n, trace);
        for length in [t - 1, t, t + 5] {
            let room = cases::random_words(rng, length, true);
            compare_plan(tally, rule, n, trace, &room);
        }
    }
    let plan = cases::somebodys_plan(rng, n, trace);
    let other = cases::somebodys_plan(rng, n, trace);
    let mut wrong = plan.clone();
    wrong[t - 1] = trace[t - 1];
    for words in [&plan[..], &plan[..t - 1], &wrong[..]] {
        compare_check(tally, n, trace, words);
        compare_better(tally, n, trace, words, &other);
        compare_better(tally, n, trace, &other, words);
    }
}

/// The largest cache on the longest trace, of three of the kinds that speed is measured on.
pub fn largest(tally: &mut Tally) {
    let mut rng = Rng::new(107);
    let uniform: Vec<u32> = (0..8_000).map(|_| rng.below(400) as u32).collect();
    let sweep: Vec<u32> = (0..8_000).map(|moment| moment % 257).collect();
    let skewed: Vec<u32> = (0..8_000)
        .map(|_| cases::skewed(&mut rng, 2_000) as u32)
        .collect();
    for trace in [uniform, sweep, skewed] {
        for rule in 1..=4 {
            compare_plan(tally, rule, 256, &trace, &[7; 8_003]);
        }
        let plan = cases::somebodys_plan(&mut rng, 256, &trace);
        compare_check(tally, 256, &trace, &plan);
    }
}
