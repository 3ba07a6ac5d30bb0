//! Plans: the checker of anybody's plan, and the better of two plans.
//! A plan has one word for each request: the page to drop, or the mark.

use crate::{refusal_of_call, Reply, MARK};

/// The answer to "which plan has fewer faults": 1 or 2, and that plan's count.
/// A refusal has its number and place, and 0 for the rest.
#[derive(Clone, Copy, Debug, PartialEq, Eq)]
pub struct Verdict {
    pub number: u32,
    pub place: u32,
    pub which: u32,
    pub faults: u32,
}

/// Check: reads the first T words of the plan.
pub fn check(m: u32, trace: &[u32], words: &[u32]) -> Reply {
    if let Some(refusal) = refusal_of_call(m, trace) {
        return refusal;
    }
    check_words(m, trace, words)
}

/// Better of two, the verdict. 2, 3 and 4 come first; 6 and 7 belong to each plan separately.
pub fn better(m: u32, trace: &[u32], first: &[u32], second: &[u32]) -> Verdict {
    if let Some(refusal) = refusal_of_call(m, trace) {
        return verdict_of(0, refusal);
    }
    let one = check_words(m, trace, first);
    let two = check_words(m, trace, second);
    let one_accepted = one.number == 0;
    let two_accepted = two.number == 0;
    if one_accepted && two_accepted {
        if two.faults < one.faults {
            return verdict_of(2, two);
        }
        return verdict_of(1, one);
    }
    if one_accepted {
        return verdict_of(1, one);
    }
    if two_accepted {
        return verdict_of(2, two);
    }
    verdict_of(0, one)
}

/// Better of two, the words: which plan they are in, and how many from its front.
/// A refused verdict gives 0 and 0, which is the empty part at the front of the first plan.
pub fn better_words(m: u32, trace: &[u32], first: &[u32], second: &[u32]) -> (u32, usize) {
    let verdict = better(m, trace, first, second);
    if verdict.number != 0 {
        return (0, 0);
    }
    (verdict.which, trace.len())
}

fn verdict_of(which: u32, reply: Reply) -> Verdict {
    Verdict {
        number: reply.number,
        place: reply.place,
        which,
        faults: reply.faults,
    }
}

/// What is left to refuse once frames and trace are in order: 6, then 7.
fn check_words(m: u32, trace: &[u32], words: &[u32]) -> Reply {
    if words.len() < trace.len() {
        return Reply::refused(6, 0);
    }
    let mut held: Vec<u32> = Vec::new();
    let mut faults = 0;
    for moment in 0..trace.len() {
        let page = trace[moment];
        let entry = words[moment];
        if !entry_allowed(m, &held, page, entry) {
            return Reply::refused(7, moment as u32);
        }
        if held.contains(&page) {
            continue;
        }
        faults += 1;
        if entry != MARK {
            held.retain(|&other| other != entry);
        }
        held.push(page);
    }
    Reply::accepted(faults)
}

/// The plan rule for one entry, against the pages held before this request.
fn entry_allowed(m: u32, held: &[u32], page: u32, entry: u32) -> bool {
    if held.contains(&page) {
        return entry == MARK;
    }
    if held.len() < m as usize {
        return entry == MARK;
    }
    held.contains(&entry)
}
