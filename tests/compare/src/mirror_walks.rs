//! Count and Write a plan with a mistake in the walk over a whole trace.

use crate::mirror::{hash, mistake};
use second::{FIFO, LRU, LRU_2, MARK};

/// A plan and its faults.
type Walked = (Vec<u32>, u32);

/// A held page, its last request and the one before, if it has been requested again.
struct Held {
    page: u32,
    last: usize,
    earlier: Option<usize>,
}

/// What a rule's walk comes to with the planted mistake, if it is one of this rule's walk.
pub fn wrongly_walked(rule: u32, n: u32, trace: &[u32]) -> Option<Walked> {
    let walked = match rule {
        LRU if mistake(81) => by_rule(FIFO, n, trace),
        LRU_2 if mistake(82) => walk(n, trace, passing_once),
        FIFO if mistake(83) => walk(n, trace, skipping_first(n as usize)),
        LRU if mistake(86) => walk(n, trace, with_short_hand(trace)),
        LRU if mistake(87) => walk(n, trace, |held| earliest(held, |one| one.last)),
        _ => return None,
    };
    Some(walked)
}

fn by_rule(rule: u32, n: u32, trace: &[u32]) -> Walked {
    let mut plan = vec![0; trace.len()];
    let reply = second::write_plan(rule, n, trace, &mut plan);
    (plan, reply.faults)
}

fn walk(n: u32, trace: &[u32], mut goes: impl FnMut(&[Held]) -> usize) -> Walked {
    let mut held: Vec<Held> = Vec::new();
    let mut plan = Vec::new();
    let mut faults = 0;
    for (last, &page) in trace.iter().enumerate() {
        let mut word = MARK;
        if let Some(one) = held.iter_mut().find(|one| one.page == page) {
            one.earlier = Some(one.last);
            one.last = last;
        } else {
            let earlier = None;
            let loaded = Held {
                page,
                last,
                earlier,
            };
            faults += 1;
            if held.len() < n as usize || found_beyond(&held, page) {
                held.push(loaded);
            } else {
                let frame = goes(&held);
                word = held[frame].page;
                held[frame] = loaded;
            }
        }
        plan.push(word);
    }
    (plan, faults)
}

/// Where frames beyond the cache are searched too, which have zeros in them.
fn found_beyond(held: &[Held], page: u32) -> bool {
    mistake(87) && page == 0 && held.iter().any(|one| hash(one.page) == hash(0))
}

fn earliest<T: Ord>(held: &[Held], moment: impl Fn(&Held) -> T) -> usize {
    (0..held.len())
        .min_by_key(|&frame| moment(&held[frame]))
        .unwrap()
}

/// The page whose second to last request is earliest, though another was requested only once.
fn passing_once(held: &[Held]) -> usize {
    earliest(held, |one| (one.earlier.is_none(), one.earlier, one.last))
}

/// From the last frame on to the second.
fn skipping_first(n: usize) -> impl FnMut(&[Held]) -> usize {
    let mut next = 0;
    move |_| {
        let frame = next;
        next = if next + 1 < n { next + 1 } else { 1 % n };
        frame
    }
}

/// A hand that stops after 4,095 moments, whether or not its page has been requested since.
fn with_short_hand(trace: &[u32]) -> impl FnMut(&[Held]) -> usize + '_ {
    let mut hand = 0;
    move |held| {
        let end = hand + 4_095;
        while hand < end && held.iter().all(|one| one.last != hand) {
            hand += 1;
        }
        let there = |one: &Held| one.page == trace[hand];
        held.iter().position(there).unwrap_or(0)
    }
}
