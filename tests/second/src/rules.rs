//! The four rules over a finished trace: which page each of them drops.
//! Count and Write a plan walk the trace from an empty cache, looking up and down the trace itself.

use crate::{refusal_of_call, Reply, FIFO, LRU, LRU_2, MARK, MIN};

/// A held page and the moment at which it was last loaded.
struct Held {
    page: u32,
    loaded: usize,
}

/// Count: the faults of a rule with n frames.
pub fn count(rule: u32, n: u32, trace: &[u32]) -> Reply {
    if let Some(refusal) = refusal_of_rule(rule) {
        return refusal;
    }
    if let Some(refusal) = refusal_of_call(n, trace) {
        return refusal;
    }
    let (_plan, faults) = walk(rule, n, trace);
    Reply::accepted(faults)
}

/// Write a plan: the rule's plan goes into the first T words, the others stay.
pub fn write_plan(rule: u32, n: u32, trace: &[u32], words: &mut [u32]) -> Reply {
    if let Some(refusal) = refusal_of_rule(rule) {
        return refusal;
    }
    if let Some(refusal) = refusal_of_call(n, trace) {
        return refusal;
    }
    if words.len() < trace.len() {
        return Reply::refused(6, 0);
    }
    let (plan, faults) = walk(rule, n, trace);
    for moment in 0..trace.len() {
        words[moment] = plan[moment];
    }
    Reply::accepted(faults)
}

fn refusal_of_rule(rule: u32) -> Option<Reply> {
    if rule == LRU || rule == FIFO || rule == MIN || rule == LRU_2 {
        None
    } else {
        Some(Reply::refused(1, 0))
    }
}

/// Starts empty, loads only on a fault, and drops one page on a fault in a full cache.
fn walk(rule: u32, n: u32, trace: &[u32]) -> (Vec<u32>, u32) {
    let mut held: Vec<Held> = Vec::new();
    let mut plan = Vec::new();
    let mut faults = 0;
    for moment in 0..trace.len() {
        let page = trace[moment];
        if is_held(&held, page) {
            plan.push(MARK);
            continue;
        }
        faults += 1;
        let newcomer = Held {
            page,
            loaded: moment,
        };
        if held.len() < n as usize {
            plan.push(MARK);
            held.push(newcomer);
        } else {
            let frame = frame_to_drop(rule, &held, trace, moment);
            plan.push(held[frame].page);
            held[frame] = newcomer;
        }
    }
    (plan, faults)
}

fn is_held(held: &[Held], page: u32) -> bool {
    for entry in held {
        if entry.page == page {
            return true;
        }
    }
    false
}

fn frame_to_drop(rule: u32, held: &[Held], trace: &[u32], moment: usize) -> usize {
    match rule {
        LRU => drop_lru(held, trace, moment),
        FIFO => drop_fifo(held),
        MIN => drop_min(held, trace, moment),
        _ => drop_lru_2(held, trace, moment),
    }
}

/// LRU: the page whose last request is earliest.
fn drop_lru(held: &[Held], trace: &[u32], moment: usize) -> usize {
    let mut lasts = Vec::new();
    for entry in held {
        lasts.push(last_request(entry, trace, moment));
    }
    frame_of_earliest(&lasts)
}

/// FIFO: the page loaded earliest. Hits aren't looked at, so none renews it.
fn drop_fifo(held: &[Held]) -> usize {
    let mut loads = Vec::new();
    for entry in held {
        loads.push(Some(entry.loaded));
    }
    frame_of_earliest(&loads)
}

/// MIN: the lowest page number among those never requested again, if there are any;
/// otherwise the page whose next request is latest.
fn drop_min(held: &[Held], trace: &[u32], moment: usize) -> usize {
    let mut never_again: Option<usize> = None;
    let mut latest: Option<(usize, usize)> = None;
    for frame in 0..held.len() {
        let page = held[frame].page;
        match next_request(page, trace, moment) {
            None => match never_again {
                Some(other) if held[other].page < page => {}
                _ => never_again = Some(frame),
            },
            Some(next) => match latest {
                Some((_, other)) if other > next => {}
                _ => latest = Some((frame, next)),
            },
        }
    }
    match (never_again, latest) {
        (Some(frame), _) => frame,
        (None, Some((frame, _))) => frame,
        (None, None) => unreachable!("a full cache holds a page"),
    }
}

/// LRU-2: among pages requested only once since they were last loaded, the one whose last
/// request is earliest; without such pages, the one whose second to last request is earliest.
fn drop_lru_2(held: &[Held], trace: &[u32], moment: usize) -> usize {
    let mut lasts_of_once = Vec::new();
    let mut seconds = Vec::new();
    let mut some_only_once = false;
    for entry in held {
        let last = last_request(entry, trace, moment);
        let second = second_to_last_request(entry, trace, moment);
        if second.is_none() {
            some_only_once = true;
            lasts_of_once.push(last);
        } else {
            lasts_of_once.push(None);
        }
        seconds.push(second);
    }
    if some_only_once {
        frame_of_earliest(&lasts_of_once)
    } else {
        frame_of_earliest(&seconds)
    }
}

/// The frame with the earliest moment; frames without one don't take part.
fn frame_of_earliest(moments: &[Option<usize>]) -> usize {
    let mut best: Option<(usize, usize)> = None;
    for frame in 0..moments.len() {
        if let Some(moment) = moments[frame] {
            match best {
                Some((_, earliest)) if earliest < moment => {}
                _ => best = Some((frame, moment)),
            }
        }
    }
    best.expect("some frame takes part").0
}

/// The page's last request before this moment. The load counts as one, so there always is one.
fn last_request(entry: &Held, trace: &[u32], moment: usize) -> Option<usize> {
    request_before(entry, trace, moment)
}

/// The request before the last one. What the page did before it was loaded is forgotten.
fn second_to_last_request(entry: &Held, trace: &[u32], moment: usize) -> Option<usize> {
    let last = last_request(entry, trace, moment)?;
    request_before(entry, trace, last)
}

/// Looks back from just before `end`, not past the moment at which the page was loaded.
fn request_before(entry: &Held, trace: &[u32], end: usize) -> Option<usize> {
    for moment in (entry.loaded..end).rev() {
        if trace[moment] == entry.page {
            return Some(moment);
        }
    }
    None
}

/// The first request of the page after this moment; none is "never again".
fn next_request(page: u32, trace: &[u32], moment: usize) -> Option<usize> {
    for later in moment + 1..trace.len() {
        if trace[later] == page {
            return Some(later);
        }
    }
    None
}
