//! Document 01's "Trials on both sides": the cases marked P, then the limits.
//! `M` stands for the mark, which the document prints as a dash.

use second::*;

const M: u32 = MARK;
const A: [u32; 8] = [5, 6, 7, 5, 8, 6, 5, 7];

fn accepted(faults: u32) -> Reply {
    Reply {
        number: 0,
        place: 0,
        faults,
    }
}

fn refused(number: u32, place: u32) -> Reply {
    Reply {
        number,
        place,
        faults: 0,
    }
}

fn plan_is(rule: u32, n: u32, trace: &[u32], plan: &[u32], faults: u32) {
    let mut words = vec![77; trace.len() + 3];
    assert_eq!(write_plan(rule, n, trace, &mut words), accepted(faults));
    assert_eq!(&words[..trace.len()], plan);
    assert_eq!(&words[trace.len()..], [77, 77, 77]);
    assert_eq!(count(rule, n, trace), accepted(faults));
    assert_eq!(check(n, trace, &words), accepted(faults));
}

#[test]
fn plans_of_the_rules() {
    plan_is(MIN, 3, &A, &[M, M, M, M, 7, M, M, 5], 5);
    plan_is(LRU, 3, &A, &[M, M, M, M, 6, 7, M, 8], 6);
    plan_is(FIFO, 3, &A, &[M, M, M, M, 5, M, 6, M], 5);
    plan_is(MIN, 2, &A, &[M, M, 6, M, 7, 8, M, 5], 6);
}

#[test]
fn plans_of_others() {
    let plan = [M, M, 5, 6, 7, 5, 8, 6];
    assert_eq!(check(2, &A, &plan), accepted(8));
    for wrong in [9, M, 7] {
        let mut changed = plan;
        changed[2] = wrong;
        assert_eq!(check(2, &A, &changed), refused(7, 2));
    }
    assert_eq!(check(3, &A, &[M, M, M, 5, M, M, M, M]), refused(7, 3));
}

#[test]
fn nothing_dropped() {
    for rule in [LRU, FIFO, MIN, LRU_2] {
        plan_is(rule, 3, &[5, 6, 7], &[M, M, M], 3);
        plan_is(rule, 1, &[4, 4, 4], &[M, M, M], 1);
        plan_is(rule, 1, &[], &[], 0);
    }
    assert_eq!(check(1, &[], &[]), accepted(0));
}

#[test]
fn lru_2_forgets() {
    assert_eq!(count(LRU_2, 2, &[1, 2, 3, 1, 4, 5, 1]), accepted(7));
    // Page 1 has two requests, so 2, and then each newcomer, goes before it.
    plan_is(LRU_2, 2, &[1, 1, 2, 3, 4, 1], &[M, M, M, 2, 3, M], 4);
    // All have two: the one whose second to last request is earliest goes, not the last.
    plan_is(LRU_2, 2, &[1, 2, 2, 1, 3], &[M, M, M, M, 1], 3);
    plan_is(LRU, 2, &[1, 2, 2, 1, 3], &[M, M, M, M, 2], 3);
}

#[test]
fn easy_ways_to_get_it_wrong() {
    assert_eq!(count(FIFO, 3, &A).faults, 5);
    // The requested page isn't held yet, so it can't be dropped.
    assert_eq!(check(1, &[1, 2], &[M, 2]), refused(7, 1));
    // MIN drops dead pages first, the lowest number among them.
    plan_is(MIN, 3, &[9, 4, 6, 5, 6], &[M, M, M, 4, M], 4);
    // More frames can mean more FIFO faults.
    let trace = [1, 2, 3, 4, 1, 2, 5, 1, 2, 3, 4, 5];
    assert_eq!(count(FIFO, 3, &trace), accepted(9));
    assert_eq!(count(FIFO, 4, &trace), accepted(10));
}

#[test]
fn frames_at_the_limits() {
    for rule in [LRU, FIFO, MIN, LRU_2] {
        for frames in [1, 256] {
            assert_eq!(count(rule, frames, &A).number, 0);
        }
        for frames in [0, 257, MARK] {
            assert_eq!(count(rule, frames, &A), refused(2, 0));
        }
    }
    for frames in [1, 256] {
        assert_eq!(fresh(LRU, frames).0, 0);
    }
    for frames in [0, 257] {
        assert_eq!(fresh(LRU, frames), (2, 0, blank()));
        assert_eq!(check(frames, &A, &A), refused(2, 0));
    }
}

#[test]
fn lengths_at_the_limits() {
    for rule in [LRU, FIFO, MIN, LRU_2] {
        assert_eq!(count(rule, 1, &[3; 8_000]), accepted(1));
        assert_eq!(count(rule, 1, &[3; 8_001]), refused(3, 0));
    }
    assert_eq!(check(1, &[3; 8_000], &[M; 8_000]), accepted(1));
    assert_eq!(check(1, &[3; 8_001], &[M; 8_001]), refused(3, 0));
}

#[test]
fn pages_at_the_limits() {
    for rule in [LRU, FIFO, MIN, LRU_2] {
        assert_eq!(count(rule, 2, &[4_294_967_294, 0]), accepted(2));
        assert_eq!(count(rule, 2, &[4_294_967_294, M, M]), refused(4, 1));
    }
    let (_, _, record) = fresh(FIFO, 1);
    assert_eq!(feed(&record, 4_294_967_294).number, 0);
    assert_eq!(feed(&record, M).number, 4);
}

#[test]
fn clocks_at_the_limits() {
    for rule in [LRU, FIFO, LRU_2] {
        let (_, _, mut record) = fresh(rule, 2);
        record.clock = 7_999;
        let fed = feed(&record, 5);
        assert_eq!((fed.number, fed.kind, fed.next.clock), (0, 1, 8_000));
        assert!(sound(&fed.next));
        let again = feed(&fed.next, 5);
        assert_eq!((again.number, again.place, again.kind), (8, 0, 0));
        assert_eq!((again.page, again.next), (M, fed.next));
        // 4 is judged before 8.
        assert_eq!(feed(&fed.next, M).number, 4);
    }
}

/// The fewest faults that any plan can have, by trying every page wherever one must go.
fn fewest(n: usize, held: &[u32], rest: &[u32]) -> u32 {
    let Some((&page, after)) = rest.split_first() else {
        return 0;
    };
    if held.contains(&page) {
        return fewest(n, held, after);
    }
    let mut with_page = held.to_vec();
    with_page.push(page);
    if held.len() < n {
        return 1 + fewest(n, &with_page, after);
    }
    let mut best = u32::MAX;
    for frame in 0..held.len() {
        let mut next = with_page.clone();
        next.remove(frame);
        best = best.min(1 + fewest(n, &next, after));
    }
    best
}

/// Every trace of seven requests over four pages: no plan beats MIN, and MIN is reached.
#[test]
fn min_has_the_fewest_faults() {
    for code in 0..4u32.pow(7) {
        let trace: Vec<u32> = (0..7).map(|place| code / 4u32.pow(place) % 4).collect();
        for n in 1..=3 {
            let faults = count(MIN, n, &trace).faults;
            assert_eq!(faults, fewest(n as usize, &[], &trace), "n {n} {trace:?}");
            for rule in [LRU, FIFO, LRU_2] {
                assert!(count(rule, n, &trace).faults >= faults);
            }
        }
    }
}
