//! The cache record: each condition of soundness by itself, and Feed on sound records,
//! those of a run and those that no run reaches.

use second::*;

const M: u32 = MARK;

/// A full cache of three: requested once, twice and three times since loading.
fn three(rule: u32) -> Record {
    let mut record = blank();
    record.rule = rule;
    record.frames = 3;
    record.clock = 20;
    record.map = lowest(3);
    record.entries[0] = [50, 9, 9, M];
    record.entries[1] = [60, 2, 19, 2];
    record.entries[2] = [70, 3, 8, 5];
    record
}

fn changed(change: impl Fn(&mut Record)) -> bool {
    let mut record = three(LRU);
    change(&mut record);
    sound(&record)
}

#[test]
fn sound_records() {
    for rule in [LRU, FIFO, LRU_2] {
        assert!(sound(&three(rule)));
        for frames in [1, 2, 255, 256] {
            assert!(sound(&fresh(rule, frames).2));
        }
    }
    assert!(changed(|r| r.clock = 8_000));
    assert!(changed(|r| r.frames = 256));
    // An entry may repeat its own moment, and two entries may both have the mark.
    assert!(changed(|r| r.entries[1] = [60, 7, 7, M]));
}

#[test]
fn each_condition_alone() {
    assert!(!sound(&blank()));
    for rule in [0, 3, 5, 6, M] {
        assert!(!changed(|r| r.rule = rule));
    }
    for frames in [0, 2, 257, M] {
        assert!(!changed(|r| r.frames = frames));
    }
    for clock in [0, 2, 19, 8_001, M] {
        assert!(!changed(|r| r.clock = clock));
    }
    for held in [0, 2, 4, 64, 256] {
        assert!(!changed(|r| r.map = lowest(held)));
    }
    // Pages: the mark, and one twice.
    assert!(!changed(|r| r.entries[0][0] = M));
    assert!(!changed(|r| r.entries[0][0] = 60));
    // Loaded after last; last not below the clock.
    assert!(!changed(|r| r.entries[1] = [60, 19, 18, 18]));
    assert!(!changed(|r| r.entries[1][2] = 20));
    assert!(!changed(|r| r.entries[0] = [50, M, M, M]));
    // The earlier moment.
    assert!(!changed(|r| r.entries[0][3] = 9));
    assert!(!changed(|r| r.entries[0][3] = 1));
    assert!(!changed(|r| r.entries[2][3] = M));
    assert!(!changed(|r| r.entries[2][3] = 1));
    assert!(!changed(|r| r.entries[2][3] = 8));
    assert!(!changed(|r| r.entries[2][3] = 10));
    // The same moment in two entries.
    assert!(!changed(|r| r.entries[0] = [50, 8, 8, M]));
    assert!(!changed(|r| r.entries[0] = [50, 5, 5, M]));
    assert!(!changed(|r| r.entries[0] = [50, 3, 3, M]));
    assert!(!changed(|r| r.entries[1] = [60, 5, 19, 6]));
    // What lies past the held entries.
    for word in 0..4 {
        assert!(!changed(|r| r.entries[3][word] = 0));
        assert!(!changed(|r| r.entries[255][word] = 0));
    }
}

#[test]
fn fresh_refuses() {
    for rule in [0, 3, 5, M] {
        assert_eq!(fresh(rule, 0), (1, 0, blank()));
    }
    assert_eq!(fresh(LRU_2, 0), (2, 0, blank()));
    let (number, place, record) = fresh(LRU_2, 256);
    assert_eq!((number, place), (0, 0));
    assert_eq!((record.rule, record.frames), (4, 256));
    assert_eq!((record.clock, record.map), (0, [0; 4]));
    assert_eq!(record.entries, blank().entries);
}

#[test]
fn feed_goes_by_the_entries() {
    for (rule, page, frame) in [(LRU, 70, 2), (FIFO, 60, 1), (LRU_2, 50, 0)] {
        let record = three(rule);
        let fed = feed(&record, 80);
        let mut next = record;
        next.clock = 21;
        next.entries[frame] = [80, 20, 20, M];
        assert_eq!((fed.number, fed.place, fed.kind), (0, 0, 2));
        assert_eq!((fed.page, fed.next), (page, next));
    }
    // All requested twice or more: LRU-2 goes by the earlier moments.
    let mut record = three(LRU_2);
    record.entries[0] = [50, 9, 11, 9];
    assert_eq!(feed(&record, 80).page, 60);
}

#[test]
fn feed_with_room_and_hits() {
    for rule in [LRU, FIFO, LRU_2] {
        let mut record = three(rule);
        record.frames = 5;
        let fed = feed(&record, 80);
        let mut next = record;
        next.clock = 21;
        next.map = lowest(4);
        next.entries[3] = [80, 20, 20, M];
        assert_eq!((fed.number, fed.kind, fed.page), (0, 1, M));
        assert_eq!(fed.next, next);
        for (frame, page) in [(0, 50), (1, 60), (2, 70)] {
            let fed = feed(&record, page);
            let mut next = record;
            next.clock = 21;
            next.entries[frame][3] = record.entries[frame][2];
            next.entries[frame][2] = 20;
            assert_eq!((fed.number, fed.kind, fed.page), (0, 0, M));
            assert_eq!(fed.next, next);
            assert!(sound(&fed.next));
        }
    }
}

#[test]
fn feed_refuses_in_order() {
    let mut record = three(LRU);
    record.clock = 8_000;
    assert_eq!(feed(&record, 50).number, 8);
    assert_eq!(feed(&record, M).number, 4);
    record.rule = 3;
    let fed = feed(&record, M);
    assert_eq!((fed.number, fed.place, fed.kind), (5, 0, 0));
    assert_eq!((fed.page, fed.next), (M, record));
}

#[test]
fn thin_form_answers_alike() {
    let mut own = fresh(LRU_2, 2).2;
    for page in [1, 2, 2, 3, M, 1, 4] {
        let fed = feed(&own, page);
        let outcome = feed_own(&mut own, page);
        assert_eq!((outcome.number, outcome.place), (fed.number, fed.place));
        assert_eq!((outcome.kind, outcome.page), (fed.kind, fed.page));
        assert_eq!(own, fed.next);
    }
}

/// Feeding a trace from a fresh record gives the plan and count of the same rule.
#[test]
fn feeding_is_planning() {
    let mut seed = 12_345u32;
    for round in 0..600 {
        let rule = [LRU, FIFO, LRU_2][round % 3];
        let n = 1 + round as u32 % 7;
        let mut trace = Vec::new();
        for _ in 0..90 {
            seed = seed.wrapping_mul(1_664_525).wrapping_add(1_013_904_223);
            trace.push((seed >> 16) % (2 + n + round as u32 % 5));
        }
        let mut record = fresh(rule, n).2;
        let mut plan = Vec::new();
        let mut faults = 0;
        for &page in &trace {
            let fed = feed(&record, page);
            assert_eq!(fed.number, 0);
            plan.push(fed.page);
            if fed.kind != 0 {
                faults += 1;
            }
            record = fed.next;
            assert!(sound(&record));
        }
        let mut words = vec![0; trace.len()];
        assert_eq!(write_plan(rule, n, &trace, &mut words).faults, faults);
        assert_eq!(words, plan);
    }
}
