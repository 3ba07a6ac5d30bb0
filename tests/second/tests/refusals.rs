//! Each refusal of the calls with a trace: its number, its place, and its turn.
//! A call with several things wrong gives the one that comes first in 1, 2, 3, 4, 6, 7.

use second::*;

const M: u32 = MARK;

fn refused(number: u32, place: u32) -> Reply {
    Reply {
        number,
        place,
        faults: 0,
    }
}

fn long_with_mark() -> Vec<u32> {
    let mut trace = vec![3; 8_001];
    trace[1] = M;
    trace
}

#[test]
fn count_in_order() {
    let long = long_with_mark();
    for rule in [0, 5, 6, M] {
        assert_eq!(count(rule, 0, &long), refused(1, 0));
    }
    assert_eq!(count(LRU, 0, &long), refused(2, 0));
    assert_eq!(count(LRU, 1, &long), refused(3, 0));
    assert_eq!(count(LRU, 1, &long[..8_000]), refused(4, 1));
}

#[test]
fn plan_in_order_keeps_all_words() {
    let long = long_with_mark();
    let good = vec![3; 8_000];
    let cases: [(u32, u32, &[u32], Reply); 5] = [
        (0, 0, &long, refused(1, 0)),
        (MIN, 257, &long, refused(2, 0)),
        (MIN, 256, &long, refused(3, 0)),
        (MIN, 256, &long[..8_000], refused(4, 1)),
        (MIN, 256, &good, refused(6, 0)),
    ];
    for (rule, n, trace, reply) in cases {
        let mut words = vec![42; 7_999];
        assert_eq!(write_plan(rule, n, trace, &mut words), reply);
        assert_eq!(words, vec![42; 7_999]);
    }
}

#[test]
fn check_in_order() {
    let long = long_with_mark();
    assert_eq!(check(0, &long, &[]), refused(2, 0));
    assert_eq!(check(1, &long, &[]), refused(3, 0));
    assert_eq!(check(1, &long[..3], &[]), refused(4, 1));
    // Too few words is told before the wrong entry among them.
    assert_eq!(check(1, &[5, 6], &[5]), refused(6, 0));
    assert_eq!(check(1, &[5, 6], &[5, 9]), refused(7, 0));
    // Words from T on are never read.
    assert_eq!(check(1, &[5, 6], &[M, 5, 99, 98]).number, 0);
}

#[test]
fn check_the_plan_rule() {
    // Held: only the mark will do, with room and without.
    assert_eq!(check(2, &[5, 5], &[M, 5]), refused(7, 1));
    assert_eq!(check(1, &[5, 5], &[M, 5]), refused(7, 1));
    // Room: only the mark will do.
    assert_eq!(check(2, &[5, 6], &[M, 5]), refused(7, 1));
    // Full: only a page held before this request will do.
    assert_eq!(check(1, &[5, 6], &[M, M]), refused(7, 1));
    assert_eq!(check(1, &[5, 6], &[M, 6]), refused(7, 1));
    assert_eq!(check(1, &[5, 6, 7], &[M, 5, 5]), refused(7, 2));
    assert_eq!(check(1, &[5, 6, 7], &[M, 5, 6]).faults, 3);
}

fn verdict(number: u32, place: u32, which: u32, faults: u32) -> Verdict {
    Verdict {
        number,
        place,
        which,
        faults,
    }
}

#[test]
fn better_of_two() {
    let trace = [5, 6, 7, 5];
    let three = [M, M, 6, M];
    let four = [M, M, 5, 6];
    let wrong = [M, M, 9, 6];
    let ask = |first: &[u32], second: &[u32]| {
        (
            better(2, &trace, first, second),
            better_words(2, &trace, first, second),
        )
    };
    assert_eq!(ask(&three, &four), (verdict(0, 0, 1, 3), (1, 4)));
    assert_eq!(ask(&four, &three), (verdict(0, 0, 2, 3), (2, 4)));
    assert_eq!(ask(&four, &four), (verdict(0, 0, 1, 4), (1, 4)));
    assert_eq!(ask(&wrong, &four), (verdict(0, 0, 2, 4), (2, 4)));
    assert_eq!(ask(&four, &wrong), (verdict(0, 0, 1, 4), (1, 4)));
    assert_eq!(ask(&wrong, &three[..3]), (verdict(7, 2, 0, 0), (0, 0)));
    assert_eq!(ask(&three[..3], &wrong), (verdict(6, 0, 0, 0), (0, 0)));
    assert_eq!(ask(&[], &three), (verdict(0, 0, 2, 3), (2, 4)));
}

#[test]
fn better_in_order() {
    let long = long_with_mark();
    assert_eq!(better(0, &long, &[], &[]), verdict(2, 0, 0, 0));
    assert_eq!(better(1, &long, &[], &[]), verdict(3, 0, 0, 0));
    assert_eq!(better(1, &long[..5], &[], &[]), verdict(4, 1, 0, 0));
    assert_eq!(better_words(1, &long[..5], &[], &[]), (0, 0));
    // Without requests no plan can be refused.
    assert_eq!(better(1, &[], &[], &[9]), verdict(0, 0, 1, 0));
    assert_eq!(better_words(1, &[], &[], &[9]), (1, 0));
}
