//! Comparison of Fresh, Feed and soundness, each record in lent words, also in too few of them.
//! With the feature own-record, the thin form of Feed is fed the same requests.

use crate::cases::{self, Rng};
use crate::judge::{self, RECORD_WORDS};
use crate::lent::{answer, words, Tally};
use crate::map_cases::{self, Map, HELD};
use crate::record_cases::{self, words_of, DAMAGES};
use second::{lowest, Record, MARK};

fn compare_fresh(tally: &mut Tally, rule: u32, n: u32) {
    compare_fresh_words(tally, rule, n, answer(RECORD_WORDS).part());
}

/// Fresh with this room lent for its record.
fn compare_fresh_words(tally: &mut Tally, rule: u32, n: u32, room: &[u32]) {
    let mut our_record = room.to_vec();
    let (number, place) = second::fresh_words(rule, n, &mut our_record);
    let mut theirs = answer(2);
    let mut their_record = words(room);
    judge::fresh(rule, n, their_record.part_mut(), theirs.part_mut());
    let right = theirs.is(&[number, place]) && their_record.is(&our_record);
    tally.case(right, || {
        format!(
            "fresh rule {rule} n {n} room {}: {:?}, not {number} {place}; record {}",
            room.len(),
            theirs.part(),
            difference(their_record.part(), &our_record)
        )
    });
}

fn compare_sound(tally: &mut Tally, record: &Record) {
    compare_sound_words(tally, &words_of(record));
}

fn compare_sound_words(tally: &mut Tally, given: &[u32]) {
    let ours = u32::from(second::sound_words(given));
    let lent = words(given);
    let mut theirs = answer(1);
    judge::sound(lent.part(), theirs.part_mut());
    let right = theirs.is(&[ours]) && lent.is(given);
    tally.case(right, || {
        format!("sound {}: {:?}, not {ours}", tell(given), theirs.part())
    });
}

/// Feeds one page to both, and answers the second program's next record.
fn compare_feed(tally: &mut Tally, record: &Record, page: u32) -> Record {
    let given = words_of(record);
    compare_feed_words(tally, &given, page, answer(RECORD_WORDS).part());
    compare_own_words(tally, &given, page);
    second::feed(record, page).next
}

/// Feed with this room lent for the next record.
fn compare_feed_words(tally: &mut Tally, given: &[u32], page: u32, room: &[u32]) {
    let mut our_next = room.to_vec();
    let ours = second::feed_words(given, page, &mut our_next);
    let ours = [ours.number, ours.place, ours.kind, ours.page];
    let lent = words(given);
    let mut next = words(room);
    let mut theirs = answer(4);
    judge::feed(lent.part(), page, next.part_mut(), theirs.part_mut());
    let right = theirs.is(&ours) && next.is(&our_next) && lent.is(given);
    tally.case(right, || {
        format!(
            "feed page {page} to {}, room {}: {:?}, not {ours:?}; next record {}",
            tell(given),
            room.len(),
            theirs.part(),
            difference(next.part(), &our_next)
        )
    });
}

#[cfg(feature = "own-record")]
fn compare_own_words(tally: &mut Tally, given: &[u32], page: u32) {
    let mut our_record = given.to_vec();
    let ours = second::feed_own_words(&mut our_record, page);
    let ours = [ours.number, ours.place, ours.kind, ours.page];
    let mut lent = words(given);
    let mut theirs = answer(4);
    judge::feed_own(lent.part_mut(), page, theirs.part_mut());
    let right = theirs.is(&ours) && lent.is(&our_record);
    tally.case(right, || {
        format!(
            "own record, page {page} to {}: {:?}, not {ours:?}; record {}",
            tell(given),
            theirs.part(),
            difference(lent.part(), &our_record)
        )
    });
}

#[cfg(not(feature = "own-record"))]
fn compare_own_words(_tally: &mut Tally, _given: &[u32], _page: u32) {}

/// The front of a record's words, and how many there are.
pub fn tell(given: &[u32]) -> String {
    format!(
        "{:?} of {} words",
        &given[..given.len().min(35)],
        given.len()
    )
}

/// The first word in which two records differ.
fn difference(theirs: &[u32], ours: &[u32]) -> String {
    for place in 0..ours.len() {
        if theirs[place] != ours[place] {
            return format!("word {place}: {}, not {}", theirs[place], ours[place]);
        }
    }
    "the same".to_string()
}

pub fn freshes(tally: &mut Tally) {
    for rule in 0..=6 {
        for n in 0..=258 {
            compare_fresh(tally, rule, n);
        }
    }
    for rule in [1, 2, 4, 257, 65_540, MARK] {
        for n in [512, 65_537, 1 << 31, MARK] {
            compare_fresh(tally, rule, n);
        }
    }
}

fn run(tally: &mut Tally, rule: u32, n: u32, trace: &[u32]) {
    let (_, _, mut record) = second::fresh(rule, n);
    for &page in trace {
        record = compare_feed(tally, &record, page);
    }
    compare_sound(tally, &record);
}

pub fn runs(tally: &mut Tally) {
    let mut rng = Rng::new(201);
    for case in 0..300 {
        let rule = [1, 2, 4][case % 3];
        let n = rng.between(1, 9) as u32;
        let t = cases::length(&mut rng, 70);
        let trace = cases::lent_trace(&mut rng, t, n);
        run(tally, rule, n, &trace);
    }
}

/// Runs to the last request and past it, with few frames; shorter ones with all 256.
pub fn long_runs(tally: &mut Tally) {
    let mut rng = Rng::new(202);
    for rule in [1, 2, 4] {
        let trace = cases::trace(&mut rng, 8_002, 7);
        run(tally, rule, 7, &trace);
        let trace: Vec<u32> = (0..900).map(|_| rng.below(400) as u32).collect();
        run(tally, rule, 256, &trace);
    }
}

/// Sound records that no run reaches, and some that a run does.
pub fn sound_records(tally: &mut Tally) {
    let mut rng = Rng::new(203);
    for case in 0..6_000 {
        let record = if case % 6 == 0 {
            record_cases::from_run(&mut rng)
        } else {
            record_cases::drawn(&mut rng)
        };
        compare_sound(tally, &record);
        let page = record_cases::page(&mut rng, &record);
        let next = compare_feed(tally, &record, page);
        compare_sound(tally, &next);
    }
}

/// Each kind of damage, on drawn records and on records of runs.
pub fn damaged_records(tally: &mut Tally) {
    let mut rng = Rng::new(204);
    for kind in 0..DAMAGES {
        for case in 0..300 {
            let mut record = if case % 3 == 0 {
                record_cases::from_run(&mut rng)
            } else {
                record_cases::drawn(&mut rng)
            };
            record_cases::damage(&mut rng, &mut record, kind);
            compare_sound(tally, &record);
            let page = record_cases::page(&mut rng, &record);
            compare_feed(tally, &record, page);
        }
    }
}

/// Every pair of words in which two entries might share a moment, one pair at a time.
pub fn shared_moments(tally: &mut Tally) {
    for rule in [1, 2, 4] {
        for first in [[1, 4, 2], [1, 4, 1], [4, 4, MARK]] {
            for second in [[3, 9, 5], [3, 9, 3], [7, 7, MARK]] {
                for here in 0..3 {
                    for moment in 0..12 {
                        let mut record = second::blank();
                        record.rule = rule;
                        record.frames = 2;
                        record.clock = 11;
                        record.map = lowest(2);
                        let mut changed = second;
                        changed[here] = moment;
                        record.entries[0] = [50, first[0], first[1], first[2]];
                        record.entries[1] = [60, changed[0], changed[1], changed[2]];
                        compare_sound(tally, &record);
                        compare_feed(tally, &record, 70);
                    }
                }
            }
        }
    }
}

/// Clocks around the last request, empty caches included, and the order 5, 4, 8.
pub fn last_requests(tally: &mut Tally) {
    for rule in [1, 2, 3, 4] {
        for clock in [0, 1, 7_998, 7_999, 8_000, 8_001, MARK] {
            for held in [0, 1, 2] {
                let mut record = second::blank();
                record.rule = rule;
                record.frames = 2;
                record.clock = clock;
                record.map = lowest(held);
                for frame in 0..held {
                    record.entries[frame as usize] = [50 + frame, frame, frame, MARK];
                }
                for page in [50, 51, 52, MARK - 1, MARK] {
                    compare_sound(tally, &record);
                    compare_feed(tally, &record, page);
                }
            }
        }
    }
}

/// Maps of every number of held frames: a hit, the load of a page or a drop, and the mark.
pub fn maps(tally: &mut Tally) {
    for held in 0..=256 {
        let rule = [1, 2, 4][held as usize % 3];
        for frames in [held.max(1), 256] {
            let record = map_cases::cache(rule, held, frames);
            compare_sound(tally, &record);
            for page in [700, 5, MARK] {
                let next = compare_feed(tally, &record, page);
                compare_sound(tally, &next);
            }
        }
    }
}

/// Every single bit of a map flipped and each other kind of damage, with frames enough and too few.
pub fn damaged_maps(tally: &mut Tally) {
    for (number, held) in HELD.into_iter().enumerate() {
        for frames in [3, held.max(1), 256] {
            let record = map_cases::cache([1, 2, 4][number % 3], held, frames);
            for map in map_cases::damaged(&record.map, frames) {
                compare_map(tally, &record, map);
            }
        }
    }
}

/// Any maps at all, some with the last request served.
pub fn random_maps(tally: &mut Tally) {
    let mut rng = Rng::new(207);
    for case in 0..1_500 {
        let map = map_cases::random(&mut rng);
        let held = second::ones(&map);
        let frames = rng.pick(&[3, held.max(1), 256]);
        let mut record = map_cases::cache([1, 2, 4][case % 3], held.min(frames), frames);
        if rng.one_in(8) {
            record.clock = 8_000;
        }
        compare_map(tally, &record, map);
    }
}

/// The map in each record that goes with it; fed are a new page and a held one, or the mark.
fn compare_map(tally: &mut Tally, record: &Record, map: Map) {
    let [kept, counted, spread] = map_cases::with_map(record, map);
    for (record, page) in [(kept, 5), (counted, 5), (counted, 700), (spread, MARK)] {
        compare_sound(tally, &record);
        compare_feed(tally, &record, page);
    }
}

/// How many words are lent for a record: few, as before the map, one too few, enough, and more.
pub const LENGTHS: [usize; 13] = [
    0, 1, 3, 4, 10, 11, 100, 1_024, 1_028, 1_034, 1_035, 1_036, 1_100,
];

/// So many words of a record; past its end some others.
pub fn cut_to(rng: &mut Rng, record: &Record, length: usize) -> Vec<u32> {
    let mut given = words_of(record);
    while given.len() < length {
        given.push(rng.word());
    }
    given.truncate(length);
    given
}

/// The words of a record before the map: the number of held frames stood in its place.
pub fn with_a_number(record: &Record) -> Vec<u32> {
    let held = second::ones(&record.map);
    let mut given = vec![record.rule, record.frames, record.clock, held];
    given.extend(record.entries.iter().flatten());
    given
}

/// Records in too few words, and with words behind them that aren't theirs.
pub fn short_records(tally: &mut Tally) {
    let mut rng = Rng::new(205);
    for case in 0..120 {
        let record = match case % 4 {
            0 => record_cases::ends_in_zero(&mut rng),
            1 => second::blank(),
            2 => record_cases::from_run(&mut rng),
            _ => record_cases::drawn(&mut rng),
        };
        let mut list = vec![with_a_number(&record)];
        list.extend(LENGTHS.map(|length| cut_to(&mut rng, &record, length)));
        for given in list {
            compare_sound_words(tally, &given);
            for page in [record_cases::page(&mut rng, &record), MARK] {
                compare_feed_words(tally, &given, page, answer(RECORD_WORDS).part());
                compare_own_words(tally, &given, page);
            }
        }
    }
}

/// Room that is too small for a record or larger than one, with 6 behind every other refusal.
pub fn short_rooms(tally: &mut Tally) {
    let mut rng = Rng::new(206);
    for length in LENGTHS {
        let room: Vec<u32> = (0..length).map(|_| rng.word()).collect();
        for rule in 0..=5 {
            for n in [0, 1, 3, 256, 257] {
                compare_fresh_words(tally, rule, n, &room);
            }
        }
        for case in 0..60 {
            let mut record = match case % 3 {
                0 => record_cases::ends_in_zero(&mut rng),
                1 => record_cases::from_run(&mut rng),
                _ => record_cases::drawn(&mut rng),
            };
            if rng.one_in(4) {
                record.clock = 8_000;
            }
            if rng.one_in(6) {
                record.rule = 3;
            }
            let own = rng.pick(&LENGTHS);
            let given = cut_to(&mut rng, &record, own.max(RECORD_WORDS - 1));
            for page in [record_cases::page(&mut rng, &record), MARK] {
                compare_feed_words(tally, &given, page, &room);
            }
        }
    }
}
