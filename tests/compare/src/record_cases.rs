//! Records for the comparison: from runs, sound ones that no run reaches, and damaged ones.
//! A record is laid out as 1,035 words: rule, frames, clock, the map's halves, then the entries.

use crate::cases::{self, Rng};
use crate::judge::RECORD_WORDS;
use crate::map_cases::flipped;
use second::{lowest, ones, Record, MARK};

/// The record as words, in the order that the exports take.
pub fn words_of(record: &Record) -> Vec<u32> {
    let mut words = vec![record.rule, record.frames, record.clock];
    for word in record.map {
        words.extend([word as u32, (word >> 32) as u32]);
    }
    for entry in &record.entries {
        words.extend_from_slice(entry);
    }
    assert_eq!(words.len(), RECORD_WORDS);
    words
}

fn feedable_rule(rng: &mut Rng) -> u32 {
    rng.pick(&[1, 2, 4])
}

fn some_frames(rng: &mut Rng) -> u32 {
    match rng.below(10) {
        0 => 256,
        1 => rng.between(1, 256) as u32,
        _ => rng.between(1, 9) as u32,
    }
}

/// A record as a run leaves it.
pub fn from_run(rng: &mut Rng) -> Record {
    let rule = feedable_rule(rng);
    let frames = rng.between(1, 9) as u32;
    let (_, _, mut record) = second::fresh(rule, frames);
    let t = cases::length(rng, 40);
    for page in cases::trace(rng, t, frames) {
        record = second::feed(&record, page).next;
    }
    record
}

/// A sound record with all 256 frames held whose last word is 0: with that word lost and a zero
/// read in its place it would pass for sound.
pub fn ends_in_zero(rng: &mut Rng) -> Record {
    let mut record = second::blank();
    record.rule = feedable_rule(rng);
    record.frames = 256;
    record.map = lowest(256);
    record.clock = rng.pick(&[257, 600, 7_999]);
    for frame in 0..255 {
        record.entries[frame as usize] = [1_000 + frame, 1 + frame, 1 + frame, MARK];
    }
    record.entries[255] = [rng.below(900) as u32, 0, record.clock - 1, 0];
    record
}

/// A sound record with moments drawn by lot: often room is left though much has happened,
/// and the frames aren't in the order of loading.
pub fn drawn(rng: &mut Rng) -> Record {
    let mut record = second::blank();
    record.rule = feedable_rule(rng);
    record.frames = some_frames(rng);
    let held = if rng.one_in(2) {
        record.frames as usize
    } else {
        rng.below(record.frames as usize + 1)
    };
    let kinds: Vec<usize> = (0..held).map(|_| kind_of_entry(rng)).collect();
    let needed: usize = kinds.iter().sum();
    record.map = lowest(held as u32);
    record.clock = drawn_clock(rng, needed);
    let mut moments = distinct_moments(rng, record.clock as usize, needed);
    let first_page = rng.word();
    for (frame, kind) in kinds.into_iter().enumerate() {
        let mut own = moments.split_off(moments.len() - kind);
        own.sort();
        let page = first_page.wrapping_sub(frame as u32 * 3);
        record.entries[frame] = entry(page, &own);
    }
    if record.entries[..held].iter().any(|entry| entry[0] == MARK) {
        // The lot fell on the mark; draw again.
        return drawn(rng);
    }
    record
}

/// How many moments the entry has: requested once, twice, or more often since loading.
fn kind_of_entry(rng: &mut Rng) -> usize {
    rng.pick(&[1, 2, 3])
}

fn drawn_clock(rng: &mut Rng, needed: usize) -> u32 {
    let clock = match rng.below(6) {
        0 => needed,
        1 => 7_999,
        2 => 8_000,
        3 => rng.between(needed, 8_000),
        _ => needed + rng.below(20),
    };
    clock as u32
}

fn distinct_moments(rng: &mut Rng, clock: usize, needed: usize) -> Vec<u32> {
    let mut all: Vec<u32> = (0..clock as u32).collect();
    for place in 0..needed {
        let other = rng.between(place, clock - 1);
        all.swap(place, other);
    }
    all.truncate(needed);
    all
}

fn entry(page: u32, moments: &[u32]) -> [u32; 4] {
    match *moments {
        [only] => [page, only, only, MARK],
        [loaded, last] => [page, loaded, last, loaded],
        [loaded, earlier, last] => [page, loaded, last, earlier],
        _ => unreachable!("one to three moments"),
    }
}

/// A page to feed: held, new, next to a held one, one of the highest, or the mark.
pub fn page(rng: &mut Rng, record: &Record) -> u32 {
    let held = ones(&record.map) as usize;
    if held > 0 && rng.one_in(3) {
        return record.entries[rng.below(held)][0];
    }
    match rng.below(12) {
        0 => MARK,
        1 => MARK - 1,
        2 => 0,
        3 => record.entries[0][0].wrapping_add(1),
        _ => rng.word() & !1,
    }
}

/// The number of kinds of damage below.
pub const DAMAGES: usize = 22;

/// Does one kind of damage. Where the record is too small for it, some word is changed instead.
pub fn damage(rng: &mut Rng, record: &mut Record, kind: usize) {
    let held = ones(&record.map) as usize;
    let needed = if kind == 16 { 2 } else { 1 };
    if (8..=17).contains(&kind) && held < needed {
        return damage(rng, record, kind % 4);
    }
    let frame = rng.below(held.max(1));
    let other = (frame + 1) % held.max(1);
    match kind {
        0 => record.rule = rng.pick(&[0, 3, 5, 6, 257, 65_540, MARK]),
        1 => record.frames = rng.pick(&[0, 257, 512, 65_537, 1 << 31, MARK]),
        2 => record.clock = rng.pick(&[8_001, 8_002, 65_536, 1 << 31, MARK]),
        3 => record.map = lowest(256),
        4 => record.map = lowest((record.frames + 1).min(256)),
        5 => record.map = lowest((held as u32 + 1).min(256)),
        6 => record.map = lowest((held as u32).saturating_sub(1)),
        7 => record.frames = (held as u32).saturating_sub(1),
        8 => record.clock = latest(record),
        9 => record.clock = rng.below(held) as u32,
        10 => record.entries[frame][0] = MARK,
        11 => record.entries[frame][0] = record.entries[other][0],
        12 => swap_loaded_and_last(record, frame),
        13 => record.entries[frame][2] = record.clock,
        14 => wrong_earlier(rng, record, frame),
        15 => record.entries[frame] = [record.entries[frame][0], MARK, MARK, MARK],
        16 => share_a_moment(rng, record, frame, other),
        17 => record.entries[frame] = [MARK; 4],
        18 => dirt_past_held(rng, record),
        19 => record.map = flipped(&record.map, rng.below(256)),
        20 => record.map = flipped(&record.map, frame),
        _ => any_word(rng, record),
    }
}

fn latest(record: &Record) -> u32 {
    let held = &record.entries[..ones(&record.map) as usize];
    held.iter().map(|entry| entry[2]).max().unwrap_or(0)
}

/// Where both are the same, the moment loaded is put after the last request.
fn swap_loaded_and_last(record: &mut Record, frame: usize) {
    let [_, loaded, last, _] = record.entries[frame];
    record.entries[frame][1] = if loaded == last { last + 1 } else { last };
    record.entries[frame][2] = loaded;
}

/// Each way in which the moment of the request before the last can be wrong.
fn wrong_earlier(rng: &mut Rng, record: &mut Record, frame: usize) {
    let [_, loaded, last, _] = record.entries[frame];
    record.entries[frame][3] = if loaded == last {
        rng.pick(&[loaded, 0, last + 1, MARK - 1])
    } else {
        rng.pick(&[MARK, last, last + 1, loaded.wrapping_sub(1), MARK - 1])
    };
}

/// The same moment in two entries, each in any of its three words, the order kept if it can be.
fn share_a_moment(rng: &mut Rng, record: &mut Record, frame: usize, other: usize) {
    let moment = record.entries[other][rng.between(1, 3)];
    let moment = if moment == MARK {
        record.entries[other][1]
    } else {
        moment
    };
    let page = record.entries[frame][0];
    record.entries[frame] = match rng.below(4) {
        0 => [page, moment, moment, MARK],
        1 if moment + 1 < record.clock => [page, moment, record.clock - 1, moment],
        2 if moment > 0 => [page, 0, moment, 0],
        3 if moment > 0 && moment + 1 < record.clock => [page, 0, record.clock - 1, moment],
        _ => [page, moment, moment, MARK],
    };
}

fn dirt_past_held(rng: &mut Rng, record: &mut Record) {
    let held = ones(&record.map) as usize;
    if held == 256 {
        return any_word(rng, record);
    }
    let between = rng.between(held, 255);
    let frame = rng.pick(&[held, between, 255]);
    record.entries[frame][rng.below(4)] = rng.pick(&[0, 1, MARK - 1]);
}

fn any_word(rng: &mut Rng, record: &mut Record) {
    let value = rng.pick(&[0, 1, 2, 3, record.clock, MARK, MARK - 1]);
    match rng.below(8) {
        0 => record.rule = value,
        1 => record.frames = value,
        2 => record.clock = value,
        3 => record.map[rng.below(4)] = u64::from(value) << rng.pick(&[0, 32]),
        _ => record.entries[rng.below(12)][rng.below(4)] = value,
    }
}
