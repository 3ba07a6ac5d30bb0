//! A record in words, as callers outside keep one: rule, frames, clock, the map, then the entries.
//! Each word of the map takes two: its low half, then its high half.
//! Too few words are no record: 5 where one is read, 6 where one is written, after every other
//! refusal; words that are too few stay as they were.

use crate::record::{blank, feed_own, frame_of, fresh, not_found, sound, Found, Outcome, Record};
use crate::{MARK, MOST_FRAMES};

/// The words of a record.
pub const RECORD_WORDS: usize = ENTRIES + 4 * MOST_FRAMES as usize;

/// Where the map and the entries begin.
const MAP: usize = 3;
const ENTRIES: usize = MAP + 8;

/// The values that half a word of the map can have.
const HALF: u64 = 4_294_967_296;

/// Fresh: number and place. The record goes into the words.
pub fn fresh_words(rule: u32, n: u32, words: &mut [u32]) -> (u32, u32) {
    let (number, place, record) = fresh(rule, n);
    if words.len() < RECORD_WORDS && number == 0 {
        return (6, 0);
    }
    put(&record, words);
    (number, place)
}

pub fn sound_words(words: &[u32]) -> bool {
    match record_in(words) {
        Some(record) => sound(&record),
        None => false,
    }
}

/// Feed: the next record goes into other words, and so does a record that is handed back.
pub fn feed_words(words: &[u32], page: u32, next: &mut [u32]) -> Outcome {
    let record = match record_in(words) {
        Some(record) => record,
        None => return refused(5),
    };
    let mut after = record;
    let outcome = feed_own(&mut after, page);
    if next.len() < RECORD_WORDS && outcome.number == 0 {
        return refused(6);
    }
    put(&after, next);
    outcome
}

/// The thin form: the record is updated in the words where it stands.
pub fn feed_own_words(words: &mut [u32], page: u32) -> Outcome {
    let mut record = match record_in(words) {
        Some(record) => record,
        None => return refused(5),
    };
    let outcome = feed_own(&mut record, page);
    put(&record, words);
    outcome
}

/// Frame: the record is only read.
pub fn frame_words(words: &[u32], page: u32) -> Found {
    match record_in(words) {
        Some(record) => frame_of(&record, page),
        None => not_found(5),
    }
}

/// The record in the first words, if they are enough.
fn record_in(words: &[u32]) -> Option<Record> {
    if words.len() < RECORD_WORDS {
        return None;
    }
    let mut record = blank();
    record.rule = words[0];
    record.frames = words[1];
    record.clock = words[2];
    for word in 0..4 {
        let low = words[MAP + 2 * word];
        let high = words[MAP + 2 * word + 1];
        record.map[word] = u64::from(low) + HALF * u64::from(high);
    }
    for frame in 0..MOST_FRAMES as usize {
        for word in 0..4 {
            record.entries[frame][word] = words[ENTRIES + 4 * frame + word];
        }
    }
    Some(record)
}

/// Puts the record into the first words, if they are enough.
fn put(record: &Record, words: &mut [u32]) {
    if words.len() < RECORD_WORDS {
        return;
    }
    words[0] = record.rule;
    words[1] = record.frames;
    words[2] = record.clock;
    for word in 0..4 {
        words[MAP + 2 * word] = (record.map[word] % HALF) as u32;
        words[MAP + 2 * word + 1] = (record.map[word] / HALF) as u32;
    }
    for frame in 0..MOST_FRAMES as usize {
        for word in 0..4 {
            words[ENTRIES + 4 * frame + word] = record.entries[frame][word];
        }
    }
}

fn refused(number: u32) -> Outcome {
    Outcome {
        number,
        place: 0,
        kind: 0,
        page: MARK,
    }
}
