//! The cache record: the blank one, a fresh one, when one is sound, how it is fed, and which
//! frame holds a page.
//! A cache of rule 1, 2 or 4 is fed one request at a time, going by the entries as they stand.

use crate::map::{exactly_lowest, lowest_zero, ones, with};
use crate::{frames_allowed, FIFO, LRU, LRU_2, MARK, MOST_FRAMES, MOST_REQUESTS};

/// Where each word stands in a frame entry.
const PAGE: usize = 0;
const LOADED: usize = 1;
const LAST: usize = 2;
const EARLIER: usize = 3;

const BLANK_ENTRY: [u32; 4] = [MARK; 4];

/// Rule, frames, clock (requests served), the map of occupied frames, and 256 entries of
/// page, moment loaded, moment of last request, moment of the request before that.
#[derive(Clone, Copy, Debug, PartialEq, Eq)]
pub struct Record {
    pub rule: u32,
    pub frames: u32,
    pub clock: u32,
    pub map: [u64; 4],
    pub entries: [[u32; 4]; 256],
}

/// The answer of Feed without the record. Kind: 0 hit, 1 loaded, 2 loaded with a page dropped.
/// Page is the page dropped, else the mark. A refusal has kind 0 and the mark.
#[derive(Clone, Copy, Debug, PartialEq, Eq)]
pub struct Outcome {
    pub number: u32,
    pub place: u32,
    pub kind: u32,
    pub page: u32,
}

/// The answer of Feed with the next record; a refusal hands back the record it got.
#[derive(Clone, Copy, Debug, PartialEq, Eq)]
pub struct Fed {
    pub number: u32,
    pub place: u32,
    pub kind: u32,
    pub page: u32,
    pub next: Record,
}

/// The answer of Frame. Held is 1 where a frame holds the page, and frame is its number.
/// Where no frame holds it both are 0, and in a refusal too.
#[derive(Clone, Copy, Debug, PartialEq, Eq)]
pub struct Found {
    pub number: u32,
    pub place: u32,
    pub held: u32,
    pub frame: u32,
}

/// The blank record: zeros, no bit of the map set, and every entry all marks.
pub fn blank() -> Record {
    Record {
        rule: 0,
        frames: 0,
        clock: 0,
        map: [0; 4],
        entries: [BLANK_ENTRY; 256],
    }
}

/// Fresh: an empty cache of rule 1, 2 or 4 with n frames, as number, place and record.
pub fn fresh(rule: u32, n: u32) -> (u32, u32, Record) {
    if !rule_can_be_fed(rule) {
        return (1, 0, blank());
    }
    if !frames_allowed(n) {
        return (2, 0, blank());
    }
    let mut record = blank();
    record.rule = rule;
    record.frames = n;
    (0, 0, record)
}

/// Document 01's paragraph, one condition after the other, with the map's ones as the number held.
pub fn sound(record: &Record) -> bool {
    if !rule_can_be_fed(record.rule) {
        return false;
    }
    if !frames_allowed(record.frames) {
        return false;
    }
    if record.clock > MOST_REQUESTS as u32 {
        return false;
    }
    let held = ones(&record.map);
    if held > record.frames || held > record.clock {
        return false;
    }
    if !exactly_lowest(&record.map) {
        return false;
    }
    let held = held as usize;
    pages_distinct(record, held)
        && moments_in_order(record, held)
        && no_moment_in_two_entries(record, held)
        && rest_all_marks(record, held)
}

/// Feed: takes a record and a page, hands back the next record.
pub fn feed(record: &Record, page: u32) -> Fed {
    if !sound(record) {
        return refused(5, record);
    }
    if page == MARK {
        return refused(4, record);
    }
    if record.clock == MOST_REQUESTS as u32 {
        return refused(8, record);
    }
    if let Some(frame) = frame_of_page(record, page) {
        return hit(record, frame);
    }
    match lowest_zero(&record.map) {
        Some(frame) if ones(&record.map) < record.frames => load_with_room(record, frame, page),
        _ => load_with_drop(record, page),
    }
}

/// The thin form: the record is updated where it stands, with the same answers.
pub fn feed_own(record: &mut Record, page: u32) -> Outcome {
    let fed = feed(record, page);
    *record = fed.next;
    Outcome {
        number: fed.number,
        place: fed.place,
        kind: fed.kind,
        page: fed.page,
    }
}

/// Frame: the number of the frame that holds the page, or that none does.
pub fn frame_of(record: &Record, page: u32) -> Found {
    if !sound(record) {
        return not_found(5);
    }
    if page == MARK {
        return not_found(4);
    }
    match frame_of_page(record, page) {
        Some(frame) => Found {
            number: 0,
            place: 0,
            held: 1,
            frame: frame as u32,
        },
        None => not_found(0),
    }
}

/// No frame is told: with number 0 none holds the page, otherwise it is a refusal.
pub(crate) fn not_found(number: u32) -> Found {
    Found {
        number,
        place: 0,
        held: 0,
        frame: 0,
    }
}

fn rule_can_be_fed(rule: u32) -> bool {
    rule == LRU || rule == FIFO || rule == LRU_2
}

fn pages_distinct(record: &Record, held: usize) -> bool {
    for frame in 0..held {
        let page = record.entries[frame][PAGE];
        if page == MARK {
            return false;
        }
        for other in 0..frame {
            if record.entries[other][PAGE] == page {
                return false;
            }
        }
    }
    true
}

/// Loaded at most last, last below clock, and the earlier moment the mark exactly when
/// loaded equals last, else at least loaded and below last.
fn moments_in_order(record: &Record, held: usize) -> bool {
    for frame in 0..held {
        let [_, loaded, last, earlier] = record.entries[frame];
        if loaded > last {
            return false;
        }
        if last >= record.clock {
            return false;
        }
        if loaded == last {
            if earlier != MARK {
                return false;
            }
        } else {
            if earlier == MARK {
                return false;
            }
            if earlier < loaded || earlier >= last {
                return false;
            }
        }
    }
    true
}

/// The mark is no moment, so any number of entries may have it.
fn no_moment_in_two_entries(record: &Record, held: usize) -> bool {
    for frame in 0..held {
        for other in 0..frame {
            for here in [LOADED, LAST, EARLIER] {
                for there in [LOADED, LAST, EARLIER] {
                    let moment = record.entries[frame][here];
                    if moment != MARK && moment == record.entries[other][there] {
                        return false;
                    }
                }
            }
        }
    }
    true
}

fn rest_all_marks(record: &Record, held: usize) -> bool {
    for frame in held..MOST_FRAMES as usize {
        if record.entries[frame] != BLANK_ENTRY {
            return false;
        }
    }
    true
}

fn frame_of_page(record: &Record, page: u32) -> Option<usize> {
    for frame in 0..ones(&record.map) as usize {
        if record.entries[frame][PAGE] == page {
            return Some(frame);
        }
    }
    None
}

fn refused(number: u32, record: &Record) -> Fed {
    Fed {
        number,
        place: 0,
        kind: 0,
        page: MARK,
        next: *record,
    }
}

fn accepted(kind: u32, page: u32, next: Record) -> Fed {
    Fed {
        number: 0,
        place: 0,
        kind,
        page,
        next,
    }
}

/// The old last request becomes the one before; the moment loaded stays.
fn hit(record: &Record, frame: usize) -> Fed {
    let mut next = *record;
    next.entries[frame][EARLIER] = record.entries[frame][LAST];
    next.entries[frame][LAST] = record.clock;
    next.clock = record.clock + 1;
    accepted(0, MARK, next)
}

/// The page goes into the lowest free frame, whose bit is set.
fn load_with_room(record: &Record, frame: usize, page: u32) -> Fed {
    let mut next = *record;
    next.entries[frame] = entry_just_loaded(record, page);
    next.map = with(&record.map, frame);
    next.clock = record.clock + 1;
    accepted(1, MARK, next)
}

fn load_with_drop(record: &Record, page: u32) -> Fed {
    let frame = frame_to_drop(record);
    let mut next = *record;
    next.entries[frame] = entry_just_loaded(record, page);
    next.clock = record.clock + 1;
    accepted(2, record.entries[frame][PAGE], next)
}

fn entry_just_loaded(record: &Record, page: u32) -> [u32; 4] {
    [page, record.clock, record.clock, MARK]
}

/// The record's rule, applied to its entries as they stand.
fn frame_to_drop(record: &Record) -> usize {
    let all: Vec<usize> = (0..ones(&record.map) as usize).collect();
    match record.rule {
        LRU => earliest(record, &all, LAST),
        FIFO => earliest(record, &all, LOADED),
        _ => {
            let mut once = Vec::new();
            for &frame in &all {
                if record.entries[frame][EARLIER] == MARK {
                    once.push(frame);
                }
            }
            if once.is_empty() {
                earliest(record, &all, EARLIER)
            } else {
                earliest(record, &once, LAST)
            }
        }
    }
}

/// Among these frames, the one whose given moment is earliest.
fn earliest(record: &Record, frames: &[usize], word: usize) -> usize {
    let mut best = frames[0];
    for &frame in frames {
        if record.entries[frame][word] < record.entries[best][word] {
            best = frame;
        }
    }
    best
}
