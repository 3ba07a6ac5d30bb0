//! Frame in the second program behind its C function, with the mistakes that can be planted in it.

use crate::map_cases::has;
use crate::mirror::{closed_up, lent, list, mistake, record_of};
use second::{lowest, ones, Found, Record, MARK, RECORD_WORDS};

#[no_mangle]
unsafe extern "C" fn hedravos_frame(
    record: *const u32,
    record_len: usize,
    page: u32,
    answer: *mut u32,
    answer_len: usize,
) {
    let words = list(record, record_len);
    let mut found = second::frame_words(words, page);
    if record_len >= RECORD_WORDS {
        let given = record_of(words);
        match found.number {
            5 => found = wrongly_taken(&given, page).unwrap_or(found),
            _ => mistakes_of_sound(&given, page, &mut found),
        }
    } else if mistake(76) {
        found = second::frame_of(&record_of(words), page);
    }
    if mistake(72) && page == MARK {
        found.number = 4;
    }
    if mistake(69) && found.number == 0 {
        second::feed_own_words(lent(record.cast_mut(), record_len), page);
    }
    if mistake(70) && answer_len < 4 {
        found.number = 6;
    }
    let room = lent(answer, answer_len);
    let numbers = [found.number, found.place, found.held, found.frame];
    let fits = answer_len.min(4);
    room[..fits].copy_from_slice(&numbers[..fits]);
    if mistake(71) && answer_len > 4 {
        room[4] = 0;
    }
}

/// Mistakes on a sound record.
fn mistakes_of_sound(given: &Record, page: u32, found: &mut Found) {
    let held = ones(&given.map);
    if mistake(66) && found.number == 4 && held < given.frames {
        *found = at(held as usize);
    }
    if found.number != 0 {
        return;
    }
    if mistake(67) && given.clock == 8_000 {
        *found = none(8);
    }
    if found.held == 0 {
        if mistake(62) {
            found.held = 1;
        }
        let half = |entry: &[u32; 4]| entry[0] as u16 == page as u16;
        let alike = given.entries[..held as usize].iter().position(half);
        if mistake(68) {
            *found = alike.map_or(*found, at);
        }
        return;
    }
    if mistake(63) {
        found.frame += 1;
    }
    if mistake(64) {
        found.held = u32::from(found.frame > 0);
    }
    if mistake(65) && found.frame + 1 == held {
        *found = none(0);
    }
}

/// An answer where a record must be refused, if the mistake is one that takes it.
fn wrongly_taken(given: &Record, page: u32) -> Option<Found> {
    let held = ones(&given.map) as usize;
    let mut taken = *given;
    if mistake(73) {
        // The entries of free frames are looked at, but not judged.
        taken.entries[held..].fill([MARK; 4]);
        return second::sound(&taken).then(|| searched(given, page, |_| true));
    }
    if mistake(74) {
        let closed = closed_up(&crate::record_cases::words_of(given));
        return Some(second::frame_words(&closed, page));
    }
    if mistake(75) {
        // With pages of their own all entries would do.
        for frame in (0..held).filter(|&frame| given.entries[frame][0] != MARK) {
            taken.entries[frame][0] = frame as u32;
        }
        return second::sound(&taken).then(|| searched(given, page, |frame| frame < held));
    }
    if mistake(77) {
        let (number, _, mut empty) = second::fresh(given.rule, given.frames);
        empty.clock = given.clock;
        let judged = number == 0 && second::sound(&empty) && given.map == lowest(held as u32);
        return judged.then(|| searched(given, page, |frame| frame < held));
    }
    if mistake(78) {
        // Entries at the bits, wherever these are, judged as if they stood in front.
        taken.entries.fill([MARK; 4]);
        let set = (0..256).filter(|&frame| has(&given.map, frame));
        for (place, frame) in set.enumerate() {
            taken.entries[place] = given.entries[frame];
        }
        taken.map = lowest(held as u32);
        let bit = |frame: usize| has(&given.map, frame);
        return second::sound(&taken).then(|| searched(given, page, bit));
    }
    None
}

/// The first of the frames looked at whose entry has the page.
fn searched(given: &Record, page: u32, looked_at: impl Fn(usize) -> bool) -> Found {
    let here = |&frame: &usize| looked_at(frame) && given.entries[frame][0] == page;
    match (0..256).find(here) {
        Some(frame) => at(frame),
        None => none(0),
    }
}

fn none(number: u32) -> Found {
    Found {
        number,
        place: 0,
        held: 0,
        frame: 0,
    }
}

fn at(frame: usize) -> Found {
    Found {
        number: 0,
        place: 0,
        held: 1,
        frame: frame as u32,
    }
}
