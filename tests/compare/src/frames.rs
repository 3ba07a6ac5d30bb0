//! Comparison of Frame, which tells the frame that holds a page, or that none does.
//! The record is only read, and an answer is laid into more or fewer words than it has.

use crate::cases::{self, Rng};
use crate::judge::{self, RECORD_WORDS};
use crate::lent::{answer, words, Tally};
use crate::map_cases::{self, HELD};
use crate::record_cases::{self, words_of, DAMAGES};
use crate::records::{cut_to, tell, with_a_number, LENGTHS};
use second::{ones, Record, MARK};

/// Takes each question: a record in words, and a page.
pub type Ask<'a> = &'a mut dyn FnMut(&[u32], u32);

pub fn frames(tally: &mut Tally) {
    compare_all(tally, good_questions);
}

pub fn damaged_frames(tally: &mut Tally) {
    compare_all(tally, damaged_questions);
}

pub fn random_frames(tally: &mut Tally) {
    compare_all(tally, random_questions);
}

/// Each question with room for the four numbers, and some with less or more of it.
fn compare_all(tally: &mut Tally, questions: fn(Ask)) {
    let mut rng = Rng::new(301);
    questions(&mut |given, page| {
        compare_frame(tally, given, page, 4);
        if rng.one_in(3) {
            compare_frame(tally, given, page, rng.pick(&[0, 1, 2, 3, 5, 9]));
        }
    });
}

fn compare_frame(tally: &mut Tally, given: &[u32], page: u32, room: usize) {
    let ours = second::frame_words(given, page);
    let ours = [ours.number, ours.place, ours.held, ours.frame];
    let lent = words(given);
    let mut theirs = answer(room);
    let mut expected = theirs.part().to_vec();
    let fits = room.min(4);
    expected[..fits].copy_from_slice(&ours[..fits]);
    judge::frame(lent.part(), page, theirs.part_mut());
    let right = theirs.is(&expected) && lent.is(given);
    tally.case(right, || {
        format!(
            "frame of page {page} in {}, room {room}: {:?}, not {expected:?}",
            tell(given),
            theirs.part()
        )
    });
}

// ---- Sound records ----

pub fn good_questions(ask: Ask) {
    along_runs(ask);
    along_large_runs(ask);
    each_number_held(ask);
    first_and_last_pages(ask);
    drawn_records(ask);
}

fn along_runs(ask: Ask) {
    let mut rng = Rng::new(302);
    for case in 0..48 {
        let n = rng.between(1, 9) as u32;
        let t = cases::length(&mut rng, 40);
        let trace = cases::trace(&mut rng, t, n);
        run(&mut rng, [1, 2, 4][case % 3], n, &trace, 1, ask);
    }
}

/// All 256 frames, filled and then with pages dropped.
fn along_large_runs(ask: Ask) {
    let mut rng = Rng::new(303);
    for rule in [1, 2, 4] {
        let trace: Vec<u32> = (0..700).map(|_| rng.below(400) as u32).collect();
        run(&mut rng, rule, 256, &trace, 50, ask);
    }
}

/// Feeds a trace from a fresh record on, and asks before the first request and after every so many.
fn run(rng: &mut Rng, rule: u32, n: u32, trace: &[u32], every: usize, ask: Ask) {
    let (_, _, mut record) = second::fresh(rule, n);
    let given = words_of(&record);
    for page in [0, MARK - 1, MARK].iter().chain(trace.first()) {
        ask(&given, *page);
    }
    for (moment, &page) in trace.iter().enumerate() {
        let fed = second::feed(&record, page);
        record = fed.next;
        if moment % every == 0 {
            ask_after(rng, &words_of(&record), trace, moment, fed.page, ask);
        }
    }
}

/// The page requested, the one dropped for it or the mark, one requested before, which may have been
/// dropped, one to come, one of another trace, one that differs in a bit, the first and the last.
fn ask_after(rng: &mut Rng, given: &[u32], trace: &[u32], moment: usize, dropped: u32, ask: Ask) {
    let page = trace[moment];
    ask(given, page);
    ask(given, dropped);
    ask(given, trace[rng.below(moment + 1)]);
    ask(given, trace[rng.between(moment, trace.len() - 1)]);
    ask(given, never_requested(rng, trace));
    ask(given, page ^ 1 << rng.below(32));
    ask(given, rng.pick(&[0, MARK - 1]));
}

fn never_requested(rng: &mut Rng, trace: &[u32]) -> u32 {
    loop {
        let page = rng.word();
        if page != MARK && !trace.contains(&page) {
            return page;
        }
    }
}

/// The pages of the first frame, the last and one between, and those next to them; all of 256.
fn each_number_held(ask: Ask) {
    for held in 0..=256 {
        let rule = [1, 2, 4][held as usize % 3];
        let frames = if held % 2 == 0 { held.max(1) } else { 256 };
        let given = words_of(&map_cases::cache(rule, held, frames));
        for page in [699, 700, 700 + held / 2, 699 + held, 700 + held, MARK] {
            ask(&given, page);
        }
    }
    let given = words_of(&map_cases::cache(1, 256, 256));
    for frame in 0..256 {
        ask(&given, 700 + frame);
    }
}

/// Page 0 and the last page, in the first frame, the last and one between, or in none.
fn first_and_last_pages(ask: Ask) {
    for held in HELD.into_iter().filter(|&held| held > 0) {
        for frame in [0, held / 2, held - 1] {
            for page in [0, MARK - 1] {
                let mut record = map_cases::cache(4, held, 256);
                record.entries[frame as usize][0] = page;
                let given = words_of(&record);
                for page in [0, 1, MARK - 2, MARK - 1, 700 + frame] {
                    ask(&given, page);
                }
            }
        }
    }
}

/// Sound records that no run reaches, some of which have served the last request.
fn drawn_records(ask: Ask) {
    let mut rng = Rng::new(304);
    for case in 0..900 {
        let mut record = some_record(&mut rng, case);
        if rng.one_in(5) {
            record.clock = 8_000;
        }
        let given = words_of(&record);
        ask(&given, record_cases::page(&mut rng, &record));
        ask(&given, near_page(&mut rng, &record));
    }
}

fn some_record(rng: &mut Rng, case: usize) -> Record {
    match case % 6 {
        0 => record_cases::ends_in_zero(rng),
        1 | 2 => record_cases::from_run(rng),
        _ => record_cases::drawn(rng),
    }
}

/// A page that is a held one but for a bit, or one of the moments beside a held one.
fn near_page(rng: &mut Rng, record: &Record) -> u32 {
    let held = ones(&record.map).max(1) as usize;
    let entry = record.entries[rng.below(held)];
    match rng.below(3) {
        0 => entry[rng.between(1, 3)],
        1 => entry[0] ^ 1 << rng.pick(&[15, 16, 24, 31]),
        _ => entry[0] ^ 1 << rng.below(32),
    }
}

// ---- Damaged records ----

pub fn damaged_questions(ask: Ask) {
    each_damage(ask);
    pages_in_the_tail(ask);
    damaged_maps(ask);
    too_few_words(ask);
}

/// Each kind of damage: the page of an entry before it, any page, and the mark.
fn each_damage(ask: Ask) {
    let mut rng = Rng::new(305);
    for kind in 0..DAMAGES {
        for case in 0..60 {
            let mut record = if case % 3 == 0 {
                record_cases::from_run(&mut rng)
            } else {
                record_cases::drawn(&mut rng)
            };
            let held = ones(&record.map).max(1) as usize;
            let page = record.entries[rng.below(held)][0];
            record_cases::damage(&mut rng, &mut record, kind);
            let given = words_of(&record);
            ask(&given, page);
            ask(&given, record_cases::page(&mut rng, &record));
            ask(&given, MARK);
        }
    }
}

/// A page that only a free frame's entry has, or one that a held frame has too.
fn pages_in_the_tail(ask: Ask) {
    for held in HELD.into_iter().filter(|&held| held < 256) {
        for frames in [held + 1, 256] {
            for frame in [held, (held + 256) / 2, 255] {
                for page in [70, 700] {
                    let mut record = map_cases::cache(2, held, frames);
                    record.clock = 600;
                    record.entries[frame as usize] = [page, MARK, MARK, MARK];
                    let bare = words_of(&record);
                    record.entries[frame as usize] = [page, 599, 599, MARK];
                    for given in [bare, words_of(&record)] {
                        for asked in [page, 700, 5, MARK] {
                            ask(&given, asked);
                        }
                    }
                }
            }
        }
    }
}

/// Gaps and stray bits: asked are pages of entries as they were, of as many as there are ones, and
/// of those at the bits.
fn damaged_maps(ask: Ask) {
    for held in [1, 33, 64, 255] {
        let record = map_cases::cache(1, held, 256);
        for map in map_cases::damaged(&record.map, 256) {
            let highest = (0..256).rev().find(|&frame| map_cases::has(&map, frame));
            let [kept, counted, spread] = map_cases::with_map(&record, map);
            ask(&words_of(&kept), 699 + held);
            ask(&words_of(&counted), 700);
            ask(&words_of(&spread), 700 + highest.unwrap_or(0) as u32);
        }
    }
}

/// Records in too few words, before the map too, and with words behind them that aren't theirs.
fn too_few_words(ask: Ask) {
    let mut rng = Rng::new(306);
    for case in 0..24 {
        let record = some_record(&mut rng, case);
        let mut list = vec![with_a_number(&record)];
        list.extend(LENGTHS.map(|length| cut_to(&mut rng, &record, length)));
        for given in list {
            ask(&given, record.entries[0][0]);
            ask(&given, record_cases::page(&mut rng, &record));
            ask(&given, MARK);
            if let Some(&behind) = given.get(RECORD_WORDS) {
                ask(&given, behind);
            }
        }
    }
}

// ---- Random words ----

/// Words by lot, maps by lot, and sound records with some words by lot.
pub fn random_questions(ask: Ask) {
    let mut rng = Rng::new(307);
    for case in 0..400 {
        let length = rng.pick(&[RECORD_WORDS, RECORD_WORDS, 1_034, 1_100, 40]);
        let mut given = cases::random_words(&mut rng, length, true);
        if case % 2 == 0 {
            given[..3].copy_from_slice(&[rng.pick(&[1, 2, 4]), 256, 8_000]);
            given[3..11].copy_from_slice(&words_of(&map_cases::cache(1, 9, 9))[3..11]);
        }
        ask_random(&mut rng, &given, ask);
    }
    for case in 0..400 {
        let map = map_cases::random(&mut rng);
        let rule = [1, 2, 4][case % 3];
        let record = map_cases::cache(rule, ones(&map), 256);
        let record = rng.pick(&map_cases::with_map(&record, map));
        ask_random(&mut rng, &words_of(&record), ask);
    }
    for case in 0..1_200 {
        let mut given = words_of(&some_record(&mut rng, case));
        for _ in 0..rng.below(3) {
            spoil(&mut rng, &mut given);
        }
        ask_random(&mut rng, &given, ask);
    }
}

/// One word becomes another one of the record, any word, or differs in a bit; most often near the
/// front.
fn spoil(rng: &mut Rng, given: &mut [u32]) {
    let reach = rng.pick(&[11, 60, RECORD_WORDS]);
    let place = rng.below(reach);
    given[place] = match rng.below(3) {
        0 => given[rng.below(reach)],
        1 => rng.word(),
        _ => given[place] ^ 1 << rng.below(32),
    };
}

/// A word of the record, whatever it is there, the page of one of its first entries, and any word.
fn ask_random(rng: &mut Rng, given: &[u32], ask: Ask) {
    ask(given, given[rng.below(given.len())]);
    ask(given, given[11 + 4 * rng.below(7)]);
    if rng.one_in(4) {
        ask(given, rng.word());
    }
}
