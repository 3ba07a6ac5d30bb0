//! Which frame holds a page: along runs, on records that no run reaches, and the refusals.

use second::*;

const M: u32 = MARK;

/// A cache of five frames, three of them held; frame 0 has the last page, frame 2 page 0.
fn three() -> Record {
    let mut record = fresh(LRU, 5).2;
    record.clock = 20;
    record.map = lowest(3);
    record.entries[0] = [M - 1, 9, 9, M];
    record.entries[1] = [60, 2, 19, 2];
    record.entries[2] = [0, 3, 8, 5];
    record
}

fn told(found: Found) -> [u32; 4] {
    [found.number, found.place, found.held, found.frame]
}

fn asked(record: &Record, page: u32) -> [u32; 4] {
    told(frame_of(record, page))
}

#[test]
fn held_pages() {
    let record = three();
    assert_eq!(asked(&record, M - 1), [0, 0, 1, 0]);
    assert_eq!(asked(&record, 60), [0, 0, 1, 1]);
    assert_eq!(asked(&record, 0), [0, 0, 1, 2]);
}

/// Absent is told apart from frame 0, and moments are no pages.
#[test]
fn absent_pages() {
    for page in [1, 2, 3, 8, 9, 19, 20, 59, 61, M - 2] {
        assert_eq!(asked(&three(), page), [0, 0, 0, 0], "page {page}");
    }
    for page in [0, 1, M - 1] {
        assert_eq!(asked(&fresh(FIFO, 256).2, page), [0, 0, 0, 0]);
    }
}

#[test]
fn all_frames_held() {
    let mut record = fresh(LRU_2, 256).2;
    for page in 0..256 {
        record = feed(&record, 500 + page).next;
    }
    for frame in 0..256 {
        assert_eq!(asked(&record, 500 + frame), [0, 0, 1, frame]);
    }
    for page in [0, 499, 756] {
        assert_eq!(asked(&record, page), [0, 0, 0, 0]);
    }
}

/// The mark stands in every free frame, and is still no page that one of them holds.
#[test]
fn the_mark() {
    assert_eq!(asked(&three(), M), [4, 0, 0, 0]);
    assert_eq!(asked(&fresh(LRU, 1).2, M), [4, 0, 0, 0]);
}

/// A record that can't be fed any more can still be asked.
#[test]
fn the_last_request_served() {
    let mut record = three();
    record.clock = 8_000;
    assert_eq!(feed(&record, 60).number, 8);
    assert_eq!(asked(&record, 60), [0, 0, 1, 1]);
    assert_eq!(asked(&record, 61), [0, 0, 0, 0]);
    assert_eq!(asked(&record, M), [4, 0, 0, 0]);
}

/// 5 for whatever makes a record unsound, held page or not, and before 4.
#[test]
fn unsound_records() {
    let changes: [fn(&mut Record); 16] = [
        |r| *r = blank(),
        |r| r.rule = MIN,
        |r| r.frames = 2,
        |r| r.frames = 257,
        |r| r.clock = 19,
        |r| r.clock = 8_001,
        |r| r.map = lowest(2),
        |r| r.map = lowest(4),
        |r| r.map = [0b1011, 0, 0, 0],
        |r| r.map = [7, 0, 0, 1 << 63],
        |r| r.entries[0][0] = M,
        |r| r.entries[0][0] = 60,
        |r| r.entries[1] = [60, 19, 18, 18],
        |r| r.entries[0] = [M - 1, 8, 8, M],
        |r| r.entries[3][0] = 70,
        |r| r.entries[255][3] = 0,
    ];
    for (number, change) in changes.into_iter().enumerate() {
        let mut record = three();
        change(&mut record);
        for page in [M - 1, 60, 0, 70, M] {
            assert_eq!(asked(&record, page), [5, 0, 0, 0], "change {number}");
        }
    }
}

/// A page that only a free frame's entry has is no held page.
#[test]
fn a_page_in_a_free_frame() {
    for frame in [3, 4, 5, 255] {
        let mut record = three();
        record.entries[frame] = [70, 10, 10, M];
        assert_eq!(asked(&record, 70), [5, 0, 0, 0]);
        assert_eq!(asked(&record, 60), [5, 0, 0, 0]);
    }
}

/// How many of the pages from 0 on are held; each told frame has its page, and no two are alike.
fn pages_told(record: &Record, pages: u32) -> u32 {
    let held = ones(&record.map);
    let mut seen = [false; 256];
    let mut number = 0;
    for page in 0..pages {
        let found = frame_of(record, page);
        assert_eq!((found.number, found.place), (0, 0));
        let frame = found.frame as usize;
        if found.held == 0 {
            assert_eq!(frame, 0);
            assert!(record.entries.iter().all(|entry| entry[0] != page));
            continue;
        }
        assert_eq!(found.held, 1);
        assert!(found.frame < held && !seen[frame]);
        assert_eq!(record.entries[frame][0], page);
        seen[frame] = true;
        number += 1;
    }
    number
}

/// Along a run: a hit leaves a page's frame, a page that is loaded with room takes the next one,
/// and one that is loaded for another takes the other's; all other pages stay where they were.
#[test]
fn along_runs() {
    let mut seed = 77u32;
    for round in 0..60 {
        let rule = [LRU, FIFO, LRU_2][round % 3];
        let frames = 1 + round as u32 % 7;
        let pages = 2 * frames + 2;
        let mut record = fresh(rule, frames).2;
        for _ in 0..80 {
            seed = seed.wrapping_mul(1_664_525).wrapping_add(1_013_904_223);
            let page = (seed >> 16) % pages;
            let before = frame_of(&record, page);
            let fed = feed(&record, page);
            assert_eq!(before.held == 1, fed.kind == 0);
            let frame = match fed.kind {
                0 => before.frame,
                1 => ones(&record.map),
                _ => frame_of(&record, fed.page).frame,
            };
            assert_eq!(asked(&fed.next, page), [0, 0, 1, frame]);
            if fed.kind == 2 {
                assert_eq!(asked(&fed.next, fed.page), [0, 0, 0, 0]);
            }
            for other in (0..pages).filter(|&other| other != page && other != fed.page) {
                assert_eq!(frame_of(&fed.next, other), frame_of(&record, other));
            }
            record = fed.next;
            assert_eq!(pages_told(&record, pages), ones(&record.map));
        }
    }
}

/// The words of a full cache whose very last word is 0: with that word lost and a zero in its
/// place it would still be sound.
fn full_words() -> Vec<u32> {
    let mut words = vec![LRU, 256, 600];
    words.extend([u32::MAX; 8]);
    for frame in 0..255 {
        words.extend([1_000 + frame, 1 + frame, 1 + frame, M]);
    }
    words.extend([5, 0, 599, 0]);
    words
}

#[test]
fn a_record_in_words() {
    let mut words = full_words();
    assert_eq!(words.len(), RECORD_WORDS);
    for more in 0..3 {
        assert_eq!(told(frame_words(&words, 1_000)), [0, 0, 1, 0]);
        assert_eq!(told(frame_words(&words, 1_254)), [0, 0, 1, 254]);
        assert_eq!(told(frame_words(&words, 5)), [0, 0, 1, 255]);
        // What stands behind a record isn't read.
        assert_eq!(told(frame_words(&words, 70)), [0, 0, 0, 0]);
        assert_eq!(told(frame_words(&words, M)), [4, 0, 0, 0]);
        words.push(70 + more);
    }
}

#[test]
fn too_few_words() {
    let words = full_words();
    for length in [0, 1, 3, 11, 15, 1_028, 1_034] {
        for page in [1_000, 5, 70, M] {
            assert_eq!(told(frame_words(&words[..length], page)), [5, 0, 0, 0]);
        }
    }
}
