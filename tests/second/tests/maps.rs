//! The map of occupied frames: which maps are sound, what Feed does to a map, and that every
//! answer is the one of a record that keeps the number of held frames instead.

use second::*;

const M: u32 = MARK;

/// A sound cache with so many frames held, each requested once, in the order of the frames.
fn cache(held: u32, frames: u32) -> Record {
    let mut record = fresh(LRU, frames).2;
    record.clock = held;
    record.map = lowest(held);
    for frame in 0..held {
        record.entries[frame as usize] = [1_000 + frame, frame, frame, M];
    }
    record
}

/// Soundness with another map: where it is denied, Feed refuses with 5 and hands all back.
fn sound_with(record: &Record, map: [u64; 4]) -> bool {
    let mut changed = *record;
    changed.map = map;
    let answer = sound(&changed);
    for page in [9, 1_000, M] {
        let fed = feed(&changed, page);
        assert_eq!(fed.number == 5, !answer);
        if !answer {
            assert_eq!((fed.place, fed.kind, fed.page), (0, 0, M));
            assert_eq!(fed.next, changed);
        }
    }
    answer
}

#[test]
fn a_word_at_each_boundary() {
    assert_eq!(lowest(0), [0; 4]);
    assert_eq!(lowest(3), [7, 0, 0, 0]);
    assert_eq!(lowest(64), [u64::MAX, 0, 0, 0]);
    assert_eq!(lowest(65), [u64::MAX, 1, 0, 0]);
    assert_eq!(lowest(192), [u64::MAX, u64::MAX, u64::MAX, 0]);
    assert_eq!(lowest(256), [u64::MAX; 4]);
    for held in 0..=256 {
        assert_eq!(ones(&lowest(held)), held);
    }
    assert_eq!(ones(&[1 << 63, 2, 0, 5]), 4);
}

#[test]
fn empty_maps() {
    assert_eq!(blank().map, [0; 4]);
    assert_eq!(fresh(LRU_2, 256).2.map, [0; 4]);
    assert_eq!(fresh(LRU_2, 257).2.map, [0; 4]);
}

/// One bit too many or too few is never sound; with as many entries as there are ones it is
/// only where the lowest bits are left.
#[test]
fn every_single_flip() {
    for held in [0, 1, 3, 63, 64, 65, 128, 200, 255, 256] {
        for frames in [held.max(1), 256] {
            let record = cache(held, frames);
            assert!(sound_with(&record, record.map));
            for bit in 0..256 {
                let mut map = record.map;
                map[bit / 64] ^= 1 << bit % 64;
                assert!(!sound_with(&record, map), "{held} held, bit {bit}");
                let fitting = cache(ones(&map), 256);
                assert_eq!(sound_with(&fitting, map), map == fitting.map);
            }
        }
    }
}

#[test]
fn a_stray_bit() {
    for frames in [3, 4, 5, 256] {
        let record = cache(3, frames);
        for map in [[15, 0, 0, 0], [23, 0, 0, 0], [7, 1, 0, 0], [7, 0, 1, 0]] {
            assert!(!sound_with(&record, map));
        }
        // Frame 255, with 3 frames too, and with no more ones than entries.
        assert!(!sound_with(&record, [7, 0, 0, 1 << 63]));
        assert!(!sound_with(&record, [3, 0, 0, 1 << 63]));
        assert!(!sound_with(&cache(4, frames), [7, 0, 0, 1 << 63]));
    }
}

#[test]
fn a_gap() {
    let record = cache(3, 8);
    for map in [0b1011, 0b1101, 0b1110, 0b101, 0b110, 0b10001] {
        assert!(!sound_with(&record, [map, 0, 0, 0]), "{map:b}");
    }
    // A whole word left out, though the ones are as many as the entries.
    let record = cache(128, 256);
    assert!(!sound_with(&record, [u64::MAX, 0, u64::MAX, 0]));
    assert!(!sound_with(&record, [0, u64::MAX, u64::MAX, 0]));
}

/// Entries that stand where the bits do make a map with a gap no better.
#[test]
fn a_gap_in_the_entries_too() {
    let mut record = cache(3, 8);
    record.entries[3] = record.entries[1];
    record.entries[1] = [M; 4];
    assert!(!sound_with(&record, [0b1101, 0, 0, 0]));
    let mut record = cache(3, 256);
    record.entries[255] = record.entries[2];
    record.entries[2] = [M; 4];
    assert!(!sound_with(&record, [3, 0, 0, 1 << 63]));
}

/// All else fits, but there are fewer frames than bits.
#[test]
fn bits_beyond_the_frames() {
    for (held, frames) in [(4, 3), (64, 63), (65, 64), (129, 128), (256, 255), (256, 3)] {
        let mut record = cache(held, held);
        assert!(sound_with(&record, record.map));
        record.frames = frames;
        assert!(!sound_with(&record, record.map));
    }
}

/// The number of ones must be at most the clock, too.
#[test]
fn bits_beyond_the_clock() {
    let mut record = cache(3, 8);
    record.clock = 2;
    assert!(!sound_with(&record, record.map));
}

#[test]
fn all_bits() {
    assert!(sound_with(&cache(256, 256), [u64::MAX; 4]));
    for (held, frames) in [(3, 3), (3, 256), (255, 256), (0, 256)] {
        assert!(!sound_with(&cache(held, frames), [u64::MAX; 4]));
    }
}

#[test]
fn halves_swapped() {
    for held in [1, 3, 31, 32, 33, 63, 65, 100, 255] {
        let record = cache(held, 256);
        let map = record.map.map(|word| word.rotate_left(32));
        assert!(!sound_with(&record, map), "{held} held");
    }
    // Whole words are the same with their halves swapped.
    let record = cache(128, 256);
    let map = record.map.map(|word| word.rotate_left(32));
    assert!(sound_with(&record, map));
}

#[test]
fn high_bits_first() {
    for held in [1, 3, 32, 63, 65, 100, 255] {
        let record = cache(held, 256);
        let map = record.map.map(u64::reverse_bits);
        assert!(!sound_with(&record, map), "{held} held");
        let mut turned = record.map;
        turned.reverse();
        assert!(!sound_with(&record, turned));
        assert!(!sound_with(&record, turned.map(u64::reverse_bits)));
    }
}

/// From one word of the map into the next: the last bit of the one, the first of the other.
#[test]
fn loads_across_a_word() {
    for rule in [LRU, FIFO, LRU_2] {
        for word in 1..4 {
            let held = 64 * word as u32;
            let mut record = cache(held - 1, 256);
            record.rule = rule;
            record = feed(&record, 7).next;
            assert_eq!(record.map, lowest(held));
            assert_eq!((record.map[word - 1], record.map[word]), (u64::MAX, 0));
            let fed = feed(&record, 8);
            assert_eq!((fed.number, fed.kind, fed.page), (0, 1, M));
            assert_eq!(fed.next.map[word], 1);
            assert_eq!(fed.next.map, lowest(held + 1));
            assert_eq!(fed.next.entries[held as usize], [8, held, held, M]);
            assert!(sound(&fed.next));
        }
    }
}

/// With all 256 held there is no zero bit, and none is needed.
#[test]
fn all_held_and_a_drop() {
    for rule in [LRU, FIFO, LRU_2] {
        let mut record = cache(256, 256);
        record.rule = rule;
        let fed = feed(&record, 7);
        assert_eq!((fed.number, fed.kind, fed.page), (0, 2, 1_000));
        assert_eq!(fed.next.map, [u64::MAX; 4]);
        assert_eq!(fed.next.entries[0], [7, 256, 256, M]);
        assert_eq!(fed.next.entries[1..], record.entries[1..]);
        assert!(sound(&fed.next));
    }
}

/// A cache with fewer frames drops when as many bits are set; its map stays.
#[test]
fn all_frames_held_and_a_drop() {
    for frames in [1, 3, 63, 64, 65, 128, 192, 255] {
        let record = cache(frames, frames);
        let fed = feed(&record, 7);
        assert_eq!((fed.number, fed.kind, fed.page), (0, 2, 1_000));
        assert_eq!(fed.next.map, record.map);
    }
}

#[test]
fn hits_leave_the_map() {
    for held in [1, 64, 65, 256] {
        let record = cache(held, 256);
        let fed = feed(&record, 1_000 + held - 1);
        assert_eq!((fed.number, fed.kind), (0, 0));
        assert_eq!(fed.next.map, record.map);
    }
}

/// 5 is told before 4 and 8 for a map too.
#[test]
fn an_unsound_map_comes_first() {
    let mut record = cache(3, 8);
    record.clock = 8_000;
    assert_eq!(feed(&record, 9).number, 8);
    assert_eq!(feed(&record, M).number, 4);
    record.map = [7, 0, 0, 1];
    assert_eq!(feed(&record, 9).number, 5);
    assert_eq!(feed(&record, M).number, 5);
}

/// The record with a number in the map's place, fed without any judging.
struct Old {
    rule: u32,
    frames: usize,
    clock: u32,
    held: usize,
    entries: [[u32; 4]; 256],
}

impl Old {
    /// The kind and the page dropped.
    fn feed(&mut self, page: u32) -> (u32, u32) {
        let now = self.clock;
        self.clock += 1;
        let newcomer = [page, now, now, M];
        for entry in &mut self.entries[..self.held] {
            if entry[0] == page {
                *entry = [page, entry[1], now, entry[2]];
                return (0, M);
            }
        }
        if self.held < self.frames {
            self.entries[self.held] = newcomer;
            self.held += 1;
            return (1, M);
        }
        let frame = self.frame_to_drop();
        let dropped = self.entries[frame][0];
        self.entries[frame] = newcomer;
        (2, dropped)
    }

    fn frame_to_drop(&self) -> usize {
        let key = |&frame: &usize| match (self.rule, self.entries[frame]) {
            (LRU, [_, _, last, _]) => (0, last),
            (FIFO, [_, loaded, _, _]) => (0, loaded),
            (_, [_, _, last, M]) => (0, last),
            (_, [_, _, _, earlier]) => (1, earlier),
        };
        (0..self.held).min_by_key(key).unwrap()
    }
}

#[test]
fn every_answer_is_the_old_one() {
    let mut seed = 2_026u32;
    for round in 0..90 {
        let rule = [LRU, FIFO, LRU_2][round % 3];
        let frames = [1, 2, 7, 33, 64, 65, 129, 193, 255, 256][round / 3 % 10];
        let mut record = fresh(rule, frames).2;
        let mut old = Old {
            rule,
            frames: frames as usize,
            clock: 0,
            held: 0,
            entries: record.entries,
        };
        let mut drops = 0;
        for _ in 0..300 + 6 * frames {
            seed = seed.wrapping_mul(1_664_525).wrapping_add(1_013_904_223);
            let page = (seed >> 16) % (2 * frames + 3);
            let fed = feed(&record, page);
            assert_eq!((fed.number, fed.place), (0, 0));
            assert_eq!((fed.kind, fed.page), old.feed(page));
            drops += u32::from(fed.kind == 2);
            record = fed.next;
            assert_eq!(record.map, lowest(old.held as u32));
            assert_eq!((record.clock, record.entries), (old.clock, old.entries));
        }
        assert!(drops > 0, "{frames} frames are filled");
    }
}
