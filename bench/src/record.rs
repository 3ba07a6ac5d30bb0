//! A cache record in words, as the tuned program keeps one while it feeds, its soundness, and an
//! index of its pages.
//! Rule, frames, clock, the map of occupied frames (eight words, low bits first), then the entries.

use crate::tuned::{ByPage, Did, FIFO, LRU, LRU_2, MARK};

const CLOCK: usize = 2;
const MAP: usize = 3;
const ENTRIES: usize = MAP + 8;
const FRAMES: usize = 256;
pub const RECORD_WORDS: usize = ENTRIES + 4 * FRAMES;

/// The words of a record, and the frame of each held page by the page's small number.
pub struct Kept<'a> {
    words: &'a mut [u32],
    frames: Vec<u32>,
}

impl Kept<'_> {
    /// An empty cache, for at most `pages` different pages.
    pub fn fresh(rule: u32, n: u32, pages: usize, words: &mut [u32]) -> Kept<'_> {
        words[..ENTRIES].fill(0);
        words[..CLOCK].copy_from_slice(&[rule, n]);
        words[ENTRIES..].fill(MARK);
        let frames = vec![0; pages];
        Kept { words, frames }
    }

    /// Writes down what a request for this page did.
    pub fn serve(&mut self, number: u32, page: u32, did: Did) {
        let now = self.words[CLOCK];
        self.words[CLOCK] = now + 1;
        let frame = match did {
            Did::Hit => return self.renew(self.frames[number as usize], now),
            Did::Loaded => self.occupy(),
            Did::Dropped(victim) => self.frames[victim as usize],
        };
        self.frames[number as usize] = frame;
        self.entry(frame).copy_from_slice(&[page, now, now, MARK]);
    }

    fn renew(&mut self, frame: u32, now: u32) {
        let entry = self.entry(frame);
        entry[3] = entry[2];
        entry[2] = now;
    }

    /// Sets the lowest zero bit; its frame is the next free one.
    fn occupy(&mut self) -> u32 {
        let mut frame = 0;
        for word in &mut self.words[MAP..ENTRIES] {
            if *word != u32::MAX {
                let bit = word.trailing_ones();
                *word |= 1 << bit;
                return frame + bit;
            }
            frame += 32;
        }
        unreachable!("a page is loaded only where there is room")
    }

    fn entry(&mut self, frame: u32) -> &mut [u32] {
        let start = ENTRIES + 4 * frame as usize;
        &mut self.words[start..start + 4]
    }
}

/// Whether these words are a sound record.
pub fn sound(words: &[u32]) -> bool {
    let [rule, frames, clock] = [words[0], words[1], words[CLOCK]];
    let allowed = matches!(rule, LRU | FIFO | LRU_2) && frames <= FRAMES as u32 && clock <= 8_000;
    if !allowed || frames == 0 {
        return false;
    }
    let Some(held) = lowest_ones(&words[MAP..ENTRIES]) else {
        return false;
    };
    if held > frames || held > clock {
        return false;
    }
    let (used, free) = words[ENTRIES..RECORD_WORDS].split_at(4 * held as usize);
    free.iter().all(|&word| word == MARK) && pages_differ(used) && moments_fit(used, clock)
}

/// The frame of each held page of a record, kept beside it.
pub struct Index(ByPage<u32>);

impl Index {
    /// Of a sound record.
    pub fn of(words: &[u32]) -> Index {
        let held = lowest_ones(&words[MAP..ENTRIES]).expect("the lowest bits and no other");
        let used = words[ENTRIES..].chunks_exact(4).take(held as usize);
        Index(used.map(|entry| entry[0]).zip(0..).collect())
    }

    /// The frame of each page, or the mark, and how many are held.
    pub fn frames_of(&self, pages: &[u32], words: &mut [u32]) -> u32 {
        let mut held = 0;
        for (word, page) in words.iter_mut().zip(pages) {
            let frame = self.0.get(page);
            held += u32::from(frame.is_some());
            *word = frame.copied().unwrap_or(MARK);
        }
        held
    }
}

/// How many bits of the map are set, if they are exactly the lowest.
fn lowest_ones(map: &[u32]) -> Option<u32> {
    let full = map.iter().take_while(|&&word| word == u32::MAX).count();
    let Some((&next, rest)) = map[full..].split_first() else {
        return Some(FRAMES as u32);
    };
    let ones = next.trailing_ones();
    let exactly = next >> ones == 0 && rest.iter().all(|&word| word == 0);
    exactly.then_some(32 * full as u32 + ones)
}

/// A table twice as large as the most pages; a page's place, or the next that is free. The factor isn't
/// that of the proved program's index, so that pages which crowd there don't crowd here.
fn pages_differ(used: &[u32]) -> bool {
    let mut table = [MARK; 2 * FRAMES];
    used.chunks_exact(4).all(|entry| {
        let page = entry[0];
        let mut place = page.wrapping_mul(0xCC9E_2D51) as usize >> 23;
        while table[place] != MARK && table[place] != page {
            place = (place + 1) % table.len();
        }
        let met = table[place] == page;
        table[place] = page;
        !met
    })
}

/// Each entry's moments in order, and none of them in another entry.
fn moments_fit(used: &[u32], clock: u32) -> bool {
    let mut seen = [0_u64; 125];
    let mut new = |moment: u32| {
        let word = &mut seen[moment as usize / 64];
        let before = *word;
        *word |= 1 << (moment % 64);
        *word != before
    };
    used.chunks_exact(4).all(|entry| {
        let [loaded, last, earlier] = [entry[1], entry[2], entry[3]];
        if loaded > last || last >= clock {
            return false;
        }
        if loaded == last {
            return earlier == MARK && new(last);
        }
        // An entry may repeat the moment at which it was loaded.
        let repeated = earlier == loaded;
        let ordered = (loaded..last).contains(&earlier);
        ordered && new(loaded) && new(last) && (repeated || new(earlier))
    })
}

#[cfg(test)]
mod tests {
    use super::*;
    use crate::inputs::{self, Lot};
    use crate::tuned::{feed_all, tests::each_trace};

    fn fed(rule: u32, n: u32, trace: &[u32]) -> Vec<u32> {
        let mut record = vec![7; RECORD_WORDS];
        feed_all(rule, n, trace, &mut vec![0; trace.len()], &mut record);
        record
    }

    fn fed_by_second(rule: u32, n: u32, trace: &[u32]) -> Vec<u32> {
        let mut record = vec![7; RECORD_WORDS];
        second::fresh_words(rule, n, &mut record);
        for &page in trace {
            second::feed_own_words(&mut record, page);
        }
        record
    }

    #[test]
    fn records_after_a_trace() {
        assert_eq!(RECORD_WORDS, second::RECORD_WORDS);
        each_trace(400, |_, n, trace| {
            for rule in [LRU, FIFO, LRU_2] {
                let expected = fed_by_second(rule, n, trace);
                assert_eq!(fed(rule, n, trace), expected, "rule {rule} n {n} {trace:?}");
            }
        });
    }

    /// Loads into the first and last frame of each word of the map, and drops with all held.
    #[test]
    fn records_with_all_frames() {
        let trace: Vec<u32> = (0..300).map(|moment| 9 * moment).collect();
        for rule in [LRU, FIFO, LRU_2] {
            for t in [
                0, 1, 31, 32, 33, 63, 64, 65, 128, 192, 193, 255, 256, 257, 300,
            ] {
                let expected = fed_by_second(rule, 256, &trace[..t]);
                assert_eq!(fed(rule, 256, &trace[..t]), expected, "{t} requests");
            }
        }
    }

    /// One word of a good record spoilt, or one bit of it, most often at its front.
    fn spoil(lot: &mut Lot, record: &mut [u32]) {
        let ones = record[MAP..ENTRIES].iter().map(|word| word.count_ones());
        let near = ENTRIES as u32 + 4 * (ones.sum::<u32>() + 1);
        let reach = [ENTRIES as u32, near, RECORD_WORDS as u32][lot.below(3) as usize];
        let place = lot.below(reach) as usize;
        record[place] = match lot.below(4) {
            0 => [0, 1, record[CLOCK], MARK - 1, MARK][lot.below(5) as usize],
            1 => record[place] ^ 1 << lot.below(32),
            2 => record[place].wrapping_add(1),
            _ => record[lot.below(near) as usize],
        };
    }

    #[test]
    fn soundness() {
        let mut counts = [0, 0];
        each_trace(3_000, |lot, n, trace| {
            let rule = [LRU, FIFO, LRU_2][lot.below(3) as usize];
            let mut record = fed(rule, n, trace);
            assert!(sound(&record));
            spoil(lot, &mut record);
            let expected = second::sound_words(&record);
            assert_eq!(sound(&record), expected, "{record:?}");
            counts[usize::from(expected)] += 1;
        });
        assert!(counts[0] > 1_500 && counts[1] > 100, "{counts:?}");
    }

    /// Rules, frames and clocks of an empty record, allowed ones and others.
    #[test]
    fn fronts() {
        for rule in 0..=5 {
            for frames in [0, 1, 256, 257, MARK] {
                for clock in [0, 8_000, 8_001, MARK] {
                    let mut record = fed(LRU, 1, &[]);
                    record[..MAP].copy_from_slice(&[rule, frames, clock]);
                    assert_eq!(sound(&record), second::sound_words(&record));
                }
            }
        }
    }

    /// Each bit of the map flipped, with few frames held and with all.
    #[test]
    fn maps() {
        for held in [0, 3, 32, 64, 100, 256] {
            let trace: Vec<u32> = (0..held).collect();
            let record = fed(LRU, 256, &trace);
            for bit in 0..256 {
                let mut flipped = record.clone();
                flipped[MAP + bit / 32] ^= 1 << (bit % 32);
                assert!(!sound(&flipped), "{held} held, bit {bit}");
            }
        }
    }

    /// The frames of these pages, against the second program.
    fn ask(record: &[u32], pages: &[u32]) -> u32 {
        let mut words = vec![7; pages.len()];
        let held = Index::of(record).frames_of(pages, &mut words);
        let expected = pages.iter().map(|&page| second::frame_words(record, page));
        let frame = |found: second::Found| match (found.number, found.held) {
            (0, 1) => found.frame,
            (0, _) => MARK,
            _ => panic!("refused"),
        };
        let expected: Vec<u32> = expected.map(frame).collect();
        assert_eq!(words, expected, "{record:?}");
        let absent = words.iter().filter(|&&word| word == MARK).count();
        assert_eq!(held as usize + absent, pages.len());
        held
    }

    #[test]
    fn frames() {
        let mut counts = [0, 0];
        each_trace(400, |lot, n, trace| {
            let rule = [LRU, FIFO, LRU_2][lot.below(3) as usize];
            let mut pages = trace.to_vec();
            pages.extend([0, MARK - 1, lot.below(1 << 31)]);
            let held = ask(&fed(rule, n, trace), &pages);
            counts[0] += held;
            counts[1] += pages.len() as u32 - held;
        });
        assert!(counts.iter().all(|&count| count > 5_000), "{counts:?}");
        let pages: Vec<u32> = (0..300).map(|page| 9 * page).collect();
        for held in [0, 1, 64, 255, 256] {
            let record = fed(LRU, 256, &pages[..held]);
            assert_eq!(ask(&record, &pages) as usize, held);
        }
    }

    /// What the lines of the table say: the records that are judged have all frames held.
    #[test]
    fn the_measured_records() {
        for (_, trace) in inputs::all() {
            let record = fed(LRU, inputs::FRAMES, &trace);
            assert_eq!(record[MAP..ENTRIES], [u32::MAX; 8]);
            assert!(sound(&record) && second::sound_words(&record));
        }
    }
}
