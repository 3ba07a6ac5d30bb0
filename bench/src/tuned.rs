//! The same services written for speed, as a mill would write them without any proof.
//! It measures what the proved program costs; it takes good input and judges only plans.

use crate::record::Kept;
use std::cmp::Reverse;
use std::collections::{BinaryHeap, HashMap, VecDeque};
use std::fmt::Write;
use std::hash::{BuildHasherDefault, Hasher};

pub const MARK: u32 = u32::MAX;
pub const LRU: u32 = 1;
pub const FIFO: u32 = 2;
pub const MIN: u32 = 3;
pub const LRU_2: u32 = 4;

// ---- Pages by small numbers, so that all else is a list ----

/// One multiplication; pages are no enemy's choice, so more isn't needed.
#[derive(Default)]
pub struct PageHasher(u64);

pub type ByPage<T> = HashMap<u32, T, BuildHasherDefault<PageHasher>>;

impl Hasher for PageHasher {
    fn finish(&self) -> u64 {
        self.0
    }

    fn write(&mut self, _bytes: &[u8]) {
        unreachable!("only pages are looked up");
    }

    fn write_u32(&mut self, page: u32) {
        let product = u64::from(page).wrapping_mul(0x9E37_79B9_7F4A_7C15);
        self.0 = product ^ (product >> 32);
    }
}

/// Each page met gets the next small number; all tables below go by these.
#[derive(Default)]
struct Names {
    numbers: ByPage<u32>,
    pages: Vec<u32>,
}

impl Names {
    fn number(&mut self, page: u32) -> u32 {
        let next = self.pages.len() as u32;
        let number = *self.numbers.entry(page).or_insert(next);
        if number == next {
            self.pages.push(page);
        }
        number
    }

    fn numbers_of(&mut self, trace: &[u32]) -> Vec<u32> {
        trace.iter().map(|&page| self.number(page)).collect()
    }
}

/// What a request did; a dropped page is told by its small number.
#[derive(Clone, Copy, Debug, PartialEq, Eq)]
pub enum Did {
    Hit,
    Loaded,
    Dropped(u32),
}

/// A cache fed one request at a time, for at most `pages` different pages.
trait Cache {
    fn new(frames: usize, pages: usize) -> Self;
    fn feed(&mut self, page: u32) -> Did;
}

// ---- LRU: a ring of links, the latest request behind the head ----

struct Lru {
    room: usize,
    held: Vec<bool>,
    /// Links before and after; the last place is the head.
    links: Vec<[u32; 2]>,
}

impl Lru {
    fn head(&self) -> u32 {
        self.held.len() as u32
    }

    fn unlink(&mut self, page: u32) {
        let [before, after] = self.links[page as usize];
        self.links[before as usize][1] = after;
        self.links[after as usize][0] = before;
    }

    fn link_last(&mut self, page: u32) {
        let head = self.head();
        let before = self.links[head as usize][0];
        self.links[page as usize] = [before, head];
        self.links[before as usize][1] = page;
        self.links[head as usize][0] = page;
    }
}

impl Cache for Lru {
    fn new(frames: usize, pages: usize) -> Lru {
        Lru {
            room: frames,
            held: vec![false; pages],
            links: vec![[pages as u32; 2]; pages + 1],
        }
    }

    fn feed(&mut self, page: u32) -> Did {
        if self.held[page as usize] {
            self.unlink(page);
            self.link_last(page);
            return Did::Hit;
        }
        self.held[page as usize] = true;
        if self.room > 0 {
            self.room -= 1;
            self.link_last(page);
            return Did::Loaded;
        }
        let victim = self.links[self.head() as usize][1];
        self.unlink(victim);
        self.held[victim as usize] = false;
        self.link_last(page);
        Did::Dropped(victim)
    }
}

// ---- FIFO: a ring of frames ----

struct Fifo {
    frames: usize,
    ring: Vec<u32>,
    oldest: usize,
    held: Vec<bool>,
}

impl Cache for Fifo {
    fn new(frames: usize, pages: usize) -> Fifo {
        Fifo {
            frames,
            ring: Vec::with_capacity(frames),
            oldest: 0,
            held: vec![false; pages],
        }
    }

    fn feed(&mut self, page: u32) -> Did {
        if self.held[page as usize] {
            return Did::Hit;
        }
        self.held[page as usize] = true;
        if self.ring.len() < self.frames {
            self.ring.push(page);
            return Did::Loaded;
        }
        let victim = std::mem::replace(&mut self.ring[self.oldest], page);
        self.held[victim as usize] = false;
        self.oldest += 1;
        if self.oldest == self.frames {
            self.oldest = 0;
        }
        Did::Dropped(victim)
    }
}

// ---- LRU-2: a queue of pages requested once, a heap of the others ----

const NONE: u32 = u32::MAX;

#[derive(Clone, Copy)]
struct Past {
    held: bool,
    last: u32,
    earlier: u32,
}

struct LruTwo {
    room: usize,
    clock: u32,
    past: Vec<Past>,
    /// Page and moment of its load; out of date once the page has been requested again.
    once: VecDeque<(u32, u32)>,
    /// One for each page requested again; its moment may lie behind, and is then renewed.
    again: BinaryHeap<Reverse<(u32, u32)>>,
}

impl LruTwo {
    fn take_victim(&mut self) -> u32 {
        while let Some((page, loaded)) = self.once.pop_front() {
            let past = self.past[page as usize];
            if past.held && past.earlier == NONE && past.last == loaded {
                return page;
            }
        }
        loop {
            let mut top = self.again.peek_mut().expect("a full cache holds a page");
            let Reverse((earlier, page)) = *top;
            let now = self.past[page as usize].earlier;
            if now == earlier {
                std::collections::binary_heap::PeekMut::pop(top);
                return page;
            }
            *top = Reverse((now, page));
        }
    }
}

impl Cache for LruTwo {
    fn new(frames: usize, pages: usize) -> LruTwo {
        let past = Past {
            held: false,
            last: NONE,
            earlier: NONE,
        };
        LruTwo {
            room: frames,
            clock: 0,
            past: vec![past; pages],
            once: VecDeque::with_capacity(frames),
            again: BinaryHeap::with_capacity(frames),
        }
    }

    fn feed(&mut self, page: u32) -> Did {
        let moment = self.clock;
        self.clock += 1;
        let past = &mut self.past[page as usize];
        if past.held {
            if past.earlier == NONE {
                self.again.push(Reverse((past.last, page)));
            }
            past.earlier = past.last;
            past.last = moment;
            return Did::Hit;
        }
        *past = Past {
            held: true,
            last: moment,
            earlier: NONE,
        };
        let did = if self.room > 0 {
            self.room -= 1;
            Did::Loaded
        } else {
            let victim = self.take_victim();
            self.past[victim as usize].held = false;
            Did::Dropped(victim)
        };
        self.once.push_back((page, moment));
        did
    }
}

// ---- MIN: the table of next requests, and a heap of the held pages by it ----

/// For each moment, the next moment with the same page; `NONE` is "never again".
fn next_requests(numbers: &[u32], pages: usize) -> Vec<u32> {
    let mut nexts = vec![NONE; numbers.len()];
    let mut seen = vec![NONE; pages];
    for moment in (0..numbers.len()).rev() {
        let page = numbers[moment] as usize;
        nexts[moment] = seen[page];
        seen[page] = moment as u32;
    }
    nexts
}

/// The latest next request on top; among pages that never come again, the lowest number.
fn min_key(next: u32, page: u32) -> u64 {
    u64::from(next) << 32 | u64::from(!page)
}

fn walk_min(names: &Names, numbers: &[u32], n: usize, mut did: impl FnMut(usize, Did)) {
    let nexts = next_requests(numbers, names.pages.len());
    let mut held = vec![false; names.pages.len()];
    let mut room = n;
    // Keys of requests that have come lie below all others, so they may stay.
    let mut heap: BinaryHeap<(u64, u32)> = BinaryHeap::with_capacity(numbers.len());
    for (moment, &page) in numbers.iter().enumerate() {
        let what = if held[page as usize] {
            Did::Hit
        } else if room > 0 {
            room -= 1;
            Did::Loaded
        } else {
            let (_, victim) = heap.pop().expect("a full cache holds a page");
            held[victim as usize] = false;
            Did::Dropped(victim)
        };
        held[page as usize] = true;
        heap.push((min_key(nexts[moment], names.pages[page as usize]), page));
        did(moment, what);
    }
}

// ---- The services ----

fn walk_cache<C: Cache>(names: &Names, numbers: &[u32], n: usize, mut did: impl FnMut(usize, Did)) {
    let mut cache = C::new(n, names.pages.len());
    for (moment, &page) in numbers.iter().enumerate() {
        did(moment, cache.feed(page));
    }
}

fn walk(rule: u32, names: &Names, numbers: &[u32], n: u32, did: impl FnMut(usize, Did)) {
    let n = n as usize;
    match rule {
        LRU => walk_cache::<Lru>(names, numbers, n, did),
        FIFO => walk_cache::<Fifo>(names, numbers, n, did),
        MIN => walk_min(names, numbers, n, did),
        _ => walk_cache::<LruTwo>(names, numbers, n, did),
    }
}

fn count_numbers(rule: u32, names: &Names, numbers: &[u32], n: u32) -> u32 {
    let mut faults = 0;
    walk(rule, names, numbers, n, |_, did| {
        faults += u32::from(did != Did::Hit)
    });
    faults
}

pub fn count(rule: u32, n: u32, trace: &[u32]) -> u32 {
    let mut names = Names::default();
    let numbers = names.numbers_of(trace);
    count_numbers(rule, &names, &numbers, n)
}

pub fn plan(rule: u32, n: u32, trace: &[u32], words: &mut [u32]) -> u32 {
    let mut names = Names::default();
    let numbers = names.numbers_of(trace);
    let mut faults = 0;
    walk(rule, &names, &numbers, n, |moment, did| {
        faults += u32::from(did != Did::Hit);
        words[moment] = match did {
            Did::Dropped(page) => names.pages[page as usize],
            _ => MARK,
        };
    });
    faults
}

/// The faults, or the moment of the first entry that breaks the plan rule.
pub fn check(m: u32, trace: &[u32], words: &[u32]) -> Result<u32, u32> {
    let mut names = Names::default();
    let mut held: Vec<bool> = Vec::with_capacity(trace.len());
    let mut room = m;
    let mut faults = 0;
    for (moment, (&page, &entry)) in trace.iter().zip(words).enumerate() {
        let page = names.number(page) as usize;
        if page == held.len() {
            held.push(false);
        }
        if held[page] || room > 0 {
            if entry != MARK {
                return Err(moment as u32);
            }
            if !held[page] {
                room -= 1;
                faults += 1;
            }
        } else {
            match names.numbers.get(&entry) {
                Some(&victim) if held[victim as usize] => held[victim as usize] = false,
                _ => return Err(moment as u32),
            }
            faults += 1;
        }
        held[page] = true;
    }
    Ok(faults)
}

/// Feeds the trace one page at a time, naming pages as they come, and keeps the record in words.
/// Answers the faults.
pub fn feed_all(rule: u32, n: u32, trace: &[u32], words: &mut [u32], record: &mut [u32]) -> u32 {
    let kept = Kept::fresh(rule, n, trace.len(), record);
    match rule {
        LRU => feed_cache::<Lru>(n, trace, words, kept),
        FIFO => feed_cache::<Fifo>(n, trace, words, kept),
        _ => feed_cache::<LruTwo>(n, trace, words, kept),
    }
}

fn feed_cache<C: Cache>(n: u32, trace: &[u32], words: &mut [u32], mut kept: Kept) -> u32 {
    let mut names = Names::default();
    let mut cache = C::new(n as usize, trace.len());
    let mut faults = 0;
    for (moment, &page) in trace.iter().enumerate() {
        let number = names.number(page);
        let did = cache.feed(number);
        kept.serve(number, page, did);
        faults += u32::from(did != Did::Hit);
        words[moment] = match did {
            Did::Dropped(page) => names.pages[page as usize],
            _ => MARK,
        };
    }
    faults
}

fn word(bytes: &[u8], place: usize) -> u32 {
    u32::from_le_bytes(bytes[place..place + 4].try_into().unwrap())
}

fn words_from(bytes: &[u8], place: usize, count: usize) -> Vec<u32> {
    let section = &bytes[place..place + 4 * count];
    section.chunks_exact(4).map(|four| word(four, 0)).collect()
}

/// The report on a good bundle.
pub fn report(bytes: &[u8]) -> String {
    let n = word(bytes, 4);
    let m = word(bytes, 8);
    let t = word(bytes, 12) as usize;
    let trace = words_from(bytes, 16, t);
    let plan_count = word(bytes, 16 + 4 * t) as usize;
    let plan = words_from(bytes, 20 + 4 * t, plan_count);
    let mut names = Names::default();
    let numbers = names.numbers_of(&trace);
    let lines = [
        ("lru", LRU, n),
        ("fifo", FIFO, n),
        ("min", MIN, n),
        ("lru2", LRU_2, n),
        ("min", MIN, m),
    ];
    let mut text = format!("requests {t}\n");
    for (name, rule, frames) in lines {
        let faults = count_numbers(rule, &names, &numbers, frames);
        writeln!(text, "{name} {frames} {faults}").unwrap();
    }
    match check(m, &trace, &plan) {
        _ if plan_count == 0 => text.push_str("claim none\n"),
        Ok(faults) => writeln!(text, "claim {m} {faults}").unwrap(),
        Err(moment) => writeln!(text, "claim refused 7 at {moment}").unwrap(),
    }
    text
}

#[cfg(test)]
pub mod tests {
    use super::*;
    use crate::inputs::{self, Lot};
    use crate::record::RECORD_WORDS;

    /// Traces with few frames and many, long and short, each against the second program.
    pub fn each_trace(times: usize, mut test: impl FnMut(&mut Lot, u32, &[u32])) {
        let mut lot = Lot::new(5);
        for round in 0..times {
            let n = 1 + lot.below(if round % 5 == 0 { 60 } else { 8 });
            let t = lot.below(220) as usize;
            let pages = 1 + lot.below(3 * n);
            let turn = lot.below(1 << 31);
            let trace: Vec<u32> = (0..t)
                .map(|_| match round % 4 {
                    0 => lot.below(pages),
                    1 => lot.skewed(pages),
                    2 => MARK - 1 - lot.below(pages),
                    _ => lot.below(pages).wrapping_mul(0x9E37_79B1) ^ turn,
                })
                .map(|page| page.min(MARK - 1))
                .collect();
            test(&mut lot, n, &trace);
        }
    }

    #[test]
    fn counts_and_plans() {
        each_trace(4_000, |_, n, trace| {
            for rule in 1..=4 {
                let mut ours = vec![0; trace.len()];
                let reply = second::write_plan(rule, n, trace, &mut ours);
                let mut tuned = vec![0; trace.len()];
                assert_eq!(plan(rule, n, trace, &mut tuned), reply.faults);
                assert_eq!(tuned, ours, "rule {rule} n {n} {trace:?}");
                assert_eq!(count(rule, n, trace), reply.faults);
            }
        });
    }

    #[test]
    fn feeding() {
        each_trace(4_000, |_, n, trace| {
            for rule in [LRU, FIFO, LRU_2] {
                let mut ours = vec![0; trace.len()];
                let reply = second::write_plan(rule, n, trace, &mut ours);
                let mut tuned = vec![0; trace.len()];
                let mut record = [0; RECORD_WORDS];
                let faults = feed_all(rule, n, trace, &mut tuned, &mut record);
                assert_eq!((faults, tuned), (reply.faults, ours));
            }
        });
    }

    #[test]
    fn checks() {
        each_trace(8_000, |lot, n, trace| {
            let mut words = vec![0; trace.len()];
            second::write_plan(1 + lot.below(4), n, trace, &mut words);
            if !trace.is_empty() && lot.below(3) > 0 {
                let moment = lot.below(trace.len() as u32) as usize;
                let other = lot.below(trace.len() as u32) as usize;
                words[moment] = [MARK, trace[moment], trace[other], 7][lot.below(4) as usize];
            }
            let reply = second::check(n, trace, &words);
            let expected = match reply.number {
                0 => Ok(reply.faults),
                _ => Err(reply.place),
            };
            assert_eq!(check(n, trace, &words), expected);
        });
    }

    #[test]
    fn reports() {
        each_trace(1_000, |lot, n, trace| {
            let m = 1 + lot.below(n);
            let mut words = vec![0; trace.len()];
            let frames = if lot.below(2) == 0 { m } else { n };
            second::write_plan(LRU, frames, trace, &mut words);
            if lot.below(4) == 0 {
                words.clear();
            }
            let file = inputs::bundle(n, m, trace, &words);
            assert_eq!(report(&file).into_bytes(), second::report(&file));
        });
    }

    #[test]
    fn the_measured_inputs() {
        for (_, trace) in inputs::all() {
            assert_eq!(trace.len(), inputs::REQUESTS);
            for rule in 1..=4 {
                let reply = second::count(rule, 256, &trace);
                assert_eq!(count(rule, 256, &trace), reply.faults);
            }
        }
    }
}
