//! Inputs for the comparison, drawn from a fixed seed: the same ones in every run.
//! Traces, frames, rules and plans; records and bundles have files of their own.

use second::MARK;

/// SplitMix64: short, and the same on every machine.
pub struct Rng(u64);

impl Rng {
    pub fn new(seed: u64) -> Rng {
        Rng(seed)
    }

    pub fn next(&mut self) -> u64 {
        self.0 = self.0.wrapping_add(0x9E37_79B9_7F4A_7C15);
        let mut z = self.0;
        z = (z ^ (z >> 30)).wrapping_mul(0xBF58_476D_1CE4_E5B9);
        z = (z ^ (z >> 27)).wrapping_mul(0x94D0_49BB_1331_11EB);
        z ^ (z >> 31)
    }

    pub fn word(&mut self) -> u32 {
        (self.next() >> 32) as u32
    }

    /// A number from 0 to `limit` - 1.
    pub fn below(&mut self, limit: usize) -> usize {
        (self.next() % limit as u64) as usize
    }

    /// A number from `low` to `high`, both included.
    pub fn between(&mut self, low: usize, high: usize) -> usize {
        low + self.below(high - low + 1)
    }

    pub fn pick<T: Copy>(&mut self, list: &[T]) -> T {
        list[self.below(list.len())]
    }

    pub fn one_in(&mut self, times: usize) -> bool {
        self.below(times) == 0
    }
}

/// Mostly one of the four rules; otherwise a number that isn't one.
pub fn rule(rng: &mut Rng) -> u32 {
    if rng.one_in(8) {
        // 257 to 260 and 65,537 look like rules to a program that cuts numbers short.
        return rng.pick(&[0, 5, 6, 7, 257, 258, 260, 65_537, MARK - 1, MARK]);
    }
    rng.between(1, 4) as u32
}

/// Mostly few frames; sometimes any allowed number, sometimes one that isn't.
pub fn frames(rng: &mut Rng) -> u32 {
    match rng.below(20) {
        0 | 1 => rng.pick(&[
            0,
            257,
            258,
            259,
            512,
            65_536,
            65_539,
            1 << 31,
            (1 << 31) + 3,
            MARK - 1,
            MARK,
        ]),
        2..=5 => rng.between(1, 256) as u32,
        6 => rng.pick(&[255, 256]),
        _ => rng.between(1, 8) as u32,
    }
}

/// Lengths 0 and 1 now and then, otherwise anything up to `most`.
pub fn length(rng: &mut Rng, most: usize) -> usize {
    match rng.below(16) {
        0 => 0,
        1 => 1,
        _ => rng.between(2, most),
    }
}

/// A trace of pages only, shaped to be interesting with about this many frames.
pub fn trace(rng: &mut Rng, t: usize, frames: u32) -> Vec<u32> {
    let frames = (frames as usize).clamp(1, 300);
    let kind = rng.below(10);
    let few = rng.between(1, frames + 2);
    let many = rng.between(frames + 1, 3 * frames + 3);
    let mut shape: Vec<u32> = Vec::with_capacity(t);
    for moment in 0..t {
        let number = match kind {
            0 => rng.below(few),
            1 | 2 => rng.below(many),
            // A loop over a few more pages than there are frames.
            3 => moment % (frames + 1 + few % 3),
            4 => sweep(moment, many),
            5 | 6 => skewed(rng, many),
            7 => phase(rng, moment, frames),
            8 => twice_then_on(rng, moment, frames),
            _ => rng.pick(&[0, moment, moment / 2, few]),
        };
        shape.push(number as u32);
    }
    name_pages(rng, &mut shape);
    shape
}

/// Up and down again, as a scanning head goes.
fn sweep(moment: usize, pages: usize) -> usize {
    let place = moment % (2 * pages);
    if place < pages {
        place
    } else {
        2 * pages - 1 - place
    }
}

/// Low numbers far more often than high ones.
pub fn skewed(rng: &mut Rng, pages: usize) -> usize {
    let first = rng.below(pages) + 1;
    let second = rng.below(first) + 1;
    rng.below(second)
}

/// Work on a small set of pages for a while, then on another.
fn phase(rng: &mut Rng, moment: usize, frames: usize) -> usize {
    let start = moment / (4 * frames + 3) * frames;
    start + rng.below(frames + 1)
}

/// Pages requested twice, then others once each: this is where LRU and LRU-2 part.
fn twice_then_on(rng: &mut Rng, moment: usize, frames: usize) -> usize {
    if moment < 2 * frames {
        return moment / 2;
    }
    if rng.one_in(5) {
        return rng.below(frames);
    }
    frames + rng.below(frames + 2)
}

/// Low numbers, the highest ones, or scattered ones: the rules mustn't mind.
fn name_pages(rng: &mut Rng, shape: &mut [u32]) {
    let naming = rng.below(4);
    let odd = rng.word() | 1;
    let turn = rng.word();
    for number in shape.iter_mut() {
        let page = match naming {
            0 => *number,
            1 => MARK - 1 - *number,
            2 => number.wrapping_add(0x7FFF_FFF8),
            _ => number.wrapping_mul(odd).wrapping_add(turn),
        };
        *number = if page == MARK { MARK - 1 } else { page };
    }
}

/// The hash of the mark, which Check looks for among the held pages where a plan has it for a page that goes.
pub const MARK_HASH: u32 = 782;

/// The page with a hash of the proved program's index and a number of its own: the product undone, whose top bits are the hash.
pub fn of_hash(hash: u32, number: u32) -> u32 {
    (hash << 21 | number).wrapping_mul(244_002_641)
}

/// The same requests for other pages: those of one hash or of a few, or with low bits alike. A hash
/// is what an index might go by, the top eleven bits of a product by 2,654,435,761.
pub fn crowd(rng: &mut Rng, trace: &mut [u32]) {
    let mut pages: Vec<u32> = trace.to_vec();
    pages.sort();
    pages.dedup();
    let first = match rng.below(6) {
        0 => MARK_HASH,
        _ => rng.below(2_048) as u32,
    };
    let few = rng.pick(&[1, 1, 2, 5]);
    let alike = rng.one_in(6);
    for page in trace.iter_mut() {
        let number = pages.binary_search(page).unwrap() as u32;
        *page = if alike {
            number << 16 | first
        } else {
            of_hash((first + number % few) % 2_048, number)
        };
    }
}

/// Any words at all, with the highest page and, if allowed, the mark among them.
pub fn random_words(rng: &mut Rng, length: usize, marks: bool) -> Vec<u32> {
    let mut list = Vec::with_capacity(length);
    for _ in 0..length {
        let word = match rng.below(6) {
            0 => MARK - 1,
            1 => rng.below(4) as u32,
            2 if marks => MARK,
            _ => rng.word() & !1,
        };
        list.push(word);
    }
    list
}

/// A trace as a mill might lend it: now and then with marks in it, or of random words.
pub fn lent_trace(rng: &mut Rng, t: usize, frames: u32) -> Vec<u32> {
    if rng.one_in(16) {
        let marks = rng.one_in(2);
        return random_words(rng, t, marks);
    }
    let mut trace = trace(rng, t, frames);
    if t > 0 && rng.one_in(14) {
        for _ in 0..rng.between(1, 3) {
            let moment = rng.below(t);
            trace[moment] = MARK;
        }
    }
    trace
}

/// A plan as a mill might lend it: a rule's, somebody's, damaged, rubbish, short or long.
pub fn lent_plan(rng: &mut Rng, m: u32, trace: &[u32]) -> Vec<u32> {
    let mut plan = match rng.below(8) {
        0 | 1 => rule_plan(rng, m, trace),
        2 => {
            let other = frames(rng);
            rule_plan(rng, other, trace)
        }
        3 => random_words(rng, trace.len(), true),
        4 => shuffled_trace(rng, trace),
        _ => somebodys_plan(rng, m, trace),
    };
    if !plan.is_empty() && rng.one_in(3) {
        damage_plan(rng, &mut plan, trace);
    }
    match rng.below(10) {
        0 if !plan.is_empty() => plan.truncate(rng.below(trace.len())),
        1 if !plan.is_empty() => plan.truncate(trace.len() - 1),
        2..=4 => {
            let rubbish = rng.between(1, 9);
            plan.extend(random_words(rng, rubbish, true));
        }
        _ => {}
    }
    plan
}

fn rule_plan(rng: &mut Rng, m: u32, trace: &[u32]) -> Vec<u32> {
    let mut plan = random_words(rng, trace.len(), true);
    let rule = rng.between(1, 4) as u32;
    second::write_plan(rule, m, trace, &mut plan);
    plan
}

fn shuffled_trace(rng: &mut Rng, trace: &[u32]) -> Vec<u32> {
    let mut plan = trace.to_vec();
    for place in (1..plan.len()).rev() {
        let other = rng.below(place + 1);
        plan.swap(place, other);
    }
    plan
}

/// Keeps the plan rule, with a page drawn by lot wherever one must go.
pub fn somebodys_plan(rng: &mut Rng, m: u32, trace: &[u32]) -> Vec<u32> {
    let m = (m as usize).clamp(1, 256);
    let mut held: Vec<u32> = Vec::new();
    let mut plan = Vec::with_capacity(trace.len());
    for &page in trace {
        if held.contains(&page) {
            plan.push(MARK);
        } else if held.len() < m {
            plan.push(MARK);
            held.push(page);
        } else {
            let frame = rng.below(held.len());
            plan.push(held[frame]);
            held[frame] = page;
        }
    }
    plan
}

/// One entry made the mark, the page requested, some other page, or any word.
fn damage_plan(rng: &mut Rng, plan: &mut [u32], trace: &[u32]) {
    let moment = rng.below(plan.len());
    plan[moment] = match rng.below(5) {
        0 => MARK,
        1 => trace[moment],
        2 => trace[rng.below(moment + 1)],
        3 => trace[rng.below(trace.len())],
        _ => rng.word(),
    };
}
