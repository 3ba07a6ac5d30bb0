//! Maps of occupied frames for the comparison: each kind of damage to one, and any bits at all.
//! Beside each map stand records whose entries go with it in all ways that a reader might take it.

use crate::cases::Rng;
use second::{lowest, ones, Record, MARK};

pub type Map = [u64; 4];

/// How many frames are held: about the ends of halves and of whole words.
pub const HELD: [u32; 12] = [0, 1, 3, 32, 33, 63, 64, 65, 128, 193, 255, 256];

/// A record with so many frames held, every second page requested twice; sound if it has as many.
pub fn cache(rule: u32, held: u32, frames: u32) -> Record {
    let (_, _, mut record) = second::fresh(rule, frames);
    record.map = lowest(held);
    record.clock = 2 * held;
    for frame in 0..held {
        record.entries[frame as usize] = entry(frame);
    }
    record
}

fn entry(frame: u32) -> [u32; 4] {
    let loaded = 2 * frame;
    match frame % 2 {
        0 => [700 + frame, loaded, loaded, MARK],
        _ => [700 + frame, loaded, loaded + 1, loaded],
    }
}

/// The record with this map: entries as they were, as many as there are ones, and one at each bit.
pub fn with_map(record: &Record, map: Map) -> [Record; 3] {
    let mut kept = *record;
    kept.map = map;
    let mut counted = cache(record.rule, ones(&map), record.frames);
    counted.map = map;
    counted.clock = record.clock.max(512);
    let mut spread = counted;
    spread.entries = [[MARK; 4]; 256];
    for frame in (0..256).filter(|&frame| has(&map, frame)) {
        spread.entries[frame] = entry(frame as u32);
    }
    [kept, counted, spread]
}

pub fn has(map: &Map, frame: usize) -> bool {
    map[frame / 64] >> (frame % 64) & 1 == 1
}

pub fn flipped(map: &Map, frame: usize) -> Map {
    let mut changed = *map;
    changed[frame / 64] ^= 1 << (frame % 64);
    changed
}

/// Every single bit flipped and each other kind of damage, each map once.
pub fn damaged(map: &Map, frames: u32) -> Vec<Map> {
    let mut list: Vec<Map> = (0..256).map(|frame| flipped(map, frame)).collect();
    list.extend([0, frames, 256].map(lowest));
    list.push(lowest((frames + 1).min(256)));
    list.extend(turned(map));
    list.extend(moved(map));
    list.extend((0..8).flat_map(|half| in_half(map, half)));
    list.sort();
    list.dedup();
    list
}

/// Bits, halves or words in another order, and every bit the other way round.
fn turned(map: &Map) -> [Map; 5] {
    let [a, b, c, d] = *map;
    [
        map.map(|word| word.rotate_left(32)),
        map.map(u64::reverse_bits),
        map.map(u64::swap_bytes),
        [d, c, b, a],
        map.map(|word| !word),
    ]
}

/// As many ones, so many frames further up, past the end from the front on again.
fn moved(map: &Map) -> Vec<Map> {
    let by = |distance: usize| {
        let mut result = [0; 4];
        for frame in (0..256).filter(|&frame| has(map, frame)) {
            result = flipped(&result, (frame + distance) % 256);
        }
        result
    };
    [1, 31, 32, 63, 64, 65, 128, 192, 255].map(by).to_vec()
}

/// In one half of a word the first bit, the last, both and all, set and cleared.
fn in_half(map: &Map, half: usize) -> Vec<Map> {
    let mut list = Vec::new();
    for bits in [1, 1 << 31, 0x8000_0001, 0xFFFF_FFFF_u64] {
        let bits = bits << (half % 2 * 32);
        let mut set = *map;
        set[half / 2] |= bits;
        let mut cleared = *map;
        cleared[half / 2] &= !bits;
        list.extend([set, cleared]);
    }
    list
}

/// By lot: any words, halves all alike, some bits flipped, ones moved, or the lowest bits only.
pub fn random(rng: &mut Rng) -> Map {
    let held = rng.below(257) as u32;
    match rng.below(5) {
        0 => [rng.next(), rng.next(), rng.next(), rng.next()],
        1 => [(); 4].map(|_| alike(rng) | alike(rng) << 32),
        2 => some_flipped(rng, lowest(held)),
        3 => one_moved(rng, lowest(held)),
        _ => lowest(held),
    }
}

fn alike(rng: &mut Rng) -> u64 {
    rng.pick(&[0, 0, 0xFFFF_FFFF, 0xFFFF_FFFF, 0xFFFF, 1])
}

fn some_flipped(rng: &mut Rng, mut map: Map) -> Map {
    for _ in 0..rng.between(1, 4) {
        map = flipped(&map, rng.below(256));
    }
    map
}

/// A one from anywhere goes to a zero anywhere, so that the number stays.
fn one_moved(rng: &mut Rng, map: Map) -> Map {
    let from = rng.below(256);
    let to = rng.below(256);
    if has(&map, from) == has(&map, to) {
        return map;
    }
    flipped(&flipped(&map, from), to)
}
