//! The map of occupied frames: four words of 64 bits, one bit for each frame, low bits first.
//! Every question about it is asked of a plain list of 256 bits.

use crate::MOST_FRAMES;

const FRAMES: usize = MOST_FRAMES as usize;

/// How many frames are held.
pub fn ones(map: &[u64; 4]) -> u32 {
    let mut number = 0;
    for bit in bits_of(map) {
        if bit {
            number += 1;
        }
    }
    number
}

/// The next free frame; there is none where all 256 bits are set.
pub fn lowest_zero(map: &[u64; 4]) -> Option<usize> {
    let bits = bits_of(map);
    for frame in 0..FRAMES {
        if !bits[frame] {
            return Some(frame);
        }
    }
    None
}

/// Whether as many of the lowest bits are set as there are ones, and no other.
pub fn exactly_lowest(map: &[u64; 4]) -> bool {
    *map == lowest(ones(map))
}

/// The map with so many of the lowest bits set, and no other.
pub fn lowest(number: u32) -> [u64; 4] {
    let mut bits = [false; FRAMES];
    for frame in 0..number as usize {
        bits[frame] = true;
    }
    map_of(&bits)
}

/// The map with one more bit set.
pub fn with(map: &[u64; 4], frame: usize) -> [u64; 4] {
    let mut bits = bits_of(map);
    bits[frame] = true;
    map_of(&bits)
}

fn bits_of(map: &[u64; 4]) -> [bool; FRAMES] {
    let mut bits = [false; FRAMES];
    for word in 0..4 {
        let mut rest = map[word];
        for bit in 0..64 {
            bits[64 * word + bit] = rest % 2 == 1;
            rest = rest / 2;
        }
    }
    bits
}

fn map_of(bits: &[bool; FRAMES]) -> [u64; 4] {
    let mut map = [0; 4];
    for word in 0..4 {
        for bit in (0..64).rev() {
            map[word] = map[word] * 2 + u64::from(bits[64 * word + bit]);
        }
    }
    map
}
