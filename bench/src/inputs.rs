//! The five traces that speed is measured on, the same in every run: 8,000 requests each.
//! Uniform over 400 pages, a sweep of 257 pages (one more than the frames), skewed, 8,000 different pages,
//! and the uniform one with pages that share a hash.

pub const REQUESTS: usize = 8_000;
pub const FRAMES: u32 = 256;

/// Times 2,654,435,761, which pages are multiplied by in the index, this is 1 in 32 bits.
const INVERSE: u32 = 244_002_641;

/// Numbers by lot from a fixed start (xorshift).
pub struct Lot(u64);

impl Lot {
    pub fn new(start: u64) -> Lot {
        Lot(start.wrapping_mul(0x9E37_79B9_7F4A_7C15) | 1)
    }

    /// A number from 0 to `limit` - 1.
    pub fn below(&mut self, limit: u32) -> u32 {
        self.0 ^= self.0 << 13;
        self.0 ^= self.0 >> 7;
        self.0 ^= self.0 << 17;
        ((self.0 >> 16) % u64::from(limit)) as u32
    }

    /// Low numbers far more often than high ones.
    pub fn skewed(&mut self, limit: u32) -> u32 {
        let first = self.below(limit) + 1;
        let second = self.below(first) + 1;
        self.below(second)
    }
}

pub fn all() -> [(&'static str, Vec<u32>); 5] {
    let mut lot = Lot::new(1);
    let uniform: Vec<u32> = (0..REQUESTS).map(|_| lot.below(400)).collect();
    let sweep = (0..REQUESTS as u32).map(|moment| moment % 257).collect();
    let skewed = (0..REQUESTS).map(|_| lot.skewed(2_000)).collect();
    // No page comes again, so that a search for its next request goes to the end.
    let different = (0..REQUESTS as u32).collect();
    // The proved program's index goes by the top bits of a product; this undoes it, and they are 0.
    let crowded = uniform.iter().map(|page| page.wrapping_mul(INVERSE));
    let crowded = crowded.collect();
    [
        ("uniform", uniform),
        ("sweep", sweep),
        ("skewed", skewed),
        ("different", different),
        ("crowded", crowded),
    ]
}

/// A bundle file of these values.
#[cfg(any(test, feature = "report"))]
pub fn bundle(n: u32, m: u32, trace: &[u32], plan: &[u32]) -> Vec<u8> {
    let mut words = vec![2, n, m, trace.len() as u32];
    words.extend_from_slice(trace);
    words.push(plan.len() as u32);
    words.extend_from_slice(plan);
    words.iter().flat_map(|word| word.to_le_bytes()).collect()
}

#[cfg(test)]
mod tests {
    use super::*;

    /// The crowded trace is the uniform one by other names, all with the hash 0.
    #[test]
    fn crowded() {
        let [(_, uniform), .., (_, crowded)] = all();
        for (page, other) in uniform.iter().zip(crowded) {
            let product = other.wrapping_mul(2_654_435_761);
            assert_eq!((product, product >> 21), (*page, 0));
        }
    }
}
