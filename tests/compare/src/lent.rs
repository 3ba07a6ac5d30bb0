//! Lists that are lent with guards on both sides, so that a touch outside them is seen.
//! And the tally of a group of cases, which keeps the first few failures in words.

/// How many guards stand before and after what is lent.
const GUARDS: usize = 8;
/// What an answer holds before the call, so that a word left unwritten is seen.
const UNWRITTEN: u32 = 0xA5A5_5A5A;

pub struct Lent<T> {
    whole: Vec<T>,
    guard: T,
}

impl<T: Copy + PartialEq> Lent<T> {
    fn new(contents: &[T], guard: T) -> Lent<T> {
        let mut whole = vec![guard; GUARDS];
        whole.extend_from_slice(contents);
        whole.extend_from_slice(&[guard; GUARDS]);
        Lent { whole, guard }
    }

    pub fn part(&self) -> &[T] {
        &self.whole[GUARDS..self.whole.len() - GUARDS]
    }

    pub fn part_mut(&mut self) -> &mut [T] {
        let end = self.whole.len() - GUARDS;
        &mut self.whole[GUARDS..end]
    }

    /// Whether the whole list, guards included, holds exactly these contents.
    pub fn is(&self, contents: &[T]) -> bool {
        self.whole == Lent::new(contents, self.guard).whole
    }
}

pub fn words(contents: &[u32]) -> Lent<u32> {
    Lent::new(contents, 0x5EED_0BAD)
}

pub fn bytes(contents: &[u8]) -> Lent<u8> {
    Lent::new(contents, 0xBD)
}

pub fn answer(length: usize) -> Lent<u32> {
    words(&vec![UNWRITTEN; length])
}

/// Failures beyond this many are counted, but not told in words.
const TOLD: usize = 5;

#[derive(Default)]
pub struct Tally {
    pub passed: u64,
    pub failed: u64,
    pub told: Vec<String>,
    /// The group ends, by unwinding, at the first case that fails.
    #[cfg(feature = "self-check")]
    pub first_is_enough: bool,
}

impl Tally {
    pub fn case(&mut self, right: bool, what: impl FnOnce() -> String) {
        if right {
            self.passed += 1;
            return;
        }
        self.failed += 1;
        if self.told.len() < TOLD {
            self.told.push(what());
        }
        #[cfg(feature = "self-check")]
        if self.first_is_enough {
            std::panic::resume_unwind(Box::new(()));
        }
    }
}

/// A list in words: all of a short one, the front and length of a long one.
pub fn show<T: std::fmt::Debug>(list: &[T]) -> String {
    if list.len() <= 40 {
        return format!("{list:?}");
    }
    format!("{:?} and on, {} in all", &list[..40], list.len())
}
