//! The second program: every service of document 01 and of the requests after it, in the plainest way.
//! It exists to be compared with the proved program, so speed is of no interest here.

// Plain loops are the point here, so the advice to shorten them is turned off.
#![allow(clippy::all)]

mod bundle;
mod map;
mod plans;
mod record;
mod report;
mod rules;
mod words;

pub use bundle::{read_bundle, write_bundle, ReadReply, WriteReply};
pub use map::{lowest, ones};
pub use plans::{better, better_words, check, Verdict};
pub use record::{blank, feed, feed_own, frame_of, fresh, sound, Fed, Found, Outcome, Record};
pub use report::report;
pub use rules::{count, write_plan};
pub use words::{feed_own_words, feed_words, frame_words, fresh_words, sound_words, RECORD_WORDS};

/// "No page" or "no moment", according to the field.
pub const MARK: u32 = 4_294_967_295;
/// The largest number of requests in a trace.
pub const MOST_REQUESTS: usize = 8_000;
/// The largest number of frames in a cache.
pub const MOST_FRAMES: u32 = 256;
/// The largest bundle file, in bytes.
pub const MOST_FILE: usize = 64_020;
/// The most bytes that the report program reads.
pub const MOST_INPUT: usize = 65_536;

pub const LRU: u32 = 1;
pub const FIFO: u32 = 2;
pub const MIN: u32 = 3;
pub const LRU_2: u32 = 4;

/// The answer of Count, Write a plan and Check.
/// Number 0 means accepted; a refusal has its number and place, and 0 faults.
#[derive(Clone, Copy, Debug, PartialEq, Eq)]
pub struct Reply {
    pub number: u32,
    pub place: u32,
    pub faults: u32,
}

impl Reply {
    pub(crate) fn accepted(faults: u32) -> Reply {
        Reply {
            number: 0,
            place: 0,
            faults,
        }
    }

    pub(crate) fn refused(number: u32, place: u32) -> Reply {
        Reply {
            number,
            place,
            faults: 0,
        }
    }
}

/// Whether a number of frames is 1 to 256.
pub(crate) fn frames_allowed(frames: u32) -> bool {
    frames >= 1 && frames <= MOST_FRAMES
}

/// The first moment whose request is the mark.
pub(crate) fn first_mark(trace: &[u32]) -> Option<usize> {
    for moment in 0..trace.len() {
        if trace[moment] == MARK {
            return Some(moment);
        }
    }
    None
}

/// The refusals that every call with a trace has in common: 2, then 3, then 4.
pub(crate) fn refusal_of_call(frames: u32, trace: &[u32]) -> Option<Reply> {
    if !frames_allowed(frames) {
        return Some(Reply::refused(2, 0));
    }
    if trace.len() > MOST_REQUESTS {
        return Some(Reply::refused(3, 0));
    }
    if let Some(moment) = first_mark(trace) {
        return Some(Reply::refused(4, moment as u32));
    }
    None
}
