//! The proved program as it is called from outside: C functions, and a safe form of each.
//! A list is a pointer and then its length; an answer goes into lent words of exactly its length,
//! that of Frame into others too.

extern "C" {
    /// answer: number, place, faults.
    fn hedravos_count(
        rule: u32,
        n: u32,
        trace: *const u32,
        trace_len: usize,
        answer: *mut u32,
        answer_len: usize,
    );

    /// answer: number, place, faults.
    fn hedravos_plan(
        rule: u32,
        n: u32,
        trace: *const u32,
        trace_len: usize,
        words: *mut u32,
        words_len: usize,
        answer: *mut u32,
        answer_len: usize,
    );

    /// answer: number, place, faults.
    fn hedravos_check(
        m: u32,
        trace: *const u32,
        trace_len: usize,
        words: *const u32,
        words_len: usize,
        answer: *mut u32,
        answer_len: usize,
    );

    /// answer: number, place, which (0, 1 or 2), faults.
    fn hedravos_better(
        m: u32,
        trace: *const u32,
        trace_len: usize,
        first: *const u32,
        first_len: usize,
        second: *const u32,
        second_len: usize,
        answer: *mut u32,
        answer_len: usize,
    );

    /// words: what is handed back, over their front. answer: how many words that is.
    fn hedravos_better_words(
        m: u32,
        trace: *const u32,
        trace_len: usize,
        first: *const u32,
        first_len: usize,
        second: *const u32,
        second_len: usize,
        words: *mut u32,
        words_len: usize,
        answer: *mut u32,
        answer_len: usize,
    );

    /// record: 1,035 words, written. answer: number, place.
    #[cfg(feature = "records")]
    fn hedravos_fresh(
        rule: u32,
        n: u32,
        record: *mut u32,
        record_len: usize,
        answer: *mut u32,
        answer_len: usize,
    );

    /// record: 1,035 words, read. answer: 1 if sound, else 0.
    #[cfg(feature = "records")]
    fn hedravos_sound(record: *const u32, record_len: usize, answer: *mut u32, answer_len: usize);

    /// record: 1,035 words, read; next: 1,035 words, written. answer: number, place, kind, page.
    #[cfg(feature = "records")]
    fn hedravos_feed(
        record: *const u32,
        record_len: usize,
        page: u32,
        next: *mut u32,
        next_len: usize,
        answer: *mut u32,
        answer_len: usize,
    );

    /// record: 1,035 words, updated where they stand. answer: number, place, kind, page.
    #[cfg(feature = "own-record")]
    fn hedravos_feed_own(
        record: *mut u32,
        record_len: usize,
        page: u32,
        answer: *mut u32,
        answer_len: usize,
    );

    /// record: 1,035 words, read. answer: number, place, held (1 or 0), frame.
    #[cfg(feature = "records")]
    fn hedravos_frame(
        record: *const u32,
        record_len: usize,
        page: u32,
        answer: *mut u32,
        answer_len: usize,
    );

    /// answer: number, place, n, m, T, the plan's count.
    fn hedravos_read(
        bytes: *const u8,
        bytes_len: usize,
        requests: *mut u32,
        requests_len: usize,
        plan: *mut u32,
        plan_len: usize,
        answer: *mut u32,
        answer_len: usize,
    );

    /// answer: number, place, bytes written.
    fn hedravos_write(
        n: u32,
        m: u32,
        trace: *const u32,
        trace_len: usize,
        plan: *const u32,
        plan_len: usize,
        room: *mut u8,
        room_len: usize,
        answer: *mut u32,
        answer_len: usize,
    );

    /// text: at least 256 bytes, the front of which is written. answer: bytes written.
    #[cfg(feature = "report")]
    fn hedravos_report(
        bytes: *const u8,
        bytes_len: usize,
        text: *mut u8,
        text_len: usize,
        answer: *mut u32,
        answer_len: usize,
    );
}

/// Rule, frames, clock, the map of occupied frames as eight halves of words, low half first, then
/// page, loaded, last, earlier of each of 256 entries.
#[cfg(feature = "records")]
pub const RECORD_WORDS: usize = 3 + 8 + 4 * 256;
/// The room lent for a report's text.
#[cfg(feature = "report")]
pub const TEXT_BYTES: usize = 256;

pub fn count(rule: u32, n: u32, trace: &[u32], answer: &mut [u32]) {
    unsafe {
        hedravos_count(
            rule,
            n,
            trace.as_ptr(),
            trace.len(),
            answer.as_mut_ptr(),
            answer.len(),
        )
    }
}

pub fn plan(rule: u32, n: u32, trace: &[u32], words: &mut [u32], answer: &mut [u32]) {
    unsafe {
        hedravos_plan(
            rule,
            n,
            trace.as_ptr(),
            trace.len(),
            words.as_mut_ptr(),
            words.len(),
            answer.as_mut_ptr(),
            answer.len(),
        )
    }
}

pub fn check(m: u32, trace: &[u32], words: &[u32], answer: &mut [u32]) {
    unsafe {
        hedravos_check(
            m,
            trace.as_ptr(),
            trace.len(),
            words.as_ptr(),
            words.len(),
            answer.as_mut_ptr(),
            answer.len(),
        )
    }
}

pub fn better(m: u32, trace: &[u32], first: &[u32], second: &[u32], answer: &mut [u32]) {
    unsafe {
        hedravos_better(
            m,
            trace.as_ptr(),
            trace.len(),
            first.as_ptr(),
            first.len(),
            second.as_ptr(),
            second.len(),
            answer.as_mut_ptr(),
            answer.len(),
        )
    }
}

pub fn better_words(
    m: u32,
    trace: &[u32],
    first: &[u32],
    second: &[u32],
    words: &mut [u32],
    answer: &mut [u32],
) {
    unsafe {
        hedravos_better_words(
            m,
            trace.as_ptr(),
            trace.len(),
            first.as_ptr(),
            first.len(),
            second.as_ptr(),
            second.len(),
            words.as_mut_ptr(),
            words.len(),
            answer.as_mut_ptr(),
            answer.len(),
        )
    }
}

#[cfg(feature = "records")]
pub fn fresh(rule: u32, n: u32, record: &mut [u32], answer: &mut [u32]) {
    unsafe {
        hedravos_fresh(
            rule,
            n,
            record.as_mut_ptr(),
            record.len(),
            answer.as_mut_ptr(),
            answer.len(),
        )
    }
}

#[cfg(feature = "records")]
pub fn sound(record: &[u32], answer: &mut [u32]) {
    unsafe {
        hedravos_sound(
            record.as_ptr(),
            record.len(),
            answer.as_mut_ptr(),
            answer.len(),
        )
    }
}

#[cfg(feature = "records")]
pub fn feed(record: &[u32], page: u32, next: &mut [u32], answer: &mut [u32]) {
    unsafe {
        hedravos_feed(
            record.as_ptr(),
            record.len(),
            page,
            next.as_mut_ptr(),
            next.len(),
            answer.as_mut_ptr(),
            answer.len(),
        )
    }
}

#[cfg(feature = "own-record")]
pub fn feed_own(record: &mut [u32], page: u32, answer: &mut [u32]) {
    unsafe {
        hedravos_feed_own(
            record.as_mut_ptr(),
            record.len(),
            page,
            answer.as_mut_ptr(),
            answer.len(),
        )
    }
}

#[cfg(feature = "records")]
pub fn frame(record: &[u32], page: u32, answer: &mut [u32]) {
    unsafe {
        hedravos_frame(
            record.as_ptr(),
            record.len(),
            page,
            answer.as_mut_ptr(),
            answer.len(),
        )
    }
}

pub fn read(bytes: &[u8], requests: &mut [u32], plan: &mut [u32], answer: &mut [u32]) {
    unsafe {
        hedravos_read(
            bytes.as_ptr(),
            bytes.len(),
            requests.as_mut_ptr(),
            requests.len(),
            plan.as_mut_ptr(),
            plan.len(),
            answer.as_mut_ptr(),
            answer.len(),
        )
    }
}

pub fn write(n: u32, m: u32, trace: &[u32], plan: &[u32], room: &mut [u8], answer: &mut [u32]) {
    unsafe {
        hedravos_write(
            n,
            m,
            trace.as_ptr(),
            trace.len(),
            plan.as_ptr(),
            plan.len(),
            room.as_mut_ptr(),
            room.len(),
            answer.as_mut_ptr(),
            answer.len(),
        )
    }
}

#[cfg(feature = "report")]
pub fn report(bytes: &[u8], text: &mut [u8], answer: &mut [u32]) {
    unsafe {
        hedravos_report(
            bytes.as_ptr(),
            bytes.len(),
            text.as_mut_ptr(),
            text.len(),
            answer.as_mut_ptr(),
            answer.len(),
        )
    }
}
