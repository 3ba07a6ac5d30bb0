//! The proved program's services in the shape that they are measured in.
//! Each answers its faults; words and text go where the tuned program puts them too.

use crate::judge;
#[cfg(feature = "records")]
use crate::tuned::MARK;

pub const THERE: bool = true;

pub fn count(rule: u32, n: u32, trace: &[u32]) -> u32 {
    let mut answer = [0; 3];
    judge::count(rule, n, trace, &mut answer);
    faults(answer)
}

pub fn plan(rule: u32, n: u32, trace: &[u32], words: &mut [u32]) -> u32 {
    let mut answer = [0; 3];
    judge::plan(rule, n, trace, words, &mut answer);
    faults(answer)
}

pub fn check(m: u32, trace: &[u32], words: &[u32]) -> u32 {
    let mut answer = [0; 3];
    judge::check(m, trace, words, &mut answer);
    faults(answer)
}

fn faults(answer: [u32; 3]) -> u32 {
    assert_eq!(answer[0], 0, "refused: {answer:?}");
    answer[2]
}

#[cfg(feature = "records")]
pub fn feed_all(rule: u32, n: u32, trace: &[u32], words: &mut [u32], record: &mut [u32]) -> u32 {
    let mut now = vec![0; judge::RECORD_WORDS];
    let mut next = vec![0; judge::RECORD_WORDS];
    judge::fresh(rule, n, &mut now, &mut [0; 2]);
    let mut faults = 0;
    for (moment, &page) in trace.iter().enumerate() {
        let mut answer = [0; 4];
        judge::feed(&now, page, &mut next, &mut answer);
        assert_eq!(answer[0], 0, "refused: {answer:?}");
        faults += u32::from(answer[2] != 0);
        words[moment] = answer[3];
        std::mem::swap(&mut now, &mut next);
    }
    record.copy_from_slice(&now);
    faults
}

#[cfg(feature = "records")]
pub fn sound(record: &[u32]) -> bool {
    let mut answer = [0];
    judge::sound(record, &mut answer);
    answer[0] == 1
}

/// The frame of each page, or the mark, and how many are held.
#[cfg(feature = "records")]
pub fn frames_of(record: &[u32], pages: &[u32], words: &mut [u32]) -> u32 {
    let mut held = 0;
    for (word, &page) in words.iter_mut().zip(pages) {
        let mut answer = [0; 4];
        judge::frame(record, page, &mut answer);
        assert_eq!(answer[0], 0, "refused: {answer:?}");
        held += answer[2];
        *word = if answer[2] == 1 { answer[3] } else { MARK };
    }
    held
}

#[cfg(feature = "report")]
pub fn report(bytes: &[u8]) -> String {
    let mut text = [0; judge::TEXT_BYTES];
    let mut answer = [0];
    judge::report(bytes, &mut text, &mut answer);
    String::from_utf8_lossy(&text[..answer[0] as usize]).into_owned()
}
