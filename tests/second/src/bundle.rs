//! The bundle file: three sections of little-endian words, each after its count.
//! Reading judges the bytes front to back, then the values, then the lent lists; writing is below.

use crate::{first_mark, frames_allowed, MOST_REQUESTS};

/// The answer of reading; all zeros beside number and place on a refusal.
#[derive(Clone, Copy, Debug, PartialEq, Eq)]
pub struct ReadReply {
    pub number: u32,
    pub place: u32,
    pub n: u32,
    pub m: u32,
    pub t: u32,
    pub plan_count: u32,
}

/// The answer of writing: the number of bytes written, 0 on a refusal.
#[derive(Clone, Copy, Debug, PartialEq, Eq)]
pub struct WriteReply {
    pub number: u32,
    pub place: u32,
    pub bytes: u32,
}

/// A refusal on the way: its number and the byte it is about.
type Refusal = (u32, usize);

/// Reads a bundle, and copies requests and plan to the front of the lent lists.
pub fn read_bundle(bytes: &[u8], requests: &mut [u32], plan: &mut [u32]) -> ReadReply {
    let (sizes, trace, words) = match read_sections(bytes) {
        Ok(sections) => sections,
        Err(refusal) => return read_refused(refusal),
    };
    let n = sizes[0];
    let m = sizes[1];
    if !frames_allowed(n) {
        return read_refused((2, 4));
    }
    if !frames_allowed(m) {
        return read_refused((2, 8));
    }
    if m > n {
        return read_refused((12, 8));
    }
    if let Some(moment) = first_mark(&trace) {
        return read_refused((4, 16 + 4 * moment));
    }
    if requests.len() < trace.len() || plan.len() < words.len() {
        return read_refused((6, 0));
    }
    for i in 0..trace.len() {
        requests[i] = trace[i];
    }
    for i in 0..words.len() {
        plan[i] = words[i];
    }
    ReadReply {
        number: 0,
        place: 0,
        n,
        m,
        t: trace.len() as u32,
        plan_count: words.len() as u32,
    }
}

/// Writes a bundle to the front of the room. Whether the plan keeps the plan rule isn't judged.
pub fn write_bundle(n: u32, m: u32, trace: &[u32], plan: &[u32], room: &mut [u8]) -> WriteReply {
    if !frames_allowed(n) || !frames_allowed(m) {
        return write_refused(2, 0);
    }
    if m > n {
        return write_refused(12, 8);
    }
    if trace.len() > MOST_REQUESTS {
        return write_refused(3, 0);
    }
    if let Some(moment) = first_mark(trace) {
        return write_refused(4, moment);
    }
    if plan.len() != 0 && plan.len() != trace.len() {
        return write_refused(10, 0);
    }
    let mut file = Vec::new();
    write_section(&mut file, &[n, m]);
    write_section(&mut file, trace);
    write_section(&mut file, plan);
    if room.len() < file.len() {
        return write_refused(6, 0);
    }
    for i in 0..file.len() {
        room[i] = file[i];
    }
    WriteReply {
        number: 0,
        place: 0,
        bytes: file.len() as u32,
    }
}

/// The three sections, front to back; the first thing found wrong (9, 10 or 11) decides.
fn read_sections(bytes: &[u8]) -> Result<(Vec<u32>, Vec<u32>, Vec<u32>), Refusal> {
    let mut place = 0;

    let count = read_word(bytes, &mut place)?;
    if count != 2 {
        return Err((10, place - 4));
    }
    let sizes = read_words(bytes, &mut place, count)?;

    let t = read_word(bytes, &mut place)?;
    if t > MOST_REQUESTS as u32 {
        return Err((10, place - 4));
    }
    let trace = read_words(bytes, &mut place, t)?;

    let count = read_word(bytes, &mut place)?;
    if count != 0 && count != t {
        return Err((10, place - 4));
    }
    let plan = read_words(bytes, &mut place, count)?;

    if place < bytes.len() {
        return Err((11, place));
    }
    Ok((sizes, trace, plan))
}

fn read_words(bytes: &[u8], place: &mut usize, count: u32) -> Result<Vec<u32>, Refusal> {
    let mut words = Vec::new();
    for _ in 0..count {
        words.push(read_word(bytes, place)?);
    }
    Ok(words)
}

/// One word, lowest byte first; a missing or partial word is 9 where it begins.
fn read_word(bytes: &[u8], place: &mut usize) -> Result<u32, Refusal> {
    if *place + 4 > bytes.len() {
        return Err((9, *place));
    }
    let mut word = 0;
    for i in (0..4).rev() {
        word = word * 256 + u32::from(bytes[*place + i]);
    }
    *place += 4;
    Ok(word)
}

fn write_section(file: &mut Vec<u8>, words: &[u32]) {
    write_word(file, words.len() as u32);
    for &word in words {
        write_word(file, word);
    }
}

fn write_word(file: &mut Vec<u8>, word: u32) {
    let mut rest = word;
    for _ in 0..4 {
        file.push((rest % 256) as u8);
        rest = rest / 256;
    }
}

fn read_refused((number, place): Refusal) -> ReadReply {
    ReadReply {
        number,
        place: place as u32,
        n: 0,
        m: 0,
        t: 0,
        plan_count: 0,
    }
}

fn write_refused(number: u32, place: usize) -> WriteReply {
    WriteReply {
        number,
        place: place as u32,
        bytes: 0,
    }
}
