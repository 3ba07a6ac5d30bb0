//! The report program's text: seven lines for a good bundle, one for a refused file.
//! Only the first 65,536 bytes count; a longer file is refused by what stands in them.

use crate::{check, count, read_bundle, FIFO, LRU, LRU_2, MIN, MOST_INPUT, MOST_REQUESTS};

/// The exact bytes that the report program prints for this input.
pub fn report(bytes: &[u8]) -> Vec<u8> {
    let mut seen = bytes;
    if seen.len() > MOST_INPUT {
        seen = &bytes[..MOST_INPUT];
    }
    let mut requests = vec![0; MOST_REQUESTS];
    let mut words = vec![0; MOST_REQUESTS];
    let read = read_bundle(seen, &mut requests, &mut words);
    if read.number != 0 {
        return format!("refused {} at {}\n", read.number, read.place).into_bytes();
    }
    let trace = &requests[..read.t as usize];
    let plan = &words[..read.plan_count as usize];
    let mut text = format!("requests {}\n", read.t);
    text += &line("lru", LRU, read.n, trace);
    text += &line("fifo", FIFO, read.n, trace);
    text += &line("min", MIN, read.n, trace);
    text += &line("lru2", LRU_2, read.n, trace);
    text += &line("min", MIN, read.m, trace);
    text += &claim(read.m, trace, plan);
    text.into_bytes()
}

fn line(name: &str, rule: u32, frames: u32, trace: &[u32]) -> String {
    let faults = count(rule, frames, trace).faults;
    format!("{name} {frames} {faults}\n")
}

/// A plan's count of 0 means that no plan came, also when there are no requests.
fn claim(m: u32, trace: &[u32], plan: &[u32]) -> String {
    if plan.is_empty() {
        return "claim none\n".to_string();
    }
    let reply = check(m, trace, plan);
    if reply.number != 0 {
        return format!("claim refused {} at {}\n", reply.number, reply.place);
    }
    format!("claim {} {}\n", m, reply.faults)
}
