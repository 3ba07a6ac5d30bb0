//! Measures the proved program beside the tuned one: same inputs, same run, T 8,000, n 256.
//! Prints nanoseconds for each request and how many times as long the proved program takes.

mod inputs;
#[cfg(not(feature = "baseline-only"))]
#[allow(dead_code, unexpected_cfgs)]
#[path = "../../tests/compare/src/judge.rs"]
mod judge;
#[cfg_attr(feature = "baseline-only", path = "absent.rs")]
mod ours;
#[cfg_attr(not(feature = "records"), allow(dead_code))]
mod record;
// What is not measured stays, with its tests.
#[cfg_attr(not(all(feature = "records", feature = "report")), allow(dead_code))]
mod tuned;

use inputs::{FRAMES, REQUESTS};
use std::hint::black_box;
use std::process::ExitCode;
use std::time::{Duration, Instant};

/// Where a piece of work leaves its words, its record or its text.
#[derive(PartialEq)]
struct Room {
    words: Vec<u32>,
    record: Vec<u32>,
    text: String,
}

/// A piece of work: answers the faults, if it counts any.
type Work<'a> = Box<dyn Fn(&mut Room) -> u32 + 'a>;

/// The frames of the plan in the report; fewer than n, as a claim would have.
#[cfg(feature = "report")]
const CLAIMED: u32 = 128;

const NAMES: [(u32, &str); 4] = [
    (tuned::LRU, "lru"),
    (tuned::FIFO, "fifo"),
    (tuned::MIN, "min"),
    (tuned::LRU_2, "lru2"),
];

fn main() -> ExitCode {
    println!("input     work        ours ns/request  tuned ns/request     ratio");
    let mut all_alike = true;
    for (name, trace) in inputs::all() {
        for (work, ours, tuned) in works(&trace) {
            all_alike &= measure(name, &work, ours, tuned);
        }
    }
    if all_alike {
        return ExitCode::SUCCESS;
    }
    println!("the two programs differ");
    ExitCode::FAILURE
}

/// Every piece of work on one trace, for the proved program and for the tuned one.
fn works(trace: &[u32]) -> Vec<(String, Work<'_>, Work<'_>)> {
    let mut list: Vec<(String, Work, Work)> = Vec::new();
    for (rule, name) in NAMES {
        list.push((
            format!("count {name}"),
            Box::new(move |_| ours::count(rule, FRAMES, trace)),
            Box::new(move |_| tuned::count(rule, FRAMES, trace)),
        ));
    }
    for (rule, name) in NAMES {
        list.push((
            format!("plan {name}"),
            Box::new(move |room| ours::plan(rule, FRAMES, trace, &mut room.words)),
            Box::new(move |room| tuned::plan(rule, FRAMES, trace, &mut room.words)),
        ));
    }
    list.push(check_work(trace));
    #[cfg(feature = "records")]
    for (rule, name) in NAMES {
        // MIN looks ahead, so it can't be fed.
        if rule != tuned::MIN {
            list.push(feed_work(rule, name, trace));
        }
    }
    #[cfg(feature = "records")]
    list.extend([sound_work(trace), frame_work(trace)]);
    #[cfg(feature = "report")]
    list.push(report_work(trace));
    list
}

/// Both leave the last record, map and all.
#[cfg(feature = "records")]
fn feed_work<'a>(rule: u32, name: &str, trace: &'a [u32]) -> (String, Work<'a>, Work<'a>) {
    (
        format!("feed {name}"),
        Box::new(move |room| {
            ours::feed_all(rule, FRAMES, trace, &mut room.words, &mut room.record)
        }),
        Box::new(move |room| {
            tuned::feed_all(rule, FRAMES, trace, &mut room.words, &mut room.record)
        }),
    )
}

/// The record that the trace leaves, all its frames held, judged once for each request.
#[cfg(feature = "records")]
fn sound_work(trace: &[u32]) -> (String, Work<'_>, Work<'_>) {
    let mut room = empty_room();
    tuned::feed_all(tuned::LRU, FRAMES, trace, &mut room.words, &mut room.record);
    let same = room.record.clone();
    (
        "sound".to_string(),
        Box::new(move |_| times_sound(&room.record, ours::sound)),
        Box::new(move |_| times_sound(&same, record::sound)),
    )
}

#[cfg(feature = "records")]
fn times_sound(record: &[u32], sound: fn(&[u32]) -> bool) -> u32 {
    let judged = (0..REQUESTS).filter(|_| sound(black_box(record)));
    judged.count() as u32
}

/// The same record, asked for the frame of each page of the trace; the tuned program has an index.
#[cfg(feature = "records")]
fn frame_work(trace: &[u32]) -> (String, Work<'_>, Work<'_>) {
    let mut room = empty_room();
    tuned::feed_all(tuned::LRU, FRAMES, trace, &mut room.words, &mut room.record);
    let index = record::Index::of(&room.record);
    (
        "frame".to_string(),
        Box::new(move |to| ours::frames_of(&room.record, trace, &mut to.words)),
        Box::new(move |to| index.frames_of(trace, &mut to.words)),
    )
}

fn check_work(trace: &[u32]) -> (String, Work<'_>, Work<'_>) {
    let mut plan = vec![0; REQUESTS];
    tuned::plan(tuned::LRU, FRAMES, trace, &mut plan);
    let same = plan.clone();
    (
        "check".to_string(),
        Box::new(move |_| ours::check(FRAMES, trace, &plan)),
        Box::new(move |_| tuned::check(FRAMES, trace, &same).unwrap()),
    )
}

#[cfg(feature = "report")]
fn report_work(trace: &[u32]) -> (String, Work<'_>, Work<'_>) {
    let mut plan = vec![0; REQUESTS];
    tuned::plan(tuned::LRU, CLAIMED, trace, &mut plan);
    let file = inputs::bundle(FRAMES, CLAIMED, trace, &plan);
    let same = file.clone();
    (
        "report".to_string(),
        Box::new(move |room| {
            room.text = ours::report(&file);
            0
        }),
        Box::new(move |room| {
            room.text = tuned::report(&same);
            0
        }),
    )
}

fn empty_room() -> Room {
    Room {
        words: vec![0; REQUESTS],
        record: vec![0; record::RECORD_WORDS],
        text: String::new(),
    }
}

/// Prints one line of the table. Answers whether the two programs agree.
fn measure(input: &str, work: &str, ours: Work, tuned: Work) -> bool {
    let tuned_time = time_for_each_request(&tuned);
    if !ours::THERE {
        println!(
            "{input:<9} {work:<11} {:>15} {tuned_time:>17.1} {:>9}",
            "-", "-"
        );
        return true;
    }
    let alike = same_answer(&ours, &tuned);
    let our_time = time_for_each_request(&ours);
    let ratio = our_time / tuned_time;
    let remark = if alike { "" } else { "  differs" };
    println!("{input:<9} {work:<11} {our_time:>15.1} {tuned_time:>17.1} {ratio:>9.1}{remark}");
    alike
}

fn same_answer(ours: &Work, tuned: &Work) -> bool {
    let mut our_room = empty_room();
    let mut tuned_room = empty_room();
    ours(&mut our_room) == tuned(&mut tuned_room) && our_room == tuned_room
}

/// The least of several runs, in nanoseconds for each request; slow work is run once or twice.
fn time_for_each_request(work: &Work) -> f64 {
    let mut room = empty_room();
    let mut least = Duration::MAX;
    let mut spent = Duration::ZERO;
    let mut runs = 0;
    while runs < 3 || spent < Duration::from_millis(100) {
        let start = Instant::now();
        black_box(work(black_box(&mut room)));
        let time = start.elapsed();
        least = least.min(time);
        spent += time;
        runs += 1;
        if spent > Duration::from_secs(2) {
            break;
        }
    }
    least.as_nanos() as f64 / REQUESTS as f64
}
