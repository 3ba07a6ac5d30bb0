//! Comparison of reading and writing bundles and of the report's text.
//! Good files, files cut at every byte, each kind of damage, and any bytes at all.

use crate::cases::{self, Rng};
use crate::judge;
#[cfg(feature = "report")]
use crate::judge::TEXT_BYTES;
use crate::lent::{answer, bytes, show, words, Tally};
use second::MARK;

/// What a bundle is made from.
struct Contents {
    n: u32,
    m: u32,
    trace: Vec<u32>,
    plan: Vec<u32>,
}

impl Contents {
    fn words(&self) -> Vec<u32> {
        let mut list = vec![2, self.n, self.m, self.trace.len() as u32];
        list.extend_from_slice(&self.trace);
        list.push(self.plan.len() as u32);
        list.extend_from_slice(&self.plan);
        list
    }

    fn file(&self) -> Vec<u8> {
        file_of(&self.words())
    }
}

fn file_of(list: &[u32]) -> Vec<u8> {
    list.iter().flat_map(|word| word.to_le_bytes()).collect()
}

fn example() -> Contents {
    const M: u32 = MARK;
    Contents {
        n: 3,
        m: 2,
        trace: vec![5, 6, 7, 5, 8, 6, 5, 7],
        plan: vec![M, M, 5, 6, 7, 5, 8, 6],
    }
}

/// A good bundle: without a plan, with one that keeps the plan rule, or with any words.
fn good(rng: &mut Rng, most: usize) -> Contents {
    let n = if rng.one_in(4) {
        rng.between(1, 256) as u32
    } else {
        rng.between(1, 8) as u32
    };
    let m = rng.between(1, n as usize) as u32;
    let t = cases::length(rng, most);
    let trace = cases::trace(rng, t, n);
    let plan = match rng.below(4) {
        0 => Vec::new(),
        1 => cases::random_words(rng, t, true),
        2 => cases::somebodys_plan(rng, n, &trace),
        _ => cases::somebodys_plan(rng, m, &trace),
    };
    Contents { n, m, trace, plan }
}

/// One kind of damage to a good bundle's words, or to the bytes behind them.
fn damaged(rng: &mut Rng) -> Vec<u8> {
    let list = damaged_words(rng);
    let mut file = file_of(&list);
    match rng.below(5) {
        0 if !file.is_empty() => file.truncate(rng.below(file.len())),
        1 => (0..rng.between(1, 7)).for_each(|_| file.push(rng.word() as u8)),
        2 if !file.is_empty() => file[rng.below(list.len() * 4)] = rng.word() as u8,
        _ => {}
    }
    file
}

/// The words of a good file, most with a word or a count spoilt.
fn damaged_words(rng: &mut Rng) -> Vec<u32> {
    let contents = good(rng, 12);
    let t = contents.trace.len();
    let mut list = contents.words();
    let plan_count = 4 + t;
    let counts = [
        0,
        1,
        2,
        3,
        t as u32,
        t as u32 + 1,
        8_000,
        8_001,
        1 << 30,
        (1 << 30) + t as u32,
        1 << 31,
        MARK,
    ];
    match rng.below(13) {
        0 => list[0] = rng.pick(&counts),
        1 => list[1] = cases::frames(rng),
        2 => list[2] = cases::frames(rng),
        3 => list[2] = list[1] + rng.between(0, 2) as u32,
        4 => list[3] = rng.pick(&counts),
        5 => list[plan_count] = rng.pick(&counts),
        6 if t > 0 => list[4 + rng.below(t)] = MARK,
        7 => list.extend(cases::random_words(rng, 3, true)),
        8 => drop(list.remove(rng.below(list.len()))),
        9 => list.truncate(rng.below(list.len())),
        // Several values wrong at once: the order decides.
        10 => {
            list[1] = rng.pick(&[0, 1, 257, MARK]);
            list[2] = rng.pick(&[0, 1, 2, 257]);
            if t > 0 {
                list[4 + rng.below(t)] = MARK;
            }
        }
        _ => {}
    }
    list
}

fn compare_read(tally: &mut Tally, file: &[u8], requests: &[u32], plan: &[u32]) {
    let mut our_requests = requests.to_vec();
    let mut our_plan = plan.to_vec();
    let ours = second::read_bundle(file, &mut our_requests, &mut our_plan);
    let ours = [
        ours.number,
        ours.place,
        ours.n,
        ours.m,
        ours.t,
        ours.plan_count,
    ];
    let lent = bytes(file);
    let mut their_requests = words(requests);
    let mut their_plan = words(plan);
    let mut theirs = answer(6);
    judge::read(
        lent.part(),
        their_requests.part_mut(),
        their_plan.part_mut(),
        theirs.part_mut(),
    );
    let lists = their_requests.is(&our_requests) && their_plan.is(&our_plan);
    let right = theirs.is(&ours) && lists && lent.is(file);
    tally.case(right, || {
        format!(
            "read {} into {} and {} words: {:?}, not {ours:?}; lists as they should be: {lists}",
            show(file),
            requests.len(),
            plan.len(),
            theirs.part()
        )
    });
}

/// Reads into lists of lengths drawn about the right ones.
fn compare_read_drawn(tally: &mut Tally, rng: &mut Rng, file: &[u8], t: usize, count: usize) {
    let mut list = |right: usize| {
        let length = match rng.below(10) {
            0 if right > 0 => right - 1,
            1 => 0,
            2..=5 => right + rng.between(1, 9),
            _ => right,
        };
        cases::random_words(rng, length, true)
    };
    let requests = list(t);
    let plan = list(count);
    compare_read(tally, file, &requests, &plan);
}

fn compare_write(tally: &mut Tally, contents: &Contents, room: usize) {
    let Contents { n, m, trace, plan } = contents;
    let mut our_room = vec![0x77; room];
    let ours = second::write_bundle(*n, *m, trace, plan, &mut our_room);
    let ours = [ours.number, ours.place, ours.bytes];
    let lent = words(trace);
    let lent_plan = words(plan);
    let mut their_room = bytes(&vec![0x77; room]);
    let mut theirs = answer(3);
    judge::write(
        *n,
        *m,
        lent.part(),
        lent_plan.part(),
        their_room.part_mut(),
        theirs.part_mut(),
    );
    let kept = lent.is(trace) && lent_plan.is(plan);
    let right = theirs.is(&ours) && their_room.is(&our_room) && kept;
    tally.case(right, || {
        format!(
            "write n {n} m {m} trace {} plan {} room {room}: {:?}, not {ours:?}",
            show(trace),
            show(plan),
            theirs.part()
        )
    });
}

#[cfg(feature = "report")]
fn compare_report(tally: &mut Tally, file: &[u8]) {
    let ours = second::report(file);
    let mut our_text = vec![0x77; TEXT_BYTES];
    our_text[..ours.len()].copy_from_slice(&ours);
    let lent = bytes(file);
    let mut their_text = bytes(&[0x77; TEXT_BYTES]);
    let mut theirs = answer(1);
    judge::report(lent.part(), their_text.part_mut(), theirs.part_mut());
    let written = theirs.is(&[ours.len() as u32]);
    let right = written && their_text.is(&our_text) && lent.is(file);
    tally.case(right, || {
        format!(
            "report on {}: {:?} bytes\n{}not\n{}",
            show(file),
            theirs.part(),
            String::from_utf8_lossy(their_text.part()).replace('w', ""),
            String::from_utf8_lossy(&ours)
        )
    });
}

#[cfg(not(feature = "report"))]
fn compare_report(_tally: &mut Tally, _file: &[u8]) {}

pub fn reads(tally: &mut Tally) {
    let mut rng = Rng::new(301);
    for case in 0..5_000 {
        let most = if case % 50 == 0 { 900 } else { 30 };
        let contents = good(&mut rng, most);
        let (t, count) = (contents.trace.len(), contents.plan.len());
        compare_read_drawn(tally, &mut rng, &contents.file(), t, count);
    }
}

/// Every cut of the example and of some drawn files, read and reported.
pub fn cuts(tally: &mut Tally) {
    let mut rng = Rng::new(302);
    let mut files = vec![example().file()];
    for _ in 0..40 {
        files.push(good(&mut rng, 12).file());
    }
    for file in files {
        for cut in 0..=file.len() {
            compare_read(tally, &file[..cut], &[9; 20], &[9; 20]);
            compare_report(tally, &file[..cut]);
        }
    }
}

pub fn damaged_files(tally: &mut Tally) {
    let mut rng = Rng::new(303);
    for _ in 0..10_000 {
        let file = damaged(&mut rng);
        compare_read_drawn(tally, &mut rng, &file, 12, 12);
        compare_report(tally, &file);
    }
}

/// Any bytes, some with a front that lets the reader get on.
pub fn random_files(tally: &mut Tally) {
    let mut rng = Rng::new(304);
    for case in 0..5_000 {
        let fronts: [&[u32]; 5] = [&[], &[2], &[2, 3, 2], &[2, 3, 2, 1], &[2, 3, 2, 1, 7]];
        let mut file = file_of(fronts[case % 5]);
        for _ in 0..rng.below(40) {
            let any = rng.word() as u8;
            file.push(rng.pick(&[0, 0, 0, 1, 2, 3, 255, any]));
        }
        compare_read_drawn(tally, &mut rng, &file, 3, 3);
        compare_report(tally, &file);
    }
}

pub fn writes(tally: &mut Tally) {
    let mut rng = Rng::new(305);
    for _ in 0..8_000 {
        let mut contents = good(&mut rng, 30);
        for _ in 0..rng.pick(&[0, 0, 1, 2, 3]) {
            spoil(&mut rng, &mut contents);
        }
        let file = 20 + 4 * (contents.trace.len() + contents.plan.len());
        let room = match rng.below(8) {
            0 => file - 1,
            1 => rng.below(file),
            2..=4 => file + rng.between(1, 9),
            _ => file,
        };
        compare_write(tally, &contents, room);
    }
}

fn spoil(rng: &mut Rng, contents: &mut Contents) {
    let t = contents.trace.len();
    match rng.below(5) {
        0 => contents.n = cases::frames(rng),
        1 => contents.m = cases::frames(rng),
        2 if t > 0 => contents.trace[rng.below(t)] = MARK,
        3 => contents.plan.push(7),
        _ => drop(contents.plan.pop()),
    }
}

/// The longest files, one request more, and input past 65,536 bytes.
pub fn longest_files(tally: &mut Tally) {
    let mut rng = Rng::new(306);
    for t in [7_999, 8_000, 8_001] {
        let trace = cases::trace(&mut rng, t, 4);
        for plan in [Vec::new(), cases::somebodys_plan(&mut rng, 3, &trace)] {
            let mut contents = Contents {
                n: 4,
                m: 3,
                trace: trace.clone(),
                plan,
            };
            longest_file(tally, &contents);
            contents.trace[t - 1] = MARK;
            longest_file(tally, &contents);
        }
    }
    for length in [65_535, 65_536, 65_537, 70_000] {
        let mut file = example().file();
        file.resize(length, 0);
        compare_report(tally, &file);
    }
}

fn longest_file(tally: &mut Tally, contents: &Contents) {
    let file = contents.file();
    for room in [file.len() - 1, file.len(), file.len() + 3] {
        compare_write(tally, contents, room);
    }
    for list in [7_999, 8_000, 8_005] {
        compare_read(tally, &file, &vec![9; list], &vec![9; list]);
    }
    for cut in [1, 2, 3, 4, 5, 20_000] {
        compare_read(tally, &file[..file.len() - cut], &[9; 8_000], &[9; 8_000]);
    }
    compare_report(tally, &file);
}

/// The proved program alone: reading what it wrote gives the values, writing that the bytes.
pub fn round_trips(tally: &mut Tally) {
    let mut rng = Rng::new(307);
    for _ in 0..2_000 {
        let contents = good(&mut rng, 60);
        tally.case(comes_back(&contents), || {
            format!("round trip of {}", show(&contents.words()))
        });
    }
}

fn comes_back(contents: &Contents) -> bool {
    let Contents { n, m, trace, plan } = contents;
    let (t, count) = (trace.len(), plan.len());
    let mut file = vec![0; 20 + 4 * (t + count)];
    let mut wrote = [0; 3];
    judge::write(*n, *m, trace, plan, &mut file, &mut wrote);
    let mut requests = vec![0; t];
    let mut list = vec![0; count];
    let mut read = [0; 6];
    judge::read(&file, &mut requests, &mut list, &mut read);
    let mut again = vec![0; file.len()];
    let mut wrote_again = [0; 3];
    judge::write(
        read[2],
        read[3],
        &requests,
        &list,
        &mut again,
        &mut wrote_again,
    );
    wrote == [0, 0, file.len() as u32]
        && read == [0, 0, *n, *m, t as u32, count as u32]
        && (&requests, &list) == (trace, plan)
        && wrote_again == wrote
        && again == file
}

#[cfg(feature = "report")]
pub fn reports(tally: &mut Tally) {
    let mut rng = Rng::new(308);
    compare_report(tally, &example().file());
    for n in [1, 3, 256] {
        compare_report(tally, &file_of(&[2, n, 1, 0, 0]));
    }
    for case in 0..3_000 {
        let most = if case % 50 == 0 { 500 } else { 40 };
        compare_report(tally, &good(&mut rng, most).file());
    }
    let trace: Vec<u32> = (0..8_000).map(|_| rng.below(400) as u32).collect();
    let plan = cases::somebodys_plan(&mut rng, 128, &trace);
    let contents = Contents {
        n: 256,
        m: 128,
        trace,
        plan,
    };
    compare_report(tally, &contents.file());
}
