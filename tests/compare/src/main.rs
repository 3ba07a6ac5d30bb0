//! Compares the proved program with the second program, one line for each group of cases.
//! Names of groups may be given; without any, all are run. Ends with `N passed, M failed`.
//! In the groups `ours` is the second program and `theirs` the proved one, called through judge.rs.

mod bundles;
mod calls;
mod cases;
#[cfg(feature = "records")]
mod frames;
mod judge;
mod lent;
#[cfg(feature = "records")]
mod map_cases;
#[cfg(feature = "self-check")]
mod mirror;
#[cfg(feature = "self-check")]
mod mirror_frames;
#[cfg(feature = "self-check")]
mod mirror_walks;
#[cfg(feature = "records")]
mod record_cases;
#[cfg(feature = "records")]
mod records;
mod walks;

use lent::Tally;
use std::io::Write;
use std::process::ExitCode;
use std::time::Instant;

type Group = (&'static str, fn(&mut Tally));

const GROUPS: &[Group] = &[
    ("trial", calls::trials),
    ("count", calls::counts),
    ("count every size", calls::counts_every_size),
    ("plan", calls::plans),
    ("check", calls::checks),
    ("better", calls::betters),
    ("shared hash", calls::shared_hashes),
    ("walk", walks::walks),
    ("longest", calls::longest),
    ("largest", calls::largest),
    #[cfg(feature = "records")]
    ("fresh", records::freshes),
    #[cfg(feature = "records")]
    ("run", records::runs),
    #[cfg(feature = "records")]
    ("long run", records::long_runs),
    #[cfg(feature = "records")]
    ("sound record", records::sound_records),
    #[cfg(feature = "records")]
    ("damaged record", records::damaged_records),
    #[cfg(feature = "records")]
    ("shared moment", records::shared_moments),
    #[cfg(feature = "records")]
    ("last request", records::last_requests),
    #[cfg(feature = "records")]
    ("map", records::maps),
    #[cfg(feature = "records")]
    ("damaged map", records::damaged_maps),
    #[cfg(feature = "records")]
    ("random map", records::random_maps),
    #[cfg(feature = "records")]
    ("short record", records::short_records),
    #[cfg(feature = "records")]
    ("short room", records::short_rooms),
    #[cfg(feature = "records")]
    ("frame", frames::frames),
    #[cfg(feature = "records")]
    ("damaged frame", frames::damaged_frames),
    #[cfg(feature = "records")]
    ("random frame", frames::random_frames),
    ("read", bundles::reads),
    ("cut", bundles::cuts),
    ("damaged file", bundles::damaged_files),
    ("random file", bundles::random_files),
    ("write", bundles::writes),
    ("round trip", bundles::round_trips),
    ("long file", bundles::longest_files),
    #[cfg(feature = "report")]
    ("report", bundles::reports),
];

fn main() -> ExitCode {
    let wanted: Vec<String> = std::env::args().skip(1).collect();
    for name in &wanted {
        if !GROUPS.iter().any(|group| group.0 == name) {
            eprintln!("there is no group named {name}");
            return ExitCode::from(2);
        }
    }
    let mut passed = 0;
    let mut failed = 0;
    for &(name, group) in GROUPS {
        if !wanted.is_empty() && !wanted.iter().any(|other| other == name) {
            continue;
        }
        let tally = run(name, group);
        passed += tally.passed;
        failed += tally.failed;
    }
    println!("{passed} passed, {failed} failed");
    if failed > 0 {
        return ExitCode::FAILURE;
    }
    ExitCode::SUCCESS
}

fn run(name: &str, group: fn(&mut Tally)) -> Tally {
    // The name comes first, so that a program that stops dead is seen to stop here.
    print!("{name}: ");
    let _ = std::io::stdout().flush();
    let start = Instant::now();
    let mut tally = Tally::default();
    group(&mut tally);
    println!(
        "{} passed, {} failed, {:.1} s",
        tally.passed,
        tally.failed,
        start.elapsed().as_secs_f64()
    );
    for failure in &tally.told {
        println!("  {failure}");
    }
    tally
}

#[cfg(all(test, feature = "self-check"))]
mod tests {
    use super::*;
    use std::panic::{catch_unwind, AssertUnwindSafe};
    use std::sync::atomic::Ordering;

    /// One after the other, since the mistake to make is the same for all.
    #[test]
    fn every_mistake_is_found() {
        for (number, name, what) in mirror::MISTAKES {
            mirror::MISTAKE.store(number, Ordering::Relaxed);
            let group = GROUPS.iter().find(|group| group.0 == name).unwrap();
            let mut tally = Tally {
                first_is_enough: true,
                ..Tally::default()
            };
            let ended = catch_unwind(AssertUnwindSafe(|| (group.1)(&mut tally)));
            println!("{number} {what}: {name} case {}", tally.passed + 1);
            assert!(ended.is_err() && tally.failed == 1, "not found: {what}");
        }
        mirror::MISTAKE.store(0, Ordering::Relaxed);
    }

    /// Drawn records are sound, and each kind of damage mostly shows.
    #[test]
    fn records_are_what_they_should_be() {
        let mut rng = cases::Rng::new(1);
        for _ in 0..500 {
            assert!(second::sound(&record_cases::drawn(&mut rng)));
            assert!(second::sound(&record_cases::from_run(&mut rng)));
            assert!(second::sound(&record_cases::ends_in_zero(&mut rng)));
        }
        for kind in 0..record_cases::DAMAGES {
            let mut unsound = 0;
            for _ in 0..200 {
                let mut record = record_cases::drawn(&mut rng);
                record_cases::damage(&mut rng, &mut record, kind);
                unsound += u32::from(!second::sound(&record));
            }
            println!("damage {kind}: {unsound} of 200 unsound");
            assert!(unsound >= 60, "damage {kind}: {unsound} of 200");
        }
    }

    /// Maps left alone are sound, a flipped bit never is, and by lot both come up.
    #[test]
    fn maps_are_what_they_should_be() {
        for held in map_cases::HELD {
            let record = map_cases::cache(second::LRU, held, 256);
            assert!(map_cases::with_map(&record, record.map)
                .iter()
                .all(second::sound));
            for bit in 0..256 {
                let map = map_cases::flipped(&record.map, bit);
                assert!(!second::sound(&map_cases::with_map(&record, map)[0]));
            }
        }
        let mut rng = cases::Rng::new(1);
        let mut sound = 0;
        for _ in 0..200 {
            let record = map_cases::cache(second::LRU, 0, 256);
            let map = map_cases::random(&mut rng);
            sound += u32::from(second::sound(&map_cases::with_map(&record, map)[1]));
        }
        assert!((20..=180).contains(&sound), "{sound} of 200 sound");
    }

    fn distinct(mut list: Vec<u32>) -> usize {
        list.sort();
        list.dedup();
        list.len()
    }

    /// Other pages at the same moments, of few hashes or with sixteen low bits alike.
    #[test]
    fn crowds_are_what_they_should_be() {
        let mut rng = cases::Rng::new(1);
        let mut of_one_hash = 0;
        for _ in 0..200 {
            let before = cases::trace(&mut rng, 60, 9);
            let mut after = before.clone();
            cases::crowd(&mut rng, &mut after);
            let pairs = before.iter().zip(&after).map(|(one, other)| [*one, *other]);
            let mut pairs: Vec<[u32; 2]> = pairs.collect();
            pairs.sort();
            pairs.dedup();
            assert_eq!(pairs.len(), distinct(before));
            assert_eq!(pairs.len(), distinct(after.clone()));
            assert!(!after.contains(&second::MARK));
            let hashes = distinct(after.iter().map(|&page| mirror::hash(page)).collect());
            let low = distinct(after.iter().map(|&page| page & 0xFFFF).collect());
            assert!(hashes <= 5 || low == 1);
            of_one_hash += u32::from(hashes == 1 && pairs.len() > 1);
        }
        assert!(of_one_hash > 50, "{of_one_hash} of 200");
    }

    /// The pages of walks differ, the first or the last page is among them, and three kinds are of
    /// one hash. From LRU-2's cache both pages requested once go and pages requested again.
    #[test]
    fn walks_are_what_they_should_be() {
        for name in walks::NAMES {
            let pages: Vec<u32> = (0..9_000).map(name).collect();
            assert!([0, second::MARK - 1].contains(&pages[0]));
            assert!(!pages.contains(&second::MARK));
            assert_eq!(distinct(pages), 9_000);
        }
        for name in [walks::ZEROS_HASH, walks::LASTS_HASH, walks::LOW_HALVES] {
            assert_eq!(
                distinct((0..9_000).map(name).map(mirror::hash).collect()),
                1
            );
        }
        let low = (0..32).map(|number| walks::LOW_HALVES(number) & 0xFFFF);
        assert_eq!(distinct(low.collect()), 1);
        let mut rng = cases::Rng::new(1);
        for n in [2, 9, 256] {
            let trace = walks::again(&mut rng, 2_000, n);
            let mut plan = vec![0; 2_000];
            second::write_plan(second::LRU_2, n as u32, &trace, &mut plan);
            let mut requests = vec![0; 2 * n + 3];
            let mut gone = [0, 0];
            for (&page, &word) in trace.iter().zip(&plan) {
                if word != second::MARK {
                    gone[usize::from(requests[word as usize] > 1)] += 1;
                    requests[word as usize] = 0;
                }
                requests[page as usize] += 1;
            }
            assert!(gone.iter().all(|&count| count > 80), "{n}: {gone:?}");
        }
    }

    /// How often a group's questions are answered by a frame, by none, by 4 and by 5; and whether
    /// every frame is told.
    fn answers(questions: fn(frames::Ask)) -> ([u32; 4], bool) {
        let mut counts = [0; 4];
        let mut told = [false; 256];
        questions(&mut |given, page| {
            let found = second::frame_words(given, page);
            let kind = match (found.number, found.held) {
                (0, 1) => 0,
                (0, _) => 1,
                (4, _) => 2,
                _ => 3,
            };
            counts[kind] += 1;
            told[found.frame as usize] |= kind == 0;
        });
        (counts, told.iter().all(|&told| told))
    }

    #[test]
    fn frames_are_asked_for_every_answer() {
        let (good, every) = answers(frames::good_questions);
        assert!(good[..3].iter().all(|&count| count > 800), "{good:?}");
        assert!(good[3] == 0 && every);
        for questions in [frames::damaged_questions, frames::random_questions] {
            let (counts, _) = answers(questions);
            assert!(counts.iter().all(|&count| count > 40), "{counts:?}");
            assert!(counts[3] > 2_000, "{counts:?}");
        }
    }
}
