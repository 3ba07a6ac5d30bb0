//! The bundle file: the 84-byte example, cuts at every byte, each refusal in its turn,
//! round trips in both directions, and the report's exact text.

use second::*;

const M: u32 = MARK;
const A: [u32; 8] = [5, 6, 7, 5, 8, 6, 5, 7];
const PLAN: [u32; 8] = [M, M, 5, 6, 7, 5, 8, 6];

fn bytes_of(words: &[u32]) -> Vec<u8> {
    let mut bytes = Vec::new();
    for word in words {
        bytes.extend_from_slice(&word.to_le_bytes());
    }
    bytes
}

fn example_words() -> Vec<u32> {
    let mut words = vec![2, 3, 2, 8];
    words.extend_from_slice(&A);
    words.push(8);
    words.extend_from_slice(&PLAN);
    words
}

fn example() -> Vec<u8> {
    bytes_of(&example_words())
}

/// Reads with rooms of these lengths; a refusal must keep every lent word.
fn read_with(bytes: &[u8], requests: usize, plan: usize) -> (u32, u32) {
    let mut requests = vec![71; requests];
    let mut plan = vec![72; plan];
    let reply = read_bundle(bytes, &mut requests, &mut plan);
    if reply.number != 0 {
        assert_eq!((reply.n, reply.m), (0, 0));
        assert_eq!((reply.t, reply.plan_count), (0, 0));
        assert!(requests.iter().all(|&word| word == 71));
        assert!(plan.iter().all(|&word| word == 72));
    }
    (reply.number, reply.place)
}

fn read(bytes: &[u8]) -> (u32, u32) {
    read_with(bytes, 8_000, 8_000)
}

fn read_changed(place: usize, word: u32) -> (u32, u32) {
    let mut words = example_words();
    words[place / 4] = word;
    read(&bytes_of(&words))
}

fn text(bytes: &[u8]) -> String {
    String::from_utf8(report(bytes)).unwrap()
}

#[test]
fn the_example() {
    let file = example();
    assert_eq!(file.len(), 84);
    assert_eq!(file, include_bytes!("../../../examples/first.bundle"));
    let mut requests = [71; 10];
    let mut plan = [72; 9];
    let reply = read_bundle(&file, &mut requests, &mut plan);
    assert_eq!((reply.number, reply.place), (0, 0));
    assert_eq!((reply.n, reply.m, reply.t), (3, 2, 8));
    assert_eq!(reply.plan_count, 8);
    assert_eq!((&requests[..8], &requests[8..]), (&A[..], &[71, 71][..]));
    assert_eq!((&plan[..8], &plan[8..]), (&PLAN[..], &[72][..]));
    let lines = "requests 8\nlru 3 6\nfifo 3 5\nmin 3 5\nlru2 3 6\nmin 2 6\nclaim 2 8\n";
    assert_eq!(text(&file), lines);
}

#[test]
fn cut_at_every_byte() {
    let file = example();
    for cut in 0..84 {
        let place = cut as u32 / 4 * 4;
        assert_eq!(read(&file[..cut]), (9, place), "cut at {cut}");
        assert_eq!(text(&file[..cut]), format!("refused 9 at {place}\n"));
    }
}

#[test]
fn counts_not_allowed() {
    for count in [0, 1, 3, M] {
        assert_eq!(read_changed(0, count), (10, 0));
    }
    for count in [8_001, 1_073_741_824, 2_147_483_648, M] {
        assert_eq!(read_changed(12, count), (10, 12));
    }
    for count in [1, 7, 9, 8_000, 1_073_741_832, M] {
        assert_eq!(read_changed(48, count), (10, 48));
    }
    // 10 is told even where the file ends right after the count.
    assert_eq!(read(&bytes_of(&[3])), (10, 0));
    assert_eq!(read(&bytes_of(&[2, 3, 2, 8_001])), (10, 12));
    assert_eq!(read(&bytes_of(&[2, 3, 2, 1, 5, 2])), (10, 20));
    assert_eq!(read(&bytes_of(&[2, 3, 2, 0, 1])), (10, 16));
    assert_eq!(read(&bytes_of(&[2, 3, 2, 8_000])), (9, 16));
}

#[test]
fn bytes_after_the_end() {
    let mut file = example();
    for extra in 1..9 {
        file.push(extra);
        assert_eq!(read(&file), (11, 84));
    }
    // A plan's count of 0 leaves the plan's words over.
    assert_eq!(read_changed(48, 0), (11, 52));
}

#[test]
fn values_judged_after_the_bytes() {
    assert_eq!(read_changed(4, 0), (2, 4));
    assert_eq!(read_changed(4, 257), (2, 4));
    assert_eq!(read_changed(8, 0), (2, 8));
    assert_eq!(read_changed(8, 300), (2, 8));
    assert_eq!(read_changed(8, 4), (12, 8));
    assert_eq!(read_changed(28, M), (4, 28));
    // Each of them after 9, 10 and 11, and in the order 2 (n first), 12, 4, 6.
    let mut words = vec![2, 0, 0, 2, M, M, 0];
    assert_eq!(read(&bytes_of(&words)[..26]), (9, 24));
    assert_eq!(read_with(&bytes_of(&words), 0, 0), (2, 4));
    words[1] = 1;
    assert_eq!(read_with(&bytes_of(&words), 0, 0), (2, 8));
    words[2] = 2;
    assert_eq!(read_with(&bytes_of(&words), 0, 0), (12, 8));
    words[2] = 1;
    assert_eq!(read_with(&bytes_of(&words), 0, 0), (4, 16));
    words[4] = 7;
    assert_eq!(read_with(&bytes_of(&words), 0, 0), (4, 20));
    words[5] = 7;
    assert_eq!(read_with(&bytes_of(&words), 1, 0), (6, 0));
    assert_eq!(read_with(&bytes_of(&words), 2, 0), (0, 0));
}

#[test]
fn lent_lists() {
    let file = example();
    assert_eq!(read_with(&file, 8, 8), (0, 0));
    assert_eq!(read_with(&file, 7, 8), (6, 0));
    assert_eq!(read_with(&file, 8, 7), (6, 0));
    assert_eq!(read_with(&bytes_of(&[2, 1, 1, 0, 0]), 0, 0), (0, 0));
}

fn write(n: u32, m: u32, trace: &[u32], plan: &[u32], room: usize) -> (u32, u32) {
    let mut bytes = vec![73; room];
    let reply = write_bundle(n, m, trace, plan, &mut bytes);
    if reply.number != 0 {
        assert_eq!(reply.bytes, 0);
        assert!(bytes.iter().all(|&byte| byte == 73));
    }
    (reply.number, reply.place)
}

#[test]
fn writing() {
    let mut room = vec![73; 90];
    let reply = write_bundle(3, 2, &A, &PLAN, &mut room);
    assert_eq!((reply.number, reply.place, reply.bytes), (0, 0, 84));
    assert_eq!(&room[..84], example());
    assert_eq!(&room[84..], [73; 6]);
}

#[test]
fn writing_refuses_in_order() {
    let long = vec![M; 8_001];
    assert_eq!(write(0, 0, &long, &A, 0), (2, 0));
    assert_eq!(write(3, 257, &long, &A, 0), (2, 0));
    assert_eq!(write(3, 4, &long, &A, 0), (12, 8));
    assert_eq!(write(3, 3, &long, &A, 0), (3, 0));
    assert_eq!(write(3, 3, &[5, M, M], &A, 0), (4, 1));
    assert_eq!(write(3, 3, &[5, 6, 7], &A, 0), (10, 0));
    assert_eq!(write(3, 3, &[], &A, 0), (10, 0));
    assert_eq!(write(3, 3, &[5, 6, 7], &[1, 2, 3], 43), (6, 0));
    assert_eq!(write(3, 3, &[5, 6, 7], &[1, 2, 3], 44), (0, 0));
    assert_eq!(write(3, 3, &[], &[], 20), (0, 0));
    assert_eq!(write(256, 256, &[5; 8_000], &[M; 8_000], 64_019), (6, 0));
    assert_eq!(write(256, 256, &[5; 8_000], &[M; 8_000], 64_020), (0, 0));
}

#[test]
fn round_trips() {
    let mut seed = 99u32;
    for round in 0..200usize {
        let t = if round < 198 { round % 40 } else { 8_000 };
        let mut next = || {
            seed = seed.wrapping_mul(1_664_525).wrapping_add(1_013_904_223);
            seed >> 1
        };
        let trace: Vec<u32> = (0..t).map(|_| next()).collect();
        let plan: Vec<u32> = (0..t * (round % 2)).map(|_| next() * 2 + 1).collect();
        let n = 1 + round as u32;
        let m = 1 + round as u32 / 2;
        let mut file = vec![0; 70_000];
        let written = write_bundle(n, m, &trace, &plan, &mut file);
        assert_eq!(written.bytes as usize, 20 + 4 * (t + plan.len()));
        file.truncate(written.bytes as usize);
        let mut requests = vec![0; t];
        let mut words = vec![0; plan.len()];
        let reply = read_bundle(&file, &mut requests, &mut words);
        assert_eq!((reply.number, reply.n, reply.m), (0, n, m));
        assert_eq!((reply.t, reply.plan_count), (t as u32, plan.len() as u32));
        assert_eq!((&requests, &words), (&trace, &plan));
        let mut again = vec![0; file.len()];
        write_bundle(reply.n, reply.m, &requests, &words, &mut again);
        assert_eq!(again, file);
    }
}

#[test]
fn reports() {
    let mut words = example_words();
    words[15] = 9;
    assert!(text(&bytes_of(&words)).ends_with("\nmin 2 6\nclaim refused 7 at 2\n"));
    words.truncate(12);
    words.push(0);
    let lines = "requests 8\nlru 3 6\nfifo 3 5\nmin 3 5\nlru2 3 6\nmin 2 6\nclaim none\n";
    assert_eq!(text(&bytes_of(&words)), lines);
    let lines = "requests 0\nlru 9 0\nfifo 9 0\nmin 9 0\nlru2 9 0\nmin 4 0\nclaim none\n";
    assert_eq!(text(&bytes_of(&[2, 9, 4, 0, 0])), lines);
    assert_eq!(text(&example()[..13]), "refused 9 at 12\n");
    assert_eq!(text(&[]), "refused 9 at 0\n");
    let mut long = example();
    long.resize(70_000, 0);
    assert_eq!(text(&long), "refused 11 at 84\n");
}
