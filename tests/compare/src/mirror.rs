//! The second program behind the same C functions, so that the comparison can try itself.
//! It can be told to make one mistake; the comparison must then find it. Frame has a file of its own,
//! and so have most mistakes in a walk over a whole trace.

use crate::map_cases::{flipped, has, Map};
use crate::mirror_walks::wrongly_walked;
use second::{lowest, ones, Outcome, Record, Reply, MARK, RECORD_WORDS};
use std::slice::{from_raw_parts, from_raw_parts_mut};
use std::sync::atomic::{AtomicU32, Ordering};

/// The mistake to make; 0 is none.
pub static MISTAKE: AtomicU32 = AtomicU32::new(0);

pub fn mistake(number: u32) -> bool {
    MISTAKE.load(Ordering::Relaxed) == number
}

/// Each mistake, the group of cases that must find it, and what it is.
#[cfg(test)]
pub const MISTAKES: [(u32, &str, &str); 87] = [
    (1, "count", "a hit renews a page in FIFO"),
    (2, "plan", "MIN drops the highest of the dead pages"),
    (3, "plan", "the word after the plan is written"),
    (4, "plan", "a plan is begun though there is too little room"),
    (5, "count", "drops are counted, not faults"),
    (
        6,
        "longest",
        "the mark is looked for in a trace that is too long",
    ),
    (7, "check", "a plan may drop the page requested"),
    (8, "better", "of equal plans the second is named"),
    (9, "better", "the second plan's refusal is given"),
    (10, "better", "a refusal hands back T words"),
    (11, "fresh", "257 frames are taken"),
    (12, "fresh", "a refusal hands back a record with its rule"),
    (
        13,
        "damaged record",
        "dirt past the held entries is overlooked",
    ),
    (
        14,
        "damaged record",
        "a last request at the clock is overlooked",
    ),
    (15, "run", "LRU doesn't keep the earlier moment"),
    (16, "run", "a refused Feed gives page 0, not the mark"),
    (17, "last request", "8 comes before 4"),
    (18, "last request", "clock 7,999 is refused"),
    (19, "cut", "n is judged before the end of the file"),
    (20, "cut", "9 has the place of the cut"),
    (
        21,
        "read",
        "requests are copied though the plan finds no room",
    ),
    (22, "write", "12 has place 0"),
    (23, "write", "10 comes before 4"),
    (24, "write", "a byte past the file is cleared"),
    (25, "report", "without requests the empty plan is claimed"),
    (26, "report", "the last line feed is missing"),
    (27, "count", "a rule is cut to its lowest byte"),
    (28, "longest", "8,001 requests are taken"),
    (29, "count", "a lent trace is changed"),
    (30, "count", "a word past the answer is written"),
    (31, "shared moment", "a moment in two entries is overlooked"),
    (
        32,
        "sound record",
        "an entry that doesn't change is changed",
    ),
    (33, "long file", "T of 8,000 is refused in a file"),
    (
        34,
        "count",
        "LRU-2 remembers what a page did before it was dropped",
    ),
    (
        35,
        "short record",
        "1,034 words are read as if a zero followed",
    ),
    (36, "short record", "1,034 words are fed all the same"),
    (
        37,
        "short record",
        "for too few words a blank record is handed back",
    ),
    (38, "short room", "6 comes before 1 and 2 in Fresh"),
    (
        39,
        "short room",
        "a record is begun though there is no room",
    ),
    (40, "short room", "6 comes before 8 in Feed"),
    (
        41,
        "short room",
        "an accepted Feed without room is not refused",
    ),
    (
        42,
        "short record",
        "the thin form puts a word into a record of too few",
    ),
    (43, "run", "the thin form leaves the record as it came"),
    (44, "map", "only the first word of the map is counted"),
    (45, "damaged map", "a gap in the map is overlooked"),
    (
        46,
        "damaged map",
        "bits above the lowest zero are overlooked",
    ),
    (47, "damaged map", "only the number of ones is judged"),
    (48, "damaged map", "bits at or beyond frames are overlooked"),
    (49, "map", "the halves of a word change places"),
    (50, "map", "the high bits of a word come first"),
    (51, "map", "the next free frame is one too high"),
    (52, "map", "a load sets no bit outside the first word"),
    (53, "map", "a drop with all 256 frames held clears the map"),
    (
        54,
        "damaged map",
        "Feed takes as many frames as there are ones",
    ),
    (
        55,
        "damaged map",
        "a map that is refused is handed back mended",
    ),
    (56, "random map", "8 comes before 5 where a bit is astray"),
    (
        57,
        "damaged map",
        "the thin form takes as many frames as there are ones",
    ),
    (
        58,
        "damaged map",
        "the thin form mends a map that it refuses",
    ),
    (
        59,
        "fresh",
        "the bits of all frames are set in a fresh record",
    ),
    (60, "short record", "a record with a number is taken"),
    (
        61,
        "map",
        "the halves of a word change places in the next record",
    ),
    (62, "frame", "an absent page is told as held in frame 0"),
    (63, "frame", "the frame is one too high"),
    (64, "frame", "a page in frame 0 is told as absent"),
    (65, "frame", "the last held frame isn't looked at"),
    (66, "frame", "the mark is found in a free frame"),
    (67, "frame", "8 is told where 8,000 requests are served"),
    (68, "frame", "only the low half of a page is compared"),
    (69, "frame", "the record is fed, not only read"),
    (
        70,
        "frame",
        "too little room for an answer is refused with 6",
    ),
    (
        71,
        "frame",
        "a word behind the four of an answer is written",
    ),
    (72, "damaged frame", "4 comes before 5"),
    (
        73,
        "damaged frame",
        "a page that only a free frame's entry has is found",
    ),
    (
        74,
        "damaged frame",
        "as many frames are looked at as there are ones, gaps or not",
    ),
    (
        75,
        "damaged frame",
        "of two frames with one page the first is told",
    ),
    (
        76,
        "damaged frame",
        "1,034 words are searched as if a zero followed",
    ),
    (
        77,
        "random frame",
        "the entries are searched, but not judged",
    ),
    (
        78,
        "damaged frame",
        "a frame with a stray bit is told where its entry has the page",
    ),
    (
        79,
        "shared hash",
        "in Check a page is taken for another with its hash",
    ),
    (
        80,
        "shared hash",
        "in MIN a page is taken for another with its hash",
    ),
    (
        81,
        "walk",
        "LRU doesn't note a page's last request on a hit",
    ),
    (82, "walk", "LRU-2 passes over pages requested once"),
    (83, "walk", "FIFO goes on from the last frame to the second"),
    (
        84,
        "walk",
        "a plan has the page that comes, not the one that goes",
    ),
    (
        85,
        "walk",
        "in a plan of LRU, FIFO or LRU-2 a page is taken for another with its hash",
    ),
    (86, "walk", "LRU's hand stops after 4,095 moments"),
    (87, "walk", "LRU finds page 0 in a frame beyond the cache"),
];

pub unsafe fn list<'a, T>(start: *const T, length: usize) -> &'a [T] {
    from_raw_parts(start, length)
}

pub unsafe fn lent<'a, T>(start: *mut T, length: usize) -> &'a mut [T] {
    from_raw_parts_mut(start, length)
}

/// The record in words; past their end stand zeros.
pub fn record_of(words: &[u32]) -> Record {
    let word = |place: usize| words.get(place).copied().unwrap_or(0);
    let mut record = second::blank();
    record.rule = word(0);
    record.frames = word(1);
    record.clock = word(2);
    for place in 0..4 {
        let [low, high] = [3, 4].map(|half| u64::from(word(half + 2 * place)));
        record.map[place] = high << 32 | low;
    }
    for frame in 0..256 {
        for part in 0..4 {
            record.entries[frame][part] = word(11 + 4 * frame + part);
        }
    }
    record
}

/// Puts a record into the front of words that have room for it.
fn lay_out(record: &Record, words: &mut [u32]) {
    words[..RECORD_WORDS].copy_from_slice(&crate::record_cases::words_of(record));
}

fn put(answer: &mut [u32], reply: Reply) {
    answer.copy_from_slice(&[reply.number, reply.place, reply.faults]);
}

#[no_mangle]
unsafe extern "C" fn hedravos_count(
    rule: u32,
    n: u32,
    trace: *const u32,
    trace_len: usize,
    answer: *mut u32,
    answer_len: usize,
) {
    let requests = list(trace, trace_len);
    let reply = count_reply(rule, n, requests);
    if mistake(29) && trace_len > 0 {
        *trace.cast_mut() ^= 1;
    }
    if mistake(30) {
        *answer.add(answer_len) = 0;
    }
    put(lent(answer, answer_len), reply);
}

/// What Count answers, with the mistakes that are in the answer.
fn count_reply(rule: u32, n: u32, requests: &[u32]) -> Reply {
    let mut reply = second::count(rule, n, requests);
    if mistake(1) && rule == second::FIFO {
        reply = second::count(second::LRU, n, requests);
    }
    if mistake(5) && reply.number == 0 {
        let mut plan = vec![0; requests.len()];
        second::write_plan(rule, n, requests, &mut plan);
        reply.faults = plan.iter().filter(|&&word| word != MARK).count() as u32;
    }
    if mistake(6) && requests.len() > 8_000 && reply.number == 3 {
        if let Some(moment) = requests.iter().position(|&page| page == MARK) {
            reply.number = 4;
            reply.place = moment as u32;
        }
    }
    if mistake(27) {
        reply = second::count(rule & 255, n, requests);
    }
    if mistake(28) && requests.len() == 8_001 {
        reply = second::count(rule, n, &requests[..8_000]);
    }
    if mistake(34) && rule == second::LRU_2 && reply.number == 0 {
        reply.faults = faults_with_long_memory(n, requests);
    }
    if reply.number == 0 {
        reply.faults = wrongly_walked(rule, n, requests).map_or(reply.faults, |walked| walked.1);
    }
    reply
}

/// LRU-2 as it would be with the whole past of each page: not document 01's rule.
fn faults_with_long_memory(n: u32, requests: &[u32]) -> u32 {
    let mut held: Vec<u32> = Vec::new();
    let mut faults = 0;
    for moment in 0..requests.len() {
        let past = &requests[..moment];
        let key = |page: u32| {
            let mut found = (0..moment).rev().filter(|&i| past[i] == page);
            let last = found.next();
            (found.next(), last)
        };
        if held.contains(&requests[moment]) {
            continue;
        }
        faults += 1;
        if held.len() == n as usize {
            let victim = *held.iter().min_by_key(|&&page| key(page)).unwrap();
            held.retain(|&page| page != victim);
        }
        held.push(requests[moment]);
    }
    faults
}

#[no_mangle]
unsafe extern "C" fn hedravos_plan(
    rule: u32,
    n: u32,
    trace: *const u32,
    trace_len: usize,
    words: *mut u32,
    words_len: usize,
    answer: *mut u32,
    answer_len: usize,
) {
    let requests = list(trace, trace_len);
    let room = lent(words, words_len);
    let mut reply = second::write_plan(rule, n, requests, room);
    if reply.number == 0 {
        reply = wrongly_planned(rule, n, requests, room, reply);
    }
    if mistake(4) && reply.number == 6 && words_len > 0 {
        room[0] = MARK;
    }
    put(lent(answer, answer_len), reply);
}

/// What a plan's call comes to with the planted mistake, where it isn't refused.
fn wrongly_planned(
    rule: u32,
    n: u32,
    requests: &[u32],
    room: &mut [u32],
    mut reply: Reply,
) -> Reply {
    let t = requests.len();
    if mistake(2) && rule == second::MIN {
        plan_turned_round(n, requests, room);
    }
    let planted = if rule == second::MIN { 80 } else { 85 };
    if mistake(planted) {
        reply = second::count(rule, n, &hashed(requests));
    }
    if let Some((plan, faults)) = wrongly_walked(rule, n, requests) {
        room[..t].copy_from_slice(&plan);
        reply.faults = faults;
    }
    if mistake(84) {
        name_the_new(requests, room);
    }
    if mistake(3) && room.len() > t {
        room[t] = MARK;
    }
    reply
}

/// MIN's plan with the highest of the dead pages: turned round, the highest page number is the lowest.
fn plan_turned_round(n: u32, requests: &[u32], room: &mut [u32]) {
    let turned: Vec<u32> = requests.iter().map(|&page| MARK - 1 - page).collect();
    second::write_plan(second::MIN, n, &turned, room);
    for word in &mut room[..requests.len()] {
        if *word != MARK {
            *word = MARK - 1 - *word;
        }
    }
}

/// For each page that goes the one that comes.
fn name_the_new(requests: &[u32], room: &mut [u32]) {
    for (word, &page) in room.iter_mut().zip(requests) {
        if *word != MARK {
            *word = page;
        }
    }
}

/// Hashes in place of pages, as an index might take them.
fn hashed(pages: &[u32]) -> Vec<u32> {
    let hash_or_mark = |&page: &u32| match page {
        MARK => MARK,
        _ => hash(page),
    };
    pages.iter().map(hash_or_mark).collect()
}

pub fn hash(page: u32) -> u32 {
    page.wrapping_mul(2_654_435_761) >> 21
}

#[no_mangle]
unsafe extern "C" fn hedravos_check(
    m: u32,
    trace: *const u32,
    trace_len: usize,
    words: *const u32,
    words_len: usize,
    answer: *mut u32,
    answer_len: usize,
) {
    let requests = list(trace, trace_len);
    let plan = list(words, words_len);
    let mut reply = second::check(m, requests, plan);
    if mistake(79) && reply.number == 0 {
        reply = second::check(m, &hashed(requests), &hashed(plan));
    }
    if mistake(7) && reply.number == 7 {
        let moment = reply.place as usize;
        if plan[moment] == requests[moment] {
            reply.number = 0;
        }
    }
    put(lent(answer, answer_len), reply);
}

#[no_mangle]
unsafe extern "C" fn hedravos_better(
    m: u32,
    trace: *const u32,
    trace_len: usize,
    first: *const u32,
    first_len: usize,
    second: *const u32,
    second_len: usize,
    answer: *mut u32,
    answer_len: usize,
) {
    let requests = list(trace, trace_len);
    let one = list(first, first_len);
    let two = list(second, second_len);
    let mut verdict = second::better(m, requests, one, two);
    let other = second::check(m, requests, two);
    if mistake(8) && verdict.number == 0 && other.number == 0 && other.faults == verdict.faults {
        verdict.which = 2;
    }
    if mistake(9) && verdict.number > 4 {
        verdict.number = other.number;
        verdict.place = other.place;
    }
    let words = [verdict.number, verdict.place, verdict.which, verdict.faults];
    lent(answer, answer_len).copy_from_slice(&words);
}

#[no_mangle]
unsafe extern "C" fn hedravos_better_words(
    m: u32,
    trace: *const u32,
    trace_len: usize,
    first: *const u32,
    first_len: usize,
    second: *const u32,
    second_len: usize,
    words: *mut u32,
    words_len: usize,
    answer: *mut u32,
    answer_len: usize,
) {
    let requests = list(trace, trace_len);
    let one = list(first, first_len);
    let two = list(second, second_len);
    let (which, mut length) = second::better_words(m, requests, one, two);
    if mistake(10) && which == 0 {
        length = trace_len.min(first_len);
    }
    let chosen = if which == 2 { two } else { one };
    let room = lent(words, words_len);
    let fits = length.min(words_len);
    room[..fits].copy_from_slice(&chosen[..fits]);
    lent(answer, answer_len).copy_from_slice(&[length as u32]);
}

#[no_mangle]
unsafe extern "C" fn hedravos_fresh(
    rule: u32,
    n: u32,
    record: *mut u32,
    record_len: usize,
    answer: *mut u32,
    answer_len: usize,
) {
    let words = lent(record, record_len);
    let (mut number, place) = second::fresh_words(rule, n, words);
    if mistake(11) && number == 2 && n == 257 {
        number = 0;
    }
    if mistake(12) && number != 0 && record_len >= RECORD_WORDS {
        words[0] = rule;
    }
    if mistake(59) && number == 0 {
        let mut filled = record_of(words);
        filled.map = lowest(n);
        lay_out(&filled, words);
    }
    if mistake(38) && record_len < RECORD_WORDS {
        number = 6;
    }
    if mistake(39) && number == 6 && record_len > 0 {
        words[0] = rule;
    }
    lent(answer, answer_len).copy_from_slice(&[number, place]);
}

#[no_mangle]
unsafe extern "C" fn hedravos_sound(
    record: *const u32,
    record_len: usize,
    answer: *mut u32,
    answer_len: usize,
) {
    let words = list(record, record_len);
    let mut judged = record_of(words);
    judged.map = map_read(&judged);
    let held = ones(&judged.map);
    if mistake(13) {
        judged.entries[held as usize..].fill([MARK; 4]);
    }
    if mistake(14) && judged.clock < 8_000 {
        judged.clock += 1;
    }
    let mut sound = second::sound(&judged);
    if mistake(31) && held == 2 {
        // Each entry by itself is judged, the two never side by side.
        let mut one = judged;
        one.map = lowest(1);
        one.entries[1] = [MARK; 4];
        let mut two = one;
        two.entries[0] = judged.entries[1];
        sound = second::sound(&one) && second::sound(&two);
    }
    if record_len < RECORD_WORDS && !mistake(35) {
        sound = second::sound_words(words);
    }
    if mistake(60) && record_len == 1_028 {
        sound = sound_with_a_number(words);
    }
    lent(answer, answer_len).copy_from_slice(&[u32::from(sound)]);
}

/// Soundness of a record as it was before the map, with the number of held frames in its place.
fn sound_with_a_number(words: &[u32]) -> bool {
    let mut record = record_of(&[&words[..3], &[0; 8], &words[4..]].concat());
    record.map = lowest(words[3].min(256));
    second::sound(&record)
}

/// The map as it is judged, with the mistakes that are in the reading of it.
fn map_read(record: &Record) -> Map {
    let mut map = record.map;
    let set = |&frame: &usize| has(&record.map, frame);
    if mistake(44) {
        map = [map[0], 0, 0, 0];
    }
    if mistake(45) {
        map = lowest((0..256).rev().find(set).map_or(0, |frame| frame as u32 + 1));
    }
    if mistake(46) {
        map = lowest((0..256).take_while(set).count() as u32);
    }
    if mistake(47) {
        map = lowest(ones(&map));
    }
    if mistake(48) {
        let within = lowest(record.frames.min(256));
        map = [0, 1, 2, 3].map(|place| map[place] & within[place]);
    }
    if mistake(49) {
        map = map.map(|word| word.rotate_left(32));
    }
    if mistake(50) {
        map = map.map(u64::reverse_bits);
    }
    map
}

#[no_mangle]
unsafe extern "C" fn hedravos_feed(
    record: *const u32,
    record_len: usize,
    page: u32,
    next: *mut u32,
    next_len: usize,
    answer: *mut u32,
    answer_len: usize,
) {
    let words = list(record, record_len);
    let room = lent(next, next_len);
    let mut told = second::feed_words(words, page, room);
    if next_len >= RECORD_WORDS && record_len >= RECORD_WORDS {
        let given = record_of(words);
        let closed = closed_up(words);
        if mistake(54) && second::sound_words(&closed) {
            told = second::feed_words(&closed, page, room);
        }
        mistakes_of_feed(&given, room, &mut told);
        mistakes_of_map(&given, room, &mut told);
    }
    mistakes_of_length(words, page, room, &mut told);
    let numbers = [told.number, told.place, told.kind, told.page];
    lent(answer, answer_len).copy_from_slice(&numbers);
}

/// Mistakes in the reply, and in the next record, which stands in the room.
fn mistakes_of_feed(given: &Record, room: &mut [u32], told: &mut Outcome) {
    let mut next = record_of(room);
    if mistake(15) && given.rule == second::LRU && told.number == 0 {
        for frame in 0..256 {
            if next.entries[frame][0] == given.entries[frame][0] {
                next.entries[frame][3] = given.entries[frame][3];
            }
        }
    }
    if mistake(16) && told.number != 0 {
        told.page = 0;
    }
    if mistake(17) && told.number == 4 && given.clock == 8_000 {
        told.number = 8;
    }
    if mistake(18) && told.number == 0 && given.clock == 7_999 {
        told.number = 8;
        next = *given;
    }
    if mistake(32) && told.kind == 2 && next.entries[0][3] != MARK {
        next.entries[0][1] = next.entries[0][3];
    }
    lay_out(&next, room);
}

/// Mistakes in the map of the next record.
fn mistakes_of_map(given: &Record, room: &mut [u32], told: &mut Outcome) {
    let held = ones(&given.map) as usize;
    let mut next = record_of(room);
    if mistake(51) && told.kind == 1 && held < 255 {
        next.map = flipped(&given.map, held + 1);
        next.entries.swap(held, held + 1);
    }
    if mistake(52) && told.kind == 1 && held >= 64 {
        next.map = given.map;
    }
    if mistake(53) && told.kind == 2 && held == 256 {
        next.map = [0; 4];
    }
    if mistake(55) && told.number == 5 {
        next.map = lowest(held as u32);
    }
    if mistake(61) && told.number == 0 {
        next.map = next.map.map(|word| word.rotate_left(32));
    }
    if mistake(56) && told.number == 5 && given.clock == 8_000 {
        told.number = 8;
    }
    lay_out(&next, room);
}

/// A record's words with as many of the map's lowest bits set as it has ones.
pub fn closed_up(words: &[u32]) -> Vec<u32> {
    let mut record = record_of(words);
    record.map = lowest(ones(&record.map));
    crate::record_cases::words_of(&record)
}

/// Mistakes with too few words, of the record or of the room for the next one.
fn mistakes_of_length(words: &[u32], page: u32, room: &mut [u32], told: &mut Outcome) {
    if words.len() < RECORD_WORDS {
        let fed = second::feed(&record_of(words), page);
        if mistake(36) {
            told.number = fed.number;
        }
        if mistake(37) && room.len() >= RECORD_WORDS {
            lay_out(&second::blank(), room);
        }
    }
    if room.len() < RECORD_WORDS {
        if mistake(39) && told.number == 6 && !room.is_empty() {
            room[0] = words[0];
        }
        if mistake(40) && told.number == 8 {
            told.number = 6;
        }
        if mistake(41) && told.number == 6 {
            told.number = 0;
        }
    }
}

#[cfg(feature = "own-record")]
#[no_mangle]
unsafe extern "C" fn hedravos_feed_own(
    record: *mut u32,
    record_len: usize,
    page: u32,
    answer: *mut u32,
    answer_len: usize,
) {
    let words = lent(record, record_len);
    let came = words.to_vec();
    let mut told = second::feed_own_words(words, page);
    if mistake(42) && record_len < RECORD_WORDS && record_len > 0 {
        words[0] ^= 1;
    }
    if mistake(43) && told.number == 0 {
        words.copy_from_slice(&came);
    }
    let closed = closed_up(&came);
    if mistake(57) && record_len >= RECORD_WORDS && second::sound_words(&closed) {
        words[..RECORD_WORDS].copy_from_slice(&closed);
        told = second::feed_own_words(words, page);
    }
    if mistake(58) && record_len >= RECORD_WORDS && told.number == 5 {
        words[..RECORD_WORDS].copy_from_slice(&closed);
    }
    let numbers = [told.number, told.place, told.kind, told.page];
    lent(answer, answer_len).copy_from_slice(&numbers);
}

#[no_mangle]
unsafe extern "C" fn hedravos_read(
    bytes: *const u8,
    bytes_len: usize,
    requests: *mut u32,
    requests_len: usize,
    plan: *mut u32,
    plan_len: usize,
    answer: *mut u32,
    answer_len: usize,
) {
    let file = list(bytes, bytes_len);
    let trace = lent(requests, requests_len);
    let words = lent(plan, plan_len);
    let mut reply = second::read_bundle(file, trace, words);
    if mistake(19) && reply.number == 9 && bytes_len >= 8 {
        let n = u32::from_le_bytes([file[4], file[5], file[6], file[7]]);
        // The cut files all have a good n, so a larger one stands for a bad one.
        if n > 3 {
            reply.number = 2;
            reply.place = 4;
        }
    }
    if mistake(20) && reply.number == 9 {
        reply.place = bytes_len as u32;
    }
    if mistake(21) && reply.number == 6 && requests_len > 0 {
        trace[0] = u32::from_le_bytes([file[16], file[17], file[18], file[19]]);
    }
    if mistake(33) && reply.t == 8_000 {
        reply.number = 10;
        reply.place = 12;
    }
    let sizes = [reply.n, reply.m, reply.t, reply.plan_count];
    let room = lent(answer, answer_len);
    room[..2].copy_from_slice(&[reply.number, reply.place]);
    room[2..].copy_from_slice(&sizes);
}

#[no_mangle]
unsafe extern "C" fn hedravos_write(
    n: u32,
    m: u32,
    trace: *const u32,
    trace_len: usize,
    plan: *const u32,
    plan_len: usize,
    room: *mut u8,
    room_len: usize,
    answer: *mut u32,
    answer_len: usize,
) {
    let requests = list(trace, trace_len);
    let words = list(plan, plan_len);
    let file = lent(room, room_len);
    let mut reply = second::write_bundle(n, m, requests, words, file);
    if mistake(22) && reply.number == 12 {
        reply.place = 0;
    }
    if mistake(23) && reply.number == 4 && plan_len != 0 && plan_len != trace_len {
        reply.number = 10;
        reply.place = 0;
    }
    if mistake(24) && reply.number == 0 && room_len > reply.bytes as usize {
        file[reply.bytes as usize] = 0;
    }
    lent(answer, answer_len).copy_from_slice(&[reply.number, reply.place, reply.bytes]);
}

#[no_mangle]
unsafe extern "C" fn hedravos_report(
    bytes: *const u8,
    bytes_len: usize,
    text: *mut u8,
    text_len: usize,
    answer: *mut u32,
    answer_len: usize,
) {
    let mut lines = second::report(list(bytes, bytes_len));
    if mistake(25) && lines.starts_with(b"requests 0\n") {
        lines.truncate(lines.len() - 5);
        lines.extend_from_slice(b"1 0\n");
    }
    if mistake(26) {
        lines.pop();
    }
    lent(text, text_len)[..lines.len()].copy_from_slice(&lines);
    lent(answer, answer_len).copy_from_slice(&[lines.len() as u32]);
}
