//! A record in words: in enough of them, in one too few, and with more behind it.

use second::*;

const M: u32 = MARK;

/// A cache of 256 frames, all held, whose very last word is 0: with one word fewer and a zero
/// in its place it would still be sound.
fn full() -> Vec<u32> {
    let mut words = vec![LRU, 256, 600];
    words.extend([u32::MAX; 8]);
    for frame in 0..255 {
        words.extend([1_000 + frame, 1 + frame, 1 + frame, M]);
    }
    words.extend([5, 0, 599, 0]);
    words
}

#[test]
fn enough_words() {
    let given = full();
    assert_eq!((given.len(), RECORD_WORDS), (1_035, 1_035));
    assert!(sound_words(&given));
    let mut next = vec![7; RECORD_WORDS + 2];
    let outcome = feed_words(&given, 9, &mut next);
    assert_eq!((outcome.number, outcome.kind, outcome.page), (0, 2, 1_000));
    assert_eq!(next[..3], [LRU, 256, 601]);
    assert_eq!(next[3..11], [u32::MAX; 8]);
    assert_eq!(next[11..15], [9, 600, 600, M]);
    assert_eq!(next[15..RECORD_WORDS], given[15..]);
    assert_eq!(next[RECORD_WORDS..], [7, 7]);
    let mut own = given;
    own.extend([7, 7]);
    assert_eq!(feed_own_words(&mut own, 9), outcome);
    assert_eq!(own, next);
}

#[test]
fn too_few_words_to_read() {
    let mut given = full();
    given.pop();
    let kept = given.clone();
    assert!(!sound_words(&given));
    let mut next = vec![7; RECORD_WORDS];
    for page in [9, M] {
        let outcome = feed_words(&given, page, &mut next);
        assert_eq!((outcome.number, outcome.place), (5, 0));
        assert_eq!((outcome.kind, outcome.page), (0, M));
        assert_eq!(next, vec![7; RECORD_WORDS]);
        assert_eq!(feed_own_words(&mut given, page), outcome);
        assert_eq!(given, kept);
    }
}

/// 6 is the last refusal.
#[test]
fn too_few_words_to_write() {
    let mut room = vec![7; RECORD_WORDS - 1];
    assert_eq!(fresh_words(0, 0, &mut room), (1, 0));
    assert_eq!(fresh_words(LRU, 0, &mut room), (2, 0));
    assert_eq!(fresh_words(LRU, 3, &mut room), (6, 0));
    let mut given = full();
    assert_eq!(feed_words(&given, 9, &mut room).number, 6);
    assert_eq!(feed_words(&given, M, &mut room).number, 4);
    given[2] = 8_000;
    assert_eq!(feed_words(&given, 9, &mut room).number, 8);
    given[0] = MIN;
    assert_eq!(feed_words(&given, M, &mut room).number, 5);
    assert_eq!(room, vec![7; RECORD_WORDS - 1]);
}

/// A refusal hands back the record that it got, and a refused Fresh the blank one.
#[test]
fn handed_back() {
    let mut given = full();
    given[0] = MIN;
    let mut next = vec![7; RECORD_WORDS];
    assert_eq!(feed_words(&given, 9, &mut next).number, 5);
    assert_eq!(next, given);
    assert_eq!(fresh_words(MIN, 3, &mut next), (1, 0));
    assert_eq!(next[..11], [0; 11]);
    assert_eq!(next[11..], vec![M; 1_024]);
}

/// Frames 0 to 31, 32 to 63 and so on have a word each; a fresh record has none of the bits.
#[test]
fn the_map_in_words() {
    let mut words = vec![7; RECORD_WORDS];
    assert_eq!(fresh_words(FIFO, 256, &mut words), (0, 0));
    assert_eq!(words[..3], [FIFO, 256, 0]);
    for frame in 0..256 {
        assert_eq!(words[3..11], map_words(frame), "{frame} frames held");
        assert_eq!(feed_own_words(&mut words, 500 + frame).kind, 1);
    }
    assert_eq!(words[3..11], [u32::MAX; 8]);
    assert_eq!(feed_own_words(&mut words, 9).kind, 2);
    assert_eq!(words[3..11], [u32::MAX; 8]);
}

/// The map with the lowest bits set, half word by half word.
fn map_words(held: u32) -> [u32; 8] {
    let mut words = [0; 8];
    for frame in 0..held as usize {
        words[frame / 32] |= 1 << frame % 32;
    }
    words
}

/// A record as it was in words before the map is too short to be one.
#[test]
fn a_record_with_a_number() {
    let mut words = vec![LRU, 3, 5, 0];
    words.extend(vec![M; 1_024]);
    assert!(!sound_words(&words));
    assert_eq!(feed_own_words(&mut words, 9).number, 5);
}
