//! The library's two text entries: on texts with known answers, and against plain Rust on random, damaged and long texts.

use crankforest_tests::library::PairsAnswer;
use crankforest_tests::programs::cases;
use crankforest_tests::random::Random;
use crankforest_tests::{library, plain_text, texts};

/// How many places the list for the pair program's bytes needs.
const PLACES: usize = 131_072;

fn shown(text: &[u8]) -> String {
    let cut = text.len().min(2_000);
    format!("{} bytes: {:?}", text.len(), String::from_utf8_lossy(&text[..cut]))
}

/// The bytes that the library writes for a text. `out` is lent and its later places have to keep what they held.
fn pairs(text: &[u8], out: &mut [u8]) -> Vec<u8> {
    out.fill(0xa5);
    let answer = library::pairs(text, out);
    assert_eq!((answer.refusal, answer.place), (0, 0), "{}", shown(text));
    assert!(answer.bytes <= out.len(), "{}", shown(text));
    assert!(out[answer.bytes..].iter().all(|&place| place == 0xa5), "a place beyond was written to: {}", shown(text));
    out[..answer.bytes].to_vec()
}

fn compare_pairs(text: &[u8], out: &mut [u8]) {
    let (got, due) = (pairs(text, out), plain_text::pairs(text));
    assert_eq!(String::from_utf8_lossy(&got), String::from_utf8_lossy(&due), "{}", shown(text));
}

fn compare_separation(text: &[u8], s: usize, t: usize) {
    let (got, due) = (library::separation(text, s, t), plain_text::separation(text, s, t));
    assert_eq!(got, due, "s = {}, t = {}, {}", s, t, shown(text));
}

/// Both entries, with two questions.
fn compare(random: &mut Random, text: &[u8], out: &mut [u8]) {
    compare_pairs(text, out);
    for _ in 0..2 {
        let (s, t) = (draw_event(random), draw_event(random));
        compare_separation(text, s, t);
    }
}

fn draw_event(random: &mut Random) -> usize {
    match random.below(12) {
        0 => random.pick(&[63, 64, 65, 1 << 32, usize::MAX]),
        1..=3 => random.below(64),
        _ => random.below(4),
    }
}

#[test]
fn known_texts() {
    let mut out = vec![0; PLACES];
    for (text, written) in texts::known() {
        assert_eq!(String::from_utf8_lossy(&pairs(&text, &mut out)), written, "{}", shown(&text));
    }
}

#[test]
fn known_separations() {
    for (text, s, t, number) in texts::known_separations() {
        assert_eq!(library::separation(&text, s, t), number, "s = {}, t = {}, {}", s, t, shown(&text));
    }
}

#[test]
fn valid_texts() {
    let mut random = Random::new(31);
    let mut out = vec![0; PLACES];
    for _ in 0..cases(1_500) {
        let text = texts::valid(&mut random);
        compare(&mut random, &text, &mut out);
    }
}

#[test]
fn texts_of_any_kind() {
    let mut random = Random::new(32);
    let mut out = vec![0; PLACES];
    for _ in 0..cases(4_000) {
        let text = texts::any(&mut random);
        compare(&mut random, &text, &mut out);
    }
}

/// Every place of one text, with the byte there changed, removed or doubled, and the text cut there.
#[test]
fn one_text_damaged_everywhere() {
    let mut out = vec![0; PLACES];
    let whole = b"source,target,least,most\r\n0,1,-10,0100\r\n1,02,1,2\r\n1,3,-0,7\r\n".to_vec();
    for at in 0..whole.len() {
        for &byte in b"05-,\r\n\" a\x00\xff" {
            let mut text = whole.clone();
            text[at] = byte;
            compare_pairs(&text, &mut out);
            compare_separation(&text, 2, 3);
            text[at] = whole[at];
            text.insert(at, byte);
            compare_pairs(&text, &mut out);
            compare_separation(&text, 2, 3);
        }
        let mut text = whole.clone();
        text.remove(at);
        compare_pairs(&text, &mut out);
        compare_separation(&text, 2, 3);
        compare_pairs(&whole[..at], &mut out);
        compare_separation(&whole[..at], 2, 3);
    }
}

#[test]
fn random_bytes() {
    let mut random = Random::new(33);
    let mut out = vec![0; PLACES];
    for _ in 0..cases(3_000) {
        let text = texts::random_bytes(&mut random);
        compare(&mut random, &text, &mut out);
    }
}

/// Texts of around 32,768 bytes.
#[test]
fn long_texts() {
    let mut random = Random::new(34);
    let mut out = vec![0; PLACES];
    for _ in 0..cases(300) {
        let mut text = texts::longest();
        for _ in 0..random.below(3) {
            texts::damage(&mut random, &mut text);
        }
        compare(&mut random, &text, &mut out);
    }
}

/// A list that is too short for the bytes is refused and keeps what it held, whatever the text.
#[test]
fn short_lists_for_the_bytes() {
    let refused = PairsAnswer { refusal: 23, place: 0, bytes: 0 };
    let texts = [b"".to_vec(), b"source,target,least,most\r\n0,1,0,1\r\n".to_vec(), texts::longest()];
    for text in texts {
        for places in [0, 1, 20, PLACES - 1] {
            let mut out = vec![0xa5; places];
            assert_eq!(library::pairs(&text, &mut out), refused, "{} places", places);
            assert_eq!(out, vec![0xa5; places], "{} places", places);
        }
        let due = plain_text::pairs(&text);
        assert_eq!(pairs(&text, &mut vec![0; PLACES]), due);
        assert_eq!(pairs(&text, &mut vec![0; PLACES + 5]), due);
    }
}
