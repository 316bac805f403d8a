//! Texts to trim.

use crate::cases::{Sink, hexadecimal};
use crate::random::Random;
use crate::texts::{Tokens, random_text, short_texts};

/// The blanks, their neighbours, and bytes that are blank elsewhere.
const TOKENS: &Tokens = &[
    b"\x09", b"\x0a", b"\x0b", b"\x0c", b"\x0d", b" ", b"a", b"\x08", b"\x0e", b"\x1c", b"\x1f", b"\x00", b"!",
    b"\x7f", b"\x80", b"\x85", b"\xa0", b"\xff",
];

const BLANKS: &Tokens = &[b"\x09", b"\x0a", b"\x0b", b"\x0c", b"\x0d", b" "];

fn ask(text: &[u8]) -> String {
    format!("trim {}", hexadecimal(text))
}

pub fn boundaries(sink: &mut Sink) {
    for byte in 0..=255 {
        for text in [vec![byte], vec![byte, b'a'], vec![b'a', byte], vec![b' ', byte, b' ']] {
            sink.give(ask(&text));
        }
    }
    for length in [16_383, 16_384, 16_385, 39_998, 40_000, 40_001] {
        sink.give(ask(&vec![b' '; length]));
        sink.give(ask(&vec![b'a'; length]));
        let mut text = vec![b'\t'; length];
        text[length / 2] = b'a';
        sink.give(ask(&text));
        text[length / 2] = 200;
        sink.give(ask(&text));
    }
}

pub fn short(limit: usize, sink: &mut Sink, random: &mut Random) {
    short_texts(TOKENS, limit, random, |_, text| sink.give(ask(text)));
}

pub fn random(sink: &mut Sink, random: &mut Random) {
    let mut text = random_text(BLANKS, 12, random);
    for _ in 0..random.between(0, 40) {
        text.push(random.below(256) as u8);
    }
    text.extend(random_text(TOKENS, 6, random));
    text.extend(random_text(BLANKS, 12, random));
    sink.give(ask(&text));
}
