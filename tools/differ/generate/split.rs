//! Texts to split.

use crate::cases::{Sink, hexadecimal};
use crate::random::Random;
use crate::texts::{LITERAL_TOKENS, Tokens, damaged, list, random_text, short_texts};

const TOKENS: &Tokens = &[
    b",", b":", b"?", b"(", b")", b"[", b"]", b"{", b"}", b"<", b">", b"=", b" ", b"a", b"'", b"\"", b"\\", b"/", b"*",
    b"\x0b", b"-",
];

/// Fewer tokens for longer texts.
const ANGLE_TOKENS: &Tokens = &[b"a", b"<", b">", b"=", b",", b"(", b")", b"''"];
const COLON_TOKENS: &Tokens = &[b"a", b":", b"?", b" ", b"(", b")", b"/**/"];
const QUOTE_TOKENS: &Tokens = &[b"'", b"\"", b"\\", b"/", b"*", b"a", b","];

/// Language, separator, angles.
type Way = (&'static str, &'static str, usize);

fn ways() -> Vec<Way> {
    let cuts = [("comma", 0), ("comma", 1), ("colon", 0), ("colon", 1)];
    let of = |language| cuts.map(|(separator, angles)| (language, separator, angles));
    ["c", "free", "fixed"].map(of).concat()
}

fn ask(way: Way, slots: usize, text: &[u8]) -> String {
    format!("split {} {} {} {slots} {}", way.0, way.1, way.2, hexadecimal(text))
}

pub fn boundaries(sink: &mut Sink) {
    for way in ways() {
        if way.0 != "fixed" {
            depths(way, sink);
            lengths(way, sink);
        }
        if way.1 == "comma" && way.2 == 0 {
            literals(way, sink);
        }
    }
}

/// Literals as long as a text can be, and as many; with a backslash before the closing quote, and with two.
fn literals(way: Way, sink: &mut Sink) {
    for length in [16_383, 16_384, 16_385] {
        let inside = "\\".repeat(length - 2);
        for text in [
            format!("'{inside}'"),
            format!("'{}'", inside.replace('\\', "a")),
            format!("'{}\\'", "'".repeat(length - 3)),
            "'\\',".repeat(length / 4) + &"a".repeat(length % 4),
            "'\\\\',".repeat(length / 5) + &"a".repeat(length % 5),
        ] {
            sink.give(ask(way, 9_000, text.as_bytes()));
        }
    }
}

/// 254 to 258 brackets open at once, of each kind and mixed.
fn depths(way: Way, sink: &mut Sink) {
    for count in 254..=258 {
        for (open, close) in [("(", ")"), ("[", "]"), ("{", "}"), ("a<", ">"), ("([{", "}])")] {
            let count = count / close.len();
            let (open, close) = (open.repeat(count), close.repeat(count));
            let middles = ["", "a", "(", "()", "<b", "a<", "]", "'", "/*", ","];
            for middle in middles {
                let text = format!("{open}{middle}{close}");
                sink.give(ask(way, 4, text.as_bytes()));
            }
            sink.give(ask(way, 0, format!("a,{open}").as_bytes()));
            sink.give(ask(way, 0, open.as_bytes()));
            sink.give(ask(way, 2, format!("]{open}").as_bytes()));
            sink.give(ask(way, 2, format!("{open}{close}{open}{close}").as_bytes()));
        }
    }
}

fn lengths(way: Way, sink: &mut Sink) {
    for length in [16_383, 16_384, 16_385] {
        sink.give(ask(way, 2, &vec![b'a'; length]));
        sink.give(ask(way, 2, &vec![b'('; length]));
        let mut text = vec![b'a'; length];
        text[length - 1] = 200;
        sink.give(ask(way, 2, &text));
        text[length - 1] = b'\'';
        sink.give(ask(way, 2, &text));
        let separator = if way.1 == "comma" { b',' } else { b':' };
        for at in (1..length).step_by(2) {
            text[at] = separator;
        }
        text[length - 1] = b'a';
        let items = length / 2 + length % 2;
        for slots in [2 * items - 2, 2 * items - 1, 2 * items, 2 * items + 1, 20_000] {
            sink.give(ask(way, slots, &text));
        }
    }
}

pub fn short(limit: usize, sink: &mut Sink, random: &mut Random) {
    for tokens in [TOKENS, ANGLE_TOKENS, COLON_TOKENS, QUOTE_TOKENS, LITERAL_TOKENS] {
        short_texts(tokens, limit / 5 / ways().len(), random, |random, text| {
            for way in ways() {
                sink.give(ask(way, random.pick(&[0, 1, 2, 3, 4, 6, 9]), text));
            }
        });
    }
}

pub fn random(sink: &mut Sink, random: &mut Random) {
    let way = random.pick(&ways());
    let separator = if way.1 == "comma" { "," } else { ":" };
    let mut text = match random.below(4) {
        0 => random_text(TOKENS, 30, random),
        _ => {
            let depth = random.between(0, 4);
            let lists = if random.percent(3) { 20 } else { 1 };
            let lists: Vec<String> = (0..lists).map(|_| list(separator, depth, random)).collect();
            lists.join(separator).into_bytes()
        }
    };
    if random.percent(40) {
        text = damaged(&text, TOKENS, random);
    }
    if random.percent(1) && !text.is_empty() {
        let at = random.below(text.len());
        text[at] = random.between(128, 255) as u8;
    }
    sink.give(ask(way, random.pick(&[0, 1, 2, 3, 4, 5, 6, 8, 8, 30, 200]), &text));
}
