//! Texts: all short ones over a few tokens, damaged copies, lists with brackets.

use crate::random::Random;

pub type Tokens = [&'static [u8]];

/// What literals are made of, and what they hide.
pub const LITERAL_TOKENS: &Tokens = &[b"'", b"\"", b"\\", b"'\\'", b"''", b",", b"(", b")", b"a"];

/// All words of 0, 1, 2, ... tokens while they fit into the limit, then an even choice of the next longer ones up to it.
pub fn short_texts(tokens: &Tokens, limit: usize, random: &mut Random, mut each: impl FnMut(&mut Random, &[u8])) {
    let (mut length, mut all, mut left) = (0, 1, limit);
    while all <= left {
        for index in 0..all {
            each(random, &word(tokens, length, index));
        }
        left -= all;
        length += 1;
        all *= tokens.len();
    }
    let stride = all / left.max(1);
    for step in 0..left {
        let index = step * stride + random.below(stride);
        each(random, &word(tokens, length, index));
    }
}

fn word(tokens: &Tokens, length: usize, mut index: usize) -> Vec<u8> {
    let mut text = Vec::new();
    for _ in 0..length {
        text.extend(tokens[index % tokens.len()]);
        index /= tokens.len();
    }
    text
}

pub fn random_text(tokens: &Tokens, most: usize, random: &mut Random) -> Vec<u8> {
    (0..random.between(0, most))
        .flat_map(|_| random.pick(tokens).iter().copied())
        .collect()
}

/// One to three small faults.
pub fn damaged(text: &[u8], tokens: &Tokens, random: &mut Random) -> Vec<u8> {
    let mut text = text.to_vec();
    for _ in 0..random.between(1, 3) {
        let at = random.below(text.len() + 1);
        match random.below(6) {
            0 if at < text.len() => {
                text.remove(at);
            }
            1 if at < text.len() => text[at] = random.pick(tokens)[0],
            2 => text.truncate(at),
            3 => {
                let end = (at + random.below(6)).min(text.len());
                let again = text[at..end].to_vec();
                text.splice(at..at, again);
            }
            4 if at + 1 < text.len() => text.swap(at, at + 1),
            _ => {
                text.splice(at..at, random.pick(tokens).iter().copied());
            }
        }
    }
    text
}

const ATOMS: [&str; 28] = [
    "a",
    "b1",
    "x_y",
    "1",
    "n",
    "i",
    "j+k",
    "m(1)",
    "'q,('",
    "\"s)\"",
    "'it''s'",
    "'\\''",
    "'c:\\p\\'",
    "\"\\\"",
    "/* , */",
    "a::b",
    "c ? d : e",
    "p->q",
    "a >= b",
    "a<=b",
    "v<w>",
    "std::pair<a, b>",
    "m<n<o>>",
    "i<j",
    "-1",
    "a//b",
    "&r",
    "!e",
];

/// A text of items with brackets in them, mostly well formed.
pub fn list(separator: &str, depth: usize, random: &mut Random) -> String {
    let mut text = String::new();
    for index in 0..random.between(1, 4) {
        if index > 0 {
            text += random.pick(&["", " ", "\t", "\x0b"]);
            text += separator;
            text += random.pick(&["", " ", "  "]);
        }
        text += &item(separator, depth, random);
    }
    text
}

fn item(separator: &str, depth: usize, random: &mut Random) -> String {
    if depth == 0 || random.percent(60) {
        return random.pick(&ATOMS).to_string();
    }
    let (open, close) = random.pick(&[("(", ")"), ("[", "]"), ("{", "}"), ("<", ">")]);
    let inside = list(separator, depth - 1, random);
    format!("{}{open}{inside}{close}", random.pick(&["", "a", "b ", "/**/"]))
}

/// Upper and lower case at random.
pub fn mixed_case(text: &str, random: &mut Random) -> String {
    text.chars()
        .map(|letter| match random.percent(50) {
            true => letter.to_ascii_uppercase(),
            false => letter.to_ascii_lowercase(),
        })
        .collect()
}
