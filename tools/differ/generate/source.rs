//! Lines to join, maps to go back through, contents to copy.

use super::{enough, near};
use crate::cases::{Sink, hexadecimal};
use crate::laws::{Law, broken};
use crate::random::Random;
use crate::texts::{Tokens, damaged, random_text, short_texts};

const C_TOKENS: &Tokens = &[b"\\", b"\n", b"\r", b"a", b" ", b"\x0b", b"\\\n", b"&"];

const FORTRAN_TOKENS: &Tokens = &[
    b"&", b"\n", b"\r", b"!", b" ", b"a", b"'", b"!$omp", b"!$acc", b"c$omp", b"!$", b"\t", b"\x0b", b"&\r\n",
    b"*$ACC", b"\"", b"\\",
];

const COPY_TOKENS: &Tokens = &[
    b"\\", b"&", b"\n", b"\r", b" ", b"\t", b"!", b"a", b"!$omp", b"!$acc", b"c$", b"'", b"\x0b",
];

const LANGUAGES: [&str; 3] = ["c", "free", "fixed"];
const PREFIXES: [&str; 2] = ["omp", "acc"];

fn ask_join(language: &str, prefix: &str, sizes: (usize, usize), line: &[u8]) -> String {
    format!("join {language} {prefix} {} {} {}", sizes.0, sizes.1, hexadecimal(line))
}

pub fn join_boundaries(sink: &mut Sink) {
    for language in LANGUAGES {
        for length in [16_383, 16_384, 16_385] {
            let mut lines = vec![vec![b'a'; length]];
            for ending in ["\\\n", "&\n", "\n", "\r"] {
                let mut line = vec![b'a'; length];
                line.splice(length - ending.len().., ending.bytes());
                lines.push(line);
            }
            let mut line = vec![b'a'; length];
            line[length - 1] = 128;
            lines.push(line);
            lines.push(b"\\\n".repeat(length / 2));
            lines.push(b"&\n".repeat(length / 2));
            for line in lines {
                sink.give(ask_join(language, "omp", (length, length + 1), &line));
            }
            sink.give(ask_join(language, "omp", (length - 1, length + 1), &vec![b'a'; length]));
            sink.give(ask_join(language, "omp", (length, length), &vec![b'a'; length]));
            sink.give(ask_join(language, "omp", (20_000, 20_000), &vec![b'a'; length]));
        }
    }
}

pub fn join_short(limit: usize, sink: &mut Sink, random: &mut Random) {
    short_texts(C_TOKENS, limit / 2, random, |random, line| {
        let sizes = (near(line.len(), random), near(line.len() + 1, random));
        sink.give(ask_join("c", "omp", sizes, line));
    });
    short_texts(FORTRAN_TOKENS, limit / 4, random, |random, line| {
        for prefix in PREFIXES {
            let sizes = (enough(line.len(), random), enough(line.len() + 1, random));
            sink.give(ask_join(random.pick(&LANGUAGES[1..]), prefix, sizes, line));
        }
    });
}

pub fn join_random(sink: &mut Sink, random: &mut Random) {
    let (language, prefix) = (random.pick(&LANGUAGES), random.pick(&PREFIXES));
    if language == "c" && random.percent(50) {
        let text: Vec<u8> = random_text(C_TOKENS, 30, random);
        let text: Vec<u8> = text.into_iter().filter(|byte| !b"\r\n".contains(byte)).collect();
        join_pair(prefix, &text, sink, random);
        return;
    }
    let mut line = match (language, random.percent(30)) {
        ("c", true) => random_text(C_TOKENS, 40, random),
        ("c", false) => continued(&["\\\n", "\\\r\n"], &[""], random),
        (_, true) => random_text(FORTRAN_TOKENS, 30, random),
        (_, false) => continued(
            &["&\n", "& \t\n", "&\r\n", "&! c\n", " &\n"],
            &[
                "", " ", "!$omp", " !$omp &", "&", "\t&", "!$acc ", "c$omp", "*$ &", "!$",
            ],
            random,
        ),
    };
    if random.percent(30) {
        let tokens = if language == "c" { C_TOKENS } else { FORTRAN_TOKENS };
        line = damaged(&line, tokens, random);
    }
    if random.percent(1) {
        line.insert(random.below(line.len() + 1), 128);
    }
    let sizes = (near(line.len(), random), near(line.len() + 1, random));
    let sizes = if random.percent(70) {
        (line.len(), line.len() + 1)
    } else {
        sizes
    };
    sink.give(ask_join(language, prefix, sizes, &line));
}

/// Physical lines with their ends and what may stand before the next one's text.
fn continued(ends: &[&str], starts: &[&str], random: &mut Random) -> Vec<u8> {
    let mut line = String::from(random.pick(&["", "#pragma omp p", "!$omp p", "a 'b'", "!$ompx", " "]));
    for _ in 0..random.between(0, 4) {
        line += random.pick(&["", " ", "a", "b'c'", "'d", "!e", "\\"]);
        line += random.pick(ends);
        line += random.pick(starts);
        line += random.pick(&["", " ", "f", " g(h)", "'"]);
    }
    line += random.pick(&["", "", "\n", "\r\n", "\n \x0b", "\r"]);
    line.into_bytes()
}

/// A text without line ends, and the same with breaks.
fn join_pair(prefix: &str, text: &[u8], sink: &mut Sink, random: &mut Random) {
    let breaks = random_breaks(text.len(), random);
    let added: usize = breaks.iter().map(Vec::len).sum();
    let need = text.len() + added;
    let sizes = (enough(need, random), enough(need + 1, random));
    let (line, map) = broken(text, &breaks, sizes.1);
    sink.give_pair(
        ask_join("c", prefix, sizes, text),
        ask_join("c", prefix, sizes, &line),
        Law::Breaks { map },
    );
}

/// For each gap of a text a run of breaks, mostly empty.
pub fn random_breaks(length: usize, random: &mut Random) -> Vec<Vec<u8>> {
    let share = random.pick(&[3, 10, 40]);
    (0..=length)
        .map(|_| match random.percent(share) {
            true => (0..random.between(1, 3))
                .flat_map(|_| random.pick(&["\\\n", "\\\r\n"]).bytes())
                .collect(),
            false => Vec::new(),
        })
        .collect()
}

fn ask_back(length: usize, start: usize, end: usize, map: &[usize]) -> String {
    let entries: Vec<String> = map.iter().map(usize::to_string).collect();
    let map = if map.is_empty() {
        "-".to_string()
    } else {
        entries.join(",")
    };
    format!("back {length} {start} {end} {map}")
}

pub fn back_boundaries(sink: &mut Sink) {
    for length in [16_383, 16_384, 16_385] {
        for size in [length, length + 1, length + 2] {
            let map: Vec<usize> = (0..size).map(|entry| 3 * entry).collect();
            for (start, end) in [(0, 0), (0, length), (length, length), (length, length + 1), (1, 0)] {
                sink.give(ask_back(length, start, end, &map));
            }
        }
    }
    for number in [16_384, 16_385, 65_535, 65_536, 99_999, 100_000, 100_001] {
        sink.give(ask_back(number, 0, 0, &[0, 1]));
        sink.give(ask_back(1, number, 1, &[0, 1]));
        sink.give(ask_back(1, 0, number, &[0, 1]));
        sink.give(ask_back(1, number, number, &[0, 1]));
    }
    for size in [19_999, 20_000, 20_001] {
        sink.give(ask_back(1, 0, 1, &vec![65_535; size]));
    }
    sink.give(ask_back(1, 0, 1, &[65_535, 65_536]));
}

pub fn back_short(sink: &mut Sink, random: &mut Random) {
    for length in 0..5 {
        for size in 0..7 {
            for start in 0..6 {
                for end in 0..6 {
                    let map: Vec<usize> = (0..size).map(|_| random.below(12)).collect();
                    sink.give(ask_back(length, start, end, &map));
                }
            }
        }
    }
}

pub fn back_random(sink: &mut Sink, random: &mut Random) {
    let length = random.between(0, 60);
    let mut entry = 0;
    let mut map: Vec<usize> = (0..near(length + 1, random))
        .map(|_| {
            entry += random.between(0, 5);
            entry
        })
        .collect();
    if random.percent(20) && !map.is_empty() {
        let at = random.below(map.len());
        map[at] = random.below(65_536);
    }
    let start = random.between(0, length + 1);
    let end = random.between(start.saturating_sub(1), length + 1);
    sink.give(ask_back(length, start, end, &map));
}

fn ask_copy(slots: usize, content: &[u8]) -> String {
    format!("copy {slots} {}", hexadecimal(content))
}

pub fn copy_boundaries(sink: &mut Sink) {
    for length in [16_383, 16_384, 16_385] {
        for unit in ["a", "\\\n", "&\n", "&"] {
            let mut content = unit.repeat(length / unit.len()).into_bytes();
            for slots in [0, length - 2, length - 1, length, length + 1, 20_000] {
                sink.give(ask_copy(slots, &content));
            }
            *content.last_mut().expect("not empty") = 255;
            sink.give(ask_copy(20_000, &content));
        }
    }
}

pub fn copy_short(limit: usize, sink: &mut Sink, random: &mut Random) {
    short_texts(COPY_TOKENS, limit, random, |random, content| {
        sink.give(ask_copy(near(content.len(), random), content));
    });
}

pub fn copy_random(sink: &mut Sink, random: &mut Random) {
    let mut content = random_text(COPY_TOKENS, 40, random);
    if random.percent(1) {
        content.insert(random.below(content.len() + 1), 255);
    }
    let slots = if random.percent(80) {
        content.len()
    } else {
        near(content.len(), random)
    };
    sink.give(ask_copy(slots, &content));
}
