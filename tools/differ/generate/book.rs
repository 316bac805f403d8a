//! Books, right and wrong.

use crate::books::Book;
use crate::cases::{Sink, hexadecimal};
use crate::random::Random;
use crate::texts::{Tokens, damaged, short_texts};
use std::ops::Range;

const TOKENS: &Tokens = &[
    b"\x00", b"\x01", b"\x02", b"\x03", b"\x04", b" ", b"a", b"A", b"b", b"_", b"\x40", b"\x41", b"-", b"\xff",
];

const LONGEST_NAME: usize = 64;

fn ask(book: &[u8]) -> String {
    format!("book {}", hexadecimal(book))
}

pub fn boundaries(sink: &mut Sink) {
    let mut two = Book::small(3, 1);
    two.directives.push("b c d".to_string());
    for book in [Book::small(0, 3).bytes(), two.bytes(), Book::long(0, 3).bytes()] {
        every_cut(&book, sink);
        every_fault(&book, sink);
    }
    every_cut(&Book::openmp(1, 2).bytes(), sink);
    for length in [63, 64, 65, 255] {
        let mut book = Book::small(0, 3);
        book.directives[0] = "d".repeat(length);
        sink.give(ask(&book.bytes()));
        book.clauses[3].1 = "c".repeat(length);
        sink.give(ask(&book.bytes()));
    }
    for (directives, clauses) in [(255, 255), (254, 255), (255, 254), (1, 255), (255, 0)] {
        for width in [3, LONGEST_NAME] {
            full_book(directives, clauses, width, sink);
        }
    }
    repeats(sink);
    for later in 1..12 {
        every_repeat(12, later, 0..later, sink);
    }
    every_repeat(255, 254, 0..254, sink);
}

fn every_cut(book: &[u8], sink: &mut Sink) {
    for at in 0..=book.len() {
        sink.give(ask(&book[..at]));
    }
}

/// Each byte changed to each value, a byte put in or left out, one behind the end.
fn every_fault(book: &[u8], sink: &mut Sink) {
    for at in 0..=book.len() {
        for token in TOKENS {
            let mut changed = book.to_vec();
            changed.insert(at, token[0]);
            sink.give(ask(&changed));
        }
    }
    for at in 0..book.len() {
        let mut changed = book.to_vec();
        for byte in 0..=255 {
            changed[at] = byte;
            sink.give(ask(&changed));
        }
        changed.remove(at);
        sink.give(ask(&changed));
    }
}

/// As many entries as told, whole, cut, with a byte or one more entry behind, with the last name a repeat of the first.
fn full_book(directives: usize, clauses: usize, width: usize, sink: &mut Sink) {
    let name = |index: usize| format!("{index:0width$}");
    let mut book = Book {
        flags: 2,
        default: 0,
        directives: (0..directives).map(name).collect(),
        clauses: (0..clauses).map(|index| (index as u8 % 4, name(index))).collect(),
    };
    let mut bytes = book.bytes();
    sink.give(ask(&bytes));
    sink.give(ask(&bytes[..bytes.len() - 1]));
    bytes.push(0);
    sink.give(ask(&bytes));
    bytes.extend([1, b'x']);
    sink.give(ask(&bytes));
    if let Some(last) = book.clauses.last_mut() {
        last.1 = name(0);
        sink.give(ask(&book.bytes()));
    }
    if let Some(last) = book.directives.last_mut() {
        *last = name(0);
        sink.give(ask(&book.bytes()));
    }
}

/// Names alike but for case, blanks, kind of entry or a digit for a letter, with and without a later fault.
fn repeats(sink: &mut Sink) {
    let names = ["a", "A", "a b", "A B", "ab", "aB", "_", "1", "q", "Q", "a1", "aQ"];
    for first in names {
        for second in names {
            let mut book = Book::small(0, 3);
            book.directives = vec![first.to_string(), second.to_string()];
            let bytes = book.bytes();
            sink.give(ask(&bytes));
            sink.give(ask(&bytes[..bytes.len() - 1]));
            sink.give(ask(&[&bytes[..], b"x"].concat()));
            book.clauses[1].1 = first.to_string();
            book.clauses[2].1 = second.to_string();
            sink.give(ask(&book.bytes()));
            book.directives[1] = "d".to_string();
            sink.give(ask(&book.bytes()));
        }
    }
}

/// So many names of each kind, the same for both; then one of them named as an earlier one of its kind, as it is and in the other case.
fn every_repeat(entries: usize, later: usize, earlier: Range<usize>, sink: &mut Sink) {
    let names: Vec<String> = (0..entries).map(|index| format!("n{index}")).collect();
    let book = Book {
        flags: 0,
        default: 0,
        directives: names.clone(),
        clauses: names.iter().map(|name| (0, name.clone())).collect(),
    };
    sink.give(ask(&book.bytes()));
    for name in &names[earlier] {
        for again in [name.clone(), name.to_ascii_uppercase()] {
            let mut changed = book.clone();
            changed.directives[later] = again.clone();
            sink.give(ask(&changed.bytes()));
            let mut changed = book.clone();
            changed.clauses[later].1 = again;
            sink.give(ask(&changed.bytes()));
        }
    }
}

pub fn short(limit: usize, sink: &mut Sink, random: &mut Random) {
    let headers = [(1, 0), (1, 1), (2, 0), (2, 1), (1, 2)];
    for (directives, clauses) in headers {
        let header = [b'D', b'R', b'B', 0, 1, 0, 3, directives, clauses];
        short_texts(TOKENS, limit / headers.len(), random, |_, entries| {
            sink.give(ask(&[&header, entries].concat()));
        });
    }
}

pub fn random(sink: &mut Sink, random: &mut Random) {
    let mut book = match random.below(3) {
        0 => Book::tangled(0, 3, random),
        _ => Book::random(random),
    };
    if random.percent(20) {
        let again = random.pick(&book.directives).to_ascii_uppercase();
        book.directives.push(again);
    }
    if random.percent(20) && !book.clauses.is_empty() {
        let again = random.pick(&book.clauses);
        book.clauses.push(again);
    }
    let mut bytes = book.bytes();
    if random.percent(60) {
        bytes = damaged(&bytes, TOKENS, random);
    }
    sink.give(ask(&bytes));
}
