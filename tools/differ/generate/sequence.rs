//! Clause sequences under several books.

use crate::books::Book;
use crate::cases::{Sink, hexadecimal};
use crate::laws::Law;
use crate::random::Random;
use crate::texts::{LITERAL_TOKENS, Tokens, damaged, list, mixed_case, random_text, short_texts};

pub const TOKENS: &Tokens = &[
    b"a", b"i", b"f", b"u", b"z", b"A", b" ", b",", b"(", b")", b"[", b"]", b"/*", b"*/", b"//", b"\n", b"'", b"\\\n",
    b"&\n", b"!", b"\x0b", b"\r", b"\"", b"\\", b"!$", b"{", b"}",
];

/// Fewer tokens for longer texts around one content.
const MATCH_TOKENS: &Tokens = &[b"i(", b")", b"a", b" ", b"'", b"/", b"*", b"!", b"$", b"\n", b"[", b"]"];

/// What may stand between words, line ends included, and last what may not.
const C_GAPS: [&str; 12] = [
    "", "", "", " ", " ", "\t", "\n", "/* c */", "/***/", "// c\n", "\\\n", "\x0b",
];
const FORTRAN_GAPS: [&str; 12] = [
    "",
    "",
    "",
    " ",
    " ",
    "\t",
    "\r\n",
    "! c\n",
    "!$\n",
    "&\n",
    "& !\n!$acc&",
    "/**/",
];

fn ask(slots: usize, book: &[u8], text: &[u8]) -> String {
    format!("seq {slots} {} {}", hexadecimal(book), hexadecimal(text))
}

fn small_books() -> Vec<Vec<u8>> {
    let kinds = (0..2).flat_map(|flags| (0..4).map(move |default| (flags, default)));
    kinds
        .map(|(flags, default)| Book::small(flags, default).bytes())
        .collect()
}

pub fn boundaries(sink: &mut Sink) {
    for book in small_books() {
        for count in 254..=258 {
            for (open, close) in [("(", ")"), ("[", "]"), ("{", "}"), ("([{", "}])")] {
                let count = count / close.len();
                let (open, close) = (open.repeat(count), close.repeat(count));
                for (slots, text) in [
                    (1, format!("i({open}{close})")),
                    (0, format!("i({open}{close})")),
                    (1, format!("f {open}")),
                    (1, format!("i({open}{close}) '")),
                    (1, format!("i({open}]{close})")),
                    (2, format!("i(x) i({open}{close})")),
                    (2, format!("a i(]{open}{close})")),
                    (2, format!("u({open}{close})")),
                    (2, format!("i() a {open}")),
                    (3, format!("a,z({open}{close})")),
                ] {
                    sink.give(ask(slots, &book, text.as_bytes()));
                }
            }
        }
        for length in [16_383, 16_384, 16_385] {
            sink.give(ask(2, &book, &vec![b'a'; length]));
            sink.give(ask(2, &book, &vec![b' '; length]));
            let content = "x".repeat(length - 3);
            sink.give(ask(1, &book, format!("i({content})").as_bytes()));
            sink.give(ask(1, &book, format!("i({content}]").as_bytes()));
        }
        for length in [16_383, 16_384, 16_385] {
            let inside = "\\".repeat(length - 5);
            sink.give(ask(1, &book, format!("i('{inside}')").as_bytes()));
            sink.give(ask(1, &book, format!("i(\"{inside}')").as_bytes()));
            let text = "i('\\')".repeat(length / 6) + &" ".repeat(length % 6);
            sink.give(ask(512, &book, text.as_bytes()));
        }
        for clauses in [511, 512, 513] {
            let text = vec!["a"; clauses].join(",");
            for slots in [clauses - 1, clauses, 512] {
                sink.give(ask(slots, &book, text.as_bytes()));
            }
            sink.give(ask(512, &book, "i(x)".repeat(clauses).as_bytes()));
        }
        sink.give(ask(2, &book[..book.len() - 1], b"a"));
        sink.give(ask(2, &book[..book.len() - 1], b"a\xff"));
    }
    for flags in 0..2 {
        every_name(&Book::openmp(flags, 3), sink);
    }
}

/// Each clause name of a book alone, with content and in the other case; then all of them, each with content where its rule lets it have some.
fn every_name(book: &Book, sink: &mut Sink) {
    let bytes = book.bytes();
    let mut all = String::new();
    for (rule, name) in &book.clauses {
        for text in [name.clone(), format!("{name}(x)"), name.to_ascii_uppercase()] {
            sink.give(ask(1, &bytes, text.as_bytes()));
        }
        all += name;
        all += if *rule == 0 { "," } else { "(x) " };
    }
    sink.give(ask(512, &bytes, all.as_bytes()));
    sink.give(ask(512, &bytes, all.to_ascii_uppercase().as_bytes()));
}

pub fn short(limit: usize, sink: &mut Sink, random: &mut Random) {
    let books = small_books();
    for book in &books {
        for (before, tokens) in [("", TOKENS), ("", MATCH_TOKENS), ("i(", LITERAL_TOKENS)] {
            short_texts(tokens, limit / books.len() / 3, random, |random, text| {
                let text = [before.as_bytes(), text].concat();
                sink.give(ask(random.pick(&[0, 1, 2, 3, 4]), book, &text));
            });
        }
    }
}

pub fn random(sink: &mut Sink, random: &mut Random) {
    let (flags, default) = (random.below(4) as u8, random.below(4) as u8);
    let book = match random.below(5) {
        0 => Book::real(flags, default),
        1 => Book::tangled(flags, default, random),
        2 => Book::openmp(flags, default),
        _ => Book::small(flags, default),
    };
    let bytes = book.bytes();
    let gaps = if book.is_fortran() { &FORTRAN_GAPS } else { &C_GAPS };
    // Several texts for a book, as making one ready costs more than reading a text.
    for _ in 0..8 {
        let mut text = match random.below(4) {
            0 => random_text(TOKENS, 25, random),
            _ => clauses(&book, gaps, random).into_bytes(),
        };
        if random.percent(35) {
            text = damaged(&text, TOKENS, random);
        }
        if random.percent(1) {
            text.push(200);
        }
        let slots = random.pick(&[0, 1, 2, 3, 4, 8, 512]);
        sink.give(ask(slots, &bytes, &text));
    }
    if default == 3 {
        let text = clauses(&book, gaps, random).into_bytes();
        let more = book.with_more(random).bytes();
        sink.give_pair(ask(9, &bytes, &text), ask(9, &more, &text), Law::Appended);
    }
}

/// A run of clauses as the book has them, and some that it doesn't have. It begins with a blank.
pub fn clauses(book: &Book, gaps: &[&str], random: &mut Random) -> String {
    let mut text = String::from(if random.percent(97) { " " } else { "," });
    let most = if random.percent(3) { 60 } else { 5 };
    for index in 0..random.between(0, most) {
        if index > 0 {
            text += random.pick(gaps);
            text += random.pick(&[" ", " ", ",", ", ", ""]);
        }
        text += random.pick(gaps);
        text += &clause(book, gaps, random);
    }
    let comment = if book.is_fortran() { " ! e" } else { " // e" };
    text += random.pick(&["", "", "", " ", ",", ", ", comment, "/*"]);
    text
}

fn clause(book: &Book, gaps: &[&str], random: &mut Random) -> String {
    let (rule, name) = match random.percent(97) && !book.clauses.is_empty() {
        true => random.pick(&book.clauses),
        false => (2, random.pick(&["z", "q9", "_x"]).to_string()),
    };
    // A rule that refuses ends the reading; take another name mostly.
    if rule == 3 && random.percent(80) {
        return clause(book, gaps, random);
    }
    let name = match random.percent(if book.is_fortran() { 50 } else { 2 }) {
        true => mixed_case(&name, random),
        false => name,
    };
    let has_content = match rule {
        0 => random.percent(2),
        1 => random.percent(98),
        _ => random.percent(50),
    };
    if !has_content {
        return name;
    }
    format!("{name}{}({})", random.pick(gaps), content(gaps, random))
}

fn content(gaps: &[&str], random: &mut Random) -> String {
    let (before, after) = (random.pick(gaps), random.pick(gaps));
    let depth = random.between(0, 3);
    match random.below(5) {
        0 => format!("{before}{after}"),
        1 => "x".to_string(),
        _ => format!("{before}{}{after}", list(",", depth, random)),
    }
}
