//! The whole line against the Rust's steps in a row: join, opening words, name, clauses, by registries that are built once from the same book.

use crate::answer::{Lent, head};
use crate::book::{Book, Shelf};
use crate::lexer::{
    Language, LogicalSource, lex_dialect_keyword, lex_fortran_free_sentinel_with_prefix, lex_pragma, skip_fortran_space1_and_comments,
    skip_space_and_comments, skip_space1_and_comments,
};
use crate::request::{Joining, Request};
use crate::sequences::{TYPICAL, listed, openmp_book, small_book, typical_book, with_flags};
use crate::{Report, calls, ours};
use std::hint::black_box;

const SIZES: [usize; 3] = [60, 400, 4_000];

/// What a line is written in, by our number and the Rust's name.
#[derive(Clone, Copy)]
struct Form {
    number: u32,
    language: Language,
    opening: &'static str,
    /// Trivia may stand behind the hash.
    spaced: bool,
}

const C: Form = Form { number: ours::C, language: Language::C, opening: "#pragma omp parallel for", spaced: false };
const SPACED: Form = Form { spaced: true, ..C };
const FREE: Form = Form { number: ours::FORTRAN_FREE, language: Language::FortranFree, opening: "!$omp parallel for", spaced: false };
const RUN_TOGETHER: Form = Form { opening: "!$omp parallelfor", ..FREE };

/// Lines in a call that reads many.
const MANY: usize = 100;

pub fn rows(report: &Report, folder: &str) {
    let books = [("small book", small_book()), ("typical book", typical_book(folder)), ("openmp.drb", openmp_book(folder))];
    report.heading("whole line against the Rust's steps, one line a call, registries built once", "Rust ns");
    for (title, book) in &books {
        for bytes in SIZES {
            row(report, &format!("line {bytes}, not broken, {title}"), book, &directive(C, bytes, 0));
            row(report, &format!("line {bytes}, broken, {title}"), book, &broken(bytes, 0));
        }
    }
    for bytes in SIZES {
        spare_row(report, &format!("line {bytes}, small book, 512 record slots"), &books[0].1, &directive(C, bytes, 0));
    }
    report.heading("trivia behind the hash, against the Rust's steps with its own trivia in lex_pragma's place", "Rust ns");
    for bytes in [60, 400] {
        spaced_row(report, &format!("line {bytes}, a blank behind the hash"), &books[0].1, " ", bytes);
    }
    for bytes in [8_192, 16_384] {
        let comments = "/**/".repeat(bytes / 4 - 8);
        spaced_row(report, &format!("line {bytes}, comments behind the hash"), &books[0].1, &comments, bytes);
    }
    report.heading("the same by the line, 100 lines a call under one check of the book", "Rust ns");
    for (title, book) in &books {
        for bytes in SIZES {
            many_row(report, &format!("lines {bytes}, not broken, {title}"), C, book, |turn| directive(C, bytes, turn));
            many_row(report, &format!("lines {bytes}, broken, {title}"), C, book, |turn| broken(bytes, turn));
        }
    }
    report.heading("the same in free form, written in upper case, names read with case ignored", "Rust ns");
    let book = with_flags(openmp_book(folder), 1);
    let blanks_optional = with_flags(openmp_book(folder), 3);
    for bytes in SIZES {
        many_row(report, &format!("lines {bytes}, case ignored, openmp.drb"), FREE, &book, |turn| directive(FREE, bytes, turn).to_uppercase());
    }
    for bytes in [60, 400] {
        many_row(report, &format!("lines {bytes}, words run together, openmp.drb"), RUN_TOGETHER, &blanks_optional, |turn| {
            directive(RUN_TOGETHER, bytes, turn).to_uppercase()
        });
    }
}

/// A directive of so many bytes: as many whole clauses as fit, the first by the turn, and blanks.
fn directive(form: Form, bytes: usize, turn: usize) -> String {
    let mut text = String::from(form.opening);
    for clause in TYPICAL.iter().cycle().skip(turn % TYPICAL.len()) {
        if text.len() + 1 + clause.len() > bytes {
            break;
        }
        text.push(' ');
        text.push_str(clause);
    }
    format!("{text:<bytes$}")
}

/// The same in physical lines of 80 bytes, or in two halves, each but the last with a break at its end.
fn broken(bytes: usize, turn: usize) -> String {
    let line = 80.min(bytes / 2);
    let breaks = (bytes - 1) / line;
    let text = directive(C, bytes - 2 * breaks, turn);
    let (before, last) = text.split_at(breaks * (line - 2));
    let parts = (0..breaks).map(|i| before[i * (line - 2)..(i + 1) * (line - 2)].to_string() + "\\\n");
    parts.chain([last.to_string()]).collect()
}

/// The Rust's opening words of a line, each step as published: what stands behind them.
fn opened(form: Form, text: &str) -> Option<&str> {
    if form.language != Language::C {
        let rest = lex_fortran_free_sentinel_with_prefix(text, "omp").ok()?.0;
        return Some(skip_fortran_space1_and_comments(rest).ok()?.0);
    }
    let rest = skip_space_and_comments(text).ok()?.0;
    let rest = match form.spaced {
        true => skip_space_and_comments(rest.strip_prefix('#')?).ok()?.0.strip_prefix("pragma")?,
        false => lex_pragma(rest).ok()?.0,
    };
    let rest = skip_space1_and_comments(rest).ok()?.0;
    let rest = lex_dialect_keyword(rest, "omp").ok()?.0;
    Some(skip_space1_and_comments(rest).ok()?.0)
}

/// The Rust's steps, each as published: the number of clauses.
fn theirs(form: Form, book: &Book, line: &str) -> Option<usize> {
    let source = LogicalSource::new(line, form.language, "omp").ok()?;
    let rest = opened(form, source.text())?;
    let (rest, name) = book.directive_registry.lex_name(rest).ok()?;
    black_box(&name);
    let (_, clauses) = book.clause_registry.parse_sequence(rest).ok()?;
    Some(black_box(clauses).len())
}

/// What is lent for a line: as many slots as it takes.
struct Slots {
    text: Vec<u8>,
    map: Vec<u16>,
    records: Vec<ours::ClauseRecord>,
    reading: [u64; 4],
}

impl Slots {
    fn new(line: &str, count: usize) -> Self {
        Self {
            text: vec![170; line.len()],
            map: vec![43_690; line.len() + 1],
            records: vec![ours::ClauseRecord::BEFORE; count],
            reading: [u64::MAX; 4],
        }
    }

    fn read(&mut self, form: Form, book: &[u8], line: &str) -> u64 {
        ours::line(form.number, book, line.as_bytes(), &mut self.text, &mut self.map, &mut self.records, &mut self.reading)
    }

    /// The same for a line without breaks that has so many bytes more before the name.
    fn further(&self, line: &str, on: usize) -> Self {
        let [start, end, count, rest] = self.reading;
        let (more, place) = (on as u64, |place: u16| place + on as u16);
        let record = |record: &ours::ClauseRecord| {
            let mut moved = *record;
            (moved.name_start, moved.name_end) = (place(record.name_start), place(record.name_end));
            if record.parenthesized {
                (moved.content_start, moved.content_end) = (place(record.content_start), place(record.content_end));
            }
            moved
        };
        Self {
            text: line.as_bytes().to_vec(),
            map: (0..=line.len() as u16).collect(),
            records: self.records.iter().map(record).collect(),
            reading: [start + more, end + more, count, rest + more],
        }
    }

    /// An answer with what the slots hold, as the oracle writes it.
    fn written(&self, answer: u64) -> String {
        let (mut text, mut map) = (Lent::new(self.text.len()), Lent::new(self.map.len()));
        text.keep(&self.text);
        map.keep(&self.map);
        let numbers = [answer].into_iter().chain(self.reading).map(|number| number as usize);
        format!("{} : {} : {} : {}", head(&Ok(numbers.collect())), text.listed(), map.listed(), listed(&self.records))
    }
}

/// The slots of a line and our answer to it, which is the oracle's.
fn answered(form: Form, book: &[u8], line: &str, shelf: &mut Shelf) -> (Slots, u64) {
    let count = theirs(form, shelf.book(book).expect("a valid book"), line).expect("a line that is read");
    let joining =
        Joining { language: form.language, prefix: "omp", text_slots: line.len(), map_slots: line.len() + 1, line: line.as_bytes().to_vec() };
    let request = Request::Line { joining, record_slots: count, book: book.to_vec() };
    let expected = calls::answer(&request, shelf).expect("an oracle that agrees with itself");
    let mut slots = Slots::new(line, count);
    let answer = slots.read(form, book, line);
    assert_eq!(slots.written(answer), expected, "{line}");
    (slots, answer)
}

fn row(report: &Report, name: &str, book: &[u8], line: &str) {
    if !report.wants(name) {
        return;
    }
    let mut shelf = Shelf::default();
    let (mut slots, _) = answered(C, book, line, &mut shelf);
    let registries = shelf.book(book).expect("a valid book");
    report.row(name, line.len(), || slots.read(C, book, black_box(line)) as usize, || theirs(C, registries, black_box(line)).unwrap_or(0));
}

/// The same with 512 record slots, or as many as there are clauses if these are more; the Rust's caller clears as many.
fn spare_row(report: &Report, name: &str, book: &[u8], line: &str) {
    if !report.wants(name) {
        return;
    }
    let mut shelf = Shelf::default();
    let (mut slots, answer) = answered(C, book, line, &mut shelf);
    let (read, reading) = (slots.records.clone(), slots.reading);
    let spare = 512usize.saturating_sub(read.len());
    slots.records = vec![ours::ClauseRecord::BEFORE; read.len() + spare];
    assert_eq!((slots.read(C, book, line), slots.reading), (answer, reading), "{name}");
    assert_eq!(listed(&slots.records[..read.len()]), listed(&read), "{name}");
    assert_eq!(listed(&slots.records[read.len()..]), format!("+{spare}"), "{name}");
    let mut cleared = slots.records.clone();
    let registries = shelf.book(book).expect("a valid book");
    report.row(name, line.len(), || slots.read(C, book, black_box(line)) as usize, || {
        black_box(&mut cleared).fill(ours::ClauseRecord::BEFORE);
        theirs(C, registries, black_box(line)).unwrap_or(0)
    });
}

/// A line with a gap behind its hash, which the published Rust refuses; our answer is its answer to the line without the gap, so many bytes on.
fn spaced_row(report: &Report, name: &str, book: &[u8], gap: &str, bytes: usize) {
    if !report.wants(name) {
        return;
    }
    let mut shelf = Shelf::default();
    let plain = directive(C, bytes - gap.len(), 0);
    let line = plain.replacen('#', &format!("#{gap}"), 1);
    let (read, answer) = answered(C, book, &plain, &mut shelf);
    let mut slots = Slots::new(&line, read.records.len());
    assert_eq!(slots.read(C, book, &line), answer, "{name}");
    assert_eq!(slots.written(answer), read.further(&line, gap.len()).written(answer), "{name}");
    let registries = shelf.book(book).expect("a valid book");
    assert_eq!(theirs(SPACED, registries, &line), Some(read.records.len()), "{name}");
    report.row(name, line.len(), || slots.read(C, book, black_box(&line)) as usize, || theirs(SPACED, registries, black_box(&line)).unwrap_or(0));
}

fn many_row(report: &Report, name: &str, form: Form, book: &[u8], line: impl Fn(usize) -> String) {
    if !report.wants(name) {
        return;
    }
    let mut shelf = Shelf::default();
    let lines: Vec<String> = (0..MANY).map(line).collect();
    let (bytes, whole) = (lines[0].len(), lines.concat());
    let ends: Vec<usize> = lines.iter().scan(0, |end, line| { *end += line.len(); Some(*end) }).collect();
    let read: Vec<(Slots, u64)> = lines.iter().map(|line| answered(form, book, line, &mut shelf)).collect();
    let room = read.iter().map(|(slots, _)| slots.records.len()).max().unwrap_or(0);
    let (mut text, mut map, mut answers) = (vec![170u8; bytes], vec![43_690u16; bytes + 1], vec![[u64::MAX; 5]; MANY]);
    assert_eq!(ours::lines(form.number, book, whole.as_bytes(), &ends, &mut text, &mut map, room, &mut answers) as usize, MANY, "{name}");
    let expected = read.iter().map(|(slots, answer)| [*answer, slots.reading[0], slots.reading[1], slots.reading[2], slots.reading[3]]);
    assert!(answers.iter().copied().eq(expected), "{name}");
    assert!(text.iter().all(|&slot| slot == 0) && map.iter().all(|&slot| slot == 0), "{name}");
    let registries = shelf.book(book).expect("a valid book");
    report.row_of(
        name,
        bytes,
        MANY,
        || ours::lines(form.number, book, black_box(whole.as_bytes()), &ends, &mut text, &mut map, room, &mut answers) as usize,
        || lines.iter().map(|line| theirs(form, registries, black_box(line)).unwrap_or(0)).sum(),
    );
}
