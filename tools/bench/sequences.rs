//! The clause sequence against `parse_sequence` of a registry with the same names and rules, built once or in the call.

use crate::answer::{Lent, Record, head};
use crate::book::{Shelf, rule_of};
use crate::parser::clause::{ClauseRegistry, ClauseRegistryBuilder};
use crate::request::Request;
use crate::{Report, calls, ours, without_backslashes};
use std::hint::black_box;

/// Clauses as they stand in programs, bare and with an argument.
pub const TYPICAL: [&str; 6] = ["nowait", "private(i, j)", "if(n > 1)", "reduction(+ : total)", "schedule(static, 4)", "shared(a[0:n], b)"];

/// A clause of four bytes: 4,000 of them fit a text.
const SHORT: [&str; 1] = ["a(b)"];

/// Clauses of Fortran with paths that end in a backslash.
const PATHS: [&str; 2] = ["private('c:\\data\\', x)", "shared(\"\\\", 'it''s')"];

/// The shortest of them.
const QUOTES: [&str; 1] = ["a('\\')"];

/// Three directives and ten clauses, default Flexible, for C.
pub fn small_book() -> Vec<u8> {
    let mut book = vec![b'D', b'R', b'B', 0, 1, 0, 2, 3, 10];
    for name in ["parallel", "parallel for", "for"] {
        book.push(name.len() as u8);
        book.extend_from_slice(name.as_bytes());
    }
    let bare = [(0u8, "nowait")];
    let parenthesized = ["private", "if", "reduction", "schedule", "shared", "num_threads", "collapse", "default"].map(|name| (1u8, name));
    for (rule, name) in bare.into_iter().chain(parenthesized).chain([(2, "a")]) {
        book.extend_from_slice(&[rule, name.len() as u8]);
        book.extend_from_slice(name.as_bytes());
    }
    book
}

pub fn openmp_book(folder: &str) -> Vec<u8> {
    std::fs::read(format!("{folder}/openmp.drb")).expect("books/openmp.drb")
}

/// The book with other flags: 1 ignores case, 2 lets words run together.
pub fn with_flags(mut book: Vec<u8>, flags: u8) -> Vec<u8> {
    book[5] = flags;
    book
}

/// Of the OpenMP names 40 directives and 60 clauses, at even distances, with those that the texts here have.
pub fn typical_book(folder: &str) -> Vec<u8> {
    let whole = openmp_book(folder);
    let mut book = whole[..7].to_vec();
    book.extend_from_slice(&[40, 60]);
    for (lead, size) in [(0, 40), (1, 60)] {
        book.extend(spread(&entries(&whole, lead), lead, size).concat());
    }
    book
}

/// The entries of a book's directives, where no byte leads, or of its clauses, where one does.
fn entries(book: &[u8], lead: usize) -> Vec<&[u8]> {
    let mut at = 9;
    let mut list = Vec::new();
    for (kind, count) in [(0, book[7]), (1, book[8])] {
        for _ in 0..count {
            let start = at;
            at += kind + 1 + usize::from(book[start + kind]);
            if kind == lead {
                list.push(&book[start..at]);
            }
        }
    }
    list
}

/// So many of the entries in their order: those whose names are used, and others at even distances.
fn spread<'a>(entries: &[&'a [u8]], lead: usize, size: usize) -> Vec<&'a [u8]> {
    let clauses = TYPICAL.iter().map(|clause| clause.split('(').next().unwrap_or(clause));
    let used: Vec<&[u8]> = ["parallel", "parallel for", "for"].into_iter().chain(clauses).map(str::as_bytes).collect();
    let mut kept: Vec<bool> = entries.iter().map(|entry| used.contains(&&entry[lead + 1..])).collect();
    let others: Vec<usize> = (0..entries.len()).filter(|&i| !kept[i]).collect();
    let wanted = size + others.len() - entries.len();
    for k in 0..wanted {
        kept[others[k * others.len() / wanted]] = true;
    }
    entries.iter().zip(kept).filter(|(_, kept)| *kept).map(|(entry, _)| *entry).collect()
}

/// Clauses in a call that reads many sequences, of which it reads two at least.
const MANY: usize = 1_000;

pub fn rows(report: &Report, folder: &str) {
    let books = [("small book", small_book()), ("typical book", typical_book(folder)), ("openmp.drb", openmp_book(folder))];
    report.heading("clause sequence against parse_sequence, book checked in the call, registry built in the call", "Rust ns");
    for (title, book) in &books {
        for count in [1, 10, 500] {
            row_from_names(report, &format!("sequence {count}, registry built, {title}"), book, &clauses(&TYPICAL, 0, count, " "), count);
        }
        row_from_names(report, &format!("sequence 4000, registry built, {title}"), book, &clauses(&SHORT, 0, 4_000, ""), 4_000);
    }
    report.heading("the same by the sequence, 1,000 clauses a call or two sequences, under one check of the book, registry built once", "Rust ns");
    for (title, book) in &books {
        for count in [1, 10, 500] {
            many_row(report, &format!("sequences {count}, {title}"), book, |turn| clauses(&TYPICAL, turn, count, " "), count);
        }
        many_row(report, &format!("sequences 4000, {title}"), book, |_| clauses(&SHORT, 0, 4_000, ""), 4_000);
    }
    report.heading("the same, written in upper case, names read with case ignored", "Rust ns");
    let book = with_flags(openmp_book(folder), 1);
    for count in [1, 10, 500] {
        many_row(report, &format!("sequences {count}, case ignored, openmp.drb"), &book, |turn| clauses(&TYPICAL, turn, count, " ").to_uppercase(), count);
    }
    report.heading("clauses of Fortran with paths, book checked in the call, against parse_sequence of a registry built before, without backslashes", "Rust ns");
    let book = with_flags(small_book(), 1);
    for count in [10, 250, 500] {
        row(report, &format!("sequence {count} paths, Fortran"), &book, &clauses(&PATHS, 0, count, " "), count);
    }
    for count in [1_000, 2_000] {
        row(report, &format!("sequence {count} shortest literals, Fortran"), &book, &clauses(&QUOTES, 0, count, ""), count);
    }
    report.heading("what one check costs: a clause sequence a call, book checked in it, beside parse_sequence of a registry built before", "Rust ns");
    for (title, book) in &books {
        for count in [1, 10, 500, 1_000] {
            row(report, &format!("sequence {count} clauses, {title}"), book, &clauses(&TYPICAL, 0, count, " "), count);
        }
        for count in [500, 2_000, 4_000] {
            row(report, &format!("sequence {count} short clauses, {title}"), book, &clauses(&SHORT, 0, count, ""), count);
        }
    }
}

/// So many clauses, each kind in its turn, the first by a turn.
fn clauses(kinds: &[&str], turn: usize, count: usize, between: &str) -> String {
    let list: Vec<&str> = kinds.iter().copied().cycle().skip(turn % kinds.len()).take(count).collect();
    list.join(between)
}

/// The record slots as the oracle lists them.
pub fn listed(records: &[ours::ClauseRecord]) -> String {
    let mut lent = Lent::new(records.len());
    lent.keep(&records.iter().map(record_of).collect::<Vec<Record>>());
    lent.listed()
}

fn record_of(record: &ours::ClauseRecord) -> Record {
    Record {
        name_start: record.name_start,
        name_end: record.name_end,
        entry: record.entry,
        parenthesized: record.parenthesized,
        content_start: record.content_start,
        content_end: record.content_end,
        preceded: record.preceded,
        trailing: record.trailing,
    }
}

/// What is lent for a sequence: as many slots as its clauses take, since clearing more would be measured otherwise.
struct Slots {
    records: Vec<ours::ClauseRecord>,
    rest: [u64; 1],
}

/// A text as the Rust is asked for it.
fn for_rust(book: &[u8], text: &str) -> String {
    if book[5] % 2 == 1 { without_backslashes(text) } else { text.to_string() }
}

/// The slots, once our call has answered as the oracle does.
fn agreed(name: &str, shelf: &mut Shelf, book: &[u8], text: &str, count: usize) -> Slots {
    let request = Request::Sequence { slots: count, book: book.to_vec(), text: for_rust(book, text).into_bytes() };
    let expected = calls::answer(&request, shelf).expect("an oracle that agrees with itself");
    let mut lent = Slots { records: vec![ours::ClauseRecord::BEFORE; count], rest: [u64::MAX] };
    let answer = ours::sequence(book, text.as_bytes(), &mut lent.records, &mut lent.rest);
    let answered = format!("{} : {}", head(&Ok(vec![answer as usize, lent.rest[0] as usize])), listed(&lent.records));
    assert_eq!(answered, expected, "{name}");
    assert_eq!((answer as usize, lent.rest[0] as usize), (count, text.len()), "{name}");
    lent
}

fn row(report: &Report, name: &str, book: &[u8], text: &str, count: usize) {
    if !report.wants(name) {
        return;
    }
    let mut shelf = Shelf::default();
    let mut lent = agreed(name, &mut shelf, book, text, count);
    let registry = &shelf.book(book).expect("a valid book").clause_registry;
    let asked = for_rust(book, text);
    report.row(
        name,
        text.len(),
        || ours::sequence(book, black_box(text.as_bytes()), &mut lent.records, &mut lent.rest) as usize,
        || parsed(registry, black_box(&asked)),
    );
}

/// The same against the Rust of a caller who has the book's names and rules, and no registry yet.
fn row_from_names(report: &Report, name: &str, book: &[u8], text: &str, count: usize) {
    if !report.wants(name) {
        return;
    }
    let mut shelf = Shelf::default();
    let mut lent = agreed(name, &mut shelf, book, text, count);
    let names = &shelf.book(book).expect("a valid book").clauses;
    let rules: Vec<u8> = entries(book, 1).iter().map(|entry| entry[0]).collect();
    report.row(
        name,
        text.len(),
        || ours::sequence(black_box(book), black_box(text.as_bytes()), &mut lent.records, &mut lent.rest) as usize,
        || parsed(&registry_of(book[6], black_box(names), &rules), black_box(text)),
    );
}

fn many_row(report: &Report, name: &str, book: &[u8], text: impl Fn(usize) -> String, count: usize) {
    if !report.wants(name) {
        return;
    }
    let mut shelf = Shelf::default();
    let many = (MANY / count).max(2);
    let texts: Vec<String> = (0..many).map(text).collect();
    for text in &texts {
        agreed(name, &mut shelf, book, text, count);
    }
    let whole = texts.concat();
    let ends: Vec<usize> = texts.iter().scan(0, |end, text| { *end += text.len(); Some(*end) }).collect();
    let mut answers = vec![[u64::MAX; 2]; many];
    assert_eq!(ours::sequences(book, whole.as_bytes(), &ends, count, &mut answers) as usize, many, "{name}");
    let expected = texts.iter().map(|text| [count as u64, text.len() as u64]);
    assert!(answers.iter().copied().eq(expected), "{name}");
    let registry = &shelf.book(book).expect("a valid book").clause_registry;
    report.row_of(
        name,
        whole.len() / many,
        many,
        || ours::sequences(book, black_box(whole.as_bytes()), &ends, count, &mut answers) as usize,
        || texts.iter().map(|text| parsed(registry, black_box(text))).sum(),
    );
}

fn registry_of(default: u8, names: &[&'static str], rules: &[u8]) -> ClauseRegistry {
    let mut registry = ClauseRegistryBuilder::new().with_default_rule(rule_of(default));
    for (name, rule) in names.iter().zip(rules) {
        registry.register_with_rule_mut(name, rule_of(*rule));
    }
    registry.build()
}

fn parsed(registry: &ClauseRegistry, text: &str) -> usize {
    registry.parse_sequence(text).map_or(0, |(_, clauses)| black_box(clauses).len())
}
