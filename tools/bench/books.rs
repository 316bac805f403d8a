//! The book check, which the Rust has not: beside it stands one pass over the same bytes that sums them. And the lookup of a clause's name.

use crate::sequences::{openmp_book, small_book};
use crate::{Report, ours};
use std::hint::black_box;

pub fn rows(report: &Report, folder: &str) {
    report.heading("book check beside a sum of the same bytes", "sum ns");
    row(report, "book small, 3 and 10 names", &small_book());
    row(report, "book typical, 40 and 60 names", &book(40, 60, typical_name));
    row(report, "book full, 255 and 255 names", &book(255, 255, typical_name));
    row(report, "book full, names of one length", &book(255, 255, |i| format!("directive_name_{i:03}")));
    row(report, "book full, names of 64 differ first", &book(255, 255, |i| format!("{i:03}{}", "x".repeat(61))));
    row(report, "book full, names of 64 differ in the middle", &book(255, 255, |i| format!("{}{i:03}{}", "x".repeat(30), "x".repeat(31))));
    row(report, "book full, names in upper case", &book(255, 255, |i| typical_name(i).to_uppercase()));
    row(report, "book full, one signature, mixed case", &book(255, 255, mixed_name));
    let openmp = openmp_book(folder);
    row(report, "book openmp.drb", &openmp);
    report.heading("500 clauses with a book's last name beside its first; as bytes count the entries between", "first ns");
    lookup(report, "lookup typical, 60 names", &book(40, 60, typical_name));
    lookup(report, "lookup full, 255 names", &book(255, 255, typical_name));
    lookup(report, "lookup full, names of one length", &book(255, 255, |i| format!("directive_name_{i:03}")));
    lookup(report, "lookup openmp.drb", &openmp);
}

/// Names of 4 to 19 letters, no two alike.
fn typical_name(i: usize) -> String {
    let mut state = i as u64 * 0x9e37_79b9_7f4a_7c15 + 1;
    let mut letter = || {
        state = state.wrapping_mul(6_364_136_223_846_793_005).wrapping_add(1_442_695_040_888_963_407);
        (b'a' + (state >> 33) as u8 % 26) as char
    };
    let stem: String = (0..2 + i % 16).map(|_| letter()).collect();
    format!("{stem}{}{}", (b'a' + (i / 26) as u8) as char, (b'a' + (i % 26) as u8) as char)
}

/// Names of 64 letters with the same sum and the same sum of sums, which differ in their first half and in the case of their letters.
fn mixed_name(i: usize) -> String {
    let letters = (0..16).flat_map(|block| if i >> block & 1 == 0 { ['a', 'b', 'b', 'a'] } else { ['b', 'a', 'a', 'b'] });
    let cased = letters.enumerate().map(|(place, letter)| if (i + place) % 3 == 0 { letter.to_ascii_uppercase() } else { letter });
    cased.collect()
}

/// A book with the same names for directives and for clauses, as far as each kind goes.
fn book(directives: u8, clauses: u8, name: impl Fn(usize) -> String) -> Vec<u8> {
    let mut book = vec![b'D', b'R', b'B', 0, 1, 0, 2, directives, clauses];
    for i in 0..usize::from(directives) {
        entry(&mut book, &[], &name(i));
    }
    for i in 0..usize::from(clauses) {
        entry(&mut book, &[2], &name(i));
    }
    book
}

fn entry(book: &mut Vec<u8>, lead: &[u8], name: &str) {
    book.extend_from_slice(lead);
    book.push(name.len() as u8);
    book.extend_from_slice(name.as_bytes());
}

fn sum(book: &[u8]) -> usize {
    book.iter().fold(0usize, |sum, &byte| sum.wrapping_add(usize::from(byte)))
}

fn row(report: &Report, name: &str, book: &[u8]) {
    if !report.wants(name) {
        return;
    }
    assert_eq!(ours::check_book(book), 0, "{name}");
    report.row(name, book.len(), || ours::check_book(black_box(book)) as usize, || sum(black_box(book)));
}

const LOOKUPS: usize = 500;

/// A clause of each entry, as its rule has it.
fn clauses(book: &[u8]) -> Vec<String> {
    let mut at = (0..book[7]).fold(9, |at, _| at + 1 + usize::from(book[at]));
    let mut next = || {
        let start = at + 2;
        let rule = book[at];
        at = start + usize::from(book[start - 1]);
        let name = String::from_utf8_lossy(&book[start..at]);
        if rule == 1 { format!("{name}()") } else { name.into_owned() }
    };
    (0..book[8]).map(|_| next()).collect()
}

/// What the two sides differ by is the lookups, but for the bytes of longer names.
fn lookup(report: &Report, name: &str, book: &[u8]) {
    if !report.wants(name) {
        return;
    }
    let clauses = clauses(book);
    let last = clauses.len() - 1;
    let read = |text: &str| {
        let mut records = [ours::ClauseRecord::BEFORE; LOOKUPS];
        let count = ours::sequence(book, black_box(text.as_bytes()), &mut records, &mut [0]);
        assert_eq!(count as usize, LOOKUPS, "{name}");
        usize::from(records[LOOKUPS - 1].entry)
    };
    let texts = [last, 0].map(|entry| vec![clauses[entry].as_str(); LOOKUPS].join(" "));
    assert_eq!(texts.each_ref().map(|text| read(text)), [last, 0], "{name}");
    report.row(name, LOOKUPS * last, || read(&texts[0]), || read(&texts[1]));
}
