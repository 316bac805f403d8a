//! The split against `split_top_level`, trim against `str::trim`.

use crate::delimiter::{CommentStyle, split_top_level};
use crate::{Report, ours, repeated, without_backslashes};
use std::hint::black_box;

const PLAIN: [(char, char); 3] = [('(', ')'), ('[', ']'), ('{', '}')];
const ANGLES: [(char, char); 4] = [('(', ')'), ('[', ']'), ('{', '}'), ('<', '>')];
const LIST: &str = "count, data[0:n], f(x, y), \"a,b\", ";
const PATHS: &str = "'c:\\data\\', x, \"it's\", 'it''s', ";

/// A language, a separator, angles.
type Way = (u32, char, bool);

const COMMAS: Way = (ours::C, ',', false);
const COLONS: Way = (ours::C, ':', false);
const ANGLED: Way = (ours::C, ',', true);
const FORTRAN: Way = (ours::FORTRAN_FREE, ',', false);

pub fn rows(report: &Report) {
    report.heading("split against split_top_level", "Rust ns");
    for (name, bytes) in [("short", 60), ("typical", 400), ("half", 8_192), ("full", 16_384)] {
        row(report, &format!("split {name}"), &ended(LIST, bytes), COMMAS);
    }
    row(report, "split many items", &ended("a,", 16_384), COMMAS);
    row(report, "split one long item", &ended("abcdefgh", 16_384), COMMAS);
    row(report, "split deep nesting, 256", &nested(256, 1), COMMAS);
    row(report, "split deep nesting, full", &nested(256, 31), COMMAS);
    row(report, "split blanks", &ended("a                              ,", 16_384), COMMAS);
    row(report, "split colons, typical", &ended("a : b ? c : d : e::f : ", 400), COLONS);
    row(report, "split colons, full", &ended("a : b ? c : d : e::f : ", 16_384), COLONS);
    row(report, "split angles, typical", &ended("v<int, 3>, w<x, y<1, 2>>, ", 400), ANGLED);
    row(report, "split angles, full", &ended("v<int, 3>, w<x, y<1, 2>>, ", 16_384), ANGLED);
    row(report, "split literals and comments", &ended("\"a, b\" /* c, d */ 'e', ", 16_384), COMMAS);
    row(report, "split escapes", &ended("\"a\\\"b\", '\\\\', ", 16_384), COMMAS);
    report.heading("split of Fortran, against split_top_level of the same text without backslashes", "Rust ns");
    for (name, bytes) in [("typical", 400), ("half", 8_192), ("full", 16_384)] {
        row(report, &format!("split Fortran, paths, {name}"), &ended(PATHS, bytes), FORTRAN);
    }
    for (name, bytes) in [("half", 8_192), ("full", 16_384)] {
        row(report, &format!("split Fortran, short literals, {name}"), &ended("'\\',", bytes), FORTRAN);
        row(report, &format!("split Fortran, quotes, {name}"), &"'".repeat(bytes), FORTRAN);
        row(report, &format!("split Fortran, backslashes, {name}"), &format!("'{}'", "\\".repeat(bytes - 2)), FORTRAN);
    }
    report.heading("trim against str::trim", "Rust ns");
    trim_row(report, "trim", &format!("  \t{}\n   ", repeated(LIST, 400)));
}

/// The pattern as often as it fits, with an item behind it.
fn ended(pattern: &str, bytes: usize) -> String {
    let whole = (bytes - 1) / pattern.len() * pattern.len();
    repeated(pattern, whole) + &"z".repeat(bytes - whole)
}

/// So many items, each inside so many brackets.
fn nested(depth: usize, items: usize) -> String {
    vec!["(".repeat(depth) + "x, y" + &")".repeat(depth); items].join(", ")
}

fn row(report: &Report, name: &str, text: &str, (language, separator, angles): Way) {
    if !report.wants(name) {
        return;
    }
    let pairs: &[(char, char)] = if angles { &ANGLES } else { &PLAIN };
    let asked = if language == ours::C { text.to_string() } else { without_backslashes(text) };
    let theirs = || split_top_level(black_box(&asked), separator, pairs, CommentStyle::Block);
    let expected: Vec<u16> = theirs().unwrap_or_else(|error| panic!("{name}: {error:?}")).iter().flat_map(|part| ends(&asked, part)).collect();
    // As many slots as the items take: clearing slots that nobody asked for would be measured otherwise.
    let mut items = vec![43_690u16; expected.len()];
    let count = ours::split(text.as_bytes(), language, separator == ':', angles, &mut items);
    assert_eq!((2 * count as usize, &items), (expected.len(), &expected), "{name}");
    report.row(
        name,
        text.len(),
        || ours::split(black_box(text.as_bytes()), language, separator == ':', angles, &mut items) as usize,
        || theirs().map_or(0, |parts| black_box(parts).len()),
    );
}

/// Where a part of a text starts and ends.
fn ends(text: &str, part: &str) -> [u16; 2] {
    let start = part.as_ptr() as usize - text.as_ptr() as usize;
    [start as u16, (start + part.len()) as u16]
}

fn trim_row(report: &Report, name: &str, text: &str) {
    if !report.wants(name) {
        return;
    }
    let mut range = [0u64; 2];
    assert_eq!(ours::trim(text.as_bytes(), &mut range) as usize, text.trim().len(), "{name}");
    report.row(
        name,
        text.len(),
        || ours::trim(black_box(text.as_bytes()), &mut range) as usize,
        || black_box(text).trim().len(),
    );
}
