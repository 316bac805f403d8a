//! Joining against `LogicalSource::new`, content copy against `collapse_line_continuations`, map-back against `span`.

use crate::lexer::{Language, LogicalSource, collapse_line_continuations, reach};
use crate::{Report, ours, repeated};
use std::hint::black_box;

const DIRECTIVE: &str = "#pragma omp target teams distribute map(to: a[0:n], b[0:n]) reduction(+ : sum) ";
const CLAUSES: &str = "map(to: a(1:n), b(1:n)) private(i, j) reduction(+ : total) schedule(static, 4) ";
const SIZES: [usize; 3] = [60, 400, 16_384];

/// The slots that the longest line takes.
const FULL: usize = 16_384;

pub fn rows(report: &Report) {
    report.heading("join against LogicalSource::new", "Rust ns");
    for bytes in SIZES {
        row(report, &format!("join C {bytes}, no break"), ours::C, &repeated(DIRECTIVE, bytes), bytes);
        row(report, &format!("join C {bytes}, a break every 80"), ours::C, &broken(bytes, 80.min(bytes / 2)), bytes);
        row(report, &format!("join C {bytes}, a break in every gap"), ours::C, &broken(bytes, 3), bytes);
        row(report, &format!("join free form {bytes}, lines of 80"), ours::FORTRAN_FREE, &free_form(bytes, 80.min(bytes / 2)), bytes);
    }
    for bytes in [60, 400] {
        row(report, &format!("join C {bytes}, no break, 16,384 slots"), ours::C, &repeated(DIRECTIVE, bytes), FULL);
    }
    report.heading("content copy against collapse_line_continuations, copied into a lent buffer", "Rust ns");
    for bytes in SIZES {
        copy_row(report, &format!("copy {bytes}, no break"), &repeated(CLAUSES, bytes));
        copy_row(report, &format!("copy {bytes}, a break every 80"), &broken(bytes, 80.min(bytes / 2)));
    }
    report.heading("map-back against span", "Rust ns");
    map_back_row(report, "back, line of 400 with breaks", &broken(400, 80));
}

/// Physical lines of C of so many bytes, each but the last with a break at its end.
fn broken(bytes: usize, line: usize) -> String {
    let mut text = String::new();
    let mut letters = DIRECTIVE.chars().cycle();
    while text.len() + line < bytes {
        text.extend(letters.by_ref().take(line - 2));
        text.push_str("\\\n");
    }
    let rest = bytes - text.len();
    text.extend(letters.take(rest));
    text
}

/// Lines of free form of so many bytes, continued by `&` at the end and `!$omp&` at the start.
fn free_form(bytes: usize, line: usize) -> String {
    let mut text = String::from("!$omp ");
    let mut letters = CLAUSES.chars().cycle();
    text.extend(letters.by_ref().take(line - 8));
    while text.len() + line + 2 < bytes {
        text.push_str("&\n!$omp&");
        text.extend(letters.by_ref().take(line - 8));
    }
    let rest = bytes - text.len();
    text.extend(letters.take(rest));
    text
}

fn language_of(language: u32) -> Language {
    if language == ours::C { Language::C } else { Language::FortranFree }
}

fn row(report: &Report, name: &str, language: u32, line: &str, slots: usize) {
    if !report.wants(name) {
        return;
    }
    assert!(line.len() <= slots);
    let (mut text, mut map) = (vec![170u8; slots], vec![43_690u16; slots + 1]);
    let length = ours::join(language, line.as_bytes(), &mut text, &mut map) as usize;
    let source = LogicalSource::new(line, language_of(language), "omp").expect("a line that joins");
    assert_eq!(text[..length], *source.text().as_bytes(), "{name}");
    let expected: Vec<u16> = reach::map_of(&source).iter().map(|&entry| entry as u16).collect();
    assert_eq!(map[..=length], expected, "{name}");
    assert!(text[length..].iter().all(|&slot| slot == 0) && map[length + 1..].iter().all(|&slot| slot == 0), "{name}");
    let mut spare = (text.clone(), map.clone());
    report.row(
        name,
        line.len(),
        || ours::join(language, black_box(line.as_bytes()), &mut text, &mut map) as usize,
        || {
            if slots > line.len() {
                // the caller of the Rust clears as many slots where more are lent than the line takes
                spare.0[line.len()..].fill(0);
                spare.1[line.len() + 1..].fill(0);
                black_box(&mut spare);
            }
            LogicalSource::new(black_box(line), language_of(language), "omp").map_or(0, |source| black_box(&source).text().len())
        },
    );
}

fn copy_row(report: &Report, name: &str, content: &str) {
    if !report.wants(name) {
        return;
    }
    let mut copy = vec![170u8; content.len()];
    let length = ours::copy(content.as_bytes(), &mut copy) as usize;
    assert_eq!(copy[..length], *collapse_line_continuations(content).as_bytes(), "{name}");
    let mut spare = copy.clone();
    report.row(
        name,
        content.len(),
        || ours::copy(black_box(content.as_bytes()), &mut copy) as usize,
        || {
            let collapsed = collapse_line_continuations(black_box(content));
            spare[..collapsed.len()].copy_from_slice(collapsed.as_bytes());
            black_box(&mut spare);
            collapsed.len()
        },
    );
}

fn map_back_row(report: &Report, name: &str, line: &str) {
    if !report.wants(name) {
        return;
    }
    let (mut text, mut map) = (vec![0u8; line.len()], vec![0u16; line.len() + 1]);
    let length = ours::join(ours::C, line.as_bytes(), &mut text, &mut map) as usize;
    let source = LogicalSource::new(line, Language::C, "omp").expect("a line that joins");
    let (start, end) = (length / 3, length / 2);
    let mut span = [0u64; 2];
    let theirs = |start, end| source.span(start..end).map_or(0, |span| span.start_byte() + span.end_byte());
    assert_eq!(ours::map_back(&map, length, start, end, &mut span), 0, "{name}");
    assert_eq!((span[0] + span[1]) as usize, theirs(start, end), "{name}");
    report.row(
        name,
        line.len(),
        || ours::map_back(&map, length, black_box(start), black_box(end), &mut span) as usize,
        || theirs(black_box(start), black_box(end)),
    );
}
