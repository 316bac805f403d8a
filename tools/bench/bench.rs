//! Times Pelzurda's calls beside the published Rust's on the same inputs. Both answer every input first, and must agree on it.
#![allow(dead_code)]

mod answer;
mod book;
mod calls;
mod request;

mod delimiter;
mod lexer;
mod parser;
mod source;

mod books;
mod hostile;
mod joins;
mod lines;
mod ours;
mod sequences;
mod splits;
mod timing;
mod work;

use timing::{Time, measure};

/// The rows whose names start with a wanted word, measured and printed one by one.
pub struct Report {
    wanted: Vec<String>,
}

impl Report {
    pub fn wants(&self, name: &str) -> bool {
        self.wanted.is_empty() || self.wanted.iter().any(|word| name.starts_with(word.as_str()))
    }

    pub fn heading(&self, title: &str, other: &str) {
        println!("\n{title}\n{:<44} {:>7} {:>10} {:>10} {:>7} {:>7} {:>10}", "", "bytes", "ours ns", other, "ratio", "least", "ns a byte");
    }

    /// The ratio of the medians, the ratio of the least times, and ours by the byte.
    pub fn row(&self, name: &str, bytes: usize, ours: impl FnMut() -> usize, theirs: impl FnMut() -> usize) {
        self.row_of(name, bytes, 1, ours, theirs);
    }

    /// The same for calls that do so many pieces of work, by the piece.
    pub fn row_of(&self, name: &str, bytes: usize, pieces: usize, ours: impl FnMut() -> usize, theirs: impl FnMut() -> usize) {
        let (ours, theirs): (Time, Time) = measure(ours, theirs);
        println!(
            "{name:<44} {bytes:>7} {:>10.0} {:>10.0} {:>7.2} {:>7.2} {:>10.2}",
            ours.median / pieces as f64,
            theirs.median / pieces as f64,
            ours.median / theirs.median,
            ours.least / theirs.least,
            ours.median / (pieces * bytes) as f64
        );
    }
}

/// A pattern over and over, so many bytes of it.
pub fn repeated(pattern: &str, bytes: usize) -> String {
    pattern.chars().cycle().take(bytes).collect()
}

/// A text of Fortran for the Rust, which knows C's escapes alone: a byte that never means anything in the place of each backslash.
pub fn without_backslashes(text: &str) -> String {
    text.replace('\\', "~")
}

fn load() -> String {
    std::fs::read_to_string("/proc/loadavg").map_or("unknown".into(), |line| line.split(' ').take(3).collect::<Vec<_>>().join(" "))
}

fn main() {
    let mut arguments = std::env::args().skip(1);
    let books_folder = arguments.next().expect("bench BOOKS [ROW..]");
    let report = Report { wanted: arguments.collect() };
    println!("load before: {}", load());
    joins::rows(&report);
    splits::rows(&report);
    books::rows(&report, &books_folder);
    sequences::rows(&report, &books_folder);
    lines::rows(&report, &books_folder);
    hostile::rows(|name| report.wants(name));
    println!("\nload after: {}", load());
}
