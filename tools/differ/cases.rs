//! A case is a request, perhaps with a law that ties its answer to the case before it.

use crate::laws::Law;
use std::fmt::Write;

#[derive(Clone, Copy, PartialEq, Eq)]
pub enum Call {
    Trim,
    Split,
    Join,
    Back,
    Copy,
    Book,
    Sequence,
    Line,
}

impl Call {
    pub const ALL: [Self; 8] = [
        Self::Trim,
        Self::Split,
        Self::Join,
        Self::Back,
        Self::Copy,
        Self::Book,
        Self::Sequence,
        Self::Line,
    ];

    pub fn word(self) -> &'static str {
        match self {
            Self::Trim => "trim",
            Self::Split => "split",
            Self::Join => "join",
            Self::Back => "back",
            Self::Copy => "copy",
            Self::Book => "book",
            Self::Sequence => "seq",
            Self::Line => "line",
        }
    }

    pub fn named(word: &str) -> Option<Self> {
        Self::ALL.into_iter().find(|call| call.word() == word)
    }

    /// A good request, to ask whether a program knows the call.
    pub fn simplest(self) -> &'static str {
        match self {
            Self::Trim => "trim -",
            Self::Split => "split c comma 0 0 -",
            Self::Join => "join c omp 0 1 -",
            Self::Back => "back 0 0 0 0",
            Self::Copy => "copy 0 -",
            Self::Book => "book -",
            Self::Sequence => "seq 0 - -",
            Self::Line => "line c omp 0 1 0 - -",
        }
    }

    /// What of an answer the published Rust doesn't give.
    pub fn added(self) -> &'static str {
        match self {
            Self::Trim => "bytes above 127",
            Self::Split => "refusals 1 2 13 14, places of 15 18, slots",
            Self::Join => "refusals 1 2 3, slots",
            Self::Back => "refusals 1 3, place of 19, falling entries",
            Self::Copy => "refusals 1 2 3, slots",
            Self::Book => "everything",
            Self::Sequence => "refusals 1 2 4 13 14, entries, slots",
            Self::Line => "refusals 1 to 5 13 14, entries, slots",
        }
    }
}

pub struct Case {
    pub request: String,
    pub law: Option<Law>,
}

impl From<String> for Case {
    fn from(request: String) -> Self {
        Self { request, law: None }
    }
}

/// Takes the cases of one call and counts them.
pub struct Sink<'a> {
    pub given: usize,
    take: &'a mut dyn FnMut(Case),
}

impl<'a> Sink<'a> {
    pub fn new(take: &'a mut dyn FnMut(Case)) -> Self {
        Self { given: 0, take }
    }

    pub fn give(&mut self, case: impl Into<Case>) {
        self.given += 1;
        (self.take)(case.into());
    }

    /// Two requests, the second's answer tied to the first's.
    pub fn give_pair(&mut self, first: String, second: String, law: Law) {
        self.give(first);
        self.give(Case {
            request: second,
            law: Some(law),
        });
    }
}

/// Bytes as a request has them.
pub fn hexadecimal(bytes: &[u8]) -> String {
    if bytes.is_empty() {
        return "-".to_string();
    }
    let mut digits = String::with_capacity(2 * bytes.len());
    for byte in bytes {
        write!(digits, "{byte:02x}").expect("a string takes all");
    }
    digits
}

/// A request's bytes; none if they aren't written as above.
pub fn bytes_of(word: &str) -> Option<Vec<u8>> {
    if word == "-" {
        return Some(Vec::new());
    }
    let digits: Option<Vec<u32>> = word.chars().map(|digit| digit.to_digit(16)).collect();
    let digits = digits.filter(|digits| digits.len() % 2 == 0)?;
    Some(digits.chunks(2).map(|pair| (pair[0] * 16 + pair[1]) as u8).collect())
}

/// The numbers of slots as an answer has them, without the zeros behind the last.
pub fn numbers(list: &str) -> Vec<usize> {
    let filled = list.rsplit_once('+').map_or(list, |(filled, _)| filled);
    filled.split(',').filter_map(|number| number.parse().ok()).collect()
}

/// Slots as an answer has them.
pub fn listed(values: &[usize], slots: usize) -> String {
    let filled = values.iter().rposition(|value| *value != 0).map_or(0, |last| last + 1);
    let numbers: Vec<String> = values[..filled].iter().map(usize::to_string).collect();
    format!("{}+{}", numbers.join(","), slots - filled)
}
