//! A call with its inputs, and the slots that it is lent: what the hostile rows, the search for worse ones and the measure of the stack share.

use crate::ours::{self, ClauseRecord};

/// An exported call, with the numbers that it takes.
#[derive(Clone, Copy, PartialEq, Debug)]
pub enum Call {
    Trim,
    Split { language: u32, colon: bool, angles: bool },
    Join { language: u32 },
    MapBack,
    Copy,
    Book,
    Sequence,
    Line { language: u32 },
    Lines { language: u32 },
    Sequences,
}

impl Call {
    /// The name that it is exported by, without what all of them begin with.
    pub fn name(self) -> &'static str {
        match self {
            Call::Trim => "trim",
            Call::Split { .. } => "split",
            Call::Join { .. } => "join",
            Call::MapBack => "map_back",
            Call::Copy => "copy",
            Call::Book => "check_book",
            Call::Sequence => "sequence",
            Call::Line { .. } => "line",
            Call::Lines { .. } => "lines",
            Call::Sequences => "sequences",
        }
    }
}

/// What a call reads. Many lines or texts are cut at the ends.
#[derive(Clone)]
pub struct Input {
    pub call: Call,
    pub book: Vec<u8>,
    pub text: Vec<u8>,
    pub ends: Vec<usize>,
}

impl Input {
    pub fn of_text(call: Call, text: Vec<u8>) -> Self {
        Self {
            call,
            book: Vec::new(),
            text,
            ends: Vec::new(),
        }
    }

    /// All bytes that the call is given to read; an end counts as the bytes of its number.
    pub fn bytes(&self) -> usize {
        self.book.len() + self.text.len() + 8 * self.ends.len()
    }
}

/// The slots: as many as any text of the longest length can need.
pub struct Slots {
    text: Vec<u8>,
    map: Vec<u16>,
    items: Vec<u16>,
    records: Vec<ClauseRecord>,
    lines: Vec<[u64; 5]>,
    sequences: Vec<[u64; 2]>,
}

impl Slots {
    pub fn new(longest: usize) -> Self {
        Self {
            text: vec![170; longest],
            map: vec![43_690; longest + 1],
            items: vec![43_690; longest + 2],
            records: vec![ClauseRecord::BEFORE; longest / 2 + 1],
            lines: vec![[1; 5]; longest],
            sequences: vec![[1; 2]; longest],
        }
    }

    /// The call's answer. It is lent what the longest answer to a text of this length takes: clearing more would be measured otherwise.
    pub fn answer(&mut self, input: &Input) -> u64 {
        let Input { call, book, text, ends } = input;
        let size = text.len();
        let records = size / 2 + 1;
        match *call {
            Call::Trim => ours::trim(text, &mut [0; 2]),
            Call::Split {
                language,
                colon,
                angles,
            } => ours::split(text, language, colon, angles, &mut self.items[..size + 2]),
            Call::Join { language } => ours::join(language, text, &mut self.text[..size], &mut self.map[..=size]),
            Call::MapBack => ours::map_back(&self.map, size, size / 3, size / 2, &mut [0; 2]),
            Call::Copy => ours::copy(text, &mut self.text[..size]),
            Call::Book => ours::check_book(book),
            Call::Sequence => ours::sequence(book, text, &mut self.records[..records], &mut [0]),
            Call::Line { language } => ours::line(
                language,
                book,
                text,
                &mut self.text[..size],
                &mut self.map[..=size],
                &mut self.records[..records],
                &mut [0; 4],
            ),
            Call::Lines { language } => {
                let (joined, map, answers) = (
                    &mut self.text[..size],
                    &mut self.map[..=size],
                    &mut self.lines[..ends.len()],
                );
                ours::lines(language, book, text, ends, joined, map, records, answers)
            }
            Call::Sequences => ours::sequences(book, text, ends, records, &mut self.sequences[..ends.len()]),
        }
    }
}

/// A book with the same names for directives and for clauses; every clause is Flexible.
pub fn book(flags: u8, default: u8, directives: &[String], clauses: &[String]) -> Vec<u8> {
    let mut book = vec![
        b'D',
        b'R',
        b'B',
        0,
        1,
        flags,
        default,
        directives.len() as u8,
        clauses.len() as u8,
    ];
    for (lead, names) in [(&[][..], directives), (&[2][..], clauses)] {
        for name in names {
            book.extend_from_slice(lead);
            book.push(name.len() as u8);
            book.extend_from_slice(name.as_bytes());
        }
    }
    book
}

/// Bytes as one can read them: those that print as they are, the others by their names or numbers.
pub fn readable(bytes: &[u8]) -> String {
    let names = [(9, "TAB"), (10, "LF"), (11, "VT"), (12, "FF"), (13, "CR"), (92, "BS")];
    let mut words: Vec<String> = Vec::new();
    let mut open = false;
    for &byte in bytes {
        let name = names
            .iter()
            .find(|(named, _)| *named == byte)
            .map(|(_, name)| name.to_string());
        let other = (!(32..127).contains(&byte)).then(|| format!("byte {byte}"));
        match name.or(other) {
            Some(word) => {
                words.push(word);
                open = false;
            }
            None if open => words.last_mut().expect("an open word").push(byte as char),
            None => {
                words.push((byte as char).to_string());
                open = true;
            }
        }
    }
    let quoted = words.into_iter().map(|word| {
        if word.len() > 1 && names.iter().any(|(_, name)| *name == word) || word.starts_with("byte ") {
            word
        } else {
            format!("`{word}`")
        }
    });
    quoted.collect::<Vec<_>>().join(" ")
}
