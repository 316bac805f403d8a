//! The book: its format read off document 01's sentences, and the registries that the published parsers read it from.

use crate::parser::clause::{ClauseRegistry, ClauseRegistryBuilder, ClauseRule};
use crate::parser::directive::{DirectiveRegistry, DirectiveRegistryBuilder};
use std::collections::HashSet;

const MARK_AND_VERSION: &[u8] = b"DRB\x00\x01";
const HEADER: usize = 9;

/// The least book: what a beginning is filled up with.
const LEAST_HEADER: [u8; HEADER] = [b'D', b'R', b'B', 0, 1, 0, 0, 1, 0];

/// An entry and the place of its first byte.
struct Entry<'a> {
    at: usize,
    rule: u8,
    name: &'a str,
}

struct Entries<'a> {
    directives: Vec<Entry<'a>>,
    clauses: Vec<Entry<'a>>,
}

/// The entries of a book, or nothing if the bytes aren't one. Repeats are let pass.
fn entries(bytes: &[u8]) -> Option<Entries<'_>> {
    let header = bytes.get(..HEADER)?;
    if !header.starts_with(MARK_AND_VERSION) || header[5] > 3 || header[6] > 3 || header[7] == 0 {
        return None;
    }
    let mut at = HEADER;
    let mut directives = Vec::new();
    for _ in 0..header[7] {
        let name = name_at(bytes, at).filter(|name| name.split(' ').all(is_word))?;
        directives.push(Entry { at, rule: 0, name });
        at += 1 + name.len();
    }
    let mut clauses = Vec::new();
    for _ in 0..header[8] {
        let rule = *bytes.get(at).filter(|rule| **rule <= 3)?;
        let name = name_at(bytes, at + 1).filter(|name| is_word(name))?;
        clauses.push(Entry { at, rule, name });
        at += 2 + name.len();
    }
    (at == bytes.len()).then_some(Entries { directives, clauses })
}

/// The name behind a length byte.
fn name_at(bytes: &[u8], at: usize) -> Option<&str> {
    let length = usize::from(*bytes.get(at)?);
    if !(1..=64).contains(&length) {
        return None;
    }
    std::str::from_utf8(bytes.get(at + 1..at + 1 + length)?).ok()
}

fn is_word(word: &str) -> bool {
    !word.is_empty() && word.bytes().all(|b| b.is_ascii_alphanumeric() || b == b'_')
}

/// A beginning filled up to its announced end with the most harmless bytes: letters in names, least lengths, rule 0. If any
/// book begins with these bytes then this one is a book, since no later byte makes an earlier one good.
fn filled_up(beginning: &[u8]) -> Vec<u8> {
    let mut book = beginning.to_vec();
    let mut byte_at = |at: usize, harmless: u8| {
        if at == book.len() {
            book.push(harmless);
        }
        book[at]
    };
    for (at, harmless) in LEAST_HEADER.into_iter().enumerate() {
        byte_at(at, harmless);
    }
    let (directives, clauses) = (byte_at(7, 1), byte_at(8, 0));
    let mut at = HEADER;
    for entry in 0..u16::from(directives) + u16::from(clauses) {
        if entry >= u16::from(directives) {
            byte_at(at, 0);
            at += 1;
        }
        let length = usize::from(byte_at(at, 1));
        for letter in 1..=length {
            byte_at(at + letter, b'x');
        }
        at += 1 + length;
    }
    book
}

fn begins_a_book(bytes: &[u8]) -> bool {
    entries(&filled_up(bytes)).is_some()
}

/// How many bytes, at most, begin a book. A beginning of a beginning is one, so halving finds it.
fn longest_beginning(bytes: &[u8]) -> usize {
    let (mut good, mut bad) = (0, bytes.len() + 1);
    while bad - good > 1 {
        let middle = good + (bad - good) / 2;
        if begins_a_book(&bytes[..middle]) {
            good = middle;
        } else {
            bad = middle;
        }
    }
    good
}

/// The first entry with a name that an earlier one has, case aside.
fn first_repeat(entries: &[Entry]) -> Option<usize> {
    entries.iter().enumerate().find_map(|(index, later)| {
        entries[..index]
            .iter()
            .any(|earlier| earlier.name.eq_ignore_ascii_case(later.name))
            .then_some(later.at)
    })
}

/// Row 4 of the table. A cut book's beginning is the whole of it, so its place is the end.
fn checked(bytes: &[u8]) -> Result<Entries<'_>, usize> {
    let Some(entries) = entries(bytes) else {
        return Err(longest_beginning(bytes));
    };
    match first_repeat(&entries.directives).or_else(|| first_repeat(&entries.clauses)) {
        Some(place) => Err(place),
        None => Ok(entries),
    }
}

/// A valid book as the published parsers know it.
pub struct Book {
    pub fortran: bool,
    /// The default rule is Unsupported.
    pub strict: bool,
    pub directives: Vec<&'static str>,
    pub clauses: Vec<&'static str>,
    pub directive_registry: DirectiveRegistry,
    pub clause_registry: ClauseRegistry,
}

impl Book {
    fn new(bytes: &[u8], entries: &Entries, names: &mut Names) -> Self {
        let fortran = bytes[5] & 1 == 1;
        let mut directives = DirectiveRegistryBuilder::new();
        for entry in &entries.directives {
            directives = directives.register_generic(names.lasting(entry.name));
        }
        let mut clauses = ClauseRegistryBuilder::new().with_default_rule(rule_of(bytes[6]));
        for entry in &entries.clauses {
            clauses.register_with_rule_mut(names.lasting(entry.name), rule_of(entry.rule));
        }
        let mut all_of = |list: &[Entry]| list.iter().map(|entry| names.lasting(entry.name)).collect();
        Self {
            fortran,
            strict: bytes[6] == 3,
            directives: all_of(&entries.directives),
            clauses: all_of(&entries.clauses),
            directive_registry: directives
                .build()
                .with_case_insensitive(fortran)
                .with_optional_keyword_whitespace(bytes[5] & 2 == 2),
            clause_registry: clauses.build().with_case_insensitive(fortran),
        }
    }
}

pub fn rule_of(byte: u8) -> ClauseRule {
    match byte {
        0 => ClauseRule::Bare,
        1 => ClauseRule::Parenthesized,
        2 => ClauseRule::Flexible,
        _ => ClauseRule::Unsupported,
    }
}

/// The registries want names that last. Each is kept once for the whole run.
#[derive(Default)]
struct Names(HashSet<&'static str>);

impl Names {
    fn lasting(&mut self, name: &str) -> &'static str {
        if let Some(kept) = self.0.get(name) {
            return kept;
        }
        let kept: &'static str = Box::leak(name.into());
        self.0.insert(kept);
        kept
    }
}

/// The book last asked for stays open.
#[derive(Default)]
pub struct Shelf {
    names: Names,
    open: Option<(Vec<u8>, Result<Book, usize>)>,
}

impl Shelf {
    /// The book, or the place of its fault.
    pub fn book(&mut self, bytes: &[u8]) -> Result<&Book, usize> {
        if self.open.as_ref().is_none_or(|(open, _)| open != bytes) {
            let book = checked(bytes).map(|entries| Book::new(bytes, &entries, &mut self.names));
            self.open = Some((bytes.to_vec(), book));
        }
        let (_, book) = self.open.as_ref().expect("opened above");
        book.as_ref().map_err(|place| *place)
    }
}
