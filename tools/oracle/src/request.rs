//! Requests as words on a line. What doesn't parse within these limits is a bad request.

use crate::lexer::Language;

const MOST_BYTES: usize = 40_000;
const MOST_SLOTS: usize = 20_000;
const MOST_RECORDS: usize = 512;
const MOST_PLACE: usize = 100_000;

pub enum Request {
    Trim {
        text: Vec<u8>,
    },
    /// The published split knows no language: one is named, and no answer goes by it.
    Split {
        separator: char,
        angles: bool,
        slots: usize,
        text: Vec<u8>,
    },
    Join(Joining),
    Back {
        length: usize,
        start: usize,
        end: usize,
        map: Vec<u16>,
    },
    Copy {
        slots: usize,
        content: Vec<u8>,
    },
    Book {
        book: Vec<u8>,
    },
    Sequence {
        slots: usize,
        book: Vec<u8>,
        text: Vec<u8>,
    },
    Line {
        joining: Joining,
        record_slots: usize,
        book: Vec<u8>,
    },
}

/// What join alone is asked, and the whole line too.
pub struct Joining {
    pub language: Language,
    pub prefix: &'static str,
    pub text_slots: usize,
    pub map_slots: usize,
    pub line: Vec<u8>,
}

impl Request {
    pub fn parse(line: &[u8]) -> Option<Self> {
        let words: Vec<&[u8]> = line.split(|byte| *byte == b' ').collect();
        Some(match words.as_slice() {
            [b"trim", text] => Self::Trim { text: bytes(text)? },
            [b"split", language, separator, angles, slots, text] => Self::Split {
                separator: language_of(language).and(separator_of(separator))?,
                angles: number(angles, 1)? == 1,
                slots: number(slots, MOST_SLOTS)?,
                text: bytes(text)?,
            },
            [b"join", language, prefix, text_slots, map_slots, line] => {
                Self::Join(joining([language, prefix, text_slots, map_slots, line])?)
            }
            [b"back", length, start, end, map] => Self::Back {
                length: number(length, MOST_PLACE)?,
                start: number(start, MOST_PLACE)?,
                end: number(end, MOST_PLACE)?,
                map: entries(map)?,
            },
            [b"copy", slots, content] => Self::Copy {
                slots: number(slots, MOST_SLOTS)?,
                content: bytes(content)?,
            },
            [b"book", book] => Self::Book { book: bytes(book)? },
            [b"seq", slots, book, text] => Self::Sequence {
                slots: number(slots, MOST_RECORDS)?,
                book: bytes(book)?,
                text: bytes(text)?,
            },
            [
                b"line",
                language,
                prefix,
                text_slots,
                map_slots,
                record_slots,
                book,
                line,
            ] => Self::Line {
                joining: joining([language, prefix, text_slots, map_slots, line])?,
                record_slots: number(record_slots, MOST_RECORDS)?,
                book: bytes(book)?,
            },
            _ => return None,
        })
    }
}

fn joining(words: [&[u8]; 5]) -> Option<Joining> {
    let [language, prefix, text_slots, map_slots, line] = words;
    Some(Joining {
        language: language_of(language)?,
        prefix: prefix_of(prefix)?,
        text_slots: number(text_slots, MOST_SLOTS)?,
        map_slots: number(map_slots, MOST_SLOTS)?,
        line: bytes(line)?,
    })
}

fn language_of(word: &[u8]) -> Option<Language> {
    match word {
        b"c" => Some(Language::C),
        b"free" => Some(Language::FortranFree),
        b"fixed" => Some(Language::FortranFixed),
        _ => None,
    }
}

fn prefix_of(word: &[u8]) -> Option<&'static str> {
    match word {
        b"omp" => Some("omp"),
        b"acc" => Some("acc"),
        _ => None,
    }
}

fn separator_of(word: &[u8]) -> Option<char> {
    match word {
        b"comma" => Some(','),
        b"colon" => Some(':'),
        _ => None,
    }
}

/// A decimal number without sign or needless zeros.
fn number(word: &[u8], most: usize) -> Option<usize> {
    let is_plain =
        (1..=6).contains(&word.len()) && word.iter().all(u8::is_ascii_digit) && (word.len() == 1 || word[0] != b'0');
    if !is_plain {
        return None;
    }
    let value = word
        .iter()
        .fold(0, |value, digit| value * 10 + usize::from(digit - b'0'));
    (value <= most).then_some(value)
}

/// Bytes as pairs of lower-case hexadecimal digits, `-` for none.
fn bytes(word: &[u8]) -> Option<Vec<u8>> {
    if word == b"-" {
        return Some(Vec::new());
    }
    if word.is_empty() || word.len() % 2 == 1 || word.len() > 2 * MOST_BYTES {
        return None;
    }
    word.chunks(2)
        .map(|pair| Some(digit(pair[0])? * 16 + digit(pair[1])?))
        .collect()
}

fn digit(letter: u8) -> Option<u8> {
    match letter {
        b'0'..=b'9' => Some(letter - b'0'),
        b'a'..=b'f' => Some(letter - b'a' + 10),
        _ => None,
    }
}

/// Map entries separated by commas, `-` for none.
fn entries(word: &[u8]) -> Option<Vec<u16>> {
    if word == b"-" {
        return Some(Vec::new());
    }
    let entries: Vec<u16> = word
        .split(|byte| *byte == b',')
        .map(|entry| Some(number(entry, usize::from(u16::MAX))? as u16))
        .collect::<Option<_>>()?;
    (entries.len() <= MOST_SLOTS).then_some(entries)
}
