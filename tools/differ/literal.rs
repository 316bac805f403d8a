//! Request P6 of document 02: in Fortran a backslash of a literal is an ordinary byte. The Rust takes it as an escape in every language, so where
//! that makes a difference its answer isn't compared. What it must be is said here instead: outside of literals Fortran gives a backslash no
//! meaning either, so the answer due is the Rust's to the same request with a byte that never means anything in the place of each backslash.

use crate::cases::{bytes_of, hexadecimal, listed, numbers};

const BACKSLASH: u8 = b'\\';

/// No part of a name, no blank, no quote, bracket or separator, and no part of a comment, a continuation or a sentinel.
const MEANINGLESS: u8 = b'~';

/// What the answer to a Fortran request with a backslash in it must be.
pub struct Judgement {
    bytes: Vec<u8>,
    scan: Scan,
    /// The same request with the other byte for each backslash.
    plain: String,
}

/// Where the quote scan is at work.
enum Scan {
    /// Over the whole text, past block comments.
    Split,
    /// Behind the parenthesis of a clause, past `!` as well.
    Sequence,
    /// The same in the text that the Rust joins by this request.
    Line { join: String },
}

impl Judgement {
    /// None if the request isn't Fortran's or has no backslash: then the Rust's answer counts.
    pub fn of(request: &str) -> Option<Self> {
        let words: Vec<&str> = request.split(' ').collect();
        let scan = match words[..] {
            ["split", "free" | "fixed", ..] => Scan::Split,
            ["seq", _, book, _] if bytes_of(book)?.get(5)? % 2 == 1 => Scan::Sequence,
            ["line", "free" | "fixed", _, _, _, _, _, _] => Scan::Line { join: joining(&words) },
            _ => return None,
        };
        let (head, text) = request.rsplit_once(' ')?;
        let bytes = bytes_of(text)?;
        if !bytes.contains(&BACKSLASH) {
            return None;
        }
        let plain: Vec<u8> = bytes
            .iter()
            .map(|byte| if *byte == BACKSLASH { MEANINGLESS } else { *byte })
            .collect();
        let plain = format!("{head} {}", hexadecimal(&plain));
        Some(Self { bytes, scan, plain })
    }

    /// The requests that the Rust has to answer besides.
    pub fn asked(&self) -> Vec<&str> {
        match &self.scan {
            Scan::Line { join } => vec![&self.plain, join],
            _ => vec![&self.plain],
        }
    }

    /// The answer due in the place of the Rust's own; none if the two are the same, or no backslash stands inside quotes.
    pub fn answer(&self, own: &str, more: &[&str]) -> Option<String> {
        let due = match (&self.scan, more) {
            (Scan::Line { .. }, [plain, _]) => with_backslashes(plain, &self.bytes),
            (_, [plain]) => plain.to_string(),
            _ => "no answer to the request without backslashes".to_string(),
        };
        (due != own && self.is_left_out(more)).then_some(due)
    }

    /// "Fortran texts with a backslash inside a literal (as the scan reads it) are left out, and no others"
    fn is_left_out(&self, more: &[&str]) -> bool {
        match &self.scan {
            Scan::Split => is_quoted_behind(&self.bytes, 0, false),
            Scan::Sequence => is_quoted_in_argument(&self.bytes),
            Scan::Line { .. } => more.last().is_some_and(|join| is_quoted_in_argument(&joined(join))),
        }
    }
}

/// The request that joins a line, with room for all of it.
fn joining(words: &[&str]) -> String {
    let size = words[7].len();
    format!(
        "join {} {} {} {} {}",
        words[1],
        words[2],
        size.min(20_000),
        size.min(20_000),
        words[7]
    )
}

/// The text of an answer to join alone; none of a refusal.
fn joined(answer: &str) -> Vec<u8> {
    let mut parts = answer.split(" : ");
    match (parts.next(), parts.next()) {
        (Some(head), Some(text)) if head.starts_with("ok") => numbers(text).iter().map(|byte| *byte as u8).collect(),
        _ => Vec::new(),
    }
}

/// An answer to the line without backslashes as one to the line itself: the text has the line's own bytes where its map says.
fn with_backslashes(answer: &str, line: &[u8]) -> String {
    let parts: Vec<&str> = answer.split(" : ").collect();
    let [head, text, map, records] = parts[..] else {
        return answer.to_string();
    };
    if !head.starts_with("ok") {
        return answer.to_string();
    }
    let (text, map) = (numbers(text), numbers(map));
    let bytes: Vec<usize> = map.iter().take(text.len()).map(|place| line[*place].into()).collect();
    let slots = parts[1]
        .rsplit_once('+')
        .map_or(0, |(_, zeros)| zeros.parse().unwrap_or(0))
        + text.len();
    format!("{head} : {} : {} : {records}", listed(&bytes, slots), parts[2])
}

/// Whether a backslash stands inside quotes as the scan from behind some parenthesis reads the text.
fn is_quoted_in_argument(text: &[u8]) -> bool {
    let mut behind = (1..=text.len()).filter(|at| text[at - 1] == b'(');
    behind.any(|at| is_quoted_behind(text, at, true))
}

/// Whether a backslash stands inside quotes as the scan from a place on reads the text.
fn is_quoted_behind(text: &[u8], mut at: usize, has_line_comments: bool) -> bool {
    while at < text.len() {
        let end = match &text[at..] {
            [quote @ (b'\'' | b'"'), ..] => {
                let end = literal_end(text, at + 1, *quote);
                if text[at..end].contains(&BACKSLASH) {
                    return true;
                }
                end
            }
            [b'/', b'*', inside @ ..] => {
                let length = inside.windows(2).position(|pair| pair == b"*/");
                length.map_or(text.len(), |length| at + length + 4)
            }
            [b'!', b'$', ..] => at + 1,
            [b'!', inside @ ..] if has_line_comments => {
                let length = inside.iter().position(|byte| matches!(byte, b'\n' | b'\r'));
                length.map_or(text.len(), |length| at + length + 2)
            }
            _ => at + 1,
        };
        at = end;
    }
    false
}

/// The place behind the quote that closes a literal, or the text's end. Two quotes in a row are a byte of it.
fn literal_end(text: &[u8], mut at: usize, quote: u8) -> usize {
    while let Some(length) = text[at..].iter().position(|byte| *byte == quote) {
        at += length + 1;
        if text.get(at) != Some(&quote) {
            return at;
        }
        at += 1;
    }
    text.len()
}
