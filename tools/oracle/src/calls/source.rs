//! Join alone, map-back and content copy: the published logical source and continuation collapse, with the size checks,
//! refusals and places that document 01 adds.

use super::{LONGEST, admitted};
use crate::answer::{Checked, Inconsistent, Outcome, ensure, refused};
use crate::lexer::{Language, LogicalSource, LogicalSourceError, collapse_line_continuations, reach};
use crate::request::Joining;
use crate::source::SourceError;
use std::borrow::Cow;

/// Map entries are compared with the published `span` one by one up to this length, beyond it only at the ends: a span costs
/// time in proportion to the line.
const SHORT: usize = 40;

pub struct Joined {
    pub text: String,
    pub map: Vec<u16>,
}

/// Rows 1 to 3 of a line with lent text and map.
pub fn fitting(joining: &Joining) -> Outcome<&str> {
    let line = admitted(&joining.line)?;
    if joining.text_slots < line.len() || joining.map_slots < line.len() + 1 {
        return refused(3, 0);
    }
    Ok(line)
}

/// Row 6, else the joined text and its map.
pub fn joined(line: &str, language: Language, prefix: &str) -> Checked<Outcome<Joined>> {
    let source = match LogicalSource::new(line, language, prefix) {
        Ok(source) => source,
        Err(LogicalSourceError::InvalidContinuation { offset }) => return Ok(refused(6, offset)),
        Err(_) => return Err(Inconsistent),
    };
    let map = reach::map_of(&source);
    let length = source.text().len();
    ensure(map.len() == length + 1)?;
    let starts = if length <= SHORT { 0..length + 1 } else { 0..1 };
    for start in starts {
        let span = source.span(start..length).map_err(|_| Inconsistent)?;
        ensure(span.start_byte() == map[start] && span.end_byte() == map[length])?;
    }
    Ok(Ok(Joined {
        text: source.text().to_string(),
        map: map.into_iter().map(|entry| entry as u16).collect(),
    }))
}

/// Rows 1, 3 and 19, else the two entries, from `span` of a source with that map. Entries that fall make no span in the Rust;
/// they are handed out as they are.
pub fn map_back(map: &[u16], length: usize, start: usize, end: usize) -> Checked<Outcome<(usize, usize)>> {
    if length > LONGEST {
        return Ok(refused(1, LONGEST));
    }
    if map.len() < length + 1 {
        return Ok(refused(3, 0));
    }
    let blank = " ".repeat(map.iter().copied().max().map_or(0, usize::from).max(length));
    let source = reach::with_map(&blank, &blank[..length], map);
    match source.span(start..end) {
        Ok(span) => Ok(Ok((span.start_byte(), span.end_byte()))),
        Err(LogicalSourceError::LogicalRange { .. }) => Ok(refused(19, 0)),
        Err(LogicalSourceError::PhysicalSpan(SourceError::ReversedRange { start, end })) => Ok(Ok((start, end))),
        Err(_) => Err(Inconsistent),
    }
}

/// Rows 1 to 3, else the content without its continuations. The buffer must hold the content as it stands.
pub fn copied(content: &[u8], slots: usize) -> Outcome<Cow<'_, str>> {
    let content = admitted(content)?;
    if slots < content.len() {
        return refused(3, 0);
    }
    Ok(collapse_line_continuations(content))
}
