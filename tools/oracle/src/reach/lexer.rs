//! A child of the published lexer module: reads the map inside a logical source, and makes one from a map.

use super::LogicalSource;
use std::borrow::Cow;

/// One entry for each byte of the joined text and one for its end.
pub(crate) fn map_of(source: &LogicalSource) -> Vec<usize> {
    match &source.physical_boundaries {
        Some(boundaries) => boundaries.clone(),
        None => (0..=source.text.len()).collect(),
    }
}

/// A source of which only the lengths and the map count.
pub(crate) fn with_map<'a>(original: &'a str, text: &'a str, map: &[u16]) -> LogicalSource<'a> {
    LogicalSource {
        original,
        text: Cow::Borrowed(text),
        physical_boundaries: Some(map.iter().map(|entry| usize::from(*entry)).collect()),
    }
}
