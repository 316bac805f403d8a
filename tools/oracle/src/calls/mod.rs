//! The eight public calls: which steps each has, in which order, and what it leaves in the lent slots.

mod line;
mod sequence;
mod source;
mod split;

use crate::answer::{Checked, Lent, Outcome, head, refused};
use crate::book::{Book, Shelf};
use crate::request::{Joining, Request};

const LONGEST: usize = 16_384;

pub fn answer(request: &Request, shelf: &mut Shelf) -> Checked<String> {
    Ok(match request {
        Request::Trim { text } => {
            let (start, end) = trimmed(text);
            head(&Ok(vec![start, end]))
        }
        Request::Split {
            separator,
            angles,
            slots,
            text,
        } => split(*separator, *angles, *slots, text)?,
        Request::Join(joining) => join(joining)?,
        Request::Back {
            length,
            start,
            end,
            map,
        } => {
            let outcome = source::map_back(map, *length, *start, *end)?;
            head(&outcome.map(|(start, end)| vec![start, end]))
        }
        Request::Copy { slots, content } => copy(*slots, content),
        Request::Book { book } => head(&opened(shelf, book).map(|_| vec![])),
        Request::Sequence { slots, book, text } => read_sequence(*slots, book, text, shelf)?,
        Request::Line {
            joining,
            record_slots,
            book,
        } => read_line(joining, *record_slots, book, shelf)?,
    })
}

fn split(separator: char, angles: bool, slots: usize, text: &[u8]) -> Checked<String> {
    let mut items = Lent::new(slots);
    let outcome = match admitted(text) {
        Ok(text) => split::split(text, separator, angles, slots / 2)?,
        Err(refusal) => Err(refusal),
    };
    match &outcome {
        Ok(ranges) => {
            let flat = ranges.iter().flat_map(|range| [range.start as u16, range.end as u16]);
            items.keep(&flat.collect::<Vec<u16>>());
        }
        Err(_) => items.clear(),
    }
    let head = head(&outcome.map(|ranges| vec![ranges.len()]));
    Ok(format!("{head} : {}", items.listed()))
}

fn copy(slots: usize, content: &[u8]) -> String {
    let mut copy = Lent::new(slots);
    let outcome = source::copied(content, slots);
    match &outcome {
        Ok(text) => copy.keep(text.as_bytes()),
        Err(_) => copy.clear(),
    }
    let head = head(&outcome.map(|text| vec![text.len()]));
    format!("{head} : {}", copy.listed())
}

fn read_sequence(slots: usize, book: &[u8], text: &[u8], shelf: &mut Shelf) -> Checked<String> {
    let mut records = Lent::new(slots);
    let outcome = match admitted(text).and_then(|text| Ok((text, opened(shelf, book)?))) {
        Ok((text, book)) => sequence::sequence(book, text, 0, slots)?,
        Err(refusal) => Err(refusal),
    };
    match &outcome {
        Ok(read) => records.keep(&read.records),
        Err(_) => records.clear(),
    }
    let head = head(&outcome.map(|read| vec![read.records.len(), read.rest]));
    Ok(format!("{head} : {}", records.listed()))
}

fn join(joining: &Joining) -> Checked<String> {
    let mut text = Lent::new(joining.text_slots);
    let mut map = Lent::new(joining.map_slots);
    let outcome = match source::fitting(joining) {
        Ok(line) => source::joined(line, joining.language, joining.prefix)?,
        Err(refusal) => Err(refusal),
    };
    match &outcome {
        Ok(joined) => {
            text.keep(joined.text.as_bytes());
            map.keep(&joined.map);
        }
        Err(_) => {
            text.clear();
            map.clear();
        }
    }
    let head = head(&outcome.map(|joined| vec![joined.text.len()]));
    Ok(format!("{head} : {} : {}", text.listed(), map.listed()))
}

fn read_line(joining: &Joining, record_slots: usize, book: &[u8], shelf: &mut Shelf) -> Checked<String> {
    let mut text = Lent::new(joining.text_slots);
    let mut map = Lent::new(joining.map_slots);
    let mut records = Lent::new(record_slots);
    let prepared = source::fitting(joining).and_then(|line| Ok((line, opened(shelf, book)?)));
    let outcome = match prepared {
        Ok((line, book)) => line::read(book, line, joining, record_slots)?,
        Err(refusal) => Err(refusal),
    };
    match &outcome {
        Ok(reading) => {
            text.keep(reading.joined.text.as_bytes());
            map.keep(&reading.joined.map);
            records.keep(&reading.clauses.records);
        }
        Err(_) => {
            text.clear();
            map.clear();
            records.clear();
        }
    }
    let head = head(&outcome.map(|reading| reading.numbers()));
    Ok(format!(
        "{head} : {} : {} : {}",
        text.listed(),
        map.listed(),
        records.listed()
    ))
}

/// Rows 1 and 2: at most 16,384 bytes, all of them 7-bit.
fn admitted(text: &[u8]) -> Outcome<&str> {
    if text.len() > LONGEST {
        return refused(1, LONGEST);
    }
    match text.iter().position(|byte| *byte > 127) {
        Some(place) => refused(2, place),
        None => Ok(std::str::from_utf8(text).expect("7-bit bytes")),
    }
}

/// Row 4.
fn opened<'s>(shelf: &'s mut Shelf, book: &[u8]) -> Outcome<&'s Book> {
    shelf.book(book).or_else(|place| refused(4, place))
}

/// `str::trim`, which on 7-bit text takes 9 to 13 and 32. Bytes above 127 aren't blank to document 01, so letters stand in
/// for them; a blank text's part begins at 0.
fn trimmed(text: &[u8]) -> (usize, usize) {
    let letters = |byte: &u8| if *byte > 127 { 'x' } else { char::from(*byte) };
    let text: String = text.iter().map(letters).collect();
    let part = text.trim();
    let start = if part.is_empty() { 0 } else { place_of(&text, part) };
    (start, start + part.len())
}

/// Where a part of a text begins in it.
fn place_of(text: &str, part: &str) -> usize {
    part.as_ptr() as usize - text.as_ptr() as usize
}
