//! Request P1 of document 02: in C the usual trivia may stand between `#` and `pragma`. The Rust refuses such a line by 7, so its answer isn't
//! compared with the Rust's. What it must be is said here instead: by a plain reading of the trivia, and by the Rust's answer to the same line
//! without it.

use crate::cases::{bytes_of, hexadecimal, listed};

/// What the answer to a line with trivia behind its hash must be.
pub struct Judgement {
    /// The joined place of the hash, where the Rust refuses the line.
    hash: usize,
    ruling: Ruling,
}

enum Ruling {
    /// "a missing word is still 7 at the `#`, and a comment unclosed there is 8 at its start"
    Refused { number: usize, place: usize },
    /// As the shorter line is read, all places so many bytes further on, with the text and the map of the line itself.
    Shorter {
        request: String,
        taken: usize,
        text: String,
        map: String,
    },
}

impl Judgement {
    /// None if no trivia stands behind the hash, or the request isn't a line of C, or its buffers are short: then the Rust's answer counts.
    pub fn of(request: &str) -> Option<Self> {
        let words: Vec<&str> = request.split(' ').collect();
        let ["line", "c", _, text_slots, map_slots, _, _, line] = words[..] else {
            return None;
        };
        let line = bytes_of(line)?;
        let (text_slots, map_slots): (usize, usize) = (text_slots.parse().ok()?, map_slots.parse().ok()?);
        if text_slots < line.len() || map_slots <= line.len() {
            return None;
        }
        let (text, map) = joined(&line);
        let hash = behind_trivia(&text, 0).ok()?;
        let behind = hash + 1;
        if text.get(hash) != Some(&b'#') || !is_left_out(&text[behind..]) {
            return None;
        }
        let ruling = match behind_trivia(&text, behind) {
            Err(place) => Ruling::Refused { number: 8, place },
            Ok(word) if !text[word..].starts_with(b"pragma") => Ruling::Refused { number: 7, place: hash },
            Ok(word) => {
                let shorter = [&line[..=map[hash]], &line[map[word]..]].concat();
                let (head, _) = request.rsplit_once(' ')?;
                let bytes: Vec<usize> = text.iter().copied().map(usize::from).collect();
                Ruling::Shorter {
                    request: format!("{head} {}", hexadecimal(&shorter)),
                    taken: word - behind,
                    text: listed(&bytes, text_slots),
                    map: listed(&map, map_slots),
                }
            }
        };
        Some(Self { hash, ruling })
    }

    /// The request that the Rust has to answer besides.
    pub fn asked(&self) -> Vec<&str> {
        match &self.ruling {
            Ruling::Refused { .. } => vec![],
            Ruling::Shorter { request, .. } => vec![request],
        }
    }

    /// The answer due in the place of the refusal that this request lifts, by the Rust's answer to the shorter line; none if its own is another, by
    /// rows 1 to 6.
    pub fn answer(&self, own: &str, more: &[&str]) -> Option<String> {
        if !own.starts_with(&format!("refused 7 {} ", self.hash)) {
            return None;
        }
        Some(match (&self.ruling, more) {
            (Ruling::Refused { number, place }, _) => with_head(own, format!("refused {number} {place}")),
            (Ruling::Shorter { taken, text, map, .. }, [shorter]) => moved(shorter, *taken, text, map),
            _ => "no answer to the shorter line".to_string(),
        })
    }
}

/// "only lines whose joined `#` is followed by 9, 10, 12, 13, 32, `/*` or `//`"
fn is_left_out(behind: &[u8]) -> bool {
    matches!(behind, [9 | 10 | 12 | 13 | 32, ..] | [b'/', b'*' | b'/', ..])
}

/// Translation phase 2, with the place of each byte that stays and the line's length behind them.
fn joined(line: &[u8]) -> (Vec<u8>, Vec<usize>) {
    let (mut text, mut map) = (Vec::new(), Vec::new());
    let mut at = 0;
    while at < line.len() {
        let broken = break_length(&line[at..]);
        if broken == 0 {
            text.push(line[at]);
            map.push(at);
        }
        at += broken.max(1);
    }
    map.push(line.len());
    (text, map)
}

fn break_length(text: &[u8]) -> usize {
    match text {
        [b'\\', b'\n', ..] => 2,
        [b'\\', b'\r', b'\n', ..] => 3,
        _ => 0,
    }
}

/// The place behind the trivia of C that stands at a place, or that of a comment without an end.
fn behind_trivia(text: &[u8], mut at: usize) -> Result<usize, usize> {
    loop {
        let rest = &text[at..];
        let taken = match rest {
            [9 | 10 | 12 | 13 | 32, ..] => 1,
            [b'/', b'*', inside @ ..] => 4 + inside.windows(2).position(|pair| pair == b"*/").ok_or(at)?,
            [b'/', b'/', ..] => rest.iter().position(|byte| *byte == b'\n').unwrap_or(rest.len()),
            _ => break_length(rest),
        };
        if taken == 0 {
            return Ok(at);
        }
        at += taken;
    }
}

/// An answer with other words before its lists.
fn with_head(answer: &str, head: String) -> String {
    match answer.split_once(" : ") {
        Some((_, lists)) => format!("{head} : {lists}"),
        None => head,
    }
}

/// An answer to the shorter line as one to the line: places are so many bytes further on, text and map are the line's.
fn moved(answer: &str, taken: usize, text: &str, map: &str) -> String {
    let parts: Vec<&str> = answer.split(" : ").collect();
    let words: Vec<&str> = parts[0].split(' ').collect();
    match (&words[..], &parts[1..]) {
        (["refused", number, place], _) => with_head(answer, format!("refused {number} {}", further(place, taken))),
        (["ok", entry, start, end, count, rest], [_, _, records]) => {
            let [start, end, rest] = [start, end, rest].map(|place| further(place, taken));
            let records = moved_records(records, taken);
            format!("ok {entry} {start} {end} {count} {rest} : {text} : {map} : {records}")
        }
        _ => answer.to_string(),
    }
}

fn further(place: &str, taken: usize) -> String {
    place
        .parse::<usize>()
        .map_or(place.to_string(), |place| (place + taken).to_string())
}

/// Name and content of each record; a bare one's content stays 0 to 0.
fn moved_records(list: &str, taken: usize) -> String {
    let (records, zeros) = list.rsplit_once('+').unwrap_or((list, ""));
    let record = |record: &str| {
        let mut fields: Vec<String> = record.split('/').map(str::to_string).collect();
        let places: &[usize] = match fields.get(3).map(String::as_str) {
            Some("1") => &[0, 1, 4, 5],
            Some(_) => &[0, 1],
            None => &[],
        };
        for place in places {
            fields[*place] = further(&fields[*place], taken);
        }
        fields.join("/")
    };
    let records: Vec<String> = records.split(',').map(record).collect();
    format!("{}+{zeros}", records.join(","))
}
