//! Split: the published one gives items or a kind of failure. A walk beside it adds what it lacks: the places of 15 and 18,
//! the bracket too many (13), the item without a slot (14). Both must agree wherever the published one has an answer.

use super::place_of;
use crate::answer::{Checked, Outcome, Refusal, ensure, refused};
use crate::delimiter::{CommentStyle, DelimiterError, reach, split_top_level};
use crate::parser::clause::{VariableListError, parse_variable_list};
use std::ops::Range;

pub const DEEPEST: usize = 256;

const BRACKETS: [(char, char); 3] = [('(', ')'), ('[', ']'), ('{', '}')];
const BRACKETS_AND_ANGLES: [(char, char); 4] = [('(', ')'), ('[', ']'), ('{', '}'), ('<', '>')];

type Items = Vec<Range<usize>>;

pub fn split(text: &str, separator: char, angles: bool, room: usize) -> Checked<Outcome<Items>> {
    let pairs: &[(char, char)] = if angles { &BRACKETS_AND_ANGLES } else { &BRACKETS };
    let published = split_top_level(text, separator, pairs, CommentStyle::Block);
    if separator == ',' && !angles {
        ensure(kind_of(&parse_variable_list(text)) == published.as_ref().map_err(list_error))?;
    }
    let code = match (&published, reach::code_chars(text, CommentStyle::Block)) {
        (Err(DelimiterError::UnterminatedQuote { offset, .. }), Err(_)) => {
            return Ok(refused(16, *offset));
        }
        (Err(DelimiterError::UnterminatedBlockComment { offset }), Err(_)) => {
            return Ok(refused(8, *offset));
        }
        (_, code) => code.map_err(|_| crate::answer::Inconsistent)?,
    };
    let walk = Walk::over(text, &code, separator, angles);
    ensure(walk.agrees_with(text, &published))?;
    Ok(walk.within(room))
}

fn kind_of<'a>(list: &'a Result<Vec<&'a str>, VariableListError>) -> Result<&'a Vec<&'a str>, VariableListError> {
    list.as_ref().map_err(|error| *error)
}

/// The variable list's name for a failure of the split.
fn list_error(error: &DelimiterError) -> VariableListError {
    match error {
        DelimiterError::EmptyEntry { .. } => VariableListError::EmptyItem,
        DelimiterError::UnterminatedQuote { .. } => VariableListError::UnclosedQuote,
        DelimiterError::UnterminatedBlockComment { .. } => VariableListError::UnclosedComment,
        DelimiterError::UnclosedDelimiter { .. } => VariableListError::UnclosedDelimiter,
        DelimiterError::UnmatchedClosing { .. } | DelimiterError::MismatchedClosing { .. } => {
            VariableListError::MismatchedDelimiter
        }
    }
}

enum Step {
    Item(Range<usize>),
    /// A bracket opens where 256 are open. The published split goes on.
    TooDeep(usize),
}

/// What the split meets, in reading order, and the refusal that ends it, limits aside.
struct Walk {
    steps: Vec<Step>,
    end: Outcome<()>,
}

impl Walk {
    fn over(text: &str, code: &[(usize, char)], separator: char, angles: bool) -> Self {
        let mut walker = Walker {
            text,
            separator,
            angles,
            open: Vec::new(),
            questions: 0,
            segment: 0,
            steps: Vec::new(),
        };
        let end = walker.walk(code);
        Self {
            steps: walker.steps,
            end,
        }
    }

    fn agrees_with(&self, text: &str, published: &Result<Vec<&str>, DelimiterError>) -> bool {
        match (&self.end, published) {
            (Ok(()), Ok(parts)) => {
                let parts = parts.iter().map(|part| {
                    let start = place_of(text, part);
                    start..start + part.len()
                });
                parts.eq(self.items())
            }
            (Err(Refusal { number, place }), Err(error)) => match error {
                DelimiterError::EmptyEntry { .. } => *number == 15,
                DelimiterError::UnclosedDelimiter { .. } => *number == 18,
                DelimiterError::UnmatchedClosing { offset, .. } | DelimiterError::MismatchedClosing { offset, .. } => {
                    *number == 17 && place == offset
                }
                _ => false,
            },
            _ => false,
        }
    }

    fn items(&self) -> impl Iterator<Item = Range<usize>> {
        self.steps.iter().filter_map(|step| match step {
            Step::Item(item) => Some(item.clone()),
            Step::TooDeep(_) => None,
        })
    }

    /// The answer with so many item slots and at most 256 brackets open.
    fn within(self, room: usize) -> Outcome<Items> {
        let mut items = Vec::new();
        for step in self.steps {
            match step {
                Step::TooDeep(place) => return refused(13, place),
                Step::Item(item) if items.len() == room => return refused(14, item.start),
                Step::Item(item) => items.push(item),
            }
        }
        self.end.map(|()| items)
    }
}

struct Walker<'a> {
    text: &'a str,
    separator: char,
    angles: bool,
    /// The closing brackets that are due.
    open: Vec<char>,
    /// `?` at the outermost level that still wait for their colon.
    questions: usize,
    /// Where the present segment starts.
    segment: usize,
    steps: Vec<Step>,
}

impl Walker<'_> {
    fn walk(&mut self, code: &[(usize, char)]) -> Outcome<()> {
        let afters = solid_after(code);
        let mut before = None;
        for (&(place, character), &after) in code.iter().zip(&afters) {
            self.bracket(place, character, before, after)?;
            if self.open.is_empty() && self.separates(character, before, after) {
                self.finish_segment(place)?;
                self.segment = place + 1;
            }
            if !character.is_whitespace() {
                before = Some(character);
            }
        }
        if !self.open.is_empty() {
            return refused(18, self.text.len());
        }
        self.finish_segment(self.text.len())
    }

    fn bracket(&mut self, place: usize, character: char, before: Option<char>, after: Option<char>) -> Outcome<()> {
        let angle_on_top = self.open.last() == Some(&'>');
        match character {
            '(' => self.push(place, ')'),
            '[' => self.push(place, ']'),
            '{' => self.push(place, '}'),
            '<' if self.angles => {
                if (self.open.is_empty() || angle_on_top) && reach::opens_angle(before, after) {
                    self.push(place, '>');
                }
            }
            '>' if self.angles => {
                if angle_on_top && after != Some('=') {
                    self.open.pop();
                } else if self.open.is_empty() {
                    return refused(17, place);
                }
            }
            ')' | ']' | '}' => {
                if self.open.pop() != Some(character) {
                    return refused(17, place);
                }
            }
            _ => {}
        }
        Ok(())
    }

    fn push(&mut self, place: usize, closing: char) {
        if self.open.len() >= DEEPEST {
            self.steps.push(Step::TooDeep(place));
        }
        self.open.push(closing);
    }

    /// At the outermost level. A colon answers an open `?` first, and is none of a pair.
    fn separates(&mut self, character: char, before: Option<char>, after: Option<char>) -> bool {
        if self.separator == ':' && character == '?' {
            self.questions += 1;
            return false;
        }
        if character != self.separator || character == ',' {
            return character == self.separator;
        }
        if self.questions > 0 {
            self.questions -= 1;
            return false;
        }
        before != Some(':') && after != Some(':')
    }

    fn finish_segment(&mut self, end: usize) -> Outcome<()> {
        let item = self.text[self.segment..end].trim();
        if item.is_empty() {
            return refused(15, self.segment);
        }
        let start = place_of(self.text, item);
        self.steps.push(Step::Item(start..start + item.len()));
        Ok(())
    }
}

/// For each code character the next that isn't blank.
fn solid_after(code: &[(usize, char)]) -> Vec<Option<char>> {
    let mut after = None;
    let mut afters: Vec<Option<char>> = code
        .iter()
        .rev()
        .map(|&(_, character)| {
            let found = after;
            if !character.is_whitespace() {
                after = Some(character);
            }
            found
        })
        .collect();
    afters.reverse();
    afters
}
