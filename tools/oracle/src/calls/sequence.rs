//! The clause sequence: the published single-clause parser driven in `parse_sequence`'s order, so that 13 and 14 can refuse on
//! the way. `parse_sequence` itself runs too and must agree with what was read, limits aside.

use super::place_of;
use super::split::DEEPEST;
use crate::answer::{Checked, Inconsistent, Outcome, Record, Refusal, ensure, refused};
use crate::book::Book;
use crate::delimiter::{CommentStyle, reach::code_chars};
use crate::lexer::collapse_line_continuations;
use crate::parser::clause::{ClauseKind, LocatedClause, reach::parse_clause};
use nom::error::{Error, ErrorKind};
use nom::{IResult, Parser};

const NO_ENTRY: u16 = 65_535;

pub type Failure<'a> = nom::Err<Error<&'a str>>;

/// The clauses read, and the place of the unread rest.
pub struct Clauses {
    pub records: Vec<Record>,
    pub rest: usize,
}

/// The sequence that starts at a place of the text, with so many record slots.
pub fn sequence(book: &Book, text: &str, start: usize, room: usize) -> Checked<Outcome<Clauses>> {
    let input = &text[start..];
    let mut reader = Reader {
        book,
        text,
        may_be_deep: input.bytes().filter(|byte| b"([{".contains(byte)).count() > DEEPEST,
        steps: Vec::new(),
    };
    let end = reader.read(input)?;
    reader.compare(end, &book.clause_registry.parse_sequence(input))?;
    Ok(within(reader.steps, end, room))
}

enum Step {
    Clause(Record),
    /// The 257th bracket opens before the clause's own is closed. The published parser goes on.
    TooDeep(usize),
}

/// The answer with so many record slots and at most 256 brackets open.
fn within(steps: Vec<Step>, end: Outcome<usize>, room: usize) -> Outcome<Clauses> {
    let mut records = Vec::new();
    for step in steps {
        match step {
            Step::TooDeep(place) => return refused(13, place),
            Step::Clause(record) if records.len() == room => {
                return refused(14, usize::from(record.name_start));
            }
            Step::Clause(record) => records.push(record),
        }
    }
    end.map(|rest| Clauses { records, rest })
}

/// What a parser's error means in document 01: the kind by the function that makes such an error, the place by where its
/// input starts.
pub fn refusal_of(text: &str, failure: &Failure) -> Refusal {
    let (nom::Err::Error(error) | nom::Err::Failure(error)) = failure;
    let number = match (failure, error.code) {
        (nom::Err::Failure(_), _) | (_, ErrorKind::TakeWhile1) => 10,
        (_, ErrorKind::Fail) if error.input.starts_with('(') => 12,
        (_, ErrorKind::Fail) => 11,
        (_, ErrorKind::Space) => 7,
        (_, ErrorKind::Tag | ErrorKind::Char) => 8,
    };
    Refusal {
        number,
        place: text.len() - error.input.len(),
    }
}

struct Reader<'a> {
    book: &'a Book,
    text: &'a str,
    /// More than 256 opening brackets stand in the text: only then depth needs counting.
    may_be_deep: bool,
    steps: Vec<Step>,
}

impl<'a> Reader<'a> {
    /// Reads to the end: the place of the unread rest, or the refusal, limits aside.
    fn read(&mut self, input: &'a str) -> Checked<Outcome<usize>> {
        let mut preceded = false;
        let mut rest = match self.book.clause_registry.skip_trivia(input) {
            Ok((rest, _)) => rest,
            Err(failure) => return Ok(Err(refusal_of(self.text, &failure))),
        };
        loop {
            let after = match parse_clause(&self.book.clause_registry, rest) {
                Ok((after, clause)) => {
                    self.take(&clause, preceded, after)?;
                    after
                }
                Err(failure) => return Ok(self.stop(rest, refusal_of(self.text, &failure))),
            };
            (preceded, rest) = match self.separator(after) {
                Ok((next, comma)) => (comma, next),
                Err(failure) => return Ok(Err(refusal_of(self.text, &failure))),
            };
            if preceded && rest.is_empty() {
                self.mark_trailing();
            }
        }
    }

    /// A clause fails. The list ends before it unless the default is Unsupported and something is left.
    fn stop(&mut self, rest: &str, refusal: Refusal) -> Outcome<usize> {
        if refusal.number == 12 {
            self.measure(refusal.place);
        }
        if self.book.strict && !rest.is_empty() {
            Err(refusal)
        } else {
            Ok(self.place(rest))
        }
    }

    /// Trivia, a comma perhaps, trivia: the input behind, and whether there was a comma.
    fn separator(&self, input: &'a str) -> IResult<&'a str, bool> {
        let registry = &self.book.clause_registry;
        let (input, _) = registry.skip_trivia(input)?;
        let (input, comma) = nom::combinator::opt(nom::character::complete::char(',')).parse(input)?;
        let (input, _) = registry.skip_trivia(input)?;
        Ok((input, comma.is_some()))
    }

    fn place(&self, rest: &str) -> usize {
        self.text.len() - rest.len()
    }

    fn take(&mut self, clause: &LocatedClause<'a>, preceded: bool, after: &str) -> Checked<()> {
        let name = clause.name_source();
        let name_start = place_of(self.text, name);
        let name_end = name_start + name.len();
        let mut record = Record {
            name_start: name_start as u16,
            name_end: name_end as u16,
            entry: self.entry_of(name),
            parenthesized: false,
            content_start: 0,
            content_end: 0,
            preceded,
            trailing: false,
        };
        if let ClauseKind::Parenthesized(collapsed) = &clause.kind {
            let opening = self.opening_behind(name_end)?;
            let (start, end) = self.content_between(opening, self.place(after) - 1);
            ensure(collapse_line_continuations(&self.text[start..end]) == *collapsed)?;
            record.parenthesized = true;
            record.content_start = start as u16;
            record.content_end = end as u16;
            self.measure(opening);
        }
        self.steps.push(Step::Clause(record));
        Ok(())
    }

    fn entry_of(&self, name: &str) -> u16 {
        let registry = &self.book.clause_registry;
        let mut entries = self.book.clauses.iter();
        let found = entries.position(|entry| registry.keyword_eq(name, entry));
        found.map_or(NO_ENTRY, |entry| entry as u16)
    }

    /// The parenthesis behind a clause's name and the trivia after it.
    fn opening_behind(&self, name_end: usize) -> Checked<usize> {
        let behind = self.book.clause_registry.skip_trivia(&self.text[name_end..]);
        let (rest, _) = behind.map_err(|_| Inconsistent)?;
        ensure(rest.starts_with('('))?;
        Ok(self.place(rest))
    }

    /// The published clause holds its content collapsed, so the trimmed range is worked out from the two parentheses. Blank
    /// content starts and ends just after the opening one.
    fn content_between(&self, opening: usize, closing: usize) -> (usize, usize) {
        let content = self.text[opening + 1..closing].trim();
        if content.is_empty() {
            return (opening + 1, opening + 1);
        }
        let start = place_of(self.text, content);
        (start, start + content.len())
    }

    /// Notes the 257th bracket open at once, the clause's own being the first, if one comes before the match and before a
    /// wrong closing one. A scan error in the rest comes before any bracket.
    fn measure(&mut self, opening: usize) {
        if !self.may_be_deep {
            return;
        }
        let style = if self.book.fortran {
            CommentStyle::Fortran
        } else {
            CommentStyle::CLike
        };
        let mut due = Vec::new();
        for (at, character) in code_chars(&self.text[opening + 1..], style).unwrap_or_default() {
            match character {
                '(' | '[' | '{' if due.len() + 1 == DEEPEST => {
                    self.steps.push(Step::TooDeep(opening + 1 + at));
                    return;
                }
                '(' => due.push(')'),
                '[' => due.push(']'),
                '{' => due.push('}'),
                ')' | ']' | '}' if due.pop() != Some(character) => return,
                _ => {}
            }
        }
    }

    fn mark_trailing(&mut self) {
        if let Some(Step::Clause(record)) = self.steps.last_mut() {
            record.trailing = true;
        }
    }

    /// `parse_sequence` must have read the same clauses and ended at the same place.
    fn compare(&self, end: Outcome<usize>, published: &IResult<&str, Vec<LocatedClause>>) -> Checked<()> {
        let (rest, clauses) = match published {
            Ok(read) => read,
            Err(failure) => return ensure(end == Err(refusal_of(self.text, failure))),
        };
        ensure(end == Ok(self.place(rest)))?;
        let records = self.steps.iter().filter_map(|step| match step {
            Step::Clause(record) => Some(record),
            Step::TooDeep(_) => None,
        });
        ensure(records.clone().count() == clauses.len())?;
        for (record, clause) in records.zip(clauses) {
            self.compare_clause(record, clause)?;
        }
        Ok(())
    }

    fn compare_clause(&self, record: &Record, clause: &LocatedClause) -> Checked<()> {
        let range = |start: u16, end: u16| usize::from(start)..usize::from(end);
        let name = range(record.name_start, record.name_end);
        let content = range(record.content_start, record.content_end);
        ensure(place_of(self.text, clause.name_source()) == name.start)?;
        ensure(clause.name_source().len() == name.len())?;
        ensure(clause.preceded_by_comma() == record.preceded)?;
        ensure(clause.followed_by_trailing_comma() == record.trailing)?;
        ensure(match &clause.kind {
            ClauseKind::Bare => !record.parenthesized && content == (0..0),
            ClauseKind::Parenthesized(collapsed) => {
                record.parenthesized && collapse_line_continuations(&self.text[content]) == *collapsed
            }
            _ => false,
        })
    }
}
