//! The whole line: language, join, opening words, directive name, clauses, in document 01's order.

use super::place_of;
use super::sequence::{Clauses, Failure, refusal_of, sequence};
use super::source::{Joined, joined};
use crate::answer::{Checked, Inconsistent, Outcome, Refusal, refused};
use crate::book::Book;
use crate::lexer::{
    Language, lex_dialect_keyword, lex_fortran_fixed_sentinel_with_prefix, lex_fortran_free_sentinel_with_prefix,
    lex_pragma, skip_fortran_space1_and_comments, skip_space_and_comments, skip_space1_and_comments,
};
use crate::request::Joining;
use nom::IResult;

pub struct Reading {
    name: Name,
    pub joined: Joined,
    pub clauses: Clauses,
}

struct Name {
    entry: usize,
    start: usize,
    end: usize,
}

impl Reading {
    pub fn numbers(&self) -> Vec<usize> {
        vec![
            self.name.entry,
            self.name.start,
            self.name.end,
            self.clauses.records.len(),
            self.clauses.rest,
        ]
    }
}

/// Row 5 and all behind it; a line that fits its buffers, a valid book.
pub fn read(book: &Book, line: &str, joining: &Joining, room: usize) -> Checked<Outcome<Reading>> {
    if (joining.language == Language::C) == book.fortran {
        return Ok(refused(5, 0));
    }
    let joined = match joined(line, joining.language, joining.prefix)? {
        Ok(joined) => joined,
        Err(refusal) => return Ok(Err(refusal)),
    };
    let text = joined.text.as_str();
    let search = match opening_words(text, joining.language, joining.prefix) {
        Ok(rest) => rest,
        Err(refusal) => return Ok(Err(refusal)),
    };
    let name = match directive_name(book, text, search)? {
        Ok(name) => name,
        Err(refusal) => return Ok(Err(refusal)),
    };
    let clauses = match sequence(book, text, name.end, room)? {
        Ok(clauses) => clauses,
        Err(refusal) => return Ok(Err(refusal)),
    };
    Ok(Ok(Reading { name, joined, clauses }))
}

/// Rows 7 and 8 of the opening words, else the text behind them.
fn opening_words<'a>(text: &'a str, language: Language, prefix: &str) -> Outcome<&'a str> {
    let trivia = |result: IResult<&'a str, &'a str>| match result {
        Ok((rest, _)) => Ok(rest),
        Err(failure) => Err(refusal_of(text, &failure)),
    };
    if language == Language::C {
        let rest = trivia(skip_space_and_comments(text))?;
        let rest = word(text, lex_pragma(rest))?;
        let rest = trivia(skip_space1_and_comments(rest))?;
        let rest = word(text, lex_dialect_keyword(rest, prefix))?;
        return trivia(skip_space1_and_comments(rest));
    }
    // A sentinel's step fails at its own start, an open comment before the sentinel at the comment; both errors look alike.
    trivia(skip_space_and_comments(text))?;
    let sentinel = match language {
        Language::FortranFixed => lex_fortran_fixed_sentinel_with_prefix(text, prefix),
        _ => lex_fortran_free_sentinel_with_prefix(text, prefix),
    };
    let rest = word(text, sentinel)?;
    trivia(skip_fortran_space1_and_comments(rest))
}

/// A step that wants a word: any failure is 7, where its input starts.
fn word<'a>(text: &str, result: IResult<&'a str, &'a str>) -> Outcome<&'a str> {
    result.map(|(rest, _)| rest).map_err(|failure| Refusal {
        number: 7,
        place: place_of_failure(text, &failure),
    })
}

/// Row 9, or 8 in the trivia behind a word, else the name. The trivia before the search is skipped already, so a failure at the
/// search's start is 9.
fn directive_name(book: &Book, text: &str, search: &str) -> Checked<Outcome<Name>> {
    let (spelling, entry) = match book.directive_registry.lex_name(search) {
        Ok((_, (entry, spelling))) => (spelling, entry),
        Err(failure) => {
            let place = place_of_failure(text, &failure);
            let number = if place == text.len() - search.len() { 9 } else { 8 };
            return Ok(refused(number, place));
        }
    };
    let mut entries = book.directives.iter();
    let entry = entries.position(|name| *name == entry);
    let start = place_of(text, spelling);
    Ok(Ok(Name {
        entry: entry.ok_or(Inconsistent)?,
        start,
        end: start + spelling.len(),
    }))
}

fn place_of_failure(text: &str, failure: &Failure) -> usize {
    let (nom::Err::Error(error) | nom::Err::Failure(error)) = failure;
    text.len() - error.input.len()
}
