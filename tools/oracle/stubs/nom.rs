//! The parts of nom that the published sources use, over `&str`, with the meanings that document 01 gives them:
//! `tag` and `char` match exactly those bytes, `take_while1` takes the longest run of at least one, `opt` never fails,
//! and an error stands where its input starts.

/// What a parser answers: the input left and its value, or an error.
pub type IResult<I, O, E = error::Error<I>> = Result<(I, O), Err<E>>;

/// The sources make both cases; they differ in name alone.
#[derive(Clone, Copy, Debug, PartialEq, Eq)]
pub enum Err<E> {
    Error(E),
    Failure(E),
}

pub mod error {
    #[derive(Clone, Copy, Debug, PartialEq, Eq)]
    pub enum ErrorKind {
        Char,
        Fail,
        Space,
        Tag,
        TakeWhile1,
    }

    #[derive(Clone, Copy, Debug, PartialEq, Eq)]
    pub struct Error<I> {
        pub input: I,
        pub code: ErrorKind,
    }

    impl<I> Error<I> {
        pub fn new(input: I, code: ErrorKind) -> Self {
            Self { input, code }
        }
    }
}

use error::{Error, ErrorKind};

fn fail<I, O>(input: I, code: ErrorKind) -> IResult<I, O> {
    Err(Err::Error(Error::new(input, code)))
}

/// Every function from an input to a result is a parser.
pub trait Parser<I> {
    type Output;

    fn parse(&mut self, input: I) -> IResult<I, Self::Output>;
}

impl<I, O, F: FnMut(I) -> IResult<I, O>> Parser<I> for F {
    type Output = O;

    fn parse(&mut self, input: I) -> IResult<I, O> {
        self(input)
    }
}

pub mod bytes {
    pub mod complete {
        use crate::{ErrorKind, IResult, fail};

        pub fn tag<'i>(expected: &str) -> impl Fn(&'i str) -> IResult<&'i str, &'i str> {
            move |input| match input.strip_prefix(expected) {
                Some(rest) => Ok((rest, &input[..expected.len()])),
                None => fail(input, ErrorKind::Tag),
            }
        }

        pub fn take_while1<'i>(belongs: impl Fn(char) -> bool) -> impl Fn(&'i str) -> IResult<&'i str, &'i str> {
            move |input| match input.find(|found| !belongs(found)).unwrap_or(input.len()) {
                0 => fail(input, ErrorKind::TakeWhile1),
                end => Ok((&input[end..], &input[..end])),
            }
        }
    }
}

pub mod character {
    pub mod complete {
        use crate::{ErrorKind, IResult, fail};

        pub fn char<'i>(expected: char) -> impl Fn(&'i str) -> IResult<&'i str, char> {
            move |input| match input.strip_prefix(expected) {
                Some(rest) => Ok((rest, expected)),
                None => fail(input, ErrorKind::Char),
            }
        }
    }
}

pub mod combinator {
    use crate::IResult;

    pub fn opt<'i, O>(
        inner: impl Fn(&'i str) -> IResult<&'i str, O>,
    ) -> impl Fn(&'i str) -> IResult<&'i str, Option<O>> {
        move |input| match inner(input) {
            Ok((rest, value)) => Ok((rest, Some(value))),
            Err(_) => Ok((input, None)),
        }
    }
}
