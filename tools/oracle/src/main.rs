//! Answers requests about directive lines by the published Rust, with document 01's composition around it.
//!
//! One request a line on standard input, one answer a line on standard output. README.md describes both.

mod answer;
mod book;
mod calls;
mod request;

// The published modules, and a stand-in where one of them needs a type of a module that isn't published.
#[allow(dead_code)]
mod delimiter;
#[allow(dead_code)]
mod lexer;
mod parser;
#[allow(dead_code)]
mod source;

use book::Shelf;
use request::Request;
use std::io::{self, BufRead, BufWriter, Write};

fn answer(line: &[u8], shelf: &mut Shelf) -> String {
    let Some(request) = Request::parse(line) else {
        return "bad request".to_string();
    };
    calls::answer(&request, shelf).unwrap_or_else(|_| "oracle inconsistent".to_string())
}

fn main() -> io::Result<()> {
    let mut input = io::stdin().lock();
    let mut output = BufWriter::new(io::stdout().lock());
    let mut shelf = Shelf::default();
    let mut line = Vec::new();
    while input.read_until(b'\n', &mut line)? > 0 {
        let request = line.strip_suffix(b"\n").unwrap_or(&line);
        writeln!(output, "{}", answer(request, &mut shelf))?;
        line.clear();
    }
    output.flush()
}
