//! Inputs made to be slow, which need no published Rust: the hostile rows alone, a search for worse ones, and the stack of each call.
#![allow(dead_code)]

mod genome;
mod hostile;
mod ours;
mod search;
mod stack;
mod timing;
mod work;

fn number(words: &[String], at: usize, otherwise: u64) -> u64 {
    words.get(at).map_or(otherwise, |word| {
        word.parse().unwrap_or_else(|_| panic!("{word} is no number"))
    })
}

fn main() {
    let mut words: Vec<String> = std::env::args().skip(1).collect();
    match words.first().map(String::as_str) {
        Some("--search") => {
            let fresh = words.iter().any(|word| word == "--fresh");
            words.retain(|word| !word.starts_with("--"));
            search::run(number(&words, 0, 600), number(&words, 1, 1), fresh);
        }
        Some("--stack") => stack::run("books"),
        _ => hostile::rows(|name| words.is_empty() || words.iter().any(|word| name.starts_with(word.as_str()))),
    }
}
