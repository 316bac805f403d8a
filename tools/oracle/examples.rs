//! Puts a file of examples to a program that answers requests, and compares. Usage: examples FILE PROGRAM [--01]
//! With PROGRAM `-` the requests are printed instead. `--01` leaves out what stands behind the line `document 02`: the oracle's Rust knows
//! nothing of it.
//!
//! `let NAME = BYTES` names bytes, `REQUEST => ANSWER` is an example, `#` begins a comment line. BYTES are `"text"` with the
//! escapes \n \r \t \v \f \\ \" \xHH, repeated by `*COUNT`, or names, put together by `+`. In an answer `"text"` stands for its
//! bytes and `2..5` for `2,3,4,5`, with commas between; `refused N PLACE` alone stands for all lent slots zeroed; what follows
//! `...` isn't compared.

use std::collections::HashMap;
use std::io::Write;
use std::process::{Command, ExitCode, Stdio};

type Names = HashMap<String, Vec<u8>>;

struct Example {
    line: usize,
    request: String,
    answer: String,
}

fn main() -> ExitCode {
    let arguments: Vec<String> = std::env::args().skip(1).collect();
    let (file, program, is_01) = match arguments.iter().map(String::as_str).collect::<Vec<_>>()[..] {
        [file, program] => (file, program, false),
        [file, program, "--01"] => (file, program, true),
        _ => {
            eprintln!("usage: examples FILE PROGRAM [--01]");
            return ExitCode::from(2);
        }
    };
    let text = std::fs::read_to_string(file).expect("the file of examples");
    let examples = examples(&text, is_01);
    let requests: String = examples.iter().map(|e| e.request.clone() + "\n").collect();
    if program == "-" {
        print!("{requests}");
        return ExitCode::SUCCESS;
    }
    let answers = answers(program, requests);
    let differences = compare(&examples, &answers);
    println!("{} examples, {differences} differ", examples.len());
    ExitCode::from(u8::from(differences > 0 || examples.is_empty()))
}

fn answers(program: &str, requests: String) -> Vec<String> {
    let mut child = Command::new(program)
        .stdin(Stdio::piped())
        .stdout(Stdio::piped())
        .spawn()
        .expect("the program starts");
    let mut input = child.stdin.take().expect("a pipe");
    let writer = std::thread::spawn(move || input.write_all(requests.as_bytes()));
    let output = child.wait_with_output().expect("the program ends");
    // A program that stops early is seen by its missing answers.
    let _ = writer.join().expect("the writer ends");
    let output = String::from_utf8_lossy(&output.stdout).into_owned();
    output.lines().map(str::to_string).collect()
}

fn compare(examples: &[Example], answers: &[String]) -> usize {
    let mut differences = 0;
    for (index, example) in examples.iter().enumerate() {
        let found = answers.get(index).map_or("(no answer)", String::as_str);
        let agrees = match example.answer.strip_suffix(" ...") {
            Some(head) => found.strip_prefix(head).is_some_and(|rest| rest.starts_with(" :")),
            None => found == example.answer,
        };
        if !agrees {
            differences += 1;
            println!("line {}: {}", example.line, shortened(&example.request));
            println!("  expected {}", shortened(&example.answer));
            println!("  answered {}", shortened(found));
        }
    }
    differences + answers.len().saturating_sub(examples.len())
}

fn shortened(text: &str) -> String {
    match text.char_indices().nth(300) {
        Some((end, _)) => format!("{}... ({} bytes)", &text[..end], text.len()),
        None => text.to_string(),
    }
}

fn examples(text: &str, is_01: bool) -> Vec<Example> {
    let mut names = Names::new();
    let mut examples = Vec::new();
    for (index, line) in text.lines().enumerate() {
        let line_number = index + 1;
        let line = line.trim();
        if is_01 && line == "document 02" {
            break;
        }
        if line.is_empty() || line.starts_with('#') || line == "document 02" {
            continue;
        }
        if let Some(definition) = line.strip_prefix("let ") {
            let (name, bytes) = definition.split_once(" = ").expect("a definition");
            names.insert(name.to_string(), bytes_of(bytes, &names));
            continue;
        }
        let Some((request, answer)) = line.rsplit_once(" => ") else {
            panic!("line {line_number}: neither a definition nor an example");
        };
        let words = parts(request, ' ');
        examples.push(Example {
            line: line_number,
            request: request_of(&words, &names),
            answer: answer_of(answer, &words),
        });
    }
    examples
}

/// The positions of the words that are bytes, by call.
fn byte_words(call: &str) -> &'static [usize] {
    match call {
        "trim" | "book" => &[1],
        "split" | "join" => &[5],
        "copy" => &[2],
        "seq" => &[2, 3],
        "line" => &[6, 7],
        _ => &[],
    }
}

fn request_of(words: &[String], names: &Names) -> String {
    let is_raw = words[0] == "raw";
    let words = if is_raw { &words[1..] } else { words };
    let written = words.iter().enumerate().map(|(index, word)| {
        if !is_raw && byte_words(&words[0]).contains(&index) {
            hexadecimal(&bytes_of(word, names))
        } else {
            word.clone()
        }
    });
    written.collect::<Vec<_>>().join(" ")
}

fn hexadecimal(bytes: &[u8]) -> String {
    if bytes.is_empty() {
        return "-".to_string();
    }
    bytes.iter().map(|byte| format!("{byte:02x}")).collect()
}

/// A refusal without lists gets those that it leaves: every slot zero.
fn answer_of(answer: &str, words: &[String]) -> String {
    let slots: &[usize] = match words[0].as_str() {
        "split" => &[4],
        "join" => &[3, 4],
        "copy" | "seq" => &[1],
        "line" => &[3, 4, 5],
        _ => &[],
    };
    if answer.starts_with("refused") && !answer.contains(':') {
        let lists = slots.iter().map(|slot| format!(" : +{}", words[*slot]));
        return answer.to_string() + &lists.collect::<String>();
    }
    let lists = parts(answer, ' ').into_iter().map(|word| numbers_of(&word));
    lists.collect::<Vec<_>>().join(" ")
}

/// Quoted bytes and ranges written out as numbers.
fn numbers_of(word: &str) -> String {
    if word == "..." || !(word.contains('"') || word.contains("..")) {
        return word.to_string();
    }
    let (list, zeros) = word.rsplit_once('+').expect("a list with its zeros");
    let mut numbers = Vec::new();
    for part in parts(list, ',') {
        if part.starts_with('"') {
            numbers.extend(quoted(&part).into_iter().map(usize::from));
        } else if let Some((first, last)) = part.split_once("..") {
            numbers.extend(number(first)..=number(last));
        } else {
            numbers.push(number(&part));
        }
    }
    let numbers: Vec<String> = numbers.iter().map(usize::to_string).collect();
    format!("{}+{zeros}", numbers.join(","))
}

fn number(digits: &str) -> usize {
    digits.parse().expect("a number")
}

/// Cuts at a letter outside quotes.
fn parts(text: &str, at: char) -> Vec<String> {
    let mut parts = vec![String::new()];
    let (mut is_quoted, mut escaped) = (false, false);
    for letter in text.chars() {
        if letter == at && !is_quoted {
            parts.push(String::new());
            continue;
        }
        is_quoted ^= letter == '"' && !escaped;
        escaped = letter == '\\' && !escaped;
        parts.last_mut().expect("at least one").push(letter);
    }
    parts
}

fn bytes_of(expression: &str, names: &Names) -> Vec<u8> {
    let mut bytes = Vec::new();
    for term in parts(expression, '+') {
        let factors = parts(&term, '*');
        let once = match factors[0].starts_with('"') {
            true => quoted(&factors[0]),
            false => names.get(&factors[0]).expect("a name defined above").clone(),
        };
        let count = factors.get(1).map_or(1, |count| number(count));
        bytes.extend(once.repeat(count));
    }
    bytes
}

fn quoted(literal: &str) -> Vec<u8> {
    let inside = literal.strip_prefix('"').and_then(|rest| rest.strip_suffix('"'));
    let mut letters = inside.expect("a quoted text").chars();
    let mut bytes = Vec::new();
    while let Some(letter) = letters.next() {
        bytes.push(match letter {
            '\\' => escape(&mut letters),
            _ => u8::try_from(letter).expect("a 7-bit letter"),
        });
    }
    bytes
}

fn escape(letters: &mut std::str::Chars) -> u8 {
    match letters.next().expect("an escape") {
        'n' => 10,
        'r' => 13,
        't' => 9,
        'v' => 11,
        'f' => 12,
        'x' => {
            let digits: String = letters.take(2).collect();
            u8::from_str_radix(&digits, 16).expect("two hexadecimal digits")
        }
        other => u8::try_from(other).expect("a 7-bit letter"),
    }
}
