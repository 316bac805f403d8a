//! Generates requests, puts them to the oracle and to the probe, and compares the answers. `tools/differential` runs it.

mod books;
mod cases;
mod due;
mod generate;
mod hash;
mod laws;
mod literal;
mod random;
mod report;
mod run;
mod texts;

use cases::Call;
use due::Due;
use report::Comparison;
use run::Program;
use std::path::{Path, PathBuf};
use std::process::ExitCode;

const USAGE: &str = "usage: tools/differential [--call CALL,..] [--count N] [--seed S] [--small] [--show N]
                          [--probe PATH] [--oracle PATH] [--examples PATH] [--emit N] [--answers]";

const COUNT: usize = 100_000;
const SMALL_COUNT: usize = 5_000;

/// A sample is an even choice from so many times its size, without its longest requests.
const SAMPLE_FROM: usize = 20;
const SAMPLE_LONGEST: usize = 1_500;

struct Options {
    calls: Option<Vec<Call>>,
    count: usize,
    seed: u64,
    show: usize,
    emit: Option<usize>,
    answers: bool,
    /// Requests that go before the generated ones.
    examples: Vec<String>,
    probe: PathBuf,
    oracle: PathBuf,
    scratch: PathBuf,
}

fn main() -> ExitCode {
    let arguments: Vec<String> = std::env::args().skip(1).collect();
    match options(&arguments) {
        Ok(options) => match options.emit {
            Some(size) => emit(&options, size),
            None if options.answers => answer(&options),
            None => compare(&options),
        },
        Err(problem) => {
            eprintln!("{problem}\n{USAGE}");
            ExitCode::from(2)
        }
    }
}

fn options(arguments: &[String]) -> Result<Options, String> {
    let mut options = Options {
        calls: None,
        count: COUNT,
        seed: 1,
        show: 50,
        emit: None,
        answers: false,
        examples: Vec::new(),
        probe: "target/bin/probe".into(),
        oracle: "target/oracle/oracle".into(),
        scratch: "target/differential".into(),
    };
    let mut rest = arguments.iter();
    while let Some(option) = rest.next() {
        if option == "--small" {
            options.count = SMALL_COUNT;
            continue;
        }
        if option == "--answers" {
            options.answers = true;
            continue;
        }
        let value = rest.next().ok_or(format!("{option} wants a value"))?;
        match option.as_str() {
            "--call" => options.calls = Some(calls(value)?),
            "--count" => options.count = number(value)?,
            "--seed" => options.seed = number(value)? as u64,
            "--show" => options.show = number(value)?,
            "--emit" => options.emit = Some(number(value)?),
            "--examples" => options.examples = lines(value)?,
            "--probe" => options.probe = value.into(),
            "--oracle" => options.oracle = value.into(),
            "--scratch" => options.scratch = value.into(),
            _ => return Err(format!("{option} is unknown")),
        }
    }
    Ok(options)
}

fn number(digits: &str) -> Result<usize, String> {
    digits.parse().map_err(|_| format!("{digits} is no number"))
}

fn lines(path: &str) -> Result<Vec<String>, String> {
    let text = std::fs::read_to_string(path).map_err(|error| format!("{path}: {error}"))?;
    Ok(text.lines().map(str::to_string).collect())
}

fn calls(words: &str) -> Result<Vec<Call>, String> {
    let call = |word| Call::named(word).ok_or(format!("{word} is no call"));
    words.split(',').map(call).collect()
}

fn oracle(options: &Options) -> Program {
    Program {
        name: "oracle",
        path: options.oracle.clone(),
    }
}

fn compare(options: &Options) -> ExitCode {
    let oracle = oracle(options);
    let probe = Program {
        name: "probe",
        path: options.probe.clone(),
    };
    let calls = options
        .calls
        .clone()
        .unwrap_or_else(|| known_calls(&probe, &options.scratch));
    if calls.is_empty() {
        println!("the probe answers no call yet");
        return ExitCode::FAILURE;
    }
    let mut comparison = Comparison::new(&oracle, &probe, &options.scratch, options.show);
    for call in calls {
        for example in options.examples.iter().filter(|request| belongs(request, call)) {
            comparison.take(example.clone().into());
        }
        generate::generate(call, options.count, options.seed, &mut |case| comparison.take(case));
        comparison.finish(call);
    }
    match comparison.differences {
        0 => {
            println!("no difference");
            ExitCode::SUCCESS
        }
        count => {
            println!(
                "{count} differences; their requests are in {}/different",
                options.scratch.display()
            );
            ExitCode::FAILURE
        }
    }
}

/// A request that names no call goes with the first.
fn belongs(request: &str, call: Call) -> bool {
    let word = request.split(' ').next().unwrap_or_default();
    Call::named(word).unwrap_or(Call::ALL[0]) == call
}

/// The calls that the probe doesn't put off.
fn known_calls(probe: &Program, scratch: &Path) -> Vec<Call> {
    let known = Call::ALL.into_iter().filter(|call| {
        let is_known = probe.ask(call.simplest(), scratch) != "not yet";
        if !is_known {
            println!("{}: not yet", call.word());
        }
        is_known
    });
    known.collect()
}

/// Prints the answers due to the requests of standard input.
fn answer(options: &Options) -> ExitCode {
    let oracle = oracle(options);
    let text = std::io::read_to_string(std::io::stdin()).expect("requests");
    let requests: Vec<&str> = text.lines().collect();
    let due = Due::of(&requests);
    let asked = [requests.clone(), due.more()].concat();
    for answer in due.answers(&oracle.answers(&asked, &options.scratch).lines) {
        println!("{}", answer.text);
    }
    ExitCode::SUCCESS
}

/// Prints requests for a stored sample: the examples, and as many as told in equal parts for each call.
fn emit(options: &Options, size: usize) -> ExitCode {
    let calls = options.calls.clone().unwrap_or(Call::ALL.to_vec());
    let share = size.div_ceil(calls.len());
    for example in &options.examples {
        println!("{example}");
    }
    for call in calls {
        let mut requests = Vec::new();
        generate::generate(call, share * SAMPLE_FROM, options.seed, &mut |case| {
            if case.request.len() <= SAMPLE_LONGEST {
                requests.push(case.request);
            }
        });
        for index in 0..share.min(requests.len()) {
            println!("{}", requests[index * requests.len() / share]);
        }
    }
    ExitCode::SUCCESS
}
