//! Compares answers, prints what differs, counts the rest.

use crate::cases::{Call, Case};
use crate::due::{Answer, Due};
use crate::run::{Answers, Program, ask_both};
use std::collections::BTreeMap;
use std::fs::File;
use std::io::Write;
use std::path::{Path, PathBuf};

const BATCH_CASES: usize = 50_000;
const BATCH_BYTES: usize = 4_000_000;
const SHOWN_LETTERS: usize = 1_000;

/// Answer kinds in the order in which they are listed.
#[derive(PartialEq, Eq, PartialOrd, Ord)]
enum Kind {
    Given,
    Refused(u32),
    Other(String),
}

impl Kind {
    fn of(answer: &str) -> Self {
        let mut words = answer.split(' ');
        match (words.next(), words.next().and_then(|number| number.parse().ok())) {
            (Some("ok"), _) => Self::Given,
            (Some("refused"), Some(number)) => Self::Refused(number),
            _ => Self::Other(answer.chars().take(40).collect()),
        }
    }

    fn text(&self) -> String {
        match self {
            Self::Given => "ok".to_string(),
            Self::Refused(number) => format!("refused {number}"),
            Self::Other(answer) => answer.clone(),
        }
    }
}

/// How often something was looked at, and how often on a given answer.
#[derive(Default)]
struct Count {
    all: usize,
    given: usize,
}

impl Count {
    fn count(&mut self, answer: &str) {
        self.all += 1;
        self.given += usize::from(answer.starts_with("ok"));
    }
}

pub struct Comparison<'a> {
    oracle: &'a Program,
    probe: &'a Program,
    scratch: PathBuf,
    /// At most so many differences are shown; all are counted, and kept in a file.
    show: usize,
    kept: File,
    pub differences: usize,
    batch: Vec<Case>,
    batch_bytes: usize,
    kinds: BTreeMap<Kind, usize>,
    laws: BTreeMap<&'static str, Count>,
    /// What the Rust's own answer doesn't judge, by what judges it.
    judged: BTreeMap<&'static str, Count>,
}

impl<'a> Comparison<'a> {
    pub fn new(oracle: &'a Program, probe: &'a Program, scratch: &Path, show: usize) -> Self {
        Self {
            oracle,
            probe,
            scratch: scratch.to_path_buf(),
            show,
            kept: File::create(scratch.join("different")).expect("a scratch file"),
            differences: 0,
            batch: Vec::new(),
            batch_bytes: 0,
            kinds: BTreeMap::new(),
            laws: BTreeMap::new(),
            judged: BTreeMap::new(),
        }
    }

    /// A case with a law stays in the batch of the case before it.
    pub fn take(&mut self, case: Case) {
        let is_full = self.batch.len() >= BATCH_CASES || self.batch_bytes >= BATCH_BYTES;
        if is_full && case.law.is_none() {
            self.compare_batch();
        }
        self.batch_bytes += case.request.len();
        self.batch.push(case);
    }

    fn compare_batch(&mut self) {
        let batch = std::mem::take(&mut self.batch);
        self.batch_bytes = 0;
        if batch.is_empty() {
            return;
        }
        let requests: Vec<&str> = batch.iter().map(|case| case.request.as_str()).collect();
        let due = Due::of(&requests);
        let asked = [requests.clone(), due.more()].concat();
        let [oracle, probe] = ask_both([(self.oracle, &asked), (self.probe, &requests)], &self.scratch);
        for answers in [&oracle, &probe] {
            self.check_end(&batch, answers);
        }
        let answers = due.answers(&oracle.lines);
        for (index, case) in batch.iter().enumerate() {
            let (Some(answer), Some(found)) = (answers.get(index), probe.lines.get(index)) else {
                break;
            };
            *self.kinds.entry(Kind::of(&answer.text)).or_default() += 1;
            if let Some(rule) = answer.rule {
                self.judged.entry(rule).or_default().count(&answer.text);
            }
            if answer.text != *found || answer.text == "oracle inconsistent" {
                self.differs(&[&case.request], &[("due", &answer.text), ("probe", found)]);
            }
            // The probe's answers are these, or differ already.
            self.check_law(&batch, index, &answers);
        }
    }

    fn check_end(&mut self, batch: &[Case], answers: &Answers) {
        let Some(failure) = &answers.failure else {
            return;
        };
        let first = batch
            .get(answers.lines.len())
            .map_or("(none)", |case| case.request.as_str());
        self.differs(
            &[first],
            &[("failure", failure), ("above", "the first request without an answer")],
        );
    }

    fn check_law(&mut self, batch: &[Case], index: usize, answers: &[Answer]) {
        let Some(law) = &batch[index].law else {
            return;
        };
        let (before, answer) = (&answers[index - 1].text, &answers[index].text);
        self.laws.entry(law.name()).or_default().count(before);
        if !law.holds(before, answer) {
            self.differs(
                &[&batch[index - 1].request, &batch[index].request],
                &[("law", law.name()), ("first", before), ("second", answer)],
            );
        }
    }

    fn differs(&mut self, requests: &[&str], answers: &[(&str, &str)]) {
        self.differences += 1;
        for request in requests {
            writeln!(self.kept, "{request}").expect("the scratch file takes all");
        }
        if self.differences > self.show {
            return;
        }
        for request in requests {
            println!("differs: {}", shortened(request));
        }
        for (who, answer) in answers {
            println!("  {who}: {}", shortened(answer));
        }
    }

    /// Prints the counts of a call.
    pub fn finish(&mut self, call: Call) {
        self.compare_batch();
        let total: usize = self.kinds.values().sum();
        let kinds: Vec<String> = self
            .kinds
            .iter()
            .map(|(kind, n)| format!("{} {n}", kind.text()))
            .collect();
        println!("{}: {total} compared ({})", call.word(), kinds.join(", "));
        println!("  not the Rust's but added: {}", call.added());
        for (law, count) in &self.laws {
            println!("  {law}: {} pairs, {} of them readings", count.all, count.given);
        }
        for (rule, count) in &self.judged {
            println!(
                "  {rule}: {} of these judged by document 02 in place of the Rust, {} of them readings",
                count.all, count.given
            );
        }
        self.kinds.clear();
        self.laws.clear();
        self.judged.clear();
    }
}

fn shortened(text: &str) -> String {
    match text.char_indices().nth(SHOWN_LETTERS) {
        Some((end, _)) => format!("{}... ({} letters)", &text[..end], text.len()),
        None => text.to_string(),
    }
}
