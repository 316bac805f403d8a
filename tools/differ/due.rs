//! The answers that are due to requests: the Rust's, but for what document 02 has changed.

use crate::{hash, literal};

/// A request of document 02 that judges an answer in the place of the Rust.
enum Judgement {
    Hash(hash::Judgement),
    Literal(literal::Judgement),
}

impl Judgement {
    fn of(request: &str) -> Option<Self> {
        let hash = hash::Judgement::of(request).map(Self::Hash);
        hash.or_else(|| literal::Judgement::of(request).map(Self::Literal))
    }

    /// What the Rust is asked besides.
    fn asked(&self) -> Vec<&str> {
        match self {
            Self::Hash(judgement) => judgement.asked(),
            Self::Literal(judgement) => judgement.asked(),
        }
    }

    /// The answer due, by the Rust's answers to the request and to what it is asked besides; none if its own counts.
    fn answer(&self, own: &str, more: &[&str]) -> Option<Answer> {
        let (rule, text) = match self {
            Self::Hash(judgement) => ("trivia behind the hash", judgement.answer(own, more)?),
            Self::Literal(judgement) => ("backslashes in Fortran's literals", judgement.answer(own, more)?),
        };
        Some(Answer { text, rule: Some(rule) })
    }
}

pub struct Answer {
    pub text: String,
    /// What of document 02 has judged it; none if it is the Rust's own.
    pub rule: Option<&'static str>,
}

/// How each request is judged; by the Rust's answer where nothing else is said.
pub struct Due {
    judgements: Vec<Option<Judgement>>,
}

impl Due {
    pub fn of(requests: &[&str]) -> Self {
        Self {
            judgements: requests.iter().map(|request| Judgement::of(request)).collect(),
        }
    }

    /// What the Rust is asked behind the requests themselves.
    pub fn more(&self) -> Vec<&str> {
        self.judgements.iter().flatten().flat_map(Judgement::asked).collect()
    }

    /// Its answers to the requests, with those that are judged otherwise replaced.
    pub fn answers(&self, lines: &[String]) -> Vec<Answer> {
        let mut more = lines.iter().skip(self.judgements.len()).map(String::as_str);
        let mut answers = Vec::new();
        for (judgement, own) in self.judgements.iter().zip(lines) {
            let judged = judgement.as_ref().and_then(|judgement| {
                let besides: Vec<&str> = judgement.asked().iter().filter_map(|_| more.next()).collect();
                judgement.answer(own, &besides)
            });
            answers.push(judged.unwrap_or_else(|| Answer {
                text: own.clone(),
                rule: None,
            }));
        }
        answers
    }
}
