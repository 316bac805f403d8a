//! Puts batches of requests to programs, to two at once.

use std::fs::{self, File};
use std::io;
use std::path::{Path, PathBuf};
use std::process::{Child, Command, Stdio};

pub struct Program {
    pub name: &'static str,
    pub path: PathBuf,
}

/// The answers, and what went wrong if the program did not end well.
pub struct Answers {
    pub lines: Vec<String>,
    pub failure: Option<String>,
}

impl Program {
    fn start(&self, requests: &Path) -> io::Result<Child> {
        Command::new(&self.path)
            .stdin(File::open(requests)?)
            .stdout(Stdio::piped())
            .spawn()
    }

    fn finish(&self, started: io::Result<Child>, expected: usize) -> Answers {
        let output = match started.and_then(Child::wait_with_output) {
            Ok(output) => output,
            Err(error) => {
                let failure = Some(format!("{} can't be run: {error}", self.name));
                return Answers {
                    lines: Vec::new(),
                    failure,
                };
            }
        };
        let lines: Vec<String> = String::from_utf8_lossy(&output.stdout)
            .lines()
            .map(str::to_string)
            .collect();
        let failure = if !output.status.success() {
            Some(format!("{} ended with {}", self.name, output.status))
        } else if lines.len() != expected {
            Some(format!(
                "{} gave {} answers to {expected} requests",
                self.name,
                lines.len()
            ))
        } else {
            None
        };
        Answers { lines, failure }
    }

    /// The answers to requests, in order.
    pub fn answers(&self, requests: &[&str], scratch: &Path) -> Answers {
        let file = scratch.join(format!("requests-{}", self.name));
        let lines: String = requests.iter().flat_map(|request| [request, "\n"]).collect();
        let started = fs::write(&file, lines).and_then(|()| self.start(&file));
        self.finish(started, requests.len())
    }

    /// The answer to a single request, empty if there is none.
    pub fn ask(&self, request: &str, scratch: &Path) -> String {
        self.answers(&[request], scratch).lines.pop().unwrap_or_default()
    }
}

/// Each program gets its own requests, through a file, so that neither waits for the other.
pub fn ask_both(programs: [(&Program, &[&str]); 2], scratch: &Path) -> [Answers; 2] {
    let [first, second] = programs;
    std::thread::scope(|scope| {
        let running = scope.spawn(|| first.0.answers(first.1, scratch));
        let answers = second.0.answers(second.1, scratch);
        [running.join().expect("no panic"), answers]
    })
}
