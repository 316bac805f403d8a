//! Demand 3 on answers: breaks change nothing but the map, appended clause names don't change a reading.

use crate::cases::listed;

pub enum Law {
    /// The case before asks the same without breaks; this is the map that the breaks make, as an answer has it.
    Breaks { map: String },
    /// The case before asks with a book that this one's has more clause names than.
    Appended,
}

impl Law {
    pub fn name(&self) -> &'static str {
        match self {
            Self::Breaks { .. } => "breaks",
            Self::Appended => "appended names",
        }
    }

    /// Lists stand as text, map, records behind the head.
    pub fn holds(&self, before: &str, answer: &str) -> bool {
        match self {
            Self::Appended => !before.starts_with("ok") || before == answer,
            Self::Breaks { map } => {
                let before: Vec<&str> = before.split(" : ").collect();
                let parts: Vec<&str> = answer.split(" : ").collect();
                if before.len() < 3 || parts.len() != before.len() {
                    return false;
                }
                let expected_map = if before[0].starts_with("ok") { map } else { before[2] };
                (0..parts.len()).all(|i| parts[i] == if i == 2 { expected_map } else { before[i] })
            }
        }
    }
}

/// A text with breaks in its gaps, and the map that they make, as an answer has it: entry i is i plus the bytes of all breaks in
/// gaps 0 to i.
pub fn broken(text: &[u8], breaks: &[Vec<u8>], slots: usize) -> (Vec<u8>, String) {
    let mut line = Vec::new();
    let mut map = Vec::new();
    for (index, gap) in breaks.iter().enumerate() {
        line.extend(gap);
        map.push(line.len());
        line.extend(text.get(index));
    }
    (line, listed(&map, slots))
}
