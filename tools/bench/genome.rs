//! What the search for slow inputs changes: the pieces of a text, the names of a book, and the numbers of a call.

use crate::hostile::{Row, copies, small_book};
use crate::ours::{C, FORTRAN_FIXED, FORTRAN_FREE};
use crate::work::{Call, Input, book, readable};

/// Numbers that a seed decides (splitmix64).
pub struct Random(pub u64);

impl Random {
    pub fn draw(&mut self) -> u64 {
        self.0 = self.0.wrapping_add(0x9e37_79b9_7f4a_7c15);
        let mut z = self.0;
        z = (z ^ (z >> 30)).wrapping_mul(0xbf58_476d_1ce4_e5b9);
        z = (z ^ (z >> 27)).wrapping_mul(0x94d0_49bb_1331_11eb);
        z ^ (z >> 31)
    }

    pub fn below(&mut self, count: usize) -> usize {
        (self.draw() % count as u64) as usize
    }

    pub fn once_in(&mut self, times: usize) -> bool {
        self.below(times) == 0
    }

    fn one_of<T: Copy>(&mut self, list: &[T]) -> T {
        list[self.below(list.len())]
    }
}

/// Bytes that stand once, or over and over up to their share of the text.
#[derive(Clone, PartialEq)]
pub struct Part {
    pub bytes: Vec<u8>,
    pub repeated: bool,
}

/// Names of a book: a stem with a number in it, written in two letters.
#[derive(Clone, PartialEq)]
pub struct Names {
    count: usize,
    stem: Vec<u8>,
    number_at: usize,
    digits: [u8; 2],
    /// The number of one name from that of the one before, odd.
    stride: usize,
    /// Every so manieth letter is in upper case, another one in each name; 0 for none.
    upper: usize,
    /// Every so manieth byte of a directive's name is a blank, 0 for none: in all names, or in the last eight, in each from a later letter on.
    blanks: usize,
    few_blanked: bool,
}

#[derive(Clone, PartialEq)]
pub enum BookGene {
    /// One directive `p`, the clauses `a` and `b`.
    Small,
    /// Many names, of clauses, and of directives too or `p` alone.
    Made { names: Names, directives: bool },
    /// As it is, from a known row.
    Fixed(Vec<u8>),
}

#[derive(Clone, PartialEq)]
pub struct Genome {
    pub parts: Vec<Part>,
    book: BookGene,
    default: u8,
    blanks_optional: bool,
    language: u32,
    colon: bool,
    angles: bool,
    /// Bytes of a line or text where a call reads many.
    one: usize,
}

/// What is searched: a call, in a language if it has one, under a small book or one of many names.
#[derive(Clone, Copy, PartialEq)]
pub struct Target {
    pub call: Call,
    pub title: &'static str,
    language: Option<u32>,
    named: bool,
}

pub fn targets() -> Vec<Target> {
    let (language, colon, angles) = (C, false, false);
    let target = |title, call, language| Target {
        call,
        title,
        language,
        named: false,
    };
    let named = |title, call, language| Target {
        call,
        title,
        language,
        named: true,
    };
    let join = |title, language| target(title, Call::Join { language }, Some(language));
    let line = |title, language| target(title, Call::Line { language }, Some(language));
    vec![
        target("trim", Call::Trim, None),
        target(
            "split",
            Call::Split {
                language,
                colon,
                angles,
            },
            None,
        ),
        join("join, C", C),
        join("join, free form", FORTRAN_FREE),
        join("join, fixed form", FORTRAN_FIXED),
        target("copy", Call::Copy, None),
        named("check_book", Call::Book, None),
        target("sequence, C", Call::Sequence, Some(C)),
        target("sequence, Fortran", Call::Sequence, Some(FORTRAN_FREE)),
        named("sequence, many names", Call::Sequence, None),
        line("line, C", C),
        line("line, free form", FORTRAN_FREE),
        line("line, fixed form", FORTRAN_FIXED),
        named(
            "line, many names",
            Call::Line { language: FORTRAN_FREE },
            Some(FORTRAN_FREE),
        ),
        target("lines", Call::Lines { language }, None),
        named("lines, many names", Call::Lines { language }, None),
        target("sequences", Call::Sequences, None),
        named("sequences, many names", Call::Sequences, None),
    ]
}

#[rustfmt::skip]
const TOKENS: [&str; 86] = [
    "a", "b", "p", "a()", "a()//", "a()!", "a()!$", "a('')", "a(", "()", "(", ")", "[", "]", "{", "}", "<", ">", ",", ":", "?", "=", "'",
    "\"", "''", "\\", "\\\\", "\\'", "/", "*", "/*", "*/", "/**/", "//", "!", "!$", "!$*/", "//*/", "!$/*'*/", "&", "&!", "&\n", "&\r\n",
    "&\t", "& !\n", "\\\n", "\\\r\n", "\n", "\r", "\r\n", "\t", "\u{b}", "\u{c}", " ", "  ", "        ", "\t\t", "\u{b}\u{b}", "!$omp",
    "!$omp&", "!$acc", "c$omp", "c$omp&", "*$", "&\n!$omp&", "&\nc$omp", "#", "omp", "acc", "A", "z", "0", "_", "aa", "a a", "a,", "<1",
    "<=", "::", "?:", "(((((((([", ")", "'a'", "('')", "'\\'", "(/**/)",
];

const MOST_PARTS: usize = 6;
const MOST_BYTES: usize = 400;

/// Ends of what may be open at the end of a text: without them most texts are refused there, or end early.
const CLOSINGS: [&str; 12] = [
    "*/",
    "'",
    "\"",
    "//*/",
    "!$*/",
    "!$/*'*/",
    "/*'*/",
    "//\r/*'*/\n",
    "\n",
    ")",
    "a",
    "!$'",
];

const DIGITS: &[u8] = b"p0q1ayZ9_b";

impl Names {
    fn random(random: &mut Random) -> Self {
        let letters = [b"p".as_slice(), b"qQ", b"pq_0", b"abcdefgh"][random.below(4)];
        let length = random.below(56);
        Self {
            count: random.one_of(&[15, 63, 255, 255]),
            stem: (0..length).map(|_| random.one_of(letters)).collect(),
            number_at: random.below(56),
            digits: [random.one_of(DIGITS), random.one_of(DIGITS)],
            stride: random.one_of(&[1, 1, 167, 3]),
            upper: random.below(4),
            blanks: random.one_of(&[0, 0, 2, 2, 3, 8]),
            few_blanked: random.once_in(2),
        }
    }

    fn mutate(&mut self, random: &mut Random) {
        match random.below(9) {
            0 => self.count = (self.count * 2 % 509).clamp(1, 255),
            1 => self.number_at = random.below(56),
            2 => self.digits[random.below(2)] = random.one_of(DIGITS),
            3 => self.stride = 1 + 2 * random.below(256),
            4 => self.upper = random.below(4),
            5 if random.once_in(3) => self.few_blanked = !self.few_blanked,
            5 => self.blanks = random.below(5),
            6 if self.stem.len() < 55 => self.stem.push(random.one_of(b"pqP_0a")),
            7 if !self.stem.is_empty() => {
                let at = random.below(self.stem.len());
                self.stem[at] = random.one_of(b"pqP_0a");
            }
            _ => self.stem.resize(random.below(56), b'p'),
        }
    }

    fn name(&self, number: usize, blanked: bool) -> String {
        let counted = number * self.stride % 256;
        let mut name = self.stem.clone();
        let at = self.number_at.min(name.len());
        name.splice(at..at, (0..8).map(|bit| self.digits[counted >> bit & 1]));
        for (place, letter) in name.iter_mut().enumerate() {
            if self.upper > 0 && (place * 7 + number) % (self.upper + 1) == 0 {
                letter.make_ascii_uppercase();
            }
        }
        let last = name.len() - 1;
        let from = match (self.few_blanked, (number + 8).checked_sub(self.count)) {
            (false, _) => 1,
            (true, Some(turn)) => 1 + 8 * turn,
            (true, None) => last,
        };
        for place in from..last {
            if blanked && self.blanks > 1 && place % self.blanks == 1 && !(at..at + 8).contains(&place) {
                name[place] = b' ';
            }
        }
        String::from_utf8(name).expect("letters")
    }

    fn list(&self, count: usize, blanked: bool) -> Vec<String> {
        (0..count).map(|number| self.name(number, blanked)).collect()
    }
}

/// Clauses with comments behind them, in which something opens, and what may close it: texts that two readers can take apart differently.
fn commented(random: &mut Random) -> Vec<Part> {
    let clause = random.one_of(&["a()", "a('')", "a", "a(/**/)", "a('\\'')", "a,"]);
    let comment = random.one_of(&["//", "!", "!$", "/*", "&", "&!", ""]);
    let turn = random.one_of(&["", "\r", "\u{b}", "\t"]);
    let opener = random.one_of(&["", "/*", "'", "\"", "/*&\u{b}", "!", "("]);
    let end = random.one_of(&["\n", "\r\n", " ", ""]);
    let unit = [clause, comment, turn, opener, end].concat();
    let closing = random.one_of(&CLOSINGS);
    let part = |text: &str, repeated| Part {
        bytes: text.into(),
        repeated,
    };
    vec![part(&unit, true), part(closing, false)]
        .into_iter()
        .filter(|part| !part.bytes.is_empty())
        .collect()
}

impl Genome {
    pub fn random(random: &mut Random, target: Target) -> Self {
        let mut genome = Self {
            parts: Vec::new(),
            book: BookGene::Small,
            default: random.one_of(&[2, 2, 0, 1, 3]),
            blanks_optional: random.once_in(2),
            language: random.below(3) as u32,
            colon: random.once_in(2),
            angles: random.once_in(2),
            one: 16 << random.below(8),
        };
        if target.named {
            genome.book = BookGene::Made {
                names: Names::random(random),
                directives: random.once_in(2),
            };
        }
        genome.settle(target);
        if random.once_in(2) {
            genome.parts = commented(random);
            return genome;
        }
        for _ in 0..1 + random.below(3) {
            let mut bytes = Vec::new();
            for _ in 0..1 + random.below(5) {
                bytes.extend(genome.token(random));
            }
            let repeated = !random.once_in(3);
            genome.parts.push(Part { bytes, repeated });
        }
        genome
    }

    /// What a known row is made of.
    pub fn of_row(row: &Row, target: Target) -> Option<Self> {
        let input = (row.input)(2);
        let language = match input.call {
            Call::Split { language, .. }
            | Call::Join { language }
            | Call::Line { language }
            | Call::Lines { language } => language,
            _ => u32::from(input.book.get(5).is_some_and(|flags| flags % 2 == 1)),
        };
        if input.call.name() != target.call.name()
            || target.language.is_some_and(|due| due != language)
            || input.call == Call::Book
        {
            return None;
        }
        if target.named != (input.book.len() > 200) {
            return None;
        }
        let (colon, angles) = if let Call::Split { colon, angles, .. } = input.call {
            (colon, angles)
        } else {
            (false, false)
        };
        let once = |bytes: &[u8]| Part {
            bytes: bytes.to_vec(),
            repeated: false,
        };
        let parts = match &row.family {
            Some(family) => {
                let repeated = |unit: &str| Part {
                    bytes: unit.into(),
                    repeated: true,
                };
                let [head, middle, tail] = [family.head, family.middle, family.tail].map(|text| once(text.as_bytes()));
                vec![head, repeated(family.unit), middle, repeated(family.second), tail]
            }
            None => vec![once(
                &input.text[..input.ends.first().copied().unwrap_or(input.text.len())],
            )],
        };
        let parts = parts.into_iter().filter(|part| !part.bytes.is_empty()).collect();
        let one = input.ends.first().copied().unwrap_or(0);
        Some(Self {
            parts,
            book: BookGene::Fixed(input.book),
            default: 2,
            blanks_optional: false,
            language,
            colon,
            angles,
            one,
        })
    }

    /// The genes that the target decides.
    fn settle(&mut self, target: Target) {
        if let Some(language) = target.language {
            self.language = language;
        }
        if !target.named && matches!(self.book, BookGene::Made { .. }) {
            self.book = BookGene::Small;
        }
    }

    fn fortran(&self) -> bool {
        self.language != C
    }

    fn token(&self, random: &mut Random) -> Vec<u8> {
        if let BookGene::Made { names, directives } = &self.book
            && random.once_in(3)
        {
            let mut name = names
                .name(random.below(names.count), *directives && random.once_in(2))
                .into_bytes();
            if random.once_in(3) {
                name.make_ascii_lowercase();
            }
            return name;
        }
        if random.once_in(12) {
            return vec![random.below(128) as u8];
        }
        random.one_of(&TOKENS).into()
    }

    pub fn mutate(&mut self, random: &mut Random, target: Target) {
        for _ in 0..1 + random.below(4) {
            self.mutate_once(random);
        }
        self.settle(target);
        self.parts.retain(|part| !part.bytes.is_empty());
        // what stands once is to be little beside what repeats, or the sizes say nothing
        while self.parts.len() > MOST_PARTS
            || self.parts.iter().map(|part| part.bytes.len()).sum::<usize>() > MOST_BYTES
        {
            let which = random.below(self.parts.len());
            self.parts.remove(which);
        }
        if self.parts.is_empty() {
            let bytes = self.token(random);
            self.parts.push(Part { bytes, repeated: true });
        }
    }

    fn mutate_once(&mut self, random: &mut Random) {
        let token = self.token(random);
        if random.once_in(6) || matches!(self.book, BookGene::Made { .. }) && random.once_in(2) {
            self.mutate_numbers(random);
            return;
        }
        if random.once_in(10) {
            self.parts.push(Part {
                bytes: random.one_of(&CLOSINGS).into(),
                repeated: false,
            });
            return;
        }
        if self.parts.is_empty() || random.once_in(10) {
            let at = random.below(self.parts.len() + 1);
            self.parts.insert(
                at,
                Part {
                    bytes: token,
                    repeated: random.once_in(2),
                },
            );
            return;
        }
        let which = random.below(self.parts.len());
        let other = self.parts[random.below(self.parts.len())].bytes.clone();
        let part = &mut self.parts[which];
        let length = part.bytes.len();
        let start = random.below(length + 1);
        let end = start + random.below(length - start + 1).min(8);
        match random.below(9) {
            0..=2 => drop(part.bytes.splice(start..start, token)),
            3 | 4 => drop(part.bytes.splice(start..end, token)),
            5 => drop(part.bytes.drain(start..end)),
            6 if length + other.len() < 200 => drop(part.bytes.splice(start..start, other)),
            7 => part.repeated = !part.repeated,
            _ => {
                let one = self.parts.remove(which);
                let at = random.below(self.parts.len() + 1);
                if !random.once_in(3) {
                    self.parts.insert(at, one);
                }
            }
        }
    }

    fn mutate_numbers(&mut self, random: &mut Random) {
        match random.below(8) {
            0 => self.default = random.below(4) as u8,
            1 => self.colon = !self.colon,
            2 => self.angles = !self.angles,
            3 => self.language = random.below(3) as u32,
            4 => {
                let most = 16 << random.below(9);
                let one = 8 + random.below(most);
                // as many times in each size as the size has it
                self.one = if one < 512 { one } else { one.next_power_of_two() };
            }
            5 => self.blanks_optional = !self.blanks_optional,
            6 if random.once_in(4) => {
                self.book = BookGene::Made {
                    names: Names::random(random),
                    directives: random.once_in(2),
                };
            }
            _ => match &mut self.book {
                BookGene::Made { names, .. } => names.mutate(random),
                BookGene::Fixed(_) if random.once_in(20) => self.book = BookGene::Small,
                _ => {}
            },
        }
    }

    /// Half of one genome's parts and half of another's, with the numbers of the first.
    pub fn crossed(&self, other: &Self, random: &mut Random) -> Self {
        let mut child = self.clone();
        let (kept, taken) = (random.below(self.parts.len() + 1), random.below(other.parts.len() + 1));
        child.parts.truncate(kept);
        child.parts.extend_from_slice(&other.parts[taken..]);
        child.parts.truncate(5);
        child
    }

    /// Whether a part is repeated: the last is where no other is.
    fn repeats(&self, which: usize) -> bool {
        self.parts[which].repeated || which + 1 == self.parts.len() && self.parts.iter().all(|part| !part.repeated)
    }

    /// The parts in so many bytes: what is left beside those that stand once is shared by those that repeat.
    fn text(&self, size: usize) -> Vec<u8> {
        let repeats: Vec<bool> = (0..self.parts.len()).map(|which| self.repeats(which)).collect();
        let lengths = || self.parts.iter().map(|part| part.bytes.len()).zip(&repeats);
        let once: usize = lengths()
            .filter(|(_, repeats)| !**repeats)
            .map(|(length, _)| length)
            .sum();
        let share = size.saturating_sub(once) / repeats.iter().filter(|repeats| **repeats).count().max(1);
        let mut text = Vec::with_capacity(size);
        for (part, repeats) in self.parts.iter().zip(&repeats) {
            text.extend(part.bytes.repeat(if *repeats { share / part.bytes.len() } else { 1 }));
        }
        text.resize(size, b' ');
        text
    }

    fn flags(&self) -> u8 {
        u8::from(self.fortran()) + 2 * u8::from(self.blanks_optional)
    }

    fn book(&self, target: Target, size: usize) -> Vec<u8> {
        let word = |word: &str| vec![word.to_string()];
        match &self.book {
            BookGene::Fixed(book) => book.clone(),
            BookGene::Small => {
                let mut book = small_book(self.fortran(), self.default);
                book[5] = self.flags();
                book
            }
            BookGene::Made { names, directives } => {
                let sized = if size < 8_192 {
                    63
                } else if size < 16_384 {
                    127
                } else {
                    255
                };
                let count = if target.call == Call::Book { sized } else { names.count };
                let first = if *directives || target.call == Call::Book {
                    names.list(count, true)
                } else {
                    word("p")
                };
                book(self.flags(), self.default, &first, &names.list(count, false))
            }
        }
    }

    /// The input of about so many bytes.
    pub fn input(&self, target: Target, size: usize) -> Input {
        let language = self.language;
        let call = match target.call {
            Call::Split { .. } => Call::Split {
                language,
                colon: self.colon,
                angles: self.angles,
            },
            Call::Lines { .. } => Call::Lines { language },
            call => call,
        };
        let has_book = matches!(
            call,
            Call::Book | Call::Sequence | Call::Line { .. } | Call::Lines { .. } | Call::Sequences
        );
        let book = if has_book { self.book(target, size) } else { Vec::new() };
        let opening = self.opening(target);
        let mut text = opening.as_bytes().to_vec();
        let whole = if matches!(call, Call::Lines { .. } | Call::Sequences) {
            self.one.min(size)
        } else {
            size
        };
        text.extend(self.text(whole.saturating_sub(opening.len())));
        let (text, ends) = match call {
            Call::Lines { .. } | Call::Sequences => copies(&text, size),
            Call::Book => (Vec::new(), Vec::new()),
            _ => (text, Vec::new()),
        };
        Input { call, book, text, ends }
    }

    /// The opening words of a line, unless it has its own.
    fn opening(&self, target: Target) -> &'static str {
        let starts = |word: &str| {
            self.parts
                .first()
                .is_some_and(|part| part.bytes.starts_with(word.as_bytes()))
        };
        if !matches!(target.call, Call::Join { .. } | Call::Line { .. } | Call::Lines { .. })
            || starts("#")
            || starts("!$")
            || starts("c$")
        {
            return "";
        }
        match self.language {
            FORTRAN_FREE => "!$omp p ",
            FORTRAN_FIXED => "c$omp p ",
            _ => "#pragma omp p ",
        }
    }

    /// The parts, those that repeat in brackets, with the numbers that matter to the call.
    pub fn told(&self, target: Target) -> String {
        let mut words: Vec<String> = Vec::new();
        match target.call {
            Call::Split { .. } => {
                words.push(if self.fortran() { "Fortran,".into() } else { "C,".into() });
                words.push(if self.colon { "colons,".into() } else { "commas,".into() });
                words.extend(self.angles.then(|| "angles,".to_string()));
            }
            Call::Lines { .. } | Call::Sequences => words.push(format!(
                "{}, {} bytes each,",
                ["C", "free form", "fixed form"][self.language as usize],
                self.one
            )),
            _ => {}
        }
        if matches!(
            target.call,
            Call::Book | Call::Sequence | Call::Line { .. } | Call::Lines { .. } | Call::Sequences
        ) {
            words.push(self.told_book(target));
        }
        if target.call != Call::Book {
            words.extend((!self.opening(target).is_empty()).then(|| format!("`{}`", self.opening(target))));
            for (which, part) in self.parts.iter().enumerate() {
                let bytes = readable(&part.bytes);
                words.push(if self.repeats(which) {
                    format!("({bytes}) repeated")
                } else {
                    bytes
                });
            }
        }
        words.join(" ")
    }

    fn told_book(&self, target: Target) -> String {
        let blanks = if self.blanks_optional { ", blanks optional" } else { "" };
        match &self.book {
            BookGene::Small => format!("default {}{blanks}:", self.default),
            BookGene::Fixed(book) => format!("book of a known row, {} bytes:", book.len()),
            BookGene::Made { names, directives } => format!(
                "{} names{} as `{}`, `{}`, `{}`, default {}{blanks}:",
                if target.call == Call::Book { 255 } else { names.count },
                if *directives || target.call == Call::Book {
                    " of each kind"
                } else {
                    ""
                },
                names.name(0, *directives),
                names.name(1, *directives),
                names.name(2, *directives),
                self.default
            ),
        }
    }

    /// The same with something left out, for every something.
    pub fn smaller(&self) -> Vec<Self> {
        let mut list = Vec::new();
        for which in 0..self.parts.len() {
            let mut without = self.clone();
            without.parts.remove(which);
            list.push(without);
            let length = self.parts[which].bytes.len();
            for size in [8, 4, 2, 1] {
                for start in (0..length.saturating_sub(size)).step_by(size) {
                    let mut shorter = self.clone();
                    shorter.parts[which].bytes.drain(start..start + size);
                    list.push(shorter);
                }
            }
        }
        list.retain(|genome| !genome.parts.is_empty() && genome.parts.iter().all(|part| !part.bytes.is_empty()));
        list
    }
}
