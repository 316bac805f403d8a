//! Whole lines: opening words, name and clauses, physical line ends, buffers, and the pairs of demand 3.

use super::sequence::clauses;
use super::source::random_breaks;
use super::{enough, near};
use crate::books::Book;
use crate::cases::{Sink, hexadecimal};
use crate::laws::{Law, broken};
use crate::random::Random;
use crate::texts::{LITERAL_TOKENS, Tokens, damaged, mixed_case, short_texts};

const C_OPENINGS: &Tokens = &[
    b"#pragma", b"#", b"pragma", b"omp", b"acc", b" ", b"/*", b"*/", b"//", b"p", b"a", b"\\\n", b"\n", b"\x0b", b"\t",
];

const C_TOKENS: &Tokens = &[
    b"p", b"a", b"i", b"f", b"u", b"z", b" ", b",", b"(", b")", b"/*", b"*/", b"//", b"'", b"\\\n", b"\\", b"\n",
    b"\x0b", b"\r",
];

const FORTRAN_OPENINGS: &Tokens = &[
    b"!$omp", b"!$OMP", b"c$omp", b"!$acc", b"!$", b"*$", b" ", b"/*", b"*/", b"!", b"p", b"a", b"&\n", b"&", b"\n",
];

const FORTRAN_TOKENS: &Tokens = &[
    b"p", b"P", b"a", b"i", b"f", b"u", b" ", b",", b"(", b")", b"!", b"'", b"&\n", b"&", b"!$omp", b"!$acc", b"\n",
    b"\x0b", b"/*", b"c$omp", b"\\", b"\"",
];

/// Between words, without line ends of their own.
const C_GAPS: [&str; 8] = ["", "", " ", " ", "\t", "/* c */", "  ", "/**/"];
const FORTRAN_GAPS: [&str; 10] = ["", "", " ", " ", "\t", "  ", "&\n", " &\n!$& ", "&\r\n  ", "& ! c\n &"];

/// Around the hash: before it, between it and its word, and from there on.
const BEFORE_HASH: [&str; 8] = ["", " ", "/**/", "\\\n", "\x0b", "/*", "x", "#"];
const BEHIND_HASH: [&str; 30] = [
    "",
    " ",
    "\t",
    "\n",
    "\x0b",
    "\x0c",
    "\r",
    "\r\n",
    "  \t",
    "/**/",
    "/* # */",
    " /*x*/ //",
    "//",
    "// \\\n",
    "//\n",
    "/*",
    " /*",
    "/*/",
    "/**//*",
    "/",
    "/ ",
    "\\",
    "\\ ",
    "\\\n",
    "\\\r\n",
    "\\\n ",
    " \\\n",
    "/\\\n**\\\n/",
    "\\\\\n\n",
    "#",
];
const FROM_WORD: [&str; 16] = [
    "pragma omp p",
    "pragma omp p a,i( x ),",
    "pragma omp p i(x\\\n) a\n",
    "pragma omp p i(",
    "pragma omp p z",
    "pragma omp p /*",
    "pragma omp z",
    "pragma acc p",
    "pragma",
    "pragma\n",
    "pragma /*",
    "pragmaomp p",
    "pragm",
    "Pragma omp p",
    "x",
    "",
];

/// Sizes of the lent text, map and records.
#[derive(Clone, Copy)]
struct Sizes {
    text: usize,
    map: usize,
    records: usize,
}

impl Sizes {
    fn for_line(length: usize, records: usize) -> Self {
        Self {
            text: length,
            map: length + 1,
            records,
        }
    }

    fn around(length: usize, random: &mut Random) -> Self {
        let records = random.pick(&[0, 1, 2, 3, 6, 9, 512, 512]);
        match random.percent(15) {
            true => Self {
                text: near(length, random),
                map: near(length + 1, random),
                records,
            },
            false => Self {
                text: enough(length, random),
                map: enough(length + 1, random),
                records,
            },
        }
    }
}

fn ask(language: &str, prefix: &str, sizes: Sizes, book: &[u8], line: &[u8]) -> String {
    format!(
        "line {language} {prefix} {} {} {} {} {}",
        sizes.text,
        sizes.map,
        sizes.records,
        hexadecimal(book),
        hexadecimal(line)
    )
}

pub fn boundaries(sink: &mut Sink) {
    for default in 0..4 {
        for (language, opening, ending) in [
            ("c", "#pragma omp p ", "\\\n"),
            ("free", "!$omp p ", "&\n"),
            ("fixed", "c$omp p ", "&\n"),
        ] {
            let book = Book::small(u8::from(language != "c"), default).bytes();
            full_lines(language, opening, ending, &book, sink);
            deep_lines(language, opening, &book, sink);
        }
    }
    for (language, prefix, flags, line) in [
        ("c", "omp", 0, "#pragma omp p a i(x)"),
        ("c", "acc", 2, "#pragma acc P a"),
        ("free", "omp", 1, "!$omp p a,I(x)"),
        ("free", "acc", 3, "!$ACC P A"),
        ("fixed", "omp", 1, "c$omp p a"),
        ("fixed", "omp", 3, "C$Omp P i(x)"),
        ("c", "omp", 0, " # pragma omp p a"),
        ("c", "omp", 0, "#/**/pragma omp p"),
        ("c", "omp", 0, "#\\\n pragma omp p"),
    ] {
        every_byte(language, prefix, &Book::small(flags, 3).bytes(), line, sink);
    }
    around_hash(sink);
    wrong_books(sink);
}

/// Trivia, and what is none, behind the hash: each with each beginning and each end of the line, and as much as a line can hold.
fn around_hash(sink: &mut Sink) {
    for default in [0, 3] {
        let book = Book::small(0, default).bytes();
        for behind in BEHIND_HASH {
            for (before, word) in BEFORE_HASH
                .iter()
                .flat_map(|before| FROM_WORD.map(|word| (before, word)))
            {
                let line = format!("{before}#{behind}{word}");
                sink.give(ask("c", "omp", Sizes::for_line(line.len(), 3), &book, line.as_bytes()));
            }
        }
        for (open, filling, close) in [
            ("", " ", ""),
            ("", "/**/", ""),
            ("/*", "*", "*/"),
            ("", "\\\n", ""),
            ("/*", "*", ""),
        ] {
            for length in [16_383, 16_384, 16_385] {
                let room = length - "#pragma omp p".len() - open.len() - close.len();
                let blanks = " ".repeat(room % filling.len());
                let line = format!(
                    "#{open}{}{close}{blanks}pragma omp p",
                    filling.repeat(room / filling.len())
                );
                sink.give(ask("c", "omp", Sizes::for_line(length, 3), &book, line.as_bytes()));
            }
        }
    }
}

/// Each byte of a line changed to each value: where case is ignored, the two cases of a letter are read alike and no other two bytes.
fn every_byte(language: &str, prefix: &str, book: &[u8], line: &str, sink: &mut Sink) {
    for at in 0..line.len() {
        let mut changed = line.as_bytes().to_vec();
        for byte in 0..=255 {
            changed[at] = byte;
            sink.give(ask(language, prefix, Sizes::for_line(line.len(), 3), book, &changed));
        }
    }
}

fn full_lines(language: &str, opening: &str, ending: &str, book: &[u8], sink: &mut Sink) {
    for length in [16_383, 16_384, 16_385] {
        let room = length - opening.len();
        let content = format!("{opening}i({})", "x".repeat(room - 3));
        let blanks = format!("{opening}{}", " ".repeat(room));
        let ends = ending.repeat(room / 2 - 1);
        let broken = format!("{opening}{ends}{}", "a".repeat(room - ends.len()));
        for line in [&content, &blanks, &broken] {
            sink.give(ask(language, "omp", Sizes::for_line(length, 3), book, line.as_bytes()));
        }
    }
    let clauses = format!("{opening}{}", "a,".repeat(513));
    for records in [511, 512] {
        let sizes = Sizes::for_line(clauses.len(), records);
        sink.give(ask(language, "omp", sizes, book, clauses.as_bytes()));
        sink.give(ask(
            language,
            "omp",
            sizes,
            book,
            &clauses.as_bytes()[..opening.len() + 2 * records],
        ));
    }
}

fn deep_lines(language: &str, opening: &str, book: &[u8], sink: &mut Sink) {
    for depth in 254..=258 {
        let (open, close) = ("(".repeat(depth), ")".repeat(depth));
        for line in [
            format!("{opening}i{open}{close}"),
            format!("{opening}i{open}"),
            format!("{opening}a f{open}x{close},a"),
            format!("{opening}z[{open}{close}"),
        ] {
            for records in [0, 3] {
                let sizes = Sizes::for_line(line.len(), records);
                sink.give(ask(language, "omp", sizes, book, line.as_bytes()));
            }
        }
    }
}

/// Rows 1 to 6 against each other: a long, high or uncontinued line, short buffers, a wrong book, the wrong language.
fn wrong_books(sink: &mut Sink) {
    let good = b"#pragma omp p a".to_vec();
    let long = vec![b'a'; 16_385];
    let lines = [
        good.clone(),
        vec![200; 3],
        b"x\ny".to_vec(),
        b"x\r".to_vec(),
        Vec::new(),
        long,
    ];
    let right = Book::small(0, 3).bytes();
    let cut = right[..right.len() - 1].to_vec();
    let foreign = Book::small(1, 3).bytes();
    let both = foreign[..foreign.len() - 1].to_vec();
    for line in &lines {
        for book in [&right, &cut, &foreign, &both] {
            for language in ["c", "free", "fixed"] {
                for (text, map) in [(0, 1), (1, 0), (0, 2), (1, 1)] {
                    let sizes = Sizes {
                        text: (line.len() + text).saturating_sub(1),
                        map: line.len() + map,
                        records: 2,
                    };
                    sink.give(ask(language, "omp", sizes, book, line));
                }
            }
        }
    }
}

pub fn short(limit: usize, sink: &mut Sink, random: &mut Random) {
    let quarter = limit / 4;
    for default in [0, 3] {
        let c = Book::small(0, default).bytes();
        let fortran = Book::small(1, default).bytes();
        short_texts(C_OPENINGS, quarter / 4, random, |random, text| {
            let prefix = random.pick(&["omp", "omp", "acc"]);
            sink.give(ask("c", prefix, Sizes::for_line(text.len(), 2), &c, text));
        });
        short_texts(FORTRAN_OPENINGS, quarter / 4, random, |random, text| {
            let language = random.pick(&["free", "fixed"]);
            let prefix = random.pick(&["omp", "omp", "acc"]);
            sink.give(ask(language, prefix, Sizes::for_line(text.len(), 2), &fortran, text));
        });
    }
    for default in 0..4 {
        let c = Book::small(0, default).bytes();
        let fortran = Book::small(1, default).bytes();
        short_texts(C_TOKENS, quarter * 3 / 8, random, |random, text| {
            let line = [b"#pragma omp p", text].concat();
            let sizes = Sizes::for_line(line.len(), random.below(4));
            sink.give(ask("c", "omp", sizes, &c, &line));
        });
        short_texts(FORTRAN_TOKENS, quarter * 3 / 8, random, |random, text| {
            let line = [b"!$omp p", text].concat();
            let sizes = Sizes::for_line(line.len(), random.below(4));
            sink.give(ask(random.pick(&["free", "fixed"]), "omp", sizes, &fortran, &line));
        });
        short_texts(LITERAL_TOKENS, quarter / 8, random, |random, text| {
            let sizes = Sizes::for_line(text.len() + 30, random.below(4));
            let line = [b"#pragma omp p i(", text].concat();
            sink.give(ask("c", "omp", sizes, &c, &line));
            let end = random.pick(&[&b")"[..], b"&\n)", b"')"]);
            let line = [&b"!$omp p i("[..], text, end].concat();
            sink.give(ask(random.pick(&["free", "fixed"]), "omp", sizes, &fortran, &line));
        });
    }
}

pub fn random(sink: &mut Sink, random: &mut Random) {
    let language = random.pick(&["c", "c", "free", "fixed"]);
    let flags = u8::from(language != "c") + 2 * u8::from(random.percent(30));
    let flags = if random.percent(1) { flags ^ 1 } else { flags };
    let default = random.pick(&[0, 1, 2, 3, 3]);
    let book = match random.below(5) {
        0 => Book::small(flags, default),
        1 => Book::tangled(flags, default, random),
        2 => Book::openmp(flags, default),
        _ => Book::real(flags, default),
    };
    // Several lines for a book, as making one ready costs more than reading a line.
    for _ in 0..8 {
        one_line(language, &book, sink, random);
    }
}

fn one_line(language: &str, book: &Book, sink: &mut Sink, random: &mut Random) {
    let prefix = random.pick(&["omp", "omp", "acc"]);
    let is_c = language == "c";
    let mut line = match is_c {
        true => c_line(prefix, book, random),
        false => fortran_line(language, prefix, book, random),
    };
    if random.percent(25) {
        line = damaged(&line, if is_c { C_TOKENS } else { FORTRAN_TOKENS }, random);
    }
    if random.percent(1) {
        line.push(200);
    }
    let bytes = book.bytes();
    let is_plain = line.iter().all(|byte| *byte < 128 && !b"\r\n".contains(byte));
    if is_c && is_plain && random.percent(50) {
        broken_pair(prefix, &bytes, &line, sink, random);
        return;
    }
    let sizes = Sizes::around(line.len(), random);
    let request = ask(language, prefix, sizes, &bytes, &line);
    if book.default == 3 && random.percent(40) {
        let more = book.with_more(random).bytes();
        sink.give_pair(request, ask(language, prefix, sizes, &more, &line), Law::Appended);
        return;
    }
    sink.give(request);
}

fn broken_pair(prefix: &str, book: &[u8], text: &[u8], sink: &mut Sink, random: &mut Random) {
    let breaks = random_breaks(text.len(), random);
    let need = text.len() + breaks.iter().map(Vec::len).sum::<usize>();
    let sizes = Sizes {
        text: enough(need, random),
        map: enough(need + 1, random),
        records: random.pick(&[0, 1, 2, 6, 512]),
    };
    let (line, map) = broken(text, &breaks, sizes.map);
    sink.give_pair(
        ask("c", prefix, sizes, book, text),
        ask("c", prefix, sizes, book, &line),
        Law::Breaks { map },
    );
}

fn c_line(prefix: &str, book: &Book, random: &mut Random) -> Vec<u8> {
    let mut line = String::from(random.pick(&["", "", "", " ", "/* c */", "\t"]));
    line += "#";
    if random.percent(15) {
        line += &(0..random.between(1, 3))
            .map(|_| random.pick(&C_GAPS))
            .collect::<String>();
    }
    line += if random.percent(98) { "pragma" } else { "pragm" };
    line += &required(&C_GAPS, random);
    line += if random.percent(97) { prefix } else { "omp" };
    line += &required(&C_GAPS, random);
    line += &name(book, &C_GAPS, random);
    line += &clauses(book, &C_GAPS, random);
    line += random.pick(&["", "", "", "", "\n", "\\\n", " ", "\x0b", "\n \t"]);
    line.into_bytes()
}

fn fortran_line(language: &str, prefix: &str, book: &Book, random: &mut Random) -> Vec<u8> {
    let start = match (language, random.below(12)) {
        ("fixed", 0) => format!("c${prefix}"),
        ("fixed", 1) => format!("*${prefix}"),
        (_, 2) => "!$".to_string(),
        (_, 3) => format!(" !${prefix}"),
        (_, 4) => format!("c${prefix}"),
        _ => format!("!${prefix}"),
    };
    let mut line = mixed_case(&start, random);
    line += &required(&FORTRAN_GAPS, random);
    line += &name(book, &FORTRAN_GAPS, random);
    line += &clauses(book, &FORTRAN_GAPS, random);
    line += random.pick(&["", "", "", "", "\n", "&\n", "&", " ! e", "\x0b"]);
    line.into_bytes()
}

/// A gap with a blank in it, but for a few cases.
fn required(gaps: &[&str], random: &mut Random) -> String {
    let gap = random.pick(gaps);
    let blank = if random.percent(95) { " " } else { "" };
    format!("{gap}{blank}")
}

/// A directive of the book, its words apart or together, or something else.
fn name(book: &Book, gaps: &[&str], random: &mut Random) -> String {
    if random.percent(4) {
        return random.pick(&["zzz", "", "(", "_", "target zzz"]).to_string();
    }
    let words: Vec<String> = random.pick(&book.directives).split(' ').map(str::to_string).collect();
    let gap = match (book.flags & 2 == 2 && random.percent(50), random.percent(70)) {
        (true, _) => String::new(),
        (false, true) => " ".to_string(),
        (false, false) => required(gaps, random),
    };
    let name = words.join(&gap);
    match random.percent(if book.flags == 0 { 3 } else { 40 }) {
        true => mixed_case(&name, random),
        false => name,
    }
}
