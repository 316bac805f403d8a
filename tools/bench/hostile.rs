//! Inputs made to be slow, each at three sizes: what doubles with its bytes is linear. No Rust stands beside them.

use crate::ours::{C, FORTRAN_FIXED, FORTRAN_FREE};
use crate::timing::usual;
use crate::work::{Call, Input, Slots, book};

/// Bytes of a text, and names of each kind in a book.
pub const SIZES: [usize; 3] = [4_096, 8_192, 16_384];
const NAMES: [usize; 3] = [63, 127, 255];
const LONGEST_NAME: usize = 64;

/// Nanoseconds that a size of a row may take in each turn, one call aside.
const BUDGET: f64 = 4e6;
const TURNS: usize = 7;
const MOST_TURNS: usize = 30;

/// Nanoseconds above which a row is given no more turns than these.
const SLOW: f64 = 2e7;

/// What is aimed at for every row.
const MOST_BY_BYTE: f64 = 60.0;
const MOST_RATIO: f64 = 2.1;

/// A text: a head, a unit over and over, perhaps more from the middle on with another unit, a tail, and blanks up to its size.
#[derive(Clone, Copy)]
pub struct Family {
    pub head: &'static str,
    pub unit: &'static str,
    pub middle: &'static str,
    pub second: &'static str,
    pub tail: &'static str,
}

const fn of(head: &'static str, unit: &'static str, tail: &'static str) -> Family {
    Family {
        tail,
        ..halves(head, unit, "", "")
    }
}

const fn halves(head: &'static str, unit: &'static str, middle: &'static str, second: &'static str) -> Family {
    Family {
        head,
        unit,
        middle,
        second,
        tail: "",
    }
}

/// A unit that is computed.
fn kept(unit: String) -> &'static str {
    Box::leak(unit.into_boxed_str())
}

/// A row: its input by the size, 0 to 2.
pub struct Row {
    pub name: String,
    pub input: Box<dyn Fn(usize) -> Input>,
    /// What its text is made of, if that grows with the size.
    pub family: Option<Family>,
}

impl Family {
    fn text(self, size: usize) -> Vec<u8> {
        let mut text = self.head.as_bytes().to_vec();
        let end = size - self.tail.len();
        let half = if self.second.is_empty() { end } else { end / 2 };
        repeat(&mut text, self.unit, half);
        text.extend_from_slice(self.middle.as_bytes());
        repeat(&mut text, self.second, end);
        text.extend_from_slice(self.tail.as_bytes());
        text.resize(size, b' ');
        text
    }
}

/// A unit as often as it fits up to an end.
fn repeat(text: &mut Vec<u8>, unit: &str, end: usize) {
    while !unit.is_empty() && text.len() + unit.len() <= end {
        text.extend_from_slice(unit.as_bytes());
    }
}

/// One directive `p` and the clauses `a` and `b`, with a default rule.
pub fn small_book(fortran: bool, default: u8) -> Vec<u8> {
    let names = |words: &[&str]| words.iter().map(|word| word.to_string()).collect::<Vec<_>>();
    book(fortran.into(), default, &names(&["p"]), &names(&["a", "b"]))
}

/// Where names of one signature differ: `p` and `0` count alike in it.
#[derive(Clone, Copy)]
pub enum Differ {
    First,
    Middle,
    Last,
}

/// So many names of 64 bytes with one signature, alike but for eight bytes. Those count in an order that is far from sorted, and the other
/// letters differ in case from name to name, so that none is equal as it stands.
pub fn alike(count: usize, differ: Differ) -> Vec<String> {
    let from = match differ {
        Differ::First => 0,
        Differ::Middle => LONGEST_NAME / 2 - 4,
        Differ::Last => LONGEST_NAME - 8,
    };
    let letter = |number: usize, place: usize| match place.checked_sub(from) {
        Some(bit) if bit < 8 => {
            if (number * 167) >> bit & 1 == 1 {
                '0'
            } else {
                'p'
            }
        }
        _ if (place * 7 + number) % 3 == 0 => 'q',
        _ => 'Q',
    };
    (0..count)
        .map(|number| (0..LONGEST_NAME).map(|place| letter(number, place)).collect())
        .collect()
}

/// So many names of 64 bytes, of which each eight have one signature and differ first: chains that are as long as they may get.
fn by_eights(count: usize) -> Vec<String> {
    let letter = |number: usize, place: usize| match place {
        0..3 => {
            if number >> place & 1 == 1 {
                '0'
            } else {
                'p'
            }
        }
        20 => (b'a' + (number / 8 % 16) as u8) as char,
        41 => (b'a' + (number / 128) as u8) as char,
        _ if (place * 7 + number) % 3 == 0 => 'q',
        _ => 'Q',
    };
    (0..count)
        .map(|number| (0..LONGEST_NAME).map(|place| letter(number, place)).collect())
        .collect()
}

/// So many names of four letters with one signature, each above those before it: a check that goes along all of them for each has the fewest bytes to pay
/// it with.
fn rising(count: usize) -> Vec<String> {
    let name = |number: usize| -> Vec<u8> {
        [17_576, 676, 26, 1]
            .iter()
            .map(|&weight| b'a' + (number / weight % 26) as u8)
            .collect()
    };
    let signature = |name: &[u8]| {
        let (sum, sums) = name
            .iter()
            .fold((0, 0), |(sum, sums), &byte| (sum + usize::from(byte % 32), sums + sum));
        (sum + sums * 37) % 256
    };
    (0..)
        .map(name)
        .filter(|name| signature(name) == 0)
        .take(count)
        .map(|name| String::from_utf8(name).expect("letters"))
        .collect()
}

/// Directive names that agree with `p p p ..` as long as they can where blanks are optional. The last six have a blank behind each number of letters up to
/// 62, so that the candidate may grow at every word; the others, of 64 letters, are asked before them.
fn run_together(count: usize) -> Vec<String> {
    let other = |number: usize| "p".repeat(56) + &format!("{number:08b}").replace('1', "q");
    let blanked = |letters: usize, words: usize| "p".repeat(letters) + &" p".repeat(words);
    let last = [(1, 31), (32, 16), (48, 8), (56, 4), (60, 2), (62, 1)].map(|(letters, words)| blanked(letters, words));
    (0..count - last.len()).map(other).chain(last).collect()
}

/// Directive names with a blank behind each letter, alike but for the last two, so that a short word runs along all of them.
fn spaced(count: usize) -> Vec<String> {
    let letter = |number: usize| (b'a' + (number % 16) as u8) as char;
    (0..count)
        .map(|number| format!("{}{} {}", "p ".repeat(30), letter(number / 16), letter(number)))
        .collect()
}

/// Directive names in upper case of which every second begins with 30 letters of a line and the others with none of them, so that what one has in common with
/// the line says nothing of the next.
fn in_turn(count: usize) -> Vec<String> {
    let letter = |number: usize| (b'A' + (number % 26) as u8) as char;
    let begun = |number: usize| if number % 2 == 0 { "P".repeat(30) } else { "Q".to_string() };
    (0..count)
        .map(|number| format!("{}{}{}", begun(number), letter(number / 2), letter(number / 52)))
        .collect()
}

/// Directive names that begin with one letter and go on in digits.
fn begun(count: usize) -> Vec<String> {
    (0..count).map(|number| format!("P{number:08b}")).collect()
}

/// Directive names of which those that fail are asked first, each as late as it can: `p p p ..` grows up to 32 words, and at each the names that have a
/// letter in the place of one of its blanks.
fn words_apart(count: usize) -> Vec<String> {
    let letters = ["a", "b", "c", "d", "e", "f", "g", "h"];
    let other = |number: usize| "p ".repeat(number / 8) + "p" + letters[number % 8];
    (0..count - 1)
        .map(other)
        .chain([format!("p{}", " p".repeat(31))])
        .collect()
}

/// Copies of a line or text up to so many bytes, and where each ends.
pub fn copies(one: &[u8], size: usize) -> (Vec<u8>, Vec<usize>) {
    let count = (size / one.len().max(1)).max(1);
    (one.repeat(count), (1..=count).map(|k| k * one.len()).collect())
}

fn row(name: &str, input: impl Fn(usize) -> Input + 'static) -> Row {
    let name = format!("hostile {name}");
    assert!(name.len() <= 44, "{name} is too long for its column");
    Row {
        name,
        input: Box::new(input),
        family: None,
    }
}

fn text_row(name: &str, call: Call, family: Family) -> Row {
    let input = move |size: usize| Input::of_text(call, family.text(SIZES[size]));
    Row {
        family: Some(family),
        ..row(name, input)
    }
}

/// The same under a book.
fn book_row(name: &str, call: Call, book: Vec<u8>, family: Family) -> Row {
    let input = move |size: usize| Input {
        call,
        book: book.clone(),
        text: family.text(SIZES[size]),
        ends: Vec::new(),
    };
    Row {
        family: Some(family),
        ..row(name, input)
    }
}

/// Many copies of a line or text under a book.
fn many_row(name: &str, call: Call, book: Vec<u8>, one: String) -> Row {
    row(name, move |size| {
        let (text, ends) = copies(one.as_bytes(), SIZES[size]);
        Input {
            call,
            book: book.clone(),
            text,
            ends,
        }
    })
}

/// A row whose sizes are numbers of names.
fn names_row(name: &str, call: Call, book: impl Fn(usize) -> Vec<u8> + 'static, text: String) -> Row {
    row(name, move |size| Input {
        call,
        book: book(NAMES[size]),
        text: text.clone().into_bytes(),
        ends: Vec::new(),
    })
}

fn joins() -> Vec<Row> {
    let join = |language| Call::Join { language };
    vec![
        text_row("copy, &! TAB TAB", Call::Copy, of("", "&!\t\t", "")),
        text_row("copy, &!", Call::Copy, of("", "&!", "")),
        text_row("copy, half &!, half VT", Call::Copy, halves("", "&!", "", "\u{b}")),
        text_row("copy, &", Call::Copy, of("", "&", "")),
        text_row("copy, BS", Call::Copy, of("", "\\", "")),
        text_row("copy, & LF", Call::Copy, of("", "&\n", "")),
        text_row("copy, a & TAB LF TAB", Call::Copy, of("", "a&\t\n\t", "")),
        text_row("copy, & with LF at the end", Call::Copy, of("", "&", "\n")),
        text_row(
            "join free, half &!, half TAB",
            join(FORTRAN_FREE),
            halves("!$omp p ", "&!", "", "\t"),
        ),
        text_row("join C, TAB", join(C), of("", "\t", "a")),
        text_row("join C, VT", join(C), of("", "\u{b}", "a")),
        text_row("join C, BS", join(C), of("", "\\", "a")),
        text_row("join C, a BS LF", join(C), of("", "a\\\n", "a")),
        text_row(
            "join free, &! TAB TAB",
            join(FORTRAN_FREE),
            of("!$omp p ", "&!\t\t", "a"),
        ),
        text_row(
            "join fixed, &! TAB TAB",
            join(FORTRAN_FIXED),
            of("c$omp p ", "&!\t\t", "a"),
        ),
        text_row("join free, TAB", join(FORTRAN_FREE), of("!$omp p", "\t", "a")),
        text_row("join free, &", join(FORTRAN_FREE), of("!$omp p ", "&", "a")),
        text_row("join free, a & LF", join(FORTRAN_FREE), of("!$omp p ", "a&\n", "a")),
        text_row(
            "join free, & LF !$omp&",
            join(FORTRAN_FREE),
            of("!$omp p ", "&\n!$omp&", "a"),
        ),
        text_row(
            "join fixed, & LF c$omp&",
            join(FORTRAN_FIXED),
            of("c$omp p ", "&\nc$omp&", "a"),
        ),
        text_row(
            "join free, & LF and blanks",
            join(FORTRAN_FREE),
            of("!$omp p ", "&\n        ", "a"),
        ),
        text_row("join free, '", join(FORTRAN_FREE), of("!$omp p ", "'", "a")),
        text_row(
            "join free, & TABs LF",
            join(FORTRAN_FREE),
            of("!$omp p ", "&\t\t\t\t\t\t\n", "a"),
        ),
    ]
}

fn splits() -> Vec<Row> {
    let split = |language, colon, angles| Call::Split {
        language,
        colon,
        angles,
    };
    let commas = split(C, false, false);
    let mut rows = vec![
        text_row("trim, CR", Call::Trim, of("", "\r", "")),
        text_row("trim, a and VT", Call::Trim, of("a", "\u{b}", "\u{b}")),
        text_row("split, VT", commas, of("a", "\u{b}", "a")),
        text_row("split, a,", commas, of("", "a,", "a")),
        text_row("split, VT a VT ,", commas, of("", "\u{b}a\u{b},", "a")),
        text_row("split, '',", commas, of("", "'',", "a")),
        text_row("split, /**/", commas, of("", "/**/", "a")),
        text_row("split, / ' /", commas, of("", "/'/'", "a")),
        text_row(
            "split Fortran, '\\',",
            split(FORTRAN_FREE, false, false),
            of("", "'\\',", "a"),
        ),
        text_row("split colons, a:", split(C, true, false), of("", "a:", "a")),
        text_row("split colons, ? :", split(C, true, false), of("a", "?:", "a")),
        text_row(
            "split colons, : VTs",
            split(C, true, false),
            of("a", ":\u{b}\u{b}\u{b}a", "a"),
        ),
        text_row("split colons, : and TABs", split(C, true, false), of("a:", "\t", "a")),
        text_row("split angles, a<1>", split(C, false, true), of("", "a<1>", "a")),
        text_row("split angles, a<1>,", split(C, false, true), of("", "a<1>,", "a")),
        text_row(
            "split angles, a<VTs=",
            split(C, false, true),
            of("", "a<\u{b}\u{b}\u{b}=", "a"),
        ),
        text_row("split angles, a</**/", split(C, false, true), of("", "a</**/=", "a")),
    ];
    rows.push(text_row(
        "split, 256 deep",
        commas,
        of("a", kept("(".repeat(256) + &")".repeat(256)), "a"),
    ));
    rows.push(text_row("split, ()", commas, of("a", "()", "a")));
    rows
}

fn sequences() -> Vec<Row> {
    let c = |name: &str, family| {
        book_row(
            &format!("sequence C, {name}"),
            Call::Sequence,
            small_book(false, 2),
            family,
        )
    };
    let f = |name: &str, family| {
        book_row(
            &format!("sequence F, {name}"),
            Call::Sequence,
            small_book(true, 2),
            family,
        )
    };
    let mut rows = vec![
        c("a()// CR /* LF .. //*/", of("", "a()//\r/*\n", "//*/")),
        c("a()// CR ' LF .. /*'*/", of("", "a()//\r'\n", "//\r/*'*/\n")),
        c("a()// CR /* LF, half VT", halves("", "a()//\r/*\n", "*///", "\u{b}")),
        c("a TAB", of("", "a\t", "")),
        c("A blank", of("", "A ", "")),
        c("a,", of("", "a,", "")),
        c("a()", of("", "a()", "")),
        c("a('')", of("", "a('')", "")),
        c("a/**/", of("", "a/**/", "")),
        c("a(/**/)/**/", of("", "a(/**/)/**/", "")),
        c("a BS LF", of("", "a\\\n", "")),
        c("a//LF", of("", "a//\n", "")),
        c("a(TAB) ,TAB", of("", "a(\t)\t,\t", "")),
        c("a()// CR", of("", "a()//\r\n", "")),
        c("a(// CR)", of("", "a(//\r)", "")),
        f("a()! CR /* LF .. !$*/", of("", "a()!\r/*\n", "!$*/")),
        f("a()!$' LF .. !$/*'*/", of("", "a()!$'\n", "!$/*'*/")),
        f("a()!$/* LF .. !$*/", of("", "a()!$/*\n", "!$*/")),
        f("a()!$/* LF, half FF", halves("", "a()!$/*\n", "!$*/!", "\u{c}")),
        f("a & LF", of("", "a&\n", "")),
        f("a &! LF !$omp&", of("", "a&!\n!$omp&", "")),
        f("A LF", of("", "A\n", "")),
        f("a & LF TABs", of("", "a&\n\t\t\t\t\t\t\t\t", "")),
        f("a ! LF", of("", "a!\n", "")),
        f("a()!$ LF", of("", "a()!$\n", "")),
        f("a('BS')", of("", "a('\\')", "")),
    ];
    for (default, name) in [(0, "Bare"), (1, "Parenthesized"), (3, "Unsupported")] {
        let book = small_book(false, default);
        rows.push(book_row(
            &format!("sequence C, default {name}"),
            Call::Sequence,
            book,
            of("", "a()//\r/*\n", "//*/"),
        ));
    }
    rows.push(c(
        "256 deep",
        of("", kept(format!("a{}{}", "(".repeat(256), ")".repeat(256))), ""),
    ));
    rows.push(c("a and 63 TABs", of("", kept(format!("a{}", "\t".repeat(63))), "")));
    rows
}

fn lines() -> Vec<Row> {
    let line = |name: &str, language, family| {
        let title = if language == C { "C" } else { "free" };
        book_row(
            &format!("line {title}, {name}"),
            Call::Line { language },
            small_book(language != C, 2),
            family,
        )
    };
    vec![
        line("&! TAB TAB", FORTRAN_FREE, of("!$omp p ", "&!\t\t", "")),
        line(
            "a('BS'')!$/*& VT .. !$*/",
            FORTRAN_FREE,
            of("!$omp p ", "a('\\'')!$/*&\u{b}\n", "!$*/"),
        ),
        line("a() & LF !$omp&", FORTRAN_FREE, of("!$omp p ", "a()&\n!$omp&", "")),
        line("a & LF", FORTRAN_FREE, of("!$omp p ", "a &\n", "")),
        line("a TAB", FORTRAN_FREE, of("!$omp p ", "a\t", "")),
        line("a TAB", C, of("#pragma omp p ", "a\t", "")),
        line("TABs", C, of("#pragma omp p a", "\t", "")),
        line("half &!, half TAB", FORTRAN_FREE, halves("!$omp p ", "&!", "", "\t")),
        line("a BS LF TAB", C, of("#pragma omp p ", "a\\\n\t", "")),
        line("a()/**/ BS LF", C, of("#pragma omp p ", "a()/**/\\\n", "")),
        line("TABs behind #", C, of("#", "\t", "pragma omp p")),
        line("a('')", FORTRAN_FREE, of("!$omp p ", "a('')", "")),
        many_row(
            "lines C, short",
            Call::Lines { language: C },
            small_book(false, 2),
            "#pragma omp p".into(),
        ),
        many_row(
            "lines free, short",
            Call::Lines { language: FORTRAN_FREE },
            small_book(true, 2),
            "!$omp p".into(),
        ),
        many_row("sequences C, a", Call::Sequences, small_book(false, 2), "a".into()),
        many_row("sequences F, a()", Call::Sequences, small_book(true, 2), "a()".into()),
    ]
}

/// Texts of names, under the greatest books that are made to be slow.
fn looked_up() -> Vec<Row> {
    let mut rows = Vec::new();
    for (differ, title) in [
        (Differ::First, "first"),
        (Differ::Middle, "midway"),
        (Differ::Last, "last"),
    ] {
        let names = alike(NAMES[2], differ);
        for fortran in [false, true] {
            let named = book(fortran.into(), 2, &["p".to_string()], &names);
            // not the book's case where that is ignored, and in C a name that the book has not
            let word = if fortran {
                names[0].to_lowercase()
            } else {
                names[0].replacen(['p', '0'], "P", 1)
            };
            let unit = kept(word + " ");
            let letter = if fortran { 'F' } else { 'C' };
            rows.push(book_row(
                &format!("sequence {letter}, names alike, {title}"),
                Call::Sequence,
                named,
                of("", unit, ""),
            ));
        }
    }
    rows.push({
        let named = book(3, 2, &run_together(NAMES[2]), &["a".to_string()]);
        many_row(
            "lines free, p p p, blanks optional",
            Call::Lines { language: FORTRAN_FREE },
            named,
            format!("!$omp{}", " p".repeat(63)),
        )
    });
    rows.push(many_row(
        "lines free, p..p_, blanks optional",
        Call::Lines { language: FORTRAN_FREE },
        book(3, 2, &spaced(NAMES[2]), &["a".to_string()]),
        format!("!$omp {}__", "p".repeat(30)),
    ));
    rows.push(many_row(
        "lines free, P..P Q, blanks optional",
        Call::Lines { language: FORTRAN_FREE },
        book(3, 2, &in_turn(NAMES[2]), &["a".to_string()]),
        format!("!$omp {}__", "p".repeat(30)),
    ));
    rows.push(many_row(
        "lines free, one letter of all names",
        Call::Lines { language: FORTRAN_FREE },
        book(3, 2, &begun(NAMES[2]), &["a".to_string()]),
        "!$omp p ".to_string(),
    ));
    rows.push({
        let named = book(0, 2, &words_apart(NAMES[2]), &["a".to_string()]);
        many_row(
            "lines C, p p p",
            Call::Lines { language: C },
            named,
            format!("#pragma omp{}", " p".repeat(32)),
        )
    });
    rows.push(book_row(
        "line free, q TABs q, blanks optional",
        Call::Line { language: FORTRAN_FREE },
        book(3, 2, &run_together(NAMES[2]), &["a".to_string()]),
        of("!$omp q", "\t", "q"),
    ));
    rows.push({
        let named = book(1, 2, &alike(NAMES[2], Differ::First), &["a".to_string()]);
        let name = alike(1, Differ::First)[0].to_lowercase();
        many_row(
            "lines free, names alike, first",
            Call::Lines { language: FORTRAN_FREE },
            named,
            format!("!$omp {name}"),
        )
    });
    rows
}

fn books() -> Vec<Row> {
    let mut rows = Vec::new();
    for (differ, title) in [
        (Differ::First, "first"),
        (Differ::Middle, "midway"),
        (Differ::Last, "last"),
    ] {
        let names = move |count: usize| book(0, 2, &alike(count, differ), &alike(count, differ));
        rows.push(names_row(
            &format!("book, one signature, differ {title}"),
            Call::Book,
            names,
            String::new(),
        ));
    }
    rows.push(names_row(
        "book, chains of eight",
        Call::Book,
        |count| book(0, 2, &by_eights(count), &by_eights(count)),
        String::new(),
    ));
    rows.push(names_row(
        "book, one signature, four letters",
        Call::Book,
        |count| book(0, 2, &rising(count), &rising(count)),
        String::new(),
    ));
    rows.push(names_row(
        "book, ordinary names",
        Call::Book,
        |count| {
            let names: Vec<String> = (0..count).map(|k| format!("directive_name_{k:03}")).collect();
            book(0, 2, &names, &names)
        },
        String::new(),
    ));
    rows.push(names_row(
        "line free, p p p, blanks optional",
        Call::Line { language: FORTRAN_FREE },
        |count| book(3, 2, &run_together(count), &["a".to_string()]),
        format!("!$omp{}", " p".repeat(63)),
    ));
    rows
}

/// The rows by what their sizes are.
pub fn all() -> [(&'static str, [String; 3], Vec<Row>); 2] {
    let texts = [joins(), splits(), sequences(), lines(), looked_up()]
        .into_iter()
        .flatten()
        .collect();
    let titles = |sizes: [usize; 3], what: &str| sizes.map(|size| format!("{size} {what}"));
    [
        ("hostile texts, by their bytes", titles(SIZES, "bytes"), texts),
        (
            "hostile books, by their names of each kind",
            titles(NAMES, "names"),
            books(),
        ),
    ]
}

fn verdict(answer: u64) -> String {
    crate::ours::refusal(answer).map_or("given".into(), |number| format!("refused {number}"))
}

/// The least of the usual times at each size. The sizes take turns, so that a machine that changes its pace does not look like a time that grows.
struct Times {
    least: [f64; SIZES.len()],
    bytes: usize,
}

impl Times {
    fn of(inputs: &[Input], slots: &mut Slots) -> Self {
        let mut times = Self {
            least: [f64::INFINITY; SIZES.len()],
            bytes: inputs[2].bytes(),
        };
        for turn in 0..MOST_TURNS {
            // a row that misses its aims by chance is given more turns
            if turn >= TURNS && (times.is_within() || times.least[2] > SLOW) {
                break;
            }
            for (input, time) in inputs.iter().zip(&mut times.least) {
                *time = time.min(usual(|| slots.answer(input), BUDGET));
            }
        }
        times
    }

    /// Nanoseconds a byte at the greatest size.
    fn by_byte(&self) -> f64 {
        self.least[2] / self.bytes as f64
    }

    /// How the last two sizes stand to each other.
    fn ratio(&self) -> f64 {
        self.least[2] / self.least[1]
    }

    fn is_within(&self) -> bool {
        self.by_byte() <= MOST_BY_BYTE && self.ratio() <= MOST_RATIO
    }
}

/// Prints a row; whether it is within the aims.
fn print(row: &Row, slots: &mut Slots) -> bool {
    let inputs: Vec<Input> = (0..SIZES.len()).map(&row.input).collect();
    let times = Times::of(&inputs, slots);
    let [small, half, full] = times.least;
    let (name, bytes, byte, ratio) = (&row.name, times.bytes, times.by_byte(), times.ratio());
    let answer = verdict(slots.answer(&inputs[2]));
    println!("{name:<44} {small:>10.0} {half:>10.0} {full:>11.0} {bytes:>6} {byte:>9.2} {ratio:>6.2}  {answer}");
    times.is_within()
}

pub fn rows(wants: impl Fn(&str) -> bool) {
    let mut slots = Slots::new(SIZES[2]);
    for (title, [small, half, full], rows) in all() {
        let wanted: Vec<&Row> = rows.iter().filter(|row| wants(&row.name)).collect();
        if wanted.is_empty() {
            continue;
        }
        println!(
            "\n{title}\n{:<44} {small:>10} {half:>10} {full:>11} {:>6} {:>9} {:>6}  answer",
            "", "bytes", "ns a byte", "ratio"
        );
        let missed = wanted.iter().filter(|row| !print(row, &mut slots)).count();
        let count = wanted.len();
        println!(" {missed} of {count} rows above {MOST_BY_BYTE} ns a byte or a ratio of {MOST_RATIO}");
    }
}
