//! The stack that each call takes: it runs on memory of its own, filled before, of which the lowest byte that has changed is sought.

use crate::hostile;
use crate::ours::{self, ClauseRecord};
use crate::work::{Call, Input};
use std::arch::asm;

const SIZE: usize = 1 << 20;

/// Two, since a byte may be written that is the filling itself.
const FILLINGS: [u8; 2] = [0x5a, 0xa5];

/// What a call is lent.
struct Room {
    text: Vec<u8>,
    map: Vec<u16>,
    items: Vec<u16>,
    records: Vec<ClauseRecord>,
    numbers: [u64; 4],
    answers: Vec<[u64; 5]>,
}

impl Room {
    fn new() -> Self {
        let most = hostile::SIZES[2];
        Self {
            text: vec![0; most],
            map: vec![0; most + 1],
            items: vec![0; most + 2],
            records: vec![ClauseRecord::BEFORE; most / 2 + 1],
            numbers: [0; 4],
            answers: vec![[0; 5]; most],
        }
    }

    /// The function and what it is passed, in its order: a slice is a pointer and a number.
    fn passed(&mut self, input: &Input) -> (*const (), Vec<u64>) {
        fn slice<T>(slice: &[T]) -> [u64; 2] {
            [slice.as_ptr() as u64, slice.len() as u64]
        }
        fn lent<T>(slice: &mut [T]) -> [u64; 2] {
            [slice.as_mut_ptr() as u64, slice.len() as u64]
        }
        let (book, read, ends) = (slice(&input.book), slice(&input.text), slice(&input.ends));
        let (text, map, items) = (lent(&mut self.text), lent(&mut self.map), lent(&mut self.items));
        let (records, answers) = (lent(&mut self.records), lent(&mut self.answers));
        let numbers = [self.numbers.as_mut_ptr() as u64];
        let slots = [records[1]];
        let pair = |language: u32| [u64::from(language), 0];
        match input.call {
            Call::Trim => (ours::pelzurda_trim as *const (), [&read[..], &numbers].concat()),
            Call::Split {
                language,
                colon,
                angles,
            } => {
                let asked = [u64::from(language), u64::from(colon), u64::from(angles)];
                (ours::pelzurda_split as *const (), [&read[..], &asked, &items].concat())
            }
            Call::Join { language } => (
                ours::pelzurda_join as *const (),
                [pair(language), read, text, map].concat(),
            ),
            Call::MapBack => {
                let size = input.text.len() as u64;
                let asked = [size, size / 3, size / 2];
                (
                    ours::pelzurda_map_back as *const (),
                    [&map[..], &asked, &numbers].concat(),
                )
            }
            Call::Copy => (ours::pelzurda_copy as *const (), [read, text].concat()),
            Call::Book => (ours::pelzurda_check_book as *const (), book.to_vec()),
            Call::Sequence => {
                let parts = [&book[..], &read, &records, &numbers];
                (ours::pelzurda_sequence as *const (), parts.concat())
            }
            Call::Line { language } => {
                let parts = [&pair(language)[..], &book, &read, &text, &map, &records, &numbers];
                (ours::pelzurda_line as *const (), parts.concat())
            }
            Call::Lines { language } => {
                let parts = [&pair(language)[..], &book, &read, &ends, &text, &map, &slots, &answers];
                (ours::pelzurda_lines as *const (), parts.concat())
            }
            Call::Sequences => {
                let parts = [&book[..], &read, &ends, &slots, &answers];
                (ours::pelzurda_sequences as *const (), parts.concat())
            }
        }
    }
}

/// Calls a function on a stack: what does not fit the six registers stands at its top, as the caller's own.
fn call_on(stack: &mut [u128], function: *const (), passed: &[u64]) -> usize {
    let mut registers = [0u64; 6];
    let few = passed.len().min(6);
    registers[..few].copy_from_slice(&passed[..few]);
    let others = &passed[few..];
    let top = stack.len() - others.len().div_ceil(2);
    for (k, pair) in others.chunks(2).enumerate() {
        stack[top + k] = u128::from(pair[0]) | pair.get(1).map_or(0, |&high| u128::from(high) << 64);
    }
    // The function keeps to the calling convention of C, and the stack is greater than any that it takes; r12 is one that it leaves as it was.
    unsafe {
        asm!(
            "mov r12, rsp",
            "mov rsp, {top}",
            "call {function}",
            "mov rsp, r12",
            top = in(reg) stack.as_mut_ptr().add(top),
            function = in(reg) function,
            in("rdi") registers[0],
            in("rsi") registers[1],
            in("rdx") registers[2],
            in("rcx") registers[3],
            in("r8") registers[4],
            in("r9") registers[5],
            out("r12") _,
            clobber_abi("C"),
        );
    }
    top * 16
}

/// Bytes from the caller's frame down to the lowest that was written.
fn taken(room: &mut Room, input: &Input) -> usize {
    let (function, passed) = room.passed(input);
    let mut most = 0;
    for filling in FILLINGS {
        let mut stack = vec![u128::from_ne_bytes([filling; 16]); SIZE / 16];
        let top = call_on(&mut stack, function, &passed);
        let untouched = stack
            .iter()
            .flat_map(|cell| cell.to_ne_bytes())
            .take_while(|byte| *byte == filling)
            .count();
        most = most.max(top.saturating_sub(untouched));
    }
    most
}

/// Texts as they stand in programs, and some that are refused, for every call.
fn ordinary(folder: &str) -> Vec<Input> {
    let openmp = std::fs::read(format!("{folder}/openmp.drb")).expect("books/openmp.drb");
    let fortran = [&openmp[..5], &[3], &openmp[6..]].concat();
    let clauses = "private(i, j) reduction(+ : total) schedule(static, 4) if(n > 1) map(to: a[0:n], 'b') nowait, ";
    let mut list = Vec::new();
    for size in [0, 1, 13, 60, 400, 4_000, 16_384] {
        for (language, book) in [
            (ours::C, &openmp),
            (ours::FORTRAN_FREE, &fortran),
            (ours::FORTRAN_FIXED, &fortran),
        ] {
            let opening = if language == ours::C {
                "#pragma omp parallel for "
            } else {
                "!$omp parallel for "
            };
            let line: Vec<u8> = opening.bytes().chain(clauses.bytes().cycle()).take(size).collect();
            let text: Vec<u8> = clauses.bytes().cycle().take(size).collect();
            let calls = [
                Call::Trim,
                Call::Split {
                    language,
                    colon: false,
                    angles: true,
                },
                Call::Split {
                    language,
                    colon: true,
                    angles: false,
                },
                Call::Join { language },
                Call::MapBack,
                Call::Copy,
                Call::Book,
                Call::Sequence,
                Call::Line { language },
                Call::Lines { language },
                Call::Sequences,
            ];
            for call in calls {
                let read = if matches!(call, Call::Join { .. } | Call::Line { .. } | Call::Lines { .. }) {
                    &line
                } else {
                    &text
                };
                let ends = vec![size / 2, size];
                list.push(Input {
                    call,
                    book: book.clone(),
                    text: read.clone(),
                    ends: ends.clone(),
                });
                list.push(Input {
                    call,
                    book: openmp[..size.min(openmp.len())].to_vec(),
                    text: read.clone(),
                    ends,
                });
            }
        }
    }
    list
}

/// The most that each call took over ordinary and hostile inputs.
pub fn run(folder: &str) {
    let mut room = Room::new();
    let known = hostile::all();
    let rows = known.iter().flat_map(|(_, _, rows)| rows);
    let hostile = rows.map(|row| (row.name.clone(), (row.input)(0)));
    let inputs = ordinary(folder)
        .into_iter()
        .map(|input| (format!("{} bytes, ordinary", input.text.len()), input))
        .chain(hostile);
    let mut most: Vec<(&str, usize, usize, String)> = Vec::new();
    for (name, input) in inputs {
        let bytes = taken(&mut room, &input);
        let call = input.call.name();
        match most.iter_mut().find(|(known, ..)| *known == call) {
            None => most.push((call, bytes, bytes, name)),
            Some((_, least, greatest, by)) => {
                *least = bytes.min(*least);
                if bytes > *greatest {
                    *greatest = bytes;
                    *by = name;
                }
            }
        }
    }
    println!("| call | stack, bytes | least | first seen with |\n|---|--:|--:|---|");
    for (call, least, greatest, by) in most {
        println!("| {call} | {greatest} | {least} | {by} |");
    }
}
