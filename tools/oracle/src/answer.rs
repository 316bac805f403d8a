//! What a call gives, and how it is written: refusals, lent slots, records.

use std::fmt::Write;

/// A row of document 01's table, and the place.
#[derive(Clone, Copy, Debug, PartialEq, Eq)]
pub struct Refusal {
    pub number: u8,
    pub place: usize,
}

pub type Outcome<T> = Result<T, Refusal>;

pub fn refused<T>(number: u8, place: usize) -> Outcome<T> {
    Err(Refusal { number, place })
}

/// The Rust and the composition around it disagree: a fault of this program.
#[derive(Debug)]
pub struct Inconsistent;

pub type Checked<T> = Result<T, Inconsistent>;

pub fn ensure(holds: bool) -> Checked<()> {
    if holds { Ok(()) } else { Err(Inconsistent) }
}

/// A clause as the lent record slots hold it.
#[derive(Clone, Copy, Debug, PartialEq, Eq)]
pub struct Record {
    pub name_start: u16,
    pub name_end: u16,
    pub entry: u16,
    pub parenthesized: bool,
    pub content_start: u16,
    pub content_end: u16,
    pub preceded: bool,
    pub trailing: bool,
}

/// A kind of lent slot.
pub trait Slot: Copy + PartialEq {
    /// What a slot holds before a call, so that one left alone shows.
    const BEFORE: Self;
    const ZERO: Self;

    fn write(&self, list: &mut String);
}

impl Slot for u8 {
    const BEFORE: Self = 170;
    const ZERO: Self = 0;

    fn write(&self, list: &mut String) {
        u16::from(*self).write(list);
    }
}

impl Slot for u16 {
    const BEFORE: Self = 43_690;
    const ZERO: Self = 0;

    fn write(&self, list: &mut String) {
        write!(list, "{self}").expect("a string takes all");
    }
}

impl Slot for Record {
    const BEFORE: Self = record_of(43_690, true);
    const ZERO: Self = record_of(0, false);

    fn write(&self, list: &mut String) {
        write!(
            list,
            "{}/{}/{}/{}/{}/{}/{}/{}",
            self.name_start,
            self.name_end,
            self.entry,
            u8::from(self.parenthesized),
            self.content_start,
            self.content_end,
            u8::from(self.preceded),
            u8::from(self.trailing)
        )
        .expect("a string takes all");
    }
}

const fn record_of(number: u16, flag: bool) -> Record {
    Record {
        name_start: number,
        name_end: number,
        entry: number,
        parenthesized: flag,
        content_start: number,
        content_end: number,
        preceded: flag,
        trailing: flag,
    }
}

/// The slots lent to one call.
pub struct Lent<T>(Vec<T>);

impl<T: Slot> Lent<T> {
    pub fn new(size: usize) -> Self {
        Self(vec![T::BEFORE; size])
    }

    /// The values from the first slot on, zeros in all others.
    pub fn keep(&mut self, values: &[T]) {
        self.0[..values.len()].copy_from_slice(values);
        self.0[values.len()..].fill(T::ZERO);
    }

    /// What a refusal leaves.
    pub fn clear(&mut self) {
        self.keep(&[]);
    }

    /// The slots up to the last that isn't zero, and the number of zeros behind it.
    pub fn listed(&self) -> String {
        let last = self.0.iter().rposition(|slot| *slot != T::ZERO);
        let filled = last.map_or(0, |last| last + 1);
        let mut list = String::new();
        for (index, slot) in self.0[..filled].iter().enumerate() {
            if index > 0 {
                list.push(',');
            }
            slot.write(&mut list);
        }
        write!(list, "+{}", self.0.len() - filled).expect("a string takes all");
        list
    }
}

/// The words before the lists: `ok` and the numbers given, or the refusal.
pub fn head(outcome: &Outcome<Vec<usize>>) -> String {
    match outcome {
        Ok(numbers) => numbers.iter().fold("ok".to_string(), |mut head, number| {
            write!(head, " {number}").expect("a string takes all");
            head
        }),
        Err(refusal) => format!("refused {} {}", refusal.number, refusal.place),
    }
}
