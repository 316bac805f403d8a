//! Pelzurda's calls, as the archive exports them (include/pelzurda.h). A slice passes as a pointer and a length.

unsafe extern "C" {
    pub fn pelzurda_trim(text: *const u8, text_len: usize, range: *mut [u64; 2]) -> u64;
    pub fn pelzurda_split(text: *const u8, text_len: usize, language: u32, colon: u32, angles: u32, items: *mut u16, items_len: usize) -> u64;
    pub fn pelzurda_join(
        language: u32,
        prefix: u32,
        line: *const u8,
        line_len: usize,
        text: *mut u8,
        text_len: usize,
        map: *mut u16,
        map_len: usize,
    ) -> u64;
    pub fn pelzurda_map_back(map: *const u16, map_len: usize, text_len: usize, start: usize, end: usize, span: *mut [u64; 2]) -> u64;
    pub fn pelzurda_copy(content: *const u8, content_len: usize, copy: *mut u8, copy_len: usize) -> u64;
    pub fn pelzurda_check_book(book: *const u8, book_len: usize) -> u64;
    pub fn pelzurda_sequence(
        book: *const u8,
        book_len: usize,
        text: *const u8,
        text_len: usize,
        records: *mut ClauseRecord,
        records_len: usize,
        rest: *mut [u64; 1],
    ) -> u64;
    pub fn pelzurda_line(
        language: u32,
        prefix: u32,
        book: *const u8,
        book_len: usize,
        line: *const u8,
        line_len: usize,
        text: *mut u8,
        text_len: usize,
        map: *mut u16,
        map_len: usize,
        records: *mut ClauseRecord,
        records_len: usize,
        reading: *mut [u64; 4],
    ) -> u64;
    pub fn pelzurda_lines(
        language: u32,
        prefix: u32,
        book: *const u8,
        book_len: usize,
        lines: *const u8,
        lines_len: usize,
        ends: *const usize,
        ends_len: usize,
        text: *mut u8,
        text_len: usize,
        map: *mut u16,
        map_len: usize,
        slots: usize,
        answers: *mut [u64; 5],
        answers_len: usize,
    ) -> u64;
    pub fn pelzurda_sequences(
        book: *const u8,
        book_len: usize,
        texts: *const u8,
        texts_len: usize,
        ends: *const usize,
        ends_len: usize,
        slots: usize,
        answers: *mut [u64; 2],
        answers_len: usize,
    ) -> u64;
}

/// `struct pelzurda_record` of the header.
#[repr(C)]
#[derive(Clone, Copy)]
pub struct ClauseRecord {
    pub name_start: u16,
    pub name_end: u16,
    pub entry: u16,
    pub parenthesized: bool,
    pub content_start: u16,
    pub content_end: u16,
    pub preceded: bool,
    pub trailing: bool,
}

impl ClauseRecord {
    /// What a slot holds before a call, so that one left alone shows.
    pub const BEFORE: Self = Self {
        name_start: 43_690,
        name_end: 43_690,
        entry: 43_690,
        parenthesized: true,
        content_start: 43_690,
        content_end: 43_690,
        preceded: true,
        trailing: true,
    };
}

pub const C: u32 = 0;
pub const FORTRAN_FREE: u32 = 1;
pub const FORTRAN_FIXED: u32 = 2;

/// A refusal's number, for an answer that is one.
pub fn refusal(answer: u64) -> Option<u32> {
    (answer >> 63 == 1).then_some((answer >> 32) as u32 & 0x7fff_ffff)
}

// In each call the archive reads and writes within the lengths that it is given, and the borrows keep what it writes apart from the rest.

pub fn trim(text: &[u8], range: &mut [u64; 2]) -> u64 {
    unsafe { pelzurda_trim(text.as_ptr(), text.len(), range) }
}

pub fn split(text: &[u8], language: u32, colon: bool, angles: bool, items: &mut [u16]) -> u64 {
    unsafe { pelzurda_split(text.as_ptr(), text.len(), language, colon.into(), angles.into(), items.as_mut_ptr(), items.len()) }
}

/// With the prefix omp.
pub fn join(language: u32, line: &[u8], text: &mut [u8], map: &mut [u16]) -> u64 {
    unsafe { pelzurda_join(language, 0, line.as_ptr(), line.len(), text.as_mut_ptr(), text.len(), map.as_mut_ptr(), map.len()) }
}

pub fn map_back(map: &[u16], text_len: usize, start: usize, end: usize, span: &mut [u64; 2]) -> u64 {
    unsafe { pelzurda_map_back(map.as_ptr(), map.len(), text_len, start, end, span) }
}

pub fn copy(content: &[u8], copy: &mut [u8]) -> u64 {
    unsafe { pelzurda_copy(content.as_ptr(), content.len(), copy.as_mut_ptr(), copy.len()) }
}

pub fn check_book(book: &[u8]) -> u64 {
    unsafe { pelzurda_check_book(book.as_ptr(), book.len()) }
}

pub fn sequence(book: &[u8], text: &[u8], records: &mut [ClauseRecord], rest: &mut [u64; 1]) -> u64 {
    unsafe { pelzurda_sequence(book.as_ptr(), book.len(), text.as_ptr(), text.len(), records.as_mut_ptr(), records.len(), rest) }
}

/// With the prefix omp.
pub fn line(language: u32, book: &[u8], line: &[u8], text: &mut [u8], map: &mut [u16], records: &mut [ClauseRecord], reading: &mut [u64; 4]) -> u64 {
    unsafe {
        pelzurda_line(
            language,
            0,
            book.as_ptr(),
            book.len(),
            line.as_ptr(),
            line.len(),
            text.as_mut_ptr(),
            text.len(),
            map.as_mut_ptr(),
            map.len(),
            records.as_mut_ptr(),
            records.len(),
            reading,
        )
    }
}

/// With the prefix omp.
pub fn lines(
    language: u32,
    book: &[u8],
    lines: &[u8],
    ends: &[usize],
    text: &mut [u8],
    map: &mut [u16],
    slots: usize,
    answers: &mut [[u64; 5]],
) -> u64 {
    unsafe {
        pelzurda_lines(
            language,
            0,
            book.as_ptr(),
            book.len(),
            lines.as_ptr(),
            lines.len(),
            ends.as_ptr(),
            ends.len(),
            text.as_mut_ptr(),
            text.len(),
            map.as_mut_ptr(),
            map.len(),
            slots,
            answers.as_mut_ptr(),
            answers.len(),
        )
    }
}

pub fn sequences(book: &[u8], texts: &[u8], ends: &[usize], slots: usize, answers: &mut [[u64; 2]]) -> u64 {
    unsafe {
        pelzurda_sequences(
            book.as_ptr(),
            book.len(),
            texts.as_ptr(),
            texts.len(),
            ends.as_ptr(),
            ends.len(),
            slots,
            answers.as_mut_ptr(),
            answers.len(),
        )
    }
}
