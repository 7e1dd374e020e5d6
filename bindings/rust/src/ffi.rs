//! The proved C functions (RULES 10), each behind a safe function on slices. All `unsafe` code of the crate is here: a call hands over
//! pointers with their true lengths, and Rust's borrows keep the written slice apart from the others; nothing else is asked of a caller.
use crate::engine::Engine;

/// Year, month, day, hour, minute, second, whether there is a zone offset, and its minutes in two's complement.
pub type MomentWords = [u32; 8];

/// Number, place, the day, said and number of hour, minute and second, the other day, the other hour, the days examined, the forms of the
/// last weekday name and of the last month name, said and minutes of the zone offset.
pub type ReadingWords = [u32; 20];

/// The part in which two days differ; for each kind of fact, from 0 on, where its words begin and end.
pub type ReasonWords = [u32; 33];

/// Year, month and day of a sheet; said and number of hour, minute and second; said and minutes of the zone offset in two's complement.
pub type SheetWords = [u32; 11];

/// What a format is opened for: flags, widths and `%s` are taken for writing, and refused for reading.
#[derive(Clone, Copy)]
pub enum Use {
    Reading = 0,
    Writing = 1,
}

mod c {
    use super::{MomentWords, ReadingWords, ReasonWords, SheetWords};

    extern "C" {
        pub fn larusqem_strftime_words(
            format: *const u8,
            format_length: usize,
            moment: *const MomentWords,
            out: *mut u8,
            out_length: usize,
        ) -> u64;
        pub fn larusqem_strptime_words(
            format: *const u8,
            format_length: usize,
            text: *const u8,
            text_length: usize,
            engine: u32,
            budget: u32,
            reading: *mut ReadingWords,
        ) -> u64;
        pub fn larusqem_open_words(
            format: *const u8,
            format_length: usize,
            for_writing: u32,
            elements: *mut u32,
            elements_length: usize,
        ) -> u64;
        pub fn larusqem_write_words(
            elements: *const u32,
            elements_length: usize,
            moment: *const MomentWords,
            out: *mut u8,
            out_length: usize,
        ) -> u64;
        pub fn larusqem_read_words(
            elements: *const u32,
            elements_length: usize,
            text: *const u8,
            text_length: usize,
            engine: u32,
            budget: u32,
            reading: *mut ReadingWords,
        ) -> u64;
        pub fn larusqem_explain_words(
            format: *const u8,
            format_length: usize,
            text: *const u8,
            text_length: usize,
            reason: *mut ReasonWords,
        );
        pub fn larusqem_explain_read_words(
            elements: *const u32,
            elements_length: usize,
            text: *const u8,
            text_length: usize,
            reason: *mut ReasonWords,
        );
        pub fn larusqem_pack_words(sheet: *const SheetWords, word: *mut u64) -> u64;
        pub fn larusqem_unpack_words(word: u64, sheet: *mut SheetWords) -> u32;
        pub fn larusqem_week_words(word: u64, week: *mut [u64; 3]);
        pub fn larusqem_list_words(
            words: *const u64,
            words_length: usize,
            table: *const u64,
            table_length: usize,
            counts: *const [u32; 2],
        ) -> u32;
        pub fn larusqem_add_words(
            sheets: *const u32,
            sheets_length: usize,
            words: *mut u64,
            words_length: usize,
            table: *mut u64,
            table_length: usize,
            counts: *mut [u32; 2],
            added: *mut [u32; 3],
        );
        #[cfg(test)]
        pub fn larusqem_days() -> u32;
        pub fn larusqem_day_number(year: u32, month: u32, day: u32) -> u32;
        pub fn larusqem_weekday(year: u32, month: u32, day: u32) -> u32;
        pub fn larusqem_day_of_year(year: u32, month: u32, day: u32) -> u32;
        pub fn larusqem_iso_year(year: u32, month: u32, day: u32) -> u32;
        pub fn larusqem_iso_week(year: u32, month: u32, day: u32) -> u32;
        pub fn larusqem_date_word(day_number: u32) -> u32;
        pub fn larusqem_version() -> u32;
    }
}

/// A number and a place.
fn split(result: u64) -> (u32, usize) {
    ((result >> 32) as u32, result as u32 as usize)
}

pub fn strftime(format: &[u8], moment: &MomentWords, out: &mut [u8]) -> (u32, usize) {
    split(unsafe { c::larusqem_strftime_words(format.as_ptr(), format.len(), moment, out.as_mut_ptr(), out.len()) })
}

pub fn strptime(format: &[u8], text: &[u8], engine: Engine) -> ReadingWords {
    let (engine, budget) = engine.numbers();
    let mut reading = [0; 20];
    unsafe {
        c::larusqem_strptime_words(format.as_ptr(), format.len(), text.as_ptr(), text.len(), engine, budget, &mut reading);
    }
    reading
}

pub fn open(format: &[u8], side: Use, elements: &mut [u32]) -> (u32, usize) {
    split(unsafe { c::larusqem_open_words(format.as_ptr(), format.len(), side as u32, elements.as_mut_ptr(), elements.len()) })
}

pub fn write(elements: &[u32], moment: &MomentWords, out: &mut [u8]) -> (u32, usize) {
    split(unsafe { c::larusqem_write_words(elements.as_ptr(), elements.len(), moment, out.as_mut_ptr(), out.len()) })
}

pub fn read(elements: &[u32], text: &[u8], engine: Engine) -> ReadingWords {
    let (engine, budget) = engine.numbers();
    let mut reading = [0; 20];
    unsafe {
        c::larusqem_read_words(elements.as_ptr(), elements.len(), text.as_ptr(), text.len(), engine, budget, &mut reading);
    }
    reading
}

/// Why a text is refused by 9 or 10, which is the same by every engine.
pub fn explain(format: &[u8], text: &[u8]) -> ReasonWords {
    let mut reason = [0; 33];
    unsafe { c::larusqem_explain_words(format.as_ptr(), format.len(), text.as_ptr(), text.len(), &mut reason) };
    reason
}

/// The same by elements.
pub fn explain_read(elements: &[u32], text: &[u8]) -> ReasonWords {
    let mut reason = [0; 33];
    unsafe { c::larusqem_explain_read_words(elements.as_ptr(), elements.len(), text.as_ptr(), text.len(), &mut reason) };
    reason
}

/// A number and a place, and the sheet's word, 0 where it is refused.
pub fn pack(sheet: &SheetWords) -> (u32, usize, u64) {
    let mut word = 0;
    let (number, place) = split(unsafe { c::larusqem_pack_words(sheet, &mut word) });
    (number, place, word)
}

/// The sheet that a word is the packing of.
pub fn unpack(word: u64) -> Option<SheetWords> {
    let mut sheet = [0; 11];
    let is_packing = unsafe { c::larusqem_unpack_words(word, &mut sheet) } == 1;
    is_packing.then_some(sheet)
}

/// ISO year, week and sheets of a word of a table.
pub fn week(word: u64) -> [u64; 3] {
    let mut week = [0; 3];
    unsafe { c::larusqem_week_words(word, &mut week) };
    week
}

/// Whether arrays hold a list and its table in so many of their words.
pub fn is_list(words: &[u64], table: &[u64], counts: &[u32; 2]) -> bool {
    unsafe { c::larusqem_list_words(words.as_ptr(), words.len(), table.as_ptr(), table.len(), counts) == 0 }
}

/// Adds sheets to a list and its table: number, place and index.
pub fn add(sheets: &[SheetWords], words: &mut [u64], table: &mut [u64], counts: &mut [u32; 2]) -> [u32; 3] {
    let mut added = [0; 3];
    let (first, length) = (sheets.as_ptr().cast(), 11 * sheets.len());
    unsafe {
        c::larusqem_add_words(first, length, words.as_mut_ptr(), words.len(), table.as_mut_ptr(), table.len(), counts, &mut added);
    }
    added
}

#[cfg(test)]
pub fn days() -> u32 {
    unsafe { c::larusqem_days() }
}

pub fn day_number(year: u32, month: u32, day: u32) -> u32 {
    unsafe { c::larusqem_day_number(year, month, day) }
}

pub fn weekday(year: u32, month: u32, day: u32) -> u32 {
    unsafe { c::larusqem_weekday(year, month, day) }
}

pub fn day_of_year(year: u32, month: u32, day: u32) -> u32 {
    unsafe { c::larusqem_day_of_year(year, month, day) }
}

pub fn iso_year(year: u32, month: u32, day: u32) -> u32 {
    unsafe { c::larusqem_iso_year(year, month, day) }
}

pub fn iso_week(year: u32, month: u32, day: u32) -> u32 {
    unsafe { c::larusqem_iso_week(year, month, day) }
}

pub fn date_word(day_number: u32) -> u32 {
    unsafe { c::larusqem_date_word(day_number) }
}

pub fn version() -> u32 {
    unsafe { c::larusqem_version() }
}
