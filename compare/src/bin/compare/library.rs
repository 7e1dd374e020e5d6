//! The proved library, called as C calls it. Every lent array stands between guard entries, which must be as they were.
use compare::random::Random;
use compare::rules::Moment;

/// The words of a reading, and those of a reason.
pub const WORDS: usize = 20;
pub const REASON_WORDS: usize = 33;
/// The words of a sheet.
pub const SHEET_WORDS: usize = 11;
const GUARD: usize = 24;

mod raw {
    #[link(name = "larusqem", kind = "static")]
    extern "C" {
        pub fn larusqem_strftime_words(format: *const u8, format_length: usize, moment: *const u32, out: *mut u8, out_length: usize)
            -> u64;
        pub fn larusqem_write_words(
            elements: *const u32,
            elements_length: usize,
            moment: *const u32,
            out: *mut u8,
            out_length: usize,
        ) -> u64;
        pub fn larusqem_strptime_words(
            format: *const u8,
            format_length: usize,
            text: *const u8,
            text_length: usize,
            engine: u32,
            budget: u32,
            reading: *mut u32,
        ) -> u64;
        pub fn larusqem_read_words(
            elements: *const u32,
            elements_length: usize,
            text: *const u8,
            text_length: usize,
            engine: u32,
            budget: u32,
            reading: *mut u32,
        ) -> u64;
        pub fn larusqem_explain_words(format: *const u8, format_length: usize, text: *const u8, text_length: usize, reason: *mut u32);
        pub fn larusqem_explain_read_words(
            elements: *const u32,
            elements_length: usize,
            text: *const u8,
            text_length: usize,
            reason: *mut u32,
        );
        pub fn larusqem_open_words(
            format: *const u8,
            format_length: usize,
            for_writing: u32,
            elements: *mut u32,
            elements_length: usize,
        ) -> u64;
        pub fn larusqem_days() -> u32;
        pub fn larusqem_day_number(year: u32, month: u32, day: u32) -> u32;
        pub fn larusqem_weekday(year: u32, month: u32, day: u32) -> u32;
        pub fn larusqem_day_of_year(year: u32, month: u32, day: u32) -> u32;
        pub fn larusqem_iso_year(year: u32, month: u32, day: u32) -> u32;
        pub fn larusqem_iso_week(year: u32, month: u32, day: u32) -> u32;
        pub fn larusqem_date_word(day_number: u32) -> u32;
        pub fn larusqem_add_words(
            sheets: *const u32,
            sheets_length: usize,
            words: *mut u64,
            words_length: usize,
            weeks: *mut u64,
            weeks_length: usize,
            counts: *mut u32,
            answer: *mut u32,
        );
        pub fn larusqem_list_words(
            words: *const u64,
            words_length: usize,
            weeks: *const u64,
            weeks_length: usize,
            counts: *const u32,
        ) -> u32;
        pub fn larusqem_pack_words(sheet: *const u32, word: *mut u64) -> u64;
        pub fn larusqem_unpack_words(word: u64, sheet: *mut u32) -> u32;
        pub fn larusqem_week_words(word: u64, week: *mut u64);
    }
}

/// Number and place.
fn split(result: u64) -> (u32, u32) {
    ((result >> 32) as u32, result as u32)
}

/// The words of a moment.
pub type MomentWords = [u32; 8];

/// A moment as its words (RULES 10).
pub fn moment_words(m: &Moment) -> MomentWords {
    let [year, month, day, hour, minute, second] = m.fields;
    let (said, offset) = m.offset.map_or((0, 0), |minutes| (1, minutes as u32));
    [year, month, day, hour, minute, second, said, offset]
}

/// The same as others may give it: any number but 0 for an offset that is said, and anything for one that is not.
pub fn any_moment_words(random: &mut Random, m: &Moment) -> MomentWords {
    let mut words = moment_words(m);
    match m.offset {
        Some(_) => words[6] = *random.pick(&[1, 1, 1, 2, 256, 1 << 16, 1 << 31, u32::MAX]),
        None => words[7] = random.next() as u32 >> random.below(32),
    }
    words
}

pub fn strftime(format: &[u8], m: &MomentWords, out: &mut [u8]) -> (u32, u32) {
    split(unsafe { raw::larusqem_strftime_words(format.as_ptr(), format.len(), m.as_ptr(), out.as_mut_ptr(), out.len()) })
}

pub fn write(elements: &[u32], m: &MomentWords, out: &mut [u8]) -> (u32, u32) {
    split(unsafe { raw::larusqem_write_words(elements.as_ptr(), elements.len(), m.as_ptr(), out.as_mut_ptr(), out.len()) })
}

/// An engine as the functions are told of it: its number, and a budget that only the plain one with a budget looks at.
#[derive(Clone, Copy, Debug)]
pub struct Told {
    pub engine: u32,
    pub budget: u32,
}

pub const SKIPPING: Told = Told { engine: 0, budget: 0 };

pub fn strptime(format: &[u8], text: &[u8], told: Told, reading: &mut [u32]) -> (u32, u32) {
    assert_eq!(reading.len(), WORDS);
    let (format_start, text_start, reading) = (format.as_ptr(), text.as_ptr(), reading.as_mut_ptr());
    split(unsafe { raw::larusqem_strptime_words(format_start, format.len(), text_start, text.len(), told.engine, told.budget, reading) })
}

pub fn read(elements: &[u32], text: &[u8], told: Told, reading: &mut [u32]) -> (u32, u32) {
    assert_eq!(reading.len(), WORDS);
    let (elements_start, text_start, reading) = (elements.as_ptr(), text.as_ptr(), reading.as_mut_ptr());
    split(unsafe { raw::larusqem_read_words(elements_start, elements.len(), text_start, text.len(), told.engine, told.budget, reading) })
}

pub fn explain(format: &[u8], text: &[u8], reason: &mut [u32]) {
    assert_eq!(reason.len(), REASON_WORDS);
    unsafe { raw::larusqem_explain_words(format.as_ptr(), format.len(), text.as_ptr(), text.len(), reason.as_mut_ptr()) }
}

pub fn explain_read(elements: &[u32], text: &[u8], reason: &mut [u32]) {
    assert_eq!(reason.len(), REASON_WORDS);
    unsafe { raw::larusqem_explain_read_words(elements.as_ptr(), elements.len(), text.as_ptr(), text.len(), reason.as_mut_ptr()) }
}

/// What a text is read by.
#[derive(Clone, Copy)]
pub enum By<'a> {
    Format(&'a [u8]),
    Elements(&'a [u32]),
}

impl By<'_> {
    pub fn read(&self, text: &[u8], told: Told, reading: &mut [u32]) -> (u32, u32) {
        match self {
            By::Format(format) => strptime(format, text, told, reading),
            By::Elements(elements) => read(elements, text, told, reading),
        }
    }

    pub fn explain(&self, text: &[u8], reason: &mut [u32]) {
        match self {
            By::Format(format) => explain(format, text, reason),
            By::Elements(elements) => explain_read(elements, text, reason),
        }
    }
}

impl std::fmt::Debug for By<'_> {
    fn fmt(&self, f: &mut std::fmt::Formatter) -> std::fmt::Result {
        match self {
            By::Format(format) => write!(f, "\"{}\"", format.escape_ascii()),
            By::Elements(elements) => elements.fmt(f),
        }
    }
}

/// For reading where `for_writing` is 0, and for writing where it is any other number.
pub fn open(format: &[u8], for_writing: u32, elements: &mut [u32]) -> (u32, u32) {
    split(unsafe { raw::larusqem_open_words(format.as_ptr(), format.len(), for_writing, elements.as_mut_ptr(), elements.len()) })
}

pub fn days() -> u32 {
    unsafe { raw::larusqem_days() }
}

/// What the functions of a date answer: day number, weekday, day of the year, ISO year, ISO week.
pub fn of_date(year: u32, month: u32, day: u32) -> [u32; 5] {
    unsafe {
        [
            raw::larusqem_day_number(year, month, day),
            raw::larusqem_weekday(year, month, day),
            raw::larusqem_day_of_year(year, month, day),
            raw::larusqem_iso_year(year, month, day),
            raw::larusqem_iso_week(year, month, day),
        ]
    }
}

pub fn date_word(day_number: u32) -> u32 {
    unsafe { raw::larusqem_date_word(day_number) }
}

/// Adds sheets to a list; the answer is number, place and index.
pub fn add(sheets: &[u32], words: &mut [u64], weeks: &mut [u64], counts: &mut [u32], answer: &mut [u32]) {
    assert_eq!((counts.len(), answer.len()), (2, 3));
    let (start, words_start, weeks_start) = (sheets.as_ptr(), words.as_mut_ptr(), weeks.as_mut_ptr());
    let (counts, answer) = (counts.as_mut_ptr(), answer.as_mut_ptr());
    unsafe { raw::larusqem_add_words(start, sheets.len(), words_start, words.len(), weeks_start, weeks.len(), counts, answer) }
}

/// Judges a list. Its arrays are lent as if they were to be written, so that the compiler takes no change for impossible.
pub fn list(words: &mut [u64], weeks: &mut [u64], counts: &mut [u32]) -> u32 {
    assert_eq!(counts.len(), 2);
    let (words_start, weeks_start) = (words.as_mut_ptr(), weeks.as_mut_ptr());
    unsafe { raw::larusqem_list_words(words_start, words.len(), weeks_start, weeks.len(), counts.as_mut_ptr()) }
}

pub fn pack(sheet: &[u32; SHEET_WORDS], word: &mut [u64]) -> (u32, u32) {
    assert_eq!(word.len(), 1);
    split(unsafe { raw::larusqem_pack_words(sheet.as_ptr(), word.as_mut_ptr()) })
}

pub fn unpack(word: u64, sheet: &mut [u32]) -> u32 {
    assert_eq!(sheet.len(), SHEET_WORDS);
    unsafe { raw::larusqem_unpack_words(word, sheet.as_mut_ptr()) }
}

/// ISO year, week and sheets of a word of the week table.
pub fn week(word: u64, week: &mut [u64]) {
    assert_eq!(week.len(), 3);
    unsafe { raw::larusqem_week_words(word, week.as_mut_ptr()) }
}

/// An array, of random entries or of others, with guards on both sides, and a copy of it as it came.
pub struct Lent<T> {
    entries: Vec<T>,
    came: Vec<T>,
    room: usize,
}

impl<T: Copy + PartialEq> Lent<T> {
    pub fn new(random: &mut Random, room: usize, entry: fn(u64) -> T) -> Lent<T> {
        let entries: Vec<T> = (0..room + 2 * GUARD).map(|_| entry(random.next())).collect();
        Lent { came: entries.clone(), entries, room }
    }

    /// With these entries in it.
    pub fn of(random: &mut Random, all: &[T], entry: fn(u64) -> T) -> Lent<T> {
        let mut guard = || (0..GUARD).map(|_| entry(random.next())).collect::<Vec<T>>();
        let entries = [&guard()[..], all, &guard()].concat();
        Lent { came: entries.clone(), entries, room: all.len() }
    }

    pub fn slice(&mut self) -> &mut [T] {
        let room = self.room;
        &mut self.entries[GUARD..GUARD + room]
    }

    /// Whether it now begins with `front`, and every other entry, guards included, is as it came.
    pub fn is(&self, front: &[T]) -> bool {
        let end = GUARD + front.len();
        self.entries[GUARD..end] == *front && self.entries[..GUARD] == self.came[..GUARD] && self.entries[end..] == self.came[end..]
    }
}
