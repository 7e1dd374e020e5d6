//! The packed list of sheets, its week table, and what the program `week_counts` writes: written from the rules alone, as `rules.rs` is,
//! and the slow, literal way. A word is a packing where it unpacks to a valid sheet that packs to it, and the table is worked out afresh
//! from the list each time. What is quicker stands beside what is literal and is compared with it. Cases worked by hand judge it
//! (`sheet_cases.rs`).
use crate::rules::{bad_field, lines_of, read, Calendar, Engine, Moment, Reading};
use std::collections::BTreeMap;

/// The most words of a list's array.
pub const LONGEST: usize = 65_536;
/// The words of a week table's array.
pub const WEEKS: usize = 1024;

/// A sheet as it comes: year, month and day, all three 0 where the day is unsaid; hour, minute, second and the zone offset in minutes, each
/// said or unsaid. Nothing says that it is valid.
#[derive(Clone, Copy, Default, PartialEq, Eq, Debug)]
pub struct Sheet {
    pub date: (u32, u32, u32),
    pub hour: Option<u32>,
    pub minute: Option<u32>,
    pub second: Option<u32>,
    pub offset: Option<i32>,
}

impl Sheet {
    /// With nothing said but the day.
    pub const fn new(year: u32, month: u32, day: u32) -> Sheet {
        Sheet { date: (year, month, day), hour: None, minute: None, second: None, offset: None }
    }

    /// What a reading says; a refused one says no day, nor anything else.
    pub fn of_reading(r: &Reading) -> Sheet {
        Sheet { date: r.day.unwrap_or((0, 0, 0)), hour: r.hour, minute: r.minute, second: r.second, offset: r.offset }
    }

    /// The first said field that is not valid, if one is. What is unsaid is judged as 0, which is valid.
    fn bad_field(&self) -> Option<u32> {
        let (year, month, day) = self.date;
        let [hour, minute, second] = [self.hour, self.minute, self.second].map(|said| said.unwrap_or(0));
        bad_field(&Moment { fields: [year, month, day, hour, minute, second], offset: self.offset })
    }
}

/// Why a sheet is not added: a number and a place.
#[derive(Clone, Copy, PartialEq, Eq, Debug)]
pub struct Refusal {
    pub number: u32,
    pub place: u32,
}

const fn refusal(number: u32) -> Refusal {
    Refusal { number, place: 0 }
}

/// How many bits each field of a sheet's word has, from the most significant: year, month, day; hour said, hour; minute said, minute;
/// second said, second; offset said, offset plus 1439; zero.
const SHEET_BITS: [u32; 12] = [14, 4, 5, 1, 5, 1, 6, 1, 6, 1, 12, 8];
/// The same of a word of the week table: ISO year, week, sheets.
const WEEK_BITS: [u32; 3] = [14, 6, 44];

/// The word of some fields. Each has room in its bits.
fn joined(bits: &[u32], fields: &[u64]) -> u64 {
    let mut word = 0;
    for (width, field) in bits.iter().zip(fields) {
        assert!(*field < 1 << width);
        word = word << width | field;
    }
    word
}

/// The fields of a word.
fn split<const N: usize>(bits: &[u32; N], word: u64) -> [u64; N] {
    let mut rest = word;
    let mut fields = [0; N];
    for i in (0..N).rev() {
        fields[i] = rest % (1 << bits[i]);
        rest >>= bits[i];
    }
    fields
}

/// Whether a field is said, and its number: 0 and 0 for one that is not.
fn said(number: Option<u32>) -> [u64; 2] {
    number.map_or([0, 0], |n| [1, n as u64])
}

/// A sheet's word, or 13 or 2.
pub fn pack(sheet: &Sheet) -> Result<u64, Refusal> {
    if sheet.date == (0, 0, 0) {
        return Err(refusal(13));
    }
    if let Some(place) = sheet.bad_field() {
        return Err(Refusal { number: 2, place });
    }
    let (year, month, day) = sheet.date;
    let [hour_said, hour] = said(sheet.hour);
    let [minute_said, minute] = said(sheet.minute);
    let [second_said, second] = said(sheet.second);
    let [offset_said, offset] = said(sheet.offset.map(|minutes| (minutes + 1439) as u32));
    let fields = [year.into(), month.into(), day.into(), hour_said, hour, minute_said, minute, second_said, second, offset_said, offset, 0];
    Ok(joined(&SHEET_BITS, &fields))
}

/// The sheet of a word, if it is a packing.
pub fn unpack(word: u64) -> Option<Sheet> {
    let fields = split(&SHEET_BITS, word).map(|field| field as u32);
    let [year, month, day, hour_said, hour, minute_said, minute, second_said, second, offset_said, offset, _] = fields;
    let sheet = Sheet {
        date: (year, month, day),
        hour: (hour_said == 1).then_some(hour),
        minute: (minute_said == 1).then_some(minute),
        second: (second_said == 1).then_some(second),
        offset: (offset_said == 1).then_some(offset as i32 - 1439),
    };
    (pack(&sheet) == Ok(word)).then_some(sheet)
}

/// An ISO year, a week of it, and how many sheets it has.
#[derive(Clone, Copy, PartialEq, Eq, Debug)]
pub struct Week {
    pub year: u64,
    pub week: u64,
    pub sheets: u64,
}

impl Week {
    pub fn word(&self) -> u64 {
        joined(&WEEK_BITS, &[self.year, self.week, self.sheets])
    }

    /// By the bits of any word.
    pub fn of_word(word: u64) -> Week {
        let [year, week, sheets] = split(&WEEK_BITS, word);
        Week { year, week, sheets }
    }
}

/// The ISO weeks that have sheets, by year and week, and how many each has.
type Counted = BTreeMap<(u64, u64), u64>;

/// The ISO year and week of a day.
fn iso_week(cal: &Calendar, (year, month, day): (u32, u32, u32)) -> (u64, u64) {
    let d = cal.find(year, month, day);
    (d.week_year as u64, d.week as u64)
}

/// The weeks of words that are packings.
fn counted(cal: &Calendar, words: &[u64]) -> Counted {
    let mut weeks = Counted::new();
    for word in words {
        *weeks.entry(iso_week(cal, unpack(*word).unwrap().date)).or_insert(0) += 1;
    }
    weeks
}

fn week_words(weeks: &Counted) -> Vec<u64> {
    weeks.iter().map(|(&(year, week), &sheets)| Week { year, week, sheets }.word()).collect()
}

/// The week table of words that are packings.
pub fn table(cal: &Calendar, words: &[u64]) -> Vec<u64> {
    week_words(&counted(cal, words))
}

/// A list of sheets and its week table: two arrays, and how many words of each are held. Nothing says that they are as they should be.
#[derive(Clone, PartialEq, Eq, Debug)]
pub struct List {
    pub words: Vec<u64>,
    pub weeks: Vec<u64>,
    pub counts: [u32; 2],
}

/// How adding many sheets ended: by the refusal of the sheet with this index, or by none; then the index is how many there were.
#[derive(Clone, Copy, PartialEq, Eq, Debug)]
pub struct Added {
    pub refusal: Option<Refusal>,
    pub index: u32,
}

impl List {
    /// With no sheet, in an array of so many words.
    pub fn new(room: usize) -> List {
        List { words: vec![0; room], weeks: vec![0; WEEKS], counts: [0, 0] }
    }

    /// The words held, and the weeks.
    pub fn held(&self) -> (&[u64], &[u64]) {
        (&self.words[..self.counts[0] as usize], &self.weeks[..self.counts[1] as usize])
    }

    /// 15, unless list and table are as they should be.
    pub fn judge(&self, cal: &Calendar) -> Result<(), Refusal> {
        let fits = self.words.len() <= LONGEST && self.weeks.len() == WEEKS;
        if !fits || self.counts[0] as usize > self.words.len() || self.counts[1] as usize > self.weeks.len() {
            return Err(refusal(15));
        }
        let (words, weeks) = self.held();
        let packed = words.iter().all(|word| unpack(*word).is_some());
        let ascending = words.windows(2).all(|pair| pair[0] <= pair[1]);
        if !packed || !ascending || weeks != table(cal, words) {
            return Err(refusal(15));
        }
        Ok(())
    }

    /// Adds a sheet, or leaves everything as it is.
    pub fn add(&mut self, cal: &Calendar, sheet: &Sheet) -> Result<(), Refusal> {
        let word = pack(sheet)?;
        self.judge(cal)?;
        let mut words = self.held().0.to_vec();
        words.push(word);
        words.sort_unstable();
        let weeks = table(cal, &words);
        if words.len() > self.words.len() || weeks.len() > WEEKS {
            return Err(refusal(14));
        }
        self.hold(&words, &weeks);
        Ok(())
    }

    /// Puts these words first, in both arrays.
    fn hold(&mut self, words: &[u64], weeks: &[u64]) {
        self.words[..words.len()].copy_from_slice(words);
        self.weeks[..weeks.len()].copy_from_slice(weeks);
        self.counts = [words.len() as u32, weeks.len() as u32];
    }

    /// Adds sheets one after another, up to the first that is refused.
    pub fn add_slowly(&mut self, cal: &Calendar, sheets: &[Sheet]) -> Added {
        for (index, sheet) in sheets.iter().enumerate() {
            if let Err(refusal) = self.add(cal, sheet) {
                return Added { refusal: Some(refusal), index: index as u32 };
            }
        }
        Added { refusal: None, index: sheets.len() as u32 }
    }

    /// The same, faster: where one sheet was added, all was as it should be, and stays so. The others are put in together.
    pub fn add_many(&mut self, cal: &Calendar, sheets: &[Sheet]) -> Added {
        let first = self.add_slowly(cal, &sheets[..sheets.len().min(1)]);
        if first.refusal.is_some() || sheets.is_empty() {
            return first;
        }
        let mut words = self.held().0.to_vec();
        let mut weeks = counted(cal, &words);
        let mut ended = Added { refusal: None, index: sheets.len() as u32 };
        for (index, sheet) in sheets.iter().enumerate().skip(1) {
            let packed = pack(sheet).and_then(|word| {
                let week = iso_week(cal, sheet.date);
                let full = words.len() == self.words.len() || weeks.len() == WEEKS && !weeks.contains_key(&week);
                if full {
                    Err(refusal(14))
                } else {
                    Ok((word, week))
                }
            });
            match packed {
                Ok((word, week)) => {
                    words.push(word);
                    *weeks.entry(week).or_insert(0) += 1;
                }
                Err(refusal) => {
                    ended = Added { refusal: Some(refusal), index: index as u32 };
                    break;
                }
            }
        }
        words.sort_unstable();
        self.hold(&words, &week_words(&weeks));
        ended
    }
}

/// What the program `week_counts` writes for a list of texts: each ISO week with its sheets, how many texts were left out, and for each
/// number how many by it. The list has room for them all, the table for 1,024 weeks.
pub fn week_counts(cal: &Calendar, list: &[u8]) -> String {
    let lines = match lines_of(list) {
        None => return "too long\n".to_string(),
        Some(lines) => lines,
    };
    let mut weeks = Counted::new();
    let mut left_out: BTreeMap<u32, usize> = BTreeMap::new();
    for text in lines.iter().skip(1) {
        let reading = read(cal, Engine::Skipping, lines[0], text);
        let number = match (reading.number, reading.day.map(|day| iso_week(cal, day))) {
            (0, None) => 13,
            (0, Some(week)) if weeks.len() == WEEKS && !weeks.contains_key(&week) => 14,
            (0, Some(week)) => {
                *weeks.entry(week).or_insert(0) += 1;
                continue;
            }
            (number, _) => number,
        };
        *left_out.entry(number).or_insert(0) += 1;
    }
    let mut out = String::new();
    for ((year, week), sheets) in &weeks {
        out += &format!("{year:04}-W{week:02} {sheets}\n");
    }
    out += &format!("left out: {}\n", left_out.values().sum::<usize>());
    for (number, texts) in &left_out {
        out += &format!("number {number}: {texts}\n");
    }
    out
}
