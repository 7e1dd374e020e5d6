//! Sheets and weeks.
use crate::date::Date;
use crate::error::{Field, FieldError, SheetError};
use crate::ffi;
use crate::moment::Moment;
use crate::offset::Offset;
use crate::reading::Reading;
use alloc::format;
use alloc::string::{String, ToString};
use core::fmt;

/// A sheet: a dated page, with a day and, each said or unsaid, hour, minute, second and zone offset (RULES 11.1). Every value is valid. It
/// is held as its word of 64 bits, from the most significant on: year 14, month 4, day 5; hour said 1, hour 5; minute said 1, minute 6;
/// second said 1, second 6; offset said 1, offset plus 1439 in 12; 8 zero bits. What is unsaid is zero.
///
/// Sheets compare as their words do: by date, then by the rest as packed, where what is unsaid goes before anything that is said.
///
/// ```
/// use larusqem::{strptime, Date, Field, Offset, Sheet, SheetError};
///
/// let date = Date::new(1934, 3, 5).unwrap();
/// let night = Sheet::from(date);
/// assert_eq!(night.word(), 0x1e38_ca00_0000_0000);
/// let morning = Sheet::new(date, Some(7), Some(8), None, Offset::from_minutes(90)).unwrap();
/// assert_eq!((morning.date(), morning.hour(), morning.second()), (date, Some(7), None));
/// assert_eq!(morning.to_string(), "1934-03-05 07:08:-- +0130");
/// assert!(night < morning && morning < Sheet::from(date.next_day().unwrap()));
/// assert_eq!(Sheet::new(date, Some(24), None, None, None).unwrap_err().field(), Field::Hour);
///
/// let reading = strptime("%d %b %Y %H:%M %z", "5 Mar 1934 7:08 +0130").unwrap();
/// assert_eq!(Sheet::from_reading(&reading), Ok(morning));
/// assert_eq!(Sheet::from_reading(&strptime("%H:%M", "7:08").unwrap()), Err(SheetError::NoDay));
///
/// assert_eq!(Sheet::from_word(night.word()), Some(night));
/// assert_eq!(Sheet::from_word(night.word() + 1), None);
/// ```
#[derive(Clone, Copy, PartialEq, Eq, PartialOrd, Ord, Hash)]
pub struct Sheet {
    word: u64,
}

impl Sheet {
    /// A sheet of a date with what is said of it, or the first field that is outside its range.
    pub fn new(
        date: Date,
        hour: Option<u32>,
        minute: Option<u32>,
        second: Option<u32>,
        offset: Option<Offset>,
    ) -> Result<Sheet, FieldError> {
        let said = |number: Option<u32>| number.map_or([0, 0], |number| [1, number]);
        let [[hour_said, hour], [minute_said, minute], [second_said, second]] = [said(hour), said(minute), said(second)];
        let [offset_said, offset] = said(offset.map(|offset| offset.minutes() as u32));
        let (year, month, day) = date.into();
        let words = [year, month, day, hour_said, hour, minute_said, minute, second_said, second, offset_said, offset];
        match ffi::pack(&words) {
            (0, _, word) => Ok(Sheet { word }),
            (2, place, _) => Err(FieldError::of(Field::ALL[place - 1])),
            (number, ..) => unreachable!("a sheet with a date is not refused by {number}"),
        }
    }

    /// The sheet of a reading: what it says, where it says a day. Whether all of its text was read is not asked for:
    /// [`Reading::is_whole`] tells.
    pub fn from_reading(reading: &Reading) -> Result<Sheet, SheetError> {
        let date = reading.date.ok_or(SheetError::NoDay)?;
        Ok(Sheet::new(date, reading.hour, reading.minute, reading.second, reading.offset)?)
    }

    /// The sheet that a word is the packing of, if it is one: if it unpacks to a valid sheet that packs to it.
    pub fn from_word(word: u64) -> Option<Sheet> {
        ffi::unpack(word).map(|_| Sheet { word })
    }

    /// The sheet of a word that the library found to be a packing.
    pub(crate) const fn known(word: u64) -> Sheet {
        Sheet { word }
    }

    /// The word: year, month, day and the rest in its bits. No word of a sheet is 0.
    pub const fn word(self) -> u64 {
        self.word
    }

    /// The date.
    pub fn date(self) -> Date {
        let [year, month, day, ..] = self.words();
        Date::known(year, month, day)
    }

    /// The hour, 0 to 23, where it is said.
    pub fn hour(self) -> Option<u32> {
        self.said(3)
    }

    /// The minute, 0 to 59, where it is said.
    pub fn minute(self) -> Option<u32> {
        self.said(5)
    }

    /// The second, 0 to 60, where it is said.
    pub fn second(self) -> Option<u32> {
        self.said(7)
    }

    /// The zone offset, where it is said.
    pub fn offset(self) -> Option<Offset> {
        self.said(9).map(|minutes| Offset::known(minutes as i32))
    }

    /// The moment, where hour, minute and second are all said; with the zone offset, where that is said too.
    pub fn moment(self) -> Option<Moment> {
        let moment = Moment::new(self.date(), self.hour()?, self.minute()?, self.second()?).ok()?;
        Some(moment.with_offset(self.offset()))
    }

    /// The words of the sheet for the C functions.
    pub(crate) fn words(self) -> ffi::SheetWords {
        ffi::unpack(self.word).expect("the word of a sheet is a packing")
    }

    /// What is said by two words.
    fn said(self, from: usize) -> Option<u32> {
        let words = self.words();
        (words[from] == 1).then_some(words[from + 1])
    }
}

/// A sheet of a date, with all else unsaid.
impl From<Date> for Sheet {
    fn from(date: Date) -> Sheet {
        Sheet::new(date, None, None, None, None).expect("a date is valid")
    }
}

/// A sheet of a moment, with hour, minute and second said, and the zone offset where there is one.
impl From<Moment> for Sheet {
    fn from(moment: Moment) -> Sheet {
        let (hour, minute, second) = (moment.hour(), moment.minute(), moment.second());
        Sheet::new(moment.date(), Some(hour), Some(minute), Some(second), moment.offset()).expect("a moment is valid")
    }
}

/// As [`Sheet::from_reading`].
impl TryFrom<Reading> for Sheet {
    type Error = SheetError;

    fn try_from(reading: Reading) -> Result<Sheet, SheetError> {
        Sheet::from_reading(&reading)
    }
}

/// As `1934-03-05 07:08:--`, an unsaid hour, minute or second `--`, and where there is a zone offset with a blank and the offset after it.
impl fmt::Display for Sheet {
    fn fmt(&self, f: &mut fmt::Formatter) -> fmt::Result {
        let two = |said: Option<u32>| said.map_or("--".to_string(), |number| format!("{number:02}"));
        let offset = self.offset().map_or(String::new(), |offset| format!(" {offset}"));
        f.pad(&format!("{} {}:{}:{}{offset}", self.date(), two(self.hour()), two(self.minute()), two(self.second())))
    }
}

impl fmt::Debug for Sheet {
    fn fmt(&self, f: &mut fmt::Formatter) -> fmt::Result {
        write!(f, "Sheet({self})")
    }
}

/// An ISO week that has sheets, and how many (RULES 11.2).
///
/// ```
/// use larusqem::Week;
///
/// // ISO year 14 bits, week 6, sheets 44
/// let week = Week::from_word(1934 << 50 | 10 << 44 | 3);
/// assert_eq!((week.year, week.week, week.sheets), (1934, 10, 3));
/// assert_eq!(week.to_string(), "1934-W10 3");
/// ```
#[derive(Clone, Copy, PartialEq, Eq, PartialOrd, Ord, Hash, Debug)]
#[non_exhaustive]
pub struct Week {
    /// The ISO year.
    pub year: u32,
    /// The week of that year, 1 to 53.
    pub week: u32,
    /// How many sheets it has.
    pub sheets: u64,
}

impl Week {
    /// The week of a word of a table, by the bits of any word.
    pub fn from_word(word: u64) -> Week {
        let [year, week, sheets] = ffi::week(word);
        Week { year: year as u32, week: week as u32, sheets }
    }
}

/// As the program `week_counts` shows it: `1934-W10 3`.
impl fmt::Display for Week {
    fn fmt(&self, f: &mut fmt::Formatter) -> fmt::Result {
        f.pad(&format!("{:04}-W{:02} {}", self.year, self.week, self.sheets))
    }
}
