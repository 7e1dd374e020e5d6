//! Why something is refused, by the numbers and places of RULES 3.
use crate::date::Date;
use crate::ffi;
use crate::quarrel::{Part, Quarrel};
use alloc::string::FromUtf8Error;
use core::fmt;

/// A field of a moment or of a sheet.
#[derive(Clone, Copy, PartialEq, Eq, Hash, Debug)]
#[non_exhaustive]
pub enum Field {
    /// 1 to 9999.
    Year,
    /// 1 to 12.
    Month,
    /// 1 to the month's length.
    Day,
    /// 0 to 23.
    Hour,
    /// 0 to 59.
    Minute,
    /// 0 to 60.
    Second,
    /// The zone offset: -1439 to 1439 minutes.
    Offset,
}

impl Field {
    pub(crate) const ALL: [Field; 7] = [Field::Year, Field::Month, Field::Day, Field::Hour, Field::Minute, Field::Second, Field::Offset];
}

impl fmt::Display for Field {
    fn fmt(&self, f: &mut fmt::Formatter) -> fmt::Result {
        f.pad(match self {
            Field::Year => "year",
            Field::Month => "month",
            Field::Day => "day",
            Field::Hour => "hour",
            Field::Minute => "minute",
            Field::Second => "second",
            Field::Offset => "zone offset",
        })
    }
}

/// A field is outside its range: there is no such date, moment, sheet or zone offset.
#[derive(Clone, Copy, PartialEq, Eq, Hash, Debug)]
pub struct FieldError {
    field: Field,
}

impl FieldError {
    pub(crate) const fn of(field: Field) -> FieldError {
        FieldError { field }
    }

    /// Refuses words that are no moment: it is the writer that judges them, here for an empty text.
    pub(crate) fn check(moment: &ffi::MomentWords) -> Result<(), FieldError> {
        match ffi::write(&[], moment, &mut []) {
            (0, _) => Ok(()),
            (2, place) => Err(FieldError::of(Field::ALL[place - 1])),
            (number, _) => unreachable!("an empty text is not refused by {number}"),
        }
    }

    /// The first field that is outside its range.
    pub fn field(&self) -> Field {
        self.field
    }

    /// The refusal's number.
    pub fn number(&self) -> u32 {
        2
    }

    /// The refusal's place.
    pub fn place(&self) -> usize {
        self.field as usize + 1
    }
}

impl fmt::Display for FieldError {
    fn fmt(&self, f: &mut fmt::Formatter) -> fmt::Result {
        let range = match self.field {
            Field::Year => "1 to 9999",
            Field::Month => "1 to 12",
            Field::Day => "1 to the month's length",
            Field::Hour => "0 to 23",
            Field::Minute => "0 to 59",
            Field::Second => "0 to 60",
            Field::Offset => "-1439 to 1439 minutes",
        };
        write!(f, "the {} is not {range}", self.field)
    }
}

/// Why a text is no date `YYYY-MM-DD`, no zone offset `+HHMM`, or no moment `YYYY-MM-DD HH:MM:SS`, which may have an offset.
#[derive(Clone, Copy, PartialEq, Eq, Hash, Debug)]
#[non_exhaustive]
pub enum ParseError {
    /// It has another shape.
    Shape {
        /// The first offset of the text where the shape does not go on.
        offset: usize,
    },
    /// It has the shape, and names what is not there.
    Field(FieldError),
}

impl fmt::Display for ParseError {
    fn fmt(&self, f: &mut fmt::Formatter) -> fmt::Result {
        match self {
            ParseError::Shape { offset } => write!(f, "the text has another shape from byte {offset}"),
            ParseError::Field(_) => write!(f, "no such date, time or zone offset"),
        }
    }
}

impl From<FieldError> for ParseError {
    fn from(error: FieldError) -> ParseError {
        ParseError::Field(error)
    }
}

/// Why a format cannot be opened.
#[derive(Clone, Copy, PartialEq, Eq, Hash, Debug)]
#[non_exhaustive]
pub enum FormatError {
    /// 1: it has more than 1,024 bytes.
    TooLong,
    /// 3: a conversion is unknown, unfinished or not for reading, or its flag or width is not taken.
    BadConversion {
        /// Where its `%` stands in the format.
        offset: usize,
    },
}

impl FormatError {
    /// The refusal's number.
    pub fn number(&self) -> u32 {
        match self {
            FormatError::TooLong => 1,
            FormatError::BadConversion { .. } => 3,
        }
    }

    /// The refusal's place.
    pub fn place(&self) -> usize {
        match *self {
            FormatError::TooLong => 0,
            FormatError::BadConversion { offset } => offset,
        }
    }
}

impl fmt::Display for FormatError {
    fn fmt(&self, f: &mut fmt::Formatter) -> fmt::Result {
        match self {
            FormatError::TooLong => write!(f, "the format has more than 1024 bytes"),
            FormatError::BadConversion { offset } => {
                write!(f, "a conversion, flag or width that is not taken, at byte {offset} of the format")
            }
        }
    }
}

/// Why a moment is not written. The buffer is then as it came.
#[derive(Clone, Copy, PartialEq, Eq, Hash, Debug)]
#[non_exhaustive]
pub enum WriteError {
    /// 1 or 3: the format cannot be opened.
    Format(FormatError),
    /// 4: the text is longer than the buffer.
    BufferTooSmall {
        /// How many bytes it has.
        needed: usize,
    },
    /// 12: `%s` is to be written, and the moment has no zone offset.
    NoZoneOffset {
        /// Where the `%` of the first `%s` stands in the format.
        offset: usize,
    },
}

impl WriteError {
    /// What the writer answers for a valid moment: how many bytes, or why none.
    pub(crate) fn judge((number, place): (u32, usize)) -> Result<usize, WriteError> {
        match number {
            0 => Ok(place),
            1 => Err(WriteError::Format(FormatError::TooLong)),
            3 => Err(WriteError::Format(FormatError::BadConversion { offset: place })),
            4 => Err(WriteError::BufferTooSmall { needed: place }),
            12 => Err(WriteError::NoZoneOffset { offset: place }),
            _ => unreachable!("the writer refuses no valid moment by {number}"),
        }
    }

    /// The refusal's number.
    pub fn number(&self) -> u32 {
        match self {
            WriteError::Format(error) => error.number(),
            WriteError::BufferTooSmall { .. } => 4,
            WriteError::NoZoneOffset { .. } => 12,
        }
    }

    /// The refusal's place.
    pub fn place(&self) -> usize {
        match *self {
            WriteError::Format(error) => error.place(),
            WriteError::BufferTooSmall { needed } => needed,
            WriteError::NoZoneOffset { offset } => offset,
        }
    }
}

impl fmt::Display for WriteError {
    fn fmt(&self, f: &mut fmt::Formatter) -> fmt::Result {
        match self {
            WriteError::Format(_) => write!(f, "the format cannot be opened"),
            WriteError::BufferTooSmall { needed } => write!(f, "the text has {needed} bytes, more than the buffer"),
            WriteError::NoZoneOffset { offset } => {
                write!(f, "the seconds from 1970 are to be written at byte {offset} of the format, and the moment has no zone offset")
            }
        }
    }
}

impl From<FormatError> for WriteError {
    fn from(error: FormatError) -> WriteError {
        WriteError::Format(error)
    }
}

/// Why a moment is not written as a `String`.
#[derive(Clone, PartialEq, Eq, Debug)]
#[non_exhaustive]
pub enum StringError {
    /// It is not written.
    Write(WriteError),
    /// It is written and is not UTF-8, since the format is not.
    Utf8(FromUtf8Error),
}

impl fmt::Display for StringError {
    fn fmt(&self, f: &mut fmt::Formatter) -> fmt::Result {
        match self {
            StringError::Write(_) => write!(f, "the moment is not written"),
            StringError::Utf8(_) => write!(f, "the text is not UTF-8"),
        }
    }
}

impl From<WriteError> for StringError {
    fn from(error: WriteError) -> StringError {
        StringError::Write(error)
    }
}

impl From<FromUtf8Error> for StringError {
    fn from(error: FromUtf8Error) -> StringError {
        StringError::Utf8(error)
    }
}

/// Why a text is not read. Judged are 1, 5, 3, then 6, 7 and 8 from left to right, then 11, 9 or 10 for the day, then 9 or 10 for the hour.
///
/// ```
/// use larusqem::{strptime, strptime_with, Date, Engine, FormatError, Part, ReadError};
///
/// assert_eq!(strptime("%d %Q", "5 x"), Err(ReadError::Format(FormatError::BadConversion { offset: 3 })));
/// assert_eq!(strptime("%F", "1934-March"), Err(ReadError::NoMatch { offset: 5 }));
/// assert_eq!(strptime("%H%M", "930"), Err(ReadError::OutOfRange { offset: 0 }));
/// assert_eq!(strptime("%d %e", "5 6"), Err(ReadError::Contradiction { offset: 2 }));
/// assert!(matches!(strptime("%a %d %b %Y", "Tue 5 Mar 1934"), Err(ReadError::NoDay { examined: 31, .. })));
/// assert!(matches!(strptime("%H %p", "7 PM"), Err(ReadError::NoHour { examined: 0, .. })));
/// let (first, second) = (Date::new(1, 3, 5).unwrap(), Date::new(2, 3, 5).unwrap());
/// assert_eq!(strptime("%d %b", "5 mar"), Err(ReadError::TwoDays { first, second, part: Part::Year, examined: 36 }));
/// assert_eq!(strptime("%I:%M", "07:08"), Err(ReadError::TwoHours { first: 7, second: 19, examined: 0 }));
/// assert_eq!(strptime_with("%F", "1934-03-05", Engine::Within(1000)), Err(ReadError::OverBudget { budget: 1000 }));
///
/// let refusal = strptime("%I:%M", "07:08").unwrap_err();
/// assert_eq!((refusal.number(), refusal.place(), refusal.examined()), (10, 2, 0));
///
/// let refusal = strptime("%a %d %b %Y", "Tuesday 5 March 1934").unwrap_err();
/// assert_eq!(refusal.to_string(), "no day is Tuesday, 5, March and 1934 together");
/// ```
#[derive(Clone, Copy, PartialEq, Eq, Hash, Debug)]
#[non_exhaustive]
pub enum ReadError {
    /// 1 or 3: the format cannot be opened.
    Format(FormatError),
    /// 5: the text has more than 1,024 bytes.
    TextTooLong,
    /// 6: the text does not match the format.
    NoMatch {
        /// Where in the text.
        offset: usize,
    },
    /// 7: a number is outside its range.
    OutOfRange {
        /// Where its first digit stands in the text, or the sign of a zone offset.
        offset: usize,
    },
    /// 8: a fact is said again, differently.
    Contradiction {
        /// Where its first digit or letter stands in the text, or the sign of a zone offset.
        offset: usize,
    },
    /// 9, place 1: no day fits all that is said.
    NoDay {
        /// How many days were examined.
        examined: u32,
        /// The words that no day fits together.
        quarrel: Quarrel,
    },
    /// 9, place 2: no hour fits all that is said.
    NoHour {
        /// How many days were examined.
        examined: u32,
        /// The words that no hour fits together.
        quarrel: Quarrel,
    },
    /// 10, place 1: two or more days fit.
    TwoDays {
        /// The earliest.
        first: Date,
        /// The next.
        second: Date,
        /// The first part in which they differ.
        part: Part,
        /// How many days were examined.
        examined: u32,
    },
    /// 10, place 2: two or more hours fit.
    TwoHours {
        /// The earliest.
        first: u32,
        /// The next.
        second: u32,
        /// How many days were examined.
        examined: u32,
    },
    /// 11: more days would have to be examined than the budget allows. Only [`Engine::Within`](crate::Engine::Within) has one.
    OverBudget {
        /// The budget, and how many days were examined.
        budget: u32,
    },
}

impl ReadError {
    /// The refusal's number.
    pub fn number(&self) -> u32 {
        match self {
            ReadError::Format(error) => error.number(),
            ReadError::TextTooLong => 5,
            ReadError::NoMatch { .. } => 6,
            ReadError::OutOfRange { .. } => 7,
            ReadError::Contradiction { .. } => 8,
            ReadError::NoDay { .. } | ReadError::NoHour { .. } => 9,
            ReadError::TwoDays { .. } | ReadError::TwoHours { .. } => 10,
            ReadError::OverBudget { .. } => 11,
        }
    }

    /// The refusal's place.
    pub fn place(&self) -> usize {
        match *self {
            ReadError::Format(error) => error.place(),
            ReadError::TextTooLong => 0,
            ReadError::NoMatch { offset } | ReadError::OutOfRange { offset } | ReadError::Contradiction { offset } => offset,
            ReadError::NoDay { .. } | ReadError::TwoDays { .. } => 1,
            ReadError::NoHour { .. } | ReadError::TwoHours { .. } => 2,
            ReadError::OverBudget { budget } => budget as usize,
        }
    }

    /// How many days were examined: none where the text was refused before its day was judged.
    pub fn examined(&self) -> u32 {
        match *self {
            ReadError::Format(_) | ReadError::TextTooLong => 0,
            ReadError::NoMatch { .. } | ReadError::OutOfRange { .. } | ReadError::Contradiction { .. } => 0,
            ReadError::NoDay { examined, .. } | ReadError::NoHour { examined, .. } => examined,
            ReadError::TwoDays { examined, .. } | ReadError::TwoHours { examined, .. } => examined,
            ReadError::OverBudget { budget } => budget,
        }
    }

    /// The words that no day, or no hour, fits together, where that is why.
    pub fn quarrel(&self) -> Option<&Quarrel> {
        match self {
            ReadError::NoDay { quarrel, .. } | ReadError::NoHour { quarrel, .. } => Some(quarrel),
            _ => None,
        }
    }
}

impl fmt::Display for ReadError {
    fn fmt(&self, f: &mut fmt::Formatter) -> fmt::Result {
        match self {
            ReadError::Format(_) => write!(f, "the format cannot be opened"),
            ReadError::TextTooLong => write!(f, "the text has more than 1024 bytes"),
            ReadError::NoMatch { offset } => write!(f, "the text does not match the format at byte {offset}"),
            ReadError::OutOfRange { offset } => write!(f, "the number at byte {offset} of the text is outside its range"),
            ReadError::Contradiction { offset } => write!(f, "what stands at byte {offset} of the text was said before, differently"),
            ReadError::NoDay { quarrel, .. } => write!(f, "no day is {quarrel} together"),
            ReadError::NoHour { quarrel, .. } => write!(f, "no hour is {quarrel} together"),
            ReadError::TwoDays { first, second, part, .. } => {
                write!(f, "more than one day agrees, the earliest {first} and {second}; the {part} is missing")
            }
            ReadError::TwoHours { first, second, .. } => {
                let missing = if *second == first + 12 { "AM or PM" } else { "the hour" };
                write!(f, "more than one hour agrees, the earliest {first} and {second}; {missing} is missing")
            }
            ReadError::OverBudget { budget } => write!(f, "more days would have to be examined than the budget of {budget}"),
        }
    }
}

impl From<FormatError> for ReadError {
    fn from(error: FormatError) -> ReadError {
        ReadError::Format(error)
    }
}

/// Why a reading makes no sheet.
#[derive(Clone, Copy, PartialEq, Eq, Hash, Debug)]
#[non_exhaustive]
pub enum SheetError {
    /// 13: no day is said.
    NoDay,
    /// 2: a field is outside its range, which is so of no reading that is as the library gave it.
    Field(FieldError),
}

impl SheetError {
    /// The refusal's number.
    pub fn number(&self) -> u32 {
        match self {
            SheetError::NoDay => 13,
            SheetError::Field(error) => error.number(),
        }
    }

    /// The refusal's place.
    pub fn place(&self) -> usize {
        match self {
            SheetError::NoDay => 0,
            SheetError::Field(error) => error.place(),
        }
    }
}

impl fmt::Display for SheetError {
    fn fmt(&self, f: &mut fmt::Formatter) -> fmt::Result {
        match self {
            SheetError::NoDay => write!(f, "the day of the sheet is not said"),
            SheetError::Field(_) => write!(f, "no such sheet"),
        }
    }
}

impl From<FieldError> for SheetError {
    fn from(error: FieldError) -> SheetError {
        SheetError::Field(error)
    }
}

/// 14: why a sheet is not added to a list. The sheets before it are, and nothing else has changed.
#[derive(Clone, Copy, PartialEq, Eq, Hash, Debug)]
#[non_exhaustive]
pub enum AddError {
    /// The list's array is full.
    Full {
        /// Which of the sheets, counted from 0.
        index: usize,
    },
    /// 1,024 weeks are held, and the sheet's is not among them.
    NewWeek {
        /// Which of the sheets, counted from 0.
        index: usize,
    },
}

impl AddError {
    /// The refusal's number.
    pub fn number(&self) -> u32 {
        14
    }

    /// The refusal's place.
    pub fn place(&self) -> usize {
        0
    }

    /// Which of the sheets is refused, counted from 0: as many are added.
    pub fn index(&self) -> usize {
        match *self {
            AddError::Full { index } | AddError::NewWeek { index } => index,
        }
    }
}

impl fmt::Display for AddError {
    fn fmt(&self, f: &mut fmt::Formatter) -> fmt::Result {
        match self {
            AddError::Full { index } => write!(f, "the list has no room for the sheet with index {index}"),
            AddError::NewWeek { index } => write!(f, "the list has 1024 weeks, and that of the sheet with index {index} is not among them"),
        }
    }
}

/// 15: what is lent is no list of sheets with its table of weeks.
#[derive(Clone, Copy, PartialEq, Eq, Hash, Debug)]
#[non_exhaustive]
pub struct ListError;

impl ListError {
    /// The refusal's number.
    pub fn number(&self) -> u32 {
        15
    }

    /// The refusal's place.
    pub fn place(&self) -> usize {
        0
    }
}

impl fmt::Display for ListError {
    fn fmt(&self, f: &mut fmt::Formatter) -> fmt::Result {
        write!(f, "what is lent is no list of sheets with its table of weeks")
    }
}

#[cfg(feature = "std")]
mod sources {
    use super::{AddError, FieldError, FormatError, ListError, ParseError, ReadError, SheetError, StringError, WriteError};
    use std::error::Error;

    impl Error for FieldError {}

    impl Error for FormatError {}

    impl Error for AddError {}

    impl Error for ListError {}

    impl Error for SheetError {
        fn source(&self) -> Option<&(dyn Error + 'static)> {
            match self {
                SheetError::Field(error) => Some(error),
                SheetError::NoDay => None,
            }
        }
    }

    impl Error for ParseError {
        fn source(&self) -> Option<&(dyn Error + 'static)> {
            match self {
                ParseError::Field(error) => Some(error),
                _ => None,
            }
        }
    }

    impl Error for WriteError {
        fn source(&self) -> Option<&(dyn Error + 'static)> {
            match self {
                WriteError::Format(error) => Some(error),
                _ => None,
            }
        }
    }

    impl Error for StringError {
        fn source(&self) -> Option<&(dyn Error + 'static)> {
            match self {
                StringError::Write(error) => Some(error),
                StringError::Utf8(error) => Some(error),
            }
        }
    }

    impl Error for ReadError {
        fn source(&self) -> Option<&(dyn Error + 'static)> {
            match self {
                ReadError::Format(error) => Some(error),
                _ => None,
            }
        }
    }
}
