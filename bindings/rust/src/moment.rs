//! Moments: a date and a time of day, with a zone offset or without.
use crate::date::Date;
use crate::error::{FieldError, ParseError};
use crate::offset::Offset;
use crate::{ffi, shape};
use alloc::format;
use alloc::string::String;
use core::fmt;
use core::str::FromStr;

/// A date and a time of day, with a zone offset or without (RULES 2). Every value is valid; second 60 may stand in any minute.
///
/// Moments compare by date and time as they stand, then by their offsets, none before any: two that stand for the same instant by
/// different offsets are not equal. `%s` writes the instant.
///
/// ```
/// use larusqem::{Date, Field, Moment, Offset};
///
/// let date = Date::new(1934, 3, 5).unwrap();
/// let moment = Moment::new(date, 7, 8, 9).unwrap();
/// assert_eq!(moment.to_string(), "1934-03-05 07:08:09");
/// assert!(Moment::midnight(date) < moment);
/// assert_eq!(Moment::new(date, 24, 0, 0).unwrap_err().field(), Field::Hour);
///
/// let abroad = moment.with_offset(Offset::from_minutes(90));
/// assert_eq!(abroad.to_string(), "1934-03-05 07:08:09 +0130");
/// assert_eq!((moment.offset(), abroad.offset()), (None, Offset::from_minutes(90)));
/// ```
#[derive(Clone, Copy, PartialEq, Eq, PartialOrd, Ord, Hash, Debug)]
pub struct Moment {
    date: Date,
    hour: u8,
    minute: u8,
    second: u8,
    offset: Option<Offset>,
}

impl Moment {
    /// A time of a date, without a zone offset, or the first of its fields that is outside its range.
    pub fn new(date: Date, hour: u32, minute: u32, second: u32) -> Result<Moment, FieldError> {
        FieldError::check(&[date.year(), date.month(), date.day(), hour, minute, second, 0, 0])?;
        Ok(Moment { date, hour: hour as u8, minute: minute as u8, second: second as u8, offset: None })
    }

    /// The first moment of a date, 00:00:00, without a zone offset.
    pub const fn midnight(date: Date) -> Moment {
        Moment { date, hour: 0, minute: 0, second: 0, offset: None }
    }

    /// The same date and time with another zone offset, or with none.
    ///
    /// ```
    /// use larusqem::{Moment, Offset};
    ///
    /// let moment: Moment = "1934-03-05 07:08:09".parse().unwrap();
    /// let in_utc = moment.with_offset(Offset::UTC);
    /// assert_eq!(in_utc.offset(), Some(Offset::UTC));
    /// assert_eq!(in_utc.with_offset(None), moment);
    /// ```
    pub fn with_offset(self, offset: impl Into<Option<Offset>>) -> Moment {
        Moment { offset: offset.into(), ..self }
    }

    /// The date.
    pub const fn date(self) -> Date {
        self.date
    }

    /// The hour, 0 to 23.
    pub const fn hour(self) -> u32 {
        self.hour as u32
    }

    /// The minute, 0 to 59.
    pub const fn minute(self) -> u32 {
        self.minute as u32
    }

    /// The second, 0 to 60.
    pub const fn second(self) -> u32 {
        self.second as u32
    }

    /// The zone offset, where there is one.
    pub const fn offset(self) -> Option<Offset> {
        self.offset
    }

    pub(crate) fn words(self) -> ffi::MomentWords {
        let (said, minutes) = self.offset.map_or((0, 0), |offset| (1, offset.minutes() as u32));
        [self.date.year(), self.date.month(), self.date.day(), self.hour(), self.minute(), self.second(), said, minutes]
    }
}

/// As `YYYY-MM-DD HH:MM:SS`, and where there is a zone offset with a blank and the offset after it.
impl fmt::Display for Moment {
    fn fmt(&self, f: &mut fmt::Formatter) -> fmt::Result {
        let offset = self.offset.map_or(String::new(), |offset| format!(" {offset}"));
        f.pad(&format!("{} {:02}:{:02}:{:02}{offset}", self.date, self.hour, self.minute, self.second))
    }
}

/// From exactly `YYYY-MM-DD HH:MM:SS`: all digits, one blank, and nothing before or after; or from that, one blank and a zone offset.
///
/// ```
/// use larusqem::{Field, Moment, Offset, ParseError};
///
/// let moment: Moment = "1934-03-05 07:08:60".parse().unwrap();
/// assert_eq!((moment.date().month(), moment.second()), (3, 60));
/// assert_eq!("1934-03-05 07:08:60 +0000".parse(), Ok(moment.with_offset(Offset::UTC)));
/// assert_eq!("1934-03-05T07:08:09".parse::<Moment>(), Err(ParseError::Shape { offset: 10 }));
/// assert!(matches!("1934-03-05 07:60:00".parse::<Moment>(), Err(ParseError::Field(e)) if e.field() == Field::Minute));
/// ```
impl FromStr for Moment {
    type Err = ParseError;

    fn from_str(text: &str) -> Result<Moment, ParseError> {
        const SHAPE: &str = "0000-00-00 00:00:00";
        let behind = text.get(SHAPE.len()..).unwrap_or("");
        let (text, offset) = match behind.strip_prefix(' ') {
            Some(offset) => (&text[..SHAPE.len()], Some(offset)),
            None => (text, None),
        };
        let [year, month, day, hour, minute, second] = shape::numbers(text, SHAPE)?;
        match offset.map(str::parse::<Offset>).transpose() {
            Err(ParseError::Shape { offset }) => Err(ParseError::Shape { offset: SHAPE.len() + 1 + offset }),
            offset => Ok(Moment::try_from((year, month, day, hour, minute, second))?.with_offset(offset?)),
        }
    }
}

/// From year, month, day, hour, minute and second, without a zone offset.
impl TryFrom<(u32, u32, u32, u32, u32, u32)> for Moment {
    type Error = FieldError;

    fn try_from((year, month, day, hour, minute, second): (u32, u32, u32, u32, u32, u32)) -> Result<Moment, FieldError> {
        Moment::new(Date::new(year, month, day)?, hour, minute, second)
    }
}

/// The date of a moment.
impl From<Moment> for Date {
    fn from(moment: Moment) -> Date {
        moment.date
    }
}
