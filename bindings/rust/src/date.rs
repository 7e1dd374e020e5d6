//! Dates and weekdays.
use crate::error::{FieldError, ParseError};
use crate::{ffi, shape};
use alloc::format;
use core::fmt;
use core::str::FromStr;

/// A date of the Gregorian calendar, from 0001-01-01 to 9999-12-31 (RULES 2). Every value is one.
///
/// ```
/// use larusqem::{Date, Field, Weekday};
///
/// let date = Date::new(2010, 1, 1).unwrap();
/// assert_eq!((date.year(), date.month(), date.day()), (2010, 1, 1));
/// assert_eq!((date.weekday(), date.day_of_year()), (Weekday::Friday, 1));
/// assert_eq!((date.iso_year(), date.iso_week()), (2009, 53));
/// assert_eq!(date.previous_day().unwrap().to_string(), "2009-12-31");
/// assert_eq!(format!("{date:>12}"), "  2010-01-01");
///
/// assert_eq!(Date::new(1900, 2, 29).unwrap_err().field(), Field::Day);
/// ```
#[derive(Clone, Copy, PartialEq, Eq, PartialOrd, Ord, Hash, Debug)]
pub struct Date {
    year: u16,
    month: u8,
    day: u8,
}

impl Date {
    /// The calendar's first day, 0001-01-01, a Monday.
    pub const FIRST: Date = Date { year: 1, month: 1, day: 1 };

    /// The calendar's last day, 9999-12-31, a Friday.
    pub const LAST: Date = Date { year: 9999, month: 12, day: 31 };

    /// How many days the calendar has: the day number of the last.
    pub const DAYS: u32 = 3_652_059;

    /// The date with these fields, or the first of them that is outside its range.
    pub fn new(year: u32, month: u32, day: u32) -> Result<Date, FieldError> {
        FieldError::check(&[year, month, day, 0, 0, 0, 0, 0])?;
        Ok(Date::known(year, month, day))
    }

    /// The date with fields that the library found or gave.
    pub(crate) const fn known(year: u32, month: u32, day: u32) -> Date {
        Date { year: year as u16, month: month as u8, day: day as u8 }
    }

    /// The date of a day number, 1 to [`Date::DAYS`].
    ///
    /// ```
    /// use larusqem::Date;
    ///
    /// assert_eq!(Date::from_day_number(706_077), Date::new(1934, 3, 5).ok());
    /// assert_eq!(Date::from_day_number(0), None);
    /// ```
    pub fn from_day_number(number: u32) -> Option<Date> {
        match ffi::date_word(number) {
            0 => None,
            word => Some(Date::known(word >> 16, word >> 8 & 255, word & 255)),
        }
    }

    /// The year, 1 to 9999.
    pub const fn year(self) -> u32 {
        self.year as u32
    }

    /// The month, 1 to 12.
    pub const fn month(self) -> u32 {
        self.month as u32
    }

    /// The day of the month, 1 to 31.
    pub const fn day(self) -> u32 {
        self.day as u32
    }

    /// The days from 0001-01-01, which is 1, to this date: two of them have as many days between them as their numbers differ.
    pub fn day_number(self) -> u32 {
        ffi::day_number(self.year(), self.month(), self.day())
    }

    /// The weekday.
    pub fn weekday(self) -> Weekday {
        Weekday::ALL[ffi::weekday(self.year(), self.month(), self.day()) as usize - 1]
    }

    /// The day of the year, 1 to 366.
    pub fn day_of_year(self) -> u32 {
        ffi::day_of_year(self.year(), self.month(), self.day())
    }

    /// The year of the ISO 8601 week that holds this date: that of the week's Thursday.
    pub fn iso_year(self) -> u32 {
        ffi::iso_year(self.year(), self.month(), self.day())
    }

    /// The ISO 8601 week that holds this date, 1 to 53.
    pub fn iso_week(self) -> u32 {
        ffi::iso_week(self.year(), self.month(), self.day())
    }

    /// The day after, unless this is the calendar's last.
    pub fn next_day(self) -> Option<Date> {
        Date::from_day_number(self.day_number() + 1)
    }

    /// The day before, unless this is the calendar's first.
    pub fn previous_day(self) -> Option<Date> {
        Date::from_day_number(self.day_number() - 1)
    }
}

/// As `YYYY-MM-DD`.
impl fmt::Display for Date {
    fn fmt(&self, f: &mut fmt::Formatter) -> fmt::Result {
        f.pad(&format!("{:04}-{:02}-{:02}", self.year, self.month, self.day))
    }
}

/// From exactly `YYYY-MM-DD`: four, two and two digits, and nothing before or after.
///
/// ```
/// use larusqem::{Date, ParseError};
///
/// assert_eq!("1934-03-05".parse(), Ok(Date::new(1934, 3, 5).unwrap()));
/// assert_eq!("1934-3-5".parse::<Date>(), Err(ParseError::Shape { offset: 6 }));
/// assert_eq!("1934-03-05 ".parse::<Date>(), Err(ParseError::Shape { offset: 10 }));
/// assert_eq!("1934-02-29".parse::<Date>().unwrap_err().to_string(), "no such date, time or zone offset");
/// ```
impl FromStr for Date {
    type Err = ParseError;

    fn from_str(text: &str) -> Result<Date, ParseError> {
        let [year, month, day] = shape::numbers(text, "0000-00-00")?;
        Ok(Date::new(year, month, day)?)
    }
}

/// From year, month and day.
impl TryFrom<(u32, u32, u32)> for Date {
    type Error = FieldError;

    fn try_from((year, month, day): (u32, u32, u32)) -> Result<Date, FieldError> {
        Date::new(year, month, day)
    }
}

/// Year, month and day.
impl From<Date> for (u32, u32, u32) {
    fn from(date: Date) -> (u32, u32, u32) {
        (date.year(), date.month(), date.day())
    }
}

/// A day of the week.
///
/// ```
/// use larusqem::Weekday;
///
/// assert_eq!((Weekday::Monday.number(), Weekday::Sunday.number()), (1, 7));
/// assert_eq!(Weekday::from_number(2), Some(Weekday::Tuesday));
/// assert_eq!(Weekday::from_number(0), None);
/// assert_eq!(format!("{}, {:.3}", Weekday::Tuesday, Weekday::Tuesday), "Tuesday, Tue");
/// ```
#[derive(Clone, Copy, PartialEq, Eq, Hash, Debug)]
#[allow(missing_docs)]
pub enum Weekday {
    Monday = 1,
    Tuesday,
    Wednesday,
    Thursday,
    Friday,
    Saturday,
    Sunday,
}

impl Weekday {
    /// The seven, from Monday.
    pub const ALL: [Weekday; 7] =
        [Weekday::Monday, Weekday::Tuesday, Weekday::Wednesday, Weekday::Thursday, Weekday::Friday, Weekday::Saturday, Weekday::Sunday];

    /// Monday 1 to Sunday 7.
    pub const fn number(self) -> u32 {
        self as u32
    }

    /// The weekday of a number, 1 to 7.
    pub fn from_number(number: u32) -> Option<Weekday> {
        Weekday::ALL.into_iter().find(|weekday| weekday.number() == number)
    }
}

/// The English name; a precision cuts it, as in `{:.3}`.
impl fmt::Display for Weekday {
    fn fmt(&self, f: &mut fmt::Formatter) -> fmt::Result {
        f.pad(match self {
            Weekday::Monday => "Monday",
            Weekday::Tuesday => "Tuesday",
            Weekday::Wednesday => "Wednesday",
            Weekday::Thursday => "Thursday",
            Weekday::Friday => "Friday",
            Weekday::Saturday => "Saturday",
            Weekday::Sunday => "Sunday",
        })
    }
}

#[cfg(test)]
mod tests {
    use super::*;

    #[test]
    fn ends_are_the_librarys() {
        assert_eq!(Date::DAYS, ffi::days());
        assert_eq!(Date::from_day_number(1), Some(Date::FIRST));
        assert_eq!(Date::from_day_number(ffi::days()), Some(Date::LAST));
    }
}
