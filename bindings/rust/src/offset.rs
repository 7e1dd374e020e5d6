//! Zone offsets.
use crate::error::{Field, FieldError, ParseError};
use crate::shape;
use alloc::format;
use core::fmt;
use core::str::FromStr;

/// A zone offset: how many minutes a time is ahead of UTC, -1439 to 1439 (RULES 2). Every value is one.
///
/// ```
/// use larusqem::Offset;
///
/// let offset = Offset::from_minutes(90).unwrap();
/// assert_eq!(offset.minutes(), 90);
/// assert_eq!(offset.to_string(), "+0130");
/// assert_eq!(Offset::UTC.to_string(), "+0000");
/// assert!(Offset::from_minutes(-30).unwrap() < Offset::UTC);
/// assert_eq!(Offset::from_minutes(1440), None);
/// ```
#[derive(Clone, Copy, PartialEq, Eq, PartialOrd, Ord, Hash, Debug)]
pub struct Offset {
    minutes: i16,
}

impl Offset {
    /// That of UTC itself, 0.
    pub const UTC: Offset = Offset { minutes: 0 };

    /// The offset of so many minutes, -1439 to 1439.
    ///
    /// ```
    /// use larusqem::Offset;
    ///
    /// const INDIA: Option<Offset> = Offset::from_minutes(5 * 60 + 30);
    /// assert_eq!(INDIA.unwrap().to_string(), "+0530");
    /// ```
    pub const fn from_minutes(minutes: i32) -> Option<Offset> {
        if -1439 <= minutes && minutes <= 1439 {
            Some(Offset::known(minutes))
        } else {
            None
        }
    }

    /// The offset of minutes that the library found or gave.
    pub(crate) const fn known(minutes: i32) -> Offset {
        Offset { minutes: minutes as i16 }
    }

    /// The minutes, -1439 to 1439; west of Greenwich they are below 0.
    pub const fn minutes(self) -> i32 {
        self.minutes as i32
    }
}

/// As `%z` writes it: a sign, two digits of hours and two of minutes.
impl fmt::Display for Offset {
    fn fmt(&self, f: &mut fmt::Formatter) -> fmt::Result {
        let sign = if self.minutes < 0 { '-' } else { '+' };
        let minutes = self.minutes.abs();
        f.pad(&format!("{sign}{:02}{:02}", minutes / 60, minutes % 60))
    }
}

/// From exactly a sign, two digits of hours to 23 and two of minutes to 59, and nothing before or after; `-0000` is 0.
///
/// ```
/// use larusqem::{Field, Offset, ParseError};
///
/// assert_eq!("-0030".parse(), Ok(Offset::from_minutes(-30).unwrap()));
/// assert_eq!("-0000".parse(), Ok(Offset::UTC));
/// assert_eq!("+01:30".parse::<Offset>(), Err(ParseError::Shape { offset: 3 }));
/// assert!(matches!("+0060".parse::<Offset>(), Err(ParseError::Field(e)) if e.field() == Field::Offset));
/// ```
impl FromStr for Offset {
    type Err = ParseError;

    fn from_str(text: &str) -> Result<Offset, ParseError> {
        let (sign, shape) = if text.starts_with('-') { (-1, "-0000") } else { (1, "+0000") };
        let [digits] = shape::numbers(text, shape)?;
        let (hours, minutes) = (digits / 100, digits % 100);
        if hours > 23 || minutes > 59 {
            return Err(FieldError::of(Field::Offset).into());
        }
        Ok(Offset::known(sign * (60 * hours + minutes) as i32))
    }
}

/// From minutes.
impl TryFrom<i32> for Offset {
    type Error = FieldError;

    fn try_from(minutes: i32) -> Result<Offset, FieldError> {
        Offset::from_minutes(minutes).ok_or(FieldError::of(Field::Offset))
    }
}

/// The minutes.
impl From<Offset> for i32 {
    fn from(offset: Offset) -> i32 {
        offset.minutes()
    }
}

#[cfg(test)]
mod tests {
    use super::*;

    #[test]
    fn ranges_are_the_librarys() {
        for minutes in (-1500..=1500).chain([i32::MIN, i32::MAX, i32::from(i16::MAX) + 1, 65536 + 90]) {
            let judged = FieldError::check(&[1934, 3, 5, 7, 8, 9, 1, minutes as u32]);
            assert_eq!(Offset::try_from(minutes).map(i32::from), judged.map(|()| minutes));
        }
    }
}
