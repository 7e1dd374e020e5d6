//! Larusqem for Rust: a strftime and a strptime that are proved to follow their rules, for every format, text and moment. The rules are
//! docs/RULES.md of the repository; `RULES 5` is its section 5.
//!
//! White space, letter case and missing zeros are forgiven when a text is read; a day is handed out only where all that was read fits
//! exactly one day from 0001-01-01 to 9999-12-31.
//!
//! ```
//! use larusqem::{Date, Format, Moment, ReadError};
//!
//! let format = Format::new("%a %d %b %Y %H:%M").unwrap();
//! let date = Date::new(1934, 3, 5).unwrap();
//! let moment = Moment::new(date, 7, 8, 9).unwrap();
//! assert_eq!(format.write(moment), b"Mon 05 Mar 1934 07:08");
//!
//! let text = "mon 5 march 1934 7:08 in the margin";
//! let reading = format.read(text).unwrap();
//! assert_eq!(reading.date, Some(date));
//! assert_eq!((reading.hour, reading.minute, reading.second), (Some(7), Some(8), None));
//! assert_eq!(&text[reading.unread..], " in the margin");
//!
//! // 5 March 1934 was no Tuesday
//! let refused = format.read("Tue 5 Mar 1934 07:08").unwrap_err();
//! assert!(matches!(refused, ReadError::NoDay { .. }));
//! assert_eq!(refused.to_string(), "no day is Tue, 5, Mar and 1934 together");
//! ```
//!
//! # Read loosely has a price
//!
//! Text left over is no refusal, digits are taken up to their conversion's width, and a blank of the format may be none in the text. So
//! what was read may be less than what stands there, and other than what was meant: ask [`Reading::is_whole`], and choose formats that
//! leave no doubt.
//!
//! ```
//! use larusqem::strptime;
//!
//! let text = "5 Mar 19345";
//! let reading = strptime("%d %b %Y", text).unwrap();
//! assert_eq!(reading.date.unwrap().to_string(), "1934-03-05");
//! assert!(!reading.is_whole(text));
//!
//! let reading = strptime("%b %d %Y", "March 1934").unwrap();
//! assert_eq!(reading.date.unwrap().to_string(), "0034-03-19");
//! ```
//!
//! # White space
//!
//! The bytes 9 to 13 and 32, carriage return included. One of them in a format, and so `%n` and `%t`, takes all the white space that
//! stands at its place in the text, or none. A number skips white space before it; a name does not. The writer copies it.
//!
//! ```
//! use larusqem::strptime;
//!
//! let line = "5 Mar 1934\r\n";
//! assert!(strptime("%d %b %Y%n", line).unwrap().is_whole(line));
//! ```
//!
//! # Names
//!
//! A weekday or a month is read by its full name, by its first three letters, or as `Sept`, `Tues`, `Thur` or `Thurs`. A [`Reading`] tells
//! the [`NameForm`] of the last of each. They are written full or short.
//!
//! ```
//! use larusqem::{strptime, NameForm};
//!
//! let reading = strptime("%a %d %b %Y", "tues 4 Sept 1934").unwrap();
//! assert_eq!(reading.to_string(), "1934-09-04 --:--:--");
//! assert_eq!((reading.weekday_form, reading.month_form), (Some(NameForm::Middle), Some(NameForm::Middle)));
//! ```
//!
//! # Flags and widths
//!
//! A [`WriteFormat`] takes them, and so does [`strftime`]: `%-d` writes no zero in front, `%_3d` fills to three places with blanks, `%^a`
//! writes capitals. A [`Format`], which also reads, refuses them, and so does [`strptime`].
//!
//! # Zone offsets
//!
//! A [`Moment`] has an [`Offset`] or none, and so has a [`Reading`]: how many minutes its time is ahead of UTC. `%z` writes and reads it as
//! a sign, two digits of hours and two of minutes, without white space before it; where there is none, nothing is written. `%s` takes the
//! offset off and writes the seconds from 1970-01-01 00:00:00 UTC. Like flags it is for a [`WriteFormat`] and [`strftime`] alone, and it is
//! refused where there is no offset. Which day and hour a text fits does not depend on the offset: they are those that it says.
//!
//! ```
//! use larusqem::{Format, Offset, WriteFormat};
//!
//! let reading = Format::new("%F %T %z").unwrap().read("1934-03-05 07:08:09 +0130").unwrap();
//! assert_eq!(reading.offset, Offset::from_minutes(90));
//! let moment = reading.moment().unwrap();
//! assert_eq!(WriteFormat::new("%s").unwrap().write(moment).unwrap(), b"-1130610111");
//! ```
//!
//! # Engines
//!
//! The day is looked for by an [`Engine`]: one that passes over what cannot fit, or a plain one that examines day after day. Both give the
//! same answer, and tell how many days they examined. The plain one can be given a budget of days; where that is too small, the reading is
//! refused. [`strptime`] and [`Format::read`] skip; [`strptime_with`] and [`Format::read_with`] take an engine.
//!
//! # Reasons
//!
//! Where no day or no hour fits, the [`ReadError`] holds the [`Quarrel`]: words that none fits together, while without any one of them some
//! day or hour fits, and where in the text they stand. Where two or more days fit, it holds the [`Part`] in which the first two differ.
//! Such a refusal takes about a microsecond, and some 0.4 ms at most: its reason is worked out by the skipping engine, whatever engine and
//! budget the reading had. Both are in its message:
//!
//! ```
//! use larusqem::strptime;
//!
//! let why = |format, text| strptime(format, text).unwrap_err().to_string();
//! assert_eq!(why("%A %d %m %Y", "Monday 30 2 1934"), "no day is 30 and month 2 together");
//! assert_eq!(why("%d %b %Y %k %p", "5 Mar 1934 7 pm"), "no hour is hour 7 and pm together");
//! assert_eq!(why("%d %b", "5 Mar"), "more than one day agrees, the earliest 0001-03-05 and 0002-03-05; the year is missing");
//! assert_eq!(why("%I:%M", "07:08"), "more than one hour agrees, the earliest 7 and 19; AM or PM is missing");
//! ```
//!
//! # Lists of sheets
//!
//! A [`Sheet`] is a dated page, made of a [`Reading`] or of its fields, and packed into a word of 64 bits. The order of words is the order
//! of dates, then of the rest as packed. A [`SheetList`] keeps sheets in this order, with the ISO [`Week`]s that they are of, in arrays of
//! its own or in ones that are lent to it.
//!
//! ```
//! use larusqem::{Format, Sheet, SheetList};
//!
//! let format = Format::new("%d %b %Y %H:%M").unwrap();
//! let mut list = SheetList::new();
//! for text in ["6 Mar 1934 07:15", "31 Dec 1934 23:59", "5 Mar 1934 07:08"] {
//!     list.add(Sheet::from_reading(&format.read(text).unwrap()).unwrap()).unwrap();
//! }
//! assert_eq!(list.sheets().next().unwrap().to_string(), "1934-03-05 07:08:--");
//! let weeks: Vec<_> = list.weeks().map(|week| week.to_string()).collect();
//! assert_eq!(weeks, ["1934-W10 2", "1935-W01 1"]);
//! ```
//!
//! # What is proved
//!
//! The C functions of the repository's library. This crate gives them types, and is tested. A [`Date`], a [`Moment`], a [`Sheet`] or a
//! [`SheetList`] that exists is valid, by the proved functions; so is an [`Offset`], by a range that is tested against them.
//!
//! Every call is pure: no locale, time zone, clock or global state, and any number of threads may share a [`Format`] or [`WriteFormat`].
//!
//! Without the feature `std` (on by default) the crate needs only `alloc`, and the errors are not `std::error::Error`.
#![no_std]
#![deny(unsafe_code)]
#![warn(missing_docs)]

extern crate alloc;
#[cfg(feature = "std")]
extern crate std;

mod date;
mod engine;
mod error;
#[allow(unsafe_code)]
mod ffi;
mod format;
mod list;
mod moment;
mod offset;
mod quarrel;
mod reading;
mod shape;
mod sheet;

pub use date::{Date, Weekday};
pub use engine::Engine;
pub use error::{AddError, Field, FieldError, FormatError, ListError, ParseError, ReadError, SheetError, StringError, WriteError};
pub use format::{Format, WriteFormat};
pub use list::{SheetList, MOST_SHEETS, MOST_WEEKS};
pub use moment::Moment;
pub use offset::Offset;
pub use quarrel::{Kind, Part, Quarrel, Words};
pub use reading::{NameForm, Reading};
pub use sheet::{Sheet, Week};

/// The bytes of the longest writing: `%99d`, 256 times. No format writes more, and a buffer of as many bytes is never too small.
pub const LONGEST_WRITING: usize = 25_344;

/// Writes a moment by a format (RULES 5) over the start of `out`, and says how many bytes that is. A refusal leaves all of `out` as it
/// came. The format may have flags, widths and `%s`. For many moments, or where the length is not known, open a [`WriteFormat`] or a
/// [`Format`]; [`LONGEST_WRITING`] bytes are enough for any.
///
/// ```
/// use larusqem::{strftime, FormatError, Moment, WriteError};
///
/// let moment: Moment = "1934-03-05 07:08:09".parse().unwrap();
/// let mut out = *b"..............................";
/// assert_eq!(strftime("%c", moment, &mut out), Ok(24));
/// assert_eq!(&out, b"Mon Mar  5 07:08:09 1934......");
/// assert_eq!(strftime("%c", moment, &mut out[..23]), Err(WriteError::BufferTooSmall { needed: 24 }));
/// assert_eq!(strftime("%-d. %^b", moment, &mut out), Ok(6));
/// assert_eq!(&out[..6], b"5. MAR");
/// assert_eq!(strftime("at %Q", moment, &mut out), Err(WriteError::Format(FormatError::BadConversion { offset: 3 })));
/// ```
pub fn strftime(format: impl AsRef<[u8]>, moment: Moment, out: &mut [u8]) -> Result<usize, WriteError> {
    WriteError::judge(ffi::strftime(format.as_ref(), &moment.words(), out))
}

/// Reads a text by a format (RULES 6 to 8), which has no flags, no widths and no `%s`. Text left over is no refusal:
/// [`Reading::is_whole`] tells. For many texts, open a [`Format`].
///
/// ```
/// use larusqem::strptime;
///
/// let text = "2009 53 5, a Friday";
/// let reading = strptime("%G %V %u", text).unwrap();
/// assert_eq!(reading.to_string(), "2010-01-01 --:--:--");
/// assert_eq!(&text[reading.unread..], ", a Friday");
/// assert!(!reading.is_whole(text));
/// ```
pub fn strptime(format: impl AsRef<[u8]>, text: impl AsRef<[u8]>) -> Result<Reading, ReadError> {
    strptime_with(format, text, Engine::Skipping)
}

/// The same by an engine.
///
/// ```
/// use larusqem::{strptime_with, Engine, ReadError};
///
/// let read = |engine| strptime_with("%d %b %Y", "5 Mar 1934", engine);
/// assert_eq!(read(Engine::Within(1000)), Err(ReadError::OverBudget { budget: 1000 }));
/// assert_eq!(read(Engine::Skipping).unwrap().to_string(), "1934-03-05 --:--:--");
/// assert_eq!(read(Engine::Skipping).unwrap().examined, 31);
/// ```
pub fn strptime_with(format: impl AsRef<[u8]>, text: impl AsRef<[u8]>, engine: Engine) -> Result<Reading, ReadError> {
    let (format, text) = (format.as_ref(), text.as_ref());
    Reading::from_words(ffi::strptime(format, text, engine), text, || ffi::explain(format, text))
}

/// The version of the library that is linked: major, minor, patch.
pub fn version() -> (u32, u32, u32) {
    let version = ffi::version();
    (version >> 16, version >> 8 & 255, version & 255)
}

/// The examples of README.md are run.
#[cfg(all(doctest, feature = "std"))]
#[doc = include_str!("../README.md")]
mod readme {}
