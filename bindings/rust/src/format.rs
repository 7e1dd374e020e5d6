//! Formats that are opened once.
use crate::engine::Engine;
use crate::error::{FormatError, ReadError, StringError, WriteError};
use crate::ffi;
use crate::moment::Moment;
use crate::reading::Reading;
use alloc::boxed::Box;
use alloc::string::{FromUtf8Error, String};
use alloc::vec;
use alloc::vec::Vec;
use core::str::FromStr;

/// The elements of an opened format (RULES 10).
#[derive(Clone, PartialEq, Eq, Hash, Debug)]
struct Elements(Box<[u32]>);

impl Elements {
    fn open(format: &[u8], side: ffi::Use) -> Result<Elements, FormatError> {
        // an entry for each byte is enough where there are no composites, and no format is opened that has more bytes
        let mut elements = vec![0; format.len().min(1024)];
        let opened = match ffi::open(format, side, &mut elements) {
            (4, needed) => {
                elements.resize(needed, 0);
                ffi::open(format, side, &mut elements)
            }
            opened => opened,
        };
        match opened {
            (0, count) => {
                elements.truncate(count);
                Ok(Elements(elements.into()))
            }
            (1, _) => Err(FormatError::TooLong),
            (3, offset) => Err(FormatError::BadConversion { offset }),
            (number, _) => unreachable!("a format with room for its elements is not refused by {number}"),
        }
    }

    fn write_to(&self, moment: Moment, out: &mut [u8]) -> Result<usize, WriteError> {
        WriteError::judge(ffi::write(&self.0, &moment.words(), out))
    }

    fn write(&self, moment: Moment) -> Result<Vec<u8>, WriteError> {
        let mut out = vec![0; 64];
        let written = match self.write_to(moment, &mut out) {
            Err(WriteError::BufferTooSmall { needed }) => {
                out.resize(needed, 0);
                self.write_to(moment, &mut out)
            }
            written => written,
        };
        out.truncate(written?);
        Ok(out)
    }
}

/// A format (RULES 4) that was opened once, for any number of writings and readings. It has no flags, no widths and no `%s`, since a text
/// is not read by them: a [`WriteFormat`] takes them.
///
/// ```
/// use larusqem::{Date, Format, FormatError, Moment};
///
/// let format = Format::new("%Y-%m-%d").unwrap();
/// for number in 700_000..700_100 {
///     let date = Date::from_day_number(number).unwrap();
///     let text = format.write(Moment::midnight(date));
///     assert_eq!(text, date.to_string().as_bytes());
///     assert_eq!(format.read(&text).unwrap().date, Some(date));
/// }
/// assert_eq!(Format::new("100%").unwrap_err(), FormatError::BadConversion { offset: 3 });
/// assert_eq!(Format::new("%Y %-d").unwrap_err(), FormatError::BadConversion { offset: 3 });
/// ```
#[derive(Clone, PartialEq, Eq, Hash, Debug)]
pub struct Format {
    elements: Elements,
}

impl Format {
    /// Opens a format.
    pub fn new(format: impl AsRef<[u8]>) -> Result<Format, FormatError> {
        Ok(Format { elements: Elements::open(format.as_ref(), ffi::Use::Reading)? })
    }

    /// Writes a moment over the start of `out`, and says how many bytes that is. A refusal leaves all of `out` as it came; the only one
    /// is that `out` is too small.
    ///
    /// ```
    /// use larusqem::{Format, Moment, WriteError};
    ///
    /// let format = Format::new("%H:%M").unwrap();
    /// let moment: Moment = "1934-03-05 07:08:09".parse().unwrap();
    /// let mut out = [b'.'; 8];
    /// assert_eq!(format.write_to(moment, &mut out), Ok(5));
    /// assert_eq!(&out, b"07:08...");
    /// assert_eq!(format.write_to(moment, &mut out[..4]), Err(WriteError::BufferTooSmall { needed: 5 }));
    /// ```
    pub fn write_to(&self, moment: Moment, out: &mut [u8]) -> Result<usize, WriteError> {
        self.elements.write_to(moment, out)
    }

    /// Writes a moment.
    ///
    /// ```
    /// use larusqem::{Date, Format, Moment};
    ///
    /// let format = Format::new("%G-W%V-%u").unwrap();
    /// assert_eq!(format.write(Moment::midnight(Date::new(2017, 1, 1).unwrap())), b"2016-W52-7");
    /// ```
    pub fn write(&self, moment: Moment) -> Vec<u8> {
        self.elements.write(moment).expect("a format without %s is refused only for room, and says how much")
    }

    /// Writes a moment as a `String`. This fails only where the format itself is not UTF-8, since its bytes are copied.
    ///
    /// ```
    /// use larusqem::{Date, Format, Moment};
    ///
    /// let noon = Moment::new(Date::new(1934, 3, 5).unwrap(), 12, 0, 0).unwrap();
    /// assert_eq!(Format::new("%l°").unwrap().write_string(noon).unwrap(), "12°");
    /// assert!(Format::new(b"%l\xb0").unwrap().write_string(noon).is_err());
    /// ```
    pub fn write_string(&self, moment: Moment) -> Result<String, FromUtf8Error> {
        String::from_utf8(self.write(moment))
    }

    /// Reads a text (RULES 6 to 8). Text left over is no refusal: [`Reading::is_whole`] tells.
    ///
    /// ```
    /// use larusqem::{Format, ReadError};
    ///
    /// let format = Format::new("%I:%M %p").unwrap();
    /// assert_eq!(format.read("12:30 am").unwrap().hour, Some(0));
    /// assert_eq!(format.read("12:30 noon"), Err(ReadError::NoMatch { offset: 6 }));
    ///
    /// let text = "12:30 AM, after midnight";
    /// assert!(!format.read(text).unwrap().is_whole(text));
    /// ```
    pub fn read(&self, text: impl AsRef<[u8]>) -> Result<Reading, ReadError> {
        self.read_with(text, Engine::Skipping)
    }

    /// The same by an engine.
    ///
    /// ```
    /// use larusqem::{Engine, Format, ReadError};
    ///
    /// let format = Format::new("%d %b").unwrap();
    /// let within = |budget| format.read_with("5 Mar", Engine::Within(budget)).unwrap_err();
    /// assert_eq!(within(400), ReadError::OverBudget { budget: 400 });
    /// assert_eq!((within(500).number(), within(500).examined()), (10, 429));
    /// ```
    pub fn read_with(&self, text: impl AsRef<[u8]>, engine: Engine) -> Result<Reading, ReadError> {
        let (elements, text) = (&self.elements.0, text.as_ref());
        Reading::from_words(ffi::read(elements, text, engine), text, || ffi::explain_read(elements, text))
    }
}

/// As [`Format::new`].
impl FromStr for Format {
    type Err = FormatError;

    fn from_str(format: &str) -> Result<Format, FormatError> {
        Format::new(format)
    }
}

/// A format for writing alone, which takes flags and widths (RULES 4.4) and `%s`, and was opened once for any number of writings.
///
/// After the `%` may stand a flag and then a width, 1 to 99. A number is filled on the left with blanks by `_`, with zeros by `0`, not at
/// all by `-`, and otherwise with its own fill; a name, `%p` or `%P` with blanks, and `^` makes it capitals. Nothing is cut. A label in
/// three columns, of 3, 11 and 6 places:
///
/// ```
/// use larusqem::{Date, FormatError, Moment, WriteFormat};
///
/// let label = WriteFormat::new("%_3d%^11B%_6Y").unwrap();
/// let write = |year, month, day| label.write_string(Moment::midnight(Date::new(year, month, day).unwrap())).unwrap();
/// assert_eq!(write(1934, 3, 5), "  5      MARCH  1934");
/// assert_eq!(write(1934, 11, 30), " 30   NOVEMBER  1934");
/// assert_eq!(write(987, 9, 1), "  1  SEPTEMBER   987");
///
/// assert_eq!(WriteFormat::new("%Y %^d").unwrap_err(), FormatError::BadConversion { offset: 3 });
/// ```
///
/// `%s` writes the seconds from 1970-01-01 00:00:00 UTC, for which the moment must have a zone offset:
///
/// ```
/// use larusqem::{Moment, Offset, WriteError, WriteFormat};
///
/// let seconds = WriteFormat::new("at %s").unwrap();
/// let moment: Moment = "1934-03-05 07:08:09".parse().unwrap();
/// assert_eq!(seconds.write_string(moment.with_offset(Offset::UTC)).unwrap(), "at -1130604711");
/// assert_eq!(seconds.write_string(moment.with_offset(Offset::from_minutes(90))).unwrap(), "at -1130610111");
/// assert_eq!(seconds.write(moment), Err(WriteError::NoZoneOffset { offset: 3 }));
/// ```
///
/// The compiler keeps it from a reading, which would be refused:
///
/// ```compile_fail
/// larusqem::WriteFormat::new("%_3d").unwrap().read("  5");
/// ```
#[derive(Clone, PartialEq, Eq, Hash, Debug)]
pub struct WriteFormat {
    elements: Elements,
}

impl WriteFormat {
    /// Opens a format.
    pub fn new(format: impl AsRef<[u8]>) -> Result<WriteFormat, FormatError> {
        Ok(WriteFormat { elements: Elements::open(format.as_ref(), ffi::Use::Writing)? })
    }

    /// As [`Format::write_to`]; refused too where the format has `%s` and the moment no zone offset.
    pub fn write_to(&self, moment: Moment, out: &mut [u8]) -> Result<usize, WriteError> {
        self.elements.write_to(moment, out)
    }

    /// As [`Format::write`]. The only refusal is that the format has `%s` and the moment no zone offset.
    pub fn write(&self, moment: Moment) -> Result<Vec<u8>, WriteError> {
        self.elements.write(moment)
    }

    /// As [`Format::write_string`], and refused as [`WriteFormat::write`] is.
    pub fn write_string(&self, moment: Moment) -> Result<String, StringError> {
        Ok(String::from_utf8(self.write(moment)?)?)
    }
}

/// As [`WriteFormat::new`].
impl FromStr for WriteFormat {
    type Err = FormatError;

    fn from_str(format: &str) -> Result<WriteFormat, FormatError> {
        WriteFormat::new(format)
    }
}

/// A format without flags, widths and `%s` writes the same.
impl From<Format> for WriteFormat {
    fn from(format: Format) -> WriteFormat {
        WriteFormat { elements: format.elements }
    }
}
