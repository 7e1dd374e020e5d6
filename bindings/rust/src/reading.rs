//! What a text says.
use crate::date::Date;
use crate::error::{FormatError, ReadError};
use crate::ffi;
use crate::moment::Moment;
use crate::offset::Offset;
use crate::quarrel::{Part, Quarrel};
use alloc::format;
use alloc::string::ToString;
use core::fmt;

/// The form in which a name was read (RULES 6.3). The full name is tried first, then the longest of the others; letters may be large or
/// small. The form tells nothing of the day, but something of who wrote it.
///
/// ```
/// use larusqem::{strptime, NameForm};
///
/// let month_form = |text| strptime("%d %b %Y", text).unwrap().month_form;
/// assert_eq!(month_form("5 September 1934"), Some(NameForm::Full));
/// assert_eq!(month_form("5 Sept 1934"), Some(NameForm::Middle));
/// assert_eq!(month_form("5 SEP 1934"), Some(NameForm::Short));
/// assert_eq!(month_form("5 May 1934"), Some(NameForm::Full));
/// ```
#[derive(Clone, Copy, PartialEq, Eq, Hash, Debug)]
pub enum NameForm {
    /// The full name, as `Tuesday`. `May` is full, though its short form is the same.
    Full,
    /// One of `Sept`, `Tues`, `Thur` and `Thurs`, which old records have.
    Middle,
    /// The first three letters, as `Tue`.
    Short,
}

impl NameForm {
    /// The form of a number of the library; none of 0.
    fn from_number(number: u32) -> Option<NameForm> {
        match number {
            1 => Some(NameForm::Full),
            2 => Some(NameForm::Middle),
            3 => Some(NameForm::Short),
            _ => None,
        }
    }
}

/// What a text says: the day and the hour are the only ones that all that it says fits. What it does not say is `None`, and never filled
/// in.
#[derive(Clone, Copy, PartialEq, Eq, Hash, Debug)]
#[non_exhaustive]
pub struct Reading {
    /// The first unread offset of the text.
    pub unread: usize,
    /// The day, where anything said bears on it.
    pub date: Option<Date>,
    /// The hour, 0 to 23, where anything said bears on it.
    pub hour: Option<u32>,
    /// The minute, 0 to 59, where it was said.
    pub minute: Option<u32>,
    /// The second, 0 to 60, where it was said.
    pub second: Option<u32>,
    /// How many days the [`Engine`](crate::Engine) examined for it.
    pub examined: u32,
    /// The form of the last weekday name, where one was read. A number, as by `%u`, is no name.
    pub weekday_form: Option<NameForm>,
    /// The form of the last month name, where one was read. A number, as by `%m`, is no name.
    pub month_form: Option<NameForm>,
    /// The zone offset, where it was said. Day and hour are those that the text says, whatever the offset.
    pub offset: Option<Offset>,
}

impl Reading {
    /// Whether all of the text was read. Text left over is no refusal, so that only a whole reading has seen all that stands there:
    ///
    /// ```
    /// use larusqem::strptime;
    ///
    /// for text in ["5 Mar 1934", "5 Mar 19345", "5 Mar 1934?? perhaps 1935"] {
    ///     let reading = strptime("%d %b %Y", text).unwrap();
    ///     assert_eq!(reading.date.unwrap().to_string(), "1934-03-05");
    ///     assert_eq!(reading.is_whole(text), text == "5 Mar 1934");
    /// }
    /// ```
    pub fn is_whole(&self, text: impl AsRef<[u8]>) -> bool {
        self.unread == text.as_ref().len()
    }

    /// The moment, where day, hour, minute and second are all said; with the zone offset, where that is said too.
    ///
    /// ```
    /// use larusqem::strptime;
    ///
    /// let reading = strptime("%F %T", "1934-03-05 7:08:09").unwrap();
    /// assert_eq!(reading.moment().unwrap().to_string(), "1934-03-05 07:08:09");
    /// let reading = strptime("%F %T %z", "1934-03-05 7:08:09 +0130").unwrap();
    /// assert_eq!(reading.moment().unwrap().to_string(), "1934-03-05 07:08:09 +0130");
    /// assert_eq!(strptime("%F", "1934-03-05").unwrap().moment(), None);
    /// ```
    pub fn moment(&self) -> Option<Moment> {
        let moment = Moment::new(self.date?, self.hour?, self.minute?, self.second?).ok()?;
        Some(moment.with_offset(self.offset))
    }

    /// What the words of a reading of a text say. The reason is asked for where it is needed alone, so that no other reading takes longer.
    pub(crate) fn from_words(
        words: ffi::ReadingWords,
        text: &[u8],
        reason: impl FnOnce() -> ffi::ReasonWords,
    ) -> Result<Reading, ReadError> {
        let [number, place, year, month, day, hour_said, hour, minute_said, minute, second_said, second, ..] = words;
        let [.., other_year, other_month, other_day, other_hour, examined, weekday_form, month_form, zone_said, zone] = words;
        let offset = place as usize;
        let said = |said: u32, number: u32| (said == 1).then_some(number);
        Err(match (number, place) {
            (0, _) => {
                return Ok(Reading {
                    unread: offset,
                    date: (year != 0).then(|| Date::known(year, month, day)),
                    hour: said(hour_said, hour),
                    minute: said(minute_said, minute),
                    second: said(second_said, second),
                    examined,
                    weekday_form: NameForm::from_number(weekday_form),
                    month_form: NameForm::from_number(month_form),
                    offset: said(zone_said, zone).map(|minutes| Offset::known(minutes as i32)),
                })
            }
            (1, _) => ReadError::Format(FormatError::TooLong),
            (3, _) => ReadError::Format(FormatError::BadConversion { offset }),
            (5, _) => ReadError::TextTooLong,
            (6, _) => ReadError::NoMatch { offset },
            (7, _) => ReadError::OutOfRange { offset },
            (8, _) => ReadError::Contradiction { offset },
            (9, 1) => ReadError::NoDay { examined, quarrel: Quarrel::from_words(reason(), text) },
            (9, _) => ReadError::NoHour { examined, quarrel: Quarrel::from_words(reason(), text) },
            (10, 1) => {
                let second = Date::known(other_year, other_month, other_day);
                ReadError::TwoDays { first: Date::known(year, month, day), second, part: Part::from_words(reason()), examined }
            }
            (10, _) => ReadError::TwoHours { first: hour, second: other_hour, examined },
            (11, budget) => ReadError::OverBudget { budget },
            _ => unreachable!("the reader answers no number {number}"),
        })
    }
}

/// As the program `date_lines` shows it: `1934-03-05 07:08:--`, an unsaid day `-` and an unsaid hour, minute or second `--`. The zone
/// offset is not shown.
impl fmt::Display for Reading {
    fn fmt(&self, f: &mut fmt::Formatter) -> fmt::Result {
        let day = self.date.map_or("-".to_string(), |date| date.to_string());
        let two = |said: Option<u32>| said.map_or("--".to_string(), |number| format!("{number:02}"));
        f.pad(&format!("{day} {}:{}:{}", two(self.hour), two(self.minute), two(self.second)))
    }
}
