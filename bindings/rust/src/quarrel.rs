//! Why a text fits no day, no hour, or more than one day (RULES 8.5).
use crate::ffi;
use core::fmt;
use core::ops::Range;

/// A kind of fact that bears on the day or on the hour (RULES 7).
///
/// ```
/// use larusqem::Kind;
///
/// assert_eq!((Kind::Year.number(), Kind::HalfOfDay.number()), (1, 15));
/// assert_eq!(format!("{}, {:>10}", Kind::YearInCentury, Kind::IsoWeek), "year in century,   ISO week");
/// ```
#[derive(Clone, Copy, PartialEq, Eq, PartialOrd, Ord, Hash, Debug)]
#[non_exhaustive]
pub enum Kind {
    /// By `%Y`.
    Year = 1,
    /// By `%C`.
    Century,
    /// By `%y`.
    YearInCentury,
    /// By `%m`, `%b`, `%B` and `%h`.
    Month,
    /// By `%d` and `%e`.
    Day,
    /// By `%j`.
    DayOfYear,
    /// By `%a`, `%A`, `%u` and `%w`.
    Weekday,
    /// By `%U`.
    SundayWeek,
    /// By `%W`.
    MondayWeek,
    /// By `%G`.
    IsoYear,
    /// By `%g`.
    IsoYearInCentury,
    /// By `%V`.
    IsoWeek,
    /// By `%H` and `%k`.
    Hour,
    /// By `%I` and `%l`.
    HourOfTwelve,
    /// By `%p` and `%P`.
    HalfOfDay,
}

impl Kind {
    const ALL: [Kind; 15] = [
        Kind::Year,
        Kind::Century,
        Kind::YearInCentury,
        Kind::Month,
        Kind::Day,
        Kind::DayOfYear,
        Kind::Weekday,
        Kind::SundayWeek,
        Kind::MondayWeek,
        Kind::IsoYear,
        Kind::IsoYearInCentury,
        Kind::IsoWeek,
        Kind::Hour,
        Kind::HourOfTwelve,
        Kind::HalfOfDay,
    ];

    /// The kind's number, 1 to 15.
    pub const fn number(self) -> u32 {
        self as u32
    }
}

impl fmt::Display for Kind {
    fn fmt(&self, f: &mut fmt::Formatter) -> fmt::Result {
        f.pad(match self {
            Kind::Year => "year",
            Kind::Century => "century",
            Kind::YearInCentury => "year in century",
            Kind::Month => "month",
            Kind::Day => "day",
            Kind::DayOfYear => "day of year",
            Kind::Weekday => "weekday",
            Kind::SundayWeek => "Sunday week",
            Kind::MondayWeek => "Monday week",
            Kind::IsoYear => "ISO year",
            Kind::IsoYearInCentury => "ISO year in century",
            Kind::IsoWeek => "ISO week",
            Kind::Hour => "hour",
            Kind::HourOfTwelve => "hour of twelve",
            Kind::HalfOfDay => "half of day",
        })
    }
}

/// A part of a date.
#[derive(Clone, Copy, PartialEq, Eq, Hash, Debug)]
pub enum Part {
    /// The year.
    Year,
    /// The month.
    Month,
    /// The day of the month.
    Day,
}

impl Part {
    /// The part in which two days differ first, from the words of their reason.
    pub(crate) fn from_words(reason: ffi::ReasonWords) -> Part {
        match reason[0] {
            1 => Part::Year,
            2 => Part::Month,
            3 => Part::Day,
            number => unreachable!("two days differ in no part {number}"),
        }
    }
}

impl fmt::Display for Part {
    fn fmt(&self, f: &mut fmt::Formatter) -> fmt::Result {
        f.pad(match self {
            Part::Year => "year",
            Part::Month => "month",
            Part::Day => "day",
        })
    }
}

/// The words of a text that say something of a kind.
#[derive(Clone, PartialEq, Eq, Hash, Debug)]
#[non_exhaustive]
pub struct Words<'a> {
    /// What they say something of.
    pub kind: Kind,
    /// Where they stand, in bytes of the text: from their first digit or letter to their last.
    pub range: Range<usize>,
    /// The words themselves, as they stand there.
    pub text: &'a str,
}

/// The words as they stand; before a number what it is, unless that is the year or the day of the month: `Mar`, `month 3`, `1934`.
impl fmt::Display for Words<'_> {
    fn fmt(&self, f: &mut fmt::Formatter) -> fmt::Result {
        let is_number = self.text.starts_with(|first: char| first.is_ascii_digit());
        if is_number && !matches!(self.kind, Kind::Year | Kind::Day) {
            write!(f, "{} ", self.kind)?;
        }
        f.write_str(self.text)
    }
}

/// The most kinds that a quarrel can name: all that bear on the day, each once.
const MOST_KINDS: usize = 12;

/// The most bytes that their words have, by kind: 4 + 2 + 2 + 9 + 2 + 3 + 9 + 2 + 2 + 4 + 2 + 2.
const MOST_BYTES: usize = 43;

/// A kind that quarrels, with where its words stand and how long they are.
#[derive(Clone, Copy, PartialEq, Eq, Hash)]
struct Named {
    kind: Kind,
    length: u8,
    from: u16,
}

impl Named {
    /// The kind, if a reason names it.
    fn from_words(kind: Kind, reason: &ffi::ReasonWords) -> Option<Named> {
        let word = 2 * kind as usize + 1;
        let (from, next) = (reason[word], reason[word + 1]);
        (next != 0).then_some(Named { kind, length: (next - from) as u8, from: from as u16 })
    }

    fn range(self) -> Range<usize> {
        let from = usize::from(self.from);
        from..from + usize::from(self.length)
    }
}

/// Why no day, or no hour, fits a text: none fits what is said of the named kinds together, and without any one of them some does (RULES
/// 8.5). The kinds are tried in their order, and one is left out if none fits without it either; so it is fixed which are named.
/// It is the same by every [`Engine`](crate::Engine).
///
/// A caller can mark the words that quarrel, and no others:
///
/// ```
/// use larusqem::{strptime, Kind};
///
/// let text = "Tuesday, 5 March 1934";
/// let refused = strptime("%a, %d %b %Y", text).unwrap_err();
/// let mut marks = " ".repeat(text.len());
/// for words in refused.quarrel().unwrap().words() {
///     assert_eq!(words.text, &text[words.range.clone()]);
///     marks.replace_range(words.range.clone(), &"^".repeat(words.range.len()));
/// }
/// assert_eq!(marks, "^^^^^^^  ^ ^^^^^ ^^^^");
/// assert_eq!(refused.to_string(), "no day is Tuesday, 5, March and 1934 together");
///
/// // no year has a 30 February
/// let refused = strptime("%d %m %Y", "30 2 1934").unwrap_err();
/// let quarrel = refused.quarrel().unwrap();
/// assert_eq!(quarrel.to_string(), "30 and month 2");
/// assert!(quarrel.contains(Kind::Month) && !quarrel.contains(Kind::Year));
/// ```
#[derive(Clone, Copy, PartialEq, Eq, Hash)]
pub struct Quarrel {
    /// In the order of the text.
    named: [Option<Named>; MOST_KINDS],
    /// Their words, one after the other.
    bytes: [u8; MOST_BYTES],
}

impl Quarrel {
    /// What a reason names in its text.
    pub(crate) fn from_words(reason: ffi::ReasonWords, text: &[u8]) -> Quarrel {
        let mut kinds = Kind::ALL.into_iter().filter_map(|kind| Named::from_words(kind, &reason));
        let mut named = [None; MOST_KINDS];
        named.fill_with(|| kinds.next());
        named.sort_unstable_by_key(|named| named.map_or(u16::MAX, |named: Named| named.from));
        let mut bytes = [0; MOST_BYTES];
        let words = named.iter().flatten().flat_map(|named| &text[named.range()]);
        bytes.iter_mut().zip(words).for_each(|(byte, said)| *byte = *said);
        Quarrel { named, bytes }
    }

    /// The words of each kind that is named, in the order of the text. Where a kind is said more than once, they are the first.
    pub fn words(&self) -> impl Iterator<Item = Words<'_>> {
        let mut rest = &self.bytes[..];
        self.named.iter().flatten().map(move |named| {
            let (bytes, behind) = rest.split_at(usize::from(named.length));
            rest = behind;
            let text = core::str::from_utf8(bytes).expect("words are letters or digits");
            Words { kind: named.kind, range: named.range(), text }
        })
    }

    /// Whether a kind is named.
    pub fn contains(&self, kind: Kind) -> bool {
        self.named.iter().flatten().any(|named| named.kind == kind)
    }
}

impl fmt::Debug for Quarrel {
    fn fmt(&self, f: &mut fmt::Formatter) -> fmt::Result {
        f.debug_list().entries(self.words()).finish()
    }
}

/// The words in the order of the text, as `Tue, 5, Mar and 1934`.
impl fmt::Display for Quarrel {
    fn fmt(&self, f: &mut fmt::Formatter) -> fmt::Result {
        let count = self.words().count();
        for (index, words) in self.words().enumerate() {
            match index {
                0 => write!(f, "{words}")?,
                _ if index + 1 < count => write!(f, ", {words}")?,
                _ => write!(f, " and {words}")?,
            }
        }
        Ok(())
    }
}
