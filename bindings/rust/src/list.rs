//! Lists of sheets with their tables of weeks.
use crate::error::{AddError, ListError};
use crate::ffi;
use crate::sheet::{Sheet, Week};
use alloc::boxed::Box;
use alloc::vec;
use alloc::vec::Vec;
use core::fmt;

/// The most words that the array of a [`SheetList`] may have.
pub const MOST_SHEETS: usize = 65_536;

/// How many words the table of a [`SheetList`] has: the most weeks that it can hold.
pub const MOST_WEEKS: usize = 1024;

/// An array of the caller's, or one of the list's own.
enum Array<'a> {
    Lent(&'a mut [u64]),
    Owned(Box<[u64]>),
}

impl Array<'_> {
    fn zeros<'a>(length: usize) -> Array<'a> {
        Array::Owned(vec![0; length].into())
    }

    fn words(&self) -> &[u64] {
        match self {
            Array::Lent(words) => words,
            Array::Owned(words) => words,
        }
    }

    fn words_mut(&mut self) -> &mut [u64] {
        match self {
            Array::Lent(words) => words,
            Array::Owned(words) => words,
        }
    }
}

/// Sheets in the order of their words, which is the order of their dates, equal ones allowed; and the ISO weeks that they are of, each with
/// how many it has, always as worked out afresh from the sheets (RULES 11.2). Every value is such a list.
///
/// It is kept in two arrays: its own, or ones that are lent to it, where nothing is allocated but by [`SheetList::add_all`]. A list that is
/// lent its arrays leaves them as it last held them: with the lengths of [`words`](SheetList::words) and [`table`](SheetList::table) as
/// counts, [`SheetList::open`] takes them again.
///
/// ```
/// use larusqem::{AddError, Date, Sheet, SheetList};
///
/// let sheet = |year, month, day| Sheet::from(Date::new(year, month, day).unwrap());
/// let mut list = SheetList::new();
/// list.add_all(&[sheet(2010, 1, 1), sheet(1934, 3, 5), sheet(1934, 3, 11), sheet(1934, 3, 5)]).unwrap();
///
/// let dates: Vec<_> = list.sheets().map(|sheet| sheet.date().to_string()).collect();
/// assert_eq!(dates, ["1934-03-05", "1934-03-05", "1934-03-11", "2010-01-01"]);
/// let weeks: Vec<_> = list.weeks().map(|week| week.to_string()).collect();
/// assert_eq!(weeks, ["1934-W10 3", "2009-W53 1"]);
///
/// // in arrays that are lent
/// let (mut words, mut table) = ([0; 2], [0; 1024]);
/// let mut list = SheetList::lent(&mut words, &mut table).unwrap();
/// list.add(sheet(2010, 1, 1)).unwrap();
/// list.add(sheet(1934, 3, 5)).unwrap();
/// assert_eq!(list.add(sheet(1934, 3, 5)), Err(AddError::Full { index: 0 }));
/// assert_eq!(words, [0x1e38_ca00_0000_0000, 0x1f68_4200_0000_0000]);
/// ```
pub struct SheetList<'a> {
    words: Array<'a>,
    table: Array<'a>,
    /// How many words of each are held. What is held is a list with its table, by the library's judgement.
    counts: [u32; 2],
}

impl<'a> SheetList<'a> {
    /// An empty list with arrays of its own, and room for [`MOST_SHEETS`].
    pub fn new() -> SheetList<'a> {
        SheetList { words: Array::zeros(MOST_SHEETS), table: Array::zeros(MOST_WEEKS), counts: [0, 0] }
    }

    /// An empty list in arrays that are lent, whatever they hold, with room for as many sheets as the first has words; these may be at
    /// most [`MOST_SHEETS`].
    pub fn lent(words: &'a mut [u64], table: &'a mut [u64; MOST_WEEKS]) -> Result<SheetList<'a>, ListError> {
        SheetList::open(words, 0, table, 0)
    }

    /// The list that arrays hold which come from elsewhere, in so many of their words. They are judged: the first has at most
    /// [`MOST_SHEETS`] words, neither count lies past the end of its array, each word held is that of a sheet, they are ascending, and the
    /// table is as they give it. Words past a count are not judged.
    ///
    /// ```
    /// use larusqem::{Date, ListError, Sheet, SheetList};
    ///
    /// let mut words = [0x1e38_ca00_0000_0000, 0x1e38_cc00_0000_0000, 77]; // 5 and 6 March 1934, and what is not held
    /// let mut table = [0; 1024];
    /// table[0] = 1934 << 50 | 10 << 44 | 2;
    /// let list = SheetList::open(&mut words, 2, &mut table, 1).unwrap();
    /// assert_eq!(list.sheets().last(), Some(Sheet::from(Date::new(1934, 3, 6).unwrap())));
    ///
    /// table[0] += 1;
    /// let refused = SheetList::open(&mut words, 2, &mut table, 1).unwrap_err();
    /// assert_eq!((refused.number(), refused.place()), (15, 0));
    /// ```
    pub fn open(words: &'a mut [u64], sheets: usize, table: &'a mut [u64; MOST_WEEKS], weeks: usize) -> Result<SheetList<'a>, ListError> {
        let count = |count: usize| u32::try_from(count).map_err(|_| ListError);
        let counts = [count(sheets)?, count(weeks)?];
        if ffi::is_list(words, &table[..], &counts) {
            Ok(SheetList { words: Array::Lent(words), table: Array::Lent(table), counts })
        } else {
            Err(ListError)
        }
    }

    /// How many sheets it has.
    pub fn len(&self) -> usize {
        self.counts[0] as usize
    }

    /// Whether it has none.
    pub fn is_empty(&self) -> bool {
        self.len() == 0
    }

    /// How many sheets it has room for, those that it has included.
    pub fn room(&self) -> usize {
        self.words.words().len()
    }

    /// The words of its sheets, ascending.
    pub fn words(&self) -> &[u64] {
        &self.words.words()[..self.len()]
    }

    /// The words of its weeks, ascending: ISO year 14 bits, week 6, sheets 44.
    pub fn table(&self) -> &[u64] {
        &self.table.words()[..self.counts[1] as usize]
    }

    /// Its sheets, in the order of their dates, then of the rest as packed.
    pub fn sheets(&self) -> impl DoubleEndedIterator<Item = Sheet> + ExactSizeIterator + '_ {
        self.words().iter().map(|word| Sheet::known(*word))
    }

    /// The ISO weeks that it has sheets of, in order.
    pub fn weeks(&self) -> impl DoubleEndedIterator<Item = Week> + ExactSizeIterator + '_ {
        self.table().iter().map(|word| Week::from_word(*word))
    }

    /// Adds a sheet: every other stays, and its own word is put in once more. A refusal leaves the list as it was.
    ///
    /// Each call goes over the whole list, which it judges: for many sheets there is [`SheetList::add_all`].
    pub fn add(&mut self, sheet: Sheet) -> Result<(), AddError> {
        self.add_words(&[sheet.words()])
    }

    /// Adds sheets, one after another up to the first that is refused, whose index the error has; those before it stay added. The list is
    /// judged once.
    ///
    /// ```
    /// use larusqem::{AddError, Date, Sheet, SheetList};
    ///
    /// let days: Vec<_> = (1..=4).map(|day| Sheet::from(Date::new(1934, 3, day).unwrap())).collect();
    /// let (mut words, mut table) = ([0; 3], [0; 1024]);
    /// let mut list = SheetList::lent(&mut words, &mut table).unwrap();
    /// assert_eq!(list.add_all(&days), Err(AddError::Full { index: 3 }));
    /// assert!(list.sheets().eq(days[..3].iter().copied()));
    /// ```
    pub fn add_all(&mut self, sheets: &[Sheet]) -> Result<(), AddError> {
        // no more are added than there is room for, and the next is refused
        let tried = sheets.len().min(self.room() - self.len() + 1);
        let words: Vec<_> = sheets[..tried].iter().map(|sheet| sheet.words()).collect();
        self.add_words(&words)
    }

    fn add_words(&mut self, sheets: &[ffi::SheetWords]) -> Result<(), AddError> {
        let [number, _, index] = ffi::add(sheets, self.words.words_mut(), self.table.words_mut(), &mut self.counts);
        let index = index as usize;
        match number {
            0 => Ok(()),
            14 if self.len() == self.room() => Err(AddError::Full { index }),
            14 => Err(AddError::NewWeek { index }),
            _ => unreachable!("a sheet is not refused by {number} to a list"),
        }
    }
}

impl Default for SheetList<'_> {
    fn default() -> Self {
        SheetList::new()
    }
}

/// The same sheets, in arrays of its own with room for as many.
impl Clone for SheetList<'_> {
    fn clone(&self) -> Self {
        let owned = |array: &Array| Array::Owned(array.words().into());
        SheetList { words: owned(&self.words), table: owned(&self.table), counts: self.counts }
    }
}

/// Lists are equal that have the same sheets, whatever their room.
impl PartialEq for SheetList<'_> {
    fn eq(&self, other: &SheetList) -> bool {
        self.words() == other.words()
    }
}

impl Eq for SheetList<'_> {}

impl fmt::Debug for SheetList<'_> {
    fn fmt(&self, f: &mut fmt::Formatter) -> fmt::Result {
        f.debug_list().entries(self.sheets()).finish()
    }
}
