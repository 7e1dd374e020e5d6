//! How the day is looked for.

/// How the day of a text is looked for among all days of the calendar (RULES 8.4). Every engine gives the same answer, shown days
/// included, unless its budget is too small; they differ in time, and in the days that they count as examined. Each counts through the
/// second day that fits, and where there are not two through the last day of the calendar; no day is examined where nothing that the text
/// says bears on the day, or where it is refused before the day is judged. Readings and errors compare their counts too: the same answer by
/// two engines is equal only if the counts are.
///
/// ```
/// use larusqem::{strptime_with, Date, Engine, Part, ReadError};
///
/// // open: the second day that fits is 0002-03-05, day 429 of the calendar
/// let (first, second, part) = (Date::new(1, 3, 5).unwrap(), Date::new(2, 3, 5).unwrap(), Part::Year);
/// let read = |engine| strptime_with("%d %b", "5 Mar", engine);
/// assert_eq!(read(Engine::Skipping), Err(ReadError::TwoDays { first, second, part, examined: 31 + 5 }));
/// assert_eq!(read(Engine::Plain), Err(ReadError::TwoDays { first, second, part, examined: 429 }));
/// assert_eq!(read(Engine::Within(429)), read(Engine::Plain));
/// assert_eq!(read(Engine::Within(428)), Err(ReadError::OverBudget { budget: 428 }));
///
/// // one day: that there is no second is known at the calendar's end
/// let read = |engine| strptime_with("%d %b %Y", "5 Mar 1934", engine);
/// assert_eq!(read(Engine::Skipping).unwrap().examined, 31);
/// assert_eq!(read(Engine::Plain).unwrap().examined, Date::DAYS);
/// ```
#[derive(Clone, Copy, PartialEq, Eq, Hash, Debug, Default)]
#[non_exhaustive]
pub enum Engine {
    /// Passes over years, months and days that cannot fit. It counts the days of those months alone whose year and month fit what is said
    /// of year, century, year in century and month. It is the one of [`strptime`](crate::strptime) and
    /// [`Format::read`](crate::Format::read).
    #[default]
    Skipping,
    /// Examines each day of the calendar in order, and counts them all.
    Plain,
    /// As `Plain`, with a budget of days: where it would examine more, the reading is refused by
    /// [`ReadError::OverBudget`](crate::ReadError::OverBudget). A text that fits one day or none needs a budget of
    /// [`Date::DAYS`](crate::Date::DAYS).
    Within(u32),
}

impl Engine {
    /// The number of the engine, and its budget, for the C functions.
    pub(crate) fn numbers(self) -> (u32, u32) {
        match self {
            Engine::Skipping => (0, 0),
            Engine::Plain => (1, 0),
            Engine::Within(budget) => (2, budget),
        }
    }
}
