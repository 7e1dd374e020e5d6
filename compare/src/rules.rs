//! The rules of docs/RULES.md once more, in plain Rust: written from their text alone, to be compared with the proved library and to make
//! vectors. It shares no code and no table with the library or its bindings, and takes the slow, literal way wherever there is one: weeks
//! are counted by walking the calendar day by day, and a reading is judged against every day. What is quicker stands beside what is literal
//! and is compared with it. Python's datetime module judges its calendar (`vectors days` and tests/every_day.py), cases worked by hand its
//! rules (`margins.rs`).

use std::ops::RangeInclusive;

/// The last day of the calendar, 9999-12-31.
pub const DAYS: usize = 3_652_059;

pub const WEEKDAYS: [&str; 7] = ["Monday", "Tuesday", "Wednesday", "Thursday", "Friday", "Saturday", "Sunday"];
pub const MONTHS: [&str; 12] =
    ["January", "February", "March", "April", "May", "June", "July", "August", "September", "October", "November", "December"];
pub const HALVES: [&str; 2] = ["AM", "PM"];

/// What is read for a weekday or a month beside its full and its short name (RULES 6).
const MIDDLES: [&str; 4] = ["Tues", "Thur", "Thurs", "Sept"];

/// The letters of the conversions that show a name or a half of the day.
pub const NAMED: &[u8] = b"aAbBhpP";

/// The pairs in which E and O are taken.
pub const PAIRS: [&str; 19] =
    ["Ec", "EC", "Ex", "EX", "Ey", "EY", "Od", "Oe", "OH", "OI", "Om", "OM", "OS", "Ou", "OU", "OV", "Ow", "OW", "Oy"];

fn leap(year: u32) -> bool {
    year % 4 == 0 && (year % 100 != 0 || year % 400 == 0)
}

pub fn month_length(year: u32, month: u32) -> u32 {
    match month {
        4 | 6 | 9 | 11 => 30,
        2 if leap(year) => 29,
        2 => 28,
        _ => 31,
    }
}

/// A day with the number that each date conversion shows for it.
#[derive(Clone, Copy, Default, PartialEq, Eq, Debug)]
pub struct Day {
    pub year: u16,
    pub month: u8,
    pub day: u8,
    pub day_of_year: u16,
    pub weekday: u8,
    pub sundays: u8,
    pub mondays: u8,
    pub week_year: u16,
    pub week: u8,
}

impl Day {
    /// The number of a date fact's kind (1 to 12) for this day.
    pub fn value(&self, kind: usize) -> u32 {
        match kind {
            1 => self.year as u32,
            2 => self.year as u32 / 100,
            3 => self.year as u32 % 100,
            4 => self.month as u32,
            5 => self.day as u32,
            6 => self.day_of_year as u32,
            7 => self.weekday as u32,
            8 => self.sundays as u32,
            9 => self.mondays as u32,
            10 => self.week_year as u32,
            11 => self.week_year as u32 % 100,
            _ => self.week as u32,
        }
    }

    pub fn date(&self) -> (u32, u32, u32) {
        (self.year as u32, self.month as u32, self.day as u32)
    }
}

/// Every day of the calendar (RULES 2), in order, and for each kind and number the days that show it, as bits.
pub struct Calendar {
    pub days: Vec<Day>,
    /// Where each year begins in `days`; one more entry for the end.
    years: Vec<usize>,
    /// `sets[kind][number]`: a bit for each day; only for the kinds of few numbers.
    sets: Vec<Vec<Vec<u64>>>,
}

/// The numbers that a kind's set is kept for; 0 for a kind that is looked up another way.
const KEPT: [usize; 13] = [0, 0, 100, 100, 13, 32, 0, 8, 54, 54, 0, 100, 54];

impl Calendar {
    pub fn new() -> Calendar {
        let mut days = Vec::with_capacity(DAYS);
        let mut thursdays = Vec::with_capacity(DAYS);
        let mut years = vec![0];
        let mut weekday = 1;
        for year in 1..=9999 {
            years.push(days.len());
            let (mut sun, mut mon, mut thu, mut of_year) = (0, 0, 0, 0);
            for month in 1..=12 {
                for day in 1..=month_length(year, month) {
                    of_year += 1;
                    sun += (weekday == 7) as u8;
                    mon += (weekday == 1) as u8;
                    thu += (weekday == 4) as u8;
                    thursdays.push(thu);
                    days.push(Day {
                        year: year as u16,
                        month: month as u8,
                        day: day as u8,
                        day_of_year: of_year,
                        weekday,
                        sundays: sun,
                        mondays: mon,
                        week_year: 0,
                        week: 0,
                    });
                    weekday = weekday % 7 + 1;
                }
            }
        }
        years.push(days.len());
        assert_eq!(days.len(), DAYS);
        assert_eq!(days[DAYS - 1].weekday, 5);
        for i in 0..DAYS {
            let thursday = i + 4 - days[i].weekday as usize;
            days[i].week_year = days[thursday].year;
            days[i].week = thursdays[thursday];
        }
        let mut sets: Vec<Vec<Vec<u64>>> = KEPT.iter().map(|&n| vec![vec![0u64; DAYS / 64 + 1]; n]).collect();
        for (i, d) in days.iter().enumerate() {
            for kind in 1..=12 {
                if KEPT[kind] > 0 {
                    sets[kind][d.value(kind) as usize][i / 64] |= 1 << (i % 64);
                }
            }
        }
        Calendar { days, years, sets }
    }

    /// The place of a date in `days`.
    pub fn place(&self, year: u32, month: u32, day: u32) -> usize {
        let past: u32 = (1..month).map(|m| month_length(year, m)).sum();
        self.years[year as usize] + (past + day) as usize - 1
    }

    pub fn find(&self, year: u32, month: u32, day: u32) -> &Day {
        let found = &self.days[self.place(year, month, day)];
        debug_assert_eq!(found.date(), (year, month, day));
        found
    }

    fn agrees(&self, i: usize, facts: &Facts) -> bool {
        (1..=12).all(|k| agrees(facts, k, self.days[i].value(k)))
    }

    /// Whether a day agrees with facts, by asking every day.
    pub fn any_agrees_slowly(&self, facts: &Facts) -> bool {
        (0..DAYS).any(|i| self.agrees(i, facts))
    }

    /// The same, faster.
    pub fn any_agrees(&self, facts: &Facts) -> bool {
        !self.first(1, facts).is_empty()
    }

    /// A search that asks every day, in order, up to the second that agrees.
    pub fn search_slowly(&self, facts: &Facts) -> Search {
        let mut search = Search { days: Vec::new(), plain: 0, skipping: 0 };
        for (i, d) in self.days.iter().enumerate() {
            search.plain += 1;
            search.skipping += (1..=4).all(|k| agrees(facts, k, d.value(k))) as u32;
            if self.agrees(i, facts) {
                search.days.push(d.date());
                if search.days.len() == 2 {
                    break;
                }
            }
        }
        search
    }

    /// The same, faster.
    pub fn search(&self, facts: &Facts) -> Search {
        let found = self.first(2, facts);
        let through = found.get(1).map_or(DAYS, |i| i + 1);
        let days = found.iter().map(|&i| self.days[i].date()).collect();
        Search { days, plain: through as u32, skipping: self.in_possible_months(facts, through) as u32 }
    }

    /// How many of the first so many days lie in months whose year and month agree with all facts of kinds 1 to 4.
    fn in_possible_months(&self, facts: &Facts, through: usize) -> usize {
        if facts[1..=4].iter().all(|f| f.is_none()) {
            return through;
        }
        let years = match (facts[1], facts[2]) {
            (Some(y), _) => y..=y,
            (_, Some(c)) => (100 * c).max(1)..=100 * c + 99,
            _ => 1..=9999,
        };
        let mut count = 0;
        for year in years {
            if self.years[year as usize] >= through {
                break;
            }
            if !(agrees(facts, 2, year / 100) && agrees(facts, 3, year % 100)) {
                continue;
            }
            for month in facts[4].map_or(1..=12, |m| m..=m) {
                let before = self.place(year, month, 1);
                count += (month_length(year, month) as usize).min(through.saturating_sub(before));
            }
        }
        count
    }

    /// The first agreeing days, at most so many: of some years alone, by what was said of them, and there the sets of days are intersected.
    fn first(&self, count: usize, facts: &Facts) -> Vec<usize> {
        let years = years_asked(count, facts);
        if let Some(j) = facts[6] {
            let at = |y: u32| self.years[y as usize] + j as usize - 1;
            return years.map(at).filter(|&i| i < DAYS && self.agrees(i, facts)).take(count).collect();
        }
        let (from, to) = (self.years[*years.start() as usize], self.years[*years.end() as usize + 1]);
        let said: Vec<&Vec<u64>> = (1..=12).filter(|&k| KEPT[k] > 0).filter_map(|k| facts[k].map(|n| &self.sets[k][n as usize])).collect();
        let mut found = Vec::new();
        for w in from / 64..=(to - 1) / 64 {
            let mut bits = said.iter().fold(!0u64, |b, s| b & s[w]);
            while bits != 0 {
                let i = w * 64 + bits.trailing_zeros() as usize;
                bits &= bits - 1;
                if (from..to).contains(&i) && self.agrees(i, facts) {
                    found.push(i);
                }
                if found.len() == count {
                    return found;
                }
            }
        }
        found
    }
}

/// The years that the first so many agreeing days are of: those that are said, by year, century and ISO year. Where none of these is, all
/// else repeats after 400 years: then 400 years for each of the days.
fn years_asked(count: usize, facts: &Facts) -> RangeInclusive<u32> {
    let year = facts[1].map(|y| (y, y));
    let century = facts[2].map(|c| (100 * c, 100 * c + 99));
    // a week of the year g has its Thursday in g, so its days lie in g or in a year beside it
    let week_year = facts[10].map(|g| (g - 1, g + 1));
    let said: Vec<(u32, u32)> = [year, century, week_year].into_iter().flatten().collect();
    if said.is_empty() {
        return 1..=400 * count as u32;
    }
    let first = said.iter().map(|(first, _)| *first).max().unwrap();
    let last = said.iter().map(|(_, last)| *last).min().unwrap();
    first.max(1)..=last.min(9999)
}

/// At each kind 1 to 17 (RULES 7) the number said, if one was. AM is 0 and PM is 1. Kind 18, the zone offset, has a sign, and stands beside
/// them.
pub type Facts = [Option<u32>; 18];

/// Whether nothing else is said of a kind than this number.
fn agrees(facts: &Facts, kind: usize, number: u32) -> bool {
    facts[kind].map_or(true, |said| said == number)
}

/// How the day is searched for (RULES 8).
#[derive(Clone, Copy, PartialEq, Eq, Debug)]
pub enum Engine {
    /// Through the months alone whose year and month agree with all facts of kinds 1 to 4.
    Skipping,
    /// Through all days.
    Plain,
    /// Through all days, if it takes no more than so many.
    Within(u32),
}

/// What a search for the day comes to: the first two days that agree, or the one, or none; and how many days the plain engine, without a
/// budget, and the skipping one examine for that.
#[derive(Clone, PartialEq, Eq, Debug)]
pub struct Search {
    pub days: Vec<(u32, u32, u32)>,
    pub plain: u32,
    pub skipping: u32,
}

/// What a format is opened for: flags and widths are taken for writing alone (RULES 4).
#[derive(Clone, Copy, PartialEq, Eq, Debug)]
pub enum Use {
    Reading,
    Writing,
}

/// A conversion that is neither a composite nor a byte: its letter, its flag's byte or 0, the width asked or 0, and the offset of its % in
/// the format.
#[derive(Clone, Copy, PartialEq, Eq, Debug)]
pub struct Conversion {
    pub letter: u8,
    pub flag: u8,
    pub width: usize,
    pub at: usize,
}

impl Conversion {
    /// With neither a flag nor a width.
    pub fn is_plain(&self) -> bool {
        self.flag == 0 && self.width == 0
    }

    /// Whether a format for this use may have it.
    pub fn is_taken(&self, side: Use) -> bool {
        match side {
            Use::Writing => self.is_written(),
            Use::Reading => self.is_written() && self.is_plain() && self.letter != b's',
        }
    }

    /// Whether it can be written: a number or a name, with a flag that belongs to it, if with one, and a width of at most 99; or %z or %s,
    /// with neither.
    fn is_written(&self) -> bool {
        let flags: &[u8] = match self.letter {
            b'z' | b's' => return self.is_plain(),
            l if NAMED.contains(&l) => b"^",
            l if numeric(l).is_some() => b"_-0",
            _ => return false,
        };
        (self.flag == 0 || flags.contains(&self.flag)) && self.width <= 99
    }
}

/// What a format's elements ask for (RULES 4), composites opened.
#[derive(Clone, Copy, PartialEq, Eq, Debug)]
pub enum Item {
    /// A byte that copies itself and must be met.
    Byte(u8),
    /// A white-space byte, `%n` or `%t`: written as that byte, read as a run.
    Space(u8),
    Conversion(Conversion),
}

/// The bytes that are white space (RULES 1).
pub fn white(b: u8) -> bool {
    (9..=13).contains(&b) || b == 32
}

/// A byte that stands for itself.
pub fn byte(b: u8) -> Item {
    if white(b) {
        Item::Space(b)
    } else {
        Item::Byte(b)
    }
}

/// The format that a composite is.
fn composite(letter: u8) -> Option<&'static [u8]> {
    Some(match letter {
        b'c' => b"%a %b %e %T %Y",
        b'x' => b"%D",
        b'X' => b"%T",
        b'D' => b"%m/%d/%y",
        b'F' => b"%Y-%m-%d",
        b'R' => b"%H:%M",
        b'T' => b"%H:%M:%S",
        b'r' => b"%I:%M:%S %p",
        _ => return None,
    })
}

/// What stands at the % with this offset: flag, width, E or O, letter, and the offset after them. None where the format ends before, or has
/// E or O in a pair that is not taken.
fn conversion_at(format: &[u8], percent: usize, side: Use) -> Option<(Conversion, usize)> {
    let rest = &format[percent + 1..];
    let mut at = 0;
    let (mut flag, mut width) = (0, 0);
    if side == Use::Writing {
        if b"_-0^".contains(rest.first()?) {
            flag = rest[0];
            at += 1;
        }
        if (b'1'..=b'9').contains(rest.get(at)?) {
            let digits = 1 + rest[at + 1..].iter().take(1).filter(|b| b.is_ascii_digit()).count();
            width = std::str::from_utf8(&rest[at..at + digits]).unwrap().parse().unwrap();
            at += digits;
        }
    }
    if b"EO".contains(rest.get(at)?) {
        let pair = rest.get(at..at + 2)?;
        if !PAIRS.iter().any(|p| p.as_bytes() == pair) {
            return None;
        }
        at += 1;
    }
    Some((Conversion { letter: *rest.get(at)?, flag, width, at: percent }, percent + at + 2))
}

/// The elements of a format, or the offset of its first bad `%`.
pub fn items(format: &[u8], side: Use) -> Result<Vec<Item>, usize> {
    let mut out = Vec::new();
    let mut i = 0;
    while i < format.len() {
        let start = i;
        if format[start] != b'%' {
            out.push(byte(format[start]));
            i += 1;
            continue;
        }
        let (conversion, next) = conversion_at(format, start, side).ok_or(start)?;
        i = next;
        match conversion.letter {
            _ if conversion.is_taken(side) => out.push(Item::Conversion(conversion)),
            _ if !conversion.is_plain() => return Err(start),
            b'n' => out.push(byte(10)),
            b't' => out.push(byte(9)),
            b'%' => out.push(byte(b'%')),
            l => out.extend(items(composite(l).ok_or(start)?, side).unwrap().into_iter().map(|item| placed(item, start))),
        }
    }
    Ok(out)
}

/// An item of a composite, whose % has this offset.
fn placed(item: Item, at: usize) -> Item {
    match item {
        Item::Conversion(c) => Item::Conversion(Conversion { at, ..c }),
        byte => byte,
    }
}

/// Year, month, day, hour, minute and second, and the zone offset in minutes east of UTC, or unsaid.
#[derive(Clone, Copy, PartialEq, Eq, Debug)]
pub struct Moment {
    pub fields: [u32; 6],
    pub offset: Option<i32>,
}

impl Moment {
    /// With the offset unsaid.
    pub const fn new(fields: [u32; 6]) -> Moment {
        Moment { fields, offset: None }
    }

    /// The same with an offset.
    pub const fn with_offset(self, offset: i32) -> Moment {
        Moment { offset: Some(offset), ..self }
    }

    pub fn date(&self) -> (u32, u32, u32) {
        (self.fields[0], self.fields[1], self.fields[2])
    }
}

/// The first bad field of a moment, if one is bad.
pub fn bad_field(m: &Moment) -> Option<u32> {
    let [year, month, day, hour, minute, second] = m.fields;
    if !(1..=9999).contains(&year) {
        return Some(1);
    }
    if !(1..=12).contains(&month) {
        return Some(2);
    }
    if day < 1 || day > month_length(year, month) {
        return Some(3);
    }
    if hour > 23 {
        return Some(4);
    }
    if minute > 59 {
        return Some(5);
    }
    if second > 60 {
        return Some(6);
    }
    match m.offset {
        Some(minutes) if !(-1439..=1439).contains(&minutes) => Some(7),
        _ => None,
    }
}

fn twelve(hour: u32) -> u32 {
    if hour % 12 == 0 {
        12
    } else {
        hour % 12
    }
}

/// The number that a numeric conversion shows.
fn number(letter: u8, d: &Day, m: &Moment) -> u32 {
    match letter {
        b'H' | b'k' => m.fields[3],
        b'I' | b'l' => twelve(m.fields[3]),
        b'M' => m.fields[4],
        b'S' => m.fields[5],
        b'w' => d.weekday as u32 % 7,
        _ => d.value(numeric(letter).unwrap().0),
    }
}

/// The name, short or full, or the half of the day that a conversion shows.
fn name(letter: u8, d: &Day, m: &Moment) -> String {
    let (weekday, month, half) = (WEEKDAYS[d.weekday as usize - 1], MONTHS[d.month as usize - 1], HALVES[m.fields[3] as usize / 12]);
    match letter {
        b'a' => weekday[..3].to_string(),
        b'A' => weekday.to_string(),
        b'B' => month.to_string(),
        b'p' => half.to_string(),
        b'P' => half.to_lowercase(),
        _ => month[..3].to_string(),
    }
}

/// What a conversion other than %z and %s writes for a day and a moment of it.
fn shown(c: &Conversion, d: &Day, m: &Moment) -> Vec<u8> {
    let (bytes, fill, places) = match numeric(c.letter) {
        Some((_, own, _, _)) => {
            let fill = match c.flag {
                b'_' => b' ',
                0 if b"ekl".contains(&c.letter) => b' ',
                _ => b'0',
            };
            (number(c.letter, d, m).to_string(), fill, if c.flag == b'-' { 0 } else { own.max(c.width) })
        }
        None if c.flag == b'^' => (name(c.letter, d, m).to_uppercase(), b' ', c.width),
        None => (name(c.letter, d, m), b' ', c.width),
    };
    let mut out = vec![fill; places.saturating_sub(bytes.len())];
    out.extend(bytes.bytes());
    out
}

/// What %z writes: a sign, two digits of hours and two of minutes; nothing where the offset is unsaid.
fn zone(offset: Option<i32>) -> String {
    match offset {
        None => String::new(),
        Some(minutes) => {
            let (sign, far) = if minutes < 0 { ('-', -minutes) } else { ('+', minutes) };
            format!("{sign}{:02}{:02}", far / 60, far % 60)
        }
    }
}

/// What %s writes: the whole seconds from 1970-01-01 00:00:00 UTC, the offset taken off. Second 60 is one more than 59, and so the next.
fn seconds(cal: &Calendar, m: &Moment, offset: i32) -> i64 {
    let (year, month, day) = m.date();
    let days = cal.place(year, month, day) as i64 - cal.place(1970, 1, 1) as i64;
    let [hours, minutes, seconds] = [3, 4, 5].map(|field| m.fields[field] as i64);
    days * 24 * 60 * 60 + hours * 60 * 60 + minutes * 60 + seconds - offset as i64 * 60
}

/// What the items write for a valid moment (RULES 5), which says its offset if there is a %s among them.
pub fn written(cal: &Calendar, items: &[Item], m: &Moment) -> Vec<u8> {
    let (year, month, day) = m.date();
    let d = cal.find(year, month, day);
    let mut out = Vec::new();
    for item in items {
        match item {
            Item::Byte(b) | Item::Space(b) => out.push(*b),
            Item::Conversion(c) if c.letter == b'z' => out.extend(zone(m.offset).bytes()),
            Item::Conversion(c) if c.letter == b's' => out.extend(seconds(cal, m, m.offset.unwrap()).to_string().bytes()),
            Item::Conversion(c) => out.extend(shown(c, d, m)),
        }
    }
    out
}

/// The offset of the first %s, if there is one.
fn first_seconds(items: &[Item]) -> Option<usize> {
    items.iter().find_map(|item| match item {
        Item::Conversion(c) if c.letter == b's' => Some(c.at),
        _ => None,
    })
}

/// The writer: number, place, and the bytes where the number is 0.
pub fn write(cal: &Calendar, format: &[u8], m: &Moment, room: usize) -> (u32, u32, Vec<u8>) {
    if format.len() > 1024 {
        return (1, 0, vec![]);
    }
    write_opened(cal, &items(format, Use::Writing), m, room)
}

/// The writer for items that were opened before, or the place of what is bad among them.
pub fn write_opened(cal: &Calendar, opened: &Result<Vec<Item>, usize>, m: &Moment, room: usize) -> (u32, u32, Vec<u8>) {
    if let Some(field) = bad_field(m) {
        return (2, field, vec![]);
    }
    let items = match opened {
        Err(at) => return (3, *at as u32, vec![]),
        Ok(items) => items,
    };
    if let (None, Some(at)) = (m.offset, first_seconds(items)) {
        return (12, at as u32, vec![]);
    }
    let bytes = written(cal, items, m);
    if bytes.len() > room {
        return (4, bytes.len() as u32, vec![]);
    }
    (0, bytes.len() as u32, bytes)
}

/// What the reader answers (RULES 3): whatever the number does not bring with it is zero or unsaid.
#[derive(Clone, Default, PartialEq, Eq, Debug)]
pub struct Reading {
    pub number: u32,
    pub place: u32,
    pub day: Option<(u32, u32, u32)>,
    pub hour: Option<u32>,
    pub minute: Option<u32>,
    pub second: Option<u32>,
    pub offset: Option<i32>,
    pub two_days: Option<[(u32, u32, u32); 2]>,
    pub two_hours: Option<[u32; 2]>,
    pub examined: u32,
    pub forms: Forms,
}

fn refused(number: u32, place: usize) -> Reading {
    Reading { number, place: place as u32, ..Reading::default() }
}

/// The reader.
pub fn read(cal: &Calendar, engine: Engine, format: &[u8], text: &[u8]) -> Reading {
    matched(cal, format, text).reading(engine)
}

/// The reader, and the reason of what it refuses by 9 or by 10 (RULES 8.5).
pub fn explain(cal: &Calendar, engine: Engine, format: &[u8], text: &[u8]) -> (Reading, Option<Reason>) {
    let matched = matched(cal, format, text);
    let reading = matched.reading(engine);
    let reason = matched.reason(cal, &reading);
    (reading, reason)
}

/// What a reading comes to before an engine is named: what was said, and what there is to find by the facts, if any of them bears on the
/// day; or a refusal.
pub enum Matched {
    Facts { said: Box<Said>, search: Option<Search> },
    Refused(Reading),
}

/// What the items of a format read of a text.
pub struct Said {
    pub facts: Facts,
    /// Kind 18.
    pub offset: Option<i32>,
    /// At each kind that was said, where it was first.
    pub words: [Option<Words>; 18],
    pub forms: Forms,
    /// The first unread offset.
    pub at: usize,
}

/// Where in a text something is said: the offset of its first digit or letter, and the offset after its last.
#[derive(Clone, Copy, PartialEq, Eq, Debug)]
pub struct Words {
    pub from: usize,
    pub next: usize,
}

/// What a format makes of a text.
pub fn matched(cal: &Calendar, format: &[u8], text: &[u8]) -> Matched {
    if format.len() > 1024 {
        return Matched::Refused(refused(1, 0));
    }
    matched_opened(cal, &items(format, Use::Reading), text)
}

/// The same for items that were opened before, or the place of what is bad among them.
pub fn matched_opened(cal: &Calendar, opened: &Result<Vec<Item>, usize>, text: &[u8]) -> Matched {
    if text.len() > 1024 {
        return Matched::Refused(refused(5, 0));
    }
    match opened {
        Err(at) => Matched::Refused(refused(3, *at)),
        Ok(items) => match read_items(items, text) {
            Err(reading) => Matched::Refused(reading),
            Ok(said) => {
                let search = said.facts[1..=12].iter().any(|f| f.is_some()).then(|| cal.search(&said.facts));
                Matched::Facts { said: Box::new(said), search }
            }
        },
    }
}

/// Kind, width, least and greatest number of a numeric conversion.
pub fn numeric(letter: u8) -> Option<(usize, usize, u32, u32)> {
    Some(match letter {
        b'Y' => (1, 4, 1, 9999),
        b'C' => (2, 2, 0, 99),
        b'y' => (3, 2, 0, 99),
        b'm' => (4, 2, 1, 12),
        b'd' | b'e' => (5, 2, 1, 31),
        b'j' => (6, 3, 1, 366),
        b'u' => (7, 1, 1, 7),
        b'w' => (7, 1, 0, 6),
        b'U' => (8, 2, 0, 53),
        b'W' => (9, 2, 0, 53),
        b'G' => (10, 4, 1, 9999),
        b'g' => (11, 2, 0, 99),
        b'V' => (12, 2, 1, 53),
        b'H' | b'k' => (13, 2, 0, 23),
        b'I' | b'l' => (14, 2, 1, 12),
        b'M' => (16, 2, 0, 59),
        b'S' => (17, 2, 0, 60),
        _ => return None,
    })
}

/// Whether the text goes on with `name`, letter case aside.
fn goes_on(text: &[u8], name: &str) -> bool {
    text.len() >= name.len() && text[..name.len()].eq_ignore_ascii_case(name.as_bytes())
}

/// How a weekday or a month is named (RULES 6).
#[derive(Clone, Copy, PartialEq, Eq, Debug)]
pub enum Form {
    Full,
    Middle,
    Short,
}

/// The forms of the last weekday name and of the last month name that were read, if any were.
#[derive(Clone, Copy, Default, PartialEq, Eq, Debug)]
pub struct Forms {
    pub weekday: Option<Form>,
    pub month: Option<Form>,
}

/// What is read for a weekday or a month by its full name, that first: each with its form.
pub fn forms_of(name: &str) -> Vec<(&str, Form)> {
    let mut all = vec![(name, Form::Full), (&name[..3], Form::Short)];
    all.extend(MIDDLES.iter().filter(|middle| name.starts_with(**middle)).map(|middle| (*middle, Form::Middle)));
    all
}

/// The name that the text goes on with, from 0, its length and its form: a full name, else the longest of the others.
fn name_at(text: &[u8], names: &[&str]) -> Option<(u32, usize, Form)> {
    let mut found = Vec::new();
    for (i, name) in names.iter().enumerate() {
        for (letters, form) in forms_of(name) {
            if goes_on(text, letters) {
                found.push((i as u32, letters.len(), form));
            }
        }
    }
    let full = found.iter().find(|(_, _, form)| *form == Form::Full);
    full.or(found.iter().max_by_key(|(_, length, _)| *length)).copied()
}

/// The offset that the text goes on with, in minutes: a sign, right there, two digits of hours and two of minutes. Else 6, or 7.
fn offset_at(text: &[u8]) -> Result<i32, u32> {
    let (sign, digits) = match text {
        [b'+', digits @ ..] => (1, digits),
        [b'-', digits @ ..] => (-1, digits),
        _ => return Err(6),
    };
    if digits.iter().take(4).filter(|b| b.is_ascii_digit()).count() < 4 {
        return Err(6);
    }
    let two = |at: usize| std::str::from_utf8(&digits[at..at + 2]).unwrap().parse::<i32>().unwrap();
    let (hours, minutes) = (two(0), two(2));
    if hours > 23 || minutes > 59 {
        return Err(7);
    }
    Ok(sign * (60 * hours + minutes))
}

/// What the items read (RULES 6), or 6, 7 or 8, from left to right.
fn read_items(items: &[Item], text: &[u8]) -> Result<Said, Reading> {
    let mut facts: Facts = [None; 18];
    let mut offset = None;
    let mut words = [None; 18];
    let mut forms = Forms::default();
    let mut at = 0;
    let spaces = |at: usize| text[at..].iter().take_while(|b| white(**b)).count();
    for item in items {
        let letter = match *item {
            Item::Space(_) => {
                at += spaces(at);
                continue;
            }
            Item::Byte(b) => {
                if text.get(at) != Some(&b) {
                    return Err(refused(6, at));
                }
                at += 1;
                continue;
            }
            Item::Conversion(c) if c.letter == b'z' => {
                let minutes = offset_at(&text[at..]).map_err(|number| refused(number, at))?;
                if offset.is_some() && offset != Some(minutes) {
                    return Err(refused(8, at));
                }
                offset = Some(minutes);
                at += 5;
                continue;
            }
            Item::Conversion(c) => c.letter,
        };
        let (kind, number, length, form) = if let Some((kind, width, least, greatest)) = numeric(letter) {
            at += spaces(at);
            let digits = text[at..].iter().take(width).take_while(|b| b.is_ascii_digit()).count();
            if digits == 0 {
                return Err(refused(6, at));
            }
            let n: u32 = std::str::from_utf8(&text[at..at + digits]).unwrap().parse().unwrap();
            if n < least || n > greatest {
                return Err(refused(7, at));
            }
            (kind, if letter == b'w' && n == 0 { 7 } else { n }, digits, None)
        } else {
            let rest = &text[at..];
            let found = match letter {
                b'a' | b'A' => name_at(rest, &WEEKDAYS).map(|(i, length, form)| (7, i + 1, length, Some(form))),
                b'b' | b'B' | b'h' => name_at(rest, &MONTHS).map(|(i, length, form)| (4, i + 1, length, Some(form))),
                _ => HALVES.iter().position(|half| goes_on(rest, half)).map(|half| (15, half as u32, 2, None)),
            };
            found.ok_or_else(|| refused(6, at))?
        };
        if facts[kind].is_some() && facts[kind] != Some(number) {
            return Err(refused(8, at));
        }
        facts[kind] = Some(number);
        words[kind] = words[kind].or(Some(Words { from: at, next: at + length }));
        match kind {
            4 => forms.month = form.or(forms.month),
            7 => forms.weekday = form.or(forms.weekday),
            _ => {}
        }
        at += length;
    }
    Ok(Said { facts, offset, words, forms, at })
}

/// The number of an hour fact's kind (13 to 15) for an hour.
fn hour_value(kind: usize, hour: u32) -> u32 {
    match kind {
        13 => hour,
        14 => twelve(hour),
        _ => hour / 12,
    }
}

/// The hours that agree.
fn hours(facts: &Facts) -> Vec<u32> {
    (0..24).filter(|h| (13..=15).all(|k| agrees(facts, k, hour_value(k, *h)))).collect()
}

impl Matched {
    /// The day and the hour that the facts leave (RULES 8).
    pub fn reading(&self, engine: Engine) -> Reading {
        let (said, search) = match self {
            Matched::Refused(reading) => return reading.clone(),
            Matched::Facts { said, search } => (said, search),
        };
        let mut day = None;
        let mut examined = 0;
        if let Some(search) = search {
            examined = match engine {
                Engine::Skipping => search.skipping,
                Engine::Plain => search.plain,
                Engine::Within(budget) if budget < search.plain => {
                    return Reading { examined: budget, ..refused(11, budget as usize) };
                }
                Engine::Within(_) => search.plain,
            };
            match search.days[..] {
                [] => return Reading { examined, ..refused(9, 1) },
                [one] => day = Some(one),
                [first, second, ..] => return Reading { two_days: Some([first, second]), examined, ..refused(10, 1) },
            }
        }
        let mut hour = None;
        if said.facts[13..=15].iter().any(|f| f.is_some()) {
            match hours(&said.facts)[..] {
                [] => return Reading { examined, ..refused(9, 2) },
                [one] => hour = Some(one),
                [first, second, ..] => return Reading { two_hours: Some([first, second]), examined, ..refused(10, 2) },
            }
        }
        let (place, minute, second) = (said.at as u32, said.facts[16], said.facts[17]);
        Reading { number: 0, place, day, hour, minute, second, offset: said.offset, examined, forms: said.forms, ..Reading::default() }
    }

    /// The reason of a reading of this text, if it has one (RULES 8.5).
    pub fn reason(&self, cal: &Calendar, reading: &Reading) -> Option<Reason> {
        self.reason_by(|facts| cal.any_agrees(facts), reading)
    }

    /// The same by asking every day, for each kind that is tried.
    pub fn reason_slowly(&self, cal: &Calendar, reading: &Reading) -> Option<Reason> {
        self.reason_by(|facts| cal.any_agrees_slowly(facts), reading)
    }

    /// The same, where `any_day_agrees` says whether a day agrees with facts.
    pub fn reason_by(&self, any_day_agrees: impl Fn(&Facts) -> bool, reading: &Reading) -> Option<Reason> {
        let said = match self {
            Matched::Refused(_) => return None,
            Matched::Facts { said, .. } => said,
        };
        match (reading.number, reading.place) {
            (9, 1) => Some(said.quarrel(quarrelling(&said.facts, 1..=12, any_day_agrees))),
            (9, _) => Some(said.quarrel(quarrelling(&said.facts, 13..=15, |facts| !hours(facts).is_empty()))),
            (10, 1) => reading.two_days.map(|[first, second]| Reason::Differ(part_of_difference(first, second))),
            (10, _) => reading.two_hours.map(Reason::Hours),
            _ => None,
        }
    }
}

/// Why a reading is refused by 9 or by 10 (RULES 8.5).
#[derive(Clone, PartialEq, Eq, Debug)]
pub enum Reason {
    /// The kinds that quarrel, in the order of RULES 7, each with its words.
    Quarrel(Vec<(usize, Words)>),
    /// The first part in which the two days differ.
    Differ(Part),
    Hours([u32; 2]),
}

#[derive(Clone, Copy, PartialEq, Eq, Debug)]
pub enum Part {
    Year,
    Month,
    Day,
}

impl Part {
    pub fn name(&self) -> &'static str {
        match self {
            Part::Year => "year",
            Part::Month => "month",
            Part::Day => "day",
        }
    }
}

/// The kinds among these that quarrel, where none agrees with all of them: each kind is tried in order, and left out if none agrees with
/// what is left without it. Of a kind that was not said nothing is left out.
fn quarrelling(facts: &Facts, kinds: RangeInclusive<usize>, any_agrees: impl Fn(&Facts) -> bool) -> Vec<usize> {
    let mut left = *facts;
    for kind in kinds.clone().filter(|k| facts[*k].is_some()) {
        let mut without = left;
        without[kind] = None;
        if !any_agrees(&without) {
            left = without;
        }
    }
    kinds.filter(|k| left[*k].is_some()).collect()
}

/// The first of year, month and day in which two days differ.
fn part_of_difference(first: (u32, u32, u32), second: (u32, u32, u32)) -> Part {
    if first.0 != second.0 {
        Part::Year
    } else if first.1 != second.1 {
        Part::Month
    } else {
        Part::Day
    }
}

impl Said {
    /// Kinds that quarrel, with their words.
    fn quarrel(&self, kinds: Vec<usize>) -> Reason {
        Reason::Quarrel(kinds.into_iter().map(|kind| (kind, self.words[kind].unwrap())).collect())
    }
}

/// The bytes of a list, at most (RULES 9).
pub const LONGEST_LIST: usize = 32_768;

/// The lines of a list, the format first, or none of them where it is too long.
pub fn lines_of(list: &[u8]) -> Option<Vec<&[u8]>> {
    if list.len() > LONGEST_LIST {
        return None;
    }
    let mut lines: Vec<&[u8]> = list.split(|b| *b == b'\n').collect();
    if lines[lines.len() - 1].is_empty() {
        lines.pop(); // what follows the last newline is no line
    }
    Some(lines)
}

/// What the program `quarrels` writes for a list (RULES 9.2).
pub fn quarrels(cal: &Calendar, list: &[u8]) -> String {
    let lines = match lines_of(list) {
        None => return "too long\n".to_string(),
        Some(lines) => lines,
    };
    let mut out = String::new();
    for (i, text) in lines.iter().enumerate().skip(1) {
        let (reading, reason) = explain(cal, Engine::Skipping, lines[0], text);
        if reading.number != 0 {
            let (marks, sentence) = (marks(&reading, reason.as_ref()), sentence(text, &reading, reason.as_ref()));
            out += &format!("{}\n{marks}line {}: {sentence}\n\n", printable(text), i + 1);
        }
    }
    out
}

/// A text as it is shown, a byte for each of its bytes.
fn printable(text: &[u8]) -> String {
    let byte = |b: &u8| match *b {
        b if white(b) => ' ',
        33..=126 => *b as char,
        _ => '?',
    };
    text.iter().map(byte).collect()
}

/// The line of marks under a text, if anything is marked.
fn marks(reading: &Reading, reason: Option<&Reason>) -> String {
    let marked: Vec<usize> = match (reading.number, reason) {
        (6..=8, _) => vec![reading.place as usize],
        (_, Some(Reason::Quarrel(named))) => named.iter().flat_map(|(_, words)| words.from..words.next).collect(),
        _ => return String::new(),
    };
    let last = *marked.iter().max().unwrap();
    (0..=last).map(|at| if marked.contains(&at) { '^' } else { ' ' }).chain(['\n']).collect()
}

/// What is wrong with a refused text.
fn sentence(text: &[u8], reading: &Reading, reason: Option<&Reason>) -> String {
    let Reading { number, place, .. } = *reading;
    match (number, reason) {
        (1, _) => "the format has more than 1,024 bytes".to_string(),
        (3, _) => format!("the format has a conversion at byte {place} that is unknown or unfinished, or that has a flag or a width"),
        (5, _) => "the text has more than 1,024 bytes".to_string(),
        (6, _) if place as usize == text.len() => "the text ends before the format does".to_string(),
        (6, _) => "the text does not go on as the format wants".to_string(),
        (7, _) => "this number is outside its range".to_string(),
        (8, _) => "this was said before, differently".to_string(),
        (_, Some(Reason::Quarrel(named))) => {
            let what = if place == 1 { "day" } else { "hour" };
            format!("no {what} is {} together", list_of_words(text, named))
        }
        (_, Some(Reason::Differ(part))) => {
            let part = part.name();
            let [first, second] = reading.two_days.unwrap().map(|(y, m, d)| format!("{y:04}-{m:02}-{d:02}"));
            format!("more than one day agrees, the earliest {first} and {second}; the {part} is missing")
        }
        (_, Some(Reason::Hours([first, second]))) => {
            let missing = if *second == first + 12 { "AM or PM" } else { "the hour" };
            format!("more than one hour agrees, the earliest {first} and {second}; {missing} is missing")
        }
        _ => unreachable!("no such refusal without a budget: {number}"),
    }
}

/// The words of kinds that quarrel, in the order of the text. There are two or more: of every kind each number that is read agrees with a
/// day, or an hour.
fn list_of_words(text: &[u8], named: &[(usize, Words)]) -> String {
    let mut named = named.to_vec();
    named.sort_by_key(|(_, words)| words.from);
    let shown = |(kind, words): &(usize, Words)| {
        let words = printable(&text[words.from..words.next]);
        format!("{}{words}", if words.starts_with(|c: char| c.is_ascii_digit()) { label(*kind) } else { "" })
    };
    let (last, others) = named.split_last().unwrap();
    format!("{} and {}", others.iter().map(shown).collect::<Vec<String>>().join(", "), shown(last))
}

/// What stands before words that begin with a digit; AM and PM do not.
fn label(kind: usize) -> &'static str {
    match kind {
        2 => "century ",
        3 => "year in century ",
        4 => "month ",
        6 => "day of year ",
        7 => "weekday ",
        8 => "Sunday week ",
        9 => "Monday week ",
        10 => "ISO year ",
        11 => "ISO year in century ",
        12 => "ISO week ",
        13 => "hour ",
        14 => "hour of twelve ",
        _ => "", // year and day
    }
}
