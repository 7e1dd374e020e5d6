//! Lists of sheets: packing and unpacking on every day, with bad fields of every sort and with every bit of a word changed; and judging and
//! adding on lists that are sound, damaged in one thing, and full, small and large. Both arrays and both counts are compared whole.
use crate::facts;
use crate::library::{self, Lent, SHEET_WORDS};
use crate::Tally;
use compare::random::Random;
use compare::rules::{Calendar, DAYS};
use compare::sheets::{pack, table, unpack, List, Sheet, Week, LONGEST, WEEKS};

/// What tells the lists apart.
const SOUND: &str = "";
const DAMAGED: &str = "damaged";
const FULL: &str = "array full";
const FULL_TABLE: &str = "1,024 weeks";
const LARGE: &str = "large";
const OVER: &str = "over 65,536";

/// The weeks of the calendar: its first day is a Monday.
const ALL_WEEKS: usize = DAYS / 7;

/// Days from a first one on.
#[derive(Clone, Copy)]
struct Span {
    first: usize,
    days: usize,
}

impl Span {
    /// Of at most so many days, mostly of few.
    fn new(random: &mut Random, cal: &Calendar, most: usize) -> Span {
        let days = *random.pick(&[1, 2, 7, 8, 30, 400, 4000, DAYS]);
        Span { first: facts::day(random, cal), days: days.min(most) }
    }

    fn day(&self, random: &mut Random) -> usize {
        (self.first + random.below(self.days)).min(DAYS - 1)
    }
}

/// Said in so many cases of a hundred, and then often the least or the greatest.
fn maybe(random: &mut Random, percent: usize, greatest: u32) -> Option<u32> {
    let any = random.from(0, greatest);
    let number = *random.pick(&[any, any, any, any, 0, greatest]);
    random.chance(percent).then_some(number)
}

/// A sheet of a day by its place in the calendar.
fn sheet_of(random: &mut Random, cal: &Calendar, day: usize) -> Sheet {
    let percent = *random.pick(&[0, 20, 50, 100]);
    Sheet {
        date: cal.days[day].date(),
        hour: maybe(random, percent, 23),
        minute: maybe(random, percent, 59),
        second: maybe(random, percent, 60),
        offset: maybe(random, percent, 2878).map(|n| n as i32 - 1439),
    }
}

/// A number that is not valid, or hardly: at the ends of what is, with a bit more than the field has, or any.
fn bad_number(random: &mut Random, good: u32, greatest: u32) -> u32 {
    let any = random.next() as u32 >> random.below(32);
    let with_a_bit = good | 1 << random.from(4, 31);
    *random.pick(&[0, greatest, greatest + 1, greatest + 1, greatest + 2, with_a_bit, with_a_bit, any, u32::MAX])
}

/// A sheet that has a bad field, mostly: one, two, or no day.
fn spoilt(random: &mut Random, mut sheet: Sheet) -> Sheet {
    for _ in 0..random.from(1, 2) {
        match random.below(8) {
            0 => sheet.date = (0, 0, 0),
            1 => sheet.date.0 = bad_number(random, sheet.date.0, 9999),
            2 => sheet.date.1 = bad_number(random, sheet.date.1, 12),
            3 => sheet.date.2 = bad_number(random, sheet.date.2, 31),
            4 => sheet.hour = Some(bad_number(random, sheet.hour.unwrap_or(0), 23)),
            5 => sheet.minute = Some(bad_number(random, sheet.minute.unwrap_or(0), 59)),
            6 => sheet.second = Some(bad_number(random, sheet.second.unwrap_or(0), 60)),
            _ => {
                let far = bad_number(random, sheet.offset.unwrap_or(0).unsigned_abs(), 1439) as i32;
                sheet.offset = Some(if random.chance(50) { far } else { far.wrapping_neg() });
            }
        }
    }
    sheet
}

/// A sheet as its words: what is unsaid is 0.
fn words_of(sheet: &Sheet) -> [u32; SHEET_WORDS] {
    let said = |number: Option<u32>| number.map_or([0, 0], |n| [1, n]);
    let (year, month, day) = sheet.date;
    let ([hour_said, hour], [minute_said, minute], [second_said, second]) = (said(sheet.hour), said(sheet.minute), said(sheet.second));
    let [offset_said, offset] = said(sheet.offset.map(|minutes| minutes as u32));
    [year, month, day, hour_said, hour, minute_said, minute, second_said, second, offset_said, offset]
}

/// The same as others may give it: any number but 0 for what is said, and anything for what is not.
fn any_words_of(random: &mut Random, sheet: &Sheet) -> [u32; SHEET_WORDS] {
    let mut words = words_of(sheet);
    for flag in [3, 5, 7, 9] {
        if words[flag] == 0 {
            words[flag + 1] = random.next() as u32 >> random.below(32);
        } else {
            words[flag] = *random.pick(&[1, 1, 1, 2, 256, 1 << 16, 1 << 31, u32::MAX]);
        }
    }
    words
}

fn compare_pack(random: &mut Random, tally: &mut Tally, sheet: &Sheet) {
    let (answer, word) = match pack(sheet) {
        Ok(word) => ((0, 0), word),
        Err(refusal) => ((refusal.number, refusal.place), 0),
    };
    let words = any_words_of(random, sheet);
    let mut lent = Lent::new(random, 1, |n| n);
    let found = library::pack(&words, lent.slice());
    tally.count("pack", answer.0, "");
    if found != answer || !lent.is(&[word]) {
        tally.differs("larusqem_pack_words", &(words, found, lent.slice(), answer, word));
    }
}

fn compare_unpack(random: &mut Random, tally: &mut Tally, word: u64) {
    let (is_packing, words, which) = match unpack(word) {
        Some(sheet) => (1, words_of(&sheet), "a packing"),
        None => (0, [0; SHEET_WORDS], "none"),
    };
    let mut lent = Lent::new(random, SHEET_WORDS, |n| n as u32);
    let found = library::unpack(word, lent.slice());
    tally.count("unpack", 0, which);
    if found != is_packing || !lent.is(&words) {
        tally.differs("larusqem_unpack_words", &(word, found, lent.slice(), is_packing, words));
    }
}

fn compare_week(random: &mut Random, tally: &mut Tally, word: u64) {
    let Week { year, week, sheets } = Week::of_word(word);
    let mut lent = Lent::new(random, 3, |n| n);
    library::week(word, lent.slice());
    tally.count("week", 0, "");
    if !lent.is(&[year, week, sheets]) {
        tally.differs("larusqem_week_words", &(word, lent.slice(), year, week, sheets));
    }
}

/// Sheets good and bad, and their words with bits changed.
fn compare_packing(random: &mut Random, cal: &Calendar, tally: &mut Tally) {
    let day = if random.chance(50) { random.below(DAYS) } else { facts::day(random, cal) };
    let sheet = sheet_of(random, cal, day);
    compare_pack(random, tally, &sheet);
    let bad = spoilt(random, sheet);
    compare_pack(random, tally, &bad);
    let word = pack(&sheet).unwrap();
    let any = random.next() >> random.below(64);
    let (bit, other) = (1 << random.below(64), 1 << random.below(64));
    for word in [word, word ^ bit, word ^ bit ^ other, any] {
        compare_unpack(random, tally, word);
    }
    compare_week(random, tally, any);
}

/// A list as it is lent to the library.
struct LentList {
    words: Lent<u64>,
    weeks: Lent<u64>,
    counts: Lent<u32>,
}

impl LentList {
    fn new(random: &mut Random, list: &List) -> LentList {
        LentList {
            words: Lent::of(random, &list.words, |n| n),
            weeks: Lent::of(random, &list.weeks, |n| n),
            counts: Lent::of(random, &list.counts, |n| n as u32),
        }
    }

    /// Whether it is now this, all of it, and the guards are as they came.
    fn is(&self, list: &List) -> bool {
        self.words.is(&list.words) && self.weeks.is(&list.weeks) && self.counts.is(&list.counts)
    }

    fn now(&mut self) -> List {
        let counts = self.counts.slice();
        List { counts: [counts[0], counts[1]], words: self.words.slice().to_vec(), weeks: self.weeks.slice().to_vec() }
    }
}

/// The counts and lengths of a list, and where its arrays are long only how they begin.
fn shown(list: &List) -> String {
    let front = |words: &[u64]| format!("{:?}", &words[..words.len().min(12)]);
    let lengths = [list.words.len(), list.weeks.len()];
    format!("counts {:?} lengths {lengths:?} words {} weeks {}", list.counts, front(&list.words), front(&list.weeks))
}

fn compare_judged(random: &mut Random, tally: &mut Tally, list: &List, which: &'static str, number: u32) {
    let mut lent = LentList::new(random, list);
    let found = library::list(lent.words.slice(), lent.weeks.slice(), lent.counts.slice());
    tally.count("list", number, which);
    if found != number || !lent.is(list) {
        tally.differs("larusqem_list_words", &(shown(list), found, number, shown(&lent.now())));
    }
}

fn compare_list(random: &mut Random, cal: &Calendar, tally: &mut Tally, list: &List, which: &'static str) {
    let number = list.judge(cal).err().map_or(0, |refusal| refusal.number);
    compare_judged(random, tally, list, which, number);
}

/// Adds sheets in one call. Some words that are no sheet may stand behind them.
fn compare_add(random: &mut Random, cal: &Calendar, tally: &mut Tally, list: &List, sheets: &[Sheet], which: &'static str) {
    let mut expected = list.clone();
    let added = expected.add_many(cal, sheets);
    let (number, place) = added.refusal.map_or((0, 0), |refusal| (refusal.number, refusal.place));
    let mut words: Vec<u32> = sheets.iter().flat_map(|sheet| any_words_of(random, sheet)).collect();
    words.extend((0..random.below(SHEET_WORDS)).map(|_| random.next() as u32));
    let mut lent = LentList::new(random, list);
    let mut answer = Lent::new(random, 3, |n| n as u32);
    library::add(&words, lent.words.slice(), lent.weeks.slice(), lent.counts.slice(), answer.slice());
    tally.count(if sheets.len() == 1 { "add" } else { "add many" }, number, which);
    if !answer.is(&[number, place, added.index]) || !lent.is(&expected) {
        let front = &sheets[..sheets.len().min(4)];
        let found = (answer.slice().to_vec(), shown(&lent.now()));
        tally.differs("larusqem_add_words", &(shown(list), front, sheets.len(), found, added, shown(&expected)));
    }
}

/// A list of these words, in an array with room for some more. What stands past the counts is anything.
fn list_of(random: &mut Random, cal: &Calendar, mut words: Vec<u64>, more: usize) -> List {
    words.sort_unstable();
    let mut weeks = table(cal, &words);
    let counts = [words.len() as u32, weeks.len() as u32];
    let last = words.last().copied().unwrap_or(0);
    let same = *random.pick(&[None, None, None, Some(0), Some(1), Some(last), Some(u64::MAX)]);
    let (all_words, all_weeks) = (words.len() + more, weeks.len().max(WEEKS));
    words.resize_with(all_words, || same.unwrap_or_else(|| random.next()));
    weeks.resize_with(all_weeks, || same.unwrap_or_else(|| random.next()));
    List { words, weeks, counts }
}

/// So many words of a span, some of them equal.
fn words_in(random: &mut Random, cal: &Calendar, span: Span, count: usize) -> Vec<u64> {
    let mut words: Vec<u64> = Vec::new();
    for _ in 0..count {
        let again = words.last().copied().filter(|_| random.chance(15));
        let day = span.day(random);
        words.push(again.unwrap_or_else(|| pack(&sheet_of(random, cal, day)).unwrap()));
    }
    words
}

/// A sheet to add: of the span, of a day near one that is held, one that is held, or a bad one.
fn another(random: &mut Random, cal: &Calendar, span: Span, held: &[u64]) -> Sheet {
    let day = span.day(random);
    let sheet = sheet_of(random, cal, day);
    let near = if held.is_empty() { None } else { unpack(*random.pick(held)) };
    match (random.below(10), near) {
        (0, _) => spoilt(random, sheet),
        (1, Some(near)) => near,
        (2..=5, Some(near)) => {
            let (year, month, day) = near.date;
            let near = (cal.place(year, month, day) + random.below(17)).saturating_sub(8);
            sheet_of(random, cal, near.min(DAYS - 1))
        }
        _ => sheet,
    }
}

fn others(random: &mut Random, cal: &Calendar, span: Span, list: &List, count: usize) -> Vec<Sheet> {
    let held = list.words[..list.words.len().min(list.counts[0] as usize)].to_vec();
    (0..count).map(|_| another(random, cal, span, &held)).collect()
}

/// A count for an array of this length: one more or less, at its end, past it, or any.
fn another_count(random: &mut Random, count: u32, length: usize) -> u32 {
    let any = random.next() as u32;
    let end = length as u32;
    *random.pick(&[count + 1, count.wrapping_sub(1), 0, end, end + 1, 65_536, 65_537, 1 << 31, u32::MAX, any])
}

/// Changes one thing, so that mostly the list is no longer sound.
fn damage(random: &mut Random, cal: &Calendar, span: Span, list: &mut List) {
    let (held, weeks) = (list.counts[0] as usize, list.counts[1] as usize);
    let bit = 1 << random.below(64);
    match random.below(16) {
        0..=2 if held > 0 => list.words[random.below(held)] ^= bit,
        3 if held > 0 => {
            let day = span.day(random);
            list.words[random.below(held)] = pack(&sheet_of(random, cal, day)).unwrap();
        }
        4 if held > 1 => {
            let at = random.below(held - 1);
            list.words.swap(at, at + 1);
        }
        5 if held > 1 => {
            let (one, other) = (random.below(held), random.below(held));
            list.words.swap(one, other);
        }
        6 => list.counts[0] = another_count(random, list.counts[0], list.words.len()),
        7 => list.counts[1] = another_count(random, list.counts[1], list.weeks.len()),
        8 => {
            let length = *random.pick(&[0, 1, weeks, weeks.saturating_sub(1), 1023, 1025, 2048]);
            list.weeks.resize(length, 0);
        }
        9 | 10 if weeks > 0 => list.weeks[random.below(weeks)] ^= bit,
        11 if weeks > 0 => {
            let at = random.below(weeks);
            list.weeks[at] = list.weeks[at].wrapping_add(*random.pick(&[1, u64::MAX, 1 << 44, 1 << 50, 0u64.wrapping_sub(1 << 44)]));
        }
        12 if weeks > 1 => {
            let at = random.below(weeks - 1);
            if random.chance(50) {
                list.weeks.swap(at, at + 1);
            } else {
                // a sheet counted in the other week
                list.weeks[at] += 1;
                list.weeks[at + 1] -= 1;
            }
        }
        // a week less, a week twice, or one without sheets: the count as it was, or changed with it
        13 if weeks > 0 => {
            let at = random.below(weeks);
            list.weeks.copy_within(at + 1..weeks, at);
            list.counts[1] -= random.below(2) as u32;
        }
        14 if weeks > 0 && weeks < list.weeks.len() => {
            let at = random.below(weeks + 1);
            let week = list.weeks[at.min(weeks - 1)];
            list.weeks.copy_within(at..weeks, at + 1);
            list.weeks[at] = if random.chance(50) { week } else { week >> 44 << 44 };
            list.counts[1] += 1;
        }
        _ => {
            if let Some(word) = list.words.first_mut() {
                *word = *random.pick(&[0, 1, word.wrapping_add(1), u64::MAX, bit]);
            }
        }
    }
}

/// A list judged, a sheet added, and some.
fn compare_calls(random: &mut Random, cal: &Calendar, tally: &mut Tally, span: Span, list: &List, which: &'static str) {
    compare_list(random, cal, tally, list, which);
    let one = others(random, cal, span, list, 1);
    compare_add(random, cal, tally, list, &one, which);
    let count = *random.pick(&[0, 2, 2, 3, 4, 6, 9]);
    let many = others(random, cal, span, list, count);
    compare_add(random, cal, tally, list, &many, which);
}

/// Few sheets: as they should be, and damaged.
fn compare_small(random: &mut Random, cal: &Calendar, tally: &mut Tally) {
    let span = Span::new(random, cal, DAYS);
    let count = *random.pick(&[0, 1, 2, 3, 5, 8, 13, 40]);
    let more = *random.pick(&[0, 1, 1, 2, 3, 10]);
    let words = words_in(random, cal, span, count);
    let mut list = list_of(random, cal, words, more);
    compare_calls(random, cal, tally, span, &list, if more == 0 { FULL } else { SOUND });
    damage(random, cal, span, &mut list);
    compare_calls(random, cal, tally, span, &list, DAMAGED);
}

/// Each bit of each word and of each week of a small list.
fn compare_bits(random: &mut Random, cal: &Calendar, tally: &mut Tally) {
    let span = Span::new(random, cal, DAYS);
    let words = words_in(random, cal, span, 3);
    let list = list_of(random, cal, words, 2);
    let places = (0..3).map(|at| (at, true)).chain((0..list.counts[1] as usize).map(|at| (at, false)));
    for (at, in_list) in places {
        for bit in 0..64 {
            let mut damaged = list.clone();
            let words = if in_list { &mut damaged.words } else { &mut damaged.weeks };
            words[at] ^= 1 << bit;
            compare_list(random, cal, tally, &damaged, DAMAGED);
            let sheets = others(random, cal, span, &damaged, 1);
            compare_add(random, cal, tally, &damaged, &sheets, DAMAGED);
        }
    }
}

/// As many weeks as a table has, or nearly, or one more than it can have, next to each other or far apart; a sheet or more in each.
fn compare_full_table(random: &mut Random, cal: &Calendar, tally: &mut Tally) {
    let count = *random.pick(&[WEEKS - 1, WEEKS, WEEKS, WEEKS, WEEKS, WEEKS + 1]);
    let step = *random.pick(&[1, 1, 2, 3, 50, ALL_WEEKS / WEEKS]);
    let first = random.below(ALL_WEEKS - (count - 1) * step);
    let span = Span { first: 7 * first, days: 7 * (count - 1) * step + 7 };
    let mut words = Vec::new();
    for i in 0..count + random.below(30) {
        let week = first + step * if i < count { i } else { random.below(count) };
        let day = 7 * week + random.below(7);
        words.push(pack(&sheet_of(random, cal, day)).unwrap());
    }
    let more = random.below(12);
    let mut list = list_of(random, cal, words, more);
    if count > WEEKS {
        // a table of that length, one that is cut, and a count past its end
        list.weeks.truncate(*random.pick(&[count, WEEKS, WEEKS]));
        list.counts[1] = *random.pick(&[count as u32, WEEKS as u32]);
    } else {
        compare_calls(random, cal, tally, span, &list, FULL_TABLE);
        damage(random, cal, span, &mut list);
    }
    compare_calls(random, cal, tally, span, &list, DAMAGED);
}

/// A long list, of at most 1,024 weeks: full or nearly, damaged, in an array that is too long; and many sheets in random order.
fn compare_large(random: &mut Random, cal: &Calendar, tally: &mut Tally) {
    let span = Span::new(random, cal, 7 * (WEEKS - 1));
    let more = *random.pick(&[0, 1, 2, 5]);
    let words = words_in(random, cal, span, LONGEST - more);
    let mut list = list_of(random, cal, words, more);
    compare_calls(random, cal, tally, span, &list, LARGE);
    let mut long = list.clone();
    long.words.resize(LONGEST + 1, u64::MAX);
    compare_calls(random, cal, tally, span, &long, OVER);
    damage(random, cal, span, &mut list);
    compare_calls(random, cal, tally, span, &list, DAMAGED);

    let count = random.below(3000);
    let words = words_in(random, cal, span, count);
    let more = random.below(4000);
    let list = list_of(random, cal, words, more);
    let mut sheets: Vec<Sheet> = words_in(random, cal, span, 4000).into_iter().map(|word| unpack(word).unwrap()).collect();
    compare_add(random, cal, tally, &list, &sheets, LARGE);
    let at = random.below(sheets.len());
    sheets[at] = spoilt(random, sheets[at]);
    compare_add(random, cal, tally, &list, &sheets, LARGE);
}

/// Every day of the calendar: packed and unpacked, and in a list of 1,024 weeks, which is not sound where a sheet is counted a week later.
fn compare_days(random: &mut Random, cal: &Calendar, tally: &mut Tally) {
    for day in 0..DAYS {
        let sheet = sheet_of(random, cal, day);
        let word = pack(&sheet).unwrap();
        let (mut packed, mut words) = ([0], [0; SHEET_WORDS]);
        let found = (library::pack(&words_of(&sheet), &mut packed), library::unpack(word, &mut words));
        if (found, packed, words) != (((0, 0), 1), [word], words_of(&sheet)) {
            tally.differs("larusqem_pack_words, larusqem_unpack_words", &(sheet, found, packed, words, word));
        }
    }
    for function in [("pack", 0, ""), ("unpack", 0, "a packing")] {
        *tally.counts.entry(function).or_insert(0) += DAYS as u64;
    }
    for first in (0..DAYS).step_by(7 * WEEKS) {
        let words = (first..DAYS.min(first + 7 * WEEKS)).map(|day| pack(&sheet_of(random, cal, day)).unwrap()).collect();
        let mut list = list_of(random, cal, words, 0);
        compare_judged(random, tally, &list, LARGE, 0);
        let at = random.below(list.counts[1] as usize - 1);
        list.weeks[at] -= 1;
        list.weeks[at + 1] += 1;
        compare_judged(random, tally, &list, DAMAGED, 15);
    }
}

/// The calls on sheets so far.
fn calls(tally: &Tally) -> u64 {
    let functions = ["pack", "unpack", "week", "list", "add", "add many"];
    tally.counts.iter().filter(|((function, _, _), _)| functions.contains(function)).map(|(_, n)| n).sum()
}

/// Random sheets and lists, small ones mostly: some hundreds of calls.
pub fn compare_some(random: &mut Random, cal: &Calendar, tally: &mut Tally) {
    for _ in 0..80 {
        compare_packing(random, cal, tally);
        compare_small(random, cal, tally);
    }
    compare_full_table(random, cal, tally);
    if random.chance(2) {
        compare_large(random, cal, tally);
    }
}

/// The longest array filled by one call, in order, and some sheets more than it has room for; and thousands in any order.
fn compare_filled(random: &mut Random, cal: &Calendar, tally: &mut Tally) {
    let span = Span { first: facts::day(random, cal), days: 7 * (WEEKS - 1) };
    for (room, count, sorted) in [(LONGEST, LONGEST + 3, true), (LONGEST, LONGEST, true), (20_000, 20_000, false)] {
        let mut words = words_in(random, cal, span, count);
        if sorted {
            words.sort_unstable();
        }
        let sheets: Vec<Sheet> = words.into_iter().map(|word| unpack(word).unwrap()).collect();
        compare_add(random, cal, tally, &List::new(room), &sheets, LARGE);
    }
}

/// Every day, every bit, and random lists of each sort. Returns how many calls there were.
pub fn compare(random: &mut Random, cal: &Calendar, tally: &mut Tally) -> u64 {
    compare_days(random, cal, tally);
    compare_filled(random, cal, tally);
    for _ in 0..10 {
        compare_bits(random, cal, tally);
    }
    for _ in 0..100 {
        compare_some(random, cal, tally);
    }
    for _ in 0..4 {
        compare_large(random, cal, tally);
    }
    calls(tally)
}
