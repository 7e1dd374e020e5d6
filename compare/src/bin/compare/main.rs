//! Compares the proved library with an independent implementation of the rules (`rules.rs`) on random cases, on every flag and width, on
//! every set of kinds of facts, on every beginning of a name, on kinds that quarrel and on every offset, its readings by every engine and
//! with reasons, its writer with the C library's strftime on every day of the years 1000 to 9999, on flags and widths and on every offset,
//! and with timegm on every day, and its white space with isspace on every byte; and its lists of sheets with another (`sheets.rs`), as
//! they should be, damaged and full.
//! Usage: compare SECONDS [SEED]
mod c_columns;
mod c_days;
mod c_spaces;
mod cases;
mod columns;
mod facts;
mod library;
mod names;
mod quarrels;
mod readings;
mod sheets;
mod speed;
mod writings;
mod zones;

use compare::elements::{self, Opened};
use compare::random::Random;
use compare::rules::{self, Calendar, Item, Moment, Reading, Reason, Use};
use compare::{c_offsets, c_seconds, c_writings};
use library::{By, Lent};
use readings::{form_number, Engines, Judged, READ, STRANGE, STRPTIME};
use std::collections::BTreeMap;
use std::ops::{AddAssign, Sub};
use std::time::{Duration, Instant};
use writings::Name;

/// What tells the writings by a format with flags and widths apart.
const COLUMNS: &str = "flags and widths";

/// How many writings and readings there were.
#[derive(Clone, Copy, Default)]
struct Calls {
    writings: u64,
    readings: u64,
}

impl Sub for Calls {
    type Output = Calls;

    fn sub(self, before: Calls) -> Calls {
        Calls { writings: self.writings - before.writings, readings: self.readings - before.readings }
    }
}

impl AddAssign for Calls {
    fn add_assign(&mut self, more: Calls) {
        self.writings += more.writings;
        self.readings += more.readings;
    }
}

/// How often each outcome came: a function, a number, and what tells its cases apart; all writings and readings, and those with a %z or a
/// %s; each form of weekday and month names, or none; and each sort of reason, or none, with how many kinds it names.
#[derive(Default)]
pub struct Tally {
    counts: BTreeMap<(&'static str, u32, &'static str), u64>,
    calls: Calls,
    zoned: Calls,
    forms: [[u64; 4]; 2],
    reasons: BTreeMap<(&'static str, usize), u64>,
    differences: u64,
}

impl Tally {
    fn count(&mut self, function: &'static str, number: u32, which: &'static str) {
        *self.counts.entry((function, number, which)).or_insert(0) += 1;
    }

    fn count_writing(&mut self, function: &'static str, number: u32, which: &'static str) {
        self.calls.writings += 1;
        self.count(function, number, which);
    }

    /// Counts what was called since then among what is by a %z or a %s, if the items have one.
    fn count_zoned(&mut self, before: Calls, items: &[Item]) {
        if items.iter().any(|item| matches!(item, Item::Conversion(c) if b"zs".contains(&c.letter))) {
            self.zoned += self.calls - before;
        }
    }

    fn count_reading(&mut self, function: &'static str, r: &Reading) {
        self.calls.readings += 1;
        let which = match (r.number, r.place) {
            (0, _) if r.day.is_some() => "with a day",
            (0, _) => "with no day",
            (9 | 10, 1) => "place 1",
            (9 | 10, _) => "place 2",
            _ => "",
        };
        self.count(function, r.number, which);
        for (counts, form) in self.forms.iter_mut().zip([r.forms.weekday, r.forms.month]) {
            counts[form_number(form)] += 1;
        }
    }

    fn count_reason(&mut self, reason: Option<&Reason>) {
        let sort = match reason {
            Some(Reason::Quarrel(named)) if named[0].0 <= 12 => ("quarrel on the day", named.len()),
            Some(Reason::Quarrel(named)) => ("quarrel on the hour", named.len()),
            Some(Reason::Differ(part)) => (part.name(), 0),
            Some(Reason::Hours(_)) => ("hours", 0),
            None => ("none", 0),
        };
        *self.reasons.entry(sort).or_insert(0) += 1;
    }

    fn differs(&mut self, function: &str, case: &dyn std::fmt::Debug) {
        self.differences += 1;
        if self.differences <= 20 {
            // a list of entries can be long
            println!("DIFFERENCE in {function}: {}", format!("{case:?}").chars().take(2000).collect::<String>());
        }
    }
}

/// Both readers on a text: by the format, and by the elements that it opens to for writing, which without flags, widths and %s are those
/// for reading.
fn compare_reading(random: &mut Random, cal: &Calendar, tally: &mut Tally, format: &[u8], opened: &Opened) {
    let text = cases::text(random, cal, &opened.items);
    let judged = Judged::new(cal, rules::matched(cal, format, &text));
    if opened.whole {
        readings::compare(random, tally, &READ, Engines::Drawn, By::Elements(&opened.elements), &text, &judged);
    }
    readings::compare(random, tally, &STRPTIME, Engines::Drawn, By::Format(format), &text, &judged);
}

fn compare_opening(random: &mut Random, tally: &mut Tally, format: &[u8], opened: &Opened, side: Use) {
    let (for_writing, which) = match side {
        Use::Reading => (0, "to read"),
        Use::Writing => (*random.pick(&[1, 2, 256, 1 << 16, 1 << 31, u32::MAX]), "to write"),
    };
    let all = &opened.elements;
    let room = if random.chance(10) { random.below(all.len() + 1) } else { all.len() + random.below(3) };
    let mut lent = Lent::new(random, room, |n| n as u32);
    let found = library::open(format, for_writing, lent.slice());
    let (expected, stored) = match opened.bad {
        _ if format.len() > 1024 => ((1, 0), 0),
        Some(at) => ((3, at as u32), all.len().min(room)),
        None if all.len() > room => ((4, all.len() as u32), room),
        None => ((0, all.len() as u32), all.len()),
    };
    tally.count("open", expected.0, which);
    if found != expected || !lent.is(&all[..stored]) {
        tally.differs("larusqem_open_words", &(format, for_writing, room, found, expected));
    }
}

/// One format: opened for both uses, written for some moments, read on some texts.
fn compare_format(
    random: &mut Random,
    cal: &Calendar,
    tally: &mut Tally,
    format: &[u8],
    which: &'static str,
    writings: u32,
    readings: u32,
) {
    let before = tally.calls;
    let opened = Opened::new(format, Use::Writing);
    compare_opening(random, tally, format, &opened, Use::Writing);
    compare_opening(random, tally, format, &Opened::new(format, Use::Reading), Use::Reading);
    for _ in 0..writings {
        let m = cases::written_moment(random);
        writings::by_format(random, cal, tally, format, &m, which);
        if opened.whole {
            writings::by_elements(random, cal, tally, &opened.elements, &m, Name { function: "write", which });
        }
    }
    for _ in 0..readings {
        compare_reading(random, cal, tally, format, &opened);
    }
    tally.count_zoned(before, &opened.items);
}

/// A format, and the same with flags and widths, which no reading takes.
fn compare_formats(random: &mut Random, cal: &Calendar, tally: &mut Tally) {
    let plain = cases::format(random);
    compare_format(random, cal, tally, &plain, "", 2, 4);
    let columned = cases::with_columns(random, &plain);
    if columned != plain {
        compare_format(random, cal, tally, &columned, COLUMNS, 8, 1);
    }
}

/// Entries that no format opens to, among those of a format: bytes and conversions in other places, what no opening makes, and as many as
/// there can be or more. The text is one that the entries before the first bad one can read.
fn compare_strange(random: &mut Random, cal: &Calendar, tally: &mut Tally) {
    let plain = cases::format(random);
    let format = if random.chance(25) { cases::with_columns(random, &plain) } else { plain };
    let mut entries = Opened::new(&format, Use::Writing).elements;
    for _ in 0..random.below(4) {
        let at = random.below(entries.len() + 1);
        match entries.get_mut(at) {
            Some(entry) if random.chance(20) => *entry ^= 1 << random.below(32),
            _ => entries.insert(at, cases::entry(random)),
        }
    }
    if random.chance(5) {
        let fill = if random.chance(50) { b' ' as u32 } else { cases::entry(random) };
        entries.resize(elements::MOST - 6 + random.below(20), fill);
        if let (Some(entry), true) = (entries.get_mut(elements::MOST), random.chance(50)) {
            *entry = cases::entry(random);
        }
    }
    let before = tally.calls;
    let m = cases::written_moment(random);
    writings::by_elements(random, cal, tally, &entries, &m, Name { function: "write, strange", which: "" });

    let opened = elements::items(&entries, Use::Reading);
    let good = match elements::items(&entries, Use::Writing) {
        Ok(items) => items,
        Err(at) => elements::items(&entries[..at], Use::Writing).unwrap(),
    };
    let mut text = cases::text(random, cal, &good);
    if random.chance(50) {
        text.truncate(1024 - random.below(4));
    }
    let judged = Judged::new(cal, rules::matched_opened(cal, &opened, &text));
    readings::compare(random, tally, &STRANGE, Engines::Drawn, By::Elements(&entries), &text, &judged);
    tally.count_zoned(before, &good);
}

/// Every day of the calendar, and numbers and fields that are none.
fn compare_days(random: &mut Random, cal: &Calendar, tally: &mut Tally) {
    if library::days() as usize != cal.days.len() {
        tally.differs("larusqem_days", &library::days());
    }
    for (i, d) in cal.days.iter().enumerate() {
        let (year, month, day) = d.date();
        let number = i as u32 + 1;
        let expected = [number, d.value(7), d.value(6), d.value(10), d.value(12)];
        let found = library::of_date(year, month, day);
        if found != expected {
            tally.differs("the functions of a date", &(year, month, day, found, expected));
        }
        if library::date_word(number) != year << 16 | month << 8 | day {
            tally.differs("larusqem_date_word", &(number, library::date_word(number)));
        }
    }
    *tally.counts.entry(("days", 0, "")).or_insert(0) += cal.days.len() as u64;
    let mut no_date = |year: u32, month: u32, day: u32| {
        if rules::bad_field(&Moment::new([year, month, day, 0, 0, 0])).is_some() {
            let found = library::of_date(year, month, day);
            tally.count("no date", 0, "");
            if found != [0; 5] {
                tally.differs("the functions of a date that is none", &(year, month, day, found));
            }
        }
    };
    for year in 0..=10_000 {
        for month in 0..=13 {
            (0..=32).for_each(|day| no_date(year, month, day));
        }
    }
    for _ in 0..200_000 {
        let mut date = cases::written_moment(random).fields;
        date[random.below(3)] = random.next() as u32;
        no_date(date[0], date[1], date[2]);
    }
    for _ in 0..200_000 {
        let any = (random.next() as u32).max(3_652_060);
        let number = *random.pick(&[0, 3_652_060, u32::MAX, any]);
        if library::date_word(number) != 0 {
            tally.differs("larusqem_date_word", &number);
        }
    }
}

fn main() {
    let arguments: Result<Vec<u64>, _> = std::env::args().skip(1).map(|a| a.parse()).collect();
    let (seconds, seed) = match arguments.as_deref() {
        Ok([seconds]) => (*seconds, 19_340_305),
        Ok([seconds, seed]) => (*seconds, *seed),
        _ => {
            eprintln!("usage: compare SECONDS [SEED]");
            std::process::exit(2)
        }
    };
    let mut random = Random(seed);
    let mut tally = Tally::default();
    println!("seed {seed}, {seconds} s of random cases");

    let began = Instant::now();
    let cal = Calendar::new();
    facts::check_search(&mut random, &cal, &mut tally);
    compare_days(&mut random, &cal, &mut tally);
    println!("{:6.1} s  the calendar, day by day", began.elapsed().as_secs_f64());

    let days = c_days::compare(&mut random, &cal, |case| tally.differs("larusqem_strftime_words against the C library", case));
    println!(
        "{:6.1} s  the C library's strftime: {days} days of the years 1000 to 9999, every conversion but %s",
        began.elapsed().as_secs_f64()
    );

    let writer = |format: &[u8], m: &Moment, out: &mut [u8]| library::strftime(format, &library::moment_words(m), out);
    let zones = c_offsets::writings(&mut random, &cal);
    let offsets = c_writings::compare(zones, writer, |case| tally.differs("%z against the C library", case));
    println!("{:6.1} s  the C library's strftime: {offsets} writings of all 2879 offsets, and unsaid", began.elapsed().as_secs_f64());

    let instants = c_seconds::writings(&mut random, &cal);
    let moments = c_writings::compare(instants, writer, |case| tally.differs("%s against the C library", case));
    println!("{:6.1} s  the C library's timegm: {moments} writings of %s, on every day of the calendar", began.elapsed().as_secs_f64());

    c_spaces::compare(|case| tally.differs("white space against the C library", case));
    println!("{:6.1} s  the C library's isspace: 256 bytes, in formats, in texts and before numbers", began.elapsed().as_secs_f64());

    let pairs = c_columns::compare(&mut random, &cal, |case| tally.differs("larusqem_strftime_words against the C library", case));
    println!("{:6.1} s  the C library's strftime: {pairs} writings with flags and widths", began.elapsed().as_secs_f64());

    let formats = columns::compare(&mut random, &cal, |case| tally.differs("flags and widths", case));
    println!(
        "{:6.1} s  every flag and width before every letter: {} formats, {} of them taken",
        began.elapsed().as_secs_f64(),
        formats.all,
        formats.taken
    );

    let sets = facts::compare(&mut random, &cal, &mut tally);
    println!("{:6.1} s  {sets} sets of facts, of every set of kinds, by every engine", began.elapsed().as_secs_f64());

    let texts = names::compare(&mut random, &cal, &mut tally);
    println!("{:6.1} s  {texts} texts of every beginning of every name, before each byte", began.elapsed().as_secs_f64());

    let texts = quarrels::compare(&mut random, &cal, &mut tally);
    println!("{:6.1} s  {texts} texts of kinds that quarrel, each kind's number changed, and of all hours", began.elapsed().as_secs_f64());

    let offsets = zones::compare(&mut random, &cal, &mut tally);
    println!("{:6.1} s  {offsets} texts and writings of offsets: every sign and digits, every offset", began.elapsed().as_secs_f64());

    let calls = sheets::compare(&mut random, &cal, &mut tally);
    println!("{:6.1} s  {calls} calls on sheets and lists of them: every day, sound, damaged and full", began.elapsed().as_secs_f64());

    let cases_began = Instant::now();
    let mut formats = 0u64;
    while cases_began.elapsed() < Duration::from_secs(seconds) {
        for _ in 0..200 {
            compare_formats(&mut random, &cal, &mut tally);
            formats += 1;
        }
        for _ in 0..200 {
            let format = cases::zoned_format(&mut random);
            compare_format(&mut random, &cal, &mut tally, &format, "", 2, 4);
            formats += 1;
        }
        for _ in 0..40 {
            compare_strange(&mut random, &cal, &mut tally);
        }
        for _ in 0..40 {
            let kinds = facts::drawn(&mut random);
            facts::compare_set(&mut random, &cal, &mut tally, &kinds);
        }
        let kind = 1 + random.below(12);
        quarrels::compare_changed(&mut random, &cal, &mut tally, kind, 200);
        sheets::compare_some(&mut random, &cal, &mut tally);
    }
    println!("{:6.1} s  {formats} random formats, and with flags and widths", began.elapsed().as_secs_f64());

    println!("\ncases by function and number:");
    for ((function, number, which), n) in &tally.counts {
        println!("  {function:<17} {number:>2} {which:<16} {n:>10}");
    }
    let total: u64 = tally.counts.values().sum();
    let columned = |number| tally.counts.iter().filter(|((_, n, w), _)| (*n, *w) == (number, COLUMNS)).map(|(_, n)| n).sum::<u64>();
    println!("\nwritings with flags and widths: {} taken, {} refused", columned(0) + columned(4), columned(3));
    let by = |engine: usize, over: bool| {
        let names = [STRPTIME[engine], READ[engine], STRANGE[engine]];
        tally.counts.iter().filter(|((f, n, _), _)| names.contains(f) && (*n == 11) == over).map(|(_, n)| n).sum::<u64>()
    };
    println!("with %z or %s in the format: {} writings and {} readings", tally.zoned.writings, tally.zoned.readings);
    println!(
        "readings: {} by the skipping engine, {} by the plain one, {} within their budget, {} refused by it",
        by(0, false),
        by(1, false),
        by(2, false),
        by(2, true)
    );
    for (what, [_, full, middle, short]) in ["weekday", "month"].iter().zip(tally.forms) {
        println!("readings that gave the form of a {what}: {full} full, {middle} middle, {short} short");
    }
    let reasons = |sort: &str| tally.reasons.iter().filter(|((s, _), _)| *s == sort).map(|(_, n)| n).sum::<u64>();
    println!(
        "readings with a reason: {} by kinds that quarrel on the day, {} on the hour; days that differ in the year {}, in the month {}, in \
         the day {}; hours {}; without one {}",
        reasons("quarrel on the day"),
        reasons("quarrel on the hour"),
        reasons("year"),
        reasons("month"),
        reasons("day"),
        reasons("hours"),
        reasons("none")
    );
    let of_kinds = |count: usize| tally.reasons.get(&("quarrel on the day", count)).unwrap_or(&0);
    println!("kinds that quarrel on the day: two {}, three {}, four {}, five {}", of_kinds(2), of_kinds(3), of_kinds(4), of_kinds(5));
    let calls = |functions: &[&str], refused: bool| {
        tally.counts.iter().filter(|((f, n, _), _)| functions.contains(f) && (*n > 0) == refused).map(|(_, n)| n).sum::<u64>()
    };
    println!(
        "sheets: one added {} times, refused {}; many added {}, refused {}; lists judged: sound {}, refused {}; packed {}, refused {}; \
         words and weeks taken apart {}",
        calls(&["add"], false),
        calls(&["add"], true),
        calls(&["add many"], false),
        calls(&["add many"], true),
        calls(&["list"], false),
        calls(&["list"], true),
        calls(&["pack"], false),
        calls(&["pack"], true),
        calls(&["unpack", "week"], false)
    );
    println!("\nspeed of the library alone, one thread:");
    speed::measure();
    println!("\n{total} cases, {} differences", tally.differences);
    std::process::exit((tally.differences > 0) as i32);
}
