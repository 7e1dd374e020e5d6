//! Sets of date facts: of every set of kinds, agreeing with a day and quarrelling, most of them without a year.
use crate::library::By;
use crate::readings::{self, Engines, Judged, READ, STRPTIME};
use crate::Tally;
use compare::elements::Opened;
use compare::random::Random;
use compare::rules::{self, numeric, Calendar, Day, Facts, Use, DAYS};

/// The conversion that says each kind from 1 to 12.
pub const LETTERS: &[u8; 12] = b"YCymdjuUWGgV";

/// How far another day may lie for a fact to quarrel by little: days, weeks, a month, years, and the days of 400 years.
const APART: [i64; 12] = [-1, 1, -7, 7, 30, -31, 365, -365, 366, -366, 146_097, -146_097];

/// Readings of which one day or none agrees, so that the plain engine goes through the whole calendar.
const WHOLE: [(&str, &str); 9] = [
    ("%d %b %Y", "5 Mar 1934"),
    ("%d %m", "30 2"),
    ("%C %y", "00 00"),
    ("%G %V %u", "2016 53 7"),
    ("%G %j", "9999 366"),
    ("%U %W", "10 12"),
    ("%V %m", "53 3"),
    ("%F", "9999-12-31"),
    ("%F %p %H", "2000-02-29 AM 13"),
];

/// A day: any, or one at the turn of a year, also of years 1, 9999, the first and the last of a century, or a leap day.
pub fn day(random: &mut Random, cal: &Calendar) -> usize {
    let year = match random.below(6) {
        0 => random.from(1, 9999),
        1 => random.from(1, 2),
        2 => random.from(9998, 9999),
        3 => 100 * random.from(1, 99),
        4 => 100 * random.from(1, 99) + 99,
        _ => *random.pick(&[400, 800, 2000, 9600, 2009, 2010, 2015, 2016, 2020, 2021]),
    };
    let first = cal.place(year, 1, 1);
    match random.below(4) {
        0 => random.below(DAYS),
        1 => first + random.below(4),
        2 => (first + 361 + random.below(5)).min(DAYS - 1),
        _ => first + 58 + random.below(3),
    }
}

/// A number that a kind can have.
pub fn number(random: &mut Random, kind: usize) -> u32 {
    let (_, _, least, greatest) = numeric(LETTERS[kind - 1]).unwrap();
    random.from(least, greatest)
}

/// Facts of some kinds, by a day; so many of them are another day's, near or far, or have any number.
fn facts(random: &mut Random, cal: &Calendar, kinds: &[usize], quarrels: usize) -> Facts {
    let i = day(random, cal);
    let mut facts: Facts = [None; 18];
    for kind in kinds {
        facts[*kind] = Some(cal.days[i].value(*kind));
    }
    for kind in random.sample(kinds, quarrels.min(kinds.len())) {
        let near = (i as i64 + random.pick(&APART)).clamp(0, DAYS as i64 - 1) as usize;
        let of = |d: &Day| d.value(kind);
        facts[kind] = Some(match random.below(4) {
            0 => number(random, kind),
            1 => of(&cal.days[day(random, cal)]),
            _ => of(&cal.days[near]),
        });
    }
    facts
}

/// The kinds of a set that is drawn: few of them in most cases.
pub fn drawn(random: &mut Random) -> Vec<usize> {
    let all: Vec<usize> = (1..=12).collect();
    let count = *random.pick(&[1, 2, 2, 3, 3, 3, 4, 4, 5, 7]);
    random.sample(&all, count)
}

/// A set of these kinds, said in any order, to both readers.
pub fn compare_set(random: &mut Random, cal: &Calendar, tally: &mut Tally, kinds: &[usize]) {
    let quarrels = *random.pick(&[0, 0, 1, 1, 2]);
    let facts = facts(random, cal, kinds, quarrels);
    let (mut format, mut text) = (String::new(), String::new());
    for kind in random.sample(kinds, kinds.len()) {
        format += &format!("%{} ", LETTERS[kind - 1] as char);
        text += &format!("{} ", facts[kind].unwrap());
    }
    compare_both(random, cal, tally, &format, text.as_bytes(), Engines::Drawn);
}

/// Both readers on a text: by the format, and by what it opens to.
pub fn compare_both(random: &mut Random, cal: &Calendar, tally: &mut Tally, format: &str, text: &[u8], how_many: Engines) {
    let judged = Judged::new(cal, rules::matched(cal, format.as_bytes(), text));
    compare_judged(random, tally, format, text, how_many, &judged);
}

/// The same, where it is known what the text comes to.
pub fn compare_judged(random: &mut Random, tally: &mut Tally, format: &str, text: &[u8], how_many: Engines, judged: &Judged) {
    let elements = Opened::new(format.as_bytes(), Use::Reading).elements;
    readings::compare(random, tally, &READ, how_many, By::Elements(&elements), text, judged);
    readings::compare(random, tally, &STRPTIME, how_many, By::Format(format.as_bytes()), text, judged);
}

/// Every set of kinds 1 to 12, some times over, and the whole searches. Returns how many sets of facts there were.
pub fn compare(random: &mut Random, cal: &Calendar, tally: &mut Tally) -> usize {
    let mut count = 0;
    for set in 1..1usize << 12 {
        let kinds: Vec<usize> = (1..=12).filter(|kind| set >> (kind - 1) & 1 == 1).collect();
        for _ in 0..8 {
            compare_set(random, cal, tally, &kinds);
            count += 1;
        }
    }
    for (format, text) in WHOLE {
        compare_both(random, cal, tally, format, text.as_bytes(), Engines::All);
        count += 1;
    }
    count
}

/// The search of `rules.rs` that is fast against the one that asks every day.
pub fn check_search(random: &mut Random, cal: &Calendar, tally: &mut Tally) {
    for _ in 0..150 {
        let kinds = drawn(random);
        let quarrels = random.below(2);
        let facts = facts(random, cal, &kinds, quarrels);
        let slowly = cal.search_slowly(&facts);
        if cal.search(&facts) != slowly || cal.any_agrees(&facts) == slowly.days.is_empty() {
            tally.differs("rules.rs, the fast search", &facts);
        }
    }
}
