//! Texts that are refused by 9: the numbers of a day, with that of one kind changed, said of every set of kinds, as far as no day agrees
//! with them; and everything that can be said of the hour.
use crate::cases::in_any_case;
use crate::facts::{compare_both, compare_judged, day, number, LETTERS};
use crate::readings::{Engines, Judged};
use crate::Tally;
use compare::random::Random;
use compare::rules::{self, forms_of, numeric, Calendar, Engine, Facts, Reason, HALVES, MONTHS, WEEKDAYS};

/// Once in so many texts all engines read it, the plain one through all days.
const RARELY: usize = 20_000;

/// A fact, as it may be said: what the format has for it, and what the text has.
fn said(random: &mut Random, kind: usize, number: u32) -> (String, Vec<u8>) {
    let letter = LETTERS[kind - 1];
    let name = match kind {
        4 => Some(("bBh", MONTHS[number as usize - 1])),
        7 => Some(("aA", WEEKDAYS[number as usize - 1])),
        _ => None,
    };
    if let (Some((letters, name)), true) = (name, random.chance(50)) {
        let (form, _) = *random.pick(&forms_of(name));
        return (format!("%{}", *random.pick(letters.as_bytes()) as char), in_any_case(random, form));
    }
    let blanks = if random.chance(20) { *random.pick(&[" ", "\t", "\r\n", "\x0b \x0c"]) } else { "" };
    let width = if random.chance(30) { numeric(letter).unwrap().1 } else { 1 };
    let (letter, number) = match kind {
        5 if random.chance(30) => (b'e', number),
        7 if random.chance(50) => (b'w', number % 7),
        _ => (letter, number),
    };
    (format!("%{}", letter as char), format!("{blanks}{number:0width$}").into_bytes())
}

/// Facts of some kinds in any order, a few of them twice.
fn text_of(random: &mut Random, facts: &Facts) -> (String, Vec<u8>) {
    let kinds: Vec<usize> = (1..=12).filter(|kind| facts[*kind].is_some()).collect();
    let mut kinds = random.sample(&kinds, kinds.len());
    if random.chance(10) {
        kinds.push(kinds[0]);
    }
    let (mut format, mut text) = (String::new(), Vec::new());
    for kind in kinds {
        let (conversion, words) = said(random, kind, facts[kind].unwrap());
        let between = *random.pick(&[" ", ",", ", ", "\t"]);
        format += &(conversion + between);
        text.extend(words);
        text.extend(between.bytes());
    }
    (format, text)
}

/// A number of a kind that is not the one of a day: that of another day, near or far, or any.
fn changed(random: &mut Random, cal: &Calendar, i: usize, kind: usize) -> u32 {
    loop {
        let other = match random.below(4) {
            0 => number(random, kind),
            1 => cal.days[day(random, cal)].value(kind),
            _ => cal.days[(i + random.below(800)).saturating_sub(400).min(cal.days.len() - 1)].value(kind),
        };
        if other != cal.days[i].value(kind) {
            return other;
        }
    }
}

/// A set of kinds 1 to 12: a binary digit for each.
type Set = usize;

const ALL: usize = 1 << 12;

fn set_of(kinds: impl Iterator<Item = usize>) -> Set {
    kinds.map(|kind| 1 << (kind - 1)).sum()
}

/// The kinds of a set.
fn kinds_of(set: Set) -> impl Iterator<Item = usize> {
    (1..=12).filter(move |kind| set >> (kind - 1) & 1 == 1)
}

/// A set without any one of its kinds.
fn one_less(set: Set) -> impl Iterator<Item = Set> {
    kinds_of(set).map(move |kind| set - (1 << (kind - 1)))
}

/// A number of each kind: those of a day, but for one kind another.
struct Numbers {
    facts: Facts,
    /// For each set of kinds whether a day agrees with what is said of these.
    agreed: Vec<bool>,
}

impl Numbers {
    fn new(random: &mut Random, cal: &Calendar, kind: usize) -> Numbers {
        let i = day(random, cal);
        let mut facts: Facts = [None; 18];
        (1..=12).for_each(|other| facts[other] = Some(cal.days[i].value(other)));
        facts[kind] = Some(changed(random, cal, i, kind));
        let mut numbers = Numbers { facts, agreed: Vec::new() };
        for set in 0..ALL {
            let of_day = kinds_of(set).all(|other| other != kind);
            let agreed = of_day || one_less(set).all(|smaller| numbers.agreed[smaller]) && cal.any_agrees(&numbers.of(set));
            numbers.agreed.push(agreed);
        }
        numbers
    }

    /// What is said of the kinds of a set.
    fn of(&self, set: Set) -> Facts {
        let mut facts: Facts = [None; 18];
        kinds_of(set).for_each(|kind| facts[kind] = self.facts[kind]);
        facts
    }

    /// Whether these kinds quarrel (RULES 8.5): no day agrees with them together, and one does without any one of them.
    fn quarrel(&self, set: Set) -> bool {
        !self.agreed[set] && one_less(set).all(|smaller| self.agreed[smaller])
    }
}

/// One kind's number changed from that of a day that is drawn: each set of kinds that quarrel, and so many of all sets that no day agrees
/// with. Returns how many texts there were.
pub fn compare_changed(random: &mut Random, cal: &Calendar, tally: &mut Tally, kind: usize, drawn: usize) -> usize {
    let numbers = Numbers::new(random, cal, kind);
    let impossible: Vec<Set> = (0..ALL).filter(|set| !numbers.agreed[*set]).collect();
    let mut sets: Vec<Set> = impossible.iter().copied().filter(|set| numbers.quarrel(*set)).collect();
    sets.extend(random.sample(&impossible, drawn.min(impossible.len())));
    for set in &sets {
        compare_set(random, cal, tally, &numbers, *set);
    }
    sets.len()
}

/// What is said of the kinds of a set, with which no day agrees. Whatever way the kinds are found that are named, they quarrel.
fn compare_set(random: &mut Random, cal: &Calendar, tally: &mut Tally, numbers: &Numbers, set: Set) {
    let (format, text) = text_of(random, &numbers.of(set));
    let matched = rules::matched(cal, format.as_bytes(), &text);
    let any_agrees = |facts: &Facts| numbers.agreed[set_of((1..=12).filter(|kind| facts[*kind].is_some()))];
    let reason = matched.reason_by(any_agrees, &matched.reading(Engine::Skipping));
    match &reason {
        Some(Reason::Quarrel(named)) if numbers.quarrel(set_of(named.iter().map(|(kind, _)| *kind))) => {}
        _ => tally.differs("rules.rs, a reason", &(&format, text.escape_ascii().to_string(), &reason)),
    }
    let how_many = if random.below(RARELY) == 0 { Engines::All } else { Engines::Skipping };
    compare_judged(random, tally, &format, &text, how_many, &Judged { matched, reason });
}

/// What is said of the hour, each word with its conversion, a blank after both.
fn hour_words(random: &mut Random, hour: Option<u32>, twelve: Option<u32>, half: Option<usize>) -> Vec<(String, Vec<u8>)> {
    let mut words = Vec::new();
    for (letters, number) in [("Hk", hour), ("Il", twelve)] {
        if let Some(n) = number {
            words.push((format!("%{} ", *random.pick(letters.as_bytes()) as char), format!("{n} ").into_bytes()));
        }
    }
    if let Some(half) = half {
        let mut letters = in_any_case(random, HALVES[half]);
        letters.push(b' ');
        words.push((format!("%{} ", *random.pick(b"pP") as char), letters));
    }
    words
}

/// Everything that can be said of the hour, in any order: alone, after a day, after facts that quarrel and after such as are open.
fn compare_hours(random: &mut Random, cal: &Calendar, tally: &mut Tally) -> usize {
    let mut count = 0;
    for hour in (0..24).map(Some).chain([None]) {
        for twelve in (1..=12).map(Some).chain([None]) {
            for half in [Some(0), Some(1), None] {
                for (format, text) in [("", ""), ("%F ", "2000-02-29 "), ("%F %a ", "1934-03-05 Tue "), ("%d %b ", "5 Mar ")] {
                    let (mut format, mut text) = (format.to_string(), text.as_bytes().to_vec());
                    let words = hour_words(random, hour, twelve, half);
                    for (conversion, word) in random.sample(&words, words.len()) {
                        format += &conversion;
                        text.extend(word);
                    }
                    compare_both(random, cal, tally, &format, &text, Engines::Drawn);
                    count += 1;
                }
            }
        }
    }
    count
}

/// Each kind changed, with all sets of kinds, and the hours. Returns how many texts there were.
pub fn compare(random: &mut Random, cal: &Calendar, tally: &mut Tally) -> usize {
    compare_hours(random, cal, tally) + (1..=12).map(|kind| compare_changed(random, cal, tally, kind, ALL)).sum::<usize>()
}
