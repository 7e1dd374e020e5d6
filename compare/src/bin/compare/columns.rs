//! Every flag and width before every letter: written, opened and read, against the rules.
use crate::library::{self, By, Lent, SKIPPING};
use crate::readings::{explained_otherwise, read_otherwise};
use compare::elements::Opened;
use compare::random::Random;
use compare::rules::{self, Calendar, Engine, Moment, Use};

/// None, the four, and one that is none.
const FLAGS: [&str; 6] = ["", "_", "-", "0", "^", "+"];
const PAIRED: [&str; 3] = ["", "E", "O"];
/// Numbers of one digit and of as many as there can be; names and halves of either length; offsets of either sign and none.
const MOMENTS: [Moment; 3] = [
    Moment::new([5, 3, 5, 0, 8, 9]).with_offset(-30),
    Moment::new([1934, 11, 28, 12, 59, 60]),
    Moment::new([2016, 1, 1, 23, 0, 0]).with_offset(1439),
];

/// None, 1 to 99, and such as are none.
fn widths() -> Vec<String> {
    let mut all: Vec<String> = ["", "0", "00", "05", "100"].map(String::from).into();
    all.extend((1..=99).map(|n: u32| n.to_string()));
    all
}

/// How many formats there were, and how many of them are taken.
#[derive(Default)]
pub struct Formats {
    pub all: usize,
    pub taken: usize,
}

pub fn compare(random: &mut Random, cal: &Calendar, mut differs: impl FnMut(&dyn std::fmt::Debug)) -> Formats {
    let mut formats = Formats::default();
    for width in &widths() {
        for flag in FLAGS {
            for pair in PAIRED {
                for letter in 0..=255u8 {
                    let mut format = format!("%{flag}{width}{pair}").into_bytes();
                    format.push(letter);
                    formats.all += 1;
                    formats.taken += rules::items(&format, Use::Writing).is_ok() as usize;
                    for m in &MOMENTS {
                        compare_writings(random, cal, &format, m, &mut differs);
                    }
                    compare_openings(random, &format, &mut differs);
                    compare_readings(random, cal, &format, &mut differs);
                }
            }
        }
    }
    formats
}

/// In a buffer with room for more, and in one that is a byte too short.
fn compare_writings(random: &mut Random, cal: &Calendar, format: &[u8], m: &Moment, differs: &mut impl FnMut(&dyn std::fmt::Debug)) {
    let needed = rules::write(cal, format, m, usize::MAX).2.len();
    for room in [needed + 3, needed.saturating_sub(1)] {
        let (number, place, bytes) = rules::write(cal, format, m, room);
        let mut out = Lent::new(random, room, |n| n as u8);
        let found = library::strftime(format, &library::moment_words(m), out.slice());
        if found != (number, place) || !out.is(&bytes) {
            differs(&(String::from_utf8_lossy(format), m, room, found, (number, place)));
        }
    }
}

/// For both uses.
fn compare_openings(random: &mut Random, format: &[u8], differs: &mut impl FnMut(&dyn std::fmt::Debug)) {
    for (side, for_writing) in [(Use::Reading, 0), (Use::Writing, 1)] {
        let opened = Opened::new(format, side);
        let expected = opened.bad.map_or((0, opened.elements.len() as u32), |at| (3, at as u32));
        let mut lent = Lent::new(random, 14, |n| n as u32);
        let found = library::open(format, for_writing, lent.slice());
        if found != expected || !lent.is(&opened.elements) {
            differs(&(String::from_utf8_lossy(format), side, found, expected));
        }
    }
}

/// What was written, by the format and by the elements that it opens to for writing.
fn compare_readings(random: &mut Random, cal: &Calendar, format: &[u8], differs: &mut impl FnMut(&dyn std::fmt::Debug)) {
    let text = rules::write(cal, format, &MOMENTS[0], usize::MAX).2;
    let (reading, reason) = rules::explain(cal, Engine::Skipping, format, &text);
    let opened = Opened::new(format, Use::Writing);
    let mut compare_by = |by: By| {
        let read = read_otherwise(random, by, &text, SKIPPING, &reading);
        let explained = explained_otherwise(random, by, &text, reason.as_ref());
        if read.is_some() || explained.is_some() {
            differs(&(by, &text, read, explained, &reading, &reason));
        }
    };
    compare_by(By::Format(format));
    if opened.whole {
        compare_by(By::Elements(&opened.elements));
    }
}
