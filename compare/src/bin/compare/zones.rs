//! Offsets: read from every sign with every four digits, from any byte in place of the sign and of each digit, and said twice; and written,
//! by %z and %s, every one of them and many that are out of range.
use crate::cases;
use crate::facts::compare_both;
use crate::readings::Engines;
use crate::writings::{self, Name};
use crate::Tally;
use compare::elements::Opened;
use compare::random::Random;
use compare::rules::{Calendar, Moment, Use};

/// How far past its ends an offset is written, or not.
const BEYOND: i32 = 60;

/// Returns how many texts and writings there were.
pub fn compare(random: &mut Random, cal: &Calendar, tally: &mut Tally) -> usize {
    let before = tally.calls;
    let count = compare_texts(random, cal, tally) + compare_twice(random, cal, tally) + compare_writings(random, cal, tally);
    tally.zoned += tally.calls - before;
    count
}

/// A text by a format, some of them with more behind it.
fn compare_text(random: &mut Random, cal: &Calendar, tally: &mut Tally, format: &str, mut text: Vec<u8>) {
    text.extend(*random.pick(&[&b""[..], b"", b"0", b" ", b"+0130", b"x"]));
    compare_both(random, cal, tally, format, &text, Engines::Skipping);
}

fn compare_texts(random: &mut Random, cal: &Calendar, tally: &mut Tally) -> usize {
    let mut texts: Vec<Vec<u8>> = Vec::new();
    for digits in 0..10_000 {
        texts.extend(["+", "-"].map(|sign| format!("{sign}{digits:04}").into_bytes()));
    }
    for byte in 0..=255 {
        for at in 0..5 {
            let mut text = b"-1942".to_vec();
            text[at] = byte;
            texts.push(text.clone());
            text.truncate(at + 1);
            texts.push(text);
        }
    }
    for text in &texts {
        compare_text(random, cal, tally, "%z", text.clone());
    }
    texts.len()
}

/// An offset, and the same or another, with a blank between or nothing.
fn compare_twice(random: &mut Random, cal: &Calendar, tally: &mut Tally) -> usize {
    let texts = ["+0000", "-0000", "+0001", "-0001", "+0030", "-0030", "+0130", "-0130", "+2359", "-2359", "+2400", "-0060", "+13", "0130"];
    for first in texts {
        for second in texts {
            compare_text(random, cal, tally, "%z %z", format!("{first} {second}").into_bytes());
            compare_text(random, cal, tally, "%z%z", format!("{first}{second}").into_bytes());
        }
    }
    2 * texts.len() * texts.len()
}

fn compare_writings(random: &mut Random, cal: &Calendar, tally: &mut Tally) -> usize {
    let formats = ["%z", "%s", "%FT%T%z", "%s%z", "%z %s|%s %c"];
    let opened = formats.map(|format| Opened::new(format.as_bytes(), Use::Writing).elements);
    let mut count = 0;
    for offset in (-1439 - BEYOND..=1439 + BEYOND).map(Some).chain([None]) {
        for (format, elements) in formats.iter().zip(&opened) {
            let m = Moment { offset, ..cases::written_moment(random) };
            writings::by_format(random, cal, tally, format.as_bytes(), &m, "");
            writings::by_elements(random, cal, tally, elements, &m, Name { function: "write", which: "" });
            count += 2;
        }
    }
    count
}
