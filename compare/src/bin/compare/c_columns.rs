//! The writer with flags and widths against the C library's strftime: every flag and width before every letter and pair that takes them,
//! where the two have the same rules. Where they do not, examples by glibc 2.36, for 0005-03-05 07:08:09:
//!
//! | format | the C library | ours | the rule here (RULES 4 and 5) |
//! |---|---|---|---|
//! | `%-5d` | four blanks and `5` | `5` | `-` is no fill at all: the width is ignored |
//! | `%^P` | `am` | `AM` | `^` makes capitals wherever it is taken |
//! | `%_Y` `%0Y` `%3Y`, and `%G` | `5` `5` `005` | three blanks and `5`, `0005` `0005` | a width below the own one, 4, changes nothing |
//! | `%_C` `%0C` `%1C` | `0` `0` `0` | a blank and `0`, `00` `00` | the same: the own width of a century is 2 |
//! | `%_a` `%-B` `%05p` | `Sat` `March` `000AM` | 3 | `_ - 0` belong to numbers |
//! | `%^d` | `05` | 3 | `^` belongs to names, %p and %P |
//! | `%12D` `%^c` | filled, capitals | 3 | a composite has no field of its own |
//! | `%5%` `%5n` `%-t` | four blanks and the byte, the byte alone | 3 | a byte is neither a number nor a name |
//! | `%_-d` `%^_5a` `%00d` | the last of its sort counts | 3 | one flag, and a width has no leading zero |
//! | `%100d` | 100 digits | 3 | a width is 1 to 99 |
//! | `%#a` | `SAT` | 3 | no such flag |
//! | `%5^a` `%E5y` `%+d` `%5Q` `%5` | copied as they stand, some filled | 3 | what is unknown or unfinished is refused |
//!
//! The first four are those that `coincide` names; all the others are no conversions here.
use crate::library;
use compare::c_library::{coincide, strftime};
use compare::elements::LETTERS;
use compare::random::Random;
use compare::rules::{Calendar, Conversion, Moment, Use, PAIRS};

/// The moments drawn for each format.
const MOMENTS: usize = 300;

/// The calendar's ends, the last year of three digits, and others.
fn moments(random: &mut Random, cal: &Calendar) -> Vec<Moment> {
    let mut all = vec![[1, 1, 1, 0, 0, 0], [999, 12, 31, 12, 59, 60], [9999, 12, 31, 23, 9, 9]];
    for _ in 0..MOMENTS {
        let (year, month, day) = random.pick(&cal.days).date();
        all.push([year, month, day, random.from(0, 23), random.from(0, 59), random.from(0, 60)]);
    }
    all.into_iter().map(Moment::new).collect()
}

/// Returns how many writings were compared.
pub fn compare(random: &mut Random, cal: &Calendar, mut differs: impl FnMut(&dyn std::fmt::Debug)) -> usize {
    let mut count = 0;
    let mut tails: Vec<String> = LETTERS.iter().map(|l| (*l as char).to_string()).collect();
    tails.extend(PAIRS.iter().map(|p| p.to_string()));
    for tail in &tails {
        let letter = tail.as_bytes()[tail.len() - 1];
        for flag in [0, b'_', b'-', b'0', b'^'] {
            for width in 0..=99 {
                let c = Conversion { letter, flag, width, at: 0 };
                if !c.is_taken(Use::Writing) {
                    continue;
                }
                let mut format = String::from("%");
                if flag != 0 {
                    format.push(flag as char);
                }
                if width != 0 {
                    format += &width.to_string();
                }
                format += tail;
                for m in moments(random, cal).iter().filter(|m| coincide(&c, m)) {
                    let theirs = strftime(cal, format.as_bytes(), m);
                    let mut ours = vec![0; theirs.len()];
                    let found = library::strftime(format.as_bytes(), &library::moment_words(m), &mut ours);
                    count += 1;
                    if found != (0, theirs.len() as u32) || ours != theirs {
                        differs(&(&format, m, found, String::from_utf8_lossy(&ours), String::from_utf8_lossy(&theirs)));
                    }
                }
            }
        }
    }
    count
}
