//! %z against the C library's strftime: every offset, and unsaid, which writes nothing there where it is not known whether a clock is in
//! summer time. Where the two differ, examples by glibc 2.36, for an offset of 90 minutes:
//!
//! | format | the C library | ours | the rule here (RULES 4) |
//! |---|---|---|---|
//! | `%_z` `%-z` `%5z` | `+ 130`, `+130`, four blanks and `+00130` | 3 | %z takes neither flag nor width |
//! | `%Ez` `%Oz` | `+0130` `+0130` | 3 | nor E nor O |
//! | `%s` | by the machine's zone | by the offset | so %s is compared with timegm (`c_seconds.rs`) |
use crate::c_library::strftime;
use crate::c_writings::Writing;
use crate::random::Random;
use crate::rules::{Calendar, Moment};

/// Alone, more than once, and beside others; the years have four digits.
const FORMATS: [&str; 7] = ["%z", "%z%z", " %z ", "%FT%T%z", "%a, %d %b %Y %T %z", "%H%z%M", "%%z%z%n%z%%"];

pub fn writings<'a>(random: &'a mut Random, cal: &'a Calendar) -> impl Iterator<Item = Writing> + 'a {
    let offsets = (-1439..=1439).map(Some).chain([None]);
    offsets.flat_map(|offset| FORMATS.map(|format| (format, offset))).map(|(format, offset)| {
        let (year, month, day) = random.pick(&cal.days[cal.place(1000, 1, 1)..]).date();
        let fields = [year, month, day, random.from(0, 23), random.from(0, 59), random.from(0, 60)];
        let m = Moment { fields, offset };
        (format, m, strftime(cal, format.as_bytes(), &m))
    })
}
