//! %s against the C library's timegm on every day of the calendar: its first second and its last, 60, with the offsets farthest east and
//! west and with none, and other times of day with other offsets.
use crate::c_library::timegm;
use crate::c_writings::Writing;
use crate::random::Random;
use crate::rules::{Calendar, Day, Moment};

/// The moments of a day; in the last the second is 60.
fn moments(random: &mut Random, d: &Day) -> [Moment; 5] {
    let (year, month, day) = d.date();
    let (hour, minute) = (random.from(0, 23), random.from(0, 59));
    let any = random.from(0, 2 * 1439) as i32 - 1439;
    [(0, 0, 0, 0), (0, 0, 0, 1439), (23, 59, 60, -1439), (hour, minute, random.from(0, 60), any), (hour, minute, 60, -any)]
        .map(|(hour, minute, second, offset)| Moment::new([year, month, day, hour, minute, second]).with_offset(offset))
}

pub fn writings<'a>(random: &'a mut Random, cal: &'a Calendar) -> impl Iterator<Item = Writing> + 'a {
    cal.days.iter().flat_map(|d| moments(random, d)).map(|m| ("%s", m, timegm(cal, &m).to_string().into_bytes()))
}
