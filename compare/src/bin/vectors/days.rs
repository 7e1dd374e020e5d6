//! What the program every_day must write: one line for each century of years (0 to 99, 100 to 199, .., 9900 to 9999), its last year and a
//! digest of all its days. tests/every_day.py says of which values.
use compare::rules::{Calendar, Day};
use std::io::Write;

const M: u64 = 4_294_967_291; // prime
const P: u64 = 2_654_435_761;

fn values(d: &Day, number: usize) -> [u64; 11] {
    [
        d.year as u64,
        d.month as u64,
        d.day as u64,
        d.day_of_year as u64,
        d.weekday as u64,
        d.sundays as u64,
        d.mondays as u64,
        d.week_year as u64,
        d.week_year as u64 % 100,
        d.week as u64,
        number as u64,
    ]
}

pub fn print(cal: &Calendar) -> std::io::Result<()> {
    let mut digests = [0; 100];
    for (i, d) in cal.days.iter().enumerate() {
        let digest = &mut digests[d.year as usize / 100];
        for value in values(d, i + 1) {
            *digest = (*digest * P + value) % M;
        }
    }
    let mut out = std::io::stdout().lock();
    for (century, digest) in digests.iter().enumerate() {
        writeln!(out, "{:04} {digest:010}", 100 * century + 99)?;
    }
    Ok(())
}
