//! Writings by a format, and by elements.
use crate::library::{self, Lent};
use crate::Tally;
use compare::elements;
use compare::random::Random;
use compare::rules::{self, Calendar, Moment, Use};

/// A buffer's room: none, too little by one, just enough, some more, or anything.
fn room(random: &mut Random, needed: usize) -> usize {
    match random.below(6) {
        0 => random.below(needed + 1),
        1 => needed.saturating_sub(1),
        2 => needed,
        3 => needed + 1,
        4 => needed + random.below(40),
        _ => *random.pick(&[0, 1, 2, 64, 256]),
    }
}

/// `larusqem_strftime_words` by a format.
pub fn by_format(random: &mut Random, cal: &Calendar, tally: &mut Tally, format: &[u8], m: &Moment, which: &'static str) {
    let needed = rules::write(cal, format, m, usize::MAX).2.len();
    let room = room(random, needed);
    let (number, place, bytes) = rules::write(cal, format, m, room);
    let mut out = Lent::new(random, room, |n| n as u8);
    let found = library::strftime(format, &library::any_moment_words(random, m), out.slice());
    tally.count_writing("strftime", number, which);
    if found != (number, place) || !out.is(&bytes) {
        tally.differs("larusqem_strftime_words", &(format.escape_ascii().to_string(), m, room, found, (number, place)));
    }
}

/// What a writing by elements is called in the tally, and what tells its cases apart.
#[derive(Clone, Copy)]
pub struct Name {
    pub function: &'static str,
    pub which: &'static str,
}

/// `larusqem_write_words` by elements, or by any entries.
pub fn by_elements(random: &mut Random, cal: &Calendar, tally: &mut Tally, entries: &[u32], m: &Moment, name: Name) {
    let opened = elements::items(entries, Use::Writing);
    let needed = rules::write_opened(cal, &opened, m, usize::MAX).2.len();
    let room = room(random, needed);
    let (number, place, bytes) = rules::write_opened(cal, &opened, m, room);
    let mut out = Lent::new(random, room, |n| n as u8);
    let found = library::write(entries, &library::any_moment_words(random, m), out.slice());
    tally.count_writing(name.function, number, name.which);
    if found != (number, place) || !out.is(&bytes) {
        tally.differs("larusqem_write_words", &(entries, m, room, found, (number, place)));
    }
}
