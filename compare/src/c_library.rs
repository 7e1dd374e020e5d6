//! The C library's strftime, timegm and isspace, in the C locale, which is POSIX's: a program is in it until it asks for another.
use crate::rules::{items, numeric, Calendar, Conversion, Item, Moment, Use};

#[repr(C)]
struct Tm {
    sec: i32,
    min: i32,
    hour: i32,
    mday: i32,
    mon: i32,
    year: i32,
    wday: i32,
    yday: i32,
    isdst: i32,
    gmtoff: i64,
    zone: *const u8,
}

mod c {
    extern "C" {
        pub(super) fn strftime(out: *mut u8, room: usize, format: *const u8, tm: *const super::Tm) -> usize;
        pub(super) fn timegm(tm: *mut super::Tm) -> i64;
        pub(super) fn isspace(byte: i32) -> i32;
    }
}

/// The longest text that is asked for.
const ROOM: usize = 512;

/// Whether the C library has the same rules for a conversion that ours takes.
pub fn coincide(c: &Conversion, m: &Moment) -> bool {
    match (c.flag, c.letter) {
        // - leaves the fill to the width, with blanks: `%-5d` is four blanks and a 5
        (b'-', _) => c.width == 0,
        // %P is small before ^ is looked at: `%^P` is am
        (b'^', b'P') => false,
        // years and centuries have no width of their own: `%Y`, `%_Y` and `%0Y` are 5 for the year 5, and `%3Y` is 005
        (_, b'Y' | b'G' | b'C') => m.fields[0] >= 1000 || c.width >= numeric(c.letter).unwrap().1,
        // %s is by the machine's zone, whatever the offset: see `timegm`
        (_, b's') => false,
        _ => true,
    }
}

/// Whether it has the same rules for a format that ours takes: a zero byte ends its format.
pub fn alike(format: &[u8], m: &Moment) -> bool {
    let coincides = |item: &Item| !matches!(item, Item::Conversion(c) if !coincide(c, m));
    !format.contains(&0) && items(format, Use::Writing).unwrap().iter().all(coincides)
}

/// A moment as the C library has it. Where it is not known whether a clock is in summer time, %z writes nothing: so an unsaid offset.
fn tm_of(cal: &Calendar, m: &Moment) -> Tm {
    let [year, month, day, hour, minute, second] = m.fields.map(|field| field as i32);
    let found = cal.find(m.fields[0], m.fields[1], m.fields[2]);
    Tm {
        sec: second,
        min: minute,
        hour,
        mday: day,
        mon: month - 1,
        year: year - 1900,
        wday: found.weekday as i32 % 7,
        yday: found.day_of_year as i32 - 1,
        isdst: if m.offset.is_some() { 0 } else { -1 },
        gmtoff: 60 * m.offset.unwrap_or(0) as i64,
        zone: std::ptr::null(),
    }
}

/// The seconds from 1970-01-01 00:00:00 UTC to a valid moment with an offset, which timegm takes off with the minutes: it looks at no
/// tm_gmtoff, and at no field's range.
pub fn timegm(cal: &Calendar, m: &Moment) -> i64 {
    let mut tm = tm_of(cal, m);
    tm.min -= m.offset.unwrap();
    unsafe { c::timegm(&mut tm) }
}

/// What the C library writes for a valid moment, which the format's text must show to be less than `ROOM` bytes.
pub fn strftime(cal: &Calendar, format: &[u8], m: &Moment) -> Vec<u8> {
    let tm = tm_of(cal, m);
    let mut ended = format.to_vec();
    ended.push(0);
    let mut out = vec![0; ROOM];
    let length = unsafe { c::strftime(out.as_mut_ptr(), ROOM, ended.as_ptr(), &tm) };
    out.truncate(length);
    out
}

/// Whether a byte is white space to the C library.
pub fn isspace(b: u8) -> bool {
    unsafe { c::isspace(b as i32) != 0 }
}
