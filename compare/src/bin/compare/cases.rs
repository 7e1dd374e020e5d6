//! Random formats, moments and texts: well formed, damaged, contradictory, and nonsense.
use compare::elements::LETTERS;
use compare::random::Random;
use compare::rules::{forms_of, month_length, numeric, written, Calendar, Item, Moment, MONTHS, NAMED, PAIRS, WEEKDAYS};

const DATES: &[u8] = b"YCymdejuwaAbBhUWGgV";
const TIMES: &[u8] = b"HkIlpPMS";
const COMPOSITES: &[u8] = b"cxXDFRTr";
/// The offset, and the seconds that it is taken off; no text is read by the last.
const ZONES: &[u8] = b"zzzzs";
const TYPICAL: [&str; 28] = [
    "%Y-%m-%d %H:%M:%S",
    "%FT%T",
    "%c",
    "%a, %d %b %Y %T",
    "%d.%m.%Y",
    "%m/%d/%y",
    "%G-W%V-%u",
    "%Y-%j",
    "%A, %B %e, %Y",
    "%r",
    "%I:%M %p",
    "%C%y %m %d",
    "%d %b %Y %I",
    "%Y %U %a",
    "%Y %W %A",
    "%b %d %H:%M:%S",
    "%g %V %w",
    "%a %e %b",
    "%d %b",
    "%k:%M",
    "%Ex %EX",
    "%Od %Om %EY",
    "%y %j",
    "%l %P",
    "%FT%T%z",
    "%a, %d %b %Y %T %z",
    "%s",
    "%s %z",
];

/// The ends of what an offset may be, about zero, and about an hour.
const OFFSETS: [i32; 12] = [-1439, -1438, -60, -59, -30, -1, 0, 1, 59, 60, 90, 1439];
/// Offsets that are none.
const OUTSIDE: [i32; 10] = [-1440, 1440, -1441, 1441, 1 << 16, 90 - (1 << 16), 1 << 24, i32::MAX, -i32::MAX, i32::MIN];

fn conversion(out: &mut Vec<u8>, letter: u8) {
    out.extend_from_slice(&[b'%', letter]);
}

/// What stands between two conversions: mostly a blank, so that texts can be read again.
fn between(random: &mut Random, out: &mut Vec<u8>) {
    match random.below(10) {
        0..=5 => out.push(b' '),
        6 => out.push(*random.pick(b":/-,.")),
        7 => out.push(*random.pick(b"\t\n\x0b\x0c\r %")),
        8 => conversion(out, *random.pick(b"nt%")),
        _ => {}
    }
    if out.last() == Some(&b'%') && random.chance(90) {
        out.push(b'%');
    }
}

fn token(random: &mut Random, out: &mut Vec<u8>) {
    match random.below(100) {
        0..=54 => conversion(out, *random.pick(DATES)),
        55..=69 => conversion(out, *random.pick(TIMES)),
        70..=77 => conversion(out, *random.pick(COMPOSITES)),
        78..=86 => {
            out.push(b'%');
            out.extend_from_slice(random.pick(&PAIRS).as_bytes());
        }
        87..=90 => out.push(random.next() as u8),
        91..=92 => conversion(out, *random.pick(ZONES)),
        93..=98 => conversion(out, *random.pick(b"nt%")),
        _ => {
            // bad: an unknown letter, a wrong pair, an unfinished conversion
            match random.below(4) {
                0 => out.extend([b'%', random.next() as u8]),
                1 => out.extend([b'%', b'E', random.next() as u8]),
                2 => out.extend([b'%', b'O', random.next() as u8]),
                _ => out.push(b'%'),
            }
        }
    }
}

/// A format whose facts often fix a day: a year mostly.
fn dated(random: &mut Random) -> Vec<u8> {
    let mut letters: Vec<u8> = Vec::new();
    match random.below(100) {
        0..=39 => letters.push(b'Y'),
        40..=54 => letters.push(b'G'),
        55..=66 => letters.extend(b"Cy"),
        67..=89 => letters.extend(random.pick(&[&b"md"[..], b"bd", b"me", b"j", b"yj", b"Cmd", b"ymd", b"m", b"B", b"y", b"C"]).iter()),
        _ => {}
    }
    for _ in 0..random.below(5) {
        letters.push(*random.pick(DATES));
    }
    for _ in 0..random.below(3) {
        letters.push(*random.pick(TIMES));
    }
    let mut out = Vec::new();
    while !letters.is_empty() {
        let l = letters.swap_remove(random.below(letters.len()));
        conversion(&mut out, l);
        if !letters.is_empty() || random.chance(5) {
            between(random, &mut out);
        }
    }
    out
}

/// A format; in two cases of five a %z or a %s is put into it.
pub fn format(random: &mut Random) -> Vec<u8> {
    let mut out = any_format(random);
    if random.chance(40) {
        for _ in 0..1 + random.below(2) {
            put_zone(random, &mut out);
        }
    }
    out
}

/// Before a format, after it, or anywhere: a %z or a %s, with or without blanks around it.
fn put_zone(random: &mut Random, format: &mut Vec<u8>) {
    let at = match random.below(10) {
        0..=3 => 0,
        4..=8 => format.len(),
        _ => random.below(format.len() + 1),
    };
    let letter = *random.pick(ZONES) as char;
    let (before, after) = *random.pick(&[("", ""), ("", " "), (" ", ""), (" ", " "), ("%n", ","), ("T", "%%")]);
    format.splice(at..at, format!("{before}%{letter}{after}").bytes());
}

/// A short format of offsets and times of day, by which no day is looked for.
pub fn zoned_format(random: &mut Random) -> Vec<u8> {
    let mut out = Vec::new();
    for _ in 0..random.below(4) {
        conversion(&mut out, *random.pick(TIMES));
        between(random, &mut out);
    }
    for _ in 0..1 + random.below(2) {
        put_zone(random, &mut out);
    }
    out
}

fn any_format(random: &mut Random) -> Vec<u8> {
    let mut out = Vec::new();
    match random.below(100) {
        0..=14 => out.extend_from_slice(random.pick(&TYPICAL).as_bytes()),
        15..=59 => out = dated(random),
        60..=69 => {
            for _ in 0..1 + random.below(4) {
                conversion(&mut out, *random.pick(TIMES));
                between(random, &mut out);
            }
        }
        70..=89 => {
            for _ in 0..random.below(8) {
                token(random, &mut out);
                between(random, &mut out);
            }
        }
        90..=94 => {
            // many conversions said again and again
            let few: Vec<u8> = (0..1 + random.below(3)).map(|_| *random.pick(DATES)).collect();
            for _ in 0..random.below(12) {
                conversion(&mut out, *random.pick(&few));
                between(random, &mut out);
            }
        }
        95..=96 => {
            for _ in 0..random.below(40) {
                out.push(random.next() as u8);
            }
        }
        _ => {
            let unit = format(random);
            out = long(random, &unit);
        }
    }
    out
}

/// The same again and again, up to and past the longest format.
fn long(random: &mut Random, unit: &[u8]) -> Vec<u8> {
    let mut out = Vec::new();
    let length = if random.chance(50) { 1020 + random.below(10) } else { random.below(2500) };
    while out.len() < length {
        if unit.is_empty() || unit.len() > length - out.len() {
            out.push(*random.pick(b"ab 1"));
        } else {
            out.extend_from_slice(unit);
        }
    }
    out
}

/// The flags that belong to a letter; none to a composite, a byte or an unknown one.
fn flags(letter: u8) -> &'static [u8] {
    match letter {
        l if NAMED.contains(&l) => b"^",
        l if numeric(l).is_some() => b"_-0",
        _ => b"",
    }
}

/// A flag, a width or both, mostly such as a letter takes.
fn column(random: &mut Random, letter: u8, out: &mut Vec<u8>) {
    if random.chance(96) {
        if flags(letter).is_empty() {
            return;
        }
        if random.chance(70) {
            out.push(*random.pick(flags(letter)));
        }
        match random.below(10) {
            0..=2 => {}
            3..=6 => out.extend(random.from(1, 9).to_string().bytes()),
            _ => out.extend(random.from(1, 99).to_string().bytes()),
        }
        return;
    }
    // any flag, none, two, or another byte; then any width, with zeros before it or a flag after it
    match random.below(6) {
        0..=2 => out.push(*random.pick(b"_-0^")),
        3 => out.extend([*random.pick(b"_-0^"), *random.pick(b"_-0^")]),
        4 => out.push(*random.pick(b"+#:,.*' /1EO%")),
        _ => {}
    }
    let width = random.from(0, 120);
    match random.below(6) {
        0 => {}
        1 => out.extend(format!("{width:03}").bytes()),
        2 => out.extend([b'0' + (width % 10) as u8, *random.pick(b"_-0^")]),
        _ => out.extend(width.to_string().bytes()),
    }
}

/// The format with flags and widths after some of its %, in a few cases after the E or O there, or with its end lost.
pub fn with_columns(random: &mut Random, format: &[u8]) -> Vec<u8> {
    let odds = *random.pick(&[20, 60, 100]);
    let mut out = Vec::new();
    let mut rest = format;
    while let [b, after @ ..] = rest {
        out.push(*b);
        rest = after;
        if *b != b'%' {
            continue;
        }
        let paired = matches!(rest, [b'E' | b'O', ..]);
        let letter = rest.get(paired as usize).copied().unwrap_or(0);
        if paired && random.chance(5) {
            out.push(rest[0]);
            rest = &rest[1..];
        }
        if random.chance(odds) {
            column(random, letter, &mut out);
        }
        if let [b'%', after @ ..] = rest {
            out.push(b'%');
            rest = after;
        }
    }
    match random.below(100) {
        0..=2 => out = long(random, &out),
        3..=4 => out.truncate(random.below(out.len() + 1)),
        _ => {}
    }
    out
}

/// An entry of a list of elements: a byte, a conversion of any offset, flag and width, or what no opening makes.
pub fn entry(random: &mut Random) -> u32 {
    let letters = if random.chance(20) { ZONES } else { LETTERS };
    let letter = *random.pick(letters);
    let flags = if flags(letter).is_empty() { b"_-0^" } else { flags(letter) };
    let plain = 256 * random.from(1, 1023) + letter as u32;
    let wide = (1 << 18) * random.from(0, 99);
    match random.below(16) {
        0 | 1 => random.from(0, 255),
        2 | 3 => plain,
        4 => 256 * *random.pick(&[1, 2, 1022, 1023]) + letter as u32,
        5 => 256 * *random.pick(&[1024, 1025, 2048, 65536, 0xff_ffff]) + letter as u32,
        6 | 7 => 256 * random.from(1, 1023) + random.from(0, 255),
        8 => plain + wide,
        9 | 10 => plain + wide + (1 << 25) * *random.pick(flags) as u32,
        11 => plain + wide + (1 << 25) * *random.pick(b"_-0^+#1ad\x01\x7f") as u32,
        12 => plain + (1 << 18) * random.from(98, 127),
        13 => letter as u32 + wide + (1 << 25) * *random.pick(b"\x00_-0^") as u32,
        _ => random.next() as u32 >> random.below(24),
    }
}

/// An offset: any, or one at the ends or about zero.
fn offset(random: &mut Random) -> i32 {
    let any = random.from(0, 2 * 1439) as i32 - 1439;
    if random.chance(60) {
        any
    } else {
        *random.pick(&OFFSETS)
    }
}

/// A moment with an offset.
fn moment(random: &mut Random) -> Moment {
    let mut m = [random.from(1, 9999), random.from(1, 12), 1, random.from(0, 23), random.from(0, 59), random.from(0, 60)];
    match random.below(20) {
        0 => m[0] = random.from(1, 20),
        1 => m[0] = random.from(9980, 9999),
        2 => m[0] = random.from(1, 99) * 100,
        3..=6 => m[0] = random.from(1900, 2100),
        7 => m[0] = random.from(1969, 1970),
        _ => {}
    }
    m[2] = random.from(1, month_length(m[0], m[1]));
    if random.chance(10) {
        // about the turn of a year or of February
        let (month, day) = *random.pick(&[(12, 31), (12, 30), (12, 28), (1, 1), (1, 2), (1, 4), (2, 28), (3, 1)]);
        m[1] = month;
        m[2] = day;
    }
    Moment::new(m).with_offset(offset(random))
}

/// The moment of a writing: in some cases its offset is unsaid, and in some one or two of its fields are bad, or the offset is.
pub fn written_moment(random: &mut Random) -> Moment {
    let mut m = moment(random);
    if random.chance(25) {
        m.offset = None;
    }
    if random.chance(4) {
        m.offset = Some(*random.pick(&OUTSIDE));
    }
    if random.chance(10) {
        for _ in 0..1 + random.below(2) {
            let field = random.below(6);
            m.fields[field] = *random.pick(&[0, 1, 13, 24, 28, 29, 30, 31, 32, 59, 60, 61, 9999, 10000, 65536, 65537, 1 << 31, u32::MAX]);
        }
    }
    m
}

fn damage(random: &mut Random, text: &mut Vec<u8>) {
    let at = random.below(text.len() + 1);
    match random.below(12) {
        0 if at < text.len() => text[at] = random.next() as u8,
        1 if at < text.len() => text[at] ^= 32,
        2 if at < text.len() => text[at] = b'0' + random.below(10) as u8,
        3 if at < text.len() => {
            text.remove(at);
        }
        4 => text.insert(at, random.next() as u8),
        5 => text.insert(at, *random.pick(b"\x08\t\n\x0b\x0c\r\x0e ")),
        6 => text.insert(at, b'0' + random.below(10) as u8),
        7 => text.truncate(at),
        8 => {
            for _ in 0..random.below(6) {
                text.push(random.next() as u8);
            }
        }
        9 => {
            if let Some(zero) = text.iter().position(|b| *b == b'0') {
                text.remove(zero);
            }
        }
        10 => {
            if let Some(digit) = text[at..].iter().position(|b| b.is_ascii_digit()) {
                text[at + digit] = b'0' + random.below(10) as u8;
            }
        }
        _ => text.iter_mut().for_each(|b| *b = b.to_ascii_uppercase()),
    }
}

/// Letters as they stand, all of the other case, or each of either.
pub fn in_any_case(random: &mut Random, letters: &str) -> Vec<u8> {
    let odds = *random.pick(&[0, 0, 50, 100]);
    letters.bytes().map(|b| if random.chance(odds) { b ^ 32 } else { b }).collect()
}

/// A weekday or a month by its full name: in any form, or cut at any letter, some with a letter more, in letters of any case.
fn name(random: &mut Random, full: &str) -> Vec<u8> {
    let letters = match random.below(5) {
        0 => &full[..1 + random.below(full.len())],
        _ => random.pick(&forms_of(full)).0,
    };
    let mut out = in_any_case(random, letters);
    if random.chance(10) {
        out.push(*random.pick(b"STdersty"));
    }
    out
}

/// An offset as a text may have it, which is in most cases as it is written: or else of no minutes, of hours and minutes about their
/// ends, of any digits, of more or fewer than four, after a blank, or after what is no sign.
fn zone(random: &mut Random, mut written: Vec<u8>) -> Vec<u8> {
    let sign = *random.pick(b"+-") as char;
    match random.below(20) {
        0 => format!("{sign}0000").into_bytes(),
        1 => format!("{sign}{:02}{:02}", random.from(21, 25), random.from(57, 62)).into_bytes(),
        2 => format!("{sign}{:04}", random.below(10_000)).into_bytes(),
        3 => format!("{sign}{}", random.below(100_000)).into_bytes(),
        4 => {
            written.insert(0, *random.pick(b" \t\r"));
            written
        }
        5 => {
            written[0] = random.next() as u8;
            written
        }
        6 => random.pick(&["", "Z", "UTC", "+01:30", "-1:30", "+01", "-"]).as_bytes().to_vec(),
        _ => written,
    }
}

/// What an item writes for a moment; with `in_other_hands` a weekday or a month as `name` has it, and an offset as `zone` has it.
fn said(random: &mut Random, cal: &Calendar, item: &Item, m: &Moment, in_other_hands: bool) -> Vec<u8> {
    let as_written = written(cal, &[*item], m);
    match item {
        Item::Conversion(c) if in_other_hands => match c.letter {
            b'a' | b'A' => {
                let (year, month, day) = m.date();
                name(random, WEEKDAYS[cal.find(year, month, day).weekday as usize - 1])
            }
            b'b' | b'B' | b'h' => name(random, MONTHS[m.fields[1] as usize - 1]),
            b'z' => zone(random, as_written),
            _ => as_written,
        },
        _ => as_written,
    }
}

/// A text for some items: what they write for a moment, with other things said here and there, then damaged or not.
pub fn text(random: &mut Random, cal: &Calendar, items: &[Item]) -> Vec<u8> {
    let m = moment(random);
    let in_other_hands = random.chance(60);
    let mut out = Vec::new();
    match random.below(100) {
        0..=39 => {
            for item in items {
                out.extend(said(random, cal, item, &m, in_other_hands));
            }
        }
        40..=69 => {
            // some elements written for another moment, near or far: facts that quarrel
            let mut other = m;
            let (year, month, day) = m.date();
            match random.below(6) {
                0 => other = moment(random),
                1 if year > 1 && (month, day) != (2, 29) => other.fields[0] = year - 1,
                1 | 2 => other.fields[2] = random.from(1, month_length(year, month)),
                3 => other.fields[1..3].copy_from_slice(&[random.from(1, 12), random.from(1, 28)]),
                4 => other.offset = Some(offset(random)),
                _ => other.fields[3..].copy_from_slice(&[random.from(0, 23), random.from(0, 59), random.from(0, 60)]),
            }
            let odds = *random.pick(&[5, 20, 50]);
            for item in items {
                let which = if random.chance(odds) { &other } else { &m };
                out.extend(said(random, cal, item, which, in_other_hands));
            }
        }
        70..=89 => {
            // numbers of any length, with white space before and without leading zeros
            for item in items {
                match item {
                    Item::Conversion(c) if numeric(c.letter).is_some() => {
                        for _ in 0..random.below(2) {
                            out.push(*random.pick(b"\t\n\x0b\x0c\r "));
                        }
                        let digits = written(cal, &[*item], &m);
                        let mut n: u32 = digits.iter().filter(|b| b.is_ascii_digit()).fold(0, |n, b| n * 10 + (b - b'0') as u32);
                        if random.chance(8) {
                            let digits = random.from(1, 5);
                            n = random.below(10usize.pow(digits)) as u32;
                        }
                        out.extend(n.to_string().bytes());
                    }
                    _ => out.extend(said(random, cal, item, &m, in_other_hands)),
                }
            }
        }
        90..=94 => {
            for _ in 0..random.below(30) {
                out.push(random.next() as u8);
            }
        }
        _ => {
            out = written(cal, items, &m);
            let length = if random.chance(70) { 1020 + random.below(10) } else { random.below(3000) };
            out.resize(length.max(out.len()), b' ');
        }
    }
    if random.chance(35) {
        for _ in 0..1 + random.below(2) {
            damage(random, &mut out);
        }
    }
    out
}
