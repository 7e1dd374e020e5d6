//! Vectors for the writer: the input of the program write_cases, and what it must write.
//!
//! A line of the input is `Y m d H M S O B FORMAT`: a moment's six fields, in decimal and not always valid; its offset in minutes, a sign
//! and digits, or ? where it is unsaid; the length of the buffer; and the format's own bytes up to the newline. A line of the output is
//! `number place [BUFFER]`: the answer, and the whole buffer after the call, which was filled with # before. A newline that %n wrote stands
//! in the buffer as it is.
//!
//! Where the C library's strftime has the same rules, what is written is compared with it too.
use crate::{cat, Counts};
use compare::c_library;
use compare::random::Random;
use compare::rules::{month_length, numeric, write, Calendar, Moment, NAMED, PAIRS};
use std::fs;
use std::path::Path;

/// The plain conversions but %n, which would break the line, and %s, which is for offsets that are said.
const PLAIN: &[u8] = b"YGCygmdHMSeklIjuwUWVaAbBhpPzt%DFRTcxXr";
/// The bytes of a buffer, at most.
pub const MOST: usize = 200;
/// The bytes of the input that write_cases takes.
const MOST_INPUT: usize = 380_000;
pub const MORNING: Moment = Moment::new([1934, 3, 5, 7, 8, 9]);
/// Moments with numbers of few digits and of many, with short names and long ones.
const APART: [Moment; 3] = [MORNING, Moment::new([7, 1, 1, 0, 0, 0]), Moment::new([2022, 9, 28, 12, 59, 60])];

/// The flags that belong to a letter, none of them first.
fn flags_of(letter: u8) -> &'static [&'static str] {
    match letter {
        l if NAMED.contains(&l) => &["", "^"],
        l if numeric(l).is_some() => &["", "_", "-", "0"],
        _ => &[],
    }
}

struct Case {
    moment: Moment,
    room: usize,
    format: Vec<u8>,
}

pub struct Cases<'a> {
    pub cal: &'a Calendar,
    all: Vec<Case>,
}

/// A moment of a day, its time and offset drawn; half of the offsets are unsaid.
fn timed(random: &mut Random, year: u32, month: u32, day: u32) -> Moment {
    let fields = [year, month, day, random.from(0, 23), random.from(0, 59), *random.pick(&[0, 1, 9, 10, 30, 58, 59, 60])];
    Moment { fields, offset: random.chance(50).then(|| random.from(0, 2 * 1439) as i32 - 1439) }
}

/// Valid moments: edges of years, of leap days, of ISO years and of hours, and a few hundred others.
pub fn moments(cal: &Calendar) -> Vec<Moment> {
    let mut random = Random(1);
    let mut all: Vec<Moment> = Vec::new();
    for year in [
        1, 2, 4, 9, 10, 99, 100, 101, 400, 999, 1000, 1001, 1582, 1600, 1700, 1752, 1899, 1900, 1901, 1934, 1969, 1970, 1999, 2000, 2001,
        2009, 2010, 2016, 2017, 2024, 2038, 2100, 2400, 9996, 9998, 9999,
    ] {
        all.push(Moment::new([year, 1, 1, 0, 0, 0]));
        all.push(timed(&mut random, year, 2, month_length(year, 2)));
        all.push(timed(&mut random, year, 3, 1));
        all.push(Moment::new([year, 12, 31, 23, 59, 60]).with_offset(0));
    }
    // 28 years have every weekday of 1 January, before and after leap years and others
    for year in 1995..2023 {
        for (month, day) in [(12, 28), (12, 29), (12, 30), (12, 31), (1, 1), (1, 2), (1, 3), (1, 4)] {
            all.push(timed(&mut random, year, month, day));
        }
    }
    for hour in 0..24 {
        all.push(Moment::new([1934, 3, 5, hour, 59 - hour, hour + 37]));
    }
    for month in 1..=12 {
        all.push(timed(&mut random, 2023, month, month + 8));
    }
    for _ in 0..200 {
        let (year, month, day) = random.pick(&cal.days).date();
        all.push(timed(&mut random, year, month, day));
    }
    all
}

impl Cases<'_> {
    pub fn add(&mut self, moment: Moment, room: usize, format: impl AsRef<[u8]>) {
        self.all.push(Case { moment, room, format: format.as_ref().to_vec() });
    }

    /// How many bytes a writing takes: what the writer answers where there is no room at all.
    pub fn needed(&self, moment: &Moment, format: &[u8]) -> usize {
        write(self.cal, format, moment, 0).1 as usize
    }

    fn written(&mut self) {
        let every = moments(self.cal);
        let plain: Vec<String> = PLAIN.iter().map(|l| format!("%{}", *l as char)).collect();
        let pairs: Vec<String> = PAIRS.iter().map(|p| format!("%{p}")).collect();
        // every conversion on every moment, several in a line, and every pair on every fourth
        let lines = [plain[..30].join("|"), plain[30..].join("|"), pairs.join(" ")];
        for (place, m) in every.iter().enumerate() {
            for format in if place % 4 == 0 { &lines[..] } else { &lines[..2] } {
                self.add(*m, self.needed(m, format.as_bytes()) + 5, format);
            }
        }
        // every conversion alone, in a buffer that is longer, just long enough, one byte short, and empty
        for (place, format) in plain.iter().chain(&pairs).chain([&"%n".to_string()]).enumerate() {
            for m in every[place % 7..].iter().step_by(83) {
                let just = self.needed(m, format.as_bytes());
                self.add(*m, just, format);
                self.add(*m, just.saturating_sub(1), format);
            }
            self.add(MORNING, MOST, format);
            self.add(MORNING, 0, format);
        }
        // texts that fit just, or just not
        for format in ["", "x", "%%", "margin", "%A, %e %B %Y", "%c", "%c %c", "%r%n%t%x", "%F\x0b%R\x0c\r", "at %H:%M%% of %F"] {
            for fields in [MORNING.fields, [1, 1, 1, 0, 0, 0], [2022, 9, 28, 12, 0, 60], [9999, 12, 31, 23, 59, 60]] {
                let m = Moment::new(fields);
                let just = self.needed(&m, format.as_bytes());
                let mut rooms = vec![0, just.saturating_sub(1), just, just + 1, MOST];
                rooms.dedup();
                for room in rooms {
                    self.add(m, room, format);
                }
            }
        }
        // bytes of every value copy themselves
        for some in [0..=127, 128..=255] {
            let format: Vec<u8> = some.filter(|b| !b"%\n".contains(b)).collect();
            self.add(MORNING, MOST, format);
        }
    }

    /// Flags and widths: each flag that a conversion takes, with no width and with widths about its own, and the widest.
    fn columns(&mut self) {
        let plain = PLAIN.iter().map(|l| (*l as char).to_string());
        for tail in plain.chain(PAIRS.iter().map(|p| p.to_string())) {
            let letter = tail.as_bytes()[tail.len() - 1];
            for flag in flags_of(letter) {
                for m in APART {
                    let own = self.needed(&m, format!("%{tail}").as_bytes());
                    let widths = ["".to_string(), "1".to_string(), own.to_string(), (own + 1).to_string()];
                    let format = widths.map(|width| format!("%{flag}{width}{tail}")).join("|");
                    let just = self.needed(&m, format.as_bytes());
                    self.add(m, just + 2, &format);
                    self.add(m, just - 1, &format);
                }
                let format = format!("%{flag}99{tail}");
                let just = self.needed(&MORNING, format.as_bytes());
                self.add(MORNING, just, &format);
                self.add(MORNING, just - 1, &format);
            }
        }
        for format in ["%_5d %^12A %-H", "%5m|%_5m", "%-d.%-m.%-Y %-k:%M", "%^p%^P%3p%_3H", "%010Y%_10Y%-10Y", "%c %^c", "%20c"] {
            for m in APART {
                self.add(m, 40, format);
            }
        }
    }

    /// Flags and widths that are refused: those of others, on composites and bytes, in another order, unfinished; and each byte after some.
    fn refused_columns(&mut self) {
        let plain = PLAIN.iter().map(|l| (*l as char).to_string());
        for tail in plain.chain(["n", "s", "Ec", "Ex", "EX", "Ey", "Od"].map(String::from)) {
            let letter = tail.as_bytes()[tail.len() - 1];
            for flag in ["_", "-", "0", "^"] {
                if !flags_of(letter).contains(&flag) {
                    self.add(MORNING, 20, format!("%{flag}{tail}"));
                }
            }
            if flags_of(letter).is_empty() {
                self.add(MORNING, 20, format!("%5{tail}"));
            } else {
                self.add(MORNING, 20, format!("%00{tail}"));
                self.add(MORNING, 20, format!("%100{tail}"));
            }
        }
        for bad in [
            "%_", "%-", "%0", "%^", "%5", "%99", "%05", "%^5", "%5E", "%_O", "%-5E", "%5^a", "%_-d", "%-_d", "%__d", "%00d", "%005d",
            "%_05d", "%^05a", "%100d", "%0100d", "%E5y", "%E_y", "%O-d", "%O5d", "%5EQ", "%^Ey", "%_Ec", "%5Oc", "%+d", "%#a", "%+5Y",
            "%5 d", "%5%d", "%_%d", "%^5d", "%_5a", "%-5Q", "%5s", "%_N", "%5+",
        ] {
            for before in ["", "%5d%^a%%", "margin %_5e "] {
                self.add(MORNING, 50, format!("{before}{bad}"));
            }
        }
        // before 4 and after 2, and only the first
        self.add(MORNING, 0, "%5d%^d%_a");
        self.add(Moment::new([1934, 3, 32, 7, 8, 9]), 20, "%5d%^d");
        for head in ["%^", "%_5"] {
            for byte in (0..=255).filter(|b| *b != b'\n') {
                self.add(MORNING, 12, cat(&[head.as_bytes(), &[byte]]));
            }
        }
        // formats of just 1,024 bytes: the longest writing, and a conversion that they cut
        for format in [b"%99d".repeat(256), cat(&[&b"%-9d".repeat(255), b"x%_5"])] {
            self.add(MORNING, MOST, &format);
        }
    }

    /// Every refusal, each at several places and before those that come after it.
    fn refused(&mut self) {
        let xs = |n: usize| vec![b'x'; n];
        // 1: also where the moment is not valid, the format unknown and the buffer empty
        for format in [xs(1025), vec![b'%'; 1025], b"%Y".repeat(600), cat(&[b"%Q", &xs(1023)]), cat(&[b"%", &[0; 2000]])] {
            self.add(MORNING, MOST, &format);
            self.add(Moment::new([0, 0, 0, 24, 60, 61]).with_offset(1440), 0, &format);
        }
        // and formats of just 1,024 bytes: 4 with what they need, or 3
        for format in [
            xs(1024),
            vec![b'%'; 1024],
            b"%c".repeat(512),
            cat(&[&b"%Ec".repeat(341), b"x"]),
            b"%n".repeat(512),
            b"%S".repeat(512),
            cat(&[&xs(1023), b"%"]),
            cat(&[&xs(1022), b"%E"]),
            cat(&[&xs(1021), b"%Ed"]),
            cat(&[&b"%Y".repeat(511), b"%Q"]),
        ] {
            self.add(MORNING, MOST, &format);
            self.add(MORNING, 0, &format);
            self.add(Moment::new([1934, 3, 5, 7, 8, 61]), MOST, &format);
        }
        self.bad_moments();
        // 3: each byte after %, after %E and after %O, which shows too that all the known ones are taken
        for head in ["%", "%E", "%O"] {
            for byte in (0..=255).filter(|b| *b != b'\n') {
                self.add(MORNING, 30, cat(&[head.as_bytes(), &[byte]]));
            }
        }
        for bad in ["%", "%E", "%O", "%Ed", "%Oc", "%Q", "%EE", "%OO", "%E%", "%Ez", "%Os", "%Z", "%+", "%N", "%EQy"] {
            for before in ["", "x", "%%", "%d", "%Od%Ey", "margin %c ", &"%".repeat(40)] {
                self.add(MORNING, MOST, format!("{before}{bad}"));
                self.add(MORNING, 0, format!("{before}{bad} %Y"));
            }
        }
        for format in [&b"%Q%Q"[..], b"%Q%", b"%d%E %Q", b"%%%", b"%%%%%", b"%%Q", b"% d", b"%\0", b"\0%\xff"] {
            self.add(MORNING, 10, format);
        }
    }

    /// 2: each field too low and too high, also where its lowest 8 or 16 bits are not; then the first of several bad ones, before 3 and 4.
    fn bad_moments(&mut self) {
        let bad: [&[u32]; 6] = [&[0, 10000], &[0, 13], &[0, 32], &[24], &[60], &[61]];
        for field in 0..6 {
            let wide = [(1 << 8) + MORNING.fields[field], (1 << 16) + MORNING.fields[field], 1 << 31, u32::MAX];
            for value in bad[field].iter().chain(&wide) {
                let mut m = MORNING;
                m.fields[field] = *value;
                self.add(m, MOST, "%c");
                self.add(m, 3, "%c");
                self.add(m, MOST, "");
                self.add(m, 0, "%");
                for later in field + 1..6 {
                    let mut m = m;
                    m.fields[later] = u32::MAX;
                    self.add(m, MOST, "%F %T");
                }
                self.add(m.with_offset(1440), MOST, "%F %T%z");
            }
        }
        for year in [1, 4, 100, 400, 1582, 1900, 1934, 1996, 2000, 2100, 2400, 9996, 9999] {
            for (month, day) in
                [(2, 28), (2, 29), (2, 30), (4, 30), (4, 31), (6, 31), (9, 31), (11, 31), (1, 31), (1, 32), (12, 31), (12, 32)]
            {
                self.add(Moment::new([year, month, day, 0, 0, 0]), 20, "%F %j");
            }
        }
        for second in [59, 60, 61] {
            for minute in [0, 59, 60] {
                for hour in [0, 12, 23, 24] {
                    self.add(Moment::new([2000, 2, 29, hour, minute, second]), 20, "%T %r");
                }
            }
        }
    }
}

pub fn make(cal: &Calendar, input_path: &Path, output_path: &Path) -> std::io::Result<()> {
    let mut cases = Cases { cal, all: Vec::new() };
    cases.written();
    cases.refused();
    cases.columns();
    cases.refused_columns();
    cases.offsets();
    let (mut input, mut output) = (Vec::new(), Vec::new());
    let mut counts = Counts::default();
    for Case { moment: m, room, format } in &cases.all {
        assert!(!format.contains(&b'\n') && *room <= MOST);
        let (number, place, mut buffer) = write(cal, format, m, *room);
        if number == 0 && c_library::alike(format, m) {
            assert_eq!(buffer, c_library::strftime(cal, format, m), "the C library, {m:?} {format:?}");
            counts.count("as the C library writes".to_string());
        }
        counts.count(format!("number {number}"));
        buffer.resize(*room, b'#');
        let fields: Vec<String> = m.fields.iter().map(|field| field.to_string()).collect();
        let offset = m.offset.map_or("?".to_string(), |minutes| format!("{minutes:+}"));
        input.extend(cat(&[fields.join(" ").as_bytes(), format!(" {offset} {room} ").as_bytes(), format, b"\n"]));
        output.extend(cat(&[format!("{number} {place} [").as_bytes(), &buffer, b"]\n"]));
    }
    assert!(input.len() <= MOST_INPUT, "{} bytes are more than write_cases takes", input.len());
    fs::write(input_path, &input)?;
    fs::write(output_path, &output)?;
    println!("write_cases: {} cases, {} and {} bytes", cases.all.len(), input.len(), output.len());
    counts.print();
    Ok(())
}
