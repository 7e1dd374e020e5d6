//! Vectors for the reader: the input of the program read_cases, and what it must write.
//!
//! The input is pairs of lines: a format, and a text, each its own bytes up to the newline. A line of the output is
//! `number place date hour minute second offset | shown | examined | weekday month | reason`: what is unsaid is -, the offset is a sign and
//! minutes, shown has the first two days or hours of number 10, examined is how many days the skipping engine examined, then come the forms
//! of names: -, full, middle or short. The reason of number 9 is the kinds that quarrel, each with its words as kind:from-next; that of 10
//! is year, month or day, or `hours` and the two; any other number has none, -.
//!
//! Texts that the C library's strftime wrote for a known moment must moreover be read as that moment, where the format names one day and
//! one hour, and an offset if it has a %z.
use crate::{cat, Counts};
use compare::c_library;
use compare::random::Random;
use compare::rules::{self, explain, forms_of, numeric, write, Calendar, Engine, Form, Moment, Reading, Reason, MONTHS, WEEKDAYS};
use std::fs;
use std::path::Path;

/// The bytes of the input that read_cases takes.
const MOST: usize = 262_144;

/// Formats by which a text names one day, one hour, or both.
const DAY_FORMATS: [&str; 22] = [
    "%Y-%m-%d",
    "%F",
    "%d %b %Y",
    "%e %B %Y",
    "%a %d %h %Y",
    "%A, %B %e, %Y",
    "%Y %j",
    "%C%y %j",
    "%C %y %m %d",
    "%D %C",
    "%x %EC",
    "%G %V %u",
    "%G-W%V-%u",
    "%G %V %a",
    "%C %g %V %w %Y",
    "%Y %U %a",
    "%Y %U %w",
    "%Y %W %w",
    "%Y %W %A",
    "%y %C %U %u",
    "%OU %Ow %EY",
    "%j of %Y, %A, week %V of %G, %U, %W",
];
const HOUR_FORMATS: [&str; 15] =
    ["%H", "%k", "%I %p", "%l%P", "%H:%M", "%R", "%T", "%X", "%r", "%I:%M:%S %P", "%OH.%OM.%OS", "%OI %p %M", "%H %I %p", "%T%z", "%z%R"];
const BOTH_FORMATS: [&str; 13] = [
    "%c",
    "%Ec",
    "%d %b %Y %H:%M",
    "%F %T",
    "%FT%T",
    "%x %X %C",
    "%D %r %G %Y",
    "%T, %A %e %B %Y",
    "%G%V%u %k:%M",
    "%FT%T%z",
    "%a, %d %b %Y %T %z",
    "%c %z",
    "%z %Y %j%z%H%z%M",
];

/// The same kind of fact twice: the same is fine, another is 8 at its first digit or letter.
const SAID_TWICE: &str = "
%Y %Y: 1934 1934 | 1934 1935 | 34 0034
%Y  %EY: 2000   2000 | 2000   2001
%C %EC: 19 19 | 19 20
%y %Ey %Oy: 34 34 34 | 34 34 35 | 4 04 4
%m %b: 3 mar | 3 apr | 13 mar
%B %h %Om: May MAY 5 | May june 5 | May may 6
%d %e: 5 5 | 5  05 | 5 6 | 5 32
%Od-%Oe: 31- 31 | 31- 30
%j,%j: 64,064 | 64,065
%u %w: 7 0 | 7 7 | 1 1 | 1 0
%a %u %w: Sun 7 0 | sunday 7 1 | Mon 7 0
%a%A: MonMonday | MondayMon | MonTue | TuesdayTue | SunSunday
%Ou %Ow: 6 6 | 6 5
%U %OU: 9 09 | 9 10
%W %OW: 53 53 | 53 0
%G %G: 1934 1934 | 1934 1933
%g %g: 34 34 | 34 33
%V %OV: 10 10 | 10 11
%H %k: 7  7 | 7  8
%H %R: 7 7:08 | 7 8:08
%I %l: 12 12 | 12 1
%p %P: AM am | pm PM | AM pm
%M %M: 8 08 | 8 9
%S %OS: 60 60 | 60 0
%T %R: 07:08:09 7:8 | 07:08:09 7:9
%D %F: 03/05/34 1934-03-05 | 03/05/34 1934-03-06 | 03/05/34 1934-04-05 | 03/05/35 1934-03-05
%c %x: Mon Mar  5 07:08:09 1934 03/05/34 | Mon Mar  5 07:08:09 1934 03/06/34
";

/// Names that follow one another, beside numbers and halves of the day, and before refusals of every number.
const NAMES: &str = "
%c: Thurs Sept  6 07:08:09 1934 | tHUR September 6 7:8:9 1934 | Thursday Sep 6 7:8:9 1934 | Thu SEPT 6 7:8:9 1934 | Thursd Sep 6 7:8:9 1934
%Ec: Tues May  8 07:08:09 1934 | Tue may 8 7:8:9 1934 | Tuesday MAYS 8 7:8:9 1934
%F %a %A: 2000-02-29 Tue Tues | 2000-02-29 Tues Tue | 2000-02-29 Tuesday Tues | 2000-02-29 Tues Tuesday | 2000-02-29 Tue Tuesday
%F %a%A%a: 2000-03-02 ThurThursThur | 2000-03-02 ThuThurThursday | 2000-03-02 ThursdayThursThu | 2000-03-02 ThurThursdThu
%F %b%B%h: 1934-09-06 SeptSeptemberSep | 1934-09-06 SepSeptSept | 1934-09-06 SeptemberSepSept | 1934-09-06 SepSepSeptember
%F %B %h: 1934-05-08 may MAY | 1934-06-08 Jun June | 1934-06-08 June Jun
%F %a %b %a: 1934-09-06 Thu September Thurs | 1934-09-06 Thursday Sep Thu
%b %a %F %B: Sept Thurs 1934-09-06 Sep | Sep Thursday 1934-09-06 Sept
%F %a %u %w: 2000-02-29 Tues 2 2 | 2000-02-29 Tuesday 2 2 | 2000-02-29 Tues 2 3
%u %w %F %A: 4 4 2000-03-02 Thur | 4 4 2000-03-02 Thursday
%b %F %m: Sept 1934-09-06 9 | September 1934-09-06 09 | Sept 1934-09-06 10
%m %d %Y %h: 9 6 1934 Sept | 9 6 1934 Sep
%F %u: 2000-02-29 2
%I %p %a %F: 7 PM Thurs 1934-09-06 | 7 am Thu 1934-09-06
%a %F %I %p: Thurs 1934-09-06 7 PM | Thu 1934-09-06 12 am
%I%p: 7AM | 7Am | 7aM | 7pm | 7pM | 7A | 7P | 7AMs | 7PM4 | 7A.M | 7 AM
%P%I: AM7 | Pm07 | A7 | pms7 |  PM7 | P\0M7
%ad %F: Tuesd 2000-02-29 | Tuesdayd 2000-02-29 | Tued 2000-02-29 | Tues 2000-02-29
%as %F: Tues 2000-02-29 | Tuess 2000-02-29 | Tue 2000-02-29 | Thurs 2000-03-02 | Thurss 2000-03-02
%at %bt: Sat Sept | Satt Septt | Saturdayt Septembert
%a: Tues | Thur | Thurs | Thursd | Sept
%b: Sept | septem | May | Thurs
%d %b: 6 Sept | 31 Sept | 6 Septs
%a %b %Y: Tues Sept | Tues Sept x
%a %b %d: Tues Sept 32 | Tues September 0
%a %A: Tues Wed | Thurs Tues | Thur Thurs
%b %m: Sept 9 | Sept 8 | May 5
%F %a: 2000-02-29 Thurs | 2000-03-02 Tues | 2000-02-30 Tues
%F %b: 1934-09-06 Octo | 1934-09-06 Septum
%F %a %H %p: 2000-02-29 Tues 7 PM | 2000-02-29 Tues 7 AM
%F %a %I: 2000-02-29 Tues 7
%a %b %Q: Tues Sept
%a %b %: Tues Sept
";

/// Facts that agree with one day, with none and with several, and each kind alone.
const DAYS: &str = "
%G %V %u: 2009 53 5 | 2016 53 7 | 2010 1 1 | 1 1 1 | 9999 52 5 | 9999 52 6 | 2020 53 7
%G %V: 2009 53 | 2016 53 | 9999 52
%G %u: 2009 4
%g %V: 9 53 | 16 53 | 0 53 | 99 53
%g %V %u: 99 52 5 | 0 1 1 | 04 53 7
%G %m %d: 2009 1 1 | 2009 12 31 | 2010 1 1 | 2008 12 29 | 2008 12 28
%G %j: 2009 1 | 2009 365 | 2004 366 | 2010 1
%G %y: 2009 10 | 2010 9 | 2009 11 | 1 1
%G %Y: 2009 2010 | 2009 2011 | 2010 2009 | 2015 2016 | 2009 2008 | 9999 9998
%G %Y %a: 2009 2010 Fri | 2009 2010 Thu | 2009 2010 Sun | 2009 2008 Mon
%Y %U %a: 1934 9 Mon | 2017 0 Sun | 2017 1 Sun | 2017 53 Sun | 2000 53 Sun | 2000 0 Sat
%Y %W %w: 1934 10 1 | 2018 0 1 | 2018 1 1 | 2018 53 1 | 2018 52 0 | 2017 0 0
%Y %U: 2017 53 | 2012 53 | 2017 0 | 2000 0
%Y %W: 2017 0 | 2018 53 | 2018 0
%U %W: 0 0 | 53 52 | 53 53 | 0 1 | 1 0 | 0 53 | 10 12
%U %V: 0 53 | 53 1 | 0 1 | 10 30
%Y %U %W %V: 2023 1 0 52 | 2023 1 0 53
%C %y %j: 19 34 64 | 19 0 366 | 20 0 366 | 0 0 1 | 0 1 1 | 99 99 365 | 99 99 366
%C %y: 00 00 | 0 1 | 19 34
%C %g %V %u: 20 9 53 5 | 19 34 10 1 | 0 0 1 1 | 0 1 1 1
%y %j: 0 366 | 1 366 | 34 64
%d %b: 5 mar | 29 feb | 30 feb | 31 apr | 31 dec | 1 jan
%d %b %C: 29 feb 0 | 29 feb 19 | 30 feb 20
%m %d %y: 2 29 0 | 2 29 4 | 2 29 1 | 2 29 97
%m %d %a %C: 2 29 Tue 20 | 2 29 Mon 0 | 2 29 Sun 15 | 2 29 Sun 18
%j %m: 60 2 | 60 3 | 60 4 | 366 12 | 366 1 | 1 1
%j %d: 366 31 | 366 30 | 60 1 | 60 29 | 60 2
%j %U %W: 366 53 53 | 366 0 53 | 7 1 1 | 7 2 1
%a %d %b %Y: Tue 5 Mar 1934 | Mon 5 Mar 1934 | tuesday 29 february 2000 | Thu 29 Feb 1900
%a %j %Y: Mon 1 1 | Tue 1 1 | Fri 365 9999 | Fri 366 9999
%F: 0001-01-01 | 9999-12-31 | 1-1-1 | 1900-02-29 | 2000-02-30
%a %d: Mon 31 | Fri 13
%a %d %m %C %y: Fri 13 2 26 26 | Fri 13 2 20 26
%V %d %b: 53 1 jan | 1 31 dec | 52 28 dec | 1 4 jan | 2 4 jan | 53 27 dec
%V %d %b %Y: 53 1 jan 2010 | 1 31 dec 2012 | 1 28 dec 2012
%C %y %m %d: 0 0 1 1 | 99 99 12 31 | 0 4 2 29
%y %d %b %a: 0 29 feb Tue | 0 29 feb Mon | 99 1 jan Fri
%y %m: 0 2 | 99 12
%C %m %d: 15 2 29 | 99 12 31
%Y %C: 1934 19 | 1934 20
%Y %y %m: 1934 34 3 | 1934 35 3
%G %y %m: 2009 10 1 | 2009 9 12
%G %C: 9999 99 | 100 0 | 2000 19 | 1999 20
%g %C %y: 0 0 99 | 0 19 99 | 99 20 0
%g %m %d %u: 15 1 1 5 | 4 1 1 6
%y %j %u: 0 366 7 | 0 366 1 | 96 366 2
%U %W %a: 53 52 Sun | 53 52 Mon
%y: 0 | 34
%C: 0 | 99
%Y: 1 | 9999
%m: 2
%d: 31
%j: 366 | 1
%a: sun
%u: 3
%w: 0
%U: 0 | 53
%W: 0 | 53
%G: 1 | 9999
%g: 0 | 99
%V: 1 | 53
";

pub struct Cases<'a> {
    pub cal: &'a Calendar,
    pub random: Random,
    all: Vec<(Vec<u8>, Vec<u8>)>,
}

/// Letters of the other case.
pub fn swapped(text: &str) -> String {
    text.chars().map(|c| if c.is_ascii_lowercase() { c.to_ascii_uppercase() } else { c.to_ascii_lowercase() }).collect()
}

impl Cases<'_> {
    pub fn add(&mut self, format: impl AsRef<[u8]>, text: impl AsRef<[u8]>) {
        self.all.push((format.as_ref().to_vec(), text.as_ref().to_vec()));
    }

    /// Moments of years that the C library writes as we do: ends of years, and others; with any offset.
    fn moments(&mut self, count: usize) -> Vec<Moment> {
        let mut all = vec![[2000, 2, 29, 23, 7, 8]];
        for year in [1000, 1582, 1900, 1999, 2000, 2009, 2010, 2016, 2017, 2024, 9999] {
            all.push([year, 1, 1, 0, 0, 0]);
            all.push([year, 12, 31, 12, 59, 60]);
        }
        let first = self.cal.place(1000, 1, 1);
        for _ in 0..count {
            let (year, month, day) = self.random.pick(&self.cal.days[first..]).date();
            all.push([year, month, day, self.random.from(0, 23), self.random.from(0, 59), self.random.from(0, 60)]);
        }
        all.into_iter().map(|fields| Moment::new(fields).with_offset(self.offset())).collect()
    }

    /// Any offset, the ends among them.
    fn offset(&mut self) -> i32 {
        let any = self.random.from(0, 2 * 1439) as i32 - 1439;
        *self.random.pick(&[any, any, any, -1439, -30, 0, 1439])
    }

    /// Texts by the C library, and in other hands: letters of either case, zeros left out, more white space, more text.
    fn read_back(&mut self, formats: &[&str], names_day: bool, names_hour: bool) {
        for format in formats {
            let moments = self.moments(20);
            let mut last = String::new();
            for m in self.random.sample(&moments, 7) {
                let text = String::from_utf8(c_library::strftime(self.cal, format.as_bytes(), &m)).unwrap();
                let r = read(self.cal, format.as_bytes(), text.as_bytes());
                assert_eq!((r.number, r.place as usize), (0, text.len()), "{text} by {format}");
                let [_, _, _, hour, minute, second] = m.fields;
                assert_eq!(r.day, if names_day { Some(m.date()) } else { None }, "{text} by {format}");
                assert_eq!(r.hour, if names_hour { Some(hour) } else { None }, "{text} by {format}");
                assert!(r.minute.unwrap_or(minute) == minute && r.second.unwrap_or(second) == second, "{text} by {format}");
                assert_eq!(r.offset, if format.contains("%z") { m.offset } else { None }, "{text} by {format}");
                self.add(format, &text);
                last = text;
            }
            self.add(format, swapped(&last));
            self.add(format, last.to_lowercase() + " and more");
            self.add(format, last.replace(" 0", " "));
            self.add(format, last.replace(' ', " \t "));
            self.add(format, format!(" \t{last}"));
        }
    }

    /// Good texts with one byte changed, lost or doubled, at every place.
    fn damaged(&mut self) {
        for (format, text) in [
            ("%d %b %Y %H:%M", "5 Mar 1934 07:08"),
            ("%c", "Mon Mar  5 07:08:09 1934"),
            ("%F", "2000-02-29"),
            ("%G-W%V-%u", "2009-W53-5"),
            ("%I:%M %p", "12:30 AM"),
            ("%A %U %Y", "Wednesday 36 2022"),
            ("%j%y%C", "3669619"),
            ("%H%z%S", "07-013009"),
        ] {
            let text = text.as_bytes();
            for at in 0..text.len() {
                let (before, after) = (&text[..at], &text[at + 1..]);
                for byte in [0, 13, 32, 48, 57, 120, 255, text[at] ^ 32] {
                    self.add(format, cat(&[before, &[byte], after]));
                }
                self.add(format, cat(&[before, after]));
                self.add(format, cat(&[before, &[text[at], text[at]], after]));
                self.add(format, before);
            }
        }
    }

    /// Each numeric conversion at both ends of its range, with zeros and without, with too many digits and with none.
    fn numbers(&mut self) {
        for letter in b"YGCygmdejHkIlMSUWVuw" {
            let (_, width, low, high) = numeric(*letter).unwrap();
            let format = format!("%{}", *letter as char);
            let below = low.checked_sub(1);
            for value in below.into_iter().chain([low, low + 1, high - 1, high, high + 1, 10u32.pow(width as u32) - 1]) {
                self.add(&format, value.to_string());
                self.add(&format, format!("{value:0width$}"));
                self.add(format!("{format} end"), format!(" \t{value} end"));
            }
            for text in ["", " ", "-1", "+1", "x", " \t x", "0", "00", "000", "0000", "000000000", "111111111", "1x", "1 2", ":", "/"] {
                self.add(&format, text);
            }
            self.add(&format, b"\xb1");
            // two numbers with nothing between them: the first takes all the digits that it may
            self.add(format!("{format}%M"), "123456");
            self.add(format!("%M{format}"), "123456");
        }
    }

    /// Weekdays and months: each beginning of the full name, up to one letter too many; each form in small letters and in capitals, and
    /// with a letter after it; and damaged. Before it or after it stands what leaves one day for each name.
    fn names(&mut self) {
        for (letters, names, beside, said) in [("aA", &WEEKDAYS[..], "%G%V", "200009"), ("bBh", &MONTHS, "%Y%d", "200001")] {
            for (place, name) in names.iter().enumerate() {
                let letter = place % letters.len();
                let format = format!("%{}", &letters[letter..letter + 1]);
                let mut texts: Vec<String> = (1..=name.len()).map(|n| name[..n].to_string()).collect();
                for (form, _) in forms_of(name) {
                    texts.extend([form.to_lowercase(), form.to_uppercase(), format!("{form}s")]);
                }
                let (short, rest) = name.split_at(3);
                texts.extend([swapped(name), format!("{short}.{rest}"), format!(" {short}"), format!("{}\0{}", &name[..2], &name[2..])]);
                texts.sort();
                texts.dedup();
                for text in texts {
                    self.add(format!("{beside}{format}"), format!("{said}{text}"));
                    self.add(format!("{format}{beside}"), format!("{text}{said}"));
                }
            }
        }
        // the byte 32 away from a letter counts as that letter only where it is one
        for text in [&b"M\x4fN"[..], b"m\x0fn", b"Mo\xce", b"\x2don", b"aM", b"A-", b"\x01m", b"mAY", b"may", b"Ma\x99"] {
            for format in ["%a", "%b", "%p"] {
                self.add(format, text);
            }
        }
    }

    /// Pairs from lines of the form `FORMAT: TEXT | TEXT | TEXT`.
    pub fn table(&mut self, lines: &str) {
        for line in lines.trim().lines() {
            let (format, texts) = line.split_once(": ").unwrap();
            for text in texts.split(" | ") {
                self.add(format, text);
            }
        }
    }

    /// Hours of the day by both clocks, alone and beside a day.
    fn hours(&mut self) {
        for hour in 0..24 {
            let text = format!("{} {}", (hour + 11) % 12 + 1, if hour < 12 { "AM" } else { "pm" });
            self.add("%I %p", &text);
            self.add("%l %P", &text);
            self.add("%H %I %p", format!("{hour} {text}"));
            self.add("%k %p", format!("{hour} PM"));
            self.add("%H %I", format!("{hour} {}", hour % 11 + 1));
        }
        for hour in 0..14 {
            self.add("%I", format!("{hour:02}"));
            self.add("%d %b %Y %I", format!("5 Mar 1934 {hour:02}"));
            self.add("%d %b %I", format!("5 Mar {hour:02}"));
            self.add("%F %H %I", format!("1900-02-29 7 {hour}"));
        }
        for format in ["%p", "%P", "%p %F", "%p %d %b", "%M %p", "%S %p"] {
            for half in ["AM", "pm", "Pm", "xm"] {
                self.add(format, format!("{half} 2000-02-29"));
                self.add(format, format!("{half} 29 Feb"));
                self.add(format!("%M:%S{format}"), format!("7:08{half}"));
            }
        }
        for text in ["12:00:00 AM", "12:00:00 PM", "11:59:60 pm", "00:00:00 AM", "13:00:00 PM", "07:08:09", "7:8:9am"] {
            self.add("%r", text);
        }
        self.add("%M", "59");
        self.add("%S", "60");
        self.add("%M%S", "0000");
        self.add("%M %p", "7 AM");
        self.add("%S %I", "60 12");
        self.add("%M %Y", "7 1934");
        self.add("%M %F", "8 1934-03-05");
        self.add("%H%M", "930");
        self.add("%I:%M", "07:08");
    }

    /// Runs of white space, %n and %t, where they are taken and where not.
    fn white_space(&mut self) {
        for format in [
            "%H %M",
            "%H\t%M",
            "%H%n%M",
            "%H%t%M",
            "%H  %M",
            "%H:%M",
            " %H%M ",
            "%H% M",
            "%H %%%M",
            "%H%%%M",
            "%p%t%I",
            "%I%p",
            "%b%n%d%t%Y",
            "%H:%M\r",
            "\r%H\x0b%M\x0c",
            "%H\r%%%M",
            "%n",
            "%t ",
            " ",
            "\r",
        ] {
            for text in [
                "7 8",
                "7\t8",
                "7 \t \t 8",
                "78",
                "07:08",
                "7: 8",
                " 7 8 ",
                "0708",
                "%",
                "7%8",
                "7 %8",
                "7% 8",
                "AM 7",
                "7AM",
                "7 AM",
                "mar5 1934",
                "mar 51934",
                "07:08\r",
                "\r7\x0b\t \x0c\r8\r\r",
                "7\r%8",
                "\x0cAM",
                "",
                " ",
                " \t ",
                "\t\x0b\x0c\r ",
            ] {
                self.add(format, text);
            }
        }
        for byte in [0, 8, 9, 11, 12, 13, 14, 28, 31, 32, 33, 127, 133, 160, 255] {
            let around = cat(&[b"%H", &[byte], b"%M"]);
            self.add("%H %M", [b'7', byte, b'8']);
            self.add("%H", [byte, b'7']);
            self.add("%p", [byte, b'A', b'M']);
            self.add([b'%', b'H', byte], "7");
            self.add(&around, [b'7', byte, b'8']);
            self.add(&around, [b'7', b' ', byte, b' ', b'8']);
        }
    }

    /// Refusals 1, 5 and 3, their order, and formats and texts of just 1,024 bytes.
    fn limits(&mut self) {
        let (long, full) = ("x".repeat(1025), "x".repeat(1024));
        let margin = "Mon Mar  5 07:08:09 1934";
        self.add(&long, "");
        self.add(&long, &long);
        self.add(format!("%Q{full}"), &long);
        self.add("%Q", &long);
        self.add("%Q", &full);
        self.add("", "x");
        self.add("", &long);
        self.add("%d", format!("5{full}"));
        self.add(&full, &full);
        self.add(&full, &long);
        self.add(&full, &full[1..]);
        self.add(&full[1..], &full);
        self.add(&full, "x".repeat(1000) + &"y".repeat(24));
        self.add("%d", format!("5{}", &full[1..]));
        self.add(" ".repeat(1024), " ".repeat(1024));
        self.add("%n".repeat(512), "\t".repeat(1024));
        self.add("%%".repeat(512), "%".repeat(512));
        self.add("%%".repeat(512), "%".repeat(511));
        self.add("%H".repeat(512), "07".repeat(512));
        self.add("%H".repeat(512), "07".repeat(511) + "08");
        self.add("%H".repeat(512), "07".repeat(511));
        self.add("%T".repeat(60), "07:08:09".repeat(60));
        self.add("%EY".repeat(341), "1934".repeat(256));
        self.add("%EY".repeat(256), "1934".repeat(256));
        self.add("%c".repeat(40), margin.repeat(40));
        self.add("%c".repeat(512), margin.repeat(42));
        for bad in ["%", "%E", "%O", "%Ed", "%Oc", "%Q", "%5m", "%-d", "%E%", "%s", "%Ez", "%Z", "%+"] {
            for before in ["", "%Y ", "%%%c", "x"] {
                self.add(format!("{before}{bad}"), "1934 x");
            }
        }
        // flags and widths, which the writer takes, or does not
        for bad in ["%_d", "%0d", "%^b", "%^P", "%5a", "%1j", "%05Y", "%_5Ey", "%-Oe", "%99S", "%10p", "%5c", "%^x", "%-%", "%5n"] {
            for before in ["", "%Y ", "%%%c"] {
                self.add(format!("{before}{bad}"), "1934 x");
            }
        }
        self.add("%M:%-d%Q", "8:5");
        self.add("%M:%Q%-d", "8:5");
        for byte in (0..=255).filter(|b| *b != b'\n') {
            self.add([b'%', byte], "1");
            self.add([b'%', b'E', byte], "1");
            self.add([b'%', b'O', byte], "1");
            self.add([b'%', b'M', byte], [b'7', byte]);
            self.add([b'%', b'M', byte], [b'7', if 255 - byte == b'\n' { 0 } else { 255 - byte }]);
        }
    }

    /// A few conversions drawn at random, with what one moment would write, the last sometimes of another day.
    fn drawn(&mut self, count: usize) {
        for _ in 0..count {
            let i = self.random.below(self.cal.days.len());
            let off = *self.random.pick(&[0, 0, 0, -7, -1, 1, 7, 30, 365]);
            let other = (i as i64 + off).clamp(0, self.cal.days.len() as i64 - 1) as usize;
            let clock = [self.random.from(0, 23), self.random.from(0, 59), self.random.from(0, 60)];
            let conversions = 1 + self.random.below(6);
            let letters = self.random.sample(b"YYCyymmbddejjauwUWGgVVHIIpMSzz", conversions);
            let offset = self.offset();
            let formats: Vec<String> = letters.iter().map(|l| format!("%{}", *l as char)).collect();
            let text_of = |place: usize| {
                let (year, month, day) = self.cal.days[if place + 1 == conversions { other } else { i }].date();
                let m = Moment::new([year, month, day, clock[0], clock[1], clock[2]]).with_offset(offset);
                String::from_utf8(write(self.cal, formats[place].as_bytes(), &m, 9).2).unwrap()
            };
            let texts: Vec<String> = (0..conversions).map(text_of).collect();
            let (format, text) = (formats.join(" "), texts.join(" "));
            // what one moment wrote agrees with that moment
            let number = read(self.cal, format.as_bytes(), text.as_bytes()).number;
            assert!(off != 0 || number == 0 || number == 10, "{text} by {format}");
            self.add(format, text);
        }
    }
}

/// As read_cases reads: by the skipping engine.
fn read(cal: &Calendar, format: &[u8], text: &[u8]) -> Reading {
    rules::read(cal, Engine::Skipping, format, text)
}

/// One line of the output.
fn line_of(r: &Reading, reason: Option<&Reason>) -> String {
    let date = |(y, m, d): (u32, u32, u32)| format!("{y:04}-{m:02}-{d:02}");
    let said = |n: Option<u32>| n.map_or("-".to_string(), |n| n.to_string());
    let day = r.day.map_or("-".to_string(), date);
    let shown = match (r.two_days, r.two_hours) {
        (Some([a, b]), _) => format!("{} {}", date(a), date(b)),
        (_, Some([a, b])) => format!("{a} {b}"),
        _ => String::new(),
    };
    let time = format!("{} {} {}", said(r.hour), said(r.minute), said(r.second));
    let offset = r.offset.map_or("-".to_string(), |minutes| format!("{minutes:+}"));
    let (weekday, month) = (form_name(r.forms.weekday), form_name(r.forms.month));
    format!("{} {} {day} {time} {offset} | {shown} | {} | {weekday} {month} | {}\n", r.number, r.place, r.examined, reason_of(reason))
}

fn reason_of(reason: Option<&Reason>) -> String {
    match reason {
        None => "-".to_string(),
        Some(Reason::Quarrel(named)) => {
            let all: Vec<String> = named.iter().map(|(kind, words)| format!("{kind}:{}-{}", words.from, words.next)).collect();
            all.join(" ")
        }
        Some(Reason::Differ(part)) => part.name().to_string(),
        Some(Reason::Hours([first, second])) => format!("hours {first} {second}"),
    }
}

/// A reason in the counts.
fn sort_of(reason: Option<&Reason>) -> String {
    match reason {
        None => "none".to_string(),
        Some(Reason::Quarrel(named)) => format!("{} kinds of the {}", named.len(), if named[0].0 <= 12 { "day" } else { "hour" }),
        Some(Reason::Differ(part)) => part.name().to_string(),
        Some(Reason::Hours(_)) => "hours".to_string(),
    }
}

fn form_name(form: Option<Form>) -> &'static str {
    match form {
        None => "-",
        Some(Form::Full) => "full",
        Some(Form::Middle) => "middle",
        Some(Form::Short) => "short",
    }
}

pub fn make(cal: &Calendar, input_path: &Path, output_path: &Path) -> std::io::Result<()> {
    let mut cases = Cases { cal, random: Random(1), all: Vec::new() };
    cases.read_back(&DAY_FORMATS, true, false);
    cases.read_back(&HOUR_FORMATS, false, true);
    cases.read_back(&BOTH_FORMATS, true, true);
    cases.damaged();
    cases.numbers();
    cases.names();
    cases.table(NAMES);
    cases.table(SAID_TWICE);
    cases.table(DAYS);
    cases.hours();
    cases.white_space();
    cases.limits();
    cases.drawn(400);
    cases.reasons();
    cases.offsets();
    let (mut input, mut output) = (Vec::new(), String::new());
    let mut counts = Counts::default();
    for (format, text) in &cases.all {
        assert!(!format.contains(&b'\n') && !text.contains(&b'\n'));
        let (reading, reason) = explain(cal, Engine::Skipping, format, text);
        counts.count(match reading.number {
            9 | 10 => format!("number {:>2}, place {}", reading.number, reading.place),
            number => format!("number {number:>2}"),
        });
        counts.count(format!("weekday {}", form_name(reading.forms.weekday)));
        counts.count(format!("month {}", form_name(reading.forms.month)));
        counts.count(format!("offset {}", if reading.offset.is_some() { "said" } else { "unsaid" }));
        counts.count(format!("reason {}", sort_of(reason.as_ref())));
        input.extend(cat(&[format, b"\n", text, b"\n"]));
        output += &line_of(&reading, reason.as_ref());
    }
    assert!(input.len() <= MOST, "{} bytes are more than read_cases takes", input.len());
    fs::write(input_path, &input)?;
    fs::write(output_path, &output)?;
    println!("read_cases: {} cases, {} and {} bytes", cases.all.len(), input.len(), output.len());
    counts.print();
    Ok(())
}
