//! Vectors for the reasons of refusals 9 and 10 (RULES 8.5), for the program read_cases.
use crate::cat;
use crate::read::{swapped, Cases};
use compare::rules::{explain, forms_of, Engine, Facts, Reason, HALVES, MONTHS, WEEKDAYS};

/// The conversion of each kind from 1 to 15; each but the last is a number.
const LETTERS: &[u8; 15] = b"YCymdjuUWGgVHIp";

/// Kinds by their conversions, and numbers in which just these kinds quarrel: every two kinds that can.
const TWO: &str = "
YC: 1934 20 | 1 1
Yy: 1934 35 | 2000 1
Yj: 1900 366 | 1934 366
YU: 2001 53 | 2017 0
YW: 2018 0 | 2017 53
YG: 2011 2009 | 9999 1
Yg: 1934 36 | 2000 98
YV: 2018 53 | 2017 53
Cy: 0 0
CG: 19 2034 | 0 1934
Cg: 0 0
yj: 1 366 | 99 366
yU: 7 53
yW: 61 53
yG: 11 2009 | 9 1
yg: 34 36 | 0 98
md: 2 30 | 4 31 | 2 31 | 11 31
mj: 1 366 | 3 1 | 12 334 | 2 61
mU: 1 53 | 6 7 | 12 0
mW: 6 7 | 2 0
mV: 3 53 | 7 1
dj: 30 366 | 2 1 | 31 59
dU: 30 6 | 31 10
dW: 15 18 | 8 0
dV: 4 2 | 15 5
jU: 308 6 | 1 2
jW: 295 23 | 366 51
jG: 366 9999 | 364 6222
jg: 366 47
jV: 308 7 | 4 2
uU: 7 0 | 3 53
uW: 1 0 | 6 53
UW: 10 12 | 36 7 | 0 2
UG: 0 3984
Ug: 53 1
UV: 36 7 | 10 30
WG: 53 3402
Wg: 53 98
WV: 18 7 | 0 2
Gg: 2009 10 | 1 0
GV: 2016 53 | 9999 53
gV: 0 53 | 77 53
HI: 7 8 | 0 1 | 12 1 | 23 12
Hp: 7 PM | 12 AM | 0 pm | 23 am
";

/// The same for five kinds, an example of each set that there is. No six kinds quarrel so, on the day, and no three on the hour.
const FIVE: &str = "
Cymdu: 0 61 3 20 5 | 19 34 3 5 7
CymuU: 99 14 8 3 30
CyduU: 4 14 17 5 24
CymuW: 4 49 4 3 13
CyduW: 99 73 12 4 32
ymjUW: 0 8 213 31 31
ydjUW: 0 25 206 30 30
CyuUW: 2 44 5 39 39
CmduG: 0 1 2 6 99
ymduG: 81 12 30 2 9981
CduUG: 0 2 6 0 99
yduUG: 80 29 1 52 280
CduWG: 0 3 7 0 99
yduWG: 82 3 7 0 82
Cymdg: 0 42 12 31 42
Cydug: 1 88 31 1 89
Cmdug: 3 4 2 5 49
ymdug: 52 12 30 2 52
Cdjug: 3 28 363 1 76
CydUg: 3 80 31 52 80
CyuUg: 2 51 1 52 51
CmuUg: 99 9 4 39 79
CduUg: 99 18 2 3 25
yduUg: 92 1 5 0 92
CmuWg: 3 8 2 35 59
CduWg: 3 18 5 20 8
yduWg: 9 3 7 0 9
ydUWg: 71 3 1 0 71
yjUWg: 99 3 1 0 99
mjUWg: 8 213 31 31 0
djUWg: 3 276 40 40 0
CuUWg: 2 4 7 7 83
CymuV: 1 11 5 1 18
CyduV: 99 31 7 4 32
ymjUV: 0 8 213 31 31
ydjUV: 0 9 129 19 19
CyuUV: 99 90 6 17 17
ymUWV: 8 2 9 8 9
ydUWV: 90 28 48 47 48
CyugV: 1 77 2 77 1
CmugV: 99 8 4 38 35
CdugV: 3 9 3 77 19
CjugV: 3 365 3 48 53
CdUgV: 2 3 1 1 1
CjUgV: 1 3 1 99 1
mjUgV: 8 213 31 0 31
djUgV: 12 346 50 0 50
CuUgV: 3 7 7 61 7
CuWgV: 4 3 52 76 1
mUWgV: 10 44 43 3 44
dUWgV: 19 51 50 34 51
";

/// The cases of RULES 8.5, and others: composites, kinds that are said twice, words after white space, more kinds than quarrel, the hour
/// with a day and without one, days that differ in each part, and hours.
const REASONS: &str = "
%a %d %b %Y: Tue 5 Mar 1934 | tue 05 march 1934 | Wed 5 Mar 1934
 %a %d %b %Y:   Tue 5 Mar 1934 | Tue 5 Mar 1934 | \t\x0c\rTue\t 5\x0b Mar\r\r1934 and more
%d %b %Y %H:%M: 29 Feb 1900 07:08 | 29 February 1901 0:0 | 31 Sept 1934 7:8
%d %b %Y: 30 Feb 1900 | 31 jun 2000 |  031 | 30 Feb 2000x
%C %y %d %b %Y: 19 33 5 Mar 1934 | 20 34 5 Mar 1934 | 20 33 5 Mar 1934 | 19 34 30 Feb 1934
%G %V %u: 2016 53 7 | 2016 53 1 | 9999 52 6
%C %y: 00 00 | 0 00
%a %u %d %b %Y: Tue 2 5 Mar 1934 | Tuesday 2 5 Mar 1934
%H %p: 7 PM | 07 pm | 12 AM | 0 pm | 7 AM
%H %I %p: 07 8 AM | 7 8 PM | 7 7 PM | 12 12 AM | 0 12 PM | 13 1 AM | 23 10 PM
%d %b %Y %H %p: 5 Mar 1934 7 PM | 30 Feb 1934 7 PM | 5 Mar 1934 12 am
%d %b: 5 mar | 29 feb | 30 feb | 31 Sept
%d %Y: 5 1934 | 31 1934 | 30 2000
%b %Y: Mar 1934 | Feb 9999
%a: Mon | Sunday
%I:%M: 07:08 | 12:00 | 1:59
%p: PM | am
%c: Tue Mar  5 07:08:09 1934 | Monday February 30 0:0:0 2000 | sun Feb 29 12:00:60 2000 | Mon Feb 29 7:8:9 1900 | Mon Sept 31 7:8:9 1900
%Ec %H: Mon Mar 5 7:8:9 1934 7 | Mon Mar 6 7:8:9 1934 7
%D: 02/30/34 | 2/29/1 | 2/29/0 | 3/5/34
%D %C: 02/29/00 19 | 2/29/00 20 | 02/29/99 19 | 2/29/01 00
%x %Y: 03/05/34 1933 | 3/5/34 1934 | 03/05/35 2034
%x %a %EC: 03/05/34 Tue 19 | 03/05/34 Sun 19 | 3/5/34 Mon 19 | 03/05/34 Wed 21
%F %a: 1934-03-05 Tue | 1900-02-29 Thu | 1934-02-30 Tues | 1-1-1 Sun
%F %j: 1934-03-05 65 | 2000-12-31 365 | 1934-03-05 064
%F %U %W %V: 1934-03-05 9 10 11 | 1934-03-05 9 9 10 | 1934-03-05 8 10 10 | 2000-01-01 0 0 1
%F %G %g %V %u: 2010-01-01 2010 9 53 5 | 2010-01-01 2009 10 53 5 | 2010-01-01 2009 9 53 6 | 2010-01-01 2009 9 52 5
%r %H: 07:08:09 PM 7 | 12:08:09 AM 12 | 7:8:9 pm 18 | 7:8:9 am 19 | 07:08:09 PM 19
%r %R: 07:08:09 PM 07:08 | 1:8:9 am 13:08 | 1:8:9 pm 02:08
%T %p: 07:08:09 PM | 19:08:09 am | 7:8:9 am
%F %r %k: 2000-02-29 07:08:09 PM  7 | 2000-02-30 07:08:09 PM  7
%X %I %d %m: 7:8:9 8 5 3 | 7:8:9 8 30 2
%F %I: 2000-02-29 7 | 2000-02-29 12 | 2000-02-30 7
%p %F: am 2000-02-29 | PM 2000-02-29 | PM 2000-02-30
%d %b %I: 5 mar 7 | 30 feb 7
%l %d %b %Y:  7  5 Mar 1934 | 12 31 Dec 9999
%I %M:%S: 12 34:56
%P%M: am7
%d %e %b %Y: 30 30 Feb 1900 | 30 030 Feb 1900
%e %b %d %Y: 29 Feb 29 1900
%b %m %d: Feb 2 30 | february 02 31
%m %B %h %d: 2 Feb february 30 | 02 february Feb 30
%Y %Y %C %EC: 1934 1934 20 20 | 1934 01934
%y %Ey %Oy %j %j: 1 01 1 366 366
%u %w %a %F: 7 0 Sun 1934-03-05 | 1 1 Mon 1934-03-04
%w %u %F: 0 7 1934-03-05 | 2 2 1934-03-05
%a%A %F: TueTuesday 1934-03-05 | TuesdayTue 1934-03-05 | ThurThurs 1934-03-05
%U %OU %W %OW: 10 10 12 12
%G %V %OV: 2016 53 053 | 2016 53 53
%g %g %V: 0 00 53
%H %k %p %P: 7  7 PM pm | 7 07 am PM
%I %l %H: 8  8 7
%d%b: 30Feb |  30Feb | 30 Feb | \t \r30FEB
%d%n%m: 30\r2 | 30  \t 2 | 30 2
%d,%m: 30,2 |  30, 2 | 30 ,2 | 30,\t\t02 | \x0b30,\x0c2
%j%m: 366 1 | 36601 | 366\r\x0c1 | 0602
%%%d%%%m: %30%2 | % 30% 2
%w %U %C %y: 0 0 19 34 | 0 0 0 0
%C %y %j %U: 19 1 366 53 | 20 00 366 0
%Y %C %y %m %d %j %u %U %W %G %g %V: 1934 19 34 3 5 64 1 9 10 1934 34 10 | 1934 19 34 3 5 64 2 9 10 1934 34 10
%V %g %G %W %U %u %j %d %m %y %C %Y: 10 34 1934 10 9 1 64 5 3 34 19 1935 | 11 34 1934 10 9 1 64 5 3 34 19 1934
%V %g %G %W %U %u %j %d %m %y %C: 10 34 1934 10 9 1 64 5 4 34 19 | 10 34 1934 10 9 1 65 5 3 34 19 | 10 34 1933 10 9 1 64 5 3 34 19
%C %y %g %V %u: 19 34 35 10 1 | 19 34 34 53 1 | 20 26 26 53 7
%Y %m %u %W: 1934 3 2 9 | 1934 3 1 9 | 1934 3 1 14
%Y %U %V: 1934 9 11 | 1934 0 53 | 1934 53 1
%y %m %d: 1 2 29 | 97 2 29 | 0 2 29 | 4 4 31
%C %m %d %a: 15 2 29 Sun | 20 2 29 Tue | 20 2 30 Tue
%G: 1 | 2009 | 9999
%G %d: 2009 31 | 2009 5 | 2009 4 | 2010 1
%G %u: 2009 4
%G %V: 2009 53 | 1 1
%G %m: 2009 1 | 2009 12 | 2009 2
%G %j: 2009 365 | 2009 1
%V: 1 | 53
%Y %u: 1934 1
%Y %a %d: 1934 Mon 30 | 1934 Mon 13 | 1934 Fri 13
%Y %e: 1934 29 | 2000 31
%Y %V: 2016 53 | 2012 1
%Y %V %u: 2012 1 1 | 2012 1 2
%C %y %a: 19 34 Mon
%y: 34
%y %j: 34 64 | 0 366
%y %G: 9 2009
%C: 19
%C %j: 0 366
%C %m %d: 19 3 5
%m: 3
%d: 31
%d %a: 31 Mon
%j: 366 | 59 | 60
%j %m: 60 2 | 60 3
%U: 53 | 0
%W: 53 | 0
%U %W: 53 52 | 0 0
%U %a %m %d: 0 Sat 1 1
%g: 0 | 99
%g %V: 99 53
%u %U: 1 0 | 7 53
%M %S %Y: 7 8 1934
%d %d %Y %m: 5 5 1934 3
%d %b %Y %Q: 30 Feb 1900
%d %b %Y %^a: 30 Feb 1900
%d %b %Y %a: 30 Feb 1900 | 30 Feb 1900 x
%d %b %Y %e: 30 Feb 1900 31 | 30 Feb 1900 32
%H %p %M: 7 PM 60 | 7 PM x | 7 PM
";

impl Cases<'_> {
    pub fn reasons(&mut self) {
        self.quarrels(TWO);
        self.quarrels(FIVE);
        self.drawn_quarrels();
        self.names_that_quarrel();
        self.table(REASONS);
        self.far_words();
    }

    /// What is said of each kind by its conversion, in order: as numbers, and months and weekdays by name too.
    fn said(&mut self, kinds: &[usize], words: &[String]) {
        let letter = |kind: usize| LETTERS[kind - 1] as char;
        let formats: Vec<String> = kinds.iter().map(|kind| format!("%{}", letter(*kind))).collect();
        self.add(formats.join(" "), words.join(" "));
        if !kinds.contains(&4) && !kinds.contains(&7) {
            return;
        }
        let of = |names: &[&str], word: &String| names[word.parse::<usize>().unwrap() - 1].to_string();
        let (mut formats, mut texts) = (Vec::new(), Vec::new());
        for (kind, word) in kinds.iter().zip(words) {
            let (letter, text) = match kind {
                4 => ('b', of(&MONTHS, word)[..3].to_string()),
                5 => ('e', word.to_string()),
                7 => ('A', of(&WEEKDAYS, word)),
                kind => (letter(*kind), word.to_string()),
            };
            formats.push(format!("%{letter}"));
            texts.push(text);
        }
        self.add(formats.join(","), texts.join(","));
    }

    /// The kinds that are named for what is said of each kind by its conversion, none where it is not refused by 9.
    fn named(&self, kinds: &[usize], words: &[String]) -> Vec<usize> {
        let format: String = kinds.iter().map(|kind| format!("%{} ", LETTERS[kind - 1] as char)).collect();
        match explain(self.cal, Engine::Skipping, format.as_bytes(), words.join(" ").as_bytes()).1 {
            Some(Reason::Quarrel(named)) => named.iter().map(|(kind, _)| *kind).collect(),
            _ => vec![],
        }
    }

    /// Quarrels from lines of the form `LETTERS: WORDS | WORDS`.
    fn quarrels(&mut self, lines: &str) {
        for line in lines.trim().lines() {
            let (letters, texts) = line.split_once(": ").unwrap();
            let kinds: Vec<usize> = letters.bytes().map(|l| 1 + LETTERS.iter().position(|other| *other == l).unwrap()).collect();
            for text in texts.split(" | ") {
                let words: Vec<String> = text.split(' ').map(String::from).collect();
                assert_eq!(self.named(&kinds, &words), kinds, "{line}");
                self.said(&kinds, &words);
            }
        }
    }

    /// For each set of three or four kinds a quarrel of just these, if one is found soon: a day's numbers, and one of another day's.
    fn drawn_quarrels(&mut self) {
        for set in 0..1usize << 12 {
            if ![3, 4].contains(&set.count_ones()) {
                continue;
            }
            let kinds: Vec<usize> = (1..=12).filter(|kind| set >> (kind - 1) & 1 == 1).collect();
            for _ in 0..100 {
                let i = self.random.below(self.cal.days.len());
                let off = *self.random.pick(&[-366, -365, -31, -7, -1, 1, 2, 7, 28, 365, 366, 1461]);
                let other = (i as i64 + off).clamp(0, self.cal.days.len() as i64 - 1) as usize;
                let changed = *self.random.pick(&kinds);
                let number = |kind: usize| self.cal.days[if kind == changed { other } else { i }].value(kind);
                let mut facts: Facts = [None; 18];
                kinds.iter().for_each(|kind| facts[*kind] = Some(number(*kind)));
                let words: Vec<String> = kinds.iter().map(|kind| number(*kind).to_string()).collect();
                if !self.cal.any_agrees(&facts) && self.named(&kinds, &words) == kinds {
                    self.said(&kinds, &words);
                    break;
                }
            }
        }
    }

    /// Names in every form, in letters as they are, small, large and of the other case, and with a letter after them.
    fn names_that_quarrel(&mut self) {
        let cases = |name: &str| [name.to_string(), name.to_lowercase(), name.to_uppercase(), swapped(name)];
        for (place, name) in WEEKDAYS.iter().enumerate() {
            // 1934-03-05 is a Monday
            let day = if place == 0 { 6 } else { 5 };
            for text in forms_of(name).iter().flat_map(|(form, _)| cases(form)) {
                self.add("%A %F", format!("{text} 1934-3-{day}"));
                self.add("%F%as", format!("1934-3-{day}{text}s"));
            }
        }
        for (place, name) in MONTHS.iter().enumerate() {
            let day = if place == 0 { 366 } else { 1 };
            for text in forms_of(name).iter().flat_map(|(form, _)| cases(form)) {
                self.add("%B %j", format!("{text} {day}"));
                self.add("%j%ht", format!("{day:03}{text}t"));
            }
        }
        for (place, half) in HALVES.iter().enumerate() {
            for text in cases(half) {
                self.add("%p %H", format!("{text} {}", 12 - 5 * place));
                self.add("%k%PM", format!("{:2}{text}M", 12 - 5 * place));
            }
        }
    }

    /// Words at the end of a text of 1,024 bytes, or near it.
    fn far_words(&mut self) {
        for (format, words) in [("%d %b", "30 Feb"), ("%d%n%m", "30 2"), ("%H%p", "7PM"), ("%A %F", "Tuesday 1934-03-05"), ("%I", "7")] {
            for length in [1023, 1024, 1025] {
                let blanks = " ".repeat(length - words.len());
                self.add(format!(" {format}"), format!("{blanks}{words}"));
            }
            let before = "x".repeat(1000);
            self.add(cat(&[before.as_bytes(), format.as_bytes()]), cat(&[before.as_bytes(), words.as_bytes(), b" and more"]));
        }
        // said first at the start, and again up to the end
        self.add("%H %p".to_string() + &"%H".repeat(509), "07 PM".to_string() + &"07".repeat(509));
    }
}
