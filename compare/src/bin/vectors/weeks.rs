//! Inputs for the program week_counts, and what it must write: each of its rules at least once.
//! For cases `example` and `returns` the output is typed, not computed.
use crate::cat;
use crate::lines::{filled, with_returns, CLOCK, FULL};
use compare::rules::{Calendar, LONGEST_LIST};
use compare::sheets::week_counts;
use std::fs;
use std::path::Path;

/// Nights of fever about the turn of a year: 31 December 1934 is a Monday, and so of week 1.
const EXAMPLE_INPUT: &str = "%a %d %b %Y %H:%M
Thu 20 Dec 1934 21:40
Fri 21 Dec 1934 02:15
Fri 21 Dec 1934 23:05
Sun 23 Dec 1934 22:30
Mon 24 Dec 1934 04:10
Tues 25 Dec 1934 23:55
25 Dec 1934 23:59
Thurs 27 December 1934 0:20
Thurs 27 December 1934 0:20
Sun 30 Dec 1934 24:10
Mon 31 Dec 1934 21:15
Tue 1 Jan 1935 01:30
Wed 1 Jan 1935 22:00
no fever
Sat 5 Jan 1935 23:20
Sun 6 Jan 1935 3:45 (twice)
Tue 8 Jan 1935 22:50
Mon 31 Nov 1934 20:00
Sat 22 Dec 1934 21:00

Wed 9 Jan 1935 0:05
";
const EXAMPLE_OUTPUT: &str = "1934-W51 5
1934-W52 4
1935-W01 4
1935-W02 2
left out: 6
number 6: 3
number 7: 1
number 9: 2
";

/// Lines that a carriage return and a newline end, the last by neither.
const RETURNS_INPUT: &str = "%d %b %Y\r\n5 Mar 1934\r\n11 Mar 1934\r\n\r\n12 Mar 1934 \t\r\n29 Feb 1900\r\n4 Mar 1934";
const RETURNS_OUTPUT: &str = "1934-W09 1
1934-W10 2
1934-W11 1
left out: 2
number 6: 1
number 9: 1
";

/// The outputs must show every number that can leave a text out.
const NUMBERS: [u32; 10] = [1, 3, 5, 6, 7, 8, 9, 10, 13, 14];

/// Days as texts by `%Y%j`, which is the format here.
struct Days<'a> {
    cal: &'a Calendar,
}

impl Days<'_> {
    /// A list of the days at these places of the calendar.
    fn list(&self, places: impl Iterator<Item = usize>) -> Vec<u8> {
        let text = |i: usize| format!("{:04}{:03}\n", self.cal.days[i].value(1), self.cal.days[i].value(6));
        places.fold("%Y%j\n".to_string(), |list, i| list + &text(i)).into_bytes()
    }

    /// So many days, so far apart, the first of them 1934-03-05.
    fn apart(&self, count: usize, step: usize) -> impl DoubleEndedIterator<Item = usize> {
        let first = self.cal.place(1934, 3, 5);
        (0..count).map(move |i| first + i * step)
    }

    /// The six days before and after 1 January of each year.
    fn year_ends(&self, years: impl Iterator<Item = u32>) -> Vec<u8> {
        let firsts: Vec<usize> = years.map(|year| self.cal.place(year, 1, 1)).collect();
        self.list(firsts.iter().flat_map(|first| first - 6..first + 6))
    }
}

/// Some weekdays of weeks 1 to 53 of an ISO year, as texts by `%G %V %u`.
fn weeks_of_year(year: u32, weekdays: &str) -> String {
    (1..=53).flat_map(|week| weekdays.chars().map(move |weekday| format!("{year:04} {week} {weekday}\n"))).collect()
}

fn cases(cal: &Calendar) -> Vec<(&'static str, Vec<u8>)> {
    let any: Vec<u8> = (0..=255).filter(|b| *b != b'\n').collect();
    let example = EXAMPLE_INPUT.as_bytes();
    let days = Days { cal };
    let last = cal.days.len() - 1;
    vec![
        // lines
        ("example", example.to_vec()),
        ("no_last_newline", example[..example.len() - 1].to_vec()),
        ("empty", b"".to_vec()),
        ("format_only", b"%F\n".to_vec()),
        ("format_only_no_newline", b"%F".to_vec()),
        ("format_only_bad", b"%Q\n".to_vec()),
        ("format_only_too_long", cat(&[FULL, b"x\n"])),
        ("newline_only", b"\n".to_vec()),
        ("empty_format", b"\n5 Mar 1934\n\nx".to_vec()),
        ("empty_texts", b"%F\n\n\n1934-03-05\n\n".to_vec()),
        ("empty_texts_read", b"%n\n\n\n7\n\n".to_vec()),
        ("one", b"%F\n1934-03-05\n".to_vec()),
        ("one_no_newline", b"%F\n1934-03-05".to_vec()),
        // what is said beside the day
        ("times", b"%F %T\n1934-03-05 7:8:9\n1934-03-05 0:0:0\n1934-03-05 23:59:60\n1934-03-05 24:0:0\n1934-03-11 7:60:0\n".to_vec()),
        ("offsets", b"%F %z\n1934-03-05 +0000\n1934-03-11 -2359\n1934-03-12 +2359\n1934-03-05 +2400\n1934-03-05\n".to_vec()),
        ("hours_of_twelve", b"%F %I %p\n1934-03-05 12 AM\n1934-03-05 12 PM\n1934-03-05 0 AM\n".to_vec()),
        ("names", b"%A, %d %B %Y\nMonday, 5 March 1934\nthur, 6 SEPT 1934\nSun, 11 mar 1934\nsunday, 5 mar 1934\n".to_vec()),
        ("more_behind", b"%F\n1934-03-05 a bad night\n1934-3-50\n1934-03-05\x00\n".to_vec()),
        // the same day again, and days in any order
        ("repeated", b"%F\n1934-03-05\n1934-03-05\n1934-3-5\n1934-03-11\n1934-03-05\n".to_vec()),
        ("repeated_9", cat(&[b"%F\n", &b"1934-03-05\n".repeat(9)])),
        ("repeated_10", cat(&[b"%F\n", &b"1934-03-05\n".repeat(10)])),
        ("repeated_99", cat(&[b"%F\n", &b"1934-03-05\n".repeat(99)])),
        ("repeated_100", cat(&[b"%F\n", &b"1934-03-05\n".repeat(100), &b"x\n".repeat(100)])),
        ("repeated_1000", cat(&[b"%Y%j\n", &b"1934064\n".repeat(1000), &b"1934071\n".repeat(999)])),
        ("repeated_shortest", filled(b"%Y %j\n1 1\n", LONGEST_LIST)),
        ("ascending", days.list(days.apart(200, 2))),
        ("descending", days.list(days.apart(200, 2).rev())),
        ("from_both_ends", days.list((0..300).flat_map(|i| [9 * i, last - 9 * i]))),
        // weeks about the turn of a year
        ("turns_of_years", b"%F\n2010-01-01\n2010-01-04\n2011-01-02\n2017-01-01\n2009-12-31\n2018-12-31\n2021-01-03\n".to_vec()),
        ("year_ends_1990", days.year_ends(1990..2010)),
        ("year_ends_2010", days.year_ends((2010..2031).rev())),
        ("year_ends_of_centuries", days.year_ends((1..100).map(|century| 100 * century))),
        ("year_ends_of_400", days.year_ends((1..25).map(|n| 400 * n).flat_map(|year| [year - 3, year + 1]))),
        ("first_days", days.list((0..400).rev())),
        ("last_days", days.list(last - 399..=last)),
        ("both_ends", b"%F\n9999-12-31\n0001-01-01\n1-1-7\n1-1-8\n9999-12-27\n9999-12-26\n0000-12-31\n10000-01-01\n".to_vec()),
        ("leap_days", b"%F\n2000-02-29\n1900-02-29\n2004-02-29\n2100-02-29\n1904-2-29\n2000-02-28\n2000-03-01\n".to_vec()),
        // said by the week: week 53 is of few years
        ("iso_weeks", cat(&[b"%G %V %u\n", weeks_of_year(2009, "17").as_bytes(), weeks_of_year(2010, "4").as_bytes()])),
        ("iso_week_53", b"%G %V %u\n2009 53 5\n2016 53 7\n2004 53 1\n2015 53 7\n2020 53 4\n2021 53 1\n9999 52 5\n9999 52 6\n".to_vec()),
        ("sunday_weeks", b"%Y %U %a\n1934 9 Mon\n1934 9 Sun\n1934 0 Mon\n1934 53 Mon\n1933 53 Sun\n1934 52 Mon\n".to_vec()),
        // every number
        ("number_1", cat(&[&b"%H".repeat(512), b"x\n7\n", &b"7".repeat(1025), b"\n\n"])),
        ("number_3", b"%F %Q\n1934-03-05\n1934-03-05 Q\n\n".to_vec()),
        ("number_3_flag_and_width", b"%d %^b %5Y\n5 Mar 1934\n5 MAR  1934\n\n".to_vec()),
        ("number_3_seconds", b"%F %s\n1934-03-05 0\n\n".to_vec()),
        ("number_3_unfinished", b"%F%\n1934-03-05%\n".to_vec()),
        ("number_5", cat(&[b"%F\n1934-03-05", FULL, b"\n1934-03-05", &FULL[10..], b"\n1934-03-05", &FULL[9..], b"\n"])),
        ("number_5_before_3", cat(&[b"%Q\n", FULL, b"x\n", FULL, b"\n"])),
        (
            "numbers_6_7_8_9",
            b"%a %d %e %b %Y\nMon 5 5 x\nMon 5 32 Mar 1934\nMon 5 6 mar 1934\nTue 5 5 Mar 1934\nMon 5 5 Mar 1934\n".to_vec(),
        ),
        ("number_8", b"%F %Y\n1934-03-05 1934\n1934-03-05 1935\n1934-03-05 34\n".to_vec()),
        ("number_9", b"%a %d %b %Y\nTue 5 Mar 1934\nMon 30 Feb 1934\nMon 5 Mar 1934\n".to_vec()),
        ("number_9_hour", b"%F %H %p\n2000-02-29 7 PM\n2000-02-29 7 AM\n2000-02-30 7 PM\n2000-02-29 12 pm\n".to_vec()),
        ("numbers_9_10", b"%d %b %I\n30 feb 7\n5 mar 7\n31 Apr 12\n29 feb 12\n".to_vec()),
        ("numbers_0_9_10", b"%G %U\n2013 53\n2017 0\n2008 52\n2013 13\n2013 9\n2013 54\n".to_vec()),
        ("number_10_hour", b"%F %I\n1934-03-05 7\n1934-03-05 12\n1934-03-05 13\n".to_vec()),
        ("number_13", cat(&[CLOCK, b"07:08:09\n0:0:0\n24:0:0\n7:8\n23:59:60\n"])),
        ("number_13_nothing_said", b"margin\nmargin\nmargins\nMargin\n".to_vec()),
        ("number_13_offset", b"%z\n+0130\n-0000\n0130\n".to_vec()),
        (
            "numbers_0_5_6_7_8_9_10",
            cat(&[
                b"%G %U %H %k %p\n2013 53 7 7 am\n2013 53 7 7 pm\n2013 53 7 8 am\n2013 54 7 7 am\n2013 9 7 7 am\n2013 53",
                FULL,
                b"\n\n",
            ]),
        ),
        ("every_text_left_out", b"%F\nx\ny\n\n1934-02-30\n1934-13-01\n".to_vec()),
        // 14: as many weeks as there is room for, one more, and many more
        ("weeks_1023", days.list(days.apart(1023, 7))),
        ("weeks_1024", days.list(days.apart(1024, 7))),
        ("weeks_1025", days.list(days.apart(1025, 7))),
        ("weeks_1025_descending", days.list(days.apart(1025, 7).rev())),
        ("weeks_1025_then_those_held", days.list(days.apart(1025, 7).chain(days.apart(1025, 7).map(|i| i + 6)))),
        ("weeks_1025_and_the_day_before", days.list(days.apart(1024, 7).chain(days.apart(1, 1).flat_map(|i| [i - 1, i, i + 7 * 1024])))),
        ("weeks_of_all_years", days.list((0..4095).map(|i| i * (last / 4094)))),
        ("weeks_by_three_days", days.list(days.apart(4095, 3))),
        ("weeks_by_three_days_descending", days.list(days.apart(4095, 3).rev())),
        ("weeks_each_with_four", days.list((0..4).flat_map(|n| days.apart(1023, 7).map(move |i| i + 2 * n)))),
        ("weeks_and_refused", cat(&[&days.list(days.apart(1030, 7)), b"1934366\n0000001\nx\n1934064\n1933365\n\n1953365\n"])),
        // bytes of any value
        ("bytes", cat(&[b"%F\n", &any, b"\n1934-03-05", &any, b"\n\0\n\xff\n1934\0-03-05\n"])),
        ("bytes_in_format", cat(&[&any[..5], b"%F\n", &any[..5], b"1934-03-05\n", &any[1..6], b"1934-03-05\n"])),
        ("white_space", b"%d\x0b%b\x0c%Y\n5\x0c\x0bMar\r\t 1934\x0b\n\r5Mar1934\n5\x0emar 1934\n\x085 mar 1934\n".to_vec()),
        // lines that a carriage return and a newline end
        ("returns", RETURNS_INPUT.into()),
        ("returns_throughout", with_returns(example)),
        ("returns_in_texts", b"%d %b %Y%n\n5 Mar 1934\r\n5 Mar 1934\n\r\n".to_vec()),
        ("returns_in_format", b"%F\r\n1934-03-05\n1934-03-05\r\n\n".to_vec()),
        ("returns_alone_end_no_line", b"%F\r1934-03-05\r\n1934-03-05\r1934-03-06\r\n1934-03-05\r1934-03-05\n".to_vec()),
        // the input's length
        ("longest", filled(example, LONGEST_LIST)),
        ("longest_one_short", filled(example, LONGEST_LIST - 1)),
        ("longest_with_newline", cat(&[&filled(example, LONGEST_LIST - 1), b"\n"])),
        ("longest_with_returns", filled(&with_returns(example), LONGEST_LIST)),
        ("longest_newlines", vec![b'\n'; LONGEST_LIST]),
        ("longest_empty_texts", cat(&[b"%F", &vec![b'\n'; LONGEST_LIST - 2]])),
        ("longest_format", vec![b'x'; LONGEST_LIST]),
        ("longest_text", cat(&[b"%F\n1934-03-05", &vec![b' '; LONGEST_LIST - 13]])),
        ("too_long", filled(example, LONGEST_LIST + 1)),
        ("too_long_newlines", vec![b'\n'; LONGEST_LIST + 1]),
        ("too_long_by_a_newline", cat(&[&filled(example, LONGEST_LIST), b"\n"])),
        ("much_too_long", filled(example, 10 * LONGEST_LIST)),
    ]
}

pub fn make(cal: &Calendar, directory: &Path) -> std::io::Result<()> {
    let typed = [("example", EXAMPLE_OUTPUT), ("returns", RETURNS_OUTPUT)];
    let cases = cases(cal);
    let mut all = String::new();
    fs::create_dir_all(directory)?;
    for (name, list) in &cases {
        let output = week_counts(cal, list);
        for (_, expected) in typed.iter().filter(|(other, _)| other == name) {
            assert_eq!(output, *expected, "{name}");
        }
        fs::write(directory.join(name).with_extension("in"), list)?;
        fs::write(directory.join(name).with_extension("out"), &output)?;
        all += &output;
    }
    for number in NUMBERS {
        assert!(all.contains(&format!("\nnumber {number}: ")), "{number}");
    }
    let weeks = all.lines().filter(|line| line.contains("-W")).count();
    println!("week_counts: {} inputs, {weeks} weeks, {} bytes", cases.len(), all.len());
    Ok(())
}
