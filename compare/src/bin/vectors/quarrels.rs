//! Inputs for the program quarrels, and what it must write: each of its rules (RULES 9.2) at least once.
//! For cases `rules`, `example` and `returns` the output is typed, not computed.
use crate::cat;
use crate::lines::{filled, with_returns, CLOCK, FULL};
use compare::rules::{quarrels, Calendar, LONGEST_LIST};
use std::fs;
use std::path::Path;

/// The example of RULES 9.2.
const RULES_INPUT: &str = "%a %d %b %Y
Mon 5 Mar 1934
Tue 5 Mar 1934
5 Mar 1934
";
const RULES_OUTPUT: &str = "Tue 5 Mar 1934
^^^ ^ ^^^ ^^^^
line 3: no day is Tue, 5, Mar and 1934 together

5 Mar 1934
^
line 4: the text does not go on as the format wants

";

/// A format by which a day is read, impossible and open in every part, and an hour read and impossible. ISO year 2013 has one day of a
/// Sunday week 53, 2012-12-31, and no day of ISO year 2017 lies before a year's first Sunday. The line `LONG` is a text of 1,025 bytes.
const EXAMPLE_INPUT: &str = "%G %U, %H:%M %p, %k o'clock
2013 53, 07:08 AM, 7 o'clock
2017 0, 07:08 AM, 7 o'clock
2008 52, 07:08 AM, 7 o'clock
2013 13, 07:08 AM, 7 o'clock
2013 9, 07:08 AM, 7 o'clock
2013 53, 07:08 PM, 7 o'clock
2013 53, 07:08 AM, 8 o'clock
2013 54, 07:08 AM, 7 o'clock
2013 53, 07:60 AM, 7 o'clock
2013 53, 07.08 AM, 7 o'clock
2013 53, 07:08 MA, 7 o'clock
2013 53, 07:08 AM, 7
2013 53, 07:08 AM,
2013

  2013\t 53, 12:08 Am, 12 o'clock
2013 53, 12:08 Am, 12 o\u{2019}clock
2016 0, 12:08 pm, 12 o'clock sharp
2013 53, 12:08 pm, 12 o'clock sharp
LONG
the last";
const EXAMPLE_OUTPUT: &str = "2017 0, 07:08 AM, 7 o'clock
^^^^ ^
line 3: no day is ISO year 2017 and Sunday week 0 together

2008 52, 07:08 AM, 7 o'clock
line 4: more than one day agrees, the earliest 2007-12-31 and 2008-12-28; the year is missing

2013 13, 07:08 AM, 7 o'clock
line 5: more than one day agrees, the earliest 2013-03-31 and 2013-04-01; the month is missing

2013 9, 07:08 AM, 7 o'clock
line 6: more than one day agrees, the earliest 2013-03-03 and 2013-03-04; the day is missing

2013 53, 07:08 PM, 7 o'clock
         ^^    ^^
line 7: no hour is hour 07 and PM together

2013 53, 07:08 AM, 8 o'clock
                   ^
line 8: this was said before, differently

2013 54, 07:08 AM, 7 o'clock
     ^
line 9: this number is outside its range

2013 53, 07:60 AM, 7 o'clock
            ^
line 10: this number is outside its range

2013 53, 07.08 AM, 7 o'clock
           ^
line 11: the text does not go on as the format wants

2013 53, 07:08 MA, 7 o'clock
               ^
line 12: the text does not go on as the format wants

2013 53, 07:08 AM, 7
                    ^
line 13: the text ends before the format does

2013 53, 07:08 AM,
                  ^
line 14: the text ends before the format does

2013
    ^
line 15: the text ends before the format does


^
line 16: the text ends before the format does

  2013  53, 12:08 Am, 12 o'clock
            ^^    ^^
line 17: no hour is hour 12 and Am together

2013 53, 12:08 Am, 12 o???clock
                       ^
line 18: the text does not go on as the format wants

2016 0, 12:08 pm, 12 o'clock sharp
^^^^ ^
line 19: no day is ISO year 2016 and Sunday week 0 together

LONG
line 21: the text has more than 1,024 bytes

the last
^
line 22: the text does not go on as the format wants

";

/// Lines that a carriage return and a newline end: the return is white space, and shown as a blank.
const RETURNS_INPUT: &str = "%d %b\r\n30 Feb\r\n5 Mar \r\r\n\r\n31 Mrz\r";
const RETURNS_OUTPUT: &str = "30 Feb\x20
^^ ^^^
line 2: no day is 30 and Feb together

5 Mar\x20\x20\x20
line 3: more than one day agrees, the earliest 0001-03-05 and 0002-03-05; the year is missing

\x20
 ^
line 4: the text ends before the format does

31 Mrz\x20
   ^
line 5: the text does not go on as the format wants

";

/// What the outputs must show: each sentence, and each name of a kind.
const SHOWN: [&str; 29] = [
    "line 2: the format has more than 1,024 bytes",
    "line 2: the format has a conversion at byte 3 that is unknown or unfinished, or that has a flag or a width",
    "line 2: the text has more than 1,024 bytes",
    "line 2: the text does not go on as the format wants",
    "line 2: the text ends before the format does",
    "line 2: this number is outside its range",
    "line 2: this was said before, differently",
    "line 2: no day is ",
    "line 2: no hour is ",
    " agrees, the earliest 0001-03-05 and 0002-03-05; the year is missing",
    " agrees, the earliest 1934-01-05 and 1934-02-05; the month is missing",
    " agrees, the earliest 1934-03-01 and 1934-03-02; the day is missing",
    "line 2: more than one day agrees, ",
    "line 2: more than one hour agrees, the earliest 7 and 19; AM or PM is missing",
    "line 2: more than one hour agrees, the earliest 12 and 13; the hour is missing",
    " and 1935 together",
    "century 20",
    "year in century 35",
    "month 4",
    "no day is 6, weekday 1, ",
    "day of year 65",
    "weekday 2",
    "Sunday week 10",
    "Monday week 11",
    "ISO year 1935",
    "ISO year in century 33",
    "ISO week 11",
    "hour 7",
    "hour of twelve 8",
];

/// The numbers of 1934-03-05 by all kinds that bear on the day, and the same with each of them changed, one by one, by some.
fn of_all_kinds() -> Vec<String> {
    let day = [1934, 19, 34, 3, 5, 64, 1, 9, 10, 1934, 34, 10];
    let mut texts = vec![day.to_vec()];
    for place in 0..day.len() {
        for number in [day[place] - 1, day[place] + 1, day[place] + 2] {
            let mut text = day.to_vec();
            text[place] = number;
            texts.push(text);
        }
    }
    texts.iter().map(|text| text.iter().map(|n: &u32| n.to_string()).collect::<Vec<String>>().join(" ")).collect()
}

/// All wrong weekdays of some Mondays, again and again.
fn wrong_weekdays(mondays: usize) -> Vec<u8> {
    let mut list = "%a %d %b %Y\n".to_string();
    for i in 0..mondays {
        let (day, month) = ([5, 12, 19, 26][i % 4], ["Mar", "NOVEMBER", "feb"][i / 4 % 3]);
        for weekday in ["Tue", "Wednesday", "thurs", "FRI", "Sat", "sun"] {
            list += &format!("{weekday} {day} {month} 1934\n");
        }
    }
    list.into_bytes()
}

/// The text of 1,025 bytes in the example.
fn long() -> String {
    "2013 53, 07:08 AM, 7 o'clock ".repeat(36)[..1025].to_string()
}

fn cases() -> Vec<(&'static str, Vec<u8>)> {
    let any: Vec<u8> = (0..=255).filter(|b| *b != b'\n').collect();
    let rules = RULES_INPUT.as_bytes();
    let reversed = |text: &String| text.split(' ').rev().collect::<Vec<&str>>().join(" ");
    let all_kinds = of_all_kinds();
    let all_reversed: Vec<String> = all_kinds.iter().map(reversed).collect();
    vec![
        ("rules", rules.to_vec()),
        ("example", EXAMPLE_INPUT.replace("LONG", &long()).into_bytes()),
        ("returns", RETURNS_INPUT.into()),
        // lines
        ("no_last_newline", rules[..rules.len() - 1].to_vec()),
        ("empty", b"".to_vec()),
        ("format_only", b"%Y\n".to_vec()),
        ("format_only_no_newline", b"%Y".to_vec()),
        ("format_only_bad", b"%Q\n".to_vec()),
        ("newline_only", b"\n".to_vec()),
        ("empty_format", b"\n5 Mar 1934\n\nx".to_vec()),
        ("empty_texts", b"%H\n\n\n7\n\n".to_vec()),
        ("empty_texts_read", b"%n\n\n\n7\n\n".to_vec()),
        ("all_read", b"%d %b %Y %H:%M\n5 Mar 1934 07:08\n29 Feb 2000 0:0 and more\n31 December 9999 23:59\n1 jan 1 0:0".to_vec()),
        ("some_read", b"%F\n1934-03-05\n1934-02-29\n2000-02-29\n2000-02-30\n\n0-1-1\n9999-12-31\n".to_vec()),
        // every number that a bad format has
        ("number_1", cat(&[&b"%H".repeat(512), b"x\n7\n", &b"7".repeat(1025), b"\n\n7 PM"])),
        ("number_3", b"at %Q\n7\nat \n\n\xff\n".to_vec()),
        ("number_3_flag_and_width", b"%d %^b %5Y\n5 Mar 1934\n5 MAR  1934\n\n".to_vec()),
        ("number_3_seconds", b"%F %s\n1934-03-05 0\n\n".to_vec()),
        ("number_3_unfinished", b"%\n%\n".to_vec()),
        ("number_3_place_last", cat(&[&FULL[1..], b"%\n7\n"])),
        ("number_5_before_3", cat(&[b"%Q\n", FULL, b"x\n", FULL, b"\n"])),
        ("number_5", cat(&[b"%H%n%%\n7", FULL, b"\n", &FULL[1..], b"\n7%", &FULL[2..], b"\n7 %", &FULL[2..], b"\n"])),
        ("number_5_any_bytes", cat(&[b"%H\n", &any.repeat(5), b"\n"])),
        ("format_of_1024", cat(&[&b"%H".repeat(512), b"\n", &b"07".repeat(512), b"\n", &b"07".repeat(511), b"08\n7\n"])),
        // 6, 7 and 8: their places
        ("number_6_ended", b"%d %b %Y\n5 Mar\n5 Mar \t \n5 M\n5 Ma\n5 \n5\n\n \n".to_vec()),
        ("number_6_last_byte", cat(&[FULL, b"y\n"])),
        ("number_6_end_of_1024", cat(&[b"%n%d\n", &b" ".repeat(1024), b"\n", &b" ".repeat(1023), b"x\n", &b" ".repeat(1025), b"\n"])),
        ("number_6_bytes_that_differ", b"at %%%H\nAt %7\nat 7\nat %\nat%7\nat %7\nat \t%7\nat  %  x\n".to_vec()),
        ("number_6_offsets", b"%H%z\n07\n07 +0130\n07+\n07+130\n07-01:30\n070130\n07Z\n07-0130\n".to_vec()),
        ("number_7", b"%H:%M:%S\n24:0:0\n 24:0:0\n7:60:0\n7:\t\x0b 60:0\n7:8:61\n07:08:  99\n7:8:60\n".to_vec()),
        ("number_7_each_kind", b"%m %d %j %u\n0 5 64 1\n13 5 64 1\n3 0 64 1\n3 32 64 1\n3 5 0 1\n3 5 367 1\n3 5 64 0\n3 5 64 8\n".to_vec()),
        ("number_7_offsets", b"%H%z\n07+2400\n 7-0060\n07-9999 or so\n07+2359\n".to_vec()),
        ("number_8", b"%d %e %b %m\n5 6 mar 3\n5 \t 6 mar 3\n5 05 mar 4\n 5  5 mar\t\t04\n5 5 September 3\n".to_vec()),
        ("number_8_names", b"%u %a%A\n1 TueMon\n1 MondayTues\n2 TuesTuesday\n4 ThurThursSat\n1 \tMonMon\n".to_vec()),
        ("number_8_offsets", b"%z %z\n+0130 -0130\n-0000 +0000\n+0130 \t+0131\n-0030 +0030 or so\n".to_vec()),
        ("number_8_halves", b"%p%P\nAMpm\nAMam\npmPM\npmAm\n".to_vec()),
        // 9 on the day: numbers of every kind
        ("number_9_all_kinds", cat(&[b"%Y %C %y %m %d %j %u %U %W %G %g %V\n", all_kinds.join("\n").as_bytes()])),
        ("number_9_all_reversed", cat(&[b"%V %g %G %W %U %u %j %d %m %y %C %Y\n", all_reversed.join("\n").as_bytes(), b"\n"])),
        ("number_9_names", b"%A %d %B %Y\nTuesday 5 March 1934\ntues 05 MAR 1934\n sun 5 mar 1934\nThurs 31 Sept 1934\n".to_vec()),
        ("number_9_white_space", b"%d%n%m%t%Y\n\t30\x0b\x0c2\r 1934\n  29  02  1900\n30 2 1934 \t\n".to_vec()),
        ("number_9_said_twice", b"%a %u %w %d %e %b %m %Y\nTue 2 2 5 05 Mar 3 1934\nSun 7 0 5 5 March 03 1934\n".to_vec()),
        ("number_9_weekdays", b"%w %u %F\n0 7 1934-03-05\n2 2 1934-3-5\n".to_vec()),
        (
            "number_9_composites",
            b"%c %x\nTue Mar  5 07:08:09 1934 03/05/34\nMon Feb 30 7:8:9 1934 2/30/34\nMon Mar 5 7:8:9 1934 3/5/35\n".to_vec(),
        ),
        ("number_9_five_kinds", b"%a %D %C\nSun 03/05/34 19\nTue 3/5/34 19\nMon 03/05/34 19\n".to_vec()),
        ("number_9_centuries", b"%C %y\n00 00\n0 0\n19 34\n".to_vec()),
        ("number_9_weeks", b"%G %V %u\n2016 53 7\n2009 53 5\n9999 52 6\n2018 53 1 (no)\n".to_vec()),
        ("number_9_far", cat(&[b" %d %b\n", &b"\t".repeat(1018), b"30 Feb\n", &b" ".repeat(1017), b"30 Feb!\n"])),
        ("number_9_side_by_side", b"%d%b%Y\n30Feb1900\n29feb1900\n31SEPT2000\n".to_vec()),
        ("number_9_offsets", b"%z %a %F %H %p\n+0130 Tue 1934-03-05 7 AM\n-0030 Mon 1934-03-05 7 PM\n+0000 Mon 1934-03-05 7 AM\n".to_vec()),
        // 9 on the hour
        ("number_9_hour", b"%H %I %p\n7 8 AM\n7 7 PM\n07 08 PM\n12 12 am\n7 7 AM\n0 12 PM\n".to_vec()),
        ("number_9_hour_and_day", b"%F %H %p\n2000-02-29 7 PM\n2000-02-30 7 PM\n2000-02-29 7 AM\n2000-02-29 12 am\n".to_vec()),
        ("number_9_hour_reversed", b"%P%l%k\npm 8 7\nAM 813\npm 8 8\nam 8 8\n".to_vec()),
        // 10, in each of its sentences
        ("number_10_year", b"%d %b\n5 mar\n29 feb\n31 DECEMBER 1934\n".to_vec()),
        ("number_10_month", b"%d %Y\n5 1934\n31 9999\n30 1\n".to_vec()),
        ("number_10_day", b"%b %Y\nMar 1934\nfeb 1\n".to_vec()),
        ("number_10_weekday", b"%a\nMon\nSunday, perhaps\n".to_vec()),
        ("number_10_hour", b"%I:%M\n07:08\n12:00\n1:59\n".to_vec()),
        ("number_10_half", b"%p\nPM\nam\n".to_vec()),
        ("number_10_day_and_hour", b"%Y %j %I\n1934 64 7\n1934 366 7\n2000 366 12\n".to_vec()),
        ("number_10_any_part", b"%G %d\n2009 31\n2009 5\n2010 1\n".to_vec()),
        // bytes of any value
        ("bytes", cat(&[b"%M\n", &any, b"\n7", &any, b"\nx", &any, b"\n\0\n\x7f\n\x80\n\xff\n \t\x0b\x0c\r\n~!\x1f\n"])),
        ("bytes_in_format", cat(&[&any[..5], b"\n", &any[..5], b"\n", &any[1..6], b"\n"])),
        ("zero_bytes", b"\0%H\0%p\0\n\x007\0PM\0\n\n\0\0\n\x007\0\n".to_vec()),
        ("utf_8", "%d %b %Y\n5 März 1934\n30\u{a0}Feb 1934\n– 5 Mar 1934\n30 Feb 1934 – ?\n".into()),
        ("tabs", b"%d\t%b\n\t30\t\tFeb\t\n\t5\n\t\n".to_vec()),
        // lines that a carriage return and a newline end
        ("returns_throughout", with_returns(&cat(&[rules, b"\n30 Feb\n"]))),
        ("returns_in_texts", b"%d%b\n30Feb\r\n\r\n5\r\n".to_vec()),
        ("returns_in_format", b"%d%b\r\n30Feb\n30Feb\r\n5\n".to_vec()),
        ("returns_alone_end_no_line", b"%d %b\r30 Feb\r31 Feb\r\n30 Feb\r31 Feb\r".to_vec()),
        // the length of the input, of a text, and of the output
        ("longest", filled(rules, LONGEST_LIST)),
        ("longest_with_returns", filled(&with_returns(rules), LONGEST_LIST)),
        ("longest_newlines", vec![b'\n'; LONGEST_LIST]),
        ("longest_empty_texts", cat(&[b"%d", &vec![b'\n'; LONGEST_LIST - 2]])),
        ("longest_output", cat(&[b"%", &vec![b'\n'; LONGEST_LIST - 1]])),
        ("longest_format", vec![b'x'; LONGEST_LIST]),
        ("longest_text", cat(&[CLOCK, &vec![b'7'; LONGEST_LIST - CLOCK.len()]])),
        ("longest_text_of_any_bytes", cat(&[b"%H\n7 PM\n", &any.repeat(128), b"\n\n"])),
        ("too_long", filled(rules, LONGEST_LIST + 1)),
        ("too_long_newlines", vec![b'\n'; LONGEST_LIST + 1]),
        ("much_too_long", filled(rules, 10 * LONGEST_LIST)),
        ("many", wrong_weekdays(200)),
    ]
}

pub fn make(cal: &Calendar, directory: &Path) -> std::io::Result<()> {
    let example = EXAMPLE_OUTPUT.replace("LONG", &long());
    let typed = [("rules", RULES_OUTPUT), ("example", &example), ("returns", RETURNS_OUTPUT)];
    let cases = cases();
    let mut all = String::new();
    fs::create_dir_all(directory)?;
    for (name, list) in &cases {
        let output = quarrels(cal, list);
        for (_, expected) in typed.iter().filter(|(other, _)| other == name) {
            assert_eq!(output, *expected, "{name}");
        }
        fs::write(directory.join(name).with_extension("in"), list)?;
        fs::write(directory.join(name).with_extension("out"), &output)?;
        all += &output;
    }
    for shown in SHOWN {
        assert!(all.contains(shown), "{shown}");
    }
    let refused = all.lines().filter(|line| line.starts_with("line ")).count();
    println!("quarrels: {} inputs, {refused} refused texts, {} bytes", cases.len(), all.len());
    Ok(())
}
