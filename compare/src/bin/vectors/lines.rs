//! Inputs for the program date_lines, and what it must write: each of its rules (RULES 9.1) at least once.
//! For cases `example` and `returns` the output is typed, not computed.
use crate::{cat, Counts};
use compare::rules::{lines_of, read, Calendar, Engine, LONGEST_LIST};
use std::fs;
use std::path::Path;

const EXAMPLE_INPUT: &str = "%d %b %Y %H:%M
5 Mar 1934 07:08
29 Feb 1900 07:08
";
const EXAMPLE_OUTPUT: &str = "number place date time
0 16 1934-03-05 07:08:--
9 1 - --:--:--
";

/// Much the same with carriage returns: where the text has white space before its return, or no return, it is read all the same.
const RETURNS_INPUT: &str = "%d %b %Y %H:%M\r\n5 Mar 1934 07:08\r\n5 Mar 1934 07:08 \t\r\n29 Feb 1900 07:08";
const RETURNS_OUTPUT: &str = "number place date time
0 17 1934-03-05 07:08:--
0 19 1934-03-05 07:08:--
9 1 - --:--:--
";

pub const CLOCK: &[u8] = b"%H:%M:%S\n";
pub const FULL: &[u8] = &[b'x'; 1024];
const MARGINS: &[u8] = b"%d %b %Y %H:%M\n5 Mar 1934 07:08\n29 Feb 1900 07:08\n1 jan 1 0:0\n31 December 9999 23:59\n5 Mar 1934 7\n";

/// An hour, minute or second in two digits, or unsaid.
fn two(said: Option<u32>) -> String {
    said.map_or("--".to_string(), |n| format!("{n:02}"))
}

/// What the program writes for an input.
fn report(cal: &Calendar, input: &[u8]) -> String {
    let lines = match lines_of(input) {
        None => return "too long\n".to_string(),
        Some(lines) => lines,
    };
    let mut out = "number place date time\n".to_string();
    for text in lines.iter().skip(1) {
        let r = read(cal, Engine::Skipping, lines[0], text);
        let day = r.day.map_or("-".to_string(), |(y, m, d)| format!("{y:04}-{m:02}-{d:02}"));
        out += &format!("{} {} {day} {}:{}:{}\n", r.number, r.place, two(r.hour), two(r.minute), two(r.second));
    }
    out
}

/// A format and texts of just so many bytes: the lines again and again, cut at the end.
pub fn filled(lines: &[u8], size: usize) -> Vec<u8> {
    let texts = 1 + lines.iter().position(|b| *b == b'\n').unwrap();
    lines.iter().chain(lines[texts..].iter().cycle()).take(size).copied().collect()
}

/// With a carriage return before each newline.
pub fn with_returns(lines: &[u8]) -> Vec<u8> {
    lines.iter().flat_map(|b| if *b == b'\n' { vec![b'\r', b'\n'] } else { vec![*b] }).collect()
}

fn cases() -> Vec<(&'static str, Vec<u8>)> {
    let any: Vec<u8> = (0..=255).filter(|b| *b != b'\n').collect();
    let any_ordinary: Vec<u8> = any.iter().flat_map(|b| if *b == b'%' { vec![b'%', b'%'] } else { vec![*b] }).collect();
    let example = EXAMPLE_INPUT.as_bytes();
    vec![
        // lines
        ("example", example.to_vec()),
        ("no_last_newline", example[..example.len() - 1].to_vec()),
        ("empty", b"".to_vec()),
        ("format_only", b"%Y\n".to_vec()),
        ("format_only_no_newline", b"%Y".to_vec()),
        ("newline_only", b"\n".to_vec()),
        ("empty_format", b"\n5 Mar 1934\n\nx".to_vec()),
        ("empty_texts", b"%n\n\n\n7\n\n".to_vec()),
        ("empty_text_at_end", b"%H\n7\n\n".to_vec()),
        // what is said and unsaid
        ("nothing_said", b"margin\nmargin\nmargins\nMargin\n".to_vec()),
        ("day_only", b"%F\n1934-03-05\n0001-01-01\n9999-12-31\n0000-01-01\n1-1-1 and more\n".to_vec()),
        ("clock", cat(&[CLOCK, b"07:08:09\n0:0:0\n23:59:60\n24:0:0\n7:60:0\n7:8:61\n7:8\n 7: 8: 9\n"])),
        ("hour_only", b"%I %p\n12 AM\n12 PM\n1 am\n11 pm\n0 am\n13 am\n".to_vec()),
        ("minute_only", b"%M\n7\n59\n60\n".to_vec()),
        ("second_only", b"%S\n0\n60\n61\n".to_vec()),
        ("names", b"%a %d %b %Y\nThurs 6 Sept 1934\nthur 6 SEPTEMBER 1934\nThu 6 Sep 1934\nTues 6 Sept 1934\nTuesd 4 Sept 1934\n".to_vec()),
        ("all", b"%c\nMon Mar  5 07:08:09 1934\nTue Mar  5 07:08:09 1934\ntue feb 29 12:00:60 2000\nSun Feb 29 12:00:60 2000\n".to_vec()),
        // an offset is read, and not shown
        ("offsets", b"%F %T %z\n1934-03-05 07:08:09 +0130\n1-1-1 0:0:0 -2359\n9999-12-31 23:59:60 -0000\n1934-03-05 07:08:09\n".to_vec()),
        ("offset_only", b"%z\n+0000\n-0030 and more\n+2400\n+0060\n+130\n 0130\n +0130\n\n".to_vec()),
        ("offsets_twice", b"%z%z\n+0130+0130\n+0130-0130\n-0000+0000\n+0130\n".to_vec()),
        // every number that a line can have: the other fields are then unsaid
        ("number_1", cat(&[&b"%H".repeat(512), b"x\n7\n", &b"7".repeat(1025), b"\n\n"])),
        ("number_3", b"at %Q\n7\nat \n\n".to_vec()),
        ("number_3_seconds", b"%F %s\n1934-03-05 0\n1934-03-05\n\n".to_vec()),
        ("number_3_flag_and_width", b"%d %^b %5Y\n5 Mar 1934\n5 MAR  1934\n\n".to_vec()),
        ("number_3_place_last", cat(&[&FULL[1..], b"%\n7\n"])),
        ("number_5", cat(&[b"%H%n%%\n7", FULL, b"\n", &FULL[1..], b"\n7%", &FULL[2..], b"\n7 %", &FULL[2..], b"\n"])),
        ("number_5_before_3", cat(&[b"%Q\n", FULL, b"x\n", FULL, b"\n"])),
        ("format_of_1024", cat(&[&b"%H".repeat(512), b"\n", &b"07".repeat(512), b"\n", &b"07".repeat(511), b"08\n7\n"])),
        ("numbers_6_7_8", b"%d %e %b\n5 5 x\n5 32 mar\n5 6 mar\nx\n0 0 mar\n5\n".to_vec()),
        ("numbers_9_10_day", b"%d %b %I\n30 feb 7\n5 mar 7\n31 Apr 12\n29 feb 12\n".to_vec()),
        ("numbers_9_10_hour", b"%F %H %p\n2000-02-29 7 PM\n2000-02-29 7 AM\n2000-02-30 7 PM\n2000-02-29 12 pm\n".to_vec()),
        ("number_10_hour", b"%I:%M\n07:08\n12:00\n00:00\n".to_vec()),
        // bytes of any value
        ("bytes_in_texts", cat(&[b"%M", &any[..5], b"\n7", &any, b"\n", &any, b"7\n7\0\n\0\n\xff\n"])),
        ("bytes_in_format", cat(&[&any_ordinary, b"\n", &any, b"\n", &any[..40], b"\n"])),
        ("zero_bytes", b"\0%H\0\n\x007\0\n\n\0\0\n".to_vec()),
        ("tabs", b"%d\t%b%t%Y\n5 \t mar\t1934\n\t5mar1934\n5\tmar\t1934\t\n".to_vec()),
        ("white_space", b"%d\x0b%b\x0c%Y\n5\x0c\x0bMar\r\t 1934\x0b\n\r5Mar1934\n5\x0emar 1934\n\x085 mar 1934\n".to_vec()),
        // lines that a carriage return and a newline end
        ("returns", RETURNS_INPUT.into()),
        ("returns_throughout", with_returns(MARGINS)),
        ("returns_no_last_newline", b"%d %b %Y\r\n5 Mar 1934\r".to_vec()),
        ("returns_taken_by_n", b"%d %b %Y%n\n5 Mar 1934\r\n5 Mar 1934\n5 Mar 1934 \r\n".to_vec()),
        ("returns_in_texts", b"%H:%M\n7:8\r\n7:8\n".to_vec()),
        ("returns_in_format", b"%H:%M\r\n7:8\r\n7:8\n7:8".to_vec()),
        ("returns_doubled", b"%I:%M %p\r\r\n7:8 pm\r\r\n7:8\r\r\n".to_vec()),
        ("returns_empty_texts", b"%H:%M\r\n\r\n7:8\r\n\r\n\r".to_vec()),
        ("returns_empty_format", b"\r\n5 Mar 1934\r\n\r\n\n".to_vec()),
        ("returns_count_as_bytes", cat(&[b"%n\r\n", FULL, b"\r\n", &FULL[1..], b"\r\n", FULL, b"\n"])),
        ("format_of_1024_with_its_return", cat(&[&b"%H".repeat(511), b"x\r\n", &b"07".repeat(511), b"x\r\n"])),
        ("format_too_long_by_its_return", cat(&[&b"%H".repeat(512), b"\r\n", &b"07".repeat(511), b"\r\n"])),
        ("returns_alone_end_no_line", b"%H:%M\r7:8\r7:8\r\n7:8\r7:8\r\n".to_vec()),
        // the input's length
        ("longest", filled(MARGINS, LONGEST_LIST)),
        ("longest_one_short", filled(MARGINS, LONGEST_LIST - 1)),
        ("longest_with_returns", filled(&with_returns(MARGINS), LONGEST_LIST)),
        ("longest_with_newline", cat(&[&filled(MARGINS, LONGEST_LIST - 1), b"\n"])),
        ("longest_newlines", vec![b'\n'; LONGEST_LIST]),
        ("longest_format", vec![b'x'; LONGEST_LIST]),
        ("longest_text", cat(&[CLOCK, &vec![b'7'; LONGEST_LIST - CLOCK.len()]])),
        ("too_long", filled(MARGINS, LONGEST_LIST + 1)),
        ("too_long_newlines", vec![b'\n'; LONGEST_LIST + 1]),
        ("too_long_by_a_newline", cat(&[&filled(MARGINS, LONGEST_LIST), b"\n"])),
        ("much_too_long", filled(MARGINS, 10 * LONGEST_LIST)),
    ]
}

pub fn make(cal: &Calendar, directory: &Path) -> std::io::Result<()> {
    assert_eq!(report(cal, EXAMPLE_INPUT.as_bytes()), EXAMPLE_OUTPUT);
    assert_eq!(report(cal, RETURNS_INPUT.as_bytes()), RETURNS_OUTPUT);
    let cases = cases();
    let mut counts = Counts::default();
    fs::create_dir_all(directory)?;
    for (name, input) in &cases {
        let output = report(cal, input);
        for line in output.lines().skip(1) {
            counts.count(format!("number {:>2}", line.split(' ').next().unwrap()));
        }
        fs::write(directory.join(name).with_extension("in"), input)?;
        fs::write(directory.join(name).with_extension("out"), output)?;
    }
    println!("date_lines: {} inputs; their lines:", cases.len());
    counts.print();
    Ok(())
}
