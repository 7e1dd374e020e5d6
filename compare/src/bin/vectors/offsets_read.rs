//! Vectors for %z and %s when reading, for the program read_cases.
use crate::cat;
use crate::read::Cases;

/// Offsets beside other facts, said again, before and after refusals of every number, and what is not read.
const OFFSETS: &str = "
%z: +0130 | -0130 | +0030 | -0030 | +0000 | -0000 | +2359 | -2359 | +01305 | +013059 | +0130Z | +0130:00 | +0130 +0130
%z %z: +0130 +0130 | +0130 -0130 | +0000 -0000 | -0000 +0000 | +0000 +0001 | -0030 +0030 | +0130   +0130 | +0130\t-0131 | +0130+0130
%z%z: +0130+0130 | +0130-0130 | -0000+0000 | +0130 +0130 | +0130 | +01300130 | -0001-0001 | -0001+0001
%z %z %z: +0130 +0130 +0130 | +0130 +0130 +0131 | +0130 +0131 +0130 | +0130 +2400 -0130 | +0130 +013 -0130 | -0000 +0000 -0000
%z %z %d %d: +0130 +0130 5 6 | +0130 +0131 5 6 | +0130 +0130 5 5
%d %d %z %z: 5 6 +0130 -0130 | 5 5 +0130 -0130
%z%S: +01305 | +013005 | +0130 5 | +0130 | +0130x | +0130-5
%S%z: 5+0130 | 05+0130 | 005+0130 | 5 +0130 | 60-0000 | 61-0000
%z%Y: +01301934 | -00301934 | +01301934+0130
%Y%z: 1934+0130 | 193+0130 | 1934 +0130 | 19340+0130
%z%z%Y: +0130+01301934
 %z: +0130 |   +0130 | \t\r-0030
%n%z%t: +0130 | \x0b\x0c+0130 \t
%%%z%%: %+0130% | %+0130 | % +0130%
+%z: ++0130 | +0130 | +-0030
-%z-: --0030- | -0030-
%z:%z: +0130:+0130 | +01:30
%zz: +0130z | +0130Z | +0130
%zs: +0130s | +0130
%Zz: +0130
%F %T %z: 1934-03-05 07:08:09 +0130 | 1934-03-05 07:08:60 -2359 | 1934-03-05 07:08:09 | 1900-02-29 07:08:09 +0130 | 0001-01-01 0:0:0 +2359
%F %T%z: 1934-03-05 07:08:09+0130 | 1934-03-05 7:8:9-0030 | 1934-03-05 7:8:9 -0030 | 9999-12-31 23:59:60-2359 | 1934-03-05 07:08:090130
%z %c: +0130 Mon Mar  5 07:08:09 1934 | -2359 Tue Mar  5 07:08:09 1934
%c %z: Mon Mar  5 07:08:09 1934 +0130 | Mon Mar  5 07:08:09 1934 +2400 | Tue Mar  5 07:08:09 1934 +0130
%z %a %d %b %Y: +0130 Tue 5 Mar 1934 | -0030 Mon 5 Mar 1934 | +0130 30 Feb 1934 | +0130 Thurs 6 Sept 1934
%a %d %b %Y %z: Tue 5 Mar 1934 +0130 | Mon 5 Mar 1934 -0030 | Mon 5 Mar 1934 +2360
%z %d %b: +0130 5 mar | +0130 30 feb
%z %H %p: +0130 7 PM | +0130 7 AM | +2400 7 PM
%z %I:%M: +0130 07:08 | +0130 07:60
%I:%M%z %p: 07:08+0130 PM | 07:08-0130 | 07:08-0130 am
%M%z: 8+0130 | 8-0000 | 60+0130
%z %H %z: +0130 7 +0130 | +0130 7 -0130 | +0130 24 -0130 | +0130 x -0130
%z %s: +0130 0 | +0130 | +2400 0
%s: 0 | -1 | 1000000000 | +0130
%s%z: 0+0130
%z%s%Q: +0130
%Q%s: 0
%z%Q: +0130
%Ez: +0130
%Oz: +0130
%Es: 0
%Os: 0
%5z: +0130
%z%5z: +0130+0130
%_z: +0130
%-z: +0130
%0z: +0130
%^z: +0130
%5s: 0
%_s: 0
%z %-d: +0130 5
%:z: +01:30
%z %: +0130
%z %E: +0130
";

impl Cases<'_> {
    pub fn offsets(&mut self) {
        self.table(OFFSETS);
        self.add(" %z", "");
        self.add("%s", "");
        // hours and minutes at their ends and past them
        for hours in [0, 1, 9, 10, 11, 12, 19, 20, 22, 23, 24, 25, 29, 30, 60, 99] {
            for minutes in [0, 1, 9, 10, 29, 30, 45, 58, 59, 60, 61, 70, 99] {
                for sign in ["+", "-"] {
                    self.add("%z", format!("{sign}{hours:02}{minutes:02}"));
                }
            }
        }
        // too few digits, just enough and more, after a sign, two of them, none, or what is none
        for sign in ["+", "-", "++", "+-", "-+", "--", "", " ", " +", "\t-", "+ ", "- ", "*", ",", ".", "/", "~", "\u{2212}", "\0", "+\0"] {
            for digits in ["", "0", "01", "013", "0130", "01305", "2400", "0060", "24", "99999"] {
                self.add("%z", format!("{sign}{digits}"));
                self.add("%H%z end", format!("07{sign}{digits} end"));
            }
        }
        // each byte in place of the sign and of each digit
        for byte in (0..=255).filter(|b| *b != b'\n') {
            for at in 0..5 {
                let mut text = b"-1942".to_vec();
                text[at] = byte;
                self.add("%z", text);
            }
        }
        self.far_offsets();
    }

    /// At the end of a text of 1,024 bytes, past it, and again and again.
    fn far_offsets(&mut self) {
        for digits in ["+0130", "-013", "+2400"] {
            for length in [1024, 1025] {
                self.add(" %z", " ".repeat(length - digits.len()) + digits);
            }
        }
        let before = "x".repeat(1019);
        self.add(cat(&[before.as_bytes(), b"%z"]), cat(&[before.as_bytes(), b"+0130"]));
        self.add(cat(&[before.as_bytes(), b"%z%z"]), cat(&[before.as_bytes(), b"+0130"]));
        self.add("x".repeat(1022) + "%z", "x".repeat(1022) + "+0");
        self.add("x".repeat(1022) + "%s", "x".repeat(1022));
        self.add("%z".repeat(204), "+0130".repeat(204));
        self.add("%z".repeat(204), "+0130".repeat(203) + "-0130");
        self.add("%z".repeat(205), "+0130".repeat(204));
        self.add("%z".repeat(205), "+0130".repeat(204) + "+013");
        self.add("%z".repeat(512), "-0000+0000".repeat(102));
    }
}
