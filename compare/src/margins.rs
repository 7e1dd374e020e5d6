//! Cases worked by hand, on `rules.rs`: what is expected is typed, not computed.
use crate::c_library::isspace;
use crate::elements::{self, Opened};
use crate::random::Random;
use crate::rules::{
    explain, matched, matched_opened, quarrels, read, white, write, write_opened, Calendar, Engine, Facts, Form, Forms, Moment, Part,
    Reading, Reason, Use, Words, DAYS,
};
use crate::{c_offsets, c_seconds, c_writings};

const MORNING: Moment = Moment::new([1934, 3, 5, 7, 8, 9]);

fn midnight(year: u32, month: u32, day: u32) -> Moment {
    Moment::new([year, month, day, 0, 0, 0])
}

#[test]
fn margins() {
    let cal = Calendar::new();

    // the text in a buffer that it fills, and in a longer one
    let writes = |format: &str, m: Moment, text: &str| {
        for room in [text.len(), text.len() + 4] {
            assert_eq!(write(&cal, format.as_bytes(), &m, room), (0, text.len() as u32, text.into()), "{format}");
        }
    };
    writes("%c", MORNING, "Mon Mar  5 07:08:09 1934");
    assert_eq!(write(&cal, b"%c", &MORNING, 24).1, 24);
    assert_eq!(write(&cal, b"%c", &MORNING, 23), (4, 24, vec![]));
    writes("%j", MORNING, "064");
    writes("%U", MORNING, "09");
    writes("%W", MORNING, "10");
    writes("%G-%V", MORNING, "1934-10");
    writes("%G %V", midnight(2010, 1, 1), "2009 53");
    writes("%G %V", midnight(2010, 1, 4), "2010 01");
    writes("%G %V", midnight(2011, 1, 2), "2010 52");
    writes("%G %V", midnight(2017, 1, 1), "2016 52");
    writes("%A", midnight(2000, 2, 29), "Tuesday");
    assert_eq!(write(&cal, b"%A", &midnight(1900, 2, 29), 9), (2, 3, vec![]));
    writes("", MORNING, "");

    // the days examined and the forms of names aside
    let reads = |format: &str, text: &str, expected: Reading| {
        let found = read(&cal, Engine::Skipping, format.as_bytes(), text.as_bytes());
        assert_eq!(Reading { examined: 0, forms: Forms::default(), ..found }, expected, "{text} by {format}");
    };
    let answer = |number, place| Reading { number, place, ..Reading::default() };
    reads("%G %V %u", "2009 53 5", Reading { day: Some((2010, 1, 1)), ..answer(0, 9) });
    reads("%G %V %u", "2016 53 7", answer(9, 1));
    reads("%a %d %b %Y", "Tue 5 Mar 1934", answer(9, 1));
    reads("%d %b %Y %I", "5 Mar 1934 07", Reading { two_hours: Some([7, 19]), ..answer(10, 2) });
    reads("%d %b", "5 mar", Reading { two_days: Some([(1, 3, 5), (2, 3, 5)]), ..answer(10, 1) });
    reads("%I:%M", "07:08", Reading { two_hours: Some([7, 19]), ..answer(10, 2) });
    reads("%C %y", "00 00", answer(9, 1));
    reads("%H%M", "930", answer(7, 0));
    reads("%d %e", "5 6", answer(8, 2));
    reads("", "", answer(0, 0));
    reads("", "margin", answer(0, 0));

    // the lines of the program's example
    reads("%d %b %Y %H:%M", "5 Mar 1934 07:08", Reading { day: Some((1934, 3, 5)), hour: Some(7), minute: Some(8), ..answer(0, 16) });
    reads("%d %b %Y %H:%M", "29 Feb 1900 07:08", answer(9, 1));

    // white space is six bytes
    reads("%d %b %Y%n", "5 Mar 1934\r\n", Reading { day: Some((1934, 3, 5)), ..answer(0, 12) });
    reads("%d %b %Y\r", "5 Mar 1934", Reading { day: Some((1934, 3, 5)), ..answer(0, 10) });
    writes("%d\x0b%b\x0c%Y\r%n", MORNING, "05\x0bMar\x0c1934\r\n");

    // the calendar's ends
    let ends = [&cal.days[0], &cal.days[cal.days.len() - 1]];
    assert_eq!(cal.days.len(), 3_652_059);
    assert_eq!(ends.map(|d| (d.date(), d.weekday)), [((1, 1, 1), 1), ((9999, 12, 31), 5)]);
}

/// Flags and widths when writing, and refused when reading.
#[test]
fn flags_and_widths() {
    let cal = Calendar::new();
    let early = Moment::new([5, 11, 3, 0, 8, 9]);
    for (m, format, text) in [
        (early, "%5m %_5m %05m %-5m", "00011    11 00011 11"),
        (early, "%d %1d %2d %3d %-d %_d %0d", "03 03 03 003 3  3 03"),
        (early, "%e %1e %2e %3e %-e %_e %0e %05e", " 3  3  3   3 3  3 03 00003"),
        (early, "%Y %3Y %4Y %5Y %-Y %_Y %_5Y %010Y", "0005 0005 0005 00005 5    5     5 0000000005"),
        (early, "%C %-C %_C %5C %_5EC", "00 0  0 00000     0"),
        (early, "%k %-k %0k %4k %l %-l %0l %4l", " 0 0 00    0 12 12 12   12"),
        (early, "%u %3u %_3u %-3u %w %3w %_3w %-3w %-9w", "4 004   4 4 4 004   4 4 4"),
        (early, "%-j %_5j %1j %4j", "307   307 307 0307"),
        (early, "%_5Ey|%-Oe|%05Od|%3OU", "    5|3|00003|044"),
        (early, "%^b %^3b %^4b %4b %2b %12B %^B", "NOV NOV  NOV  Nov Nov     November NOVEMBER"),
        (early, "%^a|%^10A|%9A|%8A", "THU|  THURSDAY| Thursday|Thursday"),
        (early, "%p %P %^p %^P %3p %3P %^3P %1P", "AM am AM AM  AM  am  AM am"),
        (MORNING, "%G %-g %_V %-V %4V %-H%-M%-S", "1934 34 10 10 0010 789"),
        (midnight(1, 1, 1), "%-C%-y%-U%-W%-V%-w", "010111"),
    ] {
        assert_eq!(write(&cal, format.as_bytes(), &m, 99), (0, text.len() as u32, text.into()), "{format}");
    }
    for (why, bad) in [
        ("unfinished", "% %_ %0 %5 %05 %_5 %5E %_5O"),
        ("another order", "%00d %100d %5^a %_-d %__d %E5y %E_y %O-d %^05a %+d %#a %5\td"),
        ("a flag of others", "%^d %^5Y %^Oe %_a %-B %0p %_5P %-5A %05h"),
        ("a composite or a byte", "%5c %^x %-D %_F %0T %_5Ec %5% %-n %0t %^% %5n"),
        ("no letter", "%5Q %_s %5Ed %-Oc"),
    ] {
        for bad in bad.split(' ') {
            assert_eq!(write(&cal, format!("%d{bad}").as_bytes(), &early, 99), (3, 2, vec![]), "{bad}, {why}");
        }
    }
    for bad in ["%5m", "%-d", "%_5Ey", "%^a", "%^P", "%05Y", "%1j", "%0"] {
        let format = format!("%d {bad}");
        let expected = Reading { number: 3, place: 3, ..Reading::default() };
        assert_eq!(read(&cal, Engine::Skipping, format.as_bytes(), b"3"), expected, "{format}");
    }
    // the most that a format writes
    assert_eq!(write(&cal, &b"%99d".repeat(256), &early, 0), (4, 25_344, vec![]));
}

/// %z and %s when writing.
#[test]
fn offsets_written() {
    let cal = Calendar::new();
    let writes = |m: Moment, format: &str, text: &str| {
        assert_eq!(write(&cal, format.as_bytes(), &m, 99), (0, text.len() as u32, text.into()), "{m:?} by {format}");
    };
    for (offset, text) in [
        (0, "+0000"),
        (1, "+0001"),
        (-1, "-0001"),
        (30, "+0030"),
        (-30, "-0030"),
        (59, "+0059"),
        (60, "+0100"),
        (-60, "-0100"),
        (90, "+0130"),
        (-90, "-0130"),
        (-210, "-0330"),
        (345, "+0545"),
        (599, "+0959"),
        (600, "+1000"),
        (1439, "+2359"),
        (-1439, "-2359"),
    ] {
        writes(MORNING.with_offset(offset), "%z", text);
        writes(MORNING.with_offset(offset), "%T%z|%z %%z", &format!("07:08:09{text}|{text} %z"));
    }
    writes(MORNING, "%z", "");
    writes(MORNING, "%T%z|%z %%z %%s", "07:08:09| %z %s");
    // a field with an offset is what it is without one
    writes(MORNING.with_offset(-90), "%c %p %j %z", "Mon Mar  5 07:08:09 1934 AM 064 -0130");

    for (fields, offset, text) in [
        ([1970, 1, 1, 0, 0, 0], 0, "0"),
        ([1969, 12, 31, 23, 59, 60], 0, "0"),
        ([1969, 12, 31, 23, 59, 59], 0, "-1"),
        ([1970, 1, 1, 0, 0, 1], 0, "1"),
        ([1970, 1, 1, 0, 0, 60], 0, "60"),
        ([1970, 1, 1, 0, 1, 0], 0, "60"),
        ([1970, 1, 2, 0, 0, 0], 0, "86400"),
        ([1970, 1, 1, 1, 30, 0], 90, "0"),
        ([1969, 12, 31, 23, 30, 0], -30, "0"),
        ([1970, 1, 1, 0, 0, 0], 1, "-60"),
        ([1970, 1, 1, 0, 0, 0], -1, "60"),
        ([1970, 1, 1, 0, 0, 0], 1439, "-86340"),
        ([1970, 1, 1, 0, 0, 0], -1439, "86340"),
        ([2001, 9, 9, 1, 46, 40], 0, "1000000000"),
        ([2009, 2, 13, 23, 31, 30], 0, "1234567890"),
        ([2009, 2, 14, 0, 31, 30], 60, "1234567890"),
        ([2038, 1, 19, 3, 14, 7], 0, "2147483647"),
        ([2038, 1, 19, 3, 14, 8], 0, "2147483648"),
        ([1901, 12, 13, 20, 45, 52], 0, "-2147483648"),
        ([2016, 12, 31, 23, 59, 60], 0, "1483228800"),
        ([2017, 1, 1, 0, 0, 0], 0, "1483228800"),
        ([2000, 2, 29, 23, 59, 60], 0, "951868800"),
        ([2000, 3, 1, 0, 0, 0], 0, "951868800"),
        ([1900, 2, 28, 23, 59, 60], 0, "-2203891200"),
        ([1900, 3, 1, 0, 0, 0], 0, "-2203891200"),
        ([1934, 3, 5, 7, 8, 9], 0, "-1130604711"),
        ([1934, 3, 5, 7, 8, 9], 60, "-1130608311"),
        ([1, 1, 1, 0, 0, 0], 0, "-62135596800"),
        ([1, 1, 1, 0, 0, 0], 1439, "-62135683140"),
        ([9999, 12, 31, 23, 59, 59], 0, "253402300799"),
        ([9999, 12, 31, 23, 59, 60], -1439, "253402387140"),
    ] {
        let m = Moment::new(fields).with_offset(offset);
        writes(m, "%s", text);
        writes(m, "@%s.%s ", &format!("@{text}.{text} "));
    }
}

/// What %z and %s are refused for when writing, and in which order.
#[test]
fn offsets_not_written() {
    let cal = Calendar::new();
    let answers = |m: Moment, format: &str, room: usize, number, place| {
        assert_eq!(write(&cal, format.as_bytes(), &m, room), (number, place, vec![]), "{m:?} by {format}");
    };
    // 2, place 7, last of all fields, and only where it is said; before 3
    for offset in [1440, -1440, 1441, 65_536, 65_536 + 60, i32::MAX, -i32::MAX, i32::MIN] {
        answers(MORNING.with_offset(offset), "%z", 9, 2, 7);
        answers(MORNING.with_offset(offset), "", 9, 2, 7);
        answers(MORNING.with_offset(offset), "%Q%s", 0, 2, 7);
        answers(Moment::new([1934, 3, 5, 7, 8, 61]).with_offset(offset), "%z", 9, 2, 6);
        answers(midnight(1900, 2, 29).with_offset(offset), "%z", 9, 2, 3);
    }
    // 3: flags, widths, E and O
    for bad in "%5z %_z %-z %0z %^z %05z %_5z %99z %1s %5s %_s %-s %0s %^s %015s %Ez %Oz %Es %Os %5Ez %:z".split(' ') {
        for m in [MORNING, MORNING.with_offset(90)] {
            answers(m, &format!("%z {bad}"), 99, 3, 3);
        }
    }
    // 12 at the first %s: after 3, before 4
    answers(MORNING, "%s", 99, 12, 0);
    answers(MORNING, "%z%d %s %s", 99, 12, 5);
    answers(MORNING, "%s", 0, 12, 0);
    answers(MORNING, "%%s %5d%c|%s", 3, 12, 10);
    answers(MORNING, "%s %Q", 99, 3, 3);
    answers(MORNING, "%s %5s", 99, 3, 3);
    answers(Moment::new([1934, 3, 5, 7, 60, 9]), "%s", 99, 2, 5);
    // 4
    answers(MORNING.with_offset(90), "%z", 4, 4, 5);
    answers(MORNING.with_offset(0), "%s", 10, 4, 11);
    answers(midnight(1, 1, 1).with_offset(1439), &"%s".repeat(512), 0, 4, 12 * 512);
    answers(MORNING, &("x".repeat(1023) + "%s"), 0, 1, 0);
}

/// %z when reading: number, place, and the offset.
#[test]
fn offsets_read() {
    let cal = Calendar::new();
    for (format, text, number, place, offset) in [
        ("%z", "+0130", 0, 5, Some(90)),
        ("%z", "-0130", 0, 5, Some(-90)),
        ("%z", "+0030", 0, 5, Some(30)),
        ("%z", "-0030", 0, 5, Some(-30)),
        ("%z", "-0001", 0, 5, Some(-1)),
        ("%z", "+0000", 0, 5, Some(0)),
        ("%z", "-0000", 0, 5, Some(0)),
        ("%z", "+2359", 0, 5, Some(1439)),
        ("%z", "-2359", 0, 5, Some(-1439)),
        // just four digits: what follows is for others
        ("%z", "+01305", 0, 5, Some(90)),
        ("%z%S", "+01305", 0, 6, Some(90)),
        ("%zZ", "+0130Z", 0, 6, Some(90)),
        ("%z", "+0130:30", 0, 5, Some(90)),
        // 6 at the sign, or where it should stand
        ("%z", "", 6, 0, None),
        ("%z", "0130", 6, 0, None),
        ("%z", "+", 6, 0, None),
        ("%z", "+0", 6, 0, None),
        ("%z", "+013", 6, 0, None),
        ("%z", "+130", 6, 0, None),
        ("%z", "+1:30", 6, 0, None),
        ("%z", "+01:30", 6, 0, None),
        ("%z", "+ 130", 6, 0, None),
        ("%z", "+0 30", 6, 0, None),
        ("%z", "+013x", 6, 0, None),
        ("%z", "++130", 6, 0, None),
        ("%z", "*0130", 6, 0, None),
        ("%z", ",0130", 6, 0, None),
        ("%z", "Z", 6, 0, None),
        ("%z", "UTC", 6, 0, None),
        ("%z", " +0130", 6, 0, None),
        ("%H%z", "07 +0130", 6, 2, None),
        ("%H%z", "07", 6, 2, None),
        ("%H %z", "07 +", 6, 3, None),
        // a 6 goes before a 7
        ("%z", "+99", 6, 0, None),
        ("%z", "+249x", 6, 0, None),
        // white space in the format takes its run
        ("%H %z", "07+0130", 0, 7, Some(90)),
        ("%H%n%z", "07 \t\r+0130", 0, 10, Some(90)),
        // 7 at the sign
        ("%z", "+2400", 7, 0, None),
        ("%z", "-2400", 7, 0, None),
        ("%z", "+0060", 7, 0, None),
        ("%z", "-0099", 7, 0, None),
        ("%z", "+9900", 7, 0, None),
        ("%H %z", "07 +2360", 7, 3, None),
        // the same offset again, and another one, 8 at its sign; 6 and 7 go before it
        ("%z %z", "+0130 +0130", 0, 11, Some(90)),
        ("%z%z", "+0000-0000", 0, 10, Some(0)),
        ("%z %z", "+0130 -0130", 8, 6, None),
        ("%z %z", "+0000 +0001", 8, 6, None),
        ("%z%z", "-0030+0030", 8, 5, None),
        ("%z %z %z", "+0130 +0130 +0131", 8, 12, None),
        ("%z %z", "+0130 -0160", 7, 6, None),
        ("%z %z", "+0130 -013", 6, 6, None),
        // beside a day and an hour, which do not mind it; with a refusal of these it is unsaid
        ("%F %T %z", "1934-03-05 07:08:09 -0330", 0, 25, Some(-210)),
        ("%z %F", "+2359 0001-01-01", 0, 16, Some(1439)),
        ("%z %F", "-2359 9999-12-31", 0, 16, Some(-1439)),
        ("%z %a %F", "+2359 Tue 1934-03-05", 9, 1, None),
        ("%z %d %b", "+0130 5 mar", 10, 1, None),
        ("%z %H %p", "+0130 7 PM", 9, 2, None),
        ("%z %I", "+0130 7", 10, 2, None),
        ("%z %M", "+0130 60", 7, 6, None),
        // 3: what is not read
        ("%z %s", "+0130 0", 3, 3, None),
        ("%s", "0", 3, 0, None),
        ("%s", "", 3, 0, None),
        ("%z%5z", "+0130", 3, 2, None),
        ("%_z", "+0130", 3, 0, None),
        ("%Ez", "+0130", 3, 0, None),
        ("%Oz", "+0130", 3, 0, None),
        ("%Os", "0", 3, 0, None),
        ("%-s", "0", 3, 0, None),
    ] {
        let matched = matched(&cal, format.as_bytes(), text.as_bytes());
        for engine in [Engine::Skipping, Engine::Plain, Engine::Within(DAYS as u32)] {
            let found = matched.reading(engine);
            assert_eq!((found.number, found.place, found.offset), (number, place, offset), "{text} by {format}");
        }
    }
    // beside what else is said; and refused by a budget
    let all = read(&cal, Engine::Skipping, b"%z %F %H:%M:%S", b"-2359 1934-03-05 07:08:60");
    let (hour, minute, second, offset) = (Some(7), Some(8), Some(60), Some(-1439));
    let day = Some((1934, 3, 5));
    assert_eq!(all, Reading { place: 25, day, hour, minute, second, offset, examined: 31, ..Reading::default() });
    let over = read(&cal, Engine::Within(1), b"%z %F", b"+0130 1934-03-05");
    assert_eq!(over, Reading { number: 11, place: 1, examined: 1, ..Reading::default() });
    // no reason names it
    let (_, reason) = explain(&cal, Engine::Skipping, b"%z %H %p", b"+0130 7 PM");
    assert_eq!(reason, quarrel(&[(13, 6, 7), (15, 8, 10)]));
}

/// %z and %s as elements, by which is written and read.
#[test]
fn offsets_as_elements() {
    let cal = Calendar::new();
    let element = |letter: u8, at: u32| letter as u32 + 256 * (at + 1);
    let (z, s) = (element(b'z', 2), element(b's', 7));
    assert_eq!((z, s), (890, 2163));
    assert_eq!(Opened::new(b"%dx%z %s", Use::Writing).elements, [256 + 100, 120, 122 + 256 * 4, 32, 115 + 256 * 7]);
    let (width, flag) = ((1 << 18) * 5, (1 << 25) * b'_' as u32);
    for (entries, bad_to_write, bad_to_read) in [
        (&[z][..], None, None),
        (&[32, z, z], None, None),
        (&[element(b'z', 0), element(b's', 0)], None, Some(0)),
        (&[s], None, Some(7)),
        (&[32, z, s], None, Some(7)),
        (&[32, s, element(b's', 1022), element(b's', 3)], None, Some(7)),
        (&[element(b's', 1022)], None, Some(1022)),
        // no elements at all: with a width, a flag, or an offset over 1,022
        (&[32, z + width], Some(1), Some(1)),
        (&[32, z + flag], Some(1), Some(1)),
        (&[32, 32, s + width], Some(2), Some(2)),
        (&[s + flag], Some(0), Some(0)),
        (&[element(b'z', 1023)], Some(0), Some(0)),
        (&[32, element(b's', 1023)], Some(1), Some(1)),
        (&[32, s, element(b'Q', 3)], Some(2), Some(7)),
        (&[32, element(b'Q', 3), s], Some(1), Some(1)),
    ] {
        let to_write = elements::items(entries, Use::Writing);
        assert_eq!(to_write.as_ref().err(), bad_to_write.as_ref(), "{entries:?}");
        let to_read = elements::items(entries, Use::Reading);
        assert_eq!(to_read.as_ref().err(), bad_to_read.as_ref(), "{entries:?}");
        if let (Some(at), false) = (bad_to_read, to_read.is_ok()) {
            let refused = Reading { number: 3, place: at as u32, ..Reading::default() };
            assert_eq!(matched_opened(&cal, &to_read, b"").reading(Engine::Skipping), refused, "{entries:?}");
        }
    }
    // 12 has the offset of the first entry that is a %s, whatever its index
    let written = |entries: &[u32], m: Moment, room: usize| write_opened(&cal, &elements::items(entries, Use::Writing), &m, room);
    assert_eq!(written(&[32, z, s, element(b's', 0)], MORNING, 99), (12, 7, vec![]));
    assert_eq!(written(&[s], MORNING, 0), (12, 7, vec![]));
    assert_eq!(written(&[s, element(b'Q', 0)], MORNING, 0), (3, 1, vec![]));
    assert_eq!(written(&[s, z], MORNING.with_offset(1440), 99), (2, 7, vec![]));
    assert_eq!(written(&[z, 32, s], midnight(1970, 1, 1).with_offset(-1), 99), (0, 8, b"-0001 60".to_vec()));
}

/// The rules against the C library: %z by its strftime for every offset, %s by its timegm on every day.
#[test]
fn offsets_of_c() {
    let cal = Calendar::new();
    let writer = |format: &[u8], m: &Moment, out: &mut [u8]| {
        let (number, place, bytes) = write(&cal, format, m, out.len());
        out[..bytes.len()].copy_from_slice(&bytes);
        (number, place)
    };
    let mut random = Random(1439);
    let offsets = c_offsets::writings(&mut random, &cal);
    assert_eq!(c_writings::compare(offsets, writer, |case| panic!("{case:?}")), 2880 * 7);
    let seconds = c_seconds::writings(&mut random, &cal);
    assert_eq!(c_writings::compare(seconds, writer, |case| panic!("{case:?}")), 5 * DAYS);
}

/// The days that each engine examines, and budgets.
#[test]
fn engines() {
    let cal = Calendar::new();
    let all = DAYS as u32;
    for (format, text, number, plain, skipping) in [
        ("%d %b", "5 mar", 10, 365 + 31 + 28 + 5, 31 + 5),
        ("%d %b", "30 feb", 9, all, 9999 * 28 + 2424),
        ("%d %b", "29 feb", 10, 7 * 365 + 1 + 31 + 29, 3 * 28 + 29 + 3 * 28 + 29),
        ("%d %b %Y %H:%M", "5 Mar 1934 07:08", 0, all, 31),
        ("%d %b %Y %H:%M", "29 Feb 1900 07:08", 9, all, 28),
        ("%a %d %b %Y", "Tue 5 Mar 1934", 9, all, 31),
        ("%d %b %Y %I", "5 Mar 1934 07", 10, all, 31),
        ("%F %H %p", "2000-02-29 7 PM", 9, all, 29),
        ("%G %V %u", "2009 53 5", 0, all, all),
        ("%G %V %u", "2016 53 7", 9, all, all),
        ("%G %V", "1 1", 10, 2, 2),
        ("%G %Y", "2009 2010", 10, 733_774, 2),
        ("%G %Y", "2009 2011", 9, all, 365),
        ("%Y", "1", 10, 2, 2),
        ("%Y", "9999", 10, all - 363, 2),
        ("%Y %j", "1934 64", 0, all, 365),
        ("%Y %m", "9999 12", 10, all - 29, 2),
        ("%C", "99", 10, all - 36_524 + 2, 2),
        ("%C %y", "00 00", 9, all, 0),
        ("%C %y", "19 00", 10, 693_597, 2),
        ("%C %y %j", "20 00 366", 0, all, 366),
        ("%Y %C", "1934 20", 9, all, 0),
        ("%Y %y %m", "1934 35 3", 9, all, 0),
        ("%y", "0", 10, 99 * 365 + 24 + 2, 2),
        ("%y %m %d", "0 2 29", 10, 291_888, 6 * 28 + 2 * 29),
        ("%y %m %d", "1 2 29", 9, all, 100 * 28),
        ("%j", "366", 10, 8 * 365 + 2, 8 * 365 + 2),
        ("%m %j", "1 366", 9, all, 9999 * 31),
        ("%U %m", "53 1", 9, all, 9999 * 31),
        // no fact bears on the day, or a refusal came before it
        ("", "", 0, 0, 0),
        ("%I:%M", "07:08", 10, 0, 0),
        ("%H %p", "7 PM", 9, 0, 0),
        ("%d %e", "5 6", 8, 0, 0),
        ("%d %m", "5 13", 7, 0, 0),
        ("%d %m", "5 x", 6, 0, 0),
        ("%d %Q", "5 x", 3, 0, 0),
    ] {
        let matched = matched(&cal, format.as_bytes(), text.as_bytes());
        let by_plain = matched.reading(Engine::Plain);
        assert_eq!((by_plain.number, by_plain.examined), (number, plain), "{text} by {format}");
        assert_eq!(matched.reading(Engine::Skipping), Reading { examined: skipping, ..by_plain.clone() }, "{text} by {format}");
        for budget in [0, 1, 2, plain / 2, plain.saturating_sub(1), plain, plain + 1, all - 1, all, u32::MAX] {
            let over = Reading { number: 11, place: budget, examined: budget, ..Reading::default() };
            let expected = if budget < plain { &over } else { &by_plain };
            assert_eq!(matched.reading(Engine::Within(budget)), *expected, "{text} by {format} within {budget}");
        }
    }
}

/// Names in every form: number, place, and the forms of the last weekday name and of the last month name.
#[test]
fn names() {
    let cal = Calendar::new();
    let (full, middle, short) = (Some(Form::Full), Some(Form::Middle), Some(Form::Short));
    for (format, text, number, place, weekday, month) in [
        // 2000-02-29 is a Tuesday
        ("%F %a", "2000-02-29 Tuesday", 0, 18, full, None),
        ("%F %a", "2000-02-29 Tuesd", 0, 15, middle, None),
        ("%F %a", "2000-02-29 Tuesda", 0, 15, middle, None),
        ("%F %a", "2000-02-29 Tuesdays", 0, 18, full, None),
        ("%F %A", "2000-02-29 tUES", 0, 15, middle, None),
        ("%F %a", "2000-02-29 Tuess", 0, 15, middle, None),
        ("%F %a", "2000-02-29 Tue", 0, 14, short, None),
        ("%F %a", "2000-02-29 Tued", 0, 14, short, None),
        ("%F %a", "2000-02-29 Tu", 6, 11, None, None),
        ("%F %a", "2000-02-29 Tu.es", 6, 11, None, None),
        ("%F %ad", "2000-02-29 Tuesd", 0, 16, middle, None),
        ("%F %as", "2000-02-29 Tues", 6, 15, None, None),
        ("%F %as", "2000-02-29 Tuess", 0, 16, middle, None),
        // and 2000-03-02 a Thursday
        ("%F %a", "2000-03-02 Thursday", 0, 19, full, None),
        ("%F %a", "2000-03-02 Thursda", 0, 16, middle, None),
        ("%F %a", "2000-03-02 Thursd", 0, 16, middle, None),
        ("%F %a", "2000-03-02 THURS", 0, 16, middle, None),
        ("%F %a", "2000-03-02 Thur", 0, 15, middle, None),
        ("%F %a", "2000-03-02 Thurd", 0, 15, middle, None),
        ("%F %a", "2000-03-02 Thu", 0, 14, short, None),
        ("%F %a", "2000-03-02 Thus", 0, 14, short, None),
        ("%F %as", "2000-03-02 Thurs", 6, 16, None, None),
        // no other weekday has a form between
        ("%F %a", "2000-02-28 Mond", 0, 14, short, None),
        ("%F %a", "2000-03-01 Weds", 0, 14, short, None),
        ("%F %a", "2000-03-01 Wednes", 0, 14, short, None),
        ("%F %a", "2000-03-04 Satur", 0, 14, short, None),
        // months
        ("%d %b %Y", "5 September 1934", 0, 16, None, full),
        ("%d %b %Y", "5 Sept 1934", 0, 11, None, middle),
        ("%d %B %Y", "5 sEPT1934", 0, 10, None, middle),
        ("%d %b %Y", "5 Sep 1934", 0, 10, None, short),
        ("%d %b %Y", "5 Septem 1934", 6, 6, None, None),
        ("%Y %d %b", "1934 5 Septem", 0, 11, None, middle),
        ("%Y %d %h", "1934 5 Septembe", 0, 11, None, middle),
        ("%Y %d %h", "1934 5 Septembers", 0, 16, None, full),
        ("%Y %d %b", "1934 5 Sepember", 0, 10, None, short),
        ("%Y %d %b", "1934 5 Octo", 0, 10, None, short),
        ("%Y %d %b", "1934 5 June", 0, 11, None, full),
        ("%Y %d %b", "1934 5 Juné", 0, 10, None, short),
        ("%Y %d %b", "1934 5 May", 0, 10, None, full),
        ("%Y %d %b", "1934 5 mays", 0, 10, None, full),
        ("%Y %d %b", "1934 5 Ma", 6, 7, None, None),
        // both, and the last of each
        ("%c", "Thurs Sept  6 07:08:09 1934", 0, 27, middle, middle),
        ("%c", "Thu September  6 07:08:09 1934", 0, 30, short, full),
        ("%F %b %B %h", "1934-09-06 Sept September Sep", 0, 29, None, short),
        ("%F %b %b", "1934-09-06 Sep Sept", 0, 19, None, middle),
        ("%F %a%A%a", "1934-09-06 ThursdayThurThu", 0, 26, short, None),
        ("%F %a%a", "1934-09-06 ThuThursday", 0, 22, full, None),
        ("%F %a %b %a", "1934-09-06 Thu September Thurs", 0, 30, middle, full),
        // a number is no name, nor is a half of the day
        ("%F", "1934-09-06", 0, 10, None, None),
        ("%G %V %u", "2009 53 5", 0, 9, None, None),
        ("%F %a %u %w", "1934-09-06 Thurs 4 4", 0, 20, middle, None),
        ("%u %w %F %a", "4 4 1934-09-06 Thur", 0, 19, middle, None),
        ("%b %F %m", "Sept 1934-09-06 9", 0, 17, None, middle),
        ("%F %I %p", "1934-09-06 7 PM", 0, 15, None, None),
        ("%p %a %F %I", "pm Thu 1934-09-06 7", 0, 19, short, None),
        ("", "", 0, 0, None, None),
        // a refusal of any number
        ("%a %F %", "Tues 2000-02-29 ", 3, 6, None, None),
        ("%a %b %Y", "Tues Sept", 6, 9, None, None),
        ("%a %b %d", "Tues Sept 32", 7, 10, None, None),
        ("%a %A", "Tues Wed", 8, 5, None, None),
        ("%b %m", "Sept 8", 8, 5, None, None),
        ("%F %a", "2000-02-29 Thurs", 9, 1, None, None),
        ("%a", "Tues", 10, 1, None, None),
        ("%d %b", "5 Sept", 10, 1, None, None),
        ("%F %a %H %p", "2000-02-29 Tues 7 PM", 9, 2, None, None),
        ("%F %a %I", "2000-02-29 Tues 7", 10, 2, None, None),
    ] {
        let matched = matched(&cal, format.as_bytes(), text.as_bytes());
        for engine in [Engine::Skipping, Engine::Plain, Engine::Within(DAYS as u32)] {
            let found = matched.reading(engine);
            assert_eq!((found.number, found.place, found.forms), (number, place, Forms { weekday, month }), "{text} by {format}");
        }
    }
    let over = read(&cal, Engine::Within(1), b"%a %F", b"Tues 2000-02-29");
    assert_eq!(over, Reading { number: 11, place: 1, examined: 1, ..Reading::default() });
    // what is written is the full name or the short one
    assert_eq!(write(&cal, b"%a %A %b %B %h", &midnight(1934, 9, 6), 99).2, b"Thu Thursday Sep September Sep");
}

/// A reason with its words as kind, from and next.
fn quarrel(words: &[(usize, usize, usize)]) -> Option<Reason> {
    Some(Reason::Quarrel(words.iter().map(|&(kind, from, next)| (kind, Words { from, next })).collect()))
}

/// The kinds that quarrel, where they stand in the text: on the day, and on the hour.
#[test]
fn quarrelling_kinds() {
    let cal = Calendar::new();
    for (format, text, place, words) in [
        // the cases of RULES 8.5
        ("%a %d %b %Y", "Tue 5 Mar 1934", 1, &[(1, 10, 14), (4, 6, 9), (5, 4, 5), (7, 0, 3)][..]),
        (" %a %d %b %Y", "  Tue 5 Mar 1934", 1, &[(1, 12, 16), (4, 8, 11), (5, 6, 7), (7, 2, 5)]),
        ("%d %b %Y %H:%M", "29 Feb 1900 07:08", 1, &[(1, 7, 11), (4, 3, 6), (5, 0, 2)]),
        ("%d %b %Y", "30 Feb 1900", 1, &[(4, 3, 6), (5, 0, 2)]),
        ("%C %y %d %b %Y", "19 33 5 Mar 1934", 1, &[(1, 12, 16), (3, 3, 5)]),
        ("%G %V %u", "2016 53 7", 1, &[(10, 0, 4), (12, 5, 7)]),
        ("%C %y", "00 00", 1, &[(2, 0, 2), (3, 3, 5)]),
        ("%a %u %d %b %Y", "Tue 2 5 Mar 1934", 1, &[(1, 12, 16), (4, 8, 11), (5, 6, 7), (7, 0, 3)]),
        ("%H %p", "7 PM", 2, &[(13, 0, 1), (15, 2, 4)]),
        ("%H %I %p", "07 8 AM", 2, &[(13, 0, 2), (14, 3, 4)]),
        ("%d %b %Y %H %p", "5 Mar 1934 7 PM", 2, &[(13, 11, 12), (15, 13, 15)]),
        // two kinds, other kinds beside them or not
        ("%Y %C", "1934 20", 1, &[(1, 0, 4), (2, 5, 7)]),
        ("%y %j", "1 366", 1, &[(3, 0, 1), (6, 2, 5)]),
        ("%C %y %j", "19 1 366", 1, &[(3, 3, 4), (6, 5, 8)]),
        ("%m %j", "1 366", 1, &[(4, 0, 1), (6, 2, 5)]),
        ("%U %m", "53 1", 1, &[(4, 3, 4), (8, 0, 2)]),
        ("%U %W", "10 12", 1, &[(8, 0, 2), (9, 3, 5)]),
        ("%V %m", "53 3", 1, &[(4, 3, 4), (12, 0, 2)]),
        ("%g %V", "0 53", 1, &[(11, 0, 1), (12, 2, 4)]),
        ("%G %g", "2009 10", 1, &[(10, 0, 4), (11, 5, 7)]),
        ("%G %Y", "2009 2011", 1, &[(1, 5, 9), (10, 0, 4)]),
        ("%G %y", "2009 11", 1, &[(3, 5, 7), (10, 0, 4)]),
        ("%C %g", "0 0", 1, &[(2, 0, 1), (11, 2, 3)]),
        // a week of Sundays begins with one, and so one of Mondays: in none of them is it the week before the first
        ("%Y %U %a", "2017 0 Sun", 1, &[(7, 7, 10), (8, 5, 6)]),
        ("%Y %W %u", "2018 0 1", 1, &[(7, 7, 8), (9, 5, 6)]),
        // the fourth of a month is never in week 2: that of January is in week 1
        ("%V %d %b", "2 4 jan", 1, &[(5, 2, 3), (12, 0, 1)]),
        // day 64 is 4 March or 5 March
        ("%Y %j %m %d", "1934 64 3 6", 1, &[(5, 10, 11), (6, 5, 7)]),
        // more kinds
        ("%Y %j", "1900 366", 1, &[(1, 0, 4), (6, 5, 8)]),
        ("%C %y %j", "19 00 366", 1, &[(2, 0, 2), (3, 3, 5), (6, 6, 9)]),
        ("%G %m %d", "2008 12 29", 1, &[(4, 5, 7), (5, 8, 10), (10, 0, 4)]),
        ("%D %C", "02/29/00 19", 1, &[(2, 9, 11), (3, 6, 8), (4, 0, 2), (5, 3, 5)]),
        // 5 March of a year 34 is a Monday, Sunday, Friday or Wednesday
        ("%a %D %C", "Tue 03/05/34 19", 1, &[(3, 10, 12), (4, 4, 6), (5, 7, 9), (7, 0, 3)]),
        ("%a %D %C", "Sun 03/05/34 19", 1, &[(2, 13, 15), (3, 10, 12), (4, 4, 6), (5, 7, 9), (7, 0, 3)]),
        // composites, names in every form, numbers for names, white space
        ("%c", "Tue Mar  5 07:08:09 1934", 1, &[(1, 20, 24), (4, 4, 7), (5, 9, 10), (7, 0, 3)]),
        ("%a %F", "Tue 1934-03-05", 1, &[(1, 4, 8), (4, 9, 11), (5, 12, 14), (7, 0, 3)]),
        ("%w %F", "0 1934-03-05", 1, &[(1, 2, 6), (4, 7, 9), (5, 10, 12), (7, 0, 1)]),
        ("%A %d %B %Y", "Thursday 5 SEPTEMBER 1934", 1, &[(1, 21, 25), (4, 11, 20), (5, 9, 10), (7, 0, 8)]),
        ("%a %d %b %Y", "thurs 5 sept 1934", 1, &[(1, 13, 17), (4, 8, 12), (5, 6, 7), (7, 0, 5)]),
        ("%a %d %b %Y", "Thur 5 Sep 1934", 1, &[(1, 11, 15), (4, 7, 10), (5, 5, 6), (7, 0, 4)]),
        ("%d%b", " \t30Feb", 1, &[(4, 4, 7), (5, 2, 4)]),
        ("%d of%n%m", "30 of \r 2", 1, &[(4, 8, 9), (5, 0, 2)]),
        // said twice
        ("%d %e %b %Y", "30 30 Feb 1900", 1, &[(4, 6, 9), (5, 0, 2)]),
        ("%b %m %d", "Feb 2 30", 1, &[(4, 0, 3), (5, 6, 8)]),
        ("%m %b %d", "02 february 30", 1, &[(4, 0, 2), (5, 12, 14)]),
        // the hour: also beside a day that has been found, but not beside one that is refused
        ("%H %I %p", "12 12 AM", 2, &[(13, 0, 2), (15, 6, 8)]),
        ("%I %p %H", "12 PM 0", 2, &[(13, 6, 7), (15, 3, 5)]),
        ("%k %l", " 0  1", 2, &[(13, 1, 2), (14, 4, 5)]),
        ("%r %H", "07:08:09 PM 7", 2, &[(13, 12, 13), (15, 9, 11)]),
        ("%F %p%P %R", "2000-02-29 pmPM 07:08", 2, &[(13, 16, 18), (15, 11, 13)]),
        ("%d %b %Y %H %p", "30 Feb 1900 7 PM", 1, &[(4, 3, 6), (5, 0, 2)]),
    ] {
        let matched = matched(&cal, format.as_bytes(), text.as_bytes());
        let reading = matched.reading(Engine::Skipping);
        assert_eq!((reading.number, reading.place), (9, place), "{text} by {format}");
        assert_eq!(matched.reason_slowly(&cal, &reading), quarrel(words), "{text} by {format}");
        for engine in [Engine::Skipping, Engine::Plain, Engine::Within(DAYS as u32)] {
            assert_eq!(matched.reason(&cal, &matched.reading(engine)), quarrel(words), "{text} by {format}");
        }
        let small = matched.reading(Engine::Within(DAYS as u32 - 1));
        let over = small.number == 11;
        assert_eq!(matched.reason(&cal, &small), if over { None } else { quarrel(words) }, "{text} by {format}");
    }
}

/// What two days differ in, the two hours, and no reason at all.
#[test]
fn other_reasons() {
    let cal = Calendar::new();
    let (year, month, day) = (Some(Reason::Differ(Part::Year)), Some(Reason::Differ(Part::Month)), Some(Reason::Differ(Part::Day)));
    let hours = |first, second| Some(Reason::Hours([first, second]));
    for (format, text, number, place, reason) in [
        // the cases of RULES 8.5
        ("%d %b", "5 mar", 10, 1, year.clone()),
        ("%d %Y", "5 1934", 10, 1, month.clone()),
        ("%b %Y", "Mar 1934", 10, 1, day.clone()),
        ("%a", "Mon", 10, 1, day.clone()),
        ("%I:%M", "07:08", 10, 2, hours(7, 19)),
        ("%p", "PM", 10, 2, hours(12, 13)),
        // 0034-03-05 and 0134-03-05, 0004-12-31 and 0008-12-31, 2008-12-31 and 2009-01-31, 0006-12-31 and 0012-12-30
        ("%y %j", "34 64", 10, 1, year.clone()),
        ("%j", "366", 10, 1, year.clone()),
        ("%G %d", "2009 31", 10, 1, year.clone()),
        ("%U", "53", 10, 1, year.clone()),
        // 2009-01-05 and 2009-02-05, 1934-04-30 and 1934-07-30
        ("%G %d", "2009 5", 10, 1, month.clone()),
        ("%Y %a %d", "1934 Mon 30", 10, 1, month),
        // 2008-12-29 and 2008-12-30, 0001-01-01 and 0001-01-02, 1934-01-01 and 1934-01-08
        ("%G", "2009", 10, 1, day.clone()),
        ("%V", "1", 10, 1, day.clone()),
        ("%Y %u", "1934 1", 10, 1, day),
        // the day goes before the hour
        ("%d %b %I", "5 mar 7", 10, 1, year.clone()),
        ("%d %b %H %p", "5 mar 7 PM", 10, 1, year),
        ("%F %I", "2000-02-29 12", 10, 2, hours(0, 12)),
        ("%p %F", "am 2000-02-29", 10, 2, hours(0, 1)),
        ("%r", "07:08:09 PM", 0, 11, None),
        ("", "", 0, 0, None),
        ("%d %Q", "5 x", 3, 3, None),
        ("%d %b %Y", "28 Feb 190x", 0, 10, None),
        ("%a %d %b %Y", "Tue 5 Mar", 6, 9, None),
        ("%H %p %d", "7 PM 32", 7, 5, None),
        ("%d %b %Y %e", "30 Feb 1900 29", 8, 12, None),
    ] {
        let matched = matched(&cal, format.as_bytes(), text.as_bytes());
        for engine in [Engine::Skipping, Engine::Plain, Engine::Within(DAYS as u32)] {
            let reading = matched.reading(engine);
            assert_eq!((reading.number, reading.place), (number, place), "{text} by {format}");
            assert_eq!(matched.reason(&cal, &reading), reason, "{text} by {format}");
        }
    }
    for (format, text, number) in [(&b"x".repeat(1025)[..], &b"x"[..], 1), (b"%d", &[b'1'; 1025], 5)] {
        let (reading, reason) = explain(&cal, Engine::Skipping, format, text);
        assert_eq!((reading.number, reason), (number, None));
    }
    let (reading, reason) = explain(&cal, Engine::Within(1), b"%a", b"Mon");
    assert_eq!((reading.number, reason), (11, None));
}

/// Lists, and what the program `quarrels` writes for them (RULES 9.2).
#[test]
fn sentences() {
    let cal = Calendar::new();
    let example = "%a %d %b %Y\nMon 5 Mar 1934\nTue 5 Mar 1934\n5 Mar 1934\n";
    let answer = "Tue 5 Mar 1934
^^^ ^ ^^^ ^^^^
line 3: no day is Tue, 5, Mar and 1934 together

5 Mar 1934
^
line 4: the text does not go on as the format wants

";
    assert_eq!(quarrels(&cal, example.as_bytes()), answer);

    // a format, a text, what is shown of it, the marks if there are any, and the sentence
    for (format, text, shown, marks, sentence) in [
        // 3, and what is shown of any text
        (
            "%d %^b",
            "5 MAR",
            "5 MAR",
            "",
            "the format has a conversion at byte 3 that is unknown or unfinished, or that has a flag or a width",
        ),
        ("%", "", "", "", "the format has a conversion at byte 0 that is unknown or unfinished, or that has a flag or a width"),
        ("%d", "\x7f\0\u{80}\t!\x0b~\x0c \r\x1f", "???? ! ~   ?", "^", "the text does not go on as the format wants"),
        // 6: at the first byte, later, after white space, and where the text ends
        ("%d %b %Y", "5 Mrz 1934", "5 Mrz 1934", "  ^", "the text does not go on as the format wants"),
        ("%d %b %Y", "5 Mar \t year", "5 Mar   year", "        ^", "the text does not go on as the format wants"),
        ("%d %b %Y", "5 Mar", "5 Mar", "     ^", "the text ends before the format does"),
        ("%d %b %Y", "5 Mar \r", "5 Mar  ", "       ^", "the text ends before the format does"),
        ("%d %b %Y", "", "", "^", "the text ends before the format does"),
        // a name that is cut off does not match where it begins
        ("%d %b", "5 Ma", "5 Ma", "  ^", "the text does not go on as the format wants"),
        // 7 and 8, the place after white space
        ("%d %e", " \t32 5", "  32 5", "  ^", "this number is outside its range"),
        ("%d %e", "05 \t6 ", "05  6 ", "    ^", "this was said before, differently"),
        ("%b %m", "Mar 13", "Mar 13", "    ^", "this number is outside its range"),
        ("%m %b", "4 March", "4 March", "  ^", "this was said before, differently"),
        // the same at the sign of an offset; %s is not read
        ("%H%z", "07 +0130", "07 +0130", "  ^", "the text does not go on as the format wants"),
        ("%H%z", "07", "07", "  ^", "the text ends before the format does"),
        ("%H%z", "07+", "07+", "  ^", "the text does not go on as the format wants"),
        ("%H%z", "07-2400", "07-2400", "  ^", "this number is outside its range"),
        ("%z %z", "+0130 -0130", "+0130 -0130", "      ^", "this was said before, differently"),
        ("%z %H %p", "+0130 7 PM", "+0130 7 PM", "      ^ ^^", "no hour is hour 7 and PM together"),
        ("%H%s", "07", "07", "", "the format has a conversion at byte 2 that is unknown or unfinished, or that has a flag or a width"),
        // 9: what each kind is called
        ("%C %y", "00 00", "00 00", "^^ ^^", "no day is century 00 and year in century 00 together"),
        ("%Y %C", "1934 20", "1934 20", "^^^^ ^^", "no day is 1934 and century 20 together"),
        ("%m/%j", "1/366", "1/366", "^ ^^^", "no day is month 1 and day of year 366 together"),
        ("%e%h", " 30FEB", " 30FEB", " ^^^^^", "no day is 30 and FEB together"),
        ("%U %w", "0 0", "0 0", "^ ^", "no day is Sunday week 0 and weekday 0 together"),
        ("%A:%W", "monday:00", "monday:00", "^^^^^^ ^^", "no day is monday and Monday week 00 together"),
        ("%G %g", "2009 10", "2009 10", "^^^^ ^^", "no day is ISO year 2009 and ISO year in century 10 together"),
        ("%V (%m)", "53 (3)", "53 (3)", "^^  ^", "no day is ISO week 53 and month 3 together"),
        ("%I %H", "8 07", "8 07", "^ ^^", "no hour is hour of twelve 8 and hour 07 together"),
        ("%H %p", "7 pM, or so", "7 pM, or so", "^ ^^", "no hour is hour 7 and pM together"),
        // three kinds, four, five, and words between them that are not named
        ("%d %b %Y %H:%M", "29 Feb 1900 07:08", "29 Feb 1900 07:08", "^^ ^^^ ^^^^", "no day is 29, Feb and 1900 together"),
        ("%C %y %d %b %Y", "19 33 5 Mar 1934", "19 33 5 Mar 1934", "   ^^       ^^^^", "no day is year in century 33 and 1934 together"),
        (
            "%a %D %C",
            "Sun 03/05/34 19",
            "Sun 03/05/34 19",
            "^^^ ^^ ^^ ^^ ^^",
            "no day is Sun, month 03, 05, year in century 34 and century 19 together",
        ),
        // a carriage return at the end is white space
        ("%d %b\r", "30 Feb\r", "30 Feb ", "^^ ^^^", "no day is 30 and Feb together"),
        // 10
        ("%d %b", "5 mar", "5 mar", "", "more than one day agrees, the earliest 0001-03-05 and 0002-03-05; the year is missing"),
        ("%d %Y", "5 1934", "5 1934", "", "more than one day agrees, the earliest 1934-01-05 and 1934-02-05; the month is missing"),
        ("%b %Y", "Mar 1934", "Mar 1934", "", "more than one day agrees, the earliest 1934-03-01 and 1934-03-02; the day is missing"),
        ("%I:%M", "07:08", "07:08", "", "more than one hour agrees, the earliest 7 and 19; AM or PM is missing"),
        ("%I:%M", "12:00", "12:00", "", "more than one hour agrees, the earliest 0 and 12; AM or PM is missing"),
        ("%p", "PM", "PM", "", "more than one hour agrees, the earliest 12 and 13; the hour is missing"),
        ("%P %M", "am 7", "am 7", "", "more than one hour agrees, the earliest 0 and 1; the hour is missing"),
    ] {
        let marks = if marks.is_empty() { String::new() } else { format!("{marks}\n") };
        let expected = format!("{shown}\n{marks}line 2: {sentence}\n\n");
        assert_eq!(quarrels(&cal, format!("{format}\n{text}\n").as_bytes()), expected, "{text} by {format}");
    }

    // 1 and 5
    let long = "x".repeat(1025);
    let says = |sentence: &str| format!("{long}\nline 2: {sentence}\n\n");
    assert_eq!(quarrels(&cal, format!("{long}\n{long}").as_bytes()), says("the format has more than 1,024 bytes"));
    assert_eq!(quarrels(&cal, format!("%Q\n{long}").as_bytes()), says("the text has more than 1,024 bytes"));
    // nothing to say, and an input that is too long
    for list in ["", "\n", "%d", "%d\n", "%F\n1934-03-05\n2000-02-29 and more", "\nfive\n\n"] {
        assert_eq!(quarrels(&cal, list.as_bytes()), "", "{list}");
    }
    assert_eq!(quarrels(&cal, &[b'\n'; 32_768]), "");
    assert_eq!(quarrels(&cal, &[b'\n'; 32_769]), "too long\n");
    // lines are counted, those that are read too, and the last needs no newline
    let far = format!("%M\n{}x", "7\n".repeat(1000));
    assert_eq!(quarrels(&cal, far.as_bytes()), "x\n^\nline 1002: the text does not go on as the format wants\n\n");
}

/// Facts of some kinds by a day, one or two of them by another day.
fn facts_of_two(random: &mut Random, cal: &Calendar, most: usize) -> Facts {
    let d = if random.chance(30) { *random.pick(&cal.days[..4000]) } else { *random.pick(&cal.days) };
    let other = *random.pick(&cal.days);
    let mut facts: Facts = [None; 18];
    for _ in 0..1 + random.below(most) {
        let kind = 1 + random.below(12);
        facts[kind] = Some(if random.chance(80) { d.value(kind) } else { other.value(kind) });
    }
    facts
}

/// The quick search and the literal one, on sets of facts that agree with a day or quarrel.
#[test]
fn searches() {
    let cal = Calendar::new();
    let mut random = Random(1934);
    for _ in 0..100 {
        let facts = facts_of_two(&mut random, &cal, 4);
        assert_eq!(cal.search(&facts), cal.search_slowly(&facts), "{facts:?}");
        assert_eq!(cal.any_agrees(&facts), cal.any_agrees_slowly(&facts), "{facts:?}");
    }
}

/// The facts of some kinds alone.
fn only(facts: &Facts, kinds: &[usize]) -> Facts {
    std::array::from_fn(|kind| if kinds.contains(&kind) { facts[kind] } else { None })
}

/// The first of all sets of these kinds with whose facts no day agrees, in the order of numbers that have a binary digit for each kind, the
/// first kind's the highest. To leave kinds out in order comes to this set: a kind stays only where every set that is left has it.
fn first_set(cal: &Calendar, facts: &Facts, kinds: &[usize]) -> Vec<usize> {
    let set = |number: usize| -> Vec<usize> {
        let has = |place: usize| number >> (kinds.len() - 1 - place) & 1 == 1;
        (0..kinds.len()).filter(|place| has(*place)).map(|place| kinds[place]).collect()
    };
    (0..1 << kinds.len()).map(set).find(|kinds| !cal.any_agrees(&only(facts, kinds))).unwrap()
}

/// What RULES 8.5 says of the kinds that quarrel, whatever way they are found: none agrees with them together, some does without any one
/// of them, and each was said.
fn assert_quarrel(facts: &Facts, named: &[usize], any_agrees: impl Fn(&Facts) -> bool) {
    assert!(named.iter().all(|kind| facts[*kind].is_some()), "{facts:?}");
    assert!(!any_agrees(&only(facts, named)), "{facts:?}");
    for kind in named {
        let others: Vec<usize> = named.iter().copied().filter(|other| other != kind).collect();
        assert!(any_agrees(&only(facts, &others)), "{facts:?} without {kind}");
    }
}

/// Such are the kinds that are named for the day, and they are the first such set; by asking every day for some of each size.
#[test]
fn quarrels_on_the_day() {
    let cal = Calendar::new();
    let mut random = Random(305);
    let mut met = [0; 6];
    for _ in 0..4000 {
        let facts = facts_of_two(&mut random, &cal, 9);
        if cal.any_agrees(&facts) {
            continue;
        }
        let said: Vec<usize> = (1..=12).filter(|kind| facts[*kind].is_some()).collect();
        let named = named(&mut random, &cal, &facts, b"YCymdjuUWGgV", 1);
        assert_eq!(named, first_set(&cal, &facts, &said), "{facts:?}");
        assert_quarrel(&facts, &named, |facts| cal.any_agrees(facts));
        met[named.len()] += 1;
        if met[named.len()] <= 3 {
            assert_quarrel(&facts, &named, |facts| cal.any_agrees_slowly(facts));
        }
    }
    assert!(met[2..].iter().all(|n| *n >= 3), "{met:?}");
}

/// The same for the hour, with everything that can be said of it.
#[test]
fn quarrels_on_the_hour() {
    let cal = Calendar::new();
    let mut random = Random(7);
    let shows = |hour: u32| [hour, [12, 1, 2, 3, 4, 5, 6, 7, 8, 9, 10, 11][hour as usize % 12], (hour > 11) as u32];
    let agrees = |facts: &Facts, hour: u32| (0..3).all(|i| facts[13 + i].is_none() || facts[13 + i] == Some(shows(hour)[i]));
    let any_agrees = |facts: &Facts| (0..24).any(|hour| agrees(facts, hour));
    let mut count = 0;
    for hour in (0..24).map(Some).chain([None]) {
        for twelve in (1..=12).map(Some).chain([None]) {
            for half in [Some(0), Some(1), None] {
                let mut facts: Facts = [None; 18];
                facts[13..=15].copy_from_slice(&[hour, twelve, half]);
                if any_agrees(&facts) {
                    continue;
                }
                assert_quarrel(&facts, &named(&mut random, &cal, &facts, b"HIp", 13), any_agrees);
                count += 1;
            }
        }
    }
    // an hour fits one number of twelve and one half: so by %H and %I, by %H and %p, and by all three
    assert_eq!(count, (24 * 12 - 24) + (24 * 2 - 24) + (24 * 12 * 2 - 24));
}

/// The kinds that the reader names for facts that no day, or no hour, agrees with, said in any order by the letters, the first of which
/// says kind `first`. Their words are what says the facts.
fn named(random: &mut Random, cal: &Calendar, facts: &Facts, letters: &[u8], first: usize) -> Vec<usize> {
    let word = |kind: usize| match (kind, facts[kind]) {
        (15, Some(half)) => ["AM", "PM"][half as usize].to_string(),
        (_, number) => number.unwrap().to_string(),
    };
    let said: Vec<usize> = (first..first + letters.len()).filter(|kind| facts[*kind].is_some()).collect();
    let (mut format, mut text) = (String::new(), String::new());
    for kind in random.sample(&said, said.len()) {
        format += &format!("%{} ", letters[kind - first] as char);
        text += &format!("{} ", word(kind));
    }
    match explain(cal, Engine::Skipping, format.as_bytes(), text.as_bytes()).1 {
        Some(Reason::Quarrel(named)) => {
            assert!(named.iter().all(|(kind, words)| text[words.from..words.next] == word(*kind)), "{text} by {format}");
            named.iter().map(|(kind, _)| *kind).collect()
        }
        reason => panic!("{reason:?} for {text} by {format}"),
    }
}

#[test]
fn white_space() {
    let all: Vec<u8> = (0..=255).filter(|b| white(*b)).collect();
    assert_eq!(all, [9, 10, 11, 12, 13, 32]);
    assert_eq!(all, (0..=255).filter(|b| isspace(*b)).collect::<Vec<u8>>());
}
