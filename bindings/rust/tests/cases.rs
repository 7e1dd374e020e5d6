//! Worked cases through the Rust types, by a format that is opened once and by one that is not; readings by every engine.
use larusqem::{strftime, strptime, strptime_with, Date, Engine, Field, Format, FormatError, Kind, Moment, NameForm, Offset, ParseError};
use larusqem::{Part, ReadError, Reading, StringError, Weekday, WriteError, WriteFormat, LONGEST_WRITING};

fn date(year: u32, month: u32, day: u32) -> Date {
    Date::new(year, month, day).unwrap()
}

fn moment(text: &str) -> Moment {
    text.parse().unwrap()
}

fn midnight(year: u32, month: u32, day: u32) -> Moment {
    Moment::midnight(date(year, month, day))
}

fn minutes(minutes: i32) -> Offset {
    Offset::from_minutes(minutes).unwrap()
}

fn write(format: &str, m: Moment) -> String {
    let opened = Format::new(format).unwrap();
    let text = write_styled(format, m);
    assert_eq!(opened.write(m), text.as_bytes());
    assert_eq!(opened.write_string(m).unwrap(), text);
    assert_eq!(WriteFormat::from(opened), WriteFormat::new(format).unwrap());
    text
}

/// By a format that may have flags, widths and `%s`.
fn write_styled(format: &str, m: Moment) -> String {
    let mut out = [0; 128];
    let n = strftime(format, m, &mut out).unwrap();
    let opened: WriteFormat = format.parse().unwrap();
    assert_eq!(opened.write(m).unwrap(), &out[..n]);
    assert_eq!(opened.write_to(m, &mut [0; 128]), Ok(n));
    let text = opened.write_string(m).unwrap();
    assert_eq!(text.as_bytes(), &out[..n]);
    text
}

/// By the engine that skips; the plain one answers the same but for its count, and with a budget that is enough what it answers without.
fn read(format: &str, text: &str) -> Result<Reading, ReadError> {
    let answer = read_by(Engine::Skipping, format, text);
    assert_eq!(strptime(format, text), answer);
    assert_eq!(Format::new(format).unwrap().read(text), answer);
    let plain = read_by(Engine::Plain, format, text);
    assert_eq!(uncounted(plain), uncounted(answer));
    let count = examined(plain);
    for budget in [count, count + 1, u32::MAX] {
        assert_eq!(read_by(Engine::Within(budget), format, text), plain);
    }
    for budget in [0, 1, count / 2, count.saturating_sub(1)] {
        let refused = if budget < count { Err(ReadError::OverBudget { budget }) } else { plain };
        assert_eq!(read_by(Engine::Within(budget), format, text), refused);
    }
    answer
}

fn read_by(engine: Engine, format: &str, text: &str) -> Result<Reading, ReadError> {
    let answer = strptime_with(format, text, engine);
    assert_eq!(Format::new(format).unwrap().read_with(text, engine), answer);
    answer
}

fn examined(answer: Result<Reading, ReadError>) -> u32 {
    answer.map_or_else(|refused| refused.examined(), |reading| reading.examined)
}

/// An answer without the count of days.
fn uncounted(answer: Result<Reading, ReadError>) -> Result<Reading, ReadError> {
    let examined = 0;
    match answer {
        Ok(mut reading) => {
            reading.examined = examined;
            Ok(reading)
        }
        Err(ReadError::NoDay { quarrel, .. }) => Err(ReadError::NoDay { examined, quarrel }),
        Err(ReadError::NoHour { quarrel, .. }) => Err(ReadError::NoHour { examined, quarrel }),
        Err(ReadError::TwoDays { first, second, part, .. }) => Err(ReadError::TwoDays { first, second, part, examined }),
        Err(ReadError::TwoHours { first, second, .. }) => Err(ReadError::TwoHours { first, second, examined }),
        other => other,
    }
}

#[test]
fn writing() {
    assert_eq!(write("%c", moment("1934-03-05 07:08:09")), "Mon Mar  5 07:08:09 1934");
    assert_eq!(write("%j %U %W %G-%V", midnight(1934, 3, 5)), "064 09 10 1934-10");
    assert_eq!(write("%G %V", midnight(2010, 1, 1)), "2009 53");
    assert_eq!(write("%G %V", midnight(2010, 1, 4)), "2010 01");
    assert_eq!(write("%G %V", midnight(2011, 1, 2)), "2010 52");
    assert_eq!(write("%G %V", midnight(2017, 1, 1)), "2016 52");
    assert_eq!(write("%A", midnight(2000, 2, 29)), "Tuesday");
    assert_eq!(write("", midnight(1, 1, 1)), "");
    assert_eq!(write("%d\x0b%b\x0c%Y\r%n", midnight(1934, 3, 5)), "05\x0bMar\x0c1934\r\n");
}

#[test]
fn flags_and_widths() {
    let spring = moment("1934-03-05 07:08:09");
    for (format, text) in [
        ("%5m %_5m %-5m %05m", "00003     3 3 00003"),
        ("%-d|%-5d|%_d|%3e|%03e|%1d", "5|5| 5|  5|005|05"),
        ("%010Y|%_6Y|%2Y|%_5Ey", "0000001934|  1934|1934|   34"),
        ("%^a|%12B|%^12B|%2B", "MON|       March|       MARCH|March"),
        ("%^P|%P|%4P|%^p", "AM|am|  am|AM"),
        ("%3u %_3w %-w %-j %_4H", "001   1 1 64    7"),
        ("%_3d%^11B%_6Y", "  5      MARCH  1934"),
    ] {
        assert_eq!(write_styled(format, spring), text);
        assert_eq!(Format::new(format), Err(FormatError::BadConversion { offset: 0 }));
    }
    assert_eq!(write_styled("%5m|%_5m", midnight(1934, 11, 5)), "00011|   11");
}

#[test]
fn refused_flags_and_widths() {
    let spring = moment("1934-03-05 07:08:09");
    let bad = FormatError::BadConversion { offset: 3 };
    let not_written = ["%00d", "%100d", "%5^a", "%_-d", "%E5y", "%E_y", "%5", "%_", "%5E", "%^d", "%_a", "%-p", "%0P"];
    for conversion in not_written.into_iter().chain(["%5c", "%^x", "%-n", "%0t", "%5%"]) {
        let format = format!("%d {conversion}");
        assert_eq!(WriteFormat::new(&format), Err(bad), "{format}");
        assert_eq!(format.parse::<WriteFormat>(), Err(bad), "{format}");
        assert_eq!(strftime(&format, spring, &mut [0; 64]), Err(WriteError::Format(bad)), "{format}");
    }
    for conversion in not_written.into_iter().chain(["%5d", "%_d", "%-d", "%0d", "%^a", "%^P", "%_5Ey"]) {
        let format = format!("%d {conversion}");
        assert_eq!(Format::new(&format), Err(bad), "{format}");
        assert_eq!(strptime(&format, "5 5"), Err(ReadError::Format(bad)), "{format}");
    }
}

#[test]
fn refused_moments() {
    for (field, fields) in [
        (Field::Year, (0, 1, 1, 0, 0, 0)),
        (Field::Year, (10000, 13, 1, 0, 0, 0)),
        (Field::Month, (1934, 0, 1, 0, 0, 0)),
        (Field::Month, (1934, 13, 32, 0, 0, 0)),
        (Field::Day, (1934, 3, 0, 0, 0, 0)),
        (Field::Day, (1900, 2, 29, 0, 0, 0)),
        (Field::Hour, (1934, 3, 5, 24, 60, 61)),
        (Field::Minute, (1934, 3, 5, 23, 60, 61)),
        (Field::Second, (1934, 3, 5, 23, 59, 61)),
        (Field::Year, (65536 + 1934, 3, 5, 0, 0, 0)),
        (Field::Month, (1934, 256 + 3, 5, 0, 0, 0)),
        (Field::Day, (1934, 3, 256 + 5, 0, 0, 0)),
        (Field::Hour, (1934, 3, 5, 256, 0, 0)),
        (Field::Minute, (1934, 3, 5, 0, 256, 0)),
        (Field::Second, (1934, 3, 5, 0, 0, u32::MAX)),
    ] {
        let refusal = Moment::try_from(fields).unwrap_err();
        assert_eq!(refusal.field(), field);
        let places = [Field::Year, Field::Month, Field::Day, Field::Hour, Field::Minute, Field::Second];
        assert_eq!((refusal.number(), places[refusal.place() - 1]), (2, field));
        if fields.3 == 0 && fields.4 == 0 && fields.5 == 0 {
            assert_eq!(Date::try_from((fields.0, fields.1, fields.2)), Err(refusal));
        }
    }
    assert_eq!(moment("9999-12-31 23:59:60").second(), 60);
    assert_eq!(<(u32, u32, u32)>::from(Date::from(moment("2000-02-29 00:00:00"))), (2000, 2, 29));
}

#[test]
fn refused_writing() {
    let format = Format::new("%c").unwrap();
    let morning = moment("1934-03-05 07:08:09");
    let mut out = [7; 24];
    for refused in [format.write_to(morning, &mut out[..23]), strftime("%c", morning, &mut out[..23])] {
        assert_eq!(refused, Err(WriteError::BufferTooSmall { needed: 24 }));
        assert_eq!((refused.unwrap_err().number(), refused.unwrap_err().place()), (4, 24));
    }
    assert_eq!(out, [7; 24]);
    assert_eq!(Format::new(vec![b'x'; 1025]), Err(FormatError::TooLong));
    assert_eq!(Format::new("%c%c%Q"), Err(FormatError::BadConversion { offset: 4 }));
    assert_eq!("%".parse::<Format>(), Err(FormatError::BadConversion { offset: 0 }));
    assert_eq!(strftime("%E", morning, &mut out), Err(WriteError::Format(FormatError::BadConversion { offset: 0 })));
    assert_eq!(strftime(vec![b'x'; 1025], morning, &mut out), Err(WriteError::Format(FormatError::TooLong)));
    assert_eq!(out, [7; 24]);
}

#[test]
fn longest() {
    let spring = midnight(1934, 3, 5);
    let format = Format::new("%c".repeat(512)).unwrap();
    assert_eq!(format.write(spring).len(), 24 * 512);
    let widest = "%99d".repeat(256);
    let mut out = [b'.'; LONGEST_WRITING];
    let refused = Err(WriteError::BufferTooSmall { needed: LONGEST_WRITING });
    assert_eq!(strftime(&widest, spring, &mut out[1..]), refused);
    assert_eq!(out, [b'.'; LONGEST_WRITING]);
    assert_eq!(strftime(&widest, spring, &mut out), Ok(LONGEST_WRITING));
    assert_eq!(WriteFormat::new(&widest).unwrap().write(spring).unwrap(), out);
    assert_eq!(WriteFormat::new(widest + "%"), Err(FormatError::TooLong));
    let format = Format::new(vec![b' '; 1024]).unwrap();
    assert_eq!(format.read(vec![b' '; 1024]).unwrap().unread, 1024);
    assert_eq!(format.read(vec![b' '; 1025]), Err(ReadError::TextTooLong));
}

#[test]
fn reading() {
    let read_day = |format, text| read(format, text).unwrap().date;
    assert_eq!(read_day("%G %V %u", "2009 53 5"), Some(date(2010, 1, 1)));
    assert_eq!(read_day("%d %b %Y", "29 Feb 2000"), Some(date(2000, 2, 29)));
    assert_eq!(read_day("%c", "MON mar 5 7:8:9 1934"), Some(date(1934, 3, 5)));
    let all = |r: Reading| (r.unread, r.date, r.hour, r.minute, r.second, r.offset);
    assert_eq!(all(read("", "x").unwrap()), (0, None, None, None, None, None));
    assert_eq!(all(read("%M", "0").unwrap()), (1, None, None, Some(0), None, None));
    assert_eq!(all(read("%c", "Mon Mar  5 07:08:09 1934").unwrap()), (24, Some(date(1934, 3, 5)), Some(7), Some(8), Some(9), None));
    assert_eq!(all(read("%T %z", "7:8:9 -0030").unwrap()), (11, None, Some(7), Some(8), Some(9), Some(minutes(-30))));
}

/// Each offset is written, shown and read back as a sign, two digits of hours and two of minutes.
#[test]
fn every_offset() {
    let spring = moment("1934-03-05 07:08:09");
    let format = Format::new("%z").unwrap();
    assert_eq!(write("<%z>", spring), "<>");
    for (sign, hours, rest) in [1, -1].into_iter().flat_map(|sign| (0..24).flat_map(move |h| (0..60).map(move |m| (sign, h, m)))) {
        let offset = minutes(sign * (60 * hours + rest));
        let text = format!("{}{hours:02}{rest:02}", if sign < 0 { '-' } else { '+' });
        let written = if text == "-0000" { "+0000" } else { &text };
        let there = spring.with_offset(offset);
        assert_eq!(format.write(there), written.as_bytes());
        assert_eq!((offset.to_string(), text.parse()), (written.to_string(), Ok(offset)));
        assert_eq!(there.to_string().parse(), Ok(there));
        let reading = format.read(&text).unwrap();
        assert_eq!((reading.unread, reading.offset, reading.date), (5, Some(offset), None));
    }
    assert_eq!(read("%z", "-0000"), read("%z", "+0000"));
}

#[test]
fn offsets_that_are_read() {
    for (format, text, unread, offset) in
        [("%z", "+00000", 5, 0), ("%z%M", "+013005", 7, 90), ("at %z", "at \t-1200", 9, -720), ("%z %z", "+0000 -0000", 11, 0)]
    {
        let reading = read(format, text).unwrap();
        assert_eq!((reading.unread, reading.offset), (unread, Some(minutes(offset))), "{format} {text}");
    }
    // the day is that of the text, not of UTC
    for text in ["Mon 5 Mar 1934 00:30 +0130", "Mon 5 Mar 1934 23:30 -2359"] {
        let reading = read("%a %d %b %Y %R %z", text).unwrap();
        assert_eq!((reading.date, reading.moment()), (Some(date(1934, 3, 5)), None));
    }
    let no_match = |offset| Err(ReadError::NoMatch { offset });
    for (format, text, refused) in [
        ("%z", "", no_match(0)),
        ("%z", "0130", no_match(0)),
        ("%z", " +0130", no_match(0)),
        ("%z", "+ 130", no_match(0)),
        ("%z", "+013", no_match(0)),
        ("%z", "+01:30", no_match(0)),
        ("%z", "Z", no_match(0)),
        ("%d %z", "5 \u{2212}0130", no_match(2)),
        ("%d %z", "5 +2400", Err(ReadError::OutOfRange { offset: 2 })),
        ("%d %z", "5 -0060", Err(ReadError::OutOfRange { offset: 2 })),
        ("%z %z", "+0130 +0131", Err(ReadError::Contradiction { offset: 6 })),
        ("%z %z", "+0130 -0130", Err(ReadError::Contradiction { offset: 6 })),
        ("%z %z", "+0130 +9999", Err(ReadError::OutOfRange { offset: 6 })),
        ("%z %z", "+0130 130", no_match(6)),
    ] {
        assert_eq!(read(format, text), refused, "{format} {text}");
    }
}

#[test]
fn seconds_from_1970() {
    for (text, seconds) in [
        ("1970-01-01 00:00:00 +0000", "0"),
        ("1970-01-01 00:00:00 +0001", "-60"),
        ("1970-01-01 01:30:00 +0130", "0"),
        ("1969-12-31 23:59:59 +0000", "-1"),
        ("1969-12-31 23:59:60 +0000", "0"),
        ("1969-12-31 23:00:00 -0100", "0"),
        ("1934-03-05 07:08:09 +0130", "-1130610111"),
        ("1934-03-05 07:08:09 -0030", "-1130602911"),
        ("2000-02-29 12:00:00 -2359", "951911940"),
        ("2016-12-31 23:59:60 +0000", "1483228800"),
        ("2017-01-01 00:00:00 +0000", "1483228800"),
        ("0001-01-01 00:00:00 +2359", "-62135683140"),
        ("9999-12-31 23:59:60 -2359", "253402387140"),
    ] {
        let there = moment(text);
        assert_eq!(write_styled("%s", there), seconds);
        assert_eq!(write_styled("(%s|%-d)", there), format!("({seconds}|{})", there.date().day()));
        let nowhere = there.with_offset(None);
        assert_eq!(WriteFormat::new("%d %s%s").unwrap().write(nowhere), Err(WriteError::NoZoneOffset { offset: 3 }));
    }
    let spring = moment("1934-03-05 07:08:09");
    let mut out = [7; 16];
    let format = WriteFormat::new("%z%s").unwrap();
    let refused = WriteError::NoZoneOffset { offset: 2 };
    assert_eq!((refused.number(), refused.place()), (12, 2));
    assert_eq!(strftime("%z%s", spring, &mut out), Err(refused));
    assert_eq!(format.write_to(spring, &mut out), Err(refused));
    assert_eq!(format.write_to(spring, &mut []), Err(refused));
    assert_eq!(format.write_string(spring), Err(StringError::Write(refused)));
    assert_eq!(strftime("%s%Q", spring, &mut out), Err(WriteError::Format(FormatError::BadConversion { offset: 2 })));
    assert_eq!(format.write_to(spring.with_offset(Offset::UTC), &mut out[..15]), Err(WriteError::BufferTooSmall { needed: 16 }));
    assert_eq!(out, [7; 16]);
    assert_eq!(format.write_to(spring.with_offset(Offset::UTC), &mut out), Ok(16));
    assert_eq!(&out, b"+0000-1130604711");
    assert!(matches!(WriteFormat::new(b"\xb0%s").unwrap().write_string(spring.with_offset(Offset::UTC)), Err(StringError::Utf8(_))));
}

#[test]
fn refused_offsets() {
    let bad = FormatError::BadConversion { offset: 3 };
    for conversion in ["%5z", "%_z", "%-z", "%0z", "%^z", "%Ez", "%Oz", "%5s", "%_s", "%-s", "%0s", "%^s", "%Es", "%Os"] {
        let format = format!("%d {conversion}");
        assert_eq!(WriteFormat::new(&format), Err(bad), "{format}");
        assert_eq!(Format::new(&format), Err(bad), "{format}");
    }
    assert_eq!(Format::new("%d %s"), Err(bad));
    assert_eq!(strptime("%d %s", "5 0"), Err(ReadError::Format(bad)));
    for wrong in [1440, -1440, 65536, i32::MIN, i32::MAX] {
        assert_eq!(Offset::from_minutes(wrong), None);
        let refusal = Offset::try_from(wrong).unwrap_err();
        assert_eq!((refusal.field(), refusal.number(), refusal.place()), (Field::Offset, 2, 7));
        assert_eq!(refusal.to_string(), "the zone offset is not -1439 to 1439 minutes");
    }
    assert_eq!((i32::from(minutes(-1439)), Offset::try_from(1439)), (-1439, Ok(minutes(1439))));
    assert!(minutes(-1439) < minutes(-30) && minutes(-30) < Offset::UTC && Offset::UTC < minutes(1));
    let spring = moment("1934-03-05 07:08:09");
    assert!(spring < spring.with_offset(minutes(-30)) && spring.with_offset(minutes(-30)) < spring.with_offset(Offset::UTC));
    assert!(spring.with_offset(Offset::UTC) < moment("1934-03-05 07:08:10"));
}

#[test]
fn forms_of_names() {
    use NameForm::{Full, Middle, Short};
    for (format, text, unread, weekday, month) in [
        ("%a %d %b %Y", "Tues 4 Sept 1934", 16, Some(Middle), Some(Middle)),
        ("%A %d %h %Y", "tHUR 6 SEP 1934", 15, Some(Middle), Some(Short)),
        ("%a %d %B %Y", "Thurs 10 May 1934", 17, Some(Middle), Some(Full)),
        ("%A %d %b %Y", "thursday 6 september 1934", 25, Some(Full), Some(Full)),
        ("%d %B %Y %A", "6 march 1934 Tuesd", 17, Some(Middle), Some(Full)),
        ("%d %b %Y %a", "8 Mar 1934 Thursda", 16, Some(Middle), Some(Short)),
        ("%d %b %Y", "5 Mar 1934", 10, None, Some(Short)),
        ("%d %m %Y %u", "8 3 1934 4", 10, None, None),
        ("%a %A %w %d %b %m %Y", "Thurs Thu 4 8 March 3 1934", 26, Some(Short), Some(Full)),
        ("%b %B %d %Y", "March Mar 5 1934", 16, None, Some(Short)),
        ("%I %p", "7 PM", 4, None, None),
    ] {
        let reading = read(format, text).unwrap();
        assert_eq!((reading.unread, reading.weekday_form, reading.month_form), (unread, weekday, month), "{format} {text}");
    }
    assert_eq!(read("%d %b %Y", "5 Septem 1934"), Err(ReadError::NoMatch { offset: 6 }));
    assert_eq!(read("%a %a", "Tues Wed"), Err(ReadError::Contradiction { offset: 5 }));
    assert!(matches!(read("%a %d %b %Y", "Tues 5 Sept 1934"), Err(ReadError::NoDay { examined: 30, .. })));
}

#[test]
fn whole_readings() {
    let whole = |format, text| read(format, text).unwrap().is_whole(text);
    assert!(whole("%d %b %Y", "5 Mar 1934"));
    assert!(whole("%d %b %Y", "5 Mar 193"));
    assert!(!whole("%d %b %Y", "5 Mar 19345"));
    assert!(!whole("%d %b %Y", "5 Mar 1934 "));
    assert!(whole("%d %b %Y%n", "5 Mar 1934 "));
    assert!(whole("%d %b %Y%n", "5 Mar 1934\r\n"));
    assert!(whole("%d %b %Y\r", "5 Mar 1934"));
    assert!(whole("%d\x0b%b\x0c%Y", "\t5\r\nMar 1934"));
    assert!(whole("", ""));
}

#[test]
fn refused_reading() {
    assert!(matches!(read("%G %V %u", "2016 53 7"), Err(ReadError::NoDay { examined: Date::DAYS, .. })));
    assert!(matches!(read("%a %d %b %Y", "Tue 5 Mar 1934"), Err(ReadError::NoDay { examined: 31, .. })));
    assert!(matches!(read("%C %y", "00 00"), Err(ReadError::NoDay { examined: 0, .. })));
    assert_eq!(read("%d %b %Y %I", "5 Mar 1934 07"), Err(ReadError::TwoHours { first: 7, second: 19, examined: 31 }));
    let (first, second) = (date(1, 3, 5), date(2, 3, 5));
    assert_eq!(read("%d %b", "5 mar"), Err(ReadError::TwoDays { first, second, part: Part::Year, examined: 36 }));
    assert_eq!(read("%H%M", "930"), Err(ReadError::OutOfRange { offset: 0 }));
    assert_eq!(read("%d %e", "5 6"), Err(ReadError::Contradiction { offset: 2 }));
    assert!(matches!(read("%H %p", "7 PM"), Err(ReadError::NoHour { examined: 0, .. })));
    assert_eq!(strptime("%5Y", "x"), Err(ReadError::Format(FormatError::BadConversion { offset: 0 })));
    assert_eq!(strptime("%5Y", vec![b'x'; 1025]), Err(ReadError::TextTooLong));
    assert_eq!(strptime(vec![b'x'; 1025], "x"), Err(ReadError::Format(FormatError::TooLong)));
}

#[test]
fn quarrels() {
    use Kind::{Century, Day, DayOfYear, HalfOfDay, Hour, HourOfTwelve, IsoWeek, IsoYear, IsoYearInCentury};
    use Kind::{MondayWeek, Month, SundayWeek, Weekday, Year, YearInCentury};
    for (format, text, said, expected) in [
        ("%a %d %b %Y", "Tue 5 Mar 1934", "Tue, 5, Mar and 1934", vec![(Weekday, 0..3), (Day, 4..5), (Month, 6..9), (Year, 10..14)]),
        (" %a %d %b %Y", "  Tue 5 Mar 1934", "Tue, 5, Mar and 1934", vec![(Weekday, 2..5), (Day, 6..7), (Month, 8..11), (Year, 12..16)]),
        ("%d %b %Y %H:%M", "29 Feb 1900 07:08", "29, Feb and 1900", vec![(Day, 0..2), (Month, 3..6), (Year, 7..11)]),
        ("%d %b %Y", "30 Feb 1900", "30 and Feb", vec![(Day, 0..2), (Month, 3..6)]),
        ("%C %y %d %b %Y", "19 33 5 Mar 1934", "year in century 33 and 1934", vec![(YearInCentury, 3..5), (Year, 12..16)]),
        ("%G %V %u", "2016 53 7", "ISO year 2016 and ISO week 53", vec![(IsoYear, 0..4), (IsoWeek, 5..7)]),
        ("%C %y", "00 00", "century 00 and year in century 00", vec![(Century, 0..2), (YearInCentury, 3..5)]),
        ("%a %u %d %b %Y", "Tue 2 5 Mar 1934", "Tue, 5, Mar and 1934", vec![(Weekday, 0..3), (Day, 6..7), (Month, 8..11), (Year, 12..16)]),
        (
            "%u %e %m %Y",
            "2  5 03 1934",
            "weekday 2, 5, month 03 and 1934",
            vec![(Weekday, 0..1), (Day, 3..4), (Month, 5..7), (Year, 8..12)],
        ),
        ("%j %B", "64 may", "day of year 64 and may", vec![(DayOfYear, 0..2), (Month, 3..6)]),
        ("%U%t%W", "10 12", "Sunday week 10 and Monday week 12", vec![(SundayWeek, 0..2), (MondayWeek, 3..5)]),
        ("%V %g", "53 0", "ISO week 53 and ISO year in century 0", vec![(IsoWeek, 0..2), (IsoYearInCentury, 3..4)]),
        ("%H %p", "7 PM", "hour 7 and PM", vec![(Hour, 0..1), (HalfOfDay, 2..4)]),
        ("%H %I %p", "07 8 AM", "hour 07 and hour of twelve 8", vec![(Hour, 0..2), (HourOfTwelve, 3..4)]),
        ("%d %b %Y %H %p", "5 Mar 1934 7 PM", "hour 7 and PM", vec![(Hour, 11..12), (HalfOfDay, 13..15)]),
    ] {
        let refused = read(format, text).unwrap_err();
        let quarrel = refused.quarrel().unwrap();
        let words: Vec<_> = quarrel.words().map(|words| (words.kind, words.range)).collect();
        assert_eq!(words, expected, "{format} {text}");
        assert!(quarrel.words().all(|words| words.text == &text[words.range] && quarrel.contains(words.kind)));
        let (what, place) = if quarrel.contains(Hour) { ("hour", 2) } else { ("day", 1) };
        assert_eq!((refused.number(), refused.place()), (9, place));
        assert_eq!(refused.to_string(), format!("no {what} is {said} together"));
    }
}

/// The longest words, at the end of the longest text.
#[test]
fn far_quarrels() {
    let date = "Wednesday, 6 September 1934";
    let text = " ".repeat(1024 - date.len()) + date;
    let refused = read(" %A, %d %B %Y", &text).unwrap_err();
    assert_eq!(refused.to_string(), "no day is Wednesday, 6, September and 1934 together");
    let last = refused.quarrel().unwrap().words().last().unwrap();
    assert_eq!((last.kind, last.range, last.text), (Kind::Year, 1020..1024, "1934"));
}

#[test]
fn missing() {
    let refused = |format, text| read(format, text).unwrap_err();
    for (format, text, first, second, part) in [
        ("%d %b", "5 mar", date(1, 3, 5), date(2, 3, 5), Part::Year),
        ("%d %Y", "5 1934", date(1934, 1, 5), date(1934, 2, 5), Part::Month),
        ("%b %Y", "Mar 1934", date(1934, 3, 1), date(1934, 3, 2), Part::Day),
        ("%a", "Mon", date(1, 1, 1), date(1, 1, 8), Part::Day),
    ] {
        let error = refused(format, text);
        let examined = error.examined();
        assert_eq!(error, ReadError::TwoDays { first, second, part, examined });
        assert_eq!(error.to_string(), format!("more than one day agrees, the earliest {first} and {second}; the {part} is missing"));
        assert_eq!(error.quarrel(), None);
    }
    for (format, text, first, second, what) in [("%I:%M", "07:08", 7, 19, "AM or PM"), ("%p", "PM", 12, 13, "the hour")] {
        let error = refused(format, text);
        assert_eq!(error, ReadError::TwoHours { first, second, examined: 0 });
        assert_eq!(error.to_string(), format!("more than one hour agrees, the earliest {first} and {second}; {what} is missing"));
        assert_eq!(error.quarrel(), None);
    }
}

/// An error is handed around in every result.
#[test]
fn errors_are_small() {
    fn copied<T: Copy>() -> usize {
        std::mem::size_of::<T>()
    }
    assert!(copied::<ReadError>() < 128);
}

#[test]
fn days_examined() {
    assert_eq!(Engine::default(), Engine::Skipping);
    let years_34 = 100; // 0034 to 9934
    for (format, text, plain, skipping) in [
        ("%d %b %Y", "5 Mar 1934", Date::DAYS, 31),
        ("%Y %j", "1934 64", Date::DAYS, 365),
        ("%Y", "1934", date(1934, 1, 2).day_number(), 2),
        ("%d %b", "5 mar", date(2, 3, 5).day_number(), 31 + 5),
        ("%d %b %y", "5 Mar 34", date(134, 3, 5).day_number(), 31 + 5),
        ("%d %b %y", "30 Feb 34", Date::DAYS, 28 * years_34),
        ("%d %b", "30 Feb", Date::DAYS, 28 * 9999 + 2424),
        ("%C %m", "99 12", date(9900, 12, 2).day_number(), 2),
        ("%G %V %u", "2009 53 5", Date::DAYS, Date::DAYS),
        ("%a", "Mon", 8, 8),
        ("%C %y", "00 00", Date::DAYS, 0),
        ("%C %Y", "18 1934", Date::DAYS, 0),
        ("%H:%M", "7:08", 0, 0),
        ("%H%M", "930", 0, 0),
        ("", "", 0, 0),
    ] {
        assert_eq!(examined(read(format, text)), skipping, "{format} {text}");
        assert_eq!(examined(read_by(Engine::Plain, format, text)), plain, "{format} {text}");
    }
}

#[test]
fn over_budget() {
    let refused = read_by(Engine::Within(1000), "%d %b %Y %I", "5 Mar 1934 07").unwrap_err();
    assert_eq!((refused.number(), refused.place(), refused.examined()), (11, 1000, 1000));
    assert_eq!(refused.to_string(), "more days would have to be examined than the budget of 1000");
    let early = |format: &str, text: &str| read_by(Engine::Within(0), format, text);
    assert_eq!(early("%d %b %Y", "5 Mai 1934"), Err(ReadError::NoMatch { offset: 2 }));
    assert_eq!(early("%d %e", "5 6"), Err(ReadError::Contradiction { offset: 2 }));
    assert_eq!(early("%H", "7").unwrap().hour, Some(7));
    assert_eq!(early("%I", "7"), Err(ReadError::TwoHours { first: 7, second: 19, examined: 0 }));
}

#[test]
fn calendar_ends() {
    assert_eq!((Date::FIRST.day_number(), Date::FIRST.weekday(), Date::FIRST.previous_day()), (1, Weekday::Monday, None));
    assert_eq!((Date::LAST.day_number(), Date::LAST.weekday(), Date::LAST.next_day()), (Date::DAYS, Weekday::Friday, None));
    assert_eq!(Date::from_day_number(0), None);
    assert_eq!(Date::from_day_number(Date::DAYS + 1), None);
    assert_eq!(Date::from_day_number(u32::MAX), None);
}

/// What the types say of a day is what the writer writes for it.
#[test]
fn every_thousandth_day() {
    let format = Format::new("%F %A %u %j %G %V").unwrap();
    for number in (1..=Date::DAYS).step_by(1000) {
        let date = Date::from_day_number(number).unwrap();
        assert_eq!(date.day_number(), number);
        assert_eq!(Date::new(date.year(), date.month(), date.day()), Ok(date));
        assert_eq!(date.to_string().parse(), Ok(date));
        let (weekday, j, g, v) = (date.weekday(), date.day_of_year(), date.iso_year(), date.iso_week());
        let shown = format!("{date} {weekday} {} {j:03} {g:04} {v:02}", weekday.number());
        assert_eq!(format.write_string(Moment::midnight(date)).unwrap(), shown);
        let next = date.next_day().unwrap();
        assert!(next > date && next.previous_day() == Some(date));
    }
}

#[test]
fn exact_texts() {
    for (text, offset) in [
        ("", 0),
        ("1934", 4),
        ("1934-03-0", 9),
        ("1934-03-055", 10),
        ("1934-03-05\n", 10),
        (" 1934-03-05", 0),
        ("+934-03-05", 0),
        ("1934/03/05", 4),
        ("1934-3-5", 6),
        ("193\u{664}-03-05", 3),
    ] {
        assert_eq!(text.parse::<Date>(), Err(ParseError::Shape { offset }), "{text}");
    }
    for (text, offset) in [("1934-03-05", 10), ("1934-03-05 07:08", 16), ("1934-03-05T07:08:09", 10), ("1934-03-05 07:08:09Z", 19)] {
        assert_eq!(text.parse::<Moment>(), Err(ParseError::Shape { offset }), "{text}");
    }
    for (text, offset) in [("", 0), ("0130", 0), ("+", 1), ("+013", 4), ("+01300", 5), ("+01:30", 3), (" +0130", 0), ("\u{2212}0130", 0)] {
        assert_eq!(text.parse::<Offset>(), Err(ParseError::Shape { offset }), "{text}");
        let behind = format!("1934-03-05 07:08:09 {text}");
        assert_eq!(behind.parse::<Moment>(), Err(ParseError::Shape { offset: 20 + offset }), "{behind}");
    }
    assert_eq!("1934-03-05 07:08:0\u{664} +0130".parse::<Moment>(), Err(ParseError::Shape { offset: 18 }));
    let field = |refused: ParseError| match refused {
        ParseError::Field(error) => error.field(),
        other => panic!("{other}"),
    };
    for (text, bad) in [("0000-01-01", Field::Year), ("1934-00-01", Field::Month), ("1900-02-29", Field::Day)] {
        assert_eq!(field(text.parse::<Date>().unwrap_err()), bad);
        assert_eq!(field(format!("{text} 07:08:09").parse::<Moment>().unwrap_err()), bad);
    }
    assert_eq!(field("1934-03-05 24:00:00".parse::<Moment>().unwrap_err()), Field::Hour);
    assert_eq!(field("1934-03-05 23:59:61".parse::<Moment>().unwrap_err()), Field::Second);
    for text in ["+2400", "-2400", "+0060", "-9999"] {
        assert_eq!(field(text.parse::<Offset>().unwrap_err()), Field::Offset);
        assert_eq!(field(format!("1934-03-05 07:08:09 {text}").parse::<Moment>().unwrap_err()), Field::Offset);
        assert_eq!(field(format!("1934-13-05 07:08:61 {text}").parse::<Moment>().unwrap_err()), Field::Month);
    }
    assert_eq!("1934-13-05 07:08:09 0130".parse::<Moment>(), Err(ParseError::Shape { offset: 20 }));
}

#[test]
fn shown_to_people() {
    assert_eq!(date(34, 3, 5).to_string(), "0034-03-05");
    assert_eq!(moment("0034-03-05 07:08:60").to_string(), "0034-03-05 07:08:60");
    assert_eq!(format!("{:>7}|{:9}|", Field::Day, Weekday::Sunday), "    day|Sunday   |");
    assert_eq!(format!("{:>7}|{:7}|{}", minutes(-30), minutes(1439), Field::Offset), "  -0030|+2359  |zone offset");
    assert_eq!(format!("{:?}", minutes(-30)), "Offset { minutes: -30 }");
    assert_eq!(Date::new(1900, 2, 29).unwrap_err().to_string(), "the day is not 1 to the month's length");
    let shown = |format, text| read(format, text).unwrap().to_string();
    assert_eq!(shown("%d %b %Y %H:%M", "5 Mar 1934 07:08"), "1934-03-05 07:08:--");
    assert_eq!(shown("%S", "9"), "- --:--:09");
    assert_eq!(shown("%F %z", "1934-03-05 +0130"), "1934-03-05 --:--:--");
    let refused = |format, text| read(format, text).unwrap_err().to_string();
    assert_eq!(refused("%H%M", "930"), "the number at byte 0 of the text is outside its range");
    assert_eq!(format!("{:>9}|{:6}|", Kind::Weekday, Part::Year), "  weekday|year  |");
    let debugged = format!("{:?}", read("%d %b", "30 Feb").unwrap_err().quarrel().unwrap());
    assert_eq!(debugged, r#"[Words { kind: Day, range: 0..2, text: "30" }, Words { kind: Month, range: 3..6, text: "Feb" }]"#);
}

#[cfg(feature = "std")]
#[test]
fn errors_have_sources() {
    use std::error::Error;

    let source = |error: &dyn Error| error.source().map(|source| source.to_string());
    let unknown = Some("a conversion, flag or width that is not taken, at byte 0 of the format".to_string());
    assert_eq!(source(&strptime("%Q", "").unwrap_err()), unknown);
    assert_eq!(source(&strftime("%Q", Moment::midnight(Date::FIRST), &mut []).unwrap_err()), unknown);
    assert_eq!(source(&"1934-13-01".parse::<Date>().unwrap_err()), Some("the month is not 1 to 12".to_string()));
    assert_eq!(source(&strptime("%d %b", "30 Feb").unwrap_err()), None);
    let unsaid = WriteFormat::new("%s").unwrap().write_string(Moment::midnight(Date::FIRST)).unwrap_err();
    let why = "the seconds from 1970 are to be written at byte 0 of the format, and the moment has no zone offset";
    assert_eq!((unsaid.to_string(), source(&unsaid)), ("the moment is not written".to_string(), Some(why.to_string())));
    let field: &dyn Error = &Date::new(0, 1, 1).unwrap_err();
    assert!(field.downcast_ref::<larusqem::FieldError>().is_some() && field.source().is_none());
}

#[test]
fn versions_agree() {
    let (major, minor, patch) = larusqem::version();
    assert_eq!(format!("{major}.{minor}.{patch}"), env!("CARGO_PKG_VERSION"));
}

#[test]
fn formats_are_shared_by_threads() {
    fn shared<T: Send + Sync>() {}
    shared::<Format>();
    shared::<WriteFormat>();
}
