//! Sheets, their words and lists of them. Words are typed by hand, field by field from the most significant bit: year 14, month 4, day 5;
//! hour said 1, hour 5; minute said 1, minute 6; second said 1, second 6; offset said 1, offset plus 1439 in 12; 8 zero bits.
#![allow(clippy::unusual_byte_groupings)]
use larusqem::{strptime, AddError, Date, Field, Moment, Offset, Sheet, SheetError, SheetList, Week, MOST_SHEETS, MOST_WEEKS};

fn date(text: &str) -> Date {
    text.parse().unwrap()
}

/// A sheet of a day alone.
fn day(text: &str) -> Sheet {
    Sheet::from(date(text))
}

/// By the numbers of what is said.
fn sheet(text: &str, hour: Option<u32>, minute: Option<u32>, second: Option<u32>, offset: Option<i32>) -> Sheet {
    Sheet::new(date(text), hour, minute, second, offset.map(|minutes| Offset::from_minutes(minutes).unwrap())).unwrap()
}

/// Ascending.
#[rustfmt::skip]
fn packed() -> Vec<(Sheet, u64)> {
    vec![
        (day("0001-01-01"), 0b00000000000001_0001_00001_0_00000_0_000000_0_000000_0_000000000000_00000000),
        // said and 0 is another than unsaid
        (sheet("0001-01-01", Some(0), None, None, None), 0b00000000000001_0001_00001_1_00000_0_000000_0_000000_0_000000000000_00000000),
        // 1934 = 1024 + 512 + 256 + 128 + 8 + 4 + 2
        (day("1934-03-05"), 0b00011110001110_0011_00101_0_00000_0_000000_0_000000_0_000000000000_00000000),
        // -1439 + 1439 = 0
        (sheet("1934-03-05", None, None, None, Some(-1439)), 0b00011110001110_0011_00101_0_00000_0_000000_0_000000_1_000000000000_00000000),
        // 1439 = 1024 + 256 + 128 + 16 + 8 + 4 + 2 + 1
        (sheet("1934-03-05", None, None, None, Some(0)), 0b00011110001110_0011_00101_0_00000_0_000000_0_000000_1_010110011111_00000000),
        (sheet("1934-03-05", None, None, Some(0), None), 0b00011110001110_0011_00101_0_00000_0_000000_1_000000_0_000000000000_00000000),
        // 37 = 32 + 4 + 1
        (sheet("1934-03-05", None, Some(37), None, None), 0b00011110001110_0011_00101_0_00000_1_100101_0_000000_0_000000000000_00000000),
        (sheet("1934-03-05", Some(7), Some(8), None, None), 0b00011110001110_0011_00101_1_00111_1_001000_0_000000_0_000000000000_00000000),
        // -30 + 1439 = 1409 = 1024 + 256 + 128 + 1
        (
            sheet("1934-03-05", Some(7), Some(8), Some(9), Some(-30)),
            0b00011110001110_0011_00101_1_00111_1_001000_1_001001_1_010110000001_00000000,
        ),
        (day("1934-03-06"), 0b00011110001110_0011_00110_0_00000_0_000000_0_000000_0_000000000000_00000000),
        // 2000 = 1024 + 512 + 256 + 128 + 64 + 16
        (day("2000-02-29"), 0b00011111010000_0010_11101_0_00000_0_000000_0_000000_0_000000000000_00000000),
        // 9999 = 8192 + 1024 + 512 + 256 + 8 + 4 + 2 + 1; 1439 + 1439 = 2878 = 2048 + 512 + 256 + 32 + 16 + 8 + 4 + 2
        (
            sheet("9999-12-31", Some(23), Some(59), Some(60), Some(1439)),
            0b10011100001111_1100_11111_1_10111_1_111011_1_111100_1_101100111110_00000000,
        ),
    ]
}

#[test]
fn words_of_sheets() {
    for (sheet, word) in packed() {
        assert_eq!(sheet.word(), word, "{sheet}");
        assert_eq!(Sheet::from_word(word), Some(sheet));
        let (hour, minute, second, offset) = (sheet.hour(), sheet.minute(), sheet.second(), sheet.offset());
        assert_eq!(Sheet::new(sheet.date(), hour, minute, second, offset), Ok(sheet));
    }
    assert!(packed().windows(2).all(|pair| pair[0].0 < pair[1].0 && pair[0].1 < pair[1].1));
    assert!(packed().windows(2).all(|pair| pair[0].0.date() <= pair[1].0.date()));
    let (last, _) = packed()[11];
    assert_eq!((last.hour(), last.minute(), last.second(), last.offset()), (Some(23), Some(59), Some(60), Offset::from_minutes(1439)));
    let (alone, _) = packed()[2];
    assert_eq!((alone.hour(), alone.minute(), alone.second(), alone.offset()), (None, None, None, None));
}

#[test]
fn words_of_no_sheet() {
    for (why, word) in [
        ("no day", 0),
        ("year 0", 0b00000000000000_0011_00101_0_00000_0_000000_0_000000_0_000000000000_00000000),
        ("year 10,000", 0b10011100010000_0011_00101_0_00000_0_000000_0_000000_0_000000000000_00000000),
        ("month 0", 0b00011110001110_0000_00101_0_00000_0_000000_0_000000_0_000000000000_00000000),
        ("month 13", 0b00011110001110_1101_00101_0_00000_0_000000_0_000000_0_000000000000_00000000),
        ("day 0", 0b00011110001110_0011_00000_0_00000_0_000000_0_000000_0_000000000000_00000000),
        ("29 February 1934", 0b00011110001110_0010_11101_0_00000_0_000000_0_000000_0_000000000000_00000000),
        ("hour 24", 0b00011110001110_0011_00101_1_11000_0_000000_0_000000_0_000000000000_00000000),
        ("hour 7, unsaid", 0b00011110001110_0011_00101_0_00111_0_000000_0_000000_0_000000000000_00000000),
        ("minute 60", 0b00011110001110_0011_00101_0_00000_1_111100_0_000000_0_000000000000_00000000),
        ("minute 1, unsaid", 0b00011110001110_0011_00101_0_00000_0_000001_0_000000_0_000000000000_00000000),
        ("second 61", 0b00011110001110_0011_00101_0_00000_0_000000_1_111101_0_000000000000_00000000),
        ("second 1, unsaid", 0b00011110001110_0011_00101_0_00000_0_000000_0_000001_0_000000000000_00000000),
        ("offset 1440", 0b00011110001110_0011_00101_0_00000_0_000000_0_000000_1_101100111111_00000000),
        ("offset 0, unsaid", 0b00011110001110_0011_00101_0_00000_0_000000_0_000000_0_010110011111_00000000),
        ("the last zero bit", 0b00011110001110_0011_00101_0_00000_0_000000_0_000000_0_000000000000_00000001),
        ("the first zero bit", 0b00011110001110_0011_00101_0_00000_0_000000_0_000000_0_000000000000_10000000),
        ("every bit", u64::MAX),
    ] {
        assert_eq!(Sheet::from_word(word), None, "{why}");
    }
}

#[test]
fn refused_sheets() {
    let refused = |hour, minute, second| Sheet::new(date("1934-03-05"), hour, minute, second, None).unwrap_err().field();
    assert_eq!(refused(Some(24), Some(60), Some(61)), Field::Hour);
    assert_eq!(refused(None, Some(60), Some(61)), Field::Minute);
    assert_eq!(refused(Some(23), Some(59), Some(61)), Field::Second);
    // numbers that are valid once their bits are cut to the field's
    assert_eq!(refused(Some(7 + 32), None, None), Field::Hour);
    assert_eq!(refused(None, Some(8 + 64), None), Field::Minute);
    assert_eq!(refused(None, None, Some(u32::MAX)), Field::Second);
}

#[test]
fn sheets_of_readings() {
    let read = |format, text| Sheet::try_from(strptime(format, text).unwrap());
    assert_eq!(read("%F %T %z", "1934-03-05 7:8:9 -0030"), Ok(packed()[8].0));
    assert_eq!(read("%d %b %Y", "5 Mar 1934"), Ok(day("1934-03-05")));
    assert_eq!(read("%F %M", "1934-03-05 37"), Ok(packed()[6].0));
    assert_eq!(read("%T %z", "7:08:09 +0130"), Err(SheetError::NoDay));
    assert_eq!(read("", "5 Mar 1934"), Err(SheetError::NoDay));
    // a reading that was changed
    let mut reading = strptime("%F %T", "1934-03-05 7:08:09").unwrap();
    (reading.minute, reading.second) = (Some(60), Some(61));
    let refused = Sheet::from_reading(&reading).unwrap_err();
    assert!(matches!(refused, SheetError::Field(error) if error.field() == Field::Minute));
    assert_eq!((refused.number(), refused.place()), (2, 5));
    reading.date = None;
    let refused = Sheet::from_reading(&reading).unwrap_err();
    assert_eq!((refused, refused.number(), refused.place()), (SheetError::NoDay, 13, 0));
}

#[test]
fn sheets_of_moments() {
    for text in ["1934-03-05 07:08:09", "1934-03-05 07:08:60 -0030"] {
        let moment: Moment = text.parse().unwrap();
        let sheet = Sheet::from(moment);
        assert_eq!((sheet.moment(), sheet.to_string()), (Some(moment), text.to_string()));
    }
    assert_eq!(packed()[7].0.moment(), None);
    assert_eq!(day("1934-03-05").moment(), None);
}

#[test]
fn weeks_of_words() {
    // ISO year 14, week 6, sheets 44
    let week = Week::from_word(0b00011111011001_110101_00000000000000000000000000000000000000000011);
    assert_eq!((week.year, week.week, week.sheets), (2009, 53, 3));
    let week = Week::from_word(u64::MAX);
    assert_eq!((week.year, week.week, week.sheets), (16383, 63, (1 << 44) - 1));
}

#[test]
fn lists() {
    let mut words: Vec<u64> = (1000..1008).collect();
    let mut table = [77; MOST_WEEKS];
    let mut list = SheetList::lent(&mut words, &mut table).unwrap();
    assert!(list.is_empty() && list.room() == 8 && list.words().is_empty() && list.table().is_empty());
    // weeks 53 of 2009, 1 of 2019, 10 of 1934, 52 of 2016, 10 of 1934 twice, a Sunday, and Monday of the next
    for text in ["2010-01-01", "2018-12-31", "1934-03-05", "2017-01-01", "1934-03-05", "1934-03-11", "1934-03-12"] {
        list.add(day(text)).unwrap();
    }
    let dates: Vec<_> = list.sheets().map(|sheet| sheet.date().to_string()).collect();
    assert_eq!(dates, ["1934-03-05", "1934-03-05", "1934-03-11", "1934-03-12", "2010-01-01", "2017-01-01", "2018-12-31"]);
    let weeks: Vec<_> = list.weeks().map(|week| week.to_string()).collect();
    assert_eq!(weeks, ["1934-W10 3", "1934-W11 1", "2009-W53 1", "2016-W52 1", "2019-W01 1"]);
    assert_eq!((list.len(), list.sheets().len(), list.weeks().len()), (7, 7, 5));
    assert_eq!(list.sheets().next_back(), Some(day("2018-12-31")));
    assert_eq!(list.table()[0], 0b00011110001110_001010_00000000000000000000000000000000000000000011);
    assert_eq!((words[0], words[1], words[7]), (packed()[2].1, packed()[2].1, 1007));
    assert_eq!((table[4], table[5], table[1023]), (2019 << 50 | 1 << 44 | 1, 77, 77));
}

#[test]
fn full_lists() {
    let days = [day("1934-03-07"), day("1934-03-05"), day("1934-03-06"), day("1934-03-04")];
    let (mut words, mut table) = ([77; 3], [77; MOST_WEEKS]);
    let mut list = SheetList::lent(&mut words, &mut table).unwrap();
    list.add_all(&days[..1]).unwrap();
    // those before the refused one are added
    assert_eq!(list.add_all(&days[1..]), Err(AddError::Full { index: 2 }));
    assert_eq!(list.add(days[0]), Err(AddError::Full { index: 0 }));
    assert_eq!(list.add_all(&[]), Ok(()));
    assert!(list.sheets().eq([days[1], days[2], days[0]]));
    assert_eq!((words[2], table[1]), (days[0].word(), 77));

    let mut none = [];
    let mut list = SheetList::lent(&mut none, &mut table).unwrap();
    assert_eq!(list.add(days[0]), Err(AddError::Full { index: 0 }));
    assert_eq!((list.room(), list.len()), (0, 0));
}

#[test]
fn every_week_held() {
    let mut list = SheetList::new();
    let days: Vec<_> = (1..=1025).map(|year| Sheet::from(Date::new(year, 6, 15).unwrap())).collect();
    let refused = list.add_all(&days).unwrap_err();
    assert_eq!((refused, refused.index()), (AddError::NewWeek { index: 1024 }, 1024));
    assert_eq!((refused.number(), refused.place()), (14, 0));
    let before = list.clone();
    assert_eq!(list.add(days[1024]), Err(AddError::NewWeek { index: 0 }));
    assert_eq!(list, before);
    // a week that is among them has room
    list.add_all(&days[..1024]).unwrap();
    assert_eq!((list.len(), list.weeks().len()), (2048, MOST_WEEKS));
    assert!(list.weeks().all(|week| week.sheets == 2));
}

#[test]
fn arrays_from_elsewhere() {
    // 5 March 1934 twice, and 1 January 2010
    let words = [packed()[2].1, packed()[2].1, 0b00011111011010_0001_00001_0_00000_0_000000_0_000000_0_000000000000_00000000, 77];
    let mut table = [77; MOST_WEEKS];
    table[0] = 1934 << 50 | 10 << 44 | 2;
    table[1] = 2009 << 50 | 53 << 44 | 1;
    let open = |words: &[u64], sheets, table: &[u64; MOST_WEEKS], weeks| {
        let (mut words_lent, mut table_lent) = (words.to_vec(), *table);
        let opened = SheetList::open(&mut words_lent, sheets, &mut table_lent, weeks).map(|list| list.len());
        assert_eq!((&words_lent[..], &table_lent), (words, table));
        opened.map_err(|error| (error.number(), error.place()))
    };
    assert_eq!(open(&words, 3, &table, 2), Ok(3));
    assert_eq!(open(&words[..3], 3, &table, 2), Ok(3));
    assert_eq!(open(&words, 0, &table, 0), Ok(0));
    let refused = Err((15, 0));
    for (sheets, weeks) in [(2, 2), (4, 2), (5, 2), (3, 1), (3, 3), (3, 1025), (0, 1), (1 << 32 | 3, 2), (3, 1 << 32 | 2), (usize::MAX, 2)]
    {
        assert_eq!(open(&words, sheets, &table, weeks), refused, "{sheets} {weeks}");
    }
    assert_eq!(open(&[words[2], words[0], words[0]], 3, &table, 2), refused);
    assert_eq!(open(&[words[0], words[0], words[2] + 1], 3, &table, 2), refused);
    for (index, wrong) in [(0, table[0] + 1), (0, table[1]), (1, 2010 << 50 | 1), (1, 2009 << 50 | 52 << 44 | 1), (1, 0)] {
        let mut other = table;
        other[index] = wrong;
        assert_eq!(open(&words, 3, &other, 2), refused);
    }

    let (mut longest, mut longer) = (vec![77; MOST_SHEETS], vec![77; MOST_SHEETS + 1]);
    assert_eq!(SheetList::lent(&mut longest, &mut table).unwrap().room(), MOST_SHEETS);
    assert!(SheetList::lent(&mut longer, &mut table).is_err());

    // what a list leaves in its arrays is taken again
    let mut lent = words;
    table[..2].copy_from_slice(&[1934 << 50 | 10 << 44 | 2, 2009 << 50 | 53 << 44 | 1]);
    let mut list = SheetList::open(&mut lent, 3, &mut table, 2).unwrap();
    list.add(day("2000-02-29")).unwrap();
    let (sheets, weeks) = (list.len(), list.table().len());
    assert_eq!((sheets, weeks), (4, 3));
    assert!(SheetList::open(&mut lent, sheets, &mut table, weeks).is_ok());
}

/// Sheets of random days and times, the same at each run.
fn random_sheets(count: usize, days: u32) -> Vec<Sheet> {
    let mut state: u64 = 1934;
    let mut below = |n: u32| {
        state = state.wrapping_mul(6364136223846793005).wrapping_add(1442695040888963407);
        ((state >> 33) % u64::from(n)) as u32
    };
    (0..count)
        .map(|_| {
            let date = Date::from_day_number(706_000 + below(days)).unwrap();
            let [hour, minute, second] = [24, 60, 61].map(|n| (below(2) == 1).then(|| below(n)));
            let offset = (below(2) == 1).then(|| Offset::from_minutes(below(2879) as i32 - 1439).unwrap());
            Sheet::new(date, hour, minute, second, offset).unwrap()
        })
        .collect()
}

/// Many sheets at once, one by one, and sorted; their weeks counted by the calendar.
#[test]
fn many_sheets() {
    for (count, days) in [(500, 60), (500, 3000)] {
        let sheets = random_sheets(count, days);
        let (mut at_once, mut singly) = (SheetList::new(), SheetList::new());
        at_once.add_all(&sheets).unwrap();
        sheets.iter().for_each(|sheet| singly.add(*sheet).unwrap());
        assert_eq!(at_once, singly);
        assert_eq!(at_once.table(), singly.table());
        let mut sorted = sheets.clone();
        sorted.sort();
        assert!(at_once.sheets().eq(sorted));
        let mut weeks = std::collections::BTreeMap::new();
        for sheet in &sheets {
            *weeks.entry((sheet.date().iso_year(), sheet.date().iso_week())).or_insert(0) += 1;
        }
        assert!(at_once.weeks().map(|week| ((week.year, week.week), week.sheets)).eq(weeks));
    }
    let sheets = random_sheets(MOST_SHEETS + 9, 7000);
    let mut list = SheetList::default();
    assert_eq!(list.add_all(&sheets), Err(AddError::Full { index: MOST_SHEETS }));
    let mut sorted = sheets[..MOST_SHEETS].to_vec();
    sorted.sort();
    assert!(list.sheets().eq(sorted));
}

#[test]
fn shown_to_people() {
    let (sheet, _) = packed()[8];
    assert_eq!(sheet.to_string(), "1934-03-05 07:08:09 -0030");
    assert_eq!(format!("{:>22}|", day("1934-03-05")), "   1934-03-05 --:--:--|");
    assert_eq!(format!("{:?}", packed()[6].0), "Sheet(1934-03-05 --:37:--)");
    assert_eq!(format!("{:>12}|", Week::from_word(34 << 50 | 1 << 44 | 7)), "  0034-W01 7|");
    let mut list = SheetList::new();
    list.add(day("1934-03-05")).unwrap();
    assert_eq!(format!("{list:?}"), "[Sheet(1934-03-05 --:--:--)]");
    assert_eq!(SheetError::NoDay.to_string(), "the day of the sheet is not said");
    let (mut words, mut table) = ([0; 1], [0; MOST_WEEKS]);
    let refused = SheetList::open(&mut words, 1, &mut table, 0).unwrap_err();
    assert_eq!(refused.to_string(), "what is lent is no list of sheets with its table of weeks");
    assert_eq!(AddError::Full { index: 3 }.to_string(), "the list has no room for the sheet with index 3");
    let new_week = "the list has 1024 weeks, and that of the sheet with index 0 is not among them";
    assert_eq!(AddError::NewWeek { index: 0 }.to_string(), new_week);
}

#[cfg(feature = "std")]
#[test]
fn errors_have_sources() {
    use std::error::Error;

    let mut reading = strptime("%F %H", "1934-03-05 7").unwrap();
    reading.hour = Some(24);
    let refused: &dyn Error = &Sheet::from_reading(&reading).unwrap_err();
    assert_eq!(refused.to_string(), "no such sheet");
    assert_eq!(refused.source().unwrap().to_string(), "the hour is not 0 to 23");
    let errors: [&dyn Error; 2] = [&SheetError::NoDay, &AddError::Full { index: 0 }];
    assert!(errors.iter().all(|error| error.source().is_none()));
}

#[test]
fn lists_are_sent_to_threads() {
    fn sent<T: Send + Sync>() {}
    sent::<Sheet>();
    sent::<SheetList>();
}
