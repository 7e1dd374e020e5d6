//! Cases worked by hand, on `sheets.rs`: what is expected is typed, not computed. A word is typed as its bits, field by field.
#![allow(clippy::unusual_byte_groupings)]
use crate::random::Random;
use crate::rules::{read, Calendar, Engine};
use crate::sheets::{pack, table, unpack, week_counts, Added, List, Refusal, Sheet, Week, LONGEST, WEEKS};

const NIGHT: Sheet = Sheet::new(1934, 3, 5);

/// The days and times of these words are in their order, which is that of the words.
#[rustfmt::skip]
const PACKED: [(Sheet, u64); 19] = [
    // year 14, month 4, day 5; hour said 1, hour 5; minute said 1, minute 6; second said 1, second 6; offset said 1, offset + 1439 12; 8
    (Sheet::new(1, 1, 1), 0b00000000000001_0001_00001_0_00000_0_000000_0_000000_0_000000000000_00000000),
    // an hour that is said and 0 is another than one that is unsaid
    (Sheet { hour: Some(0), ..Sheet::new(1, 1, 1) }, 0b00000000000001_0001_00001_1_00000_0_000000_0_000000_0_000000000000_00000000),
    // 1934 = 1024 + 512 + 256 + 128 + 8 + 4 + 2
    (NIGHT, 0b00011110001110_0011_00101_0_00000_0_000000_0_000000_0_000000000000_00000000),
    // -1439 + 1439 = 0, said
    (Sheet { offset: Some(-1439), ..NIGHT }, 0b00011110001110_0011_00101_0_00000_0_000000_0_000000_1_000000000000_00000000),
    // 0 + 1439 = 1024 + 256 + 128 + 16 + 8 + 4 + 2 + 1
    (Sheet { offset: Some(0), ..NIGHT }, 0b00011110001110_0011_00101_0_00000_0_000000_0_000000_1_010110011111_00000000),
    (Sheet { second: Some(9), ..NIGHT }, 0b00011110001110_0011_00101_0_00000_0_000000_1_001001_0_000000000000_00000000),
    (Sheet { minute: Some(8), ..NIGHT }, 0b00011110001110_0011_00101_0_00000_1_001000_0_000000_0_000000000000_00000000),
    (Sheet { hour: Some(7), ..NIGHT }, 0b00011110001110_0011_00101_1_00111_0_000000_0_000000_0_000000000000_00000000),
    (Sheet { hour: Some(7), minute: Some(8), ..NIGHT }, 0b00011110001110_0011_00101_1_00111_1_001000_0_000000_0_000000000000_00000000),
    (
        Sheet { hour: Some(7), minute: Some(8), second: Some(9), ..NIGHT },
        0b00011110001110_0011_00101_1_00111_1_001000_1_001001_0_000000000000_00000000,
    ),
    // -90 + 1439 = 1349 = 1024 + 256 + 64 + 4 + 1
    (
        Sheet { hour: Some(7), minute: Some(8), second: Some(9), offset: Some(-90), ..NIGHT },
        0b00011110001110_0011_00101_1_00111_1_001000_1_001001_1_010101000101_00000000,
    ),
    // 90 + 1439 = 1529 = 1024 + 256 + 128 + 64 + 32 + 16 + 8 + 1
    (
        Sheet { hour: Some(7), minute: Some(8), second: Some(9), offset: Some(90), ..NIGHT },
        0b00011110001110_0011_00101_1_00111_1_001000_1_001001_1_010111111001_00000000,
    ),
    // 2000 = 1024 + 512 + 256 + 128 + 64 + 16; second 60 in no minute
    (Sheet { second: Some(60), ..Sheet::new(2000, 2, 29) }, 0b00011111010000_0010_11101_0_00000_0_000000_1_111100_0_000000000000_00000000),
    // 2010 = 2000 + 8 + 2
    (Sheet::new(2010, 1, 1), 0b00011111011010_0001_00001_0_00000_0_000000_0_000000_0_000000000000_00000000),
    (Sheet { minute: Some(0), ..Sheet::new(2010, 1, 1) }, 0b00011111011010_0001_00001_0_00000_1_000000_0_000000_0_000000000000_00000000),
    // 2017 = 1024 + 512 + 256 + 128 + 64 + 32 + 1
    (Sheet::new(2017, 1, 1), 0b00011111100001_0001_00001_0_00000_0_000000_0_000000_0_000000000000_00000000),
    (Sheet { second: Some(0), ..Sheet::new(2017, 1, 1) }, 0b00011111100001_0001_00001_0_00000_0_000000_1_000000_0_000000000000_00000000),
    // 9999 = 8192 + 1024 + 512 + 256 + 15
    (Sheet::new(9999, 12, 31), 0b10011100001111_1100_11111_0_00000_0_000000_0_000000_0_000000000000_00000000),
    // 1439 + 1439 = 2878 = 2048 + 512 + 256 + 32 + 16 + 8 + 4 + 2
    (
        Sheet { hour: Some(23), minute: Some(59), second: Some(60), offset: Some(1439), ..Sheet::new(9999, 12, 31) },
        0b10011100001111_1100_11111_1_10111_1_111011_1_111100_1_101100111110_00000000,
    ),
];

#[test]
fn packed() {
    for (sheet, word) in PACKED {
        assert_eq!(pack(&sheet), Ok(word), "{sheet:?}");
        assert_eq!(unpack(word), Some(sheet), "{word:064b}");
    }
    assert!(PACKED.windows(2).all(|pair| pair[0].1 < pair[1].1));
    // the same word in hexadecimal: 0001 1110 0011 1000 1100 1010 0
    assert_eq!(pack(&NIGHT), Ok(0x1e38_ca00_0000_0000));
}

#[test]
fn no_packings() {
    for (why, word) in [
        ("no day", 0),
        ("no day, an hour", 0b00000000000000_0000_00000_1_00111_0_000000_0_000000_0_000000000000_00000000),
        ("year 0", 0b00000000000000_0011_00101_0_00000_0_000000_0_000000_0_000000000000_00000000),
        ("year 10,000", 0b10011100010000_0011_00101_0_00000_0_000000_0_000000_0_000000000000_00000000),
        ("year 16,383", 0b11111111111111_0011_00101_0_00000_0_000000_0_000000_0_000000000000_00000000),
        ("month 0", 0b00011110001110_0000_00101_0_00000_0_000000_0_000000_0_000000000000_00000000),
        ("month 13", 0b00011110001110_1101_00101_0_00000_0_000000_0_000000_0_000000000000_00000000),
        ("day 0", 0b00011110001110_0011_00000_0_00000_0_000000_0_000000_0_000000000000_00000000),
        ("31 April", 0b00011110001110_0100_11111_0_00000_0_000000_0_000000_0_000000000000_00000000),
        ("1934-02-29", 0b00011110001110_0010_11101_0_00000_0_000000_0_000000_0_000000000000_00000000),
        ("hour 24", 0b00011110001110_0011_00101_1_11000_0_000000_0_000000_0_000000000000_00000000),
        ("hour 7, unsaid", 0b00011110001110_0011_00101_0_00111_0_000000_0_000000_0_000000000000_00000000),
        ("minute 60", 0b00011110001110_0011_00101_0_00000_1_111100_0_000000_0_000000000000_00000000),
        ("minute 1, unsaid", 0b00011110001110_0011_00101_0_00000_0_000001_0_000000_0_000000000000_00000000),
        ("second 61", 0b00011110001110_0011_00101_0_00000_0_000000_1_111101_0_000000000000_00000000),
        ("second 32, unsaid", 0b00011110001110_0011_00101_0_00000_0_000000_0_100000_0_000000000000_00000000),
        ("offset 1440", 0b00011110001110_0011_00101_0_00000_0_000000_0_000000_1_101100111111_00000000),
        ("offset 2656", 0b00011110001110_0011_00101_0_00000_0_000000_0_000000_1_111111111111_00000000),
        ("offset 0, unsaid", 0b00011110001110_0011_00101_0_00000_0_000000_0_000000_0_010110011111_00000000),
        ("the last zero bit", 0b00011110001110_0011_00101_0_00000_0_000000_0_000000_0_000000000000_00000001),
        ("the first zero bit", 0b00011110001110_0011_00101_0_00000_0_000000_0_000000_0_000000000000_10000000),
        ("every bit", u64::MAX),
    ] {
        assert_eq!(unpack(word), None, "{why}");
    }
}

/// What a sheet is refused by.
#[track_caller]
fn refused(sheet: Sheet, number: u32, place: u32) {
    assert_eq!(pack(&sheet), Err(Refusal { number, place }), "{sheet:?}");
}

#[test]
fn bad_fields() {
    refused(Sheet::default(), 13, 0);
    refused(Sheet { hour: Some(24), offset: Some(9999), ..Sheet::default() }, 13, 0);
    // a day is unsaid only where year, month and day are 0
    refused(Sheet::new(0, 3, 5), 2, 1);
    refused(Sheet::new(0, 0, 1), 2, 1);
    refused(Sheet::new(1934, 0, 0), 2, 2);
    refused(Sheet::new(0, 3, 0), 2, 1);
    refused(Sheet::new(10_000, 13, 32), 2, 1);
    refused(Sheet::new(1934, 13, 32), 2, 2);
    refused(Sheet::new(1934, 3, 0), 2, 3);
    refused(Sheet::new(1934, 3, 32), 2, 3);
    refused(Sheet::new(1900, 2, 29), 2, 3);
    refused(Sheet { hour: Some(24), minute: Some(60), ..NIGHT }, 2, 4);
    refused(Sheet { minute: Some(60), second: Some(61), ..NIGHT }, 2, 5);
    refused(Sheet { second: Some(61), offset: Some(1440), ..NIGHT }, 2, 6);
    refused(Sheet { offset: Some(1440), ..NIGHT }, 2, 7);
    refused(Sheet { offset: Some(-1440), ..NIGHT }, 2, 7);
    refused(Sheet { offset: Some(i32::MIN), ..NIGHT }, 2, 7);
    refused(Sheet { offset: Some(i32::MAX), ..NIGHT }, 2, 7);
    // numbers that are valid once their bits are cut to the field's
    refused(Sheet::new(1934 + (1 << 14), 3, 5), 2, 1);
    refused(Sheet::new(1934, 3 + (1 << 4), 5), 2, 2);
    refused(Sheet::new(1934, 3, 5 + (1 << 5)), 2, 3);
    refused(Sheet { hour: Some(7 + (1 << 5)), ..NIGHT }, 2, 4);
    refused(Sheet { minute: Some(8 + (1 << 6)), ..NIGHT }, 2, 5);
    refused(Sheet { second: Some(u32::MAX), ..NIGHT }, 2, 6);
    refused(Sheet { offset: Some(90 + (1 << 12)), ..NIGHT }, 2, 7);
}

/// The weeks of the worked cases about the turn of a year, and of the calendar's ends.
#[test]
fn weeks() {
    let cal = Calendar::new();
    let word_of = |year, month, day| pack(&Sheet::new(year, month, day)).unwrap();
    for (date, year, week, word) in [
        // ISO year 14, week 6, sheets 44
        ((1934, 3, 5), 1934, 10, 0b00011110001110_001010_00000000000000000000000000000000000000000001),
        ((2010, 1, 1), 2009, 53, 0b00011111011001_110101_00000000000000000000000000000000000000000001),
        ((2010, 1, 4), 2010, 1, 0b00011111011010_000001_00000000000000000000000000000000000000000001),
        ((2011, 1, 2), 2010, 52, 0b00011111011010_110100_00000000000000000000000000000000000000000001),
        ((2017, 1, 1), 2016, 52, 0b00011111100000_110100_00000000000000000000000000000000000000000001),
        ((2018, 12, 31), 2019, 1, 0b00011111100011_000001_00000000000000000000000000000000000000000001),
        ((9999, 12, 31), 9999, 52, 0b10011100001111_110100_00000000000000000000000000000000000000000001),
        ((1, 1, 1), 1, 1, 0b00000000000001_000001_00000000000000000000000000000000000000000001),
    ] {
        assert_eq!(table(&cal, &[word_of(date.0, date.1, date.2)]), [word], "{date:?}");
        assert_eq!(Week::of_word(word), Week { year, week, sheets: 1 }, "{date:?}");
    }
    // by the bits of any word
    assert_eq!(Week::of_word(u64::MAX), Week { year: 16_383, week: 63, sheets: (1 << 44) - 1 });
    // Sunday 2009-12-27 ends week 52; week 53 goes from Monday 28 December to Sunday 3 January
    let days = [word_of(2009, 12, 27), word_of(2009, 12, 28), word_of(2009, 12, 31), word_of(2010, 1, 1), word_of(2010, 1, 3)];
    let [before, within] = [[2009, 52, 1], [2009, 53, 4]].map(|[year, week, sheets]| Week { year, week, sheets }.word());
    assert_eq!(table(&cal, &days), [before, within]);
    assert_eq!(table(&cal, &[]), []);
}

/// The sheets of a list of four, two of them equal: weeks 10 and 11 of 1934, and week 53 of 2009.
const FOUR: [Sheet; 4] = [NIGHT, NIGHT, Sheet { hour: Some(23), ..Sheet::new(1934, 3, 18) }, Sheet::new(2010, 1, 1)];

/// What stands past what is held: no packing, and in no order.
const PAST: u64 = u64::MAX;

/// FOUR in an array of six words.
fn four() -> List {
    let mut list = List { words: vec![PAST; 6], weeks: vec![PAST; WEEKS], counts: [4, 3] };
    list.words[..4].copy_from_slice(&FOUR.map(|sheet| pack(&sheet).unwrap()));
    list.weeks[..3].copy_from_slice(&[[1934, 10, 2], [1934, 11, 1], [2009, 53, 1]].map(week_word));
    list
}

fn week_word([year, week, sheets]: [u64; 3]) -> u64 {
    Week { year, week, sheets }.word()
}

/// A sheet is refused, and everything is as it was.
#[track_caller]
fn stays(cal: &Calendar, list: &List, sheet: Sheet, number: u32, place: u32) {
    let mut after = list.clone();
    assert_eq!(after.add(cal, &sheet), Err(Refusal { number, place }));
    assert_eq!(after, *list);
    assert_eq!(after.add_many(cal, &[sheet, NIGHT]), Added { refusal: Some(Refusal { number, place }), index: 0 });
    assert_eq!(after, *list);
}

#[test]
fn added() {
    let cal = Calendar::new();
    let words = FOUR.map(|sheet| pack(&sheet).unwrap());

    // one after another, in any order, into an empty list
    for order in [[0, 1, 2, 3], [3, 2, 1, 0], [2, 0, 3, 1]] {
        let mut list = List { words: vec![PAST; 6], weeks: vec![PAST; WEEKS], counts: [0, 0] };
        for i in order {
            assert_eq!(list.add(&cal, &FOUR[i]), Ok(()));
        }
        assert_eq!(list, four());
    }

    // between others, and once more what is there
    let mut list = four();
    let between = Sheet::new(1934, 3, 18);
    assert_eq!(list.add(&cal, &between), Ok(()));
    assert_eq!(list.words, [words[0], words[1], pack(&between).unwrap(), words[2], words[3], PAST]);
    assert_eq!(list.weeks[..4], [week_word([1934, 10, 2]), week_word([1934, 11, 2]), week_word([2009, 53, 1]), PAST]);
    assert_eq!(list.counts, [5, 3]);
    assert_eq!(list.add(&cal, &NIGHT), Ok(()));
    assert_eq!(list.words, [words[0], words[0], words[0], pack(&between).unwrap(), words[2], words[3]]);
    assert_eq!(list.weeks[..4], [week_word([1934, 10, 3]), week_word([1934, 11, 2]), week_word([2009, 53, 1]), PAST]);
    assert_eq!(list.counts, [6, 3]);
    stays(&cal, &list, NIGHT, 14, 0);

    // a week of its own, before, between and after others; 2017-01-01 is of week 52 of 2016
    for (sheet, place, week) in [
        (Sheet::new(1, 1, 1), 0, [1, 1, 1]),
        (Sheet::new(1934, 12, 31), 2, [1935, 1, 1]),
        (Sheet::new(2017, 1, 1), 3, [2016, 52, 1]),
        (Sheet::new(9999, 12, 31), 3, [9999, 52, 1]),
    ] {
        let mut list = four();
        let mut weeks = list.weeks[..3].to_vec();
        weeks.insert(place, week_word(week));
        assert_eq!(list.add(&cal, &sheet), Ok(()));
        assert_eq!(list.held().1, weeks, "{sheet:?}");
        assert_eq!(list.weeks[4..], vec![PAST; WEEKS - 4]);
        assert_eq!(list.counts, [5, 4]);
    }

    // what a reading says
    let reading = read(&cal, Engine::Skipping, b"%F %H %z", b"1934-03-05 7 +0130");
    let sheet = Sheet { hour: Some(7), offset: Some(90), ..NIGHT };
    assert_eq!(Sheet::of_reading(&reading), sheet);
    for (format, text) in [("%H:%M", "07:08"), ("%F", "1934-02-30"), ("%d %b", "5 Mar"), ("%F %I", "1934-03-05 7"), ("%Q", "7")] {
        stays(&cal, &four(), Sheet::of_reading(&read(&cal, Engine::Skipping, format.as_bytes(), text.as_bytes())), 13, 0);
    }
}

#[test]
fn order_of_refusals() {
    let cal = Calendar::new();
    let mut list = four();
    list.words.truncate(4);
    let (no_day, bad) = (Sheet { hour: Some(24), ..Sheet::default() }, Sheet { hour: Some(24), ..NIGHT });
    // full, and nothing else
    assert_eq!(list.judge(&cal), Ok(()));
    stays(&cal, &list, no_day, 13, 0);
    stays(&cal, &list, bad, 2, 4);
    stays(&cal, &list, NIGHT, 14, 0);
    // full and damaged
    list.words[0] += 1;
    assert_eq!(list.judge(&cal), Err(Refusal { number: 15, place: 0 }));
    stays(&cal, &list, no_day, 13, 0);
    stays(&cal, &list, bad, 2, 4);
    stays(&cal, &list, NIGHT, 15, 0);
    // an array of no words is full
    stays(&cal, &List::new(0), NIGHT, 14, 0);
}

#[test]
fn many() {
    let cal = Calendar::new();
    let bad = Sheet { second: Some(61), ..NIGHT };
    let ended = |number, place, index| Added { refusal: Some(Refusal { number, place }), index };

    // no sheet: nothing is judged
    let mut damaged = List { words: vec![PAST; LONGEST + 1], weeks: vec![], counts: [u32::MAX, 7] };
    assert_eq!(damaged.add_many(&cal, &[]), Added { refusal: None, index: 0 });
    assert_eq!(damaged, List { words: vec![PAST; LONGEST + 1], weeks: vec![], counts: [u32::MAX, 7] });
    assert_eq!(damaged.add_many(&cal, &[Sheet::default(), NIGHT]), ended(13, 0, 0));
    assert_eq!(damaged.add_many(&cal, &[NIGHT, Sheet::default()]), ended(15, 0, 0));

    // those before the first refusal are added
    let mut one = four();
    assert_eq!(one.add(&cal, &FOUR[2]), Ok(()));
    let mut list = four();
    assert_eq!(list.add_many(&cal, &[FOUR[2], bad, NIGHT]), ended(2, 6, 1));
    assert_eq!(list, one);
    let mut list = four();
    assert_eq!(list.add_many(&cal, &[FOUR[2], Sheet::default(), bad]), ended(13, 0, 1));
    assert_eq!(list, one);
    let mut list = four();
    list.words.truncate(5);
    assert_eq!(list.add_many(&cal, &[FOUR[2], FOUR[1], bad]), ended(14, 0, 1));
    // bad before full
    let mut list = four();
    list.words.truncate(5);
    assert_eq!(list.add_many(&cal, &[FOUR[2], bad, FOUR[1]]), ended(2, 6, 1));
    // up to the last word
    let mut list = four();
    assert_eq!(list.add_many(&cal, &[NIGHT, NIGHT]), Added { refusal: None, index: 2 });
    assert_eq!(list.add_many(&cal, &[NIGHT, NIGHT]), ended(14, 0, 0));
}

/// The quick way and the literal one.
#[test]
fn many_one_after_another() {
    let cal = Calendar::new();
    let mut random = Random(7);
    for _ in 0..300 {
        let room = random.below(30);
        let mut list = List { words: vec![PAST; room], ..List::new(0) };
        let sheets: Vec<Sheet> = (0..40)
            .map(|_| match random.below(60) {
                0 => Sheet::default(),
                1 => Sheet { minute: Some(60), ..NIGHT },
                _ => Sheet { hour: random.chance(50).then_some(7), ..Sheet::new(2009, 12, random.from(20, 31)) },
            })
            .collect();
        for part in sheets.chunks(7) {
            let mut slowly = list.clone();
            assert_eq!(slowly.add_slowly(&cal, part), list.add_many(&cal, part));
            assert_eq!(slowly, list);
        }
    }
}

/// Each sort of damage that 15 names, one at a time.
#[test]
fn damaged() {
    let cal = Calendar::new();
    assert_eq!(four().judge(&cal), Ok(()));
    assert_eq!(List::new(0).judge(&cal), Ok(()));
    assert_eq!(List::new(LONGEST).judge(&cal), Ok(()));
    let damaged = |what: &str, damage: &dyn Fn(&mut List)| {
        let mut list = four();
        damage(&mut list);
        assert_ne!(list, four(), "{what}");
        assert_eq!(list.judge(&cal), Err(Refusal { number: 15, place: 0 }), "{what}");
        stays(&cal, &list, NIGHT, 15, 0);
    };
    damaged("an array over 65,536 words", &|l| l.words.resize(LONGEST + 1, 0));
    damaged("a count past the list's array", &|l| l.counts[0] = 7);
    damaged("a count past any array", &|l| l.counts[0] = u32::MAX);
    damaged("a count past the table's array", &|l| l.counts[1] = 1025);
    damaged("a count past any table", &|l| l.counts[1] = u32::MAX);
    damaged("a word more", &|l| l.counts[0] = 5);
    damaged("a word less", &|l| l.counts[0] = 3);
    damaged("no word", &|l| l.counts[0] = 0);
    damaged("a week more", &|l| l.counts[1] = 4);
    damaged("a week less", &|l| l.counts[1] = 2);
    damaged("no week", &|l| l.counts[1] = 0);
    damaged("a zero bit set", &|l| l.words[3] += 1);
    damaged("an hour that is unsaid", &|l| l.words[3] += 7 << 35);
    damaged("a month 0", &|l| l.words[3] -= 1 << 46);
    damaged("another week's day", &|l| l.words[3] = pack(&Sheet::new(2010, 1, 4)).unwrap());
    damaged("not ascending", &|l| l.words.swap(1, 2));
    damaged("not ascending, at the end", &|l| l.words.swap(2, 3));
    damaged("a table of 1,023 words", &|l| l.weeks.truncate(1023));
    damaged("a table of 1,025 words", &|l| l.weeks.push(0));
    damaged("a table of no words", &|l| l.weeks.clear());
    damaged("a sheet more in a week", &|l| l.weeks[0] += 1);
    damaged("a sheet less in a week", &|l| l.weeks[0] -= 1);
    damaged("a sheet in another week", &|l| l.weeks[..2].copy_from_slice(&[[1934, 10, 1], [1934, 11, 2]].map(week_word)));
    damaged("another week", &|l| l.weeks[2] = week_word([2010, 53, 1]));
    damaged("week 1 for 53", &|l| l.weeks[2] = week_word([2010, 1, 1]));
    damaged("weeks in another order", &|l| l.weeks.swap(0, 1));
    damaged("a week twice", &|l| {
        l.weeks[..4].copy_from_slice(&[[1934, 10, 1], [1934, 10, 1], [1934, 11, 1], [2009, 53, 1]].map(week_word));
        l.counts[1] = 4;
    });
    damaged("a week without sheets", &|l| {
        l.weeks[3] = week_word([2010, 1, 0]);
        l.counts[1] = 4;
    });

    // what stands past the counts is not judged, nor changed
    for past in [0, 1, pack(&NIGHT).unwrap(), u64::MAX] {
        let mut list = four();
        list.words[4..].fill(past);
        list.weeks[3..].fill(past);
        assert_eq!(list.judge(&cal), Ok(()));
        assert_eq!(list.add(&cal, &NIGHT), Ok(()));
        assert_eq!((list.words[5], list.weeks[3]), (past, past));
    }
    // each bit of the last word and of a week. 1 January may become 3 January, and what is unsaid may be said and 0
    for bit in 0..64 {
        let mut list = four();
        list.words[3] ^= 1 << bit;
        assert_eq!(list.judge(&cal).is_ok(), [20, 27, 34, 40, 42].contains(&bit), "bit {bit}");
        let mut list = four();
        list.weeks[1] ^= 1 << bit;
        assert!(list.judge(&cal).is_err(), "bit {bit} of a week");
    }
}

/// Mondays of so many weeks, from 1934-03-05.
fn mondays(cal: &Calendar, weeks: usize) -> Vec<Sheet> {
    let first = cal.place(1934, 3, 5);
    let date = |i: usize| cal.days[first + 7 * i].date();
    (0..weeks).map(date).map(|(year, month, day)| Sheet::new(year, month, day)).collect()
}

#[test]
fn full() {
    let cal = Calendar::new();
    // 1,024 weeks, in an array of 1,027 words
    let mondays = mondays(&cal, 1025);
    let mut list = List::new(1027);
    assert_eq!(list.add_many(&cal, &mondays), Added { refusal: Some(Refusal { number: 14, place: 0 }), index: 1024 });
    assert_eq!(list.counts, [1024, 1024]);
    stays(&cal, &list, mondays[1024], 14, 0);
    // the Sunday before is of the week before
    stays(&cal, &list, Sheet::new(1934, 3, 4), 14, 0);
    stays(&cal, &list, Sheet::new(9999, 12, 31), 14, 0);
    // a sheet of a week that is held
    assert_eq!(list.add(&cal, &mondays[1023]), Ok(()));
    assert_eq!(list.add(&cal, &Sheet::new(1934, 3, 11)), Ok(()));
    assert_eq!(list.counts, [1026, 1024]);
    assert_eq!(list.weeks[0], week_word([1934, 10, 2]));
    stays(&cal, &list, Sheet::new(1934, 3, 4), 14, 0);
    let many = [NIGHT, NIGHT, mondays[1024]];
    let mut slowly = list.clone();
    slowly.words.push(0);
    let mut roomy = slowly.clone();
    assert_eq!(roomy.add_many(&cal, &many), Added { refusal: Some(Refusal { number: 14, place: 0 }), index: 2 });
    assert_eq!(slowly.add_slowly(&cal, &many), Added { refusal: Some(Refusal { number: 14, place: 0 }), index: 2 });
    assert_eq!(roomy, slowly);
    assert_eq!(list.add(&cal, &NIGHT), Ok(()));
    stays(&cal, &list, NIGHT, 14, 0);
    // a list of 1,025 weeks has no table
    let mut words = list.held().0.to_vec();
    words.push(pack(&mondays[1024]).unwrap());
    words.sort_unstable();
    let list = List { counts: [words.len() as u32, 1024], words, weeks: list.weeks };
    stays(&cal, &list, NIGHT, 15, 0);

    // the longest array, up to its last word
    let mut list = List::new(LONGEST);
    assert_eq!(list.add_many(&cal, &[NIGHT; LONGEST]), Added { refusal: None, index: 65_536 });
    assert_eq!(list.counts, [65_536, 1]);
    assert_eq!(list.weeks[0], week_word([1934, 10, 65_536]));
    stays(&cal, &list, NIGHT, 14, 0);
}

/// What the program `week_counts` writes.
#[test]
fn counts_of_weeks() {
    let cal = Calendar::new();
    let writes = |list: &str, expected: &str| assert_eq!(week_counts(&cal, list.as_bytes()), expected, "{list}");
    writes("", "left out: 0\n");
    writes("%F", "left out: 0\n");
    writes("%Q\n", "left out: 0\n");
    writes("%F\n1934-03-05", "1934-W10 1\nleft out: 0\n");
    writes("%F\n2010-01-04\n2010-01-01\n2009-12-31\n1-1-1\n", "0001-W01 1\n2009-W53 2\n2010-W01 1\nleft out: 0\n");
    writes("%F\n2017-01-01\n9999-12-31\n2016-12-26\n", "2016-W52 2\n9999-W52 1\nleft out: 0\n");
    writes("%F\nx\n1934-02-30\n1934-3-5\n\n1934-13-1\n", "1934-W10 1\nleft out: 4\nnumber 6: 2\nnumber 7: 1\nnumber 9: 1\n");
    writes("%H\n7\n8\n24\n", "left out: 3\nnumber 7: 1\nnumber 13: 2\n");
    writes("%d %b\n5 Mar\n30 Feb\n", "left out: 2\nnumber 9: 1\nnumber 10: 1\n");
    writes("%Q\n5 Mar\n\n", "left out: 2\nnumber 3: 2\n");
    writes("\n\nx\n", "left out: 2\nnumber 13: 2\n");
    assert_eq!(week_counts(&cal, &[b'\n'; 32_768]), "left out: 32767\nnumber 13: 32767\n");
    assert_eq!(week_counts(&cal, &[b'\n'; 32_769]), "too long\n");
    // 1,024 weeks, others, and once more the last of the 1,024, 1953-10-12
    let dates: Vec<String> = mondays(&cal, 1030).iter().map(|sheet| format!("{:?}\n", sheet.date)).collect();
    let found = week_counts(&cal, format!("(%Y, %m, %d)\n{}(1953, 10, 12)\n", dates.concat()).as_bytes());
    let lines: Vec<&str> = found.lines().collect();
    assert_eq!((lines[0], lines.len()), ("1934-W10 1", 1026));
    assert_eq!(lines[1022..], ["1953-W41 1", "1953-W42 2", "left out: 6", "number 14: 6"]);

    // what is counted is what a list of the readings holds
    let mut random = Random(10);
    let mut list = List::new(LONGEST);
    let (mut texts, mut left_out) = ("%Y%j\n".to_string(), 0);
    for _ in 0..1200 {
        let text = format!("{:04}{:03}", random.from(1920, 1943), random.from(1, 366));
        let reading = read(&cal, Engine::Skipping, b"%Y%j", text.as_bytes());
        left_out += list.add(&cal, &Sheet::of_reading(&reading)).is_err() as usize;
        texts += &(text + "\n");
    }
    let weeks = list.held().1.iter().map(|word| Week::of_word(*word));
    let lines: String = weeks.map(|w| format!("{:04}-W{:02} {}\n", w.year, w.week, w.sheets)).collect();
    writes(&texts, &format!("{lines}left out: {left_out}\nnumber 9: {left_out}\n"));
}
