//! Vectors for %z and %s, and for offsets that are not valid, for the program write_cases.
use crate::write::{moments, Cases, MORNING, MOST};
use compare::random::Random;
use compare::rules::{month_length, Moment};

/// The ends, about zero, about an hour, and others.
const OFFSETS: [i32; 11] = [-1439, -720, -90, -30, -1, 0, 1, 60, 345, 1438, 1439];

/// Offsets that are none: just out of range, also such whose lowest 8 or 16 bits are in it, and the farthest that a line can have.
const OUTSIDE: [i32; 14] =
    [-1440, 1440, -1441, 1441, -2880, 2880, 65_536, -65_536, 65_536 + 90, -65_536 - 90, 1 << 24, -(1 << 24), 2_147_483_647, -2_147_483_647];

/// Dates at the calendar's ends, about 1970, about leap days, and where the seconds pass a power of two.
const DATES: [(u32, u32, u32); 22] = [
    (1, 1, 1),
    (1, 1, 2),
    (4, 2, 29),
    (999, 12, 31),
    (1582, 10, 15),
    (1900, 2, 28),
    (1900, 3, 1),
    (1901, 12, 13),
    (1938, 4, 24),
    (1968, 12, 31),
    (1969, 12, 30),
    (1969, 12, 31),
    (1970, 1, 1),
    (1970, 1, 2),
    (1972, 2, 29),
    (2000, 2, 29),
    (2000, 3, 1),
    (2016, 12, 31),
    (2038, 1, 19),
    (2106, 2, 7),
    (9999, 12, 30),
    (9999, 12, 31),
];

/// Formats with both, beside others and more than once.
const MIXED: [&str; 14] = [
    "%z%s",
    "%s%z%s%z",
    "%z %s|%z %s",
    "%%z%z%%s%s%%",
    "%FT%T%z = %s",
    "%a, %d %b %Y %H:%M:%S %z (%s)",
    "%c %z%n%s",
    "%s%c",
    "%r%z%x%s",
    "%-d.%-m.%-Y %^p%z %_9S%s",
    "@%s",
    "-%s",
    "%Y%s%j",
    "zs%z\t%s\r",
];

/// Formats with a %s, which an unsaid offset refuses by 12: where its % stands, after what else.
const SECONDS: [&str; 16] = [
    "%s",
    "%s%s",
    "x%s",
    "%%s%s",
    "%%%s",
    "%z%s",
    "%z%z %s%z",
    "%c%s",
    "%Ec %s %c",
    "%_5d%s",
    "%^12B %-Y|%s|%s",
    "%n%t%s",
    "%99d%99d%s",
    "\0%s\0",
    "%Od%Ey%s%",
    "%s%5s",
];

fn moment((year, month, day): (u32, u32, u32), [hour, minute, second]: [u32; 3], offset: i32) -> Moment {
    Moment::new([year, month, day, hour, minute, second]).with_offset(offset)
}

impl Cases<'_> {
    pub fn offsets(&mut self) {
        self.every_zone();
        self.bad_offsets();
        self.seconds();
        self.unsaid();
    }

    /// In buffers that are longer, just long enough, one byte short, and empty.
    fn in_rooms(&mut self, m: Moment, format: &str) {
        let just = self.needed(&m, format.as_bytes());
        for room in [just + 3, just, just - 1, 0] {
            self.add(m, room, format);
        }
    }

    /// %z: every hour of either sign, with minutes at their ends.
    fn every_zone(&mut self) {
        for hour in 0..24 {
            for minute in [0, 1, 9, 30, 59] {
                let far = 60 * hour + minute;
                self.add(MORNING.with_offset(far), 5, "%z");
                self.add(MORNING.with_offset(-far), 12, "%H%z%%%z");
            }
        }
        for offset in OFFSETS {
            self.in_rooms(MORNING.with_offset(offset), "%z");
            self.in_rooms(MORNING.with_offset(offset), "%FT%T%z");
        }
        self.add(MORNING.with_offset(-30), MOST, "%z".repeat(512));
    }

    /// 2, place 7: the last of all fields, before 3, 12 and 4.
    fn bad_offsets(&mut self) {
        for offset in OUTSIDE {
            let m = MORNING.with_offset(offset);
            for (room, format) in [(MOST, "%z"), (MOST, ""), (0, "%s"), (0, "%Q"), (MOST, "%c")] {
                self.add(m, room, format);
            }
            let mut m = m;
            m.fields[5] = 61;
            self.add(m, 9, "%z");
        }
    }

    /// %s: dates, times of day and offsets, then what is written for them in buffers of any room.
    fn seconds(&mut self) {
        let mut random = Random(6);
        for date in DATES {
            for offset in OFFSETS {
                for time in [[0, 0, 0], [23, 59, 60], [random.from(0, 23), random.from(0, 59), random.from(0, 60)]] {
                    self.add(moment(date, time, offset), 13, "%s");
                }
            }
        }
        for (place, m) in moments(self.cal).iter().enumerate() {
            let m = m.with_offset(OFFSETS[place % OFFSETS.len()]);
            self.add(m, self.needed(&m, b"%s %z"), "%s %z");
        }
        // about the turn of every month of 1970
        for month in 1..=12 {
            self.add(moment((1970, month, 1), [0, 0, 0], 0), 9, "%s");
            self.add(moment((1970, month, month_length(1970, month)), [23, 59, 60], 0), 9, "%s");
        }
        // numbers of one digit to twelve, of either sign, and the turn of each field at 1970
        for (date, time, offset) in [
            ((1970, 1, 1), [0, 0, 0], 0),
            ((1969, 12, 31), [23, 59, 60], 0),
            ((1969, 12, 31), [23, 59, 59], 0),
            ((1969, 12, 31), [23, 59, 50], 0),
            ((1970, 1, 1), [0, 0, 10], 0),
            ((1969, 12, 31), [23, 59, 1], 0),
            ((1970, 1, 1), [0, 1, 0], 0),
            ((1970, 1, 1), [0, 0, 60], 0),
            ((1970, 1, 1), [1, 0, 0], 60),
            ((1969, 12, 31), [23, 0, 0], -60),
            ((1970, 1, 1), [0, 59, 60], 60),
            ((1970, 1, 1), [2, 46, 40], 0),
            ((1970, 1, 2), [3, 46, 40], 0),
            ((1970, 1, 12), [13, 46, 40], 0),
            ((1970, 4, 26), [17, 46, 40], 0),
            ((1973, 3, 3), [9, 46, 40], 0),
            ((1966, 10, 31), [14, 13, 20], 0),
            ((2001, 9, 9), [1, 46, 40], 0),
            ((1938, 4, 24), [22, 13, 20], 0),
            ((2286, 11, 20), [17, 46, 40], 0),
            ((1653, 2, 10), [6, 13, 20], 0),
            ((5138, 11, 16), [9, 46, 40], 0),
            ((1, 1, 1), [0, 0, 0], 1439),
            ((9999, 12, 31), [23, 59, 60], -1439),
        ] {
            self.in_rooms(moment(date, time, offset), "%s");
        }
        for format in MIXED {
            for m in [MORNING.with_offset(-30), moment((2016, 12, 31), [23, 59, 60], 0), moment((9999, 12, 31), [0, 0, 0], 1439)] {
                let just = self.needed(&m, format.as_bytes());
                self.add(m, just, format);
                self.add(m, just - 1, format);
            }
        }
        // the most that a format of %s writes
        let first = moment((1, 1, 1), [0, 0, 0], 1439);
        self.add(first, MOST, "%s".repeat(512));
        self.add(first, MOST, "%s".repeat(16));
        self.add(first, MOST, "x".repeat(1022) + "%s");
    }

    /// 12: before 4 and after 2 and 3, at the first of several.
    fn unsaid(&mut self) {
        for format in SECONDS.iter().chain(&MIXED) {
            self.add(MORNING, MOST, format);
            self.add(MORNING, 0, format);
            self.add(Moment::new([1934, 3, 0, 7, 8, 9]), 20, format);
            self.add(MORNING, 20, format!("{format} %Q"));
        }
        self.add(MORNING, MOST, "x".repeat(1022) + "%s");
        self.add(MORNING, MOST, "x".repeat(1023) + "%s");
        self.add(MORNING, MOST, "%s".repeat(512));
    }
}
