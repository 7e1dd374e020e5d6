//! Writes and reads per second of the library alone. Calls of C functions stay where they are: nothing is optimised away.
use crate::library::{self, SKIPPING};
use std::time::{Duration, Instant};

fn rate(name: &str, mut once: impl FnMut(u32)) {
    let began = Instant::now();
    let mut n = 0u32;
    while began.elapsed() < Duration::from_millis(300) {
        for _ in 0..16 {
            once(n);
            n += 1;
        }
    }
    let each = began.elapsed().as_secs_f64() / n as f64;
    println!("  {name:<58} {:>12.0} a second", 1.0 / each);
}

fn write(format: &str) {
    let mut elements = [0; 6656];
    let (_, count) = library::open(format.as_bytes(), 1, &mut elements);
    let elements = &elements[..count as usize];
    let mut out = [0u8; 128];
    let moment = |n: u32| [1900 + n % 200, 1 + n % 12, 1 + n % 28, n % 24, n % 60, n % 60, 1, n % 1440];
    rate(&format!("write \"{format}\""), |n| {
        library::strftime(format.as_bytes(), &moment(n), &mut out);
    });
    rate(&format!("write \"{format}\", opened once"), |n| {
        library::write(elements, &moment(n), &mut out);
    });
}

fn read(format: &str, text: &str) {
    let mut elements = [0; 6656];
    let (_, count) = library::open(format.as_bytes(), 0, &mut elements);
    let elements = &elements[..count as usize];
    let mut words = [0; library::WORDS];
    rate(&format!("read \"{text}\" by \"{format}\""), |_| {
        library::strptime(format.as_bytes(), text.as_bytes(), SKIPPING, &mut words);
    });
    rate(&format!("read \"{text}\" by \"{format}\", opened once"), |_| {
        library::read(elements, text.as_bytes(), SKIPPING, &mut words);
    });
}

fn explain(format: &str, text: &str) {
    let mut reason = [0; library::REASON_WORDS];
    rate(&format!("explain \"{text}\" by \"{format}\""), |_| {
        library::explain(format.as_bytes(), text.as_bytes(), &mut reason);
    });
}

pub fn measure() {
    write("%Y-%m-%d %H:%M:%S");
    write("%c");
    write("%-d %^b %_5Y");
    write("%Y-%m-%dT%H:%M:%S%z");
    write("%s");
    read("%Y-%m-%d %H:%M:%S", "1934-03-05 07:08:09");
    read("%Y-%m-%dT%H:%M:%S%z", "1934-03-05T07:08:09+0130");
    read("%c", "Mon Mar  5 07:08:09 1934");
    read("%d %b", "5 mar");
    read("%C %V %u", "99 53 1");
    read("%U %V", "10 50");
    explain("%Y-%m-%d %H:%M:%S", "1934-03-05 07:08:09");
    explain("%a %d %b %Y", "Tue 5 Mar 1934");
    explain("%d %b", "30 Feb");
    explain("%U %V", "10 50");
}
