//! chrono's reader for bench.c: a format is opened once, and a text read to seconds since 1970.
use chrono::format::{parse, Item, Parsed, StrftimeItems};

/// The items of a format. They stay for good.
///
/// # Safety
/// `format` has `length` bytes of ASCII, which stay for good.
#[no_mangle]
pub unsafe extern "C" fn chrono_open(format: *const u8, length: usize) -> *mut Vec<Item<'static>> {
    let format = std::str::from_utf8_unchecked(std::slice::from_raw_parts(format, length));
    Box::into_raw(Box::new(StrftimeItems::new(format).collect()))
}

/// Seconds since 1970, or -2^63 where the text is refused.
///
/// # Safety
/// `items` comes from `chrono_open`, and `text` has `length` bytes of ASCII.
#[no_mangle]
pub unsafe extern "C" fn chrono_read(items: *const Vec<Item<'static>>, text: *const u8, length: usize) -> i64 {
    let text = std::str::from_utf8_unchecked(std::slice::from_raw_parts(text, length));
    let mut parsed = Parsed::new();
    let read = parse(&mut parsed, text, (*items).iter()).and_then(|()| parsed.to_naive_datetime_with_offset(0));
    read.map_or(i64::MIN, |t| t.timestamp())
}
