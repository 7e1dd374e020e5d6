//! The elements of an opened format as numbers (RULES 10).
use crate::rules::{self, Conversion, Item, Use};

/// The most elements that a format opens to.
pub const MOST: usize = 6656;
/// The letters of the conversions that are neither composites nor bytes.
pub const LETTERS: &[u8] = b"YCymbhBdejuwaAUWGgVHkIlpPMSzs";

/// A byte stands for itself. A conversion is its letter, 256 times one more than the offset of its % in the format, 2^18 times its width
/// and 2^25 times its flag.
fn element(item: &Item) -> u32 {
    match *item {
        Item::Byte(b) | Item::Space(b) => b as u32,
        Item::Conversion(c) => c.letter as u32 + 256 * (c.at as u32 + 1) + (1 << 18) * c.width as u32 + (1 << 25) * c.flag as u32,
    }
}

/// What an entry stands for, if it is an element for writing: a % has offset 1,022 at most.
fn item(entry: u32) -> Option<Item> {
    let letter = (entry % 256) as u8;
    if entry < 256 {
        return Some(rules::byte(letter));
    }
    let at = (entry / 256 % 1024).checked_sub(1)? as usize;
    let conversion = Conversion { letter, flag: (entry / (1 << 25)) as u8, width: (entry / (1 << 18) % 128) as usize, at };
    conversion.is_taken(Use::Writing).then_some(Item::Conversion(conversion))
}

/// What a list's entries stand for, or the place of the first that no opening for this use makes: the offset of its % where it can be
/// written and not read by, as with a flag, with a width, or by %s, else its index.
pub fn items(entries: &[u32], side: Use) -> Result<Vec<Item>, usize> {
    let mut out = Vec::new();
    for (i, entry) in entries.iter().enumerate() {
        let item = item(*entry).ok_or(i)?;
        match item {
            Item::Conversion(c) if !c.is_taken(side) => return Err(c.at),
            _ if i == MOST => return Err(i),
            _ => out.push(item),
        }
    }
    Ok(out)
}

/// A format opened: its elements, or those before its first bad %.
pub struct Opened {
    pub items: Vec<Item>,
    pub elements: Vec<u32>,
    pub bad: Option<usize>,
    /// Neither too long nor bad.
    pub whole: bool,
}

impl Opened {
    pub fn new(format: &[u8], side: Use) -> Opened {
        let (items, bad) = match rules::items(format, side) {
            Ok(items) => (items, None),
            Err(at) => (rules::items(&format[..at], side).unwrap(), Some(at)),
        };
        Opened { elements: items.iter().map(element).collect(), items, bad, whole: bad.is_none() && format.len() <= 1024 }
    }
}
