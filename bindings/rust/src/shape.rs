//! Texts of one exact shape.
use crate::error::ParseError;

/// The numbers of a text that has a shape: a digit for each `0` of the shape, its other bytes as they stand, and nothing more. They are
/// as many as the shape has runs of `0`.
pub fn numbers<const N: usize>(text: &str, shape: &str) -> Result<[u32; N], ParseError> {
    let (text, shape) = (text.as_bytes(), shape.as_bytes());
    let fits = |(byte, wanted): (&u8, &u8)| if *wanted == b'0' { byte.is_ascii_digit() } else { byte == wanted };
    let offset = text.iter().zip(shape).take_while(|pair| fits(*pair)).count();
    if offset < text.len().max(shape.len()) {
        return Err(ParseError::Shape { offset });
    }
    let mut numbers = [0; N];
    let runs = text.split(|byte| !byte.is_ascii_digit()).filter(|digits| !digits.is_empty());
    for (number, digits) in numbers.iter_mut().zip(runs) {
        *number = digits.iter().fold(0, |n, digit| n * 10 + u32::from(digit - b'0'));
    }
    Ok(numbers)
}
