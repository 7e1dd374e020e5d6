//! White space against the C library's isspace: each of the 256 bytes, in a format, in a text and before a number.
use crate::library::{self, SKIPPING, WORDS};
use compare::c_library::isspace;

pub fn compare(mut differs: impl FnMut(&dyn std::fmt::Debug)) {
    let reads = |format: &[u8], text: &[u8]| library::strptime(format, text, SKIPPING, &mut [0; WORDS]);
    for b in 0..=255 {
        let found = [
            reads(&[b], b"") == (0, 0),
            reads(&[b], b"\t\n\x0b\x0c\r ") == (0, 6),
            reads(b" ", &[b]) == (0, 1),
            reads(b"%M", &[b, b'0', b'7']) == (0, 3),
        ];
        if found != [isspace(b); 4] {
            differs(&(b, found, isspace(b)));
        }
    }
}
