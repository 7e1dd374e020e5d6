//! Writings against what the C library makes of the same moments (`c_offsets.rs`, `c_seconds.rs`).
use crate::rules::Moment;

/// A format, a moment, and what the C library makes of them.
pub type Writing = (&'static str, Moment, Vec<u8>);

/// Returns how many writings were compared. `write` is the writer: what it answers, and the bytes that it puts into the buffer.
pub fn compare(
    writings: impl Iterator<Item = Writing>,
    write: impl Fn(&[u8], &Moment, &mut [u8]) -> (u32, u32),
    mut differs: impl FnMut(&dyn std::fmt::Debug),
) -> usize {
    let mut count = 0;
    for (format, m, theirs) in writings {
        let mut ours = vec![0; theirs.len()];
        let found = write(format.as_bytes(), &m, &mut ours);
        count += 1;
        if found != (0, theirs.len() as u32) || ours != theirs {
            differs(&(format, m, found, String::from_utf8_lossy(&ours), String::from_utf8_lossy(&theirs)));
        }
    }
    count
}
