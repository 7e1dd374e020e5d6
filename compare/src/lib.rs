//! What the programs `compare` and `vectors` share: the rules once more, with the list of sheets, what the C library does, and random
//! numbers.
pub mod c_library;
pub mod c_offsets;
pub mod c_seconds;
pub mod c_writings;
pub mod elements;
#[cfg(test)]
mod margins;
pub mod random;
pub mod rules;
#[cfg(test)]
mod sheet_cases;
pub mod sheets;
