//! Makes what the programs of crates/ are run on and what they must write, by `rules.rs` and `sheets.rs` and without the proved library:
//!
//!     vectors write INPUT OUTPUT    the input of write_cases, and what it must write
//!     vectors read INPUT OUTPUT     the input of read_cases, and what it must write
//!     vectors lines DIRECTORY       for each case of date_lines NAME.in, its input, and NAME.out, what it must write
//!     vectors quarrels DIRECTORY    the same for each case of quarrels
//!     vectors weeks DIRECTORY       the same for each case of week_counts
//!     vectors days                  on standard output what every_day must write
//!
//! The first two are kept in the repository, as files `stdin` and `stdout` of crates/write_cases and crates/read_cases, and of the next
//! three the case `example`, in crates/date_lines, crates/quarrels and crates/week_counts; what the last writes must be what
//! tests/every_day.py writes by Python's datetime module.
mod days;
mod lines;
mod offsets_read;
mod offsets_written;
mod quarrels;
mod read;
mod reasons;
mod weeks;
mod write;

use compare::rules::Calendar;
use std::collections::BTreeMap;
use std::path::Path;

/// How often each outcome came.
#[derive(Default)]
struct Counts(BTreeMap<String, usize>);

impl Counts {
    fn count(&mut self, outcome: String) {
        *self.0.entry(outcome).or_insert(0) += 1;
    }

    fn print(&self) {
        for (outcome, n) in &self.0 {
            println!("  {outcome}: {n}");
        }
    }
}

/// A format or text of several pieces.
fn cat(pieces: &[&[u8]]) -> Vec<u8> {
    pieces.concat()
}

fn main() -> std::io::Result<()> {
    let arguments: Vec<String> = std::env::args().skip(1).collect();
    let arguments: Vec<&str> = arguments.iter().map(|a| a.as_str()).collect();
    match arguments[..] {
        ["write", input, output] => write::make(&Calendar::new(), Path::new(input), Path::new(output)),
        ["read", input, output] => read::make(&Calendar::new(), Path::new(input), Path::new(output)),
        ["lines", directory] => lines::make(&Calendar::new(), Path::new(directory)),
        ["quarrels", directory] => quarrels::make(&Calendar::new(), Path::new(directory)),
        ["weeks", directory] => weeks::make(&Calendar::new(), Path::new(directory)),
        ["days"] => days::print(&Calendar::new()),
        _ => {
            eprintln!(
                "usage: vectors write INPUT OUTPUT | read INPUT OUTPUT | lines DIRECTORY | quarrels DIRECTORY | weeks DIRECTORY | days"
            );
            std::process::exit(2)
        }
    }
}
