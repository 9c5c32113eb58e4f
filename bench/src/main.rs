//! The speed of the library and of mf4-rs 3.8.0, on the same input, in the same loops.
//!
//!     bench count            makes the passes that callgrind or an emulator counts, and prints a line for each
//!     bench table COUNTS     measures times and prints the table; the file COUNTS has those lines, each with its count
//!     bench untimed COUNTS   prints the table without times
//!
//! A row has up to four sides: the library through its archive; the crate at the same kind of border, where each call is
//! that of a function compiled apart; the crate inlined, compiled together with its loop; and a copy of the bytes that
//! the row reads. Where a number is written, which the crate does only with a whole file, a plain store in C, compiled apart,
//! stands in the crate's place, in a table of its own; and where a record is fetched through a table of fragments, the fetch
//! along the chain does, in another. Before a row is measured, the answers of all sides but the copy must be the same.

mod border;
#[path = "../../compare/src/c.rs"]
mod c;
#[allow(dead_code)]
#[path = "../../compare/src/dice.rs"]
mod dice;
mod digest;
mod inlined;
mod library;
mod measure;
mod pieces;
mod plain;
mod row;
mod rows;
mod table;

// The crate's files name each other from the root of their crate, which is this one where they are inlined.
use inlined::{blocks, error, index, parsing};

use std::process::ExitCode;

fn main() -> ExitCode {
    let words: Vec<String> = std::env::args().skip(1).collect();
    let done = match words.iter().map(String::as_str).collect::<Vec<_>>()[..] {
        ["count"] => measure::count(&rows::all()),
        ["table", counts] => table::print(counts, measure::times),
        ["untimed", counts] => table::print(counts, |_| Ok(Vec::new())),
        _ => Err("usage: bench count | bench table COUNTS | bench untimed COUNTS".to_string()),
    };
    if let Err(said) = done {
        eprintln!("bench: {said}");
        return ExitCode::FAILURE;
    }
    ExitCode::SUCCESS
}
