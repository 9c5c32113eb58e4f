//! The differential comparison: mf4-rs 3.8.0, its own files unchanged, against the library's archive.
//!
//!     compare [COUNT] [--seed SEED]   compares COUNT generated inputs (default: ten million)
//!     compare --replay LINE           gives both answers to the one input of a line, as a failing run prints it
//!     compare --sample COUNT FILE     writes COUNT inputs with the crate's answers, for a replay without Rust
//!
//! Inside the domain every answer must be equal; where the crate has no value it tells no cause, and any refusal from
//! 18 to 22 counts as equal. Outside it, the difference must be a listed one and the library must give what is due
//! there; `outside.rs` knows both. The exit status is 1 where an answer is neither.
//!
//! Validity is compared in the crate's reading, in which the invalidation bytes have no end: that of the calls that end in
//! _unbounded. The two calls in which they have one must give the same, or 28 or 29 where these are due.
//!
//! # Lines
//!
//! A line is words with one blank between them: the kind, the input's words, and in a sample `=` and the answer's
//! words. A line that begins with `#` is a remark. A word is a number or bytes. A number is hexadecimal, in lower
//! case, at most 16 digits, without a prefix; a signed number stands as its 64-bit two's complement and a double as
//! its 64-bit pattern. Bytes are two such digits each, without blanks, and `-` where there are none. `N*` is a count
//! and then that many numbers. ROOM is the length of the lent buffer.
//!
//!     type CODE = CODE BITS
//!     header-read BYTES = REPLY TOLD [HEADER]
//!     header-write HEADER ROOM = REPLY TOLD [BYTES]
//!     list-read BYTES = REPLY TOLD [HEADER NEXT LINKS_AT LINKS FLAGS RESERVED1 DATA_BLOCK_NR REST_AT REST]
//!     list-write-equal ROOM NEXT LENGTH LINKS* = REPLY TOLD [BYTES]
//!     list-write-variable ROOM NEXT LINKS* OFFSETS* = REPLY TOLD [BYTES]
//!     channel-read BYTES = REPLY TOLD [BLOCK]
//!     channel-write BLOCK ROOM = REPLY TOLD [BYTES]
//!     value FIELD = REPLY TOLD [VALUE]
//!     validity FIELD = VALID
//!     both FIELD = REPLY TOLD [VALUE VALID]
//!     double FIELD = DOUBLE
//!     text TYPE BYTES ROOM = REPLY TOLD [DAMAGED BYTES]
//!     carried FIELD RECORD = REPLY TOLD [VALUE]
//!
//! HEADER is ID RESERVED0 BLOCK_LEN LINKS_NR, the id's first byte the lowest. CHANNEL is DATA_TYPE CHANNEL_TYPE
//! BIT_OFFSET BYTE_OFFSET BIT_COUNT FLAGS POS_INVALIDATION_BIT DATA. BLOCK is the numbers of mf4_channel_block in their
//! order: HEADER, the seven links, MORE_LINKS_AT MORE_LINKS, CHANNEL, SYNC_TYPE PRECISION RESERVED1 ATTACHMENT_NR, and
//! the six limits. FIELD is RECORD ID_SIZE DATA_BYTES CHANNEL, where RECORD is bytes; `value` and `double` do not use
//! DATA_BYTES. VALUE is three numbers, the kind as in mf4.h and then the value and 0, or place and length, or 0 and 0.
//! TYPE is the type code of the text's encoding. REPLY is 0 or the number of the refusal; what stands in brackets is
//! there only where it is 0. VALID and DAMAGED are 0 or 1. `carried` is `value`, and then the library writes the value into
//! the same field of another RECORD of that length, where the crate must read it; the crate's own writer makes whole files,
//! and is not asked.
//!
//! The answers in a sample are the crate's, so inputs outside the domain are left out, codes of unknown types among
//! them, and so are channel blocks, whose measure is the standard alone. Values that are carried are left out too, since
//! the library writes them. Where the crate has no such notion, the answers are put into the library's terms: its errors
//! as numbers, 6 where ROOM is too small for the bytes that it gives, places instead of copies, the one NaN for every NaN
//! but those of 64-bit fields, and for an unknown type in a channel block 0, the code that the crate itself gives for it.
//! Where it has no value, the whole answer of `value` and `both` is the word `-`, which stands for any refusal of 18 to 22.

mod answers;
mod c;
mod cases;
mod check;
mod dice;
mod examples;
mod generate;
mod library;
mod original;
mod outside;
mod tally;

use std::fs::File;
use std::io::{self, BufWriter, Write};
use std::process::ExitCode;

use answers::Answer;
use cases::Case;
use check::{ask_library, judge, Verdict};
use generate::Generator;
use tally::Tally;

const DEFAULT_COUNT: u64 = 10_000_000;
const DEFAULT_SEED: u64 = 1;

fn main() -> ExitCode {
    let arguments: Vec<String> = std::env::args().skip(1).collect();
    let arguments: Vec<&str> = arguments.iter().map(String::as_str).collect();
    original::hush_stops();
    match arguments[..] {
        [] => compare(DEFAULT_COUNT, DEFAULT_SEED),
        ["--replay", line] => replay(line),
        ["--sample", count, file] => number(count).map_or_else(usage, |count| sample(count, file)),
        [count] => number(count).map_or_else(usage, |count| compare(count, DEFAULT_SEED)),
        ["--seed", seed] => number(seed).map_or_else(usage, |seed| compare(DEFAULT_COUNT, seed)),
        [count, "--seed", seed] => match (number(count), number(seed)) {
            (Some(count), Some(seed)) => compare(count, seed),
            _ => usage(),
        },
        _ => usage(),
    }
}

fn number(word: &str) -> Option<u64> {
    word.parse().ok()
}

fn usage() -> ExitCode {
    eprintln!("usage: compare [COUNT] [--seed SEED] | --replay LINE | --sample COUNT FILE");
    ExitCode::from(2)
}

/// Enough to see what is wrong without drowning in it.
const MOST_SHOWN: u64 = 20;

fn compare(count: u64, seed: u64) -> ExitCode {
    println!("comparing {count} inputs with mf4-rs 3.8.0, seed {seed}");
    check_lines(seed);
    let wrong_examples = examples::failures();
    wrong_examples.iter().for_each(|why| println!("EXAMPLE: {why}"));
    let mut tally = Tally::default();
    for case in Generator::new(seed).cases().take(count as usize) {
        let ours = ask_library(&case);
        let verdict = judge(&case, &ours);
        if let Verdict::Unlisted(why) = &verdict {
            if tally.unlisted() < MOST_SHOWN {
                println!("DIFFERENT: {why}\n  --replay '{}'", case.line());
            }
        }
        tally.count(case.kind(), &ours, &verdict);
    }
    print!("{tally}");
    println!("{} worked examples with another answer", wrong_examples.len());
    exit_code(tally.unlisted() == 0 && wrong_examples.is_empty())
}

/// A failing input is of use only if its line reads back as the input.
fn check_lines(seed: u64) {
    for case in Generator::new(seed).cases().take(2000) {
        assert_eq!(Case::parse(&case.line()).as_ref(), Some(&case));
    }
}

fn replay(line: &str) -> ExitCode {
    let Some(case) = Case::parse(line) else {
        eprintln!("no input: {line}");
        return ExitCode::from(2);
    };
    println!("the crate:   {}", crate_line(&case));
    let ours = ask_library(&case);
    println!("the library: {}", ours.as_ref().map_or_else(String::clone, Answer::line));
    match judge(&case, &ours) {
        Verdict::Equal => println!("equal"),
        Verdict::Listed { difference, crate_too: true } => println!("{}: both give what is due", difference.name()),
        Verdict::Listed { difference, .. } => println!("listed difference: {}", difference.name()),
        Verdict::Unlisted(why) => {
            println!("DIFFERENT: {why}");
            return exit_code(false);
        }
    }
    exit_code(true)
}

fn crate_line(case: &Case) -> String {
    match original::answer(case) {
        Ok(said) => said.line(),
        Err(stopped) => format!("stops: {}", stopped.0),
    }
}

fn sample(count: u64, file: &str) -> ExitCode {
    match write_sample(count, file) {
        Ok(()) => exit_code(true),
        Err(error) => {
            eprintln!("{file}: {error}");
            ExitCode::from(2)
        }
    }
}

/// Lines beyond this are left out: a stored file should be short, and the run itself has the long ones.
const LONGEST_LINE: usize = 400;

fn write_sample(count: u64, file: &str) -> io::Result<()> {
    let mut file = BufWriter::new(File::create(file)?);
    writeln!(file, "# {count} answers of mf4-rs 3.8.0; compare/src/main.rs describes the lines.")?;
    let measured = Generator::new(DEFAULT_SEED).cases().filter(Case::is_of_sample);
    let inside = measured.filter(|case| outside::due(case).is_none());
    let lines = inside.map(|case| sample_line(&case));
    let is_short = |line: &io::Result<String>| line.as_ref().map_or(true, |line| line.len() <= LONGEST_LINE);
    for line in lines.filter(is_short).take(count as usize) {
        writeln!(file, "{}", line?)?;
    }
    file.flush()
}

fn sample_line(case: &Case) -> io::Result<String> {
    let said = original::answer(case).map_err(|stopped| io::Error::other(stopped.0))?;
    Ok(format!("{} {}", case.line(), said.line()))
}

fn exit_code(good: bool) -> ExitCode {
    if good {
        ExitCode::SUCCESS
    } else {
        ExitCode::FAILURE
    }
}
