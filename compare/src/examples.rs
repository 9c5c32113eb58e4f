//! Answers that come neither from the crate nor from the library: those of IEEE 754, of Unicode, and worked examples.

use crate::cases::Case;
use crate::check::{ask_library, judge, Verdict};

/// Kinds of lines that are not for the crate: it reads no chains, writes no number by itself, and knows no end of the
/// invalidation bytes.
const OTHERS: [&str; 3] = ["record", "write ", "bounded-"];

/// What `replay` holds the library to.
fn lines() -> impl Iterator<Item = &'static str> {
    let stored = include_str!("../../crates/replay/data/vectors.txt").lines();
    let is_other = |line: &str| OTHERS.iter().any(|kind| line.starts_with(kind));
    stored.filter(move |line| !line.is_empty() && !line.starts_with('#') && !is_other(line))
}

/// Where the answer is another one: why.
pub fn failures() -> Vec<String> {
    lines().filter_map(failure).collect()
}

/// A line may tell a cause where the crate tells none, so it is held to the library's answer, and that to the crate.
fn failure(line: &str) -> Option<String> {
    let case = Case::parse(line).unwrap_or_else(|| panic!("no input: {line}"));
    let ours = ask_library(&case);
    if let Verdict::Unlisted(why) = judge(&case, &ours) {
        return Some(format!("{why}\n  --replay '{line}'"));
    }
    let given = format!("{} {}", case.line(), ours.ok()?.line());
    (given != line).then(|| format!("the example says {line}\n  the library gives {given}"))
}
