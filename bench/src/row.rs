//! A row of the table: its sides, and how much of it is measured.

use std::ops::Range;

/// Some of a row's items by one side; the sum of the answers.
pub type Pass = Box<dyn Fn(Range<usize>) -> u64>;

pub struct Row {
    pub ours: Pass,
    /// Where the crate has such a call.
    pub border: Option<Pass>,
    pub inlined: Option<Pass>,
    /// Where a plain store does the same, or, of a table, a walk along the chain.
    pub plain: Option<Pass>,
    pub copy: Pass,
}

/// A row that is not made yet: only one at a time takes memory.
pub struct Plan {
    pub name: String,
    /// Items in a timed pass.
    pub items: usize,
    /// Items in a counted pass.
    pub counted: usize,
    /// Makes the row with input for so many items.
    pub make: Box<dyn Fn(usize) -> Row>,
}

impl Plan {
    pub fn new(name: &str, items: usize, counted: usize, make: impl Fn(usize) -> Row + 'static) -> Plan {
        Plan { name: name.to_string(), items, counted, make: Box::new(make) }
    }
}

impl Row {
    /// The sides whose answers must be the same, with their names.
    pub fn sides(&self) -> Vec<(&'static str, &Pass)> {
        let others = [("border", &self.border), ("inlined", &self.inlined), ("plain", &self.plain)];
        let others = others.into_iter().filter_map(|(name, pass)| pass.as_ref().map(|pass| (name, pass)));
        [("ours", &self.ours)].into_iter().chain(others).collect()
    }

    pub fn check(&self, items: usize) -> Result<(), String> {
        let sums: Vec<(&str, u64)> = self.sides().into_iter().map(|(name, pass)| (name, pass(0..items))).collect();
        if sums.iter().any(|(_, sum)| *sum != sums[0].1) {
            return Err(format!("the sides differ: {sums:x?}"));
        }
        Ok(())
    }
}
