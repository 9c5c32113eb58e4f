//! Counts for each kind of input, and for each cause for which a field has no value.

use std::collections::BTreeMap;
use std::fmt;

use crate::answers::{Answer, FIELD_REFUSALS};
use crate::cases::KINDS;
use crate::check::Verdict;
use crate::library::Owed;
use crate::outside::Difference;

#[derive(Default)]
pub struct Tally {
    kinds: BTreeMap<&'static str, Counts>,
    refusals: BTreeMap<u32, Refused>,
}

#[derive(Default)]
struct Counts {
    compared: u64,
    equal: u64,
    unlisted: u64,
    listed: BTreeMap<Difference, Listed>,
}

/// Outside the domain the crate may still give what is due, for instance where a record is too short anyway.
#[derive(Default)]
struct Listed {
    different: u64,
    crate_too: u64,
}

/// Fields that are rightly refused, inside the domain and outside it.
#[derive(Default, Clone, Copy)]
struct Refused {
    inside: u64,
    outside: u64,
}

impl Tally {
    pub fn count(&mut self, kind: &'static str, ours: &Owed<Answer>, verdict: &Verdict) {
        self.kinds.entry(kind).or_default().count(verdict);
        if let Some(number) = ours.as_ref().ok().and_then(Answer::field_refusal) {
            self.refusals.entry(number).or_default().count(verdict);
        }
    }

    pub fn unlisted(&self) -> u64 {
        self.kinds.values().map(|counts| counts.unlisted).sum()
    }

    fn compared(&self) -> u64 {
        self.kinds.values().map(|counts| counts.compared).sum()
    }
}

impl Counts {
    fn count(&mut self, verdict: &Verdict) {
        self.compared += 1;
        match verdict {
            Verdict::Equal => self.equal += 1,
            Verdict::Unlisted(_) => self.unlisted += 1,
            Verdict::Listed { difference, crate_too } => {
                let listed = self.listed.entry(*difference).or_default();
                if *crate_too {
                    listed.crate_too += 1;
                } else {
                    listed.different += 1;
                }
            }
        }
    }
}

impl Refused {
    fn count(&mut self, verdict: &Verdict) {
        match verdict {
            Verdict::Equal => self.inside += 1,
            Verdict::Listed { .. } => self.outside += 1,
            Verdict::Unlisted(_) => {}
        }
    }
}

impl fmt::Display for Tally {
    fn fmt(&self, f: &mut fmt::Formatter<'_>) -> fmt::Result {
        writeln!(f, "{:<20} {:>10} {:>10} {:>10}", "kind", "compared", "equal", "unlisted")?;
        for kind in KINDS {
            let Some(counts) = self.kinds.get(kind) else { continue };
            writeln!(f, "{kind:<20} {:>10} {:>10} {:>10}", counts.compared, counts.equal, counts.unlisted)?;
            for (difference, listed) in &counts.listed {
                let Listed { different, crate_too } = listed;
                writeln!(f, "  listed: {}: {different} different, {crate_too} equal", difference.name())?;
            }
        }
        for number in FIELD_REFUSALS {
            let Refused { inside, outside } = self.refusals.get(&number).copied().unwrap_or_default();
            writeln!(f, "fields refused with {number}: {inside} inside the domain, {outside} outside")?;
        }
        writeln!(f, "{} inputs compared, {} unlisted differences", self.compared(), self.unlisted())
    }
}
