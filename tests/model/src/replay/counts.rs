//! What is counted of the calls of a group.

use super::outcome::{Outcome, DIGEST_START};
use std::collections::BTreeMap;
use std::fmt::Write;

/// What is counted of a call. Refusals are counted by number and detail, 11 to 14 by their number alone.
#[derive(Clone)]
pub struct Counts {
    pub calls: u64,
    accepted: u64,
    listing: u64,
    covered: u64,
    refused: BTreeMap<(u64, Option<u64>), u64>,
    digest: u64,
}

impl Counts {
    pub fn new() -> Counts {
        Counts { calls: 0, accepted: 0, listing: 0, covered: 0, refused: BTreeMap::new(), digest: DIGEST_START }
    }

    pub fn add(&mut self, outcome: &Outcome) {
        self.calls += 1;
        self.accepted += u64::from(outcome.number == 0);
        self.listing += u64::from(outcome.is_listing());
        self.covered += u64::from(outcome.is_covered());
        if outcome.number != 0 {
            let detail = (outcome.number < 11).then_some(outcome.value);
            *self.refused.entry((outcome.number, detail)).or_default() += 1;
        }
        self.digest = outcome.over(self.digest);
    }

    /// The program counts faults too, of which there are to be none.
    pub fn line(&self, name: &str, with_digest: bool) -> String {
        let mut line = format!("  {name}: {} calls, {} accepted", self.calls, self.accepted);
        for (number, what) in [(self.listing, "list pairs"), (self.covered, "covered")] {
            if number != 0 {
                write!(line, " ({number} {what})").unwrap();
            }
        }
        for (&(number, detail), times) in &self.refused {
            write!(line, ", {times} refused {number}").unwrap();
            if let Some(detail) = detail {
                write!(line, " {detail}").unwrap();
            }
        }
        line += "; 0 faults";
        if with_digest {
            write!(line, ", digest {:016x}", self.digest).unwrap();
        }
        line + "\n"
    }
}
