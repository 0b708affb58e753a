//! What is asked for, of medians at full size, and whether it is reached.

use crate::calls::Call;
use crate::measure::{Case, Times};
use crate::report::{micros, range, ratio};

/// At most so much: of the baseline, or in microseconds.
#[derive(Clone, Copy)]
enum Bound {
    Ratio(f64),
    Micros(f64),
}

impl Bound {
    fn text(self) -> String {
        match self {
            Bound::Ratio(most) => most.to_string(),
            Bound::Micros(most) => format!("{} ms", most / 1_000.0),
        }
    }

    fn of(self, times: &Times) -> f64 {
        match self {
            Bound::Ratio(_) => times.ratio(),
            Bound::Micros(_) => times.product,
        }
    }

    fn most(self) -> f64 {
        let (Bound::Ratio(most) | Bound::Micros(most)) = self;
        most
    }

    fn measured(self, value: f64) -> String {
        match self {
            Bound::Ratio(_) => ratio(value),
            Bound::Micros(_) => format!("{} ms", micros(value / 1_000.0)),
        }
    }
}

/// The workloads of a goal.
enum Of {
    Only(&'static [&'static str]),
    AllBut(&'static [&'static str]),
}

struct Goal {
    name: &'static str,
    call: Call,
    of: Of,
    most: Bound,
}

const LARGEST: &[&str] = &["campaign of 32 links"];
const CASCADING: &[&str] = &["chain", "cascade", "hub", "arrivals"];
const LINES: &[&str] = &["chain", "hub", "arrivals"];
const LITTLE: &[&str] = &["nothing", "mostly nothing"];
const LINES_OR_LITTLE: &[&str] = &["chain", "hub", "arrivals", "nothing", "mostly nothing"];

const fn goal(name: &'static str, call: Call, of: Of, most: Bound) -> Goal {
    Goal { name, call, of, most }
}

const GOALS: [Goal; 12] = [
    goal("make a book", Call::MakeBook, Of::AllBut(LARGEST), Bound::Ratio(0.5)),
    goal("make a book, campaign of 32 links", Call::MakeBook, Of::Only(LARGEST), Bound::Ratio(0.6)),
    goal("quote, 15 or 16 extracts", Call::Quote, Of::AllBut(&[]), Bound::Ratio(1.0)),
    goal("search where nothing cascades", Call::Search, Of::AllBut(CASCADING), Bound::Ratio(0.7)),
    goal("search, chain", Call::Search, Of::Only(&["chain"]), Bound::Ratio(3.0)),
    goal("search, hub", Call::Search, Of::Only(&["hub"]), Bound::Ratio(3.0)),
    goal("search, cascade", Call::Search, Of::Only(&["cascade"]), Bound::Ratio(1.2)),
    goal("search, arrivals", Call::Search, Of::Only(&["arrivals"]), Bound::Micros(2_000.0)),
    goal("answer, but for the next two", Call::AnswerBySort, Of::AllBut(LINES_OR_LITTLE), Bound::Ratio(1.0)),
    goal("answer, chain, hub and arrivals", Call::AnswerBySort, Of::Only(LINES), Bound::Ratio(2.5)),
    goal("answer, nothing and mostly nothing", Call::AnswerBySort, Of::Only(LITTLE), Bound::Ratio(1.8)),
    goal("cheapest set of sixteen extracts", Call::Cheapest, Of::AllBut(&[]), Bound::Micros(100.0)),
];

impl Goal {
    fn is_of(&self, case: &Case) -> bool {
        let is_meant = match self.of {
            Of::Only(names) => names.contains(&case.workload),
            Of::AllBut(names) => !names.contains(&case.workload),
        };
        is_meant && case.part == 1 && case.call == self.call.name()
    }

    /// Its line, if it was measured.
    fn line(&self, cases: &[Case]) -> Option<String> {
        let measured: Vec<(&str, Times)> =
            cases.iter().filter(|case| self.is_of(case)).map(|case| (case.workload, case.medians())).collect();
        let values = measured.iter().map(|(_, times)| self.most.of(times));
        let text = range(values, |value| self.most.measured(value))?;
        let tuned = measured.iter().filter_map(|(_, times)| times.tuned_ratio());
        let tuned = range(tuned, ratio).unwrap_or_default();
        let missed = measured.iter().filter(|(_, times)| self.most.of(times) > self.most.most());
        let missed: Vec<String> =
            missed.map(|(name, times)| format!("{name} {}", self.most.measured(self.most.of(times)))).collect();
        let word = match &missed[..] {
            [] => "reached".to_string(),
            [_] if measured.len() == 1 => "missed".to_string(),
            _ => format!("missed: {}", missed.join(", ")),
        };
        Some(format!("| {} | {} | {text} | {tuned} | {word} |\n", self.name, self.most.text()))
    }
}

/// The goals that were measured, in Markdown.
pub fn table(cases: &[Case]) -> String {
    let mut table = "| goal | at most | measured | beside the tuned heap | |\n|---|--:|--:|--:|---|\n".to_string();
    table.extend(GOALS.iter().filter_map(|goal| goal.line(cases)));
    table
}
