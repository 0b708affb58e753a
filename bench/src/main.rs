//! Measures the library's calls beside two implementations with heap memory, a plain one and a tuned one, in one run, and prints tables.
//! Writes `plot.svg` next to this program's Cargo.toml.

mod baseline;
mod calls;
mod cases;
mod goals;
mod measure;
mod plot;
mod report;
mod stack;
#[cfg(test)]
mod tests;
mod workloads;

use calls::{Desk, Files};
use report::Block;
use std::cell::RefCell;
use std::time::Duration;

/// All cases are measured in each round, for so long in each.
const ROUNDS: usize = 12;
const BUDGET: Duration = Duration::from_millis(30);

/// The stack that each call takes at most, on the workloads at full size.
fn stack_table() -> String {
    let mut desk = Desk::new();
    let files: Vec<Files> =
        workloads::all(1).iter().flat_map(|workload| cases::files_of(workload, &mut desk)).collect();
    report::stack(&stack::most(&files))
}

/// The times of all calls whose names begin so, as blocks of the documents.
fn measured(rounds: usize, beginning: &str) -> Vec<Block> {
    let desk = RefCell::new(Desk::new());
    let mut cases = cases::all(beginning, &desk);
    let load = report::load();
    cases.iter_mut().for_each(|case| case.warm_up(BUDGET / 4));
    for _ in 0..rounds {
        cases.iter_mut().for_each(|case| case.measure(BUDGET));
    }
    if beginning.is_empty() {
        let path = concat!(env!("CARGO_MANIFEST_DIR"), "/plot.svg");
        std::fs::write(path, plot::draw(&cases)).expect("plot.svg can be written");
    }
    vec![
        ("run", report::run(&cases, rounds, &load)),
        ("workloads", report::workloads(&workloads::all(1))),
        ("goals", goals::table(&cases)),
        ("full size", report::full_size(&cases)),
        ("others", report::others(&cases)),
        ("times", report::times(&cases)),
    ]
}

/// `bench [ROUNDS [CALL]]` measures and prints, `bench write [ROUNDS]` also puts what was measured into the documents, and
/// `bench stack` prints the stack of each call.
fn main() {
    let mut arguments = std::env::args().skip(1).peekable();
    if arguments.next_if_eq("stack").is_some() {
        return print!("{}", stack_table());
    }
    let is_put = arguments.next_if_eq("write").is_some();
    let rounds = arguments.next().map_or(ROUNDS, |rounds| rounds.parse().expect("a number of rounds"));
    let beginning = if is_put { String::new() } else { arguments.next().unwrap_or_default() };
    let mut blocks = measured(rounds, &beginning);
    if is_put {
        blocks.push(("stack", stack_table()));
        report::put(&blocks);
    }
    blocks.iter().for_each(|(name, block)| println!("<!-- {name} -->\n\n{block}"));
}
