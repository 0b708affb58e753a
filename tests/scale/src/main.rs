//! Every call of the library beside the model, on inputs drawn from seeds: right and damaged files, lent lengths of all
//! kinds. Answers, outputs and workspaces have to be the same.
//!
//!     scale [--inputs N] [--first SEED]    inputs of N seeds, from the first on
//!     scale --seed SEED                    the input of one seed, with each of its calls printed

mod desk;
mod draw;
mod graphs;
mod inputs;
mod layout;
mod tally;

use inputs::Test;
use std::process::ExitCode;

const USAGE: &str = "usage: scale [--inputs N] [--first SEED] | --seed SEED";

struct Run {
    first: u64,
    inputs: u64,
    shown: bool,
}

fn arguments() -> Option<Run> {
    let mut run = Run { first: 1, inputs: 1_000_000, shown: false };
    let mut words = std::env::args().skip(1);
    while let Some(word) = words.next() {
        let number = words.next()?.parse().ok()?;
        match word.as_str() {
            "--inputs" => run.inputs = number,
            "--first" => run.first = number,
            "--seed" => run = Run { first: number, inputs: 1, shown: true },
            _ => return None,
        }
    }
    Some(run)
}

fn main() -> ExitCode {
    let Some(Run { first, inputs, shown }) = arguments() else {
        eprintln!("{USAGE}");
        return ExitCode::from(2);
    };
    println!("seeds {first} to {}", first + inputs - 1);
    let mut test = Test::new(shown);
    for seed in first..first + inputs {
        if let Err(difference) = test.input(seed) {
            print!("{difference}");
            println!("seed {seed} differs");
            return ExitCode::FAILURE;
        }
    }
    if !shown {
        print!("{}", test.notes.tally);
    }
    println!("{inputs} inputs, 0 differ");
    ExitCode::SUCCESS
}
