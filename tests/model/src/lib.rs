//! A plain model of the requirements, made apart from the proved crates: slow, and short enough to be held
//! against the text sentence by sentence. One module for each section; beside them the cases that the program `replay`
//! runs.

pub mod answering;
pub mod cases;
pub mod cheapest;
mod drawing;
pub mod entering;
pub mod files;
pub mod indexing;
pub mod matching;
pub mod part;
pub mod quoting;
mod replay;
mod rule;
pub mod several;
pub mod steps;
pub mod terms;

pub use replay::CALLS;
