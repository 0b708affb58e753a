//! The cases, by sections: the rules, each with its answer; files and contents written out, limits, damaged files, the worked
//! cases, links with kinds, searches beside the plain one, questions and their answers, the steps of joins, links that enter, and the
//! refusals of every call.

mod entering;
mod kinds;
mod questions;
mod refusals;
mod rules;
mod searches;
mod steps;
mod table;
mod worked;

use crate::replay::*;

/// The file of cases, and what the program has to print.
pub fn written() -> (Vec<u8>, String) {
    let mut script = Script::new();
    lend_most(&mut script);
    rules::write(&mut script);
    table::write(&mut script);
    worked::write(&mut script);
    kinds::write(&mut script);
    searches::write(&mut script);
    questions::write(&mut script);
    steps::write(&mut script);
    entering::write(&mut script);
    refusals::write(&mut script);
    script.name("all calls\n");
    script.all();
    assert!(script.file.len() < 500_000, "{} bytes", script.file.len());
    (script.file, script.printed)
}

/// More than a call asks for.
fn lend_most(script: &mut Script) {
    script.set(ROOM, ROOM_MOST);
    script.set(SECOND, ROOM_MOST);
    script.set(WORK, WORK_MOST);
}

/// The question and the catalogue of the requirements, and parts of the catalogue.
const D: [u8; 10] = [0x20, 0x80, 0x08, 0x86, 0x02, 0x00, 0x80, 0x98, 0x23, 0x00];
const C: [u8; 17] =
    [0x18, 0x10, 0x20, 0x08, 0x08, 0x18, 0x40, 0x08, 0xc0, 0x40, 0x90, 0x18, 0x40, 0x10, 0xc0, 0x40, 0x90];
const ONE: [u8; 4] = [0x10, 0x20, 0x08, 0x08];
/// A catalogue that has extract 1 of C alone.
const SLOW: [u8; 7] = [0x08, 0x18, 0x40, 0x08, 0xc0, 0x40, 0x90];

/// The writer's output becomes a part of its own.
fn keep_as(script: &mut Script, part: usize) {
    script.empty(part);
    script.keep(part);
}
