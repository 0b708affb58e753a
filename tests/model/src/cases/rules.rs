//! The rules of the files and the order of refusals: calls that are written out, each with what it has to answer.

use super::*;
use crate::cheapest::Cheapest;
use crate::entering::{Slip, State};
use crate::files::*;
use crate::quoting::Quote;
use crate::several::Several;
use std::collections::BTreeMap;

const RULES: &str = include_str!("rules.txt");

/// The files that have a name.
type Names<'a> = BTreeMap<&'a str, Vec<u8>>;

/// A line that isn't a name's.
enum Line<'a> {
    Text(&'a str),
    Call { call: &'static Call, arguments: Vec<&'a str>, answer: &'a str },
}

fn line(line: &str) -> Line<'_> {
    if let Some(text) = line.strip_prefix("-- ") {
        return Line::Text(text);
    }
    let (asked, answer) = line.split_once(": ").unwrap();
    let (name, arguments) = asked.split_once(' ').unwrap();
    let call = ROWS.iter().find(|row| row.name == name).unwrap();
    Line::Call { call, arguments: arguments.split(" | ").collect(), answer }
}

fn lines() -> (Names<'static>, Vec<Line<'static>>) {
    let (mut names, mut rest) = (Names::new(), Vec::new());
    for text in RULES.lines().filter(|text| !text.is_empty() && !text.starts_with('#')) {
        match text.split_once(" = ") {
            Some((name, file)) => {
                names.insert(name, bytes(&Names::new(), file));
            }
            None => rest.push(line(text)),
        }
    }
    (names, rest)
}

// What stands in a line.

/// Words, of which `none` is no word and X*N stands for N times X.
fn words(text: &str) -> Vec<&str> {
    let times = |word| match str::split_once(word, '*') {
        Some((word, times)) => vec![word; times.parse().unwrap()],
        None => vec![word],
    };
    text.split_whitespace().filter(|word| *word != "none").flat_map(times).collect()
}

fn numbers<T: std::str::FromStr<Err: std::fmt::Debug>>(text: &str) -> Vec<T> {
    words(text).into_iter().map(|word| word.parse().unwrap()).collect()
}

/// Bytes, some of them by the name of a file.
fn bytes(names: &Names, text: &str) -> Vec<u8> {
    let named = |word| match names.get(word) {
        Some(file) => file.clone(),
        None => vec![u8::from_str_radix(word, 16).unwrap()],
    };
    words(text).into_iter().flat_map(named).collect()
}

/// The links a.b that match each link of a question.
fn mapping(text: &str) -> Vec<Vec<(usize, usize)>> {
    let link = |word: &str| {
        let (a, b) = word.split_once('.').unwrap();
        (a.parse().unwrap(), b.parse().unwrap())
    };
    text.split(", ").map(|matches| words(matches).into_iter().map(link).collect()).collect()
}

/// What stands between two pieces of a text, or after one.
fn between<'a>(text: &'a str, before: &str, after: &str) -> &'a str {
    let (_, rest) = text.split_once(before).unwrap();
    rest.split_once(after).unwrap_or((rest, "")).0
}

/// Days of terms, each as from-to, as they are lent: four bytes for each entry.
pub fn terms(text: &str) -> Vec<u8> {
    let days = |word: &str| {
        let (from, to) = word.split_once('-').unwrap();
        [from, to].map(|day| day.parse::<u16>().unwrap())
    };
    words(text).into_iter().flat_map(days).flat_map(u16::to_be_bytes).collect()
}

// A call.

/// A file of zeros stands in the memory already.
fn lay(script: &mut Script, part: usize, file: &[u8]) {
    if file.len() > 32 && file.iter().all(|&byte| byte == 0) {
        script.place(part, ZEROS, ZEROS + file.len());
    } else {
        script.bytes(part, file);
    }
}

/// Registers become the numbers of a text.
fn set_all(script: &mut Script, registers: &[usize], text: &str) {
    let numbers: Vec<usize> = numbers(text);
    assert_eq!(numbers.len(), registers.len());
    for (&register, number) in registers.iter().zip(numbers) {
        script.set(register, number);
    }
}

/// The arguments are laid, and the words to work in are just enough or as many as follow them.
fn lay_arguments(script: &mut Script, names: &Names, call: &Call, arguments: &[&str]) {
    let mut rest = arguments.iter().peekable();
    for takes in call.takes {
        if matches!(takes, Takes::OneWay) {
            let named = rest.next_if(|text| text.starts_with("one_way "));
            script.set(ONE_WAY, named.map_or(0, |text| text["one_way ".len()..].parse().unwrap()));
            continue;
        }
        let text = rest.next().unwrap();
        match takes {
            Takes::Content => script.content(&numbers(text)),
            Takes::Index => {
                let entries: Vec<u16> = numbers(text);
                script.bytes(BOOK_PART, &entries.into_iter().flat_map(u16::to_be_bytes).collect::<Vec<u8>>());
            }
            Takes::Terms => script.bytes(TERMS_PART, &terms(text)),
            Takes::Day => script.set(DAY, text.parse().unwrap()),
            Takes::Set => script.set(SET, text.parse().unwrap()),
            Takes::Number => script.set(QUESTIONS, text.parse().unwrap()),
            Takes::State => set_all(script, &[STATE_LINKS, STATE_CHANGE], text),
            Takes::Link => set_all(script, &[LINK_FROM, LINK_TO, LINK_OF], text),
            Takes::Slip => set_all(script, &[LINK_FROM, LINK_TO, LINK_OF, SLIP_CHANGE], text),
            Takes::Room => script.set(ROOM, text.parse().unwrap()),
            Takes::Second => script.set(SECOND, text.parse().unwrap()),
            part => lay(script, part.part().unwrap(), &bytes(names, text)),
        }
    }
    script.set(WORK, rest.next().map_or(WORK_WORDS, |text| text.strip_prefix("work ").unwrap().parse().unwrap()));
    assert!(rest.next().is_none());
}

/// What a line says that its call has to answer.
fn expected(names: &Names, form: Form, answer: &str, before: State) -> Outcome {
    let (first, rest) = answer.split_once(' ').unwrap();
    let refusal = (first == "refused").then(|| {
        let numbers: Vec<usize> = numbers(rest);
        Refusal { number: numbers[0] as u32, detail: numbers[1] }
    });
    /// The refusal, or else what the rest of the line says.
    fn or<T>(refusal: Option<Refusal>, says: impl FnOnce() -> T) -> Result<T, Refusal> {
        refusal.map_or_else(|| Ok(says()), Err)
    }
    match form {
        Form::Words => Outcome::words(or(refusal, || numbers(rest))),
        Form::Bytes => Outcome::bytes(or(refusal, || bytes(names, rest))),
        Form::Sheet => Outcome::sheet(or(refusal, || bytes(names, rest))),
        Form::Entries if first == "own" => Outcome::checked(Ok(rest.parse().unwrap())),
        Form::Entries => Outcome::entries(or(refusal, || numbers(rest))),
        Form::Both => Outcome::both(or(refusal, || {
            let (first, second) = rest.split_once(" and ").unwrap();
            (bytes(names, first), bytes(names, second))
        })),
        Form::Several => Outcome::several(or(refusal, || {
            let (answers, sheets) = rest.split_once(" of ").unwrap();
            Several { answers: bytes(names, answers), sheets: sheets.strip_suffix(" sheets").unwrap().parse().unwrap() }
        })),
        Form::Quote => Outcome::quoted(or(refusal, || Quote {
            covered: first == "covered,",
            mapping: mapping(between(rest, "by ", "\n")),
            chosen: if first == "covered," { numbers(between(rest, "chosen ", ", ")) } else { Vec::new() },
            lowest_unmatched: (first == "uncovered,").then(|| between(rest, "lowest ", ", ").parse().unwrap()),
        })),
        Form::Price => Outcome::priced(or(refusal, || Cheapest {
            set: numbers(between(rest, "of ", ", ")),
            sum: rest.split_once(' ').unwrap().0.parse().unwrap(),
            chosen: numbers(between(rest, "chosen ", "\n")),
        })),
        Form::Asked => Outcome::asked(or(refusal, || {
            let (changes, slip) = rest.split_once(", slip ").unwrap();
            let slip: Vec<u32> = numbers(slip);
            (numbers(changes), Slip { link: (slip[0], slip[1], slip[2]), change: slip[3] })
        })),
        Form::Entered if refusal.is_some() => Outcome::entered(Err(refusal.unwrap()), before, before),
        Form::Entered => {
            let (record, rest) = rest.split_once(" and ").unwrap();
            let (index, state) = rest.split_once(", state ").unwrap();
            let state: Vec<u32> = numbers(state);
            let after = State { links: state[0], change: state[1] };
            Outcome::entered(Ok((bytes(names, record), numbers(index))), before, after)
        }
        Form::Day => Outcome::dated(or(refusal, || rest.parse().ok())),
        Form::Steps => unreachable!(),
    }
}

/// Every call answers what its line says.
pub fn write(script: &mut Script) {
    let (names, lines) = lines();
    for line in lines {
        match line {
            Line::Text(text) => script.name(&format!("{text}\n")),
            Line::Call { call, arguments, answer } => {
                lay_arguments(script, &names, call, &arguments);
                script.once(call.number);
                let last = script.last();
                let before =
                    State { links: script.register(STATE_LINKS) as u32, change: script.register(STATE_CHANGE) as u32 };
                assert_eq!(*last, expected(&names, last.form, answer, before), "{} {arguments:?}", call.name);
                script.named_outcome();
            }
        }
    }
    lend_most(script);
    script.set(ONE_WAY, 0);
    script.name("the rules\n");
    script.group();
}

#[cfg(test)]
mod tests {
    use super::*;

    #[test]
    fn every_call_answers_what_its_line_says() {
        write(&mut Script::new());
        let calls = lines().1.iter().filter(|line| matches!(line, Line::Call { .. })).count();
        assert_eq!(calls, 724);
    }
}
