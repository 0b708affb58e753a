//! The cases: each call on each workload, at each size, once all sides have given the same.

use crate::baseline;
use crate::calls::{baseline_outcome, tuned_outcome, Call, Desk, Files, Outcome, CALLS, MAIN};
use crate::measure::{Case, Run};
use crate::report;
use crate::workloads::{self, Workload, CAMPAIGNS};
use std::cell::RefCell;
use std::hint::black_box;
use std::process::exit;
use std::rc::Rc;

/// The sizes, as parts of the full one.
const PARTS: [usize; 4] = [1, 2, 4, 8];

/// What is measured beside the calls.
const PAIRS: &str = "different pairs";

/// The files of a workload, for each of its records.
pub fn files_of(workload: &Workload, desk: &mut Desk) -> Vec<Files> {
    let of_record = |record: &Vec<u8>| {
        let (record, question, catalogue) = (record.clone(), workload.question.clone(), workload.catalogue.clone());
        let mut files = Files { record, question, catalogue, ..Files::default() };
        let Outcome::Bytes(book) = desk.outcome(Call::MakeBook, &files) else {
            panic!("the book of {} doesn't fit", workload.name);
        };
        let Outcome::Entries(index) = desk.outcome(Call::MakeIndex, &files) else {
            panic!("there is no index of {}", workload.name);
        };
        (files.book, files.index) = (book, index);
        files.questions = workload.questions(yuthaqim::QUESTIONS_MOST as usize);
        files.paper = files.questions.concat();
        take_link(&mut files, desk);
        files
    };
    workload.records.iter().map(of_record).collect()
}

/// The record without the link in its middle, which is then asked about and entered.
fn take_link(files: &mut Files, desk: &mut Desk) {
    let Outcome::Words(content) = desk.outcome(Call::ReadRecord, files) else {
        panic!("a record of a workload is refused");
    };
    let (items, links) = (content[0] as usize, content[1] as usize);
    let at = 2 + items + 3 * (links / 2);
    files.link = Some(yuthaqim::Link { from: content[at], to: content[at + 1], kind: content[at + 2] });
    let mut fewer = content.clone();
    fewer.drain(at..at + 3);
    fewer[1] -= 1;
    let mut before = vec![0; yuthaqim::RECORD_BYTES];
    let length = yuthaqim::write_record(&fewer, &mut before, &mut vec![0; yuthaqim::WORK_WORDS]).expect("a record");
    before.truncate(length);
    (files.before, files.content) = (before, content);
}

/// Ends the run if the two don't give the same.
fn compare(what: &str, product: &Outcome, other: &Outcome) {
    if product != other {
        eprintln!("{what}: the library and what stands beside it differ");
        exit(1);
    }
    if let Outcome::Refused(number, detail) = product {
        eprintln!("{what}: refused {number} {detail}, which isn't worth measuring");
        exit(1);
    }
}

/// The files of a workload without the extracts that match the question's last link, and a book of the others: the question is
/// uncovered. None where they match no link of it.
fn uncovered(workload: &Workload, files: &Files, desk: &mut Desk) -> Option<Files> {
    let quote = baseline::quote(&files.question, &files.catalogue).expect("a quote");
    let last = quote.links - 1;
    let is_kept = |a: usize| quote.mapping[16 * last + a] == 0;
    if !(0..last).any(|e| (0..16).any(|a| is_kept(a) && quote.mapping[16 * e + a] != 0)) {
        return None;
    }
    let (record, question) = (files.record.clone(), files.question.clone());
    let mut files = Files { record, question, catalogue: workload.some_extracts(is_kept), ..Files::default() };
    let Outcome::Bytes(book) = desk.outcome(Call::MakeBook, &files) else {
        panic!("the book of a part of {} doesn't fit", workload.name);
    };
    files.book = book;
    Some(files)
}

/// Different terms for so many extracts, those further up beginning earlier, and the first day on which all are in force.
fn terms(extracts: usize) -> (Vec<yuthaqim::Term>, u16) {
    let term = |a: usize| yuthaqim::Term { from: 10 * (extracts - a) as u16, to: 65_535 - a as u16 };
    ((0..extracts).map(term).collect(), 10 * extracts as u16)
}

/// What of a workload an outcome has to be beside the baseline's.
fn compare_more(what: &str, call: Call, files: &Files, desk: &mut Desk) {
    if [Call::Answer, Call::AnswerBySort].contains(&call) {
        compare(
            &format!("{what}, beside a search"),
            &desk.outcome(Call::Search, files),
            &baseline_outcome(call, files),
        );
    }
    if call == Call::PartOfCovered {
        let Files { question, catalogue, book, .. } = files;
        let answer = baseline::answer(question, catalogue, book, yuthaqim::BOOK_BYTES).expect("an answer");
        compare(what, &desk.outcome(call, files), &Outcome::Both(question.clone(), answer));
    }
}

/// A call on a workload. A quote reads no record: its size is that of the catalogue.
fn call_case<'a>(
    workload: &Workload,
    files: &Rc<Vec<Files>>,
    call: Call,
    part: usize,
    desk: &'a RefCell<Desk>,
) -> Option<Case<'a>> {
    let mut files = files.clone();
    let mut size = format!("{} items, {} links", report::number(workload.items), report::number(workload.links));
    if [Call::Quote, Call::QuoteOn, Call::FirstDay].contains(&call) {
        let extracts = workload.extracts().div_ceil(part);
        let (catalogue, question) = (workload.first_extracts(extracts), workload.question.clone());
        let (terms, day) = terms(extracts);
        files = Rc::new(vec![Files { catalogue, question, terms, day, ..Files::default() }]);
        size = format!("{extracts} extracts");
    }
    // One-way more is listed, and a book may be too long.
    let is_refused = |files: &Files| matches!(baseline_outcome(call, files), Outcome::Refused(..));
    if call == Call::MakeOneWay && files.iter().any(is_refused) {
        return None;
    }
    if call == Call::Part {
        let parts = files.iter().map(|files| uncovered(workload, files, &mut desk.borrow_mut()));
        files = Rc::new(parts.collect::<Option<Vec<Files>>>()?);
    }
    Some(case_of(call, workload.name, (size, part), files, desk))
}

/// The cheapest set reads no record: its size is that of the catalogue.
fn cheapest_case<'a>(priced: workloads::Priced, part: usize, desk: &'a RefCell<Desk>) -> Case<'a> {
    let size = format!("{} extracts", priced.extracts);
    let files = |(question, catalogue, charges)| Files { question, catalogue, charges, ..Files::default() };
    let files = Rc::new(priced.offers.into_iter().map(files).collect());
    case_of(Call::Cheapest, priced.name, (size, part), files, desk)
}

/// One side on files that take turns.
fn in_turn<'a>(files: &Rc<Vec<Files>>, run: impl Fn(&Files) + 'a) -> Run<'a> {
    let files = files.clone();
    Box::new(move |number| run(&files[number % files.len()]))
}

/// What stands beside a call in its table: the library's own search without an index, its own book, its own answers, its own quote, its
/// own reading and writing of a record, or else the baseline.
fn beside<'a>(call: Call, files: &Rc<Vec<Files>>, desk: &'a RefCell<Desk>) -> Run<'a> {
    let own = |call| in_turn(files, move |files| desk.borrow_mut().run(call, files));
    match call {
        Call::SearchIndexed => own(Call::Search),
        Call::MakeOneWay | Call::AskByBook => own(Call::MakeBook),
        Call::PartOfCovered | Call::OneOfSeveral => own(Call::Answer),
        Call::QuoteOn | Call::FirstDay => own(Call::Quote),
        Call::Several => in_turn(files, |files| desk.borrow_mut().run_answers(files)),
        Call::CommitByParts => in_turn(files, |files| desk.borrow_mut().run_parts(files)),
        _ => in_turn(files, move |files| drop(black_box(baseline_outcome(call, files)))),
    }
}

/// A call on files, once all sides gave the same on each of them.
fn case_of<'a>(
    call: Call,
    workload: &'static str,
    (size, part): (String, usize),
    files: Rc<Vec<Files>>,
    desk: &'a RefCell<Desk>,
) -> Case<'a> {
    let what = format!("{}, {workload}, {size}", call.name());
    let mut has_tuned = false;
    for files in files.iter() {
        let outcome = desk.borrow_mut().outcome(call, files);
        compare(&what, &outcome, &baseline_outcome(call, files));
        if let Some(tuned) = tuned_outcome(call, files) {
            compare(&format!("{what}, tuned"), &outcome, &tuned);
            has_tuned = true;
        }
        compare_more(&what, call, files, &mut desk.borrow_mut());
    }
    let product = in_turn(&files, move |files| desk.borrow_mut().run(call, files));
    let tuned = has_tuned.then(|| in_turn(&files, move |files| drop(black_box(tuned_outcome(call, files)))));
    Case::new((call.name(), workload), (size, part), product, beside(call, &files, desk)).tuned(tuned)
}

/// Finding the different pairs of a book is no call of its own: it is what reading a book takes more than reading a sheet
/// with as many pairs. The baseline is timed at that step alone.
fn pairs_case(book: workloads::Book, part: usize, desk: &RefCell<Desk>) -> Case<'_> {
    let size = format!("{} pairs", report::number(book.pairs));
    let sheets = baseline::parse_book(&baseline::parse_catalogue(&book.catalogue).unwrap(), &book.book).unwrap();
    let workloads::Book { name, catalogue, book, pattern, sheet, .. } = book;
    let product = Box::new(move |_| desk.borrow_mut().judge_book(&catalogue, &book));
    let baseline = Box::new(move |_| drop(black_box(baseline::different_pairs(&sheets))));
    let other = Box::new(move |_| desk.borrow_mut().judge_sheet(&pattern, &sheet));
    Case::new((PAIRS, name), (size, part), product, baseline).less(other)
}

/// All cases whose call has a name that begins so: by call, then by workload, then by size.
pub fn all<'a>(beginning: &str, desk: &'a RefCell<Desk>) -> Vec<Case<'a>> {
    let mut cases = Vec::new();
    for part in PARTS {
        for workload in workloads::all(part) {
            let files = Rc::new(files_of(&workload, &mut desk.borrow_mut()));
            let is_asked = |call: Call| MAIN.contains(&call) || !CAMPAIGNS.contains(&workload.name);
            let calls = CALLS.iter().filter(|call| call.name().starts_with(beginning) && is_asked(**call));
            cases.extend(calls.filter_map(|&call| call_case(&workload, &files, call, part, desk)));
        }
        if Call::Cheapest.name().starts_with(beginning) {
            cases.extend(workloads::priced(part).into_iter().map(|priced| cheapest_case(priced, part, desk)));
        }
        if PAIRS.starts_with(beginning) {
            cases.extend(workloads::books(part).into_iter().map(|book| pairs_case(book, part, desk)));
        }
    }
    let place = |case: &Case| CALLS.iter().position(|call| call.name() == case.call).unwrap_or(CALLS.len());
    let mut workloads: Vec<&str> = Vec::new();
    for case in &cases {
        if !workloads.contains(&case.workload) {
            workloads.push(case.workload);
        }
    }
    cases.sort_by_key(|case| (place(case), workloads.iter().position(|&name| name == case.workload), case.part));
    cases
}
