//! The stack that the calls need: each is made on a stack of its own that was filled with a mark, and the lowest byte that
//! changed tells how deep it went. What the caller's own frame takes is counted too: some hundred bytes, for a quote the
//! struct that it gives.

use crate::baseline::Writer;
use crate::calls::Files;
use std::arch::asm;
use std::hint::black_box;
use yuthaqim::*;

const SIZE: usize = 1 << 20;
const MARK: u8 = 0xa5;

type Job<'a> = Box<dyn FnMut() + 'a>;

extern "C" fn make(job: &mut Job) {
    job();
}

/// How many bytes of stack a call took.
fn depth(mut job: Job) -> usize {
    let mut stack = vec![MARK; SIZE];
    let bottom = stack.as_mut_ptr() as usize;
    let top = (bottom + SIZE) & !15;
    // The call runs with the stack pointer at the top of the marked memory; r12 keeps the old one.
    unsafe {
        asm!(
            "mov r12, rsp",
            "mov rsp, {top}",
            "call {make}",
            "mov rsp, r12",
            top = in(reg) top,
            make = sym make,
            in("rdi") &mut job,
            out("r12") _,
            clobber_abi("C"),
        );
    }
    let untouched = stack.iter().position(|&byte| byte != MARK).unwrap_or(SIZE);
    top - bottom - untouched
}

/// A record by its content as it was stored before links had kinds: those between the same items are one.
fn old_record(content: &[u32]) -> Vec<u8> {
    let (kinds, links) = content[2..].split_at(content[0] as usize);
    let mut links: Vec<&[u32]> = links.chunks(3).collect();
    links.dedup_by_key(|link| (link[0], link[1]));
    let mut writer = Writer::default();
    writer.field(13, content[0]);
    writer.field(14, links.len() as u32);
    kinds.iter().for_each(|&kinds| writer.field(32, kinds));
    links.iter().flat_map(|link| &link[..2]).for_each(|&end| writer.field(12, end));
    writer.padding();
    writer.bytes()
}

/// The stack that each call takes of the files of a workload.
fn depths(files: &Files) -> Vec<(&'static str, usize)> {
    let Files { record, index, question, questions, paper, catalogue, book, .. } = files;
    let number = questions.len() as u32;
    let mut work = vec![0; WORK_WORDS];
    let mut sheet = vec![0; SHEET_BYTES];
    let length = search(question, record, &mut sheet, &mut work).expect("a sheet");
    sheet.truncate(length);
    let mut content = |read: &dyn Fn(&mut [u32], &mut [u32]) -> Result<usize, Refusal>| {
        let mut words = vec![0; BOOK_WORDS];
        let length = read(&mut words, &mut work).expect("content");
        words.truncate(length);
        words
    };
    let pattern_words = content(&|out, work| read_pattern(question, out, work));
    let catalogue_words = content(&|out, work| read_catalogue(catalogue, out, work));
    let record_words = content(&|out, work| read_record(record, out, work));
    let sheet_words = content(&|out, work| read_sheet(question, &sheet, out, work));
    let book_words = content(&|out, work| read_book(catalogue, book, out, work));
    let charges = vec![1; catalogue_words[0] as usize];
    let terms = vec![Term { from: 10, to: 20 }; charges.len()];
    let old = old_record(&record_words);
    let mut words = vec![0; BOOK_WORDS];
    let mut bytes = vec![0; BOOK_BYTES];
    let mut more = vec![0; BOOK_BYTES];
    let mut many = vec![0; QUESTIONS_MOST as usize * BOOK_BYTES];
    let mut entries = vec![0; INDEX_ENTRIES];
    let mut found = Vec::new();
    macro_rules! measure {
        ($($name:literal: $call:expr;)*) => {
            $(
                found.push(($name, depth(Box::new(|| {
                    let _ = black_box($call);
                }))));
            )*
        };
    }
    measure! {
        "read a pattern": read_pattern(question, &mut words, &mut work);
        "read a catalogue": read_catalogue(catalogue, &mut words, &mut work);
        "read a record": read_record(record, &mut words, &mut work);
        "read a sheet": read_sheet(question, &sheet, &mut words, &mut work);
        "read a book": read_book(catalogue, book, &mut words, &mut work);
        "write a pattern": write_pattern(&pattern_words, &mut bytes, &mut work);
        "write a catalogue": write_catalogue(&catalogue_words, &mut bytes, &mut work);
        "write a record": write_record(&record_words, &mut bytes, &mut work);
        "write a sheet": write_sheet(question, &sheet_words, &mut bytes, &mut work);
        "write a book": write_book(catalogue, &book_words, &mut bytes, &mut work);
        "sort a record": sort_record(&old, &mut bytes, &mut work);
        "search": search(question, record, &mut bytes, &mut work);
        "make an index": make_index(record, &mut entries, &mut work);
        "check an index": check_index(record, index, &mut work);
        "search by index": search_indexed(question, record, index, &mut bytes, &mut work);
        "make a book": make_book(catalogue, 0, record, &mut bytes, &mut work);
        "quote": raw::quote(question, catalogue, 0, &mut work);
        "cheapest set": raw::cheapest(question, catalogue, 0, &charges, &mut work);
        "quote for a day": raw::quote_on(question, catalogue, 0, &terms, 10, &mut work);
        "cheapest set for a day": raw::cheapest_on(question, catalogue, 0, &terms, 10, &charges, &mut work);
        "first day": raw::first_day(question, catalogue, 0, &terms, 0, &mut work);
        "answer": answer(question, catalogue, 0, book, &mut bytes, &mut work);
        "answer from a set": answer_from(question, catalogue, 0, u16::MAX, book, &mut bytes, &mut work);
        "answer several": answer_several(paper, number, catalogue, 0, book, &mut many, &mut work);
        "part": part(question, catalogue, 0, book, &mut more, &mut bytes, &mut work);
        "part for a day": part_on(question, catalogue, 0, &terms, 10, book, &mut more, &mut bytes, &mut work);
        "show for a day": show_on(question, catalogue, 0, &terms, 20, &mut bytes, &mut more, &mut work);
        "show": show_uncovered(question, catalogue, 0, &mut bytes, &mut more, &mut work);
        "show": show_uncovered(question, NO_VIEWS, 0, &mut bytes, &mut more, &mut work);
        "ask": ask(catalogue, 0, &files.before, files.state(), files.link(), &mut work);
        "commit": commit(&files.before, &mut files.state(), files.slip(), &mut bytes, &mut entries, &mut work);
    }
    found
}

/// A catalogue without extracts, which leaves every question uncovered.
const NO_VIEWS: &[u8] = &[0];

/// The most that each call takes of the files of all workloads.
pub fn most(files: &[Files]) -> Vec<(&'static str, usize)> {
    let mut most: Vec<(&str, usize)> = Vec::new();
    for (name, depth) in files.iter().flat_map(depths) {
        match most.iter_mut().find(|(other, _)| *other == name) {
            Some((_, most)) => *most = depth.max(*most),
            None => most.push((name, depth)),
        }
    }
    most
}
