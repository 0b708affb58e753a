//! Every call on files of which each has one fault, for each refusal one, and on files that are cut at each byte or have
//! each bit turned; and every call that takes a catalogue on one without extracts.

use super::*;
use crate::files::*;
use crate::indexing::INDEX;
use crate::matching::record_of;
use crate::terms::TERMS;

/// The library's calls that read files, and which.
fn calls() -> Vec<(usize, Vec<usize>)> {
    (0..CALLS.len()).map(|call| (call, parts(call))).filter(|(_, parts)| !parts.is_empty()).collect()
}

/// A file for each refusal that falls to it.
type Faulty = &'static [(u32, &'static [u8])];

const PATTERNS: Faulty = &[
    (LONG, &[0; PATTERN_BYTES + 1]),
    (SHORT, &[]),
    (COUNT, &[0x88]),
    (STRAY, &[0x08, 0x20, 0x01, 0x00]),
    (SHORT, &[0x08, 0x20, 0x00]),
    (TWICE, &[0x10, 0x40, 0x08, 0x0b, 0x01, 0x60]),
    (LOOSE, &[0x10, 0x20, 0x00, 0x00]),
    (TAIL, &[0x08, 0x20, 0x00, 0x01]),
];
/// Of two questions: a fault of the first, and those of the second after a good one.
const TWO: Faulty = &[
    (LONG, &[0; 2 * PATTERN_BYTES + 1]),
    (SHORT, &[]),
    (COUNT, &[0x88]),
    (TAIL, &[0x08, 0x20, 0x00, 0x01]),
    (SHORT, &[0x10, 0x20, 0x08, 0x08]),
    (COUNT, &[0x10, 0x20, 0x08, 0x08, 0x88]),
    (STRAY, &[0x10, 0x20, 0x08, 0x08, 0x08, 0x20, 0x01, 0x00]),
    (SHORT, &[0x10, 0x20, 0x08, 0x08, 0x08, 0x20, 0x00]),
    (TWICE, &[0x10, 0x20, 0x08, 0x08, 0x10, 0x40, 0x08, 0x0b, 0x01, 0x60]),
    (LOOSE, &[0x10, 0x20, 0x08, 0x08, 0x10, 0x20, 0x00, 0x00]),
    (TAIL, &[0x10, 0x20, 0x08, 0x08, 0x08, 0x20, 0x00, 0x01]),
    (TAIL, &[0x10, 0x20, 0x08, 0x08, 0x10, 0x20, 0x08, 0x08, 0x10]),
];
const CATALOGUES: Faulty = &[
    (LONG, &[0; CATALOGUE_BYTES + 1]),
    (SHORT, &[0x08]),
    (COUNT, &[0x88]),
    (STRAY, &[0x08, 0x08, 0x20, 0x01, 0x00]),
    (SHORT, &[0x08, 0x08, 0x20, 0x00]),
    (TWICE, &[0x08, 0x10, 0x40, 0x08, 0x0b, 0x01, 0x60]),
    (LOOSE, &[0x08, 0x10, 0x20, 0x00, 0x00]),
    (TAIL, &[0x09]),
];
const RECORDS: Faulty = &[
    (LONG, &[0; RECORD_BYTES + 1]),
    (SHORT, &[]),
    (COUNT, &[0x80, 0x08]),
    (STRAY, &[0x00, 0x00, 0x00, 0x20, 0x00, 0x00, 0x00]),
    (ORDER, &[0x00, 0x08, 0x00, 0x40, 0x00, 0x00, 0x00, 0x00, 0x00, 0x00, 0x04, 0x00, 0x00, 0x00, 0x00]),
    (TAIL, &[0x00, 0x00, 0x00, 0x01]),
];
/// By the old rules.
const OLD_RECORDS: Faulty = &[
    (LONG, &[0; OLD_RECORD_BYTES + 1]),
    (SHORT, &[]),
    (COUNT, &[0x80, 0x08]),
    (STRAY, &[0x00, 0x00, 0x00, 0x20, 0x00, 0x00, 0x00]),
    (TWICE, &[0x00, 0x08, 0x00, 0x40, 0x00, 0x00, 0x00, 0x00, 0x00, 0x00, 0x00, 0x00, 0x00, 0x00]),
    (TAIL, &[0x00, 0x00, 0x00, 0x01]),
];
/// Of D, of C, and of extract 1 of C alone.
const BOOKS: Faulty = &[
    (LONG, &[0; BOOK_BYTES + 1]),
    (SHORT, &[]),
    (COUNT, &[0xc0, 0x02]),
    (ORDER, &[0x80, 0x04, 0x00, 0xa0, 0x00, 0x00, 0x80, 0x12]),
    (UNEVEN, &[0x80, 0x00]),
    (TAIL, &[0x01]),
];
/// Of K9: no entry, one less, one more, the first, a middle and the last one other.
const INDEXES: Faulty = &[
    (INDEX, &[]),
    (INDEX, &[0, 0, 0, 1, 0, 2]),
    (INDEX, &[0, 0, 0, 1, 0, 2, 0, 2, 0, 2]),
    (INDEX, &[1, 0, 0, 1, 0, 2, 0, 2]),
    (INDEX, &[0, 0, 0, 1, 0, 1, 0, 2]),
    (INDEX, &[0, 0, 0, 1, 0, 2, 0, 3]),
];

/// Of three extracts: no entry, one less, one more, each with its days turned, and days that are the same.
const TERM_LISTS: Faulty = &[
    (TERMS, &[]),
    (TERMS, &[0, 10, 0, 20, 0, 10, 0, 15]),
    (TERMS, &[0, 10, 0, 20, 0, 10, 0, 15, 0, 12, 0, 20, 0, 0, 0, 1]),
    (TERMS, &[0, 20, 0, 10, 0, 10, 0, 15, 0, 12, 0, 20]),
    (TERMS, &[0, 10, 0, 20, 1, 0, 0, 255, 0, 12, 0, 20]),
    (TERMS, &[0, 10, 0, 20, 0, 10, 0, 15, 0, 12, 0, 12]),
];

fn faulty(call: usize, part: usize) -> Faulty {
    match part {
        BOOK_PART if [CHECK_INDEX, SEARCH_INDEXED].contains(&call) => INDEXES,
        RECORD_PART if call == SORT_RECORD => OLD_RECORDS,
        QUESTION_PART if call == ANSWER_SEVERAL => TWO,
        _ => [PATTERNS, CATALOGUES, RECORDS, BOOKS, TERM_LISTS][part],
    }
}

/// A file of zeros stands in the memory already.
fn lay(script: &mut Script, part: usize, file: &[u8]) {
    if file.len() > 32 {
        script.place(part, ZEROS, ZEROS + file.len());
    } else {
        script.bytes(part, file);
    }
}

/// What a call is made on: its files but for a book, and the call whose output is the sheet, book or index.
struct Good {
    question: Vec<u8>,
    catalogue: Vec<u8>,
    record: Vec<u8>,
    terms: Vec<u8>,
    made: usize,
}

impl Good {
    /// A book is made before the catalogue is laid that may stand in for the one it was made with.
    fn lay_book(&self, script: &mut Script) {
        script.once(self.made);
        keep_as(script, BOOK_PART);
    }

    fn lay(&self, script: &mut Script, part: usize) {
        match part {
            QUESTION_PART => script.bytes(part, &self.question),
            CATALOGUE_PART => script.bytes(part, &self.catalogue),
            RECORD_PART => script.bytes(part, &self.record),
            TERMS_PART => script.bytes(part, &self.terms),
            _ => self.lay_book(script),
        }
    }

    fn lay_all(&self, script: &mut Script) {
        for part in [QUESTION_PART, CATALOGUE_PART, RECORD_PART, BOOK_PART, TERMS_PART] {
            self.lay(script, part);
        }
        self.lay_slip(script);
    }

    /// The state beside the record, and the slip of a link that isn't there.
    fn lay_slip(&self, script: &mut Script) {
        let links = record_of(&self.record, WORK_WORDS).map_or(0, |record| record.links.len());
        for (register, number) in
            [(STATE_LINKS, links), (STATE_CHANGE, 7), (LINK_FROM, 2), (LINK_TO, 0), (LINK_OF, 5), (SLIP_CHANGE, 7)]
        {
            script.set(register, number);
        }
    }
}

/// Whether a call is made on an uncovered question.
fn of_uncovered(call: usize) -> bool {
    [SHOW_UNCOVERED, PART].contains(&call)
}

/// The day of a call: one on which not all extracts are in force where an uncovered question is wanted, else one on which all are.
fn lay_day(script: &mut Script, call: usize) {
    script.set(DAY, if [SHOW_ON, PART_ON].contains(&call) { 10 } else { 12 });
}

/// A question, and where several are sent another after it.
fn asked(call: usize, question: Vec<u8>, other: &[u8]) -> Vec<u8> {
    match call {
        ANSWER_SEVERAL => [&question, other].concat(),
        _ => question,
    }
}

/// Files of the worked cases. A showing wants an uncovered question, and a part is made of one; the converter has links out of
/// order.
fn small(call: usize) -> Good {
    let record = |links: &[Link]| graph_fields(&[1, 6, 8], links);
    Good {
        question: asked(call, D.to_vec(), &ONE),
        catalogue: if of_uncovered(call) { SLOW.to_vec() } else { C.to_vec() },
        record: match call {
            SORT_RECORD => pack_old_record(&record(&[(1, 2, 0), (0, 1, 0)])),
            _ => pack_record(&record(&[(0, 1, 0), (1, 2, 0)])),
        },
        terms: rules::terms("10-20 10-15 12-20"),
        made: made(call),
    }
}

/// The call whose output a call takes as its sheet, book or index.
fn made(call: usize) -> usize {
    match call {
        READ_SHEET => SEARCH,
        CHECK_INDEX | SEARCH_INDEXED => MAKE_INDEX,
        _ => MAKE_BOOK,
    }
}

/// The largest question, of three kinds of links, and a catalogue that has it as its only extract, on a record of every kind
/// of items and of links of the three kinds.
fn large(made: usize, packed: impl Fn(&[u32]) -> Vec<u8>) -> Good {
    let pattern = super::table::pattern(16, 32, 3);
    let catalogue = [vec![1], pattern.clone()].concat();
    let mut links: Vec<Link> = (0..64).map(|link| (link % 16, (link * 3 + link / 16) % 16, link / 16 % 3)).collect();
    links.sort();
    Good {
        question: write_pattern(&pattern, PATTERN_BYTES, WORK_WORDS).unwrap(),
        catalogue: write_catalogue(&catalogue, CATALOGUE_BYTES, WORK_WORDS).unwrap(),
        record: packed(&graph_fields(&[u32::MAX; 16], &links)),
        terms: rules::terms("10-65535"),
        made,
    }
}

/// Links of one pair that differ in their kinds alone: the question's, which the extracts cover or, for a showing or a part,
/// don't.
fn of_kinds(call: usize) -> Good {
    let extracts: &[&[u32]] = if of_uncovered(call) { &[&[1]] } else { &[&[1], &[0], &[0, 1]] };
    Good {
        question: asked(call, worked::pattern(&kinds::one(&[0, 1])), &worked::pattern(&kinds::one(&[1]))),
        catalogue: worked::catalogue(&kinds::each(extracts)),
        record: kinds::of_links(),
        terms: rules::terms("10-20 12-15 12-20"),
        made: made(call),
    }
}

/// A call on its good files, then with a part cut at bytes and with bits turned, so many on each time.
fn sweep(script: &mut Script, call: usize, part: usize, stride: usize) {
    script.once(call);
    assert!(script.is_accepted());
    script.cuts(part, stride);
    script.flips(part, stride);
}

/// Some calls, with each of their parts, a book or an index by a stride of its own.
fn sweep_all(script: &mut Script, calls: &[usize], stride: usize) {
    for &call in calls {
        for part in parts(call) {
            sweep(script, call, part, if part == BOOK_PART { stride } else { 1 });
        }
    }
}

/// Questions of zeros, from no bytes to some more than they may have.
fn zeros(script: &mut Script, call: usize) {
    let most = if call == ANSWER_SEVERAL { 2 * PATTERN_BYTES } else { PATTERN_BYTES };
    script.place(QUESTION_PART, ZEROS, ZEROS + most + 16);
    script.once(call);
    script.cuts(QUESTION_PART, 1);
}

/// The content that a writer takes, of sheets for nothing found, or the charges: a field for each extract of C.
fn lay_content(script: &mut Script, call: usize) {
    script.content(&[0; 3][..if call == WRITE_SHEET { 1 } else { 3 }]);
}

/// Every call that matches extracts, on C and on catalogues without extracts, with sets that name an extract which is not there: alone, with
/// those that are there, the last of all; also where charges, the book and the record are at fault, which are judged later, and where the
/// catalogue is, which is judged before.
fn not_there(script: &mut Script) {
    for call in (0..CALLS.len()).filter(|&call| takes_set(call)) {
        let good = small(call);
        good.lay_all(script);
        lay_day(script, call);
        for catalogue in [&C[..], &[0], &[]] {
            let extracts = if catalogue.len() > 1 { 3 } else { 0 };
            script.bytes(CATALOGUE_PART, catalogue);
            script.bytes(TERMS_PART, &good.terms[..4 * extracts]);
            for set in [8usize, 12, 0x8000, 0xfff8, 0xffff] {
                script.set(ONE_WAY, set);
                script.content(&[0; 3][..extracts]);
                script.round(call);
                let refusal =
                    (u64::from(crate::matching::ONE_WAY), u64::from((set >> extracts << extracts).trailing_zeros()));
                assert_eq!((script.last().number, script.last().value), refusal, "{call} {set}");
                script.content(&[0; 5]);
                for part in [BOOK_PART, RECORD_PART] {
                    script.short(part);
                    assert_eq!((script.last().number, script.last().value), refusal, "{call} {set}");
                }
                script.short(CATALOGUE_PART);
            }
        }
    }
    script.set(ONE_WAY, 0);
    script.name("every call that matches extracts with a set of some that are not there\n");
    script.group();
}

/// The same calls with sets of extracts that are there, on a catalogue that is cut at each byte and has each bit turned.
fn one_way(script: &mut Script) {
    for call in (0..CALLS.len()).filter(|&call| takes_set(call)) {
        script.set(ONE_WAY, if of_uncovered(call) { 1 } else { 5 });
        of_kinds(call).lay_all(script);
        lay_day(script, call);
        lay_content(script, call);
        sweep(script, call, CATALOGUE_PART, 1);
    }
    script.set(ONE_WAY, 0);
    script.name("every call that matches extracts, some one-way, on catalogues with one fault\n");
    script.group();
}

/// Every call that takes a catalogue, on one without extracts: the byte 00 and then no byte, which has to come to the same;
/// beside books of no byte and of one, and content or charges of no field and of one.
fn without_extracts(script: &mut Script) {
    for (call, parts) in calls() {
        if !parts.contains(&CATALOGUE_PART) {
            continue;
        }
        small(call).lay_all(script);
        script.empty(TERMS_PART);
        for more in [0, 1] {
            script.bytes(BOOK_PART, &[0][..more]);
            for catalogue in [&[0][..], &[]] {
                script.bytes(CATALOGUE_PART, catalogue);
                script.content(&[0][..more]);
                script.round(call);
                match catalogue {
                    [] => script.same(),
                    _ => script.hold(),
                }
            }
        }
    }
    script.name("every call on a catalogue of the byte 00, and of no byte\n");
    script.group();
}

pub fn write(script: &mut Script) {
    script.set(SET, 0xffff);
    script.set(QUESTIONS, 2);
    for (call, parts) in calls() {
        let good = small(call);
        good.lay_all(script);
        lay_day(script, call);
        for part in parts {
            for &(number, file) in faulty(call, part) {
                lay_content(script, call);
                lay(script, part, file);
                script.round(call);
                assert_eq!(script.refusal(), Some(number), "{call} {part}");
                good.lay(script, part);
            }
            lay_content(script, call);
            sweep(script, call, part, 1);
            if part == QUESTION_PART {
                zeros(script, call);
                good.lay(script, part);
            }
        }
    }
    script.name("every call on files with one fault\n");
    script.group();
    without_extracts(script);
    not_there(script);
    one_way(script);
    for (call, parts) in calls() {
        if call != SORT_RECORD {
            of_kinds(call).lay_all(script);
            lay_day(script, call);
            for part in parts {
                lay_content(script, call);
                sweep(script, call, part, 1);
            }
        }
    }
    script.name("every call on links with kinds with one fault\n");
    script.group();
    large(MAKE_BOOK, pack_record).lay_all(script);
    script.content(&[u32::MAX]);
    sweep_all(script, &[SEARCH, MAKE_BOOK, QUOTE, ANSWER, CHEAPEST, ANSWER_FROM, PART, ASK, COMMIT], 101);
    sweep(script, CHEAPEST_ON, TERMS_PART, 1);
    sweep(script, PART_ON, TERMS_PART, 1);
    sweep(script, FIRST_DAY, TERMS_PART, 1);
    let large_question = script.part(QUESTION_PART).to_vec();
    script.bytes(QUESTION_PART, &large_question.repeat(2));
    sweep_all(script, &[ANSWER_SEVERAL], 101);
    script.bytes(QUESTION_PART, &large_question);
    large(MAKE_INDEX, pack_record).lay_book(script);
    sweep_all(script, &[MAKE_INDEX, CHECK_INDEX, SEARCH_INDEXED], 1);
    large(MAKE_BOOK, pack_old_record).lay(script, RECORD_PART);
    sweep_all(script, &[SORT_RECORD], 1);
    script.name("calls on large files with one fault\n");
    script.group();
}
