//! The calls that are measured, by the library and by the baseline.

use crate::baseline::{self, tuned};
use std::hint::black_box;
use yuthaqim::{BOOK_BYTES, BOOK_WORDS, INDEX_ENTRIES, PATTERN_BYTES, QUESTIONS_MOST, WORK_WORDS};

#[derive(Clone, Copy, Debug, PartialEq, Eq)]
pub enum Call {
    ReadRecord,
    MakeIndex,
    CheckIndex,
    Search,
    SearchIndexed,
    MakeBook,
    MakeOneWay,
    ReadBook,
    Answer,
    AnswerBySort,
    PartOfCovered,
    Part,
    OneOfSeveral,
    Several,
    Quote,
    QuoteOn,
    FirstDay,
    Cheapest,
    Ask,
    AskByBook,
    Commit,
    CommitByParts,
}

/// Those that are measured on the workloads. The cheapest set has workloads of its own.
pub const CALLS: [Call; 21] = [
    Call::ReadRecord,
    Call::MakeIndex,
    Call::CheckIndex,
    Call::Search,
    Call::SearchIndexed,
    Call::MakeBook,
    Call::MakeOneWay,
    Call::ReadBook,
    Call::Answer,
    Call::AnswerBySort,
    Call::PartOfCovered,
    Call::Part,
    Call::OneOfSeveral,
    Call::Several,
    Call::Quote,
    Call::QuoteOn,
    Call::FirstDay,
    Call::Ask,
    Call::AskByBook,
    Call::Commit,
    Call::CommitByParts,
];

/// Those that a planner waits for: the short tables are of these. The answer stands beside the faster of the two baselines.
pub const MAIN: [Call; 5] = [Call::Search, Call::MakeBook, Call::AnswerBySort, Call::Quote, Call::Ask];

impl Call {
    /// In the head of the short table.
    pub fn short_name(self) -> &'static str {
        match self {
            Call::MakeBook => "book",
            Call::AnswerBySort => "answer",
            _ => self.name(),
        }
    }

    pub fn name(self) -> &'static str {
        match self {
            Call::ReadRecord => "read a record",
            Call::MakeIndex => "make an index",
            Call::CheckIndex => "check an index",
            Call::Search => "search",
            Call::SearchIndexed => "search by index, beside without",
            Call::MakeBook => "make a book",
            Call::MakeOneWay => "make a book one-way, beside both ways",
            Call::ReadBook => "read a book",
            Call::Answer => "answer",
            Call::AnswerBySort => "answer, sorting",
            Call::PartOfCovered => "part if covered, beside answer",
            Call::Part => "part if uncovered",
            Call::OneOfSeveral => "several: one question, beside answer",
            Call::Several => "several: eight questions, beside eight answers",
            Call::Quote => "quote",
            Call::QuoteOn => "quote for a day, beside quote",
            Call::FirstDay => "first day, beside quote",
            Call::Cheapest => "cheapest set",
            Call::Ask => "ask",
            Call::AskByBook => "ask, beside making a book",
            Call::Commit => "commit",
            Call::CommitByParts => "commit, beside read, write and index",
        }
    }
}

/// The files that the calls of a workload are lent.
#[derive(Default)]
pub struct Files {
    pub record: Vec<u8>,
    pub index: Vec<u16>,
    pub question: Vec<u8>,
    /// That and others, each a file of its own, and one after the other.
    pub questions: Vec<Vec<u8>>,
    pub paper: Vec<u8>,
    pub catalogue: Vec<u8>,
    pub book: Vec<u8>,
    pub charges: Vec<u32>,
    /// A term for each extract, all different, and a day on which all are in force.
    pub terms: Vec<yuthaqim::Term>,
    pub day: u16,
    /// The record without one of its links, that link, and the content of the record.
    pub before: Vec<u8>,
    pub link: Option<yuthaqim::Link>,
    pub content: Vec<u32>,
}

/// A change number.
const CHANGE: u32 = 7;

/// The set of all extracts of a catalogue, whose first five bits say how many there are.
pub fn all_one_way(catalogue: &[u8]) -> u16 {
    ((1u32 << (catalogue[0] >> 3)) - 1) as u16
}

/// What the library is lent beside files. It clears its own work words at the end of each call; the outputs keep what the
/// turn before left in them.
pub struct Desk {
    words: Vec<u32>,
    bytes: Vec<u8>,
    answers: Vec<u8>,
    part: Vec<u8>,
    entries: Vec<u16>,
    work: Vec<u32>,
}

/// What a call gives.
#[derive(Debug, PartialEq, Eq)]
pub enum Outcome {
    Words(Vec<u32>),
    Bytes(Vec<u8>),
    Both(Vec<u8>, Vec<u8>),
    Several(Vec<u8>, usize),
    Entries(Vec<u16>),
    Checked(usize),
    Quote(Box<baseline::Quote>),
    Day(Option<u16>),
    Cheapest(yuthaqim::Cheapest),
    Asked(u16),
    Entered(Vec<u8>, Vec<u16>),
    Refused(usize, usize),
}

impl Files {
    pub fn link(&self) -> yuthaqim::Link {
        self.link.expect("the record has a link")
    }

    /// That of the record without the link: its number of links stands in bits 13 to 26.
    pub fn state(&self) -> yuthaqim::State {
        let head = u32::from_be_bytes(self.before[..4].try_into().expect("a record has four bytes"));
        yuthaqim::State { links: head >> 5 & 0x3fff, change: CHANGE }
    }

    pub fn slip(&self) -> yuthaqim::Slip {
        let yuthaqim::Link { from, to, kind } = self.link();
        yuthaqim::Slip { from, to, kind, change: CHANGE }
    }
}

impl Desk {
    pub fn new() -> Desk {
        let (words, bytes, part) = (vec![0; BOOK_WORDS], vec![0; BOOK_BYTES], vec![0; PATTERN_BYTES]);
        let answers = vec![0; QUESTIONS_MOST as usize * BOOK_BYTES];
        Desk { words, bytes, answers, part, entries: vec![0; INDEX_ENTRIES], work: vec![0; WORK_WORDS] }
    }

    /// A call that gives content, a file or an index: how much it wrote. The check gives how many entries there are.
    fn length(&mut self, call: Call, files: &Files) -> Result<usize, yuthaqim::Refusal> {
        let Files { record, index, question, catalogue, book, .. } = files;
        let Desk { words, bytes, entries, work, .. } = self;
        match call {
            Call::ReadRecord => yuthaqim::read_record(record, words, work),
            Call::MakeIndex => yuthaqim::make_index(record, entries, work),
            Call::CheckIndex => yuthaqim::check_index(record, index, work),
            Call::Search => yuthaqim::search(question, record, bytes, work),
            Call::SearchIndexed => yuthaqim::search_indexed(question, record, index, bytes, work),
            Call::MakeBook => yuthaqim::make_book(catalogue, 0, record, bytes, work),
            Call::MakeOneWay => yuthaqim::make_book(catalogue, all_one_way(catalogue), record, bytes, work),
            Call::ReadBook => yuthaqim::read_book(catalogue, book, words, work),
            Call::Answer | Call::AnswerBySort => yuthaqim::answer(question, catalogue, 0, book, bytes, work),
            Call::Quote | Call::QuoteOn | Call::FirstDay | Call::Cheapest => unreachable!("it has no output"),
            Call::Ask | Call::AskByBook => unreachable!("it has no output"),
            Call::Part
            | Call::PartOfCovered
            | Call::OneOfSeveral
            | Call::Several
            | Call::Commit
            | Call::CommitByParts => {
                unreachable!("it gives two values")
            }
        }
    }

    /// For the last day on which a term begins, on which all are in force.
    fn quote_on(&mut self, files: &Files) -> yuthaqim::Quoted {
        yuthaqim::raw::quote_on(&files.question, &files.catalogue, 0, &files.terms, files.day, &mut self.work)
    }

    /// From the first of all days on.
    fn first_day(&mut self, files: &Files) -> yuthaqim::Dated {
        yuthaqim::raw::first_day(&files.question, &files.catalogue, 0, &files.terms, 0, &mut self.work)
    }

    fn cheapest(&mut self, files: &Files) -> yuthaqim::Priced {
        yuthaqim::raw::cheapest(&files.question, &files.catalogue, 0, &files.charges, &mut self.work)
    }

    fn part(&mut self, files: &Files) -> yuthaqim::Both {
        let Files { question, catalogue, book, .. } = files;
        yuthaqim::raw::part(question, catalogue, 0, book, &mut self.part, &mut self.bytes, &mut self.work)
    }

    /// One question, or all of them.
    fn several(&mut self, call: Call, files: &Files) -> yuthaqim::Several {
        let Files { question, questions, paper, catalogue, book, .. } = files;
        let (paper, number) = if call == Call::Several { (paper, questions.len()) } else { (question, 1) };
        yuthaqim::raw::answer_several(paper, number as u32, catalogue, 0, book, &mut self.answers, &mut self.work)
    }

    fn ask(&mut self, files: &Files) -> Result<(u16, yuthaqim::Slip), yuthaqim::Refusal> {
        yuthaqim::ask(&files.catalogue, 0, &files.before, files.state(), files.link(), &mut self.work)
    }

    /// The state is made anew for each turn.
    fn commit(&mut self, files: &Files) -> Result<(usize, usize), yuthaqim::Refusal> {
        let Desk { bytes, entries, work, .. } = self;
        yuthaqim::commit(&files.before, &mut files.state(), files.slip(), bytes, entries, work)
    }

    /// The record with the link read, written, and its index made, as it is timed.
    pub fn run_parts(&mut self, files: &Files) {
        let Desk { words, bytes, entries, work, .. } = self;
        let _ = black_box(yuthaqim::read_record(&files.record, words, work));
        let _ = black_box(yuthaqim::write_record(&files.content, bytes, work));
        let _ = black_box(yuthaqim::make_index(&files.record, entries, work));
    }

    /// Each question answered by itself, as it is timed.
    pub fn run_answers(&mut self, files: &Files) {
        for question in &files.questions {
            let answer = yuthaqim::answer(question, &files.catalogue, 0, &files.book, &mut self.bytes, &mut self.work);
            let _ = black_box(answer);
        }
    }

    /// A call of the library, as it is timed.
    pub fn run(&mut self, call: Call, files: &Files) {
        match call {
            Call::Quote => drop(black_box(yuthaqim::raw::quote(&files.question, &files.catalogue, 0, &mut self.work))),
            Call::QuoteOn => drop(black_box(self.quote_on(files))),
            Call::FirstDay => drop(black_box(self.first_day(files))),
            Call::Cheapest => drop(black_box(self.cheapest(files))),
            Call::Part | Call::PartOfCovered => drop(black_box(self.part(files))),
            Call::OneOfSeveral | Call::Several => drop(black_box(self.several(call, files))),
            Call::Ask | Call::AskByBook => drop(black_box(self.ask(files))),
            Call::Commit | Call::CommitByParts => drop(black_box(self.commit(files))),
            _ => drop(black_box(self.length(call, files))),
        }
    }

    /// A call of the library, with what it gives.
    pub fn outcome(&mut self, call: Call, files: &Files) -> Outcome {
        let outcome = match call {
            Call::Quote => yuthaqim::quote(&files.question, &files.catalogue, 0, &mut self.work).map(quoted),
            Call::QuoteOn => self.quote_on(files).result().map(quoted),
            Call::FirstDay => self.first_day(files).result().map(Outcome::Day),
            Call::Cheapest => self.cheapest(files).result().map(Outcome::Cheapest),
            Call::Part | Call::PartOfCovered => self
                .part(files)
                .result()
                .map(|(first, second)| Outcome::Both(self.part[..first].to_vec(), self.bytes[..second].to_vec())),
            Call::OneOfSeveral | Call::Several => self
                .several(call, files)
                .result()
                .map(|given| Outcome::Several(self.answers[..given.bytes].to_vec(), given.sheets)),
            Call::Ask | Call::AskByBook => self.ask(files).map(|(set, _)| Outcome::Asked(set)),
            Call::Commit | Call::CommitByParts => self
                .commit(files)
                .map(|(first, second)| Outcome::Entered(self.bytes[..first].to_vec(), self.entries[..second].to_vec())),
            Call::ReadRecord | Call::ReadBook => {
                self.length(call, files).map(|length| Outcome::Words(self.words[..length].to_vec()))
            }
            Call::MakeIndex => self.length(call, files).map(|length| Outcome::Entries(self.entries[..length].to_vec())),
            Call::CheckIndex => self.length(call, files).map(Outcome::Checked),
            _ => self.length(call, files).map(|length| Outcome::Bytes(self.bytes[..length].to_vec())),
        };
        outcome.unwrap_or_else(|refusal| Outcome::Refused(refusal.number, refusal.detail))
    }

    /// How long the library takes for a book, and for a sheet with as many pairs that it doesn't look for different ones
    /// in. Neither is lent room for content, so that both stop there.
    pub fn judge_book(&mut self, catalogue: &[u8], book: &[u8]) {
        let _ = black_box(yuthaqim::read_book(catalogue, book, &mut [], &mut self.work));
    }

    pub fn judge_sheet(&mut self, pattern: &[u8], sheet: &[u8]) {
        let _ = black_box(yuthaqim::read_sheet(pattern, sheet, &mut [], &mut self.work));
    }
}

fn quoted(quote: yuthaqim::Quote) -> Outcome {
    let yuthaqim::Quote { covered, links, chosen, lowest_unmatched, mapping } = quote;
    Outcome::Quote(baseline::Quote { covered, links, chosen, lowest_unmatched, mapping }.into())
}

/// Questions answered one by one by the baseline, and how many extracts are chosen for at least one of them.
fn baseline_several(questions: &[Vec<u8>], catalogue: &[u8], book: &[u8]) -> Result<Outcome, baseline::Refusal> {
    let (mut answers, mut chosen) = (Vec::new(), 0);
    for question in questions {
        answers.extend(baseline::answer(question, catalogue, book, BOOK_BYTES)?);
        chosen |= baseline::quote(question, catalogue)?.chosen;
    }
    Ok(Outcome::Several(answers, chosen.count_ones() as usize))
}

/// The same call by the baseline, which searches without an index.
pub fn baseline_outcome(call: Call, files: &Files) -> Outcome {
    let Files { record, index, question, questions, catalogue, book, charges, terms, .. } = files;
    let outcome = match call {
        Call::ReadRecord => baseline::read_record(record, BOOK_WORDS).map(Outcome::Words),
        Call::MakeIndex => baseline::make_index(record, INDEX_ENTRIES).map(Outcome::Entries),
        Call::CheckIndex => baseline::check_index(record, index).map(Outcome::Checked),
        Call::Search | Call::SearchIndexed => baseline::search(question, record, BOOK_BYTES).map(Outcome::Bytes),
        Call::MakeBook => baseline::make_book(catalogue, 0, record, BOOK_BYTES).map(Outcome::Bytes),
        Call::MakeOneWay => {
            baseline::make_book(catalogue, all_one_way(catalogue), record, BOOK_BYTES).map(Outcome::Bytes)
        }
        Call::ReadBook => baseline::read_book(catalogue, book, BOOK_WORDS).map(Outcome::Words),
        Call::Answer => baseline::answer(question, catalogue, book, BOOK_BYTES).map(Outcome::Bytes),
        Call::AnswerBySort => baseline::answer_by_sorting(question, catalogue, book, BOOK_BYTES).map(Outcome::Bytes),
        Call::Part | Call::PartOfCovered => baseline::part(question, catalogue, book, PATTERN_BYTES, BOOK_BYTES)
            .map(|(part, answer)| Outcome::Both(part, answer)),
        Call::OneOfSeveral => baseline_several(&questions[..1], catalogue, book),
        Call::Several => baseline_several(questions, catalogue, book),
        Call::Quote | Call::QuoteOn => baseline::quote(question, catalogue).map(|quote| Outcome::Quote(quote.into())),
        Call::FirstDay => baseline::first_day(question, catalogue, terms, 0).map(Outcome::Day),
        Call::Cheapest => baseline::cheapest(question, catalogue, charges).map(Outcome::Cheapest),
        Call::Ask | Call::AskByBook => baseline::ask(catalogue, &files.before, files.link()).map(Outcome::Asked),
        Call::Commit | Call::CommitByParts => {
            baseline::commit(&files.before, files.link()).map(|(record, index)| Outcome::Entered(record, index))
        }
    };
    outcome.unwrap_or_else(|(number, detail)| Outcome::Refused(number, detail))
}

/// The same call by the tuned heap, if that has it.
pub fn tuned_outcome(call: Call, files: &Files) -> Option<Outcome> {
    let Files { record, question, catalogue, .. } = files;
    let outcome = match call {
        Call::Search => tuned::search(question, record, BOOK_BYTES).map(Outcome::Bytes),
        Call::MakeBook => tuned::make_book(catalogue, 0, record, BOOK_BYTES).map(Outcome::Bytes),
        Call::Ask => tuned::ask(catalogue, &files.before, files.link()).map(Outcome::Asked),
        _ => return None,
    };
    Some(outcome.unwrap_or_else(|(number, detail)| Outcome::Refused(number, detail)))
}
