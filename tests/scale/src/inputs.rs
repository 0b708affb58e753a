//! The inputs: which call a seed makes, with which files, and what is lent.

use crate::desk::{exactly, fitted, Asked, Desk, Difference, Lent, Notes, Offer, TwoFiles, MOST};
use crate::draw::{draw_size, Draw, Size};
use crate::graphs::*;
use crate::layout::{content, file, of_book, of_catalogue, of_old_record, of_pattern, of_questions, of_record};
use crate::tally::Call;
use model::cheapest::cheapest;
use model::files::{graph_fields, Catalogue, Pattern, Refusal, OLD_RECORD_BYTES, WORK_WORDS};
use model::part::{choice, part};
use model::quoting::Quote;
use model::{answering, files, indexing, matching, quoting};
use std::fmt::Debug;
use yuthaqim::{BOOK_BYTES, CATALOGUE_BYTES, INDEX_ENTRIES, PATTERN_BYTES, RECORD_BYTES};

/// What is at hand for the calls.
pub struct Test {
    bytes: Desk<u8>,
    words: Desk<u32>,
    entries: Desk<u16>,
    pub notes: Notes,
}

/// A call on both sides, where it has the same name: the model is told how much is lent, the library is lent it. A number
/// among the inputs stands in brackets.
macro_rules! reply {
    (
        $test:ident.$desk:ident, $draw:ident, $fit:ident($lent:expr), $call:ident,
        $module:ident::$name:ident($($input:ident),+ $([$number:ident] $($later:ident),+)?)
    ) => {{
        let (lent, expected) =
            $fit($draw, $lent, |room, work| $module::$name($(&$input,)+ $($number, $(&$later,)+)? room, work));
        let inputs: &[(_, &dyn Debug)] = &[
            $((stringify!($input), &$input),)+
            $((stringify!($number), &$number), $((stringify!($later), &$later)),+)?
        ];
        let asked = Asked { call: Call::$call, inputs, lent };
        let library = |out: &mut [_], work: &mut [u32]| yuthaqim::$name($(&$input,)+ $($number, $(&$later,)+)? out, work);
        $test.$desk.reply(&mut $test.notes, $draw, asked, expected, library)
    }};
}

// After the macro, which it uses.
mod days;
mod entering;

/// A question and a catalogue for it, of which the other files are made.
struct Subject {
    kinds: Kinds,
    size: Size,
    question: Pattern,
    catalogue: Catalogue,
}

fn draw_subject(draw: &mut Draw, covered: bool) -> Subject {
    let kinds = Kinds::draw(draw);
    draw_subject_of(draw, kinds, covered)
}

fn draw_subject_of(draw: &mut Draw, kinds: Kinds, covered: bool) -> Subject {
    let size = draw_size(draw);
    let items = if size == Size::Small { 5 } else { 16 };
    let question = draw_pattern(draw, &kinds, items);
    let catalogue = draw_catalogue(draw, &kinds, &question, covered);
    Subject { kinds, size, question, catalogue }
}

/// The links of a question that are matched.
fn matched(quote: &Quote) -> Vec<usize> {
    (0..quote.mapping.len()).filter(|&e| !quote.mapping[e].is_empty()).collect()
}

/// One whose question is mostly matched in part: others are drawn again, a few times.
fn draw_matched_in_part(draw: &mut Draw) -> Subject {
    let mut subject = draw_subject(draw, false);
    for _ in 0..draw.of(&[0, 8, 8, 8]) {
        let (question, catalogue) = (of_pattern(&subject.question).bytes(), of_catalogue(&subject.catalogue).bytes());
        let quote = quoting::quote(&question, &catalogue, 0, WORK_WORDS).unwrap();
        if !quote.covered && !matched(&quote).is_empty() {
            break;
        }
        subject = draw_subject(draw, false);
    }
    subject
}

impl Subject {
    fn question(&self, draw: &mut Draw, damaged_one_in: usize) -> Vec<u8> {
        file(draw, of_pattern(&self.question), damaged_one_in, PATTERN_BYTES)
    }

    /// Extracts once more, up to eight: of sets with one or the other copy each covers if one does.
    fn repeat(&mut self) {
        let more = 8usize.saturating_sub(self.catalogue.len());
        let copies: Vec<Pattern> = self.catalogue.iter().take(more).cloned().collect();
        self.catalogue.extend(copies);
    }

    /// Extracts that are matched one-way: none, all, one, or any of them.
    fn one_way(&self, draw: &mut Draw) -> u16 {
        let extracts = self.catalogue.len();
        let all = ((1u32 << extracts) - 1) as u16;
        let set = match draw.below(6) {
            0 => 0,
            1 => all,
            2 => 1 << draw.below(extracts.max(1)),
            _ => draw.word() as u16,
        };
        set & all
    }

    /// The same; and one time in sixteen a set that may name extracts which aren't there.
    fn any_one_way(&self, draw: &mut Draw) -> u16 {
        let set = self.one_way(draw);
        match draw.below(32) {
            0 => draw.word() as u16,
            1 => set | 1 << draw.within(self.catalogue.len().min(15), 15),
            _ => set,
        }
    }

    /// A record whose links are out of order, or damaged otherwise, one time in so many each.
    fn record(&self, draw: &mut Draw, damaged_one_in: usize, planted: &[Pattern]) -> Vec<u8> {
        let mut record = draw_record(draw, &self.kinds, self.size, planted);
        if draw.one_in(2 * damaged_one_in) {
            disorder(draw, &mut record.links);
        }
        file(draw, of_record(&record), damaged_one_in, RECORD_BYTES)
    }
}

/// Questions for a catalogue, up to eight: the subject's own, extracts, choices of its links, and some of these again.
fn draw_questions(draw: &mut Draw, subject: &Subject) -> Vec<Pattern> {
    let number = draw.within(1, 8);
    let all: Vec<usize> = (0..subject.question.links.len()).collect();
    let mut questions: Vec<Pattern> = Vec::new();
    while questions.len() < number {
        questions.push(match draw.below(5) {
            0 if !questions.is_empty() => questions[draw.below(questions.len())].clone(),
            1 | 2 if !subject.catalogue.is_empty() => subject.catalogue[draw.below(subject.catalogue.len())].clone(),
            3 => choice(&subject.question, &draw_choice(draw, all.len(), &all)),
            _ => subject.question.clone(),
        });
    }
    questions
}

/// How many questions are said to be there: mostly as many as are, else one more, one less, or any number.
fn draw_number(draw: &mut Draw, questions: usize) -> u32 {
    match draw.below(32) {
        0 => draw.of(&[0, 9, u32::MAX]),
        1 => questions as u32 + 1,
        2 => questions as u32 - 1,
        3 => draw.word(),
        _ => questions as u32,
    }
}

/// The index of a record, of no items where it can't be read.
fn index_of(record: &[u8]) -> Vec<u16> {
    indexing::make_index(record, INDEX_ENTRIES, WORK_WORDS).unwrap_or(vec![0])
}

/// A set to answer from: any, a cheapest one, or one with extracts beside it. A question that can't be read, or isn't
/// covered, has any.
fn draw_set(draw: &mut Draw, question: &[u8], Offer { catalogue, one_way }: Offer) -> u16 {
    let any = draw.word() as u16;
    let extracts = files::judge_catalogue(catalogue).map_or(0, |extracts| extracts.len());
    let charges: Vec<u32> = (0..extracts).map(|_| draw.word() >> 8).collect();
    let Ok(cheapest) = cheapest(question, catalogue, one_way, &charges, WORK_WORDS) else {
        return any;
    };
    let set: u16 = cheapest.set.iter().map(|a| 1 << a).sum();
    match draw.below(4) {
        0 => any,
        1 => set,
        _ => set | any,
    }
}

/// Whether the extracts of a set cover a question.
fn covers(question: &[u8], Offer { catalogue, one_way }: Offer, set: u16) -> bool {
    let mapping = quoting::quote(question, catalogue, one_way, WORK_WORDS).unwrap().mapping;
    let set: Vec<usize> = (0..16).filter(|a| set >> a & 1 == 1).collect();
    quoting::covers(&mapping, &set)
}

/// Whether the link that the second of two shown records lacks has a link beside it, of the same ends and another kind.
fn keeps_pair(first: &[u8], second: &[u8]) -> bool {
    let [first, second] = [first, second].map(|record| matching::record_of(record, WORK_WORDS).unwrap().links);
    let lacking = first.iter().find(|link| !second.contains(link)).unwrap();
    second.iter().any(|&(from, to, _)| (from, to) == (lacking.0, lacking.1))
}

impl Test {
    pub fn new(shown: bool) -> Test {
        let notes = Notes { tally: Default::default(), shown };
        Test { bytes: Desk::new(), words: Desk::new(), entries: Desk::new(), notes }
    }

    /// The input of a seed.
    pub fn input(&mut self, seed: u64) -> Result<(), Difference> {
        let draw = &mut Draw::new(seed);
        match draw.below(100) {
            0..=17 => self.lone_file(draw),
            18..=19 => self.enter(draw),
            20 => self.another_one_way(draw),
            21..=22 => self.on_day(draw),
            23 => self.on_day_and_search(draw),
            24..=25 => self.sort_record(draw),
            26..=27 => self.part(draw),
            28..=43 => self.file_beside(draw),
            44..=58 => self.lone_content(draw),
            59..=60 => self.several(draw),
            61..=62 => self.part_and_search(draw),
            63..=74 => self.content_beside(draw),
            75..=77 => self.search(draw),
            78 => self.index(draw),
            79..=80 => self.search_indexed(draw),
            81..=84 => self.make_book(draw),
            85..=87 => self.quote(draw),
            88..=89 => self.show(draw),
            90..=92 => self.cheapest(draw),
            93..=94 => self.answer(draw),
            95..=96 => self.answer_from(draw),
            _ => self.answer_and_search(draw),
        }
    }

    /// A catalogue's file. One without extracts has every second time no bytes.
    fn catalogue(&mut self, draw: &mut Draw, subject: &Subject, damaged_one_in: usize) -> Vec<u8> {
        if subject.catalogue.is_empty() && draw.one_in(2) {
            self.notes.tally.empty += 1;
            return Vec::new();
        }
        file(draw, of_catalogue(&subject.catalogue), damaged_one_in, CATALOGUE_BYTES)
    }

    fn lone_file(&mut self, draw: &mut Draw) -> Result<(), Difference> {
        let subject = draw_subject(draw, false);
        let lent = Lent::draw(draw);
        match draw.below(3) {
            0 => {
                let bytes = subject.question(draw, 2);
                reply!(self.words, draw, fitted(lent), ReadPattern, files::read_pattern(bytes))?;
            }
            1 => {
                let bytes = self.catalogue(draw, &subject, 2);
                reply!(self.words, draw, fitted(lent), ReadCatalogue, files::read_catalogue(bytes))?;
            }
            _ => {
                let bytes = subject.record(draw, 2, &[]);
                reply!(self.words, draw, fitted(lent), ReadRecord, files::read_record(bytes))?;
            }
        }
        Ok(())
    }

    fn lone_content(&mut self, draw: &mut Draw) -> Result<(), Difference> {
        let subject = draw_subject(draw, false);
        let lent = Lent::draw(draw);
        match draw.below(3) {
            0 => {
                let fields = content(draw, of_pattern(&subject.question), 2);
                reply!(self.bytes, draw, fitted(lent), WritePattern, files::write_pattern(fields))?;
            }
            1 => {
                let fields = content(draw, of_catalogue(&subject.catalogue), 2);
                reply!(self.bytes, draw, fitted(lent), WriteCatalogue, files::write_catalogue(fields))?;
            }
            _ => {
                let mut record = draw_record(draw, &subject.kinds, subject.size, &[]);
                if draw.one_in(4) {
                    disorder(draw, &mut record.links);
                }
                let fields = content(draw, of_record(&record), 2);
                reply!(self.bytes, draw, fitted(lent), WriteRecord, files::write_record(fields))?;
            }
        }
        Ok(())
    }

    /// A file of the old rules, its links in any order. What is written is accepted, has its items and its links, each of
    /// kind 0, and the sheets that it had.
    fn sort_record(&mut self, draw: &mut Draw) -> Result<(), Difference> {
        let kinds = Kinds::of_old_links(draw);
        let subject = draw_subject_of(draw, kinds, false);
        let mut record = draw_record(draw, &subject.kinds, subject.size, std::slice::from_ref(&subject.question));
        let in_order = record.links.clone();
        if !draw.one_in(4) {
            draw.shuffle(&mut record.links);
        }
        let whole = of_old_record(&record).bytes();
        let old = file(draw, of_old_record(&record), 3, OLD_RECORD_BYTES);
        let lent = Lent::draw(draw);
        let sorted = reply!(self.bytes, draw, fitted(lent), SortRecord, files::sort_record(old))?;
        let Ok(sorted) = sorted.outcome else {
            return Ok(());
        };
        let enough = Lent { room: BOOK_BYTES, work: WORK_WORDS };
        let read = reply!(self.words, draw, exactly(enough), ReadRecord, files::read_record(sorted))?;
        let Ok(read) = read.outcome else {
            return Err(format!("sorted, and not accepted: {sorted:02x?}\n"));
        };
        if old == whole {
            if read != graph_fields(&record.kinds, &in_order) {
                return Err(format!("sorted, and not the same items and links: {read:?}\n"));
            }
            let pattern = of_pattern(&subject.question).bytes();
            let sheet = matching::fields(&matching::sheet(&subject.question, &record));
            let before = files::write_sheet(&pattern, &sheet, BOOK_BYTES, WORK_WORDS);
            let after = reply!(self.bytes, draw, exactly(enough), Search, matching::search(pattern, sorted))?;
            if after.outcome != before {
                return Err(format!("sorted, and not the same sheet: {:?}\n{before:?}\n", after.outcome));
            }
            self.notes.tally.sorted += 1;
            self.notes.tally.disordered += u64::from(record.links != in_order);
        }
        Ok(())
    }

    /// A sheet beside its pattern, or a book beside its catalogue.
    fn file_beside(&mut self, draw: &mut Draw) -> Result<(), Difference> {
        let subject = draw_subject(draw, false);
        let lent = Lent::draw(draw);
        if draw.one_in(2) {
            let pattern = subject.question(draw, 16);
            let sheet = draw_book(draw, subject.size, &[subject.question]);
            let layout = of_book(draw, &sheet, 4);
            let bytes = file(draw, layout, 2, BOOK_BYTES);
            reply!(self.words, draw, fitted(lent), ReadSheet, files::read_sheet(pattern, bytes))?;
        } else {
            let catalogue = self.catalogue(draw, &subject, 16);
            let book = draw_book(draw, subject.size, &subject.catalogue);
            let layout = of_book(draw, &book, 4);
            let bytes = file(draw, layout, 2, BOOK_BYTES);
            reply!(self.words, draw, fitted(lent), ReadBook, files::read_book(catalogue, bytes))?;
        }
        Ok(())
    }

    fn content_beside(&mut self, draw: &mut Draw) -> Result<(), Difference> {
        let subject = draw_subject(draw, false);
        let lent = Lent::draw(draw);
        if draw.one_in(2) {
            let pattern = subject.question(draw, 16);
            let sheet = draw_book(draw, subject.size, &[subject.question]);
            let layout = of_book(draw, &sheet, 4);
            let fields = content(draw, layout, 2);
            reply!(self.bytes, draw, fitted(lent), WriteSheet, files::write_sheet(pattern, fields))?;
        } else {
            let catalogue = self.catalogue(draw, &subject, 16);
            let book = draw_book(draw, subject.size, &subject.catalogue);
            let layout = of_book(draw, &book, 4);
            let fields = content(draw, layout, 2);
            reply!(self.bytes, draw, fitted(lent), WriteBook, files::write_book(catalogue, fields))?;
        }
        Ok(())
    }

    fn search(&mut self, draw: &mut Draw) -> Result<(), Difference> {
        let subject = draw_subject(draw, false);
        let lent = Lent::draw(draw);
        let pattern = subject.question(draw, 16);
        let record = subject.record(draw, 16, std::slice::from_ref(&subject.question));
        reply!(self.bytes, draw, fitted(lent), Search, matching::search(pattern, record))?;
        Ok(())
    }

    fn index(&mut self, draw: &mut Draw) -> Result<(), Difference> {
        let subject = draw_subject(draw, false);
        let lent = Lent::draw(draw);
        let record = subject.record(draw, 16, &[]);
        if draw.one_in(2) {
            reply!(self.entries, draw, fitted(lent), MakeIndex, indexing::make_index(record))?;
            return Ok(());
        }
        let other = subject.record(draw, 16, &[]);
        let index = draw_index(draw, index_of(&record), index_of(&other));
        self.bytes.check_index(&mut self.notes, draw, lent, &record, &index)
    }

    fn search_indexed(&mut self, draw: &mut Draw) -> Result<(), Difference> {
        let subject = draw_subject(draw, false);
        let lent = Lent::draw(draw);
        let pattern = subject.question(draw, 16);
        let planted = std::slice::from_ref(&subject.question);
        let record = subject.record(draw, 16, planted);
        let other = subject.record(draw, 16, planted);
        let index = draw_index(draw, index_of(&record), index_of(&other));
        reply!(self.bytes, draw, fitted(lent), SearchIndexed, indexing::search_indexed(pattern, record, index))?;
        Ok(())
    }

    fn make_book(&mut self, draw: &mut Draw) -> Result<(), Difference> {
        let subject = draw_subject(draw, false);
        let lent = Lent::draw(draw);
        let catalogue = self.catalogue(draw, &subject, 16);
        let one_way = subject.any_one_way(draw);
        let record = subject.record(draw, 16, &subject.catalogue);
        reply!(self.bytes, draw, fitted(lent), MakeBook, matching::make_book(catalogue [one_way] record))?;
        Ok(())
    }

    fn quote(&mut self, draw: &mut Draw) -> Result<(), Difference> {
        let covered = draw.one_in(2);
        let subject = draw_subject(draw, covered);
        let lent = Lent::draw(draw);
        let question = subject.question(draw, 16);
        let catalogue = self.catalogue(draw, &subject, 16);
        let offer = Offer { catalogue: &catalogue, one_way: subject.any_one_way(draw) };
        self.bytes.quote(&mut self.notes, draw, lent, &question, offer)
    }

    /// What is shown: each extract's lists, by its own rule, are the same on both records, and the question's sheets are not.
    fn show(&mut self, draw: &mut Draw) -> Result<(), Difference> {
        let covered = draw.one_in(8);
        let subject = draw_subject(draw, covered);
        let lent = Lent::draw(draw);
        let question = subject.question(draw, 16);
        let catalogue = self.catalogue(draw, &subject, 16);
        let one_way = subject.any_one_way(draw);
        let offer = Offer { catalogue: &catalogue, one_way };
        let Ok((first, second)) = self.bytes.show(&mut self.notes, draw, lent, &question, offer)? else {
            return Ok(());
        };
        let whole = Lent { room: BOOK_BYTES, work: WORK_WORDS };
        let book = reply!(self.bytes, draw, exactly(whole), MakeBook, matching::make_book(catalogue [one_way] first))?;
        let same = reply!(self.bytes, draw, exactly(whole), MakeBook, matching::make_book(catalogue [one_way] second))?;
        let sheet = reply!(self.bytes, draw, exactly(whole), Search, matching::search(question, first))?;
        let other = reply!(self.bytes, draw, exactly(whole), Search, matching::search(question, second))?;
        if book.outcome != same.outcome || sheet.outcome == other.outcome {
            return Err(format!("shown, and not shown by it: {first:02x?}\n{second:02x?}\n"));
        }
        self.notes.tally.shown += 1;
        self.notes.tally.shown_one_way += u64::from(one_way != 0);
        self.notes.tally.one_kind += u64::from(keeps_pair(&first, &second));
        Ok(())
    }

    fn cheapest(&mut self, draw: &mut Draw) -> Result<(), Difference> {
        let covered = !draw.one_in(8);
        let mut subject = draw_subject(draw, covered);
        if draw.one_in(2) {
            subject.repeat();
        }
        let lent = Lent::draw(draw);
        let question = subject.question(draw, 16);
        let catalogue = self.catalogue(draw, &subject, 16);
        let charges = draw_charges(draw, subject.catalogue.len());
        let offer = Offer { catalogue: &catalogue, one_way: subject.any_one_way(draw) };
        self.bytes.cheapest(&mut self.notes, draw, lent, &question, offer, &charges)
    }

    /// From a book that belongs to no record.
    fn answer(&mut self, draw: &mut Draw) -> Result<(), Difference> {
        let covered = !draw.one_in(8);
        let subject = draw_subject(draw, covered);
        let lent = Lent::draw(draw);
        let question = subject.question(draw, 16);
        let catalogue = self.catalogue(draw, &subject, 16);
        let one_way = subject.any_one_way(draw);
        let sheets = draw_book(draw, subject.size, &subject.catalogue);
        let layout = of_book(draw, &sheets, 16);
        let book = file(draw, layout, 8, BOOK_BYTES);
        reply!(self.bytes, draw, fitted(lent), Answer, answering::answer(question, catalogue [one_way] book))?;
        Ok(())
    }

    /// From a book that belongs to no record, by any set: it gives what its own candidates give.
    fn answer_from(&mut self, draw: &mut Draw) -> Result<(), Difference> {
        let covered = !draw.one_in(8);
        let subject = draw_subject(draw, covered);
        let lent = Lent::draw(draw);
        let question = subject.question(draw, 16);
        let catalogue = self.catalogue(draw, &subject, 16);
        let one_way = subject.any_one_way(draw);
        let offer = Offer { catalogue: &catalogue, one_way };
        let set = draw_set(draw, &question, offer);
        let sheets = draw_book(draw, subject.size, &subject.catalogue);
        let layout = of_book(draw, &sheets, 16);
        let book = file(draw, layout, 8, BOOK_BYTES);
        let model = |room, work| answering::answer_from(&question, &catalogue, one_way, set, &book, room, work);
        let (lent, _) = fitted(draw, lent, model);
        let from = self.from_set(draw, lent, &question, offer, set, &book)?;
        if from.is_ok() && from != answering::answer(&question, &catalogue, one_way, &book, lent.room, lent.work) {
            self.notes.tally.apart += 1;
        }
        Ok(())
    }

    fn from_set(
        &mut self,
        draw: &mut Draw,
        lent: Lent,
        question: &[u8],
        Offer { catalogue, one_way }: Offer,
        set: u16,
        book: &[u8],
    ) -> Result<Result<Vec<u8>, Refusal>, Difference> {
        let expected = answering::answer_from(question, catalogue, one_way, set, book, lent.room, lent.work);
        let inputs: [(_, &dyn Debug); 5] = [
            ("question", &question),
            ("catalogue", &catalogue),
            ("one_way", &one_way),
            ("set", &set),
            ("book", &book),
        ];
        let asked = Asked { call: Call::AnswerFrom, inputs: &inputs, lent };
        let library =
            |out: &mut [u8], work: &mut [u32]| yuthaqim::answer_from(question, catalogue, one_way, set, book, out, work);
        Ok(self.bytes.reply(&mut self.notes, draw, asked, expected, library)?.outcome)
    }

    /// From the book of a record, and the record searched, without an index and with its own: where the question is covered,
    /// all are the same, down to the refusal.
    fn answer_and_search(&mut self, draw: &mut Draw) -> Result<(), Difference> {
        let subject = draw_subject(draw, true);
        let question = of_pattern(&subject.question).bytes();
        let catalogue = of_catalogue(&subject.catalogue).bytes();
        let one_way = subject.one_way(draw);
        let offer = Offer { catalogue: &catalogue, one_way };
        let beside = has_links_beside(&subject.question);
        let record = draw_record(draw, &subject.kinds, subject.size, &[subject.question]);
        let record = of_record(&record).bytes();
        let whole = Lent { room: BOOK_BYTES, work: WORK_WORDS };
        let made = reply!(self.bytes, draw, exactly(whole), MakeBook, matching::make_book(catalogue [one_way] record))?;
        let Ok(book) = made.outcome else {
            return Ok(());
        };
        let lent = Lent::draw(draw);
        let searched = reply!(self.bytes, draw, fitted(lent), Search, matching::search(question, record))?;
        let lent = searched.lent;
        let index = index_of(&record);
        let indexed =
            reply!(self.bytes, draw, exactly(lent), SearchIndexed, indexing::search_indexed(question, record, index))?;
        if indexed.outcome != searched.outcome {
            return Err(format!("indexed: {:?}\nsearch: {:?}\n", indexed.outcome, searched.outcome));
        }
        self.notes.tally.indexed += 1;
        let answered =
            reply!(self.bytes, draw, exactly(lent), Answer, answering::answer(question, catalogue [one_way] book))?;
        if answered.outcome != searched.outcome {
            return Err(format!("answer: {:?}\nsearch: {:?}\n", answered.outcome, searched.outcome));
        }
        self.notes.tally.answered += 1;
        if one_way != 0 {
            self.notes.tally.mixed += u64::from(u32::from(one_way) != (1 << subject.catalogue.len()) - 1);
            let both_ways = matching::make_book(&catalogue, 0, &record, BOOK_BYTES, WORK_WORDS);
            self.notes.tally.more_listed += u64::from(both_ways.is_ok_and(|other| other != book));
        }
        let set = draw_set(draw, &question, offer);
        let from = self.from_set(draw, lent, &question, offer, set, &book)?;
        if covers(&question, offer, set) {
            if from != searched.outcome {
                return Err(format!("from {set:#x}: {from:?}\nsearch: {:?}\n", searched.outcome));
            }
            self.notes.tally.from_sets += 1;
        }
        if answered.outcome.is_ok_and(|sheet| sheet != [0]) {
            self.notes.tally.with_pairs += 1;
            self.notes.tally.beside += u64::from(beside);
        }
        Ok(())
    }

    /// From the book of a record that was made under another set than the one that is asked with: that promises an answer, as the
    /// model gives it, and not that it is what a search gives.
    fn another_one_way(&mut self, draw: &mut Draw) -> Result<(), Difference> {
        let covered = !draw.one_in(3);
        let subject = draw_subject(draw, covered);
        let question = of_pattern(&subject.question).bytes();
        let catalogue = of_catalogue(&subject.catalogue).bytes();
        let record = draw_record(draw, &subject.kinds, subject.size, std::slice::from_ref(&subject.question));
        let record = of_record(&record).bytes();
        let [one_way, other] = [(); 2].map(|()| subject.one_way(draw));
        let whole = Lent { room: BOOK_BYTES, work: WORK_WORDS };
        let made = reply!(self.bytes, draw, exactly(whole), MakeBook, matching::make_book(catalogue [other] record))?;
        let Ok(book) = made.outcome else {
            return Ok(());
        };
        let answered =
            reply!(self.bytes, draw, exactly(whole), Answer, answering::answer(question, catalogue [one_way] book))?;
        let offer = Offer { catalogue: &catalogue, one_way };
        let _ = self.part_of(draw, whole, &question, offer, &book)?;
        let set = draw_set(draw, &question, offer);
        let _ = self.from_set(draw, whole, &question, offer, set, &book)?;
        if answered.outcome.is_ok() && one_way != other {
            self.notes.tally.other_sets += 1;
            let searched = matching::search(&question, &record, BOOK_BYTES, WORK_WORDS);
            self.notes.tally.not_searched += u64::from(answered.outcome != searched);
        }
        Ok(())
    }

    /// Several questions from the book of a record or from one of none; where they are answered, each as by itself.
    fn several(&mut self, draw: &mut Draw) -> Result<(), Difference> {
        let covered = !draw.one_in(4);
        let subject = draw_subject(draw, covered);
        let questions = draw_questions(draw, &subject);
        let catalogue = self.catalogue(draw, &subject, 16);
        let one_way = subject.any_one_way(draw);
        let offer = Offer { catalogue: &catalogue, one_way };
        let book = if draw.one_in(2) {
            let record = of_record(&draw_record(draw, &subject.kinds, subject.size, &questions)).bytes();
            let catalogue = of_catalogue(&subject.catalogue).bytes();
            let Ok(book) = matching::make_book(&catalogue, one_way, &record, BOOK_BYTES, WORK_WORDS) else {
                return Ok(());
            };
            book
        } else {
            let sheets = draw_book(draw, subject.size, &subject.catalogue);
            let layout = of_book(draw, &sheets, 16);
            file(draw, layout, 8, BOOK_BYTES)
        };
        let number = draw_number(draw, questions.len());
        let paper = file(draw, of_questions(&questions), 4, PATTERN_BYTES * questions.len());
        let lent = Lent::draw(draw);
        let given = self.bytes.several(&mut self.notes, draw, lent, (&paper, number), offer, &book)?;
        let Ok(given) = given else {
            return Ok(());
        };
        // A damaged file may have other questions.
        let questions = files::judge_patterns(&paper, number as usize).unwrap();
        let whole = Lent { room: BOOK_BYTES, work: WORK_WORDS };
        let (mut answers, mut chosen) = (Vec::new(), 0);
        for question in &questions {
            let question = of_pattern(question).bytes();
            let alone =
                reply!(self.bytes, draw, exactly(whole), Answer, answering::answer(question, catalogue [one_way] book))?;
            let alone = alone.outcome.unwrap_or_default();
            self.notes.tally.questions_with_pairs += u64::from(alone.first() != Some(&0));
            answers.extend(alone);
            chosen += quoting::quote(&question, &catalogue, one_way, WORK_WORDS).unwrap().chosen.len();
        }
        if answers != given.answers {
            return Err(format!("several: {:02x?}\neach by itself: {answers:02x?}\n", given.answers));
        }
        self.notes.tally.several += 1;
        self.notes.tally.questions += questions.len() as u64;
        self.notes.tally.shared += u64::from(given.sheets < chosen);
        Ok(())
    }

    /// From a book that belongs to no record.
    fn part(&mut self, draw: &mut Draw) -> Result<(), Difference> {
        let subject = draw_matched_in_part(draw);
        let lent = Lent::draw(draw);
        let question = subject.question(draw, 16);
        let catalogue = self.catalogue(draw, &subject, 16);
        let sheets = draw_book(draw, subject.size, &subject.catalogue);
        let layout = of_book(draw, &sheets, 16);
        let book = file(draw, layout, 8, BOOK_BYTES);
        let offer = Offer { catalogue: &catalogue, one_way: subject.any_one_way(draw) };
        let _ = self.part_of(draw, lent, &question, offer, &book)?;
        if question == of_pattern(&subject.question).bytes() {
            self.choices(draw, &subject.question, offer)?;
        }
        Ok(())
    }

    /// The part with about so much lent for both outputs as they need: with what it gives stands how much was lent.
    fn part_of(
        &mut self,
        draw: &mut Draw,
        lent: Lent,
        question: &[u8],
        offer: Offer,
        book: &[u8],
    ) -> Result<(Lent, TwoFiles), Difference> {
        let model = |first, room, work| part(question, offer.catalogue, offer.one_way, book, first, room, work);
        let whole = model(MOST, BOOK_BYTES, WORK_WORDS);
        let needed = whole.map_or(1, |(part, _)| part.len());
        let first = match draw.below(16) {
            0 => draw.below(needed),
            1 => needed - 1,
            2..=5 => needed,
            _ => needed + draw.below(60),
        };
        let (lent, _) = fitted(draw, lent, |room, work| model(MOST, room, work));
        Ok((lent, self.bytes.part(&mut self.notes, draw, (first, lent), question, offer, book)?))
    }

    /// Choices of a question's links: those that are covered lie inside the part.
    fn choices(&mut self, draw: &mut Draw, question: &Pattern, offer: Offer) -> Result<(), Difference> {
        let Offer { catalogue, one_way } = offer;
        let Ok(quote) = quoting::quote(&of_pattern(question).bytes(), catalogue, one_way, WORK_WORDS) else {
            return Ok(());
        };
        let matched = matched(&quote);
        if matched.is_empty() {
            return Ok(());
        }
        for _ in 0..3 {
            let links = draw_choice(draw, question.links.len(), &matched);
            let chosen = of_pattern(&choice(question, &links)).bytes();
            if !quoting::quote(&chosen, catalogue, one_way, WORK_WORDS).unwrap().covered {
                continue;
            }
            let whole = Lent { room: BOOK_BYTES, work: WORK_WORDS };
            self.bytes.quote(&mut self.notes, draw, whole, &chosen, offer)?;
            if !links.iter().all(|e| matched.contains(e)) {
                return Err(format!("covered, and not inside the part: {links:?} of {question:?}\n{catalogue:02x?}\n"));
            }
            self.notes.tally.choices += 1;
            self.notes.tally.smaller += u64::from(links.len() < matched.len());
        }
        Ok(())
    }

    /// From the book of a record, and the record searched for the part, without an index and with its own: all are the same, down
    /// to the refusal. Each of the part's links lists what the question lists under it, or more.
    fn part_and_search(&mut self, draw: &mut Draw) -> Result<(), Difference> {
        let subject = draw_matched_in_part(draw);
        let question = of_pattern(&subject.question).bytes();
        let catalogue = of_catalogue(&subject.catalogue).bytes();
        let one_way = subject.one_way(draw);
        let offer = Offer { catalogue: &catalogue, one_way };
        // The question, or what is matched of it, or both.
        let quote = quoting::quote(&question, &catalogue, one_way, WORK_WORDS).unwrap();
        let matched = matched(&quote);
        let planted = [subject.question.clone(), choice(&subject.question, &matched)];
        let planted =
            if matched.is_empty() { &planted[..1] } else { draw.of(&[&planted[..1], &planted[1..], &planted]) };
        let record = draw_record(draw, &subject.kinds, subject.size, planted);
        let record = of_record(&record).bytes();
        let whole = Lent { room: BOOK_BYTES, work: WORK_WORDS };
        let made = reply!(self.bytes, draw, exactly(whole), MakeBook, matching::make_book(catalogue [one_way] record))?;
        let Ok(book) = made.outcome else {
            return Ok(());
        };
        self.choices(draw, &subject.question, offer)?;
        let lent = Lent::draw(draw);
        let (lent, given) = self.part_of(draw, lent, &question, offer, &book)?;
        if matched.is_empty() {
            return Ok(());
        }
        let part = of_pattern(&choice(&subject.question, &matched)).bytes();
        if quote.covered && part != question {
            return Err(format!("covered, and not the whole: {part:02x?}\n"));
        }
        let searched = reply!(self.bytes, draw, exactly(lent), Search, matching::search(part, record))?;
        let index = index_of(&record);
        let indexed =
            reply!(self.bytes, draw, exactly(lent), SearchIndexed, indexing::search_indexed(part, record, index))?;
        let asked = reply!(self.bytes, draw, exactly(lent), Answer, answering::answer(part, catalogue [one_way] book))?;
        if indexed.outcome != searched.outcome || asked.outcome != searched.outcome {
            return Err(format!("part searched for: {:?}\nanswered: {:?}\n", searched.outcome, asked.outcome));
        }
        let Ok((written, answer)) = given else {
            return Ok(());
        };
        if written != part || Ok(&answer) != searched.outcome.as_ref() {
            return Err(format!("part: {written:02x?}, {answer:02x?}\nsearch: {:?}\n", searched.outcome));
        }
        if quote.covered {
            self.notes.tally.whole += 1;
            return Ok(());
        }
        let record = matching::record_of(&record, WORK_WORDS).unwrap();
        let own = matching::sheet(&files::judge_pattern(&part).unwrap(), &record);
        let asked = matching::sheet(&subject.question, &record);
        for (list, &e) in own.iter().zip(&matched) {
            if !asked[e].iter().all(|pair| list.contains(pair)) {
                return Err(format!("link {e} lists {:?}, and in the part {list:?}\n", asked[e]));
            }
        }
        self.notes.tally.parts += 1;
        if answer != [0] {
            self.notes.tally.parts_with_pairs += 1;
            let more = own.iter().zip(&matched).any(|(list, &e)| list.len() > asked[e].len());
            self.notes.tally.wider += u64::from(more);
        }
        Ok(())
    }
}
