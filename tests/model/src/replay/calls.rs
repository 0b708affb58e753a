//! The calls: for each its number in the cases, its name, and what the model says of it.

use super::outcome::Outcome;
use super::{BOOK_PART, CATALOGUE_PART, QUESTION_PART, RECORD_PART, TERMS_PART};
use crate::answering::{answer, answer_from};
use crate::cheapest::cheapest;
use crate::entering::{self, ask, commit};
use crate::files::*;
use crate::indexing::{check_index, make_index, search_indexed};
use crate::matching::{make_book, search};
use crate::part::part;
use crate::quoting::{quote, show};
use crate::several::answer_several;
use crate::terms::{cheapest_on, first_day, part_on, quote_on, show_on, Term};

/// What is lent to a call: the parts, the content, the set of extracts that are matched one-way, a set to answer from, how many questions
/// there are, a day, a state and a slip, whose link is asked about; how many words are lent to a reader, and how much of an output and of a second one to the others; and the words to
/// work in.
pub struct Lent<'a> {
    pub question: &'a [u8],
    pub catalogue: &'a [u8],
    pub record: &'a [u8],
    pub book: &'a [u8],
    pub terms: &'a [u8],
    pub content: &'a [u32],
    pub one_way: u16,
    pub set: u16,
    pub number: u32,
    pub day: u16,
    pub state: entering::State,
    pub slip: entering::Slip,
    pub words: usize,
    pub room: usize,
    pub second: usize,
    pub work: usize,
}

/// The most entries that an index is lent with, and the most bytes of each of two outputs.
const ENTRIES: usize = 33_000;
const FIRST: usize = 44_100;
const SECOND: usize = 66_000;

impl Lent<'_> {
    /// The index that stands in the place of a book, two bytes for each entry.
    fn index(&self) -> Vec<u16> {
        let entries = self.book.chunks_exact(2).take(ENTRIES);
        entries.map(|two| u16::from_be_bytes([two[0], two[1]])).collect()
    }

    /// The terms, four bytes for each entry.
    fn terms(&self) -> Vec<Term> {
        let day = |two: &[u8]| u16::from_be_bytes([two[0], two[1]]);
        self.terms.chunks_exact(4).map(|four| Term { from: day(&four[..2]), to: day(&four[2..]) }).collect()
    }

    /// The two outputs.
    fn rooms(&self) -> (usize, usize) {
        (self.room.min(FIRST), self.second.min(SECOND))
    }
}

/// What a call takes, in its order: parts of the memory, of which an index stands in a book's place and several questions in
/// that of one; the content, which is the charges of the cheapest set too; the set of extracts that are matched one-way; a set to answer
/// from; how many questions there are; a day; a state, a link and a slip; and how much is lent for an output and for a second one.
#[derive(Clone, Copy)]
pub enum Takes {
    Question,
    Catalogue,
    Record,
    Book,
    Index,
    Terms,
    Content,
    OneWay,
    Set,
    Number,
    Day,
    State,
    Link,
    Slip,
    Room,
    Second,
}

impl Takes {
    /// The part of the memory that it is.
    pub fn part(self) -> Option<usize> {
        match self {
            Takes::Question => Some(QUESTION_PART),
            Takes::Catalogue => Some(CATALOGUE_PART),
            Takes::Record => Some(RECORD_PART),
            Takes::Book | Takes::Index => Some(BOOK_PART),
            Takes::Terms => Some(TERMS_PART),
            _ => None,
        }
    }
}

pub struct Call {
    pub number: usize,
    pub name: &'static str,
    pub takes: &'static [Takes],
    pub answer: fn(&Lent) -> Outcome,
}

macro_rules! calls {
    (
        client { $($client:ident $client_number:literal $client_name:literal $client_takes:tt $client_answer:expr;)* }
        apart { $($apart:ident $apart_number:literal $apart_name:literal $apart_takes:tt $apart_answer:expr;)* }
    ) => {
        $(#[allow(dead_code)] pub const $client: usize = $client_number;)*
        $(pub const $apart: usize = $apart_number;)*

        /// The names of the library's calls, in the order of their numbers.
        pub const CALLS: &[&str] = &[$($client_name),*];

        pub const ROWS: &[Call] = &[
            $(Call {
                number: $client_number, name: $client_name, takes: &$client_takes, answer: $client_answer
            },)*
            $(Call { number: $apart_number, name: $apart_name, takes: &$apart_takes, answer: $apart_answer },)*
        ];
    };
}

use Takes::*;

calls! {
    client {
        READ_PATTERN 0 "read_pattern" [Question, Room]
            |l| Outcome::words(read_pattern(l.question, l.words, l.work));
        READ_CATALOGUE 1 "read_catalogue" [Catalogue, Room]
            |l| Outcome::words(read_catalogue(l.catalogue, l.words, l.work));
        READ_RECORD 2 "read_record" [Record, Room]
            |l| Outcome::words(read_record(l.record, l.words, l.work));
        READ_SHEET 3 "read_sheet" [Question, Book, Room]
            |l| Outcome::words(read_sheet(l.question, l.book, l.words, l.work));
        READ_BOOK 4 "read_book" [Catalogue, Book, Room]
            |l| Outcome::words(read_book(l.catalogue, l.book, l.words, l.work));
        WRITE_PATTERN 5 "write_pattern" [Content, Room]
            |l| Outcome::bytes(write_pattern(l.content, l.room, l.work));
        WRITE_CATALOGUE 6 "write_catalogue" [Content, Room]
            |l| Outcome::bytes(write_catalogue(l.content, l.room, l.work));
        WRITE_RECORD 7 "write_record" [Content, Room]
            |l| Outcome::bytes(write_record(l.content, l.room, l.work));
        WRITE_SHEET 8 "write_sheet" [Question, Content, Room]
            |l| Outcome::bytes(write_sheet(l.question, l.content, l.room, l.work));
        WRITE_BOOK 9 "write_book" [Catalogue, Content, Room]
            |l| Outcome::bytes(write_book(l.catalogue, l.content, l.room, l.work));
        SEARCH 10 "search" [Question, Record, Room]
            |l| Outcome::sheet(search(l.question, l.record, l.room, l.work));
        MAKE_BOOK 11 "make_book" [Catalogue, OneWay, Record, Room]
            |l| Outcome::bytes(make_book(l.catalogue, l.one_way, l.record, l.room, l.work));
        QUOTE 12 "quote" [Question, Catalogue, OneWay]
            |l| Outcome::quoted(quote(l.question, l.catalogue, l.one_way, l.work));
        ANSWER 13 "answer" [Question, Catalogue, OneWay, Book, Room]
            |l| Outcome::sheet(answer(l.question, l.catalogue, l.one_way, l.book, l.room, l.work));
        SHOW_UNCOVERED 14 "show_uncovered" [Question, Catalogue, OneWay, Room, Second]
            |l| {
                let (first, second) = l.rooms();
                Outcome::both(show(l.question, l.catalogue, l.one_way, first, second, l.work))
            };
        CHEAPEST 15 "cheapest" [Question, Catalogue, OneWay, Content]
            |l| Outcome::priced(cheapest(l.question, l.catalogue, l.one_way, l.content, l.work));
        ANSWER_FROM 16 "answer_from" [Question, Catalogue, OneWay, Set, Book, Room]
            |l| Outcome::sheet(answer_from(l.question, l.catalogue, l.one_way, l.set, l.book, l.room, l.work));
        SORT_RECORD 17 "sort_record" [Record, Room]
            |l| Outcome::bytes(sort_record(l.record, l.room, l.work));
        MAKE_INDEX 18 "make_index" [Record, Room]
            |l| Outcome::entries(make_index(l.record, l.room.min(ENTRIES), l.work));
        CHECK_INDEX 19 "check_index" [Record, Index]
            |l| Outcome::checked(check_index(l.record, &l.index(), l.work));
        SEARCH_INDEXED 20 "search_indexed" [Question, Record, Index, Room]
            |l| Outcome::sheet(search_indexed(l.question, l.record, &l.index(), l.room, l.work));
        PART 21 "part" [Question, Catalogue, OneWay, Book, Room, Second]
            |l| {
                let (first, second) = l.rooms();
                Outcome::both(part(l.question, l.catalogue, l.one_way, l.book, first, second, l.work))
            };
        ANSWER_SEVERAL 22 "answer_several" [Question, Number, Catalogue, OneWay, Book, Room]
            |l| Outcome::several(answer_several(l.question, l.number, l.catalogue, l.one_way, l.book, l.room, l.work));
        QUOTE_ON 23 "quote_on" [Question, Catalogue, OneWay, Terms, Day]
            |l| Outcome::quoted(quote_on(l.question, l.catalogue, l.one_way, &l.terms(), l.day, l.work));
        CHEAPEST_ON 24 "cheapest_on" [Question, Catalogue, OneWay, Terms, Day, Content]
            |l| Outcome::priced(cheapest_on(l.question, l.catalogue, l.one_way, &l.terms(), l.day, l.content, l.work));
        PART_ON 25 "part_on" [Question, Catalogue, OneWay, Terms, Day, Book, Room, Second]
            |l| {
                let (first, second) = l.rooms();
                Outcome::both(part_on(l.question, l.catalogue, l.one_way, &l.terms(), l.day, l.book, first, second, l.work))
            };
        SHOW_ON 26 "show_on" [Question, Catalogue, OneWay, Terms, Day, Room, Second]
            |l| {
                let (first, second) = l.rooms();
                Outcome::both(show_on(l.question, l.catalogue, l.one_way, &l.terms(), l.day, first, second, l.work))
            };
        FIRST_DAY 27 "first_day" [Question, Catalogue, OneWay, Terms, Day]
            |l| Outcome::dated(first_day(l.question, l.catalogue, l.one_way, &l.terms(), l.day, l.work));
        ASK 28 "ask" [Catalogue, OneWay, Record, State, Link]
            |l| Outcome::asked(ask(l.catalogue, l.one_way, l.record, l.state, l.slip.link, l.work));
        COMMIT 29 "commit" [Record, State, Slip, Room, Second]
            |l| {
                let (bytes, entries) = (l.room.min(FIRST), l.second.min(ENTRIES));
                let mut state = l.state;
                let entered = commit(l.record, &mut state, l.slip, bytes, entries, l.work);
                Outcome::entered(entered, l.state, state)
            };
    }
    // The states of a join after each step, and the search that the program makes apart from the library's, which to the
    // model is the same.
    apart {
        STEPS 62 "steps" [Question, Content]
            |l| Outcome::stepped(&judge_pattern(l.question).unwrap(), l.content);
        PLAIN 63 "plain search" [Question, Record, Room]
            |l| Outcome::sheet(search(l.question, l.record, l.room, l.work));
    }
}

/// The call of a number.
pub fn row(number: usize) -> &'static Call {
    ROWS.iter().find(|row| row.number == number).unwrap()
}

/// Whether a call reads a file into words.
pub fn is_reader(call: usize) -> bool {
    call < WRITE_PATTERN
}

/// The writer of what a reader reads.
pub fn writer(reader: usize) -> usize {
    reader + WRITE_PATTERN
}

/// The parts that a call takes.
pub fn parts(call: usize) -> Vec<usize> {
    row(call).takes.iter().filter_map(|takes| takes.part()).collect()
}

/// Whether a call matches extracts, and so takes a set of those that are matched one-way.
pub fn takes_set(call: usize) -> bool {
    row(call).takes.iter().any(|takes| matches!(takes, OneWay))
}

/// The part that a reader reads.
pub fn part_of(reader: usize) -> usize {
    *parts(reader).last().unwrap()
}

#[cfg(test)]
mod tests {
    use super::*;

    #[test]
    fn the_numbers_are_in_order() {
        assert!(ROWS.windows(2).all(|two| two[0].number < two[1].number));
        assert!(ROWS[..CALLS.len()].iter().enumerate().all(|(i, row)| (row.number, row.name) == (i, CALLS[i])));
    }
}
