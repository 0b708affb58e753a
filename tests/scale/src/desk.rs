//! One call on both sides: what is lent, what the model says, what the library answers and leaves.

pub mod days;
pub mod entering;

use crate::draw::Draw;
use crate::tally::{Call, Tally};
use model::cheapest::{self, Cheapest};
use model::files::{Refusal, NO_FIT};
use model::indexing;
use model::part;
use model::quoting::{self, Quote};
use model::several;
use std::fmt::Debug;
use yuthaqim::{raw, Both, Priced, Quoted, Several, BOOK_BYTES, WORK_WORDS};

/// The most that is lent for an output: more than any has but for several answers, and more than eight of these have.
pub const MOST: usize = 75_000;
const MANY: usize = 8 * BOOK_BYTES + 100;

/// What stands before and behind each piece of lent memory.
const GUARD: usize = 16;

static CLEARED: [u32; WORK_WORDS] = [0; WORK_WORDS];

/// The lengths of what is lent.
#[derive(Clone, Copy, Debug)]
pub struct Lent {
    pub room: usize,
    pub work: usize,
}

impl Lent {
    /// One in 16 has too few words to work in.
    pub fn draw(draw: &mut Draw) -> Lent {
        let room = match draw.below(64) {
            0..=7 => 0,
            8..=15 => draw.below(16),
            16 => draw.within(65_534, MOST),
            _ => draw.within(64, 400),
        };
        let work = match draw.below(16) {
            0 => draw.of(&[0, 1, WORK_WORDS / 2, WORK_WORDS - 1]),
            1..=4 => WORK_WORDS + draw.below(GUARD),
            _ => WORK_WORDS,
        };
        Lent { room, work }
    }

    /// Room for so much, or nearly.
    fn near(self, draw: &mut Draw, needed: usize) -> Lent {
        let room = match draw.below(8) {
            0..=3 => needed,
            4 => needed - 1,
            5 => draw.below(needed),
            _ => needed + draw.within(1, 40),
        };
        Lent { room: room.min(MANY), ..self }
    }
}

/// What the model says where so much is lent.
pub fn exactly<T>(
    _: &mut Draw,
    lent: Lent,
    model: impl Fn(usize, usize) -> Result<T, Refusal>,
) -> (Lent, Result<T, Refusal>) {
    (lent, model(lent.room, lent.work))
}

/// The same. Where that isn't room enough, about so much as is needed is mostly lent instead.
pub fn fitted<T>(
    draw: &mut Draw,
    lent: Lent,
    model: impl Fn(usize, usize) -> Result<T, Refusal>,
) -> (Lent, Result<T, Refusal>) {
    match model(lent.room, lent.work) {
        Err(Refusal { number: NO_FIT, detail }) if !draw.one_in(4) => {
            let lent = lent.near(draw, detail);
            exactly(draw, lent, model)
        }
        expected => (lent, expected),
    }
}

/// A catalogue's file, with the set of its extracts that are matched one-way.
#[derive(Clone, Copy)]
pub struct Offer<'a> {
    pub catalogue: &'a [u8],
    pub one_way: u16,
}

/// Memory that is lent, filled with one value, so that a change shows.
struct Memory<T> {
    all: Vec<T>,
    fill: T,
    length: usize,
}

impl<T: Copy + PartialEq> Memory<T> {
    fn new(most: usize, fill: T) -> Memory<T> {
        Memory { all: vec![fill; most + 2 * GUARD], fill, length: 0 }
    }

    fn lend(&mut self, length: usize, fill: T) -> &mut [T] {
        self.all[..length + 2 * GUARD].fill(fill);
        self.fill = fill;
        self.length = length;
        &mut self.all[GUARD..GUARD + length]
    }

    /// What was lent begins with these values; all else is as it was.
    fn begins(&self, values: &[T]) -> bool {
        let (before, rest) = self.all[..self.length + 2 * GUARD].split_at(GUARD);
        let untouched = |value: &T| *value == self.fill;
        rest.starts_with(values) && before.iter().all(untouched) && rest[values.len()..].iter().all(untouched)
    }
}

impl Memory<u32> {
    /// The workspace after a call.
    fn is_cleared(&self) -> bool {
        self.begins(if self.length < WORK_WORDS { &[] } else { &CLEARED })
    }
}

/// What is not as the model says.
pub type Difference = String;

/// A call that is to be made: its inputs by their names, and the lengths of what is lent.
pub struct Asked<'a> {
    pub call: Call,
    pub inputs: &'a [(&'static str, &'a dyn Debug)],
    pub lent: Lent,
}

/// What a call came to on both sides, where so much was lent.
pub struct Agreed<T> {
    pub lent: Lent,
    pub outcome: Result<Vec<T>, Refusal>,
}

/// What came of the calls.
pub struct Notes {
    pub tally: Tally,
    /// Whether each call is printed.
    pub shown: bool,
}

impl Notes {
    /// A call has ended: whether its answer, its outputs and the workspace are as the model says.
    fn end(
        &mut self,
        asked: &Asked,
        expected: &dyn Debug,
        answered: &dyn Debug,
        refusal: Option<Refusal>,
        held: &[(&str, bool)],
    ) -> Result<(), Difference> {
        self.tally.count(asked.call, refusal);
        let text = || {
            let Lent { room, work } = asked.lent;
            let mut text = format!("{}, lent {room} for output and {work} words to work in\n", asked.call.name());
            for (name, input) in asked.inputs {
                text += &format!("  {name}: {input:02x?}\n");
            }
            text + &format!("  model: {expected:?}\n  library: {answered:?}\n")
        };
        if self.shown {
            print!("{}", text());
        }
        match held.iter().find(|(_, held)| !held) {
            Some((what, _)) => Err(format!("{}  {what}: not as the model says\n", text())),
            None => Ok(()),
        }
    }
}

/// The memory that is lent to calls with outputs of one kind.
pub struct Desk<T> {
    out: Memory<T>,
    second: Memory<T>,
    work: Memory<u32>,
}

impl<T: Copy + PartialEq + Debug + From<u8>> Desk<T> {
    pub fn new() -> Desk<T> {
        let fill = T::from(0);
        Desk { out: Memory::new(MANY, fill), second: Memory::new(MOST, fill), work: Memory::new(WORK_WORDS + GUARD, 0) }
    }

    /// A call with one output.
    pub fn reply(
        &mut self,
        notes: &mut Notes,
        draw: &mut Draw,
        asked: Asked,
        outcome: Result<Vec<T>, Refusal>,
        library: impl FnOnce(&mut [T], &mut [u32]) -> Result<usize, yuthaqim::Refusal>,
    ) -> Result<Agreed<T>, Difference> {
        let fill = draw.word();
        let answered =
            library(self.out.lend(asked.lent.room, T::from(fill as u8)), self.work.lend(asked.lent.work, fill));
        let expected = outcome.as_ref().map(|written| written.len()).map_err(refused);
        let held = [
            ("answer", answered == expected),
            ("output", self.out.begins(outcome.as_deref().unwrap_or(&[]))),
            ("workspace", self.work.is_cleared()),
        ];
        notes.end(&asked, &outcome, &answered, outcome.as_ref().err().copied(), &held)?;
        Ok(Agreed { lent: asked.lent, outcome })
    }
}

/// A refusal of the model as the library gives it.
fn refused(refusal: &Refusal) -> yuthaqim::Refusal {
    yuthaqim::Refusal { number: refusal.number as usize, detail: refusal.detail }
}

/// A set of extracts: the bit worth 2^a says extract a.
fn bits(set: &[usize]) -> u16 {
    set.iter().map(|a| 1 << a).sum()
}

/// A quote of the model as the library answers it.
fn quoted(quote: &Result<Quote, Refusal>) -> Quoted {
    let mut quoted = Quoted { number: 0, detail: 0, covered: 0, edges: 0, chosen: 0, lowest: 0, mapping: [0; 512] };
    match quote {
        Ok(quote) => {
            quoted.covered = quote.covered.into();
            quoted.edges = quote.mapping.len() as u32;
            quoted.chosen = bits(&quote.chosen).into();
            quoted.lowest = quote.lowest_unmatched.unwrap_or(0) as u32;
            for (e, matches) in quote.mapping.iter().enumerate() {
                for (a, b) in matches {
                    quoted.mapping[16 * e + a] |= 1 << b;
                }
            }
        }
        Err(refusal) => yuthaqim::Refusal { number: quoted.number, detail: quoted.detail } = refused(refusal),
    }
    quoted
}

/// What the model writes to two outputs.
pub type TwoFiles = Result<(Vec<u8>, Vec<u8>), Refusal>;

/// The two outputs of the model as the library answers them.
fn both(files: &TwoFiles) -> Both {
    match files {
        Ok((first, second)) => Both { number: 0, detail: 0, first: first.len(), second: second.len() },
        Err(refusal) => {
            let yuthaqim::Refusal { number, detail } = refused(refusal);
            Both { number, detail, first: 0, second: 0 }
        }
    }
}

/// The answers of the model as the library gives them.
fn answers(several: &Result<several::Several, Refusal>) -> Several {
    match several {
        Ok(several::Several { answers, sheets }) => {
            Several { number: 0, detail: 0, bytes: answers.len(), sheets: *sheets as u32 }
        }
        Err(refusal) => {
            let yuthaqim::Refusal { number, detail } = refused(refusal);
            Several { number, detail, bytes: 0, sheets: 0 }
        }
    }
}

/// A cheapest set of the model as the library answers it.
fn priced(cheapest: &Result<Cheapest, Refusal>) -> Priced {
    match cheapest {
        Ok(Cheapest { set, sum, chosen }) => {
            Priced { number: 0, detail: 0, sum: *sum, set: bits(set), chosen: bits(chosen) }
        }
        Err(refusal) => {
            let yuthaqim::Refusal { number, detail } = refused(refusal);
            Priced { number, detail, sum: 0, set: 0, chosen: 0 }
        }
    }
}

/// Whether what the library makes of its answer is the model's quote, as far as it isn't in the answer itself.
fn same_quote(given: &Result<yuthaqim::Quote, yuthaqim::Refusal>, quote: &Result<Quote, Refusal>) -> bool {
    match (given, quote) {
        (Ok(given), Ok(quote)) => {
            given.lowest_unmatched == quote.lowest_unmatched && given.extracts().eq(quote.chosen.iter().copied())
        }
        (Err(given), Err(refusal)) => *given == refused(refusal),
        _ => false,
    }
}

impl Desk<u8> {
    pub fn check_index(
        &mut self,
        notes: &mut Notes,
        draw: &mut Draw,
        lent: Lent,
        record: &[u8],
        index: &[u16],
    ) -> Result<(), Difference> {
        let expected = indexing::check_index(record, index, lent.work);
        let answered = yuthaqim::check_index(record, index, self.work.lend(lent.work, draw.word()));
        let inputs = &[("record", &record as _), ("index", &index as _)];
        let asked = Asked { call: Call::CheckIndex, inputs, lent };
        let held = [
            ("answer", answered == expected.as_ref().map(|entries| *entries).map_err(refused)),
            ("workspace", self.work.is_cleared()),
        ];
        notes.end(&asked, &expected, &answered, expected.as_ref().err().copied(), &held)
    }

    pub fn quote(
        &mut self,
        notes: &mut Notes,
        draw: &mut Draw,
        lent: Lent,
        question: &[u8],
        Offer { catalogue, one_way }: Offer,
    ) -> Result<(), Difference> {
        let expected = quoting::quote(question, catalogue, one_way, lent.work);
        let answered = raw::quote(question, catalogue, one_way, self.work.lend(lent.work, draw.word()));
        let inputs = &[("question", &question as _), ("catalogue", &catalogue as _), ("one_way", &one_way as _)];
        let asked = Asked { call: Call::Quote, inputs, lent };
        if one_way != 0 && expected.as_ref().is_ok_and(|quote| quote.covered) {
            let both_ways = quoting::quote(question, catalogue, 0, lent.work);
            notes.tally.by_one_way += u64::from(both_ways.is_ok_and(|quote| !quote.covered));
        }
        let held = [
            ("answer", answered == quoted(&expected)),
            ("result", same_quote(&answered.result(), &expected)),
            ("workspace", self.work.is_cleared()),
        ];
        notes.end(&asked, &expected, &answered, expected.as_ref().err().copied(), &held)
    }

    pub fn cheapest(
        &mut self,
        notes: &mut Notes,
        draw: &mut Draw,
        lent: Lent,
        question: &[u8],
        Offer { catalogue, one_way }: Offer,
        charges: &[u32],
    ) -> Result<(), Difference> {
        let expected = cheapest::cheapest(question, catalogue, one_way, charges, lent.work);
        let answered = raw::cheapest(question, catalogue, one_way, charges, self.work.lend(lent.work, draw.word()));
        let inputs: [(_, &dyn Debug); 4] =
            [("question", &question), ("catalogue", &catalogue), ("one_way", &one_way), ("charges", &charges)];
        let asked = Asked { call: Call::Cheapest, inputs: &inputs, lent };
        let held = [("answer", answered == priced(&expected)), ("workspace", self.work.is_cleared())];
        if let Ok(found) = &expected {
            notes.tally.cheapest += 1;
            notes.tally.not_chosen += u64::from(found.set != found.chosen);
            notes.tally.tied += u64::from(cheapest::is_tied(question, catalogue, one_way, charges, found));
        }
        notes.end(&asked, &expected, &answered, expected.as_ref().err().copied(), &held)
    }

    /// A call with two outputs, for which so much is lent.
    fn two(
        &mut self,
        notes: &mut Notes,
        draw: &mut Draw,
        asked: Asked,
        (first, second): (usize, usize),
        expected: TwoFiles,
        library: impl FnOnce(&mut [u8], &mut [u8], &mut [u32]) -> Both,
    ) -> Result<TwoFiles, Difference> {
        let fill = draw.word();
        let answered = library(
            self.out.lend(first, fill as u8),
            self.second.lend(second, fill as u8),
            self.work.lend(asked.lent.work, fill),
        );
        let (front, rest) = match &expected {
            Ok((first, second)) => (&first[..], &second[..]),
            Err(_) => (&[][..], &[][..]),
        };
        let held = [
            ("answer", answered == both(&expected)),
            ("first output", self.out.begins(front)),
            ("second output", self.second.begins(rest)),
            ("workspace", self.work.is_cleared()),
        ];
        notes.end(&asked, &expected, &answered, expected.as_ref().err().copied(), &held)?;
        Ok(expected)
    }

    pub fn several(
        &mut self,
        notes: &mut Notes,
        draw: &mut Draw,
        lent: Lent,
        (questions, number): (&[u8], u32),
        Offer { catalogue, one_way }: Offer,
        book: &[u8],
    ) -> Result<Result<several::Several, Refusal>, Difference> {
        let model = |room, work| several::answer_several(questions, number, catalogue, one_way, book, room, work);
        let (lent, expected) = fitted(draw, lent, model);
        let inputs: [(_, &dyn Debug); 5] = [
            ("questions", &questions),
            ("number", &number),
            ("catalogue", &catalogue),
            ("one_way", &one_way),
            ("book", &book),
        ];
        let asked = Asked { call: Call::AnswerSeveral, inputs: &inputs, lent };
        let fill = draw.word();
        let (out, work) = (self.out.lend(lent.room, fill as u8), self.work.lend(lent.work, fill));
        let answered = raw::answer_several(questions, number, catalogue, one_way, book, out, work);
        let written = expected.as_ref().map_or(&[][..], |several| &several.answers);
        let held = [
            ("answer", answered == answers(&expected)),
            ("output", self.out.begins(written)),
            ("workspace", self.work.is_cleared()),
        ];
        notes.end(&asked, &expected, &answered, expected.as_ref().err().copied(), &held)?;
        Ok(expected)
    }

    /// For the second record a few bytes fewer are lent. It is three or four bytes shorter than the first.
    pub fn show(
        &mut self,
        notes: &mut Notes,
        draw: &mut Draw,
        lent: Lent,
        question: &[u8],
        Offer { catalogue, one_way }: Offer,
    ) -> Result<TwoFiles, Difference> {
        let fewer = draw.below(6);
        let second = |room: usize| room.saturating_sub(fewer);
        let show = |room, work| quoting::show(question, catalogue, one_way, room, second(room), work);
        let (lent, expected) = fitted(draw, lent, show);
        let inputs: [(_, &dyn Debug); 4] =
            [("question", &question), ("catalogue", &catalogue), ("one_way", &one_way), ("fewer", &fewer)];
        let asked = Asked { call: Call::ShowUncovered, inputs: &inputs, lent };
        let rooms = (lent.room, second(lent.room));
        let show = |first: &mut _, second: &mut _, work: &mut _| {
            raw::show_uncovered(question, catalogue, one_way, first, second, work)
        };
        self.two(notes, draw, asked, rooms, expected, show)
    }

    /// What is lent is for the answer; for the part just so much as is given beside it.
    pub fn part(
        &mut self,
        notes: &mut Notes,
        draw: &mut Draw,
        (first, lent): (usize, Lent),
        question: &[u8],
        Offer { catalogue, one_way }: Offer,
        book: &[u8],
    ) -> Result<TwoFiles, Difference> {
        let expected = part::part(question, catalogue, one_way, book, first, lent.room, lent.work);
        let inputs: [(_, &dyn Debug); 5] = [
            ("question", &question),
            ("catalogue", &catalogue),
            ("one_way", &one_way),
            ("book", &book),
            ("first", &first),
        ];
        let asked = Asked { call: Call::Part, inputs: &inputs, lent };
        let rooms = (first, lent.room);
        let part = |first: &mut _, second: &mut _, work: &mut _| {
            raw::part(question, catalogue, one_way, book, first, second, work)
        };
        self.two(notes, draw, asked, rooms, expected, part)
    }
}
