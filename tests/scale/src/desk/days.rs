//! The calls for a day.

use super::*;
use model::terms::{self, Term};
use yuthaqim::Dated;

/// A question and a catalogue with its set and its terms, and the day that is asked about.
#[derive(Clone, Copy)]
pub struct OnDay<'a> {
    pub question: &'a [u8],
    pub catalogue: &'a [u8],
    pub one_way: u16,
    pub terms: &'a [Term],
    pub day: u16,
}

/// The inputs that all of these calls have.
fn inputs<'a>(on: &'a OnDay<'a>) -> Vec<(&'static str, &'a dyn Debug)> {
    vec![
        ("question", &on.question),
        ("catalogue", &on.catalogue),
        ("one_way", &on.one_way),
        ("terms", &on.terms),
        ("day", &on.day),
    ]
}

/// The terms as the library takes them.
fn lent_terms(terms: &[Term]) -> Vec<yuthaqim::Term> {
    terms.iter().map(|&Term { from, to }| yuthaqim::Term { from, to }).collect()
}

/// A first day of the model as the library answers it.
fn dated(day: &Result<Option<u16>, Refusal>) -> Dated {
    match day {
        Ok(day) => Dated { number: 0, detail: 0, found: day.is_some().into(), day: day.unwrap_or(0) },
        Err(refusal) => {
            let yuthaqim::Refusal { number, detail } = refused(refusal);
            Dated { number, detail, found: 0, day: 0 }
        }
    }
}

impl Desk<u8> {
    pub fn quote_on(
        &mut self,
        notes: &mut Notes,
        draw: &mut Draw,
        lent: Lent,
        on: OnDay,
    ) -> Result<Result<Quote, Refusal>, Difference> {
        let expected = terms::quote_on(on.question, on.catalogue, on.one_way, on.terms, on.day, lent.work);
        let work = self.work.lend(lent.work, draw.word());
        let answered = raw::quote_on(on.question, on.catalogue, on.one_way, &lent_terms(on.terms), on.day, work);
        let asked = Asked { call: Call::QuoteOn, inputs: &inputs(&on), lent };
        let held = [
            ("answer", answered == quoted(&expected)),
            ("result", same_quote(&answered.result(), &expected)),
            ("workspace", self.work.is_cleared()),
        ];
        notes.end(&asked, &expected, &answered, expected.as_ref().err().copied(), &held)?;
        Ok(expected)
    }

    pub fn cheapest_on(
        &mut self,
        notes: &mut Notes,
        draw: &mut Draw,
        lent: Lent,
        on: OnDay,
        charges: &[u32],
    ) -> Result<(), Difference> {
        let expected = terms::cheapest_on(on.question, on.catalogue, on.one_way, on.terms, on.day, charges, lent.work);
        let work = self.work.lend(lent.work, draw.word());
        let list = lent_terms(on.terms);
        let answered = raw::cheapest_on(on.question, on.catalogue, on.one_way, &list, on.day, charges, work);
        let mut inputs = inputs(&on);
        inputs.push(("charges", &charges));
        let asked = Asked { call: Call::CheapestOn, inputs: &inputs, lent };
        let held = [("answer", answered == priced(&expected)), ("workspace", self.work.is_cleared())];
        notes.end(&asked, &expected, &answered, expected.as_ref().err().copied(), &held)
    }

    pub fn first_day(
        &mut self,
        notes: &mut Notes,
        draw: &mut Draw,
        lent: Lent,
        on: OnDay,
    ) -> Result<Result<Option<u16>, Refusal>, Difference> {
        let expected = terms::first_day(on.question, on.catalogue, on.one_way, on.terms, on.day, lent.work);
        let work = self.work.lend(lent.work, draw.word());
        let answered = raw::first_day(on.question, on.catalogue, on.one_way, &lent_terms(on.terms), on.day, work);
        let asked = Asked { call: Call::FirstDay, inputs: &inputs(&on), lent };
        let held = [
            ("answer", answered == dated(&expected)),
            ("result", answered.result() == expected.as_ref().map(|day| *day).map_err(refused)),
            ("workspace", self.work.is_cleared()),
        ];
        notes.end(&asked, &expected, &answered, expected.as_ref().err().copied(), &held)?;
        Ok(expected)
    }

    /// For the second record a few bytes fewer are lent.
    pub fn show_on(
        &mut self,
        notes: &mut Notes,
        draw: &mut Draw,
        lent: Lent,
        on: OnDay,
    ) -> Result<TwoFiles, Difference> {
        let fewer = draw.below(6);
        let second = |room: usize| room.saturating_sub(fewer);
        let model = |room, work| {
            terms::show_on(on.question, on.catalogue, on.one_way, on.terms, on.day, room, second(room), work)
        };
        let (lent, expected) = fitted(draw, lent, model);
        let mut inputs = inputs(&on);
        inputs.push(("fewer", &fewer));
        let asked = Asked { call: Call::ShowOn, inputs: &inputs, lent };
        let rooms = (lent.room, second(lent.room));
        let list = lent_terms(on.terms);
        let show = |first: &mut _, second: &mut _, work: &mut _| {
            raw::show_on(on.question, on.catalogue, on.one_way, &list, on.day, first, second, work)
        };
        self.two(notes, draw, asked, rooms, expected, show)
    }

    /// What is lent is for the answer; for the part just so much as is given beside it.
    pub fn part_on(
        &mut self,
        notes: &mut Notes,
        draw: &mut Draw,
        (first, lent): (usize, Lent),
        on: OnDay,
        book: &[u8],
    ) -> Result<TwoFiles, Difference> {
        let OnDay { question, catalogue, one_way, terms, day } = on;
        let expected = terms::part_on(question, catalogue, one_way, terms, day, book, first, lent.room, lent.work);
        let mut inputs = inputs(&on);
        inputs.extend([("book", &book as &dyn Debug), ("first", &first)]);
        let asked = Asked { call: Call::PartOn, inputs: &inputs, lent };
        let rooms = (first, lent.room);
        let list = lent_terms(on.terms);
        let part = |first: &mut _, second: &mut _, work: &mut _| {
            raw::part_on(on.question, on.catalogue, on.one_way, &list, on.day, book, first, second, work)
        };
        self.two(notes, draw, asked, rooms, expected, part)
    }
}
