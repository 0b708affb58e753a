//! Inputs of the calls for a day.

use super::*;
use crate::desk::days::OnDay;
use model::terms::{bits, in_force, part_on, Term};

/// A term near a day, or up to the last one, or from the first; one in 64 is empty or turned.
fn draw_term(draw: &mut Draw, base: u16, days: usize) -> Term {
    let from = base.saturating_add(draw.below(days) as u16).min(65_534);
    let to = from.saturating_add(1 + draw.below(days) as u16);
    let (from, to) = match draw.below(12) {
        0 => (0, to),
        1 => (from, 65_535),
        _ => (from, to),
    };
    match draw.below(128) {
        0 => Term { from, to: from },
        1 => Term { from: to, to: from },
        _ => Term { from, to },
    }
}

/// Terms for so many extracts, and one time in sixteen for another number of them, also more than a catalogue can have.
fn draw_terms(draw: &mut Draw, extracts: usize) -> Vec<Term> {
    let number = match draw.below(80) {
        0 => 0,
        1 => extracts.saturating_sub(1),
        2 => extracts + 1,
        3 => draw.within(15, 18),
        4 if draw.one_in(8) => 70_000,
        4 => draw.below(100),
        _ => extracts,
    };
    let any = draw.word() as u16;
    let base = draw.of(&[0, 10, 1_000, 65_500, any]);
    let days = draw.of(&[2, 6, 20, 400]);
    (0..number).map(|_| draw_term(draw, base, days)).collect()
}

/// A day: at, before or after an end of a term, or within one, the first or the last of all, or any.
fn draw_day(draw: &mut Draw, terms: &[Term]) -> u16 {
    if terms.is_empty() || draw.one_in(12) {
        let any = draw.word() as u16;
        return draw.of(&[0, 65_534, 65_535, any]);
    }
    let Term { from, to } = terms[draw.below(terms.len())];
    match draw.below(8) {
        0 => from,
        1 => from.saturating_sub(1),
        2 => to,
        3 => to.saturating_add(1),
        4 => to.saturating_sub(1),
        _ => from.saturating_add(draw.below(usize::from(to.saturating_sub(from)) + 1) as u16),
    }
}

impl Test {
    /// A call for a day, from a book of no record where it wants one.
    pub(super) fn on_day(&mut self, draw: &mut Draw) -> Result<(), Difference> {
        let covered = !draw.one_in(3);
        let mut subject = draw_subject(draw, covered);
        if draw.one_in(2) {
            subject.repeat();
        }
        let lent = Lent::draw(draw);
        let question = subject.question(draw, 16);
        let catalogue = self.catalogue(draw, &subject, 16);
        let terms = draw_terms(draw, subject.catalogue.len());
        let day = draw_day(draw, &terms);
        let one_way = subject.any_one_way(draw);
        let on = OnDay { question: &question, catalogue: &catalogue, one_way, terms: &terms, day };
        match draw.below(5) {
            0 => {
                let _ = self.bytes.quote_on(&mut self.notes, draw, lent, on)?;
            }
            1 => {
                let charges = draw_charges(draw, subject.catalogue.len());
                self.bytes.cheapest_on(&mut self.notes, draw, lent, on, &charges)?;
            }
            2 => self.show_on(draw, lent, on)?,
            3 => {
                let sheets = draw_book(draw, subject.size, &subject.catalogue);
                let layout = of_book(draw, &sheets, 16);
                let book = file(draw, layout, 8, BOOK_BYTES);
                let _ = self.part_on(draw, lent, on, &book)?;
            }
            _ => {
                let first = self.bytes.first_day(&mut self.notes, draw, lent, on)?;
                self.notes.tally.first_days +=
                    u64::from(first.is_ok_and(|first| first.is_some_and(|first| first > day)));
            }
        }
        Ok(())
    }

    /// What is shown: the lists of each extract in force, by its own rule, are the same on both records, and the question's sheets are
    /// not.
    fn show_on(&mut self, draw: &mut Draw, lent: Lent, on: OnDay) -> Result<(), Difference> {
        let Ok((first, second)) = self.bytes.show_on(&mut self.notes, draw, lent, on)? else {
            return Ok(());
        };
        let whole = Lent { room: BOOK_BYTES, work: WORK_WORDS };
        let extracts = files::judge_catalogue(on.catalogue).unwrap();
        let mut others = 0;
        for (a, extract) in extracts.iter().enumerate() {
            let alone = of_catalogue(std::slice::from_ref(extract)).bytes();
            let one_way = on.one_way >> a & 1;
            let sheet = reply!(self.bytes, draw, exactly(whole), MakeBook, matching::make_book(alone [one_way] first))?;
            let same = reply!(self.bytes, draw, exactly(whole), MakeBook, matching::make_book(alone [one_way] second))?;
            if sheet.outcome != same.outcome {
                if in_force(on.terms, on.day).contains(&a) {
                    return Err(format!("extract {a} is in force, and lists differ: {first:02x?}\n{second:02x?}\n"));
                }
                others += 1;
            }
        }
        let question = on.question;
        let sheet = reply!(self.bytes, draw, exactly(whole), Search, matching::search(question, first))?;
        let other = reply!(self.bytes, draw, exactly(whole), Search, matching::search(question, second))?;
        if sheet.outcome == other.outcome {
            return Err(format!("shown on a day, and not shown by it: {first:02x?}\n{second:02x?}\n"));
        }
        self.notes.tally.shown_on += 1;
        self.notes.tally.others_differ += u64::from(others > 0);
        Ok(())
    }

    /// The part with about so much lent for both outputs as they need: with what it gives stands how much was lent.
    fn part_on(&mut self, draw: &mut Draw, lent: Lent, on: OnDay, book: &[u8]) -> Result<(Lent, TwoFiles), Difference> {
        let OnDay { question, catalogue, one_way, terms, day } = on;
        let model = |first, room, work| part_on(question, catalogue, one_way, terms, day, book, first, room, work);
        let needed = model(MOST, BOOK_BYTES, WORK_WORDS).map_or(1, |(part, _)| part.len());
        let first = match draw.below(16) {
            0 => needed - 1,
            1..=5 => needed,
            _ => needed + draw.below(60),
        };
        let (lent, _) = fitted(draw, lent, |room, work| model(MOST, room, work));
        Ok((lent, self.bytes.part_on(&mut self.notes, draw, (first, lent), on, book)?))
    }

    /// From the book of a record: where the question is covered on a day, the answer by what the quote for the day chooses is what a
    /// search gives; and the part's answer is what a search for the part gives.
    pub(super) fn on_day_and_search(&mut self, draw: &mut Draw) -> Result<(), Difference> {
        let covered = !draw.one_in(3);
        let mut subject = draw_subject(draw, covered);
        subject.repeat();
        let question = of_pattern(&subject.question).bytes();
        let catalogue = of_catalogue(&subject.catalogue).bytes();
        let one_way = subject.one_way(draw);
        let record = of_record(&draw_record(draw, &subject.kinds, subject.size, &[subject.question])).bytes();
        let whole = Lent { room: BOOK_BYTES, work: WORK_WORDS };
        let made = reply!(self.bytes, draw, exactly(whole), MakeBook, matching::make_book(catalogue [one_way] record))?;
        let Ok(book) = made.outcome else {
            return Ok(());
        };
        let terms = draw_terms(draw, subject.catalogue.len());
        let day = draw_day(draw, &terms);
        let on = OnDay { question: &question, catalogue: &catalogue, one_way, terms: &terms, day };
        let Ok(quote) = self.bytes.quote_on(&mut self.notes, draw, whole, on)? else {
            return Ok(());
        };
        let lent = Lent::draw(draw);
        if quote.covered {
            let searched = reply!(self.bytes, draw, fitted(lent), Search, matching::search(question, record))?;
            let offer = Offer { catalogue: &catalogue, one_way };
            let from = self.from_set(draw, searched.lent, &question, offer, bits(&quote.chosen), &book)?;
            if from != searched.outcome {
                return Err(format!("on day {day}: {from:?}\nsearch: {:?}\n", searched.outcome));
            }
            self.notes.tally.on_days += 1;
        }
        let (lent, given) = self.part_on(draw, lent, on, &book)?;
        if let Ok((part, answer)) = given {
            let searched = reply!(self.bytes, draw, exactly(lent), Search, matching::search(part, record))?;
            if searched.outcome.as_ref() != Ok(&answer) {
                return Err(format!("part on day {day}: {answer:02x?}\nsearch: {:?}\n", searched.outcome));
            }
            self.notes.tally.parts_on += 1;
        }
        Ok(())
    }
}
