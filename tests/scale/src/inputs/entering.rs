//! Inputs of the calls by which a link enters a record.

use super::*;
use model::entering::{commit, Slip, State, RECORD_LINKS};
use model::files::{Link, Record};

/// A record as full as can be: all links of so many items, or those of a few kinds from each item to some.
fn draw_full(draw: &mut Draw) -> Record {
    let items = draw.of(&[32, 64, 1_024, 4_096]);
    let link = |t: usize| {
        let (from, rest) = (t % items, t / items);
        (from as u32, ((from + rest / 8) % items) as u32, (rest % 8) as u32)
    };
    let mut links: Vec<Link> = (0..RECORD_LINKS).map(link).collect();
    links.sort();
    Record { kinds: (0..items).map(|_| draw.word()).collect(), links }
}

/// Mostly the record's own link count.
fn draw_count(draw: &mut Draw, links: usize) -> u32 {
    let links = links as u32;
    match draw.below(40) {
        0 => links + 1,
        1 => links.saturating_sub(1),
        2 => draw.of(&[0, RECORD_LINKS as u32, u32::MAX]),
        3 => draw.word(),
        _ => links,
    }
}

fn draw_change(draw: &mut Draw) -> u32 {
    let any = draw.word();
    draw.of(&[0, 1, 7, any, any, any, u32::MAX - 1, u32::MAX])
}

/// A link that the record lacks, mostly; or one of its own, or one at fault: an end or both that are no item, a kind above 7; or the same ends in
/// another kind, or any items.
fn draw_entering(draw: &mut Draw, record: &Record, lacking: Option<Link>) -> Link {
    let items = record.kinds.len() as u32;
    let mut item = || draw.below(items.max(1) as usize) as u32;
    let any = (item(), item(), item() % 8);
    let own = lacking.unwrap_or(any);
    let beyond = [items, items + 1, 4_096, u32::MAX];
    match draw.below(24) {
        0 => (draw.of(&beyond), own.1, own.2),
        1 => (own.0, draw.of(&beyond), own.2),
        2 => (draw.of(&beyond), draw.of(&beyond), draw.of(&[0, 8])),
        3 => (own.0, own.1, draw.of(&[8, 9, 256, u32::MAX])),
        4 | 5 if !record.links.is_empty() => draw.of(&record.links),
        6 => (own.0, own.1, draw.below(8) as u32),
        7 => any,
        8 => (own.1, own.0, own.2),
        _ => own,
    }
}

/// A slip: that which asking gave, mostly; else an old one, or one made by hand.
fn draw_slip(draw: &mut Draw, state: State, link: Link, other: Link) -> Slip {
    let change = match draw.below(16) {
        0 => state.change.wrapping_sub(1),
        1 => state.change.wrapping_add(1),
        2 => draw.word(),
        _ => state.change,
    };
    Slip { link: if draw.one_in(16) { other } else { link }, change }
}

impl Test {
    /// A record and a link that is to enter it, asked about and committed. One link of the record is mostly taken out before, so that there is
    /// one which matters.
    pub(super) fn enter(&mut self, draw: &mut Draw) -> Result<(), Difference> {
        let subject = draw_subject(draw, false);
        let mut record = if draw.one_in(400) {
            draw_full(draw)
        } else {
            draw_record(draw, &subject.kinds, subject.size, &subject.catalogue)
        };
        let is_taken = !record.links.is_empty() && !draw.one_in(4);
        let lacking = is_taken.then(|| record.links.remove(draw.below(record.links.len())));
        let catalogue = self.catalogue(draw, &subject, 16);
        let offer = Offer { catalogue: &catalogue, one_way: subject.any_one_way(draw) };
        let state = State { links: draw_count(draw, record.links.len()), change: draw_change(draw) };
        let link = draw_entering(draw, &record, lacking);
        let other = draw_entering(draw, &record, lacking);
        let bytes = file(draw, of_record(&record), 16, RECORD_BYTES);
        let lent = Lent::draw(draw);
        let changes = self.bytes.ask(&mut self.notes, draw, lent, offer, &bytes, (state, link))?;
        let slip = match &changes {
            Ok((_, slip)) if !draw.one_in(3) => *slip,
            _ => draw_slip(draw, state, link, other),
        };
        let entries = match draw.below(16) {
            0 => 0,
            1 | 2 => record.kinds.len(),
            3..=9 => record.kinds.len() + 1,
            _ => record.kinds.len() + 1 + draw.below(20),
        };
        let lent = Lent::draw(draw);
        let model = |room, work| commit(&bytes, &mut { state }, slip, room, entries, work);
        let (lent, _) = fitted(draw, lent, model);
        let lent = (lent, entries);
        let (entered, after) =
            self.bytes.commit(&mut self.entries, &mut self.notes, draw, lent, &bytes, (state, slip))?;
        let (Ok((set, asked)), Ok((entered, index))) = (changes, entered) else {
            return Ok(());
        };
        if asked == slip {
            self.changed(draw, offer, &bytes, (&entered, &index), &set)?;
            self.entered_again(draw, &entered, after, link)?;
        }
        Ok(())
    }

    /// The sheets that a commit changed are those of the set; the index is the record's own.
    fn changed(
        &mut self,
        draw: &mut Draw,
        Offer { catalogue, one_way }: Offer,
        before: &[u8],
        (after, index): (&[u8], &[u16]),
        set: &[usize],
    ) -> Result<(), Difference> {
        let whole = Lent { room: BOOK_BYTES, work: WORK_WORDS };
        let book = reply!(self.bytes, draw, exactly(whole), MakeBook, matching::make_book(catalogue [one_way] before))?;
        let other = reply!(self.bytes, draw, exactly(whole), MakeBook, matching::make_book(catalogue [one_way] after))?;
        let own = reply!(self.entries, draw, exactly(whole), MakeIndex, indexing::make_index(after))?;
        if own.outcome.as_deref() != Ok(index) {
            return Err(format!("entered, and not the record's own index: {index:?}\n"));
        }
        if let (Ok(book), Ok(other)) = (&book.outcome, &other.outcome) {
            if (book != other) == set.is_empty() {
                return Err(format!("the set {set:?}, and the books {book:02x?}\n{other:02x?}\n"));
            }
        }
        let [before, after] = [before, after].map(|record| matching::record_of(record, WORK_WORDS).unwrap());
        let extracts = matching::extracts(files::judge_catalogue(catalogue).unwrap(), one_way).unwrap();
        for (a, extract) in extracts.iter().enumerate() {
            if (extract.sheet(&before) != extract.sheet(&after)) != set.contains(&a) {
                return Err(format!("the set {set:?}, and not so the sheets of extract {a}\n"));
            }
        }
        self.notes.tally.entered += 1;
        self.notes.tally.changing += u64::from(!set.is_empty());
        self.notes.tally.changing_some += u64::from(!set.is_empty() && set.len() < extracts.len());
        Ok(())
    }

    /// The same slip once more is old, and the link is there.
    fn entered_again(&mut self, draw: &mut Draw, record: &[u8], state: State, link: Link) -> Result<(), Difference> {
        let lent = (Lent { room: RECORD_BYTES, work: WORK_WORDS }, INDEX_ENTRIES);
        for change in [state.change, state.change.wrapping_sub(1)] {
            let slip = (state, Slip { link, change });
            let (given, _) = self.bytes.commit(&mut self.entries, &mut self.notes, draw, lent, record, slip)?;
            if given.is_ok() {
                return Err(format!("entered twice: {link:?} into {record:02x?}\n"));
            }
        }
        Ok(())
    }
}
