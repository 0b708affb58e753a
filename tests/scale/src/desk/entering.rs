//! The calls by which a link enters a record.

use super::*;
use model::entering::{self, Slip, State};
use model::files::Link;

/// What asking gives: the extracts that the link changes, and the slip.
pub type Changes = Result<(Vec<usize>, Slip), Refusal>;

/// What a commit gives: the record and its index.
pub type Entered = Result<(Vec<u8>, Vec<u16>), Refusal>;

fn lent_state(State { links, change }: State) -> yuthaqim::State {
    yuthaqim::State { links, change }
}

fn lent_slip(Slip { link: (from, to, kind), change }: Slip) -> yuthaqim::Slip {
    yuthaqim::Slip { from, to, kind, change }
}

/// What the model says as the library answers it.
fn told(changes: &Changes) -> yuthaqim::Asked {
    match changes {
        Ok((set, slip)) => yuthaqim::Asked { number: 0, detail: 0, set: bits(set), slip: lent_slip(*slip) },
        Err(refusal) => {
            let yuthaqim::Refusal { number, detail } = refused(refusal);
            let slip = yuthaqim::Slip { from: 0, to: 0, kind: 0, change: 0 };
            yuthaqim::Asked { number, detail, set: 0, slip }
        }
    }
}

fn lengths(entered: &Entered) -> Both {
    match entered {
        Ok((record, index)) => Both { number: 0, detail: 0, first: record.len(), second: index.len() },
        Err(refusal) => {
            let yuthaqim::Refusal { number, detail } = refused(refusal);
            Both { number, detail, first: 0, second: 0 }
        }
    }
}

impl Desk<u8> {
    pub fn ask(
        &mut self,
        notes: &mut Notes,
        draw: &mut Draw,
        lent: Lent,
        Offer { catalogue, one_way }: Offer,
        record: &[u8],
        (state, link): (State, Link),
    ) -> Result<Changes, Difference> {
        let expected = entering::ask(catalogue, one_way, record, state, link, lent.work);
        let work = self.work.lend(lent.work, draw.word());
        let (from, to, kind) = link;
        let library = yuthaqim::Link { from, to, kind };
        let answered = raw::ask(catalogue, one_way, record, lent_state(state), library, work);
        let inputs: [(_, &dyn Debug); 5] =
            [("catalogue", &catalogue), ("one_way", &one_way), ("record", &record), ("state", &state), ("link", &link)];
        let asked = Asked { call: Call::Ask, inputs: &inputs, lent };
        let held = [("answer", answered == told(&expected)), ("workspace", self.work.is_cleared())];
        notes.end(&asked, &expected, &answered, expected.as_ref().err().copied(), &held)?;
        Ok(expected)
    }

    /// The index is lent by another desk, so many entries. With what is given stands the state after it.
    pub fn commit(
        &mut self,
        index: &mut Desk<u16>,
        notes: &mut Notes,
        draw: &mut Draw,
        (lent, entries): (Lent, usize),
        record: &[u8],
        (state, slip): (State, Slip),
    ) -> Result<(Entered, State), Difference> {
        let mut after = state;
        let expected = entering::commit(record, &mut after, slip, lent.room, entries, lent.work);
        let fill = draw.word();
        let mut library = lent_state(state);
        let answered = raw::commit(
            record,
            &mut library,
            lent_slip(slip),
            self.out.lend(lent.room, fill as u8),
            index.out.lend(entries, fill as u16),
            self.work.lend(lent.work, fill),
        );
        let inputs: [(_, &dyn Debug); 4] =
            [("record", &record), ("state", &state), ("slip", &slip), ("entries", &entries)];
        let asked = Asked { call: Call::Commit, inputs: &inputs, lent };
        let (bytes, written) = match &expected {
            Ok((bytes, written)) => (&bytes[..], &written[..]),
            Err(_) => (&[][..], &[][..]),
        };
        let held = [
            ("answer", answered == lengths(&expected)),
            ("state", library == lent_state(after)),
            ("record", self.out.begins(bytes)),
            ("index", index.out.begins(written)),
            ("workspace", self.work.is_cleared()),
        ];
        notes.end(&asked, &expected, &(answered, library), expected.as_ref().err().copied(), &held)?;
        Ok((expected, after))
    }
}
