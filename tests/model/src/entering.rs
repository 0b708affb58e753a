//! A link that is to enter a record: which extracts' sheets it would change, and the record with it.

use crate::files::*;
use crate::indexing::index_of;
use crate::matching::{extracts, record_of};

/// The numbers of the refusals of a slip: one of another change than the last, and one that no change can follow.
pub const OLD_SLIP: u32 = 20;
pub const LAST_CHANGE: u32 = 21;

/// The most links of a record.
pub const RECORD_LINKS: usize = 8_192;

/// The running state beside a record: how many links it has, and how often it was changed.
#[derive(Clone, Copy, Debug, PartialEq, Eq)]
pub struct State {
    pub links: u32,
    pub change: u32,
}

/// What asking gives for the commit: the link, and the change number that it was asked at.
#[derive(Clone, Copy, Debug, PartialEq, Eq)]
pub struct Slip {
    pub link: Link,
    pub change: u32,
}

/// The record with the link at its place in order: 3 if the state's link count isn't the record's, then 4 for an end, 3 for a kind above 7, 6
/// for a link already there, 3 for a full record.
fn entered(record: &Record, state: State, link: Link) -> Result<Record, Refusal> {
    let (from, to, kind) = link;
    let is_item = |item: u32| (item as usize) < record.kinds.len();
    if state.links as usize != record.links.len() {
        return refused(COUNT, RECORD);
    }
    if !is_item(from) || !is_item(to) {
        return refused(STRAY, RECORD);
    }
    if kind > 7 {
        return refused(COUNT, RECORD);
    }
    if record.links.contains(&link) {
        return refused(ORDER, RECORD);
    }
    if record.links.len() == RECORD_LINKS {
        return refused(COUNT, RECORD);
    }
    let mut links = record.links.clone();
    links.push(link);
    links.sort();
    Ok(Record { kinds: record.kinds.clone(), links })
}

/// 14, the catalogue, 19, the record, then what is wrong with the link: the extracts whose lists it would change, each by its rule, and the
/// slip.
pub fn ask(
    catalogue: &[u8],
    one_way: u16,
    record: &[u8],
    state: State,
    link: Link,
    work_words: usize,
) -> Result<(Vec<usize>, Slip), Refusal> {
    judge_desk(work_words)?;
    let extracts = extracts(judge_catalogue(catalogue)?, one_way)?;
    let before = record_of(record, work_words)?;
    let after = entered(&before, state, link)?;
    let changes = |j: &usize| extracts[*j].sheet(&before) != extracts[*j].sheet(&after);
    Ok(((0..extracts.len()).filter(changes).collect(), Slip { link, change: state.change }))
}

/// 14, the record, 20, 21, what is wrong with the link, then 12 for the record's bytes and then for the index's entries: the record with the link and
/// its index. Both numbers of the state become one more; on a refusal they stay.
pub fn commit(
    record: &[u8],
    state: &mut State,
    slip: Slip,
    room_bytes: usize,
    room_entries: usize,
    work_words: usize,
) -> Result<(Vec<u8>, Vec<u16>), Refusal> {
    let before = record_of(record, work_words)?;
    if slip.change != state.change {
        return refused(OLD_SLIP, state.change as usize);
    }
    if state.change == u32::MAX {
        return refused(LAST_CHANGE, state.change as usize);
    }
    let after = entered(&before, *state, slip.link)?;
    let bytes = write_record(&graph_fields(&after.kinds, &after.links), room_bytes, work_words)?;
    let index = index_of(&after);
    if index.len() > room_entries {
        return refused(NO_FIT, index.len());
    }
    *state = State { links: state.links + 1, change: state.change + 1 };
    Ok((bytes, index))
}

#[cfg(test)]
mod tests {
    use super::*;
    use crate::drawing::{draw_files, draw_kinds, draw_link, draw_one_way, Rule};
    use crate::indexing::make_index;
    use crate::matching::{make_book, ONE_WAY};
    use crate::part::tests::{ROOM, WORK};
    use crate::quoting::tests::C;
    use crate::rule::Drawn;

    fn record(kinds: &[u32], links: &[Link]) -> Vec<u8> {
        write_record(&graph_fields(kinds, links), ROOM, WORK).unwrap()
    }

    fn k6() -> Vec<u8> {
        record(&[1, 2, 8, 2], &[(0, 1, 0), (0, 3, 0), (1, 2, 0)])
    }

    const STATE: State = State { links: 3, change: 7 };

    fn asked(one_way: u16, record: &[u8], state: State, link: Link) -> Result<Vec<usize>, Refusal> {
        let (changes, slip) = ask(&C, one_way, record, state, link, WORK)?;
        assert_eq!(slip, Slip { link, change: state.change });
        Ok(changes)
    }

    /// What commit gives, and the state after it.
    type Committed = (Result<(Vec<u8>, Vec<u16>), Refusal>, State);

    fn committed(record: &[u8], mut state: State, slip: Slip, bytes: usize, entries: usize) -> Committed {
        (commit(record, &mut state, slip, bytes, entries, WORK), state)
    }

    #[test]
    fn asked_of_k6() {
        for (link, changes) in [((3, 2, 0), vec![1]), ((3, 2, 1), vec![]), ((2, 0, 0), vec![])] {
            assert_eq!(asked(0, &k6(), STATE, link), Ok(changes));
        }
        // A run that hangs on no section: its reading is listed one-way alone.
        let vial = record(&[1, 2, 8, 2, 2], &[(0, 1, 0), (0, 3, 0), (1, 2, 0)]);
        assert_eq!(asked(0, &vial, STATE, (4, 2, 0)), Ok(vec![]));
        assert_eq!(asked(2, &vial, STATE, (4, 2, 0)), Ok(vec![1]));
        assert_eq!(asked(0, &k6(), State { change: u32::MAX, ..STATE }, (3, 2, 0)), Ok(vec![1]));
    }

    #[test]
    fn committed_to_k6() {
        let bytes = [
            0x00, 0x20, 0x00, 0x80, 0x00, 0x00, 0x00, 0x20, 0x00, 0x00, 0x00, 0x40, 0x00, 0x00, 0x01, 0x00, 0x00, 0x00,
            0x00, 0x40, 0x00, 0x00, 0x20, 0x00, 0x00, 0x0c, 0x00, 0x08, 0x01, 0x00, 0x03, 0x00, 0x20,
        ];
        let slip = Slip { link: (3, 2, 0), change: 7 };
        let after = State { links: 4, change: 8 };
        assert_eq!(committed(&k6(), STATE, slip, 33, 5), (Ok((bytes.to_vec(), vec![0, 2, 3, 3, 4])), after));
        for (bytes, entries, needed) in [(32, 5, 33), (33, 4, 5), (32, 4, 33), (0, 0, 33)] {
            assert_eq!(committed(&k6(), STATE, slip, bytes, entries), (refused(NO_FIT, needed), STATE));
        }
        // First, in the middle, last, and beside one that is there.
        for (link, place) in [((0, 0, 7), 0), ((0, 1, 1), 1), ((0, 2, 5), 1), ((1, 2, 1), 3), ((3, 3, 0), 3)] {
            let (entered, state) = committed(&k6(), STATE, Slip { link, change: 7 }, ROOM, ROOM);
            let (bytes, index) = entered.unwrap();
            assert_eq!((record_of(&bytes, WORK).unwrap().links[place], state), (link, after));
            assert_eq!(make_index(&bytes, ROOM, WORK), Ok(index));
        }
    }

    #[test]
    fn links_that_are_refused() {
        let last = State { change: u32::MAX, ..STATE };
        let slip = |link, change| Slip { link, change };
        for (state, link, number) in [
            (State { links: 2, ..STATE }, (4, 4, 8), COUNT),
            (State { links: 4, ..STATE }, (0, 1, 0), COUNT),
            (STATE, (4, 0, 8), STRAY),
            (STATE, (0, 4, 0), STRAY),
            (STATE, (u32::MAX, 0, 0), STRAY),
            (STATE, (0, 1, 8), COUNT),
            (STATE, (0, 2, u32::MAX), COUNT),
            (STATE, (0, 1, 0), ORDER),
            (STATE, (1, 2, 0), ORDER),
        ] {
            assert_eq!(asked(0, &k6(), state, link), refused(number, RECORD));
            assert_eq!(committed(&k6(), state, slip(link, 7), 0, 0), (refused(number, RECORD), state));
            // A slip's own refusals come first, and the papers before these.
            for change in [6, 8, 0, u32::MAX] {
                assert_eq!(committed(&k6(), state, slip(link, change), 0, 0), (refused(OLD_SLIP, 7), state));
            }
            let last = State { links: state.links, ..last };
            let refusal = refused(LAST_CHANGE, u32::MAX as usize);
            assert_eq!(committed(&k6(), last, slip(link, u32::MAX), 0, 0), (refusal, last));
            assert_eq!(committed(&k6(), last, slip(link, 7), 0, 0), (refused(OLD_SLIP, u32::MAX as usize), last));
            assert_eq!(committed(&k6()[..29], last, slip(link, 7), 0, 0), (refused(SHORT, RECORD), last));
            let mut same = state;
            assert_eq!(commit(&[], &mut same, slip(link, 6), 0, 0, WORK - 1), refused(DESK, 0));
            assert_eq!(same, state);
            assert_eq!(ask(&C[..16], 8, &[], state, link, WORK - 1), refused(DESK, 0));
            assert_eq!(ask(&C[..16], 8, &[], state, link, WORK), refused(SHORT, CATALOGUE));
            assert_eq!(ask(&C, 8, &[], state, link, WORK), refused(ONE_WAY, 3));
            assert_eq!(ask(&C, 7, &[], state, link, WORK), refused(SHORT, RECORD));
        }
    }

    #[test]
    fn a_full_record() {
        let drawn = |links| Drawn { items: 4_096, links, link_form: 6, ..Drawn::default() };
        for (links, is_full) in [(8_191, false), (8_192, true)] {
            let fields = drawn(links).content(true);
            let full = write_record(&fields, RECORD_BYTES, WORK).unwrap();
            let state = State { links: links as u32, change: 0 };
            let slip = Slip { link: (4_095, 4_095, 7), change: 0 };
            let (given, after) = committed(&full, state, slip, ROOM, ROOM);
            if is_full {
                assert_eq!((given, after), (refused(COUNT, RECORD), state));
                assert_eq!(asked(0, &full, state, slip.link), refused(COUNT, RECORD));
                let there = (fields[4_098], fields[4_099], fields[4_100]);
                assert_eq!(asked(0, &full, state, there), refused(ORDER, RECORD));
            } else {
                let (bytes, index) = given.unwrap();
                assert_eq!((bytes.len(), index.len(), index[4_096]), (RECORD_BYTES, 4_097, 8_192));
                assert_eq!(asked(0, &full, state, slip.link), Ok(vec![]));
            }
        }
    }

    #[test]
    fn a_sheet_that_is_too_long_to_write() {
        // Three lists of 8,191 pairs each, and then of 8,192.
        let mut links: Vec<Link> = (0..8_192).map(|link| (link / 2, (link / 2 + link % 2) % 4_096, 0)).collect();
        links.sort();
        let last = links.pop().unwrap();
        let long = record(&vec![1; 4_096], &links);
        let three = write_catalogue(&[1, 2, 3, 0, 0, 0, 0, 0, 0, 1, 0, 1, 0, 0], ROOM, WORK).unwrap();
        let state = State { links: 8_191, change: 0 };
        assert_eq!(make_book(&three, 0, &long, ROOM, WORK).unwrap_err().number, NO_FIT);
        for set in [0, 1] {
            assert_eq!(ask(&three, set, &long, state, last, WORK).map(|(changes, _)| changes), Ok(vec![0]));
            assert_eq!(ask(&three, set, &long, state, (0, 0, 1), WORK).map(|(changes, _)| changes), Ok(vec![]));
        }
    }

    #[test]
    fn the_set_is_of_the_sheets_that_change() {
        let mut rule = Rule::new();
        let (mut changed, mut some, mut entered) = (0, 0, 0);
        for _ in 0..1_500 {
            let kinds = draw_kinds(&mut rule);
            let (question, catalogue) = draw_files(&mut rule, 4, false, kinds);
            let question = judge_pattern(&question).unwrap();
            let extracts = judge_catalogue(&catalogue).unwrap().len();
            let one_way = draw_one_way(&mut rule, extracts);
            let mut links: Vec<Link> = question.links.iter().filter(|_| rule.draw(3) != 0).copied().collect();
            links.sort();
            let kinds: Vec<u32> = question.kinds.iter().map(|kind| 1 << kind).collect();
            let before = record(&kinds, &links);
            let state = State { links: links.len() as u32, change: rule.draw(9) };
            let link = draw_link(&mut rule, &kinds, &question.links);
            let Ok((changes, slip)) = ask(&catalogue, one_way, &before, state, link, WORK) else { continue };
            let (given, _) = committed(&before, state, slip, ROOM, ROOM);
            let (after, index) = given.unwrap();
            assert_eq!(make_index(&after, ROOM, WORK), Ok(index));
            // One extract at a time: its sheet, in bytes.
            for j in 0..extracts {
                let alone = &judge_catalogue(&catalogue).unwrap()[j];
                let alone = [vec![1], graph_fields(&alone.kinds, &alone.links)].concat();
                let alone = write_catalogue(&alone, ROOM, WORK).unwrap();
                let sheet = |record: &[u8]| make_book(&alone, one_way >> j & 1, record, ROOM, WORK).unwrap();
                assert_eq!(sheet(&before) != sheet(&after), changes.contains(&j));
            }
            entered += 1;
            changed += changes.len();
            some += u32::from(!changes.is_empty() && changes.len() < extracts);
        }
        assert!(entered > 500 && changed > 500 && some > 100, "{entered} {changed} {some}");
    }
}
