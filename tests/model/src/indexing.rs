//! An index beside a record: making it, checking one against a record, and searching with it.

use crate::files::*;
use crate::matching::{record_of, search};

/// The number of the refusal of an index that isn't the record's own.
pub const INDEX: u32 = 16;

/// The most entries of an index.
pub const INDEX_ENTRIES: usize = 4_097;

/// For each item the number of links that begin at lower items, then the number of all.
pub fn index_of(record: &Record) -> Vec<u16> {
    let items = record.kinds.len() as u32;
    let below = |item: u32| record.links.iter().filter(|&&(from, ..)| from < item).count();
    let mut index: Vec<u16> = (0..items).map(|item| below(item) as u16).collect();
    index.push(record.links.len() as u16);
    index
}

/// 16, right after the record: the number of entries if that is wrong, else the first position that differs.
fn judge_index(record: &Record, index: &[u16]) -> Result<(), Refusal> {
    let own = index_of(record);
    if index.len() != own.len() {
        return refused(INDEX, index.len());
    }
    match (0..own.len()).find(|&position| index[position] != own[position]) {
        Some(position) => refused(INDEX, position),
        None => Ok(()),
    }
}

/// 14, the record, then 12, which counts entries.
pub fn make_index(record: &[u8], room_entries: usize, work_words: usize) -> Result<Vec<u16>, Refusal> {
    let index = index_of(&record_of(record, work_words)?);
    if index.len() > room_entries {
        return refused(NO_FIT, index.len());
    }
    Ok(index)
}

/// 14, the record, then 16. Gives the number of entries.
pub fn check_index(record: &[u8], index: &[u16], work_words: usize) -> Result<usize, Refusal> {
    judge_index(&record_of(record, work_words)?, index)?;
    Ok(index.len())
}

/// 14, the pattern, the record, 16, then 12: the sheet is that of the search without an index.
pub fn search_indexed(
    pattern: &[u8],
    record: &[u8],
    index: &[u16],
    room: usize,
    work_words: usize,
) -> Result<Vec<u8>, Refusal> {
    read_pattern(pattern, usize::MAX, work_words)?;
    judge_index(&record_of(record, work_words)?, index)?;
    search(pattern, record, room, work_words)
}

#[cfg(test)]
mod tests {
    use super::*;

    const ROOM: usize = BOOK_BYTES;
    const WORK: usize = WORK_WORDS;
    /// Extract 1 of C.
    const SLOW: [u8; 6] = [0x18, 0x40, 0x08, 0xc0, 0x40, 0x90];

    fn record(kinds: &[u32], links: &[Link]) -> Vec<u8> {
        write_record(&graph_fields(kinds, links), ROOM, WORK).unwrap()
    }

    fn k6() -> Vec<u8> {
        record(&[1, 2, 8, 2], &[(0, 1, 0), (0, 3, 0), (1, 2, 0)])
    }

    fn made(record: &[u8]) -> Vec<u16> {
        make_index(record, INDEX_ENTRIES, WORK).unwrap()
    }

    #[test]
    fn entries() {
        assert_eq!(made(&record(&[], &[])), [0]);
        assert_eq!(made(&record(&[0, 0], &[])), [0, 0, 0]);
        assert_eq!(made(&k6()), [0, 2, 3, 3, 3]);
        assert_eq!(made(&record(&[0, 0, 0], &[(2, 0, 0), (2, 1, 0)])), [0, 0, 0, 2]);
    }

    #[test]
    fn links_are_counted_by_their_kinds() {
        let kinds = record(&[1, 2, 8], &[(0, 1, 0), (0, 1, 1), (0, 1, 7), (1, 2, 3), (1, 2, 5)]);
        assert_eq!(made(&kinds), [0, 3, 5, 5]);
        let pattern = write_pattern(&[2, 2, 0, 1, 0, 1, 1, 0, 1, 7], ROOM, WORK).unwrap();
        assert_eq!(search_indexed(&pattern, &kinds, &[0, 3, 5, 5], ROOM, WORK), search(&pattern, &kinds, ROOM, WORK));
        // That of the pairs isn't its own.
        assert_eq!(check_index(&kinds, &[0, 1, 2, 2], WORK), refused(INDEX, 1));
        let all: Vec<Link> = (0..8_192).map(|link| (link / 256, link / 8 % 32, link % 8)).collect();
        let index = made(&record(&[1; 32], &all));
        assert_eq!((index[1], index[31], index[32]), (256, 7_936, 8_192));
    }

    #[test]
    fn the_largest_record() {
        let links: Vec<Link> = (0..8_192).map(|link| (link / 2, link % 2, link % 8)).collect();
        let index = made(&record(&vec![1; 4_096], &links));
        assert_eq!(index.len(), INDEX_ENTRIES);
        assert_eq!(index[1..3], [2, 4]);
        assert_eq!(index[4_095..], [8_190, 8_192]);
    }

    #[test]
    fn the_records_own_and_no_other() {
        let (k6, own) = (k6(), made(&k6()));
        assert_eq!(check_index(&k6, &own, WORK), Ok(5));
        assert_eq!(search_indexed(&SLOW, &k6, &own, ROOM, WORK), search(&SLOW, &k6, ROOM, WORK));
        for position in 0..5 {
            for other in [own[position].wrapping_add(1), own[position].wrapping_sub(1), 0xffff] {
                let mut index = own.clone();
                index[position] = other;
                // A later difference isn't told.
                index[4] = 9;
                assert_eq!(check_index(&k6, &index, WORK), refused(INDEX, position));
                assert_eq!(search_indexed(&SLOW, &k6, &index, ROOM, WORK), refused(INDEX, position));
            }
        }
        // A wrong number of entries comes before a wrong one.
        for (index, detail) in [(&[][..], 0), (&own[..4], 4), (&[7, 2, 3, 3, 3, 3], 6), (&[0; 5_000], 5_000)] {
            assert_eq!(check_index(&k6, index, WORK), refused(INDEX, detail));
            assert_eq!(search_indexed(&SLOW, &k6, index, ROOM, WORK), refused(INDEX, detail));
        }
    }

    #[test]
    fn refusals_in_order() {
        let k6 = k6();
        for (pattern, record, entries, work, number, detail) in [
            (&[][..], &[][..], 0, WORK - 1, DESK, 0),
            (&[], &[], 0, WORK, SHORT, PATTERN),
            (&SLOW, &[], 0, WORK, SHORT, RECORD),
            (&SLOW, &[0; 5], 0, WORK, TAIL, RECORD),
            (&SLOW, &k6, 4, WORK, INDEX, 4),
            (&SLOW, &k6, 5, WORK, NO_FIT, 10),
        ] {
            let index = &[0, 2, 3, 3, 3][..entries];
            assert_eq!(search_indexed(pattern, record, index, 9, work), refused(number, detail));
        }
        assert_eq!(check_index(&[], &[], WORK - 1), refused(DESK, 0));
        assert_eq!(check_index(&[], &[], WORK), refused(SHORT, RECORD));
        assert_eq!(make_index(&[], 0, WORK - 1), refused(DESK, 0));
        assert_eq!(make_index(&[], 0, WORK), refused(SHORT, RECORD));
        assert_eq!(make_index(&k6, 4, WORK), refused(NO_FIT, 5));
        assert_eq!(make_index(&k6, 5, WORK).map(|index| index.len()), Ok(5));
    }
}
