//! Matching by simulation: searching a record for a pattern, both ways, and making the book of a catalogue from a record, each extract
//! by its own rule.

use crate::files::*;

/// The number of the refusal of a set that names an extract which isn't in the catalogue.
pub const ONE_WAY: u32 = 19;

/// Lent to a reader whose content stays inside.
const ENOUGH: usize = usize::MAX;

/// 14, then a record, by its content: two counts, the kinds, the links.
pub fn record_of(bytes: &[u8], work_words: usize) -> Result<Record, Refusal> {
    let fields = read_record(bytes, ENOUGH, work_words)?;
    let items = fields[0] as usize;
    let kinds = fields[2..2 + items].to_vec();
    let links = fields[2 + items..].chunks(3).map(|link| (link[0], link[1], link[2])).collect();
    Ok(Record { kinds, links })
}

/// By which links a pair is supported: one-way by those that leave, or both ways by those that arrive too.
#[derive(Clone, Copy, Debug, PartialEq, Eq)]
pub enum Ways {
    Leaving,
    Both,
}

/// An extract: a pattern and the rule by which it is matched, against a question and on a record.
#[derive(Clone, Debug, PartialEq, Eq)]
pub struct Extract {
    pub pattern: Pattern,
    pub ways: Ways,
}

/// The extracts of a catalogue with a set: the bit worth 2^j says that extract j is matched one-way, the others are both ways. 19 right
/// after the catalogue, with the lowest number in the set that no extract has.
pub fn extracts(catalogue: Catalogue, one_way: u16) -> Result<Vec<Extract>, Refusal> {
    let is_named = |j: &usize| one_way >> j & 1 == 1;
    if let Some(lowest) = (catalogue.len()..16).find(is_named) {
        return refused(ONE_WAY, lowest);
    }
    let ways = |j: usize| if is_named(&j) { Ways::Leaving } else { Ways::Both };
    Ok(catalogue.into_iter().enumerate().map(|(j, pattern)| Extract { pattern, ways: ways(j) }).collect())
}

/// The greatest simulation: whether pattern item u and record item v are related stands at `[u][v]`.
///
/// It starts with every pair of which v has u's kind, and a pair that lacks what a simulation asks of it is
/// dropped, until none is. A pair of any simulation is never dropped, so all of them lie in what is left.
fn greatest_simulation(pattern: &Pattern, ways: Ways, record: &Record) -> Vec<Vec<bool>> {
    let mut leaving = vec![Vec::new(); record.kinds.len()];
    let mut arriving = vec![Vec::new(); record.kinds.len()];
    for &(from, to, kind) in &record.links {
        leaving[from as usize].push((to as usize, kind));
        arriving[to as usize].push((from as usize, kind));
    }
    let has = |v: usize, kind: u32| record.kinds[v] >> kind & 1 == 1;
    let items = 0..record.kinds.len();
    let mut related: Vec<Vec<bool>> =
        pattern.kinds.iter().map(|&kind| items.clone().map(|v| has(v, kind)).collect()).collect();
    loop {
        let mut dropped = false;
        for &(u, next, kind) in &pattern.links {
            // As the link leaves its one end, and where the rule is both ways, as it arrives at the other.
            let ends = [(u, next, &leaving), (next, u, &arriving)];
            for (own, other, beside) in ends.into_iter().take(if ways == Ways::Both { 2 } else { 1 }) {
                for v in items.clone() {
                    let supported = beside[v].iter().any(|&(w, its)| its == kind && related[other as usize][w]);
                    if related[own as usize][v] && !supported {
                        related[own as usize][v] = false;
                        dropped = true;
                    }
                }
            }
        }
        if !dropped {
            return related;
        }
    }
}

/// A pattern's sheet from a record by a rule: a pair for each record link of the pattern link's kind that joins partners.
fn sheet_by(pattern: &Pattern, ways: Ways, record: &Record) -> Sheet {
    let related = greatest_simulation(pattern, ways, record);
    if related.iter().any(|partners| !partners.contains(&true)) {
        return vec![Vec::new(); pattern.links.len()];
    }
    let mut links = record.links.clone();
    links.sort();
    let listed = |&(u, next, kind): &Link| {
        let both = |v: u32, w: u32| related[u as usize][v as usize] && related[next as usize][w as usize];
        let met = links.iter().filter(|&&(v, w, its)| its == kind && both(v, w));
        met.map(|&(v, w, _)| (v, w)).collect()
    };
    pattern.links.iter().map(listed).collect()
}

/// The sheet of a question or another lone pattern, always both ways.
pub fn sheet(pattern: &Pattern, record: &Record) -> Sheet {
    sheet_by(pattern, Ways::Both, record)
}

impl Extract {
    /// An extract's sheet, by its own rule.
    pub fn sheet(&self, record: &Record) -> Sheet {
        sheet_by(&self.pattern, self.ways, record)
    }
}

/// A sheet's content: 0 where nothing was found, else 1 and the count and the pairs of each list.
pub fn fields(sheet: &Sheet) -> Vec<u32> {
    if sheet.iter().all(|list| list.is_empty()) {
        return vec![0];
    }
    let mut fields = vec![1];
    for list in sheet {
        fields.push(list.len() as u32);
        for &(from, to) in list {
            fields.push(from);
            fields.push(to);
        }
    }
    fields
}

/// 14, the pattern, the record, then 12.
pub fn search(pattern: &[u8], record: &[u8], room: usize, work_words: usize) -> Result<Vec<u8>, Refusal> {
    read_pattern(pattern, ENOUGH, work_words)?;
    let record = record_of(record, work_words)?;
    let sheet = sheet(&judge_pattern(pattern)?, &record);
    write_sheet(pattern, &fields(&sheet), room, work_words)
}

/// 14, the catalogue, 19, the record, then 12. A book of a record has no more different pairs than the record has
/// links, whatever their kinds, so 10 doesn't fall to it.
pub fn make_book(
    catalogue: &[u8],
    one_way: u16,
    record: &[u8],
    room: usize,
    work_words: usize,
) -> Result<Vec<u8>, Refusal> {
    read_catalogue(catalogue, ENOUGH, work_words)?;
    let extracts = extracts(judge_catalogue(catalogue)?, one_way)?;
    let record = record_of(record, work_words)?;
    let book: Vec<u32> = extracts.iter().flat_map(|extract| fields(&extract.sheet(&record))).collect();
    write_book(catalogue, &book, room, work_words)
}

#[cfg(test)]
mod tests {
    use super::*;

    const ROOM: usize = BOOK_BYTES;
    const WORK: usize = WORK_WORDS;

    const D: [u8; 10] = [0x20, 0x80, 0x08, 0x86, 0x02, 0x00, 0x80, 0x98, 0x23, 0x00];
    const C: [u8; 17] =
        [0x18, 0x10, 0x20, 0x08, 0x08, 0x18, 0x40, 0x08, 0xc0, 0x40, 0x90, 0x18, 0x40, 0x10, 0xc0, 0x40, 0x90];
    /// Extract 1 of C alone.
    const SLOW: [u8; 6] = [0x18, 0x40, 0x08, 0xc0, 0x40, 0x90];
    /// Kind 5 linked to itself.
    const SELF: [u32; 6] = [1, 1, 5, 0, 0, 0];

    fn pattern(fields: &[u32]) -> Vec<u8> {
        write_pattern(fields, ROOM, WORK).unwrap()
    }

    fn record(kinds: &[u32], links: &[Link]) -> Vec<u8> {
        write_record(&graph_fields(kinds, links), ROOM, WORK).unwrap()
    }

    fn listed(pattern: &[u8], record: &[u8]) -> Vec<u32> {
        let sheet = search(pattern, record, ROOM, WORK).unwrap();
        read_sheet(pattern, &sheet, ROOM, WORK).unwrap()
    }

    fn k6() -> Vec<u8> {
        record(&[1, 2, 8, 2], &[(0, 1, 0), (0, 3, 0), (1, 2, 0)])
    }

    #[test]
    fn k6_lists_two_of_three() {
        let bytes = [0x80, 0x02, 0x00, 0x00, 0x02, 0x00, 0x08, 0x00, 0x80, 0x10];
        assert_eq!(search(&SLOW, &k6(), ROOM, WORK), Ok(bytes.to_vec()));
        assert_eq!(listed(&SLOW, &k6()), [1, 1, 0, 1, 1, 1, 2]);
    }

    /// K6 with a run of kind 1 that hangs on no section, and a link from it to the reading.
    fn k6_and_a_vial() -> Vec<u8> {
        record(&[1, 2, 8, 2, 2], &[(0, 1, 0), (0, 3, 0), (1, 2, 0), (4, 2, 0)])
    }

    #[test]
    fn what_hangs_on_no_section_is_not_listed() {
        let bytes = [
            0x00, 0x28, 0x00, 0x80, 0x00, 0x00, 0x00, 0x20, 0x00, 0x00, 0x00, 0x40, 0x00, 0x00, 0x01, 0x00, 0x00, 0x00,
            0x00, 0x40, 0x00, 0x00, 0x00, 0x40, 0x00, 0x00, 0x20, 0x00, 0x00, 0x0c, 0x00, 0x08, 0x01, 0x00, 0x04, 0x00,
            0x20,
        ];
        assert_eq!(k6_and_a_vial(), bytes);
        assert_eq!(listed(&SLOW, &k6_and_a_vial()), [1, 1, 0, 1, 1, 1, 2]);
        // The same by links of another kind, which support nothing as they arrive.
        let other = record(&[1, 2, 8, 2], &[(0, 1, 1), (0, 3, 0), (1, 2, 0), (3, 2, 1)]);
        assert_eq!(listed(&SLOW, &other), [0]);
        let both = record(&[1, 2, 8, 2], &[(0, 1, 0), (0, 1, 1), (0, 3, 1), (1, 2, 0), (3, 2, 0)]);
        assert_eq!(listed(&SLOW, &both), [1, 1, 0, 1, 1, 1, 2]);
        // A reading that has a slow run alone is none of D's, whose reading has both.
        let apart = record(&[1, 2, 4, 8, 8], &[(0, 1, 0), (0, 2, 0), (1, 3, 0), (2, 4, 0)]);
        assert_eq!(listed(&D, &apart), [0]);
    }

    #[test]
    fn by_its_own_rule() {
        // Extract 1 of C lists the vial's reading one-way; the others list the same either way.
        let two_way = make_book(&C, 0, &k6_and_a_vial(), ROOM, WORK).unwrap();
        let one_way = make_book(&C, 2, &k6_and_a_vial(), ROOM, WORK).unwrap();
        assert_eq!(read_book(&C, &two_way, ROOM, WORK).unwrap(), [1, 2, 0, 1, 0, 3, 1, 1, 0, 1, 1, 1, 2, 0]);
        assert_eq!(read_book(&C, &one_way, ROOM, WORK).unwrap(), [1, 2, 0, 1, 0, 3, 1, 1, 0, 1, 2, 1, 2, 4, 2, 0]);
        for (set, book) in [(1, &two_way), (4, &two_way), (5, &two_way), (3, &one_way), (6, &one_way), (7, &one_way)] {
            assert_eq!(make_book(&C, set, &k6_and_a_vial(), ROOM, WORK).as_ref(), Ok(book));
        }
    }

    #[test]
    fn a_set_names_extracts_alone() {
        for (catalogue, set, lowest) in
            [(&C[..], 8, 3), (&C, 0xffff, 3), (&C, 0x8007, 15), (&[0], 32_769, 0), (&[], 32_769, 0), (&[], 2, 1)]
        {
            assert_eq!(make_book(catalogue, set, &[], 0, WORK), refused(ONE_WAY, lowest));
            assert_eq!(make_book(catalogue, set, &[], 0, WORK - 1), refused(DESK, 0));
        }
        assert_eq!(make_book(&C[..16], 8, &[], 0, WORK), refused(SHORT, CATALOGUE));
        assert_eq!(make_book(&C, 7, &[], 0, WORK), refused(SHORT, RECORD));
        let sixteen = Extract { pattern: judge_pattern(&SLOW).unwrap(), ways: Ways::Leaving };
        assert_eq!(extracts(vec![sixteen.pattern.clone(); 16], 0xffff), Ok(vec![sixteen; 16]));
    }

    #[test]
    fn k7_the_greatest_and_not_the_least() {
        let both_ways = record(&[32, 32], &[(0, 1, 0), (1, 0, 0)]);
        assert_eq!(listed(&pattern(&SELF), &both_ways), [1, 2, 0, 1, 1, 0]);
    }

    #[test]
    fn k8_a_chain_has_none() {
        let chain = record(&[32, 32, 32], &[(0, 1, 0), (1, 2, 0)]);
        assert_eq!(listed(&pattern(&SELF), &chain), [0]);
    }

    #[test]
    fn k9_one_item_for_two() {
        let run = record(&[1, 6, 8], &[(0, 1, 0), (1, 2, 0)]);
        assert_eq!(listed(&D, &run), [1, 1, 0, 1, 1, 0, 1, 1, 1, 2, 1, 1, 2]);
    }

    #[test]
    fn k10_an_empty_record() {
        let one = pattern(&[2, 1, 0, 1, 0, 1, 0]);
        assert_eq!(search(&one, &record(&[], &[]), ROOM, WORK), Ok(vec![0]));
        assert_eq!(search(&one, &record(&[], &[]), 0, WORK), refused(NO_FIT, 1));
    }

    #[test]
    fn links_out_of_order() {
        let turned = graph_fields(&[1, 2, 8, 2], &[(1, 2, 0), (0, 3, 0), (0, 1, 0)]);
        assert_eq!(make_book(&C, 0, &pack_record(&turned), ROOM, WORK), refused(ORDER, RECORD));
        assert_eq!(search(&SLOW, &pack_record(&turned), ROOM, WORK), refused(ORDER, RECORD));
        assert_eq!(sort_record(&pack_old_record(&turned), ROOM, WORK), Ok(k6()));
    }

    /// An item of kind 0 linked to one of kind 1 by links of these kinds.
    fn one(kinds: &[u32]) -> Vec<u32> {
        graph_fields(&[0, 1], &kinds.iter().map(|&kind| (0, 1, kind)).collect::<Vec<Link>>())
    }

    #[test]
    fn a_link_is_met_by_one_of_its_kind() {
        // Items 0 and 1 of kind 0, items 2 and 3 of kind 1.
        let kinds = record(&[1, 1, 2, 2], &[(0, 2, 0), (0, 2, 1), (0, 3, 1), (1, 2, 7), (1, 3, 0)]);
        for (links, lists) in [
            (&[0][..], &[1, 2, 0, 2, 1, 3][..]),
            (&[1], &[1, 2, 0, 2, 0, 3]),
            (&[7], &[1, 1, 1, 2]),
            (&[2], &[0]),
            // Item 1 has no link of kind 1, so its link of kind 0 goes, and item 3, at which no other of that kind arrives.
            (&[0, 1], &[1, 1, 0, 2, 1, 0, 2]),
            (&[1, 0], &[1, 1, 0, 2, 1, 0, 2]),
            // Item 1 has links of both kinds, but no item has both arriving.
            (&[0, 7], &[0]),
            (&[0, 1, 7], &[0]),
        ] {
            assert_eq!(listed(&pattern(&one(links)), &kinds), lists);
        }
    }

    #[test]
    fn a_link_of_another_kind_supports_nothing() {
        // K6 with the link from run to reading of kind 1.
        let other = record(&[1, 2, 8, 2], &[(0, 1, 0), (0, 3, 0), (1, 2, 1)]);
        assert_eq!(listed(&SLOW, &other), [0]);
        let mixed = pattern(&[3, 2, 0, 1, 3, 0, 1, 0, 1, 2, 1]);
        assert_eq!(listed(&mixed, &other), [1, 1, 0, 1, 1, 1, 2]);
        assert_eq!(listed(&mixed, &k6()), [0]);
        // K7 round a cycle whose links have two kinds.
        let both_ways = record(&[32, 32], &[(0, 1, 0), (1, 0, 1)]);
        assert_eq!(listed(&pattern(&SELF), &both_ways), [0]);
        let round = pattern(&[2, 2, 5, 5, 0, 1, 0, 1, 0, 1]);
        assert_eq!(listed(&round, &both_ways), [1, 1, 0, 1, 1, 1, 0]);
    }

    #[test]
    fn a_sorted_record_has_links_of_kind_0() {
        let old = pack_old_record(&graph_fields(&[1, 2], &[(0, 1, 0)]));
        let sorted = sort_record(&old, ROOM, WORK).unwrap();
        assert_eq!(listed(&pattern(&one(&[0])), &sorted), [1, 1, 0, 1]);
        for kind in 1..8 {
            assert_eq!(listed(&pattern(&one(&[kind])), &sorted), [0]);
            assert_eq!(listed(&pattern(&one(&[0, kind])), &sorted), [0]);
        }
    }

    #[test]
    fn a_book_has_its_sheets_one_after_the_other() {
        let mut sheets = Vec::new();
        for extract in judge_catalogue(&C).unwrap() {
            let fields = graph_fields(&extract.kinds, &extract.links);
            sheets.extend(search(&pattern(&fields), &k6(), ROOM, WORK).unwrap());
        }
        assert_eq!(make_book(&C, 0, &k6(), ROOM, WORK), Ok(sheets));
        for no_extracts in [&[0][..], &[]] {
            assert_eq!(make_book(no_extracts, 0, &k6(), 0, WORK), Ok(vec![]));
        }
    }

    #[test]
    fn refusals_in_order() {
        assert_eq!(search(&[], &[], 0, WORK - 1), refused(DESK, 0));
        assert_eq!(search(&[], &[], 0, WORK), refused(SHORT, PATTERN));
        assert_eq!(search(&[0; 57], &[], 0, WORK), refused(LONG, PATTERN));
        assert_eq!(search(&SLOW, &[], 0, WORK), refused(SHORT, RECORD));
        assert_eq!(search(&SLOW, &k6(), 9, WORK), refused(NO_FIT, 10));
        assert_eq!(search(&SLOW, &k6(), 10, WORK).map(|sheet| sheet.len()), Ok(10));
        assert_eq!(make_book(&[], 0, &[], 0, WORK - 1), refused(DESK, 0));
        assert_eq!(make_book(&C[..16], 0, &[], 0, WORK), refused(SHORT, CATALOGUE));
        assert_eq!(make_book(&C, 0, &[], 0, WORK), refused(SHORT, RECORD));
        let length = make_book(&C, 0, &k6(), ROOM, WORK).unwrap().len();
        assert_eq!(make_book(&C, 0, &k6(), length - 1, WORK), refused(NO_FIT, length));
    }

    #[test]
    fn a_sheet_over_its_most_bytes() {
        // Three lists of 8,192 pairs each.
        let mut links: Vec<Link> = (0..8_192).map(|link| (link / 2, (link / 2 + link % 2) % 4_096, 0)).collect();
        links.sort();
        let full = record(&vec![1; 4_096], &links);
        let three = pattern(&[2, 3, 0, 0, 0, 0, 0, 0, 1, 0, 1, 0, 0]);
        let length = (1 + 3 * 14 + 3 * 8_192 * 24usize).div_ceil(8);
        assert_eq!(search(&three, &full, ENOUGH, WORK), refused(NO_FIT, length));
    }
}
