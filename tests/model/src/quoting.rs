//! Quoting a question with a catalogue, and showing why a question is uncovered.

use crate::files::*;
use crate::matching::{extracts, Extract};

/// The number of the refusal of a showing for a covered question.
pub const COVERED: u32 = 13;

/// Lent to a reader whose content stays inside.
const ENOUGH: usize = usize::MAX;

/// For each question link the extract links that match it, as extract and link, ascending.
pub type Mapping = Vec<Vec<(usize, usize)>>;

#[derive(Clone, Debug, PartialEq, Eq)]
pub struct Quote {
    pub covered: bool,
    pub mapping: Mapping,
    pub chosen: Vec<usize>,
    pub lowest_unmatched: Option<usize>,
}

/// The question read as a record: each item has only its own kind.
fn as_record(question: &Pattern) -> Record {
    Record { kinds: question.kinds.iter().map(|kind| 1 << kind).collect(), links: question.links.clone() }
}

/// 14, the question, then the catalogue.
pub fn judge(question: &[u8], catalogue: &[u8], work_words: usize) -> Result<(Pattern, Catalogue), Refusal> {
    read_pattern(question, ENOUGH, work_words)?;
    read_catalogue(catalogue, ENOUGH, work_words)?;
    Ok((judge_pattern(question)?, judge_catalogue(catalogue)?))
}

/// For each question link the extract links of its kind whose list, on the question read as a record and by the extract's rule,
/// contains it. A list has pairs, which say nothing of a kind: that of the extract link is theirs.
pub fn mapping(question: &Pattern, extracts: &[Extract]) -> Mapping {
    let record = as_record(question);
    let mut mapping = vec![Vec::new(); question.links.len()];
    for (a, extract) in extracts.iter().enumerate() {
        for (b, list) in extract.sheet(&record).iter().enumerate() {
            for (e, &(from, to, kind)) in question.links.iter().enumerate() {
                if extract.pattern.links[b].2 == kind && list.contains(&(from, to)) {
                    mapping[e].push((a, b));
                }
            }
        }
    }
    mapping
}

/// Whether an extract of the set matches the link with these matches.
fn is_matched(matches: &[(usize, usize)], set: &[usize]) -> bool {
    matches.iter().any(|(a, _)| set.contains(a))
}

/// Whether the extracts of the set match every link.
pub fn covers(mapping: &[Vec<(usize, usize)>], set: &[usize]) -> bool {
    lowest_unmatched(mapping, set).is_none()
}

/// The lowest link that the extracts of the set leave unmatched.
pub fn lowest_unmatched(mapping: &[Vec<(usize, usize)>], set: &[usize]) -> Option<usize> {
    mapping.iter().position(|matches| !is_matched(matches, set))
}

/// The chosen set of a covered question: taken going up, then dropped going up again.
fn choose(mapping: &[Vec<(usize, usize)>], extracts: usize) -> Vec<usize> {
    let mut taken = Vec::new();
    for a in 0..extracts {
        if covers(mapping, &taken) {
            break;
        }
        if mapping.iter().any(|matches| is_matched(matches, &[a]) && !is_matched(matches, &taken)) {
            taken.push(a);
        }
    }
    let mut kept = taken.clone();
    for a in taken {
        let without: Vec<usize> = kept.iter().copied().filter(|&other| other != a).collect();
        if covers(mapping, &without) {
            kept = without;
        }
    }
    kept
}

/// The quote of a mapping by so many extracts.
pub fn quoted(mapping: Mapping, extracts: usize) -> Quote {
    let lowest_unmatched = mapping.iter().position(|matches| matches.is_empty());
    let covered = lowest_unmatched.is_none();
    let chosen = if covered { choose(&mapping, extracts) } else { Vec::new() };
    Quote { covered, mapping, chosen, lowest_unmatched }
}

/// 14, the question, the catalogue, then 19.
pub fn quote(question: &[u8], catalogue: &[u8], one_way: u16, work_words: usize) -> Result<Quote, Refusal> {
    let (question, catalogue) = judge(question, catalogue, work_words)?;
    let extracts = extracts(catalogue, one_way)?;
    Ok(quoted(mapping(&question, &extracts), extracts.len()))
}

/// A record's file, its links ascending: 12 if it doesn't fit.
fn write(record: Record, room: usize, work_words: usize) -> Result<Vec<u8>, Refusal> {
    let Record { kinds, mut links } = record;
    links.sort();
    write_record(&graph_fields(&kinds, &links), room, work_words)
}

/// The question read as a record, and the same without its lowest unmatched link, which is the lowest by its number in the
/// question: one link of one kind. 13, then 12 for the first of the two that doesn't fit.
pub fn shown(
    question: &Pattern,
    quote: &Quote,
    room_1: usize,
    room_2: usize,
    work_words: usize,
) -> Result<(Vec<u8>, Vec<u8>), Refusal> {
    let Some(lowest) = quote.lowest_unmatched else {
        return refused(COVERED, 0);
    };
    let whole = as_record(question);
    let mut without = whole.clone();
    without.links.remove(lowest);
    Ok((write(whole, room_1, work_words)?, write(without, room_2, work_words)?))
}

pub fn show(
    question: &[u8],
    catalogue: &[u8],
    one_way: u16,
    room_1: usize,
    room_2: usize,
    work_words: usize,
) -> Result<(Vec<u8>, Vec<u8>), Refusal> {
    let quote = quote(question, catalogue, one_way, work_words)?;
    shown(&judge_pattern(question)?, &quote, room_1, room_2, work_words)
}

#[cfg(test)]
pub mod tests {
    use super::*;
    use crate::drawing::{draw_files, draw_kinds, draw_one_way, Rule};
    use crate::matching::{make_book, search, sheet};

    const WORK: usize = WORK_WORDS;
    pub const D: [u8; 10] = [0x20, 0x80, 0x08, 0x86, 0x02, 0x00, 0x80, 0x98, 0x23, 0x00];
    pub const C: [u8; 17] =
        [0x18, 0x10, 0x20, 0x08, 0x08, 0x18, 0x40, 0x08, 0xc0, 0x40, 0x90, 0x18, 0x40, 0x10, 0xc0, 0x40, 0x90];
    /// Only extract 1 of C.
    pub const SLOW: [u8; 7] = [0x08, 0x18, 0x40, 0x08, 0xc0, 0x40, 0x90];
    /// No extracts.
    pub const NONE: [u8; 1] = [0];

    fn of_d(catalogue: &[u8]) -> Quote {
        quote(&D, catalogue, 0, WORK).unwrap()
    }

    fn slow_to_fast() -> Vec<u8> {
        write_catalogue(&[1, 2, 1, 1, 2, 0, 1, 0], ENOUGH, WORK).unwrap()
    }

    #[test]
    fn k1_the_question() {
        let fields = [4, 4, 0, 1, 2, 3, 0, 1, 0, 0, 2, 0, 1, 3, 0, 2, 3, 0];
        assert_eq!(write_pattern(&fields, ENOUGH, WORK), Ok(D.to_vec()));
    }

    #[test]
    fn k2_covered() {
        let mapping = vec![vec![(0, 0), (1, 0)], vec![(2, 0)], vec![(1, 1)], vec![(2, 1)]];
        let quote = Quote { covered: true, mapping, chosen: vec![1, 2], lowest_unmatched: None };
        assert_eq!(of_d(&C), quote);
    }

    #[test]
    fn k3_uncovered() {
        let mapping = vec![vec![(0, 0)], vec![], vec![(0, 1)], vec![]];
        let quote = Quote { covered: false, mapping, chosen: vec![], lowest_unmatched: Some(1) };
        assert_eq!(of_d(&SLOW), quote);
        let (first, second) = show(&D, &SLOW, 0, ENOUGH, ENOUGH, WORK).unwrap();
        let fields = |links: &[u32]| {
            let mut fields = vec![4, links.len() as u32 / 3, 1, 2, 4, 8];
            fields.extend(links);
            fields
        };
        assert_eq!(read_record(&first, ENOUGH, WORK), Ok(fields(&[0, 1, 0, 0, 2, 0, 1, 3, 0, 2, 3, 0])));
        assert_eq!(read_record(&second, ENOUGH, WORK), Ok(fields(&[0, 1, 0, 1, 3, 0, 2, 3, 0])));
    }

    #[test]
    fn shown_links_ascend() {
        // D with its links turned. Links 0, from 2 to 3, and 2, from 0 to 2, are unmatched.
        let turned = write_pattern(&[4, 4, 0, 1, 2, 3, 2, 3, 0, 1, 3, 0, 0, 2, 0, 0, 1, 0], ENOUGH, WORK).unwrap();
        let (first, second) = show(&turned, &SLOW, 0, ENOUGH, ENOUGH, WORK).unwrap();
        let links = [(0, 1, 0), (0, 2, 0), (1, 3, 0), (2, 3, 0)];
        assert_eq!(read_record(&first, ENOUGH, WORK), Ok(graph_fields(&[1, 2, 4, 8], &links)));
        assert_eq!(read_record(&second, ENOUGH, WORK), Ok(graph_fields(&[1, 2, 4, 8], &links[..3])));
    }

    #[test]
    fn k4_no_extracts() {
        for none in [&NONE[..], &[]] {
            assert_eq!(of_d(none).lowest_unmatched, Some(0));
            assert!(!of_d(none).covered);
            assert_eq!(of_d(none).mapping, vec![vec![]; 4]);
        }
        assert_eq!(show(&D, &[], 0, ENOUGH, ENOUGH, WORK), show(&D, &NONE, 0, ENOUGH, ENOUGH, WORK));
    }

    #[test]
    fn k5_matches_no_link() {
        let quote = of_d(&slow_to_fast());
        assert_eq!(quote.mapping, vec![vec![]; 4]);
        assert_eq!(quote.lowest_unmatched, Some(0));
    }

    #[test]
    fn an_extract_that_fits_in_part_is_not_credited() {
        // Section to slow run to fast run: the first link alone would match.
        let catalogue = write_catalogue(&[1, 3, 2, 0, 1, 2, 0, 1, 0, 1, 2, 0], ENOUGH, WORK).unwrap();
        assert_eq!(of_d(&catalogue).mapping, vec![vec![]; 4]);
    }

    #[test]
    fn taking_stops_when_all_are_matched() {
        // The question itself twice: the second is never taken, so the first is kept.
        let twice = write_catalogue(&[2, 2, 1, 0, 1, 0, 1, 0, 2, 1, 0, 1, 0, 1, 0], ENOUGH, WORK).unwrap();
        let question = write_pattern(&[2, 1, 0, 1, 0, 1, 0], ENOUGH, WORK).unwrap();
        assert_eq!(quote(&question, &twice, 0, WORK).unwrap().chosen, [0]);
    }

    /// Items of kinds 0 and 1 linked by links of these kinds.
    pub fn one(kinds: &[u32]) -> Vec<u32> {
        graph_fields(&[0, 1], &kinds.iter().map(|&kind| (0, 1, kind)).collect::<Vec<Link>>())
    }

    /// The files of a question that has these kinds, and of extracts that have these.
    pub fn of_kinds(question: &[u32], extracts: &[&[u32]]) -> (Vec<u8>, Vec<u8>) {
        let mut fields = vec![extracts.len() as u32];
        fields.extend(extracts.iter().flat_map(|kinds| one(kinds)));
        let question = write_pattern(&one(question), ENOUGH, WORK).unwrap();
        (question, write_catalogue(&fields, ENOUGH, WORK).unwrap())
    }

    /// The links of the two records that are shown, which are of the question's items.
    fn shown(question: &[u8], catalogue: &[u8]) -> (Vec<Link>, Vec<Link>) {
        let (first, second) = show(question, catalogue, 0, ENOUGH, ENOUGH, WORK).unwrap();
        let links = |record: &[u8]| crate::matching::record_of(record, WORK).unwrap().links;
        (links(&first), links(&second))
    }

    #[test]
    fn a_list_holds_the_pair_and_only_one_kind_is_matched() {
        let (question, catalogue) = of_kinds(&[0, 1], &[&[1]]);
        // On the question read as a record the extract's list is the pair of both links.
        let record = as_record(&judge_pattern(&question).unwrap());
        assert_eq!(sheet(&judge_catalogue(&catalogue).unwrap()[0], &record), [[(0, 1)]]);
        let mapping = vec![vec![], vec![(0, 0)]];
        let expected = Quote { covered: false, mapping, chosen: vec![], lowest_unmatched: Some(0) };
        assert_eq!(quote(&question, &catalogue, 0, WORK), Ok(expected));
        assert_eq!(shown(&question, &catalogue), (vec![(0, 1, 0), (0, 1, 1)], vec![(0, 1, 1)]));
    }

    #[test]
    fn links_that_differ_in_their_kinds_alone() {
        for (question, extracts, mapping, chosen) in [
            (&[0, 1][..], &[&[1][..], &[0]][..], vec![vec![(1, 0)], vec![(0, 0)]], vec![0, 1]),
            (&[0, 1], &[&[1, 0]], vec![vec![(0, 1)], vec![(0, 0)]], vec![0]),
            (&[0, 1], &[&[0], &[1, 0]], vec![vec![(0, 0), (1, 1)], vec![(1, 0)]], vec![1]),
            // An extract with a kind that the question lacks fits it nowhere.
            (&[0, 1], &[&[0, 2], &[1]], vec![vec![], vec![(1, 0)]], vec![]),
            (&[7], &[&[0], &[7, 0], &[7]], vec![vec![(2, 0)]], vec![2]),
            (&[0, 1, 2], &[&[2, 0]], vec![vec![(0, 1)], vec![], vec![(0, 0)]], vec![]),
        ] {
            let (question, catalogue) = of_kinds(question, extracts);
            let quote = quote(&question, &catalogue, 0, WORK).unwrap();
            assert_eq!((quote.mapping, quote.chosen), (mapping, chosen));
        }
    }

    #[test]
    fn the_shown_records_differ_in_one_link_of_one_kind() {
        // Kinds out of order in the question: the lowest unmatched link is the lowest by its number.
        let (question, catalogue) = of_kinds(&[5, 0, 3], &[&[3]]);
        let whole = vec![(0, 1, 0), (0, 1, 3), (0, 1, 5)];
        assert_eq!(shown(&question, &catalogue), (whole.clone(), whole[..2].to_vec()));
        let (question, catalogue) = of_kinds(&[5, 0, 3], &[&[5, 3]]);
        assert_eq!(shown(&question, &catalogue), (whole.clone(), whole[1..].to_vec()));
        let (question, catalogue) = of_kinds(&[5, 0, 3], &[]);
        assert_eq!(shown(&question, &catalogue), (whole.clone(), whole[..2].to_vec()));
    }

    #[test]
    fn each_sheet_by_its_own_rule_is_the_same_on_both_shown_records() {
        let mut rule = Rule::new();
        let (mut shown, mut others) = (0, 0);
        for _ in 0..1_500 {
            let kinds = draw_kinds(&mut rule);
            let (question, catalogue) = draw_files(&mut rule, 5, false, kinds);
            let one_way = draw_one_way(&mut rule, judge_catalogue(&catalogue).unwrap().len());
            let Ok((first, second)) = show(&question, &catalogue, one_way, ENOUGH, ENOUGH, WORK) else { continue };
            let book = |set, record: &[u8]| make_book(&catalogue, set, record, ENOUGH, WORK).unwrap();
            assert_eq!(book(one_way, &first), book(one_way, &second));
            let sheet = |record: &[u8]| search(&question, record, ENOUGH, WORK).unwrap();
            assert_ne!(sheet(&first), sheet(&second));
            shown += 1;
            // By another rule for one of them it may be that they aren't.
            let extracts = judge_catalogue(&catalogue).unwrap().len();
            others += u32::from((0..extracts).any(|j| {
                let other = one_way ^ 1 << j;
                book(other, &first) != book(other, &second)
            }));
        }
        assert!(shown > 500 && others > 5, "{shown} {others}");
    }

    #[test]
    fn one_way_matches_more() {
        // 0 → 1, 1 → 1 of one kind by the extract 0 → 0: nothing arrives at item 0.
        let question = write_pattern(&[2, 2, 0, 0, 0, 1, 0, 1, 1, 0], ENOUGH, WORK).unwrap();
        let catalogue = write_catalogue(&[1, 1, 1, 0, 0, 0, 0], ENOUGH, WORK).unwrap();
        assert_eq!(quote(&question, &catalogue, 1, WORK).unwrap().chosen, [0]);
        assert_eq!(quote(&question, &catalogue, 0, WORK).unwrap().lowest_unmatched, Some(0));
        // What matches both ways matches one-way too.
        let mut rule = Rule::new();
        for _ in 0..300 {
            let kinds = draw_kinds(&mut rule);
            let (question, catalogue) = draw_files(&mut rule, 5, false, kinds);
            let all = ((1u32 << judge_catalogue(&catalogue).unwrap().len()) - 1) as u16;
            let [both, one_way] = [0, all].map(|set| quote(&question, &catalogue, set, WORK).unwrap().mapping);
            assert!(both.iter().zip(&one_way).all(|(both, one_way)| both.iter().all(|link| one_way.contains(link))));
        }
    }

    #[test]
    fn an_extract_that_follows_a_link_of_another_kind() {
        // D whose link from slow run to reading has kind 1: extract 1 of C doesn't fit it.
        let question = write_pattern(&[4, 4, 0, 1, 2, 3, 0, 1, 0, 0, 2, 0, 1, 3, 1, 2, 3, 0], ENOUGH, WORK).unwrap();
        let quote = quote(&question, &C, 0, WORK).unwrap();
        assert_eq!(quote.mapping, [vec![(0, 0)], vec![(2, 0)], vec![], vec![(2, 1)]]);
    }

    #[test]
    fn refusals_in_order() {
        for (question, catalogue, work, number, detail) in [
            (&D[..9], &C[..16], WORK - 1, DESK, 0),
            (&D[..9], &C[..16], WORK, SHORT, PATTERN),
            (&[0; 57][..], &C[..16], WORK, LONG, PATTERN),
            (&D[..], &C[..16], WORK, SHORT, CATALOGUE),
            (&D[..], &[0; 898][..], WORK, LONG, CATALOGUE),
        ] {
            assert_eq!(quote(question, catalogue, 0, work), refused(number, detail));
            assert_eq!(show(question, catalogue, 0, 0, 0, work), refused(number, detail));
        }
        assert_eq!(show(&D, &C, 0, 0, 0, WORK), refused(COVERED, 0));
        let (first, second) = show(&D, &SLOW, 0, ENOUGH, ENOUGH, WORK).unwrap();
        assert_eq!(show(&D, &SLOW, 0, first.len() - 1, 0, WORK), refused(NO_FIT, first.len()));
        assert_eq!(show(&D, &SLOW, 0, first.len(), second.len() - 1, WORK), refused(NO_FIT, second.len()));
        assert!(show(&D, &SLOW, 0, first.len(), second.len(), WORK).is_ok());
    }
}
