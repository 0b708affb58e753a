//! Extracts with terms: quotes, cheapest sets, parts and showings for a day, and the first day on which a question is covered.

use crate::answering::answer_from;
use crate::cheapest::{cheapest_of, Cheapest};
use crate::files::*;
use crate::matching::extracts;
use crate::part;
use crate::quoting::{self, judge, shown, Mapping, Quote};

/// The number of the refusal of a list of terms.
pub const TERMS: u32 = 18;

/// A from-day, which counts, and a to-day, which doesn't.
#[derive(Clone, Copy, Debug, PartialEq, Eq)]
pub struct Term {
    pub from: u16,
    pub to: u16,
}

fn is_in_force(term: &Term, day: u16) -> bool {
    term.from <= day && day < term.to
}

/// The extracts in force on a day.
pub fn in_force(terms: &[Term], day: u16) -> Vec<usize> {
    (0..terms.len()).filter(|&a| is_in_force(&terms[a], day)).collect()
}

/// 18, right after the catalogue: the number of entries if that isn't the number of extracts, else the first position, from 0,
/// whose from-day isn't below its to-day.
fn judge_terms(extracts: usize, terms: &[Term]) -> Result<(), Refusal> {
    if terms.len() != extracts {
        return refused(TERMS, terms.len());
    }
    match terms.iter().position(|term| term.from >= term.to) {
        Some(position) => refused(TERMS, position),
        None => Ok(()),
    }
}

/// 14, the question, the catalogue, 18, then 19: the mapping by all extracts, whatever their terms are.
fn judged(
    question: &[u8],
    catalogue: &[u8],
    one_way: u16,
    terms: &[Term],
    work_words: usize,
) -> Result<(Pattern, Mapping), Refusal> {
    let (question, catalogue) = judge(question, catalogue, work_words)?;
    judge_terms(catalogue.len(), terms)?;
    let mapping = quoting::mapping(&question, &extracts(catalogue, one_way)?);
    Ok((question, mapping))
}

/// A mapping by those of its extracts that are in a set.
fn only(mapping: Mapping, set: &[usize]) -> Mapping {
    mapping.into_iter().map(|matches| matches.into_iter().filter(|(a, _)| set.contains(a)).collect()).collect()
}

/// The quote that uses only extracts in force.
pub fn quote_on(
    question: &[u8],
    catalogue: &[u8],
    one_way: u16,
    terms: &[Term],
    day: u16,
    work_words: usize,
) -> Result<Quote, Refusal> {
    let (_, mapping) = judged(question, catalogue, one_way, terms, work_words)?;
    Ok(quoting::quoted(only(mapping, &in_force(terms, day)), terms.len()))
}

/// After 19 15, for which all extracts count, and 11: the cheapest of the sets of extracts in force that cover.
pub fn cheapest_on(
    question: &[u8],
    catalogue: &[u8],
    one_way: u16,
    terms: &[Term],
    day: u16,
    charges: &[u32],
    work_words: usize,
) -> Result<Cheapest, Refusal> {
    let quote = quote_on(question, catalogue, one_way, terms, day, work_words)?;
    cheapest_of(quote, terms.len(), &in_force(terms, day), charges)
}

/// A set of extracts: the bit worth 2^a says extract a.
pub fn bits(set: &[usize]) -> u16 {
    set.iter().map(|a| 1 << a).sum()
}

/// After 19 the book, 10, 11 and 12: the part that has the links matched by extracts in force, and its answer by its own quote for
/// the day.
#[allow(clippy::too_many_arguments)]
pub fn part_on(
    question: &[u8],
    catalogue: &[u8],
    one_way: u16,
    terms: &[Term],
    day: u16,
    book: &[u8],
    room_1: usize,
    room_2: usize,
    work_words: usize,
) -> Result<(Vec<u8>, Vec<u8>), Refusal> {
    let quote = quote_on(question, catalogue, one_way, terms, day, work_words)?;
    judge_book(&judge_catalogue(catalogue)?, book)?;
    let part = part::written(question, &quote.mapping, room_1, work_words)?;
    let chosen = quote_on(&part, catalogue, one_way, terms, day, work_words)?.chosen;
    let answer = answer_from(&part, catalogue, one_way, bits(&chosen), book, room_2, work_words)?;
    Ok((part, answer))
}

/// After 19 13 and 12: the question as a record, and without the lowest link that the extracts in force leave unmatched.
#[allow(clippy::too_many_arguments)]
pub fn show_on(
    question: &[u8],
    catalogue: &[u8],
    one_way: u16,
    terms: &[Term],
    day: u16,
    room_1: usize,
    room_2: usize,
    work_words: usize,
) -> Result<(Vec<u8>, Vec<u8>), Refusal> {
    let quote = quote_on(question, catalogue, one_way, terms, day, work_words)?;
    shown(&judge_pattern(question)?, &quote, room_1, room_2, work_words)
}

/// The first day, not before the given one, on which the extracts in force cover the question, or none. Each day is tried. For each
/// link the extracts that match it are bits of a number, as those in force on a day are.
pub fn first_day(
    question: &[u8],
    catalogue: &[u8],
    one_way: u16,
    terms: &[Term],
    day: u16,
    work_words: usize,
) -> Result<Option<u16>, Refusal> {
    let (_, mapping) = judged(question, catalogue, one_way, terms, work_words)?;
    let matching = |matches: &Vec<(usize, usize)>| matches.iter().fold(0u16, |set, (a, _)| set | 1 << a);
    let links: Vec<u16> = mapping.iter().map(matching).collect();
    let is_covered = |day: &u16| {
        let force = terms.iter().rev().fold(0u16, |set, term| set << 1 | u16::from(is_in_force(term, *day)));
        links.iter().all(|set| set & force != 0)
    };
    Ok((day..=u16::MAX).find(is_covered))
}

#[cfg(test)]
mod tests {
    use super::*;
    use crate::answering::UNCOVERED;
    use crate::cheapest::{cheapest, CHARGES};
    use crate::drawing::{draw_files, draw_kinds, Rule};
    use crate::matching::{make_book, search};
    use crate::part::tests::{K9_BOOK, ROOM, WORK};
    use crate::quoting::tests::{C, D, NONE};
    use crate::quoting::{quote, show, COVERED};

    fn terms(days: &[(u16, u16)]) -> Vec<Term> {
        days.iter().map(|&(from, to)| Term { from, to }).collect()
    }

    fn season() -> Vec<Term> {
        terms(&[(10, 20), (10, 15), (12, 20)])
    }

    fn on(day: u16) -> Quote {
        quote_on(&D, &C, 0, &season(), day, WORK).unwrap()
    }

    #[test]
    fn d_with_c_by_days() {
        for (day, lowest) in [(0, 0), (9, 0), (10, 1), (11, 1), (15, 2), (19, 2), (20, 0), (65_535, 0)] {
            assert_eq!((on(day).covered, on(day).lowest_unmatched), (false, Some(lowest)));
            assert!(on(day).chosen.is_empty());
        }
        assert_eq!(on(9).mapping, vec![vec![]; 4]);
        assert_eq!(on(10).mapping, [vec![(0, 0), (1, 0)], vec![], vec![(1, 1)], vec![]]);
        for day in 12..15 {
            assert_eq!(Ok(on(day)), quote(&D, &C, 0, WORK));
        }
    }

    #[test]
    fn the_first_day() {
        let of = |days: &[(u16, u16)], day| first_day(&D, &C, 0, &terms(days), day, WORK).unwrap();
        let season = [(10, 20), (10, 15), (12, 20)];
        for (day, first) in [(0, Some(12)), (12, Some(12)), (14, Some(14)), (15, None)] {
            assert_eq!(of(&season, day), first);
        }
        let apart = [(1, 2), (30, 40), (20, 35)];
        for (day, first) in [(0, Some(30)), (34, Some(34)), (35, None)] {
            assert_eq!(of(&apart, day), first);
        }
        let late = [(1, 2), (0, 65_535), (65_534, 65_535)];
        for (day, first) in [(0, Some(65_534)), (65_534, Some(65_534)), (65_535, None)] {
            assert_eq!(of(&late, day), first);
        }
    }

    #[test]
    fn lists_that_are_refused() {
        for (days, detail) in [
            (&[(10, 20), (10, 15)][..], 2),
            (&[(10, 20), (10, 15), (12, 20), (0, 1)], 4),
            (&[], 0),
            (&[(10, 20), (15, 10), (12, 20)], 1),
            (&[(10, 20), (10, 10), (20, 12)], 1),
            (&[(20, 10), (10, 15)], 2),
        ] {
            let list = terms(days);
            assert_eq!(quote_on(&D, &C, 0, &list, 12, WORK), refused(TERMS, detail));
            assert_eq!(cheapest_on(&D, &C, 0, &list, 12, &[0; 2], WORK), refused(TERMS, detail));
            assert_eq!(part_on(&D, &C, 0, &list, 12, &[0xff], 0, 0, WORK), refused(TERMS, detail));
            assert_eq!(show_on(&D, &C, 0, &list, 12, 0, 0, WORK), refused(TERMS, detail));
            assert_eq!(first_day(&D, &C, 0, &list, 12, WORK), refused(TERMS, detail));
            assert_eq!(quote_on(&D, &C, 0, &list, 12, WORK - 1), refused(DESK, 0));
            assert_eq!(quote_on(&D[..9], &C[..16], 0, &list, 12, WORK), refused(SHORT, PATTERN));
            assert_eq!(quote_on(&D, &C[..16], 0, &list, 12, WORK), refused(SHORT, CATALOGUE));
        }
        for none in [&NONE[..], &[]] {
            assert_eq!(quote_on(&D, none, 0, &[], 5, WORK), quote(&D, none, 0, WORK));
            assert_eq!(first_day(&D, none, 0, &[], 5, WORK), Ok(None));
            assert_eq!(quote_on(&D, none, 0, &terms(&[(0, 1)]), 5, WORK), refused(TERMS, 1));
        }
        assert_eq!(quote_on(&D, &C, 0, &[Term { from: 0, to: 1 }; 70_000], 5, WORK), refused(TERMS, 70_000));
    }

    #[test]
    fn the_cheapest_on_a_day() {
        let charges = [100, 200, 150];
        let of = |day| cheapest_on(&D, &C, 0, &season(), day, &charges, WORK);
        assert_eq!(of(12), cheapest(&D, &C, 0, &charges, WORK));
        assert_eq!(of(10), refused(UNCOVERED, 1));
        assert_eq!(cheapest_on(&D, &C, 0, &season(), 12, &charges[..2], WORK), refused(CHARGES, 2));
        // Extracts 1, 1 and 2 of C: the first costs nothing, and is not in force.
        let twice = [&[0x18], &C[5..11], &C[5..11], &C[11..]].concat();
        let list = terms(&[(10, 20), (0, 20), (0, 20)]);
        let expected = Cheapest { set: vec![1, 2], sum: 16, chosen: vec![1, 2] };
        assert_eq!(cheapest_on(&D, &twice, 0, &list, 9, &[0, 9, 7], WORK), Ok(expected));
    }

    #[test]
    fn the_part_on_a_day() {
        let of = |day| part_on(&D, &C, 0, &season(), day, &K9_BOOK, ROOM, ROOM, WORK);
        let slow = vec![0x18, 0x40, 0x08, 0xc0, 0x40, 0x90];
        let slow_sheet = vec![0x80, 0x02, 0x00, 0x00, 0x02, 0x00, 0x08, 0x00, 0x80, 0x10];
        assert_eq!(of(10), Ok((slow, slow_sheet)));
        let three = vec![0x20, 0x60, 0x08, 0x86, 0x02, 0x00, 0x81, 0x18];
        let three_sheet =
            vec![0x80, 0x02, 0x00, 0x00, 0x02, 0x00, 0x08, 0x00, 0x00, 0x08, 0x00, 0x20, 0x02, 0x00, 0x40];
        assert_eq!(of(15), Ok((three, three_sheet)));
        assert_eq!(of(9), refused(UNCOVERED, 0));
        assert_eq!(part_on(&D, &C, 0, &season(), 9, &[0xff], ROOM, ROOM, WORK), refused(SHORT, BOOK));
    }

    #[test]
    fn shown_on_a_day() {
        let of = |day| show_on(&D, &C, 0, &season(), day, ROOM, ROOM, WORK);
        let (first, second) = of(10).unwrap();
        // K3's: link 1 is the lowest that extracts 0 and 1 leave unmatched.
        assert_eq!(show(&D, &crate::quoting::tests::SLOW, 0, ROOM, ROOM, WORK), Ok((first.clone(), second.clone())));
        // Extract 2, which is not in force, lists something on the first and nothing on the second.
        let fast = [0x18, 0x40, 0x10, 0xc0, 0x40, 0x90];
        let sheet = vec![0x80, 0x02, 0x00, 0x00, 0x04, 0x00, 0x08, 0x01, 0x00, 0x18];
        assert_eq!(search(&fast, &first, ROOM, WORK), Ok(sheet));
        assert_eq!(search(&fast, &second, ROOM, WORK), Ok(vec![0]));
        assert_eq!(of(12), refused(COVERED, 0));
    }

    #[test]
    fn what_holds_on_every_day() {
        let mut rule = Rule::new();
        let (mut first_days, mut parts) = (0, 0);
        for _ in 0..200 {
            let kinds = draw_kinds(&mut rule);
            let (question, catalogue) = draw_files(&mut rule, 4, false, kinds);
            let extracts = judge_catalogue(&catalogue).unwrap().len();
            let list: Vec<Term> = (0..extracts)
                .map(|_| {
                    let from = rule.draw(20) as u16;
                    Term { from, to: from + 1 + rule.draw(20) as u16 }
                })
                .collect();
            let covered: Vec<bool> =
                (0..=45).map(|day| quote_on(&question, &catalogue, 0, &list, day, WORK).unwrap().covered).collect();
            for day in 0..=45 {
                let first = (day..=45).find(|&day| covered[day as usize]);
                assert_eq!(first_day(&question, &catalogue, 0, &list, day, WORK), Ok(first));
                first_days += usize::from(first.is_some_and(|first| first > day));
            }
            // Where all are in force, each call answers what it answers without a day.
            let all = vec![Term { from: 0, to: 65_535 }; extracts];
            assert_eq!(quote_on(&question, &catalogue, 0, &all, 7, WORK), quote(&question, &catalogue, 0, WORK));
            let k9 = write_record(&graph_fields(&[1, 6, 8], &[(0, 1, 0), (1, 2, 0)]), ROOM, WORK).unwrap();
            let book = make_book(&catalogue, 0, &k9, ROOM, WORK).unwrap();
            let part = part::part(&question, &catalogue, 0, &book, ROOM, ROOM, WORK);
            assert_eq!(part_on(&question, &catalogue, 0, &all, 7, &book, ROOM, ROOM, WORK), part);
            let shown = show(&question, &catalogue, 0, ROOM, ROOM, WORK);
            assert_eq!(show_on(&question, &catalogue, 0, &all, 7, ROOM, ROOM, WORK), shown);
            // Where some are, each call answers what it answers for the catalogue of these alone; but for the numbers of extracts.
            let day = rule.draw(30) as u16;
            let force = in_force(&list, day);
            let fewer = of_extracts(&catalogue, &force);
            let quoted = quote_on(&question, &catalogue, 0, &list, day, WORK).unwrap();
            let alone = quote(&question, &fewer, 0, WORK).unwrap();
            assert_eq!(quoted.chosen, alone.chosen.iter().map(|&a| force[a]).collect::<Vec<usize>>());
            assert_eq!(quoted.lowest_unmatched, alone.lowest_unmatched);
            let book_of_fewer = make_book(&fewer, 0, &k9, ROOM, WORK).unwrap();
            let part = part::part(&question, &fewer, 0, &book_of_fewer, ROOM, ROOM, WORK);
            assert_eq!(part_on(&question, &catalogue, 0, &list, day, &book, ROOM, ROOM, WORK), part);
            parts += usize::from(part.is_ok());
            let shown = show(&question, &fewer, 0, ROOM, ROOM, WORK);
            assert_eq!(show_on(&question, &catalogue, 0, &list, day, ROOM, ROOM, WORK), shown);
        }
        assert!(first_days > 500 && parts > 50, "{first_days} {parts}");
    }

    /// A catalogue of some extracts of another.
    fn of_extracts(catalogue: &[u8], set: &[usize]) -> Vec<u8> {
        let extracts = judge_catalogue(catalogue).unwrap();
        let mut fields = vec![set.len() as u32];
        fields.extend(set.iter().flat_map(|&a| graph_fields(&extracts[a].kinds, &extracts[a].links)));
        write_catalogue(&fields, CATALOGUE_BYTES, WORK).unwrap()
    }
}
