//! Answering a question from a book.

use crate::files::*;
use crate::matching::{fields, Ways};
use crate::quoting::{lowest_unmatched, quote};
use std::collections::BTreeSet;

/// The number of the refusal of an answer to an uncovered question.
pub const UNCOVERED: u32 = 11;

/// For each question link the pairs of a choice.
pub type Choice = Vec<BTreeSet<(u32, u32)>>;

/// For each question link the pairs listed under those links of the set's extracts that match it.
fn candidates(mapping: &[Vec<(usize, usize)>], set: &[usize], book: &Book) -> Choice {
    let mut candidates = Choice::new();
    for matches in mapping {
        let named = matches.iter().filter(|(a, _)| set.contains(a));
        candidates.push(named.flat_map(|&(a, b)| &book[a][b]).copied().collect());
    }
    candidates
}

/// The greatest choice by a rule, for both ends of a pair. A pair that lacks what is asked of it is dropped, until none is; a pair of any choice that
/// has what is asked is never dropped.
pub fn greatest_choice(question: &Pattern, candidates: Choice, ways: Ways) -> Choice {
    let mut kept = candidates;
    loop {
        let items = |end: fn(&(u32, u32)) -> u32| -> Vec<BTreeSet<u32>> {
            kept.iter().map(|pairs| pairs.iter().map(end).collect()).collect()
        };
        let (begins, ends) = (items(|pair| pair.0), items(|pair| pair.1));
        // Each question link that leaves u keeps some pair that begins at v, and each that arrives at u one that ends at v.
        let supported = |u: u32, v: u32| {
            let mut leaving = question.links.iter().zip(&begins).filter(|(link, _)| link.0 == u);
            let mut arriving = question.links.iter().zip(&ends).filter(|(link, _)| link.1 == u);
            leaving.all(|(_, begins)| begins.contains(&v))
                && (ways == Ways::Leaving || arriving.all(|(_, ends)| ends.contains(&v)))
        };
        let mut dropped = false;
        for (&(u, next, _), pairs) in question.links.iter().zip(&mut kept) {
            let before = pairs.len();
            pairs.retain(|&(v, w)| supported(u, v) && supported(next, w));
            dropped |= pairs.len() < before;
        }
        if !dropped {
            return kept;
        }
    }
}

/// What an answer keeps: first by the links that leave, then from what that leaves by those that arrive too.
pub fn pruned(question: &Pattern, candidates: Choice) -> Choice {
    greatest_choice(question, greatest_choice(question, candidates, Ways::Leaving), Ways::Both)
}

/// The answer as a sheet. If any link keeps none, all are empty.
fn sheet(choice: Choice) -> Sheet {
    if choice.iter().any(|pairs| pairs.is_empty()) {
        return vec![Vec::new(); choice.len()];
    }
    choice.into_iter().map(|pairs| pairs.into_iter().collect()).collect()
}

/// The answer from the whole of a set that covers: 12 if it doesn't fit.
fn written(
    question: &[u8],
    mapping: &[Vec<(usize, usize)>],
    set: &[usize],
    book: &Book,
    room: usize,
    work_words: usize,
) -> Result<Vec<u8>, Refusal> {
    let choice = pruned(&judge_pattern(question)?, candidates(mapping, set, book));
    write_sheet(question, &fields(&sheet(choice)), room, work_words)
}

/// 14, the question, the catalogue, 19, the book, then 10, 11 and 12.
pub fn answer(
    question: &[u8],
    catalogue: &[u8],
    one_way: u16,
    book: &[u8],
    room: usize,
    work_words: usize,
) -> Result<Vec<u8>, Refusal> {
    let quote = quote(question, catalogue, one_way, work_words)?;
    let book = judge_book(&judge_catalogue(catalogue)?, book)?;
    if let Some(lowest) = quote.lowest_unmatched {
        return refused(UNCOVERED, lowest);
    }
    written(question, &quote.mapping, &quote.chosen, &book, room, work_words)
}

/// The same from a set that the client names: the bit worth 2^j for extract j, and bits that name none are ignored. 11 has
/// the lowest link that this set leaves unmatched.
pub fn answer_from(
    question: &[u8],
    catalogue: &[u8],
    one_way: u16,
    set: u16,
    book: &[u8],
    room: usize,
    work_words: usize,
) -> Result<Vec<u8>, Refusal> {
    let mapping = quote(question, catalogue, one_way, work_words)?.mapping;
    let catalogue = judge_catalogue(catalogue)?;
    let book = judge_book(&catalogue, book)?;
    let set: Vec<usize> = (0..catalogue.len()).filter(|j| set >> j & 1 == 1).collect();
    if let Some(lowest) = lowest_unmatched(&mapping, &set) {
        return refused(UNCOVERED, lowest);
    }
    written(question, &mapping, &set, &book, room, work_words)
}

#[cfg(test)]
mod tests {
    use super::*;
    use crate::cheapest::cheapest;
    use crate::drawing::{draw_charges, draw_files, draw_kinds, draw_one_way, Rule};
    use crate::indexing::{make_index, search_indexed};
    use crate::matching::{make_book, search};
    use crate::quoting::tests::{of_kinds, C, D, SLOW};
    use crate::quoting::Quote;
    use crate::terms::bits;

    const ROOM: usize = BOOK_BYTES;
    const WORK: usize = WORK_WORDS;

    fn book(fields: &[u32]) -> Vec<u8> {
        write_book(&C, fields, ROOM, WORK).unwrap()
    }

    fn answered(book: &[u8]) -> Vec<u32> {
        let sheet = answer(&D, &C, 0, book, ROOM, WORK).unwrap();
        read_sheet(&D, &sheet, ROOM, WORK).unwrap()
    }

    #[test]
    fn k9_as_the_search() {
        let k9 = write_record(&[3, 2, 1, 6, 8, 0, 1, 0, 1, 2, 0], ROOM, WORK).unwrap();
        let book = make_book(&C, 0, &k9, ROOM, WORK).unwrap();
        assert_eq!(answered(&book), [1, 1, 0, 1, 1, 0, 1, 1, 1, 2, 1, 1, 2]);
        assert_eq!(answer(&D, &C, 0, &book, ROOM, WORK), search(&D, &k9, ROOM, WORK));
    }

    #[test]
    fn a_book_of_no_record() {
        // The slow run (0, 3) has no reading, so it is dropped.
        let sheets = [1, 1, 7, 7, 1, 2, 0, 1, 0, 3, 1, 1, 2, 1, 1, 0, 1, 1, 1, 2];
        assert_eq!(answered(&book(&sheets)), [1, 1, 0, 1, 1, 0, 1, 1, 1, 2, 1, 1, 2]);
        // Sheets that aren't chosen alter nothing.
        let others = [1, 2, 0, 0, 7, 8, 1, 2, 0, 1, 0, 3, 1, 1, 2, 1, 1, 0, 1, 1, 1, 2];
        assert_eq!(answered(&book(&others)), answered(&book(&sheets)));
    }

    #[test]
    fn a_pair_needs_what_arrives_too() {
        // The run 3 has a reading, and no section: by what leaves alone it would stay.
        let sheets = book(&[0, 1, 1, 0, 1, 2, 1, 2, 3, 2, 1, 1, 0, 1, 1, 1, 2]);
        assert_eq!(answered(&sheets), [1, 1, 0, 1, 1, 0, 1, 1, 1, 2, 1, 1, 2]);
        // Nor does a reading of the one run alone.
        let apart = book(&[0, 1, 1, 0, 1, 1, 1, 2, 1, 1, 0, 1, 1, 1, 5]);
        assert_eq!(answered(&apart), [0]);
    }

    #[test]
    fn all_or_none() {
        // No section has both runs. The readings could stand by themselves.
        let sheets = [0, 1, 1, 0, 1, 1, 1, 2, 1, 1, 3, 4, 1, 4, 5];
        assert_eq!(answered(&book(&sheets)), [0]);
    }

    fn answered_from(set: u16, book: &[u8]) -> Vec<u32> {
        let sheet = answer_from(&D, &C, 0, set, book, ROOM, WORK).unwrap();
        read_sheet(&D, &sheet, ROOM, WORK).unwrap()
    }

    #[test]
    fn the_client_may_choose() {
        let k9 = write_record(&[3, 2, 1, 6, 8, 0, 1, 0, 1, 2, 0], ROOM, WORK).unwrap();
        let made = make_book(&C, 0, &k9, ROOM, WORK).unwrap();
        for set in [6, 7, 0xffff, 0xfffe] {
            assert_eq!(answer_from(&D, &C, 0, set, &made, ROOM, WORK), search(&D, &k9, ROOM, WORK));
        }
        for (set, lowest) in [(0, 0), (0xfff8, 0), (1, 1), (2, 1), (3, 1), (4, 0), (5, 2)] {
            assert_eq!(answer_from(&D, &C, 0, set, &made, ROOM, WORK), refused(UNCOVERED, lowest));
        }
        // Where the book is of no record, extract 0 adds a slow run whose reading extract 1 lists.
        let sheets = book(&[1, 1, 0, 3, 1, 1, 0, 1, 2, 1, 2, 3, 2, 1, 1, 0, 1, 1, 1, 2]);
        assert_eq!(answered_from(6, &sheets), [1, 1, 0, 1, 1, 0, 1, 1, 1, 2, 1, 1, 2]);
        assert_eq!(answered_from(7, &sheets), [1, 2, 0, 1, 0, 3, 1, 0, 1, 2, 1, 2, 3, 2, 1, 1, 2]);
    }

    #[test]
    fn an_uncovered_question_has_the_lowest_link_of_the_set() {
        // Link 1 is unmatched by all, link 0 by none of the set.
        assert_eq!(answer(&D, &SLOW, 0, &[0], ROOM, WORK), refused(UNCOVERED, 1));
        assert_eq!(answer_from(&D, &SLOW, 0, 1, &[0], ROOM, WORK), refused(UNCOVERED, 1));
        assert_eq!(answer_from(&D, &SLOW, 0, 0, &[0], ROOM, WORK), refused(UNCOVERED, 0));
    }

    /// A record in which a question is found: the question itself, the same with some of its links, and a few items and links more.
    fn draw_found(rule: &mut Rule, question: &Pattern) -> Vec<u8> {
        let n = question.kinds.len() as u32;
        let mut kinds: Vec<u32> = question.kinds.iter().chain(&question.kinds).map(|kind| 1 << kind).collect();
        kinds.extend((0..4).map(|_| 1 << question.kinds[rule.draw(n) as usize]));
        let mut links: Vec<Link> = question.links.clone();
        links.extend(question.links.iter().filter(|_| rule.draw(4) != 0).map(|&(v, w, kind)| (v + n, w + n, kind)));
        for _ in 0..3 + rule.draw(8) {
            let kind = question.links[rule.draw(question.links.len() as u32) as usize].2;
            links.push((rule.draw(kinds.len() as u32), rule.draw(kinds.len() as u32), kind));
        }
        links.sort();
        links.dedup();
        write_record(&graph_fields(&kinds, &links), ROOM, WORK).unwrap()
    }

    #[test]
    fn mixed_books_answer_as_the_two_way_search() {
        let mut rule = Rule::new();
        let (mut other_books, mut other_quotes, mut other_answers) = (0, 0, 0);
        for _ in 0..600 {
            let kinds = draw_kinds(&mut rule);
            let (question, catalogue) = draw_files(&mut rule, 5, false, kinds);
            let extracts = judge_catalogue(&catalogue).unwrap().len();
            let one_way = draw_one_way(&mut rule, extracts);
            let Ok(Quote { covered: true, chosen, mapping, .. }) = quote(&question, &catalogue, one_way, WORK) else {
                continue;
            };
            let record = draw_found(&mut rule, &judge_pattern(&question).unwrap());
            let book = make_book(&catalogue, one_way, &record, ROOM, WORK).unwrap();
            let searched = search(&question, &record, ROOM, WORK);
            let index = make_index(&record, ROOM, WORK).unwrap();
            assert_eq!(search_indexed(&question, &record, &index, ROOM, WORK), searched);
            assert_eq!(answer(&question, &catalogue, one_way, &book, ROOM, WORK), searched);
            let charges = draw_charges(&mut rule, extracts);
            let cheapest =
                cheapest(&question, &catalogue, one_way, &charges, WORK).map_or(0xffff, |found| bits(&found.set));
            for set in [cheapest, 0xffff, bits(&chosen) | rule.draw(65_536) as u16] {
                assert_eq!(answer_from(&question, &catalogue, one_way, set, &book, ROOM, WORK), searched);
            }
            // What the set matters for: the book, and what matches what.
            let two_way = make_book(&catalogue, 0, &record, ROOM, WORK).unwrap();
            other_books += u32::from(two_way != book);
            other_quotes += u32::from(quote(&question, &catalogue, 0, WORK).unwrap().mapping != mapping);
            // A book that was made by another set promises nothing but an answer.
            let answered = answer(&question, &catalogue, one_way, &two_way, ROOM, WORK).unwrap();
            assert!(read_sheet(&question, &answered, ROOM, WORK).is_ok());
            other_answers += u32::from(Ok(answered) != searched);
        }
        assert!(
            other_books > 100 && other_quotes > 30 && other_answers > 5,
            "{other_books} {other_quotes} {other_answers}"
        );
    }

    #[test]
    fn a_sheet_made_both_ways_is_not_to_be_credited_one_way() {
        // 0 → 1, 1 → 1 of one kind, and the extract 0 → 0: both ways it lists 1 → 1 alone.
        let question = write_pattern(&[2, 2, 0, 0, 0, 1, 0, 1, 1, 0], ROOM, WORK).unwrap();
        let catalogue = write_catalogue(&[1, 1, 1, 0, 0, 0, 0], ROOM, WORK).unwrap();
        let record = write_record(&graph_fields(&[1, 1], &[(0, 1, 0), (1, 1, 0)]), ROOM, WORK).unwrap();
        let [both, one_way] = [0, 1].map(|set| make_book(&catalogue, set, &record, ROOM, WORK).unwrap());
        let searched = search(&question, &record, ROOM, WORK);
        assert_eq!(answer(&question, &catalogue, 1, &one_way, ROOM, WORK), searched);
        assert_ne!(answer(&question, &catalogue, 1, &both, ROOM, WORK), searched);
        assert_eq!(answer(&question, &catalogue, 0, &both, ROOM, WORK), refused(UNCOVERED, 0));
    }

    #[test]
    fn links_that_differ_in_their_kinds_alone() {
        let (question, catalogue) = of_kinds(&[0, 1], &[&[1], &[0], &[0, 1]]);
        // Section 0 has both kinds to run 2, section 1 one to run 2 and the other to run 3.
        let kinds = graph_fields(&[1, 1, 2, 2], &[(0, 2, 0), (0, 2, 1), (1, 2, 0), (1, 3, 1)]);
        let record = write_record(&kinds, ROOM, WORK).unwrap();
        let book = make_book(&catalogue, 0, &record, ROOM, WORK).unwrap();
        let searched = search(&question, &record, ROOM, WORK).unwrap();
        assert_eq!(read_sheet(&question, &searched, ROOM, WORK).unwrap(), [1, 1, 0, 2, 1, 0, 2]);
        assert_eq!(answer(&question, &catalogue, 0, &book, ROOM, WORK), Ok(searched.clone()));
        for set in [3, 4, 5, 6, 7, 0xffff] {
            assert_eq!(answer_from(&question, &catalogue, 0, set, &book, ROOM, WORK), Ok(searched.clone()));
        }
        // Extract 0 lists the pairs of kind 1, which are no candidates for the link of kind 0.
        for (set, lowest) in [(0, 0), (1, 0), (2, 1), (0xfff8, 0)] {
            assert_eq!(answer_from(&question, &catalogue, 0, set, &book, ROOM, WORK), refused(UNCOVERED, lowest));
        }
    }

    #[test]
    fn candidates_of_two_kinds_in_a_book_of_no_record() {
        let (question, catalogue) = of_kinds(&[0, 1], &[&[1], &[0]]);
        // Pairs of kind 1, then of kind 0. Item 3 lacks kind 1, and item 5 kind 0.
        let answered = |fields: &[u32]| {
            let book = write_book(&catalogue, fields, ROOM, WORK).unwrap();
            let sheet = answer(&question, &catalogue, 0, &book, ROOM, WORK).unwrap();
            read_sheet(&question, &sheet, ROOM, WORK).unwrap()
        };
        assert_eq!(answered(&[1, 2, 0, 1, 5, 6, 1, 2, 0, 1, 3, 4]), [1, 1, 0, 1, 1, 0, 1]);
        // Where they end at different items, each of these lacks the other kind.
        assert_eq!(answered(&[1, 2, 0, 1, 5, 6, 1, 2, 0, 2, 3, 4]), [0]);
    }

    #[test]
    fn refusals_in_order() {
        let mut crowd = vec![1, 8_192];
        crowd.extend((0..8_192).flat_map(|i| [i / 2, i % 2]));
        let one = write_pattern(&[2, 1, 0, 1, 0, 1, 0], ROOM, WORK).unwrap();
        let mut full = write_sheet(&one, &crowd, ROOM, WORK).unwrap();
        full.extend(write_sheet(&one, &[1, 1, 0, 2], ROOM, WORK).unwrap());
        let twice = write_catalogue(&[2, 2, 1, 0, 1, 0, 1, 0, 2, 1, 0, 1, 0, 1, 0], ROOM, WORK).unwrap();
        for (question, catalogue, book, work, number, detail) in [
            (&D[..9], &C[..16], &[][..], WORK - 1, DESK, 0),
            (&D[..9], &C[..16], &[], WORK, SHORT, PATTERN),
            (&D, &C[..16], &[], WORK, SHORT, CATALOGUE),
            (&D, &C, &[], WORK, SHORT, BOOK),
            (&D, &C, &[0; BOOK_BYTES + 1], WORK, LONG, BOOK),
            (&D, &SLOW, &[0; 2], WORK, TAIL, BOOK),
            (&D, &SLOW, &[0], WORK, UNCOVERED, 1),
            (&D, &twice, &full, WORK, CROWDED, BOOK),
            (&one, &twice, &full, WORK, CROWDED, BOOK),
            (&D, &C, &[0; 3], WORK, NO_FIT, 1),
        ] {
            assert_eq!(answer(question, catalogue, 0, book, 0, work), refused(number, detail));
            assert_eq!(answer_from(question, catalogue, 0, 0xffff, book, 0, work), refused(number, detail));
        }
        assert_eq!(answer(&D, &C, 0, &[0; 3], 1, WORK), Ok(vec![0]));
    }
}
