//! The part of a question that the extracts answer.

use crate::answering::{answer, UNCOVERED};
use crate::files::*;
use crate::quoting::quote;

/// A choice of a question's links as a pattern: the links in their order, and the items that are their ends, numbered upward.
pub fn choice(question: &Pattern, links: &[usize]) -> Pattern {
    let links: Vec<Link> = links.iter().map(|&e| question.links[e]).collect();
    let is_end = |u: &u32| links.iter().any(|&(from, to, _)| from == *u || to == *u);
    let items: Vec<u32> = (0..question.kinds.len() as u32).filter(is_end).collect();
    let number = |u: u32| items.iter().position(|&item| item == u).unwrap() as u32;
    let kinds = items.iter().map(|&u| question.kinds[u as usize]).collect();
    let links = links.iter().map(|&(from, to, kind)| (number(from), number(to), kind)).collect();
    Pattern { kinds, links }
}

/// The matched links of a question, as a file: 11 where there is none, with the lowest unmatched link, which is 0; then 12.
pub fn written(
    question: &[u8],
    mapping: &[Vec<(usize, usize)>],
    room: usize,
    work_words: usize,
) -> Result<Vec<u8>, Refusal> {
    let matched: Vec<usize> = (0..mapping.len()).filter(|&e| !mapping[e].is_empty()).collect();
    if matched.is_empty() {
        return refused(UNCOVERED, 0);
    }
    let Pattern { kinds, links } = choice(&judge_pattern(question)?, &matched);
    write_pattern(&graph_fields(&kinds, &links), room, work_words)
}

/// 14, the question, the catalogue, 19, the book, 10, 11, then 12 for the part's bytes and then for its answer's: the part that has
/// the matched links, and what it is answered by itself.
pub fn part(
    question: &[u8],
    catalogue: &[u8],
    one_way: u16,
    book: &[u8],
    room_1: usize,
    room_2: usize,
    work_words: usize,
) -> Result<(Vec<u8>, Vec<u8>), Refusal> {
    let quote = quote(question, catalogue, one_way, work_words)?;
    judge_book(&judge_catalogue(catalogue)?, book)?;
    let part = written(question, &quote.mapping, room_1, work_words)?;
    let answer = answer(&part, catalogue, one_way, book, room_2, work_words)?;
    Ok((part, answer))
}

#[cfg(test)]
pub mod tests {
    use super::*;
    use crate::drawing::{draw_files, draw_kinds, pattern_file, Rule};
    use crate::matching::{make_book, record_of, search, sheet};
    use crate::quoting::tests::{of_kinds, C, D, NONE, SLOW};
    use crate::quoting::Quote;

    pub const ROOM: usize = BOOK_BYTES;
    pub const WORK: usize = WORK_WORDS;
    /// The sheet of extract 1 of C made from the record of K6, and the book of C made from that of K9.
    pub const K6_SHEET: [u8; 10] = [0x80, 0x02, 0x00, 0x00, 0x02, 0x00, 0x08, 0x00, 0x80, 0x10];
    pub const K9_BOOK: [u8; 25] = [
        0x80, 0x02, 0x00, 0x00, 0x02, 0x80, 0x02, 0x00, 0x00, 0x02, 0x00, 0x08, 0x00, 0x80, 0x10, 0x80, 0x02, 0x00,
        0x00, 0x02, 0x00, 0x08, 0x00, 0x80, 0x10,
    ];
    pub const K9_SHEET: [u8; 20] = [
        0x80, 0x02, 0x00, 0x00, 0x02, 0x00, 0x08, 0x00, 0x00, 0x08, 0x00, 0x20, 0x02, 0x00, 0x40, 0x00, 0x80, 0x08,
        0x01, 0x00,
    ];
    /// Slow to fast, which matches no link of D.
    const SLOW_TO_FAST: [u8; 5] = [0x08, 0x10, 0x21, 0x10, 0x08];

    fn k6() -> Vec<u8> {
        write_record(&graph_fields(&[1, 2, 8, 2], &[(0, 1, 0), (0, 3, 0), (1, 2, 0)]), ROOM, WORK).unwrap()
    }

    fn k9() -> Vec<u8> {
        write_record(&graph_fields(&[1, 6, 8], &[(0, 1, 0), (1, 2, 0)]), ROOM, WORK).unwrap()
    }

    fn of(question: &[u8], catalogue: &[u8], book: &[u8]) -> (Vec<u8>, Vec<u8>) {
        part(question, catalogue, 0, book, ROOM, ROOM, WORK).unwrap()
    }

    #[test]
    fn d_with_extract_1_of_c() {
        assert_eq!(make_book(&SLOW, 0, &k6(), ROOM, WORK), Ok(K6_SHEET.to_vec()));
        let expected = (SLOW[1..].to_vec(), K6_SHEET.to_vec());
        assert_eq!(of(&D, &SLOW, &K6_SHEET), expected);
        assert_eq!(search(&D, &k6(), ROOM, WORK), Ok(vec![0]));
        for (room_1, room_2, outcome) in [
            (5, 9, refused(NO_FIT, 6)),
            (5, 10, refused(NO_FIT, 6)),
            (6, 9, refused(NO_FIT, 10)),
            (6, 10, Ok(expected)),
        ] {
            assert_eq!(part(&D, &SLOW, 0, &K6_SHEET, room_1, room_2, WORK), outcome);
        }
    }

    #[test]
    fn a_covered_question_is_its_own_part() {
        assert_eq!(make_book(&C, 0, &k9(), ROOM, WORK), Ok(K9_BOOK.to_vec()));
        assert_eq!(of(&D, &C, &K9_BOOK), (D.to_vec(), K9_SHEET.to_vec()));
    }

    #[test]
    fn items_are_numbered_upward() {
        // Fast to reading alone.
        let catalogue = [0x08, 0x10, 0x22, 0x18, 0x08];
        let book = [0x80, 0x02, 0x00, 0x20, 0x04];
        assert_eq!(make_book(&catalogue, 0, &k9(), ROOM, WORK), Ok(book.to_vec()));
        assert_eq!(of(&D, &catalogue, &book), (catalogue[1..].to_vec(), book.to_vec()));
    }

    #[test]
    fn links_that_differ_in_their_kinds_alone() {
        let (question, catalogue) = of_kinds(&[0, 1], &[&[1]]);
        assert_eq!(catalogue, [0x08, 0x10, 0x20, 0x08, 0x09]);
        let record = write_record(&graph_fields(&[1, 2], &[(0, 1, 0), (0, 1, 1)]), ROOM, WORK).unwrap();
        let bytes = "00 10 00 40 00 00 00 20 00 00 00 40 00 00 20 00 00 04 80";
        assert_eq!(record.iter().map(|byte| format!("{byte:02x}")).collect::<Vec<_>>().join(" "), bytes);
        let book = make_book(&catalogue, 0, &record, ROOM, WORK).unwrap();
        assert_eq!(
            of(&question, &catalogue, &book),
            (vec![0x10, 0x20, 0x08, 0x09], vec![0x80, 0x02, 0x00, 0x00, 0x02])
        );
    }

    #[test]
    fn no_link_is_matched() {
        assert_eq!(part(&D, &NONE, 0, &[], 0, 0, WORK), refused(UNCOVERED, 0));
        assert_eq!(part(&D, &[], 0, &[], 0, 0, WORK), refused(UNCOVERED, 0));
        assert_eq!(part(&D, &SLOW_TO_FAST, 0, &[0], 0, 0, WORK), refused(UNCOVERED, 0));
    }

    #[test]
    fn the_part_is_answered_by_its_own_quote() {
        // Extract 1 of C, then section to slow, which lists (5, 1): of the two the part's quote chooses the first.
        let catalogue = [0x10, 0x18, 0x40, 0x08, 0xc0, 0x40, 0x90, 0x10, 0x20, 0x08, 0x08];
        let book = [0x80, 0x02, 0x00, 0x00, 0x02, 0x00, 0x08, 0x00, 0x80, 0x10, 0x80, 0x02, 0x00, 0xa0, 0x02];
        assert_eq!(of(&D, &catalogue, &book), (SLOW[1..].to_vec(), K6_SHEET.to_vec()));
        let all = crate::answering::answer_from(&SLOW[1..], &catalogue, 0, 3, &book, ROOM, WORK).unwrap();
        assert_eq!(all, [0x80, 0x04, 0x00, 0x00, 0x02, 0x00, 0xa0, 0x02, 0x00, 0x08, 0x00, 0x80, 0x10]);
    }

    #[test]
    fn refusals_in_order() {
        for (question, catalogue, book, work, number, detail) in [
            (&D[..9], &C[..16], &[][..], WORK - 1, DESK, 0),
            (&D[..9], &C[..16], &[], WORK, SHORT, PATTERN),
            (&D, &C[..16], &[], WORK, SHORT, CATALOGUE),
            (&D, &SLOW_TO_FAST, &[], WORK, SHORT, BOOK),
            (&D, &SLOW_TO_FAST, &[0, 0], WORK, TAIL, BOOK),
            (&D, &SLOW_TO_FAST, &[0], WORK, UNCOVERED, 0),
            (&D, &SLOW, &[0], WORK, NO_FIT, 6),
        ] {
            assert_eq!(part(question, catalogue, 0, book, 0, 0, work), refused(number, detail));
        }
        assert_eq!(part(&D, &SLOW, 0, &[0], 6, 0, WORK), refused(NO_FIT, 1));
        assert_eq!(part(&D, &SLOW, 0, &[0], 6, 1, WORK), Ok((SLOW[1..].to_vec(), vec![0])));
    }

    // What the part promises, on questions that are drawn.

    fn quoted(question: &Pattern, catalogue: &[u8]) -> Quote {
        quote(&pattern_file(question), catalogue, 0, WORK).unwrap()
    }

    /// Every set of numbers below n but for the empty one.
    fn sets(n: usize) -> impl Iterator<Item = Vec<usize>> {
        (1..1u32 << n).map(move |bits| (0..n).filter(|e| bits >> e & 1 == 1).collect())
    }

    #[test]
    fn the_part_is_the_largest_that_is_covered() {
        let mut rule = Rule::new();
        let (mut parts, mut inside) = (0, 0);
        for _ in 0..400 {
            let kinds = draw_kinds(&mut rule);
            let (question, catalogue) = draw_files(&mut rule, 4, false, kinds);
            let question = judge_pattern(&question).unwrap();
            if question.links.len() > 7 {
                continue;
            }
            let quote = quoted(&question, &catalogue);
            let matched: Vec<usize> = (0..question.links.len()).filter(|&e| !quote.mapping[e].is_empty()).collect();
            if matched.is_empty() {
                continue;
            }
            parts += 1;
            // Its masks are the question's rows of the matched links.
            let own = quoted(&choice(&question, &matched), &catalogue);
            assert!(own.covered);
            assert_eq!(own.mapping, matched.iter().map(|&e| quote.mapping[e].clone()).collect::<Vec<_>>());
            for links in sets(question.links.len()) {
                if quoted(&choice(&question, &links), &catalogue).covered {
                    inside += 1;
                    assert!(links.iter().all(|e| matched.contains(e)));
                }
            }
        }
        assert!(parts > 100 && inside > 2 * parts, "{parts} {inside}");
    }

    #[test]
    fn the_parts_links_list_at_least_what_the_questions_do() {
        let mut rule = Rule::new();
        let mut listed = 0;
        for _ in 0..300 {
            let kinds = draw_kinds(&mut rule);
            let (file, catalogue) = draw_files(&mut rule, 5, false, kinds);
            let question = judge_pattern(&file).unwrap();
            let quote = quoted(&question, &catalogue);
            let matched: Vec<usize> = (0..question.links.len()).filter(|&e| !quote.mapping[e].is_empty()).collect();
            if quote.covered || matched.is_empty() {
                continue;
            }
            // The question itself twice, so that it is found.
            let n = question.kinds.len() as u32;
            let twice: Vec<u32> = question.kinds.iter().chain(&question.kinds).map(|kind| 1 << kind).collect();
            let mut links: Vec<Link> =
                question.links.iter().map(|&(from, to, kind)| (from + n, to + n, kind)).collect();
            links.extend(question.links.iter().filter(|_| rule.draw(4) != 0));
            links.sort();
            let record = write_record(&graph_fields(&twice, &links), ROOM, WORK).unwrap();
            let book = make_book(&catalogue, 0, &record, ROOM, WORK).unwrap();
            let (part, answer) = of(&file, &catalogue, &book);
            assert_eq!(search(&part, &record, ROOM, WORK), Ok(answer));
            let record = record_of(&record, WORK).unwrap();
            let (whole, own) = (sheet(&question, &record), sheet(&judge_pattern(&part).unwrap(), &record));
            for (list, &e) in own.iter().zip(&matched) {
                assert!(whole[e].iter().all(|pair| list.contains(pair)));
                listed += whole[e].len();
            }
        }
        assert!(listed > 200, "{listed}");
    }
}
