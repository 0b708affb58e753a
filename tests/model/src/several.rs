//! Several questions answered in one call from one book.

use crate::answering::{answer, UNCOVERED};
use crate::files::*;
use crate::matching;
use crate::quoting::quote;
use std::collections::BTreeSet;

/// The number of the refusal where no question or too many are sent.
pub const QUESTIONS: u32 = 17;

/// The most questions.
pub const QUESTIONS_MOST: u32 = 8;

#[derive(Clone, Debug, PartialEq, Eq)]
pub struct Several {
    /// The answers one after the other.
    pub answers: Vec<u8>,
    /// How many of the book's sheets are of extracts that are chosen for at least one question.
    pub sheets: usize,
}

/// The length of an answer, also where it has more than its most bytes.
fn length(answer: &Result<Vec<u8>, Refusal>) -> usize {
    match answer {
        Ok(bytes) => bytes.len(),
        Err(refusal) => {
            assert_eq!(refusal.number, NO_FIT);
            refusal.detail
        }
    }
}

/// 14, then 17 with the number that is sent; the questions, the catalogue, 19, the book and 10; 11 for the first uncovered question;
/// 12 with the sum of the lengths, where an answer has more than its most bytes or the sum is over the bytes lent.
#[allow(clippy::too_many_arguments)]
pub fn answer_several(
    questions: &[u8],
    number: u32,
    catalogue: &[u8],
    one_way: u16,
    book: &[u8],
    room: usize,
    work_words: usize,
) -> Result<Several, Refusal> {
    judge_desk(work_words)?;
    if number == 0 || number > QUESTIONS_MOST {
        return refused(QUESTIONS, number as usize);
    }
    let questions = judge_patterns(questions, number as usize)?;
    let extracts = judge_catalogue(catalogue)?;
    matching::extracts(extracts.clone(), one_way)?;
    judge_book(&extracts, book)?;
    let file =
        |question: &Pattern| write_pattern(&graph_fields(&question.kinds, &question.links), PATTERN_BYTES, work_words);
    let questions: Vec<Vec<u8>> = questions.iter().map(|question| file(question).unwrap()).collect();
    let mut chosen = BTreeSet::new();
    for question in &questions {
        let quote = quote(question, catalogue, one_way, work_words)?;
        if let Some(lowest) = quote.lowest_unmatched {
            return refused(UNCOVERED, lowest);
        }
        chosen.extend(quote.chosen);
    }
    let answers: Vec<_> =
        questions.iter().map(|question| answer(question, catalogue, one_way, book, BOOK_BYTES, work_words)).collect();
    let sum = answers.iter().map(length).sum();
    let answers: Option<Vec<Vec<u8>>> = answers.into_iter().map(Result::ok).collect();
    match answers {
        Some(answers) if sum <= room => Ok(Several { answers: answers.concat(), sheets: chosen.len() }),
        _ => refused(NO_FIT, sum),
    }
}

#[cfg(test)]
mod tests {
    use super::*;
    use crate::part::tests::{K9_BOOK, K9_SHEET, ROOM, WORK};
    use crate::quoting::tests::{C, D};

    /// Section to slow.
    const ONE: [u8; 4] = [0x10, 0x20, 0x08, 0x08];
    const ONE_SHEET: [u8; 5] = [0x80, 0x02, 0x00, 0x00, 0x02];

    fn several(questions: &[&[u8]], book: &[u8]) -> Several {
        answer_several(&questions.concat(), questions.len() as u32, &C, 0, book, 8 * ROOM, WORK).unwrap()
    }

    /// What is said with nothing lent, beside a catalogue that is wrong or the one that is right.
    fn no(questions: &[u8], number: u32, catalogue: &[u8]) -> Refusal {
        answer_several(questions, number, catalogue, 0, &K9_BOOK, 0, WORK).unwrap_err()
    }

    #[test]
    fn with_c_and_the_book_of_k9() {
        for (questions, answers, sheets) in [
            (&[&D[..], &ONE][..], [&K9_SHEET[..], &ONE_SHEET].concat(), 3),
            (&[&D, &D], [K9_SHEET, K9_SHEET].concat(), 2),
            (&[&ONE[..]; 8], ONE_SHEET.repeat(8), 1),
        ] {
            assert_eq!(several(questions, &K9_BOOK), Several { answers, sheets });
        }
        assert_eq!(several(&[&D, &D], &[0; 3]), Several { answers: vec![0; 2], sheets: 2 });
        let both = [&D[..], &ONE].concat();
        assert_eq!(answer_several(&both, 2, &C, 0, &K9_BOOK, 24, WORK), refused(NO_FIT, 25));
        assert!(answer_several(&both, 2, &C, 0, &K9_BOOK, 25, WORK).is_ok());
    }

    #[test]
    fn the_number_of_questions() {
        for number in [0, 9, u32::MAX] {
            let refusal = Refusal { number: QUESTIONS, detail: number as usize };
            assert_eq!(no(&[], number, &[0xff]), refusal);
            assert_eq!(no(&[0; 1_000], number, &[0xff]), refusal);
            assert_eq!(answer_several(&D, number, &C, 0, &K9_BOOK, 0, WORK - 1), refused(DESK, 0));
        }
        assert!(answer_several(&D.repeat(8), 8, &C, 0, &K9_BOOK, ROOM, WORK).is_ok());
    }

    #[test]
    fn the_paper_of_questions() {
        let both = [&D[..], &ONE].concat();
        let mut padding = D.to_vec();
        padding[9] += 1;
        for (questions, number, refusal) in [
            (&both[..], 1, TAIL),
            (&both, 3, SHORT),
            (&[0; 57], 1, LONG),
            (&[0; 56], 1, COUNT),
            (&[&ONE[..], &[0; 52]].concat(), 1, TAIL),
            (&[&ONE[..], &[0; 53]].concat(), 1, LONG),
            (&[&ONE[..], &[0; 109]].concat(), 2, LONG),
            (&[0; 449], 8, LONG),
            (&padding, 1, TAIL),
            (&[&padding[..], &ONE].concat(), 2, TAIL),
            (&[&padding[..], &[0x88]].concat(), 2, TAIL),
            (&[&D[..], &[0x88, 0x00]].concat(), 2, COUNT),
            (&[&D[..], &[0x88]].concat(), 2, COUNT),
            (&[], 1, SHORT),
        ] {
            for catalogue in [&C[..], &[0xff]] {
                assert_eq!(no(questions, number, catalogue), Refusal { number: refusal, detail: PATTERN });
            }
        }
    }

    #[test]
    fn after_the_questions() {
        assert_eq!(no(&D, 1, &[0xff]), Refusal { number: COUNT, detail: CATALOGUE });
        assert_eq!(answer_several(&D, 1, &C, 0, &[], 0, WORK), refused(SHORT, BOOK));
        // With section to slow alone D lacks link 1, and fast to reading lacks link 0.
        let catalogue = [&[0x08], &ONE[..]].concat();
        let questions = [&D[..], &[0x10, 0x22, 0x18, 0x08]].concat();
        assert_eq!(answer_several(&questions, 2, &catalogue, 0, &[0], 0, WORK), refused(UNCOVERED, 1));
        let turned = [&[0x10, 0x22, 0x18, 0x08], &D[..]].concat();
        assert_eq!(answer_several(&turned, 2, &catalogue, 0, &[0], 0, WORK), refused(UNCOVERED, 0));
        let second = [&ONE[..], &D].concat();
        assert_eq!(answer_several(&second, 2, &catalogue, 0, &[0], 0, WORK), refused(UNCOVERED, 1));
        assert_eq!(answer_several(&ONE, 1, &catalogue, 0, &[0, 0], 0, WORK), refused(TAIL, BOOK));
    }

    /// The catalogue of a self-link, and a book of the one list (0, 0) to (n - 1, n - 1).
    fn to_itself(n: u32) -> (Vec<u8>, Vec<u8>) {
        let catalogue = write_catalogue(&[1, 1, 1, 0, 0, 0, 0], ROOM, WORK).unwrap();
        let mut fields = vec![1, n];
        fields.extend((0..n).flat_map(|v| [v, v]));
        let book = write_book(&catalogue, &fields, ROOM, WORK).unwrap();
        (catalogue, book)
    }

    /// Sixteen items of kind 0 with 32 links, all matched by a self-link: each item has two that leave it.
    fn sixteen() -> Vec<u8> {
        let links: Vec<Link> = (0..32).map(|e| (e % 16, (e + 1 + e / 16) % 16, 0)).collect();
        write_pattern(&graph_fields(&[0; 16], &links), PATTERN_BYTES, WORK).unwrap()
    }

    #[test]
    fn sums() {
        let own = write_pattern(&[1, 1, 0, 0, 0, 0], ROOM, WORK).unwrap();
        let (catalogue, book) = to_itself(700);
        // The second answer alone has 67,257 bytes, the first 2,102.
        let questions = [own.clone(), sixteen()].concat();
        assert_eq!(answer_several(&questions, 2, &catalogue, 0, &book, 8 * ROOM, WORK), refused(NO_FIT, 69_359));
        assert_eq!(answer(&sixteen(), &catalogue, 0, &book, 8 * ROOM, WORK), refused(NO_FIT, 67_257));
        // The sum has no limit of its own.
        let (catalogue, book) = to_itself(682);
        let questions = [sixteen(), sixteen()].concat();
        let answers = answer_several(&questions, 2, &catalogue, 0, &book, 8 * ROOM, WORK).unwrap();
        assert_eq!((answers.answers.len(), answers.sheets), (131_058, 1));
        assert_eq!(answer_several(&questions, 2, &catalogue, 0, &book, 131_057, WORK), refused(NO_FIT, 131_058));
    }

    #[test]
    fn one_question_is_answered_as_by_itself() {
        for book in [&K9_BOOK[..], &[0; 3], &[]] {
            for room in [0, 1, 19, 20] {
                for work in [WORK - 1, WORK] {
                    let alone = answer(&D, &C, 0, book, room, work);
                    assert_eq!(answer_several(&D, 1, &C, 0, book, room, work).map(|several| several.answers), alone);
                }
            }
        }
    }
}
