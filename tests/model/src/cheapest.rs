//! The cheapest set of extracts that covers a question.

use crate::answering::UNCOVERED;
use crate::files::*;
use crate::quoting::{covers, quote, Quote};

/// The number of the refusal where there isn't one charge for each extract.
pub const CHARGES: u32 = 15;

#[derive(Clone, Debug, PartialEq, Eq)]
pub struct Cheapest {
    pub set: Vec<usize>,
    pub sum: u64,
    /// What an ordinary quote chooses.
    pub chosen: Vec<usize>,
}

/// Every set of numbers below n, each ascending.
fn sets(n: usize) -> impl Iterator<Item = Vec<usize>> {
    (0..1u32 << n).map(move |bits| (0..n).filter(|a| bits >> a & 1 == 1).collect())
}

fn sum(set: &[usize], charges: &[u32]) -> u64 {
    set.iter().map(|&a| u64::from(charges[a])).sum()
}

/// Of the sets of usable extracts that cover, the one with the least sum; of those the ones with the fewest extracts; of those the
/// one that comes first when its numbers are read upward. 15, for which all extracts count, then 11.
pub fn cheapest_of(quote: Quote, extracts: usize, usable: &[usize], charges: &[u32]) -> Result<Cheapest, Refusal> {
    if charges.len() != extracts {
        return refused(CHARGES, charges.len());
    }
    if let Some(lowest) = quote.lowest_unmatched {
        return refused(UNCOVERED, lowest);
    }
    let of_usable = sets(extracts).filter(|set| set.iter().all(|a| usable.contains(a)));
    let covering = of_usable.filter(|set| covers(&quote.mapping, set));
    let set = covering.min_by_key(|set| (sum(set, charges), set.len(), set.clone())).unwrap();
    Ok(Cheapest { sum: sum(&set, charges), set, chosen: quote.chosen })
}

/// 14, the question, the catalogue, 19, then 15 and 11.
pub fn cheapest(
    question: &[u8],
    catalogue: &[u8],
    one_way: u16,
    charges: &[u32],
    work_words: usize,
) -> Result<Cheapest, Refusal> {
    let quote = quote(question, catalogue, one_way, work_words)?;
    let extracts = judge_catalogue(catalogue)?.len();
    cheapest_of(quote, extracts, &(0..extracts).collect::<Vec<usize>>(), charges)
}

/// Whether another set that covers the question has the cheapest one's sum and number of extracts, so that its numbers decide.
pub fn is_tied(question: &[u8], catalogue: &[u8], one_way: u16, charges: &[u32], cheapest: &Cheapest) -> bool {
    let mapping = quote(question, catalogue, one_way, WORK_WORDS).unwrap().mapping;
    let is_equal = |set: &Vec<usize>| set.len() == cheapest.set.len() && sum(set, charges) == cheapest.sum;
    sets(charges.len()).filter(is_equal).any(|set| set != cheapest.set && covers(&mapping, &set))
}

#[cfg(test)]
mod tests {
    use super::*;
    use crate::quoting::tests::{of_kinds, C, D, NONE, SLOW};

    const WORK: usize = WORK_WORDS;

    /// One link of kinds 0 to 1, 2 to 3, .. for each of these numbers.
    fn links(numbers: &[u32]) -> Vec<u32> {
        let mut fields = vec![2 * numbers.len() as u32, numbers.len() as u32];
        fields.extend(numbers.iter().flat_map(|n| [2 * n, 2 * n + 1]));
        fields.extend((0..numbers.len() as u32).flat_map(|i| [2 * i, 2 * i + 1, 0]));
        fields
    }

    /// The cheapest set of extracts that have these links each, for a question that has n.
    fn of(n: u32, extracts: &[&[u32]], charges: &[u32]) -> Cheapest {
        let question = write_pattern(&links(&(0..n).collect::<Vec<u32>>()), PATTERN_BYTES, WORK).unwrap();
        let mut fields = vec![extracts.len() as u32];
        fields.extend(extracts.iter().flat_map(|numbers| links(numbers)));
        let catalogue = write_catalogue(&fields, CATALOGUE_BYTES, WORK).unwrap();
        cheapest(&question, &catalogue, 0, charges, WORK).unwrap()
    }

    #[test]
    fn k2_with_charges() {
        let chosen = vec![1, 2];
        assert_eq!(cheapest(&D, &C, 0, &[100, 200, 150], WORK), Ok(Cheapest { set: vec![1, 2], sum: 350, chosen }));
    }

    #[test]
    fn the_cheapest_is_not_the_chosen() {
        let both = [&[0, 1][..], &[0], &[1]];
        assert_eq!(of(2, &both, &[9, 4, 4]), Cheapest { set: vec![1, 2], sum: 8, chosen: vec![0] });
        assert_eq!(of(2, &both, &[8, 4, 4]).set, [0], "of the same sum the fewer");
        assert_eq!(of(2, &both, &[0, 0, 0]).set, [0]);
    }

    #[test]
    fn numbers_are_read_upward() {
        let crossed = [&[0, 1][..], &[0, 2], &[1, 3], &[2, 3]];
        assert_eq!(of(4, &crossed, &[5, 5, 5, 5]).set, [0, 3], "not 1 2");
        assert_eq!(of(4, &crossed, &[5, 5, 4, 5]).set, [1, 2]);
        assert_eq!(of(1, &[&[0], &[0], &[0]], &[7, 6, 6]).set, [1]);
    }

    #[test]
    fn sums_beyond_32_bits() {
        let single = [&[0][..], &[1], &[2], &[3], &[4], &[5], &[6], &[7]];
        assert_eq!(of(8, &single, &[u32::MAX; 8]).sum, 8 * u64::from(u32::MAX));
    }

    #[test]
    fn links_that_differ_in_their_kinds_alone() {
        let (question, catalogue) = of_kinds(&[0, 1], &[&[0, 1], &[0], &[1], &[2]]);
        let of = |charges: &[u32]| cheapest(&question, &catalogue, 0, charges, WORK);
        assert_eq!(of(&[9, 4, 4, 0]), Ok(Cheapest { set: vec![1, 2], sum: 8, chosen: vec![0] }));
        assert_eq!(of(&[8, 4, 4, 0]).unwrap().set, [0]);
        let (question, catalogue) = of_kinds(&[0, 1], &[&[1], &[2], &[1]]);
        assert_eq!(cheapest(&question, &catalogue, 0, &[0; 3], WORK), refused(UNCOVERED, 0));
    }

    #[test]
    fn refusals_in_order() {
        for (question, catalogue, charges, work, number, detail) in [
            (&D[..9], &C[..16], 0, WORK - 1, DESK, 0),
            (&D[..9], &C[..16], 0, WORK, SHORT, PATTERN),
            (&D[..], &C[..16], 0, WORK, SHORT, CATALOGUE),
            (&D[..], &C[..], 0, WORK, CHARGES, 0),
            (&D[..], &C[..], 2, WORK, CHARGES, 2),
            (&D[..], &C[..], 4, WORK, CHARGES, 4),
            (&D[..], &SLOW[..], 3, WORK, CHARGES, 3),
            (&D[..], &SLOW[..], 1, WORK, UNCOVERED, 1),
            (&D[..], &NONE[..], 17, WORK, CHARGES, 17),
            (&D[..], &NONE[..], 0, WORK, UNCOVERED, 0),
            (&D[..], &[], 1, WORK, CHARGES, 1),
            (&D[..], &[], 0, WORK, UNCOVERED, 0),
        ] {
            assert_eq!(cheapest(question, catalogue, 0, &[0; 17][..charges], work), refused(number, detail));
        }
    }
}
