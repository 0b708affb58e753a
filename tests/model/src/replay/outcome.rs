//! What a call answered, as the program has it.

use crate::answering::Choice;
use crate::cheapest::Cheapest;
use crate::entering::{Slip, State};
use crate::files::{Pattern, Refusal};
use crate::quoting::Quote;
use crate::several::Several;
use crate::steps::{pruned, steps, Items};

/// FNV-1a, a number at a time.
pub const DIGEST_START: u64 = 0xcbf2_9ce4_8422_2325;

fn step(digest: u64, value: u64) -> u64 {
    (digest ^ value).wrapping_mul(0x100_0000_01b3)
}

fn over<T: Copy + Into<u64>>(digest: u64, values: &[T]) -> u64 {
    values.iter().fold(digest, |digest, &value| step(digest, value.into()))
}

/// A set of extracts: the bit worth 2^a says extract a.
fn bits(set: &[usize]) -> u64 {
    set.iter().map(|a| 1 << a).sum()
}

/// A set of items likewise.
fn items(set: &Items) -> u64 {
    set.iter().map(|u| 1 << u).sum()
}

/// What a call wrote.
#[derive(Clone, Debug, PartialEq)]
pub enum Output {
    Nothing,
    Words(Vec<u32>),
    Bytes(Vec<u8>),
}

/// What the values of an accepted answer are. The first is how much was written: words, bytes, those of a sheet, the entries of
/// an index, or the bytes of the first of two outputs, with those of the second beside it. Several answers have their bytes and
/// the sheets that they needed. A quote has 1 and the chosen set, or 0 and the lowest unmatched link; the cheapest set its sum
/// and itself; the steps of a join their number and the settled items; a first day 1 and itself, or 0 and 0 where there is none; what is asked
/// about a link the set that it changes and the slip's change number. A commit has the record's bytes and the index's entries.
#[derive(Clone, Copy, Debug, PartialEq)]
pub enum Form {
    Words,
    Bytes,
    Sheet,
    Entries,
    Both,
    Several,
    Quote,
    Price,
    Steps,
    Day,
    Asked,
    Entered,
}

/// 0 or the refusal's number; two values, of which a refusal's detail is the first; and a digest of what was written.
#[derive(Clone, Debug, PartialEq)]
pub struct Outcome {
    pub form: Form,
    pub number: u64,
    pub value: u64,
    pub other: u64,
    pub digest: u64,
    pub output: Output,
}

impl Outcome {
    fn refused(form: Form, refusal: Refusal) -> Outcome {
        let (number, value) = (refusal.number.into(), refusal.detail as u64);
        Outcome { form, number, value, other: 0, digest: DIGEST_START, output: Output::Nothing }
    }

    /// Values, and bytes that were written.
    fn wrote(form: Form, value: usize, other: usize, bytes: Vec<u8>) -> Outcome {
        let (value, other, digest) = (value as u64, other as u64, over(DIGEST_START, &bytes));
        Outcome { form, number: 0, value, other, digest, output: Output::Bytes(bytes) }
    }

    pub fn words(result: Result<Vec<u32>, Refusal>) -> Outcome {
        match result {
            Ok(words) => {
                let (value, digest) = (words.len() as u64, over(DIGEST_START, &words));
                Outcome { form: Form::Words, number: 0, value, other: 0, digest, output: Output::Words(words) }
            }
            Err(refusal) => Outcome::refused(Form::Words, refusal),
        }
    }

    fn bytes_of(form: Form, result: Result<Vec<u8>, Refusal>) -> Outcome {
        match result {
            Ok(bytes) => Outcome::wrote(form, bytes.len(), 0, bytes),
            Err(refusal) => Outcome::refused(form, refusal),
        }
    }

    pub fn bytes(result: Result<Vec<u8>, Refusal>) -> Outcome {
        Outcome::bytes_of(Form::Bytes, result)
    }

    pub fn sheet(result: Result<Vec<u8>, Refusal>) -> Outcome {
        Outcome::bytes_of(Form::Sheet, result)
    }

    /// An index is written as bytes, two for each entry; its value is the number of entries.
    pub fn entries(result: Result<Vec<u16>, Refusal>) -> Outcome {
        match result {
            Ok(entries) => {
                let bytes = entries.iter().flat_map(|entry| entry.to_be_bytes()).collect();
                Outcome::wrote(Form::Entries, entries.len(), 0, bytes)
            }
            Err(refusal) => Outcome::refused(Form::Entries, refusal),
        }
    }

    /// An index that was checked is not written.
    pub fn checked(result: Result<usize, Refusal>) -> Outcome {
        match result {
            Ok(entries) => Outcome { output: Output::Nothing, ..Outcome::wrote(Form::Entries, entries, 0, Vec::new()) },
            Err(refusal) => Outcome::refused(Form::Entries, refusal),
        }
    }

    pub fn both(result: Result<(Vec<u8>, Vec<u8>), Refusal>) -> Outcome {
        match result {
            Ok((first, second)) => Outcome::wrote(Form::Both, first.len(), second.len(), [first, second].concat()),
            Err(refusal) => Outcome::refused(Form::Both, refusal),
        }
    }

    pub fn several(result: Result<Several, Refusal>) -> Outcome {
        match result {
            Ok(Several { answers, sheets }) => Outcome::wrote(Form::Several, answers.len(), sheets, answers),
            Err(refusal) => Outcome::refused(Form::Several, refusal),
        }
    }

    /// Values alone, with a digest of all of them.
    fn values(form: Form, value: u64, other: u64, digest: u64) -> Outcome {
        Outcome { form, number: 0, value, other, digest, output: Output::Nothing }
    }

    /// A quote's digest is that of its mapping, 16 masks of extract links for each of 32 question links, then how many
    /// links there are, whether it is covered, the chosen extracts and the lowest unmatched link.
    pub fn quoted(result: Result<Quote, Refusal>) -> Outcome {
        let mut mapping = [0u32; 512];
        match result {
            Ok(quote) => {
                for (e, matches) in quote.mapping.iter().enumerate() {
                    for (a, b) in matches {
                        mapping[16 * e + a] |= 1 << b;
                    }
                }
                let chosen = bits(&quote.chosen);
                let lowest = quote.lowest_unmatched.unwrap_or(0) as u64;
                let covered = u64::from(quote.covered);
                let rest = [quote.mapping.len() as u64, covered, chosen, lowest];
                let digest = over(over(DIGEST_START, &mapping), &rest);
                let other = if quote.covered { chosen } else { lowest };
                Outcome::values(Form::Quote, covered, other, digest)
            }
            Err(refusal) => {
                let digest = over(over(DIGEST_START, &mapping), &[0u64; 4]);
                Outcome { digest, ..Outcome::refused(Form::Quote, refusal) }
            }
        }
    }

    /// The digest is that of the set, its sum and the chosen set.
    pub fn priced(result: Result<Cheapest, Refusal>) -> Outcome {
        match result {
            Ok(Cheapest { set, sum, chosen }) => {
                let digest = over(DIGEST_START, &[bits(&set), sum, bits(&chosen)]);
                Outcome::values(Form::Price, sum, bits(&set), digest)
            }
            Err(refusal) => {
                let digest = over(DIGEST_START, &[0u64; 3]);
                Outcome { digest, ..Outcome::refused(Form::Price, refusal) }
            }
        }
    }

    /// The digest is that of both values.
    pub fn dated(result: Result<Option<u16>, Refusal>) -> Outcome {
        match result {
            Ok(day) => {
                let (found, day) = (u64::from(day.is_some()), u64::from(day.unwrap_or(0)));
                Outcome::values(Form::Day, found, day, over(DIGEST_START, &[found, day]))
            }
            Err(refusal) => {
                let digest = over(DIGEST_START, &[0u64; 2]);
                Outcome { digest, ..Outcome::refused(Form::Day, refusal) }
            }
        }
    }

    /// The digest is that of the set and the slip.
    pub fn asked(result: Result<(Vec<usize>, Slip), Refusal>) -> Outcome {
        match result {
            Ok((changes, Slip { link: (from, to, kind), change })) => {
                let slip = [from, to, kind, change].map(u64::from);
                let digest = over(over(DIGEST_START, &[bits(&changes)]), &slip);
                Outcome::values(Form::Asked, bits(&changes), change.into(), digest)
            }
            Err(refusal) => {
                let digest = over(DIGEST_START, &[0u64; 5]);
                Outcome { digest, ..Outcome::refused(Form::Asked, refusal) }
            }
        }
    }

    /// What a commit wrote is the record, the index, two bytes for each entry, and the state after it, four bytes for each number. On a
    /// refusal the state has to be as it came.
    pub fn entered(result: Result<(Vec<u8>, Vec<u16>), Refusal>, before: State, after: State) -> Outcome {
        match result {
            Ok((record, index)) => {
                let entries = index.iter().flat_map(|entry| entry.to_be_bytes());
                let numbers = [after.links, after.change].into_iter().flat_map(u32::to_be_bytes);
                let bytes = record.iter().copied().chain(entries).chain(numbers).collect();
                Outcome::wrote(Form::Entered, record.len(), index.len(), bytes)
            }
            Err(refusal) => {
                assert_eq!(before, after);
                Outcome::refused(Form::Entered, refusal)
            }
        }
    }

    /// The states of a join from pairs and the links that each is a candidate for, from no step to sixteen, or as many as
    /// there are, and after each what is left of it when it is pruned both ways: the digest has of each state, and of what is
    /// left of it, the settled items and the links that each pair is kept for.
    pub fn stepped(question: &Pattern, content: &[u32]) -> Outcome {
        let pairs: Vec<(u32, u32)> = content.chunks(2).map(|pair| (pair[0] / 4_096, pair[0] % 4_096)).collect();
        let candidates = (0..question.links.len()).map(|e| {
            let are = content.chunks(2).map(|pair| pair[1] >> e & 1 == 1);
            pairs.iter().zip(are).filter(|(_, is)| *is).map(|(pair, _)| *pair).collect()
        });
        let candidates: Choice = candidates.collect();
        let steps = steps(question, &candidates);
        let mut states = vec![(Items::new(), candidates)];
        states.extend(steps.clone());
        let mut digest = DIGEST_START;
        let mut see = |settled: &Items, state: &Choice| {
            let kept = |pair| (0..state.len()).filter(|&e| state[e].contains(pair)).map(|e| 1 << e).sum();
            let masks: Vec<u64> = pairs.iter().map(kept).collect();
            digest = over(over(digest, &[items(settled)]), &masks);
        };
        for step in 0..=16 {
            let (settled, state) = &states[step.min(steps.len())];
            see(settled, state);
            see(settled, &pruned(question, state));
        }
        let (settled, _) = &states[steps.len()];
        Outcome::values(Form::Steps, steps.len() as u64, items(settled), digest)
    }

    pub fn written(&self) -> usize {
        match &self.output {
            Output::Nothing => 0,
            Output::Words(words) => words.len(),
            Output::Bytes(bytes) => bytes.len(),
        }
    }

    /// How much it needs of its output.
    pub fn needed(&self) -> usize {
        match self.number {
            0 | 12 => self.value as usize,
            _ => 0,
        }
    }

    pub fn over(&self, digest: u64) -> u64 {
        over(digest, &[self.number, self.value, self.other, self.digest])
    }

    /// Whether a sheet lists pairs, which its first bit says.
    pub fn is_listing(&self) -> bool {
        match &self.output {
            Output::Bytes(sheet) => self.form == Form::Sheet && sheet[0] >= 128,
            _ => false,
        }
    }

    /// Whether a quote is covered.
    pub fn is_covered(&self) -> bool {
        (self.number, self.form, self.value) == (0, Form::Quote, 1)
    }
}
