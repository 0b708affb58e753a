//! The rule by which the program `replay` and the model draw the content of records and lists alike, so that large files
//! need not stand among the cases.

use crate::files::{graph_fields, Link};
use std::collections::BTreeSet;

pub fn next(state: u32) -> u32 {
    state.wrapping_mul(1_664_525).wrapping_add(1_013_904_223)
}

/// The number below n that a state stands for, 0 where there is none.
pub fn below(state: u32, n: usize) -> usize {
    if n == 0 {
        return 0;
    }
    (state / 65_536) as usize % n
}

/// How a record is drawn: so many items, and so many pairs with links where four times as many tries give them; the kinds of
/// items from the first on; the form of the items and of the pairs; the kinds of links from the first on, and their form.
#[derive(Clone, Copy, Debug, Default)]
pub struct Drawn {
    pub seed: u32,
    pub items: usize,
    pub links: usize,
    pub kind: usize,
    pub kinds: usize,
    pub item_form: usize,
    pub link_form: usize,
    pub link_kind: usize,
    pub link_kinds: usize,
    pub kind_form: usize,
}

/// An item or a pair is drawn by the four states that follow one.
fn four(state: &mut u32) -> [u32; 4] {
    [(); 4].map(|()| {
        *state = next(*state);
        *state
    })
}

impl Drawn {
    fn bit(&self, state: u32) -> u32 {
        1 << ((self.kind + below(state, self.kinds)) % 32)
    }

    /// The kinds of item v: one; up to three; none, all or one; any; by its place.
    fn item(&self, v: usize, [a, b, c, _]: [u32; 4]) -> u32 {
        match self.item_form {
            0 => self.bit(a),
            1 => self.bit(a) | self.bit(b) | self.bit(c),
            2 => match below(b, 4) {
                0 => 0,
                1 => u32::MAX,
                _ => self.bit(a),
            },
            3 => (below(a, 65_536) * 65_536 + below(b, 65_536)) as u32,
            _ => (v % 4_097 * 1_048_573) as u32,
        }
    }

    /// The pair t: any; to an item near by; chains of 64; a ring; at one of four items; forward; a different one at each
    /// t. An end that is no item makes no link.
    fn pair(&self, t: usize, [a, b, c, d]: [u32; 4]) -> (usize, usize) {
        let n = self.items;
        let (from, to, few) = (below(a, n), below(b, n), below(c, 4));
        let rest = |x: usize| if n == 0 { 0 } else { x % n };
        let place = rest(t);
        match self.link_form {
            0 => (from, to),
            1 => (from, rest(from + few)),
            2 => (place, if place % 64 == 63 { n } else { place + 1 }),
            3 => (place, rest(t + 1)),
            4 => match below(d, 2) {
                0 => (few, from),
                _ => (from, few),
            },
            5 => (from.min(to), from.max(to)),
            _ => {
                let from = rest(t * 5);
                (from, rest(from * 7 + t.checked_div(n).unwrap_or(0)))
            }
        }
    }

    fn link_bit(&self, state: u32) -> u32 {
        1 << ((self.link_kind + below(state, self.link_kinds)) % 8)
    }

    /// The kinds of the links that a pair has, drawn by the pair: one; up to three; all.
    fn link_kinds(&self, from: u32, to: u32) -> u32 {
        let a = next((from * 4_096 + to) ^ self.seed);
        let b = next(a);
        match self.kind_form {
            0 => self.link_bit(a),
            1 => self.link_bit(a) | self.link_bit(b) | self.link_bit(next(b)),
            _ => 255,
        }
    }

    /// The links of a pair, by their kinds.
    fn links(&self, (from, to): (u32, u32)) -> Vec<Link> {
        let kinds = self.link_kinds(from, to);
        (0..8).filter(|kind| kinds >> kind & 1 == 1).map(|kind| (from, to, kind)).collect()
    }

    /// The content of the record, the pairs of its links ascending or as they are drawn.
    pub fn content(&self, ascending: bool) -> Vec<u32> {
        let mut state = self.seed;
        let kinds: Vec<u32> = (0..self.items).map(|v| self.item(v, four(&mut state))).collect();
        let mut pairs = Vec::new();
        let mut seen = BTreeSet::new();
        for t in 0..4 * self.links {
            let (from, to) = self.pair(t, four(&mut state));
            let is_pair = from < self.items && to < self.items;
            if pairs.len() < self.links && is_pair && seen.insert((from, to)) {
                pairs.push((from as u32, to as u32));
            }
        }
        if ascending {
            pairs.sort();
        }
        let links: Vec<Link> = pairs.into_iter().flat_map(|pair| self.links(pair)).collect();
        graph_fields(&kinds, &links)
    }
}

/// How lists are drawn: at least so many pairs and something below the most; the codes of pairs from the first on, from
/// each to the next a step and something below the gap, as far as they stand for pairs of items.
#[derive(Clone, Copy, Debug, Default)]
pub struct Lists {
    pub least: usize,
    pub most: usize,
    pub first: usize,
    pub step: usize,
    pub gap: usize,
    pub items: usize,
}

impl Lists {
    /// A list with its count.
    pub fn content(&self, state: &mut u32) -> Vec<u32> {
        *state = next(*state);
        let count = self.least + below(*state, self.most);
        *state = next(*state);
        let mut code = self.first + below(*state, self.gap);
        let mut fields = vec![0];
        for _ in 0..count {
            if code < self.items * self.items {
                fields.extend([(code / self.items) as u32, (code % self.items) as u32]);
                fields[0] += 1;
            }
            *state = next(*state);
            code += self.step + below(*state, self.gap);
        }
        fields
    }
}

/// How the pairs of a join are drawn: so many codes from the first on, from each to the next as in a list, as far as they
/// stand for pairs of items; and for each the links that it is a candidate for, by the form: any, few, many, all.
#[derive(Clone, Copy, Debug, Default)]
pub struct Pairs {
    pub seed: u32,
    pub count: usize,
    pub first: usize,
    pub step: usize,
    pub gap: usize,
    pub items: usize,
    pub form: usize,
}

impl Pairs {
    fn mask(&self, [a, b, c, d]: [u32; 4]) -> u32 {
        let any = |a: u32, b: u32| (below(a, 65_536) * 65_536 + below(b, 65_536)) as u32;
        match self.form {
            0 => any(a, b),
            1 => any(a, b) & any(c, d),
            2 => any(a, b) | any(c, d),
            _ => u32::MAX,
        }
    }

    /// Each pair, 4,096 times its from and its to, and beside it its links.
    pub fn content(&self) -> Vec<u32> {
        let mut fields = Vec::new();
        let (mut code, mut state) = (self.first, self.seed);
        for _ in 0..self.count {
            state = next(state);
            let step = self.step + below(state, self.gap);
            let mask = self.mask(four(&mut state));
            if code < self.items * self.items {
                fields.extend([(code / self.items * 4_096 + code % self.items) as u32, mask]);
            }
            code += step;
        }
        fields
    }
}

#[cfg(test)]
mod tests {
    use super::*;
    use crate::files::{
        pack_old_record, pack_record, sort_record, write_record, ORDER, RECORD, RECORD_BYTES, WORK_WORDS,
    };

    fn drawn(link_form: usize, kind_form: usize, link_kinds: usize) -> Drawn {
        let (seed, items, links, kinds, link_kind) = (7, 40, 90, 3, 6);
        Drawn { seed, items, links, kind: 30, kinds, item_form: 1, link_form, link_kind, link_kinds, kind_form }
    }

    fn kinds_of(fields: &[u32]) -> Vec<u32> {
        fields[2 + fields[0] as usize..].chunks(3).map(|link| link[2]).collect()
    }

    #[test]
    fn drawn_records_are_accepted() {
        for link_form in 0..7 {
            for kind_form in 0..3 {
                for link_kinds in 0..4 {
                    let fields = drawn(link_form, kind_form, link_kinds).content(true);
                    assert_eq!(write_record(&fields, RECORD_BYTES, WORK_WORDS), Ok(pack_record(&fields)));
                    let kinds = kinds_of(&fields);
                    assert_eq!(kinds.len(), fields[1] as usize);
                    let is_one = |kind: &u32| (0..link_kinds.max(1) as u32).any(|i| (6 + i) % 8 == *kind);
                    assert!(kind_form == 2 || kinds.iter().all(is_one));
                }
            }
        }
    }

    #[test]
    fn one_kind_some_and_all() {
        let pairs = drawn(0, 0, 3).content(true)[1];
        assert_eq!(drawn(0, 1, 1).content(true)[1], pairs);
        let some = drawn(0, 1, 3).content(true)[1];
        assert!(pairs < some && some < 3 * pairs);
        assert_eq!(drawn(0, 2, 0).content(true)[1], 8 * pairs);
    }

    #[test]
    fn a_drawn_old_record_is_sorted() {
        let old = Drawn { link_kind: 0, ..drawn(0, 0, 0) };
        let (in_order, turned) = (old.content(true), old.content(false));
        assert_ne!(turned, in_order);
        let refusal = write_record(&turned, RECORD_BYTES, WORK_WORDS).unwrap_err();
        assert_eq!((refusal.number, refusal.detail), (ORDER, RECORD));
        assert_eq!(sort_record(&pack_old_record(&turned), RECORD_BYTES, WORK_WORDS), Ok(pack_record(&in_order)));
    }
}
