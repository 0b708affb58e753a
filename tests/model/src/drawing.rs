//! What the model draws for the cases: patterns, questions and catalogues whole, and by which numbers records and lists
//! are drawn.

use crate::files::*;
use crate::part::choice;
use crate::rule::{below, next, Drawn, Lists};
use crate::terms::Term;

pub struct Rule {
    state: u32,
}

impl Rule {
    pub fn new() -> Rule {
        Rule { state: 1 }
    }

    /// The next number below n, 0 where there is none.
    pub fn draw(&mut self, n: u32) -> u32 {
        self.state = next(self.state);
        below(self.state, n as usize) as u32
    }
}

/// The kinds that are used: of items so many from the first on, and so of links.
#[derive(Clone, Copy)]
pub struct Kinds {
    first: u32,
    number: u32,
    link_first: u32,
    link_number: u32,
}

/// One time in three all links have kind 0.
pub fn draw_kinds(rule: &mut Rule) -> Kinds {
    let number = 1 + rule.draw(4);
    let first = rule.draw(29);
    let (link_first, link_number) = match rule.draw(3) {
        0 => (0, 1),
        _ => {
            let number = 1 + rule.draw(3);
            (rule.draw(9 - number), number)
        }
    };
    Kinds { first, number, link_first, link_number }
}

impl Kinds {
    /// The kind of an item.
    fn item(self, rule: &mut Rule) -> u32 {
        self.first + rule.draw(self.number)
    }

    fn link(self, rule: &mut Rule) -> u32 {
        self.link_first + rule.draw(self.link_number)
    }

    /// Whether all links have kind 0, as those of an old record.
    pub fn are_old(self) -> bool {
        (self.link_first, self.link_number) == (0, 1)
    }
}

/// The ends of link t of a pattern with n items. The first n links reach each item: a tree from item 0, a tree to it, a
/// link from each item, pairs. The others are any.
fn pattern_ends(rule: &mut Rule, form: u32, t: u32, n: u32) -> (u32, u32) {
    if t >= n {
        return (rule.draw(n), rule.draw(n));
    }
    match (form, t) {
        (0, 0) => (0, n - 1),
        (0, _) => (rule.draw(t), t),
        (1, 0) => (n - 1, 0),
        (1, _) => (t, rule.draw(t)),
        (2, _) => (t, rule.draw(n)),
        _ => (t - t % 2, (t - t % 2 + 1).min(n - 1)),
    }
}

/// The content of a pattern with n items. So many links are tried; 32 are enough. Beyond the first n, one in three is beside
/// another.
pub fn draw_pattern_of(rule: &mut Rule, n: u32, tries: u32, kinds: Kinds) -> Vec<u32> {
    let items: Vec<u32> = (0..n).map(|_| kinds.item(rule)).collect();
    let form = rule.draw(4);
    let mut links: Vec<Link> = Vec::new();
    for t in 0..tries {
        if links.len() < 32 {
            let (from, to) = if t >= n && rule.draw(3) == 0 {
                let (from, to, _) = links[rule.draw(links.len() as u32) as usize];
                (from, to)
            } else {
                pattern_ends(rule, form, t, n)
            };
            let link = (from, to, kinds.link(rule));
            if !links.contains(&link) {
                links.push(link);
            }
        }
    }
    graph_fields(&items, &links)
}

/// The content of a pattern of any size.
pub fn draw_pattern(rule: &mut Rule, kinds: Kinds) -> Vec<u32> {
    let most = 1 + rule.draw(16);
    let n = 1 + rule.draw(most);
    let more = rule.draw(2) * rule.draw(17);
    draw_pattern_of(rule, n, n + more, kinds)
}

// Questions and catalogues.

/// A question of at most so many items, or of that many and as full as can be.
fn draw_question(rule: &mut Rule, size: u32, full: bool, kinds: Kinds) -> Pattern {
    let fields = if full {
        draw_pattern_of(rule, size, 128, kinds)
    } else {
        let n = 1 + rule.draw(size);
        let more = rule.draw(n + 1);
        draw_pattern_of(rule, n, n + more, kinds)
    };
    judge_pattern(&write_pattern(&fields, PATTERN_BYTES, WORK_WORDS).unwrap()).unwrap()
}

/// Some of m links, but not the spared one; if that leaves none, any one.
fn draw_links(rule: &mut Rule, m: u32, spared: u32) -> Vec<usize> {
    let one_in = 1 + rule.draw(4);
    let mut links = Vec::new();
    for e in 0..m {
        if rule.draw(one_in) == 0 && e != spared {
            links.push(e as usize);
        }
    }
    if links.is_empty() {
        links.push(rule.draw(m) as usize);
    }
    links
}

/// An extract: a pattern of its own, a part of the question in which one item or one link has any kind, or a part of it.
fn draw_extract(rule: &mut Rule, question: &Pattern, spared: u32, kinds: Kinds) -> Vec<u32> {
    let form = rule.draw(8);
    if form == 0 {
        return draw_pattern(rule, kinds);
    }
    let Pattern { kinds: mut items, mut links } =
        choice(question, &draw_links(rule, question.links.len() as u32, spared));
    if form == 1 {
        let item = rule.draw(items.len() as u32) as usize;
        items[item] = kinds.item(rule);
    }
    if form == 2 {
        let e = rule.draw(links.len() as u32) as usize;
        let link = (links[e].0, links[e].1, kinds.link(rule));
        if !links.contains(&link) {
            links[e] = link;
        }
    }
    graph_fields(&items, &links)
}

/// One without extracts has every second time no bytes.
fn draw_catalogue(rule: &mut Rule, question: &Pattern, full: bool, kinds: Kinds) -> Vec<u8> {
    let links = question.links.len() as u32;
    let spared = if rule.draw(2) == 0 { links } else { rule.draw(links) };
    let most = rule.draw(17);
    let number = if full { 16 } else { rule.draw(1 + most) };
    if number == 0 && rule.draw(2) == 0 {
        return Vec::new();
    }
    let mut fields = vec![number];
    for _ in 0..number {
        fields.extend(draw_extract(rule, question, spared, kinds));
    }
    write_catalogue(&fields, CATALOGUE_BYTES, WORK_WORDS).unwrap()
}

pub fn pattern_file(pattern: &Pattern) -> Vec<u8> {
    write_pattern(&graph_fields(&pattern.kinds, &pattern.links), PATTERN_BYTES, WORK_WORDS).unwrap()
}

/// The files of a question and a catalogue.
pub fn draw_files(rule: &mut Rule, size: u32, full: bool, kinds: Kinds) -> (Vec<u8>, Vec<u8>) {
    let question = draw_question(rule, size, full, kinds);
    let catalogue = draw_catalogue(rule, &question, full, kinds);
    (pattern_file(&question), catalogue)
}

// Charges.

/// Charges for so many extracts, and one time in eight for another number of them: the same for each, few different ones,
/// any.
pub fn draw_charges(rule: &mut Rule, extracts: usize) -> Vec<u32> {
    let number = match rule.draw(32) {
        0 => 0,
        1 => extracts.saturating_sub(1),
        2 => extracts + 1,
        3 => 15 + rule.draw(3) as usize,
        _ => extracts,
    };
    let (least, most) = match rule.draw(4) {
        0 => (rule.draw(1_000), 1),
        1 => (0, 3),
        2 => (0, 1_000),
        _ => (65_000, 536),
    };
    let large = if least == 65_000 { 65_537 } else { 1 };
    (0..number).map(|_| (least + rule.draw(most)) * large).collect()
}

// Sets of extracts that are matched one-way.

/// None of so many extracts, all of them, one, or any.
pub fn draw_one_way(rule: &mut Rule, extracts: usize) -> u16 {
    let all = (1u32 << extracts) - 1;
    let set = match rule.draw(8) {
        0 => 0,
        1 => all,
        2 => 1 << rule.draw(extracts as u32),
        _ => rule.draw(65_536),
    };
    (set & all) as u16
}

/// A set that names an extract which is not there, with any others; none where the catalogue is full.
pub fn draw_strange(rule: &mut Rule, extracts: usize) -> Option<u16> {
    let beyond = 16 - extracts as u32;
    let set = 1 << (extracts as u32 + rule.draw(beyond)) | rule.draw(65_536);
    (beyond > 0).then_some(set as u16)
}

// Links that are to enter.

/// A link for a record of items with these kinds: one of some that are wanted, one like that in another kind, one between any items; or one at
/// fault.
pub fn draw_link(rule: &mut Rule, kinds: &[u32], wanted: &[Link]) -> Link {
    let items = kinds.len() as u32;
    let any = (rule.draw(items), rule.draw(items), rule.draw(8));
    let like = if wanted.is_empty() { any } else { wanted[rule.draw(wanted.len() as u32) as usize] };
    match rule.draw(16) {
        0 => (items + rule.draw(2), like.1, like.2),
        1 => (like.0, [items, 4_096, u32::MAX][rule.draw(3) as usize], like.2),
        2 => (like.0, like.1, [8, 9, u32::MAX][rule.draw(3) as usize]),
        3 => (like.0, like.1, any.2),
        4..=6 => (any.0, any.1, like.2),
        7 => any,
        _ => like,
    }
}

// Terms.

/// A term that begins before a day and ends within a few days of its beginning, or of the last day; one in 64 is empty or turned.
fn draw_term(rule: &mut Rule, days: u32) -> Term {
    let (from, length) = (rule.draw(days), 1 + rule.draw(days));
    let (from, to) = match rule.draw(16) {
        0 => (from, 65_535),
        1 => (65_535 - length, 65_535),
        2 => (0, from + length),
        _ => (from, from + length),
    };
    let [from, to] = [from, to].map(|day| day as u16);
    match rule.draw(128) {
        0 => Term { from, to: from },
        1 => Term { from: to, to: from },
        _ => Term { from, to },
    }
}

/// Terms for so many extracts, and one time in sixteen for another number of them, up to a few more than a catalogue has.
pub fn draw_terms(rule: &mut Rule, extracts: usize) -> Vec<Term> {
    let number = match rule.draw(64) {
        0 => 0,
        1 => extracts.saturating_sub(1),
        2 => extracts + 1,
        3 => 15 + rule.draw(4) as usize,
        _ => extracts,
    };
    let days = [4, 12, 40, 1_000][rule.draw(4) as usize];
    (0..number).map(|_| draw_term(rule, days)).collect()
}

/// A day: at, before or after an end of a term, one within the first of them, the first or the last of all, or any.
pub fn draw_day(rule: &mut Rule, terms: &[Term]) -> u16 {
    if terms.is_empty() || rule.draw(8) == 0 {
        return [0, 65_535, 65_534, rule.draw(65_536)][rule.draw(4) as usize] as u16;
    }
    let Term { from, to } = terms[rule.draw(terms.len() as u32) as usize];
    match rule.draw(6) {
        0 => from,
        1 => from.saturating_sub(1),
        2 => to,
        3 => to.saturating_sub(1),
        4 => to.saturating_add(1),
        _ => from + rule.draw(to.saturating_sub(from).into()) as u16,
    }
}

// Records.

/// The number of items of a record. Every second record of a group may have fewer.
pub fn draw_items(rule: &mut Rule, size: u32, case: u32) -> u32 {
    if case % 2 == 0 {
        return size;
    }
    size - rule.draw(size / 4 + 1)
}

/// A record with n items. A pair has a link of one kind, of some, or of every kind; one whose links have kind 0 has one.
pub fn draw_record(rule: &mut Rule, n: u32, kinds: Kinds) -> Drawn {
    let kind_form = if kinds.are_old() { 0 } else { [0, 1, 1, 2][rule.draw(4) as usize] };
    Drawn {
        seed: rule.draw(65_536),
        items: n as usize,
        links: rule.draw(4 * n + 1).min([8_192, 2_730, 1_024][kind_form]) as usize,
        kind: kinds.first as usize,
        kinds: kinds.number as usize,
        item_form: rule.draw(4) as usize,
        link_form: rule.draw(6) as usize,
        link_kind: kinds.link_first as usize,
        link_kinds: kinds.link_number as usize,
        kind_form,
    }
}

// Books of no record.

/// The lists of a book for so many links in all: how many pairs each has at most, and below which number their items are.
pub fn draw_lists(rule: &mut Rule, links: usize) -> Lists {
    let pairs = [64, 512, 4_096, 21_000][rule.draw(4) as usize];
    let most = (1 + pairs / links.max(1)).min(8_192);
    let items = [2, 4, 8, 16, 64, 256, 1_024, 4_096][rule.draw(8) as usize];
    let gap = (2 * items * items / most).clamp(1, (items * items).min(65_536));
    Lists { least: 1, most, first: 0, step: 1, gap, items }
}

// Files that are wrong.

pub enum Damage {
    /// So many bytes are left.
    Cut(usize),
    /// So many bytes there are with what follows in the memory.
    Longer(usize),
    /// This bit is turned.
    Turned(usize),
}

/// A byte less, a byte more, more than the most, fewer bytes, or one bit turned.
pub fn draw_damage(rule: &mut Rule, length: usize, room: usize) -> Damage {
    match rule.draw(8) {
        0 => Damage::Cut(length.saturating_sub(1)),
        1 => Damage::Longer(length + 1),
        2 => Damage::Longer(room),
        3 => Damage::Cut(rule.draw(length as u32) as usize),
        _ if length == 0 => Damage::Longer(1),
        _ => Damage::Turned((rule.draw(length as u32) * 8 + rule.draw(8)) as usize),
    }
}
