//! Patterns, catalogues, charges, records and books, all of them right.

use crate::draw::{Draw, Size};
use model::files::{Book, Catalogue, Link, Pattern, Record, Sheet};
use model::part::choice;
use std::collections::BTreeSet;

/// The kinds in use, of items and of links, so few that different graphs have some in common.
pub struct Kinds {
    items: Vec<u32>,
    links: Vec<u32>,
}

impl Kinds {
    pub fn draw(draw: &mut Draw) -> Kinds {
        let mut links: Vec<u32> = (0..draw.within(1, 3)).map(|_| draw.below(8) as u32).collect();
        if draw.one_in(8) {
            links = (0..8).collect();
        }
        Kinds { links, ..Kinds::of_old_links(draw) }
    }

    /// The kinds of a record whose links have none, so that each has kind 0.
    pub fn of_old_links(draw: &mut Draw) -> Kinds {
        let number = draw.within(1, 4);
        Kinds { items: (0..number).map(|_| draw.below(32) as u32).collect(), links: vec![0] }
    }

    fn item(&self, draw: &mut Draw) -> u32 {
        draw.of(&self.items)
    }

    fn link(&self, draw: &mut Draw) -> u32 {
        draw.of(&self.links)
    }
}

pub type Links = Vec<Link>;

/// Two of so many items.
fn draw_pair(draw: &mut Draw, items: usize) -> (u32, u32) {
    (draw.below(items) as u32, draw.below(items) as u32)
}

/// A link between any items, or one time in so many beside another link.
fn draw_link(draw: &mut Draw, kinds: &Kinds, items: usize, links: &[Link], beside_one_in: usize) -> Link {
    let (from, to) = if !links.is_empty() && draw.one_in(beside_one_in) {
        let (from, to, _) = draw.of(links);
        (from, to)
    } else {
        draw_pair(draw, items)
    };
    (from, to, kinds.link(draw))
}

fn put_link(links: &mut Links, link: Link, most: usize) {
    if links.len() < most && !links.contains(&link) {
        links.push(link);
    }
}

/// A pattern of at most so many items: each is at a link, and some further links.
pub fn draw_pattern(draw: &mut Draw, kinds: &Kinds, most: usize) -> Pattern {
    let items = draw.low(1, most);
    let mut links = Links::new();
    for item in 0..items as u32 {
        if !links.iter().any(|&(from, to, _)| from == item || to == item) {
            let other = draw.below(items) as u32;
            let (from, to) = if draw.one_in(2) { (item, other) } else { (other, item) };
            put_link(&mut links, (from, to, kinds.link(draw)), 32);
        }
    }
    let more = if draw.one_in(8) { draw.below(40) } else { draw.low(0, items) };
    for _ in 0..more {
        let link = draw_link(draw, kinds, items, &links, 3);
        put_link(&mut links, link, 32);
    }
    draw.shuffle(&mut links);
    Pattern { kinds: (0..items).map(|_| kinds.item(draw)).collect(), links }
}

/// Whether a pattern has links that differ in their kinds alone.
pub fn has_links_beside(pattern: &Pattern) -> bool {
    let pairs: BTreeSet<(u32, u32)> = pattern.links.iter().map(|&(from, to, _)| (from, to)).collect();
    pairs.len() < pattern.links.len()
}

/// Extracts for a question: parts of it, and patterns of their own. If it is to be covered, the parts have every link
/// between them; if not, mostly one link is in none, and in some parts the kind of an item or of a link is another.
pub fn draw_catalogue(draw: &mut Draw, kinds: &Kinds, question: &Pattern, covered: bool) -> Catalogue {
    let number = draw.low(usize::from(covered), 16);
    if number == 0 {
        return Catalogue::new();
    }
    let spared = (!covered && !draw.one_in(4)).then(|| draw.below(question.links.len()));
    let mut parts: Vec<Vec<usize>> = vec![Vec::new(); number];
    for link in 0..question.links.len() {
        if spared != Some(link) {
            parts[draw.below(number)].push(link);
            if draw.one_in(3) {
                let part = &mut parts[draw.below(number)];
                if part.last() != Some(&link) {
                    part.push(link);
                }
            }
        }
    }
    let mut extract = |links: &Vec<usize>| {
        if links.is_empty() {
            return draw_pattern(draw, kinds, 4);
        }
        let mut extract = choice(question, links);
        if !covered && draw.one_in(8) {
            let item = draw.below(extract.kinds.len());
            extract.kinds[item] = kinds.item(draw);
        }
        if !covered && draw.one_in(8) {
            let at = draw.below(extract.links.len());
            let (from, to, _) = extract.links[at];
            let link = (from, to, kinds.link(draw));
            if !extract.links.contains(&link) {
                extract.links[at] = link;
            }
        }
        extract
    };
    parts.iter().map(&mut extract).collect()
}

/// A choice of a question's links, one at least: any of them, or of those that are matched.
pub fn draw_choice(draw: &mut Draw, links: usize, matched: &[usize]) -> Vec<usize> {
    let all: Vec<usize> = (0..links).collect();
    let of = if draw.one_in(3) { &all } else { matched };
    let one_in = draw.within(1, 4);
    let mut choice: Vec<usize> = of.iter().copied().filter(|_| !draw.one_in(one_in)).collect();
    if choice.is_empty() {
        choice.push(draw.of(of));
    }
    choice
}

/// Charges for so many extracts, or one time in eight for another number of them. They tie, cost nothing, have equal sums
/// or are any.
pub fn draw_charges(draw: &mut Draw, extracts: usize) -> Vec<u32> {
    let number = match draw.below(32) {
        0 => 0,
        1 => draw.within(15, 17),
        2 => extracts + 1,
        3 => draw.below(100),
        _ => extracts,
    };
    let few = [draw.word() % 8, draw.word() % 8, draw.word()];
    let form = draw.below(6);
    let charge = |a: usize| match form {
        0 => few[0],
        1 => draw.of(&few[..2]),
        2 => draw.of(&[0, 0, few[0], few[2]]),
        3 => draw.below(4) as u32,
        4 => 1 << draw.below(4 + a.min(27)),
        _ if draw.one_in(4) => u32::MAX - draw.below(2) as u32,
        _ => draw.word(),
    };
    (0..number).map(charge).collect()
}

/// A pattern put into a record: its items are any of the record's, which get their kinds.
fn plant(draw: &mut Draw, pattern: &Pattern, record: &mut Record) -> Links {
    let places: Vec<u32> = pattern.kinds.iter().map(|_| draw.below(record.kinds.len()) as u32).collect();
    for (&kind, &place) in pattern.kinds.iter().zip(&places) {
        record.kinds[place as usize] |= 1 << kind;
    }
    pattern.links.iter().map(|&(from, to, kind)| (places[from as usize], places[to as usize], kind)).collect()
}

/// A record for some patterns: they are planted, and there are any links beside them. Its links ascend.
pub fn draw_record(draw: &mut Draw, kinds: &Kinds, size: Size, patterns: &[Pattern]) -> Record {
    let (items, most) = match size {
        Size::Small => (draw.low(0, 12), draw.below(25)),
        Size::Middle => (draw.low(1, 200), draw.below(400)),
        Size::Large if draw.one_in(2) => (4_096, 8_192),
        Size::Large => (draw.within(1, 4_096), draw.within(0, 8_192)),
    };
    let mut record = Record { kinds: Vec::new(), links: Links::new() };
    for _ in 0..items {
        let kind = 1 << kinds.item(draw);
        record.kinds.push(if draw.one_in(4) { kind | 1 << kinds.item(draw) } else { kind });
    }
    if items == 0 {
        return record;
    }
    let mut seen = BTreeSet::new();
    let mut put = |record: &mut Record, link| {
        if record.links.len() < most && seen.insert(link) {
            record.links.push(link);
        }
    };
    // One in six is a line and little else, so that what is lost at its ends goes along it item by item.
    let lined = draw.one_in(6);
    while !lined && record.links.len() < most / 2 && !patterns.is_empty() && !draw.one_in(64) {
        let pattern = &patterns[draw.below(patterns.len())];
        for link in plant(draw, pattern, &mut record) {
            put(&mut record, link);
        }
    }
    if lined {
        let all: u32 = kinds.items.iter().fold(0, |all, kind| all | 1 << kind);
        for link in draw_line(draw, items.min(200)) {
            record.kinds[link.0 as usize] |= all;
            record.kinds[link.1 as usize] |= all;
            put(&mut record, (link.0, link.1, kinds.links[0]));
        }
    }
    for _ in 0..if lined { most / 16 } else { most } {
        let link = draw_link(draw, kinds, items, &record.links, 4);
        put(&mut record, link);
    }
    record.links.sort();
    record
}

/// The pairs of a line through so many items, in any order or by their numbers: all in one direction, in turns there and back, or in
/// either.
fn draw_line(draw: &mut Draw, items: usize) -> Vec<(u32, u32)> {
    let mut order: Vec<u32> = (0..items as u32).collect();
    match draw.below(3) {
        0 => order.reverse(),
        1 => draw.shuffle(&mut order),
        _ => (),
    }
    let form = draw.below(4);
    let mut pairs = Vec::new();
    for (i, two) in order.windows(2).enumerate() {
        let back = match form {
            0 => false,
            1 => true,
            2 => i % 2 == 1,
            _ => draw.one_in(2),
        };
        pairs.push(if back { (two[1], two[0]) } else { (two[0], two[1]) });
    }
    pairs
}

/// A sheet whose lists have the pairs of a line, but for a few.
fn draw_along(draw: &mut Draw, line: &[(u32, u32)], links: usize) -> Sheet {
    let mut list = |_| {
        let few = draw.of(&[4, 20, 60]);
        let pairs: BTreeSet<(u32, u32)> = line.iter().copied().filter(|_| !draw.one_in(few)).collect();
        if pairs.is_empty() {
            vec![line[0]]
        } else {
            pairs.into_iter().collect()
        }
    };
    (0..links).map(&mut list).collect()
}

/// What becomes of a link that is to be like another: that one in all three, in its ends, or in one end and the kind.
fn like(draw: &mut Draw, link: Link, other: Link) -> Link {
    match draw.below(4) {
        0 => other,
        1 => (other.0, other.1, link.2),
        2 => (other.0, link.1, other.2),
        _ => (link.0, other.1, other.2),
    }
}

/// Links in another order, or one like another: all turned round, two that change places or kinds, one like a neighbour or
/// any other.
pub fn disorder(draw: &mut Draw, links: &mut Links) {
    if links.len() < 2 {
        return;
    }
    let at = draw.within(1, links.len() - 1);
    let other = draw.below(links.len());
    match draw.below(6) {
        0 => draw.shuffle(links),
        1 => links.swap(at - 1, at),
        2 => links.swap(at, other),
        3 => (links[at - 1].2, links[at].2) = (links[at].2, links[at - 1].2),
        4 => links[at] = like(draw, links[at], links[at - 1]),
        _ => links[at] = like(draw, links[at], links[other]),
    }
}

/// An index for a record whose own it may be: that or, one time in two, one with an entry changed, with two swapped, with
/// fewer or more entries, or that of another record.
pub fn draw_index(draw: &mut Draw, own: Vec<u16>, other: Vec<u16>) -> Vec<u16> {
    let mut index = own;
    let last = index.len() - 1;
    let any = draw.below(last + 1);
    let at = draw.of(&[0, any, last]);
    match draw.below(12) {
        0 => index[at] = index[at].wrapping_add(1),
        1 => index[at] = index[at].wrapping_sub(1),
        2 => index[at] = draw.word() as u16,
        3 => index.swap(at, any),
        4 => index.truncate(draw.of(&[0, at, last])),
        5 => index.resize(index.len() + draw.low(1, 9_000), index[last]),
        6 => index = other,
        _ => (),
    }
    index
}

/// A pair by its code.
fn pair(code: usize) -> (u32, u32) {
    (code as u32 / 4_096, code as u32 % 4_096)
}

/// A sheet of a few pairs; one in eight is for nothing found.
fn draw_few(draw: &mut Draw, links: usize, items: usize, most: usize) -> Sheet {
    if draw.one_in(8) {
        return vec![Vec::new(); links];
    }
    let mut list = |_| {
        let pairs: BTreeSet<(u32, u32)> = (0..draw.within(1, most)).map(|_| draw_pair(draw, items)).collect();
        pairs.into_iter().collect()
    };
    (0..links).map(&mut list).collect()
}

/// A book about as large as one may be, or larger. Its lists are windows on one list of different pairs, about as many as
/// a book may have or any number.
fn draw_many(draw: &mut Draw, catalogue: &[Pattern]) -> Book {
    let lists: usize = catalogue.iter().map(|extract| extract.links.len()).sum();
    let different = if draw.one_in(2) { draw.within(8_190, 8_194) } else { draw.within(1, 12_000) };
    let pairs = if draw.one_in(2) { draw.within(21_600, 21_850) } else { draw.within(different, 24_000) };
    let most = (pairs / lists.max(1)).clamp(1, 8_192.min(different));
    let step = draw.within(1, (1 << 24) / different);
    let shift = draw.below((1 << 24) - step * (different - 1));
    let mut before = 0;
    let mut list = |_| {
        let start = (different - most) * before / (lists - 1).max(1);
        before += 1;
        (start..start + most).map(|i| pair(shift + i * step)).collect()
    };
    catalogue.iter().map(|extract| extract.links.iter().map(&mut list).collect()).collect()
}

/// A book for a catalogue, of no record.
pub fn draw_book(draw: &mut Draw, size: Size, catalogue: &[Pattern]) -> Book {
    if size != Size::Large && draw.one_in(6) {
        let items = draw.of(&[3, 20, 60]);
        let line = draw_line(draw, items);
        return catalogue.iter().map(|extract| draw_along(draw, &line, extract.links.len())).collect();
    }
    let (items, most) = match size {
        Size::Small => (draw.of(&[2, 3, 6, 4_096]), 4),
        Size::Middle => (draw.of(&[4, 16, 64, 4_096]), 40),
        Size::Large => return draw_many(draw, catalogue),
    };
    catalogue.iter().map(|extract| draw_few(draw, extract.links.len(), items, most)).collect()
}
