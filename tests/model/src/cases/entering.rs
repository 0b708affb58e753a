//! Links that are to enter a record, one after the other: what is asked about each, the commit, and the record after it; with states, slips and
//! links at fault, and records that are full.

use super::searches::lay_record;
use super::*;
use crate::drawing::*;
use crate::entering::{ask, State, OLD_SLIP};
use crate::files::*;
use crate::matching::{extracts, record_of};
use crate::rule::Drawn;

/// How many items a question has at most, or a record that is drawn apart from one; how many records, and how many links are tried for each.
const GROUPS: [(u32, Option<u32>, u32, u32); 5] =
    [(2, None, 24, 6), (5, None, 40, 6), (6, Some(16), 16, 4), (6, Some(256), 10, 3), (16, Some(4_096), 6, 3)];

/// The record that is laid.
fn laid(script: &Script) -> Record {
    record_of(script.part(RECORD_PART), WORK_WORDS).unwrap()
}

fn lay_state(script: &mut Script, links: usize, change: u32) {
    script.set(STATE_LINKS, links);
    script.set(STATE_CHANGE, change as usize);
    script.set(SLIP_CHANGE, change as usize);
}

fn lay_link(script: &mut Script, (from, to, kind): Link) {
    for (register, number) in [(LINK_FROM, from), (LINK_TO, to), (LINK_OF, kind)] {
        script.set(register, number as usize);
    }
}

/// A record that has some of the question's links, between items of its own kinds and between copies of these.
fn lay_part(script: &mut Script, rule: &mut Rule, question: &Pattern) {
    let n = question.kinds.len() as u32;
    let kinds: Vec<u32> = question.kinds.iter().chain(&question.kinds).map(|kind| 1 << kind).collect();
    let mut links: Vec<Link> = question.links.iter().filter(|_| rule.draw(3) != 0).copied().collect();
    links.extend(question.links.iter().filter(|_| rule.draw(2) == 0).map(|&(v, w, kind)| (v + n, w + n, kind)));
    links.sort();
    script.content(&graph_fields(&kinds, &links));
    script.once(WRITE_RECORD);
    keep_as(script, RECORD_PART);
}

/// A commit that is accepted leaves its record as the one that is laid, and the state after it; its index is the record's own.
fn take(script: &mut Script) {
    let (bytes, entries) = script.lengths();
    keep_as(script, BOOK_PART);
    let start = PLACES[BOOK_PART];
    script.place(RECORD_PART, start, start + bytes);
    script.place(BOOK_PART, start + bytes, start + bytes + 2 * entries);
    script.once(CHECK_INDEX);
    assert!(script.is_accepted());
}

/// What is asked about a link, and the commit: with the slip that was given, an old one, a wrong link count, and the last change number.
fn tried(script: &mut Script, rule: &mut Rule, link: Link, catalogue: &[u8], one_way: u16) -> bool {
    let before = laid(script);
    let change = script.register(STATE_CHANGE) as u32;
    lay_link(script, link);
    script.round(ASK);
    match rule.draw(6) {
        0 => {
            script.set(SLIP_CHANGE, change.wrapping_add([1, u32::MAX, 2][rule.draw(3) as usize]) as usize);
            script.once(COMMIT);
            assert_eq!(script.refusal(), Some(OLD_SLIP));
        }
        1 => {
            lay_state(script, before.links.len() + 2 * rule.draw(2) as usize, u32::MAX - rule.draw(2));
            script.once(ASK);
            script.once(COMMIT);
        }
        2 => {
            lay_state(script, (before.links.len() + 1).saturating_sub(2 * rule.draw(2) as usize), change);
            script.once(ASK);
            script.once(COMMIT);
        }
        _ => (),
    }
    lay_state(script, before.links.len(), change);
    script.round(COMMIT);
    if !script.is_accepted() {
        return false;
    }
    take(script);
    // The sheets that the commit changes are those of the set.
    let state = State { links: before.links.len() as u32, change };
    let file = write_record(&graph_fields(&before.kinds, &before.links), RECORD_BYTES, WORK_WORDS).unwrap();
    let (changes, _) = ask(catalogue, one_way, &file, state, link, WORK_WORDS).unwrap();
    let after = laid(script);
    for (j, extract) in extracts(judge_catalogue(catalogue).unwrap(), one_way).unwrap().iter().enumerate() {
        assert_eq!(extract.sheet(&before) != extract.sheet(&after), changes.contains(&j));
    }
    script.once(MAKE_BOOK);
    lay_state(script, after.links.len(), change + 1);
    true
}

fn case(script: &mut Script, rule: &mut Rule, size: u32, items: Option<u32>, tries: u32) -> u32 {
    let kinds = draw_kinds(rule);
    let (question, catalogue) = draw_files(rule, size, false, kinds);
    let question = judge_pattern(&question).unwrap();
    script.bytes(CATALOGUE_PART, &catalogue);
    let one_way = draw_one_way(rule, judge_catalogue(&catalogue).unwrap().len());
    script.set(ONE_WAY, one_way.into());
    match items {
        Some(items) => lay_record(script, rule, items, kinds),
        None => lay_part(script, rule, &question),
    }
    let links = laid(script).links.len();
    lay_state(script, links, [0, 7, rule.draw(65_536)][rule.draw(3) as usize]);
    script.once(MAKE_BOOK);
    let mut entered = 0;
    for _ in 0..tries {
        let Record { kinds, links } = laid(script);
        let back: Vec<Link> = links.iter().map(|&(from, to, kind)| (to, from, kind)).collect();
        let link = draw_link(rule, &kinds, if items.is_some() { &back } else { &question.links });
        entered += u32::from(tried(script, rule, link, &catalogue, one_way));
    }
    entered
}

/// A record of all links but one: another enters, and then none does. One that is there is said to be there either way.
fn full(script: &mut Script) {
    let drawn = Drawn { items: 4_096, links: 8_191, item_form: 4, link_form: 6, ..Drawn::default() };
    script.record(drawn, true);
    script.once(WRITE_RECORD);
    keep_as(script, RECORD_PART);
    script.bytes(CATALOGUE_PART, &C);
    lay_state(script, 8_191, 0);
    let there = laid(script).links[4_000];
    for (links, kind) in [(8_191, 7), (8_192, 6)] {
        lay_state(script, links, 0);
        for (name, link) in [("a link that is there", there), ("another link", (4_095, 4_095, kind))] {
            lay_link(script, link);
            script.name(&format!("a record of {links} links, {name}, ask: "));
            script.once(ASK);
            script.outcome();
            script.name(&format!("a record of {links} links, {name}, commit: "));
            script.round(COMMIT);
            script.outcome();
        }
        if script.is_accepted() {
            take(script);
        }
    }
    assert_eq!(script.refusal(), Some(COUNT));
}

pub fn write(script: &mut Script) {
    let mut rule = Rule::new();
    full(script);
    for (size, items, records, tries) in GROUPS {
        let mut entered = 0;
        for _ in 0..records {
            entered += case(script, &mut rule, size, items, tries);
        }
        let of = items.map_or("like the question".to_owned(), |items| format!("of {items} items"));
        script
            .name(&format!("links that enter, questions of {size} items, {records} records {of}: {entered} entered\n"));
        script.group();
    }
    script.set(ONE_WAY, 0);
}
