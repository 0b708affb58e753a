//! Searches and books of records that are drawn, from no items to the most, each search beside the plain one and the one with
//! an index, and each book beside the searches of its extracts.

use super::*;
use crate::drawing::*;
use crate::files::*;
use crate::matching::record_of;

/// How many items at most, and how many searches and records at least.
const SIZES: [(u32, usize, usize); 7] =
    [(0, 20, 3), (4, 140, 20), (16, 140, 20), (64, 140, 18), (256, 120, 14), (1_024, 88, 12), (4_096, 105, 16)];

/// Where the extracts of a catalogue stand in its file.
pub fn places(extracts: &[Vec<u8>]) -> Vec<(usize, usize)> {
    let mut at = PLACES[CATALOGUE_PART] + 1;
    let mut places = Vec::new();
    for extract in extracts {
        places.push((at, at + extract.len()));
        at += extract.len();
    }
    places
}

/// One link of the content becomes like the one before it, in all three fields or in two; or the two change their kinds; or
/// its kind is none. What the writer says of that, and what is said of the file.
fn wrong_link(script: &mut Script, rule: &mut Rule, is_old: bool) {
    let (items, links) = (script.content_now()[0], script.content_now()[1]);
    if links < 2 {
        return;
    }
    let at = (5 + items + 3 * rule.draw(links - 1)) as usize;
    let before: [u32; 3] = std::array::from_fn(|i| script.content_now()[at - 3 + i]);
    let own: [u32; 3] = std::array::from_fn(|i| script.content_now()[at + i]);
    let form = rule.draw(6);
    let [from, to, kind] = match form {
        0 => before,
        1 => [before[0], before[1], own[2]],
        2 => [before[0], own[1], before[2]],
        3 => [own[0], before[1], before[2]],
        4 => {
            script.change(at - 1, own[2]);
            [own[0], own[1], before[2]]
        }
        _ => [own[0], own[1], 8 + own[2]],
    };
    for (i, field) in [from, to, kind].into_iter().enumerate() {
        if field != own[i] {
            script.change(at + i, field);
        }
    }
    script.once(WRITE_RECORD);
    if is_old {
        script.pack_old(RECORD_PART);
        script.once(SORT_RECORD);
    } else {
        script.pack(RECORD_PART);
        script.once(READ_RECORD);
        script.once(SEARCH);
        script.once(MAKE_INDEX);
    }
}

/// A bit of the kind of one link is turned, where the record has links: what is said of that, and then it is as before.
fn turned_kind(script: &mut Script, rule: &mut Rule, calls: &[usize]) {
    let Ok(Record { kinds, links }) = record_of(script.part(RECORD_PART), WORK_WORDS) else { return };
    if links.is_empty() {
        return;
    }
    let bit = 27 + 32 * kinds.len() + 27 * rule.draw(links.len() as u32) as usize + 24 + rule.draw(3) as usize;
    script.flip(RECORD_PART, bit);
    for &call in calls {
        script.once(call);
    }
    script.flip(RECORD_PART, bit);
}

/// A record that is drawn, written and kept; where all links have kind 0, three times in four from an old file whose links
/// stand as they are drawn.
pub fn lay_record(script: &mut Script, rule: &mut Rule, n: u32, kinds: Kinds) {
    let drawn = draw_record(rule, n, kinds);
    let is_old = kinds.are_old() && rule.draw(4) != 0;
    script.record(drawn, !is_old);
    if rule.draw(3) == 0 {
        wrong_link(script, rule, is_old);
        script.record(drawn, !is_old);
    }
    script.once(WRITE_RECORD);
    if is_old {
        script.pack_old(RECORD_PART);
        script.once(READ_RECORD);
        script.round(SORT_RECORD);
    }
    keep_as(script, RECORD_PART);
}

fn draw_extracts(rule: &mut Rule, kinds: Kinds) -> Vec<Vec<u8>> {
    let number = rule.draw(17);
    let extract = |_| write_pattern(&draw_pattern(rule, kinds), PATTERN_BYTES, WORK_WORDS).unwrap();
    (0..number).map(extract).collect()
}

/// The index of the record, beside where sheets are kept.
fn lay_index(script: &mut Script) {
    script.place(BOOK_PART, INDEX_PLACE, INDEX_PLACE);
    script.round(MAKE_INDEX);
    script.keep(BOOK_PART);
    script.round(CHECK_INDEX);
    script.short(RECORD_PART);
}

/// A record and a catalogue: a search for each extract, then the book. How many searches there are. Sheets are kept in the
/// catalogue's part while an index is in theirs.
fn case(script: &mut Script, rule: &mut Rule, n: u32) -> usize {
    let kinds = draw_kinds(rule);
    lay_record(script, rule, n, kinds);
    let extracts = draw_extracts(rule, kinds);
    let mut catalogue = vec![(extracts.len() << 3) as u8];
    catalogue.extend(extracts.concat());
    if extracts.is_empty() && rule.draw(2) == 0 {
        catalogue.clear();
    }
    script.bytes(CATALOGUE_PART, &catalogue);
    lay_index(script);
    script.place(CATALOGUE_PART, PLACES[BOOK_PART], PLACES[BOOK_PART]);
    for (i, (start, end)) in places(&extracts).into_iter().enumerate() {
        script.place(QUESTION_PART, start, end);
        script.round(PLAIN);
        script.hold();
        for search in [SEARCH, SEARCH_INDEXED] {
            script.round(search);
            script.same();
            if i == 0 {
                script.short(QUESTION_PART);
                script.short(RECORD_PART);
                turned_kind(script, rule, &[search]);
                script.once(search);
            }
        }
        script.keep(CATALOGUE_PART);
    }
    script.place(BOOK_PART, PLACES[BOOK_PART], script.register(END + CATALOGUE_PART));
    script.place(CATALOGUE_PART, PLACES[CATALOGUE_PART], PLACES[CATALOGUE_PART] + catalogue.len());
    script.round(MAKE_BOOK);
    script.matches(BOOK_PART);
    turned_kind(script, rule, &[MAKE_BOOK]);
    script.short(CATALOGUE_PART);
    script.short(RECORD_PART);
    extracts.len()
}

pub fn write(script: &mut Script) {
    let mut rule = Rule::new();
    for (size, searches, records) in SIZES {
        let (mut searched, mut record) = (0, 0);
        while searched < searches || record < records as u32 {
            let n = draw_items(&mut rule, size, record);
            searched += case(script, &mut rule, n);
            record += 1;
        }
        script.name(&format!("{size} items: {record} records, {searched} extracts\n"));
        script.group();
    }
}
