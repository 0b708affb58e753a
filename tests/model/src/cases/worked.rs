//! The worked cases of the requirements that are more than one file, and a few that are as large as can be.

use super::kinds::{each, one};
use super::*;
use crate::files::*;
use crate::rule::Lists;

/// A call on what is laid, and its outcome.
pub fn say(script: &mut Script, name: &str, call: usize) {
    script.name(&format!("{name}: "));
    script.once(call);
    script.outcome();
}

pub fn catalogue(fields: &[u32]) -> Vec<u8> {
    write_catalogue(fields, CATALOGUE_BYTES, WORK_WORDS).unwrap()
}

pub fn pattern(fields: &[u32]) -> Vec<u8> {
    write_pattern(fields, PATTERN_BYTES, WORK_WORDS).unwrap()
}

/// A record by the kinds of its items and by its links.
pub fn record(kinds: &[u32], links: &[Link]) -> Vec<u8> {
    write_record(&graph_fields(kinds, links), RECORD_BYTES, WORK_WORDS).unwrap()
}

/// D with a catalogue: the quote and the showing.
pub fn quoted(script: &mut Script, name: &str, fields: &[u32]) {
    script.bytes(CATALOGUE_PART, &catalogue(fields));
    say(script, &format!("{name}, quote"), QUOTE);
    say(script, &format!("{name}, show"), SHOW_UNCOVERED);
    if script.is_accepted() {
        shown(script, name);
    }
}

/// The extracts' lists are the same on both shown records, and the question's sheets are not.
fn shown(script: &mut Script, name: &str) {
    let (first, second) = script.lengths();
    keep_as(script, BOOK_PART);
    let start = PLACES[BOOK_PART];
    script.set(END + BOOK_PART, start + first + second);
    script.place(RECORD_PART, start, start + first);
    script.once(MAKE_BOOK);
    script.hold();
    script.place(RECORD_PART, start + first, start + first + second);
    script.once(MAKE_BOOK);
    script.same();
    say(script, &format!("{name}, search the second"), SEARCH);
    script.place(RECORD_PART, start, start + first);
    say(script, &format!("{name}, search the first"), SEARCH);
}

/// The cheapest set with these charges.
pub fn priced(script: &mut Script, name: &str, charges: &[u32]) {
    script.content(charges);
    say(script, &format!("{name}, cheapest"), CHEAPEST);
}

/// A question of n items of different kinds, linked in a ring, and extracts that have some of its links each.
fn lay_ring(script: &mut Script, n: u32, extracts: &[&[u32]]) {
    let part = |links: &[u32]| {
        let mut items: Vec<u32> = links.iter().flat_map(|&link| [link, (link + 1) % n]).collect();
        items.sort();
        items.dedup();
        let number = |item: u32| items.iter().position(|&other| other == item).unwrap() as u32;
        let links: Vec<Link> = links.iter().map(|&link| (number(link), number((link + 1) % n), 0)).collect();
        graph_fields(&items, &links)
    };
    let all: Vec<u32> = (0..n).collect();
    script.bytes(QUESTION_PART, &pattern(&part(&all)));
    let mut fields = vec![extracts.len() as u32];
    fields.extend(extracts.iter().flat_map(|links| part(links)));
    script.bytes(CATALOGUE_PART, &catalogue(&fields));
}

/// Charges that tie, cost nothing, differ in number from the extracts, and are as many and as large as can be.
fn charged(script: &mut Script) {
    script.bytes(QUESTION_PART, &D);
    script.bytes(CATALOGUE_PART, &C);
    priced(script, "K2: C at 100 200 150", &[100, 200, 150]);
    priced(script, "K2: C for nothing", &[0, 0, 0]);
    for number in [0, 2, 4, 15, 16, 17] {
        priced(script, &format!("K2: C, {number} charges"), &vec![1; number]);
    }
    script.bytes(CATALOGUE_PART, &SLOW);
    priced(script, "K3: extract 1 of C, 3 charges", &[1, 2, 3]);
    priced(script, "K3: extract 1 of C, a charge", &[1]);
    script.bytes(CATALOGUE_PART, &[0]);
    priced(script, "K4: no extracts, a charge", &[0]);
    priced(script, "K4: no extracts, no charge", &[]);

    lay_ring(script, 4, &[&[0, 1, 2, 3], &[0, 1], &[2, 3]]);
    priced(script, "two are cheaper than one", &[9, 4, 4]);
    priced(script, "one costs as much as two", &[8, 4, 4]);
    priced(script, "one for nothing and two for nothing", &[0, 0, 0]);
    lay_ring(script, 4, &[&[0, 1], &[0, 2], &[1, 3], &[2, 3]]);
    priced(script, "0 3 before 1 2", &[5, 5, 5, 5]);
    priced(script, "1 2 for less", &[5, 4, 5, 5]);
    lay_ring(script, 4, &[&[0, 1], &[2, 3], &[0, 1], &[2, 3]]);
    priced(script, "0 1, 0 3, 1 2 and 2 3 alike", &[7, 7, 7, 7]);
    priced(script, "2 3 for nothing", &[1, 1, 0, 0]);

    let single: Vec<[u32; 1]> = (0..16).map(|link| [link]).collect();
    let single: Vec<&[u32]> = single.iter().map(|link| &link[..]).collect();
    lay_ring(script, 16, &single);
    priced(script, "16 extracts of a link each at the most", &[u32::MAX; 16]);
    for number in [15, 17] {
        priced(script, &format!("16 extracts, {number} charges"), &vec![u32::MAX; number]);
    }
    lay_ring(script, 2, &[&[0, 1][..]; 16]);
    priced(script, "16 extracts alike at the most", &[u32::MAX; 16]);
    priced(script, "16 extracts alike, the last for less", &std::array::from_fn::<u32, 16, _>(|a| 16 - a as u32));
}

/// A pattern on a record.
pub fn searched(script: &mut Script, name: &str, pattern: &[u8], record: &[u8]) {
    script.bytes(QUESTION_PART, pattern);
    script.bytes(RECORD_PART, record);
    beside_plain(script, name);
}

pub fn beside_plain(script: &mut Script, name: &str) {
    script.once(PLAIN);
    script.hold();
    say(script, &format!("{name}, search"), SEARCH);
    script.same();
}

/// An answer from a set.
pub fn answered_from(script: &mut Script, name: &str, set: usize) {
    script.set(SET, set);
    say(script, &format!("{name}, answer from {set}"), ANSWER_FROM);
}

/// So many questions, which are laid.
fn several(script: &mut Script, name: &str, number: usize) {
    script.set(QUESTIONS, number);
    say(script, &format!("{name}, {number} questions, answer_several"), ANSWER_SEVERAL);
}

/// The book of one list, from (0, 0) to (n - 1, n - 1), for the catalogue of a self-link.
fn to_itself(script: &mut Script, n: usize) {
    script.content(&[1]);
    script.lists(1, Lists { least: n, most: 0, first: 0, step: 4_097, gap: 0, items: 4_096 });
    script.once(WRITE_BOOK);
    keep_as(script, BOOK_PART);
}

/// A self-link, and sixteen items with 32 links, all matched by it: where one answer is too long, and where the sum is longer than
/// one may be.
fn sums(script: &mut Script) {
    let own = pattern(&[1, 1, 0, 0, 0, 0]);
    let links: Vec<Link> = (0..32).map(|e| (e % 16, (e + 1 + e / 16) % 16, 0)).collect();
    let sixteen = pattern(&graph_fields(&[0; 16], &links));
    script.bytes(CATALOGUE_PART, &catalogue(&[1, 1, 1, 0, 0, 0, 0]));
    script.set(ROOM, 132_000);
    to_itself(script, 700);
    script.bytes(QUESTION_PART, &sixteen);
    say(script, "32 links of 700 pairs, answer", ANSWER);
    assert_eq!((script.last().number, script.last().value), (12, 67_257));
    script.bytes(QUESTION_PART, &[&own[..], &sixteen].concat());
    several(script, "a link of 700 pairs and 32", 2);
    assert_eq!((script.last().number, script.last().value), (12, 69_359));
    to_itself(script, 682);
    script.bytes(QUESTION_PART, &sixteen.repeat(2));
    several(script, "32 links of 682 pairs twice", 2);
    assert_eq!((script.last().number, script.last().value, script.last().other), (0, 131_058, 1));
    script.round(ANSWER_SEVERAL);
    script.set(ROOM, ROOM_MOST);
}

/// D by C on K9: every set that covers answers as the search, bits that name no extract are ignored, and the others leave
/// a link unmatched. From a book of no record two sets that cover give different answers.
fn chosen_by_the_client(script: &mut Script, name: &str) {
    for set in 0..8 {
        answered_from(script, name, set);
    }
    for set in [0xffff, 0xfffe, 0xfff8] {
        answered_from(script, name, set);
    }
    script.content(&[1, 1, 0, 3, 1, 1, 0, 1, 2, 1, 2, 3, 2, 1, 1, 0, 1, 1, 1, 2]);
    script.once(WRITE_BOOK);
    keep_as(script, BOOK_PART);
    answered_from(script, "a book of no record", 6);
    answered_from(script, "a book of no record", 7);
}

/// The book of a record, the answer and the part from it, and the search.
pub fn answered(script: &mut Script, name: &str) {
    say(script, &format!("{name}, make_book"), MAKE_BOOK);
    keep_as(script, BOOK_PART);
    say(script, &format!("{name}, answer"), ANSWER);
    say(script, &format!("{name}, part"), PART);
    beside_plain(script, name);
}

/// A record's index.
fn lay_index(script: &mut Script, name: &str) {
    say(script, &format!("{name}, make_index"), MAKE_INDEX);
    keep_as(script, BOOK_PART);
}

pub fn checked(script: &mut Script, name: &str) {
    say(script, &format!("{name}, check_index"), CHECK_INDEX);
}

/// The record's own index, and searches with it and without.
pub fn indexed(script: &mut Script, name: &str) {
    lay_index(script, name);
    checked(script, name);
    script.once(SEARCH);
    script.hold();
    say(script, &format!("{name}, search_indexed"), SEARCH_INDEXED);
    script.same();
}

/// The entry at a place becomes another by its last bit: what is said of it, and then it is as before.
fn entry_off(script: &mut Script, name: &str, entry: usize) {
    script.flip(BOOK_PART, 16 * entry + 15);
    let name = format!("{name}, entry {entry} off by one");
    checked(script, &name);
    say(script, &format!("{name}, search_indexed"), SEARCH_INDEXED);
    script.flip(BOOK_PART, 16 * entry + 15);
}

/// So many entries, those beyond the index being what follows it in the memory.
fn of_length(script: &mut Script, name: &str, entries: usize) {
    let end = script.register(END + BOOK_PART);
    script.set(END + BOOK_PART, PLACES[BOOK_PART] + 2 * entries);
    let name = format!("{name}, {entries} entries");
    checked(script, &name);
    say(script, &format!("{name}, search_indexed"), SEARCH_INDEXED);
    script.set(END + BOOK_PART, end);
}

/// Indexes: a record's own; of wrong lengths, with an entry off at the first, a middle and the last place, of another record;
/// and what is said first where the pattern, the record or the room has a fault too.
fn indexes(script: &mut Script, k6: &[u8]) {
    script.bytes(QUESTION_PART, &ONE);
    script.bytes(RECORD_PART, &record(&[], &[]));
    indexed(script, "an empty record");
    entry_off(script, "an empty record", 0);
    for entries in [0, 2] {
        of_length(script, "an empty record", entries);
    }
    script.bytes(RECORD_PART, &record(&[1, 2, 8], &[]));
    indexed(script, "three items without links");

    script.bytes(QUESTION_PART, &SLOW[1..]);
    script.bytes(RECORD_PART, k6);
    indexed(script, "K6");
    for entry in [0, 2, 4] {
        entry_off(script, "K6", entry);
    }
    for entries in [0, 1, 4, 6, 33_000] {
        of_length(script, "K6", entries);
    }
    script.flip(BOOK_PART, 15);
    of_length(script, "K6, entry 0 off by one", 4);
    script.set(ROOM, 9);
    script.round(SEARCH_INDEXED);
    script.set(ROOM, ROOM_MOST);
    script.flip(BOOK_PART, 15);
    script.round(SEARCH_INDEXED);
    script.round(CHECK_INDEX);
    script.round(MAKE_INDEX);

    // As many items, other links.
    script.bytes(RECORD_PART, &record(&[1, 2, 8, 2], &[(0, 1, 0), (1, 2, 0), (3, 2, 0)]));
    checked(script, "K6's index beside another record");
    say(script, "K6's index beside another record, search_indexed", SEARCH_INDEXED);
    // The same links from the same items, to others: it is its own too.
    script.bytes(RECORD_PART, &record(&[1, 2, 8, 2], &[(0, 2, 0), (0, 3, 0), (1, 3, 0)]));
    checked(script, "K6's index beside a record whose links begin alike");
    script.short(RECORD_PART);
    script.short(QUESTION_PART);

    full_record(script);
    indexed(script, "4096 items, 8192 links");
    assert_eq!(script.part(BOOK_PART)[8_192..], [32, 0]);
    for entry in [0, 2_048, 4_096] {
        entry_off(script, "4096 items, 8192 links", entry);
    }
    for entries in [4_096, 4_098] {
        of_length(script, "4096 items, 8192 links", entries);
    }
}

/// The content of a ring of n items, all with the same kinds.
fn ring(n: u32, kinds: u32) -> Vec<u32> {
    let mut fields = vec![n, n];
    fields.extend(vec![kinds; n as usize]);
    fields.extend((0..n).flat_map(|item| [item, (item + 1) % n, 0]));
    fields
}

/// A list of the most pairs that a book may have.
pub const MOST_PAIRS: Lists = Lists { least: BOOK_PAIRS, most: 0, first: 0, step: 2_048, gap: 0, items: 4_096 };

/// Two extracts of a link each, of these kinds: the first sheet lists the most pairs that a book may have, the second the
/// pair of item 0 and another. The question is the first extract, so the second isn't chosen.
pub fn crowd(script: &mut Script, name: &str, kinds: [u32; 2], other: u32) {
    script.bytes(QUESTION_PART, &pattern(&one(&kinds[..1])));
    script.bytes(CATALOGUE_PART, &catalogue(&each(&[&kinds[..1], &kinds[1..]])));
    script.empty(BOOK_PART);
    script.content(&[1]);
    script.lists(1, MOST_PAIRS);
    script.once(WRITE_SHEET);
    script.keep(BOOK_PART);
    script.content(&[1, 1, 0, other]);
    script.once(WRITE_SHEET);
    script.keep(BOOK_PART);
    say(script, &format!("{name}, answer"), ANSWER);
    several(script, name, 1);
    answered_from(script, name, 2);
    say(script, &format!("{name}, read"), READ_BOOK);
    if script.is_accepted() {
        say(script, &format!("{name}, write"), WRITE_BOOK);
    }
}

pub const C_FIELDS: [u32; 30] =
    [3, 2, 1, 0, 1, 0, 1, 0, 3, 2, 0, 1, 3, 0, 1, 0, 1, 2, 0, 3, 2, 0, 2, 3, 0, 1, 0, 1, 2, 0];

pub fn write(script: &mut Script) {
    script.bytes(QUESTION_PART, &D);
    quoted(script, "K1: D by itself", &[1, 4, 4, 0, 1, 2, 3, 0, 1, 0, 0, 2, 0, 1, 3, 0, 2, 3, 0]);
    quoted(script, "K2: C", &C_FIELDS);
    quoted(script, "K3: extract 1 of C", &[1, 3, 2, 0, 1, 3, 0, 1, 0, 1, 2, 0]);
    quoted(script, "K4: no extracts", &[0]);
    quoted(script, "K5: slow run to fast run", &[1, 2, 1, 1, 2, 0, 1, 0]);
    script.bytes(QUESTION_PART, &pattern(&[4, 4, 0, 1, 2, 3, 2, 3, 0, 1, 3, 0, 0, 2, 0, 0, 1, 0]));
    quoted(script, "K3: D's links turned", &[1, 3, 2, 0, 1, 3, 0, 1, 0, 1, 2, 0]);
    script.bytes(QUESTION_PART, &D);

    charged(script);

    let k6 = record(&[1, 2, 8, 2], &[(0, 1, 0), (0, 3, 0), (1, 2, 0)]);
    let k9 = record(&[1, 6, 8], &[(0, 1, 0), (1, 2, 0)]);
    let to_itself = pattern(&[1, 1, 5, 0, 0, 0]);
    searched(script, "K6: extract 1 of C", &SLOW[1..], &k6);
    searched(script, "K7: both ways", &to_itself, &record(&[32, 32], &[(0, 1, 0), (1, 0, 0)]));
    searched(script, "K8: a chain", &to_itself, &record(&[32, 32, 32], &[(0, 1, 0), (1, 2, 0)]));
    searched(script, "K9: D", &D, &k9);
    searched(script, "K10: an empty record", &ONE, &record(&[], &[]));

    script.bytes(QUESTION_PART, &D);
    script.bytes(CATALOGUE_PART, &C);
    script.bytes(RECORD_PART, &k9);
    answered(script, "K9: D by C");
    chosen_by_the_client(script, "K9: D by C");
    script.bytes(RECORD_PART, &k6);
    answered(script, "K6: D by C");
    script.bytes(CATALOGUE_PART, &SLOW);
    script.bytes(RECORD_PART, &k9);
    answered(script, "K9: D by extract 1 of C");
    answered_from(script, "K9: D by extract 1 of C", 0);
    answered_from(script, "K9: D by extract 1 of C", 1);

    indexes(script, &k6);

    script.bytes(QUESTION_PART, &pattern(&ring(8, 0)));
    script.bytes(CATALOGUE_PART, &catalogue(&[1, 1, 1, 0, 0, 0, 0]));
    ring_record(script);
    answered(script, "a ring of 8 on a ring of 4096");
    crowd(script, "8192 different pairs", [0, 0], 0);
    crowd(script, "8193 different pairs", [0, 0], 2);
    sums(script);
    script.name("the worked cases\n");
    script.group();
}

/// A ring of 4,096 items of kind 0.
fn ring_record(script: &mut Script) {
    let drawn = crate::rule::Drawn { items: 4_096, links: 4_096, kinds: 1, link_form: 3, ..Default::default() };
    script.record(drawn, true);
    assert_eq!(script.content_now(), ring(4_096, 1));
    script.once(WRITE_RECORD);
    keep_as(script, RECORD_PART);
}

/// The most items and links, items of every kind.
fn full_record(script: &mut Script) {
    let drawn = crate::rule::Drawn { items: 4_096, links: 8_192, item_form: 4, link_form: 6, ..Default::default() };
    script.record(drawn, true);
    script.once(WRITE_RECORD);
    keep_as(script, RECORD_PART);
}
