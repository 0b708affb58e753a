//! Links with kinds: those of one pair that differ in their kinds alone, in questions, extracts and records, in every call.

use super::worked::*;
use super::*;
use crate::files::*;
use crate::rule::Drawn;

/// The content of a pattern that has items of kinds 0 and 1, linked by links of these kinds.
pub fn one(kinds: &[u32]) -> Vec<u32> {
    graph_fields(&[0, 1], &kinds.iter().map(|&kind| (0, 1, kind)).collect::<Vec<Link>>())
}

/// The content of a catalogue of such patterns.
pub fn each(extracts: &[&[u32]]) -> Vec<u32> {
    let mut fields = vec![extracts.len() as u32];
    fields.extend(extracts.iter().flat_map(|kinds| one(kinds)));
    fields
}

/// Two items of kind 0 and two of kind 1. The first has links of two kinds to one item, the second of the same kinds to
/// two.
pub const LINKS: [Link; 5] = [(0, 2, 0), (0, 2, 1), (0, 3, 5), (1, 2, 0), (1, 3, 1)];

pub fn of_links() -> Vec<u8> {
    record(&[1, 1, 2, 2], &LINKS)
}

/// Kinds as they are named.
fn words(kinds: &[u32]) -> String {
    kinds.iter().map(|kind| kind.to_string()).collect::<Vec<String>>().join(" ")
}

/// Questions of which a link is matched and another of the same pair isn't: the quote, and the two records that show the
/// link that isn't.
fn uncovered(script: &mut Script) {
    for (question, extracts) in [
        // The list of the extract's link holds the pair of both links.
        (&[0, 1][..], &[&[1][..]][..]),
        (&[0, 1], &[&[0]]),
        (&[1, 0], &[&[1]]),
        (&[5, 0, 3], &[&[5, 3]]),
        (&[5, 0, 3], &[&[3], &[0]]),
        (&[0, 1], &[&[0, 2], &[1]]),
        (&[7], &[&[0], &[3, 7]]),
        (&[0, 1, 2, 3, 4, 5, 6, 7], &[&[7, 6, 5, 4, 2, 1, 0]]),
    ] {
        script.bytes(QUESTION_PART, &pattern(&one(question)));
        let by: Vec<String> = extracts.iter().map(|kinds| words(kinds)).collect();
        let name = format!("kinds {} by {}", words(question), by.join(" and "));
        quoted(script, &name, &each(extracts));
        priced(script, &name, &vec![1; extracts.len()]);
    }
    // Two pairs with links of two kinds each. Item 2 has none of kind 1, so its link of kind 0 is unmatched.
    let pairs = graph_fields(&[0, 1, 0, 1], &[(0, 1, 0), (0, 1, 1), (2, 3, 2), (2, 3, 0)]);
    script.bytes(QUESTION_PART, &pattern(&pairs));
    quoted(script, "two pairs by kinds 0 1 and 2", &each(&[&[0, 1], &[2]]));
    quoted(script, "two pairs by kinds 0 2 and 0 1", &each(&[&[0, 2], &[0, 1]]));
    // D with a link of kind 1, and C.
    script.bytes(QUESTION_PART, &pattern(&[4, 4, 0, 1, 2, 3, 0, 1, 0, 0, 2, 0, 1, 3, 1, 2, 3, 0]));
    quoted(script, "D with a reading of kind 1 by C", &C_FIELDS);
}

/// A question that several sets cover: the cheapest one, answers from the chosen and from each set, and searches.
fn covered(script: &mut Script) {
    let name = "kinds 0 1 by 1, 0 and both";
    script.bytes(QUESTION_PART, &pattern(&one(&[0, 1])));
    quoted(script, name, &each(&[&[1], &[0], &[0, 1]]));
    for charges in [[4, 4, 9], [4, 4, 8], [0, 0, 0]] {
        priced(script, &format!("{name} at {}", words(&charges)), &charges);
    }
    script.bytes(RECORD_PART, &of_links());
    answered(script, name);
    for set in (0..8).chain([0xfff8]) {
        answered_from(script, name, set);
    }
    indexed(script, name);
    // Pairs of kind 1, of kind 0, and of both, in a book of no record.
    script.content(&[1, 2, 0, 1, 5, 6, 1, 2, 0, 2, 3, 4, 1, 1, 5, 6, 1, 5, 7]);
    script.once(WRITE_BOOK);
    keep_as(script, BOOK_PART);
    say(script, &format!("{name}, a book of no record, answer"), ANSWER);
    for set in [3, 4, 7] {
        answered_from(script, &format!("{name}, a book of no record"), set);
    }
    // Links of two kinds to two items, and an extract in which they lead to one: both items are its partners.
    let fork = graph_fields(&[0, 1, 1], &[(0, 1, 0), (0, 2, 1)]);
    script.bytes(QUESTION_PART, &pattern(&fork));
    quoted(script, "a fork of kinds 0 and 1 by kinds 0 and 1", &each(&[&[0], &[1]]));
    script.bytes(RECORD_PART, &of_links());
    answered(script, "a fork of kinds 0 and 1");
    quoted(script, "a fork of kinds 0 and 1 by both", &each(&[&[0, 1]]));
}

/// Searches: a link is met, and followed, only by one of its kind.
fn searches(script: &mut Script) {
    for kinds in [&[0][..], &[1], &[2], &[5], &[0, 1], &[1, 0], &[0, 5], &[0, 1, 5]] {
        searched(script, &format!("kinds {}", words(kinds)), &pattern(&one(kinds)), &of_links());
    }
    let mixed = record(&[1, 2, 8, 2], &[(0, 1, 0), (0, 3, 0), (1, 2, 1)]);
    searched(script, "K6 with a reading of kind 1", &SLOW[1..], &mixed);
    searched(script, "K6 with a reading of kind 1, kinds 0 1", &pattern(&[3, 2, 0, 1, 3, 0, 1, 0, 1, 2, 1]), &mixed);
    let both_ways = record(&[32, 32], &[(0, 1, 0), (1, 0, 1)]);
    searched(script, "K7 with two kinds", &pattern(&[1, 1, 5, 0, 0, 0]), &both_ways);
    searched(script, "K7 with two kinds, kinds 0 1", &pattern(&[2, 2, 5, 5, 0, 1, 0, 1, 0, 1]), &both_ways);

    script.bytes(RECORD_PART, &pack_old_record(&graph_fields(&[1, 2, 8, 2], &[(1, 2, 0), (0, 3, 0), (0, 1, 0)])));
    say(script, "K6 from an old file, sort", SORT_RECORD);
    keep_as(script, RECORD_PART);
    for kind in [0, 1] {
        script.bytes(QUESTION_PART, &pattern(&[3, 2, 0, 1, 3, 0, 1, 0, 1, 2, kind]));
        beside_plain(script, &format!("K6 from an old file, reading of kind {kind}"));
    }
}

/// Indexes count links, so several where a pair has several kinds.
fn indexes(script: &mut Script) {
    script.bytes(QUESTION_PART, &pattern(&one(&[1])));
    script.bytes(RECORD_PART, &of_links());
    indexed(script, "five links of four pairs");
    // That of the pairs.
    script.bytes(BOOK_PART, &[0, 0, 0, 2, 0, 4, 0, 4, 0, 4]);
    checked(script, "an index that counts pairs");
    say(script, "an index that counts pairs, search_indexed", SEARCH_INDEXED);

    // All links that 32 items can have.
    let full = Drawn { items: 32, links: 1_024, item_form: 3, link_form: 6, kind_form: 2, ..Drawn::default() };
    script.record(full, true);
    script.once(WRITE_RECORD);
    keep_as(script, RECORD_PART);
    script.bytes(QUESTION_PART, &pattern(&one(&[7, 6, 5, 4, 3, 2, 1, 0])));
    indexed(script, "8192 links of 32 items");
    beside_plain(script, "8192 links of 32 items");
    script.bytes(CATALOGUE_PART, &catalogue(&each(&[&[0], &[1, 7]])));
    say(script, "8192 links of 32 items, make_book", MAKE_BOOK);
}

/// Books whose lists for links of different kinds have pairs in common: 10 counts pairs.
fn books(script: &mut Script) {
    crowd(script, "8192 different pairs of kind 0, one again of kind 1", [0, 1], 0);
    crowd(script, "8192 different pairs of kind 0, another of kind 1", [0, 1], 2);
    // Both lists of an extract, in one sheet.
    let name = "8192 pairs of two kinds each";
    script.bytes(QUESTION_PART, &pattern(&one(&[0, 1])));
    script.bytes(CATALOGUE_PART, &catalogue(&each(&[&[0, 1]])));
    script.content(&[1]);
    script.lists(2, MOST_PAIRS);
    say(script, &format!("{name}, write"), WRITE_BOOK);
    keep_as(script, BOOK_PART);
    say(script, &format!("{name}, read"), READ_BOOK);
    say(script, &format!("{name}, answer"), ANSWER);
}

pub fn write(script: &mut Script) {
    uncovered(script);
    covered(script);
    searches(script);
    indexes(script);
    books(script);
    script.name("links with kinds\n");
    script.group();
}
