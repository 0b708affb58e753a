//! The baseline beside the plain model of the requirements, on the workloads at their least size, on small graphs drawn
//! at random and on books that belong to no record; and its tuned calls beside its plain ones on all records of the workloads.

use crate::baseline::{self, tuned};
use crate::calls::all_one_way;
use crate::workloads::*;
use model::files::{pack_record, read_book, read_record, Refusal, BOOK_BYTES, WORK_WORDS};
use model::{answering, cheapest, entering, indexing, matching, part, quoting};

const ROOM: usize = BOOK_BYTES;

/// Both give the same, a refusal too.
fn same<T: PartialEq>(what: &str, baseline: Result<T, baseline::Refusal>, model: Result<T, Refusal>) -> Option<T> {
    let model = model.map_err(|refusal| (refusal.number as usize, refusal.detail));
    assert!(baseline == model, "{what}");
    model.ok()
}

fn model_quote(question: &[u8], catalogue: &[u8]) -> Result<baseline::Quote, Refusal> {
    let quote = quoting::quote(question, catalogue, 0, WORK_WORDS)?;
    let mut mapping = [0; 512];
    for (e, matches) in quote.mapping.iter().enumerate() {
        matches.iter().for_each(|&(a, b)| mapping[16 * e + a] |= 1 << b);
    }
    Ok(baseline::Quote {
        covered: quote.covered,
        links: quote.mapping.len(),
        chosen: quote.chosen.iter().map(|a| 1 << a).sum(),
        lowest_unmatched: quote.lowest_unmatched,
        mapping,
    })
}

fn model_cheapest(question: &[u8], catalogue: &[u8], charges: &[u32]) -> Result<yuthaqim::Cheapest, Refusal> {
    let cheapest::Cheapest { set, sum, chosen } = cheapest::cheapest(question, catalogue, 0, charges, WORK_WORDS)?;
    let bits = |set: Vec<usize>| set.iter().map(|a| 1 << a).sum();
    Ok(yuthaqim::Cheapest { set: bits(set), sum, chosen: bits(chosen) })
}

fn same_cheapest(question: &[u8], catalogue: &[u8], charges: &[u32]) {
    let model = model_cheapest(question, catalogue, charges);
    same("cheapest set", baseline::cheapest(question, catalogue, charges), model);
}

/// Every call that reads no record.
fn without_record(question: &[u8], catalogue: &[u8], book: &[u8]) -> Option<Vec<u8>> {
    same("quote", baseline::quote(question, catalogue), model_quote(question, catalogue));
    let extracts = model::files::judge_catalogue(catalogue).map_or(0, |extracts| extracts.len() as u32);
    for charges in [vec![1; extracts as usize], (0..extracts).map(|a| a * 7 % 4).collect(), vec![1; 5]] {
        same_cheapest(question, catalogue, &charges);
    }
    same("read a book", baseline::read_book(catalogue, book, ROOM), read_book(catalogue, book, ROOM, WORK_WORDS));
    let parts = part::part(question, catalogue, 0, book, ROOM, ROOM, WORK_WORDS);
    same("part", baseline::part(question, catalogue, book, ROOM, ROOM), parts);
    let answer = answering::answer(question, catalogue, 0, book, ROOM, WORK_WORDS);
    same("answer, sorting", baseline::answer_by_sorting(question, catalogue, book, ROOM), answer.clone());
    same("answer", baseline::answer(question, catalogue, book, ROOM), answer)
}

/// A record without the link in its middle, if it has one, and that link.
fn taken_out(record: &[u8]) -> Option<(Vec<u8>, yuthaqim::Link)> {
    let mut content = read_record(record, ROOM, WORK_WORDS).unwrap();
    let (items, links) = (content[0] as usize, content[1]);
    let at = 2 + items + 3 * (links as usize / 2);
    content[1] = links.checked_sub(1)?;
    let taken: Vec<u32> = content.drain(at..at + 3).collect();
    let before = model::files::write_record(&content, ROOM, WORK_WORDS).unwrap();
    Some((before, yuthaqim::Link { from: taken[0], to: taken[1], kind: taken[2] }))
}

/// A link that enters: one of the record is taken out of it, asked about and entered again.
fn enters(record: &[u8], catalogue: &[u8]) {
    let Some((before, own)) = taken_out(record) else {
        return;
    };
    let link = (own.from, own.to, own.kind);
    let links = read_record(&before, ROOM, WORK_WORDS).unwrap()[1];
    let mut state = entering::State { links, change: 7 };
    let asked = entering::ask(catalogue, 0, &before, state, link, WORK_WORDS);
    let set = asked.map(|(extracts, _)| extracts.iter().map(|a| 1 << a).sum::<u16>());
    same("ask, tuned", tuned::ask(catalogue, &before, own), set.clone());
    same("ask", baseline::ask(catalogue, &before, own), set);
    let slip = entering::Slip { link, change: 7 };
    let entered = entering::commit(&before, &mut state, slip, ROOM, ROOM, WORK_WORDS);
    let given = same("commit", baseline::commit(&before, own), entered).unwrap();
    assert_eq!(given.0, record);
}

/// A set of some extracts, of which a catalogue may have fewer.
const MIXED: u16 = 0b1010_0110;

/// The book of a catalogue with a set, if there is room for it.
fn made_book(catalogue: &[u8], set: u16, record: &[u8], room: usize) -> Option<Vec<u8>> {
    let made = matching::make_book(catalogue, set, record, room, WORK_WORDS);
    same("make a book, tuned", tuned::make_book(catalogue, set, record, room), made.clone());
    same("make a book", baseline::make_book(catalogue, set, record, room), made)
}

/// Every call. Gives whether the question was answered.
fn agree(record: &[u8], question: &[u8], catalogue: &[u8]) -> bool {
    same("read a record", baseline::read_record(record, ROOM), read_record(record, ROOM, WORK_WORDS));
    let index = indexing::make_index(record, ROOM, WORK_WORDS);
    let mut index = same("make an index", baseline::make_index(record, ROOM), index).unwrap();
    for _ in 0..3 {
        let check = indexing::check_index(record, &index, WORK_WORDS);
        same("check an index", baseline::check_index(record, &index), check);
        match index.last_mut() {
            Some(last) if *last != 9_999 => *last = 9_999,
            _ => drop(index.pop()),
        }
    }
    enters(record, catalogue);
    let search = matching::search(question, record, ROOM, WORK_WORDS);
    same("search, tuned", tuned::search(question, record, ROOM), search.clone());
    let sheet = same("search", baseline::search(question, record, ROOM), search);
    for set in [all_one_way(catalogue), MIXED] {
        made_book(catalogue, set, record, ROOM);
    }
    let Some(book) = made_book(catalogue, 0, record, ROOM) else {
        return false;
    };
    made_book(catalogue, 0, record, book.len() - 1);
    let answer = without_record(question, catalogue, &book);
    assert!(answer.is_none() || answer == sheet);
    answer.is_some()
}

#[test]
fn on_the_workloads() {
    for workload in all(8) {
        assert!(agree(&workload.records[0], &workload.question, &workload.catalogue), "{}", workload.name);
    }
}

/// The tuned calls beside the plain ones. The model would take long on these records.
fn same_tuned(record: &[u8], question: &[u8], catalogue: &[u8]) {
    assert_eq!(tuned::search(question, record, ROOM), baseline::search(question, record, ROOM));
    for set in [0, all_one_way(catalogue), MIXED] {
        assert_eq!(tuned::make_book(catalogue, set, record, ROOM), baseline::make_book(catalogue, set, record, ROOM));
    }
    let Some((before, link)) = taken_out(record) else {
        return;
    };
    assert_eq!(tuned::ask(catalogue, &before, link), baseline::ask(catalogue, &before, link));
}

#[test]
fn tuned_on_all_records() {
    for workload in [1, 8].into_iter().flat_map(all) {
        for record in &workload.records {
            same_tuned(record, &workload.question, &workload.catalogue);
        }
    }
}

#[test]
fn on_charges() {
    for part in [1, 2] {
        for (question, catalogue, charges) in priced(part).iter().flat_map(|priced| &priced.offers) {
            same_cheapest(question, catalogue, charges);
        }
    }
}

#[test]
fn on_books_that_belong_to_no_record() {
    for book in books(8) {
        without_record(&book.pattern, &book.catalogue, &book.book);
    }
}

/// Links of two kinds.
fn some_links(rule: &mut Rule, number: usize, items: usize) -> Vec<Link> {
    let mut links = Vec::new();
    for _ in 0..number {
        let link = (rule.below(items), rule.below(items), rule.below(2));
        if !links.contains(&link) {
            links.push(link);
        }
    }
    links
}

/// A pattern whose items are all at links.
fn some_pattern(rule: &mut Rule) -> Pattern {
    let items = 1 + rule.below(4);
    let mut links: Vec<_> = (0..items).map(|u| (u, (u + 1).min(items - 1), rule.below(2))).collect();
    let more = rule.below(4);
    links.extend(some_links(rule, more, items));
    links.sort();
    links.dedup();
    if rule.below(2) == 0 && links.len() > 1 {
        links.retain(|&link| link != (items - 1, items - 1, 0));
    }
    ((0..items).map(|_| rule.below(3) as u32).collect(), links)
}

/// Some links of a pattern and the items at them.
fn some_part(rule: &mut Rule, whole: &Pattern) -> Pattern {
    let links = &whole.1[rule.below(whole.1.len())..];
    part_of(whole, links[..1 + rule.below(links.len())].to_vec())
}

/// A record whose first two links, if it has as many, changed places, or of which the first repeats the second.
fn disordered(record: &[u8], question: &[u8]) {
    let fields = read_record(record, ROOM, WORK_WORDS).unwrap();
    let (items, links) = (fields[0] as usize, fields[1]);
    if links > 1 {
        let first = 2 + items;
        let (mut turned, mut twice) = (fields.clone(), fields);
        turned[first..first + 6].rotate_left(3);
        twice.copy_within(first + 3..first + 6, first);
        for fields in [turned, twice] {
            let file = pack_record(&fields);
            same(
                "read a record out of order",
                baseline::read_record(&file, ROOM),
                read_record(&file, ROOM, WORK_WORDS),
            );
            let search = matching::search(question, &file, ROOM, WORK_WORDS);
            same("search one", baseline::search(question, &file, ROOM), search);
        }
    }
}

#[test]
fn on_small_graphs() {
    let mut rule = Rule::new(8);
    let mut answered = 0;
    for _ in 0..3_000 {
        let items = 1 + rule.below(12);
        let kinds: Vec<u32> = (0..items).map(|_| rule.below(8) as u32).collect();
        let number = rule.below(4 * items);
        let record = record_file(&kinds, &some_links(&mut rule, number, items));
        let question = some_pattern(&mut rule);
        let number = rule.below(6);
        let extracts: Vec<Pattern> = (0..number)
            .map(|_| if rule.below(4) == 0 { some_pattern(&mut rule) } else { some_part(&mut rule, &question) })
            .collect();
        answered += usize::from(agree(&record, &pattern_file(&question), &catalogue_file(&extracts)));
        disordered(&record, &pattern_file(&question));
    }
    assert!(answered > 500, "{answered} answered");
}

/// Losses go along a line item by item, so that rounds don't suffice.
#[test]
fn on_long_lines() {
    let mut rule = Rule::new(10);
    let mut listed = 0;
    for _ in 0..3_000 {
        let items = 20 + rule.below(40);
        let kinds: Vec<u32> = (0..items).map(|_| 7 & !(rule.below(20) / 19) as u32).collect();
        let more = rule.below(6);
        let line = (1..items).map(|v| (v - 1, v, 0));
        let mut links: Vec<Link> = line.chain(some_links(&mut rule, more, items)).collect();
        if rule.below(2) == 0 {
            links.iter_mut().for_each(|link| (link.0, link.1) = (items - 1 - link.0, items - 1 - link.1));
        }
        links.sort();
        links.dedup();
        let record = record_file(&kinds, &links);
        let extracts: Vec<Pattern> = (0..4).map(|_| some_pattern(&mut rule)).collect();
        let catalogue = catalogue_file(&extracts);
        same_tuned(&record, &pattern_file(&extracts[0]), &catalogue);
        let book = baseline::make_book(&catalogue, 0, &record, ROOM).unwrap();
        listed += usize::from(book.len() > extracts.len());
    }
    assert!(listed > 500, "{listed} with lists");
}

/// Sheets of any pairs, as a book's bytes.
fn some_book(rule: &mut Rule, extracts: &[Pattern]) -> Vec<u8> {
    let mut writer = baseline::Writer::default();
    for (_, links) in extracts {
        let lists = rule.below(8) != 0;
        writer.field(1, lists.into());
        for _ in links.iter().filter(|_| lists) {
            let mut pairs: Vec<_> = (0..1 + rule.below(12)).map(|_| rule.below(5) << 12 | rule.below(5)).collect();
            pairs.sort();
            pairs.dedup();
            writer.field(14, pairs.len() as u32);
            pairs.iter().for_each(|&pair| writer.field(24, pair as u32));
        }
        writer.padding();
    }
    writer.bytes()
}

#[test]
fn on_small_books() {
    let mut rule = Rule::new(9);
    let mut answered = 0;
    for _ in 0..3_000 {
        let question = some_pattern(&mut rule);
        let number = 1 + rule.below(5);
        let extracts: Vec<Pattern> = (0..number).map(|_| some_part(&mut rule, &question)).collect();
        let book = some_book(&mut rule, &extracts);
        let answer = without_record(&pattern_file(&question), &catalogue_file(&extracts), &book);
        answered += usize::from(answer.is_some_and(|sheet| sheet[0] >= 128));
    }
    assert!(answered > 500, "{answered} answered");
}
