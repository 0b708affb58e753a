//! Questions and catalogues that are drawn: quotes and showings; answers from the book of a record beside searches of it;
//! answers from books of no record, of one question and of several; all on damaged files too. First all extracts are matched both
//! ways, then some of them one-way.

use super::searches::{lay_record, places};
use super::*;
use crate::drawing::*;
use crate::files::*;
use crate::part::choice;
use crate::quoting::{quote, Quote};
use crate::several::QUESTIONS_MOST;
use crate::terms::{bits, quote_on, Term};

/// The most items of a question, whether question and catalogue are as large as can be, the most items of a record; how
/// many questions, how many of them have a record, and how many a book of no record.
type Group = (u32, bool, u32, u32, u32, u32);

const GROUPS: [Group; 9] = [
    (2, false, 4, 36, 36, 0),
    (4, false, 16, 44, 44, 44),
    (4, false, 1_024, 26, 26, 26),
    (4, false, 4_096, 20, 20, 20),
    (8, false, 64, 58, 50, 58),
    (16, false, 256, 32, 32, 32),
    (16, false, 4_096, 20, 20, 20),
    (16, false, 0, 26, 0, 26),
    (16, true, 256, 26, 20, 20),
];

/// Those of which some extracts are matched one-way.
const MIXED: [Group; 5] = [
    (2, false, 8, 30, 30, 8),
    (4, false, 16, 50, 50, 16),
    (8, false, 64, 30, 30, 12),
    (16, false, 1_024, 12, 12, 4),
    (16, true, 256, 8, 8, 4),
];

/// More bytes than a question and a catalogue may have.
const QUESTION_ROOM: usize = PATTERN_BYTES + 4;
const CATALOGUE_ROOM: usize = CATALOGUE_BYTES + 15;

struct Files {
    question: Vec<u8>,
    catalogue: Vec<u8>,
    extracts: Vec<Pattern>,
    /// Those that are matched one-way.
    one_way: u16,
}

impl Files {
    fn draw(rule: &mut Rule, size: u32, full: bool, kinds: Kinds, mixed: bool) -> Files {
        let (question, catalogue) = draw_files(rule, size, full, kinds);
        let extracts = judge_catalogue(&catalogue).unwrap();
        let one_way = if mixed { draw_one_way(rule, extracts.len()) } else { 0 };
        Files { question, catalogue, extracts, one_way }
    }

    fn lay_question(&self, script: &mut Script) {
        let start = PLACES[QUESTION_PART];
        script.place(QUESTION_PART, start, start + self.question.len());
    }

    fn quote(&self) -> Quote {
        quote(&self.question, &self.catalogue, self.one_way, WORK_WORDS).unwrap()
    }

    fn is_covered(&self) -> bool {
        self.quote().covered
    }
}

/// A quote, the cheapest set and showings. The charges are what content there is.
fn quotes(script: &mut Script) {
    script.round(QUOTE);
    script.round(CHEAPEST);
    script.round(SHOW_UNCOVERED);
}

/// Terms, and a day at, before or after one of their ends, or any: what is quoted and shown on it, and the first day from it on. The
/// charges are what content there is.
fn on_a_day(script: &mut Script, rule: &mut Rule, files: &Files) -> (Vec<Term>, u16) {
    let terms = draw_terms(rule, files.extracts.len());
    let day = draw_day(rule, &terms);
    let bytes: Vec<u8> = terms.iter().flat_map(|term| [term.from, term.to]).flat_map(u16::to_be_bytes).collect();
    script.bytes(TERMS_PART, &bytes);
    script.set(DAY, day.into());
    script.round(QUOTE_ON);
    script.once(CHEAPEST_ON);
    script.round(SHOW_ON);
    script.once(FIRST_DAY);
    (terms, day)
}

/// From the book of a record, which is laid: the part on a day, and where the question is covered on it, the answer by what the quote
/// for the day chooses beside the search.
fn answer_on_a_day(script: &mut Script, rule: &mut Rule, files: &Files) {
    let (terms, day) = on_a_day(script, rule, files);
    script.round(PART_ON);
    if let Ok(Quote { covered: true, chosen, .. }) =
        quote_on(&files.question, &files.catalogue, files.one_way, &terms, day, WORK_WORDS)
    {
        script.set(SET, bits(&chosen).into());
        script.round(ANSWER_FROM);
        script.hold();
        script.round(SEARCH);
        script.same();
    }
}

/// The book of a record, where it fits, the part and the answers from it, beside searches where the question is covered, without
/// an index and with one.
fn answers(script: &mut Script, rule: &mut Rule, files: &Files, items: u32, kinds: Kinds, mixed: bool) {
    lay_record(script, rule, items, kinds);
    script.once(MAKE_BOOK);
    if !script.is_accepted() {
        return;
    }
    keep_as(script, BOOK_PART);
    several(script, rule, files);
    if mixed {
        by_another_set(script, rule, files);
    }
    answer_on_a_day(script, rule, files);
    script.round(PART);
    script.round(ANSWER);
    if files.is_covered() {
        script.hold();
        script.round(SEARCH);
        script.same();
        script.set(SET, usize::from(covering(rule, files)));
        script.round(ANSWER_FROM);
        script.same();
        script.once(MAKE_INDEX);
        keep_as(script, BOOK_PART);
        script.round(SEARCH_INDEXED);
        script.same();
    }
}

/// A question that is uncovered by a set of extracts that are matched one-way: each sheet, by its own rule, is the same on both shown
/// records, and the question's is not.
fn shown(script: &mut Script) {
    script.once(SHOW_UNCOVERED);
    if !script.is_accepted() {
        return;
    }
    let (first, second) = script.lengths();
    keep_as(script, RECORD_PART);
    let start = PLACES[RECORD_PART];
    let searched = [(start, start + first), (start + first, start + first + second)].map(|(start, end)| {
        script.place(RECORD_PART, start, end);
        script.once(MAKE_BOOK);
        if start == PLACES[RECORD_PART] {
            script.hold();
        } else {
            script.same();
        }
        script.once(SEARCH);
        script.last().clone()
    });
    assert_ne!(searched[0], searched[1]);
}

/// The book that is laid, asked with another set than the one that it was made with: all calls answer, of which nothing is promised. Then
/// with a set that names what isn't in the catalogue.
fn by_another_set(script: &mut Script, rule: &mut Rule, files: &Files) {
    let strange = draw_strange(rule, files.extracts.len());
    for set in [Some(draw_one_way(rule, files.extracts.len())), strange].into_iter().flatten() {
        script.set(ONE_WAY, set.into());
        script.round(PART);
        script.round(ANSWER);
        script.set(SET, rule.draw(65_536) as usize);
        for call in [ANSWER_FROM, ANSWER_SEVERAL, MAKE_BOOK, CHEAPEST, SHOW_UNCOVERED, QUOTE_ON] {
            script.once(call);
        }
    }
    script.set(ONE_WAY, files.one_way.into());
}

/// A set that covers: the chosen one and any others, or all.
fn covering(rule: &mut Rule, files: &Files) -> u16 {
    let chosen: u16 = files.quote().chosen.iter().map(|a| 1 << a).sum();
    match rule.draw(4) {
        0 => 0xffff,
        _ => chosen | rule.draw(65_536) as u16,
    }
}

/// The part, and answers from the chosen set and from any other.
fn both_answers(script: &mut Script, rule: &mut Rule, files: &Files) {
    script.round(PART);
    script.round(ANSWER);
    let set = if rule.draw(2) == 0 { covering(rule, files) } else { rule.draw(65_536) as u16 };
    script.set(SET, set.into());
    script.round(ANSWER_FROM);
}

/// Another question with the same catalogue: an extract, some of the question's links, or the question itself.
fn draw_other(rule: &mut Rule, files: &Files, question: &Pattern) -> Vec<u8> {
    match rule.draw(4) {
        0 => files.question.clone(),
        1 => {
            let links: Vec<usize> = (0..question.links.len()).filter(|_| rule.draw(2) == 0).collect();
            let links = if links.is_empty() { vec![0] } else { links };
            pattern_file(&choice(question, &links))
        }
        _ if files.extracts.is_empty() => files.question.clone(),
        _ => pattern_file(&files.extracts[rule.draw(files.extracts.len() as u32) as usize]),
    }
}

/// The question and others, up to eight, in any order: as many as the number says, another number, and on damaged bytes; then the
/// question alone again.
fn several(script: &mut Script, rule: &mut Rule, files: &Files) {
    let question = judge_pattern(&files.question).unwrap();
    let number = 1 + rule.draw(QUESTIONS_MOST);
    let mut questions: Vec<Vec<u8>> = (1..number).map(|_| draw_other(rule, files, &question)).collect();
    questions.insert(rule.draw(number) as usize, files.question.clone());
    script.bytes(QUESTION_PART, &questions.concat());
    script.set(QUESTIONS, number as usize);
    script.round(ANSWER_SEVERAL);
    script.set(QUESTIONS, (number + 2 * rule.draw(2)) as usize - 1);
    script.once(ANSWER_SEVERAL);
    script.set(QUESTIONS, number as usize);
    damage(script, rule, QUESTION_PART, PATTERN_BYTES * number as usize + 4);
    script.once(ANSWER_SEVERAL);
    script.bytes(QUESTION_PART, &files.question);
}

/// A book that may belong to no record, sheet by sheet: a crowded one can't be written whole. One sheet in eight is
/// for nothing found.
fn lay_book(script: &mut Script, rule: &mut Rule, files: &Files) {
    let lists = draw_lists(rule, files.extracts.iter().map(|extract| extract.links.len()).sum());
    script.seed(rule.draw(65_536));
    script.empty(BOOK_PART);
    let patterns: Vec<Vec<u8>> = files.extracts.iter().map(pattern_file).collect();
    for (extract, (start, end)) in files.extracts.iter().zip(places(&patterns)) {
        script.place(QUESTION_PART, start, end);
        script.sheet(if rule.draw(8) == 0 { 0 } else { extract.links.len() }, lists);
        script.once(WRITE_SHEET);
        script.keep(BOOK_PART);
    }
    files.lay_question(script);
}

/// One link of the question becomes like another, in all three fields or in two, before the question is laid.
fn wrong_link(script: &mut Script, rule: &mut Rule, question: &[u8]) {
    let Pattern { kinds, mut links } = judge_pattern(question).unwrap();
    let [own, other] = [(); 2].map(|()| rule.draw(links.len() as u32) as usize);
    let ((from, to, kind), like) = (links[own], links[other]);
    links[own] = match rule.draw(4) {
        0 => like,
        1 => (like.0, like.1, kind),
        2 => (like.0, to, like.2),
        _ => (from, like.1, like.2),
    };
    script.bytes(QUESTION_PART, &pack_pattern(&graph_fields(&kinds, &links)));
    script.once(READ_PATTERN);
    script.once(QUOTE);
    script.once(SHOW_UNCOVERED);
}

/// A bit of the kind of one link of the question is turned: what is said of that, and then it is as before.
fn turned_kind(script: &mut Script, rule: &mut Rule, files: &Files, book: bool) {
    let Pattern { kinds, links } = judge_pattern(&files.question).unwrap();
    let bit = 11 + 5 * kinds.len() + 11 * rule.draw(links.len() as u32) as usize + 8 + rule.draw(3) as usize;
    script.flip(QUESTION_PART, bit);
    quotes(script);
    if book {
        script.once(ANSWER);
        script.once(ANSWER_FROM);
    }
    script.flip(QUESTION_PART, bit);
}

fn damage(script: &mut Script, rule: &mut Rule, part: usize, room: usize) {
    let start = script.register(START + part);
    match draw_damage(rule, script.register(END + part) - start, room) {
        Damage::Cut(length) | Damage::Longer(length) => script.set(END + part, start + length),
        Damage::Turned(bit) => script.flip(part, bit),
    }
}

/// Good files, then with the book damaged, with the catalogue damaged too, and with all three damaged.
#[allow(clippy::too_many_arguments)]
fn case(
    script: &mut Script,
    rule: &mut Rule,
    size: u32,
    full: bool,
    record: Option<u32>,
    book: bool,
    sweep: bool,
    mixed: bool,
) -> bool {
    let kinds = draw_kinds(rule);
    let files = Files::draw(rule, size, full, kinds, mixed);
    script.set(ONE_WAY, files.one_way.into());
    script.bytes(CATALOGUE_PART, &files.catalogue);
    if rule.draw(4) == 0 {
        wrong_link(script, rule, &files.question);
    }
    script.bytes(QUESTION_PART, &files.question);
    if sweep {
        for (reader, stride) in [(READ_PATTERN, 5), (READ_CATALOGUE, 31)] {
            script.once(reader);
            script.flips(part_of(reader), stride);
        }
    }
    script.content(&draw_charges(rule, files.extracts.len()));
    quotes(script);
    if !book {
        turned_kind(script, rule, &files, false);
    }
    if mixed {
        shown(script);
    }
    if let Some(items) = record {
        answers(script, rule, &files, items, kinds, mixed);
    }
    if book {
        lay_book(script, rule, &files);
        several(script, rule, &files);
        on_a_day(script, rule, &files);
        script.round(PART_ON);
        both_answers(script, rule, &files);
        if rule.draw(2) == 0 {
            turned_kind(script, rule, &files, true);
        }
        damage(script, rule, BOOK_PART, ROOM_MOST);
        both_answers(script, rule, &files);
    }
    for (part, room) in [(CATALOGUE_PART, CATALOGUE_ROOM), (QUESTION_PART, QUESTION_ROOM)] {
        damage(script, rule, part, room);
        if rule.draw(4) == 0 {
            script.content(&draw_charges(rule, files.extracts.len()));
        }
        quotes(script);
        if book {
            script.round(PART);
            script.round(ANSWER);
            script.once(ANSWER_FROM);
            script.once(ANSWER_SEVERAL);
            script.once(PART_ON);
            script.once(QUOTE_ON);
            script.once(FIRST_DAY);
        }
    }
    files.is_covered()
}

fn write_groups(script: &mut Script, rule: &mut Rule, groups: &[Group], mixed: bool) {
    for &(size, full, items, questions, records, books) in groups {
        let mut covered = 0;
        for question in 0..questions {
            let record = (question < records).then(|| draw_items(rule, items, question));
            let sweep = !mixed && question % 2 == 0;
            covered += u32::from(case(script, rule, size, full, record, question < books, sweep, mixed));
        }
        let full = if full { ", full" } else { "" };
        let mixed = if mixed { ", some one-way" } else { "" };
        script.name(&format!(
            "{size} items{full}{mixed}, {records} records of {items}, {books} books of no record: {questions} questions, \
             {covered} covered\n"
        ));
        script.group();
    }
}

pub fn write(script: &mut Script) {
    let mut rule = Rule::new();
    write_groups(script, &mut rule, &GROUPS, false);
    write_groups(script, &mut rule, &MIXED, true);
    script.set(ONE_WAY, 0);
}
