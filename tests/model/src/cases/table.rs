//! The table of files and contents that are written out, the limits, and damaged files: a line each.

use super::*;
use crate::files::*;
use crate::rule::{Drawn, Lists};

const TABLE: &str = include_str!("table.txt");

/// A reader, and the part that its file stands beside.
#[derive(Clone, Copy)]
struct Kind {
    read: usize,
    beside: Option<usize>,
}

impl Kind {
    fn write(self) -> usize {
        writer(self.read)
    }

    fn part(self) -> usize {
        part_of(self.read)
    }
}

fn kind(word: &str) -> Kind {
    let (read, beside) = match word {
        "pattern" => (READ_PATTERN, None),
        "catalogue" => (READ_CATALOGUE, None),
        "record" | "kinds" => (READ_RECORD, None),
        "sheet" | "list" | "nothing" => (READ_SHEET, Some(QUESTION_PART)),
        "book" | "distinct" | "wide" | "words" | "none" | "joined" => (READ_BOOK, Some(CATALOGUE_PART)),
        _ => panic!("no kind: {word}"),
    };
    Kind { read, beside }
}

/// The kind, the name, what stands beside, and the last part.
fn fields(line: &str) -> (Kind, &str, Vec<u8>, &str) {
    let (name, rest) = line.split_once(':').unwrap();
    let (beside, last) = rest.split_once('|').unwrap_or((rest, ""));
    (kind(line.split_whitespace().nth(1).unwrap()), name, bytes(beside), last)
}

fn bytes(text: &str) -> Vec<u8> {
    text.split_whitespace().map(|byte| u8::from_str_radix(byte, 16).unwrap()).collect()
}

fn numbers(text: &str) -> Vec<u32> {
    text.split_whitespace().filter_map(|number| number.parse().ok()).collect()
}

fn lay_beside(script: &mut Script, kind: Kind, beside: &[u8]) {
    if let Some(part) = kind.beside {
        script.bytes(part, beside);
    }
}

// Files and contents that are written out, one for each rule.

/// A file is read, and written back as the same bytes; but an empty catalogue as one byte.
fn read_line(script: &mut Script, line: &str) {
    let (kind, name, beside, file) = fields(line);
    lay_beside(script, kind, &beside);
    script.bytes(kind.part(), &bytes(file));
    script.name(&format!("{name}: "));
    script.once(kind.read);
    script.outcome();
    if script.is_accepted() {
        script.once(kind.write());
        if kind.read == READ_CATALOGUE && script.part(CATALOGUE_PART).is_empty() {
            script.outcome();
        } else {
            script.matches(kind.part());
        }
    }
}

/// A content is written, and read back.
fn write_line(script: &mut Script, line: &str) {
    let (kind, name, beside, content) = fields(line);
    let content = numbers(content);
    lay_beside(script, kind, &beside);
    script.content(&content);
    script.name(&format!("{name}: "));
    script.once(kind.write());
    script.outcome();
    if script.is_accepted() {
        keep_as(script, kind.part());
        script.once(kind.read);
        assert_eq!(script.content_now(), content);
    }
}

/// A file of the old rules is sorted, and read.
fn sort_line(script: &mut Script, line: &str) {
    let (name, file) = line.split_once(": |").unwrap();
    script.bytes(RECORD_PART, &bytes(file));
    script.name(&format!("{name}: "));
    script.once(SORT_RECORD);
    script.outcome();
    if script.is_accepted() {
        keep_as(script, RECORD_PART);
        script.once(READ_RECORD);
        assert!(script.is_accepted());
    }
}

/// The same file, damaged.
fn sort_damage_line(script: &mut Script, line: &str) {
    let (name, file) = line.split_once(": |").unwrap();
    script.bytes(RECORD_PART, &bytes(file));
    damage(script, name, SORT_RECORD, RECORD_PART, 1, 1);
}

/// So many zero bytes are read, beside so many or the bytes that are given.
fn zeros_line(script: &mut Script, line: &str) {
    let (kind, name, beside, _) = fields(line);
    let counts = numbers(name);
    match kind.beside {
        Some(part) if beside.is_empty() => script.place(part, ZEROS, ZEROS + counts[1] as usize),
        _ => lay_beside(script, kind, &beside),
    }
    script.place(kind.part(), ZEROS, ZEROS + counts[0] as usize);
    script.name(&format!("{name}: "));
    script.once(kind.read);
    script.outcome();
}

// The contents that are too long to write out, each by a plain rule, with what they stand beside.

/// A pattern by its counts, right or not: link i from item i to the one i / items further on, of so many kinds in turn.
pub fn pattern(items: u32, links: u32, kinds: u32) -> Vec<u32> {
    let mut fields = vec![items, links];
    for i in 0..items {
        fields.push(i * 3 % 32);
    }
    let n = items.max(1);
    for i in 0..links {
        fields.extend([i % n, (i + i / n) % n, i % kinds]);
    }
    fields
}

/// A catalogue of full patterns.
fn catalogue(number: u32) -> Vec<u32> {
    let mut fields = vec![number];
    for _ in 0..number {
        fields.extend(pattern(16, 32, 8));
    }
    fields
}

fn full_catalogue() -> Vec<u8> {
    write_catalogue(&catalogue(16), CATALOGUE_BYTES, WORK_WORDS).unwrap()
}

/// A record by its counts, right or not, of links of every kind; its links ascend, or stand in no order. One of 4,094 items
/// has another link at its end once more: the one before it, or the first.
fn record(script: &mut Script, items: u32, links: u32, ascending: bool) {
    let (items, links) = (items as usize, links as usize);
    script.record(Drawn { items, links, item_form: 4, link_form: 6, link_kinds: 8, ..Drawn::default() }, ascending);
    script.change(1, links as u32);
    if items == 4_094 {
        let fields = script.content_now();
        let last = fields.len() - 3;
        let other = if ascending { last - 3 } else { 2 + items };
        let link = [fields[other], fields[other + 1], fields[other + 2]];
        for (i, field) in link.into_iter().enumerate() {
            script.change(last + i, field);
        }
    }
}

/// A record by the number of its items and of pairs that have links, eight each.
fn kinds(script: &mut Script, items: u32, pairs: u32) {
    let (items, links) = (items as usize, pairs as usize);
    script.record(Drawn { items, links, item_form: 4, link_form: 6, kind_form: 2, ..Drawn::default() }, true);
}

/// A list of a sheet: the numbers from `first` on, each by `step` more, as pairs.
fn list(script: &mut Script, count: u32, first: usize, step: usize) {
    script.lists(1, Lists { least: count as usize, most: 0, first, step, gap: 0, items: 4_096 });
}

/// The three sheets of a book of C, no pair twice. With 1,638 pairs in its last list it has 8,192.
const DISTINCT: [&[(u32, usize)]; 3] =
    [&[(1_639, 0)], &[(1_639, 2_039), (1_638, 4_078)], &[(1_638, 6_117), (0, 8_156)]];

fn distinct_sheet(script: &mut Script, sheet: usize, last: u32) {
    script.fields(&[1]);
    for &(count, first) in DISTINCT[sheet] {
        list(script, if count == 0 { last } else { count }, first, 10_195);
    }
}

/// The content that a line names becomes the content, by its two numbers, beside what it stands beside.
fn content(script: &mut Script, name: &str, a: u32, b: u32) -> Kind {
    let kind = kind(name);
    let beside = match name {
        "list" | "nothing" => ONE.to_vec(),
        "sheet" => D.to_vec(),
        "wide" => full_catalogue(),
        "words" => [&[16 << 3], &ONE.repeat(16)[..]].concat(),
        "none" => vec![0],
        _ => C.to_vec(),
    };
    lay_beside(script, kind, &beside);
    script.set(CONTENT, 0);
    match name {
        "pattern" => script.fields(&pattern(a, b, 8)),
        "catalogue" => script.fields(&catalogue(a)),
        "record" => record(script, a, b, true),
        "kinds" => kinds(script, a, b),
        "nothing" => script.fields(&[0]),
        "list" => {
            script.fields(&[1]);
            list(script, a, 0, 1);
        }
        // With 5,459 pairs in its last list it takes 65,534 bytes, with one more 65,537.
        "sheet" => {
            script.fields(&[1]);
            for (count, first) in [(5_461, 0), (5_461, 1_000), (5_461, 2_000), (a, 3_000)] {
                list(script, count, first, 3_071);
            }
        }
        // 8,192 different pairs, each of which stands in several lists. With 4,421 pairs in its last list it takes 65,536
        // bytes.
        "book" => {
            for lists in [&[(5_000, 0)][..], &[(4_000, 4_192), (4_000, 0)], &[(4_421, 3_771), (a, 3_000)]] {
                script.fields(&[1]);
                for &(count, first) in lists {
                    list(script, count, first * 2_039, 2_039);
                }
            }
        }
        // Fifteen sheets of a list each and one for nothing found. With 1,465 pairs in the last list the book takes 65,536 bytes
        // and has 43,701 words, the most that one can have.
        "words" => {
            for i in 0..15 {
                script.fields(&[1]);
                list(script, if i == 14 { a } else { 1_455 }, 0, 1);
            }
            script.fields(&[0]);
        }
        "distinct" => (0..3).for_each(|sheet| distinct_sheet(script, sheet, a)),
        // Lists of one pair each: 512 are a book of 16 full patterns, each with the bit in front.
        "wide" => (0..a).for_each(|i| {
            if i % 32 == 0 {
                script.fields(&[1]);
            }
            script.fields(&[1, i % 7, i]);
        }),
        _ => (),
    }
    kind
}

// The limits: the largest files, one more of each, too little room, too few words to work in.

/// A call with much, just enough, too little and nothing lent.
fn with_less_lent(script: &mut Script, call: usize) {
    script.round(call);
    script.set(ROOM, 0);
    script.once(call);
    script.set(ROOM, ROOM_MOST);
    script.set(WORK, 0);
    script.once(call);
    script.set(WORK, WORK_MOST);
}

fn read_limit(script: &mut Script, name: &str, kind: Kind) {
    script.name(&format!("{name}, read: "));
    script.once(kind.read);
    script.outcome();
    with_less_lent(script, kind.read);
    let end = END + kind.part();
    script.set(end, script.register(end) + 1);
    script.name(&format!("{name}, read a byte more: "));
    script.once(kind.read);
    script.outcome();
}

fn limit(script: &mut Script, line: &str, name: &str, a: u32, b: u32) {
    let kind = content(script, name, a, b);
    script.name(&format!("{line}, write: "));
    script.once(kind.write());
    script.outcome();
    if script.is_accepted() {
        keep_as(script, kind.part());
        with_less_lent(script, kind.write());
        read_limit(script, line, kind);
    }
}

/// A file of the old rules, sorted, and the same with a byte more.
fn old(script: &mut Script, line: &str, items: u32, links: u32) {
    record(script, items, links, false);
    script.pack_old(RECORD_PART);
    script.name(&format!("{line}, sort: "));
    script.once(SORT_RECORD);
    script.outcome();
    with_less_lent(script, SORT_RECORD);
    let end = END + RECORD_PART;
    script.set(end, script.register(end) + 1);
    script.name(&format!("{line}, sort a byte more: "));
    script.once(SORT_RECORD);
    script.outcome();
}

/// A book whose sheets are written one by one, so that it can hold too many pairs.
fn joined(script: &mut Script, line: &str, last: u32) {
    script.empty(BOOK_PART);
    for (sheet, pattern) in [&C[1..5], &C[5..11], &C[11..17]].into_iter().enumerate() {
        script.bytes(QUESTION_PART, pattern);
        script.set(CONTENT, 0);
        distinct_sheet(script, sheet, last);
        script.once(WRITE_SHEET);
        script.keep(BOOK_PART);
    }
    script.bytes(CATALOGUE_PART, &C);
    read_limit(script, line, kind("joined"));
}

fn limit_line(script: &mut Script, line: &str) {
    let name = line.split_whitespace().nth(1).unwrap();
    let mut counts = numbers(line);
    counts.push(0);
    match name {
        "joined" => joined(script, line, counts[0]),
        "old" => old(script, line, counts[0], counts[1]),
        _ => limit(script, line, name, counts[0], counts[1]),
    }
}

// Damaged files, and files beside a damaged one: cut at places, and one bit turned at places.

fn damage(script: &mut Script, name: &str, call: usize, part: usize, cut: usize, flip: usize) {
    let whose = if call == SORT_RECORD || part == part_of(call) { "" } else { "beside one " };
    script.name(&format!("{name}, {whose}cut\n"));
    script.once(call);
    script.cuts(part, cut);
    script.group();
    script.name(&format!("{name}, {whose}with a bit turned\n"));
    script.flips(part, flip);
    script.group();
}

fn damage_line(script: &mut Script, line: &str) {
    let (kind, name, beside, file) = fields(line);
    lay_beside(script, kind, &beside);
    script.bytes(kind.part(), &bytes(file));
    for part in [Some(kind.part()), kind.beside].into_iter().flatten() {
        damage(script, name, kind.read, part, 1, 1);
    }
}

fn sample_line(script: &mut Script, line: &str) {
    let name = line.split_whitespace().nth(1).unwrap();
    let counts = numbers(line);
    let kind = content(script, name, counts[0], counts[1]);
    script.once(kind.write());
    keep_as(script, kind.part());
    damage(script, line, kind.read, kind.part(), counts[2] as usize, counts[3] as usize);
    if counts[4] != 0 {
        let beside = kind.beside.unwrap();
        damage(script, line, kind.read, beside, counts[4] as usize, counts[5] as usize);
    }
}

/// The counts of a section follow its last line.
pub fn write(script: &mut Script) {
    let mut section = "";
    for line in TABLE.lines() {
        let Some(word) = line.split_whitespace().next() else { continue };
        if word != section && ["write", "limit", "damage"].contains(&word) {
            script.name(&format!("lines from {section} on\n"));
            script.group();
        }
        match word {
            "read" => read_line(script, line),
            "write" => write_line(script, line),
            "sort" => sort_line(script, line),
            "zeros" => zeros_line(script, line),
            "limit" => limit_line(script, line),
            "damage" if line.starts_with("damage old") => sort_damage_line(script, line),
            "damage" => damage_line(script, line),
            "sample" => sample_line(script, line),
            _ => continue,
        }
        section = word;
    }
}

#[cfg(test)]
mod tests {
    use super::*;

    /// What a writer answers to the content that a line of the table names.
    fn written(line: &str) -> (Option<u32>, usize) {
        assert!(TABLE.lines().any(|other| other == line));
        let mut script = Script::new();
        lend_most(&mut script);
        let counts = numbers(line);
        let kind = content(&mut script, line.split_whitespace().nth(1).unwrap(), counts[0], 0);
        script.once(kind.write());
        (script.refusal(), script.lengths().0)
    }

    #[test]
    fn a_book_of_the_most_bytes_and_a_sheet_of_one_more() {
        assert_eq!(written("limit book 4421"), (None, BOOK_BYTES));
        assert_eq!(written("limit sheet 5460"), (Some(NO_FIT), BOOK_BYTES + 1));
    }
}
