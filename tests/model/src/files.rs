//! The five files and their refusals 1 to 10, 12 and 14.
//!
//! Each format is written down once, as a walk over its fields. The walk takes them from the bits of a file or
//! from the values lent to a writer, so both meet the same rules in the same order.

use std::collections::BTreeSet;
use std::ops::RangeBounds;

/// Every call has to be lent this many words to work in.
pub const WORK_WORDS: usize = 16_384;

/// The most bytes of each file.
pub const PATTERN_BYTES: usize = 56;
pub const CATALOGUE_BYTES: usize = 897;
pub const RECORD_BYTES: usize = 44_036;
pub const BOOK_BYTES: usize = 65_536;

/// The most bytes of a record as it was stored before its links had an order and kinds.
pub const OLD_RECORD_BYTES: usize = 40_964;

/// The most different pairs of a book.
pub const BOOK_PAIRS: usize = 8_192;

/// The numbers of the refusals.
pub const LONG: u32 = 1;
pub const SHORT: u32 = 2;
pub const COUNT: u32 = 3;
pub const STRAY: u32 = 4;
pub const TWICE: u32 = 5;
pub const ORDER: u32 = 6;
pub const LOOSE: u32 = 7;
pub const UNEVEN: u32 = 8;
pub const TAIL: u32 = 9;
pub const CROWDED: u32 = 10;
pub const NO_FIT: u32 = 12;
pub const DESK: u32 = 14;

/// The details of 1 to 10: which file it is.
pub const PATTERN: usize = 1;
pub const CATALOGUE: usize = 2;
pub const RECORD: usize = 3;
pub const BOOK: usize = 4;

#[derive(Clone, Copy, Debug, PartialEq, Eq, PartialOrd, Ord)]
pub struct Refusal {
    pub number: u32,
    pub detail: usize,
}

pub fn refused<T>(number: u32, detail: usize) -> Result<T, Refusal> {
    Err(Refusal { number, detail })
}

// What the files mean.

/// A link: from, to and its kind.
pub type Link = (u32, u32, u32);

/// A question or an extract: the kind of each item, and the links.
#[derive(Clone, Debug, PartialEq, Eq)]
pub struct Pattern {
    pub kinds: Vec<u32>,
    pub links: Vec<Link>,
}

pub type Catalogue = Vec<Pattern>;

/// A record: the bit worth 2^k of an item's word says kind k.
#[derive(Clone, Debug, PartialEq, Eq)]
pub struct Record {
    pub kinds: Vec<u32>,
    pub links: Vec<Link>,
}

/// The list of pairs of each link of a pattern.
pub type Sheet = Vec<Vec<(u32, u32)>>;

/// A sheet for each extract of a catalogue.
pub type Book = Vec<Sheet>;

// The walk over the fields of a file.

/// Where the fields come from.
enum Source<'a> {
    /// The bits of a file, most significant first, as a list of 0 and 1.
    Bits(Vec<u8>),
    /// The values lent to a writer.
    Values(&'a [u32]),
}

/// A field that was accepted, or the place of a padding.
#[derive(Clone, Copy)]
enum Piece {
    Field { width: usize, value: u32 },
    Padding,
}

struct Walk<'a> {
    source: Source<'a>,
    /// How many bits, or values, are behind.
    at: usize,
    /// The file's number.
    file: usize,
    pieces: Vec<Piece>,
}

impl<'a> Walk<'a> {
    fn over_bytes(bytes: &[u8], file: usize) -> Walk<'a> {
        let mut bits = Vec::new();
        for byte in bytes {
            for place in (0..8).rev() {
                bits.push(byte >> place & 1);
            }
        }
        Walk { source: Source::Bits(bits), at: 0, file, pieces: Vec::new() }
    }

    fn over_values(values: &'a [u32], file: usize) -> Walk<'a> {
        Walk { source: Source::Values(values), at: 0, file, pieces: Vec::new() }
    }

    fn refuse<T>(&self, number: u32) -> Result<T, Refusal> {
        refused(number, self.file)
    }

    /// The next field: 2 if it isn't there, `fault` if its value isn't in the range.
    fn field(&mut self, width: usize, range: impl RangeBounds<u32>, fault: u32) -> Result<u32, Refusal> {
        let value = match &self.source {
            Source::Bits(bits) => {
                if self.at + width > bits.len() {
                    return self.refuse(SHORT);
                }
                let mut value = 0;
                for i in 0..width {
                    value = value * 2 + u32::from(bits[self.at + i]);
                }
                self.at += width;
                value
            }
            Source::Values(values) => {
                if self.at == values.len() {
                    return self.refuse(SHORT);
                }
                let value = values[self.at];
                self.at += 1;
                value
            }
        };
        let holds = u64::from(value) < 1u64 << width;
        if !holds || !range.contains(&value) {
            return self.refuse(fault);
        }
        self.pieces.push(Piece::Field { width, value });
        Ok(value)
    }

    /// Zero bits up to a whole byte. Values have none.
    fn padding(&mut self) -> Result<(), Refusal> {
        if let Source::Bits(bits) = &self.source {
            while self.at % 8 != 0 {
                if bits[self.at] != 0 {
                    return self.refuse(TAIL);
                }
                self.at += 1;
            }
        }
        self.pieces.push(Piece::Padding);
        Ok(())
    }

    /// Nothing follows.
    fn end(&self) -> Result<(), Refusal> {
        let length = match &self.source {
            Source::Bits(bits) => bits.len(),
            Source::Values(values) => values.len(),
        };
        if self.at != length {
            return self.refuse(TAIL);
        }
        Ok(())
    }

    /// The content: one word for each field.
    fn words(&self) -> Vec<u32> {
        let mut words = Vec::new();
        for piece in &self.pieces {
            if let Piece::Field { value, .. } = piece {
                words.push(*value);
            }
        }
        words
    }

    /// The file.
    fn bytes(&self) -> Vec<u8> {
        let mut bits = Vec::new();
        for piece in &self.pieces {
            match *piece {
                Piece::Field { width, value } => {
                    for place in (0..width).rev() {
                        bits.push((value >> place & 1) as u8);
                    }
                }
                Piece::Padding => {
                    while bits.len() % 8 != 0 {
                        bits.push(0);
                    }
                }
            }
        }
        bits.chunks(8).map(|byte| byte.iter().fold(0, |sum, bit| sum * 2 + bit)).collect()
    }
}

// The formats.

/// The two ends of a link.
fn walk_ends(walk: &mut Walk, items: u32, width: usize) -> Result<(u32, u32), Refusal> {
    Ok((walk.field(width, ..items, STRAY)?, walk.field(width, ..items, STRAY)?))
}

fn walk_link(walk: &mut Walk, items: u32, width: usize) -> Result<Link, Refusal> {
    let (from, to) = walk_ends(walk, items, width)?;
    Ok((from, to, walk.field(3, 0..=7, COUNT)?))
}

/// Links in any order, none twice.
fn walk_links<T: Copy + Ord>(
    walk: &mut Walk,
    links: u32,
    link: impl Fn(&mut Walk) -> Result<T, Refusal>,
) -> Result<Vec<T>, Refusal> {
    let mut list = Vec::new();
    let mut seen = BTreeSet::new();
    for _ in 0..links {
        let link = link(walk)?;
        if !seen.insert(link) {
            return walk.refuse(TWICE);
        }
        list.push(link);
    }
    Ok(list)
}

/// Links that strictly ascend, by from, then to, then kind.
fn walk_ascending(walk: &mut Walk, items: u32, links: u32, width: usize) -> Result<Vec<Link>, Refusal> {
    let mut list = Vec::new();
    for _ in 0..links {
        let link = walk_link(walk, items, width)?;
        if list.last().is_some_and(|&before| link <= before) {
            return walk.refuse(ORDER);
        }
        list.push(link);
    }
    Ok(list)
}

fn walk_pattern(walk: &mut Walk) -> Result<Pattern, Refusal> {
    let items = walk.field(5, 1..=16, COUNT)?;
    let links = walk.field(6, 1..=32, COUNT)?;
    let mut kinds = Vec::new();
    for _ in 0..items {
        kinds.push(walk.field(5, 0..=31, COUNT)?);
    }
    let links = walk_links(walk, links, |walk| walk_link(walk, items, 4))?;
    for item in 0..items {
        if !links.iter().any(|&(from, to, _)| from == item || to == item) {
            return walk.refuse(LOOSE);
        }
    }
    walk.padding()?;
    Ok(Pattern { kinds, links })
}

fn walk_catalogue(walk: &mut Walk) -> Result<Catalogue, Refusal> {
    let number = walk.field(5, 0..=16, COUNT)?;
    walk.padding()?;
    let mut extracts = Vec::new();
    for _ in 0..number {
        extracts.push(walk_pattern(walk)?);
    }
    Ok(extracts)
}

/// A record's counts and kinds: the kinds, and how many links follow.
fn walk_items(walk: &mut Walk) -> Result<(Vec<u32>, u32), Refusal> {
    let items = walk.field(13, 0..=4_096, COUNT)?;
    let links = walk.field(14, 0..=8_192, COUNT)?;
    let mut kinds = Vec::new();
    for _ in 0..items {
        kinds.push(walk.field(32, .., COUNT)?);
    }
    Ok((kinds, links))
}

fn walk_record(walk: &mut Walk) -> Result<Record, Refusal> {
    let (kinds, links) = walk_items(walk)?;
    let links = walk_ascending(walk, kinds.len() as u32, links, 12)?;
    walk.padding()?;
    Ok(Record { kinds, links })
}

/// A record as it was stored before its links had an order and kinds. Each of them counts as one of kind 0.
fn walk_old_record(walk: &mut Walk) -> Result<Record, Refusal> {
    let (kinds, links) = walk_items(walk)?;
    let links = walk_links(walk, links, |walk| walk_ends(walk, kinds.len() as u32, 12))?;
    walk.padding()?;
    Ok(Record { kinds, links: links.into_iter().map(|(from, to)| (from, to, 0)).collect() })
}

fn walk_sheet(walk: &mut Walk, pattern: &Pattern) -> Result<Sheet, Refusal> {
    let lead = walk.field(1, 0..=1, COUNT)?;
    if lead == 0 {
        walk.padding()?;
        return Ok(vec![Vec::new(); pattern.links.len()]);
    }
    let mut lists = Vec::new();
    for _ in &pattern.links {
        let count = walk.field(14, 0..=8_192, COUNT)?;
        if count == 0 {
            return walk.refuse(UNEVEN);
        }
        let mut list: Vec<(u32, u32)> = Vec::new();
        for _ in 0..count {
            let from = walk.field(12, 0..=4_095, COUNT)?;
            let to = walk.field(12, 0..=4_095, COUNT)?;
            if let Some(&before) = list.last() {
                if (from, to) <= before {
                    return walk.refuse(ORDER);
                }
            }
            list.push((from, to));
        }
        lists.push(list);
    }
    walk.padding()?;
    Ok(lists)
}

fn walk_book(walk: &mut Walk, catalogue: &Catalogue) -> Result<Book, Refusal> {
    let mut sheets = Vec::new();
    for extract in catalogue {
        sheets.push(walk_sheet(walk, extract)?);
    }
    Ok(sheets)
}

// A whole file.

/// The walk over a file that was lent: 1, then front to back, then what follows.
fn read<'a, T>(
    bytes: &[u8],
    most: usize,
    file: usize,
    format: impl Fn(&mut Walk) -> Result<T, Refusal>,
) -> Result<(T, Walk<'a>), Refusal> {
    if bytes.len() > most {
        return refused(LONG, file);
    }
    let mut walk = Walk::over_bytes(bytes, file);
    let meaning = format(&mut walk)?;
    walk.end()?;
    Ok((meaning, walk))
}

/// The walk over content that was lent to a writer: front to back, then what is left over.
fn write<'a, T>(
    fields: &'a [u32],
    file: usize,
    format: impl Fn(&mut Walk) -> Result<T, Refusal>,
) -> Result<(T, Walk<'a>), Refusal> {
    let mut walk = Walk::over_values(fields, file);
    let meaning = format(&mut walk)?;
    walk.end()?;
    Ok((meaning, walk))
}

pub fn judge_pattern(bytes: &[u8]) -> Result<Pattern, Refusal> {
    Ok(read(bytes, PATTERN_BYTES, PATTERN, walk_pattern)?.0)
}

/// So many patterns, one file after the other.
pub fn judge_patterns(bytes: &[u8], number: usize) -> Result<Vec<Pattern>, Refusal> {
    Ok(read(bytes, PATTERN_BYTES * number, PATTERN, |walk| (0..number).map(|_| walk_pattern(walk)).collect())?.0)
}

/// A catalogue of zero bytes is one without extracts, like the byte 00.
fn read_extracts<'a>(bytes: &[u8]) -> Result<(Catalogue, Walk<'a>), Refusal> {
    let bytes = if bytes.is_empty() { &[0] } else { bytes };
    read(bytes, CATALOGUE_BYTES, CATALOGUE, walk_catalogue)
}

pub fn judge_catalogue(bytes: &[u8]) -> Result<Catalogue, Refusal> {
    Ok(read_extracts(bytes)?.0)
}

// What stands around the files of a call.

/// 14, before all files.
pub fn judge_desk(work_words: usize) -> Result<(), Refusal> {
    if work_words < WORK_WORDS {
        return refused(DESK, 0);
    }
    Ok(())
}

/// How many different pairs stand in a book.
fn different_pairs(book: &Book) -> usize {
    book.iter().flatten().flatten().collect::<BTreeSet<_>>().len()
}

/// 10, after all files. It falls to a book alone.
fn judge_pairs(book: &Book) -> Result<(), Refusal> {
    if different_pairs(book) > BOOK_PAIRS {
        return refused(CROWDED, BOOK);
    }
    Ok(())
}

/// The last of a call's files, with 10.
pub fn judge_book(catalogue: &Catalogue, bytes: &[u8]) -> Result<Book, Refusal> {
    let (book, _) = read(bytes, BOOK_BYTES, BOOK, |walk| walk_book(walk, catalogue))?;
    judge_pairs(&book)?;
    Ok(book)
}

/// 12, at the end: by words for a reader, by bytes for a writer.
fn give<T>(output: Vec<T>, room: usize) -> Result<Vec<T>, Refusal> {
    if output.len() > room {
        return refused(NO_FIT, output.len());
    }
    Ok(output)
}

/// 12 for a sheet or a book that is written: no more than its most bytes, however much was lent.
fn give_book(output: Vec<u8>, room: usize) -> Result<Vec<u8>, Refusal> {
    give(output, room.min(BOOK_BYTES))
}

// The ten calls, and the converter.

pub fn read_pattern(bytes: &[u8], room_words: usize, work_words: usize) -> Result<Vec<u32>, Refusal> {
    judge_desk(work_words)?;
    let (_, walk) = read(bytes, PATTERN_BYTES, PATTERN, walk_pattern)?;
    give(walk.words(), room_words)
}

pub fn read_catalogue(bytes: &[u8], room_words: usize, work_words: usize) -> Result<Vec<u32>, Refusal> {
    judge_desk(work_words)?;
    let (_, walk) = read_extracts(bytes)?;
    give(walk.words(), room_words)
}

pub fn read_record(bytes: &[u8], room_words: usize, work_words: usize) -> Result<Vec<u32>, Refusal> {
    judge_desk(work_words)?;
    let (_, walk) = read(bytes, RECORD_BYTES, RECORD, walk_record)?;
    give(walk.words(), room_words)
}

pub fn read_sheet(pattern: &[u8], bytes: &[u8], room_words: usize, work_words: usize) -> Result<Vec<u32>, Refusal> {
    judge_desk(work_words)?;
    let pattern = judge_pattern(pattern)?;
    let (_, walk) = read(bytes, BOOK_BYTES, BOOK, |walk| walk_sheet(walk, &pattern))?;
    give(walk.words(), room_words)
}

pub fn read_book(catalogue: &[u8], bytes: &[u8], room_words: usize, work_words: usize) -> Result<Vec<u32>, Refusal> {
    judge_desk(work_words)?;
    let catalogue = judge_catalogue(catalogue)?;
    let (book, walk) = read(bytes, BOOK_BYTES, BOOK, |walk| walk_book(walk, &catalogue))?;
    judge_pairs(&book)?;
    give(walk.words(), room_words)
}

pub fn write_pattern(fields: &[u32], room_bytes: usize, work_words: usize) -> Result<Vec<u8>, Refusal> {
    judge_desk(work_words)?;
    let (_, walk) = write(fields, PATTERN, walk_pattern)?;
    give(walk.bytes(), room_bytes)
}

pub fn write_catalogue(fields: &[u32], room_bytes: usize, work_words: usize) -> Result<Vec<u8>, Refusal> {
    judge_desk(work_words)?;
    let (_, walk) = write(fields, CATALOGUE, walk_catalogue)?;
    give(walk.bytes(), room_bytes)
}

pub fn write_record(fields: &[u32], room_bytes: usize, work_words: usize) -> Result<Vec<u8>, Refusal> {
    judge_desk(work_words)?;
    let (_, walk) = write(fields, RECORD, walk_record)?;
    give(walk.bytes(), room_bytes)
}

pub fn write_sheet(pattern: &[u8], fields: &[u32], room_bytes: usize, work_words: usize) -> Result<Vec<u8>, Refusal> {
    judge_desk(work_words)?;
    let pattern = judge_pattern(pattern)?;
    let (_, walk) = write(fields, BOOK, |walk| walk_sheet(walk, &pattern))?;
    give_book(walk.bytes(), room_bytes)
}

pub fn write_book(catalogue: &[u8], fields: &[u32], room_bytes: usize, work_words: usize) -> Result<Vec<u8>, Refusal> {
    judge_desk(work_words)?;
    let catalogue = judge_catalogue(catalogue)?;
    let (book, walk) = write(fields, BOOK, |walk| walk_book(walk, &catalogue))?;
    judge_pairs(&book)?;
    give_book(walk.bytes(), room_bytes)
}

/// The content of a pattern or a record.
pub fn graph_fields(kinds: &[u32], links: &[Link]) -> Vec<u32> {
    let mut fields = vec![kinds.len() as u32, links.len() as u32];
    fields.extend(kinds);
    fields.extend(links.iter().flat_map(|&(from, to, kind)| [from, to, kind]));
    fields
}

/// 14, the file by the old rules, then 12: the record with its links in order, each of kind 0.
pub fn sort_record(old: &[u8], room_bytes: usize, work_words: usize) -> Result<Vec<u8>, Refusal> {
    judge_desk(work_words)?;
    let (Record { kinds, mut links }, _) = read(old, OLD_RECORD_BYTES, RECORD, walk_old_record)?;
    links.sort();
    write_record(&graph_fields(&kinds, &links), room_bytes, work_words)
}

// Files whatever they say.

/// A file of a graph's layout: the widths of the two counts, of an item's kinds, and of a link's ends and kind.
fn pack(fields: &[u32], counts: [usize; 2], item: usize, link: [usize; 3]) -> Vec<u8> {
    let mut walk = Walk::over_values(fields, RECORD);
    let items = 2 + fields.first().map_or(0, |&items| items as usize);
    for (place, &value) in fields.iter().enumerate() {
        let width = match place {
            0 | 1 => counts[place],
            _ if place < items => item,
            _ => link[(place - items) % 3],
        };
        walk.pieces.push(Piece::Field { width, value });
    }
    walk.pieces.push(Piece::Padding);
    walk.bytes()
}

/// The file of a pattern's content, whatever it says.
pub fn pack_pattern(fields: &[u32]) -> Vec<u8> {
    pack(fields, [5, 6], 5, [4, 4, 3])
}

/// The file of a record's content, whatever it says.
pub fn pack_record(fields: &[u32]) -> Vec<u8> {
    pack(fields, [13, 14], 32, [12, 12, 3])
}

/// The same as it would have been stored before links had an order and kinds, so without the kinds.
pub fn pack_old_record(fields: &[u32]) -> Vec<u8> {
    pack(fields, [13, 14], 32, [12, 12, 0])
}

#[cfg(test)]
mod tests;
