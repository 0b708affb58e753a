use super::*;

const ROOM: usize = 100_000;
const WORK: usize = WORK_WORDS;

const D: [u8; 10] = [0x20, 0x80, 0x08, 0x86, 0x02, 0x00, 0x80, 0x98, 0x23, 0x00];
const D_FIELDS: [u32; 18] = [4, 4, 0, 1, 2, 3, 0, 1, 0, 0, 2, 0, 1, 3, 0, 2, 3, 0];

const C: [u8; 17] =
    [0x18, 0x10, 0x20, 0x08, 0x08, 0x18, 0x40, 0x08, 0xc0, 0x40, 0x90, 0x18, 0x40, 0x10, 0xc0, 0x40, 0x90];
const C_FIELDS: [u32; 30] = [3, 2, 1, 0, 1, 0, 1, 0, 3, 2, 0, 1, 3, 0, 1, 0, 1, 2, 0, 3, 2, 0, 2, 3, 0, 1, 0, 1, 2, 0];

/// Extract 1 of C alone.
const SLOW: [u8; 6] = [0x18, 0x40, 0x08, 0xc0, 0x40, 0x90];
/// Extract 0 of C alone, with one link.
const ONE: [u8; 4] = [0x10, 0x20, 0x08, 0x08];

const K6_SHEET: [u8; 10] = [0x80, 0x02, 0x00, 0x00, 0x02, 0x00, 0x08, 0x00, 0x80, 0x10];
const K6_SHEET_FIELDS: [u32; 7] = [1, 1, 0, 1, 1, 1, 2];

fn no<T>(number: u32, detail: usize) -> Result<T, Refusal> {
    refused(number, detail)
}

/// A pattern's fields, by counts that may be wrong; its links by their fields.
fn pattern_fields(items: u32, kinds: &[u32], links: u32, fields_of_links: &[u32]) -> Vec<u32> {
    let mut fields = vec![items, links];
    fields.extend(kinds);
    fields.extend(fields_of_links);
    fields
}

/// Bytes from fields of the widths given, zero bits up to the byte.
fn packed(fields: &[(usize, u32)]) -> Vec<u8> {
    let mut bits = String::new();
    for &(width, value) in fields {
        bits += &format!("{value:0width$b}");
    }
    while bits.len() % 8 != 0 {
        bits.push('0');
    }
    (0..bits.len() / 8).map(|i| u8::from_str_radix(&bits[8 * i..8 * i + 8], 2).unwrap()).collect()
}

#[test]
fn the_known_bytes() {
    assert_eq!(read_pattern(&D, ROOM, WORK), Ok(D_FIELDS.to_vec()));
    assert_eq!(write_pattern(&D_FIELDS, ROOM, WORK), Ok(D.to_vec()));
    assert_eq!(read_catalogue(&C, ROOM, WORK), Ok(C_FIELDS.to_vec()));
    assert_eq!(write_catalogue(&C_FIELDS, ROOM, WORK), Ok(C.to_vec()));
    assert_eq!(read_sheet(&SLOW, &K6_SHEET, ROOM, WORK), Ok(K6_SHEET_FIELDS.to_vec()));
    assert_eq!(write_sheet(&SLOW, &K6_SHEET_FIELDS, ROOM, WORK), Ok(K6_SHEET.to_vec()));
    for pattern in [&ONE[..], &SLOW, &D] {
        assert_eq!(read_sheet(pattern, &[0], ROOM, WORK), Ok(vec![0]));
        assert_eq!(write_sheet(pattern, &[0], ROOM, WORK), Ok(vec![0]));
        assert_eq!(write_sheet(pattern, &[0], 0, WORK), no(NO_FIT, 1));
    }
}

#[test]
fn a_record_in_bytes() {
    let fields = [4, 3, 1, 2, 8, 2, 0, 1, 0, 0, 3, 7, 1, 2, 5];
    let widths = [13, 14, 32, 32, 32, 32, 12, 12, 3, 12, 12, 3, 12, 12, 3];
    let pieces: Vec<(usize, u32)> = widths.into_iter().zip(fields).collect();
    let bytes = packed(&pieces);
    assert_eq!(bytes.len(), 30);
    assert_eq!(write_record(&fields, ROOM, WORK), Ok(bytes.clone()));
    assert_eq!(read_record(&bytes, ROOM, WORK), Ok(fields.to_vec()));
}

#[test]
fn a_field_is_read_then_judged() {
    assert_eq!(read_pattern(&[0x88], ROOM, WORK), no(COUNT, PATTERN));
    assert_eq!(read_pattern(&[0x08], ROOM, WORK), no(SHORT, PATTERN));
    assert_eq!(read_pattern(&[], ROOM, WORK), no(SHORT, PATTERN));
    assert_eq!(read_catalogue(&[0x08], ROOM, WORK), no(SHORT, CATALOGUE));
    assert_eq!(read_record(&[], ROOM, WORK), no(SHORT, RECORD));
    assert_eq!(read_sheet(&ONE, &[], ROOM, WORK), no(SHORT, BOOK));
    // A stray from whose to is cut off: with three items two bits are left for it.
    let cut = |from| packed(&[(5, 3), (6, 1), (15, 0), (4, from)]);
    assert_eq!(read_pattern(&cut(3), ROOM, WORK), no(STRAY, PATTERN));
    assert_eq!(read_pattern(&cut(2), ROOM, WORK), no(SHORT, PATTERN));
    let record = packed(&[(13, 1), (14, 1), (32, 0), (12, 1)]);
    assert_eq!(read_record(&record, ROOM, WORK), no(STRAY, RECORD));
    // A kind of which one bit is there, after a to that is stray or isn't.
    let cut = |to| packed(&[(5, 4), (6, 1), (20, 0), (4, 0), (4, to), (1, 1)]);
    assert_eq!(read_pattern(&cut(4), ROOM, WORK), no(STRAY, PATTERN));
    assert_eq!(read_pattern(&cut(3), ROOM, WORK), no(SHORT, PATTERN));
    // A link's 5 or 6 needs its kind.
    let again = packed(&[(5, 2), (6, 2), (10, 0), (11, 8), (8, 1)]);
    assert_eq!(read_pattern(&again, ROOM, WORK), no(SHORT, PATTERN));
    let lower = packed(&[(13, 2), (14, 2), (32, 0), (32, 0), (12, 1), (12, 1), (3, 0), (12, 0), (12, 0)]);
    assert_eq!(read_record(&lower, ROOM, WORK), no(SHORT, RECORD));
    // A record's counts stand before its kinds: 4,096 items that aren't there, and 8,193 links.
    assert_eq!(read_record(&packed(&[(13, 4_096), (14, 8_193)]), ROOM, WORK), no(COUNT, RECORD));
    // A pair's 6 needs its to.
    let pair = packed(&[(1, 1), (14, 2), (12, 1), (12, 1), (12, 0)]);
    assert_eq!(read_sheet(&ONE, &pair, ROOM, WORK), no(SHORT, BOOK));
}

#[test]
fn counts_of_a_pattern() {
    let kinds = [0; 17];
    let links: Vec<u32> = (0..17).flat_map(|i| [i, 0, 0]).collect();
    assert!(write_pattern(&pattern_fields(16, &kinds[..16], 16, &links[..48]), ROOM, WORK).is_ok());
    assert_eq!(write_pattern(&pattern_fields(17, &kinds, 17, &links), ROOM, WORK), no(COUNT, PATTERN));
    assert_eq!(write_pattern(&pattern_fields(0, &[], 1, &[0, 0, 0]), ROOM, WORK), no(COUNT, PATTERN));
    assert_eq!(write_pattern(&pattern_fields(1, &[0], 0, &[]), ROOM, WORK), no(COUNT, PATTERN));
    assert_eq!(write_pattern(&pattern_fields(1, &[0], 33, &[0, 0, 0]), ROOM, WORK), no(COUNT, PATTERN));
    assert_eq!(write_pattern(&pattern_fields(1, &[32], 1, &[0, 0, 0]), ROOM, WORK), no(COUNT, PATTERN));
    assert_eq!(write_pattern(&pattern_fields(1, &[31], 1, &[0, 0, 0]), ROOM, WORK).unwrap().len(), 4);
    assert_eq!(read_pattern(&packed(&[(5, 16), (6, 0)]), ROOM, WORK), no(COUNT, PATTERN));
    assert_eq!(read_pattern(&packed(&[(5, 16), (6, 33)]), ROOM, WORK), no(COUNT, PATTERN));
}

/// A pattern of so many items whose kinds are 0, by the fields of its links, read too where it is written.
fn wrote(items: u32, links: u32, fields: &[u32]) -> Result<usize, Refusal> {
    let fields = pattern_fields(items, &vec![0; items as usize], links, fields);
    let bytes = write_pattern(&fields, ROOM, WORK)?;
    assert_eq!(read_pattern(&bytes, ROOM, WORK), Ok(fields));
    Ok(bytes.len())
}

#[test]
fn links_of_a_pattern() {
    assert_eq!(wrote(2, 1, &[2, 0, 0]), no(STRAY, PATTERN));
    assert_eq!(wrote(2, 1, &[0, 2, 0]), no(STRAY, PATTERN));
    assert_eq!(wrote(2, 1, &[0, 1 << 20, 0]), no(STRAY, PATTERN));
    assert_eq!(wrote(2, 1, &[2]), no(STRAY, PATTERN));
    assert_eq!(wrote(2, 2, &[0, 1, 0, 0, 1, 0]), no(TWICE, PATTERN));
    assert_eq!(wrote(2, 2, &[0, 1, 0, 1, 0, 0]), Ok(6));
    assert_eq!(wrote(3, 1, &[0, 1, 0]), no(LOOSE, PATTERN));
    // 7 stands before the padding and before what follows.
    let mut loose = packed(&[(5, 3), (6, 1), (5, 0), (5, 0), (5, 0), (4, 0), (4, 1), (3, 0), (3, 1)]);
    assert_eq!(read_pattern(&loose, ROOM, WORK), no(LOOSE, PATTERN));
    loose.push(1);
    assert_eq!(read_pattern(&loose, ROOM, WORK), no(LOOSE, PATTERN));
}

#[test]
fn kinds_of_a_patterns_links() {
    for kind in 0..8 {
        assert_eq!(wrote(1, 1, &[0, 0, kind]), Ok(4));
    }
    for kind in [8, 15, u32::MAX] {
        assert_eq!(wrote(1, 1, &[0, 0, kind]), no(COUNT, PATTERN));
        // 3 stands before 5 and 7, and behind 4.
        assert_eq!(wrote(1, 2, &[0, 0, 0, 0, 0, kind]), no(COUNT, PATTERN));
        assert_eq!(wrote(3, 1, &[0, 0, kind]), no(COUNT, PATTERN));
        assert_eq!(wrote(1, 1, &[0, 1, kind]), no(STRAY, PATTERN));
    }
    assert_eq!(wrote(1, 1, &[0, 0]), no(SHORT, PATTERN));
    assert_eq!(wrote(1, 1, &[0, 1]), no(STRAY, PATTERN));
    assert_eq!(wrote(1, 2, &[0, 0, 0, 0, 0]), no(SHORT, PATTERN));
    // 5 judges all three: links that agree in two of them may stand together, in any order.
    for (first, second) in
        [([0, 1, 0], [0, 1, 1]), ([0, 1, 7], [0, 1, 3]), ([0, 1, 5], [0, 0, 5]), ([0, 1, 5], [1, 1, 5])]
    {
        assert_eq!(wrote(2, 2, &[first, second].concat()), Ok(6));
        assert_eq!(wrote(2, 3, &[first, second, first].concat()), no(TWICE, PATTERN));
        assert_eq!(wrote(2, 3, &[first, second, second].concat()), no(TWICE, PATTERN));
    }
    let all: Vec<u32> = (0..8).rev().flat_map(|kind| [0, 0, kind]).collect();
    assert_eq!(wrote(1, 8, &all), Ok((16 + 8 * 11usize).div_ceil(8)));
    // A link of another kind is an end of its items alike.
    assert_eq!(wrote(3, 2, &[0, 1, 0, 1, 2, 1]), Ok(6));
    assert_eq!(wrote(3, 2, &[0, 1, 0, 0, 1, 1]), no(LOOSE, PATTERN));
}

#[test]
fn the_largest_pattern() {
    let links: Vec<u32> = (0..32).flat_map(|i| [i % 16, (i + i / 16) % 16, i % 8]).collect();
    assert_eq!(wrote(16, 32, &links), Ok(PATTERN_BYTES));
    let pattern = pattern_fields(16, &[31; 16], 32, &links);
    assert_eq!(pattern.len(), 114);
    let catalogue = [vec![16], pattern.repeat(16)].concat();
    assert_eq!(write_catalogue(&catalogue, ROOM, WORK).unwrap().len(), CATALOGUE_BYTES);
}

#[test]
fn what_follows_a_pattern() {
    let mut bytes = D.to_vec();
    bytes[9] |= 1;
    assert_eq!(read_pattern(&bytes, ROOM, WORK), no(TAIL, PATTERN));
    let mut bytes = D.to_vec();
    bytes.push(0);
    assert_eq!(read_pattern(&bytes, ROOM, WORK), no(TAIL, PATTERN));
    let mut fields = D_FIELDS.to_vec();
    fields.push(0);
    assert_eq!(write_pattern(&fields, ROOM, WORK), no(TAIL, PATTERN));
    assert_eq!(write_pattern(&D_FIELDS[..17], ROOM, WORK), no(SHORT, PATTERN));
    assert_eq!(write_pattern(&[], ROOM, WORK), no(SHORT, PATTERN));
}

#[test]
fn a_catalogue() {
    assert_eq!(read_catalogue(&[0], ROOM, WORK), Ok(vec![0]));
    assert_eq!(write_catalogue(&[0], ROOM, WORK), Ok(vec![0]));
    assert_eq!(read_catalogue(&[17 << 3], ROOM, WORK), no(COUNT, CATALOGUE));
    assert_eq!(read_catalogue(&[0, 0], ROOM, WORK), no(TAIL, CATALOGUE));
    // Its three bits stand before its first extract.
    assert_eq!(read_catalogue(&[0x09], ROOM, WORK), no(TAIL, CATALOGUE));
    assert_eq!(read_catalogue(&[0x08], ROOM, WORK), no(SHORT, CATALOGUE));
    assert_eq!(read_catalogue(&[0x08, 0x88], ROOM, WORK), no(COUNT, CATALOGUE));
    // An extract's padding stands before the next one: a link to itself, which has five bits of it.
    assert_eq!(read_catalogue(&[0x10, 0x08, 0x20, 0x00, 0x01, 0x88], ROOM, WORK), no(TAIL, CATALOGUE));
    assert_eq!(read_catalogue(&[0x10, 0x08, 0x20, 0x00, 0x00, 0x88], ROOM, WORK), no(COUNT, CATALOGUE));
    assert_eq!(write_catalogue(&[17], ROOM, WORK), no(COUNT, CATALOGUE));
    assert_eq!(write_catalogue(&[1], ROOM, WORK), no(SHORT, CATALOGUE));
    assert_eq!(write_catalogue(&[0, 0], ROOM, WORK), no(TAIL, CATALOGUE));
}

#[test]
fn a_catalogue_of_zero_bytes() {
    for no_extracts in [&[][..], &[0]] {
        assert_eq!(read_catalogue(no_extracts, 1, WORK), Ok(vec![0]));
        assert_eq!(read_catalogue(no_extracts, 0, WORK), no(NO_FIT, 1));
        assert_eq!(read_catalogue(no_extracts, 1, WORK - 1), no(DESK, 0));
        assert_eq!(read_book(no_extracts, &[], 0, WORK), Ok(vec![]));
        assert_eq!(write_book(no_extracts, &[], 0, WORK), Ok(vec![]));
        assert_eq!(read_book(no_extracts, &[0], ROOM, WORK), no(TAIL, BOOK));
        assert_eq!(write_book(no_extracts, &[0], ROOM, WORK), no(TAIL, BOOK));
    }
    // What is written of its content is the byte 00, and content of no fields is none of a catalogue.
    assert_eq!(write_catalogue(&[0], 1, WORK), Ok(vec![0]));
    assert_eq!(write_catalogue(&[], ROOM, WORK), no(SHORT, CATALOGUE));
}

#[test]
fn a_record() {
    assert_eq!(write_record(&[0, 0], ROOM, WORK), Ok(vec![0, 0, 0, 0]));
    assert_eq!(write_record(&[0, 1, 0, 0, 0], ROOM, WORK), no(STRAY, RECORD));
    assert_eq!(write_record(&[0, 1], ROOM, WORK), no(SHORT, RECORD));
    assert_eq!(write_record(&[1, 0, u32::MAX], ROOM, WORK).unwrap().len(), 8);
    assert_eq!(write_record(&[4_097, 0], ROOM, WORK), no(COUNT, RECORD));
    assert_eq!(write_record(&[0, 8_193], ROOM, WORK), no(COUNT, RECORD));
    assert_eq!(write_record(&[2, 2, 0, 0, 0, 1, 0, 1, 0, 0], ROOM, WORK).unwrap().len(), 19);
    // Links that repeat the one before or come before it.
    assert_eq!(write_record(&[1, 2, 0, 0, 0, 0, 0, 0, 0], ROOM, WORK), no(ORDER, RECORD));
    assert_eq!(write_record(&[2, 2, 0, 0, 1, 0, 0, 0, 1, 0], ROOM, WORK), no(ORDER, RECORD));
    assert_eq!(write_record(&[2, 2, 0, 0, 0, 1, 0, 0, 0, 0], ROOM, WORK), no(ORDER, RECORD));
    assert_eq!(write_record(&[2, 3, 0, 0, 0, 1, 0, 1, 0, 0, 0, 1, 0], ROOM, WORK), no(ORDER, RECORD));
    // 4 stands before 6, and 6 before what follows.
    assert_eq!(write_record(&[1, 2, 0, 0, 0, 0, 0, 1, 0], ROOM, WORK), no(STRAY, RECORD));
    assert_eq!(write_record(&[1, 3, 0, 0, 0, 0, 0, 0, 0, 1], ROOM, WORK), no(ORDER, RECORD));
    assert_eq!(write_record(&[1, 2, 0, 0, 0, 0, 0, 0, 0, 7], ROOM, WORK), no(ORDER, RECORD));
    assert_eq!(write_record(&[0], ROOM, WORK), no(SHORT, RECORD));
    assert_eq!(write_record(&[0, 0, 0], ROOM, WORK), no(TAIL, RECORD));
}

/// A record of two items without kinds, by its links, read too where it is written, and refused alike where it isn't.
fn recorded(links: &[Link]) -> Result<usize, Refusal> {
    let fields = graph_fields(&[0, 0], links);
    let bytes = pack_record(&fields);
    let read = read_record(&bytes, ROOM, WORK);
    match write_record(&fields, ROOM, WORK) {
        Ok(wrote) => {
            assert_eq!((read, &wrote), (Ok(fields), &bytes));
            Ok(bytes.len())
        }
        Err(refusal) => {
            assert_eq!(read, Err(refusal));
            Err(refusal)
        }
    }
}

#[test]
fn kinds_of_a_records_links() {
    // The kind decides where the ends are the same, and only there.
    for (first, second) in
        [((0, 1, 0), (0, 1, 1)), ((0, 1, 3), (0, 1, 7)), ((0, 1, 7), (1, 0, 0)), ((0, 0, 7), (0, 1, 0))]
    {
        assert_eq!(recorded(&[first, second]), Ok((27 + 64 + 54usize).div_ceil(8)));
        assert_eq!(recorded(&[second, first]), no(ORDER, RECORD));
        assert_eq!(recorded(&[first, second, second]), no(ORDER, RECORD));
        assert_eq!(recorded(&[first, second, first]), no(ORDER, RECORD));
    }
    let all: Vec<Link> = (0..32).map(|i| (i / 16, i / 8 % 2, i % 8)).collect();
    assert_eq!(recorded(&all), Ok((27 + 64 + 32 * 27usize).div_ceil(8)));
    for kind in [8, u32::MAX] {
        // 3 stands before 6, and behind 4.
        assert_eq!(write_record(&[1, 1, 0, 0, 0, kind], ROOM, WORK), no(COUNT, RECORD));
        assert_eq!(write_record(&[1, 2, 0, 0, 0, 7, 0, 0, kind], ROOM, WORK), no(COUNT, RECORD));
        assert_eq!(write_record(&[1, 1, 0, 0, 1, kind], ROOM, WORK), no(STRAY, RECORD));
    }
    assert_eq!(write_record(&[1, 1, 0, 0, 0], ROOM, WORK), no(SHORT, RECORD));
    assert_eq!(write_record(&[1, 2, 0, 0, 0, 0, 0, 0], ROOM, WORK), no(SHORT, RECORD));
}

#[test]
fn the_largest_record() {
    let links: Vec<Link> = (0..8_192).map(|i| (i / 2, i / 2, i % 2 * 5)).collect();
    let fields = graph_fields(&[u32::MAX; 4_096], &links);
    let bytes = write_record(&fields, ROOM, WORK).unwrap();
    assert_eq!((fields.len(), bytes.len()), (28_674, RECORD_BYTES));
    assert_eq!(read_record(&bytes, ROOM, WORK), Ok(fields));
}

#[test]
fn a_sheet() {
    // The contents of which a value's own fault stands first.
    assert_eq!(write_sheet(&ONE, &[1, 2, 5, 0, 4, 5_000], ROOM, WORK), no(COUNT, BOOK));
    assert_eq!(write_sheet(&ONE, &[1, 2, 5, 0, 4, 4_095], ROOM, WORK), no(ORDER, BOOK));
    assert_eq!(write_sheet(&ONE, &[1, 2, 5, 0, 5, 0], ROOM, WORK), no(ORDER, BOOK));
    assert_eq!(write_sheet(&ONE, &[1, 2, 5, 1, 5, 0], ROOM, WORK), no(ORDER, BOOK));
    assert!(write_sheet(&ONE, &[1, 2, 5, 0, 5, 1], ROOM, WORK).is_ok());
    assert!(write_sheet(&ONE, &[1, 2, 4, 9, 5, 0], ROOM, WORK).is_ok());
    // Each list starts anew.
    assert!(write_sheet(&SLOW, &[1, 1, 5, 5, 1, 0, 0], ROOM, WORK).is_ok());
    // The bit in front.
    assert_eq!(write_sheet(&ONE, &[], ROOM, WORK), no(SHORT, BOOK));
    assert_eq!(write_sheet(&ONE, &[2], ROOM, WORK), no(COUNT, BOOK));
    assert_eq!(write_sheet(&ONE, &[u32::MAX, 1, 0, 0], ROOM, WORK), no(COUNT, BOOK));
    assert_eq!(write_sheet(&ONE, &[1], ROOM, WORK), no(SHORT, BOOK));
    assert_eq!(write_sheet(&ONE, &[0, 0], ROOM, WORK), no(TAIL, BOOK));
    assert_eq!(write_sheet(&ONE, &[0, 1, 0, 0], ROOM, WORK), no(TAIL, BOOK));
    assert_eq!(read_sheet(&ONE, &[], ROOM, WORK), no(SHORT, BOOK));
    assert_eq!(read_sheet(&ONE, &[0x80], ROOM, WORK), no(SHORT, BOOK));
    for other in 1..128 {
        assert_eq!(read_sheet(&ONE, &[other], ROOM, WORK), no(TAIL, BOOK));
    }
    assert_eq!(read_sheet(&ONE, &[0, 0], ROOM, WORK), no(TAIL, BOOK));
    // What follows the lists.
    let mut one = packed(&[(1, 1), (14, 1), (12, 0), (12, 0)]);
    assert_eq!(read_sheet(&ONE, &one, ROOM, WORK), Ok(vec![1, 1, 0, 0]));
    one.push(0);
    assert_eq!(read_sheet(&ONE, &one, ROOM, WORK), no(TAIL, BOOK));
    one.pop();
    one[4] |= 1;
    assert_eq!(read_sheet(&ONE, &one, ROOM, WORK), no(TAIL, BOOK));
    // The pattern stands first.
    assert_eq!(read_sheet(&[0x88], &[0; 65_537], ROOM, WORK), no(COUNT, PATTERN));
    assert_eq!(read_sheet(&[0; 57], &[0, 0], ROOM, WORK), no(LONG, PATTERN));
    assert_eq!(write_sheet(&[0; 57], &[], ROOM, WORK), no(LONG, PATTERN));
    assert_eq!(read_sheet(&ONE, &[0; 65_537], ROOM, WORK), no(LONG, BOOK));
}

#[test]
fn a_zero_count_after_a_1() {
    assert_eq!(write_sheet(&ONE, &[1, 0], ROOM, WORK), no(UNEVEN, BOOK));
    assert_eq!(write_sheet(&SLOW, &[1, 0, 0], ROOM, WORK), no(UNEVEN, BOOK));
    assert_eq!(write_sheet(&SLOW, &[1, 0, 1, 0, 0], ROOM, WORK), no(UNEVEN, BOOK));
    assert_eq!(write_sheet(&SLOW, &[1, 1, 0, 0, 0], ROOM, WORK), no(UNEVEN, BOOK));
    // It is found at the count: no later fault stands before it, and an earlier one does.
    assert_eq!(write_sheet(&SLOW, &[1, 0], ROOM, WORK), no(UNEVEN, BOOK));
    assert_eq!(write_sheet(&SLOW, &[1, 0, 1, 0], ROOM, WORK), no(UNEVEN, BOOK));
    assert_eq!(write_sheet(&SLOW, &[1, 0, 8_193], ROOM, WORK), no(UNEVEN, BOOK));
    assert_eq!(write_sheet(&SLOW, &[1, 0, 1, 0, 5_000], ROOM, WORK), no(UNEVEN, BOOK));
    assert_eq!(write_sheet(&SLOW, &[1, 0, 2, 1, 0, 0, 0], ROOM, WORK), no(UNEVEN, BOOK));
    assert_eq!(write_sheet(&SLOW, &[1, 2, 1, 0, 0, 0, 0], ROOM, WORK), no(ORDER, BOOK));
    assert_eq!(write_sheet(&SLOW, &[1, 8_193, 0], ROOM, WORK), no(COUNT, BOOK));
    assert_eq!(read_sheet(&SLOW, &packed(&[(1, 1), (14, 0)]), ROOM, WORK), no(UNEVEN, BOOK));
    assert_eq!(read_sheet(&SLOW, &packed(&[(1, 1), (14, 0), (1, 1)]), ROOM, WORK), no(UNEVEN, BOOK));
    assert_eq!(read_sheet(&SLOW, &packed(&[(1, 1), (14, 0), (14, 0), (3, 1)]), ROOM, WORK), no(UNEVEN, BOOK));
    let last = packed(&[(1, 1), (14, 1), (12, 0), (12, 0), (14, 0), (3, 1)]);
    assert_eq!(read_sheet(&SLOW, &last, ROOM, WORK), no(UNEVEN, BOOK));
}

#[test]
fn the_size_of_a_sheet() {
    for (pattern, links) in [(&ONE[..], 1), (&SLOW, 2), (&D, 4)] {
        for pairs in [1, 2, 3, 100] {
            let list = |_| [vec![pairs], (0..pairs).flat_map(|i| [0, i]).collect()].concat();
            let fields = [vec![1], (0..links).flat_map(list).collect()].concat();
            let length = (1 + 14 * links + 24 * links * pairs as usize).div_ceil(8);
            assert_eq!(write_sheet(pattern, &fields, ROOM, WORK).unwrap().len(), length);
        }
    }
}

/// A sheet of the form without the bit in front.
fn old_sheet(lists: &[Vec<(u32, u32)>]) -> Vec<u8> {
    let mut fields = Vec::new();
    for list in lists {
        fields.push((14, list.len() as u32));
        fields.extend(list.iter().flat_map(|&(from, to)| [(12, from), (12, to)]));
    }
    packed(&fields)
}

/// Sheets of the old form are judged by the new rules.
#[test]
fn sheets_as_they_were() {
    assert_eq!(read_sheet(&SLOW, &old_sheet(&[vec![(0, 1)], vec![(1, 2)]]), ROOM, WORK), no(TAIL, BOOK));
    assert_eq!(read_sheet(&ONE, &old_sheet(&[vec![]]), ROOM, WORK), no(TAIL, BOOK));
    // One that is accepted and means something else: its first count, 8,192, is read as the bit and a count of 1.
    let mut list = vec![(3_071, 0)];
    list.extend((0..8_190).map(|i| (3_072 + i / 8, 512 * (i % 8))));
    list.push((4_095, 3_073));
    let read = read_sheet(&SLOW, &old_sheet(&[list, vec![(4_095, 4_095)]]), ROOM, WORK).unwrap();
    assert_eq!((read[..2].to_vec(), read[4]), (vec![1, 1], 8_192));
}

#[test]
fn a_book() {
    let fields = [1, 1, 0, 1, 1, 1, 0, 1, 1, 1, 2, 0];
    let book = write_book(&C, &fields, ROOM, WORK).unwrap();
    assert_eq!(book.len(), 5 + 10 + 1);
    assert_eq!(book[5..15], K6_SHEET);
    assert_eq!(read_book(&C, &book, ROOM, WORK), Ok(fields.to_vec()));
    // Each sheet's padding stands before the next sheet.
    let mut torn = book.clone();
    torn[4] |= 1;
    torn[5] = 0xff;
    assert_eq!(read_book(&C, &torn, ROOM, WORK), no(TAIL, BOOK));
    torn[4] &= !1;
    assert_eq!(read_book(&C, &torn, ROOM, WORK), no(COUNT, BOOK));
    assert_eq!(read_book(&[0x88], &book, ROOM, WORK), no(COUNT, CATALOGUE));
    assert_eq!(read_book(&[0; 898], &book, ROOM, WORK), no(LONG, CATALOGUE));
    assert_eq!(read_book(&C, &[0; 65_537], ROOM, WORK), no(LONG, BOOK));
}

/// The catalogue of extract 0 of C, twice.
fn twice_one() -> Vec<u8> {
    let mut catalogue = vec![2 << 3];
    catalogue.extend(ONE);
    catalogue.extend(ONE);
    catalogue
}

/// Two sheets of a list of 4,097 pairs each that share `shared`.
fn two_lists(shared: u32) -> Vec<u32> {
    let mut fields = vec![1, 4_097];
    for i in 0..4_097 {
        fields.extend([i / 4_096, i % 4_096]);
    }
    fields.extend([1, 4_097]);
    for i in 4_097 - shared..8_194 - shared {
        fields.extend([i / 4_096, i % 4_096]);
    }
    fields
}

#[test]
fn a_crowded_book() {
    let catalogue = twice_one();
    let full = two_lists(2);
    let crowded = two_lists(1);
    let bytes = write_book(&catalogue, &full, ROOM, WORK).unwrap();
    assert_eq!(read_book(&catalogue, &bytes, ROOM, WORK), Ok(full.clone()));
    assert_eq!(write_book(&catalogue, &crowded, ROOM, WORK), no(CROWDED, BOOK));
    // 10 stands before 12, and behind what is left over.
    assert_eq!(write_book(&catalogue, &crowded, 0, WORK), no(CROWDED, BOOK));
    let mut more = crowded.clone();
    more.push(0);
    assert_eq!(write_book(&catalogue, &more, ROOM, WORK), no(TAIL, BOOK));
    // A lone sheet is never crowded.
    let two_links = write_pattern(&[2, 2, 0, 0, 0, 1, 0, 0, 1, 1], ROOM, WORK).unwrap();
    let mut both = crowded;
    both.remove(2 + 2 * 4_097);
    assert!(write_sheet(&two_links, &both, ROOM, WORK).is_ok());
}

/// 10 counts pairs, not links: the two lists of links of two kinds may have the same ones.
#[test]
fn a_book_of_two_kinds() {
    for catalogue in [&[2, 2, 1, 0, 1, 0, 1, 0, 2, 1, 0, 1, 0, 1, 1][..], &[1, 2, 2, 0, 1, 0, 1, 0, 0, 1, 1]] {
        let catalogue = write_catalogue(catalogue, ROOM, WORK).unwrap();
        let is_one = catalogue[0] == 1 << 3;
        let book = |other| {
            let list = |first: u32| {
                let pairs = (first..first + 8_192).flat_map(|i| [i / 4_096, i % 4_096]);
                [vec![8_192], pairs.collect()].concat()
            };
            let lead = if is_one { vec![] } else { vec![1] };
            [vec![1], list(0), lead, list(other)].concat()
        };
        let bytes = write_book(&catalogue, &book(0), ROOM, WORK).unwrap();
        assert_eq!(read_book(&catalogue, &bytes, ROOM, WORK), Ok(book(0)));
        assert_eq!(write_book(&catalogue, &book(1), ROOM, WORK), no(CROWDED, BOOK));
    }
}

#[test]
fn room_and_desk() {
    assert_eq!(read_pattern(&D, 17, WORK), no(NO_FIT, 18));
    assert!(read_pattern(&D, 18, WORK).is_ok());
    assert_eq!(write_pattern(&D_FIELDS, 9, WORK), no(NO_FIT, 10));
    assert!(write_pattern(&D_FIELDS, 10, WORK).is_ok());
    assert_eq!(read_pattern(&[], 0, WORK - 1), no(DESK, 0));
    assert_eq!(write_book(&[], &[], 0, 0), no(DESK, 0));
    // A fault in the file stands before 12.
    assert_eq!(read_pattern(&[0x88], 0, WORK), no(COUNT, PATTERN));
    // Over 65,536 bytes are 12 however much is lent: 3 lists of 8,192 pairs, counted exactly.
    let pattern = write_pattern(&[2, 3, 0, 0, 0, 0, 0, 0, 1, 0, 1, 0, 0], ROOM, WORK).unwrap();
    let mut fields = vec![1];
    for _ in 0..3 {
        fields.push(8_192);
        for i in 0..8_192 {
            fields.extend([i / 4_096, i % 4_096]);
        }
    }
    let length = (1 + 14 * 3 + 24 * 3 * 8_192usize).div_ceil(8);
    assert_eq!(write_sheet(&pattern, &fields, 1_000_000, WORK), no(NO_FIT, length));
    assert_eq!(length, 73_734);
}

#[test]
fn the_most_bytes() {
    assert_eq!(read_pattern(&[0; 57], ROOM, WORK), no(LONG, PATTERN));
    assert_eq!(read_pattern(&[0; 56], ROOM, WORK), no(COUNT, PATTERN));
    assert_eq!(read_catalogue(&[0; 898], ROOM, WORK), no(LONG, CATALOGUE));
    assert_eq!(read_catalogue(&[0; 897], ROOM, WORK), no(TAIL, CATALOGUE));
    assert_eq!(read_record(&[0; 44_037], ROOM, WORK), no(LONG, RECORD));
    assert_eq!(read_record(&[0; 44_036], ROOM, WORK), no(TAIL, RECORD));
    assert_eq!(sort_record(&[0; 40_965], ROOM, WORK), no(LONG, RECORD));
    assert_eq!(sort_record(&[0; 40_964], ROOM, WORK), no(TAIL, RECORD));
}

/// The old file of two items without kinds and links with these ends.
fn old_file(links: &[(u32, u32)]) -> Vec<u8> {
    let mut fields = vec![(13, 2), (14, links.len() as u32), (32, 0), (32, 0)];
    fields.extend(links.iter().flat_map(|&(from, to)| [(12, from), (12, to)]));
    packed(&fields)
}

#[test]
fn an_old_record_is_sorted() {
    let all = [(0, 0), (0, 1), (1, 0), (1, 1)];
    let record = write_record(&graph_fields(&[0, 0], &all.map(|(from, to)| (from, to, 0))), ROOM, WORK).unwrap();
    assert_eq!(record.len(), 25);
    for turned in [[3, 2, 1, 0], [0, 1, 2, 3], [1, 3, 0, 2]] {
        let old = old_file(&turned.map(|link: usize| all[link]));
        assert_eq!(old.len(), 24);
        assert_eq!(sort_record(&old, ROOM, WORK), Ok(record.clone()));
        assert_eq!(sort_record(&old, 25, WORK), Ok(record.clone()));
        assert_eq!(sort_record(&old, 24, WORK), no(NO_FIT, 25));
        // An old file is none of the new layout.
        assert!(read_record(&old, ROOM, WORK).is_err());
    }
    assert_eq!(sort_record(&[0; 4], ROOM, WORK), Ok(vec![0; 4]));
    // Whatever kinds its content says.
    for kind in [0, 3, 7] {
        let fields = graph_fields(&[0, 0], &[(1, 0, kind), (0, 1, 7 - kind)]);
        assert_eq!(pack_old_record(&fields), old_file(&[(1, 0), (0, 1)]));
    }
}

#[test]
fn an_old_record_of_the_most() {
    let links: Vec<Link> = (0..8_192).rev().map(|i| (i / 2, i % 2, 0)).collect();
    let old = pack_old_record(&graph_fields(&[1; 4_096], &links));
    assert_eq!(old.len(), OLD_RECORD_BYTES);
    assert_eq!(sort_record(&old, RECORD_BYTES - 1, WORK), no(NO_FIT, RECORD_BYTES));
    let sorted = sort_record(&old, RECORD_BYTES, WORK).unwrap();
    let links: Vec<Link> = links.into_iter().rev().collect();
    assert_eq!(read_record(&sorted, ROOM, WORK), Ok(graph_fields(&[1; 4_096], &links)));
}

#[test]
fn an_old_record_by_the_old_rules() {
    for (old, number) in [
        (&[0; 40_965][..], LONG),
        (&[], SHORT),
        (&packed(&[(13, 4_097), (14, 0)]), COUNT),
        (&packed(&[(13, 0), (14, 8_193)]), COUNT),
        (&old_file(&[(1, 1), (2, 0)]), STRAY),
        (&old_file(&[(1, 0), (0, 1), (1, 0)]), TWICE),
        (&old_file(&[(1, 0), (1, 0), (2, 0)]), TWICE),
        (&[old_file(&[(1, 0), (0, 1)]), vec![0]].concat(), TAIL),
        (&packed(&[(13, 0), (14, 0), (5, 1)]), TAIL),
    ] {
        assert_eq!(sort_record(old, ROOM, WORK), no(number, RECORD));
        assert_eq!(sort_record(old, 0, WORK - 1), no(DESK, 0));
    }
}

#[test]
fn what_10_counts() {
    // Section to slow by a link of kind 0, by one of kind 1, and by both.
    let kinds = [0x18, 0x10, 0x20, 0x08, 0x08, 0x10, 0x20, 0x08, 0x09, 0x10, 0x40, 0x08, 0x08, 0x01, 0x20];
    for (catalogue, fields, number) in [
        (&C[..], &[1, 2, 0, 1, 0, 3, 1, 1, 0, 1, 1, 1, 2, 0][..], 3),
        // Under two extracts, and under two links of one.
        (&C, &[1, 1, 0, 1, 1, 1, 0, 1, 1, 1, 2, 1, 1, 0, 1, 1, 1, 2], 2),
        (&C, &[1, 2, 0, 1, 1, 2, 1, 2, 0, 1, 1, 2, 2, 0, 1, 1, 2, 0], 2),
        // Under links of different kinds.
        (&kinds, &[1, 2, 0, 1, 0, 2, 1, 1, 0, 1, 1, 2, 0, 1, 0, 2, 1, 0, 1], 2),
    ] {
        let catalogue = judge_catalogue(catalogue).unwrap();
        let (book, _) = write(fields, BOOK, |walk| walk_book(walk, &catalogue)).unwrap();
        assert_eq!(different_pairs(&book), number);
    }
}

#[test]
fn the_most_bytes_however_much_is_lent() {
    assert_eq!(give_book(vec![0; 65_536], 65_536), Ok(vec![0; 65_536]));
    assert_eq!(give_book(vec![0; 65_536], ROOM), Ok(vec![0; 65_536]));
    for room in [65_537, ROOM] {
        assert_eq!(give_book(vec![0; 65_537], room), no(NO_FIT, 65_537));
    }
}
