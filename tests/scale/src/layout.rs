//! Files as lists of fields, right or wrong: their content, their bytes, and ways to damage them.

use crate::draw::Draw;
use model::files::{Link, Pattern, Record, Sheet};

#[derive(Clone, Copy)]
enum Field {
    Of { width: u32, value: u32 },
    Padding,
}

/// The bits of a link's kind. No other field has so many.
const KIND_WIDTH: u32 = 3;

#[derive(Clone, Default)]
pub struct Layout {
    fields: Vec<Field>,
}

impl Layout {
    fn field(&mut self, width: u32, value: u32) {
        self.fields.push(Field::Of { width, value });
    }

    fn counts(&mut self, widths: (u32, u32), items: usize, links: usize) {
        self.field(widths.0, items as u32);
        self.field(widths.1, links as u32);
    }

    fn pairs(&mut self, width: u32, pairs: &[(u32, u32)]) {
        for &(from, to) in pairs {
            self.field(width, from);
            self.field(width, to);
        }
    }

    fn links(&mut self, width: u32, links: &[Link]) {
        for &(from, to, kind) in links {
            self.pairs(width, &[(from, to)]);
            self.field(KIND_WIDTH, kind);
        }
    }

    fn padding(&mut self) {
        self.fields.push(Field::Padding);
    }

    fn add_pattern(&mut self, pattern: &Pattern) {
        self.counts((5, 6), pattern.kinds.len(), pattern.links.len());
        for &kind in &pattern.kinds {
            self.field(5, kind);
        }
        self.links(4, &pattern.links);
        self.padding();
    }

    fn add_lists(&mut self, sheet: &Sheet) {
        for list in sheet {
            self.field(14, list.len() as u32);
            self.pairs(12, list);
        }
    }

    fn add_sheet(&mut self, sheet: &Sheet) {
        self.field(1, lists(sheet).into());
        if lists(sheet) {
            self.add_lists(sheet);
        }
        self.padding();
    }

    /// The same with the bit in front turned.
    fn add_turned(&mut self, sheet: &Sheet) {
        self.field(1, (!lists(sheet)).into());
        if lists(sheet) {
            self.add_lists(sheet);
        }
        self.padding();
    }

    /// Lists of which one at least has no pairs, after a 1.
    fn add_uneven(&mut self, sheet: &Sheet, empty: usize) {
        let mut sheet = sheet.clone();
        sheet[empty].clear();
        self.field(1, 1);
        self.add_lists(&sheet);
        self.padding();
    }

    /// A word for each field.
    pub fn content(&self) -> Vec<u32> {
        let values = self.fields.iter().filter_map(|field| match field {
            Field::Of { value, .. } => Some(*value),
            Field::Padding => None,
        });
        values.collect()
    }

    /// The fields, most significant bit first; of a value that is too large only its low bits.
    pub fn bytes(&self) -> Vec<u8> {
        let mut bytes = Vec::new();
        let mut held: u64 = 0;
        let mut bits = 0;
        for field in &self.fields {
            match *field {
                Field::Of { width, value } => {
                    held = held << width | u64::from(value) & ((1 << width) - 1);
                    bits += width;
                }
                Field::Padding => {
                    held <<= (8 - bits % 8) % 8;
                    bits = bits.div_ceil(8) * 8;
                }
            }
            while bits >= 8 {
                bits -= 8;
                bytes.push((held >> bits) as u8);
            }
        }
        if bits > 0 {
            bytes.push((held << (8 - bits)) as u8);
        }
        bytes
    }
}

pub fn of_pattern(pattern: &Pattern) -> Layout {
    let mut layout = Layout::default();
    layout.add_pattern(pattern);
    layout
}

/// Questions one after the other.
pub fn of_questions(questions: &[Pattern]) -> Layout {
    let mut layout = Layout::default();
    for question in questions {
        layout.add_pattern(question);
    }
    layout
}

pub fn of_catalogue(extracts: &[Pattern]) -> Layout {
    let mut layout = Layout::default();
    layout.field(5, extracts.len() as u32);
    layout.padding();
    for extract in extracts {
        layout.add_pattern(extract);
    }
    layout
}

/// A record's counts and items.
fn of_items(record: &Record) -> Layout {
    let mut layout = Layout::default();
    layout.counts((13, 14), record.kinds.len(), record.links.len());
    for &kinds in &record.kinds {
        layout.field(32, kinds);
    }
    layout
}

pub fn of_record(record: &Record) -> Layout {
    let mut layout = of_items(record);
    layout.links(12, &record.links);
    layout.padding();
    layout
}

/// A record as it was stored before links had kinds.
pub fn of_old_record(record: &Record) -> Layout {
    let mut layout = of_items(record);
    for &(from, to, _) in &record.links {
        layout.pairs(12, &[(from, to)]);
    }
    layout.padding();
    layout
}

/// Whether a sheet lists pairs. In a right one either all lists have some or none has.
fn lists(sheet: &Sheet) -> bool {
    sheet.iter().any(|list| !list.is_empty())
}

/// A book; a lone sheet is a book of one. One in so many has a fault that only sheets have: the bit in front of one is turned,
/// a list after a 1 has no pairs, or a byte follows a sheet for nothing found.
pub fn of_book(draw: &mut Draw, sheets: &[Sheet], faulty_one_in: usize) -> Layout {
    let mut layout = Layout::default();
    let faulty = (!sheets.is_empty() && draw.one_in(faulty_one_in)).then(|| draw.below(sheets.len()));
    for (i, sheet) in sheets.iter().enumerate() {
        if faulty != Some(i) {
            layout.add_sheet(sheet);
            continue;
        }
        match draw.below(3) {
            0 => layout.add_turned(sheet),
            1 => layout.add_uneven(sheet, draw.below(sheet.len())),
            _ => {
                layout.add_sheet(&vec![Vec::new(); sheet.len()]);
                layout.field(8, draw.of(&[0, 0, 1, 0x80]));
            }
        }
    }
    layout
}

// Damage.

/// A value near a bound of something, or any.
fn draw_value(draw: &mut Draw, value: u32) -> u32 {
    match draw.below(6) {
        0 => value.wrapping_add(1),
        1 => value.wrapping_sub(1),
        2 => 0,
        3 => draw.of(&[
            7,
            8,
            15,
            16,
            17,
            31,
            32,
            33,
            63,
            64,
            4_095,
            4_096,
            4_097,
            8_191,
            8_192,
            8_193,
            16_384,
            5_000,
            u32::MAX,
        ]),
        4 => draw.below(32) as u32,
        _ => draw.word(),
    }
}

/// A link's kind changed, or changed with that of another; or a link that becomes another in all three fields or in two. Where
/// there are no links, nothing.
fn damage_links(draw: &mut Draw, fields: &mut [Field]) {
    let is_kind = |field: &Field| matches!(field, Field::Of { width: KIND_WIDTH, .. });
    let kinds: Vec<usize> = (0..fields.len()).filter(|&at| is_kind(&fields[at])).collect();
    if kinds.is_empty() {
        return;
    }
    let (at, other) = (draw.of(&kinds), draw.of(&kinds));
    match draw.below(8) {
        form @ 0..=2 => {
            if let Field::Of { value, .. } = &mut fields[at] {
                *value = if form == 0 { draw_value(draw, *value) } else { *value ^ 1 << draw.below(3) };
            }
        }
        3 => fields.swap(at, other),
        // A link's ends stand before its kind. All three fields, or all but one, become those of the other link.
        form => {
            for i in 0..3 {
                if form - 4 != i {
                    fields[at - i] = fields[other - i];
                }
            }
        }
    }
}

/// One field changed, left out, put in twice, or made equal to another; or the end cut off; or links damaged.
fn damage_fields(draw: &mut Draw, layout: &mut Layout) {
    let fields = &mut layout.fields;
    if fields.is_empty() {
        return;
    }
    if draw.one_in(4) {
        return damage_links(draw, fields);
    }
    let at = draw.below(fields.len());
    let other = draw.below(fields.len());
    match draw.below(8) {
        0..=2 => {
            if let Field::Of { value, .. } = &mut fields[at] {
                *value = draw_value(draw, *value);
            }
        }
        3 => {
            fields.remove(at);
        }
        4 => fields.insert(at, fields[other]),
        5 => fields.swap(at, other),
        6 => fields.truncate(at),
        // The two ends of a link, or of a pair, become those of another.
        _ => {
            for i in 0..2 {
                if at + i < fields.len() && other + i < fields.len() {
                    fields[at + i] = fields[other + i];
                }
            }
        }
    }
}

/// A bit turned, a byte changed, bytes cut off or put to the end, up to more than the most of any file.
fn damage_bytes(draw: &mut Draw, bytes: &mut Vec<u8>, most: usize) {
    match draw.below(8) {
        0 => bytes.truncate(bytes.len().saturating_sub(1)),
        1 => bytes.truncate(draw.below(bytes.len() + 1)),
        2 => bytes.push(draw.of(&[0, 0, 1, 0x80])),
        3 => bytes.extend((0..draw.within(1, 9)).map(|_| 0)),
        4 if draw.one_in(4) => bytes.resize(most + draw.below(3), 0),
        _ if bytes.is_empty() => (),
        5 => {
            let at = draw.below(bytes.len());
            bytes[at] = draw.word() as u8;
        }
        _ => {
            let bit = draw.below(8 * bytes.len());
            bytes[bit / 8] ^= 128 >> (bit % 8);
        }
    }
}

/// The file: one in so many is damaged, in its fields or in its bytes.
pub fn file(draw: &mut Draw, mut layout: Layout, one_in: usize, most: usize) -> Vec<u8> {
    if !draw.one_in(one_in) {
        return layout.bytes();
    }
    if draw.one_in(2) {
        damage_fields(draw, &mut layout);
        return layout.bytes();
    }
    let mut bytes = layout.bytes();
    damage_bytes(draw, &mut bytes, most);
    bytes
}

/// The content for a writer: one in so many is damaged.
pub fn content(draw: &mut Draw, mut layout: Layout, one_in: usize) -> Vec<u32> {
    if draw.one_in(one_in) {
        damage_fields(draw, &mut layout);
    }
    layout.content()
}
