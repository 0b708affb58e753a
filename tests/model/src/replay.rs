//! The file of cases that the program `replay` reads, and what it has to print. Each instruction is written and obeyed:
//! the model keeps the same memory, makes the same calls of its own, and counts and prints alike.

mod calls;
mod counts;
mod outcome;

use crate::entering::{Slip, State};
use crate::files::*;
use crate::rule::{Drawn, Lists, Pairs};
use counts::Counts;
use outcome::{Output, DIGEST_START};
use std::fmt::Write;

pub use calls::*;
pub use outcome::{Form, Outcome};

/// The registers.
pub const START: usize = 0;
pub const END: usize = 8;
pub const ROOM: usize = 16;
pub const SECOND: usize = 17;
pub const WORK: usize = 18;
pub const CONTENT: usize = 19;
pub const STRIDE: usize = 20;
const SEED: usize = 21;
const ITEMS: usize = 22;
const LINKS: usize = 23;
const KIND: usize = 24;
const KINDS: usize = 25;
const ITEM_FORM: usize = 26;
const LINK_FORM: usize = 27;
const LEAST: usize = 28;
const MOST: usize = 29;
const FIRST: usize = 30;
const STEP: usize = 31;
const GAP: usize = 32;
const LINK_KIND: usize = 33;
const LINK_KINDS: usize = 34;
const KIND_FORM: usize = 35;
pub const SET: usize = 36;
pub const QUESTIONS: usize = 37;
pub const DAY: usize = 38;
pub const ONE_WAY: usize = 39;
pub const STATE_LINKS: usize = 40;
pub const STATE_CHANGE: usize = 41;
pub const LINK_FROM: usize = 42;
pub const LINK_TO: usize = 43;
pub const LINK_OF: usize = 44;
pub const SLIP_CHANGE: usize = 45;
const REGISTERS: usize = 64;

/// The instructions.
const BYTES: usize = 64;
const KEEP: usize = 72;
const FLIP: usize = 73;
const PACK: usize = 74;
const PACK_OLD: usize = 75;
const FIELD: usize = 76;
const FIELDS: usize = 77;
const LISTS: usize = 78;
const SHEET: usize = 79;
const PAIRS: usize = 80;
const RECORD_CONTENT: usize = 81;
const HOLD: usize = 82;
const SAME: usize = 83;
const MATCH: usize = 84;
const NAME: usize = 85;
const OUTCOME: usize = 86;
const NAMED: usize = 87;
const GROUP: usize = 88;
const ALL: usize = 89;
const ONCE: usize = 96;
const ROUND: usize = 97;
const BOTH: usize = 98;
const CUTS: usize = 99;
const FLIPS: usize = 100;
const SHORT_BY_ONE: usize = 101;

/// The numbers that calls may have.
const NUMBERS: usize = 64;

/// The parts of the memory that the calls take: a pattern, a question or several, a catalogue, a record, a sheet, book or index, and
/// terms.
pub const QUESTION_PART: usize = 0;
pub const CATALOGUE_PART: usize = 1;
pub const RECORD_PART: usize = 2;
pub const BOOK_PART: usize = 3;
pub const TERMS_PART: usize = 4;

/// Where each part is laid by default, where the memory is zero for ever, where an index has room beside a book, and where the
/// names of the calls stand.
pub const PLACES: [usize; 5] = [0, 1_024, 4_096, 131_072, 130_048];
pub const ZEROS: usize = 49_152;
pub const INDEX_PLACE: usize = 118_784;
const NAMES: usize = 128_000;

/// What the program has.
const MEMORY: usize = 393_216;
const WORDS: usize = 524_321;
const OUTPUT: usize = 132_000;

/// The most that is lent by default. As room it is so many bytes or words.
pub const ROOM_MOST: usize = 66_000;
pub const WORK_MOST: usize = 16_400;

/// The cases so far, and what is printed so far.
pub struct Script {
    pub file: Vec<u8>,
    pub printed: String,
    memory: Vec<u8>,
    words: Vec<u32>,
    registers: [usize; REGISTERS],
    chosen: usize,
    last: Outcome,
    outcomes: u64,
    held: u64,
    compared: u64,
    equal: u64,
    group: Vec<Counts>,
    all: Vec<Counts>,
}

impl Script {
    pub fn new() -> Script {
        let mut script = Script {
            file: Vec::new(),
            printed: String::new(),
            memory: vec![0; MEMORY],
            words: vec![0; WORDS],
            registers: [0; REGISTERS],
            chosen: 0,
            last: Outcome { form: Form::Words, number: 0, value: 0, other: 0, digest: 0, output: Output::Nothing },
            outcomes: 0,
            held: 0,
            compared: 0,
            equal: 0,
            group: vec![Counts::new(); NUMBERS],
            all: vec![Counts::new(); NUMBERS],
        };
        script.names();
        script
    }

    // What is written.

    /// A value over 251 stands in bytes of its own, the least first: one after 252, up to four after 255.
    fn instruction(&mut self, number: usize, value: usize) {
        let value = u32::try_from(value).unwrap();
        let bytes = value.to_le_bytes();
        self.file.push(u8::try_from(number).unwrap());
        match 4 - value.leading_zeros() / 8 {
            _ if value < 252 => self.file.push(bytes[0]),
            count => {
                self.file.push(251 + count as u8);
                self.file.extend(&bytes[..count as usize]);
            }
        }
    }

    /// The names of the calls, each in 32 bytes: its length, then itself.
    fn names(&mut self) {
        for Call { number, name, .. } in ROWS {
            assert!(name.len() < 32);
            self.bytes_at(QUESTION_PART, NAMES + 32 * number, &[&[name.len() as u8], name.as_bytes()].concat());
        }
    }

    /// Sets a register, unless it has the value.
    pub fn set(&mut self, register: usize, value: usize) {
        if self.registers[register] != value {
            self.instruction(register, value);
            self.registers[register] = value;
        }
    }

    pub fn register(&self, register: usize) -> usize {
        self.registers[register]
    }

    /// A part of the memory becomes one that starts and ends so.
    pub fn place(&mut self, part: usize, start: usize, end: usize) {
        self.set(START + part, start);
        self.set(END + part, end);
    }

    /// Bytes become a part, at its place.
    pub fn bytes(&mut self, part: usize, bytes: &[u8]) {
        self.bytes_at(part, PLACES[part], bytes);
    }

    fn bytes_at(&mut self, part: usize, start: usize, bytes: &[u8]) {
        self.set(START + part, start);
        self.instruction(BYTES + part, bytes.len());
        self.file.extend(bytes);
        let end = start + bytes.len();
        self.memory[start..end].copy_from_slice(bytes);
        self.registers[END + part] = end;
    }

    /// A part becomes empty, at its place.
    pub fn empty(&mut self, part: usize) {
        self.place(part, PLACES[part], PLACES[part]);
    }

    /// What the last call wrote is added to a part, which grows by that or by what it needed.
    pub fn keep(&mut self, part: usize) {
        self.instruction(KEEP, part);
        let end = self.registers[END + part];
        if let Output::Bytes(bytes) = &self.last.output {
            for (i, &byte) in bytes.iter().enumerate() {
                if end + i < MEMORY {
                    self.memory[end + i] = byte;
                }
            }
        }
        self.registers[END + part] += self.last.needed().max(self.last.written());
    }

    /// Fields are added to the content: those that are bytes together, the others one by one.
    pub fn fields(&mut self, fields: &[u32]) {
        for alike in fields.chunk_by(|a, b| *a < 256 && *b < 256) {
            match alike {
                [field] => self.instruction(FIELD, *field as usize),
                _ => alike.chunks(256).for_each(|bytes| self.small_fields(bytes)),
            }
        }
        self.add(fields);
    }

    fn small_fields(&mut self, fields: &[u32]) {
        self.instruction(FIELDS, fields.len());
        self.file.extend(fields.iter().map(|&field| field as u8));
    }

    /// These fields become the content.
    pub fn content(&mut self, fields: &[u32]) {
        self.set(CONTENT, 0);
        self.fields(fields);
    }

    /// A field of the content becomes another.
    pub fn change(&mut self, place: usize, field: u32) {
        let count = self.registers[CONTENT];
        self.set(CONTENT, place);
        self.fields(&[field]);
        self.set(CONTENT, count);
    }

    fn add(&mut self, fields: &[u32]) {
        let count = self.registers[CONTENT];
        self.words[count..count + fields.len()].copy_from_slice(fields);
        self.registers[CONTENT] += fields.len();
    }

    pub fn seed(&mut self, seed: u32) {
        self.set(SEED, seed as usize);
    }

    /// So many lists are added to the content.
    pub fn lists(&mut self, number: usize, lists: Lists) {
        self.set_lists(lists);
        self.instruction(LISTS, number);
        self.add_lists(number, lists);
    }

    /// The content becomes that of a sheet: 0 where nothing was found, else 1 and so many lists.
    pub fn sheet(&mut self, number: usize, lists: Lists) {
        self.set_lists(lists);
        self.instruction(SHEET, number);
        self.registers[CONTENT] = 0;
        self.add(&[number.min(1) as u32]);
        self.add_lists(number, lists);
    }

    fn set_lists(&mut self, lists: Lists) {
        for (register, value) in [
            (LEAST, lists.least),
            (MOST, lists.most),
            (FIRST, lists.first),
            (STEP, lists.step),
            (GAP, lists.gap),
            (ITEMS, lists.items),
        ] {
            self.set(register, value);
        }
    }

    fn add_lists(&mut self, number: usize, lists: Lists) {
        let mut state = self.registers[SEED] as u32;
        for _ in 0..number {
            self.add(&lists.content(&mut state));
        }
        self.registers[SEED] = state as usize;
    }

    /// The content becomes that of a record, the pairs of its links ascending or as they are drawn.
    pub fn record(&mut self, drawn: Drawn, ascending: bool) {
        for (register, value) in [
            (SEED, drawn.seed as usize),
            (ITEMS, drawn.items),
            (LINKS, drawn.links),
            (KIND, drawn.kind),
            (KINDS, drawn.kinds),
            (ITEM_FORM, drawn.item_form),
            (LINK_FORM, drawn.link_form),
            (LINK_KIND, drawn.link_kind),
            (LINK_KINDS, drawn.link_kinds),
            (KIND_FORM, drawn.kind_form),
        ] {
            self.set(register, value);
        }
        self.instruction(RECORD_CONTENT, usize::from(!ascending));
        self.registers[CONTENT] = 0;
        self.add(&drawn.content(ascending));
    }

    /// The content, which is that of a record, becomes a part whatever it says.
    pub fn pack(&mut self, part: usize) {
        self.lay_packed(part, PACK, pack_record);
    }

    /// The same as it was stored before links had an order and kinds, so without their kinds.
    pub fn pack_old(&mut self, part: usize) {
        self.lay_packed(part, PACK_OLD, pack_old_record);
    }

    fn lay_packed(&mut self, part: usize, instruction: usize, packed: impl Fn(&[u32]) -> Vec<u8>) {
        self.set(START + part, PLACES[part]);
        self.instruction(instruction, part);
        let file = packed(&self.words[..self.registers[CONTENT]]);
        let end = PLACES[part] + file.len();
        self.memory[PLACES[part]..end].copy_from_slice(&file);
        self.registers[END + part] = end;
    }

    /// The content becomes pairs of a join.
    pub fn pairs(&mut self, pairs: Pairs) {
        for (register, value) in [
            (SEED, pairs.seed as usize),
            (ITEMS, pairs.items),
            (FIRST, pairs.first),
            (STEP, pairs.step),
            (GAP, pairs.gap),
            (LINK_FORM, pairs.form),
        ] {
            self.set(register, value);
        }
        self.instruction(PAIRS, pairs.count);
        self.registers[CONTENT] = 0;
        self.add(&pairs.content());
    }

    /// One bit of a part is turned.
    pub fn flip(&mut self, part: usize, bit: usize) {
        let bit = self.registers[START + part] * 8 + bit;
        self.instruction(FLIP, bit);
        self.memory[bit / 8] ^= 128 >> (bit % 8);
    }

    /// What the model has in a part.
    pub fn part(&self, part: usize) -> &[u8] {
        let end = self.registers[END + part].min(MEMORY);
        &self.memory[self.registers[START + part].min(end)..end]
    }

    /// Whether the last call was accepted.
    pub fn is_accepted(&self) -> bool {
        self.last.number == 0
    }

    /// What the last call answered.
    pub fn last(&self) -> &Outcome {
        &self.last
    }

    /// The number of the last call's refusal.
    pub fn refusal(&self) -> Option<u32> {
        (self.last.number != 0).then_some(self.last.number as u32)
    }

    /// The lengths of the two outputs of the last call: bytes, and of a commit's second one entries.
    pub fn lengths(&self) -> (usize, usize) {
        (self.last.value as usize, self.last.other as usize)
    }

    /// The content after a reader.
    pub fn content_now(&self) -> &[u32] {
        &self.words[..self.registers[CONTENT]]
    }

    // Calls.

    fn answered(&self, call: usize) -> Outcome {
        let [question, catalogue, record, book, terms] = [0, 1, 2, 3, 4].map(|part| self.part(part));
        let number = |register: usize| self.registers[register] as u32;
        (row(call).answer)(&Lent {
            question,
            catalogue,
            record,
            book,
            terms,
            content: &self.words[..self.registers[CONTENT].min(WORDS)],
            one_way: self.registers[ONE_WAY] as u16,
            set: self.registers[SET] as u16,
            number: number(QUESTIONS),
            day: self.registers[DAY] as u16,
            state: State { links: number(STATE_LINKS), change: number(STATE_CHANGE) },
            slip: Slip { link: (number(LINK_FROM), number(LINK_TO), number(LINK_OF)), change: number(SLIP_CHANGE) },
            words: self.registers[ROOM].min(WORDS),
            room: self.registers[ROOM].min(OUTPUT),
            second: self.registers[SECOND],
            work: self.registers[WORK].min(WORK_MOST),
        })
    }

    fn make(&mut self, call: usize) {
        self.take(call, self.answered(call));
    }

    fn take(&mut self, call: usize, outcome: Outcome) {
        self.group[call].add(&outcome);
        self.all[call].add(&outcome);
        self.outcomes = outcome.over(self.outcomes);
        if is_reader(call) {
            self.registers[CONTENT] = outcome.written();
        }
        if call == PLAIN {
            self.registers[CONTENT] = 0;
        }
        if let Output::Words(words) = &outcome.output {
            self.words[..words.len()].copy_from_slice(words);
        }
        self.last = outcome;
    }

    /// A reader's call on a damaged file: what it accepts is written back, which has to give the same bytes, or those of a
    /// catalogue without extracts for an empty one.
    fn make_and_write_back(&mut self, call: usize) {
        self.make(call);
        if is_reader(call) && self.last.number == 0 {
            self.make(writer(call));
            let file = self.part(part_of(call));
            let file = if call == READ_CATALOGUE && file.is_empty() { &[0] } else { file };
            assert_eq!(self.last.output, Output::Bytes(file.to_vec()));
        }
    }

    fn begin(&mut self, instruction: usize, value: usize) {
        self.instruction(instruction, value);
        self.outcomes = DIGEST_START;
    }

    /// The states of a join of the question from the pairs that are the content.
    pub fn steps(&mut self) {
        self.set(LINKS, judge_pattern(self.part(QUESTION_PART)).unwrap().links.len());
        self.once(STEPS);
    }

    /// A single call.
    pub fn once(&mut self, call: usize) {
        self.begin(ONCE, call);
        self.chosen = call;
        self.make(call);
    }

    /// A call as the registers say; with a byte or word less than it needs; with too few words to work in; with just what
    /// it needs. Where it has two outputs, a byte less is lent for the second alone before that.
    pub fn round(&mut self, call: usize) {
        let outcome = self.answered(call);
        let both = matches!(outcome.form, Form::Both | Form::Entered);
        self.begin(if both { BOTH } else { ROUND }, call);
        self.chosen = call;
        let registers = self.registers;
        self.take(call, outcome);
        let (first, second) = (self.last.needed(), self.last.other as usize);
        self.registers[ROOM] = first.saturating_sub(1);
        self.registers[SECOND] = second.saturating_sub(1);
        self.make(call);
        self.registers[WORK] = WORK_WORDS - 1;
        self.make(call);
        self.registers[WORK] = WORK_WORDS;
        self.registers[ROOM] = first;
        self.make(call);
        if both {
            self.registers[SECOND] = second;
            self.make(call);
        }
        for register in [ROOM, SECOND, WORK] {
            self.registers[register] = registers[register];
        }
    }

    /// The same call with a part cut to every length, so many bytes on each time.
    pub fn cuts(&mut self, part: usize, stride: usize) {
        self.set(STRIDE, stride);
        self.begin(CUTS, part);
        let end = self.registers[END + part];
        for cut in (self.registers[START + part]..end).step_by(stride) {
            self.registers[END + part] = cut;
            self.make_and_write_back(self.chosen);
        }
        self.registers[END + part] = end;
    }

    /// The same call with each bit of a part turned, so many on each time.
    pub fn flips(&mut self, part: usize, stride: usize) {
        self.set(STRIDE, stride);
        self.begin(FLIPS, part);
        let (start, end) = (self.registers[START + part], self.registers[END + part]);
        for bit in (8 * start..8 * end).step_by(stride) {
            self.memory[bit / 8] ^= 128 >> (bit % 8);
            self.make_and_write_back(self.chosen);
            self.memory[bit / 8] ^= 128 >> (bit % 8);
        }
    }

    /// The same call with a part that lacks its last byte.
    pub fn short(&mut self, part: usize) {
        self.begin(SHORT_BY_ONE, part);
        let end = self.registers[END + part];
        self.registers[END + part] = (end - 1).max(self.registers[START + part]);
        self.make_and_write_back(self.chosen);
        self.registers[END + part] = end;
    }

    // Comparing.

    pub fn hold(&mut self) {
        self.instruction(HOLD, 0);
        self.held = self.outcomes;
    }

    /// The outcomes of the last instruction are those that are held.
    pub fn same(&mut self) {
        self.instruction(SAME, 0);
        self.compared += 1;
        self.equal += u64::from(self.held == self.outcomes);
        assert_eq!(self.held, self.outcomes);
    }

    /// What the last call wrote is a part, or would be so long.
    pub fn matches(&mut self, part: usize) {
        self.instruction(MATCH, part);
        let size = self.registers[END + part] - self.registers[START + part];
        let fits = match &self.last.output {
            Output::Bytes(bytes) => bytes == self.part(part),
            _ => self.last.number == 12,
        };
        assert!(fits && self.last.value == size as u64);
        self.compared += 1;
        self.equal += 1;
    }

    // Printing.

    pub fn name(&mut self, name: &str) {
        assert!(name.len() <= 256);
        self.instruction(NAME, name.len());
        self.file.extend(name.as_bytes());
        self.printed += name;
    }

    /// The last outcome: a short output whole, a long one by its digest.
    pub fn outcome(&mut self) {
        self.instruction(OUTCOME, 0);
        self.print_outcome();
    }

    /// The same after the call's name.
    pub fn named_outcome(&mut self) {
        self.instruction(NAMED, 0);
        self.printed += &format!("  {}: ", row(self.chosen).name);
        self.print_outcome();
    }

    fn print_outcome(&mut self) {
        let Outcome { form, number, value, other, digest, output } = &self.last;
        let mut line = match (number, form) {
            (0, Form::Words) => format!("{value} words"),
            (0, Form::Bytes | Form::Sheet) => format!("{value} bytes"),
            (0, Form::Entries) => format!("{value} entries"),
            (0, Form::Both) => format!("{value} and {other} bytes"),
            (0, Form::Entered) => format!("{value} bytes and {other} entries"),
            (0, Form::Several) => format!("{value} bytes, {other} sheets"),
            (0, Form::Quote) if *value == 1 => format!("covered, chosen {other}, digest {digest:016x}"),
            (0, Form::Quote) => format!("uncovered, lowest {other}, digest {digest:016x}"),
            (0, Form::Price) => format!("cost {value}, set {other}, digest {digest:016x}"),
            (0, Form::Asked) => format!("changes {value}, digest {digest:016x}"),
            (0, Form::Steps) => format!("{value} steps, digest {digest:016x}"),
            (0, Form::Day) if *value == 1 => format!("first day {other}, digest {digest:016x}"),
            (0, Form::Day) => format!("first day none, digest {digest:016x}"),
            _ => format!("refused {number} {value}"),
        };
        match output {
            _ if self.last.written() > 64 => write!(line, ", digest {digest:016x}").unwrap(),
            Output::Words(words) => words.iter().for_each(|word| write!(line, " {word}").unwrap()),
            Output::Bytes(bytes) => bytes.iter().for_each(|byte| write!(line, " {byte:02x}").unwrap()),
            Output::Nothing => (),
        }
        self.printed += &(line + "\n");
    }

    fn lines(&mut self, counts: Vec<Counts>, with_digest: bool) {
        for (call, counts) in counts.iter().enumerate() {
            if counts.calls != 0 {
                self.printed += &counts.line(row(call).name, with_digest);
            }
        }
        if self.compared != 0 {
            self.printed += &format!("  {} of {} agree\n", self.equal, self.compared);
        }
        self.compared = 0;
        self.equal = 0;
    }

    /// A line for each call of the group.
    pub fn group(&mut self) {
        self.instruction(GROUP, 0);
        let counts = std::mem::replace(&mut self.group, vec![Counts::new(); NUMBERS]);
        self.lines(counts, true);
    }

    /// A line for each call of all groups.
    pub fn all(&mut self) {
        self.instruction(ALL, 0);
        let counts = std::mem::replace(&mut self.all, vec![Counts::new(); NUMBERS]);
        self.lines(counts, false);
    }
}
