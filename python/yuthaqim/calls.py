"""The calls of include/yuthaqim.h on bytes: each gives bytes or numbers, or raises Refused.

No other module touches memory.
"""

from __future__ import annotations

from array import array
from typing import Any, NamedTuple, Sequence

from _yuthaqim import ffi, lib

from . import explain


class Refused(Exception):
    """The library refuses, by a number and a detail; `sentence` says what the number means."""

    def __init__(self, number: int, detail: int, sentence: str = ""):
        self.number, self.detail = number, detail
        self.sentence = sentence or explain.sentence(number, detail)

    def __str__(self) -> str:
        return self.sentence


class Quote(NamedTuple):
    covered: bool
    links: int  # those of the question
    chosen: int  # a set of extracts, as each below: the bit worth 2^a says extract a
    lowest: int  # the lowest unmatched link, if it isn't covered
    mapping: tuple[int, ...]  # at 16 * e + a, the bit worth 2^b: link b of extract a matches link e of the question


class Cheapest(NamedTuple):
    sum: int
    set: int
    chosen: int


class Term(NamedTuple):
    start: int  # the first day on which the extract is in force
    end: int  # the first after that on which it isn't


class Several(NamedTuple):
    answers: bytes
    sheets: int


class State(NamedTuple):
    """The running state beside a record."""

    links: int  # how many the record has
    change: int  # the number of its last change


class Slip(NamedTuple):
    """A link that is to enter a record, and the change number of the state that it was asked by."""

    start: int
    end: int
    kind: int
    change: int


class Asked(NamedTuple):
    changes: int  # the set of the extracts whose lists the link would change
    slip: Slip


class Entered(NamedTuple):
    record: bytes
    entries: list[int]  # of its index
    state: State


# What is lent.

_CODES = {"uint16_t": "H", "uint32_t": "I"}  # as arrays call them


def _bytes(data: bytes) -> tuple[Any, int]:
    return ffi.from_buffer("uint8_t[]", data), len(data)


def _numbers(of: str, numbers: Sequence[int]) -> tuple[Any, int]:
    return ffi.from_buffer(of + "[]", array(_CODES[of], numbers or (0,))), len(numbers)


def _work() -> tuple[Any, int]:
    return ffi.new("uint32_t[]", lib.YUTHAQIM_WORK_WORDS), lib.YUTHAQIM_WORK_WORDS


def _terms(terms: Sequence[Term]) -> Any:
    return lib.yuthaqim_spread_terms(
        ffi.new("struct yuthaqim_term[]", [tuple(term) for term in terms] or 1), len(terms)
    )


# What comes back.


def _accepted(answer: Any) -> Any:
    if answer.number:
        raise Refused(answer.number, answer.value if hasattr(answer, "value") else answer.detail)
    return answer


def _out(call: Any, most: int, *lent: Any) -> bytes:
    """The bytes that a call with one output writes."""
    out = ffi.new("uint8_t[]", most)
    return bytes(ffi.buffer(out, _accepted(call(*lent, out, most, *_work())).value))


def _two_out(call: Any, first_most: int, second_most: int, *lent: Any) -> tuple[bytes, bytes]:
    first, second = ffi.new("uint8_t[]", first_most), ffi.new("uint8_t[]", second_most)
    answer = _accepted(call(*lent, first, first_most, second, second_most, *_work()))
    return bytes(ffi.buffer(first, answer.first)), bytes(ffi.buffer(second, answer.second))


def _numbers_out(call: Any, of: str, most: int, *lent: Any) -> array[int]:
    out = array(_CODES[of], bytes(most * ffi.sizeof(of)))
    number = _accepted(call(*lent, ffi.from_buffer(of + "[]", out), most, *_work())).value
    return out[:number]


def _quote(answer: Any) -> Quote:
    _accepted(answer)
    return Quote(bool(answer.covered), answer.edges, answer.chosen, answer.lowest, tuple(answer.mapping))


def _cheapest(answer: Any) -> Cheapest:
    _accepted(answer)
    return Cheapest(answer.sum, answer.set, answer.chosen)


# Reading and writing: files, and their content as a list of numbers.


def read_pattern(pattern: bytes) -> array[int]:
    return _numbers_out(lib.yuthaqim_read_pattern, "uint32_t", lib.YUTHAQIM_PATTERN_WORDS, *_bytes(pattern))


def read_catalogue(catalogue: bytes) -> array[int]:
    return _numbers_out(lib.yuthaqim_read_catalogue, "uint32_t", lib.YUTHAQIM_CATALOGUE_WORDS, *_bytes(catalogue))


def read_record(record: bytes) -> array[int]:
    return _numbers_out(lib.yuthaqim_read_record, "uint32_t", lib.YUTHAQIM_RECORD_WORDS, *_bytes(record))


def read_sheet(pattern: bytes, sheet: bytes) -> array[int]:
    lent = *_bytes(pattern), *_bytes(sheet)
    return _numbers_out(lib.yuthaqim_read_sheet, "uint32_t", lib.YUTHAQIM_SHEET_WORDS, *lent)


def read_book(catalogue: bytes, book: bytes) -> array[int]:
    lent = *_bytes(catalogue), *_bytes(book)
    return _numbers_out(lib.yuthaqim_read_book, "uint32_t", lib.YUTHAQIM_BOOK_WORDS, *lent)


def write_pattern(fields: Sequence[int]) -> bytes:
    return _out(lib.yuthaqim_write_pattern, lib.YUTHAQIM_PATTERN_BYTES, *_numbers("uint32_t", fields))


def write_catalogue(fields: Sequence[int]) -> bytes:
    return _out(lib.yuthaqim_write_catalogue, lib.YUTHAQIM_CATALOGUE_BYTES, *_numbers("uint32_t", fields))


def write_record(fields: Sequence[int]) -> bytes:
    return _out(lib.yuthaqim_write_record, lib.YUTHAQIM_RECORD_BYTES, *_numbers("uint32_t", fields))


def write_sheet(pattern: bytes, fields: Sequence[int]) -> bytes:
    lent = *_bytes(pattern), *_numbers("uint32_t", fields)
    return _out(lib.yuthaqim_write_sheet, lib.YUTHAQIM_SHEET_BYTES, *lent)


def write_book(catalogue: bytes, fields: Sequence[int]) -> bytes:
    lent = *_bytes(catalogue), *_numbers("uint32_t", fields)
    return _out(lib.yuthaqim_write_book, lib.YUTHAQIM_BOOK_BYTES, *lent)


def sort_record(old: bytes) -> bytes:
    return _out(lib.yuthaqim_sort_record, lib.YUTHAQIM_RECORD_BYTES, *_bytes(old))


# Searching.


def search(pattern: bytes, record: bytes) -> bytes:
    return _out(lib.yuthaqim_search, lib.YUTHAQIM_SHEET_BYTES, *_bytes(pattern), *_bytes(record))


def make_index(record: bytes) -> array[int]:
    return _numbers_out(lib.yuthaqim_make_index, "uint16_t", lib.YUTHAQIM_INDEX_ENTRIES, *_bytes(record))


def check_index(record: bytes, index: Sequence[int]) -> int:
    """The number of entries of an index that is the record's own."""
    answer = lib.yuthaqim_check_index(*_bytes(record), *_numbers("uint16_t", index), *_work())
    return int(_accepted(answer).value)


def search_indexed(pattern: bytes, record: bytes, index: Sequence[int]) -> bytes:
    lent = *_bytes(pattern), *_bytes(record), *_numbers("uint16_t", index)
    return _out(lib.yuthaqim_search_indexed, lib.YUTHAQIM_SHEET_BYTES, *lent)


# By extracts. Each takes a catalogue and a set of its extracts, those that are matched one-way.


def make_book(catalogue: bytes, one_way: int, record: bytes) -> bytes:
    return _out(lib.yuthaqim_make_book, lib.YUTHAQIM_BOOK_BYTES, *_bytes(catalogue), one_way, *_bytes(record))


def quote(question: bytes, catalogue: bytes, one_way: int) -> Quote:
    return _quote(lib.yuthaqim_quote(*_bytes(question), *_bytes(catalogue), one_way, *_work()))


def cheapest(question: bytes, catalogue: bytes, one_way: int, charges: Sequence[int]) -> Cheapest:
    lent = *_bytes(question), *_bytes(catalogue), one_way, *_numbers("uint32_t", charges)
    return _cheapest(lib.yuthaqim_cheapest(*lent, *_work()))


def answer(question: bytes, catalogue: bytes, one_way: int, book: bytes) -> bytes:
    lent = *_bytes(question), *_bytes(catalogue), one_way, *_bytes(book)
    return _out(lib.yuthaqim_answer, lib.YUTHAQIM_SHEET_BYTES, *lent)


def answer_from(question: bytes, catalogue: bytes, one_way: int, extracts: int, book: bytes) -> bytes:
    lent = *_bytes(question), *_bytes(catalogue), one_way, extracts, *_bytes(book)
    return _out(lib.yuthaqim_answer_from, lib.YUTHAQIM_SHEET_BYTES, *lent)


def answer_several(questions: bytes, number: int, catalogue: bytes, one_way: int, book: bytes) -> Several:
    most = lib.YUTHAQIM_QUESTIONS_MOST * lib.YUTHAQIM_SHEET_BYTES
    out = ffi.new("uint8_t[]", most)
    lent = *_bytes(questions), number, *_bytes(catalogue), one_way, *_bytes(book)
    answer = _accepted(lib.yuthaqim_answer_several(*lent, out, most, *_work()))
    return Several(bytes(ffi.buffer(out, answer.bytes)), answer.sheets)


def part(question: bytes, catalogue: bytes, one_way: int, book: bytes) -> tuple[bytes, bytes]:
    """The part of the question that can be had, and its answer."""
    lent = *_bytes(question), *_bytes(catalogue), one_way, *_bytes(book)
    return _two_out(lib.yuthaqim_part, lib.YUTHAQIM_PATTERN_BYTES, lib.YUTHAQIM_SHEET_BYTES, *lent)


def show_uncovered(question: bytes, catalogue: bytes, one_way: int) -> tuple[bytes, bytes]:
    lent = *_bytes(question), *_bytes(catalogue), one_way
    return _two_out(lib.yuthaqim_show_uncovered, lib.YUTHAQIM_RECORD_BYTES, lib.YUTHAQIM_RECORD_BYTES, *lent)


# For a day. Each takes a catalogue, that set, and the terms of its extracts.


def quote_on(question: bytes, catalogue: bytes, one_way: int, terms: Sequence[Term], day: int) -> Quote:
    lent = *_bytes(question), *_bytes(catalogue), one_way, _terms(terms), day
    return _quote(lib.yuthaqim_quote_on(*lent, *_work()))


def cheapest_on(
    question: bytes, catalogue: bytes, one_way: int, terms: Sequence[Term], day: int, charges: Sequence[int]
) -> Cheapest:
    lent = *_bytes(question), *_bytes(catalogue), one_way, _terms(terms), day, *_numbers("uint32_t", charges)
    return _cheapest(lib.yuthaqim_cheapest_on(*lent, *_work()))


def part_on(
    question: bytes, catalogue: bytes, one_way: int, terms: Sequence[Term], day: int, book: bytes
) -> tuple[bytes, bytes]:
    lent = *_bytes(question), *_bytes(catalogue), one_way, _terms(terms), day, *_bytes(book)
    return _two_out(lib.yuthaqim_part_on, lib.YUTHAQIM_PATTERN_BYTES, lib.YUTHAQIM_SHEET_BYTES, *lent)


def show_on(question: bytes, catalogue: bytes, one_way: int, terms: Sequence[Term], day: int) -> tuple[bytes, bytes]:
    lent = *_bytes(question), *_bytes(catalogue), one_way, _terms(terms), day
    return _two_out(lib.yuthaqim_show_on, lib.YUTHAQIM_RECORD_BYTES, lib.YUTHAQIM_RECORD_BYTES, *lent)


def first_day(question: bytes, catalogue: bytes, one_way: int, terms: Sequence[Term], day: int) -> int | None:
    lent = *_bytes(question), *_bytes(catalogue), one_way, _terms(terms), day
    answer = _accepted(lib.yuthaqim_first_day(*lent, *_work()))
    return answer.day if answer.found else None


# First see, then enter.


def _struct(of: str, fields: Sequence[int]) -> Any:
    return ffi.new(f"struct yuthaqim_{of} *", list(fields))


def ask(catalogue: bytes, one_way: int, record: bytes, state: State, link: Sequence[int]) -> Asked:
    """Which extracts' lists a link, its from, to and kind, would change."""
    lent = *_bytes(catalogue), one_way, *_bytes(record), _struct("state", state)[0], _struct("link", link)[0]
    asked = _accepted(lib.yuthaqim_ask(*lent, *_work()))
    slip = asked.slip
    return Asked(asked.set, Slip(getattr(slip, "from"), slip.to, slip.kind, slip.change))


def commit(record: bytes, state: State, slip: Slip) -> Entered:
    """The record with the link of a slip, its index, and the state that goes with it."""
    running = _struct("state", state)
    out, index = ffi.new("uint8_t[]", lib.YUTHAQIM_RECORD_BYTES), ffi.new("uint16_t[]", lib.YUTHAQIM_INDEX_ENTRIES)
    lent = *_bytes(record), running, _struct("slip", slip)[0]
    room = out, lib.YUTHAQIM_RECORD_BYTES, index, lib.YUTHAQIM_INDEX_ENTRIES
    entered = _accepted(lib.yuthaqim_commit(*lent, *room, *_work()))
    entries = list(ffi.unpack(index, entered.second))
    return Entered(bytes(ffi.buffer(out, entered.first)), entries, State(running.links, running.change))
