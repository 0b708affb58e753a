"""A campaign: what the library says of its question and its catalogue, in names."""

from __future__ import annotations

from datetime import date
from typing import TYPE_CHECKING, Any, Iterable, NamedTuple, Sequence

from . import calls, days, explain, files
from .faults import Fault, Faults, Place
from .folder import CHARGE, Folder, Read
from .kinds import Kinds
from .names import plain
from .packing import Catalogue, Pattern

if TYPE_CHECKING:
    from .lists import Held
    from .records import Book, Record, Sheet


class Match(NamedTuple):
    """A link of an extract that matches a link of the question."""

    extract: str
    link: int


class Quote(NamedTuple):
    covered: bool
    matches: tuple[tuple[Match, ...], ...]  # those of each link of the question
    chosen: tuple[str, ...]  # the extracts that answer it; none if it isn't covered
    day: date | None  # for which it was quoted, if for one


class Cheapest(NamedTuple):
    extracts: tuple[str, ...]
    cost: int  # in cents
    day: date | None


class Showing(NamedTuple):
    """Two records on which each extract lists the same, and the question doesn't."""

    first: Record
    second: Record
    lacking: int | None  # the link of the question that the second lacks
    day: date | None


class Answers(NamedTuple):
    """The sheets of several questions, and how many lists of the book they took."""

    sheets: dict[str, Sheet]
    lists: int


_TOGETHER = 8  # so many questions are answered in one call
_ANY_QUESTION = calls.write_pattern([1, 1, 0, 0, 0, 0])


class Campaign:
    """The question and the catalogue in a folder of people's files. Raises Faults where something is wrong with them.

    >>> campaign = Campaign("samples/people")
    >>> campaign.quote().chosen
    ('slow readings', 'fast readings')
    >>> campaign.cheapest().cost
    350

    Where the extracts have terms, each question that follows is for a day, or for any: then all extracts count.
    """

    def __init__(self, folder: str = ".", question: Read = Read.WANTED, record: Read = Read.NOT, several: bool = False):
        files.settle(folder)
        self._take(Folder(folder, question, record, several))

    @classmethod
    def of(cls, kinds: Kinds, question: Pattern, catalogue: Catalogue) -> Campaign:
        """A campaign that stands in no folder."""
        made = cls.__new__(cls)
        made._take(Folder.of(kinds, question, catalogue))
        return made

    def _take(self, found: Folder) -> None:
        self._found = found
        self.questions = found.questions  # those of `questions/`, by name, where several are read
        self.kinds, self.catalogue, self._table = found.kinds, found.catalogue, found.table
        self.notes = tuple(found.notes)
        self.offered = self.catalogue.packed, self.catalogue.one_way
        self._terms = self.catalogue.terms or ()
        if self._terms:
            self._judge_terms()

    @property
    def question(self) -> Pattern:
        if self._found.question is None:
            raise Faults([Fault(Place(self._found.path), "there is no question in it")])
        return self._found.question

    @property
    def has_question(self) -> bool:
        return self._found.question is not None

    @property
    def has_record(self) -> bool:
        """Whether the record is read already."""
        return self._found.record is not None

    @property
    def record(self) -> Record:
        return self._found.read_record()

    @property
    def _packed(self) -> tuple[bytes, bytes, int]:
        return self.question.packed, *self.offered

    def quote(self, day: date | None = None, any_day: bool = False, question: Pattern | None = None) -> Quote:
        """Whether the extracts cover the question, or another one, and by which links."""
        on = self._on(day, any_day)
        packed = (question or self.question).packed, *self.offered
        said = calls.quote(*packed) if on is None else calls.quote_on(*packed, self._terms, days.number(on))
        matches = (self._matches(said.mapping[16 * link : 16 * link + 16]) for link in range(said.links))
        return Quote(said.covered, tuple(matches), self.catalogue.named(said.chosen), on)

    def cheapest(self, day: date | None = None, any_day: bool = False) -> Cheapest:
        """The set of extracts that covers the question for the least; raises Refused where none does."""
        on = self._on(day, any_day)
        charges = [extract.charge for extract in self.catalogue.extracts if extract.charge is not None]
        if len(charges) < len(self.catalogue.extracts):
            raise Faults([self._table.lacks(CHARGE).fault])
        try:
            if on is None:
                said = calls.cheapest(*self._packed, charges)
            else:
                said = calls.cheapest_on(*self._packed, self._terms, days.number(on), charges)
        except calls.Refused as refused:
            if refused.number != 11:
                raise
            sentence = explain.uncovered(refused, self.question.link(refused.detail), on)
            raise calls.Refused(refused.number, refused.detail, sentence) from None
        return Cheapest(self.catalogue.named(said.set), said.sum, on)

    def part(self, day: date | None = None, any_day: bool = False) -> Pattern:
        """The part of the question that the extracts answer; raises Refused where they match none of its links."""
        on = self._on(day, any_day)
        # The part hangs on no book; the call takes one for the answer, so it gets that of a record without items.
        book = calls.make_book(self.catalogue.packed, self.catalogue.one_way, calls.write_record([0, 0]))
        try:
            if on is None:
                found, _ = calls.part(*self._packed, book)
            else:
                found, _ = calls.part_on(*self._packed, self._terms, days.number(on), book)
        except calls.Refused as refused:
            if refused.number != 11:
                raise
            raise calls.Refused(refused.number, refused.detail, explain.no_part(on)) from None
        return Pattern.unpack(found, self.kinds)

    def search(self, index: Sequence[int] | None = None) -> Sheet:
        """What the question lists on the record, by an index of the record too."""
        from .records import Sheet

        record = self.record
        if index is None:
            found = calls.search(self.question.packed, record.packed)
        else:
            found = calls.search_indexed(self.question.packed, record.packed, index)
        return Sheet.unpack(found, self.question, record.names)

    def make_book(self) -> Book:
        """The lists of the extracts, made from the record."""
        from .records import Book

        record = self.record
        try:
            made = calls.make_book(*self.offered, record.packed)
        except calls.Refused as refused:
            raise calls.Refused(refused.number, refused.detail, explain.of_book(refused)) from None
        return Book.unpack(made, self.catalogue, record.names)

    def chosen(self, extracts: Iterable[str] | None = None) -> tuple[str, ...]:
        """The extracts that answer the question: those that are named, or those that the library chooses."""
        if extracts is None:
            return self.catalogue.named(calls.quote(*self._packed).chosen)
        return self.catalogue.named(self.catalogue.numbered(extracts))

    def answer(self, extracts: Iterable[str] | None = None) -> Sheet:
        """The question's sheet from the book that `yuthaqim book` has made, by these extracts if some are named.

        Raises Refused where they don't cover the question, and Faults where the book is of another catalogue.
        """
        return self._answer(self.question, *self._book(), extracts)

    def answer_by_lists(self, folder: str, extracts: Iterable[str] | None = None) -> tuple[Sheet, tuple[str, ...]]:
        """The question's sheet from the lists in a folder, of these extracts if some are named, and whose they are."""
        held = self._held(folder, extracts)
        return self._answer(self.question, held.book, held.names, held.extracts), held.extracts

    def answer_several(self, extracts: Iterable[str] | None = None, folder: str | None = None) -> list[Answers]:
        """The sheets of all questions, in groups of at most eight, from the book or from the lists in a folder."""
        book, called = self._book() if folder is None else (b"", [])
        if folder is not None:
            held = self._held(folder, extracts)
            book, called, extracts = held.book, list(held.names), held.extracts
        by = None if extracts is None else self.chosen(extracts)
        names = list(self.questions)
        groups = [names[at : at + _TOGETHER] for at in range(0, len(names), _TOGETHER)]
        return [self._group({name: self.questions[name] for name in group}, book, called, by) for group in groups]

    def _book(self) -> tuple[bytes, list[str]]:
        from .packed import read_book

        return read_book(self._found.path, self.catalogue, self.kinds)

    def _held(self, folder: str, extracts: Iterable[str] | None) -> Held:
        from .lists import read_lists

        return read_lists(folder, self.catalogue, None if extracts is None else self.chosen(extracts))

    def _group(self, questions: dict[str, Pattern], book: bytes, called: Sequence[str], by: Any) -> Answers:
        """Each question by itself, so that one that isn't covered is named, and then all in one call for the lists."""
        sheets = {}
        for name, question in questions.items():
            try:
                sheets[name] = self._answer(question, book, called, by)
            except calls.Refused as refused:
                raise calls.Refused(refused.number, refused.detail, f"{plain(name)}: {refused.sentence}") from None
        if by is not None:
            return Answers(sheets, len(by))
        together = b"".join(question.packed for question in questions.values())
        return Answers(sheets, calls.answer_several(together, len(questions), *self.offered, book).sheets)

    def _answer(self, question: Pattern, book: bytes, called: Sequence[str], by: Iterable[str] | None) -> Sheet:
        """The sheet of a question from a book, by these extracts if some are named."""
        from .records import Sheet

        by = None if by is None else self.chosen(by)
        try:
            if by is None:
                found = calls.answer(question.packed, *self.offered, book)
            else:
                found = calls.answer_from(question.packed, *self.offered, self.catalogue.numbered(by), book)
        except calls.Refused as refused:
            if refused.number != 11:
                raise
            link = question.link(refused.detail)
            said = explain.uncovered(refused, link, None) if by is None else explain.unmatched(refused, link, by)
            raise calls.Refused(refused.number, refused.detail, said) from None
        return Sheet.unpack(found, question, called)

    def show(self, day: date | None = None, any_day: bool = False) -> Showing:
        """Why the question is uncovered; raises Refused where it is covered."""
        from .records import Record

        on = self._on(day, any_day)
        if on is None:
            shown = calls.show_uncovered(*self._packed)
        else:
            shown = calls.show_on(*self._packed, self._terms, days.number(on))
        called = self.question.item_names()
        first, second = (Record.unpack(one, self.kinds, called) for one in shown)
        lacking = set(first.links) - set(second.links)
        numbers = (number for number, link in enumerate(self.question.links) if link in lacking)
        return Showing(first, second, next(numbers, None), on)

    def first_day(self, day: date) -> date | None:
        """The first day, from the given one on, on which the question is covered; None if there is none."""
        self._on(day, False)
        found = calls.first_day(*self._packed, self._terms, days.number(day))
        return None if found is None else days.day(found)

    def _judge_terms(self) -> None:
        """The calls for a day judge terms, whatever the day: so all commands tell what is wrong with them."""
        try:
            calls.quote_on(_ANY_QUESTION, *self.offered, self._terms, 0)
        except calls.Refused as refused:
            if refused.number != 18:
                raise
            raise Faults([explain.of_terms(refused, self.catalogue.extracts)]) from None

    def _on(self, day: date | None, any_day: bool) -> date | None:
        """The day that counts; None where all extracts do."""
        if day is not None and self.catalogue.terms is None:
            raise Faults([self._table.lacks("from").fault])
        if day is None and not any_day and any(term != days.ALWAYS for term in self._terms):
            message = f"the extracts have terms: name a day, as with --day {date.today()}, or take --any-day"
            raise Faults([Fault(Place(self._table.file), message)])
        return day

    def _matches(self, masks: tuple[int, ...]) -> tuple[Match, ...]:
        return tuple(
            Match(extract.name, link)
            for extract, mask in zip(self.catalogue.extracts, masks)
            for link in range(len(extract.pattern.links))
            if mask >> link & 1
        )
