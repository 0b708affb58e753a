//! How often each call was made, and what came of it.

use model::files::Refusal;
use model::CALLS;
use std::fmt;

#[derive(Clone, Copy, PartialEq, Eq)]
pub enum Call {
    ReadPattern,
    ReadCatalogue,
    ReadRecord,
    ReadSheet,
    ReadBook,
    WritePattern,
    WriteCatalogue,
    WriteRecord,
    WriteSheet,
    WriteBook,
    Search,
    MakeBook,
    Quote,
    Answer,
    ShowUncovered,
    Cheapest,
    AnswerFrom,
    SortRecord,
    MakeIndex,
    CheckIndex,
    SearchIndexed,
    Part,
    AnswerSeveral,
    QuoteOn,
    CheapestOn,
    PartOn,
    ShowOn,
    FirstDay,
    Ask,
    Commit,
}

impl Call {
    pub fn name(self) -> &'static str {
        CALLS[self as usize]
    }
}

/// The refusals are numbered from 1 to this.
const REFUSALS: usize = 21;

/// At 0 how often a call succeeded, then how often it gave each refusal.
type Counts = [u64; REFUSALS + 1];

/// What came of each call.
#[derive(Default)]
pub struct Tally {
    counts: [Counts; CALLS.len()],
    /// Covered questions that were answered from the book of a record, and the record searched.
    pub answered: u64,
    /// Those of them whose sheet has pairs, and those of these whose question has links that differ in their kinds alone.
    pub with_pairs: u64,
    pub beside: u64,
    /// Showings by which the question's sheet changes and no extract's, and those of them whose second record keeps the ends of
    /// the link that it lacks, in a link of another kind.
    pub shown: u64,
    pub one_kind: u64,
    /// Answers from a set that covers, of a book of a record, and the record searched.
    pub from_sets: u64,
    /// Searches by the record's own index, and without one.
    pub indexed: u64,
    /// Answers from a set that covers, of a book of no record, that are not what the chosen set gives.
    pub apart: u64,
    /// Cheapest sets, those of them that an ordinary quote doesn't choose, and those that only their numbers decide.
    pub cheapest: u64,
    pub not_chosen: u64,
    pub tied: u64,
    /// Parts of uncovered questions that were answered from the book of a record, and the record searched for them; those of
    /// them whose sheet has pairs, and those of these that list more than the question's own sheet does.
    pub parts: u64,
    pub parts_with_pairs: u64,
    pub wider: u64,
    /// Parts of covered questions, answered likewise.
    pub whole: u64,
    /// Choices of a question's links that are covered, each of them inside its part, and those of them that are not all of it.
    pub choices: u64,
    pub smaller: u64,
    /// Calls that answered several questions, each as by itself; the questions, those of them whose sheet has pairs, and the calls
    /// in which two of them needed the same sheet of the book.
    pub several: u64,
    pub questions: u64,
    pub questions_with_pairs: u64,
    pub shared: u64,
    /// Calls with the empty file in the place of a catalogue without extracts.
    pub empty: u64,
    /// Questions covered on a day that were answered from the book of a record by what the quote for the day chooses, and the record
    /// searched; parts on a day, likewise; first days after the given one; showings for a day, and those of them by which the lists of an
    /// extract change that is not in force.
    pub on_days: u64,
    pub parts_on: u64,
    pub first_days: u64,
    pub shown_on: u64,
    pub others_differ: u64,
    /// Quotes that are covered and would not be if all extracts were matched both ways. Covered questions that were answered from the
    /// book of a record some of whose extracts, and not all, are matched one-way, and the record searched; those whose book isn't that of
    /// the record both ways. Showings with extracts that are matched one-way. Answers from the book of a record made under another set than
    /// the one asked with, and those of them that aren't what a search gives.
    pub by_one_way: u64,
    pub mixed: u64,
    pub more_listed: u64,
    pub shown_one_way: u64,
    pub other_sets: u64,
    pub not_searched: u64,
    /// Links that entered with the slip that asking gave, those of them that change a sheet, and those that change some sheets and not all.
    pub entered: u64,
    pub changing: u64,
    pub changing_some: u64,
    /// Old files that were sorted, and those of them whose links were not in order.
    pub sorted: u64,
    pub disordered: u64,
}

impl Tally {
    pub fn count(&mut self, call: Call, refusal: Option<Refusal>) {
        let number = refusal.map_or(0, |refusal| refusal.number);
        self.counts[call as usize][number as usize] += 1;
    }
}

impl fmt::Display for Tally {
    fn fmt(&self, f: &mut fmt::Formatter) -> fmt::Result {
        let line = |f: &mut fmt::Formatter, name: &str, counts: &Counts| {
            write!(f, "{name:<16}{:>9}", counts.iter().sum::<u64>())?;
            counts.iter().try_for_each(|count| write!(f, "{count:>8}"))?;
            writeln!(f)
        };
        write!(f, "{:<16}{:>9}{:>8}", "call", "calls", "done")?;
        (1..=REFUSALS).try_for_each(|number| write!(f, "{number:>8}"))?;
        writeln!(f)?;
        for (name, counts) in CALLS.iter().zip(&self.counts) {
            line(f, name, counts)?;
        }
        line(f, "all", &std::array::from_fn(|number| self.counts.iter().map(|counts| counts[number]).sum()))?;
        let Tally { answered, with_pairs, beside, shown, one_kind, from_sets, indexed, apart, .. } = self;
        let Tally { cheapest, not_chosen, tied, sorted, disordered, .. } = self;
        let Tally { parts, parts_with_pairs, wider, whole, choices, smaller, .. } = self;
        let Tally { several, questions, questions_with_pairs, shared, empty, .. } = self;
        let Tally { on_days, parts_on, first_days, shown_on, others_differ, .. } = self;
        let Tally { entered, changing, changing_some, .. } = self;
        let Tally { by_one_way, mixed, more_listed, shown_one_way, other_sets, not_searched, .. } = self;
        writeln!(
            f,
            "{answered} covered questions answered as the record is searched, {with_pairs} of them with pairs, {beside} of \
             these with links that differ in their kinds alone"
        )?;
        writeln!(f, "{from_sets} of them also by a set drawn apart that covers")?;
        writeln!(f, "{indexed} searches by the record's index that give what the search without one gives")?;
        writeln!(
            f,
            "{shown} showings with the same lists of all extracts and another sheet of the question, {one_kind} of them with \
             the pair that goes still there, in another kind"
        )?;
        writeln!(
            f,
            "{parts} parts of uncovered questions answered as the record is searched for them, {parts_with_pairs} of them \
             with pairs, {wider} of these with more than the question lists; {whole} of covered questions, all of them whole"
        )?;
        writeln!(f, "{choices} choices of links that are covered, each inside the part, {smaller} of them smaller")?;
        writeln!(
            f,
            "{several} calls with several questions, {questions} of them answered as by themselves, {questions_with_pairs} with \
             pairs; in {shared} calls two needed the same sheet"
        )?;
        writeln!(f, "{empty} calls on an empty catalogue, each as on one without extracts")?;
        writeln!(
            f,
            "{on_days} questions covered on a day and answered as the record is searched, {parts_on} parts on a day answered so, \
             {first_days} first days after the given one; {shown_on} showings for a day with the same lists of all extracts in \
             force, {others_differ} of them with other lists of another"
        )?;
        writeln!(
            f,
            "{by_one_way} quotes covered by one-way extracts alone; {mixed} covered questions answered from mixed books as the record is \
             searched, {more_listed} books with other lists than both ways; {shown_one_way} showings with one-way extracts; \
             {other_sets} answers from books of another set, {not_searched} of them not what a search gives"
        )?;
        writeln!(f, "{apart} answers from books of no record that are not those of the chosen set")?;
        writeln!(f, "{cheapest} cheapest sets, {not_chosen} of them not the chosen one, {tied} tied with another up to the numbers")?;
        writeln!(
            f,
            "{entered} links entered as asked, {changing} of them with other sheets after than before, as asked, {changing_some} with some of \
             the catalogue's sheets alone"
        )?;
        writeln!(
            f,
            "{sorted} old files sorted, {disordered} of them out of order, each with the links and the sheets it had"
        )
    }
}
