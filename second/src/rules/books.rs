//! Scene books: one file with a contents table and the bodies that it names.

mod reader;
mod shape;
mod writer;

use super::language::Mask;
use super::Rules;
pub use shape::*;

/// Where a scene lies in its book; both are 0 with a refusal.
#[derive(Clone, Copy, Debug, PartialEq, Eq)]
pub struct Found {
    pub verdict: u32,
    pub start: u32,
    pub length: u32,
}

/// What the writer says: the verdict and the words of the book.
#[derive(Clone, Copy, Debug, PartialEq, Eq)]
pub struct Written {
    pub verdict: u32,
    pub words: u32,
}

impl Rules {
    pub fn find_scene(&self, book: &[u32], number: u32) -> Found {
        self.books.reader.find(book, number)
    }

    /// The verdict and the stretch of the book in which the scene lies.
    pub fn scene<'a>(&self, book: &'a [u32], number: u32) -> (u32, &'a [u32]) {
        let Found { verdict, start, length } = self.find_scene(book, number);
        (verdict, stretch(book, u64::from(start), u64::from(length)))
    }

    /// Makes the book of the scenes that lie in the words where the table says.
    pub fn write_book(&self, table: &[u32], words: &[u32], book: &mut [u32]) -> Written {
        self.books.writer.write(table, words, book)
    }
}

/// What of a stretch is in the words.
fn stretch(words: &[u32], start: u64, length: u64) -> &[u32] {
    let inside = |word: u64| word.min(words.len() as u64) as usize;
    &words[inside(start)..inside(start.saturating_add(length))]
}

impl Contents {
    /// The entries of which all words are there, up to a number of them.
    fn entries(&self, table: &[u32], count: u64) -> Vec<Entry> {
        let words = table.get(self.first_word..).unwrap_or_default();
        let entries = words.chunks_exact(self.entry.len()).map(|words| self.entry_of(words));
        entries.take(count.min(words.len() as u64) as usize).collect()
    }

    /// What isn't there is 0.
    fn entry_of(&self, words: &[u32]) -> Entry {
        let counted = |word: u32, mask: Mask| u64::from(word & mask.bits);
        let (mut entry, mut end) = (Entry::default(), None);
        for (what, &word) in self.entry.iter().zip(words) {
            match what {
                EntryWord::Number => entry.number = counted(word, self.number),
                EntryWord::Start => entry.start = counted(word, self.start),
                EntryWord::StartInBytes => entry.start = counted(word, self.start) / 4,
                EntryWord::Length => entry.length = counted(word, self.length),
                EntryWord::LengthInBytes => entry.length = counted(word, self.length) / 4,
                EntryWord::End => end = Some(u64::from(word)),
                EntryWord::LastWord => end = Some(u64::from(word) + 1),
            }
        }
        match end {
            // An end in the start's place comes with a length.
            Some(end) if entry.length > 0 => entry.start = end.saturating_sub(entry.length),
            Some(end) => entry.length = end.saturating_sub(entry.start),
            None => {}
        }
        entry
    }

    /// The words of a table with so many entries, and of what stands in front of it.
    fn words(&self, count: u64) -> u64 {
        self.first_word as u64 + self.entry.len() as u64 * count
    }
}

/// What is known of a book or of a table for one: as a whole, and of each entry.
struct Known {
    whole: BookFacts,
    entries: Vec<BookFacts>,
}

impl Known {
    /// With bodies that stand behind the contents in the order of their entries.
    fn of(whole: BookFacts, entries: &[Entry]) -> Known {
        let mut place = whole.contents_words;
        let mut number_before = 0;
        let entries = entries.iter().map(|entry| {
            let facts = BookFacts { entry: *entry, number_before, place, ..whole };
            place += entry.length;
            number_before = entry.number;
            facts
        });
        Known { entries: entries.collect(), whole }
    }
}

impl BookTest {
    fn holds(&self, facts: &BookFacts) -> bool {
        let right = match self.right {
            BookValue::Number(number) => u64::from(number),
            BookValue::Quantity(quantity) => facts.number(quantity),
        };
        self.comparison.holds(facts.number(self.left), right)
    }
}

impl Entries {
    /// Entry number `k` of so many is looked at.
    fn has(self, k: usize, count: usize, entry: &Entry) -> bool {
        match self {
            Entries::Every => true,
            Entries::BehindFirst => k > 0,
            Entries::BehindSecond => k > 1,
            Entries::BeforeLast => k + 1 < count,
            Entries::BetweenBoth => k > 0 && k + 1 < count,
            Entries::First => k == 0,
            Entries::Last => k + 1 == count,
            Entries::WithWords => entry.length > 0,
        }
    }
}

impl BookFault {
    fn is_of_whole(&self, known: &Known) -> bool {
        matches!(self, BookFault::Whole(test) if test.holds(&known.whole))
    }

    fn is_of_entry(&self, k: usize, known: &Known) -> bool {
        let (facts, count) = (&known.entries[k], known.entries.len());
        match self {
            BookFault::Whole(_) => false,
            BookFault::Entry(entries, test) => {
                entries.has(k, count, &facts.entry) && test.holds(facts)
            }
        }
    }
}

impl BookCheck {
    fn refuses_whole(&self, known: &Known) -> bool {
        self.faults.iter().any(|fault| fault.is_of_whole(known))
    }

    fn refuses_entry(&self, k: usize, known: &Known) -> bool {
        self.faults.iter().any(|fault| fault.is_of_entry(k, known))
    }

    fn refuses(&self, known: &Known) -> bool {
        let some_entry = || (0..known.entries.len()).any(|k| self.refuses_entry(k, known));
        self.refuses_whole(known) || some_entry()
    }

    fn is_of_entries(&self) -> bool {
        self.faults.iter().any(|fault| matches!(fault, BookFault::Entry(..)))
    }
}

impl BookChecks {
    /// The first refusal.
    fn refusal(&self, passes: Passes, known: &Known) -> Option<u32> {
        let found = match passes {
            Passes::CheckByCheck => self.0.iter().find(|check| check.refuses(known)),
            Passes::EntryByEntry => self.entry_by_entry(known),
        };
        found.map(|check| check.verdict)
    }

    /// Checks of the whole before those of entries come first, and others last.
    fn entry_by_entry(&self, known: &Known) -> Option<&BookCheck> {
        let front = self.0.iter().take_while(|check| !check.is_of_entries());
        let of_entries = (0..known.entries.len())
            .find_map(|k| self.0.iter().find(|check| check.refuses_entry(k, known)));
        let mut front = front.filter(|check| check.refuses_whole(known));
        let last = || self.0.iter().find(|check| check.refuses_whole(known));
        front.next().or(of_entries).or_else(last)
    }
}
