//! A book made of a table and a word buffer.

use super::super::put;
use super::*;

impl BookWriter {
    pub fn write(&self, table: &[u32], words: &[u32], buffer: &mut [u32]) -> Written {
        let entry_words = self.table.entry.len();
        let in_front = self.table.first_word.min(table.len());
        let entries = self.table.entries(table, u64::MAX);
        let lengths: u64 = entries.iter().map(|entry| entry.length).sum();
        let contents_words = self.contents_words(entries.len());
        let facts = BookFacts {
            words: words.len() as u64,
            count: entries.len() as u64,
            contents_words,
            spare_words: ((table.len() - in_front) % entry_words) as u64,
            book_words: contents_words + lengths,
            room: buffer.len() as u64,
            ..BookFacts::default()
        };
        let known = Known::of(facts, &entries);
        let book = || self.book(&known, words, table.len());
        match self.checks.refusal(self.passes, &known) {
            Some(verdict) => self.refused(verdict, &facts, book, buffer),
            None => {
                put(buffer, &book());
                Written { verdict: 0, words: self.words_told(&facts) as u32 }
            }
        }
    }

    fn contents_words(&self, entries: usize) -> u64 {
        let count = u64::from(self.count != CountWord::Missing);
        count + (self.entry.len() * entries) as u64
    }

    /// Of bodies that aren't in the buffer, what is.
    fn book(&self, known: &Known, words: &[u32], table_words: usize) -> Vec<u32> {
        let mut book = Vec::new();
        let with_words = known.entries.iter().filter(|facts| facts.entry.length > 0).count();
        match self.count {
            CountWord::Entries => book.push(known.entries.len() as u32),
            CountWord::TableWords => book.push(table_words as u32),
            CountWord::ContentsWords => book.push(known.whole.contents_words as u32),
            CountWord::BookWords => book.push(known.whole.book_words as u32),
            CountWord::NotEmpty => book.push(with_words as u32),
            CountWord::Missing => {}
        }
        book.extend(known.entries.iter().flat_map(|facts| self.written_entry(facts)));
        let mut bodies: Vec<Entry> = known.entries.iter().map(|facts| facts.entry).collect();
        match self.bodies {
            BodyOrder::OfTable => {}
            BodyOrder::Reversed => bodies.reverse(),
            BodyOrder::RisingStart => bodies.sort_by_key(|entry| entry.start),
        }
        book.extend(bodies.iter().flat_map(|entry| stretch(words, entry.start, entry.length)));
        book
    }

    fn written_entry(&self, facts: &BookFacts) -> Vec<u32> {
        let Entry { number, length, .. } = facts.entry;
        let start = match self.starts {
            WrittenStart::InFile => facts.place,
            WrittenStart::InTable => facts.place - 1,
            WrittenStart::InBodies => facts.place - facts.contents_words,
            WrittenStart::InBytes => 4 * facts.place,
            WrittenStart::OfTable => facts.entry.start,
        };
        let word = |what: &EntryWord| match what {
            EntryWord::Number => number,
            EntryWord::Start => start,
            EntryWord::StartInBytes => 4 * start,
            EntryWord::Length => length,
            EntryWord::LengthInBytes => 4 * length,
            EntryWord::End => start + length,
            EntryWord::LastWord => (start + length).wrapping_sub(1),
        };
        self.entry.iter().map(|what| word(what) as u32).collect()
    }

    fn words_told(&self, facts: &BookFacts) -> u64 {
        match self.words {
            WordsTold::Book => facts.book_words,
            WordsTold::WithoutCount => facts.book_words.saturating_sub(1),
            WordsTold::Contents => facts.contents_words,
            WordsTold::Bodies => facts.book_words - facts.contents_words,
            WordsTold::Entries => facts.count,
            WordsTold::InBytes => 4 * facts.book_words,
            WordsTold::Room => facts.room,
        }
    }

    fn refused(
        &self,
        verdict: u32,
        facts: &BookFacts,
        book: impl Fn() -> Vec<u32>,
        buffer: &mut [u32],
    ) -> Written {
        match self.on_refusal {
            BufferOnRefusal::Kept => {}
            BufferOnRefusal::AsFarAsItFits => put(buffer, &book()),
            BufferOnRefusal::Cleared => buffer.fill(0),
        }
        let words = match self.refused {
            RefusedWords::Zero => 0,
            RefusedWords::Book => facts.book_words,
            RefusedWords::Fitting => facts.book_words.min(facts.room),
        };
        Written { verdict, words: words as u32 }
    }
}
