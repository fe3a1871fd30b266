//! A scene found in a book.

use super::*;

impl BookReader {
    pub fn find(&self, book: &[u32], number: u32) -> Found {
        // A count that isn't there is 0; the table is then cut short.
        let count = u64::from(book.first().copied().unwrap_or(0) & self.count.bits);
        let contents_words = self.contents.words(count);
        let mut entries = self.contents.entries(book, count);
        let base = match self.starts {
            StartsFrom::File => 0,
            StartsFrom::Table => 1,
            StartsFrom::Bodies => contents_words,
        };
        entries.iter_mut().for_each(|entry| entry.start += base);
        let sought = self.sought(&entries, u64::from(number & self.contents.number.bits));
        let facts = BookFacts {
            words: book.len() as u64,
            count,
            contents_words,
            bodies_end: contents_words + entries.iter().map(|entry| entry.length).sum::<u64>(),
            found: u64::from(sought.is_some()),
            ..BookFacts::default()
        };
        let mut known = Known::of(facts, &entries);
        known.entries = self.reach.of(known.entries, sought);
        let entry = sought.map(|k| entries[k]);
        match self.checks.refusal(self.passes, &known) {
            Some(verdict) => self.refused(verdict, entry, book),
            None => self.found(entry.unwrap_or_default(), &facts),
        }
    }

    /// The place of the entry that is named.
    fn sought(&self, entries: &[Entry], number: u64) -> Option<usize> {
        let mut places = 0..entries.len();
        match self.found_by {
            FoundBy::Number => places.find(|&k| entries[k].number == number),
            FoundBy::LastOfNumber => places.rfind(|&k| entries[k].number == number),
            FoundBy::AtMost => places.rfind(|&k| entries[k].number <= number),
            FoundBy::AtLeast => places.find(|&k| entries[k].number >= number),
            FoundBy::Place => places.find(|&k| k as u64 == number),
            FoundBy::PlaceFromOne => places.find(|&k| k as u64 + 1 == number),
            FoundBy::Start => places.find(|&k| entries[k].start == number),
        }
    }

    fn found(&self, entry: Entry, facts: &BookFacts) -> Found {
        let Entry { start, length, .. } = entry;
        let told_start = match self.start {
            ToldStart::InFile => start,
            ToldStart::InTable => start.wrapping_sub(1),
            ToldStart::InBodies => start.wrapping_sub(facts.contents_words),
            ToldStart::InBytes => 4 * start,
            ToldStart::End => start + length,
        };
        let told_length = match self.length {
            ToldLength::OfBody => length,
            ToldLength::ToFileEnd => facts.words.saturating_sub(start),
            ToldLength::InBytes => 4 * length,
            ToldLength::End => start + length,
            ToldLength::Most => 4096,
        };
        Found { verdict: 0, start: told_start as u32, length: told_length as u32 }
    }

    fn refused(&self, verdict: u32, entry: Option<Entry>, book: &[u32]) -> Found {
        let words = book.len() as u64;
        let entry = entry.unwrap_or_default();
        let (start, length) = match self.refused {
            RefusedStretch::Nothing => (0, 0),
            RefusedStretch::OfEntry => (entry.start, entry.length),
            RefusedStretch::FileEnd => (words, 0),
            RefusedStretch::File => (0, words),
        };
        Found { verdict, start: start as u32, length: length as u32 }
    }
}

impl Reach {
    /// The entries that are tested, where the one at some place is asked for.
    fn of(self, mut entries: Vec<BookFacts>, sought: Option<usize>) -> Vec<BookFacts> {
        match (self, sought) {
            (Reach::UpToTheScene, Some(k)) => entries.truncate(k + 1),
            (Reach::TheScene, Some(k)) => entries = vec![entries[k]],
            _ => {}
        }
        entries
    }
}
