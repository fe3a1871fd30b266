//! What the rules of books are written in.

use super::super::language::{Comparison, Mask};
use crate::vary::{choices, parts};

parts! {
    /// Scenes in one file: contents table, then bodies.
    pub struct Books {
        pub reader: BookReader,
        pub writer: BookWriter,
    }
}

parts! {
    /// How a scene is found in a book.
    pub struct BookReader {
        /// The bits of the first word that count.
        pub count: Mask,
        pub contents: Contents,
        pub starts: StartsFrom,
        pub checks: BookChecks,
        pub passes: Passes,
        pub reach: Reach,
        pub found_by: FoundBy,
        /// What is told of the scene, and what with a refusal.
        pub start: ToldStart,
        pub length: ToldLength,
        pub refused: RefusedStretch,
    }
}

parts! {
    /// How a book is made of a table and a word buffer.
    pub struct BookWriter {
        pub table: Contents,
        pub checks: BookChecks,
        pub passes: Passes,
        /// What stands in the book.
        pub count: CountWord,
        pub entry: Vec<EntryWord>,
        pub starts: WrittenStart,
        pub bodies: BodyOrder,
        /// The words told, and what with a refusal is told and left in the buffer.
        pub words: WordsTold,
        pub refused: RefusedWords,
        pub on_refusal: BufferOnRefusal,
    }
}

parts! {
    /// How the entries of a table lie, and the bits of their words that count.
    pub struct Contents {
        pub first_word: usize,
        pub entry: Vec<EntryWord>,
        pub number: Mask,
        pub start: Mask,
        pub length: Mask,
    }
}

choices! {
    /// What a word of an entry is.
    pub enum EntryWord { Number, Start, Length, End, LastWord, StartInBytes, LengthInBytes }
}

choices! {
    /// The word that starts count from.
    pub enum StartsFrom { File, Table, Bodies }
}

/// Refusals in their order.
#[derive(Clone, Debug, PartialEq)]
pub struct BookChecks(pub Vec<BookCheck>);

/// A refusal, and the faults that it is for.
#[derive(Clone, Debug, PartialEq)]
pub struct BookCheck {
    pub verdict: u32,
    pub faults: Vec<BookFault>,
}

/// A fault of the whole book, table or room, or of some entry.
#[derive(Clone, Debug, PartialEq)]
pub enum BookFault {
    Whole(BookTest),
    Entry(Entries, BookTest),
}

choices! {
    /// The entries that are looked at.
    pub enum Entries { Every, BehindFirst, BehindSecond, BeforeLast, BetweenBoth, First, Last, WithWords }
}

#[derive(Clone, Debug, PartialEq)]
pub struct BookTest {
    pub left: BookQuantity,
    pub comparison: Comparison,
    pub right: BookValue,
}

#[derive(Clone, Debug, PartialEq)]
pub enum BookValue {
    Number(u32),
    Quantity(BookQuantity),
}

choices! {
    /// Numbers known where a book, or a table for one, is tested; see `BookFacts`.
    pub enum BookQuantity {
        Words, Count, ContentsWords, WrappedContents, BodiesEnd, WrappedBodiesEnd, Found, SpareWords,
        BookWords, Room, Number, NumberBefore, Start, Length, Place, End, WrappedEnd
    }
}

/// What a test can look at. Numbers that mean nothing at its place are zero.
#[derive(Clone, Copy, Default)]
pub struct BookFacts {
    /// Of the book, or of the buffer in which bodies lie.
    pub words: u64,
    /// Entries by the first word, or by the table's length.
    pub count: u64,
    /// The book's words in front of the bodies, and up to the end of the last one by the lengths.
    pub contents_words: u64,
    pub bodies_end: u64,
    /// The scene asked for is there.
    pub found: u64,
    /// Words of the table behind the last whole entry.
    pub spare_words: u64,
    /// Words of the book to be written, and how many fit.
    pub book_words: u64,
    pub room: u64,
    /// Of an entry.
    pub entry: Entry,
    pub number_before: u64,
    /// Where the bodies before end.
    pub place: u64,
}

/// An entry of a table.
#[derive(Clone, Copy, Debug, Default, PartialEq, Eq)]
pub struct Entry {
    pub number: u64,
    pub start: u64,
    pub length: u64,
}

impl BookQuantity {
    pub fn compare(self, comparison: Comparison, other: BookQuantity) -> BookTest {
        BookTest { left: self, comparison, right: BookValue::Quantity(other) }
    }

    pub fn over(self, limit: u32) -> BookTest {
        self.compare_number(Comparison::Over, limit)
    }

    pub fn is(self, number: u32) -> BookTest {
        self.compare_number(Comparison::Equal, number)
    }

    pub fn is_not(self, number: u32) -> BookTest {
        self.compare_number(Comparison::NotEqual, number)
    }

    fn compare_number(self, comparison: Comparison, number: u32) -> BookTest {
        BookTest { left: self, comparison, right: BookValue::Number(number) }
    }
}

impl BookFacts {
    pub fn number(&self, quantity: BookQuantity) -> u64 {
        let in_32_bits = |number: u64| u64::from(number as u32);
        let end = self.entry.start + self.entry.length;
        match quantity {
            BookQuantity::Words => self.words,
            BookQuantity::Count => self.count,
            BookQuantity::ContentsWords => self.contents_words,
            BookQuantity::WrappedContents => in_32_bits(self.contents_words),
            BookQuantity::BodiesEnd => self.bodies_end,
            BookQuantity::WrappedBodiesEnd => in_32_bits(self.bodies_end),
            BookQuantity::Found => self.found,
            BookQuantity::SpareWords => self.spare_words,
            BookQuantity::BookWords => self.book_words,
            BookQuantity::Room => self.room,
            BookQuantity::Number => self.entry.number,
            BookQuantity::NumberBefore => self.number_before,
            BookQuantity::Start => self.entry.start,
            BookQuantity::Length => self.entry.length,
            BookQuantity::Place => self.place,
            BookQuantity::End => end,
            BookQuantity::WrappedEnd => in_32_bits(end),
        }
    }
}

choices! {
    /// Each refusal over all entries before the next, or all of them entry by entry.
    pub enum Passes { CheckByCheck, EntryByEntry }
}

choices! {
    /// The entries that are tested: all, those up to the scene asked for, or its own alone.
    pub enum Reach { WholeTable, UpToTheScene, TheScene }
}

choices! {
    /// The entry that a scene number names: of equal ones the first or the last; the nearest below or above
    /// where none has the number; the one at that place, counted from 0 or 1; the one that starts there.
    pub enum FoundBy { Number, LastOfNumber, AtMost, AtLeast, Place, PlaceFromOne, Start }
}

choices! {
    pub enum ToldStart { InFile, InTable, InBodies, InBytes, End }
}

choices! {
    pub enum ToldLength { OfBody, ToFileEnd, InBytes, End, Most }
}

choices! {
    /// What is told with a refusal: nothing, the stretch that the scene's entry gives, the file's end, or the
    /// whole file.
    pub enum RefusedStretch { Nothing, OfEntry, FileEnd, File }
}

choices! {
    /// The first word of a book.
    pub enum CountWord { Entries, TableWords, ContentsWords, BookWords, NotEmpty, Missing }
}

choices! {
    /// The start that an entry of the book gets.
    pub enum WrittenStart { InFile, InTable, InBodies, InBytes, OfTable }
}

choices! {
    /// The order in which bodies stand in the book.
    pub enum BodyOrder { OfTable, Reversed, RisingStart }
}

choices! {
    pub enum WordsTold { Book, WithoutCount, Contents, Bodies, Entries, InBytes, Room }
}

choices! {
    pub enum RefusedWords { Zero, Book, Fitting }
}

choices! {
    pub enum BufferOnRefusal { Kept, AsFarAsItFits, Cleared }
}
