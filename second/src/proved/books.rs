//! The proved library's functions for books.

use super::Lent;
use crate::books::{Case, Function, Outcome};
use crate::outcome::prefilled;

extern "C" {
    fn xp10_find_scene(
        book: *const u32,
        book_len: usize,
        number: u32,
        place: *mut u32,
        place_len: usize,
    ) -> u32;

    fn xp10_write_book(
        table: *const u32,
        table_len: usize,
        words: *const u32,
        words_len: usize,
        book: *mut u32,
        book_len: usize,
        answer: *mut u32,
        answer_len: usize,
    ) -> u32;
}

/// Start and length of a scene, or verdict and words of a book.
pub const ANSWER_WORDS: usize = 2;

/// What a call returned and left in the lent words.
pub struct Call {
    pub returned: u32,
    pub words: Vec<u32>,
    pub arguments: Vec<u32>,
    pub answer: Vec<u32>,
    /// Where a book is written.
    pub book: Vec<u32>,
    /// No word next to a lent slice has changed.
    pub kept_inside: bool,
}

impl Call {
    /// Of a call with room for the whole answer.
    pub fn outcome(self, case: &Case) -> Outcome {
        match case.function {
            Function::FindScene => {
                let [start, length] = [self.answer[0] as usize, self.answer[1] as usize];
                let stretch = case.words.get(start..start + length).unwrap_or_default();
                let again = [self.returned, stretch.len() as u32];
                let numbers = [&[self.returned], &self.answer[..], &again].concat();
                Outcome { numbers, words: stretch.to_vec() }
            }
            Function::WriteBook => Outcome { numbers: self.answer, words: self.book },
        }
    }
}

pub fn call(case: &Case, answer_len: usize) -> Call {
    let mut words = Lent::new(&case.words);
    let mut arguments = Lent::new(&case.arguments);
    let mut answer = Lent::new(&prefilled(answer_len));
    let mut book = Lent::new(&prefilled(case.out_len));
    let returned = match case.function {
        Function::FindScene => find_scene(words.words(), case.arguments[0], answer.words()),
        Function::WriteBook => {
            write_book(arguments.words(), words.words(), book.words(), answer.words())
        }
    };
    let kept_inside = [&words, &arguments, &answer, &book].iter().all(|lent| lent.guards_kept());
    Call {
        returned,
        words: words.words().to_vec(),
        arguments: arguments.words().to_vec(),
        answer: answer.words().to_vec(),
        book: book.words().to_vec(),
        kept_inside,
    }
}

fn find_scene(book: &[u32], number: u32, place: &mut [u32]) -> u32 {
    // SAFETY: each pointer is of a slice with the length beside it; no two slices overlap.
    unsafe { xp10_find_scene(book.as_ptr(), book.len(), number, place.as_mut_ptr(), place.len()) }
}

fn write_book(table: &[u32], words: &[u32], book: &mut [u32], answer: &mut [u32]) -> u32 {
    // SAFETY: as for `find_scene`.
    unsafe {
        xp10_write_book(
            table.as_ptr(),
            table.len(),
            words.as_ptr(),
            words.len(),
            book.as_mut_ptr(),
            book.len(),
            answer.as_mut_ptr(),
            answer.len(),
        )
    }
}
