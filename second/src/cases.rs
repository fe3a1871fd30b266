//! All cases by number: the fixed lists, the fixed books, then random ones.

use crate::books;
use crate::lists;
use crate::outcome::Function;
use crate::prng::Prng;
use crate::tally::Tally;

pub enum AnyCase {
    List(lists::Case),
    Book(books::Case),
}

pub struct Cases {
    lists: Vec<lists::Case>,
    books: Vec<books::Case>,
}

impl Cases {
    pub fn new() -> Cases {
        Cases { lists: lists::fixed_cases(), books: books::fixed_cases() }
    }

    /// How many are fixed.
    pub fn fixed(&self) -> usize {
        self.lists.len() + self.books.len()
    }

    /// Of sixteen random ones two are scenes to find and one is a book to write.
    pub fn case(&self, index: usize, seed: u64) -> AnyCase {
        if let Some(case) = self.lists.get(index) {
            return AnyCase::List(case.clone());
        }
        if let Some(case) = self.books.get(index - self.lists.len()) {
            return AnyCase::Book(case.clone());
        }
        let mut rng = Prng::new(seed, index as u64);
        match index % 16 {
            0 | 8 => AnyCase::Book(books::random_reading(&mut rng)),
            1 => AnyCase::Book(books::random_writing(&mut rng)),
            _ => AnyCase::List(lists::case(&self.lists, index, seed)),
        }
    }
}

/// With a column for each function, of lists and of books.
pub fn tally() -> Tally {
    let of_lists = Function::ALL.map(Function::name);
    let of_books = books::Function::ALL.map(books::Function::name);
    Tally::new(&[&of_lists[..], &of_books].concat())
}
