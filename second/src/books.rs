//! Test cases of scene books, and what the rules give for them: a scene to find, or a book to write.

pub mod agreement;
mod random;
mod readings;
mod scenes;
mod stored;
mod writings;

use crate::outcome::prefilled;
use crate::prng::Prng;
use crate::rules::{Found, Rules, Written};

pub use random::{random_reading, random_scenes, random_writing};
pub use scenes::{book_of, Scene};
pub use stored::{crate_files, digest, stored_cases, write_crate};

/// Its number is a case's tag in the file of stored cases.
#[derive(Clone, Copy, Debug, PartialEq, Eq)]
pub enum Function {
    FindScene,
    WriteBook,
}

impl Function {
    pub const ALL: [Function; 2] = [Function::FindScene, Function::WriteBook];

    pub fn name(self) -> &'static str {
        ["find_scene", "write_book"][self as usize]
    }

    pub fn verdicts(self) -> &'static [u32] {
        match self {
            Function::FindScene => &[0, 22, 23, 24, 25],
            Function::WriteBook => &[0, 22, 23, 24, 11],
        }
    }
}

#[derive(Clone)]
pub struct Case {
    pub class: &'static str,
    pub function: Function,
    /// The book, or the buffer in which the bodies lie.
    pub words: Vec<u32>,
    /// The number of the scene, or the table.
    pub arguments: Vec<u32>,
    /// For the book that is written.
    pub out_len: usize,
}

impl Case {
    pub fn reading(class: &'static str, book: Vec<u32>, number: u32) -> Case {
        let (function, arguments) = (Function::FindScene, vec![number]);
        Case { class, function, words: book, arguments, out_len: 0 }
    }

    pub fn writing(class: &'static str, table: Vec<u32>, words: Vec<u32>, out_len: usize) -> Case {
        Case { class, function: Function::WriteBook, words, arguments: table, out_len }
    }
}

/// What a call gives.
#[derive(Clone, Debug, PartialEq, Eq)]
pub struct Outcome {
    /// Of a scene the verdict, start and length, then the verdict and the words of the stretch handed back; of
    /// a book the verdict and the words written.
    pub numbers: Vec<u32>,
    /// The stretch, or the buffer for the book afterwards.
    pub words: Vec<u32>,
}

impl Outcome {
    pub fn verdict(&self) -> u32 {
        self.numbers[0]
    }
}

pub fn outcome(rules: &Rules, case: &Case) -> Outcome {
    match case.function {
        Function::FindScene => {
            let number = case.arguments[0];
            let Found { verdict, start, length } = rules.find_scene(&case.words, number);
            let (again, stretch) = rules.scene(&case.words, number);
            let numbers = vec![verdict, start, length, again, stretch.len() as u32];
            Outcome { numbers, words: stretch.to_vec() }
        }
        Function::WriteBook => {
            let mut book = prefilled(case.out_len);
            let Written { verdict, words } =
                rules.write_book(&case.arguments, &case.words, &mut book);
            Outcome { numbers: vec![verdict, words], words: book }
        }
    }
}

/// The first thing that isn't as expected.
pub fn difference(case: &Case, given: &Outcome, expected: &Outcome) -> Option<String> {
    let name = case.function.name();
    if given.numbers != expected.numbers {
        return Some(format!("{name} {:?}, not {:?}", given.numbers, expected.numbers));
    }
    if given.words.len() != expected.words.len() {
        let (given, expected) = (given.words.len(), expected.words.len());
        return Some(format!("{name} {given} words, not {expected}"));
    }
    let k = (0..expected.words.len()).find(|&k| given.words[k] != expected.words[k])?;
    let (given, expected) = (given.words[k], expected.words[k]);
    Some(format!("{name} word {k} {given:08X}, not {expected:08X}"))
}

/// Cases that are the same in every run; the largest book is the last.
pub fn fixed_cases() -> Vec<Case> {
    let [short, long] = stored::fixed();
    let more = [readings::unstored(), writings::unstored()];
    [short, long, more.concat()].concat()
}

/// Random case number `index`: every third a book to write.
pub fn random_case(index: usize, seed: u64) -> Case {
    let of = match index % 3 {
        0 => random_writing,
        _ => random_reading,
    };
    of(&mut Prng::new(seed, index as u64))
}
