//! Scenes, and the book of them as the ticket words it.

use crate::prng::seeded_words;

/// A scene number and its body.
pub type Scene = (u32, Vec<u32>);

/// "contents table, then bodies": the number of entries, each scene's number, start and length, the bodies.
pub fn book_of(scenes: &[Scene]) -> Vec<u32> {
    let mut book = vec![scenes.len() as u32];
    let mut start = 1 + 3 * scenes.len();
    for (number, body) in scenes {
        book.extend([*number, start as u32, body.len() as u32]);
        start += body.len();
    }
    scenes.iter().for_each(|(_, body)| book.extend(body));
    book
}

/// Scenes of these numbers and lengths, no two words of their bodies alike.
pub fn scenes(numbers_and_lengths: &[(u32, usize)]) -> Vec<Scene> {
    let lengths = numbers_and_lengths.iter().map(|(_, length)| length);
    let mut words = seeded_words(0x5CE7E, lengths.sum());
    let mut body = |length: usize| words.drain(..length).collect();
    numbers_and_lengths.iter().map(|&(number, length)| (number, body(length))).collect()
}

pub fn book(numbers_and_lengths: &[(u32, usize)]) -> Vec<u32> {
    book_of(&scenes(numbers_and_lengths))
}

/// Scenes with numbers in steps from a first one, and bodies of some lengths in turn.
pub fn many(count: usize, first: u32, step: u32, lengths: &[usize]) -> Vec<Scene> {
    let numbers = (0..count as u32).map(|k| first + step * k);
    let all: Vec<(u32, usize)> = numbers.zip(lengths.iter().copied().cycle()).collect();
    scenes(&all)
}

/// The words of an entry in a book.
pub const NUMBER: usize = 0;
pub const START: usize = 1;
pub const LENGTH: usize = 2;

/// Where in a book the word of an entry stands.
pub fn at(entry: usize, word: usize) -> usize {
    1 + 3 * entry + word
}

/// The words with one of them changed.
pub fn with(words: &[u32], at: usize, word: u32) -> Vec<u32> {
    let mut words = words.to_vec();
    words[at] = word;
    words
}
