//! Random scenes, books to read with at most two faults, and books to write.

use super::scenes::{at, book_of, Scene, LENGTH, NUMBER, START};
use super::Case;
use crate::prng::Prng;

/// Entries and words that are over what a book may have.
const ENTRIES_OVER: usize = 260;
const LENGTH_OVER: usize = 4100;

/// Scenes with rising numbers; few, and short, but for some.
pub fn random_scenes(rng: &mut Prng) -> Vec<Scene> {
    let count = match rng.below(60) {
        0 => 250 + rng.below(7),
        1..=5 => rng.below(40),
        _ => rng.below(7),
    };
    let mut numbers: Vec<u32> = (0..count).map(|_| any_number(rng)).collect();
    numbers.sort();
    numbers.dedup();
    let length = |rng: &mut Prng| match rng.below(300) {
        0 if count < 7 => 4090 + rng.below(7),
        _ if count > 7 => rng.below(3),
        _ => rng.below(9).saturating_sub(2),
    };
    let body = |rng: &mut Prng| {
        let length = length(rng);
        (0..length).map(|_| rng.word()).collect()
    };
    numbers.into_iter().map(|number| (number, body(rng))).collect()
}

fn any_number(rng: &mut Prng) -> u32 {
    match rng.below(6) {
        0 => rng.pick(&[0, 1, 0x7FFFFFFF, 0x80000000, 0xFFFFFFFE, 0xFFFFFFFF]),
        1 => rng.word(),
        2 => 1 << rng.below(32),
        _ => rng.below(600) as u32,
    }
}

/// Half of the books are good, most others have one fault.
pub fn random_reading(rng: &mut Prng) -> Case {
    let mut book = book_of(&random_scenes(rng));
    let number = any_scene(rng, &book);
    let class = match rng.below(8) {
        0..=3 => "random books",
        faults => {
            for _ in 0..1 + faults / 7 {
                break_book(rng, &mut book);
            }
            "random broken books"
        }
    };
    Case::reading(class, book, number)
}

/// Mostly one of the book, at times one next to it.
fn any_scene(rng: &mut Prng, book: &[u32]) -> u32 {
    let entries = book[0] as usize;
    if entries == 0 || rng.once_in(10) {
        return any_number(rng);
    }
    let number = book[at(rng.below(entries), NUMBER)];
    match rng.below(6) {
        0 => number.wrapping_add(1),
        1 => number.wrapping_sub(1),
        _ => number,
    }
}

fn break_book(rng: &mut Prng, book: &mut Vec<u32>) {
    // An earlier fault may have left no word, or another count.
    let Some(&count) = book.first() else {
        return;
    };
    let entries = (count as usize).min((book.len() - 1) / 3);
    let entry = if entries > 0 { rng.below(entries) } else { 0 };
    let of_entry = |word: usize| at(entry, word);
    let place = match rng.below(10) {
        0 => return book.truncate(rng.below(book.len() + 1)),
        1 => return book.extend((0..1 + rng.below(4)).map(|_| 0)),
        2 => 0,
        3 | 4 => of_entry(NUMBER),
        5 | 6 => of_entry(START),
        7 => return move_bodies(rng, book, entry),
        _ => of_entry(LENGTH),
    };
    if let Some(word) = book.get_mut(place) {
        *word = other_word(rng, *word);
    }
}

/// A length changed, and the starts behind it with it; at times the file too.
fn move_bodies(rng: &mut Prng, book: &mut Vec<u32>, entry: usize) {
    let by = rng.pick(&[1, u32::MAX, 2, 4096]);
    let entries = (book[0] as usize).min((book.len() - 1) / 3);
    for later in entry + 1..entries {
        book[at(later, START)] = book[at(later, START)].wrapping_add(by);
    }
    if let Some(length) = book.get_mut(at(entry, LENGTH)) {
        *length = length.wrapping_add(by);
    }
    if rng.once_in(2) {
        book.push(rng.word());
    }
}

fn other_word(rng: &mut Prng, word: u32) -> u32 {
    match rng.below(8) {
        0 | 1 => word.wrapping_add(1),
        2 | 3 => word.wrapping_sub(1),
        4 => word ^ 1 << rng.below(32),
        5 => rng.pick(&[0, 256, 257, 4096, 4097, 0x55555555, 0x80000000, u32::MAX]),
        6 => word.wrapping_mul(4),
        _ => rng.word(),
    }
}

/// Half of the tables are good, most others have one fault.
pub fn random_writing(rng: &mut Prng) -> Case {
    let scenes = random_scenes(rng);
    let words: Vec<u32> = (0..rng.below(40)).map(|_| rng.word()).collect();
    let mut table = Vec::new();
    for (number, body) in &scenes {
        let start = rng.below(words.len() + 1);
        let most = words.len() - start;
        table.extend([*number, start as u32, body.len().min(most) as u32]);
    }
    if rng.once_in(2) {
        break_table(rng, &mut table, words.len() as u32);
    }
    let room = any_room(rng, &table);
    Case::writing("random tables", table, words, room)
}

fn break_table(rng: &mut Prng, table: &mut Vec<u32>, words: u32) {
    if table.is_empty() || rng.once_in(8) {
        return table.extend((0..1 + rng.below(3)).map(|_| 0));
    }
    if rng.once_in(50) {
        let row = |k: usize| [k as u32, 0, 0];
        return *table = (0..ENTRIES_OVER - rng.below(6)).flat_map(row).collect();
    }
    let entry = rng.below(table.len() / 3);
    match rng.below(4) {
        0 => table.truncate(3 * entry + 1 + rng.below(2)),
        1 => table[3 * entry + 1] = words + 2 - rng.below(3) as u32,
        _ => {
            let word = &mut table[3 * entry + rng.below(3)];
            *word = other_word(rng, *word);
        }
    }
}

/// Next to what the book needs, more often than not enough.
fn any_room(rng: &mut Prng, table: &[u32]) -> usize {
    let length = |row: &[u32]| row[2].min(LENGTH_OVER as u32) as usize;
    let needed = 1 + table.len() + table.chunks_exact(3).map(length).sum::<usize>();
    match rng.below(8) {
        0 => rng.below(needed + 1),
        1 => needed - 1,
        2 | 3 => needed,
        4 => needed + 1,
        _ => needed + rng.below(10),
    }
}
