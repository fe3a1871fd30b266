//! Scene books: a reader and a writer of them in safe Rust, written for speed, and the books that the proved library is
//! held against them on.

#![forbid(unsafe_code)]

use crate::library::books;
use crate::lists::Random;
use crate::{hold_equal, line, spoilt, time, Left};
use std::hint::black_box;

/// The scenes that one book may have.
pub const SCENES: usize = 256;
/// The words that one body may have.
const BODY: u32 = 4096;
/// The scenes asked for in a round.
const ASKED: usize = 512;
/// The words written in a round, or one book where it has more.
const WRITTEN: usize = 1 << 16;
/// The words of a page of memory.
const PAGE: usize = 1024;

/// A scene's number, start and length.
type Entry = [u32; 3];
type FindScene = fn(&[u32], u32, &mut [u32]) -> u32;
type WriteBook = fn(&[u32], &[u32], &mut [u32], &mut [u32]) -> u32;

/// The proved library and Rust.
const FIND_SCENE: [FindScene; 2] = [books::find_scene, find_scene];
const WRITE_BOOK: [WriteBook; 2] = [books::write_book, write_book];

/// Writes as many of two numbers as the buffer has room for.
fn put(numbers: [u32; 2], buffer: &mut [u32]) {
    for (word, number) in buffer.iter_mut().zip(numbers) {
        *word = number;
    }
}

fn rise(entries: &[Entry]) -> bool {
    entries.is_sorted_by(|entry, next| entry[0] < next[0])
}

/// The start and length of a scene, or the verdict.
#[inline(always)]
fn find(book: &[u32], number: u32) -> Result<[u32; 2], u32> {
    let (&count, rest) = book.split_first().ok_or(22u32)?;
    let count = count as usize;
    if count > SCENES || rest.len() < 3 * count {
        return Err(22);
    }
    let entries = rest[..3 * count].as_chunks::<3>().0;
    if !rise(entries) {
        return Err(23);
    }
    let mut end = 1 + 3 * count;
    for &[_, start, length] in entries {
        if length > BODY || start as usize != end {
            return Err(24);
        }
        end += length as usize;
    }
    if end != book.len() {
        return Err(24);
    }
    let found = entries.binary_search_by_key(&number, |entry| entry[0]).map_err(|_| 25u32)?;
    Ok([entries[found][1], entries[found][2]])
}

#[inline(never)]
fn find_scene(book: &[u32], number: u32, place: &mut [u32]) -> u32 {
    let (verdict, found) = match find(book, number) {
        Ok(found) => (0, found),
        Err(verdict) => (verdict, [0; 2]),
    };
    put(found, place);
    verdict
}

/// The words of the book of these entries, or the verdict.
#[inline(always)]
fn measure(entries: &[Entry], words: &[u32]) -> Result<usize, u32> {
    if !rise(entries) {
        return Err(23);
    }
    let mut size = 1 + 3 * entries.len();
    for &[_, start, length] in entries {
        if length > BODY || start as usize + length as usize > words.len() {
            return Err(24);
        }
        size += length as usize;
    }
    Ok(size)
}

/// Writes the book of these entries, in a buffer of its size.
#[inline(always)]
fn write(entries: &[Entry], words: &[u32], book: &mut [u32]) {
    let (table, mut bodies) = book[1..].split_at_mut(3 * entries.len());
    let mut end = 1 + 3 * entries.len() as u32;
    for (entry, &[number, start, length]) in table.as_chunks_mut().0.iter_mut().zip(entries) {
        *entry = [number, end, length];
        end += length;
        let (body, rest) = bodies.split_at_mut(length as usize);
        body.copy_from_slice(&words[start as usize..][..length as usize]);
        bodies = rest;
    }
    book[0] = entries.len() as u32;
}

/// The words of the book that is written, or the verdict.
#[inline(always)]
fn checked_write(table: &[u32], words: &[u32], book: &mut [u32]) -> Result<usize, u32> {
    let (entries, []) = table.as_chunks::<3>() else {
        return Err(22);
    };
    if entries.len() > SCENES {
        return Err(22);
    }
    let size = measure(entries, words)?;
    write(entries, words, book.get_mut(..size).ok_or(11u32)?);
    Ok(size)
}

#[inline(never)]
fn write_book(table: &[u32], words: &[u32], book: &mut [u32], answer: &mut [u32]) -> u32 {
    let (verdict, written) = match checked_write(table, words, book) {
        Ok(written) => (0, written),
        Err(verdict) => (verdict, 0),
    };
    put([verdict, written as u32], answer);
    verdict
}

/// A book, and the table and words that it is written from.
struct Book {
    table: Vec<u32>,
    words: Vec<u32>,
    book: Vec<u32>,
}

impl Book {
    /// Of these bodies, with gaps between the numbers.
    fn new(bodies: &[Vec<u32>]) -> Self {
        let mut random = Random::new(6);
        let mut made = Book { table: Vec::new(), words: Vec::new(), book: vec![bodies.len() as u32] };
        let mut number = 0;
        for body in bodies {
            number += 1 + random.below(4);
            let (start, length) = (made.words.len() as u32, body.len() as u32);
            made.table.extend([number, start, length]);
            made.book.extend([number, 1 + 3 * bodies.len() as u32 + start, length]);
            made.words.extend(body);
        }
        made.book.extend(&made.words);
        made
    }

    /// More than its last number.
    fn numbers(&self) -> u32 {
        self.table.len().checked_sub(3).map_or(0, |last| self.table[last]) + 2
    }

    /// A copy of the book spoilt anywhere, or in its table.
    fn spoilt(&self, random: &mut Random) -> Vec<u32> {
        if random.below(2) == 0 {
            return spoilt(random, &self.book);
        }
        [spoilt(random, &self.book[..1 + self.table.len()]), self.words.clone()].concat()
    }
}

/// Asks both readers for a scene and holds equal what they leave.
fn compare_find(book: &[u32], number: u32, numbers: usize) {
    let left = FIND_SCENE.map(|find_scene| -> Left {
        let mut place = vec![0xBBBB_BBBB; numbers];
        (find_scene(book, number, &mut place), place, vec![])
    });
    hold_equal("find_scene", book, &left);
}

/// Runs both writers on one table and holds equal what they leave.
fn compare_write(table: &[u32], words: &[u32], room: usize, numbers: usize) {
    let left = WRITE_BOOK.map(|write_book| -> Left {
        let (mut book, mut answer) = (vec![0xAAAA_AAAA; room], vec![0xBBBB_BBBB; numbers]);
        let verdict = write_book(table, words, &mut book, &mut answer);
        (verdict, answer, vec![book])
    });
    hold_equal("write_book", table, &left);
}

/// Compares on the book of these bodies as it is: each scene, the numbers in between, a word left over, and buffers of
/// about its size.
fn compare_whole(bodies: &[Vec<u32>]) {
    let made = Book::new(bodies);
    for number in (0..made.numbers()).chain([u32::MAX]) {
        compare_find(&made.book, number, 2);
    }
    let size = made.book.len();
    for room in [0, 1, size - 1, size, size + 1] {
        compare_write(&made.table, &made.words, room, 2);
    }
    compare_find(&[made.book, vec![0]].concat(), 1, 2);
}

/// Compares on spoilt copies of the book of these bodies, with buffers of other sizes.
fn compare_spoilt(random: &mut Random, bodies: &[Vec<u32>]) {
    let made = Book::new(bodies);
    let (number, numbers) = (random.below(made.numbers()), random.below(5) as usize);
    compare_find(&made.spoilt(random), number, numbers);
    let (table, words) = (spoilt(random, &made.table), spoilt(random, &made.words));
    let room = random.below(2 * made.book.len() as u32) as usize;
    compare_write(&table, &words, room, numbers);
}

/// Compares on bodies and tables about as long as they may be, and on bodies about the end of their buffer. Gives the
/// number of books.
fn compare_edges() -> usize {
    for length in [4095, 4096, 4097] {
        compare_whole(&[vec![7; length]]);
    }
    for scenes in [255, 256, 257] {
        compare_whole(&vec![vec![7]; scenes]);
    }
    let places = [[8, 0], [8, 1], [9, 0], [0, 8], [0, 9], [4, 5], [u32::MAX, 1], [u32::MAX - 4095, 4096]];
    for [start, length] in places {
        compare_write(&[0, start, length], &[7; 8], 16, 2);
    }
    6 + places.len()
}

/// Compares on books of none, one, some and all of these bodies, and on spoilt copies. Gives the number of books
/// compared.
pub fn compare(short: &[Vec<u32>], long: &[Vec<u32>]) -> usize {
    let mut random = Random::new(7);
    let mut done = compare_edges();
    for bodies in [&short[..0], &short[..1], &short[1..13], short, &long[1..2], &long[2..6], long] {
        compare_whole(bodies);
        for _ in 0..64 {
            compare_spoilt(&mut random, bodies);
        }
        done += 65;
    }
    done
}

/// Times both readers on scenes of a book in any order.
fn time_find(rounds: usize, name: &str, made: &Book) {
    let mut random = Random::new(8);
    let entries = made.table.as_chunks::<3>().0;
    let asked = [0; ASKED].map(|_| entries[random.below(entries.len() as u32) as usize][0]);
    let mut place = [0u32; 2];
    let times: [_; 2] = time(rounds, |which| {
        for number in asked {
            black_box(FIND_SCENE[which](&made.book, number, &mut place));
        }
    });
    line(name, "ns per call", ASKED, &times);
}

/// Times both writers. The bodies go half a page from the words that they are copied from: where they lie just past a
/// whole page from them, the system's copy, which Rust calls, can take ten times as long.
fn time_write(rounds: usize, name: &str, made: &Book) {
    let table = 1 + made.table.len();
    let start = (made.words.len() + table).next_multiple_of(PAGE) + PAGE / 2 - table;
    let mut buffer = made.words.clone();
    buffer.resize(start + made.book.len(), 0);
    let (words, book) = buffer.split_at_mut(start);
    let mut answer = [0u32; 2];
    let calls = (WRITTEN / book.len()).max(1);
    let times: [_; 2] = time(rounds, |which| {
        for _ in 0..calls {
            black_box(WRITE_BOOK[which](&made.table, words, book, &mut answer));
        }
    });
    assert!(book == made.book, "write_book: another book");
    line(name, "ns per scene", calls * made.table.len() / 3, &times);
}

/// Times the books of these bodies.
pub fn time_books(rounds: usize, short: &[Vec<u32>], long: &[Vec<u32>]) {
    for (name, bodies) in [("short scenes", short), ("long scenes", long)] {
        let made = Book::new(bodies);
        time_find(rounds, &format!("find_scene, {name}"), &made);
        time_write(rounds, &format!("write_book, {name}"), &made);
    }
}
