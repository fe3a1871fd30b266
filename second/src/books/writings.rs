//! Fixed cases of books to write: good tables, and tables broken in one place and in two.

use super::readings::NUMBERS;
use super::scenes::with;
use super::Case;
use crate::prng::seeded_words;

const MOST_WORDS: u32 = 4096;
const MOST_ENTRIES: usize = 256;
/// Words of the buffer in which short bodies lie.
const WORDS: usize = 12;

/// Scene number, start and length.
type Row = [u32; 3];

/// In one order and another, over each other, twice, empty, at the buffer's edges.
const TABLES: [&[Row]; 16] = [
    &[],
    &[[7, 0, 2]],
    &[[7, 11, 1]],
    &[[7, 0, 12]],
    &[[0, 12, 0]],
    &[[0xFFFFFFFF, 3, 4]],
    &[[7, 0, 2], [9, 2, 1]],
    &[[1, 9, 3], [2, 4, 5], [3, 0, 4]],
    &[[1, 0, 12], [2, 3, 6], [3, 5, 1]],
    &[[1, 2, 4], [2, 2, 4]],
    &[[1, 0, 0], [2, 5, 0], [3, 12, 0]],
    &[[1, 3, 2], [2, 12, 0], [3, 0, 1]],
    &[[1, 0, 0], [2, 7, 5]],
    &[[1, 7, 5], [2, 12, 0]],
    &[[0, 4, 1], [1, 6, 1], [0x7FFFFFFF, 2, 2], [0x80000000, 0, 3], [0xFFFFFFFF, 8, 4]],
    &[[4, 6, 2], [5, 0, 2], [6, 4, 2], [8, 2, 2], [9, 5, 3], [10, 1, 1]],
];

/// Three bodies, and four.
const THREE: [Row; 3] = [[5, 6, 2], [6, 3, 0], [0x80000007, 1, 3]];
const FOUR: [Row; 4] = [[10, 4, 2], [20, 0, 1], [30, 9, 3], [40, 2, 1]];

fn words() -> Vec<u32> {
    seeded_words(0xB00C, WORDS)
}

/// The words of the book of a table, where bodies are no longer than they may be.
fn needed(table: &[u32]) -> usize {
    let lengths = table.chunks_exact(3).map(|row| row[2]).filter(|length| *length <= MOST_WORDS);
    1 + 3 * (table.len() / 3) + lengths.sum::<u32>() as usize
}

/// With room for the book and three more words.
fn roomy(class: &'static str, table: Vec<u32>) -> Case {
    let room = needed(&table) + 3;
    Case::writing(class, table, words(), room)
}

/// Those in the file of stored cases: the short ones and the long ones.
pub fn stored() -> [Vec<Case>; 2] {
    let short = [
        rooms(),
        cut_tables(),
        outside(),
        empty_buffers(),
        one_bit_apart(),
        bits(),
        numbers(),
        two_faults(),
    ];
    [short.concat(), [many_entries(), long_bodies()].concat()]
}

/// Each table with room on both sides of what its book needs.
fn rooms() -> Vec<Case> {
    let mut cases = Vec::new();
    for rows in TABLES {
        let table = rows.concat();
        let (book, contents) = (needed(&table), 1 + table.len());
        let mut rooms = vec![0, 1, contents - 1, contents, book - 1, book, book + 1, book + 5];
        rooms.sort();
        rooms.dedup();
        for room in rooms {
            cases.push(Case::writing("rooms", table.clone(), words(), room));
        }
    }
    cases
}

/// A table of each number of words, with room for its whole entries and a word less.
fn cut_tables() -> Vec<Case> {
    let table = FOUR.concat();
    let mut cases = Vec::new();
    for words in 0..=table.len() {
        let case = roomy("cut tables", table[..words].to_vec());
        let less = Case { out_len: case.out_len - 4, ..case.clone() };
        cases.extend([case, less]);
    }
    cases
}

/// Bodies at the buffer's end and outside, at each place of a table.
fn outside() -> Vec<Case> {
    const END: u32 = WORDS as u32;
    const MAX: u32 = u32::MAX;
    const BODIES: [[u32; 2]; 20] = [
        [END, 0],
        [END - 1, 1],
        [0, END],
        [END, 1],
        [END - 1, 2],
        [END + 1, 0],
        [END + 2, 0],
        [0, END + 1],
        [1, END],
        [0, 4096],
        [0, 4097],
        [MAX, 0],
        [MAX, 1],
        [MAX, 2],
        [1, MAX],
        [0, MAX],
        [MAX - 3, 8],
        [0x80000000, 0x80000000],
        [0x80000000, 1],
        [0x10000, 1],
    ];
    let mut cases = Vec::new();
    for [start, length] in BODIES {
        for k in 0..THREE.len() {
            let mut table = THREE.concat();
            table[3 * k + 1..3 * k + 3].copy_from_slice(&[start, length]);
            cases.push(roomy("bodies outside", table));
        }
        cases.push(roomy("bodies outside", vec![7, start, length]));
    }
    cases
}

/// Nothing to take bodies from.
fn empty_buffers() -> Vec<Case> {
    let tables: [&[Row]; 4] = [&[], &[[1, 0, 0]], &[[1, 0, 1]], &[[1, 0, 0], [2, 0, 0], [3, 1, 0]]];
    let case = |rows: &[Row]| Case { words: Vec::new(), ..roomy("empty buffer", rows.concat()) };
    tables.into_iter().map(case).collect()
}

/// Two numbers that differ in one bit alone.
fn one_bit_apart() -> Vec<Case> {
    let table = |bit: u32| vec![0, 3, 1, 1 << bit, 5, 2];
    (0..32).map(|bit| roomy("numbers one bit apart", table(bit))).collect()
}

/// Each bit of each word of a table.
fn bits() -> Vec<Case> {
    let table = THREE.concat();
    let mut cases = Vec::new();
    for word in 0..table.len() {
        for bit in 0..32 {
            let changed = with(&table, word, table[word] ^ 1 << bit);
            cases.push(roomy("a bit of the table", changed));
        }
    }
    cases
}

fn numbers() -> Vec<Case> {
    let row = |(k, number): (usize, &u32)| [*number, 2 * k as u32, 1 + k as u32 % 2];
    let table =
        |numbers: &[u32]| numbers.iter().enumerate().map(row).collect::<Vec<Row>>().concat();
    NUMBERS.into_iter().map(|numbers| roomy("order of numbers", table(numbers))).collect()
}

/// A fault of the numbers in one entry.
fn with_23(table: &[u32], entry: usize) -> Vec<u32> {
    with(table, 3 * entry, table[3 * (entry - 1)])
}

/// A body outside the buffer, and one too long, in each entry.
fn with_24(table: &[u32]) -> Vec<Vec<u32>> {
    let entries = 0..table.len() / 3;
    let change = |k: usize| [with(table, 3 * k + 1, 50), with(table, 3 * k + 2, 5000)];
    entries.flat_map(change).collect()
}

/// 23 and 24 in each two entries, and each of them with 22 and 11.
fn two_faults() -> Vec<Case> {
    let good = FOUR.concat();
    let mut tables = with_24(&good);
    for entry in 1..FOUR.len() {
        let not_rising = with_23(&good, entry);
        tables.extend(with_24(&not_rising));
        tables.push(not_rising);
    }
    tables.push(good);
    let class = "two faults";
    let mut cases = Vec::new();
    for table in tables {
        let spare = [&table[..], &[50]].concat();
        for table in [table, spare] {
            let case = roomy(class, table);
            let no_room = Case { out_len: 4, ..case.clone() };
            cases.extend([case, no_room]);
        }
    }
    cases
}

/// Tables with about 256 entries: good ones, with words behind, and with each other fault.
fn many_entries() -> Vec<Case> {
    let row = |k: u32| [100 + 2 * k, k % 11, [1, 0, 2][k as usize % 3]];
    let table = |entries: u32| (0..entries).map(row).collect::<Vec<Row>>().concat();
    let most = table(MOST_ENTRIES as u32);
    let over = table(MOST_ENTRIES as u32 + 1);
    let case = |table: &[u32]| roomy("many entries", table.to_vec());
    let mut cases: Vec<Case> =
        [765, 766, 767, 768, 769, 770, 771].map(|words| case(&over[..words])).to_vec();
    cases.extend([1, 128, 255].map(|k| case(&with_23(&most, k))));
    cases.extend([0, 128, 255].map(|k| case(&with(&most, 3 * k + 1, 13))));
    cases.extend([1, 256].map(|k| case(&with_23(&over, k))));
    cases.extend([0, 256].map(|k| case(&with(&over, 3 * k + 1, 13))));
    for table in [most, over] {
        let fits = case(&table);
        cases.push(Case { out_len: fits.out_len - 4, ..fits.clone() });
        cases.push(Case { out_len: fits.out_len - 3, ..fits });
    }
    cases.push(case(&table(512)));
    cases
}

/// Bodies next to 4,096 words, at each place.
fn long_bodies() -> Vec<Case> {
    const OVER: u32 = MOST_WORDS + 1;
    let tables: [&[Row]; 7] = [
        &[[7, 0, MOST_WORDS - 1]],
        &[[7, 0, MOST_WORDS]],
        &[[7, 0, OVER]],
        &[[7, 0, OVER], [9, 0, 1]],
        &[[7, 0, 1], [9, 0, OVER]],
        &[[7, 0, 1], [8, 0, OVER], [9, 0, 1]],
        &[[7, 0, MOST_WORDS], [9, 1, MOST_WORDS]],
    ];
    let words = seeded_words(0xB00C, OVER as usize);
    let case = |rows: &[Row]| {
        let table = rows.concat();
        let room = needed(&table).max(OVER as usize + 10) + 2;
        Case::writing("long bodies", table, words.clone(), room)
    };
    tables.into_iter().map(case).collect()
}

/// The largest book, with room for it and a word less.
pub fn unstored() -> Vec<Case> {
    let words = seeded_words(0xB00C, MOST_WORDS as usize + MOST_ENTRIES);
    let row = |k: u32| [k * 0x01000000, MOST_ENTRIES as u32 - k, MOST_WORDS];
    let table: Vec<u32> = (0..MOST_ENTRIES as u32).map(row).collect::<Vec<Row>>().concat();
    let room = needed(&table);
    let case = |room| Case::writing("largest books", table.clone(), words.clone(), room);
    vec![case(room), case(room - 1), case(room + 7)]
}
