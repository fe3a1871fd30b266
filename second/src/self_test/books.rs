//! Scene books: written out by hand, and on random scenes written and read back, each set of scenes by one
//! book.

use crate::books::{self, agreement, book_of, Scene};
use crate::outcome::prefilled;
use crate::prng::Prng;
use crate::rules::{self, Found, Written};

const RANDOM_CASES: usize = 20_000;

const MAX: u32 = u32::MAX;
const A: u32 = 0xA;
const B: u32 = 0xB;
const C: u32 = 0xC;

/// Scene 7 of two words and scene 9 of one.
const TWO: [u32; 10] = [2, 7, 7, 2, 9, 9, 1, A, B, C];

fn found(book: &[u32], number: u32) -> [u32; 3] {
    let Found { verdict, start, length } = rules::paper().find_scene(book, number);
    let (again, stretch) = rules::paper().scene(book, number);
    assert_eq!((again, stretch.len() as u32), (verdict, length));
    [verdict, start, length]
}

/// The verdict that is given for a number of the table and for another one; nothing is told with it.
fn refusal(book: &[u32]) -> u32 {
    let given = [7, 9, 100].map(|number| found(book, number));
    assert_eq!(given[0], given[1]);
    assert_eq!(given[0], given[2]);
    assert_eq!(given[0][1..], [0, 0]);
    given[0][0]
}

/// Each panics when the numbers aren't those that Ticket 8 gives.
pub fn by_hand() {
    scenes_found();
    table_22();
    numbers_23();
    bodies_24();
    first_refusal();
    most_entries_and_words();
    book_written();
    writer_refusals();
}

fn scenes_found() {
    assert_eq!(found(&TWO, 7), [0, 7, 2]);
    assert_eq!(found(&TWO, 9), [0, 9, 1]);
    assert_eq!(rules::paper().scene(&TWO, 7), (0, &[A, B][..]));
    assert_eq!(rules::paper().scene(&TWO, 9), (0, &[C][..]));
    for number in [0, 1, 2, 6, 8, 10, MAX] {
        assert_eq!(found(&TWO, number), [25, 0, 0]);
    }
    // No entries, and bodies without words.
    assert_eq!(found(&[0], 0), [25, 0, 0]);
    assert_eq!(found(&[1, 0, 4, 0], 0), [0, 4, 0]);
    let empty = [3, 0, 10, 0, 0x80000000, 10, 1, MAX, 11, 0, A];
    assert_eq!(found(&empty, 0), [0, 10, 0]);
    assert_eq!(found(&empty, 0x80000000), [0, 10, 1]);
    assert_eq!(found(&empty, MAX), [0, 11, 0]);
}

fn table_22() {
    assert_eq!(refusal(&[]), 22);
    for words in 1..7 {
        assert_eq!(refusal(&TWO[..words]), 22);
    }
    for count in [4, 257, 0x55555555, 0x80000002, MAX] {
        assert_eq!(refusal(&[&[count], &TWO[1..]].concat()), 22);
    }
}

fn numbers_23() {
    for [first, second] in [[9, 9], [9, 8], [0, 0], [0x80000000, 0x7FFFFFFF], [MAX, 0]] {
        assert_eq!(refusal(&[2, first, 7, 2, second, 9, 1, A, B, C]), 23);
    }
    for [first, second] in [[0, 1], [0x7FFFFFFF, 0x80000000], [0, MAX]] {
        assert_eq!(found(&[2, first, 7, 2, second, 9, 1, A, B, C], second), [0, 9, 1]);
    }
}

fn bodies_24() {
    // Words left over and missing.
    assert_eq!(refusal(&[0, 0]), 24);
    assert_eq!(refusal(&[&TWO[..], &[0]].concat()), 24);
    for words in 7..10 {
        assert_eq!(refusal(&TWO[..words]), 24);
    }
    // Counted from the bodies, from the table and in bytes; a gap, an overlap, the other order.
    for [first, second] in [[0, 2], [6, 8], [28, 36], [7, 10], [7, 8], [8, 9], [8, 7], [9, 9]] {
        assert_eq!(refusal(&[2, 7, first, 2, 9, second, 1, A, B, C]), 24);
    }
    for [first, second] in [[1, 1], [2, 2], [2, 0], [3, 1], [MAX, 4], [4097, 1]] {
        assert_eq!(refusal(&[2, 7, 7, first, 9, 9, second, A, B, C]), 24);
    }
    // Right but for what is lost over 32 bits.
    assert_eq!(refusal(&[2, 7, 7, MAX, 9, 6, 4, A, B, C]), 24);
    // Two words between, with the file so much longer.
    assert_eq!(refusal(&[2, 7, 7, 2, 9, 11, 1, A, B, 0, 0, C]), 24);
}

/// Whatever is wrong besides, in an entry before or behind.
fn first_refusal() {
    assert_eq!(refusal(&[3, 9, 7, 2, 9, 9, 1, A, B]), 22);
    assert_eq!(refusal(&[2, 9, 0, 5000, 9, 9, 1, A]), 23);
    assert_eq!(refusal(&[3, 9, 10, 5000, 10, 0, 0, 10, 0, 0]), 23);
    assert_eq!(refusal(&[3, 9, 10, 0, 9, 10, 0, 10, 0, 0]), 23);
}

fn most_entries_and_words() {
    let empty = |entries: u32| -> Vec<Scene> { (0..entries).map(|k| (k, vec![])).collect() };
    assert_eq!(found(&book_of(&empty(255)), 254), [0, 766, 0]);
    assert_eq!(found(&book_of(&empty(256)), 255), [0, 769, 0]);
    assert_eq!(refusal(&book_of(&empty(257))), 22);
    let long = |words: usize| book_of(&[(7, vec![A; words]), (9, vec![])]);
    assert_eq!(found(&long(4096), 9), [0, 4103, 0]);
    assert_eq!(found(&long(4096), 7), [0, 7, 4096]);
    assert_eq!(refusal(&long(4097)), 24);
}

/// Verdict, words written and the buffer.
fn written(table: &[u32], words: &[u32], room: usize) -> ([u32; 2], Vec<u32>) {
    let mut book = prefilled(room);
    let Written { verdict, words } = rules::paper().write_book(table, words, &mut book);
    ([verdict, words], book)
}

fn book_written() {
    let kept = |book: &[u32], room: usize| [book, &prefilled(room)[book.len()..]].concat();
    for room in 10..14 {
        let book = written(&[7, 1, 2, 9, 0, 1], &[C, A, B], room);
        assert_eq!(book, ([0, 10], kept(&TWO, room)));
    }
    // Over each other, twice, and none.
    let book = [3, 0, 10, 2, 1, 12, 2, MAX, 14, 0, A, B, B, C];
    assert_eq!(written(&[0, 0, 2, 1, 1, 2, MAX, 3, 0], &[A, B, C], 14), ([0, 14], book.to_vec()));
    assert_eq!(written(&[], &[A], 3), ([0, 1], kept(&[0], 3)));
    assert_eq!(written(&[5, 0, 0], &[], 4), ([0, 4], vec![1, 5, 4, 0]));
}

fn writer_refusals() {
    let words = [A, B, C];
    let verdict = |table: &[u32], room: usize| {
        let given = written(table, &words, room);
        assert_eq!(given, ([given.0[0], 0], prefilled(room)));
        given.0[0]
    };
    for words in [1, 2, 4, 5] {
        assert_eq!(verdict(&[7, 1, 2, 7, 9, 9, 1][..words], 0), 22);
    }
    let empty = |entries: u32| (0..entries).flat_map(|k| [k, 3, 0]).collect::<Vec<u32>>();
    assert_eq!(written(&empty(256), &words, 769).0, [0, 769]);
    assert_eq!(verdict(&empty(257), 2000), 22);
    assert_eq!(verdict(&[9, 0, 1, 9, 0, 1], 20), 23);
    assert_eq!(verdict(&[9, 0, 9999, 9, 0, 1], 0), 23);
    for [start, length] in [[3, 1], [2, 2], [4, 0], [MAX, 1], [MAX, 2], [1, MAX], [0, 4097]] {
        assert_eq!(verdict(&[7, start, length, 9, 0, 1], 20), 24);
        assert_eq!(verdict(&[6, 0, 1, 7, start, length], 0), 24);
    }
    for room in 0..10 {
        assert_eq!(verdict(&[7, 1, 2, 9, 0, 1], room), 11);
    }
    assert_eq!(verdict(&[], 0), 11);
    let long = vec![A; 4097];
    assert_eq!(written(&[7, 1, 4096], &long, 4100).0, [0, 4100]);
    assert_eq!(written(&[7, 0, 4097], &long, 4101).0, [24, 0]);
}

/// Every scene reads back word for word, and a book without fault is written again.
pub fn there_and_back() {
    let fixed = books::fixed_cases();
    let random = (0..RANDOM_CASES).map(|index| books::random_case(index, 20));
    let (mut good, mut accepted) = (0, 0);
    for (index, case) in fixed.into_iter().chain(random).enumerate() {
        let run = |case: &books::Case| books::outcome(rules::paper(), case);
        assert_eq!(agreement::disagreement(&case, run), None, "case {index}");
        match (case.function, run(&case).verdict()) {
            (books::Function::FindScene, 0) => good += 1,
            (books::Function::WriteBook, 0) => accepted += 1,
            _ => {}
        }
    }
    assert!(good > 4000 && accepted > 2000, "{good} scenes found, {accepted} books written");
}

/// The book of random scenes is the one written out from the ticket's words; two good books give the same
/// for every scene only if they are the same.
pub fn one_book() {
    let mut others = 0;
    for number in 0..RANDOM_CASES as u64 {
        let mut rng = Prng::new(21, number);
        let scenes = books::random_scenes(&mut rng);
        let book = book_of(&scenes);
        assert_eq!(write(&scenes), book);
        for (number, body) in &scenes {
            assert_eq!(rules::paper().scene(&book, *number), (0, &body[..]));
        }
        let other = one_changed(&mut rng, &book);
        let good = |book: &[u32]| matches!(found(book, 0)[0], 0 | 25);
        if good(&other) {
            assert_eq!(scenes_of(&other) == scenes_of(&book), other == book);
            others += 1;
        }
    }
    assert!(others > 3000, "{others} other books");
}

/// The book that the writer makes of scenes whose bodies lie in falling order.
fn write(scenes: &[Scene]) -> Vec<u32> {
    let bodies = scenes.iter().rev().map(|(_, body)| &body[..]);
    let words: Vec<u32> = bodies.collect::<Vec<_>>().concat();
    let mut end = words.len();
    let mut table = Vec::new();
    for (number, body) in scenes {
        end -= body.len();
        table.extend([*number, end as u32, body.len() as u32]);
    }
    let mut book = vec![0; 1 + table.len() + words.len()];
    let given = rules::paper().write_book(&table, &words, &mut book);
    assert_eq!(given, Written { verdict: 0, words: book.len() as u32 });
    book
}

/// What a good book says: each number of its contents, and what is found for it.
fn scenes_of(book: &[u32]) -> Vec<Scene> {
    let entries = book[1..].chunks_exact(3).take(book[0] as usize);
    let scene = |entry: &[u32]| {
        let (verdict, body) = rules::paper().scene(book, entry[0]);
        assert_eq!(verdict, 0);
        (entry[0], body.to_vec())
    };
    entries.map(scene).collect()
}

/// A book with a word one more or less, or a word more or less.
fn one_changed(rng: &mut Prng, book: &[u32]) -> Vec<u32> {
    let mut other = book.to_vec();
    let at = rng.below(book.len());
    match rng.below(4) {
        0 => other[at] = other[at].wrapping_add(1),
        1 => other[at] = other[at].wrapping_sub(1),
        2 => drop(other.remove(at)),
        _ => other.insert(at, rng.word()),
    }
    other
}
