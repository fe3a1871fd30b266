//! Fixed cases of scenes to find: good books, and books broken in one place and in two.

use super::scenes::{at, book, book_of, many, with, LENGTH, NUMBER, START};
use super::Case;

const ABSENT: u32 = 1000;
const MOST_ENTRIES: usize = 256;
const MOST_WORDS: usize = 4096;

/// Scene numbers and lengths of their bodies.
type Layout = &'static [(u32, usize)];

const SMALL: [Layout; 12] = [
    &[],
    &[(7, 2)],
    &[(0, 0)],
    &[(0xFFFFFFFF, 1)],
    &[(7, 2), (9, 1)],
    &[(5, 0), (6, 2), (7, 3)],
    &[(5, 2), (6, 0), (7, 3)],
    &[(5, 2), (6, 3), (7, 0)],
    &[(1, 0), (3, 0), (0x100, 0)],
    &[(1, 3), (2, 1), (3, 1), (4, 2)],
    &[(0, 1), (1, 3), (0x7FFFFFFF, 2), (0x80000000, 0), (0xFFFFFFFF, 4)],
    &[(2, 3), (4, 1), (6, 1), (7, 5), (0x1000, 2), (0x1002, 4), (0x80000001, 7), (0x80000003, 1)],
];

/// Three bodies, one of them empty, and four with words in each.
const THREE: Layout = &[(5, 2), (6, 0), (0x80000007, 3)];
const FOUR: Layout = &[(10, 2), (20, 1), (30, 3), (40, 1)];

/// Those in the file of stored cases: the short ones and the long ones.
pub fn stored() -> [Vec<Case>; 2] {
    let short = [
        small(),
        one_bit_apart(),
        counts(),
        bits(),
        cut_and_longer(),
        starts(),
        lengths(),
        wrapped_sums(),
        misplaced(),
        numbers(),
        two_faults(),
        cut_with_other_faults(),
    ];
    [short.concat(), [many_entries(), too_many_entries(), long_bodies()].concat()]
}

/// Every scene of small books, and numbers next to theirs.
fn small() -> Vec<Case> {
    let mut cases = Vec::new();
    for layout in SMALL {
        let book = book(layout);
        for number in near(&book, layout.len()) {
            cases.push(Case::reading("small books", book.clone(), number));
        }
    }
    cases
}

/// The numbers of a book, those next to them, places, starts and edges.
fn near(book: &[u32], entries: usize) -> Vec<u32> {
    let own = (0..entries).map(|k| book[at(k, NUMBER)]);
    let beside = own.flat_map(|n| [n.wrapping_sub(1), n, n.wrapping_add(1)]);
    let starts = (0..entries).map(|k| book[at(k, START)]);
    let edges = [0, 1, 2, entries as u32, 0x7FFFFFFF, 0x80000000, 0xFFFFFFFF];
    let mut all: Vec<u32> = beside.chain(starts).chain(edges).collect();
    all.sort();
    all.dedup();
    all
}

/// Two numbers that differ in one bit alone, and one that isn't there and differs so from the second.
fn one_bit_apart() -> Vec<Case> {
    let mut cases = Vec::new();
    for bit in 0..32 {
        let book = book(&[(0, 1), (1 << bit, 2)]);
        for number in [1 << bit, 1 << bit | 1 << ((bit + 1) % 32)] {
            cases.push(Case::reading("numbers one bit apart", book.clone(), number));
        }
    }
    cases
}

/// Another count, in books with and without entries.
fn counts() -> Vec<Case> {
    const WRAPPING: [u32; 4] = [0x55555555, 0x55555556, 0xAAAAAAAB, 0xFFFFFFFF];
    let mut cases = Vec::new();
    for layout in [SMALL[0], SMALL[1], SMALL[2], SMALL[4], THREE] {
        let (book, count) = (book(layout), layout.len() as u32);
        let near = [count.wrapping_sub(1), count + 1, count + 2, 256, 257];
        let bits = (0..32).map(|bit| count ^ 1 << bit);
        for other in near.into_iter().chain(WRAPPING).chain(bits) {
            let number = layout.first().map_or(0, |first| first.0);
            cases.push(Case::reading("another count", with(&book, 0, other), number));
        }
    }
    cases
}

/// Each bit of each word of the contents.
fn bits() -> Vec<Case> {
    let book = book(THREE);
    let mut cases = Vec::new();
    for word in 1..=3 * THREE.len() {
        for bit in 0..32 {
            let changed = with(&book, word, book[word] ^ 1 << bit);
            cases.push(Case::reading("a bit of the contents", changed, 6));
        }
    }
    cases
}

/// A file cut at each word, and with words behind it.
fn cut_and_longer() -> Vec<Case> {
    let mut cases = Vec::new();
    for layout in [SMALL[0], SMALL[1], SMALL[2], SMALL[4], SMALL[7], SMALL[8], FOUR] {
        let book = book(layout);
        let number = layout.first().map_or(0, |first| first.0);
        for words in 0..book.len() {
            cases.push(Case::reading("a cut file", book[..words].to_vec(), number));
        }
        for more in [1, 2, 3, 4, 9] {
            let longer = [&book[..], &vec![0; more]].concat();
            cases.push(Case::reading("words left over", longer, number));
        }
    }
    cases
}

/// Each start alone, and all of them, counted otherwise.
fn starts() -> Vec<Case> {
    let mut cases = Vec::new();
    for layout in [SMALL[1], SMALL[2], SMALL[4], SMALL[6], SMALL[8], FOUR] {
        let (book, count) = (book(layout), layout.len());
        let contents = 1 + 3 * count as u32;
        let others: [fn(u32, u32) -> u32; 8] = [
            |start, _| start - 1,
            |start, _| start + 1,
            |start, contents| start - contents,
            |start, _| 4 * start,
            |_, _| 0,
            |_, _| u32::MAX,
            |start, _| start + 0x80000000,
            |_, contents| contents,
        ];
        for other in others {
            let start = |k: usize| other(book[at(k, START)], contents);
            let mut all = book.clone();
            for k in 0..count {
                let one = with(&book, at(k, START), start(k));
                cases.push(Case::reading("a start", one, layout[count - 1].0));
                all[at(k, START)] = start(k);
            }
            cases.push(Case::reading("all starts", all, layout[0].0));
        }
    }
    cases
}

/// Each length alone, and with the starts behind it as they then have to be.
fn lengths() -> Vec<Case> {
    let mut cases = Vec::new();
    for layout in [SMALL[1], SMALL[2], SMALL[4], SMALL[6], SMALL[8], FOUR] {
        let book = book(layout);
        for k in 0..layout.len() {
            let length = book[at(k, LENGTH)];
            let near = [length.wrapping_sub(1), length + 1, length + 2];
            let far = [0, 4095, 4096, 4097, 0x10000, 0x80000000, u32::MAX, length | 0x10000];
            for other in near.into_iter().chain(far).filter(|other| *other != length) {
                let one = with(&book, at(k, LENGTH), other);
                let mut moved = one.clone();
                for later in k + 1..layout.len() {
                    let start = &mut moved[at(later, START)];
                    *start = start.wrapping_sub(length).wrapping_add(other);
                }
                cases.push(Case::reading("a length", one, layout[0].0));
                cases.push(Case::reading("a length, starts moved", moved, layout[0].0));
            }
        }
    }
    cases
}

/// Lengths whose sum is the right one in 32 bits.
fn wrapped_sums() -> Vec<Case> {
    const HALF: u32 = 0x80000000;
    let lengths: [&[u32]; 8] = [
        &[u32::MAX, 3],
        &[3, u32::MAX],
        &[2, u32::MAX, 3],
        &[HALF, HALF],
        &[HALF, 2, HALF],
        &[1, HALF, HALF],
        &[0u32.wrapping_sub(4096), 4096, 2],
        &[u32::MAX, u32::MAX, 4],
    ];
    let mut cases = Vec::new();
    for lengths in lengths {
        let mut book = vec![lengths.len() as u32];
        let mut start = 1 + 3 * lengths.len() as u32;
        for (k, &length) in lengths.iter().enumerate() {
            book.extend([k as u32, start, length]);
            start = start.wrapping_add(length);
        }
        book.resize(start as usize, 0xB0D1E5);
        for number in 0..=lengths.len() as u32 {
            cases.push(Case::reading("sums that wrap", book.clone(), number));
        }
    }
    cases
}

/// Bodies apart, over each other, over the table, in another order; a word missing.
fn misplaced() -> Vec<Case> {
    let book = book(FOUR);
    let ask = |class, book: &Vec<u32>| [10, 20, 40].map(|n| Case::reading(class, book.clone(), n));
    let mut cases = Vec::new();
    for k in 0..FOUR.len() {
        let place = book[at(k, START)] as usize;
        let (mut apart, mut over) = (book.clone(), book.clone());
        for later in k..FOUR.len() {
            apart[at(later, START)] += 1;
            over[at(later, START)] -= 1;
        }
        apart.insert(place, 0);
        cases.extend(ask("a word between bodies", &apart));
        cases.extend(ask("bodies over each other", &over[..over.len() - 1].to_vec()));
        let body = place..place + FOUR[k].1;
        let mut less = book.clone();
        less.remove(body.start);
        cases.extend(ask("a word missing", &less));
        for other in 0..k {
            cases.extend(ask("bodies exchanged", &exchanged(&book, other, k)));
        }
    }
    cases
}

/// The bodies of two entries in each other's place, with the starts as they then have to be.
fn exchanged(book: &[u32], first: usize, second: usize) -> Vec<u32> {
    let mut order: Vec<usize> = (0..book[0] as usize).collect();
    order.swap(first, second);
    let mut changed = book[..at(order.len(), 0)].to_vec();
    for k in order {
        let [start, length] = [book[at(k, START)] as usize, book[at(k, LENGTH)] as usize];
        changed[at(k, START)] = changed.len() as u32;
        changed.extend(&book[start..start + length]);
    }
    changed
}

/// Numbers that rise, and that don't at some place, as signed ones too.
pub const NUMBERS: [&[u32]; 24] = [
    &[0, 1],
    &[0, 0],
    &[1, 0],
    &[5, 5],
    &[6, 5],
    &[0x7FFFFFFF, 0x80000000],
    &[0x80000000, 0x7FFFFFFF],
    &[0x80000000, 0x80000000],
    &[0, 0xFFFFFFFF],
    &[0xFFFFFFFF, 0],
    &[0xFFFFFFFE, 0xFFFFFFFF],
    &[0xFFFFFFFF, 0xFFFFFFFF],
    &[3, 3, 4, 5],
    &[3, 4, 4, 5],
    &[3, 4, 5, 5],
    &[4, 3, 5, 6],
    &[3, 5, 4, 6],
    &[3, 4, 6, 5],
    &[3, 5, 3],
    &[5, 6, 1],
    &[9, 1, 5],
    &[7, 7, 7],
    &[6, 5, 4, 3],
    &[1, 2, 0x80000000, 3, 4],
];

fn numbers() -> Vec<Case> {
    let mut cases = Vec::new();
    for numbers in NUMBERS {
        let layout: Vec<(u32, usize)> =
            numbers.iter().enumerate().map(|(k, number)| (*number, 1 + k % 2)).collect();
        let book = book(&layout);
        for number in [numbers[0], numbers[numbers.len() - 1], ABSENT] {
            cases.push(Case::reading("order of numbers", book.clone(), number));
        }
    }
    cases
}

/// A fault of the numbers in one entry.
fn with_23(book: &[u32], entry: usize) -> Vec<u32> {
    with(book, at(entry, NUMBER), book[at(entry - 1, NUMBER)])
}

/// Faults of one body or of the file's end: each entry that is meant, and none.
fn with_24(book: &[u32]) -> Vec<Vec<u32>> {
    let mut all = vec![[book, &[0]].concat(), book[..book.len() - 1].to_vec()];
    for k in 0..FOUR.len() {
        all.push(with(book, at(k, START), book[at(k, START)] + 1));
        all.push(with(book, at(k, LENGTH), 5000));
    }
    all
}

/// 23 and 24 in each two entries, and each of them with 25.
fn two_faults() -> Vec<Case> {
    let good = book(FOUR);
    let mut broken = with_24(&good);
    for entry in 1..FOUR.len() {
        let not_rising = with_23(&good, entry);
        broken.extend(with_24(&not_rising));
        broken.push(not_rising);
    }
    let ask = |book: &Vec<u32>| {
        [10, 40, ABSENT].map(|number| Case::reading("two faults", book.clone(), number))
    };
    broken.iter().flat_map(ask).collect()
}

/// 22 with each of the others.
fn cut_with_other_faults() -> Vec<Case> {
    let good = book(FOUR);
    let mut broken = with_24(&good);
    broken.extend((1..FOUR.len()).map(|entry| with_23(&good, entry)));
    broken.push(good);
    let mut cases = Vec::new();
    for book in broken {
        for count in [7, 257, 0x55555555] {
            for number in [10, ABSENT] {
                let cut = with(&book, 0, count);
                cases.push(Case::reading("a cut table and another fault", cut, number));
            }
        }
        let cut = book[..at(3, LENGTH)].to_vec();
        cases.push(Case::reading("a cut table and another fault", cut, 10));
    }
    cases
}

/// Books of 255 and 256 entries, and of 256 with one of them faulty.
fn many_entries() -> Vec<Case> {
    let class = "many entries";
    let mut cases = Vec::new();
    for (count, lengths, numbers) in [
        (255, &[0][..], &[608, 610][..]),
        (256, &[0], &[100, 610]),
        (256, &[1, 0, 2], &[99, 100, 228, 610, 612]),
    ] {
        let book = book_of(&many(count, 100, 2, lengths));
        let ask = |number: &u32| Case::reading(class, book.clone(), *number);
        cases.extend(numbers.iter().map(ask));
    }
    let book = book_of(&many(MOST_ENTRIES, 100, 2, &[1, 0]));
    for k in [0, 1, 128, 255] {
        cases.push(Case::reading(class, with(&book, at(k, START), 0), 100));
    }
    for k in [1, 128, 255] {
        cases.push(Case::reading(class, with_23(&book, k), 100));
    }
    cases
}

/// 257 entries and more that would be a good book, and with another fault.
fn too_many_entries() -> Vec<Case> {
    let class = "too many entries";
    let book = book_of(&many(MOST_ENTRIES + 1, 0, 3, &[0, 1]));
    let ask = |book: &[u32], number| Case::reading(class, book.to_vec(), number);
    vec![
        ask(&book, 0),
        ask(&book, 3 * 256),
        ask(&book, 1),
        ask(&book_of(&many(512, 0, 1, &[0])), 5),
        ask(&with_23(&book, 1), 0),
        ask(&with_23(&book, 256), 0),
        ask(&with(&book, at(0, START), 0), 0),
        ask(&with(&book, at(256, LENGTH), 5000), 0),
        ask(&book[..book.len() - 1], 0),
        ask(&with(&book, 0, 256), 0),
    ]
}

/// Bodies next to 4,096 words, at each place.
fn long_bodies() -> Vec<Case> {
    const OVER: usize = MOST_WORDS + 1;
    let class = "long bodies";
    let layouts: [&[(u32, usize)]; 7] = [
        &[(7, MOST_WORDS - 1)],
        &[(7, MOST_WORDS)],
        &[(7, OVER)],
        &[(7, OVER), (9, 1)],
        &[(7, 1), (9, OVER)],
        &[(5, 1), (7, OVER), (9, 1)],
        &[(7, MOST_WORDS), (9, MOST_WORDS)],
    ];
    layouts.into_iter().map(|layout| Case::reading(class, book(layout), 7)).collect()
}

/// Too long for the file: the largest book, and such books with a fault.
pub fn unstored() -> Vec<Case> {
    let class = "largest books";
    let largest = many(MOST_ENTRIES, 0, 0x01000000 - 1, &[MOST_WORDS]);
    let book = book_of(&largest);
    let last = largest[MOST_ENTRIES - 1].0;
    let mut cases: Vec<Case> =
        [0, last, 1].map(|number| Case::reading(class, book.clone(), number)).to_vec();
    let mut longer = book;
    longer.push(0);
    cases.push(Case::reading(class, longer, 0));
    cases
}
