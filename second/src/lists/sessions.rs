//! Sessions: several lists in one buffer, and the table of their starts and lengths.

use super::commands::{self, any_word, command_like_word};
use super::random::{any_list, any_refused_list, long_list};
use super::{any_buffer_length, any_image, any_seed, Case, CaseKind, Image, Purpose};
use crate::prng::Prng;
use crate::rules::{self, IMAGE_WORDS, MAX_LIST_WORDS};

const FLUSH: u32 = 0x00000001;
const TIMER: u32 = 0x02000000;
const BASE: u32 = 0x21000100;
const BEGIN: [u32; 4] = [0x10100007, 0, 0, 0];

/// Pairs that a table may have.
const MOST_PAIRS: usize = 4096;

/// Settings and work: two records, one, none, three.
const GOOD: [&[u32]; 4] = [
    &[0x02000010, FLUSH, 0x05000007],
    &[0x30000011, 0x02000020, 0x48000000, 0, 0, 0],
    &[0x26000003, 0x30000012],
    &[0x05000003, FLUSH, 0x8C000001, 1, 2, 3, 0x20000005],
];

/// A command for each of verdicts 5, 9, 3, 4, 6, 7, 15 to 19 and 10; the first two are cut short.
pub const REFUSED: [&[u32]; 12] = [
    &[0x84000000, 0x80000000, 0],
    &[0x40000001, 0, 0, 0, 0, 0, 0],
    &[0x06000000],
    &[0x03000000],
    &[0x88000000, 0, 0x80C00000, 0],
    &[0x84000000, 0x30000000, 0, 0],
    &[0x84000000, 0x10000000, 0xC0000000, 0],
    &[0x84000000, 0, 0x30004000, 0],
    &[0x88004000, 0, 0, 0],
    &[0x40800000, 0, 0, 0],
    &[0x40502400, 0, 0, 0],
    &[BASE, FLUSH],
];
pub const CUT_SHORT: usize = 2;
/// A command with an undefined bit.
pub const UNDEFINED: u32 = 0x01000002;

/// One with a zero image and room for all records.
fn plain(class: &'static str, words: Vec<u32>, table: Vec<u32>) -> Case {
    let mut case = Case {
        class,
        kind: CaseKind::Session,
        list: words,
        arguments: table,
        image: Image::ZERO,
        records_len: 0,
        out_len: 0,
        pci_len: 0,
    };
    case.records_len = needed_words(&case) + 5;
    case
}

/// The words of all records up to a refusal other than 11.
fn needed_words(case: &Case) -> usize {
    // No command is shorter than a word.
    let lengths = case.arguments.chunks_exact(2).map(|pair| pair[1] as usize);
    let room: usize = lengths.map(|length| 4 * length.min(MAX_LIST_WORDS)).sum();
    let mut records = vec![0; room];
    let read = |image: &mut Vec<u32>, records: &mut Vec<u32>| {
        rules::paper().read_scenes(&case.list, &case.arguments, image, records)
    };
    read(&mut case.image.words(), &mut records).answer.words as usize
}

/// Lists one behind the other, and their table.
fn laid(lists: &[&[u32]]) -> (Vec<u32>, Vec<u32>) {
    let mut table = Vec::new();
    let mut start = 0;
    for list in lists {
        table.extend([start, list.len() as u32]);
        start += list.len() as u32;
    }
    (lists.concat(), table)
}

fn laid_case(class: &'static str, lists: &[&[u32]]) -> Case {
    let (words, table) = laid(lists);
    plain(class, words, table)
}

/// Sessions that are the same in every run.
pub fn fixed_sessions() -> Vec<Case> {
    let stored = stored_sessions().into_iter();
    stored.flatten().chain(numbers_of_pairs()).chain(many_commands()).collect()
}

/// Those in the vectors file: the short ones and the long ones.
pub fn stored_sessions() -> [Vec<Case>; 2] {
    let short = [
        no_pairs(),
        layouts(),
        odd_words(),
        refused_lists(),
        two_refused(),
        outside_pairs(),
        before_the_list(),
        image_lengths(),
        record_rooms(),
        surface_bases(),
    ];
    [short.concat(), [long_lists(), most_pairs(), many_settings()].concat()]
}

fn no_pairs() -> Vec<Case> {
    let mut cases = Vec::new();
    for len in [0, 1, 255, 256, 257, 300] {
        for (words, table) in [(0, vec![]), (3, vec![]), (3, vec![0]), (3, vec![2]), (3, vec![!0])]
        {
            let image = Image::Seeded { seed: 7 * len as u32, len };
            let case = plain("session: no pair", GOOD[0][..words].to_vec(), table);
            cases.push(Case { image, ..case });
        }
    }
    cases
}

/// Tables over the same words: lists in any order, repeated, overlapping, empty, with gaps.
fn layouts() -> Vec<Case> {
    let words = GOOD.concat();
    let [a, b, c, d] = [[0, 3], [3, 6], [9, 2], [11, 7]];
    let tables: [&[[u32; 2]]; 18] = [
        &[a],
        &[d],
        &[a, b],
        &[b, a],
        &[a, b, c, d],
        &[d, c, b, a],
        &[a, d, a],
        &[a, a, a, a],
        &[c, a, c],
        &[[0, 18]],
        &[[0, 18], [3, 6]],
        &[[1, 2], [0, 5], [2, 1], [0, 2]],
        &[[0, 0]],
        &[[7, 0], a, [18, 0]],
        &[a, [18, 0], d],
        &[[18, 0], [0, 0], [18, 0]],
        &[b, [5, 4], [5, 4], [17, 1]],
        &[[4, 1], [17, 1], [10, 1], [13, 4]],
    ];
    let case = |table: &[[u32; 2]]| plain("session: layouts", words.clone(), table.concat());
    let mut cases: Vec<Case> = tables.into_iter().map(case).collect();
    for (k, case) in cases.clone().into_iter().enumerate().step_by(3) {
        let image = Image::Seeded { seed: 1 + k as u32, len: IMAGE_WORDS };
        cases.push(Case { image, ..case });
    }
    cases
}

fn odd_words() -> Vec<Case> {
    let words = GOOD.concat();
    let mut cases = Vec::new();
    for front in [&[][..], &[0, 3], &[3, 6, 0, 3], &[0, 3, 9, 2, 11, 7]] {
        for odd in [0, 2, 9, 11, 18, 19, !0] {
            let table = [front, &[odd]].concat();
            cases.push(plain("session: odd words", words.clone(), table));
        }
    }
    cases
}

/// A list refused with each verdict, behind a setting and work: as the first, in between, as the last.
fn refused_lists() -> Vec<Case> {
    let mut cases = Vec::new();
    for (k, refused) in REFUSED.into_iter().enumerate() {
        let list = [&[0x31000005, 0x05000009, FLUSH], refused].concat();
        let behind = if k < CUT_SHORT { &[][..] } else { &[UNDEFINED] };
        let two = [refused, behind].concat();
        for lists in [
            &[GOOD[0], GOOD[3], &list, GOOD[1]][..],
            &[&list, GOOD[0]],
            &[GOOD[1], GOOD[2], GOOD[0], refused],
            &[GOOD[1], &[], &two, GOOD[0]],
        ] {
            cases.push(laid_case("session: refused lists", lists));
        }
    }
    // Cut out of good ones.
    for table in [&[0, 3, 3, 4, 0, 3][..], &[1, 1, 6, 2], &[11, 7, 11, 4]] {
        cases.push(plain("session: refused lists", GOOD.concat(), table.to_vec()));
    }
    cases
}

/// Two refused lists, or a refused list and a pair outside: the first one's refusal.
fn two_refused() -> Vec<Case> {
    let mut cases = Vec::new();
    for (k, first) in REFUSED.iter().enumerate() {
        let second = REFUSED[(k + 5) % REFUSED.len()];
        let lists = [GOOD[0], first, GOOD[3], second, GOOD[2]];
        cases.push(laid_case("session: two refused", &lists));
        let mut case = laid_case("session: two refused", &lists[..3]);
        case.arguments.extend([k as u32, 99]);
        cases.push(case.clone());
        // The pair outside first.
        case.arguments.rotate_right(2);
        cases.push(case);
    }
    cases
}

/// Pairs outside the buffer and just inside, by one word and by a sum that wraps; the buffer has 18 words.
const EDGES: [[u32; 2]; 27] = [
    [17, 1],
    [18, 0],
    [0, 18],
    [17, 2],
    [18, 1],
    [19, 0],
    [0, 19],
    [1, 18],
    [11, 8],
    [20, 7],
    [18, 18],
    [300, 0],
    [0, 300],
    [0xFFFFFFFF, 0],
    [0xFFFFFFFF, 1],
    [0xFFFFFFFF, 2],
    [0xFFFFFFFF, 18],
    [0xFFFFFFFD, 6],
    [0xFFFFFFFF, 0xFFFFFFFF],
    [1, 0xFFFFFFFF],
    [3, 0xFFFFFFFE],
    [18, 0xFFFFFFEE],
    [0, 0xFFFFFFFF],
    [0x80000000, 0x80000000],
    [0x80000000, 0x80000003],
    [0x40000000, 1],
    [0, 0x80000000],
];

/// Each of them as the first, in between and as the last.
fn outside_pairs() -> Vec<Case> {
    let words = GOOD.concat();
    let mut cases = Vec::new();
    for pair in EDGES {
        for (before, after) in [(0, 0), (0, 2), (2, 2), (6, 0), (8, 2)] {
            let table = [&[3, 6, 0, 3, 11, 7, 9, 2][..before], &pair, &[3, 6][..after]].concat();
            cases.push(plain("session: edges of the buffer", words.clone(), table));
        }
    }
    // An empty buffer, and one of a single word.
    for words in [&[][..], &[0x02000010]] {
        for table in [&[0, 0][..], &[0, 1], &[1, 0], &[1, 1], &[0, 0, 1, 0, 0, 2], &[2, 0]] {
            cases.push(plain("session: edges of the buffer", words.to_vec(), table.to_vec()));
        }
    }
    cases
}

/// A pair outside whose list would be refused: too long, with a wrong image, or for its first words.
fn before_the_list() -> Vec<Case> {
    let mut cases = Vec::new();
    for (len, pair) in [
        (256, [0, 4097]),
        (256, [7, 5000]),
        (255, [7, 5000]),
        (255, [7, 12]),
        (257, [19, 0]),
        (0, [0, !0]),
        (256, [7, 12]),
        (256, [4, 15]),
    ] {
        // 06000000 behind a good list of three words.
        let mut words = vec![0x06000000; 18];
        words[..3].copy_from_slice(GOOD[0]);
        for front in [&[][..], &[0, 3]] {
            let table = [front, &pair, &[1, 1]].concat();
            let image = Image::Seeded { seed: 5, len };
            let case = plain("session: before the list", words.clone(), table);
            cases.push(Case { image, ..case });
        }
    }
    cases
}

fn image_lengths() -> Vec<Case> {
    let mut cases = Vec::new();
    for len in [0, 1, 255, 257, 300] {
        for lists in [
            &[&[][..]][..],
            &[GOOD[0], GOOD[1]],
            &[&[], GOOD[3]],
            &[REFUSED[2], GOOD[0]],
            &[&[UNDEFINED], GOOD[0]],
        ] {
            for room in [0, 40] {
                let image = Image::Seeded { seed: 3 * len as u32, len };
                let case = laid_case("session: image lengths", lists);
                cases.push(Case { image, records_len: room, ..case });
            }
        }
    }
    cases
}

/// Six records in three of five lists, with all rooms up to theirs, and a refused list behind them.
fn record_rooms() -> Vec<Case> {
    let mut cases = Vec::new();
    let accepted = [GOOD[0], GOOD[2], GOOD[3], &[], GOOD[1]];
    let refused = [GOOD[1], &[FLUSH, FLUSH, 0x06000000], GOOD[0]];
    for (lists, rooms) in [(&accepted[..], 0..=29), (&refused[..], 0..=13)] {
        for room in rooms {
            let case = laid_case("session: record rooms", lists);
            cases.push(Case { records_len: room, ..case });
        }
    }
    cases
}

/// Surface bases at the end of lists; the next one opens with BEGIN or not, or is empty.
fn surface_bases() -> Vec<Case> {
    let begin_first = [&BEGIN[..], &[BASE]].concat();
    let flip = [&[BASE], &BEGIN[..]].concat();
    let sessions: [&[&[u32]]; 11] = [
        &[&[BASE], &[FLUSH]],
        &[&[BASE], &[TIMER]],
        &[&[BASE], &[BASE], &[BASE]],
        &[&[BASE], &BEGIN],
        &[&[BASE], &[], &[FLUSH]],
        &[&[FLUSH, BASE], GOOD[1], &begin_first, GOOD[0]],
        &[&[BASE], &[0x06000000]],
        &[&[BASE], &[0x01000002]],
        &[&[BASE], &[BASE, FLUSH]],
        &[&flip, &[FLUSH]],
        &[&flip, &[0x25000000], &[0x23000000], &flip, &[TIMER, 0x23000001], GOOD[2]],
    ];
    let mut cases: Vec<Case> =
        sessions.map(|lists| laid_case("session: surface bases", lists)).to_vec();
    // One list cut in two behind the base.
    let words = vec![TIMER, BASE, FLUSH, TIMER];
    for table in [[0, 2, 2, 2], [0, 3, 2, 2], [1, 1, 2, 1]] {
        cases.push(plain("session: surface bases", words.clone(), table.to_vec()));
    }
    cases
}

/// Settings that all differ, without work.
fn timers(words: usize) -> Vec<u32> {
    (0..words as u32).map(|k| TIMER | k).collect()
}

/// A buffer longer than a list, lists of the largest length and one word more, and their sums.
fn long_lists() -> Vec<Case> {
    let max = MAX_LIST_WORDS as u32;
    let words = timers(MAX_LIST_WORDS + 4);
    let accepted = [[0, max], [4, max], [max + 3, 1], [2, 3]].concat();
    // With work and an undefined bit in it.
    let with_work = [&GOOD.concat(), &words[18..], &[UNDEFINED]].concat();
    let too_long = [[0, 3], [2, 0], [11, 7], [4, max + 1], [9, 2]].concat();
    let case = |words: &[u32], table: Vec<u32>| plain("session: long lists", words.to_vec(), table);
    let wrong_image = case(&words, [[3, max + 1], [1, 1]].concat());
    vec![
        case(&words, accepted),
        case(&with_work, too_long),
        Case { image: Image::Seeded { seed: 2, len: 255 }, ..wrong_image },
    ]
}

/// The largest list 17 times.
fn many_settings() -> Vec<Case> {
    let table = [0, MAX_LIST_WORDS as u32].repeat(17);
    vec![plain("session: many settings", timers(MAX_LIST_WORDS), table)]
}

/// As many pairs as there may be, and more; most have one word, some none.
fn most_pairs() -> Vec<Case> {
    let pair = |k: usize| [(k % 7) as u32, (k % 5 != 1) as u32];
    let table = |pairs: usize| -> Vec<u32> { (0..pairs).flat_map(pair).collect() };
    let case = |words: Vec<u32>, table: &[u32], more: &[u32]| {
        plain("session: most pairs", words, [table, more].concat())
    };
    let (words, most) = (timers(7), table(MOST_PAIRS));
    vec![
        case(words.clone(), &most, &[3]),
        // A list outside behind one too many.
        case(words.clone(), &most, &[5, 2, 6, 9]),
        // One too many, whose list is too long.
        case(timers(MAX_LIST_WORDS + 2), &most, &[1, MAX_LIST_WORDS as u32 + 1]),
    ]
}

/// Around the largest number of pairs: of empty lists, of settings, of work, of refused lists.
fn numbers_of_pairs() -> Vec<Case> {
    let mut cases = Vec::new();
    for pairs in MOST_PAIRS - 1..=MOST_PAIRS + 2 {
        for (word, length) in [(0x06000000, 0), (TIMER | 5, 1), (FLUSH, 1)] {
            let table = [0, length].repeat(pairs);
            cases.push(plain("session: numbers of pairs", vec![word], table));
        }
        let mut table = [0, 1].repeat(pairs);
        table[2 * MOST_PAIRS - 4..].fill(1);
        cases.push(plain("session: numbers of pairs", vec![FLUSH, 0x06000000], table));
    }
    cases
}

/// Sums of commands and records over 16,384 and over 65,536.
fn many_commands() -> Vec<Case> {
    let max = MAX_LIST_WORDS as u32;
    let mut words = vec![FLUSH; MAX_LIST_WORDS];
    words[9] = TIMER | 1;
    let mut cases = Vec::new();
    for lists in [5, 17] {
        let case = plain("session: many commands", words.clone(), [0, max].repeat(lists));
        let records_len = case.records_len - 6;
        cases.push(Case { records_len, ..case.clone() });
        cases.push(case);
    }
    cases
}

/// A session made at random: of good lists, most with at most one refused.
pub fn random_session(rng: &mut Prng, purpose: Purpose) -> Case {
    if purpose == Purpose::Run && rng.once_in(150) {
        return long_session(rng);
    }
    let lists = any_lists(rng, purpose);
    let (words, mut pairs) = any_layout(rng, lists);
    let class = any_pairs_more(rng, words.len(), &mut pairs);
    with_surroundings(rng, class, words, pairs, purpose)
}

fn with_surroundings(
    rng: &mut Prng,
    class: &'static str,
    words: Vec<u32>,
    pairs: Vec<[u32; 2]>,
    purpose: Purpose,
) -> Case {
    let mut table = pairs.concat();
    if rng.once_in(5) {
        table.push(if rng.once_in(2) { any_word(rng) } else { rng.below(words.len() + 2) as u32 });
    }
    let mut case = plain(class, words, table);
    case.image = match rng.below(30) {
        0 => Image::Seeded { seed: any_seed(rng), len: rng.pick(&[0, 1, 255, 257, 300]) },
        _ => any_image(rng, &case.list, purpose),
    };
    let needed = needed_words(&case);
    case.records_len = purpose.buffer_length(any_buffer_length(rng, needed));
    case
}

fn any_lists(rng: &mut Prng, purpose: Purpose) -> Vec<Vec<u32>> {
    let count = match rng.below(8) {
        0 => rng.below(3),
        1 => 9 + rng.below(6),
        _ => 1 + rng.below(8),
    };
    let refused = match rng.below(6) {
        0 => rng.below(count + 1),
        1 => count.wrapping_sub(1),
        _ => usize::MAX,
    };
    let list = |k: usize| match k == refused {
        true => any_refused_list(rng, purpose),
        false => good_list(rng, purpose),
    };
    (0..count).map(list).collect()
}

fn good_list(rng: &mut Prng, purpose: Purpose) -> Vec<u32> {
    if rng.once_in(12) {
        return Vec::new();
    }
    loop {
        let mut list = any_list(rng, purpose);
        if rng.once_in(6) {
            let base = rng.pick(&commands::SURFACE_BASES);
            list.extend(commands::valid(rng, base));
        }
        if rules::paper().commands(&list).is_ok() {
            return list;
        }
    }
}

/// The lists in one buffer, with gaps or not, in the table's order or not; some pairs twice, some
/// overlapping others.
fn any_layout(rng: &mut Prng, lists: Vec<Vec<u32>>) -> (Vec<u32>, Vec<[u32; 2]>) {
    let mut order: Vec<usize> = (0..lists.len()).collect();
    if rng.once_in(3) {
        rng.shuffle(&mut order);
    }
    let gaps = rng.once_in(3);
    let mut words = Vec::new();
    let mut pairs = vec![[0, 0]; lists.len()];
    for k in order {
        if gaps {
            (0..rng.below(4)).for_each(|_| words.push(command_like_word(rng)));
        }
        pairs[k] = [words.len() as u32, lists[k].len() as u32];
        words.extend_from_slice(&lists[k]);
    }
    if gaps {
        (0..rng.below(3)).for_each(|_| words.push(any_word(rng)));
    }
    while !pairs.is_empty() && rng.once_in(3) {
        let again = rng.pick(&pairs);
        let pair = if rng.once_in(3) { part_of(rng, again) } else { again };
        pairs.insert(rng.below(pairs.len() + 1), pair);
    }
    (words, pairs)
}

/// A stretch of a list's words.
fn part_of(rng: &mut Prng, [start, length]: [u32; 2]) -> [u32; 2] {
    let front = rng.below(length as usize + 1) as u32;
    let back = if rng.once_in(2) { 0 } else { rng.below((length - front) as usize + 1) as u32 };
    [start + front, length - front - back]
}

/// At times a pair more, at the buffer's edge or outside; what the session then is.
fn any_pairs_more(rng: &mut Prng, words: usize, pairs: &mut Vec<[u32; 2]>) -> &'static str {
    let len = words as u32;
    let part = rng.below(words + 1) as u32;
    let (class, pair) = match rng.below(32) {
        0 => ("session, at the end", [len, 0]),
        1 => ("session, at the end", [len - part, part]),
        2 => ("session, outside by one", [len - part, part + 1]),
        3 => ("session, outside by one", [len + 1, 0]),
        4 => {
            // The sum is over 2^32 by some words of the buffer.
            let front = 1 + rng.below(20) as u32;
            ("session, a sum that wraps", [front.wrapping_neg(), front + part])
        }
        5 => ("session, a sum that wraps", [part, any_word(rng).max(1 << 31)]),
        6 => ("session, any pair", [any_word(rng), any_word(rng)]),
        7 => ("session, any pair", [part, any_word(rng)]),
        _ => return "session",
    };
    let at = if rng.once_in(2) { pairs.len() } else { rng.below(pairs.len() + 1) };
    pairs.insert(at, pair);
    class
}

/// Lists at the largest length and next to it, among short ones.
fn long_session(rng: &mut Prng) -> Case {
    let words = [long_list(rng), good_list(rng, Purpose::Store)].concat();
    let (len, max) = (words.len(), MAX_LIST_WORDS);
    let mut pairs = Vec::new();
    for _ in 0..1 + rng.below(5) {
        let length = rng.pick(&[0, 1, 7, 30, max - 1, max, max, max, max + 1, len]).min(len);
        let start = if rng.once_in(2) { 0 } else { rng.below(len - length + 1) };
        pairs.push([start as u32, length as u32]);
    }
    any_pairs_more(rng, len, &mut pairs);
    with_surroundings(rng, "session, long", words, pairs, Purpose::Run)
}
