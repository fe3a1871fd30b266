//! Several scenes in one call: cases written out by hand, and sessions held against single calls.

use crate::agreement;
use crate::lists::{self, Case, Purpose};
use crate::outcome::{self, prefilled, Function};
use crate::prng::Prng;
use crate::rules::{self, IMAGE_WORDS};

const RANDOM_SESSIONS: u64 = 10_000;

/// The seven numbers, the image and the record buffer.
struct Given {
    numbers: [u32; 7],
    image: Vec<u32>,
    records: Vec<u32>,
}

fn read(words: &[u32], table: &[u32], room: usize) -> Given {
    read_with_image(words, table, room, IMAGE_WORDS)
}

/// From a zero image of this length.
fn read_with_image(words: &[u32], table: &[u32], room: usize, image_words: usize) -> Given {
    let (mut image, mut records) = (vec![0; image_words], prefilled(room));
    let given = rules::paper().read_scenes(words, table, &mut image, &mut records);
    let [verdict, position, commands, records_told, written, bit] = given.answer.numbers();
    let numbers = [verdict, position, commands, records_told, written, bit, given.lists];
    Given { numbers, image, records }
}

fn numbers(words: &[u32], table: &[u32]) -> [u32; 7] {
    read(words, table, 4 * words.len() * table.len()).numbers
}

/// Timer, flush; trigger, flush; a reset with an undefined bit; a surface base; a group cut short.
const WORDS: [u32; 8] = [
    0x02000010, 0x00000001, 0x05000007, 0x00000300, 0x01000002, 0x21000100, 0x84000000, 0x00000000,
];

/// Each panics when the numbers aren't those that Ticket 5 gives.
pub fn by_hand() {
    lists_in_turn();
    tables_without_a_pair();
    first_refused_list();
    record_room();
    pairs_outside();
    numbers_of_pairs();
    before_the_list();
    surface_bases();
}

fn lists_in_turn() {
    let given = read(&WORDS, &[0, 2, 2, 2], 14);
    assert_eq!(given.numbers, [0, 2, 4, 3, 12, 32, 2]);
    assert_eq!([given.image[2], given.image[5]], [0x10, 7]);
    let records = [0, 1, 1, 1, 5, 0, 1, 7, 0, 1, 1, 0x300, 0xA500000C, 0xA500000D];
    assert_eq!(given.records, records);
    // The position is the last list's length: of one word, of none.
    assert_eq!(numbers(&WORDS, &[0, 4, 1, 1]), [0, 1, 5, 4, 16, 32, 2]);
    assert_eq!(numbers(&WORDS, &[0, 4, 1, 0]), [0, 0, 4, 3, 12, 32, 2]);
    assert_eq!(numbers(&WORDS, &[2, 2, 0, 1]), [0, 1, 3, 2, 8, 32, 2]);
    // A list twice, and lists that overlap.
    assert_eq!(numbers(&WORDS, &[0, 2, 0, 2, 1, 3]), [0, 3, 7, 5, 20, 32, 3]);
}

fn tables_without_a_pair() {
    for image_words in [0, 1, 255, 256, 257, 1000] {
        for table in [&[][..], &[0], &[9], &[0xFFFFFFFF]] {
            let given = read_with_image(&WORDS, table, 3, image_words);
            assert_eq!(given.numbers, [0, 0, 0, 0, 0, 32, 0]);
            assert_eq!(given.records, prefilled(3));
        }
    }
    assert_eq!(numbers(&WORDS, &[0, 2, 4]), [0, 2, 2, 1, 4, 32, 1]);
    assert_eq!(numbers(&WORDS, &[0, 2, 99]), [0, 2, 2, 1, 4, 32, 1]);
}

/// It stops the call, and the lists before it stay applied.
fn first_refused_list() {
    let given = read(&WORDS, &[0, 2, 3, 2, 2, 1], 9);
    assert_eq!(given.numbers, [6, 1, 2, 1, 4, 1, 1]);
    assert_eq!([given.image[2], given.image[5]], [0x10, 0]);
    assert_eq!(given.records[..4], [0, 1, 1, 1]);
    assert_eq!(given.records[4..], prefilled(9)[4..]);
    assert_eq!(numbers(&WORDS, &[4, 1, 0, 2]), [6, 0, 0, 0, 0, 1, 0]);
    assert_eq!(numbers(&WORDS, &[2, 2, 2, 2, 5, 3]), [5, 1, 4, 4, 16, 32, 2]);
    // A word of the buffer behind the list isn't looked at.
    assert_eq!(numbers(&WORDS, &[0, 1, 6, 1]), [5, 0, 1, 0, 0, 32, 1]);
    assert_eq!(numbers(&WORDS, &[0, 1, 7, 1]), [0, 1, 2, 1, 4, 32, 2]);
}

/// Each list has the room that those before it left.
fn record_room() {
    let table = [0, 2, 2, 2, 1, 1];
    for room in 0..=18 {
        let expected = match room / 4 {
            0 => [11, 2, 0, 0, 0, 32, 0],
            1 | 2 => [11, 2, 2, 1, 4, 32, 1],
            3 => [11, 1, 4, 3, 12, 32, 2],
            _ => [0, 1, 5, 4, 16, 32, 3],
        };
        let given = read(&WORDS, &table, room);
        assert_eq!(given.numbers, expected, "room {room}");
        let written = expected[4] as usize;
        assert_eq!(given.records[written..], prefilled(room)[written..]);
    }
}

/// Start plus length over the buffer's words, without wrapping.
fn pairs_outside() {
    let refused = [20, 0, 2, 1, 4, 32, 1];
    let max = u32::MAX;
    for [start, length] in
        [[7, 2], [8, 1], [9, 0], [0, 9], [max, 1], [max, 2], [max, 0], [1, max], [max - 2, 5]]
    {
        assert_eq!(numbers(&WORDS, &[0, 2, start, length, 0, 2]), refused);
    }
    assert_eq!(numbers(&WORDS, &[9, 0, 0, 2]), [20, 0, 0, 0, 0, 32, 0]);
    assert_eq!(numbers(&WORDS, &[0, 2, 8, 0]), [0, 0, 2, 1, 4, 32, 2]);
    assert_eq!(numbers(&WORDS, &[0, 2, 7, 1]), [0, 1, 3, 2, 8, 32, 2]);
    assert_eq!(numbers(&[], &[0, 0]), [0, 0, 0, 0, 0, 32, 1]);
    assert_eq!(numbers(&[], &[0, 1]), [20, 0, 0, 0, 0, 32, 0]);
}

fn numbers_of_pairs() {
    for (pairs, expected) in [
        (4095, [0, 1, 4095, 0, 0, 32, 4095]),
        (4096, [0, 1, 4096, 0, 0, 32, 4096]),
        (4097, [20, 0, 4096, 0, 0, 32, 4096]),
        (5000, [20, 0, 4096, 0, 0, 32, 4096]),
    ] {
        let given = read(&[0x02000010], &[0, 1].repeat(pairs), 0);
        assert_eq!(given.numbers, expected);
        assert_eq!(given.image[2], 0x10);
    }
}

/// 20 goes ahead of 1 and 2, and those ahead of the list's other refusals.
fn before_the_list() {
    let words = vec![0x02000010; 4098];
    assert_eq!(numbers(&words, &[0, 4096, 1, 4097]), [1, 4096, 4096, 0, 0, 32, 1]);
    assert_eq!(numbers(&words, &[0, 4096, 2, 4097]), [20, 0, 4096, 0, 0, 32, 1]);
    assert_eq!(numbers(&words, &[4096, 2, 2, 4096]), [0, 4096, 4098, 0, 0, 32, 2]);
    for (table, expected) in [
        ([0, 4097], [1, 4096, 0, 0, 0, 32, 0]),
        ([2, 4097], [20, 0, 0, 0, 0, 32, 0]),
        ([4099, 0], [20, 0, 0, 0, 0, 32, 0]),
        ([4098, 0], [2, 0, 0, 0, 0, 32, 0]),
        ([5, 1], [2, 0, 0, 0, 0, 32, 0]),
    ] {
        assert_eq!(read_with_image(&words, &table, 4, 255).numbers, expected);
    }
}

/// They may end a list, and the next need not open with BEGIN.
fn surface_bases() {
    assert_eq!(numbers(&WORDS, &[5, 1, 1, 1]), [0, 1, 2, 2, 8, 32, 2]);
    assert_eq!(numbers(&WORDS, &[5, 1, 5, 1]), [0, 1, 2, 2, 8, 32, 2]);
    assert_eq!(numbers(&[0x21000000, 0x00000001], &[0, 1, 0, 2]), [10, 1, 1, 1, 4, 32, 1]);
}

/// On every fixed session and on random ones; many of them accepted, many refused behind some lists.
pub fn single_calls() {
    let run = |function, case: &Case| outcome::of(function, rules::paper(), case);
    let random = (0..RANDOM_SESSIONS)
        .map(|number| lists::random_session(&mut Prng::new(19, number), Purpose::Run));
    let (mut accepted, mut late) = (0, 0);
    for (index, case) in lists::fixed_sessions().into_iter().chain(random).enumerate() {
        assert_eq!(agreement::disagreement(&case, run), None, "session {index}");
        let outcome = run(Function::Scenes, &case);
        match outcome.answer[0] {
            0 => accepted += (outcome.more[0] > 1) as u32,
            _ => late += (outcome.more[0] > 0) as u32,
        }
    }
    assert!(accepted > 2000 && late > 2000, "{accepted} accepted, {late} refused late");
}
