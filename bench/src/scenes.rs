//! Sessions of a dozen short lists: one call of the proved library, against a call for each list and against Rust.

use crate::library::{proved, scenes};
use crate::lists::Random;
use crate::rust;
use crate::{line, spoilt, time};
use std::hint::black_box;

/// The lists that one session may have.
const PAIRS: usize = 4096;
/// The lists of the sessions that are timed.
const DOZEN: usize = 12;

type ReadScenes = fn(&[u32], &[u32], &mut [u32], &mut [u32], &mut [u32]) -> u32;

/// One call of the proved library, the same in Rust, and a call of the proved reader for each list.
const READ_SCENES: [ReadScenes; 3] = [scenes::read_scenes, read_scenes, single_calls];

/// Lists in one word buffer, and the table of their starts and lengths.
struct Session {
    words: Vec<u32>,
    table: Vec<u32>,
}

impl Session {
    fn new(lists: &[Vec<u32>]) -> Self {
        let mut session = Session { words: Vec::new(), table: Vec::new() };
        for list in lists {
            session.table.extend([session.words.len() as u32, list.len() as u32]);
            session.words.extend(list);
        }
        session
    }
}

/// The lists of a table in turn by calls of a reader, each with the record room still left, and its answers added up.
#[inline(always)]
fn by_calls(
    read: impl Fn(&[u32], &mut [u32], &mut [u32], &mut [u32]) -> u32,
    words: &[u32],
    table: &[u32],
    image: &mut [u32],
    records: &mut [u32],
    answer: &mut [u32],
) -> u32 {
    let mut sums = [0, 0, 0, 0, 0, rust::NO_BIT, 0];
    for (number, pair) in table.chunks_exact(2).enumerate() {
        let start = pair[0] as usize;
        let end = start + pair[1] as usize;
        if number == PAIRS || words.len() < end {
            (sums[0], sums[1]) = (20, 0);
            break;
        }
        let mut one = [0; 6];
        read(&words[start..end], image, &mut records[sums[4] as usize..], &mut one);
        (sums[0], sums[1], sums[5]) = (one[0], one[1], one[5]);
        if one[0] != 0 {
            break;
        }
        for i in 2..5 {
            sums[i] += one[i];
        }
        sums[6] += 1;
    }
    for (word, number) in answer.iter_mut().zip(sums) {
        *word = number;
    }
    sums[0]
}

fn read_scenes(words: &[u32], table: &[u32], image: &mut [u32], records: &mut [u32], answer: &mut [u32]) -> u32 {
    by_calls(|l, i, r, a| rust::read(l, i, r, a, 0), words, table, image, records, answer)
}

fn single_calls(words: &[u32], table: &[u32], image: &mut [u32], records: &mut [u32], answer: &mut [u32]) -> u32 {
    by_calls(|l, i, r, a| proved::read(l, i, r, a, 0), words, table, image, records, answer)
}

/// Runs all on one session and holds equal what they leave.
fn compare_one(session: &Session, image: &[u32], room: usize, numbers: usize) {
    let left = READ_SCENES.map(|read_scenes| {
        let (mut image, mut records, mut answer) =
            (image.to_vec(), vec![0xAAAA_AAAA; room], vec![0xBBBB_BBBB; numbers]);
        let verdict = read_scenes(&session.words, &session.table, &mut image, &mut records, &mut answer);
        (verdict, answer, image, records)
    });
    for other in &left[1..] {
        let (a, b) = (&left[0].1, &other.1);
        let (words, table) = (&session.words, &session.table);
        assert!(*other == left[0], "read_scenes: the outputs differ on {words:08x?}, {table:x?}: {a:?} and {b:?}");
    }
}

/// Compares on a session of each dozen as it is, and on spoilt copies with tables, buffers and images of other sizes.
/// Gives the number of sessions compared.
pub fn compare(lists: &[Vec<u32>]) -> usize {
    let mut random = Random::new(5);
    let mut done = 0;
    for dozen in lists.chunks(DOZEN) {
        let mut session = Session::new(dozen);
        compare_one(&session, &[0; 256], 4 * session.words.len(), 7);
        for _ in 0..16 {
            session.words = spoilt(&mut random, &session.words);
            session.table = spoilt(&mut random, &session.table);
            let image = vec![random.below(4); if random.below(8) == 0 { 255 } else { 256 }];
            let room = random.below(4 * session.words.len() as u32 + 1) as usize;
            compare_one(&session, &image, room, random.below(9) as usize);
            session = Session::new(dozen);
            done += 1;
        }
        done += 1;
    }
    for pairs in [PAIRS - 1, PAIRS, PAIRS + 1] {
        compare_one(&Session { words: vec![0], table: [0, 1].repeat(pairs) }, &[0; 256], 4 * pairs, 7);
    }
    done + 3
}

/// Times sessions of a dozen of these lists. The image goes on from session to session.
pub fn time_dozens(rounds: usize, lists: &[Vec<u32>]) {
    let sessions: Vec<_> = lists.chunks_exact(DOZEN).map(Session::new).collect();
    let mut images = [[0u32; 256]; 3];
    let mut records = vec![0u32; 16384];
    let mut answer = [0u32; 7];
    let [one_call, rust, single]: [_; 3] = time(rounds, |which| {
        for session in &sessions {
            let image = &mut images[which];
            black_box(READ_SCENES[which](&session.words, &session.table, image, &mut records, &mut answer));
        }
    });
    let units = sessions.len() * DOZEN;
    line("read_scenes, a dozen short lists", "ns per list", units, &[one_call, rust]);
    line("  against a dozen calls of read", "ns per list", units, &[one_call, single]);
}
