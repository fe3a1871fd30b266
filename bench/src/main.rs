//! Times the proved library against safe Rust on the same lists, once their outputs were found equal, and where
//! `BEFORE_LIB` was set against an earlier build of the library too.

mod books;
mod library;
mod lists;
mod pci;
mod rust;
mod scenes;

#[cfg(before)]
use library::before;
use library::proved;
use lists::Random;
use pci::pairs_of;
use std::hint::black_box;
use std::time::{Duration, Instant};

type Read = fn(&[u32], &mut [u32], &mut [u32], &mut [u32], u32) -> u32;
type Normalise = fn(&[u32], &[u32], &mut [u32], &mut [u32], u32) -> u32;
type Write = fn(&[u32], &[u32], &mut [u32], &mut [u32]) -> u32;
type Measure = fn(&[u32], &[u32], &mut [u32]) -> u32;

const COUNT: usize = if cfg!(before) { 3 } else { 2 };
/// An earlier build may have no `measure`.
const MEASURES: usize = if cfg!(before_measures) { 3 } else { 2 };

/// The implementations of a function, in one order everywhere: the proved library, Rust, and the library before where
/// it is linked.
macro_rules! implementations {
    ($name:ident, $rust:path) => {
        [
            proved::$name,
            $rust,
            #[cfg(before)]
            before::$name,
        ]
    };
}

const READ: [Read; COUNT] = implementations!(read, rust::read);
const NORMALISE: [Normalise; COUNT] = implementations!(normalise, rust::normalise);
const MEASURE: [Measure; MEASURES] = [
    proved::measure,
    rust::measure,
    #[cfg(before_measures)]
    before::measure,
];
const TO_PCI: [Write; COUNT] = implementations!(to_pci, pci::to_pci);
const FROM_PCI: [Write; COUNT] = implementations!(from_pci, pci::from_pci);

/// What a call leaves: its verdict, the answer, and the other slices lent to be written.
type Left = (u32, Vec<u32>, Vec<Vec<u32>>);

fn hold_equal(name: &str, input: &[u32], left: &[Left]) {
    for other in &left[1..] {
        let (a, b) = (&left[0].1, &other.1);
        assert!(*other == left[0], "{name}: the outputs differ on {input:08x?}: {a:?} and {b:?}");
    }
}

/// The normalisers in a mode, as writers without one.
fn normalisers(mode: u32) -> [impl Fn(&[u32], &[u32], &mut [u32], &mut [u32]) -> u32; COUNT] {
    NORMALISE.map(|normalise| {
        move |list: &[u32], image: &[u32], out: &mut [u32], answer: &mut [u32]| {
            normalise(list, image, out, answer, mode)
        }
    })
}

/// Runs the writers of one name on one input and holds all that they leave equal.
fn compare_writers<W>(name: &str, writers: &[W], input: &[u32], image: &[u32], room: usize, numbers: usize)
where
    W: Fn(&[u32], &[u32], &mut [u32], &mut [u32]) -> u32,
{
    let left = writers.iter().map(|write| {
        let (mut out, mut answer) = (vec![0xAAAA_AAAA; room], vec![0xBBBB_BBBB; numbers]);
        let verdict = write(input, image, &mut out, &mut answer);
        (verdict, answer, vec![out])
    });
    hold_equal(name, input, &left.collect::<Vec<_>>());
}

/// Runs the first `count` readers and normalisers on one list in one mode, from one image and with buffers of one size,
/// and holds all that they leave equal.
fn compare_in(mode: u32, count: usize, list: &[u32], image: &[u32], room: usize, numbers: usize) {
    let left = READ[..count].iter().map(|read| {
        let (mut image, mut records, mut answer) =
            (image.to_vec(), vec![0xAAAA_AAAA; room], vec![0xBBBB_BBBB; numbers]);
        let verdict = read(list, &mut image, &mut records, &mut answer, mode);
        (verdict, answer, vec![image, records])
    });
    hold_equal("read", list, &left.collect::<Vec<_>>());
    compare_writers("normalise", &normalisers(mode)[..count], list, image, room, numbers);
}

/// The same of all functions on lists, in mode 0.
fn compare(count: usize, list: &[u32], image: &[u32], room: usize, numbers: usize) {
    compare_in(0, count, list, image, room, numbers);
    let left = MEASURE[..count.min(MEASURES)].iter().map(|measure| {
        let mut answer = vec![0xBBBB_BBBB; numbers];
        let verdict = measure(list, image, &mut answer);
        (verdict, answer, vec![])
    });
    hold_equal("measure", list, &left.collect::<Vec<_>>());
    compare_writers("to_pci", &TO_PCI[..count], list, image, room, numbers);
}

/// The same on pairs.
fn compare_pairs(count: usize, pairs: &[u32], image: &[u32], room: usize, numbers: usize) {
    compare_writers("from_pci", &FROM_PCI[..count], pairs, image, room, numbers);
}

/// A spoilt copy: up to two words changed, and often a part of it only.
fn spoilt(random: &mut Random, words: &[u32]) -> Vec<u32> {
    let mut copy = words.to_vec();
    for _ in 0..random.below(3) {
        if let Some(i) = (random.next() as usize).checked_rem(copy.len()) {
            copy[i] = match random.below(4) {
                0 => random.next(),
                1 => copy[i] ^ 1 << random.below(32),
                2 => copy[i] & 0xFF_FFFF | random.next() & 0xFF00_0000,
                _ => 0,
            };
        }
    }
    if random.below(4) == 0 {
        copy.truncate(random.below(copy.len() as u32 + 1) as usize);
    }
    copy
}

/// A list for a board in a mode: swapped, it is got as it was.
fn swapped(list: &[u32], mode: u32) -> Vec<u32> {
    let swap = [rust::got::<0>, rust::got::<1>, rust::got::<2>, rust::got::<3>][mode as usize % 4];
    list.iter().map(|&word| swap(word)).collect()
}

/// Compares on each list and its pairs as they are, and on spoilt copies with buffers and images of other sizes, in mode
/// 0 and in another. The library before takes part where its answer must be the same: accepted lists, and five numbers.
/// Gives the number of lists compared.
fn compare_all(lists: &[Vec<u32>]) -> usize {
    let mut random = Random::new(3);
    let mut done = 0;
    for list in lists {
        let image: Vec<u32> = (0..256).map(|_| random.below(4)).collect();
        for (count, numbers) in [(2, 6), (COUNT, 5)] {
            compare(count, list, &image, list.len().max(4096) * 4, numbers);
            compare_pairs(count, &pairs_of(list), &image, list.len(), numbers);
        }
        for mode in 1..5 {
            compare_in(mode, 2, &swapped(list, mode), &image, list.len().max(4096) * 4, 6);
        }
        for _ in 0..64 {
            let list = spoilt(&mut random, list);
            let pairs = spoilt(&mut random, &pairs_of(&list));
            let image_len = if random.below(16) == 0 { random.below(300) as usize } else { 256 };
            let image: Vec<u32> = (0..image_len).map(|_| random.next() >> random.below(32)).collect();
            let room = random.below(2 * list.len() as u32 + 8) as usize;
            let numbers = random.below(8) as usize;
            compare(2, &list, &image, room, numbers);
            compare_pairs(2, &pairs, &image, room, numbers);
            let mode = 1 + random.below(4);
            compare_in(mode, 2, &swapped(&list, mode), &image, room, numbers);
            done += 1;
        }
        done += 1;
    }
    let long = vec![0; 4097];
    compare(2, &long, &[0; 256], 20000, 6);
    compare(2, &long[..4096], &[0; 256], 20000, 6);
    compare(2, &[], &[0; 256], 0, 6);
    for mode in 1..5 {
        for len in [0, 64, 65, 512, 513, 4095, 4096, 4097] {
            compare_in(mode, 2, &long[..len], &[0; 256], 20000, 6);
        }
    }
    let pairs = [0x2800, 0].repeat(4097);
    for len in [8194, 8193, 8192, 8191, 1, 0] {
        compare_pairs(2, &pairs[..len], &[0; 256], 5000, 6);
    }
    done + 3
}

/// The clashes but for window clips: raster bits, bit 23 of a load, a plane range.
const CLASHES: [[u32; 4]; 3] = [[0x8800_4000, 0, 0, 0], [0x4090_0000, 0, 0, 0], [0x4050_2400, 0, 0, 0]];

/// Compares on zero commands of each id with one bit changed, on window clips with every bank, page maximum and
/// minimum, and on the other clashes. Gives their number.
fn compare_commands() -> usize {
    let one_bit = |id: u32, bit: usize| {
        let mut command = [id << 24, 0, 0, 0];
        command[bit / 32] ^= 1 << (bit % 32);
        command
    };
    let one_bits = (0..256).flat_map(|id| (0..128).map(move |bit| one_bit(id, bit)));
    let clips = (0..1024).map(|n| [0x8400_0000, n / 256 << 28, n / 16 % 16 << 28 | n % 16 << 12, 0]);
    let commands: Vec<_> = one_bits.chain(clips).chain(CLASHES).collect();
    for command in &commands {
        compare(2, command, &[0; 256], 16, 6);
        compare_pairs(2, &pairs_of(command), &[0; 256], 4, 6);
    }
    commands.len()
}

/// The shortest time of a round over all lists, for each implementation. They take turns within a round.
fn time<const N: usize>(rounds: usize, mut run: impl FnMut(usize)) -> [Duration; N] {
    let mut best = [Duration::MAX; N];
    for round in 0..rounds {
        // Of three, each is first in turn, so that none always follows the same one.
        let first = if N == 3 { round } else { 0 };
        for which in (first..first + N).map(|turn| turn % N) {
            let start = Instant::now();
            run(which);
            best[which] = best[which].min(start.elapsed());
        }
    }
    best
}

fn line(name: &str, unit: &str, units: usize, times: &[Duration]) {
    let per = |t: Duration| t.as_secs_f64() * 1e9 / units as f64;
    let ratio = |t: Duration| times[0].as_secs_f64() / t.as_secs_f64();
    let [proved, rust] = [times[0], times[1]];
    print!("{name:<40} {:>9.3} {:>9.3}  {unit:<12} {:>6.3}", per(proved), per(rust), ratio(rust));
    if let Some(&before) = times.get(2) {
        print!(" {:>9.3} {:>6.3}", per(before), ratio(before));
    }
    println!();
}

/// How much lists are, and in what a time is given.
fn units(lists: &[Vec<u32>]) -> (usize, &'static str) {
    let words: usize = lists.iter().map(Vec::len).sum();
    if words / lists.len() < 20 {
        (lists.len(), "ns per call")
    } else {
        (words, "ns per word")
    }
}

/// Times the readers in a mode. Each goes on from the image that it left.
fn time_read<const N: usize>(rounds: usize, name: &str, mode: u32, lists: &[Vec<u32>]) {
    let mut images = [[0u32; 256]; N];
    let (mut records, mut answer) = (vec![0u32; 16384], [0u32; 6]);
    let times: [_; N] = time(rounds, |which| {
        for list in lists {
            black_box(READ[which](list, &mut images[which], &mut records, &mut answer, mode));
        }
    });
    let (units, unit) = units(lists);
    line(name, unit, units, &times);
}

/// Times writers on inputs that are made of these lists, or are them.
fn time_writers<const N: usize, W>(rounds: usize, name: &str, writers: &[W], inputs: &[Vec<u32>], lists: &[Vec<u32>])
where
    W: Fn(&[u32], &[u32], &mut [u32], &mut [u32]) -> u32,
{
    let image = [0u32; 256];
    let (mut out, mut answer) = (vec![0u32; 16384], [0u32; 6]);
    let times: [_; N] = time(rounds, |which| {
        for input in inputs {
            black_box(writers[which](input, &image, &mut out, &mut answer));
        }
    });
    let (units, unit) = units(lists);
    line(name, unit, units, &times);
}

fn time_measure(rounds: usize, name: &str, lists: &[Vec<u32>]) {
    let image = [0u32; 256];
    let mut answer = [0u32; 6];
    let times: [_; MEASURES] = time(rounds, |which| {
        for list in lists {
            black_box(MEASURE[which](list, &image, &mut answer));
        }
    });
    let (units, unit) = units(lists);
    line(name, unit, units, &times);
}

/// The library before knows modes, where there is one.
fn before_swaps() -> bool {
    READ[2..].iter().any(|read| read(&[], &mut [0; 256], &mut [], &mut [0; 6], 4) == 21)
}

/// Times the functions on lists of one kind, the reader and the normaliser in mode 3 too.
fn time_lists(rounds: usize, name: &str, lists: &[Vec<u32>]) {
    time_read::<COUNT>(rounds, &format!("read, {name}"), 0, lists);
    time_measure(rounds, &format!("measure, {name}"), lists);
    time_writers::<COUNT, _>(rounds, &format!("normalise, {name}"), &normalisers(0), lists, lists);
    time_writers::<COUNT, _>(rounds, &format!("to_pci, {name}"), &TO_PCI, lists, lists);
    let pairs: Vec<_> = lists.iter().map(|list| pairs_of(list)).collect();
    time_writers::<COUNT, _>(rounds, &format!("from_pci, {name}"), &FROM_PCI, &pairs, lists);
    let reversed: Vec<_> = lists.iter().map(|list| swapped(list, 3)).collect();
    let (read, normalise) = (format!("read in mode 3, {name}"), format!("normalise in mode 3, {name}"));
    if before_swaps() {
        time_read::<COUNT>(rounds, &read, 3, &reversed);
        time_writers::<COUNT, _>(rounds, &normalise, &normalisers(3), &reversed, lists);
    } else {
        time_read::<2>(rounds, &read, 3, &reversed);
        time_writers::<2, _>(rounds, &normalise, &normalisers(3), &reversed, lists);
    }
}

fn main() {
    let rounds = std::env::args().nth(1).and_then(|n| n.parse().ok()).unwrap_or(400);
    let short = lists::short_lists();
    let groups = [
        ("scenes, regular", lists::regular_scenes()),
        ("scenes, partial", lists::partial_scenes()),
        ("scenes, mixed", lists::mixed_scenes()),
        ("scenes, large loads", lists::loaded_scenes()),
        ("short lists", short.clone()),
    ];
    let compared = compare_commands() + groups.iter().map(|(_, lists)| compare_all(lists)).sum::<usize>();
    let sessions = scenes::compare(&short);
    let long: Vec<_> = groups[..4].iter().flat_map(|(_, lists)| lists).cycle().take(books::SCENES).cloned().collect();
    let short_book = &short[..books::SCENES];
    let books = books::compare(short_book, &long);
    println!("outputs equal on {compared} lists, {sessions} sessions and {books} books; best of {rounds} rounds, buffers not cleared between calls");
    print!("{:<40} {:>9} {:>9}  {:<12} {:>6}", "", "proved", "Rust", "", "ratio");
    println!("{}", if cfg!(before) { "    before  ratio" } else { "" });
    for (name, lists) in &groups {
        time_lists(rounds, name, lists);
    }
    scenes::time_dozens(rounds, &short);
    books::time_books(rounds, short_book, &long);
}
