//! Lists in a mode: swapped for it, so that the words got are another list's, or not swapped; and lists in
//! modes over 3.

use super::commands::{first_word, table, valid, BEGINS, SURFACE_BASES};
use super::fixed;
use super::random::{any_length, random_case};
use super::sessions::{CUT_SHORT, REFUSED, UNDEFINED};
use super::{plain, with_surroundings, Case, CaseKind, Image, Purpose};
use crate::prng::{self, Prng};
use crate::rules::{self, IMAGE_WORDS, MAX_LIST_WORDS};

const FLUSH: u32 = 0x00000001;
const TIMER: u32 = 0x02000000;

const MODES: [u32; 4] = [0, 1, 2, 3];
const OVER_3: [u32; 6] = [4, 5, 255, 0x100, 0x80000003, 0xFFFFFFFF];

/// Settings, a load with payload and other work, with words whose bytes differ.
const GOOD: [u32; 16] = [
    0x02A1B2C3, 0x00123456, 0x8C0D1E2F, 0x11223344, 0x55667788, 0x99AABBCC, 0x40200001, 0x01020304,
    0x05060708, 0x090A0B0C, 0x0D0E0F10, 0x02000010, 0x10000002, 0x00021000, 0x05ABCDEF, 0x30778899,
];

/// Lengths around those that a program could have buffers for.
const LENGTHS: [usize; 9] = [63, 64, 65, 511, 512, 513, 4095, 4096, 4097];

/// The list of another case, in a mode.
fn of_case(mode: u32, case: Case) -> Case {
    Case { kind: CaseKind::InMode, arguments: vec![mode], pci_len: 0, ..case }
}

/// The same, swapped so that its words are got; in a mode over 3 as it is.
fn swapped(mode: u32, case: Case) -> Case {
    let list = rules::paper().words_got(mode, &case.list);
    of_case(mode, Case { list, ..case })
}

/// The words got from the list are these; a zero image and room for everything.
fn in_mode(class: &'static str, mode: u32, got: &[u32]) -> Case {
    swapped(mode, plain(class, got.to_vec(), Purpose::Store))
}

/// The list has these words.
fn unswapped(class: &'static str, mode: u32, list: &[u32]) -> Case {
    of_case(mode, plain(class, list.to_vec(), Purpose::Store))
}

/// One of the three modes that swap, by turns.
fn mode_of(number: usize) -> u32 {
    1 + number as u32 % 3
}

fn by_turns(class: &'static str, lists: Vec<Vec<u32>>) -> Vec<Case> {
    let case = |(k, list): (usize, Vec<u32>)| in_mode(class, mode_of(k), &list);
    lists.into_iter().enumerate().map(case).collect()
}

/// Lists in a mode that are the same in every run.
pub fn fixed_in_modes() -> Vec<Case> {
    let stored = stored_in_modes().concat();
    let lengths = [lengths(&LENGTHS, &MODES), lengths(&LENGTHS, &OVER_3)].concat();
    [stored, lengths, in_every_mode()].concat()
}

/// Those in the vectors file: the short ones and the long ones.
pub fn stored_in_modes() -> [Vec<Case>; 2] {
    let short = [
        each_mode(),
        mode_bits(),
        one_list_in_each_mode(),
        payloads(),
        every_command(),
        every_bit(),
        image_lengths(),
        buffer_lengths(),
        forms(),
        by_turns("mode: undefined bits", fixed::undefined_among_defined()),
        by_turns("mode: undefined bits", fixed::undefined_in_two_words()),
        lengths(&LENGTHS[..3], &MODES),
    ];
    let long =
        [lengths(&LENGTHS[3..6], &MODES), refused_far_behind(), room_of_long_lists(), longest()];
    [short.concat(), long.concat()]
}

/// The empty list, a good one and one for each refusal behind settings and work, in each mode and in some
/// over 3.
fn each_mode() -> Vec<Case> {
    let refused = |(k, refused): (usize, &&[u32])| {
        let behind = if k < CUT_SHORT { &[][..] } else { &[UNDEFINED] };
        [&[0x31000005, 0x05000009, FLUSH], *refused, behind].concat()
    };
    let mut lists: Vec<Vec<u32>> = REFUSED.iter().enumerate().map(refused).collect();
    lists.extend([Vec::new(), GOOD.to_vec()]);
    let mut cases = Vec::new();
    for (seed, list) in (1..).zip(&lists) {
        for mode in MODES.into_iter().chain(OVER_3) {
            let image = Image::Seeded { seed, len: IMAGE_WORDS };
            cases.push(Case { image, ..in_mode("mode: each", mode, list) });
        }
    }
    cases.extend(MODES.map(|mode| unswapped("mode: not swapped", mode, &GOOD)));
    cases
}

/// Each bit of a mode above the two lowest, with a list that is the same in every mode.
fn mode_bits() -> Vec<Case> {
    (2..32).map(|bit| unswapped("mode: bits", 1 << bit | (bit % 4), &[0x02020202])).collect()
}

/// Words that are the same in two modes or in all, and words that are good in one mode and refused in
/// another, or good in every mode and each time another command.
fn one_list_in_each_mode() -> Vec<Case> {
    let lists: [&[u32]; 17] = [
        &[0x02020202],
        &[0x05050505, 0x00000000, 0x02020202],
        &[0x02021111],
        &[0x02100210],
        &[0x02101002],
        &[0x02050030],
        &[0x05303102, 0x30020500, 0x02310530],
        &[0x02000006],
        &[0x03000002],
        &[0x01000002],
        &[0x02000040],
        &[0x02000001, 0x14000701],
        &[0x21000000, 0x10000002],
        &[0x00000021, 0x00000001],
        &[0x21000021, 0x10000010, 0, 0, 0],
        &[0x48000000, 0, 0, 0],
        &[0x84000000, 0x30000000, 0, 0],
    ];
    let in_each = |list| MODES.map(|mode| unswapped("mode: one list in each", mode, list));
    lists.into_iter().flat_map(in_each).collect()
}

/// Words of a payload that would be commands, or refused, swapped or not; and commands behind it.
fn payloads() -> Vec<Case> {
    let mut cases = Vec::new();
    for mode in MODES {
        for code in [1, 2] {
            let load = [0x40000002 | code << 20, 0, 0x02000010, 0x11223344];
            let like_commands = [0x02000010, 0x06000000, 0x21000000, 0x400001FF];
            let swapped = rules::paper().words_got(mode, &like_commands);
            let list = [&load, &like_commands, &swapped[..], &[TIMER | 7, FLUSH]].concat();
            cases.push(in_mode("mode: payload", mode, &list));
        }
    }
    cases
}

/// A valid command of each id, in one list.
fn every_command() -> Vec<Case> {
    let mut rng = Prng::new(20, 0);
    let mut list = Vec::new();
    for row in table() {
        list.extend(valid(&mut rng, row.id));
        if SURFACE_BASES.contains(&row.id) {
            list.extend(valid(&mut rng, BEGINS[list.len() % 4]));
        }
    }
    MODES.map(|mode| in_mode("mode: every command", mode, &list)).to_vec()
}

/// Each bit of a word alone, in settings that are all in the form.
fn every_bit() -> Vec<Case> {
    let bits: Vec<u32> = (0..33).map(|bit| 1_u32.checked_shl(bit).unwrap_or(!0)).collect();
    let setting = |bits: &[u32]| [&[0x8C000000], bits, &[FLUSH]].concat();
    let list: Vec<u32> = bits.chunks(3).flat_map(setting).collect();
    MODES.map(|mode| in_mode("mode: every bit", mode, &list)).to_vec()
}

/// Images of other lengths, in modes over 3 too, with a list that is good and a refused one.
fn image_lengths() -> Vec<Case> {
    let mut cases = Vec::new();
    for len in [0, 255, 257] {
        for list in [&[TIMER | 0x10, FLUSH][..], &[UNDEFINED]] {
            let image = Image::Seeded { seed: 1 + len as u32, len };
            for mode in [0, 1, 2, 3, 4, 0x80000003] {
                let case = in_mode("mode: image lengths", mode, list);
                cases.push(Case { image: image.clone(), ..case });
            }
        }
    }
    cases
}

/// A list with three records and a form of nine words, with less room and more; and the same with a refused
/// command behind it.
fn buffer_lengths() -> Vec<Case> {
    let list = [TIMER | 0x10, FLUSH, 0x8C000001, 1, 2, 3, FLUSH, TIMER | 0x11, 0x05000001];
    let refused = [&list[..], &[0x06000000]].concat();
    let mut cases = Vec::new();
    for mode in [1, 2, 3, 4] {
        for room in [0, 3, 8, 9, 11, 12, 13, 16] {
            let case = in_mode("mode: buffer lengths", mode, &list);
            cases.push(Case { records_len: room, out_len: room, ..case });
        }
        let case = in_mode("mode: buffer lengths", mode, &refused);
        cases.push(Case { records_len: 0, out_len: 0, ..case });
    }
    cases
}

/// Forms from images of which one has 20 hex in word 02, with room and with one word less.
fn forms() -> Vec<Case> {
    let seed = prng::seed_with_word(0x02, 0x20);
    let mut cases = Vec::new();
    for image in [Image::ZERO, Image::Seeded { seed, len: IMAGE_WORDS }] {
        for (k, list) in fixed::short_and_whole_forms().iter().enumerate() {
            let case = in_mode("mode: forms", mode_of(k), list);
            let form = rules::paper().measure(list, &image.words()).words as usize;
            for out_len in [case.out_len, form.saturating_sub(1)] {
                cases.push(Case { image: image.clone(), out_len, ..case.clone() });
            }
        }
    }
    cases
}

/// Work and settings of which nearly every word is in the records or in the form.
fn mixed(words: usize) -> Vec<u32> {
    const ROUND: usize = 16;
    let any = |k: usize| 0x9E3779B9_u32.wrapping_mul(1 + k as u32);
    let command = |id: u32, k: usize| first_word(id, any(k) & 0xFFFFFF);
    let word = |k: usize| match k % ROUND {
        _ if k >= words / ROUND * ROUND => command(0x00, k),
        0 => command(0x02, k),
        1 | 15 => command(0x00, k),
        2 => command(0x8C, k),
        6 => 0x40200001,
        14 => command(0x05, k),
        _ => any(k),
    };
    (0..words).map(word).collect()
}

fn lengths(lengths: &[usize], modes: &[u32]) -> Vec<Case> {
    let of_length = |words: &usize| {
        let list = mixed(*words);
        modes.iter().map(move |mode| in_mode("mode: lengths", *mode, &list))
    };
    lengths.iter().flat_map(of_length).collect()
}

/// A refused command behind the words that a smaller buffer would hold.
fn refused_far_behind() -> Vec<Case> {
    let refused = |(k, words): (usize, usize)| {
        let list = [&mixed(words)[..], &[UNDEFINED]].concat();
        in_mode("mode: refused far behind", mode_of(k), &list)
    };
    [64, 512, MAX_LIST_WORDS - 1].into_iter().enumerate().map(refused).collect()
}

/// Lists that no smaller buffer would hold, with just room for their records and their form, and one word
/// less.
fn room_of_long_lists() -> Vec<Case> {
    let mut cases = Vec::new();
    for (k, words) in [65, 513].into_iter().enumerate() {
        let list = mixed(words);
        let told = rules::paper().measure(&list, &Image::ZERO.words());
        let (records, form) = (4 * told.records as usize, told.words as usize);
        for less in [0, 1] {
            let case = in_mode("mode: room", mode_of(k), &list);
            cases.push(Case { records_len: records - less, out_len: form - less, ..case });
        }
    }
    cases
}

/// As many words as a list may have in each mode, and one more, with an undefined bit too.
fn longest() -> Vec<Case> {
    let one_more = [&[UNDEFINED], &mixed(MAX_LIST_WORDS)[..]].concat();
    let too_long = |mode: u32, len: usize| {
        let image = Image::Seeded { seed: 3, len };
        Case { image, ..in_mode("mode: too long", mode, &one_more) }
    };
    let mut cases = lengths(&[MAX_LIST_WORDS, MAX_LIST_WORDS + 1], &MODES);
    cases.extend([too_long(1, 256), too_long(2, 255)]);
    cases.push(Case { records_len: 3, out_len: 3, ..too_long(4, 255) });
    cases
}

/// Lists of two faults or two refused commands and document 01's cases, in each mode, swapped and not.
fn in_every_mode() -> Vec<Case> {
    let mut cases = Vec::new();
    for list in [fixed::two_faults(), fixed::two_refused(), fixed::papers()].concat() {
        for mode in MODES {
            cases.push(in_mode("mode: swapped", mode, &list));
            cases.push(unswapped("mode: not swapped", mode, &list));
        }
    }
    cases
}

/// A list made at random, in a mode: most are swapped for it.
pub fn random_in_mode(rng: &mut Prng, purpose: Purpose) -> Case {
    let mode = rng.pick(&[0, 1, 1, 2, 2, 3, 3]);
    match rng.below(8) {
        0 => of_case(mode, Case { class: "in a mode, not swapped", ..random_case(rng, purpose) }),
        1 => {
            let mode = any_over_3(rng);
            of_case(mode, Case { class: "in a mode over 3", ..random_case(rng, purpose) })
        }
        2 => {
            let list = bytes_like_ids(rng, purpose);
            swapped(mode, with_surroundings(rng, "in a mode, bytes like ids", list, purpose))
        }
        _ => swapped(mode, Case { class: "in a mode", ..random_case(rng, purpose) }),
    }
}

fn any_over_3(rng: &mut Prng) -> u32 {
    match rng.below(4) {
        0 => rng.pick(&OVER_3),
        1 => 1 << (2 + rng.below(30)) | rng.below(4) as u32,
        2 => 4 + rng.below(12) as u32,
        _ => rng.word().max(4),
    }
}

/// Words that are commands of one word in every mode, or nearly so.
fn bytes_like_ids(rng: &mut Prng, purpose: Purpose) -> Vec<u32> {
    let byte = |rng: &mut Prng| match rng.once_in(30) {
        true => rng.pick(&[0x01, 0x03, 0x06, 0x10, 0x20, 0x21, 0x26, 0x40, 0x84]),
        false => rng.pick(&[0x00, 0x02, 0x05, 0x30, 0x31]),
    };
    let words = any_length(rng, purpose);
    (0..words).map(|_| u32::from_le_bytes([0; 4].map(|_: u8| byte(rng)))).collect()
}

#[cfg(test)]
mod tests {
    use super::*;
    use crate::outcome::{self, Function, Outcome};

    fn read(case: &Case) -> Outcome {
        outcome::of(Function::Reader, rules::paper(), case)
    }

    #[test]
    fn lists_of_whole_commands_are_accepted() {
        let all = [payloads(), every_command(), every_bit(), lengths(&LENGTHS, &MODES)].concat();
        for case in all.iter().filter(|case| case.list.len() <= MAX_LIST_WORDS) {
            assert_eq!(read(case).answer[0], 0, "{} words, mode {}", case.list.len(), case.mode());
        }
    }

    /// Some the same in every mode, some good and different in each, some good in one mode alone.
    #[test]
    fn one_list_has_many_meanings() {
        let (mut same, mut different, mut in_one) = (0, 0, 0);
        for cases in one_list_in_each_mode().chunks(MODES.len()) {
            let given: Vec<Outcome> = cases.iter().map(read).collect();
            let good = given.iter().filter(|outcome| outcome.answer[0] == 0).count();
            let differ =
                |a: &Outcome, b: &Outcome| outcome::difference(Function::Reader, a, b).is_some();
            let others = |k: usize| given.iter().skip(k + 1).map(move |other| (k, other));
            let pairs = (0..given.len()).flat_map(others);
            let differing = pairs.filter(|(k, other)| differ(&given[*k], other)).count();
            same += (differing == 0) as u32;
            different += (differing == 6 && good == 4) as u32;
            in_one += (good == 1) as u32;
        }
        assert!(same >= 2 && different >= 2 && in_one >= 1, "{same}, {different}, {in_one}");
    }
}
