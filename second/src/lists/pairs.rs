//! Pairs of address and value: those of lists, and broken ones.

use super::commands::{self, any_word, clip, first_word, load_word, table, zeros};
use super::fixed;
use super::random::{any_list, any_refused_list, long_list};
use super::{plain, with_surroundings, Case, Image, Purpose};
use crate::paper;
use crate::prng::Prng;
use crate::rules::{self, Addresses, IdOf, PayloadAddresses, WithId, MAX_LIST_WORDS};

const FLUSH: u32 = 0x00000001;
const TIMER: u32 = 0x02000010;

/// The pairs of a list's words, by its structure alone.
pub fn pairs(list: &[u32]) -> Vec<u32> {
    pairs_at(list, &rules::paper().from_pci.addresses)
}

fn pairs_at(list: &[u32], addresses: &Addresses) -> Vec<u32> {
    let rules = &rules::paper().from_pci;
    let mut pairs = Vec::new();
    let mut rest = list;
    while !rest.is_empty() {
        let (words, behind) = rest.split_at(rest.len().min(rules.command_words(rest)));
        let pair = |k: usize| [addresses.of(rules.id, words, k), words[k]];
        pairs.extend((0..words.len()).flat_map(pair));
        rest = behind;
    }
    pairs
}

fn all_pairs(lists: Vec<Vec<u32>>) -> Vec<Vec<u32>> {
    lists.iter().map(|list| pairs(list)).collect()
}

/// Pairs with the address of pair `k` changed.
fn readdressed(pairs: &[u32], k: usize, change: impl Fn(u32) -> u32) -> Vec<u32> {
    let mut pairs = pairs.to_vec();
    pairs[2 * k] = change(pairs[2 * k]);
    pairs
}

fn one_step_on(address: u32) -> u32 {
    address.wrapping_add(4)
}

/// A command of each row whose words differ, a load with two payload groups.
fn whole_commands() -> Vec<Vec<u32>> {
    let command = |row: &rules::Row| match row.id {
        0x40 => load(1, 2),
        _ => {
            let mut words = zeros(row);
            (1..words.len()).for_each(|k| words[k] = k as u32);
            words
        }
    };
    table().iter().map(command).collect()
}

/// A load of a code, with all its payload.
fn load(code: u32, length: u32) -> Vec<u32> {
    let mut words = vec![load_word(false, code, 0, length), 0, 0, 0];
    words.extend((0..4 * length).map(|k| FLUSH + k));
    words
}

pub fn of_papers() -> Vec<Vec<u32>> {
    let guide = paper::GUIDE_WRITES.iter().map(|(_, pairs)| pairs.to_vec());
    guide.chain(all_pairs(fixed::papers())).collect()
}

/// One pair of each id, at its own address and at others.
pub fn every_id() -> Vec<Vec<u32>> {
    let mut all = Vec::new();
    for id in 0..256 {
        let pair = pairs(&[first_word(id, 1)]);
        all.push(readdressed(&pair, 0, one_step_on));
        all.push(pair);
    }
    all
}

/// Commands whose header could be read as a payload's length, and their defined bits.
pub fn of_commands() -> Vec<Vec<u32>> {
    let counted = |mut words: Vec<u32>| {
        words[0] |= 1;
        words
    };
    let counted = whole_commands().into_iter().map(counted).collect();
    all_pairs([whole_commands(), counted, fixed::all_defined_bits()].concat())
}

/// Each address one step on and back, one up, and at the command's first address.
pub fn other_addresses() -> Vec<Vec<u32>> {
    let mut all = Vec::new();
    for command in whole_commands() {
        let pairs = pairs(&[&[TIMER], &command[..], &[TIMER]].concat());
        for k in 1..=command.len() {
            all.push(readdressed(&pairs, k, one_step_on));
            all.push(readdressed(&pairs, k, |address| address - 4));
            all.push(readdressed(&pairs, k, |address| address + 1));
            if k > 1 {
                all.push(readdressed(&pairs, k, |_| pairs[2]));
                // The first of two is told.
                all.push(readdressed(&readdressed(&pairs, k, one_step_on), k - 1, one_step_on));
            }
        }
    }
    all
}

pub fn address_bits() -> Vec<Vec<u32>> {
    let pairs = pairs(&[FLUSH, 0x84000000, 0, 0, 0]);
    let flipped = |bit: u32| readdressed(&pairs, 2, |address| address ^ 1 << bit);
    (0..32).map(flipped).collect()
}

/// Pairs of other rules for the addresses.
pub fn misread_addresses() -> Vec<Vec<u32>> {
    let paper = &rules::paper().from_pci.addresses;
    let others = [
        Addresses { payload: PayloadAddresses::RunOn, ..paper.clone() },
        Addresses { payload: PayloadAddresses::FirstAlone, ..paper.clone() },
        Addresses { id_of: IdOf::EachWord, ..paper.clone() },
        Addresses { with_id: WithId::Once, ..paper.clone() },
        Addresses { with_id: WithId::SumFourTimes, ..paper.clone() },
        Addresses { with_id: WithId::NotAtAll, ..paper.clone() },
        Addresses { step: 1, ..paper.clone() },
        Addresses { step: 0, ..paper.clone() },
    ];
    let mut all = Vec::new();
    for addresses in &others {
        all.extend(whole_commands().iter().map(|command| pairs_at(command, addresses)));
    }
    // The words of a group as commands of their own.
    for id in commands::BEGINS {
        all.push([first_word(id, 0), 0x00100000, 0x02000000, 0].map(|w| pairs(&[w])).concat());
    }
    all
}

/// Pairs cut at each word, and so with an odd word at every second place.
pub fn cuts() -> Vec<Vec<u32>> {
    let mut all = Vec::new();
    let groups = whole_commands().into_iter().filter(|command| command.len() > 1);
    for command in groups.chain([load(1, 3), load(3, 2)]) {
        let pairs = pairs(&[&[TIMER], &command[..]].concat());
        all.extend((2..pairs.len()).map(|words| pairs[..words].to_vec()));
    }
    all
}

/// A wrong address in a command that is cut behind it.
pub fn cut_behind_wrong_address() -> Vec<Vec<u32>> {
    let mut all = Vec::new();
    for command in [vec![0x10000000, 0, 0, 0], vec![0x84000000, 0, 0, 0], load(1, 2), load(6, 1)] {
        let pairs = pairs(&[&[TIMER], &command[..]].concat());
        for count in [2, 3, command.len()] {
            for k in 1..count {
                let words = readdressed(&pairs[..2 * count], k, one_step_on);
                all.push([&words[..], &[0x2800]].concat());
                all.push(words);
            }
        }
    }
    all
}

/// An odd word behind whole pairs.
pub fn odd_words() -> Vec<Vec<u32>> {
    let mut all = vec![vec![0], vec![0x2800], vec![0x2920]];
    for list in [&[FLUSH][..], &[TIMER, 0x48000000, 0, 0, 0], &[0x01000002], &load(2, 1)] {
        for odd in [0, 0x2800, 0x2808, 0x48000000, 0xFFFFFFFF] {
            all.push([&pairs(list)[..], &[odd]].concat());
        }
    }
    all
}

/// Loads of each code and of lengths with each bit, whole or cut.
pub fn loads() -> Vec<Vec<u32>> {
    let mut all = Vec::new();
    for code in 0..8 {
        for length in 0..=3 {
            let list = [&load(code, length)[..], &[FLUSH]].concat();
            all.push(pairs(&list));
            // The payload as commands of their own.
            let own: Vec<u32> = list[4..].iter().flat_map(|word| pairs(&[*word])).collect();
            all.push([&pairs(&list)[..8], &own].concat());
        }
    }
    for bit in 0..24 {
        let command = [0x40000000 | 1 << bit, 0, 0, 0];
        all.push(pairs(&command));
        all.push(pairs(&[command, [FLUSH, 2, 3, 4]].concat()));
        all.push([pairs(&command), pairs(&[FLUSH])].concat());
        all.push([pairs(&[0x40000000, 1 << bit, 0, 0]), pairs(&[FLUSH])].concat());
    }
    all
}

/// Lists with refusals of their own, alone and ahead of a wrong address or a cut.
pub fn refused_lists() -> Vec<Vec<u32>> {
    let after_base = |command: Vec<u32>| [&[0x21000000], &command[..]].concat();
    let after_base: Vec<Vec<u32>> = table().iter().map(zeros).map(after_base).collect();
    let two = [fixed::two_faults(), fixed::two_refused()].concat();
    let mut all = all_pairs([two, fixed::after_base(), after_base].concat());
    let refused: [&[u32]; 8] = [
        &[0x06000000],
        &[0x03000000],
        &[0x01000002],
        &[0x48000001, 0, 0, 0],
        &[0x84000000, 0x30000000, 0, 0],
        &[0x88004000, 0, 0, 0],
        &[0x21000000, FLUSH],
        &[FLUSH],
    ];
    let behind = [
        pairs(&[FLUSH]),
        vec![0x2804, FLUSH],
        pairs(&[0x06000000]),
        vec![0x2808, 0x06000000],
        pairs(&[0x10000000, 0]),
        pairs(&[0x40300001, 0, 0, 0]),
    ];
    for list in refused {
        for behind in &behind {
            all.push([&pairs(&[&[TIMER], list].concat())[..], behind].concat());
        }
    }
    all
}

/// Lists that the rules for single commands tell apart.
pub fn bits_and_limits() -> Vec<Vec<u32>> {
    let mut primitive_bits = fixed::every_bit(true);
    primitive_bits.retain(|list| list[0] >> 24 == 0x48);
    let bits = [fixed::every_bit(false), fixed::every_load_bit(), primitive_bits];
    let undefined = [
        fixed::undefined_and_all_above(),
        fixed::undefined_among_defined(),
        fixed::undefined_in_two_words(),
        undefined_loads(),
    ];
    let minimum_bits = (0..4).map(|bit| clip(0, 0, 1 << bit)).collect();
    let clips = [fixed::clip_limits(), minimum_bits];
    let values = [fixed::load_codes(), clips.concat(), fixed::raster_bits()];
    let planes = [fixed::plane_ranges(), fixed::planes_with_payload()];
    let bits = [bits.concat(), undefined.concat()].concat();
    all_pairs([bits, values.concat(), fixed::primitive_words(), planes.concat()].concat())
}

/// An undefined bit above all bits of the length, with its payload, and one above the offset.
fn undefined_loads() -> Vec<Vec<u32>> {
    let mut above_length = load(0, 511);
    above_length[0] |= 1 << 9;
    vec![above_length, vec![load_word(false, 0, 511, 0) | 1 << 19, 0, 0, 0]]
}

/// As many pairs as a list may have words.
fn most_pairs() -> Vec<u32> {
    let list: Vec<u32> = (0..MAX_LIST_WORDS as u32).map(|k| 0x02000000 | k).collect();
    pairs(&list)
}

fn with_more(mut words: Vec<u32>, more: &[u32]) -> Vec<u32> {
    words.extend_from_slice(more);
    words
}

pub fn sizes() -> Vec<Vec<u32>> {
    let odd_word = with_more(most_pairs(), &[0x2808]);
    let one_more = with_more(most_pairs(), &pairs(&[FLUSH]));
    vec![vec![], odd_word, one_more]
}

pub fn other_sizes() -> Vec<Vec<u32>> {
    let max = MAX_LIST_WORDS;
    vec![
        most_pairs(),
        most_pairs()[2..].to_vec(),
        with_more(most_pairs(), &[0x2808, TIMER, 0x2808]),
        with_more(most_pairs()[2..].to_vec(), &[0x2920, 0x48000000]),
        with_more(most_pairs()[2..].to_vec(), &[0x2808, FLUSH]),
        pairs(&[0x48000000; MAX_LIST_WORDS]),
        pairs(&load(1, 511)),
        pairs(&[load(2, 511), load(4, 511)].concat()),
        pairs(&vec![FLUSH; 2 * max]),
        vec![0; 4 * max],
    ]
}

/// Images of other lengths, with pairs that would be refused or not, and with no room.
pub fn image_lengths() -> Vec<Case> {
    let all = [
        vec![],
        pairs(&[FLUSH]),
        vec![0x2804, FLUSH],
        pairs(&[0x10000000, 0, 0]),
        pairs(&[0x06000000]),
        pairs(&[0x21000000, FLUSH]),
        pairs(&[0x01000002]),
    ];
    let mut cases = Vec::new();
    for len in [0, 1, 255, 256, 257] {
        for (k, words) in all.iter().enumerate() {
            for pci_len in [0, 8] {
                let image = Image::Seeded { seed: len as u32 * k as u32, len };
                let case = plain("pairs: image lengths", words.clone(), Purpose::Store);
                cases.push(Case { image, pci_len, ..case });
            }
        }
    }
    // Too many pairs, ahead of the image, a wrong address, a refused list and the room.
    let words = with_more(most_pairs(), &[0x2808, 0x01000002]);
    let case = plain("pairs: image lengths", words, Purpose::Store);
    cases.push(Case { image: Image::Seeded { seed: 1, len: 255 }, pci_len: 0, ..case });
    cases
}

/// Pairs of nine words and of two, and refused ones, with less room and more.
pub fn buffer_lengths() -> Vec<Case> {
    let list = [TIMER, FLUSH, 0x8C000001, 1, 2, 3, FLUSH, 0x02000011, 0x05000001];
    let all = [
        pairs(&list),
        pairs(&[0x02000010, 0x02000000]),
        with_more(pairs(&list), &[0x2808]),
        with_more(pairs(&list), &[0x2808, FLUSH]),
        with_more(pairs(&list), &[0x2910, 0x44000000]),
        with_more(pairs(&list), &[0x2840, 0x10000000]),
    ];
    let mut cases = Vec::new();
    for words in all {
        for pci_len in 0..=12 {
            let case = plain("pairs: buffer lengths", words.clone(), Purpose::Store);
            cases.push(Case { pci_len, ..case });
        }
    }
    cases
}

/// Pairs made at random: of good and of refused lists, whole and damaged.
pub fn random_pairs(rng: &mut Prng, purpose: Purpose) -> Case {
    let long = purpose == Purpose::Run && rng.once_in(400);
    let list = match rng.below(3) {
        _ if long => long_list(rng),
        0 => any_refused_list(rng, purpose),
        _ => any_list(rng, purpose),
    };
    let mut words = pairs(&list);
    let class = match rng.below(8) {
        0 | 1 => "pairs",
        2 => {
            damage_address(rng, &mut words);
            "pairs, another address"
        }
        3 => {
            words.truncate(rng.below(words.len() + 1));
            "pairs, cut"
        }
        4 => {
            damage_address(rng, &mut words);
            words.truncate(rng.below(words.len() + 1));
            "pairs, another address and cut"
        }
        5 => {
            words.push(any_word(rng));
            "pairs, an odd word"
        }
        6 => {
            damage_value(rng, &mut words);
            "pairs, another value"
        }
        _ => {
            (0..1 + rng.below(3)).for_each(|_| damage_pairs(rng, &mut words));
            "pairs, damaged"
        }
    };
    with_surroundings(rng, class, words, purpose)
}

fn damage_address(rng: &mut Prng, words: &mut [u32]) {
    if words.is_empty() {
        return;
    }
    let k = 2 * rng.below(words.len() / 2);
    words[k] = match rng.below(6) {
        0 => words[k].wrapping_add(4),
        1 => words[k].wrapping_sub(4),
        2 => words[k].wrapping_add(16),
        3 => words[2 * rng.below(words.len() / 2)],
        4 => words[k] ^ 1 << rng.below(32),
        _ => any_word(rng),
    };
}

fn damage_value(rng: &mut Prng, words: &mut [u32]) {
    if words.is_empty() {
        return;
    }
    let k = 2 * rng.below(words.len() / 2) + 1;
    words[k] = match rng.below(3) {
        0 => any_word(rng),
        _ => words[k] ^ 1 << rng.below(32),
    };
}

/// A pair left out, twice or at another place, or a word left out.
fn damage_pairs(rng: &mut Prng, words: &mut Vec<u32>) {
    if words.len() < 2 {
        return;
    }
    let k = 2 * rng.below(words.len() / 2);
    let pair = [words[k], words[k + 1]];
    match rng.below(4) {
        0 => drop(words.drain(k..k + 2)),
        1 => drop(words.splice(k..k, pair)),
        2 => {
            words.drain(k..k + 2);
            let to = 2 * rng.below(words.len() / 2 + 1);
            words.splice(to..to, pair);
        }
        _ => drop(words.remove(k + rng.below(2))),
    }
}
