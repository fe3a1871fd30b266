//! Lists made at random, by class.

use super::commands::{self, any_word, command_like_word, first_word, Refused};
use super::{with_buffers, with_surroundings, Case, Image, Purpose};
use crate::prng::Prng;
use crate::rules::{self, Flip, Kind, IMAGE_WORDS, MAX_LIST_WORDS};

pub fn random_case(rng: &mut Prng, purpose: Purpose) -> Case {
    if purpose == Purpose::Run && rng.once_in(400) {
        let list = long_list(rng);
        return with_surroundings(rng, "long", list, purpose);
    }
    let words = any_length(rng, purpose);
    let (class, list) = match rng.below(12) {
        0 => ("valid", valid_list(rng, words)),
        1 | 2 => return scene_case(rng, words, purpose),
        3 => ("near a boundary", near_list(rng, words)),
        4 | 5 => ("one refused command", list_with_refusal(rng, words)),
        6 => ("damaged", damaged_list(rng, words)),
        7 => ("cut", cut_list(rng, words)),
        8 => ("flips", flip_list(rng, words)),
        9 => ("loads", load_list(rng, words)),
        10 => ("known ids, random words", known_id_list(rng, words)),
        _ => ("random words", random_words(rng, words)),
    };
    with_surroundings(rng, class, list, purpose)
}

/// Lists of which most are accepted.
pub fn any_list(rng: &mut Prng, purpose: Purpose) -> Vec<u32> {
    let words = any_length(rng, purpose);
    match rng.below(4) {
        0 => flip_list(rng, words),
        1 => load_list(rng, words),
        _ => valid_list(rng, words),
    }
}

/// Lists of which most are refused.
pub fn any_refused_list(rng: &mut Prng, purpose: Purpose) -> Vec<u32> {
    let words = any_length(rng, purpose);
    match rng.below(4) {
        0 => near_list(rng, words),
        1 => damaged_list(rng, words),
        2 => known_id_list(rng, words),
        _ => list_with_refusal(rng, words),
    }
}

pub fn any_length(rng: &mut Prng, purpose: Purpose) -> usize {
    match (purpose, rng.below(20)) {
        (Purpose::Store, _) => 1 + rng.below(14),
        (_, 0) => rng.below(600),
        (_, 1..=4) => rng.below(120),
        _ => rng.below(30),
    }
}

/// At least `words` words, unless it ends with a surface base.
fn valid_list(rng: &mut Prng, words: usize) -> Vec<u32> {
    let mut list = Vec::new();
    while list.len() < words {
        let id = commands::any_row(rng).id;
        push_valid(rng, &mut list, id);
        if commands::SURFACE_BASES.contains(&id) {
            if rng.once_in(3) {
                break;
            }
            push_begin(rng, &mut list);
        }
    }
    list
}

fn push_valid(rng: &mut Prng, list: &mut Vec<u32>, id: u32) {
    list.extend(commands::valid(rng, id));
}

fn push_begin(rng: &mut Prng, list: &mut Vec<u32>) {
    let id = rng.pick(&commands::BEGINS);
    push_valid(rng, list, id);
}

fn work_that_may_stand_anywhere(rng: &mut Prng) -> u32 {
    rng.pick(&[0x00, 0x00, 0x01, 0x05, 0x08, 0x0C, 0x10, 0x14, 0x20, 0x22, 0x24, 0x40, 0x48])
}

/// Few settings with few values, set again and again before work, often to what the image has.
fn scene_case(rng: &mut Prng, words: usize, purpose: Purpose) -> Case {
    let values = scene_values(rng);
    let mut list = Vec::new();
    while list.len() < words {
        for _ in 0..rng.below(5) {
            let of_one = &values[rng.below(values.len())];
            list.extend_from_slice(&of_one[rng.below(of_one.len())]);
        }
        if rng.once_in(8) {
            let base = rng.pick(&commands::SURFACE_BASES);
            push_valid(rng, &mut list, base);
            push_begin(rng, &mut list);
        } else if !rng.once_in(4) {
            let id = work_that_may_stand_anywhere(rng);
            push_valid(rng, &mut list, id);
        }
    }
    if purpose == Purpose::Store || rng.once_in(2) {
        return with_surroundings(rng, "scene", list, purpose);
    }
    let image = scene_image(rng, &values);
    with_buffers(rng, "scene", list, Image::Words(image), purpose)
}

/// For each setting of the scene, the commands that set it.
fn scene_values(rng: &mut Prng) -> Vec<Vec<Vec<u32>>> {
    let mut settings: Vec<_> = commands::rows(Kind::Setting).collect();
    rng.shuffle(&mut settings);
    settings.truncate(1 + rng.below(4));
    settings
        .iter()
        .map(|row| {
            let mut values = vec![commands::zeros(row)];
            for _ in 0..1 + rng.below(2) {
                values.push(commands::valid(rng, row.id));
            }
            values
        })
        .collect()
}

fn scene_image(rng: &mut Prng, values: &[Vec<Vec<u32>>]) -> Vec<u32> {
    let mut image: Vec<u32> = (0..IMAGE_WORDS).map(|_| any_word(rng)).collect();
    for of_one in values {
        let chosen = &of_one[rng.below(of_one.len())];
        let commands = rules::paper().commands(chosen).expect("a valid setting");
        rules::paper().apply(&commands[0], &mut image);
    }
    image
}

fn near_list(rng: &mut Prng, words: usize) -> Vec<u32> {
    let before = rng.below(words + 1);
    let mut list = valid_list(rng, before);
    for _ in 0..1 + rng.below(6) {
        let id = if rng.once_in(3) {
            commands::any_row(rng).id
        } else {
            rng.pick(&[0x40, 0x40, 0x40, 0x48, 0x84, 0x84, 0x88, 0x90, 0x21, 0x08])
        };
        list.extend(commands::near(rng, id));
    }
    list
}

fn list_with_refusal(rng: &mut Prng, words: usize) -> Vec<u32> {
    let before = rng.below(words + 1);
    let mut list = valid_list(rng, before);
    let Refused { words: refused, at_end } = commands::refused(rng);
    list.extend(refused);
    if !at_end {
        let after = rng.below(12);
        list.extend(valid_list(rng, after));
    }
    list
}

fn damaged_list(rng: &mut Prng, words: usize) -> Vec<u32> {
    let mut list = valid_list(rng, words.max(1));
    for _ in 0..1 + rng.below(3) {
        damage(rng, &mut list);
    }
    list
}

fn damage(rng: &mut Prng, list: &mut Vec<u32>) {
    if list.is_empty() {
        return;
    }
    let at = rng.below(list.len());
    match rng.below(6) {
        0 | 1 => list[at] ^= 1 << rng.below(32),
        2 => {
            list.remove(at);
        }
        3 => list.insert(at, any_word(rng)),
        4 => list.insert(at, list[at]),
        _ => list[at] = list[at] & 0xFFFFFF | command_like_word(rng) & 0xFF000000,
    }
}

fn cut_list(rng: &mut Prng, words: usize) -> Vec<u32> {
    let mut list = valid_list(rng, words);
    let id = rng.pick(&commands::GROUPS);
    push_valid(rng, &mut list, id);
    let missing = if rng.once_in(2) { rng.below(4) } else { rng.below(list.len() + 1) };
    list.truncate(list.len() - missing.min(list.len()));
    list
}

fn flip_list(rng: &mut Prng, words: usize) -> Vec<u32> {
    let mut list = Vec::new();
    while list.len() < words {
        let base = rng.pick(&commands::SURFACE_BASES);
        push_valid(rng, &mut list, base);
        if rng.once_in(6) {
            let id = commands::any_row(rng).id;
            list.extend(commands::near(rng, id));
        } else {
            push_begin(rng, &mut list);
        }
        if rng.once_in(2) {
            let id = work_that_may_stand_anywhere(rng);
            push_valid(rng, &mut list, id);
        }
    }
    list
}

fn load_list(rng: &mut Prng, words: usize) -> Vec<u32> {
    let mut list = Vec::new();
    while list.len() < words {
        push_valid(rng, &mut list, 0x40);
        if rng.once_in(2) {
            let settings = valid_list(rng, 2);
            list.extend(settings);
        }
    }
    list
}

fn known_id_list(rng: &mut Prng, words: usize) -> Vec<u32> {
    let mut list = Vec::new();
    while list.len() < words {
        let row = commands::any_row(rng);
        let sparse = rng.once_in(2);
        for k in 0..row.masks.len() {
            let word = if sparse { 1 << rng.below(32) } else { any_word(rng) };
            list.push(if k == 0 { first_word(row.id, word & 0xFFFFFF) } else { word });
        }
    }
    list
}

fn random_words(rng: &mut Prng, words: usize) -> Vec<u32> {
    let like_commands = rng.once_in(2);
    (0..words).map(|_| if like_commands { command_like_word(rng) } else { rng.word() }).collect()
}

/// Lists at the largest length and next to it.
pub fn long_list(rng: &mut Prng) -> Vec<u32> {
    let max = MAX_LIST_WORDS;
    let words = rng.pick(&[max - 1, max, max, max, max + 1, max + 1, max + 5, 2 * max, 10_000]);
    let mut list = if rng.once_in(2) { valid_list(rng, words) } else { load_list(rng, words) };
    if rng.once_in(2) {
        // Whole commands up to the wanted length, then commands of one word.
        list.clear();
        while list.len() + 40 < words {
            let id = rng.pick(&[0x00, 0x02, 0x26, 0x30, 0x31, 0x48, 0x84, 0x8C, 0xC4, 0x40, 0x10]);
            push_valid(rng, &mut list, id);
        }
    }
    while list.len() < words {
        let id = rng.pick(&[0x00, 0x02, 0x30, 0x31]);
        push_valid(rng, &mut list, id);
    }
    list.truncate(words);
    if rng.once_in(4) {
        list[words - 1] = command_like_word(rng);
    }
    list
}

/// A list with the same work, whose settings come in another order, hidden ones and repeated ones
/// among them. Now and then one setting is changed, so that it may do something else.
pub fn equivalent_list(rng: &mut Prng, list: &[u32]) -> Vec<u32> {
    let commands = rules::paper().commands(list).expect("a valid list");
    let mut other = Vec::new();
    let mut pending: Vec<&[u32]> = Vec::new();
    let mut in_force: Vec<&[u32]> = Vec::new();
    let mut after_base = false;
    for command in &commands {
        if command.is_work() {
            push_rearranged(rng, &mut other, &mut pending);
            if !after_base && !in_force.is_empty() && rng.once_in(3) {
                other.extend_from_slice(rng.pick(&in_force));
            }
            other.extend_from_slice(command.words);
        } else {
            replace_setting(&mut pending, command.words);
            replace_setting(&mut in_force, command.words);
        }
        after_base = command.row.flip == Flip::SurfaceBase;
    }
    push_rearranged(rng, &mut other, &mut pending);
    other
}

fn replace_setting<'a>(settings: &mut Vec<&'a [u32]>, words: &'a [u32]) {
    settings.retain(|kept| kept[0] >> 24 != words[0] >> 24);
    settings.push(words);
}

fn push_rearranged(rng: &mut Prng, list: &mut Vec<u32>, pending: &mut Vec<&[u32]>) {
    rng.shuffle(pending);
    for setting in pending.iter() {
        if rng.once_in(3) {
            push_valid(rng, list, setting[0] >> 24);
        }
    }
    for setting in pending.drain(..) {
        list.extend_from_slice(setting);
        if rng.once_in(40) {
            push_valid(rng, list, setting[0] >> 24);
        }
    }
}
