//! Single commands: valid ones, ones near a rule's boundary, and refused ones.

use crate::prng::Prng;
use crate::rules::{self, Kind, Row};

pub const BEGINS: [u32; 4] = [0x08, 0x0C, 0x10, 0x14];
pub const SURFACE_BASES: [u32; 3] = [0x21, 0x23, 0x25];
pub const GROUPS: [u32; 11] = [0x08, 0x0C, 0x10, 0x14, 0x40, 0x48, 0x84, 0x88, 0x8C, 0x90, 0xC4];
pub const LEGAL_CODES: [u32; 4] = [0, 1, 2, 5];
pub const BANK_LIMITS: [u32; 3] = [15, 11, 6];

pub fn first_word(id: u32, header: u32) -> u32 {
    id << 24 | header
}

/// The bits below the id in the first word of a command, all bits of the others.
pub fn bits_of_word(k: usize) -> usize {
    if k == 0 {
        24
    } else {
        32
    }
}

pub fn load_word(convert: bool, code: u32, offset: u32, length: u32) -> u32 {
    first_word(0x40, (convert as u32) << 23 | code << 20 | offset << 10 | length)
}

pub fn clip(bank: u32, maximum: u32, minimum: u32) -> Vec<u32> {
    vec![0x84000000, bank << 28, maximum << 28 | minimum << 12, 0]
}

pub fn table() -> &'static [Row] {
    &rules::paper().table.0
}

pub fn rows(kind: Kind) -> impl Iterator<Item = &'static Row> {
    table().iter().filter(move |row| row.kind == kind)
}

/// A command of the row with only zeros behind its id.
pub fn zeros(row: &Row) -> Vec<u32> {
    let mut words = vec![0; row.masks.len()];
    words[0] = first_word(row.id, 0);
    words
}

/// Any word, with the values that break programs more often than chance gives them.
pub fn any_word(rng: &mut Prng) -> u32 {
    match rng.below(8) {
        0 => 0,
        1 => !0,
        2 => 1 << rng.below(32),
        3 => !(1 << rng.below(32)),
        4 => rng.below(16) as u32,
        _ => rng.word(),
    }
}

/// A word that looks like the first word of a command.
pub fn command_like_word(rng: &mut Prng) -> u32 {
    let id = if rng.once_in(3) { rng.below(256) as u32 } else { any_row(rng).id };
    first_word(id, any_word(rng) & 0xFFFFFF)
}

pub fn any_row(rng: &mut Prng) -> &'static Row {
    &table()[rng.below(table().len())]
}

/// Words of the row with no undefined bit.
fn defined_words(rng: &mut Prng, row: &Row) -> Vec<u32> {
    let mut words: Vec<u32> = row.masks.iter().map(|mask| any_word(rng) & mask.bits).collect();
    words[0] |= row.id << 24;
    words
}

pub fn valid(rng: &mut Prng, id: u32) -> Vec<u32> {
    let row = rules::paper().row_of(id).expect("a known id");
    match id {
        0x40 => valid_load(rng),
        0x48 => zeros(row),
        0x84 => valid_clip(rng, row),
        0x88 => valid_raster(rng, row),
        _ => defined_words(rng, row),
    }
}

fn valid_load(rng: &mut Prng) -> Vec<u32> {
    let code = rng.pick(&LEGAL_CODES);
    let (offset, length) = if code == 5 {
        let offset = rng.below(9);
        (offset, rng.below(9 - offset))
    } else if rng.once_in(200) {
        (rng.below(512), rng.below(512))
    } else {
        (rng.pick(&[0, 1, 8, 9, 255, 256, 511]), rng.below(4))
    };
    let convert = code == 5 && rng.once_in(2);
    let mut words = vec![load_word(convert, code, offset as u32, length as u32), 0, 0, 0];
    if code == 2 {
        words[1] = any_word(rng);
    }
    if code == 1 || code == 2 {
        words[2] = any_word(rng);
        words[3] = any_word(rng);
    }
    words.extend(payload(rng, 4 * length));
    words
}

pub fn payload(rng: &mut Prng, words: usize) -> Vec<u32> {
    let like_commands = rng.once_in(2);
    (0..words).map(|_| if like_commands { command_like_word(rng) } else { any_word(rng) }).collect()
}

fn valid_clip(rng: &mut Prng, row: &Row) -> Vec<u32> {
    let mut words = defined_words(rng, row);
    let bank = rng.below(3);
    let maximum = rng.below(BANK_LIMITS[bank] as usize + 1) as u32;
    let minimum = rng.below(maximum as usize + 1) as u32;
    words[1] = words[1] & 0x0FFFFFFF | (bank as u32) << 28;
    words[2] = words[2] & 0x0FFF0FFF | maximum << 28 | minimum << 12;
    words
}

fn valid_raster(rng: &mut Prng, row: &Row) -> Vec<u32> {
    let mut words = defined_words(rng, row);
    if words[0] & 1 << 22 == 0 {
        words[0] &= !(1 << 14);
    }
    words
}

/// A command whose fields lie on both sides of its rules' boundaries; it may break several at once.
pub fn near(rng: &mut Prng, id: u32) -> Vec<u32> {
    let row = rules::paper().row_of(id).expect("a known id");
    match id {
        0x40 => near_load(rng),
        0x48 => near_primitive(rng, row),
        0x84 => near_clip(rng, row),
        0x88 => near_raster(rng, row),
        _ => {
            let mut words = defined_words(rng, row);
            set_some_bits(rng, &mut words);
            words
        }
    }
}

/// Sets any bits of the words below the id, once in a few calls.
fn set_some_bits(rng: &mut Prng, words: &mut [u32]) {
    while rng.once_in(6) {
        let k = rng.below(words.len());
        words[k] |= 1 << rng.below(bits_of_word(k));
    }
}

fn near_load(rng: &mut Prng) -> Vec<u32> {
    let code = if rng.once_in(2) { rng.below(8) as u32 } else { rng.pick(&LEGAL_CODES) };
    let offset = rng.pick(&[0, 1, 5, 6, 7, 8, 9, 511]);
    let length = rng.pick(&[0, 0, 1, 1, 2, 3, 7, 8, 9]);
    let convert = rng.once_in(if code == 5 { 2 } else { 8 });
    let mut words = vec![load_word(convert, code, offset, length), 0, 0, 0];
    if rng.once_in(8) {
        words[0] |= 1 << rng.pick(&[9, 19]);
    }
    for word in &mut words[1..] {
        if rng.once_in(5) || (code == 2 && rng.once_in(2)) {
            *word = any_word(rng);
        }
    }
    words.extend(payload(rng, 4 * length as usize));
    if rng.once_in(6) {
        words.truncate(words.len() - rng.below(words.len()));
    }
    words
}

fn near_primitive(rng: &mut Prng, row: &Row) -> Vec<u32> {
    let mut words = zeros(row);
    set_some_bits(rng, &mut words);
    words
}

fn near_clip(rng: &mut Prng, row: &Row) -> Vec<u32> {
    let mut words = defined_words(rng, row);
    let bank: u32 = rng.pick(&[0, 0, 0, 1, 1, 1, 2, 2, 2, 3]);
    let limit: u32 = [15, 11, 6, 15][bank as usize];
    let maximum = rng.pick(&[0, 1, limit - 1, limit, limit, limit, (limit + 1).min(15)]);
    let minimum = rng.pick(&[0, 0, 1, maximum.saturating_sub(1), maximum, (maximum + 1).min(15)]);
    words[1] = words[1] & 0x0FFFFFFF | bank << 28;
    words[2] = words[2] & 0x0FFF0FFF | maximum << 28 | minimum << 12;
    set_some_bits(rng, &mut words[..2]);
    words
}

fn near_raster(rng: &mut Prng, row: &Row) -> Vec<u32> {
    let mut words = defined_words(rng, row);
    words[0] &= !(1 << 22 | 1 << 14);
    words[0] |= (rng.below(2) as u32) << 22 | (rng.below(2) as u32) << 14;
    set_some_bits(rng, &mut words);
    words
}

/// Words that make a list refused when they stand after a valid command that is no surface base.
pub struct Refused {
    pub words: Vec<u32>,
    /// The refusal needs the list to end here.
    pub at_end: bool,
}

pub fn refused(rng: &mut Prng) -> Refused {
    let whole = |words| Refused { words, at_end: false };
    match rng.below(13) {
        0 => whole(vec![unknown_id_word(rng)]),
        1 => whole(vec![first_word(rng.pick(&[3, 4]), any_word(rng) & 0xFFFFFF)]),
        2 => cut_group(rng),
        3 => whole(with_undefined_bit(rng)),
        4 => whole(illegal_code(rng)),
        5 => whole(illegal_load_word(rng)),
        6 => whole(illegal_primitive(rng)),
        7 => whole(illegal_bank(rng)),
        8 => whole(clashing_clip(rng)),
        9 => whole(clashing_raster(rng)),
        10 => whole(clashing_load(rng)),
        11 => cut_payload(rng),
        _ => whole(base_and_follower(rng)),
    }
}

fn unknown_id_word(rng: &mut Prng) -> u32 {
    loop {
        let id = rng.below(256) as u32;
        if !rules::paper().is_known(id) {
            return first_word(id, any_word(rng) & 0xFFFFFF);
        }
    }
}

fn cut_group(rng: &mut Prng) -> Refused {
    let id = rng.pick(&GROUPS);
    let mut words = near(rng, id);
    words.truncate(1 + rng.below(3));
    Refused { words, at_end: true }
}

fn with_undefined_bit(rng: &mut Prng) -> Vec<u32> {
    loop {
        let row = any_row(rng);
        let k = rng.below(row.masks.len());
        let bit = 1 << rng.below(bits_of_word(k));
        if row.masks[k].bits & bit == 0 {
            let mut words = valid(rng, row.id);
            words[k] |= bit;
            if rng.once_in(2) {
                words[k] |= any_word(rng) & u32::MAX >> (32 - bits_of_word(k));
            }
            return words;
        }
    }
}

fn illegal_code(rng: &mut Prng) -> Vec<u32> {
    let mut words = valid_load(rng);
    words[0] = words[0] & !(7 << 20) | rng.pick(&[3, 4, 6, 7]) << 20;
    words
}

fn illegal_load_word(rng: &mut Prng) -> Vec<u32> {
    let code = rng.pick(&[0, 1, 5]);
    let word = if code == 1 { 1 } else { 1 + rng.below(3) };
    let mut words = vec![load_word(false, code, 0, 1), 0, 0, 0];
    words[word] = any_word(rng) | 1 << rng.below(32);
    words.extend(payload(rng, 4));
    words
}

fn illegal_primitive(rng: &mut Prng) -> Vec<u32> {
    let k = rng.below(4);
    let mut words = vec![0x48000000, 0, 0, 0];
    words[k] |= 1 << rng.below(bits_of_word(k));
    words
}

fn illegal_bank(rng: &mut Prng) -> Vec<u32> {
    let mut words = valid(rng, 0x84);
    words[1] |= 3 << 28;
    words
}

fn clashing_clip(rng: &mut Prng) -> Vec<u32> {
    let mut words = valid(rng, 0x84);
    let bank = rng.below(3);
    let limit = BANK_LIMITS[bank];
    let (maximum, minimum) = if limit < 15 && rng.once_in(2) {
        let maximum = limit + 1 + rng.below((15 - limit) as usize) as u32;
        (maximum, rng.pick(&[0, 1, maximum, (maximum + 1).min(15), 15]))
    } else {
        // No minimum is too large for 15.
        let maximum = rng.below(limit.min(14) as usize + 1) as u32;
        (maximum, maximum + 1 + rng.below((15 - maximum) as usize) as u32)
    };
    words[1] = words[1] & 0x0FFFFFFF | (bank as u32) << 28;
    words[2] = words[2] & 0x0FFF0FFF | maximum << 28 | minimum << 12;
    words
}

fn clashing_raster(rng: &mut Prng) -> Vec<u32> {
    let mut words = valid(rng, 0x88);
    words[0] = words[0] & !(1 << 22) | 1 << 14;
    words
}

fn clashing_load(rng: &mut Prng) -> Vec<u32> {
    if rng.once_in(2) {
        let mut words = vec![load_word(true, rng.below(3) as u32, 0, 1), 0, 0, 0];
        words.extend(payload(rng, 4));
        return words;
    }
    let offset = rng.below(16) as u32;
    let length = (9_u32.saturating_sub(offset)) + rng.below(3) as u32;
    let mut words = vec![load_word(rng.once_in(2), 5, offset, length), 0, 0, 0];
    if rng.once_in(2) {
        words.extend(payload(rng, 4 * length as usize));
    }
    words
}

fn cut_payload(rng: &mut Prng) -> Refused {
    let code = rng.pick(&LEGAL_CODES);
    let length = 1 + rng.below(8);
    let mut words = vec![load_word(false, code, 0, length as u32), 0, 0, 0];
    words.extend(payload(rng, 4 * length));
    let missing = if rng.once_in(2) { 1 } else { 1 + rng.below(4 * length) };
    words.truncate(words.len() - missing);
    Refused { words, at_end: true }
}

fn base_and_follower(rng: &mut Prng) -> Vec<u32> {
    let base = rng.pick(&SURFACE_BASES);
    let mut words = valid(rng, base);
    loop {
        let id = any_row(rng).id;
        if !BEGINS.contains(&id) {
            words.extend(valid(rng, id));
            return words;
        }
    }
}

#[cfg(test)]
mod tests {
    use super::*;

    fn verdict(list: &[u32]) -> u32 {
        rules::paper().commands(list).err().map_or(0, |refusal| refusal.verdict)
    }

    fn thresholds(list: &[u32]) -> (u32, u32) {
        (list[2] >> 28, list[2] >> 12 & 15)
    }

    /// On both sides of the edge: a minimum equal to the maximum, and one over it.
    #[test]
    fn clips_are_what_they_are_made_for() {
        let (mut equal, mut one_over, mut both) = (0, 0, 0);
        for number in 0..10_000 {
            let rng = &mut Prng::new(17, number);
            let good = valid(rng, 0x84);
            let (maximum, minimum) = thresholds(&good);
            assert_eq!(verdict(&good), 0, "{good:08X?}");
            equal += (minimum > 0 && minimum == maximum) as u32;

            let clashing = clashing_clip(rng);
            let (maximum, minimum) = thresholds(&clashing);
            let given = verdict(&clashing);
            assert!([15, 16].contains(&given), "{clashing:08X?}");
            one_over += (given == 16 && minimum == maximum + 1) as u32;
            both += (given == 15 && minimum > maximum) as u32;
        }
        assert!(equal > 500 && one_over > 500 && both > 500, "{equal}, {one_over}, {both}");
    }
}
