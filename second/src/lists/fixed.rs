//! Sets of lists that are the same in every run: each rule's boundary, from both sides.

use super::commands::{
    bits_of_word, clip, first_word, load_word, rows, table, valid, zeros, BEGINS, GROUPS,
    LEGAL_CODES, SURFACE_BASES,
};
use super::{modes, pairs, plain, sessions, with_buffers, with_surroundings, Case, Image, Purpose};
use crate::paper;
use crate::prng::{self, Prng};
use crate::rules::{self, Kind, Row, IMAGE_WORDS, MAX_LIST_WORDS};

const FLUSH: u32 = 0x00000001;
const TIMER: u32 = 0x02000000;

/// A command for each of verdicts 15 to 19.
const CLASHES: [[u32; 4]; 5] = [
    [0x84000000, 0x10000000, 0xC0000000, 0],
    [0x84000000, 0, 0x30004000, 0],
    [0x88004000, 0, 0, 0],
    [0x40800000, 0, 0, 0],
    [0x40502400, 0, 0, 0],
];

struct Set {
    class: &'static str,
    lists: Vec<Vec<u32>>,
    stored: Store,
}

/// What of a set goes into the vectors file.
#[derive(Clone, Copy, PartialEq, Eq)]
enum Store {
    Nothing,
    /// One short list in this many.
    OneIn(usize),
    EveryShort,
    Every,
}

fn sets() -> Vec<Set> {
    use Store::{Every, EveryShort, Nothing, OneIn};
    let set = |class, lists, stored| Set { class, lists, stored };
    vec![
        set("cases of 01 and the guide", papers(), Every),
        set("every id alone", every_id_alone(), Every),
        set("every id", every_id(), OneIn(16)),
        set("every undefined bit", every_bit(false), Every),
        set("every defined bit", every_bit(true), Every),
        set("every bit, not first", every_bit_not_first(), OneIn(40)),
        set("an undefined bit and the next", undefined_and_next(), Every),
        set("an undefined bit and all above", undefined_and_all_above(), OneIn(8)),
        set("every two undefined bits", every_two_undefined(), OneIn(80)),
        set("one bit or two of a word", every_one_or_two(), Nothing),
        set("undefined bits among defined ones", undefined_among_defined(), Every),
        set("undefined bits in two words", undefined_in_two_words(), Every),
        set("every bit of a load", every_load_bit(), Every),
        set("all defined bits", all_defined_bits(), Every),
        set("load codes", load_codes(), Every),
        set("load lengths", load_lengths(), EveryShort),
        set("plane ranges", plane_ranges(), EveryShort),
        set("too many planes, all there", planes_with_payload(), Every),
        set("payload cut", payload_cuts(), Every),
        set("payload like commands", payload_like_commands(), OneIn(12)),
        set("page thresholds at the limits", clip_limits(), Every),
        set("page thresholds, all", clip_table(), OneIn(16)),
        set("raster bits", raster_bits(), Every),
        set("primitive words", primitive_words(), Every),
        set("after a surface base", after_base(), Every),
        set("every id after a surface base", every_id_after_base(), OneIn(4)),
        set("group cut", group_cuts(), Every),
        set("two faults", two_faults(), Every),
        set("two refused commands", two_refused(), Every),
        set("one setting around work", setting_around_work(), OneIn(8)),
        set("settings in any order", setting_orders(), EveryShort),
        set("sizes", sizes(), Every),
        set("other sizes", other_sizes(), Nothing),
        set("pairs: cases of 01 and the guide", pairs::of_papers(), Every),
        set("pairs: every id", pairs::every_id(), Every),
        set("pairs: commands", pairs::of_commands(), Every),
        set("pairs: other addresses", pairs::other_addresses(), Every),
        set("pairs: every bit of an address", pairs::address_bits(), Every),
        set("pairs: misread addresses", pairs::misread_addresses(), Every),
        set("pairs: cuts", pairs::cuts(), Every),
        set("pairs: a wrong address, then a cut", pairs::cut_behind_wrong_address(), Every),
        set("pairs: odd words", pairs::odd_words(), Every),
        set("pairs: loads", pairs::loads(), Every),
        set("pairs: refused lists", pairs::refused_lists(), Every),
        set("pairs: bits and limits of the lists", pairs::bits_and_limits(), Every),
        set("pairs: sizes", pairs::sizes(), Every),
        set("pairs: other sizes", pairs::other_sizes(), Nothing),
    ]
}

/// Every list of the sets twice, with a zero image and room, and with other surroundings; then the cases
/// with surroundings of their own, the sessions, and the lists in a mode.
pub fn fixed_cases() -> Vec<Case> {
    let mut cases = Vec::new();
    for set in sets() {
        for list in set.lists {
            let mut rng = Prng::new(1, cases.len() as u64);
            cases.push(plain(set.class, list.clone(), Purpose::Run));
            cases.push(with_surroundings(&mut rng, set.class, list, Purpose::Run));
        }
    }
    cases.extend(paper_images());
    cases.extend(stored_whole());
    cases.extend(sessions::fixed_sessions());
    cases.extend(modes::fixed_in_modes());
    cases
}

/// Cases with surroundings of their own, all in the vectors file.
fn stored_whole() -> Vec<Case> {
    let lists = [equal_settings(), defined_part(), image_lengths(), buffer_lengths()];
    let pairs = [pairs::image_lengths(), pairs::buffer_lengths()];
    [lists.concat(), pairs.concat(), form_lengths()].concat()
}

/// A sample of the sets that fits a small file. Sets that are stored whole get a zero image and
/// room, so that no other refusal hides what a list is there for.
pub fn fixed_sample() -> Vec<Case> {
    const LONGEST: usize = 48;
    let mut rng = Prng::new(2, 0);
    let mut cases = Vec::new();
    for Set { class, lists, stored } in sets() {
        for list in lists {
            let short = list.len() <= LONGEST;
            let wanted = match stored {
                Store::Nothing => false,
                Store::OneIn(n) => short && rng.once_in(n),
                Store::EveryShort => short,
                Store::Every => true,
            };
            if !wanted {
                continue;
            }
            let sampled = matches!(stored, Store::OneIn(_));
            cases.push(match sampled && rng.once_in(2) {
                true => with_surroundings(&mut rng, class, list, Purpose::Store),
                false => plain(class, list, Purpose::Store),
            });
        }
    }
    cases.extend(stored_whole());
    cases
}

pub fn papers() -> Vec<Vec<u32>> {
    let mut lists: Vec<Vec<u32>> = paper::CASES.iter().map(|case| case.list.to_vec()).collect();
    lists.push(paper::LISTING_WORDS.to_vec());
    lists
}

/// 01's cases that start from an image other than zeros.
fn paper_images() -> Vec<Case> {
    let of_case = |case: &paper::PaperCase| {
        let mut image = vec![0; IMAGE_WORDS];
        image[0x02] = case.timer;
        let plain = plain("cases of 01 and the guide", case.list.to_vec(), Purpose::Run);
        Case { image: Image::Words(image), ..plain }
    };
    paper::CASES.iter().filter(|case| case.timer != 0).map(of_case).collect()
}

fn every_id_alone() -> Vec<Vec<u32>> {
    (0..256).map(|id| vec![first_word(id, 0)]).collect()
}

fn every_id() -> Vec<Vec<u32>> {
    let mut lists = Vec::new();
    for id in 0..256 {
        for header in [0, 1, 0x400000, 0xFFFFFF] {
            let first = first_word(id, header);
            lists.push(vec![first]);
            lists.push(vec![FLUSH, first]);
            lists.push(vec![first, 0, 0, 0]);
            lists.push(vec![FLUSH, first, 0, 0]);
        }
    }
    lists
}

/// Each bit below the id of each word, alone: those in the masks, or those outside.
pub fn every_bit(defined: bool) -> Vec<Vec<u32>> {
    let mut lists = Vec::new();
    for row in table() {
        for (k, mask) in row.masks.iter().enumerate() {
            let bits = (0..bits_of_word(k)).map(|number| 1 << number);
            for bit in bits.filter(|bit| (mask.bits & bit != 0) == defined) {
                let mut list = zeros(row);
                list[k] |= bit;
                lists.push(list);
            }
        }
    }
    lists
}

/// The same where it isn't the first command, and with room for a payload behind it.
fn every_bit_not_first() -> Vec<Vec<u32>> {
    let within = |list: Vec<u32>| [&[TIMER], &list[..], &[0; 40]].concat();
    let all = [every_bit(true), every_bit(false)].concat();
    all.into_iter().map(within).collect()
}

/// A word of a command with undefined bits.
struct Undefined {
    row: &'static Row,
    word: usize,
    /// The bits, lowest first.
    bits: Vec<u32>,
}

impl Undefined {
    /// The command with these bits of the word.
    fn list(&self, bits: u32) -> Vec<u32> {
        let mut list = zeros(self.row);
        list[self.word] |= bits;
        list
    }

    fn highest(&self) -> u32 {
        *self.bits.last().expect("an undefined bit")
    }
}

fn undefined_words() -> Vec<Undefined> {
    let mut all = Vec::new();
    for row in table() {
        for (word, mask) in row.masks.iter().enumerate() {
            let bits = (0..bits_of_word(word)).map(|number| 1 << number);
            let bits: Vec<u32> = bits.filter(|bit| mask.bits & bit == 0).collect();
            if !bits.is_empty() {
                all.push(Undefined { row, word, bits });
            }
        }
    }
    all
}

/// Each with the next one of its word, and the lowest with the highest.
fn undefined_and_next() -> Vec<Vec<u32>> {
    let mut lists = Vec::new();
    for undefined in undefined_words() {
        lists.extend(undefined.bits.windows(2).map(|two| undefined.list(two[0] | two[1])));
        lists.push(undefined.list(undefined.bits[0] | undefined.highest()));
    }
    lists
}

pub fn undefined_and_all_above() -> Vec<Vec<u32>> {
    let of_word = |undefined: Undefined| -> Vec<Vec<u32>> {
        let from = |k: usize| undefined.list(undefined.bits[k..].iter().sum());
        (0..undefined.bits.len() - 1).map(from).collect()
    };
    undefined_words().into_iter().flat_map(of_word).collect()
}

/// A command with one bit or two bits set in a word, below the id.
pub struct OneOrTwoBits {
    pub list: Vec<u32>,
    pub word: usize,
    /// Those of the bits that are undefined, lowest first.
    pub undefined: Vec<usize>,
}

/// Each bit of each word alone, and every two.
pub fn one_or_two_bits() -> Vec<OneOrTwoBits> {
    let mut all = Vec::new();
    for row in table() {
        for (word, mask) in row.masks.iter().enumerate() {
            for low in 0..bits_of_word(word) {
                for high in low..bits_of_word(word) {
                    let mut list = zeros(row);
                    list[word] |= 1 << low | 1 << high;
                    let set = (low..=high).filter(|bit| [low, high].contains(bit));
                    let undefined = set.filter(|bit| mask.bits >> bit & 1 == 0).collect();
                    all.push(OneOrTwoBits { list, word, undefined });
                }
            }
        }
    }
    all
}

fn every_one_or_two() -> Vec<Vec<u32>> {
    one_or_two_bits().into_iter().map(|bits| bits.list).collect()
}

fn every_two_undefined() -> Vec<Vec<u32>> {
    let two = one_or_two_bits().into_iter().filter(|bits| bits.undefined.len() == 2);
    two.map(|bits| bits.list).collect()
}

/// The lowest undefined bit of a word, the highest, and all of them, with all that are defined.
pub fn undefined_among_defined() -> Vec<Vec<u32>> {
    let mut lists = Vec::new();
    for undefined in undefined_words() {
        let defined = undefined.row.masks[undefined.word].bits;
        let all: u32 = undefined.bits.iter().sum();
        for bits in [undefined.bits[0], undefined.highest(), all] {
            lists.push(undefined.list(defined | bits));
        }
    }
    lists
}

/// The lower word is told, and the bit is its own, be it the lower one or not.
pub fn undefined_in_two_words() -> Vec<Vec<u32>> {
    let all = undefined_words();
    let mut lists = Vec::new();
    for (k, low) in all.iter().enumerate() {
        for high in all[k + 1..].iter().filter(|high| high.row.id == low.row.id) {
            for (a, b) in [(low.bits[0], high.highest()), (low.highest(), high.bits[0])] {
                let mut list = low.list(a);
                list[high.word] |= b;
                lists.push(list);
            }
        }
    }
    lists
}

pub fn every_load_bit() -> Vec<Vec<u32>> {
    let mut lists = Vec::new();
    for code in LEGAL_CODES {
        for k in 0..4 {
            for number in 0..bits_of_word(k) {
                let mut list = vec![load_word(false, code, 0, 0), 0, 0, 0];
                list[k] |= 1 << number;
                lists.push(list);
            }
        }
    }
    lists
}

pub fn all_defined_bits() -> Vec<Vec<u32>> {
    let mut lists = Vec::new();
    for row in table() {
        let mut all = zeros(row);
        for k in 0..row.masks.len() {
            let mut one = zeros(row);
            one[k] |= row.masks[k].bits;
            all[k] |= row.masks[k].bits;
            lists.push(one);
        }
        lists.push(all);
    }
    lists
}

pub fn load_codes() -> Vec<Vec<u32>> {
    let mut lists = Vec::new();
    for code in 0..8 {
        for convert in [false, true] {
            for used in 0..8 {
                let word = |k: u32| if used >> k & 1 == 1 { 0x00000001 } else { 0 };
                lists.push(vec![load_word(convert, code, 0, 0), word(0), word(1), word(2)]);
            }
        }
    }
    lists
}

/// Lengths with all bits of the length, and offsets that must not count in it.
fn load_lengths() -> Vec<Vec<u32>> {
    let mut lists = Vec::new();
    for code in [0, 1, 2] {
        for length in [0, 1, 2, 3, 8, 9, 128, 255, 256, 511] {
            for offset in [0, 1, 511] {
                let mut list = vec![load_word(false, code, offset, length), 0, 0, 0];
                list.resize(4 + 4 * length as usize, 0x02000001);
                list.push(0x02000002);
                lists.push(list.clone());
                list.truncate(4 + 4 * length as usize);
                lists.push(list.clone());
                if length > 0 {
                    list.pop();
                    lists.push(list);
                }
            }
        }
    }
    lists
}

pub fn plane_ranges() -> Vec<Vec<u32>> {
    let mut lists = Vec::new();
    for offset in [0, 1, 2, 4, 6, 7, 8, 9, 10, 12, 16, 32, 64, 128, 256, 511] {
        for length in [0, 1, 2, 4, 6, 7, 8, 9] {
            let near_limit = (7..=9).contains(&(offset + length)) || offset + length > 255;
            if length > 2 && !near_limit {
                continue;
            }
            for convert in [false, true] {
                let mut list = vec![load_word(convert, 5, offset, length), 0, 0, 0];
                lists.push(list.clone());
                list.resize(4 + 4 * length as usize, 0x03000000);
                lists.push(list);
            }
        }
    }
    lists
}

/// Each bit of a length over the limit, with the whole payload: only the plane range refuses them.
pub fn planes_with_payload() -> Vec<Vec<u32>> {
    let planes = |length: u32| {
        let mut list = vec![load_word(false, 5, 0, length), 0, 0, 0];
        list.resize(4 + 4 * length as usize, 0);
        list
    };
    (4..9).map(|bit| planes(1 << bit)).collect()
}

fn payload_cuts() -> Vec<Vec<u32>> {
    let mut lists = Vec::new();
    for code in LEGAL_CODES {
        for length in 1..=3 {
            for present in 0..=4 * length + 1 {
                let mut list = vec![load_word(false, code, 0, length), 0, 0, 0];
                list.resize(4 + present as usize, FLUSH);
                lists.push(list);
            }
        }
    }
    lists
}

fn payload_like_commands() -> Vec<Vec<u32>> {
    let mut lists = Vec::new();
    for id in 0..256 {
        for code in LEGAL_CODES {
            let word = first_word(id, 0x000010);
            let load = [load_word(false, code, 0, 1), 0, 0, 0];
            lists.push([load, [word; 4], [0x02000007, FLUSH, 0x02000008, FLUSH]].concat());
        }
    }
    lists
}

/// Each maximum of each bank, over the bank's limit too, with a minimum of zero, one under the maximum,
/// equal to it and one over; bank 3 is illegal with any.
pub fn clip_limits() -> Vec<Vec<u32>> {
    let mut lists = Vec::new();
    for (bank, maxima) in [(0, 0..16_u32), (1, 0..16), (2, 0..16), (3, 14..16)] {
        for maximum in maxima {
            let zero = (maximum > 1).then_some(0).into_iter();
            let near = maximum.saturating_sub(1)..=(maximum + 1).min(15);
            lists.extend(zero.chain(near).map(|minimum| clip(bank, maximum, minimum)));
        }
    }
    lists
}

fn clip_table() -> Vec<Vec<u32>> {
    let mut lists = Vec::new();
    for bank in 0..4 {
        for maximum in 0..16 {
            for minimum in 0..16 {
                let mut list = clip(bank, maximum, minimum);
                // The other fields full, which must change nothing.
                list[0] |= 0xFFFFFF;
                list[1] |= 0x0FFF0FFF;
                list[2] |= 0x0FFF0FFF;
                list[3] = 0xFFFFFFFF;
                lists.push(list);
            }
        }
    }
    lists
}

pub fn raster_bits() -> Vec<Vec<u32>> {
    let mut lists = Vec::new();
    for pages in [0, 1 << 22] {
        for full_page in [0, 1 << 14] {
            for others in [0, 0xA7BFFF, 0x202000, 0x808000] {
                lists.push(vec![0x88000000 | pages | full_page | others, 0, 0, 0]);
            }
        }
    }
    lists
}

pub fn primitive_words() -> Vec<Vec<u32>> {
    let mut lists = Vec::new();
    for used in 0..16 {
        for value in [0x000001, 0x800000] {
            let word = |k: u32| if used >> k & 1 == 1 { value } else { 0 };
            lists.push(vec![0x48000000 | word(0), word(1), word(2), word(3)]);
        }
    }
    lists
}

pub fn after_base() -> Vec<Vec<u32>> {
    let mut lists = Vec::new();
    for base in SURFACE_BASES {
        let base = first_word(base, 0x800123);
        lists.push(vec![base]);
        for begin in BEGINS {
            let begin = first_word(begin, 0x100000);
            lists.push(vec![base, begin, 0, 0]);
            lists.push(vec![base, begin, 0, 0, 0, base]);
            lists.push(vec![base, begin, 0, 0, 0, TIMER]);
            lists.push(vec![base, begin, 0, 0, 0, base, begin, 0, 0, 0]);
            lists.push(vec![base, begin, 0, 0, 0, base, FLUSH]);
            lists.push(vec![base, begin, 0, 0, 1]);
            lists.push(vec![FLUSH, begin, 0, 0, 0, base]);
        }
        // Verdicts 6, 7, 15 to 19 and 9 go ahead of 10; the last has 10 alone.
        lists.push(vec![base, 0x01000002]);
        lists.push(vec![base, 0x48000001, 0, 0, 0]);
        lists.extend(CLASHES.map(|clash| [&[base], &clash[..]].concat()));
        lists.push(vec![base, 0x40000001, 0, 0, 0, 0, 0, 0]);
        lists.push(vec![base, 0x40000001, 0, 0, 0, 0, 0, 0, 0]);
        // A word of a payload or of a group is no surface base.
        lists.push(vec![0x40000001, 0, 0, 0, base, base, base, base, FLUSH]);
        lists.push(vec![0x84000000, 0, 0, base, FLUSH]);
    }
    lists
}

fn every_id_after_base() -> Vec<Vec<u32>> {
    let mut lists = Vec::new();
    for base in SURFACE_BASES {
        for id in 0..256 {
            lists.push(vec![first_word(base, 0), first_word(id, 0), 0, 0, 0]);
        }
    }
    lists
}

fn group_cuts() -> Vec<Vec<u32>> {
    let mut lists = Vec::new();
    for id in GROUPS {
        for words in 1..=4 {
            // 5 goes ahead of 6.
            for fill in [0, 0xFFFFFFFF] {
                let mut list = vec![fill; words];
                list[0] = first_word(id, fill & 0xFFFFFF);
                lists.push(list.clone());
                list.insert(0, TIMER);
                lists.push(list);
            }
        }
    }
    // 5 goes ahead of a clash.
    lists.extend(CLASHES.map(|clash| clash[..3].to_vec()));
    lists
}

/// Two faults, where the order decides which one is told.
pub fn two_faults() -> Vec<Vec<u32>> {
    vec![
        // Undefined bits in two words: the lowest.
        vec![0x88180000, 0xFF000000, 0, 0],
        vec![0x88000000, 0xFF000000, 0xFF000000, 0],
        vec![0x88000000, 0, 0xFF000000, 0xFF000000],
        vec![0x10000000, 0x40000000, 0xF0000000, 1],
        // An undefined bit ahead of an illegal value.
        vec![0x40380000, 0, 0, 0],
        vec![0x40300200, 1, 0, 0],
        vec![0x84000000, 0xB0000000, 0, 0],
        vec![0x84000000, 0x30001000, 0, 0],
        // An undefined bit ahead of a clash.
        vec![0x88084000, 0, 0, 0],
        vec![0x88004000, 0, 0, 0x01000000],
        vec![0x84000000, 0x50000000, 0xF0000000, 0],
        vec![0x84000000, 0x40000000, 0x30004000, 0],
        vec![0x40800200, 0, 0, 0],
        vec![0x40580009, 0, 0, 0],
        // An illegal value ahead of a clash.
        vec![0x40B00000, 0, 0, 0],
        vec![0x40800000, 1, 0, 0],
        vec![0x40800000, 0, 1, 0],
        vec![0x40800000, 0, 0, 1],
        vec![0x40500009, 0, 0, 1],
        vec![0x84000000, 0x30000000, 0x00001000, 0],
        // Illegal values in two words: the lowest.
        vec![0x40700000, 1, 1, 1],
        vec![0x40000000, 1, 1, 1],
        vec![0x40500000, 0, 1, 1],
        vec![0x40100000, 1, 0, 0],
        vec![0x48000001, 1, 1, 1],
        vec![0x48000000, 0, 1, 1],
        // Both page thresholds: the maximum.
        vec![0x84000000, 0x10000000, 0xC000D000, 0],
        vec![0x84000000, 0x20000000, 0x7000F000, 0],
        vec![0x84000000, 0x20000000, 0xE000F000, 0],
        // Bit 23 and the payload; the plane range and the payload.
        vec![0x40800001, 0, 0, 0],
        vec![0x40500009, 0, 0, 0],
        // An illegal value ahead of a payload cut short.
        vec![0x40300001, 0, 0, 0],
        vec![0x40000001, 1, 0, 0],
        // Faults in two commands: the first one's.
        vec![0x01000002, 0x06000000],
        vec![0x06000000, 0x03000000],
        vec![0x04000000, 0x06000000],
        vec![0x02000001, 0x04000000, 0x01000002],
        vec![0x40000003, 0, 0, 0, 0x06000000, 0x03000000],
        vec![0x21000000, 0x06000000],
        vec![0x21000000, 0x03000000],
        vec![0x21000000, 0x84000000],
    ]
}

/// Commands that are refused wherever they stand, and two that are where the list ends.
const REFUSED: [&[u32]; 5] =
    [&[0x06000000], &[0x03000000], &[0x01000002], &[0x48000001, 0, 0, 0], &[0x21000000, FLUSH]];
const REFUSED_AT_END: [&[u32]; 2] = [&[0x84000000, 0, 0], &[0x40000001, 0, 0, 0]];

/// Two refused commands behind a setting and work: the first one's refusal, and nothing is done.
pub fn two_refused() -> Vec<Vec<u32>> {
    let refused: Vec<&[u32]> =
        REFUSED.into_iter().chain(CLASHES.iter().map(|clash| &clash[..])).collect();
    let mut lists = Vec::new();
    for first in &refused {
        for second in refused.iter().chain(&REFUSED_AT_END) {
            lists.push([&[TIMER | 0x10, FLUSH], *first, second].concat());
        }
    }
    lists
}

fn full_setting(row: &Row) -> Vec<u32> {
    let mut rng = Prng::new(3, row.id as u64);
    loop {
        let words = valid(&mut rng, row.id);
        let values = words.iter().skip(1).all(|&word| word != 0);
        if values && (words[0] & 0xFFFFFF != 0 || row.masks[0].bits == 0) {
            return words;
        }
    }
}

/// A work command that is accepted, with a non-zero header where it can be.
fn plain_work(row: &Row) -> Vec<u32> {
    let mut words = zeros(row);
    match row.id {
        0x40 => words = paper::GUIDE_PUT.to_vec(),
        0x48 => {}
        _ => words[0] |= row.masks[0].bits & 0x00F7F4,
    }
    words
}

/// A setting changed, changed back and repeated around each work command.
fn setting_around_work() -> Vec<Vec<u32>> {
    let mut lists = Vec::new();
    for setting in rows(Kind::Setting) {
        let (on, off) = (full_setting(setting), zeros(setting));
        for row in rows(Kind::Work) {
            let mut work = plain_work(row);
            if SURFACE_BASES.contains(&row.id) {
                work.extend([0x10100007, 0, 0, 0]);
            }
            for parts in around(&on, &off, &work) {
                lists.push(parts.concat());
            }
        }
    }
    lists
}

fn around<'a>(on: &'a [u32], off: &'a [u32], work: &'a [u32]) -> Vec<Vec<&'a [u32]>> {
    vec![
        vec![on, work],
        vec![work, on],
        vec![on, work, off],
        vec![on, work, off, work],
        vec![on, work, on, work],
        vec![on, off, work],
        vec![off, on, work, off, on],
        vec![on, work, off, on, work],
        vec![on, work, off, off, on, off, work, on],
    ]
}

fn setting_orders() -> Vec<Vec<u32>> {
    let all: Vec<Vec<u32>> = rows(Kind::Setting).map(full_setting).collect();
    let flush = vec![FLUSH];
    let mut lists = Vec::new();
    for a in &all {
        for b in &all {
            if a[0] >> 24 != b[0] >> 24 {
                lists.push([&a[..], b, &flush].concat());
                lists.push([&a[..], &flush, b].concat());
            }
        }
    }
    let rising = all.concat();
    let falling: Vec<u32> = all.iter().rev().flatten().copied().collect();
    lists.push([&rising[..], &flush].concat());
    lists.push([&falling[..], &flush].concat());
    lists.push([&falling[..], &flush, &rising].concat());
    lists.push(falling);
    // One word of a group not zero: the whole group is written.
    for row in rows(Kind::Setting) {
        let full = full_setting(row);
        for k in 0..full.len() {
            let mut one = zeros(row);
            one[k] |= full[k];
            lists.push([&one[..], &flush, &zeros(row), &flush].concat());
        }
    }
    lists
}

/// Settings that all differ, without work.
fn timers(words: usize) -> Vec<u32> {
    (0..words as u32).map(|k| TIMER | k).collect()
}

fn sizes() -> Vec<Vec<u32>> {
    let max = MAX_LIST_WORDS;
    vec![vec![], timers(1), long_loads(), timers_then(&[0x06000000]), vec![FLUSH; max]]
}

fn other_sizes() -> Vec<Vec<u32>> {
    let max = MAX_LIST_WORDS;
    vec![
        timers(max - 1),
        timers(max),
        timers(max + 1),
        timers_then(&[0x10000000, 0, 0, 0]),
        timers_then(&[0x10000000, 0, 0]),
        timers_then(&[0x40000001, 0, 0, 0, 0, 0, 0]),
        timers_then(&[0x40000001, 0, 0, 0, 0, 0, 0, 0]),
        vec![0x06000000; max + 1],
        vec![FLUSH; max + 1],
        timers(2 * max),
        vec![0; 3 * max],
    ]
}

/// A list of the largest length that ends with these words.
fn timers_then(last: &[u32]) -> Vec<u32> {
    [&timers(MAX_LIST_WORDS - last.len())[..], last].concat()
}

/// Two loads of 511 groups; the words of the payloads would be settings.
fn long_loads() -> Vec<u32> {
    let mut list = vec![0x02000001; MAX_LIST_WORDS];
    list[..4].copy_from_slice(&[load_word(false, 1, 0, 511), 0, 1, 2]);
    list[2048..2052].copy_from_slice(&[load_word(false, 2, 511, 511), 3, 4, 5]);
    list
}

/// Images of other lengths, with lists that would be refused or not, and with no room.
fn image_lengths() -> Vec<Case> {
    let lists = [
        vec![],
        vec![FLUSH],
        vec![0x02000010],
        vec![0x06000000],
        vec![0x84000000, 0, 0],
        vec![0x21000000, FLUSH],
        vec![0x01000002],
    ];
    let mut cases = Vec::new();
    for len in [0, 1, 2, 64, 255, 256, 257, 300] {
        for (k, list) in lists.iter().enumerate() {
            let case = plain("image lengths", list.clone(), Purpose::Store);
            let room = if k % 2 == 0 { 0 } else { 8 };
            let image = Image::Seeded { seed: len as u32 * k as u32, len };
            cases.push(Case { image, ..with_room(room, case) });
        }
    }
    // Too many words, ahead of the image, an undefined bit and the room.
    for (len, room, first) in [(255, 8, 0x01000002), (256, 0, FLUSH)] {
        let list = [&[first], &timers(MAX_LIST_WORDS)[..]].concat();
        let case = plain("image lengths", list, Purpose::Store);
        let image = Image::Seeded { seed: 1, len };
        cases.push(Case { image, ..with_room(room, case) });
    }
    cases
}

fn with_room(room: usize, case: Case) -> Case {
    Case { records_len: room, out_len: room, pci_len: room, ..case }
}

/// A list with three records, a form of nine words and nine pairs, and one with neither of the
/// first two.
fn buffer_lengths() -> Vec<Case> {
    let both = vec![0x02000010, FLUSH, 0x8C000001, 1, 2, 3, FLUSH, 0x02000011, 0x05000001];
    let neither = vec![0x02000010, 0x02000000];
    let mut cases = Vec::new();
    for list in [both, neither] {
        for room in 0..=20 {
            cases.push(with_room(room, plain("buffer lengths", list.clone(), Purpose::Store)));
        }
    }
    cases
}

/// Lists with forms of other lengths, with exactly that room, one word less, one more, and none.
fn form_lengths() -> Vec<Case> {
    // In the second image word 02 is 20 hex.
    let seed = prng::seed_with_word(0x02, 0x20);
    let mut cases = Vec::new();
    for image in [Image::ZERO, Image::Seeded { seed, len: IMAGE_WORDS }] {
        for list in short_and_whole_forms() {
            let case = plain("form lengths", list, Purpose::Store);
            let case = Case { image: image.clone(), ..case };
            let form = rules::paper().measure(&case.list, &case.image.words()).words as usize;
            let mut rooms = vec![0, form.saturating_sub(1), form, form + 1];
            rooms.dedup();
            cases.extend(rooms.into_iter().map(|out_len| Case { out_len, ..case.clone() }));
        }
    }
    // A setting equal to image words that are not quite its own.
    let image = Image::Seeded { seed: 1, len: IMAGE_WORDS };
    let list = [&[0xC4000000], &image.words()[0xC4..0xC7]].concat();
    cases.push(Case { image, ..plain("form lengths", list, Purpose::Store) });
    // The longest list, with a form of one word.
    let longest = plain("form lengths", timers(MAX_LIST_WORDS), Purpose::Store);
    cases.push(Case { out_len: 1, ..longest });
    cases
}

/// Settings that are changed back, hidden, or all in the form; before work, behind it, or both.
pub fn short_and_whole_forms() -> Vec<Vec<u32>> {
    let group = &[0x8C000001, 1, 2, 3][..];
    let (on, back, other) = (TIMER | 0x10, TIMER | 0x20, TIMER | 0x11);
    vec![
        vec![],
        vec![FLUSH],
        vec![on],
        vec![back],
        vec![on, back],
        vec![on, TIMER],
        vec![on, FLUSH, back],
        vec![on, FLUSH, TIMER],
        vec![on, other, FLUSH, other],
        vec![FLUSH, on, other],
        group.to_vec(),
        [&[on], group].concat(),
        [group, &[FLUSH], group, &[on]].concat(),
        [&[FLUSH], group, &[0x8C000000, 0, 0, 0]].concat(),
        [&[on], paper::GUIDE_PUT, &[back]].concat(),
        [group, &[0x21000000, 0x10100007, 0, 0, 0, on]].concat(),
        [group, &[FLUSH, 0x01000002]].concat(),
    ]
}

/// Lists whose settings are what the starting image has, which is one that can be stored.
fn equal_settings() -> Vec<Case> {
    let mut cases = Vec::new();
    for row in rows(Kind::Setting) {
        let Some((seed, equal)) = seed_and_equal_setting(row) else {
            continue;
        };
        let other = full_setting(row);
        let away = around(&other, &equal, &[FLUSH]);
        let back = around(&equal, &other, &[0x05000001]);
        for parts in [away, back].concat() {
            let mut rng = Prng::new(4, cases.len() as u64);
            let image = Image::Seeded { seed, len: IMAGE_WORDS };
            let list = parts.concat();
            cases.push(with_buffers(&mut rng, "equal to the image", list, image, Purpose::Store));
        }
    }
    cases
}

/// Settings to what the masks leave of the image's words, where that is accepted.
fn defined_part() -> Vec<Case> {
    let image = Image::Seeded { seed: 1, len: IMAGE_WORDS };
    let words = image.words();
    let list = |row: &'static Row| {
        let of_image = row.masks.iter().zip(&words[row.id as usize..]);
        let mut list: Vec<u32> = of_image.map(|(mask, word)| word & mask.bits).collect();
        list[0] |= row.id << 24;
        list
    };
    let lists = rows(Kind::Setting).map(list).filter(|list| rules::paper().commands(list).is_ok());
    let case = |list| Case {
        image: image.clone(),
        ..plain("the image's defined part", list, Purpose::Store)
    };
    lists.map(case).collect()
}

/// A seed in whose image the setting's words are those of a valid command, and that command.
fn seed_and_equal_setting(row: &Row) -> Option<(u32, Vec<u32>)> {
    const TRIES: usize = 20_000;
    let mut rng = Prng::new(5, row.id as u64);
    let first = row.id as usize;
    (0..TRIES).find_map(|_| {
        let header = rng.word() & row.masks[0].bits;
        let seed = prng::seed_with_word(first, header);
        let image = prng::seeded_words(seed, IMAGE_WORDS);
        let mut words = image[first..first + row.masks.len()].to_vec();
        words[0] |= row.id << 24;
        (header != 0 && rules::paper().commands(&words).is_ok()).then_some((seed, words))
    })
}

#[cfg(test)]
mod tests {
    use super::super::commands::BANK_LIMITS;
    use super::*;

    #[test]
    fn stored_images_equal_settings() {
        for id in [0x02, 0x26, 0x30, 0x31, 0x84, 0x8C] {
            let row = rules::paper().row_of(id).expect("a known id");
            assert!(seed_and_equal_setting(row).is_some(), "setting {id:02x}");
        }
    }

    #[test]
    fn bank_limits_are_tried_on_both_sides() {
        let lists = clip_limits();
        for (bank, limit) in BANK_LIMITS.into_iter().enumerate() {
            for maximum in [limit, (limit + 1).min(15)] {
                assert!(lists.contains(&clip(bank as u32, maximum, 0)));
            }
        }
    }

    /// The verdict of a clip, and that it is among the lists.
    fn verdict_of_limit(bank: u32, maximum: u32, minimum: u32) -> u32 {
        let list = clip(bank, maximum, minimum);
        assert!(clip_limits().contains(&list), "{list:08X?}");
        rules::paper().commands(&list).err().map_or(0, |refusal| refusal.verdict)
    }

    #[test]
    fn minimum_is_tried_around_the_maximum() {
        for (bank, limit) in (0..).zip(BANK_LIMITS) {
            for (maximum, minimum, verdict) in [(0, 0, 0), (0, 1, 16), (4, 4, 0), (3, 4, 16)] {
                assert_eq!(verdict_of_limit(bank, maximum, minimum), verdict);
            }
            assert_eq!(verdict_of_limit(bank, limit, limit - 1), 0);
            assert_eq!(verdict_of_limit(bank, limit, limit), 0);
            if limit < 15 {
                assert_eq!(verdict_of_limit(bank, limit, limit + 1), 16);
                assert_eq!(verdict_of_limit(bank, limit + 1, limit + 1), 15);
                assert_eq!(verdict_of_limit(bank, limit + 1, limit + 2), 15);
            }
        }
        assert_eq!(verdict_of_limit(0, 14, 15), 16);
        assert_eq!(verdict_of_limit(3, 14, 15), 7);
    }
}
