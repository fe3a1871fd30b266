//! Test cases: lists, sessions and lists in a mode, with a starting image and buffer lengths, the same for
//! the same seed.

mod commands;
mod fixed;
mod modes;
mod pairs;
mod random;
mod sessions;

use self::commands::table;
use crate::prng::{self, Prng};
use crate::rules::{self, IMAGE_WORDS, RECORD_WORDS};

pub use fixed::{fixed_cases, fixed_sample, one_or_two_bits, OneOrTwoBits};
pub use modes::{fixed_in_modes, random_in_mode, stored_in_modes};
pub use pairs::{pairs as pairs_of, random_pairs};
pub use random::{any_list, any_refused_list, equivalent_list, random_case};
pub use sessions::{fixed_sessions, random_session, stored_sessions};

#[derive(Clone)]
pub struct Case {
    pub class: &'static str,
    pub kind: CaseKind,
    /// A list, or the words in which the lists of a session lie.
    pub list: Vec<u32>,
    /// The table of a session, or a list's mode.
    pub arguments: Vec<u32>,
    pub image: Image,
    pub records_len: usize,
    pub out_len: usize,
    /// For pairs of the list, and for the list of its words as pairs.
    pub pci_len: usize,
}

/// What a case is. Its number is the case's tag in the vectors file.
#[derive(Clone, Copy, Debug, PartialEq, Eq)]
pub enum CaseKind {
    /// A list, also taken as pairs.
    List,
    /// Several lists, and a table of their starts and lengths.
    Session,
    /// A list and a mode, for the functions that take one.
    InMode,
}

impl Case {
    /// The mode in which its list is read.
    pub fn mode(&self) -> u32 {
        match self.kind {
            CaseKind::List | CaseKind::Session => 0,
            CaseKind::InMode => self.arguments[0],
        }
    }
}

#[derive(Clone)]
pub enum Image {
    /// Zeros for seed 0, else the outputs of xorshift32 from the seed.
    Seeded {
        seed: u32,
        len: usize,
    },
    Words(Vec<u32>),
}

impl Image {
    pub const ZERO: Image = Image::Seeded { seed: 0, len: IMAGE_WORDS };

    pub fn words(&self) -> Vec<u32> {
        match self {
            Image::Seeded { seed, len } => prng::seeded_words(*seed, *len),
            Image::Words(words) => words.clone(),
        }
    }
}

/// What the cases are made for.
#[derive(Clone, Copy, PartialEq, Eq)]
pub enum Purpose {
    /// To run at once: any image, any length.
    Run,
    /// To be stored in a small file: seeded images, short lists, no large buffers.
    Store,
}

impl Purpose {
    fn buffer_length(self, wanted: usize) -> usize {
        match self {
            Purpose::Run => wanted,
            Purpose::Store => wanted.min(5000),
        }
    }

    fn pci_length(self, wanted: usize) -> usize {
        match self {
            Purpose::Run => wanted,
            Purpose::Store => wanted.min(8200),
        }
    }
}

/// Case number `index`: the fixed ones first, then random ones, every fourth of pairs, every eighth a
/// session and every eighth a list in a mode.
pub fn case(fixed: &[Case], index: usize, seed: u64) -> Case {
    match fixed.get(index) {
        Some(case) => case.clone(),
        None => {
            let of = match index % 8 {
                2 | 5 => random_pairs,
                4 => random_session,
                7 => random_in_mode,
                _ => random_case,
            };
            of(&mut Prng::new(seed, index as u64), Purpose::Run)
        }
    }
}

/// The list with an image and buffer lengths that are of interest for it.
fn with_surroundings(
    rng: &mut Prng,
    class: &'static str,
    list: Vec<u32>,
    purpose: Purpose,
) -> Case {
    let image = any_image(rng, &list, purpose);
    with_buffers(rng, class, list, image, purpose)
}

fn with_buffers(
    rng: &mut Prng,
    class: &'static str,
    list: Vec<u32>,
    image: Image,
    purpose: Purpose,
) -> Case {
    let needed = needed_words(&list, &image);
    let records_len = purpose.buffer_length(any_buffer_length(rng, needed.records));
    let out_len = purpose.buffer_length(any_buffer_length(rng, needed.form));
    let pci_len = purpose.pci_length(any_buffer_length(rng, needed.pci));
    let (kind, arguments) = (CaseKind::List, Vec::new());
    Case { class, kind, list, arguments, image, records_len, out_len, pci_len }
}

/// The list with a zero image and room for everything.
fn plain(class: &'static str, list: Vec<u32>, purpose: Purpose) -> Case {
    let records_len = purpose.buffer_length(RECORD_WORDS * list.len() + 4);
    let out_len = purpose.buffer_length(list.len() + 4);
    let pci_len = purpose.pci_length(2 * list.len() + 4);
    let (kind, arguments, image) = (CaseKind::List, Vec::new(), Image::ZERO);
    Case { class, kind, list, arguments, image, records_len, out_len, pci_len }
}

/// The words that have to be written, 0 on refusal.
struct Needed {
    records: usize,
    form: usize,
    /// Of the list's pairs or of the pairs' list; more where both are accepted.
    pci: usize,
}

fn needed_words(list: &[u32], image: &Image) -> Needed {
    let mut words = image.words();
    let mut room = vec![0; RECORD_WORDS * list.len()];
    let form = rules::paper().normalise(list, &words, &mut room).words as usize;
    let pairs = rules::paper().to_pci(list, &words, &mut room).words as usize;
    let of_pairs = rules::paper().from_pci(list, &words, &mut room).words as usize;
    let records = rules::paper().read(list, &mut words, &mut room).words as usize;
    Needed { records, form, pci: pairs.max(of_pairs) }
}

fn any_buffer_length(rng: &mut Prng, needed: usize) -> usize {
    match rng.below(16) {
        0 => 0,
        1 | 2 => needed,
        3 => needed.saturating_sub(1),
        4 => needed.saturating_sub(4),
        5 => rng.below(needed + 1),
        6 => needed + 1,
        7 => needed + 2,
        8 => needed + 3,
        9 => needed + 4,
        10 if rng.once_in(50) => 20_000,
        _ => needed + rng.below(40),
    }
}

fn any_image(rng: &mut Prng, list: &[u32], purpose: Purpose) -> Image {
    if rng.once_in(50) {
        let len = rng.pick(&[0, 1, 128, 255, 257, 258, 300]);
        return Image::Seeded { seed: any_seed(rng), len };
    }
    match (purpose, rng.below(5)) {
        (_, 0) => Image::ZERO,
        (Purpose::Store, 1..=2) => Image::ZERO,
        (Purpose::Store, _) | (Purpose::Run, 1) => {
            Image::Seeded { seed: any_seed(rng), len: IMAGE_WORDS }
        }
        (Purpose::Run, 2) => Image::Words(unsettable_words(rng)),
        (Purpose::Run, _) => Image::Words(words_of_list(rng, list)),
    }
}

fn any_seed(rng: &mut Prng) -> u32 {
    if rng.once_in(4) {
        0
    } else {
        rng.word()
    }
}

/// An image that no list could leave: bits outside the masks.
fn unsettable_words(rng: &mut Prng) -> Vec<u32> {
    let mut image: Vec<u32> = (0..IMAGE_WORDS).map(|_| rng.word()).collect();
    for row in table() {
        for (k, mask) in row.masks.iter().enumerate() {
            let outside = !mask.bits;
            let some = outside & rng.word();
            image[row.id as usize + k] = rng.pick(&[outside, !0, 1 << 31, some]);
        }
    }
    image
}

/// An image that a part of the list would leave, or one almost so.
fn words_of_list(rng: &mut Prng, list: &[u32]) -> Vec<u32> {
    let mut image = Image::ZERO.words();
    if rng.once_in(3) {
        image = unsettable_words(rng);
    }
    if let Ok(commands) = rules::paper().commands(list) {
        let applied = rng.below(commands.len() + 1);
        for command in &commands[..applied] {
            rules::paper().apply(command, &mut image);
        }
    }
    if rng.once_in(3) {
        let row = commands::any_row(rng);
        let word = row.id as usize + rng.below(row.masks.len());
        image[word] ^= 1 << rng.below(32);
    }
    image
}
