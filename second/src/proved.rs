//! The proved library's functions, called with words around each lent slice that must stay.

pub mod books;

use crate::lists::Case;
use crate::outcome::{prefilled, Function, Outcome};
use crate::rules::ANSWER_WORDS;

extern "C" {
    fn xp10_read(
        list: *const u32,
        list_len: usize,
        image: *mut u32,
        image_len: usize,
        records: *mut u32,
        records_len: usize,
        answer: *mut u32,
        answer_len: usize,
        mode: u32,
    ) -> u32;

    fn xp10_normalise(
        list: *const u32,
        list_len: usize,
        image: *const u32,
        image_len: usize,
        out: *mut u32,
        out_len: usize,
        answer: *mut u32,
        answer_len: usize,
        mode: u32,
    ) -> u32;

    fn xp10_to_pci(
        list: *const u32,
        list_len: usize,
        image: *const u32,
        image_len: usize,
        pairs: *mut u32,
        pairs_len: usize,
        answer: *mut u32,
        answer_len: usize,
    ) -> u32;

    fn xp10_from_pci(
        pairs: *const u32,
        pairs_len: usize,
        image: *const u32,
        image_len: usize,
        list: *mut u32,
        list_len: usize,
        answer: *mut u32,
        answer_len: usize,
    ) -> u32;

    fn xp10_measure(
        list: *const u32,
        list_len: usize,
        image: *const u32,
        image_len: usize,
        answer: *mut u32,
        answer_len: usize,
    ) -> u32;

    fn xp10_read_scenes(
        words: *const u32,
        words_len: usize,
        table: *const u32,
        table_len: usize,
        image: *mut u32,
        image_len: usize,
        records: *mut u32,
        records_len: usize,
        answer: *mut u32,
        answer_len: usize,
    ) -> u32;
}

/// What a call returned and left in the lent words.
pub struct Call {
    pub returned: u32,
    pub list: Vec<u32>,
    pub arguments: Vec<u32>,
    pub image: Vec<u32>,
    pub buffer: Vec<u32>,
    pub answer: Vec<u32>,
    /// No word next to a lent slice has changed.
    pub kept_inside: bool,
}

impl Call {
    /// Of a call with room for the whole answer.
    pub fn outcome(self) -> Outcome {
        let (answer, more) = self.answer.split_at(ANSWER_WORDS);
        let answer: [u32; ANSWER_WORDS] = answer.try_into().expect("a whole answer");
        Outcome { answer, more: more.to_vec(), image: self.image, buffer: self.buffer }
    }
}

const GUARD_WORDS: usize = 8;
const GUARD: u32 = 0x5AFE_C0DE;

/// A slice to lend, between guard words. Its pointer is never null, even when it is empty.
struct Lent(Vec<u32>);

impl Lent {
    fn new(words: &[u32]) -> Lent {
        let guard = [GUARD; GUARD_WORDS];
        Lent([&guard, words, &guard].concat())
    }

    fn words(&mut self) -> &mut [u32] {
        let end = self.0.len() - GUARD_WORDS;
        &mut self.0[GUARD_WORDS..end]
    }

    fn guards_kept(&self) -> bool {
        let (front, rest) = self.0.split_at(GUARD_WORDS);
        let back = &rest[rest.len() - GUARD_WORDS..];
        front.iter().chain(back).all(|&word| word == GUARD)
    }
}

struct LentWords {
    list: Lent,
    arguments: Lent,
    image: Lent,
    buffer: Lent,
    answer: Lent,
}

impl LentWords {
    fn new(case: &Case, buffer_len: usize, answer_len: usize) -> LentWords {
        LentWords {
            list: Lent::new(&case.list),
            arguments: Lent::new(&case.arguments),
            image: Lent::new(&case.image.words()),
            buffer: Lent::new(&prefilled(buffer_len)),
            answer: Lent::new(&prefilled(answer_len)),
        }
    }

    fn call(mut self, returned: u32) -> Call {
        let lent = [&self.list, &self.arguments, &self.image, &self.buffer, &self.answer];
        let kept_inside = lent.iter().all(|words| words.guards_kept());
        Call {
            returned,
            list: self.list.words().to_vec(),
            arguments: self.arguments.words().to_vec(),
            image: self.image.words().to_vec(),
            buffer: self.buffer.words().to_vec(),
            answer: self.answer.words().to_vec(),
            kept_inside,
        }
    }
}

/// A call with only the list and the image to read from.
type Reading = unsafe extern "C" fn(
    *const u32,
    usize,
    *const u32,
    usize,
    *mut u32,
    usize,
    *mut u32,
    usize,
) -> u32;

pub fn call(function: Function, case: &Case, answer_len: usize) -> Call {
    let mut lent = LentWords::new(case, function.buffer_len(case), answer_len);
    let returned = match function {
        Function::Reader => read(&mut lent, case.mode()),
        Function::Normaliser => normalise(&mut lent, case.mode()),
        Function::ToPci => call_reading(xp10_to_pci, &mut lent),
        Function::FromPci => call_reading(xp10_from_pci, &mut lent),
        Function::Measure => measure(&mut lent),
        Function::Scenes => read_scenes(&mut lent),
    };
    lent.call(returned)
}

fn read(lent: &mut LentWords, mode: u32) -> u32 {
    let list = lent.list.words();
    let image = lent.image.words();
    let records = lent.buffer.words();
    let answer = lent.answer.words();
    // SAFETY: each pointer is of a slice with the length beside it; no two slices overlap.
    unsafe {
        xp10_read(
            list.as_ptr(),
            list.len(),
            image.as_mut_ptr(),
            image.len(),
            records.as_mut_ptr(),
            records.len(),
            answer.as_mut_ptr(),
            answer.len(),
            mode,
        )
    }
}

fn normalise(lent: &mut LentWords, mode: u32) -> u32 {
    let list = lent.list.words();
    let image = lent.image.words();
    let out = lent.buffer.words();
    let answer = lent.answer.words();
    // SAFETY: as for `read`.
    unsafe {
        xp10_normalise(
            list.as_ptr(),
            list.len(),
            image.as_ptr(),
            image.len(),
            out.as_mut_ptr(),
            out.len(),
            answer.as_mut_ptr(),
            answer.len(),
            mode,
        )
    }
}

fn call_reading(function: Reading, lent: &mut LentWords) -> u32 {
    let list = lent.list.words();
    let image = lent.image.words();
    let buffer = lent.buffer.words();
    let answer = lent.answer.words();
    // SAFETY: as for `read`.
    unsafe {
        function(
            list.as_ptr(),
            list.len(),
            image.as_ptr(),
            image.len(),
            buffer.as_mut_ptr(),
            buffer.len(),
            answer.as_mut_ptr(),
            answer.len(),
        )
    }
}

fn measure(lent: &mut LentWords) -> u32 {
    let list = lent.list.words();
    let image = lent.image.words();
    let answer = lent.answer.words();
    // SAFETY: as for `read`.
    unsafe {
        xp10_measure(
            list.as_ptr(),
            list.len(),
            image.as_ptr(),
            image.len(),
            answer.as_mut_ptr(),
            answer.len(),
        )
    }
}

fn read_scenes(lent: &mut LentWords) -> u32 {
    let words = lent.list.words();
    let table = lent.arguments.words();
    let image = lent.image.words();
    let records = lent.buffer.words();
    let answer = lent.answer.words();
    // SAFETY: as for `read`.
    unsafe {
        xp10_read_scenes(
            words.as_ptr(),
            words.len(),
            table.as_ptr(),
            table.len(),
            image.as_mut_ptr(),
            image.len(),
            records.as_mut_ptr(),
            records.len(),
            answer.as_mut_ptr(),
            answer.len(),
        )
    }
}
