//! What a command of one id leaves in the records, the form and the image, changed.

use super::{Mutant, Place, WORDS};
use crate::outcome::Function;
use crate::rules::{self, Kind, Leaves, Row, RECORD_WORDS};

pub fn all() -> Vec<Mutant> {
    let mut all = records_by_id();
    all.extend(settings_by_id());
    all.extend(image_by_id());
    all
}

/// Each number of the record of one id changed, each defined bit of its header lost.
fn records_by_id() -> Vec<Mutant> {
    let mut all = Vec::new();
    for row in table(Kind::Work) {
        let name = format!("record of {:02X}", row.id);
        let at = Place::accepted(Function::Reader, name);
        for (k, word) in ["id", "position", "words"].into_iter().enumerate() {
            all.push(at.change_written(word, row.id, k, |word| word ^ 1));
        }
        for bit in defined_bits(row, 0) {
            let what = format!("header without bit {bit}");
            all.push(at.change_written(&what, row.id, 3, move |word| word & !(1 << bit)));
        }
    }
    all
}

/// Each defined bit of each setting lost in the form.
fn settings_by_id() -> Vec<Mutant> {
    let mut all = Vec::new();
    for row in table(Kind::Setting) {
        let name = format!("{:02X} in the form", row.id);
        let at = Place::accepted(Function::Normaliser, name);
        for k in 0..row.own_words() {
            for bit in defined_bits(row, k) {
                let what = format!("word {k} without bit {bit}");
                all.push(at.change_written(&what, row.id, k, move |word| word & !(1 << bit)));
            }
        }
    }
    all
}

/// Each defined bit lost in the image words that a command sets, and the words beside them changed.
fn image_by_id() -> Vec<Mutant> {
    let mut all = Vec::new();
    for row in &rules::paper().table.0 {
        let (first, words) = match row.leaves {
            Leaves::Nothing => continue,
            Leaves::Header(word) => (word, 1),
            Leaves::AllWords(word) => (word, row.own_words()),
        };
        let (id, name) = (row.id, format!("image left by {:02X}", row.id));
        let at = Place::accepted(Function::Reader, name);
        let change = |what: &str, word: usize, change: Box<dyn Fn(u32) -> u32 + Sync>| {
            at.change(what, move |case, outcome| {
                if rules::paper().walk(&case.list).0.iter().any(|c| c.row.id == id) {
                    outcome.image[word] = change(outcome.image[word]);
                }
            })
        };
        for k in 0..words {
            for bit in defined_bits(row, k) {
                let what = format!("word {k} without bit {bit}");
                all.push(change(&what, first + k, Box::new(move |word| word & !(1 << bit))));
            }
        }
        all.push(change("word before it changed", first - 1, Box::new(|word| word ^ 1)));
        all.push(change("word behind it changed", first + words, Box::new(|word| word ^ 1)));
    }
    all
}

fn table(kind: Kind) -> impl Iterator<Item = &'static Row> {
    rules::paper().table.0.iter().filter(move |row| row.kind == kind)
}

fn defined_bits(row: &Row, word: usize) -> impl Iterator<Item = u32> {
    let mask = row.masks[word].bits;
    (0..32).filter(move |bit| mask >> bit & 1 == 1)
}

/// Where the records, or the commands of a written list, with this id begin.
fn places_of(id: u32, function: Function, written: &[u32]) -> Vec<usize> {
    match function {
        Function::Reader => {
            let records = written.chunks_exact(RECORD_WORDS).enumerate();
            records.filter(|(_, record)| record[0] == id).map(|(n, _)| RECORD_WORDS * n).collect()
        }
        _ => {
            let commands = rules::paper().walk(written).0;
            commands.iter().filter(|c| c.row.id == id).map(|c| c.position).collect()
        }
    }
}

impl Place {
    /// A word changed in what is written for each command of this id.
    fn change_written(
        &self,
        what: &str,
        id: u32,
        word: usize,
        change: impl Fn(u32) -> u32 + Sync + 'static,
    ) -> Mutant {
        let function = self.function;
        self.change(what, move |_, outcome| {
            let written = &outcome.buffer[..outcome.answer[WORDS] as usize];
            for position in places_of(id, function, written) {
                let slot = &mut outcome.buffer[position + word];
                *slot = change(*slot);
            }
        })
    }
}
