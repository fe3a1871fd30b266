//! What the pairs of one id's words are, changed.

use super::{Mutant, Place};
use crate::lists::{Case, CaseKind};
use crate::outcome::{self, Function, Outcome};
use crate::rules::{self, put, Command};

/// The words of a group, and a load's with two payload groups.
const GROUP_WORDS: usize = 4;
const LOAD_WORDS: usize = 12;

pub fn all() -> Vec<Mutant> {
    let mut all = Vec::new();
    for (id, k) in words() {
        let name = |function: &str| format!("{function}: word {k} of {id:02X}");
        if rules::paper().row_of(id).is_some() {
            let at = Place::accepted(Function::ToPci, name("to_pci"));
            all.push(at.change_word("address", id, k, |at| 2 * at, 4));
            all.push(at.change_word("value", id, k, |at| 2 * at + 1, 1));
            let at = Place::accepted(Function::FromPci, name("from_pci"));
            all.push(at.change_word("value", id, k, |at| at, 1));
        }
        let name = name("from_pci") + ": any address";
        all.push(Mutant::of_outcome_of(Function::FromPci, name, move |case, outcome| {
            at_any_address(id, k, case, outcome)
        }));
    }
    all.extend(written_in_spite());
    all.push(Mutant::of_outcome_of(
        Function::FromPci,
        "from_pci, verdict 13: the last wrong address".into(),
        last_wrong_address,
    ));
    all
}

/// Each id with the number of each of its words.
fn words() -> Vec<(u32, usize)> {
    let groups = &rules::paper().from_pci.groups;
    let count = |id: u32| match id {
        0x40 => LOAD_WORDS,
        _ if groups.has(id) => GROUP_WORDS,
        _ => 1,
    };
    (0..256).flat_map(|id| (0..count(id)).map(move |k| (id, k))).collect()
}

impl Place {
    /// A word changed that is written for word `k` of each command of this id.
    fn change_word(
        &self,
        what: &str,
        id: u32,
        k: usize,
        place: impl Fn(usize) -> usize + Sync + 'static,
        bits: u32,
    ) -> Mutant {
        let function = self.function;
        let has_it = move |c: &&Command| c.row.id == id && k < c.words.len();
        self.change(&format!("{what} changed"), move |case, outcome| {
            let list = function.list_of(case);
            for command in rules::paper().walk(&list).0.iter().filter(has_it) {
                outcome.buffer[place(command.position + k)] ^= bits;
            }
        })
    }
}

/// The id of the command that a pair belongs to, which of its words the pair is, and the address
/// expected there.
fn command_of(values: &[u32], pair: usize) -> (u32, usize, u32) {
    let rules = &rules::paper().from_pci;
    let mut first = 0;
    while first + rules.command_words(&values[first..]) <= pair {
        first += rules.command_words(&values[first..]);
    }
    let words = &values[first..];
    let k = pair - first;
    (rules.id.of(words), k, rules.addresses.of(rules.id, words, k))
}

/// The address of this word isn't looked at.
fn at_any_address(id: u32, word: usize, case: &Case, outcome: Outcome) -> Outcome {
    let values = Function::FromPci.list_of(case);
    let [13, pair, ..] = outcome.answer else {
        return outcome;
    };
    let (of, k, expected) = command_of(&values, pair as usize);
    if (of, k) != (id, word) {
        return outcome;
    }
    let mut right = case.clone();
    right.list[2 * pair as usize] = expected;
    let outcome = outcome::of(Function::FromPci, rules::paper(), &right);
    at_any_address(id, word, &right, outcome)
}

/// Of several wrong addresses, the last is told.
fn last_wrong_address(case: &Case, mut outcome: Outcome) -> Outcome {
    let mut right = case.clone();
    while let [13, pair, ..] = outcome.answer {
        let values = Function::FromPci.list_of(&right);
        right.list[2 * pair as usize] = command_of(&values, pair as usize).2;
        let next = outcome::of(Function::FromPci, rules::paper(), &right);
        if next.answer[0] != 13 {
            break;
        }
        outcome = next;
    }
    outcome
}

/// All that could be written, written though it is refused.
fn written_in_spite() -> Vec<Mutant> {
    let mut all = Vec::new();
    for function in [Function::ToPci, Function::FromPci] {
        let verdicts = function.verdicts(CaseKind::List).into_iter();
        for verdict in verdicts.filter(|verdict| *verdict != 0) {
            let at = Place::new(CaseKind::List, function, verdict);
            all.push(at.change("all words written", move |case, outcome| {
                put(&mut outcome.buffer, &function.list_of(case));
            }));
            all.push(at.change("room counted as written", |_, outcome| {
                outcome.answer[super::WORDS] = outcome.buffer.len() as u32;
            }));
        }
    }
    all
}
