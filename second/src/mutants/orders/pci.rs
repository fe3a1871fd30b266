//! Refusals of pairs in other orders.

use super::{is_of_command, refused_with, Mutant};
use crate::lists::{Case, Image};
use crate::outcome::{self, Function, Outcome};
use crate::rules::{self, Refusal, Rules};

pub fn all() -> Vec<Mutant> {
    let mutant = |name: &str, change: fn(&Case, Outcome) -> Outcome| {
        Mutant::of_outcome_of(Function::FromPci, format!("order of pairs: {name}"), change)
    };
    let mut all = vec![
        mutant("3 to 10 before 13 and 14", list_first),
        mutant("3 to 10 as the pairs are met", list_as_met),
        mutant("11 before 13 and 14", room_before_pairs),
        mutant("11 before 3 to 10", room_before_list),
        mutant("11 as the pairs are met", room_as_met),
        mutant("14 before 13 of any command", cut_first),
    ];
    for k in 0..rules::paper().from_pci.before_pairs.len() {
        all.extend(behind(k));
    }
    all
}

fn is_of_pairs(outcome: &Outcome) -> bool {
    matches!(outcome.answer[0], 13 | 14)
}

fn list_first(case: &Case, outcome: Outcome) -> Outcome {
    match rules::paper().walk(&Function::FromPci.list_of(case)).1 {
        Some(refusal) if is_of_pairs(&outcome) => refused_with(refusal, outcome),
        _ => outcome,
    }
}

/// A command's refusal goes ahead of a later command's wrong address or cut.
fn list_as_met(case: &Case, outcome: Outcome) -> Outcome {
    let before = |refusal: &Refusal| refusal.position < outcome.answer[1] as usize;
    match rules::paper().walk(&Function::FromPci.list_of(case)).1.filter(before) {
        Some(refusal) if is_of_pairs(&outcome) => refused_with(refusal, outcome),
        _ => outcome,
    }
}

fn no_room(case: &Case, outcome: Outcome) -> Outcome {
    match Function::FromPci.list_of(case).len() {
        words if words > case.pci_len => refused_with(Refusal::new(11, words), outcome),
        _ => outcome,
    }
}

fn room_before_pairs(case: &Case, outcome: Outcome) -> Outcome {
    match is_of_pairs(&outcome) {
        true => no_room(case, outcome),
        false => outcome,
    }
}

fn room_before_list(case: &Case, outcome: Outcome) -> Outcome {
    match is_of_command(&outcome) {
        true => no_room(case, outcome),
        false => outcome,
    }
}

/// 11 where the words before a wrong pair or a cut command don't fit.
fn room_as_met(case: &Case, outcome: Outcome) -> Outcome {
    match is_of_pairs(&outcome) && outcome.answer[1] as usize > case.pci_len {
        true => no_room(case, outcome),
        false => outcome,
    }
}

/// 14 for pairs with a cut command, even where an earlier one has a wrong address.
fn cut_first(case: &Case, outcome: Outcome) -> Outcome {
    let mut rules = Rules::paper();
    rules.from_pci.each_command.remove(0);
    let without_13 = outcome::of(Function::FromPci, &rules, case);
    match (outcome.answer[0], without_13.answer[0]) {
        (13, 14) => Outcome { answer: without_13.answer, ..outcome },
        _ => outcome,
    }
}

/// 1 or 2 behind 13 and 14, and behind the refusals of the list.
fn behind(k: usize) -> Vec<Mutant> {
    let mut last = Rules::paper();
    let check = last.from_pci.before_pairs.remove(k);
    let verdict = check.verdict;
    let without = last.clone();
    last.from_pci.room.insert(0, check);
    let name = format!("order of pairs: {verdict} behind 13 and 14");
    let behind_pairs = move |case: &Case, outcome: Outcome| {
        if outcome.answer[0] != verdict {
            return outcome;
        }
        let other =
            outcome::of(Function::FromPci, &without, &Case { image: Image::ZERO, ..case.clone() });
        match is_of_pairs(&other) {
            true => Outcome { answer: other.answer, ..outcome },
            false => outcome,
        }
    };
    vec![
        Mutant::of_outcome_of(Function::FromPci, name, behind_pairs),
        Mutant::of_rules(format!("order of pairs: {verdict} behind 3 to 10"), last),
    ]
}
