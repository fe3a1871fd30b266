//! Refusals in other orders than the documents', beyond those of two neighbours.

mod pci;

use super::changes::Mutant;
use crate::lists::{Case, Image};
use crate::outcome::{self, Function, Outcome};
use crate::rules::{self, Check, Command, Refusal, Rules};

pub fn all() -> Vec<Mutant> {
    let mut all = moved_in_command();
    all.extend(moved_behind_commands());
    all.extend(checked_in_passes());
    all.extend(not_of_every_command());
    all.push(Mutant::of_outcome("order: a later command's refusal".into(), later_refusal));
    all.push(Mutant::of_outcome("order: verdict 11 as it is met".into(), no_room_as_met));
    for (k, check) in rules::paper().before_commands.iter().enumerate() {
        let name = format!("order: verdict 11 before {}", check.verdict);
        all.push(Mutant::of_outcome(name, move |f, case, outcome| {
            no_room_without(k, f, case, outcome)
        }));
    }
    all.push(Mutant::of_outcome("order: the empty list refused".into(), empty_refused));
    all.push(Mutant::of_listing("order: verdict 12 behind the commands", part_word_last));
    all.extend(pci::all());
    all
}

pub fn with_each_command(checks: Vec<Check>) -> Rules {
    Rules { each_command: checks, ..Rules::paper() }
}

/// Each check of a command at each other place; neighbours are swapped elsewhere.
fn moved_in_command() -> Vec<Mutant> {
    let checks = &rules::paper().each_command;
    let mut all = Vec::new();
    for from in 0..checks.len() {
        for to in (0..checks.len()).filter(|to| from.abs_diff(*to) > 1) {
            let mut moved = checks.clone();
            let check = moved.remove(from);
            moved.insert(to, check);
            let side = if from < to { "behind" } else { "before" };
            let (verdict, other) = (checks[from].verdict, checks[to].verdict);
            let name = format!("order: verdict {verdict} {side} {other}");
            all.push(Mutant::of_rules(name, with_each_command(moved)));
        }
    }
    all
}

/// 1 and 2 after the commands' refusals.
fn moved_behind_commands() -> Vec<Mutant> {
    let paper = rules::paper();
    let moved = |k: usize| {
        let mut rules = paper.clone();
        let check = rules.before_commands.remove(k);
        let name = format!("order: verdict {} behind the commands", check.verdict);
        rules.room_for_records.insert(0, check.clone());
        rules.room_for_form.insert(0, check.clone());
        rules.measure.room.insert(0, check.clone());
        rules.to_pci.room.insert(0, check);
        Mutant::of_rules(name, rules)
    };
    (0..paper.before_commands.len()).map(moved).collect()
}

/// The first checks of all commands, before the other checks of any.
fn checked_in_passes() -> Vec<Mutant> {
    let checks = &rules::paper().each_command;
    let passes = |k: usize| {
        let first_pass = with_each_command(checks[..k].to_vec());
        let name = format!("order: {} of all commands first", checks[k - 1].verdict);
        Mutant::of_outcome(name, move |function, case, outcome| {
            match first_pass.walk(&function.list_of(case)).1 {
                Some(refusal) if is_of_command(&outcome) => refused_with(refusal, outcome),
                _ => outcome,
            }
        })
    };
    (1..checks.len()).map(passes).collect()
}

/// A check made of the first command alone, or of all but the first.
fn not_of_every_command() -> Vec<Mutant> {
    let checks = &rules::paper().each_command;
    let mut all = Vec::new();
    for (k, check) in checks.iter().enumerate() {
        for (first, which) in [(true, "the first command alone"), (false, "all but the first")] {
            let mut others = checks.clone();
            others.remove(k);
            let without = with_each_command(others);
            let verdict = check.verdict;
            let name = format!("order: verdict {verdict} for {which}");
            all.push(Mutant::of_outcome(name, move |function, case, outcome| {
                let in_first = rules::paper().walk(&function.list_of(case)).0.is_empty();
                match outcome.answer[0] == verdict && in_first != first {
                    true => outcome::of(function, &without, case),
                    false => outcome,
                }
            }));
        }
    }
    all
}

/// Refused by 3 to 10 or by a clash.
fn is_of_command(outcome: &Outcome) -> bool {
    rules::paper().each_command.iter().any(|check| check.verdict == outcome.answer[0])
}

fn refused_with(refusal: Refusal, outcome: Outcome) -> Outcome {
    Outcome { answer: refusal.answer().numbers(), ..outcome }
}

fn end_of(commands: &[Command]) -> usize {
    commands.last().map_or(0, |command| command.position + command.words.len())
}

/// The refusal that the list has behind its refused command.
fn later_refusal(function: Function, case: &Case, outcome: Outcome) -> Outcome {
    let paper = rules::paper();
    if !is_of_command(&outcome) {
        return outcome;
    }
    let list = function.list_of(case);
    let refused = &list[end_of(&paper.walk(&list).0)..];
    let row = paper.row_of(refused[0] >> 24);
    let length = row.map_or(1, |row| row.length(&refused[..row.own_words().min(refused.len())]));
    let rest = &refused[length.min(refused.len())..];
    let before_rest = list.len() - rest.len();
    match paper.walk(rest).1 {
        Some(refusal) => {
            let position = before_rest + refusal.position;
            refused_with(Refusal { position, ..refusal }, outcome)
        }
        None => outcome,
    }
}

/// 11 as soon as the words so far don't fit, ahead of a later command's refusal.
fn no_room_as_met(function: Function, case: &Case, outcome: Outcome) -> Outcome {
    let paper = rules::paper();
    if !is_of_command(&outcome) {
        return outcome;
    }
    let list = function.list_of(case);
    let commands = paper.walk(&list).0;
    let fits = match function {
        Function::Reader => paper.records(&commands).len() <= paper.record_room(case.records_len),
        Function::Normaliser => {
            paper.normal_form(&commands, &case.image.words()).len() <= case.out_len
        }
        Function::ToPci => paper.pairs_of(&commands).len() <= case.pci_len,
        Function::FromPci => end_of(&commands) <= case.pci_len,
        Function::Measure | Function::Scenes => true,
    };
    match fits {
        true => outcome,
        false => refused_with(Refusal::new(11, list.len()), outcome),
    }
}

/// 11 where it would be given without check `k` of the whole list.
fn no_room_without(k: usize, function: Function, case: &Case, outcome: Outcome) -> Outcome {
    let mut rules = Rules::paper();
    let check = rules.before_commands.remove(k);
    rules.from_pci.before_pairs.remove(k);
    if outcome.answer[0] != check.verdict {
        return outcome;
    }
    let case = Case { image: Image::ZERO, ..case.clone() };
    let other = outcome::of(function, &rules, &case);
    match other.answer[0] {
        11 => Outcome { answer: other.answer, ..outcome },
        _ => outcome,
    }
}

/// The empty list has too few words for a command.
fn empty_refused(_: Function, case: &Case, outcome: Outcome) -> Outcome {
    match outcome.answer[0] {
        0 if case.list.is_empty() => refused_with(Refusal::new(5, 0), outcome),
        _ => outcome,
    }
}

/// 12 only where the whole words are accepted.
fn part_word_last(input: &[u8]) -> String {
    let paper = rules::paper();
    let whole = &input[..input.len() / 4 * 4];
    let text = paper.listing(whole);
    match text.starts_with("refused") {
        true => text,
        false => paper.listing(input),
    }
}
