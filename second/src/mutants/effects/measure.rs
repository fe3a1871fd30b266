//! The form's length told otherwise: by other rules than the normaliser's, or without some words.

use super::{form_of, Mutant, Place, WORDS};
use crate::outcome::{self, Function};
use crate::rules::{self, Command, Kind, Row, Rules};
use crate::vary::Vary;

pub fn all() -> Vec<Mutant> {
    let mut all = other_rules();
    all.push(no_buffer_refused());
    all.extend(words_by_id());
    all.push(settings_counted_once());
    all
}

/// The rules for lists, changed for the measure alone.
fn other_rules() -> Vec<Mutant> {
    let changed = Rules::paper().variants().into_iter();
    let mutant = |(name, rules): (String, Rules)| {
        Mutant::of_outcome_of(Function::Measure, format!("measure: {name}"), move |case, _| {
            outcome::of(Function::Measure, &rules, case)
        })
    };
    changed
        .filter(|(_, rules)| is_of_lists(rules) && work_leaves_the_same(rules))
        .map(mutant)
        .collect()
}

/// No part is changed of which only other functions know, and none of the measure's own.
fn is_of_lists(rules: &Rules) -> bool {
    let Rules { room_for_records, room_for_form, swap, records, form, .. } = Rules::paper();
    let Rules { measure, listing, to_pci, from_pci, scenes, tool, books, .. } = Rules::paper();
    let room = Rules { room_for_records, room_for_form, swap, scenes, ..rules.clone() };
    Rules { records, form, measure, listing, to_pci, from_pci, tool, books, ..room } == *rules
}

/// A form has as many words whatever work leaves in words that no setting has.
fn work_leaves_the_same(rules: &Rules) -> bool {
    let of_paper = |row: &Row| rules::paper().row_of(row.id).map(|row| row.leaves);
    let mut work = rules.table.0.iter().filter(|row| row.kind == Kind::Work);
    work.all(|row| of_paper(row).is_none_or(|leaves| leaves == row.leaves))
}

/// 11 for every form that has words.
fn no_buffer_refused() -> Mutant {
    let mut rules = Rules::paper();
    rules.measure.room.clone_from(&rules.room_for_form);
    Mutant::of_rules("measure: verdict 11 for no buffer".into(), rules)
}

fn accepted(name: String) -> Place {
    Place::accepted(Function::Measure, name)
}

/// The words of the form's commands, each counted as `words` says.
fn counted(form: &[u32], words: impl Fn(&Command) -> usize) -> u32 {
    rules::paper().walk(form).0.iter().map(words).sum::<usize>() as u32
}

/// Commands of one id not counted, or counted as one word.
fn words_by_id() -> Vec<Mutant> {
    let mut all = Vec::new();
    for row in &rules::paper().table.0 {
        let (id, own_words) = (row.id, row.own_words());
        let at = accepted(format!("measure: {id:02X} in the form"));
        for (what, words) in [("not counted", 0), ("counted as one word", 1)] {
            if words == own_words {
                continue;
            }
            all.push(at.change(what, move |case, outcome| {
                outcome.answer[WORDS] = counted(&form_of(case), |command| {
                    if command.row.id == id {
                        words
                    } else {
                        command.words.len()
                    }
                });
            }));
        }
    }
    all
}

/// Each setting counted where the form has it first.
fn settings_counted_once() -> Mutant {
    accepted("measure".into()).change("each setting counted once", |case, outcome| {
        let form = form_of(case);
        let commands = rules::paper().walk(&form).0;
        let first = |command: &Command| {
            let of_id = |other: &&Command| other.row.id == command.row.id;
            commands.iter().find(of_id).is_some_and(|first| first.position == command.position)
        };
        outcome.answer[WORDS] = counted(&form, |command| {
            if command.is_work() || first(command) {
                command.words.len()
            } else {
                0
            }
        });
    })
}
