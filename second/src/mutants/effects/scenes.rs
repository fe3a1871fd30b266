//! Answers on sessions and what stays of their lent words, for each verdict by itself.

use super::{
    bits, lent_words, numbers, Mutant, Place, COMMANDS, NUMBERS, POSITION, RECORDS, WORDS,
};
use crate::lists::CaseKind;
use crate::outcome::{self, Function, Outcome};
use crate::rules::{self, Rules};
use crate::vary::Vary;

/// The lists applied, among the numbers behind the six.
const LISTS: usize = 0;
/// The verdict of a pair, and the one that leaves no list applied.
const PAIR: u32 = 20;
const IMAGE: u32 = 2;

pub fn all() -> Vec<Mutant> {
    let mut all = Vec::new();
    for verdict in Function::Scenes.verdicts(CaseKind::Session) {
        let at = Place::new(CaseKind::Session, Function::Scenes, verdict);
        all.extend(numbers(&at));
        all.extend(bits::of_verdict(&at));
        all.extend(lent_words(&at));
        for (way, step) in [("one more", 1), ("one less", u32::MAX)] {
            all.push(at.change(&format!("lists {way}"), move |_, outcome| {
                outcome.more[LISTS] = outcome.more[LISTS].wrapping_add(step);
            }));
        }
        match verdict {
            0 => all.extend(accepted(&at)),
            IMAGE => {}
            _ => all.extend(by_other_rules(&at)),
        }
    }
    all
}

/// Each number for each other one.
fn accepted(at: &Place) -> Vec<Mutant> {
    let numbers = [POSITION, COMMANDS, RECORDS, WORDS].map(Some).into_iter().chain([None]);
    let mut all = Vec::new();
    for to in numbers.clone() {
        for from in numbers.clone().filter(|from| *from != to) {
            let what = format!("{} for {}", name_of(from), name_of(to));
            all.push(at.change(&what, move |_, outcome| {
                *number(outcome, to) = *number(outcome, from);
            }));
        }
        let what = format!("no {}", name_of(to));
        all.push(at.change(&what, move |_, outcome| *number(outcome, to) = 0));
    }
    all.push(at.change("words: those of the buffer", |_, outcome| {
        outcome.answer[WORDS] = outcome.buffer.len() as u32;
    }));
    all
}

/// One of the six, or else the lists.
fn number(outcome: &mut Outcome, which: Option<usize>) -> &mut u32 {
    match which {
        Some(k) => &mut outcome.answer[k],
        None => &mut outcome.more[LISTS],
    }
}

fn name_of(which: Option<usize>) -> &'static str {
    which.map_or("lists", |k| NUMBERS[k])
}

/// The changes of the rules of sessions that show with a refusal, with this one alone.
fn by_other_rules(at: &Place) -> Vec<Mutant> {
    const PARTS: [&str; 8] = [
        "stops",
        "image on refusal",
        "records on refusal",
        "refused at",
        "commands",
        "records",
        "words",
        "lists",
    ];
    let is_of_refusal = |name: &str| {
        let (part, change) = name.split_once(": ").unwrap_or((name, ""));
        // A pair has no commands, and a position of its own.
        let of_list = part == "refused at" || change == "RefusedToo" || change == "WithRefused";
        PARTS.contains(&part) && (at.verdict != PAIR || part == "lists" || !of_list)
    };
    let changed = rules::paper().scenes.variants().into_iter();
    let mutant = |(name, scenes): (String, _)| {
        let rules = Rules { scenes, ..Rules::paper() };
        at.change(&name, move |case, outcome| {
            *outcome = outcome::of(Function::Scenes, &rules, case);
        })
    };
    changed.filter(|(name, _)| is_of_refusal(name)).map(mutant).collect()
}
