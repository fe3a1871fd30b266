//! The bit of an answer, told otherwise.

use super::{Mutant, Place, BIT, POSITION};
use crate::lists::CaseKind;
use crate::outcome::{self, Function};
use crate::rules::{self, Row, Rules, When};
use crate::vary::Vary;

const UNDEFINED: u32 = 6;

/// Other bits with one verdict of a function; one more and one less are among the other numbers.
pub fn of_verdict(at: &Place) -> Vec<Mutant> {
    let mut all = vec![at.change("bit 0", |_, outcome| outcome.answer[BIT] = 0)];
    match at.verdict {
        // The position is the list's length, and no bit is undefined.
        0 | 11 => {}
        UNDEFINED => all.extend(with_undefined(at)),
        _ => all.extend(with_refusal(at)),
    }
    all
}

/// A bit of the header counted with the id's, or told by another rule in this function alone.
fn with_undefined(at: &Place) -> Vec<Mutant> {
    let mut all = Vec::new();
    for (way, step) in [("eight more", 8), ("eight less", 8_u32.wrapping_neg())] {
        all.push(at.change(&format!("bit {way}"), move |_, outcome| {
            outcome.answer[BIT] = outcome.answer[BIT].wrapping_add(step);
        }));
    }
    all.push(at.change("no bit", |_, outcome| outcome.answer[BIT] = rules::NO_BIT));
    let paper = &rules::paper().told_bit;
    let function = at.function;
    for (name, told_bit) in paper.variants() {
        if told_bit.header == paper.header && told_bit.otherwise == paper.otherwise {
            let rules = Rules { told_bit, ..Rules::paper() };
            all.push(at.change(&format!("bit {name}"), move |case, outcome| {
                outcome.answer = outcome::of(function, &rules, case).answer;
            }));
        }
    }
    all
}

/// A bit told with a refusal that has none.
fn with_refusal(at: &Place) -> Vec<Mutant> {
    let function = at.function;
    let mut undefined_alone = Rules::paper();
    undefined_alone.each_command.retain(|check| matches!(check.when, When::UndefinedBit(_)));
    vec![
        at.change("lowest bit set in the word told", move |case, outcome| {
            let position = outcome.answer[POSITION] as usize;
            if let Some(word) = function.list_of(case).get(position) {
                outcome.answer[BIT] = word.trailing_zeros();
            }
        }),
        at.change("an undefined bit of the list told", move |case, outcome| {
            if let Some(refusal) = undefined_alone.walk(&function.list_of(case)).1 {
                outcome.answer[BIT] = refusal.bit;
            }
        }),
    ]
}

/// Each bit of each word that has undefined ones: an undefined bit overlooked where the bit is told,
/// a defined one taken for undefined. In a list and in pairs.
pub fn all() -> Vec<Mutant> {
    let mut all = Vec::new();
    for function in [Function::Reader, Function::FromPci] {
        for row in &rules::paper().table.0 {
            for k in 0..row.own_words() {
                all.extend(bits_of_word(function, row, k));
            }
        }
    }
    all
}

fn bits_of_word(function: Function, row: &Row, k: usize) -> Vec<Mutant> {
    let width = row.masks[k].width;
    let undefined = !row.masks[k].bits & u32::MAX >> (32 - width);
    if undefined == 0 {
        return Vec::new();
    }
    let id = row.id;
    let name = format!("{}, verdict 6: word {k} of {id:02X}", function.name());
    let at = Place { name, ..Place::new(CaseKind::List, function, UNDEFINED) };
    let mutant = |bit: u32| {
        let what = if undefined >> bit & 1 == 1 { "overlooked" } else { "as an undefined one" };
        at.change(&format!("bit {bit} {what}"), move |case, outcome| {
            let (list, position) = (function.list_of(case), outcome.answer[POSITION] as usize);
            if refused_word(&list, position) == (id, k) {
                outcome.answer[BIT] = (list[position] & (undefined ^ 1 << bit)).trailing_zeros();
            }
        })
    };
    (0..width).map(mutant).collect()
}

/// The id of the refused command, and which of its words is at the position.
fn refused_word(list: &[u32], position: usize) -> (u32, usize) {
    let commands = rules::paper().walk(list).0;
    let first = commands.last().map_or(0, |command| command.position + command.words.len());
    (list[first] >> 24, position - first)
}
