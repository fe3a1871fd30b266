//! Lists in a mode read otherwise, by the reader alone or by the normaliser alone: other rules, words that
//! are not got, other modes over 3, what is held swapped back.

use super::changes::Mutant;
use crate::agreement::swapped;
use crate::lists::{Case, CaseKind, Image};
use crate::outcome::{self, Function, Outcome};
use crate::rules::{self, Mask, Refusal, Rules};
use crate::vary::Vary;

const REFUSED: u32 = 21;

/// What is read for a word in a mode.
type OtherWord = fn(u32, u32) -> u32;
/// Whether a position of a list with so many words is meant.
type Places = fn(usize, usize) -> bool;
/// The mode that is taken for a mode.
type OtherMode = fn(u32) -> u32;
/// The words read instead of those got, from a position on.
type Behind = fn(&Case, Vec<u32>, usize) -> Vec<u32>;

pub fn all() -> Vec<Mutant> {
    let mut all = Vec::new();
    for function in CaseKind::InMode.functions() {
        all.extend(other_rules(function));
        all.extend(other_bits(function));
        all.extend(other_places(function));
        all.extend(other_lengths(function));
        all.extend(modes_by_length(function));
        all.extend(modes_over_3(function));
        all.extend(other_orders(function));
        all.extend(swapped_back(function));
        all.extend(masks_swapped(function));
    }
    all
}

fn mutant(
    function: Function,
    what: &str,
    change: impl Fn(&Case, Outcome) -> Outcome + Sync + 'static,
) -> Mutant {
    let name = format!("{} in a mode: {what}", function.name());
    Mutant::of_outcome_for(CaseKind::InMode, function, name, change)
}

/// The rules for modes, changed for one function alone; those for what another one writes left out.
fn other_rules(function: Function) -> Vec<Mutant> {
    let others: &[&str] = match function {
        Function::Reader => &["form"],
        _ => &["records", "image"],
    };
    let changed = rules::paper().swap.variants().into_iter();
    let changed = changed.filter(|(name, _)| !others.iter().any(|other| name.starts_with(other)));
    let changed = changed.map(|(name, swap)| {
        let rules = Rules { swap, ..Rules::paper() };
        mutant(function, &name, move |case, _| outcome::of(function, &rules, case))
    });
    changed.collect()
}

/// By other words got from the list.
fn by_words(
    function: Function,
    what: &str,
    got: impl Fn(&Case) -> Vec<u32> + Sync + 'static,
) -> Mutant {
    mutant(function, what, move |case, outcome| match outcome.answer[0] {
        REFUSED => outcome,
        _ => outcome::of(function, rules::paper(), &with_mode(0, got(case), case)),
    })
}

fn with_mode(mode: u32, list: Vec<u32>, case: &Case) -> Case {
    Case { list, arguments: vec![mode], ..case.clone() }
}

/// Bits reversed in place of bytes, or in each of them.
fn other_bits(function: Function) -> Vec<Mutant> {
    let ways: [(&str, OtherWord); 3] = [
        ("all bits reversed", |_, word| word.reverse_bits()),
        ("bits reversed in each half", |_, word| swapped(2, word.reverse_bits())),
        ("bits reversed in each byte", |mode, word| swapped(mode, swapped(3, word.reverse_bits()))),
    ];
    let mut all = Vec::new();
    for mode in 1..4 {
        for (way, change) in ways {
            all.push(by_words(function, &format!("mode {mode}: {way}"), move |case| {
                match case.mode() == mode {
                    true => case.list.iter().map(|word| change(mode, *word)).collect(),
                    false => function.list_of(case),
                }
            }));
        }
    }
    all
}

/// Words at some places not swapped.
fn other_places(function: Function) -> Vec<Mutant> {
    let places: [(&str, Places); 5] = [
        ("first word", |k, _| k == 0),
        ("last word", |k, words| k + 1 == words),
        ("words behind the first", |k, _| k > 0),
        ("words at odd positions", |k, _| k % 2 == 1),
        ("words at even positions", |k, _| k % 2 == 0),
    ];
    let not_swapped = |(place, is_there): (&str, Places)| {
        by_words(function, &format!("{place} not swapped"), move |case| {
            let mut got = function.list_of(case);
            for k in (0..got.len()).filter(|&k| is_there(k, case.list.len())) {
                got[k] = case.list[k];
            }
            got
        })
    };
    places.into_iter().map(not_swapped).collect()
}

/// Words behind some length not swapped, not there, or got from elsewhere; shorter lists too long.
fn other_lengths(function: Function) -> Vec<Mutant> {
    let ways: [(&str, Behind); 4] = [
        ("not swapped", |case, got, words| [&got[..words], &case.list[words..]].concat()),
        ("zero", |case, got, words| [&got[..words], &vec![0; case.list.len() - words]].concat()),
        ("the first again", |_, got, words| (0..got.len()).map(|k| got[k % words]).collect()),
        ("left out", |_, got, words| got[..words].to_vec()),
    ];
    let mut all = Vec::new();
    for words in [63, 64, 511, 512, 4095] {
        for (way, behind) in ways {
            all.push(by_words(function, &format!("words from {words} on {way}"), move |case| {
                let got = function.list_of(case);
                match got.len() > words {
                    true => behind(case, got, words),
                    false => got,
                }
            }));
        }
        let too_long = move |case: &Case, outcome: Outcome| match outcome.answer[0] {
            0 if case.list.len() > words => refused_with(Refusal::new(1, 4096), case, outcome),
            _ => outcome,
        };
        all.push(mutant(function, &format!("1 for over {words} words"), too_long));
    }
    all
}

/// A mode taken for another one in lists of some lengths alone.
fn modes_by_length(function: Function) -> Vec<Mutant> {
    let mut all = Vec::new();
    for (least, most) in [(0, 64), (65, 512), (513, 4096)] {
        for mode in 1..4 {
            for other in (0..4).filter(|other| *other != mode) {
                let what = format!("mode {mode} as {other} in lists of {least} to {most} words");
                all.push(by_words(function, &what, move |case| {
                    let here = case.mode() == mode && (least..=most).contains(&case.list.len());
                    let taken = if here { other } else { case.mode() };
                    case.list.iter().map(|word| swapped(taken, *word)).collect()
                }));
            }
        }
    }
    all
}

/// With nothing changed.
fn refused_with(refusal: Refusal, case: &Case, outcome: Outcome) -> Outcome {
    let buffer = outcome::prefilled(outcome.buffer.len());
    let image = case.image.words();
    Outcome { answer: refusal.answer().numbers(), image, buffer, ..outcome }
}

/// Modes over 3 taken for others.
fn modes_over_3(function: Function) -> Vec<Mutant> {
    let ways: [(&str, OtherMode); 3] = [
        ("as 0", |_| 0),
        ("as 3", |_| 3),
        ("as 0 where negative", |mode| if (mode as i32) < 0 { 0 } else { mode }),
    ];
    let taken = |(way, mode): (&str, OtherMode)| {
        mutant(function, &format!("modes over 3 {way}"), move |case, outcome| {
            match outcome.answer[0] {
                REFUSED => {
                    let other = with_mode(mode(case.mode()), case.list.clone(), case);
                    outcome::of(function, rules::paper(), &other)
                }
                _ => outcome,
            }
        })
    };
    let mut all: Vec<Mutant> = ways.into_iter().map(taken).collect();
    for width in [2, 8, 16] {
        let mut rules = Rules::paper();
        rules.swap.mode_bits = Mask { bits: (1 << width) - 1, width: 32 };
        all.push(mutant(function, &format!("modes of {width} bits"), move |case, _| {
            outcome::of(function, &rules, case)
        }));
    }
    all
}

/// 21 only where nothing else is told, or where there are words to swap.
fn other_orders(function: Function) -> Vec<Mutant> {
    let in_mode_0 = move |case: &Case| {
        outcome::of(function, rules::paper(), &with_mode(0, case.list.clone(), case))
    };
    vec![
        mutant(function, "21 behind 11", move |case, outcome| {
            let other = in_mode_0(case);
            match [outcome.answer[0], other.answer[0]] {
                [REFUSED, 11] => other,
                _ => outcome,
            }
        }),
        mutant(function, "no 21 for the empty list", move |case, outcome| {
            match case.list.is_empty() {
                true => in_mode_0(case),
                false => outcome,
            }
        }),
    ]
}

/// What is written swapped by the mode, and the starting image too.
fn swapped_back(function: Function) -> Vec<Mutant> {
    let accepted = |what: &str, change: fn(&Case, &mut Outcome)| {
        mutant(function, what, move |case, mut outcome| {
            if outcome.answer[0] == 0 {
                change(case, &mut outcome);
            }
            outcome
        })
    };
    let mut all = vec![accepted("written words swapped back", |case, outcome| {
        let written = outcome.answer[4] as usize;
        outcome.buffer[..written].iter_mut().for_each(|word| *word = swapped(case.mode(), *word));
    })];
    if function.applies() {
        all.push(accepted("image swapped back", |case, outcome| {
            outcome.image.iter_mut().for_each(|word| *word = swapped(case.mode(), *word));
        }));
        all.push(accepted("changed words of the image swapped back", |case, outcome| {
            let changed = outcome.image.iter_mut().zip(case.image.words());
            changed.filter(|(word, before)| **word != *before).for_each(|(word, _)| {
                *word = swapped(case.mode(), *word);
            });
        }));
    }
    all.push(mutant(function, "starting image swapped", move |case, outcome| {
        let words = case.image.words().iter().map(|word| swapped(case.mode(), *word)).collect();
        match outcome.answer[0] {
            0 => {
                let image = Image::Words(words);
                outcome::of(function, rules::paper(), &Case { image, ..case.clone() })
            }
            _ => outcome,
        }
    }));
    all
}

/// Masks swapped with the words, and the bit told of the list's own word.
fn masks_swapped(function: Function) -> Vec<Mutant> {
    let with_masks = |mode: u32| {
        let mut rules = Rules::paper();
        for mask in rules.table.0.iter_mut().flat_map(|row| row.masks.iter_mut().skip(1)) {
            mask.bits = swapped(mode, mask.bits);
        }
        rules
    };
    let rules = [0, 1, 2, 3].map(with_masks);
    vec![
        mutant(function, "masks behind the first swapped", move |case, outcome| {
            match rules.get(case.mode() as usize) {
                Some(rules) => outcome::of(function, rules, case),
                None => outcome,
            }
        }),
        mutant(function, "bit of the list's word told", |case, mut outcome| {
            if outcome.answer[0] == 6 {
                let bit = swapped(case.mode(), 1 << outcome.answer[5]);
                outcome.answer[5] = bit.trailing_zeros();
            }
            outcome
        }),
    ]
}
