//! Answers, stretches and lent words other than the ticket's, for each function and verdict by itself.

use super::{mutant, Mutant};
use crate::books::{self, Case, Function, Outcome};
use crate::outcome::prefilled;
use crate::rules::{self, put, BufferOnRefusal, RefusedStretch, RefusedWords, Rules};

pub fn all() -> Vec<Mutant> {
    let mut all = Vec::new();
    for function in Function::ALL {
        for &verdict in function.verdicts() {
            let at = Place { function, verdict };
            all.extend(numbers(&at));
            all.extend(match (function, verdict) {
                (Function::FindScene, 0) => stretches(&at),
                (Function::FindScene, _) => refused_stretches(&at),
                (Function::WriteBook, 0) => {
                    [kept(&at), written(&at)].into_iter().flatten().collect()
                }
                (Function::WriteBook, _) => refused_buffers(&at),
            });
        }
    }
    all
}

/// The outcomes of one function with one verdict.
#[derive(Clone, Copy)]
struct Place {
    function: Function,
    verdict: u32,
}

impl Place {
    fn change(self, what: &str, change: impl Fn(&Case, &mut Outcome) + Sync + 'static) -> Mutant {
        let what = format!("verdict {}: {what}", self.verdict);
        mutant(self.function, &what, move |case, mut outcome| {
            if outcome.verdict() == self.verdict {
                change(case, &mut outcome);
            }
            outcome
        })
    }

    fn changes(self, all: &[(&str, fn(&Case, &mut Outcome))]) -> Vec<Mutant> {
        all.iter().map(|(what, change)| self.change(what, *change)).collect()
    }

    /// What the rules give with one part of them changed.
    fn by_rules(self, what: &str, rules: Rules) -> Mutant {
        self.change(what, move |case, outcome| *outcome = books::outcome(&rules, case))
    }
}

/// Each number off by one.
fn numbers(at: &Place) -> Vec<Mutant> {
    let names: &[&str] = match at.function {
        Function::FindScene => &["verdict", "start", "length", "scene's verdict", "scene's words"],
        Function::WriteBook => &["verdict", "words"],
    };
    let mut all = Vec::new();
    for (k, number) in names.iter().enumerate() {
        for (way, step) in [("one more", 1), ("one less", u32::MAX)] {
            all.push(at.change(&format!("{number} {way}"), move |_, outcome| {
                outcome.numbers[k] = outcome.numbers[k].wrapping_add(step);
            }));
        }
    }
    all
}

/// Another stretch handed back.
fn hand_back(outcome: &mut Outcome, stretch: &[u32]) {
    outcome.numbers[4] = stretch.len() as u32;
    outcome.words = stretch.to_vec();
}

/// Of the scene that was found.
fn stretches(at: &Place) -> Vec<Mutant> {
    at.changes(&[
        ("start for length", |_, outcome| outcome.numbers[2] = outcome.numbers[1]),
        ("length for start", |_, outcome| outcome.numbers[1] = outcome.numbers[2]),
        ("an empty stretch", |_, outcome| hand_back(outcome, &[])),
        ("the whole book", |case, outcome| hand_back(outcome, &case.words)),
        ("the book from the scene on", |case, outcome| {
            hand_back(outcome, &case.words[outcome.numbers[1] as usize..]);
        }),
        ("the book up to the scene", |case, outcome| {
            hand_back(outcome, &case.words[..outcome.numbers[1] as usize]);
        }),
        ("without the first word", |_, outcome| {
            let rest = outcome.words.iter().skip(1).copied().collect::<Vec<u32>>();
            hand_back(outcome, &rest);
        }),
        ("as many words one further", |case, outcome| {
            let words = case.words.iter().skip(outcome.numbers[1] as usize + 1);
            let words: Vec<u32> = words.take(outcome.words.len()).copied().collect();
            hand_back(outcome, &words);
        }),
        ("as many words from the front", |case, outcome| {
            hand_back(outcome, &case.words[..outcome.words.len()]);
        }),
        ("words reversed", |_, outcome| outcome.words.reverse()),
        ("start 0 for an empty scene", |_, outcome| {
            outcome.numbers[1] *= u32::from(outcome.numbers[2] > 0);
        }),
        ("25 for an empty scene", |_, outcome| {
            if outcome.numbers[2] == 0 {
                outcome.numbers = vec![25, 0, 0, 25, 0];
            }
        }),
    ])
}

/// Something told or handed back with a refusal.
fn refused_stretches(at: &Place) -> Vec<Mutant> {
    let mut all = at.changes(&[
        ("the whole book handed back", |case, outcome| hand_back(outcome, &case.words)),
        ("the first word handed back", |case, outcome| {
            hand_back(outcome, &case.words[..1.min(case.words.len())]);
        }),
        ("another verdict with the stretch", |_, outcome| outcome.numbers[3] = 0),
    ]);
    for (what, refused) in [
        ("start and length of the entry", RefusedStretch::OfEntry),
        ("start at the file's end", RefusedStretch::FileEnd),
        ("start and length of the file", RefusedStretch::File),
    ] {
        let mut rules = rules::paper().clone();
        rules.books.reader.refused = refused;
        // With 25 there is no entry.
        if at.verdict != 25 || refused != RefusedStretch::OfEntry {
            all.push(at.by_rules(what, rules));
        }
    }
    all
}

/// The words behind the book, which have to stay.
fn kept(at: &Place) -> Vec<Mutant> {
    fn rest(outcome: &mut Outcome) -> &mut [u32] {
        let written = outcome.numbers[1] as usize;
        &mut outcome.words[written..]
    }
    at.changes(&[
        ("word behind the book changed", |_, outcome| {
            rest(outcome).iter_mut().take(1).for_each(|word| *word = 0);
        }),
        ("last word of the buffer cleared", |_, outcome| {
            rest(outcome).iter_mut().rev().take(1).for_each(|word| *word = 0);
        }),
        ("rest of the buffer cleared", |_, outcome| rest(outcome).fill(0)),
        ("the word buffer behind the book", |case, outcome| put(rest(outcome), &case.words)),
    ])
}

/// The book's own words.
fn written(at: &Place) -> Vec<Mutant> {
    fn bodies<'a>(case: &Case, outcome: &'a mut Outcome) -> &'a mut [u32] {
        let written = outcome.numbers[1] as usize;
        &mut outcome.words[1 + case.arguments.len()..written]
    }
    at.changes(&[
        ("first word of the bodies left out", |case, outcome| {
            let before = prefilled(outcome.words.len())[1 + case.arguments.len()..].to_vec();
            bodies(case, outcome).iter_mut().zip(before).take(1).for_each(|(w, b)| *w = b);
        }),
        ("last word of the bodies left out", |case, outcome| {
            let before = prefilled(outcome.numbers[1] as usize).pop();
            bodies(case, outcome).iter_mut().rev().zip(before).for_each(|(w, b)| *w = b);
        }),
        ("bodies left out", |case, outcome| {
            let before = prefilled(outcome.words.len())[1 + case.arguments.len()..].to_vec();
            put(bodies(case, outcome), &before);
        }),
        ("bodies from the front of the word buffer", |case, outcome| {
            put(bodies(case, outcome), &case.words);
        }),
        ("bodies' words reversed", |case, outcome| bodies(case, outcome).reverse()),
        ("no word of an empty book", |case, outcome| {
            if case.arguments.is_empty() {
                *outcome = Outcome { numbers: vec![0, 0], words: prefilled(outcome.words.len()) };
            }
        }),
    ])
}

/// A word changed, or told, with a refusal.
fn refused_buffers(at: &Place) -> Vec<Mutant> {
    let mut all = at.changes(&[
        ("first word of the buffer changed", |_, outcome| {
            outcome.words.iter_mut().take(1).for_each(|word| *word = 0);
        }),
        ("last word of the buffer changed", |_, outcome| {
            outcome.words.iter_mut().rev().take(1).for_each(|word| *word = 0);
        }),
        ("the count written", |case, outcome| {
            put(&mut outcome.words, &[case.arguments.len() as u32 / 3]);
        }),
        ("the contents written", |case, outcome| {
            outcome.words.iter_mut().skip(1).zip(&case.arguments).for_each(|(slot, word)| {
                *slot = *word;
            });
        }),
    ]);
    let with = |refused, on_refusal| {
        let mut rules = rules::paper().clone();
        rules.books.writer.refused = refused;
        rules.books.writer.on_refusal = on_refusal;
        rules
    };
    for (what, refused, on_refusal) in [
        ("words of the book told", RefusedWords::Book, BufferOnRefusal::Kept),
        ("words that fit told", RefusedWords::Fitting, BufferOnRefusal::Kept),
        ("as much written as fits", RefusedWords::Zero, BufferOnRefusal::AsFarAsItFits),
        ("buffer cleared", RefusedWords::Zero, BufferOnRefusal::Cleared),
    ] {
        all.push(at.by_rules(what, with(refused, on_refusal)));
    }
    all
}
