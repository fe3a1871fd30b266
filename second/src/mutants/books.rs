//! Books by rules that aren't one change away: signed numbers, bodies elsewhere, other tests of a body.

mod effects;
mod refusals;

use super::changes::Mutant;
use crate::books::{self, Case, Function, Outcome};
use crate::rules::{self, Entry};

pub fn all() -> Vec<Mutant> {
    let mut all = signed_numbers();
    all.extend(other_places());
    all.extend(other_insides());
    for (what, change) in [
        ("a word less is room enough", word_less_enough as Change),
        ("starts count from the second word", starts_from_second),
        ("starts count from the table", starts_from_table),
    ] {
        all.push(mutant(Function::WriteBook, what, change));
    }
    all.extend(refusals::all());
    all.extend(effects::all());
    all
}

type Change = fn(&Case, Outcome) -> Outcome;

/// Of what one function gives.
fn mutant(
    function: Function,
    what: &str,
    change: impl Fn(&Case, Outcome) -> Outcome + Sync + 'static,
) -> Mutant {
    let name = format!("book {}: {what}", function.name());
    Mutant::of_book(name, move |case, outcome| match case.function == function {
        true => change(case, outcome),
        false => outcome,
    })
}

fn of_paper(case: &Case) -> Outcome {
    books::outcome(rules::paper(), case)
}

/// Scene numbers compared as signed: as their order is when the highest bit is flipped in all.
fn signed_numbers() -> Vec<Mutant> {
    const SIGN: u32 = 0x80000000;
    fn flip(words: &mut [u32], entries: usize) {
        words.iter_mut().step_by(3).take(entries).for_each(|number| *number ^= SIGN);
    }
    let find = |case: &Case, _| {
        let mut flipped = case.clone();
        if let [count, contents @ ..] = &mut flipped.words[..] {
            let entries = (*count as usize).min(contents.len() / 3);
            flip(contents, entries);
        }
        flipped.arguments[0] ^= SIGN;
        of_paper(&flipped)
    };
    let write = |case: &Case, _| {
        let mut flipped = case.clone();
        let entries = case.arguments.len() / 3;
        flip(&mut flipped.arguments, entries);
        let mut outcome = of_paper(&flipped);
        if outcome.verdict() == 0 {
            flip(&mut outcome.words[1..], entries);
        }
        outcome
    };
    let what = "numbers compared as signed";
    vec![mutant(Function::FindScene, what, find), mutant(Function::WriteBook, what, write)]
}

/// Whether bodies may stand so, behind contents of so many words in a file of so many.
type Placed = fn(&[Entry], u64, u64) -> bool;

/// Bodies accepted that don't stand where the rule puts them.
fn other_places() -> Vec<Mutant> {
    let rules: [(&str, Placed); 6] = [
        ("words between bodies accepted", |bodies, contents, words| {
            stand(bodies, contents, words, |start, end| start >= end)
        }),
        ("words behind the contents accepted", |bodies, contents, words| {
            let first = bodies.first().map_or(contents, |first| first.start);
            first >= contents && stand(bodies, first, words, |start, end| start == end)
        }),
        ("bodies over each other accepted", |bodies, contents, words| {
            stand(bodies, contents, words, |start, end| start <= end)
                && bodies.iter().all(|body| body.start >= contents)
        }),
        ("bodies in any order accepted", |bodies, contents, words| {
            let mut sorted = bodies.to_vec();
            sorted.sort_by_key(|body| (body.start, body.length));
            stand(&sorted, contents, words, |start, end| start == end)
        }),
        ("bodies anywhere behind the contents accepted", |bodies, contents, words| {
            bodies.iter().all(|body| body.start >= contents && body.start + body.length <= words)
        }),
        ("bodies anywhere in the file accepted", |bodies, _, words| {
            bodies.iter().all(|body| body.start + body.length <= words)
        }),
    ];
    let of_rule = |(what, placed): (&str, Placed)| {
        mutant(Function::FindScene, what, move |case, outcome| accepted_if(placed, case, outcome))
    };
    rules.into_iter().map(of_rule).collect()
}

/// Each start is related so to the end before it, and the last end is the file's.
fn stand(bodies: &[Entry], first: u64, words: u64, related: fn(u64, u64) -> bool) -> bool {
    let mut end = first;
    bodies.iter().all(|body| {
        let before = std::mem::replace(&mut end, body.start + body.length);
        related(body.start, before)
    }) && end == words
}

/// For 24 of bodies that aren't too long, what the scene's entry says, if they stand so.
fn accepted_if(placed: Placed, case: &Case, outcome: Outcome) -> Outcome {
    if outcome.verdict() != 24 {
        return outcome;
    }
    let entry = |words: &[u32]| {
        let [number, start, length] = [words[0], words[1], words[2]].map(u64::from);
        Entry { number, start, length }
    };
    let count = case.words[0] as usize;
    let entries: Vec<Entry> = case.words[1..].chunks_exact(3).take(count).map(entry).collect();
    let contents = 1 + 3 * count as u64;
    let short = entries.iter().all(|entry| entry.length <= 4096);
    if !short || !placed(&entries, contents, case.words.len() as u64) {
        return outcome;
    }
    let number = u64::from(case.arguments[0]);
    match entries.iter().find(|entry| entry.number == number) {
        Some(Entry { start, length, .. }) => {
            let words = case.words[*start as usize..(start + length) as usize].to_vec();
            Outcome {
                numbers: vec![0, *start as u32, *length as u32, 0, words.len() as u32],
                words,
            }
        }
        None => Outcome { numbers: vec![25, 0, 0, 25, 0], words: Vec::new() },
    }
}

/// Whether a body is taken for one inside a buffer of so many words.
type Inside = fn(u64, u64, u64) -> bool;

/// Bodies outside the writer's buffer that pass a weaker test; what of them is inside is taken.
fn other_insides() -> Vec<Mutant> {
    let tests: [(&str, Inside); 5] = [
        ("start and length each inside", |start, length, words| start <= words && length <= words),
        ("sum of 16 bits", |start, length, words| (start + length) & 0xFFFF <= words),
        ("sum of 31 bits", |start, length, words| (start + length) & 0x7FFFFFFF <= words),
        ("signed sum", |start, length, words| {
            i64::from((start as u32).wrapping_add(length as u32) as i32) <= words as i64
        }),
        ("a body outside cut at the end", |_, _, _| true),
    ];
    let of_test = |(what, inside): (&str, Inside)| {
        mutant(Function::WriteBook, what, move |case, outcome| {
            let words = case.words.len() as u64;
            let rows = case.arguments.chunks_exact(3);
            let passes = |row: &[u32]| inside(u64::from(row[1]), u64::from(row[2]), words);
            match outcome.verdict() {
                24 if rows.clone().all(|row| row[2] <= 4096 && passes(row)) => {
                    of_paper(&with_cut_bodies(case))
                }
                _ => outcome,
            }
        })
    };
    tests.into_iter().map(of_test).collect()
}

fn with_cut_bodies(case: &Case) -> Case {
    let mut cut = case.clone();
    let words = case.words.len() as u32;
    for row in cut.arguments.chunks_exact_mut(3) {
        row[1] = row[1].min(words);
        row[2] = row[2].min(words - row[1]);
    }
    cut
}

/// The last word of the book is then left out.
fn word_less_enough(case: &Case, outcome: Outcome) -> Outcome {
    let mut given = of_paper(&Case { out_len: case.out_len + 1, ..case.clone() });
    match outcome.verdict() {
        11 if given.verdict() == 0 => {
            given.words.pop();
            given
        }
        _ => outcome,
    }
}

fn starts_from_second(case: &Case, outcome: Outcome) -> Outcome {
    with_words(case, outcome, |words, _| words.rotate_left(1.min(words.len())))
}

/// As though the table stood in front of the buffer.
fn starts_from_table(case: &Case, outcome: Outcome) -> Outcome {
    with_words(case, outcome, |words, table| {
        let all = [table, words].concat();
        words.iter_mut().zip(all).for_each(|(word, other)| *word = other);
    })
}

/// The book of an accepted table over other words.
fn with_words(case: &Case, outcome: Outcome, change: fn(&mut [u32], &[u32])) -> Outcome {
    if outcome.verdict() != 0 {
        return outcome;
    }
    let mut other = case.clone();
    change(&mut other.words, &case.arguments);
    of_paper(&other)
}
