//! Books and tables refused, or accepted, for what the ticket doesn't say of them.

use super::{mutant, of_paper, Change, Mutant};
use crate::books::{Case, Function, Outcome};
use crate::outcome::prefilled;

pub fn all() -> Vec<Mutant> {
    let of_reader: [(&str, Change); 5] = [
        ("a cut table read as far as it goes", cut_table_read),
        ("an empty file as a book of no entries", empty_file_read),
        ("a book of no entries refused", no_entries_refused),
        ("words behind a book of no entries accepted", no_entries_and_words),
        ("scene 0 refused", |case, outcome| match case.arguments[0] {
            0 if outcome.verdict() == 0 => refused(25, case),
            _ => outcome,
        }),
    ];
    let of_writer: [(&str, Change); 3] = [
        ("no entries refused", |case, outcome| match case.arguments.is_empty() {
            true => refused(22, case),
            false => outcome,
        }),
        ("spare words as an entry with zeros", spare_entry),
        ("an empty body at the end refused", |case, outcome| {
            let words = case.words.len() as u32;
            refused_for(case, outcome, |rows| rows.iter().any(|[start, _]| *start == words))
        }),
    ];
    let mut all = other_bodies();
    all.extend(of_reader.map(|(what, change)| mutant(Function::FindScene, what, change)));
    all.extend(of_writer.map(|(what, change)| mutant(Function::WriteBook, what, change)));
    all
}

/// A refusal with nothing told, handed back or written.
fn refused(verdict: u32, case: &Case) -> Outcome {
    match case.function {
        Function::FindScene => {
            Outcome { numbers: vec![verdict, 0, 0, verdict, 0], words: Vec::new() }
        }
        Function::WriteBook => {
            Outcome { numbers: vec![verdict, 0], words: prefilled(case.out_len) }
        }
    }
}

/// The count is at most that of the entries which are there.
fn cut_table_read(case: &Case, outcome: Outcome) -> Outcome {
    match &case.words[..] {
        [count, contents @ ..] if *count <= 256 => {
            let mut less = case.clone();
            less.words[0] = (*count).min(contents.len() as u32 / 3);
            of_paper(&less)
        }
        _ => outcome,
    }
}

fn empty_file_read(case: &Case, outcome: Outcome) -> Outcome {
    match case.words.is_empty() {
        true => refused(25, case),
        false => outcome,
    }
}

fn no_entries_refused(case: &Case, outcome: Outcome) -> Outcome {
    match case.words.first() {
        Some(0) => refused(22, case),
        _ => outcome,
    }
}

fn no_entries_and_words(case: &Case, outcome: Outcome) -> Outcome {
    match case.words.first() {
        Some(0) => refused(25, case),
        _ => outcome,
    }
}

/// What is missing of the last entry is zero.
fn spare_entry(case: &Case, _: Outcome) -> Outcome {
    let mut whole = case.clone();
    whole.arguments.resize(case.arguments.len().next_multiple_of(3), 0);
    of_paper(&whole)
}

/// 24 where the starts and lengths of a table are found to be at fault.
fn refused_for(case: &Case, outcome: Outcome, fault: impl Fn(&[[u32; 2]]) -> bool) -> Outcome {
    let rows: Vec<_> = case.arguments.chunks_exact(3).map(|row| [row[1], row[2]]).collect();
    match outcome.verdict() {
        0 | 11 if fault(&rows) => refused(24, case),
        _ => outcome,
    }
}

/// Whether a start may not stand so to the end of the body before.
type Related = fn(u32, u32) -> bool;

/// A table whose bodies the writer may take from anywhere, held to rules of a book.
fn other_bodies() -> Vec<Mutant> {
    let rules: [(&str, Related); 3] = [
        ("bodies that don't touch refused", |start, end| start != end),
        ("bodies apart refused", |start, end| start > end),
        ("bodies over each other or in another order refused", |start, end| start < end),
    ];
    let of_rule = |(what, at_fault): (&str, Related)| {
        mutant(Function::WriteBook, what, move |case, outcome| {
            refused_for(case, outcome, |rows| {
                rows.windows(2).any(|two| at_fault(two[1][0], two[0][0] + two[0][1]))
            })
        })
    };
    rules.into_iter().map(of_rule).collect()
}
