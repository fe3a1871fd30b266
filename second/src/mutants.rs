//! Every single change of the rules, and the stored case of the gate that sees it.

mod books;
mod changes;
mod clashes;
mod effects;
mod equivalent;
mod modes;
mod orders;
mod runs;
mod scenes;
mod stored;
mod thresholds;

use crate::books as book_cases;
use crate::listings;
use crate::lists::{self, Case, CaseKind, Purpose};
use crate::outcome::{self, Function, Outcome};
use crate::rules;
use crate::runs as tool_runs;
use changes::{Area, Mutant};
use std::io;
use std::path::Path;
use std::thread;
use stored::{By, Seen, Stored};

/// Random cases on which the changes that no list can show are run.
const RANDOM_CASES: usize = 100_000;
/// Random runs for such changes of the tool.
const RANDOM_RUNS: u64 = 20_000;
/// Random cases for such changes of books.
const RANDOM_BOOKS: usize = 50_000;

/// Prints what sees each change, or each whose name begins with `front`; true when each is seen or named
/// with a reason, and none is both.
pub fn report(crates: &Path, front: &str) -> io::Result<bool> {
    let stored = Stored::read(crates)?;
    let mut tally = Tally::default();
    let (mut named, mut missed) = (Vec::new(), Vec::new());
    let mutants = changes::all().into_iter().filter(|mutant| mutant.name.starts_with(front));
    for mutant in mutants {
        let reason = equivalent::reason(&mutant.name);
        match (stored.first_to_see(&mutant), reason) {
            (Some(seen), None) => tally.add(&mutant, &seen),
            (Some(seen), Some(_)) => tally.add_named(&mutant, &seen),
            (None, Some(reason)) => named.push((mutant, reason)),
            (None, None) => missed.push(mutant),
        }
    }
    println!("\nNo list can show:");
    named.sort_by_key(|(_, reason)| *reason);
    for of_reason in named.chunk_by(|a, b| a.1 == b.1) {
        println!("{} since {}", of_reason.len(), of_reason[0].1);
        of_reason.iter().for_each(|(mutant, _)| println!("    {}", mutant.name));
    }
    let named: Vec<Mutant> = named.into_iter().map(|(mutant, _)| mutant).collect();
    tally.named = named.len();
    tally.missed = missed.len();
    tally.named_and_shown = run_at_length(&named);
    if front.is_empty() {
        tally.unused_reasons = equivalent::unused(&named);
    }
    run_at_length(&missed);
    for mutant in &missed {
        println!("not seen: {}", mutant.name);
    }
    Ok(tally.print())
}

#[derive(Default)]
struct Tally {
    by_vectors: usize,
    by_listings: usize,
    by_runs: usize,
    by_books: usize,
    named: usize,
    named_and_seen: usize,
    named_and_shown: usize,
    unused_reasons: usize,
    missed: usize,
}

impl Tally {
    fn add(&mut self, mutant: &Mutant, seen: &Seen) {
        println!("{}: {}", mutant.name, seen.text);
        match seen.by {
            By::Vectors => self.by_vectors += 1,
            By::Listings => self.by_listings += 1,
            By::Runs => self.by_runs += 1,
            By::Books => self.by_books += 1,
        }
    }

    fn add_named(&mut self, mutant: &Mutant, seen: &Seen) {
        self.add(mutant, seen);
        println!("  though it is named as one that no list can show");
        self.named_and_seen += 1;
    }

    /// True when all is as it has to be.
    fn print(&self) -> bool {
        let Tally { by_vectors, by_listings, by_runs, by_books, named, missed, .. } = self;
        let seen = by_vectors + by_listings + by_runs + by_books;
        println!("\n{} changes", seen + named + missed);
        println!(
            "{seen} seen: {by_vectors} by vectors, {by_listings} by listings, {by_runs} by runs, \
             {by_books} by books"
        );
        println!("{named} that no list can show, each named with its reason");
        let faults = [
            (*missed, "not seen"),
            (self.named_and_seen, "named, and yet seen"),
            (self.named_and_shown, "named, and yet shown by a fixed or random case"),
            (self.unused_reasons, "reasons for no change"),
        ];
        faults.iter().for_each(|(count, what)| println!("{count} {what}"));
        faults.iter().all(|(count, _)| *count == 0)
    }
}

/// Runs changes on the fixed cases and many random ones, half of those of lists on each of two threads;
/// how many of them some case shows.
fn run_at_length(mutants: &[Mutant]) -> usize {
    let of = |area: Area| -> Vec<&Mutant> {
        mutants.iter().filter(|mutant| mutant.area == area).collect()
    };
    let of_lists = of(Area::Lists);
    let fixed = lists::fixed_cases();
    let (first, second) = of_lists.split_at(of_lists.len() / 2);
    thread::scope(|scope| {
        let first = scope.spawn(|| shown(first, &fixed));
        let by_lists = shown(second, &fixed) + first.join().expect("the changes run");
        by_lists + shown_by_runs(&of(Area::Tool)) + shown_by_books(&of(Area::Books))
    })
}

fn shown_by_books(mutants: &[&Mutant]) -> usize {
    let random = (0..RANDOM_BOOKS).map(|index| book_cases::random_case(index, 1));
    let mut open = mutants.to_vec();
    for case in book_cases::fixed_cases().into_iter().chain(random) {
        if open.is_empty() {
            break;
        }
        let expected = book_cases::outcome(rules::paper(), &case);
        open.retain(|mutant| {
            let other = stored::other_book(mutant, &case, &expected);
            if let Some(difference) = &other {
                println!("{}: shown by {difference}", mutant.name);
            }
            other.is_none()
        });
    }
    mutants.len() - open.len()
}

fn shown_by_runs(mutants: &[&Mutant]) -> usize {
    let random = (0..RANDOM_RUNS).map(|number| tool_runs::random_run(1000 + number, Purpose::Run));
    let mut open = mutants.to_vec();
    for case in tool_runs::more_runs().into_iter().chain(random) {
        if open.is_empty() {
            break;
        }
        let expected = case.expected();
        open.retain(|mutant| {
            let other = stored::other_run(mutant, &case, &expected);
            if let Some(difference) = &other {
                println!("{}: shown by {difference}", mutant.name);
            }
            other.is_none()
        });
    }
    mutants.len() - open.len()
}

fn shown(mutants: &[&Mutant], fixed: &[Case]) -> usize {
    let mut open = mutants.to_vec();
    for index in 0..fixed.len() + RANDOM_CASES {
        if open.is_empty() {
            break;
        }
        let case = lists::case(fixed, index, 1);
        let of = |function| (function, outcome::of(function, rules::paper(), &case));
        let expected: Vec<(Function, Outcome)> = case.kind.functions().map(of).collect();
        open.retain(|mutant| {
            let concerned =
                expected.iter().filter(|(function, _)| mutant.concerns(*function, case.kind));
            let mut differences = concerned.filter_map(|(function, expected)| {
                outcome::difference(*function, &mutant.run(*function, &case), expected)
            });
            let shown = differences.next().or_else(|| other_listing(mutant, &case));
            if let Some(difference) = &shown {
                let list = stored::described(&case);
                println!("{}: shown by {list}: {difference}", mutant.name);
            }
            shown.is_none()
        });
    }
    mutants.len() - open.len()
}

fn other_listing(mutant: &Mutant, case: &Case) -> Option<String> {
    if !mutant.is_of_listing() || case.kind != CaseKind::List {
        return None;
    }
    let input = listings::bytes(&case.list);
    let listing = mutant.listing(&input);
    (listing != rules::paper().listing(&input)).then_some(listing)
}
