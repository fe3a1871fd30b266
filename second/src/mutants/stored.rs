//! The stored cases of the gate: the files that the crates `vectors`, `listings`, `runs` and `books` read.

use super::changes::{Area, Mutant};
use crate::books;
use crate::listings;
use crate::lists::{Case, CaseKind};
use crate::outcome::{self, Function};
use crate::rules::{self, Run};
use crate::runs::{self, RunCase};
use crate::vectors::{self, Part, Parts};
use std::fs;
use std::io;
use std::path::Path;

/// A case, and what each function's outcome adds to its digest.
type Vector = (Case, Parts);

pub struct Stored {
    vectors: Vec<Vector>,
    listings: Vec<(&'static str, Vec<u8>)>,
    runs: Vec<(RunCase, Run)>,
    books: Vec<(books::Case, books::Outcome)>,
}

#[derive(Clone, Copy, Debug, PartialEq, Eq)]
pub enum By {
    Vectors,
    Listings,
    Runs,
    Books,
}

pub struct Seen {
    pub by: By,
    pub text: String,
}

impl Stored {
    /// Fails where the files aren't those that this program writes.
    pub fn read(crates: &Path) -> io::Result<Stored> {
        let stale = |what: &str| {
            io::Error::other(format!("the files of {what} are not those of {what}-crate"))
        };
        let as_bytes = |(stdin, stdout): (Vec<u8>, String)| (stdin, stdout.into_bytes());
        for (name, (stdin, stdout)) in [
            ("vectors", as_bytes(vectors::crate_files())),
            ("listings", as_bytes(listings::crate_files())),
            ("runs", runs::crate_files()),
            ("books", as_bytes(books::crate_files())),
        ] {
            let folder = crates.join(name);
            if fs::read(folder.join("stdin"))? != stdin
                || fs::read(folder.join("stdout"))? != stdout
            {
                return Err(stale(name));
            }
        }
        let of_case = |case: Case| {
            let parts = vectors::parts_of(&case);
            (case, parts)
        };
        let vectors = vectors::stored_cases().into_iter().map(of_case).collect();
        let with_expected = |case: RunCase| {
            let expected = case.expected();
            (case, expected)
        };
        let runs = runs::stored_runs().into_iter().map(with_expected).collect();
        let with_outcome = |case: books::Case| {
            let expected = books::outcome(rules::paper(), &case);
            (case, expected)
        };
        let books = books::stored_cases().into_iter().map(with_outcome).collect();
        Ok(Stored { vectors, listings: listings::stored_inputs(), runs, books })
    }

    pub fn first_to_see(&self, mutant: &Mutant) -> Option<Seen> {
        match mutant.area {
            Area::Lists => self.first_list_to_see(mutant),
            Area::Tool => self.first_run_to_see(mutant),
            Area::Books => self.first_book_to_see(mutant),
        }
    }

    /// The first case whose digest, or else the first input whose listing, or else the first run whose
    /// text and words aren't the stored ones.
    fn first_list_to_see(&self, mutant: &Mutant) -> Option<Seen> {
        let differs = |(_, (case, parts)): &(usize, &Vector)| {
            let mut changed = *parts;
            for function in case.kind.functions().filter(|f| mutant.concerns(*f, case.kind)) {
                changed[function as usize] = Part::of(function, &mutant.run(function, case));
            }
            vectors::digest_of(changed) != vectors::digest_of(*parts)
        };
        if !mutant.is_of_listing() {
            if let Some((k, (case, _))) = self.vectors.iter().enumerate().find(differs) {
                let text = format!("case {k}, {}: {}", described(case), difference(mutant, case));
                return Some(Seen { by: By::Vectors, text });
            }
        }
        let differs =
            |(_, input): &&(&str, Vec<u8>)| mutant.listing(input) != rules::paper().listing(input);
        if let Some((name, _)) = self.listings.iter().find(differs) {
            return Some(Seen { by: By::Listings, text: format!("listing {name}") });
        }
        self.first_run_to_see(mutant)
    }

    fn first_run_to_see(&self, mutant: &Mutant) -> Option<Seen> {
        let other = |(case, expected): &(RunCase, Run)| other_run(mutant, case, expected);
        let text = self.runs.iter().find_map(other)?;
        Some(Seen { by: By::Runs, text })
    }

    fn first_book_to_see(&self, mutant: &Mutant) -> Option<Seen> {
        let (k, other) = self.books.iter().enumerate().find_map(|(k, (case, expected))| {
            other_book(mutant, case, expected).map(|other| (k, other))
        })?;
        Some(Seen { by: By::Books, text: format!("book {k}, {other}") })
    }
}

/// What the change gives for a case of books, where its digest isn't that of what the documents give.
pub fn other_book(
    mutant: &Mutant,
    case: &books::Case,
    expected: &books::Outcome,
) -> Option<String> {
    let given = mutant.book(case, expected);
    if books::digest(&given) == books::digest(expected) {
        return None;
    }
    let difference = books::difference(case, &given, expected)?;
    let decimal = u32::to_string;
    let (words, arguments) =
        (first_words(&case.words, decimal), first_words(&case.arguments, decimal));
    Some(format!("{} {words} {arguments} room {}: {difference}", case.class, case.out_len))
}

/// What the change gives for the case, where it isn't what document 01 gives.
fn difference(mutant: &Mutant, case: &Case) -> String {
    let of = |function: Function| {
        let expected = outcome::of(function, rules::paper(), case);
        outcome::difference(function, &mutant.run(function, case), &expected)
    };
    case.kind.functions().find_map(of).unwrap_or_default()
}

/// What the tool says or writes otherwise.
pub fn other_run(mutant: &Mutant, case: &RunCase, expected: &Run) -> Option<String> {
    let given = mutant.tool_run(case, expected);
    let line = |text: &str, k: usize| text.lines().nth(k).unwrap_or("nothing").to_string();
    let lines = expected.text.lines().count() + 1;
    let differing = (0..lines).find(|&k| line(&given.text, k) != line(&expected.text, k));
    let name = &case.name;
    match differing {
        _ if given == *expected => None,
        Some(k) => {
            let (given, expected) = (line(&given.text, k), line(&expected.text, k));
            Some(format!("run {name}: {given:?}, not {expected:?}"))
        }
        None => Some(format!("run {name}: other words or line ends")),
    }
}

/// The case's class, the first words of its list, and those of a session's table, or the mode.
pub fn described(case: &Case) -> String {
    let list = format!("{} {}", case.class, first_words(&case.list, |word| format!("{word:08X}")));
    match case.kind {
        CaseKind::List => list,
        CaseKind::Session => list + " table " + &first_words(&case.arguments, u32::to_string),
        CaseKind::InMode => format!("{list} mode {:X}", case.mode()),
    }
}

fn first_words(words: &[u32], text: impl Fn(&u32) -> String) -> String {
    const SHOWN: usize = 6;
    let first: Vec<String> = words.iter().take(SHOWN).map(text).collect();
    match words.len() {
        0..=SHOWN => format!("[{}]", first.join(" ")),
        more => format!("[{} ..{more} words]", first.join(" ")),
    }
}
