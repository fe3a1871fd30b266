//! Counts of verdicts over many cases, and the comparison with the proved library.

mod books;

use crate::books as book_cases;
use crate::cases::{self, AnyCase, Cases};
use crate::lists::{Case, CaseKind, Image};
use crate::outcome;
use crate::rules;

/// Counts the verdicts of the rules alone.
pub fn count(number: usize, seed: u64) {
    let cases = Cases::new();
    let mut tally = cases::tally();
    let mut words = 0;
    for index in 0..number {
        match cases.case(index, seed) {
            AnyCase::List(case) => {
                words += case.list.len();
                for function in case.kind.functions() {
                    let outcome = outcome::of(function, rules::paper(), &case);
                    tally.count(function.name(), outcome.answer[0]);
                }
            }
            AnyCase::Book(case) => {
                words += case.words.len();
                let outcome = book_cases::outcome(rules::paper(), &case);
                tally.count(case.function.name(), outcome.verdict());
            }
        }
    }
    print!("{}", tally.lines(10));
    println!("{number} cases, {} of them fixed, {words} words", cases.fixed().min(number));
}

/// Prints a case and what the rules give for it.
pub fn show(index: usize, seed: u64) {
    match Cases::new().case(index, seed) {
        AnyCase::List(case) => show_list(&case),
        AnyCase::Book(case) => books::show(&case),
    }
}

fn show_list(case: &Case) {
    print_case(case, usize::MAX);
    for function in case.kind.functions() {
        let outcome = outcome::of(function, rules::paper(), case);
        println!("{}: {:?}", function.name(), outcome.numbers());
        if function.writes() {
            let written = outcome.answer[4] as usize;
            println!("  written {}", hex(&outcome.buffer[..written], usize::MAX));
        }
        if outcome.image != case.image.words() {
            println!("  image   {}", hex(&outcome.image, usize::MAX));
        }
    }
}

fn print_case(case: &Case, longest: usize) {
    println!("  class   {}", case.class);
    match case.kind {
        CaseKind::List => println!("  list    {}", hex(&case.list, longest)),
        CaseKind::Session => {
            println!("  words   {}", hex(&case.list, longest));
            println!("  table   {}", hex(&case.arguments, longest));
        }
        CaseKind::InMode => {
            println!("  list    {}", hex(&case.list, longest));
            println!("  mode    {:X}", case.mode());
        }
    }
    match &case.image {
        Image::Seeded { seed: 0, len } => println!("  image   {len} zero words"),
        Image::Seeded { seed, len } => println!("  image   {len} words of seed {seed:08X}"),
        Image::Words(words) => println!("  image   {}", hex(words, longest)),
    }
    let Case { records_len, out_len, pci_len, .. } = case;
    let others = match case.kind {
        CaseKind::List => format!(", {out_len} for the form, {pci_len} for PCI"),
        CaseKind::Session => String::new(),
        CaseKind::InMode => format!(", {out_len} for the form"),
    };
    println!("  room    {records_len} words for records{others}");
}

fn hex(words: &[u32], longest: usize) -> String {
    let mut text = format!("{} words:", words.len());
    for word in words.iter().take(longest) {
        text += &format!(" {word:08X}");
    }
    if words.len() > longest {
        text += " ...";
    }
    text
}

#[cfg(feature = "proved")]
pub use with_proved::compare;

#[cfg(feature = "proved")]
mod with_proved {
    use super::*;
    use crate::agreement;
    use crate::outcome::{prefilled, Outcome};
    use crate::proved::{self, Call};
    use crate::rules::put;
    use crate::tally::Tally;

    /// Differing cases that are written out.
    const SHOWN: u64 = 5;
    const LONGEST_SHOWN: usize = 256;

    /// Compares the rules with the proved library; true when nothing differs.
    pub fn compare(number: usize, seed: u64) -> bool {
        let cases = Cases::new();
        let mut tally = cases::tally();
        let mut differing = 0;
        for index in 0..number {
            let case = cases.case(index, seed);
            let found = match &case {
                AnyCase::List(case) => compare_case(case, answer_len(case.kind, index), &mut tally),
                AnyCase::Book(case) => books::differences(case, index, &mut tally),
            };
            if found.is_empty() {
                continue;
            }
            differing += 1;
            if differing <= SHOWN {
                println!("difference in case {index} of seed {seed}");
                match &case {
                    AnyCase::List(case) => print_case(case, LONGEST_SHOWN),
                    AnyCase::Book(case) => books::print_case(case, LONGEST_SHOWN),
                }
                found.iter().for_each(|line| println!("  {line}"));
            }
        }
        print!("{}", tally.lines(10));
        println!("{number} cases, {} of them fixed", cases.fixed().min(number));
        println!("{differing} differences");
        differing == 0
    }

    /// Mostly room for the whole answer, at times less, as for the five numbers without the bit, or
    /// more.
    fn answer_len(kind: CaseKind, index: usize) -> usize {
        let lengths = match kind {
            CaseKind::List | CaseKind::InMode => {
                [6, 6, 5, 6, 6, 0, 6, 1, 6, 2, 5, 3, 6, 4, 7, 9, 6]
            }
            CaseKind::Session => [7, 7, 6, 7, 7, 0, 7, 1, 5, 2, 6, 3, 7, 4, 8, 10, 7],
        };
        lengths[index % lengths.len()]
    }

    fn compare_case(case: &Case, answer_len: usize, tally: &mut Tally) -> Vec<String> {
        let mut found = Vec::new();
        for function in case.kind.functions() {
            let expected = outcome::of(function, rules::paper(), case);
            tally.count(function.name(), expected.answer[0]);
            let call = proved::call(function, case, answer_len);
            differences(function.name(), case, &expected, &call, &mut found);
        }
        let disagreement = agreement::disagreement(case, |function, case| {
            let expected = outcome::of(function, rules::paper(), case);
            let call = proved::call(function, case, expected.numbers().len());
            differences(function.name(), case, &expected, &call, &mut found);
            call.outcome()
        });
        found.extend(disagreement);
        found
    }

    fn differences(
        name: &str,
        case: &Case,
        expected: &Outcome,
        call: &Call,
        found: &mut Vec<String>,
    ) {
        let returned = expected.answer[0];
        if call.returned != returned {
            found.push(format!("{name} returned {}, expected {returned}", call.returned));
        }
        let mut answer = prefilled(call.answer.len());
        put(&mut answer, &expected.numbers());
        if call.answer != answer {
            found.push(format!("{name} answer {:?}, expected {answer:?}", call.answer));
        }
        let pairs = [
            ("list", &case.list, &call.list),
            ("arguments", &case.arguments, &call.arguments),
            ("image", &expected.image, &call.image),
            ("buffer", &expected.buffer, &call.buffer),
        ];
        for (what, wanted, given) in pairs {
            if let Some(k) = (0..wanted.len()).find(|&k| wanted[k] != given[k]) {
                let (wanted, given) = (wanted[k], given[k]);
                found.push(format!("{name} {what} word {k}: {given:08X}, expected {wanted:08X}"));
            }
        }
        if !call.kept_inside {
            found.push(format!("{name} wrote outside a lent slice"));
        }
    }
}
