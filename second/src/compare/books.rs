//! Cases of books: printed, and compared with the proved library.

use super::hex;
use crate::books::{self, Case, Function};
use crate::rules;

pub fn show(case: &Case) {
    print_case(case, usize::MAX);
    let outcome = books::outcome(rules::paper(), case);
    println!("{}: {:?}", case.function.name(), outcome.numbers);
    match case.function {
        Function::FindScene => println!("  scene   {}", hex(&outcome.words, usize::MAX)),
        Function::WriteBook => {
            let written = outcome.numbers[1] as usize;
            println!("  written {}", hex(&outcome.words[..written], usize::MAX));
        }
    }
}

pub fn print_case(case: &Case, longest: usize) {
    println!("  class   {}", case.class);
    match case.function {
        Function::FindScene => {
            println!("  book    {}", hex(&case.words, longest));
            println!("  number  {:08X}", case.arguments[0]);
        }
        Function::WriteBook => {
            println!("  words   {}", hex(&case.words, longest));
            println!("  table   {}", hex(&case.arguments, longest));
            println!("  room    {} words", case.out_len);
        }
    }
}

#[cfg(feature = "proved")]
pub use with_proved::differences;

#[cfg(feature = "proved")]
mod with_proved {
    use super::*;
    use crate::books::{agreement, Outcome};
    use crate::outcome::prefilled;
    use crate::proved::books::{call, Call, ANSWER_WORDS};
    use crate::rules::put;
    use crate::tally::Tally;

    /// What differs in a case, and in what the reader and the writer give for each other.
    pub fn differences(case: &Case, index: usize, tally: &mut Tally) -> Vec<String> {
        // Mostly room for both numbers, at times less or more.
        const ANSWER_LENGTHS: [usize; 11] = [2, 2, 1, 2, 0, 2, 3, 2, 5, 2, 2];
        let expected = books::outcome(rules::paper(), case);
        tally.count(case.function.name(), expected.verdict());
        let answer_len = ANSWER_LENGTHS[index % ANSWER_LENGTHS.len()];
        let mut found = of_call(case, &expected, &call(case, answer_len));
        let disagreement = agreement::disagreement(case, |case| {
            let expected = books::outcome(rules::paper(), case);
            let call = call(case, ANSWER_WORDS);
            found.extend(of_call(case, &expected, &call));
            call.outcome(case)
        });
        found.extend(disagreement);
        found
    }

    fn of_call(case: &Case, expected: &Outcome, call: &Call) -> Vec<String> {
        let name = case.function.name();
        let mut found = Vec::new();
        let returned = expected.verdict();
        if call.returned != returned {
            found.push(format!("{name} returned {}, expected {returned}", call.returned));
        }
        let (numbers, book) = match case.function {
            Function::FindScene => (&expected.numbers[1..3], &[][..]),
            Function::WriteBook => (&expected.numbers[..], &expected.words[..]),
        };
        let mut answer = prefilled(call.answer.len());
        put(&mut answer, numbers);
        let lent = [
            ("words", &case.words[..], &call.words),
            ("arguments", &case.arguments, &call.arguments),
            ("answer", &answer, &call.answer),
            ("book", book, &call.book),
        ];
        for (what, wanted, given) in lent {
            if let Some(k) = (0..wanted.len()).find(|&k| wanted[k] != given[k]) {
                let (wanted, given) = (wanted[k], given[k]);
                found.push(format!("{name} {what} word {k}: {given:08X}, expected {wanted:08X}"));
            }
        }
        if !call.kept_inside {
            found.push(format!("{name} wrote outside a lent slice"));
        }
        found
    }
}
