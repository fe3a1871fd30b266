//! The file of cases with digests of what the rules give for them.
//!
//! For each case: tag, number of words, number of arguments, output buffer length, digest, then the words
//! and the arguments.

use super::{outcome, random_reading, random_writing, readings, writings, Case, Function, Outcome};
use crate::listings::bytes;
use crate::prng::Prng;
use crate::rules;
use crate::tally::Tally;
use std::fs;
use std::io;
use std::path::Path;

const RANDOM_CASES: usize = 300;
/// Words of a random case that is stored.
const LONGEST: usize = 60;

/// The fixed ones that are stored: short, and long.
pub fn fixed() -> [Vec<Case>; 2] {
    let ([short, long], [short_tables, long_tables]) = (readings::stored(), writings::stored());
    [[short, short_tables].concat(), [long, long_tables].concat()]
}

/// The long ones last, so that a change is run on them only where no shorter case sees it.
pub fn stored_cases() -> Vec<Case> {
    let random = |seed: u64, of: fn(&mut Prng) -> Case| {
        let all = (0..).map(move |number| of(&mut Prng::new(seed, number)));
        let short = |case: &Case| case.words.len() + case.arguments.len() <= LONGEST;
        all.filter(short).take(RANDOM_CASES)
    };
    let [mut cases, long] = fixed();
    cases.extend(random(10, random_reading));
    cases.extend(random(11, random_writing));
    cases.extend(long);
    cases
}

/// Writes stdin and stdout of the test program `books`.
pub fn write_crate(folder: &Path) -> io::Result<()> {
    let (stdin, stdout) = crate_files();
    fs::create_dir_all(folder)?;
    fs::write(folder.join("stdin"), stdin)?;
    fs::write(folder.join("stdout"), stdout)
}

/// The cases with their digests, and the counts of verdicts.
pub fn crate_files() -> (Vec<u8>, String) {
    let cases = stored_cases();
    let mut tally = Tally::new(&Function::ALL.map(Function::name));
    let mut words = Vec::new();
    for case in &cases {
        let outcome = outcome(rules::paper(), case);
        tally.count(case.function.name(), outcome.verdict());
        words.extend(case_words(case, digest(&outcome)));
    }
    let text = format!("books {}\ndifferences 0\n{}", cases.len(), tally.lines(0));
    (bytes(&words), text)
}

fn case_words(case: &Case, digest: u32) -> Vec<u32> {
    let Case { function, words, arguments, out_len, .. } = case;
    let front = [*function as usize, words.len(), arguments.len(), *out_len];
    let front = front.map(|number| number as u32);
    [&front[..], &[digest], words, arguments].concat()
}

/// Over the numbers and the words: each word w makes it d * 16777619 + w.
pub fn digest(outcome: &Outcome) -> u32 {
    let words = outcome.numbers.iter().chain(&outcome.words);
    words.fold(0x811C_9DC5, |digest, word| digest.wrapping_mul(16_777_619).wrapping_add(*word))
}

#[cfg(test)]
mod tests {
    use super::*;
    use std::sync::LazyLock;

    static STORED: LazyLock<Vec<Case>> = LazyLock::new(stored_cases);

    fn verdict(case: &Case) -> u32 {
        outcome(rules::paper(), case).verdict()
    }

    /// Of a size to be kept in the repository.
    #[test]
    fn file_is_small() {
        assert!(crate_files().0.len() <= 700_000);
    }

    #[test]
    fn lengths_are_limited() {
        assert!(STORED.len() <= 65_536);
        for case in STORED.iter() {
            assert!(case.words.len() <= 8200 && case.arguments.len() <= 1600);
            assert!(case.out_len <= 9000);
            if case.function == Function::FindScene {
                assert_eq!((case.arguments.len(), case.out_len), (1, 0));
            }
        }
    }

    /// Every case can be read back from the file's words.
    #[test]
    fn file_is_as_described() {
        let bytes = crate_files().0;
        let words: Vec<u32> =
            bytes.chunks_exact(4).map(|b| u32::from_le_bytes([b[0], b[1], b[2], b[3]])).collect();
        let mut at = 0;
        for case in STORED.iter() {
            let lengths = [case.words.len(), case.arguments.len(), case.out_len];
            let front = [&[case.function as u32][..], &lengths.map(|n| n as u32)].concat();
            assert_eq!(words[at..at + 4], front);
            at += 5;
            assert_eq!(words[at..at + case.words.len()], case.words);
            at += case.words.len();
            assert_eq!(words[at..at + case.arguments.len()], case.arguments);
            at += case.arguments.len();
        }
        assert_eq!(at, words.len());
    }

    #[test]
    fn every_verdict_is_there() {
        for function in Function::ALL {
            let of_function = STORED.iter().filter(|case| case.function == function);
            let given: Vec<u32> = of_function.map(verdict).collect();
            for expected in function.verdicts() {
                let count = given.iter().filter(|given| *given == expected).count();
                assert!(count >= 30, "{} gives {expected} {count} times", function.name());
            }
            assert!(given.iter().all(|given| function.verdicts().contains(given)));
        }
    }

    /// Good books and tables of 0, 1, 2, 255 and 256 entries, and refused ones of 257.
    #[test]
    fn numbers_of_entries_are_there() {
        let entries = |case: &Case| match case.function {
            Function::FindScene => case.words.first().copied().unwrap_or(0),
            Function::WriteBook => case.arguments.len() as u32 / 3,
        };
        let all: Vec<_> =
            STORED.iter().map(|case| (case.function, entries(case), verdict(case))).collect();
        for function in Function::ALL {
            for count in [1, 2, 255, 256] {
                assert!(all.contains(&(function, count, 0)), "{count} for {}", function.name());
            }
            assert!(all.contains(&(function, 257, 22)));
        }
        assert!(all.contains(&(Function::FindScene, 0, 25)));
        assert!(all.contains(&(Function::WriteBook, 0, 0)));
    }

    /// Of both functions bodies of so many words, with what they give.
    #[test]
    fn long_bodies_are_there() {
        let longest = |case: &Case| {
            let entries = match case.function {
                Function::FindScene => case.words.get(1..4).unwrap_or_default(),
                Function::WriteBook => &case.arguments,
            };
            entries.get(2).copied().unwrap_or(0)
        };
        let long = STORED.iter().filter(|case| case.words.len() > 4096);
        let all: Vec<_> = long.map(|case| (case.function, longest(case), verdict(case))).collect();
        for function in Function::ALL {
            for of_both in [(4095, 0), (4096, 0), (4097, 24)] {
                let (length, verdict) = of_both;
                let is_there = all.contains(&(function, length, verdict));
                assert!(is_there, "{of_both:?} for {}", function.name());
            }
        }
    }
}
