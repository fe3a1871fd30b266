//! The file of cases with digests of what the rules give for them.
//!
//! For each case: tag, number of words, number of arguments, image seed, image length, record buffer
//! length, output buffer length, PCI buffer length, digest, then the words and the arguments.

use crate::listings::bytes;
use crate::lists::{self, Case, Image, Purpose};
use crate::outcome::{self, Function, Outcome};
use crate::prng::Prng;
use crate::rules;
use crate::tally::Tally;
use std::fs;
use std::io;
use std::path::Path;

/// Stored after the fixed sample.
const RANDOM_LISTS: usize = 1500;
const RANDOM_PAIRS: usize = 700;
const RANDOM_SESSIONS: usize = 300;
const RANDOM_IN_MODE: usize = 250;

/// The lists, then the sessions, then the lists in a mode.
pub fn stored_cases() -> Vec<Case> {
    let random = |seed: u64, cases: usize, of: fn(&mut Prng, Purpose) -> Case| {
        (0..cases as u64).map(move |number| of(&mut Prng::new(seed, number), Purpose::Store))
    };
    let mut cases = lists::fixed_sample();
    cases.extend(random(6, RANDOM_LISTS, lists::random_case));
    cases.extend(random(7, RANDOM_PAIRS, lists::random_pairs));
    let [short, long] = lists::stored_sessions();
    cases.extend(short);
    cases.extend(random(8, RANDOM_SESSIONS, lists::random_session));
    cases.extend(long);
    let [short, long] = lists::stored_in_modes();
    cases.extend(short);
    cases.extend(random(9, RANDOM_IN_MODE, lists::random_in_mode));
    cases.extend(long);
    cases
}

/// Writes stdin and stdout of the test program `vectors`.
pub fn write_crate(folder: &Path) -> io::Result<()> {
    let (stdin, stdout) = crate_files();
    fs::write(folder.join("stdin"), stdin)?;
    fs::write(folder.join("stdout"), stdout)
}

/// The cases with their digests, and the counts of verdicts.
pub fn crate_files() -> (Vec<u8>, String) {
    let cases = stored_cases();
    let mut tally = Tally::new(&Function::ALL.map(Function::name));
    for case in &cases {
        for function in case.kind.functions() {
            let outcome = outcome::of(function, rules::paper(), case);
            tally.count(function.name(), outcome.answer[0]);
        }
    }
    let words: Vec<u32> = cases.iter().flat_map(case_words).collect();
    let text = format!("vectors {}\ndifferences 0\n{}", cases.len(), tally.lines(0));
    (bytes(&words), text)
}

fn case_words(case: &Case) -> Vec<u32> {
    let Image::Seeded { seed, len } = case.image else {
        panic!("an image that can't be stored");
    };
    let Case { kind, list, arguments, records_len, out_len, pci_len, .. } = case;
    let tag = *kind as usize;
    let lengths = [*records_len, *out_len, *pci_len];
    let front = [&[tag, list.len(), arguments.len(), seed as usize, len], &lengths[..]].concat();
    let mut words: Vec<u32> = front.iter().map(|&number| number as u32).collect();
    words.push(digest_of(parts_of(case)));
    words.extend_from_slice(list);
    words.extend_from_slice(arguments);
    words
}

/// What each function that runs on the case does to its digest.
pub fn parts_of(case: &Case) -> Parts {
    Function::ALL.map(|function| match function.runs_on(case.kind) {
        true => Part::of(function, &outcome::of(function, rules::paper(), case)),
        false => Part::NONE,
    })
}

/// Over the parts of all functions in turn.
pub fn digest_of(parts: Parts) -> u32 {
    parts.iter().fold(0x811C_9DC5, |digest, part| part.added_to(digest))
}

pub type Parts = [Part; Function::ALL.len()];

/// What a function's words do to the digest: each word w makes it d * 16777619 + w.
#[derive(Clone, Copy)]
pub struct Part {
    factor: u32,
    sum: u32,
}

impl Part {
    /// Of no words.
    const NONE: Part = Part { factor: 1, sum: 0 };

    /// Of the answer, the image where the function changes it, and the buffer.
    pub fn of(function: Function, outcome: &Outcome) -> Part {
        const FACTOR: u32 = 16_777_619;
        let image: &[u32] = if function.applies() { &outcome.image } else { &[] };
        let words = [&outcome.answer, &outcome.more[..], image, &outcome.buffer];
        words.into_iter().flatten().fold(Part::NONE, |Part { factor, sum }, word| Part {
            factor: factor.wrapping_mul(FACTOR),
            sum: sum.wrapping_mul(FACTOR).wrapping_add(*word),
        })
    }

    fn added_to(self, digest: u32) -> u32 {
        digest.wrapping_mul(self.factor).wrapping_add(self.sum)
    }
}

#[cfg(test)]
mod tests {
    use super::*;
    use crate::lists::CaseKind;
    use std::sync::LazyLock;

    static STORED: LazyLock<Vec<Case>> = LazyLock::new(stored_cases);

    fn stored_of(kind: CaseKind) -> impl Iterator<Item = &'static Case> {
        STORED.iter().filter(move |case| case.kind == kind)
    }

    fn verdict_and_position(function: Function, case: &Case) -> [u32; 2] {
        let answer = outcome::of(function, rules::paper(), case).answer;
        [answer[0], answer[1]]
    }

    /// Of a size to be kept in the repository.
    #[test]
    fn file_is_small() {
        assert!(crate_files().0.len() <= 1_700_000);
    }

    /// Only the plane range refuses it: seen where the length is read from fewer bits.
    #[test]
    fn planes_with_their_payload_are_there() {
        let mut list = vec![0; 68];
        list[0] = 0x40500010;
        let case = STORED.iter().find(|case| case.list == list);
        let answer = verdict_and_position(Function::Reader, case.expect("the case"));
        assert_eq!(answer, [19, 0]);
    }

    #[test]
    fn lengths_are_limited() {
        assert!(STORED.len() <= 65_536);
        for case in STORED.iter() {
            assert!(case.list.len() <= 8200 && case.arguments.len() <= 8200);
            assert!(case.image.words().len() <= 300);
            assert!(case.records_len <= 5000 && case.out_len <= 5000 && case.pci_len <= 8200);
            let Case { out_len, pci_len, arguments, .. } = case;
            assert!(match case.kind {
                CaseKind::List => arguments.is_empty(),
                CaseKind::Session => out_len + pci_len == 0,
                CaseKind::InMode => arguments.len() == 1 && *pci_len == 0,
            });
        }
    }

    /// Every case can be read back from the file's words.
    #[test]
    fn file_is_as_described() {
        let bytes = crate_files().0;
        let words: Vec<u32> =
            bytes.chunks_exact(4).map(|b| u32::from_le_bytes([b[0], b[1], b[2], b[3]])).collect();
        let mut at = 0;
        for case in STORED.iter() {
            let front = &words[at..at + 9];
            let lengths = [case.list.len() as u32, case.arguments.len() as u32];
            assert_eq!((front[0], &front[1..3]), (case.kind as u32, &lengths[..]));
            at += 9;
            assert_eq!(words[at..at + case.list.len()], case.list);
            at += case.list.len();
            assert_eq!(words[at..at + case.arguments.len()], case.arguments);
            at += case.arguments.len();
        }
        assert_eq!(at, words.len());
    }

    /// Most sessions have some lists, many are accepted, and many refused behind a list.
    #[test]
    fn sessions_are_of_all_kinds() {
        let given = |case: &Case| {
            let outcome = outcome::of(Function::Scenes, rules::paper(), case);
            (outcome.answer, outcome.more[0])
        };
        let all: Vec<_> = stored_of(CaseKind::Session).map(given).collect();
        let count = |is: fn(&([u32; 6], u32)) -> bool| all.iter().filter(|given| is(given)).count();
        assert!(count(|(answer, lists)| answer[0] == 0 && *lists > 2) > 100);
        assert!(count(|(answer, lists)| answer[0] != 0 && *lists > 1) > 150);
        assert!(count(|(answer, lists)| answer[0] == 20 && *lists > 0) > 80);
        assert!(count(|(answer, _)| answer[2] > 65_536) > 0);
        for pairs in [4096, 4097, 4098] {
            let has = |case: &Case| case.arguments.len() / 2 == pairs;
            assert!(stored_of(CaseKind::Session).any(has), "{pairs} pairs");
        }
    }

    /// In each mode accepted lists of every length next to which a buffer could end, and too long ones, in a
    /// mode over 3 too; and modes over 3 of each bit.
    #[test]
    fn modes_are_there() {
        let given = |case: &Case| {
            let verdict = verdict_and_position(Function::Normaliser, case)[0];
            (case.mode(), case.list.len(), verdict)
        };
        let all: Vec<_> = stored_of(CaseKind::InMode).map(given).collect();
        for mode in 0..4 {
            for words in [0, 63, 64, 65, 511, 512, 513, 4096] {
                assert!(all.contains(&(mode, words, 0)), "{words} words in mode {mode}");
            }
            assert!(all.contains(&(mode, 4097, 1)), "4097 words in mode {mode}");
        }
        assert!(all.contains(&(4, 4097, 21)));
        for mode in [0, 1, 2, 3, 4, 5, 255, 0x100, 0x80000003, 0xFFFFFFFF] {
            let count = all.iter().filter(|(of, ..)| *of == mode).count();
            assert!(count > 10, "mode {mode:X}");
        }
        for bit in 2..32 {
            let alone = |mode: u32| mode >> 2 << 2 == 1 << bit;
            assert!(all.iter().any(|(mode, ..)| alone(*mode)), "bit {bit} of a mode");
        }
    }

    #[test]
    fn every_undefined_bit_is_refused_for_itself() {
        let bits: Vec<&Case> =
            STORED.iter().filter(|case| case.class == "every undefined bit").collect();
        assert!(!bits.is_empty());
        assert!(bits.iter().all(|case| verdict_and_position(Function::Reader, case)[0] == 6));
    }

    /// From a list and from pairs.
    #[test]
    fn every_bit_is_told() {
        for function in [Function::Reader, Function::FromPci] {
            let of = |case| outcome::of(function, rules::paper(), case).answer;
            let answers: Vec<_> = stored_of(CaseKind::List).map(of).collect();
            for bit in 0..32 {
                assert!(answers.iter().any(|answer| answer[0] == 6 && answer[5] == bit));
            }
        }
    }

    /// Forms that are empty, short and as long as their list, with room on both sides of their length.
    #[test]
    fn form_lengths_are_there() {
        let lengths = |case: &Case| {
            let [verdict, list, .., form, _] =
                outcome::of(Function::Measure, rules::paper(), case).answer;
            (verdict == 0).then_some((list as usize, form as usize, case.out_len))
        };
        let all: Vec<_> = stored_of(CaseKind::List).filter_map(lengths).collect();
        for of_both in [(0, 0), (1, 0), (1, 1), (2, 0), (9, 9), (4096, 1), (4096, 4096)] {
            assert!(all.iter().any(|&(list, form, _)| (list, form) == of_both), "{of_both:?}");
        }
        for form in 1..=6 {
            for room in [0, form - 1, form, form + 1] {
                assert!(all.iter().any(|&(_, of, out)| (of, out) == (form, room)), "{form} {room}");
            }
        }
    }

    #[test]
    fn every_verdict_is_there() {
        let kinds = [CaseKind::List, CaseKind::Session, CaseKind::InMode];
        let all = kinds.map(|kind| kind.functions().map(move |function| (kind, function)));
        for (kind, function) in all.into_iter().flatten() {
            let of = |case| verdict_and_position(function, case)[0];
            let given: Vec<u32> = stored_of(kind).map(of).collect();
            for verdict in function.verdicts(kind) {
                let count = given.iter().filter(|given| **given == verdict).count();
                assert!(count >= 2, "{} gives {verdict} {count} times, {kind:?}", function.name());
            }
        }
    }
}
