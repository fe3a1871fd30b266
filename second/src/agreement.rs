//! The measure held against the normaliser, a session against the reader, and a list in a mode against
//! those that are the same in other modes.

use crate::lists::{Case, CaseKind, Image};
use crate::outcome::{self, prefilled, Function, Outcome};
use crate::rules::{put, Refusal, ANSWER_WORDS, NO_BIT};

/// The first thing in a case that isn't as another function gives it.
pub fn disagreement(case: &Case, run: impl FnMut(Function, &Case) -> Outcome) -> Option<String> {
    match case.kind {
        CaseKind::List => of_measure(case, run),
        CaseKind::Session => of_session(case, run),
        CaseKind::InMode => of_mode(case, run),
    }
}

/// Where the told words fit, the normaliser gives the same answer and writes as many; where they
/// don't, it gives 11.
fn of_measure(case: &Case, mut run: impl FnMut(Function, &Case) -> Outcome) -> Option<String> {
    let list_words = case.list.len();
    let told = run(Function::Measure, case).answer;
    let [verdict, .., words, _] = told;
    let words = words as usize;
    if words > list_words {
        return Some(format!("measure tells {words} words for a list of {list_words}"));
    }
    // Every form fits in a buffer of its list's length.
    let rooms = [case.out_len, list_words, words, words.saturating_sub(1)];
    let rooms = if verdict == 0 { &rooms[..] } else { &rooms[..1] };
    let mut forms = Vec::new();
    for &room in rooms {
        let normalised = run(Function::Normaliser, &Case { out_len: room, ..case.clone() });
        if let Some(fault) = fault(&normalised, told, room, list_words) {
            return Some(format!("measure tells {told:?}, normaliser with room {room}: {fault}"));
        }
        forms.extend((words <= room).then(|| normalised.buffer[..words].to_vec()));
    }
    let differ = forms.windows(2).any(|two| two[0] != two[1]);
    differ.then(|| "forms differ by the room".into())
}

/// What the normaliser gives with this room that isn't told.
fn fault(
    normalised: &Outcome,
    told: [u32; ANSWER_WORDS],
    room: usize,
    list_words: usize,
) -> Option<String> {
    let words = told[4] as usize;
    let too_small = Refusal::new(11, list_words).answer().numbers();
    let (expected, written) = if words <= room { (told, words) } else { (too_small, 0) };
    if normalised.answer != expected {
        return Some(format!("{:?}, expected {expected:?}", normalised.answer));
    }
    let kept = normalised.buffer[written..] == prefilled(room)[written..];
    (!kept).then(|| format!("changed a word behind the first {written}"))
}

/// A session gives what the reader does, called for one list after the other.
fn of_session(case: &Case, mut run: impl FnMut(Function, &Case) -> Outcome) -> Option<String> {
    let given = run(Function::Scenes, case);
    let expected = match called_singly(case, run) {
        Ok(expected) => expected,
        Err(fault) => return Some(fault),
    };
    if given.numbers() != expected.numbers() {
        let (given, expected) = (given.numbers(), expected.numbers());
        return Some(format!("session {given:?}, single calls {expected:?}"));
    }
    if given.image != expected.image {
        return Some("the session's image isn't that of single calls".into());
    }
    (given.buffer != expected.buffer).then(|| "the session's records aren't those of calls".into())
}

/// What single calls give together; or what one of them wrote that it shouldn't.
fn called_singly(
    case: &Case,
    mut run: impl FnMut(Function, &Case) -> Outcome,
) -> Result<Outcome, String> {
    const MOST_PAIRS: usize = 4096;
    let mut all = Outcome {
        answer: [0, 0, 0, 0, 0, NO_BIT],
        more: vec![0],
        image: case.image.words(),
        buffer: prefilled(case.records_len),
    };
    for (number, pair) in case.arguments.chunks_exact(2).enumerate() {
        let [start, length] = [pair[0] as usize, pair[1] as usize];
        if number >= MOST_PAIRS || start + length > case.list.len() {
            [all.answer[0], all.answer[1], all.answer[5]] = [20, 0, NO_BIT];
            break;
        }
        let single = Case {
            kind: CaseKind::List,
            list: case.list[start..start + length].to_vec(),
            arguments: Vec::new(),
            image: Image::Words(all.image.clone()),
            records_len: case.records_len - all.answer[4] as usize,
            ..*case
        };
        add_call(&mut all, run(Function::Reader, &single))
            .map_err(|fault| format!("call {number} {fault}"))?;
        if all.answer[0] != 0 {
            break;
        }
        all.more[0] += 1;
    }
    Ok(all)
}

/// Adds what a single call gave, with the buffer that was left for it.
fn add_call(all: &mut Outcome, call: Outcome) -> Result<(), String> {
    let (left, words) = (call.buffer.len(), call.answer[4] as usize);
    if words > left {
        return Err(format!("tells {words} words in a buffer of {left}"));
    }
    if call.buffer[words..] != prefilled(left)[words..] {
        return Err(format!("changed a word behind the first {words}"));
    }
    put(&mut all.buffer[all.answer[4] as usize..], &call.buffer[..words]);
    all.image = call.image;
    let [verdict, position, .., bit] = call.answer;
    [all.answer[0], all.answer[1], all.answer[5]] = [verdict, position, bit];
    for k in 2..=4 {
        all.answer[k] += call.answer[k];
    }
    Ok(())
}

/// A list in a mode gives what the words got from it give without a mode, and what they give swapped for
/// each mode. In a mode over 3 it is 21, and nothing changes.
fn of_mode(case: &Case, mut run: impl FnMut(Function, &Case) -> Outcome) -> Option<String> {
    let got: Vec<u32> = case.list.iter().map(|word| swapped(case.mode(), *word)).collect();
    let without_mode = Case { kind: CaseKind::List, arguments: Vec::new(), ..case.clone() };
    let mut others = vec![Case { list: got.clone(), ..without_mode }];
    for mode in 0..4 {
        let list = got.iter().map(|word| swapped(mode, *word)).collect();
        others.push(Case { list, arguments: vec![mode], ..case.clone() });
    }
    case.kind.functions().find_map(|function| {
        let given = run(function, case);
        if case.mode() > 3 {
            let refused = outcome::difference(function, &given, &in_mode_over_3(function, case));
            return refused.map(|difference| format!("in a mode over 3: {difference}"));
        }
        others.iter().find_map(|other| {
            let difference = outcome::difference(function, &given, &run(function, other))?;
            Some(format!("{difference} of the same words, {:?} {}", other.kind, other.mode()))
        })
    })
}

/// The word got in a mode, by shifts.
pub fn swapped(mode: u32, word: u32) -> u32 {
    match mode {
        1 => (word & 0x00FF00FF) << 8 | word >> 8 & 0x00FF00FF,
        2 => word.rotate_left(16),
        3 => swapped(1, swapped(2, word)),
        _ => word,
    }
}

/// 21, and all lent words as before.
pub fn in_mode_over_3(function: Function, case: &Case) -> Outcome {
    Outcome {
        answer: [21, 0, 0, 0, 0, NO_BIT],
        more: Vec::new(),
        image: case.image.words(),
        buffer: prefilled(function.buffer_len(case)),
    }
}

#[cfg(test)]
mod tests {
    use super::*;
    use crate::rules;

    /// Disagreements on N1, whose form has two words, with the outcomes changed.
    fn found(room: usize, change: impl Fn(Function, &mut Outcome)) -> Option<String> {
        let case = Case {
            class: "N1",
            kind: CaseKind::List,
            arguments: Vec::new(),
            list: vec![0x02000010, 0x02000020, 0x00000001, 0x02000020],
            image: Image::ZERO,
            records_len: 0,
            out_len: room,
            pci_len: 0,
        };
        disagreement(&case, |function, case| {
            let mut outcome = outcome::of(function, rules::paper(), case);
            change(function, &mut outcome);
            outcome
        })
    }

    #[test]
    fn rules_agree() {
        for room in 0..6 {
            assert_eq!(found(room, |_, _| {}), None);
        }
    }

    #[test]
    fn other_answers_are_found() {
        for k in 0..ANSWER_WORDS {
            for function in [Function::Measure, Function::Normaliser] {
                let change =
                    |of, outcome: &mut Outcome| outcome.answer[k] ^= (of == function) as u32;
                assert!(found(4, change).is_some(), "{k} of {}", function.name());
            }
        }
        assert!(found(4, |_, outcome| outcome.answer[4] += 3).is_some());
    }

    /// Disagreements on a session of three lists, with the outcomes changed.
    fn found_in_session(change: impl Fn(Function, &mut Outcome)) -> Option<String> {
        let case = Case {
            class: "session",
            kind: CaseKind::Session,
            list: vec![0x02000010, 0x00000001, 0x02000020],
            arguments: vec![0, 2, 1, 1, 1, 2],
            image: Image::ZERO,
            records_len: 14,
            out_len: 0,
            pci_len: 0,
        };
        disagreement(&case, |function, case| {
            let mut outcome = outcome::of(function, rules::paper(), case);
            change(function, &mut outcome);
            outcome
        })
    }

    #[test]
    fn other_sessions_are_found() {
        assert_eq!(found_in_session(|_, _| {}), None);
        for function in [Function::Reader, Function::Scenes] {
            for k in 0..ANSWER_WORDS {
                let change =
                    |of, outcome: &mut Outcome| outcome.answer[k] ^= (of == function) as u32;
                assert!(found_in_session(change).is_some(), "{k} of {}", function.name());
            }
            let image = |of, outcome: &mut Outcome| outcome.image[9] ^= (of == function) as u32;
            assert!(found_in_session(image).is_some());
            for k in 0..2 {
                let buffer =
                    |of, outcome: &mut Outcome| outcome.buffer[k] ^= (of == function) as u32;
                assert!(found_in_session(buffer).is_some());
            }
        }
        let lists = |_, outcome: &mut Outcome| outcome.more.iter_mut().for_each(|n| *n += 1);
        assert!(found_in_session(lists).is_some());
    }

    /// Disagreements on a list in a mode, with the outcomes changed.
    fn found_in_mode(mode: u32, change: impl Fn(Function, &Case, &mut Outcome)) -> Option<String> {
        let case = Case {
            class: "a list in a mode",
            kind: CaseKind::InMode,
            list: [0x02000010, 0x00000001].map(|word| swapped(mode, word)).to_vec(),
            arguments: vec![mode],
            image: Image::ZERO,
            records_len: 6,
            out_len: 5,
            pci_len: 0,
        };
        disagreement(&case, |function, case| {
            let mut outcome = outcome::of(function, rules::paper(), case);
            change(function, case, &mut outcome);
            outcome
        })
    }

    #[test]
    fn other_modes_are_found() {
        for mode in 0..6 {
            assert_eq!(found_in_mode(mode, |_, _, _| {}), None);
            for function in [Function::Reader, Function::Normaliser] {
                let here = move |of, case: &Case| of == function && case.mode() == mode;
                let found = |change: fn(&mut Outcome)| {
                    found_in_mode(mode, |of, case, outcome| {
                        if here(of, case) && case.kind == CaseKind::InMode {
                            change(outcome);
                        }
                    })
                };
                assert!(found(|outcome| outcome.answer[0] ^= 1).is_some());
                assert!(found(|outcome| outcome.answer[5] ^= 1).is_some());
                assert!(found(|outcome| outcome.image[9] ^= 1).is_some());
                assert!(found(|outcome| outcome.buffer[4] ^= 1).is_some());
            }
        }
    }

    #[test]
    fn other_words_are_found() {
        let exact_alone = |_, outcome: &mut Outcome| {
            if let [first, _] = &mut outcome.buffer[..] {
                *first ^= 1;
            }
        };
        assert!(found(4, exact_alone).is_some());
        let last =
            |_, outcome: &mut Outcome| outcome.buffer.iter_mut().skip(3).for_each(|w| *w = 0);
        assert!(found(4, last).is_some());
    }
}
