//! The reader of books held against the writer.

use super::scenes::{at, NUMBER};
use super::{Case, Function, Outcome};

/// The first thing that the one gives for what the other gave, and shouldn't.
pub fn disagreement(case: &Case, mut run: impl FnMut(&Case) -> Outcome) -> Option<String> {
    let given = run(case);
    match (case.function, given.verdict()) {
        (Function::WriteBook, 0) => of_written(case, &given, run),
        // A book without a fault, whether the scene is in it or not.
        (Function::FindScene, 0 | 25) => of_good_book(case, run),
        _ => None,
    }
}

/// Every scene reads back word for word, and other numbers are 25.
fn of_written(
    case: &Case,
    given: &Outcome,
    mut run: impl FnMut(&Case) -> Outcome,
) -> Option<String> {
    let Some(book) = given.words.get(..given.numbers[1] as usize) else {
        return Some("more words told than the buffer has".into());
    };
    let mut find = |number| run(&Case::reading(case.class, book.to_vec(), number));
    let rows: Vec<&[u32]> = case.arguments.chunks_exact(3).collect();
    for row in &rows {
        let [start, length] = [row[1] as usize, row[2] as usize];
        let body = &case.words[start..start + length];
        let found = find(row[0]);
        if found.verdict() != 0 || found.words != body {
            return Some(format!("scene {:X} doesn't read back: {:?}", row[0], found.numbers));
        }
    }
    let beside = rows.iter().flat_map(|row| [row[0].wrapping_sub(1), row[0].wrapping_add(1)]);
    let others =
        beside.chain([0, u32::MAX]).filter(|other| rows.iter().all(|row| row[0] != *other));
    others.into_iter().find_map(|other| {
        let found = find(other);
        let expected = [25, 0, 0, 25, 0];
        (found.numbers != expected).then(|| format!("no scene {other:X}: {:?}", found.numbers))
    })
}

/// Its contents are a table over itself, of which it is the book.
fn of_good_book(case: &Case, mut run: impl FnMut(&Case) -> Outcome) -> Option<String> {
    let book = &case.words;
    let table = book[at(0, NUMBER)..at(book[0] as usize, NUMBER)].to_vec();
    let write = |room| Case::writing(case.class, table.clone(), book.clone(), room);
    let written = run(&write(book.len()));
    if written.numbers != [0, book.len() as u32] || written.words != *book {
        return Some(format!("not written again: {:?}", written.numbers));
    }
    let refused = run(&write(book.len() - 1));
    (refused.numbers != [11, 0]).then(|| format!("written in less room: {:?}", refused.numbers))
}

#[cfg(test)]
mod tests {
    use super::super::{book_of, outcome};
    use super::*;
    use crate::rules;

    fn reading() -> Case {
        let book = book_of(&[(7, vec![0xA, 0xB]), (9, vec![0xC])]);
        Case::reading("two scenes", book, 7)
    }

    fn writing() -> Case {
        Case::writing("two scenes", vec![7, 1, 2, 9, 0, 1], vec![0xC, 0xA, 0xB], 12)
    }

    fn found(case: &Case, change: impl Fn(&Case, &mut Outcome)) -> Option<String> {
        disagreement(case, |case| {
            let mut outcome = outcome(rules::paper(), case);
            change(case, &mut outcome);
            outcome
        })
    }

    #[test]
    fn rules_agree() {
        assert_eq!(found(&reading(), |_, _| {}), None);
        assert_eq!(found(&writing(), |_, _| {}), None);
    }

    /// Of the function that isn't the case's own.
    #[test]
    fn other_answers_are_found() {
        let cases = [(writing(), Function::FindScene), (reading(), Function::WriteBook)];
        for (case, other) in cases {
            let verdict = |case: &Case, outcome: &mut Outcome| {
                outcome.numbers[0] += u32::from(case.function == other);
            };
            let word = |case: &Case, outcome: &mut Outcome| {
                let changed = u32::from(case.function == other);
                outcome.words.iter_mut().take(1).for_each(|word| *word ^= changed);
            };
            assert!(found(&case, verdict).is_some() && found(&case, word).is_some());
        }
        let longer = |_: &Case, outcome: &mut Outcome| outcome.numbers[1] += 1;
        assert!(found(&writing(), longer).is_some() && found(&reading(), longer).is_some());
    }
}
