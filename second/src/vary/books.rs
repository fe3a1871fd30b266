//! Changes of the refusals of books.

use super::language::other_comparisons;
use super::{one_changed, one_left_out, within, Variants, Vary};
use crate::rules::{BookCheck, BookChecks, BookFault, BookTest, BookValue};

/// Each refusal changed, left out, and at each other place.
impl Vary for BookChecks {
    fn variants(&self) -> Variants<Self> {
        let mut all = one_changed(&self.0);
        all.extend(one_left_out(&self.0));
        all.extend(one_moved(&self.0));
        all.into_iter().map(|(name, checks)| (name, BookChecks(checks))).collect()
    }
}

/// Of neighbours only the first is moved behind the second.
fn one_moved(checks: &[BookCheck]) -> Variants<Vec<BookCheck>> {
    let mut all = Vec::new();
    for from in 0..checks.len() {
        for to in (0..checks.len()).filter(|&to| to > from || to + 1 < from) {
            let mut moved = checks.to_vec();
            let check = moved.remove(from);
            moved.insert(to, check);
            let side = if from < to { "behind" } else { "ahead of" };
            all.push((format!("{} {side} {}", checks[from].verdict, checks[to].verdict), moved));
        }
    }
    all
}

impl Vary for BookCheck {
    fn variants(&self) -> Variants<Self> {
        let BookCheck { verdict, faults } = self;
        let faults_of = || faults.clone();
        let mut all =
            within("verdict", verdict, |verdict| BookCheck { verdict, faults: faults_of() });
        let changed = one_changed(faults).into_iter().chain(one_left_out(faults));
        all.extend(changed.map(|(name, faults)| (name, BookCheck { faults, ..*self })));
        all
    }

    fn label(&self, _: usize) -> String {
        format!("verdict {}", self.verdict)
    }
}

impl Vary for BookFault {
    fn variants(&self) -> Variants<Self> {
        match self {
            BookFault::Whole(test) => within("test", test, BookFault::Whole),
            BookFault::Entry(entries, test) => {
                let fault = |entries| BookFault::Entry(entries, test.clone());
                let mut all = within("entries", entries, fault);
                all.extend(within("test", test, |test| BookFault::Entry(*entries, test)));
                all
            }
        }
    }

    fn label(&self, number: usize) -> String {
        format!("fault {number}")
    }
}

impl Vary for BookTest {
    fn variants(&self) -> Variants<Self> {
        let BookTest { left, comparison, right } = self;
        let mut all = within("left", left, |left| BookTest { left, ..self.clone() });
        all.extend(match right {
            BookValue::Number(number) => within("right", number, |number| BookTest {
                right: BookValue::Number(number),
                ..self.clone()
            }),
            BookValue::Quantity(quantity) => within("right", quantity, |quantity| BookTest {
                right: BookValue::Quantity(quantity),
                ..self.clone()
            }),
        });
        for other in other_comparisons(*comparison, *right == BookValue::Number(0)) {
            let name = format!("{other:?}, not {comparison:?}");
            all.push((name, BookTest { comparison: other, ..self.clone() }));
        }
        all
    }
}
