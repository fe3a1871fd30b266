//! The page minimum held against another number for one maximum of one bank, in a list and in pairs.

use super::changes::Mutant;
use crate::outcome::{self, Function};
use crate::rules::{self, FaultKind, Rules, Terms, Test};

/// The banks with the largest maximum of each.
const LIMITS: [(u32, u32); 3] = [(0, 15), (1, 11), (2, 6)];

pub fn all() -> Vec<Mutant> {
    let mut all = Vec::new();
    for function in [Function::Reader, Function::FromPci] {
        for (bank, limit) in LIMITS {
            for maximum in 0..=limit {
                // 0 refuses every minimum but zero with 0 as with 1 added; no minimum is over 15.
                let added: &[u32] = match maximum {
                    0 => &[2],
                    15 => &[0],
                    _ => &[0, 2],
                };
                all.extend(added.iter().map(|added| mutant(function, bank, maximum, *added)));
            }
        }
    }
    all
}

fn mutant(function: Function, bank: u32, maximum: u32, added: u32) -> Mutant {
    let name = format!(
        "{}, thresholds: maximum {maximum} of bank {bank}: plus {added}, not 1",
        function.name()
    );
    let rules = with_other_rule(bank, maximum, added);
    Mutant::of_outcome_of(function, name, move |case, _| outcome::of(function, &rules, case))
}

/// The rules with another number added to this maximum of this bank.
fn with_other_rule(bank: u32, maximum: u32, added: u32) -> Rules {
    let terms = Terms::paper();
    let minimum = terms.page_minimum;
    let here = terms.bank.is(bank).and(terms.page_maximum.is(maximum));
    let other = minimum.is_not(0).and(minimum.at_least(terms.page_maximum.plus_number(added)));
    let mut rules = rules::paper().clone();
    let faults = rules.table.0.iter_mut().flat_map(|row| &mut row.faults);
    for fault in faults.filter(|fault| fault.kind == FaultKind::PageMinimum) {
        let elsewhere = here.clone().not().and(fault.test.clone());
        fault.test = either(here.clone().and(other.clone()), elsewhere);
    }
    rules
}

fn either(a: Test, b: Test) -> Test {
    a.not().and(b.not()).not()
}
