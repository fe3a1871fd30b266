//! All the changes: of each part of the rules, of orders, of the clashes' numbers, of single page
//! thresholds, of sessions, of the words got in a mode, of answers and lent words, of the tool's runs, of books.

use super::{books as other_books, clashes, effects, modes, orders, runs, scenes, thresholds};
use crate::books;
use crate::lists::{Case, CaseKind};
use crate::outcome::{self, Function, Outcome};
use crate::rules::{self, Rules, Run, Terms};
use crate::runs::RunCase;
use crate::vary::Vary;

pub struct Mutant {
    pub name: String,
    change: Change,
    /// The function that the change is in, and the cases, where they are one alone.
    function: Option<Function>,
    kind: Option<CaseKind>,
    pub area: Area,
}

/// What a change can show in.
#[derive(Clone, Copy, Debug, PartialEq, Eq)]
pub enum Area {
    /// Lists, and through them the listing and the tool.
    Lists,
    /// What only the tool does.
    Tool,
    Books,
}

enum Change {
    Rules(Box<Rules>),
    Outcome(Box<OutcomeChange>),
    Listing(Box<ListingChange>),
    Run(Box<RunChange>),
    Book(Box<BookChange>),
}

/// What the documents give for a case, changed.
pub type OutcomeChange = dyn Fn(Function, &Case, Outcome) -> Outcome + Sync;

/// The text for an input, made otherwise.
pub type ListingChange = dyn Fn(&[u8]) -> String + Sync;

/// What the tool's paper gives for a run, changed.
pub type RunChange = dyn Fn(&RunCase, Run) -> Run + Sync;

/// What the documents give for a case of books, changed.
pub type BookChange = dyn Fn(&books::Case, books::Outcome) -> books::Outcome + Sync;

impl Mutant {
    pub fn of_rules(name: String, rules: Rules) -> Mutant {
        let function = changed_alone(&rules);
        let area = area_of(&rules);
        let change = Change::Rules(Box::new(rules));
        Mutant { name, change, function, kind: None, area }
    }

    /// Of what all functions give for a list; sessions and lists in a mode are changed by themselves.
    pub fn of_outcome(
        name: String,
        change: impl Fn(Function, &Case, Outcome) -> Outcome + Sync + 'static,
    ) -> Mutant {
        let (change, kind) = (Change::Outcome(Box::new(change)), Some(CaseKind::List));
        Mutant { name, change, function: None, kind, area: Area::Lists }
    }

    /// Of what one function gives for a list, or for a session.
    pub fn of_outcome_of(
        function: Function,
        name: String,
        change: impl Fn(&Case, Outcome) -> Outcome + Sync + 'static,
    ) -> Mutant {
        let kind = match function {
            Function::Scenes => CaseKind::Session,
            _ => CaseKind::List,
        };
        Mutant::of_outcome_for(kind, function, name, change)
    }

    pub fn of_outcome_for(
        kind: CaseKind,
        function: Function,
        name: String,
        change: impl Fn(&Case, Outcome) -> Outcome + Sync + 'static,
    ) -> Mutant {
        let change = move |_, case: &Case, outcome| change(case, outcome);
        let change = Change::Outcome(Box::new(change));
        Mutant { name, change, function: Some(function), kind: Some(kind), area: Area::Lists }
    }

    pub fn of_listing(name: &str, change: impl Fn(&[u8]) -> String + Sync + 'static) -> Mutant {
        let change = Change::Listing(Box::new(change));
        Mutant { name: name.into(), change, function: None, kind: None, area: Area::Lists }
    }

    pub fn of_run(name: String, change: impl Fn(&RunCase, Run) -> Run + Sync + 'static) -> Mutant {
        let change = Change::Run(Box::new(change));
        Mutant { name, change, function: None, kind: None, area: Area::Tool }
    }

    pub fn of_book(
        name: String,
        change: impl Fn(&books::Case, books::Outcome) -> books::Outcome + Sync + 'static,
    ) -> Mutant {
        let change = Change::Book(Box::new(change));
        Mutant { name, change, function: None, kind: None, area: Area::Books }
    }

    /// The change may be in what the function gives for such a case.
    pub fn concerns(&self, function: Function, kind: CaseKind) -> bool {
        let of_function = self.function.is_none_or(|alone| alone == function);
        let of_kind = self.kind.is_none_or(|alone| alone == kind);
        of_function && of_kind && self.area == Area::Lists
    }

    pub fn run(&self, function: Function, case: &Case) -> Outcome {
        let paper = rules::paper();
        match &self.change {
            Change::Rules(rules) => outcome::of(function, rules, case),
            Change::Outcome(change) if self.concerns(function, case.kind) => {
                change(function, case, outcome::of(function, paper, case))
            }
            _ => outcome::of(function, paper, case),
        }
    }

    pub fn listing(&self, input: &[u8]) -> String {
        match &self.change {
            Change::Rules(rules) => rules.listing(input),
            Change::Listing(change) => change(input),
            _ => rules::paper().listing(input),
        }
    }

    /// What the tool says and writes; `expected` is by its paper.
    pub fn tool_run(&self, case: &RunCase, expected: &Run) -> Run {
        match &self.change {
            Change::Rules(rules) => case.by(rules),
            Change::Run(change) => change(case, expected.clone()),
            _ => expected.clone(),
        }
    }

    /// What is given for a case of books; `expected` is by the documents.
    pub fn book(&self, case: &books::Case, expected: &books::Outcome) -> books::Outcome {
        match &self.change {
            Change::Rules(rules) => books::outcome(rules, case),
            Change::Book(change) => change(case, expected.clone()),
            _ => expected.clone(),
        }
    }

    /// The change is in what only the listing program does.
    pub fn is_of_listing(&self) -> bool {
        match &self.change {
            Change::Rules(rules) => rules.listing != rules::paper().listing,
            Change::Listing(_) => true,
            _ => false,
        }
    }
}

fn area_of(changed: &Rules) -> Area {
    if (Rules { tool: changed.tool.clone(), ..Rules::paper() }) == *changed {
        Area::Tool
    } else if (Rules { books: changed.books.clone(), ..Rules::paper() }) == *changed {
        Area::Books
    } else {
        Area::Lists
    }
}

fn changed_alone(changed: &Rules) -> Option<Function> {
    let (paper, other) = (|| Rules::paper(), || changed.clone());
    let of_one = [
        (Function::Normaliser, Rules { form: other().form, ..paper() }),
        (Function::ToPci, Rules { to_pci: other().to_pci, ..paper() }),
        (Function::FromPci, Rules { from_pci: other().from_pci, ..paper() }),
        (Function::Measure, Rules { measure: other().measure, ..paper() }),
        (Function::Scenes, Rules { scenes: other().scenes, ..paper() }),
    ];
    of_one.into_iter().find(|(_, rules)| rules == changed).map(|(function, _)| function)
}

pub fn all() -> Vec<Mutant> {
    let everywhere = Terms::paper().variants().into_iter();
    let everywhere =
        everywhere.map(|(name, terms)| (format!("everywhere: {name}"), Rules::with(&terms)));
    let rules = Rules::paper().variants().into_iter().chain(everywhere);
    let mut all: Vec<Mutant> = rules.map(|(name, rules)| Mutant::of_rules(name, rules)).collect();
    all.extend(orders::all());
    all.extend(clashes::all());
    all.extend(thresholds::all());
    all.extend(scenes::all());
    all.extend(modes::all());
    all.extend(effects::all());
    all.extend(runs::all());
    all.extend(other_books::all());
    all
}

#[cfg(test)]
mod tests {
    use super::*;
    use std::collections::HashSet;

    /// So that a name given with a reason means one change.
    #[test]
    fn names_differ() {
        let mut names = HashSet::new();
        assert!(all().into_iter().all(|mutant| names.insert(mutant.name)));
    }

    #[test]
    fn every_variant_of_the_rules_differs_from_the_paper() {
        for (name, rules) in Rules::paper().variants() {
            assert!(rules != *rules::paper(), "{name}");
        }
    }
}
