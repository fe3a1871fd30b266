//! Sessions by rules that aren't one change away: other tests of a pair, pairs that are left out.

use super::changes::Mutant;
use crate::lists::Case;
use crate::outcome::{self, Function, Outcome};
use crate::rules::{self, Comparison, Quantity, Rules, Test, Value};

pub fn all() -> Vec<Mutant> {
    let mut all = other_tests();
    all.extend(other_sums());
    all.extend(narrow_counts());
    for (name, change) in [
        ("pairs after the 4,096th ignored", ignored_pairs as fn(&Case, Outcome) -> Outcome),
        ("an outside pair cut at the buffer's end", cut_pairs),
        ("an empty list with any image", empty_with_any_image),
        ("empty lists not counted among the 4,096", empty_not_counted),
    ] {
        let name = format!("scenes: {name}");
        all.push(Mutant::of_outcome_of(Function::Scenes, name, change));
    }
    all
}

fn with_outside(name: &str, test: Test) -> Mutant {
    let mut rules = Rules::paper();
    rules.scenes.outside.test = test;
    Mutant::of_rules(format!("scenes: outside: {name}"), rules)
}

fn either(a: Test, b: Test) -> Test {
    a.not().and(b.not()).not()
}

/// Empty lists at the edge and outside, start and length each by itself.
fn other_tests() -> Vec<Mutant> {
    use Quantity::{BufferWords, ListStart, ListWords};
    let paper = || rules::paper().scenes.outside.test.clone();
    let at_end = Test::Compare(
        Value::Quantity(ListStart),
        Comparison::AtLeast,
        Value::Quantity(BufferWords),
    );
    let over_start = ListStart.more_than(BufferWords);
    let over_length = ListWords.more_than(BufferWords);
    vec![
        with_outside("a start at the end too", either(paper(), at_end)),
        with_outside("not an empty list", paper().and(ListWords.is_not(0))),
        with_outside("a list of the whole buffer too", either(paper(), ListWords.is_all())),
        with_outside("start and length each", either(over_start, over_length)),
    ]
}

impl Quantity {
    /// The whole buffer's words, which aren't none.
    fn is_all(self) -> Test {
        let all = Value::Quantity(Quantity::BufferWords);
        Test::Compare(Value::Quantity(self), Comparison::Equal, all).and(self.is_not(0))
    }
}

/// The sum compared in fewer bits, or as a signed number.
fn other_sums() -> Vec<Mutant> {
    let mut all = Vec::new();
    for bits in [16, 30, 31] {
        let name = format!("scenes: outside: sum of {bits} bits");
        all.push(Mutant::of_outcome_of(Function::Scenes, name, move |case, outcome| {
            let fits = |sum: u64| sum & ((1 << bits) - 1) <= case.list.len() as u64;
            without_20(case, outcome, fits)
        }));
    }
    let name = "scenes: outside: signed sum".into();
    all.push(Mutant::of_outcome_of(Function::Scenes, name, |case, outcome| {
        without_20(case, outcome, |sum| (sum as u32 as i32) <= case.list.len() as i32)
    }));
    all
}

/// Commands and lists in too few bits for the largest session.
fn narrow_counts() -> Vec<Mutant> {
    let of_bits = |name: String, change: fn(&mut Outcome, u32), bits: u32| {
        Mutant::of_outcome_of(Function::Scenes, name, move |_, mut outcome| {
            change(&mut outcome, (1 << bits) - 1);
            outcome
        })
    };
    let mut all = Vec::new();
    for bits in [12, 14, 16] {
        let name = format!("scenes: commands in {bits} bits");
        all.push(of_bits(name, |outcome, mask| outcome.answer[2] &= mask, bits));
    }
    for bits in [8, 12] {
        let name = format!("scenes: lists in {bits} bits");
        all.push(of_bits(name, |outcome, mask| outcome.more[0] &= mask, bits));
    }
    all
}

/// The pair at which a session stopped with 20, if it did.
fn refused_pair(case: &Case, outcome: &Outcome) -> Option<[u32; 2]> {
    let number = outcome.more[0] as usize;
    let pair = case.arguments.chunks_exact(2).nth(number)?;
    (outcome.answer[0] == 20 && number < 4096).then_some([pair[0], pair[1]])
}

/// A pair outside is read as far as it is inside, where its sum is taken for one that fits.
fn without_20(case: &Case, outcome: Outcome, fits: impl Fn(u64) -> bool + Copy) -> Outcome {
    match refused_pair(case, &outcome) {
        Some([start, length]) if fits(u64::from(start) + u64::from(length)) => {
            let cut = with_cut_pair(case, outcome.more[0] as usize);
            without_20(&cut, outcome::of(Function::Scenes, rules::paper(), &cut), fits)
        }
        _ => outcome,
    }
}

fn with_cut_pair(case: &Case, number: usize) -> Case {
    let mut cut = case.clone();
    let words = case.list.len() as u32;
    let pair = &mut cut.arguments[2 * number..2 * number + 2];
    pair[0] = pair[0].min(words);
    pair[1] = pair[1].min(words - pair[0]);
    cut
}

fn cut_pairs(case: &Case, outcome: Outcome) -> Outcome {
    without_20(case, outcome, |_| true)
}

/// The first 4,096 pairs are the table.
fn ignored_pairs(case: &Case, outcome: Outcome) -> Outcome {
    match outcome.answer[0] == 20 && outcome.more[0] == 4096 {
        true => {
            let arguments = case.arguments[..2 * 4096].to_vec();
            let first = Case { arguments, ..case.clone() };
            outcome::of(Function::Scenes, rules::paper(), &first)
        }
        false => outcome,
    }
}

/// 2 only for a list that has words: empty ones before it are accepted.
fn empty_with_any_image(case: &Case, mut outcome: Outcome) -> Outcome {
    if outcome.answer[0] != 2 {
        return outcome;
    }
    let pairs = case.arguments.chunks_exact(2);
    let inside = |pair: &[u32]| u64::from(pair[0]) + u64::from(pair[1]) <= case.list.len() as u64;
    let empty = pairs.clone().take_while(|pair| pair[1] == 0 && inside(pair)).count();
    outcome.more[0] = empty as u32;
    outcome.answer[0] = match pairs.clone().nth(empty) {
        None => 0,
        Some(pair) if inside(pair) => 2,
        Some(_) => 20,
    };
    outcome
}

/// Empty lists are no pairs of the 4,096.
fn empty_not_counted(case: &Case, outcome: Outcome) -> Outcome {
    if outcome.answer[0] != 20 || outcome.more[0] != 4096 {
        return outcome;
    }
    let mut rules = Rules::paper();
    let empty = case.arguments.chunks_exact(2).take(4096).filter(|pair| pair[1] == 0).count();
    rules.scenes.too_many.test = Quantity::PairNumber.over(4096 + empty as u32);
    outcome::of(Function::Scenes, &rules, case)
}
