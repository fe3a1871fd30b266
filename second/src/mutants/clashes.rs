//! Clashes told by other numbers.

use super::changes::Mutant;
use super::orders::with_each_command;
use crate::rules::{self, Check};

/// One number for all of them, which is no longer given.
const OLD_NUMBER: u32 = 8;
const NUMBERS: [u32; 5] = [15, 16, 17, 18, 19];

pub fn all() -> Vec<Mutant> {
    let mut all = vec![mutant("all told as 8".into(), |_| OLD_NUMBER)];
    for a in NUMBERS {
        all.push(mutant(format!("{a} told as 8"), told_as(a, OLD_NUMBER)));
        // The next numbers are tried elsewhere.
        for b in NUMBERS.into_iter().filter(|b| a.abs_diff(*b) > 1) {
            all.push(mutant(format!("{a} told as {b}"), told_as(a, b)));
        }
        for b in NUMBERS.into_iter().filter(|b| a < *b) {
            all.push(mutant(format!("{a} and {b} swapped"), swapped(a, b)));
        }
    }
    all
}

fn told_as(number: u32, other: u32) -> impl Fn(u32) -> u32 {
    move |verdict| if verdict == number { other } else { verdict }
}

fn swapped(a: u32, b: u32) -> impl Fn(u32) -> u32 {
    move |verdict| if verdict == b { a } else { told_as(a, b)(verdict) }
}

/// The clashes told by what `told` makes of their numbers.
fn mutant(name: String, told: impl Fn(u32) -> u32) -> Mutant {
    let check = |check: &Check| match NUMBERS.contains(&check.verdict) {
        true => Check { verdict: told(check.verdict), ..check.clone() },
        false => check.clone(),
    };
    let checks = rules::paper().each_command.iter().map(check).collect();
    Mutant::of_rules(format!("clashes: {name}"), with_each_command(checks))
}
