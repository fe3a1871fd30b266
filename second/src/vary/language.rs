//! Changes of fields, masks, values and tests.

use super::{within, Variants, Vary};
use crate::rules::{Comparison, Field, Mask, Set, Test, Value};

/// Each bit left out, each other first or last bit, all bits moved by one, another word.
impl Vary for Field {
    fn variants(&self) -> Variants<Self> {
        let Field { word, low, mask } = *self;
        let high = low + 31 - mask.leading_zeros();
        let mut all = Vec::new();
        for bit in low..high {
            let mask = mask & !(1 << (bit - low));
            all.push((format!("without bit {bit}"), Field { mask, ..*self }));
        }
        let mut ranges: Vec<(u32, u32)> = (low..32).map(|high| (high, low)).collect();
        ranges.extend((0..=high).map(|low| (high, low)));
        ranges.extend([(high + 1, low + 1), (high.wrapping_sub(1), low.wrapping_sub(1))]);
        for (other_high, other_low) in ranges {
            if other_high < 32 && other_low < 32 && (other_high, other_low) != (high, low) {
                let name = format!("bits {other_high}..{other_low}, not {high}..{low}");
                all.push((name, Field::bits(word, other_high, other_low)));
            }
        }
        for (name, word) in word.variants() {
            all.push((format!("word {name}"), Field { word, ..*self }));
        }
        all
    }
}

/// Each bit flipped, and all of them.
impl Vary for Mask {
    fn variants(&self) -> Variants<Self> {
        let mut all = Vec::new();
        for bit in 0..self.width {
            let bits = self.bits ^ 1 << bit;
            let name = if bits >> bit & 1 == 1 { "with" } else { "without" };
            all.push((format!("{name} bit {bit}"), Mask { bits, ..*self }));
        }
        if self.width > 1 {
            let every = u32::MAX >> (32 - self.width);
            all.push(("complement".into(), Mask { bits: self.bits ^ every, ..*self }));
        }
        all
    }
}

/// Each member left out, each other number added.
impl Vary for Set {
    fn variants(&self) -> Variants<Self> {
        let change = |number: u32| {
            let mut members = self.members.clone();
            if self.has(number) {
                members.retain(|&member| member != number);
                return (format!("without {number:X}"), Set { members, ..*self });
            }
            members.push(number);
            (format!("with {number:X}"), Set { members, ..*self })
        };
        (0..self.below).map(change).collect()
    }
}

impl Vary for Value {
    fn variants(&self) -> Variants<Self> {
        match self {
            Value::Number(number) => within("number", number, Value::Number),
            Value::Field(field) => within("field", field, Value::Field),
            Value::Sum(a, b, mask) => {
                let mut all = within("first", a, |a| Value::Sum(a, *b, *mask));
                all.extend(within("second", b, |b| Value::Sum(*a, b, *mask)));
                all.extend(within("sum", mask, |mask| Value::Sum(*a, *b, mask)));
                all.push(("first alone".into(), Value::Field(*a)));
                all.push(("second alone".into(), Value::Field(*b)));
                all
            }
            Value::Plus(field, number, mask) => {
                let mut all = within("field", field, |field| Value::Plus(field, *number, *mask));
                all.extend(within("added", number, |number| Value::Plus(*field, number, *mask)));
                all.extend(within("sum", mask, |mask| Value::Plus(*field, *number, mask)));
                all.push(("field doubled".into(), Value::Sum(*field, *field, *mask)));
                all.push(("number alone".into(), Value::Number(*number)));
                all
            }
            Value::At(field, numbers) => numbers_by_field(field, numbers),
            Value::Bits { word, key, masks } => bits_by_field(*word, key, masks),
            Value::Quantity(quantity) => within("quantity", quantity, Value::Quantity),
        }
    }
}

fn numbers_by_field(field: &Field, numbers: &[u32]) -> Variants<Value> {
    let mut all = within("chosen by", field, |field| Value::At(field, numbers.to_vec()));
    for k in 0..numbers.len() {
        all.extend(within(&format!("for {k}"), &numbers[k], |number| {
            let mut numbers = numbers.to_vec();
            numbers[k] = number;
            Value::At(*field, numbers)
        }));
        if k > 0 {
            let mut swapped = numbers.to_vec();
            swapped.swap(k - 1, k);
            all.push((format!("{} and {k} swapped", k - 1), Value::At(*field, swapped)));
        }
    }
    all
}

fn bits_by_field(word: usize, key: &Field, masks: &[(Vec<u32>, Mask)]) -> Variants<Value> {
    let value =
        |word, key, masks: &[(Vec<u32>, Mask)]| Value::Bits { word, key, masks: masks.to_vec() };
    let mut all = within("chosen by", key, |key| value(word, key, masks));
    all.extend(within("word", &word, |word| value(word, *key, masks)));
    for (k, (values, mask)) in masks.iter().enumerate() {
        all.extend(within(&format!("for {values:?}"), mask, |mask| {
            let mut masks = masks.to_vec();
            masks[k].1 = mask;
            value(word, *key, &masks)
        }));
    }
    all
}

/// Every other comparison. With zero on the right, which nothing is below, those that say the same
/// are left out.
pub fn other_comparisons(given: Comparison, with_zero: bool) -> Vec<Comparison> {
    use Comparison::*;
    let all: &[Comparison] = match with_zero {
        true => &[Equal, NotEqual, Always, Never],
        false => &[Below, AtMost, Equal, NotEqual, AtLeast, Over, Always, Never],
    };
    all.iter().copied().filter(|other| *other != given).collect()
}

impl Vary for Test {
    fn variants(&self) -> Variants<Self> {
        match self {
            Test::Compare(a, comparison, b) => compare_variants(a, *comparison, b),
            Test::OneOf(field, set) => {
                let mut all = within("field", field, |field| Test::OneOf(field, set.clone()));
                all.extend(within("set", set, |set| Test::OneOf(*field, set)));
                all.push(("negated".into(), self.clone().not()));
                all.push(("always".into(), constant(Comparison::Always)));
                all.push(("never".into(), constant(Comparison::Never)));
                all
            }
            Test::Both(a, b) => {
                let mut all = within("first", &**a, |a| a.and((**b).clone()));
                all.extend(within("second", &**b, |b| (**a).clone().and(b)));
                all.push(("negated".into(), self.clone().not()));
                let neither = (**a).clone().not().and((**b).clone().not());
                all.push(("either".into(), neither.not()));
                all
            }
            Test::Not(test) => within("not", &**test, Test::not),
        }
    }
}

fn constant(comparison: Comparison) -> Test {
    Test::Compare(Value::Number(0), comparison, Value::Number(0))
}

fn compare_variants(a: &Value, comparison: Comparison, b: &Value) -> Variants<Test> {
    let mut all = within("left", a, |a| Test::Compare(a, comparison, b.clone()));
    all.extend(within("right", b, |b| Test::Compare(a.clone(), comparison, b)));
    for other in other_comparisons(comparison, *b == Value::Number(0)) {
        let name = format!("{other:?}, not {comparison:?}");
        all.push((name, Test::Compare(a.clone(), other, b.clone())));
    }
    all
}
