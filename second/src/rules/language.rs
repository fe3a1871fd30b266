//! The language in which `document` states the rules: fields of words, values, tests.

use crate::vary::choices;

/// Bits of a word of a command: `mask` counts from bit `low`.
#[derive(Clone, Copy, Debug, PartialEq, Eq)]
pub struct Field {
    pub word: usize,
    pub low: u32,
    pub mask: u32,
}

impl Field {
    /// Bits `high` to `low` of a word, as the guide writes them.
    pub fn bits(word: usize, high: u32, low: u32) -> Field {
        Field { word, low, mask: u32::MAX >> (31 - (high - low)) }
    }

    pub fn bit(word: usize, number: u32) -> Field {
        Field::bits(word, number, number)
    }

    pub fn word(word: usize) -> Field {
        Field::bits(word, 31, 0)
    }

    /// The field's value in a command; a word that isn't there counts as zero.
    pub fn of(self, words: &[u32]) -> u32 {
        let word = words.get(self.word).copied().unwrap_or(0);
        word.checked_shr(self.low).unwrap_or(0) & self.mask
    }

    pub fn plus(self, other: Field) -> Value {
        // All bits count; two fields of nine bits have a sum of ten.
        Value::Sum(self, other, Mask { bits: !0, width: 10 })
    }

    pub fn plus_number(self, number: u32) -> Value {
        // All bits count; a field of four bits and a small number have a sum of five.
        Value::Plus(self, number, Mask { bits: !0, width: 5 })
    }

    pub fn is(self, number: u32) -> Test {
        Value::Field(self).is(number)
    }

    pub fn is_not(self, number: u32) -> Test {
        Value::Field(self).is_not(number)
    }

    pub fn over(self, limit: Value) -> Test {
        Value::Field(self).over(limit)
    }

    pub fn at_least(self, other: Value) -> Test {
        Test::Compare(Value::Field(self), Comparison::AtLeast, other)
    }

    pub fn one_of(self, members: &[u32], below: u32) -> Test {
        Test::OneOf(self, Set { members: members.to_vec(), below })
    }
}

/// Some bits of a word, of which only the lowest `width` are in question.
#[derive(Clone, Copy, Debug, PartialEq, Eq)]
pub struct Mask {
    pub bits: u32,
    pub width: u32,
}

/// Some of the numbers below a bound.
#[derive(Clone, Debug, PartialEq, Eq)]
pub struct Set {
    pub members: Vec<u32>,
    pub below: u32,
}

impl Set {
    pub fn has(&self, number: u32) -> bool {
        self.members.contains(&number)
    }
}

choices! {
    /// Numbers known where a rule is tested, beside the command's own words; see `Facts`.
    pub enum Quantity {
        ListWords, ImageWords, WordsLeft, OwnWords, Length, Known, OnlyThroughPci, AfterBase,
        IsBegin, Needed, Room, InputBytes, SpareBytes, ImageBytes, PairNumber, TableWords,
        TablePairs, ListStart, ListEnd, WrappedEnd, BufferWords, Mode
    }
}

/// What a test can look at. Numbers that mean nothing at its place are zero.
#[derive(Clone, Copy, Default)]
pub struct Facts<'a> {
    /// The command's own words, as far as they are there.
    pub words: &'a [u32],
    pub list_words: usize,
    pub image_words: usize,
    /// From the command's first word to the list's end.
    pub words_left: usize,
    /// The command's words without payload, and with it.
    pub own_words: usize,
    pub length: usize,
    /// The id is in the table, or is 03 or 04.
    pub known: bool,
    pub only_through_pci: bool,
    pub after_base: bool,
    pub is_begin: bool,
    /// Records or words to be written, and how many fit.
    pub needed: usize,
    pub room: usize,
    pub input_bytes: usize,
    /// Input bytes behind the last whole word.
    pub spare_bytes: usize,
    pub image_bytes: usize,
    /// Of the command's pairs, as far as they are there.
    pub addresses: &'a [Address],
    /// Of a session.
    pub pair: PairFacts,
    /// In which the list is read.
    pub mode: u32,
}

/// What is known of a pair of a session's table.
#[derive(Clone, Copy, Default)]
pub struct PairFacts {
    /// Counted from 1.
    pub number: usize,
    /// The table's words up to the pair's end, and the pairs of the whole table.
    pub table_words: usize,
    pub table_pairs: usize,
    /// Where the list begins, and start plus length.
    pub start: u64,
    pub end: u64,
    pub buffer_words: usize,
}

/// The address of a pair, and the one expected there.
#[derive(Clone, Copy)]
pub struct Address {
    pub given: u32,
    pub expected: u32,
}

impl Facts<'_> {
    /// What is known of a whole list and image.
    pub fn of(list: &[u32], image: &[u32]) -> Facts<'static> {
        Facts { list_words: list.len(), image_words: image.len(), ..Facts::default() }
    }

    fn number(&self, quantity: Quantity) -> u64 {
        let number = match quantity {
            Quantity::ListWords => self.list_words,
            Quantity::ImageWords => self.image_words,
            Quantity::WordsLeft => self.words_left,
            Quantity::OwnWords => self.own_words,
            Quantity::Length => self.length,
            Quantity::Known => self.known as usize,
            Quantity::OnlyThroughPci => self.only_through_pci as usize,
            Quantity::AfterBase => self.after_base as usize,
            Quantity::IsBegin => self.is_begin as usize,
            Quantity::Needed => self.needed,
            Quantity::Room => self.room,
            Quantity::InputBytes => self.input_bytes,
            Quantity::SpareBytes => self.spare_bytes,
            Quantity::ImageBytes => self.image_bytes,
            Quantity::PairNumber => self.pair.number,
            Quantity::TableWords => self.pair.table_words,
            Quantity::TablePairs => self.pair.table_pairs,
            Quantity::ListStart => return self.pair.start,
            Quantity::ListEnd => return self.pair.end,
            // In 32 bits.
            Quantity::WrappedEnd => return u64::from(self.pair.end as u32),
            Quantity::BufferWords => self.pair.buffer_words,
            Quantity::Mode => return u64::from(self.mode),
        };
        number as u64
    }
}

#[derive(Clone, Debug, PartialEq, Eq)]
pub enum Value {
    Number(u32),
    Field(Field),
    /// The sum of two fields, of which the masked bits count.
    Sum(Field, Field, Mask),
    /// The sum of a field and a number, of which the masked bits count.
    Plus(Field, u32, Mask),
    /// The number that stands at the field's value.
    At(Field, Vec<u32>),
    /// The bits of a word that are in the mask beside the field's value.
    Bits {
        word: usize,
        key: Field,
        masks: Vec<(Vec<u32>, Mask)>,
    },
    Quantity(Quantity),
}

impl Value {
    pub fn of(&self, facts: &Facts) -> u64 {
        let number = match self {
            Value::Number(number) => *number,
            Value::Field(field) => field.of(facts.words),
            Value::Sum(a, b, mask) => (a.of(facts.words) + b.of(facts.words)) & mask.bits,
            // A changed field can be a whole word.
            Value::Plus(field, number, mask) => {
                field.of(facts.words).wrapping_add(*number) & mask.bits
            }
            Value::At(field, numbers) => {
                numbers.get(field.of(facts.words) as usize).copied().unwrap_or(0)
            }
            Value::Bits { word, key, masks } => {
                let key = key.of(facts.words);
                let mask = masks.iter().find(|(values, _)| values.contains(&key));
                mask.map_or(0, |(_, mask)| Field::word(*word).of(facts.words) & mask.bits)
            }
            Value::Quantity(quantity) => return facts.number(*quantity),
        };
        u64::from(number)
    }

    pub fn is(self, number: u32) -> Test {
        Test::Compare(self, Comparison::Equal, Value::Number(number))
    }

    pub fn is_not(self, number: u32) -> Test {
        Test::Compare(self, Comparison::NotEqual, Value::Number(number))
    }

    pub fn over(self, limit: Value) -> Test {
        Test::Compare(self, Comparison::Over, limit)
    }
}

impl Quantity {
    pub fn is(self, number: u32) -> Test {
        Value::Quantity(self).is(number)
    }

    pub fn is_not(self, number: u32) -> Test {
        Value::Quantity(self).is_not(number)
    }

    pub fn over(self, limit: u32) -> Test {
        Value::Quantity(self).over(Value::Number(limit))
    }

    pub fn more_than(self, other: Quantity) -> Test {
        Value::Quantity(self).over(Value::Quantity(other))
    }

    pub fn fewer_than(self, other: Quantity) -> Test {
        Test::Compare(Value::Quantity(self), Comparison::Below, Value::Quantity(other))
    }
}

#[derive(Clone, Copy, Debug, PartialEq, Eq)]
pub enum Comparison {
    Below,
    AtMost,
    Equal,
    NotEqual,
    AtLeast,
    Over,
    Always,
    Never,
}

impl Comparison {
    pub fn holds(self, a: u64, b: u64) -> bool {
        match self {
            Comparison::Below => a < b,
            Comparison::AtMost => a <= b,
            Comparison::Equal => a == b,
            Comparison::NotEqual => a != b,
            Comparison::AtLeast => a >= b,
            Comparison::Over => a > b,
            Comparison::Always => true,
            Comparison::Never => false,
        }
    }
}

#[derive(Clone, Debug, PartialEq, Eq)]
pub enum Test {
    Compare(Value, Comparison, Value),
    OneOf(Field, Set),
    Both(Box<Test>, Box<Test>),
    Not(Box<Test>),
}

impl Test {
    pub fn not(self) -> Test {
        Test::Not(Box::new(self))
    }

    pub fn and(self, other: Test) -> Test {
        Test::Both(Box::new(self), Box::new(other))
    }

    pub fn holds(&self, facts: &Facts) -> bool {
        match self {
            Test::Compare(a, comparison, b) => comparison.holds(a.of(facts), b.of(facts)),
            Test::OneOf(field, set) => set.has(field.of(facts.words)),
            Test::Both(a, b) => a.holds(facts) && b.holds(facts),
            Test::Not(test) => !test.holds(facts),
        }
    }
}
