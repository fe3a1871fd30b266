//! Lists of hosts with another byte order: the words got from a list in a mode.

use super::{Check, Command, Facts, Mask, Refusal, Rules, OTHER_ID};
use crate::vary::{choices, parts};
use std::slice;

parts! {
    /// How the words of a list are got.
    pub struct Swap {
        pub modes: Modes,
        /// The bits of a mode that count.
        pub mode_bits: Mask,
        pub swapped: Swapped,
        /// What the records, the image and the form hold.
        pub records: Held,
        pub image: Held,
        pub form: Held,
        /// The refusal of a mode, and its place among the others.
        pub refused: Check,
        pub asked: Asked,
    }
}

/// What each mode makes of a word.
#[derive(Clone, Debug, PartialEq)]
pub struct Modes(pub Vec<Bytes>);

/// For each byte of the word got, lowest first, the byte of the list's word that it is.
#[derive(Clone, Copy, Debug, PartialEq, Eq)]
pub struct Bytes(pub [usize; 4]);

impl Bytes {
    fn of(self, word: u32) -> u32 {
        let bytes = word.to_le_bytes();
        u32::from_le_bytes(self.0.map(|number| bytes[number]))
    }
}

choices! {
    /// The words of a list that are swapped: all, those of commands without payload, or of each command
    /// the first one, or all but the first.
    pub enum Swapped { EveryWord, OwnWords, FirstWords, BehindFirstWords }
}

choices! {
    /// The words that are kept of a command.
    pub enum Held { Got, OfList }
}

choices! {
    /// When the mode is tested: before all else, or behind 1, 2 or all refusals of the list's words.
    pub enum Asked { First, BehindTooLong, BehindImage, BehindList }
}

choices! {
    /// The mode of a call that takes none.
    pub enum FixedMode { Unchanged, HalfSwap, WordSwap, FullSwap }
}

/// A list as it is read.
pub struct Source<'a> {
    /// The words got from it, and its own.
    pub got: &'a [u32],
    pub own: &'a [u32],
    /// A surface base stands before it.
    pub after_base: bool,
}

impl<'a> Source<'a> {
    /// By itself, in mode 0.
    pub fn of(list: &'a [u32]) -> Source<'a> {
        Source { got: list, own: list, after_base: false }
    }

    /// The commands with what is held of their words.
    pub fn held(&self, commands: &[Command<'a>], held: Held) -> Vec<Command<'a>> {
        let words = |command: &Command<'a>| match held {
            Held::Got => command.words,
            Held::OfList => &self.own[command.position..command.position + command.words.len()],
        };
        commands.iter().map(|command| Command { words: words(command), ..*command }).collect()
    }
}

impl Rules {
    /// The words got from a list in a mode; one over 3 leaves them unchanged.
    pub fn words_got(&self, mode: u32, list: &[u32]) -> Vec<u32> {
        let mode = (mode & self.swap.mode_bits.bits) as usize;
        let word = |word: &u32| self.swap.modes.0.get(mode).map_or(*word, |bytes| bytes.of(*word));
        let mut got: Vec<u32> = list.iter().map(word).collect();
        if self.swap.swapped != Swapped::EveryWord {
            self.put_back(&mut got, list);
        }
        got
    }

    /// Puts the list's own words back at the places that aren't swapped.
    fn put_back(&self, got: &mut [u32], list: &[u32]) {
        let mut at = 0;
        while at < list.len() {
            if self.swap.swapped == Swapped::BehindFirstWords {
                got[at] = list[at];
            }
            let row = self.row_of(self.id.of(&got[at..])).unwrap_or(&OTHER_ID);
            let length = row.length(&got[at..=at]);
            // Of the command's words; those behind aren't.
            let swapped = match self.swap.swapped {
                Swapped::EveryWord | Swapped::BehindFirstWords => length,
                Swapped::OwnWords => row.own_words(),
                Swapped::FirstWords => 1,
            };
            let end = list.len().min(at + length);
            let own = end.min(at + swapped)..end;
            got[own.clone()].copy_from_slice(&list[own]);
            at = end;
        }
    }

    /// The words got from a list, or the refusal of the mode.
    pub fn words_in(&self, mode: u32, list: &[u32], image: &[u32]) -> Result<Vec<u32>, Refusal> {
        let got = self.words_got(mode, list);
        let facts = Facts { mode: mode & self.swap.mode_bits.bits, ..Facts::of(list, image) };
        let refused = self.pass(slice::from_ref(&self.swap.refused), &OTHER_ID, 0, &facts);
        if refused.is_err() {
            let front = |checks: usize| {
                let checks = self.before_commands.get(..checks).unwrap_or_default();
                self.pass(checks, &OTHER_ID, 0, &facts)
            };
            match self.swap.asked {
                Asked::First => {}
                Asked::BehindTooLong => front(1)?,
                Asked::BehindImage => front(2)?,
                Asked::BehindList => drop(self.checked(&got, image)?),
            }
        }
        refused.map(|()| got)
    }
}
