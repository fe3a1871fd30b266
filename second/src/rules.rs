//! Reading, normalising and listing by document 01, with PCI writes by Ticket 1 of document 02, the
//! bit and the clashes told by Tickets 2 and 6, the page thresholds by Ticket 3, the form's length told
//! by Ticket 4, several lists in one call by Ticket 5, lists of another byte order by Ticket 7, and scene
//! books by Ticket 8; and what the tool says and writes, by its own paper.
//!
//! What the documents fix stands in `document` as a value of `Rules`; here is what they say to do
//! with it. Nothing may panic for a `Rules` with one part changed, so that `mutants` can run it.

mod books;
mod document;
mod form;
mod language;
mod listing;
mod measure;
mod pci;
mod scenes;
mod shape;
mod swap;
mod tool;

use std::ops::Range;
use std::sync::LazyLock;

pub use books::*;
pub use document::{Terms, IMAGE_WORDS, MAX_LIST_WORDS, NO_BIT, RECORD_WORDS};
pub use language::{
    Address, Comparison, Facts, Field, Mask, PairFacts, Quantity, Set, Test, Value,
};
pub use scenes::*;
pub use shape::*;
pub use swap::*;
pub use tool::{words_of, Ids, Name, Names, Piece, RefusalRow, RefusalRows, Run, Task};

static PAPER: LazyLock<Rules> = LazyLock::new(Rules::paper);

/// The rules of the documents.
pub fn paper() -> &'static Rules {
    &PAPER
}

/// Stands for every id that isn't in the table, as a command of one word with no rules.
static OTHER_ID: LazyLock<Row> = LazyLock::new(|| Row::new(0, &[0xFFFFFF]));

#[derive(Clone, Copy, Debug, PartialEq, Eq)]
pub struct Answer {
    pub verdict: u32,
    pub position: u32,
    pub commands: u32,
    pub records: u32,
    pub words: u32,
    pub bit: u32,
}

/// The numbers of an answer.
pub const ANSWER_WORDS: usize = 6;

impl Answer {
    pub fn numbers(&self) -> [u32; ANSWER_WORDS] {
        [self.verdict, self.position, self.commands, self.records, self.words, self.bit]
    }
}

#[derive(Clone, Copy, Debug, PartialEq, Eq)]
pub struct Refusal {
    pub verdict: u32,
    pub position: usize,
    pub bit: u32,
}

impl Refusal {
    /// One that tells no bit.
    pub fn new(verdict: u32, position: usize) -> Refusal {
        Refusal { verdict, position, bit: NO_BIT }
    }

    pub fn answer(self) -> Answer {
        let Refusal { verdict, position, bit } = self;
        Answer { verdict, position: position as u32, commands: 0, records: 0, words: 0, bit }
    }
}

/// A command of a list, with its payload.
#[derive(Clone, Copy, Debug)]
pub struct Command<'a> {
    pub row: &'a Row,
    pub position: usize,
    pub words: &'a [u32],
}

impl Command<'_> {
    pub fn is_work(&self) -> bool {
        self.row.kind == Kind::Work
    }
}

impl Rules {
    pub fn row_of(&self, id: u32) -> Option<&Row> {
        self.table.0.iter().find(|row| row.id == id)
    }

    pub fn is_known(&self, id: u32) -> bool {
        self.row_of(id).is_some() || self.pci.has(id)
    }

    /// The first of the checks that refuses, of a list or of a command at a position in it.
    fn pass(&self, checks: &[Check], row: &Row, at: usize, facts: &Facts) -> Result<(), Refusal> {
        for check in checks {
            let found = match &check.when {
                When::Holds(test) => test.holds(facts).then_some(0),
                When::UndefinedBit(which) => self.undefined_word(row, facts.words, *which),
                When::Fault(kind) => row.fault(*kind, facts),
                When::WrongAddress(which) => wrong_address(facts.addresses, *which),
            };
            if let Some(word) = found {
                let position = match check.position {
                    Position::At(number) => number,
                    Position::FirstWord => at,
                    Position::ThatWord => at + word,
                    Position::ListLength => facts.list_words,
                    Position::WholeWordsRead => facts.input_bytes / 4,
                };
                let bit = match check.when {
                    When::UndefinedBit(_) => self.told_bit.of_word(word, row, facts.words),
                    _ => self.told_bit.otherwise,
                };
                return Err(Refusal { verdict: check.verdict, position, bit });
            }
        }
        Ok(())
    }

    /// The first word of the command with a bit outside its mask.
    fn undefined_word(&self, row: &Row, words: &[u32], which: WhichWord) -> Option<usize> {
        let outside = |&k: &usize| {
            let word = word_below_id(k, self.tested_header, words);
            word & !row.masks[k].bits != 0
        };
        which.of(0..words.len(), outside)
    }

    /// The command at a position, or the first of verdicts 3 to 10 that it meets.
    fn command_at<'a>(
        &'a self,
        list: &'a [u32],
        at: usize,
        after_base: bool,
    ) -> Result<Command<'a>, Refusal> {
        let id = self.id.of(&list[at..]);
        let row = self.row_of(id).unwrap_or(&OTHER_ID);
        let left = &list[at..];
        let words = &left[..row.own_words().min(left.len())];
        let length = row.length(words);
        let facts = Facts {
            words,
            list_words: list.len(),
            words_left: left.len(),
            own_words: row.own_words(),
            length,
            known: self.is_known(id),
            only_through_pci: self.pci.has(id),
            after_base,
            is_begin: row.flip == Flip::Begin,
            ..Facts::default()
        };
        self.pass(&self.each_command, row, at, &facts)?;
        Ok(Command { row, position: at, words: &left[..length.min(left.len())] })
    }

    /// The commands of a list up to the first refused one, and its refusal by verdicts 3 to 10.
    pub fn walk<'a>(&'a self, list: &'a [u32]) -> (Vec<Command<'a>>, Option<Refusal>) {
        self.walk_from(list, false)
    }

    /// The same, where a surface base may stand before the list.
    fn walk_from<'a>(
        &'a self,
        list: &'a [u32],
        mut after_base: bool,
    ) -> (Vec<Command<'a>>, Option<Refusal>) {
        let mut found = Vec::new();
        let mut at = 0;
        while at < list.len() {
            let command = match self.command_at(list, at, after_base) {
                Ok(command) => command,
                Err(refusal) => return (found, Some(refusal)),
            };
            at += command.words.len();
            let lasts = after_base && self.base_lasts == BaseLasts::AllCommands;
            after_base = lasts || command.row.flip == Flip::SurfaceBase;
            found.push(command);
        }
        let refused_end = after_base && !self.base_may_end_list;
        (found, refused_end.then_some(Refusal::new(10, at)))
    }

    pub fn commands<'a>(&'a self, list: &'a [u32]) -> Result<Vec<Command<'a>>, Refusal> {
        self.commands_from(list, false)
    }

    fn commands_from<'a>(
        &'a self,
        list: &'a [u32],
        after_base: bool,
    ) -> Result<Vec<Command<'a>>, Refusal> {
        match self.walk_from(list, after_base) {
            (commands, None) => Ok(commands),
            (_, Some(refusal)) => Err(refusal),
        }
    }

    /// The commands of a list, by verdicts 1 to 10.
    fn checked<'a>(&'a self, list: &'a [u32], image: &[u32]) -> Result<Vec<Command<'a>>, Refusal> {
        self.checked_from(list, false, image)
    }

    /// The same, where a surface base may stand before the list.
    fn checked_from<'a>(
        &'a self,
        list: &'a [u32],
        after_base: bool,
        image: &[u32],
    ) -> Result<Vec<Command<'a>>, Refusal> {
        self.pass(&self.before_commands, &OTHER_ID, 0, &Facts::of(list, image))?;
        self.commands_from(list, after_base)
    }

    fn accepted(&self, list: &[u32], commands: &[Command], words: usize) -> Answer {
        Answer {
            verdict: 0,
            position: list.len() as u32,
            commands: commands.len() as u32,
            records: commands.iter().filter(|c| c.is_work()).count() as u32,
            words: words as u32,
            bit: self.told_bit.otherwise,
        }
    }

    /// Puts in the image what the command leaves there.
    pub fn apply(&self, command: &Command, image: &mut [u32]) {
        let header = self.left_header.of(command.words);
        let (first, rest): (usize, &[u32]) = match command.row.leaves {
            Leaves::Nothing => return,
            Leaves::Header(word) => (word, &[]),
            Leaves::AllWords(word) => (word, &command.words[1..]),
        };
        let words = [&[header], rest].concat();
        for (slot, word) in image.iter_mut().skip(first).zip(words) {
            *slot = word;
        }
    }

    /// In mode 0.
    pub fn read(&self, list: &[u32], image: &mut [u32], records: &mut [u32]) -> Answer {
        self.read_in(0, list, image, records)
    }

    pub fn read_in(
        &self,
        mode: u32,
        list: &[u32],
        image: &mut [u32],
        records: &mut [u32],
    ) -> Answer {
        let read = self.words_in(mode, list, image).and_then(|got| {
            let source = Source { got: &got, own: list, after_base: false };
            self.try_read(&source, image, records)
        });
        read.unwrap_or_else(Refusal::answer)
    }

    fn try_read(
        &self,
        source: &Source,
        image: &mut [u32],
        records: &mut [u32],
    ) -> Result<Answer, Refusal> {
        let Source { got, after_base, .. } = *source;
        let commands = self.checked_from(got, after_base, image)?;
        let found = self.records(&source.held(&commands, self.swap.records));
        let (needed, room) = (found.len(), self.record_room(records.len()));
        let facts = Facts { needed, room, ..Facts::of(got, image) };
        self.pass(&self.room_for_records, &OTHER_ID, 0, &facts)?;
        for command in &source.held(&commands, self.swap.image) {
            self.apply(command, image);
        }
        let words = found.concat();
        put(records, &words);
        Ok(self.accepted(got, &commands, words.len()))
    }

    pub fn records(&self, commands: &[Command]) -> Vec<Vec<u32>> {
        let recorded = |command: &Command| match self.records.of {
            Recorded::Work => command.is_work(),
            Recorded::Settings => !command.is_work(),
            Recorded::All => true,
        };
        let of_list = commands.iter().enumerate().filter(|(_, command)| recorded(command));
        let mut records: Vec<Vec<u32>> = of_list.map(|(k, c)| self.record(k, c)).collect();
        if self.records.order == RecordOrder::Reversed {
            records.reverse();
        }
        records
    }

    fn record(&self, number: usize, command: &Command) -> Vec<u32> {
        let word = |word: &RecordWord| match word {
            RecordWord::Id => command.row.id,
            RecordWord::Position => command.position as u32,
            RecordWord::Length => command.words.len() as u32,
            RecordWord::Header => self.records.header.of(command.words),
            RecordWord::FirstWord => command.words[0],
            RecordWord::OwnWords => command.row.own_words() as u32,
            RecordWord::Number => number as u32,
        };
        self.records.words.iter().map(word).collect()
    }

    pub fn record_room(&self, buffer_words: usize) -> usize {
        let room = &self.records.room;
        match room.rounded {
            Rounded::Down => buffer_words / room.words,
            Rounded::Up => buffer_words.div_ceil(room.words),
        }
    }

    /// In mode 0.
    pub fn normalise(&self, list: &[u32], image: &[u32], out: &mut [u32]) -> Answer {
        self.normalise_in(0, list, image, out)
    }

    pub fn normalise_in(&self, mode: u32, list: &[u32], image: &[u32], out: &mut [u32]) -> Answer {
        let normalised = self.words_in(mode, list, image).and_then(|got| {
            let source = Source { got: &got, own: list, after_base: false };
            self.try_normalise(&source, image, out)
        });
        normalised.unwrap_or_else(Refusal::answer)
    }

    fn try_normalise(
        &self,
        source: &Source,
        image: &[u32],
        out: &mut [u32],
    ) -> Result<Answer, Refusal> {
        let commands = self.checked(source.got, image)?;
        let form = self.normal_form(&source.held(&commands, self.swap.form), image);
        let facts = Facts { needed: form.len(), room: out.len(), ..Facts::of(source.got, image) };
        self.pass(&self.room_for_form, &OTHER_ID, 0, &facts)?;
        put(out, &form);
        Ok(self.accepted(source.got, &commands, form.len()))
    }
}

impl WhichWord {
    fn of(self, mut all: Range<usize>, found: impl Fn(&usize) -> bool) -> Option<usize> {
        match self {
            WhichWord::Lowest => all.find(found),
            WhichWord::Highest => all.rev().find(found),
        }
    }
}

impl ToldBit {
    /// The bit told of a command whose word `k` is undefined.
    fn of_word(&self, k: usize, row: &Row, words: &[u32]) -> u32 {
        let bits = |k: usize| {
            let (word, undefined) = (word_below_id(k, self.header, words), !row.masks[k].bits);
            match self.among {
                Among::UndefinedAndSet => word & undefined,
                Among::Set => word,
                Among::Undefined => undefined,
            }
        };
        let bits = match self.of {
            BitOf::That => bits(k),
            BitOf::First => bits(0),
            BitOf::Last => bits(words.len() - 1),
            BitOf::Any => (0..words.len()).fold(0, |all, k| all | bits(k)),
        };
        let number = match self.which {
            WhichBit::Lowest => bits.trailing_zeros(),
            WhichBit::Highest => bits.checked_ilog2().unwrap_or(NO_BIT),
        };
        match self.numbered {
            Numbered::FromLowest => number,
            Numbered::FromHighest => 31_u32.wrapping_sub(number),
            Numbered::AsMask => 1_u32.checked_shl(number).unwrap_or(0),
        }
    }
}

/// Word `k` of a command, or the header for the first one.
fn word_below_id(k: usize, header: Field, words: &[u32]) -> u32 {
    match k {
        0 => header.of(words),
        _ => words[k],
    }
}

/// A pair of the command whose address isn't the expected one.
fn wrong_address(addresses: &[Address], which: WhichWord) -> Option<usize> {
    which.of(0..addresses.len(), |&k| addresses[k].given != addresses[k].expected)
}

/// Puts words at a buffer's front.
pub fn put(buffer: &mut [u32], words: &[u32]) {
    for (slot, word) in buffer.iter_mut().zip(words) {
        *slot = *word;
    }
}
