//! What the rules consist of. `document` has their values; the macros let `mutants` change each
//! value by itself.

use super::books::Books;
use super::language::{Facts, Field, Mask, Set, Test};
use super::scenes::Scenes;
use super::swap::{FixedMode, Swap};
use super::tool::Tool;
use crate::vary::{choices, parts};

parts! {
    /// The rules of reading, of the normal form and its length, of the byte orders, of the listing, of the
    /// writes over PCI, of sessions, of books and of the tool.
    pub struct Rules {
        pub id: Field,
        /// The header as the masks test it, and as the image holds it.
        pub tested_header: Field,
        pub left_header: Field,
        /// Ids that go only through PCI.
        pub pci: Set,
        pub table: Table,
        /// Refusals of the whole list, of each command, and of the room for the result.
        pub before_commands: Vec<Check>,
        pub each_command: Vec<Check>,
        pub room_for_records: Vec<Check>,
        pub room_for_form: Vec<Check>,
        pub told_bit: ToldBit,
        pub base_may_end_list: bool,
        pub base_lasts: BaseLasts,
        pub swap: Swap,
        pub records: Records,
        pub form: Form,
        pub measure: Measure,
        pub listing: Listing,
        pub to_pci: ToPci,
        pub from_pci: FromPci,
        pub scenes: Scenes,
        pub books: Books,
        pub tool: Tool,
    }
}

/// The table of commands, in rising id.
#[derive(Clone, Debug, PartialEq)]
pub struct Table(pub Vec<Row>);

choices! {
    pub enum Kind { Work, Setting }
}

choices! {
    /// What a command is to the rule on flips.
    pub enum Flip { Neither, SurfaceBase, Begin }
}

choices! {
    /// The commands to which a surface base is the one before.
    pub enum BaseLasts { OneCommand, AllCommands }
}

/// What a command puts in the image, and from which word on.
#[derive(Clone, Copy, Debug, PartialEq, Eq)]
pub enum Leaves {
    Nothing,
    Header(usize),
    AllWords(usize),
}

/// A row of the table: one mask for each word of the command.
#[derive(Clone, Debug, PartialEq)]
pub struct Row {
    pub id: u32,
    pub masks: Vec<Mask>,
    pub kind: Kind,
    pub leaves: Leaves,
    pub flip: Flip,
    pub payload: Option<Payload>,
    pub faults: Vec<Fault>,
    /// The form writes differing settings before this work.
    pub settings_first: bool,
    /// The image words from the id on by which the form tells that this setting differs.
    pub compared: Mask,
}

impl Row {
    /// A work command of these masks that leaves nothing and has no other rule.
    pub fn new(id: u32, masks: &[u32]) -> Row {
        let width = |k: usize| if k == 0 { 24 } else { 32 };
        let mask = |(k, &bits): (usize, &u32)| Mask { bits, width: width(k) };
        let words = masks.len() as u32;
        Row {
            id,
            masks: masks.iter().enumerate().map(mask).collect(),
            kind: Kind::Work,
            leaves: Leaves::Nothing,
            flip: Flip::Neither,
            payload: None,
            faults: Vec::new(),
            settings_first: true,
            compared: Mask { bits: (1 << words) - 1, width: words + 1 },
        }
    }

    pub fn own_words(&self) -> usize {
        self.masks.len()
    }

    /// The words of the command with its payload, by its own words.
    pub fn length(&self, words: &[u32]) -> usize {
        self.own_words() + self.payload.map_or(0, |payload| payload.words(words))
    }

    /// The lowest word with a fault of this kind.
    pub fn fault(&self, kind: FaultKind, facts: &Facts) -> Option<usize> {
        let mut faults = self.faults.iter().filter(|fault| fault.kind == kind);
        faults.find(|fault| fault.test.holds(facts)).map(|fault| fault.word)
    }
}

#[derive(Clone, Copy, Debug, PartialEq, Eq)]
pub struct Payload {
    /// As many groups as the field says.
    pub groups: Field,
    pub more_groups: i32,
    pub group_words: usize,
}

impl Payload {
    /// The words of the payload, by the command's own words.
    pub fn words(&self, own: &[u32]) -> usize {
        let groups = self.groups.of(own).saturating_add_signed(self.more_groups);
        self.group_words * groups as usize
    }
}

choices! {
    /// An illegal value, or one of the clashes.
    pub enum FaultKind { Illegal, PageMaximum, PageMinimum, RasterBits, LoadConverts, PlaneRange }
}

/// A value that the words of a command may not have. Faults stand in rising word.
#[derive(Clone, Debug, PartialEq)]
pub struct Fault {
    pub kind: FaultKind,
    pub word: usize,
    pub test: Test,
}

/// A line of the table of verdicts. Lines stand in the order in which they are given.
#[derive(Clone, Debug, PartialEq)]
pub struct Check {
    pub verdict: u32,
    pub when: When,
    pub position: Position,
}

#[derive(Clone, Debug, PartialEq)]
pub enum When {
    Holds(Test),
    UndefinedBit(WhichWord),
    Fault(FaultKind),
    WrongAddress(WhichWord),
}

choices! {
    /// Which of several undefined words, or wrong pairs, is told.
    pub enum WhichWord { Lowest, Highest }
}

#[derive(Clone, Copy, Debug, PartialEq, Eq)]
pub enum Position {
    At(usize),
    FirstWord,
    ThatWord,
    ListLength,
    WholeWordsRead,
}

parts! {
    /// The bit that the answer tells.
    pub struct ToldBit {
        /// Of an undefined word: the bits of a first word that count, and the rule for it.
        pub header: Field,
        pub of: BitOf,
        pub among: Among,
        pub which: WhichBit,
        pub numbered: Numbered,
        /// With every other verdict.
        pub otherwise: u32,
    }
}

choices! {
    /// The word of the command whose bit is told.
    pub enum BitOf { That, First, Last, Any }
}

choices! {
    /// The bits of the word of which one is told.
    pub enum Among { UndefinedAndSet, Set, Undefined }
}

choices! {
    pub enum WhichBit { Lowest, Highest }
}

choices! {
    /// What the number of a bit is.
    pub enum Numbered { FromLowest, FromHighest, AsMask }
}

parts! {
    pub struct Records {
        pub words: Vec<RecordWord>,
        pub header: Field,
        pub of: Recorded,
        pub order: RecordOrder,
        pub room: RecordRoom,
    }
}

choices! {
    pub enum RecordWord { Id, Position, Length, Header, FirstWord, OwnWords, Number }
}

choices! {
    pub enum Recorded { Work, Settings, All }
}

choices! {
    pub enum RecordOrder { OfList, Reversed }
}

parts! {
    /// A buffer's length is divided by `words`.
    pub struct RecordRoom {
        pub words: usize,
        pub rounded: Rounded,
    }
}

choices! {
    pub enum Rounded { Down, Up }
}

parts! {
    pub struct Form {
        pub before_work: Settings,
        pub work: WorkWords,
        pub after_last_work: Settings,
    }
}

parts! {
    /// The settings that the form writes at one place.
    pub struct Settings {
        pub written: bool,
        pub order: SettingOrder,
        pub compared_with: ComparedWith,
        pub values: SettingValues,
    }
}

choices! {
    pub enum SettingOrder { RisingId, FallingId, AsLastSet }
}

choices! {
    /// The image from which a setting differs.
    pub enum ComparedWith { Built, Start, LastWork, Zeros, Nothing }
}

choices! {
    pub enum SettingValues { OfList, OfStart }
}

choices! {
    pub enum WorkWords { WithPayload, OwnWords, FirstWord, NoWords }
}

parts! {
    /// The question for the form's length.
    pub struct Measure {
        pub mode: FixedMode,
        pub form: Form,
        pub from: MeasuredFrom,
        pub told: Told,
        pub refused: RefusedTold,
        /// Refusals behind those of the list.
        pub room: Vec<Check>,
    }
}

choices! {
    /// The image that the form starts from: the one given, zeros, the one that the list leaves.
    pub enum MeasuredFrom { Given, Zeros, Left }
}

choices! {
    /// What is told as the form's length.
    pub enum Told {
        FormWords, FormBytes, FormCommands, ListWords, ListCommands, WordsSaved, MostWords
    }
}

choices! {
    /// What is told of a refused list; its form before the refused command is one.
    pub enum RefusedTold { Zero, FormBefore, ListWords }
}

parts! {
    pub struct Listing {
        pub before_list: Vec<Check>,
        pub byte_order: ByteOrder,
        pub mode: FixedMode,
        pub starting_word: u32,
        pub title: String,
        pub columns: Vec<Column>,
        pub between_columns: String,
        pub line_end: String,
        pub accepted: String,
        pub items: String,
        pub refused: String,
        pub at: String,
    }
}

choices! {
    pub enum ByteOrder { Little, Big }
}

parts! {
    /// A number of a record: the record's word, and how it is written.
    pub struct Column {
        pub word: usize,
        pub digits: Digits,
        pub least_digits: usize,
    }
}

choices! {
    pub enum Digits { Decimal, LowerHex, UpperHex }
}

parts! {
    /// Where the words of a command go over PCI.
    pub struct Addresses {
        pub base: Mask,
        pub id_of: IdOf,
        pub with_id: WithId,
        pub step: u32,
        pub group_words: usize,
        pub payload: PayloadAddresses,
    }
}

choices! {
    /// The word whose id is in the address.
    pub enum IdOf { Command, EachWord }
}

choices! {
    /// How base and id make the first address.
    pub enum WithId { FourTimes, Once, Twice, EightTimes, SumFourTimes, NotAtAll }
}

choices! {
    pub enum PayloadAddresses { StartAgain, RunOn, FirstAlone }
}

parts! {
    /// The writer of pairs.
    pub struct ToPci {
        pub mode: FixedMode,
        pub id: Field,
        pub addresses: Addresses,
        pub begin: BeginWords,
        pub pair: Vec<PairWord>,
        pub room: Vec<Check>,
    }
}

choices! {
    /// What the words of a BEGIN go as.
    pub enum BeginWords { Group, OneWord, OwnCommands }
}

choices! {
    pub enum PairWord { Address, Value, Number, Header }
}

parts! {
    /// The reader of pairs.
    pub struct FromPci {
        pub mode: FixedMode,
        pub pair_words: usize,
        /// Which words of a pair they are.
        pub address: usize,
        pub value: usize,
        pub odd_word: OddWord,
        pub id: Field,
        pub addresses: Addresses,
        /// The bits of an address that have to be as expected.
        pub compared: Mask,
        /// Every other id is one word.
        pub groups: Set,
        pub loads: Set,
        pub payload: Payload,
        /// Refusals of all pairs, of each command's pairs, and of the room for the list.
        pub before_pairs: Vec<Check>,
        pub each_command: Vec<Check>,
        pub room: Vec<Check>,
    }
}

choices! {
    /// What the last word is when their number is odd.
    pub enum OddWord { Ignored, PairWithZero, PairWithItself }
}
