//! What the rules of the tool consist of.

use crate::rules::{ByteOrder, Check, Digits, FixedMode, Recorded, Set, SettingOrder};
use crate::vary::{choices, parts};

/// The tool's words that read a list or pairs.
#[derive(Clone, Copy, Debug, PartialEq, Eq)]
pub enum Task {
    Show,
    Image,
    Normalise,
    Pci,
    List,
}

impl Task {
    pub const ALL: [Task; 5] = [Task::Show, Task::Image, Task::Normalise, Task::Pci, Task::List];

    pub fn name(self) -> &'static str {
        ["show", "image", "normalise", "pci", "list"][self as usize]
    }
}

parts! {
    pub struct Tool {
        pub show: Does,
        pub image: Does,
        pub normalise: Does,
        pub pci: Does,
        pub list: Does,
        /// Refusals by size, of a list and of pairs.
        pub list_sizes: Vec<Check>,
        pub pairs_sizes: Vec<Check>,
        /// The words of files.
        pub input_order: ByteOrder,
        pub image_order: ByteOrder,
        pub output_order: ByteOrder,
        pub mode: FixedMode,
        pub told_command: ToldCommand,
        pub settings: ShownSettings,
        /// The text of a refused list, and of an accepted one.
        pub refused: Vec<Line>,
        pub accepted: Vec<Line>,
        pub line_end: String,
        pub names: Names,
        pub rows: RefusalRows,
    }
}

impl Tool {
    pub fn does(&self, task: Task) -> &Does {
        match task {
            Task::Show => &self.show,
            Task::Image => &self.image,
            Task::Normalise => &self.normalise,
            Task::Pci => &self.pci,
            Task::List => &self.list,
        }
    }
}

parts! {
    pub struct Does {
        pub reads: Reads,
        pub writes: Writes,
    }
}

choices! {
    pub enum Reads { List, Pairs }
}

choices! {
    /// The words that go to OUT.
    pub enum Writes { Nothing, Image, Form, Pairs, List, Records }
}

parts! {
    /// The command that the refused word stands in.
    pub struct ToldCommand {
        pub found: Found,
        /// Every other id is one word.
        pub groups: Ids,
        pub loads: Ids,
        pub payload: Counted,
    }
}

/// Ids in whose words the refused one may stand.
#[derive(Clone, Debug, PartialEq)]
pub struct Ids(pub Vec<u32>);

choices! {
    /// From word 0 on; or the word itself, or the nearest one before it with a known id.
    pub enum Found { FromFirstWord, ThatWord, NearestKnown }
}

choices! {
    /// Whose payload counts.
    pub enum Counted { OfEveryLoad, OfLegalLoads }
}

parts! {
    /// The settings that `show` has a line for.
    pub struct ShownSettings {
        pub of: Recorded,
        pub which: WhichSettings,
        pub from: ShownFrom,
        pub differing: Differing,
        pub order: SettingOrder,
    }
}

choices! {
    /// Those that end other than they began; that were other at some place; that the list sets.
    pub enum WhichSettings { Changed, ChangedOnTheWay, Set, All }
}

choices! {
    pub enum ShownFrom { Given, Zeros }
}

choices! {
    /// The image words of a setting that have to differ.
    pub enum Differing { Any, Every, First, Last }
}

parts! {
    /// A line, with the tasks and the verdicts that have it.
    pub struct Line {
        pub tasks: Set,
        pub verdicts: Set,
        pub repeated: Repeated,
        pub pieces: Vec<Piece>,
    }
}

choices! {
    pub enum Repeated { Once, BySetting, ByRecord }
}

#[derive(Clone, Debug, PartialEq)]
pub enum Piece {
    Text(String),
    Number(Number),
    /// The words of a setting.
    Words(SettingWords),
    /// The command's name with this text before it; nothing where it has none.
    Name(String),
    Row(RowPart),
}

parts! {
    pub struct Number {
        pub of: Shown,
        pub digits: Digits,
        pub least_digits: usize,
    }
}

choices! {
    /// Numbers of the answer and of the files; then those of the refused word, of its command, of the
    /// setting or of the record.
    pub enum Shown {
        Verdict, Position, Bit, Commands, Records, FormWords, WordsWritten, BytesWritten, InputBytes,
        ImageBytes, ImageWords, Address, ExpectedAddress, Word, Id, At, Words, Header
    }
}

parts! {
    pub struct SettingWords {
        pub of: BeforeOrAfter,
        pub which: ShownWords,
        pub digits: Digits,
        pub least_digits: usize,
        pub between: String,
    }
}

choices! {
    pub enum BeforeOrAfter { Before, After }
}

choices! {
    /// All words of the setting, the first, those that differ; the first with its id.
    pub enum ShownWords { All, First, Differing, WithId }
}

choices! {
    pub enum RowPart { Meaning, Look }
}

/// Names by id.
#[derive(Clone, Debug, PartialEq)]
pub struct Names(pub Vec<Name>);

parts! {
    pub struct Name {
        pub id: u32,
        pub name: String,
    }
}

/// What is said of each refusal.
#[derive(Clone, Debug, PartialEq)]
pub struct RefusalRows(pub Vec<RefusalRow>);

parts! {
    pub struct RefusalRow {
        pub verdict: u32,
        pub meaning: String,
        pub look: String,
    }
}
