//! What the rules of sessions consist of.

use super::super::language::Test;
use super::super::swap::FixedMode;
use crate::vary::{choices, parts};

parts! {
    /// Several lists in one call.
    pub struct Scenes {
        pub mode: FixedMode,
        pub pair: Vec<TableWord>,
        pub odd_word: SpareWord,
        pub turns: Turns,
        /// Refusals of a pair.
        pub too_many: PairCheck,
        pub outside: PairCheck,
        pub too_long: TooLong,
        pub no_pair: NoPair,
        pub empty_list: EmptyList,
        pub image: SceneImage,
        pub room: SceneRoom,
        pub record_positions: RecordPositions,
        pub order: ListOrder,
        pub stops: Stops,
        /// What is left of the image and of the records with a refusal.
        pub image_on_refusal: OnRefusal,
        pub records_on_refusal: OnRefusal,
        /// The position with acceptance, with a refused list, and where no list was read.
        pub accepted_at: AcceptedAt,
        pub refused_at: RefusedAt,
        pub nothing_read: NothingRead,
        pub commands: SceneCount,
        pub records: SceneCount,
        pub words: SceneCount,
        pub lists: ListsTold,
    }
}

choices! {
    /// What a word of a pair of the table is.
    pub enum TableWord {
        Start, Length, End, LastWord, StartInGroups, LengthInGroups, StartInBytes, LengthInBytes
    }
}

choices! {
    /// What the table's last word is when their number is odd.
    pub enum SpareWord { Ignored, PairWithZero, PairWithItself, PairWithOne, ListToTheEnd }
}

choices! {
    /// The order in which the lists are read.
    pub enum Turns { OfTable, Reversed, RisingStart }
}

parts! {
    /// A refusal of a pair of the table.
    pub struct PairCheck {
        pub verdict: u32,
        pub test: Test,
        pub tested: Tested,
        pub position: PairAt,
    }
}

choices! {
    /// When a pair is tested: at its turn before its list, before any list is read, or behind 1, 2 or all
    /// refusals of its list.
    pub enum Tested { InTurn, BeforeAll, BehindTooLong, BehindImage, BehindList }
}

choices! {
    /// The position of a refused pair.
    pub enum PairAt {
        Zero, Pair, NextPair, TableWord, Start, Length, End, BufferWords, LengthBefore, LengthsBefore
    }
}

choices! {
    /// The words that may not be over 4,096.
    pub enum TooLong { EachList, AllLists, Buffer }
}

choices! {
    /// What a table without a pair is.
    pub enum NoPair { Accepted, ImageChecked, Refused }
}

choices! {
    /// What a pair of length 0 is.
    pub enum EmptyList { Read, Skipped }
}

choices! {
    /// The image that a list meets: the one left by the list before, or the first.
    pub enum SceneImage { RunsOn, StartsAnew }
}

choices! {
    /// The record buffer that a list gets: behind the records written, the whole one, the whole one's room
    /// behind the records written, or as much as the first list left.
    pub enum SceneRoom { StillLeft, FromFront, WholeBehind, LeftByFirst }
}

choices! {
    /// What positions in records count from.
    pub enum RecordPositions { InList, InBuffer, RunningOn }
}

choices! {
    /// What a list knows of a surface base before it.
    pub enum ListOrder { Fresh, CarriedOver }
}

choices! {
    /// Where the call ends, and which refusal is told.
    pub enum Stops { AtFirstRefusal, NeverTellingFirst, NeverTellingLast, NeverTellingAny }
}

choices! {
    /// What stays when a list is refused: what the lists before left, nothing, or what the commands before
    /// the refused one leave too.
    pub enum OnRefusal { ListsBefore, Nothing, RefusedToo }
}

choices! {
    pub enum AcceptedAt {
        LastLength, LastNotEmpty, FirstLength, AllLengths, LastStart, LastEnd, BufferWords, Lists,
        Zero
    }
}

choices! {
    pub enum RefusedAt { InList, InBuffer, RunningOn, Start, Pair, LengthBefore, BufferWords, Zero }
}

choices! {
    pub enum NothingRead { Zero, BufferWords, TableWords }
}

choices! {
    /// What is counted over the lists.
    pub enum SceneCount { Sum, OfLast, OfFirst, ZeroOnRefusal, WithRefused, ListWords }
}

choices! {
    /// What is told as the number of lists.
    pub enum ListsTold {
        Applied, WithRefused, PairsOfTable, NotEmpty, WithRecords, ZeroOnRefusal, NumberOfLast
    }
}
