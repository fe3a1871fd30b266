//! Document 01, and Tickets 1 to 8 of document 02, as a value: each part under its sentence.

use super::books::*;
use super::language::{Comparison, Field, Mask, Quantity, Set, Test, Value};
use super::scenes::*;
use super::shape::*;
use super::swap::*;
use super::tool::tool;
use crate::vary::parts;

pub const MAX_LIST_WORDS: usize = 4096;
pub const IMAGE_WORDS: usize = 256;
pub const RECORD_WORDS: usize = 4;
/// "every other verdict gives 32 there"
pub const NO_BIT: u32 = 32;
/// "Other calls use mode 0."
pub const OTHER_CALLS: FixedMode = FixedMode::Unchanged;

const ONE_FULL: &[u32] = &[0xFFFFFF];
const FOUR_FULL: &[u32] = &[0xFFFFFF, 0xFFFFFFFF, 0xFFFFFFFF, 0xFFFFFFFF];
const BEGIN: &[u32] = &[0xFFFFFF, 0x803FFFFF, 0x0FFFFFFF, 0x00000000];
const LOAD: &[u32] = &[0xF7FDFF, 0xFFFFFFFF, 0xFFFFFFFF, 0xFFFFFFFF];
const CLIP: &[u32] = &[0xFFFFFF, 0x3FFF0FFF, 0xFFFFFFFF, 0xFFFFFFFF];
const RASTER: &[u32] = &[0xE7FFFF, 0x00FFFFFF, 0x003FFFFF, 0x00FFFFFF];
const DEPTH: &[u32] = &[0xFFFFFF, 0x00FFFFFF, 0x0FFF0FFF, 0x0FFF0FFF];
const LOD_BIAS: &[u32] = &[0x000000, 0xFFFFFFFF, 0xFFFFFFFF, 0xFFFFFFFF];

parts! {
    /// Fields that the papers name, the image word of every BEGIN, the form, the addresses over PCI.
    /// Several rules use some.
    pub struct Terms {
        pub id: Field,
        pub header: Field,
        pub load_converts: Field,
        pub load_code: Field,
        pub load_offset: Field,
        pub load_length: Field,
        pub bank: Field,
        pub page_maximum: Field,
        pub page_minimum: Field,
        pub page_based: Field,
        pub full_page: Field,
        pub begin_word: usize,
        pub form: Form,
        pub addresses: Addresses,
    }
}

impl Terms {
    pub fn paper() -> Terms {
        Terms {
            // "its id in bits 31..24 and a 24-bit header below"
            id: Field::bits(0, 31, 24),
            header: Field::bits(0, 23, 0),
            // "bit 23 converts IEEE floats, bits 22..20 are the load code, 18..10 the start offset,
            // 8..0 the length"
            load_converts: Field::bit(0, 23),
            load_code: Field::bits(0, 22, 20),
            load_offset: Field::bits(0, 18, 10),
            load_length: Field::bits(0, 8, 0),
            // "bits 29..28 of the second word are the bank", "In the third word, bits 31..28 are the
            // stored page maximum and bits 15..12 the stored minimum"
            bank: Field::bits(1, 29, 28),
            page_maximum: Field::bits(2, 31, 28),
            page_minimum: Field::bits(2, 15, 12),
            // "header bit 22 (page-based rendering)", "bit 14 (always full page)"
            page_based: Field::bit(0, 22),
            full_page: Field::bit(0, 14),
            // "Any BEGIN puts its header in word 08."
            begin_word: 0x08,
            form: form(),
            addresses: addresses(),
        }
    }
}

impl Rules {
    pub fn paper() -> Rules {
        Rules::with(&Terms::paper())
    }

    pub fn with(terms: &Terms) -> Rules {
        Rules {
            id: terms.id,
            tested_header: terms.header,
            left_header: terms.header,
            // "Ids 03 and 04 go only through PCI."
            pci: ids(&[0x03, 0x04]),
            table: Table(table(terms)),
            before_commands: before_commands(),
            each_command: each_command(),
            room_for_records: room(),
            room_for_form: room(),
            told_bit: told_bit(terms),
            // "after a surface base command (21, 23 or 25) the list ends, or the next command is a
            // BEGIN"
            base_may_end_list: true,
            base_lasts: BaseLasts::OneCommand,
            swap: swap(),
            records: records(terms),
            form: terms.form.clone(),
            measure: measure(terms),
            listing: listing(),
            to_pci: to_pci(terms),
            from_pci: from_pci(terms),
            scenes: scenes(),
            books: books(),
            tool: tool(),
        }
    }
}

fn table(terms: &Terms) -> Vec<Row> {
    vec![
        work(0x00, ONE_FULL),
        work(0x01, &[0x000714]),
        setting(0x02, ONE_FULL),
        work_leaving_header(0x05, ONE_FULL),
        begin(0x08, terms),
        begin(0x0C, terms),
        begin(0x10, terms),
        begin(0x14, terms),
        work_leaving_header(0x20, &[0x00000F]),
        surface_base(0x21),
        work_leaving_header(0x22, &[0x00000F]),
        surface_base(0x23),
        work_leaving_header(0x24, &[0x00000F]),
        surface_base(0x25),
        setting(0x26, &[0x8F8F8F]),
        setting(0x30, ONE_FULL),
        setting(0x31, ONE_FULL),
        load(0x40, terms),
        Row { faults: primitive_faults(terms), ..work(0x48, FOUR_FULL) },
        Row { faults: clip_faults(terms), ..setting(0x84, CLIP) },
        Row { faults: raster_faults(terms), ..setting(0x88, RASTER) },
        setting(0x8C, FOUR_FULL),
        setting(0x90, DEPTH),
        setting(0xC4, LOD_BIAS),
    ]
}

/// "Commands 00, 01, 40 and 48 put nothing in the image."
fn work(id: u32, masks: &[u32]) -> Row {
    Row::new(id, masks)
}

/// "Commands 05 and 20 to 25 put their header in the word of their id."
fn work_leaving_header(id: u32, masks: &[u32]) -> Row {
    Row { leaves: Leaves::Header(id as usize), ..work(id, masks) }
}

fn surface_base(id: u32) -> Row {
    Row { flip: Flip::SurfaceBase, ..work_leaving_header(id, ONE_FULL) }
}

fn begin(id: u32, terms: &Terms) -> Row {
    let leaves = Leaves::Header(terms.begin_word);
    Row { leaves, flip: Flip::Begin, ..work(id, BEGIN) }
}

/// "A setting of one word puts its header in the image word of its id. A setting of four words puts
/// the header in word id and the rest in id+1 to id+3."
fn setting(id: u32, masks: &[u32]) -> Row {
    Row { kind: Kind::Setting, leaves: Leaves::AllWords(id as usize), ..work(id, masks) }
}

/// "The group is followed by length groups of four words."
fn load(id: u32, terms: &Terms) -> Row {
    Row { payload: Some(payload(terms)), faults: load_faults(terms), ..work(id, LOAD) }
}

fn payload(terms: &Terms) -> Payload {
    Payload { groups: terms.load_length, more_groups: 0, group_words: 4 }
}

fn fault(kind: FaultKind, word: usize, test: Test) -> Fault {
    Fault { kind, word, test }
}

fn illegal(word: usize, test: Test) -> Fault {
    fault(FaultKind::Illegal, word, test)
}

fn load_faults(terms: &Terms) -> Vec<Fault> {
    use FaultKind::{LoadConverts, PlaneRange};
    let code = terms.load_code;
    let planes = terms.load_offset.plus(terms.load_length);
    // A mask for each legal code, and one for the others.
    let must_be_zero = |word: usize, codes: &[u32]| {
        let masks = [vec![0], vec![1], vec![2], vec![5], vec![3, 4, 6, 7]].map(|of| {
            let zero = of.iter().all(|code| codes.contains(code));
            (of, Mask { bits: if zero { !0 } else { 0 }, width: 32 })
        });
        illegal(word, Value::Bits { word, key: code, masks: masks.to_vec() }.is_not(0))
    };
    vec![
        // "3, 4, 6 and 7 are illegal"
        illegal(0, code.one_of(&[3, 4, 6, 7], 8)),
        // "The second word is zero unless the code is 2."
        must_be_zero(1, &[0, 1, 3, 4, 5, 6, 7]),
        // "the third and fourth are zero for codes 0 and 5"
        must_be_zero(2, &[0, 5]),
        must_be_zero(3, &[0, 5]),
        // "bit 23 may be set only with code 5"
        fault(LoadConverts, 0, terms.load_converts.is_not(0).and(code.one_of(&[5], 8).not())),
        // "For code 5, offset plus length is at most 8"
        fault(PlaneRange, 0, code.one_of(&[5], 8).and(planes.over(Value::Number(8)))),
    ]
}

/// "header and three words all zero. Any other value is illegal."
fn primitive_faults(terms: &Terms) -> Vec<Fault> {
    vec![
        illegal(0, terms.header.is_not(0)),
        illegal(1, Field::word(1).is_not(0)),
        illegal(2, Field::word(2).is_not(0)),
        illegal(3, Field::word(3).is_not(0)),
    ]
}

fn clip_faults(terms: &Terms) -> Vec<Fault> {
    use FaultKind::{PageMaximum, PageMinimum};
    let (maximum, minimum) = (terms.page_maximum, terms.page_minimum);
    vec![
        // "the bank; 3 is illegal"
        illegal(1, terms.bank.is(3)),
        // "the stored maximum is at most 15, 11 and 6"
        fault(PageMaximum, 2, maximum.over(Value::At(terms.bank, vec![15, 11, 6]))),
        // Ticket 3: "From now on the minimum is zero or less than the stored maximum plus one."
        fault(PageMinimum, 2, minimum.is_not(0).and(minimum.at_least(maximum.plus_number(1)))),
    ]
}

/// "if header bit 22 (page-based rendering) is 0, bit 14 (always full page) is 0"
fn raster_faults(terms: &Terms) -> Vec<Fault> {
    vec![fault(FaultKind::RasterBits, 0, terms.page_based.is(0).and(terms.full_page.is_not(0)))]
}

fn check(verdict: u32, test: Test, position: Position) -> Check {
    Check { verdict, when: When::Holds(test), position }
}

fn before_commands() -> Vec<Check> {
    vec![
        // "more than 4,096 words"
        check(1, Quantity::ListWords.over(4096), Position::At(4096)),
        // "image not 256 words"
        check(2, Quantity::ImageWords.is_not(256), Position::At(0)),
    ]
}

fn each_command() -> Vec<Check> {
    use FaultKind::{Illegal, LoadConverts, PageMaximum, PageMinimum, PlaneRange, RasterBits};
    use Position::{FirstWord, ThatWord};
    let fault = |verdict, kind, position| Check { verdict, when: When::Fault(kind), position };
    vec![
        // "unknown id"
        check(3, Quantity::Known.is(0), FirstWord),
        // "id 03 or 04"
        check(4, Quantity::OnlyThroughPci.is_not(0), FirstWord),
        // "fewer than four words left for a group"
        check(5, Quantity::WordsLeft.fewer_than(Quantity::OwnWords), FirstWord),
        // "undefined bit set": "lowest such word"
        Check { verdict: 6, when: When::UndefinedBit(WhichWord::Lowest), position: ThatWord },
        // "illegal value": "lowest such word"
        fault(7, Illegal, ThatWord),
        // "Number 8 is no longer given. Refusals, in 8's old place", at the "command's first word":
        // "15 maximum over the bank's limit, 16 minimum against maximum", "Where 15 and 16 both
        // hold, 15 is given."
        fault(15, PageMaximum, FirstWord),
        fault(16, PageMinimum, FirstWord),
        // "17 raster bits"
        fault(17, RasterBits, FirstWord),
        // "18 bit 23 of a load"
        fault(18, LoadConverts, FirstWord),
        // "19 plane range"
        fault(19, PlaneRange, FirstWord),
        // "payload cut short"
        check(9, Quantity::WordsLeft.fewer_than(Quantity::Length), FirstWord),
        // "this command follows a surface base and is not a BEGIN"
        check(10, Quantity::AfterBase.is_not(0).and(Quantity::IsBegin.is(0)), FirstWord),
    ]
}

/// "With 6, the answer now also gives the number of the lowest undefined bit set in that word; every
/// other verdict gives 32 there."
fn told_bit(terms: &Terms) -> ToldBit {
    ToldBit {
        // The masks are of the header: "id bits count as defined".
        header: terms.header,
        of: BitOf::That,
        among: Among::UndefinedAndSet,
        which: WhichBit::Lowest,
        numbered: Numbered::FromLowest,
        otherwise: NO_BIT,
    }
}

/// "The list reader and the normaliser take a mode from 0 to 3"
fn swap() -> Swap {
    // "unchanged, bytes swapped in each half, halves swapped, all four bytes reversed"
    let modes = [[0, 1, 2, 3], [1, 0, 3, 2], [2, 3, 0, 1], [3, 2, 1, 0]];
    Swap {
        modes: Modes(modes.map(Bytes).to_vec()),
        mode_bits: Mask { bits: !0, width: 32 },
        // "The word got at a position is now the swapped one, and every promise above it reads it so."
        swapped: Swapped::EveryWord,
        // "records, forms and image hold the words so got"
        records: Held::Got,
        image: Held::Got,
        form: Held::Got,
        // "21 for a mode over 3, at 0, before 1"
        refused: check(21, Quantity::Mode.over(3), Position::At(0)),
        asked: Asked::First,
    }
}

/// "record or output buffer too small"
fn room() -> Vec<Check> {
    vec![check(11, Quantity::Needed.more_than(Quantity::Room), Position::ListLength)]
}

/// "Each work command gives one record, in list order: id, position of its first word, its length in
/// words with payload, header." "The room in a record buffer is its length divided by four, rounded
/// down."
fn records(terms: &Terms) -> Records {
    use RecordWord::{Header, Id, Length, Position};
    Records {
        words: vec![Id, Position, Length, Header],
        header: terms.header,
        of: Recorded::Work,
        order: RecordOrder::OfList,
        room: RecordRoom { words: RECORD_WORDS, rounded: Rounded::Down },
    }
}

/// "before each work command, in rising id, one command for each setting of which at least one image
/// word differs between that list's image now and the image that the form has built so far, with the
/// list's values; then the work command unchanged, payload and all. After the last work command the
/// differing settings follow in the same way."
fn form() -> Form {
    let differing = Settings {
        written: true,
        order: SettingOrder::RisingId,
        compared_with: ComparedWith::Built,
        values: SettingValues::OfList,
    };
    Form {
        before_work: differing.clone(),
        work: WorkWords::WithPayload,
        after_last_work: differing,
    }
}

/// "a question on a list and an image that answers verdict, position and the normal form's length (0
/// on refusal), with the normaliser's refusals except 11"
fn measure(terms: &Terms) -> Measure {
    Measure {
        mode: OTHER_CALLS,
        form: terms.form.clone(),
        from: MeasuredFrom::Given,
        told: Told::FormWords,
        refused: RefusedTold::Zero,
        room: Vec::new(),
    }
}

fn listing() -> Listing {
    let column = |word, digits, least_digits| Column { word, digits, least_digits };
    Listing {
        // "Over 16,384 bytes is refusal 1, ahead of 12; 12 comes before any command is read."
        before_list: vec![
            check(1, Quantity::InputBytes.over(16_384), Position::At(4096)),
            check(12, Quantity::SpareBytes.is_not(0), Position::WholeWordsRead),
        ],
        // "reads standard input as little-endian words and starts from a zero image"
        byte_order: ByteOrder::Little,
        mode: OTHER_CALLS,
        starting_word: 0,
        // "a header line, then a line per record: position decimal, id as two hex digits, length
        // decimal, header as six hex digits, lower case. The last line has the counts."
        title: "at id words head".into(),
        columns: vec![
            column(1, Digits::Decimal, 1),
            column(0, Digits::LowerHex, 2),
            column(2, Digits::Decimal, 1),
            column(3, Digits::LowerHex, 6),
        ],
        between_columns: " ".into(),
        line_end: "\n".into(),
        accepted: "accepted commands ".into(),
        items: " items ".into(),
        // "A refusal prints only `refused N at P`."
        refused: "refused ".into(),
        at: " at ".into(),
    }
}

fn addresses() -> Addresses {
    Addresses {
        // "a one-word command goes to 2800 hex plus id × 4"
        base: Mask { bits: 0x2800, width: 32 },
        id_of: IdOf::Command,
        with_id: WithId::FourTimes,
        // "A group's four words go there and to the next three addresses in steps of 4."
        step: 4,
        group_words: 4,
        // "Each payload group of a load uses the load's own four addresses again."
        payload: PayloadAddresses::StartAgain,
    }
}

fn ids(members: &[u32]) -> Set {
    Set { members: members.to_vec(), below: 256 }
}

fn to_pci(terms: &Terms) -> ToPci {
    ToPci {
        mode: OTHER_CALLS,
        id: terms.id,
        addresses: terms.addresses.clone(),
        // "BEGIN counts as a group"
        begin: BeginWords::Group,
        // "Pairs lie in one word buffer, address first"
        pair: vec![PairWord::Address, PairWord::Value],
        room: room(),
    }
}

fn from_pci(terms: &Terms) -> FromPci {
    use Position::{FirstWord, ThatWord};
    FromPci {
        mode: OTHER_CALLS,
        pair_words: 2,
        address: 0,
        value: 1,
        // "an odd last word is ignored"
        odd_word: OddWord::Ignored,
        id: terms.id,
        addresses: terms.addresses.clone(),
        compared: Mask { bits: !0, width: 32 },
        // "BEGIN counts as a group", "an unknown id, 03 or 04 counts as one word"
        groups: ids(&[0x08, 0x0C, 0x10, 0x14, 0x40, 0x48, 0x84, 0x88, 0x8C, 0x90, 0xC4]),
        // "a load's length is always its header's"
        loads: ids(&[0x40]),
        payload: payload(terms),
        // "Order there: 1, 2", for a list of one word from each pair
        before_pairs: before_commands(),
        // "13 or 14 as the pairs are met (13 first inside a cut command)"
        each_command: vec![
            // "a pair whose address isn't the expected one, at that pair's number"
            Check { verdict: 13, when: When::WrongAddress(WhichWord::Lowest), position: ThatWord },
            // "pairs that stop inside a command", "at the command's first pair"
            check(14, Quantity::WordsLeft.fewer_than(Quantity::Length), FirstWord),
        ],
        // "then 3 to 10 of the list recovered, then 11"
        room: room(),
    }
}

fn scenes() -> Scenes {
    Scenes {
        mode: OTHER_CALLS,
        // "a table of start and length pairs"
        pair: vec![TableWord::Start, TableWord::Length],
        // "An odd last word of the table is ignored"
        odd_word: SpareWord::Ignored,
        // "read the lists in turn, each as a list of its own, over one image"
        turns: Turns::OfTable,
        too_long: TooLong::EachList,
        empty_list: EmptyList::Read,
        image: SceneImage::RunsOn,
        // "20 for a pair after the 4,096th"
        too_many: pair_refused(Quantity::PairNumber.over(4096)),
        // "or outside the buffer (start plus length over its words, here and later)"
        outside: pair_refused(Quantity::ListEnd.more_than(Quantity::BufferWords)),
        // "a table with no pair is accepted with any image"
        no_pair: NoPair::Accepted,
        // "single calls, each with the record room still left, and record positions counted inside each
        // list"
        room: SceneRoom::StillLeft,
        record_positions: RecordPositions::InList,
        // "A surface base may end one list and the next need not open with BEGIN."
        order: ListOrder::Fresh,
        // "The first refused list stops the call; lists before it stay applied", "the refusal itself
        // changes nothing more"
        stops: Stops::AtFirstRefusal,
        image_on_refusal: OnRefusal::ListsBefore,
        records_on_refusal: OnRefusal::ListsBefore,
        // "the position is the last call's, or 0 where 20 is given or no list was read"
        accepted_at: AcceptedAt::LastLength,
        refused_at: RefusedAt::InList,
        nothing_read: NothingRead::Zero,
        // "Counts are sums over the lists applied", "the answer says how many"
        commands: SceneCount::Sum,
        records: SceneCount::Sum,
        words: SceneCount::Sum,
        lists: ListsTold::Applied,
    }
}

/// "checked when its turn comes and before the list", "0 where 20 is given"
fn pair_refused(test: Test) -> PairCheck {
    PairCheck { verdict: 20, test, tested: Tested::InTurn, position: PairAt::Zero }
}

/// "We want one file: contents table, then bodies."
fn books() -> Books {
    Books { reader: book_reader(), writer: book_writer() }
}

/// "Each entry is three words: scene number, start, length."
fn entry() -> Vec<EntryWord> {
    vec![EntryWord::Number, EntryWord::Start, EntryWord::Length]
}

fn contents(first_word: usize) -> Contents {
    let word = Mask { bits: !0, width: 32 };
    Contents { first_word, entry: entry(), number: word, start: word, length: word }
}

fn book_check(verdict: u32, faults: Vec<BookFault>) -> BookCheck {
    BookCheck { verdict, faults }
}

/// "Scene numbers rise strictly": "23 numbers not rising"
fn not_rising() -> BookCheck {
    let test = BookQuantity::Number.compare(Comparison::AtMost, BookQuantity::NumberBefore);
    book_check(23, vec![BookFault::Entry(Entries::BehindFirst, test)])
}

/// "A body has at most 4,096 words."
fn body_too_long() -> BookFault {
    BookFault::Entry(Entries::Every, BookQuantity::Length.over(4096))
}

fn book_reader() -> BookReader {
    use BookFault::{Entry, Whole};
    use BookQuantity::{BodiesEnd, ContentsWords, Count, Found, Place, Start, Words};
    use Comparison::{NotEqual, Over};
    BookReader {
        // "Its first word is the number of entries"
        count: Mask { bits: !0, width: 32 },
        contents: contents(1),
        // "Starts count words from the file's beginning."
        starts: StartsFrom::File,
        // "Refusals, in this order"
        checks: BookChecks(vec![
            // "22 table cut short or over 256"
            book_check(22, vec![Whole(Count.over(256)), Whole(ContentsWords.compare(Over, Words))]),
            not_rising(),
            // "24 a body too long or not where the rule puts it, or words left over": "bodies stand in
            // contents order, touch each other, begin right after the table and end with the file"
            book_check(
                24,
                vec![
                    body_too_long(),
                    Entry(Entries::Every, Start.compare(NotEqual, Place)),
                    Whole(BodiesEnd.compare(NotEqual, Words)),
                ],
            ),
            // "25 no such scene"
            book_check(25, vec![Whole(Found.is(0))]),
        ]),
        passes: Passes::CheckByCheck,
        reach: Reach::WholeTable,
        found_by: FoundBy::Number,
        // "the reader hands back that very stretch of the caller's buffer, an empty one on refusal"
        start: ToldStart::InFile,
        length: ToldLength::OfBody,
        refused: RefusedStretch::Nothing,
    }
}

fn book_writer() -> BookWriter {
    use BookFault::{Entry, Whole};
    use BookQuantity::{BookWords, Count, End, Room, SpareWords, Words};
    use Comparison::Over;
    BookWriter {
        // "a table of such entries, with no count word, over a word buffer where its starts count"
        table: contents(0),
        checks: BookChecks(vec![
            // "The writer gives 22, 23, 24 for a body too long or outside its buffer and, last, 11": "exactly
            // when what is to be written doesn't fit"
            book_check(22, vec![Whole(SpareWords.is_not(0)), Whole(Count.over(256))]),
            not_rising(),
            book_check(24, vec![body_too_long(), Entry(Entries::Every, End.compare(Over, Words))]),
            book_check(11, vec![Whole(BookWords.compare(Over, Room))]),
        ]),
        passes: Passes::CheckByCheck,
        // "Its first word is the number of entries", then as the reader has it
        count: CountWord::Entries,
        entry: entry(),
        starts: WrittenStart::InFile,
        bodies: BodyOrder::OfTable,
        words: WordsTold::Book,
        // "On refusal the last three are 0, and image and buffers are as before."
        refused: RefusedWords::Zero,
        on_refusal: BufferOnRefusal::Kept,
    }
}
