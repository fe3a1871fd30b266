//! The tool's paper, docs/TOOL.md, as a value: each part under its sentence.

use super::shape::*;
use crate::rules::document::OTHER_CALLS;
use crate::rules::language::Quantity;
use crate::rules::{ByteOrder, Check, Digits, Position, Recorded, Set, SettingOrder, Test, When};

const ALL: &[Task] = &Task::ALL;
const WITH_OUT: &[Task] = &[Task::Image, Task::Normalise, Task::Pci, Task::List];
/// "8 is no longer given, and 11 never by the tool"
const REFUSALS: &[u32] = &[1, 2, 3, 4, 5, 6, 7, 9, 10, 12, 13, 14, 15, 16, 17, 18, 19];
/// "not with 1, 2 and 12"
const AT_A_WORD: &[u32] = &[3, 4, 5, 6, 7, 9, 10, 13, 14, 15, 16, 17, 18, 19];

pub fn tool() -> Tool {
    Tool {
        // "`image` and `show` as the reader, `normalise`, `pci` = to_pci, `list` = from_pci"
        show: Does { reads: Reads::List, writes: Writes::Nothing },
        image: Does { reads: Reads::List, writes: Writes::Image },
        normalise: Does { reads: Reads::List, writes: Writes::Form },
        pci: Does { reads: Reads::List, writes: Writes::Pairs },
        list: Does { reads: Reads::Pairs, writes: Writes::List },
        // "1 at 4096 where LIST has over 16,384 bytes (PAIRS: over 32,775 bytes, so 4,097 pairs or more)"
        list_sizes: sizes(16_384),
        pairs_sizes: sizes(32_775),
        // "Files hold little-endian 32-bit words."
        input_order: ByteOrder::Little,
        image_order: ByteOrder::Little,
        output_order: ByteOrder::Little,
        mode: OTHER_CALLS,
        told_command: told_command(),
        settings: settings(),
        refused: refused(),
        accepted: accepted(),
        line_end: "\n".into(),
        names: Names(NAMES.map(|(id, name)| Name { id, name: name.into() }).to_vec()),
        rows: RefusalRows(ROWS.map(row).to_vec()),
    }
}

/// "in this order: 1 ..; 12 at (bytes / 4) where its bytes are no multiple of four; 2 at 0 where IMAGE
/// has not 1,024 bytes"
fn sizes(most: u32) -> Vec<Check> {
    let check =
        |verdict, test: Test, position| Check { verdict, when: When::Holds(test), position };
    vec![
        check(1, Quantity::InputBytes.over(most), Position::At(4096)),
        check(12, Quantity::SpareBytes.is_not(0), Position::WholeWordsRead),
        check(2, Quantity::ImageBytes.is_not(1024), Position::At(0)),
    ]
}

/// "from word 0 on, commands follow each other, each with the words that its id and header give it
/// (payload included; an unknown id, 03 and 04 are one word; .. a load's payload counts as its header
/// says): the one whose words reach over P"
fn told_command() -> ToldCommand {
    ToldCommand {
        found: Found::FromFirstWord,
        groups: Ids(vec![0x08, 0x0C, 0x10, 0x14, 0x40, 0x48, 0x84, 0x88, 0x8C, 0x90, 0xC4]),
        loads: Ids(vec![0x40]),
        payload: Counted::OfEveryLoad,
    }
}

/// "for each setting, in rising id, of which at least one image word differs between the image before
/// the list and after it"
fn settings() -> ShownSettings {
    ShownSettings {
        of: Recorded::Settings,
        which: WhichSettings::Changed,
        from: ShownFrom::Given,
        differing: Differing::Any,
        order: SettingOrder::RisingId,
    }
}

fn line(tasks: &[Task], verdicts: Set, repeated: Repeated, pieces: &[Piece]) -> Line {
    let members = tasks.iter().map(|task| *task as u32).collect();
    Line { tasks: Set { members, below: 5 }, verdicts, repeated, pieces: pieces.to_vec() }
}

fn refused_line(tasks: &[Task], verdicts: &[u32], pieces: &[Piece]) -> Line {
    line(tasks, Set { members: verdicts.to_vec(), below: 20 }, Repeated::Once, pieces)
}

fn accepted_line(tasks: &[Task], repeated: Repeated, pieces: &[Piece]) -> Line {
    line(tasks, Set { members: vec![0], below: 1 }, repeated, pieces)
}

fn text(text: &str) -> Piece {
    Piece::Text(text.into())
}

/// "Numbers are decimal, ids two hex digits, headers six, words eight, lower case."
fn decimal(of: Shown) -> Piece {
    Piece::Number(Number { of, digits: Digits::Decimal, least_digits: 1 })
}

fn hex(of: Shown, least_digits: usize) -> Piece {
    Piece::Number(Number { of, digits: Digits::LowerHex, least_digits })
}

/// "all its words before, then after (1 or 4, a space between words)"
fn words(of: BeforeOrAfter) -> Piece {
    Piece::Words(SettingWords {
        of,
        which: ShownWords::All,
        digits: Digits::LowerHex,
        least_digits: 8,
        between: " ".into(),
    })
}

fn name() -> Piece {
    Piece::Name(" ".into())
}

fn refused() -> Vec<Line> {
    use Shown::{Address, At, Bit, Id, ImageBytes, Position, Verdict, Word};
    let why = [text("why "), Piece::Row(RowPart::Meaning), text(" - "), Piece::Row(RowPart::Look)];
    vec![
        // "refused N at P"
        refused_line(
            ALL,
            REFUSALS,
            &[text("refused "), decimal(Verdict), text(" at "), decimal(Position)],
        ),
        // "image B bytes: with 2 only: B is the bytes of IMAGE that were read"
        refused_line(ALL, &[2], &[text("image "), decimal(ImageBytes), text(" bytes")]),
        // "address AAAAAAAA: `list` only, where there is a word line: the address of pair P"
        refused_line(&[Task::List], AT_A_WORD, &[text("address "), hex(Address, 8)]),
        // "word WWWWWWWW: the word at P (of PAIRS the value of pair P); not with 1, 2 and 12"
        refused_line(ALL, AT_A_WORD, &[text("word "), hex(Word, 8)]),
        // "command II NAME at Q: the command that the word stands in: its id, its name, the position
        // of its first word"
        refused_line(
            ALL,
            AT_A_WORD,
            &[text("command "), hex(Id, 2), name(), text(" at "), decimal(At)],
        ),
        // "bit K: with 6 only: the bit told"
        refused_line(ALL, &[6], &[text("bit "), decimal(Bit)]),
        // "why MEANING - LOOK"
        refused_line(ALL, REFUSALS, &why),
    ]
}

fn accepted() -> Vec<Line> {
    use Repeated::{ByRecord, BySetting, Once};
    use Shown::{At, Commands, FormWords, Header, Id, Position, Records, Words, WordsWritten};
    let show = &[Task::Show];
    vec![
        // "accepted commands C items R"
        accepted_line(
            ALL,
            Once,
            &[text("accepted commands "), decimal(Commands), text(" items "), decimal(Records)],
        ),
        // "sets: id name before -> after", "II NAME W .. -> W .."
        accepted_line(show, Once, &[text("sets: id name before -> after")]),
        accepted_line(
            show,
            BySetting,
            &[
                hex(Id, 2),
                name(),
                text(" "),
                words(BeforeOrAfter::Before),
                text(" -> "),
                words(BeforeOrAfter::After),
            ],
        ),
        // "draws: at id words head name", "P II N HHHHHH NAME": "as a line of the listing, and the name"
        accepted_line(show, Once, &[text("draws: at id words head name")]),
        accepted_line(
            show,
            ByRecord,
            &[
                decimal(At),
                text(" "),
                hex(Id, 2),
                text(" "),
                decimal(Words),
                text(" "),
                hex(Header, 6),
                name(),
            ],
        ),
        // "words L normal form F"; the position of an accepted list is its length
        accepted_line(
            show,
            Once,
            &[text("words "), decimal(Position), text(" normal form "), decimal(FormWords)],
        ),
        // "written W words"; "W counts words (image 256; pci two for each pair)."
        accepted_line(WITH_OUT, Once, &[text("written "), decimal(WordsWritten), text(" words")]),
    ]
}

const NAMES: [(u32, &str); 26] = [
    (0x00, "flush"),
    (0x01, "reset"),
    (0x02, "timer threshold"),
    (0x03, "PCI only"),
    (0x04, "PCI only"),
    (0x05, "trigger"),
    (0x08, "BEGIN master"),
    (0x0C, "BEGIN 2D"),
    (0x10, "BEGIN 3D"),
    (0x14, "BEGIN flip"),
    (0x20, "surface 0 control"),
    (0x21, "surface 0 base"),
    (0x22, "surface 1 control"),
    (0x23, "surface 1 base"),
    (0x24, "surface 2 control"),
    (0x25, "surface 2 base"),
    (0x26, "extended base"),
    (0x30, "2D overflow base"),
    (0x31, "2D overflow offset"),
    (0x40, "LOAD_GP"),
    (0x48, "primitive"),
    (0x84, "window clip"),
    (0x88, "raster mode"),
    (0x8C, "polygon offset"),
    (0x90, "depth constants"),
    (0xC4, "LOD bias enables"),
];

fn row((verdict, meaning, look): (u32, &str, &str)) -> RefusalRow {
    RefusalRow { verdict, meaning: meaning.into(), look: look.into() }
}

const ROWS: [(u32, &str, &str); 17] = [
    (1, "more than 4,096 words", "split the list"),
    (2, "the image has not 256 words", "the caller's image, not the list"),
    (
        3,
        "unknown id",
        "bits 31..24 of that word; often the command before has a wrong length",
    ),
    (4, "id 03 or 04", "these go over PCI only, never in a list"),
    (5, "fewer than four words left for a group", "the list was cut, or its last group"),
    (
        6,
        "undefined bit set",
        "the bit that the answer names, the lowest one: it must be zero",
    ),
    (
        7,
        "illegal value",
        "load code, zero words of a load or primitive, bank 3 of a window clip",
    ),
    (
        9,
        "payload cut short",
        "the load's length, bits 8..0, counts groups of four words behind its own",
    ),
    (10, "follows a surface base and is no BEGIN", "put the BEGIN right behind the base"),
    (12, "programs only: bytes no multiple of four", "the file was cut, or is no list"),
    (
        13,
        "PCI writes only: not the address that the command asks for",
        "the address; often a value is missing or the command before has a wrong length",
    ),
    (
        14,
        "PCI writes only: the pairs end inside a command",
        "the writes were cut, or a load's length is too large",
    ),
    (
        15,
        "window clip: page maximum over the bank's limit",
        "third word, bits 31..28: at most 15, 11 and 6 for banks 0, 1 and 2 (second word, bits 29..28)",
    ),
    (
        16,
        "window clip: page minimum against the maximum",
        "third word: bits 15..12 (minimum) are at most bits 31..28 (maximum)",
    ),
    (
        17,
        "raster mode: raster bits",
        "header bit 14 (always full page) may be set only with bit 22 (page-based rendering)",
    ),
    (
        18,
        "load: bit 23",
        "header bit 23 (float conversion) may be set only with code 5 in bits 22..20",
    ),
    (
        19,
        "load: plane range",
        "header bits 18..10 (offset) and 8..0 (length): their sum is at most 8 with code 5",
    ),
];
