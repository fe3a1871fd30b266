//! What the tool says of a list or of pairs, and the words that it writes.

mod paper;
mod shape;

use super::pci::Recovered;
use super::{
    Answer, ByteOrder, Digits, Facts, Kind, Leaves, Recorded, Refusal, Row, Rules, SettingOrder,
    IMAGE_WORDS, OTHER_ID, RECORD_WORDS,
};
pub use paper::tool;
pub use shape::*;

/// The text, and the bytes of OUT.
#[derive(Clone, Debug, PartialEq, Eq)]
pub struct Run {
    pub text: String,
    pub words: Vec<u8>,
}

/// What is known of a list when its text is written.
struct Told<'a> {
    answer: Answer,
    input_bytes: usize,
    image_bytes: usize,
    /// The list, and of pairs the addresses.
    list: &'a [u32],
    given: &'a [u32],
    before: Vec<u32>,
    after: Vec<u32>,
    form_words: u32,
    words_written: usize,
}

/// What a line is about: the refused word's command, a setting or a record.
#[derive(Default)]
struct Subject<'a> {
    id: u32,
    at: u32,
    words: u32,
    header: u32,
    setting: Option<&'a Row>,
}

impl Rules {
    /// For the bytes that are read of LIST or PAIRS and of IMAGE.
    pub fn run(&self, task: Task, input: &[u8], image: &[u8]) -> Run {
        let does = self.tool.does(task);
        let words = words_of(input, self.tool.input_order);
        let words = self.words_got(self.tool.mode as u32, &words);
        let Recovered { given, values: list } = match does.reads {
            Reads::List => Recovered { given: Vec::new(), values: words.clone() },
            Reads::Pairs => self.from_pci.recovered(&words),
        };
        let before = words_of(image, self.tool.image_order);
        let answer = match self.sizes(does, input, image, list.len()) {
            Ok(()) => self.answer_of(does, &words, &before),
            Err(refusal) => refusal.answer(),
        };
        let mut told = Told {
            answer,
            input_bytes: input.len(),
            image_bytes: image.len(),
            list: &list,
            given: &given,
            after: before.clone(),
            form_words: 0,
            words_written: 0,
            before,
        };
        if answer.verdict != 0 {
            return Run { text: self.text(&self.tool.refused, task, &told), words: Vec::new() };
        }
        // Changed rules may accept an image of another length.
        told.before.resize(IMAGE_WORDS, 0);
        told.form_words = self.measure(&list, &told.before).words;
        told.after = self.image_after(&list, &told.before);
        let written = self.written(does, &told);
        told.words_written = written.len();
        let text = self.text(&self.tool.accepted, task, &told);
        Run { text, words: bytes_of(&written, self.tool.output_order) }
    }

    fn sizes(
        &self,
        does: &Does,
        input: &[u8],
        image: &[u8],
        list_words: usize,
    ) -> Result<(), Refusal> {
        let checks = match does.reads {
            Reads::List => &self.tool.list_sizes,
            Reads::Pairs => &self.tool.pairs_sizes,
        };
        let facts = Facts {
            input_bytes: input.len(),
            spare_bytes: input.len() % 4,
            image_bytes: image.len(),
            list_words,
            ..Facts::default()
        };
        self.pass(checks, &OTHER_ID, 0, &facts)
    }

    /// Of the reader, which gives what the normaliser and the writer of pairs give where there is room;
    /// or of the reader of pairs.
    fn answer_of(&self, does: &Does, words: &[u32], before: &[u32]) -> Answer {
        let mut room = vec![0; 2 * RECORD_WORDS * words.len()];
        match does.reads {
            Reads::List => self.read(words, &mut before.to_vec(), &mut room),
            Reads::Pairs => self.from_pci(words, before, &mut room),
        }
    }

    fn image_after(&self, list: &[u32], before: &[u32]) -> Vec<u32> {
        let mut image = before.to_vec();
        self.walk(list).0.iter().for_each(|command| self.apply(command, &mut image));
        image
    }

    fn written(&self, does: &Does, told: &Told) -> Vec<u32> {
        let commands = self.walk(told.list).0;
        match does.writes {
            Writes::Nothing => Vec::new(),
            Writes::Image => told.after.clone(),
            Writes::Form => self.normal_form(&commands, &told.before),
            Writes::Pairs => self.pairs_of(&commands),
            Writes::List => told.list.to_vec(),
            Writes::Records => self.records(&commands).concat(),
        }
    }

    fn text(&self, lines: &[Line], task: Task, told: &Told) -> String {
        let here =
            |line: &&Line| line.tasks.has(task as u32) && line.verdicts.has(told.answer.verdict);
        let mut text = String::new();
        for line in lines.iter().filter(here) {
            for subject in self.subjects(line.repeated, told) {
                line.pieces.iter().for_each(|piece| text += &self.piece(piece, told, &subject));
                text += &self.tool.line_end;
            }
        }
        text
    }

    /// One for each time that the line is there.
    fn subjects(&self, repeated: Repeated, told: &Told) -> Vec<Subject<'_>> {
        let accepted = told.answer.verdict == 0;
        match repeated {
            Repeated::Once if accepted => vec![Subject::default()],
            Repeated::Once => vec![self.refused_command(told)],
            Repeated::BySetting if accepted => {
                let rows = self.shown_settings(told).into_iter();
                rows.map(Subject::of_setting).collect()
            }
            Repeated::ByRecord if accepted => {
                let records = self.records(&self.walk(told.list).0);
                records.iter().map(|record| Subject::of_record(record)).collect()
            }
            _ => Vec::new(),
        }
    }

    /// The command whose words reach over the refused one.
    fn refused_command(&self, told: &Told) -> Subject<'_> {
        let position = told.answer.position as usize;
        let mut at = 0;
        match self.tool.told_command.found {
            Found::FromFirstWord => {
                while at < told.list.len() && at + self.told_words(&told.list[at..]) <= position {
                    at += self.told_words(&told.list[at..]);
                }
            }
            Found::ThatWord => at = position,
            Found::NearestKnown => {
                let known = |k: &usize| {
                    told.list.get(*k).is_some_and(|word| self.is_known(self.id.of(&[*word])))
                };
                at = (0..=position).rev().find(known).unwrap_or(0);
            }
        }
        let words = told.list.get(at..).unwrap_or(&[]);
        Subject {
            id: self.id.of(words),
            at: at as u32,
            words: words.len() as u32,
            header: self.records.header.of(words),
            setting: None,
        }
    }

    /// The words of the command that begins here, by its first word alone.
    fn told_words(&self, words: &[u32]) -> usize {
        let ToldCommand { groups, loads, payload, .. } = &self.tool.told_command;
        let id = self.id.of(words);
        let counted = match payload {
            Counted::OfEveryLoad => true,
            Counted::OfLegalLoads => !self.has_fault(&words[..1]),
        };
        let own = if groups.0.contains(&id) { 4 } else { 1 };
        own + match loads.0.contains(&id) && counted {
            true => self.from_pci.payload.words(words),
            false => 0,
        }
    }

    /// The first word of a command has a value that it may not have.
    fn has_fault(&self, first: &[u32]) -> bool {
        let facts = Facts { words: first, ..Facts::default() };
        let faults = self.row_of(self.id.of(first)).map_or(&[][..], |row| &row.faults);
        faults.iter().any(|fault| fault.word == 0 && fault.test.holds(&facts))
    }

    fn shown_settings(&self, told: &Told) -> Vec<&Row> {
        let rules = &self.tool.settings;
        let in_question = |row: &&Row| match rules.of {
            Recorded::Settings => row.kind == Kind::Setting,
            Recorded::Work => row.kind == Kind::Work && row.leaves != Leaves::Nothing,
            Recorded::All => row.leaves != Leaves::Nothing,
        };
        let from = match rules.from {
            ShownFrom::Given => told.before.clone(),
            ShownFrom::Zeros => vec![0; IMAGE_WORDS],
        };
        let commands = self.walk(told.list).0;
        let shown = |row: &&Row| match rules.which {
            WhichSettings::Changed => rules.differs(row, &from, &told.after),
            WhichSettings::ChangedOnTheWay => {
                let mut image = told.before.clone();
                commands.iter().any(|command| {
                    self.apply(command, &mut image);
                    rules.differs(row, &from, &image)
                })
            }
            WhichSettings::Set => commands.iter().any(|command| command.row.id == row.id),
            WhichSettings::All => true,
        };
        let mut rows: Vec<&Row> = self.table.0.iter().filter(in_question).filter(shown).collect();
        match rules.order {
            SettingOrder::RisingId => {}
            SettingOrder::FallingId => rows.reverse(),
            SettingOrder::AsLastSet => {
                rows.sort_by_key(|row| commands.iter().rposition(|c| c.row.id == row.id))
            }
        }
        rows
    }

    fn piece(&self, piece: &Piece, told: &Told, subject: &Subject) -> String {
        match piece {
            Piece::Text(text) => text.clone(),
            Piece::Number(Number { of, digits, least_digits }) => {
                digits.text(self.shown(*of, told, subject), *least_digits)
            }
            Piece::Words(words) => words.text(told, subject),
            Piece::Name(before) => {
                let name = self.tool.names.0.iter().find(|name| name.id == subject.id);
                name.map_or(String::new(), |name| format!("{before}{}", name.name))
            }
            Piece::Row(part) => {
                let row = self.tool.rows.0.iter().find(|row| row.verdict == told.answer.verdict);
                row.map_or(String::new(), |row| match part {
                    RowPart::Meaning => row.meaning.clone(),
                    RowPart::Look => row.look.clone(),
                })
            }
        }
    }

    /// A number; one that isn't there counts as zero.
    fn shown(&self, of: Shown, told: &Told, subject: &Subject) -> u32 {
        let Answer { verdict, position, commands, records, bit, .. } = told.answer;
        let at = position as usize;
        match of {
            Shown::Verdict => verdict,
            Shown::Position => position,
            Shown::Bit => bit,
            Shown::Commands => commands,
            Shown::Records => records,
            Shown::FormWords => told.form_words,
            Shown::WordsWritten => told.words_written as u32,
            Shown::BytesWritten => 4 * told.words_written as u32,
            Shown::InputBytes => told.input_bytes as u32,
            Shown::ImageBytes => told.image_bytes as u32,
            Shown::ImageWords => told.before.len() as u32,
            Shown::Address => told.given.get(at).copied().unwrap_or(0),
            Shown::ExpectedAddress => {
                let words = told.list.get(subject.at as usize..).unwrap_or(&[]);
                let k = at.saturating_sub(subject.at as usize);
                match k < words.len() {
                    true => self.from_pci.addresses.of(self.from_pci.id, words, k),
                    false => 0,
                }
            }
            Shown::Word => told.list.get(at).copied().unwrap_or(0),
            Shown::Id => subject.id,
            Shown::At => subject.at,
            Shown::Words => subject.words,
            Shown::Header => subject.header,
        }
    }
}

impl<'a> Subject<'a> {
    fn of_setting(row: &'a Row) -> Subject<'a> {
        Subject { id: row.id, setting: Some(row), ..Subject::default() }
    }

    fn of_record(record: &[u32]) -> Subject<'static> {
        let word = |k: usize| record.get(k).copied().unwrap_or(0);
        Subject { id: word(0), at: word(1), words: word(2), header: word(3), setting: None }
    }
}

impl ShownSettings {
    fn differs(&self, row: &Row, from: &[u32], to: &[u32]) -> bool {
        let mut words = image_words(row);
        match self.differing {
            Differing::Any => words.any(|k| from[k] != to[k]),
            Differing::Every => words.all(|k| from[k] != to[k]),
            Differing::First => words.next().is_some_and(|k| from[k] != to[k]),
            Differing::Last => words.last().is_some_and(|k| from[k] != to[k]),
        }
    }
}

impl SettingWords {
    fn text(&self, told: &Told, subject: &Subject) -> String {
        let Some(row) = subject.setting else {
            return String::new();
        };
        let image = match self.of {
            BeforeOrAfter::Before => &told.before,
            BeforeOrAfter::After => &told.after,
        };
        let words: Vec<String> = image_words(row)
            .enumerate()
            .filter(|(n, k)| match self.which {
                ShownWords::All | ShownWords::WithId => true,
                ShownWords::First => *n == 0,
                ShownWords::Differing => told.before[*k] != told.after[*k],
            })
            .map(|(n, k)| match self.which {
                ShownWords::WithId if n == 0 => image[k] | row.id << 24,
                _ => image[k],
            })
            .map(|word| self.digits.text(word, self.least_digits))
            .collect();
        words.join(&self.between)
    }
}

/// The image words of a row; those of work are not shown but by a change.
fn image_words(row: &Row) -> std::ops::Range<usize> {
    match row.leaves {
        Leaves::Nothing => 0..0,
        Leaves::Header(word) => word..word + 1,
        Leaves::AllWords(word) => word..(word + row.own_words()).min(IMAGE_WORDS),
    }
}

impl Digits {
    pub fn text(self, number: u32, least_digits: usize) -> String {
        let width = least_digits;
        match self {
            Digits::Decimal => format!("{number:0width$}"),
            Digits::LowerHex => format!("{number:0width$x}"),
            Digits::UpperHex => format!("{number:0width$X}"),
        }
    }
}

pub fn words_of(bytes: &[u8], order: ByteOrder) -> Vec<u32> {
    let word = |b: &[u8]| match order {
        ByteOrder::Little => u32::from_le_bytes([b[0], b[1], b[2], b[3]]),
        ByteOrder::Big => u32::from_be_bytes([b[0], b[1], b[2], b[3]]),
    };
    bytes.chunks_exact(4).map(word).collect()
}

fn bytes_of(words: &[u32], order: ByteOrder) -> Vec<u8> {
    let bytes = |word: &u32| match order {
        ByteOrder::Little => word.to_le_bytes(),
        ByteOrder::Big => word.to_be_bytes(),
    };
    words.iter().flat_map(bytes).collect()
}
