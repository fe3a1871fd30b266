//! Several scenes in one call: lists of one buffer, read in turn.

mod shape;

use super::document::MAX_LIST_WORDS;
use super::{put, Answer, Facts, Flip, PairFacts, Refusal, Rules, Source, OTHER_ID, RECORD_WORDS};
pub use shape::*;
use std::slice;

/// The answer on a session: that on a list, and the lists applied.
#[derive(Clone, Copy, Debug, PartialEq, Eq)]
pub struct ScenesAnswer {
    pub answer: Answer,
    pub lists: u32,
}

impl Rules {
    pub fn read_scenes(
        &self,
        words: &[u32],
        table: &[u32],
        image: &mut [u32],
        records: &mut [u32],
    ) -> ScenesAnswer {
        let before = Lent { image: image.to_vec(), records: records.to_vec() };
        let mut session = Session {
            rules: self,
            words: &self.words_got(self.scenes.mode as u32, words),
            table,
            image,
            records,
            before,
            written: 0,
            after_base: false,
            applied: Vec::new(),
            refused: None,
        };
        session.read();
        session.leave();
        session.answer()
    }
}

/// A pair of the table.
#[derive(Clone, Copy)]
struct Pair {
    /// Counted from 0.
    number: usize,
    start: u64,
    length: u64,
}

impl Pair {
    fn end(&self) -> u64 {
        self.start + self.length
    }

    /// What of the list is in the buffer.
    fn list<'a>(&self, words: &'a [u32]) -> &'a [u32] {
        let inside = |word: u64| word.min(words.len() as u64) as usize;
        &words[inside(self.start)..inside(self.end())]
    }
}

impl Scenes {
    /// What of list `number` of the table, counted from 0, is in the buffer; of none nothing.
    pub fn list(&self, words: &[u32], table: &[u32], number: usize) -> Vec<u32> {
        let pairs = self.pairs(words, table);
        pairs.get(number).map_or(Vec::new(), |pair| pair.list(words).to_vec())
    }

    /// The table's pairs in the order in which they are read.
    fn pairs(&self, words: &[u32], table: &[u32]) -> Vec<Pair> {
        let parts = table.chunks_exact(self.pair.len());
        let spare = parts.remainder().first().copied();
        let mut pairs: Vec<Pair> = parts.map(|part| self.pair_of(part)).collect();
        pairs.extend(spare.and_then(|word| self.spare_pair(word, words.len() as u64)));
        match self.turns {
            Turns::OfTable => {}
            Turns::Reversed => pairs.reverse(),
            Turns::RisingStart => pairs.sort_by_key(|pair| pair.start),
        }
        pairs.iter_mut().enumerate().for_each(|(number, pair)| pair.number = number);
        pairs
    }

    /// A start or a length that isn't there is 0.
    fn pair_of(&self, words: &[u32]) -> Pair {
        let (mut start, mut length, mut end) = (0, 0, None);
        for (what, &word) in self.pair.iter().zip(words) {
            let word = u64::from(word);
            match what {
                TableWord::Start => start = word,
                TableWord::Length => length = word,
                TableWord::End => end = Some(word),
                TableWord::LastWord => end = Some(word + 1),
                TableWord::StartInGroups => start = 4 * word,
                TableWord::LengthInGroups => length = 4 * word,
                TableWord::StartInBytes => start = word / 4,
                TableWord::LengthInBytes => length = word / 4,
            }
        }
        match end {
            // An end in the start's place comes with a length.
            Some(end) if length > 0 => start = end.saturating_sub(length),
            Some(end) => length = end.saturating_sub(start),
            None => {}
        }
        Pair { number: 0, start, length }
    }

    fn spare_pair(&self, word: u32, words: u64) -> Option<Pair> {
        let start = u64::from(word);
        let length = match self.odd_word {
            SpareWord::Ignored => return None,
            SpareWord::PairWithZero => 0,
            SpareWord::PairWithItself => start,
            SpareWord::PairWithOne => 1,
            SpareWord::ListToTheEnd => words.saturating_sub(start),
        };
        Some(Pair { number: 0, start, length })
    }
}

/// Lent words as they were before the call.
struct Lent {
    image: Vec<u32>,
    records: Vec<u32>,
}

struct Applied {
    pair: Pair,
    answer: Answer,
}

struct Refused {
    pair: Pair,
    refusal: Refusal,
    /// The pair is refused, not its list.
    of_pair: bool,
}

struct Session<'a> {
    rules: &'a Rules,
    words: &'a [u32],
    table: &'a [u32],
    image: &'a mut [u32],
    records: &'a mut [u32],
    before: Lent,
    /// Words of the record buffer that are written.
    written: usize,
    /// The last list ended with a surface base.
    after_base: bool,
    applied: Vec<Applied>,
    /// The refusal that is told.
    refused: Option<Refused>,
}

impl Session<'_> {
    fn read(&mut self) {
        let pairs = self.rules.scenes.pairs(self.words, self.table);
        if let Err(refused) = self.pass_table(&pairs) {
            self.refused = Some(refused);
            return;
        }
        for pair in &pairs {
            match self.read_pair(pair, pairs.len()) {
                Ok(answer) => {
                    self.applied.extend(answer.map(|answer| Applied { pair: *pair, answer }))
                }
                Err(refused) => match self.rules.scenes.stops {
                    Stops::AtFirstRefusal => {
                        self.refused = Some(refused);
                        return;
                    }
                    Stops::NeverTellingFirst => {
                        self.refused.get_or_insert(refused);
                    }
                    Stops::NeverTellingLast => self.refused = Some(refused),
                    Stops::NeverTellingAny => {}
                },
            }
        }
    }

    /// The refusals before any list is read; the documents have none.
    fn pass_table(&self, pairs: &[Pair]) -> Result<(), Refused> {
        for pair in pairs {
            self.pass_pair(pair, pairs.len(), Tested::BeforeAll)?;
        }
        if !pairs.is_empty() {
            return Ok(());
        }
        let none = Pair { number: 0, start: 0, length: 0 };
        match self.rules.scenes.no_pair {
            NoPair::Accepted => Ok(()),
            NoPair::ImageChecked => self.pass_front(&none, 1),
            NoPair::Refused => {
                Err(Refused { pair: none, refusal: Refusal::new(20, 0), of_pair: true })
            }
        }
    }

    /// The refusals of a pair that are tested there.
    fn pass_pair(&self, pair: &Pair, pairs: usize, tested: Tested) -> Result<(), Refused> {
        let facts = Facts {
            image_words: self.image.len(),
            list_words: pair.length as usize,
            pair: PairFacts {
                number: pair.number + 1,
                table_words: self.rules.scenes.pair.len() * (pair.number + 1),
                table_pairs: pairs,
                start: pair.start,
                end: pair.end(),
                buffer_words: self.words.len(),
            },
            ..Facts::default()
        };
        let scenes = &self.rules.scenes;
        let mut checks = [&scenes.too_many, &scenes.outside].into_iter();
        match checks.find(|check| check.tested == tested && check.test.holds(&facts)) {
            None => Ok(()),
            Some(check) => {
                let position = self.position_of_pair(pair, check.position) as usize;
                let bit = self.rules.told_bit.otherwise;
                let refusal = Refusal { verdict: check.verdict, position, bit };
                Err(Refused { pair: *pair, refusal, of_pair: true })
            }
        }
    }

    fn position_of_pair(&self, pair: &Pair, at: PairAt) -> u64 {
        let number = pair.number as u64;
        match at {
            PairAt::Zero => 0,
            PairAt::Pair => number,
            PairAt::NextPair => number + 1,
            PairAt::TableWord => self.rules.scenes.pair.len() as u64 * number,
            PairAt::Start => pair.start,
            PairAt::Length => pair.length,
            PairAt::End => pair.end(),
            PairAt::BufferWords => self.words.len() as u64,
            PairAt::LengthBefore => self.length_before(),
            PairAt::LengthsBefore => self.lengths_before(),
        }
    }

    /// The refusal of a whole list before its commands with this number: 0 for 1, 1 for 2.
    fn pass_front(&self, pair: &Pair, number: usize) -> Result<(), Refused> {
        let (list_words, image_words) = (pair.length as usize, self.image.len());
        let facts = Facts { list_words, image_words, ..Facts::default() };
        let check = self.rules.before_commands.get(number);
        let passed = self.rules.pass(check.map_or(&[], slice::from_ref), &OTHER_ID, 0, &facts);
        passed.map_err(|refusal| Refused { pair: *pair, refusal, of_pair: false })
    }

    /// The answer on the pair's list; none where it isn't read.
    fn read_pair(&mut self, pair: &Pair, pairs: usize) -> Result<Option<Answer>, Refused> {
        let of_list = |refusal| Refused { pair: *pair, refusal, of_pair: false };
        self.pass_pair(pair, pairs, Tested::InTurn)?;
        for (number, tested) in [Tested::BehindTooLong, Tested::BehindImage].into_iter().enumerate()
        {
            if let Err(refused) = self.pass_pair(pair, pairs, tested) {
                self.pass_front(pair, number)?;
                return Err(refused);
            }
        }
        if let Err(refused) = self.pass_pair(pair, pairs, Tested::BehindList) {
            let mut image = self.image.to_vec();
            let mut room = self.records[self.written..].to_vec();
            let list = pair.list(self.words);
            self.rules.try_read(&Source::of(list), &mut image, &mut room).map_err(of_list)?;
            return Err(refused);
        }
        if self.is_too_long(pair) {
            return Err(of_list(Refusal::new(1, MAX_LIST_WORDS)));
        }
        if pair.length == 0 && self.rules.scenes.empty_list == EmptyList::Skipped {
            return Ok(None);
        }
        self.read_list(pair).map(Some).map_err(of_list)
    }

    /// By another rule than that for each list.
    fn is_too_long(&self, pair: &Pair) -> bool {
        let words = match self.rules.scenes.too_long {
            TooLong::EachList => 0,
            TooLong::AllLists => self.lengths_before() + pair.length,
            TooLong::Buffer => self.words.len() as u64,
        };
        words > MAX_LIST_WORDS as u64
    }

    fn read_list(&mut self, pair: &Pair) -> Result<Answer, Refusal> {
        let (rules, scenes) = (self.rules, &self.rules.scenes);
        let list = pair.list(self.words);
        let after_base = self.after_base && scenes.order == ListOrder::CarriedOver;
        let source = Source { after_base, ..Source::of(list) };
        let left = self.image.to_vec();
        if scenes.image == SceneImage::StartsAnew {
            self.image.copy_from_slice(&self.before.image);
        }
        let read = match scenes.room {
            SceneRoom::StillLeft => {
                let room = &mut self.records[self.written..];
                rules.try_read(&source, self.image, room)
            }
            SceneRoom::FromFront => rules.try_read(&source, self.image, self.records),
            SceneRoom::WholeBehind => self.read_with_room(list, self.records.len()),
            SceneRoom::LeftByFirst => {
                let first = self.applied.first().map_or(0, |first| first.answer.words as usize);
                self.read_with_room(list, self.records.len().saturating_sub(first))
            }
        };
        let answer = read.inspect_err(|_| self.image.copy_from_slice(&left))?;
        self.move_positions(pair, &answer);
        self.written = self.records.len().min(self.written + answer.words as usize);
        if scenes.order == ListOrder::CarriedOver {
            let last = rules.walk(list).0.pop();
            self.after_base =
                last.map_or(self.after_base, |last| last.row.flip == Flip::SurfaceBase);
        }
        Ok(answer)
    }

    /// With this room, though less may be left.
    fn read_with_room(&mut self, list: &[u32], room: usize) -> Result<Answer, Refusal> {
        let mut records = vec![0; room];
        let answer = self.rules.try_read(&Source::of(list), self.image, &mut records)?;
        records.truncate(answer.words as usize);
        put(&mut self.records[self.written..], &records);
        Ok(answer)
    }

    /// Positions in the list's records, counted from elsewhere than its beginning.
    fn move_positions(&mut self, pair: &Pair, answer: &Answer) {
        let added = match self.rules.scenes.record_positions {
            RecordPositions::InList => return,
            RecordPositions::InBuffer => pair.start,
            RecordPositions::RunningOn => self.lengths_before(),
        };
        let records = self.records[self.written..].chunks_exact_mut(RECORD_WORDS);
        for record in records.take(answer.records as usize) {
            record[1] = record[1].wrapping_add(added as u32);
        }
    }

    /// What stays of the image and the records.
    fn leave(&mut self) {
        let Some(refused) = &self.refused else {
            return;
        };
        let (rules, scenes) = (self.rules, &self.rules.scenes);
        let commands = match refused.of_pair {
            true => Vec::new(),
            false => rules.walk(refused.pair.list(self.words)).0,
        };
        match scenes.image_on_refusal {
            OnRefusal::ListsBefore => {}
            OnRefusal::Nothing => self.image.copy_from_slice(&self.before.image),
            OnRefusal::RefusedToo => commands.iter().for_each(|c| rules.apply(c, self.image)),
        }
        match scenes.records_on_refusal {
            OnRefusal::ListsBefore => {}
            OnRefusal::Nothing => self.records.copy_from_slice(&self.before.records),
            OnRefusal::RefusedToo => {
                put(&mut self.records[self.written..], &rules.records(&commands).concat())
            }
        }
    }

    fn sum(&self, number: fn(&Answer) -> u32) -> u32 {
        self.applied.iter().map(|applied| number(&applied.answer)).sum()
    }

    fn length_before(&self) -> u64 {
        self.applied.last().map_or(0, |last| last.pair.length)
    }

    fn lengths_before(&self) -> u64 {
        self.applied.iter().map(|applied| applied.pair.length).sum()
    }

    fn answer(&self) -> ScenesAnswer {
        let scenes = &self.rules.scenes;
        let (verdict, bit) = match &self.refused {
            Some(Refused { refusal, .. }) => (refusal.verdict, refusal.bit),
            None => (0, self.rules.told_bit.otherwise),
        };
        let answer = Answer {
            verdict,
            position: self.position() as u32,
            commands: self.count(scenes.commands, |answer| answer.commands),
            records: self.count(scenes.records, |answer| answer.records),
            words: self.count(scenes.words, |answer| answer.words),
            bit,
        };
        ScenesAnswer { answer, lists: self.lists() as u32 }
    }

    fn position(&self) -> u64 {
        let scenes = &self.rules.scenes;
        match (&self.refused, self.applied.first(), self.applied.last()) {
            (Some(refused), ..) if refused.of_pair => refused.refusal.position as u64,
            (Some(refused), ..) => {
                let (pair, position) = (&refused.pair, refused.refusal.position as u64);
                match scenes.refused_at {
                    RefusedAt::InList => position,
                    RefusedAt::InBuffer => pair.start + position,
                    RefusedAt::RunningOn => self.lengths_before() + position,
                    RefusedAt::Start => pair.start,
                    RefusedAt::Pair => pair.number as u64,
                    RefusedAt::LengthBefore => self.length_before(),
                    RefusedAt::BufferWords => self.words.len() as u64,
                    RefusedAt::Zero => 0,
                }
            }
            (None, Some(first), Some(last)) => match scenes.accepted_at {
                AcceptedAt::LastLength => u64::from(last.answer.position),
                AcceptedAt::LastNotEmpty => {
                    let mut lengths = self.applied.iter().rev().map(|applied| applied.pair.length);
                    lengths.find(|length| *length > 0).unwrap_or(0)
                }
                AcceptedAt::FirstLength => u64::from(first.answer.position),
                AcceptedAt::AllLengths => self.lengths_before(),
                AcceptedAt::LastStart => last.pair.start,
                AcceptedAt::LastEnd => last.pair.end(),
                AcceptedAt::BufferWords => self.words.len() as u64,
                AcceptedAt::Lists => self.applied.len() as u64,
                AcceptedAt::Zero => 0,
            },
            _ => match scenes.nothing_read {
                NothingRead::Zero => 0,
                NothingRead::BufferWords => self.words.len() as u64,
                NothingRead::TableWords => self.table.len() as u64,
            },
        }
    }

    fn count(&self, count: SceneCount, number: fn(&Answer) -> u32) -> u32 {
        let of = |applied: Option<&Applied>| applied.map_or(0, |applied| number(&applied.answer));
        match count {
            SceneCount::Sum => self.sum(number),
            SceneCount::OfLast => of(self.applied.last()),
            SceneCount::OfFirst => of(self.applied.first()),
            SceneCount::ZeroOnRefusal if self.refused.is_some() => 0,
            SceneCount::ZeroOnRefusal => self.sum(number),
            SceneCount::WithRefused => self.sum(number) + self.of_refused(number),
            SceneCount::ListWords => self.lengths_before() as u32,
        }
    }

    /// Of the commands before the refused one.
    fn of_refused(&self, number: fn(&Answer) -> u32) -> u32 {
        match &self.refused {
            Some(refused) if !refused.of_pair => {
                let list = refused.pair.list(self.words);
                let commands = self.rules.walk(list).0;
                let words = self.rules.records(&commands).concat().len();
                number(&self.rules.accepted(list, &commands, words))
            }
            _ => 0,
        }
    }

    fn lists(&self) -> usize {
        let applied = self.applied.len();
        let with = |number: fn(&Applied) -> u64| {
            self.applied.iter().filter(|applied| number(applied) > 0).count()
        };
        match self.rules.scenes.lists {
            ListsTold::Applied => applied,
            ListsTold::WithRefused => applied + self.refused.is_some() as usize,
            ListsTold::PairsOfTable => self.table.len() / self.rules.scenes.pair.len(),
            ListsTold::NotEmpty => with(|applied| applied.pair.length),
            ListsTold::WithRecords => with(|applied| u64::from(applied.answer.records)),
            ListsTold::ZeroOnRefusal if self.refused.is_some() => 0,
            ListsTold::ZeroOnRefusal => applied,
            ListsTold::NumberOfLast => applied.saturating_sub(1),
        }
    }
}
