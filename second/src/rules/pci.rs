//! The writes over PCI: pairs of address and value for a list, and the list of such pairs.

use super::{
    put, Address, Addresses, Answer, BeginWords, Command, Facts, Field, Flip, FromPci, IdOf,
    OddWord, PairWord, PayloadAddresses, Refusal, Rules, ToPci, WithId, OTHER_ID,
};

impl Rules {
    pub fn to_pci(&self, list: &[u32], image: &[u32], pairs: &mut [u32]) -> Answer {
        let list = &self.words_got(self.to_pci.mode as u32, list);
        self.try_to_pci(list, image, pairs).unwrap_or_else(Refusal::answer)
    }

    fn try_to_pci(
        &self,
        list: &[u32],
        image: &[u32],
        pairs: &mut [u32],
    ) -> Result<Answer, Refusal> {
        let commands = self.checked(list, image)?;
        let words = self.pairs_of(&commands);
        let facts = Facts { needed: words.len(), room: pairs.len(), ..Facts::of(list, image) };
        self.pass(&self.to_pci.room, &OTHER_ID, 0, &facts)?;
        put(pairs, &words);
        Ok(self.accepted(list, &commands, words.len()))
    }

    /// The pairs of all words of the commands, in one sequence.
    pub fn pairs_of(&self, commands: &[Command]) -> Vec<u32> {
        commands.iter().flat_map(|command| self.to_pci.pairs_of(command)).collect()
    }

    pub fn from_pci(&self, pairs: &[u32], image: &[u32], list: &mut [u32]) -> Answer {
        let pairs = &self.words_got(self.from_pci.mode as u32, pairs);
        self.try_from_pci(pairs, image, list).unwrap_or_else(Refusal::answer)
    }

    fn try_from_pci(
        &self,
        pairs: &[u32],
        image: &[u32],
        list: &mut [u32],
    ) -> Result<Answer, Refusal> {
        let Recovered { given, values } = self.from_pci.recovered(pairs);
        let facts = Facts::of(&values, image);
        self.pass(&self.from_pci.before_pairs, &OTHER_ID, 0, &facts)?;
        let mut at = 0;
        while at < values.len() {
            at += self.pairs_of_command(&given, &values, at)?;
        }
        let commands = self.commands(&values)?;
        let facts = Facts { needed: values.len(), room: list.len(), ..facts };
        self.pass(&self.from_pci.room, &OTHER_ID, 0, &facts)?;
        put(list, &values);
        Ok(self.accepted(&values, &commands, values.len()))
    }

    /// How many pairs the command at a pair has, or its refusal by 13 or 14.
    fn pairs_of_command(&self, given: &[u32], values: &[u32], at: usize) -> Result<usize, Refusal> {
        let rules = &self.from_pci;
        let length = rules.command_words(&values[at..]);
        let words = &values[at..values.len().min(at + length)];
        let address = |(k, &given): (usize, &u32)| Address {
            given: given & rules.compared.bits,
            expected: rules.addresses.of(rules.id, words, k) & rules.compared.bits,
        };
        let addresses: Vec<Address> =
            given[at..at + words.len()].iter().enumerate().map(address).collect();
        let facts = Facts {
            words,
            list_words: values.len(),
            words_left: values.len() - at,
            length,
            addresses: &addresses,
            ..Facts::default()
        };
        self.pass(&rules.each_command, &OTHER_ID, at, &facts)?;
        Ok(length)
    }
}

impl Addresses {
    /// The address of word `k` of a command.
    pub fn of(&self, id: Field, words: &[u32], k: usize) -> u32 {
        let id_there = match self.id_of {
            IdOf::Command => id.of(words),
            IdOf::EachWord => id.of(&words[k..]),
        };
        let base = self.base.bits;
        let first = match self.with_id {
            WithId::FourTimes => base.wrapping_add(id_there.wrapping_mul(4)),
            WithId::Once => base.wrapping_add(id_there),
            WithId::Twice => base.wrapping_add(id_there.wrapping_mul(2)),
            WithId::EightTimes => base.wrapping_add(id_there.wrapping_mul(8)),
            WithId::SumFourTimes => base.wrapping_add(id_there).wrapping_mul(4),
            WithId::NotAtAll => base,
        };
        let steps = match self.payload {
            PayloadAddresses::StartAgain => k % self.group_words,
            PayloadAddresses::RunOn => k,
            PayloadAddresses::FirstAlone if k < self.group_words => k,
            PayloadAddresses::FirstAlone => 0,
        };
        first.wrapping_add(self.step * steps as u32)
    }
}

impl ToPci {
    fn pairs_of(&self, command: &Command) -> Vec<u32> {
        let is_begin = command.row.flip == Flip::Begin;
        let address = |k: usize| match self.begin {
            BeginWords::OneWord if is_begin => self.addresses.of(self.id, command.words, 0),
            BeginWords::OwnCommands if is_begin => {
                self.addresses.of(self.id, &command.words[k..], 0)
            }
            _ => self.addresses.of(self.id, command.words, k),
        };
        let word = |k: usize, word: &PairWord| match word {
            PairWord::Address => address(k),
            PairWord::Value => command.words[k],
            PairWord::Number => (command.position + k) as u32,
            PairWord::Header => command.words[k] & 0xFFFFFF,
        };
        let pair = |k: usize| self.pair.iter().map(move |of_pair| word(k, of_pair));
        (0..command.words.len()).flat_map(pair).collect()
    }
}

/// The addresses and the values of pairs; the values are the list.
pub struct Recovered {
    pub given: Vec<u32>,
    pub values: Vec<u32>,
}

impl FromPci {
    pub fn recovered(&self, words: &[u32]) -> Recovered {
        let pairs = words.chunks_exact(self.pair_words);
        let last = match (self.odd_word, pairs.remainder()) {
            (OddWord::Ignored, _) | (_, []) => None,
            (OddWord::PairWithZero, odd) => Some([odd[0], 0]),
            (OddWord::PairWithItself, odd) => Some([odd[0]; 2]),
        };
        let pairs = pairs.chain(last.iter().map(|pair| &pair[..]));
        let (given, values) =
            pairs.map(|pair| (word(pair, self.address), word(pair, self.value))).unzip();
        Recovered { given, values }
    }

    /// The words of the command that begins here, by its first word alone.
    pub fn command_words(&self, values: &[u32]) -> usize {
        let id = self.id.of(values);
        let own = if self.groups.has(id) { self.addresses.group_words } else { 1 };
        own + if self.loads.has(id) { self.payload.words(values) } else { 0 }
    }
}

/// A word of a pair; one that isn't there counts as zero.
fn word(pair: &[u32], k: usize) -> u32 {
    pair.get(k).copied().unwrap_or(0)
}
