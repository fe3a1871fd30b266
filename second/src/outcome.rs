//! What a call gives for a case: the answer, and all lent words afterwards.

use crate::lists::{Case, CaseKind};
use crate::rules::{self, Rules, ScenesAnswer, ANSWER_WORDS};

#[derive(Clone, Copy, Debug, PartialEq, Eq)]
pub enum Function {
    Reader,
    Normaliser,
    ToPci,
    FromPci,
    Measure,
    Scenes,
}

impl Function {
    pub const ALL: [Function; 6] = [
        Function::Reader,
        Function::Normaliser,
        Function::ToPci,
        Function::FromPci,
        Function::Measure,
        Function::Scenes,
    ];

    pub fn name(self) -> &'static str {
        ["reader", "normaliser", "to_pci", "from_pci", "measure", "read_scenes"][self as usize]
    }

    /// It runs on such a case.
    pub fn runs_on(self, kind: CaseKind) -> bool {
        match kind {
            CaseKind::List => self != Function::Scenes,
            CaseKind::Session => self == Function::Scenes,
            CaseKind::InMode => matches!(self, Function::Reader | Function::Normaliser),
        }
    }

    /// It changes the image.
    pub fn applies(self) -> bool {
        matches!(self, Function::Reader | Function::Scenes)
    }

    /// It is lent a buffer, for the words that its answer counts.
    pub fn writes(self) -> bool {
        self != Function::Measure
    }

    /// The words of the buffer that it is lent.
    pub fn buffer_len(self, case: &Case) -> usize {
        match self {
            Function::Reader | Function::Scenes => case.records_len,
            Function::Normaliser => case.out_len,
            Function::ToPci | Function::FromPci => case.pci_len,
            Function::Measure => 0,
        }
    }

    /// The list that it reads: the words got from the case's in its mode, or what they are as pairs, or what
    /// of them is in the list at which a session stops.
    pub fn list_of(self, case: &Case) -> Vec<u32> {
        match self {
            Function::FromPci => rules::paper().from_pci.recovered(&case.list).values,
            Function::Scenes => {
                rules::paper().scenes.list(&case.list, &case.arguments, lists_applied(case))
            }
            _ => rules::paper().words_got(case.mode(), &case.list),
        }
    }

    /// The verdicts that it gives for such a case. Pairs that are through have no command cut short.
    pub fn verdicts(self, kind: CaseKind) -> Vec<u32> {
        let own: &[u32] = match self {
            Function::FromPci => &[0, 1, 2, 3, 4, 6, 7, 10, 11, 13, 14],
            Function::Measure => &[0, 1, 2, 3, 4, 5, 6, 7, 9, 10],
            _ => &[0, 1, 2, 3, 4, 5, 6, 7, 9, 10, 11],
        };
        let of_kind: &[u32] = match kind {
            CaseKind::List => &[],
            CaseKind::Session => &[20],
            CaseKind::InMode => &[21],
        };
        [own, &[15, 16, 17, 18, 19], of_kind].concat()
    }
}

impl CaseKind {
    /// The functions that run on such a case.
    pub fn functions(self) -> impl Iterator<Item = Function> {
        Function::ALL.into_iter().filter(move |function| function.runs_on(self))
    }
}

pub struct Outcome {
    pub answer: [u32; ANSWER_WORDS],
    /// The numbers behind the six: of a session the lists applied.
    pub more: Vec<u32>,
    pub image: Vec<u32>,
    /// For the records, the form, the pairs or the list of pairs.
    pub buffer: Vec<u32>,
}

impl Outcome {
    /// All numbers of the answer.
    pub fn numbers(&self) -> Vec<u32> {
        [&self.answer, &self.more[..]].concat()
    }
}

/// What a buffer holds before a call.
pub fn prefilled(len: usize) -> Vec<u32> {
    (0..len as u32).map(|k| 0xA500_0000 + k).collect()
}

fn lists_applied(session: &Case) -> usize {
    of(Function::Scenes, rules::paper(), session).more[0] as usize
}

/// The case's words are a list, but pairs for `FromPci`, and for `Scenes` several lists.
pub fn of(function: Function, rules: &Rules, case: &Case) -> Outcome {
    let mut image = case.image.words();
    let mut buffer = prefilled(function.buffer_len(case));
    let mut more = Vec::new();
    let answer = match function {
        Function::Reader => rules.read_in(case.mode(), &case.list, &mut image, &mut buffer),
        Function::Normaliser => rules.normalise_in(case.mode(), &case.list, &image, &mut buffer),
        Function::ToPci => rules.to_pci(&case.list, &image, &mut buffer),
        Function::FromPci => rules.from_pci(&case.list, &image, &mut buffer),
        Function::Measure => rules.measure(&case.list, &image),
        Function::Scenes => {
            let ScenesAnswer { answer, lists } =
                rules.read_scenes(&case.list, &case.arguments, &mut image, &mut buffer);
            more.push(lists);
            answer
        }
    };
    Outcome { answer: answer.numbers(), more, image, buffer }
}

/// The first thing that isn't as expected.
pub fn difference(function: Function, given: &Outcome, expected: &Outcome) -> Option<String> {
    let name = function.name();
    if given.numbers() != expected.numbers() {
        return Some(format!("{name} {:?}, not {:?}", given.numbers(), expected.numbers()));
    }
    let pairs =
        [("image", &given.image, &expected.image), ("buffer", &given.buffer, &expected.buffer)];
    pairs.into_iter().find_map(|(what, given, expected)| {
        let k = (0..expected.len()).find(|&k| given[k] != expected[k])?;
        let (given, expected) = (given[k], expected[k]);
        Some(format!("{name} {what} word {k:02X} {given:08X}, not {expected:08X}"))
    })
}
