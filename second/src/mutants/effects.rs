//! Answers and lent words other than the documents', for each verdict by itself.

mod bits;
mod by_id;
mod measure;
mod pci;
mod scenes;

use super::changes::Mutant;
use crate::lists::{Case, CaseKind};
use crate::outcome::{Function, Outcome};
use crate::rules::{self, put, IMAGE_WORDS, NO_BIT};

const NUMBERS: [&str; 6] = ["verdict", "position", "commands", "records", "words", "bit"];
const POSITION: usize = 1;
const COMMANDS: usize = 2;
const RECORDS: usize = 3;
const WORDS: usize = 4;
const BIT: usize = 5;

pub fn all() -> Vec<Mutant> {
    let mut all = Vec::new();
    for kind in [CaseKind::List, CaseKind::InMode] {
        for function in kind.functions() {
            for verdict in function.verdicts(kind) {
                all.extend(of_place(&Place::new(kind, function, verdict)));
            }
        }
    }
    all.extend(bits::all());
    all.extend(pci::all());
    all.extend(measure::all());
    all.extend(scenes::all());
    all.extend(image_words());
    all.extend(by_id::all());
    all.push(applied_from_the_end());
    all.extend(listings());
    all
}

fn of_place(at: &Place) -> Vec<Mutant> {
    let mut all = numbers(at);
    all.extend(bits::of_verdict(at));
    if at.function.writes() {
        all.extend(lent_words(at));
    }
    match at.verdict {
        0 => all.extend(accepted(at)),
        1 | 2 => {}
        _ => all.extend(done_before_refusal(at)),
    }
    all
}

/// The outcomes of one function with one verdict, for cases of one kind.
#[derive(Clone)]
struct Place {
    kind: CaseKind,
    function: Function,
    verdict: u32,
    name: String,
}

impl Place {
    fn new(kind: CaseKind, function: Function, verdict: u32) -> Place {
        let of_kind = if kind == CaseKind::InMode { " in a mode" } else { "" };
        let name = format!("{}{of_kind}, verdict {verdict}", function.name());
        Place { kind, function, verdict, name }
    }

    /// Of accepted lists, with a name of its own.
    fn accepted(function: Function, name: String) -> Place {
        Place { name, ..Place::new(CaseKind::List, function, 0) }
    }

    fn change(&self, what: &str, change: impl Fn(&Case, &mut Outcome) + Sync + 'static) -> Mutant {
        let place = self.clone();
        let name = format!("{}: {what}", self.name);
        Mutant::of_outcome_for(self.kind, self.function, name, move |case, mut outcome| {
            if outcome.answer[0] == place.verdict {
                change(case, &mut outcome);
            }
            outcome
        })
    }
}

/// Each number of the answer off by one.
fn numbers(at: &Place) -> Vec<Mutant> {
    let mut all = Vec::new();
    for (k, number) in NUMBERS.iter().enumerate() {
        for (way, step) in [("one more", 1), ("one less", u32::MAX)] {
            all.push(at.change(&format!("{number} {way}"), move |_, outcome| {
                outcome.answer[k] = outcome.answer[k].wrapping_add(step);
            }));
        }
    }
    all
}

/// A word changed that has to stay.
fn lent_words(at: &Place) -> Vec<Mutant> {
    let mut all = vec![
        at.change("word behind those written changed", |_, outcome| {
            let written = outcome.answer[WORDS] as usize;
            outcome.buffer.iter_mut().skip(written).take(1).for_each(|word| *word = 0);
        }),
        at.change("last word of the buffer cleared", |_, outcome| {
            let written = outcome.answer[WORDS] as usize;
            outcome.buffer[written..].iter_mut().rev().take(1).for_each(|word| *word = 0);
        }),
        at.change("rest of the buffer cleared", |_, outcome| {
            let written = outcome.answer[WORDS] as usize;
            outcome.buffer[written..].fill(0);
        }),
    ];
    if at.function.applies() && at.verdict != 0 {
        all.push(at.change("image cleared", |_, outcome| outcome.image.fill(0)));
        all.push(at.change("first word of the image changed", |_, outcome| {
            outcome.image.iter_mut().take(1).for_each(|word| *word ^= 1);
        }));
        all.push(at.change("last word of the image changed", |_, outcome| {
            outcome.image.iter_mut().rev().take(1).for_each(|word| *word ^= 1);
        }));
    }
    all
}

/// Other numbers that an accepted list has.
fn accepted(at: &Place) -> Vec<Mutant> {
    let mut all = Vec::new();
    for to in [POSITION, COMMANDS, RECORDS, WORDS] {
        for from in [POSITION, COMMANDS, RECORDS, WORDS].into_iter().filter(|from| *from != to) {
            let what = format!("{} for {}", NUMBERS[from], NUMBERS[to]);
            all.push(at.change(&what, move |_, outcome| outcome.answer[to] = outcome.answer[from]));
        }
        let what = format!("no {}", NUMBERS[to]);
        all.push(at.change(&what, move |_, outcome| outcome.answer[to] = 0));
    }
    if at.function.writes() {
        all.push(at.change("words: those of the buffer", |_, outcome| {
            outcome.answer[WORDS] = outcome.buffer.len() as u32;
        }));
    }
    if matches!(at.function, Function::Normaliser | Function::Measure) {
        all.push(at.change("commands: those of the form", |case, outcome| {
            outcome.answer[COMMANDS] = rules::paper().walk(&form_of(case)).0.len() as u32;
        }));
        all.push(at.change("words: four for each record", |_, outcome| {
            outcome.answer[WORDS] = 4 * outcome.answer[RECORDS];
        }));
    }
    all
}

/// The form of a list, or of its commands before the refused one.
fn form_of(case: &Case) -> Vec<u32> {
    let list = Function::Normaliser.list_of(case);
    let commands = rules::paper().walk(&list).0;
    rules::paper().normal_form(&commands, &case.image.words())
}

/// What the commands before the refused one do, done in spite of it.
fn done_before_refusal(at: &Place) -> Vec<Mutant> {
    let paper = rules::paper();
    let function = at.function;
    let mut all = vec![
        at.change("commands before it counted", move |case, outcome| {
            let list = function.list_before(case, outcome);
            outcome.answer[COMMANDS] = paper.walk(&list).0.len() as u32;
        }),
        at.change("records before it counted", move |case, outcome| {
            let list = function.list_before(case, outcome);
            let commands = paper.walk(&list).0;
            outcome.answer[RECORDS] = commands.iter().filter(|c| c.is_work()).count() as u32;
        }),
    ];
    match function {
        Function::Reader => {
            all.push(at.change("commands before it applied", move |case, outcome| {
                for command in paper.walk(&function.list_of(case)).0 {
                    paper.apply(&command, &mut outcome.image);
                }
            }));
            all.push(at.change("records before it written", move |case, outcome| {
                let list = function.list_of(case);
                put(&mut outcome.buffer, &paper.records(&paper.walk(&list).0).concat());
            }));
        }
        Function::Normaliser => {
            all.push(at.change("form before it written", |case, outcome| {
                put(&mut outcome.buffer, &form_of(case));
            }));
        }
        Function::ToPci => {
            all.push(at.change("pairs before it written", |case, outcome| {
                put(&mut outcome.buffer, &paper.pairs_of(&paper.walk(&case.list).0));
            }));
        }
        Function::FromPci => {
            all.push(at.change("list before it written", move |case, outcome| {
                let list = function.list_before(case, outcome);
                put(&mut outcome.buffer, &list[..outcome.answer[POSITION] as usize]);
            }));
        }
        Function::Measure => {
            all.push(at.change("form before it measured", |case, outcome| {
                outcome.answer[WORDS] = form_of(case).len() as u32;
            }));
        }
        // In `scenes`.
        Function::Scenes => {}
    }
    all
}

impl Function {
    /// The list that it reads, up to a wrong pair or a cut command.
    fn list_before(self, case: &Case, outcome: &Outcome) -> Vec<u32> {
        let mut list = self.list_of(case);
        if let [13 | 14, pair, ..] = outcome.answer {
            list.truncate(pair as usize);
        }
        list
    }
}

/// Each word of the image changed by an accepted list.
fn image_words() -> Vec<Mutant> {
    let at = Place::new(CaseKind::List, Function::Reader, 0);
    let changed = |k: usize| {
        at.change(&format!("image word {k:02X} changed"), move |_, outcome| outcome.image[k] ^= 1)
    };
    (0..IMAGE_WORDS).map(changed).collect()
}

/// Of several commands that set a word, the first decides.
fn applied_from_the_end() -> Mutant {
    let at = Place::new(CaseKind::List, Function::Reader, 0);
    at.change("commands applied from the list's end", |case, outcome| {
        outcome.image = case.image.words();
        for command in rules::paper().walk(&case.list).0.iter().rev() {
            rules::paper().apply(command, &mut outcome.image);
        }
    })
}

fn listings() -> Vec<Mutant> {
    let paper = rules::paper();
    let at_next = |input: &[u8]| match input.len() % 4 {
        0 => paper.listing(input),
        _ => paper.listing(input).replace(
            &format!("refused 12 at {}", input.len() / 4),
            &format!("refused 12 at {}", input.len().div_ceil(4)),
        ),
    };
    let lines_before_refusal = |input: &[u8]| {
        let text = paper.listing(input);
        let words = words_of(input);
        let (commands, refusal) = paper.walk(&words);
        if refusal.is_none() || input.len() % 4 != 0 {
            return text;
        }
        let end = commands.last().map_or(0, |c| c.position + c.words.len());
        let before = paper.listing(&input[..4 * end]);
        let lines: Vec<&str> = before.lines().collect();
        format!("{}\n{text}", lines[..lines.len() - 1].join("\n"))
    };
    let with_bit = |input: &[u8]| {
        let bit = paper.walk(&words_of(input)).1.map_or(NO_BIT, |refusal| refusal.bit);
        match paper.listing(input) {
            text if text.starts_with("refused 6 ") => text.replace('\n', &format!(" bit {bit}\n")),
            text => text,
        }
    };
    let mut all = vec![
        Mutant::of_listing("listing, verdict 12: at the word cut", at_next),
        Mutant::of_listing("listing: lines before a refusal", lines_before_refusal),
        Mutant::of_listing("listing: the bit of a 6", with_bit),
    ];
    for verdict in 15..=19 {
        let as_8 = move |input: &[u8]| {
            paper.listing(input).replace(&format!("refused {verdict} "), "refused 8 ")
        };
        all.push(Mutant::of_listing(&format!("listing: {verdict} told as 8"), as_8));
    }
    all
}

fn words_of(input: &[u8]) -> Vec<u32> {
    input.chunks_exact(4).map(|b| u32::from_le_bytes([b[0], b[1], b[2], b[3]])).collect()
}
