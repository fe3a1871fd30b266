//! Changes of the tool's names, of what it says of refusals, and of the pieces of its lines.

use super::{one_changed, one_left_out, within, Variants, Vary};
use crate::rules::{self, Ids, Name, Names, Piece, RefusalRow, RefusalRows};

/// Ids that a reader of the guide could take for commands, and the last one.
pub const UNNAMED_IDS: [u32; 8] = [0x06, 0x07, 0x09, 0x34, 0x41, 0x85, 0xC8, 0xFF];

/// Each name changed or left out, each two neighbours' names swapped, a name for some ids that have
/// none.
impl Vary for Names {
    fn variants(&self) -> Variants<Self> {
        let mut all = by_key(
            &self.0,
            |name: &Name| format!("{:02X}", name.id),
            |a, b| std::mem::swap(&mut a.name, &mut b.name),
        );
        for id in UNNAMED_IDS {
            let named = Name { id, name: "reserved".into() };
            all.push((format!("{id:02X} named"), [&self.0[..], &[named]].concat()));
        }
        all.into_iter().map(|(name, names)| (name, Names(names))).collect()
    }
}

impl Vary for RefusalRows {
    fn variants(&self) -> Variants<Self> {
        let all = by_key(
            &self.0,
            |row: &RefusalRow| row.verdict.to_string(),
            |a, b| std::mem::swap(&mut a.verdict, &mut b.verdict),
        );
        all.into_iter().map(|(name, rows)| (name, RefusalRows(rows))).collect()
    }
}

/// Of texts that are found by a key: their order is of no matter, but whose they are.
fn by_key<T: Vary + Clone + PartialEq>(
    elements: &[T],
    key: impl Fn(&T) -> String,
    swap: impl Fn(&mut T, &mut T),
) -> Variants<Vec<T>> {
    let keyed = |(name, changed): (String, Vec<T>)| {
        let (k, rest) = name.split_once(": ").expect("an element's number");
        let k: usize = k.parse().expect("a number");
        (format!("{}: {rest}", key(&elements[k])), changed)
    };
    let mut all: Variants<Vec<T>> =
        one_changed(elements).into_iter().chain(one_left_out(elements)).map(keyed).collect();
    for k in 1..elements.len() {
        let mut swapped = elements.to_vec();
        let (front, back) = swapped.split_at_mut(k);
        swap(&mut front[k - 1], &mut back[0]);
        if swapped != elements {
            all.push((format!("{}: for {}", key(&elements[k - 1]), key(&elements[k])), swapped));
        }
    }
    all
}

/// Each known id, 03, 04 and some unknown ones: in or not.
impl Vary for Ids {
    fn variants(&self) -> Variants<Self> {
        let known = rules::paper().table.0.iter().map(|row| row.id);
        let change = |id: u32| {
            let mut ids = self.0.clone();
            if self.0.contains(&id) {
                ids.retain(|other| *other != id);
                return (format!("without {id:02X}"), Ids(ids));
            }
            ids.push(id);
            (format!("with {id:02X}"), Ids(ids))
        };
        known.chain([0x03, 0x04, 0x06, 0xFF]).map(change).collect()
    }
}

impl Vary for Piece {
    fn variants(&self) -> Variants<Self> {
        match self {
            Piece::Text(text) => within("text", text, Piece::Text),
            Piece::Number(number) => within("number", number, Piece::Number),
            Piece::Words(words) => within("words", words, Piece::Words),
            Piece::Name(before) => within("before the name", before, Piece::Name),
            Piece::Row(part) => within("row", part, Piece::Row),
        }
    }
}
