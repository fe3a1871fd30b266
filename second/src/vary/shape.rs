//! Changes of the table of commands and of the table of verdicts.

use super::{one_changed, one_left_out, two_swapped, within, Variants, Vary};
use crate::rules::{
    Check, Fault, FaultKind, Field, Kind, Leaves, Mask, Payload, Position, Row, Table, When,
};

/// Each row changed or left out, each unknown id added, each two settings in the other order.
impl Vary for Table {
    fn variants(&self) -> Variants<Self> {
        let mut all = one_changed(&self.0);
        all.extend(one_left_out(&self.0));
        all.extend(one_added(&self.0));
        all.extend(swapped_settings(&self.0));
        all.into_iter().map(|(name, rows)| (name, Table(rows))).collect()
    }
}

fn one_added(rows: &[Row]) -> Variants<Vec<Row>> {
    let mut all = Vec::new();
    for id in (0..256).filter(|id| rows.iter().all(|row| row.id != *id)) {
        for masks in [&[0xFFFFFF][..], &[0xFFFFFF, !0, !0, !0]] {
            let more = [rows, &[Row::new(id, masks)]].concat();
            all.push((format!("{id:02X} added with {} words", masks.len()), more));
        }
    }
    all
}

/// Work may stand between them, since only the order of settings counts.
fn swapped_settings(rows: &[Row]) -> Variants<Vec<Row>> {
    let setting = |k: &usize| rows[*k].kind == Kind::Setting;
    let places: Vec<usize> = (0..rows.len()).filter(setting).collect();
    let swap = |pair: &[usize]| {
        let mut rows = rows.to_vec();
        rows.swap(pair[0], pair[1]);
        (format!("{:02X}: behind {:02X}", rows[pair[1]].id, rows[pair[0]].id), rows)
    };
    places.windows(2).map(swap).collect()
}

impl Vary for Row {
    fn variants(&self) -> Variants<Self> {
        // Every part is named here, so that a new one can't be forgotten.
        let Row {
            id,
            masks: _,
            kind,
            leaves: _,
            flip,
            payload: _,
            faults: _,
            settings_first,
            compared,
        } = self;
        let row = || self.clone();
        let mut all = within("id", id, |id| Row { id, ..row() });
        all.extend(self.mask_variants());
        all.extend(within("kind", kind, |kind| Row { kind, ..row() }));
        for leaves in self.other_leavings() {
            all.push((format!("leaves {leaves:?}"), Row { leaves, ..row() }));
        }
        all.extend(within("flip", flip, |flip| Row { flip, ..row() }));
        all.extend(self.payload_variants());
        all.extend(self.fault_variants());
        all.extend(match kind {
            Kind::Work => within("settings first", settings_first, |settings_first| Row {
                settings_first,
                ..row()
            }),
            Kind::Setting => within("compared", compared, |compared| Row { compared, ..row() }),
        });
        all
    }

    fn label(&self, _: usize) -> String {
        format!("{:02X}", self.id)
    }
}

impl Row {
    /// Each bit of each mask, and other sizes.
    fn mask_variants(&self) -> Variants<Row> {
        let row = |masks: Vec<Mask>| Row { masks, ..self.clone() };
        let masks = one_changed(&self.masks).into_iter();
        let mut all: Variants<Row> =
            masks.map(|(name, masks)| (format!("mask {name}"), row(masks))).collect();
        for words in [1, 2, 3, 4, 5].into_iter().filter(|words| *words != self.own_words()) {
            let mut masks = self.masks.clone();
            masks.resize(words, Mask { bits: !0, width: 32 });
            all.push((format!("{words} words"), row(masks)));
        }
        all
    }

    fn other_leavings(&self) -> Vec<Leaves> {
        let id = self.id as usize;
        let mut all = vec![Leaves::Nothing];
        let mut places = vec![0x08, id, id.wrapping_sub(1), id + 1];
        if let Leaves::Header(word) | Leaves::AllWords(word) = self.leaves {
            places.extend([word - 1, word + 1]);
        }
        for (k, &word) in places.iter().enumerate().filter(|(_, word)| **word < 256) {
            if !places[..k].contains(&word) {
                all.push(Leaves::Header(word));
                all.push(Leaves::AllWords(word));
            }
        }
        // A command of one word has nothing but its header.
        let single = |leaves: &Leaves| match *leaves {
            Leaves::AllWords(word) if self.own_words() == 1 => Leaves::Header(word),
            other => other,
        };
        all.retain(|leaves| single(leaves) != single(&self.leaves));
        all.retain(|leaves| single(leaves) == *leaves);
        all
    }

    /// None, another one, or a payload like a load's.
    fn payload_variants(&self) -> Variants<Row> {
        let row = |payload| Row { payload, ..self.clone() };
        let Some(payload) = self.payload else {
            let groups = Field::bits(0, 8, 0);
            let like_load = Payload { groups, more_groups: 0, group_words: 4 };
            return vec![("payload: like a load's".into(), row(Some(like_load)))];
        };
        let mut all = within("payload", &payload, |payload| row(Some(payload)));
        all.push(("payload: none".into(), row(None)));
        all
    }

    /// Each fault changed or left out, each two neighbours of one kind swapped.
    fn fault_variants(&self) -> Variants<Row> {
        let mut all = one_changed(&self.faults);
        all.extend(one_left_out(&self.faults));
        all.extend(two_swapped(&self.faults, |a, b| a.kind == b.kind));
        all.into_iter().map(|(name, faults)| (name, Row { faults, ..self.clone() })).collect()
    }
}

impl Vary for Payload {
    fn variants(&self) -> Variants<Self> {
        let Payload { groups, more_groups, group_words } = *self;
        let mut all = within("groups", &groups, |groups| Payload { groups, ..*self });
        all.extend(within("more groups", &more_groups, |more_groups| Payload {
            more_groups,
            ..*self
        }));
        all.extend(within("words of a group", &group_words, |group_words| Payload {
            group_words,
            ..*self
        }));
        all
    }
}

impl Vary for Fault {
    fn variants(&self) -> Variants<Self> {
        let Fault { kind, word, test } = self;
        let mut all = within("kind", kind, |kind| Fault { kind, ..self.clone() });
        all.extend(within("test", test, |test| Fault { test, ..self.clone() }));
        // A clash is told at the first word.
        if *kind == FaultKind::Illegal {
            all.extend(within("word", word, |word| Fault { word, ..self.clone() }));
        }
        all
    }

    fn label(&self, number: usize) -> String {
        format!("fault {number}")
    }
}

impl Vary for Check {
    fn variants(&self) -> Variants<Self> {
        let Check { verdict, when, position: _ } = self;
        let mut all = within("verdict", verdict, |verdict| Check { verdict, ..self.clone() });
        all.extend(within("when", when, |when| Check { when, ..self.clone() }));
        for position in self.other_positions() {
            all.push((format!("at {position:?}"), Check { position, ..self.clone() }));
        }
        all
    }

    fn label(&self, _: usize) -> String {
        format!("verdict {}", self.verdict)
    }
}

impl Check {
    /// Positions that can be told from the given one. Only 6, 7, the clashes and 13 are found at a word.
    fn other_positions(&self) -> Vec<Position> {
        use Position::*;
        let of_word = !matches!(self.when, When::Holds(_));
        match self.position {
            At(0) => vec![At(1), ListLength],
            At(number) => vec![At(0), At(number - 1), At(number + 1), ListLength],
            FirstWord if of_word => vec![At(0), ThatWord, ListLength],
            FirstWord => vec![At(0), ListLength],
            ThatWord => vec![At(0), FirstWord, ListLength],
            ListLength => vec![At(0)],
            WholeWordsRead => vec![At(0)],
        }
    }
}

impl Vary for When {
    fn variants(&self) -> Variants<Self> {
        match self {
            When::Holds(test) => within("test", test, When::Holds),
            When::UndefinedBit(which) => within("word", which, When::UndefinedBit),
            When::Fault(kind) => within("fault", kind, When::Fault),
            When::WrongAddress(which) => within("pair", which, When::WrongAddress),
        }
    }
}
