//! The normal form.

use super::document::IMAGE_WORDS;
use super::{
    Command, ComparedWith, Form, Kind, Row, Rules, SettingOrder, SettingValues, Settings, WorkWords,
};

/// The form so far, and the images of which it has to know.
struct Building<'a> {
    rules: &'a Form,
    form: Vec<u32>,
    start: Vec<u32>,
    /// The list's image now, the image that the form has built, the list's image at its last work.
    list: Vec<u32>,
    built: Vec<u32>,
    last_work: Vec<u32>,
    /// The settings of the list so far.
    set: Vec<&'a Row>,
}

impl Rules {
    pub fn normal_form(&self, commands: &[Command], start: &[u32]) -> Vec<u32> {
        self.form_by(&self.form, commands, start)
    }

    pub fn form_by(&self, rules: &Form, commands: &[Command], start: &[u32]) -> Vec<u32> {
        let mut start = start.to_vec();
        start.resize(IMAGE_WORDS, 0);
        let mut building = Building {
            rules,
            form: Vec::new(),
            list: start.clone(),
            built: start.clone(),
            last_work: start.clone(),
            start,
            set: Vec::new(),
        };
        for command in commands {
            match command.row.kind {
                Kind::Work => self.add_work(&mut building, command),
                Kind::Setting => building.set.push(command.row),
            }
            self.apply(command, &mut building.list);
        }
        self.add_settings(&mut building, &rules.after_last_work);
        building.form
    }

    fn add_work(&self, building: &mut Building, command: &Command) {
        let rules = building.rules;
        if command.row.settings_first {
            self.add_settings(building, &rules.before_work);
        }
        let words = match rules.work {
            WorkWords::WithPayload => command.words,
            WorkWords::OwnWords => &command.words[..command.row.own_words()],
            WorkWords::FirstWord => &command.words[..1],
            WorkWords::NoWords => &[],
        };
        building.form.extend_from_slice(words);
        self.apply(command, &mut building.built);
        if rules.before_work.compared_with == ComparedWith::LastWork
            || rules.after_last_work.compared_with == ComparedWith::LastWork
        {
            building.last_work.copy_from_slice(&building.list);
            self.apply(command, &mut building.last_work);
        }
    }

    fn add_settings(&self, building: &mut Building, settings: &Settings) {
        if !settings.written {
            return;
        }
        for row in self.settings_in_order(building, settings.order) {
            if differs(row, building, settings.compared_with) {
                add_setting(row, building, settings.values);
            }
        }
    }

    fn settings_in_order(&self, building: &Building, order: SettingOrder) -> Vec<&Row> {
        let mut rows: Vec<&Row> =
            self.table.0.iter().filter(|row| row.kind == Kind::Setting).collect();
        match order {
            SettingOrder::RisingId => {}
            SettingOrder::FallingId => rows.reverse(),
            SettingOrder::AsLastSet => {
                rows.sort_by_key(|row| building.set.iter().rposition(|set| set.id == row.id))
            }
        }
        rows
    }
}

/// At least one image word of the setting differs.
fn differs(row: &Row, building: &Building, from: ComparedWith) -> bool {
    if from == ComparedWith::Nothing {
        return true;
    }
    let other = |k: usize| match from {
        ComparedWith::Built => building.built[k],
        ComparedWith::Start => building.start[k],
        ComparedWith::LastWork => building.last_work[k],
        ComparedWith::Zeros | ComparedWith::Nothing => 0,
    };
    let first = row.id as usize;
    let compared = (0..row.compared.width as usize).filter(|k| row.compared.bits >> k & 1 == 1);
    compared.map(|k| first + k).any(|k| building.list[k] != other(k))
}

fn add_setting(row: &Row, building: &mut Building, values: SettingValues) {
    let range = row.id as usize..row.id as usize + row.own_words();
    let wanted = match values {
        SettingValues::OfList => &building.list[range.clone()],
        SettingValues::OfStart => &building.start[range.clone()],
    };
    building.form.push(row.id << 24 | wanted[0]);
    building.form.extend_from_slice(&wanted[1..]);
    building.built[range].copy_from_slice(wanted);
}
