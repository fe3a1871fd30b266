//! The length of the normal form, told before a buffer is lent.

use super::document::{IMAGE_WORDS, MAX_LIST_WORDS};
use super::{Answer, Command, Facts, MeasuredFrom, Refusal, RefusedTold, Rules, Told, OTHER_ID};

impl Rules {
    pub fn measure(&self, list: &[u32], image: &[u32]) -> Answer {
        let list = &self.words_got(self.measure.mode as u32, list);
        self.try_measure(list, image).unwrap_or_else(|refusal| Answer {
            words: self.told_of_refused(list, image) as u32,
            ..refusal.answer()
        })
    }

    fn try_measure(&self, list: &[u32], image: &[u32]) -> Result<Answer, Refusal> {
        let commands = self.checked(list, image)?;
        let form = self.measured_form(&commands, image);
        let facts = Facts { needed: form.len(), ..Facts::of(list, image) };
        self.pass(&self.measure.room, &OTHER_ID, 0, &facts)?;
        let told = match self.measure.told {
            Told::FormWords => form.len(),
            Told::FormBytes => 4 * form.len(),
            Told::FormCommands => self.walk(&form).0.len(),
            Told::ListWords => list.len(),
            Told::ListCommands => commands.len(),
            Told::WordsSaved => list.len().abs_diff(form.len()),
            Told::MostWords => MAX_LIST_WORDS,
        };
        Ok(self.accepted(list, &commands, told))
    }

    fn measured_form(&self, commands: &[Command], image: &[u32]) -> Vec<u32> {
        let mut start = match self.measure.from {
            MeasuredFrom::Given | MeasuredFrom::Left => image.to_vec(),
            MeasuredFrom::Zeros => vec![0; IMAGE_WORDS],
        };
        if self.measure.from == MeasuredFrom::Left {
            commands.iter().for_each(|command| self.apply(command, &mut start));
        }
        self.form_by(&self.measure.form, commands, &start)
    }

    fn told_of_refused(&self, list: &[u32], image: &[u32]) -> usize {
        match self.measure.refused {
            RefusedTold::Zero => 0,
            RefusedTold::FormBefore => self.measured_form(&self.walk(list).0, image).len(),
            RefusedTold::ListWords => list.len(),
        }
    }
}
