//! The text of the listing program.

use super::document::{IMAGE_WORDS, MAX_LIST_WORDS, RECORD_WORDS};
use super::{words_of, Column, Facts, Listing, Refusal, Rules, Source, OTHER_ID};

impl Rules {
    /// What the listing program prints for its standard input.
    pub fn listing(&self, input: &[u8]) -> String {
        self.try_listing(input).unwrap_or_else(|refusal| {
            let Refusal { verdict, position, .. } = refusal;
            let Listing { refused, at, line_end, .. } = &self.listing;
            format!("{refused}{verdict}{at}{position}{line_end}")
        })
    }

    fn try_listing(&self, input: &[u8]) -> Result<String, Refusal> {
        let (input_bytes, spare_bytes) = (input.len(), input.len() % 4);
        let facts = Facts { input_bytes, spare_bytes, ..Facts::default() };
        self.pass(&self.listing.before_list, &OTHER_ID, 0, &facts)?;

        let list = words_of(input, self.listing.byte_order);
        let list = self.words_got(self.listing.mode as u32, &list);
        let mut image = [self.listing.starting_word; IMAGE_WORDS];
        // Room for a record from every word, so that 11 is never given.
        let mut records = vec![0; RECORD_WORDS * MAX_LIST_WORDS];
        let answer = self.try_read(&Source::of(&list), &mut image, &mut records)?;

        let Listing { title, between_columns, line_end, accepted, items, .. } = &self.listing;
        let mut text = format!("{title}{line_end}");
        let record_words = self.records.words.len();
        for record in records.chunks_exact(record_words).take(answer.records as usize) {
            let columns = self.listing.columns.iter().map(|column| column.text(record));
            text += &columns.collect::<Vec<String>>().join(between_columns);
            text += line_end;
        }
        text += &format!("{accepted}{}{items}{}{line_end}", answer.commands, answer.records);
        Ok(text)
    }
}

impl Column {
    fn text(&self, record: &[u32]) -> String {
        let number = record.get(self.word).copied().unwrap_or(0);
        self.digits.text(number, self.least_digits)
    }
}
