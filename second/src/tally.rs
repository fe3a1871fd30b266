//! How often functions gave each verdict.

/// 8 is no longer given, and 12 is the listing program's alone. Those from 26 on are for later requests.
const VERDICTS: usize = 33;

/// A column for each function.
pub struct Tally(Vec<(&'static str, [u64; VERDICTS])>);

impl Tally {
    pub fn new(functions: &[&'static str]) -> Tally {
        Tally(functions.iter().map(|name| (*name, [0; VERDICTS])).collect())
    }

    pub fn count(&mut self, function: &str, verdict: u32) {
        let column = self.0.iter_mut().find(|(name, _)| *name == function);
        column.expect("a function that is counted").1[verdict as usize] += 1;
    }

    /// A title and a line for each verdict, with numbers of at least this width.
    pub fn lines(&self, width: usize) -> String {
        let first = width.min(7);
        let names = self.0.iter().map(|(name, _)| format!(" {name:>width$}"));
        let mut text = format!("{:>first$}{}\n", "verdict", names.collect::<String>());
        for verdict in 0..VERDICTS {
            let counts = self.0.iter().map(|(_, counts)| format!(" {:width$}", counts[verdict]));
            text += &format!("{verdict:first$}{}\n", counts.collect::<String>());
        }
        text
    }
}
