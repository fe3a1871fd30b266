//! Runs of the tool: the bytes of its files, what it says, and the bytes that it writes.

mod cases;

use crate::rules::{self, Rules, Run, Task};
use std::fs;
use std::io;
use std::path::Path;

pub use cases::{more_runs, random_run, stored_runs};

pub struct RunCase {
    pub name: String,
    pub task: Task,
    /// The bytes of LIST or PAIRS, and of IMAGE.
    pub input: Vec<u8>,
    pub image: Vec<u8>,
}

/// "of LIST 16,385 bytes are read at most, of PAIRS 32,776, of IMAGE 65,536"
const MOST_OF_LIST: usize = 16_385;
const MOST_OF_PAIRS: usize = 32_776;
const MOST_OF_IMAGE: usize = 65_536;

impl RunCase {
    pub fn expected(&self) -> Run {
        self.by(rules::paper())
    }

    /// What other rules give for the bytes that are read.
    pub fn by(&self, rules: &Rules) -> Run {
        let most = match self.task {
            Task::List => MOST_OF_PAIRS,
            _ => MOST_OF_LIST,
        };
        let input = &self.input[..self.input.len().min(most)];
        let image = &self.image[..self.image.len().min(MOST_OF_IMAGE)];
        rules.run(self.task, input, image)
    }
}

/// Writes NAME.task, NAME.in, NAME.image, NAME.text and NAME.words for each run.
pub fn write(folder: &Path) -> io::Result<()> {
    fs::create_dir_all(folder)?;
    for case in stored_runs().into_iter().chain(more_runs()) {
        let Run { text, words } = case.expected();
        let path = |end: &str| folder.join(format!("{}.{end}", case.name));
        fs::write(path("task"), case.task.name())?;
        fs::write(path("in"), &case.input)?;
        fs::write(path("image"), &case.image)?;
        fs::write(path("text"), text)?;
        fs::write(path("words"), words)?;
    }
    Ok(())
}

/// Writes stdin and stdout of the test program `runs`.
pub fn write_crate(folder: &Path) -> io::Result<()> {
    let (stdin, stdout) = crate_files();
    fs::create_dir_all(folder)?;
    fs::write(folder.join("stdin"), stdin)?;
    fs::write(folder.join("stdout"), stdout)
}

/// Each run after its task in one byte and its two lengths in two bytes each, low first; and for each
/// the text, then the words.
pub fn crate_files() -> (Vec<u8>, Vec<u8>) {
    let (mut stdin, mut stdout) = (Vec::new(), Vec::new());
    for case in stored_runs() {
        stdin.push(case.task as u8);
        for bytes in [&case.input, &case.image] {
            let length = u16::try_from(bytes.len()).expect("a length of two bytes");
            stdin.extend(length.to_le_bytes());
        }
        stdin.extend([&case.input[..], &case.image].concat());
        let Run { text, words } = case.expected();
        stdout.extend([text.as_bytes(), &words].concat());
    }
    (stdin, stdout)
}

#[cfg(test)]
mod tests {
    use super::*;
    use std::collections::HashSet;

    #[test]
    fn files_are_small() {
        let (stdin, stdout) = crate_files();
        assert!(
            stdin.len() < 400_000 && stdout.len() < 400_000,
            "{}, {}",
            stdin.len(),
            stdout.len()
        );
    }

    #[test]
    fn names_differ() {
        let mut names = HashSet::new();
        assert!(stored_runs().into_iter().chain(more_runs()).all(|case| names.insert(case.name)));
    }

    /// `TASK-refused-N..` is refused with N, `TASK-accepted..` is accepted.
    #[test]
    fn runs_are_named_for_their_verdicts() {
        for case in stored_runs().into_iter().chain(more_runs()) {
            let Run { text, words } = case.expected();
            let name = &case.name;
            let rest =
                name.strip_prefix(&format!("{}-", case.task.name())).expect("the task's name");
            match rest.strip_prefix("refused-") {
                Some(rest) => {
                    let number = rest.split('-').next().expect("a number");
                    assert!(text.starts_with(&format!("refused {number} at ")), "{name}: {text}");
                    assert!(words.is_empty());
                }
                None if rest.starts_with("any-") => {}
                None => {
                    assert!(rest.starts_with("accepted"), "{name}");
                    assert!(text.starts_with("accepted "), "{name}: {text}");
                }
            }
        }
    }

    /// Every verdict of the tool with every task that gives it.
    #[test]
    fn every_verdict_is_there() {
        let runs: Vec<RunCase> = stored_runs().into_iter().chain(more_runs()).collect();
        for task in Task::ALL {
            let of_pairs: &[u32] = if task == Task::List { &[13, 14] } else { &[5, 9] };
            let every = [1, 2, 3, 4, 6, 7, 10, 12, 15, 16, 17, 18, 19];
            for verdict in every.iter().chain(of_pairs) {
                let front = format!("{}-refused-{verdict}-", task.name());
                assert!(runs.iter().any(|case| case.name.starts_with(&front)), "{front}");
            }
        }
    }
}
