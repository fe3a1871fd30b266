//! What the tool says and writes, changed: orders of refusals, positions, lines of single ids, words.

use super::changes::Mutant;
use crate::rules::{self, words_of, ByteOrder, Kind, Row, Rules, Run, Task, IMAGE_WORDS};
use crate::runs::RunCase;

pub fn all() -> Vec<Mutant> {
    let mut all = sizes_behind_the_list();
    all.extend(other_positions());
    all.extend(settings_lines());
    all.extend(records_lines());
    all.extend(words_written());
    all.extend(texts());
    all
}

/// The verdict and the position of a refusal's text.
fn refusal(text: &str) -> Option<(u32, usize)> {
    let rest = text.strip_prefix("refused ")?;
    let (verdict, position) = rest.lines().next()?.split_once(" at ")?;
    Some((verdict.parse().ok()?, position.parse().ok()?))
}

/// 12 or 2 only where the list is accepted; 1 behind both.
fn sizes_behind_the_list() -> Vec<Mutant> {
    let mut all = Vec::new();
    for verdict in [2, 12] {
        let mut without = Rules::paper();
        for checks in [&mut without.tool.list_sizes, &mut without.tool.pairs_sizes] {
            checks.retain(|check| check.verdict != verdict);
        }
        let name = format!("run: verdict {verdict} behind the list's own");
        all.push(Mutant::of_run(name, move |case, expected| {
            if !matches!(refusal(&expected.text), Some((given, _)) if given == verdict) {
                return expected;
            }
            // With whole words, and an image that is one.
            let input = case.input[..case.input.len() / 4 * 4].to_vec();
            let image = match verdict {
                2 => vec![0; 4 * IMAGE_WORDS],
                _ => case.image.clone(),
            };
            let other = without.run(case.task, &input, &image);
            match refusal(&other.text) {
                Some(_) => other,
                None => expected,
            }
        }));
    }
    let mut last = Rules::paper();
    for checks in [&mut last.tool.list_sizes, &mut last.tool.pairs_sizes] {
        let first = checks.remove(0);
        checks.push(first);
    }
    all.push(Mutant::of_run("run: verdict 1 behind 12 and 2".into(), move |case, _| {
        case.by(&last)
    }));
    all
}

/// The position in the first line told otherwise.
fn other_positions() -> Vec<Mutant> {
    let mutant = |name: &str, change: fn(&RunCase, u32, usize) -> usize| {
        Mutant::of_run(format!("run: {name}"), move |case, mut run| {
            if let Some((verdict, position)) = refusal(&run.text) {
                let other = change(case, verdict, position);
                let first = format!("refused {verdict} at {position}\n");
                run.text = run.text.replacen(&first, &format!("refused {verdict} at {other}\n"), 1);
            }
            run
        })
    };
    vec![
        mutant("positions of pairs in words", |case, verdict, position| {
            let of_pair = case.task == Task::List && ![1, 2, 12].contains(&verdict);
            if of_pair {
                2 * position
            } else {
                position
            }
        }),
        mutant("12 of pairs in pairs", |case, verdict, position| {
            if (case.task, verdict) == (Task::List, 12) {
                position / 2
            } else {
                position
            }
        }),
        mutant("12 at the word cut", |_, verdict, position| position + (verdict == 12) as usize),
        mutant(
            "12 in bytes",
            |case, verdict, position| {
                if verdict == 12 {
                    case.input.len()
                } else {
                    position
                }
            },
        ),
        mutant("1 of pairs in words", |case, verdict, position| {
            if (case.task, verdict) == (Task::List, 1) {
                2 * position
            } else {
                position
            }
        }),
        mutant("positions in bytes", |_, _, position| 4 * position),
        mutant("positions from 1", |_, _, position| position + 1),
    ]
}

/// The image words of a setting, before the list and after it.
fn setting_words(case: &RunCase, row: &Row) -> [Vec<u32>; 2] {
    let before = words_of(&case.image, ByteOrder::Little);
    let list = words_of(&case.input, ByteOrder::Little);
    let mut after = before.clone();
    rules::paper()
        .walk(&list)
        .0
        .iter()
        .for_each(|command| rules::paper().apply(command, &mut after));
    let words = |image: &[u32]| image[row.id as usize..row.id as usize + row.own_words()].to_vec();
    [words(&before), words(&after)]
}

fn hex(words: &[u32]) -> String {
    words.iter().map(|word| format!("{word:08x}")).collect::<Vec<String>>().join(" ")
}

/// The line of a setting, with its end.
fn setting_line(row: &Row, before: &[u32], after: &[u32]) -> String {
    let names = &rules::paper().tool.names.0;
    let name = names.iter().find(|name| name.id == row.id).expect("a name");
    format!("{:02x} {} {} -> {}\n", row.id, name.name, hex(before), hex(after))
}

fn is_shown(case: &RunCase, run: &Run) -> bool {
    case.task == Task::Show && run.text.starts_with("accepted")
}

/// For each setting and word: overlooked where it alone differs, the word before or after it told
/// otherwise. For each setting: told though it is as before.
fn settings_lines() -> Vec<Mutant> {
    let mut all = Vec::new();
    for row in rules::paper().table.0.iter().filter(|row| row.kind == Kind::Setting) {
        let name = |what: &str| format!("run: sets {:02X}: {what}", row.id);
        for k in 0..row.own_words() {
            let alone = move |case: &RunCase, mut run: Run| {
                if is_shown(case, &run) {
                    let [before, after] = setting_words(case, row);
                    let differs = |n: &usize| before[*n] != after[*n];
                    if (0..before.len()).filter(differs).eq([k]) {
                        run.text = run.text.replace(&setting_line(row, &before, &after), "");
                    }
                }
                run
            };
            all.push(Mutant::of_run(name(&format!("word {k} alone overlooked")), alone));
            for which in 0..2 {
                let other = move |case: &RunCase, mut run: Run| {
                    if is_shown(case, &run) {
                        let words = setting_words(case, row);
                        let mut other = words.clone();
                        other[which][k] = words[1 - which][k];
                        let line = setting_line(row, &words[0], &words[1]);
                        run.text =
                            run.text.replace(&line, &setting_line(row, &other[0], &other[1]));
                    }
                    run
                };
                let side = ["before as after", "after as before"][which];
                all.push(Mutant::of_run(name(&format!("word {k} {side}")), other));
            }
        }
        let as_before = move |case: &RunCase, mut run: Run| {
            if is_shown(case, &run) {
                let [before, after] = setting_words(case, row);
                if before == after {
                    let line = setting_line(row, &before, &after);
                    run.text = run.text.replace("draws:", &format!("{line}draws:"));
                }
            }
            run
        };
        all.push(Mutant::of_run(name("told as it is"), as_before));
    }
    all
}

/// For each work command: no line, or another position, length or header; settings with lines too.
fn records_lines() -> Vec<Mutant> {
    let mut all = Vec::new();
    for row in &rules::paper().table.0 {
        let id = row.id;
        let change = |what: &str, change: fn(&mut Vec<String>)| {
            Mutant::of_run(format!("run: draws {id:02X}: {what}"), move |case, mut run| {
                if is_shown(case, &run) {
                    run.text = with_draws(&run.text, |line| {
                        let mut columns: Vec<String> =
                            line.splitn(5, ' ').map(String::from).collect();
                        if columns[1] == format!("{id:02x}") {
                            change(&mut columns);
                        }
                        columns.join(" ")
                    });
                }
                run
            })
        };
        if row.kind == Kind::Work {
            all.push(change("no line", |columns| columns.clear()));
            all.push(change("another position", |columns| columns[0].push('0')));
            all.push(change("another length", |columns| columns[2].push('0')));
            all.push(change("no header", |columns| drop(columns.remove(3))));
            all.push(change("no name", |columns| columns.truncate(4)));
        }
    }
    all
}

/// The text with its lines of records changed; empty ones are left out.
fn with_draws(text: &str, change: impl Fn(&str) -> String) -> String {
    let title = "draws: at id words head name";
    let mut of_records = false;
    let mut lines = Vec::new();
    for line in text.lines() {
        of_records &= !line.starts_with("words ");
        lines.push(if of_records { change(line) } else { line.to_string() });
        of_records |= line == title;
    }
    lines.iter().filter(|line| !line.is_empty()).map(|line| format!("{line}\n")).collect()
}

fn words_written() -> Vec<Mutant> {
    let mut all = Vec::new();
    for task in Task::ALL {
        let mutant = |what: &str, change: fn(&RunCase, &mut Run)| {
            Mutant::of_run(format!("run: {}: {what}", task.name()), move |case, mut run| {
                if case.task == task {
                    change(case, &mut run);
                }
                run
            })
        };
        all.push(mutant("words with a refusal", |case, run| {
            if refusal(&run.text).is_some() {
                run.words.clone_from(&case.input);
            }
        }));
        all.push(mutant("the image with a refusal", |case, run| {
            if refusal(&run.text).is_some() {
                run.words.clone_from(&case.image);
            }
        }));
        if task != Task::Show {
            all.push(mutant("first word left out", |_, run| {
                drop(run.words.drain(..run.words.len().min(4)))
            }));
            all.push(mutant("last word left out", |_, run| {
                run.words.truncate(run.words.len().saturating_sub(4))
            }));
            all.push(mutant("text behind the words", |_, run| {
                let words = std::mem::take(&mut run.words);
                run.text = format!("{}{}", String::from_utf8_lossy(&words), run.text);
            }));
        }
    }
    for k in 0..IMAGE_WORDS {
        all.push(Mutant::of_run(
            format!("run: image: word {k:02X} changed"),
            move |case, mut run| {
                if case.task == Task::Image {
                    run.words.iter_mut().skip(4 * k).take(1).for_each(|byte| *byte ^= 1);
                }
                run
            },
        ));
    }
    all
}

/// Texts that are like the paper's and are not it.
fn texts() -> Vec<Mutant> {
    let mutant = |what: &str, change: fn(&RunCase, &str) -> String| {
        Mutant::of_run(format!("run: {what}"), move |case, mut run| {
            run.text = change(case, &run.text);
            run
        })
    };
    let mut all = vec![
        mutant("lines of a refusal before the first", |_, text| match refusal(text) {
            Some(_) => format!("accepted commands 0 items 0\n{text}"),
            None => text.into(),
        }),
        mutant("the refusal's first line alone", |_, text| match refusal(text) {
            Some((verdict, position)) => format!("refused {verdict} at {position}\n"),
            None => text.into(),
        }),
        mutant("the row with its number", |_, text| match refusal(text) {
            Some((verdict, _)) => {
                let (front, row) = text.trim_end().rsplit_once('\n').expect("more lines");
                format!("{front}\n{}\n", row.replacen("why", &format!("{verdict:2}"), 1))
            }
            None => text.into(),
        }),
        mutant("no titles where no line follows", |_, text| {
            text.replace("sets: id name before -> after\ndraws:", "draws:")
        }),
        mutant("no title of records where none follows", |_, text| {
            text.replace("draws: at id words head name\nwords", "words")
        }),
        mutant("no line of words for the empty list", |_, text| {
            text.replace("words 0 normal form 0\n", "")
        }),
        mutant("no line of written words where there are none", |_, text| {
            text.replace("written 0 words\n", "")
        }),
        mutant("one word", |_, text| text.replace("written 1 words", "written 1 word")),
        mutant("one command", |_, text| text.replace("commands 1 items", "command 1 items")),
        mutant("no last line end", |_, text| text.trim_end().into()),
        mutant("a command of id 00 without name", |_, text| {
            text.replace("command 00 flush", "command 00")
        }),
    ];
    for verdict in 15..=19 {
        all.push(Mutant::of_run(format!("run: {verdict} told as 8"), move |_, mut run| {
            run.text = run.text.replace(&format!("refused {verdict} at"), "refused 8 at");
            run
        }));
    }
    for verdict in [1, 2, 12] {
        all.push(Mutant::of_run(
            format!("run: verdict {verdict} with a word"),
            move |_, mut run| {
                if matches!(refusal(&run.text), Some((given, _)) if given == verdict) {
                    run.text = run.text.replacen('\n', "\nword 00000000\n", 1);
                }
                run
            },
        ));
    }
    all
}
