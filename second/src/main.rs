//! A second implementation of document 01, with Tickets 1 to 8 of document 02, and of the tool, to
//! compare with the proved one.

mod agreement;
mod books;
mod cases;
mod compare;
mod listings;
mod lists;
mod mutants;
mod outcome;
mod paper;
mod prng;
#[cfg(feature = "proved")]
mod proved;
mod rules;
mod runs;
mod scene;
mod self_test;
mod tally;
mod vary;
mod vectors;

use std::env;
use std::io::{self, Read, Write};
use std::path::Path;
use std::process::ExitCode;

const USAGE: &str = "\
usage: second self-test          check the rules against the paper's cases and demand 3
       second count N [SEED]     count the verdicts on N cases
       second compare N [SEED]   compare with the proved library on N cases (feature `proved`)
       second case K [SEED]      print case K and what the rules give for it
       second mutants FOLDER [NAME]   show which stored case sees each change of the rules, or each
                                 whose name begins with NAME; the crates' stored files are in FOLDER
       second vectors-crate FOLDER    write stdin and stdout of the crate `vectors`
       second books-crate FOLDER write stdin and stdout of the crate `books`
       second listings FOLDER    write inputs and outputs of the listing program
       second listings-crate FOLDER   write stdin and stdout of the crate `listings`
       second listing            print the listing of standard input
       second runs FOLDER        write files for the tool, and what it says and writes for them
       second runs-crate FOLDER  write stdin and stdout of the crate `runs`
       second scene FOLDER       write a scene for the tool
";

const USAGE_STATUS: u8 = 2;

fn main() -> ExitCode {
    let words: Vec<String> = env::args().skip(1).collect();
    let words: Vec<&str> = words.iter().map(String::as_str).collect();
    match run(&words) {
        Ok(status) => status,
        Err(error) => {
            eprintln!("second: {error}");
            ExitCode::FAILURE
        }
    }
}

fn run(words: &[&str]) -> io::Result<ExitCode> {
    match words {
        ["self-test"] => self_test(),
        ["vectors-crate", folder] => vectors::write_crate(Path::new(folder))?,
        ["books-crate", folder] => books::write_crate(Path::new(folder))?,
        ["mutants", crates, front @ ..] if front.len() <= 1 => {
            if !mutants::report(Path::new(crates), front.first().unwrap_or(&""))? {
                return Ok(ExitCode::FAILURE);
            }
        }
        ["listings", folder] => listings::write(Path::new(folder))?,
        ["listings-crate", folder] => listings::write_crate(Path::new(folder))?,
        ["listing"] => listing()?,
        ["runs", folder] => runs::write(Path::new(folder))?,
        ["runs-crate", folder] => runs::write_crate(Path::new(folder))?,
        ["scene", folder] => scene::write(Path::new(folder))?,
        [command, number, seed @ ..] if seed.len() <= 1 => {
            let seed = seed.first().unwrap_or(&"1").parse();
            let (Ok(number), Ok(seed)) = (number.parse(), seed) else {
                return Ok(usage());
            };
            return Ok(numbered(command, number, seed));
        }
        _ => return Ok(usage()),
    }
    Ok(ExitCode::SUCCESS)
}

fn numbered(command: &str, number: usize, seed: u64) -> ExitCode {
    match command {
        "count" => compare::count(number, seed),
        "case" => compare::show(number, seed),
        "compare" => return compared(number, seed),
        _ => return usage(),
    }
    ExitCode::SUCCESS
}

#[cfg(feature = "proved")]
fn compared(cases: usize, seed: u64) -> ExitCode {
    if compare::compare(cases, seed) {
        ExitCode::SUCCESS
    } else {
        ExitCode::FAILURE
    }
}

#[cfg(not(feature = "proved"))]
fn compared(_cases: usize, _seed: u64) -> ExitCode {
    eprintln!("second: built without the feature `proved`");
    ExitCode::from(USAGE_STATUS)
}

fn self_test() {
    for (name, check) in self_test::CHECKS {
        check();
        println!("passed: {name}");
    }
}

fn listing() -> io::Result<()> {
    let mut input = Vec::new();
    io::stdin().read_to_end(&mut input)?;
    io::stdout().write_all(rules::paper().listing(&input).as_bytes())
}

fn usage() -> ExitCode {
    eprint!("{USAGE}");
    ExitCode::from(USAGE_STATUS)
}
