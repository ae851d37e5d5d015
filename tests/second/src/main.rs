//! `second check FOLDER`, `second run FOLDER`, `second arrange FOLDER`,
//! `second case SEED INDEX FOLDER`, `second drawn SEED INDEX FOLDER` and
//! `second self SECONDS SEED`.
#![forbid(unsafe_code)]

use std::error::Error;
use std::fs::{self, File};
use std::io::{self, ErrorKind, Read, Write};
use std::path::Path;
use std::process::ExitCode;
use std::time::{Duration, Instant};

use second::generate::{self, Case};
use second::listing;
use second::property;
use second::tally::Tally;
use second::text::{CHOICES_LIMIT, PROGRAM_LIMIT};

const USAGE: &str = "usage: second check FOLDER
       second run FOLDER
       second arrange FOLDER
       second case SEED INDEX FOLDER
       second drawn SEED INDEX FOLDER
       second self SECONDS SEED";

fn main() -> ExitCode {
    let arguments: Vec<String> = std::env::args().skip(1).collect();
    let arguments: Vec<&str> = arguments.iter().map(String::as_str).collect();
    let done = match arguments[..] {
        ["check", folder] => check(Path::new(folder)),
        ["run", folder] => run(Path::new(folder)),
        ["arrange", folder] => arrange(Path::new(folder)),
        ["case", seed, index, folder] => write_case(generate::case, seed, index, folder),
        ["drawn", seed, index, folder] => write_case(generate::drawn, seed, index, folder),
        ["self", seconds, seed] => test_self(seconds, seed),
        _ => Err(USAGE.into()),
    };
    match done {
        Ok(()) => ExitCode::SUCCESS,
        Err(error) => {
            eprintln!("{error}");
            ExitCode::FAILURE
        }
    }
}

type Outcome = Result<(), Box<dyn Error>>;

/// The file, empty if absent. One byte over the limit tells that it is too
/// long, so no more is read.
fn read(path: &Path, limit: usize) -> io::Result<Vec<u8>> {
    let mut text = Vec::new();
    match File::open(path) {
        Ok(file) => file.take(limit as u64 + 1).read_to_end(&mut text)?,
        Err(error) if error.kind() == ErrorKind::NotFound => 0,
        Err(error) => return Err(error),
    };
    Ok(text)
}

fn check(folder: &Path) -> Outcome {
    let text = read(&folder.join("prog.txt"), PROGRAM_LIMIT)?;
    io::stdout().write_all(&listing::check(&text))?;
    Ok(())
}

fn run(folder: &Path) -> Outcome {
    let text = read(&folder.join("prog.txt"), PROGRAM_LIMIT)?;
    let choices = read(&folder.join("choices.txt"), CHOICES_LIMIT)?;
    io::stdout().write_all(&listing::run(&text, &choices))?;
    Ok(())
}

fn arrange(folder: &Path) -> Outcome {
    let text = read(&folder.join("prog.txt"), PROGRAM_LIMIT)?;
    io::stdout().write_all(&listing::arrange(&text))?;
    Ok(())
}

fn write_case(named: fn(u64, u64) -> Case, seed: &str, index: &str, folder: &str) -> Outcome {
    let case = named(seed.parse()?, index.parse()?);
    fs::create_dir_all(folder)?;
    Ok(case.write(Path::new(folder))?)
}

/// Generator, check, run and property, without any other process.
fn test_self(seconds: &str, seed: &str) -> Outcome {
    let limit = Duration::from_secs(seconds.parse()?);
    let seed = seed.parse()?;
    let begin = Instant::now();
    let mut tally = Tally::default();
    while begin.elapsed() < limit {
        let index = tally.cases;
        let case = generate::case(seed, index);
        tally.add(&listing::run(&case.program, &case.choices));
        keeps_property(&case).map_err(|error| format!("seed {seed} index {index}: {error}"))?;
    }
    let rate = tally.cases as f64 / begin.elapsed().as_secs_f64();
    println!("{tally}\n{rate:.0} cases a second");
    match tally.is_complete() {
        true => Ok(()),
        false => Err("some verdict or answer did not occur".into()),
    }
}

fn keeps_property(case: &Case) -> Result<(), String> {
    match case.readable() {
        Some(readable) if readable.verdict.number == 0 => {
            property::examine(&readable.program, &readable.choices)
                .map_err(|violation| format!("{violation:?}"))
        }
        _ => Ok(()),
    }
}
