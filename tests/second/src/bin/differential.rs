//! `differential SECONDS SEED`: compares external programs with the second
//! program on random cases, byte for byte.
//!
//! `CHECK_PROGRAM` and, if set, `RUN_PROGRAM` name executables that read
//! `prog.txt` (and `choices.txt`) in their current folder and print a listing.
//! `ARRANGE_PROGRAM`, if set, names one that lays out `prog.txt`; it gets the
//! drawn files.
#![forbid(unsafe_code)]

use std::error::Error;
use std::io::{self, Read};
use std::path::{Path, PathBuf};
use std::process::{Child, Command, ExitCode, Stdio};
use std::sync::mpsc;
use std::time::{Duration, Instant};
use std::{env, fs, process, thread};

use second::generate::{self, Case};
use second::listing;
use second::tally::{Arranged, Tally};

/// A program that takes longer is taken to hang.
const PATIENCE: Duration = Duration::from_secs(10);
/// After this many differences the comparison stops.
const DIFFERENCES: usize = 20;

fn main() -> ExitCode {
    match compare() {
        Ok(differences) => {
            println!("{differences} differences");
            if differences == 0 {
                ExitCode::SUCCESS
            } else {
                ExitCode::FAILURE
            }
        }
        Err(error) => {
            eprintln!("differential: {error}");
            ExitCode::FAILURE
        }
    }
}

/// An external program, and the listing that it should print.
struct Subject {
    name: &'static str,
    path: PathBuf,
    expected: fn(&Case) -> Vec<u8>,
}

/// For the cases with choices.
fn subjects() -> Result<Vec<Subject>, Box<dyn Error>> {
    let check = subject("check", "CHECK_PROGRAM", |case| {
        listing::check(&case.program)
    })?;
    let run = subject("run", "RUN_PROGRAM", |case| {
        listing::run(&case.program, &case.choices)
    })?;
    let check = check.ok_or("CHECK_PROGRAM is not set")?;
    Ok([check].into_iter().chain(run).collect())
}

/// For the drawn files.
fn writer() -> Result<Option<Subject>, Box<dyn Error>> {
    subject("arrange", "ARRANGE_PROGRAM", |case| {
        listing::arrange(&case.program)
    })
}

/// The path is made absolute, since the program runs in another folder.
fn subject(
    name: &'static str,
    variable: &str,
    expected: fn(&Case) -> Vec<u8>,
) -> Result<Option<Subject>, Box<dyn Error>> {
    let Some(path) = env::var_os(variable).filter(|path| !path.is_empty()) else {
        return Ok(None);
    };
    let path = fs::canonicalize(&path).map_err(|error| format!("{variable} {path:?}: {error}"))?;
    Ok(Some(Subject {
        name,
        path,
        expected,
    }))
}

/// Compares until the time is up and hands back the number of differences.
fn compare() -> Result<usize, Box<dyn Error>> {
    let arguments: Vec<String> = env::args().skip(1).collect();
    let [seconds, seed] = &arguments[..] else {
        return Err("usage: differential SECONDS SEED".into());
    };
    let limit = Duration::from_secs(seconds.parse()?);
    let seed: u64 = seed.parse()?;
    let subjects = subjects()?;
    let writer = writer()?;
    let scratch = Scratch::new()?;
    let folder = &scratch.0;
    let begin = Instant::now();
    let mut tally = Tally::default();
    let mut differences = 0;
    let mut arranged = Arranged::default();
    while begin.elapsed() < limit && differences < DIFFERENCES {
        let index = tally.cases;
        let case = generate::case(seed, index);
        case.write(folder)?;
        tally.add(&listing::run(&case.program, &case.choices));
        let name = format!("{seed}-{index}");
        for subject in &subjects {
            differences += usize::from(differs(subject, &case, folder, &name)?);
        }
        if let Some(writer) = &writer {
            let drawn = generate::drawn(seed, index);
            drawn.write(folder)?;
            arranged.add(&listing::arrange(&drawn.program));
            differences += usize::from(differs(writer, &drawn, folder, &format!("{name}-drawn"))?);
        }
    }
    let rate = tally.cases as f64 / begin.elapsed().as_secs_f64();
    println!("{tally}\n{rate:.0} cases a second");
    if writer.is_some() {
        println!("{arranged}");
    }
    Ok(differences)
}

/// The folder that the cases are run in; it goes when the comparison ends.
struct Scratch(PathBuf);

impl Scratch {
    /// In memory where the machine has such a folder.
    fn new() -> io::Result<Scratch> {
        let memory = Path::new("/dev/shm");
        let parent = match memory.is_dir() {
            true => memory.to_path_buf(),
            false => env::temp_dir(),
        };
        let folder = parent.join(format!("second-differential-{}", process::id()));
        fs::create_dir_all(&folder)?;
        Ok(Scratch(folder))
    }
}

impl Drop for Scratch {
    fn drop(&mut self) {
        if let Err(error) = fs::remove_dir_all(&self.0) {
            eprintln!("{:?} stays: {error}", self.0);
        }
    }
}

/// Runs the subject on the case; a difference is printed and kept.
fn differs(
    subject: &Subject,
    case: &Case,
    folder: &Path,
    name: &str,
) -> Result<bool, Box<dyn Error>> {
    let expected = (subject.expected)(case);
    let printed = output(&subject.path, folder)?;
    if printed.as_deref() == Ok(&expected[..]) {
        return Ok(false);
    }
    let kept = env::temp_dir().join("second-differences").join(name);
    fs::create_dir_all(&kept)?;
    case.write(&kept)?;
    let what = subject.name;
    fs::write(kept.join(format!("{what}.expected.txt")), &expected)?;
    let printed = printed.unwrap_or_else(|reason| reason.as_bytes().to_vec());
    fs::write(kept.join(format!("{what}.printed.txt")), &printed)?;
    let line = first_difference(&expected, &printed);
    println!("{what} differs: case {name}, {line}; kept in {kept:?}");
    Ok(true)
}

/// The first line that is not the same.
fn first_difference(expected: &[u8], printed: &[u8]) -> String {
    let lines = |bytes: &[u8]| -> Vec<String> {
        let text = String::from_utf8_lossy(bytes).into_owned();
        text.split('\n').map(String::from).collect()
    };
    let (expected, printed) = (lines(expected), lines(printed));
    let same = expected
        .iter()
        .zip(&printed)
        .take_while(|(e, p)| e == p)
        .count();
    let at = |lines: &[String]| lines.get(same).cloned().unwrap_or_default();
    format!(
        "line {same}: expected {:?}, printed {:?}",
        at(&expected),
        at(&printed)
    )
}

/// What the program prints, or why that does not count. Its exit code is
/// free, but a signal that ends it is a failure.
fn output(path: &Path, folder: &Path) -> Result<Result<Vec<u8>, &'static str>, Box<dyn Error>> {
    let mut child = Command::new(path)
        .current_dir(folder)
        .stdin(Stdio::null())
        .stdout(Stdio::piped())
        .spawn()
        .map_err(|error| format!("{path:?}: {error}"))?;
    let Some(printed) = read_with_patience(&mut child) else {
        child.kill()?;
        child.wait()?;
        return Ok(Err("hangs"));
    };
    Ok(match child.wait()?.code() {
        Some(_) => Ok(printed),
        None => Err("ended by a signal"),
    })
}

fn read_with_patience(child: &mut Child) -> Option<Vec<u8>> {
    let mut stdout = child.stdout.take()?;
    let (sender, receiver) = mpsc::channel();
    thread::spawn(move || {
        let mut printed = Vec::new();
        let read = stdout.read_to_end(&mut printed);
        // Nobody listens any more if the patience ended.
        sender.send(read.map(|_| printed)).ok()
    });
    receiver.recv_timeout(PATIENCE).ok()?.ok()
}
