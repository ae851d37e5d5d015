//! The sample cases of the base (00) and of each change: what the commands print that a case has a
//! file of, byte for byte.

use std::fs;
use std::path::{Path, PathBuf};

use second::listing;

fn folders(root: &Path) -> Vec<PathBuf> {
    let entries = fs::read_dir(root).expect("a folder of vectors");
    let paths = entries.map(|entry| entry.expect("entry").path());
    let mut folders: Vec<_> = paths.filter(|path| path.is_dir()).collect();
    folders.sort();
    folders
}

/// What a command prints on a case's prog.txt and choices.txt.
type Command = fn(&[u8], &[u8]) -> Vec<u8>;

/// Compares the command with the file of each case that has it.
fn printed_alike(name: &str, at_least: usize, command: Command) {
    let root = Path::new(env!("CARGO_MANIFEST_DIR")).join("../vectors");
    let changes = folders(&root);
    let all = changes.iter().flat_map(|change| folders(change));
    let mut found = 0;
    for folder in all.filter(|folder| folder.join(name).exists()) {
        let read = |name| fs::read(folder.join(name)).unwrap_or_default();
        let printed = command(&read("prog.txt"), &read("choices.txt"));
        assert_eq!(printed, read(name), "{folder:?}");
        found += 1;
    }
    assert!(found >= at_least, "only {found} have {name}");
}

#[test]
fn check_prints_every_vector() {
    printed_alike("check.txt", 579, |text, _| listing::check(text));
}

#[test]
fn run_prints_every_vector() {
    printed_alike("run.txt", 577, listing::run);
}

#[test]
fn arrange_prints_every_vector() {
    printed_alike("arrange.txt", 62, |text, _| listing::arrange(text));
}
