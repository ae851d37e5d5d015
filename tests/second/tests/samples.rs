//! The bench samples that 01 prints, in the form of 02, change 4, the traps
//! that it names, and the allowances of change 1.

use second::listing;

fn lines(frames: &[&str]) -> Vec<u8> {
    (frames.join("\n") + "\n").into_bytes()
}

fn check(frames: &[&str]) -> String {
    String::from_utf8(listing::check(&lines(frames))).unwrap()
}

fn run(frames: &[&str], choices: &[&str]) -> String {
    let choices = match choices {
        [] => Vec::new(),
        _ => lines(choices),
    };
    String::from_utf8(listing::run(&lines(frames), &choices)).unwrap()
}

const CASE_R: [&str; 9] = [
    "0001000000020000",
    "0102000100000000",
    "2300000000000000",
    "2000000100000000",
    "1700000200030000",
    "0200000400000000",
    "1300000000000000",
    "1203000600000000",
    "0200000700000000",
];

/// 01's listing with the accesses of 02, change 4, each worked out by hand.
#[test]
fn case_r() {
    let expected = [
        "0B 0007",
        "02 00 01 0001 0000", // 12: no expression; moves
        "03 00 00 0001 0000", // the instant's end
        "03 00 01 0001 0000", // 13 without arguments
        "03 00 01 0001 0000", // back
        "03 00 00 0001 0000", // the instant's end
        "03 13 02 0001 0000", // 17: the store is foreign, so refused
        "0006",
    ];
    assert_eq!(
        run(&CASE_R, &["02", "03", "03", "03", "03", "03"]),
        expected.join("\n") + "\n"
    );
}

/// R with 1202 in frame 7: the store is done, which is one access.
#[test]
fn case_r_at_home() {
    let mut at_home = CASE_R;
    at_home[7] = "1202000600000000";
    assert_eq!(check(&at_home), "00 0000\n");
    let expected = [
        "00 0000",
        "02 00 01 0001 0000", // 12
        "02 00 01 0001 0000", // 13
        "02 00 01 0001 0000", // back
        "02 00 01 0001 0000", // the end of thread 1
        "02 00 00 0001 0000", // the instant's end
        "02 00 02 0001 0001", // 17: 23 and 20 access nothing, the store counts
        "02 00 02 0001 0000", // the end of thread 2
        "02 10 00 0001 0000",
        "0008",
    ];
    assert_eq!(run(&at_home, &["02"; 8]), expected.join("\n") + "\n");
}

#[test]
fn type_words_of_a_parameter() {
    let with = |word: &str| {
        let module = format!("02010001{word}0000");
        check(&[
            "0001000000020000",
            "1000000000000000",
            &module,
            "1000000000000000",
            "0200000300000000",
        ])
    };
    for word in ["0001", "0021", "0121", "0321"] {
        assert_eq!(with(word), "00 0000\n", "{word}");
    }
    for word in ["0211", "0201", "0020", "0003", "0041"] {
        assert_eq!(with(word), "05 0002\n", "{word}");
    }
}

#[test]
fn nothing_runs_to_its_end() {
    let frames = ["0001000000010000", "1000000000000000", "0200000100000000"];
    let expected = "00 0000\n02 00 01 0000 0000\n02 00 01 0000 0000\n02 10 00 0000 0000\n0003\n";
    assert_eq!(run(&frames, &["02", "02", "02"]), expected);
    assert_eq!(run(&frames, &[]), "00 0000\n0000\n");
}

#[test]
fn loop_bodies() {
    let with = |body: &str| {
        check(&[
            "0001000000010000",
            "2101000000000000",
            body,
            "1900000100020000",
            "0200000300000000",
        ])
    };
    assert_eq!(with("1000000000000000"), "0D 0003\n");
    assert_eq!(with("1500000000000000"), "00 0000\n");
}

/// `do` at place 2, over and over, until the leaf stands at this depth.
fn nested(depth: usize) -> String {
    let mut frames = vec![
        "0001000000010000".to_string(),
        "10".to_string() + &"0".repeat(14),
    ];
    for child in 1..depth {
        frames.push(format!("1202{child:04X}00000000"));
    }
    frames.push(format!("0200{depth:04X}00000000"));
    let frames: Vec<&str> = frames.iter().map(String::as_str).collect();
    check(&frames)
}

#[test]
fn depth_24_and_25() {
    assert_eq!(nested(24), "00 0000\n");
    assert_eq!(nested(25), "07 0001\n");
}

#[test]
fn leftover_and_swapped_children() {
    let nothing = "1000000000000000";
    let leftover = [
        "0001000000010000",
        nothing,
        nothing,
        "1202000100000000",
        "0200000300000000",
    ];
    assert_eq!(check(&leftover), "06 0002\n");
    let swapped = [
        "0001000000010000",
        nothing,
        nothing,
        "1100000200010000",
        "0200000300000000",
    ];
    assert_eq!(check(&swapped), "06 0003\n");
    assert_eq!(check(&["0001000000010000"]), "06 0000\n");
}

/// A move to one's own place is none, and "back" is a step of its own.
#[test]
fn at_ones_own_place() {
    let frames = [
        "0001000000010000",
        "1000000000000000",
        "1202000100000000",
        "0200000200000000",
    ];
    let step = "02 00 01 0000 0000\n".repeat(4);
    let expected = format!("00 0000\n{step}02 10 00 0000 0000\n0005\n");
    assert_eq!(run(&frames, &["02"; 5]), expected);
}

/// A refused step takes back the cells that it made.
#[test]
fn refused_steps_make_no_cells() {
    let frames = [
        "0001000000010000",
        "2000000100000000",
        "2401000100000000",
        "2100000000000000",
        "2600000200030000",
        "1000000000000000",
        "1600000400050000",
        "0200000600000000",
    ];
    assert_eq!(
        run(&frames, &["02", "02"]),
        "09 0004\n02 14 01 0000 0000\n02 14 01 0000 0000\n0002\n"
    );
}

/// Kinds are tested after all operands have run: the foreign read comes first.
#[test]
fn operands_run_before_kinds_are_tested() {
    let frames = [
        "0001000000020000",
        "0103000100000000",
        "2100000000000000",
        "2300000000000000",
        "2500000300000000",
        "2600000200040000",
        "1000000000000000",
        "1600000500060000",
        "0200000700000000",
    ];
    assert_eq!(run(&frames, &["02"]), "09 0005\n02 13 01 0001 0000\n0001\n");
}

#[test]
fn lists_of_choices_are_judged_whole() {
    let program = lines(&["0001000100010000", "1000000000000000", "0200000100000000"]);
    let run = |choices: &[u8]| String::from_utf8(listing::run(&program, choices)).unwrap();
    assert_eq!(run(b"02\n02\n"), "00 0000\n02 00 01 0000 0000\n0001\n");
    assert_eq!(run(b"02\n02\n0g\n"), "00 0000\n03 0002\n");
    assert_eq!(run(b"02\n02"), "00 0000\n03 0001\n");
    assert_eq!(run(&b"02\n".repeat(16_385)), "00 0000\n02 0000\n");
}

/// The lines of a run as choice, answer, thread, cells and accesses.
fn long_run(program: &[u8]) -> Vec<Vec<String>> {
    let listing = listing::run(program, &b"02\n".repeat(3000));
    let text = String::from_utf8(listing).unwrap();
    let fields = text
        .lines()
        .map(|line| line.split(' ').map(String::from).collect());
    fields
        .filter(|line: &Vec<String>| line.len() == 5)
        .collect()
}

#[test]
fn cell_256_is_made_and_257_is_not() {
    let program = lines(&[
        "0001000000010000",
        "2101000000000000",
        "2000000000000000",
        "2401000200000000",
        "1500000000000000",
        "1600000300040000",
        "1900000100050000",
        "0200000600000000",
    ]);
    assert_eq!(listing::check(&program), b"00 0000\n");
    let run = long_run(&program);
    let full = run.iter().position(|line| line[3] == "0100").unwrap();
    assert!(run[..=full].iter().all(|line| line[1] == "00"));
    assert!(run[full..].iter().all(|line| line[3] == "0100"));
    let refused = run.iter().position(|line| line[1] != "00").unwrap();
    assert!(run[refused..].iter().all(|line| line[1] == "11"));
}

#[test]
fn thread_64_starts_and_65_does_not() {
    let program = lines(&[
        "0001000000010000",
        "1000000000000000",
        "0200000100000000",
        "2101000000000000",
        "1300000000000000",
        "1500000000000000",
        "1100000400050000",
        "1900000300060000",
        "0200000700000000",
    ]);
    assert_eq!(listing::check(&program), b"00 0000\n");
    let run = long_run(&program);
    let refused = run.iter().position(|line| line[1] != "00").unwrap();
    assert!(run[..refused].iter().any(|line| line[2] == "40"));
    assert!(run[refused..].iter().all(|line| line[1..3] == ["12", "01"]));
}

/// The listing of a loop that never ends, under this many choices.
fn endless_run(allowance: u16, count: usize) -> String {
    let program = lines(&[
        &format!("0001{allowance:04X}00010000"),
        "2101000000000000",
        "1500000000000000",
        "1900000100020000",
        "0200000300000000",
    ]);
    String::from_utf8(listing::run(&program, &b"02\n".repeat(count))).unwrap()
}

/// How many of them the run uses: its last line, borne out by the number of
/// its lines, on each of which the loop goes on.
fn used(allowance: u16, count: usize) -> usize {
    let listing = endless_run(allowance, count);
    let lines: Vec<&str> = listing.lines().collect();
    let (first, last) = (lines[0], lines[lines.len() - 1]);
    assert_eq!(first, "00 0000");
    let choices = &lines[1..lines.len() - 1];
    assert!(choices.iter().all(|line| line.starts_with("02 00 ")));
    assert_eq!(last, format!("{:04X}", choices.len()));
    choices.len()
}

#[test]
fn an_allowance_of_0_uses_every_choice_of_a_file() {
    for count in [0, 1, 4095, 4096, 4097, 5000, 16_383, 16_384] {
        assert_eq!(used(0, count), count);
    }
}

#[test]
fn an_explicit_allowance_means_itself() {
    assert_eq!(used(0x1000, 5000), 4096);
    assert_eq!(used(0x1000, 4096), 4096);
    assert_eq!(used(0x1000, 4095), 4095);
    assert_eq!(used(0x0FFF, 4096), 4095);
    assert_eq!(used(0x1001, 5000), 4097);
    assert_eq!(used(0x3FFF, 16_384), 16_383);
    assert_eq!(used(0x4000, 16_384), 16_384);
    assert_eq!(used(0xFFFF, 16_384), 16_384);
    assert_eq!(used(0x0001, 5000), 1);
}

/// What 0 did before the change, 1000 does: the same lines up to its end.
#[test]
fn a_shorter_allowance_only_cuts() {
    let (whole, cut) = (endless_run(0, 5000), endless_run(0x1000, 5000));
    assert!(whole.ends_with("\n1388\n"));
    let lines = cut.strip_suffix("1000\n").unwrap();
    assert!(whole.starts_with(lines));
}
