//! Change 6, digits by formula: every byte at every position of a text and of a choices.txt, beside
//! the second program, which looks them up in a table.

const TEXT: &[u8] = b"0001000000010000\n1000000000000000\n0200000100000000\n";

/// 40 choices: two blocks of 16, which are judged at once, and eight one by one. Every digit stands
/// on both sides.
fn choices() -> Vec<u8> {
    let lines: String = (0..40).map(|i| format!("{:02X}\n", 37 * i % 256)).collect();
    lines.into_bytes()
}

/// The bytes with each value at each position.
fn with_each_byte(right: &[u8]) -> impl Iterator<Item = Vec<u8>> + '_ {
    (0..right.len()).flat_map(move |at| {
        (0..=255).map(move |byte| {
            let mut bytes = right.to_vec();
            bytes[at] = byte;
            bytes
        })
    })
}

/// Demands of each of these lists the second program's listing.
fn are_listed_as_expected(lists: impl Iterator<Item = Vec<u8>>) {
    let mut state = vec![0; purkvaldi::state_length()];
    let mut out = vec![0; purkvaldi::listing_length()];
    for choices in lists {
        let run = purkvaldi::run(TEXT, &choices, &mut state, &mut out);
        let theirs = second::listing::run(TEXT, &choices);
        assert!(run.bytes == theirs, "{choices:?}");
    }
}

#[test]
fn every_byte_in_a_text() {
    let mut malformed = 0;
    for text in with_each_byte(TEXT) {
        let verdict = purkvaldi::check(&text);
        assert_eq!(verdict, purkvaldi::second_check(&text), "{text:?}");
        malformed += usize::from(verdict.0 == 3);
    }
    // 240 bytes are no digit, 255 no line feed.
    assert_eq!(malformed, 3 * (16 * 240 + 255));
}

#[test]
fn every_byte_in_choices() {
    are_listed_as_expected(with_each_byte(&choices()));
}

#[test]
fn choices_that_end_anywhere() {
    let choices = choices();
    are_listed_as_expected((0..=choices.len()).map(|end| choices[..end].to_vec()));
}
