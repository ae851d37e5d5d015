//! words FOLDER: the words of the state that are not 0, fresh and after each choice of choices.txt.
//! It prints the worked example of docs/STATE.md.
fn main() {
    let folder = std::env::args().nth(1).expect("words FOLDER");
    let read = |name: &str| std::fs::read(format!("{folder}/{name}")).unwrap_or_default();
    let text = read("prog.txt");
    let choices = second::text::choices(&read("choices.txt")).unwrap_or_default();
    let mut state = vec![0; purkvaldi::state_length()];
    let mut answer = purkvaldi::fresh(&text, &mut state);
    print("fresh", answer, &state);
    for choice in choices {
        answer = purkvaldi::step(&text, &mut state, u64::from(choice));
        print(&format!("{choice:02X}"), answer, &state);
    }
}

fn print(what: &str, answer: purkvaldi::Answer, state: &[u64]) {
    let words: Vec<String> = state
        .iter()
        .enumerate()
        .filter(|(_, word)| **word != 0)
        .map(|(at, word)| format!("{at}: {word}"))
        .collect();
    println!(
        "{what} -> {:02X} {:02X} | {}",
        answer.number,
        answer.detail,
        words.join(", ")
    );
}
