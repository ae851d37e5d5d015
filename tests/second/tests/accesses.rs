//! Change 4: a step counts its reads, creations and stores; a refused choice
//! counts 0. Cases by hand, then generated runs against the list of accesses
//! that the paper's words give when taken literally.

mod acting;
mod trees;

use acting::acting;
use second::evaluate::{Access, Actor, EventUse, Observer};
use second::frame::kind;
use second::layout::{Program, DEPTH};
use second::listing;
use second::place::{of_thread, HOME, PRIVATE};
use second::state::{Cell, Item, State, Value};
use second::text::{self, PROGRAM_LINES};
use trees::*;

/// The type of a number.
const NUMBER: u16 = 0x0001;

/// The shared cells of the cases: one of home with the number 7, one around
/// it, one around that one, and one of scheduler 3.
fn shared_cells() -> Vec<Node> {
    vec![
        shared_cell(HOME, 0x0001, 7),
        shared_cell(HOME, 0x0021, 0),
        shared_cell(HOME, 0x0221, 1),
        shared_cell(HOME + 1, 0x0001, 0),
    ]
}

/// The last three by their numbers.
const AROUND: u8 = 1;
const AROUND_BOTH: u8 = 2;
const FOREIGN: u8 = 3;

/// A file with two schedulers, these shared cells, and a module of one and one
/// of two parameters, which do nothing, before `main`.
fn file(body: &Node) -> Vec<u8> {
    let file = File {
        schedulers: 2,
        cells: shared_cells(),
        events: Vec::new(),
        links: Vec::new(),
        modules: vec![
            module(&[NUMBER], nothing()),
            module(&[NUMBER; 2], nothing()),
            module(&[], body.clone()),
        ],
    };
    file.text()
}

/// Answers and counts of `main`, chosen so often at home.
fn counts(body: &Node, choices: usize) -> Vec<(u8, u16)> {
    let (program, _) = readable(&file(body));
    let mut state = State::new(&program);
    let step = |_| {
        let outcome = state.step(&program, HOME, &mut ());
        (outcome.answer, outcome.accesses)
    };
    (0..choices).map(step).collect()
}

/// The count of one step that evaluates the expression, and no more.
fn count_of(expression: &Node) -> u16 {
    let counts = counts(&let_(expression.clone(), nothing()), 1);
    assert_eq!(counts[0].0, 0);
    counts[0].1
}

/// The content of shared cell 0, one access.
fn read() -> Node {
    content(shared(0))
}

#[test]
fn each_expression() {
    assert_eq!(count_of(&number(1)), 0);
    assert_eq!(count_of(&truth(1)), 0);
    assert_eq!(count_of(&shared(0)), 0);
    assert_eq!(count_of(&new(PRIVATE, number(1))), 1);
    assert_eq!(count_of(&new(HOME, number(1))), 1);
    assert_eq!(count_of(&read()), 1);
    assert_eq!(count_of(&sum(number(1), number(2))), 0);
    assert_eq!(count_of(&sum(read(), number(2))), 1);
    assert_eq!(count_of(&sum(number(1), read())), 1);
    assert_eq!(count_of(&less(number(1), number(2))), 0);
    assert_eq!(count_of(&less(read(), number(2))), 1);
    assert_eq!(count_of(&less(number(1), read())), 1);
    // A variable: the inner let names it.
    let inner = let_(variable(0), nothing());
    let counts = counts(&let_(new(HOME, number(1)), inner), 2);
    assert_eq!(counts, [(0, 1), (0, 0)]);
}

#[test]
fn the_same_cell_twice_counts_twice() {
    assert_eq!(count_of(&sum(read(), read())), 2);
    assert_eq!(count_of(&less(read(), sum(read(), read()))), 3);
}

#[test]
fn cells_in_cells() {
    assert_eq!(count_of(&content(content(shared(AROUND)))), 2);
    assert_eq!(count_of(&content(content(content(shared(AROUND_BOTH))))), 3);
    let created = new(PRIVATE, new(HOME, new(HOME, number(1))));
    assert_eq!(count_of(&created), 3);
    assert_eq!(count_of(&content(content(content(created)))), 6);
    // New cells around what is read, and a read that only hands on a cell.
    assert_eq!(count_of(&new(HOME, content(new(HOME, read())))), 4);
    assert_eq!(count_of(&content(shared(AROUND_BOTH))), 1);
}

/// The condition and the chosen number count, the other one does not.
#[test]
fn unchosen_parts() {
    let two = sum(read(), read());
    let three = sum(two.clone(), read());
    let chosen = |a| count_of(&choose(a, two.clone(), three.clone()));
    assert_eq!(chosen(truth(1)), 2);
    assert_eq!(chosen(truth(0)), 3);
    // 7 < 1 is false, 1 < 7 is true.
    assert_eq!(chosen(less(read(), number(1))), 1 + 3);
    assert_eq!(chosen(less(number(1), read())), 1 + 2);
    // The unchosen part is not even tested: this one would be foreign.
    let foreign = content(shared(FOREIGN));
    assert_eq!(count_of(&choose(truth(0), foreign, read())), 1);
}

#[test]
fn each_statement_without_expressions() {
    // The row, nothing, the do, nothing, back, the end.
    let body = row(&[nothing(), at(HOME, nothing())]);
    assert_eq!(
        counts(&body, 7),
        [[(0, 0); 6].as_slice(), &[(16, 0)]].concat()
    );
    // Cooperate, the instant's end, the end.
    assert_eq!(counts(&cooperate(), 3), [(0, 0); 3]);
    // A move to scheduler 3: home has nothing to do then.
    assert_eq!(counts(&at(HOME + 1, nothing()), 2), [(0, 0), (16, 0)]);
}

/// The value's count; a drop, a thread's end and no thread at all count 0.
#[test]
fn let_and_drop() {
    let body = let_(new(PRIVATE, read()), nothing());
    let expected = [(0, 2), (0, 0), (0, 0), (0, 0), (16, 0)];
    assert_eq!(counts(&body, 5), expected);
    let (program, _) = readable(&file(&body));
    let mut state = State::new(&program);
    for party in [0, of_thread(1)] {
        let outcome = state.step(&program, party, &mut ());
        assert_eq!((outcome.answer, outcome.accesses), (15, 0));
    }
}

/// Both operands, and one more for the store.
#[test]
fn stores() {
    let count = |cell, value| counts(&store(cell, value), 1);
    assert_eq!(count(shared(0), number(1)), [(0, 1)]);
    assert_eq!(count(shared(0), read()), [(0, 2)]);
    assert_eq!(count(content(shared(AROUND)), number(1)), [(0, 2)]);
    assert_eq!(count(new(PRIVATE, read()), sum(read(), read())), [(0, 5)]);
    let both = [content(content(shared(AROUND_BOTH))), sum(read(), read())];
    assert_eq!(count(both[0].clone(), both[1].clone()), [(0, 2 + 2 + 1)]);
}

/// The condition alone: what the branch does is a step of its own.
#[test]
fn conditions() {
    let branches = [store(shared(0), number(1)), nothing()];
    let if_ = |a| node(kind::IF, 0, &[a, branches[0].clone(), branches[1].clone()]);
    assert_eq!(counts(&if_(truth(1)), 2), [(0, 0), (0, 1)]);
    assert_eq!(counts(&if_(less(number(1), read())), 2), [(0, 1), (0, 1)]);
    assert_eq!(counts(&if_(less(read(), number(1))), 2), [(0, 1), (0, 0)]);
    // 7 < 8, then the store makes it 8 < 8; the test counts each time.
    let one_more = store(shared(0), sum(read(), number(1)));
    let while_ = node(kind::WHILE, 0, &[less(read(), number(8)), one_more]);
    assert_eq!(counts(&while_, 4), [(0, 1), (0, 2), (0, 1), (0, 0)]);
}

/// All arguments; the started thread has made no step.
#[test]
fn starts() {
    for start in [kind::START, kind::START_AND_WAIT] {
        let one = node(start, 0, &[sum(read(), read())]);
        assert_eq!(counts(&one, 1), [(0, 2)]);
        let two = node(start, 1, &[new(HOME, read()), content(shared(AROUND))]);
        assert_eq!(counts(&two, 1), [(0, 3)]);
    }
}

/// Each kind of refusal after three accesses, and again when it is retried.
#[test]
fn a_refused_choice_counts_0() {
    let three = || sum(read(), content(new(PRIVATE, number(1))));
    let then = |fault| let_(sum(three(), fault), nothing());
    let foreign = [
        then(content(shared(FOREIGN))),
        then(content(new(HOME + 1, number(1)))),
        store(shared(FOREIGN), three()),
    ];
    for body in foreign {
        assert_eq!(counts(&body, 2), [(19, 0); 2]);
    }
    let stuck = [
        then(truth(1)),
        then(variable(0)),
        then(shared(FOREIGN + 1)),
        then(content(number(1))),
        then(content(read())),
        store(number(1), three()),
        store(three(), three()),
        node(kind::START, 0, &[three(), three()]),
        node(kind::START, 9, &[three()]),
        node(kind::IF, 0, &[three(), nothing(), nothing()]),
        node(kind::WHILE, 0, &[three(), nothing()]),
    ];
    for body in stuck {
        assert_eq!(counts(&body, 2), [(20, 0); 2]);
    }
}

/// The same step counts in every turn of a loop until the cells or the threads
/// are spent; 4 cells are shared and one thread is `main`.
#[test]
fn spent_after_accesses_counts_0() {
    let forever = |body| forever(row(&[body, cooperate()]));
    let created = sum(read(), content(new(PRIVATE, number(1))));
    let cells = counts(&forever(let_(created, nothing())), 3000);
    let threads = forever(node(kind::START, 0, &[sum(read(), read())]));
    let threads = counts(&threads, 3000);
    for (counts, accesses, answer, made) in [(cells, 3, 17, 252), (threads, 2, 18, 63)] {
        let refused = counts.iter().position(|&(answer, _)| answer != 0).unwrap();
        let (before, after) = counts.split_at(refused);
        let many = before.iter().filter(|&&(_, count)| count == accesses);
        assert_eq!(many.count(), made);
        assert!(before
            .iter()
            .all(|&(_, count)| count == accesses || count == 0));
        assert!(after.iter().all(|&step| step == (answer, 0)));
    }
}

/// Unlinked threads count as others do.
#[test]
fn an_unlinked_thread() {
    let body = at(PRIVATE, let_(content(new(PRIVATE, number(1))), nothing()));
    let (program, _) = readable(&file(&body));
    let mut state = State::new(&program);
    let mut step = |party| {
        let outcome = state.step(&program, party, &mut ());
        (outcome.answer, outcome.accesses)
    };
    assert_eq!(step(HOME), (0, 0));
    assert_eq!(step(of_thread(1)), (0, 2));
    assert_eq!(step(of_thread(1)), (0, 0));
}

#[test]
fn the_listing_has_four_more_digits() {
    let body = let_(sum(read(), read()), store(shared(0), read()));
    let printed = listing::run(&file(&body), b"02\n02\n02\n03\n");
    let expected = "00 0000\n02 00 01 0004 0002\n02 00 01 0004 0002\n02 00 01 0004 0000\n\
                    03 10 00 0004 0000\n0004\n";
    assert_eq!(String::from_utf8(printed).unwrap(), expected);
}

/// Cells of the argument around a number, in the file of the greatest count.
const NESTED: usize = 8;
/// Leaves below the store's cell, and below its value.
const LEAVES: [usize; 2] = [36, 20];

/// Reads through the variable down to the number, then cells made and read in
/// turn: so many accesses, an even number.
fn path(accesses: usize) -> Node {
    let (leaf, nested) = match accesses {
        NESTED.. => (variable(0), NESTED),
        _ => (number(1), 0),
    };
    let number = (0..nested).fold(leaf, |cell, _| content(cell));
    (0..(accesses - nested) / 2).fold(number, |number, _| content(new(PRIVATE, number)))
}

/// A sum whose paths go down as far as the depth and pairs of accesses allow;
/// the last one has fewer accesses.
fn full_sum(leaves: usize, depth: usize, fewer: usize) -> Node {
    if leaves == 1 {
        return path((usize::from(DEPTH) - depth) / 2 * 2 - fewer);
    }
    let first = full_sum(leaves / 2, depth + 1, 0);
    sum(first, full_sum(leaves - leaves / 2, depth + 1, fewer))
}

/// A module with one parameter whose body is the step, then `main`, which
/// starts it with some cells around a number.
fn greatest(nested: usize) -> Vec<u8> {
    let [cell, value] = LEAVES;
    let body = store(new(PRIVATE, full_sum(cell, 3, 0)), full_sum(value, 2, 6));
    let argument = (0..nested).fold(number(1), |content, _| new(HOME, content));
    let start = node(kind::START, 0, &[argument]);
    let file = File {
        schedulers: 1,
        cells: vec![number_cell(HOME)],
        events: Vec::new(),
        links: Vec::new(),
        modules: vec![module(&[NUMBER], body), module(&[], start)],
    };
    file.text()
}

/// 900 accesses in one step of a file of 1,024 frames; README says why none
/// makes more than 914. With one cell less around the number it is stuck.
#[test]
fn hundreds_of_accesses_in_one_step() {
    let choices = b"02\n02\n02\n02\n02\n";
    let text = greatest(NESTED);
    assert_eq!(text::frames(&text).unwrap().len(), PROGRAM_LINES);
    let printed = String::from_utf8(listing::run(&text, choices)).unwrap();
    let lines: Vec<&str> = printed.lines().collect();
    let expected = [
        "02 00 01 0009 0008", // main makes 8 cells and starts thread 2
        "02 00 01 0009 0000", // main ends
        "02 00 00 0009 0000",
        "02 00 02 00EB 0384", // 226 cells more, 673 reads and the store
        "02 00 02 00EB 0000",
    ];
    assert_eq!(lines[1..6], expected);
    let printed = String::from_utf8(listing::run(&greatest(NESTED - 1), choices)).unwrap();
    let lines: Vec<&str> = printed.lines().collect();
    assert_eq!(lines[1], "02 00 01 0008 0007");
    assert_eq!(lines[4..6], ["02 14 02 0008 0000"; 2]);
}

/// An access and the owner of its cell.
type Touch = (Access, u8);

/// The accesses that a step was seen to make, those before a refusal too.
#[derive(Default)]
struct Seen(Vec<Touch>);

impl Observer for Seen {
    fn access(&mut self, _: Actor, access: Access, owner: u8) {
        self.0.push((access, owner));
    }

    fn event(&mut self, _: Actor, _: EventUse, _: u8) {}
}

/// A step that is not refused, taken literally: an expression has a value and
/// a list of accesses, its operands' lists in order and then its own.
struct Literal<'a> {
    program: &'a Program,
    cells: Vec<Cell>,
    variables: &'a [Value],
    thread: u8,
}

impl Literal<'_> {
    fn evaluated(&mut self, f: u16) -> (Value, Vec<Touch>) {
        let frame = self.program.frames[usize::from(f)];
        if frame.kind == kind::CHOOSE {
            let (condition, mut list) = self.evaluated(frame.a);
            let chosen = if is_true(condition) { frame.b } else { frame.c };
            let (value, chosen) = self.evaluated(chosen);
            list.extend(chosen);
            return (value, list);
        }
        let (values, mut list) = self.all(frame.children());
        let value = match frame.kind {
            kind::NUMBER => Value::Number(frame.a.into()),
            kind::TRUTH => Value::Truth(frame.s == 1),
            kind::VARIABLE => self.variables[usize::from(frame.s)],
            kind::SHARED => Value::Cell(frame.s),
            kind::NEW_CELL => {
                let owner = match frame.s {
                    PRIVATE => of_thread(self.thread),
                    scheduler => scheduler,
                };
                let content = values[0];
                self.cells.push(Cell { owner, content });
                list.push((Access::Creation, owner));
                Value::Cell((self.cells.len() - 1) as u8)
            }
            kind::CONTENT => {
                let cell = self.cell(values[0]);
                list.push((Access::Read, cell.owner));
                cell.content
            }
            kind::SUM => Value::Number(as_number(values[0]).wrapping_add(as_number(values[1]))),
            kind::LESS => Value::Truth(as_number(values[0]) < as_number(values[1])),
            other => panic!("kind {other:02X} is no expression"),
        };
        (value, list)
    }

    fn all(&mut self, expressions: impl Iterator<Item = u16>) -> (Vec<Value>, Vec<Touch>) {
        let (mut values, mut list) = (Vec::new(), Vec::new());
        for f in expressions {
            let (value, accesses) = self.evaluated(f);
            values.push(value);
            list.extend(accesses);
        }
        (values, list)
    }

    fn cell(&self, value: Value) -> Cell {
        match value {
            Value::Cell(number) => self.cells[usize::from(number)],
            other => panic!("{other:?} is no cell"),
        }
    }

    /// The list of a statement's step.
    fn statement(&mut self, f: u16) -> Vec<Touch> {
        let frame = self.program.frames[usize::from(f)];
        match frame.kind {
            kind::LET | kind::IF | kind::WHILE => self.evaluated(frame.a).1,
            kind::START | kind::START_AND_WAIT => self.all(frame.children()).1,
            kind::STORE => {
                let (values, mut list) = self.all(frame.children());
                list.push((Access::Store, self.cell(values[0]).owner));
                list
            }
            _ => Vec::new(),
        }
    }
}

fn is_true(value: Value) -> bool {
    value == Value::Truth(true)
}

fn as_number(value: Value) -> u32 {
    match value {
        Value::Number(number) => number,
        other => panic!("{other:?} is no number"),
    }
}

/// Counts of one or several runs.
#[derive(Default, Debug)]
struct Totals {
    steps: usize,
    accesses: usize,
    /// Steps with so many accesses and more.
    at_least_10: usize,
    at_least_256: usize,
    greatest: u16,
    /// Refused choices with accesses before the refusal.
    refused: usize,
}

impl Totals {
    /// Steps the choices and demands of each the literal list and its length.
    fn add(&mut self, program: &Program, choices: &[u8]) {
        let mut state = State::new(program);
        for &party in choices {
            let before = state.clone();
            let mut seen = Seen::default();
            let outcome = state.step(program, party, &mut seen);
            self.steps += 1;
            if outcome.answer != 0 {
                assert_eq!(outcome.accesses, 0);
                self.refused += usize::from(!seen.0.is_empty());
                continue;
            }
            let list = match acting(&before, party) {
                Some(thread) => list(program, &before, thread),
                None => Vec::new(),
            };
            assert_eq!(seen.0, list);
            assert_eq!(usize::from(outcome.accesses), list.len());
            self.accesses += list.len();
            self.at_least_10 += usize::from(list.len() >= 10);
            self.at_least_256 += usize::from(list.len() >= 256);
            self.greatest = self.greatest.max(outcome.accesses);
        }
    }
}

fn list(program: &Program, state: &State, thread: u8) -> Vec<Touch> {
    let acting = state.thread(thread);
    let mut literal = Literal {
        program,
        cells: state.cells.clone(),
        variables: &acting.variables,
        thread,
    };
    match acting.continuation.last() {
        Some(&Item::Run(f)) => literal.statement(f),
        _ => Vec::new(),
    }
}

#[test]
fn generated_runs_follow_the_papers_words() {
    const SEED: u64 = 4;
    let mut totals = Totals::default();
    for case in second::generate::readable(SEED, 0..20_000) {
        totals.add(&case.program, &case.choices);
    }
    println!("{totals:?}");
    assert!(totals.accesses > 100_000, "{totals:?}");
    assert!(totals.at_least_10 > 5_000, "{totals:?}");
    assert!(totals.at_least_256 > 20, "{totals:?}");
    assert!(totals.refused > 1_000, "{totals:?}");
}
