//! Change 3: a wait ends when the awaited thread and all begun by it, directly
//! or through others, have ended. Cases by hand, then generated runs against
//! the paper's words taken literally.

mod acting;
mod in_step;
mod literal;
mod trees;

use literal::Waits;
use second::generate;
use second::listing;
use second::place::{of_thread, PRIVATE};
use trees::{at, cooperate, file, nothing, row, start, wait_for, Node, Run};

fn unlinked() -> Node {
    at(PRIVATE, nothing())
}

fn cooperates(count: usize) -> Node {
    row(&vec![cooperate(); count])
}

impl Run {
    /// Chooses the scheduler until it has nothing to do, as it must soon. Hands
    /// back who acted, 0 for the end of an instant.
    fn settle(&mut self, scheduler: u8) -> Vec<u8> {
        let mut acted = Vec::new();
        while acted.len() < 2_000 {
            match self.choose(scheduler) {
                (0, thread) => acted.push(thread),
                refused => {
                    assert_eq!(refused, (16, 0));
                    return acted;
                }
            }
        }
        panic!("scheduler {scheduler} does not settle")
    }

    /// An unlinked thread does nothing and goes back, then home settles.
    fn release(&mut self, thread: u8) -> Vec<u8> {
        for _ in 0..2 {
            assert_eq!(self.choose(of_thread(thread)), (0, thread));
        }
        self.settle(2)
    }

    fn has_ended(&self, thread: u8) -> bool {
        self.state.thread(thread).ended
    }

    fn starter(&self, thread: u8) -> u8 {
        self.state.thread(thread).starter.expect("not main")
    }
}

/// 02's story, every line worked out by hand: scoreboard 1 waits for monitor 2,
/// which starts logger 3, which starts flusher 4.
#[test]
fn a_scoreboard_waits_for_the_flusher() {
    let flusher = row(&[cooperate(), cooperate()]);
    let modules = [flusher, start(0), start(1), wait_for(2)];
    let listing = listing::run(&file(1, &[], &modules).text(), &b"02\n".repeat(18));
    let acted = [
        "01", // starts the monitor and waits
        "00", //
        "02", // starts the logger
        "02", // the monitor ends
        "00", //
        "03", // starts the flusher
        "03", // the logger ends
        "00", // by 01 the wait would end here
        "04", // the row
        "04", // cooperates
        "00", //
        "04", // cooperates
        "00", //
        "04", // the flusher ends
        "00", // and so does the wait
        "01", // the scoreboard ends
    ];
    let mut expected = "00 0000\n".to_string();
    for thread in acted {
        expected += &format!("02 00 {thread} 0000 0000\n");
    }
    expected += "02 10 00 0000 0000\n02 10 00 0000 0000\n0012\n";
    assert_eq!(String::from_utf8(listing).unwrap(), expected);
}

/// The same with a flusher that goes on long after the others have ended.
#[test]
fn monitor_and_logger_ended_long_before() {
    let modules = [cooperates(22), start(0), start(1), wait_for(2)];
    let mut run = Run::new(1, &[], &modules);
    let acted = run.settle(2);
    let last = |thread| acted.iter().rposition(|&acting| acting == thread).unwrap();
    let instants = |range: &[u8]| range.iter().filter(|&&acting| acting == 0).count();
    assert!(last(2) < last(3) && last(3) < last(4));
    assert_eq!(instants(&acted[last(3)..last(4)]), 23);
    assert_eq!(acted[last(4)..], [4, 0, 1]);
    assert_eq!(acted.iter().filter(|&&acting| acting == 1).count(), 2);
}

/// A flusher that never ends: neither does the wait.
#[test]
fn a_family_that_never_ends() {
    let text = [
        "0001000000010000",
        "2101000000000000", // 1: while true
        "1500000000000000", // 2: cooperate
        "1900000100020000",
        "0200000300000000",
        "1300000000000000", // the logger
        "0200000500000000",
        "1301000000000000", // the monitor
        "0200000700000000",
        "1402000000000000", // the scoreboard
        "0200000900000000",
    ];
    let text = text.join("\n") + "\n";
    let listing = listing::run(text.as_bytes(), &b"02\n".repeat(16_384));
    let listing = String::from_utf8(listing).unwrap();
    assert_eq!(listing.lines().next(), Some("00 0000"));
    assert_eq!(listing.matches("02 00 01 0000 0000\n").count(), 1);
    assert_eq!(listing.lines().count(), 16_386);
}

/// All orders of the numbers up to `count`.
fn orders(count: usize) -> Vec<Vec<usize>> {
    match count {
        0 => vec![Vec::new()],
        _ => {
            let shorter = orders(count - 1);
            let longer = shorter.iter().flat_map(|order| {
                (0..count).map(|at| {
                    let mut order = order.clone();
                    order.insert(at, count - 1);
                    order
                })
            });
            longer.collect()
        }
    }
}

/// The starters of members 1 to `count` - 1, each an earlier member: every
/// shape that a family of so many can have.
fn shapes(count: usize) -> Vec<Vec<usize>> {
    match count {
        1 => vec![Vec::new()],
        _ => {
            let smaller = shapes(count - 1);
            let larger = smaller.iter().flat_map(|starters| {
                (0..count - 1).map(|starter| {
                    let mut starters = starters.clone();
                    starters.push(starter);
                    starters
                })
            });
            larger.collect()
        }
    }
}

/// Every shape and every order; hands back how many runs that was.
fn end_in_every_order(count: usize) -> usize {
    let mut runs = 0;
    for starters in shapes(count) {
        for order in orders(count) {
            end_in_order(&starters, &order);
            runs += 1;
        }
    }
    runs
}

/// Each member starts its children and then is unlinked until it is released.
/// The wait ends with the last member, whichever that is.
fn end_in_order(starters: &[usize], order: &[usize]) {
    let count = order.len();
    // Member m is module count - 1 - m, so that its children are below it.
    let module_of = |member: usize| (count - 1 - member) as u8;
    let mut modules: Vec<Node> = Vec::new();
    for member in (0..count).rev() {
        let children = (1..count).filter(|&child| starters[child - 1] == member);
        let starts = children.map(|child| start(module_of(child)));
        let body: Vec<Node> = starts.chain([unlinked()]).collect();
        modules.push(row(&body));
    }
    modules.push(wait_for(module_of(0)));
    let mut run = Run::new(1, &[], &modules);
    run.settle(2);
    let threads = threads_of_members(&run, starters);
    for (ended, &member) in order.iter().enumerate() {
        assert!(!run.has_ended(1), "{starters:?} {order:?} after {ended}");
        let acted = run.release(threads[member]);
        assert!(run.has_ended(threads[member]));
        match ended + 1 == count {
            true => assert_eq!(acted, [0, threads[member], 0, 1]),
            false => assert_eq!(acted, [0, threads[member]]),
        }
    }
    assert!(run.has_ended(1), "{starters:?} {order:?}");
}

/// The thread of each member, all of them unlinked. The awaited one is 2; the
/// children of a member are the threads that it started, in the same order.
fn threads_of_members(run: &Run, starters: &[usize]) -> Vec<u8> {
    let mut threads = vec![2];
    for (number, starter) in starters.iter().enumerate() {
        let elder = starters[..number].iter().filter(|&other| other == starter);
        let numbered = (1..).zip(&run.state.threads);
        let mut children = numbered.filter(|(_, child)| child.starter == Some(threads[*starter]));
        threads.push(children.nth(elder.count()).expect("a child").0);
    }
    let mut members = threads.iter().map(|&thread| run.state.thread(thread));
    assert!(members.all(|member| member.is_unlinked()));
    threads
}

#[test]
fn three_members_end_in_every_order() {
    assert_eq!(end_in_every_order(3), 2 * 6);
}

#[test]
fn four_members_end_in_every_order() {
    assert_eq!(end_in_every_order(4), 6 * 24);
}

/// A grandchild that has gone to scheduler 3; only that one's instants move it.
#[test]
fn a_member_on_another_scheduler() {
    let modules = [at(3, cooperate()), start(0), start(1), wait_for(2)];
    let mut run = Run::new(2, &[], &modules);
    assert_eq!(run.settle(2), [1, 0, 2, 2, 0, 3, 3, 0, 4]);
    assert_eq!(run.choose(3), (0, 0));
    assert_eq!(run.choose(3), (0, 4));
    assert_eq!(run.settle(2), []);
    // The rest of scheduler 3: the instant's end, and back home.
    assert_eq!(run.settle(3), [0, 4]);
    assert_eq!(run.settle(2), [0, 4, 0, 1]);
}

/// A grandchild begun at scheduler 3 ends there. The wait is tested at the end
/// of the waiter's instant, not of that one.
#[test]
fn a_member_that_ends_on_another_scheduler() {
    let modules = [nothing(), at(3, start(0)), start(1), wait_for(2)];
    let mut run = Run::new(2, &[], &modules);
    assert_eq!(run.settle(2), [1, 0, 2, 2, 0, 3]);
    // The logger starts the flusher at 3 and leaves; the flusher stays.
    assert_eq!(run.choose(3), (0, 0));
    assert_eq!(run.choose(3), (0, 3));
    assert_eq!(run.choose(3), (0, 3));
    assert_eq!(run.settle(2), [0, 3]);
    assert!(run.has_ended(2) && run.has_ended(3) && !run.has_ended(4));
    assert_eq!(run.settle(3), [0, 4, 4]);
    assert!(run.has_ended(4) && !run.has_ended(1));
    assert_eq!(run.choose(3), (16, 0));
    assert_eq!(run.settle(2), [0, 1]);
}

/// A grandchild that is unlinked; its own choices alone move it.
#[test]
fn an_unlinked_member() {
    let modules = [unlinked(), start(0), start(1), wait_for(2)];
    let mut run = Run::new(1, &[], &modules);
    assert_eq!(run.settle(2), [1, 0, 2, 2, 0, 3, 3, 0, 4]);
    assert_eq!(run.choose(of_thread(4)), (0, 4));
    assert_eq!(run.settle(2), []);
    assert_eq!(run.choose(of_thread(4)), (0, 4));
    assert_eq!(run.settle(2), [0, 4, 0, 1]);
}

/// The waiter waits at scheduler 3, where its child begins; a grandchild begun
/// at home holds it up there.
#[test]
fn a_waiter_on_another_scheduler() {
    let modules = [unlinked(), at(2, start(0)), at(3, wait_for(1))];
    let mut run = Run::new(2, &[], &modules);
    assert_eq!(run.settle(2), [1]);
    assert_eq!(run.settle(3), [0, 1, 0, 2]);
    assert_eq!(run.settle(2), [0, 2, 2, 0, 3]);
    assert_eq!(run.settle(3), [0, 2]);
    assert!(run.has_ended(2));
    assert_eq!(run.release(3), [0, 3]);
    assert!(run.has_ended(3));
    // "Back", then home's own end of the instant.
    assert_eq!(run.settle(3), [0, 1]);
    assert_eq!(run.settle(2), [0, 1]);
}

/// 1 waits for 2, 2 waits for 3, 3 starts 4 and ends. 4 holds up both; then
/// the inner wait ends an instant before the outer one.
#[test]
fn a_waiter_whose_child_waits_too() {
    let modules = [unlinked(), start(0), wait_for(1), wait_for(2)];
    let mut run = Run::new(1, &[], &modules);
    assert_eq!(run.settle(2), [1, 0, 2, 0, 3, 3, 0, 4]);
    assert_eq!(run.release(4), [0, 4, 0, 2, 0, 1]);
}

/// 2 waits for 4 and 3 for 5, each of which has started an unlinked thread:
/// 6 and 7. Each holds up its own waiter only.
#[test]
fn two_waiters_with_disjoint_families() {
    let waiters = row(&[start(2), start(2)]);
    let modules = [unlinked(), start(0), wait_for(1), waiters];
    for (first, second) in [(6, 7), (7, 6)] {
        let mut run = Run::new(1, &[], &modules);
        run.settle(2);
        let ended = |run: &Run| [1, 2, 3, 4, 5, 6, 7].map(|thread| run.has_ended(thread));
        assert_eq!(ended(&run), [true, false, false, true, true, false, false]);
        assert_eq!(run.release(first), [0, first, 0, first - 4]);
        assert!(!run.has_ended(second - 4));
        assert_eq!(run.release(second), [0, second, 0, second - 4]);
    }
}

/// Two families that end in the same instant: their waiters go on in the order
/// of the next list.
#[test]
fn two_waits_that_end_together() {
    let waiters = row(&[start(2), start(2)]);
    let modules = [unlinked(), start(0), wait_for(1), waiters];
    let mut run = Run::new(1, &[], &modules);
    run.settle(2);
    for thread in [7, 6] {
        for _ in 0..2 {
            assert_eq!(run.choose(of_thread(thread)), (0, thread));
        }
    }
    assert_eq!(run.settle(2), [0, 7, 6, 0, 2, 3]);
}

/// 1 waits for 3, which ends at once; 2 cooperates after 1 began to wait. Both
/// are ready then, in the order of the list.
#[test]
fn a_wait_that_ends_keeps_its_place() {
    let main = row(&[start(1), wait_for(0)]);
    let mut run = Run::new(1, &[], &[nothing(), cooperates(2), main]);
    assert_eq!(run.settle(2), [1, 1, 1, 0, 2, 2, 3, 3, 0, 1, 2, 0, 2]);
}

/// 1 waits for 2, which starts 3 and 4 and waits for 4 alone; 3 has started 5
/// and 4 has started 6. The siblings' families do not hold each other up, but
/// both hold up 1.
#[test]
fn sibling_families() {
    let siblings = row(&[start(1), wait_for(1)]);
    let modules = [unlinked(), start(0), siblings, wait_for(2)];

    let mut run = Run::new(1, &[], &modules);
    run.settle(2);
    assert_eq!([5, 6].map(|thread| run.starter(thread)), [3, 4]);
    assert_eq!(run.release(6), [0, 6, 0, 2]);
    assert_eq!(run.release(5), [0, 5, 0, 1]);

    let mut run = Run::new(1, &[], &modules);
    run.settle(2);
    assert_eq!(run.release(5), [0, 5]);
    assert_eq!(run.release(6), [0, 6, 0, 2, 0, 1]);
}

/// The waiter's other children are not of the awaited family: those begun
/// before the wait do not hold it up. Nor is the waiter itself.
#[test]
fn the_waiters_other_children_live_on() {
    let main = row(&[start(1), wait_for(1), wait_for(1), cooperate()]);
    let modules = [unlinked(), start(0), main];
    let mut run = Run::new(1, &[], &modules);
    run.settle(2);
    // 2 is not awaited, 3 is; both have ended.
    assert_eq!([2, 3].map(|thread| run.has_ended(thread)), [true; 2]);
    assert_eq!([4, 5].map(|thread| run.starter(thread)), [2, 3]);
    // The first wait ends although 4 lives; the second begins, for 6 and its 7.
    assert_eq!(run.release(5), [0, 5, 0, 1, 0, 6, 6, 0, 7]);
    assert_eq!(run.release(7), [0, 7, 0, 1, 0, 1]);
    assert!(run.has_ended(1) && !run.has_ended(4));
    assert_eq!(run.release(4), [0, 4]);
}

/// A member that is away for long starts another when it is back: a family
/// grows while its wait is on, and holds it up anew.
#[test]
fn a_family_grows_while_it_is_awaited() {
    let late = row(&[unlinked(), start(0), unlinked(), start(0)]);
    let modules = [unlinked(), late, start(1), wait_for(2)];
    let mut run = Run::new(1, &[], &modules);
    assert_eq!(run.settle(2).last(), Some(&3));
    let acted = run.release(3);
    assert!(!acted.contains(&1) && run.state.threads.len() == 4);
    // 4 ends while 3 is away again, then 3 comes back, starts 5 and ends.
    assert_eq!(run.release(4), [0, 4]);
    let acted = run.release(3);
    assert!(!acted.contains(&1) && run.has_ended(3) && !run.has_ended(5));
    assert_eq!(run.release(5), [0, 5, 0, 1]);
}

/// A module that starts itself and counts, so that thread 64 is at the end of
/// one chain of starters. The check refuses it with 8; `run` steps it.
fn chain(start: &str) -> Vec<u8> {
    let start = format!("{start}00000600000000");
    let lines = [
        "0001000000010000",
        "2200000000000000", // 1: the parameter
        "2000003E00000000", // 2: 62
        "2700000100020000", // 3: less
        "2200000000000000",
        "2000000100000000",
        "2600000400050000", // 6: one more
        &start,
        "1500000000000000", // 8: the last one cooperates
        "1800000300070008", // 9: if less, start, else cooperate
        "0201000900010000",
        "2000000000000000",
        "1400000B00000000", // 12: main waits for the first
        "0200000C00000000",
    ];
    (lines.join("\n") + "\n").into_bytes()
}

/// The acting threads under home's choices until it has nothing to do.
fn acted_in_chain(start: &str) -> Vec<u8> {
    Run::of(&chain(start), 8).settle(2)
}

/// 63 waits, one in the other, end one instant after the other, the innermost
/// first.
#[test]
fn waits_in_a_chain_of_64_threads() {
    let acted = acted_in_chain("14");
    let last = acted.iter().position(|&thread| thread == 64).unwrap();
    let mut expected = vec![64, 64, 0, 64];
    for thread in (1..64).rev() {
        expected.extend([0, thread]);
    }
    assert_eq!(acted[last..], expected);
}

/// Without waits each ends at once but the last, which holds up `main`.
#[test]
fn one_wait_for_a_chain_of_63_threads() {
    let acted = acted_in_chain("13");
    let last = acted.iter().position(|&thread| thread == 64).unwrap();
    assert_eq!(acted[last..], [64, 64, 0, 64, 0, 1]);
}

/// At every instant's end the entries that become active are those that the
/// paper's words make ready; 01's rule would often say otherwise.
#[test]
fn generated_runs_follow_the_papers_words() {
    const SEED: u64 = 3;
    const RUNS: usize = 20_000;
    let mut waits = Waits::default();
    for case in generate::readable(SEED, 0..).take(RUNS) {
        waits.add(&case.program, &case.choices);
    }
    println!("{waits}");
    assert!(waits.entries > 100_000, "{waits}");
    assert!(waits.ended > 5_000, "{waits}");
    assert!(waits.differing > 10_000, "{waits}");
}
