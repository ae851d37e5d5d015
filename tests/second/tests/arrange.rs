//! The writer of document 02, change 2: by hand, against the paper's words
//! taken literally, and by what it promises.

use std::collections::{BTreeMap, BTreeSet};

use second::arrange::arrange;
use second::frame::{kind, Frame};
use second::generate;
use second::layout::Program;
use second::listing;
use second::tally::Arranged;
use second::text;
use second::verdict::Verdict;

const SEED: u64 = 2;

fn lines(frames: &[&str]) -> Vec<u8> {
    (frames.join("\n") + "\n").into_bytes()
}

/// What the program prints on these frames after a header.
fn printed(frames: &[&str]) -> String {
    let frames = [&["0001000000020000"], frames].concat();
    String::from_utf8(listing::arrange(&lines(&frames))).unwrap()
}

/// The same, where these frames are expected after the header.
fn becomes(frames: &[&str], expected: &[&str]) {
    let expected = [&["0001000000020000"], expected].concat();
    assert_eq!(printed(frames).as_bytes(), lines(&expected));
}

const NOTHING: &str = "1000000000000000";
const NUMBER: &str = "2000000700000000";
const CELL: &str = "0102000100000000";

#[test]
fn modules_and_shared_cells_keep_their_order() {
    becomes(
        &[
            "0200000400000000",
            "0103000200010000",
            "0200000500000000",
            NOTHING,
            "1500000000000000",
            CELL,
        ],
        &[
            "0103000200010000",
            CELL,
            NOTHING,
            "0200000300000000",
            "1500000000000000",
            "0200000500000000",
        ],
    );
}

/// The header counts the events.
fn printed_with(events: u16, frames: &[&str]) -> String {
    let header = format!("000100000002{events:04X}");
    let frames = [&[header.as_str()], frames].concat();
    String::from_utf8(listing::arrange(&lines(&frames))).unwrap()
}

const HOME_EVENT: &str = "0302000000000000";
const OTHER_EVENT: &str = "0303000000000000";

/// After the shared cells and before the modules, as they were given.
#[test]
fn events_keep_their_order() {
    let drawn = [
        "1A01000000000000",
        OTHER_EVENT,
        "0200000100000000",
        CELL,
        HOME_EVENT,
        "0200000800000000",
        "0103000100000000",
        "1B00000000000000",
        OTHER_EVENT,
    ];
    let laid_out = [
        "0001000000020003",
        CELL,
        "0103000100000000",
        OTHER_EVENT,
        HOME_EVENT,
        OTHER_EVENT,
        "1A01000000000000",
        "0200000600000000",
        "1B00000000000000",
        "0200000800000000",
    ];
    assert_eq!(printed_with(3, &drawn).as_bytes(), lines(&laid_out));
    assert_eq!(listing::arrange(&lines(&laid_out)), lines(&laid_out));
}

/// 4 and 5 are the check's own, order is no reason, and an event is no child.
#[test]
fn refusals_of_events() {
    let after = [NOTHING, "0200000100000000", HOME_EVENT];
    assert_eq!(printed_with(0, &after), "04 0000\n");
    assert_eq!(printed_with(2, &after), "04 0000\n");
    assert!(printed_with(1, &after).starts_with("0001"));
    let bad = [NOTHING, "0200000100000000", "0301000000000000"];
    assert_eq!(printed_with(1, &bad), "05 0003\n");
    assert_eq!(
        printed_with(1, &[HOME_EVENT, "0200000100000000"]),
        "06 0002\n"
    );
    let twice = [HOME_EVENT, "1100000100010000", "0200000200000000"];
    assert_eq!(printed_with(1, &twice), "15 0001\n");
    assert_eq!(printed_with(2, &[HOME_EVENT, HOME_EVENT]), "06 0002\n");
    let leftover = ["1A00000000000000", HOME_EVENT, NOTHING, "0200000300000000"];
    assert_eq!(printed_with(1, &leftover), "06 0001\n");
    // 8 and 11 are none of the writer's.
    let missing = ["1A09000000000000", "0200000100000000"];
    assert!(printed_with(0, &missing).starts_with("0001"));
    // So are 16 events, and not a 17th.
    let main = [NOTHING, "0200000100000000"];
    let full = [&main[..], &[HOME_EVENT; 16]].concat();
    assert!(printed_with(16, &full).starts_with("0001"));
    let over = [&main[..], &[HOME_EVENT; 17]].concat();
    assert_eq!(printed_with(17, &over), "04 0000\n");
}

const LINK: &str = "0403000200000000";

/// After the events and before the modules, as they were given, the same one
/// twice too.
#[test]
fn links_keep_their_order() {
    let header = "0001000000030001";
    let drawn = [
        header,
        "0404000300000000",
        "0200000700000000",
        LINK,
        CELL,
        "0404000300000000",
        HOME_EVENT,
        NOTHING,
        "0404000200000000",
    ];
    let laid_out = [
        header,
        CELL,
        HOME_EVENT,
        "0404000300000000",
        LINK,
        "0404000300000000",
        "0404000200000000",
        NOTHING,
        "0200000700000000",
    ];
    assert_eq!(listing::arrange(&lines(&drawn)), lines(&laid_out));
    assert_eq!(listing::arrange(&lines(&laid_out)), lines(&laid_out));
}

/// 5 is the check's own, order is no reason, and a link is no child.
#[test]
fn refusals_of_links() {
    let main = [NOTHING, "0200000100000000"];
    let after = |link| printed_with(0, &[&main[..], &[link]].concat());
    assert!(after(LINK).starts_with("0001"));
    for bad in [
        "0402000200000000",
        "0402000300000000",
        "0404000200000000",
        "0403000100000000",
        "0403010200000000",
        "0403000200010000",
        "0403000200000001",
    ] {
        assert_eq!(after(bad), "05 0003\n", "{bad}");
    }
    assert_eq!(printed_with(0, &[LINK, "0200000100000000"]), "06 0002\n");
    let twice = [LINK, "1100000100010000", "0200000200000000"];
    assert_eq!(printed_with(0, &twice), "15 0001\n");
    assert_eq!(printed_with(0, &[LINK, LINK]), "06 0002\n");
}

/// Children come in the order of the fields, whatever their numbers.
#[test]
fn children_come_in_order() {
    becomes(
        &[
            "0200000200000000",
            "1800000500040003",
            NOTHING,
            "1500000000000000",
            "2101000000000000",
        ],
        &[
            "2101000000000000",
            "1500000000000000",
            NOTHING,
            "1800000100020003",
            "0200000400000000",
        ],
    );
}

/// An argument that is not there stays 0; data that look like children stay.
#[test]
fn only_children_are_renumbered() {
    becomes(
        &[
            "0201000300010000",
            "2000000300000000",
            "1300000200000000",
            "0200000500000000",
            "1400000000000000",
        ],
        &[
            "2000000300000000",
            "1300000100000000",
            "0201000200010000",
            "1400000000000000",
            "0200000400000000",
        ],
    );
}

#[test]
fn frames_used_twice() {
    assert_eq!(
        printed(&["1100000200020000", NOTHING, "0200000100000000"]),
        "15 0002\n"
    );
    let two_users = [
        "1202000300000000",
        "1202000300000000",
        NOTHING,
        "0200000200000000",
    ];
    assert_eq!(printed(&two_users), "15 0003\n");
    // The header, by two fields; one alone is a child of the wrong class.
    let header = ["1100000000000000", "0200000100000000"];
    assert_eq!(printed(&header), "15 0000\n");
    let once = ["1202000000000000", "0200000100000000"];
    assert_eq!(printed(&once), "06 0001\n");
    // A shared cell and a module.
    let declared = [CELL, "1700000100010000", "0200000200000000"];
    assert_eq!(printed(&declared), "15 0001\n");
    let module = ["1100000200020000", "0200000100000000"];
    assert_eq!(printed(&module), "15 0001\n");
}

#[test]
fn circles_are_named_at_their_lowest() {
    assert_eq!(
        printed(&[NOTHING, "1202000200000000", "0200000100000000"]),
        "15 0002\n"
    );
    let two = [
        NOTHING,
        "1202000300000000",
        "1202000200000000",
        "0200000100000000",
    ];
    assert_eq!(printed(&two), "15 0002\n");
    // Through a module.
    let module = ["1202000200000000", "0200000100000000"];
    assert_eq!(printed(&module), "15 0001\n");
    // Frame 1 leads to a circle of 3 and 4; 3 is used twice as well.
    let tail = [
        "1202000300000000",
        "0200000100000000",
        "1202000400000000",
        "1202000300000000",
    ];
    assert_eq!(printed(&tail), "15 0003\n");
    // The frame used twice is 4; 1 lies on a circle with it.
    let low = [
        "1202000400000000",
        NOTHING,
        "0200000400000000",
        "1202000100000000",
    ];
    assert_eq!(printed(&low), "15 0001\n");
    // Frame 3 leads from one circle (4, 5) to another (6) and is on none.
    let between = [
        "0200000200000000",
        NOTHING,
        "1202000600000000",
        "1100000500030000",
        "1202000400000000",
        "1202000600000000",
    ];
    assert_eq!(printed(&between), "15 0004\n");
}

#[test]
fn the_lowest_of_all_three_is_named() {
    let missing = ["1202000900000000", "1202000200000000", "0200000100000000"];
    assert_eq!(printed(&missing), "15 0001\n");
    let circle = ["1202000100000000", "1202000900000000", "0200000200000000"];
    assert_eq!(printed(&circle), "15 0001\n");
    let twice = [
        NOTHING,
        "1100000100010000",
        "1202FFFF00000000",
        "0200000300000000",
    ];
    assert_eq!(printed(&twice), "15 0001\n");
}

#[test]
fn order_of_refusals() {
    // 5 hides a circle, and a circle hides a leftover.
    assert_eq!(
        printed(&["1202000100000000", "2102000000000000"]),
        "05 0002\n"
    );
    assert_eq!(printed(&[NOTHING, "1202000200000000"]), "15 0002\n");
    // A lower 6 of any sort.
    assert_eq!(
        printed(&[NOTHING, "0201000300010000", NOTHING]),
        "06 0001\n"
    );
    assert_eq!(
        printed(&["0201000300010000", NOTHING, NOTHING]),
        "06 0001\n"
    );
    assert_eq!(printed(&["0200000200000000", NUMBER]), "06 0001\n");
}

#[test]
fn no_main() {
    assert_eq!(printed(&[]), "06 0000\n");
    assert_eq!(printed(&[CELL, CELL]), "06 0002\n");
    assert_eq!(printed(&[NOTHING, CELL]), "06 0001\n");
    // The last module counts, not the last frame.
    becomes(
        &["0200000200000000", NOTHING],
        &[NOTHING, "0200000100000000"],
    );
    let with_parameter = ["0200000300000000", "0201000400010000", NOTHING, NOTHING];
    assert_eq!(printed(&with_parameter), "06 0002\n");
    let first_alone = ["0201000400010000", "0200000300000000", NOTHING, NOTHING];
    assert!(printed(&first_alone).starts_with("0001"));
}

/// A row of moves, the deepest frame first or last.
#[test]
fn depths() {
    for (depth, deepest_last) in [(24, true), (25, true), (26, true), (25, false), (26, false)] {
        let mut frames: Vec<String> = vec!["0001000000010000".into()];
        let number = |at: usize| if deepest_last { at + 1 } else { depth + 1 - at };
        for f in 1..=depth + 1 {
            let at = if deepest_last { f - 1 } else { depth + 1 - f };
            frames.push(match at {
                0 => format!("0200{:04X}00000000", number(1)),
                at if at == depth => NOTHING.into(),
                at => format!("1202{:04X}00000000", number(at + 1)),
            });
        }
        let frames: Vec<&str> = frames.iter().map(String::as_str).collect();
        let printed = String::from_utf8(listing::arrange(&lines(&frames))).unwrap();
        match depth {
            24 => assert!(printed.starts_with("0001")),
            _ if deepest_last => assert_eq!(printed, "07 001A\n"),
            _ => assert_eq!(printed, "07 0001\n"),
        }
    }
}

/// The 17th and `earlier` count in the given order; 8 to 13 refuse nothing.
#[test]
fn declarations_in_the_given_order() {
    let mut frames = vec![NOTHING, "0200000100000000"];
    frames.extend([CELL; 16]);
    assert!(printed(&frames).starts_with("0001"));
    frames.push(CELL);
    assert_eq!(printed(&frames), "05 0013\n");
    let holder = "0102002100000000";
    let file = ["0200000200000000", NOTHING];
    assert!(
        printed(&[&[CELL, holder][..], &["0200000400000000", NOTHING]].concat())
            .starts_with("0001")
    );
    assert_eq!(printed(&[&[holder, CELL][..], &file].concat()), "05 0001\n");
    // A variable that is not there.
    let broken = [
        "0200000200000000",
        "1600000300040000",
        "2209000000000000",
        NOTHING,
    ];
    assert!(printed(&broken).starts_with("0001"));
}

// The paper's words taken literally, for files that pass 1 to 5.

fn children(frame: &Frame) -> Vec<usize> {
    frame.children().map(usize::from).collect()
}

fn of_kind(frames: &[Frame], kind: u8) -> impl Iterator<Item = usize> + '_ {
    (0..frames.len()).filter(move |&f| frames[f].kind == kind)
}

/// What the children of `f` lead to.
fn led_to(frames: &[Frame], f: usize) -> BTreeSet<usize> {
    let mut reached = BTreeSet::new();
    let mut next = children(&frames[f]);
    while let Some(child) = next.pop() {
        if child < frames.len() && reached.insert(child) {
            next.extend(children(&frames[child]));
        }
    }
    reached
}

fn first_tangled(frames: &[Frame]) -> Option<usize> {
    let users = |f: usize| {
        let all = frames.iter().flat_map(children);
        all.filter(|&child| child == f).count()
    };
    (0..frames.len()).find(|&f| {
        children(&frames[f])
            .iter()
            .any(|&child| child >= frames.len())
            || users(f) > 1
            || led_to(frames, f).contains(&f)
    })
}

fn first_misfit(frames: &[Frame]) -> Option<usize> {
    let statement = |f: usize| matches!(frames[f].kind, 0x10..=0x1B);
    let expression = |f: usize| (0x20..=0x28).contains(&frames[f].kind);
    let used = |f: usize| frames.iter().flat_map(children).any(|child| child == f);
    let last_module = of_kind(frames, kind::MODULE).last();
    (0..frames.len()).find(|&f| {
        let frame = &frames[f];
        let wrong_class = children(frame).iter().enumerate().any(|(field, &child)| {
            let is_fine = match (frame.kind, field) {
                (0x02 | 0x11 | 0x12, _) | (0x16 | 0x19, 1) | (0x18, 1 | 2) => statement(child),
                _ => expression(child),
            };
            !is_fine
        });
        let leftover = (statement(f) || expression(f)) && !used(f);
        let no_main = match last_module {
            Some(last) => f == last && frame.s != 0,
            None => f + 1 == frames.len(),
        };
        wrong_class || leftover || no_main
    })
}

/// Appends the frame after its children; notes each frame's depth.
fn tree(frames: &[Frame], f: usize, depth: usize, order: &mut Vec<(usize, usize)>) {
    for child in children(&frames[f]) {
        tree(frames, child, depth + 1, order);
    }
    order.push((f, depth));
}

fn literally(text: &[u8]) -> Vec<u8> {
    let refusal = |number: u8, f: usize| format!("{number:02X} {f:04X}\n").into_bytes();
    let frames = match text::frames(text) {
        Ok(frames) => frames,
        Err(verdict) => return refusal(verdict.number, usize::from(verdict.frame)),
    };
    // 4 and 5 are the check's own: they hide its 6 and 7.
    if let Err(verdict) = Program::new(frames.clone()) {
        if verdict.number <= 5 {
            return refusal(verdict.number, usize::from(verdict.frame));
        }
    }
    if let Some(f) = first_tangled(&frames) {
        return refusal(21, f);
    }
    if let Some(f) = first_misfit(&frames) {
        return refusal(6, f);
    }
    let mut order = vec![(0, 0)];
    order.extend(of_kind(&frames, kind::SHARED_CELL).map(|f| (f, 0)));
    order.extend(of_kind(&frames, kind::EVENT).map(|f| (f, 0)));
    order.extend(of_kind(&frames, kind::LINK).map(|f| (f, 0)));
    for module in of_kind(&frames, kind::MODULE) {
        tree(&frames, module, 0, &mut order);
    }
    if let Some(f) = order
        .iter()
        .filter(|(_, depth)| *depth > 24)
        .map(|(f, _)| *f)
        .min()
    {
        return refusal(7, f);
    }
    let number = |child: u16| {
        order
            .iter()
            .position(|(f, _)| *f == usize::from(child))
            .unwrap()
    };
    let mut lines = String::new();
    for (f, _) in &order {
        let frame = &frames[*f];
        let count = frame.child_count();
        lines += &format!("{:02X}{:02X}", frame.kind, frame.s);
        for (at, &field) in frame.fields().iter().enumerate() {
            let word = if at < count {
                number(field)
            } else {
                usize::from(field)
            };
            lines += &format!("{word:04X}");
        }
        lines += "\n";
    }
    lines.into_bytes()
}

/// The circle's length where a frame lies on one: all that it leads to and
/// that leads back to it.
fn circle_of(frames: &[Frame], f: usize) -> Option<usize> {
    let reached = led_to(frames, f);
    reached.contains(&f).then(|| {
        let leads_back = |&&g: &&usize| led_to(frames, g).contains(&f);
        reached.iter().filter(leads_back).count()
    })
}

/// Why 21 or 6 names this frame.
fn reasons(frames: &[Frame], number: usize, f: usize) -> Vec<&'static str> {
    let users: Vec<usize> = (0..frames.len())
        .flat_map(|g| {
            children(&frames[g])
                .into_iter()
                .map(move |child| (g, child))
        })
        .filter(|&(_, child)| child == f)
        .map(|(g, _)| g)
        .collect();
    let has_module = frames.iter().any(|frame| frame.kind == kind::MODULE);
    let own = children(&frames[f]);
    let kind_of = |&child: &usize| frames.get(child).map(|frame| frame.kind);
    let is_module = |&g: &usize| frames[g].kind == kind::MODULE;
    let circle = circle_of(frames, f);
    let mut found = Vec::new();
    let mut note = |holds: bool, reason| found.extend(holds.then_some(reason));
    if number == 21 {
        note(own.contains(&frames.len()), "number just past the end");
        note(
            own.iter().any(|&child| child > frames.len()),
            "number far past the end",
        );
        note(
            users.len() > 1 && users[0] == users[1],
            "twice in one frame",
        );
        note(
            users.len() > 1 && users[0] != users[1],
            "twice in two frames",
        );
        note(users.len() > 1 && f == 0, "header used twice");
        note(users.len() > 1 && is_module(&f), "module used twice");
        note(
            users.len() > 1 && frames[f].kind == 1,
            "shared cell used twice",
        );
        note(users.len() > 1 && frames[f].kind == 3, "event used twice");
        note(users.len() > 1 && frames[f].kind == 4, "link used twice");
        note(circle == Some(1), "circle of one");
        note(circle == Some(2), "circle of two");
        note(circle.is_some_and(|length| length > 2), "circle of many");
        note(circle == Some(frames.len() - 1), "circle of all");
        let on_circle = |g: &usize| circle.is_some() && led_to(frames, *g).contains(&f);
        let through = led_to(frames, f)
            .iter()
            .filter(|g| on_circle(g))
            .any(is_module);
        note(through, "circle through a module");
    } else {
        note(own.contains(&0), "child 0");
        note(
            own.iter().any(|child| kind_of(child) == Some(2)),
            "a module as child",
        );
        note(
            own.iter().any(|child| kind_of(child) == Some(1)),
            "a shared cell as child",
        );
        note(
            own.iter().any(|child| kind_of(child) == Some(3)),
            "an event as child",
        );
        note(
            own.iter().any(|child| kind_of(child) == Some(4)),
            "a link as child",
        );
        let classes = frames[f].shape().unwrap().fields;
        let mut fields = own.iter().zip(classes);
        let wrong = fields.any(|(&g, class)| frames[g].kind >= 16 && !frames[g].is_of(class));
        note(wrong, "statement for expression or the other way");
        note(frames[f].kind >= 16 && users.is_empty(), "leftover");
        note(
            is_module(&f) && frames[f].s > 0,
            "last module with parameters",
        );
        note(!has_module && f + 1 == frames.len(), "no module");
        note(frames.len() == 1, "header alone");
    }
    found
}

/// Every refusal of the writer occurs, often, each for all its reasons, and
/// the quick answer is the literal one.
#[test]
fn as_the_paper_says() {
    let mut answers = Arranged::default();
    let mut seen: BTreeMap<(usize, &str), usize> = BTreeMap::new();
    for index in 0..20_000 {
        let text = generate::drawn(SEED, index).program;
        let printed = listing::arrange(&text);
        assert_eq!(printed, literally(&text), "index {index}");
        answers.add(&printed);
        if printed.starts_with(b"15 ") || printed.starts_with(b"06 ") {
            let frame = std::str::from_utf8(&printed[3..7]).unwrap();
            let frame = usize::from_str_radix(frame, 16).unwrap();
            let number = if printed[0] == b'1' { 21 } else { 6 };
            let frames = text::frames(&text).unwrap();
            if frames.len() > 300 {
                continue;
            }
            for reason in reasons(&frames, number, frame) {
                *seen.entry((number, reason)).or_default() += 1;
            }
        }
    }
    println!("{answers}\n{seen:#?}");
    for number in [0, 5, 6, 7, 21] {
        assert!(answers.0[number] > 500, "{answers}");
    }
    for number in 1..=4 {
        assert!(answers.0[number] > 20, "{answers}");
    }
    assert_eq!(seen.len(), 24, "{seen:#?}");
    assert!(seen.values().all(|&count| count > 10), "{seen:#?}");
}

/// Ordinary cases too: those that pass 1 to 7 are laid out already.
#[test]
fn laid_out_files_stay() {
    let mut laid_out = 0;
    for index in 0..10_000 {
        let text = generate::case(SEED, index).program;
        let printed = listing::arrange(&text);
        assert_eq!(printed, literally(&text), "index {index}");
        if text::frames(&text).and_then(Program::new).is_ok() {
            laid_out += 1;
            assert_eq!(printed, text, "index {index}");
        }
    }
    assert!(laid_out > 5000, "{laid_out}");
}

/// The tree of a module as nested text, numbers left out.
fn shape(frames: &[Frame], f: usize) -> String {
    let frame = &frames[f];
    let below: Vec<String> = children(frame)
        .iter()
        .map(|&child| shape(frames, child))
        .collect();
    let data = &frame.fields()[below.len()..];
    format!(
        "{:02X}{:02X}{data:?}({})",
        frame.kind,
        frame.s,
        below.join(" ")
    )
}

/// Header, shared cells, events, links and the trees of the modules, in their
/// order.
fn meaning(text: &[u8]) -> Vec<String> {
    let frames = text::frames(text).unwrap();
    let declared = [kind::HEADER, kind::SHARED_CELL, kind::EVENT, kind::LINK];
    let kinds = declared.into_iter().chain([kind::MODULE]);
    kinds
        .into_iter()
        .flat_map(|kind| of_kind(&frames, kind))
        .map(|f| shape(&frames, f))
        .collect()
}

#[test]
fn drawn_files_are_laid_out() {
    let (mut moved, mut longest) = (0, 0);
    for index in 0..10_000 {
        let [laid_out, drawn] = generate::laid_out_and_drawn(SEED, index);
        longest = longest.max(drawn.len());
        moved += usize::from(laid_out != drawn);
        let mut out = vec![b'?'; drawn.len()];
        assert_eq!(
            arrange(&drawn, &mut out),
            Verdict::ACCEPTED,
            "index {index}"
        );
        assert_eq!(out, laid_out, "index {index}");
        assert_eq!(meaning(&out), meaning(&drawn), "index {index}");
        assert!(text::frames(&out).and_then(Program::new).is_ok());
        let mut again = vec![b'?'; out.len()];
        assert_eq!(
            arrange(&out, &mut again),
            Verdict::ACCEPTED,
            "index {index}"
        );
        assert_eq!(again, out, "index {index}");
    }
    assert!(moved > 9000, "{moved}");
    assert_eq!(longest, text::PROGRAM_LIMIT);
}

/// What comes out of any drawn file that is not refused, and that nothing is
/// written where one is; 14 comes last.
#[test]
fn promises_on_every_drawn_file() {
    for index in 0..20_000 {
        let text = generate::drawn(SEED + 1, index).program;
        let mut out = vec![b'?'; text.len()];
        let verdict = arrange(&text, &mut out);
        if verdict == Verdict::ACCEPTED {
            assert!(
                text::frames(&out).and_then(Program::new).is_ok(),
                "index {index}"
            );
            assert_eq!(meaning(&out), meaning(&text), "index {index}");
            assert_eq!(listing::arrange(&out), out, "index {index}");
        } else {
            assert!(out.iter().all(|&byte| byte == b'?'), "index {index}");
        }
        let expected = match verdict {
            Verdict::ACCEPTED => Verdict::rejected(14, 0),
            refused => refused,
        };
        for length in [
            0,
            text.len().saturating_sub(1),
            text.len() + 1,
            text.len() + 17,
        ] {
            if length != text.len() {
                let mut out = vec![b'?'; length];
                assert_eq!(arrange(&text, &mut out), expected, "index {index}");
                assert!(out.iter().all(|&byte| byte == b'?'), "index {index}");
            }
        }
    }
}

#[test]
fn the_longest_circles() {
    let [one_circle, tail_and_knot] = generate::circles();
    assert_eq!(one_circle.len(), text::PROGRAM_LIMIT);
    assert_eq!(tail_and_knot.len(), text::PROGRAM_LIMIT);
    assert_eq!(listing::arrange(&one_circle), b"15 0001\n");
    assert_eq!(listing::arrange(&tail_and_knot), b"15 0200\n");
}
