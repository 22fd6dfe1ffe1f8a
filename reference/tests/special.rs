//! The special sheets: what each of them is meant to reach.

mod common;

use common::naive::{self, Order, Task};
use common::{Buffers, fields, listing};
use reference::limits::*;
use reference::special::{compared_arities, hard_pairs, special};

fn special_sheet(name: &str) -> Vec<u8> {
    special().into_iter().find(|(other, _)| *other == name).unwrap_or_else(|| panic!("no sheet {name}")).1
}

/// Lines and turns of one direction of the first equation.
fn solved(name: &str, direction: u64) -> [u64; 2] {
    let [lines, turns, _] = fields(Buffers::new().solve(&special_sheet(name), 0, direction));
    [lines, turns]
}

fn refused(name: &str, equation: u64, direction: u64) -> [u64; 2] {
    let mut buffers = Buffers::new();
    let code = buffers.solve(&special_sheet(name), equation, direction);
    buffers.assert_table_void();
    buffers.assert_scratch_cleared();
    [code & 0xff, code >> 8]
}

/// The number that always returns for one direction of an equation. It leaves the same in the buffers whether it
/// answers or the walk is refused.
fn always_code(name: &str, equation: u64, direction: u64) -> u64 {
    let mut buffers = Buffers::new();
    let code = buffers.always(&special_sheet(name), equation, direction);
    buffers.assert_table_void();
    buffers.assert_scratch_cleared();
    code
}

/// Answer and turns of always for direction 00 of the first equation.
fn always(name: &str) -> [u64; 2] {
    let [answer, turns, _] = fields(always_code(name, 0, 0));
    [answer, turns]
}

fn always_refused(name: &str, equation: u64, direction: u64) -> [u64; 2] {
    let code = always_code(name, equation, direction);
    [code & 0xff, code >> 8]
}

#[test]
fn names_differ() {
    let mut names: Vec<&str> = special().into_iter().map(|(name, _)| name).collect();
    let count = names.len();
    names.sort();
    names.dedup();
    assert_eq!(names.len(), count);
}

#[test]
fn long_walks() {
    assert_eq!(solved("median law, and below or", 0), [187, 3968]);
    assert_eq!(solved("median law, and below or", 1), [0, 34]);
    assert_eq!(solved("reversal of five", 0), [193, 771]);
    assert_eq!(solved("reversal of five", 1), [193, 771]);
    assert_eq!(solved("distribution of if-then-else", 0), [69, 316]);
    assert_eq!(solved("distribution of if-then-else", 1), [0, 28]);
    assert_eq!(solved("exclusive or, or < not < and", 0), [0, 266]);
    assert_eq!(refused("exclusive or, or < not < and", 0, 1), [8, 2]);
    assert_eq!(refused("exclusive or, and < or < not", 0, 0), [8, 2]);
    assert_eq!(refused("exclusive or, and < or < not", 0, 1), [10, 2]);
}

#[test]
fn last_turn() {
    assert_eq!(solved("10,000 turns, 8 lines", 1), [8, 10_000]);
    assert_eq!(solved("10,000 turns, no line", 0), [0, 10_000]);
    assert_eq!(refused("10,001 turns", 0, 0), [8, 2]);
    assert_eq!(refused("10,001 turns after a short equation", 1, 0), [8, 3]);
}

#[test]
fn last_line() {
    assert_eq!(solved("255 lines at the end", 0), [255, 242]);
    assert_eq!(solved("255 lines on the way", 0), [251, 777]);
    assert_eq!(refused("256 lines", 0, 1), [10, 2]);
}

#[test]
fn last_element() {
    let sheet = special_sheet("40 elements");
    let mut buffers = Buffers::new();
    let [lines, turns, _] = fields(buffers.solve(&sheet, 0, 0));
    assert_eq!([lines, turns], [118, 1430]);
    let longest = buffers.table.chunks(RECORD_BYTES).take(118).map(|record| record[VARIABLES]).max();
    assert_eq!(longest, Some(40));
    assert_eq!(refused("41 elements", 0, 0), [9, 2]);
}

#[test]
fn yes_before_a_refusal() {
    assert_eq!(refused("always, then 10,001 turns", 0, 0), [8, 2]);
    assert_eq!(always("always, then 10,001 turns"), [1, 5_465]);
    assert_eq!(refused("always, then 41 elements", 0, 0), [9, 2]);
    assert_eq!(always("always, then 41 elements"), [1, 108]);
    assert_eq!(refused("always, then 256 lines", 0, 0), [10, 2]);
    assert_eq!(always("always, then 256 lines"), [1, 70]);
}

#[test]
fn yes_at_a_limit() {
    assert_eq!(solved("always in turn 10,000, the last", 0), [153, 10_000]);
    assert_eq!(always("always in turn 10,000, the last"), [1, 10_000]);
    assert_eq!(refused("always in turn 10,000, then a turn too many", 0, 0), [8, 2]);
    assert_eq!(always("always in turn 10,000, then a turn too many"), [1, 10_000]);
    assert_eq!(refused("always among 255 lines", 0, 0), [10, 2]);
    assert_eq!(always("always among 255 lines"), [1, 399]);
}

#[test]
fn no_yes_in_a_refused_turn() {
    assert_eq!(refused("always too late, in turn 10,001", 0, 0), [8, 2]);
    assert_eq!(always_refused("always too late, in turn 10,001", 0, 0), [8, 2]);
    assert_eq!(refused("always too late, among 256 lines", 0, 0), [10, 2]);
    assert_eq!(always_refused("always too late, among 256 lines", 0, 0), [10, 2]);
}

#[test]
fn always_is_refused_where_no_yes_was_reached() {
    assert_eq!(always_refused("10,001 turns", 0, 0), [8, 2]);
    assert_eq!(always_refused("10,001 turns after a short equation", 1, 0), [8, 3]);
    assert_eq!(always_refused("41 elements", 0, 0), [9, 2]);
    assert_eq!(always_refused("256 lines", 0, 1), [10, 2]);
}

#[test]
fn yes_by_each_way_to_an_empty_line() {
    // Lines and turns of solve, answer and turns of always.
    let both = |name: &str| (solved(name, 0), always(name));
    assert_eq!(both("always in the first turn"), ([5, 3], [1, 1]));
    assert_eq!(both("always in the middle of the table"), ([5, 5], [1, 2]));
    assert_eq!(both("always by an equality"), ([3, 7], [1, 6]));
    assert_eq!(both("always by two deletions"), ([1, 7], [1, 7]));
    assert_eq!(both("a binding first, then always"), ([6, 8], [1, 5]));
}

/// The records of direction 00, and the index of the first one without element.
fn first_without_element(name: &str) -> (Vec<Vec<u8>>, Option<usize>) {
    let mut buffers = Buffers::new();
    let [lines, _, _] = fields(buffers.solve(&special_sheet(name), 0, 0));
    let records: Vec<Vec<u8>> = buffers.table.chunks(RECORD_BYTES).take(lines as usize).map(<[u8]>::to_vec).collect();
    let index = records.iter().position(|record| record[VARIABLES] == 0);
    (records, index)
}

#[test]
fn place_of_the_empty_line() {
    let is_empty = |record: &Vec<u8>| record[VARIABLES] == 0 && record[..VARIABLES] == [NONE; VARIABLES];
    let (records, _) = first_without_element("always in the middle of the table");
    assert_eq!(records.iter().position(is_empty), Some(2));
    assert_eq!(records.len(), 5);
    // A line without element has a binding, and the empty lines come after it: that of c > d, and the last one, which
    // is made first.
    let (records, index) = first_without_element("a binding first, then always");
    assert_eq!(index, Some(1));
    assert_eq!(records.iter().map(is_empty).collect::<Vec<_>>(), [false, false, false, false, true, true]);
}

#[test]
fn no_without_an_empty_line() {
    let both = |name: &str| (solved(name, 0), always(name));
    assert_eq!(both("no element but a binding"), ([4, 11], [0, 11]));
    assert_eq!(both("true everywhere without an empty line"), ([2, 2], [0, 2]));
    assert_eq!(both("a false equality alone in its line"), ([0, 3], [0, 3]));
    let (_, index) = first_without_element("no element but a binding");
    assert_eq!(index, Some(1));
    // The one value is bound, the other is greater.
    let everywhere = special_sheet("true everywhere without an empty line");
    assert_eq!(fields(Buffers::new().judge(&everywhere, 0)), [1, 2, 0]);
    assert_eq!(fields(Buffers::new().judge(&everywhere, 1)), [1, 1, 0]);
}

/// Verdict and clause of a comparison.
fn compared(sheet: &[u8], task: usize) -> [u64; 2] {
    let [verdict, clause, _] = fields(Buffers::new().compare(sheet, task as u64));
    [verdict, clause]
}

#[test]
fn clauses_of_hard_pairs() {
    let expected = [
        ("two towers of 80", [1, 0]),
        ("two towers of 1 and 159", [0, 1]),
        ("two towers of 79 and 81", [0, 1]),
        // h(s) > h(t) by s > h(t), the symbol of s being above h.
        ("two right combs of 80, last leaf differs", [0, 1]),
        ("two left combs of 80, last leaf differs", [0, 1]),
        ("two left combs of 80, first leaf differs", [0, 1]),
        ("two equal full trees of 63", [1, 0]),
        ("two full trees of 63, last leaf differs", [0, 3]),
        ("two full trees of 63, first leaf differs", [0, 3]),
        ("two full trees of 63, symbols alternate", [0, 2]),
        ("a full tree and a comb", [2, 1]),
        ("L3 behind equal arguments of 77", [2, 3]),
        ("L1 by an equal argument of 77, besides L2", [2, 1]),
        ("L2, but L1 is long to refute", [2, 2]),
        ("L3, but L1 is long to refute", [2, 3]),
        ("L1 long to confirm, besides L2", [2, 1]),
    ];
    assert_eq!(hard_pairs().len(), expected.len());
    let all = special_sheet("all hard comparisons");
    for (index, (name, left, right)) in hard_pairs().into_iter().enumerate() {
        let (expected_name, [verdict, clause]) = expected[index];
        assert_eq!(name, expected_name);
        assert!(left.len() + right.len() <= 160);
        assert_eq!(Order::default().decision(compared_arities(), &left, &right), [verdict, clause], "{name}");
        for (sheet, task) in [(&special_sheet(name), 0), (&all, 2 * index)] {
            assert_eq!(compared(sheet, task), [verdict, clause], "{name}");
            assert_eq!(compared(sheet, task + 1), [2 - verdict, clause], "{name}");
        }
    }
}

/// Each pair of a sheet is compared in both directions, the greater term first.
#[test]
fn clauses_that_apply() {
    let none = [false, false, false];
    let applying = [
        ("L1 alone", [true, false, false], 1),
        ("L2 alone", [false, true, false], 2),
        ("L3 alone", [false, false, true], 3),
        ("L1 besides L2", [true, true, false], 1),
        ("L1 besides L3", [true, false, true], 1),
        ("equal terms", none, 0),
    ];
    for (name, clauses, named) in applying {
        let text = special_sheet(name);
        let sheet = naive::read(&text).unwrap();
        for (index, task) in sheet.tasks.iter().enumerate() {
            let Task::Comparison(left, right) = task else { panic!("{name} has another task") };
            let (greater, smaller) = if index % 2 == 0 { (left, right) } else { (right, left) };
            let mut order = Order::default();
            assert_eq!(order.clauses(&sheet.arities, greater, smaller), clauses, "{name}, task {index}");
            assert_eq!(order.clauses(&sheet.arities, smaller, greater), none, "{name}, task {index}");
            let verdict = match index % 2 {
                _ if named == 0 => 1,
                0 => 2,
                _ => 0,
            };
            assert_eq!(compared(&text, index), [verdict, named], "{name}, task {index}");
        }
    }
}

#[test]
fn longest_runs() {
    let exchanges = special_sheet("256 exchanges of two unary symbols");
    assert_eq!(fields(Buffers::new().run(&exchanges, 0)), [255, 1, 33]);
    assert_eq!(fields(Buffers::new().run(&exchanges, 1)), [255, 0, 33]);
    assert_eq!(fields(Buffers::new().run(&exchanges, 2)), [254, 1, 33]);
    assert_eq!(fields(Buffers::new().run(&exchanges, 4)), [0, 1, 3]);
    assert_eq!(fields(Buffers::new().run(&exchanges, 5)), [0, 0, 2]);
    let many_lines = special_sheet("255 steps under large tables");
    assert_eq!(fields(Buffers::new().run(&many_lines, 0)), [255, 0, 159]);
    let doubling = special_sheet("doubling at the limit of nodes");
    assert_eq!(fields(Buffers::new().run(&doubling, 0)), [1, 0, 159]);
    assert_eq!(fields(Buffers::new().run(&doubling, 1)), [0, 2, 82]);
    assert_eq!(fields(Buffers::new().run(&doubling, 2)), [0, 2, 160]);
}

/// The bindings of each line of one direction.
fn bindings(name: &str, direction: u64) -> Vec<Vec<u8>> {
    let mut buffers = Buffers::new();
    let [lines, _, _] = fields(buffers.solve(&special_sheet(name), 0, direction));
    let records = buffers.table.chunks(RECORD_BYTES).take(lines as usize);
    records.map(|record| record[..VARIABLES].to_vec()).collect()
}

#[test]
fn every_slot_is_bound() {
    let name = "each of the twelve variables bound alone";
    assert_eq!(solved(name, 0), [24, 19]);
    // The constant, to which a variable is bound in every second line, is at position 16.
    let expected = (0..24).map(|line| {
        let mut slots = vec![NONE; VARIABLES];
        if line % 2 == 1 {
            slots[line / 2] = 16;
        }
        slots
    });
    assert_eq!(bindings(name, 0), expected.collect::<Vec<_>>());
    let judged = [[1, 2], [1, 16], [1, 17], [1, 20], [1, 23], [1, 24], [0, 0], [1, 1]];
    for (task, [yes, line]) in judged.into_iter().enumerate() {
        assert_eq!(fields(Buffers::new().judge(&special_sheet(name), task as u64)), [yes, line, 0], "task {task}");
    }
    let alone = bindings("8b alone is bound", 0);
    assert_eq!(alone, [vec![NONE; VARIABLES], [vec![NONE; VARIABLES - 1], vec![2]].concat()]);
    let all = bindings("twelve bindings in one line", 0);
    assert!(all.iter().any(|slots| !slots.contains(&NONE)));
}

#[test]
fn twelve_variables() {
    assert_eq!(solved("twelve variables in judgements and runs", 0), [32, 51]);
    let sheet = special_sheet("twelve variables in judgements and runs");
    assert_eq!(fields(Buffers::new().judge(&sheet, 0)), [1, 32, 0]);
    assert_eq!(fields(Buffers::new().judge(&sheet, 2)), [1, 9, 0]);
    let mut buffers = Buffers::new();
    assert_eq!(fields(buffers.run(&sheet, 4)), [1, 0, 5]);
    // q(x11, x8, x7, x4).
    assert_eq!(buffers.term[..5], [2, 1, 0, 0, 1]);
    assert_eq!(solved("four places, ten variables", 0), [0, 37]);
    assert_eq!(solved("four places, ten variables", 1), [153, 263]);
    let listed = [
        ("8b in an equation", "110000010008 120001808b 110001010008 1200018b80 150101 1f0000"),
        ("8b in an equation, eleven values", "ff050003"),
        ("8b in a ground term", "ff060003"),
        ("8c in an equation", "ff050002"),
        ("8c in a ground term", "ff050003"),
    ];
    for (name, expected) in listed {
        assert_eq!(listing(&special_sheet(name)), expected, "{name}");
    }
}

#[test]
fn doubled_terms() {
    assert_eq!(solved("doubled ten times", 0), [209, 831]);
    assert_eq!(refused("doubled ten times", 0, 1), [8, 2]);
    // x0 to x4, which are 8b to 87, are bound, and x0 > y is the only element.
    let bound = bindings("doubled ten times", 0);
    assert!(bound.iter().any(|slots| slots[7..].iter().all(|&position| position != NONE)));
    for (side, direction) in [("left", 0), ("right", 1)] {
        let name = format!("doubled twelve times, {side}");
        assert_eq!(refused(&name, 0, direction), [10, 2]);
        assert_eq!(refused(&name, 0, 1 - direction), [8, 2]);
    }
}

/// The frames of the listing of a sheet's tasks.
fn task_frames(name: &str) -> String {
    let listing = listing(&special_sheet(name));
    let frames: Vec<&str> = listing.split(' ').filter(|frame| !["11", "12"].contains(&&frame[..2])).collect();
    frames.join(" ")
}

#[test]
fn extra_variables() {
    let listed = [
        (
            "an extra variable in each direction",
            "14000000 14000100 130002020000 14000100 130001020100 130000020101 14000102 1300010201020000 \
             14000100 14000101 1300020202010000 1f0006",
        ),
        (
            "an extra variable in the first of three equations",
            "14000000 14020000 13000201 14000000 14020000 14000000 14020000 13000401 1f0006",
        ),
        (
            "two variables as an equation",
            "13000000 14000000 13000100 14000000 13000100 14000000 13000100 13010001 13000000 150000 150101 1f0003",
        ),
        (
            "a constant against variables",
            "14000000 130001010000 14000100 14000000 130002010000 14000100 14000000 130002010000 130000010000 \
             13000000 1f0005",
        ),
        (
            "a constant below a term of variables",
            "13000001 14000100 13000101 14000100 13000101 14000100 13000101 1f0003",
        ),
        (
            "a line that holds by the constant",
            "14000000 1300010300 1300000300 14000000 1300010300 14000000 1300010300 150000 150000 150103 150103 1f0003",
        ),
        (
            "a line that binds the extra variable to the constant",
            "14000000 130001020000 14000100 130001020000 130000020101 14000002 1300010201020000 130000020000 1f0003",
        ),
        (
            "the constant is symbol 01",
            "14000100 14000000 1300020001 14000000 1300010001 130000000001 14000100 14000000 1300020001 1f0005",
        ),
        ("the constant is symbol 0f", "14000000 130001000f0f 14000001 1300010d000f0f 1f0002"),
        (
            "the lowest of three constants",
            "14000000 130001000301 14000000 14000002 13000200000002010301 1300000001000203 1f0003",
        ),
        (
            "eleven extra variables up to 8b",
            "14000000 13000103020100000002000000000200000000 14000000 14000002 \
             13000203020302010000000200000000020000000000000002000000000200000000 14000000 14000004 \
             1300020302020003020100000002000000000200000000010000000002000000000200000000 15011f 150000 1f0005",
        ),
        ("twelve extra variables", "13000001 14000000 13000103020000000002000000000200000000 130000040400 1f0001"),
        (
            "8b is extra and bound to the constant",
            "14000000 130001020000 14000100 130001020000 130000020000 150000 150107 1f0002",
        ),
    ];
    for (name, expected) in listed {
        assert_eq!(task_frames(name), expected, "{name}");
    }
}

#[test]
fn extra_variables_at_the_limits() {
    let expected: [(&str, &[[u64; 3]]); 4] = [
        ("filled to 160 nodes, and too large", &[[39, 0, 160], [39, 2, 158], [38, 2, 158], [0, 2, 160]]),
        ("a constant filled to 32 nodes", &[[1, 0, 160], [0, 2, 130], [0, 2, 160], [1, 0, 32]]),
        ("160 nodes throughout, an extra variable in each step", &[[79, 0, 160], [40, 1, 160]]),
        ("256 exchanges with two extra variables each", &[[255, 1, 65], [255, 0, 65], [254, 1, 65], [0, 1, 5]]),
    ];
    for (name, outcomes) in expected {
        for (task, &outcome) in outcomes.iter().enumerate() {
            assert_eq!(fields(Buffers::new().run(&special_sheet(name), task as u64)), outcome, "{name}, task {task}");
        }
    }
}

#[test]
fn texts_at_the_limits() {
    let refused = [
        ("empty", "ff010000"),
        ("one LF", "ff020001"),
        ("16,384 bytes", "ff030023"),
        ("16,385 bytes", "ff010000"),
        ("16,384 digits", "ff020001"),
        ("5,461 lines of 01", "ff040001"),
        ("5,461 lines of 02", "ff030001"),
        ("5,458 lines after the symbols", "ff050002"),
        ("no final LF", "ff020005"),
        ("only the symbols", "ff030001"),
        ("only the symbols, no LF", "ff020001"),
        ("NUL in the last line", "ff020005"),
        ("NUL behind the sheet", "ff020006"),
        ("sixteen NUL", "ff020001"),
        ("a line of 328 digits", "ff020006"),
        ("a line of 326 digits", "ff030006"),
        ("longest valid sheet", "ff0a0002"),
    ];
    for (name, expected) in refused {
        assert_eq!(listing(&special_sheet(name)), expected, "{name}");
    }
    let longest = special_sheet("longest valid sheet");
    assert_eq!((longest.len(), reference::check(&longest)), (12_597, 0));
}
