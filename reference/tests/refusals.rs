//! Refusals 1 to 12: which one, on which line, and what is left in the lent buffers.

mod common;

use common::{Buffers, PATTERN, listing, refusal, sheet};
use reference::limits::*;

const START: &str = "0103000002 02028081028180";

fn refused(frames: &str, number: u64, line: u64) {
    assert_eq!(refusal(&sheet(frames)), (number, line), "{frames}");
}

/// The refusal of a third line behind P1's symbols and equation.
fn third(frame: &str, number: u64) {
    refused(&format!("{START} {frame}"), number, if number == 0 { 0 } else { 3 });
}

/// A right-nested product with this odd number of nodes.
fn product(nodes: usize) -> String {
    "0200".repeat(nodes / 2) + "01"
}

/// A tower of the unary symbol 01.
fn tower(nodes: usize) -> String {
    "01".repeat(nodes - 1) + "00"
}

#[test]
fn length_of_the_sheet() {
    assert_eq!(refusal(b""), (1, 0));
    assert_eq!(refusal(&vec![b'0'; SHEET_BYTES + 1]), (1, 0));
    assert_eq!(refusal(&vec![b'0'; SHEET_BYTES]), (2, 1));
}

#[test]
fn digits_and_line_ends() {
    assert_eq!(refusal(b"\n"), (2, 1));
    assert_eq!(refusal(b"01"), (2, 1));
    assert_eq!(refusal(b"0\n"), (2, 1));
    assert_eq!(refusal(b"010\n"), (2, 1));
    assert_eq!(refusal(b"01\r\n"), (2, 1));
    assert_eq!(refusal(b"010100\n0200 00\n"), (2, 2));
    assert_eq!(refusal(b"010100\n020000\n\n"), (2, 3));
    assert_eq!(refusal(b"010100\n020000\n0A\n"), (2, 3));
    assert_eq!(refusal(b"010100\n020000\n0g\n"), (2, 3));
    assert_eq!(refusal(b"010100\n020000\n05\0\n"), (2, 3));
    assert_eq!(refusal(b"010100\n020000"), (2, 2));
    assert_eq!(refusal(b"010100\n020000\n0"), (2, 3));
    assert_eq!(refusal(b"010100\n020000\n"), (0, 0));
    // The digits of a line are refused before its kind.
    assert_eq!(refusal(b"ffx\n"), (2, 1));
    // A line of 326 digits is read, one of 328 is not.
    third(&"06".repeat(163), 3);
    third(&"06".repeat(164), 2);
}

#[test]
fn order_of_frames() {
    refused("00", 3, 1);
    refused("06", 3, 1);
    refused("ff", 3, 1);
    refused("020000", 3, 1);
    refused("010100", 3, 1);
    refused("010100 010100", 3, 2);
    refused("010100 020000 010100", 3, 3);
    refused("010100 050000", 3, 2);
    refused("010100 050000 020000", 3, 2);
    refused("010100 020000 050000 020000", 3, 4);
    refused("010100 020000 060000", 3, 3);
    let equations = |count: usize| format!("010100{}", " 020000".repeat(count));
    refused(&equations(16), 0, 0);
    refused(&equations(17), 3, 18);
    let tasks = |count: usize| format!("{}{}", equations(16), " 050000".repeat(count));
    refused(&tasks(32), 0, 0);
    refused(&tasks(33), 3, 50);
}

#[test]
fn symbol_frame() {
    for frame in ["01", "0100", "0101", "010101", "010105", "01020001ff", "01020005", "0111", "01010000", "010200"] {
        refused(&format!("{frame} 020000"), 4, 1);
    }
    refused(&format!("0110{} 020000", "00".repeat(16)), 0, 0);
    refused(&format!("0111{} 020000", "00".repeat(17)), 4, 1);
    refused("01020004 020000", 0, 0);
}

#[test]
fn terms_of_equations() {
    let second = |frame: &str, number: u64| {
        refused(&format!("0103000002 {frame}"), number, if number == 0 { 0 } else { 2 });
    };
    for frame in ["02", "0200", "0202", "02020000", "0200020000ff", "02000000", "020003", "020010", "02007f", "02008c"]
    {
        second(frame, 5);
    }
    second("0200020080", 0);
    second("028087", 0);
    second("02808b", 0);
    second("02808b80", 5);
    // The bytes of the class, and no others, are variables.
    for byte in 3..=0xff {
        second(&format!("0200{byte:02x}"), if (0x80..=0x8b).contains(&byte) { 0 } else { 5 });
    }
    second(&format!("02{}{}", product(31), product(31)), 0);
    second(&format!("02{}00", product(33)), 5);
    second(&format!("0200{}", product(33)), 5);
}

#[test]
fn ground_terms() {
    third("03", 5);
    third("0300", 5);
    third("030000", 0);
    third("03ff00", 0);
    third("03000000", 5);
    third("030080", 6);
    third("0300028002", 6);
    third("0300020280", 6);
    third("030002038c", 5);
    third("03008b", 6);
    third("03008c", 5);
    third("0300028b8c", 6);
    third("0300028c8b", 5);
    third("03000080", 5);
    third("0500", 5);
    third("050080", 6);
    third("058000", 6);
    third("05000080", 5);
    third(&format!("0300{}", product(159)), 0);
    third(&format!("0300{}", product(161)), 5);
    third(&format!("05{}00", product(159)), 0);
    third(&format!("05{}020001", product(159)), 5);
    // The 161st node earns 5 even if it is a variable, an earlier variable earns 6.
    third(&format!("0300{}80", "0200".repeat(80)), 5);
    third(&format!("0300{}80", "0200".repeat(79)), 6);
    third(&format!("0300{}8002", "0200".repeat(79)), 6);
}

#[test]
fn judgements() {
    for frame in ["04", "0400", "04ff", "0401"] {
        third(frame, 5);
    }
    for frame in ["040100", "040002", "04ff00", "0400ff", "04010080", "040002ff", "041000"] {
        third(frame, 7);
    }
    third("0400000000", 0);
    third("0400010101", 0);
    third("040000", 5);
    third("04000000", 5);
    third("040000000000", 5);
    third("0400000080", 6);
    third("0400008000", 6);
    third("040000000080", 5);
    third(&format!("040000{}00", product(159)), 0);
    // A judgement with 161 nodes is longer than a line may be.
    third(&format!("040000{}0200", product(159)), 2);
    third(&format!("040000{}02", product(159)), 5);
    // An equation whose only variable is 83 takes four values; one without variables none.
    refused("010100 028383 04000000000000", 0, 0);
    refused("010100 028383 040000000000", 5, 3);
    refused("010100 020000 040000", 0, 0);
    refused("010100 020000 04000000", 5, 3);
}

#[test]
fn twelve_values_share_the_nodes_of_a_task() {
    let with = |last: usize| format!("01020001 028b80 040000{}{}", tower(13).repeat(11), tower(last));
    refused(&with(17), 0, 0);
    refused(&with(18), 2, 3);
    let values = |count: usize| format!("01020001 028b80 040000{}", "00".repeat(count));
    refused(&values(11), 5, 3);
    refused(&values(12), 0, 0);
    refused(&values(13), 5, 3);
}

/// The other tests go by these numbers, so they are written out once.
#[test]
fn numbers_of_the_paper() {
    assert_eq!((VARIABLES, FIRST_VARIABLE, LAST_VARIABLE), (12, 0x80, 0x8b));
    assert_eq!((RECORD_BYTES, TABLE_BYTES, SCRATCH_BYTES), (93, 23_715, 57_344));
    assert_eq!((TERM_BYTES, LOG_BYTES, SHEET_BYTES), (160, 765, 16_384));
}

#[test]
fn short_buffers_come_first() {
    for text in [&b""[..], &sheet("0103000002 02028081028180 0305020100 0400000001 05020100020001")] {
        let mut buffers = Buffers::new();
        let Buffers { table, scratch, term, log } = &mut buffers;
        let (t, s, m, l) = (TABLE_BYTES - 1, SCRATCH_BYTES - 1, TERM_BYTES - 1, LOG_BYTES - 1);
        assert_eq!(reference::solve(text, 9, 9, &mut table[..t], scratch), 11);
        assert_eq!(reference::solve(text, 0, 0, table, &mut scratch[..s]), 11);
        assert_eq!(reference::always(text, 9, 9, &mut table[..t], scratch), 11);
        assert_eq!(reference::always(text, 0, 0, table, &mut scratch[..s]), 11);
        assert_eq!(reference::always(text, 0, 0, &mut [], &mut []), 11);
        assert_eq!(reference::judge(text, 1, &mut table[..t], scratch), 11);
        assert_eq!(reference::judge(text, 1, table, &mut scratch[..s]), 11);
        assert_eq!(reference::run(text, 0, &mut table[..t], scratch, term, log), 11);
        assert_eq!(reference::run(text, 0, table, &mut scratch[..s], term, log), 11);
        assert_eq!(reference::run(text, 0, table, scratch, &mut term[..m], log), 11);
        assert_eq!(reference::run(text, 0, table, scratch, term, &mut log[..l]), 11);
        assert_eq!(reference::run(text, 0, &mut [], &mut [], &mut [], &mut []), 11);
        assert_eq!(reference::compare(text, 2, &mut scratch[..s]), 11);
        assert_eq!(reference::compare(text, 2, &mut []), 11);
        buffers.assert_untouched();
    }
}

#[test]
fn buffers_of_exactly_the_lengths_are_served() {
    let text = sheet("0103000002 02028081028180 0305020100 0400000001 05020100020001");
    let (mut table, mut scratch) = (vec![PATTERN; TABLE_BYTES], vec![PATTERN; SCRATCH_BYTES]);
    let (mut term, mut log) = (vec![PATTERN; TERM_BYTES], vec![PATTERN; LOG_BYTES]);
    assert_eq!(reference::solve(&text, 0, 0, &mut table, &mut scratch) & 0xff, 0);
    assert_eq!(reference::always(&text, 0, 0, &mut table, &mut scratch) & 0xff, 0);
    assert_eq!(reference::judge(&text, 1, &mut table, &mut scratch) & 0xff, 0);
    assert_eq!(reference::run(&text, 0, &mut table, &mut scratch, &mut term, &mut log) & 0xff, 0);
    assert_eq!(reference::compare(&text, 2, &mut scratch) & 0xff, 0);
}

#[test]
fn a_refused_walk_voids_table_and_scratch() {
    // The second equation is refused in direction 00.
    let text = sheet("0103000201 02018081018180 0202020101028000810201010202028001008002020281 0300010000 0501000000");
    let code = 8 | 3 << 8;
    let mut buffers = Buffers::new();
    assert_eq!(buffers.solve(&text, 0, 0) & 0xff, 0);
    let mut buffers = Buffers::new();
    assert_eq!(buffers.solve(&text, 1, 0), code);
    buffers.assert_table_void();
    buffers.assert_scratch_cleared();
    let mut buffers = Buffers::new();
    assert_eq!(buffers.always(&text, 1, 0), code);
    buffers.assert_table_void();
    buffers.assert_scratch_cleared();
    assert!(buffers.term == Buffers::new().term && buffers.log == Buffers::new().log);
    // The other direction and the other equation are not walked.
    assert_eq!(buffers.always(&text, 1, 1) & 0xff, 0);
    assert_eq!(buffers.always(&text, 0, 0) & 0xff, 0);
    let mut buffers = Buffers::new();
    assert_eq!(buffers.run(&text, 0), code);
    buffers.assert_table_void();
    buffers.assert_scratch_cleared();
    assert!(buffers.term == Buffers::new().term && buffers.log == Buffers::new().log);
    // What is absent is refused before the walk; a comparison walks nothing.
    let mut buffers = Buffers::new();
    assert_eq!(buffers.judge(&text, 0), 12);
    assert_eq!(buffers.run(&text, 1), 12);
    assert_eq!(buffers.solve(&text, 2, 0), 12);
    assert_eq!(buffers.always(&text, 2, 0), 12);
    assert_eq!(buffers.always(&text, 1, 2), 12);
    buffers.assert_untouched();
    assert_eq!(buffers.compare(&text, 1), 2 << 8 | 1 << 24);
    assert_eq!(listing(&text), "ff080003");
}

#[test]
fn a_refused_sheet_is_refused_by_always() {
    // Each of 1 to 7, also where equation and direction are absent, for the sheet is read before they are looked for.
    let start = sheet(START);
    let with = |frame: &str| [&start[..], frame.as_bytes()].concat();
    let refused = [
        (vec![], 1, 0),
        (with("0g\n"), 2, 3),
        (with("06\n"), 3, 3),
        (sheet("010105 028080"), 4, 1),
        (with("0500\n"), 5, 3),
        (with("050080\n"), 6, 3),
        (with("040100\n"), 7, 3),
    ];
    for (text, number, line) in refused {
        let mut buffers = Buffers::new();
        assert_eq!(buffers.always(&text, 0, 0), number | line << 8);
        assert_eq!(buffers.always(&text, 16, 2), number | line << 8);
        buffers.assert_untouched();
    }
}

#[test]
fn always_answers_where_solve_is_refused() {
    // The second equation has an empty line after 5,465 turns and needs more than 10,000.
    let text = sheet("0103000201 02018081018180 02010202010201028000020201018000800202800201020002020280");
    let mut buffers = Buffers::new();
    assert_eq!(buffers.solve(&text, 1, 0), 8 | 3 << 8);
    let mut buffers_of_always = Buffers::new();
    assert_eq!(buffers_of_always.always(&text, 1, 0), 1 << 8 | 5_465 << 24);
    // What is left in the buffers is the same.
    assert!(buffers_of_always == buffers);
    buffers.assert_table_void();
    buffers.assert_scratch_cleared();
}
