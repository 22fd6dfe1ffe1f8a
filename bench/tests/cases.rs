//! P1 to P12 of document 01 and its other cases at the edges, through the calls, the program and the second implementation alike.

use bench::both::{self, bytes, sheet, Outcome, FORMER};
use reference::limits::{NONE, RECORD_BYTES, SCRATCH_BYTES, TABLE_BYTES, VARIABLES};

/// P1's symbols: a, b, product.
const SYMBOLS: &str = "0103000002";
const P1: &str = "0103000002 02028081028180 0305020100 0400000001 05020100020001";

/// A record of the table: bindings as (variable, position), elements as pairs of positions.
fn record(bindings: &[(usize, u8)], elements: &[(u8, u8)]) -> Vec<u8> {
    let mut record = vec![NONE; RECORD_BYTES];
    for &(variable, position) in bindings {
        record[variable] = position;
    }
    record[VARIABLES] = elements.len() as u8;
    for (i, &(left, right)) in elements.iter().enumerate() {
        record[VARIABLES + 1 + 2 * i..][..2].copy_from_slice(&[left, right]);
    }
    record
}

/// Whether a buffer holds this first, and behind it what it held before.
fn holds(buffer: &[u8], first: &[u8]) -> bool {
    buffer.starts_with(first) && buffer[first.len()..].iter().all(|&byte| byte == FORMER)
}

/// The bytes of scratch that a call may use are 00, and its excess is as it was.
fn scratch_cleared(outcome: &Outcome) -> bool {
    holds(&outcome.buffers.scratch, &[0; SCRATCH_BYTES])
}

/// Direction 00 of the only equation has these turns and this table. All else of the sheet agrees too.
fn solves(symbols: &str, equation: &str, turns: u64, records: &[Vec<u8>]) {
    let sheet = sheet(&format!("{symbols} {equation}"));
    let solved = both::solve(&sheet, 0, 0);
    assert_eq!(solved.fields(), [records.len() as u64, turns, 0]);
    assert!(holds(&solved.buffers.table, &records.concat()) && scratch_cleared(&solved));
    both::everything(&sheet);
}

/// Two terms have this verdict, by this clause. An equation is wanted in every sheet.
fn compares(symbols: &str, terms: &str, verdict: u64, clause: u64) {
    let terms: String = terms.split_whitespace().collect();
    let sheet = sheet(&format!("{symbols} 028080 05{terms}"));
    let compared = both::compare(&sheet, 0);
    assert_eq!(compared.fields(), [verdict, clause, 0]);
    assert!(scratch_cleared(&compared));
    let listing = String::from_utf8(both::listing(&sheet)).expect("digits");
    assert!(listing.contains(&format!("\n16{verdict:02x}{clause:02x}\n")));
}

/// What a run gives: steps, ending and bytes of the term; the term; the log.
fn runs(frames: &str, task: u64, fields: [u64; 3], term: &[u8], log: &[u8]) {
    let sheet = sheet(frames);
    let run = both::run(&sheet, task);
    assert_eq!(run.fields(), fields);
    assert!(holds(&run.buffers.term, term) && holds(&run.buffers.log, log) && scratch_cleared(&run));
    assert!(holds(&run.buffers.table, &[NONE; TABLE_BYTES]));
    both::everything(&sheet);
}

#[test]
fn p1() {
    let expected = "110000010008 1200018081 110001010008 1200018180 14000000 130001020001 150000 160203 1f0001";
    assert_eq!(both::listing(&sheet(P1)), sheet(expected));
    assert_eq!(both::check(&sheet(P1)).returned, 0);
    let p1 = sheet(P1);
    for (direction, element) in [(0, (1, 4)), (1, (4, 1))] {
        let solved = both::solve(&p1, 0, direction);
        assert_eq!(solved.fields(), [1, 8, 0]);
        assert!(holds(&solved.buffers.table, &record(&[], &[element])));
    }
    runs(P1, 0, [1, 0, 3], &[2, 0, 1], &[0, 0, 0]);
    assert_eq!(both::judge(&p1, 1).fields(), [0, 0, 0]);
    assert_eq!(both::compare(&p1, 2).fields(), [2, 3, 0]);
}

#[test]
fn p2_to_p5() {
    compares(SYMBOLS, "00 00", 1, 0);
    compares(SYMBOLS, "01 00", 2, 2);
    compares(SYMBOLS, "020001 01", 2, 1);
    compares(SYMBOLS, "020001 020100", 0, 3);
}

#[test]
fn p6_to_p10() {
    solves(SYMBOLS, "0280028000", 1, &[]);
    solves(SYMBOLS, "0202800080", 1, &[record(&[], &[])]);
    solves(SYMBOLS, "020000", 1, &[]);
    solves(SYMBOLS, "020100", 1, &[record(&[], &[])]);
    solves(SYMBOLS, "028081", 0, &[record(&[], &[(0, 1)])]);
}

/// W6: the answer and the turns of `always`, left > right.
fn asks(symbols: &str, equation: &str, answer: u64, turns: u64) {
    let asked = both::always(&sheet(&format!("{symbols} {equation}")), 0, 0);
    assert_eq!(asked.fields(), [answer, turns, 0]);
    assert!(holds(&asked.buffers.table, &[NONE; TABLE_BYTES]) && scratch_cleared(&asked));
}

#[test]
fn always() {
    asks(SYMBOLS, "02028081028180", 0, 8);
    asks(SYMBOLS, "0280028000", 0, 1);
    asks(SYMBOLS, "0202800080", 1, 1);
    asks(SYMBOLS, "020100", 1, 1);
    asks(SYMBOLS, "028081", 0, 0);
    // (xy)z > x(yz): solve takes 26 turns.
    asks(SYMBOLS, "0202028081820280028182", 1, 24);
}

#[test]
fn p11() {
    // Symbols: product 00, a 01. Positions: xy is 0 to 2, ya is 3 to 5.
    let records = [
        record(&[], &[(1, 3)]),
        record(&[(0, 3)], &[]),
        record(&[], &[(1, 4), (1, 5)]),
        record(&[(0, 5)], &[(1, 4)]),
        record(&[], &[(1, 4), (2, 5)]),
        record(&[(1, 5)], &[(1, 4)]),
        record(&[(0, 4)], &[(2, 5)]),
    ];
    solves("01020200", "02008081008101", 8, &records);
    let lines = sheet(
        "110000070008 12000180008101 12018000810100 12000280818001 12018001018081 12000280818101 12018101018081 \
         12018081018101",
    );
    assert!(both::listing(&sheet("01020200 02008081008101")).starts_with(&lines));
}

#[test]
fn p12() {
    // c, b, a, product, plus.
    compares("01050000000202", "0402030100 0302040100", 2, 2);
}

#[test]
fn side_of_32_nodes() {
    let side = |nodes: usize| "01".repeat(nodes - 1) + "00";
    for (left, right, returned) in [
        (side(32), side(1), 0),
        (side(1), side(32), 0),
        (side(32), side(32), 0),
        (side(33), side(1), 5 + 2 * 256),
        (side(1), side(33), 5 + 2 * 256),
    ] {
        let sheet = sheet(&format!("01020001 02{left}{right}"));
        assert_eq!(both::check(&sheet).returned, returned);
        both::everything(&sheet);
    }
    let refused = format!("01020001 02{}{}", side(33), side(1));
    assert_eq!(both::listing(&sheet(&refused)), b"ff050002\n");
}

#[test]
fn no_steps() {
    runs("0103000002 02028081028180 0300020100", 0, [0, 1, 3], &[2, 1, 0], &[]);
}

#[test]
fn doubling() {
    // a, b, product, d; an argument of n nodes is a right-nested product.
    let argument = |nodes: usize| "0200".repeat(nodes / 2) + "01";
    let frames = |nodes: usize| format!("010400000201 020380028080 030503{}", argument(nodes));
    let [short, long] = [79, 159].map(|nodes| bytes(&argument(nodes)));
    assert_eq!([short.len(), long.len()], [79, 159]);
    runs(&frames(79), 0, [1, 0, 159], &[&[2], &short[..], &short].concat(), &[0, 0, 0]);
    runs(&frames(159), 0, [0, 2, 160], &[&[3], &long[..]].concat(), &[]);
}

/// L3: f(b, a) against f(a, g(a)), f above g. The left term exceeds g(a), its second argument does not.
#[test]
fn the_whole_left_term_after_k() {
    compares("010400000102", "030100 03000200", 2, 3);
}

/// The first clause that applies, with each verdict: a, b, product and sum, in ascending order.
#[test]
fn the_clause_that_decided() {
    let symbols = "010400000202";
    let greater = [("020001", "01", 1), ("030001", "020100", 2), ("020100", "020001", 3)];
    // L1 is named though L2, then L3, applies too: (ab)+b against ab, and (ab)b against ab.
    let by_argument = [("0302000101", "020001", 1), ("0202000101", "020001", 1)];
    for (s, t, clause) in greater.into_iter().chain(by_argument) {
        compares(symbols, &format!("{s} {t}"), 2, clause);
        compares(symbols, &format!("{t} {s}"), 0, clause);
        compares(symbols, &format!("{s} {s}"), 1, 0);
    }
}

/// f(x, y) > f(y, g(y)), g above f. In the line x > y, x = g(y) the binding makes the first element g(y) > y, which goes.
#[test]
fn kept_inequality_looked_at_again() {
    let records =
        [record(&[], &[(1, 3)]), record(&[(0, 3)], &[]), record(&[], &[(1, 4), (1, 5)]), record(&[(0, 5)], &[])];
    solves("0103000201", "0201808101810281", 11, &records);
}

/// f(x, y) > f(g(y), g(x)), g above f. With y bound to g(x), x > g(y) has x on its right, and the other way round.
#[test]
fn occurs_test_through_bindings() {
    solves("0103000201", "020180810102810280", 12, &[record(&[], &[(1, 4), (2, 6)])]);
}

/// xx = x with the subjects ab and bb.
#[test]
fn repeated_variable() {
    let frames = "0103000002 0202808080 0305020001 0305020101";
    runs(frames, 0, [0, 0, 3], &[2, 0, 1], &[]);
    runs(frames, 1, [1, 0, 1], &[1], &[0, 0, 0]);
}
