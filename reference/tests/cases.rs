//! P1 to P12 of the paper and its other cases at the edges.

mod common;

use common::{Buffers, bytes, fields, is_prefix_then_pattern, listing, refusal, sheet};
use reference::limits::*;

/// P1's symbols: a, b, product.
const SYMBOLS_OF_P1: &str = "0103000002";
const P1: &str = "0103000002 02028081028180 0305020100 0400000001 05020100020001";

/// A record of the table: bindings as (variable, position), elements as pairs of positions.
fn record(bindings: &[(usize, u8)], elements: &[(u8, u8)]) -> Vec<u8> {
    let mut record = vec![NONE; RECORD_BYTES];
    for &(variable, position) in bindings {
        record[variable] = position;
    }
    record[VARIABLES] = elements.len() as u8;
    for (index, &(left, right)) in elements.iter().enumerate() {
        record[VARIABLES + 1 + 2 * index..][..2].copy_from_slice(&[left, right]);
    }
    record
}

/// Solves direction 00 of the only equation and compares lines, turns and table.
fn solves(symbols: &str, equation: &str, turns: u64, records: &[Vec<u8>]) {
    let sheet = sheet(&format!("{symbols} {equation}"));
    let mut buffers = Buffers::new();
    let code = buffers.solve(&sheet, 0, 0);
    assert_eq!(fields(code), [records.len() as u64, turns, 0]);
    assert!(is_prefix_then_pattern(&buffers.table, &records.concat()));
    buffers.assert_scratch_cleared();
}

/// Asks for always in direction 00 of the only equation and compares answer and turns.
fn always(symbols: &str, equation: &str, answer: u64, turns: u64) {
    let sheet = sheet(&format!("{symbols} {equation}"));
    let mut buffers = Buffers::new();
    assert_eq!(fields(buffers.always(&sheet, 0, 0)), [answer, turns, 0]);
    buffers.assert_table_void();
    buffers.assert_scratch_cleared();
    buffers.table = Buffers::new().table;
    buffers.scratch = Buffers::new().scratch;
    buffers.assert_untouched();
}

/// Two ground terms as an equation: no line can have bindings or keep elements, so always tells whether the first term
/// is greater.
fn always_greater(symbols: &str, terms: &str, answer: u64) {
    let sheet = sheet(&format!("{symbols} 02{}", terms.replace(' ', "")));
    assert_eq!(fields(Buffers::new().always(&sheet, 0, 0))[0], answer);
}

fn compares(symbols: &str, terms: &str, verdict: u64, clause: u64) {
    let sheet = sheet(&format!("{symbols} 028080 05{}", terms.replace(' ', "")));
    let mut buffers = Buffers::new();
    assert_eq!(fields(buffers.compare(&sheet, 0)), [verdict, clause, 0]);
    buffers.assert_scratch_cleared();
    buffers.scratch = Buffers::new().scratch;
    buffers.assert_untouched();
}

#[test]
fn p1_listing() {
    let expected = "110000010008 1200018081 110001010008 1200018180 14000000 130001020001 150000 160203 1f0001";
    assert_eq!(listing(&sheet(P1)), expected);
}

#[test]
fn p1_calls() {
    let sheet = sheet(P1);
    assert_eq!(reference::check(&sheet), 0);

    let mut buffers = Buffers::new();
    assert_eq!(fields(buffers.solve(&sheet, 0, 0)), [1, 8, 0]);
    assert!(is_prefix_then_pattern(&buffers.table, &record(&[], &[(1, 4)])));
    let mut buffers = Buffers::new();
    assert_eq!(fields(buffers.solve(&sheet, 0, 1)), [1, 8, 0]);
    assert!(is_prefix_then_pattern(&buffers.table, &record(&[], &[(4, 1)])));

    let mut buffers = Buffers::new();
    assert_eq!(fields(buffers.run(&sheet, 0)), [1, 0, 3]);
    assert!(is_prefix_then_pattern(&buffers.term, &[2, 0, 1]));
    assert!(is_prefix_then_pattern(&buffers.log, &[0, 0, 0]));
    buffers.assert_table_void();
    buffers.assert_scratch_cleared();

    let mut buffers = Buffers::new();
    assert_eq!(fields(buffers.judge(&sheet, 1)), [0, 0, 0]);
    buffers.assert_table_void();
    buffers.assert_scratch_cleared();

    // ba against ab: neither b nor a reaches ab; b > a, and ba > b since b = b. So it is L3.
    assert_eq!(fields(Buffers::new().compare(&sheet, 2)), [2, 3, 0]);
    assert_eq!(Buffers::new().compare(&sheet, 2), 0x0300_0200);

    for direction in 0..2 {
        let mut buffers = Buffers::new();
        assert_eq!(fields(buffers.always(&sheet, 0, direction)), [0, 8, 0]);
        buffers.assert_table_void();
        buffers.assert_scratch_cleared();
    }
}

#[test]
fn p2_to_p5_comparisons() {
    compares(SYMBOLS_OF_P1, "00 00", 1, 0);
    // No argument, but b above a: L2.
    compares(SYMBOLS_OF_P1, "01 00", 2, 2);
    // The second argument is b: L1, though the product is above b, which has no argument, and L2 applies too.
    compares(SYMBOLS_OF_P1, "020001 01", 2, 1);
    // ba > ab by L3, as in P1.
    compares(SYMBOLS_OF_P1, "020001 020100", 0, 3);
}

#[test]
fn p2_to_p5_always() {
    always_greater(SYMBOLS_OF_P1, "00 00", 0);
    always_greater(SYMBOLS_OF_P1, "01 00", 1);
    always_greater(SYMBOLS_OF_P1, "00 01", 0);
    always_greater(SYMBOLS_OF_P1, "020001 01", 1);
    always_greater(SYMBOLS_OF_P1, "01 020001", 0);
    always_greater(SYMBOLS_OF_P1, "020001 020100", 0);
    always_greater(SYMBOLS_OF_P1, "020100 020001", 1);
}

#[test]
fn p6_variable_against_product_with_it() {
    solves(SYMBOLS_OF_P1, "0280028000", 1, &[]);
    always(SYMBOLS_OF_P1, "0280028000", 0, 1);
}

#[test]
fn p7_product_against_its_factor() {
    solves(SYMBOLS_OF_P1, "0202800080", 1, &[record(&[], &[])]);
    always(SYMBOLS_OF_P1, "0202800080", 1, 1);
}

#[test]
fn p8_constant_against_itself() {
    solves(SYMBOLS_OF_P1, "020000", 1, &[]);
    always(SYMBOLS_OF_P1, "020000", 0, 1);
}

#[test]
fn p9_greater_constant() {
    solves(SYMBOLS_OF_P1, "020100", 1, &[record(&[], &[])]);
    always(SYMBOLS_OF_P1, "020100", 1, 1);
}

#[test]
fn p10_two_variables() {
    solves(SYMBOLS_OF_P1, "028081", 0, &[record(&[], &[(0, 1)])]);
    always(SYMBOLS_OF_P1, "028081", 0, 0);
}

#[test]
fn p11_example_2_of_002() {
    // Symbols: product 00, a 01. Positions: xy is 0 to 2, ya is 3 to 5.
    let records = [
        record(&[], &[(1, 3)]),
        record(&[(0, 3)], &[]),
        record(&[], &[(1, 4), (1, 5)]),
        record(&[(0, 5)], &[(1, 4)]),
        record(&[], &[(1, 4), (2, 5)]),
        record(&[(1, 5)], &[(1, 4)]),
        record(&[(0, 4)], &[(2, 5)]),
    ];
    solves("01020200", "02008081008101", 8, &records);
    // The second line has no element, but a binding.
    always("01020200", "02008081008101", 0, 8);
    let frames = listing(&sheet("01020200 02008081008101"));
    let expected = "110000070008 12000180008101 12018000810100 12000280818001 12018001018081 12000280818101 \
                    12018101018081 12018081018101 110001";
    assert!(frames.starts_with(expected));
}

#[test]
fn p12_example_of_002() {
    // c, b, a, product, plus.
    // a does not reach a(b+c), nor does bc, whose b is below a: not L1. The sum is above the product, a+(bc) > a since
    // a = a, and a+(bc) > b+c since a > b and a+(bc) > c: L2.
    compares("01050000000202", "0402030100 0302040100", 2, 2);
    compares("01050000000202", "0302040100 0402030100", 0, 2);
    always_greater("01050000000202", "0402030100 0302040100", 1);
    always_greater("01050000000202", "0302040100 0402030100", 0);
}

#[test]
fn side_of_32_nodes() {
    let side = |nodes: usize| "01".repeat(nodes - 1) + "00";
    let with = |left: &str, right: &str| sheet(&format!("01020001 02{left}{right}"));
    assert_eq!(refusal(&with(&side(32), "00")), (0, 0));
    assert_eq!(refusal(&with("00", &side(32))), (0, 0));
    assert_eq!(refusal(&with(&side(33), "00")), (5, 2));
    assert_eq!(refusal(&with("00", &side(33))), (5, 2));
}

#[test]
fn p1_run_without_steps() {
    let sheet = sheet("0103000002 02028081028180 0300020100");
    let mut buffers = Buffers::new();
    assert_eq!(fields(buffers.run(&sheet, 0)), [0, 1, 3]);
    assert!(is_prefix_then_pattern(&buffers.term, &[2, 1, 0]));
    assert!(is_prefix_then_pattern(&buffers.log, &[]));
}

#[test]
fn doubling() {
    // a, b, product, d; an argument of n nodes is a right-nested product.
    let run = |nodes: usize| {
        let argument = "0200".repeat(nodes / 2) + "01";
        let sheet = sheet(&format!("010400000201 020380028080 030503{argument}"));
        let mut buffers = Buffers::new();
        let code = buffers.run(&sheet, 0);
        (fields(code), buffers, bytes(&argument))
    };
    let (result, buffers, argument) = run(79);
    assert_eq!(result, [1, 0, 159]);
    assert!(is_prefix_then_pattern(&buffers.term, &[&[2], &argument[..], &argument].concat()));
    assert!(is_prefix_then_pattern(&buffers.log, &[0, 0, 0]));
    let (result, buffers, argument) = run(159);
    assert_eq!(result, [0, 2, 160]);
    assert!(is_prefix_then_pattern(&buffers.term, &[&[3], &argument[..]].concat()));
    assert!(is_prefix_then_pattern(&buffers.log, &[]));
}

#[test]
fn l3_compares_the_whole_left_term_after_k() {
    // f(b, a) against f(a, g(a)), f above g: the left term exceeds g(a), its second argument does not.
    compares("010400000102", "030100 03000200", 2, 3);
}

#[test]
fn kept_inequality_is_looked_at_again_after_a_binding() {
    // f(x, y) > f(y, g(y)), g above f. In the line x > y, x = g(y) the binding makes the first element g(y) > y,
    // which is deleted.
    let records =
        [record(&[], &[(1, 3)]), record(&[(0, 3)], &[]), record(&[], &[(1, 4), (1, 5)]), record(&[(0, 5)], &[])];
    solves("0103000201", "0201808101810281", 11, &records);
    always("0103000201", "0201808101810281", 0, 11);
}

#[test]
fn occurs_test_looks_through_bindings() {
    // f(x, y) > f(g(y), g(x)), g above f. With y bound to g(x), x > g(y) has x on its right; with x bound to g(y),
    // y > g(x) has y on its right.
    solves("0103000201", "020180810102810280", 12, &[record(&[], &[(1, 4), (2, 6)])]);
}

#[test]
fn repeated_variable_needs_identical_terms() {
    // xx = x with the subjects ab and bb.
    let sheet = sheet("0103000002 0202808080 0305020001 0305020101");
    assert_eq!(fields(Buffers::new().run(&sheet, 0)), [0, 0, 3]);
    assert_eq!(fields(Buffers::new().run(&sheet, 1)), [1, 0, 1]);
}
