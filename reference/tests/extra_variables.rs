//! Runs by directions whose target has variables that the source lacks, computed by hand.

mod common;

use common::{Buffers, bytes, fields, is_prefix_then_pattern, listing, sheet};

/// Runs a subject with a step limit and compares steps, ending and last term, and every lent byte.
fn runs_up_to(limit: u8, frames: &str, subject: &str, steps: &[[u8; 3]], ending: u64, term: &str) {
    let subject = subject.replace(' ', "");
    let sheet = sheet(&format!("{frames} 03{limit:02x}{subject}"));
    let mut buffers = Buffers::new();
    let code = buffers.run(&sheet, 0);
    assert!(is_prefix_then_pattern(&buffers.log, &steps.concat()), "steps of {subject}");
    assert!(is_prefix_then_pattern(&buffers.term, &bytes(term)), "last term of {subject}");
    assert_eq!(fields(code), [steps.len() as u64, ending, bytes(term).len() as u64], "{subject}");
    buffers.assert_table_void();
    buffers.assert_scratch_cleared();
}

/// The same to the end, which is reached before the limit.
fn runs(frames: &str, subject: &str, steps: &[[u8; 3]], term: &str) {
    runs_up_to(99, frames, subject, steps, 0, term);
}

/// Steps of equation 00 at the top, from the left and from the right.
const LEFT: [u8; 3] = [0, 0, 0];
const RIGHT: [u8; 3] = [0, 1, 0];

#[test]
fn one_extra_variable() {
    // a, b, f, h: h(x) = f(x, y). h(x) > f(x, a) by L2, whatever x is.
    let frames = "010400000201 020380028081";
    runs(frames, "03 01", &[LEFT], "02 01 00");
    runs(frames, "03 00", &[LEFT], "02 00 00");
    // h(h(b)), f(h(b), a), f(f(b, a), a).
    runs(frames, "03 03 01", &[LEFT, [0, 0, 1]], "02 02 01 00 00");
    // Nothing is extra from the right: f(x, y) > h(x) asks y to be h(x) or to exceed it.
    runs(frames, "02 01 03 01", &[RIGHT, LEFT], "02 01 00");
    // Here y does not, and h(a) is filled where it stands.
    runs(frames, "02 01 03 00", &[[0, 0, 2]], "02 01 02 00 00");
}

#[test]
fn extra_variables_in_both_directions() {
    // a, b, f, g: f(x, y) = g(x, z). f(a, g(b, b)) > g(a, a) since g(b, b) > g(a, a), and g(a, a) > f(a, a) since g > f.
    let frames = "010400000202 02028081038082";
    runs(frames, "02 00 03 01 01", &[LEFT, RIGHT], "02 00 00");
    // g(b, b) becomes f(b, a), not f(b, b). It does not exceed g(b, a).
    runs(frames, "03 01 01", &[RIGHT], "02 01 00");
    // f(b, b) > g(b, a) would take an argument that is g(b, a) or exceeds it.
    runs(frames, "02 01 01", &[], "02 01 01");
}

#[test]
fn an_equation_with_an_extra_variable_comes_first() {
    // a, b, f, h: h(x) = f(x, y), then h(x) = x. The second one is not reached.
    runs("010400000201 020380028081 02038080", "03 01", &[LEFT], "02 01 00");
    // The other way round the first is taken, and f(b, a) does not come up.
    runs("010400000201 02038080 020380028081", "03 01", &[LEFT], "01");
}

#[test]
fn two_variables() {
    // a, b, f: x = y. x > y holds at y = a for each x but a; the step is at the top.
    let frames = "0103000002 028081";
    runs(frames, "00", &[], "00");
    runs(frames, "01", &[LEFT], "00");
    runs(frames, "02 01 02 00 01", &[LEFT], "00");
    runs_up_to(0, frames, "01", &[], 1, "01");
    runs_up_to(0, frames, "00", &[], 0, "00");
    // f, a, b: f(a, a) > a, where a is above f.
    runs("0103020000 028081", "00 01 01", &[LEFT], "01");
}

#[test]
fn the_line_is_judged_at_the_constant() {
    // a, b, c, h: h(x) = h(y). Of x > h(y); x bound to h(y); x > y, the last one holds for b at y = a, and not at y = b.
    let frames = "010400000001 0203800381";
    runs(frames, "03 01", &[LEFT], "03 00");
    runs(frames, "03 02", &[LEFT], "03 00");
    runs(frames, "03 00", &[], "03 00");
    // The second line: h(h(a)) > h(a).
    runs(frames, "03 03 00", &[LEFT], "03 00");
}

#[test]
fn the_line_binds_the_extra_variable() {
    // a, b, f: f(a, x) = f(y, a). From the left the only line that can hold binds y to a and has x > a, from the right
    // one has y > a and f(y, a) > x.
    let frames = "0103000002 02020080028100";
    runs(frames, "02 00 01", &[LEFT], "02 00 00");
    runs(frames, "02 01 00", &[RIGHT], "02 00 00");
    runs(frames, "02 00 00", &[], "02 00 00");
    runs(frames, "02 01 01", &[], "02 01 01");
    runs(frames, "02 01 02 00 01", &[[0, 0, 2]], "02 01 02 00 00");
    // a, b, c, f: f(b, x) = f(y, c). y is not bound to b, since it is a: b > y and f(b, x) > c instead.
    runs("010400000002 02030180038102", "03 01 00", &[LEFT], "03 00 02");
    // With a for b nothing holds at f(a, a): neither a > y, nor x > c, which the line with y bound to a has.
    runs("010400000002 02030080038102", "03 00 00", &[], "03 00 00");
}

#[test]
fn constants_and_variables() {
    // a, f, b: b = f(x, y). b > f(a, a) by L2; from the right f(x, y) > b where x or y is b or exceeds it.
    let frames = "0103000200 0202018081";
    runs(frames, "02", &[LEFT], "01 00 00");
    runs(frames, "01 02 02", &[RIGHT, LEFT], "01 00 00");
    runs(frames, "01 00 00", &[], "01 00 00");
    // a, b, f: b > f(a, a) does not hold, f(x, y) > b always.
    let frames = "0103000002 0201028081";
    runs(frames, "01", &[], "01");
    runs(frames, "02 00 00", &[RIGHT], "01");
    // a, b: b = x, a = y. From b to a, and from x, which is b, to b, which it does not exceed.
    runs("01020000 020180 020081", "01", &[LEFT], "00");
}

#[test]
fn the_lowest_constant_is_another_symbol() {
    // f, a, g: g(x, y) = f(z).
    // g(x, y) > f(a) by L2. f(z) > g(a, a) where z is g(a, a) or exceeds it.
    let frames = "0103010002 020280810082";
    runs(frames, "02 01 01", &[LEFT], "00 01");
    runs(frames, "00 02 01 01", &[RIGHT, LEFT], "00 01");
    runs(frames, "00 00 01", &[], "00 00 01");
    // p, f, a, q, b: q(x) = f(x, y). q(q(b)), f(q(b), a), f(f(b, a), a).
    let frames = "01050102000100 020380018081";
    runs(frames, "03 03 04", &[LEFT, [0, 0, 1]], "01 01 04 02 02");
    runs(frames, "00 03 04", &[[0, 0, 1]], "00 01 04 02");
    // f, q, and fourteen constants: q(x) = f(x, y).
    let frames = format!("01100201{} 020180008081", "00".repeat(14));
    runs(&frames, "01 0f", &[LEFT], "00 0f 02");
    // Sixteen symbols, of which only the last is a constant: q(x) = f(y, z).
    let frames = format!("01100201{}00 020180008182", "01".repeat(13));
    runs(&frames, "01 01 0f", &[LEFT], "00 0f 0f");
}

#[test]
fn a_variable_of_the_source_keeps_its_value() {
    // a, b, f, g: g(x, x) = f(x, y). A repeated variable needs identical terms, and g(a, b) has no step.
    let frames = "010400000202 02038080028081";
    runs(frames, "03 01 01", &[LEFT], "02 01 00");
    runs(frames, "03 00 01", &[], "03 00 01");
    // g(x, y) = f(z, y): the third variable is extra, the second is not.
    runs("010400000202 02038081028281", "03 01 01", &[LEFT], "02 00 01");
    // a, b, not, and: x and not x = y and not y.
    let frames = "010400000102 020380028003810281";
    runs(frames, "03 01 02 01", &[LEFT], "03 00 02 00");
    runs(frames, "03 00 02 00", &[], "03 00 02 00");
    runs(frames, "03 01 02 00", &[], "03 01 02 00");
}

#[test]
fn a_result_too_large() {
    // a, k, p, h: h(x) = p(x, y, z, u), three nodes more. From 157 nodes to 160; from 158 none is taken.
    let frames = "010400010401 0203800280818283";
    let before = |nodes: usize| "01".repeat(nodes - 2) + "03 00";
    let after = "01".repeat(155) + "02 00 00 00 00";
    runs(frames, &before(157), &[[0, 0, 155]], &after);
    runs_up_to(99, frames, &before(158), &[], 2, &before(158));
    // The limit comes first.
    runs_up_to(0, frames, &before(158), &[], 1, &before(158));
    // 41 nodes and 39 steps, from the top downward: 158 nodes.
    let steps: Vec<[u8; 3]> = (0..39).map(|position| [0, 0, position]).collect();
    let after = "02".repeat(39) + "03 00" + &"00 00 00".repeat(39);
    runs_up_to(99, frames, &("03".repeat(40) + "00"), &steps, 2, &after);
}

#[test]
fn the_last_of_twelve_variables() {
    // a, b, f, h: h(80) = f(80, 8b), and h(8b) = f(80, 8b).
    runs("010400000201 02038002808b", "03 01", &[LEFT], "02 01 00");
    runs("010400000201 02038b02808b", "03 01", &[LEFT], "02 00 01");
    // a, b, f: f(a, 80) = f(8b, a), as above.
    runs("0103000002 02020080028b00", "02 00 01", &[LEFT], "02 00 00");
    // a, b, q, p, h: h(80) = p(q(80, .. 83), q(84, .. 87), q(88, .. 8b)).
    let twelve = "03 02 80 81 82 83 02 84 85 86 87 02 88 89 8a 8b".replace(' ', "");
    let frames = format!("01050000040301 020480{twelve}");
    runs(&frames, "04 01", &[LEFT], "03 02 01 00 00 00 02 00 00 00 00 02 00 00 00 00");
    // h(b) in place of h(80): all twelve.
    let frames = format!("01050000040301 020401{twelve}");
    runs(&frames, "04 01", &[LEFT], "03 02 00 00 00 00 02 00 00 00 00 02 00 00 00 00");
    runs(&frames, "04 00", &[], "04 00");
}

/// A judgement has a value for every variable.
#[test]
fn a_judgement_keeps_its_values() {
    // a, b, f, h: h(x) = f(x, y) at (b, a), (b, h(b)) and (b, h(a)).
    // The line of direction 00 is h(x) > y.
    let frames = "010400000201 020380028081 0400000100 040000010301 040000010300 03090301";
    let tables = "110000010004 120001038081 110001020004 120001810380 120181038000";
    let tasks = "150101 150000 150101 14000000 130001020100 1f0001";
    assert_eq!(listing(&sheet(frames)), format!("{tables} {tasks}"));
}
