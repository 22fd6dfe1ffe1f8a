//! The examples of source document 002.

mod common;

use common::naive::{self, Order, ground_terms};
use common::{Buffers, bytes, fields, sheet};
use reference::limits::*;
use reference::random::Random;

/// What the printed solution says of values: `gt` is the ordering.
type Solution = fn(gt: &mut dyn FnMut(&[u8], &[u8]) -> bool, values: &[Vec<u8>]) -> bool;

/// Solves left > right, and judges random values of the variables: a line must hold exactly where the printed
/// solution says so.
fn agrees(arities: &str, left: &str, right: &str, variables: usize, solution: Solution) {
    let arities = bytes(arities);
    let symbols: String = arities.iter().map(|arity| format!("{arity:02x}")).collect();
    let header = format!("01{:02x}{symbols} 02{left}{right}", arities.len());
    let terms = ground_terms(&arities, 5);
    let mut random = Random::new(2);
    let mut order = Order::default();
    for _ in 0..60 {
        let mut frames = header.clone();
        let mut expected = vec![];
        for _ in 0..32 {
            let mut values: Vec<Vec<u8>> = (0..variables).map(|_| terms[random.below(terms.len())].clone()).collect();
            // Equal values are the boundary of most solutions.
            if variables > 1 && random.chance(30) {
                values[random.below(2)] = values[variables - 1].clone();
            }
            let digits: String = values.concat().iter().map(|byte| format!("{byte:02x}")).collect();
            frames += &format!(" 040000{digits}");
            let holds = solution(&mut |s, t| order.exceeds(&arities, s, t), &values);
            expected.push(holds as u64);
        }
        let sheet = sheet(&frames);
        for (task, &holds) in expected.iter().enumerate() {
            let code = Buffers::new().judge(&sheet, task as u64);
            assert_eq!(fields(code)[0], holds, "{left} > {right}, {frames}, task {task}");
        }
    }
}

fn always(_: &mut dyn FnMut(&[u8], &[u8]) -> bool, _: &[Vec<u8>]) -> bool {
    true
}

// Variables: x 80, y 81, z 82, w 83. Unless told otherwise the symbols are a, b, product.
const PRODUCT: &str = "00 00 02";

#[test]
fn commutativity_example_1() {
    agrees(PRODUCT, "028081", "028180", 2, |gt, v| gt(&v[0], &v[1]));
}

#[test]
fn reductions_of_associativity_and_commutativity() {
    agrees(PRODUCT, "0202808182", "0280028182", 3, always);
    agrees(PRODUCT, "0280028182", "0281028082", 3, |gt, v| gt(&v[0], &v[1]));
}

#[test]
fn inequality_of_the_introduction() {
    agrees(PRODUCT, "0280028182", "028281", 3, |gt, v| {
        gt(&v[0], &v[2]) || v[0] == v[2] || gt(&v[1], &v[2]) || v[1] == v[2]
    });
}

#[test]
fn semigroup_example() {
    agrees(PRODUCT, "0280028080", "028080", 1, always);
    agrees(PRODUCT, "0280028081", "0281028080", 2, |gt, v| gt(&v[0], &v[1]));
    agrees(PRODUCT, "0281028080", "0280028081", 2, |gt, v| gt(&v[1], &v[0]));
    agrees(PRODUCT, "02800280028081", "0280028081", 2, always);
    agrees(PRODUCT, "02800281028080", "0281028080", 2, always);
    agrees(PRODUCT, "02800280028182", "02810280028082", 3, |gt, v| gt(&v[0], &v[1]));
    agrees(PRODUCT, "02810280028082", "02800280028182", 3, |gt, v| gt(&v[1], &v[0]));
}

#[test]
fn example_2() {
    // Symbols: b, product, a, so that a is above the product.
    agrees("00 02 00", "018081", "018102", 2, |gt, v| {
        let a: &[u8] = &[2];
        gt(&v[0], &v[1]) && gt(&v[0], a) || v[0] == a && gt(a, &v[1]) || v[0] == v[1] && gt(&v[1], a)
    });
}

#[test]
fn example_3() {
    // Symbols: a, b, product, plus.
    agrees("00 00 02 02", "0380028182", "0280038182", 3, |gt, v| gt(&v[0], &v[1]) || v[0] == v[1]);
}

#[test]
fn example_4() {
    agrees(PRODUCT, "0280028182", "0281028280", 3, |gt, v| {
        gt(&v[0], &v[1]) && gt(&v[0], &v[2]) || v[0] == v[2] && gt(&v[2], &v[1]) || v[0] == v[1] && gt(&v[1], &v[2])
    });
}

#[test]
fn example_5() {
    // (y + z) + (y + w) > x + (z + w); the sum takes the place of the product.
    agrees(PRODUCT, "02028182028183", "0280028283", 4, |gt, v| {
        let sum = [&[2], &v[1][..], &v[2]].concat();
        gt(&sum, &v[0]) || v[0] == sum && gt(&v[1], &v[2])
    });
}

#[test]
fn ground_examples() {
    // b, a, product: ab > ba, by L3.
    let first = sheet("0103000002 028080 05020100020001 05020001020100");
    assert_eq!(fields(Buffers::new().compare(&first, 0)), [2, 3, 0]);
    assert_eq!(fields(Buffers::new().compare(&first, 1)), [0, 3, 0]);
    // c, b, a, product, plus: a(b + c) against a + bc, which is greater by L2.
    let second = sheet("01050000000202 028080 0503020401000402030100 0504020301000302040100");
    assert_eq!(fields(Buffers::new().compare(&second, 0)), [0, 2, 0]);
    assert_eq!(fields(Buffers::new().compare(&second, 1)), [2, 2, 0]);
}

#[test]
fn unification_example() {
    // (xy)(xa) = (wz)y, as the second choice of h((xy)(xa)) > (wz)y, h below the product: the unifier binds x to w,
    // y to z and z to xa.
    let sheet = sheet("0103000102 0201020280810280000202838281");
    let mut buffers = Buffers::new();
    let [lines, ..] = fields(buffers.solve(&sheet, 0, 0));
    let records: Vec<&[u8]> = buffers.table.chunks(RECORD_BYTES).take(lines as usize).collect();
    let mut expected = [NONE; RECORD_BYTES];
    expected[..3].copy_from_slice(&[10, 11, 5]);
    expected[VARIABLES] = 0;
    assert!(records.contains(&&expected[..]));
}

#[test]
fn ordering_is_total_and_has_the_subterm_property() {
    let arities = [0, 1, 0, 2];
    let terms = ground_terms(&arities, 5);
    let mut order = Order::default();
    let mut padded = [0; 16];
    padded[..4].copy_from_slice(&arities);
    let mut scratch = vec![0; reference::limits::SCRATCH_BYTES];
    for s in &terms {
        for t in &terms {
            let verdict = reference::ground::compare_terms(s, t, &padded, &mut scratch) as i8;
            let (greater, less) = (order.exceeds(&arities, s, t), order.exceeds(&arities, t, s));
            assert!(!(greater && less) && (s == t) == !(greater || less));
            assert_eq!(verdict, greater as i8 - less as i8);
        }
        for argument in naive::arguments(&arities, s) {
            assert!(order.exceeds(&arities, s, argument));
        }
    }
}
