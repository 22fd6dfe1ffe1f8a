//! The examples of source document 002, through the calls, the program and the second implementation alike: where a printed solution
//! says so, and only there, a line holds. What the solution says at ground values is found by the compare call.

use bench::both::{self, bytes, sheet};
use reference::limits::{NONE, RECORD_BYTES, VARIABLES};
use reference::random::Random;
use std::collections::HashMap;

/// The symbols of an example, with verdicts that were asked for.
struct Symbols {
    arities: Vec<u8>,
    exceeds: HashMap<(Vec<u8>, Vec<u8>), bool>,
}

fn digits(bytes: &[u8]) -> String {
    bytes.iter().map(|byte| format!("{byte:02x}")).collect()
}

impl Symbols {
    fn frame(&self) -> String {
        format!("01{:02x}{}", self.arities.len(), digits(&self.arities))
    }

    /// Whether a ground term exceeds another, by a comparison.
    fn gt(&mut self, s: &[u8], t: &[u8]) -> bool {
        let frame = self.frame();
        *self.exceeds.entry((s.to_vec(), t.to_vec())).or_insert_with(|| {
            let sheet = sheet(&format!("{frame} 028080 05{}{}", digits(s), digits(t)));
            both::compare(&sheet, 0).fields()[0] == 2
        })
    }

    /// A random ground term of at most `size` nodes.
    fn term(&self, random: &mut Random, size: usize) -> Vec<u8> {
        let fitting: Vec<u8> =
            (0..self.arities.len() as u8).filter(|&f| usize::from(self.arities[f as usize]) < size).collect();
        let symbol = random.pick(&fitting);
        let arity = usize::from(self.arities[symbol as usize]);
        let mut term = vec![symbol];
        let mut left = size - 1;
        for others in (0..arity).rev() {
            let argument = self.term(random, left - others);
            left -= argument.len();
            term.extend(argument);
        }
        term
    }
}

/// What the printed solution says of values.
type Solution = fn(symbols: &mut Symbols, values: &[Vec<u8>]) -> bool;

/// Solves left > right and judges random values of its variables, 32 a sheet, on sheets whose listings agree too.
fn agrees(arities: &str, left: &str, right: &str, variables: usize, solution: Solution) {
    let mut symbols = Symbols { arities: bytes(arities), exceeds: HashMap::new() };
    let mut random = Random::new(2);
    for _ in 0..40 {
        let mut frames = format!("{} 02{left}{right}", symbols.frame());
        let mut expected = vec![];
        for _ in 0..32 {
            let mut values: Vec<Vec<u8>> = (0..variables).map(|_| symbols.term(&mut random, 5)).collect();
            // Equal values are the boundary of most solutions.
            if variables > 1 && random.chance(30) {
                values[random.below(2)] = values[variables - 1].clone();
            }
            frames += &format!(" 040000{}", digits(&values.concat()));
            expected.push(u64::from(solution(&mut symbols, &values)));
        }
        let sheet = sheet(&frames);
        for (task, &holds) in expected.iter().enumerate() {
            assert_eq!(both::judge(&sheet, task as u64).fields()[0], holds, "{left} > {right}, {frames}, task {task}");
        }
        both::everything(&sheet);
    }
}

fn always(_: &mut Symbols, _: &[Vec<u8>]) -> bool {
    true
}

// Variables: x 80, y 81, z 82, w 83. Unless told otherwise the symbols are a, b, product.
const PRODUCT: &str = "00 00 02";

#[test]
fn example_1() {
    agrees(PRODUCT, "028081", "028180", 2, |s, v| s.gt(&v[0], &v[1]));
}

#[test]
fn example_2() {
    // Symbols: b, product, a, so that a is above the product.
    agrees("00 02 00", "018081", "018102", 2, |s, v| {
        let a: &[u8] = &[2];
        s.gt(&v[0], &v[1]) && s.gt(&v[0], a) || v[0] == a && s.gt(a, &v[1]) || v[0] == v[1] && s.gt(&v[1], a)
    });
}

#[test]
fn example_3() {
    // Symbols: a, b, product, plus.
    agrees("00 00 02 02", "0380028182", "0280038182", 3, |s, v| s.gt(&v[0], &v[1]) || v[0] == v[1]);
}

#[test]
fn example_4() {
    agrees(PRODUCT, "0280028182", "0281028280", 3, |s, v| {
        let (x, y, z) = (&v[0], &v[1], &v[2]);
        s.gt(x, y) && s.gt(x, z) || x == z && s.gt(z, y) || x == y && s.gt(y, z)
    });
}

#[test]
fn example_5() {
    // (y + z) + (y + w) > x + (z + w); the sum takes the place of the product.
    agrees(PRODUCT, "02028182028183", "0280028283", 4, |s, v| {
        let sum = [&[2], &v[1][..], &v[2]].concat();
        s.gt(&sum, &v[0]) || v[0] == sum && s.gt(&v[1], &v[2])
    });
}

#[test]
fn inequality_of_the_introduction() {
    agrees(PRODUCT, "0280028182", "028281", 3, |s, v| {
        s.gt(&v[0], &v[2]) || v[0] == v[2] || s.gt(&v[1], &v[2]) || v[1] == v[2]
    });
}

#[test]
fn associativity_and_commutativity() {
    agrees(PRODUCT, "0202808182", "0280028182", 3, always);
    agrees(PRODUCT, "0280028182", "0281028082", 3, |s, v| s.gt(&v[0], &v[1]));
}

#[test]
fn semigroup() {
    agrees(PRODUCT, "0280028080", "028080", 1, always);
    agrees(PRODUCT, "0280028081", "0281028080", 2, |s, v| s.gt(&v[0], &v[1]));
    agrees(PRODUCT, "0281028080", "0280028081", 2, |s, v| s.gt(&v[1], &v[0]));
    agrees(PRODUCT, "02800280028081", "0280028081", 2, always);
    agrees(PRODUCT, "02800281028080", "0281028080", 2, always);
    agrees(PRODUCT, "02800280028182", "02810280028082", 3, |s, v| s.gt(&v[0], &v[1]));
    agrees(PRODUCT, "02810280028082", "02800280028182", 3, |s, v| s.gt(&v[1], &v[0]));
}

#[test]
fn ground_examples() {
    // b, a, product: ab > ba.
    let first = sheet("0103000002 028080 05020100020001 05020001020100");
    assert_eq!([0, 1].map(|task| both::compare(&first, task).fields()[0]), [2, 0]);
    both::everything(&first);
    // c, b, a, product, plus: a(b + c) against a + bc.
    let second = sheet("01050000000202 028080 0503020401000402030100 0504020301000302040100");
    assert_eq!([0, 1].map(|task| both::compare(&second, task).fields()[0]), [0, 2]);
    both::everything(&second);
}

/// (xy)(xa) = (wz)y, as the second choice of h((xy)(xa)) > (wz)y, h below the product: the unifier binds x to w, y to z and z to xa.
#[test]
fn unification() {
    let sheet = sheet("0103000102 0201020280810280000202838281");
    let solved = both::solve(&sheet, 0, 0);
    let records: Vec<&[u8]> = solved.buffers.table.chunks(RECORD_BYTES).take(solved.fields()[0] as usize).collect();
    let mut expected = [NONE; RECORD_BYTES];
    expected[..3].copy_from_slice(&[10, 11, 5]);
    expected[VARIABLES] = 0;
    assert!(records.contains(&&expected[..]));
    both::everything(&sheet);
}
