//! The clause that a comparison names: the first of L1, L2, L3 that applies to the greater and the smaller term.

mod common;

use common::naive::{self, Order, ground_terms};
use common::{Buffers, bytes, fields, listing, sheet};
use reference::generate::Signature;
use reference::ground::{Clause, Decision, compare_terms, decide_terms};
use reference::limits::*;
use reference::random::Random;
use std::collections::BTreeMap;

const L1_ALONE: [bool; 3] = [true, false, false];
const L2_ALONE: [bool; 3] = [false, true, false];
const L3_ALONE: [bool; 3] = [false, false, true];
const L1_AND_L2: [bool; 3] = [true, true, false];
const L1_AND_L3: [bool; 3] = [true, false, true];

/// Compares two terms, of which the first is greater by these clauses, in both directions: by the call, in the listing,
/// and by L1 to L3 directly. The symbols are a 00, b 01, h 02 with one argument, f 03 and g 04 with two.
fn greater(clauses: [bool; 3], greater: &str, smaller: &str) {
    let clause = clauses.iter().position(|&applies| applies).unwrap() as u64 + 1;
    let sheet = sheet(&format!("01050000010202 028080 05{greater}{smaller} 05{smaller}{greater}"));
    for (task, verdict) in [(0, 2), (1, 0)] {
        let mut buffers = Buffers::new();
        assert_eq!(fields(buffers.compare(&sheet, task)), [verdict, clause, 0], "{greater} {smaller}");
        buffers.assert_scratch_cleared();
    }
    let frames = listing(&sheet);
    assert!(frames.ends_with(&format!(" 1602{clause:02x} 1600{clause:02x} 1f0000")), "{frames}");
    let (greater, smaller) = (bytes(greater), bytes(smaller));
    assert_eq!(naive::clauses(&[0, 0, 1, 2, 2], &greater, &smaller), clauses);
    assert_eq!(naive::clauses(&[0, 0, 1, 2, 2], &smaller, &greater), [false; 3]);
}

#[test]
fn by_l1() {
    // f(a, g(a, a)) > g(a, a), its second argument; f is below g.
    greater(L1_ALONE, "0300040000", "040000");
    // h(f(b, b)) > f(b, a) by f(b, b) > f(b, a); h is below f.
    greater(L1_ALONE, "02030101", "030100");
    // f(a, f(b, a)) > f(b, a), its second argument; the first ones are a and b, so not L3.
    greater(L1_ALONE, "0300030100", "030100");
    // f(a, g(a, a)) > f(b, b) by g(a, a) > f(b, b); again not L3.
    greater(L1_ALONE, "0300040000", "030101");
}

#[test]
fn by_l2() {
    // b > a, neither has an argument.
    greater(L2_ALONE, "01", "00");
    // h(a) > b, which exceeds the argument a.
    greater(L2_ALONE, "0200", "01");
    // f(a, a) > h(b), for f(a, a) > b.
    greater(L2_ALONE, "030000", "0201");
    // g(f(a, b), f(b, a)) > f(f(b, a), f(a, b)), whose arguments are those of the former, which it exceeds itself.
    greater(L2_ALONE, "04030001030100", "03030100030001");
}

#[test]
fn by_l3() {
    // h(b) > h(a); b does not exceed h(a).
    greater(L3_ALONE, "0201", "0200");
    // f(b, a) > f(a, b), for b > a and f(b, a) > b.
    greater(L3_ALONE, "030100", "030001");
    // f(a, b) > f(a, a) by the second arguments.
    greater(L3_ALONE, "030001", "030000");
    // f(b, a) > f(a, h(a)), for b > a and f(b, a) > h(a).
    greater(L3_ALONE, "030100", "03000200");
}

#[test]
fn by_l1_though_l2_applies_too() {
    // f(a, b) > b and f(b, a) > b, an argument; f is above b.
    greater(L1_AND_L2, "030001", "01");
    greater(L1_AND_L2, "030100", "01");
    // f(b, b) > a, for b > a.
    greater(L1_AND_L2, "030101", "00");
    // g(a, f(a, b)) > f(a, b) and g(f(a, b), a) > f(a, b), an argument; g is above f.
    greater(L1_AND_L2, "0400030001", "030001");
    greater(L1_AND_L2, "0403000100", "030001");
    // g(a, g(a, a)) > f(a, b), for g(a, a) > f(a, b).
    greater(L1_AND_L2, "0400040000", "030001");
}

#[test]
fn by_l1_though_l3_applies_too() {
    // h(h(a)) > h(a), its argument; and h(a) > a.
    greater(L1_AND_L3, "020200", "0200");
    // h(f(a, a)) > h(b), for f(a, a) > h(b); and f(a, a) > b.
    greater(L1_AND_L3, "02030000", "0201");
    // f(f(a, b), a) > f(a, b), its first argument; and f(a, b) > a.
    greater(L1_AND_L3, "0303000100", "030001");
    // f(a, f(a, b)) > f(a, b), its second argument; and a = a, f(a, b) > b.
    greater(L1_AND_L3, "0300030001", "030001");
    // f(b, g(a, a)) > f(a, b), for g(a, a) > f(a, b); and b > a.
    greater(L1_AND_L3, "0301040000", "030001");
}

#[test]
fn equal_terms_have_no_clause() {
    for term in ["00", "01", "0200", "030001", "040301000202030001"] {
        let sheet = sheet(&format!("01050000010202 028080 05{term}{term}"));
        assert_eq!(Buffers::new().compare(&sheet, 0), 0x0000_0100);
        assert!(listing(&sheet).ends_with(" 160100 1f0000"));
    }
}

#[test]
fn numbers_of_a_decision() {
    assert_eq!(Decision::Smaller(Clause::L1).numbers(), [0, 1]);
    assert_eq!(Decision::Smaller(Clause::L3).numbers(), [0, 3]);
    assert_eq!(Decision::Equal.numbers(), [1, 0]);
    assert_eq!(Decision::Greater(Clause::L2).numbers(), [2, 2]);
}

/// Compares two terms and checks that verdict and clause are as expected, and that the verdict alone agrees.
fn decides(arities: &[u8], s: &[u8], t: &[u8], expected: [u64; 2], scratch: &mut [u8]) {
    let mut padded = [0; SYMBOLS];
    padded[..arities.len()].copy_from_slice(arities);
    let numbers = decide_terms(s, t, &padded, scratch).numbers();
    assert_eq!(numbers.map(u64::from), expected, "{arities:?} {s:?} {t:?}");
    let order = compare_terms(s, t, &padded, scratch);
    assert_eq!(order as i64 + 1, expected[0] as i64, "{arities:?} {s:?} {t:?}");
}

/// How often each verdict was met with each set of clauses.
type Met = BTreeMap<(u64, [bool; 3]), usize>;

/// Compares two terms with L1 to L3 taken directly.
fn agrees(arities: &[u8], s: &[u8], t: &[u8], met: &mut Met, scratch: &mut [u8]) {
    let expected = naive::decision(s, t, |s, t| naive::clauses(arities, s, t));
    decides(arities, s, t, expected, scratch);
    let (greater, smaller) = if expected[0] == 0 { (t, s) } else { (s, t) };
    *met.entry((expected[0], naive::clauses(arities, greater, smaller))).or_default() += 1;
}

/// That each set of clauses was met often enough with greater and smaller, and equal terms too.
fn assert_met(met: &Met, least: usize) {
    println!("{met:?}");
    for clauses in [L1_ALONE, L2_ALONE, L3_ALONE, L1_AND_L2, L1_AND_L3] {
        assert!(met[&(2, clauses)] >= least && met[&(0, clauses)] >= least);
    }
    assert!(met[&(1, [false; 3])] >= least);
    assert_eq!(met.len(), 11);
}

#[test]
fn all_pairs_of_small_terms() {
    let mut met = Met::new();
    let mut scratch = vec![0; SCRATCH_BYTES];
    for arities in [&[0, 0, 1, 2][..], &[0, 1, 0, 2], &[2, 0, 1, 0], &[1, 0, 2], &[0, 2, 2], &[0, 0, 3], &[3, 0, 1]] {
        let terms = ground_terms(arities, 5);
        for s in &terms {
            for t in &terms {
                agrees(arities, s, t, &mut met, &mut scratch);
            }
        }
    }
    assert_met(&met, 100);
}

/// Two related ground terms, the one of at most about `size` nodes, in random order: equal, or the one with the other
/// or something like it in place of a subterm, or with other arguments, or unrelated.
fn related_terms(random: &mut Random, signature: &Signature, size: usize) -> [Vec<u8>; 2] {
    let term = |random: &mut Random, most: usize| {
        let size = random.from_to(1, most);
        signature.term(random, size, 0)
    };
    let with_part = |random: &mut Random, whole: &[u8], part: &[u8]| {
        let start = random.below(whole.len());
        [&whole[..start], part, &whole[signature.term_end(whole, start)..]].concat()
    };
    let first = term(random, size);
    let part = term(random, 3);
    let second = match random.below(8) {
        0 => first.clone(),
        1 | 2 => with_part(random, &first, &part),
        3 => term(random, size),
        // The first within some term, unchanged or not.
        4 | 5 => {
            let whole = term(random, size);
            with_part(random, &whole, &first)
        }
        _ => {
            let changed = with_part(random, &first, &part);
            let whole = term(random, 4);
            with_part(random, &whole, &changed)
        }
    };
    if random.chance(50) { [first, second] } else { [second, first] }
}

#[test]
fn random_terms() {
    let mut met = Met::new();
    let mut scratch = vec![0; SCRATCH_BYTES];
    let mut random = Random::new(8);
    for _ in 0..400 {
        let signature = Signature::random(&mut random);
        for _ in 0..50 {
            let [s, t] = related_terms(&mut random, &signature, 10);
            agrees(&signature.arities, &s, &t, &mut met, &mut scratch);
        }
    }
    assert_met(&met, 100);
}

/// The same for terms too large to be taken without remembering verdicts.
#[test]
fn random_large_terms() {
    let mut scratch = vec![0; SCRATCH_BYTES];
    let mut random = Random::new(9);
    let mut met = Met::new();
    for _ in 0..3_000 {
        let signature = Signature::random(&mut random);
        let [s, t] = related_terms(&mut random, &signature, 76);
        if s.len() + t.len() > TASK_NODES {
            continue;
        }
        let mut order = Order::default();
        let expected = order.decision(&signature.arities, &s, &t);
        decides(&signature.arities, &s, &t, expected, &mut scratch);
        let (greater, smaller) = if expected[0] == 0 { (&t, &s) } else { (&s, &t) };
        *met.entry((expected[0], order.clauses(&signature.arities, greater, smaller))).or_default() += 1;
    }
    assert_met(&met, 10);
}
