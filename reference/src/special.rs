//! Named sheets at the limits: long walks, full tables and lines, empty lines, longest texts, hard comparisons,
//! comparisons by each clause, long runs, twelve variables, variables that a source lacks.

use crate::generate::{LONG_LINES, Sides, long_line, text};
use crate::limits::{FIRST_VARIABLE, LAST_VARIABLE, SHEET_BYTES, VARIABLES};

/// A named sheet.
pub type Named = (&'static str, Vec<u8>);

/// Two terms.
type Pair = (Vec<u8>, Vec<u8>);

/// The special sheets whose first equation makes a walk worth timing.
pub const WALKS: [&str; 24] = [
    "P1",
    "median law, and below or",
    "median law, or below and",
    "reversal of five",
    "distribution of if-then-else",
    "exclusive or, and < or < not",
    "exclusive or, and < not < or",
    "exclusive or, or < not < and",
    "10,000 turns, 8 lines",
    "10,000 turns, no line",
    "10,001 turns",
    "255 lines at the end",
    "255 lines on the way",
    "256 lines",
    "40 elements",
    "41 elements",
    "always, then 10,001 turns",
    "always, then 41 elements",
    "always, then 256 lines",
    "four places, ten variables",
    "twelve bindings in one line",
    "doubled ten times",
    "doubled twelve times, left",
    "doubled twelve times, right",
];

/// All special sheets.
pub fn special() -> Vec<Named> {
    let mut sheets = walks();
    sheets.extend(empty_lines());
    sheets.extend(comparisons());
    sheets.extend(clauses());
    sheets.extend(runs());
    sheets.extend(texts());
    sheets.extend(twelve_variables());
    sheets.extend(extra_variables());
    sheets
}

const X: u8 = FIRST_VARIABLE;
const Y: u8 = X + 1;
const Z: u8 = X + 2;
const U: u8 = X + 3;
const V: u8 = X + 4;

fn symbols(arities: &[u8]) -> Vec<u8> {
    [&[1, arities.len() as u8], arities].concat()
}

fn equation(left: &[u8], right: &[u8]) -> Vec<u8> {
    [&[2], left, right].concat()
}

fn digits(frame: &str) -> Vec<u8> {
    (0..frame.len() / 2).map(|i| u8::from_str_radix(&frame[2 * i..2 * i + 2], 16).unwrap()).collect()
}

/// A sheet given by the digits of its frames.
fn from_digits(frames: &[&str]) -> Vec<u8> {
    text(&frames.iter().map(|frame| digits(frame)).collect::<Vec<_>>())
}

/// An application of a binary symbol.
fn binary(symbol: u8, left: &[u8], right: &[u8]) -> Vec<u8> {
    [&[symbol], left, right].concat()
}

/// (x and y) or ((y and z) or (z and x)) = (x or y) and ((y or z) and (z or x)).
pub fn median_law(and: u8, or: u8) -> Sides {
    let side = |inner: u8, outer: u8| {
        let [first, second, third] = [[inner, X, Y], [inner, Y, Z], [inner, Z, X]];
        binary(outer, &first, &binary(outer, &second, &third))
    };
    (side(and, or), side(or, and))
}

/// x(y(z(uv))) = v(u(z(yx))).
pub fn reversal(product: u8) -> Sides {
    let nested = |[a, b, c, d, e]: [u8; 5]| vec![product, a, product, b, product, c, product, d, e];
    (nested([X, Y, Z, U, V]), nested([V, U, Z, Y, X]))
}

/// if(if(x, y, z), u, v) = if(x, if(y, u, v), if(z, u, v)).
pub fn distribution(choice: u8) -> Sides {
    let i = choice;
    (vec![i, i, X, Y, Z, U, V], vec![i, X, i, Y, U, V, i, Z, U, V])
}

/// Associativity of exclusive or, written with and, or, not.
pub fn exclusive_or(and: u8, or: u8, not: u8) -> Sides {
    let xor = |left: &[u8], right: &[u8]| {
        let negated = |term: &[u8]| [&[not], term].concat();
        binary(or, &binary(and, left, &negated(right)), &binary(and, &negated(left), right))
    };
    (xor(&[X], &xor(&[Y], &[Z])), xor(&xor(&[X], &[Y]), &[Z]))
}

/// A sheet with one equation.
fn one(arities: &[u8], sides: Sides, tasks: &[&[u8]]) -> Vec<u8> {
    let mut frames = vec![symbols(arities), equation(&sides.0, &sides.1)];
    frames.extend(tasks.iter().map(|task| task.to_vec()));
    text(&frames)
}

/// Equations with long walks, large tables and long lines.
fn walks() -> Vec<Named> {
    let boolean: [&[u8]; 3] =
        [&[4, 0, 0, 0, 1, 0, 0, 0], &[3, 255, 2, 1, 0, 0, 2, 1, 0, 0, 1, 0, 0], &[5, 2, 0, 0, 1, 0, 0]];
    vec![
        ("median law, and below or", one(&[0, 2, 2], median_law(1, 2), &boolean)),
        ("median law, or below and", one(&[0, 2, 2], median_law(2, 1), &boolean)),
        (
            "reversal of five",
            one(
                &[0, 0, 2],
                reversal(2),
                &[
                    &[4, 0, 0, 1, 0, 0, 0, 0],
                    &[4, 0, 1, 0, 1, 0, 1, 1],
                    &[4, 0, 0, 0, 1, 0, 1, 0],
                    &[3, 9, 2, 1, 2, 0, 2, 1, 2, 0, 0],
                ],
            ),
        ),
        (
            "distribution of if-then-else",
            one(
                &[0, 0, 3],
                distribution(2),
                &[
                    &[4, 0, 0, 0, 1, 0, 1, 0],
                    &[3, 255, 2, 2, 2, 0, 1, 0, 1, 0, 1, 0],
                    &[5, 2, 2, 0, 1, 0, 1, 0, 2, 0, 2, 1, 1, 0, 2, 0, 1, 0],
                ],
            ),
        ),
        ("exclusive or, and < or < not", one(&[0, 2, 2, 1], exclusive_or(1, 2, 3), &[])),
        ("exclusive or, and < not < or", one(&[0, 2, 1, 2], exclusive_or(1, 3, 2), &[])),
        ("exclusive or, or < not < and", one(&[0, 2, 1, 2], exclusive_or(3, 1, 2), &[])),
        (
            "10,000 turns, 8 lines",
            from_digits(&[
                "010400010202",
                "02030282000101030100030182010202828003018181038101028280",
                "0400010001000100",
                "03ff030100020000",
            ]),
        ),
        (
            "10,000 turns, no line",
            from_digits(&["0103000201", "020202010280800101018000020280020102010280800102020280018080"]),
        ),
        ("10,001 turns", from_digits(&["0103000201", "0202020101028000810201010202028001008002020281"])),
        (
            "10,001 turns after a short equation",
            from_digits(&[
                "0103000201",
                "02018081018180",
                "0202020101028000810201010202028001008002020281",
                "0501000000",
            ]),
        ),
        (
            "255 lines at the end",
            from_digits(&["0103000102", "020201820201828002010180010181", "040000000100010100", "040001000100020000"]),
        ),
        (
            "255 lines on the way",
            from_digits(&["0103000002", "020202818002810102020181020080", "0400000100", "0400010001"]),
        ),
        (
            "256 lines",
            from_digits(&["0103000203", "0201800101818000010102818101810001018181010080018180", "0400000000"]),
        ),
        (
            "40 elements",
            one(
                &LONG_LINES,
                long_line(false),
                &[&[4, 0, 0, 2, 0, 0, 0, 0, 2, 2, 0, 0, 0, 0, 2, 0, 0, 0, 0, 0, 0, 0], &[4, 0, 1, 0, 4, 0]],
            ),
        ),
        ("41 elements", one(&LONG_LINES, long_line(true), &[&[4, 0, 0, 0, 0, 0]])),
    ]
}

/// Equations with an empty line in the table of direction 00, or with something like it.
fn empty_lines() -> Vec<Named> {
    let mut sheets = empty_lines_at_the_limits();
    sheets.extend(ways_to_an_empty_line());
    sheets.extend(no_empty_line());
    sheets
}

/// The source with the target beside it, under some symbol. The target is equal to itself, which makes an empty line
/// before the walk comes to the source.
fn beside_target(symbol: u8, (source, target): Sides) -> Sides {
    (binary(symbol, &target, &source), target)
}

/// An empty line before a limit is passed, just at the limit, and in the turn that passes it.
fn empty_lines_at_the_limits() -> Vec<Named> {
    let many_lines = (digits("010102818101810001018181010080018180"), digits("01800101818000"));
    vec![
        (
            "always, then 10,001 turns",
            from_digits(&["0103000201", "02010202010201028000020201018000800202800201020002020280", "04000000"]),
        ),
        ("always, then 41 elements", one(&LONG_LINES, beside_target(1, long_line(true)), &[&[4, 0, 0, 0, 0, 0]])),
        ("always, then 256 lines", one(&[0, 2, 3], beside_target(1, many_lines), &[&[4, 0, 0, 0, 0]])),
        (
            "always in turn 10,000, the last",
            from_digits(&[
                "0103000201",
                "0201010102020101000000800101000102020281808002010180800180800201018080018080",
            ]),
        ),
        (
            "always in turn 10,000, then a turn too many",
            from_digits(&[
                "0103000201",
                "020101010180020002020281010202010100000080010201018080018080800201018080018080",
            ]),
        ),
        (
            "always too late, in turn 10,001",
            from_digits(&["0103000201", "020101010202010100000080010201800202818102010180800180800201018080018080"]),
        ),
        ("always among 255 lines", from_digits(&["010400000202", "020302828103028180000202000000"])),
        ("always too late, among 256 lines", from_digits(&["0103000203", "02010181800180000100010000"])),
    ]
}

/// Each way in which a turn can make an empty line.
fn ways_to_an_empty_line() -> Vec<Named> {
    // A constant c between a symbol p below it and symbols f and g above it.
    let (p, c, f, g) = (0, 1, 2, 3);
    let around_c = [2, 0, 1, 2];
    vec![
        // g(x, y) > c: the last choice has no element, and the first one is still to be treated.
        ("always in the first turn", one(&around_c, (vec![g, X, Y], vec![c]), &[&[4, 0, 0, c, c]])),
        // p(f(x), y) > c: f(x) > c makes the empty line between x = c and f(x) = c.
        ("always in the middle of the table", one(&around_c, (vec![p, f, X, Y], vec![c]), &[&[4, 0, 0, c, c]])),
        // p(f(x), y) > f(x): by f(x) = f(x), which binds nothing.
        ("always by an equality", one(&around_c, (vec![p, f, X, Y], vec![f, X]), &[&[4, 0, 0, c, c]])),
        // g(x, y) > p(x, y): in the last choice g(x, y) > x and g(x, y) > y are deleted.
        ("always by two deletions", one(&around_c, (vec![g, X, Y], vec![p, X, Y]), &[&[4, 0, 0, c, c]])),
        // g(x, c) > f(d), where d is below c: x is bound to f(d) before g(x, c) > d makes the empty line.
        ("a binding first, then always", one(&[0, 0, 1, 2], (vec![g, X, c], vec![f, 0]), &[&[4, 0, 0, c]])),
    ]
}

/// Lines that have no element, or would have none, but are not empty.
fn no_empty_line() -> Vec<Named> {
    vec![
        // f(x, y) > f(y, g(y)), g above f: in x > y, x = g(y) the binding lets the other element be deleted.
        ("no element but a binding", from_digits(&["0103000201", "0201808101810281", "0400000000"])),
        // g(x) > a, a above g: x > a, or x bound to a. One of them holds at each value, and no line at all values.
        ("true everywhere without an empty line", from_digits(&["01020100", "02008001", "04000001", "0400000001"])),
        // g(a) > b, b above a above g: nothing is left of a = b.
        ("a false equality alone in its line", from_digits(&["0103010000", "02000102"])),
    ]
}

/// Pairs of terms of together at most 160 nodes: hard to decide, or hard to ask about L1 where L2 or L3 is easy.
///
/// They are no more than 16, so that one sheet can compare them all in both directions.
pub fn hard_pairs() -> Vec<(&'static str, Vec<u8>, Vec<u8>)> {
    let mut pairs = hard_verdicts();
    pairs.extend(hard_clauses());
    pairs
}

fn hard_verdicts() -> Vec<(&'static str, Vec<u8>, Vec<u8>)> {
    let right_comb = [&[H], &right_comb(39)[..]].concat();
    let left_comb = [&[H], &left_comb(39)[..]].concat();
    let mut left_comb_changed_first = left_comb.clone();
    left_comb_changed_first[40] = B;
    let tree = full_tree(&[F], 6);
    let mut tree_changed_first = tree.clone();
    tree_changed_first[5] = B;
    vec![
        ("two towers of 80", tower(80), tower(80)),
        ("two towers of 1 and 159", tower(1), tower(159)),
        ("two towers of 79 and 81", tower(79), tower(81)),
        ("two right combs of 80, last leaf differs", right_comb.clone(), last_changed(&right_comb)),
        ("two left combs of 80, last leaf differs", left_comb.clone(), last_changed(&left_comb)),
        ("two left combs of 80, first leaf differs", left_comb.clone(), left_comb_changed_first),
        ("two equal full trees of 63", tree.clone(), tree.clone()),
        ("two full trees of 63, last leaf differs", tree.clone(), last_changed(&tree)),
        ("two full trees of 63, first leaf differs", tree, tree_changed_first),
        ("two full trees of 63, symbols alternate", full_tree(&[F, G], 6), full_tree(&[G, F], 6)),
        ("a full tree and a comb", full_tree(&[F], 6), right_comb),
    ]
}

/// Pairs of a greater and a smaller term. The last three are finds of a search: there L1 takes ten to twenty times as
/// many pairs of positions as the verdict alone.
fn hard_clauses() -> Vec<(&'static str, Vec<u8>, Vec<u8>)> {
    let comb = right_comb(38);
    vec![
        ("L3 behind equal arguments of 77", binary(F, &comb, &[B]), binary(F, &comb, &[A])),
        ("L1 by an equal argument of 77, besides L2", binary(G, &[A], &comb), comb),
        (
            "L2, but L1 is long to refute",
            digits(
                "0404040001020404000102040400010304040101040400010404000000040400010104040000030204040101040401010404\
                 00010000",
            ),
            digits(
                "0203010400030104020203020203020203030303020102010303030002000201020203010002020002020303020203020202\
                 0302010002030303030003020002020200020001030302010300000003000103020000030302020002010202020201020302\
                 010402010101",
            ),
        ),
        (
            "L3, but L1 is long to refute",
            digits(
                "0404040304010004010004040100010002040304040001040304000004010104040100000404010100040404010100040404\
                 01000101",
            ),
            digits(
                "0404030303030302020203020200030003010200020202020201020303030301000301010203010200030300010201020203\
                 0303030203020000030203010002010302020202030202030102000103010003020201020102020303000001030203000104\
                 020000010100",
            ),
        ),
        (
            "L1 long to confirm, besides L2",
            digits(
                "0303030401020004020102010400030203020202030300020100030302040003020302010202030303000102030102020000\
                 030301020202010203010200030102010302020303020300020003000203020002020002010204030101000000",
            ),
            digits(
                "0203030304010102030303040101040101040101030401010304010200040101030401000402010201020303030401010401\
                 010401000304010003040100040101",
            ),
        ),
    ]
}

/// Symbols of the comparisons: two constants, a unary and two binary ones.
const COMPARED: [u8; 5] = [0, 0, 1, 2, 2];
const A: u8 = 0;
const B: u8 = 1;
const H: u8 = 2;
const F: u8 = 3;
const G: u8 = 4;

fn tower(nodes: usize) -> Vec<u8> {
    let mut tower = vec![H; nodes];
    tower[nodes - 1] = A;
    tower
}

fn right_comb(height: usize) -> Vec<u8> {
    [&[F, A].repeat(height)[..], &[A]].concat()
}

fn left_comb(height: usize) -> Vec<u8> {
    [vec![F; height], vec![A; height + 1]].concat()
}

/// The term with another constant for its last leaf.
fn last_changed(term: &[u8]) -> Vec<u8> {
    let mut term = term.to_vec();
    *term.last_mut().unwrap() = B;
    term
}

/// A full binary tree of so many levels; the symbols of the levels are taken in turn.
fn full_tree(symbols: &[u8], levels: usize) -> Vec<u8> {
    fn append(symbols: &[u8], level: usize, levels: usize, term: &mut Vec<u8>) {
        if level + 1 == levels {
            term.push(A);
        } else {
            term.push(symbols[level % symbols.len()]);
            append(symbols, level + 1, levels, term);
            append(symbols, level + 1, levels, term);
        }
    }
    let mut term = Vec::new();
    append(symbols, 0, levels, &mut term);
    term
}

/// The arities under which `hard_pairs` are terms.
pub fn compared_arities() -> &'static [u8] {
    &COMPARED
}

/// Two terms compared in both directions.
fn compared(left: &[u8], right: &[u8]) -> [Vec<u8>; 2] {
    [[&[5], left, right].concat(), [&[5], right, left].concat()]
}

fn comparisons() -> Vec<Named> {
    let mut all = vec![symbols(&COMPARED), equation(&[F, X, Y], &[F, Y, X])];
    let mut sheets = Vec::new();
    for (name, left, right) in hard_pairs() {
        let both = compared(&left, &right);
        let frames = [&all[..2], &both].concat();
        all.extend(both);
        sheets.push((name, text(&frames)));
    }
    sheets.push(("all hard comparisons", text(&all)));
    sheets
}

/// Symbols of the comparisons by each clause: those of the other comparisons, and a quaternary one above them.
const DECIDED: [u8; 6] = [0, 0, 1, 2, 2, 4];
const P: u8 = 5;

/// Comparisons in both directions, sorted by which clauses apply to the greater and the smaller term. Where L1 applies
/// it is the one to be named.
fn clauses() -> Vec<Named> {
    let sheet = |name: &'static str, pairs: Vec<Pair>| {
        let mut frames = vec![symbols(&DECIDED), equation(&[F, X, Y], &[F, Y, X])];
        frames.extend(pairs.iter().flat_map(|(greater, smaller)| compared(greater, smaller)));
        (name, text(&frames))
    };
    vec![
        sheet("L1 alone", l1_alone()),
        sheet("L2 alone", l2_alone()),
        sheet("L3 alone", l3_alone()),
        sheet("L1 besides L2", l1_besides_l2()),
        sheet("L1 besides L3", l1_besides_l3()),
        sheet("equal terms", equal_terms()),
    ]
}

/// A quaternary term with a term for one argument and constants for the others.
fn quaternary(index: usize, argument: &[u8]) -> Vec<u8> {
    [&[P], &vec![A; index][..], argument, &vec![A; 3 - index]].concat()
}

/// Where the symbol of the greater term is below that of the other, or the same and L3 fails.
fn l1_alone() -> Vec<Pair> {
    let mut pairs = vec![
        (vec![F, G, A, A, A], vec![G, A, A]),
        (vec![F, A, G, A, A], vec![G, A, A]),
        (vec![H, F, B, B], vec![F, B, A]),
        (vec![H, G, A, A], vec![F, A, B]),
        (vec![H, H, H, F, A, A], vec![F, A, A]),
        (vec![F, H, G, B, A, A], vec![G, A, B]),
        (vec![F, A, F, B, A], vec![F, B, A]),
        (vec![F, A, F, B, B], vec![F, B, A]),
        (vec![F, A, G, A, A], vec![F, B, B]),
    ];
    let target = quaternary(0, &[B]);
    pairs.extend((1..4).map(|index| (quaternary(index, &target), target.clone())));
    pairs.extend((1..4).map(|index| (quaternary(index, &quaternary(0, &[H, A])), target.clone())));
    pairs
}

fn l2_alone() -> Vec<Pair> {
    vec![
        (vec![B], vec![A]),
        (vec![H, A], vec![B]),
        (vec![F, A, A], vec![H, B]),
        (vec![F, H, A, A], vec![H, H, A]),
        (vec![G, A, A], vec![F, B, B]),
        (vec![G, A, B], vec![H, H, H, B]),
        (vec![G, B, F, A, A], vec![F, B, G, A, A]),
        (vec![G, F, A, B, F, B, A], vec![F, F, B, A, F, A, B]),
        (vec![P, A, A, A, A], vec![G, F, B, B, H, B]),
        (vec![P, B, B, B, B], vec![H, P, A, A, A, A]),
        (binary(G, &right_comb(18), &right_comb(18)), binary(F, &right_comb(18), &right_comb(18))),
        (binary(G, &left_comb(18), &left_comb(18)), binary(F, &left_comb(18), &left_comb(18))),
    ]
}

fn l3_alone() -> Vec<Pair> {
    vec![
        (vec![H, B], vec![H, A]),
        (vec![F, B, A], vec![F, A, B]),
        (vec![F, A, B], vec![F, A, A]),
        (vec![F, H, A, A], vec![F, A, H, A]),
        (vec![F, B, A], vec![F, A, H, A]),
        (vec![F, A, H, A], vec![F, A, B]),
        (vec![F, F, B, A, A], vec![F, F, A, B, B]),
        (vec![P, B, A, A, A], vec![P, A, B, B, B]),
        (vec![P, A, B, A, A], vec![P, A, A, B, B]),
        (vec![P, A, A, B, A], vec![P, A, A, A, B]),
        (vec![P, A, A, A, B], vec![P, A, A, A, A]),
        (binary(F, &left_comb(38), &[B]), binary(F, &left_comb(38), &[A])),
        (binary(F, &full_tree(&[G], 6), &[B]), binary(F, &full_tree(&[G], 6), &[A])),
    ]
}

/// By each argument, which is the smaller term or exceeds it.
fn l1_besides_l2() -> Vec<Pair> {
    let mut pairs = vec![
        (vec![H, A], vec![A]),
        (vec![H, B], vec![A]),
        (vec![F, A, B], vec![B]),
        (vec![F, B, A], vec![B]),
        (vec![F, H, H, A, A], vec![H, A]),
        (vec![G, F, A, B, A], vec![F, A, B]),
        (vec![G, A, F, A, B], vec![F, A, B]),
        (vec![G, F, B, B, A], vec![F, B, A]),
        (vec![G, A, G, A, A], vec![F, A, B]),
        (vec![G, A, H, F, A, B], vec![F, A, B]),
    ];
    let target = vec![G, A, B];
    pairs.extend((0..4).map(|index| (quaternary(index, &target), target.clone())));
    pairs.push((quaternary(3, &[G, B, B]), target));
    let tree = full_tree(&[F, G], 5);
    pairs.push((binary(G, &tree, &last_changed(&tree)), binary(F, &tree, &tree)));
    pairs
}

/// The same, with the same symbol.
fn l1_besides_l3() -> Vec<Pair> {
    let mut pairs = vec![
        (vec![H, H, A], vec![H, A]),
        (vec![H, H, H, A], vec![H, A]),
        (vec![H, F, A, A], vec![H, B]),
        (vec![F, F, A, B, A], vec![F, A, B]),
        (vec![F, A, F, A, B], vec![F, A, B]),
        (vec![F, A, F, A, B], vec![F, A, A]),
        (vec![F, B, G, A, A], vec![F, A, B]),
        (vec![F, G, A, A, A], vec![F, B, B]),
        (vec![F, A, H, F, A, B], vec![F, A, B]),
    ];
    let target = quaternary(3, &[B]);
    pairs.extend((0..4).map(|index| (quaternary(index, &target), target.clone())));
    let comb = right_comb(18);
    pairs.push((binary(F, &comb, &binary(F, &comb, &[B])), binary(F, &comb, &[A])));
    let comb = right_comb(37);
    pairs.push((binary(F, &comb, &[G, A, A]), binary(F, &comb, &[A])));
    pairs
}

fn equal_terms() -> Vec<Pair> {
    let terms = [
        vec![A],
        vec![B],
        vec![H, A],
        vec![F, A, B],
        vec![F, B, A],
        vec![G, F, A, B, H, B],
        vec![P, A, B, A, B],
        left_comb(39),
        right_comb(39),
    ];
    terms.into_iter().map(|term| (term.clone(), term)).collect()
}

/// Runs of many steps and runs at the limits of size.
fn runs() -> Vec<Named> {
    vec![
        ("sorting of 40 factors", text(&sorting())),
        ("256 exchanges of two unary symbols", text(&exchanges())),
        ("255 steps under large tables", text(&many_lines())),
        ("doubling at the limit of nodes", text(&doubling())),
    ]
}

/// Associativity and commutativity, and a product of 40 constants out of 15.
fn sorting() -> Vec<Vec<u8>> {
    let product = 15;
    let mut arities = [0; 16];
    arities[15] = 2;
    let factors: Vec<u8> = (0..40).map(|i| (i * 7 % 15) as u8).collect();
    let mut right_nested = Vec::new();
    for &factor in &factors[..39] {
        right_nested.extend_from_slice(&[product, factor]);
    }
    right_nested.push(factors[39]);
    let left_nested = [vec![product; 39], factors].concat();
    vec![
        symbols(&arities),
        equation(&[product, product, X, Y, Z], &[product, X, product, Y, Z]),
        equation(&[product, X, Y], &[product, Y, X]),
        equation(&[product, X, product, Y, Z], &[product, Y, product, X, Z]),
        [&[3, 255], &right_nested[..]].concat(),
        [&[3, 255], &left_nested[..]].concat(),
        [&[3, 100], &left_nested[..]].concat(),
    ]
}

/// p(q(x)) = q(p(x)) with p above q; 16 of each over a constant take 256 steps, one more than a run may have.
fn exchanges() -> Vec<Vec<u8>> {
    let (q, p) = (1, 2);
    let run = |limit: u8, of_p: usize, of_q: usize| [vec![3, limit], vec![p; of_p], vec![q; of_q], vec![0]].concat();
    vec![
        symbols(&[0, 1, 1]),
        equation(&[p, q, X], &[q, p, X]),
        run(255, 16, 16),
        run(255, 15, 17),
        run(254, 15, 17),
        run(255, 79, 3),
        run(0, 1, 1),
        run(0, 1, 0),
    ]
}

/// Fifteen times the reversal of five, whose tables have 193 lines, and a subject where these match at some sixty
/// positions above the place of each step, but do not hold.
fn many_lines() -> Vec<Vec<u8>> {
    let (q, p, product) = (1, 2, 3);
    let sides = reversal(product);
    let mut frames = vec![symbols(&[0, 1, 1, 2])];
    frames.extend(std::iter::repeat_n(equation(&sides.0, &sides.1), 15));
    frames.push(equation(&[p, q, X], &[q, p, X]));
    frames.push([vec![3, 255], [product, 0].repeat(63), vec![p; 15], vec![q; 17], vec![0]].concat());
    frames
}

/// d(x) = xx with d above the product: to 159 nodes, to 161, and to 319.
fn doubling() -> Vec<Vec<u8>> {
    let (product, d) = (2, 3);
    let run = |height: usize| [vec![3, 5, d], [product, 0].repeat(height), vec![1]].concat();
    vec![symbols(&[0, 0, 2, 1]), equation(&[d, X], &[product, X, X]), run(39), run(40), run(79)]
}

/// P1 of the paper.
pub const P1: &[u8] = b"0103000002\n02028081028180\n0305020100\n0400000001\n05020100020001\n";

/// Texts at the limits of the reader.
fn texts() -> Vec<Named> {
    let with_tail = |length: usize| {
        let mut text = P1.to_vec();
        let mut filler = b"050001\n".iter().cycle();
        while text.len() < length {
            text.push(*filler.next().unwrap());
        }
        text
    };
    let with_byte = |at: usize, byte: u8| {
        let mut text = P1.to_vec();
        text[at] = byte;
        text
    };
    vec![
        ("P1", P1.to_vec()),
        ("empty", Vec::new()),
        ("one LF", b"\n".to_vec()),
        ("two LF", b"\n\n".to_vec()),
        ("16,384 bytes", with_tail(SHEET_BYTES)),
        ("16,385 bytes", with_tail(SHEET_BYTES + 1)),
        ("16,384 digits", vec![b'0'; SHEET_BYTES]),
        ("16,385 digits", vec![b'0'; SHEET_BYTES + 1]),
        ("16,384 LF", vec![b'\n'; SHEET_BYTES]),
        ("5,461 lines of 01", b"01\n".repeat(5_461)),
        ("5,461 lines of 02", b"02\n".repeat(5_461)),
        ("5,458 lines after the symbols", [&b"01020002\n"[..], &b"02\n".repeat(5_458)].concat()),
        ("no final LF", P1[..P1.len() - 1].to_vec()),
        ("last line cut", P1[..P1.len() - 2].to_vec()),
        ("only the symbols", P1[..11].to_vec()),
        ("only the symbols, no LF", P1[..10].to_vec()),
        ("NUL in the first line", with_byte(3, 0)),
        ("NUL for a LF", with_byte(10, 0)),
        ("NUL in the last line", with_byte(P1.len() - 2, 0)),
        ("NUL behind the sheet", [P1, b"\0"].concat()),
        ("sixteen NUL", vec![0; 16]),
        ("CR before LF", String::from_utf8(P1.to_vec()).unwrap().replace('\n', "\r\n").into_bytes()),
        ("longest valid sheet", longest()),
        ("longest line and two digits more", [P1, &longest_judgement(), b"04\n"].concat()),
        ("a line of 328 digits", [P1, &vec![b'0'; 328], b"\n"].concat()),
        ("a line of 326 digits", [P1, &vec![b'0'; 326], b"\n"].concat()),
    ]
}

/// A frame 04 of 163 bytes for P1's equation: values of 159 nodes and of 1 node.
fn longest_judgement() -> Vec<u8> {
    text(&[[vec![4, 0, 0], [2, 0].repeat(79), vec![1, 1]].concat()])
}

/// The longest text without a refusal by the reader: 16 symbols, 16 equations with sides of 32 nodes and 32
/// judgements with 160 nodes.
fn longest() -> Vec<u8> {
    let (unary, product) = (1, 15);
    let mut arities = [0; 16];
    arities[unary as usize] = 1;
    arities[product as usize] = 2;
    let side = |leaf: u8| [&[unary], &[product, X].repeat(15)[..], &[leaf]].concat();
    let mut frames = vec![symbols(&arities)];
    frames.extend(std::iter::repeat_n(equation(&side(Y), &side(X)), 16));
    for task in 0..32 {
        // Values of 81 and of 79 nodes.
        let values = [[product, 0].repeat(40), vec![2], [product, 3].repeat(39), vec![0]].concat();
        frames.push([&[4, task % 16, task / 16], &values[..]].concat());
    }
    text(&frames)
}

/// Equations with more than eight variables, and the edge of the class of variables.
fn twelve_variables() -> Vec<Named> {
    let mut sheets = last_variable();
    sheets.extend(twelve_slots());
    sheets.extend(doubled_terms());
    sheets
}

/// The last variable and the byte behind it, in an equation and in a ground term. The equation with 80 and 8b alone takes
/// twelve values.
fn last_variable() -> Vec<Named> {
    let (a, b, product) = (0, 1, 2);
    let with = |byte: u8, task: &[u8]| one(&[0, 0, 2], (vec![product, X, byte], vec![product, byte, X]), &[task]);
    let values = |count: usize| [vec![4, 0, 0, b], vec![a; count - 1]].concat();
    let foreign = LAST_VARIABLE + 1;
    vec![
        ("8b in an equation", with(LAST_VARIABLE, &values(VARIABLES))),
        ("8b in an equation, eleven values", with(LAST_VARIABLE, &values(VARIABLES - 1))),
        ("8b in a ground term", with(LAST_VARIABLE, &[3, 5, product, LAST_VARIABLE, a])),
        ("8c in an equation", with(foreign, &values(VARIABLES))),
        ("8c in a ground term", with(LAST_VARIABLE, &[3, 5, product, foreign, a])),
    ]
}

/// The twelve variables under three quaternary symbols below another symbol.
fn twelve_under(top: u8, quaternary: u8) -> Vec<u8> {
    let variables: Vec<u8> = (FIRST_VARIABLE..=LAST_VARIABLE).collect();
    let blocks = variables.chunks(4).map(|block| [&[quaternary], block].concat());
    [vec![top], blocks.collect::<Vec<_>>().concat()].concat()
}

/// Tables with bindings in all slots, and judgements and runs with twelve values.
fn twelve_slots() -> Vec<Named> {
    let x = |number: u8| FIRST_VARIABLE + number;
    // p(q(..), q(..), q(..)) > c with a constant c above p and q: each variable exceeds c, or is c.
    let (q, p, a, c) = (0, 1, 2, 3);
    let values = |number: usize, value: &[u8]| {
        let others = |count: usize| vec![a; count];
        [&[4, 0, 0], &others(number)[..], value, &others(VARIABLES - 1 - number)].concat()
    };
    let judgements = [
        values(0, &[c]),
        values(7, &[c]),
        values(8, &[q, a, c, a, a]),
        values(9, &[c]),
        values(11, &[q, a, a, a, c]),
        values(11, &[c]),
        values(11, &[a]),
        [vec![4, 0, 1], vec![a; VARIABLES]].concat(),
    ];
    let judgements: Vec<&[u8]> = judgements.iter().map(Vec::as_slice).collect();
    let bound_alone = one(&[4, 3, 0, 0], (twelve_under(p, q), vec![c]), &judgements);
    // p(q(..), q(..), q(..)) = q(x11, x8, x7, x4) with p above q: its left side matches with all twelve values.
    let (a, b, q, p) = (0, 1, 2, 3);
    let block = |first: u8, last: u8| vec![q, first, q, a, b, a, last, b, last];
    let blocks = [block(a, a), block(b, a), block(a, b)].concat();
    let values: [u8; VARIABLES] = [b, a, b, b, a, b, a, a, b, a, a, b];
    let tasks: [Vec<u8>; 5] = [
        [&[4, 0, 0], &values[..]].concat(),
        [&[4, 0, 1], &values[..]].concat(),
        [vec![4, 0, 0], vec![q, a, a, a, b], vec![a; 7], vec![q, b, a, a, a], vec![a; 2], vec![b]].concat(),
        [vec![3, 9, p], blocks].concat(),
        [vec![3, 9, p, q], vec![a, b, a, b], vec![q], vec![b, b, a, a], vec![q], vec![a, a, b, b]].concat(),
    ];
    let tasks: Vec<&[u8]> = tasks.iter().map(Vec::as_slice).collect();
    let chosen = vec![q, x(11), x(8), x(7), x(4)];
    // q(x0, x1, x2, q(x3, x4, x5, q(x6, x7, x8, x9))) = q(q(q(x0, .. x3), .. x6), .. x9).
    let (q_alone, tens) = (1, |range: std::ops::Range<u8>| range.map(x).collect::<Vec<u8>>());
    let to_the_right = [vec![q_alone], tens(0..3), vec![q_alone], tens(3..6), vec![q_alone], tens(6..10)].concat();
    let to_the_left = [vec![q_alone; 3], tens(0..10)].concat();
    let associated = one(
        &[0, 4],
        (to_the_right, to_the_left),
        &[&[4, 0, 0, 0, 0, 0, 0, 0, 0, 0, 0, 0, 0], &[4, 0, 1, 0, 0, 0, 0, 0, 0, 1, 0, 0, 0, 0, 0, 0, 0]],
    );
    vec![
        ("each of the twelve variables bound alone", bound_alone),
        // As "true everywhere without an empty line", with 8b for x.
        (
            "8b alone is bound",
            one(&[1, 0], (vec![0, LAST_VARIABLE], vec![1]), &[&[&[4, 0, 0], &[1; VARIABLES][..]].concat()]),
        ),
        // Found by a search.
        (
            "twelve bindings in one line",
            from_digits(&[
                "01020004",
                "02018880010185018b8a85838987018888878801018787008181818b818a01018a89018688808882848486",
            ]),
        ),
        ("twelve variables in judgements and runs", one(&[0, 0, 4, 3], (twelve_under(p, q), chosen), &tasks)),
        ("four places, ten variables", associated),
    ]
}

/// Bindings of the form x = f(y, y, y, y), each to the next: with n of them the first term has 4ⁿ leaves, which doubles it
/// 2n times. It is long to be gone through whole, be it to unify it or to look for a variable that does not occur in it.
fn doubled_terms() -> Vec<Named> {
    let (c, f, q, t) = (1, 2, 3, 4);
    let arities = [1, 0, 4, 4, 3];
    // From the last variable downward, so that most of them are among the last four.
    let x = |number: u8| LAST_VARIABLE - number;
    let four = |number: u8| [f, x(number), x(number), x(number), x(number)];
    // q(x0, x1, x2, t(x3, x4, y)) < q(f(x1..), f(x2..), f(x3..), t(f(x4..), f(x5..), x0)): the line with five equalities
    // keeps x0 > y.
    let ten = (
        [&[q], &four(1)[..], &four(2), &four(3), &[t], &four(4), &four(5), &[x(0)]].concat(),
        vec![q, x(0), x(1), x(2), t, x(3), x(4), x(7)],
    );
    // The same with six and in the other order, so that a variable is bound to a term that is already large.
    let twelve = (
        [&[q], &four(6)[..], &four(5), &four(4), &[t], &four(3), &four(2), &four(1)].concat(),
        vec![q, x(5), x(4), x(3), t, x(2), x(1), x(0)],
    );
    let exchanged = (twelve.1.clone(), twelve.0.clone());
    let task: &[&[u8]] = &[&[5, f, c, c, c, c, c]];
    vec![
        ("doubled ten times", one(&arities, ten, task)),
        ("doubled twelve times, left", one(&arities, twelve, task)),
        ("doubled twelve times, right", one(&arities, exchanged, task)),
    ]
}

/// Runs by directions whose target has a variable that the source lacks: it takes the lowest constant.
fn extra_variables() -> Vec<Named> {
    let mut sheets = filled_targets();
    sheets.extend(judged_at_the_constant());
    sheets.extend(lowest_constants());
    sheets.extend(filled_to_the_limits());
    sheets.extend(twelve_variables_filled());
    sheets
}

/// A run with a limit beyond its steps.
fn run(subject: &[u8]) -> Vec<u8> {
    [&[3, 99], subject].concat()
}

/// A sheet with these equations and tasks.
fn several(arities: &[u8], equations: &[(&[u8], &[u8])], tasks: &[Vec<u8>]) -> Vec<u8> {
    let equations = equations.iter().map(|(left, right)| equation(left, right));
    text(&[vec![symbols(arities)], equations.collect(), tasks.to_vec()].concat())
}

/// Extra variables in one direction and in both, alone, repeated, and beside the source's own.
fn filled_targets() -> Vec<Named> {
    let (a, b) = (0, 1);
    vec![
        // f(x, y) = g(x, z), g above f: from the left it steps where y exceeds or is g(x, a), from the right always.
        ("an extra variable in each direction", {
            let (f, g) = (2, 3);
            let subjects: [&[u8]; 5] =
                [&[f, a, g, b, b], &[g, b, a], &[f, b, b], &[f, b, g, a, b], &[g, g, b, b, f, g, a, b, g, b, f, a, b]];
            several(&[0, 0, 2, 2], &[(&[f, X, Y], &[g, X, Z])], &subjects.map(run))
        }),
        // h(x) = f(x, y) comes before h(x) = x, and f(x, y) = x behind both.
        ("an extra variable in the first of three equations", {
            let (f, h) = (2, 3);
            let equations: [(&[u8], &[u8]); 3] = [(&[h, X], &[f, X, Y]), (&[h, X], &[X]), (&[f, X, Y], &[X])];
            several(&[0, 0, 2, 1], &equations, &[run(&[h, b]), run(&[h, h, b])])
        }),
        // x = y: each term but the lowest constant becomes that.
        ("two variables as an equation", {
            let f = 2;
            let subjects: [&[u8]; 4] = [&[a], &[b], &[f, b, f, a, b], &[f, a, a]];
            let mut tasks = subjects.map(run).to_vec();
            tasks.extend([vec![3, 0, b], vec![3, 0, a], vec![4, 0, 0, b, b], vec![4, 0, 1, a, b]]);
            several(&[0, 0, 2], &[(&[X], &[Y])], &tasks)
        }),
        // x = h(y): from the left where x exceeds h(a), from the right always.
        ("a variable and a term without it", {
            let h = 2;
            let subjects: [&[u8]; 4] = [&[h, b], &[b], &[h, h, a], &[h, h, h, b]];
            several(&[0, 0, 1], &[(&[X], &[h, Y])], &subjects.map(run))
        }),
        // x and not x = y and not y.
        ("one extra variable twice, in each direction", {
            let (not, and) = (2, 3);
            let subjects: [&[u8]; 5] = [
                &[and, b, not, b],
                &[and, a, not, a],
                &[and, b, not, a],
                &[and, and, b, not, b, not, a],
                &[and, and, b, not, b, not, and, b, not, b],
            ];
            several(&[0, 0, 1, 2], &[(&[and, X, not, X], &[and, Y, not, Y])], &subjects.map(run))
        }),
        // b = f(x, y) with b above f: from the left always.
        ("a constant against variables", {
            let (f, b) = (1, 2);
            let subjects: [&[u8]; 5] = [&[b], &[f, b, b], &[f, a, f, a, b], &[f, a, a], &[a]];
            several(&[0, 2, 0], &[(&[b], &[f, X, Y])], &subjects.map(run))
        }),
        // The same with b below f: only from the right.
        ("a constant below a term of variables", {
            let f = 2;
            let subjects: [&[u8]; 4] = [&[b], &[f, a, b], &[f, a, a], &[f, f, a, a, f, a, b]];
            several(&[0, 0, 2], &[(&[b], &[f, X, Y])], &subjects.map(run))
        }),
    ]
}

/// Lines that hold at the lowest constant and would not at another value, and the reverse.
fn judged_at_the_constant() -> Vec<Named> {
    let (a, b, c) = (0, 1, 2);
    vec![
        // h(x) = h(y): by x > y, so it steps from each x but the lowest constant.
        ("a line that holds by the constant", {
            let h = 3;
            let subjects: [&[u8]; 4] = [&[h, b], &[h, a], &[h, c], &[h, h, a]];
            let mut tasks = subjects.map(run).to_vec();
            tasks.extend([vec![4, 0, 0, b, c], vec![4, 0, 0, b, b], vec![4, 0, 0, b, a], vec![4, 0, 1, b, c]]);
            several(&[0, 0, 0, 1], &[(&[h, X], &[h, Y])], &tasks)
        }),
        // f(a, x) = f(y, a): y bound to a, and x > a.
        ("a line that binds the extra variable to the constant", {
            let f = 2;
            let subjects: [&[u8]; 5] = [&[f, a, b], &[f, b, a], &[f, b, b], &[f, b, f, a, b], &[f, a, a]];
            several(&[0, 0, 2], &[(&[f, a, X], &[f, Y, a])], &subjects.map(run))
        }),
        // f(b, x) = f(y, c), c above b above a: the line with y bound to b does not hold, that with b > y needs
        // f(b, x) > c.
        ("a line that binds the extra variable to another constant", {
            let f = 3;
            let subjects: [&[u8]; 4] = [&[f, b, a], &[f, b, c], &[f, c, c], &[f, a, c]];
            several(&[0, 0, 0, 2], &[(&[f, b, X], &[f, Y, c])], &subjects.map(run))
        }),
        // f(x, b) = f(c, y) with f below all constants: by x > c, or x = c and b > y.
        ("a line that compares the extra variable with a constant", {
            let (f, a, b, c) = (0, 1, 2, 3);
            let subjects: [&[u8]; 4] = [&[f, c, b], &[f, a, b], &[f, f, c, c, b], &[f, c, a]];
            several(&[2, 0, 0, 0], &[(&[f, X, b], &[f, c, Y])], &subjects.map(run))
        }),
        // a > h(y) is never, and h(y) > a always: y = a alone does not make the first hold.
        ("no line with an extra variable", {
            let h = 2;
            several(&[0, 0, 1], &[(&[a], &[h, Y])], &[run(&[a]), run(&[h, b]), run(&[h, h, a])])
        }),
        // f(x) = g(h(y), z): h(y) is not the constant, whatever y is.
        ("an extra variable under a symbol", {
            let (h, g, f) = (2, 3, 4);
            let subjects: [&[u8]; 3] = [&[f, b], &[g, h, f, a, f, b], &[f, f, f, a]];
            several(&[0, 0, 1, 2, 1], &[(&[f, X], &[g, h, Y, Z])], &subjects.map(run))
        }),
    ]
}

/// The lowest constant is not the first symbol, or not the only constant, or the only symbol.
fn lowest_constants() -> Vec<Named> {
    vec![
        // g(x, y) = f(z), with f below a below g.
        ("the constant is symbol 01", {
            let (f, a, g) = (0, 1, 2);
            let subjects: [&[u8]; 4] = [&[f, g, a, a], &[g, f, a, f, a], &[f, f, a], &[f, f, g, a, f, a]];
            several(&[1, 0, 2], &[(&[g, X, Y], &[f, Z])], &subjects.map(run))
        }),
        // q(x) = f(x, y), p < f < a < q < b.
        ("the lowest of two constants is symbol 02", {
            let (p, f, a, q, b) = (0, 1, 2, 3, 4);
            let subjects: [&[u8]; 4] = [&[q, q, b], &[q, a], &[p, q, b], &[f, q, a, q, b]];
            several(&[1, 2, 0, 1, 0], &[(&[q, X], &[f, X, Y])], &subjects.map(run))
        }),
        // The same equation with fourteen symbols between the constants, and only the last of them another constant.
        ("the lowest of two constants, the other is symbol 0f", {
            let (f, a, q, b) = (0, 1, 2, 15);
            let mut arities = [1; 16];
            arities[f as usize] = 2;
            arities[a as usize] = 0;
            arities[b as usize] = 0;
            several(&arities, &[(&[q, X], &[f, X, Y])], &[run(&[q, q, b]), run(&[14, q, 13, q, a])])
        }),
        // Each symbol but the last has arguments.
        ("the constant is symbol 0f", {
            let (f, q, a) = (0, 14, 15);
            let mut arities = [1; 16];
            arities[f as usize] = 2;
            arities[a as usize] = 0;
            several(&arities, &[(&[q, X], &[f, Y, Z])], &[run(&[q, q, a]), run(&[13, q, 12, q, a])])
        }),
        ("the constant is the only symbol", several(&[0], &[(&[X], &[Y]), (&[0], &[Z])], &[run(&[0])])),
        // q(x) = f(x, y) once more, with three constants side by side in the middle.
        ("the lowest of three constants", {
            let (f, a, b, c, q) = (0, 1, 2, 3, 4);
            let subjects: [&[u8]; 3] = [&[q, c], &[q, f, q, b, c], &[f, a, f, b, c]];
            several(&[2, 0, 0, 0, 1], &[(&[q, X], &[f, X, Y])], &subjects.map(run))
        }),
    ]
}

/// Results of 160 nodes and of more, by the constants of a target.
fn filled_to_the_limits() -> Vec<Named> {
    let a = 0;
    vec![
        // h(x) = p(x, y, z, u), h above p: three nodes more in each step. 39 steps lead from 43 nodes to 160, and from
        // 41 nodes to 158, where one more is left.
        ("filled to 160 nodes, and too large", {
            let (k, p, h) = (1, 2, 3);
            let tower = |of_k: usize, of_h: usize| [vec![k; of_k], vec![h; of_h], vec![a]].concat();
            let subjects = [tower(3, 39), tower(0, 40), tower(4, 39), tower(119, 40)];
            several(&[0, 1, 4, 1], &[(&[h, X], &[p, X, Y, Z, U])], &subjects.map(|subject| run(&subject)))
        }),
        // c = a target of 32 nodes, 16 of them variables: to 160 nodes from 129, and too large from 130.
        ("a constant filled to 32 nodes", {
            let (f, h, c) = (1, 2, 3);
            let target = [&[h], &[f, X, f, Y].repeat(7)[..], &[f, X, Y]].concat();
            let subject = |nodes: usize| [vec![h; nodes - 1], vec![c]].concat();
            let tasks = [subject(129), subject(130), subject(160), subject(1)].map(|subject| run(&subject));
            several(&[0, 2, 1, 0], &[(&[c], &target)], &tasks)
        }),
        // f(x, y) = f(z, y) on f(b, f(b, ..)): the step is behind those already taken, where the equation still matches
        // and no line holds.
        ("160 nodes throughout, an extra variable in each step", {
            let (b, h, f) = (1, 2, 3);
            let subject = [&[h], &[f, b].repeat(79)[..], &[b]].concat();
            several(&[0, 0, 1, 2], &[(&[f, X, Y], &[f, Z, Y])], &[run(&subject), [&[3, 40], &subject[..]].concat()])
        }),
        // p(q(x, y), z) = q(p(x, u), v) with p above q; 16 of each take 256 steps, one more than a run may have.
        ("256 exchanges with two extra variables each", {
            let (b, q, p) = (1, 2, 3);
            let task = |limit: u8, of_p: usize, of_q: usize| {
                [vec![3, limit], vec![p; of_p], vec![q; of_q], vec![a], vec![b; of_p + of_q]].concat()
            };
            let sides: (&[u8], &[u8]) = (&[p, q, X, Y, Z], &[q, p, X, U, V]);
            several(&[0, 0, 2, 2], &[sides], &[task(255, 16, 16), task(255, 15, 17), task(254, 15, 17), task(0, 1, 1)])
        }),
    ]
}

/// Fillings of many variables at once, up to the last one. The judgements beside them have values of their own.
fn twelve_variables_filled() -> Vec<Named> {
    let (a, b, q, p, h) = (0, 1, 2, 3, 4);
    let arities = [0, 0, 4, 3, 1];
    let (first, last) = (FIRST_VARIABLE, LAST_VARIABLE);
    let judgement = |first: u8, last: &[u8]| [&[4, 0, 0, first], &[a; VARIABLES - 2][..], last].concat();
    vec![
        ("eleven extra variables up to 8b", {
            let subjects: [&[u8]; 3] = [&[h, b], &[h, h, b], &[h, q, a, h, b, b, a]];
            let mut tasks = subjects.map(run).to_vec();
            tasks.extend([judgement(a, &[b]), judgement(a, &[h, h, a])]);
            several(&arities, &[(&[h, first], &twelve_under(p, q))], &tasks)
        }),
        ("three extra variables below 8b", {
            let tasks = [run(&[h, b]), run(&[h, h, b]), judgement(b, &[a]), judgement(b, &[b])];
            several(&arities, &[(&[h, last], &[q, first, first + 5, last - 1, last])], &tasks)
        }),
        ("twelve extra variables", {
            let tasks = [run(&[b]), run(&[h, b]), run(&[h, h, a])];
            several(&arities, &[(&[h, b], &twelve_under(p, q))], &tasks)
        }),
        // f(80, 8a) = f(8b, 80): 8b is extra from the left, 8a from the right.
        ("8b and 8a are extra", {
            let f = 2;
            let subjects: [&[u8]; 5] = [&[f, b, a], &[f, a, b], &[f, b, b], &[f, f, a, b, f, b, a], &[f, a, a]];
            several(&[0, 0, 2], &[(&[f, first, last - 1], &[f, last, first])], &subjects.map(run))
        }),
        // f(a, 80) = f(8b, a), as in "a line that binds the extra variable to the constant".
        ("8b is extra and bound to the constant", {
            let f = 2;
            let tasks = [run(&[f, a, b]), run(&[f, b, a]), run(&[f, a, a]), judgement(b, &[b]), judgement(b, &[a])];
            several(&[0, 0, 2], &[(&[f, a, first], &[f, last, a])], &tasks)
        }),
    ]
}
