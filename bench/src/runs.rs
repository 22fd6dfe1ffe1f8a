//! Sheets for judge and run: ordinary ones, ones whose lines do not fit the table together, and ones whose run takes long.

use reference::generate::text;
use reference::special::special;

const X: u8 = 0x80;
const Y: u8 = 0x81;
const Z: u8 = 0x82;

/// An equation's frame.
fn equation(left: &[u8], right: &[u8]) -> Vec<u8> {
    [&[2], left, right].concat()
}

/// A sheet with these arities, equations and tasks.
fn sheet(arities: &[u8], equations: &[(&[u8], &[u8])], tasks: &[Vec<u8>]) -> Vec<u8> {
    let mut frames = vec![[&[1, arities.len() as u8], arities].concat()];
    frames.extend(equations.iter().map(|(left, right)| equation(left, right)));
    frames.extend(tasks.iter().cloned());
    text(&frames)
}

/// A run of a term with a step limit; a judgement of an equation's direction at values.
fn run(limit: u8, term: &[u8]) -> Vec<u8> {
    [&[3, limit], term].concat()
}

fn judgement(equation: u8, direction: u8, values: &[&[u8]]) -> Vec<u8> {
    [&[4, equation, direction], &values.concat()[..]].concat()
}

/// The product of these constants, nested to the right.
fn product(symbol: u8, constants: &[u8]) -> Vec<u8> {
    let (last, others) = constants.split_last().expect("a constant");
    others.iter().flat_map(|&constant| [symbol, constant]).chain([*last]).collect()
}

/// A numeral: `n` successors of the constant 00.
fn numeral(successor: u8, n: usize) -> Vec<u8> {
    [vec![successor; n], vec![0]].concat()
}

/// Ordinary sheets. Task 0 is a run and task 1 a judgement.
pub fn ordinary() -> Vec<(&'static str, Vec<u8>)> {
    let factors: Vec<u8> = (0..40).map(|i| (7 * (40 - i) % 4) as u8).collect();
    let commutative: [(&[u8], &[u8]); 3] =
        [(&[4, X, Y], &[4, Y, X]), (&[4, X, 4, Y, Z], &[4, 4, X, Y, Z]), (&[4, X, 4, Y, Z], &[4, Y, 4, X, Z])];
    // e, a, b, inverse, product.
    let group: [(&[u8], &[u8]); 10] = [
        (&[4, 0, X], &[X]),
        (&[4, X, 0], &[X]),
        (&[4, 3, X, X], &[0]),
        (&[4, X, 3, X], &[0]),
        (&[4, 4, X, Y, Z], &[4, X, 4, Y, Z]),
        (&[3, 3, X], &[X]),
        (&[3, 0], &[0]),
        (&[3, 4, X, Y], &[4, 3, Y, 3, X]),
        (&[4, X, 4, 3, X, Y], &[Y]),
        (&[4, 3, X, 4, X, Y], &[Y]),
    ];
    // 0, 1, a, b, c, sum, product.
    let ring: [(&[u8], &[u8]); 9] = [
        (&[5, 0, X], &[X]),
        (&[5, X, X], &[0]),
        (&[6, 1, X], &[X]),
        (&[6, 0, X], &[0]),
        (&[6, X, X], &[X]),
        (&[6, X, 5, Y, Z], &[5, 6, X, Y, 6, X, Z]),
        (&[5, X, Y], &[5, Y, X]),
        (&[6, X, Y], &[6, Y, X]),
        (&[5, 5, X, Y, Z], &[5, X, 5, Y, Z]),
    ];
    // 0, successor, sum, product.
    let arithmetic: [(&[u8], &[u8]); 4] =
        [(&[2, 0, Y], &[Y]), (&[2, 1, X, Y], &[1, 2, X, Y]), (&[3, 0, Y], &[0]), (&[3, 1, X, Y], &[2, Y, 3, X, Y])];
    // 0, successor, Ackermann's function.
    let ackermann: [(&[u8], &[u8]); 3] =
        [(&[2, 0, Y], &[1, Y]), (&[2, 1, X, 0], &[2, X, 1, 0]), (&[2, 1, X, 1, Y], &[2, X, 2, 1, X, Y])];
    // a, b, c, and, or, not: a boolean algebra without constants of its own. x and not x is the same for every x, and so is x or not x.
    let boolean: [(&[u8], &[u8]); 10] = [
        (&[3, X, 5, X], &[3, Y, 5, Y]),
        (&[4, X, 5, X], &[4, Y, 5, Y]),
        (&[5, 3, X, Y], &[4, 5, X, 5, Y]),
        (&[5, 4, X, Y], &[3, 5, X, 5, Y]),
        (&[5, 5, X], &[X]),
        (&[3, X, 3, 5, X, Y], &[3, Z, 5, Z]),
        (&[3, X, Y], &[3, Y, X]),
        (&[4, X, Y], &[4, Y, X]),
        (&[3, 3, X, Y, Z], &[3, X, 3, Y, Z]),
        (&[3, X, 4, Y, Z], &[4, 3, X, Y, 3, X, Z]),
    ];
    // (b or not c) and not ((b or not b) and (c and not c)).
    let conjunction: &[u8] = &[3, 4, 1, 5, 2, 5, 3, 4, 1, 5, 1, 3, 2, 5, 2];
    vec![
        (
            "associativity and commutativity",
            sheet(
                &[0, 0, 0, 0, 2],
                &commutative,
                &[run(255, &product(4, &factors[..12])), judgement(1, 0, &[&[1], &[4, 2, 3], &[0]])],
            ),
        ),
        (
            "sorting 40 factors",
            sheet(
                &[0, 0, 0, 0, 2],
                &commutative,
                &[run(255, &product(4, &factors)), judgement(2, 0, &[&[3], &[2], &[1]])],
            ),
        ),
        (
            "group",
            sheet(
                &[0, 0, 0, 1, 2],
                &group,
                &[run(255, &[3, 4, 4, 3, 1, 2, 3, 4, 3, 4, 2, 1, 4, 1, 3, 3, 2]), judgement(7, 0, &[&[1], &[3, 2]])],
            ),
        ),
        (
            "boolean ring",
            sheet(
                &[0, 0, 0, 0, 0, 2, 2],
                &ring,
                &[run(255, &[6, 5, 2, 3, 6, 5, 3, 4, 5, 4, 2]), judgement(5, 0, &[&[2], &[3], &[5, 4, 2]])],
            ),
        ),
        (
            "arithmetic",
            sheet(
                &[0, 1, 2, 2],
                &arithmetic,
                &[
                    run(255, &[vec![3], numeral(1, 5), numeral(1, 6)].concat()),
                    judgement(3, 0, &[&numeral(1, 3), &numeral(1, 2)]),
                ],
            ),
        ),
        (
            "Ackermann, 255 steps",
            sheet(
                &[0, 1, 2],
                &ackermann,
                &[
                    run(255, &[vec![2], numeral(1, 3), numeral(1, 2)].concat()),
                    judgement(2, 0, &[&numeral(1, 3), &numeral(1, 2)]),
                ],
            ),
        ),
        // a, pair, f: f(x) = pair(x, y), from the left.
        (
            "extra variables, 40 symbols",
            sheet(
                &[0, 2, 1],
                &[(&[2, X], &[1, X, Y])],
                &[run(255, &numeral(2, 40)), judgement(0, 0, &[&numeral(2, 2), &numeral(2, 2)])],
            ),
        ),
        // With t the conjunction: (t and not (b and t)) or not (c and t).
        (
            "extra variables, boolean algebra",
            sheet(
                &[0, 0, 0, 2, 2, 1],
                &boolean,
                &[
                    run(255, &[&[4, 3], conjunction, &[5, 3, 1], conjunction, &[5, 3, 2], conjunction].concat()),
                    judgement(5, 0, &[&[1], &[2], &[0]]),
                ],
            ),
        ),
    ]
}

/// A term of at most `nodes` nodes over these arities that nests the last symbol that has arguments, on its last argument.
fn nested(arities: &[u8], nodes: usize) -> Vec<u8> {
    let constant = arities.iter().position(|&arity| arity == 0).expect("a constant") as u8;
    let symbol = arities.iter().rposition(|&arity| 0 < arity).expect("a symbol with arguments");
    let arity = usize::from(arities[symbol]);
    let layer = [vec![symbol as u8], vec![constant; arity - 1]].concat();
    let layers = (nodes - 1) / layer.len();
    [layer.repeat(layers), vec![constant]].concat()
}

/// A full tree of at most `nodes` nodes over these arities.
fn full(arities: &[u8], nodes: usize) -> Vec<u8> {
    let constant = arities.iter().position(|&arity| arity == 0).expect("a constant") as u8;
    let symbol = arities.iter().rposition(|&arity| 0 < arity).expect("a symbol with arguments") as u8;
    let mut tree = vec![constant];
    loop {
        let next = [vec![symbol], tree.repeat(usize::from(arities[usize::from(symbol)]))].concat();
        if nodes < next.len() {
            return tree;
        }
        tree = next;
    }
}

/// Each special equation that solves, sixteen times in one sheet, with runs of large subjects: the lines of all of them together are more than the table holds
/// where one of them has many.
pub fn crowded() -> Vec<(&'static str, Vec<u8>)> {
    let mut sheets = Vec::new();
    for (name, sheet) in special() {
        let frames: Vec<&[u8]> = sheet.split(|&byte| byte == b'\n').collect();
        let Ok(read) = reference::sheet::read(&sheet) else {
            continue;
        };
        let mut text: Vec<u8> = [frames[0], b"\n"].concat();
        for _ in 0..16 {
            text.extend_from_slice(frames[1]);
            text.push(b'\n');
        }
        let arities: Vec<u8> = frames[0][4..].chunks(2).map(|digit| digit[1] - b'0').collect();
        if arities.iter().all(|&arity| arity == 0) || read.equations().is_empty() {
            continue;
        }
        for subject in [nested(&arities, 160), full(&arities, 160)] {
            text.extend(reference::generate::text(&[run(255, &subject)]));
        }
        sheets.push((name, text));
    }
    sheets
}

/// Fifteen times an equation that matches and never steps, and a subject with a place at the bottom where p(q(x)) = q(p(x)) takes 255 steps and more: 15 times p
/// over 17 times q. `above` stands before that place.
fn fifteen(arities: &[u8], sides: (&[u8], &[u8]), [q, p]: [u8; 2], above: &[u8]) -> Vec<u8> {
    let constant = arities.iter().position(|&arity| arity == 0).expect("a constant") as u8;
    let exchange: (&[u8], &[u8]) = (&[p, q, X], &[q, p, X]);
    let equations = [vec![sides; 15], vec![exchange]].concat();
    let subject = [above, &[p; 15], &[q; 17], &[constant]].concat();
    sheet(arities, &equations, &[run(255, &subject)])
}

/// An instance of a side: 00 for each variable.
fn instance(side: &[u8]) -> Vec<u8> {
    side.iter().map(|&byte| if byte < X { byte } else { 0 }).collect()
}

/// Runs that take long, searched for by climbing to equations and subjects whose run takes longest: in one the comparisons of long terms all along
/// a deep subject, in the other the walks, since the lines do not fit the table together and a step walks every rule that matches above it. The special sheet
/// "255 steps under large tables" is of this kind too.
pub fn long() -> Vec<(&'static str, Vec<u8>)> {
    let compared: (&[u8], &[u8]) =
        (&[4, X, Y], &[4, 0, 0, 0, 1, 1, 0, 1, 0, 0, 1, 1, 0, 0, 2, 1, 4, 1, 0, 1, 0, 1, 1, 3, 4, 0, 1, 1, 0, 0, 3, X]);
    let walked: (&[u8], &[u8]) =
        (&[5, 4, Z, 0, 3, 3, 5, 3, 0, 5, 3, Z, 3, 4, 4, Z, X, 5, 3, Y, Y], &[5, Y, 3, 4, Z, X]);
    let matched = [&[4], &instance(walked.0)[..], &[4], &instance(walked.1)].concat();
    vec![
        ("searched, long comparisons", fifteen(&[1, 1, 0, 0, 2], compared, [0, 1], &[4, 2].repeat(63))),
        ("searched, long walks", fifteen(&[0, 1, 1, 1, 2, 2], walked, [1, 2], &matched)),
    ]
}
