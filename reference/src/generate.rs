//! Test sheets: valid ones of various shapes, and damaged ones.

use crate::limits::*;
use crate::nodes::Equation;
use crate::random::Random;
use crate::walk::Walker;

/// The text of a sheet with these frames.
pub fn text(frames: &[Vec<u8>]) -> Vec<u8> {
    let mut text = Vec::new();
    for frame in frames {
        for byte in frame {
            text.extend_from_slice(format!("{byte:02x}").as_bytes());
        }
        text.push(b'\n');
    }
    text
}

/// A sheet for a seed. About one in three is damaged.
pub fn sheet(seed: u64) -> Vec<u8> {
    let mut random = Random::new(seed);
    let mut frames = valid_frames(&mut random);
    if !random.chance(35) {
        return text(&frames);
    }
    if random.chance(60) {
        damage_frames(&mut random, &mut frames);
        if random.chance(80) {
            return text(&frames);
        }
    }
    let mut text = text(&frames);
    damage_text(&mut random, &mut text);
    text
}

/// A valid sheet for a seed.
pub fn valid_sheet(seed: u64) -> Vec<u8> {
    text(&valid_frames(&mut Random::new(seed)))
}

/// The symbols of a sheet.
#[derive(Clone)]
pub struct Signature {
    pub arities: Vec<u8>,
}

impl Signature {
    pub fn random(random: &mut Random) -> Signature {
        if random.chance(2) {
            return Signature { arities: LONG_LINES.to_vec() };
        }
        let mut arities = match random.below(10) {
            0 | 1 => vec![0, 0, 2],
            2 => vec![0, 1, 2],
            3 => vec![0, 0, 1, 2, 2],
            4 => vec![0, 0, 0, 2, 2],
            5 => vec![0, 0, 3],
            6 => vec![0, 1, 2, 3, 4],
            7 => vec![0, 1],
            8 => (0..SYMBOLS).map(|_| random.below(ARITY + 1) as u8).collect(),
            _ => {
                let count = random.from_to(1, SYMBOLS);
                (0..count).map(|_| random.pick(&[0, 0, 0, 1, 1, 2, 2, 2, 3, 4])).collect()
            }
        };
        for last in (1..arities.len()).rev() {
            let other = random.below(last + 1);
            arities.swap(last, other);
        }
        if !arities.contains(&0) {
            let index = random.below(arities.len());
            arities[index] = 0;
        }
        Signature { arities }
    }

    pub fn frame(&self) -> Vec<u8> {
        let mut frame = vec![1, self.arities.len() as u8];
        frame.extend_from_slice(&self.arities);
        frame
    }

    pub fn padded_arities(&self) -> [u8; SYMBOLS] {
        let mut arities = [0; SYMBOLS];
        arities[..self.arities.len()].copy_from_slice(&self.arities);
        arities
    }

    fn symbols(&self, choose: impl Fn(usize) -> bool) -> Vec<u8> {
        (0..self.arities.len()).filter(|&s| choose(self.arities[s] as usize)).map(|s| s as u8).collect()
    }

    /// A symbol of this arity, if there is one.
    fn pick(&self, random: &mut Random, arity: usize) -> Option<u8> {
        let symbols = self.symbols(|other| other == arity);
        if symbols.is_empty() { None } else { Some(random.pick(&symbols)) }
    }

    /// Appends a term of at most `size` nodes, and of about that size; a leaf is a variable out of the first
    /// `variables` ones or a constant.
    pub fn append_term(&self, random: &mut Random, size: usize, variables: usize, term: &mut Vec<u8>) {
        let inner = self.symbols(|arity| arity > 0 && arity < size);
        if size <= 1 || inner.is_empty() {
            let constants = self.symbols(|arity| arity == 0);
            // Of several leaves most are variables, so that equations have something to bind.
            if variables > 0 && random.chance(75) {
                term.push(FIRST_VARIABLE + random.below(variables) as u8);
            } else {
                term.push(random.pick(&constants));
            }
            return;
        }
        let symbol = random.pick(&inner);
        term.push(symbol);
        let arity = self.arities[symbol as usize] as usize;
        let mut room = size - 1;
        for rest in (0..arity).rev() {
            let most = room - rest;
            let share = if rest == 0 { most } else { random.from_to(1, most) };
            let start = term.len();
            self.append_term(random, share, variables, term);
            room -= term.len() - start;
        }
    }

    pub fn term(&self, random: &mut Random, size: usize, variables: usize) -> Vec<u8> {
        let mut term = Vec::new();
        self.append_term(random, size, variables, &mut term);
        term
    }

    /// The end of the term at `start`.
    pub fn term_end(&self, bytes: &[u8], start: usize) -> usize {
        let mut end = start;
        let mut missing = 1;
        while missing > 0 {
            if bytes[end] < FIRST_VARIABLE {
                missing += self.arities[bytes[end] as usize] as usize;
            }
            missing -= 1;
            end += 1;
        }
        end
    }

    /// The term with one subterm, at a random position, replaced by a random one of at most `size` nodes.
    fn mutated(&self, random: &mut Random, term: &[u8], size: usize, variables: usize) -> Vec<u8> {
        let start = random.below(term.len());
        let end = self.term_end(term, start);
        let mut result = term[..start].to_vec();
        self.append_term(random, size, variables, &mut result);
        result.extend_from_slice(&term[end..]);
        result
    }
}

/// The term with each variable replaced by its value.
fn instance(term: &[u8], values: &[Vec<u8>]) -> Vec<u8> {
    let mut result = Vec::new();
    for &byte in term {
        if byte >= FIRST_VARIABLE {
            result.extend_from_slice(&values[(byte - FIRST_VARIABLE) as usize]);
        } else {
            result.push(byte);
        }
    }
    result
}

/// Both sides of an equation within the limits of a sheet.
pub type Sides = (Vec<u8>, Vec<u8>);

pub fn random_sides(random: &mut Random, signature: &Signature) -> Sides {
    let variables = random.pick(&[0, 1, 2, 2, 3, 3, 4, 5, 8, 10, VARIABLES, VARIABLES]);
    let size = random.pick(&[1, 2, 3, 5, 5, 7, 7, 9, 12, 16, 24, 32]);
    let left = signature.term(random, size, variables);
    let right = match random.below(11) {
        0 | 1 => {
            let size = random.from_to(1, size);
            signature.term(random, size, variables)
        }
        // The same term with its variables permuted.
        2 | 3 => {
            let shift = random.from_to(1, VARIABLES - 1);
            renumbered(&left, shift, variables)
        }
        4 => signature.mutated(random, &left, 3, variables),
        5 => {
            let start = random.below(left.len());
            left[start..signature.term_end(&left, start)].to_vec()
        }
        6..=9 => return law(random, signature).unwrap_or((left.clone(), left)),
        _ => {
            let mutated = signature.mutated(random, &left, 5, variables);
            signature.mutated(random, &mutated, 5, variables)
        }
    };
    let (left, right) = if random.chance(50) { (left, right) } else { (right, left) };
    if left.len() > SIDE_NODES || right.len() > SIDE_NODES { random_sides(random, signature) } else { (left, right) }
}

/// The term with the numbers of its variables shifted, round the first `variables` ones.
fn renumbered(term: &[u8], shift: usize, variables: usize) -> Vec<u8> {
    let shifted = |byte: u8| FIRST_VARIABLE + (((byte - FIRST_VARIABLE) as usize + shift) % variables) as u8;
    term.iter().map(|&byte| if byte < FIRST_VARIABLE { byte } else { shifted(byte) }).collect()
}

/// Sides whose variables need not be the first ones: most laws and most short terms have few of them, and all numbers
/// are to be met.
fn random_sides_anywhere(random: &mut Random, signature: &Signature) -> Sides {
    let (left, right) = random_sides(random, signature);
    if random.chance(60) {
        return (left, right);
    }
    let shift = random.from_to(1, VARIABLES - 1);
    (renumbered(&left, shift, VARIABLES), renumbered(&right, shift, VARIABLES))
}

/// Arities for equations with lines of 40 and 41 elements: a and c are constants, c above all.
pub const LONG_LINES: [u8; 5] = [0, 2, 4, 3, 0];

/// f(x, y, c) = f(g(z, z, z, z), g(x, x, z, z), g(y, y, y, y)), which has a line with x and y bound and c > z
/// forty times; with `excess` another argument makes it forty-one.
pub fn long_line(excess: bool) -> Sides {
    let (pair, g, f, c) = (1, 2, 3, 4);
    let (x, y, z) = (0x80, 0x81, 0x82);
    let mut right = vec![f, g, z, z, z, z, g, x, x, z, z, g, y, y, y];
    right.extend(if excess { vec![pair, y, z] } else { vec![y] });
    (vec![f, x, y, c], right)
}

/// A law of algebra written with random symbols of the right arities.
fn law(random: &mut Random, signature: &Signature) -> Option<Sides> {
    if signature.arities == LONG_LINES && random.chance(50) {
        return Some(long_line(random.chance(30)));
    }
    if random.chance(20) {
        return law_with_extra_variables(random, signature);
    }
    let pick = |random: &mut Random, arity: usize| signature.pick(random, arity);
    let constant = pick(random, 0)?;
    let (x, y, z) = (0x80, 0x81, 0x82);
    let sides = if let (true, Some(i)) = (random.chance(25), pick(random, 3)) {
        let (u, v) = (0x83, 0x84);
        (vec![i, i, x, y, z, u, v], vec![i, x, i, y, u, v, i, z, u, v])
    } else if let (true, Some(n)) = (random.chance(30), pick(random, 1)) {
        match pick(random, 2) {
            Some(f) if random.chance(40) => (vec![n, f, x, y], vec![f, n, y, n, x]),
            // Doubles its argument, so that a run can outgrow its limit.
            Some(f) if random.chance(70) => (vec![n, x], vec![f, x, x]),
            _ => (vec![n, n, x], vec![x]),
        }
    } else {
        let (f, g) = (pick(random, 2)?, pick(random, 2)?);
        match random.below(8) {
            0 => (vec![f, x, y], vec![f, y, x]),
            1 => (vec![f, f, x, y, z], vec![f, x, f, y, z]),
            2 => (vec![f, x, f, y, z], vec![f, y, f, x, z]),
            3 => (vec![f, x, g, y, z], vec![g, f, x, y, f, x, z]),
            4 => (vec![f, x, x], vec![x]),
            5 => (vec![f, constant, x], vec![x]),
            6 => (vec![f, x, g, y, z], vec![g, x, f, y, z]),
            _ => (vec![f, f, x, y, f, z, y], vec![f, f, z, y, f, x, x]),
        }
    };
    Some(sides)
}

/// A law where one side, or each, has a variable that the other lacks.
fn law_with_extra_variables(random: &mut Random, signature: &Signature) -> Option<Sides> {
    let (x, y, z, u) = (0x80, 0x81, 0x82, 0x83);
    let f = signature.pick(random, 2)?;
    let (left, right) = match random.below(7) {
        // Can be taken at each such symbol of a subject, which makes long runs.
        0 | 1 => (vec![signature.pick(random, 1)?, x], vec![f, x, y]),
        2 => {
            let n = signature.pick(random, 1)?;
            (vec![f, x, n, x], vec![f, y, n, y])
        }
        3 => (vec![f, x, x], vec![f, y, y]),
        4 => (vec![f, x, y], vec![signature.pick(random, 2)?, z, x]),
        5 => (vec![signature.pick(random, 0)?], vec![f, x, y]),
        // Grows, so that a run can outgrow its limit.
        _ => (vec![f, x, y], vec![signature.pick(random, 3)?, x, f, y, z, u]),
    };
    Some(if random.chance(50) { (left, right) } else { (right, left) })
}

fn equation_frame(sides: &Sides) -> Vec<u8> {
    let mut frame = vec![2];
    frame.extend_from_slice(&sides.0);
    frame.extend_from_slice(&sides.1);
    frame
}

/// The count of values that a judgement of an equation gives.
fn value_count(sides: &Sides) -> usize {
    let variables = sides.0.iter().chain(&sides.1).filter(|&&byte| byte >= FIRST_VARIABLE);
    variables.map(|&byte| (byte - FIRST_VARIABLE) as usize + 1).max().unwrap_or(0)
}

fn solves(signature: &Signature, sides: &Sides, walker: &mut Walker) -> bool {
    let bytes = [&sides.0[..], &sides.1].concat();
    let equation = Equation::new(&bytes, sides.0.len() as u8, &signature.padded_arities());
    walker.walk(&equation, 0).is_ok() && walker.walk(&equation, 1).is_ok()
}

/// One side with the other one beside it where a symbol and the count of nodes allow it. That one is equal to itself, so
/// that one direction always holds, which shows before a refusal.
fn beside_target(random: &mut Random, signature: &Signature, (left, right): Sides) -> Sides {
    let binary = signature.symbols(|arity| arity == 2);
    if binary.is_empty() || left.len() + right.len() >= SIDE_NODES {
        return (left, right);
    }
    let beside = [&[random.pick(&binary)], &right[..], &left].concat();
    if random.chance(50) { (beside, right) } else { (left, beside) }
}

fn valid_frames(random: &mut Random) -> Vec<Vec<u8>> {
    let signature = Signature::random(random);
    let mut walker = Walker::new();
    let equation_count = random.pick(&[1, 1, 2, 2, 3, 3, 4, 6, 9, 16]);
    let refusals_wanted = random.chance(15);
    let mut equations = Vec::new();
    while equations.len() < equation_count {
        let sides = random_sides_anywhere(random, &signature);
        // Seldom an equation that is refused, for it hides all else that the sheet asks for.
        if solves(&signature, &sides, &mut walker) {
            equations.push(sides);
        } else if refusals_wanted {
            equations.push(if random.chance(60) { beside_target(random, &signature, sides) } else { sides });
        }
    }
    let mut frames = vec![signature.frame()];
    frames.extend(equations.iter().map(equation_frame));
    let task_count = random.pick(&[0, 1, 2, 4, 8, 16, 32]);
    for _ in 0..task_count {
        frames.push(match random.below(3) {
            0 => run_frame(random, &signature, &equations),
            1 => judgement_frame(random, &signature, &equations),
            _ => comparison_frame(random, &signature),
        });
    }
    frames
}

fn ground_size(random: &mut Random, most: usize) -> usize {
    random.pick(&[1, 2, 3, 5, 8, 13, 20, 40, 79, 120, most]).min(most)
}

fn values(random: &mut Random, signature: &Signature, count: usize, most: usize) -> Vec<Vec<u8>> {
    let size = ground_size(random, most / count.max(1));
    let mut values: Vec<Vec<u8>> = Vec::new();
    for _ in 0..count {
        // Equal values make bindings hold.
        let value = match values.last() {
            Some(last) if random.chance(30) => last.clone(),
            Some(last) if random.chance(20) => {
                let mutated = signature.mutated(random, last, 2, 0);
                if mutated.len() > most / count { last.clone() } else { mutated }
            }
            _ => {
                let size = random.from_to(1, size);
                signature.term(random, size, 0)
            }
        };
        values.push(value);
    }
    values
}

fn run_frame(random: &mut Random, signature: &Signature, equations: &[Sides]) -> Vec<u8> {
    let size = ground_size(random, TASK_NODES);
    let mut subject = if random.chance(30) { signature.term(random, size, 0) } else { vec![] };
    // Instances of sides, each within the next, so that equations can match at several positions.
    for _ in 0..random.pick(&[1, 1, 2, 3, 6]) {
        let sides = &equations[random.below(equations.len())];
        let side = if random.chance(50) { &sides.0 } else { &sides.1 };
        let mut values = values(random, signature, value_count(sides), TASK_NODES / 2);
        if !subject.is_empty() && !values.is_empty() {
            let variable = random.below(values.len());
            values[variable] = subject.clone();
        }
        let larger = instance(side, &values);
        if larger.len() <= TASK_NODES {
            subject = larger;
        }
    }
    if subject.is_empty() {
        subject = signature.term(random, TASK_NODES, 0);
    }
    let any = random.byte();
    let limit = random.pick(&[0, 1, 2, 5, 20, 100, 255, any]);
    [&[3, limit], &subject[..]].concat()
}

fn judgement_frame(random: &mut Random, signature: &Signature, equations: &[Sides]) -> Vec<u8> {
    let number = random.below(equations.len());
    let mut frame = vec![4, number as u8, random.below(2) as u8];
    for value in values(random, signature, value_count(&equations[number]), TASK_NODES) {
        frame.extend_from_slice(&value);
    }
    frame
}

fn comparison_frame(random: &mut Random, signature: &Signature) -> Vec<u8> {
    let size = ground_size(random, TASK_NODES - 1);
    let left = signature.term(random, size, 0);
    let mut right = match random.below(9) {
        0 | 1 => left.clone(),
        2..=5 => signature.mutated(random, &left, 4, 0),
        // The same arguments below another symbol, which L2 decides; the other pairs seldom ask for it alone.
        6 => {
            let arity = signature.arities[left[0] as usize];
            let symbol = random.pick(&signature.symbols(|other| other == arity as usize));
            [&[symbol], &left[1..]].concat()
        }
        _ => {
            let size = ground_size(random, TASK_NODES - left.len());
            signature.term(random, size, 0)
        }
    };
    if left.len() + right.len() > TASK_NODES {
        right = signature.term(random, TASK_NODES - left.len(), 0);
    }
    let (left, right) = if random.chance(50) { (left, right) } else { (right, left) };
    [&[5], &left[..], &right].concat()
}

/// The bytes on either side of the class of variables.
const LOW: u8 = FIRST_VARIABLE - 1;
const HIGH: u8 = LAST_VARIABLE + 1;

/// Damage that keeps the text a list of frames.
fn damage_frames(random: &mut Random, frames: &mut Vec<Vec<u8>>) {
    let index = random.below(frames.len());
    let arities: Vec<u8> = frames[0][2..].to_vec();
    let constant = arities.iter().position(|&arity| arity == 0).unwrap_or(0) as u8;
    let unary = arities.iter().position(|&arity| arity == 1).map(|symbol| symbol as u8);
    match random.below(19) {
        0 => {
            let at = random.below(frames[index].len());
            frames[index][at] = random.byte();
        }
        1 => {
            let at = random.below(frames[index].len());
            frames[index][at] =
                random.pick(&[0, 1, 2, 3, 4, 5, 15, 16, 0xff, LOW, FIRST_VARIABLE, LAST_VARIABLE, HIGH]);
        }
        2 => {
            let at = random.below(frames[index].len() + 1);
            frames[index].insert(at, random.pick(&[0, 1, 2, FIRST_VARIABLE, LAST_VARIABLE, 0x10]));
        }
        3 if frames[index].len() > 1 => {
            let at = random.below(frames[index].len());
            frames[index].remove(at);
        }
        4 => {
            let length = random.from_to(1, frames[index].len());
            frames[index].truncate(length);
        }
        5 if frames.len() > 1 => {
            frames.remove(index);
        }
        6 => {
            let other = random.below(frames.len());
            frames.swap(index, other);
        }
        7 => frames.insert(index, frames[index].clone()),
        // Too many equations, or too many tasks.
        8 => {
            let equation = frames.iter().position(|frame| frame[0] == 2).unwrap_or(0);
            let copies = random.from_to(14, 17);
            for _ in 0..copies {
                frames.insert(equation, frames[equation].clone());
            }
        }
        9 => {
            let task = vec![5, constant, constant];
            let copies = random.from_to(1, 33);
            frames.extend(std::iter::repeat_n(task, copies));
        }
        // A side, or the terms of a task, of a size at the limit.
        10 => {
            let nodes = random.from_to(30, 35);
            let side = tower(unary, constant, nodes);
            let frame = if random.chance(50) {
                [&[2], &side[..], &[constant]].concat()
            } else {
                [&[2, constant], &side[..]].concat()
            };
            frames.insert(1, frame);
        }
        11 => {
            let nodes = random.from_to(157, 162);
            let first = random.from_to(1, nodes - 1);
            let frame = if random.chance(50) {
                [&[3, 5], &tower(unary, constant, nodes)[..]].concat()
            } else {
                [&[5], &tower(unary, constant, first)[..], &tower(unary, constant, nodes - first)].concat()
            };
            frames.push(frame);
        }
        12 => frames
            .push(random.pick(&[&[4][..], &[4, 0], &[4, 0xff], &[4, 0, 2], &[4, 16, 0], &[3], &[3, 0], &[5]]).to_vec()),
        13 => {
            let equation = random.below(18) as u8;
            let variable = FIRST_VARIABLE + random.below(VARIABLES) as u8;
            frames.push(vec![4, equation, random.below(3) as u8, constant, variable]);
        }
        // A variable in what may be a ground term, or the byte behind the last one; often, since there are many of them.
        14 | 17 | 18 => {
            let index = frames.len() - 1;
            let at = random.below(frames[index].len());
            frames[index][at] = FIRST_VARIABLE + random.below(VARIABLES + 1) as u8;
        }
        15 => {
            let counts = random.pick(&[0, 1, 16, 17, 255]);
            frames[0] = [&[1, counts][..], &vec![0; random.from_to(0, 18)]].concat();
        }
        _ => {
            let arity = random.pick(&[0, 1, 4, 5, 255]);
            let at = random.below(frames[0].len());
            frames[0][at] = arity;
        }
    }
}

/// A tower of a unary symbol over a constant; without such a symbol the constant repeated, which is no term.
fn tower(unary: Option<u8>, constant: u8, nodes: usize) -> Vec<u8> {
    let mut tower = vec![unary.unwrap_or(constant); nodes];
    tower[nodes - 1] = constant;
    tower
}

/// Damage to the bytes of the text.
fn damage_text(random: &mut Random, text: &mut Vec<u8>) {
    let at = random.below(text.len());
    match random.below(13) {
        0 => text[at] ^= 1 << random.below(8),
        1 => {
            for _ in 0..random.from_to(2, 10) {
                let at = random.below(text.len());
                text[at] ^= 1 << random.below(8);
            }
        }
        2 => text.truncate(at),
        3 => text[at] = random.byte(),
        4 => {
            text.remove(at);
        }
        5 => text.insert(at, random.pick(b"\n\r 0aFg\0/:`")),
        6 => text[at] = random.pick(b"\n\r 0aFg\0/:`"),
        7 => {
            text.pop();
        }
        8 => {
            let blank = random.pick(&[&b"\n"[..], b"\r\n", b" \n", b"00\n", b"06\n", b"1f\n", b"0\n"]);
            text.extend_from_slice(blank);
        }
        // A line of about the longest length.
        9 => {
            let digits = random.from_to(322, 330);
            text.extend(std::iter::repeat_n(b'0', digits));
            text.push(b'\n');
        }
        10 => {
            for byte in text.iter_mut().filter(|byte| byte.is_ascii_lowercase()) {
                *byte = byte.to_ascii_uppercase();
            }
        }
        // A sheet of about the greatest length.
        11 => {
            let length = random.from_to(SHEET_BYTES - 2, SHEET_BYTES + 2);
            let mut filler = b"050000\n".iter().cycle();
            while text.len() < length {
                text.push(*filler.next().unwrap());
            }
            text.truncate(length);
        }
        _ => {
            let end = random.from_to(at, text.len());
            let part = text[at..end].to_vec();
            text.extend_from_slice(&part);
        }
    }
}
