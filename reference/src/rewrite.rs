//! Solving all directions of a sheet, judging values, running a term.

use crate::ground::{CONSTANT, FIRST_GROUND, Ground, Values};
use crate::limits::*;
use crate::nodes::{Equation, Node};
use crate::sheet::{Refusal, Sheet};
use crate::walk::{Line, Walker};
use std::ops::Range;

/// All equations of a sheet with the tables of both their directions.
pub struct Solved {
    pub equations: Vec<Equation>,
    /// For each equation and direction, in order.
    pub directions: Vec<Direction>,
    lines: Vec<Line>,
}

/// One direction of an equation, and its table.
pub struct Direction {
    pub equation: usize,
    pub direction: u8,
    pub turns: u32,
    lines: Range<usize>,
}

impl Solved {
    pub fn lines(&self, direction: &Direction) -> &[Line] {
        &self.lines[direction.lines.clone()]
    }

    pub fn direction(&self, equation: usize, direction: u8) -> &Direction {
        &self.directions[2 * equation + direction as usize]
    }
}

/// An equation of a sheet, ready for the walk.
pub fn equation(sheet: &Sheet, number: usize) -> Equation {
    let frame = &sheet.equations()[number];
    Equation::new(sheet.bytes(frame.sides), frame.left, &sheet.arities)
}

/// Walks every equation and direction, in order.
pub fn solve_all(sheet: &Sheet) -> Result<Solved, Refusal> {
    let mut walker = Walker::new();
    let count = sheet.equations().len();
    let mut solved =
        Solved { equations: Vec::with_capacity(count), directions: Vec::with_capacity(2 * count), lines: Vec::new() };
    for (number, frame) in sheet.equations().iter().enumerate() {
        let equation = equation(sheet, number);
        for direction in 0..2 {
            let turns = walker
                .walk(&equation, direction)
                .map_err(|excess| Refusal { number: excess.refusal_number(), line: frame.line })?;
            let start = solved.lines.len();
            solved.lines.extend_from_slice(walker.lines());
            let lines = start..solved.lines.len();
            solved.directions.push(Direction { equation: number, direction, turns, lines });
        }
        solved.equations.push(equation);
    }
    Ok(solved)
}

/// The number, from 1, of the first line of a direction that holds at ground values; 0 where none does. The
/// values stand one behind the other, from variable 80.
pub fn judge(
    solved: &Solved,
    equation: usize,
    direction: u8,
    values: &[u8],
    arities: &[u8; SYMBOLS],
    scratch: &mut [u8],
) -> usize {
    let mut ground = Ground::new(scratch);
    ground.set_terms(values, arities);
    let mut positions = Values::default();
    let mut position = FIRST_GROUND;
    let mut variable = 0;
    while ((position - FIRST_GROUND) as usize) < values.len() {
        positions.add(variable, position);
        position = ground.node(position).next;
        variable += 1;
    }
    ground.set_equation(&solved.equations[equation], positions);
    let lines = solved.lines(solved.direction(equation, direction));
    lines.iter().position(|line| ground.holds(line)).map_or(0, |index| index + 1)
}

#[derive(Clone, Copy, Debug, PartialEq, Eq)]
pub enum Ending {
    NoneFound = 0,
    LimitReached = 1,
    TooLarge = 2,
}

/// The outcome of a run.
pub struct Run {
    log: [u8; LOG_BYTES],
    steps: usize,
    pub ending: Ending,
    term: [u8; TERM_BYTES],
    length: usize,
}

impl Run {
    pub fn steps(&self) -> usize {
        self.steps
    }

    /// Equation, direction and position of each step.
    pub fn log(&self) -> &[u8] {
        &self.log[..3 * self.steps]
    }

    pub fn term(&self) -> &[u8] {
        &self.term[..self.length]
    }
}

/// What a run looks for: the directions that can be taken at all.
struct Rules<'a> {
    solved: &'a Solved,
    /// For each symbol the set of directions with a line, whose source can match a term with that symbol.
    candidates: [u32; SYMBOLS],
    /// For each direction the value of every variable of its target that its source lacks: the constant.
    filling: [Values; DIRECTIONS],
}

/// A step found: the direction's index and the positions of the values of the variables.
struct Step {
    direction: usize,
    position: u8,
    values: Values,
}

impl<'a> Rules<'a> {
    fn new(solved: &'a Solved) -> Rules<'a> {
        let mut rules = Rules { solved, candidates: [0; SYMBOLS], filling: [Values::default(); DIRECTIONS] };
        for (index, direction) in solved.directions.iter().enumerate() {
            if direction.lines.is_empty() {
                continue;
            }
            let equation = &solved.equations[direction.equation];
            let (source, target) = equation.source_and_target(direction.direction);
            let (source, target) = (equation.node(source), equation.node(target));
            for (symbol, set) in rules.candidates.iter_mut().enumerate() {
                if source.is_variable() || source.byte as usize == symbol {
                    *set |= 1 << index;
                }
            }
            let mut extra = target.variables & !source.variables;
            while extra != 0 {
                rules.filling[index].add(extra.trailing_zeros() as usize, CONSTANT);
                extra &= extra - 1;
            }
        }
        rules
    }

    /// The first step that the subject allows.
    fn find(&self, ground: &mut Ground, length: usize) -> Option<Step> {
        for position in FIRST_GROUND..FIRST_GROUND + length as u8 {
            let mut candidates = self.candidates[ground.node(position).byte as usize & 15];
            while candidates != 0 {
                let index = candidates.trailing_zeros() as usize;
                candidates &= candidates - 1;
                let direction = &self.solved.directions[index];
                let equation = &self.solved.equations[direction.equation];
                let source = equation.source_and_target(direction.direction).0;
                if let Some(values) = match_source(equation, source, self.filling[index], ground, position) {
                    ground.set_equation(equation, values);
                    if self.solved.lines(direction).iter().any(|line| ground.holds(line)) {
                        return Some(Step { direction: index, position, values });
                    }
                }
            }
        }
        None
    }
}

/// Matches the source side with the ground term at a position: the positions of the values of its variables, beside
/// the values given to the others.
fn match_source(equation: &Equation, source: u8, mut values: Values, ground: &Ground, position: u8) -> Option<Values> {
    let mut at = position;
    // Arities are fixed, so as long as the symbols agree both prefix forms run side by side.
    for pattern in side(equation, source) {
        let node = ground.node(at);
        if pattern.is_variable() {
            let value = values.get(pattern.variable());
            if value == 0 {
                values.add(pattern.variable(), at);
            } else if ground.term(value) != ground.term(at) {
                return None;
            }
            at = node.next;
        } else {
            if pattern.byte != node.byte {
                return None;
            }
            at += 1;
        }
    }
    Some(values)
}

/// The nodes of the side that begins at a position.
fn side(equation: &Equation, position: u8) -> &[Node] {
    &equation.nodes[position as usize..equation.node(position).next as usize]
}

/// The lowest symbol of arity 0. Every sheet has one, so it comes before the zeros beyond the last symbol.
fn lowest_constant(arities: &[u8; SYMBOLS]) -> u8 {
    arities.iter().position(|&arity| arity == 0).expect("a constant") as u8
}

/// Runs a ground term, at most `limit` steps. A variable of the target that the source lacks takes the lowest constant.
pub fn run(solved: &Solved, limit: u8, subject: &[u8], arities: &[u8; SYMBOLS], scratch: &mut [u8]) -> Run {
    let rules = Rules::new(solved);
    let mut ground = Ground::new(scratch);
    ground.set_constant(lowest_constant(arities));
    let mut run =
        Run { log: [0; LOG_BYTES], steps: 0, ending: Ending::NoneFound, term: [0; TERM_BYTES], length: subject.len() };
    run.term[..subject.len()].copy_from_slice(subject);
    loop {
        ground.set_terms(run.term(), arities);
        let Some(step) = rules.find(&mut ground, run.length) else {
            run.ending = Ending::NoneFound;
            return run;
        };
        if run.steps == limit as usize {
            run.ending = Ending::LimitReached;
            return run;
        }
        let Some(length) = replace(solved, &step, &ground, &mut run.term, run.length) else {
            run.ending = Ending::TooLarge;
            return run;
        };
        run.length = length;
        let direction = &solved.directions[step.direction];
        let entry = [direction.equation as u8, direction.direction, step.position - FIRST_GROUND];
        run.log[3 * run.steps..3 * run.steps + 3].copy_from_slice(&entry);
        run.steps += 1;
    }
}

/// Replaces the matched part of the subject, which `ground` holds too, by the target's instance and gives the
/// new length; nothing where the result would be too large.
fn replace(
    solved: &Solved,
    step: &Step,
    ground: &Ground,
    subject: &mut [u8; TERM_BYTES],
    length: usize,
) -> Option<usize> {
    let direction = &solved.directions[step.direction];
    let equation = &solved.equations[direction.equation];
    let target = side(equation, equation.source_and_target(direction.direction).1);
    let start = (step.position - FIRST_GROUND) as usize;
    let end = start + ground.term(step.position).len();
    let instance: usize = target
        .iter()
        .map(|node| if node.is_variable() { ground.term(step.values.get(node.variable())).len() } else { 1 })
        .sum();
    let new_length = length - (end - start) + instance;
    if new_length > TASK_NODES {
        return None;
    }
    subject.copy_within(end..length, start + instance);
    let mut at = start;
    for node in target {
        if node.is_variable() {
            let value = ground.term(step.values.get(node.variable()));
            subject[at..at + value.len()].copy_from_slice(value);
            at += value.len();
        } else {
            subject[at] = node.byte;
            at += 1;
        }
    }
    Some(new_length)
}
