//! The lexicographic path ordering on ground terms, with one verdict kept for each pair of positions.

use crate::limits::*;
use crate::nodes::{self, Equation, Node};
use crate::walk::Line;
use std::cmp::Ordering;

/// A clause by which one term exceeds another.
#[derive(Clone, Copy, Debug, PartialEq, Eq)]
pub enum Clause {
    L1 = 1,
    L2 = 2,
    L3 = 3,
}

/// What comes of a comparison: the verdict and, unless the terms are equal, the first clause by which the greater one
/// exceeds the other.
#[derive(Clone, Copy, Debug, PartialEq, Eq)]
pub enum Decision {
    Smaller(Clause),
    Equal,
    Greater(Clause),
}

impl Decision {
    /// The verdict, 0 smaller, 1 equal, 2 greater, and the clause, 0 for equal.
    pub fn numbers(self) -> [u8; 2] {
        match self {
            Decision::Smaller(clause) => [0, clause as u8],
            Decision::Equal => [1, 0],
            Decision::Greater(clause) => [2, clause as u8],
        }
    }
}

/// First position of the ground terms; the positions below it belong to an equation.
pub const FIRST_GROUND: u8 = EQUATION_NODES as u8;

/// Position of a constant behind the ground terms, for a value that does not occur in them.
pub const CONSTANT: u8 = FIRST_GROUND + TASK_NODES as u8;

/// The positions of the values of variables, one byte for each; 0 is no position of a value.
///
/// They are kept in one number, for they are written one by one and then handed on together at once, which is slow
/// through memory.
#[derive(Clone, Copy, Default)]
pub struct Values(u128);

const _: () = assert!(8 * VARIABLES <= u128::BITS as usize);

impl Values {
    pub fn get(self, variable: usize) -> u8 {
        (self.0 >> (8 * variable)) as u8
    }

    /// Sets the value of a variable that has none yet.
    pub fn add(&mut self, variable: usize, position: u8) {
        self.0 |= (position as u128) << (8 * variable);
    }
}

/// Ground terms and one equation seen through values of its variables.
///
/// Positions 0 to 63 are those of the equation, 64 to 223 those of the ground terms, 224 is that of a constant. A
/// position of the equation that holds a variable stands for the position of the variable's value.
pub struct Ground<'a> {
    /// As long as a byte can count, so that indexing by a byte needs no check.
    nodes: [Node; 256],
    /// The bytes of the ground terms and, last, the constant.
    bytes: [u8; TASK_NODES + 1],
    values: Values,
    /// One verdict for each pair of positions, in the row of the smaller position; 0 where none is known.
    cells: &'a mut [u8; CELLS],
    /// Which rows hold verdicts about the present terms; the others are cleared when first used.
    ready: [bool; 256],
}

impl<'a> Ground<'a> {
    /// Verdicts are kept in `scratch`, whose former bytes do not matter.
    pub fn new(scratch: &'a mut [u8]) -> Ground<'a> {
        Ground {
            nodes: [Node::default(); 256],
            bytes: [0; TASK_NODES + 1],
            values: Values::default(),
            cells: scratch.first_chunk_mut().expect("scratch has a cell for each pair of positions"),
            ready: [false; 256],
        }
    }

    /// Sets the ground terms, which stand one behind the other from position 64.
    pub fn set_terms(&mut self, terms: &[u8], arities: &[u8; SYMBOLS]) {
        self.bytes[..terms.len()].copy_from_slice(terms);
        nodes::index(terms, arities, &mut self.nodes, FIRST_GROUND as usize);
        self.ready = [false; 256];
    }

    /// Sets the constant at position 224.
    pub fn set_constant(&mut self, constant: u8) {
        self.bytes[TASK_NODES] = constant;
        self.nodes[CONSTANT as usize] = Node { byte: constant, next: CONSTANT + 1, ..Node::default() };
    }

    /// Sets two ground terms, together at most 160 nodes, and gives their positions.
    fn set_pair(&mut self, left: &[u8], right: &[u8], arities: &[u8; SYMBOLS]) -> (u8, u8) {
        let mut terms = [0; TASK_NODES];
        let length = left.len() + right.len();
        terms[..left.len()].copy_from_slice(left);
        terms[left.len()..length].copy_from_slice(right);
        self.set_terms(&terms[..length], arities);
        (FIRST_GROUND, FIRST_GROUND + left.len() as u8)
    }

    /// Sets the equation and the positions of the values of its variables.
    pub fn set_equation(&mut self, equation: &Equation, values: Values) {
        self.nodes[..EQUATION_NODES].copy_from_slice(&equation.nodes);
        self.values = values;
        self.ready[..EQUATION_NODES].fill(false);
    }

    pub fn node(&self, position: u8) -> Node {
        self.nodes[position as usize]
    }

    /// The bytes of the ground term, or of the constant, at a position.
    pub fn term(&self, position: u8) -> &[u8] {
        let end = self.node(position).next;
        &self.bytes[(position - FIRST_GROUND) as usize..(end - FIRST_GROUND) as usize]
    }

    /// Whether a line of the equation's table holds at the values.
    pub fn holds(&mut self, line: &Line) -> bool {
        for (variable, position) in line.bindings() {
            if !self.identical(self.values.get(variable), position) {
                return false;
            }
        }
        for element in line.elements() {
            if self.order(element.left(), element.right()) != Ordering::Greater {
                return false;
            }
        }
        true
    }

    /// The position of the value where `position` holds a variable.
    fn instance(&self, position: u8) -> u8 {
        let node = self.node(position);
        if node.is_variable() { self.values.get(node.variable()) } else { position }
    }

    /// Whether two positions have identical instances.
    #[inline(always)]
    pub fn identical(&self, left: u8, right: u8) -> bool {
        let (left, right) = (self.instance(left), self.instance(right));
        let arity = self.node(left).arity;
        self.node(left).byte == self.node(right).byte
            && (arity == 0 || left == right || self.identical_arguments(left, right, arity))
    }

    /// The same for two positions with the same symbol.
    fn identical_arguments(&self, left: u8, right: u8, arity: u8) -> bool {
        if left >= FIRST_GROUND && right >= FIRST_GROUND {
            return self.term(left) == self.term(right);
        }
        let (mut left, mut right) = (left + 1, right + 1);
        for _ in 0..arity {
            if !self.identical(left, right) {
                return false;
            }
            left = self.node(left).next;
            right = self.node(right).next;
        }
        true
    }

    /// How the instances of two positions are ordered.
    ///
    /// The precedence being total, so is the ordering on ground terms; where L2 or L3 fails for want of s > tj,
    /// then tj is s or exceeds it, and t > s by L1. So each pair needs one verdict out of three.
    #[inline]
    pub fn order(&mut self, left: u8, right: u8) -> Ordering {
        let (left, right) = (self.instance(left), self.instance(right));
        match left.cmp(&right) {
            Ordering::Less => self.order_of_pair(left, right),
            Ordering::Equal => Ordering::Equal,
            Ordering::Greater => self.order_of_pair(right, left).reverse(),
        }
    }

    /// The same for two positions without variables, the smaller position first.
    #[inline]
    fn order_of_pair(&mut self, left: u8, right: u8) -> Ordering {
        let (left_node, right_node) = (self.node(left), self.node(right));
        if left_node.arity | right_node.arity == 0 {
            return left_node.byte.cmp(&right_node.byte);
        }
        if self.ready[left as usize] {
            match self.cells[left as usize * POSITIONS + right as usize] {
                1 => return Ordering::Less,
                2 => return Ordering::Equal,
                3 => return Ordering::Greater,
                _ => {}
            }
        }
        self.decide(left, right)
    }

    /// Decides a pair of positions whose verdict is not known yet, and keeps the verdict.
    #[inline(never)]
    fn decide(&mut self, left: u8, right: u8) -> Ordering {
        let row = left as usize * POSITIONS;
        if !self.ready[left as usize] {
            self.cells[row..row + POSITIONS].fill(0);
            self.ready[left as usize] = true;
        }
        let (left_node, right_node) = (self.node(left), self.node(right));
        let verdict = match left_node.byte.cmp(&right_node.byte) {
            Ordering::Less if self.exceeds_arguments(right, left + 1, left_node.arity) => Ordering::Less,
            Ordering::Less => Ordering::Greater,
            Ordering::Equal => self.order_by_arguments(left, right, left_node.arity),
            Ordering::Greater if self.exceeds_arguments(left, right + 1, right_node.arity) => Ordering::Greater,
            Ordering::Greater => Ordering::Less,
        };
        self.cells[row + right as usize] = (verdict as i8 + 2) as u8;
        verdict
    }

    /// Whether the term at `position` exceeds `count` arguments, the first of which is at `argument`.
    fn exceeds_arguments(&mut self, position: u8, mut argument: u8, count: u8) -> bool {
        for _ in 0..count {
            if self.order(position, argument) != Ordering::Greater {
                return false;
            }
            argument = self.node(argument).next;
        }
        true
    }

    /// The order of two terms with the same symbol: the first arguments that differ decide, provided that the
    /// term with the greater one exceeds the arguments of the other behind it.
    fn order_by_arguments(&mut self, left: u8, right: u8, arity: u8) -> Ordering {
        let (mut left_argument, mut right_argument) = (left + 1, right + 1);
        for rest in (0..arity).rev() {
            let verdict = self.order(left_argument, right_argument);
            left_argument = self.node(left_argument).next;
            right_argument = self.node(right_argument).next;
            let confirmed = match verdict {
                Ordering::Equal => continue,
                Ordering::Less => self.exceeds_arguments(right, left_argument, rest),
                Ordering::Greater => self.exceeds_arguments(left, right_argument, rest),
            };
            return if confirmed { verdict } else { verdict.reverse() };
        }
        Ordering::Equal
    }

    /// How two positions without variables are ordered, and by which clause.
    fn decision(&mut self, left: u8, right: u8) -> Decision {
        match self.order(left, right) {
            Ordering::Less => Decision::Smaller(self.clause(right, left)),
            Ordering::Equal => Decision::Equal,
            Ordering::Greater => Decision::Greater(self.clause(left, right)),
        }
    }

    /// The first clause by which the term at one position exceeds that at another; that it does so is known.
    ///
    /// L1 applies unless the smaller term exceeds every argument of the greater one, and is asked about even where
    /// another clause gave the verdict. Where it does not apply, the symbols tell which one does.
    fn clause(&mut self, greater: u8, smaller: u8) -> Clause {
        let (greater_node, smaller_node) = (self.node(greater), self.node(smaller));
        let (mut argument, mut count) = (greater + 1, greater_node.arity);
        let other = match greater_node.byte.cmp(&smaller_node.byte) {
            Ordering::Less => return Clause::L1,
            Ordering::Equal => {
                // The arguments before the first that differ are the smaller term's own, so it exceeds them.
                let mut own = smaller + 1;
                while self.order(argument, own) == Ordering::Equal {
                    argument = self.node(argument).next;
                    own = self.node(own).next;
                    count -= 1;
                }
                Clause::L3
            }
            Ordering::Greater => Clause::L2,
        };
        if self.exceeds_arguments(smaller, argument, count) { other } else { Clause::L1 }
    }
}

/// Compares two ground terms in prefix form, together at most 160 nodes: the verdict alone.
pub fn compare_terms(left: &[u8], right: &[u8], arities: &[u8; SYMBOLS], scratch: &mut [u8]) -> Ordering {
    let mut ground = Ground::new(scratch);
    let (left, right) = ground.set_pair(left, right, arities);
    ground.order(left, right)
}

/// The same with the clause.
pub fn decide_terms(left: &[u8], right: &[u8], arities: &[u8; SYMBOLS], scratch: &mut [u8]) -> Decision {
    let mut ground = Ground::new(scratch);
    let (left, right) = ground.set_pair(left, right, arities);
    ground.decision(left, right)
}
