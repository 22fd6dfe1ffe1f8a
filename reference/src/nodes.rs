//! Terms in prefix form, with what the walk and the comparison want to know about each position.

use crate::limits::*;

/// One position of a term in prefix form.
#[derive(Clone, Copy, Debug, Default)]
pub struct Node {
    /// The symbol or variable there.
    pub byte: u8,
    pub arity: u8,
    /// The position behind the term that begins here.
    pub next: u8,
    /// The set of variables of the term that begins here.
    pub variables: VariableSet,
}

impl Node {
    pub fn is_variable(self) -> bool {
        self.byte >= FIRST_VARIABLE
    }

    /// The number of the variable there, from 0.
    pub fn variable(self) -> usize {
        (self.byte - FIRST_VARIABLE) as usize
    }
}

/// Fills `nodes[base..]` for a sequence of whole terms whose first position is `base`.
pub fn index(bytes: &[u8], arities: &[u8; SYMBOLS], nodes: &mut [Node], base: usize) {
    // From the right, so that the arguments of a node are indexed before it.
    for (offset, &byte) in bytes.iter().enumerate().rev() {
        let position = base + offset;
        let mut next = position + 1;
        let mut node = Node { byte, ..Node::default() };
        if byte < FIRST_VARIABLE {
            node.arity = arities[byte as usize & 15];
            for _ in 0..node.arity {
                let argument = nodes[next];
                node.variables |= argument.variables;
                next = argument.next as usize;
            }
        } else {
            node.variables = 1 << node.variable();
        }
        node.next = next as u8;
        nodes[position] = node;
    }
}

/// An equation ready to be walked and matched.
#[derive(Clone)]
pub struct Equation {
    /// The nodes of the left side, then of the right side.
    pub nodes: [Node; EQUATION_NODES],
    /// Nodes of the left side, which is the position of the right side.
    pub left: u8,
    /// Nodes of both sides.
    pub length: u8,
}

impl Equation {
    pub fn new(sides: &[u8], left: u8, arities: &[u8; SYMBOLS]) -> Equation {
        let mut nodes = [Node::default(); EQUATION_NODES];
        index(sides, arities, &mut nodes, 0);
        Equation { nodes, left, length: sides.len() as u8 }
    }

    pub fn node(&self, position: u8) -> Node {
        // Positions are below 64; the mask tells this to the compiler.
        self.nodes[position as usize & (EQUATION_NODES - 1)]
    }

    /// The position of the source and of the target of a direction.
    pub fn source_and_target(&self, direction: u8) -> (u8, u8) {
        if direction == 0 { (0, self.left) } else { (self.left, 0) }
    }
}
