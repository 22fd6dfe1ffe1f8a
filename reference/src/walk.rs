//! The walk that solves s > t: lines, turns, unification.

use crate::limits::*;
use crate::nodes::{Equation, Node};

/// An equality or an inequality between two positions.
///
/// The high bit of the first position marks an equality; positions are below 64. A fully reduced line has
/// inequalities only, so its elements are pairs of positions just as a table record holds them.
#[derive(Clone, Copy, Debug, Default, PartialEq, Eq)]
#[repr(C)]
pub struct Element {
    left: u8,
    right: u8,
}

const EQUALITY: u8 = 0x80;

impl Element {
    fn equality(left: u8, right: u8) -> Element {
        Element { left: left | EQUALITY, right }
    }

    fn inequality(left: u8, right: u8) -> Element {
        Element { left, right }
    }

    fn is_equality(self) -> bool {
        self.left & EQUALITY != 0
    }

    pub fn left(self) -> u8 {
        self.left & !EQUALITY
    }

    pub fn right(self) -> u8 {
        self.right
    }
}

/// A line of the table.
///
/// Its elements stand in two parts with a gap between them: `..reduced`, which are fully reduced under the
/// bindings, and `open..`, the first of which is the next to be looked at. So replacing an element by several
/// moves no other element.
#[derive(Clone, Copy)]
#[repr(C, align(16))]
pub struct Line {
    bindings: [u8; VARIABLES],
    /// The set of bound variables.
    bound: VariableSet,
    reduced: u8,
    open: u8,
    elements: [Element; ELEMENTS],
}

impl Line {
    const EMPTY: Line = Line {
        bindings: [NONE; VARIABLES],
        bound: 0,
        reduced: 0,
        open: ELEMENTS as u8,
        elements: [Element { left: 0, right: 0 }; ELEMENTS],
    };

    /// The line that a walk begins with.
    fn opening(source: u8, target: u8) -> Line {
        let mut line = Line::EMPTY;
        line.open -= 1;
        line.elements[ELEMENTS - 1] = Element::inequality(source, target);
        line
    }

    /// The bound variables, ascending, each with the position it is bound to.
    pub fn bindings(&self) -> impl Iterator<Item = (usize, u8)> + '_ {
        let mut rest = self.bound;
        std::iter::from_fn(move || {
            let variable = rest.trailing_zeros() as usize;
            let position = *self.bindings.get(variable)?;
            rest &= rest - 1;
            Some((variable, position))
        })
    }

    pub fn binding_count(&self) -> usize {
        self.bound.count_ones() as usize
    }

    /// The elements of a finished line.
    pub fn elements(&self) -> &[Element] {
        &self.elements[..self.reduced as usize]
    }

    /// Writes a finished line as a table record.
    pub fn write_record(&self, record: &mut [u8]) {
        record.fill(NONE);
        record[..VARIABLES].copy_from_slice(&self.bindings);
        record[VARIABLES] = self.reduced;
        for (pair, element) in record[VARIABLES + 1..].chunks_exact_mut(2).zip(self.elements()) {
            pair[0] = element.left;
            pair[1] = element.right;
        }
    }
}

/// The pairs of terms that one unification has gone into, so that it does not go into them again.
///
/// Where bindings double terms, as in x = f(y, y), y = f(z, z), the same pair is met twice as often with each of them.
/// What was unified once stays so, since bindings are only added.
struct Pairs {
    /// How many pairs are still gone into without being remembered. Two terms as they stand in the equation have no
    /// more than these, so only those seen through bindings have to be remembered.
    before: usize,
    /// For each position the set of positions that it was paired with; empty as long as `before` is not 0.
    met: [u64; EQUATION_NODES],
}

const _: () = assert!(EQUATION_NODES <= u64::BITS as usize);

impl Pairs {
    fn new() -> Pairs {
        Pairs { before: SIDE_NODES, met: [0; EQUATION_NODES] }
    }

    /// Forgets all pairs.
    fn clear(&mut self) {
        if self.before == 0 {
            self.met = [0; EQUATION_NODES];
        }
        self.before = SIDE_NODES;
    }

    /// Whether a pair of positions has to be gone into.
    fn is_new(&mut self, left: u8, right: u8) -> bool {
        if self.before > 0 {
            self.before -= 1;
            return true;
        }
        // Positions are below 64; the mask tells this to the compiler.
        let met = &mut self.met[left as usize & (EQUATION_NODES - 1)];
        let pair = 1 << right;
        let new = *met & pair == 0;
        *met |= pair;
        new
    }
}

/// What the first unfinished line asks for.
enum Treatment {
    /// All elements are fully reduced; this costs no turn.
    Finished,
    Unify(Element),
    DeleteLine,
    DeleteElement,
    /// An inequality between two terms that are not variables, and the positions of these terms.
    Split(Element, u8, u8),
}

impl Line {
    fn length(&self) -> usize {
        self.reduced as usize + ELEMENTS - self.open as usize
    }

    /// Whether the line has neither binding nor element. Such a line is finished, as it has nothing to be treated.
    fn is_empty(&self) -> bool {
        self.bound == 0 && self.length() == 0
    }

    /// The position reached from `position` through the bindings, and the node there.
    fn reach(&self, equation: &Equation, mut position: u8) -> (u8, Node) {
        loop {
            let node = equation.node(position);
            if !node.is_variable() || self.bindings[node.variable()] == NONE {
                return (position, node);
            }
            position = self.bindings[node.variable()];
        }
    }

    /// Whether a variable occurs in the term at `node`, seen through the bindings.
    fn occurs(&self, equation: &Equation, variable: usize, node: Node) -> bool {
        let mut seen = node.variables;
        let mut bound = seen & self.bound;
        while bound != 0 {
            let position = self.bindings[bound.trailing_zeros() as usize];
            bound &= bound - 1;
            let variables = equation.node(position).variables;
            bound |= variables & !seen & self.bound;
            seen |= variables;
        }
        seen & 1 << variable != 0
    }

    /// Moves the gap behind the elements that are fully reduced and tells what the first other one asks for.
    // Both kinds of walk call it and `split`. Left to itself the compiler puts them into neither, and a turn takes a
    // fifth longer.
    #[inline(always)]
    fn next_treatment(&mut self, equation: &Equation) -> Treatment {
        while (self.open as usize) < ELEMENTS {
            let element = self.elements[self.open as usize];
            if element.is_equality() {
                return Treatment::Unify(element);
            }
            let (left, left_node) = self.reach(equation, element.left());
            let (right, right_node) = self.reach(equation, element.right());
            if left_node.is_variable() {
                // A variable occurs in itself, so this covers equal variables.
                if self.occurs(equation, left_node.variable(), right_node) {
                    return Treatment::DeleteLine;
                }
            } else if right_node.is_variable() {
                if self.occurs(equation, right_node.variable(), left_node) {
                    return Treatment::DeleteElement;
                }
            } else {
                return Treatment::Split(element, left, right);
            }
            self.elements[self.reduced as usize] = element;
            self.reduced += 1;
            self.open += 1;
        }
        Treatment::Finished
    }

    /// After a new binding all elements must be looked at again.
    fn look_again(&mut self) {
        let reduced = self.reduced as usize;
        let open = self.open as usize;
        self.elements.copy_within(..reduced, open - reduced);
        self.open = (open - reduced) as u8;
        self.reduced = 0;
    }

    /// Unifies the terms at two positions, left argument first; no unifier gives false.
    fn unify(&mut self, equation: &Equation, pairs: &mut Pairs, left: u8, right: u8) -> bool {
        let (left, left_node) = self.reach(equation, left);
        let (right, right_node) = self.reach(equation, right);
        if left == right {
            return true;
        }
        match (left_node.is_variable(), right_node.is_variable()) {
            (true, true) => {
                if left_node.byte < right_node.byte {
                    self.bind(left_node.variable(), right);
                } else if left_node.byte > right_node.byte {
                    self.bind(right_node.variable(), left);
                }
                true
            }
            (true, false) => self.bind_to_term(equation, left_node.variable(), right, right_node),
            (false, true) => self.bind_to_term(equation, right_node.variable(), left, left_node),
            (false, false) => {
                if left_node.byte != right_node.byte {
                    return false;
                }
                if left_node.arity == 0 || !pairs.is_new(left, right) {
                    return true;
                }
                let mut left_argument = left + 1;
                let mut right_argument = right + 1;
                for _ in 0..left_node.arity {
                    if !self.unify(equation, pairs, left_argument, right_argument) {
                        return false;
                    }
                    left_argument = equation.node(left_argument).next;
                    right_argument = equation.node(right_argument).next;
                }
                true
            }
        }
    }

    fn bind(&mut self, variable: usize, position: u8) {
        self.bindings[variable] = position;
        self.bound |= 1 << variable;
    }

    fn bind_to_term(&mut self, equation: &Equation, variable: usize, position: u8, node: Node) -> bool {
        if self.occurs(equation, variable, node) {
            return false;
        }
        self.bind(variable, position);
        true
    }

    /// A copy of the line with its first open element replaced. The caller has checked that there is room.
    fn write_choice(&self, choice: &[Element], slot: &mut Line) {
        *slot = *self;
        let open = self.open as usize + 1 - choice.len();
        slot.open = open as u8;
        for (i, &element) in choice.iter().enumerate() {
            slot.elements[open + i] = element;
        }
    }
}

/// A walk that comes to no table.
#[derive(Clone, Copy, Debug, PartialEq, Eq)]
pub enum Excess {
    /// A turn beyond the limit.
    Turns,
    /// A line would get this many elements.
    Elements(usize),
    /// A turn would leave this many lines.
    Lines(usize),
}

impl Excess {
    pub fn refusal_number(self) -> u8 {
        match self {
            Excess::Turns => 8,
            Excess::Elements(_) => 9,
            Excess::Lines(_) => 10,
        }
    }
}

/// What a walk went through, also one that ended in an excess; for choosing equations at the limits.
#[derive(Clone, Copy, Debug, Default, PartialEq, Eq)]
pub struct Measure {
    /// Turns completed.
    pub turns: u32,
    /// Lines of the largest table after a turn.
    pub lines: usize,
    /// Elements of the longest line.
    pub elements: usize,
}

/// Working memory of a walk. It can serve any number of walks, one after another.
pub struct Walker {
    /// The unfinished lines as a stack, the first line of the table on top.
    stack: Vec<Line>,
    /// The finished lines before them.
    finished: Vec<Line>,
    pairs: Pairs,
    measure: Measure,
}

impl Default for Walker {
    fn default() -> Walker {
        Walker::new()
    }
}

impl Walker {
    pub fn new() -> Walker {
        Walker {
            stack: vec![Line::EMPTY; LINES],
            finished: Vec::with_capacity(LINES),
            pairs: Pairs::new(),
            measure: Measure::default(),
        }
    }

    /// The finished lines of the last walk; of one that stopped, those before the line that was treated last.
    pub fn lines(&self) -> &[Line] {
        &self.finished
    }

    /// The measure of the last walk.
    pub fn measure(&self) -> Measure {
        self.measure
    }

    /// Solves source > target for one direction of an equation and gives the count of turns.
    pub fn walk(&mut self, equation: &Equation, direction: u8) -> Result<u32, Excess> {
        self.walk_up_to(TURNS, equation, direction)
    }

    /// The same with another limit of turns.
    pub fn walk_up_to(&mut self, limit: u32, equation: &Equation, direction: u8) -> Result<u32, Excess> {
        self.go::<false>(limit, equation, direction)?;
        Ok(self.measure.turns)
    }

    /// Walks only until the table has an empty line. Gives whether it came to have one, and the count of turns by then
    /// or, without one, of the whole walk.
    pub fn always(&mut self, equation: &Equation, direction: u8) -> Result<(bool, u32), Excess> {
        self.always_up_to(TURNS, equation, direction)
    }

    /// The same with another limit of turns.
    pub fn always_up_to(&mut self, limit: u32, equation: &Equation, direction: u8) -> Result<(bool, u32), Excess> {
        let stopped = self.go::<true>(limit, equation, direction)?;
        Ok((stopped, self.measure.turns))
    }

    /// Walks to the end or, with `STOP`, until the table has an empty line; tells whether it stopped. `STOP` is a
    /// constant so that a walk to the end does not pay for it.
    fn go<const STOP: bool>(&mut self, limit: u32, equation: &Equation, direction: u8) -> Result<bool, Excess> {
        let (source, target) = equation.source_and_target(direction);
        self.finished.clear();
        self.stack[0] = Line::opening(source, target);
        self.measure = Measure { turns: 0, lines: 1, elements: 1 };
        let mut height = 1;
        while height > 0 {
            let line = &mut self.stack[height - 1];
            let treatment = line.next_treatment(equation);
            if let Treatment::Finished = treatment {
                self.finished.push(*line);
                height -= 1;
                continue;
            }
            if self.measure.turns == limit {
                return Err(Excess::Turns);
            }
            self.measure.turns += 1;
            let place = height - 1;
            match treatment {
                Treatment::Finished => unreachable!(),
                Treatment::DeleteLine => height -= 1,
                Treatment::DeleteElement => line.open += 1,
                Treatment::Unify(element) => {
                    line.open += 1;
                    let bound = line.bound;
                    self.pairs.clear();
                    if !line.unify(equation, &mut self.pairs, element.left(), element.right()) {
                        height -= 1;
                    } else if line.bound != bound {
                        line.look_again();
                    }
                }
                Treatment::Split(element, left, right) => {
                    height = self.split(equation, height, element, left, right)?;
                }
            }
            if STOP && self.made_empty_line(place, height) {
                return Ok(true);
            }
        }
        Ok(false)
    }

    /// Whether a turn made an empty line. The line that it treated lay at `place` on the stack, which now has this
    /// height.
    ///
    /// The whole table need not be looked over, since a turn changes no other line: the first empty line is one of
    /// those that take the place of the treated one. Of several only the last can be empty, for the only choice
    /// without elements is that of a symbol above a constant, which comes last. The last line lies lowest, at `place`.
    /// Where the stack does not reach above it, the line was deleted and what lies there means nothing.
    fn made_empty_line(&self, place: usize, height: usize) -> bool {
        height > place && self.stack[place].is_empty()
    }

    /// Replaces the line on top of the stack by one line for each way in which its first open element, an
    /// inequality between the terms at `left` and `right`, can be true. Gives the new height of the stack.
    // As for `next_treatment`.
    #[inline(always)]
    fn split(
        &mut self,
        equation: &Equation,
        height: usize,
        element: Element,
        left: u8,
        right: u8,
    ) -> Result<usize, Excess> {
        let (left_symbol, left_arguments) = arguments(equation, left);
        let (right_symbol, right_arguments) = arguments(equation, right);
        let (m, n) = (left_arguments.count, right_arguments.count);
        let (last_choices, last_length) = match left_symbol.cmp(&right_symbol) {
            std::cmp::Ordering::Greater => (1, n),
            std::cmp::Ordering::Equal => (n, n),
            std::cmp::Ordering::Less => (0, 0),
        };
        let choices = 2 * m + last_choices;

        let parent = self.stack[height - 1];
        let longest = parent.length() - 1 + last_length;
        if longest > ELEMENTS {
            return Err(Excess::Elements(longest));
        }
        let lines = self.finished.len() + height - 1 + choices;
        if lines > LINES {
            return Err(Excess::Lines(lines));
        }
        self.measure.elements = self.measure.elements.max(longest);
        self.measure.lines = self.measure.lines.max(lines);

        // The first choice comes to lie on top.
        let mut slots = self.stack[height - 1..height - 1 + choices].iter_mut().rev();
        for i in 0..m {
            let argument = left_arguments.positions[i];
            for choice in [Element::inequality(argument, element.right), Element::equality(argument, element.right)] {
                let slot = slots.next().unwrap();
                *slot = parent;
                slot.elements[parent.open as usize] = choice;
            }
        }
        let mut choice = [Element::default(); ARITY];
        for k in 0..last_choices {
            for i in 0..n {
                let argument = right_arguments.positions[i];
                choice[i] = if left_symbol > right_symbol || i > k {
                    Element::inequality(element.left, argument)
                } else if i == k {
                    Element::inequality(left_arguments.positions[i], argument)
                } else {
                    Element::equality(left_arguments.positions[i], argument)
                };
            }
            parent.write_choice(&choice[..n], slots.next().unwrap());
        }
        Ok(height - 1 + choices)
    }
}

/// The positions of the arguments of a node.
struct Arguments {
    positions: [u8; ARITY],
    count: usize,
}

/// The symbol at a position and the positions of its arguments.
fn arguments(equation: &Equation, position: u8) -> (u8, Arguments) {
    let node = equation.node(position);
    let mut arguments = Arguments { positions: [0; ARITY], count: node.arity as usize & 7 };
    let mut next = position + 1;
    for slot in arguments.positions.iter_mut().take(arguments.count) {
        *slot = next;
        next = equation.node(next).next;
    }
    (node.byte, arguments)
}

#[cfg(test)]
mod tests {
    use super::*;

    /// Two chains of five bindings x = f(y, y, y, y) over all twelve variables: the first terms of both have 1,024
    /// leaves each, and 341 pairs of their subterms are met. Five of these pairs are different.
    #[test]
    fn doubled_terms_are_gone_into_once() {
        let mut arities = [0; SYMBOLS];
        arities[1] = 4;
        let x = |number: u8| FIRST_VARIABLE + number;
        let mut bytes = vec![x(0), x(6)];
        let mut line = Line::EMPTY;
        for number in (0..5).chain(6..11) {
            line.bind(number as usize, bytes.len() as u8);
            bytes.extend([1, x(number + 1), x(number + 1), x(number + 1), x(number + 1)]);
        }
        let equation = Equation::new(&bytes, 1, &arities);
        let mut pairs = Pairs::new();
        for _ in 0..3 {
            let mut line = line;
            pairs.clear();
            assert!(line.unify(&equation, &mut pairs, 0, 1));
            // x5 is bound to the first place of x11.
            let unified = line.bindings[5];
            assert_eq!((equation.node(unified).byte, line.binding_count()), (x(11), 11));
            let remembered: u32 = pairs.met.iter().map(|met| met.count_ones()).sum();
            assert!(pairs.before == 0 && remembered <= 5, "{remembered}");
            // x11 now occurs in all of them, and x5 is no longer asked for.
            assert!((0..5).all(|number| line.occurs(&equation, 11, equation.node(line.bindings[number]))));
            assert!(!line.occurs(&equation, 0, equation.node(line.bindings[0])));
        }
    }

    #[test]
    fn a_chain_of_twelve_variables_is_followed() {
        let bytes: Vec<u8> = (FIRST_VARIABLE..=LAST_VARIABLE).collect();
        let equation = Equation::new(&bytes, 1, &[0; SYMBOLS]);
        let mut line = Line::EMPTY;
        let mut pairs = Pairs::new();
        for position in 0..VARIABLES as u8 - 1 {
            assert!(line.unify(&equation, &mut pairs, position, position + 1));
        }
        let last = VARIABLES - 1;
        assert_eq!(
            line.bindings().collect::<Vec<_>>(),
            (0..last).map(|number| (number, number as u8 + 1)).collect::<Vec<_>>()
        );
        assert_eq!(line.reach(&equation, 0).0, last as u8);
        assert!(line.occurs(&equation, last, equation.node(0)));
    }
}
