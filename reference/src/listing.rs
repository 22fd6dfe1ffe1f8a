//! The program's listing of a sheet.

use crate::ground;
use crate::limits::*;
use crate::nodes::Equation;
use crate::rewrite::{self, Solved};
use crate::sheet::{self, Refusal, Sheet, Task};

/// The listing of a sheet, whole.
pub fn listing(input: &[u8]) -> Vec<u8> {
    let mut out = Listing { text: Vec::new() };
    if let Err(refusal) = out.sheet(input) {
        // Refusals are met before the first frame is written.
        let [high, low] = refusal.line.to_be_bytes();
        out.frame(&[&[0xff, refusal.number, high, low]]);
    }
    out.text
}

struct Listing {
    text: Vec<u8>,
}

impl Listing {
    fn sheet(&mut self, input: &[u8]) -> Result<(), Refusal> {
        let sheet = sheet::read(input)?;
        let solved = rewrite::solve_all(&sheet)?;
        self.solutions(&solved);
        self.tasks(&sheet, &solved);
        Ok(())
    }

    fn solutions(&mut self, solved: &Solved) {
        for direction in &solved.directions {
            let equation = &solved.equations[direction.equation];
            let lines = solved.lines(direction);
            let [high, low] = (direction.turns as u16).to_be_bytes();
            self.frame(&[&[0x11, direction.equation as u8, direction.direction, lines.len() as u8, high, low]]);
            for line in lines {
                self.digits(&[0x12, line.binding_count() as u8]);
                for (variable, position) in line.bindings() {
                    self.digits(&[FIRST_VARIABLE + variable as u8]);
                    self.term(equation, position);
                }
                self.digits(&[line.elements().len() as u8]);
                for element in line.elements() {
                    self.term(equation, element.left());
                    self.term(equation, element.right());
                }
                self.text.push(b'\n');
            }
        }
    }

    fn tasks(&mut self, sheet: &Sheet, solved: &Solved) {
        let mut scratch = vec![0; SCRATCH_BYTES];
        let mut all_steps = 0;
        for task in sheet.tasks() {
            match *task {
                Task::Run { limit, term } => {
                    let run = rewrite::run(solved, limit, sheet.bytes(term), &sheet.arities, &mut scratch);
                    for step in run.log().chunks_exact(3) {
                        self.frame(&[&[0x14], step]);
                    }
                    self.frame(&[&[0x13, run.ending as u8, run.steps() as u8], run.term()]);
                    all_steps += run.steps();
                }
                Task::Judgement { equation, direction, values } => {
                    let values = sheet.bytes(values);
                    let line =
                        rewrite::judge(solved, equation as usize, direction, values, &sheet.arities, &mut scratch);
                    self.frame(&[&[0x15, (line > 0) as u8, line as u8]]);
                }
                Task::Comparison { left, right } => {
                    let (left, right) = (sheet.bytes(left), sheet.bytes(right));
                    let decision = ground::decide_terms(left, right, &sheet.arities, &mut scratch);
                    self.frame(&[&[0x16], &decision.numbers()]);
                }
            }
        }
        let [high, low] = (all_steps as u16).to_be_bytes();
        self.frame(&[&[0x1f, high, low]]);
    }

    /// Writes one frame, given in parts, and its LF.
    fn frame(&mut self, parts: &[&[u8]]) {
        for part in parts {
            self.digits(part);
        }
        self.text.push(b'\n');
    }

    /// Writes the term at a position as it stands in the equation.
    fn term(&mut self, equation: &Equation, position: u8) {
        for node in &equation.nodes[position as usize..equation.node(position).next as usize] {
            self.digits(&[node.byte]);
        }
    }

    fn digits(&mut self, bytes: &[u8]) {
        const DIGITS: &[u8; 16] = b"0123456789abcdef";
        for &byte in bytes {
            self.text.extend_from_slice(&[DIGITS[byte as usize >> 4], DIGITS[byte as usize & 15]]);
        }
    }
}
