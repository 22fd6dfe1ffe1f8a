//! Reading a sheet: digits, frames, terms.

use crate::limits::*;
use std::ops::Range;

/// A refusal number and the line it names (0 where none is named).
#[derive(Clone, Copy, Debug, PartialEq, Eq)]
pub struct Refusal {
    pub number: u8,
    pub line: u16,
}

impl Refusal {
    pub fn new(number: u8, line: usize) -> Refusal {
        Refusal { number, line: line as u16 }
    }

    /// The number that a call returns for it.
    pub fn code(self) -> u64 {
        self.number as u64 | (self.line as u64) << 8
    }
}

/// A range of bytes of the decoded sheet.
#[derive(Clone, Copy, Debug, Default, PartialEq, Eq)]
pub struct Span {
    start: u16,
    end: u16,
}

impl Span {
    fn new(start: usize, end: usize) -> Span {
        Span { start: start as u16, end: end as u16 }
    }

    fn range(self) -> Range<usize> {
        self.start as usize..self.end as usize
    }
}

/// An equation frame. Both sides lie one behind the other in `sides`.
#[derive(Clone, Copy, Debug, Default)]
pub struct EquationFrame {
    pub sides: Span,
    /// Nodes of the left side.
    pub left: u8,
    /// How many values a judgement of it gives: one more than the number of its highest variable, or 0.
    pub values: u8,
    /// Its line in the sheet.
    pub line: u16,
}

#[derive(Clone, Copy, Debug)]
pub enum Task {
    Run { limit: u8, term: Span },
    Judgement { equation: u8, direction: u8, values: Span },
    Comparison { left: Span, right: Span },
}

/// A sheet that earned no refusal.
pub struct Sheet {
    /// Arities of the symbols; 0 beyond the last symbol.
    pub arities: [u8; SYMBOLS],
    symbols: u8,
    equations: [EquationFrame; EQUATIONS],
    equation_count: usize,
    tasks: [Task; TASKS],
    task_count: usize,
    /// The frames of all lines, decoded, one behind the other.
    bytes: Vec<u8>,
}

impl Sheet {
    pub fn equations(&self) -> &[EquationFrame] {
        &self.equations[..self.equation_count]
    }

    pub fn tasks(&self) -> &[Task] {
        &self.tasks[..self.task_count]
    }

    pub fn bytes(&self, span: Span) -> &[u8] {
        &self.bytes[span.range()]
    }
}

/// The value of each digit byte, `NOT_A_DIGIT` for the other bytes.
const DIGIT: [u8; 256] = {
    let mut table = [NOT_A_DIGIT; 256];
    let mut value = 0;
    while value < 16 {
        table[b"0123456789abcdef"[value] as usize] = value as u8;
        value += 1;
    }
    table
};
const NOT_A_DIGIT: u8 = 0xff;

/// Reads a whole sheet, or finds the first refusal out of 1 to 7.
pub fn read(text: &[u8]) -> Result<Sheet, Refusal> {
    if text.is_empty() || text.len() > SHEET_BYTES {
        return Err(Refusal::new(1, 0));
    }
    let mut sheet = Sheet {
        arities: [0; SYMBOLS],
        symbols: 0,
        equations: [EquationFrame::default(); EQUATIONS],
        equation_count: 0,
        tasks: [Task::Run { limit: 0, term: Span::default() }; TASKS],
        task_count: 0,
        // Two digits make a byte, and a last line may break off after one digit.
        bytes: vec![0; text.len() / 2 + 1],
    };
    let mut offset = 0;
    let mut filled = 0;
    let mut line = 0;
    while offset < text.len() {
        line += 1;
        let frame = &mut sheet.bytes[filled..];
        let Some(length) = decode_line(&text[offset..], frame) else {
            return Err(Refusal::new(2, line));
        };
        offset += 2 * length + 1;
        let span = filled..filled + length;
        filled += length;
        if let Err(number) = sheet.take_frame(span, line) {
            return Err(Refusal::new(number, line));
        }
    }
    if sheet.equation_count == 0 {
        return Err(Refusal::new(3, line));
    }
    Ok(sheet)
}

/// Decodes the digits up to the next LF into `frame` and gives the count of bytes, or nothing where the line is
/// not an even count, 2 to 326, of digits followed by LF.
fn decode_line(text: &[u8], frame: &mut [u8]) -> Option<usize> {
    let mut length = 0;
    for (pair, byte) in text.chunks_exact(2).zip(frame.iter_mut()).take(FRAME_BYTES) {
        let high = DIGIT[pair[0] as usize];
        let low = DIGIT[pair[1] as usize];
        if (high | low) == NOT_A_DIGIT {
            break;
        }
        *byte = high << 4 | low;
        length += 1;
    }
    if length > 0 && text.get(2 * length) == Some(&b'\n') { Some(length) } else { None }
}

impl Sheet {
    /// Takes in the frame at `span`; the error is the refusal number.
    fn take_frame(&mut self, span: Range<usize>, line: usize) -> Result<(), u8> {
        // What a frame adds to the sheet is written at the end, so the frame can be borrowed meanwhile.
        let frame = &self.bytes[span.clone()];
        let kind = frame[0];
        let first = line == 1;
        let reader = Terms { frame, start: span.start, arities: &self.arities, symbols: self.symbols };
        match kind {
            1 if first => self.take_symbols(span),
            2 if !first && self.task_count == 0 && self.equation_count < EQUATIONS => {
                let equation = reader.equation(line)?;
                self.equations[self.equation_count] = equation;
                self.equation_count += 1;
                Ok(())
            }
            3..=5 if self.equation_count > 0 && self.task_count < TASKS => {
                let task = match kind {
                    3 => reader.run()?,
                    4 => reader.judgement(&self.equations[..self.equation_count])?,
                    _ => reader.comparison()?,
                };
                self.tasks[self.task_count] = task;
                self.task_count += 1;
                Ok(())
            }
            _ => Err(3),
        }
    }

    fn take_symbols(&mut self, span: Range<usize>) -> Result<(), u8> {
        let frame = &self.bytes[span];
        let count = *frame.get(1).ok_or(4)? as usize;
        let arities = &frame[2..];
        let sound = (1..=SYMBOLS).contains(&count)
            && arities.len() == count
            && arities.iter().all(|&arity| arity as usize <= ARITY)
            && arities.contains(&0);
        if !sound {
            return Err(4);
        }
        self.symbols = count as u8;
        self.arities[..count].copy_from_slice(arities);
        Ok(())
    }
}

/// A frame whose terms are to be read.
struct Terms<'a> {
    frame: &'a [u8],
    /// Where the frame begins in the decoded sheet.
    start: usize,
    arities: &'a [u8; SYMBOLS],
    symbols: u8,
}

impl Terms<'_> {
    /// The end of the term at `at`, which may have at most `room` nodes. `variables` collects the set of its
    /// variables; in a ground term a variable is refused.
    fn term<const GROUND: bool>(&self, at: usize, room: usize, variables: &mut VariableSet) -> Result<usize, u8> {
        let mut end = at;
        let mut missing = 1;
        for &byte in &self.frame[at..] {
            if end - at == room {
                return Err(5);
            }
            match byte {
                0x00..=0x0f if byte < self.symbols => missing += self.arities[byte as usize] as usize,
                FIRST_VARIABLE..=LAST_VARIABLE => {
                    if GROUND {
                        return Err(6);
                    }
                    *variables |= 1 << (byte - FIRST_VARIABLE);
                }
                _ => return Err(5),
            }
            end += 1;
            missing -= 1;
            if missing == 0 {
                return Ok(end);
            }
        }
        Err(5)
    }

    fn ground(&self, at: usize, room: usize) -> Result<usize, u8> {
        self.term::<true>(at, room, &mut 0)
    }

    /// The part of the frame from `from` to `to`, as a part of the decoded sheet.
    fn span(&self, from: usize, to: usize) -> Span {
        Span::new(self.start + from, self.start + to)
    }

    /// Bytes after the last term are refused.
    fn end_at(&self, end: usize) -> Result<(), u8> {
        if end == self.frame.len() { Ok(()) } else { Err(5) }
    }

    fn equation(&self, line: usize) -> Result<EquationFrame, u8> {
        let mut variables = 0;
        let middle = self.term::<false>(1, SIDE_NODES, &mut variables)?;
        let end = self.term::<false>(middle, SIDE_NODES, &mut variables)?;
        self.end_at(end)?;
        Ok(EquationFrame {
            sides: self.span(1, end),
            left: (middle - 1) as u8,
            values: (VariableSet::BITS - variables.leading_zeros()) as u8,
            line: line as u16,
        })
    }

    fn run(&self) -> Result<Task, u8> {
        let limit = *self.frame.get(1).ok_or(5)?;
        let end = self.ground(2, TASK_NODES)?;
        self.end_at(end)?;
        Ok(Task::Run { limit, term: self.span(2, end) })
    }

    fn judgement(&self, equations: &[EquationFrame]) -> Result<Task, u8> {
        if self.frame.len() < 3 {
            return Err(5);
        }
        let (equation, direction) = (self.frame[1], self.frame[2]);
        if equation as usize >= equations.len() || direction > 1 {
            return Err(7);
        }
        let mut end = 3;
        for _ in 0..equations[equation as usize].values {
            end = self.ground(end, TASK_NODES + 3 - end)?;
        }
        self.end_at(end)?;
        Ok(Task::Judgement { equation, direction, values: self.span(3, end) })
    }

    fn comparison(&self) -> Result<Task, u8> {
        let middle = self.ground(1, TASK_NODES)?;
        let end = self.ground(middle, TASK_NODES + 1 - middle)?;
        self.end_at(end)?;
        Ok(Task::Comparison { left: self.span(1, middle), right: self.span(middle, end) })
    }
}
