//! The fixed numbers of the sheet, the walk, the runs and the lent buffers.

/// Longest sheet, in bytes of text.
pub const SHEET_BYTES: usize = 16_384;
/// Longest frame: 326 digits, two for each byte.
pub const FRAME_BYTES: usize = 163;

pub const SYMBOLS: usize = 16;
pub const ARITY: usize = 4;
pub const VARIABLES: usize = 12;
pub const EQUATIONS: usize = 16;
pub const DIRECTIONS: usize = 2 * EQUATIONS;
pub const TASKS: usize = 32;

/// Most nodes of one side of an equation.
pub const SIDE_NODES: usize = 32;
/// Most nodes of an equation, both sides together.
pub const EQUATION_NODES: usize = 2 * SIDE_NODES;
/// Most nodes of the terms of one task together, and of the subject of a run.
pub const TASK_NODES: usize = 160;
/// Positions that a ground comparison under an equation can speak about: the equation, the ground terms, a constant.
pub const POSITIONS: usize = EQUATION_NODES + TASK_NODES + 1;
/// One verdict for each pair of positions.
pub const CELLS: usize = POSITIONS * POSITIONS;

/// Most turns of a walk.
pub const TURNS: u32 = 10_000;
/// Most elements of a line.
pub const ELEMENTS: usize = 40;
/// Most lines of a table.
pub const LINES: usize = 255;
/// Most steps of a run.
pub const STEPS: usize = 255;

/// A binding position for each variable, the element count, a pair of positions for each element.
pub const RECORD_BYTES: usize = VARIABLES + 1 + 2 * ELEMENTS;
/// A position that is not there, in a table record.
pub const NONE: u8 = 0xff;

pub const TABLE_BYTES: usize = LINES * RECORD_BYTES;
pub const SCRATCH_BYTES: usize = 57_344;
pub const TERM_BYTES: usize = TASK_NODES;
pub const LOG_BYTES: usize = 3 * STEPS;

/// First byte of the class of variables; a symbol is below it.
pub const FIRST_VARIABLE: u8 = 0x80;
/// Last byte of the class of variables; what is above it is foreign.
pub const LAST_VARIABLE: u8 = FIRST_VARIABLE + (VARIABLES - 1) as u8;

/// A set of variables, a bit for each.
pub type VariableSet = u16;
const _: () = assert!(VARIABLES <= VariableSet::BITS as usize);
