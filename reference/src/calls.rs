//! The six calls. Each reads the lent sheet afresh and returns one number: the refusal in the lowest byte, then
//! 16-bit fields.

use crate::ground;
use crate::limits::*;
use crate::rewrite;
use crate::sheet::{self, Refusal, Sheet, Task};
use crate::walk::{Excess, Walker};

/// Three fields above a refusal byte of 0.
fn success(fields: [usize; 3]) -> u64 {
    (fields[0] as u64) << 8 | (fields[1] as u64) << 24 | (fields[2] as u64) << 40
}

fn code(outcome: Result<u64, Refusal>) -> u64 {
    outcome.unwrap_or_else(Refusal::code)
}

const TOO_SHORT: Refusal = Refusal { number: 11, line: 0 };
const ABSENT: Refusal = Refusal { number: 12, line: 0 };

/// Refuses a sheet, or gives 0.
pub fn check(sheet: &[u8]) -> u64 {
    code(sheet::read(sheet).map(|_| 0))
}

/// Solves one direction of an equation and writes the table. Gives lines and turns.
pub fn solve(sheet: &[u8], equation: u64, direction: u64, table: &mut [u8], scratch: &mut [u8]) -> u64 {
    code(try_solve(sheet, equation, direction, table, scratch))
}

fn try_solve(
    sheet: &[u8],
    equation: u64,
    direction: u64,
    table: &mut [u8],
    scratch: &mut [u8],
) -> Result<u64, Refusal> {
    if table.len() < TABLE_BYTES || scratch.len() < SCRATCH_BYTES {
        return Err(TOO_SHORT);
    }
    let sheet = sheet::read(sheet)?;
    let (number, direction) = find_direction(&sheet, equation, direction)?;
    let mut walker = Walker::new();
    let outcome = walker.walk(&rewrite::equation(&sheet, number), direction);
    scratch[..SCRATCH_BYTES].fill(0);
    match outcome {
        Ok(turns) => {
            for (record, line) in table.chunks_exact_mut(RECORD_BYTES).zip(walker.lines()) {
                line.write_record(record);
            }
            Ok(success([walker.lines().len(), turns as usize, 0]))
        }
        Err(excess) => {
            table[..TABLE_BYTES].fill(NONE);
            Err(refused_walk(&sheet, number, excess))
        }
    }
}

/// Tells whether one direction of an equation always holds, as far as an empty line of its table shows it; the table is
/// not written. Gives 1 or 0, and the turns taken by then.
pub fn always(sheet: &[u8], equation: u64, direction: u64, table: &mut [u8], scratch: &mut [u8]) -> u64 {
    code(try_always(sheet, equation, direction, table, scratch))
}

fn try_always(
    sheet: &[u8],
    equation: u64,
    direction: u64,
    table: &mut [u8],
    scratch: &mut [u8],
) -> Result<u64, Refusal> {
    if table.len() < TABLE_BYTES || scratch.len() < SCRATCH_BYTES {
        return Err(TOO_SHORT);
    }
    let sheet = sheet::read(sheet)?;
    let (number, direction) = find_direction(&sheet, equation, direction)?;
    let outcome = Walker::new().always(&rewrite::equation(&sheet, number), direction);
    table[..TABLE_BYTES].fill(NONE);
    scratch[..SCRATCH_BYTES].fill(0);
    match outcome {
        Ok((yes, turns)) => Ok(success([yes as usize, turns as usize, 0])),
        Err(excess) => Err(refused_walk(&sheet, number, excess)),
    }
}

/// Judges the values of a judgement. Gives 1 or 0, and the first holding line or 0.
pub fn judge(sheet: &[u8], task: u64, table: &mut [u8], scratch: &mut [u8]) -> u64 {
    code(try_judge(sheet, task, table, scratch))
}

fn try_judge(sheet: &[u8], task: u64, table: &mut [u8], scratch: &mut [u8]) -> Result<u64, Refusal> {
    if table.len() < TABLE_BYTES || scratch.len() < SCRATCH_BYTES {
        return Err(TOO_SHORT);
    }
    let sheet = sheet::read(sheet)?;
    let Some(Task::Judgement { equation, direction, values }) = find_task(&sheet, task) else {
        return Err(ABSENT);
    };
    let solved = rewrite::solve_all(&sheet);
    let outcome = solved.map(|solved| {
        rewrite::judge(&solved, equation as usize, direction, sheet.bytes(values), &sheet.arities, scratch)
    });
    table[..TABLE_BYTES].fill(NONE);
    scratch[..SCRATCH_BYTES].fill(0);
    outcome.map(|line| success([(line > 0) as usize, line, 0]))
}

/// Runs the term of a run task. Gives steps, ending and length of the last term.
pub fn run(sheet: &[u8], task: u64, table: &mut [u8], scratch: &mut [u8], term: &mut [u8], log: &mut [u8]) -> u64 {
    code(try_run(sheet, task, table, scratch, term, log))
}

fn try_run(
    sheet: &[u8],
    task: u64,
    table: &mut [u8],
    scratch: &mut [u8],
    term: &mut [u8],
    log: &mut [u8],
) -> Result<u64, Refusal> {
    if table.len() < TABLE_BYTES || scratch.len() < SCRATCH_BYTES || term.len() < TERM_BYTES || log.len() < LOG_BYTES {
        return Err(TOO_SHORT);
    }
    let sheet = sheet::read(sheet)?;
    let Some(Task::Run { limit, term: subject }) = find_task(&sheet, task) else {
        return Err(ABSENT);
    };
    let solved = rewrite::solve_all(&sheet);
    let outcome = solved.map(|solved| rewrite::run(&solved, limit, sheet.bytes(subject), &sheet.arities, scratch));
    table[..TABLE_BYTES].fill(NONE);
    scratch[..SCRATCH_BYTES].fill(0);
    let run = outcome?;
    term[..run.term().len()].copy_from_slice(run.term());
    log[..run.log().len()].copy_from_slice(run.log());
    Ok(success([run.steps(), run.ending as usize, run.term().len()]))
}

/// Compares the two terms of a comparison. Gives 0 smaller, 1 equal, 2 greater, and the clause, 1 to 3, or 0 for equal.
pub fn compare(sheet: &[u8], task: u64, scratch: &mut [u8]) -> u64 {
    code(try_compare(sheet, task, scratch))
}

fn try_compare(sheet: &[u8], task: u64, scratch: &mut [u8]) -> Result<u64, Refusal> {
    if scratch.len() < SCRATCH_BYTES {
        return Err(TOO_SHORT);
    }
    let sheet = sheet::read(sheet)?;
    let Some(Task::Comparison { left, right }) = find_task(&sheet, task) else {
        return Err(ABSENT);
    };
    let decision = ground::decide_terms(sheet.bytes(left), sheet.bytes(right), &sheet.arities, scratch);
    scratch[..SCRATCH_BYTES].fill(0);
    let [verdict, clause] = decision.numbers();
    Ok(success([verdict as usize, clause as usize, 0]))
}

/// An equation of the sheet and a direction of it, where these numbers name some.
fn find_direction(sheet: &Sheet, equation: u64, direction: u64) -> Result<(usize, u8), Refusal> {
    if equation >= sheet.equations().len() as u64 || direction > 1 {
        return Err(ABSENT);
    }
    Ok((equation as usize, direction as u8))
}

/// The refusal for a walk of an equation that came to no answer.
fn refused_walk(sheet: &Sheet, equation: usize, excess: Excess) -> Refusal {
    Refusal { number: excess.refusal_number(), line: sheet.equations()[equation].line }
}

fn find_task(sheet: &Sheet, task: u64) -> Option<Task> {
    sheet.tasks().get(usize::try_from(task).ok()?).copied()
}
