//! The product and the second implementation on the same sheet: each call, and the program's listing, is made on both sides, what they
//! give is compared, number and every byte, and given back.

use crate::{calls, program};
use reference::limits::{LOG_BYTES, SCRATCH_BYTES, TABLE_BYTES, TERM_BYTES};

/// Lent buffers, a little longer than needed.
#[derive(Clone, PartialEq, Eq)]
pub struct Buffers {
    pub table: Vec<u8>,
    pub scratch: Vec<u8>,
    pub term: Vec<u8>,
    pub log: Vec<u8>,
}

/// What the buffers hold before a call.
pub const FORMER: u8 = 0x5a;
const EXCESS: usize = 7;

impl Buffers {
    fn new() -> Buffers {
        let filled = |length| vec![FORMER; length + EXCESS];
        Buffers {
            table: filled(TABLE_BYTES),
            scratch: filled(SCRATCH_BYTES),
            term: filled(TERM_BYTES),
            log: filled(LOG_BYTES),
        }
    }
}

/// What a call returned, and the buffers afterwards.
pub struct Outcome {
    pub returned: u64,
    pub buffers: Buffers,
}

impl Outcome {
    pub fn refusal(&self) -> u64 {
        self.returned & 0xff
    }

    /// The three fields of a call that was served.
    pub fn fields(&self) -> [u64; 3] {
        assert_eq!(self.refusal(), 0, "refused: {:x}", self.returned);
        [8, 24, 40].map(|shift| self.returned >> shift & 0xffff)
    }
}

/// Makes a call on both sides and compares what they give.
fn both(
    what: &str,
    sheet: &[u8],
    proved: impl FnOnce(&mut Buffers) -> u64,
    plain: impl FnOnce(&mut Buffers) -> u64,
) -> Outcome {
    let (mut ours, mut theirs) = (Buffers::new(), Buffers::new());
    let (returned, other) = (proved(&mut ours), plain(&mut theirs));
    let place = || format!("{what} on\n{}", String::from_utf8_lossy(sheet));
    assert_eq!(returned, other, "number, {}", place());
    assert!(ours.table == theirs.table, "table, {}", place());
    assert!(ours.scratch == theirs.scratch, "scratch, {}", place());
    assert!(ours.term == theirs.term, "term, {}", place());
    assert!(ours.log == theirs.log, "log, {}", place());
    Outcome { returned, buffers: ours }
}

pub fn check(sheet: &[u8]) -> Outcome {
    both("check", sheet, |_| calls::check(sheet), |_| reference::check(sheet))
}

pub fn compare(sheet: &[u8], task: u64) -> Outcome {
    both(
        &format!("compare, task {task},"),
        sheet,
        |lent| calls::compare(sheet, task, &mut lent.scratch),
        |lent| reference::compare(sheet, task, &mut lent.scratch),
    )
}

pub fn solve(sheet: &[u8], equation: u64, direction: u64) -> Outcome {
    both(
        &format!("solve, equation {equation}, direction {direction},"),
        sheet,
        |lent| calls::solve(sheet, equation, direction, &mut lent.table, &mut lent.scratch),
        |lent| reference::solve(sheet, equation, direction, &mut lent.table, &mut lent.scratch),
    )
}

pub fn always(sheet: &[u8], equation: u64, direction: u64) -> Outcome {
    both(
        &format!("always, equation {equation}, direction {direction},"),
        sheet,
        |lent| calls::always(sheet, equation, direction, &mut lent.table, &mut lent.scratch),
        |lent| reference::always(sheet, equation, direction, &mut lent.table, &mut lent.scratch),
    )
}

pub fn judge(sheet: &[u8], task: u64) -> Outcome {
    both(
        &format!("judge, task {task},"),
        sheet,
        |lent| calls::judge(sheet, task, &mut lent.table, &mut lent.scratch),
        |lent| reference::judge(sheet, task, &mut lent.table, &mut lent.scratch),
    )
}

pub fn run(sheet: &[u8], task: u64) -> Outcome {
    both(
        &format!("run, task {task},"),
        sheet,
        |lent| calls::run(sheet, task, &mut lent.table, &mut lent.scratch, &mut lent.term, &mut lent.log),
        |lent| reference::run(sheet, task, &mut lent.table, &mut lent.scratch, &mut lent.term, &mut lent.log),
    )
}

/// What the proved program prints; the second implementation gives the same.
pub fn listing(sheet: &[u8]) -> Vec<u8> {
    let printed = program::listing(&program::examiner(), sheet);
    let expected = reference::listing(sheet);
    if printed != expected {
        let differs = printed.iter().zip(&expected).take_while(|(ours, theirs)| ours == theirs).count();
        let line = 1 + expected[..differs].iter().filter(|&&byte| byte == b'\n').count();
        panic!("the listings differ at byte {differs}, line {line}, of\n{}", String::from_utf8_lossy(sheet));
    }
    printed
}

/// Every call with every number that the sheet has and the first that it does not have, and the listing.
pub fn everything(sheet: &[u8]) {
    check(sheet);
    let (equations, tasks) = reference::sheet::read(sheet)
        .map_or((0, 0), |sheet| (sheet.equations().len() as u64, sheet.tasks().len() as u64));
    for equation in 0..=equations {
        for direction in 0..=2 {
            solve(sheet, equation, direction);
            always(sheet, equation, direction);
        }
    }
    for task in 0..=tasks {
        compare(sheet, task);
        judge(sheet, task);
        run(sheet, task);
    }
    listing(sheet);
}

/// The text of a sheet whose frames are separated by blanks.
pub fn sheet(frames: &str) -> Vec<u8> {
    frames.split_whitespace().flat_map(|frame| [frame.as_bytes(), b"\n"].concat()).collect()
}

/// The bytes that these digits are.
pub fn bytes(digits: &str) -> Vec<u8> {
    let digits: String = digits.split_whitespace().collect();
    (0..digits.len() / 2).map(|i| u8::from_str_radix(&digits[2 * i..2 * i + 2], 16).expect("digits")).collect()
}
