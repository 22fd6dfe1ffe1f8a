//! Shared by the tests: sheets from digits, lent buffers, the listing of calls.
#![allow(dead_code)]

pub mod naive;

use reference::limits::*;

/// The text of a sheet whose frames are separated by blanks.
pub fn sheet(frames: &str) -> Vec<u8> {
    let mut text = Vec::new();
    for frame in frames.split_whitespace() {
        text.extend_from_slice(frame.as_bytes());
        text.push(b'\n');
    }
    text
}

pub fn bytes(digits: &str) -> Vec<u8> {
    let digits: Vec<u8> = digits.bytes().filter(|digit| !digit.is_ascii_whitespace()).collect();
    digits.chunks(2).map(|pair| u8::from_str_radix(std::str::from_utf8(pair).unwrap(), 16).unwrap()).collect()
}

/// The listing with blanks in place of LF.
pub fn listing(sheet: &[u8]) -> String {
    let text = String::from_utf8(reference::listing(sheet)).unwrap();
    text.split_terminator('\n').collect::<Vec<_>>().join(" ")
}

/// Refusal number and line of a sheet.
pub fn refusal(sheet: &[u8]) -> (u64, u64) {
    let code = reference::check(sheet);
    (code & 0xff, code >> 8)
}

/// The fields of a success.
pub fn fields(code: u64) -> [u64; 3] {
    assert_eq!(code & 0xff, 0, "refused: {code:x}");
    [code >> 8 & 0xffff, code >> 24 & 0xffff, code >> 40 & 0xffff]
}

/// Lent buffers, longer than needed and filled with a pattern.
#[derive(Clone, PartialEq, Eq)]
pub struct Buffers {
    pub table: Vec<u8>,
    pub scratch: Vec<u8>,
    pub term: Vec<u8>,
    pub log: Vec<u8>,
}

pub const PATTERN: u8 = 0x5a;
const EXCESS: usize = 7;

impl Buffers {
    pub fn new() -> Buffers {
        let filled = |length| vec![PATTERN; length + EXCESS];
        Buffers {
            table: filled(TABLE_BYTES),
            scratch: filled(SCRATCH_BYTES),
            term: filled(TERM_BYTES),
            log: filled(LOG_BYTES),
        }
    }

    pub fn solve(&mut self, sheet: &[u8], equation: u64, direction: u64) -> u64 {
        reference::solve(sheet, equation, direction, &mut self.table, &mut self.scratch)
    }

    pub fn always(&mut self, sheet: &[u8], equation: u64, direction: u64) -> u64 {
        reference::always(sheet, equation, direction, &mut self.table, &mut self.scratch)
    }

    pub fn judge(&mut self, sheet: &[u8], task: u64) -> u64 {
        reference::judge(sheet, task, &mut self.table, &mut self.scratch)
    }

    pub fn run(&mut self, sheet: &[u8], task: u64) -> u64 {
        reference::run(sheet, task, &mut self.table, &mut self.scratch, &mut self.term, &mut self.log)
    }

    pub fn compare(&mut self, sheet: &[u8], task: u64) -> u64 {
        reference::compare(sheet, task, &mut self.scratch)
    }

    pub fn assert_untouched(&self) {
        assert!(*self == Buffers::new(), "a buffer was written");
    }

    /// That the first `SCRATCH_BYTES` are 00 and no others were written.
    pub fn assert_scratch_cleared(&self) {
        assert!(is_prefix_then_pattern(&self.scratch, &vec![0; SCRATCH_BYTES]));
    }

    /// That the first `TABLE_BYTES` are ff and no others were written.
    pub fn assert_table_void(&self) {
        assert!(is_prefix_then_pattern(&self.table, &vec![0xff; TABLE_BYTES]));
    }
}

/// Whether a buffer begins with these bytes and holds the pattern behind them.
pub fn is_prefix_then_pattern(buffer: &[u8], prefix: &[u8]) -> bool {
    buffer.starts_with(prefix) && buffer[prefix.len()..].iter().all(|&byte| byte == PATTERN)
}
