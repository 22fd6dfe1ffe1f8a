//! The proved calls, as C declares them (`include/neblinaro.h`): a slice is a pointer and a length.

extern "C" {
    pub fn neblinaro_check(sheet: *const u8, sheet_length: usize) -> u64;
    pub fn neblinaro_compare(
        sheet: *const u8,
        sheet_length: usize,
        task: u64,
        scratch: *mut u8,
        scratch_length: usize,
    ) -> u64;
    pub fn neblinaro_solve(
        sheet: *const u8,
        sheet_length: usize,
        equation: u64,
        direction: u64,
        table: *mut u8,
        table_length: usize,
        scratch: *mut u8,
        scratch_length: usize,
    ) -> u64;
    pub fn neblinaro_always(
        sheet: *const u8,
        sheet_length: usize,
        equation: u64,
        direction: u64,
        table: *mut u8,
        table_length: usize,
        scratch: *mut u8,
        scratch_length: usize,
    ) -> u64;
    pub fn neblinaro_judge(
        sheet: *const u8,
        sheet_length: usize,
        task: u64,
        table: *mut u8,
        table_length: usize,
        scratch: *mut u8,
        scratch_length: usize,
    ) -> u64;
    pub fn neblinaro_run(
        sheet: *const u8,
        sheet_length: usize,
        task: u64,
        table: *mut u8,
        table_length: usize,
        scratch: *mut u8,
        scratch_length: usize,
        term: *mut u8,
        term_length: usize,
        log: *mut u8,
        log_length: usize,
    ) -> u64;
}

pub fn check(sheet: &[u8]) -> u64 {
    // The call reads the slice that it is lent and nothing else.
    unsafe { neblinaro_check(sheet.as_ptr(), sheet.len()) }
}

pub fn compare(sheet: &[u8], task: u64, scratch: &mut [u8]) -> u64 {
    // The call reads the sheet and writes scratch, within their lengths.
    unsafe { neblinaro_compare(sheet.as_ptr(), sheet.len(), task, scratch.as_mut_ptr(), scratch.len()) }
}

pub fn solve(sheet: &[u8], equation: u64, direction: u64, table: &mut [u8], scratch: &mut [u8]) -> u64 {
    // The call reads the sheet and writes table and scratch, within their lengths.
    unsafe {
        neblinaro_solve(
            sheet.as_ptr(),
            sheet.len(),
            equation,
            direction,
            table.as_mut_ptr(),
            table.len(),
            scratch.as_mut_ptr(),
            scratch.len(),
        )
    }
}

pub fn always(sheet: &[u8], equation: u64, direction: u64, table: &mut [u8], scratch: &mut [u8]) -> u64 {
    // The call reads the sheet and writes table and scratch, within their lengths.
    unsafe {
        neblinaro_always(
            sheet.as_ptr(),
            sheet.len(),
            equation,
            direction,
            table.as_mut_ptr(),
            table.len(),
            scratch.as_mut_ptr(),
            scratch.len(),
        )
    }
}

pub fn judge(sheet: &[u8], task: u64, table: &mut [u8], scratch: &mut [u8]) -> u64 {
    // The call reads the sheet and writes table and scratch, within their lengths.
    unsafe {
        neblinaro_judge(
            sheet.as_ptr(),
            sheet.len(),
            task,
            table.as_mut_ptr(),
            table.len(),
            scratch.as_mut_ptr(),
            scratch.len(),
        )
    }
}

pub fn run(sheet: &[u8], task: u64, table: &mut [u8], scratch: &mut [u8], term: &mut [u8], log: &mut [u8]) -> u64 {
    // The call reads the sheet and writes the four buffers, within their lengths.
    unsafe {
        neblinaro_run(
            sheet.as_ptr(),
            sheet.len(),
            task,
            table.as_mut_ptr(),
            table.len(),
            scratch.as_mut_ptr(),
            scratch.len(),
            term.as_mut_ptr(),
            term.len(),
            log.as_mut_ptr(),
            log.len(),
        )
    }
}
