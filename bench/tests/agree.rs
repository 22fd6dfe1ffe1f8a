//! The proved calls give what the second implementation gives, number and bytes, on generated and on special sheets.

use bench::{calls, runs};
use reference::generate::sheet;
use reference::limits::{
    LOG_BYTES as LOG, RECORD_BYTES as RECORD, SCRATCH_BYTES as SCRATCH, TABLE_BYTES as TABLE, TERM_BYTES as TERM,
    VARIABLES,
};
use reference::special::special;

fn sheets() -> impl Iterator<Item = Vec<u8>> {
    (0..4_000).map(sheet).chain(special().into_iter().map(|(_, sheet)| sheet))
}

/// How many bytes the lines of all directions of a sheet take without their filler, if every direction solves.
fn kept_bytes(sheet: &[u8]) -> Option<usize> {
    let read = reference::sheet::read(sheet).ok()?;
    let (mut table, mut scratch) = (vec![0; TABLE], vec![0; SCRATCH]);
    let mut bytes = 0;
    for number in 0..read.equations().len() {
        for direction in 0..2 {
            let solved = reference::solve(sheet, number as u64, direction, &mut table, &mut scratch);
            if solved % 256 != 0 {
                return None;
            }
            let lines = (solved / 256 % 65_536) as usize;
            let kept = |record: &[u8]| VARIABLES + 1 + 2 * usize::from(record[VARIABLES]);
            bytes += table.chunks(RECORD).take(lines).map(kept).sum::<usize>();
        }
    }
    Some(bytes)
}

#[test]
fn check() {
    for sheet in sheets() {
        assert_eq!(calls::check(&sheet), reference::check(&sheet), "{}", String::from_utf8_lossy(&sheet));
    }
}

#[test]
fn compare() {
    for sheet in sheets() {
        for length in [0, SCRATCH - 1, SCRATCH, SCRATCH + 56] {
            for task in [0, 1, 2, 3, 31, 32, u64::MAX] {
                let mut scratch: Vec<u8> = (0..length).map(|i| (i % 251) as u8).collect();
                let mut other = scratch.clone();
                assert_eq!(calls::compare(&sheet, task, &mut scratch), reference::compare(&sheet, task, &mut other));
                assert!(scratch == other, "scratch of {length}, task {task}");
            }
        }
    }
}

/// Bytes that differ from one place to the next and from those of another seed.
fn former_bytes(length: usize, seed: usize) -> Vec<u8> {
    (0..length).map(|i| ((i + seed) % 251) as u8).collect()
}

/// A call by equation and direction: sheet, equation, direction, table, scratch.
type Directed = fn(&[u8], u64, u64, &mut [u8], &mut [u8]) -> u64;

/// The call on both sides with the same former bytes; gives the number.
fn directed(
    [proved, plain]: [Directed; 2],
    sheet: &[u8],
    equation: u64,
    direction: u64,
    table: &[u8],
    scratch: &[u8],
) -> u64 {
    let (mut table, mut scratch) = (table.to_vec(), scratch.to_vec());
    let (mut other_table, mut other_scratch) = (table.clone(), scratch.clone());
    let number = proved(sheet, equation, direction, &mut table, &mut scratch);
    let place = || format!("equation {equation}, direction {direction} of\n{}", String::from_utf8_lossy(sheet));
    let other = plain(sheet, equation, direction, &mut other_table, &mut other_scratch);
    assert_eq!(number, other, "number, {}", place());
    assert!(table == other_table, "table, {}", place());
    assert!(scratch == other_scratch, "scratch, {}", place());
    number
}

/// The call on every sheet, with directions that it has and that it has not; gives what it returned.
fn every_direction(call: [Directed; 2]) -> Vec<u64> {
    let lengths = [(0, 0), (TABLE - 1, SCRATCH), (TABLE, SCRATCH - 1), (TABLE, SCRATCH), (TABLE + RECORD, SCRATCH + 56)];
    let mut buffers = lengths.map(|(table, scratch)| (former_bytes(table, 0), former_bytes(scratch, 7))).to_vec();
    buffers.extend([(vec![0; TABLE], vec![0xff; SCRATCH]), (vec![0xff; TABLE], vec![0; SCRATCH])]);
    let mut numbers = Vec::new();
    for sheet in sheets() {
        let equations = reference::sheet::read(&sheet).map_or(1, |sheet| sheet.equations().len() as u64);
        let present = (0..equations).flat_map(|equation| [(equation, 0), (equation, 1)]);
        let absent =
            [(equations, 0), (256, 0), (1 << 32, 1), (u64::MAX, 1), (0, 2), (0, 256), (0, 1 << 32), (0, u64::MAX)];
        for (equation, direction) in present.chain(absent) {
            for (table, scratch) in &buffers {
                numbers.push(directed(call, &sheet, equation, direction, table, scratch));
            }
        }
    }
    let given: Vec<usize> =
        (0..13).map(|refusal| numbers.iter().filter(|&number| number % 256 == refusal).count()).collect();
    assert!(given.iter().all(|&times| 0 < times), "a refusal was never given: {given:?}");
    numbers
}

#[test]
fn solve() {
    every_direction([calls::solve, reference::solve]);
}

#[test]
fn always() {
    let solved = every_direction([calls::solve, reference::solve]);
    let asked = every_direction([calls::always, reference::always]);
    let turns = |number: u64| number >> 24;
    // Yes and no, yes before solve's walk has ended, and yes though solve is refused.
    let (mut yes, mut no, mut early, mut stands) = (0, 0, 0, [0; 13]);
    for (solved, asked) in solved.into_iter().zip(asked) {
        match (asked % 256, asked >> 8 & 0xffff, (solved % 256) as usize) {
            (0, 1, 0) if turns(asked) < turns(solved) => early += 1,
            (0, 1, 0) => yes += 1,
            (0, 1, refusal) => stands[refusal] += 1,
            (0, _, _) => {
                assert_eq!(turns(asked), turns(solved));
                no += 1;
            }
            _ => assert_eq!(asked, solved),
        }
    }
    assert!(0 < yes && 0 < no && 0 < early && stands[8..=10].iter().all(|&times| 0 < times), "{stands:?}");
}

/// The tasks of a sheet and some that no sheet has.
fn tasks(sheet: &[u8]) -> impl Iterator<Item = u64> {
    let present = reference::sheet::read(sheet).map_or(1, |sheet| sheet.tasks().len() as u64);
    (0..present).chain([present, 32, 256, 1 << 32, u64::MAX])
}

#[test]
fn judge() {
    let lengths = [(0, 0), (TABLE - 1, SCRATCH), (TABLE, SCRATCH - 1), (TABLE, SCRATCH), (TABLE + RECORD, SCRATCH + 56)];
    let buffers = lengths.map(|(table, scratch)| (former_bytes(table, 0), former_bytes(scratch, 7)));
    // How often each refusal was given; the first count is of none.
    let mut given = [0; 13];
    for sheet in sheets() {
        for task in tasks(&sheet) {
            for (table, scratch) in &buffers {
                let (mut table, mut scratch) = (table.clone(), scratch.clone());
                let (mut other_table, mut other_scratch) = (table.clone(), scratch.clone());
                let number = calls::judge(&sheet, task, &mut table, &mut scratch);
                let place = || format!("task {task} of\n{}", String::from_utf8_lossy(&sheet));
                assert_eq!(
                    number,
                    reference::judge(&sheet, task, &mut other_table, &mut other_scratch),
                    "number, {}",
                    place()
                );
                assert!(table == other_table, "table, {}", place());
                assert!(scratch == other_scratch, "scratch, {}", place());
                given[(number % 256) as usize] += 1;
            }
        }
    }
    assert!(given.iter().all(|&times| 0 < times), "a refusal was never given: {given:?}");
}

/// Run on both sides with the same former bytes; gives the number.
fn ran(sheet: &[u8], task: u64, lengths: [usize; 4]) -> u64 {
    let mut buffers: Vec<Vec<u8>> =
        lengths.iter().zip([0, 7, 3, 11]).map(|(&length, seed)| former_bytes(length, seed)).collect();
    let mut others = buffers.clone();
    let [table, scratch, term, log] = &mut buffers[..] else { unreachable!() };
    let number = calls::run(sheet, task, table, scratch, term, log);
    let [table, scratch, term, log] = &mut others[..] else { unreachable!() };
    let other = reference::run(sheet, task, table, scratch, term, log);
    let place = || format!("task {task} of\n{}", String::from_utf8_lossy(sheet));
    assert_eq!(number, other, "number, {}", place());
    for (name, (bytes, other)) in ["table", "scratch", "term", "log"].iter().zip(buffers.iter().zip(&others)) {
        assert!(bytes == other, "{name}, {}", place());
    }
    number
}

#[test]
fn run() {
    let enough = [TABLE, SCRATCH, TERM, LOG];
    let mut lengths = vec![[0; 4], enough, [TABLE + RECORD, SCRATCH + 56, TERM + 1, LOG + 3]];
    lengths.extend((0..4).map(|short| {
        let mut lengths = enough;
        lengths[short] -= 1;
        lengths
    }));
    // How often each refusal was given; the first count is of none.
    let mut given = [0; 13];
    for sheet in sheets() {
        for task in tasks(&sheet) {
            for &lengths in &lengths {
                given[(ran(&sheet, task, lengths) % 256) as usize] += 1;
            }
        }
    }
    assert!(given.iter().all(|&times| 0 < times), "a refusal was never given: {given:?}");
}

/// Sheets with sixteen equations, in some of which the lines do not fit the table together.
#[test]
fn crowded() {
    let sheets = runs::crowded();
    let beyond = sheets.iter().filter(|(_, sheet)| kept_bytes(sheet).is_some_and(|bytes| TABLE < bytes)).count();
    assert!(0 < beyond, "the lines of every sheet fit the table");
    for (_, sheet) in runs::ordinary().iter().chain(&sheets) {
        for task in tasks(sheet) {
            ran(sheet, task, [TABLE, SCRATCH, TERM, LOG]);
        }
    }
}
