//! The six calls on memory between inaccessible pages: number and every byte are those of the second implementation, and nothing
//! around a buffer is touched. The sheet's pages can only be read.

use bench::calls::{
    neblinaro_always, neblinaro_check, neblinaro_compare, neblinaro_judge, neblinaro_run, neblinaro_solve,
};
use bench::lent::{Edge, Lent};
use reference::generate::sheet;
use reference::limits::{LOG_BYTES, SCRATCH_BYTES, TABLE_BYTES, TERM_BYTES};
use reference::special::{special, P1};

/// Numbers that no sheet has as an equation, a direction or a task; the lower bytes of most are 0.
const ABSENT: [u64; 7] = [32, 255, 256, 1 << 16, 1 << 32, 1 << 63, u64::MAX];

/// A call with its numbers, and how many buffers of which least lengths it is lent.
#[derive(Clone, Copy, Debug)]
enum Call {
    Check,
    Compare(u64),
    Solve(u64, u64),
    Always(u64, u64),
    Judge(u64),
    Run(u64),
}

impl Call {
    fn least_lengths(self) -> &'static [usize] {
        match self {
            Call::Check => &[],
            Call::Compare(_) => &[SCRATCH_BYTES],
            Call::Solve(..) | Call::Always(..) | Call::Judge(_) => &[TABLE_BYTES, SCRATCH_BYTES],
            Call::Run(_) => &[TABLE_BYTES, SCRATCH_BYTES, TERM_BYTES, LOG_BYTES],
        }
    }

    fn proved(self, sheet: &Lent, lent: &[Lent]) -> u64 {
        let (s, n) = (sheet.pointer().cast_const(), sheet.len());
        let (p, l) = (|i: usize| lent[i].pointer(), |i: usize| lent[i].len());
        // The lengths are true and nothing overlaps.
        unsafe {
            match self {
                Call::Check => neblinaro_check(s, n),
                Call::Compare(task) => neblinaro_compare(s, n, task, p(0), l(0)),
                Call::Solve(equation, direction) => neblinaro_solve(s, n, equation, direction, p(0), l(0), p(1), l(1)),
                Call::Always(equation, direction) => {
                    neblinaro_always(s, n, equation, direction, p(0), l(0), p(1), l(1))
                }
                Call::Judge(task) => neblinaro_judge(s, n, task, p(0), l(0), p(1), l(1)),
                Call::Run(task) => neblinaro_run(s, n, task, p(0), l(0), p(1), l(1), p(2), l(2), p(3), l(3)),
            }
        }
    }

    fn plain(self, sheet: &[u8], lent: &mut [Vec<u8>]) -> u64 {
        match (self, lent) {
            (Call::Check, []) => reference::check(sheet),
            (Call::Compare(task), [scratch]) => reference::compare(sheet, task, scratch),
            (Call::Solve(equation, direction), [table, scratch]) => {
                reference::solve(sheet, equation, direction, table, scratch)
            }
            (Call::Always(equation, direction), [table, scratch]) => {
                reference::always(sheet, equation, direction, table, scratch)
            }
            (Call::Judge(task), [table, scratch]) => reference::judge(sheet, task, table, scratch),
            (Call::Run(task), [table, scratch, term, log]) => reference::run(sheet, task, table, scratch, term, log),
            _ => unreachable!("a call with other buffers"),
        }
    }
}

/// Former bytes of a buffer: they differ from one place to the next, and from those of the other buffers.
fn former(buffer: usize, length: usize) -> Vec<u8> {
    (0..length).map(|i| ((i + 7 * buffer) % 251) as u8).collect()
}

/// Makes the call on both sides and compares all that they give. Gives the refusal.
fn agree(call: Call, sheet: &[u8], lent_sheet: &Lent, lengths: &[usize], edge: Edge) -> usize {
    let mut buffers: Vec<Vec<u8>> = lengths.iter().enumerate().map(|(i, &length)| former(i, length)).collect();
    let lent: Vec<Lent> = buffers.iter().map(|bytes| Lent::new(bytes, edge)).collect();
    let place = || format!("{call:?}, lengths {lengths:?}, {edge:?}, on\n{}", String::from_utf8_lossy(sheet));
    let returned = call.proved(lent_sheet, &lent);
    assert_eq!(returned, call.plain(sheet, &mut buffers), "number, {}", place());
    for (i, (lent, plain)) in lent.iter().zip(&buffers).enumerate() {
        assert!(lent.bytes() == plain, "buffer {i}, {}", place());
        assert!(lent.around_untouched(), "around buffer {i}, {}", place());
    }
    assert!(lent_sheet.bytes() == sheet && lent_sheet.around_untouched());
    (returned & 0xff) as usize
}

/// Every call on a sheet: with the numbers that it has, the first that it does not have, and some that no sheet has.
fn calls(sheet: &[u8]) -> Vec<Call> {
    let (equations, tasks) = reference::sheet::read(sheet)
        .map_or((1, 1), |sheet| (sheet.equations().len() as u64, sheet.tasks().len() as u64));
    let mut calls = vec![Call::Check];
    for task in (0..=tasks).chain(ABSENT) {
        calls.extend([Call::Compare(task), Call::Judge(task), Call::Run(task)]);
    }
    for equation in (0..=equations).chain(ABSENT) {
        for direction in 0..2 {
            calls.extend([Call::Solve(equation, direction), Call::Always(equation, direction)]);
        }
    }
    for direction in [2].into_iter().chain(ABSENT) {
        calls.extend([Call::Solve(0, direction), Call::Always(0, direction)]);
    }
    calls
}

/// Generated and damaged sheets, and all special ones.
fn sheets() -> impl Iterator<Item = Vec<u8>> {
    (0..250).map(sheet).chain(special().into_iter().map(|(_, sheet)| sheet))
}

/// Buffers of the least lengths, with inaccessible memory right before them and right behind them.
#[test]
fn exact_lengths() {
    // How often each refusal was given; the first count is of none. No buffer is too short here.
    let mut given = [0; 13];
    for sheet in sheets() {
        for edge in [Edge::Start, Edge::End] {
            let lent_sheet = Lent::new(&sheet, edge).read_only();
            for call in calls(&sheet) {
                given[agree(call, &sheet, &lent_sheet, call.least_lengths(), edge)] += 1;
            }
        }
    }
    let met: Vec<bool> = given.iter().map(|&times| 0 < times).collect();
    let all_but_short = (0..13).map(|refusal| refusal != 11).collect::<Vec<_>>();
    assert_eq!(met, all_but_short, "{given:?}");
}

/// Longer buffers, one at a time by some pages and all by one byte: the excess is as it was.
#[test]
fn longer() {
    for sheet in sheets().step_by(9) {
        let lent_sheet = Lent::new(&sheet, Edge::End).read_only();
        for call in calls(&sheet) {
            let least = call.least_lengths();
            let one = (0..least.len()).map(|longer| {
                let mut lengths = least.to_vec();
                lengths[longer] += 9_000;
                lengths
            });
            for lengths in one.chain([least.iter().map(|length| length + 1).collect()]) {
                agree(call, &sheet, &lent_sheet, &lengths, Edge::End);
            }
        }
    }
}

/// A buffer that is too short, by one byte, or of no bytes (null, or at an inaccessible page): 11 before everything else, and no
/// byte is written.
#[test]
fn shorter() {
    for sheet in sheets().step_by(5) {
        for edge in [Edge::Start, Edge::End] {
            let lent_sheet = Lent::new(&sheet, edge).read_only();
            for call in calls(&sheet) {
                let least = call.least_lengths();
                for shorter in 0..least.len() {
                    for length in [0, 1, least[shorter] - 1] {
                        let mut lengths = least.to_vec();
                        lengths[shorter] = length;
                        assert_eq!(agree(call, &sheet, &lent_sheet, &lengths, edge), 11);
                    }
                }
                if !least.is_empty() {
                    assert_eq!(agree(call, &sheet, &lent_sheet, &vec![0; least.len()], edge), 11);
                }
            }
        }
    }
}

/// A sheet of no bytes, null or at an inaccessible page: 1 where the buffers are long enough.
#[test]
fn no_sheet() {
    for edge in [Edge::Start, Edge::End] {
        let lent_sheet = Lent::new(&[], edge).read_only();
        assert_eq!(lent_sheet.pointer().is_null(), edge == Edge::Start);
        for call in calls(&[]) {
            assert_eq!(agree(call, &[], &lent_sheet, call.least_lengths(), edge), 1);
        }
    }
}

/// Lengths beyond 32 bits. Of such a sheet nothing need be read, and of such a buffer nothing behind its least length.
#[test]
fn vast() {
    let vast = (1 << 32) + P1.len();
    let sheet = Lent::new(P1, Edge::End).read_only();
    let vast_sheet = Lent::vast(P1, vast).read_only();
    for call in calls(P1) {
        let mut buffers: Vec<Vec<u8>> =
            call.least_lengths().iter().enumerate().map(|(i, &length)| former(i, length + 100)).collect();
        let lent: Vec<Lent> = buffers.iter().map(|bytes| Lent::vast(bytes, vast)).collect();
        assert_eq!(call.proved(&vast_sheet, &lent), 1, "{call:?}");
        assert_eq!(call.proved(&sheet, &lent), call.plain(P1, &mut buffers), "{call:?}");
        for (lent, plain) in lent.iter().zip(&buffers) {
            assert!(&lent.bytes()[..plain.len()] == plain, "{call:?}");
        }
    }
}

/// What the header says of the stack: a thread with 128 KiB of it may call.
#[test]
fn small_stack() {
    let mut buffers: Vec<Vec<u8>> = Call::Run(0).least_lengths().iter().map(|&length| vec![0; length]).collect();
    for sheet in sheets() {
        let calls = calls(&sheet);
        let [table, scratch, term, log] = &mut buffers[..] else { unreachable!() };
        let make = move || {
            for call in calls {
                match call {
                    Call::Check => bench::calls::check(&sheet),
                    Call::Compare(task) => bench::calls::compare(&sheet, task, scratch),
                    Call::Solve(equation, direction) => {
                        bench::calls::solve(&sheet, equation, direction, table, scratch)
                    }
                    Call::Always(equation, direction) => {
                        bench::calls::always(&sheet, equation, direction, table, scratch)
                    }
                    Call::Judge(task) => bench::calls::judge(&sheet, task, table, scratch),
                    Call::Run(task) => bench::calls::run(&sheet, task, table, scratch, term, log),
                };
            }
        };
        std::thread::scope(|scope| {
            let thread = std::thread::Builder::new().stack_size(128 << 10).spawn_scoped(scope, make);
            thread.expect("a thread starts").join().expect("the calls return");
        });
    }
}
