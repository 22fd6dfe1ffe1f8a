//! One table: the time of each proved call and of the proved program beside plain Rust, in one run, on ordinary sheets and on the
//! slowest known ones. Each figure is the least of several rounds, which both sides take in turn: other work on the machine can only
//! lengthen a round.

mod table;

use bench::{calls, memoised, program, runs};
use reference::generate::text;
use reference::limits::{LOG_BYTES, SCRATCH_BYTES, SHEET_BYTES, TABLE_BYTES, TERM_BYTES};
use reference::rewrite;
use reference::sheet;
use reference::special::{compared_arities, hard_pairs, special, WALKS};
use reference::timing::{time, times};
use reference::walk::Walker;
use std::io::{Read, Write};
use std::path::Path;
use std::process::{Command, Stdio};
use std::time::{Duration, Instant};
use table::{counted, thousands, Pair, Row, Table};

/// The argument with which this program is plain Rust's: a sheet on standard input, its listing on standard output.
const PLAIN: &str = "plain";

fn main() -> std::io::Result<()> {
    if std::env::args().nth(1).as_deref() == Some(PLAIN) {
        return plain_program();
    }
    clock();
    let mut table = Table::default();
    check(&mut table);
    compare(&mut table);
    solve(&mut table);
    always(&mut table);
    no_beside_solve(&mut table);
    judge(&mut table);
    run(&mut table);
    slow_runs(&mut table);
    programs(&mut table);
    table.print_worst();
    Ok(())
}

fn plain_program() -> std::io::Result<()> {
    let mut sheet = Vec::new();
    std::io::stdin().take(SHEET_BYTES as u64 + 1).read_to_end(&mut sheet)?;
    std::io::stdout().write_all(&reference::listing(&sheet))
}

/// A chain of dependent multiplications, to tell a slow moment of the machine from slow code.
fn clock() {
    let ns = time(|| (0..1_000u64).fold(std::hint::black_box(3u64), |x, i| x.wrapping_mul(x ^ i)));
    println!("1,000 dependent multiplications: {ns:.0} ns\n");
}

/// Check, on every special sheet of some length; and a byte of it where all are read.
fn check(rows: &mut Table) {
    for (name, sheet) in special() {
        if sheet.len() < 1_000 {
            continue;
        }
        let number = calls::check(&sheet);
        assert_eq!(number, reference::check(&sheet), "{name}");
        let [proved, plain] = times(|case| match case {
            0 => calls::check(&sheet),
            _ => reference::check(&sheet),
        });
        let [one, plain_one] = [proved, plain].map(|ns| ns / sheet.len() as f64);
        let work = match number {
            0 => counted(sheet.len(), "byte"),
            _ => format!("refusal {}, line {}", number % 256, thousands((number / 256) as usize)),
        };
        rows.add(Row {
            call: "check",
            sheet: name.to_string(),
            work,
            whole: Pair { proved, plain },
            unit: (number == 0).then_some(("byte", Pair { proved: one, plain: plain_one })),
        });
    }
}

/// Compare, on pairs of large terms: the whole call, which reads the sheet and clears scratch, beside the same memoised comparison in plain
/// Rust, and beside the reference, which decides a pair in another way.
fn compare(rows: &mut Table) {
    let arities = compared_arities();
    let symbols = [&[1, arities.len() as u8], arities].concat();
    for (name, left, right) in hard_pairs() {
        // An equation is wanted in every sheet: the first binary symbol's commutativity.
        let equation = vec![2, 3, 0x80, 0x81, 3, 0x81, 0x80];
        let sheet = text(&[symbols.clone(), equation, [&[5], &left[..], &right].concat()]);
        let [_, mut scratch, ..] = lent();
        let mut plain_scratch = scratch.clone();
        let number = calls::compare(&sheet, 0, &mut scratch);
        assert_eq!(number, reference::compare(&sheet, 0, &mut plain_scratch), "{name}");
        let (verdict, clause) = memoised::compare(&left, &right, arities, &mut plain_scratch);
        assert_eq!(number, u64::from(verdict) << 8 | u64::from(clause) << 24, "{name}");
        assert_eq!(scratch, plain_scratch, "{name}");
        let [proved, plain, other] = times(|case| match case {
            0 => calls::compare(&sheet, 0, &mut scratch),
            1 => reference::check(&sheet) + u64::from(memoised::compare(&left, &right, arities, &mut plain_scratch).1),
            _ => reference::compare(&sheet, 0, &mut plain_scratch),
        });
        for (work, plain) in [("beside the same", plain), ("beside the reference", other)] {
            let (sheet, work) = (name.to_string(), work.to_string());
            rows.add(Row { call: "compare", sheet, work, whole: Pair { proved, plain }, unit: None });
        }
    }
}

/// Solve, on equations with many turns, lines or elements, in both directions: the whole call, which reads the sheet and clears
/// scratch; and a turn of its walk alone, by what the call takes beyond that on an equation of the same sheet that takes no turn.
fn solve(rows: &mut Table) {
    let mut walker = Walker::new();
    let [mut table, mut scratch, ..] = lent();
    for (name, sheet) in walked() {
        let equation = rewrite::equation(&sheet::read(&sheet).expect("a sheet"), 0);
        for direction in 0..2 {
            let ended = match walker.walk(&equation, direction) {
                Ok(_) => counted(walker.lines().len(), "line"),
                Err(excess) => format!("refusal {}", excess.refusal_number()),
            };
            let turns = walker.measure().turns;
            let asked = u64::from(direction);
            let [proved, plain, proved_none, plain_none] = times(|case| match case {
                0 => calls::solve(&sheet, 0, asked, &mut table, &mut scratch),
                1 => reference::solve(&sheet, 0, asked, &mut table, &mut scratch),
                2 => calls::solve(&sheet, 1, asked, &mut table, &mut scratch),
                _ => reference::solve(&sheet, 1, asked, &mut table, &mut scratch),
            });
            let [one, plain_one] = [proved - proved_none, plain - plain_none].map(|ns| ns / f64::from(turns));
            rows.add(Row {
                call: "solve",
                sheet: format!("{name}, {}", ["left > right", "right > left"][usize::from(direction)]),
                work: format!("{}, {ended}", counted(turns as usize, "turn")),
                whole: Pair { proved, plain },
                unit: (TOLD_TURNS <= turns).then_some(("turn", Pair { proved: one, plain: plain_one })),
            });
        }
    }
}

/// Always, on the same equations and on ordinary ones: whole calls.
fn always(rows: &mut Table) {
    let [mut table, mut scratch, ..] = lent();
    for (name, sheet) in asked() {
        for direction in 0..2 {
            let number = calls::always(&sheet, 0, direction, &mut table, &mut scratch);
            assert_eq!(number, reference::always(&sheet, 0, direction, &mut table, &mut scratch), "{name}");
            let [proved, plain] = times(|case| match case {
                0 => calls::always(&sheet, 0, direction, &mut table, &mut scratch),
                _ => reference::always(&sheet, 0, direction, &mut table, &mut scratch),
            });
            rows.add(always_row("always", name, direction, number, Pair { proved, plain }));
        }
    }
}

/// Where always says no it takes as many turns as solve: beside solve, both proved. The whole calls, of which always leaves the table's bytes ff
/// besides; and a turn alone, by what a call takes beyond that on an equation that takes no turn.
fn no_beside_solve(rows: &mut Table) {
    let [mut table, mut scratch, ..] = lent();
    for (name, sheet) in asked() {
        let sheet = beside_no_turn(&sheet);
        for direction in 0..2 {
            let number = calls::always(&sheet, 0, direction, &mut table, &mut scratch);
            if number & 0xff_ffff != 0 {
                continue;
            }
            let turns = (number >> 24) as f64;
            let [always, solve, always_none, solve_none] = times(|case| match case {
                0 => calls::always(&sheet, 0, direction, &mut table, &mut scratch),
                1 => calls::solve(&sheet, 0, direction, &mut table, &mut scratch),
                2 => calls::always(&sheet, 1, direction, &mut table, &mut scratch),
                _ => calls::solve(&sheet, 1, direction, &mut table, &mut scratch),
            });
            let [proved, plain] = [always - always_none, solve - solve_none].map(|ns| ns / turns);
            let whole = Pair { proved: always, plain: solve };
            let mut row = always_row("as solve", name, direction, number, whole);
            row.unit = (TOLD_TURNS as f64 <= turns).then_some(("turn", Pair { proved, plain }));
            rows.add(row);
        }
    }
}

fn asked() -> impl Iterator<Item = (&'static str, Vec<u8>)> {
    let p1 = [("P1", reference::special::P1.to_vec())];
    p1.into_iter().chain(runs::ordinary()).chain(walked())
}

fn always_row(call: &'static str, name: &str, direction: u64, number: u64, whole: Pair) -> Row {
    let turns = counted((number >> 24) as usize, "turn");
    let work = match (number % 256, number >> 8 & 0xffff) {
        (0, 0) => format!("no, {turns}"),
        (0, _) => format!("yes, {turns}"),
        (refusal, _) => format!("refusal {refusal}"),
    };
    let sheet = format!("{name}, {}", ["left > right", "right > left"][direction as usize]);
    Row { call, sheet, work, whole, unit: None }
}

/// Symbols and equations that a search found, whose turns take long beside plain Rust.
const SEARCHED: [(&str, &[u8]); 10] = [
    (
        "searched, many equalities",
        b"0103000303\n02020201018183020000008300810183818302848000840201810284810181838002800001818380000282020001818102\
        8080808381\n",
    ),
    (
        "searched, many variables",
        b"0103000402\n0202020286868102028202808701028386840085020287028701018781000002838200028202868201000201838085838386\
        87\n",
    ),
    (
        "searched, long terms",
        b"0103000104\n0202010101010101010101010101010101010101010102010001010085008080820202840184838301020001028401010100\
        000181010201850000830181800182\n",
    ),
    (
        "searched, deep bindings",
        b"0103000303\n02028101018102848300870181810180818102020283868384028282828284810201028080018080808083020082018300840182\
        8383\n",
    ),
    (
        "searched, towers of symbols",
        b"0103000104\n0202010201010102010101010101000101010101840083008582858182020102028080018080010280808001808001010101018001\
        01018401010084\n",
    ),
    (
        "searched, twelve variables, many kept elements",
        b"0103000402\n020202028a8a01830102820080850200008383018b8102028b8b868801020182828282010187878787000189\
        01888a848a8989898b028183028681\n",
    ),
    (
        "searched, twelve variables, many occurs tests",
        b"010400040402\n0202038888030200038383838102828200828b028a018a8a8a0300008403898302038100020283028b8201\
        84848484888b8b87030380808003868682038900\n",
    ),
    (
        "searched, twelve variables, deep bindings",
        b"0103000304\n0201020202810081818600828b0087860184818b028602010189898900820100800280808b80820102858585\
        8101848484888a8a\n",
    ),
    (
        "searched, twelve variables, many choices",
        b"0103000303\n02010101820084870185888382028880860102020101010280838281810182808082858482018286838781028186\
        878a\n",
    ),
    (
        "searched, twelve variables, many pairs in a turn",
        b"01050100040403\n020388898a0200000000000000860000840000000000000088000000000000008802000000000000008600008400\
        000000000000880000000000000000000088\n",
    ),
];

/// Special sheets with long walks, and those searched.
fn walked() -> Vec<(&'static str, Vec<u8>)> {
    let mut sheets = special();
    sheets.retain(|(name, _)| WALKS.contains(name));
    sheets.extend(SEARCHED.map(|(name, sheet)| (name, sheet.to_vec())));
    sheets.into_iter().map(|(name, sheet)| (name, beside_no_turn(&sheet))).collect()
}

/// A sheet's symbols and its first equation; behind it the equation x = y, whose walk has no turn.
fn beside_no_turn(sheet: &[u8]) -> Vec<u8> {
    let lines = sheet.split_inclusive(|&byte| byte == b'\n').take(2);
    [lines.collect::<Vec<_>>().concat(), text(&[vec![2, 0x80, 0x81]])].concat()
}

/// So many turns are told by the difference of two calls; fewer are not.
const TOLD_TURNS: u32 = 100;

/// The lent table, scratch, term and log.
fn lent() -> [Vec<u8>; 4] {
    [TABLE_BYTES, SCRATCH_BYTES, TERM_BYTES, LOG_BYTES].map(|length| vec![0xa5; length])
}

/// Judge on ordinary sheets, whole calls.
fn judge(rows: &mut Table) {
    let [mut table, mut scratch, ..] = lent();
    for (name, sheet) in runs::ordinary() {
        let number = calls::judge(&sheet, 1, &mut table, &mut scratch);
        assert_eq!(number, reference::judge(&sheet, 1, &mut table, &mut scratch), "{name}");
        assert_eq!(number % 256, 0, "{name}");
        let [proved, plain] = times(|case| match case {
            0 => calls::judge(&sheet, 1, &mut table, &mut scratch),
            _ => reference::judge(&sheet, 1, &mut table, &mut scratch),
        });
        let work = if number == 0 { "no".to_string() } else { format!("yes, line {}", number >> 24) };
        rows.add(Row { call: "judge", sheet: name.to_string(), work, whole: Pair { proved, plain }, unit: None });
    }
}

/// Run on ordinary sheets, whole calls; and a step.
fn run(rows: &mut Table) {
    let [mut table, mut scratch, mut term, mut log] = lent();
    for (name, sheet) in runs::ordinary() {
        let number = calls::run(&sheet, 0, &mut table, &mut scratch, &mut term, &mut log);
        assert_eq!(number, reference::run(&sheet, 0, &mut table, &mut scratch, &mut term, &mut log), "{name}");
        assert_eq!(number % 256, 0, "{name}");
        let [proved, plain] = times(|case| match case {
            0 => calls::run(&sheet, 0, &mut table, &mut scratch, &mut term, &mut log),
            _ => reference::run(&sheet, 0, &mut table, &mut scratch, &mut term, &mut log),
        });
        rows.add(run_row(name.to_string(), number, Pair { proved, plain }));
    }
}

fn run_row(sheet: String, number: u64, whole: Pair) -> Row {
    let steps = (number / 256 % 65_536) as usize;
    let work = match number % 256 {
        0 => counted(steps, "step"),
        refusal => format!("refusal {refusal}"),
    };
    let one = |ns: f64| ns / steps as f64;
    let unit = (number.is_multiple_of(256) && 0 < steps)
        .then(|| ("step", Pair { proved: one(whole.proved), plain: one(whole.plain) }));
    Row { call: "run", sheet, work, whole, unit }
}

/// The runs of special sheets, of searched ones, and of sheets with sixteen equations with many lines each: those that take a millisecond
/// and more.
fn slow_runs(rows: &mut Table) {
    let [mut table, mut scratch, mut term, mut log] = lent();
    let named = special().into_iter().chain(runs::long()).map(|(name, sheet)| (name.to_string(), sheet));
    for (name, sheet) in named.chain(crowded()) {
        let tasks = reference::sheet::read(&sheet).map_or(0, |sheet| sheet.tasks().len() as u64);
        for task in 0..tasks {
            let number = calls::run(&sheet, task, &mut table, &mut scratch, &mut term, &mut log);
            let start = Instant::now();
            calls::run(&sheet, task, &mut table, &mut scratch, &mut term, &mut log);
            let took = start.elapsed();
            if took < Duration::from_millis(1) {
                continue;
            }
            let plain = reference::run(&sheet, task, &mut table, &mut scratch, &mut term, &mut log);
            assert_eq!(number, plain, "{name}");
            let whole = least(rounds(took), |proved| match proved {
                true => calls::run(&sheet, task, &mut table, &mut scratch, &mut term, &mut log),
                false => reference::run(&sheet, task, &mut table, &mut scratch, &mut term, &mut log),
            });
            rows.add(run_row(format!("{name}, task {task}"), number, whole));
        }
    }
}

/// The crowded sheets; each has an equation of the special sheet of its name sixteen times.
fn crowded() -> impl Iterator<Item = (String, Vec<u8>)> {
    runs::crowded().into_iter().map(|(name, sheet)| (format!("16 × {name}"), sheet))
}

/// How many rounds are made of work that takes so long: half a second of each side, within reason.
fn rounds(took: Duration) -> usize {
    (500_000 / took.as_micros().max(1) as usize).clamp(3, 60)
}

/// The least of so many rounds of each side, in turn.
fn least<T>(rounds: usize, mut work: impl FnMut(bool) -> T) -> Pair {
    let mut round = |proved: bool| {
        let start = Instant::now();
        std::hint::black_box(work(proved));
        start.elapsed().as_nanos() as f64
    };
    let mut least = Pair { proved: f64::MAX, plain: f64::MAX };
    for _ in 0..rounds {
        least.proved = least.proved.min(round(true));
        least.plain = least.plain.min(round(false));
    }
    least
}

/// The programs as processes, from their start to their end, with the sheet in a file and the listing thrown away.
fn programs(rows: &mut Table) {
    let examiner = program::examiner();
    let plain = std::env::current_exe().expect("this program");
    let file = std::env::temp_dir().join(format!("neblinaro-{}.sheet", std::process::id()));
    for (name, sheet) in listed() {
        let start = Instant::now();
        let listing = program::listing(&examiner, &sheet);
        let took = start.elapsed();
        assert!(listing == reference::listing(&sheet), "{name}");
        std::fs::write(&file, &sheet).expect("the sheet is written");
        let whole = least(rounds(took), |proved| match proved {
            true => start_to_end(&examiner, &[], &file),
            false => start_to_end(&plain, &[PLAIN], &file),
        });
        let work = format!("{} listed", counted(listing.len(), "byte"));
        rows.add(Row { call: "program", sheet: name, work, whole, unit: None });
    }
    std::fs::remove_file(&file).expect("the sheet's file");
}

fn start_to_end(program: &Path, arguments: &[&str], sheet: &Path) {
    let input = std::fs::File::open(sheet).expect("the sheet's file");
    let status = Command::new(program).args(arguments).stdin(input).stdout(Stdio::null()).status();
    assert!(status.expect("the program starts").success());
}

/// Special sheets whose listings are timed, beside P1 and those with the longest listings.
const LISTED: [&str; 4] =
    ["longest valid sheet", "all hard comparisons", "sorting of 40 factors", "255 steps under large tables"];

/// The sheets whose listings are timed: P1, ordinary ones, special ones, those with the longest runs, and the three crowded ones with the longest
/// listings.
fn listed() -> Vec<(String, Vec<u8>)> {
    let mut special = special();
    special.retain(|(name, _)| LISTED.contains(name));
    let p1 = [("start, P1's listing, end", reference::special::P1.to_vec())];
    let named = p1.into_iter().chain(runs::ordinary()).chain(special).chain(runs::long());
    let mut longest: Vec<(String, Vec<u8>)> = crowded().collect();
    longest.sort_by_cached_key(|(_, sheet)| std::cmp::Reverse(reference::listing(sheet).len()));
    longest.truncate(3);
    named.map(|(name, sheet)| (name.to_string(), sheet)).chain(longest).collect()
}
