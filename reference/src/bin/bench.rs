//! Times of the parts: reading, walks, comparisons, runs, calls. Each figure is the least of several rounds, since
//! other work on the machine can only lengthen a round.

use reference::ground::{compare_terms, decide_terms};
use reference::limits::*;
use reference::rewrite;
use reference::sheet::{self, Task};
use reference::special::{self, special};
use reference::timing::{time, times};
use reference::walk::Walker;
use reference::{always, check, compare, generate, judge, run, solve};
use std::hint::black_box;
use std::time::Instant;

fn main() {
    clock();
    reading();
    walks();
    walks_with_a_stop();
    comparisons();
    runs();
    calls();
}

/// A chain of dependent multiplications, to tell a slow moment of the machine from slow code.
fn clock() {
    let ns = time(|| (0..1_000u64).fold(black_box(3u64), |product, i| product.wrapping_mul(product ^ i)));
    println!("1,000 dependent multiplications: {ns:.0} ns");
}

fn named(name: &str) -> Vec<u8> {
    special().into_iter().find(|(other, _)| *other == name).expect("a special sheet").1
}

fn reading() {
    println!("check                                             bytes       ns   ns a byte");
    let mut sheets = vec![
        ("P1", special::P1.to_vec()),
        ("all hard comparisons", named("all hard comparisons")),
        ("longest valid sheet", named("longest valid sheet")),
        ("16,384 bytes, refused on line 35", named("16,384 bytes")),
    ];
    let longest_generated = (0..200).map(generate::valid_sheet).max_by_key(Vec::len).unwrap();
    sheets.push(("longest of 200 generated sheets", longest_generated));
    for (name, sheet) in sheets {
        let ns = time(|| check(black_box(&sheet)));
        println!("  {name:46} {:6} {ns:8.0} {:11.2}", sheet.len(), ns / sheet.len() as f64);
    }
}

fn walks() {
    println!("walk of one direction             turns  lines  elements  most lines       ns   ns a turn");
    let mut walker = Walker::new();
    for name in special::WALKS {
        let sheet = sheet::read(&named(name)).unwrap();
        let equation = rewrite::equation(&sheet, 0);
        for direction in 0..2 {
            let outcome = walker.walk(&equation, direction);
            let lines = match outcome {
                Ok(_) => walker.lines().len().to_string(),
                Err(excess) => format!("({})", excess.refusal_number()),
            };
            let measure = walker.measure();
            let ns = time(|| walker.walk(black_box(&equation), direction));
            println!(
                "  {name:28} {direction} {:6} {lines:>6} {:9} {:11} {ns:8.0} {:11.1}",
                measure.turns,
                measure.elements,
                measure.lines,
                ns / measure.turns as f64
            );
        }
    }
}

/// The walks of always, beside those of solve.
fn walks_with_a_stop() {
    println!(
        "walk until an empty line         answer  turns       ns   ns a turn   turns to the end       ns   ns a turn"
    );
    let mut walker = Walker::new();
    for name in special::WALKS {
        let sheet = sheet::read(&named(name)).unwrap();
        let equation = rewrite::equation(&sheet, 0);
        for direction in 0..2 {
            let answer = match walker.always(&equation, direction) {
                Ok((true, _)) => "yes".to_string(),
                Ok((false, _)) => "no".to_string(),
                Err(excess) => format!("({})", excess.refusal_number()),
            };
            let turns = walker.measure().turns;
            _ = walker.walk(&equation, direction);
            let all_turns = walker.measure().turns;
            // In the same rounds, since the two are to be compared.
            let [ns, all_ns] = times(|case| match case {
                0 => walker.always(black_box(&equation), direction).is_ok(),
                _ => walker.walk(black_box(&equation), direction).is_ok(),
            });
            println!(
                "  {name:28} {direction} {answer:>7} {turns:6} {ns:8.0} {:11.1} {all_turns:18} {all_ns:8.0} {:11.1}",
                ns / turns as f64,
                all_ns / all_turns as f64
            );
        }
    }
}

fn comparisons() {
    println!("comparison of two terms                        numbers       ns   ns of the verdict alone");
    let mut arities = [0; SYMBOLS];
    arities[..special::compared_arities().len()].copy_from_slice(special::compared_arities());
    let mut scratch = vec![0; SCRATCH_BYTES];
    for (name, left, right) in special::hard_pairs() {
        let numbers = decide_terms(&left, &right, &arities, &mut scratch).numbers();
        // In the same rounds, since the two are to be compared.
        let [ns, verdict_ns] = times(|case| match case {
            0 => decide_terms(black_box(&left), black_box(&right), &arities, &mut scratch).numbers()[0],
            _ => compare_terms(black_box(&left), black_box(&right), &arities, &mut scratch) as u8,
        });
        println!("  {name:46} {numbers:?} {ns:8.0} {verdict_ns:25.0}");
    }
}

/// Runs alone, without reading and walks.
fn runs() {
    println!("run                                               steps       ns   ns a step");
    let names = [
        "P1",
        "sorting of 40 factors",
        "256 exchanges of two unary symbols",
        "doubling at the limit of nodes",
        "160 nodes throughout, an extra variable in each step",
        "256 exchanges with two extra variables each",
    ];
    let mut scratch = vec![0; SCRATCH_BYTES];
    for name in names {
        let sheet = sheet::read(&named(name)).unwrap();
        let solved = rewrite::solve_all(&sheet).unwrap_or_else(|_| panic!("{name} is refused"));
        let Some(Task::Run { limit, term }) = sheet.tasks().iter().find(|task| matches!(task, Task::Run { .. })) else {
            continue;
        };
        let steps = rewrite::run(&solved, *limit, sheet.bytes(*term), &sheet.arities, &mut scratch).steps();
        let ns = time(|| rewrite::run(&solved, *limit, sheet.bytes(*term), &sheet.arities, &mut scratch).steps());
        println!("  {name:46} {steps:6} {ns:8.0} {:11.0}", ns / steps as f64);
    }
}

/// Whole calls, with reading, walks and clearing of the lent buffers.
fn calls() {
    println!("whole calls                                           ns");
    let mut table = vec![0; TABLE_BYTES];
    let mut scratch = vec![0; SCRATCH_BYTES];
    let mut term = vec![0; TERM_BYTES];
    let mut log = vec![0; LOG_BYTES];
    let p1 = special::P1;
    let show = |name: &str, ns: f64| println!("  {name:46} {ns:8.0}");
    show("solve, P1", time(|| solve(p1, 0, 0, &mut table, &mut scratch)));
    show("always, P1", time(|| always(p1, 0, 0, &mut table, &mut scratch)));
    show("judge, P1", time(|| judge(p1, 1, &mut table, &mut scratch)));
    show("run, P1", time(|| run(p1, 0, &mut table, &mut scratch, &mut term, &mut log)));
    show("compare, P1", time(|| compare(p1, 2, &mut scratch)));
    let ten_thousand = named("10,000 turns, 8 lines");
    show("solve, 10,000 turns", time(|| solve(&ten_thousand, 0, 1, &mut table, &mut scratch)));
    show("always, 10,000 turns", time(|| always(&ten_thousand, 0, 1, &mut table, &mut scratch)));
    let then_lines = named("always, then 256 lines");
    show("solve, refused after 602 turns", time(|| solve(&then_lines, 0, 0, &mut table, &mut scratch)));
    show("always, yes after 70 of them", time(|| always(&then_lines, 0, 0, &mut table, &mut scratch)));
    let median = named("median law, and below or");
    show("judge, median law", time(|| judge(&median, 0, &mut table, &mut scratch)));
    let sorting = named("sorting of 40 factors");
    show("run, sorting", time(|| run(&sorting, 0, &mut table, &mut scratch, &mut term, &mut log)));
    let towers = named("two towers of 80");
    show("compare, two towers of 80", time(|| compare(&towers, 0, &mut scratch)));
    let long_l1 = named("L2, but L1 is long to refute");
    show("compare, L2, but L1 is long to refute", time(|| compare(&long_l1, 0, &mut scratch)));
    let large = named("255 steps under large tables");
    let start = Instant::now();
    black_box(run(&large, 0, &mut table, &mut scratch, &mut term, &mut log));
    show("run, 255 steps under large tables", start.elapsed().as_nanos() as f64);
}
