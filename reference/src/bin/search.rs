//! Searches random equations for walks at the limits and prints the first ones of each sort as frames 01 and 02.
//! Arguments: first seed, count of seeds.

use reference::generate::{self, Signature};
use reference::limits::{ELEMENTS, LINES, TURNS};
use reference::nodes::Equation;
use reference::random::Random;
use reference::walk::{Excess, Measure, Walker};
use std::collections::BTreeMap;

/// How many finds of one sort are printed.
const SHOWN: usize = 3;

fn main() {
    let mut arguments = std::env::args().skip(1).map(|argument| argument.parse().expect("a number"));
    let first: u64 = arguments.next().unwrap_or(1);
    let count: u64 = arguments.next().unwrap_or(100_000);
    let mut walker = Walker::new();
    let mut finds: BTreeMap<&str, usize> = BTreeMap::new();
    for seed in first..first + count {
        let (signature, sides) = random_equation(seed);
        let bytes = [&sides.0[..], &sides.1].concat();
        let equation = Equation::new(&bytes, sides.0.len() as u8, &signature.padded_arities());
        // One turn more than allowed shows walks that need exactly one too many.
        let walks = [0, 1].map(|direction| {
            let outcome = walker.walk_up_to(TURNS + 1, &equation, direction);
            (outcome, walker.measure(), walker.lines().len())
        });
        for direction in 0..2 {
            let (outcome, measure, lines) = walks[direction];
            let other_solves = walks[1 - direction].0.is_ok_and(|turns| turns <= TURNS);
            let always = walker.always_up_to(TURNS + 1, &equation, direction as u8);
            let sorts = [sort(outcome, measure, lines, other_solves), sort_of_yes(always, outcome)];
            for sort in sorts.into_iter().flatten() {
                let found = finds.entry(sort).or_default();
                *found += 1;
                if *found <= SHOWN {
                    let frames = [signature.frame(), [&[2], &bytes[..]].concat()];
                    let text = String::from_utf8(generate::text(&frames)).unwrap().replace('\n', " ");
                    print!("{sort}: seed {seed} direction {direction} {text}");
                    println!("{outcome:?} {measure:?} lines {lines} always {always:?}");
                }
            }
        }
    }
    println!("{finds:?}");
}

/// The sort of a walk at a limit, if it is at one. Where the walk solves, the other direction must solve too.
fn sort(outcome: Result<u32, Excess>, measure: Measure, lines: usize, other_solves: bool) -> Option<&'static str> {
    match outcome {
        Ok(turns) if turns == TURNS + 1 && lines > 0 => Some("one turn too many"),
        Ok(turns) if turns == TURNS && other_solves && lines > 0 => Some("all turns, some lines"),
        Ok(turns) if turns == TURNS && other_solves => Some("all turns, no line"),
        Ok(turns) if turns < TURNS && other_solves && measure.elements == ELEMENTS => Some("all elements"),
        Ok(turns) if turns < TURNS && other_solves && lines == LINES => Some("all lines at the end"),
        Ok(turns) if turns < TURNS && other_solves && measure.lines == LINES => Some("all lines on the way"),
        Err(Excess::Elements(elements)) if elements == ELEMENTS + 1 => Some("one element too many"),
        Err(Excess::Lines(lines)) if lines == LINES + 1 => Some("one line too many"),
        _ => None,
    }
}

/// The sort of a walk with an empty line at the limit of turns, or before a limit is passed.
fn sort_of_yes(always: Result<(bool, u32), Excess>, outcome: Result<u32, Excess>) -> Option<&'static str> {
    let Ok((true, turns)) = always else { return None };
    match outcome {
        _ if turns == TURNS + 1 => Some("empty line one turn too late"),
        _ if turns == TURNS => Some("empty line in the last turn"),
        Ok(turns) if turns <= TURNS => None,
        Ok(_) | Err(Excess::Turns) => Some("empty line, then too many turns"),
        Err(Excess::Elements(_)) => Some("empty line, then too many elements"),
        Err(Excess::Lines(_)) => Some("empty line, then too many lines"),
    }
}

fn random_equation(seed: u64) -> (Signature, generate::Sides) {
    let mut random = Random::new(seed);
    let arities: &[u8] = random.pick(&[&[0, 0, 2], &[0, 1, 2], &[0, 1, 2, 2], &[0, 2, 3], &[0, 1, 2, 0], &[0, 2, 1]]);
    let signature = Signature { arities: arities.to_vec() };
    let variables = random.from_to(1, 4);
    let (left, right) = (random.from_to(6, 24), random.from_to(4, 24));
    let left = signature.term(&mut random, left, variables);
    let right = signature.term(&mut random, right, variables);
    (signature, (left, right))
}
