//! Climbs from random equations to those whose turns take longest beside plain Rust, and prints the worst that it found, timed again.
//! Arguments: seconds, first seed.

use bench::calls;
use reference::generate::{text, Signature};
use reference::limits::{SCRATCH_BYTES, SIDE_NODES, TABLE_BYTES, VARIABLES};
use reference::random::Random;
use reference::timing::times;
use reference::walk::Walker;
use reference::{rewrite, sheet};
use std::time::{Duration, Instant};

/// Steps without a gain after which a climb ends.
const PATIENCE: usize = 60;

#[derive(Clone)]
struct Candidate {
    signature: Signature,
    left: Vec<u8>,
    right: Vec<u8>,
}

impl Candidate {
    fn random(random: &mut Random) -> Candidate {
        let arities: &[u8] = random.pick(&[&[0, 0, 2], &[0, 1, 2], &[0, 2, 3], &[0, 3, 3], &[0, 4, 2], &[0, 1, 4], &[0, 1, 2, 4], &[0, 2, 2, 1]]);
        let signature = Signature { arities: arities.to_vec() };
        let mut side = || {
            let (size, variables) = (random.from_to(8, SIDE_NODES), random.from_to(1, VARIABLES));
            signature.term(random, size, variables)
        };
        let (left, right) = (side(), side());
        Candidate { signature, left, right }
    }

    /// One subterm of one side is another, where the side stays short enough.
    fn changed(&self, random: &mut Random) -> Candidate {
        loop {
            let mut next = self.clone();
            let side = if random.chance(50) { &mut next.left } else { &mut next.right };
            let start = random.below(side.len());
            let end = self.signature.term_end(side, start);
            let (size, variables) = (random.from_to(1, 12), random.from_to(1, VARIABLES));
            let part = self.signature.term(random, size, variables);
            side.splice(start..end, part);
            if side.len() <= SIDE_NODES {
                return next;
            }
        }
    }

    /// The symbols, the equation, and the equation x = y, whose walk has no turn.
    fn sheet(&self) -> Vec<u8> {
        text(&[self.signature.frame(), [&[2], &self.left[..], &self.right].concat(), vec![2, 0x80, 0x81]])
    }
}

struct Timing {
    walker: Walker,
    table: Vec<u8>,
    scratch: Vec<u8>,
}

impl Timing {
    /// A turn's ratio to plain Rust, quickly: the least of a few calls. Walks of few turns tell nothing.
    fn ratio(&mut self, sheet: &[u8], direction: u64) -> f64 {
        if self.turns(sheet, direction) < 200 {
            return 0.0;
        }
        let mut least = [f64::MAX; 4];
        for _ in 0..7 {
            for (case, least) in least.iter_mut().enumerate() {
                let start = Instant::now();
                self.call(sheet, direction, case);
                *least = least.min(start.elapsed().as_nanos() as f64);
            }
        }
        (least[0] - least[2]) / (least[1] - least[3])
    }

    fn turns(&mut self, sheet: &[u8], direction: u64) -> u32 {
        let equation = rewrite::equation(&sheet::read(sheet).expect("a sheet"), 0);
        let _ = self.walker.walk(&equation, direction as u8);
        self.walker.measure().turns
    }

    /// The proved call and the plain one, on the equation and on x = y.
    fn call(&mut self, sheet: &[u8], direction: u64, case: usize) -> u64 {
        let equation = (case / 2) as u64;
        match case % 2 {
            0 => calls::solve(sheet, equation, direction, &mut self.table, &mut self.scratch),
            _ => reference::solve(sheet, equation, direction, &mut self.table, &mut self.scratch),
        }
    }
}

fn main() {
    let mut arguments = std::env::args().skip(1).map(|argument| argument.parse::<u64>().expect("a number"));
    let seconds = arguments.next().unwrap_or(120);
    let mut seed = arguments.next().unwrap_or(1);
    let end = Instant::now() + Duration::from_secs(seconds);
    let mut timing = Timing { walker: Walker::new(), table: vec![0xa5; TABLE_BYTES], scratch: vec![0xa5; SCRATCH_BYTES] };
    let mut found: Vec<(f64, u64, Candidate)> = Vec::new();
    let mut walks = 0u64;
    while Instant::now() < end {
        let mut random = Random::new(seed);
        let direction = seed % 2;
        seed += 1;
        let mut best = Candidate::random(&mut random);
        let mut ratio = timing.ratio(&best.sheet(), direction);
        let mut idle = 0;
        while idle < PATIENCE && Instant::now() < end {
            let next = best.changed(&mut random);
            let reached = timing.ratio(&next.sheet(), direction);
            walks += 1;
            if ratio < reached {
                (best, ratio, idle) = (next, reached, 0);
            } else {
                idle += 1;
            }
        }
        found.push((ratio, direction, best));
    }
    println!("{walks} walks in {} climbs", found.len());
    found.sort_by(|a, b| b.0.total_cmp(&a.0));
    found.truncate(12);
    for (quick, direction, candidate) in found {
        let sheet = candidate.sheet();
        let turns = timing.turns(&sheet, direction);
        let [proved, plain, proved_none, plain_none] = times(|case| timing.call(&sheet, direction, case));
        let [proved, plain] = [proved - proved_none, plain - plain_none].map(|ns| ns / f64::from(turns));
        let shown = String::from_utf8(sheet).expect("digits").replace('\n', " ");
        println!("{:5.2} (first {quick:5.2}) {turns:6} turns, {proved:6.1} and {plain:6.1} ns a turn, direction {direction}: {shown}", proved / plain);
    }
}
