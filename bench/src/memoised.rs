//! The same memoised comparison in plain Rust: the symbols, then the one question that decides the pair, with one cell for each ordered
//! pair of nodes but those that a constant's symbol decides and those with a smaller symbol, which give way to their arguments; and the clause that decided, of the
//! two whole terms alone: where their symbols differ L1 is asked first, from the term with the greater symbol, and an argument that is the other term is found by
//! its nodes. Equal symbols have equally many arguments here, so that both lists end together.

const NODES: usize = 224;
const CELLS: usize = NODES * NODES;
const SUBJECT: usize = 64;

struct Terms<'a> {
    nodes: [u8; NODES],
    sizes: [u8; NODES],
    cells: &'a mut [u8],
}

/// The verdict of two ground terms, 0 smaller, 1 equal, 2 greater, and the clause that decided, 1 to 3, or 0 for equal. Leaves scratch's
/// first 57,344 bytes 0.
pub fn compare(left: &[u8], right: &[u8], arities: &[u8], scratch: &mut [u8]) -> (u8, u8) {
    let mut terms = Terms { nodes: [0; NODES], sizes: [0; NODES], cells: &mut scratch[..CELLS] };
    terms.cells.fill(0);
    let end = SUBJECT + left.len() + right.len();
    terms.nodes[SUBJECT..SUBJECT + left.len()].copy_from_slice(left);
    terms.nodes[SUBJECT + left.len()..end].copy_from_slice(right);
    for i in (SUBJECT..end).rev() {
        let mut next = i + 1;
        for _ in 0..arities[terms.nodes[i] as usize] {
            next += terms.sizes[next] as usize;
        }
        terms.sizes[i] = (next - i) as u8;
    }
    let (s, t) = (SUBJECT, SUBJECT + left.len());
    let decision = terms.decide(s, t);
    scratch[..57_344].fill(0);
    decision
}

impl Terms<'_> {
    fn end(&self, i: usize) -> usize {
        i + self.sizes[i] as usize
    }

    fn exceeds(&mut self, s: usize, t: usize) -> u8 {
        let (f, g) = (self.nodes[s], self.nodes[t]);
        match f < g {
            true if self.sizes[s] == 1 => return 0,
            false if self.sizes[t] == 1 && g < f => return 2,
            false if self.sizes[t] == 1 && self.sizes[s] == 1 => return 1,
            _ => (),
        }
        let cell = s * NODES + t;
        if self.cells[cell] > 0 {
            return self.cells[cell] - 1;
        }
        let verdict = self.settle(s, t);
        self.cells[cell] = verdict + 1;
        verdict
    }

    fn settle(&mut self, s: usize, t: usize) -> u8 {
        let (f, g) = (self.nodes[s], self.nodes[t]);
        if f < g {
            return greater_if(self.reaches_from(s + 1, self.end(s), t));
        }
        if g < f {
            return greater_if(self.exceeds_from(s, t + 1, self.end(t)));
        }
        self.compare_arguments(s, t)
    }

    fn decide(&mut self, s: usize, t: usize) -> (u8, u8) {
        let (f, g) = (self.nodes[s], self.nodes[t]);
        if g < f {
            return match self.reached(s, t) {
                true => (2, 1),
                false if self.exceeds_arguments(s, t) => (2, 2),
                false => (0, 1),
            };
        }
        if f < g {
            return match self.exceeds_arguments(s, t) {
                false => (0, 1),
                true if self.reached(s, t) => (2, 1),
                true => (0, 2),
            };
        }
        let verdict = self.exceeds(s, t);
        let by_argument = match verdict {
            0 => !self.exceeds_arguments(s, t),
            1 => return (1, 0),
            _ => self.reached(s, t),
        };
        (verdict, if by_argument { 1 } else { 3 })
    }

    fn reached(&mut self, s: usize, t: usize) -> bool {
        self.among(s, t) || self.reaches_from(s + 1, self.end(s), t)
    }

    fn exceeds_arguments(&mut self, s: usize, t: usize) -> bool {
        !self.among(t, s) && self.exceeds_from(s, t + 1, self.end(t))
    }

    /// Whether an argument of the term at `s` is the term at `t`.
    fn among(&self, s: usize, t: usize) -> bool {
        let term = &self.nodes[t..self.end(t)];
        let mut k = s + 1;
        while k < self.end(s) {
            if &self.nodes[k..self.end(k)] == term {
                return true;
            }
            k = self.end(k);
        }
        false
    }

    fn reaches_from(&mut self, mut k: usize, end: usize, t: usize) -> bool {
        let g = self.nodes[t];
        while k < end {
            if self.nodes[k] < g {
                k += 1;
                continue;
            }
            if self.exceeds(k, t) > 0 {
                return true;
            }
            k = self.end(k);
        }
        false
    }

    fn exceeds_from(&mut self, s: usize, mut k: usize, end: usize) -> bool {
        let f = self.nodes[s];
        while k < end {
            if self.nodes[k] < f {
                k += 1;
                continue;
            }
            if self.exceeds(s, k) < 2 {
                return false;
            }
            k = self.end(k);
        }
        true
    }

    fn compare_arguments(&mut self, s: usize, t: usize) -> u8 {
        let (mut k, mut l) = (s + 1, t + 1);
        let (m, n) = (self.end(s), self.end(t));
        while k < m {
            let verdict = self.exceeds(k, l);
            let (next, rest) = (self.end(k), self.end(l));
            match verdict {
                0 => return greater_if(self.reaches_from(next, m, t)),
                1 => (k, l) = (next, rest),
                _ => return greater_if(self.exceeds_from(s, rest, n)),
            }
        }
        1
    }
}

fn greater_if(greater: bool) -> u8 {
    if greater {
        2
    } else {
        0
    }
}
