//! The paper's definitions written as directly as possible, without regard to speed: the reader, the ordering,
//! the walk, what a line means, the reference run.

use reference::limits::*;
use std::collections::{BTreeSet, HashMap};

#[derive(Clone, Debug)]
pub enum Task {
    Run(u8, Vec<u8>),
    Judgement(usize, usize, Vec<Vec<u8>>),
    Comparison(Vec<u8>, Vec<u8>),
}

#[derive(Clone, Debug)]
pub struct Sheet {
    pub arities: Vec<u8>,
    /// Left side, right side, line.
    pub equations: Vec<(Vec<u8>, Vec<u8>, usize)>,
    pub tasks: Vec<Task>,
}

/// Reads a sheet, or gives refusal number and line.
pub fn read(text: &[u8]) -> Result<Sheet, (u64, u64)> {
    if text.is_empty() || text.len() > 16_384 {
        return Err((1, 0));
    }
    let mut sheet = Sheet { arities: vec![], equations: vec![], tasks: vec![] };
    let mut lines: Vec<&[u8]> = text.split(|&byte| byte == b'\n').collect();
    // What stands behind the last LF is a line without LF, unless it is nothing.
    let unended = lines.pop().unwrap();
    let count = lines.len() + !unended.is_empty() as usize;
    for number in 1..=count {
        let refused = |refusal: u64| (refusal, number as u64);
        if number > lines.len() {
            return Err(refused(2));
        }
        let line = lines[number - 1];
        let digits = line.iter().all(|byte| b"0123456789abcdef".contains(byte));
        if !digits || line.len() < 2 || line.len() > 326 || line.len() % 2 == 1 {
            return Err(refused(2));
        }
        let frame: Vec<u8> =
            line.chunks(2).map(|pair| u8::from_str_radix(std::str::from_utf8(pair).unwrap(), 16).unwrap()).collect();
        let in_order = match frame[0] {
            1 => number == 1,
            2 => number > 1 && number <= 17 && sheet.tasks.is_empty(),
            3..=5 => !sheet.equations.is_empty() && sheet.tasks.len() < 32,
            _ => false,
        };
        if !in_order {
            return Err(refused(3));
        }
        take(&mut sheet, &frame, number).map_err(refused)?;
    }
    if sheet.equations.is_empty() {
        return Err((3, count as u64));
    }
    Ok(sheet)
}

fn take(sheet: &mut Sheet, frame: &[u8], line: usize) -> Result<(), u64> {
    match frame[0] {
        1 => {
            let arities = frame.get(2..).unwrap_or(&[]);
            let fits = frame.len() > 1 && (1..=16).contains(&frame[1]) && frame[1] as usize == arities.len();
            if !fits || arities.iter().any(|&arity| arity > 4) || arities.iter().all(|&arity| arity > 0) {
                return Err(4);
            }
            sheet.arities = arities.to_vec();
        }
        2 => {
            let terms = terms(&sheet.arities, &frame[1..], 2, false, |term, _| term <= 32)?;
            sheet.equations.push((terms[0].clone(), terms[1].clone(), line));
        }
        3 => {
            let limit = *frame.get(1).ok_or(5u64)?;
            let terms = terms(&sheet.arities, &frame[2..], 1, true, |_, all| all <= 160)?;
            sheet.tasks.push(Task::Run(limit, terms[0].clone()));
        }
        4 => {
            if frame.len() < 3 {
                return Err(5);
            }
            let (equation, direction) = (frame[1] as usize, frame[2] as usize);
            if equation >= sheet.equations.len() || direction > 1 {
                return Err(7);
            }
            let count = value_count(&sheet.equations[equation]);
            let terms = terms(&sheet.arities, &frame[3..], count, true, |_, all| all <= 160)?;
            sheet.tasks.push(Task::Judgement(equation, direction, terms));
        }
        _ => {
            let terms = terms(&sheet.arities, &frame[1..], 2, true, |_, all| all <= 160)?;
            sheet.tasks.push(Task::Comparison(terms[0].clone(), terms[1].clone()));
        }
    }
    Ok(())
}

/// Whether a byte of a term that was read is a variable.
fn is_variable(byte: u8) -> bool {
    byte >= FIRST_VARIABLE
}

/// The number of a variable, from 0.
fn variable_number(byte: u8) -> usize {
    (byte - FIRST_VARIABLE) as usize
}

pub fn value_count(equation: &(Vec<u8>, Vec<u8>, usize)) -> usize {
    let sides = equation.0.iter().chain(&equation.1);
    sides.filter(|&&byte| is_variable(byte)).map(|&byte| variable_number(byte) + 1).max().unwrap_or(0)
}

/// Exactly `count` terms. `allowed` is asked at each node with the nodes of its term and of all terms so far.
fn terms(
    arities: &[u8],
    bytes: &[u8],
    count: usize,
    ground: bool,
    allowed: fn(usize, usize) -> bool,
) -> Result<Vec<Vec<u8>>, u64> {
    let mut terms: Vec<Vec<u8>> = vec![];
    let mut open = 0;
    for (index, &byte) in bytes.iter().enumerate() {
        if open == 0 {
            if terms.len() == count {
                return Err(5);
            }
            terms.push(vec![]);
            open = 1;
        }
        let term = terms.last_mut().unwrap();
        term.push(byte);
        let arity = match byte {
            0..=15 if (byte as usize) < arities.len() => arities[byte as usize] as usize,
            FIRST_VARIABLE..=LAST_VARIABLE => 0,
            _ => return Err(5),
        };
        if !allowed(term.len(), index + 1) {
            return Err(5);
        }
        if ground && is_variable(byte) {
            return Err(6);
        }
        open = open - 1 + arity;
    }
    if open > 0 || terms.len() < count { Err(5) } else { Ok(terms) }
}

/// The arguments of a term.
pub fn arguments<'t>(arities: &[u8], term: &'t [u8]) -> Vec<&'t [u8]> {
    let mut arguments = vec![];
    let mut start = 1;
    if !is_variable(term[0]) {
        for _ in 0..arities[term[0] as usize] {
            let end = term_end(arities, term, start);
            arguments.push(&term[start..end]);
            start = end;
        }
    }
    arguments
}

pub fn term_end(arities: &[u8], bytes: &[u8], start: usize) -> usize {
    let mut end = start + 1;
    if !is_variable(bytes[start]) {
        for _ in 0..arities[bytes[start] as usize] {
            end = term_end(arities, bytes, end);
        }
    }
    end
}

/// Ground terms of at most `size` nodes over the symbols.
pub fn ground_terms(arities: &[u8], size: usize) -> Vec<Vec<u8>> {
    let mut by_size: Vec<Vec<Vec<u8>>> = vec![vec![]];
    for nodes in 1..=size {
        let mut terms = vec![];
        for (symbol, &arity) in arities.iter().enumerate() {
            for arguments in sequences(&by_size, arity as usize, nodes - 1) {
                terms.push([&[symbol as u8], &arguments[..]].concat());
            }
        }
        by_size.push(terms);
    }
    by_size.concat()
}

/// All sequences of `count` terms with `nodes` nodes together.
fn sequences(by_size: &[Vec<Vec<u8>>], count: usize, nodes: usize) -> Vec<Vec<u8>> {
    if count == 0 {
        return if nodes == 0 { vec![vec![]] } else { vec![] };
    }
    let mut all = vec![];
    for first in 1..=nodes.min(by_size.len() - 1) {
        for rest in sequences(by_size, count - 1, nodes - first) {
            all.extend(by_size[first].iter().map(|term| [&term[..], &rest].concat()));
        }
    }
    all
}

/// L1, L2 or L3: whether it applies to s > t. The last argument is the ordering, which it goes by.
type Clause = fn(&[u8], &[u8], &[u8], &mut dyn FnMut(&[u8], &[u8]) -> bool) -> bool;

const CLAUSES: [Clause; 3] = [l1, l2, l3];

fn l1(arities: &[u8], s: &[u8], t: &[u8], exceeds: &mut dyn FnMut(&[u8], &[u8]) -> bool) -> bool {
    arguments(arities, s).iter().any(|si| exceeds(si, t) || si == &t)
}

fn l2(arities: &[u8], s: &[u8], t: &[u8], exceeds: &mut dyn FnMut(&[u8], &[u8]) -> bool) -> bool {
    s[0] > t[0] && arguments(arities, t).iter().all(|tj| exceeds(s, tj))
}

fn l3(arities: &[u8], s: &[u8], t: &[u8], exceeds: &mut dyn FnMut(&[u8], &[u8]) -> bool) -> bool {
    let (si, ti) = (arguments(arities, s), arguments(arities, t));
    s[0] == t[0]
        && (0..ti.len()).any(|k| {
            si[..k] == ti[..k] && exceeds(si[k], ti[k]) && ti[k + 1..].iter().all(|argument| exceeds(s, argument))
        })
}

/// Which of L1 to L3 apply to s > t. Nothing is remembered, so this is for small terms.
pub fn clauses(arities: &[u8], s: &[u8], t: &[u8]) -> [bool; 3] {
    CLAUSES.map(|clause| clause(arities, s, t, &mut |s, t| exceeds(arities, s, t)))
}

/// Whether s > t. Nothing is remembered, so this is for small terms.
pub fn exceeds(arities: &[u8], s: &[u8], t: &[u8]) -> bool {
    CLAUSES.iter().any(|clause| clause(arities, s, t, &mut |s, t| exceeds(arities, s, t)))
}

/// The verdict, 0 smaller, 1 equal, 2 greater, and the first clause that applies, 1 to 3, or 0 for equal. `clauses`
/// tells which ones apply.
pub fn decision(s: &[u8], t: &[u8], mut clauses: impl FnMut(&[u8], &[u8]) -> [bool; 3]) -> [u64; 2] {
    let first = |clauses: [bool; 3]| clauses.iter().position(|&applies| applies).map(|index| index as u64 + 1);
    if s == t {
        return [1, 0];
    }
    match (first(clauses(s, t)), first(clauses(t, s))) {
        (Some(clause), None) => [2, clause],
        (None, Some(clause)) => [0, clause],
        both => panic!("of two different terms one is greater, but the clauses are {both:?}"),
    }
}

/// L1 to L3, each pair of terms decided once.
#[derive(Default)]
pub struct Order {
    known: HashMap<(Vec<u8>, Vec<u8>), bool>,
}

impl Order {
    pub fn exceeds(&mut self, arities: &[u8], s: &[u8], t: &[u8]) -> bool {
        let key = (s.to_vec(), t.to_vec());
        if let Some(&known) = self.known.get(&key) {
            return known;
        }
        let answer = self.clauses(arities, s, t).contains(&true);
        self.known.insert(key, answer);
        answer
    }

    /// Which of L1 to L3 apply to s > t.
    pub fn clauses(&mut self, arities: &[u8], s: &[u8], t: &[u8]) -> [bool; 3] {
        CLAUSES.map(|clause| clause(arities, s, t, &mut |s, t| self.exceeds(arities, s, t)))
    }

    /// Verdict and clause.
    pub fn decision(&mut self, arities: &[u8], s: &[u8], t: &[u8]) -> [u64; 2] {
        decision(s, t, |s, t| self.clauses(arities, s, t))
    }
}

#[derive(Clone, Debug, PartialEq, Eq)]
pub enum Element {
    Equality(usize, usize),
    Inequality(usize, usize),
}

/// For each variable the position that it is bound to.
pub type Bindings = [Option<usize>; VARIABLES];

#[derive(Clone, Debug, PartialEq, Eq)]
pub struct Line {
    pub bindings: Bindings,
    pub elements: Vec<Element>,
}

/// Both sides of an equation, one behind the other.
pub struct Walk<'a> {
    pub arities: &'a [u8],
    pub bytes: &'a [u8],
}

impl Walk<'_> {
    /// The lines and the count of turns, or the refusal number.
    pub fn solve(&self, source: usize, target: usize) -> Result<(Vec<Line>, usize), u64> {
        let mut table = opening_table(source, target);
        let mut turns = 0;
        while self.take_turn(&mut table, &mut turns)? {}
        Ok((table, turns))
    }

    /// Whether the table, looked over after each turn, came to have a finished line with no binding and no element, and
    /// the count of turns by then; or the refusal number.
    pub fn always(&self, source: usize, target: usize) -> Result<(bool, usize), u64> {
        let mut table = opening_table(source, target);
        let mut turns = 0;
        while self.take_turn(&mut table, &mut turns)? {
            if table.iter().any(|line| self.finished(line) && is_empty(line)) {
                return Ok((true, turns));
            }
        }
        Ok((false, turns))
    }

    /// Takes one turn and gives true, or gives false where all lines are finished; or gives the refusal number.
    pub fn take_turn(&self, table: &mut Vec<Line>, turns: &mut usize) -> Result<bool, u64> {
        let Some((at, index)) = self.first_open(table) else { return Ok(false) };
        if *turns == 10_000 {
            return Err(8);
        }
        *turns += 1;
        let lines = self.turn(&table[at], index);
        if lines.iter().any(|line| line.elements.len() > 40) {
            return Err(9);
        }
        table.splice(at..at + 1, lines);
        if table.len() > 255 {
            return Err(10);
        }
        Ok(true)
    }

    fn finished(&self, line: &Line) -> bool {
        line.elements.iter().all(|element| self.fully_reduced(line, element))
    }

    /// The first unfinished line and its leftmost element that is not fully reduced.
    fn first_open(&self, table: &[Line]) -> Option<(usize, usize)> {
        for (at, line) in table.iter().enumerate() {
            if let Some(index) = line.elements.iter().position(|element| !self.fully_reduced(line, element)) {
                return Some((at, index));
            }
        }
        None
    }

    fn fully_reduced(&self, line: &Line, element: &Element) -> bool {
        let &Element::Inequality(l, r) = element else { return false };
        let (l, r) = (self.reached(line, l), self.reached(line, r));
        if self.is_variable(l) {
            !self.occurs(line, self.bytes[l], r)
        } else {
            self.is_variable(r) && !self.occurs(line, self.bytes[r], l)
        }
    }

    /// The lines that take the place of a line whose element `index` is treated.
    fn turn(&self, line: &Line, index: usize) -> Vec<Line> {
        let replaced = |elements: Vec<Element>| {
            let mut line = line.clone();
            line.elements.splice(index..index + 1, elements);
            line
        };
        match line.elements[index] {
            Element::Equality(l, r) => {
                let mut line = replaced(vec![]);
                if self.unify(&mut line.bindings, l, r) { vec![line] } else { vec![] }
            }
            Element::Inequality(l, r) => {
                let (left, right) = (self.reached(line, l), self.reached(line, r));
                if self.is_variable(left) {
                    return vec![];
                }
                if self.is_variable(right) {
                    return vec![replaced(vec![])];
                }
                self.choices(l, r, left, right).into_iter().map(replaced).collect()
            }
        }
    }

    fn choices(&self, l: usize, r: usize, left: usize, right: usize) -> Vec<Vec<Element>> {
        use Element::*;
        let (si, ti) = (self.argument_positions(left), self.argument_positions(right));
        let (f, g) = (self.bytes[left], self.bytes[right]);
        let mut choices = vec![];
        for &argument in &si {
            choices.push(vec![Inequality(argument, r)]);
            choices.push(vec![Equality(argument, r)]);
        }
        if f > g {
            choices.push(ti.iter().map(|&argument| Inequality(l, argument)).collect());
        }
        if f == g {
            for k in 0..ti.len() {
                let mut list: Vec<Element> = (0..k).map(|i| Equality(si[i], ti[i])).collect();
                list.push(Inequality(si[k], ti[k]));
                list.extend(ti[k + 1..].iter().map(|&argument| Inequality(l, argument)));
                choices.push(list);
            }
        }
        choices
    }

    fn argument_positions(&self, position: usize) -> Vec<usize> {
        let mut positions = vec![];
        let mut next = position + 1;
        for _ in 0..self.arities[self.bytes[position] as usize] {
            positions.push(next);
            next = term_end(self.arities, self.bytes, next);
        }
        positions
    }

    fn is_variable(&self, position: usize) -> bool {
        is_variable(self.bytes[position])
    }

    fn reached(&self, line: &Line, position: usize) -> usize {
        self.reached_through(&line.bindings, position)
    }

    fn reached_through(&self, bindings: &Bindings, position: usize) -> usize {
        if self.is_variable(position) {
            if let Some(bound) = bindings[variable_number(self.bytes[position])] {
                return self.reached_through(bindings, bound);
            }
        }
        position
    }

    fn occurs(&self, line: &Line, variable: u8, position: usize) -> bool {
        self.occurs_through(&line.bindings, variable, position)
    }

    fn occurs_through(&self, bindings: &Bindings, variable: u8, position: usize) -> bool {
        let mut variables = BTreeSet::new();
        self.add_variables(bindings, position, &mut variables);
        variables.contains(&variable)
    }

    /// Adds the variables of a term seen through the bindings, bound ones too. The term of a bound variable is gone
    /// through once only: a chain of bindings can make a term too large to be gone through whole.
    fn add_variables(&self, bindings: &Bindings, position: usize, variables: &mut BTreeSet<u8>) {
        if !self.is_variable(position) {
            for argument in self.argument_positions(position) {
                self.add_variables(bindings, argument, variables);
            }
        } else if variables.insert(self.bytes[position]) {
            if let Some(bound) = bindings[variable_number(self.bytes[position])] {
                self.add_variables(bindings, bound, variables);
            }
        }
    }

    pub fn unify(&self, bindings: &mut Bindings, l: usize, r: usize) -> bool {
        let (l, r) = (self.reached_through(bindings, l), self.reached_through(bindings, r));
        let (left, right) = (self.bytes[l], self.bytes[r]);
        match (self.is_variable(l), self.is_variable(r)) {
            (true, true) => {
                if left < right {
                    bindings[variable_number(left)] = Some(r);
                }
                if right < left {
                    bindings[variable_number(right)] = Some(l);
                }
                true
            }
            (true, false) => {
                let free = !self.occurs_through(bindings, left, r);
                if free {
                    bindings[variable_number(left)] = Some(r);
                }
                free
            }
            (false, true) => self.unify(bindings, r, l),
            (false, false) => {
                let (si, ti) = (self.argument_positions(l), self.argument_positions(r));
                left == right && si.iter().zip(&ti).all(|(&l, &r)| self.unify(bindings, l, r))
            }
        }
    }
}

/// The table before the first turn.
pub fn opening_table(source: usize, target: usize) -> Vec<Line> {
    vec![Line { bindings: [None; VARIABLES], elements: vec![Element::Inequality(source, target)] }]
}

/// Whether a line has no binding and no element.
pub fn is_empty(line: &Line) -> bool {
    line.bindings.iter().all(Option::is_none) && line.elements.is_empty()
}

/// The records of a table.
pub fn records(lines: &[Line]) -> Vec<u8> {
    let mut records = vec![];
    for line in lines {
        records.extend(line.bindings.iter().map(|binding| binding.map_or(0xff, |position| position as u8)));
        records.push(line.elements.len() as u8);
        for index in 0..40 {
            match line.elements.get(index) {
                Some(&Element::Inequality(l, r)) => records.extend([l as u8, r as u8]),
                Some(Element::Equality(..)) => panic!("an equality in a finished line"),
                None => records.extend([0xff, 0xff]),
            }
        }
    }
    records
}

/// The term with each variable replaced by its value.
pub fn instance(term: &[u8], values: &[Vec<u8>]) -> Vec<u8> {
    let mut result = vec![];
    for &byte in term {
        if is_variable(byte) {
            result.extend(&values[variable_number(byte)]);
        } else {
            result.push(byte);
        }
    }
    result
}

/// Whether a line holds at ground values.
pub fn holds(order: &mut Order, walk: &Walk, line: &Line, values: &[Vec<u8>]) -> bool {
    let at = |position: usize| {
        let end = term_end(walk.arities, walk.bytes, position);
        instance(&walk.bytes[position..end], values)
    };
    let bindings = line.bindings.iter().enumerate().all(|(variable, binding)| match binding {
        Some(position) => values[variable] == at(*position),
        None => true,
    });
    bindings
        && line.elements.iter().all(|element| match *element {
            Element::Inequality(l, r) => order.exceeds(walk.arities, &at(l), &at(r)),
            Element::Equality(l, r) => at(l) == at(r),
        })
}

/// Whether the target of a direction has a variable that its source lacks.
pub fn has_extra_variables((left, right, _): &(Vec<u8>, Vec<u8>, usize), direction: usize) -> bool {
    let (source, target) = if direction == 0 { (left, right) } else { (right, left) };
    target.iter().any(|byte| is_variable(*byte) && !source.contains(byte))
}

/// The reference run: steps, ending and last term.
pub fn reference_run(sheet: &Sheet, limit: u8, subject: &[u8]) -> (Vec<[u8; 3]>, u64, Vec<u8>) {
    let mut order = Order::default();
    let mut steps = vec![];
    let mut subject = subject.to_vec();
    loop {
        let Some((step, result)) = find_step(sheet, &mut order, &subject) else {
            return (steps, 0, subject);
        };
        if steps.len() == limit as usize {
            return (steps, 1, subject);
        }
        if result.len() > 160 {
            return (steps, 2, subject);
        }
        steps.push(step);
        subject = result;
    }
}

fn lowest_constant(arities: &[u8]) -> u8 {
    arities.iter().position(|&arity| arity == 0).unwrap() as u8
}

/// The first step and its result. The variables that the source lacks take the lowest constant before the instances are
/// compared.
fn find_step(sheet: &Sheet, order: &mut Order, subject: &[u8]) -> Option<([u8; 3], Vec<u8>)> {
    for position in 0..subject.len() {
        let end = term_end(&sheet.arities, subject, position);
        for (number, (left, right, _)) in sheet.equations.iter().enumerate() {
            for (direction, (source, target)) in [(left, right), (right, left)].into_iter().enumerate() {
                let mut values = vec![vec![]; VARIABLES];
                if !matches(&sheet.arities, source, &subject[position..end], &mut values) {
                    continue;
                }
                for value in values.iter_mut().filter(|value| value.is_empty()) {
                    value.push(lowest_constant(&sheet.arities));
                }
                let replacement = instance(target, &values);
                if order.exceeds(&sheet.arities, &subject[position..end], &replacement) {
                    let result = [&subject[..position], &replacement, &subject[end..]].concat();
                    return Some(([number as u8, direction as u8, position as u8], result));
                }
            }
        }
    }
    None
}

/// An empty value stands for no value yet.
fn matches(arities: &[u8], pattern: &[u8], term: &[u8], values: &mut Vec<Vec<u8>>) -> bool {
    if is_variable(pattern[0]) {
        let value = &mut values[variable_number(pattern[0])];
        if value.is_empty() {
            *value = term.to_vec();
        }
        return value == term;
    }
    pattern[0] == term[0]
        && arguments(arities, pattern)
            .iter()
            .zip(arguments(arities, term))
            .all(|(pattern, term)| matches(arities, pattern, term, values))
}
