//! Every call on generated sheets against the paper's definitions written directly.

mod common;

use common::naive::{self, Order, Task, Walk};
use common::{Buffers, PATTERN, fields, is_prefix_then_pattern, refusal};
use reference::limits::*;

/// Compares the results of all calls, every lent byte, and the listing.
fn examine(text: &[u8], name: &str) {
    let sheet = match naive::read(text) {
        Ok(sheet) => sheet,
        Err(refused) => {
            assert_eq!(refusal(text), refused, "{name}");
            check_refused_calls(text, name, refused);
            return;
        }
    };
    assert_eq!(refusal(text), (0, 0), "{name}");
    check_absent(text, &sheet, name);

    let mut frames = vec![];
    let mut tables = vec![];
    let mut refused = None;
    for number in 0..sheet.equations.len() {
        for direction in 0..2 {
            let solved = check_solve(text, &sheet, number, direction, name);
            check_always(text, &sheet, number, direction, &solved, name);
            match solved {
                Ok((lines, turns)) => {
                    list_table(&sheet, number, direction, &lines, turns, &mut frames);
                    tables.push(lines);
                }
                Err(code) => {
                    refused.get_or_insert(code);
                }
            }
        }
    }
    let mut all_steps = 0;
    for (number, task) in sheet.tasks.iter().enumerate() {
        let number = number as u64;
        match task {
            Task::Comparison(left, right) => {
                let [verdict, clause] = Order::default().decision(&sheet.arities, left, right);
                let mut buffers = Buffers::new();
                assert_eq!(fields(buffers.compare(text, number)), [verdict, clause, 0], "{name}");
                buffers.assert_scratch_cleared();
                frames.push(format!("16{verdict:02x}{clause:02x}"));
            }
            _ if refused.is_some() => check_refused_task(text, number, task, refused.unwrap(), name),
            Task::Judgement(equation, direction, values) => {
                let lines = &tables[2 * equation + direction];
                frames.push(check_judgement(text, number, &sheet, (*equation, *direction), lines, values, name));
            }
            Task::Run(limit, subject) => {
                let outcome = naive::reference_run(&sheet, *limit, subject);
                all_steps += outcome.0.len();
                check_run(text, number, outcome, &mut frames, name);
            }
        }
    }
    frames.push(format!("1f{all_steps:04x}"));
    if let Some(code) = refused {
        frames = vec![format!("ff{:02x}{:04x}", code & 0xff, code >> 8)];
    }
    assert_eq!(common::listing(text), frames.join(" "), "{name}");
}

/// Lines and turns, or the number that a refused call returns.
type Solved = Result<(Vec<naive::Line>, usize), u64>;

/// Solves one direction in both ways.
fn check_solve(text: &[u8], sheet: &naive::Sheet, number: usize, direction: usize, name: &str) -> Solved {
    let (left, right, line) = &sheet.equations[number];
    let bytes = [&left[..], right].concat();
    let walk = Walk { arities: &sheet.arities, bytes: &bytes };
    let (source, target) = if direction == 0 { (0, left.len()) } else { (left.len(), 0) };
    let mut buffers = Buffers::new();
    let code = buffers.solve(text, number as u64, direction as u64);
    buffers.assert_scratch_cleared();
    match walk.solve(source, target) {
        Ok((lines, turns)) => {
            assert_eq!(fields(code), [lines.len() as u64, turns as u64, 0], "{name}");
            assert!(is_prefix_then_pattern(&buffers.table, &naive::records(&lines)), "{name}");
            Ok((lines, turns))
        }
        Err(refused) => {
            assert_eq!(code, refused | (*line as u64) << 8, "{name}");
            buffers.assert_table_void();
            Err(code)
        }
    }
}

/// Asks for always in both ways, and compares the answer with what solve gave.
fn check_always(text: &[u8], sheet: &naive::Sheet, number: usize, direction: usize, solved: &Solved, name: &str) {
    let (left, right, line) = &sheet.equations[number];
    let bytes = [&left[..], right].concat();
    let walk = Walk { arities: &sheet.arities, bytes: &bytes };
    let (source, target) = if direction == 0 { (0, left.len()) } else { (left.len(), 0) };
    let mut buffers = Buffers::new();
    let code = buffers.always(text, number as u64, direction as u64);
    buffers.assert_table_void();
    buffers.assert_scratch_cleared();
    match walk.always(source, target) {
        Ok((yes, turns)) => assert_eq!(fields(code), [yes as u64, turns as u64, 0], "{name}"),
        Err(refused) => assert_eq!(code, refused | (*line as u64) << 8, "{name}"),
    }
    match solved {
        Ok((lines, turns)) => {
            let [answer, turns_by_then, _] = fields(code);
            assert_eq!(answer == 1, lines.iter().any(naive::is_empty), "{name}");
            assert!(turns_by_then == *turns as u64 || answer == 1 && turns_by_then < *turns as u64, "{name}");
        }
        // A yes may have been reached before.
        Err(refused) => assert!(code == *refused || fields(code)[0] == 1, "{name}"),
    }
}

/// A judgement or a run of a sheet with a refused walk.
fn check_refused_task(text: &[u8], number: u64, task: &Task, refused: u64, name: &str) {
    let mut buffers = Buffers::new();
    let code = match task {
        Task::Run(..) => buffers.run(text, number),
        _ => buffers.judge(text, number),
    };
    assert_eq!(code, refused, "{name}");
    buffers.assert_table_void();
    buffers.assert_scratch_cleared();
    assert!(is_prefix_then_pattern(&buffers.term, &[]) && is_prefix_then_pattern(&buffers.log, &[]), "{name}");
}

/// Checks a judgement and gives its frame of the listing.
fn check_judgement(
    text: &[u8],
    number: u64,
    sheet: &naive::Sheet,
    (equation, direction): (usize, usize),
    lines: &[naive::Line],
    values: &[Vec<u8>],
    name: &str,
) -> String {
    let (left, right, _) = &sheet.equations[equation];
    let bytes = [&left[..], right].concat();
    let walk = Walk { arities: &sheet.arities, bytes: &bytes };
    let mut order = Order::default();
    let holding = lines.iter().position(|line| naive::holds(&mut order, &walk, line, values));
    let (yes, line) = (holding.is_some() as u64, holding.map_or(0, |index| index as u64 + 1));

    let mut buffers = Buffers::new();
    assert_eq!(fields(buffers.judge(text, number)), [yes, line, 0], "{name}");
    buffers.assert_table_void();
    buffers.assert_scratch_cleared();

    // A line holds exactly if the instance of the source exceeds that of the target.
    let (left, right) = (naive::instance(left, values), naive::instance(right, values));
    let (source, target) = if direction == 0 { (left, right) } else { (right, left) };
    assert_eq!(holding.is_some(), order.exceeds(&sheet.arities, &source, &target), "{name}");
    format!("15{yes:02x}{line:02x}")
}

/// Checks a run against the outcome of the reference run and appends its frames of the listing.
fn check_run(
    text: &[u8],
    number: u64,
    (steps, ending, term): (Vec<[u8; 3]>, u64, Vec<u8>),
    frames: &mut Vec<String>,
    name: &str,
) {
    let mut buffers = Buffers::new();
    let code = buffers.run(text, number);
    assert_eq!(fields(code), [steps.len() as u64, ending, term.len() as u64], "{name}");
    assert!(is_prefix_then_pattern(&buffers.term, &term), "{name}");
    assert!(is_prefix_then_pattern(&buffers.log, &steps.concat()), "{name}");
    buffers.assert_table_void();
    buffers.assert_scratch_cleared();
    frames.extend(steps.iter().map(|step| format!("14{}", hex(step))));
    frames.push(format!("13{ending:02x}{:02x}{}", steps.len(), hex(&term)));
}

fn hex(bytes: &[u8]) -> String {
    bytes.iter().map(|byte| format!("{byte:02x}")).collect()
}

/// Appends the frames of one direction's table.
fn list_table(
    sheet: &naive::Sheet,
    number: usize,
    direction: usize,
    lines: &[naive::Line],
    turns: usize,
    frames: &mut Vec<String>,
) {
    let (left, right, _) = &sheet.equations[number];
    let bytes = [&left[..], right].concat();
    let term = |position: usize| hex(&bytes[position..naive::term_end(&sheet.arities, &bytes, position)]);
    frames.push(format!("11{number:02x}{direction:02x}{:02x}{turns:04x}", lines.len()));
    for line in lines {
        let bound: Vec<usize> = (0..VARIABLES).filter(|&variable| line.bindings[variable].is_some()).collect();
        let mut frame = format!("12{:02x}", bound.len());
        for variable in bound {
            frame += &format!("{:02x}{}", FIRST_VARIABLE + variable as u8, term(line.bindings[variable].unwrap()));
        }
        frame += &format!("{:02x}", line.elements.len());
        for element in &line.elements {
            let &naive::Element::Inequality(l, r) = element else { panic!("an equality in a finished line") };
            frame += &(term(l) + &term(r));
        }
        frames.push(frame);
    }
}

/// A sheet that is refused is refused by every call alike, and nothing is written.
fn check_refused_calls(text: &[u8], name: &str, (number, line): (u64, u64)) {
    let code = number | line << 8;
    let mut buffers = Buffers::new();
    assert_eq!(buffers.solve(text, 0, 0), code, "{name}");
    assert_eq!(buffers.always(text, 0, 0), code, "{name}");
    assert_eq!(buffers.judge(text, 0), code, "{name}");
    assert_eq!(buffers.run(text, 0), code, "{name}");
    assert_eq!(buffers.compare(text, 0), code, "{name}");
    buffers.assert_untouched();
    assert_eq!(common::listing(text), format!("ff{number:02x}{line:04x}"), "{name}");
}

/// Equations, directions and tasks that are not there, and tasks of another kind.
fn check_absent(text: &[u8], sheet: &naive::Sheet, name: &str) {
    let mut buffers = Buffers::new();
    for equation in [sheet.equations.len() as u64, 256, 1 << 32, u64::MAX] {
        assert_eq!(buffers.solve(text, equation, 0), 12, "{name}");
        assert_eq!(buffers.always(text, equation, 0), 12, "{name}");
    }
    for direction in [2, 256, u64::MAX] {
        assert_eq!(buffers.solve(text, 0, direction), 12, "{name}");
        assert_eq!(buffers.always(text, 0, direction), 12, "{name}");
    }
    let tasks = sheet.tasks.len() as u64;
    for task in (0..tasks).chain([tasks, 32, 256, 1 << 32, u64::MAX]) {
        let kind = sheet.tasks.get(task as usize);
        if !matches!(kind, Some(Task::Run(..))) {
            assert_eq!(buffers.run(text, task), 12, "{name}");
        }
        if !matches!(kind, Some(Task::Judgement(..))) {
            assert_eq!(buffers.judge(text, task), 12, "{name}");
        }
        if !matches!(kind, Some(Task::Comparison(..))) {
            assert_eq!(buffers.compare(text, task), 12, "{name}");
        }
    }
    buffers.assert_untouched();
}

#[test]
fn generated_sheets() {
    for seed in 0..500 {
        examine(&reference::generate::sheet(seed), &format!("seed {seed}"));
    }
}

/// How often always answers yes, answers no, is refused, and answers yes though solve is refused.
#[derive(Debug, Default)]
struct Answers {
    yes: usize,
    no: usize,
    refused: usize,
    yes_before_refusal: usize,
}

impl Answers {
    fn count(&mut self, text: &[u8]) {
        let Ok(sheet) = naive::read(text) else { return };
        for equation in 0..sheet.equations.len() as u64 {
            for direction in 0..2 {
                let always = Buffers::new().always(text, equation, direction);
                let solve = Buffers::new().solve(text, equation, direction);
                self.refused += (always & 0xff != 0) as usize;
                self.no += (always & 0xff == 0 && fields(always)[0] == 0) as usize;
                let yes = always & 0xff == 0 && fields(always)[0] == 1;
                self.yes += yes as usize;
                self.yes_before_refusal += (yes && solve & 0xff != 0) as usize;
            }
        }
    }
}

/// The other tests would say little about always if one answer were missing among their sheets.
#[test]
fn every_answer_of_always_occurs() {
    let mut generated = Answers::default();
    for seed in 0..500 {
        generated.count(&reference::generate::sheet(seed));
    }
    println!("generated sheets: {generated:?}");
    assert!(generated.yes >= 500 && generated.no >= 500);
    assert!(generated.refused >= 20 && generated.yes_before_refusal >= 3);
    let mut special = Answers::default();
    for (_, sheet) in reference::special::special() {
        special.count(&sheet);
    }
    println!("special sheets: {special:?}");
    assert!(special.yes >= 10 && special.no >= 10 && special.refused >= 10 && special.yes_before_refusal >= 5);
}

/// How often which clauses apply to the smaller and the greater term of a comparison, the left term being the smaller
/// or the greater one, and how often the terms are equal.
#[derive(Debug, Default)]
struct Clauses {
    l1_alone: [usize; 2],
    l2_alone: [usize; 2],
    l3_alone: [usize; 2],
    l1_besides_l2: [usize; 2],
    l1_besides_l3: [usize; 2],
    equal: usize,
}

impl Clauses {
    fn count(&mut self, text: &[u8]) {
        let Ok(sheet) = naive::read(text) else { return };
        for task in &sheet.tasks {
            let Task::Comparison(left, right) = task else { continue };
            let mut order = Order::default();
            // First by which clauses the left term is smaller, then by which it is greater.
            for (index, (s, t)) in [(right, left), (left, right)].into_iter().enumerate() {
                match order.clauses(&sheet.arities, s, t) {
                    [true, false, false] => self.l1_alone[index] += 1,
                    [false, true, false] => self.l2_alone[index] += 1,
                    [false, false, true] => self.l3_alone[index] += 1,
                    [true, true, false] => self.l1_besides_l2[index] += 1,
                    [true, false, true] => self.l1_besides_l3[index] += 1,
                    [false, false, false] => {}
                    [_, true, true] => panic!("L2 and L3 speak of different symbols"),
                }
            }
            self.equal += (left == right) as usize;
        }
    }

    fn least(&self) -> usize {
        let counts = [self.l1_alone, self.l2_alone, self.l3_alone, self.l1_besides_l2, self.l1_besides_l3];
        counts.into_iter().flatten().chain([self.equal]).min().unwrap()
    }
}

/// The other tests would say little about the clause if one were missing among their sheets, or L1 besides another one.
#[test]
fn every_clause_occurs() {
    let mut generated = Clauses::default();
    for seed in 0..500 {
        generated.count(&reference::generate::sheet(seed));
    }
    println!("generated sheets: {generated:?}");
    assert!(generated.least() >= 10);
    let mut special = Clauses::default();
    for (_, sheet) in reference::special::special() {
        special.count(&sheet);
    }
    println!("special sheets: {special:?}");
    assert!(special.least() >= 10);
}

/// How often each variable stands in the equations of accepted sheets, is bound in a line, and is met where a sheet is
/// refused with 6 or, for the byte behind the last one, with 5.
#[derive(Debug, Default)]
struct Variables {
    in_equations: [usize; VARIABLES],
    bound: [usize; VARIABLES],
    refused: [usize; VARIABLES + 1],
}

impl Variables {
    fn count_accepted(&mut self, text: &[u8]) {
        let Ok(sheet) = naive::read(text) else { return };
        for (number, (left, right, _)) in sheet.equations.iter().enumerate() {
            for variable in 0..VARIABLES {
                let byte = FIRST_VARIABLE + variable as u8;
                self.in_equations[variable] += (left.contains(&byte) || right.contains(&byte)) as usize;
            }
            for direction in 0..2 {
                let mut buffers = Buffers::new();
                let code = buffers.solve(text, number as u64, direction);
                let lines = if code & 0xff == 0 { fields(code)[0] as usize } else { 0 };
                for record in buffers.table.chunks(RECORD_BYTES).take(lines) {
                    for variable in 0..VARIABLES {
                        self.bound[variable] += (record[variable] != NONE) as usize;
                    }
                }
            }
        }
    }

    fn count_refused(&mut self, text: &[u8]) {
        let (number, line) = refusal(text);
        let Some(frame) = text.split(|&byte| byte == b'\n').nth((line as usize).wrapping_sub(1)) else { return };
        for byte in FIRST_VARIABLE..=LAST_VARIABLE + 1 {
            let wanted = if byte > LAST_VARIABLE { 5 } else { 6 };
            let met = frame.chunks(2).any(|pair| pair == format!("{byte:02x}").as_bytes());
            self.refused[(byte - FIRST_VARIABLE) as usize] += (met && number == wanted) as usize;
        }
    }
}

/// The other tests would say little about a variable that their sheets seldom have.
#[test]
fn every_variable_occurs() {
    let mut met = Variables::default();
    for seed in 0..500 {
        met.count_accepted(&reference::generate::sheet(seed));
    }
    // Refusals take no walk, and of the damaged sheets only some have a variable where it is refused.
    for seed in 0..4_000 {
        met.count_refused(&reference::generate::sheet(seed));
    }
    println!("{met:?}");
    assert!(met.in_equations.iter().all(|&times| times >= 100) && met.bound.iter().all(|&times| times >= 100));
    assert!(met.refused.iter().all(|&times| times >= 3));
}

/// How many runs there are, and how many of them take a step by a direction whose target has a variable that its source
/// lacks; and how many steps of either kind there are, by direction.
#[derive(Debug, Default)]
struct ExtraVariables {
    runs: usize,
    runs_with_extra: usize,
    steps: [usize; 2],
    steps_with_extra: [usize; 2],
}

impl ExtraVariables {
    fn count(&mut self, text: &[u8]) {
        let Ok(sheet) = naive::read(text) else { return };
        for (number, task) in sheet.tasks.iter().enumerate() {
            let mut buffers = Buffers::new();
            if !matches!(task, Task::Run(..)) || buffers.run(text, number as u64) & 0xff != 0 {
                continue;
            }
            let steps = buffers.log.chunks_exact(3).take_while(|step| step[0] != PATTERN);
            let mut extra_taken = false;
            for step in steps {
                let direction = step[1] as usize;
                let extra = naive::has_extra_variables(&sheet.equations[step[0] as usize], direction);
                self.steps[direction] += 1;
                self.steps_with_extra[direction] += extra as usize;
                extra_taken |= extra;
            }
            self.runs += 1;
            self.runs_with_extra += extra_taken as usize;
        }
    }
}

/// The other tests would say little about extra variables if their runs seldom met them.
#[test]
fn extra_variables_occur_in_runs() {
    let mut generated = ExtraVariables::default();
    for seed in 0..500 {
        generated.count(&reference::generate::sheet(seed));
    }
    println!("generated sheets: {generated:?}");
    assert!(generated.runs_with_extra * 4 >= generated.runs);
    assert!(generated.steps_with_extra.iter().all(|&steps| steps >= 100));
    let mut special = ExtraVariables::default();
    for (_, sheet) in reference::special::special() {
        special.count(&sheet);
    }
    println!("special sheets: {special:?}");
    assert!(special.runs_with_extra >= 50 && special.steps_with_extra.iter().all(|&steps| steps >= 10));
}

/// Takes some minutes.
#[test]
#[ignore]
fn many_generated_sheets() {
    for seed in 500..10_000 {
        examine(&reference::generate::sheet(seed), &format!("seed {seed}"));
    }
}

#[test]
fn special_sheets() {
    for (name, sheet) in reference::special::special() {
        examine(&sheet, name);
    }
}
