//! The header's numbers are those of the proved library and of the second implementation, and its functions take a number apart.
//! The header is compiled as a host compiles it.

use bench::program::root;
use reference::limits;
use std::collections::BTreeMap;
use std::fs;
use std::path::Path;
use std::process::Command;

/// A constant of the header, the library's (`crates/format/src/limits.rt`), and the second implementation's.
const CONSTANTS: [(&str, &str, usize); 20] = [
    ("NEBLINARO_SHEET_BYTES", "TEXT", limits::SHEET_BYTES),
    ("NEBLINARO_LINE_DIGITS", "LINE_DIGITS", 2 * limits::FRAME_BYTES),
    ("NEBLINARO_SYMBOLS", "SYMBOLS", limits::SYMBOLS),
    ("NEBLINARO_ARITY", "ARITY", limits::ARITY),
    ("NEBLINARO_FIRST_VARIABLE", "FIRST_VARIABLE", limits::FIRST_VARIABLE as usize),
    ("NEBLINARO_VARIABLES", "VARIABLES", limits::VARIABLES),
    ("NEBLINARO_EQUATIONS", "EQUATIONS", limits::EQUATIONS),
    ("NEBLINARO_TASKS", "TASKS", limits::TASKS),
    ("NEBLINARO_SIDE_NODES", "SIDE_NODES", limits::SIDE_NODES),
    ("NEBLINARO_TASK_NODES", "TASK_NODES", limits::TASK_NODES),
    ("NEBLINARO_TURNS", "TURNS", limits::TURNS as usize),
    ("NEBLINARO_ELEMENTS", "ELEMENTS", limits::ELEMENTS),
    ("NEBLINARO_LINES", "LINES", limits::LINES),
    ("NEBLINARO_STEPS", "STEPS", limits::STEPS),
    ("NEBLINARO_RECORD_BYTES", "RECORD", limits::RECORD_BYTES),
    ("NEBLINARO_NO_POSITION", "NO_POSITION", limits::NONE as usize),
    ("NEBLINARO_TABLE_BYTES", "TABLE", limits::TABLE_BYTES),
    ("NEBLINARO_SCRATCH_BYTES", "SCRATCH", limits::SCRATCH_BYTES),
    ("NEBLINARO_TERM_BYTES", "TERM", limits::TERM_BYTES),
    ("NEBLINARO_LOG_BYTES", "LOG", limits::LOG_BYTES),
];

/// The functions that take a number apart, with the bit where each field starts and the count of its bits.
const FIELDS: [(&str, u32, u32); 13] = [
    ("neblinaro_refusal_of", 0, 8),
    ("neblinaro_refused_line", 8, 16),
    ("neblinaro_solved_lines", 8, 16),
    ("neblinaro_solved_turns", 24, 16),
    ("neblinaro_always_yes", 8, 16),
    ("neblinaro_always_turns", 24, 16),
    ("neblinaro_judged_yes", 8, 16),
    ("neblinaro_judged_line", 24, 16),
    ("neblinaro_run_steps", 8, 16),
    ("neblinaro_run_ending", 24, 16),
    ("neblinaro_run_term_bytes", 40, 16),
    ("neblinaro_compared_verdict", 8, 16),
    ("neblinaro_compared_clause", 24, 16),
];

fn read(path: &str) -> String {
    let path = root().join(path);
    fs::read_to_string(&path).unwrap_or_else(|error| panic!("{}: {error}", path.display()))
}

/// Compiles a C program that prints the expressions, one a line, with every warning an error; gives what it prints.
fn printed(name: &str, expressions: &[String]) -> Vec<u64> {
    let folder = Path::new(env!("CARGO_TARGET_TMPDIR"));
    let (source, program) = (folder.join(format!("{name}.c")), folder.join(name));
    let prints: String =
        expressions.iter().map(|e| format!("    printf(\"%llu\\n\", (unsigned long long)({e}));\n")).collect();
    let text =
        format!("#include \"neblinaro.h\"\n#include <stdio.h>\n\nint main(void)\n{{\n{prints}    return 0;\n}}\n");
    fs::write(&source, text).expect("the source is written");
    let compiled = Command::new("cc")
        .args(["-std=c99", "-Wall", "-Wextra", "-Werror", "-pedantic", "-I"])
        .arg(root().join("include"))
        .arg("-o")
        .args([&program, &source])
        .status()
        .expect("a C compiler, cc");
    assert!(compiled.success(), "{} is not compiled", source.display());
    let output = Command::new(&program).output().expect("the program runs");
    assert!(output.status.success());
    let text = String::from_utf8(output.stdout).expect("digits");
    text.lines().map(|line| line.parse().expect("a number")).collect()
}

/// A sum of products and quotients of numbers, of the constants that are known, and of such sums in brackets.
fn value(expression: &str, known: &BTreeMap<String, u64>) -> u64 {
    let spaced = ["(", ")", "+", "*", "/"]
        .iter()
        .fold(expression.to_string(), |text, sign| text.replace(sign, &format!(" {sign} ")));
    let mut words = spaced.split_whitespace().peekable();
    let sum = sum(&mut words, known);
    assert_eq!(words.next(), None, "{expression}");
    sum
}

type Words<'a> = std::iter::Peekable<std::str::SplitWhitespace<'a>>;

fn sum(words: &mut Words, known: &BTreeMap<String, u64>) -> u64 {
    let mut sum = product(words, known);
    while words.next_if_eq(&"+").is_some() {
        sum += product(words, known);
    }
    sum
}

fn product(words: &mut Words, known: &BTreeMap<String, u64>) -> u64 {
    let mut product = factor(words, known);
    while let Some(sign) = words.next_if(|word| ["*", "/"].contains(word)) {
        let next = factor(words, known);
        product = if sign == "*" { product * next } else { product / next };
    }
    product
}

fn factor(words: &mut Words, known: &BTreeMap<String, u64>) -> u64 {
    let word = words.next().expect("a number");
    if word != "(" {
        return word.parse().unwrap_or_else(|_| known[word.trim_start_matches("Limits::")]);
    }
    let sum = sum(words, known);
    assert_eq!(words.next(), Some(")"));
    sum
}

/// The library's constants.
fn library_limits() -> BTreeMap<String, u64> {
    let mut known = BTreeMap::new();
    for line in read("crates/format/src/limits.rt").lines() {
        let Some(line) = line.trim().strip_prefix("pub const ") else { continue };
        let (name, rest) = line.split_once(':').expect("a type");
        let (_, expression) = rest.split_once('=').expect("a value");
        let number = value(expression.trim().trim_end_matches(';'), &known);
        known.insert(name.to_string(), number);
    }
    known
}

/// `FrameOrder` as `FRAME_ORDER`.
fn upper(camel: &str) -> String {
    let mut name = String::new();
    for letter in camel.chars() {
        if letter.is_uppercase() && !name.is_empty() {
            name.push('_');
        }
        name.push(letter.to_ascii_uppercase());
    }
    name
}

/// The refusals of the library, `FrameOrder = 3,`, by the header's names.
fn library_refusals() -> Vec<(String, u64)> {
    let text = read("crates/format/src/refusal.rt");
    let (_, variants) = text.split_once("pub enum Refusal {").expect("the enum");
    let (variants, _) = variants.split_once('}').expect("its end");
    let variants = variants.lines().filter_map(|line| line.trim().split_once(" = "));
    let named = |(name, number): (&str, &str)| {
        (format!("NEBLINARO_{}", upper(name)), number.trim_end_matches(',').parse().expect("a number"))
    };
    variants.map(named).collect()
}

#[test]
fn constants() {
    let library = library_limits();
    let header = printed("constants", &CONSTANTS.map(|(name, ..)| name.to_string()));
    assert_eq!(header.len(), CONSTANTS.len());
    for ((name, in_library, plain), header) in CONSTANTS.into_iter().zip(header) {
        assert_eq!(header, library[in_library], "{name}");
        assert_eq!(header, plain as u64, "{name}");
    }
}

/// No constant of the header is left out above, but for the bytes of a step, which are part of the log's.
#[test]
fn every_constant() {
    let text = read("include/neblinaro.h");
    let defined = text.lines().filter_map(|line| line.strip_prefix("#define ")?.split_once(' ').map(|(name, _)| name));
    let defined: Vec<&str> = defined.filter(|&name| name != "NEBLINARO_STEP_BYTES").collect();
    assert_eq!(defined, CONSTANTS.map(|(name, ..)| name));
}

#[test]
fn refusals() {
    let library = library_refusals();
    assert_eq!(library.iter().map(|(_, number)| *number).collect::<Vec<_>>(), (1..=12).collect::<Vec<_>>());
    let names: Vec<String> = library.iter().map(|(name, _)| name.clone()).collect();
    let header = printed("refusals", &names);
    for ((name, number), header) in library.into_iter().zip(header) {
        assert_eq!(header, number, "{name}");
    }
    // Verdicts and endings as document 01 numbers them, clauses as W8 of document 02 does, and no refusal.
    let named =
        ["SERVED", "SMALLER", "EQUAL", "GREATER", "NO_CLAUSE", "L1", "L2", "L3", "NO_STEP", "STEP_LIMIT", "NODE_LIMIT"];
    let names = named.map(|name| format!("NEBLINARO_{name}"));
    assert_eq!(printed("answers", &names), [0, 0, 1, 2, 0, 1, 2, 3, 0, 1, 2]);
}

#[test]
fn fields() {
    let returned: u64 = 0x0123_4567_89ab_cdef;
    let called = printed("fields", &FIELDS.map(|(name, ..)| format!("{name}(UINT64_C(0x{returned:x}))")));
    for ((name, start, bits), called) in FIELDS.into_iter().zip(called) {
        assert_eq!(called, returned >> start & ((1 << bits) - 1), "{name}");
    }
}

/// Each of the six calls is declared, with what it is lent in the order that the tests use.
#[test]
fn declarations() {
    let spaced = |text: &str| text.split_whitespace().collect::<Vec<_>>().join(" ");
    let header = spaced(&read("include/neblinaro.h"));
    let own = read("bench/src/calls.rs");
    for call in ["check", "compare", "solve", "always", "judge", "run"] {
        let start = own.find(&format!("pub fn neblinaro_{call}(")).expect("a declaration");
        let end = start + own[start..].find(';').expect("its end");
        let parameters = own[start..end].split_once('(').expect("parameters").1;
        let parameters = parameters.rsplit_once(')').expect("parameters").0;
        let in_c = parameters.split(',').map(str::trim).filter(|parameter| !parameter.is_empty()).map(|parameter| {
            match parameter.split_once(": ").expect("a type") {
                (name, "*const u8") => format!("const uint8_t *{name}"),
                (name, "*mut u8") => format!("uint8_t *{name}"),
                (name, "usize") => format!("size_t {name}"),
                (name, "u64") => format!("uint64_t {name}"),
                other => panic!("{other:?}"),
            }
        });
        let declared = format!("uint64_t neblinaro_{call}({});", in_c.collect::<Vec<_>>().join(", "));
        assert!(header.contains(&declared), "the header does not declare {declared}");
    }
}
