//! The benchmark's table: what is timed, the proved time and the plain one side by side, and their ratio.

/// Nanoseconds of the proved side and of the plain one.
#[derive(Clone, Copy)]
pub struct Pair {
    pub proved: f64,
    pub plain: f64,
}

impl Pair {
    pub fn ratio(self) -> f64 {
        self.proved / self.plain
    }
}

/// A row: a call or the program, the sheet, what there is to do on it, the whole call, and one unit of its work where that tells more.
pub struct Row {
    pub call: &'static str,
    pub sheet: String,
    pub work: String,
    pub whole: Pair,
    pub unit: Option<(&'static str, Pair)>,
}

/// Rows are printed as they are added.
#[derive(Default)]
pub struct Table {
    rows: Vec<Row>,
}

impl Table {
    pub fn add(&mut self, row: Row) {
        match self.rows.last() {
            None => heading(),
            Some(last) if last.call != row.call => rule(),
            Some(_) => (),
        }
        row.print();
        self.rows.push(row);
    }

    /// The row of each call with the highest ratio.
    pub fn print_worst(&self) {
        rule();
        for call in ["check", "compare", "solve", "always", "as solve", "judge", "run", "program"] {
            let rows = self.rows.iter().filter(|row| row.call == call);
            if let Some(row) = rows.max_by(|a, b| a.whole.ratio().total_cmp(&b.whole.ratio())) {
                println!("worst ratio of {call:8} {:5.2}  {} ({})", row.whole.ratio(), row.sheet, row.work);
            }
        }
    }
}

/// Times of a whole call are in microseconds, those of a unit in nanoseconds.
fn heading() {
    print!("{:8} {:46} {:24}", "call", "sheet", "work");
    print!(" {:>11} {:>11} {:>6}", "proved µs", "plain µs", "ratio");
    println!("   {:5} {:>11} {:>10} {:>6}", "one", "proved ns", "plain ns", "ratio");
    rule();
}

fn rule() {
    println!("{}", "-".repeat(148));
}

impl Row {
    fn print(&self) {
        let Pair { proved, plain } = self.whole;
        print!("{:8} {:46} {:24}", self.call, self.sheet, self.work);
        print!(" {:11.3} {:11.3} {:6.2}", proved / 1e3, plain / 1e3, self.whole.ratio());
        if let Some((unit, pair)) = self.unit {
            print!("   {unit:5} {:11.1} {:10.1} {:6.2}", pair.proved, pair.plain, pair.ratio());
        }
        println!();
    }
}

/// A number with commas between thousands.
pub fn thousands(number: usize) -> String {
    let digits = number.to_string();
    let first = digits.len() % 3;
    let groups = digits.as_bytes()[first..].chunks(3).map(|group| std::str::from_utf8(group).expect("digits"));
    let head = (0 < first).then(|| &digits[..first]);
    head.into_iter().chain(groups).collect::<Vec<_>>().join(",")
}

/// "1 line", "2,000 turns".
pub fn counted(number: usize, what: &str) -> String {
    format!("{} {what}{}", thousands(number), if number == 1 { "" } else { "s" })
}
