//! What was compared and what was seen: an operation at a time, and over the whole run.

use std::fmt::{self, Debug};
use std::sync::Mutex;

use driver::refusals::{self, Check};

/// The first case on which the two sides part, or a comparison that did not reach what it should.
#[derive(Debug)]
pub struct Difference(pub String);

impl fmt::Display for Difference {
    fn fmt(&self, f: &mut fmt::Formatter<'_>) -> fmt::Result {
        f.write_str(&self.0)
    }
}

/// What a call can come to.
#[derive(Clone, Copy, Debug, PartialEq, Eq, PartialOrd, Ord)]
pub enum Case {
    /// An answer, or a kind of input that has to be reached.
    Answer(&'static str),
    /// A refusal by its number; all of the number together, and each of its checks.
    Refused(u8),
    By(Check),
}

impl From<&'static str> for Case {
    fn from(answer: &'static str) -> Self {
        Case::Answer(answer)
    }
}

impl From<u8> for Case {
    fn from(number: u8) -> Self {
        Case::Refused(number)
    }
}

impl From<Check> for Case {
    fn from(check: Check) -> Self {
        Case::By(check)
    }
}

impl Case {
    /// Answers first, then refusals in the order of their numbers, each with its checks behind it; else
    /// in the order in which they were first named or seen.
    fn order(&self) -> (u8, u8) {
        match self {
            Case::Answer("answers") => (0, 0),
            Case::Answer(_) => (0, 1),
            Case::Refused(number) => (*number, 0),
            Case::By(check) => (check.number, 1),
        }
    }
}

impl fmt::Display for Case {
    fn fmt(&self, f: &mut fmt::Formatter<'_>) -> fmt::Result {
        match self {
            Case::Answer(answer) => f.write_str(answer),
            Case::Refused(number) => write!(f, "{number} {}", refusals::name(*number)),
            Case::By(check) => write!(f, "    {}", check.why),
        }
    }
}

/// An operation under comparison: the inputs on which both sides were the same so far, and how often
/// each of its cases was seen.
pub struct Operation {
    name: &'static str,
    cases: u64,
    seen: Vec<(Case, u64)>,
}

impl Operation {
    pub fn new(name: &'static str) -> Self {
        Operation {
            name,
            cases: 0,
            seen: Vec::new(),
        }
    }

    /// One more input, on which both sides have to be the same.
    pub fn case<T: PartialEq + Debug>(
        &mut self,
        input: impl FnOnce() -> String,
        ours: T,
        expected: T,
    ) -> Result<(), Difference> {
        if ours != expected {
            return self.differs(input(), format!("ours {ours:?}, expected {expected:?}"));
        }
        self.cases += 1;
        Ok(())
    }

    /// As `case`, of a code: 0 where the call answers, which has to be seen too, or the number of a refusal.
    pub fn answer(
        &mut self,
        input: impl FnOnce() -> String,
        ours: u8,
        expected: u8,
    ) -> Result<(), Difference> {
        self.case(input, ours, expected)?;
        self.saw_times("answers", u64::from(ours == 0));
        // a larger code is no refusal: its operation has a name for it
        if (1..=15).contains(&ours) {
            self.saw(ours);
        }
        Ok(())
    }

    /// A fact about the case at hand, which is not counted as another.
    pub fn also(
        &mut self,
        input: impl FnOnce() -> String,
        what: &str,
        holds: bool,
    ) -> Result<(), Difference> {
        if holds {
            return Ok(());
        }
        self.differs(input(), format!("not as expected: {what}"))
    }

    fn differs(&self, input: String, how: String) -> Result<(), Difference> {
        let (name, cases) = (self.name, self.cases);
        Err(Difference(format!(
            "{name} DIFFERS after {cases} same, at {input}: {how}"
        )))
    }

    pub fn saw(&mut self, case: impl Into<Case>) {
        self.saw_times(case, 1);
    }

    pub fn saw_times(&mut self, case: impl Into<Case>, times: u64) {
        let case = case.into();
        match self.seen.iter_mut().find(|(other, _)| *other == case) {
            Some((_, seen)) => *seen += times,
            None => self.seen.push((case, times)),
        }
    }

    /// The check that refused, where one did.
    pub fn saw_check(&mut self, check: Option<Check>) {
        if let Some(check) = check {
            self.saw(check);
        }
    }

    /// Each of these has to be seen before the run ends.
    pub fn can<C: Into<Case> + Copy>(mut self, cases: &[C]) -> Self {
        for &case in cases {
            self.saw_times(case, 0);
        }
        self
    }

    /// Hands the operation to the tally. `beside` is what it was compared with; each of these refusals
    /// has to be seen before the run ends.
    pub fn same(self, beside: &str, refusals: &[u8]) -> Result<(), Difference> {
        let operation = self.can(refusals);
        let mut tally = TALLY.lock().expect("no check panicked while it counted");
        tally.add(operation, beside);
        Ok(())
    }
}

/// All operations of the run. Checks of both threads hand theirs over here.
static TALLY: Mutex<Tally> = Mutex::new(Tally(Vec::new()));

struct Tally(Vec<Row>);

/// An operation of the whole run, and how many of its inputs were compared with what.
struct Row {
    operation: Operation,
    beside: Vec<(String, u64)>,
}

impl Tally {
    fn add(&mut self, operation: Operation, beside: &str) {
        let known = self
            .0
            .iter()
            .position(|row| row.operation.name == operation.name);
        let place = known.unwrap_or_else(|| {
            self.0.push(Row {
                operation: Operation::new(operation.name),
                beside: Vec::new(),
            });
            self.0.len() - 1
        });
        let row = &mut self.0[place];
        row.operation.cases += operation.cases;
        for &(case, times) in &operation.seen {
            row.operation.saw_times(case, times);
        }
        match row.beside.iter_mut().find(|(name, _)| name == beside) {
            Some((_, cases)) => *cases += operation.cases,
            None => row.beside.push((beside.to_string(), operation.cases)),
        }
    }
}

/// The inputs on which both sides were the same, of all operations.
pub fn cases() -> u64 {
    let tally = TALLY.lock().expect("no check panicked while it counted");
    tally.0.iter().map(|row| row.operation.cases).sum()
}

/// Prints the table, operations and their cases in order. A case that was never seen is a failure.
pub fn table() -> Result<(), Difference> {
    let mut tally = TALLY.lock().expect("no check panicked while it counted");
    tally.0.sort_by_key(|row| row.operation.name);
    let mut never = Vec::new();
    println!(
        "{:<88} {:>15}",
        "operation; beside what; what was seen", "times"
    );
    for row in &mut tally.0 {
        let operation = &mut row.operation;
        line(operation.name, operation.cases);
        row.beside.sort();
        for (beside, cases) in &row.beside {
            line(&format!("  = {beside}"), *cases);
        }
        operation.seen.sort_by_key(|(case, _)| case.order());
        for (case, times) in &operation.seen {
            line(&format!("    {case}"), *times);
            if *times == 0 {
                never.push(format!(
                    "{} never saw {}",
                    operation.name,
                    case.to_string().trim()
                ));
            }
        }
    }
    if never.is_empty() {
        return Ok(());
    }
    Err(Difference(never.join("\n")))
}

fn line(name: &str, times: u64) {
    println!("{name:<88} {:>15}", grouped(times));
}

/// A number with a comma before every third digit from its end.
pub fn grouped(number: u64) -> String {
    let digits = number.to_string();
    let first = digits.len() % 3;
    let mut groups: Vec<&str> = Vec::new();
    if first > 0 {
        groups.push(&digits[..first]);
    }
    let rest = &digits[first..];
    groups.extend((0..rest.len() / 3).map(|i| &rest[3 * i..3 * i + 3]));
    groups.join(",")
}
