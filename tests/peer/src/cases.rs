//! Run samples: a rule file, an operation and the answer that it must give. The program `run_samples` takes them as
//! records and answers each by a line; `samples` says the form of both.

use crate::answer::{answer, clauses, jobs, read_small, repair, Answer, Solver};
use crate::list::Tally;
use crate::to_bytes;

#[derive(Clone, Debug, PartialEq, Eq)]
pub enum Operation {
    Read,
    Figure,
    Verdict(u64, u64),
    Cut(u64),
    Check(Vec<u8>),
    /// The writer, with a buffer of this many bytes.
    Derive(usize),
    /// The clause reader, from clause 0 until none is left.
    Clauses,
    /// The reader of job lists; the list stands in the rule file's place.
    Jobs,
    /// The verdict with these limits, taken into a tally of these counts.
    Tally(u64, u64, [u32; 5]),
    ReadSmall,
    /// The repair, with a buffer of this many bytes.
    Repair(usize),
    /// The marks of the cut at this level.
    Marks(u64),
    /// The plot point of the cut at this level.
    Point(u64),
}

#[derive(Clone, Debug, PartialEq, Eq)]
pub struct Case {
    pub name: String,
    pub rule: Vec<u8>,
    pub operation: Operation,
    pub expected: Answer,
}

impl Case {
    /// The peer's own answer.
    pub fn solve(&self) -> Answer {
        answer(&self.rule, |solver: &Solver| match &self.operation {
            Operation::Read => solver.read(),
            Operation::Figure => solver.figure(),
            Operation::Verdict(lo, hi) => solver.verdict(*lo, *hi),
            Operation::Cut(level) => solver.cut(*level),
            Operation::Check(derivation) => solver.check(derivation),
            Operation::Derive(capacity) => solver.derive(*capacity),
            Operation::Clauses => clauses(&self.rule),
            Operation::Jobs => jobs(&self.rule),
            Operation::Tally(lo, hi, counts) => solver.tally(*lo, *hi, Tally(counts.map(u64::from))),
            Operation::ReadSmall => read_small(&self.rule),
            Operation::Repair(capacity) => repair(&self.rule, *capacity),
            Operation::Marks(level) => solver.marks(*level),
            Operation::Point(level) => solver.point(*level),
        })
    }

    /// The case as a record of the program `run_samples`.
    pub fn record(&self) -> Vec<u8> {
        let (operation, a, b, second) = match &self.operation {
            Operation::Read => (1, 0, 0, Vec::new()),
            Operation::Figure => (2, 0, 0, Vec::new()),
            Operation::Verdict(lo, hi) => (3, *lo, *hi, Vec::new()),
            Operation::Cut(level) => (4, *level, 0, Vec::new()),
            Operation::Check(derivation) => (5, 0, 0, derivation.clone()),
            Operation::Clauses => (6, 0, 0, Vec::new()),
            Operation::Derive(capacity) => (7, *capacity as u64, 0, self.expected.written.clone()),
            Operation::Jobs => (8, 0, 0, Vec::new()),
            Operation::Tally(lo, hi, counts) => (9, *lo, *hi, to_bytes(counts)),
            Operation::ReadSmall => (10, 0, 0, Vec::new()),
            Operation::Repair(capacity) => (11, *capacity as u64, 0, self.expected.written.clone()),
            Operation::Marks(level) => (12, *level, 0, Vec::new()),
            Operation::Point(level) => (13, *level, 0, Vec::new()),
        };
        let mut record = to_bytes(&[operation]);
        record.extend([a, b].iter().flat_map(|number| number.to_le_bytes()));
        record.extend(to_bytes(&[self.rule.len() as u32, second.len() as u32]));
        record.extend(&self.rule);
        record.extend(second);
        record
    }

    /// The line that `run_samples` must write for it.
    pub fn line(&self) -> String {
        let Answer { code, numbers, tally, doubles, .. } = &self.expected;
        let all = after_blanks(code.to_string(), numbers);
        let answer = match (&self.operation, &numbers[..]) {
            (Operation::Verdict(..) | Operation::Tally(..), [1, _]) => format!("{code} above"),
            (Operation::Verdict(..) | Operation::Tally(..), [2, _]) => format!("{code} below"),
            (Operation::Verdict(..) | Operation::Tally(..), [_, figure]) => format!("{code} within {figure}"),
            (Operation::Clauses, _) if *code == 0 => all + " none",
            (Operation::Derive(_) | Operation::Repair(_), _) => all + " right",
            (Operation::Jobs, [count, jobs @ ..]) => format!("{code} {count}{}", words_of(jobs)),
            (Operation::Marks(_), [1]) if *code == 0 => after_blanks(format!("{code} one"), doubles),
            (Operation::Marks(_), [2]) if *code == 0 => after_blanks(format!("{code} two"), doubles),
            (Operation::Point(_), _) if *code == 0 => after_blanks(code.to_string(), doubles),
            _ => all,
        };
        let counts = tally.as_ref().map_or(&[][..], |tally| &tally.0);
        after_blanks(answer, counts) + "\n"
    }
}

/// The line with these numbers at its end, each after a blank.
fn after_blanks(line: String, numbers: &[u64]) -> String {
    numbers.iter().fold(line, |line, number| format!("{line} {number}"))
}

/// The words for the lines of a job list, each after a blank.
fn words_of(jobs: &[u64]) -> String {
    let (mut words, mut numbers) = (String::new(), jobs.iter());
    while let Some(length) = numbers.next() {
        if *length == 0 {
            words += " other";
            continue;
        }
        for number in [length].into_iter().chain(numbers.by_ref().take(2)) {
            words += &format!(" {number}");
        }
    }
    words
}
