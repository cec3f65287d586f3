//! The ten operations, as the C interface answers them, and the marks, the clause reader and the reader of job lists,
//! which it has not.

use crate::derivation;
use crate::enumerate;
use crate::list::{self, Kind, Tally};
use crate::points::{self, Marks, Point};
use crate::repair::{self, Repaired};
use crate::rules::{self, Fault, Rules};
use crate::search::{self, Verdict};
use crate::tables::Tables;
use crate::writer;

/// With at most this many variables the answers come from full enumeration.
pub const MOST_ENUMERATED: usize = 7;

/// A return value, and the numbers that go to `out` from index 0: the answer's for 0, the place of a
/// refusal that has one, else none.
#[derive(Clone, Debug, Default, PartialEq, Eq)]
pub struct Answer {
    pub code: u32,
    pub numbers: Vec<u64>,
    /// What the writer or the repair puts at the start of its buffer.
    pub written: Vec<u8>,
    /// What the tally holds that is lent to take the verdict in.
    pub tally: Option<Tally>,
    /// The doubles of an answer, by their bits: the marks of a cut; or low mark, high mark and open share of its point.
    pub doubles: Vec<u64>,
}

impl Answer {
    pub fn refused((code, place): Fault) -> Answer {
        Answer { code, numbers: place.map(|place| place as u64).into_iter().collect(), ..Answer::default() }
    }

    pub fn numbers(numbers: &[u128]) -> Answer {
        let small = |&number: &u128| u64::try_from(number).expect("every number is at most the whole");
        Answer { numbers: numbers.iter().map(small).collect(), ..Answer::default() }
    }

    /// The content of `out` after the call: an answer sets what it does not fill to 0, a
    /// refusal leaves it.
    pub fn out(&self, before: [u64; 4]) -> [u64; 4] {
        let mut out = if self.code == 0 { [0; 4] } else { before };
        out[..self.numbers.len()].copy_from_slice(&self.numbers);
        out
    }

    /// The content of the lent buffer after the call.
    pub fn buffer(&self, before: &[u8]) -> Vec<u8> {
        [&self.written, &before[self.written.len()..]].concat()
    }

    /// The content of the lent point after the call, by its bits.
    pub fn point(&self, before: [u64; 3]) -> [u64; 3] {
        self.doubles[..].try_into().unwrap_or(before)
    }
}

/// How figure, verdict and cut are found.
enum Method<'a> {
    Enumeration,
    Tables(Tables<'a>),
    Search,
}

/// Answers for one rule file.
pub struct Solver<'a> {
    rules: &'a Result<Rules, Fault>,
    method: Method<'a>,
}

impl<'a> Solver<'a> {
    pub fn new(rules: &'a Result<Rules, Fault>) -> Solver<'a> {
        let method = match rules {
            Ok(rules) if rules.n() > MOST_ENUMERATED => Method::Tables(Tables::new(rules)),
            _ => Method::Enumeration,
        };
        Solver { rules, method }
    }

    /// Answers by the search.
    pub fn by_search(rules: &'a Result<Rules, Fault>) -> Solver<'a> {
        Solver { rules, method: Method::Search }
    }

    /// The whole of an accepted file.
    pub fn whole(&self) -> Option<u128> {
        self.rules.as_ref().ok().map(Rules::whole)
    }

    /// The value of an accepted file.
    fn value(&self, rules: &Rules) -> u128 {
        match &self.method {
            Method::Enumeration => enumerate::value(rules),
            Method::Tables(tables) => tables.value(),
            Method::Search => search::value(rules).into(),
        }
    }

    /// How the value of an accepted file lies to limits.
    fn verdict_of(&self, rules: &Rules, lo: u64, hi: u64) -> Verdict {
        if let Method::Search = self.method {
            return search::verdict(rules, lo, hi);
        }
        match self.value(rules) as u64 {
            value if value > hi => Verdict::Above,
            value if value < lo => Verdict::Below,
            value => Verdict::Within(value),
        }
    }

    /// A bound on the nodes of the plain tree that stops at decided nodes; 0 for a refused
    /// file.
    pub fn nodes(&self) -> u128 {
        match (self.rules, &self.method) {
            (Ok(rules), Method::Tables(tables)) => tables.nodes(rules.n()),
            (Ok(rules), _) => 2 << rules.n(),
            (Err(_), _) => 0,
        }
    }

    /// Answers with the file's refusal or by `answer`.
    fn with(&self, answer: impl FnOnce(&Rules) -> Answer) -> Answer {
        match self.rules {
            Ok(rules) => answer(rules),
            Err(fault) => Answer::refused(*fault),
        }
    }

    pub fn read(&self) -> Answer {
        reading(self.rules)
    }

    pub fn figure(&self) -> Answer {
        self.with(|rules| Answer::numbers(&[self.value(rules), rules.whole()]))
    }

    pub fn verdict(&self, lo: u64, hi: u64) -> Answer {
        self.with(|rules| {
            if lo > hi {
                return Answer::refused((10, None));
            }
            if u128::from(hi) > rules.whole() {
                return Answer::refused((11, None));
            }
            Answer::numbers(&match self.verdict_of(rules, lo, hi) {
                Verdict::Above => [1, 0],
                Verdict::Below => [2, 0],
                Verdict::Within(value) => [0, value.into()],
            })
        })
    }

    /// The verdict, and the tally that takes it in.
    pub fn tally(&self, lo: u64, hi: u64, mut tally: Tally) -> Answer {
        let verdict = self.verdict(lo, hi);
        tally.take(Kind::of(&verdict));
        Answer { tally: Some(tally), ..verdict }
    }

    pub fn cut(&self, level: u64) -> Answer {
        self.with(|rules| {
            if level > rules.n() as u64 {
                return Answer::refused((12, None));
            }
            let level = level as usize;
            Answer::numbers(&match &self.method {
                Method::Enumeration => enumerate::cut(rules, level),
                Method::Tables(tables) => tables.cut(level),
                Method::Search => search::cut(rules, level).map(u128::from),
            })
        })
    }

    pub fn marks(&self, level: u64) -> Answer {
        self.marks_of(&self.cut(level))
    }

    pub fn point(&self, level: u64) -> Answer {
        self.point_of(&self.cut(level))
    }

    /// The marks of a cut of this file that has this answer.
    pub fn marks_of(&self, cut: &Answer) -> Answer {
        self.with(|rules| marks(cut, rules.whole()))
    }

    /// The point of a cut of this file that has this answer.
    pub fn point_of(&self, cut: &Answer) -> Answer {
        self.with(|rules| point(cut, rules.whole()))
    }

    pub fn check(&self, bytes: &[u8]) -> Answer {
        self.with(|rules| match derivation::check(rules, bytes) {
            Ok(value) => Answer::numbers(&[value, rules.whole()]),
            Err(fault) => Answer::refused(fault),
        })
    }

    /// The writer, lent a buffer of `capacity` bytes: how many it writes.
    pub fn derive(&self, capacity: usize) -> Answer {
        self.with(|rules| match writer::derive(rules, capacity) {
            Some(written) => Answer { numbers: vec![written.len() as u64], written, ..Answer::default() },
            None => Answer::refused((22, None)),
        })
    }
}

/// What a reader gives.
pub fn reading(rules: &Result<Rules, Fault>) -> Answer {
    match rules {
        Ok(rules) => {
            let counts = [rules.n(), rules.clauses.len(), rules.prefix_start].map(|count| count as u128);
            Answer::numbers(&[counts[0], counts[1], counts[2], rules.whole()])
        }
        Err(fault) => Answer::refused(*fault),
    }
}

/// What the small reader gives. The other operations are the bench's.
pub fn read_small(rule: &[u8]) -> Answer {
    reading(&rules::read_small(rule))
}

/// What `plot` makes of the numbers of a cut with this answer, unless the cut is refused, or the whole by 27.
fn plotted(cut: &Answer, whole: u128, plot: impl FnOnce([u128; 3]) -> Answer) -> Answer {
    match cut.numbers[..] {
        _ if cut.code != 0 => cut.clone(),
        _ if whole > points::LARGEST_WHOLE => Answer::refused((27, None)),
        [lower, upper, open] => plot([lower, upper, open].map(u128::from)),
        _ => panic!("a cut has three numbers, not {cut:?}"),
    }
}

/// How many marks a cut with this answer has, and the marks.
pub fn marks(cut: &Answer, whole: u128) -> Answer {
    plotted(cut, whole, |numbers| {
        let doubles = match points::marks(numbers, whole) {
            Marks::One(mark) => vec![mark],
            Marks::Two(low, high) => vec![low, high],
        };
        Answer { numbers: vec![doubles.len() as u64], doubles, ..Answer::default() }
    })
}

/// How many marks a cut with this answer has, and its point.
pub fn point(cut: &Answer, whole: u128) -> Answer {
    plotted(cut, whole, |numbers| {
        let marks = points::marks(numbers, whole);
        let count = if let Marks::One(_) = marks { 1 } else { 2 };
        let Point { low, high, open } = points::point(marks, numbers[2], whole);
        Answer { numbers: vec![count], doubles: vec![low, high, open], ..Answer::default() }
    })
}

/// What a repair gives: how many bytes it writes, and its three counts.
pub fn repairing(repaired: Result<Repaired, Fault>) -> Answer {
    match repaired {
        Ok(Repaired { written, counts: [clauses, literals, reordered] }) => {
            Answer { numbers: vec![written.len() as u64, clauses, literals, reordered], written, ..Answer::default() }
        }
        Err(fault) => Answer::refused(fault),
    }
}

/// What the repair gives, lent a buffer of `capacity` bytes. It has its own reader.
pub fn repair(rule: &[u8], capacity: usize) -> Answer {
    repairing(repair::repair(rule, capacity))
}

/// Reads a rule file and answers one operation; for tests and samples.
pub fn answer(rule: &[u8], operation: impl FnOnce(&Solver) -> Answer) -> Answer {
    operation(&Solver::new(&rules::read(rule)))
}

/// What the clause reader gives: for each clause in order its length, then its literals as they stand.
pub fn clauses(rule: &[u8]) -> Answer {
    let clauses = match rules::clauses(rule) {
        Ok(clauses) => clauses,
        Err(fault) => return Answer::refused(fault),
    };
    let mut numbers = Vec::new();
    for clause in &clauses {
        numbers.push(clause.len() as u64);
        numbers.extend(clause.iter().map(|&literal| u64::from(literal)));
    }
    Answer { numbers, ..Answer::default() }
}

/// What the reader of job lists gives: how many lines there are, then for each the length of the name and the limits,
/// or 0 for a line of another form.
pub fn jobs(list: &[u8]) -> Answer {
    let jobs = match list::read(list) {
        Ok(jobs) => jobs,
        Err(fault) => return Answer::refused(fault),
    };
    let mut numbers = vec![jobs.len() as u64];
    for job in &jobs {
        match job {
            Some(job) => numbers.extend([job.name.len() as u64, job.lo, job.hi]),
            None => numbers.push(0),
        }
    }
    Answer { numbers, ..Answer::default() }
}
