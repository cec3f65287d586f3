//! Compares the proved solver, its search and document 01's plain forms, with the peer, call by call, and counts what
//! was answered.

pub mod points;
pub mod readings;
pub mod repairs;

use peer::answer::{self, Answer, Solver};
use peer::ffi::{buffer_before, marks, Library, Place, Returned, BEFORE, LONGEST, POINT_BEFORE};
use peer::generate;
use peer::list::{Kind, Tally};
use peer::near::kind_of_level;
use peer::random::Random;
use peer::repair;
use peer::rules::{self, Fault, Rules};
use peer::tables::Tables;
use points::Points;
use readings::Readings;
use repairs::Repairs;
use std::env;
use std::path::{Path, PathBuf};

pub const READ: usize = 0;
pub const FIGURE: usize = 1;
pub const VERDICT: usize = 2;
pub const CUT: usize = 3;
pub const CHECK: usize = 4;
pub const DERIVE: usize = 5;
pub const READ_SMALL: usize = 6;
pub const REPAIR: usize = 7;
pub const PLAIN_FIGURE: usize = 8;
pub const PLAIN_VERDICT: usize = 9;
pub const PLAIN_CUT: usize = 10;
pub const POINT: usize = 11;
const NAMES: [&str; 12] = [
    "read",
    "figure",
    "verdict",
    "cut",
    "check",
    "derive",
    "read_small",
    "repair",
    "plain figure",
    "plain verdict",
    "plain cut",
    "point",
];

/// One more than the highest number that is returned.
const NUMBERS: usize = 28;

/// The reader's refusals that name a clause or a variable.
pub const NAMING: [u32; 6] = [5, 6, 7, 23, 26, 8];

/// Files whose tree has more nodes times clauses than this are read but not solved.
const MOST_STEPS: u128 = 2_000_000;

/// With at most this many variables document 01's rule is followed over clauses as they stand.
const MOST_LISTED: usize = 6;

pub struct Pair {
    pub library: Library,
    /// How often each operation returned each number.
    pub counts: [[u64; NUMBERS]; NAMES.len()],
    /// How often a verdict was within, above and below.
    pub verdicts: [u64; 3],
    /// How often each operation's refusals named a clause, variable or line after the first.
    pub later: [[u64; NUMBERS]; NAMES.len()],
    pub readings: Readings,
    /// How many cuts clashes gave other numbers: at level 0, between and at level n - 1.
    pub by_clashes: [u64; 3],
    /// How many of them have another open weight alone.
    pub open_alone: u64,
    pub points: Points,
    pub tallied: Tallied,
    pub repairs: Repairs,
}

/// What the tallies were that results were to be taken into.
#[derive(Debug, Default)]
pub struct Tallied {
    /// How many results of each kind were taken in, and how many were not.
    kinds: [[u64; 2]; 5],
    /// For each of the five counts, how often it was 4,095, 4,096 and one that is small modulo 2^32, with the others
    /// under 4,095.
    borders: [[u64; 3]; 5],
}

impl Tallied {
    fn take(&mut self, kind: Kind, tally: Tally) {
        self.kinds[kind as usize][usize::from(tally.is_full())] += 1;
        for (place, count) in tally.0.into_iter().enumerate() {
            let border = match count {
                4_095 => 0,
                4_096 => 1,
                _ if count >= 1 << 32 && count % (1 << 32) < 4_096 => 2,
                _ => continue,
            };
            let alone = (0..5).all(|other| other == place || tally.0[other] < 4_095);
            self.borders[place][border] += u64::from(alone);
        }
    }

    /// Prints the counts (seen with `--nocapture`) and fails unless each is at least `least`.
    pub fn reached(&self, least: u64) {
        println!("  results taken in, not: {:?}; counts at a border: {:?}", &self.kinds[1..], self.borders);
        let enough = self.kinds[1..].iter().flatten().chain(self.borders.iter().flatten()).all(|count| *count >= least);
        assert!(enough, "{self:?}");
    }
}

/// The number of rounds, times the variable PEER_ROUNDS if it is set.
pub fn rounds(count: usize) -> usize {
    count * env::var("PEER_ROUNDS").map_or(1, |text| text.parse().expect("PEER_ROUNDS is a number"))
}

/// The random numbers of one test: the same in every run, unless PEER_SEED is set.
pub fn random(test: u64) -> Random {
    let seed = env::var("PEER_SEED").map_or(0, |text| text.parse().expect("PEER_SEED is a number"));
    Random::new(Random::new(seed).word() ^ test)
}

/// The path of a program that `rt ci` or `rt run` built.
pub fn program(name: &str) -> PathBuf {
    let bin = env::var_os("SSAT_BIN_DIR").map_or_else(|| format!("../../crates/{name}/out").into(), PathBuf::from);
    let path = Path::new(env!("CARGO_MANIFEST_DIR")).join(bin).join(name);
    let Ok(program) = path.canonicalize() else {
        panic!("{} is missing: build it by `rt run` in crates/{name}, or set SSAT_BIN_DIR.", path.display());
    };
    program
}

fn place(random: &mut Random) -> Place {
    if random.once_in(4) {
        Place::AtStart
    } else {
        Place::AtEnd
    }
}

impl Pair {
    pub fn new() -> Pair {
        Pair {
            library: Library::new(),
            counts: [[0; NUMBERS]; NAMES.len()],
            verdicts: [0; 3],
            later: [[0; NUMBERS]; NAMES.len()],
            readings: Readings::default(),
            by_clashes: [0; 3],
            open_alone: 0,
            points: Points::default(),
            tallied: Tallied::default(),
            repairs: Repairs::default(),
        }
    }

    /// Fails unless the call returned the peer's answer.
    fn same(&mut self, operation: usize, expected: &Answer, got: Returned, input: impl Fn() -> String) {
        let wanted = (expected.code, expected.out(BEFORE));
        assert!(got == wanted, "{}: library {got:?}, peer {wanted:?}\n{}", NAMES[operation], input());
        let code = expected.code as usize;
        self.counts[operation][code] += 1;
        if operation == VERDICT && code == 0 {
            self.verdicts[expected.numbers[0] as usize] += 1;
        }
        if code > 0 && expected.numbers.first().is_some_and(|place| *place > 0) {
            self.later[operation][code] += 1;
        }
    }

    /// Compares all operations but the derivation check on one rule file; false if its tree is too large, so that it
    /// was not solved.
    pub fn rule(&mut self, random: &mut Random, bytes: &[u8]) -> bool {
        let input = || format!("rule file {}", to_hex(bytes));
        let rules = rules::read(bytes);
        self.library.lend_rule(bytes, place(random));
        self.readers(bytes, &rules);
        let solver = Solver::new(&rules);
        self.derive(random, bytes, &solver);
        for capacity in [bytes.len(), bytes.len().saturating_sub(1)] {
            self.repair_to(Place::AtEnd, bytes, capacity);
        }
        let (n, m, whole) = match &rules {
            Ok(rules) => (rules.n() as u64, rules.clauses.len(), rules.whole() as u64),
            Err(_) => (random.below(34) as u64, 0, 1 << random.below(63)),
        };
        if solver.nodes() * (m as u128 + 1) > MOST_STEPS {
            return false;
        }
        let solvers = [solver, Solver::by_search(&rules)];
        let value = self.figure(bytes, &solvers);
        let limits = [0, 1, value.saturating_sub(1), value, value, value + 1, whole / 2, whole - 1, whole];
        for _ in 0..4 {
            let (mut lo, mut hi) = (random.pick(&limits), random.pick(&limits));
            if lo > hi && !random.once_in(4) {
                (lo, hi) = (hi, lo);
            }
            if random.once_in(6) {
                hi = random.pick(&[whole + 1, whole + 2, whole << 1, u64::MAX]);
            }
            if random.once_in(20) {
                lo = random.pick(&[whole + 1, whole + 2, u64::MAX]);
            }
            let verdict = self.verdict(bytes, &solvers, lo, hi);

            let tally = generate::tally(random);
            let expected = solvers[0].tally(lo, hi, tally);
            let (got, counts) = self.library.tally(lo, hi, tally.0, random.pick(&[Place::AtEnd, Place::AtStart]));
            let same = got == (expected.code, expected.out(BEFORE)) && Some(Tally(counts)) == expected.tally;
            assert!(
                same,
                "tally {tally:?}: library {got:?} {counts:?}, peer {expected:?}\nlimits {lo} {hi}, {}",
                input()
            );
            self.tallied.take(Kind::of(&verdict), tally);
        }
        if rules.is_ok() {
            self.verdicts_around(bytes, &solvers, value, whole);
        }

        let most = if rules.is_ok() { n } else { 0 };
        let far = random.pick(&[n + 1, n + 2, 33, 64, 1 << 32, (1 << 32) + n, 1 << 63, u64::MAX]);
        for level in (0..=most).chain([n + 1, far]) {
            self.cut(bytes, &solvers, level);
        }
        if let Ok(rules) = &rules {
            let plain = Tables::without_clashes(rules);
            for level in 0..rules.n() {
                let (cut, plain) = (solvers[0].cut(level as u64).numbers, Answer::numbers(&plain.cut(level)).numbers);
                self.by_clashes[kind_of_level(level, rules.n())] += u64::from(cut != plain);
                self.open_alone += u64::from(cut != plain && cut[1] == plain[1]);
            }
        }
        true
    }

    /// Compares figure, verdicts around it and all cuts of an accepted file: by the search, in the plain form, and by
    /// these methods of the peer.
    pub fn solve(&mut self, random: &mut Random, bytes: &[u8], rules: &Rules, solvers: &[Solver]) {
        self.library.lend_rule(bytes, place(random));
        let value = self.figure(bytes, solvers);
        self.verdicts_around(bytes, solvers, value, rules.whole() as u64);
        for level in 0..=rules.n() as u64 {
            self.cut(bytes, solvers, level);
        }
    }

    /// Fails unless all methods of the peer give the same answer to one question about a file.
    fn agreed(solvers: &[Solver], answer: impl Fn(&Solver) -> Answer, input: impl Fn() -> String) -> Answer {
        let first = answer(&solvers[0]);
        for other in &solvers[1..] {
            assert_eq!(answer(other), first, "two methods of the peer: {}", input());
        }
        first
    }

    /// Compares the figure of the rule file that is lent: 0 for a refused one.
    fn figure(&mut self, bytes: &[u8], solvers: &[Solver]) -> u64 {
        let input = || format!("rule file {}", to_hex(bytes));
        let expected = Pair::agreed(solvers, |solver| solver.figure(), input);
        let got = self.library.figure();
        self.same(FIGURE, &expected, got, input);
        let got = self.library.plain_figure();
        self.same(PLAIN_FIGURE, &expected, got, input);
        expected.numbers.first().copied().unwrap_or(0)
    }

    /// Compares a verdict on the rule file that is lent.
    fn verdict(&mut self, bytes: &[u8], solvers: &[Solver], lo: u64, hi: u64) -> Answer {
        let input = || format!("limits {lo} {hi}, rule file {}", to_hex(bytes));
        let expected = Pair::agreed(solvers, |solver| solver.verdict(lo, hi), input);
        let got = self.library.verdict(lo, hi);
        self.same(VERDICT, &expected, got, input);
        let got = self.library.plain_verdict(lo, hi);
        self.same(PLAIN_VERDICT, &expected, got, input);
        expected
    }

    /// Compares the verdicts with limits at the value and one beside it.
    fn verdicts_around(&mut self, bytes: &[u8], solvers: &[Solver], value: u64, whole: u64) {
        for (lo, hi) in generate::limits_around(value, whole) {
            self.verdict(bytes, solvers, lo, hi);
        }
    }

    /// Compares a cut of the rule file that is lent, its marks and its point.
    fn cut(&mut self, bytes: &[u8], solvers: &[Solver], level: u64) {
        let input = || format!("level {level}, rule file {}", to_hex(bytes));
        let cut = Pair::agreed(solvers, |solver| solver.cut(level), input);
        let got = self.library.cut(level);
        self.same(CUT, &cut, got, input);
        let got = self.library.plain_cut(level);
        self.same(PLAIN_CUT, &cut, got, input);

        let expected = solvers[0].point_of(&cut);
        let place = if level.is_multiple_of(2) { Place::AtEnd } else { Place::AtStart };
        let (got, point) = self.library.point(level, place);
        self.same(POINT, &expected, got, input);
        let wanted = expected.point(POINT_BEFORE);
        assert!(point == wanted, "point: library {point:x?}, peer {wanted:x?}\n{}", input());
        assert_eq!(marks((got, point)), solvers[0].marks_of(&cut).doubles, "marks: {}", input());
        if let Some(whole) = solvers[0].whole() {
            self.points.take(&cut, whole);
        }
    }

    /// Compares both readers on one rule file.
    pub fn read(&mut self, random: &mut Random, bytes: &[u8]) {
        self.library.lend_rule(bytes, place(random));
        self.readers(bytes, &rules::read(bytes));
    }

    /// Compares both readers on the rule file that is lent, with the peer and with each other.
    fn readers(&mut self, bytes: &[u8], rules: &Result<Rules, Fault>) {
        let input = || format!("rule file {}", to_hex(bytes));
        let bench = self.library.read();
        self.same(READ, &answer::reading(rules), bench, input);
        let small = self.library.read_small();
        self.same(READ_SMALL, &answer::read_small(bytes), small, input);
        self.readings.take(bytes, bench, small);
    }

    /// Lends a rule file for the checks that follow.
    pub fn lend_rule(&mut self, random: &mut Random, bytes: &[u8]) {
        self.library.lend_rule(bytes, place(random));
    }

    /// Compares the check of one derivation over the rule file that is lent.
    pub fn check(&mut self, random: &mut Random, rule: &[u8], solver: &Solver, derivation: &[u8]) -> Answer {
        self.library.lend_derivation(derivation, place(random));
        let expected = solver.check(derivation);
        let got = self.library.check();
        self.same(CHECK, &expected, got, || format!("rule file {}\nderivation {}", to_hex(rule), to_hex(derivation)));
        expected
    }

    /// Compares the writer on the rule file that is lent, with a buffer of `capacity` bytes.
    fn derive_to(&mut self, random: &mut Random, rule: &[u8], solver: &Solver, capacity: usize) {
        let input = || format!("buffer of {capacity} bytes, rule file {}", to_hex(rule));
        let expected = solver.derive(capacity);
        let (got, buffer) = self.library.derive(capacity, place(random));
        self.same(DERIVE, &expected, got, input);
        assert!(
            buffer == expected.buffer(&buffer_before(capacity)),
            "derive: another buffer than the peer's\n{}",
            input()
        );
    }

    /// Compares the writer on the rule file that is lent, with buffers of the derivation's length and of others. What
    /// is written must be accepted with the figure, by both checkers.
    pub fn derive(&mut self, random: &mut Random, rule: &[u8], solver: &Solver) -> Answer {
        let longest = solver.derive(LONGEST);
        let length = longest.written.len();
        let capacities = match longest.code {
            0 => vec![length, length - 1, random.below(length), length + random.within(1, 9)],
            22 => vec![65_536, LONGEST, random.below(LONGEST)],
            _ => vec![random.below(200)],
        };
        let rarely = random.pick(&[65_536, 65_537, LONGEST]);
        for capacity in capacities.into_iter().chain([0]).chain(random.once_in(20).then_some(rarely)) {
            self.derive_to(random, rule, solver, capacity);
        }
        if longest.code == 0 {
            let got = self.check(random, rule, solver, &longest.written);
            assert_eq!(got, solver.figure(), "a written derivation is accepted with the figure: {}", to_hex(rule));
        }
        longest
    }

    /// Compares the repair of the rule file that is lent, with a buffer of `capacity` bytes.
    fn repair_to(&mut self, place: Place, rule: &[u8], capacity: usize) -> Answer {
        let input = || format!("buffer of {capacity} bytes, rule file {}", to_hex(rule));
        let expected = answer::repair(rule, capacity);
        let (got, buffer) = self.library.repair(capacity, place);
        self.same(REPAIR, &expected, got, input);
        assert!(
            buffer == expected.buffer(&buffer_before(capacity)),
            "repair: another buffer than the peer's\n{}",
            input()
        );
        expected
    }

    /// Compares the repair of one rule file, with buffers of these lengths and of its own: the answer with the last, and
    /// what is written then.
    pub fn repair(&mut self, random: &mut Random, rule: &[u8], capacities: &[usize]) -> Answer {
        self.library.lend_rule(rule, place(random));
        for &capacity in capacities {
            self.repair_to(place(random), rule, capacity);
        }
        let repaired = self.repair_to(place(random), rule, rule.len());
        if repaired.code == 0 {
            self.repairs.take(rule, &repaired, capacities);
            self.repaired(random, rule, &repaired.written);
        }
        repaired
    }

    /// Fails unless a repaired file is accepted, stays as it is when it is repaired, and has the figure that document
    /// 01's rule gives the old clauses.
    fn repaired(&mut self, random: &mut Random, rule: &[u8], written: &[u8]) {
        let input = || format!("rule file {}", to_hex(rule));
        self.library.lend_rule(written, place(random));
        let new = rules::read(written);
        assert!(new.is_ok(), "a repaired file is refused by {new:?}: {}", input());
        self.readers(written, &new);
        let again = self.repair_to(place(random), written, written.len());
        assert_eq!(again.numbers, [written.len() as u64, 0, 0, 0], "repaired twice: {}", input());
        assert!(again.written == written, "repaired twice, other bytes: {}", input());

        let old = rules::read_by(rules::REPAIR, rule);
        let solver = Solver::new(&old);
        let (n, m) = old.as_ref().map_or((0, 0), |old| (old.n(), old.clauses.len()));
        if solver.nodes() * (m as u128 + 1) > MOST_STEPS {
            return;
        }
        let figure = solver.figure();
        if n <= MOST_LISTED {
            let stored = rules::draft_by(rules::REPAIR, rule).unwrap();
            assert_eq!(u128::from(figure.numbers[0]), repair::figure(&stored), "{}", input());
        }
        let got = self.library.figure();
        self.same(FIGURE, &figure, got, input);
    }

    /// Fails unless the operation returned each of these numbers at least `least` times.
    pub fn reached(&self, operation: usize, numbers: impl IntoIterator<Item = u32>, least: u64) {
        for number in numbers {
            let count = self.counts[operation][number as usize];
            assert!(count >= least, "{} returned {number} only {count} times", NAMES[operation]);
        }
    }

    /// Fails unless the operation's refusals by each of these numbers named a place after the first at least `least`
    /// times.
    pub fn named_later(&self, operation: usize, numbers: impl IntoIterator<Item = u32>, least: u64) {
        for number in numbers {
            let count = self.later[operation][number as usize];
            assert!(count >= least, "{} named a place after 0 with {number} only {count} times", NAMES[operation]);
        }
    }

    /// Fails unless clashes gave other numbers to at least so many cuts of each kind of level, and another open weight
    /// alone to at least `open_alone`.
    pub fn clashed(&self, least: [u64; 3], open_alone: u64) {
        let enough = self.by_clashes.iter().zip(least).all(|(count, least)| *count >= least);
        assert!(enough, "clashes gave other numbers to {:?} cuts only", self.by_clashes);
        assert!(self.open_alone >= open_alone, "another open weight alone to {} cuts only", self.open_alone);
    }

    /// Prints the counts (seen with `--nocapture`).
    pub fn report(&self, test: &str) {
        let mut text = format!("{test}:\n");
        for (operation, counts) in self.counts.iter().enumerate() {
            let total: u64 = counts.iter().sum();
            if total > 0 {
                text += &format!("  {:10} {total:8} calls:", NAMES[operation]);
                for (number, count) in counts.iter().enumerate().filter(|(_, count)| **count > 0) {
                    text += &format!(" {number}:{count}");
                }
                text += "\n";
            }
        }
        if self.counts[CUT][0] > 0 {
            text +=
                &format!("  other numbers by clashes: {:?}, open weight alone: {}\n", self.by_clashes, self.open_alone);
        }
        print!("{text}{}{}{}", self.points.report(), self.readings.report(), self.repairs.report());
    }
}

/// A file in hexadecimal, for a message.
fn to_hex(bytes: &[u8]) -> String {
    bytes.iter().map(|byte| format!("{byte:02x}")).collect()
}
