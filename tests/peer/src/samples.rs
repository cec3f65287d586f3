//! The run samples, each with the answer that documents 01 and 02 give, derived by hand.
//! The tests hold the peer and the proved solver to these answers.
//!
//! The program `run_samples` reads them from its standard input as records, one after another. A record is a head of
//! seven 32-bit words, least byte first, and two files:
//!
//! | Words | Content |
//! |---|---|
//! | 0 | the operation, by its number below |
//! | 1, 2 | for 3 and 9 lo, for 4, 12 and 13 the level, for 7 and 11 the lent length, low word first; else 0 |
//! | 3, 4 | for 3 and 9 hi; else 0 |
//! | 5 | the length of the rule file in bytes; for 8 that of the job list, which stands in its place |
//! | 6 | for 5 the length of the derivation in bytes, for 7 and 11 that of what is to be written, for 9 20; else 0 |
//!
//! Then come the bytes of the rule file and those of the derivation; in its place stand for 9 the tally's five counts,
//! a word each, and for 11 the repaired file, or nothing where it is refused. It answers each record by a line, closed
//! by a line feed. A refusal is its number, with a blank and the clause, variable or line at fault where one is given.
//! An answer begins with `0`; each further word or number stands after one blank, numbers in decimal:
//!
//! | Operation | Line |
//! |---|---|
//! | 1 read, 10 read small | `0 n m start whole` |
//! | 2 figure | `0 figure whole` |
//! | 3 verdict | `0 above`, `0 below` or `0 within figure` |
//! | 4 cut | `0 lower upper open` |
//! | 5 check | `0 value whole` |
//! | 6 clauses | `0`, then for each clause in order its length and its literals as they stand, then `none` |
//! | 7 derive | `0 length right`; `right` stands after a refusal too |
//! | 8 jobs | `0` and the count of lines, then for each the length of its name and its limits, or `other` |
//! | 9 tally | the verdict's line, a refusal's too, then the five counts with the result taken in |
//! | 11 repair | `0 length clauses literals reordered right`; `right` stands after a refusal too |
//! | 12 marks | `0 one mark` or `0 two low high` |
//! | 13 point | `0 low high open` |
//!
//! So 6 gives `0 2 0 2 1 3 2 2 4 none` for clauses {0, 2}, {3}, {2, 4}, and `0 none` where there are no clauses. For 7
//! and 11 the line ends in `wrong` instead if the buffer is another than it must be: what is written, and after it what
//! was there before. For 12 and 13 a double is the number that its 64 bits are.

mod lists;
mod points;
mod repair;
mod small;

pub use lists::{run, Run};

use crate::answer::Answer;
use crate::cases::{Case, Operation};
use crate::generate::{longest_rule, sample, RuleDraft};
use crate::to_bytes;
use crate::writer::{DerivationDraft, LineDraft};

#[derive(Default)]
struct List(Vec<Case>);

impl List {
    fn add(&mut self, name: impl Into<String>, rule: &[u8], operation: Operation, code: u32, numbers: &[u64]) {
        let expected = Answer { code, numbers: numbers.to_vec(), ..Answer::default() };
        self.0.push(Case { name: name.into(), rule: rule.to_vec(), operation, expected });
    }

    fn read(&mut self, name: &str, words: &[u32], code: u32, numbers: &[u64]) {
        self.add(name, &to_bytes(words), Operation::Read, code, numbers);
    }

    /// A refusal of the rule file, with its place if it has one, told by every operation.
    fn refused(&mut self, name: &str, words: &[u32], code: u32, place: &[u64]) {
        let derivation = sample().1.bytes();
        self.read(name, words, code, place);
        let rule = to_bytes(words);
        self.add(format!("{name}-figure"), &rule, Operation::Figure, code, place);
        self.add(format!("{name}-verdict"), &rule, Operation::Verdict(2, 1), code, place);
        self.add(format!("{name}-cut"), &rule, Operation::Cut(40), code, place);
        self.add(format!("{name}-marks"), &rule, Operation::Marks(40), code, place);
        self.add(format!("{name}-point"), &rule, Operation::Point(40), code, place);
        self.add(format!("{name}-check"), &rule, Operation::Check(derivation), code, place);
        self.add(format!("{name}-clauses"), &rule, Operation::Clauses, code, place);
        // A buffer too short for any derivation: 22 stands after the reader's refusals.
        self.add(format!("{name}-derive"), &rule, Operation::Derive(11), code, place);
    }

    fn figure(&mut self, name: &str, rule: &RuleDraft, value: u64, whole: u64) {
        self.add(name, &rule.bytes(), Operation::Figure, 0, &[value, whole]);
    }

    fn cut(&mut self, name: impl Into<String>, rule: &RuleDraft, level: u64, numbers: [u64; 3]) {
        self.add(name, &rule.bytes(), Operation::Cut(level), 0, &numbers);
    }

    /// The cuts at levels 0 to n.
    fn cuts(&mut self, name: &str, rule: &RuleDraft, lines: &[[u64; 3]]) {
        assert_eq!(lines.len(), rule.prefix.len() + 1, "{name}");
        for (level, line) in lines.iter().enumerate() {
            self.cut(format!("{name}-cut-{level}"), rule, level as u64, *line);
        }
    }

    fn clauses(&mut self, name: &str, rule: &RuleDraft, numbers: &[u64]) {
        self.add(name, &rule.bytes(), Operation::Clauses, 0, numbers);
    }

    fn check(&mut self, name: &str, rule: &RuleDraft, words: &[u32], code: u32, numbers: &[u64]) {
        self.add(name, &rule.bytes(), Operation::Check(to_bytes(words)), code, numbers);
    }

    /// A derivation that is written to a buffer of `capacity` bytes.
    fn derive(&mut self, name: impl Into<String>, rule: &RuleDraft, capacity: usize, words: &[u32]) {
        self.add(name, &rule.bytes(), Operation::Derive(capacity), 0, &[4 * words.len() as u64]);
        self.0.last_mut().unwrap().expected.written = to_bytes(words);
    }

    /// A derivation that exceeds a buffer of `capacity` bytes, or another limit.
    fn too_long(&mut self, name: impl Into<String>, rule: &RuleDraft, capacity: usize) {
        self.add(name, &rule.bytes(), Operation::Derive(capacity), 22, &[]);
    }

    /// A derivation on both sides of its border: a buffer of its length, one of more and one of a byte less.
    fn derived(&mut self, name: &str, rule: &RuleDraft, words: &[u32]) {
        let length = 4 * words.len();
        self.derive(name, rule, length, words);
        self.derive(format!("{name}-more"), rule, length + 5, words);
        self.too_long(format!("{name}-less"), rule, length - 1);
    }
}

/// All samples.
pub fn cases() -> Vec<Case> {
    let (stored, others) = stored_and_others();
    [stored, others].concat()
}

/// The samples in the stored files `stdin` and `stdout` of `run_samples`, and the others: marks and points, and what is
/// asked beside them.
pub fn stored_and_others() -> (Vec<Case>, Vec<Case>) {
    // What is stored stays as it is whatever is plotted; the tests run the program on the others.
    let is_plot = |case: &Case| matches!(case.operation, Operation::Marks(_) | Operation::Point(_));
    let (plots, stored) = without_points().0.into_iter().partition(is_plot);
    let mut others = List(plots);
    points::points(&mut others);
    (stored, others.0)
}

/// All but those of `points`.
fn without_points() -> List {
    let mut list = List::default();
    sample_file(&mut list);
    readings(&mut list);
    places(&mut list);
    unordered(&mut list);
    copies(&mut list);
    many_copies(&mut list);
    orders(&mut list);
    wholes(&mut list);
    levels_and_limits(&mut list);
    clashes(&mut list);
    far_clashes(&mut list);
    last_variable(&mut list);
    derivations(&mut list);
    unordered_lines(&mut list);
    resolvents(&mut list);
    many_parents(&mut list);
    many_clauses(&mut list);
    clauses(&mut list);
    written(&mut list);
    written_lengths(&mut list);
    lists::job_lists(&mut list);
    lists::tallies(&mut list);
    small::small_reader(&mut list);
    repair::repairs(&mut list);
    list
}

/// A copy of the words with one of them changed.
fn with(words: &[u32], at: usize, word: u32) -> Vec<u32> {
    let mut words = words.to_vec();
    words[at] = word;
    words
}

/// The same file with the literals of each clause rising.
fn sorted(rule: &RuleDraft) -> RuleDraft {
    let mut rule = rule.clone();
    rule.clauses.iter_mut().for_each(|clause| clause.sort_unstable());
    rule
}

/// The literals of one clause over 32 variables, rising; every second variable stands as its opposite.
fn all_variables() -> Vec<u32> {
    (0..32).map(|v| 2 * v + v % 2).collect()
}

/// Document 01's file and the proved samples.
fn sample_file(list: &mut List) {
    let (rule, derivation) = sample();
    let (file, steps) = (rule.bytes(), derivation.bytes());
    list.add("sample", &file, Operation::Read, 0, &[3, 3, 8, 50]);
    list.add("sample-figure", &file, Operation::Figure, 0, &[12, 50]);
    list.cuts("sample", &rule, &[[0, 50, 50], [0, 40, 40], [0, 40, 40], [12, 12, 0]]);
    list.add("sample-check", &file, Operation::Check(steps.clone()), 0, &[12, 50]);

    // No shorter part of the rule file ends in its own word count.
    for len in 0..file.len() {
        let code = if len % 4 != 0 || len < 16 { 1 } else { 2 };
        list.add(format!("sample-first-{len}"), &file[..len], Operation::Read, code, &[]);
    }
    // The first 5 words of the derivation end in 5: one line, which reaches past its two words.
    for len in 0..steps.len() {
        let (code, numbers) = match len {
            20 => (15, &[0][..]),
            _ if len % 4 != 0 || len < 12 => (13, &[][..]),
            _ => (14, &[][..]),
        };
        let operation = Operation::Check(steps[..len].to_vec());
        list.add(format!("sample-check-first-{len}"), &file, operation, code, numbers);
    }

    let both: &[&[u32]] = &[&[0, 2], &[1, 3]];
    list.figure("p1", &RuleDraft::new(&[], &[]), 1, 1);
    list.figure("p2", &RuleDraft::new(&[&[]], &[]), 0, 1);
    list.figure("p3", &RuleDraft::new(&[&[0]], &[[3, 1]]), 3, 4);
    list.figure("p4", &RuleDraft::new(&[&[0]], &[[0, 0]]), 1, 1);
    list.figure("p5", &RuleDraft::new(both, &[[1, 1], [0, 0]]), 2, 2);
    list.figure("p6", &RuleDraft::new(both, &[[0, 0], [1, 1]]), 1, 2);
}

/// Each of the reader's refusals but 23 and 26 on both sides of its border.
fn readings(list: &mut List) {
    // 1: length.
    let empty = [0, 0, 0, 4];
    list.read("length-16", &empty, 0, &[0, 0, 0, 1]);
    list.refused("length-12", &[0, 0, 3], 1, &[]);
    for len in [0, 15, 17, 18, 19] {
        let mut bytes = to_bytes(&empty);
        bytes.resize(len, 0);
        list.add(format!("length-{len}"), &bytes, Operation::Read, 1, &[]);
    }
    let longest = longest_rule([0, 0]);
    list.read("length-65536", &longest.words(), 0, &[32, 1_024, 16_316, 1]);
    let mut longer = longest.clone();
    longer.clauses[1_023].push(31);
    list.add("length-65540", &longer.bytes(), Operation::Read, 1, &[]);

    // 2: the word count.
    let words = sample().0.words();
    list.refused("count-less", &with(&words, 17, 17), 2, &[]);
    list.refused("count-more", &with(&words, 17, 19), 2, &[]);
    list.refused("count-2^31", &with(&words, 17, 18 + (1 << 31)), 2, &[]);

    // 3: n and m.
    let all = |n: usize, pair| RuleDraft { clauses: Vec::new(), prefix: vec![pair; n] };
    list.read("n-32", &all(32, [0, 0]).words(), 0, &[32, 0, 0, 1]);
    list.figure("n-32-figure", &all(32, [0, 0]), 1, 1);
    list.refused("n-33", &all(33, [0, 0]).words(), 3, &[]);
    list.refused("n-2^31", &[0, 1 << 31, 0, 4], 3, &[]);
    let many = |m: usize| distinct_clauses(m, 1);
    list.read("m-1024", &many(1_024).words(), 0, &[32, 1_024, 4_096, 1]);
    list.figure("m-1024-figure", &many(1_024), 1, 1);
    list.read("m-1025-distinct", &many(1_025).words(), 3, &[]);
    let empty = RuleDraft { clauses: vec![Vec::new(); 1_025], prefix: Vec::new() };
    list.refused("m-1025", &empty.words(), 3, &[]);
    list.refused("m-2^32-1", &[u32::MAX, 0, 0, 4], 3, &[]);

    // 4: the prefix start.
    list.refused("start-less", &with(&words, 16, 7), 4, &[]);
    list.refused("start-more", &with(&words, 16, 9), 4, &[]);
    list.refused("start-2^31", &with(&words, 16, 8 + (1 << 31)), 4, &[]);
    // 2^32 - 2, plus 2n, is 0 modulo 2^32: the place of the trailer.
    list.refused("start-wraps", &[0, 1, u32::MAX - 1, 4], 4, &[]);
    list.refused("start-n-more", &with(&words, 15, 4), 4, &[]);

    // 5: the walk over the clauses. One clause {0, 2} over two variables, k = n.
    let pair = [2, 0, 2, 0, 0, 0, 0, 1, 2, 3, 11];
    list.read("clause-k-n", &pair, 0, &[2, 1, 3, 1]);
    list.refused("clause-reaches-one-past", &with(&pair, 0, 3), 5, &[0]);
    list.refused("clause-reaches-far", &with(&pair, 0, u32::MAX), 5, &[0]);
    list.refused("clause-reaches-wrapping", &with(&pair, 0, u32::MAX - 1), 5, &[0]);
    // Clause {0, ..}, k = n, of two words before the prefix; a second clause that is the prefix's first word, 0.
    list.refused("clause-reaches-past-k-n", &[2, 0, 0, 0, 0, 0, 1, 2, 2, 10], 5, &[0]);
    list.refused("clause-empty-in-prefix", &with(&pair, 7, 2), 5, &[1]);
    // Three literals over two variables, where they fit: k over n, not a variable twice.
    list.refused("clause-k-over-n", &[3, 0, 2, 0, 0, 0, 0, 0, 1, 2, 4, 12], 5, &[0]);
    // Clause {0} of one word less than there is.
    list.refused("walk-ends-early", &with(&pair, 0, 1), 5, &[1]);
    list.refused("walk-m-less", &with(&words, 14, 2), 5, &[2]);
    list.refused("walk-m-more", &with(&words, 14, 4), 5, &[3]);
    list.refused("walk-m-1024", &with(&words, 14, 1_024), 5, &[3]);
    list.refused("walk-m-0", &with(&words, 14, 0), 5, &[0]);

    // 6: literals. The highest of two variables is 3.
    list.read("literal-2n-1", &with(&pair, 2, 3), 0, &[2, 1, 3, 1]);
    list.refused("literal-2n", &with(&pair, 2, 4), 6, &[0]);
    list.refused("literal-2^32-1", &with(&pair, 2, u32::MAX), 6, &[0]);
    list.refused("literal-n-0", &[1, 0, 1, 0, 2, 6], 5, &[0]);

    // 7: a variable twice.
    list.refused("variable-twice-same", &with(&pair, 2, 0), 7, &[0]);
    list.refused("variable-twice-opposite", &with(&pair, 2, 1), 7, &[0]);
    let rule = RuleDraft::new(&[&[4, 2, 0], &[0, 2, 5]], &[[0, 0]; 3]);
    list.read("variable-in-two-clauses", &sorted(&rule).words(), 0, &[3, 2, 8, 1]);
    list.refused("variable-in-two-clauses-unordered", &rule.words(), 23, &[0]);
    let rule = RuleDraft::new(&[&[0, 2, 4], &[0, 2, 1]], &[[0, 0]; 3]);
    list.refused("variable-twice-apart", &rule.words(), 7, &[1]);
    let rule = RuleDraft::new(&[&[4, 2, 0], &[0, 2, 1]], &[[0, 0]; 3]);
    list.refused("variable-twice-apart-unordered", &rule.words(), 7, &[1]);

    // 8: weights.
    let one = |pair| RuleDraft { clauses: vec![vec![0]], prefix: vec![pair] };
    list.figure("weight-true-65535", &one([65_535, 1]), 65_535, 65_536);
    list.figure("weight-false-65535", &one([1, 65_535]), 1, 65_536);
    list.figure("weight-both-65535", &one([65_535, 65_535]), 65_535, 131_070);
    list.refused("weight-true-65536", &one([65_536, 1]).words(), 8, &[0]);
    list.refused("weight-false-65536", &one([1, 65_536]).words(), 8, &[0]);
    list.refused("weight-both-65536", &one([65_536, 65_536]).words(), 8, &[0]);
    list.refused("weight-true-0", &one([0, 1]).words(), 8, &[0]);
    list.refused("weight-false-0", &one([1, 0]).words(), 8, &[0]);
    list.refused("weight-0-65536", &one([0, 65_536]).words(), 8, &[0]);
    list.refused("weight-2^32-1", &one([u32::MAX, u32::MAX]).words(), 8, &[0]);

    // 9: the whole. See also `wholes`.
    let thirty = |pair| {
        let mut prefix = vec![[1, 3]; 30];
        prefix[7] = pair;
        RuleDraft { clauses: Vec::new(), prefix }
    };
    list.read("whole-2^60", &thirty([1, 3]).words(), 0, &[30, 0, 0, 1 << 60]);
    list.refused("whole-over-2^60", &thirty([1, 4]).words(), 9, &[]);
    list.refused("whole-2^64", &all(4, [32_768, 32_768]).words(), 9, &[]);
    list.refused("whole-2^128", &all(8, [32_768, 32_768]).words(), 9, &[]);
    list.refused("whole-largest", &all(32, [65_535, 65_535]).words(), 9, &[]);
}

/// What the reader's refusals name: the first clause or variable at fault, the last there can be, the first of several.
fn places(list: &mut List) {
    let rule = |clauses: &[&[u32]]| RuleDraft::new(clauses, &[[0, 0]; 3]);
    // A word too many between the clauses and the prefix.
    let loose = |mut words: Vec<u32>| {
        let count = words.len();
        let start = words[count - 2];
        words.insert(start as usize, 0);
        words[count - 1] = start + 1;
        words[count] = count as u32 + 1;
        words
    };
    let four = &[0, 2, 4, 1];

    // 5: more literals than variables, a clause past the prefix start, and the end, alone and together.
    let words = rule(&[&[0], &[2, 4], &[], &[1], &[3]]).words();
    list.read("five-clauses", &words, 0, &[3, 5, 10, 1]);
    list.refused("clause-2-k-over-n", &rule(&[&[0], &[2, 4], four, &[1], &[3]]).words(), 5, &[2]);
    list.refused("clause-4-k-over-n", &rule(&[&[0], &[2, 4], &[], &[1], four]).words(), 5, &[4]);
    list.refused("clause-3-k-over-n-reaches-past", &with(&words, 6, 9), 5, &[3]);
    list.refused("clause-4-reaches-past", &with(&words, 8, 2), 5, &[4]);
    list.refused("clause-5-past-the-start", &with(&words, 16, 6), 5, &[5]);
    list.refused("walk-ends-early-by-a-word", &loose(words.clone()), 5, &[5]);
    list.refused("walk-ends-early-by-a-clause", &with(&words, 16, 4), 5, &[4]);
    list.refused("clauses-1-3-k-over-n", &rule(&[&[0], four, &[], four, &[3]]).words(), 5, &[1]);
    let over = rule(&[&[0], four, &[], &[1], &[3]]).words();
    list.refused("clause-1-k-over-n-3-reaches-past", &with(&over, 8, 9), 5, &[1]);
    list.refused("clause-1-k-over-n-and-end", &loose(over), 5, &[1]);

    // 6 and 7.
    list.refused("literal-of-clause-1", &rule(&[&[0], &[2, 6], &[], &[1], &[3]]).words(), 6, &[1]);
    list.refused("literal-of-clause-4", &rule(&[&[0], &[2, 4], &[], &[1], &[6]]).words(), 6, &[4]);
    list.refused("literals-of-clauses-1-3-4", &rule(&[&[0], &[9, 2], &[], &[6], &[7]]).words(), 6, &[1]);
    list.refused("variable-twice-in-0-1-4", &rule(&[&[0, 1], &[2, 2], &[], &[1], &[3, 3]]).words(), 7, &[0]);
    list.refused("variable-twice-in-3", &rule(&[&[0], &[2, 4], &[], &[1, 5, 0], &[3]]).words(), 7, &[3]);
    list.refused("variable-twice-in-0-literal-of-3", &rule(&[&[0, 1], &[2, 4], &[], &[6], &[3]]).words(), 6, &[3]);

    // The last of 1,024 clauses, at word 4,092; the others have three literals each.
    let last = |clause: &[u32]| {
        let mut rule = distinct_clauses(1_023, 1);
        rule.clauses.push(clause.to_vec());
        rule.words()
    };
    list.read("last-of-1024", &last(&[0, 3]), 0, &[32, 1_024, 4_095, 1]);
    list.read("last-of-1024-k-over-n", &last(&[0; 33]), 5, &[1_023]);
    list.read("last-of-1024-reaches-past", &with(&last(&[0]), 4_092, 2), 5, &[1_023]);
    let missing = distinct_clauses(1_023, 1).words();
    list.read("last-of-1024-past-the-start", &with(&missing, 4_156, 1_024), 5, &[1_023]);
    list.read("end-after-1024", &loose(last(&[0, 3])), 5, &[1_024]);
    list.read("last-of-1024-literal", &last(&[0, 64]), 6, &[1_023]);
    list.read("last-of-1024-variable-twice", &last(&[0, 1]), 7, &[1_023]);
    list.read("last-of-1024-unordered", &last(&[3, 0]), 23, &[1_023]);

    // 8: variables, by their number and not by their word.
    let prefix = |changes: &[(usize, [u32; 2])]| {
        let mut prefix = vec![[1, 2]; 32];
        changes.iter().for_each(|&(v, pair)| prefix[v] = pair);
        RuleDraft { clauses: vec![vec![0, 2]], prefix }.words()
    };
    list.read("thirty-two-variables", &prefix(&[]), 0, &[32, 1, 3, 3u64.pow(32)]);
    list.refused("weights-of-0", &prefix(&[(0, [0, 1])]), 8, &[0]);
    list.refused("weights-of-31", &prefix(&[(31, [1, 65_536])]), 8, &[31]);
    list.refused("weights-of-4-9-31", &prefix(&[(9, [0, 7]), (4, [7, 0]), (31, [65_536, 1])]), 8, &[4]);
}

/// 23 on both sides of its border, what it names, and that each operation tells it before its own refusals.
fn unordered(list: &mut List) {
    let rule = |clauses: &[&[u32]]| RuleDraft::new(clauses, &[[0, 0]; 3]);
    let words = |clauses: &[&[u32]]| rule(clauses).words();

    // The variables decide, whether they stand as themselves or as their opposites.
    list.read("rising-pair", &words(&[&[0, 2]]), 0, &[3, 1, 3, 1]);
    list.refused("falling-pair", &words(&[&[2, 0]]), 23, &[0]);
    list.read("rising-opposites", &words(&[&[1, 3, 5]]), 0, &[3, 1, 4, 1]);
    list.refused("falling-opposites", &words(&[&[5, 3, 1]]), 23, &[0]);
    list.read("rising-with-opposites", &words(&[&[1, 2, 5]]), 0, &[3, 1, 4, 1]);
    list.refused("first-two-exchanged", &words(&[&[2, 1, 5]]), 23, &[0]);
    list.refused("last-two-exchanged", &words(&[&[1, 5, 2]]), 23, &[0]);
    list.refused("first-literal-last", &words(&[&[2, 5, 1]]), 23, &[0]);
    list.refused("last-literal-first", &words(&[&[5, 1, 2]]), 23, &[0]);
    // A clause of one literal or none is in order, and so are clauses that fall one after another.
    list.read("units-falling", &words(&[&[5], &[2], &[0]]), 0, &[3, 3, 6, 1]);
    list.read("empty-between-falling", &words(&[&[4], &[], &[1]]), 0, &[3, 3, 5, 1]);
    list.read("clauses-falling", &words(&[&[2, 4], &[0, 2]]), 0, &[3, 2, 6, 1]);

    // The first clause out of order is named.
    list.refused("unordered-clause-0", &words(&[&[3, 0], &[2, 4], &[], &[1], &[3, 5]]), 23, &[0]);
    list.refused("unordered-clause-1", &words(&[&[0], &[4, 2], &[], &[1], &[3, 5]]), 23, &[1]);
    list.refused("unordered-clause-4", &words(&[&[0], &[2, 4], &[], &[1], &[5, 3]]), 23, &[4]);
    list.refused("unordered-clauses-0-4", &words(&[&[3, 0], &[2, 4], &[], &[1], &[5, 3]]), 23, &[0]);
    list.refused("unordered-clauses-1-3-4", &words(&[&[0], &[4, 2], &[], &[5, 1], &[5, 3]]), 23, &[1]);

    // The longest clause, and its neighbours exchanged at the start, in the middle and at the end.
    let wide = |literals: &[u32]| RuleDraft { clauses: vec![vec![0], literals.to_vec()], prefix: vec![[1, 1]; 32] };
    list.read("rising-32", &wide(&all_variables()).words(), 0, &[32, 2, 35, 1 << 32]);
    for at in [0, 15, 30] {
        let mut literals = all_variables();
        literals.swap(at, at + 1);
        list.refused(&format!("neighbours-{at}-of-32-exchanged"), &wide(&literals).words(), 23, &[1]);
    }

    // Limits, levels, derivations and buffers, those that would be refused with a sorted file too and those that would
    // not.
    let turned = rule(&[&[0, 2], &[3], &[4, 2]]);
    let steps = sample().1.words();
    let mut add = |name: &str, operation| list.add(format!("unordered-{name}"), &turned.bytes(), operation, 23, &[2]);
    add("limits", Operation::Verdict(0, 1));
    add("hi-over-whole", Operation::Verdict(0, 2));
    add("level-0", Operation::Cut(0));
    add("level-n+1", Operation::Cut(4));
    add("level-0-marks", Operation::Marks(0));
    add("level-n+1-marks", Operation::Marks(4));
    add("level-0-point", Operation::Point(0));
    add("level-n+1-point", Operation::Point(4));
    add("steps-length-0", Operation::Check(Vec::new()));
    for (name, at, word) in [("14", 41, 43), ("15", 0, 3), ("16", 2, 6), ("17", 4, 4), ("18", 13, 3), ("21", 40, 11)] {
        add(&format!("steps-{name}"), Operation::Check(to_bytes(&with(&steps, at, word))));
    }
    add("buffer-0", Operation::Derive(0));
    add("buffer-65536", Operation::Derive(65_536));
}

/// 26 on both sides of its border, what it names, and that each operation tells it before its own refusals.
fn copies(list: &mut List) {
    let rule = |clauses: &[&[u32]]| RuleDraft::new(clauses, &[[0, 0]; 3]);
    let words = |clauses: &[&[u32]]| rule(clauses).words();
    let [a, b, c]: [&[u32]; 3] = [&[0, 2], &[3], &[2, 4]];

    // The first clause that equals an earlier one is named, wherever the earlier one stands.
    list.read("clauses-a-b-c", &words(&[a, b, c]), 0, &[3, 3, 8, 1]);
    list.refused("copies-a-a", &words(&[a, a]), 26, &[1]);
    list.refused("copies-a-b-a", &words(&[a, b, a]), 26, &[2]);
    list.refused("copies-a-b-b", &words(&[a, b, b]), 26, &[2]);
    list.refused("copies-a-b-b-a", &words(&[a, b, b, a]), 26, &[2]);
    list.refused("copies-a-b-a-b", &words(&[a, b, a, b]), 26, &[2]);
    list.refused("copies-a-b-c-a", &words(&[a, b, c, a]), 26, &[3]);
    list.refused("copies-a-b-c-b", &words(&[a, b, c, b]), 26, &[3]);
    list.refused("copies-a-b-c-c", &words(&[a, b, c, c]), 26, &[3]);
    list.refused("copies-a-a-a", &words(&[a, a, a]), 26, &[1]);
    list.refused("copies-a-b-a-c-a", &words(&[a, b, a, c, a]), 26, &[2]);

    // Empty clauses are equal.
    list.read("empty-clause-once", &words(&[&[], a]), 0, &[3, 2, 4, 1]);
    list.refused("empty-clause-twice", &words(&[&[], &[]]), 26, &[1]);
    list.refused("empty-clause-twice-apart", &words(&[a, &[], b, &[]]), 26, &[3]);
    list.read("empty-clause-once-n-0", &[0, 1, 0, 1, 5], 0, &[0, 1, 1, 1]);
    list.refused("empty-clause-twice-n-0", &[0, 0, 2, 0, 2, 6], 26, &[1]);

    // All literals are compared, each with its sign, and the number of them.
    list.read("clauses-begin-alike", &words(&[&[0], &[0, 2], &[0, 2, 4], &[0, 4]]), 0, &[3, 4, 12, 1]);
    list.read("clauses-begin-alike-falling", &words(&[&[0, 4], &[0, 2, 4], &[0, 2], &[0]]), 0, &[3, 4, 12, 1]);
    list.read("clauses-end-alike", &words(&[&[4], &[2, 4], &[0, 4], &[0, 2, 4]]), 0, &[3, 4, 12, 1]);
    let signs: [&[u32]; 8] =
        [&[0, 2, 4], &[1, 2, 4], &[0, 3, 4], &[1, 3, 4], &[0, 2, 5], &[1, 2, 5], &[0, 3, 5], &[1, 3, 5]];
    list.read("clauses-of-all-signs", &words(&signs), 0, &[3, 8, 32, 1]);
    list.refused("copy-after-all-signs", &words(&[&signs[..], &[signs[5]]].concat()), 26, &[8]);
    list.refused("copy-of-one-literal", &words(&[&[1], &[0], &[1]]), 26, &[2]);
    list.refused("copy-of-all-variables", &words(&[&[1, 2, 5], &[1, 2, 4], &[1, 2, 5]]), 26, &[2]);

    // The same literals in another order are 23's fault, and so are copies out of order.
    list.refused("copy-in-another-order", &words(&[&[0, 2], &[2, 0]]), 23, &[1]);
    list.refused("copy-in-another-order-first", &words(&[&[2, 0], &[0, 2]]), 23, &[0]);
    list.refused("copies-out-of-order", &words(&[&[2, 0], &[2, 0]]), 23, &[0]);
    list.refused("copies-with-repeats", &words(&[&[2, 2], &[2, 2]]), 7, &[0]);
    list.refused("copies-with-opposites", &words(&[&[3], &[2, 3], &[2, 3]]), 7, &[1]);

    // The two checks before it and the two after, in one file with it. A file without copies is on the other side.
    list.refused("order-5-26", &words(&[a, a, &[0, 2, 4, 1]]), 5, &[2]);
    list.refused("order-6-26", &words(&[a, a, &[6]]), 6, &[2]);
    list.refused("order-7-26", &words(&[a, a, &[2, 3]]), 7, &[2]);
    list.refused("order-7-26-twice-first", &words(&[&[2, 2], a, a]), 7, &[0]);
    list.refused("order-23-26", &words(&[a, a, &[4, 2]]), 23, &[2]);
    list.refused("order-23-26-unordered-first", &words(&[&[4, 2], a, a]), 23, &[0]);
    let weights = |clauses: &[&[u32]], pair| RuleDraft::new(clauses, &[[1, 1], [1, 1], pair]).words();
    list.refused("order-26-8", &weights(&[a, b, a], [1, 0]), 26, &[2]);
    list.refused("order-26-8-distinct", &weights(&[a, b, c], [1, 0]), 8, &[2]);
    let large = |clauses: &[&[u32]]| RuleDraft::new(clauses, &[[32_768, 32_768]; 4]).words();
    list.refused("order-26-9", &large(&[b, a, a]), 26, &[2]);
    list.refused("order-26-9-distinct", &large(&[b, a, c]), 9, &[]);

    // Limits, levels, derivations and buffers, those that would be refused without the copy too and those that would
    // not: the sample with its first clause twice.
    let mut twice = sample().0;
    twice.clauses.insert(1, vec![0, 2]);
    let steps = sample().1.words();
    let mut add = |name: &str, operation| list.add(format!("copy-{name}"), &twice.bytes(), operation, 26, &[1]);
    add("read", Operation::Read);
    add("figure", Operation::Figure);
    add("limits", Operation::Verdict(12, 12));
    add("lo-over-hi", Operation::Verdict(13, 12));
    add("hi-over-whole", Operation::Verdict(0, 51));
    add("level-0", Operation::Cut(0));
    add("level-n+1", Operation::Cut(4));
    add("level-0-marks", Operation::Marks(0));
    add("level-n+1-marks", Operation::Marks(4));
    add("level-0-point", Operation::Point(0));
    add("level-n+1-point", Operation::Point(4));
    add("steps", Operation::Check(to_bytes(&steps)));
    add("steps-length-0", Operation::Check(Vec::new()));
    for (name, at, word) in [("14", 41, 43), ("15", 0, 3), ("16", 2, 6), ("17", 4, 4), ("18", 13, 3), ("21", 40, 11)] {
        add(&format!("steps-{name}"), Operation::Check(to_bytes(&with(&steps, at, word))));
    }
    add("buffer-0", Operation::Derive(0));
    add("buffer-65536", Operation::Derive(65_536));
    // Clause numbers move where the copy goes: the old file's derivation names a clause 3.
    let moved = with(&with(&with(&steps, 15, 6), 22, 4), 30, 4);
    add("steps-moved", Operation::Check(to_bytes(&moved)));
    list.check("copy-gone-steps-moved", &sample().0, &moved, 18, &[1]);
}

/// 26 over many clauses and long ones.
fn many_copies(list: &mut List) {
    // All clauses of one literal over 32 variables, then one of them again.
    let units = |last: &[u32]| {
        let mut clauses: Vec<Vec<u32>> = (0..64).map(|literal| vec![literal]).collect();
        clauses.extend(last.iter().map(|literal| vec![*literal]));
        RuleDraft { clauses, prefix: vec![[0, 0]; 32] }.words()
    };
    list.read("units-64", &units(&[]), 0, &[32, 64, 128, 1]);
    for literal in [0, 31, 32, 62, 63] {
        list.read(&format!("units-64-and-{literal}"), &units(&[literal]), 26, &[64]);
    }

    // Two clauses of 32 literals: equal, but for the sign of one literal, and but for one literal.
    let wide = |second: Vec<u32>| RuleDraft { clauses: vec![all_variables(), second], prefix: vec![[1, 1]; 32] };
    list.refused("copy-of-32-literals", &wide(all_variables()).words(), 26, &[1]);
    for at in [0, 15, 16, 31] {
        let mut literals = all_variables();
        literals[at] ^= 1;
        list.read(&format!("32-literals-but-sign-{at}"), &wide(literals.clone()).words(), 0, &[32, 2, 66, 1 << 32]);
        literals.remove(at);
        list.read(&format!("32-literals-but-{at}"), &wide(literals).words(), 0, &[32, 2, 65, 1 << 32]);
    }

    // 1,024 clauses of three literals, with copies of some in the place of later ones; the first is named.
    let many = |copies: &[(usize, usize)]| {
        let mut rule = distinct_clauses(1_024, 1);
        copies.iter().for_each(|&(from, to)| rule.clauses[to] = rule.clauses[from].clone());
        rule.words()
    };
    for (from, to) in [(0, 1), (0, 1_023), (1, 1_023), (1_022, 1_023), (0, 511), (511, 512), (512, 1_022)] {
        list.read(&format!("copy-of-{from}-at-{to}-of-1024"), &many(&[(from, to)]), 26, &[to as u64]);
    }
    list.read("copies-at-700-and-1023-of-1024", &many(&[(0, 1_023), (699, 700)]), 26, &[700]);
    list.read("copies-at-1-and-1023-of-1024", &many(&[(5, 1_023), (0, 1)]), 26, &[1]);
    let empty = RuleDraft { clauses: vec![Vec::new(); 1_024], prefix: Vec::new() };
    list.refused("empty-clauses-1024", &empty.words(), 26, &[1]);

    // The longest file: the clauses from 970 on have 14 literals each.
    let mut longest = longest_rule([0, 0]);
    longest.clauses[1_023] = longest.clauses[970].clone();
    list.read("length-65536-copy", &longest.words(), 26, &[1_023]);
}

/// Two faults in one file: the one that is looked for first is told.
fn orders(list: &mut List) {
    // Words of the file: clauses {0, 2}, {1, 3}; two variables 1:1; trailer at word 10.
    let words = RuleDraft::new(&[&[0, 2], &[1, 3]], &[[1, 1], [1, 1]]).words();
    assert_eq!(words, [2, 0, 2, 2, 1, 3, 1, 1, 1, 1, 2, 2, 6, 14]);
    let change =
        |changes: &[(usize, u32)]| changes.iter().fold(words.clone(), |words, &(at, word)| with(&words, at, word));
    list.refused("order-2-3", &change(&[(13, 13), (11, 33)]), 2, &[]);
    list.refused("order-3-4", &change(&[(11, 33)]), 3, &[]);
    list.refused("order-4-5", &change(&[(12, 7), (0, 3)]), 4, &[]);
    list.refused("order-5-6", &change(&[(2, 4), (3, 3)]), 5, &[1]);
    list.refused("order-6-7", &change(&[(2, 1), (5, 4)]), 6, &[1]);
    list.refused("order-7-8", &change(&[(5, 0), (6, 65_536)]), 7, &[1]);
    // 23 stands after 7 and before 8, whichever clause comes first.
    list.refused("order-5-23", &change(&[(1, 2), (2, 0), (3, 3)]), 5, &[1]);
    list.refused("order-6-23", &change(&[(2, 4), (4, 3), (5, 1)]), 6, &[0]);
    list.refused("order-6-23-unordered-first", &change(&[(1, 2), (2, 0), (5, 4)]), 6, &[1]);
    list.refused("order-7-23", &change(&[(2, 1), (4, 3), (5, 1)]), 7, &[0]);
    list.refused("order-7-23-unordered-first", &change(&[(1, 2), (2, 0), (5, 0)]), 7, &[1]);
    list.refused("order-23-8", &change(&[(4, 3), (5, 1), (6, 65_536)]), 23, &[1]);
    let rule = RuleDraft::new(&[], &[[65_535, 65_535], [65_535, 65_535], [65_535, 65_535], [65_535, 65_535], [1, 0]]);
    list.refused("order-8-9", &rule.words(), 8, &[4]);
    // A literal too large in a clause with a variable twice.
    let rule = RuleDraft::new(&[&[0, 1, 6]], &[[0, 0]; 3]);
    list.refused("order-6-7-one-clause", &rule.words(), 6, &[0]);
    let rule = RuleDraft::new(&[&[0, 0, 5]], &[[0, 0]; 3]);
    list.refused("order-7-beside", &rule.words(), 7, &[0]);
    // In one clause: a literal too large, or a variable twice, and no rising order.
    let rule = RuleDraft::new(&[&[6, 2, 0]], &[[0, 0]; 3]);
    list.refused("order-6-23-one-clause", &rule.words(), 6, &[0]);
    for (name, clause) in [("apart", &[2, 0, 2][..]), ("beside", &[4, 2, 3]), ("falling", &[1, 0])] {
        let rule = RuleDraft::new(&[clause], &[[0, 0]; 3]);
        list.refused(&format!("order-7-23-one-clause-{name}"), &rule.words(), 7, &[0]);
    }
    let rule = RuleDraft::new(&[&[0, 2], &[3, 0]], &[[65_535, 65_535]; 4]);
    list.refused("order-23-9", &rule.words(), 23, &[1]);
    list.refused("order-23-9-sorted", &sorted(&rule).words(), 9, &[]);
}

/// The largest whole, 2^60, with numbers at its ends.
fn wholes(list: &mut List) {
    let top = 1u64 << 60;
    let thirty = |clauses: Vec<Vec<u32>>| RuleDraft { clauses, prefix: vec![[1, 3]; 30] };
    let none = thirty(Vec::new());
    let all_true = thirty((0..30).map(|v| vec![2 * v]).collect());
    let all_false = thirty((0..30).map(|v| vec![2 * v + 1]).collect());
    list.figure("whole-2^60-none", &none, top, top);
    list.figure("whole-2^60-all-true", &all_true, 1, top);
    list.figure("whole-2^60-all-false", &all_false, 3u64.pow(30), top);
    // Half of the variables set: all false so far, 3^15, each node of 4^15.
    let half = 3u64.pow(15) << 30;
    list.add("whole-2^60-cut-15", &all_false.bytes(), Operation::Cut(15), 0, &[0, half, half]);
    list.add("whole-2^60-cut-0", &all_false.bytes(), Operation::Cut(0), 0, &[0, top, top]);
    let end = 3u64.pow(30);
    list.add("whole-2^60-cut-30", &all_false.bytes(), Operation::Cut(30), 0, &[end, end, 0]);
    list.add("whole-2^60-none-cut-0", &none.bytes(), Operation::Cut(0), 0, &[top, top, 0]);
    list.add("whole-2^60-hi-whole", &none.bytes(), Operation::Verdict(top, top), 0, &[0, top]);
    list.add("whole-2^60-hi-more", &none.bytes(), Operation::Verdict(top, top + 1), 11, &[]);
    list.add("whole-2^60-above", &none.bytes(), Operation::Verdict(0, top - 1), 0, &[1, 0]);
    list.add("whole-2^60-below", &all_true.bytes(), Operation::Verdict(2, top), 0, &[2, 0]);
    // A kind 1 line without literals has the whole for its value: low word 0, high word 2^28.
    let high = 1 << 28;
    list.check("whole-2^60-check", &none, &[1, 0, 0, high, 1, 1, 7], 0, &[top, top]);
    list.check("whole-2^60-check-low", &none, &[1, 0, 1, high, 1, 1, 7], 20, &[0]);
    list.check("whole-2^60-check-high", &none, &[1, 0, 0, high + 1, 1, 1, 7], 20, &[0]);
    list.check("whole-2^60-check-swapped", &none, &[1, 0, high, 0, 1, 1, 7], 20, &[0]);
}

/// 10, 11 and 12 on both sides of their borders.
fn levels_and_limits(list: &mut List) {
    let file = sample().0.bytes();
    let verdicts: [(&str, u64, u64, u32, &[u64]); 13] = [
        ("p8", 12, 12, 0, &[0, 12]),
        ("p9", 13, 50, 0, &[2, 0]),
        ("p10", 0, 11, 0, &[1, 0]),
        ("limits-lo-figure", 12, 50, 0, &[0, 12]),
        ("limits-hi-figure", 0, 12, 0, &[0, 12]),
        ("limits-0-0", 0, 0, 0, &[1, 0]),
        ("limits-hi-whole", 0, 50, 0, &[0, 12]),
        ("limits-both-whole", 50, 50, 0, &[2, 0]),
        ("limits-hi-one-more", 0, 51, 11, &[]),
        ("limits-hi-largest", u64::MAX, u64::MAX, 11, &[]),
        ("limits-lo-over-hi", 13, 12, 10, &[]),
        ("limits-lo-over-hi-over-whole", 52, 51, 10, &[]),
        ("limits-lo-largest", u64::MAX, 50, 10, &[]),
    ];
    for (name, lo, hi, code, numbers) in verdicts {
        list.add(name, &file, Operation::Verdict(lo, hi), code, numbers);
    }

    list.add("level-n", &file, Operation::Cut(3), 0, &[12, 12, 0]);
    for (name, level) in
        [("level-n+1", 4), ("level-2^32", 1 << 32), ("level-2^32+1", (1 << 32) + 1), ("level-largest", u64::MAX)]
    {
        list.add(name, &file, Operation::Cut(level), 12, &[]);
    }
    let none = RuleDraft::new(&[], &[]).bytes();
    let falsified = RuleDraft::new(&[&[]], &[]).bytes();
    list.add("level-0-of-0-satisfied", &none, Operation::Cut(0), 0, &[1, 1, 0]);
    list.add("level-0-of-0-falsified", &falsified, Operation::Cut(0), 0, &[0, 0, 0]);
    list.add("level-1-of-0", &none, Operation::Cut(1), 12, &[]);
    // Clauses {0} and {62} over 32 existential variables.
    let last = RuleDraft { clauses: vec![vec![0], vec![62]], prefix: vec![[0, 0]; 32] };
    list.add("level-1-of-32", &last.bytes(), Operation::Cut(1), 0, &[0, 1, 1]);
    list.add("level-33-of-32", &last.bytes(), Operation::Cut(33), 12, &[]);
    // Satisfied where variable 0 is true, weight 3 of 5, else undetermined: all three numbers differ.
    let mixed = RuleDraft::new(&[&[0, 2], &[0, 4]], &[[3, 2], [0, 0], [1, 1]]);
    list.add("cut-three-numbers", &mixed.bytes(), Operation::Cut(1), 0, &[6, 10, 4]);
    // An existential choice between a satisfied node and an undetermined one: all three numbers are the whole.
    let choice = RuleDraft::new(&[&[0, 2]], &[[0, 0], [1, 1]]);
    list.add("cut-satisfied-beside-undetermined", &choice.bytes(), Operation::Cut(1), 0, &[2, 2, 2]);
}

/// Cuts on both sides of each border of document 02's clash: two clauses without a true literal have one unset literal
/// each, the one a variable and the other its opposite.
fn clashes(list: &mut List) {
    let one = |clauses: &[&[u32]]| RuleDraft::new(clauses, &[[3, 1]]);
    let two = |clauses: &[&[u32]]| RuleDraft::new(clauses, &[[1, 2], [3, 4]]);
    let lost = [0; 3];

    // Opposite literals, the same one in two clauses where variable 0 is false, and both.
    list.cuts("clash", &one(&[&[0], &[1]]), &[lost, lost]);
    list.cuts("clash-opposite-first", &one(&[&[1], &[0]]), &[lost, lost]);
    list.cuts("no-clash-same", &two(&[&[0, 2], &[2]]), &[[0, 21, 21], [0, 21, 21], [9, 9, 0]]);
    list.cuts("no-clash-same-opposite", &two(&[&[0, 3], &[3]]), &[[0, 21, 21], [0, 21, 21], [12, 12, 0]]);
    list.cuts("clash-beside-same", &two(&[&[0, 2], &[2], &[3]]), &[lost, lost, lost]);

    // One variable, the next one or a later one, and two variables. Literals 1 and 2 stand side by side.
    list.cuts("clash-next", &two(&[&[0], &[1], &[2]]), &[lost, lost, lost]);
    list.cuts("clash-later", &two(&[&[2], &[3]]), &[lost, lost, lost]);
    list.cuts("clash-later-beside-next", &two(&[&[0], &[2], &[3]]), &[lost, lost, lost]);
    list.cuts("no-clash-two-variables", &two(&[&[0], &[2]]), &[[0, 21, 21], [0, 7, 7], [3, 3, 0]]);
    list.cuts("no-clash-two-variables-opposite", &two(&[&[0], &[3]]), &[[0, 21, 21], [0, 7, 7], [4, 4, 0]]);
    list.cuts("no-clash-side-by-side", &two(&[&[1], &[2]]), &[[0, 21, 21], [0, 14, 14], [6, 6, 0]]);

    // Exactly one unset literal: one of the clauses has two, or both have.
    list.cuts("no-clash-first-of-two", &two(&[&[0, 2], &[1]]), &[[0, 21, 21], [0, 14, 14], [6, 6, 0]]);
    list.cuts("no-clash-second-of-two", &two(&[&[0], &[1, 2]]), &[[0, 21, 21], [0, 7, 7], [3, 3, 0]]);
    list.cuts("no-clash-both-of-two", &two(&[&[0, 2], &[1, 2]]), &[[0, 21, 21], [0, 21, 21], [9, 9, 0]]);
    // {0} and {1, 2} leave {2}, which clashes with {3}: not before variable 0 is set.
    list.cuts("no-clash-by-a-third", &two(&[&[0], &[1, 2], &[3]]), &[[0, 21, 21], lost, lost]);

    // Where variable 0 has one value a clause is satisfied, or both are; where it has the other they clash. Last, each
    // value satisfies one of the two.
    list.cuts("clash-first-satisfied", &two(&[&[0, 2], &[3]]), &[[0, 21, 21], [0, 7, 7], [4, 4, 0]]);
    list.cuts("clash-second-satisfied", &two(&[&[2], &[1, 3]]), &[[0, 21, 21], [0, 14, 14], [6, 6, 0]]);
    list.cuts("clash-both-satisfied", &two(&[&[0, 2], &[0, 3]]), &[[0, 21, 21], [7, 7, 0], [7, 7, 0]]);
    list.cuts("no-clash-one-satisfied", &two(&[&[0, 2], &[1, 3]]), &[[0, 21, 21], [0, 21, 21], [10, 10, 0]]);

    // No clauses, and an empty clause beside two that clash and two that do not.
    list.cuts("no-clash-no-clauses", &two(&[]), &[[21, 21, 0], [21, 21, 0], [21, 21, 0]]);
    list.cuts("clash-beside-empty", &two(&[&[2], &[], &[3]]), &[lost, lost, lost]);
    list.cuts("no-clash-beside-empty", &two(&[&[2], &[], &[0, 2]]), &[lost, lost, lost]);

    // At level 2 and not at level 1.
    let later = RuleDraft::new(&[&[0, 2, 4], &[0, 2, 5]], &[[1, 2], [1, 3], [1, 4]]);
    list.cuts("clash-at-2", &later, &[[0, 60, 60], [20, 60, 40], [30, 30, 0], [30, 30, 0]]);

    // Where variable 0 is true, {4} and {5} clash; where it is false and variable 1 too, they do, and where that is
    // true, {4} is left. Variable 1 is existential, then randomized.
    let clauses: &[&[u32]] = &[&[1, 4], &[1, 5], &[0, 2, 4], &[0, 2, 5], &[0, 3, 4]];
    let choice = RuleDraft::new(clauses, &[[2, 3], [0, 0], [1, 4]]);
    list.cuts("clash-under-existential", &choice, &[[0, 25, 25], [0, 15, 15], [0, 15, 15], [3, 3, 0]]);
    let draw = RuleDraft::new(clauses, &[[2, 3], [1, 1], [1, 4]]);
    list.cuts("clash-under-randomized", &draw, &[[0, 50, 50], [0, 30, 30], [0, 15, 15], [3, 3, 0]]);
    // The same, but satisfied where variable 0 is true: all three numbers differ.
    let draw = RuleDraft::new(&[&[0, 2, 4], &[0, 2, 5], &[0, 3, 4]], &[[3, 2], [1, 4], [1, 1]]);
    list.cuts("clash-three-numbers", &draw, &[[0, 50, 50], [30, 50, 20], [30, 34, 4], [32, 32, 0]]);
    // {4} and {5} clash where variables 0 and 1 are opposite; variable 3 keeps the other nodes open. Variable 0 takes
    // the larger side, where variable 1 is false.
    let choice =
        RuleDraft::new(&[&[1, 2, 4], &[1, 2, 5], &[0, 3, 4], &[0, 3, 5], &[6]], &[[0, 0], [1, 2], [1, 1], [1, 3]]);
    let lines = [[0, 24, 24], [0, 24, 24], [0, 16, 16], [0, 16, 16], [4, 4, 0]];
    list.cuts("clash-on-both-sides", &choice, &lines);
    // An existential choice between a satisfied node and one with a clash: the open weight is 0.
    let choice = RuleDraft::new(&[&[0, 2], &[0, 3]], &[[0, 0], [1, 1]]);
    list.cuts("clash-beside-satisfied", &choice, &[[0, 2, 2], [2, 2, 0], [2, 2, 0]]);

    // What is no cut: the figure, the verdict, the check and the writer, which goes on at a clash.
    let rule = one(&[&[0], &[1]]);
    list.figure("clash-figure", &rule, 0, 4);
    list.add("clash-within", &rule.bytes(), Operation::Verdict(0, 4), 0, &[0, 0]);
    list.add("clash-below", &rule.bytes(), Operation::Verdict(1, 4), 0, &[2, 0]);
    let steps = [2, 0, 0, 0, 0, 2, 0, 1, 1, 10];
    list.check("clash-check", &rule, &steps, 0, &[0, 4]);
    list.derived("derive-clash", &rule, &steps);
    let lines = [&[1, 2, 1, 2, 1, 0][..], &[2, 1, 1, 4, 0, 1, 2, 1], &[2, 1, 0, 0, 0, 1, 2, 0], &[2, 0, 4, 0, 0, 3, 5]];
    let steps = [&lines.concat()[..], &[4, 7, 32]].concat();
    list.derived("derive-clash-at-1", &two(&[&[0, 2], &[3]]), &steps);
}

/// Clashes on late variables, of long clauses, and of clauses that stand far apart.
fn far_clashes(list: &mut List) {
    let lost = [0; 3];
    let wide = |clauses: Vec<Vec<u32>>| RuleDraft { clauses, prefix: vec![[0, 0]; 32] };
    let last = wide(vec![vec![62], vec![63]]);
    for level in [0, 1, 16, 31, 32] {
        list.cut(format!("clash-last-of-32-cut-{level}"), &last, level, lost);
    }
    list.cut("no-clash-last-same", &wide(vec![vec![0, 62], vec![62]]), 31, [0, 1, 1]);
    list.cut("no-clash-last-two", &wide(vec![vec![60], vec![63]]), 0, [0, 1, 1]);
    list.cut("no-clash-last-side-by-side", &wide(vec![vec![61], vec![62]]), 0, [0, 1, 1]);
    // Each variable must be true, or each second one false; then one of them the opposite besides.
    let all_true: Vec<Vec<u32>> = (0..32).map(|v| vec![2 * v]).collect();
    let mixed: Vec<Vec<u32>> = all_variables().into_iter().map(|literal| vec![literal]).collect();
    for (name, units) in [("true", all_true), ("mixed", mixed)] {
        list.cut(format!("no-clash-32-{name}"), &wide(units.clone()), 0, [0, 1, 1]);
        for v in [0, 15, 16, 30, 31] {
            let mut units = units.clone();
            units.push(vec![units[v][0] ^ 1]);
            list.cut(format!("clash-32-{name}-on-{v}"), &wide(units), 0, lost);
        }
    }

    // Two clauses of all variables that differ on the last: they clash where all others are false.
    let long = |n: u32| vec![(0..n).map(|v| 2 * v).collect(), (0..n).map(|v| 2 * v + v / (n - 1)).collect()];
    let rule = wide(long(32));
    for (level, open) in [(0, [0, 1, 1]), (30, [1, 1, 1]), (31, [1, 1, 0]), (32, [1, 1, 0])] {
        list.cut(format!("clash-at-31-cut-{level}"), &rule, level, open);
    }
    let top = 1u64 << 60;
    let rule = RuleDraft { clauses: long(30), prefix: vec![[1, 3]; 30] };
    let (open, falsified) = (3u64.pow(28) << 4, 3u64.pow(29) << 2);
    list.cut("clash-at-29-cut-28", &rule, 28, [top - open, top, open]);
    list.cut("clash-at-29-cut-29", &rule, 29, [top - falsified, top - falsified, 0]);
    list.cut("clash-at-29-cut-30", &rule, 30, [top - falsified, top - falsified, 0]);

    // Two of many clauses, wherever they stand: {62} and {63}, or {62} and {0, 62}, at level 0; at level 1 the first
    // two with literal 0, or one of them, which is false with weight 2. The others are satisfied there, and open where
    // it is true.
    for (m, a, b) in [(65, 0, 64), (65, 63, 64), (128, 63, 64), (1_024, 0, 1_023), (1_024, 511, 512)] {
        let with = |first: &[u32], second: &[u32]| {
            let mut rule = distinct_clauses(m, 1);
            rule.clauses[a] = first.to_vec();
            rule.clauses[b] = second.to_vec();
            rule.prefix[0] = [1, 2];
            rule
        };
        let name = format!("{a}-and-{b}-of-{m}");
        list.cut(format!("clash-{name}"), &with(&[62], &[63]), 0, lost);
        list.cut(format!("no-clash-{name}"), &with(&[62], &[0, 62]), 0, [0, 3, 3]);
        list.cut(format!("clash-{name}-cut-1"), &with(&[0, 62], &[0, 63]), 1, [0, 1, 1]);
        list.cut(format!("no-clash-{name}-cut-1"), &with(&[0, 62], &[62]), 1, [0, 3, 3]);
    }
}

/// One clause of one literal, on the last of 32 existential variables, and of thirty randomized ones: no node above the
/// last level is decided.
fn last_variable(list: &mut List) {
    let mut add = |name: &str, rule: &RuleDraft, value: u64, whole: u64, levels: &[u64]| {
        list.figure(&format!("{name}-figure"), rule, value, whole);
        let mut verdict = |name: String, lo, hi, numbers: [u64; 2]| {
            list.add(name, &rule.bytes(), Operation::Verdict(lo, hi), 0, &numbers);
        };
        verdict(format!("{name}-within"), value, value, [0, value]);
        verdict(format!("{name}-above"), 0, value - 1, [1, 0]);
        if value < whole {
            verdict(format!("{name}-below"), value + 1, whole, [2, 0]);
        }
        let n = rule.prefix.len() as u64;
        for &level in levels {
            let numbers = if level < n { [0, whole, whole] } else { [value, value, 0] };
            list.cut(format!("{name}-cut-{level}"), rule, level, numbers);
        }
    };
    let existential = RuleDraft { clauses: vec![vec![62]], prefix: vec![[0, 0]; 32] };
    add("last-of-32", &existential, 1, 1, &[0, 1, 16, 31, 32]);
    // True with weight 1 of 4, false with 3.
    let randomized = |literal| RuleDraft { clauses: vec![vec![literal]], prefix: vec![[1, 3]; 30] };
    add("last-of-30", &randomized(58), 1 << 58, 1 << 60, &[0, 1, 15, 29, 30]);
    add("last-of-30-opposite", &randomized(59), 3 << 58, 1 << 60, &[0, 1, 15, 29, 30]);
}

/// So many clauses over 32 existential variables, no two alike, of three literals each, the first of them `literal`.
fn distinct_clauses(count: usize, literal: u32) -> RuleDraft {
    let pairs = (1..32).flat_map(|a| (a + 1..32).map(move |b| (a, b)));
    let clauses = pairs.flat_map(|(a, b)| (0..4).map(move |signs| vec![literal, 2 * a + signs % 2, 2 * b + signs / 2]));
    RuleDraft { clauses: clauses.take(count).collect(), prefix: vec![[0, 0]; 32] }
}

/// Kind 1 over as many clauses as fill words of 64, one less and one more, and the most: the line {0} follows where
/// each clause has literal 1, and does not where one, wherever it stands, has literal 0 instead.
fn many_clauses(list: &mut List) {
    let line = [1, 1, 0, 1, 0, 1, 1, 8];
    for m in [1, 63, 64, 65, 128, 1_024] {
        let rule = distinct_clauses(m, 1);
        list.check(&format!("kind-1-over-{m}"), &rule, &line, 21, &[]);
        let mut places = vec![0, 63, 64, m - 1];
        places.retain(|&place| place < m);
        places.sort_unstable();
        places.dedup();
        for place in places {
            let mut rule = rule.clone();
            rule.clauses[place][0] = 0;
            list.check(&format!("kind-1-over-{m}-but-{place}"), &rule, &line, 17, &[0]);
        }
    }
}

/// References to the last of 1,024 clauses and of 1,024 lines, and one past each.
fn many_parents(list: &mut List) {
    let mut rule = distinct_clauses(1_020, 1);
    rule.clauses.extend([vec![0, 2], vec![3], vec![1], vec![0]]);
    // From clauses 1,022 and 1,023, {1} and {0}: the empty clause.
    let empty =
        |on_true, on_false| LineDraft { literals: Vec::new(), value: 0, resolved: Some([0, on_true, on_false]) };
    // From clauses 1,021 and 1,020, {3} and {0, 2}: {0}.
    let unit = LineDraft { literals: vec![0], value: 0, resolved: Some([1, 2_042, 2_040]) };
    let derivation = |line: LineDraft, closing| {
        let mut lines = vec![empty(2_044, 2_046); 1_022];
        lines.extend([unit.clone(), line]);
        DerivationDraft { lines, closing }.words()
    };
    list.check("last-line", &rule, &derivation(empty(2_044, 2_045), 2_047), 0, &[0, 1]);
    list.check("last-line-of-itself", &rule, &derivation(empty(2_044, 2_047), 2_047), 18, &[1_023]);
    list.check("last-line-of-clause-1024", &rule, &derivation(empty(2_044, 2_048), 2_047), 18, &[1_023]);
    list.check("closing-line-1022", &rule, &derivation(empty(2_044, 2_045), 2_045), 21, &[]);
    list.check("closing-line-1024", &rule, &derivation(empty(2_044, 2_045), 2_049), 21, &[]);
    list.check("closing-clause-1024", &rule, &derivation(empty(2_044, 2_045), 2_048), 21, &[]);
}

/// Each of 13 to 21 on both sides of its border.
fn derivations(list: &mut List) {
    let (rule, draft) = sample();
    let words = draft.words();
    let steps = &draft.lines;
    // The first word of each line, and of the trailer.
    let at = [0, 7, 16, 24, 32, 39];
    let accepted: &[u64] = &[12, 50];
    let one_line = [1, 0, 1, 0, 1, 1, 7];
    let none = RuleDraft::new(&[], &[]);
    let falsified = RuleDraft::new(&[&[]], &[]);

    // 13: length. The empty derivation has 12 bytes.
    list.check("empty-derivation", &falsified, &[0, 0, 3], 0, &[0, 1]);
    list.check("empty-derivation-of-sample", &rule, &[0, 0, 3], 21, &[]);
    list.check("no-clause-no-line", &none, &[0, 0, 3], 21, &[]);
    list.check("steps-length-8", &falsified, &[0, 2], 13, &[]);
    list.check("steps-length-0", &falsified, &[], 13, &[]);
    for len in [11, 13, 14, 15] {
        let mut bytes = to_bytes(&[0, 0, 3]);
        bytes.resize(len, 0);
        list.add(format!("steps-length-{len}"), &falsified.bytes(), Operation::Check(bytes), 13, &[]);
    }
    let wide = RuleDraft::new(&[], &[[0, 0]; 13]);
    let line = |k: u32| LineDraft { literals: (0..k).map(|v| 2 * v).collect(), value: 1, resolved: None };
    let mut lines = vec![line(0)];
    lines.extend((0..1_023).map(|at| line(if at < 9 { 13 } else { 12 })));
    let mut longest = DerivationDraft { lines, closing: 1 };
    list.check("steps-length-65536", &wide, &longest.words(), 0, &[1, 1]);
    longest.lines[1_023] = line(13);
    list.check("steps-length-65540", &wide, &longest.words(), 13, &[]);

    // 14: the word count and the line count.
    list.check("steps-count-less", &rule, &with(&words, 41, 41), 14, &[]);
    list.check("steps-count-more", &rule, &with(&words, 41, 43), 14, &[]);
    let repeated = |count| DerivationDraft { lines: vec![line(0); count], closing: 1 };
    list.check("lines-1024", &none, &repeated(1_024).words(), 0, &[1, 1]);
    list.check("lines-1025", &none, &repeated(1_025).words(), 14, &[]);
    list.check("lines-named-1025", &rule, &with(&words, 39, 1_025), 14, &[]);
    list.check("lines-named-2^32-1", &rule, &with(&words, 39, u32::MAX), 14, &[]);

    // 15: the lines' shape.
    for (number, &place) in at[..5].iter().enumerate() {
        let number = number as u64;
        list.check(&format!("kind-0-line-{number}"), &rule, &with(&words, place, 0), 15, &[number]);
        list.check(&format!("kind-3-line-{number}"), &rule, &with(&words, place, 3), 15, &[number]);
        list.check(&format!("k-over-n-line-{number}"), &rule, &with(&words, place + 1, 4), 15, &[number]);
        list.check(&format!("k-2^32-1-line-{number}"), &rule, &with(&words, place + 1, u32::MAX), 15, &[number]);
    }
    // The first such line, also where the end is wrong too.
    list.check("kind-wrong-twice", &rule, &with(&with(&words, 7, 0), 24, 3), 15, &[1]);
    list.check("kind-and-end-wrong", &rule, &with(&with(&words, 16, 3), 39, 4), 15, &[2]);
    list.check("lines-named-6", &rule, &with(&words, 39, 6), 15, &[5]);
    list.check("lines-named-1024", &rule, &with(&words, 39, 1_024), 15, &[5]);
    list.check("lines-named-4", &rule, &with(&words, 39, 4), 15, &[4]);
    list.check("lines-named-0", &rule, &with(&words, 39, 0), 15, &[0]);
    // The last line as long as it may be, and one word longer: k = 1 takes a word of the trailer.
    list.check("line-past-trailer", &rule, &with(&words, 33, 1), 15, &[4]);
    // Words between the last line and the trailer: with 5 lines only the end is wrong; with 6
    // the sixth line is past the trailer's start.
    let mut loose = words.clone();
    loose.splice(39..39, [1, 0]);
    loose[43] = 44;
    list.check("loose-end", &rule, &loose, 15, &[5]);
    list.check("loose-end-as-line", &rule, &with(&loose, 41, 6), 15, &[5]);
    // The kind word before the trailer, and k where the trailer begins.
    list.check("line-of-one-word", &none, &[1, 1, 1, 4], 15, &[0]);

    // 16: literals of lines.
    list.check("line-literal-2n-1", &rule, &words, 0, accepted);
    list.check("line-literal-2n", &rule, &with(&words, 4, 6), 16, &[0]);
    list.check("line-literal-2^32-1", &rule, &with(&words, 10, u32::MAX), 16, &[1]);
    list.check("line-variable-twice-same", &rule, &with(&words, 10, 1), 16, &[1]);
    list.check("line-variable-twice-opposite", &rule, &with(&words, 3, 0), 16, &[0]);
    list.check("line-variable-twice-apart", &rule, &with(&words, 4, 0), 16, &[0]);
    // The first line with either fault.
    list.check("line-twice-then-large", &rule, &with(&with(&words, 3, 0), 9, 6), 16, &[0]);
    list.check("line-large-then-twice", &rule, &with(&with(&words, 2, 6), 9, 3), 16, &[0]);

    // Each check covers all lines before the next.
    list.check("order-15-16", &rule, &with(&with(&words, 2, 6), 32, 3), 15, &[4]);
    list.check("order-16-17", &rule, &with(&with(&words, 4, 4), 26, 6), 16, &[3]);
    list.check("order-13-14", &rule, &[5], 13, &[]);

    // 17: kind 1. Each literal of line 0 is needed for one clause.
    for (name, literals, value) in [("first", [2, 5], 1), ("second", [1, 5], 1), ("third", [1, 2], 10)] {
        let mut draft = draft.clone();
        draft.lines[0] = LineDraft { literals: literals.to_vec(), value, resolved: None };
        list.check(&format!("kind-1-without-{name}"), &rule, &draft.words(), 17, &[0]);
    }
    list.check("kind-1-opposite", &rule, &with(&words, 4, 4), 17, &[0]);
    list.check("kind-1-opposite-and-value", &rule, &with(&with(&words, 4, 4), 5, 2), 17, &[0]);
    list.check("kind-1-empty-clause", &falsified, &one_line, 17, &[0]);
    // A line that is enough although it leaves variables unset.
    let free = RuleDraft::new(&[&[0, 2], &[0, 5]], &[[1, 2], [1, 1], [1, 1]]);
    // Line {1}, value R(1) = 4; the other side is not written, so nothing closes.
    list.check("kind-1-unset", &free, &[1, 1, 1, 4, 0, 1, 1, 8], 21, &[]);
    list.check("kind-1-unset-value", &free, &[1, 1, 1, 1, 0, 1, 1, 8], 20, &[0]);

    // 18: variable and parents. Line 1 is at word 7; its variable, 2, at word 13.
    list.check("v-n", &rule, &with(&words, 13, 3), 18, &[1]);
    list.check("v-2^32-1", &rule, &with(&words, 13, u32::MAX), 18, &[1]);
    list.check("true-parent-clause-m", &rule, &with(&words, 14, 6), 18, &[1]);
    list.check("true-parent-itself", &rule, &with(&words, 14, 3), 18, &[1]);
    list.check("true-parent-later", &rule, &with(&words, 14, 5), 18, &[1]);
    list.check("true-parent-past-lines", &rule, &with(&words, 14, 11), 18, &[1]);
    list.check("false-parent-clause-m", &rule, &with(&words, 15, 6), 18, &[1]);
    list.check("false-parent-itself", &rule, &with(&words, 15, 3), 18, &[1]);
    list.check("false-parent-2^32-1", &rule, &with(&words, 15, u32::MAX), 18, &[1]);
    list.check("false-parent-2^32-2", &rule, &with(&words, 15, u32::MAX - 1), 18, &[1]);
    // The last clause is there, but lacks what is needed.
    list.check("true-parent-last-clause", &rule, &with(&words, 14, 4), 19, &[1]);
    // A bad false-side reference beside a true-side parent that lacks the opposite of v.
    list.check("order-18-19", &rule, &with(&with(&words, 14, 4), 15, 6), 18, &[1]);

    // 19: literals of kind 2.
    list.check("parents-swapped", &rule, &with(&with(&words, 14, 4), 15, 1), 19, &[1]);
    list.check("v-other", &rule, &with(&words, 13, 1), 19, &[1]);
    list.check("resolvent-opposite", &rule, &with(&words, 10, 3), 19, &[1]);
    let mut less = draft.clone();
    less.lines[1].literals = vec![1];
    list.check("resolvent-one-less", &rule, &less.words(), 19, &[1]);
    let mut more = draft.clone();
    more.lines[1].literals = vec![1, 2, 5];
    list.check("resolvent-one-more", &rule, &more.words(), 19, &[1]);
    more.lines[3].literals = vec![0, 4];
    more.lines[1].literals = vec![1, 2];
    list.check("resolvent-one-more-later", &rule, &more.words(), 19, &[3]);
    list.check("order-19-20", &rule, &with(&with(&words, 10, 3), 11, 4), 19, &[1]);
    // Parents {5} and {0}, then {0} and {4}: one of them lacks what is needed on variable 2.
    let lacks = RuleDraft::new(&[&[5], &[0], &[4]], &[[1, 1], [1, 1], [1, 1]]);
    list.check("false-parent-lacks-v", &lacks, &[2, 1, 0, 0, 0, 2, 0, 2, 1, 1, 11], 19, &[0]);
    list.check("true-parent-lacks-opposite", &lacks, &[2, 1, 0, 0, 0, 2, 2, 4, 1, 1, 11], 19, &[0]);
    // Parents {1, 4} and {0, 4}: variable 2 stands after variable 0.
    let after = RuleDraft::new(&[&[1, 4], &[0, 4]], &[[1, 1], [1, 1], [1, 1]]);
    list.check("variable-after-v", &after, &[2, 1, 4, 0, 0, 0, 0, 2, 1, 1, 11], 19, &[0]);
    // Parents {1, 5} and {0, 4} have an opposite pair besides variable 2's, so no line fits them.
    let opposed = RuleDraft::new(&[&[1, 5], &[0, 4]], &[[1, 1], [1, 1], [1, 1]]);
    list.check("resolvent-with-opposites", &opposed, &[2, 2, 0, 1, 0, 0, 2, 0, 2, 1, 1, 12], 16, &[0]);
    list.check("resolvent-with-half", &opposed, &[2, 1, 0, 0, 0, 2, 0, 2, 1, 1, 11], 19, &[0]);

    // 20: values. Low words of the lines' values, then a high word.
    for (number, place) in [5, 11, 19, 27, 34].into_iter().enumerate() {
        let number = number as u64;
        let right = words[place];
        list.check(&format!("value-more-line-{number}"), &rule, &with(&words, place, right + 1), 20, &[number]);
        list.check(
            &format!("value-less-line-{number}"),
            &rule,
            &with(&words, place, right.wrapping_sub(1)),
            20,
            &[number],
        );
        list.check(&format!("value-high-line-{number}"), &rule, &with(&words, place + 1, 1), 20, &[number]);
    }
    // The true-side parent with the false weight: in the last line, and in all.
    list.check("value-weights-swapped", &rule, &with(&words, 34, 3), 20, &[4]);
    let swapped = with(&with(&with(&words, 11, 7), 19, 7), 34, 7);
    list.check("value-weights-swapped-in-all", &rule, &swapped, 20, &[1]);
    // Lines are judged one after another: 20 in line 1 before 19 in line 2.
    list.check("order-of-lines", &rule, &with(&with(&words, 11, 4), 18, 0), 20, &[1]);

    // 21: the closing reference.
    list.check("closing-line-absent", &rule, &with(&words, 40, 11), 21, &[]);
    list.check("closing-line-with-literals", &rule, &with(&words, 40, 7), 21, &[]);
    list.check("closing-clause-absent", &rule, &with(&words, 40, 6), 21, &[]);
    list.check("closing-clause-with-literals", &rule, &with(&words, 40, 4), 21, &[]);
    list.check("closing-2^32-1", &rule, &with(&words, 40, u32::MAX), 21, &[]);
    list.check("closing-2^32-2", &rule, &with(&words, 40, u32::MAX - 1), 21, &[]);
    list.check("order-20-21", &rule, &with(&with(&words, 34, 13), 40, 11), 20, &[4]);

    // Lines left unused, before and after; the closing line need not be the last.
    let mut unused = draft.clone();
    unused.lines.push(steps[0].clone());
    unused.lines.push(steps[1].clone());
    list.check("lines-unused", &rule, &unused.words(), 0, accepted);
    unused.lines[6].value = 4;
    list.check("lines-unused-wrong", &rule, &unused.words(), 20, &[6]);

    // Line 0 is used twice, and both resolvents jump over variable 1, of total 3.
    let twice = RuleDraft::new(&[&[0, 4], &[1, 4]], &[[1, 1], [2, 1], [3, 1]]);
    let step = |literals: &[u32], value, resolved| LineDraft { literals: literals.to_vec(), value, resolved };
    let mut used = DerivationDraft {
        lines: vec![
            step(&[5], 1, None),
            step(&[0], 9, Some([2, 1, 0])),
            step(&[1], 9, Some([2, 1, 2])),
            step(&[], 18, Some([0, 5, 3])),
        ],
        closing: 7,
    };
    list.check("line-used-twice", &twice, &used.words(), 0, &[18, 24]);
    used.lines[1].value = 3;
    list.check("skipped-total-forgotten", &twice, &used.words(), 20, &[1]);

    // Clauses {4} and {5} close at once, over two skipped totals.
    let units = RuleDraft::new(&[&[4], &[5]], &[[1, 1], [2, 1], [3, 1]]);
    list.check("resolvent-of-clauses", &units, &[2, 0, 0, 0, 2, 2, 0, 1, 1, 10], 0, &[0, 24]);

    // Closing with an empty clause of the rule file: all lines are still judged.
    let with_empty = RuleDraft::new(&[&[0], &[], &[1]], &[[3, 1]]);
    list.check("closing-empty-clause", &with_empty, &[2, 0, 0, 0, 0, 4, 0, 1, 2, 10], 0, &[0, 4]);
    list.check("closing-empty-clause-wrong-line", &with_empty, &[2, 0, 1, 0, 0, 4, 0, 1, 2, 10], 20, &[0]);
    list.check("closing-clause-beside", &with_empty, &[0, 0, 3], 21, &[]);

    // n = 0.
    list.check("n-0-satisfied", &none, &one_line, 0, &[1, 1]);
    list.check("n-0-value-0", &none, &with(&one_line, 2, 0), 20, &[0]);
    list.check("n-0-literal", &none, &[1, 1, 0, 1, 0, 1, 1, 8], 15, &[0]);
    list.check("n-0-kind-2", &falsified, &[2, 0, 0, 0, 0, 0, 0, 1, 1, 10], 18, &[0]);
}

/// Lines whose literals do not rise: 16, with the first of them.
fn unordered_lines(list: &mut List) {
    let (rule, draft) = sample();
    // Document 01's derivation with other literals in some of its lines.
    let lines = |changes: &[(usize, &[u32])]| {
        let mut draft = draft.clone();
        changes.iter().for_each(|&(line, literals)| draft.lines[line].literals = literals.to_vec());
        draft
    };
    let mut check = |name: &str, changes: &[(usize, &[u32])], line| {
        list.check(name, &rule, &lines(changes).words(), 16, &[line]);
    };
    // Line 0 is of kind 1, line 1 of kind 2.
    check("line-first-two-exchanged", &[(0, &[2, 1, 5])], 0);
    check("line-last-two-exchanged", &[(0, &[1, 5, 2])], 0);
    check("line-falling", &[(0, &[5, 2, 1])], 0);
    check("line-last-literal-first", &[(0, &[5, 1, 2])], 0);
    check("line-of-kind-2-exchanged", &[(1, &[2, 1])], 1);
    check("literals-turned", &[(0, &[5, 1, 2]), (1, &[2, 1])], 0);
    // The first line with any of the three faults.
    check("line-3-unordered", &[(3, &[2, 0])], 3);
    check("line-1-large-3-unordered", &[(1, &[1, 6]), (3, &[2, 0])], 1);
    check("line-1-unordered-3-large", &[(1, &[2, 1]), (3, &[0, 6])], 1);
    check("line-1-twice-3-unordered", &[(1, &[1, 0]), (3, &[2, 0])], 1);
    check("line-1-unordered-3-twice", &[(1, &[2, 1]), (3, &[0, 1])], 1);
    check("line-large-and-unordered", &[(0, &[6, 1, 2])], 0);
    check("line-twice-and-unordered", &[(0, &[2, 1, 2])], 0);
    let mut sorted_lines = lines(&[(0, &[5, 1, 2]), (1, &[2, 1])]);
    sorted_lines.lines.iter_mut().for_each(|line| line.literals.sort_unstable());
    list.check("literals-turned-sorted", &rule, &sorted_lines.words(), 0, &[12, 50]);
    // The rule file's order is told before anything of the derivation.
    let mut turned = rule.clone();
    turned.clauses[0] = vec![2, 0];
    turned.clauses[2] = vec![4, 2];
    list.check("clauses-turned", &turned, &draft.words(), 23, &[0]);
    list.check("clauses-and-literals-turned", &turned, &lines(&[(0, &[5, 1, 2])]).words(), 23, &[0]);
    list.check("clauses-turned-sorted", &sorted(&turned), &draft.words(), 0, &[12, 50]);

    // 14 and 15 stand before it; it covers all lines before line 0 is judged.
    let exchanged = lines(&[(1, &[2, 1])]).words();
    list.check("order-14-16-unordered", &rule, &with(&exchanged, 41, 43), 14, &[]);
    list.check("order-15-16-unordered", &rule, &with(&exchanged, 32, 3), 15, &[4]);
    list.check("order-16-17-unordered", &rule, &with(&exchanged, 4, 4), 16, &[1]);
    list.check("order-16-18-unordered", &rule, &with(&lines(&[(3, &[2, 0])]).words(), 13, 3), 16, &[3]);
    list.check("order-16-19-unordered", &rule, &lines(&[(1, &[1]), (3, &[2, 0])]).words(), 16, &[3]);
    list.check("order-16-20-unordered", &rule, &with(&exchanged, 5, 2), 16, &[1]);
    list.check("order-16-21-unordered", &rule, &with(&exchanged, 40, 11), 16, &[1]);

    // The last of 1,024 lines, and the longest line; line 0 closes.
    let kind_1 = |literals: &[u32]| LineDraft { literals: literals.to_vec(), value: 1, resolved: None };
    let steps = |lines: &[LineDraft]| DerivationDraft { lines: lines.to_vec(), closing: 1 }.words();
    let many = |last: &[u32]| {
        let mut lines = vec![kind_1(&[0, 2]); 1_024];
        lines[0] = kind_1(&[]);
        lines[1_023] = kind_1(last);
        steps(&lines)
    };
    let two = RuleDraft::new(&[], &[[0, 0]; 2]);
    list.check("last-of-1024-lines", &two, &many(&[1, 2]), 0, &[1, 1]);
    list.check("last-of-1024-lines-unordered", &two, &many(&[2, 1]), 16, &[1_023]);
    let wide = RuleDraft::new(&[], &[[0, 0]; 32]);
    let mut literals = all_variables();
    list.check("line-rising-32", &wide, &steps(&[kind_1(&[]), kind_1(&literals)]), 0, &[1, 1]);
    literals.swap(30, 31);
    list.check("line-last-of-32-exchanged", &wide, &steps(&[kind_1(&[]), kind_1(&literals)]), 16, &[1]);
}

/// The literals of a resolvent: all others of its two parents, rising, each once.
fn resolvents(list: &mut List) {
    // One line on variable 4, from clauses 0 and 1 of these literals; clause 2 is empty and closes.
    let mut check = |name: &str, parents: [&[u32]; 2], literals: &[u32], code, numbers: &[u64]| {
        let rule = RuleDraft::new(&[parents[0], parents[1], &[]], &[[0, 0]; 6]);
        let line = LineDraft { literals: literals.to_vec(), value: 0, resolved: Some([4, 0, 2]) };
        let words = DerivationDraft { lines: vec![line], closing: 4 }.words();
        list.check(&format!("resolvent-{name}"), &rule, &words, code, numbers);
    };
    let accepted: &[u64] = &[0, 1];

    let mixed: [&[u32]; 2] = [&[0, 4, 9], &[2, 6, 8]];
    check("of-both", mixed, &[0, 2, 4, 6], 0, accepted);
    check("true-side-first", mixed, &[0, 4, 2, 6], 16, &[0]);
    check("false-side-first", mixed, &[2, 6, 0, 4], 16, &[0]);
    check("without-false-side", mixed, &[0, 4], 19, &[0]);
    check("without-true-side", mixed, &[2, 6], 19, &[0]);
    check("without-both", mixed, &[], 19, &[0]);
    check("without-first", mixed, &[2, 4, 6], 19, &[0]);
    check("without-last", mixed, &[0, 2, 4], 19, &[0]);
    check("with-v", mixed, &[0, 2, 4, 6, 8], 19, &[0]);
    check("with-opposite-of-v", mixed, &[0, 2, 4, 6, 9], 19, &[0]);
    check("with-later", mixed, &[0, 2, 4, 6, 10], 19, &[0]);
    check("with-opposite", mixed, &[0, 2, 5, 6], 19, &[0]);

    let apart: [&[u32]; 2] = [&[4, 6, 9], &[1, 8]];
    check("false-side-before", apart, &[1, 4, 6], 0, accepted);
    check("false-side-before-unordered", apart, &[4, 6, 1], 16, &[0]);
    check("with-between", apart, &[1, 2, 4, 6], 19, &[0]);

    // A literal of both stands once.
    let shared: [&[u32]; 2] = [&[0, 3, 9], &[0, 6, 8]];
    check("shared", shared, &[0, 3, 6], 0, accepted);
    check("shared-twice", shared, &[0, 0, 3, 6], 16, &[0]);
    check("without-shared", shared, &[3, 6], 19, &[0]);
    check("all-shared", [&[0, 3, 9], &[0, 3, 8]], &[0, 3], 0, accepted);
    check("of-one", [&[9], &[0, 3, 8]], &[0, 3], 0, accepted);
    check("of-other", [&[0, 3, 9], &[8]], &[0, 3], 0, accepted);

    // Lines 0 and 1 are resolvents on variable 5, line 2 is that of them on variable 4.
    let rule = RuleDraft::new(&[&[0, 9, 11], &[4, 9, 10], &[2, 8, 11], &[6, 8, 10], &[]], &[[0, 0]; 6]);
    let line =
        |literals: &[u32], resolved| LineDraft { literals: literals.to_vec(), value: 0, resolved: Some(resolved) };
    let steps = |literals: &[u32]| {
        let lines = vec![line(&[0, 4, 9], [5, 0, 2]), line(&[2, 6, 8], [5, 4, 6]), line(literals, [4, 1, 3])];
        DerivationDraft { lines, closing: 8 }.words()
    };
    list.check("resolvent-of-lines", &rule, &steps(&[0, 2, 4, 6]), 0, accepted);
    list.check("resolvent-of-lines-unordered", &rule, &steps(&[0, 4, 2, 6]), 16, &[2]);
    list.check("resolvent-of-lines-without-false-side", &rule, &steps(&[0, 4]), 19, &[2]);
    list.check("resolvent-of-lines-without-true-side", &rule, &steps(&[2, 6]), 19, &[2]);
}

/// The clause reader: files that it gives clause by clause.
fn clauses(list: &mut List) {
    let rule = sample().0;
    list.clauses("clauses-sample", &rule, &[2, 0, 2, 1, 3, 2, 2, 4]);
    list.clauses("clauses-none", &RuleDraft::new(&[], &[]), &[]);
    list.clauses("clauses-none-of-32", &RuleDraft::new(&[], &[[0, 0]; 32]), &[]);
    list.clauses("clauses-empty", &RuleDraft::new(&[&[]], &[]), &[0]);
    list.clauses("clauses-empty-between", &RuleDraft::new(&[&[0], &[], &[1]], &[[3, 1]]), &[1, 0, 0, 1, 1]);
    // Literals that fall; and one clause twice.
    let mut turned = RuleDraft::new(&[&[4, 3, 0], &[0, 2], &[0, 3]], &[[0, 0], [1, 1], [2, 3]]);
    list.clauses("clauses-three", &sorted(&turned), &[3, 0, 3, 4, 2, 0, 2, 2, 0, 3]);
    list.add("clauses-unordered", &turned.bytes(), Operation::Clauses, 23, &[0]);
    turned.clauses[2] = vec![0, 2];
    list.add("clauses-one-twice", &sorted(&turned).bytes(), Operation::Clauses, 26, &[2]);
    // One clause of all variables, rising and falling.
    let falling = RuleDraft { clauses: vec![all_variables().into_iter().rev().collect()], prefix: vec![[1, 1]; 32] };
    let numbers: Vec<u64> = [32].into_iter().chain(all_variables().into_iter().map(u64::from)).collect();
    list.clauses("clauses-32-literals", &sorted(&falling), &numbers);
    list.add("clauses-32-literals-falling", &falling.bytes(), Operation::Clauses, 23, &[0]);
    // 1,024 clauses: different ones, those of one literal again and again, and empty ones.
    let many = distinct_clauses(1_024, 1);
    let numbers = many.clauses.iter().flat_map(|clause| [3].into_iter().chain(clause.iter().map(|l| u64::from(*l))));
    list.clauses("clauses-1024", &many, &numbers.collect::<Vec<u64>>());
    let short = RuleDraft { clauses: (0..1_024).map(|at| vec![at % 64]).collect(), prefix: vec![[0, 0]; 32] };
    list.add("clauses-1024-short", &short.bytes(), Operation::Clauses, 26, &[64]);
    let empty = RuleDraft { clauses: vec![Vec::new(); 1_024], prefix: Vec::new() };
    list.add("clauses-1024-empty", &empty.bytes(), Operation::Clauses, 26, &[1]);
}

/// What the writer writes.
fn written(list: &mut List) {
    let (rule, derivation) = sample();
    for capacity in 0..=172 {
        let name = format!("derive-sample-{capacity}");
        if capacity < 168 {
            list.too_long(name, &rule, capacity);
        } else {
            list.derive(name, &rule, capacity, &derivation.words());
        }
    }

    // An empty clause closes at once.
    list.derived("derive-empty-clause", &RuleDraft::new(&[&[0], &[], &[1]], &[[3, 1]]), &[0, 2, 3]);
    list.derived("derive-n-0-falsified", &RuleDraft::new(&[&[]], &[]), &[0, 0, 3]);
    // No clauses: one line without literals, whose value is the whole.
    list.derived("derive-n-0-satisfied", &RuleDraft::new(&[], &[]), &[1, 0, 1, 0, 1, 1, 7]);
    let none = RuleDraft { clauses: Vec::new(), prefix: rule.prefix };
    list.derived("derive-no-clauses", &none, &[1, 0, 50, 0, 1, 1, 7]);
    let none = RuleDraft { clauses: Vec::new(), prefix: vec![[1, 3]; 30] };
    list.derived("derive-whole-2^60", &none, &[1, 0, 0, 1 << 28, 1, 1, 7]);

    // Where both variables are false, both clauses are lost: the first is named.
    let both = RuleDraft::new(&[&[0, 2], &[2]], &[[3, 1], [1, 1]]);
    let lines = [
        &[1, 2, 1, 3, 1, 0][..],
        &[2, 1, 1, 1, 0, 1, 1, 2],
        &[1, 2, 0, 3, 1, 0],
        &[2, 1, 0, 1, 0, 1, 5, 0],
        &[2, 0, 4, 0, 0, 3, 7],
        &[5, 9, 38],
    ];
    list.derived("derive-first-lost", &both, &lines.concat());

    // {2} and {3} are resolved under variable 0's being true, to the empty clause: it serves above, and the false side
    // is skipped. The same below 31 variables.
    let serves = RuleDraft::new(&[&[2], &[3]], &[[1, 1], [1, 1]]);
    list.derived("derive-true-side-serves", &serves, &[2, 0, 0, 0, 1, 2, 0, 1, 1, 10]);
    let serves = RuleDraft::new(&[&[62], &[63]], &[[0, 0]; 32]);
    list.derived("derive-true-side-serves-31-times", &serves, &[2, 0, 0, 0, 31, 2, 0, 1, 1, 10]);
    // On the true side {3} and {1, 2} give {1}, on the false side {3} and {2} give the empty clause, which serves. The
    // line for the true side stays, unused.
    let serves = RuleDraft::new(&[&[1, 2], &[3], &[2]], &[[1, 1], [1, 1]]);
    let lines = [&[2, 1, 1, 0, 0, 1, 2, 0][..], &[2, 0, 0, 0, 1, 2, 4], &[2, 3, 18]];
    list.derived("derive-false-side-serves", &serves, &lines.concat());
    // {0, 5} and {0, 4} are resolved on variable 2; the resolvent {0} jumps over variable 1, a draw. A value but 0
    // comes from a line with the whole path, over which none jumps.
    let skips = RuleDraft::new(&[&[0, 4], &[0, 5]], &[[1, 1], [2, 1], [3, 1]]);
    let lines = [&[1, 1, 1, 12, 0][..], &[2, 1, 0, 0, 0, 2, 2, 0], &[2, 0, 12, 0, 0, 1, 3], &[3, 5, 23]];
    list.derived("derive-draw-skipped", &skips, &lines.concat());

    // A line's literals rise, those of a path and those of two clauses. The same clauses falling are refused, whatever
    // the buffer's length.
    let falling = RuleDraft::new(&[&[4, 2, 0]], &[[0, 0]; 3]);
    let lines = [
        &[1, 1, 1, 1, 0][..],
        &[1, 2, 0, 3, 1, 0],
        &[1, 3, 0, 2, 5, 1, 0],
        &[2, 2, 0, 2, 1, 0, 2, 5, 0],
        &[2, 1, 0, 1, 0, 1, 3, 7],
        &[2, 0, 1, 0, 0, 1, 9],
        &[6, 11, 45],
    ];
    list.derived("derive-path-rising", &sorted(&falling), &lines.concat());
    for capacity in [180, 185, 179] {
        list.add(format!("derive-path-falling-{capacity}"), &falling.bytes(), Operation::Derive(capacity), 23, &[0]);
    }
    let falling = RuleDraft::new(&[&[4, 2, 0], &[5, 2, 0], &[1], &[3]], &[[0, 0]; 3]);
    let lines = [&[2, 2, 0, 2, 0, 0, 2, 2, 0][..], &[2, 1, 0, 0, 0, 1, 6, 1], &[2, 0, 0, 0, 0, 4, 3], &[3, 5, 27]];
    list.derived("derive-resolvent-rising", &sorted(&falling), &lines.concat());
    for capacity in [108, 113, 107] {
        list.add(
            format!("derive-resolvent-falling-{capacity}"),
            &falling.bytes(),
            Operation::Derive(capacity),
            23,
            &[0],
        );
    }
    // The true-side parent's literal stands after the false-side parent's.
    let turned = RuleDraft::new(&[&[2, 5], &[0, 4], &[1], &[3]], &[[0, 0]; 3]);
    let lines = [&[2, 2, 0, 2, 0, 0, 2, 0, 2][..], &[2, 1, 0, 0, 0, 1, 6, 1], &[2, 0, 0, 0, 0, 4, 3], &[3, 5, 27]];
    list.derived("derive-resolvent-false-side-before", &turned, &lines.concat());

    // Thirty variables that must be false, of false weight 3: the line of level d has the value 3^(30 - d), over 2^32
    // at the last.
    let all_false = RuleDraft { clauses: (0..30).map(|v| vec![2 * v + 1]).collect(), prefix: vec![[1, 3]; 30] };
    let line =
        |d: u32, resolved| LineDraft { literals: (0..d).map(|v| 2 * v).collect(), value: 3u64.pow(30 - d), resolved };
    let mut lines = vec![line(30, None)];
    lines.extend((0..30).rev().map(|d| line(d, Some([d, 2 * d, 2 * (29 - d) + 1]))));
    list.derived("derive-values-over-2^32", &all_false, &DerivationDraft { lines, closing: 61 }.words());
}

/// What stands at a node of level `t` of the trees below.
enum Comb {
    /// The node is lost by this clause.
    Lost(u32),
    /// The next variables must be true: where one is false, its clause is lost; where all are true, all clauses are
    /// met.
    Clauses(Vec<u32>),
}

/// Writes the lines for a tree over existential variables whose nodes of level `t` are `comb`s, numbered as the walk
/// comes to them, and where each line has the opposites of its node's whole path. The clauses themselves are not looked
/// at: the lines follow from the tree.
struct Lines<F> {
    t: u32,
    comb: F,
    lines: Vec<LineDraft>,
}

impl<F: Fn(u32) -> Comb> Lines<F> {
    /// The reference and the value of the new line.
    fn write(&mut self, path: &[u32], value: u64, resolved: Option<[u32; 3]>) -> (u32, u64) {
        self.lines.push(LineDraft { literals: path.to_vec(), value, resolved });
        (2 * self.lines.len() as u32 - 1, value)
    }

    /// What stands for the node of a comb with these clauses left.
    fn comb(&mut self, path: &[u32], clauses: &[u32]) -> (u32, u64) {
        let Some((&clause, after)) = clauses.split_first() else {
            return self.write(path, 1, None);
        };
        let v = path.len() as u32;
        let (on_true, value) = self.comb(&[path, &[2 * v + 1]].concat(), after);
        self.write(path, value, Some([v, on_true, 2 * clause]))
    }

    /// What stands for a node of level at most `t`.
    fn node(&mut self, path: &[u32], number: u32) -> (u32, u64) {
        let v = path.len() as u32;
        if v == self.t {
            return match (self.comb)(number) {
                Comb::Lost(clause) => (2 * clause, 0),
                Comb::Clauses(clauses) => self.comb(path, &clauses),
            };
        }
        let (on_true, p) = self.node(&[path, &[2 * v + 1]].concat(), 2 * number);
        let (on_false, q) = self.node(&[path, &[2 * v]].concat(), 2 * number + 1);
        self.write(path, p.max(q), Some([v, on_true, on_false]))
    }
}

/// The derivation for such a tree.
fn combs(t: u32, comb: impl Fn(u32) -> Comb) -> DerivationDraft {
    let mut lines = Lines { t, comb, lines: Vec::new() };
    let closing = lines.node(&[], 0).0;
    DerivationDraft { lines: lines.lines, closing }
}

/// The opposites of the path to a node of level `t`.
fn path(t: u32, number: u32) -> Vec<u32> {
    (0..t).map(|v| 2 * v + 1 - (number >> (t - 1 - v) & 1)).collect()
}

/// The borders of 1,024 lines and 65,536 bytes.
fn written_lengths(list: &mut List) {
    // Clauses {16} and {18} make 255 lines above level 8 and three at each of its 256 nodes. A third clause at a node,
    // {.., 20} with the opposites of its path, is one line more.
    let lines = |longer: u32| {
        let mut clauses = vec![vec![16], vec![18]];
        clauses.extend((0..longer).map(|node| [path(8, node), vec![20]].concat()));
        let comb = |node| Comb::Clauses(if node < longer { vec![0, 1, 2 + node] } else { vec![0, 1] });
        (RuleDraft { clauses, prefix: vec![[0, 0]; 11] }, combs(8, comb))
    };
    let (rule, draft) = lines(1);
    assert_eq!((draft.lines.len(), draft.bytes().len()), (1_024, 59_456));
    list.derive("derive-lines-1024", &rule, 65_536, &draft.words());
    let (rule, draft) = lines(2);
    assert_eq!((draft.lines.len(), draft.bytes().len()), (1_025, 59_528));
    list.too_long("derive-lines-1025", &rule, 65_536);

    // A line of level d has 7 + d words, or 4 + d where all clauses are met. Of the nodes of level t some are lost,
    // some have a comb of c clauses and the rest one of c + 1. All t to 7 and c to 31 - t were tried: t = 7 and c = 6
    // is the least c that reaches 16,384 words, and 16,385.
    let bytes = |lost: u32, short: u32| {
        let mut clauses: Vec<Vec<u32>> = (7..13).map(|v| vec![2 * v]).collect();
        clauses.extend((0..lost).map(|node| path(7, node)));
        clauses.extend((lost + short..128).map(|node| [path(7, node), vec![26]].concat()));
        let comb = |node| {
            if node < lost {
                return Comb::Lost(6 + node);
            }
            let last = (node >= lost + short).then(|| 6 + node - short);
            Comb::Clauses((0..6).chain(last).collect())
        };
        (RuleDraft { clauses, prefix: vec![[0, 0]; 14] }, combs(7, comb))
    };
    let (rule, draft) = bytes(17, 17);
    assert_eq!((draft.lines.len(), draft.bytes().len()), (998, 65_536));
    list.derive("derive-bytes-65536", &rule, 65_536, &draft.words());
    list.too_long("derive-bytes-65536-less", &rule, 65_535);
    let (rule, draft) = bytes(15, 30);
    assert_eq!((draft.lines.len(), draft.bytes().len()), (1_001, 65_540));
    list.too_long("derive-bytes-65540", &rule, 65_540);

    // One clause of one literal, on the last of 32 variables: over 2^32 lines.
    let last = RuleDraft { clauses: vec![vec![62]], prefix: vec![[0, 0]; 32] };
    list.too_long("derive-lines-2^32", &last, 65_536);
}
