//! Samples for document 02's repair of stored rule files.

use super::{all_variables, distinct_clauses, sample, with, List};
use crate::cases::Operation;
use crate::generate::{longest_rule, RuleDraft};
use crate::random::Random;
use crate::to_bytes;

impl List {
    /// A file of which the repair keeps these clauses, with a buffer of `capacity` bytes.
    fn repair(
        &mut self,
        name: impl Into<String>,
        rule: &RuleDraft,
        capacity: usize,
        kept: &RuleDraft,
        counts: [u64; 3],
    ) {
        let written = kept.bytes();
        let numbers = [&[written.len() as u64][..], &counts].concat();
        self.add(name, &rule.bytes(), Operation::Repair(capacity), 0, &numbers);
        self.0.last_mut().unwrap().expected.written = written;
    }

    /// A refusal of the repair, with its place if it has one.
    fn unrepaired(&mut self, name: impl Into<String>, rule: &[u8], capacity: usize, code: u32, place: &[u64]) {
        self.add(name, rule, Operation::Repair(capacity), code, place);
    }

    /// A file on both sides of 25's border, the old file's length: also with a buffer of more, with one that has room
    /// for the new file alone, and the new file, in which nothing is to do.
    fn repaired(&mut self, name: &str, rule: &RuleDraft, kept: &[&[u32]], counts: [u64; 3]) {
        let kept = RuleDraft::new(kept, &rule.prefix);
        let (file, new) = (rule.bytes(), kept.bytes().len());
        self.repair(format!("repair-{name}"), rule, file.len(), &kept, counts);
        self.repair(format!("repair-{name}-more"), rule, file.len() + 5, &kept, counts);
        self.unrepaired(format!("repair-{name}-less"), &file, file.len() - 1, 25, &[]);
        if new < file.len() {
            self.unrepaired(format!("repair-{name}-new-length"), &file, new, 25, &[]);
        }
        if kept != *rule {
            self.repair(format!("repair-{name}-again"), &kept, new, &kept, [0; 3]);
        }
    }
}

/// Files on both sides of each border of the repair.
pub(super) fn repairs(list: &mut List) {
    clauses(list);
    files(list);
    copies(list);
    many_clauses(list);
    many_copies(list);
    lengths(list);
    refusals(list);
    orders(list);
    random_files(list);
    files_above(list);
}

/// One clause over three variables.
fn clauses(list: &mut List) {
    let mut check = |clause: &[u32], kept: Option<&[u32]>, literals, reordered| {
        let rule = RuleDraft::new(&[clause], &[[3, 1], [0, 0], [2, 5]]);
        let name = clause.iter().fold("clause".to_string(), |name, literal| format!("{name}-{literal}"));
        let counts = [u64::from(kept.is_none()), literals, reordered];
        list.repaired(&name, &rule, kept.as_slice(), counts);
    };
    // In order, and out of order.
    check(&[], Some(&[]), 0, 0);
    check(&[5], Some(&[5]), 0, 0);
    check(&[0, 3, 4], Some(&[0, 3, 4]), 0, 0);
    for clause in [[0, 4, 3], [3, 0, 4], [3, 4, 0], [4, 0, 3], [4, 3, 0]] {
        check(&clause, Some(&[0, 3, 4]), 0, 1);
    }
    // Literals side by side that are no opposites.
    check(&[1, 2], Some(&[1, 2]), 0, 0);
    check(&[2, 1], Some(&[1, 2]), 0, 1);
    check(&[4, 3], Some(&[3, 4]), 0, 1);
    // Repeats: the first of equal literals tells whether the clause is in order.
    check(&[2, 2], Some(&[2]), 1, 0);
    check(&[3, 3, 3], Some(&[3]), 2, 0);
    check(&[0, 4, 0], Some(&[0, 4]), 1, 0);
    check(&[0, 0, 4], Some(&[0, 4]), 1, 0);
    check(&[0, 4, 4], Some(&[0, 4]), 1, 0);
    check(&[4, 0, 4], Some(&[0, 4]), 1, 1);
    check(&[4, 0, 0], Some(&[0, 4]), 1, 1);
    check(&[4, 4, 0], Some(&[0, 4]), 1, 1);
    // A variable and its opposite, in either order, side by side and apart, and with repeats besides.
    for clause in [&[0, 1][..], &[1, 0], &[4, 5], &[5, 4], &[0, 2, 1], &[1, 2, 0], &[2, 4, 5], &[5, 2, 4], &[4, 2, 5]] {
        check(clause, None, 0, 0);
    }
    for clause in [[0, 0, 1], [0, 1, 0], [0, 1, 1], [1, 0, 0], [1, 0, 1], [1, 1, 0]] {
        check(&clause, None, 0, 0);
    }
}

/// Several clauses, and what stays as it is.
fn files(list: &mut List) {
    let three = |clauses: &[&[u32]]| RuleDraft::new(clauses, &[[4, 1], [0, 0], [3, 7]]);
    let rule = sample().0;
    list.repaired("sample", &rule, &[&[0, 2], &[3], &[2, 4]], [0; 3]);
    list.repaired("sample-turned", &three(&[&[2, 0], &[3], &[4, 2]]), &[&[0, 2], &[3], &[2, 4]], [0, 0, 2]);
    list.repaired("no-clauses", &three(&[]), &[], [0; 3]);
    list.repaired("n-0", &RuleDraft::new(&[], &[]), &[], [0; 3]);
    list.repaired("n-0-empty-clause", &RuleDraft::new(&[&[]], &[]), &[&[]], [0; 3]);
    list.repaired("n-1", &RuleDraft::new(&[&[1], &[0], &[]], &[[1, 65_535]]), &[&[1], &[0], &[]], [0; 3]);

    // Kept clauses stay in their order, wherever others are dropped.
    let all: [&[u32]; 8] = [&[4, 2], &[0, 1], &[2, 2, 0], &[], &[5, 4], &[3], &[2, 4, 2], &[0, 4, 0]];
    list.repaired("mixed", &three(&all), &[&[2, 4], &[0, 2], &[], &[3], &[0, 4]], [3, 2, 2]);
    list.repaired("first-dropped", &three(&[&[1, 0], &[4], &[2]]), &[&[4], &[2]], [1, 0, 0]);
    list.repaired("last-dropped", &three(&[&[4], &[2], &[1, 0]]), &[&[4], &[2]], [1, 0, 0]);
    list.repaired("all-dropped", &three(&[&[0, 1], &[3, 2, 2], &[5, 0, 4]]), &[], [3, 0, 0]);
    list.repaired("empty-clause-kept", &three(&[&[0, 1], &[]]), &[&[]], [1, 0, 0]);
    // Repeats in a dropped clause and a dropped clause out of order do not count.
    list.repaired("dropped-with-repeats", &three(&[&[2, 2, 3], &[4, 4]]), &[&[4]], [1, 1, 0]);
    list.repaired("dropped-out-of-order", &three(&[&[4, 3, 2], &[4, 2]]), &[&[2, 4]], [1, 0, 1]);

    // The reader refuses a file by 7, 23 or 26; the repair takes it, and the reader takes what it writes.
    let twice = three(&[&[3], &[2, 2]]);
    list.read("repair-read-7", &twice.words(), 7, &[1]);
    list.repaired("read-7", &twice, &[&[3], &[2]], [0, 1, 0]);
    list.read("repair-read-7-after", &three(&[&[3], &[2]]).words(), 0, &[3, 2, 4, 50]);
    let turned = three(&[&[3], &[4, 2]]);
    list.read("repair-read-23", &turned.words(), 23, &[1]);
    list.repaired("read-23", &turned, &[&[3], &[2, 4]], [0, 0, 1]);
    list.read("repair-read-23-after", &three(&[&[3], &[2, 4]]).words(), 0, &[3, 2, 5, 50]);
    let copied = three(&[&[3], &[2, 4], &[3]]);
    list.read("repair-read-26", &copied.words(), 26, &[2]);
    list.repaired("read-26", &copied, &[&[3], &[2, 4]], [1, 0, 0]);

    // Weights and wholes at their borders.
    let mut thirty = RuleDraft { clauses: vec![vec![58, 0, 58], vec![3, 2]], prefix: vec![[1, 3]; 30] };
    list.repaired("whole-2^60", &thirty, &[&[0, 58]], [1, 1, 1]);
    thirty.prefix[0] = [1, 4];
    list.unrepaired("repair-whole-over-2^60", &thirty.bytes(), thirty.bytes().len(), 9, &[]);
    list.unrepaired("repair-whole-over-2^60-less", &thirty.bytes(), 0, 9, &[]);
    let large = RuleDraft::new(&[&[3, 0], &[1, 1]], &[[65_535, 65_535], [1, 65_535]]);
    list.repaired("weights-65535", &large, &[&[0, 3], &[1]], [0, 1, 1]);
}

/// Copies, which are found once the clauses are in order and without repeats: the first stays, each later one counts
/// among the dropped clauses alone.
fn copies(list: &mut List) {
    let mut check = |name: &str, clauses: &[&[u32]], kept: &[&[u32]], counts| {
        let rule = RuleDraft::new(clauses, &[[4, 1], [0, 0], [3, 7]]);
        list.repaired(&format!("copies-{name}"), &rule, kept, counts);
    };
    let [a, b, c]: [&[u32]; 3] = [&[0, 2], &[3], &[2, 4]];
    // As they stand: nothing else is to do.
    check("a-a", &[a, a], &[a], [1, 0, 0]);
    check("a-b-a", &[a, b, a], &[a, b], [1, 0, 0]);
    check("a-b-b-a", &[a, b, b, a], &[a, b], [2, 0, 0]);
    check("a-a-b", &[a, a, b], &[a, b], [1, 0, 0]);
    check("b-a-a-c", &[b, a, a, c], &[b, a, c], [1, 0, 0]);
    check("a-a-a", &[a, a, a], &[a], [2, 0, 0]);
    check("a-b-a-c-a-b", &[a, b, a, c, a, b], &[a, b, c], [3, 0, 0]);
    // Once in order: of the two the first tells whether one is reordered.
    check("second-turned", &[&[0, 2], &[2, 0]], &[a], [1, 0, 0]);
    check("first-turned", &[&[2, 0], &[0, 2]], &[a], [1, 0, 1]);
    check("both-turned", &[&[2, 0], &[2, 0]], &[a], [1, 0, 1]);
    check("turned-apart", &[&[4, 2], b, &[2, 4], &[2, 0], c], &[c, b, a], [2, 0, 2]);
    check("in-all-orders", &[&[0, 3, 4], &[4, 3, 0], &[3, 4, 0], &[0, 4, 3]], &[&[0, 3, 4]], [3, 0, 0]);
    // Once without repeats: those of the first count, those of a copy do not.
    check("second-with-repeat", &[&[2], &[2, 2]], &[&[2]], [1, 0, 0]);
    check("first-with-repeat", &[&[2, 2], &[2]], &[&[2]], [1, 1, 0]);
    check("both-with-repeats", &[&[3, 3], &[3, 3, 3]], &[b], [1, 1, 0]);
    check("second-with-repeat-of-two", &[&[0, 2], &[0, 2, 0]], &[a], [1, 0, 0]);
    check("first-with-repeat-of-two", &[&[0, 2, 0], &[0, 2]], &[a], [1, 1, 0]);
    // Once both: the first turned, a copy with repeats, and the other way about.
    check("turned-and-with-repeat", &[&[2, 0], &[0, 0, 2]], &[a], [1, 0, 1]);
    check("with-repeat-and-turned", &[&[0, 0, 2], &[2, 0]], &[a], [1, 1, 0]);
    check("made", &[a, &[2, 0], &[0, 2, 0], &[2, 0, 2]], &[a], [3, 0, 0]);
    check("made-of-the-last", &[&[2, 0, 2], &[0, 2, 0], &[2, 0], a], &[a], [3, 1, 1]);
    // Empty clauses.
    check("empty", &[&[], &[]], &[&[]], [1, 0, 0]);
    check("empty-apart", &[&[], &[0, 1], a, &[]], &[&[], a], [2, 0, 0]);
    check("empty-of-three", &[a, &[], &[], b, &[]], &[a, &[], b], [2, 0, 0]);
    // A clause that holds opposites is dropped, and so is its copy: each counts once.
    check("opposed", &[&[0, 1], &[0, 1]], &[], [2, 0, 0]);
    check("opposed-turned", &[&[0, 1], &[1, 0]], &[], [2, 0, 0]);
    check("opposed-with-repeat", &[&[0, 1], &[0, 0, 1]], &[], [2, 0, 0]);
    check("opposed-of-three", &[&[4, 5], a, &[4, 5], a, &[5, 4]], &[a], [4, 0, 0]);
    check("opposed-beside", &[&[0, 2, 1], a, &[2, 0]], &[a], [2, 0, 0]);
    // No copies: clauses that begin or end alike, other signs, and those that only have the same variables.
    check("none-begin-alike", &[&[0], a, &[0, 2, 4]], &[&[0], a, &[0, 2, 4]], [0; 3]);
    check("none-end-alike", &[&[4, 2, 0], &[4, 2], &[4]], &[&[0, 2, 4], c, &[4]], [0, 0, 2]);
    check("none-without-repeats", &[&[2, 2], &[2, 2, 4], &[5, 5, 2]], &[&[2], c, &[2, 5]], [0, 3, 1]);
    check("none-by-signs", &[&[0, 2], &[3, 0], &[1, 2], &[3, 1]], &[a, &[0, 3], &[1, 2], &[1, 3]], [0, 0, 2]);

    // No variables, and one.
    let none = RuleDraft::new(&[&[], &[], &[]], &[]);
    list.repaired("copies-n-0", &none, &[&[]], [2, 0, 0]);
    let one = RuleDraft::new(&[&[1], &[0], &[1], &[], &[0]], &[[1, 65_535]]);
    list.repaired("copies-n-1", &one, &[&[1], &[0], &[]], [2, 0, 0]);
    // The sample with its first clause twice; its figure and its derivation are those of the sample.
    let mut twice = sample().0;
    twice.clauses.insert(1, vec![2, 0]);
    list.repaired("copies-sample", &twice, &[a, b, c], [1, 0, 0]);
    // 32 literals, as they stand and falling; and but for the last.
    let wide = |clauses: &[&[u32]]| RuleDraft::new(clauses, &[[1, 1]; 32]);
    let (all, falling) = (all_variables(), all_variables().into_iter().rev().collect::<Vec<u32>>());
    list.repaired("copies-32-literals", &wide(&[&all, &all]), &[&all], [1, 0, 0]);
    list.repaired("copies-32-literals-falling", &wide(&[&falling, &all, &falling]), &[&all], [2, 0, 1]);
    list.repaired("copies-none-of-32-literals", &wide(&[&falling, &all[..31]]), &[&all, &all[..31]], [0, 0, 1]);
}

/// The longest clauses, and the most of them.
fn many_clauses(list: &mut List) {
    let wide = |clause: Vec<u32>| RuleDraft { clauses: vec![clause], prefix: vec![[1, 1]; 32] };
    let falling = all_variables().into_iter().rev().collect();
    list.repaired("32-literals", &wide(all_variables()), &[&all_variables()], [0; 3]);
    list.repaired("32-literals-falling", &wide(falling), &[&all_variables()], [0, 0, 1]);
    for at in [0, 15, 30] {
        let mut literals = all_variables();
        literals.swap(at, at + 1);
        list.repaired(&format!("32-literals-{at}-exchanged"), &wide(literals), &[&all_variables()], [0, 0, 1]);
    }
    list.repaired("one-literal-32-times", &wide(vec![62; 32]), &[&[62]], [0, 31, 0]);
    // The last literal in place of the first, or the first in place of the last, or its opposite.
    let ends = |first: u32, last: u32| {
        let mut literals: Vec<u32> = (0..32).map(|v| 2 * v).collect();
        (literals[0], literals[31]) = (first, last);
        wide(literals)
    };
    let inner: Vec<u32> = (1..31).map(|v| 2 * v).collect();
    let [low, high] = [[&[0], &inner[..]].concat(), [&inner[..], &[62]].concat()];
    list.repaired("first-of-32-last", &ends(0, 0), &[&low], [0, 1, 0]);
    list.repaired("last-of-32-first", &ends(62, 62), &[&high], [0, 1, 1]);
    list.repaired("opposites-at-ends", &ends(62, 63), &[], [1, 0, 0]);
    list.repaired("opposites-at-ends-turned", &ends(63, 62), &[], [1, 0, 0]);

    // 1,024 different clauses: with nothing to do, all of them reordered, shortened and dropped, and each of the four
    // in turn.
    let mut many = |name: &str, change: fn(usize, &mut Vec<u32>), kept: fn(usize) -> bool, counts| {
        let rule = distinct_clauses(1_024, 1);
        let mut changed = rule.clone();
        changed.clauses.iter_mut().enumerate().for_each(|(at, clause)| change(at, clause));
        let clauses = (0..1_024).filter(|at| kept(*at)).map(|at| rule.clauses[at].clone()).collect();
        let kept = RuleDraft { clauses, prefix: rule.prefix };
        list.repair(format!("repair-1024-clauses-{name}"), &changed, changed.bytes().len(), &kept, counts);
    };
    many("in-order", |_, _| {}, |_| true, [0; 3]);
    many("reordered", |_, clause| clause.reverse(), |_| true, [0, 0, 1_024]);
    many("shortened", |_, clause| clause.push(clause[0]), |_| true, [0, 1_024, 0]);
    many("dropped", |_, clause| clause.push(0), |_| false, [1_024, 0, 0]);
    let mixed = |at: usize, clause: &mut Vec<u32>| match at % 4 {
        1 => clause.reverse(),
        2 => clause.push(0),
        3 => clause.push(clause[2]),
        _ => {}
    };
    many("mixed", mixed, |at| at % 4 != 2, [256, 256, 256]);
    many("last-dropped", |at, clause| clause.extend((at == 1_023).then_some(0)), |at| at < 1_023, [1, 0, 0]);
}

/// 1,024 clauses with copies among them, and all of them copies of one.
fn many_copies(list: &mut List) {
    let rule = distinct_clauses(1_024, 1);
    let mut check = |name: &str, copies: &[(usize, usize)]| {
        let mut stored = rule.clone();
        for &(from, to) in copies {
            stored.clauses[to] = rule.clauses[from].iter().rev().copied().collect();
        }
        let gone = |at: &usize| copies.iter().all(|(_, to)| to != at);
        let clauses = (0..1_024).filter(gone).map(|at| rule.clauses[at].clone()).collect();
        let kept = RuleDraft { clauses, prefix: rule.prefix.clone() };
        let counts = [copies.len() as u64, 0, 0];
        list.repair(format!("repair-1024-clauses-copy-{name}"), &stored, stored.bytes().len(), &kept, counts);
    };
    for (from, to) in [(0, 1), (0, 1_023), (1_022, 1_023), (511, 512)] {
        check(&format!("of-{from}-at-{to}"), &[(from, to)]);
    }
    check("of-0-thrice", &[(0, 1), (0, 700), (0, 1_023)]);
    let half: Vec<(usize, usize)> = (0..512).map(|at| (at, 1_023 - at)).collect();
    check("of-each-of-512", &half);

    let mut all = |name: &str, clause: &[u32], kept: &[&[u32]], counts| {
        let rule = RuleDraft { clauses: vec![clause.to_vec(); 1_024], prefix: vec![[1, 2], [0, 0]] };
        let kept = RuleDraft::new(kept, &rule.prefix);
        list.repair(format!("repair-1024-copies-{name}"), &rule, rule.bytes().len(), &kept, counts);
    };
    all("in-order", &[0, 2], &[&[0, 2]], [1_023, 0, 0]);
    all("out-of-order", &[2, 0], &[&[0, 2]], [1_023, 0, 1]);
    all("with-repeats", &[3, 3], &[&[3]], [1_023, 1, 0]);
    all("opposed", &[1, 0], &[], [1_024, 0, 0]);
    all("empty", &[], &[&[]], [1_023, 0, 0]);
}

/// The longest file: with all clauses but the first reordered, with all but the first dropped, and with copies.
fn lengths(list: &mut List) {
    let longest = longest_rule([0, 0]);
    let mut falling = longest.clone();
    falling.clauses.iter_mut().for_each(|clause| clause.reverse());
    list.repair("repair-length-65536", &falling, 65_536, &longest, [0, 0, 1_023]);
    list.unrepaired("repair-length-65536-less", &falling.bytes(), 65_535, 25, &[]);
    let mut opposed = longest.clone();
    opposed.clauses[1..].iter_mut().for_each(|clause| *clause.last_mut().unwrap() = 1);
    let first = RuleDraft::new(&[&[0]], &longest.prefix);
    list.repair("repair-length-65536-dropped", &opposed, 65_536, &first, [1_023, 0, 0]);
    // All variables as themselves: the clauses from 1 on are of two lengths, 15 and from clause 970 on 14.
    let mut copied = longest.clone();
    copied.clauses.iter_mut().flatten().for_each(|literal| *literal &= !1);
    let clauses = [0, 1, 970].map(|at| copied.clauses[at].clone()).to_vec();
    let kept = RuleDraft { clauses, prefix: longest.prefix.clone() };
    list.repair("repair-length-65536-copies", &copied, 65_536, &kept, [1_021, 0, 0]);
    copied.clauses.iter_mut().for_each(|clause| clause.reverse());
    list.repair("repair-length-65536-copies-falling", &copied, 65_536, &kept, [1_021, 0, 2]);
    falling.clauses[1_023].push(31);
    list.unrepaired("repair-length-65540", &falling.bytes(), 65_540, 1, &[]);
}

/// Clauses {4, 0, 4}, {2, 3}, {2, 2} and {5, 1}, from words 0, 4, 7 and 10 on; the prefix is at word 13, the trailer at
/// word 19.
fn stored() -> RuleDraft {
    RuleDraft::new(&[&[4, 0, 4], &[2, 3], &[2, 2], &[5, 1]], &[[4, 1], [0, 0], [3, 7]])
}

/// Each of 1 to 6, 8 and 9 on both sides of its border, in files that 7, 23 or 26 would refuse, with a buffer of the
/// file's length and with none: 25 stands after them.
fn refusals(list: &mut List) {
    let rule = stored();
    list.repaired("stored", &rule, &[&[0, 4], &[2], &[1, 5]], [1, 2, 2]);
    let words = rule.words();
    let mut refused = |name: &str, file: &[u8], code, place: &[u64]| {
        list.unrepaired(format!("repair-{name}"), file, file.len(), code, place);
        list.unrepaired(format!("repair-{name}-no-buffer"), file, 0, code, place);
    };
    let file = [rule.bytes(), vec![0; 4]].concat();
    for len in [0, 12, 15, 89, 90, 91, 93, 94, 95] {
        refused(&format!("length-{len}"), &file[..len], 1, &[]);
    }
    refused("length-96", &file, 2, &[]);

    let mut changed = |name: &str, at, word, code, place: &[u64]| {
        refused(name, &to_bytes(&with(&words, at, word)), code, place);
    };
    for (name, count) in [("less", 22), ("more", 24), ("2^31", 23 + (1 << 31))] {
        changed(&format!("count-{name}"), 22, count, 2, &[]);
    }
    for n in [33, (1 << 31) + 3, u32::MAX] {
        changed(&format!("n-{n}"), 20, n, 3, &[]);
    }
    for m in [1_025, u32::MAX] {
        changed(&format!("m-{m}"), 19, m, 3, &[]);
    }
    for (name, start) in [("less", 12), ("more", 14), ("2^31", 13 + (1 << 31))] {
        changed(&format!("start-{name}"), 21, start, 4, &[]);
    }
    for (m, place) in [(0, 0), (3, 3), (5, 4), (1_024, 4)] {
        changed(&format!("walk-m-{m}"), 19, m, 5, &[place]);
    }
    changed("last-reaches-past", 10, 3, 5, &[3]);
    changed("last-reaches-far", 10, u32::MAX, 5, &[3]);
    changed("dropped-reaches-far", 4, 10, 5, &[1]);
    // 2n - 1 stands in the file.
    for (name, at, place) in [("first", 3, 0), ("dropped", 5, 1), ("repeated", 9, 2), ("last", 11, 3)] {
        changed(&format!("literal-2n-{name}"), at, 6, 6, &[place]);
        changed(&format!("literal-2^32-1-{name}"), at, u32::MAX, 6, &[place]);
    }
    for (variable, pair) in [(0, [0, 1]), (1, [65_536, 1]), (2, [1, 0])] {
        let mut rule = rule.clone();
        rule.prefix[variable] = pair;
        refused(&format!("weights-of-{variable}"), &rule.bytes(), 8, &[variable as u64]);
        rule.prefix[2] = [1, 65_536];
        refused(&format!("weights-of-{variable}-and-2"), &rule.bytes(), 8, &[variable as u64]);
    }
    let large = RuleDraft { prefix: vec![[32_768, 32_768]; 4], ..rule };
    refused("whole-2^64", &large.bytes(), 9, &[]);
    // Copies, which are dropped, and a fault before or after them: the place is the old file's.
    let copied = |clauses: &[&[u32]], pair| RuleDraft::new(clauses, &[[1, 1], [1, 1], pair]).bytes();
    refused("copies-k-over-n", &copied(&[&[0], &[0], &[0, 2, 4, 1]], [1, 1]), 5, &[2]);
    refused("copies-literal-2n", &copied(&[&[0], &[0], &[], &[], &[6]], [1, 1]), 6, &[4]);
    refused("copies-of-literal-2n", &copied(&[&[0], &[6], &[6]], [1, 1]), 6, &[1]);
    refused("copies-weights", &copied(&[&[0], &[0]], [1, 0]), 8, &[2]);
    let large = RuleDraft::new(&[&[0], &[0]], &[[32_768, 32_768]; 4]);
    refused("copies-whole", &large.bytes(), 9, &[]);

    // Literals of 2n or more that are repeats, opposites, or beside opposites.
    let three = |clauses: &[&[u32]]| RuleDraft::new(clauses, &[[1, 2]; 3]).bytes();
    for (name, clause) in [("twice", &[6, 6][..]), ("opposites", &[6, 7]), ("beside-opposites", &[2, 3, 6])] {
        refused(&format!("literals-2n-{name}"), &three(&[&[1, 0], &[2], clause]), 6, &[2]);
    }
    // A length over n, by repeats and by opposites; n itself is taken.
    refused("repeats-over-n", &three(&[&[1, 0], &[4, 4, 4, 4]]), 5, &[1]);
    refused("opposites-over-n", &three(&[&[2, 3, 2, 3], &[0]]), 5, &[0]);
    refused("repeat-of-two-over-n", &three(&[&[0], &[2, 2], &[4, 0, 4, 0]]), 5, &[2]);
    refused("repeats-over-1", &RuleDraft::new(&[&[0], &[0, 0]], &[[1, 2]]).bytes(), 5, &[1]);
    refused("literal-over-0", &to_bytes(&[1, 0, 1, 0, 2, 6]), 5, &[0]);
    let wide = |clauses: &[&[u32]]| RuleDraft::new(clauses, &[[1, 2]; 32]).bytes();
    refused("literal-64-of-32", &wide(&[&[63, 62], &[63, 0], &[64, 0]]), 6, &[2]);
    refused("literals-64-65-of-32", &wide(&[&[63, 62], &[65, 64]]), 6, &[1]);
    let repeats = RuleDraft::new(&[&[1, 0], &[4, 4, 4]], &[[1, 2]; 3]);
    list.repaired("repeats-of-n", &repeats, &[&[4]], [1, 2, 0]);
}

/// A refusal, the words that are changed for it, and its place.
type Change = (u32, &'static [(usize, u32)], &'static [u64]);

/// Two of the repair's refusals that hold at once: the one that is looked for first is told.
fn orders(list: &mut List) {
    // Clauses {4, 0, 4}, {2, 3} and {6, 8} from words 0, 4 and 7 on; the prefix at word 10, the trailer at word 20.
    let rule = RuleDraft::new(&[&[4, 0, 4], &[2, 3], &[6, 8]], &[[1, 1]; 5]);
    let faults: [Change; 9] = [
        (1, &[], &[]),
        (2, &[(23, 25)], &[]),
        (3, &[(20, 1_025)], &[]),
        (4, &[(22, 11)], &[]),
        (5, &[(7, 6)], &[2]),
        (6, &[(3, 10)], &[0]),
        (8, &[(18, 0)], &[4]),
        (9, &[(10, 65_535), (11, 65_535), (12, 65_535), (13, 65_535), (14, 65_535), (15, 65_535), (16, 65_535)], &[]),
        (25, &[], &[]),
    ];
    // With none as the second, each of them alone.
    let none: Change = (0, &[], &[]);
    for (at, (first, changes, place)) in faults.iter().enumerate() {
        for (second, more, _) in [none].iter().chain(&faults[at + 1..]) {
            let all = changes.iter().chain(*more);
            let mut file = to_bytes(&all.fold(rule.words(), |words, &(at, word)| with(&words, at, word)));
            if *first == 1 {
                file.push(0);
            }
            let short = [*first, *second].contains(&25);
            let capacity = file.len() - usize::from(short);
            list.unrepaired(format!("repair-order-{first}-{second}"), &file, capacity, *first, place);
        }
    }
}

/// Files made from those that their repair must give, without the makers of `generate`: a change to those leaves the
/// samples as they are.
fn random_files(list: &mut List) {
    let mut random = Random::new(10);
    for number in 0..60 {
        let n = random.within(2, if number < 12 { 32 } else { 6 });
        let prefix: Vec<[u32; 2]> = (0..n).map(|_| random.pick(&[[0, 0], [1, 1], [1, 2]])).collect();
        let mut rule = RuleDraft { clauses: Vec::new(), prefix };
        let (mut repaired, mut counts) = (rule.clone(), [0; 3]);
        for _ in 0..random.within(0, 8) {
            let mut variables: Vec<u32> = (0..n as u32).collect();
            variables.retain(|_| random.once_in(3));
            let kept: Vec<u32> = variables.iter().map(|v| 2 * v + random.below(2) as u32).collect();
            let mut clause = kept.clone();
            if random.once_in(2) {
                random.shuffle(&mut clause);
            }
            let reordered = u64::from(clause != kept);
            // Repeats stand after what they repeat, an opposite anywhere.
            let room = if kept.is_empty() { 0 } else { n - kept.len() };
            let repeats = random.within(0, room);
            for _ in 0..repeats {
                let at = random.within(1, clause.len());
                clause.insert(at, clause[random.below(at)]);
            }
            if repeats < room && random.once_in(3) {
                clause.insert(random.below(clause.len() + 1), random.pick(&kept) ^ 1);
                counts[0] += 1;
            } else if repaired.clauses.contains(&kept) {
                counts[0] += 1;
            } else {
                counts[1] += repeats as u64;
                counts[2] += reordered;
                repaired.clauses.push(kept);
            }
            rule.clauses.push(clause);
        }
        let capacity = rule.bytes().len() + random.pick(&[0, 0, 1, 40]);
        list.repair(format!("repair-random-{number}"), &rule, capacity, &repaired, counts);
    }
}

/// The files above that the bench's reader has read, unless 7, 23 or 26 refuses them: the same refusal, or the same
/// file.
fn files_above(list: &mut List) {
    for case in list.0.clone() {
        let alone = case.operation == Operation::Read && !case.name.starts_with("small-");
        if !alone || case.rule.len() > 4_096 || matches!(case.expected.code, 7 | 23 | 26) {
            continue;
        }
        let name = format!("{}-repair", case.name);
        if case.expected.code == 0 {
            let numbers = [case.rule.len() as u64, 0, 0, 0];
            list.add(name, &case.rule, Operation::Repair(case.rule.len()), 0, &numbers);
            list.0.last_mut().unwrap().expected.written = case.rule;
        } else {
            list.unrepaired(name, &case.rule, case.rule.len(), case.expected.code, &case.expected.numbers);
        }
    }
}
