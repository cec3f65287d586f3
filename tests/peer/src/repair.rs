//! Document 02's repair of stored rule files, which puts literals in order, drops repeats of a literal, drops clauses
//! that hold a variable and its opposite, and drops the later copies of a clause: a kept clause becomes the ordered set
//! of its literals, and the file is made anew from its parts. Besides, document 01's rule over clauses as they stand.

use crate::rules::{draft_by, Fault, Quantifier, Reader, RuleDraft, REPAIR};
use std::collections::BTreeSet;

/// The repair's refusals, in the order of their checks.
pub const REFUSALS: [u32; 9] = [1, 2, 3, 4, 5, 6, 8, 9, 25];

/// A repaired file.
#[derive(Clone, Debug, Default, PartialEq, Eq)]
pub struct Repaired {
    pub written: Vec<u8>,
    /// Clauses dropped; literals dropped from kept clauses; kept clauses whose literals, without the later repeats, did
    /// not rise.
    pub counts: [u64; 3],
}

/// What becomes of one clause.
#[derive(Clone, Debug, PartialEq, Eq)]
pub struct Mended {
    /// None if it is dropped.
    pub literals: Option<Vec<u32>>,
    /// What it adds to the three counts.
    pub counts: [u64; 3],
}

impl Mended {
    pub const DROPPED: Mended = Mended { literals: None, counts: [1, 0, 0] };

    pub fn kept(clause: &[u32]) -> Mended {
        let set: BTreeSet<u32> = clause.iter().copied().collect();
        let rising: Vec<u32> = set.into_iter().collect();
        let repeats = (clause.len() - rising.len()) as u64;
        let reordered = u64::from(first_occurrences(clause) != rising);
        Mended { literals: Some(rising), counts: [0, repeats, reordered] }
    }
}

/// The literals of a clause without the later repeats.
pub fn first_occurrences(clause: &[u32]) -> Vec<u32> {
    let mut seen = BTreeSet::new();
    clause.iter().copied().filter(|literal| seen.insert(*literal)).collect()
}

/// Whether a clause holds a variable and its opposite.
pub fn has_opposites(clause: &[u32]) -> bool {
    clause.iter().any(|literal| clause.contains(&(literal ^ 1)))
}

/// Document 02 on one clause by itself.
pub fn mend(clause: &[u32]) -> Mended {
    if has_opposites(clause) {
        Mended::DROPPED
    } else {
        Mended::kept(clause)
    }
}

/// Drops each clause that has become the same as an earlier one. What it would add to the other counts goes with it.
pub fn drop_copies(mended: &mut [Mended]) {
    let mut seen = BTreeSet::new();
    for clause in mended {
        if clause.literals.clone().is_some_and(|literals| !seen.insert(literals)) {
            *clause = Mended::DROPPED;
        }
    }
}

/// What becomes of each clause, by itself as `mend` tells and then beside the others.
pub fn mend_all(mend: fn(&[u32]) -> Mended, clauses: &[Vec<u32>]) -> Vec<Mended> {
    let mut mended: Vec<Mended> = clauses.iter().map(|clause| mend(clause)).collect();
    drop_copies(&mut mended);
    mended
}

/// Repairs a rule file for a lent buffer of so many bytes, or gives the refusal.
pub fn repair(rule: &[u8], capacity: usize) -> Result<Repaired, Fault> {
    repair_with(REPAIR, |clauses| mend_all(mend, clauses), rule, capacity)
}

/// The same by another reader, with `mend` to tell what becomes of each clause.
pub fn repair_with(
    reader: Reader,
    mend: impl Fn(&[Vec<u32>]) -> Vec<Mended>,
    rule: &[u8],
    capacity: usize,
) -> Result<Repaired, Fault> {
    let stored = draft_by(reader, rule)?;
    // The input's length, however short the new file is.
    if capacity < rule.len() {
        return Err((25, None));
    }
    let mended = mend(&stored.clauses);
    let counts = [0, 1, 2].map(|at| mended.iter().map(|clause| clause.counts[at]).sum());
    let clauses = mended.into_iter().filter_map(|clause| clause.literals).collect();
    Ok(Repaired { written: RuleDraft { clauses, ..stored }.bytes(), counts })
}

/// Whether each clause, as it stands, has a literal that is true where variable `i` has the value of bit `i`.
pub fn satisfied(clauses: &[Vec<u32>], assignment: u64) -> bool {
    let is_true = |literal: &u32| assignment >> (literal / 2) & 1 != u64::from(literal % 2);
    clauses.iter().all(|clause| clause.iter().any(is_true))
}

/// Document 01's figure of clauses as they stand, out of order, with repeats and with opposites, over all assignments.
pub fn figure(rule: &RuleDraft) -> u128 {
    number(rule, 0, 0)
}

/// The number of the node of level `i` where the variables before have the values of these bits.
fn number(rule: &RuleDraft, i: usize, assignment: u64) -> u128 {
    let Some(pair) = rule.prefix.get(i) else {
        return u128::from(satisfied(&rule.clauses, assignment));
    };
    let quantifier = Quantifier::of(*pair).expect("weights that 8 does not refuse");
    quantifier.join(number(rule, i + 1, assignment | 1 << i), number(rule, i + 1, assignment))
}
