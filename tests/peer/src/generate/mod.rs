//! Makers of rule files and derivations, random ones, valid ones and damaged ones, of rule files to be repaired, and of
//! job lists.

mod borders;
mod derivations;
mod hard;
mod lists;
mod plotted;
mod rule_files;
mod stored;

pub use borders::*;
pub use derivations::*;
pub use hard::*;
pub use lists::*;
pub use plotted::*;
pub use rule_files::*;
pub use stored::*;

pub use crate::rules::RuleDraft;

use crate::random::Random;
use crate::writer::{DerivationDraft, LineDraft};
use std::collections::HashSet;

/// The rule file and the derivation of document 01.
pub fn sample() -> (RuleDraft, DerivationDraft) {
    let rule = RuleDraft::new(&[&[0, 2], &[3], &[2, 4]], &[[4, 1], [0, 0], [3, 7]]);
    let line = |literals: &[u32], value, resolved| LineDraft { literals: literals.to_vec(), value, resolved };
    let lines = vec![
        line(&[1, 2, 5], 1, None),
        line(&[1, 2], 3, Some([2, 1, 4])),
        line(&[1], 3, Some([1, 2, 3])),
        line(&[0], 0, Some([1, 2, 0])),
        line(&[], 12, Some([0, 5, 7])),
    ];
    (rule, DerivationDraft { lines, closing: 9 })
}

/// 1,024 different clauses over 32 variables of these weights in exactly 65,536 bytes. Clause {0} decides both sides of
/// variable 0. The others have literals 0 and 2, and differ in variables 2 to 11.
pub fn longest_rule(pair: [u32; 2]) -> RuleDraft {
    let mut clauses = vec![vec![0]];
    for at in 0..1_023 {
        let sign = |v: u32| if (2..12).contains(&v) { at >> (v - 2) & 1 } else { 0 };
        clauses.push((0..if at < 969 { 15 } else { 14 }).map(|v| 2 * v + sign(v)).collect());
    }
    RuleDraft { clauses, prefix: vec![pair; 32] }
}

/// Drops the later copies of a clause.
pub fn drop_copies(clauses: &mut Vec<Vec<u32>>) {
    let mut seen = HashSet::new();
    clauses.retain(|clause| seen.insert(clause.clone()));
}

/// Puts copies of one or more clauses, no two of which are alike, after them, and gives the first place where one
/// stands; none if it can put none. An empty clause is taken often. Mostly a copy takes the place of a clause of its
/// length, so that the file stays as long as it is; else it is put in, unless there are 1,024.
pub fn copy_clauses(random: &mut Random, clauses: &mut Vec<Vec<u32>>) -> Option<usize> {
    for _ in 0..random.pick(&[1, 1, 1, 2, 3]) {
        let count = clauses.len();
        let empty = clauses.iter().position(|clause| clause.is_empty()).filter(|_| random.once_in(6));
        let from = empty.unwrap_or_else(|| often_at_an_end(random, count.max(1)));
        let copy = clauses.get(from)?.clone();
        let alike: Vec<usize> = (from + 1..count).filter(|at| clauses[*at].len() == copy.len()).collect();
        if !alike.is_empty() && (count >= 1_024 || !random.once_in(4)) {
            clauses[alike[often_at_an_end(random, alike.len())]] = copy;
        } else if count < 1_024 {
            clauses.insert(from + 1 + often_at_an_end(random, count - from), copy);
        }
    }
    (1..clauses.len()).find(|at| clauses[..*at].contains(&clauses[*at]))
}

/// Puts one or more of these lists, whose literals rise, out of order and gives the first that it took; none if no list
/// has two literals.
pub fn unorder<'a>(random: &mut Random, lists: impl Iterator<Item = &'a mut Vec<u32>>) -> Option<usize> {
    let mut long: Vec<(usize, &mut Vec<u32>)> = lists.enumerate().filter(|(_, list)| list.len() > 1).collect();
    let mut numbers = Vec::new();
    while !long.is_empty() && (numbers.is_empty() || random.once_in(3)) {
        let (number, list) = long.remove(often_at_an_end(random, long.len()));
        let at = often_at_an_end(random, list.len() - 1);
        match random.below(4) {
            0 => list.reverse(),
            1 => list.rotate_left(at + 1),
            _ => list.swap(at, at + 1),
        }
        numbers.push(number);
    }
    numbers.into_iter().min()
}

/// A number from 0 to `count - 1`, often the first or the last of them.
fn often_at_an_end(random: &mut Random, count: usize) -> usize {
    match random.below(4) {
        0 => 0,
        1 => count - 1,
        _ => random.below(count),
    }
}

/// A word that is likely to do harm in place of `old`.
fn harmful(random: &mut Random, old: u32) -> u32 {
    match random.below(10) {
        0 | 1 => old.wrapping_add(1),
        2 | 3 => old.wrapping_sub(1),
        4 | 5 => random.below(72) as u32,
        6 => old ^ 1 << random.below(32),
        7 => random.pick(&[0, 1, 2, 32, 33, 1_024, 1_025, 65_535, 65_536, 1 << 30, 1 << 31]),
        8 => u32::MAX - random.below(70) as u32,
        _ => random.word() as u32,
    }
}

/// Cuts bytes off or adds some.
fn damage_length(random: &mut Random, bytes: &mut Vec<u8>) {
    if random.once_in(2) {
        bytes.truncate(random.below(bytes.len() + 1));
    } else {
        for _ in 0..random.within(1, 8) {
            bytes.push(if random.once_in(2) { 0 } else { random.word() as u8 });
        }
    }
}
