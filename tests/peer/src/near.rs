//! Notions of a clash that are nearly document 02's. Random files are to tell them from it: those cuts are counted that
//! have other numbers by another notion. `lists` has the same for job lists, `points` for marks and points, `readers`
//! for the small reader, `repairs` for the repair, `searches` for the search.

pub mod lists;
pub mod points;
pub mod readers;
pub mod repairs;
pub mod searches;

use crate::enumerate::{clash, cut, cut_with, Clash, Node};
use crate::rules::Rules;
use crate::{level, opposites, Literals};

struct Notion {
    name: &'static str,
    clash: Clash,
    /// Whether a cut at level 0, at one between and at level n - 1 can tell it from document 02's.
    told: [bool; 3],
}

/// 0 for level 0, 2 for level n - 1, 1 for one between.
pub fn kind_of_level(d: usize, n: usize) -> usize {
    if d == 0 {
        0
    } else if d + 1 == n {
        2
    } else {
        1
    }
}

/// How many of the two clauses have a true literal.
fn satisfied(node: Node, a: Literals, b: Literals) -> usize {
    [a, b].into_iter().filter(|clause| node.satisfies(*clause)).count()
}

/// Whether the two clauses have so many unset literals, in either order.
fn unset(node: Node, a: Literals, b: Literals, counts: [u32; 2]) -> bool {
    let found = [a, b].map(|clause| node.unset(clause).count_ones());
    found == counts || found == [counts[1], counts[0]]
}

/// Whether an unset literal of the one clause is the opposite of an unset literal of the other.
fn opposed(node: Node, a: Literals, b: Literals) -> bool {
    node.unset(a) & opposites(node.unset(b)) != 0
}

/// The first three call too few pairs a clash, the others too many.
const NOTIONS: [Notion; 9] = [
    // Document 01's.
    Notion { name: "no clash", clash: |_, _, _| false, told: [true, true, true] },
    Notion {
        name: "a clash on the next variable alone",
        clash: |node, a, b| clash(node, a, b) && level(node.unset(a)) == node.level + 1,
        told: [true, true, false],
    },
    Notion {
        name: "a clash of clauses of one literal alone",
        clash: |node, a, b| clash(node, a, b) && a.is_power_of_two() && b.is_power_of_two(),
        told: [false, true, true],
    },
    // At level 0 two clauses with the same literal alone would be copies.
    Notion {
        name: "a clash of one sign too",
        clash: |node, a, b| {
            satisfied(node, a, b) == 0 && unset(node, a, b, [1, 1]) && level(node.unset(a)) == level(node.unset(b))
        },
        told: [false, true, true],
    },
    Notion {
        name: "a clash of two variables too",
        clash: |node, a, b| satisfied(node, a, b) == 0 && unset(node, a, b, [1, 1]) && node.unset(a) != node.unset(b),
        told: [true, true, false],
    },
    Notion {
        name: "a clash of one unset literal and two too",
        clash: |node, a, b| {
            clash(node, a, b) || satisfied(node, a, b) == 0 && unset(node, a, b, [1, 2]) && opposed(node, a, b)
        },
        told: [true, true, false],
    },
    Notion {
        name: "a clash of two unset literals each too",
        clash: |node, a, b| {
            clash(node, a, b) || satisfied(node, a, b) == 0 && unset(node, a, b, [2, 2]) && opposed(node, a, b)
        },
        told: [true, true, false],
    },
    Notion {
        name: "a clash with one clause satisfied too",
        clash: |node, a, b| satisfied(node, a, b) < 2 && unset(node, a, b, [1, 1]) && opposed(node, a, b),
        told: [false, true, true],
    },
    Notion {
        name: "a clash with both clauses satisfied too",
        clash: |node, a, b| satisfied(node, a, b) != 1 && unset(node, a, b, [1, 1]) && opposed(node, a, b),
        told: [false, true, true],
    },
];

/// For each notion and each kind of level, how many cuts have other numbers by it.
#[derive(Default)]
pub struct Told([[u64; 3]; NOTIONS.len()]);

impl Told {
    /// Takes in the cuts of a file at all levels but n: there no literal is unset.
    pub fn take(&mut self, rules: &Rules) {
        for d in 0..rules.n() {
            let right = cut(rules, d);
            for (counts, notion) in self.0.iter_mut().zip(&NOTIONS) {
                counts[kind_of_level(d, rules.n())] += u64::from(cut_with(rules, d, notion.clash) != right);
            }
        }
    }

    /// Prints the counts (seen with `--nocapture`) and fails unless at each kind of level that can tell a notion at
    /// least `least` cuts did.
    pub fn reached(&self, least: u64) {
        for (counts, notion) in self.0.iter().zip(&NOTIONS) {
            println!("  {}: told by {counts:?} cuts", notion.name);
            for (count, told) in counts.iter().zip(notion.told) {
                assert!(!told || *count >= least, "{}: told by {counts:?} cuts only", notion.name);
                assert!(told || *count == 0, "{}: told by {counts:?} cuts", notion.name);
            }
        }
    }
}
