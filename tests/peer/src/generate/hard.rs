//! Rule files on which a good search is needed: random clauses of one length.

use super::{clause, RuleDraft};
use crate::random::Random;
use std::collections::HashSet;

/// How existential and randomized variables follow each other.
#[derive(Clone, Copy, Debug, PartialEq, Eq)]
pub enum Shape {
    Randomized,
    Existential,
    /// An existential variable, then a randomized one, and so on.
    Alternating,
    /// The first half existential.
    ExistentialFirst,
    /// The first half randomized.
    RandomizedFirst,
}

pub const SHAPES: [Shape; 5] =
    [Shape::Randomized, Shape::Existential, Shape::Alternating, Shape::ExistentialFirst, Shape::RandomizedFirst];

impl Shape {
    fn is_randomized(self, v: usize, n: usize) -> bool {
        match self {
            Shape::Randomized => true,
            Shape::Existential => false,
            Shape::Alternating => v % 2 == 1,
            Shape::ExistentialFirst => v >= n / 2,
            Shape::RandomizedFirst => v < n / 2,
        }
    }
}

/// A family of rule files: `per_variable * n` different clauses of `k` literals, at most 1,024, over `n` variables.
#[derive(Clone, Copy, Debug)]
pub struct Family {
    pub shape: Shape,
    pub n: usize,
    pub k: usize,
    pub per_variable: usize,
}

/// A file of a family, with small weights.
pub fn hard_rule(random: &mut Random, family: Family) -> RuleDraft {
    let Family { shape, n, k, per_variable } = family;
    let m = (per_variable * n).min(1_024);
    let mut clauses = Vec::new();
    let mut seen = HashSet::new();
    while clauses.len() < m {
        let clause = clause(random, n, k);
        if seen.insert(clause.clone()) {
            clauses.push(clause);
        }
    }
    let weights = |v| if shape.is_randomized(v, n) { random.pick(&[[1, 1], [1, 2], [2, 1]]) } else { [0, 0] };
    RuleDraft { clauses, prefix: (0..n).map(weights).collect() }
}

/// A family of `least` to `most` variables, at least 9, with clauses of 4 to 9 literals and 2 to 32 of them a variable.
pub fn family(random: &mut Random, least: usize, most: usize) -> Family {
    Family {
        shape: random.pick(&SHAPES),
        n: random.within(least, most),
        k: random.within(4, 9),
        per_variable: random.pick(&[2, 3, 4, 6, 8, 12, 16, 24, 32]),
    }
}
