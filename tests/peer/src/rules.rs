//! The rule-file readers, the bench's, the rack controller's small one and the repair's, with their refusals; and rule
//! files before they are written.

use crate::{to_bytes, to_words, Literals};
use std::collections::HashSet;
use std::hash::Hash;

/// A refusal's number, with the clause, the variable or the line that it names.
pub type Fault = (u32, Option<usize>);

/// The readers' refusals, in the order of their checks.
pub const REFUSALS: [u32; 11] = [1, 2, 3, 4, 5, 6, 7, 23, 26, 8, 9];

/// The largest whole.
pub const LARGEST_WHOLE: u128 = 1 << 60;

/// How the prefix binds a variable.
#[derive(Clone, Copy, Debug, PartialEq, Eq)]
pub enum Quantifier {
    Existential,
    Randomized { if_true: u128, if_false: u128 },
}

impl Quantifier {
    /// What a true weight and a false weight say; none if they are refused by 8.
    pub fn of(pair: [u32; 2]) -> Option<Quantifier> {
        match pair {
            [0, 0] => Some(Quantifier::Existential),
            [a @ 1..=65_535, b @ 1..=65_535] => Some(Quantifier::Randomized { if_true: a.into(), if_false: b.into() }),
            _ => None,
        }
    }

    pub fn total(self) -> u128 {
        match self {
            Quantifier::Existential => 1,
            Quantifier::Randomized { if_true, if_false } => if_true + if_false,
        }
    }

    /// The number at a level from the two below it.
    pub fn join(self, on_true: u128, on_false: u128) -> u128 {
        match self {
            Quantifier::Existential => on_true.max(on_false),
            Quantifier::Randomized { if_true, if_false } => if_true * on_true + if_false * on_false,
        }
    }
}

/// An accepted rule file.
#[derive(Clone, Debug)]
pub struct Rules {
    /// One quantifier a variable, outermost first.
    pub prefix: Vec<Quantifier>,
    pub clauses: Vec<Literals>,
    /// The word where the prefix begins.
    pub prefix_start: usize,
    /// `rest[i]` is the product of the totals of variables `i` and later; `rest[n]` is 1.
    pub rest: Vec<u128>,
}

impl Rules {
    /// The number of variables.
    pub fn n(&self) -> usize {
        self.prefix.len()
    }

    pub fn whole(&self) -> u128 {
        self.rest[0]
    }
}

/// A rule file before it is written.
#[derive(Clone, Debug, Default, PartialEq, Eq)]
pub struct RuleDraft {
    pub clauses: Vec<Vec<u32>>,
    /// True weight and false weight of each variable.
    pub prefix: Vec<[u32; 2]>,
}

impl RuleDraft {
    pub fn new(clauses: &[&[u32]], prefix: &[[u32; 2]]) -> RuleDraft {
        RuleDraft { clauses: clauses.iter().map(|clause| clause.to_vec()).collect(), prefix: prefix.to_vec() }
    }

    pub fn words(&self) -> Vec<u32> {
        let mut words = Vec::new();
        for clause in &self.clauses {
            words.push(clause.len() as u32);
            words.extend(clause);
        }
        let start = words.len() as u32;
        words.extend(self.prefix.iter().flatten());
        let count = words.len() as u32 + 4;
        words.extend([self.clauses.len() as u32, self.prefix.len() as u32, start, count]);
        words
    }

    pub fn bytes(&self) -> Vec<u8> {
        to_bytes(&self.words())
    }
}

/// The most that a reader takes, and what it does not ask for.
#[derive(Clone, Copy, Debug)]
pub struct Reader {
    pub bytes: usize,
    pub variables: u32,
    pub clauses: u32,
    /// Of the checks 6, 7, 23 and 26 those that it leaves out.
    pub left_out: &'static [u32],
}

/// The bench's reader.
pub const BENCH: Reader = Reader { bytes: 65_536, variables: 32, clauses: 1_024, left_out: &[] };

/// The small reader. A file of 4,096 bytes has room for 1,020 clauses, but may claim more.
pub const SMALL: Reader = Reader { bytes: 4_096, variables: 16, ..BENCH };

/// The repair's reader: what 7, 23 and 26 refuse is what is repaired.
pub const REPAIR: Reader = Reader { left_out: &[7, 23, 26], ..BENCH };

/// Reads a rule file on the bench or gives its refusal.
pub fn read(bytes: &[u8]) -> Result<Rules, Fault> {
    read_by(BENCH, bytes)
}

/// The same on the rack controller, which has the small reader.
pub fn read_small(bytes: &[u8]) -> Result<Rules, Fault> {
    read_by(SMALL, bytes)
}

/// The same for any reader of at most 32 variables that asks for 6. Where it leaves out 7, a set of literals may hold
/// opposites.
pub fn read_by(reader: Reader, bytes: &[u8]) -> Result<Rules, Fault> {
    let words = to_words(bytes);
    let Parts { lists, sets, prefix_start, prefix, rest, .. } = parts(reader, bytes.len(), &words)?;
    let all = |list: &[u32]| list.iter().fold(0, |set: Literals, literal| set | 1 << literal);
    let clauses = sets.into_iter().zip(lists).map(|(set, list)| set.unwrap_or_else(|| all(list))).collect();
    Ok(Rules { prefix, clauses, prefix_start, rest })
}

/// Clauses and weights of a rule file as they stand, or its refusal.
pub fn draft_by(reader: Reader, bytes: &[u8]) -> Result<RuleDraft, Fault> {
    let words = to_words(bytes);
    let Parts { lists, pairs, .. } = parts(reader, bytes.len(), &words)?;
    let prefix = pairs.chunks_exact(2).map(|pair| [pair[0], pair[1]]).collect();
    Ok(RuleDraft { clauses: lists.into_iter().map(<[u32]>::to_vec).collect(), prefix })
}

/// What the words of a file say.
struct Parts<'a> {
    /// The literals of each clause as they stand, and as a set unless a variable stands twice.
    lists: Vec<&'a [u32]>,
    sets: Vec<Option<Literals>>,
    prefix_start: usize,
    /// The weights, two a variable.
    pairs: &'a [u32],
    prefix: Vec<Quantifier>,
    rest: Vec<u128>,
}

/// The parts of a file of so many bytes, or its refusal.
fn parts(reader: Reader, len: usize, words: &[u32]) -> Result<Parts<'_>, Fault> {
    if !len.is_multiple_of(4) || len < 16 || len > reader.bytes {
        return Err((1, None));
    }
    let (body, trailer) = words.split_at(words.len() - 4);
    let [m, n, start, count] = [trailer[0], trailer[1], trailer[2], trailer[3]];
    if count as usize != words.len() {
        return Err((2, None));
    }
    if n > reader.variables || m > reader.clauses {
        return Err((3, None));
    }
    if u64::from(start) + 2 * u64::from(n) != body.len() as u64 {
        return Err((4, None));
    }

    let (mut left, pairs) = body.split_at(start as usize);
    let mut lists = Vec::new();
    for clause in 0..m as usize {
        let Some((&k, after)) = left.split_first() else {
            return Err((5, Some(clause)));
        };
        if k > n || k as usize > after.len() {
            return Err((5, Some(clause)));
        }
        let (literals, after) = after.split_at(k as usize);
        lists.push(literals);
        left = after;
    }
    if !left.is_empty() {
        return Err((5, Some(m as usize)));
    }

    // Each check covers all clauses before the next.
    let refuse = |number: u32, first: Option<usize>| match first {
        Some(clause) if !reader.left_out.contains(&number) => Err((number, Some(clause))),
        _ => Ok(()),
    };
    refuse(6, lists.iter().position(|list| list.iter().any(|&literal| literal >= 2 * n)))?;
    let sets: Vec<Option<Literals>> = lists.iter().map(|list| set_of(list)).collect();
    refuse(7, sets.iter().position(Option::is_none))?;
    let unordered = lists.iter().position(|list| !is_rising(list));
    refuse(23, unordered)?;
    // Clauses in order are equal where their sets are, which are compared sooner.
    refuse(26, if unordered.is_none() { first_copy(&sets) } else { first_copy(&lists) })?;

    let mut prefix = Vec::new();
    for (variable, pair) in pairs.chunks_exact(2).enumerate() {
        prefix.push(Quantifier::of([pair[0], pair[1]]).ok_or((8, Some(variable)))?);
    }

    let mut rest = vec![1u128];
    for quantifier in prefix.iter().rev() {
        // Every total is at least 1, so the product never falls again.
        let product = rest[rest.len() - 1] * quantifier.total();
        if product > LARGEST_WHOLE {
            return Err((9, None));
        }
        rest.push(product);
    }
    rest.reverse();
    Ok(Parts { lists, sets, prefix_start: start as usize, pairs, prefix, rest })
}

/// The set of these literals, or none if a variable stands twice or is not under 32.
pub fn set_of(list: &[u32]) -> Option<Literals> {
    let mut variables = 0u32;
    let mut set = 0;
    for &literal in list {
        let variable = 1u32.checked_shl(literal / 2)?;
        if variables & variable != 0 {
            return None;
        }
        variables |= variable;
        set |= 1u64 << literal;
    }
    Some(set)
}

/// Whether the variables of these literals rise; then none stands twice.
pub fn is_rising(list: &[u32]) -> bool {
    list.is_sorted_by(|before, after| before / 2 < after / 2)
}

/// The number of the first clause that equals an earlier one.
pub fn first_copy<T: Eq + Hash>(clauses: &[T]) -> Option<usize> {
    let mut seen = HashSet::with_capacity(clauses.len());
    clauses.iter().position(|clause| !seen.insert(clause))
}

/// The clauses of a rule file in order, each with its literals as they stand, or the file's refusal.
pub fn clauses(bytes: &[u8]) -> Result<Vec<Vec<u32>>, Fault> {
    draft_by(BENCH, bytes).map(|draft| draft.clauses)
}
