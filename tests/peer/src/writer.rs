//! The writer: document 02's walk of the tree, true side first, which writes a derivation; and derivations before they
//! are written.
//!
//! The walk ends where a limit is passed. It cannot go on for long without a line: the clause of the rule file that is
//! named at a node has a literal of the last variable that the node sets, else it would have been lost before, so only
//! lines serve for the node above. Each open node that the walk leaves has therefore written a line under it.

use crate::rules::Rules;
use crate::{level, literals_of, opposites, to_bytes, Literals};

/// A derivation line before it is written.
#[derive(Clone, Debug)]
pub struct LineDraft {
    pub literals: Vec<u32>,
    pub value: u64,
    /// Variable, true-side parent and false-side parent of a kind 2 line.
    pub resolved: Option<[u32; 3]>,
}

impl LineDraft {
    pub fn word_count(&self) -> usize {
        4 + self.literals.len() + if self.resolved.is_some() { 3 } else { 0 }
    }
}

/// A derivation before it is written.
#[derive(Clone, Debug)]
pub struct DerivationDraft {
    pub lines: Vec<LineDraft>,
    pub closing: u32,
}

impl DerivationDraft {
    pub fn words(&self) -> Vec<u32> {
        let mut words = Vec::new();
        for line in &self.lines {
            words.extend([if line.resolved.is_some() { 2 } else { 1 }, line.literals.len() as u32]);
            words.extend(&line.literals);
            words.extend([line.value as u32, (line.value >> 32) as u32]);
            words.extend(line.resolved.into_iter().flatten());
        }
        let count = words.len() as u32 + 3;
        words.extend([self.lines.len() as u32, self.closing, count]);
        words
    }

    pub fn bytes(&self) -> Vec<u8> {
        to_bytes(&self.words())
    }
}

/// The most that may be written.
#[derive(Clone, Copy, Debug)]
pub struct Limits {
    /// Bytes, with those of the trailer.
    pub bytes: usize,
    pub lines: usize,
}

impl Limits {
    /// Document 02's limits for a lent buffer of so many bytes.
    pub fn for_buffer(capacity: usize) -> Limits {
        Limits { bytes: capacity.min(65_536), lines: 1_024 }
    }
}

/// What stands for a node.
#[derive(Clone, Copy, Debug)]
pub enum Node {
    /// The clause or line of this reference.
    Closed(u32),
    /// A kind 1 line with these literals, to be written.
    Blocked(Literals),
    /// What the walk of its two sides gives.
    Open,
}

/// Writes lines over an accepted rule file.
pub struct Writer<'a> {
    pub rules: &'a Rules,
    pub limits: Limits,
    lines: Vec<(Literals, LineDraft)>,
    /// The bytes of the lines and the trailer.
    bytes: usize,
}

impl<'a> Writer<'a> {
    pub fn new(rules: &'a Rules, limits: Limits) -> Writer<'a> {
        Writer { rules, limits, lines: Vec::new(), bytes: 12 }
    }

    /// The sets of literals of the lines.
    pub fn sets(&self) -> impl ExactSizeIterator<Item = Literals> + '_ {
        self.lines.iter().map(|line| line.0)
    }

    /// The set and the value of what a reference names.
    fn named(&self, reference: u32) -> (Literals, u128) {
        let number = (reference / 2) as usize;
        if reference.is_multiple_of(2) {
            (self.rules.clauses[number], 0)
        } else {
            (self.lines[number].0, self.lines[number].1.value.into())
        }
    }

    /// Writes a line: its reference, or none if a limit is passed.
    fn write(&mut self, set: Literals, value: u128, resolved: Option<[u32; 3]>) -> Option<u32> {
        let line = LineDraft { literals: literals_of(set).collect(), value: value as u64, resolved };
        let bytes = self.bytes + 4 * line.word_count();
        if self.lines.len() == self.limits.lines || bytes > self.limits.bytes {
            return None;
        }
        self.bytes = bytes;
        self.lines.push((set, line));
        Some(2 * self.lines.len() as u32 - 1)
    }

    /// Whether each clause has the opposite of one of these literals.
    pub fn is_blocking(&self, set: Literals) -> bool {
        self.rules.clauses.iter().all(|clause| clause & opposites(set) != 0)
    }

    pub fn write_blocking(&mut self, set: Literals) -> Option<u32> {
        self.write(set, self.rules.rest[level(set)], None)
    }

    /// The reference of the resolvent's line; none if a limit is passed or the two cannot be resolved.
    pub fn write_resolvent(&mut self, on_true: u32, on_false: u32) -> Option<u32> {
        let ((true_side, p), (false_side, q)) = (self.named(on_true), self.named(on_false));
        let v = level(true_side).checked_sub(1)?;
        let (positive, negative) = (1 << (2 * v), 1 << (2 * v + 1));
        if level(false_side) != v + 1 || true_side & negative == 0 || false_side & positive == 0 {
            return None;
        }
        let set = true_side & !negative | false_side & !positive;
        if set & opposites(set) != 0 {
            return None;
        }
        let value = self.rules.prefix[v].join(p, q) * self.rules.rest[level(set)] / self.rules.rest[v];
        self.write(set, value, Some([v as u32, on_true, on_false]))
    }

    /// Document 02 on the node where these literals are false: the first lost clause; where all clauses are met, the
    /// opposites of the whole path. Clauses that clash do not close it: neither of them is lost.
    pub fn node(&self, falsehoods: Literals) -> Node {
        let lost = self.rules.clauses.iter().position(|clause| clause & !falsehoods == 0);
        match lost {
            Some(clause) => Node::Closed(2 * clause as u32),
            None if self.is_blocking(falsehoods) => Node::Blocked(falsehoods),
            None => Node::Open,
        }
    }

    /// Walks the tree under the node of level `i` where these literals are false: the reference of what stands for it,
    /// or none if a limit is passed. `node` tells what stands for a node by itself.
    fn walk(&mut self, i: usize, falsehoods: Literals, node: &impl Fn(&Writer<'a>, Literals) -> Node) -> Option<u32> {
        match node(self, falsehoods) {
            Node::Closed(reference) => return Some(reference),
            Node::Blocked(set) => return self.write_blocking(set),
            Node::Open => {}
        }
        let (positive, negative) = (1 << (2 * i), 1 << (2 * i + 1));
        let on_true = self.walk(i + 1, falsehoods | negative, node)?;
        if self.named(on_true).0 & negative == 0 {
            return Some(on_true);
        }
        let on_false = self.walk(i + 1, falsehoods | positive, node)?;
        if self.named(on_false).0 & positive == 0 {
            return Some(on_false);
        }
        self.write_resolvent(on_true, on_false)
    }

    /// Writes the lines for the whole tree, with `node` to tell what stands for a node by itself: the closing
    /// reference, or none if a limit is passed.
    pub fn walk_with(&mut self, node: &impl Fn(&Writer<'a>, Literals) -> Node) -> Option<u32> {
        if self.bytes > self.limits.bytes {
            return None;
        }
        self.walk(0, 0, node)
    }

    pub fn finish(self, closing: u32) -> DerivationDraft {
        DerivationDraft { lines: self.lines.into_iter().map(|line| line.1).collect(), closing }
    }
}

/// The derivation that document 02's walk writes, or none if it passes a limit.
pub fn derivation(rules: &Rules, limits: Limits) -> Option<DerivationDraft> {
    let mut writer = Writer::new(rules, limits);
    let closing = writer.walk_with(&Writer::node)?;
    Some(writer.finish(closing))
}

/// Its bytes for a lent buffer of so many.
pub fn derive(rules: &Rules, capacity: usize) -> Option<Vec<u8>> {
    derivation(rules, Limits::for_buffer(capacity)).map(|draft| draft.bytes())
}
