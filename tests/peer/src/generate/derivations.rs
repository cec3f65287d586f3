//! Derivations, valid and damaged.

use super::{damage_length, harmful, unorder};
use crate::random::Random;
use crate::rules::{set_of, Rules};
use crate::writer::{DerivationDraft, Limits, LineDraft, Node, Writer};
use crate::{level, literals_of, opposites, to_bytes, to_words, Literals};

/// What a free derivation does otherwise than document 02's walk.
#[derive(Clone, Copy, Debug, Default)]
pub struct Freedom {
    /// Lets a line that stands already serve for a node.
    pub reuse: bool,
    /// Leaves literals out of kind 1 lines where the rest is enough.
    pub trim: bool,
}

impl Freedom {
    /// The literals of a kind 1 line, as many as are kept.
    fn kept(self, writer: &Writer, mut set: Literals) -> Literals {
        if self.trim {
            let literals: Vec<u32> = literals_of(set).collect();
            for literal in literals.into_iter().rev() {
                if writer.is_blocking(set & !(1 << literal)) {
                    set &= !(1 << literal);
                }
            }
        }
        set
    }

    /// What stands for the node where these literals are false.
    fn node(self, writer: &Writer, falsehoods: Literals) -> Node {
        let plain = writer.node(falsehoods);
        if let Node::Closed(_) = plain {
            return plain;
        }
        let serving = |set: Literals| self.reuse && set & !falsehoods == 0;
        match (writer.sets().position(serving), plain) {
            (Some(line), _) => Node::Closed(2 * line as u32 + 1),
            (None, Node::Blocked(set)) => Node::Blocked(self.kept(writer, set)),
            _ => plain,
        }
    }

    /// Tries to write up to `count` valid lines that need serve for nothing.
    pub fn wander(self, random: &mut Random, writer: &mut Writer, count: usize) {
        let m = writer.rules.clauses.len();
        let reference = |random: &mut Random, writer: &Writer| {
            let at = random.below(m + writer.sets().len());
            (if at < m { 2 * at } else { 2 * (at - m) + 1 }) as u32
        };
        for _ in 0..count {
            if random.once_in(3) {
                let mut set = 0;
                for v in 0..writer.rules.n() {
                    if !random.once_in(6) {
                        set |= 1 << (2 * v + random.below(2));
                    }
                }
                if writer.is_blocking(set) {
                    writer.write_blocking(self.kept(writer, set));
                }
            } else if m + writer.sets().len() > 0 {
                let (on_true, on_false) = (reference(random, writer), reference(random, writer));
                writer.write_resolvent(on_true, on_false);
            }
        }
    }
}

/// An acceptable derivation with some freedom: kind 1 lines without needless literals, lines that serve twice or not at
/// all. None if it passes a limit.
pub fn free_derivation(random: &mut Random, rules: &Rules, limits: Limits) -> Option<DerivationDraft> {
    let mut writer = Writer::new(rules, limits);
    let freedom = Freedom { reuse: random.once_in(2), trim: random.once_in(2) };
    if random.once_in(3) {
        let count = random.within(0, 12);
        freedom.wander(random, &mut writer, count);
    }
    let closing = writer.walk_with(&|writer: &Writer, falsehoods| freedom.node(writer, falsehoods))?;
    if random.once_in(3) {
        let count = random.within(0, 12);
        freedom.wander(random, &mut writer, count);
    }
    Some(writer.finish(closing))
}

/// Adds a line that resolves two parents, taken at random, on any variable: its literals and
/// value are what a check would expect that looks neither for the variable in the parents nor
/// for variables after it.
fn add_loose_line(random: &mut Random, rules: &Rules, draft: &mut DerivationDraft) -> Option<()> {
    let (m, n) = (rules.clauses.len(), rules.n());
    let mut parent = || {
        let at = random.below((m + draft.lines.len()).max(1));
        if at < m {
            return Some((2 * at as u32, rules.clauses[at], 0));
        }
        let line = draft.lines.get(at - m)?;
        Some((2 * (at - m) as u32 + 1, set_of(&line.literals)?, u128::from(line.value)))
    };
    let (on_true, true_side, p) = parent()?;
    let (on_false, false_side, q) = parent()?;
    let v = random.below(n.max(1));
    let set = true_side & !(2 << (2 * v)) | false_side & !(1 << (2 * v));
    if n == 0 || level(set) > n || set & opposites(set) != 0 {
        return None;
    }
    let mut value = rules.prefix[v].join(p, q);
    if level(set) < v {
        value = value.wrapping_mul(rules.rest[level(set)] / rules.rest[v]);
    }
    let resolved = Some([v as u32, on_true, on_false]);
    draft.lines.push(LineDraft { literals: literals_of(set).collect(), value: value as u64, resolved });
    Some(())
}

/// The literals of one parent of a kind 2 line, without the variable that is resolved.
fn of_one_parent(random: &mut Random, rules: &Rules, draft: &DerivationDraft, line: usize) -> Option<Vec<u32>> {
    let [v, on_true, on_false] = draft.lines[line].resolved?;
    let reference = if random.once_in(2) { on_true } else { on_false };
    let number = (reference / 2) as usize;
    let set = if reference.is_multiple_of(2) {
        *rules.clauses.get(number)?
    } else {
        set_of(&draft.lines.get(number)?.literals)?
    };
    Some(literals_of(set).filter(|literal| literal / 2 != v).collect())
}

/// Puts a fault of the given number (15 to 21) into a draft, as far as its shape allows. The
/// fault may bring another number with it. Returns the words.
pub fn faulty_derivation(random: &mut Random, rules: &Rules, draft: &mut DerivationDraft, fault: u32) -> Vec<u32> {
    let n = rules.n() as u32;
    let m = rules.clauses.len() as u32;
    let count = draft.lines.len();
    let of_kind = |kind: usize, draft: &DerivationDraft| -> Vec<usize> {
        (0..count).filter(|&at| draft.lines[at].resolved.is_some() == (kind == 2)).collect()
    };
    match fault {
        16 if random.once_in(3) => {
            unorder(random, draft.lines.iter_mut().map(|line| &mut line.literals));
        }
        16 if count > 0 && n > 0 => {
            let line = &mut draft.lines[random.below(count)];
            let near = 2 * n + random.below(70) as u32;
            let large = random.pick(&[2 * n, 2 * n + 1, near, 1 << 31, u32::MAX]);
            let at = random.below(line.literals.len() + 1);
            if random.once_in(2) && at < line.literals.len() {
                line.literals[at] = large;
            } else if !line.literals.is_empty() && random.once_in(2) {
                let twin = line.literals[0] ^ random.below(2) as u32;
                line.literals.insert(at, twin);
            } else {
                line.literals.insert(at, large);
            }
        }
        19 if random.once_in(2) => {
            for _ in 0..random.within(1, 4) {
                add_loose_line(random, rules, draft);
            }
        }
        19 if random.once_in(4) => {
            let lines = of_kind(2, draft);
            if !lines.is_empty() {
                let at = random.pick(&lines);
                if let Some(literals) = of_one_parent(random, rules, draft, at) {
                    draft.lines[at].literals = literals;
                }
            }
        }
        17 | 19 => {
            let lines = of_kind(if fault == 17 { 1 } else { 2 }, draft);
            if !lines.is_empty() {
                let line = &mut draft.lines[random.pick(&lines)];
                let at = random.below(line.literals.len() + 1);
                match random.below(5) {
                    0 if at < line.literals.len() => {
                        line.literals.remove(at);
                    }
                    1 if at < line.literals.len() => line.literals[at] ^= 1,
                    2 if n > 0 => line.literals.insert(at, random.below(2 * n as usize) as u32),
                    3 if n > 0 && at < line.literals.len() => line.literals[at] = random.below(2 * n as usize) as u32,
                    _ => {
                        if let Some([v, on_true, on_false]) = &mut line.resolved {
                            match random.below(3) {
                                0 => std::mem::swap(on_true, on_false),
                                1 if n > 0 => *v = random.below(n as usize) as u32,
                                _ => *(if random.once_in(2) { on_true } else { on_false }) ^= 1 << random.below(3),
                            }
                        }
                    }
                }
                // In order, so that it is not the order's fault.
                line.literals.sort_unstable();
                // Sometimes the value fits the new level, so that it is not the value's fault.
                if fault == 17 && random.once_in(2) {
                    let set = set_of(&line.literals).filter(|set| level(*set) <= rules.n());
                    line.value = set.map_or(line.value, |set| rules.rest[level(set)] as u64);
                }
            }
        }
        18 => {
            let lines = of_kind(2, draft);
            if !lines.is_empty() {
                let own = random.pick(&lines);
                let line = &mut draft.lines[own];
                let [v, on_true, on_false] = line.resolved.as_mut().unwrap();
                match random.below(4) {
                    0 => *v = random.pick(&[n, n + 1, 1 << 31, u32::MAX]),
                    at => {
                        let parent = if at == 1 { on_true } else { on_false };
                        let own = own as u32;
                        *parent = random.pick(&[
                            2 * own + 1,
                            2 * own + 3,
                            2 * count as u32 + 1,
                            2 * m,
                            2 * m + 2,
                            u32::MAX,
                            u32::MAX - 1,
                        ]);
                    }
                }
            }
        }
        20 if count > 0 => {
            let line = &mut draft.lines[random.below(count)];
            line.value = match random.below(7) {
                0 => line.value.wrapping_add(1),
                1 => line.value.wrapping_sub(1),
                2 => line.value.wrapping_add(1 << 32),
                3 => line.value.rotate_left(32),
                4 => line.value.wrapping_mul(2),
                5 => rules.whole() as u64,
                _ => 0,
            };
        }
        21 => {
            let count = count as u32;
            draft.closing = match random.below(4) {
                0 => random.pick(&[2 * m, 2 * m + 2, 2 * count + 1, 2 * count + 3, u32::MAX, u32::MAX - 1]),
                1 => 2 * random.below(count as usize + 1) as u32 + 1,
                2 => 2 * random.below(m as usize + 1) as u32,
                _ => draft.closing ^ 1,
            };
        }
        _ => {}
    }
    let mut words = draft.words();
    if fault == 15 {
        let trailer = words.len() - 3;
        match random.below(6) {
            0 => words[trailer] = words[trailer].wrapping_sub(1),
            1 => words[trailer] = (count + random.within(1, 1_024 - count.min(1_023))) as u32,
            2 => {
                let extra = random.within(1, 4);
                for _ in 0..extra {
                    words.insert(trailer, random.below(3) as u32);
                }
                *words.last_mut().unwrap() += extra as u32;
            }
            3 if trailer > 0 => {
                words.remove(random.below(trailer));
                *words.last_mut().unwrap() -= 1;
            }
            _ if count > 0 => {
                let before = &draft.lines[..random.below(count)];
                let at = before.iter().map(LineDraft::word_count).sum::<usize>() + random.below(2);
                words[at] = random.pick(&[0, 1, 2, 3, n, n + 1, 32, 33, 1 << 31, u32::MAX, u32::MAX - 1]);
            }
            _ => words[trailer] += 1,
        }
    }
    words
}

/// Damages the bytes of a derivation in one place.
pub fn damage_derivation(random: &mut Random, bytes: &mut Vec<u8>) {
    let mut words = to_words(bytes);
    let count = words.len();
    match random.below(12) {
        0 => return damage_length(random, bytes),
        1 => {
            let at = count - 1 - random.below(3.min(count));
            words[at] = harmful(random, words[at]);
        }
        2 => {
            let (a, b) = (random.below(count), random.below(count));
            words.swap(a, b);
        }
        3 => {
            let (a, b) = (random.below(count), random.below(count));
            words[a] = words[b];
        }
        4 if count > 2 => {
            words[count - 3] = random.pick(&[1_024, 1_025, 1_026, 65_536, 1 << 31, u32::MAX]);
        }
        _ => {
            let at = random.below(count);
            words[at] = harmful(random, words[at]);
        }
    }
    *bytes = to_bytes(&words);
}
