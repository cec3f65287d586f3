//! Rule files as they were stored before document 02 fixed the order inside a clause and forbade copies: sound ones,
//! each made from the file that its repair must give, and damaged ones.

use super::{
    clause, damage_rule, long_rule, noise, often_at_an_end, rule, small_rule, unorder, with_faults, RuleDraft,
};
use crate::random::Random;
use crate::repair::{repair, Mended};
use crate::rules::REFUSALS;

/// A stored rule file, and what its repair must give.
#[derive(Clone, Debug)]
pub struct StoredDraft {
    pub stored: RuleDraft,
    pub repaired: RuleDraft,
    /// Clauses dropped, literals dropped from kept clauses, kept clauses reordered.
    pub counts: [u64; 3],
}

/// Puts a repeat of a literal of the clause, which has one, somewhere after it, often next to it.
fn repeat(random: &mut Random, clause: &mut Vec<u32>) {
    let at = random.within(1, clause.len());
    let from = if random.once_in(2) { at - 1 } else { random.below(at) };
    clause.insert(at, clause[from]);
}

/// A clause of 2 to `n` literals that holds a variable and its opposite, perhaps with repeats.
fn opposed(random: &mut Random, n: usize) -> Vec<u32> {
    let k = if random.once_in(2) { n.min(3) } else { random.within(2, n) };
    let different = random.within(1, k - 1);
    let mut list = clause(random, n, different);
    let mut turned = 1;
    while list.len() < k {
        let literal = list[random.below(list.len())] ^ turned;
        list.insert(random.below(list.len() + 1), literal);
        turned = random.below(2) as u32;
    }
    match random.below(4) {
        0 => list.sort_unstable(),
        1 => random.shuffle(&mut list),
        _ => {}
    }
    list
}

/// How many clauses of four are put out of order, and given repeats.
#[derive(Clone, Copy)]
struct Spoiling {
    order: usize,
    repeats: usize,
}

impl Spoiling {
    /// A clause of these literals, which rise, and what becomes of it where it is kept.
    fn clause(self, random: &mut Random, kept: &[u32], n: usize) -> (Vec<u32>, Mended) {
        let mut list = kept.to_vec();
        if random.below(4) < self.order {
            if random.once_in(3) {
                random.shuffle(&mut list);
            } else {
                unorder(random, [&mut list].into_iter());
            }
        }
        let mut counts = [0, 0, u64::from(list != kept)];
        if random.below(4) < self.repeats && !list.is_empty() {
            counts[1] = random.within(0, n - list.len()) as u64;
            (0..counts[1]).for_each(|_| repeat(random, &mut list));
        }
        (list, Mended { literals: Some(kept.to_vec()), counts })
    }
}

/// A valid rule file whose clauses are put out of order and given repeats, with clauses that hold opposites between
/// them or in their place, and with copies of all these after them: as much of it as makes at most 1,024 clauses and
/// 65,536 bytes.
pub fn spoil(random: &mut Random, rule: RuleDraft) -> StoredDraft {
    let n = rule.prefix.len();
    // In how many clauses of four.
    let [order, repeats, opposites] = [(); 3].map(|()| random.pick(&[0, 0, 1, 2, 3, 4]));
    let copies = random.pick(&[0, 0, 0, 1, 2, 4]);
    let spoiling = Spoiling { order, repeats };
    let none_kept = random.once_in(8);
    // Each clause with what must become of it.
    let mut clauses: Vec<(Vec<u32>, Mended)> = Vec::new();
    for kept in rule.clauses {
        let is_opposed = n > 1 && (none_kept || random.below(4) < opposites);
        let mut dropped = is_opposed.then(|| (opposed(random, n), Mended::DROPPED));
        if none_kept || random.once_in(2) {
            clauses.extend(dropped.take());
        }
        if !none_kept {
            clauses.push(spoiling.clause(random, &kept, n));
            clauses.extend(dropped);
        }
        if !clauses.is_empty() && random.below(4) < copies {
            // As the first stands, or spoiled anew; of a copy too.
            let (list, mended) = &clauses[often_at_an_end(random, clauses.len())];
            let copy = match &mended.literals {
                Some(kept) if random.once_in(2) => spoiling.clause(random, kept, n).0,
                _ => list.clone(),
            };
            clauses.push((copy, Mended::DROPPED));
        }
    }

    let empty = RuleDraft { clauses: Vec::new(), prefix: rule.prefix };
    let mut draft = StoredDraft { stored: empty.clone(), repaired: empty, counts: [0; 3] };
    let mut words = 4 + 2 * n;
    for (list, mended) in clauses.into_iter().take(1_024) {
        words += 1 + list.len();
        if words > 16_384 {
            break;
        }
        draft.stored.clauses.push(list);
        draft.repaired.clauses.extend(mended.literals);
        draft.counts.iter_mut().zip(mended.counts).for_each(|(count, more)| *count += more);
    }
    draft
}

/// A stored rule file of at most `most` variables.
pub fn small_stored_rule(random: &mut Random, most: usize) -> StoredDraft {
    let rule = small_rule(random, most);
    spoil(random, rule)
}

/// A stored rule file, most often of at most 7 variables, else of up to 32 variables and 1,024 clauses.
pub fn stored_rule(random: &mut Random) -> StoredDraft {
    let rule = match random.below(40) {
        0 => long_rule(random),
        1..6 => {
            let n = if random.once_in(4) { 32 } else { random.within(8, 32) };
            let m = random.within(0, 2 * n);
            rule(random, n, m)
        }
        6..12 => small_rule(random, 12),
        _ => small_rule(random, 7),
    };
    spoil(random, rule)
}

/// A stored rule file as it is or damaged: with one of the reader's faults or more, with clauses that repeats make
/// longer than n, or anywhere; sometimes noise.
pub fn stored_file(random: &mut Random) -> Vec<u8> {
    let mut draft = stored_rule(random).stored;
    match random.below(20) {
        0..8 => draft.bytes(),
        8..15 => {
            let mut faults = REFUSALS.to_vec();
            random.shuffle(&mut faults);
            let count = random.pick(&[1, 1, 2, 3]);
            with_faults(random, draft, &faults[..count])
        }
        15 | 16 => {
            let (n, m) = (draft.prefix.len(), draft.clauses.len());
            for _ in 0..random.within(1, 3) {
                let length = n + random.pick(&[0, 1, 1, 2]);
                if let Some(list) = draft.clauses.get_mut(random.below(m.max(1))).filter(|list| !list.is_empty()) {
                    while list.len() < length {
                        repeat(random, list);
                    }
                }
            }
            draft.bytes()
        }
        17 | 18 => {
            let mut bytes = draft.bytes();
            damage_rule(random, &mut bytes);
            bytes
        }
        _ => noise(random),
    }
}

/// Lengths of a buffer for the repair of a file, rising: none, those about the file's own, that of the new file, one
/// between and one over.
pub fn buffer_lengths(random: &mut Random, rule: &[u8]) -> Vec<usize> {
    let len = rule.len();
    let between = random.below(len + 1);
    let new = repair(rule, len).map_or(between, |repaired| repaired.written.len());
    let over = len + random.within(2, 99);
    let mut lengths = vec![0, between, new, len.saturating_sub(4), len.saturating_sub(1), len, len + 1, over];
    lengths.sort_unstable();
    lengths.dedup();
    lengths
}
