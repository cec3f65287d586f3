//! Random rule files, valid and damaged.

use super::{copy_clauses, damage_length, drop_copies, harmful, often_at_an_end, unorder, RuleDraft};
use crate::random::Random;
use crate::rules::LARGEST_WHOLE;
use crate::{to_bytes, to_words};

/// How existential and randomized variables follow each other.
#[derive(Clone, Copy, Debug, PartialEq, Eq)]
pub enum Pattern {
    Existential,
    Randomized,
    Alternating,
    /// Blocks of this many variables of one quantifier.
    Blocked(usize),
    Mixed,
}

/// Which of `n` variables are randomized.
pub fn randomized(random: &mut Random, n: usize, pattern: Pattern) -> Vec<bool> {
    let first = random.once_in(2);
    let is_randomized = |i: usize| match pattern {
        Pattern::Existential => false,
        Pattern::Randomized => true,
        Pattern::Alternating => first ^ (i % 2 == 1),
        Pattern::Blocked(size) => first ^ (i / size % 2 == 1),
        Pattern::Mixed => random.once_in(2),
    };
    (0..n).map(is_randomized).collect()
}

/// A prefix whose whole is at most 2^60.
pub fn prefix(random: &mut Random, n: usize, pattern: Pattern) -> Vec<[u32; 2]> {
    let most = random.pick(&[1, 4, 4, 20, 1_000, 65_535]);
    let mut pairs: Vec<[u32; 2]> = Vec::new();
    for is_randomized in randomized(random, n, pattern) {
        let mut weight = || random.within(1, most) as u32;
        pairs.push(if is_randomized { [weight(), weight()] } else { [0, 0] });
    }
    while whole(&pairs) > LARGEST_WHOLE {
        let at = random.below(n);
        if pairs[at] != [0, 0] {
            pairs[at] = pairs[at].map(|weight| weight / 2 + 1);
            if random.once_in(2) {
                pairs[at] = [1, 1];
            }
        }
    }
    pairs
}

/// The whole of a prefix, or some number over 2^60.
pub fn whole(pairs: &[[u32; 2]]) -> u128 {
    let total = |pair: &[u32; 2]| (u128::from(pair[0]) + u128::from(pair[1])).max(1);
    pairs.iter().fold(1, |product, pair| if product > LARGEST_WHOLE { product } else { product * total(pair) })
}

/// Literals of `k` different variables, half of the time rising, else in any order.
fn literals(random: &mut Random, n: usize, k: usize) -> Vec<u32> {
    let mut variables: Vec<u32> = (0..n as u32).collect();
    random.shuffle(&mut variables);
    variables.truncate(k);
    if random.once_in(2) {
        variables.sort_unstable();
    }
    variables.iter().map(|v| 2 * v + random.below(2) as u32).collect()
}

/// A clause of `k` different variables, rising.
pub fn clause(random: &mut Random, n: usize, k: usize) -> Vec<u32> {
    let mut clause = literals(random, n, k);
    clause.sort_unstable();
    clause
}

/// Any pattern, most often a mixed one.
pub fn pattern(random: &mut Random) -> Pattern {
    let size = random.within(1, 5);
    random.pick(&[
        Pattern::Existential,
        Pattern::Randomized,
        Pattern::Alternating,
        Pattern::Blocked(size),
        Pattern::Mixed,
        Pattern::Mixed,
    ])
}

/// A valid rule file of `n` variables, most of its clauses short: `m` of them, less the copies among these.
pub fn rule(random: &mut Random, n: usize, m: usize) -> RuleDraft {
    let pattern = pattern(random);
    let usual = random.within(1, 3);
    let odd = random.pick(&[4, 20, 200]);
    let mut clauses = Vec::new();
    for _ in 0..m {
        let k = if !random.once_in(odd) {
            usual.min(n)
        } else if random.once_in(4) {
            0
        } else {
            random.within(n.min(1), n)
        };
        clauses.push(clause(random, n, k));
    }
    drop_copies(&mut clauses);
    RuleDraft { clauses, prefix: prefix(random, n, pattern) }
}

/// A valid rule file of at most `most` variables.
pub fn small_rule(random: &mut Random, most: usize) -> RuleDraft {
    let n = random.within(0, most);
    let m = match random.below(8) {
        0 => random.within(0, 2),
        1..=5 => random.within(0, 2 * n),
        _ => random.within(0, 4 * n),
    };
    rule(random, n, m)
}

/// A valid rule file of `n` variables, at least one, in which clauses clash or nearly do. Besides up to `m` clauses it
/// has pairs of one clause and another that is the same but for mostly one literal, which is turned to its opposite:
/// the two clash where all their other literals are false. Sometimes the second has a literal more, or another one
/// turned too, so that it is satisfied there.
pub fn clashing_rule(random: &mut Random, n: usize, m: usize) -> RuleDraft {
    let mut draft = rule(random, n, m);
    for _ in 0..random.within(1, 4) {
        let k = random.within(1, n.min(4));
        let first = clause(random, n, k);
        let mut second = first.clone();
        for _ in 0..random.pick(&[0, 1, 1, 1, 1, 2]) {
            second[often_at_an_end(random, k)] ^= 1;
        }
        let literal = random.below(2 * n) as u32;
        if random.once_in(4) && second.iter().all(|other| other / 2 != literal / 2) {
            second.push(literal);
            second.sort_unstable();
        }
        draft.clauses.extend([first, second]);
    }
    drop_copies(&mut draft.clauses);
    random.shuffle(&mut draft.clauses);
    draft
}

/// The same with at most `most` variables and few other clauses.
pub fn small_clashing_rule(random: &mut Random, most: usize) -> RuleDraft {
    let n = random.within(1, most);
    let m = random.within(0, n);
    clashing_rule(random, n, m)
}

/// A valid rule file with up to 32 variables and up to 1,024 clauses, of at most 65,536 bytes.
/// The first variables have clauses of one literal, so that the tree stays narrow.
pub fn long_rule(random: &mut Random) -> RuleDraft {
    let n = random.within(8, 32);
    let m = random.pick(&[20, 100, 500, 1_000, 1_024]);
    let mut draft = rule(random, n, m);
    let longest = random.pick(&[3, 8, 14]);
    for clause in &mut draft.clauses {
        if clause.is_empty() || random.once_in(3) {
            let k = random.within(1, longest.min(n));
            *clause = self::clause(random, n, k);
        }
    }
    let narrow = n.saturating_sub(random.within(4, 8));
    for (v, clause) in draft.clauses.iter_mut().take(narrow).enumerate() {
        *clause = vec![2 * v as u32 + random.below(2) as u32];
    }
    drop_copies(&mut draft.clauses);
    // In the place of those that were copies: there are over 3,000 clauses of one to five literals over 8 variables.
    while draft.clauses.len() < m {
        while draft.clauses.len() < m {
            let k = random.within(1, longest.clamp(5, n));
            draft.clauses.push(self::clause(random, n, k));
        }
        drop_copies(&mut draft.clauses);
    }
    random.shuffle(&mut draft.clauses);
    while draft.words().len() > 16_384 {
        draft.clauses.pop();
    }
    draft
}

/// Limits of verdicts that ask for a value exactly: both at it, both one beside it, and one of them or both beside it.
pub fn limits_around(value: u64, whole: u64) -> Vec<(u64, u64)> {
    let (under, over) = (value.checked_sub(1), Some(value + 1).filter(|over| *over <= whole));
    let at = Some(value);
    let pairs = [
        (at, at),
        (under, under),
        (over, over),
        (under, over),
        (under, at),
        (at, over),
        (Some(0), under),
        (over, Some(whole)),
    ];
    pairs.into_iter().filter_map(|(lo, hi)| Some((lo?, hi?))).collect()
}

/// Damages the bytes of a rule file in one place.
pub fn damage_rule(random: &mut Random, bytes: &mut Vec<u8>) {
    let mut words = to_words(bytes);
    let count = words.len();
    if count < 4 || random.once_in(10) {
        damage_length(random, bytes);
        return;
    }
    match random.below(8) {
        // Any word.
        0..=2 => {
            let at = random.below(count);
            words[at] = harmful(random, words[at]);
        }
        // A word of the trailer.
        3 => {
            let at = count - 1 - random.below(4);
            words[at] = harmful(random, words[at]);
        }
        // A word more or less before the trailer, with a trailer that fits or nearly does.
        4 | 5 => {
            let at = random.below(count - 3);
            let change = if random.once_in(2) || count == 4 {
                words.insert(at, random.below(8) as u32);
                1
            } else {
                words.remove(at.min(count - 5));
                u32::MAX
            };
            let end = words.len();
            words[end - 1] = words[end - 1].wrapping_add(change);
            if random.once_in(2) {
                words[end - 2] = words[end - 2].wrapping_add(change);
            }
            if random.once_in(4) {
                words[end - 4] = words[end - 4].wrapping_add(change);
            }
        }
        // Two words exchanged, often neighbours.
        6 => {
            let a = random.below(count);
            let b = if random.once_in(2) { (a + 1) % count } else { random.below(count) };
            words.swap(a, b);
        }
        // One word copied over another.
        _ => {
            let (a, b) = (random.below(count), random.below(count));
            words[a] = words[b];
        }
    }
    *bytes = to_bytes(&words);
}

/// A rule file with the faults of the given numbers, all of them the reader's, as far as its shape allows.
pub fn faulty_rule(random: &mut Random, faults: &[u32]) -> Vec<u8> {
    let n = random.within(0, 9);
    let m = random.within(0, 2 * n + 2);
    let mut draft = rule(random, n, m);
    for clause in &mut draft.clauses {
        if clause.is_empty() && n > 0 && random.once_in(2) {
            clause.push(random.below(2 * n) as u32);
        }
    }
    drop_copies(&mut draft.clauses);
    with_faults(random, draft, faults)
}

/// A valid rule file with these faults put into it, as far as its shape allows.
pub fn with_faults(random: &mut Random, mut draft: RuleDraft, faults: &[u32]) -> Vec<u8> {
    let n = draft.prefix.len();
    let bound = 2 * n as u32;
    let has = |fault: u32| faults.contains(&fault);
    // First, so that the faults below come to copies too.
    if has(26) {
        if draft.clauses.is_empty() {
            draft.clauses.push(Vec::new());
        }
        copy_clauses(random, &mut draft.clauses);
    }
    let m = draft.clauses.len();
    if has(9) {
        for pair in draft.prefix.iter_mut().take(random.within(4, 8)) {
            *pair = random.pick(&[[65_535, 65_535], [32_768, 32_768], [65_535, 1]]);
        }
    }
    // Often in several variables or clauses: the first of them is named.
    let times = random.within(1, 3);
    if has(8) && n > 0 {
        for _ in 0..times {
            let at = random.below(n);
            let weight = random.within(1, 65_535) as u32;
            let large = random.pick(&[65_536, 65_537, 131_072, 1 << 31, u32::MAX]);
            draft.prefix[at] = random.pick(&[
                [0, weight],
                [weight, 0],
                [large, weight],
                [weight, large],
                [large, large],
                [0, large],
                [large, 0],
            ]);
        }
    }
    if has(23) && m > 0 && n > 1 {
        // At least one clause of two literals: a shorter one is never out of order.
        let k = random.within(2, n);
        draft.clauses[random.below(m)] = clause(random, n, k);
        if random.once_in(4) {
            for clause in &mut draft.clauses {
                *clause = literals(random, n, clause.len());
            }
        } else {
            unorder(random, draft.clauses.iter_mut());
        }
    }
    if has(7) && m > 0 && n > 1 {
        for _ in 0..times {
            let clause = &mut draft.clauses[random.below(m)];
            if clause.is_empty() {
                clause.push(random.below(2 * n) as u32);
            }
            let twin = clause[random.below(clause.len())] ^ random.below(2) as u32;
            if clause.len() < n {
                clause.push(twin);
            } else {
                clause[0] = clause[1] ^ random.below(2) as u32;
            }
            match random.below(4) {
                0 => clause.sort_unstable(),
                1 | 2 => random.shuffle(clause),
                _ => {}
            }
        }
    }
    if has(6) && m > 0 && n > 0 {
        for _ in 0..times {
            let clause = &mut draft.clauses[random.below(m)];
            let near = bound + random.below(70) as u32;
            let large = random.pick(&[bound, bound + 1, near, 1 << 31, u32::MAX]);
            let at = random.below(clause.len() + 1);
            if clause.len() < n && random.once_in(2) {
                clause.insert(at, large);
            } else if let Some(last) = clause.len().checked_sub(1) {
                clause[at.min(last)] = large;
            }
        }
    }
    let mut words = draft.words();
    let count = words.len();
    if has(5) && m > 0 {
        match random.below(4) {
            0 => words[count - 4] -= 1,
            1 if m < 1_024 => words[count - 4] += random.within(1, 1_024 - m) as u32,
            _ => {
                for _ in 0..times {
                    let before = &draft.clauses[..random.below(m)];
                    let at: usize = before.iter().map(|clause| 1 + clause.len()).sum();
                    words[at] = harmful(random, words[at]);
                }
            }
        }
    }
    if has(4) {
        let twice = 2 * n as u32;
        words[count - 2] = match random.below(3) {
            0 => harmful(random, words[count - 2]),
            1 => words[count - 2].wrapping_sub(twice),
            _ => words[count - 2] ^ 1 << 31,
        };
    }
    if has(3) {
        if random.once_in(2) {
            words[count - 3] = random.pick(&[33, 34, 64, 1 << 31, u32::MAX, (1 << 31) + n as u32]);
        } else {
            words[count - 4] = random.pick(&[1_025, 1_026, 65_536, 1 << 31, u32::MAX]);
        }
    }
    if has(2) {
        words[count - 1] = harmful(random, words[count - 1]);
    }
    let mut bytes = to_bytes(&words);
    if has(1) {
        damage_length(random, &mut bytes);
    }
    bytes
}

/// A file of 32-bit words that looks like a rule file only at its end.
pub fn noise(random: &mut Random) -> Vec<u8> {
    let count = random.within(1, 40);
    let most = random.pick(&[2, 4, 8, 100]);
    let mut words: Vec<u32> = (0..count).map(|_| random.below(most) as u32).collect();
    words[count - 1] = count as u32;
    if count >= 4 && random.once_in(2) {
        let n = words[count - 3] as usize;
        words[count - 2] = (count as u32).wrapping_sub(4 + 2 * n as u32);
    }
    to_bytes(&words)
}
