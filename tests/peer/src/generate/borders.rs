//! Rule files about the small reader's limits, valid ones and damaged ones.

use super::{clause, damage_rule, pattern, prefix, with_faults, RuleDraft};
use crate::random::Random;
use crate::rules::{is_rising, REFUSALS};
use crate::to_bytes;
use std::collections::HashSet;

/// So many copies are drawn one after another before longer clauses are tried.
const MOST_COPIES: usize = 30;

/// A valid rule file of `n` variables and so many words, as far as 1,024 different clauses fill them. From six
/// variables on they fill 1,024 words and some more.
pub fn rule_of_words(random: &mut Random, n: usize, count: usize) -> RuleDraft {
    let mut longest = random.within(1, n + 1);
    let mut left = count.saturating_sub(4 + 2 * n);
    let (mut clauses, mut seen, mut copies) = (Vec::new(), HashSet::new(), 0);
    while left > 0 && clauses.len() < 1_024 {
        // The words of the next clause: so many at least that the clauses after it can fill the rest.
        let least = left.div_ceil(1_024 - clauses.len()).min(n + 1);
        let words = random.within(least, longest.clamp(least, left));
        let clause = clause(random, n, words - 1);
        if seen.insert(clause.clone()) {
            clauses.push(clause);
            left -= words;
            copies = 0;
            continue;
        }
        copies += 1;
        if copies > MOST_COPIES {
            if longest > n || longest >= left {
                break;
            }
            longest += 1;
            copies = 0;
        }
    }
    // The last words, if no clause is as short as they are that is not there already.
    for _ in 0..if clauses.is_empty() { 0 } else { 50 * left.min(n) } {
        let at = random.below(clauses.len());
        let literal = random.below(2 * n) as u32;
        let mut longer = [&clauses[at][..], &[literal]].concat();
        longer.sort_unstable();
        if left > 0 && is_rising(&longer) && seen.insert(longer.clone()) {
            clauses[at] = longer;
            left -= 1;
        }
    }
    let pattern = pattern(random);
    RuleDraft { clauses, prefix: prefix(random, n, pattern) }
}

/// A rule file that the bench's reader accepts, most often of 4,092, 4,096 or 4,100 bytes and of 15 to 17 variables.
pub fn border_rule(random: &mut Random) -> RuleDraft {
    let n = if random.once_in(4) { random.within(0, 32) } else { random.within(15, 17) };
    let count = match random.below(8) {
        0 => random.within(4, 1_024),
        1 => random.within(1_024, 16_384),
        _ => random.within(1_023, 1_025),
    };
    rule_of_words(random, n, count)
}

/// Such a file as it is or damaged: with one of the reader's faults or two, in a word of its trailer, or anywhere.
pub fn border_file(random: &mut Random) -> Vec<u8> {
    let draft = border_rule(random);
    match random.below(10) {
        0 | 1 => draft.bytes(),
        2 => {
            // Alone, or with a check about it.
            let other = random.pick(&[26, 26, 7, 23, 8, 9]);
            with_faults(random, draft, &[26, other])
        }
        3..7 => {
            let at = random.below(REFUSALS.len());
            // Often the next in the order of the checks.
            let second = if random.once_in(2) { (at + 1) % REFUSALS.len() } else { random.below(REFUSALS.len()) };
            let faults = [REFUSALS[at], REFUSALS[second]];
            let count = random.pick(&[1, 1, 2]);
            with_faults(random, draft, &faults[..count])
        }
        7 | 8 => damaged_trailer(random, draft.words()),
        _ => {
            let mut bytes = draft.bytes();
            damage_rule(random, &mut bytes);
            bytes
        }
    }
}

/// Changes the number of clauses or of variables to one about a limit, and the last word by one, or some of these.
fn damaged_trailer(random: &mut Random, mut words: Vec<u32>) -> Vec<u8> {
    let count = words.len();
    if random.once_in(2) {
        words[count - 4] = random.pick(&[512, 513, 1_020, 1_021, 1_024, 1_025]);
    }
    if random.once_in(3) {
        words[count - 3] = random.pick(&[0, 15, 16, 17, 31, 32, 33, (1 << 31) + 16]);
    }
    if random.once_in(3) {
        words[count - 1] = random.pick(&[count as u32 - 1, count as u32 + 1]);
    }
    to_bytes(&words)
}
