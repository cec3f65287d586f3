//! Rule files whose whole lies about 2^53, the largest that is plotted.

use super::{rule, RuleDraft};
use crate::points::LARGEST_WHOLE;
use crate::random::Random;

/// The largest weight, and the largest total.
const WEIGHT: u64 = 65_535;
const TOTAL: u64 = 2 * WEIGHT;

/// The wholes that files have and that are at most 16 from 2^53, by their prime factors, the largest first.
pub struct Wholes(Vec<Vec<u64>>);

impl Wholes {
    pub fn about_2_53() -> Wholes {
        let border = LARGEST_WHOLE as u64;
        Wholes((border - 16..=border + 16).filter_map(factors).collect())
    }

    /// The wholes, rising.
    pub fn products(&self) -> Vec<u64> {
        self.0.iter().map(|factors| factors.iter().product()).collect()
    }

    /// A valid rule file whose whole is 2^53, one of those next to it, or the nearest with all its totals but one.
    pub fn rule(&self, random: &mut Random) -> RuleDraft {
        let mut totals = match random.below(4) {
            0 => put_together(random, &[2; 53]),
            1 => {
                let factors = &self.0[random.below(self.0.len())];
                put_together(random, factors)
            }
            _ => any_but_the_last(random),
        };
        // An existential variable has the total 1.
        totals.extend(vec![1; random.within(0, 3)]);
        random.shuffle(&mut totals);
        let n = totals.len();
        let m = random.within(0, 2 * n);
        RuleDraft { prefix: totals.into_iter().map(|total| weights(random, total)).collect(), ..rule(random, n, m) }
    }
}

/// The prime factors of a number, the largest first; none if one is larger than a total.
fn factors(mut number: u64) -> Option<Vec<u64>> {
    let mut factors = Vec::new();
    for divisor in 2..=TOTAL {
        while number.is_multiple_of(divisor) {
            factors.push(divisor);
            number /= divisor;
        }
    }
    factors.reverse();
    (number == 1).then_some(factors)
}

/// Totals with these prime factors, the largest of which come first.
fn put_together(random: &mut Random, factors: &[u64]) -> Vec<u64> {
    let mut totals = vec![1; random.within(4, 6)];
    for factor in factors {
        let fitting: Vec<usize> = (0..totals.len()).filter(|at| totals[*at] * factor <= TOTAL).collect();
        if fitting.is_empty() {
            totals.push(*factor);
        } else {
            totals[random.pick(&fitting)] *= factor;
        }
    }
    totals.retain(|total| *total > 1);
    totals
}

/// Random totals, and a last one by which their product is as little under 2^53 as can be, or over it.
fn any_but_the_last(random: &mut Random) -> Vec<u64> {
    let border = LARGEST_WHOLE as u64;
    let (mut totals, mut product) = (Vec::new(), 1);
    while border / product >= TOTAL {
        let most = random.pick(&[300, 20_000, TOTAL]) as usize;
        let total = random.within(2, most) as u64;
        totals.push(total);
        product *= total;
    }
    totals.push((border / product).max(2) + random.below(2) as u64);
    totals
}

/// Weights with this total, often as far apart as they can be.
fn weights(random: &mut Random, total: u64) -> [u32; 2] {
    if total == 1 {
        return [0, 0];
    }
    let (least, most) = (total.saturating_sub(WEIGHT).max(1), WEIGHT.min(total - 1));
    let any = random.within(least as usize, most as usize) as u64;
    let if_true = random.pick(&[least, most, any, any]);
    [if_true as u32, (total - if_true) as u32]
}
