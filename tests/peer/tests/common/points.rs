//! What was plotted.

use peer::answer::{self, Answer};
use peer::near::points::Told;
use peer::points::{excess, LARGEST_WHOLE};
use std::cmp::Ordering;

#[derive(Default)]
pub struct Points {
    /// How many cuts had one mark and nothing open, one mark and open weight, and two marks.
    kinds: [u64; 3],
    /// How many doubles were rounded up, not at all, and down.
    roundings: [u64; 3],
    /// How many cuts were out of a whole under 2^53, of 2^53 and over it.
    wholes: [u64; 3],
    told: Told,
}

/// 0 for less, 1 for equal, 2 for greater.
fn place(ordering: Ordering) -> usize {
    (ordering as i8 + 1) as usize
}

impl Points {
    /// Takes in a cut of an accepted file, its numbers or 12.
    pub fn take(&mut self, cut: &Answer, whole: u128) {
        self.told.take(cut, whole);
        let [lower, upper, open] = cut.numbers[..] else {
            return;
        };
        self.wholes[place(whole.cmp(&LARGEST_WHOLE))] += 1;
        let point = answer::point(cut, whole);
        if point.code != 0 {
            return;
        }
        self.kinds[if lower != upper { 2 } else { usize::from(open > 0) }] += 1;
        for (double, part) in point.doubles.into_iter().zip([lower, upper, open]) {
            self.roundings[place(excess(double, part.into(), whole).cmp(&0))] += 1;
        }
    }

    /// The counts, unless nothing was taken in.
    pub fn report(&self) -> String {
        let Points { kinds, roundings, wholes, .. } = self;
        if wholes == &[0; 3] {
            return String::new();
        }
        format!(
            "  one mark, one with open weight, two: {kinds:?}; rounded up, not, down: {roundings:?}; \
             wholes under 2^53, at it, over it: {wholes:?}\n"
        )
    }

    /// Fails unless each count is at least `least`, and so are those of the cuts that tell each notion.
    pub fn reached(&self, least: u64) {
        let Points { kinds, roundings, wholes, told } = self;
        let enough = [kinds, roundings, wholes].into_iter().flatten().all(|count| *count >= least);
        assert!(enough, "{}", self.report());
        told.reached(least);
    }
}
