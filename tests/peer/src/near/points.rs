//! Marks and points that nearly are document 02's. Random files are to tell them from it: those cuts are counted that
//! have other marks or another point by another notion. Here the doubles come from the machine's own arithmetic.

use crate::answer::{self, Answer};
use crate::points::{excess, LARGEST_WHOLE};

/// What is plotted for a cut: its marks, and low mark, high mark and open share.
struct Plot {
    marks: Vec<f64>,
    point: [f64; 3],
}

struct Notion {
    name: &'static str,
    /// The largest whole that is plotted.
    largest: u128,
    /// Whether 27 stands before 12.
    before_12: bool,
    /// What is plotted for lower number, upper number and open weight, out of the whole.
    plot: fn([u64; 3], u64) -> Plot,
    /// Whether marks and point can tell it from document 02's.
    told: [bool; 2],
}

/// Document 02's.
const RIGHT: Notion = Notion {
    name: "",
    largest: LARGEST_WHOLE,
    before_12: false,
    plot: |cut, whole| plot_by(cut, whole, divided),
    told: [true; 2],
};

const NOTIONS: [Notion; 18] = [
    Notion { name: "2^53 refused", largest: LARGEST_WHOLE - 1, ..RIGHT },
    // It is the next whole that a file has.
    Notion { name: "2^53 + 4 taken", largest: LARGEST_WHOLE + 4, ..RIGHT },
    Notion { name: "any whole taken", largest: u128::MAX, ..RIGHT },
    Notion { name: "27 before 12", before_12: true, ..RIGHT },
    // How a double is made.
    Notion {
        name: "a product with the reciprocal",
        plot: |cut, whole| plot_by(cut, whole, |part, whole| part as f64 * (1.0 / whole as f64)),
        ..RIGHT
    },
    Notion {
        name: "1 less the share of the others",
        plot: |cut, whole| plot_by(cut, whole, |part, whole| 1.0 - divided(whole - part, whole)),
        ..RIGHT
    },
    Notion { name: "rounding down", plot: |cut, whole| plot_by(cut, whole, |p, w| beside(p, w, -1)), ..RIGHT },
    Notion { name: "rounding up", plot: |cut, whole| plot_by(cut, whole, |p, w| beside(p, w, 1)), ..RIGHT },
    Notion {
        name: "single precision",
        plot: |cut, whole| plot_by(cut, whole, |part, whole| f64::from(part as f32 / whole as f32)),
        ..RIGHT
    },
    // When there is one mark.
    Notion {
        name: "one mark where nothing is open",
        plot: |cut, whole| plot(cut[2] == 0, cut.map(|number| divided(number, whole))),
        ..RIGHT
    },
    Notion {
        name: "two marks always",
        plot: |cut, whole| plot(false, cut.map(|number| divided(number, whole))),
        ..RIGHT
    },
    // Out of at most 2^53, different numbers are different doubles.
    Notion {
        name: "one mark where the doubles agree",
        plot: |cut, whole| {
            let point = cut.map(|number| divided(number, whole));
            plot(point[0] == point[1], point)
        },
        told: [false; 2],
        ..RIGHT
    },
    // Which double stands where.
    Notion {
        name: "marks exchanged",
        plot: |[lower, upper, open], whole| plot_by([upper, lower, open], whole, divided),
        ..RIGHT
    },
    Notion {
        name: "low mark and open share exchanged",
        plot: |cut, whole| changed(cut, whole, |[low, high, open]| [open, high, low]),
        told: [false, true],
        ..RIGHT
    },
    Notion {
        name: "high mark and open share exchanged",
        plot: |cut, whole| changed(cut, whole, |[low, high, open]| [low, open, high]),
        told: [false, true],
        ..RIGHT
    },
    Notion {
        name: "a single mark low alone",
        plot: |cut, whole| {
            let Plot { marks, point: [low, high, open] } = plot_by(cut, whole, divided);
            let high = if marks.len() == 1 { 0.0 } else { high };
            Plot { marks, point: [low, high, open] }
        },
        told: [false, true],
        ..RIGHT
    },
    Notion {
        name: "the difference of the marks as the open share",
        plot: |cut, whole| changed(cut, whole, |[low, high, _]| [low, high, high - low]),
        told: [false, true],
        ..RIGHT
    },
    Notion {
        name: "the difference of the numbers as the open weight",
        plot: |[lower, upper, _], whole| plot_by([lower, upper, upper - lower], whole, divided),
        told: [false, true],
        ..RIGHT
    },
];

/// The machine's quotient.
fn divided(part: u64, whole: u64) -> f64 {
    part as f64 / whole as f64
}

/// The quotient rounded down for -1, and up for 1.
fn beside(part: u64, whole: u64, side: i128) -> f64 {
    let nearest = divided(part, whole).to_bits();
    let beside = excess(nearest, part.into(), whole.into()).signum() == side;
    f64::from_bits(nearest.wrapping_add_signed(if beside { side as i64 } else { 0 }))
}

/// What is plotted if these are low mark, high mark and open share.
fn plot(one: bool, point: [f64; 3]) -> Plot {
    let marks = point[..if one { 1 } else { 2 }].to_vec();
    Plot { marks, point }
}

/// What is plotted, with `share` to give the double for a number out of the whole.
fn plot_by(cut: [u64; 3], whole: u64, share: fn(u64, u64) -> f64) -> Plot {
    plot(cut[0] == cut[1], cut.map(|number| share(number, whole)))
}

/// The right marks, and another point.
fn changed(cut: [u64; 3], whole: u64, change: fn([f64; 3]) -> [f64; 3]) -> Plot {
    let Plot { marks, point } = plot_by(cut, whole, divided);
    Plot { marks, point: change(point) }
}

impl Notion {
    /// Marks and point for a cut with this answer, out of this whole.
    fn answers(&self, cut: &Answer, whole: u128) -> [Answer; 2] {
        if whole > self.largest && (cut.code == 0 || self.before_12) {
            return [27, 27].map(|code| Answer::refused((code, None)));
        }
        let [lower, upper, open] = cut.numbers[..] else {
            return [cut.clone(), cut.clone()];
        };
        let Plot { marks, point } = (self.plot)([lower, upper, open], whole as u64);
        let count = marks.len() as u64;
        [marks, point.to_vec()].map(|doubles| Answer {
            numbers: vec![count],
            doubles: doubles.into_iter().map(f64::to_bits).collect(),
            ..Answer::default()
        })
    }
}

/// For each notion, how many cuts have other marks and how many another point by it.
#[derive(Default)]
pub struct Told([[u64; 2]; NOTIONS.len()]);

impl Told {
    /// Takes in a cut of an accepted file, its numbers or 12.
    pub fn take(&mut self, cut: &Answer, whole: u128) {
        let right = [answer::marks(cut, whole), answer::point(cut, whole)];
        assert_eq!(RIGHT.answers(cut, whole), right, "{cut:?} of {whole}");
        for (counts, notion) in self.0.iter_mut().zip(&NOTIONS) {
            let other = notion.answers(cut, whole);
            for (count, (other, right)) in counts.iter_mut().zip(other.iter().zip(&right)) {
                *count += u64::from(other != right);
            }
        }
    }

    /// Prints the counts (seen with `--nocapture`) and fails unless at least `least` cuts told each notion by marks and
    /// by points, where they can.
    pub fn reached(&self, least: u64) {
        for (counts, notion) in self.0.iter().zip(&NOTIONS) {
            println!("  {}: told by the marks and points of {counts:?} cuts", notion.name);
            for (count, told) in counts.iter().zip(notion.told) {
                assert!(!told || *count >= least, "{}: told by {counts:?} cuts only", notion.name);
                assert!(told || *count == 0, "{}: told by {counts:?} cuts", notion.name);
            }
        }
    }
}
