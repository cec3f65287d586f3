//! Samples for document 02's marks and plot points. A double is given by its digits in base 2, which are derived from
//! the fraction that they stand for.

use super::{sample, with, List};
use crate::cases::Operation;
use crate::generate::RuleDraft;
use crate::to_bytes;

/// The double 1.d times 2^exponent, with the 52 digits d as a number.
const fn double(exponent: i64, digits: u64) -> u64 {
    ((1_023 + exponent) as u64) << 52 | digits
}

const ZERO: u64 = 0;
const ONE: u64 = double(0, 0);

// In base 16 the digits that are left out begin with 5, with 9 and with 3: they are rounded down, up and down.
const THIRD: u64 = double(-2, 0x5_5555_5555_5555);
const TWO_THIRDS: u64 = double(-1, 0x5_5555_5555_5555);
const TWO_FIFTHS: u64 = double(-2, 0x9_9999_9999_999a);
const FOUR_FIFTHS: u64 = double(-1, 0x9_9999_9999_999a);
const THREE_FIFTHS: u64 = double(-1, 0x3_3333_3333_3333);

/// 1 less 2^-53.
const UNDER_ONE: u64 = double(-1, 0xf_ffff_ffff_ffff);

impl List {
    /// A cut with these numbers, its marks, one or two, and its point, with this open share.
    fn plotted(&mut self, name: &str, rule: &RuleDraft, level: u64, cut: [u64; 3], marks: &[u64], open: u64) {
        self.cut(format!("{name}-{level}-cut"), rule, level, cut);
        let point = [marks[0], marks[marks.len() - 1], open];
        let mut add = |kind: &str, operation, doubles: &[u64]| {
            self.add(format!("{name}-{level}-{kind}"), &rule.bytes(), operation, 0, &[marks.len() as u64]);
            self.0.last_mut().unwrap().expected.doubles = doubles.to_vec();
        };
        add("marks", Operation::Marks(level), marks);
        add("point", Operation::Point(level), &point);
    }

    /// A level at which marks and point are refused, with the place if there is one.
    fn unplotted(&mut self, name: &str, file: &[u8], level: u64, code: u32, place: &[u64]) {
        self.add(format!("{name}-{level}-marks"), file, Operation::Marks(level), code, place);
        self.add(format!("{name}-{level}-point"), file, Operation::Point(level), code, place);
    }

    /// A cut with these numbers, out of a whole that is not plotted.
    fn over(&mut self, name: &str, rule: &RuleDraft, level: u64, cut: [u64; 3]) {
        self.cut(format!("{name}-{level}-cut"), rule, level, cut);
        self.unplotted(name, &rule.bytes(), level, 27, &[]);
    }
}

pub(super) fn points(list: &mut List) {
    sample_points(list);
    single_marks(list);
    two_marks(list);
    open_beside_satisfied(list);
    roundings(list);
    largest_whole(list);
    neighbours(list);
    larger_wholes(list);
    refusals(list);
}

/// Document 01's file at all its levels, and at others.
fn sample_points(list: &mut List) {
    let rule = sample().0;
    list.plotted("plot-sample", &rule, 0, [0, 50, 50], &[ZERO, ONE], ONE);
    list.plotted("plot-sample", &rule, 1, [0, 40, 40], &[ZERO, FOUR_FIFTHS], FOUR_FIFTHS);
    list.plotted("plot-sample", &rule, 2, [0, 40, 40], &[ZERO, FOUR_FIFTHS], FOUR_FIFTHS);
    // 6/25: left out is 51.. in base 16.
    list.plotted("plot-sample", &rule, 3, [12, 12, 0], &[double(-3, 0xe_b851_eb85_1eb8)], ZERO);
    for level in [4, 5, 33, 1 << 32, (1 << 32) + 3, 1 << 63, u64::MAX] {
        list.unplotted("plot-sample", &rule.bytes(), level, 12, &[]);
    }
}

/// One mark and nothing open: 0 and 1, with no variables, no clauses, and with both; and 1/3 and 2/3.
fn single_marks(list: &mut List) {
    let (none, falsified) = (RuleDraft::new(&[], &[]), RuleDraft::new(&[&[]], &[]));
    list.plotted("plot-n-0-satisfied", &none, 0, [1, 1, 0], &[ONE], ZERO);
    list.plotted("plot-n-0-falsified", &falsified, 0, [0, 0, 0], &[ZERO], ZERO);
    for level in [1, u64::MAX] {
        list.unplotted("plot-n-0-satisfied", &none.bytes(), level, 12, &[]);
        list.unplotted("plot-n-0-falsified", &falsified.bytes(), level, 12, &[]);
    }
    let (none, falsified) = (RuleDraft::new(&[], &sample().0.prefix), RuleDraft::new(&[&[]], &sample().0.prefix));
    for level in 0..=3 {
        list.plotted("plot-no-clauses", &none, level, [50, 50, 0], &[ONE], ZERO);
        list.plotted("plot-empty-clause", &falsified, level, [0, 0, 0], &[ZERO], ZERO);
    }
    let clash = RuleDraft::new(&[&[0], &[1]], &[[3, 1]]);
    list.plotted("plot-clash", &clash, 0, [0, 0, 0], &[ZERO], ZERO);
    list.plotted("plot-clash", &clash, 1, [0, 0, 0], &[ZERO], ZERO);
    let choice = RuleDraft::new(&[&[0]], &[[0, 0]]);
    list.plotted("plot-existential", &choice, 0, [0, 1, 1], &[ZERO, ONE], ONE);
    list.plotted("plot-existential", &choice, 1, [1, 1, 0], &[ONE], ZERO);

    let third = RuleDraft::new(&[&[0]], &[[1, 2]]);
    list.plotted("plot-third", &third, 0, [0, 3, 3], &[ZERO, ONE], ONE);
    list.plotted("plot-third", &third, 1, [1, 1, 0], &[THIRD], ZERO);
    let two_thirds = RuleDraft::new(&[&[1]], &[[1, 2]]);
    list.plotted("plot-two-thirds", &two_thirds, 0, [0, 3, 3], &[ZERO, ONE], ONE);
    list.plotted("plot-two-thirds", &two_thirds, 1, [2, 2, 0], &[TWO_THIRDS], ZERO);
}

/// Two marks, neither of them 0.
fn two_marks(list: &mut List) {
    // Satisfied where variable 0 is true. Where it is false and variable 1 too, {0, 2} is falsified; where that is
    // true, {0, 4} is left.
    let thirds = RuleDraft::new(&[&[0, 2], &[0, 4]], &[[1, 2], [1, 1], [0, 0]]);
    list.plotted("plot-thirds", &thirds, 0, [0, 6, 6], &[ZERO, ONE], ONE);
    list.plotted("plot-thirds", &thirds, 1, [2, 6, 4], &[THIRD, ONE], TWO_THIRDS);
    list.plotted("plot-thirds", &thirds, 2, [2, 4, 2], &[THIRD, TWO_THIRDS], THIRD);
    list.plotted("plot-thirds", &thirds, 3, [4, 4, 0], &[TWO_THIRDS], ZERO);
    let fifths = RuleDraft::new(&[&[0, 2], &[0, 4]], &[[3, 2], [0, 0], [1, 1]]);
    list.plotted("plot-fifths", &fifths, 1, [6, 10, 4], &[THREE_FIFTHS, ONE], TWO_FIFTHS);
    // 17/25 and 2/25: left out is 8f.. and e1.. in base 16.
    let rule = RuleDraft::new(&[&[0, 2, 4], &[0, 2, 5], &[0, 3, 4]], &[[3, 2], [1, 4], [1, 1]]);
    let marks = [THREE_FIFTHS, double(-1, 0x5_c28f_5c28_f5c3)];
    list.plotted("plot-25ths", &rule, 2, [30, 34, 4], &marks, double(-4, 0x4_7ae1_47ae_147b));
}

/// An existential choice between a satisfied node and an undetermined one: lower and upper number agree, and yet there
/// is open weight.
fn open_beside_satisfied(list: &mut List) {
    let choice = RuleDraft::new(&[&[0, 2]], &[[0, 0], [1, 1]]);
    list.plotted("plot-open-beside-satisfied", &choice, 0, [0, 2, 2], &[ZERO, ONE], ONE);
    list.plotted("plot-open-beside-satisfied", &choice, 1, [2, 2, 2], &[ONE], ONE);
    list.plotted("plot-open-beside-satisfied", &choice, 2, [2, 2, 0], &[ONE], ZERO);
    // The same where variable 0 is true; where it is false, all is satisfied.
    let rule = RuleDraft::new(&[&[1, 2, 4]], &[[1, 2], [0, 0], [1, 1]]);
    list.plotted("plot-third-open", &rule, 1, [4, 6, 2], &[TWO_THIRDS, ONE], THIRD);
    list.plotted("plot-third-open", &rule, 2, [6, 6, 2], &[ONE], THIRD);
    // The same where variable 0 is false, and variable 1 too; where variable 0 is true, all is lost.
    let rule = RuleDraft::new(&[&[1], &[2, 4, 6]], &[[1, 2], [1, 1], [0, 0], [1, 1]]);
    list.plotted("plot-mark-and-open", &rule, 2, [4, 8, 4], &[THIRD, TWO_THIRDS], THIRD);
    list.plotted("plot-mark-and-open", &rule, 3, [8, 8, 4], &[TWO_THIRDS], THIRD);
    list.plotted("plot-mark-and-open", &rule, 4, [8, 8, 0], &[TWO_THIRDS], ZERO);
}

/// Quotients that are rounded down and up.
fn roundings(list: &mut List) {
    // One draw; the first weight's share.
    let mut share = |name: &str, pair: [u32; 2], mark| {
        let (a, whole) = (u64::from(pair[0]), u64::from(pair[0]) + u64::from(pair[1]));
        let rule = RuleDraft::new(&[&[0]], &[pair]);
        list.plotted(name, &rule, 0, [0, whole, whole], &[ZERO, ONE], ONE);
        list.plotted(name, &rule, 1, [a, a, 0], &[mark], ZERO);
    };
    // 1/7 is 0.001 001 .., 3/7 is 0.011 011 .., 5/7 is 0.101 101 ..; after 52 digits the next are 01, 01 and 11.
    share("plot-1-of-7", [1, 6], double(-3, 0x2_4924_9249_2492));
    share("plot-2-of-7", [2, 5], double(-2, 0x2_4924_9249_2492));
    share("plot-3-of-7", [3, 4], double(-2, 0xb_6db6_db6d_b6db));
    share("plot-4-of-7", [4, 3], double(-1, 0x2_4924_9249_2492));
    share("plot-5-of-7", [5, 2], double(-1, 0x6_db6d_b6db_6db7));
    share("plot-6-of-7", [6, 1], double(-1, 0xb_6db6_db6d_b6db));
    // A product with 1/10 that is rounded is another double, and so is 1 less the other share.
    share("plot-3-of-10", [3, 7], double(-2, 0x3_3333_3333_3333));
    share("plot-7-of-10", [7, 3], double(-1, 0x6_6666_6666_6666));
    // 2^-16 + 2^-32 + ..; and fifteen digits 1 and one 0, again and again: rounding up carries over five 1s.
    share("plot-1-of-65535", [1, 65_534], double(-16, 1 << 36 | 1 << 20 | 1 << 4));
    share("plot-65534-of-65535", [65_534, 1], double(-1, 0xf_ffdf_ffdf_ffe0));
    share("plot-half", [65_535, 65_535], double(-1, 0));

    // 3^32 is odd: 2^103 is 3^32 times the 53 digits, and less than half of it more.
    let whole = 3u64.pow(32);
    let rule = |clauses| RuleDraft { clauses, prefix: vec![[1, 2]; 32] };
    let [all_true, all_false] = [0, 1].map(|sign| rule((0..32).map(|v| vec![2 * v + sign]).collect()));
    let digits = 0x3_717b_0870_b0db;
    list.plotted("plot-3^32-all-true", &all_true, 0, [0, whole, whole], &[ZERO, ONE], ONE);
    list.plotted("plot-3^32-all-true", &all_true, 32, [1, 1, 0], &[double(-51, digits)], ZERO);
    list.plotted("plot-3^32-all-false", &all_false, 32, [1 << 32, 1 << 32, 0], &[double(-19, digits)], ZERO);
    // 1 less 2^-53 times 4.86.
    let not_all = rule(vec![(0..32).map(|v| 2 * v + 1).collect()]);
    let mark = double(-1, 0xf_ffff_ffff_fffb);
    list.plotted("plot-3^32-not-all-true", &not_all, 32, [whole - 1, whole - 1, 0], &[mark], ZERO);
}

/// The prefix with these totals, all true weights 1.
fn ones(totals: &[u32]) -> Vec<[u32; 2]> {
    totals.iter().map(|total| [1, total - 1]).collect()
}

/// Files over this prefix where all variables are true, and where not all are.
fn all_true_and_not(prefix: &[[u32; 2]]) -> [RuleDraft; 2] {
    let variables = 0..prefix.len() as u32;
    let all_true = variables.clone().map(|v| vec![2 * v]).collect();
    let not_all = vec![variables.map(|v| 2 * v + 1).collect()];
    [all_true, not_all].map(|clauses| RuleDraft { clauses, prefix: prefix.to_vec() })
}

/// The largest whole that is plotted, 2^53, in totals 2^16, 2^16, 2^16 and 2^5, and in 32 totals: the least mark but 0
/// and the largest but 1.
fn largest_whole(list: &mut List) {
    let whole = 1u64 << 53;
    let prefix = ones(&[1 << 16, 1 << 16, 1 << 16, 1 << 5]);
    let [all_true, not_all] = all_true_and_not(&prefix);
    list.add("plot-2^53-read", &all_true.bytes(), Operation::Read, 0, &[4, 4, 8, whole]);
    list.plotted("plot-2^53", &all_true, 0, [0, whole, whole], &[ZERO, ONE], ONE);
    for (level, exponent) in [(1, 16), (2, 32), (3, 48)] {
        let (open, share) = (whole >> exponent, double(-exponent, 0));
        list.plotted("plot-2^53", &all_true, level, [0, open, open], &[ZERO, share], share);
    }
    list.plotted("plot-2^53", &all_true, 4, [1, 1, 0], &[double(-53, 0)], ZERO);
    list.plotted("plot-2^53-not-all", &not_all, 0, [0, whole, whole], &[ZERO, ONE], ONE);
    // 48 digits 1.
    let mark = double(-1, 0xf_ffff_ffff_ffe0);
    list.plotted("plot-2^53-not-all", &not_all, 3, [whole - 32, whole, 32], &[mark, ONE], double(-48, 0));
    list.plotted("plot-2^53-not-all", &not_all, 4, [whole - 1, whole - 1, 0], &[UNDER_ONE], ZERO);
    let none = RuleDraft { clauses: Vec::new(), prefix };
    list.plotted("plot-2^53-none", &none, 0, [whole, whole, 0], &[ONE], ZERO);
    for level in [5, u64::MAX] {
        list.unplotted("plot-2^53", &all_true.bytes(), level, 12, &[]);
    }

    let prefix = ones(&[[4; 21].as_slice(), &[2; 11]].concat());
    let [all_true, not_all] = all_true_and_not(&prefix);
    list.plotted("plot-2^53-of-32", &all_true, 21, [0, 1 << 11, 1 << 11], &[ZERO, double(-42, 0)], double(-42, 0));
    list.plotted("plot-2^53-of-32", &all_true, 32, [1, 1, 0], &[double(-53, 0)], ZERO);
    list.plotted("plot-2^53-of-32-not-all", &not_all, 32, [whole - 1, whole - 1, 0], &[UNDER_ONE], ZERO);
    list.unplotted("plot-2^53-of-32", &all_true.bytes(), 33, 12, &[]);
    // 3^21 has 34 digits.
    let all_false = RuleDraft { clauses: (0..32).map(|v| vec![2 * v + 1]).collect(), prefix };
    let (number, mark) = (3u64.pow(21), double(33 - 53, (3u64.pow(21) - (1 << 33)) << (52 - 33)));
    list.plotted("plot-2^53-of-32-all-false", &all_false, 32, [number, number, 0], &[mark], ZERO);
}

/// The largest whole under 2^53 and the least over it: between them all numbers but 2^53 have a prime factor over
/// 131,070, the largest total.
fn neighbours(list: &mut List) {
    // 2 * 3 * 5 * 53 * 157 * 1,613 * 2,731 * 8,191.
    let whole = (1u64 << 53) - 2;
    let prefix = ones(&[8_191, 53 * 157, 2_731, 1_613, 30]);
    let [all_true, not_all] = all_true_and_not(&prefix);
    list.add("plot-2^53-2-read", &all_true.bytes(), Operation::Read, 0, &[5, 5, 10, whole]);
    list.plotted("plot-2^53-2", &all_true, 0, [0, whole, whole], &[ZERO, ONE], ONE);
    // 2^-13 + 2^-26 + ..
    let share = double(-13, 1 << 39 | 1 << 26 | 1 << 13 | 1);
    list.plotted("plot-2^53-2", &all_true, 1, [0, whole / 8_191, whole / 8_191], &[ZERO, share], share);
    // 15 times 2^-52 + 2^-104 + ..: the last digits are 1.875, and rounded 2.
    let share = double(-49, 0xe_0000_0000_0002);
    list.plotted("plot-2^53-2", &all_true, 4, [0, 30, 30], &[ZERO, share], share);
    list.plotted("plot-2^53-2", &all_true, 5, [1, 1, 0], &[double(-53, 1)], ZERO);
    list.plotted("plot-2^53-2-not-all", &not_all, 5, [whole - 1, whole - 1, 0], &[UNDER_ONE], ZERO);

    // 2 * 2 * 3 * 3 * 307 * 2,857 * 6,529 * 43,691.
    let whole = (1u64 << 53) + 4;
    let prefix = ones(&[43_691, 6_529, 2_857, 36 * 307]);
    let [all_true, not_all] = all_true_and_not(&prefix);
    list.add("plot-2^53+4-read", &all_true.bytes(), Operation::Read, 0, &[4, 4, 8, whole]);
    list.over("plot-2^53+4", &all_true, 0, [0, whole, whole]);
    list.over("plot-2^53+4", &all_true, 1, [0, whole / 43_691, whole / 43_691]);
    list.over("plot-2^53+4", &all_true, 4, [1, 1, 0]);
    list.over("plot-2^53+4-not-all", &not_all, 4, [whole - 1, whole - 1, 0]);
    list.over("plot-2^53+4-none", &RuleDraft { clauses: Vec::new(), prefix }, 2, [whole, whole, 0]);
    let falsified = RuleDraft { clauses: vec![Vec::new()], prefix: ones(&[2, 2, 3, 3, 307, 2_857, 6_529, 43_691]) };
    list.over("plot-2^53+4-falsified", &falsified, 8, [0, 0, 0]);
    for level in [5, 9, u64::MAX] {
        list.unplotted("plot-2^53+4", &all_true.bytes(), level, 12, &[]);
    }
}

/// Wholes far over 2^53: 5 * 3^32, 2^54 and the largest.
fn larger_wholes(list: &mut List) {
    let mut prefix = vec![[1, 2]; 32];
    prefix[31] = [7, 8];
    let whole = 5 * 3u64.pow(32);
    let [all_true, _] = all_true_and_not(&prefix);
    list.over("plot-5*3^32", &all_true, 0, [0, whole, whole]);
    list.over("plot-5*3^32", &all_true, 32, [7, 7, 0]);
    list.unplotted("plot-5*3^32", &all_true.bytes(), 33, 12, &[]);
    for (name, n) in [("plot-2^54", 27), ("plot-2^60", 30)] {
        let whole = 1u64 << (2 * n);
        let prefix = ones(&vec![4; n]);
        let [all_true, not_all] = all_true_and_not(&prefix);
        let half = n as u64 / 2;
        let open = whole >> (2 * half);
        list.over(name, &all_true, 0, [0, whole, whole]);
        list.over(name, &all_true, half, [0, open, open]);
        list.over(name, &all_true, n as u64, [1, 1, 0]);
        list.over(&format!("{name}-not-all"), &not_all, n as u64, [whole - 1, whole - 1, 0]);
        list.over(&format!("{name}-none"), &RuleDraft { clauses: Vec::new(), prefix }, 0, [whole, whole, 0]);
        for level in [n as u64 + 1, 1 << 32, u64::MAX] {
            list.unplotted(name, &all_true.bytes(), level, 12, &[]);
        }
    }
}

/// The reader's refusals of files whose whole is over 2^53, at level 0 and at one over n: they come before 12 and 27.
fn refusals(list: &mut List) {
    let mut both = |name: &str, words: &[u32], code, place: &[u64]| {
        for level in [0, 31] {
            list.unplotted(name, &to_bytes(words), level, code, place);
        }
    };
    let rule = |clauses: &[&[u32]]| RuleDraft::new(clauses, &[[1, 3]; 30]).words();
    let words = rule(&[&[0, 2], &[3]]);
    both("plot-1", &words[..3], 1, &[]);
    both("plot-2", &with(&words, 68, 68), 2, &[]);
    both("plot-5", &with(&words, 65, 3), 5, &[2]);
    both("plot-6", &rule(&[&[0, 2], &[60]]), 6, &[1]);
    both("plot-7", &rule(&[&[0, 2], &[58, 59]]), 7, &[1]);
    both("plot-23", &rule(&[&[0, 2], &[3], &[4, 2]]), 23, &[2]);
    both("plot-26", &rule(&[&[0, 2], &[3], &[0, 2]]), 26, &[2]);
    both("plot-8", &with(&words, 64, 0), 8, &[29]);
    both("plot-9", &with(&words, 64, 4), 9, &[]);
}
