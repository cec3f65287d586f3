//! Document 02's marks and plot points. A double is kept as its 64 bits and comes from integers alone, without any
//! floating-point operation.

/// The largest whole of a file that is plotted.
pub const LARGEST_WHOLE: u128 = 1 << 53;

/// How many digits of a double stand after its first.
const FRACTION: u32 = 52;

/// What the stored exponent is more than the exponent.
const BIAS: u32 = 1_023;

/// The double nearest to `part / whole`; of two as near it is the one whose last digit is 0. `part` is at most `whole`,
/// and that is from 1 to 2^60.
pub fn quotient(part: u128, whole: u128) -> u64 {
    if part == 0 {
        return 0;
    }
    // Doubled so often, the quotient is from 1 to under 2.
    let mut doublings = 0;
    while part << doublings < whole {
        doublings += 1;
    }
    let dividend = part << (doublings + FRACTION);
    let (digits, rest) = (dividend / whole, dividend % whole);
    let up = 2 * rest > whole || 2 * rest == whole && digits % 2 == 1;
    // The first digit is not stored: added to the exponent, it makes up for the one that is taken off there. So does
    // one that is carried.
    (u64::from(BIAS - doublings - 1) << FRACTION) + digits as u64 + u64::from(up)
}

/// What `part / whole` is more than a double near it: in units of the double's last digit, and times `whole`. Found by
/// multiplication, to hold quotients to.
pub fn excess(double: u64, part: u128, whole: u128) -> i128 {
    if double == 0 {
        return part as i128;
    }
    let digits = (1 << FRACTION) + u128::from(double) % (1 << FRACTION);
    let unit = 1u128 << (BIAS + FRACTION - (double >> FRACTION) as u32);
    let scaled = part.checked_mul(unit).expect("a double near the quotient");
    scaled as i128 - (digits * whole) as i128
}

/// The marks of a cut: one where lower and upper number agree.
#[derive(Clone, Copy, Debug, PartialEq, Eq)]
pub enum Marks {
    One(u64),
    Two(u64, u64),
}

/// The marks of a cut with these numbers, lower, upper and open.
pub fn marks([lower, upper, _]: [u128; 3], whole: u128) -> Marks {
    let mark = |number| quotient(number, whole);
    if lower == upper {
        Marks::One(mark(lower))
    } else {
        Marks::Two(mark(lower), mark(upper))
    }
}

/// A plot point: the low and the high mark, and the open share.
#[derive(Clone, Copy, Debug, PartialEq, Eq)]
pub struct Point {
    pub low: u64,
    pub high: u64,
    pub open: u64,
}

/// The plot point for these marks of a cut with this open weight.
pub fn point(marks: Marks, open: u128, whole: u128) -> Point {
    let (low, high) = match marks {
        Marks::One(mark) => (mark, mark),
        Marks::Two(low, high) => (low, high),
    };
    Point { low, high, open: quotient(open, whole) }
}
