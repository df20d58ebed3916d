//! Document 02, ticket 8: the rate between two clock references, in integers alone.
//!
//! A double is the number that its 64 bits make: a sign, 11 bits of exponent and 52 of fraction, as IEEE 754 has them.

use std::cmp::Ordering;

use crate::numbers_of_the_house::{MOST_RATED_BYTES, TICKS_A_SECOND};
use crate::refusal_numbers::{demand, Refusal};
use crate::time::forward;

/// The bit of the sign, which alone is −0.
pub const SIGN: u64 = 0x8000_0000_0000_0000;

/// The infinity without a sign; what is above it is a NaN.
pub const INFINITY: u64 = 0x7FF0_0000_0000_0000;

/// How many bits a double has behind its exponent.
const FRACTION_BITS: u32 = 52;

/// What the exponent is from 1 to below 2.
const MIDDLE_EXPONENT: i64 = 1_023;

#[derive(Clone, Copy, Debug, Default, PartialEq, Eq)]
pub struct Rates {
    pub lowest: u64,
    pub latest: u64,
    pub highest: u64,
}

impl Rates {
    /// The record that a first rate fills.
    fn of(new: u64) -> Rates {
        Rates {
            lowest: new,
            latest: new,
            highest: new,
        }
    }

    fn in_order(self) -> bool {
        at_most(self.lowest, self.latest) && at_most(self.latest, self.highest)
    }

    /// The record with a rate more; an equal lowest or highest stays, with its bits.
    fn with(mut self, new: u64) -> Rates {
        if below(new, self.lowest) {
            self.lowest = new;
        }
        self.latest = new;
        if below(self.highest, new) {
            self.highest = new;
        }
        self
    }
}

/// The rates after some bytes between two references, with the record before them if there is one.
pub fn rate(known: Option<Rates>, bytes: u64, later: u64, earlier: u64) -> Result<Rates, Refusal> {
    demand(known.map_or(true, Rates::in_order), 82)?;
    let ticks = forward(later, earlier)?;
    demand(bytes <= MOST_RATED_BYTES, 80)?;
    demand(ticks != 0, 81)?;
    let new = nearest(bytes * TICKS_A_SECOND, ticks as u64);
    Ok(known.map_or(Rates::of(new), |rates| rates.with(new)))
}

/// The double nearest to a quotient, and of two that are as near the even one.
///
/// The divisor is not 0, so the quotient is 0 or lies between 2^-64 and 2^64, and no exponent is too low or too high.
pub fn nearest(dividend: u64, divisor: u64) -> u64 {
    if dividend == 0 {
        return 0;
    }
    let (mut rest, mut divisor) = (u128::from(dividend), u128::from(divisor));
    let mut power = 0;
    // The quotient is brought between 1 and 2, so that the first digit is a 1.
    while rest >= 2 * divisor {
        divisor *= 2;
        power += 1;
    }
    while rest < divisor {
        rest *= 2;
        power -= 1;
    }
    let mut digits = 0;
    for _ in 0..=FRACTION_BITS {
        let digit = u64::from(rest >= divisor);
        digits = 2 * digits + digit;
        rest = 2 * (rest - u128::from(digit) * divisor);
    }
    let up = rest > divisor || rest == divisor && digits % 2 == 1;
    // The first digit raises the exponent by one, and so does a carry out of all digits.
    let exponent = (MIDDLE_EXPONENT - 1 + power) as u64;
    (exponent << FRACTION_BITS) + digits + u64::from(up)
}

/// Where a double stands among all, −0 and 0 in one place; a NaN stands nowhere.
pub fn rank(double: u64) -> Option<i64> {
    let size = double % SIGN;
    let sign = if double < SIGN { 1 } else { -1 };
    (size <= INFINITY).then(|| sign * size as i64)
}

/// The order of two doubles, or nothing where one is a NaN.
fn order(left: u64, right: u64) -> Option<Ordering> {
    Some(rank(left)?.cmp(&rank(right)?))
}

fn at_most(left: u64, right: u64) -> bool {
    matches!(order(left, right), Some(Ordering::Less | Ordering::Equal))
}

fn below(left: u64, right: u64) -> bool {
    order(left, right) == Some(Ordering::Less)
}
