//! The rates that outcomes of `rate` and `rerate` print, held to the lines that they answer.

use std::cmp::Ordering;

use crate::numbers_of_the_house::{CLOCK_TURN, TICKS_A_SECOND};

/// The words whose outcomes print rates.
pub const WORDS: [&str; 2] = ["rate", "rerate"];

/// The doubles 0 and −0, as outcomes print them.
const ZERO: &str = "0";
const MINUS_ZERO: &str = "9223372036854775808";

/// The marks of printed rates: of a −0 that stayed, and of how the latest lies to the exact one, where the line is known.
pub fn told(parts: &[&str], line: Option<&str>) -> Vec<&'static str> {
    let mut marks = Vec::new();
    if let [_, lowest, latest, highest] = *parts {
        if latest == ZERO && [lowest, highest].contains(&MINUS_ZERO) {
            marks.push("minus0");
        }
        marks.extend(line.and_then(|line| rounding(latest, line)));
    }
    marks
}

/// How a printed rate was rounded, or nothing where it is 0.
fn rounding(latest: &str, line: &str) -> Option<&'static str> {
    let (dividend, ticks) = quotient(line)?;
    let (digits, halvings) = spelled(latest.parse().ok()?)?;
    let exact = dividend.checked_mul(2u128.checked_pow(halvings)?)?;
    let mark = match (digits * ticks).cmp(&exact) {
        Ordering::Less => "down",
        Ordering::Equal => "exact",
        Ordering::Greater => "up",
    };
    Some(mark)
}

/// Dividend and divisor of the exact rate that a line asks for with its last three numbers.
fn quotient(line: &str) -> Option<(u128, u128)> {
    let mut numbers = line.rsplit(' ').map(|field| field.parse::<u64>().ok());
    let mut number = || numbers.next().flatten().map(u128::from);
    let (earlier, later, bytes) = (number()?, number()?, number()?);
    let turn = if later > earlier { 0 } else { CLOCK_TURN };
    let ticks = (later + u128::from(turn)).checked_sub(earlier)?;
    Some((bytes * u128::from(TICKS_A_SECOND), ticks))
}

/// A double as a number of 53 binary digits and how often that is halved, if it is one that a rate above 0 can be.
pub fn spelled(double: u64) -> Option<(u128, u32)> {
    let whole = 2u64.pow(52);
    let exponent = u32::try_from(double / whole).ok()?;
    let halvings = 1_075u32.checked_sub(exponent)?;
    (exponent > 0).then(|| (u128::from(whole + double % whole), halvings))
}
