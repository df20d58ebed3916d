//! Rates: request 8's examples, the order of refusals and the nearest double.

use crate::coverage::rates::spelled;
use crate::generate::middles::{CLOSEST_ABOVE, CLOSEST_BELOW};
use crate::generate::random::Random;
use crate::rates::{nearest, rate, Rates};
use crate::refusal_numbers::Refusal;

pub const TURN: u64 = 2_576_980_377_600;
pub const MOST: u64 = 333_599_972;
pub const ONE: u64 = 0x3FF0_0000_0000_0000;
const MADE: usize = 100_000;

pub fn record([lowest, latest, highest]: [u64; 3]) -> Rates {
    Rates {
        lowest,
        latest,
        highest,
    }
}

/// The rate of some bytes and ticks, as the record has it that it fills.
pub fn first(bytes: u64, ticks: u64) -> u64 {
    let rates = rate(None, bytes, ticks, 0).unwrap();
    assert_eq!(rates, record([rates.latest; 3]));
    rates.latest
}

/// Bytes and ticks of all sizes, and those closest to a middle.
pub fn pairs() -> Vec<(u64, u64)> {
    let random = &mut Random::new(8);
    let mut pairs = [CLOSEST_ABOVE, CLOSEST_BELOW].concat();
    for _ in 0..MADE {
        let bytes = random.next() % (MOST >> random.below(28)) + 1;
        let ticks = random.next() % ((TURN - 1) >> random.below(41)) + 1;
        pairs.push((bytes, ticks));
    }
    pairs
}

#[test]
fn the_rates_of_request_8() {
    let examples = [
        (188, 1, 0x41F2_E8D9_D000_0000),
        (188, 1_000_000, 0x40B3_D400_0000_0000),
        (188, 2_000_000, 0x40A3_D400_0000_0000),
        (333_599_972, 1, 0x433F_FFFF_FF5C_1B00),
        (333_599_972, 7, 0x4312_4924_91EB_7D25),
        (333_599_972, 2_576_980_377_599, 0x40AB_4E81_B45C_4BA7),
        (1, 2_576_980_377_599, 0x3EE5_F900_0000_0960),
        (3, 27_000_001, 0x4007_FFFF_F116_405E),
        (0, 1, 0x0000_0000_0000_0000),
    ];
    for (bytes, ticks, double) in examples {
        assert_eq!(first(bytes, ticks), double, "{} {}", bytes, ticks);
        for earlier in [1, TURN - ticks, TURN - 1] {
            let later = (earlier + ticks) % TURN;
            let over = rate(None, bytes, later, earlier);
            assert_eq!(over, Ok(record([double; 3])), "{} {}", later, earlier);
        }
    }
    let over = rate(None, 188, 0, 2_576_980_377_599);
    assert_eq!(over, Ok(record([0x41F2_E8D9_D000_0000; 3])));
}

/// References that are refused as chosen, in each way that there is.
fn references(out: bool, equal: bool) -> &'static [(u64, u64)] {
    match (out, equal) {
        (false, false) => &[(1, 0), (0, 1), (0, TURN - 1), (TURN - 1, 0)],
        (false, true) => &[(0, 0), (TURN - 1, TURN - 1)],
        (true, false) => &[(TURN + 1, 0), (0, TURN + 1), (u64::MAX, TURN), (TURN, 5)],
        (true, true) => &[(TURN, TURN), (TURN, 0), (0, TURN), (u64::MAX, u64::MAX)],
    }
}

#[test]
fn the_first_of_some_faults_is_refused() {
    for faults in 0..16 {
        let chosen = [0, 1, 2, 3].map(|place| faults >> place & 1 == 1);
        let mut order = [82, 40, 80, 81].into_iter().zip(chosen);
        let first = order.find(|(_, chosen)| *chosen);
        let refused = first.map(|(number, _)| Refusal(number));
        let [disorder, out, many, equal] = chosen;
        let known = record(if disorder { [1, 0, 1] } else { [0, 1, 1] });
        let bytes = if many { MOST + 1 } else { MOST };
        for (later, earlier) in references(out, equal) {
            let again = rate(Some(known), bytes, *later, *earlier);
            assert_eq!(again.err(), refused, "{:?} {} {}", known, later, earlier);
            if !disorder {
                let none = rate(None, bytes, *later, *earlier);
                assert_eq!(none.err(), refused, "{} {}", later, earlier);
            }
        }
    }
}

/// How far a double is from the exact rate, both times the ticks and doubled so often.
fn distance(double: u64, (bytes, ticks): (u64, u64), doublings: u32) -> u128 {
    let (digits, own) = spelled(double).unwrap();
    let exact = (u128::from(bytes) * 27_000_000) << doublings;
    let told = (digits * u128::from(ticks)) << (doublings - own);
    told.abs_diff(exact)
}

#[test]
fn no_other_double_is_as_near() {
    for pair in pairs() {
        let double = first(pair.0, pair.1);
        let (_, doublings) = spelled(double - 1).unwrap();
        let own = distance(double, pair, doublings);
        for neighbour in [double - 1, double + 1] {
            let other = distance(neighbour, pair, doublings);
            assert!(own < other, "{:?} {:x}", pair, double);
        }
    }
}

#[test]
fn quotients_at_the_ends_and_in_the_middle() {
    let power = |exponent: u32| 1u64 << exponent;
    let examples = [
        (1, 1, ONE),
        (1, 3, 0x3FD5_5555_5555_5555),
        (2, 3, 0x3FE5_5555_5555_5555),
        (1, power(63), 0x3C00_0000_0000_0000),
        (1, u64::MAX, 0x3BF0_0000_0000_0000),
        (u64::MAX, 1, 0x43F0_0000_0000_0000),
        (u64::MAX, u64::MAX, ONE),
        (power(53) - 1, 1, 0x433F_FFFF_FFFF_FFFF),
        (power(53) + 1, 1, 0x4340_0000_0000_0000),
        (power(53) + 2, 1, 0x4340_0000_0000_0001),
        (power(53) + 3, 1, 0x4340_0000_0000_0002),
        (power(54) - 1, 1, 0x4350_0000_0000_0000),
        (power(54) - 3, power(54), 0x3FEF_FFFF_FFFF_FFFE),
        (0, u64::MAX, 0),
    ];
    for (dividend, divisor, double) in examples {
        let told = nearest(dividend, divisor);
        assert_eq!(told, double, "{} {} {:x}", dividend, divisor, told);
    }
}

#[test]
fn more_bytes_or_fewer_ticks_are_never_lower() {
    let random = &mut Random::new(88);
    for (bytes, ticks) in pairs() {
        let rate = first(bytes, ticks);
        let more = random.next() % (MOST - bytes + 1);
        let fewer = random.next() % ticks;
        for (more, fewer) in [(more, 0), (0, fewer), (more, fewer)] {
            assert!(first(bytes + more, ticks - fewer) >= rate);
        }
        assert!(first(MOST.min(bytes + 1), ticks) >= rate);
        assert!(first(bytes, ticks.max(2) - 1) >= rate);
        assert!(first(bytes - 1, ticks) <= rate);
    }
}
