//! The record of rates: request 8's examples, any doubles in any order, and calls one after the other.

use super::rates::{first, pairs, record, MOST, ONE, TURN};
use crate::generate::random::Random;
use crate::rates::{rate, INFINITY, SIGN};
use crate::refusal_numbers::Refusal;

const MINUS_ZERO: u64 = SIGN;
const MINUS_INFINITY: u64 = SIGN + INFINITY;

/// The first and the last NaN of each kind, without a sign.
const NANS: [u64; 4] = [
    0x7FF0_0000_0000_0001,
    0x7FF7_FFFF_FFFF_FFFF,
    0x7FF8_0000_0000_0000,
    0x7FFF_FFFF_FFFF_FFFF,
];

#[test]
fn the_records_of_request_8() {
    let zeros = record([MINUS_ZERO, 0, ONE]);
    assert_eq!(rate(Some(zeros), 0, 1, 0), Ok(zeros));
    let all = Some(record([MINUS_INFINITY, 0, INFINITY]));
    let packet = [MINUS_INFINITY, 0x41F2_E8D9_D000_0000, INFINITY];
    assert_eq!(rate(all, 188, 1, 0), Ok(record(packet)));
    let none = Some(record([0, NANS[2], INFINITY]));
    assert_eq!(rate(none, 188, 1, 0), Err(Refusal(82)));
    assert_eq!(rate(none, MOST + 1, TURN, TURN), Err(Refusal(82)));
    assert_eq!(rate(None, MOST + 1, TURN, TURN), Err(Refusal(40)));
    assert_eq!(rate(None, MOST + 1, 5, 5), Err(Refusal(80)));
    assert_eq!(rate(None, 5, 5, 5), Err(Refusal(81)));
}

/// Doubles as they rise, each with its step; the two zeros stand on one.
const RISING: [(usize, u64); 12] = [
    (0, MINUS_INFINITY),
    (1, 0xFFEF_FFFF_FFFF_FFFF),
    (2, 0xBFF0_0000_0000_0000),
    (3, 0x8010_0000_0000_0000),
    (4, 0x8000_0000_0000_0001),
    (5, MINUS_ZERO),
    (5, 0),
    (6, 0x0000_0000_0000_0001),
    (7, 0x000F_FFFF_FFFF_FFFF),
    (8, ONE),
    (9, 0x3FF0_0000_0000_0001),
    (10, INFINITY),
];

/// Bytes and ticks of the rates 0 and 1, with their places among these.
const TOLD: [(u64, u64, usize); 2] = [(0, 1, 6), (1, 27_000_000, 9)];

#[test]
fn records_of_all_kinds_in_all_orders() {
    for lowest in RISING {
        for latest in RISING {
            for highest in RISING {
                let known = record([lowest.1, latest.1, highest.1]);
                let ordered = lowest.0 <= latest.0 && latest.0 <= highest.0;
                for (bytes, ticks, place) in TOLD {
                    let new = RISING[place];
                    let less = if new.0 < lowest.0 { new } else { lowest };
                    let more = if new.0 > highest.0 { new } else { highest };
                    let expected = match ordered {
                        true => Ok(record([less.1, new.1, more.1])),
                        false => Err(Refusal(82)),
                    };
                    assert_eq!(rate(Some(known), bytes, ticks, 0), expected);
                }
            }
        }
    }
}

#[test]
fn a_nan_is_in_no_order() {
    for nan in NANS.into_iter().chain(NANS.map(|nan| nan + SIGN)) {
        for place in 0..3 {
            for mut doubles in [[0; 3], [MINUS_INFINITY, 0, INFINITY], [nan; 3]] {
                doubles[place] = nan;
                let refused = rate(Some(record(doubles)), 188, 1, 0);
                assert_eq!(refused, Err(Refusal(82)), "{:x?}", doubles);
            }
        }
    }
}

#[test]
fn an_equal_lowest_or_highest_keeps_its_bits() {
    let zero = |doubles: [u64; 3]| rate(Some(record(doubles)), 0, 1, 0);
    let [minus, below] = [MINUS_ZERO, MINUS_ZERO + ONE];
    let examples = [
        ([minus; 3], [minus, 0, minus]),
        ([minus, 0, 0], [minus, 0, 0]),
        ([0, minus, ONE], [0, 0, ONE]),
        ([0, 0, minus], [0, 0, minus]),
        ([below, minus, minus], [below, 0, minus]),
        ([below, below, minus], [below, 0, minus]),
        ([minus, ONE, ONE], [minus, 0, ONE]),
        ([ONE, ONE, ONE], [0, 0, ONE]),
        ([below; 3], [below, 0, 0]),
    ];
    for (given, told) in examples {
        assert_eq!(zero(given), Ok(record(told)), "{:x?}", given);
    }
}

#[test]
fn the_record_from_call_to_call() {
    let random = &mut Random::new(888);
    let pairs = pairs();
    for _ in 0..5_000 {
        let mut known = None;
        let mut rates = Vec::new();
        let mut earlier = random.next() % TURN;
        let few: Vec<_> = (0..4).map(|_| random.pick(&pairs)).collect();
        for _ in 0..random.between(1, 12) {
            let (bytes, ticks) = random.pick(&few);
            let later = (earlier + ticks) % TURN;
            known = Some(rate(known, bytes, later, earlier).unwrap());
            earlier = later;
            rates.push(first(bytes, ticks));
        }
        // The doubles that have no sign stand in the order of their numbers.
        let lowest = *rates.iter().min().unwrap();
        let highest = *rates.iter().max().unwrap();
        let latest = rates[rates.len() - 1];
        assert_eq!(known, Some(record([lowest, latest, highest])));
    }
}
