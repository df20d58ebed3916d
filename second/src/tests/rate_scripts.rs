//! What the made script of rates asks for.

use std::cmp::Ordering;
use std::collections::BTreeMap;

use crate::coverage::rates::spelled;
use crate::coverage::Counts;
use crate::exercise;
use crate::generate;
use crate::generate::middles::{CLOSEST_ABOVE, CLOSEST_BELOW};
use crate::rates::{rank, rate, SIGN};
use crate::time::forward;

/// The lines of the gate's script, each with its outcome.
fn answered() -> Vec<(String, String)> {
    let (mut script, mut output) = (Vec::new(), Vec::new());
    generate::run("rates", 1, 60_000, &mut script).unwrap();
    exercise::run(&mut &*script, &mut output).unwrap();
    let [script, output] = [script, output].map(|text| String::from_utf8(text).unwrap());
    let outcomes = output.lines().map(String::from);
    script.lines().map(String::from).zip(outcomes).collect()
}

/// The numbers behind a line's or an outcome's word, but none of a refused one.
fn numbers(text: &str) -> Vec<u64> {
    let fields = text.split(' ').skip(1).map(str::parse);
    fields.collect::<Result<_, _>>().unwrap_or_default()
}

/// The records that lines give, each with the record that is told of it.
fn given_and_told() -> Vec<(Vec<u64>, Vec<u64>)> {
    let pairs = answered().into_iter().filter_map(|(line, outcome)| {
        let (given, told) = (numbers(&line), numbers(&outcome));
        (given.len() == 6 && told.len() == 3).then(|| (given[..3].to_vec(), told))
    });
    pairs.collect()
}

#[test]
fn every_refusal_and_every_rounding() {
    let mut counts = Counts::default();
    for (line, outcome) in answered() {
        counts.outcome(&format!("{}\t{}", outcome, line));
    }
    let first = ["rate 40", "rate 80", "rate 81"];
    let again = ["rerate 82", "rerate 40", "rerate 80", "rerate 81"];
    for name in first.iter().chain(&again) {
        assert!(counts.get(name) > 400, "{} {}", name, counts.get(name));
    }
    for name in ["exact", "up", "down", "call rate", "call rerate"] {
        assert!(counts.get(name) > 10_000, "{} {}", name, counts.get(name));
    }
}

/// On which side of a middle a rate lies, where it is beside it by less than 2^-41 of the doubles' spacing.
fn side(bytes: u64, ticks: u64) -> Option<Ordering> {
    let told = rate(None, bytes, ticks, 0).ok()?;
    let (digits, halvings) = spelled(told.latest)?;
    let ticks = u128::from(ticks);
    let doubled = (u128::from(bytes) * 27_000_000) << (halvings + 1);
    let middles = [2 * digits - 1, 2 * digits + 1].map(|middle| middle * ticks);
    let close = |middle: &u128| doubled.abs_diff(*middle) << 41 < 2 * ticks;
    let middle = middles.into_iter().find(close)?;
    Some(doubled.cmp(&middle))
}

#[test]
fn the_closest_pairs_are_beside_a_middle() {
    for (bytes, ticks) in CLOSEST_ABOVE {
        assert_eq!(side(bytes, ticks), Some(Ordering::Greater), "{}", bytes);
    }
    for (bytes, ticks) in CLOSEST_BELOW {
        assert_eq!(side(bytes, ticks), Some(Ordering::Less), "{}", bytes);
    }
}

#[test]
fn rates_just_beside_a_middle() {
    let [mut above, mut below] = [0; 2];
    for (line, _) in answered() {
        let asked: Vec<u64> = numbers(&line).into_iter().rev().take(3).collect();
        let ticks = forward(asked[1], asked[0]).unwrap_or(0);
        match side(asked[2], ticks as u64) {
            Some(Ordering::Greater) => above += 1,
            Some(Ordering::Less) => below += 1,
            _ => {}
        }
    }
    assert!(above > 300 && below > 300, "{} {}", above, below);
}

#[test]
fn rates_below_at_and_above_each_of_the_record() {
    let mut counts = [[0; 3]; 3];
    for (given, told) in given_and_told() {
        for (count, double) in counts.iter_mut().zip(given) {
            let place = match rank(told[1]).cmp(&rank(double)) {
                Ordering::Less => 0,
                Ordering::Equal => 1,
                Ordering::Greater => 2,
            };
            count[place] += 1;
        }
    }
    let least = counts.iter().flatten().min();
    assert!(least > Some(&1_000), "{:?}", counts);
}

#[test]
fn a_minus_zero_kept_at_each_end() {
    let [mut lowest, mut highest] = [0; 2];
    for (_, told) in given_and_told() {
        lowest += usize::from(told[0] == SIGN && told[1] == 0);
        highest += usize::from(told[2] == SIGN && told[1] == 0);
    }
    assert!(lowest > 20 && highest > 20, "{} {}", lowest, highest);
}

#[test]
fn records_that_go_on_from_call_to_call() {
    let lines = answered();
    let goes_on = |two: &&[(String, String)]| {
        let (told, given) = (numbers(&two[0].1), numbers(&two[1].0));
        given.len() == 6 && given[..3] == told
    };
    let many = lines.windows(2).filter(goes_on).count();
    assert!(many > 20_000, "{}", many);
}

/// How many of the three doubles are below each, if none is a NaN.
fn places(doubles: &[u64]) -> Option<Vec<usize>> {
    let ranks = doubles.iter().map(|double| rank(*double));
    let ranks: Vec<i64> = ranks.collect::<Option<_>>()?;
    let below = |rank: &i64| ranks.iter().filter(|other| *other < rank).count();
    Some(ranks.iter().map(below).collect())
}

#[test]
fn records_in_all_orders_and_with_all_kinds_of_nans() {
    let mut orders = BTreeMap::new();
    let mut nans = BTreeMap::new();
    for (line, _) in answered() {
        let given = numbers(&line);
        if given.len() < 6 {
            continue;
        }
        if let Some(places) = places(&given[..3]) {
            *orders.entry(places).or_insert(0) += 1;
        }
        for (place, double) in given[..3].iter().enumerate() {
            if rank(*double).is_none() {
                let (sign, quiet) = (double >> 63, double >> 51 & 1);
                *nans.entry((place, sign, quiet)).or_insert(0) += 1;
            }
        }
    }
    // Three values stand in six orders, and with equal ones in seven more.
    assert_eq!((orders.len(), nans.len()), (13, 12));
    assert!(orders.values().min() > Some(&50), "{:?}", orders);
    assert!(nans.values().min() > Some(&50), "{:?}", nans);
}
