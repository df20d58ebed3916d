//! How differences add up: request 13's lines, over all triples of the edges and over made ones.

use crate::generate;
use crate::generate::random::Random;
use crate::numbers_of_the_house::{CLOCK_TURN, STAMP_TURN};
use crate::time::{apart, forward};

const HALF: i128 = 4_294_967_296;
const MADE: usize = 100_000;

/// All triples of a turn's edges, then made ones, near the edges or anywhere.
fn triples(turn: u64) -> Vec<[u64; 3]> {
    let half = turn / 2;
    let edges = [0, 1, half - 1, half, half + 1, turn - 1];
    let mut triples = Vec::new();
    for a in edges {
        for b in edges {
            triples.extend(edges.map(|c| [a, b, c]));
        }
    }
    let random = &mut Random::new(13);
    for _ in 0..MADE {
        triples.push([(); 3].map(|()| match random.below(3) {
            0 => (random.pick(&edges) + random.below(4) as u64) % turn,
            _ => random.next() % turn,
        }));
    }
    triples
}

/// The way forward from one stamp to another, without a remainder.
fn way(to: u64, from: u64) -> i128 {
    let ahead = i128::from(to) - i128::from(from);
    if ahead < 0 {
        ahead + 2 * HALF
    } else {
        ahead
    }
}

fn is_difference(number: &i128) -> bool {
    (-HALF..HALF).contains(number)
}

#[test]
fn ways_of_references_add_up() {
    let turn = i128::from(CLOCK_TURN);
    let mut past = 0;
    for [a, b, c] in triples(CLOCK_TURN) {
        let x = forward(b, a).unwrap();
        assert_eq!((i128::from(a) + x) % turn, i128::from(b));
        let sum = x + forward(c, b).unwrap();
        assert_eq!(forward(c, a), Ok(sum % turn), "{} {} {}", a, b, c);
        past += usize::from(sum >= turn);
        assert_eq!(forward(a, a), Ok(0));
    }
    assert!(past > MADE / 4 && past < MADE, "{}", past);
}

#[test]
fn any_number_of_ways_is_reduced_once() {
    let turn = i128::from(CLOCK_TURN);
    let values: Vec<u64> = triples(CLOCK_TURN).concat();
    let mut sum = 0;
    for step in values.windows(2) {
        sum += forward(step[1], step[0]).unwrap();
        assert_eq!(forward(step[1], values[0]), Ok(sum % turn));
    }
    assert!(sum > 100_000 * turn, "{}", sum);
}

#[test]
fn a_difference_of_stamps_is_the_way_or_that_less_a_turn() {
    for [a, b, c] in triples(STAMP_TURN) {
        let x = way(b, a);
        let told = if x < HALF { x } else { x - 2 * HALF };
        assert_eq!(apart(b, a), Ok(told), "{} {}", b, a);
        assert_eq!(way(c, a), (x + way(c, b)) % (2 * HALF));
        assert_eq!(way(a, a), 0);
    }
}

#[test]
fn differences_of_stamps_add_up() {
    let mut brought = [0; 3];
    for [a, b, c] in triples(STAMP_TURN) {
        let sum = apart(b, a).unwrap() + apart(c, b).unwrap();
        let three = [sum, sum - 2 * HALF, sum + 2 * HALF];
        let place = three.iter().position(is_difference).unwrap();
        assert_eq!(three.into_iter().filter(is_difference).count(), 1);
        assert_eq!(apart(c, a), Ok(three[place]), "{} {} {}", a, b, c);
        assert_eq!(apart(a, a), Ok(0));
        brought[place] += 1;
    }
    let often = brought.iter().all(|count| *count > MADE / 16);
    assert!(often, "{:?}", brought);
}

#[test]
fn exchanged_stamps_change_the_sign_but_half_a_turn_apart() {
    let mut stayed = 0;
    for [a, b, _] in triples(STAMP_TURN) {
        let told = apart(a, b).unwrap();
        let exchanged = if told == -HALF { told } else { -told };
        assert_eq!(apart(b, a), Ok(exchanged), "{} {}", a, b);
        stayed += usize::from(told == -HALF);
    }
    assert!(stayed > 100, "{}", stayed);
}

/// The triples that a made script asks a word for, each from a to b, from b to c, in one, and from b to a.
fn asked(word: &str) -> Vec<[u64; 3]> {
    let mut script = Vec::new();
    generate::run("time", 1, 130_000, &mut script).unwrap();
    let script = String::from_utf8(script).unwrap();
    let numbers = |line: &str| -> Option<(u64, u64)> {
        let (to, from) = line.strip_prefix(word)?.trim_start().split_once(' ')?;
        Some((to.parse().unwrap(), from.parse().unwrap()))
    };
    let lines: Vec<(u64, u64)> = script.lines().filter_map(numbers).collect();
    let triple = |four: &[(u64, u64)]| {
        let ((b, a), (c, _)) = (four[0], four[1]);
        assert_eq!(four, [(b, a), (c, b), (c, a), (a, b)]);
        [a, b, c]
    };
    lines.chunks(4).map(triple).collect()
}

#[test]
fn made_scripts_ask_for_ways_past_a_turn() {
    let [mut past, mut within, mut refused] = [0; 3];
    for [a, b, c] in asked("forward") {
        match (forward(b, a), forward(c, b)) {
            (Ok(x), Ok(y)) if x + y >= i128::from(CLOCK_TURN) => past += 1,
            (Ok(_), Ok(_)) => within += 1,
            _ => refused += 1,
        }
    }
    let least = past.min(within).min(refused);
    assert!(least > 1_000, "{} {} {}", past, within, refused);
}

#[test]
fn made_scripts_ask_for_differences_to_bring_back() {
    let [mut above, mut below, mut within, mut half] = [0; 4];
    for [a, b, c] in asked("apart") {
        if let (Ok(x), Ok(y)) = (apart(b, a), apart(c, b)) {
            above += usize::from(x + y >= HALF);
            below += usize::from(x + y < -HALF);
            within += usize::from(is_difference(&(x + y)));
            half += usize::from(x == -HALF);
        }
    }
    let least = above.min(below).min(within).min(half);
    assert!(least > 100, "{} {} {} {}", above, below, within, half);
}
