//! Rates from no record, from records that rates made and from records of any doubles.

use super::middles::middle;
use super::random::Random;
use super::script::Script;
use crate::numbers_of_the_house::{CLOCK_TURN, MOST_RATED_BYTES};
use crate::rates::{rank, rate, Rates, INFINITY, SIGN};

/// Bytes, the later and the earlier reference.
type Asked = [u64; 3];

const LEAST_NORMAL: u64 = 0x0010_0000_0000_0000;
const ONE: u64 = 0x3FF0_0000_0000_0000;
const QUIET_NAN: u64 = 0x7FF8_0000_0000_0000;

/// Doubles at the edges of their kinds, without a sign.
const EDGES: [u64; 8] = [
    0,
    0,
    1,
    LEAST_NORMAL - 1,
    LEAST_NORMAL,
    ONE,
    INFINITY - 1,
    INFINITY,
];

/// The first and the last NaN of each kind, without a sign.
const NANS: [u64; 4] = [INFINITY + 1, QUIET_NAN - 1, QUIET_NAN, SIGN - 1];

/// The orders in which three values can stand.
const ORDERS: [[usize; 3]; 6] = [
    [0, 1, 2],
    [0, 2, 1],
    [1, 0, 2],
    [1, 2, 0],
    [2, 0, 1],
    [2, 1, 0],
];

/// A line of each word, then three lines in which the record goes on from call to call.
pub fn generate(random: &mut Random, script: &mut Script) {
    let first = asked(random);
    ask(script, None, first);
    let again = asked(random);
    let record = record(random, again);
    ask(script, Some(record), again);
    series(random, script);
}

fn ask(script: &mut Script, known: Option<Rates>, [bytes, later, earlier]: Asked) {
    let asked = format!("{} {} {}", bytes, later, earlier);
    match known {
        None => script.call(&format!("rate {}", asked)),
        Some(rates) => {
            let record = format!("{} {} {}", rates.lowest, rates.latest, rates.highest);
            script.call(&format!("rerate {} {}", record, asked));
        }
    }
}

/// Three calls, of which each takes the record and the reference of the one before it.
fn series(random: &mut Random, script: &mut Script) {
    let mut known = None;
    let mut earlier = random.next() % CLOCK_TURN;
    let (mut bytes, mut ticks) = pair(random);
    for _ in 0..3 {
        let later = (earlier + ticks) % CLOCK_TURN;
        ask(script, known, [bytes, later, earlier]);
        known = rate(known, bytes, later, earlier).ok();
        earlier = later;
        (bytes, ticks) = match random.below(6) {
            0 => (bytes, ticks),
            1 => (bytes / 2, ticks),
            2 => (bytes, ticks - ticks / 2),
            3 => (MOST_RATED_BYTES.min(bytes + 1), ticks),
            4 => (bytes, (CLOCK_TURN - 1).min(ticks + 1)),
            _ => pair(random),
        };
    }
}

/// Bytes and references, at times with one or more things that are refused.
fn asked(random: &mut Random) -> Asked {
    let (mut bytes, ticks) = pair(random);
    let [mut later, mut earlier] = references(random, ticks);
    if random.one_in(12) {
        let most = MOST_RATED_BYTES;
        bytes = random.pick(&[most + 1, most + 1, most + 2, 1 << 63, u64::MAX]);
    }
    if random.one_in(12) {
        earlier = later;
    }
    for reference in [&mut later, &mut earlier] {
        if random.one_in(12) {
            *reference = random.pick(&[CLOCK_TURN, CLOCK_TURN + 1, 1 << 63, u64::MAX]);
        }
    }
    [bytes, later, earlier]
}

/// A later and an earlier reference so many ticks apart, at times with the turn between them.
fn references(random: &mut Random, ticks: u64) -> [u64; 2] {
    let earlier = match random.below(4) {
        0 => random.pick(&[0, 1, CLOCK_TURN - 1]),
        1 => CLOCK_TURN - 1 - random.next() % ticks,
        _ => random.next() % CLOCK_TURN,
    };
    [(earlier + ticks) % CLOCK_TURN, earlier]
}

/// Bytes and ticks that give a rate.
fn pair(random: &mut Random) -> (u64, u64) {
    match random.below(6) {
        0 => (bytes(random), exact_ticks(random)),
        1 => middle(random),
        _ => (bytes(random), ticks(random)),
    }
}

fn bytes(random: &mut Random) -> u64 {
    let most = MOST_RATED_BYTES;
    match random.below(8) {
        0 => random.pick(&[0, 0, 0, 0, 1, 188, most - 1, most]),
        1 | 2 => 188 * random.between(1, 2_000) as u64,
        3 => 188 * (random.next() % (most / 188 + 1)),
        4 => random.next() % 1_000,
        _ => random.next() % (most + 1),
    }
}

fn ticks(random: &mut Random) -> u64 {
    match random.below(8) {
        0 => random.pick(&[1, 2, 3, 7, 300, 27_000_000, 27_000_001]),
        1 => CLOCK_TURN - random.between(1, 8) as u64,
        2 => 1 << random.below(42),
        3 | 4 => random.between(1, 2_700_000) as u64,
        _ => 1 + random.next() % (CLOCK_TURN - 1),
    }
}

/// Ticks by which 27,000,000, halved often enough, can be divided.
fn exact_ticks(random: &mut Random) -> u64 {
    let threes = 3u64.pow(random.below(4) as u32);
    let fives = 5u64.pow(random.below(7) as u32);
    (threes * fives) << random.below(23)
}

/// A record for a line: of rates, of zeros, or of any doubles in order or out of it.
fn record(random: &mut Random, own: Asked) -> Rates {
    let mut doubles = match random.below(6) {
        0 | 1 => return rates(random, own),
        2 => [(); 3].map(|()| sign(random)),
        _ => doubles(random, own),
    };
    if random.one_in(8) {
        doubles[random.below(3)] = random.pick(&NANS) | sign(random);
    }
    let [lowest, latest, highest] = doubles;
    Rates {
        lowest,
        latest,
        highest,
    }
}

/// The record that one to four rates made, at times the line's own among them.
fn rates(random: &mut Random, own: Asked) -> Rates {
    let mut known = None;
    for _ in 0..random.between(1, 4) {
        let other = asked(random);
        let [bytes, later, earlier] = random.pick(&[own, other, other]);
        known = rate(known, bytes, later, earlier).ok().or(known);
    }
    known.unwrap_or_default()
}

/// Three doubles, half of the times in order and else in any.
fn doubles(random: &mut Random, [bytes, later, earlier]: Asked) -> [u64; 3] {
    let new = rate(None, bytes, later, earlier).map_or(0, |rates| rates.latest);
    let mut doubles = [(); 3].map(|()| double(random, new));
    doubles.sort_by_key(|double| rank(*double));
    let order = random.pick(&ORDERS);
    let order = random.pick(&[ORDERS[0], order]);
    order.map(|place| doubles[place])
}

/// A double that is the line's own rate, next to it, at an edge or anywhere.
fn double(random: &mut Random, new: u64) -> u64 {
    match random.below(8) {
        0..=3 => random.pick(&[new, new, new.saturating_sub(1), new + 1, new | SIGN]),
        4..=6 => random.pick(&EDGES) | sign(random),
        _ => random.next(),
    }
}

/// The bit of a sign, which alone is a zero.
fn sign(random: &mut Random) -> u64 {
    random.pick(&[0, SIGN])
}
