//! The ticks of one PID's packets, aimed at the edges of both rules; the first is 0.

use super::super::random::Random;
use super::rows::ROW;
use crate::numbers_of_the_house::{PACKET_TICKS, ROOM_TICKS};

/// How many packets a busy time can have before it is too long, and some more or less.
const BUSY: [usize; 8] = [1_327, 1_328, 1_329, 1_329, 1_330, 1_330, 1_331, 1_332];

type Scenario = fn(&mut Random, &mut Walk);

/// Each scenario with its weight.
const SCENARIOS: [(usize, Scenario); 7] = [
    (30, aimed),
    (20, even),
    (20, bursts),
    (3, busy),
    (4, busy_times),
    (4, both),
    (2, full),
];

/// Packets one after the other, and the level that the last one left.
#[derive(Default)]
struct Walk {
    ticks: Vec<u64>,
    level: u64,
}

impl Walk {
    fn step(&mut self, gap: u64) {
        let last = self.ticks.last().copied();
        let tick = last.map_or(0, |last| last.saturating_add(gap));
        let gone = tick - last.unwrap_or(0);
        self.level = self.level.saturating_sub(gone) + PACKET_TICKS;
        self.ticks.push(tick);
    }

    fn steps(&mut self, gap: u64, many: usize) {
        (0..many).for_each(|_| self.step(gap));
    }

    /// The least gap after which a packet fits.
    fn to_brim(&self) -> u64 {
        (self.level + PACKET_TICKS).saturating_sub(ROOM_TICKS)
    }

    /// A gap at which so many packets fit and none finds the buffer empty, at times the longest.
    fn busy_gap(&self, random: &mut Random, many: usize) -> u64 {
        let room = ROOM_TICKS.saturating_sub(self.level) / many as u64;
        let least = usize::from(self.level <= PACKET_TICKS);
        let any = random.between(least, room.min(PACKET_TICKS) as usize);
        PACKET_TICKS - random.pick(&[least, any, any]) as u64
    }

    /// So many packets more that fit and do not find the buffer empty, at one gap or at several.
    fn go_on(&mut self, random: &mut Random, many: usize) {
        let mut left = many;
        while left > 0 {
            let any = random.between(1, left);
            let part = random.pick(&[left, left, any]);
            let gap = self.busy_gap(random, part);
            self.steps(gap, part);
            left -= part;
        }
    }
}

/// The ticks of a scenario, and at times a few more.
pub fn walk(random: &mut Random) -> Vec<u64> {
    let mut walk = Walk::default();
    let scenario = random.weighed(&SCENARIOS);
    scenario(random, &mut walk);
    if random.one_in(3) {
        aimed(random, &mut walk);
    }
    walk.ticks.truncate(ROW);
    walk.ticks
}

/// The number itself, one less or one more.
fn near(random: &mut Random, number: u64) -> u64 {
    (number + random.pick(&[0, 1, 1, 2])).saturating_sub(1)
}

/// A few packets, each after a gap that the level before it makes an edge.
fn aimed(random: &mut Random, walk: &mut Walk) {
    for _ in 0..random.between(1, 7) {
        let gap = match random.below(8) {
            0 | 1 => 0,
            2 | 3 => near(random, walk.to_brim()),
            4 | 5 => near(random, walk.level),
            6 => idle(random, walk),
            _ => random.below(PACKET_TICKS as usize) as u64,
        };
        walk.step(gap);
    }
}

/// A time after which the buffer is empty, and mostly has been for long.
fn idle(random: &mut Random, walk: &Walk) -> u64 {
    let long = random.next() >> random.between(1, 63);
    walk.level + random.pick(&[0, 1, 100_000, 27_000_000, long, long])
}

/// Packets at one spacing: the least at which so many fit, or one that the request's numbers make.
fn even(random: &mut Random, walk: &mut Walk) {
    let many = random.between(3, 13);
    let [gaps, excess] = [many as u64 - 1, many as u64 * PACKET_TICKS - ROOM_TICKS];
    let least = (excess + gaps - 1) / gaps;
    let spacing = random.pick(&[least, least, PACKET_TICKS, PACKET_TICKS / 2, 5_616, 2_808]);
    walk.steps(near(random, spacing), random.between(many - 1, many + 1));
}

/// One to three packets at one tick, again and again.
fn bursts(random: &mut Random, walk: &mut Walk) {
    for _ in 0..random.between(1, 4) {
        let gap = match random.below(3) {
            0 => near(random, walk.level),
            1 => near(random, walk.to_brim()),
            _ => idle(random, walk),
        };
        walk.step(gap);
        walk.steps(0, random.pick(&[0, 1, 1, 1, 2]));
    }
}

/// One busy time that is just short enough or just too long.
fn busy(random: &mut Random, walk: &mut Walk) {
    let many = random.pick(&BUSY);
    walk.step(0);
    walk.go_on(random, many - 1);
}

/// Two busy times, or one where the second begins a tick too early.
fn busy_times(random: &mut Random, walk: &mut Walk) {
    let first = random.between(1, 700);
    let second = random.pick(&BUSY) - random.pick(&[0, first]);
    walk.step(0);
    walk.go_on(random, first - 1);
    walk.step(near(random, walk.level));
    walk.go_on(random, second - 1);
}

/// A busy time as long as can be, and packets that fill the buffer to the brim or past it.
fn both(random: &mut Random, walk: &mut Walk) {
    let many = random.pick(&[1_327, 1_328, 1_328, 1_329]);
    walk.step(0);
    walk.go_on(random, many - 1);
    for _ in 0..3 {
        let brim = near(random, walk.to_brim());
        walk.step(random.pick(&[0, brim, brim]));
    }
}

/// As many packets as a row has room for, or one less; at times the last ones come at one tick.
fn full(random: &mut Random, walk: &mut Walk) {
    let missing = random.pick(&[0, 0, 0, 1, 2, 24, 26, 27, 28, 36]);
    let more = random.next() >> random.between(12, 63);
    let spacing = random.pick(&[PACKET_TICKS, PACKET_TICKS - missing, PACKET_TICKS + more]);
    let burst = random.pick(&[0, 1, 2, 2]);
    walk.steps(spacing, random.pick(&[ROW - 1, ROW, ROW]) - burst);
    walk.steps(0, burst);
}
