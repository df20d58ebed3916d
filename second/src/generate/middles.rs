//! Bytes and ticks whose exact rate lies just beside the middle between two neighbouring doubles.

use std::iter;

use super::random::Random;
use crate::numbers_of_the_house::{MOST_RATED_BYTES, TICKS_A_SECOND};

/// Pairs above it by less than 2^-41 of the doubles' spacing.
pub const CLOSEST_ABOVE: [(u64, u64); 12] = [
    (137_035, 1_905_423_497_479),
    (236_571, 1_876_210_800_257),
    (303_231, 2_016_448_549_117),
    (668_722, 1_803_035_659_681),
    (1_669_440, 2_530_697_455_597),
    (3_433_247, 1_822_965_265_507),
    (6_241_317, 2_391_160_005_719),
    (12_898_700, 1_882_079_133_053),
    (18_933_389, 1_921_946_675_803),
    (72_856_796, 2_345_733_465_929),
    (83_818_479, 1_830_983_411_873),
    (159_951_297, 1_778_177_598_751),
];

/// Pairs as close below it.
pub const CLOSEST_BELOW: [(u64, u64); 12] = [
    (112_876, 1_910_683_396_913),
    (223_523, 1_977_177_222_011),
    (584_882, 2_286_495_135_121),
    (875_613, 1_692_173_067_497),
    (1_315_048, 1_684_312_636_133),
    (3_871_867, 2_353_778_052_361),
    (6_415_650, 1_716_721_891_169),
    (21_217_522, 2_369_966_709_901),
    (22_771_508, 2_042_639_733_581),
    (92_066_818, 2_568_664_829_509),
    (136_998_585, 2_537_053_990_993),
    (159_818_049, 1_860_770_322_139),
];

/// A made pair, as close as its ticks let it be, or one of the closest.
pub fn middle(random: &mut Random) -> (u64, u64) {
    let side = random.pick(&[CLOSEST_ABOVE, CLOSEST_BELOW]);
    let closest = random.pick(&side);
    made(random).unwrap_or(closest)
}

/// A pair whose division, behind the digits of a double, leaves half of the ticks and half a tick more or less.
fn made(random: &mut Random) -> Option<(u64, u64)> {
    let ticks = odd_ticks(random);
    let most = 1 + random.next() % MOST_RATED_BYTES;
    let needed = doublings(most, ticks);
    let left = ticks / 2 + random.below(2) as u64;
    // 27,000,000 is the product of six twos, three threes and six fives.
    let twos = iter::repeat(2).take(needed + 6);
    let mut factors = twos.chain([3; 3]).chain([5; 6]);
    let least = factors.try_fold(left, |number, factor| divided(number, factor, ticks))?;
    let bytes = most - most.checked_sub(least)? % ticks;
    (doublings(bytes, ticks) == needed).then_some((bytes, ticks))
}

/// Ticks without a factor of 27,000,000.
fn odd_ticks(random: &mut Random) -> u64 {
    let thirties = random.next() % (1 << random.below(27));
    30 * thirties + random.pick(&[7, 11, 13, 17, 19, 23, 29, 31])
}

/// How often the rate has to be doubled until it has the 53 digits of a double before its point.
fn doublings(bytes: u64, ticks: u64) -> usize {
    let dividend = u128::from(bytes * TICKS_A_SECOND);
    let least = u128::from(ticks) << 52;
    let few = |doublings: &usize| dividend << doublings < least;
    (0..).take_while(few).count()
}

/// The number below the ticks whose product with the factor leaves the number, divided by the ticks.
fn divided(number: u64, factor: u64, ticks: u64) -> Option<u64> {
    let mut products = (0..factor).map(|turns| number + turns * ticks);
    let product = products.find(|product| product % factor == 0)?;
    Some(product / factor)
}
