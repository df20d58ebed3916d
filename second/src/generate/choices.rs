//! Choices of filters, many of them met by the sections that generators make.

use super::random::Random;
use super::sections::table_id;
use crate::numbers_of_the_house::LAST_CHOICE;
use crate::state::Choice;

/// A choice that a filter can have.
pub fn choice(random: &mut Random) -> Choice {
    match random.below(8) {
        0..=2 => Choice::All,
        3 => Choice::One(random.pick(&[0, 1, 253, 254])),
        _ => Choice::One(table_id(random)),
    }
}

/// A choice that a caller can name, at times the one that open refuses.
pub fn named_choice(random: &mut Random) -> Choice {
    if random.one_in(12) {
        Choice::One(255)
    } else {
        choice(random)
    }
}

/// A number that is no choice of a filter: the table_id 255, or no table_id at all.
pub fn no_choice(random: &mut Random) -> u16 {
    let past = LAST_CHOICE + 1;
    let any = random.between(usize::from(past), 65_535) as u16;
    random.pick(&[past, past, 257, 65_535, any])
}
