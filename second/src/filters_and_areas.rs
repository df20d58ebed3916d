//! Document 01, "Filters and areas", with request 2 of document 02: open and close.

use crate::numbers_of_the_house::{LAST_CHOICE, LAST_FILTER_PID, LAST_NUMBER};
use crate::refusal_numbers::{demand, Refusal};
use crate::soundness::sound;
use crate::state::{Area, Choice, Place, State};

/// Opens a filter and answers its number and place.
pub fn open(state: &mut State, pid: u16, choice: Choice) -> Result<(u16, usize), Refusal> {
    demand(sound(state), 1)?;
    demand(pid <= LAST_FILTER_PID, 12)?;
    demand(choice.number() <= LAST_CHOICE, 17)?;
    demand(state.next <= LAST_NUMBER, 13)?;
    let free_place = state.places.iter().position(|place| !place.open());
    let place = free_place.ok_or(Refusal(14))?;
    let free_area = || state.areas.iter().position(|area| !area.used());
    let area = state.area_of(pid).or_else(free_area).ok_or(Refusal(15))?;
    let number = state.next as u16;
    state.areas[area].pid = pid;
    state.areas[area].users += 1;
    state.places[place] = Place {
        number,
        area: area as u8,
        choice: choice.number(),
    };
    state.next += 1;
    Ok((number, place))
}

/// Closes a filter, and frees its area when it was the last one there.
pub fn close(state: &mut State, number: u16) -> Result<(), Refusal> {
    demand(sound(state), 1)?;
    let mut places = state.places.iter();
    let found = places.position(|place| place.open() && place.number == number);
    let place = found.ok_or(Refusal(16))?;
    let area = usize::from(state.places[place].area);
    state.places[place] = Place::default();
    state.areas[area].users -= 1;
    if state.areas[area].users == 0 {
        state.areas[area] = Area::default();
    }
    Ok(())
}
