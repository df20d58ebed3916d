//! Document 01, "Filters and areas", with requests 2 and 3 of document 02: the records that a state is made of.

use crate::numbers_of_the_house::{AREAS, PLACES};

#[derive(Clone, Copy, Debug, Default, PartialEq, Eq)]
pub struct Area {
    pub pid: u16,
    pub users: u8,
    pub held: u16,
    pub seen: u8,
    pub counter: u8,
    pub repeated: u8,
}

impl Area {
    pub fn used(&self) -> bool {
        self.users != 0
    }

    /// Whether the record says that a counter was seen.
    pub fn has_seen(&self) -> bool {
        self.seen != 0
    }

    /// Whether the record says that the last original's repeat was seen.
    pub fn has_repeated(&self) -> bool {
        self.repeated != 0
    }
}

/// What a filter lets through: every table, or the one with this table_id, which may be one that open refuses.
#[derive(Clone, Copy, Debug, PartialEq, Eq)]
pub enum Choice {
    All,
    One(u8),
}

impl Choice {
    /// The number that stands for the choice in a filter's record.
    pub fn number(self) -> u16 {
        match self {
            Choice::All => 0,
            Choice::One(table) => 1 + u16::from(table),
        }
    }
}

#[derive(Clone, Copy, Debug, Default, PartialEq, Eq)]
pub struct Place {
    pub number: u16,
    pub area: u8,
    pub choice: u16,
}

impl Place {
    pub fn open(&self) -> bool {
        self.number != 0
    }

    /// Whether the record's choice is all or this table.
    pub fn lets(&self, table: u8) -> bool {
        self.choice == Choice::All.number() || self.choice == Choice::One(table).number()
    }
}

#[derive(Clone, Debug, PartialEq, Eq)]
pub struct State {
    pub areas: [Area; AREAS],
    pub places: [Place; PLACES],
    pub next: u32,
}

impl State {
    pub fn fresh() -> State {
        State {
            areas: [Area::default(); AREAS],
            places: [Place::default(); PLACES],
            next: 1,
        }
    }

    pub fn area_of(&self, pid: u16) -> Option<usize> {
        let mut numbered = self.areas.iter().enumerate();
        numbered
            .find(|(_, area)| area.used() && area.pid == pid)
            .map(|(index, _)| index)
    }

    /// The set of filter places on an area that let the table through, place i as bit i.
    pub fn set_on(&self, area: usize, table: u8) -> u32 {
        let mut set = 0;
        for (index, place) in self.places.iter().enumerate() {
            if place.open() && usize::from(place.area) == area && place.lets(table) {
                set += 2u32.pow(index as u32);
            }
        }
        set
    }
}
