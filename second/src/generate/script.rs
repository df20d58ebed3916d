//! The script under way, and how many of its lines are calls.

use crate::exercise::table_of;
use crate::numbers_of_the_house::STORE_BYTES;
use crate::state::{Area, Choice, Place, State};

/// How many places of the list a call is lent where none of its sizes is to be refused.
const LISTS: [usize; 3] = [61, 62, 128];

#[derive(Default)]
pub struct Script {
    pub text: Vec<u8>,
    pub calls: usize,
}

impl Script {
    /// A line that only sets something up.
    pub fn set_up(&mut self, line: &str) {
        self.text.extend_from_slice(line.as_bytes());
        self.text.push(b'\n');
    }

    pub fn call(&mut self, line: &str) {
        self.set_up(line);
        self.calls += 1;
    }

    pub fn call_with(&mut self, words: &str, bytes: &[u8]) {
        self.call(&format!("{} {}", words, field(bytes)));
    }

    pub fn open(&mut self, pid: u16, choice: Choice) {
        let table = table_of(choice.number());
        self.call(&format!("open {} {}", pid, table));
    }

    /// A packet call whose sizes are right, with one list after the other.
    pub fn packet(&mut self, packet: &[u8]) {
        let list = LISTS[self.calls % LISTS.len()];
        self.packet_lent([STORE_BYTES, 8_192, list], packet);
    }

    /// A packet call that is lent so much of the store, the output and the list.
    pub fn packet_lent(&mut self, lent: [usize; 3], packet: &[u8]) {
        let [store, output, list] = lent;
        self.call_with(&format!("packet {} {} {}", store, output, list), packet);
    }

    pub fn store(&mut self, at: usize, bytes: &[u8]) {
        self.set_up(&format!("store {} {}", at, field(bytes)));
    }

    /// Sets the state, record by record.
    pub fn state(&mut self, state: &State) {
        self.set_up("fresh");
        self.change(&State::fresh(), state);
    }

    /// Sets the records in which the second state differs from the first.
    pub fn change(&mut self, before: &State, after: &State) {
        for (index, area) in after.areas.iter().enumerate() {
            if *area != before.areas[index] {
                self.area(index, area);
            }
        }
        for (index, place) in after.places.iter().enumerate() {
            if *place != before.places[index] {
                self.place(index, place);
            }
        }
        if after.next != before.next {
            self.set_up(&format!("next {}", after.next));
        }
    }

    fn area(&mut self, index: usize, area: &Area) {
        let counts = format!("{} {} {}", area.pid, area.users, area.held);
        let counters = format!("{} {} {}", area.seen, area.counter, area.repeated);
        self.set_up(&format!("area {} {} {}", index, counts, counters));
    }

    fn place(&mut self, index: usize, place: &Place) {
        let filter = format!("{} {}", place.number, place.area);
        let table = table_of(place.choice);
        self.set_up(&format!("place {} {} {}", index, filter, table));
    }
}

/// Bytes as a script writes them.
pub fn field(bytes: &[u8]) -> String {
    let digits: String = bytes.iter().map(|byte| format!("{:02x}", byte)).collect();
    format!("={}", digits)
}
