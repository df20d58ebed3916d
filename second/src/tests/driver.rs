//! A driver whose packet calls tests look at.

use crate::filters_and_areas::open;
use crate::from_payload_to_sections::{packet_call, Answer, Wanted};
use crate::refusal_numbers::Refusal;
use crate::state::{Choice, State};

/// Sections, bytes, jump, repeat and given up.
pub type Told = (usize, usize, bool, bool, u32);

/// Begun, finished, given up, held before, held after.
pub type Counted = (usize, usize, u32, u16, u16);

/// The answer where nothing is told, and that of a repeat.
pub const QUIET: Told = (0, 0, false, false, 0);
pub const REPEAT: Told = (0, 0, false, true, 0);

/// What each place of the list holds before a call.
pub const UNSET: u32 = 0x7777_7777;

pub struct Driver {
    pub state: State,
    pub store: Vec<u8>,
    pub output: Vec<u8>,
    pub list: Vec<u32>,
}

impl Driver {
    /// A fresh state with a filter on PID 0 that lets all through.
    pub fn new() -> Driver {
        Driver::with(0, &[Choice::All])
    }

    /// A fresh state with filters on one PID, one for each choice.
    pub fn with(pid: u16, choices: &[Choice]) -> Driver {
        let mut state = State::fresh();
        for (place, choice) in choices.iter().enumerate() {
            let number = place as u16 + 1;
            assert_eq!(open(&mut state, pid, *choice), Ok((number, place)));
        }
        Driver {
            state,
            store: vec![0x55; 32_768],
            output: vec![0x66; 4_278],
            list: vec![UNSET; 61],
        }
    }

    /// A call over a list in which nothing was written before.
    pub fn call(&mut self, packet: &[u8]) -> Result<Answer, Refusal> {
        self.list.fill(UNSET);
        let Driver {
            state,
            store,
            output,
            list,
        } = self;
        packet_call(state, store, output, list, packet)
    }

    /// The answer to a wanted packet whose sections the filter at place 0 alone lets through.
    pub fn wanted(&mut self, packet: &[u8]) -> Told {
        let (told, sets) = self.handed_out(packet);
        assert_eq!(sets, vec![1; told.0]);
        told
    }

    /// The answer to a wanted packet, and its sections' sets; behind them the list is as before.
    pub fn handed_out(&mut self, packet: &[u8]) -> (Told, Vec<u32>) {
        match self.call(packet) {
            Ok(Answer::Wanted(Wanted {
                sections,
                bytes,
                jump,
                repeat,
                given_up,
                ..
            })) => {
                let (sets, rest) = self.list.split_at(sections);
                assert!(rest.iter().all(|set| *set == UNSET));
                ((sections, bytes, jump, repeat, given_up), sets.to_vec())
            }
            other => panic!("{:?}", other),
        }
    }

    /// Sections begun, finished and given up by a wanted packet, and how many bytes are held before and after it.
    pub fn counted(&mut self, packet: &[u8]) -> Counted {
        let before = self.held();
        match self.call(packet) {
            Ok(Answer::Wanted(told)) => {
                let after = self.held();
                (told.begun, told.sections, told.given_up, before, after)
            }
            other => panic!("{:?}", other),
        }
    }

    pub fn held(&self) -> u16 {
        self.state.areas[0].held
    }

    pub fn repeated(&self) -> u8 {
        self.state.areas[0].repeated
    }
}
