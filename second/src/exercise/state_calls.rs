//! The lines about a driver: its state, its buffers, open, close and the packet call.

use super::buffers::{changed, changed_sets, write, Buffers};
use super::line::Call;
use super::outcome::{digest, told};
use super::records::{records, set_area, set_place};
use crate::filters_and_areas::{close, open};
use crate::from_payload_to_sections::{packet_call, Answer};
use crate::state::{Choice, State};

/// The outcome behind the word, or nothing where the word is none of these.
pub fn answer(state: &mut State, buffers: &mut Buffers, call: &Call) -> Option<String> {
    let numbers = &call.numbers;
    let nothing = Some(String::new());
    match call.word {
        "fresh" => {
            *state = State::fresh();
            Some(records(state))
        }
        "area" => {
            set_area(state, numbers);
            nothing
        }
        "place" => {
            set_place(state, numbers);
            nothing
        }
        "next" => {
            state.next = numbers[0] as u32;
            nothing
        }
        "store" => write(&mut buffers.store, numbers[0], &call.bytes),
        "output" => write(&mut buffers.output, numbers[0], &call.bytes),
        "list" => {
            buffers.list[numbers[0] as usize] = numbers[1] as u32;
            nothing
        }
        "digest" => Some(format!(
            "{} {}",
            digest(&buffers.store),
            digest(&buffers.output)
        )),
        "open" => Some(open_outcome(state, numbers)),
        "close" => Some(close_outcome(state, numbers[0] as u16)),
        "packet" => Some(packet_outcome(state, buffers, call)),
        _ => None,
    }
}

/// The second number is a table_id where it is a byte, and all where it is not.
fn open_outcome(state: &mut State, numbers: &[u64]) -> String {
    let choice = u8::try_from(numbers[1]).map_or(Choice::All, Choice::One);
    let result = open(state, numbers[0] as u16, choice);
    let given = told(result, |(number, place)| {
        format!("given {} {}", number, place)
    });
    format!("{} {}", given, records(state))
}

fn close_outcome(state: &mut State, number: u16) -> String {
    let result = close(state, number);
    let closed = told(result, |()| String::from("closed"));
    format!("{} {}", closed, records(state))
}

fn packet_outcome(state: &mut State, buffers: &mut Buffers, call: &Call) -> String {
    let (store, output) = (buffers.store.clone(), buffers.output.clone());
    let list = buffers.list.clone();
    let result = packet_call(
        state,
        &mut buffers.store[..call.numbers[0] as usize],
        &mut buffers.output[..call.numbers[1] as usize],
        &mut buffers.list[..call.numbers[2] as usize],
        &call.bytes,
    );
    format!(
        "{} store {} output {} sets {} {}",
        told(result, packet_answer),
        changed(&store, &buffers.store),
        changed(&output, &buffers.output),
        changed_sets(&list, &buffers.list),
        records(state)
    )
}

fn packet_answer(answer: Answer) -> String {
    match answer {
        Answer::Unwanted => String::from("unwanted"),
        Answer::Wanted(wanted) => format!(
            "wanted {} {} {} {} {} {}",
            wanted.sections,
            wanted.bytes,
            u8::from(wanted.jump),
            u8::from(wanted.repeat),
            wanted.given_up,
            wanted.begun
        ),
    }
}
