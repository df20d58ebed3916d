//! Reads a script of calls and writes the outcome of every line.

mod buffer_calls;
mod buffers;
mod line;
mod lone_calls;
mod outcome;
mod rate_calls;
mod records;
mod state_calls;
mod table_calls;

use std::io::{self, BufRead, Write};

use crate::state::State;
use buffers::Buffers;

pub use line::LINES;
pub use records::table_of;

/// What is kept from line to line.
pub struct Exercise {
    state: State,
    buffers: Buffers,
}

impl Exercise {
    pub fn new() -> Exercise {
        Exercise {
            state: State::fresh(),
            buffers: Buffers::new(),
        }
    }

    /// The outcome of one line, given without its line end.
    pub fn answer(&mut self, text: &[u8]) -> String {
        let call = match line::read(text) {
            Some(call) => call,
            None => return String::from("bad"),
        };
        let outcome = state_calls::answer(&mut self.state, &mut self.buffers, &call)
            .or_else(|| buffer_calls::answer(&mut self.buffers.row, &call))
            .or_else(|| lone_calls::answer(&call))
            .or_else(|| table_calls::answer(&call));
        match outcome {
            Some(rest) if rest.is_empty() => String::from(call.word),
            Some(rest) => format!("{} {}", call.word, rest),
            None => String::from("bad"),
        }
    }
}

pub fn run(input: &mut dyn BufRead, output: &mut dyn Write) -> io::Result<()> {
    let mut exercise = Exercise::new();
    let mut text = Vec::new();
    while input.read_until(b'\n', &mut text)? > 0 {
        if text.last() == Some(&b'\n') {
            text.pop();
        }
        writeln!(output, "{}", exercise.answer(&text))?;
        text.clear();
    }
    output.flush()
}
