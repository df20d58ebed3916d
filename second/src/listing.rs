//! The listing program of document 01: packets in, tab-parted lines out.

use std::io::{self, Read, Write};

use crate::filters_and_areas::open;
use crate::from_payload_to_sections::{packet_call, Answer, Wanted};
use crate::numbers_of_the_house::{
    LEAST_LIST_PLACES, LEAST_OUTPUT_BYTES, PACKET_BYTES, STORE_BYTES,
};
use crate::state::{Choice, State};

pub fn run(input: &mut dyn Read, output: &mut dyn Write) -> io::Result<()> {
    let mut state = State::fresh();
    // A fresh state has room for a filter on PID 0, so this is never refused.
    let _ = open(&mut state, 0, Choice::All);
    let mut store = vec![0; STORE_BYTES];
    let mut sections = vec![0; LEAST_OUTPUT_BYTES];
    let mut sets = vec![0; LEAST_LIST_PLACES];
    writeln!(output, "packet\tpid\tword\tnumber\tbytes")?;
    let mut packet = Vec::new();
    for index in 0u64.. {
        packet.clear();
        let mut piece = (&mut *input).take(PACKET_BYTES as u64);
        piece.read_to_end(&mut packet)?;
        if packet.is_empty() {
            break;
        }
        match packet_call(&mut state, &mut store, &mut sections, &mut sets, &packet) {
            Ok(Answer::Unwanted) => {}
            Ok(Answer::Wanted(wanted)) => list_wanted(output, index, &wanted, &sections)?,
            Err(refusal) => writeln!(output, "{}\t-\trefused\t{}\t-", index, refusal.0)?,
        }
    }
    output.flush()
}

/// Only PID 0 is open, so a wanted packet is one of PID 0.
fn list_wanted(
    output: &mut dyn Write,
    index: u64,
    wanted: &Wanted,
    sections: &[u8],
) -> io::Result<()> {
    if wanted.jump {
        writeln!(output, "{}\t0\tjump\t-\t-", index)?;
    }
    if wanted.repeat {
        writeln!(output, "{}\t0\trepeat\t-\t-", index)?;
    }
    if wanted.given_up > 0 {
        writeln!(output, "{}\t0\tcut\t{}\t-", index, wanted.given_up)?;
    }
    let mut rest = &sections[..wanted.bytes];
    while rest.len() >= 3 {
        let size = 3 + usize::from(rest[1] % 16) * 256 + usize::from(rest[2]);
        writeln!(output, "{}\t0\tsection\t{}\t{}", index, rest[0], size)?;
        rest = &rest[size.min(rest.len())..];
    }
    Ok(())
}
