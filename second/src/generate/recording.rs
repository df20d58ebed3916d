//! A recording as a script: filters on each of its first PIDs, then its packets.

use std::io::{self, Write};

use super::script::Script;
use crate::numbers_of_the_house::{AREAS, PACKET_BYTES};
use crate::state::Choice;
use crate::the_packet::read_packet;

/// What the filters on a PID choose: all, and tables that recordings have.
const CHOICES: [Choice; 4] = [Choice::All, Choice::One(0), Choice::One(2), Choice::One(78)];

pub fn run(recording: &[u8], output: &mut dyn Write) -> io::Result<()> {
    let mut script = Script::default();
    script.set_up("fresh");
    for pid in first_pids(recording) {
        for choice in CHOICES {
            script.open(pid, choice);
        }
    }
    for packet in recording.chunks(PACKET_BYTES) {
        script.packet(packet);
        output.write_all(&script.text)?;
        script.text.clear();
    }
    script.set_up("digest");
    output.write_all(&script.text)?;
    output.flush()
}

/// The first PIDs that filters can be on, as many as there are areas.
fn first_pids(recording: &[u8]) -> Vec<u16> {
    let mut pids = Vec::new();
    for packet in recording.chunks(PACKET_BYTES) {
        if let Ok(reading) = read_packet(packet) {
            let new = reading.pid != 0x1FFF && !pids.contains(&reading.pid);
            if new && pids.len() < AREAS {
                pids.push(reading.pid);
            }
        }
    }
    pids
}
