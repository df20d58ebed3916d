//! Document 01, "The packet", with request 6 of document 02.

mod extension;

use crate::bytes::number_in;
use crate::numbers_of_the_house::{LAST_PID, PACKET_BYTES};
use crate::refusal_numbers::{demand, Refusal};
use crate::time::{clock_field, AnyStamp, StampField, CLOCK_BYTES};
use extension::{read_extension, Extension};

pub use extension::Window;

/// A part of the packet by its first byte's place and its size.
#[derive(Clone, Copy, Debug, PartialEq, Eq)]
pub struct Part {
    pub start: usize,
    pub size: usize,
}

#[derive(Clone, Debug, Default, PartialEq, Eq)]
pub struct Adaptation {
    pub length: usize,
    pub discontinuity: bool,
    pub random_access: bool,
    pub elementary_priority: bool,
    pub clock: Option<u64>,
    pub original_clock: Option<u64>,
    pub countdown: Option<i8>,
    pub private_data: Option<Part>,
    pub extension: Option<Part>,
    pub window: Option<Window>,
    pub rate: Option<u64>,
    pub splice: Option<AnyStamp>,
}

#[derive(Clone, Debug, PartialEq, Eq)]
pub struct Reading {
    pub unit_start: bool,
    pub priority: bool,
    pub pid: u16,
    pub scrambling: u8,
    pub control: u8,
    pub counter: u8,
    pub adaptation: Option<Adaptation>,
    pub payload: Part,
}

/// The number of a PID, refused when it has more than 13 bits.
pub fn make_pid(number: u64) -> Result<u64, Refusal> {
    demand(number <= u64::from(LAST_PID), 12)?;
    Ok(number)
}

pub fn read_packet(packet: &[u8]) -> Result<Reading, Refusal> {
    demand(packet.len() == PACKET_BYTES, 2)?;
    let header = number_in(packet, 0, 4);
    demand(header / 16_777_216 == 0x47, 4)?;
    demand(header / 8_388_608 % 2 == 0, 5)?;
    let control = (header / 16 % 4) as u8;
    demand(control != 0, 6)?;
    let adaptation = match control {
        1 => None,
        _ => Some(read_adaptation(packet, control)?),
    };
    let before = 4 + adaptation.as_ref().map_or(0, |field| 1 + field.length);
    Ok(Reading {
        unit_start: header / 4_194_304 % 2 == 1,
        priority: header / 2_097_152 % 2 == 1,
        pid: (header / 256 % 8_192) as u16,
        scrambling: (header / 64 % 4) as u8,
        control,
        counter: (header % 16) as u8,
        adaptation,
        payload: Part {
            start: before,
            size: PACKET_BYTES - before,
        },
    })
}

fn read_adaptation(packet: &[u8], control: u8) -> Result<Adaptation, Refusal> {
    let length = number_in(packet, 4, 1) as usize;
    let right_length = if control == 2 {
        length == 183
    } else {
        length <= 182
    };
    demand(right_length, 7)?;
    if length == 0 {
        return Ok(Adaptation::default());
    }
    read_flagged(packet, length)
}

/// The field from its flags byte on.
fn read_flagged(packet: &[u8], length: usize) -> Result<Adaptation, Refusal> {
    let flags = number_in(packet, 5, 1);
    let flagged = |bit: u32| flags / 2u64.pow(bit) % 2 == 1;
    let parts = flagged_parts(packet, flags);
    demand(parts[5] <= 5 + length, 7)?;
    let inner = |bit: u32, start: usize| {
        flagged(bit).then(|| Part {
            start: start + 1,
            size: number_in(packet, start, 1) as usize,
        })
    };
    let extension = inner(0, parts[4]);
    let inside = match extension {
        Some(part) => read_extension(&packet[part.start..part.start + part.size])?,
        None => Extension::default(),
    };
    let clock = read_flagged_clock(packet, flagged(4), parts[0])?;
    let original_clock = read_flagged_clock(packet, flagged(3), parts[1])?;
    let splice = inside.splice.map(StampField::any).transpose()?;
    Ok(Adaptation {
        length,
        discontinuity: flagged(7),
        random_access: flagged(6),
        elementary_priority: flagged(5),
        clock,
        original_clock,
        countdown: flagged(2).then(|| number_in(packet, parts[2], 1) as u8 as i8),
        private_data: inner(1, parts[3]),
        extension,
        window: inside.window,
        rate: inside.rate,
        splice,
    })
}

/// The places where the five optional parts start, and the place behind the last of them.
fn flagged_parts(packet: &[u8], flags: u64) -> [usize; 6] {
    let mut places = [6; 6];
    for part in 0..5 {
        let start = places[part];
        let size = match part {
            0 | 1 => CLOCK_BYTES,
            2 => 1,
            _ => 1 + number_in(packet, start, 1) as usize,
        };
        let flagged = flags / 2u64.pow(4 - part as u32) % 2 == 1;
        places[part + 1] = if flagged { start + size } else { start };
    }
    places
}

fn read_flagged_clock(packet: &[u8], flagged: bool, start: usize) -> Result<Option<u64>, Refusal> {
    if !flagged {
        return Ok(None);
    }
    let (base, extension) = clock_field(number_in(packet, start, CLOCK_BYTES));
    demand(extension <= 299, 8)?;
    Ok(Some(base * 300 + extension))
}
