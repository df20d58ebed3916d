//! Document 01, "PES headers", with request 12 of document 02.

use crate::bytes::number_in;
use crate::refusal_numbers::{demand, Refusal};
use crate::time::{read_stamp, STAMP_BYTES};

const BARE_IDS: [u64; 7] = [0xBC, 0xBE, 0xBF, 0xF0, 0xF1, 0xF8, 0xFF];

const DSMCC_ID: u64 = 0xF2;

#[derive(Clone, Copy, Debug, PartialEq, Eq)]
pub enum Stamps {
    Neither,
    Presentation(u64),
    Both(u64, u64),
}

/// The flags from ESCR to extension in the order of the header.
#[derive(Clone, Copy, Debug, PartialEq, Eq)]
pub struct Full {
    pub header_length: u64,
    pub flagged: [bool; 6],
    pub stamps: Stamps,
}

#[derive(Clone, Copy, Debug, PartialEq, Eq)]
pub struct Header {
    pub id: u64,
    pub packet_length: u64,
    pub full: Option<Full>,
}

pub fn read_header(bytes: &[u8]) -> Result<Header, Refusal> {
    demand(bytes.len() >= 6, 30)?;
    demand(number_in(bytes, 0, 3) == 1, 31)?;
    let id = number_in(bytes, 3, 1);
    demand(id >= 0xBC, 32)?;
    demand(id != DSMCC_ID, 38)?;
    let packet_length = number_in(bytes, 4, 2);
    demand(packet_length != 0 || (0xE0..=0xEF).contains(&id), 37)?;
    let full = if BARE_IDS.contains(&id) {
        None
    } else {
        Some(read_full(bytes, packet_length)?)
    };
    Ok(Header {
        id,
        packet_length,
        full,
    })
}

fn read_full(bytes: &[u8], packet_length: u64) -> Result<Full, Refusal> {
    demand(bytes.len() >= 9, 30)?;
    demand(bytes[6] / 64 == 2, 33)?;
    let stamp_flags = bytes[7] / 64;
    demand(stamp_flags != 1, 34)?;
    let mut flagged = [false; 6];
    for (flag, weight) in flagged.iter_mut().zip([32, 16, 8, 4, 2, 1]) {
        *flag = bytes[7] / weight % 2 == 1;
    }
    let header_length = u64::from(bytes[8]);
    let fields = field_bytes(stamp_flags, &flagged);
    let length_fits = packet_length == 0 || packet_length >= 3 + header_length;
    demand(fields <= header_length && length_fits, 35)?;
    demand(bytes.len() as u64 >= 9 + header_length, 30)?;
    Ok(Full {
        header_length,
        flagged,
        stamps: read_stamps(stamp_flags, &bytes[9..])?,
    })
}

fn field_bytes(stamp_flags: u8, flagged: &[bool; 6]) -> u64 {
    let sizes = [6, 3, 1, 1, 2, 1];
    let others = flagged.iter().zip(sizes);
    let stamps = match stamp_flags {
        2 => 5,
        3 => 10,
        _ => 0,
    };
    others.fold(stamps, |sum, (flag, size)| sum + u64::from(*flag) * size)
}

fn read_stamps(stamp_flags: u8, fields: &[u8]) -> Result<Stamps, Refusal> {
    match stamp_flags {
        2 => Ok(Stamps::Presentation(read_stamp(2, fields)?)),
        3 => {
            let presentation = read_stamp(3, fields)?;
            let decoding = read_stamp(1, &fields[STAMP_BYTES..])?;
            Ok(Stamps::Both(presentation, decoding))
        }
        _ => Ok(Stamps::Neither),
    }
}
