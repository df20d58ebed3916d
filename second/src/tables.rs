//! Document 01, "Tables": CRC_32, PAT and PMT sections, descriptor loops.

use crate::bytes::number_in;
use crate::numbers_of_the_house::LONGEST_SECTION_LENGTH;
use crate::refusal_numbers::{demand, Refusal};

/// The most entries that a PAT can have.
const MOST_PROGRAMS: usize = 253;

/// The most entries that a PMT can have.
const MOST_STREAMS: usize = 201;

/// The fields of bytes 3 to 7.
#[derive(Clone, Copy, Debug, PartialEq, Eq)]
pub struct Common {
    pub id: u64,
    pub version: u64,
    pub current: u64,
    pub number: u64,
    pub last: u64,
}

#[derive(Clone, Debug, PartialEq, Eq)]
pub struct ProgramTable {
    pub common: Common,
    pub entries: Vec<(u64, u64)>,
}

/// A descriptor's tag, and the part of the section behind its tag and length.
#[derive(Clone, Copy, Debug, PartialEq, Eq)]
pub struct Descriptor {
    pub tag: u8,
    pub start: usize,
    pub size: usize,
}

/// Where the bytes of a descriptor loop start and how many there are, and what stands in them.
#[derive(Clone, Debug, PartialEq, Eq)]
pub struct DescriptorLoop {
    pub start: usize,
    pub size: usize,
    pub descriptors: Vec<Descriptor>,
}

#[derive(Clone, Debug, PartialEq, Eq)]
pub struct Stream {
    pub kind: u64,
    pub pid: u64,
    pub inner: DescriptorLoop,
}

#[derive(Clone, Debug, PartialEq, Eq)]
pub struct StreamTable {
    pub common: Common,
    pub clock_pid: u64,
    pub outer: DescriptorLoop,
    pub streams: Vec<Stream>,
}

/// The register of the decoder model of Annex A after all bytes, bit by bit.
pub fn cyclic_register(bytes: &[u8]) -> u32 {
    let mut register: u32 = 0xFFFF_FFFF;
    for byte in bytes {
        for place in (0..8).rev() {
            let out = register / 0x8000_0000;
            let bit = u32::from(*byte) / 2u32.pow(place) % 2;
            register = (register % 0x8000_0000) * 2;
            if out != bit {
                register ^= 0x04C1_1DB7;
            }
        }
    }
    register
}

pub fn cyclic_right(bytes: &[u8]) -> bool {
    cyclic_register(bytes) == 0
}

fn read_common(section: &[u8], table: u8, least: usize) -> Result<Common, Refusal> {
    demand(section.len() >= 3, 20)?;
    let length = number_in(section, 1, 2) as usize % 4_096;
    let fits = section.len() == 3 + length;
    demand(fits && length <= LONGEST_SECTION_LENGTH, 20)?;
    demand(section[0] == table, 23)?;
    demand(section[1] / 64 == 2, 21)?;
    demand((least..=1_021).contains(&length), 25)?;
    demand(cyclic_right(section), 22)?;
    let common = Common {
        id: number_in(section, 3, 2),
        version: number_in(section, 5, 1) / 2 % 32,
        current: number_in(section, 5, 1) % 2,
        number: number_in(section, 6, 1),
        last: number_in(section, 7, 1),
    };
    let zeros = common.number == 0 && common.last == 0;
    demand(common.number <= common.last && (table == 0 || zeros), 24)?;
    Ok(common)
}

pub fn read_program_table(section: &[u8]) -> Result<ProgramTable, Refusal> {
    let common = read_common(section, 0, 9)?;
    let loop_bytes = &section[8..section.len() - 4];
    demand(loop_bytes.len() % 4 == 0, 26)?;
    let entry = |bytes: &[u8]| (number_in(bytes, 0, 2), number_in(bytes, 2, 2) % 8_192);
    Ok(ProgramTable {
        common,
        entries: loop_bytes.chunks(4).map(entry).collect(),
    })
}

pub fn program_entry(section: &[u8], index: usize) -> Result<(u64, u64), Refusal> {
    let table = read_program_table(section)?;
    table.entries.get(index).copied().ok_or(Refusal(27))
}

/// The whole table, where both lists have a place for each entry that a table can have.
pub fn list_programs(section: &[u8], first: usize, second: usize) -> Result<ProgramTable, Refusal> {
    demand(first.min(second) >= MOST_PROGRAMS, 3)?;
    read_program_table(section)
}

/// The descriptor that stands at a place of the bytes.
pub fn descriptor_at(bytes: &[u8], place: u64) -> Result<Descriptor, Refusal> {
    let at = usize::try_from(place).unwrap_or(usize::MAX);
    let rest = bytes.get(at..).unwrap_or(&[]);
    match rest {
        [] => Err(Refusal(27)),
        [tag, size, own @ ..] if own.len() >= usize::from(*size) => Ok(Descriptor {
            tag: *tag,
            start: at + 2,
            size: usize::from(*size),
        }),
        _ => Err(Refusal(26)),
    }
}

pub fn read_stream_table(section: &[u8]) -> Result<StreamTable, Refusal> {
    let common = read_common(section, 2, 13)?;
    let end = section.len() - 4;
    let outer = read_loop(section, 10, end)?;
    let mut at = outer.start + outer.size;
    let mut streams = Vec::new();
    while at < end {
        demand(at + 5 <= end, 26)?;
        let inner = read_loop(section, at + 3, end)?;
        let next = inner.start + inner.size;
        streams.push(Stream {
            kind: number_in(section, at, 1),
            pid: number_in(section, at + 1, 2) % 8_192,
            inner,
        });
        at = next;
    }
    Ok(StreamTable {
        common,
        clock_pid: number_in(section, 8, 2) % 8_192,
        outer,
        streams,
    })
}

/// The descriptor loop behind the length field at the place.
fn read_loop(section: &[u8], field: usize, end: usize) -> Result<DescriptorLoop, Refusal> {
    let length = number_in(section, field, 2) as usize % 4_096;
    let start = field + 2;
    let behind = start + length;
    demand(length < 1_024 && behind <= end, 26)?;
    let mut descriptors = Vec::new();
    let mut at = start;
    while at < behind {
        demand(at + 2 <= behind, 26)?;
        let size = usize::from(section[at + 1]);
        descriptors.push(Descriptor {
            tag: section[at],
            start: at + 2,
            size,
        });
        at += 2 + size;
    }
    demand(at == behind, 26)?;
    Ok(DescriptorLoop {
        start,
        size: length,
        descriptors,
    })
}

/// The whole table, where the four lists have a place for each entry that a table can have.
pub fn list_streams(section: &[u8], lists: [usize; 4]) -> Result<StreamTable, Refusal> {
    demand(lists.iter().all(|places| *places >= MOST_STREAMS), 3)?;
    read_stream_table(section)
}

pub fn stream_entry(section: &[u8], index: usize) -> Result<Stream, Refusal> {
    let table = read_stream_table(section)?;
    table.streams.get(index).cloned().ok_or(Refusal(27))
}

pub fn outer_descriptor(section: &[u8], index: usize) -> Result<Descriptor, Refusal> {
    let table = read_stream_table(section)?;
    table
        .outer
        .descriptors
        .get(index)
        .copied()
        .ok_or(Refusal(27))
}

pub fn inner_descriptor(section: &[u8], entry: usize, index: usize) -> Result<Descriptor, Refusal> {
    let stream = stream_entry(section, entry)?;
    stream
        .inner
        .descriptors
        .get(index)
        .copied()
        .ok_or(Refusal(27))
}
