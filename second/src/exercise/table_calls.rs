//! The lines about sections of tables.

use super::line::Call;
use super::outcome::{digest, digest_of_numbers, refused, told};
use crate::refusal_numbers::Refusal;
use crate::tables::{
    cyclic_right, descriptor_at, inner_descriptor, list_programs, list_streams, outer_descriptor,
    program_entry, read_program_table, read_stream_table, stream_entry, Common, Descriptor,
};

/// How many places a line's lists have, and what each holds before the call.
const LIST: usize = 256;
const MARK: u64 = 43_690;
const BYTE_MARK: u8 = 170;

/// The outcome behind the word, or nothing where the word is none of these.
pub fn answer(call: &Call) -> Option<String> {
    let section = &call.bytes;
    let index = |which: usize| call.numbers[which] as usize;
    let outcome = match call.word {
        "crc" if cyclic_right(section) => String::from("right"),
        "crc" => String::from("wrong"),
        "pat" => told(read_program_table(section), |table| {
            format!("{} {}", common(&table.common), table.entries.len())
        }),
        "patitem" => told(program_entry(section, index(0)), |(program, pid)| {
            format!("{} {}", program, pid)
        }),
        "programs" => programs(section, index(0), index(1)),
        "pmt" => told(read_stream_table(section), |table| {
            let (descriptors, streams) = (table.outer.descriptors.len(), table.streams.len());
            let common = common(&table.common);
            format!("{} {} {} {}", common, table.clock_pid, descriptors, streams)
        }),
        "pmtitem" => told(stream_entry(section, index(0)), |stream| {
            let descriptors = stream.inner.descriptors.len();
            format!("{} {} {}", stream.kind, stream.pid, descriptors)
        }),
        "streams" => streams(section, [index(0), index(1), index(2), index(3)]),
        "outer" => descriptor(section, outer_descriptor(section, index(0))),
        "inner" => descriptor(section, inner_descriptor(section, index(0), index(1))),
        "loop" => told(descriptor_at(section, call.numbers[0]), |descriptor| {
            format!(
                "{} {} {}",
                descriptor.tag, descriptor.start, descriptor.size
            )
        }),
        _ => return None,
    };
    Some(outcome)
}

/// Both lists are told whole, whatever was lent of them.
fn programs(section: &[u8], first: usize, second: usize) -> String {
    let mut lists = [vec![MARK; LIST], vec![MARK; LIST]];
    let outcome = match list_programs(section, first, second) {
        Ok(table) => {
            for (place, (program, pid)) in table.entries.iter().enumerate() {
                lists[0][place] = *program;
                lists[1][place] = *pid;
            }
            format!("{} {}", common(&table.common), table.entries.len())
        }
        Err(refusal) => refused(refusal),
    };
    let digests = lists.map(|list| digest_of_numbers(&list));
    format!("{} lists {} {}", outcome, digests[0], digests[1])
}

/// The four lists are told whole, whatever was lent of them; the first has bytes, the others numbers.
fn streams(section: &[u8], lent: [usize; 4]) -> String {
    let mut types = vec![BYTE_MARK; LIST];
    let mut lists = [vec![MARK; LIST], vec![MARK; LIST], vec![MARK; LIST]];
    let outcome = match list_streams(section, lent) {
        Ok(table) => {
            for (place, stream) in table.streams.iter().enumerate() {
                types[place] = stream.kind as u8;
                lists[0][place] = stream.pid;
                lists[1][place] = stream.inner.start as u64;
                lists[2][place] = stream.inner.size as u64;
            }
            let (start, size) = (table.outer.start, table.outer.size);
            let (common, count) = (common(&table.common), table.streams.len());
            format!(
                "{} {} {} {} {}",
                common, table.clock_pid, start, size, count
            )
        }
        Err(refusal) => refused(refusal),
    };
    let digests = lists.map(|list| digest_of_numbers(&list).to_string());
    format!("{} lists {} {}", outcome, digest(&types), digests.join(" "))
}

fn common(common: &Common) -> String {
    format!(
        "{} {} {} {} {}",
        common.id, common.version, common.current, common.number, common.last
    )
}

fn descriptor(section: &[u8], found: Result<Descriptor, Refusal>) -> String {
    told(found, |descriptor| {
        let (start, size) = (descriptor.start, descriptor.size);
        let digest = digest(&section[start..start + size]);
        format!("{} {} {} {}", descriptor.tag, start, size, digest)
    })
}
