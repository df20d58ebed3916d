//! PAT and PMT sections: right ones, and ones aimed at each refusal.

mod building;
mod spoiling;

use super::random::Random;
use super::script::{field, Script};
use building::{program_table, stream_table, Built};
use spoiling::spoilt;

/// One line of each word, so that all have the same share.
pub fn generate(random: &mut Random, script: &mut Script) {
    let table = some_program_table(random);
    script.call_with("pat", &table.bytes);
    let table = some_program_table(random);
    let index = some_index(random, table.entries.len());
    script.call_with(&format!("patitem {}", index), &table.bytes);
    let table = some_program_table(random);
    let lists = some_lists(random, 2, 253);
    script.call_with(&format!("programs{}", lists), &table.bytes);
    let table = some_stream_table(random);
    script.call_with("pmt", &table.bytes);
    let table = some_stream_table(random);
    let index = some_index(random, table.entries.len());
    script.call_with(&format!("pmtitem {}", index), &table.bytes);
    let table = some_stream_table(random);
    let lists = some_lists(random, 4, 201);
    script.call_with(&format!("streams{}", lists), &table.bytes);
    let table = some_stream_table(random);
    let index = some_index(random, table.outer);
    script.call_with(&format!("outer {}", index), &table.bytes);
    let table = some_stream_table(random);
    let entry = some_index(random, table.entries.len());
    let inner = table.entries.get(entry).copied().unwrap_or(0);
    let index = some_index(random, inner);
    let bytes = field(&table.bytes);
    script.call(&format!("inner {} {} {}", entry, index, bytes));
    let table = some_stream_table(random);
    let (from, at) = some_loop_place(random, &table);
    script.call_with(&format!("loop {}", at), &table.bytes[from..]);
    let bytes = cyclic_bytes(random);
    script.call_with("crc", &bytes);
}

/// How many places of each list are lent, where so many serve: mostly enough, with the bound and the one below it among them.
fn some_lists(random: &mut Random, count: usize, enough: usize) -> String {
    let mut lists = String::new();
    for _ in 0..count {
        let lent = match random.below(16) {
            0 => enough - 1,
            1 => random.below(enough),
            2 | 3 => 256,
            _ => enough,
        };
        lists.push_str(&format!(" {}", lent));
    }
    lists
}

/// Where a part of the section starts, and a place in it: mostly a descriptor's, the end and places past it among them.
fn some_loop_place(random: &mut Random, table: &Built) -> (usize, usize) {
    let size = table.bytes.len();
    if table.descriptor_lengths.is_empty() || random.one_in(4) {
        return (0, random.pick(&[0, size, size + 1, size.saturating_sub(1)]));
    }
    let tag = random.pick(&table.descriptor_lengths) - 1;
    let from = random.below(tag.min(size) + 1);
    (from, tag - from)
}

/// An index that mostly exists, with the last one and the one behind it among them.
fn some_index(random: &mut Random, count: usize) -> usize {
    match random.below(8) {
        0 => count,
        1 => random.pick(&[count + 1, 65_535]),
        2 | 3 => count.saturating_sub(1),
        4 => 0,
        _ => random.below(count),
    }
}

fn some_program_table(random: &mut Random) -> Built {
    let table = match random.below(30) {
        0 => stream_table(random),
        _ => program_table(random),
    };
    spoilt(random, table)
}

fn some_stream_table(random: &mut Random) -> Built {
    let table = match random.below(30) {
        0 => program_table(random),
        _ => stream_table(random),
    };
    spoilt(random, table)
}

fn cyclic_bytes(random: &mut Random) -> Vec<u8> {
    match random.below(8) {
        0 => {
            let size = random.below(12);
            random.bytes(size)
        }
        1 => {
            let size = random.below(40);
            let mut bytes = random.bytes(size);
            bytes.extend([0; 4]);
            building::seal(&mut bytes);
            bytes
        }
        2 => some_stream_table(random).bytes,
        3 => {
            let mut bytes = program_table(random).bytes;
            let at = random.below(bytes.len());
            bytes[at] ^= 1 << random.below(8);
            bytes
        }
        _ => program_table(random).bytes,
    }
}
