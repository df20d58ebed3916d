//! PES headers: whole ones, and one for each refusal.

use super::random::Random;
use super::script::Script;
use crate::numbers_of_the_house::STAMP_TURN;
use crate::time::write_stamp;

const BARE: [u8; 7] = [0xBC, 0xBE, 0xBF, 0xF0, 0xF1, 0xF8, 0xFF];

const DSMCC: u8 = 0xF2;

/// The fields of a header, from which its bytes are made.
struct Plan {
    id: u8,
    flags: u8,
    header_length: usize,
    packet_length: usize,
    fields: Vec<u8>,
}

pub fn generate(random: &mut Random, script: &mut Script) {
    let bytes = match random.below(12) {
        0 => {
            let size = random.below(20);
            let mut bytes = vec![0, 0, 1];
            bytes.extend(random.bytes(size));
            bytes.truncate(random.between(0, 23));
            bytes
        }
        1 | 2 => {
            let id = random.pick(&BARE);
            start(random, id)
        }
        3 => dsmcc(random),
        _ => {
            let plan = plan(random);
            let bytes = whole(random, &plan);
            damaged(random, bytes)
        }
    };
    script.call_with("pes", &bytes);
}

/// The first six bytes, some behind them or none, and at times only five.
fn start(random: &mut Random, id: u8) -> Vec<u8> {
    let mut bytes = vec![0, 0, 1, id];
    let length = random.pick(&[0, 1, 255, 256, 65_535]) as u16;
    bytes.extend(length.to_be_bytes());
    let more = random.pick(&[0, 0, 1, 3, 10]);
    bytes.extend(random.bytes(more));
    if random.one_in(6) {
        bytes.truncate(5);
    }
    bytes
}

/// The id that is refused, with nothing behind its length, with any bytes or with such as another id would have.
fn dsmcc(random: &mut Random) -> Vec<u8> {
    if random.one_in(3) {
        return start(random, DSMCC);
    }
    let mut plan = plan(random);
    plan.id = DSMCC;
    let bytes = whole(random, &plan);
    damaged(random, bytes)
}

fn stream_id(random: &mut Random) -> u8 {
    match random.below(12) {
        0 => random.pick(&[0xBD, 0xC0, 0xDF, 0xE0, 0xEF, 0xF3, 0xF7, 0xF9, 0xFE]),
        1 => random.pick(&[0xBB, 0x00, 0xBA, 0xB9, 0x3C]),
        2 => random.between(0xBC, 0xFF) as u8,
        3..=5 => random.between(0xC0, 0xDF) as u8,
        _ => random.between(0xE0, 0xEF) as u8,
    }
}

fn plan(random: &mut Random) -> Plan {
    let id = stream_id(random);
    let mut flags = random.byte();
    if flags >> 6 == 1 && !random.one_in(4) {
        flags ^= 0xC0;
    }
    let fields = fields(random, flags);
    let exact = fields.len();
    let header_length = match random.below(10) {
        0 => exact.saturating_sub(1),
        1 => exact + 1,
        2 => exact + random.below(30),
        3 => random.pick(&[0, 1, 5, 255]),
        _ => exact,
    };
    let packet_length = match random.below(16) {
        0..=2 => 0,
        3 => header_length + 2,
        4 | 5 => header_length + 3,
        6 => random.below(20),
        _ => random.between(header_length + 3, 65_535),
    };
    Plan {
        id,
        flags,
        header_length,
        packet_length,
        fields,
    }
}

/// The bytes of the flagged fields.
fn fields(random: &mut Random, flags: u8) -> Vec<u8> {
    let mut bytes = Vec::new();
    let prefixes: &[u64] = match flags >> 6 {
        2 => &[2],
        3 => &[3, 1],
        _ => &[],
    };
    for prefix in prefixes {
        let mut field = vec![0; 5];
        // The value is below the turn, so the writing is never refused.
        let _ = write_stamp(*prefix, random.next() % STAMP_TURN, &mut field);
        bytes.extend(field);
    }
    for (bit, size) in [(5, 6), (4, 3), (3, 1), (2, 1), (1, 2), (0, 1)] {
        if flags >> bit & 1 == 1 {
            bytes.extend(random.bytes(size));
        }
    }
    bytes
}

fn whole(random: &mut Random, plan: &Plan) -> Vec<u8> {
    let mut bytes = vec![0, 0, 1, plan.id];
    bytes.extend((plan.packet_length as u16).to_be_bytes());
    bytes.push(0x80 | random.byte() & 0x3F);
    bytes.push(plan.flags);
    bytes.push(plan.header_length as u8);
    bytes.extend(&plan.fields);
    bytes.resize(bytes.len().max(9 + plan.header_length), 0xFF);
    bytes
}

/// Mostly nothing, and else one fault or a bit turned.
fn damaged(random: &mut Random, mut bytes: Vec<u8>) -> Vec<u8> {
    let size = bytes.len();
    match random.below(16) {
        0 => bytes.truncate(size - 1),
        1 => bytes.truncate(random.below(size)),
        2 => bytes.truncate(random.pick(&[0, 5, 6, 8, 9])),
        3 => bytes[random.below(3)] ^= 1 << random.below(8),
        4 => bytes[6] = random.byte(),
        5 | 6 => {
            let at = random.below(size);
            bytes[at] ^= 1 << random.below(8);
        }
        7 | 8 if size > 18 => bytes[9 + random.below(10)] ^= 1 << random.below(8),
        9 if size > 13 => bytes[random.pick(&[9, 11, 13])] ^= 1,
        10 if size > 13 => bytes[9] ^= 0x10 << random.below(4),
        11 => bytes.extend([0x55, 0xAA]),
        _ => {}
    }
    bytes
}
