//! The lines that read or write lent bytes and need nothing that is kept.

use super::line::Call;
use super::outcome::{digest, hexadecimal, optional, refused, told};
use super::rate_calls;
use crate::pes_headers::{read_header, Full, Header, Stamps};
use crate::refusal_numbers::Refusal;
use crate::the_packet::{make_pid, read_packet, Part, Reading, Window};
use crate::time::{
    apart, forward, read_any_stamp, read_clock, read_stamp, write_clock, write_stamp, AnyStamp,
};

/// The outcome behind the word, or nothing where the word is none of these.
pub fn answer(call: &Call) -> Option<String> {
    let numbers = &call.numbers;
    let bytes = &call.bytes;
    let outcome = match call.word {
        "pid" => told(make_pid(numbers[0]), |pid| pid.to_string()),
        "alone" => alone(bytes),
        "pes" => told(read_header(bytes), header),
        "stamp" => told(read_stamp(numbers[0], bytes), |value| value.to_string()),
        "anystamp" => told(read_any_stamp(bytes), |any| any_stamp(any, " ")),
        "clock" => told(read_clock(bytes), |value| value.to_string()),
        "setstamp" => written(bytes, |lent| write_stamp(numbers[0], numbers[1], lent)),
        "setclock" => written(bytes, |lent| write_clock(numbers[0], lent)),
        "apart" => told(apart(numbers[0], numbers[1]), |value| value.to_string()),
        "forward" => told(forward(numbers[0], numbers[1]), |value| value.to_string()),
        "rate" => rate_calls::first(numbers),
        "rerate" => rate_calls::again(numbers),
        _ => return None,
    };
    Some(outcome)
}

fn alone(packet: &[u8]) -> String {
    let (outcome, payload) = match read_packet(packet) {
        Ok(reading) => (packet_fields(&reading), &packet[reading.payload.start..]),
        Err(refusal) => (refused(refusal), &packet[packet.len()..]),
    };
    format!("{} payload {} {}", outcome, payload.len(), digest(payload))
}

fn packet_fields(reading: &Reading) -> String {
    let length = reading.adaptation.as_ref().map(|field| field.length);
    let field = reading.adaptation.clone().unwrap_or_default();
    let parts = [
        u8::from(reading.unit_start).to_string(),
        u8::from(reading.priority).to_string(),
        reading.pid.to_string(),
        reading.scrambling.to_string(),
        reading.control.to_string(),
        reading.counter.to_string(),
        optional(length),
        u8::from(field.discontinuity).to_string(),
        u8::from(field.random_access).to_string(),
        u8::from(field.elementary_priority).to_string(),
        optional(field.clock),
        optional(field.original_clock),
        optional(field.countdown),
        optional(field.private_data.map(part)),
        optional(field.extension.map(part)),
        optional(field.window.map(window)),
        optional(field.rate),
        optional(field.splice.map(|splice| any_stamp(splice, ":"))),
    ];
    parts.join(" ")
}

fn part(part: Part) -> String {
    format!("{}:{}", part.start, part.size)
}

fn window(window: Window) -> String {
    format!("{}:{}", u8::from(window.valid), window.offset)
}

fn any_stamp(any: AnyStamp, between: &str) -> String {
    format!("{}{}{}", any.kind, between, any.stamp)
}

fn header(header: Header) -> String {
    match header.full {
        None => format!("bare {} {}", header.id, header.packet_length),
        Some(full) => full_header(&header, &full),
    }
}

fn full_header(header: &Header, full: &Full) -> String {
    let flags: Vec<String> = full
        .flagged
        .iter()
        .map(|flag| u8::from(*flag).to_string())
        .collect();
    let stamps = match full.stamps {
        Stamps::Neither => String::from("-"),
        Stamps::Presentation(presentation) => presentation.to_string(),
        Stamps::Both(presentation, decoding) => format!("{} {}", presentation, decoding),
    };
    format!(
        "full {} {} {} {} stamps {}",
        header.id,
        header.packet_length,
        full.header_length,
        flags.join(" "),
        stamps
    )
}

fn written(bytes: &[u8], write: impl Fn(&mut [u8]) -> Result<(), Refusal>) -> String {
    let mut lent = bytes.to_vec();
    let result = write(&mut lent);
    let word = told(result, |()| String::from("written"));
    format!("{} ={}", word, hexadecimal(&lent))
}
