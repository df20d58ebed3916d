//! The pieces that outcomes are made of.

use std::fmt::Display;

use crate::refusal_numbers::Refusal;

pub fn digest(bytes: &[u8]) -> u64 {
    bytes.iter().fold(1, |digest, byte| {
        (digest * 65_599 + u64::from(*byte)) % 4_294_967_291
    })
}

/// Each number counts as its two bytes.
pub fn digest_of_numbers(numbers: &[u64]) -> u64 {
    let bytes: Vec<u8> = numbers
        .iter()
        .flat_map(|number| [(number / 256) as u8, (number % 256) as u8])
        .collect();
    digest(&bytes)
}

pub fn refused(refusal: Refusal) -> String {
    format!("refused {}", refusal.0)
}

/// The told answer, or the refusal.
pub fn told<T>(result: Result<T, Refusal>, tell: impl Fn(T) -> String) -> String {
    result.map_or_else(refused, tell)
}

pub fn optional<T: Display>(value: Option<T>) -> String {
    value.map_or_else(|| String::from("-"), |value| value.to_string())
}

pub fn hexadecimal(bytes: &[u8]) -> String {
    bytes.iter().map(|byte| format!("{:02x}", byte)).collect()
}
