//! Writes scripts for the exercise, each determined by its kind, seed and count.

mod alone;
mod bad;
mod buffer;
mod choices;
mod driver;
mod extensions;
pub mod middles;
mod numbers;
pub mod packets;
mod payloads;
mod pes;
pub mod random;
mod rates;
pub mod recording;
mod script;
mod sections;
mod tables;
mod time;

use std::io::{self, Write};

use random::Random;
use script::Script;

type Generator = fn(&mut Random, &mut Script);

/// Each kind of script with what makes it.
pub const KINDS: [(&str, Generator); 9] = [
    ("driver", driver::generate),
    ("numbers", numbers::generate),
    ("alone", alone::generate),
    ("tables", tables::generate),
    ("pes", pes::generate),
    ("time", time::generate),
    ("rates", rates::generate),
    ("buffer", buffer::generate),
    ("bad", bad::generate),
];

/// Writes a script with at least so many calls of the kind.
pub fn run(kind: &str, seed: u64, count: usize, output: &mut dyn Write) -> io::Result<()> {
    let unknown = || io::Error::new(io::ErrorKind::InvalidInput, "no such kind of script");
    let found = KINDS.iter().find(|(known, _)| *known == kind);
    let (_, generate) = found.ok_or_else(unknown)?;
    let mut random = Random::new(seed);
    let mut script = Script::default();
    while script.calls < count {
        generate(&mut random, &mut script);
        output.write_all(&script.text)?;
        script.text.clear();
    }
    if kind == "bad" {
        output.write_all(b"next 1 without a line end")?;
    }
    output.flush()
}
