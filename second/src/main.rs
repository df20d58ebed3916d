//! A second, independent program for the rules of document 01.

mod bits;
mod bytes;
mod coverage;
mod exercise;
mod filters_and_areas;
mod from_payload_to_sections;
mod generate;
mod listing;
mod numbers_of_the_house;
mod pes_headers;
mod rates;
mod refusal_numbers;
mod soundness;
mod state;
mod tables;
mod the_packet;
mod time;
mod transport_buffer;

#[cfg(test)]
mod tests;

use std::env;
use std::ffi::{OsStr, OsString};
use std::fs::{self, File};
use std::io::{self, BufReader, BufWriter, Read};
use std::process::ExitCode;

const USAGE: &str = "usage: second list [FILE]
       second exercise < SCRIPT > OUTCOMES
       second generate KIND SEED COUNT > SCRIPT
       second recording FILE > SCRIPT
       second coverage < OUTCOMES
kinds: driver numbers alone tables pes time rates buffer bad";

fn main() -> ExitCode {
    let arguments: Vec<OsString> = env::args_os().skip(1).collect();
    match command(&arguments) {
        Some(Ok(true)) => ExitCode::SUCCESS,
        Some(Ok(false)) => ExitCode::from(1),
        Some(Err(error)) => {
            eprintln!("second: {}", error);
            ExitCode::from(1)
        }
        None => {
            eprintln!("{}", USAGE);
            ExitCode::from(2)
        }
    }
}

/// Whether all is well, or nothing where the arguments are none that are known.
fn command(arguments: &[OsString]) -> Option<io::Result<bool>> {
    let words: Vec<&str> = arguments
        .iter()
        .map(|argument| argument.to_str().unwrap_or(""))
        .collect();
    match words.as_slice() {
        ["list"] => Some(list(&mut io::stdin().lock())),
        ["list", _] => Some(File::open(&arguments[1]).and_then(|mut file| list(&mut file))),
        ["exercise"] => Some(run_exercise()),
        ["generate", kind, seed, count] => {
            let (seed, count) = (seed.parse().ok()?, count.parse().ok()?);
            Some(run_generate(kind, seed, count))
        }
        ["recording", _] => Some(run_recording(&arguments[1])),
        ["coverage"] => {
            let mut output = io::stdout().lock();
            let mut lacks = io::stderr().lock();
            let input = &mut io::stdin().lock();
            Some(coverage::run(input, &mut output, &mut lacks))
        }
        _ => None,
    }
}

fn list(input: &mut dyn Read) -> io::Result<bool> {
    let mut output = BufWriter::new(io::stdout().lock());
    listing::run(&mut BufReader::new(input), &mut output).map(|()| true)
}

fn run_exercise() -> io::Result<bool> {
    let mut output = BufWriter::new(io::stdout().lock());
    exercise::run(&mut io::stdin().lock(), &mut output).map(|()| true)
}

fn run_generate(kind: &str, seed: u64, count: usize) -> io::Result<bool> {
    let mut output = BufWriter::new(io::stdout().lock());
    generate::run(kind, seed, count, &mut output).map(|()| true)
}

fn run_recording(file: &OsStr) -> io::Result<bool> {
    let bytes = fs::read(file)?;
    let mut output = BufWriter::new(io::stdout().lock());
    generate::recording::run(&bytes, &mut output).map(|()| true)
}
