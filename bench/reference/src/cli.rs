//! What the two programs share: arguments, files and exit status.

use std::fs::File;
use std::io::{self, Read};
use std::process::ExitCode;

use crate::checker::{self, Accepted};
use crate::image;
use crate::memory::Memory;
use crate::plan;
use crate::refusal::Refusal;

/// Why a program ends without a result.
pub enum Failure {
    Refused(Refusal),
    Message(String),
    Output(io::Error),
}

impl From<Refusal> for Failure {
    fn from(refusal: Refusal) -> Self {
        Failure::Refused(refusal)
    }
}

impl From<io::Error> for Failure {
    fn from(error: io::Error) -> Self {
        Failure::Output(error)
    }
}

/// Reads a file, at most as many bytes as can matter.
pub fn read(path: &str, most: usize) -> Result<Vec<u8>, Failure> {
    let mut bytes = Vec::new();
    File::open(path)
        .and_then(|file| file.take(most as u64).read_to_end(&mut bytes))
        .map_err(|error| Failure::Message(format!("{path}: {error}")))?;
    Ok(bytes)
}

/// Reads and checks a plan and an image.
pub fn admit(plan: &str, image: &str) -> Result<(Accepted, Memory), Failure> {
    let plan = read(plan, plan::MOST_BYTES + 1)?;
    let image = read(image, image::MOST_BYTES)?;
    let memory = image::lent(&image);
    let accepted = checker::check(&plan, &memory)?;
    image::check(&image)?;
    Ok((accepted, memory))
}

/// The number of slots, from a file of four bytes or in decimal.
pub fn slots(arguments: &[&str]) -> Option<Result<u32, Failure>> {
    match *arguments {
        ["--slots", number] => Some(decimal(number)),
        [path] if path != "--slots" => Some(four_bytes(path)),
        _ => None,
    }
}

fn decimal(text: &str) -> Result<u32, Failure> {
    let digits = text.bytes().all(|byte| byte.is_ascii_digit());
    let number = text.parse().ok().filter(|_| digits);
    number.ok_or_else(|| Failure::Message(format!("{text}: not a number of slots")))
}

fn four_bytes(path: &str) -> Result<u32, Failure> {
    let bytes = read(path, 5)?;
    let bytes = bytes.try_into().map_err(|_| Failure::Message(format!("{path}: not four bytes")))?;
    Ok(u32::from_le_bytes(bytes))
}

pub fn finish(result: Result<(), Failure>) -> ExitCode {
    match result {
        Ok(()) => return ExitCode::SUCCESS,
        Err(Failure::Refused(refusal)) => println!("{refusal}"),
        Err(Failure::Message(message)) => eprintln!("{message}"),
        Err(Failure::Output(error)) if error.kind() == io::ErrorKind::BrokenPipe => {}
        Err(Failure::Output(error)) => eprintln!("standard output: {error}"),
    }
    ExitCode::FAILURE
}
