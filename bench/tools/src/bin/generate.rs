//! Writes generated cases: `generate SEED COUNT FOLDER` makes FOLDER/NUMBER.plan, .image and .slots for each case.

use std::fs;
use std::path::Path;
use std::process::ExitCode;

use tools::broken::{broken, Files};
use tools::case::accepted;
use tools::rng::Rng;

fn main() -> ExitCode {
    let arguments: Vec<String> = std::env::args().skip(1).collect();
    let [seed, count, folder] = &arguments[..] else { return usage() };
    let (Ok(seed), Ok(count)) = (seed.parse::<u64>(), count.parse::<u64>()) else { return usage() };
    for number in seed..seed + count {
        if let Err(error) = write(&files(number), Path::new(folder), number) {
            eprintln!("{folder}: {error}");
            return ExitCode::FAILURE;
        }
    }
    ExitCode::SUCCESS
}

fn usage() -> ExitCode {
    eprintln!("usage: generate SEED COUNT FOLDER");
    ExitCode::FAILURE
}

/// The case of a number: an accepted one or a broken one.
fn files(number: u64) -> Files {
    let mut rng = Rng::new(number);
    let case = accepted(&mut rng);
    if rng.chance(50) {
        Files::of(&case)
    } else {
        broken(case, &mut rng)
    }
}

fn write(files: &Files, folder: &Path, number: u64) -> std::io::Result<()> {
    fs::write(folder.join(format!("{number}.plan")), &files.plan)?;
    fs::write(folder.join(format!("{number}.image")), &files.image)?;
    fs::write(folder.join(format!("{number}.slots")), files.slots.to_le_bytes())
}
