//! Runs a plan for a number of slots and prints a line for each.

use std::io::{self, BufWriter, Write};
use std::process::ExitCode;

use reference::cli::{admit, finish, slots, Failure};
use reference::machine::Machine;

const USAGE: &str = "usage: run PLAN IMAGE SLOTS, or run PLAN IMAGE --slots N";

fn main() -> ExitCode {
    let arguments: Vec<String> = std::env::args().skip(1).collect();
    let arguments: Vec<&str> = arguments.iter().map(String::as_str).collect();
    finish(match arguments[..] {
        ["--help"] => {
            println!("{USAGE}");
            Ok(())
        }
        [plan, image, ref rest @ ..] => run(plan, image, rest),
        _ => Err(usage()),
    })
}

fn usage() -> Failure {
    Failure::Message(USAGE.to_string())
}

fn run(plan: &str, image: &str, rest: &[&str]) -> Result<(), Failure> {
    let slots = slots(rest).ok_or_else(usage)??;
    let (accepted, memory) = admit(plan, image)?;
    let mut machine = Machine::new(accepted, memory);
    let mut out = BufWriter::new(io::stdout().lock());
    for _ in 0..slots {
        writeln!(out, "{}", machine.run_slot())?;
    }
    Ok(out.flush()?)
}
