//! `leaky LEAK PLAN IMAGE SLOTS`, or `.. --slots N`: the reference's `run` with a leak built in, to test comparisons of output.

use std::process::ExitCode;

use reference::cli::{admit, finish, slots, Failure};
use reference::machine::Machine;
use tools::leaky::{by_name, run_slot, LEAKS};

fn main() -> ExitCode {
    let arguments: Vec<String> = std::env::args().skip(1).collect();
    let arguments: Vec<&str> = arguments.iter().map(String::as_str).collect();
    finish(match arguments[..] {
        [leak, plan, image, ref rest @ ..] => run(leak, plan, image, rest),
        _ => Err(usage()),
    })
}

fn usage() -> Failure {
    let names: Vec<&str> = LEAKS.iter().map(|(name, _)| *name).collect();
    Failure::Message(format!("usage: leaky {} PLAN IMAGE SLOTS", names.join("|")))
}

fn run(leak: &str, plan: &str, image: &str, rest: &[&str]) -> Result<(), Failure> {
    let leak = by_name(leak).ok_or_else(usage)?;
    let slots = slots(rest).ok_or_else(usage)??;
    let (accepted, memory) = admit(plan, image)?;
    let mut machine = Machine::new(accepted, memory);
    for _ in 0..slots {
        println!("{}", run_slot(&mut machine, Some(leak)));
    }
    Ok(())
}
