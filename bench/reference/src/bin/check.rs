//! Checks a plan and an image.

use std::process::ExitCode;

use reference::cli::{admit, finish, Failure};

const USAGE: &str = "usage: check PLAN IMAGE";

fn main() -> ExitCode {
    let arguments: Vec<String> = std::env::args().skip(1).collect();
    let arguments: Vec<&str> = arguments.iter().map(String::as_str).collect();
    finish(match arguments[..] {
        ["--help"] => {
            println!("{USAGE}");
            Ok(())
        }
        [plan, image] => admit(plan, image).map(|_| println!("accepted")),
        _ => Err(Failure::Message(USAGE.to_string())),
    })
}
