//! Pairs of machines that differ outside of a closed set of partitions: whatever the set's members can see has to be equal.
//!
//! `pairs [--count N] [--seed S] [--leak NAME] [--run PROGRAM [ARGUMENT]..]` steps the reference through both machines of each pair and compares
//! contexts, tables, clock and words of the set. With `--run` it also runs PROGRAM ARGUMENT.. PLAN IMAGE --slots N on both and compares the lines of the
//! set's slots. It ends with status 1 if any pair differs. `--leak` makes the reference leak, which has to be found; `pairs --self-test` shows that each
//! leak is found and that the reference without one has no difference.

use std::fs;
use std::path::{Path, PathBuf};
use std::process::{Command, ExitCode};

use reference::image;
use tools::leaky::{by_name, Leak, LEAKS};
use tools::pair::{lockstep, pair, Pair};
use tools::rng::Rng;

struct Options {
    count: u64,
    seed: u64,
    leak: Option<Leak>,
    program: Option<Vec<String>>,
}

/// How many pairs differed, and in what.
#[derive(Default)]
struct Tally {
    pairs: u64,
    states: u64,
    lines: u64,
    program: u64,
    steps: u64,
    compared: u64,
}

fn main() -> ExitCode {
    let arguments: Vec<String> = std::env::args().skip(1).collect();
    if arguments == ["--self-test"] {
        return self_test();
    }
    let Some(options) = options(&arguments) else {
        eprintln!("usage: pairs [--count N] [--seed S] [--leak NAME] [--run PROGRAM [ARGUMENT]..], or pairs --self-test");
        return ExitCode::FAILURE;
    };
    match run(&options, true) {
        Ok(tally) => {
            report(&tally, options.program.is_some());
            verdict(tally.states + tally.lines + tally.program == 0)
        }
        Err(message) => {
            eprintln!("{message}");
            ExitCode::FAILURE
        }
    }
}

fn options(arguments: &[String]) -> Option<Options> {
    let mut options = Options { count: 200, seed: 1, leak: None, program: None };
    let mut rest = arguments.iter();
    while let Some(name) = rest.next() {
        match name.as_str() {
            "--count" => options.count = rest.next()?.parse().ok()?,
            "--seed" => options.seed = rest.next()?.parse().ok()?,
            "--leak" => options.leak = Some(by_name(rest.next()?)?),
            "--run" => {
                options.program = Some(rest.by_ref().cloned().collect());
                options.program.as_ref()?.first()?;
            }
            _ => return None,
        }
    }
    Some(options)
}

fn verdict(good: bool) -> ExitCode {
    if good {
        ExitCode::SUCCESS
    } else {
        ExitCode::FAILURE
    }
}

fn report(tally: &Tally, program: bool) {
    println!("{} pairs, {} steps and {} lines of members compared", tally.pairs, tally.steps, tally.compared);
    println!("reference: {} pairs differ in states, {} in output lines", tally.states, tally.lines);
    if program {
        println!("program: {} pairs differ in output lines", tally.program);
    }
}

fn run(options: &Options, tell: bool) -> Result<Tally, String> {
    let folder = std::env::temp_dir().join(format!("pairs-{}", std::process::id()));
    let mut tally = Tally::default();
    for seed in options.seed..options.seed + options.count {
        let pair = pair(&mut Rng::new(seed));
        let outcome = lockstep(&pair, options.leak);
        tally.pairs += 1;
        tally.steps += outcome.steps;
        tally.compared += outcome.lines[0].len() as u64;
        tally.lines += u64::from(outcome.lines[0] != outcome.lines[1]);
        if let Some(difference) = &outcome.difference {
            tally.states += 1;
            if tell {
                println!("seed {seed}: reference differs in slot {}: {}", difference.slot, difference.what);
            }
        }
        if let Some(program) = &options.program {
            let differs = program_differs(&pair, program, &folder)?;
            tally.program += u64::from(differs.is_some());
            if let Some((one, two)) = differs.filter(|_| tell) {
                println!("seed {seed}: program differs\n  {one}\n  {two}");
            }
        }
    }
    if options.program.is_some() {
        fs::remove_dir_all(&folder).map_err(|error| format!("{}: {error}", folder.display()))?;
    }
    Ok(tally)
}

/// Runs a program on both machines; the first two lines of members' slots that differ.
fn program_differs(pair: &Pair, program: &[String], folder: &Path) -> Result<Option<(String, String)>, String> {
    fs::create_dir_all(folder).map_err(|error| format!("{}: {error}", folder.display()))?;
    let [one, two] = [lines(pair, 0, program, folder)?, lines(pair, 1, program, folder)?];
    if one == two {
        return Ok(None);
    }
    let longest = one.len().max(two.len());
    let line = |lines: &[String], k: usize| lines.get(k).cloned().unwrap_or("no line".to_string());
    let first = (0..longest).find(|&k| one.get(k) != two.get(k));
    Ok(first.map(|k| (line(&one, k), line(&two, k))))
}

/// The lines of members' slots that a program prints for one machine of a pair.
fn lines(pair: &Pair, which: usize, program: &[String], folder: &Path) -> Result<Vec<String>, String> {
    let write = |name: &str, bytes: Vec<u8>| -> Result<PathBuf, String> {
        let path = folder.join(name);
        fs::write(&path, bytes).map_err(|error| format!("{}: {error}", path.display()))?;
        Ok(path)
    };
    let plan = write("plan", pair.plan.to_bytes())?;
    let image = write("image", image::to_bytes(&pair.memories[which]))?;
    let output = Command::new(&program[0])
        .args(&program[1..])
        .arg(plan)
        .arg(image)
        .arg("--slots")
        .arg(pair.slots.to_string())
        .output()
        .map_err(|error| format!("{}: {error}", program[0]))?;
    let text = String::from_utf8_lossy(&output.stdout).into_owned();
    let all: Vec<&str> = text.lines().collect();
    if !output.status.success() || all.len() != pair.slots as usize {
        return Err(format!(
            "{}: {} and {} lines for {} slots: {}",
            program[0],
            output.status,
            all.len(),
            pair.slots,
            text.lines().next().unwrap_or("")
        ));
    }
    let member = |line: &&str| {
        let partition = line.split(' ').nth(3).and_then(|p| p.parse::<usize>().ok());
        partition.is_some_and(|p| pair.members.get(p) == Some(&true))
    };
    Ok(all.into_iter().filter(member).map(str::to_string).collect())
}

/// Every leak is found, in states and in output lines, and nothing is found without one.
fn self_test() -> ExitCode {
    let mut good = true;
    let leaks = LEAKS.iter().map(|(name, leak)| (*name, Some(*leak)));
    for (name, leak) in std::iter::once(("none", None)).chain(leaks) {
        let options = Options { count: 60, seed: 1, leak, program: None };
        let tally = match run(&options, false) {
            Ok(tally) => tally,
            Err(message) => {
                eprintln!("{message}");
                return ExitCode::FAILURE;
            }
        };
        let passed = if leak.is_some() { tally.states > 0 && tally.lines > 0 } else { tally.states + tally.lines == 0 };
        good &= passed;
        let word = if passed { "as it should be" } else { "WRONG" };
        println!("leak {name}: {} of {} pairs differ in states, {} in output lines: {word}", tally.states, tally.pairs, tally.lines);
    }
    verdict(good)
}
