//! Writes the loads for timing: `loads FOLDER ELF..` makes real, random, waiting and short (plan, image, slots), and largest (plan, image).
//!
//! The ELF files are the programs of the first load, a partition each; loads/make compiles them. `loads --verify FOLDER ELF..` makes only verify, which
//! runs the ELF files until they are done.

use std::collections::BTreeSet;
use std::fs;
use std::io;
use std::path::Path;
use std::process::ExitCode;

use reference::checker::ample;
use reference::image;
use reference::memory::FRAME_WORDS;
use reference::paging::{R, W, X};
use reference::plan::{Channel, Partition, Plan, Slot};
use tools::asm::*;
use tools::case::Case;
use tools::program::{structured, Page, Surroundings};
use tools::rng::Rng;
use tools::world::World;

const CODE: u32 = 16;
const FRAMES: usize = 64;

fn main() -> ExitCode {
    let arguments: Vec<String> = std::env::args().skip(1).collect();
    let made = match &arguments[..] {
        [flag, folder, elves @ ..] if flag == "--verify" => make_verify(Path::new(folder), elves),
        [folder, elves @ ..] => make(Path::new(folder), elves),
        _ => Err(io::Error::other("usage: loads [--verify] FOLDER ELF..")),
    };
    match made {
        Ok(()) => ExitCode::SUCCESS,
        Err(error) => {
            eprintln!("{error}");
            ExitCode::FAILURE
        }
    }
}

fn make_verify(folder: &Path, elves: &[String]) -> io::Result<()> {
    write(folder, "verify", &case(read_all(elves)?, 1_000_000, 20 * elves.len() as u32))
}

fn read_all(elves: &[String]) -> io::Result<Vec<Program>> {
    elves.iter().map(|path| read_elf(path)).collect()
}

fn make(folder: &Path, elves: &[String]) -> io::Result<()> {
    write(folder, "real", &case(read_all(elves)?, 100_000, 2_000))?;
    write(folder, "random", &case((0..4).map(|seed| random_program(seed, 600)).collect(), 100_000, 4_000))?;
    write(folder, "waiting", &case(waiting_programs(), 100_000, 1_500))?;
    write(folder, "short", &case((0..8).map(|seed| random_program(seed, 60)).collect(), 128, 3_000_000))?;
    write(folder, "largest", &largest())
}

fn write(folder: &Path, name: &str, case: &Case) -> io::Result<()> {
    fs::write(folder.join(format!("{name}.plan")), case.plan.to_bytes())?;
    fs::write(folder.join(format!("{name}.image")), image::to_bytes(&case.memory))?;
    fs::write(folder.join(format!("{name}.slots")), case.slots.to_le_bytes())
}

/// A part of a program: consecutive pages with their words.
struct Segment {
    page: u32,
    permissions: u32,
    pages: usize,
    words: Vec<u32>,
}

struct Program {
    start: u32,
    segments: Vec<Segment>,
}

/// A case with a partition for each program, which take turns.
fn case(programs: Vec<Program>, length: u32, slots: u32) -> Case {
    let rng = &mut Rng::new(8);
    let mut world = World::new(FRAMES, &BTreeSet::new(), rng);
    let mut partitions = Vec::new();
    for program in &programs {
        let root = world.take().expect("frames suffice");
        for segment in &program.segments {
            place(&mut world, root, segment, rng);
        }
        partitions.push(Partition { root, start: program.start });
    }
    let turns = (0..partitions.len()).map(|partition| Slot { partition, length }).collect();
    let mut plan = Plan { budget: 0, partitions, slots: turns, channels: Vec::new() };
    plan.budget = ample(&plan);
    Case { plan, memory: world.into_memory(), slots }
}

fn place(world: &mut World, root: usize, segment: &Segment, rng: &mut Rng) {
    let mut chunks = segment.words.chunks(FRAME_WORDS);
    for k in 0..segment.pages {
        let frame = world.take().expect("frames suffice");
        if let Some(words) = chunks.next() {
            world.frame_mut(frame)[..words.len()].copy_from_slice(words);
        }
        world.map(root, segment.page + k as u32, frame, segment.permissions, rng).expect("frames suffice");
    }
}

/// The loaded segments of a 32-bit ELF file.
fn read_elf(path: &str) -> io::Result<Program> {
    let bytes = fs::read(path)?;
    let half = |at: usize| usize::from(bytes[at]) | usize::from(bytes[at + 1]) << 8;
    let word = |at: usize| half(at) | half(at + 2) << 16;
    let headers = (0..half(44)).map(|k| word(28) + k * half(42)).filter(|&at| word(at) == 1 && word(at + 20) > 0);
    let segments = headers.map(|at| {
        let (offset, address, in_file, in_memory, flags) = (word(at + 4), word(at + 8), word(at + 16), word(at + 20), word(at + 24));
        let (first, end) = (address >> 12, (address + in_memory).div_ceil(4096));
        let mut content = vec![0; address % 4096];
        content.extend(&bytes[offset..offset + in_file]);
        content.resize(content.len().next_multiple_of(4), 0);
        let words = content.chunks_exact(4).map(|w| u32::from_le_bytes([w[0], w[1], w[2], w[3]])).collect();
        let permissions = [(4, R), (2, W), (1, X)].iter().filter(|(bit, _)| flags & bit != 0).map(|(_, p)| p).sum();
        Segment { page: first as u32, permissions, pages: end - first, words }
    });
    Ok(Program { start: word(24) as u32, segments: segments.collect() })
}

/// A random program that never stops, over four pages of data.
fn random_program(seed: u64, most_words: usize) -> Program {
    let rng = &mut Rng::new(seed);
    let data = CODE + 1;
    let pages: Vec<Page> = (data..data + 4).map(|number| Page { number, readable: true, writable: true, executable: false }).collect();
    let around = Surroundings { pages: &pages, unmapped: 0, most_words };
    let words = structured(&around, false, rng);
    let values = (0..4 * FRAME_WORDS).map(|_| rng.word()).collect();
    with_data(words, values, 4)
}

fn with_data(words: Vec<u32>, values: Vec<u32>, pages: usize) -> Program {
    let code = Segment { page: CODE, permissions: R | X, pages: words.len().div_ceil(FRAME_WORDS), words };
    let data = Segment { page: CODE + 1, permissions: R | W, pages, words: values };
    Program { start: CODE << 12, segments: vec![code, data] }
}

/// A jump to itself, a loop that polls a word, and one that waits for the clock and then counts.
fn waiting_programs() -> Vec<Program> {
    let itself = vec![jal(0, 0)];
    let poll = vec![lui(2, CODE + 1), lw(5, 0, 2), beq(5, 0, -4), jal(0, -8)];
    let clock = vec![
        lui(2, CODE + 1),
        read_counter(5, CYCLE),
        addi(6, 5, 2000),
        read_counter(5, CYCLE),
        branch(6, 5, 6, -4),
        lw(7, 0, 2),
        addi(7, 7, 1),
        sw(7, 0, 2),
        jal(0, -28),
    ];
    [itself, poll, clock].into_iter().map(|words| with_data(words, Vec::new(), 1)).collect()
}

/// A plan of the largest size: every root and every table is full, and all counts are the highest.
fn largest() -> Case {
    let rng = &mut Rng::new(9);
    let reserved: BTreeSet<usize> = (0..256).collect();
    let mut world = World::new(256, &reserved, rng);
    const OWN: usize = 32;
    const TABLES: usize = 15;
    for p in 0..8 {
        let (root, tables) = (p * OWN, p * OWN + 1);
        for k in 0..FRAME_WORDS {
            world.set(root, k, ((tables + k % TABLES) as u32) << 10 | 1);
            for t in 0..TABLES {
                let named = tables + TABLES + k % (OWN - 1 - TABLES);
                world.set(tables + t, k, (named as u32) << 10 | 0xd3);
            }
        }
    }
    let partitions = (0..8).map(|p| Partition { root: p * OWN, start: CODE << 12 }).collect();
    let slots = (0..64).map(|k| Slot { partition: k % 8, length: 1_000_000 }).collect();
    let channel = |k: usize| {
        let round = (k / 8) as u32;
        Channel { from: k % 8, to: (k + 1) % 8, source: round, target: 2 + round }
    };
    let mut plan = Plan { budget: 0, partitions, slots, channels: (0..16).map(channel).collect() };
    plan.budget = ample(&plan);
    Case { plan, memory: world.into_memory(), slots: 64 }
}
