//! A partition: its page tables, its frames and its program.

use std::collections::BTreeSet;

use reference::memory::FRAME_WORDS;
use reference::paging::{R, W, X};

use crate::program::{program, Page, Surroundings};
use crate::rng::Rng;
use crate::world::World;

/// What the plan says of a partition.
#[derive(Clone, Debug)]
pub struct Spec {
    pub root: usize,
    pub start: u32,
    /// pages that it sends, and pages that it receives
    pub sends: Vec<u32>,
    pub receives: Vec<u32>,
}

/// The frames that a partition has after building.
#[derive(Default)]
pub struct Built {
    pub frames: BTreeSet<usize>,
}

const CODE_PAGES: u32 = 3;

/// A page number that fits no page of the code, nor one that is already there.
pub fn fresh_page(used: &mut BTreeSet<u32>, code: u32, rng: &mut Rng) -> u32 {
    loop {
        let page = match rng.below(12) {
            0 => *rng.pick(&[0, 1, 0x3ff, 0x400, 0xfffff, 0x80000]),
            1 => rng.word() & 0x7ff,
            _ => code + rng.between(3, 40) as u32,
        };
        if page < 1 << 20 && !(code..code + CODE_PAGES).contains(&page) && used.insert(page) {
            return page;
        }
    }
}

/// Builds a partition; none if the frames do not suffice.
pub fn build(world: &mut World, spec: &Spec, rng: &mut Rng) -> Option<Built> {
    let code = spec.start >> 12;
    let mut used: BTreeSet<u32> = spec.sends.iter().chain(&spec.receives).copied().collect();
    let mut pages = Vec::new();
    for &page in &spec.sends {
        let permissions = *rng.pick(&[R | W, R | W, R | W, R, R | X, R | W | X]);
        add_page(world, spec.root, page, permissions, &mut pages, rng)?;
    }
    for &page in &spec.receives {
        let permissions = *rng.pick(&[R, R, R, R | X]);
        add_page(world, spec.root, page, permissions, &mut pages, rng)?;
    }
    for _ in 0..rng.between(0, 4) {
        let page = fresh_page(&mut used, code, rng);
        let permissions = *rng.pick(&[R | W, R | W, R | W, R | W, R, R | W | X, X, W, W | X, W | X]);
        add_page(world, spec.root, page, permissions, &mut pages, rng)?;
    }
    if !pages.is_empty() && rng.chance(40) {
        add_alias(world, spec.root, fresh_page(&mut used, code, rng), &mut pages, rng)?;
    }
    let unmapped = fresh_page(&mut used, code, rng);
    let usable: Vec<Page> = pages.iter().map(|(page, _)| *page).collect();
    write_code(world, spec, &usable, unmapped, rng)?;
    Some(Built { frames: frames_of(world, spec.root) })
}

fn add_page(world: &mut World, root: usize, number: u32, permissions: u32, pages: &mut Vec<(Page, usize)>, rng: &mut Rng) -> Option<()> {
    let frame = world.take()?;
    fill(world.frame_mut(frame), rng);
    world.map(root, number, frame, permissions, rng)?;
    pages.push((page(number, permissions), frame));
    Some(())
}

fn page(number: u32, permissions: u32) -> Page {
    let readable = permissions & R != 0;
    Page { number, readable, writable: readable && permissions & W != 0, executable: permissions & X != 0 && permissions & (R | W) != W }
}

/// A second page for a frame.
fn add_alias(world: &mut World, root: usize, number: u32, pages: &mut Vec<(Page, usize)>, rng: &mut Rng) -> Option<()> {
    let frame = rng.pick(pages).1;
    let permissions = *rng.pick(&[R, R | W, R | X]);
    world.map(root, number, frame, permissions, rng)?;
    pages.push((page(number, permissions), frame));
    Some(())
}

fn fill(frame: &mut [u32], rng: &mut Rng) {
    match rng.below(3) {
        0 => {}
        1 => frame.iter_mut().for_each(|word| *word = rng.word()),
        _ => frame.iter_mut().for_each(|word| *word = rng.word() & 0xff),
    }
}

fn write_code(world: &mut World, spec: &Spec, pages: &[Page], unmapped: u32, rng: &mut Rng) -> Option<()> {
    let first = spec.start as usize / 4 % FRAME_WORDS;
    let count = rng.between(1, CODE_PAGES as usize);
    let around = Surroundings { pages, unmapped, most_words: count * FRAME_WORDS - first };
    let words = program(&around, rng);
    let permissions = *rng.pick(&[R | X, R | X, X, R | W | X]);
    let mut words = words.iter();
    for k in 0..count {
        let frame = world.take()?;
        let from = if k == 0 { first } else { 0 };
        for (place, word) in world.frame_mut(frame)[from..].iter_mut().zip(&mut words) {
            *place = *word;
        }
        world.map(spec.root, (spec.start >> 12) + k as u32, frame, permissions, rng)?;
    }
    Some(())
}

/// Root, tables and named frames.
fn frames_of(world: &World, root: usize) -> BTreeSet<usize> {
    let valid = |frame: usize| (0..FRAME_WORDS).map(move |k| (frame, k));
    let named = |(frame, k)| Some(world.word(frame, k)).filter(|word| word & 1 != 0).map(|word| (word >> 10) as usize);
    let tables: BTreeSet<usize> = valid(root).filter_map(named).collect();
    let mut frames: BTreeSet<usize> = tables.iter().flat_map(|&table| valid(table)).filter_map(named).collect();
    frames.extend(tables);
    frames.insert(root);
    frames
}
