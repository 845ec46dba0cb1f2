//! A case: a plan, memory and a number of slots.

use std::collections::BTreeSet;

use reference::checker::ample;
use reference::memory::{Memory, MOST_FRAMES};
use reference::plan::{Channel, Partition, Plan, Slot};

use crate::partition::{build, fresh_page, Spec};
use crate::rng::Rng;
use crate::world::World;

#[derive(Clone)]
pub struct Case {
    pub plan: Plan,
    pub memory: Memory,
    pub slots: u32,
}

/// A plan that keeps the rules that need no memory, with what it says of each partition. Channels keep to those that are allowed.
pub fn skeleton(roots: &[usize], allowed: impl Fn(usize, usize) -> bool, rng: &mut Rng) -> (Plan, Vec<Spec>) {
    let count = roots.len();
    let mut specs: Vec<Spec> = roots.iter().map(|&root| spec(root, rng)).collect();
    let mut used: Vec<BTreeSet<u32>> = vec![BTreeSet::new(); count];
    let mut channels = Vec::new();
    let wanted = if rng.chance(40) { 0 } else { rng.between(1, 2 * count).min(16) };
    for _ in 0..wanted {
        let (from, to) = (rng.below(count), rng.below(count));
        if from == to || !allowed(from, to) {
            continue;
        }
        let source = fresh_page(&mut used[from], specs[from].start >> 12, rng);
        let target = fresh_page(&mut used[to], specs[to].start >> 12, rng);
        specs[from].sends.push(source);
        specs[to].receives.push(target);
        channels.push(Channel { from, to, source, target });
    }
    let partitions = specs.iter().map(|spec| Partition { root: spec.root, start: spec.start }).collect();
    let slots = (0..rng.between(1, 2 * count + 1)).map(|_| slot(count, rng)).collect();
    let mut plan = Plan { budget: 0, partitions, slots, channels };
    plan.budget = budget(ample(&plan), rng);
    (plan, specs)
}

fn spec(root: usize, rng: &mut Rng) -> Spec {
    let page = if rng.chance(70) { 16 } else { *rng.pick(&[2, 40, 0x3fe, 0x400, 0xffff0]) };
    let word = if rng.chance(50) { 0 } else { rng.below(1000) as u32 };
    Spec { root, start: page << 12 | word << 2, sends: Vec::new(), receives: Vec::new() }
}

fn slot(count: usize, rng: &mut Rng) -> Slot {
    let length = match rng.below(10) {
        0 => 128,
        1..=6 => rng.between(128, 1500),
        7 | 8 => rng.between(1000, 6000),
        _ => rng.between(5000, 30000),
    };
    Slot { partition: rng.below(count), length: length as u32 }
}

fn budget(ample: u32, rng: &mut Rng) -> u32 {
    match rng.below(10) {
        0..=5 => ample,
        6 => 100_000,
        _ => ample + rng.below(2000) as u32,
    }
}

/// A case that is accepted.
pub fn accepted(rng: &mut Rng) -> Case {
    loop {
        if let Some(case) = attempt(rng) {
            return case;
        }
    }
}

fn attempt(rng: &mut Rng) -> Option<Case> {
    let count = if rng.chance(25) { rng.between(5, 8) } else { rng.between(1, 4) };
    let frames = if rng.chance(2) { MOST_FRAMES } else { 11 * count + rng.between(0, 10) };
    let mut numbers: Vec<usize> = (0..frames).collect();
    rng.shuffle(&mut numbers);
    let roots = &numbers[..count];
    let (plan, specs) = skeleton(roots, |_, _| true, rng);
    let mut world = World::new(frames, &roots.iter().copied().collect(), rng);
    for spec in &specs {
        build(&mut world, spec, rng)?;
    }
    let slots = rng.between(1, 4 * plan.slots.len()).min(40) as u32;
    let mut case = Case { plan, memory: world.into_memory(), slots };
    if rng.chance(1) {
        lengthen(&mut case);
    }
    Some(case)
}

/// Short slots and long switches, so many that the clock passes 2^32.
fn lengthen(case: &mut Case) {
    case.plan.budget = 100_000;
    case.plan.slots.iter_mut().for_each(|slot| slot.length = 128);
    case.slots = 45_000;
}
