//! Pairs of machines with one plan that agree on a closed set of partitions and differ at will outside of it.
//!
//! A set is closed if no channel leads into it from outside. Outside of the set the two differ in programs, memory, page tables, in which frame
//! belongs to whom, and in the number of lent frames.

use std::collections::BTreeSet;

use reference::checker::check;
use reference::machine::Machine;
use reference::memory::{Memory, MOST_FRAMES};
use reference::plan::Plan;

use crate::case::skeleton;
use crate::leaky::{begin, end, step, Leak};
use crate::partition::{build, Spec};
use crate::rng::Rng;
use crate::world::World;

pub struct Pair {
    pub plan: Plan,
    pub memories: [Memory; 2],
    pub slots: u32,
    /// which partitions are members of the closed set
    pub members: Vec<bool>,
    /// the frames of each member: root, tables and what its leaves name
    pub frames: Vec<BTreeSet<usize>>,
}

pub fn pair(rng: &mut Rng) -> Pair {
    loop {
        if let Some(pair) = attempt(rng) {
            return pair;
        }
    }
}

fn attempt(rng: &mut Rng) -> Option<Pair> {
    let count = rng.between(2, 6);
    let mut members: Vec<bool> = (0..count).map(|_| rng.chance(50)).collect();
    let (member, outsider) = (rng.below(count), rng.below(count - 1));
    members[member] = true;
    members[(member + 1 + outsider) % count] = false;
    let shared = 11 * count + 10;
    let mut numbers: Vec<usize> = (0..shared).collect();
    rng.shuffle(&mut numbers);
    let roots = &numbers[..count];
    let (plan, specs) = skeleton(roots, |from, to| members[from] || !members[to], rng);
    let all_roots: BTreeSet<usize> = roots.iter().copied().collect();
    let mut inside = World::new(shared, &all_roots, rng);
    let mut frames = vec![BTreeSet::new(); count];
    for p in (0..count).filter(|&p| members[p]) {
        frames[p] = build(&mut inside, &specs[p], rng)?.frames;
    }
    let reserved: BTreeSet<usize> = frames.iter().flatten().copied().chain(all_roots).collect();
    let ours: BTreeSet<usize> = frames.iter().flatten().copied().collect();
    let mut outside = || complete(&inside, &ours, &reserved, &specs, &members, shared, rng);
    let memories = [outside()?, outside()?];
    let slots = rng.between(plan.slots.len(), 4 * plan.slots.len()).min(40) as u32;
    Some(Pair { plan, memories, slots, members, frames })
}

/// The members' frames as they are, and everything else anew.
fn complete(
    inside: &World,
    ours: &BTreeSet<usize>,
    reserved: &BTreeSet<usize>,
    specs: &[Spec],
    members: &[bool],
    least: usize,
    rng: &mut Rng,
) -> Option<Memory> {
    let lent = (least + rng.below(30)).min(MOST_FRAMES);
    let mut world = World::new(lent, reserved, rng);
    world.copy_frames(inside, ours);
    for (spec, _) in specs.iter().zip(members).filter(|(_, member)| !**member) {
        build(&mut world, spec, rng)?;
    }
    Some(world.into_memory())
}

/// Where two machines were seen to differ.
pub struct Difference {
    pub slot: u64,
    pub what: &'static str,
}

/// What a lockstep run showed: the output lines of the members' slots of both machines, and the first difference in their states.
pub struct Outcome {
    pub lines: [Vec<String>; 2],
    pub difference: Option<Difference>,
    pub steps: u64,
}

/// Runs both machines slot by slot, and step by step inside of members' slots.
pub fn lockstep(pair: &Pair, leak: Option<Leak>) -> Outcome {
    let mut outcome = Outcome { lines: [Vec::new(), Vec::new()], difference: None, steps: 0 };
    let [mut one, mut two] = [0, 1].map(|k| {
        let memory = pair.memories[k].clone();
        let accepted = check(&pair.plan.to_bytes(), &memory).unwrap_or_else(|refusal| panic!("generated plan {refusal}"));
        let mut machine = Machine::new(accepted, memory);
        scramble(&mut machine, &pair.members, &mut Rng::new(k as u64));
        machine
    });
    let mut differ = |slot, what| {
        outcome.difference.get_or_insert(Difference { slot, what });
    };
    for _ in 0..pair.slots {
        let slot = one.slot;
        let (mut first, mut second) = (begin(&one), begin(&two));
        if pair.members[first.partition] {
            outcome.steps += step_both((&mut one, &mut first), (&mut two, &mut second), pair, leak, &mut differ);
        }
        while step(&mut one, &mut first, leak) {}
        while step(&mut two, &mut second, leak) {}
        let member = pair.members[first.partition];
        let reports = [end(&mut one, first, leak), end(&mut two, second, leak)];
        if member {
            for (lines, report) in outcome.lines.iter_mut().zip(&reports) {
                lines.push(report.to_string());
            }
        }
        compare_set(&one, &two, pair, |what| differ(slot, what));
    }
    outcome
}

/// Outside of the set even the first registers are at will.
fn scramble(machine: &mut Machine, members: &[bool], rng: &mut Rng) {
    for (context, _) in machine.contexts.iter_mut().zip(members).filter(|(_, member)| !**member) {
        context.registers[1..].iter_mut().for_each(|register| *register = rng.word());
    }
}

/// Steps of a member's slot, with a comparison after each, for as long as both go on.
fn step_both(
    (one, first): (&mut Machine, &mut crate::leaky::Running),
    (two, second): (&mut Machine, &mut crate::leaky::Running),
    pair: &Pair,
    leak: Option<Leak>,
    differ: &mut impl FnMut(u64, &'static str),
) -> u64 {
    let (slot, member) = (one.slot, first.partition);
    let mut steps = 0;
    while step(one, first, leak) & step(two, second, leak) {
        steps += 1;
        compare_member(one, two, member, &pair.frames[member], |what| differ(slot, what));
        if one.tables != two.tables {
            differ(slot, "tables inside a slot");
        }
        if one.clock != two.clock {
            differ(slot, "clock inside a slot");
        }
    }
    steps
}

fn compare_member(one: &Machine, two: &Machine, member: usize, frames: &BTreeSet<usize>, mut differ: impl FnMut(&'static str)) {
    if one.contexts[member] != two.contexts[member] {
        differ("context");
    }
    if frames.iter().any(|&frame| one.memory.frame(frame) != two.memory.frame(frame)) {
        differ("words");
    }
}

fn compare_set(one: &Machine, two: &Machine, pair: &Pair, mut differ: impl FnMut(&'static str)) {
    for member in (0..pair.members.len()).filter(|&p| pair.members[p]) {
        compare_member(one, two, member, &pair.frames[member], &mut differ);
    }
    if one.tables != two.tables {
        differ("tables after a switch");
    }
    if one.clock != two.clock {
        differ("clock after a switch");
    }
}
