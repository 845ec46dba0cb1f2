//! The machine: slots, switches and messages.

use std::fmt;

use crate::checker::{Accepted, Link};
use crate::hart::{Context, State};
use crate::memory::{Memory, FRAME_WORDS};
use crate::plan::Plan;
use crate::tables::{Tables, COPIED_WORD, WRITE_BACK};

#[derive(Clone, Debug)]
pub struct Machine {
    pub plan: Plan,
    pub links: Vec<Link>,
    pub memory: Memory,
    pub contexts: Vec<Context>,
    pub tables: Tables,
    pub clock: u64,
    /// the number of the slot that comes next, or runs
    pub slot: u64,
}

/// What happened in a slot.
#[derive(Clone, Debug, PartialEq, Eq)]
pub struct Report {
    pub slot: u64,
    pub partition: usize,
    pub begin: u64,
    pub ended: u64,
    pub instructions: u64,
    pub pc: u32,
    pub state: State,
}

impl Machine {
    pub fn new(accepted: Accepted, memory: Memory) -> Self {
        let Accepted { plan, links } = accepted;
        let contexts = plan.partitions.iter().map(|p| Context::new(p.root, p.start)).collect();
        Machine { plan, links, memory, contexts, tables: Tables::new(), clock: 0, slot: 0 }
    }

    /// The partition and the length of the slot that comes next.
    pub fn turn(&self) -> (usize, u64) {
        let slot = &self.plan.slots[(self.slot % self.plan.slots.len() as u64) as usize];
        (slot.partition, u64::from(slot.length))
    }

    pub fn run_slot(&mut self) -> Report {
        let begin = self.clock;
        let (partition, length) = self.turn();
        let instructions = self.run_instructions(partition, begin + length);
        let report = self.report(partition, begin, instructions);
        self.switch(partition);
        self.clock = begin + length + u64::from(self.plan.budget);
        self.slot += 1;
        report
    }

    fn run_instructions(&mut self, partition: usize, end: u64) -> u64 {
        let context = &mut self.contexts[partition];
        let mut instructions = 0;
        while self.clock < end {
            self.clock += context.step(&mut self.tables, &mut self.memory, self.clock);
            instructions += 1;
        }
        instructions
    }

    pub fn report(&self, partition: usize, begin: u64, instructions: u64) -> Report {
        let Context { pc, state, .. } = self.contexts[partition];
        Report { slot: self.slot, partition, begin, ended: self.clock, instructions, pc, state }
    }

    /// Write-backs, cleared tables, messages. The budget of an accepted plan covers the time.
    pub fn switch(&mut self, partition: usize) {
        self.clock += self.tables.cache.dirty_lines() * WRITE_BACK;
        self.tables = Tables::new();
        self.send(partition);
    }

    pub fn send(&mut self, partition: usize) {
        for (channel, link) in self.plan.channels.iter().zip(&self.links) {
            if channel.from == partition {
                self.memory.copy_frame(link.source, link.target);
                self.clock += FRAME_WORDS as u64 * COPIED_WORD;
            }
        }
    }
}

impl fmt::Display for Report {
    fn fmt(&self, f: &mut fmt::Formatter) -> fmt::Result {
        let Report { slot, partition, begin, ended, instructions, pc, state } = self;
        match state {
            State::Ready => {
                write!(f, "slot {slot} partition {partition} from {begin} ended {ended} instructions {instructions} pc {pc:08x}")
            }
            State::Stopped { cause, pc } => {
                write!(f, "slot {slot} partition {partition} stopped {} at {pc:08x}", *cause as u8)
            }
        }
    }
}
