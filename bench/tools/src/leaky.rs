//! The reference machine, step by step, and wrong variants of it that leak: a comparison that cannot catch those shows nothing.

use reference::hart::State;
use reference::machine::{Machine, Report};
use reference::tables::{Cache, Predictor, Tables, Tlb, WRITE_BACK};

#[derive(Clone, Copy, Debug, PartialEq, Eq)]
pub enum Leak {
    /// the predictor is not cleared
    Predictor,
    /// the cache is not cleared
    Cache,
    /// the TLB is not cleared
    Tlb,
    /// the budget counts from the end of the last instruction
    Overshoot,
    /// the write-backs come on top of the budget
    WriteBacks,
    /// the slot of a stopped program ends at once
    EarlyEnd,
}

pub const LEAKS: [(&str, Leak); 6] = [
    ("predictor", Leak::Predictor),
    ("cache", Leak::Cache),
    ("tlb", Leak::Tlb),
    ("overshoot", Leak::Overshoot),
    ("write-backs", Leak::WriteBacks),
    ("early-end", Leak::EarlyEnd),
];

pub fn by_name(name: &str) -> Option<Leak> {
    LEAKS.iter().find(|(known, _)| *known == name).map(|(_, leak)| *leak)
}

/// A slot that runs.
pub struct Running {
    pub partition: usize,
    pub begin: u64,
    pub end: u64,
    pub instructions: u64,
}

pub fn begin(machine: &Machine) -> Running {
    let (partition, length) = machine.turn();
    Running { partition, begin: machine.clock, end: machine.clock + length, instructions: 0 }
}

/// One step; false if the slot is over.
pub fn step(machine: &mut Machine, running: &mut Running, leak: Option<Leak>) -> bool {
    let context = &mut machine.contexts[running.partition];
    let early = leak == Some(Leak::EarlyEnd) && context.state != State::Ready;
    if machine.clock >= running.end || early {
        return false;
    }
    machine.clock += context.step(&mut machine.tables, &mut machine.memory, machine.clock);
    running.instructions += 1;
    true
}

/// The switch after a slot.
pub fn end(machine: &mut Machine, running: Running, leak: Option<Leak>) -> Report {
    let report = machine.report(running.partition, running.begin, running.instructions);
    let write_backs = machine.tables.cache.dirty_lines() * WRITE_BACK;
    let tables = Tables {
        cache: if leak == Some(Leak::Cache) { machine.tables.cache.clone() } else { Cache::new() },
        tlb: if leak == Some(Leak::Tlb) { machine.tables.tlb.clone() } else { Tlb::new() },
        predictor: if leak == Some(Leak::Predictor) { machine.tables.predictor.clone() } else { Predictor::new() },
    };
    machine.tables = tables;
    machine.send(running.partition);
    let budget = u64::from(machine.plan.budget);
    machine.clock = match leak {
        Some(Leak::Overshoot) => report.ended + budget,
        Some(Leak::WriteBacks) => running.end + budget + write_backs,
        Some(Leak::EarlyEnd) => report.ended.min(running.end) + budget,
        _ => running.end + budget,
    };
    machine.slot += 1;
    report
}

pub fn run_slot(machine: &mut Machine, leak: Option<Leak>) -> Report {
    let mut running = begin(machine);
    while step(machine, &mut running, leak) {}
    end(machine, running, leak)
}
