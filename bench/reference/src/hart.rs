//! One instruction of a program, with its cost.

use crate::isa::{decode, Counter, Instruction, LoadKind, StoreKind};
use crate::memory::{Memory, FRAME_WORDS};
use crate::paging::{walk, Access};
use crate::tables::{Tables, INSTRUCTION};

/// Why a program stopped; the numbers are those of the output.
#[derive(Clone, Copy, Debug, PartialEq, Eq)]
pub enum Cause {
    IllegalInstruction = 1,
    MisalignedFetch = 2,
    FetchFault = 3,
    MisalignedLoad = 4,
    LoadFault = 5,
    MisalignedStore = 6,
    StoreFault = 7,
}

#[derive(Clone, Copy, Debug, PartialEq, Eq)]
pub enum State {
    Ready,
    Stopped { cause: Cause, pc: u32 },
}

/// A program: its registers, counter and state, and the root of its page tables.
#[derive(Clone, Debug, PartialEq, Eq)]
pub struct Context {
    pub registers: [u32; 32],
    pub pc: u32,
    pub state: State,
    pub root: usize,
}

impl Context {
    pub fn new(root: usize, start: u32) -> Self {
        Context { registers: [0; 32], pc: start, state: State::Ready, root }
    }

    /// One step; answers its cycles.
    pub fn step(&mut self, tables: &mut Tables, memory: &mut Memory, clock: u64) -> u64 {
        if self.state != State::Ready {
            return INSTRUCTION;
        }
        let mut cost = INSTRUCTION;
        if let Err(cause) = self.execute(tables, memory, clock, &mut cost) {
            self.state = State::Stopped { cause, pc: self.pc };
        }
        cost
    }

    fn execute(&mut self, tables: &mut Tables, memory: &mut Memory, clock: u64, cost: &mut u64) -> Result<(), Cause> {
        let word = self.fetch(tables, memory, cost)?;
        let mut next = self.pc.wrapping_add(4);
        match decode(word).ok_or(Cause::IllegalInstruction)? {
            Instruction::Lui { rd, constant } => self.set(rd, constant),
            Instruction::Auipc { rd, constant } => self.set(rd, self.pc.wrapping_add(constant)),
            Instruction::Jal { rd, offset } => {
                let target = aligned(self.pc.wrapping_add(offset))?;
                self.set(rd, next);
                next = target;
            }
            Instruction::Jalr { rd, rs1, offset } => {
                let target = aligned(self.get(rs1).wrapping_add(offset) & !1)?;
                self.set(rd, next);
                next = target;
            }
            Instruction::Branch { condition, rs1, rs2, offset } => {
                let taken = condition.holds(self.get(rs1), self.get(rs2));
                if taken {
                    next = aligned(self.pc.wrapping_add(offset))?;
                }
                *cost += tables.predictor.branch(self.pc, taken);
            }
            Instruction::Load { kind, rd, rs1, offset } => {
                let value = self.load(kind, self.get(rs1).wrapping_add(offset), tables, memory, cost)?;
                self.set(rd, value);
            }
            Instruction::Store { kind, rs1, rs2, offset } => {
                self.store(kind, self.get(rs1).wrapping_add(offset), self.get(rs2), tables, memory, cost)?;
            }
            Instruction::Immediate { operation, rd, rs1, constant } => {
                self.set(rd, operation.apply(self.get(rs1), constant));
            }
            Instruction::Register { operation, rd, rs1, rs2 } => {
                self.set(rd, operation.apply(self.get(rs1), self.get(rs2)));
            }
            Instruction::ReadCounter { counter: Counter::Low, rd } => self.set(rd, clock as u32),
            Instruction::ReadCounter { counter: Counter::High, rd } => self.set(rd, (clock >> 32) as u32),
        }
        self.pc = next;
        Ok(())
    }

    fn fetch(&self, tables: &mut Tables, memory: &Memory, cost: &mut u64) -> Result<u32, Cause> {
        let page = self.pc >> 12;
        let frame = tables.tlb.look_up(page, Access::Fetch, cost, || walk(memory, self.root, page)).ok_or(Cause::FetchFault)?;
        Ok(memory.word(frame, self.pc as usize / 4 % FRAME_WORDS))
    }

    fn load(&self, kind: LoadKind, address: u32, tables: &mut Tables, memory: &Memory, cost: &mut u64) -> Result<u32, Cause> {
        if address % kind.bytes() != 0 {
            return Err(Cause::MisalignedLoad);
        }
        let page = address >> 12;
        let frame = tables.tlb.look_up(page, Access::Load, cost, || walk(memory, self.root, page)).ok_or(Cause::LoadFault)?;
        let index = address as usize / 4 % FRAME_WORDS;
        *cost += tables.cache.access(frame * FRAME_WORDS + index, false);
        Ok(kind.extract(memory.word(frame, index), address % 4))
    }

    fn store(
        &self,
        kind: StoreKind,
        address: u32,
        value: u32,
        tables: &mut Tables,
        memory: &mut Memory,
        cost: &mut u64,
    ) -> Result<(), Cause> {
        if address % kind.bytes() != 0 {
            return Err(Cause::MisalignedStore);
        }
        let page = address >> 12;
        let frame = tables.tlb.look_up(page, Access::Store, cost, || walk(memory, self.root, page)).ok_or(Cause::StoreFault)?;
        let index = address as usize / 4 % FRAME_WORDS;
        *cost += tables.cache.access(frame * FRAME_WORDS + index, true);
        let word = memory.word_mut(frame, index);
        *word = kind.insert(*word, value, address % 4);
        Ok(())
    }

    fn get(&self, register: u8) -> u32 {
        self.registers[usize::from(register)]
    }

    fn set(&mut self, register: u8, value: u32) {
        if register != 0 {
            self.registers[usize::from(register)] = value;
        }
    }
}

fn aligned(target: u32) -> Result<u32, Cause> {
    if target % 4 == 0 {
        Ok(target)
    } else {
        Err(Cause::MisalignedFetch)
    }
}
