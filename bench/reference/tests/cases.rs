//! Worked cases of the machine: what was computed by hand from the rules.

use reference::checker::check;
use reference::hart::{Cause, State};
use reference::machine::Machine;
use reference::memory::{Memory, FRAME_WORDS};
use reference::plan::{Channel, Partition, Plan, Slot};

const RX: u32 = 0xdb;
const RW: u32 = 0xd7;
const RO: u32 = 0xd3;

/// The frames of a partition: root, table, and four for pages.
const OWN: usize = 6;

/// Memory with the given pages (number, permissions, words) for each partition.
fn memory(partitions: &[&[(usize, u32, &[u32])]]) -> Memory {
    let mut words = vec![0; OWN * FRAME_WORDS * partitions.len()];
    for (p, pages) in partitions.iter().enumerate() {
        let root = OWN * p;
        words[root * FRAME_WORDS] = (root as u32 + 1) << 10 | 1;
        for (k, (page, permissions, content)) in pages.iter().enumerate() {
            let frame = root + 2 + k;
            words[(root + 1) * FRAME_WORDS + page] = (frame as u32) << 10 | permissions;
            let start = frame * FRAME_WORDS;
            words[start..start + content.len()].copy_from_slice(content);
        }
    }
    Memory::new(words)
}

fn plan(partitions: usize, slots: &[(usize, u32)], channels: &[Channel], budget: u32) -> Plan {
    Plan {
        budget,
        partitions: (0..partitions).map(|p| Partition { root: OWN * p, start: 16 << 12 }).collect(),
        slots: slots.iter().map(|&(partition, length)| Slot { partition, length }).collect(),
        channels: channels.to_vec(),
    }
}

fn load(plan: &Plan, memory: &Memory) -> Machine {
    Machine::new(check(&plan.to_bytes(), memory).expect("accepted"), memory.clone())
}

fn refusal(plan: &Plan, memory: &Memory) -> String {
    check(&plan.to_bytes(), memory).expect_err("refused").to_string()
}

#[test]
fn clock_around_loads() {
    for (fourth, wanted) in [(0x00012383, 84), (0x04012383, 104)] {
        let code = [0x00011137, 0xc00022f3, 0x00012303, fourth, 0xc0002473, 0x0000006f];
        let memory = memory(&[&[(16, RX, &code), (17, RW, &[])]]);
        let mut machine = load(&plan(1, &[(0, 200)], &[], 730), &memory);
        machine.run_slot();
        assert_eq!(machine.contexts[0].registers[5], 31);
        assert_eq!(machine.contexts[0].registers[8], wanted);
    }
}

#[test]
fn load_over_a_dirty_line() {
    // lui x2, 17; lui x3, 18; sw x0, 0(x2); rdcycle x5; lw x6, 0(x3); rdcycle x7; jal x0, 0
    let code = [0x00011137, 0x000121b7, 0x00012023, 0xc00022f3, 0x0001a303, 0xc00023f3, 0x0000006f];
    let memory = memory(&[&[(16, RX, &code), (17, RW, &[]), (18, RW, &[])]]);
    let mut machine = load(&plan(1, &[(0, 300)], &[], 730), &memory);
    machine.run_slot();
    let registers = machine.contexts[0].registers;
    assert_eq!(registers[7] - registers[5], 1 + (1 + 30 + 20 + 10));
}

#[test]
fn slots_begin_on_time() {
    let page: &[(usize, u32, &[u32])] = &[(16, RX, &[0x0000006f])];
    let memory = memory(&[page, page]);
    let mut machine = load(&plan(2, &[(0, 200), (1, 128)], &[], 800), &memory);
    let begins: Vec<u64> = (0..4).map(|_| machine.run_slot().begin).collect();
    assert_eq!(begins, [0, 1000, 1928, 2928]);
    assert_eq!(refusal(&plan(2, &[(0, 200), (1, 128)], &[], 729), &memory), "refused 10 at 3");
    load(&plan(2, &[(0, 200), (1, 128)], &[], 730), &memory);
}

#[test]
fn budget_with_a_channel() {
    let pages: &[(usize, u32, &[u32])] = &[(16, RX, &[0x0000006f]), (17, RO, &[])];
    let memory = memory(&[pages, pages]);
    let channel = [Channel { from: 0, to: 1, source: 17, target: 17 }];
    assert_eq!(refusal(&plan(2, &[(0, 200)], &channel, 1753), &memory), "refused 10 at 3");
    load(&plan(2, &[(0, 200)], &channel, 1754), &memory);
}

#[test]
fn last_instruction_overshoots() {
    // up to the end of page 15: lui x2, 18; sw x0, 0(x2); 45 times lui x3, 19; then on page 16 sw x0, 0(x3), which walks twice and writes back
    let mut code = vec![0; FRAME_WORDS - 47];
    code.extend([0x00012137, 0x00012023]);
    code.extend([0x000131b7; 45]);
    let memory = memory(&[&[(15, RX, &code), (16, RX, &[0x0001a023]), (18, RW, &[]), (19, RW, &[])]]);
    let mut plan = plan(1, &[(0, 128)], &[], 730);
    plan.partitions[0].start = (16 << 12) - 47 * 4;
    let report = load(&plan, &memory).run_slot();
    assert_eq!((report.ended, report.instructions), (128 + 90, 48));
}

#[test]
fn one_frame_in_two_partitions() {
    let page: &[(usize, u32, &[u32])] = &[(16, RX, &[0x0000006f])];
    let mut memory = memory(&[page, page]);
    *memory.word_mut(1, 16) = (OWN as u32 + 2) << 10 | RX;
    assert_eq!(refusal(&plan(2, &[(0, 200)], &[], 730), &memory), "refused 8 at 1");
}

#[test]
fn misaligned_jump_stops_the_jump() {
    // jal x1, 6
    let memory = memory(&[&[(16, RX, &[0x006000ef])]]);
    let mut machine = load(&plan(1, &[(0, 128)], &[], 730), &memory);
    let report = machine.run_slot();
    assert_eq!(report.state, State::Stopped { cause: Cause::MisalignedFetch, pc: 16 << 12 });
    assert_eq!(machine.contexts[0].registers, [0; 32]);
    // 31 cycles for the jump, then one a step to the slot's end
    assert_eq!((report.ended, report.instructions), (128, 98));
    assert_eq!(report.to_string(), "slot 0 partition 0 stopped 2 at 00010000");
}

#[test]
fn messages_arrive_at_the_switch() {
    // lui x2, 17; addi x5, x5, 1; sw x5, 0(x2); jal x0, -8
    let sender: &[u32] = &[0x00011137, 0x00128293, 0x00512023, 0xff9ff06f];
    let memory = memory(&[&[(16, RX, sender), (17, RW, &[])], &[(16, RX, &[0x0000006f]), (17, RO, &[])]]);
    let channel = [Channel { from: 0, to: 1, source: 17, target: 17 }];
    let mut machine = load(&plan(2, &[(0, 200), (1, 128)], &channel, 1754), &memory);
    machine.run_slot();
    // lui 31, addi 1, sw 51 end at 83; then three instructions a turn, the last turn's jump at 200
    let sent = machine.memory.word(3, 0);
    assert_eq!(sent, 40);
    assert_eq!(machine.memory.frame(OWN + 3), machine.memory.frame(3));
    assert_eq!(machine.clock, 1954);
}
