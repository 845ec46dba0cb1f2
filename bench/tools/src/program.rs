//! Random programs whose way depends on what they read: memory, messages and the clock.
//!
//! Registers x2 to x7 hold addresses in the middle of pages, x8 to x27 are mixed at random, x28 and x29 count inner loops, x30 and x31 are
//! scratch. What is read is folded into the mixed registers, and branches, inner loops and stops depend on those.

use crate::asm::*;
use crate::rng::Rng;

/// A page that a program may use.
#[derive(Clone, Copy)]
pub struct Page {
    pub number: u32,
    pub readable: bool,
    pub writable: bool,
    pub executable: bool,
}

pub struct Surroundings<'a> {
    pub pages: &'a [Page],
    /// a page that is not mapped
    pub unmapped: u32,
    pub most_words: usize,
}

const FIRST_BASE: Reg = 2;
const MOST_BASES: usize = 6;
const SCRATCH: Reg = 31;
const MIXED: std::ops::RangeInclusive<usize> = 8..=27;

struct Writer<'a> {
    words: Vec<u32>,
    around: &'a Surroundings<'a>,
    /// the page that each base register points into
    bases: Vec<Page>,
    rng: Rng,
    stops: bool,
}

/// The words of a program, at most as many as there is room for. It begins at its first word.
pub fn program(around: &Surroundings, rng: &mut Rng) -> Vec<u32> {
    let mut words = match rng.below(20) {
        0 => vec![jal(0, 0)],
        1 => noise(around.most_words.min(200), rng),
        kind => structured(around, kind < 9, rng),
    };
    if rng.chance(4) {
        for _ in 0..rng.between(1, 4) {
            let at = rng.below(words.len());
            words[at] ^= 1 << rng.below(32);
        }
    }
    words.truncate(around.most_words);
    words
}

/// A loop over a random body, for ever, or until a stop that depends on the data.
pub fn structured(around: &Surroundings, stops: bool, rng: &mut Rng) -> Vec<u32> {
    let mut writer = Writer { words: Vec::new(), around, bases: Vec::new(), rng: rng.fork(), stops };
    writer.prologue();
    let start = writer.words.len();
    let most = around.most_words.saturating_sub(start + 40).min(400);
    let length = if most > 10 { rng.between(10, most) } else { 10 };
    while writer.words.len() < start + length {
        writer.item(0);
    }
    writer.mix();
    let back = (start as i32 - writer.words.len() as i32) * 4;
    writer.push(jal(0, back));
    writer.words
}

/// Words of which most are instructions.
pub fn noise(count: usize, rng: &mut Rng) -> Vec<u32> {
    (0..count).map(|_| if rng.chance(95) { any_instruction(rng) } else { rng.word() }).collect()
}

/// A random instruction with random fields; jumps and branches stay near.
pub fn any_instruction(rng: &mut Rng) -> u32 {
    let mut reg = || rng.below(32) as Reg;
    let (rd, rs1, rs2) = (reg(), reg(), reg());
    let constant = rng.word() as i32 >> 20;
    match rng.below(12) {
        0 => lui(rd, rng.word() >> 12),
        1 => auipc(rd, rng.below(4) as u32),
        2 => jal(rd, 4 * (rng.between(0, 40) as i32 - 16)),
        3 => jalr(rd, constant, rs1),
        4 | 5 => branch(*rng.pick(&[0, 1, 4, 5, 6, 7]), rs1, rs2, 4 * (rng.between(0, 24) as i32 - 8)),
        6 => load(*rng.pick(&[0, 1, 2, 4, 5]), rd, constant, rs1),
        7 => store(*rng.pick(&[0, 1, 2]), rs2, constant, rs1),
        8 => read_counter(rd, *rng.pick(&[CYCLE, TIME, CYCLEH])),
        9 => i_type(constant, rs1, *rng.pick(&[0, 2, 3, 4, 6, 7]), rd, 0x13),
        10 => shift(rd, rs1, rng),
        _ => operation(rd, rs1, rs2, rng),
    }
}

fn shift(rd: Reg, rs1: Reg, rng: &mut Rng) -> u32 {
    let (funct3, high) = *rng.pick(&[(1, 0), (5, 0), (5, 0x400)]);
    i_type(rng.below(32) as i32 | high, rs1, funct3, rd, 0x13)
}

fn operation(rd: Reg, rs1: Reg, rs2: Reg, rng: &mut Rng) -> u32 {
    let (funct7, funct3) = *rng.pick(&[(0, 0), (0x20, 0), (0, 1), (0, 2), (0, 3), (0, 4), (0, 5), (0x20, 5), (0, 6), (0, 7)]);
    r_type(funct7, rs2, rs1, funct3, rd)
}

impl Writer<'_> {
    fn push(&mut self, word: u32) {
        self.words.push(word);
    }

    fn mixed(&mut self) -> Reg {
        self.rng.between(*MIXED.start(), *MIXED.end()) as Reg
    }

    /// Points the base registers into pages and gives some registers first values.
    fn prologue(&mut self) {
        let mut pages = self.around.pages.to_vec();
        self.rng.shuffle(&mut pages);
        pages.truncate(MOST_BASES);
        for (k, page) in pages.iter().enumerate() {
            let base = FIRST_BASE + k as Reg;
            self.push(lui(base, page.number));
            self.push(addi(base, base, 2047));
            self.push(addi(base, base, 1));
        }
        self.bases = pages;
        for _ in 0..self.rng.between(1, 4) {
            let (rd, high) = (self.mixed(), self.rng.word() >> 12);
            self.push(lui(rd, high));
        }
    }

    fn item(&mut self, depth: usize) {
        match self.rng.below(24) {
            0..=4 => self.compute(),
            5..=9 => self.read_memory(),
            10..=13 => self.write_memory(),
            14 => self.read_clock(),
            15 | 16 => self.skip(depth),
            17 => self.jump_ahead(),
            18 | 19 if depth < 2 => self.inner_loop(depth),
            20 => self.indexed(),
            21 if self.stops => self.stop_sometimes(),
            _ => self.mix(),
        }
    }

    fn compute(&mut self) {
        let (rd, rs1, rs2) = (self.mixed(), self.mixed(), self.mixed());
        let constant = self.rng.word() as i32 >> 20;
        let word = match self.rng.below(8) {
            0 => shift(rd, rs1, &mut self.rng),
            1 | 2 => i_type(constant, rs1, *self.rng.pick(&[0, 2, 3, 4, 6, 7]), rd, 0x13),
            3 => lui(rd, self.rng.word() >> 12),
            4 => auipc(rd, self.rng.word() >> 12),
            _ => operation(rd, rs1, rs2, &mut self.rng),
        };
        self.push(word);
    }

    fn base(&mut self, fits: fn(&Page) -> bool) -> Option<Reg> {
        let able: Vec<Reg> = (0..self.bases.len()).filter(|&k| fits(&self.bases[k])).map(|k| FIRST_BASE + k as Reg).collect();
        if able.is_empty() {
            return None;
        }
        Some(*self.rng.pick(&able))
    }

    /// An offset from the middle of a page that is aligned to a size; near ones are more frequent.
    fn offset(&mut self, size: i32) -> i32 {
        let offset = if self.rng.chance(50) { self.rng.below(256) as i32 } else { self.rng.word() as i32 >> 20 };
        offset & -size
    }

    fn read_memory(&mut self) {
        let Some(base) = self.base(|page| page.readable) else { return self.compute() };
        let (funct3, size) = *self.rng.pick(&[(0, 1), (1, 2), (2, 4), (2, 4), (4, 1), (5, 2)]);
        let offset = self.offset(size);
        let rd = if self.rng.chance(5) { 0 } else { SCRATCH };
        self.push(load(funct3, rd, offset, base));
        let target = self.mixed();
        let word = if self.rng.chance(50) { xor(target, target, SCRATCH) } else { add(target, target, SCRATCH) };
        self.push(word);
    }

    fn write_memory(&mut self) {
        let Some(base) = self.base(|page| page.readable && page.writable) else { return self.compute() };
        let (funct3, size) = *self.rng.pick(&[(0, 1), (1, 2), (2, 4), (2, 4)]);
        let (offset, value) = (self.offset(size), self.mixed());
        self.push(store(funct3, value, offset, base));
    }

    /// A load or store at an address that depends on a register.
    fn indexed(&mut self) {
        let Some(base) = self.base(|page| page.readable) else { return self.compute() };
        let (index, target) = (self.mixed(), self.mixed());
        self.push(andi(SCRATCH, index, 0x7fc));
        self.push(add(SCRATCH, SCRATCH, base));
        let writable = self.bases[(base - FIRST_BASE) as usize].writable;
        if writable && self.rng.chance(40) {
            self.push(sw(target, 0, SCRATCH));
        } else {
            self.push(lw(SCRATCH, 0, SCRATCH));
            self.push(xor(target, target, SCRATCH));
        }
    }

    fn read_clock(&mut self) {
        let counter = *self.rng.pick(&[CYCLE, CYCLE, TIME, CYCLEH]);
        let target = self.mixed();
        self.push(read_counter(SCRATCH, counter));
        self.push(add(target, target, SCRATCH));
    }

    /// Spreads a register's bits over another.
    fn mix(&mut self) {
        let (target, other) = (self.mixed(), self.mixed());
        let left = self.rng.between(1, 13) as u32;
        self.push(add(target, target, other));
        self.push(slli(SCRATCH, target, left));
        self.push(xor(target, target, SCRATCH));
        self.push(srli(SCRATCH, target, 17));
        self.push(xor(target, target, SCRATCH));
    }

    /// A branch over a few items.
    fn skip(&mut self, depth: usize) {
        let condition = *self.rng.pick(&[0, 1, 4, 5, 6, 7]);
        let (mut a, mut b) = (self.mixed(), self.mixed());
        if self.rng.chance(40) {
            self.push(andi(30, a, 3));
            (a, b) = (30, 0);
        }
        let at = self.words.len();
        self.push(0);
        for _ in 0..self.rng.between(1, 3) {
            self.item(depth.max(1));
        }
        let distance = (self.words.len() - at) as i32 * 4;
        self.words[at] = branch(condition, a, b, distance);
    }

    fn jump_ahead(&mut self) {
        let link = *self.rng.pick(&[0, 1, 1]);
        let words = self.rng.between(0, 3) as i32;
        if self.rng.chance(60) {
            self.push(jal(link, 4 * (words + 1)));
        } else {
            let odd = i32::from(self.rng.chance(50));
            self.push(auipc(SCRATCH, 0));
            self.push(jalr(link, 4 * (words + 2) + odd, SCRATCH));
        }
        for _ in 0..words {
            self.compute();
        }
        if link == 1 && self.rng.chance(50) {
            let target = self.mixed();
            self.push(xor(target, target, 1));
        }
    }

    /// A loop of a few turns, as many as a register says.
    fn inner_loop(&mut self, depth: usize) {
        let counter = 28 + depth as Reg;
        let source = self.mixed();
        let mask = *self.rng.pick(&[3, 7, 15, 31]);
        self.push(andi(counter, source, mask));
        let start = self.words.len();
        for _ in 0..self.rng.between(1, 5) {
            self.item(depth + 1);
        }
        self.push(addi(counter, counter, -1));
        let back = (start as i32 - self.words.len() as i32) * 4;
        self.push(branch(5, counter, 0, back));
    }

    /// A stop that the program comes to when the low bits of a register are 0.
    fn stop_sometimes(&mut self) {
        let (source, mask) = (self.mixed(), *self.rng.pick(&[63, 255, 1023, 2047]));
        self.push(andi(30, source, mask));
        let at = self.words.len();
        self.push(0);
        self.stop();
        let distance = (self.words.len() - at) as i32 * 4;
        self.words[at] = bne(30, 0, distance);
    }

    fn stop(&mut self) {
        match self.rng.below(10) {
            0..=2 => {
                let word = near_miss(&mut self.rng);
                self.push(word);
            }
            3 | 4 => self.misaligned(),
            5 | 6 => self.unmapped(),
            _ => self.forbidden(),
        }
    }

    fn misaligned(&mut self) {
        let base = FIRST_BASE;
        let word = *self.rng.pick(&[
            jal(1, 6),
            beq(0, 0, 10),
            load(2, 9, 2, base),
            load(1, 9, 1, base),
            load(5, 9, 3, base),
            store(2, 9, 1, base),
            store(1, 9, 3, base),
        ]);
        self.push(word);
    }

    fn unmapped(&mut self) {
        self.push(lui(SCRATCH, self.around.unmapped));
        let word =
            *self.rng.pick(&[load(0, 9, 5, SCRATCH), store(0, 9, 5, SCRATCH), jalr(1, 2, SCRATCH), jalr(1, 8, SCRATCH), load(2, 9, -4, 0)]);
        self.push(word);
    }

    /// An access that a page does not permit, with the page in the TLB or not.
    fn forbidden(&mut self) {
        let Some(page) = self.around.pages.get(self.rng.below(self.around.pages.len().max(1))) else { return self.unmapped() };
        self.push(lui(SCRATCH, page.number));
        if page.readable && self.rng.chance(50) {
            self.push(load(2, 9, 0, SCRATCH));
        }
        if !page.executable && self.rng.chance(if page.readable { 40 } else { 70 }) {
            self.push(jalr(1, 0, SCRATCH));
        } else if !page.writable && self.rng.chance(70) {
            self.push(store(0, 9, 8, SCRATCH));
        } else if !page.readable {
            self.push(load(4, 9, 8, SCRATCH));
        } else {
            self.misaligned();
        }
    }
}

/// A word that is nearly an instruction: one field is outside of what is lawful.
fn near_miss(rng: &mut Rng) -> u32 {
    let register = rng.between(8, 27) as Reg;
    match rng.below(12) {
        0 => read_counter(register, CYCLE) | (rng.between(1, 31) as u32) << 15,
        1 => read_counter(register, *rng.pick(&[0xc02, 0xc81, 0xc82, 0xb00, 0x000])),
        2 => read_counter(register, CYCLE) & !0x7000 | rng.pick(&[1, 3, 4, 5, 6, 7]) << 12,
        3 => i_type(rng.below(32) as i32 | 0x400, register, 1, register, 0x13),
        4 => i_type(rng.below(32) as i32 | 1 << rng.pick(&[5, 6, 7, 8, 9, 11]), register, *rng.pick(&[1, 5]), register, 0x13),
        5 => r_type(0x20, register, register, *rng.pick(&[1, 2, 3, 4, 6, 7]), register),
        6 => r_type(*rng.pick(&[1, 2, 0x21, 0x40, 0x60]), register, register, rng.below(8) as u32, register),
        7 => jalr(0, 0, 1) | (rng.between(1, 7) as u32) << 12,
        8 => branch(*rng.pick(&[2, 3]), 0, 0, 8),
        9 => load(*rng.pick(&[3, 6, 7]), register, 0, FIRST_BASE),
        10 => store(rng.between(3, 7) as u32, register, 0, FIRST_BASE),
        _ => *rng.pick(&[0, 0x73, 0x0010_0073, 0x0ff0_000f, 0x0000_100f, 0xffff_ffff, 0x0000_0012, 0x0000_0036, 0x1050_0073]),
    }
}
