//! RV32I words by name.

pub type Reg = u32;

pub fn r_type(funct7: u32, rs2: Reg, rs1: Reg, funct3: u32, rd: Reg) -> u32 {
    funct7 << 25 | rs2 << 20 | rs1 << 15 | funct3 << 12 | rd << 7 | 0x33
}

pub fn i_type(constant: i32, rs1: Reg, funct3: u32, rd: Reg, opcode: u32) -> u32 {
    (constant as u32) << 20 | rs1 << 15 | funct3 << 12 | rd << 7 | opcode
}

pub fn store(funct3: u32, rs2: Reg, offset: i32, rs1: Reg) -> u32 {
    let offset = offset as u32;
    (offset >> 5 & 0x7f) << 25 | rs2 << 20 | rs1 << 15 | funct3 << 12 | (offset & 31) << 7 | 0x23
}

pub fn load(funct3: u32, rd: Reg, offset: i32, rs1: Reg) -> u32 {
    i_type(offset, rs1, funct3, rd, 0x03)
}

pub fn branch(funct3: u32, rs1: Reg, rs2: Reg, offset: i32) -> u32 {
    let o = offset as u32;
    (o >> 12 & 1) << 31 | (o >> 5 & 0x3f) << 25 | rs2 << 20 | rs1 << 15 | funct3 << 12 | (o >> 1 & 15) << 8 | (o >> 11 & 1) << 7 | 0x63
}

pub fn jal(rd: Reg, offset: i32) -> u32 {
    let o = offset as u32;
    (o >> 20 & 1) << 31 | (o >> 1 & 0x3ff) << 21 | (o >> 11 & 1) << 20 | (o >> 12 & 0xff) << 12 | rd << 7 | 0x6f
}

pub fn jalr(rd: Reg, offset: i32, rs1: Reg) -> u32 {
    i_type(offset, rs1, 0, rd, 0x67)
}

pub fn lui(rd: Reg, page: u32) -> u32 {
    page << 12 | rd << 7 | 0x37
}

pub fn auipc(rd: Reg, page: u32) -> u32 {
    page << 12 | rd << 7 | 0x17
}

pub fn addi(rd: Reg, rs1: Reg, constant: i32) -> u32 {
    i_type(constant, rs1, 0, rd, 0x13)
}

pub fn andi(rd: Reg, rs1: Reg, constant: i32) -> u32 {
    i_type(constant, rs1, 7, rd, 0x13)
}

pub fn slli(rd: Reg, rs1: Reg, amount: u32) -> u32 {
    i_type(amount as i32, rs1, 1, rd, 0x13)
}

pub fn srli(rd: Reg, rs1: Reg, amount: u32) -> u32 {
    i_type(amount as i32, rs1, 5, rd, 0x13)
}

pub fn add(rd: Reg, rs1: Reg, rs2: Reg) -> u32 {
    r_type(0, rs2, rs1, 0, rd)
}

pub fn xor(rd: Reg, rs1: Reg, rs2: Reg) -> u32 {
    r_type(0, rs2, rs1, 4, rd)
}

pub fn lw(rd: Reg, offset: i32, rs1: Reg) -> u32 {
    load(2, rd, offset, rs1)
}

pub fn sw(rs2: Reg, offset: i32, rs1: Reg) -> u32 {
    store(2, rs2, offset, rs1)
}

pub fn beq(rs1: Reg, rs2: Reg, offset: i32) -> u32 {
    branch(0, rs1, rs2, offset)
}

pub fn bne(rs1: Reg, rs2: Reg, offset: i32) -> u32 {
    branch(1, rs1, rs2, offset)
}

pub const CYCLE: u32 = 0xc00;
pub const TIME: u32 = 0xc01;
pub const CYCLEH: u32 = 0xc80;

pub fn read_counter(rd: Reg, counter: u32) -> u32 {
    counter << 20 | 2 << 12 | rd << 7 | 0x73
}
