//! The instructions: RV32I without FENCE, ECALL and EBREAK, and three reads of counters.

#[derive(Clone, Copy, Debug, PartialEq, Eq)]
pub enum Operation {
    Add,
    Sub,
    Sll,
    Slt,
    Sltu,
    Xor,
    Srl,
    Sra,
    Or,
    And,
}

#[derive(Clone, Copy, Debug, PartialEq, Eq)]
pub enum Condition {
    Eq,
    Ne,
    Lt,
    Ge,
    Ltu,
    Geu,
}

#[derive(Clone, Copy, Debug, PartialEq, Eq)]
pub enum LoadKind {
    Byte,
    Half,
    Word,
    ByteUnsigned,
    HalfUnsigned,
}

#[derive(Clone, Copy, Debug, PartialEq, Eq)]
pub enum StoreKind {
    Byte,
    Half,
    Word,
}

#[derive(Clone, Copy, Debug, PartialEq, Eq)]
pub enum Counter {
    /// cycle and time: the low half of the clock
    Low,
    /// cycleh: the high half
    High,
}

/// An instruction; constants are sign-extended words.
#[derive(Clone, Copy, Debug, PartialEq, Eq)]
pub enum Instruction {
    Lui { rd: u8, constant: u32 },
    Auipc { rd: u8, constant: u32 },
    Jal { rd: u8, offset: u32 },
    Jalr { rd: u8, rs1: u8, offset: u32 },
    Branch { condition: Condition, rs1: u8, rs2: u8, offset: u32 },
    Load { kind: LoadKind, rd: u8, rs1: u8, offset: u32 },
    Store { kind: StoreKind, rs1: u8, rs2: u8, offset: u32 },
    Immediate { operation: Operation, rd: u8, rs1: u8, constant: u32 },
    Register { operation: Operation, rd: u8, rs1: u8, rs2: u8 },
    ReadCounter { counter: Counter, rd: u8 },
}

impl Operation {
    pub fn apply(self, a: u32, b: u32) -> u32 {
        match self {
            Operation::Add => a.wrapping_add(b),
            Operation::Sub => a.wrapping_sub(b),
            Operation::Sll => a << (b & 31),
            Operation::Slt => u32::from((a as i32) < b as i32),
            Operation::Sltu => u32::from(a < b),
            Operation::Xor => a ^ b,
            Operation::Srl => a >> (b & 31),
            Operation::Sra => ((a as i32) >> (b & 31)) as u32,
            Operation::Or => a | b,
            Operation::And => a & b,
        }
    }
}

impl Condition {
    pub fn holds(self, a: u32, b: u32) -> bool {
        match self {
            Condition::Eq => a == b,
            Condition::Ne => a != b,
            Condition::Lt => (a as i32) < b as i32,
            Condition::Ge => a as i32 >= b as i32,
            Condition::Ltu => a < b,
            Condition::Geu => a >= b,
        }
    }
}

impl LoadKind {
    pub fn bytes(self) -> u32 {
        match self {
            LoadKind::Byte | LoadKind::ByteUnsigned => 1,
            LoadKind::Half | LoadKind::HalfUnsigned => 2,
            LoadKind::Word => 4,
        }
    }

    /// The value of a load from a word, at an aligned byte offset in it.
    pub fn extract(self, word: u32, offset: u32) -> u32 {
        let shifted = word >> (8 * offset);
        match self {
            LoadKind::Byte => shifted as i8 as u32,
            LoadKind::Half => shifted as i16 as u32,
            LoadKind::Word => word,
            LoadKind::ByteUnsigned => shifted & 0xff,
            LoadKind::HalfUnsigned => shifted & 0xffff,
        }
    }
}

impl StoreKind {
    pub fn bytes(self) -> u32 {
        match self {
            StoreKind::Byte => 1,
            StoreKind::Half => 2,
            StoreKind::Word => 4,
        }
    }

    /// The word after a store to an aligned byte offset in it.
    pub fn insert(self, word: u32, value: u32, offset: u32) -> u32 {
        let mask = match self {
            StoreKind::Byte => 0xff << (8 * offset),
            StoreKind::Half => 0xffff << (8 * offset),
            StoreKind::Word => return value,
        };
        (word & !mask) | ((value << (8 * offset)) & mask)
    }
}

/// The instruction that a word encodes, if any.
pub fn decode(word: u32) -> Option<Instruction> {
    let rd = (word >> 7 & 31) as u8;
    let rs1 = (word >> 15 & 31) as u8;
    let rs2 = (word >> 20 & 31) as u8;
    let funct3 = word >> 12 & 7;
    let funct7 = word >> 25;
    let instruction = match word & 0x7f {
        0x37 => Instruction::Lui { rd, constant: word & 0xffff_f000 },
        0x17 => Instruction::Auipc { rd, constant: word & 0xffff_f000 },
        0x6f => Instruction::Jal { rd, offset: j_constant(word) },
        0x67 if funct3 == 0 => Instruction::Jalr { rd, rs1, offset: i_constant(word) },
        0x63 => Instruction::Branch { condition: condition(funct3)?, rs1, rs2, offset: b_constant(word) },
        0x03 => Instruction::Load { kind: load_kind(funct3)?, rd, rs1, offset: i_constant(word) },
        0x23 => Instruction::Store { kind: store_kind(funct3)?, rs1, rs2, offset: s_constant(word) },
        0x13 => immediate(word, funct3, funct7, rd, rs1)?,
        0x33 => Instruction::Register { operation: operation(funct3, funct7)?, rd, rs1, rs2 },
        0x73 if funct3 == 2 && rs1 == 0 => Instruction::ReadCounter { counter: counter(word >> 20)?, rd },
        _ => return None,
    };
    Some(instruction)
}

fn i_constant(word: u32) -> u32 {
    (word as i32 >> 20) as u32
}

fn s_constant(word: u32) -> u32 {
    (word as i32 >> 25 << 5) as u32 | (word >> 7 & 31)
}

fn b_constant(word: u32) -> u32 {
    (word as i32 >> 31 << 12) as u32 | (word << 4 & 0x800) | (word >> 20 & 0x7e0) | (word >> 7 & 0x1e)
}

fn j_constant(word: u32) -> u32 {
    (word as i32 >> 31 << 20) as u32 | (word & 0xf_f000) | (word >> 9 & 0x800) | (word >> 20 & 0x7fe)
}

fn condition(funct3: u32) -> Option<Condition> {
    Some(match funct3 {
        0 => Condition::Eq,
        1 => Condition::Ne,
        4 => Condition::Lt,
        5 => Condition::Ge,
        6 => Condition::Ltu,
        7 => Condition::Geu,
        _ => return None,
    })
}

fn load_kind(funct3: u32) -> Option<LoadKind> {
    Some(match funct3 {
        0 => LoadKind::Byte,
        1 => LoadKind::Half,
        2 => LoadKind::Word,
        4 => LoadKind::ByteUnsigned,
        5 => LoadKind::HalfUnsigned,
        _ => return None,
    })
}

fn store_kind(funct3: u32) -> Option<StoreKind> {
    Some(match funct3 {
        0 => StoreKind::Byte,
        1 => StoreKind::Half,
        2 => StoreKind::Word,
        _ => return None,
    })
}

fn operation(funct3: u32, funct7: u32) -> Option<Operation> {
    Some(match (funct7, funct3) {
        (0x00, 0) => Operation::Add,
        (0x20, 0) => Operation::Sub,
        (0x00, 1) => Operation::Sll,
        (0x00, 2) => Operation::Slt,
        (0x00, 3) => Operation::Sltu,
        (0x00, 4) => Operation::Xor,
        (0x00, 5) => Operation::Srl,
        (0x20, 5) => Operation::Sra,
        (0x00, 6) => Operation::Or,
        (0x00, 7) => Operation::And,
        _ => return None,
    })
}

fn immediate(word: u32, funct3: u32, funct7: u32, rd: u8, rs1: u8) -> Option<Instruction> {
    let (operation, constant) = match funct3 {
        1 | 5 => (operation(funct3, funct7)?, word >> 20 & 31),
        _ => (operation(funct3, 0)?, i_constant(word)),
    };
    Some(Instruction::Immediate { operation, rd, rs1, constant })
}

fn counter(number: u32) -> Option<Counter> {
    match number {
        0xc00 | 0xc01 => Some(Counter::Low),
        0xc80 => Some(Counter::High),
        _ => None,
    }
}

#[cfg(test)]
mod tests {
    use super::*;

    #[test]
    fn words_of_the_manual() {
        use Instruction::*;
        assert_eq!(decode(0x00500113), Some(Immediate { operation: Operation::Add, rd: 2, rs1: 0, constant: 5 }));
        assert_eq!(decode(0x00011137), Some(Lui { rd: 2, constant: 17 << 12 }));
        assert_eq!(decode(0x00012303), Some(Load { kind: LoadKind::Word, rd: 6, rs1: 2, offset: 0 }));
        assert_eq!(decode(0x0081a023), Some(Store { kind: StoreKind::Word, rs1: 3, rs2: 8, offset: 0 }));
        let back = Branch { condition: Condition::Eq, rs1: 0, rs2: 0, offset: 8u32.wrapping_neg() };
        assert_eq!(decode(0xfe000ce3), Some(back));
        assert_eq!(decode(0x0000006f), Some(Jal { rd: 0, offset: 0 }));
        assert_eq!(decode(0xffdff06f), Some(Jal { rd: 0, offset: 4u32.wrapping_neg() }));
        assert_eq!(decode(0xc00022f3), Some(ReadCounter { counter: Counter::Low, rd: 5 }));
        assert_eq!(decode(0x00000073), None);
        assert_eq!(decode(0x0000000f), None);
    }
}
