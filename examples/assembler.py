"""A small assembler for the example's programs: RV32I without FENCE, ECALL and EBREAK, and rdcycle.

One instruction or label a line; `#` begins a comment. Numbers are decimal. Branches and jal take a label, loads, stores and jalr take offset(register).
"""
import re

REGISTER_OPERATIONS = {
    "add": (0, 0), "sub": (0, 32), "sll": (1, 0), "slt": (2, 0), "sltu": (3, 0), "xor": (4, 0), "srl": (5, 0), "sra": (5, 32), "or": (6, 0), "and": (7, 0),
}
CONSTANT_OPERATIONS = {"addi": 0, "slti": 2, "sltiu": 3, "xori": 4, "ori": 6, "andi": 7}
SHIFTS = {"slli": (1, 0), "srli": (5, 0), "srai": (5, 32)}
LOADS = {"lb": 0, "lh": 1, "lw": 2, "lbu": 4, "lhu": 5}
STORES = {"sb": 0, "sh": 1, "sw": 2}
BRANCHES = {"beq": 0, "bne": 1, "blt": 4, "bge": 5, "bltu": 6, "bgeu": 7}


def bits(value, high, low):
    return value >> low & (1 << high - low + 1) - 1


def fits(value, width):
    """The value as a field of a signed number of that width."""
    if not -(1 << width - 1) <= value < 1 << width - 1:
        raise ValueError(f"{value} does not fit {width} bits")
    return value & (1 << width) - 1


def register(text):
    number = int(text.removeprefix("x"))
    if not text.startswith("x") or not 0 <= number < 32:
        raise ValueError(f"{text} is no register")
    return number


def memory(text):
    """offset(register)"""
    offset, base = re.fullmatch(r"(-?\d+)\((x\d+)\)", text).groups()
    return int(offset), register(base)


def i_type(constant, rs1, funct3, rd, opcode):
    return fits(constant, 12) << 20 | rs1 << 15 | funct3 << 12 | rd << 7 | opcode


def encode(name, operands, here, labels):
    if name in REGISTER_OPERATIONS:
        (funct3, funct7), (rd, rs1, rs2) = REGISTER_OPERATIONS[name], map(register, operands)
        return funct7 << 25 | rs2 << 20 | rs1 << 15 | funct3 << 12 | rd << 7 | 0x33
    if name in CONSTANT_OPERATIONS:
        return i_type(int(operands[2]), register(operands[1]), CONSTANT_OPERATIONS[name], register(operands[0]), 0x13)
    if name in SHIFTS:
        funct3, funct7 = SHIFTS[name]
        return i_type(funct7 << 5 | int(operands[2]) & 31, register(operands[1]), funct3, register(operands[0]), 0x13)
    if name in LOADS or name == "jalr":
        offset, base = memory(operands[1])
        funct3, opcode = (0, 0x67) if name == "jalr" else (LOADS[name], 0x03)
        return i_type(offset, base, funct3, register(operands[0]), opcode)
    if name in STORES:
        (offset, base), rs2 = memory(operands[1]), register(operands[0])
        offset = fits(offset, 12)
        return bits(offset, 11, 5) << 25 | rs2 << 20 | base << 15 | STORES[name] << 12 | bits(offset, 4, 0) << 7 | 0x23
    if name in BRANCHES:
        rs1, rs2, o = register(operands[0]), register(operands[1]), fits(labels[operands[2]] - here, 13)
        return (bits(o, 12, 12) << 31 | bits(o, 10, 5) << 25 | rs2 << 20 | rs1 << 15 | BRANCHES[name] << 12
                | bits(o, 4, 1) << 8 | bits(o, 11, 11) << 7 | 0x63)
    if name == "jal":
        o = fits(labels[operands[1]] - here, 21)
        return (bits(o, 20, 20) << 31 | bits(o, 10, 1) << 21 | bits(o, 11, 11) << 20 | bits(o, 19, 12) << 12
                | register(operands[0]) << 7 | 0x6f)
    if name in ("lui", "auipc"):
        return int(operands[1]) << 12 | register(operands[0]) << 7 | (0x37 if name == "lui" else 0x17)
    if name == "rdcycle":
        return 0xC0002073 | register(operands[0]) << 7
    raise ValueError(f"{name} is no instruction")


def assemble(source):
    """The words of a program."""
    labels, lines = {}, []
    for line in source.splitlines():
        text = line.split("#")[0].strip()
        if match := re.match(r"(\w+):", text):
            labels[match.group(1)] = 4 * len(lines)
            text = text[match.end():].strip()
        if text:
            name, _, operands = text.partition(" ")
            lines.append((name, [operand.strip() for operand in operands.split(",")]))
    return [encode(name, operands, 4 * k, labels) for k, (name, operands) in enumerate(lines)]
