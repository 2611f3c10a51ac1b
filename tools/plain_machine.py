"""A plain RISC-V machine (RISC-V Unprivileged ISA, RV64I and M without FENCE) that runs images as docs/ABI.md and docs/RUNTIME.md say: a second reading, written from these
pages and the ISA, by which other scripts judge what the program does with an image."""

import dataclasses
import functools

from image_reading import CODE_BASE, DATA_BASE, STACK_OFFSET, Snapshot

REGION_BASE = 0x60000000
ONES = 2**64 - 1
PUT, GET, YIELD, STACK_LIMIT, END = 1, 2, 3, 4, 5
ECALL, EBREAK = 0x00000073, 0x00100073
NO_INSTRUCTION, BAD_TARGET, BAD_LOAD, BAD_STORE, BREAK, NO_REQUEST = 1, 2, 3, 4, 5, 6


class Trap(Exception):
    """An instruction that traps, with its kind."""


class Over(Exception):
    """The end of a run: its exit status and its closing line."""

    def __init__(self, status, line):
        super().__init__(status, line)
        self.status, self.line = status, line


def signed(value, bits=64):
    value &= 2**bits - 1
    return value - 2**bits if value >> (bits - 1) else value


def quotient(a, b, bits):
    """Signed division, rounded towards zero; by zero it gives all ones."""
    a, b = signed(a, bits), signed(b, bits)
    if b == 0:
        return -1
    return abs(a) // abs(b) * (1 if (a < 0) == (b < 0) else -1)


def remainder(a, b, bits):
    """What signed division leaves; by zero the dividend."""
    if signed(b, bits) == 0:
        return signed(a, bits)
    return signed(a, bits) - signed(b, bits) * quotient(a, b, bits)


# By funct7 and funct3: what the instruction of two registers gives, modulo 2 to the width of a register.
BINARY = {
    (0, 0): lambda a, b: a + b,
    (0, 1): lambda a, b: a << (b % 64),
    (0, 2): lambda a, b: int(signed(a) < signed(b)),
    (0, 3): lambda a, b: int(a < b),
    (0, 4): lambda a, b: a ^ b,
    (0, 5): lambda a, b: a >> (b % 64),
    (0, 6): lambda a, b: a | b,
    (0, 7): lambda a, b: a & b,
    (32, 0): lambda a, b: a - b,
    (32, 5): lambda a, b: signed(a) >> (b % 64),
    (1, 0): lambda a, b: a * b,
    (1, 1): lambda a, b: (signed(a) * signed(b)) >> 64,
    (1, 2): lambda a, b: (signed(a) * b) >> 64,
    (1, 3): lambda a, b: (a * b) >> 64,
    (1, 4): lambda a, b: quotient(a, b, 64),
    (1, 5): lambda a, b: a // b if b else ONES,
    (1, 6): lambda a, b: remainder(a, b, 64),
    (1, 7): lambda a, b: a % b if b else a,
}
# The same of the word instructions, whose result is its low 32 bits, sign-extended.
BINARY_WORD = {
    (0, 0): lambda a, b: a + b,
    (0, 1): lambda a, b: a << (b % 32),
    (0, 5): lambda a, b: (a % 2**32) >> (b % 32),
    (32, 0): lambda a, b: a - b,
    (32, 5): lambda a, b: signed(a, 32) >> (b % 32),
    (1, 0): lambda a, b: a * b,
    (1, 4): lambda a, b: quotient(a, b, 32),
    (1, 5): lambda a, b: a % 2**32 // (b % 2**32) if b % 2**32 else -1,
    (1, 6): lambda a, b: remainder(a, b, 32),
    (1, 7): lambda a, b: a % 2**32 % (b % 2**32) if b % 2**32 else a,
}
# By funct3.
BRANCHES = {
    0: lambda a, b: a == b,
    1: lambda a, b: a != b,
    4: lambda a, b: signed(a) < signed(b),
    5: lambda a, b: signed(a) >= signed(b),
    6: lambda a, b: a < b,
    7: lambda a, b: a >= b,
}
# By funct3: the size, and whether the value is sign-extended.
LOADS = {0: (1, True), 1: (2, True), 2: (4, True), 3: (8, False), 4: (1, False), 5: (2, False), 6: (4, False)}
STORES = {0: 1, 1: 2, 2: 4, 3: 8}


def extended(function):
    """A word instruction's result."""
    return lambda a, b: signed(function(a, b), 32)


@functools.lru_cache(maxsize=None)
def decoded(word):
    """What a word is: the name of its form and the fields of that, or None where it is no instruction."""
    opcode, rd, funct3, rs1, rs2, funct7 = word & 127, word >> 7 & 31, word >> 12 & 7, word >> 15 & 31, word >> 20 & 31, word >> 25
    immediate = signed(word >> 20, 12)
    if word in (ECALL, EBREAK):
        return ("ecall" if word == ECALL else "ebreak",)
    if opcode in (0b0110111, 0b0010111):
        return "upper", rd, signed(word & 0xFFFFF000, 32), opcode == 0b0010111
    if opcode == 0b1101111:
        return "jal", rd, signed((word >> 31) << 20 | (word >> 12 & 255) << 12 | (word >> 20 & 1) << 11 | (word >> 21 & 1023) << 1, 21)
    if opcode == 0b1100111 and funct3 == 0:
        return "jalr", rd, rs1, immediate
    if opcode == 0b1100011 and funct3 in BRANCHES:
        distance = signed((word >> 31) << 12 | (word >> 7 & 1) << 11 | (word >> 25 & 63) << 5 | (word >> 8 & 15) << 1, 13)
        return "branch", BRANCHES[funct3], rs1, rs2, distance
    if opcode == 0b0000011 and funct3 in LOADS:
        return "load", rd, rs1, immediate, *LOADS[funct3]
    if opcode == 0b0100011 and funct3 in STORES:
        return "store", rs1, rs2, signed(funct7 << 5 | rd, 12), STORES[funct3]
    if opcode == 0b0110011 and (funct7, funct3) in BINARY:
        return "registers", BINARY[funct7, funct3], rd, rs1, rs2
    if opcode == 0b0111011 and (funct7, funct3) in BINARY_WORD:
        return "registers", extended(BINARY_WORD[funct7, funct3]), rd, rs1, rs2
    if opcode == 0b0010011:
        return with_immediate(BINARY, rd, funct3, rs1, immediate, funct7 >> 1 << 1, word >> 20 & 63)
    if opcode == 0b0011011 and funct3 in (0, 1, 5):
        found = with_immediate(BINARY_WORD, rd, funct3, rs1, immediate, funct7, rs2)
        return found and ("immediate", extended(found[1]), *found[2:])
    return None


def with_immediate(table, rd, funct3, rs1, immediate, top, amount):
    """An instruction of a register and an immediate; of a shift that is its amount, and the bits above say which shift it is."""
    if funct3 not in (1, 5):
        return "immediate", table[0, funct3], rd, rs1, immediate & ONES
    if top == 0 or (top == 32 and funct3 == 5):
        return "immediate", table[top, funct3], rd, rs1, amount
    return None


@dataclasses.dataclass
class Break(Exception):
    """Where the chain of frames breaks."""

    frame: int
    address: int


class Machine:
    """A run of an image: registers, memory, what is left of the input, and what was written."""

    def __init__(self, image, stack, given=b"", client=None):
        self.image, self.given, self.client = image, given, client
        self.taken = 0
        self.output, self.log = bytearray(), bytearray()
        self.data, self.region = bytearray(image.data), bytearray(STACK_OFFSET + stack)
        self.top = REGION_BASE + STACK_OFFSET + stack
        self.registers = [0] * 32
        self.registers[2], self.registers[4] = self.top, REGION_BASE
        self.pc = image.start

    @staticmethod
    def of_snapshot(image, snapshot):
        """The machine as a snapshot has it."""
        found = Machine(image, len(snapshot.region) - STACK_OFFSET)
        found.registers, found.pc, found.data, found.region = snapshot.registers, snapshot.pc, snapshot.data, snapshot.region
        return found

    def snapshot(self):
        return Snapshot(self.registers, self.pc, self.data, self.region)

    def place(self, address, size):
        """The bytes that an access reaches, and where in them: it lies wholly in the data or wholly in the region."""
        for base, held in ((DATA_BASE, self.data), (REGION_BASE, self.region)):
            if base <= address and address + size <= base + len(held):
                return held, address - base
        return None

    def word_at(self, address):
        """The 8 bytes at an address that lies in memory, aligned or not."""
        held, at = self.place(address, 8)
        return int.from_bytes(held[at : at + 8], "little")

    def put_word(self, address, value):
        held, at = self.place(address, 8)
        held[at : at + 8] = value.to_bytes(8, "little")

    def write(self, register, value):
        if register:
            self.registers[register] = value & ONES

    def accessed(self, address, size, kind):
        """The place of a load or a store, which traps where there is none and where it is not aligned."""
        found = self.place(address, size)
        if address % size or found is None:
            raise Trap(kind)
        return found

    def jump(self, target):
        if target % 4:
            raise Trap(BAD_TARGET)
        return target

    def run(self, steps):
        """Runs so many instructions; answers the status and the closing line."""
        try:
            for _ in range(steps):
                self.step()
        except Trap as trap:
            return 8, f"trap {trap.args[0]} at {self.pc:016x}"
        except Break as broken:
            return 15, f"torn {broken.frame:016x} {broken.address:016x}"
        except Over as over:
            return over.status, over.line
        return 7, "step limit"

    def step(self):
        """One instruction."""
        at = self.pc - CODE_BASE
        if at < 0 or at + 4 > len(self.image.code) or at % 4:
            raise Trap(BAD_TARGET)
        found = decoded(int.from_bytes(self.image.code[at : at + 4], "little"))
        if found is None:
            raise Trap(NO_INSTRUCTION)
        goes = getattr(self, "do_" + found[0])(*found[1:])
        self.pc = (self.pc + 4 if goes is None else goes) & ONES

    def do_upper(self, rd, value, from_pc):
        self.write(rd, value + (self.pc if from_pc else 0))

    def do_jal(self, rd, distance):
        target = self.jump((self.pc + distance) & ONES)
        self.write(rd, self.pc + 4)
        return target

    def do_jalr(self, rd, rs1, immediate):
        target = self.jump((self.registers[rs1] + immediate) & ONES & ~1)
        self.write(rd, self.pc + 4)
        return target

    def do_branch(self, holds, rs1, rs2, distance):
        if holds(self.registers[rs1], self.registers[rs2]):
            return self.jump((self.pc + distance) & ONES)
        return None

    def do_load(self, rd, rs1, immediate, size, is_signed):
        held, at = self.accessed((self.registers[rs1] + immediate) & ONES, size, BAD_LOAD)
        self.write(rd, int.from_bytes(held[at : at + size], "little", signed=is_signed))

    def do_store(self, rs1, rs2, immediate, size):
        held, at = self.accessed((self.registers[rs1] + immediate) & ONES, size, BAD_STORE)
        held[at : at + size] = (self.registers[rs2] & (2 ** (8 * size) - 1)).to_bytes(size, "little")

    def do_registers(self, function, rd, rs1, rs2):
        self.write(rd, function(self.registers[rs1], self.registers[rs2]))

    def do_immediate(self, function, rd, rs1, value):
        self.write(rd, function(self.registers[rs1], value))

    def do_ebreak(self):
        raise Trap(BREAK)

    def do_ecall(self):
        request = self.registers[5]
        if request == PUT:
            self.output.append(self.registers[10] & 255)
        elif request == GET:
            self.registers[10] = self.given[self.taken] if self.taken < len(self.given) else ONES
            self.taken += self.taken < len(self.given)
        elif request == YIELD:
            self.pc += 4
            self.client(self)
            return self.pc
        elif request == STACK_LIMIT:
            raise Over(6, "stack limit")
        elif request == END:
            raise Over(0, f"result {self.registers[10]}")
        else:
            raise Trap(NO_REQUEST)
        return None
