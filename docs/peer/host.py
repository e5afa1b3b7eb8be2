#!/usr/bin/env python3
"""A plain interpreter of a host without ports, written from docs/FORMATS.md and the ISA manual, apart from the program.

    host.py IMAGE RAM CYCLE END    prints the log of a host that is named host
    host.py wild                   prints, for the test of pseudo-random programs, how many lines each logs, and the last
"""
import sys

WORD = 0xFFFFFFFF
RAM = 0x80000000
MSTATUS, MIE, MTVEC, MSCRATCH, MEPC, MCAUSE, MTVAL, MIP, MHARTID = (
    0x300, 0x304, 0x305, 0x340, 0x341, 0x342, 0x343, 0x344, 0xF14)


class Trap(Exception):
    pass


def signed(value, bits=32):
    value &= (1 << bits) - 1
    return value - (1 << bits) if value >> (bits - 1) else value


def quotient(a, b):
    return -(abs(a) // abs(b)) if (a < 0) != (b < 0) else abs(a) // abs(b)


MULTIPLIED = [
    lambda a, b: a * b,
    lambda a, b: signed(a) * signed(b) >> 32,
    lambda a, b: signed(a) * b >> 32,
    lambda a, b: a * b >> 32,
    lambda a, b: quotient(signed(a), signed(b)) if b else -1,
    lambda a, b: a // b if b else -1,
    lambda a, b: signed(a) - quotient(signed(a), signed(b)) * signed(b) if b else a,
    lambda a, b: a % b if b else a,
]
COMPUTED = [
    lambda a, b: a + b,
    lambda a, b: a << (b & 31),
    lambda a, b: int(signed(a) < signed(b)),
    lambda a, b: int(a < b & WORD),
    lambda a, b: a ^ b,
    lambda a, b: a >> (b & 31),
    lambda a, b: a | b,
    lambda a, b: a & b,
]
OTHERS = {0: lambda a, b: a - b, 5: lambda a, b: signed(a) >> (b & 31)}
TAKEN = {
    0: lambda a, b: a == b,
    1: lambda a, b: a != b,
    4: lambda a, b: signed(a) < signed(b),
    5: lambda a, b: signed(a) >= signed(b),
    6: lambda a, b: a < b,
    7: lambda a, b: a >= b,
}


class Host:
    def __init__(self, image, size):
        self.ram = bytearray(size)
        self.ram[:len(image)] = image
        self.registers = [0] * 32
        self.csrs = dict.fromkeys([MIE, MTVEC, MSCRATCH, MEPC, MCAUSE, MTVAL], 0)
        self.enabled = self.previously = 0
        self.pc, self.ticks, self.kept, self.lines, self.runs = RAM, 0, bytearray(), [], True

    def place(self, address, size):
        """The place of so many bytes in RAM, or None."""
        at = address - RAM
        return at if 0 <= at and at + size <= len(self.ram) else None

    def flush(self):
        self.lines.append("con " + "".join(
            chr(byte) if 0x20 <= byte <= 0x7E and byte != 0x5C else f"\\x{byte:02x}" for byte in self.kept))
        self.kept.clear()

    def end(self):
        self.runs = False
        if self.kept:
            self.flush()

    def load(self, address, size):
        if address % size:
            raise Trap(4)
        at = self.place(address, size)
        if at is not None:
            return int.from_bytes(self.ram[at:at + size], "little")
        if (address, size) == (0x10000008, 4):
            return self.ticks & WORD
        raise Trap(5)

    def store(self, address, size, value):
        if address % size:
            raise Trap(6)
        at = self.place(address, size)
        value &= (1 << 8 * size) - 1
        if at is not None:
            self.ram[at:at + size] = value.to_bytes(size, "little")
        elif (address, size) == (0x10000000, 1):
            if value != 10:
                self.kept.append(value)
            if value == 10 or len(self.kept) == 120:
                self.flush()
        elif (address, size) == (0x10000004, 4):
            self.end()
            self.lines.append(f"halt {value}")
        else:
            raise Trap(7)

    def csr(self, number):
        if number == MSTATUS:
            return 0x1800 | self.enabled << 3 | self.previously << 7
        if number in (MIP, MHARTID):
            return 0
        if number not in self.csrs:
            raise Trap(2)
        return self.csrs[number]

    def set_csr(self, number, value):
        if number == MHARTID:
            raise Trap(2)
        if number == MSTATUS:
            self.enabled, self.previously = value >> 3 & 1, value >> 7 & 1
        elif number != MIP:
            self.csrs[number] = value & {MIE: 0x800, MTVEC: ~3, MEPC: ~3}.get(number, WORD) & WORD

    def swap(self, word, kind):
        number, source = word >> 20, word >> 15 & 31
        old, bits = self.csr(number), source if kind & 4 else self.registers[source]
        if kind & 3 == 1:
            self.set_csr(number, bits)
        elif source:
            self.set_csr(number, old | bits if kind & 3 == 2 else old & ~bits)
        return old

    def instruct(self):
        """Runs one instruction; it answers the next pc."""
        at = self.place(self.pc, 4)
        if at is None:
            raise Trap(1)
        word = int.from_bytes(self.ram[at:at + 4], "little")
        opcode, kind, upper = word & 0x7F, word >> 12 & 7, word >> 25
        a, b = self.registers[word >> 15 & 31], self.registers[word >> 20 & 31]
        immediate, following, result, target = signed(word >> 20, 12), self.pc + 4, None, None
        if opcode == 0x37:
            result = word & ~0xFFF
        elif opcode == 0x17:
            result = self.pc + (word & ~0xFFF)
        elif opcode == 0x6F:
            target = self.pc + signed(
                word >> 31 << 20 | word & 0xFF000 | (word >> 20 & 1) << 11 | (word >> 21 & 0x3FF) << 1, 21)
            result = following
        elif opcode == 0x67 and kind == 0:
            target, result = a + immediate & ~1, following
        elif opcode == 0x63 and kind in TAKEN:
            if TAKEN[kind](a, b):
                target = self.pc + signed(
                    word >> 31 << 12 | (word >> 7 & 1) << 11 | (upper & 0x3F) << 5 | (word >> 8 & 15) << 1, 13)
        elif opcode == 0x03 and kind in (0, 1, 2, 4, 5):
            value = self.load(a + immediate & WORD, 1 << (kind & 3))
            result = value if kind & 4 else signed(value, 8 << kind)
        elif opcode == 0x23 and kind < 3:
            self.store(a + signed(upper << 5 | word >> 7 & 31, 12) & WORD, 1 << kind, b)
        elif opcode == 0x13 and (kind not in (1, 5) or upper == 0):
            result = COMPUTED[kind](a, immediate & WORD)
        elif opcode == 0x13 and kind == 5 and upper == 32:
            result = OTHERS[5](a, immediate)
        elif opcode == 0x33 and upper in (0, 1):
            result = (COMPUTED, MULTIPLIED)[upper][kind](a, b)
        elif opcode == 0x33 and upper == 32 and kind in OTHERS:
            result = OTHERS[kind](a, b)
        elif opcode == 0x0F and kind < 2:
            pass
        elif word in (0x73, 0x100073):
            raise Trap(11 if word == 0x73 else 3)
        elif word == 0x30200073:
            self.enabled, self.previously, target = self.previously, 1, self.csrs[MEPC]
        elif word == 0x10500073:
            self.runs = False
        elif opcode == 0x73 and kind not in (0, 4):
            result = self.swap(word, kind)
        else:
            raise Trap(2)
        if target is not None and target % 4:
            raise Trap(0)
        if result is not None and word >> 7 & 31:
            self.registers[word >> 7 & 31] = result & WORD
        return (following if target is None else target) & WORD

    def tick(self):
        try:
            self.pc = self.instruct()
        except Trap as trap:
            self.lines.append(f"trap {trap.args[0]:#x}")
            if not self.csrs[MTVEC]:
                self.end()
            self.csrs.update({MEPC: self.pc, MCAUSE: trap.args[0], MTVAL: 0})
            self.enabled, self.previously = 0, self.enabled
            self.pc = self.csrs[MTVEC]
        self.ticks += 1


def log(image, size, cycle, end):
    host = Host(image, size)
    lines = []
    for time in range(0, end, cycle):
        if not host.runs:
            break
        host.tick()
        lines += [(time, line) for line in host.lines]
        host.lines.clear()
    return lines


def wild(seed):
    """A trap handler at 0x80000010, and from there on the words of a generator, up to the end of 65,536 bytes."""
    words = [0x800002B7, 0x01028293, 0x30529073, 0x00000013]
    while len(words) < 16384:
        seed ^= seed << 13 & WORD
        seed ^= seed >> 17
        seed ^= seed << 5 & WORD
        words.append(seed)
    return b"".join(word.to_bytes(4, "little") for word in words)


if sys.argv[1:] == ["wild"]:
    for seed in range(1, 17):
        lines = log(wild(seed), 65536, 1000, 2000000)
        print(seed, len(lines), lines[-1][1])
else:
    with open(sys.argv[1], "rb") as file:
        for time, line in log(file.read(), *map(int, sys.argv[2:5])):
            print(time, "host", line)
