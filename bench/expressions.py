#!/usr/bin/env python3
"""DWARF expressions: the proved program beside a plain reader, written from the standard (DWARF 4, sections 2.5, 7.6 and
7.7.1), on random expressions.

    bench/expressions.py [PROGRAM [COUNT [SEED]]]

PROGRAM is the proved program, by default crates/plcr_expressions/out/plcr_expressions (`rt run` in crates/plcr_expressions
leaves it). Each of COUNT expressions, by default 100,000, is evaluated by both, and the answers are compared. Some are
random bytes; most are operations in a row, with numbers near the ends of their ranges, jumps, and addresses in the code. Some
code goes on at address 0 behind the last address. It fails where answers differ, where some fault was never reached, and
where no code that goes on at 0 had a value, or an operand that passes 2^64.
"""
import os
import random
import subprocess
import sys
from collections import Counter

HERE = os.path.dirname(os.path.abspath(__file__))
WORD = 1 << 64
MOST_VALUES, MOST_OPERATIONS = 64, 1000
PLACES = {"x86_64": [0, 3, 2, 1, 5, 4] + list(range(6, 17)), "arm64": list(range(32))}


class Fault(Exception):
    """Why an expression has no value."""


def signed(number, bits=64):
    number %= 1 << bits
    return number - (1 << bits) if number >> (bits - 1) else number


def quotient(left, right):
    """The quotient towards zero."""
    size = abs(left) // abs(right)
    return size if (left < 0) == (right < 0) else -size


class Reader:
    """One expression, and how it is evaluated."""

    def __init__(self, arch, at, code, start, registers):
        self.places, self.at, self.code, self.registers = PLACES[arch], at, code, registers
        self.stack = [] if start is None else [start]
        self.place = 0
        self.passed = False  # whether an operand whose bytes are there passed 2^64

    def byte(self):
        if self.place >= len(self.code):
            raise Fault("Truncated")
        self.place += 1
        return self.code[self.place - 1]

    def mapped(self, at, size):
        """Whether so many bytes at an address are of the code; together they don't pass 2^64."""
        return at + size <= WORD and (at - self.at) % WORD + size <= len(self.code)

    def number(self, size):
        at = (self.at + self.place) % WORD
        if not self.mapped(at, size):
            self.passed = self.passed or at + size > WORD and self.place + size <= len(self.code)
            raise Fault("Truncated")
        return int.from_bytes(bytes(self.byte() for _ in range(size)), "little")

    def leb(self, with_sign):
        number = 0
        for group in range(10):
            byte = self.byte()
            number += (byte & 0x7f) << (7 * group)
            if byte < 0x80:
                return signed(number, 7 * (group + 1)) if with_sign else number
        raise Fault("Truncated")

    def need(self, count):
        if len(self.stack) < count:
            raise Fault("Underflow")

    def pop(self):
        self.need(1)
        return self.stack.pop()

    def room(self):
        if len(self.stack) >= MOST_VALUES:
            raise Fault("Overflow")

    def push(self, number):
        self.room()
        self.stack.append(number % WORD)

    def register(self, number, offset=0):
        self.room()
        known = self.registers.get(self.places[number]) if number < len(self.places) else None
        if known is None:
            raise Fault("NoRegister")
        self.push(known + offset)

    def load(self, size):
        at = self.pop()
        if not self.mapped(at, size):
            raise Fault("Unmapped %d" % at)
        place = (at - self.at) % WORD
        self.push(int.from_bytes(self.code[place:place + size], "little"))

    def jump(self, by):
        target = self.place + by
        if target < 0 or target > len(self.code):
            raise Fault("BadJump")
        self.place = target

    def binary(self, op):
        self.need(2)
        right, left = self.stack.pop(), self.stack.pop()
        if op in (0x1b, 0x1d) and right == 0:
            raise Fault("DivideByZero")
        a, b = signed(left), signed(right)
        self.push({
            0x1a: lambda: left & right, 0x1b: lambda: quotient(a, b), 0x1c: lambda: left - right,
            0x1d: lambda: left % right, 0x1e: lambda: left * right, 0x21: lambda: left | right,
            0x22: lambda: left + right, 0x24: lambda: left << right if right < 64 else 0,
            0x25: lambda: left >> right if right < 64 else 0, 0x26: lambda: a >> min(right, 64),
            0x27: lambda: left ^ right, 0x29: lambda: a == b, 0x2a: lambda: a >= b, 0x2b: lambda: a > b,
            0x2c: lambda: a <= b, 0x2d: lambda: a < b, 0x2e: lambda: a != b,
        }[op]())

    def pick(self, depth):
        self.need(depth + 1)
        self.push(self.stack[-1 - depth])

    def operation(self):
        op = self.byte()
        if op == 0x03:
            self.push(self.number(8))
        elif op == 0x06:
            self.load(8)
        elif 0x08 <= op <= 0x0f:
            size = 1 << ((op - 0x08) // 2)
            number = self.number(size)
            self.push(signed(number, 8 * size) if op % 2 else number)
        elif op in (0x10, 0x11):
            self.push(self.leb(op == 0x11))
        elif op == 0x12:
            self.pick(0)
        elif op == 0x13:
            self.pop()
        elif op == 0x14:
            self.pick(1)
        elif op == 0x15:
            self.pick(self.byte())
        elif op == 0x16:
            self.need(2)
            self.stack[-2:] = [self.stack[-1], self.stack[-2]]
        elif op == 0x17:
            self.need(3)
            self.stack[-3:] = [self.stack[-1], self.stack[-3], self.stack[-2]]
        elif op == 0x19:
            self.push(abs(signed(self.pop())))
        elif op == 0x1f:
            self.push(-self.pop())
        elif op == 0x20:
            self.push(~self.pop())
        elif op == 0x23:
            addend = self.leb(False)
            self.push(self.pop() + addend)
        elif 0x1a <= op <= 0x2e and op != 0x28:
            self.binary(op)
        elif op == 0x28:
            by = signed(self.number(2), 16)
            if self.pop() != 0:
                self.jump(by)
        elif op == 0x2f:
            self.jump(signed(self.number(2), 16))
        elif 0x30 <= op <= 0x4f:
            self.push(op - 0x30)
        elif 0x50 <= op <= 0x6f:
            self.register(op - 0x50)
        elif 0x70 <= op <= 0x8f:
            self.register(op - 0x70, self.leb(True))
        elif op == 0x90:
            self.register(self.leb(False) % WORD)
        elif op == 0x92:
            number = self.leb(False) % WORD
            self.register(number, self.leb(True))
        elif op == 0x94:
            size = self.byte()
            if size not in (1, 2, 4, 8):
                raise Fault("Unknown %d" % op)
            self.load(size)
        elif op != 0x96:
            raise Fault("Unknown %d" % op)

    def answer(self):
        try:
            for done in range(MOST_OPERATIONS + 1):
                if self.place == len(self.code):
                    return str(self.pop())
                if done == MOST_OPERATIONS:
                    raise Fault("Budget")
                self.operation()
        except Fault as fault:
            return str(fault)


FAULTS = ["Truncated", "Unknown", "Underflow", "Overflow", "Unmapped", "NoRegister", "DivideByZero", "Budget", "BadJump"]
EXTREMES = [0, 1, 2, 63, 64, 65, 127, 128, 255, (1 << 63) - 1, 1 << 63, (1 << 63) + 1, WORD - 1, WORD - 2, WORD - 64]


def some_number(chance):
    kind = chance.randrange(4)
    if kind == 0:
        return chance.choice(EXTREMES)
    return chance.randrange(1 << chance.choice([3, 8, 16, 32, 63, 64]))


def some_leb(chance):
    groups = [chance.choice([0, 0x3f, 0x40, 0x7f, chance.randrange(128)]) for _ in range(chance.choice([1, 1, 1, 2, 3, 9, 10, 11]))]
    return bytes(group | 0x80 for group in groups[:-1]) + bytes(groups[-1:])


def some_jump(chance):
    by = chance.choice([chance.randrange(-12, 13), chance.randrange(0, 8), chance.randrange(-32768, 32768)])
    return (by % 65536).to_bytes(2, "little")


def some_operation(chance, at, size):
    kind = chance.randrange(10)
    if kind < 4:
        op = chance.choice([0x03, 0x08, 0x09, 0x0a, 0x0b, 0x0c, 0x0d, 0x0e, 0x0f, 0x10, 0x11, 0x30 + chance.randrange(32)])
        if op == 0x03:
            near = (at + chance.randrange(-2, size + 3)) % WORD
            return bytes([op]) + near.to_bytes(8, "little") + chance.choice([b"", b"\x06", bytes([0x94, chance.choice([1, 2, 4, 8, 3])])])
        if 0x08 <= op <= 0x0f:
            wide = 1 << ((op - 8) // 2)
            return bytes([op]) + (some_number(chance) % (1 << (8 * wide))).to_bytes(wide, "little")
        return bytes([op]) + (some_leb(chance) if op in (0x10, 0x11) else b"")
    if kind < 7:
        return bytes([chance.choice([0x19, 0x1a, 0x1b, 0x1c, 0x1d, 0x1e, 0x1f, 0x20, 0x21, 0x22, 0x24, 0x25, 0x26, 0x27, 0x29, 0x2a,
                                     0x2b, 0x2c, 0x2d, 0x2e])])
    op = chance.choice([0x06, 0x12, 0x13, 0x14, 0x15, 0x16, 0x17, 0x23, 0x28, 0x2f, 0x50, 0x70, 0x90, 0x92, 0x94, 0x96, None])
    if op is None:
        return bytes([chance.randrange(256)])
    if op == 0x15:
        return bytes([op, chance.choice([0, 1, 2, 3, chance.randrange(256)])])
    if op in (0x28, 0x2f):
        return bytes([op]) + some_jump(chance)
    if op in (0x50, 0x70):
        return bytes([op + chance.randrange(32)]) + (some_leb(chance) if op == 0x70 else b"")
    if op == 0x94:
        return bytes([op, chance.choice([1, 2, 4, 8, 1, 2, 4, 8, chance.randrange(256)])])
    number = bytes([chance.randrange(36)]) if op in (0x90, 0x92) and chance.randrange(4) else some_leb(chance)
    return bytes([op]) + (number if op in (0x23, 0x90, 0x92) else b"") + (some_leb(chance) if op == 0x92 else b"")


def some_code(chance, at):
    kind = chance.randrange(12)
    if kind == 0:
        return bytes(chance.randrange(256) for _ in range(chance.randrange(24)))
    if kind == 1:
        one = some_operation(chance, at, 8)
        return one * chance.choice([1, 2, 63, 64, 65, 999, 1000, 1001]) if len(one) == 1 else one
    code = b"".join(bytes([0x30 + chance.randrange(32)]) for _ in range(chance.choice([0, 1, 2, 3])))
    for _ in range(chance.randrange(1, 14)):
        code += some_operation(chance, at, len(code))
    return code[:-1] if chance.randrange(20) == 0 else code


def some_expression(chance):
    arch = chance.choice(["x86_64", "arm64"])
    at = 0x2000
    code = some_code(chance, at)
    if code and chance.randrange(16) == 0:
        at = WORD - chance.randrange(1, len(code) + 1)
    start = chance.choice([None, None, some_number(chance), at, at + 1])
    registers = {place: some_number(chance) for place in range(34) if chance.randrange(3)}
    return arch, at, code, start % WORD if start is not None else None, registers


def line_of(arch, at, code, start, registers):
    words = [arch, str(at), code.hex() or "-", "-" if start is None else str(start)]
    return " ".join(words + ["%d=%d" % known for known in registers.items()])


def main():
    named = sys.argv[1] if len(sys.argv) > 1 else os.path.join(HERE, "..", "crates", "plcr_expressions", "out", "plcr_expressions")
    count = int(sys.argv[2]) if len(sys.argv) > 2 else 100000
    seed = int(sys.argv[3]) if len(sys.argv) > 3 else 1
    chance = random.Random(seed)
    expressions = [some_expression(chance) for _ in range(count)]
    lines = [line_of(*expression) for expression in expressions]
    said = subprocess.run([os.path.abspath(named)], input="\n".join(lines) + "\n", capture_output=True, text=True, check=True)
    answers = said.stdout.splitlines()
    if len(answers) != count:
        sys.exit("%d answers to %d expressions" % (len(answers), count))
    kinds, around, passed, differences = Counter(), Counter(), 0, 0
    for line, expression, answer in zip(lines, expressions, answers):
        reader = Reader(*expression)
        want = reader.answer()
        kind = "a value" if want[0].isdigit() else want.split()[0]
        kinds[kind] += 1
        if reader.at + len(reader.code) > WORD:
            around[kind] += 1
            passed += reader.passed
        if want != answer:
            differences += 1
            if differences <= 10:
                print("%s\n    wanted %s, the program says %s" % (line, want, answer))
    print("%d expressions, seed %d: %d differences" % (count, seed, differences))
    print(", ".join("%s %d" % kind for kind in kinds.most_common()))
    print("over 2^64: %d, of which %d have a value and %d an operand that passes it" % (sum(around.values()), around["a value"], passed))
    missed = [kind for kind in ["a value"] + FAULTS if not kinds[kind]]
    if not around["a value"]:
        missed.append("a value of code over 2^64")
    if not passed:
        missed.append("an operand over 2^64")
    if missed:
        print("never reached: %s" % ", ".join(missed))
    sys.exit(1 if differences or missed else 0)


if __name__ == "__main__":
    main()
