#!/usr/bin/env python3
"""Makes the benchmark images: logic, numbers, mechanisms and mixed.

    python3 make.py [FOLDER]

The images follow from this file alone: every choice is drawn by the small
generator below and not by a library, so they are the same everywhere.
"""

import struct
import sys
from pathlib import Path

CODES = {
    "LDR": 1, "LA": 2, "LO": 3, "LX": 4, "CA": 5, "WR": 6, "FL": 7, "FL1": 8,
    "JL0": 9, "JL1": 10, "EX": 11, "EX0": 12, "EX1": 13, "LOD": 16, "STO": 17,
    "AD": 19, "ABS": 20, "GE": 21, "MECH_BEGIN": 22, "MECH_END": 23, "MECH_INIT": 24,
}
INPUT, BLOCK_INIT, BLOCK_DONE, MAIN, INIT, CLEAR, HALT = range(7)
ZAV_FCE = 128


class Draw:
    """A linear congruential generator of 64 bits."""

    def __init__(self, seed):
        self.state = seed

    def below(self, limit):
        self.state = (self.state * 6364136223846793005 + 1442695040888963407) % 2**64
        return (self.state >> 33) % limit

    def among(self, choices):
        return choices[self.below(len(choices))]


class Program:
    """Data, activation bits and the lines of seven modules."""

    def __init__(self, data, activation, seed):
        self.data = bytearray(data)
        self.activation = activation
        self.modules = [[] for _ in range(7)]
        self.draw = Draw(seed)

    def line(self, module, name, mode=0, operand=0):
        self.modules[module].append([name, mode, operand])

    def jump(self, module, name):
        """A jump; its target is settled by `land`."""
        self.line(module, name)
        return self.modules[module][-1]

    def land(self, module, jump):
        """The jump leads to the next line of the module that is written."""
        jump[2] = len(self.modules[module])

    def image(self):
        """The encoding; jump targets become line numbers of the whole text."""
        lines = []
        for module in self.modules:
            first = len(lines)
            for name, mode, operand in module:
                lines.append((name, mode, operand + first if name in ("JL0", "JL1") else operand))
        out = struct.pack("<H", len(self.data)) + bytes(self.data)
        out += struct.pack("<H", len(self.activation))
        out += b"".join(struct.pack("<H", bit) for bit in self.activation)
        out += struct.pack("<H", 7)
        out += b"".join(struct.pack("<H", len(module)) for module in self.modules)
        out += struct.pack("<H", len(lines))
        out += b"".join(struct.pack("<BBH", CODES[n], m, o) for n, m, o in lines)
        return out


def any_bit(p):
    """An input, an output or an inner bit from byte 17 on."""
    kind = p.draw.below(4)
    if kind == 0:
        return p.draw.below(64)
    if kind == 1:
        return 64 + p.draw.below(64)
    return 136 + p.draw.below(8 * (len(p.data) - 17 - 32))


def written_bit(p):
    bit = any_bit(p)
    return bit + 64 if bit < 64 else bit


def logic_network(p, module, depth):
    """One network: loads, logic, some cells stacked and taken again, a write."""
    for level in range(depth + 1):
        p.line(module, "LDR", p.draw.below(2), any_bit(p))
        for _ in range(p.draw.below(4)):
            p.line(module, p.draw.among(["LA", "LO", "LX", "LA", "LO"]), p.draw.below(2), any_bit(p))
    for level in range(depth):
        p.line(module, p.draw.among(["LA", "LO", "LX"]), 2)
        if p.draw.below(3) == 0:
            p.line(module, p.draw.among(["LA", "LO", "LX"]), p.draw.below(2), any_bit(p))
    if p.draw.below(5) == 0:
        p.line(module, "CA")
    if p.draw.below(4) == 0:
        p.line(module, "FL1", p.draw.below(2), written_bit(p))
    else:
        p.line(module, "WR", 0, written_bit(p))


def guarded(p, module, write):
    """Lines behind a jump that leads past them."""
    p.line(module, "LDR", p.draw.below(2), any_bit(p))
    jump = p.jump(module, p.draw.among(["JL0", "JL1"]))
    write()
    p.land(module, jump)


def number_network(p, module):
    """Counts a number up, bounds it and writes the outcome of a comparison."""
    width = p.draw.among([1, 2, 4])
    low = 17
    place = low + p.draw.below(len(p.data) - 32 - low - 4)
    p.line(module, "LOD", width, place)
    for _ in range(1 + p.draw.below(3)):
        p.line(module, "AD", width, p.draw.below(len(p.data) - width))
    p.line(module, "STO", width, place)
    if p.draw.below(3) == 0:
        p.line(module, "ABS", width)
        p.line(module, "STO", width, place)
    p.line(module, "GE", width, p.draw.below(len(p.data) - width))
    p.line(module, "WR", 0, written_bit(p))


def mechanism(p, k, stations):
    """A mechanism of several stations, each with work and a wait."""
    p.line(MAIN, "FL", 1, p.activation[k])
    p.line(MAIN, "MECH_BEGIN", 0, k)
    for station in range(stations):
        p.line(MAIN, "LDR", p.draw.below(2), any_bit(p))
        p.line(MAIN, p.draw.among(["LA", "LO", "LX"]), p.draw.below(2), any_bit(p))
        p.line(MAIN, "WR", 0, written_bit(p))
        if p.draw.below(3) == 0:
            guarded(p, MAIN, lambda: p.line(MAIN, "FL", p.draw.below(2), written_bit(p)))
        kind = p.draw.below(4)
        if kind == 0:
            p.line(MAIN, "EX")
        else:
            p.line(MAIN, "LDR", p.draw.below(2), p.draw.below(64))
            p.line(MAIN, "EX0" if kind < 3 else "EX1")
    p.line(MAIN, "MECH_END", 0, k)


def initialise(p):
    for module in (INIT, CLEAR):
        for k in range(len(p.activation)):
            p.line(module, "MECH_INIT", 0, k)


def data(size, seed):
    draw = Draw(seed)
    return bytes(draw.below(256) if 17 <= at < size - 32 else 0 for at in range(size))


def activation(size, count):
    """Activation bits in the last 32 bytes, one byte each."""
    return [8 * (size - 1 - k) for k in range(count)]


def logic():
    p = Program(data(256, 11), [], 101)
    for _ in range(20):
        logic_network(p, INPUT, p.draw.below(3))
    while len(p.modules[MAIN]) < 1500:
        if p.draw.below(8) == 0:
            guarded(p, MAIN, lambda: logic_network(p, MAIN, p.draw.below(3)))
        else:
            logic_network(p, MAIN, p.draw.among([0, 0, 1, 1, 2, 3, 8]))
    return p


def numbers():
    p = Program(data(512, 12), [], 102)
    while len(p.modules[MAIN]) < 1500:
        if p.draw.below(6) == 0:
            guarded(p, MAIN, lambda: number_network(p, MAIN))
        else:
            number_network(p, MAIN)
    return p


def mechanisms():
    size = 256
    p = Program(data(size, 13), activation(size, 32), 103)
    for k in range(32):
        mechanism(p, k, 8)
    initialise(p)
    return p


def mixed():
    size = 512
    p = Program(data(size, 14), activation(size, 12), 104)
    for _ in range(15):
        logic_network(p, INPUT, p.draw.below(2))
    for _ in range(4):
        logic_network(p, BLOCK_INIT, 1)
        p.line(BLOCK_INIT, "EX")
    p.line(BLOCK_INIT, "FL", 1, ZAV_FCE)
    for _ in range(4):
        number_network(p, BLOCK_DONE)
        p.line(BLOCK_DONE, "LDR", 0, p.draw.below(64))
        p.line(BLOCK_DONE, "EX0")
    for k in range(12):
        for _ in range(4):
            logic_network(p, MAIN, p.draw.below(4))
            number_network(p, MAIN)
        guarded(p, MAIN, lambda: logic_network(p, MAIN, 2))
        mechanism(p, k, 5)
    initialise(p)
    return p


def main():
    folder = Path(sys.argv[1] if len(sys.argv) > 1 else ".")
    for make in (logic, numbers, mechanisms, mixed):
        path = folder / f"{make.__name__}.img"
        path.write_bytes(make().image())
        print(f"{path}: {path.stat().st_size} bytes")


if __name__ == "__main__":
    main()
