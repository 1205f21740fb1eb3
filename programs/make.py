#!/usr/bin/env python3
"""Writes the sample images, call files and row files of this folder, and README.md, which says in a line what each one is."""
import os
import struct

CODES = {
    "LDR": 1, "LA": 2, "LO": 3, "LX": 4, "CA": 5, "WR": 6, "FL": 7, "FL1": 8, "JL0": 9, "JL1": 10, "EX": 11, "EX0": 12, "EX1": 13,
    "LOD": 16, "STO": 17, "AD": 19, "ABS": 20, "GE": 21, "MECH_BEGIN": 22, "MECH_END": 23, "MECH_INIT": 24,
}
MODULES = ["INPUT", "BLOCK_INIT", "BLOCK_DONE", "MAIN", "INIT", "CLEAR", "HALT"]


def line(text):
    """A line of text: the name, the mode and the operand; what is left out is 0."""
    words = text.split()
    mode = int(words[1]) if len(words) > 1 else 0
    operand = int(words[2]) if len(words) > 2 else 0
    code = CODES[words[0]] if words[0] in CODES else int(words[0])
    return struct.pack("<BBH", code, mode, operand)


def image(data=17, activation=(), **modules):
    """The image of a program with so many zero data bytes (or the bytes given) and the lines of each module."""
    initial = bytes(data) if isinstance(data, int) else data
    texts = [[line(t) for t in modules.get(name, [])] for name in MODULES]
    lines = b"".join(b"".join(t) for t in texts)
    return (
        struct.pack("<H", len(initial)) + initial
        + struct.pack("<H", len(activation)) + b"".join(struct.pack("<H", a) for a in activation)
        + struct.pack("<H", len(MODULES)) + b"".join(struct.pack("<H", len(t)) for t in texts)
        + struct.pack("<H", len(lines) // 4) + lines
    )


NULL = image()
GATE = dict(
    data=18, activation=[136],
    MAIN=["LDR 0 0", "FL1 1 136", "MECH_BEGIN 0 0", "FL 1 64", "EX", "LDR 0 1", "EX0", "FL 0 64", "MECH_END 0 0"],
    INIT=["MECH_INIT 0 0"], CLEAR=["MECH_INIT 0 0"],
)

SAMPLES = [
    ("null.img", NULL, "the null program: 17 zero data bytes and nothing more, 39 bytes"),
    ("gate.img", image(**GATE), "the gate program: one mechanism that opens a gate, waits, and shuts it"),
    ("cut_short.img", NULL[:38], "the null program without its last byte: refused by 1 at 37"),
    ("left_over.img", NULL + b"\0", "the null program with one byte more: refused by 4 at 39"),
    ("sixteen_bytes.img", image(data=16), "16 data bytes: refused by 2 at 0"),
    ("activation_outside.img", image(activation=[136]), "an activation bit behind the 17 data bytes: refused by 3 at 21"),
    ("wrong_total.img", NULL[:-2] + struct.pack("<H", 1) + line("CA"), "a line that no module has: refused by 5 at 37"),
    ("unknown_code.img", image(INPUT=["CA", "18 1"]), "a line of a code that there is not: refused by 6 at line 1"),
    ("number_outside.img", image(INPUT=["LOD 4 14"]), "a number of four bytes that ends behind the 17 data bytes: refused by 7 at line 0"),
    ("left_open.img", image(activation=[128], MAIN=["MECH_BEGIN 0 0", "CA"]), "a mechanism that is begun and not ended: refused by 8 at MAIN's end, 2"),
    ("jump_to_itself.img", image(INPUT=["CA", "JL0 0 1"]), "a jump that leads to itself: refused by 9 at line 1"),
    ("exit_in_input.img", image(INPUT=["CA", "EX"]), "an EX in INPUT: refused by 10 at line 1"),
    ("init_in_halt.img", image(**GATE, HALT=["MECH_INIT 0 0"]), "the gate program with a MECH_INIT in HALT: refused by 11 at line 11"),
    ("ten_loads.img", image(INPUT=["LDR 0 0"] * 10), "ten LDR in a row, a push too many: refused by 13 at line 9"),
    ("two_depths.img", image(INPUT=["LDR 0 0", "JL1 0 4", "LDR 0 0", "LDR 0 0", "LA 2"]), "two routes that arrive with different depths: refused by 13 at line 4"),
    ("empty_clear.img", image(**{**GATE, "CLEAR": []}), "the gate program with an empty CLEAR: refused by 14 at 5"),
    ("nine_loads.img", image(INPUT=["LDR 0 0"] * 9 + ["LA 2"] * 8 + ["WR 0 64"]), "nine LDR, eight LA of popped cells and a WR: accepted, with STACK 8"),
]

TEXTS = [
    ("gate.calls", "scan\nscan\nscan\n", "three scans"),
    ("gate.rows", "0 0 1\n1 0 1\n2 0 2\n", "input 0 of the gate program as 1, 1, 2 in three scans"),
]


def main():
    here = os.path.dirname(os.path.abspath(__file__))
    rows = ["# Sample images", "", "Made by `make.py`. Each can be given to `./station`.", "", "| Image | What it is |", "|---|---|"]
    for name, content, what in SAMPLES:
        with open(os.path.join(here, name), "wb") as out:
            out.write(content)
        rows.append(f"| {name} | {what} |")
    rows += ["", "Calls and rows, for `./station run`:", "", "| File | What it is |", "|---|---|"]
    for name, content, what in TEXTS:
        with open(os.path.join(here, name), "w", encoding="ascii") as out:
            out.write(content)
        rows.append(f"| {name} | {what} |")
    with open(os.path.join(here, "README.md"), "w", encoding="utf-8") as out:
        out.write("\n".join(rows) + "\n")


if __name__ == "__main__":
    main()
