#!/usr/bin/env python3
"""Measures the station against the interpreter in C on the same programs and the same inputs, and prints the ratio of their times a step.

For each image both execute the same scans. The station's time is that of a run of all scans less that of a run of one scan with the same
files, so that reading the files does not count. The steps of both have to agree."""
import os
import re
import subprocess
import sys
import tempfile
import time

HERE = os.path.dirname(os.path.abspath(__file__))
STATION = os.path.join(HERE, "..", "crates", "station", "out", "station")
SCANS = 10000
REPEATS = 5
IMAGES = ["logic.img", "numbers.img", "mechanisms.img", "mixed.img"]


def fastest(command):
    best = None
    for _ in range(REPEATS):
        begin = time.perf_counter()
        subprocess.run(command, check=True, stdout=subprocess.DEVNULL)
        spent = time.perf_counter() - begin
        best = spent if best is None or spent < best else best
    return best


def main():
    if not os.path.exists(STATION):
        sys.exit("bench: the station is not built; run ./station help first")
    with tempfile.TemporaryDirectory() as folder:
        interpreter = os.path.join(folder, "interpreter")
        subprocess.run(["gcc", "-O3", "-o", interpreter, os.path.join(HERE, "interpreter.c")], check=True)
        rows, many, one = (os.path.join(folder, name) for name in ("rows", "many", "one"))
        with open(rows, "w", encoding="ascii") as out:
            for scan in range(SCANS):
                for port in range(8):
                    out.write(f"{scan} {port} {(scan * 7 + port * 31) & 255}\n")
        with open(many, "w", encoding="ascii") as out:
            out.write(f"scan {SCANS}\n")
        with open(one, "w", encoding="ascii") as out:
            out.write("scan\n")
        for name in IMAGES:
            image = os.path.join(HERE, name)
            told = subprocess.run([interpreter, image, str(SCANS), "--repeat", "9"], check=True, capture_output=True, text=True).stdout
            steps = int(re.search(r"steps (\d+)", told).group(1))
            theirs = float(re.search(r"nanoseconds a step ([\d.]+)", told).group(1))
            listed = subprocess.run([STATION, "run", image, many, "--rows", rows], check=True, capture_output=True, text=True).stdout
            ours_steps = sum(int(n) for n in re.findall(r"^scan steps (\d+)", listed, re.M))
            if ours_steps != steps:
                sys.exit(f"bench: {name}: {ours_steps} steps, and {steps} by the interpreter")
            run = [STATION, "run", image, "--rows", rows, "--quiet"]
            ours = (fastest(run[:3] + [many] + run[3:]) - fastest(run[:3] + [one] + run[3:])) * 1e9 / steps
            print(f"{name:16} steps {steps:9}  station {ours:.2f} ns a step  C {theirs:.2f} ns a step  ratio {ours / theirs:.2f}")


if __name__ == "__main__":
    main()
