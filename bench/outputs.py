#!/usr/bin/env python3
"""What a sample of each output costs: nanoseconds of processor time of a whole gdal_translate, with 1, 64 and all
blocks.

    python3 bench/outputs.py FOLDER PROGRAM [--times N]

makes a tile of 3,601 x 3,601 in FOLDER and raw data of its samples, and writes each output from the raw data so often,
the best of which counts: raw data of one band, and of three in each layout, a tile, a level 2 cell and a grid. A time
is divided by the samples written, so reading is in it.
"""
import os
import resource
import struct
import subprocess
import sys

SIDE = 3601
TILE = "N45E008.hgt"
OUTPUTS = (
    ("raw data, one band", ["out.bil"], 1),
    ("raw data, BIL, three bands", ["-b", "1", "-b", "1", "-b", "1", "out3.bil"], 3),
    ("raw data, BIP, three bands", ["-b", "1", "-b", "1", "-b", "1", "out3.bip"], 3),
    ("raw data, BSQ, three bands", ["-b", "1", "-b", "1", "-b", "1", "out3.bsq"], 3),
    ("a tile", [f"out/{TILE}"], 1),
    ("a level 2 cell", ["out.dt2"], 1),
    ("a grid", ["out.asc"], 1),
)
BLOCKS = ("1", "64", "65536")


def make(folder, program):
    os.makedirs(f"{folder}/out", exist_ok=True)
    rows = b"".join(struct.pack(">h", (x * 7 + y * 13) % 3000) for y in range(50) for x in range(SIDE))
    with open(f"{folder}/{TILE}", "wb") as it:
        whole, rest = divmod(SIDE * SIDE * 2, len(rows))
        it.write(rows * whole + rows[:rest])
    subprocess.run([program, "gdal_translate", "-q", f"{folder}/{TILE}", f"{folder}/in.bil"], check=True)


def seconds(words, folder):
    """The processor time of a run, of the user and of the system."""
    before = resource.getrusage(resource.RUSAGE_CHILDREN)
    subprocess.run(words, cwd=folder, check=True)
    after = resource.getrusage(resource.RUSAGE_CHILDREN)
    return after.ru_utime + after.ru_stime - before.ru_utime - before.ru_stime


def cost(program, folder, words, samples, times):
    least = min(seconds([program, "gdal_translate", "-q", *words], folder) for _ in range(times))
    return least * 1e9 / samples


def main():
    folder, program = sys.argv[1], os.path.abspath(sys.argv[2])
    times = int(sys.argv[sys.argv.index("--times") + 1]) if "--times" in sys.argv else 3
    make(folder, program)
    print(f"{'output':28}" + "".join(f"{blocks:>8}" for blocks in BLOCKS))
    for told, words, bands in OUTPUTS:
        samples = SIDE * SIDE * bands
        costs = [cost(program, folder, ["--blocks", it, "in.bil", *words], samples, times) for it in BLOCKS]
        print(f"{told:28}" + "".join(f"{it:8.1f}" for it in costs))


main()
