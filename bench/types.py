#!/usr/bin/env python3
"""What a sample of each type and driver costs: nanoseconds of processor time, read by the libraries and copied.

    bench/types.py FOLDER PROGRAM WINDOW_SUMS [--times N]

makes raw data of 3,601 x 3,601 samples of each type in each byte order in FOLDER, and a tile, a level 2 cell and a grid
of the samples of 16 bits. WINDOW_SUMS, the built program of crates/window_sums, reads each in windows of 32 lines with
64 blocks and sums its samples; PROGRAM copies it to raw data of its type. The best of N runs (5) counts, in user and
system time of the whole run, over the samples.
"""
import argparse
import array
import os
import resource
import shutil
import subprocess
import sys

SIDE = 3601
TILE = "N45E008.hgt"
# a type, its code of array, its PIXELTYPE
TYPES = (
    ("Byte", "B", "UNSIGNEDINT"),
    ("Int8", "b", "SIGNEDINT"),
    ("UInt16", "H", "UNSIGNEDINT"),
    ("Int16", "h", "SIGNEDINT"),
    ("UInt32", "I", "UNSIGNEDINT"),
    ("Int32", "i", "SIGNEDINT"),
    ("UInt64", "Q", "UNSIGNEDINT"),
    ("Int64", "q", "SIGNEDINT"),
)
HEADER = "NROWS {0}\nNCOLS {0}\nNBITS {1}\nPIXELTYPE {2}\nBYTEORDER {3}\n"


def raw(folder, name, code, kind, order):
    """Makes raw data whose rows are parts of one long row, which begins elsewhere in it."""
    row = array.array(code, (at * 37 % 127 for at in range(2 * SIDE)))
    if (order == "M") != (sys.byteorder == "big"):
        row.byteswap()
    text, size = row.tobytes(), row.itemsize
    starts = (line * 7919 % SIDE for line in range(SIDE))
    with open(f"{folder}/{name}.bil", "wb") as it:
        it.writelines(text[at * size : (at + SIDE) * size] for at in starts)
    with open(f"{folder}/{name}.hdr", "w") as it:
        it.write(HEADER.format(SIDE, 8 * size, kind, order))


def seconds(words, folder):
    """The processor time of a run, of the user and of the system."""
    before = resource.getrusage(resource.RUSAGE_CHILDREN)
    subprocess.run(words, cwd=folder, check=True, stdout=subprocess.DEVNULL)
    after = resource.getrusage(resource.RUSAGE_CHILDREN)
    return after.ru_utime + after.ru_stime - before.ru_utime - before.ru_stime


def main():
    words = argparse.ArgumentParser(description=__doc__, formatter_class=argparse.RawDescriptionHelpFormatter)
    words.add_argument("folder")
    words.add_argument("program", type=os.path.abspath)
    words.add_argument("window_sums", type=os.path.abspath)
    words.add_argument("--times", type=int, default=5)
    asked = words.parse_args()
    os.makedirs(asked.folder, exist_ok=True)

    def copy(*names):
        return [asked.program, "gdal_translate", "-q", *names]

    rows = []
    for told, code, kind in TYPES:
        for order in "IM":
            name = f"{told}{order}"
            raw(asked.folder, name, code, kind, order)
            rows.append((f"raw data, {told}, {'most' if order == 'M' else 'least'} byte first", f"{name}.bil"))
    # a tile is such data, most byte first, and its name is its place
    shutil.copyfile(f"{asked.folder}/Int16M.bil", f"{asked.folder}/{TILE}")
    for name in ("cell.dt2", "grid.asc"):
        subprocess.run(copy(TILE, name), cwd=asked.folder, check=True)
    for told, name in (("a tile", TILE), ("a level 2 cell", "cell.dt2"), ("a grid", "grid.asc")):
        rows.append((told, name))
    print(f"{'raster':36}{'read':>8}{'copied':>8}")
    for told, name in rows:
        runs = ([asked.window_sums, name, "32", "64"], copy(name, "out.bil"))
        costs = [min(seconds(run, asked.folder) for _ in range(asked.times)) for run in runs]
        print(f"{told:36}" + "".join(f"{it * 1e9 / SIDE / SIDE:8.1f}" for it in costs))


main()
