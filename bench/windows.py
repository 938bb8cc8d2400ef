#!/usr/bin/env python3
"""What a pixel of a window of whole lines costs by the libraries alone: nanoseconds of processor time of
crates/window_sums.

    python3 bench/windows.py FOLDER WINDOW_SUMS [--lines N] [--times N]

FOLDER is the one that bench/data.py made, WINDOW_SUMS the built program of crates/window_sums, which reads the first
band of a raster in windows of so many lines (32), with so many blocks, and prints the sum of its pixels. The best of N
runs (5) counts. The time is of the whole program, with its start and the sum. Mosaics of the raw raster by itself are
made beside it: shown as it is, and with a NODATA that no pixel has.
"""
import os
import resource
import subprocess
import sys

BLOCKS = ("1", "64", "4096", "65536")
PLAIN = "<SimpleSource>{}</SimpleSource>"
TESTED = "<ComplexSource>{}<NODATA>-32768</NODATA></ComplexSource>"
WHOLE = '<SourceFilename relativeToVRT="1">wide.bil</SourceFilename><SourceBand>1</SourceBand>'


def size_of(name, folder):
    """Columns and lines, as gdalinfo tells them."""
    told = subprocess.run(["gdalinfo", name], cwd=folder, check=True, capture_output=True, text=True).stdout
    line = next(it for it in told.splitlines() if it.startswith("Size is "))
    return [int(it) for it in line[8:].split(", ")]


def mosaic(name, source, folder):
    columns, lines = size_of("wide.bil", folder)
    with open(f"{folder}/{name}", "w") as it:
        it.write(f'<VRTDataset rasterXSize="{columns}" rasterYSize="{lines}"><VRTRasterBand dataType="Int16" band="1">')
        it.write(source.format(WHOLE) + "</VRTRasterBand></VRTDataset>")


def seconds(words, folder):
    """The processor time of a run, of the user and of the system."""
    before = resource.getrusage(resource.RUSAGE_CHILDREN)
    subprocess.run(words, cwd=folder, check=True, stdout=subprocess.DEVNULL)
    after = resource.getrusage(resource.RUSAGE_CHILDREN)
    return after.ru_utime + after.ru_stime - before.ru_utime - before.ru_stime


def number(word, default):
    return sys.argv[sys.argv.index(word) + 1] if word in sys.argv else default


def main():
    folder, program = sys.argv[1], os.path.abspath(sys.argv[2])
    lines, times = number("--lines", "32"), int(number("--times", "5"))
    mosaic("plain_whole.vrt", PLAIN, folder)
    mosaic("tested_whole.vrt", TESTED, folder)
    print(f"{'raster':20}" + "".join(f"{blocks:>8}" for blocks in BLOCKS))
    for name in ("wide.bil", "plain_whole.vrt", "tested_whole.vrt", "four.vrt", "hundred.vrt", "nested4.vrt"):
        columns, rows = size_of(name, folder)
        costs = [min(seconds([program, name, lines, blocks], folder) for _ in range(times)) for blocks in BLOCKS]
        print(f"{name:20}" + "".join(f"{it * 1e9 / columns / rows:8.1f}" for it in costs))


main()
