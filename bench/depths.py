#!/usr/bin/env python3
"""Mosaics that name one another again and again: how long a point and a window of them take.

    python3 bench/depths.py FOLDER PROGRAM

makes mosaics of 200 x 200 in FOLDER, 16 deep, each naming the next two, three or four times, whole or shifted, and
prints the seconds that PROGRAM takes for two points and for a window of 140 x 150, with 1, 64 and 65,536 blocks. All
their sources have a NODATA, which is everywhere, so each source has to be asked.
"""
import os
import struct
import subprocess
import sys
import time

SIDE, DEPTH = 200, 16
SOURCE = """    <ComplexSource>
      <SourceFilename relativeToVRT="1">{name}</SourceFilename>
      <SrcRect xOff="0" yOff="0" xSize="{side}" ySize="{side}"/>
      <DstRect xOff="{x}" yOff="{y}" xSize="{side}" ySize="{side}"/>
      <NODATA>-1</NODATA>
    </ComplexSource>
"""


def mosaic(name, times, shift):
    """The document of a mosaic that shows another one so many times, each a bit further to the right and down."""
    places = [shift * (at - times // 2) for at in range(times)]
    sources = "".join(SOURCE.format(name=name, side=SIDE, x=at, y=at // 2) for at in places)
    return (f'<VRTDataset rasterXSize="{SIDE}" rasterYSize="{SIDE}">\n  <VRTRasterBand dataType="Int16">\n'
            f"    <NoDataValue>-1</NoDataValue>\n{sources}  </VRTRasterBand>\n</VRTDataset>\n")


def make(folder, times, shift):
    os.makedirs(folder, exist_ok=True)
    with open(f"{folder}/last.bil", "wb") as it:
        it.write(struct.pack("<h", -1) * (SIDE * SIDE))
    with open(f"{folder}/last.hdr", "w") as it:
        it.write(f"NROWS {SIDE}\nNCOLS {SIDE}\nNBITS 16\nPIXELTYPE SIGNEDINT\n")
    for level in range(DEPTH):
        below = f"m{level + 1}.vrt" if level + 1 < DEPTH else "last.bil"
        with open(f"{folder}/m{level}.vrt", "w") as it:
            it.write(mosaic(below, times, shift))


def seconds(words, points=b""):
    begun = time.monotonic()
    subprocess.run(words, input=points, stdout=subprocess.DEVNULL, check=True)
    return time.monotonic() - begun


def main():
    folder, program = sys.argv[1], os.path.abspath(sys.argv[2])
    print("named  shifted  blocks  points  window")
    for times in (2, 3, 4):
        for shift in (0, 64):
            room = f"{folder}/{times}-{shift}"
            make(room, times, shift)
            for blocks in ("1", "64", "65536"):
                top, size = f"{room}/m0.vrt", ["--blocks", blocks]
                points = seconds([program, "gdallocationinfo", "-valonly", *size, top], b"0 0\n150 150\n")
                window = ["-srcwin", "10", "10", "140", "150", top, f"{room}/out.bil"]
                copied = seconds([program, "gdal_translate", "-q", *size, *window])
                print(f"{times:5}  {shift:7}  {blocks:>6}  {points:6.2f}  {copied:6.2f}")


main()
