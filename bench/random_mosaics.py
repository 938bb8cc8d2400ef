#!/usr/bin/env python3
"""Two programs over random mosaics: whether they make the same rasters.

    python3 bench/random_mosaics.py FOLDER CASES SEED PROGRAM OTHER

Each case is a few small files and mosaics of them and of one another, with up to 60 sources that overlap, are scaled,
shifted or cut off, have a NODATA or a table. The last mosaic, or a window of it, is translated by both programs, with
1, 3, 64 and 65,536 blocks and some workers. The last line says how many cases differed; each of these stays in FOLDER.
"""
import hashlib
import os
import random
import shutil
import subprocess
import sys

FILES = [(300, 200), (700, 150), (130, 400), (256, 256)]
MOSAICS = [(300, 200), (500, 310), (150, 600), (1000, 90)]


def rectangle(tag, x, y, w, h):
    return f'<{tag} xOff="{x}" yOff="{y}" xSize="{w}" ySize="{h}"/>'


def source(pick, shown, size):
    """A source that shows a part of a raster somewhere in a mosaic of this size."""
    name, w, h = shown
    kind = pick.choice(["Simple", "Simple", "Complex", "Table", "Scale"])
    sw, sh = pick.randint(1, w), pick.randint(1, h)
    sx, sy = pick.randint(0, w - sw), pick.randint(0, h - sh)
    dw, dh = (sw, sh) if pick.random() < 0.7 else (pick.randint(1, 2 * size[0]), pick.randint(1, 2 * size[1]))
    if pick.random() < 0.2:
        sx, sy, sw, sh = 0, 0, w, h
        dw, dh = (w, h) if pick.random() < 0.7 else size
    dx, dy = pick.randint(-50, size[0] - 1), pick.randint(-50, size[1] - 1)
    more = ""
    if kind != "Simple" and pick.random() < 0.8:
        more += f"<NODATA>{pick.choice([0, 1, 2, 3, -1])}</NODATA>"
    if kind == "Table":
        more += "<LUT>0:3,2:1,9:200</LUT>"
    if kind == "Scale":
        more += "<ScaleOffset>2</ScaleOffset><ScaleRatio>1.5</ScaleRatio>"
    tag = "SimpleSource" if kind == "Simple" else "ComplexSource"
    return (f'<{tag}><SourceFilename relativeToVRT="1">{name}</SourceFilename><SourceBand>1</SourceBand>'
            f"{rectangle('SrcRect', sx, sy, sw, sh)}{rectangle('DstRect', dx, dy, dw, dh)}{more}</{tag}>\n")


def file(pick, folder, number):
    w, h = pick.choice(FILES)
    bits = pick.choice([8, 16])
    data = bytes(pick.choice([0, 1, 2, 3, 4, 5, 77]) if bits == 8 or at % 2 == 0 else pick.choice([0, 0, 0, 1])
                 for at in range(w * h * bits // 8))
    with open(f"{folder}/f{number}.bil", "wb") as it:
        it.write(data)
    with open(f"{folder}/f{number}.hdr", "w") as it:
        it.write(f"NROWS {h}\nNCOLS {w}\nNBITS {bits}\n" + ("PIXELTYPE SIGNEDINT\n" if bits == 16 else ""))
    return f"f{number}.bil", w, h


def mosaic(pick, folder, number, have):
    size = pick.choice(MOSAICS)
    count = pick.choice([1, 2, 3, 6, 20, 60])
    sources = "".join(source(pick, pick.choice(have[-3:]), size) for _ in range(count))
    nodata = pick.choice(["", "<NoDataValue>1</NoDataValue>"])
    kind = pick.choice(["Byte", "Int16", "Int32"])
    with open(f"{folder}/m{number}.vrt", "w") as it:
        it.write(f'<VRTDataset rasterXSize="{size[0]}" rasterYSize="{size[1]}">'
                 f"<GeoTransform>0,1,0,{size[1]},0,-1</GeoTransform>"
                 f'<VRTRasterBand dataType="{kind}" band="1">{nodata}{sources}</VRTRasterBand></VRTDataset>')
    return f"m{number}.vrt", *size


def made(program, words, out):
    """What a run says, and what it makes."""
    shutil.rmtree(out, ignore_errors=True)
    os.makedirs(out)
    line = [program, "gdal_translate", "-q", "-of", "EHdr", *words, f"{out}/out.bil"]
    run = subprocess.run(line, capture_output=True)
    if run.returncode != 0:
        return run.returncode, run.stdout + run.stderr
    with open(f"{out}/out.bil", "rb") as it:
        return 0, hashlib.sha256(it.read()).hexdigest()


def differs(pick, folder, programs):
    have = [file(pick, folder, at) for at in range(pick.randint(1, 3))]
    for at in range(pick.randint(1, 4)):
        have.append(mosaic(pick, folder, at, have))
    name, w, h = have[-1]
    window = []
    if pick.random() < 0.4:
        x, y = pick.randint(0, 20), pick.randint(0, 20)
        window = ["-srcwin", *map(str, (x, y, w - x - pick.randint(0, 9), h - y - pick.randint(0, 9)))]
    for blocks in ("1", "3", "64", "65536"):
        words = ["--workers", pick.choice("113"), "--blocks", blocks, *window, f"{folder}/{name}"]
        if len({made(program, words, f"{folder}/out") for program in programs}) > 1:
            return True
    return False


def main():
    top, cases, seed = sys.argv[1], int(sys.argv[2]), int(sys.argv[3])
    programs = [os.path.abspath(program) for program in sys.argv[4:6]]
    bad = 0
    for case in range(cases):
        folder = f"{top}/case{case}"
        shutil.rmtree(folder, ignore_errors=True)
        os.makedirs(folder)
        if differs(random.Random(f"{seed}.{case}"), folder, programs):
            bad += 1
            print("differs:", folder)
        else:
            shutil.rmtree(folder)
    print(f"cases {cases} differ {bad}")


main()
