#!/usr/bin/env python3
"""Tries the examples of README.md and docs/COMMANDS.md with the built program, and examples/tiles.sh, outside the gate:
tests/examples.py PROGRAM

An indented block that begins with a command is run. Where the text behind it says 'prints' or 'print', the next block
is what has to come on standard output and standard error; where a text says that a file is something, the next block is
what it holds. Of the tables of options each example is run, and has to end with status 0; and of what they say is
refused, each kind is tried once, with the line that tells it. Each line of the result names what was tried; the last
line counts what failed, and the status is 0 where nothing did."""
import os
import re
import shutil
import subprocess
import sys
import tempfile

TOP = os.path.dirname(os.path.dirname(os.path.realpath(__file__)))
COMMANDS = ("gdalinfo", "gdal_translate", "gdalbuildvrt", "gdallocationinfo", "synth")
TRIED, FAILED = [], []

# what docs/COMMANDS.md says is refused, with the line that tells it
WORD = "ERROR 1: word {} doesn't fit"
REFUSALS = (
    ("gdalinfo --blocks 0 sample/hills.bil", WORD.format(2)),
    ("gdalinfo --blocks 65537 sample/hills.bil", WORD.format(2)),
    ("gdalinfo --blocks 1e3 sample/hills.bil", WORD.format(2)),
    ("gdalinfo --workers 0 sample/hills.bil", WORD.format(2)),
    ("gdalinfo --workers 17 sample/hills.bil", WORD.format(2)),
    ("gdalinfo --workers +5 sample/hills.bil", WORD.format(2)),
    ("gdalinfo n47.dt1 --config DTED_VERIFY_CHECKSUM", WORD.format(4)),
    ("gdalinfo", WORD.format(1)),
    ("gdalinfo -stats sample/hills.bil", WORD.format(1)),
    ("gdalinfo sample/hills.bil twice", WORD.format(2)),
    ("gdallocationinfo -b 257 sample/hills.bil 0 0", WORD.format(2)),
    ("gdallocationinfo -b 3 sample/hills.bil 0 0", "ERROR 5: no band 3"),
    ("gdallocationinfo -valonly -lifonly sample/hills.bil 0 0", WORD.format(2)),
    ("gdallocationinfo -geoloc placeless.bil 0 0", "ERROR 1: no geotransform"),
    ("gdallocationinfo sample/hills.bil 2", WORD.format(3)),
    ("gdallocationinfo sample/hills.bil 2 y", WORD.format(3)),
    ("gdallocationinfo sample/hills.bil 2 0 0", WORD.format(4)),
    ("gdal_translate -of GTiff sample/hills.bil no.bil", WORD.format(2)),
    ("gdal_translate -of VRT sample/hills.bil no.asc", WORD.format(4)),
    ("gdal_translate -b mask sample/hills.bil no.bil", WORD.format(2)),
    ("gdal_translate -b 3 sample/hills.bil no.bil", "ERROR 5: no band 3"),
    ("gdal_translate sample/hills.bil no.asc", "ERROR 6: format takes one band"),
    ("gdal_translate -srcwin 0 0 1.5 1 sample/hills.bil no.bil", WORD.format(4)),
    ("gdal_translate -srcwin 0 0 0 1 sample/hills.bil no.bil", "ERROR 5: empty window"),
    ("gdal_translate -srcwin 0 0 4194305 1 sample/hills.bil no.bil", "ERROR 6: output too large"),
    ("gdal_translate -projwin 11 47 10 48 sample/hills.bil no.bil", "ERROR 5: empty window"),
    ("gdal_translate -projwin 0 1 1 0 placeless.bil no.bil", "ERROR 1: no geotransform"),
    ("gdal_translate -srcwin 0 0 1 1 -projwin 10 47.5 11 47 sample/hills.bil no.bil", WORD.format(6)),
    ("gdal_translate -outsize 5.5 1 sample/hills.bil no.bil", WORD.format(2)),
    ("gdal_translate -outsize 0 0 sample/hills.bil no.bil", "ERROR 5: empty window"),
    ("gdal_translate -outsize 10% 10% sample/hills.bil no.bil", "ERROR 5: empty window"),
    ("gdal_translate -ot Float32 sample/hills.bil no.bil", WORD.format(2)),
    ("gdal_translate -b 1 -ot UInt32 sample/hills.bil no.asc", "ERROR 6: raster doesn't fit the format"),
    ("gdal_translate -ot Byte n47.dt1 no.dt1", "ERROR 6: raster doesn't fit the format"),
    ("gdal_translate -a_nodata 1.5 sample/hills.bil no.bil", WORD.format(2)),
    ("gdal_translate -a_nodata 70000 sample/hills.bil no.bil", "ERROR 6: raster doesn't fit the format"),
    ("gdal_translate -a_nodata none n47.dt1 no.dt1", "ERROR 6: raster doesn't fit the format"),
    ("gdal_translate -co COMPRESS=LZW sample/hills.bil no.bil", WORD.format(2)),
    ("gdal_translate -b 1 -co INTERLEAVE=BSQ sample/hills.bil no.asc", WORD.format(3)),
    ("gdal_translate -epo -srcwin 3 0 2 2 sample/hills.bil no.bil", "ERROR 5: window outside the raster"),
    ("gdal_translate -eco -srcwin 4 0 2 2 sample/hills.bil no.bil", "ERROR 5: window outside the raster"),
    ("gdal_translate -r nearest sample/hills.bil no.bil", WORD.format(1)),
    ("gdal_translate --blocks 0 sample/hills.bil no.bil", WORD.format(2)),
    ("gdal_translate --workers 17 sample/hills.bil no.bil", WORD.format(2)),
    ("gdal_translate -q yes sample/hills.bil no.bil", WORD.format(4)),
    ("gdal_translate -quiet sample/hills.bil no.bil", WORD.format(1)),
    ("gdalbuildvrt no.vrt -input_file_list none.txt", "ERROR 4: none.txt: no such file"),
    ("gdalbuildvrt no.vrt -input_file_list latin.txt", "ERROR 4: latin.txt: malformed list (1)"),
    ("gdalbuildvrt no.vrt -input_file_list empty.txt", "ERROR 1: no input fits"),
    ("gdalbuildvrt -resolution Highest no.vrt west.bil", WORD.format(2)),
    ("gdalbuildvrt -resolution user no.vrt west.bil", WORD.format(5)),
    ("gdalbuildvrt -tr 0 1 no.vrt west.bil", WORD.format(2)),
    ("gdalbuildvrt -tr 1 1 -resolution highest no.vrt west.bil", WORD.format(4)),
    ("gdalbuildvrt -te 11 46 10 47 no.vrt west.bil", WORD.format(4)),
    ("gdalbuildvrt -te 10 47 11 46 no.vrt west.bil", WORD.format(5)),
    ("gdalbuildvrt -b 1 -separate no.vrt west.bil", WORD.format(3)),
    ("gdalbuildvrt -srcnodata '0 0' no.vrt west.bil", WORD.format(2)),
    ("gdalbuildvrt -overwrite yes no.vrt west.bil", WORD.format(2)),
    ("gdalbuildvrt -q yes no.vrt west.bil", WORD.format(2)),
    ("gdalbuildvrt -q no.vrt west.bil yes", "ERROR 4: yes: not recognized as a supported format"),
    ("gdalbuildvrt -q -strict no.vrt west.bil grid.asc", "ERROR 1: grid.asc: skipped (bands)"),
    ("gdalbuildvrt no.vrt none.bil", "ERROR 4: none.bil: no such file"),
    ("synth", WORD.format(1)),
    ("synth 4097", WORD.format(1)),
    ("synth -q 4", WORD.format(1)),
    ("synth 4 5", WORD.format(2)),
    ("synth --blocks 0 45", WORD.format(2)),
    ("synth --workers 0 45", WORD.format(2)),
    ("synth 45 --config GDAL_CACHEMAX", WORD.format(4)),
)


def holds(what, is_so, why=""):
    TRIED.append(what)
    if not is_so:
        FAILED.append(what)
    print(f"{'as it is to be' if is_so else 'FAILED'}: {what}{'' if is_so else f': {why}'}")


def run(line):
    how = {"stdout": subprocess.PIPE, "stderr": subprocess.STDOUT, "stdin": subprocess.DEVNULL}
    ran = subprocess.run(["bash", "-c", line], timeout=60, **how)
    return ran.returncode, ran.stdout.decode(errors="replace")


def blocks(page):
    """Returns the page as its texts and its indented blocks in turn, each with whether it is a block."""
    found = []
    with open(f"{TOP}/{page}") as it:
        for line in it.read().split("\n"):
            is_block = line.startswith("    ")
            if line or is_block:
                text = line[4:] if is_block else line
                if found and found[-1][0] == is_block:
                    found[-1][1].append(text)
                else:
                    found.append((is_block, [text]))
    return found


def try_blocks(page):
    came = ""
    parts = blocks(page)
    for at, (is_block, lines) in enumerate(parts):
        before = parts[at - 1][1][-1] if at else ""
        text = "\n".join(lines)
        file = re.search(r"`(\S+)` is$", before)
        if not is_block:
            continue
        if lines[0].startswith(("printf ", *COMMANDS)) and not re.search(r"[A-Z]{4}", lines[0]):
            came = run(text)[1]
        elif re.search(r"\bprints?\b[^.]*$", before) and came:
            holds(f"what is printed there: {lines[0]}", came == text + "\n", came)
            came = ""
        elif file:
            with open(file[1]) as it:
                holds(f"what {file[1]} holds", it.read() == text + "\n")


def try_tables(page):
    with open(f"{TOP}/{page}") as it:
        for line in re.findall(r"^\| `-[^|]*\| `((?:gdal|synth )[^`]*)` \|", it.read(), re.M):
            status, said = run(line)
            holds(line, status == 0, said)


def try_refusals():
    for line, wanted in REFUSALS:
        status, said = run(line)
        holds(f"refused: {line}", status == 1 and said.split("\n")[-2:-1] == [wanted], said)


def make_files():
    """Makes a level 1 cell of zeros, a raster without a place, and lists of inputs."""
    with open("cell.bil", "wb") as it:
        it.write(bytes(2 * 1201 * 1201))
    with open("cell.hdr", "w") as it:
        it.write("NROWS 1201\nNCOLS 1201\nNBITS 16\nPIXELTYPE SIGNEDINT\nULXMAP 10\nULYMAP 48\n")
        it.write("XDIM 0.000833333333333333\nYDIM 0.000833333333333333\n")
    holds("a cell", run("gdal_translate -q cell.bil n47.dt1") == (0, ""))
    with open("list.txt", "w") as it:
        it.write("west.bil\neast.bil\n")
    with open("latin.txt", "wb") as it:
        it.write(b"\xe4.bil\n")
    open("empty.txt", "w").close()
    with open("placeless.bil", "w") as it:
        it.write("7")
    with open("placeless.hdr", "w") as it:
        it.write("NROWS 1\nNCOLS 1\n")


def try_tiles():
    script = f"{TOP}/examples/tiles.sh"
    with open("large.bil", "wb") as it:
        it.write(bytes(at * 31 % 251 for at in range(2 * 300 * 200)))
    with open("large.hdr", "w") as it:
        it.write("BYTEORDER I\nNROWS 200\nNCOLS 300\nNBITS 16\nPIXELTYPE SIGNEDINT\nULXMAP 0.5\nULYMAP 9.5\n")
    said = run(f"{script} run large.bil tiles all.vrt 128 3")
    holds("windows that are written beside each other", said == (0, ""), said)
    run("gdal_translate -q all.vrt whole.bil")
    holds("their mosaic has the pixels of the raster", run("cmp large.bil whole.bil")[0] == 0)
    holds("there is a window for each line", len(run(f"{script} windows large.bil 128")[1].split("\n")) == 7)
    os.remove("tiles/128_128.hdr")
    os.remove("tiles/128_128.bil")
    with open("tiles/0_0.bil", "wb") as it:
        it.write(bytes(2 * 128 * 128))
    run(f"{script} run large.bil tiles all.vrt 128 3")
    holds("a window that is lacking is made again", run("gdallocationinfo -valonly all.vrt 130 130")
          == run("gdallocationinfo -valonly large.bil 130 130"))
    holds("one that is whole is left", run("gdallocationinfo -valonly all.vrt 1 0") == (0, "0\n"))
    said = run(f"{script} run large.bil others others.vrt 128 3 -b 2")
    holds("a window that fails leaves no mosaic", said[0] != 0 and not os.path.exists("others.vrt"), said)


def main(program):
    room = tempfile.mkdtemp()
    try:
        os.chdir(room)
        os.mkdir("bin")
        for name in COMMANDS:
            with open(f"bin/{name}", "w") as it:
                it.write(f'#!/bin/sh\nexec "{program}" {name} "$@"\n')
            os.chmod(f"bin/{name}", 0o755)
        os.environ["PATH"] = f"{room}/bin:{os.environ['PATH']}"
        shutil.copytree(f"{TOP}/sample", "sample")
        make_files()
        try_blocks("README.md")
        try_blocks("docs/COMMANDS.md")
        try_tables("docs/COMMANDS.md")
        try_refusals()
        try_tiles()
    finally:
        os.chdir("/")
        shutil.rmtree(room)
    print(f"tried {len(TRIED)}, failed {len(FAILED)}")
    return 1 if FAILED else 0


if __name__ == "__main__":
    if len(sys.argv) != 2 or not os.access(sys.argv[1], os.X_OK):
        print("tests/examples.py PROGRAM: the built program", file=sys.stderr)
        sys.exit(2)
    sys.exit(main(os.path.realpath(sys.argv[1])))
