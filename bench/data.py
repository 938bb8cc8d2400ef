#!/usr/bin/env python3
"""Makes the rasters that bench/run.py measures over, about 300 MB, the same bytes each time: bench/data.py FOLDER

GDAL's commands have to be installed: they make the cells, the grid and the mosaics."""
import array
import os
import subprocess
import sys

HEADER = "BYTEORDER I\nLAYOUT BIL\nNROWS {1}\nNCOLS {0}\nNBANDS 1\nNBITS 16\nPIXELTYPE SIGNEDINT\nNODATA -9999\n"
PLACE = "ULXMAP {2}\nULYMAP {3}\nXDIM {4}\nYDIM {4}\n"


def heights(count):
    """Returns so many heights, which go up and down by steps that don't repeat soon."""
    found, height, step = array.array("h"), 0, 1
    for at in range(count):
        step = (step * 75 + 74) % 65537
        height = max(-400, min(4000, height + step % 41 - 20))
        found.append(height if at % 977 else -9999)
    return found


ROW = heights(40000)


def rows(columns, lines, is_swapped=False):
    """Returns the bytes of a raster: each of its rows is a part of the one long row, which begins elsewhere in it."""
    row = ROW[:]
    if is_swapped:
        row.byteswap()
    text = row.tobytes()
    starts = (line * 7919 % (len(ROW) - columns) for line in range(lines))
    return b"".join(text[2 * at : 2 * (at + columns)] for at in starts)


def raw(name, columns, lines, left, top, step):
    """Makes a raw raster whose upper left pixel has its centre at a place."""
    with open(f"{name}.bil", "wb") as it:
        it.write(rows(columns, lines))
    with open(f"{name}.hdr", "w") as it:
        it.write((HEADER + PLACE).format(columns, lines, left, top, step))


def tile(name, side):
    with open(f"{name}.hgt", "wb") as it:
        it.write(rows(side, side, is_swapped=sys.byteorder == "little"))


def gdal(*words):
    subprocess.run(words, check=True, stdout=subprocess.DEVNULL, stderr=subprocess.DEVNULL)


def tiles(folder, count, across, side):
    """Makes raw tiles, row by row from the north, and a list of their names."""
    os.makedirs(folder, exist_ok=True)
    names = [f"{folder}/{at}" for at in range(count)]
    for at, name in enumerate(names):
        raw(name, side, side, at % across * side + 0.5, 5000 - at // across * side - 0.5, 1)
    with open(f"{folder}.txt", "w") as it:
        it.writelines(f"{name}.bil\n" for name in names)
    gdal("gdalbuildvrt", "-q", "-overwrite", f"{folder}.vrt", "-input_file_list", f"{folder}.txt")


def one_file(sources, side, across):
    """Makes a mosaic of so many sources that are all parts of one file."""
    lines = sources // across
    raw("parts", side * across, side * lines, 0.5, side * lines - 0.5, 1)
    with open("parts.vrt", "w") as it:
        it.write(f'<VRTDataset rasterXSize="{side * across}" rasterYSize="{side * lines}">\n')
        it.write(f"<GeoTransform>0, 1, 0, {side * lines}, 0, -1</GeoTransform>\n<VRTRasterBand dataType=\"Int16\">\n")
        for at in range(sources):
            where = f'xOff="{at % across * side}" yOff="{at // across * side}" xSize="{side}" ySize="{side}"'
            it.write('<SimpleSource><SourceFilename relativeToVRT="1">parts.bil</SourceFilename>')
            it.write(f"<SrcRect {where}/><DstRect {where}/></SimpleSource>\n")
        it.write("</VRTRasterBand>\n</VRTDataset>\n")


def points(name, columns, lines, count):
    """Makes points that lie evenly over a raster, row by row, and the same in an order that jumps."""
    found = [(at * 37 % columns, at * lines // count) for at in range(count)]
    jumping = [found[at * 7919 % count] for at in range(count)]
    for ending, given in (("rows", found), ("jumps", jumping)):
        with open(f"{name}.{ending}", "w") as it:
            it.writelines(f"{column} {line}\n" for column, line in given)


def main(folder):
    os.makedirs(folder, exist_ok=True)
    os.chdir(folder)
    raw("wide", 4800, 6000, -99.99583333333334, 89.99583333333334, 0.00833333333333)
    raw("plain", 2000, 2000, 0.5, 1999.5, 1)
    for name in ("N45E008", "N45E009", "N44E008", "N44E009"):
        tile(name, 3601)
    tile("N47E010", 1201)
    gdal("gdal_translate", "-q", "-of", "DTED", "N45E008.hgt", "cell2.dt2")
    gdal("gdal_translate", "-q", "-of", "DTED", "N47E010.hgt", "cell1.dt1")
    gdal("gdal_translate", "-q", "-of", "AAIGrid", "plain.bil", "grid.asc")
    gdal("gdalbuildvrt", "-q", "-overwrite", "four.vrt", "N45E008.hgt", "N45E009.hgt", "N44E008.hgt", "N44E009.hgt")
    tiles("hundred", 100, 10, 256)
    tiles("thousand", 1000, 40, 128)
    for name, below in (("nested2", "hundred"), ("nested3", "nested2"), ("nested4", "nested3")):
        gdal("gdalbuildvrt", "-q", "-overwrite", f"{name}.vrt", f"{below}.vrt")
    one_file(1000, 100, 40)
    points("plain", 2000, 2000, 100000)
    points("hundred", 2560, 2560, 100000)


if __name__ == "__main__":
    if len(sys.argv) != 2:
        sys.exit("bench/data.py FOLDER")
    main(sys.argv[1])
