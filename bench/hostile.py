#!/usr/bin/env python3
"""Files that are made to cost a reader much: how long the program takes over them, and how much memory.

    bench/hostile.py PROGRAM [--times N] [--folder FOLDER] [WORD..]

makes one file after another (in a new folder, or in FOLDER, which is kept), runs PROGRAM over it N times (3 where none
is named), and prints a row: how long the file is, how the run ends, the least wall time and the greatest peak of
memory, and both as parts of their bounds. The bound of the time is that of the start, which is a run over a name that
isn't there, and ten times that of `cat FILE | wc -c`; the bound of the memory is four times the length and 16 MiB. A
part above 1 is past its bound. With WORDs only those rows are run whose names have one of them. The last line counts
the rows that are past a bound or end otherwise than they have to; the status is 0 where there is none.

The machine has to be idle. A peak of less than about 9 MiB isn't seen. The files take 70 MB at a time."""
import argparse
import os
import shutil
import subprocess
import sys
import tempfile
import time

MIB = 1 << 20
# the greatest length of a header, and that of a document and of a list of inputs
HEADER, DOCUMENT = 1_048_576, 67_108_864
CHUNK = 1 << 16


class Text:
    """A text in parts: bytes and how often they come, or a pattern, or a function, with the numbers that are put into
    it."""

    def __init__(self, *parts):
        self.parts = parts

    def pieces(self):
        for part, times in self.parts:
            if isinstance(times, range):
                for at in range(0, len(times), 4096):
                    some = times[at : at + 4096]
                    put = part if callable(part) else lambda number: part.replace(b"{}", b"%d" % number)
                    yield b"".join(put(number) for number in some)
            else:
                many = max(1, CHUNK // max(1, len(part)))
                for _ in range(times // many):
                    yield part * many
                yield part * (times % many)

    def write(self, name):
        with open(name, "wb") as it:
            it.writelines(self.pieces())


def filled(front, unit, back=b"", length=DOCUMENT, is_whole=True):
    """A text of this length at most: a front, a unit as often as it fits (and a part of it, unless it has to be whole),
    a back."""
    left = length - len(front) - len(back)
    rest = b"" if is_whole else unit[: left % len(unit)]
    return Text((front, 1), (unit, left // len(unit)), (rest, 1), (back, 1))


# Each row: its name, the files with their texts, the words, and the status and the line that tell its end; `{}` in the
# words is the first file. A row with INPUT has its first file as standard input.
ROWS = []
INPUT = "<"


def row(what, files, words, status=0, line=""):
    ROWS.append((what, files, words.split(), status, line))


# the longest decimal text
NUMBER_OF_64 = b"0" * 63 + b"1"
ONE = {"one.bil": Text((b"\7", 1)), "one.hdr": Text((b"NROWS 1\nNCOLS 1\nULXMAP 0.5\nULYMAP 0.5\n", 1))}
SIDES = b"NROWS 1\nNCOLS 1\n"


def header(what, text, status=0, line=""):
    row(f"header: {what}", {"x.hdr": text, "x.bil": Text((b"\7", 1))}, "gdalinfo x.bil", status, line)


def headers():
    def front(text, unit, back=b""):
        return filled(SIDES + text, unit, back, HEADER, False)

    header("empty lines", front(b"", b"\n"))
    header("lines of a key that counts", front(b"", b"NODATA 1\n"))
    header("lines of a key that isn't known", front(b"", b"x 1\n"))
    header("one line of blanks", front(b"", b" "))
    header("one token", front(b"", b"x"))
    header("a key with one value", front(b"NODATA ", b"1"))
    header("a key with many values", front(b"NODATA", b" 1"))
    header("a number without end", front(b"NROWS ", b"0"), 1, "ERROR 4: x.hdr: malformed hdr (2)")
    header("empty lines that end with a carriage return", front(b"", b"\r"))
    header("keys without a value", front(b"", b"NODATA\n"))
    header("numbers of 64 bytes", front(b"", b"ULXMAP " + NUMBER_OF_64 + b"\n"))
    header("longer than its limit", Text((b"\n", 64 * MIB)), 1, "ERROR 4: x.hdr: malformed hdr (4)")
    big = Text((b"NROWS 4194304\nNCOLS 4194304\nNBANDS 256\nNBITS 32\nLAYOUT BSQ\n", 1))
    header("the largest raster over a byte", big, 1, "ERROR 4: x.bil: needs 18014398509481984 bytes, has 1")


VOLUME = b"VOL" + b" " * 77


def label(lines, points, spacing=b"0300"):
    counts = b"%04d%04d" % (lines, points)
    return b"UHL10100000E0200000N" + spacing + spacing + b"NA  U" + b" " * 14 + counts + b" " * 25


def cell(lines, points, records, spacing=b"0300"):
    front = label(lines, points, spacing)
    return Text((front + b"DSIU" + b" " * 644 + b"ACC" + b" " * 2697, 1), *records)


def labels():
    """Cells that are refused for what stands in front of their records."""
    wrong = 1, "ERROR 4: x.dt2: malformed dted (2)"
    row("cell: a label without end", {"x.dt2": filled(b"UHL1", b"9")}, "gdalinfo {}", *wrong)
    behind = Text((VOLUME, 8), (label(0, 1), 1), (b" ", 60 * MIB))
    row("cell: no lines, behind eight leading records", {"x.dt2": behind}, "gdalinfo {}", *wrong)
    alone = Text((label(1, 1), 1), (b" ", 64 * MIB))
    row("cell: one label, and spaces without end", {"x.dt2": alone}, "gdalinfo {}", 1,
        "ERROR 4: x.dt2: malformed dted (1)")
    volumes = Text((VOLUME, 64 * MIB // 80))
    row("cell: leading records without end", {"x.dt2": volumes}, "gdalinfo {}", 1, "ERROR 4: x.dt2: malformed dted (1)")


def cells():
    largest = cell(9999, 9999, ())
    row("cell: the largest, without records", {"x.dt2": largest}, "gdalinfo {}", 1,
        "ERROR 4: x.dt2: needs 200083418 bytes, has 3428")
    record = b"\xaa" + b"\0" * 7 + b"\0\0" * 3601
    records = (record + b"\0\0\0\xaa", 3600), (record + b"\0\0\0\xab", 1)
    sums = {"x.dt2": cell(3601, 3601, records, b"0010")}
    row("cell: the last of 3,601 sums is wrong", sums, "gdalinfo --config DTED_VERIFY_CHECKSUM YES {}", 1,
        "ERROR 4: x.dt2: malformed dted (4) at 3600")
    record = b"\xaa" + b"\0" * 9
    records = (record + b"\0\0\0\xaa", 9998), (record + b"\0\0\0\xab", 1)
    sums = {"x.dt2": cell(9999, 1, records)}
    row("cell: the last of 9,999 sums of one point is wrong", sums, "gdalinfo --config DTED_VERIFY_CHECKSUM YES {}", 1,
        "ERROR 4: x.dt2: malformed dted (4) at 9998")
    tile = {"N00E000.hgt": Text((b"\0", 25_934_403))}
    row("tile: a byte too many", tile, "gdalinfo {}", 1, "ERROR 4: N00E000.hgt: malformed hgt (2)")
    row("tile: a name of 255 bytes", {"N00E000" + "_" * 244 + ".hgt": Text((b"\0", 25_934_402))}, "gdalinfo {}")


def grid(what, columns, lines, *parts, number, place=None):
    head = b"ncols %d\nnrows %d\nxllcorner 0\nyllcorner 0\ncellsize 1\n" % (columns, lines)
    at = "" if place is None else f" at {len(head) + place}"
    line = f"ERROR 4: x.asc: malformed grid ({number}){at}"
    row(f"grid: {what}", {"x.asc": Text((head, 1), *parts)}, "gdalinfo {}", 1, line)


def head(what, unit):
    """A grid of keys alone."""
    row(f"grid: {what}", {"x.asc": filled(b"", unit)}, "gdalinfo {}", 1, "ERROR 4: x.asc: malformed grid (1)")


def grids():
    size = 64 * MIB
    grid("one value without end", 1, 1, (b"0", size), number=2, place=0)
    grid("values behind the last one", 1, 1, (b"0 ", size // 2), number=5, place=2)
    grid("white space without end", 1, 1, (b" ", size), number=4)
    grid("empty lines without end", 1, 1, (b"\n", size), number=4)
    grid("the largest, without a value", 4_194_304, 4_194_304, number=4)
    grid("values of one digit, one too few", 4_194_304, 8, (b"0 ", 8 * 4_194_304 - 1), number=4)
    grid("values of ten digits, too few", 4_194_304, 4_194_304, (b"1234567890 ", size // 11), number=4)
    grid("values of 64 bytes, too few", 4_194_304, 4_194_304, (b"0" * 63 + b"1 ", size // 65), number=4)
    grid("values with zeros behind the point, too few", 4_194_304, 4_194_304, (b"1.000000 ", size // 9), number=4)
    grid("values with a sign, one too few", 4_194_304, 5, (b"-1 ", 5 * 4_194_304 - 1), number=4)
    grid("one value with zeros behind its point without end", 1, 1, (b"0.", 1), (b"0", size), number=2, place=0)
    grid("the most rows, of one value, one too few", 1, 4_194_304, (b"0\n", 4_194_303), number=4)
    head("a key again and again", b"dx 1\n")
    head("a key with a fraction again and again", b"dx .1\n")
    head("a key with an exponent again and again", b"dx 1e0\n")
    head("a key with a zero of the greatest exponent", b"xllcorner 0e999\n")
    head("a key with two line ends", b"dx 1\r\n")
    head("a key with a number of 64 bytes", b"xllcorner " + NUMBER_OF_64 + b"\n")
    head("a NODATA again and again", b"NODATA_value 1e3\n")
    key = {"x.asc": Text((b"a", size))}
    row("grid: a key without end", key, "gdalinfo {}", 1, "ERROR 4: x.asc: malformed grid (2) at 0")


ROOT = b'<VRTDataset rasterXSize="1" rasterYSize="1"'
OPEN, BAND, END = ROOT + b">", b"<VRTRasterBand/>", b"</VRTDataset>"
SOURCES = OPEN + b"<VRTRasterBand>"
SOURCES_END = b"</VRTRasterBand>" + END
# a source of the fewest bytes, and one whose name has a number
SHORTEST = b"<SimpleSource><SourceFilename>a</SourceFilename></SimpleSource>"
NUMBERED = b"<SimpleSource><SourceFilename>{}.bil</SourceFilename></SimpleSource>"
MOST = 262_144


def document(what, text, status=0, line=""):
    row(f"document: {what}", {"x.vrt": text}, "gdalinfo {}", status, line)


def broken(what, text, number, place=None):
    at = "" if place is None else f" at {place}"
    document(what, text, 1, f"ERROR 4: x.vrt: malformed vrt ({number}){at}")


def wide_documents():
    document("empty elements", filled(OPEN, b"<Metadata/>", BAND + END))
    document("elements in an element", filled(OPEN + b"<Metadata>", b"<a></a>", b"</Metadata>" + BAND + END))
    broken("elements without end, each in the one before", filled(OPEN, b"<Metadata>"), 6)
    broken("bands", filled(OPEN, BAND, END), 6)
    document("comments", filled(OPEN, b"<!---->", BAND + END))
    broken("a comment without end", filled(OPEN + b"<!--", b"-"), 1, len(OPEN))
    broken("a declaration without end", filled(b"<?xml", b" "), 1, 0)
    document("white space behind the root", filled(OPEN + BAND + END, b" "))
    broken("no UTF-8 in its last byte", filled(OPEN, b" ", b"\xff"), 1, DOCUMENT - 1)
    unknown = filled(OPEN, b"<Scale/>", b"<Foo/>" + END)
    broken("an element that isn't known behind all others", unknown, 2, placed(b"<Scale/>"))
    broken("longer than its limit", Text((b" ", DOCUMENT + 1)), 6)


def deep_documents():
    # the root and the element around them are the first two of 64 that may stand in one another
    deepest, front = b"<a>" * 62 + b"</a>" * 62, OPEN + b"<Metadata>"
    document("elements as deep as they may be, again and again", filled(front, deepest, b"</Metadata>" + BAND + END))
    broken("elements as deep as they may be, the last of which is too deep", filled(front, deepest, b"<a>" * 63), 6)


def placed(unit):
    """Where the element stands that is not known, behind a unit as often as it fits."""
    return len(OPEN) + (DOCUMENT - len(OPEN) - len(b"<Foo/>" + END)) // len(unit) * len(unit)


def tags():
    document("a tag of 5,600,000 attributes", Text((ROOT, 1), (b' a{}=""', range(5_600_000)), (b">" + BAND + END, 1)))
    falling = Text((ROOT, 1), (b' a{}=""', range(9_999_999, 4_499_999, -1)), (b">" + BAND + END, 1))
    document("a tag of 5,500,000 attributes whose names fall", falling)
    rising = Text((ROOT, 1), (b' a{}=""', range(1_000_000, 6_500_000)), (b' a=""', 1), (b">" + BAND + END, 1))
    document("a tag of 5,500,001 attributes whose names rise but for the last", rising)
    document("a tag of 1,000,000 attributes", Text((ROOT, 1), (b' a{}=""', range(1_000_000)), (b">" + BAND + END, 1)))
    broken("a tag of one attribute again and again", filled(ROOT, b' a=""', b">" + BAND + END), 1, 0)
    document("tags of ten attributes", filled(
        OPEN, b'<Scale a="" b="" c="" d="" e="" f="" g="" h="" i="" j=""/>', BAND + END))
    document("an attribute of 64 MiB", filled(ROOT + b' a="', b"x", b'">' + BAND + END))
    broken("an attribute without end", filled(ROOT + b' a="', b"x"), 1, 0)
    broken("a tag of white space without end", filled(ROOT, b" "), 1, 0)
    broken("a name without end", filled(b"<", b"a"), 1, 0)
    broken("a name of 64 MiB", filled(b"<", b"a", b"/>"), 2, 0)
    document("an attribute of entities", filled(ROOT + b' a="', b"&amp;", b'">' + BAND + END))
    broken("an attribute of entities that are none", filled(ROOT + b' a="', b"&", b'">' + BAND + END), 1, 0)


def alike_tags():
    """Tags whose attributes have names that are told apart late."""
    ending, numbers = b' a{}_and_an_end=""', range(1_000_000, 3_600_000)
    document("a tag of 2,600,000 attributes whose names end alike", Text(
        (ROOT, 1), (ending, numbers), (b">" + BAND + END, 1)))
    twice = ending.replace(b"{}", b"2300000")
    broken("a tag of 2,600,000 attributes whose names end alike, one of them twice", Text(
        (ROOT, 1), (ending, numbers), (twice, 1), (b">" + BAND + END, 1)), 1, 0)
    long = b" a" + b"x" * 32_000 + b"{}" + b"x" * 32_000 + b'=""'
    document("a tag of 1,000 attributes whose long names differ in their middle", Text(
        (ROOT, 1), (long, range(1000, 2000)), (b">" + BAND + END, 1)))


def texts():
    document("a coordinate system of 64 MiB", filled(OPEN + b"<SRS>", b"x", b"</SRS>" + BAND + END))
    document("a coordinate system of entities", filled(OPEN + b"<SRS>", b"&amp;", b"</SRS>" + BAND + END))
    document("a coordinate system in pieces", filled(OPEN + b"<SRS>", b"x<!---->", b"</SRS>" + BAND + END))
    broken("entities that are none", filled(OPEN + b"<SRS>", b"&"), 1, len(OPEN) + 5)
    geo = filled(OPEN + b"<GeoTransform>", b"0", b"</GeoTransform>" + BAND + END)
    broken("a number without end", geo, 4)
    geo = filled(OPEN + b"<GeoTransform>", b"0,", b"0</GeoTransform>" + BAND + END)
    broken("more numbers than a place has", geo, 4)
    nodata = filled(OPEN + b"<VRTRasterBand><NoDataValue>", b"9", b"</NoDataValue>" + SOURCES_END)
    document("a NODATA of 64 MiB", nodata)
    front, back = SOURCES + b"<SimpleSource><SourceFilename>", b"</SourceFilename></SimpleSource>" + SOURCES_END
    length = DOCUMENT - len(front) - len(back)
    document("a name of a source of 64 MiB", filled(front, b"a", back), 1, f"ERROR 6: limit of name passed ({length})")
    document("a name of a source of entities", filled(front, b"&amp;", back), 1,
             f"ERROR 6: limit of name passed ({length // 5})")


def sources():
    document("the most sources", Text((SOURCES, 1), (SHORTEST, MOST), (SOURCES_END, 1)))
    broken("one source too many", Text((SOURCES, 1), (SHORTEST, MOST + 1), (SOURCES_END, 1)), 6)
    document("the most sources of other names", Text((SOURCES, 1), (NUMBERED, range(MOST)), (SOURCES_END, 1)))
    front, back = b"<ComplexSource><SourceFilename>a</SourceFilename><LUT>", b"</LUT></ComplexSource>"
    nodata = front.replace(b"LUT", b"NODATA") + b"0" + back.replace(b"LUT", b"NODATA")
    document("the most sources, each with a NODATA", Text((SOURCES, 1), (nodata, MOST), (SOURCES_END, 1)))
    one_pair = front + b"0:0" + back
    document("the most sources, each with a table of one pair", Text((SOURCES, 1), (one_pair, MOST), (SOURCES_END, 1)))
    small, capital = " with zeros of the greatest exponent", " with zeros of a great exponent in capitals"
    zeros = (small, b"0e999"), (capital, b"0E999")
    for what, unit in ("", b"0"), *zeros:
        table = Text((b"{}:" + unit + b",", range(65_535)), (b"65535:" + unit, 1))
        lookup = front + b"".join(table.pieces()) + back
        document(f"tables of 65,536 pairs{what}", filled(SOURCES, lookup, SOURCES_END))
    more = Text((SOURCES + front, 1), (b"{}:0,", range(65_536)), (b"65536:0" + back + SOURCES_END, 1))
    broken("a table of one pair more", more, 6)
    broken("a table of one pair again and again", filled(SOURCES + front, b"0:0,", b"1:0" + back + SOURCES_END), 4)
    # no source gives a value, so each has to be asked
    nothing = SOURCES + b"<NoDataValue>7</NoDataValue>"
    link = b"<ComplexSource><SourceFilename>{}.vrt</SourceFilename><NODATA>7</NODATA></ComplexSource>"
    links = [link.replace(b"{}", b"%d" % at) for at in range(1, 16)] + [link.replace(b"{}.vrt", b"one.bil")]
    files = {f"{at}.vrt": Text((nothing, 1), (it, 16_384), (SOURCES_END, 1)) for at, it in enumerate(links)}
    words = "gdallocationinfo -valonly {} 0 0"
    row("documents: 16, each of which names the next one 16,384 times", {**files, **ONE}, words)


def alike(number):
    """A source whose name has two letters for each of 18 bits of a number. Where each letter counts 81 times as much as
    the next one, as it did once, `az` and `b)` make the same number, and so do all names of such parts."""
    name = b"".join(b"b)" if number >> bit & 1 else b"az" for bit in range(18))
    return NUMBERED.replace(b"{}", name)


def names_of_sources():
    def named(name, numbers):
        source = NUMBERED.replace(b"{}.bil", name)
        return Text((SOURCES, 1), (source, numbers), (SOURCES_END, 1))

    document("the most sources of names that fall", named(b"{}.bil", range(999_999, 999_999 - MOST, -1)))
    again = NUMBERED.replace(b"{}", b"999999")
    document("the most sources of names that fall, the first of which stands again at the end", Text(
        (SOURCES, 1), (NUMBERED, range(999_999, 1_000_000 - MOST, -1)), (again, 1), (SOURCES_END, 1)))
    tiles, between = (NUMBERED, range(MOST // 3)), (b"</VRTRasterBand><VRTRasterBand>", 1)
    document("three bands of the same 87,381 sources", Text(
        (SOURCES, 1), tiles, between, tiles, between, tiles, (SOURCES_END, 1)))
    document("the most sources of names that make one number", Text(
        (SOURCES, 1), (alike, range(MOST - 1, -1, -1)), (SOURCES_END, 1)))
    document("sources of names of 1,360 folders up", named(b"../" * 1360 + b"{}.bil", range(16_000)))
    document("sources of names that go down and up 817 times", named(b"a/../" * 817 + b"{}.bil", range(16_000)))
    short = "x.vrt"
    row("name: 2,000 parts that fall away", {"./" * 2000 + short: Text((OPEN + BAND + END, 1))}, "gdalinfo {}")


def refused_sources():
    source = SHORTEST.replace(b">a<", b">one.bil<")
    second = source.replace(b"</SourceFilename>", b"</SourceFilename><SourceBand>2</SourceBand>")
    text = Text((SOURCES, 1), (source, MOST - 1), (second, 1), (SOURCES_END, 1))
    row("document: the last of 262,144 sources lacks its band", {"x.vrt": text, **ONE},
        "gdallocationinfo -valonly {} 0 0", 1, "ERROR 5: one.bil: no band 2")
    names = [b"%d.vrt" % (at % 16 + 1) for at in range(1, 17)]
    files = {f"{at}.vrt": Text((SOURCES, 1), (SHORTEST.replace(b">a<", b">" + it + b"<"), 16_384), (SOURCES_END, 1))
             for at, it in enumerate(names, 1)}
    row("documents: 16, the last of which names the first", files, "gdallocationinfo -valonly {} 0 0", 1,
        "ERROR 1: 1.vrt: mosaic contains itself")


def lists():
    words = "gdalbuildvrt -q out.vrt -input_file_list {}"
    row("list: empty lines", {"x.txt": Text((b"\n", DOCUMENT))}, words, 1, "ERROR 1: no input fits")
    row("list: one line", {"x.txt": Text((b"a", DOCUMENT))}, words, 1, f"ERROR 6: limit of name passed ({DOCUMENT})")
    row("list: names without end", {"x.txt": filled(b"", b"one.bil\n"), **ONE}, words, 1,
        "ERROR 6: limit of files passed (65537)")
    row("list: no UTF-8 in its last byte", {"x.txt": filled(b"", b"a", b"\xff")}, words, 1,
        "ERROR 4: x.txt: malformed list (1)")
    row("list: longer than its limit", {"x.txt": Text((b"\n", DOCUMENT + 1))}, words, 1,
        f"ERROR 6: limit of list passed ({DOCUMENT + 1})")
    last = Text((b"one.bil\n", 65_535), (b"none.bil\n", 1))
    row("list: the last of 65,536 isn't there", {"x.txt": last, **ONE}, words, 1, "ERROR 4: none.bil: no such file")
    long = Text((b"./" * 2043 + b"one.bil\n", 16_000), (b"none.bil\n", 1))
    row("list: names of 4,093 bytes", {"x.txt": long, **ONE}, words, 1, "ERROR 4: none.bil: no such file")
    above = Text((b"../" * 1360 + b"none.bil\n", 16_000))
    up = "../" * 1360 + "none.bil"
    row("list: names of 1,360 folders up", {"x.txt": above}, words, 1, f"ERROR 4: {up}: no such file")
    ends = Text((b"\r\n", DOCUMENT // 2))
    row("list: empty lines with two line ends", {"x.txt": ends}, words, 1, "ERROR 1: no input fits")
    turns = Text((b"a/../" * 817 + b"one.bil\n", 16_000), (b"none.bil\n", 1))
    row("list: names that go down and up 817 times", {"x.txt": turns, **ONE}, words, 1,
        "ERROR 4: none.bil: no such file")
    turns = Text((b"a/b/../../" * 408 + b"one.bil\n", 16_000), (b"none.bil\n", 1))
    row("list: names that go down two folders and up two 408 times", {"x.txt": turns, **ONE}, words, 1,
        "ERROR 4: none.bil: no such file")
    slashes = Text((b"/" * 4087 + b"none.bil\n", 16_000))
    row("list: names of 4,087 slashes", {"x.txt": slashes}, words, 1, "ERROR 4: /none.bil: no such file")


def inputs():
    words = f"gdallocationinfo -valonly one.bil {INPUT}"
    lines, line = Text((b"\n", 64 * MIB)), Text((b"0", 64 * MIB))
    row("input: empty lines", {"x": lines, **ONE}, words, 1, "ERROR 6: limit of points passed (16777217)")
    row("input: one line", {"x": line, **ONE}, words, 1, "ERROR 5: input line 1 is no point")
    row("input: lines of blanks", {"x": Text((b" " * 4096 + b"\n", 16_000)), **ONE}, words)
    ends = Text((b"\r\n", 32 * MIB))
    row("input: empty lines with two line ends", {"x": ends, **ONE}, words, 1,
        "ERROR 6: limit of points passed (16777217)")
    number = b"0" * 64
    row("input: points of numbers of 64 bytes", {"x": Text((number + b" " + number + b"\n", 500_000)), **ONE}, words)
    row("input: points of the least exponent", {"x": Text((b"1e-999 1e-999\n", 4_700_000)), **ONE}, words)


FILES = headers, labels, cells, grids
DOCUMENTS = wide_documents, deep_documents, tags, alike_tags, texts, sources, names_of_sources, refused_sources
for group in *FILES, *DOCUMENTS, lists, inputs:
    group()


# Runs a program, and tells its wall time, its status and its peak by a pipe. What a process has in memory counts as a
# peak of those that it starts, so a small one starts the program. After two minutes a program is ended.
STARTER = """
import _signal, posix, sys, time
began = time.perf_counter()
child = posix.fork()
if not child:
    _signal.alarm(120)
    posix.execv(sys.argv[2], sys.argv[2:])
_, status, used = posix.wait4(child, 0)
wall = time.perf_counter() - began
posix.write(int(sys.argv[1]), b"%r %d %d" % (wall, status, used.ru_maxrss))
"""


class Cost:
    """The least wall time of some runs and their greatest peak of memory in bytes; and how the last one ended."""

    def __init__(self):
        self.wall, self.peak, self.status, self.line = 1e9, 0, 0, ""

    def run(self, words, fed=os.devnull):
        taken, given = os.pipe()
        starter = [sys.executable, "-I", "-S", "-c", STARTER, str(given), *words]
        with open(fed, "rb") as text, open("told", "w+b") as told, open(taken, "rb") as measured:
            subprocess.run(starter, stdin=text, stdout=subprocess.DEVNULL, stderr=told, pass_fds=(given,), check=True)
            os.close(given)
            wall, status, peak = measured.read().split()
            told.seek(0)
            self.line = told.readline(8192).decode(errors="replace").rstrip("\n")
        self.status = -os.WTERMSIG(int(status)) if os.WIFSIGNALED(int(status)) else os.WEXITSTATUS(int(status))
        self.wall, self.peak = min(self.wall, float(wall)), max(self.peak, int(peak) * 1024)


def cost_of(times, words, fed=os.devnull):
    cost = Cost()
    for _ in range(times):
        cost.run(words, fed)
    return cost


def read_cost(times, files):
    return cost_of(times, ["/bin/sh", "-c", 'cat "$@" | wc -c', "sh", *files])


def try_row(program, times, start, what, files, words, status, line):
    """Prints a row; returns whether it ends as it has to, and within its bounds."""
    for name, text in files.items():
        text.write(name)
    first = next(iter(files))
    length = sum(os.path.getsize(name) for name in files)
    fed = first if INPUT in words else os.devnull
    words = [it.replace("{}", first) for it in words if it != INPUT]
    read, cost = read_cost(times, files), cost_of(times, [program, *words], fed)
    time_part, memory_part = cost.wall / (start + 10 * read.wall), cost.peak / (4 * length + 16 * MIB)
    is_said = (cost.status, cost.line) == (status, line)
    ends = (cost.line or "done") if is_said else f"FAILED: status {cost.status}, {cost.line}"
    ends = ends if len(ends) <= 100 else f"{ends[:97]}..."
    measured = f"{cost.wall:.3f} s | {time_part:.2f} | {cost.peak / MIB:.0f} MiB | {memory_part:.2f}"
    is_within = time_part <= 1 and memory_part <= 1
    print(f"| {what} | {length:,} | {ends} | {measured} |{'' if is_within else ' PAST'}", flush=True)
    for name in files:
        os.remove(name)
    return is_said and is_within


def main(words):
    parser = argparse.ArgumentParser(prog="bench/hostile.py", description="files that are made to cost a reader much")
    parser.add_argument("program", help="the built program")
    told = "rows whose names have this word; all, if there is none"
    parser.add_argument("wanted", nargs="*", metavar="WORD", help=told)
    parser.add_argument("--times", type=int, default=3, help="runs of each")
    parser.add_argument("--folder", help="where the files are made")
    said = parser.parse_intermixed_args(words)
    if not os.access(said.program, os.X_OK):
        parser.error(f"{said.program} is no program")
    program, wanted, times, folder = os.path.realpath(said.program), said.wanted, said.times, said.folder
    room = folder or tempfile.mkdtemp(prefix="hostile-")
    os.makedirs(room, exist_ok=True)
    os.chdir(room)
    start = cost_of(max(times, 10), [program, "gdalinfo", "none.bil"]).wall
    print(f"start: {start:.4f} s; the parts are of the bounds, {times} runs of each\n")
    print("| File | Bytes | Ends with | Time | Part | Memory | Part |\n|---|---|---|---|---|---|---|")
    rows = [it for it in ROWS if not wanted or any(word in it[0] for word in wanted)]
    right = sum(try_row(program, times, start, *it) for it in rows)
    print(f"\ntried {len(rows)}, failed or past a bound {len(rows) - right}")
    if folder is None:
        os.chdir("/")
        shutil.rmtree(room)
    return 0 if right == len(rows) else 1


if __name__ == "__main__":
    sys.exit(main(sys.argv[1:]))
