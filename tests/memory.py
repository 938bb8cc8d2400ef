#!/usr/bin/env python3
"""Runs the built program with each of its allocations refused in turn, outside the gate: tests/memory.py PROGRAM [--all-ends]

A small library, built with the system's C compiler, stands between the program and the allocator and refuses one call
by its number. Each job is run with the first call refused, then with the second, and so on until a run ends in which
none was. A run either does all that it does with enough memory, or ends with status 3, the line `ERROR 2: out of
memory`, a first part of what it prints and the first of the files that it publishes, each whole. Nothing else stands in
the folder then. Each line of the result names a job, how many of its allocations were refused and how long that took;
the last line counts what failed, and the status is 0 where nothing did.

The jobs are those of the tests over calls and files that fail, some of them over old files under the names of the
outputs. A cell and a document end at chosen places here, and at each of their bytes, as in those tests, with
`--all-ends`. Not tried is what is no run: that a lane of one block reads again behind a refusal (crates/reading_tests,
`a_lane_of_one_block_goes_on`, where a read is refused)."""
import os
import shutil
import subprocess
import sys
import tempfile
import time

SHIM = r"""
#define _GNU_SOURCE
#include <dlfcn.h>
#include <errno.h>
#include <fcntl.h>
#include <pthread.h>
#include <stdlib.h>
#include <unistd.h>

static long left = -1;

__attribute__((constructor)) static void begin(void) {
    const char *number = getenv("REFUSED_CALL");
    left = number ? atol(number) : 0;
}

/* whether this call, of whichever thread, is the one to refuse; a file tells that it came */
static int refused(void) {
    if (__atomic_load_n(&left, __ATOMIC_RELAXED) <= 0 || __atomic_sub_fetch(&left, 1, __ATOMIC_RELAXED)) return 0;
    int mark = open(getenv("REFUSED_MARK"), O_CREAT | O_WRONLY, 0600);
    if (mark >= 0) close(mark);
    errno = ENOMEM;
    return 1;
}

#define NEXT(name) ((__typeof__(&name))dlsym(RTLD_NEXT, #name))
extern void *__libc_malloc(size_t), *__libc_calloc(size_t, size_t), *__libc_realloc(void *, size_t);
void *malloc(size_t n) { return refused() ? 0 : __libc_malloc(n); }
void *calloc(size_t n, size_t m) { return refused() ? 0 : __libc_calloc(n, m); }
void *realloc(void *p, size_t n) { return refused() ? 0 : __libc_realloc(p, n); }
int posix_memalign(void **p, size_t a, size_t n) { return refused() ? ENOMEM : NEXT(posix_memalign)(p, a, n); }
void *aligned_alloc(size_t a, size_t n) { return refused() ? 0 : NEXT(aligned_alloc)(a, n); }

/* another file gets a byte for each thread that is started; none may be to be had */
int pthread_create(pthread_t *to, const pthread_attr_t *with, void *(*begin)(void *), void *it) {
    if (getenv("NO_THREADS")) return EAGAIN;
    int mark = open(getenv("THREADS_MARK"), O_CREAT | O_WRONLY | O_APPEND, 0600);
    if (mark >= 0) {
        if (write(mark, "t", 1) < 0) abort();
        close(mark);
    }
    return NEXT(pthread_create)(to, with, begin, it);
}

/* before the first read of standard input a file may lose a byte, and behind so many reads all others may fail */
extern ssize_t __read(int, void *, size_t);
ssize_t read(int file, void *to, size_t n) {
    static long reads;
    const char *shrunk = getenv("SHRUNK_FILE"), *given = getenv("READS_GIVEN");
    if (file == 0 && reads++ == 0 && shrunk && truncate(shrunk, atol(getenv("SHRUNK_TO")))) return -1;
    if (file == 0 && given && reads > atol(given)) {
        errno = EIO;
        return -1;
    }
    return __read(file, to, n);
}
"""


def mosaic(width, bands):
    return f'<VRTDataset rasterXSize="{width}" rasterYSize="1">{bands}</VRTDataset>'.encode()


def shows(name, words='dataType="Int16"'):
    source = f"<SimpleSource><SourceFilename>{name}</SourceFilename></SimpleSource>"
    return f"<VRTRasterBand {words}>{source}</VRTRasterBand>"


def shows_both(lower, upper):
    """A band of two sources whose 0 shows nothing; where neither shows anything, it is -1."""
    nodata = "<NODATA>0</NODATA></ComplexSource>"
    sources = "".join(f"<ComplexSource><SourceFilename>{it}</SourceFilename>{nodata}" for it in (lower, upper))
    return f'<VRTRasterBand dataType="Int16"><NoDataValue>-1</NoDataValue>{sources}</VRTRasterBand>'


def lies(x):
    """A mosaic whose one source lies at this column; where it covers nothing, the pixel is 9."""
    place = f'<DstRect xOff="{x}" yOff="0" xSize="8388608" ySize="1"/>'
    source = f"<SimpleSource><SourceFilename>a.bil</SourceFilename>{place}</SimpleSource>"
    return mosaic(1, f"<VRTRasterBand><NoDataValue>9</NoDataValue>{source}</VRTRasterBand>")


def twice(name):
    source = f"<SimpleSource><SourceFilename>{name}</SourceFilename></SimpleSource>"
    return mosaic(1, f"<VRTRasterBand>{source}{source}</VRTRasterBand>")


def cell(counts, records):
    label = b"UHL10100000E0200000N03000300NA  U" + b" " * 14 + counts + b" " * 25
    return label + b"DSIU" + b" " * 644 + b"ACC" + b" " * 2697 + records


RECORD = bytes.fromhex("aa0000000000000000058005ffff8000000003b2")
PLACED = b"NROWS 1\nNCOLS 2\nULXMAP 0.5\nULYMAP 0.5\n"
CELL = cell(b"00010004", RECORD)
THREE = b"NROWS 1\nNCOLS 3\nNBITS 16\nPIXELTYPE SIGNEDINT\n"


def tile(name, x):
    """A source of the mosaic of two tiles."""
    return f"""    <ComplexSource>
      <SourceFilename relativeToVRT="1">{name}</SourceFilename>
      <SourceBand>1</SourceBand>
      <SrcRect xOff="0" yOff="0" xSize="1201" ySize="1201"/>
      <DstRect xOff="{x}" yOff="0" xSize="1201" ySize="1201"/>
      <NODATA>-32768</NODATA>
    </ComplexSource>
"""


PLACE = "-0.0004166666666667, 0.0008333333333333, 0, 1.0004166666666667, 0, -0.0008333333333333"
DOCUMENT = f"""<VRTDataset rasterXSize="2401" rasterYSize="1201">
  <GeoTransform>{PLACE}</GeoTransform>
  <VRTRasterBand dataType="Int16" band="1">
    <NoDataValue>-32768</NoDataValue>
{tile("N00E000.hgt", 0)}{tile("N00E001.hgt", 1200)}  </VRTRasterBand>
</VRTDataset>
""".encode()
ALL_ENDS = "--all-ends" in sys.argv[2:]
# where the cell ends: in and behind its labels, and at each byte of its record
CELL_ENDS = range(len(CELL)) if ALL_ENDS else (0, 1, 79, 80, 81, 728, 729, *range(3428, 3448))
# behind the first of each of these the document ends
DOCUMENT_ENDS = (
    b"",
    b"<VRTData",
    b' rasterXSize="24',
    b' rasterYSize="1201"',
    b' rasterYSize="1201">',
    b"<GeoTransform>-0.0004",
    b"</GeoTransform>",
    b"<VRTRasterBand",
    b"</NoDataValue>",
    b'<SourceFilename relativeToVRT="1">N00E0',
    b"</ComplexSource>",
    b'<DstRect xOff="1200" yOff="0" xSize="1201" ySize="1201"/',
    b"</VRTRasterBand>",
    b"</VRTDataset",
)
CUT_CELLS = {f"cut{at}.dt0": CELL[:at] for at in CELL_ENDS}
SHORTER = range(DOCUMENT.rindex(b">")) if ALL_ENDS else [DOCUMENT.index(it) + len(it) for it in DOCUMENT_ENDS]
CUT_DOCUMENTS = {f"cut{length}.vrt": DOCUMENT[:length] for length in SHORTER}
# these stand in each folder
FILES = {
    "a.bil": bytes(range(1, 13)),
    "a.hdr": b"NROWS 2\nNCOLS 3\nNBANDS 2\n",
    "m.bil": b"\5\0\xff\xff\t\0",
    "m.hdr": THREE,
    "n.vrt": mosaic(3, shows("m.bil")),
    "o.vrt": mosaic(3, shows("n.vrt")),
    "lower.bil": b"\5\0\0\0\7\0",
    "lower.hdr": THREE,
    "upper.bil": b"\0\0\0\0\t\0",
    "upper.hdr": THREE,
    "both.vrt": mosaic(3, shows_both("lower.bil", "upper.bil")),
    "inner.vrt": mosaic(3, shows("both.vrt")),
    "outer.vrt": mosaic(3, shows("inner.vrt")),
    "east.bil": b"\1\2",
    "east.hdr": PLACED,
    "two.bil": b"\1\2\3\4",
    "two.hdr": PLACED + b"NBANDS 2\n",
    "list.txt": b"east.bil\ntwo.bil\n",
    "g.asc": b"ncols 2\nnrows\t2\nxllcenter 10\nyllcenter 20\ncellsize 2\n1\t-2\n30 4\n",
    "big.bsq": b"\7",
    "big.hdr": b"NROWS 4194304\nNCOLS 4194304\nNBANDS 256\nNBITS 32\nLAYOUT BSQ\n",
    "deep.vrt": b'<VRTDataset rasterXSize="1" rasterYSize="1">' + b"<Metadata>" * 64,
    "cut.vrt": b'<VRTDataset rasterXSize="1" rasterYSize="1">' + b"<Metadata>" * 63,
    "long.asc": b"ncols 1\nnrows 1\nxllcorner 0\nyllcorner 0\ncellsize 1\n" + b"0" * 65,
    "self.vrt": mosaic(1, shows("self.vrt")),
    "large.dt2": cell(b"99999999", b""),
    "c.dt0": CELL,
    "head.dt0": CELL[:3427],
    "short.dt0": CELL[:3447],
    "wide.hdr": b"NROWS 65\nNCOLS 31250\n",
    "end.vrt": mosaic(3, shows("m.bil"))[:-1],
    "far.vrt": lies(8388608),
    "farther.vrt": lies(8388609),
    "empty.asc": b"ncols 4194304\nnrows 4194304\nxllcorner 0\nyllcorner 0\ncellsize 1\n",
    **{f"t{at}.vrt": twice(f"t{at + 1}.vrt" if at < 15 else "a.bil") for at in range(16)},
}
# these stand there only where the words name them; a number stands for so many zeros
NAMED_FILES = {
    **CUT_CELLS,
    **CUT_DOCUMENTS,
    "N00E000.hgt": 2_884_802,
    "N00E001.hgt": 2_884_802,
    "wide.bil": 65 * 31250,
}
POINTS = b"0 0\n9 9\n2 1\n"
# what is published, in its order; a file whose bytes are known with them
RASTER = dict.fromkeys(("out.bil", "out.hdr"))
WOVEN = dict.fromkeys(("out.bip", "out.hdr"))
FILLED = {"out.bil": b"\5\0\xff\xff\t\0", "out.hdr": None}
ZEROS = {"out.bil": bytes(65 * 31250), "out.hdr": None}
MOSAIC = {"out.vrt": None}
TILES = {"out.vrt": DOCUMENT}
# under the names of an output's files, what stands there before the run
OLD = b"old"


class Over(dict):
    """The files that a job publishes over old ones."""


NUMBER = dict.fromkeys((
    *(f"synth_t{tile}.{ending}" for tile in range(4) for ending in ("bil", "hdr")),
    "synth_inner.vrt",
    "synth_outer.vrt",
    "synth_out.bil",
    "synth_out.hdr",
))
# in the place of an input's bytes: the input, or the error stream, is one that fails
NO_INPUT, NO_ERRORS = "no input", "no errors"
# an input's bytes, what happens as it is read (it fails behind them, or a file gets shorter before them), and the line
# that is told of it with enough memory
FAILS_LATER = (b"0 0\n9", {"READS_GIVEN": "1"}, b"ERROR 3: reading the input failed\n")
SHRINKS = (b"2 1\n", {"SHRUNK_FILE": "a.bil", "SHRUNK_TO": "11"}, b"ERROR 3: a.bil: length changed from 12 to 11\n")
STRICT = (b"", {}, b"ERROR 1: two.bil: skipped (bands)\n")
# two lanes that read beside each other, and a reader that goes on while lines are written
IS_SHARED = (b"", {"FEWEST_THREADS": "2"}, b"")
# two workers that make lines beside each other, one of them in the thread that writes all
IS_MADE = (b"", {"FEWEST_THREADS": "1"}, b"")
# the same where the system starts no thread, so that the one that calls does their work
NO_THREADS = (b"", {"NO_THREADS": "1"}, b"")


def told(line):
    """An empty input, and the line that is told."""
    return b"", {}, line.encode() + b"\n"


def cut_cell(name, text):
    why = "malformed dted (3)" if len(text) < 3428 else f"needs 3448 bytes, has {len(text)}"
    return f"a cell of {len(text)} bytes", f"gdalinfo {name}", told(f"ERROR 4: {name}: {why}"), {}


def cut_document(name, text):
    """A tag that isn't closed is refused where it begins, and else the end."""
    is_open = text.rfind(b"<") > text.rfind(b">")
    why = f"malformed vrt (1) at {text.rfind(b'<') if is_open else len(text)}"
    return f"a document of {len(text)} bytes", f"gdalinfo {name}", told(f"ERROR 4: {name}: {why}"), {}


# a name, the words, the input, and the files that are published, in their order
JOBS = (
    ("a point of raw data", "gdallocationinfo -valonly a.bil 2 1", b"", {}),
    ("points of the input", "gdallocationinfo -valonly a.bil", POINTS, {}),
    ("points of the input, as reports", "gdallocationinfo a.bil", POINTS, {}),
    ("an input without points", "gdallocationinfo -valonly a.bil", b"", {}),
    ("points of the input, the last of which is none", "gdallocationinfo -valonly a.bil", POINTS + b"x\n", {}),
    ("points that are looked for in lines", "gdallocationinfo --workers 2 -valonly o.vrt", b"0 0\n1 0\n0 0\n", {}),
    ("a line that is too long", "gdallocationinfo -valonly a.bil", b"0" * 4097, {}),
    ("an input that fails", "gdallocationinfo -valonly a.bil", NO_INPUT, {}),
    ("an input that fails within its second line", "gdallocationinfo -valonly a.bil", FAILS_LATER, {}),
    ("a file that shrinks behind the walk", "gdallocationinfo -valonly a.bil", SHRINKS, {}),
    ("the sources of a pixel", "gdallocationinfo -lifonly o.vrt 0 0", b"", {}),
    ("a report of raw data", "gdalinfo a.bil", b"", {}),
    ("a report of a mosaic", "gdalinfo o.vrt", b"", {}),
    ("a report of a grid", "gdalinfo g.asc", b"", {}),
    ("nested mosaics to raw data, one block", "gdal_translate --blocks 1 o.vrt out.bil", b"", RASTER),
    ("nested mosaics to raw data", "gdal_translate -q o.vrt out.bil", b"", RASTER),
    ("sources over each other, one block", "gdal_translate --blocks 1 outer.vrt out.bil", b"", FILLED),
    ("sources over each other", "gdal_translate --blocks 64 outer.vrt out.bil", b"", FILLED),
    ("lines that one of two workers reads", "gdal_translate --workers 2 a.bil out.bil", b"", RASTER),
    ("lines that two workers make", "gdal_translate --workers 2 wide.bil out.bil", IS_MADE, ZEROS),
    ("the same, and no thread can be started", "gdal_translate --workers 2 wide.bil out.bil", NO_THREADS, ZEROS),
    ("lines that two workers share", "gdal_translate --workers 2 wide.bil out.bip", IS_SHARED, WOVEN),
    ("nested mosaics over an old raster", "gdal_translate --blocks 1 o.vrt out.bil", b"", Over(RASTER)),
    ("sources over each other over an old raster", "gdal_translate outer.vrt out.bil", b"", Over(FILLED)),
    ("a grid to a grid", "gdal_translate g.asc out.asc", b"", {"out.asc": None}),
    ("a document of a window", "gdal_translate -srcwin 1 0 1 1 o.vrt out.vrt", b"", MOSAIC),
    ("a mosaic, an input of which is skipped", "gdalbuildvrt out.vrt east.bil two.bil", b"", MOSAIC),
    ("two tiles side by side", "gdalbuildvrt out.vrt N00E000.hgt N00E001.hgt two.bil", b"", TILES),
    ("the same over an old mosaic", "gdalbuildvrt out.vrt N00E000.hgt N00E001.hgt two.bil", b"", Over(TILES)),
    ("the same without what is skipped", "gdalbuildvrt -strict out.vrt N00E000.hgt N00E001.hgt", b"", TILES),
    ("the same with it, strictly", "gdalbuildvrt -strict out.vrt N00E000.hgt N00E001.hgt two.bil", STRICT, {}),
    ("a mosaic of a list", "gdalbuildvrt -q out.vrt -input_file_list list.txt", b"", MOSAIC),
    ("a mosaic that is refused", "gdalbuildvrt -strict out.vrt east.bil two.bil", b"", {}),
    ("a number", "synth 3", b"", NUMBER),
    ("a file that is too short", "gdalinfo big.bsq", b"", {}),
    ("a cell that is too short for its head", "gdalinfo large.dt2", b"", {}),
    ("a cell whose sums are right", "gdallocationinfo --config DTED_VERIFY_CHECKSUM YES -valonly c.dt0 0 2", b"", {}),
    ("a cell that ends in its head", "gdalinfo head.dt0", b"", {}),
    ("a cell that ends in its record", "gdalinfo short.dt0", b"", {}),
    *(cut_cell(name, text) for name, text in CUT_CELLS.items()),
    *(cut_document(name, text) for name, text in CUT_DOCUMENTS.items()),
    ("a document that ends a byte too early", "gdalinfo end.vrt", b"", {}),
    ("a source as far right as one may lie", "gdallocationinfo -valonly far.vrt 0 0", b"", {}),
    ("a source that lies farther", "gdallocationinfo -valonly farther.vrt 0 0", b"", {}),
    ("the largest grid, without a value", "gdalinfo empty.asc", b"", {}),
    ("16 mosaics, each of which names the next one twice", "gdallocationinfo -valonly t0.vrt 0 0", b"", {}),
    ("a document that is too deep", "gdalinfo deep.vrt", b"", {}),
    ("a document that ends too early", "gdalinfo cut.vrt", b"", {}),
    ("a grid with a long token", "gdalinfo long.asc", b"", {}),
    ("a mosaic that names itself", "gdallocationinfo -valonly self.vrt 0 0", b"", {}),
    ("no such file", "gdalinfo none.bil", b"", {}),
    ("no such file, and an error stream that takes nothing", "gdalinfo none.bil", NO_ERRORS, {}),
    ("no words", "", b"", {}),
)
REFUSED = b"ERROR 2: out of memory\n"
# so many seconds may a run take; one that takes longer hangs
LONGEST = 60


class Place:
    """A job's folder, in which the same files stand before each run."""

    def __init__(self, path, words, outputs):
        named = {name: text for name, text in NAMED_FILES.items() if name in words.split()}
        old = dict.fromkeys(outputs, OLD) if isinstance(outputs, Over) else {}
        self.path, self.given, self.stamps = path, {**FILES, **named, **old}, {}
        shutil.rmtree(path, ignore_errors=True)
        os.mkdir(path)
        for name in self.given:
            self.put(name)

    def put(self, name):
        """Makes a file of its bytes, or of so many zeros."""
        text = self.given[name]
        with open(f"{self.path}/{name}", "wb") as it:
            if isinstance(text, int):
                it.truncate(text)
            else:
                it.write(text)
        self.stamps[name] = stamp_of(os.stat(f"{self.path}/{name}"))

    def take(self):
        """Returns what stands in it, and puts the given files there again where they are lacking or others."""
        found = {}
        for entry in os.scandir(self.path):
            if self.stamps.get(entry.name) == stamp_of(entry.stat()):
                found[entry.name] = self.given[entry.name]
            else:
                with open(entry.path, "rb") as it:
                    found[entry.name] = it.read()
                os.remove(entry.path)
        for name in self.given:
            if not os.path.exists(f"{self.path}/{name}"):
                self.put(name)
        return found


def stamp_of(status):
    return status.st_ino, status.st_size, status.st_mtime_ns


def streams_of(fed):
    if isinstance(fed, tuple):
        return {"input": fed[0], "stderr": subprocess.PIPE}
    if fed == NO_INPUT:
        return {"stdin": FOLDER, "stderr": subprocess.PIPE}
    if fed == NO_ERRORS:
        return {"stdin": subprocess.DEVNULL, "stderr": FULL}
    return {"input": fed, "stderr": subprocess.PIPE}


# a folder can't be read as an input, and a full device takes nothing
FOLDER, FULL = os.open("/", os.O_RDONLY), os.open("/dev/full", os.O_WRONLY)


def length_of(path):
    return os.path.getsize(path) if os.path.exists(path) else 0


class Ran:
    """What a run answered, printed, told and left in its folder; whether a call was refused in it, and its threads."""

    def __init__(self, room, program, place, words, fed, number):
        marks = {"REFUSED_MARK": f"{room}/mark", "THREADS_MARK": f"{room}/threads"}
        for mark in marks.values():
            if os.path.exists(mark):
                os.remove(mark)
        self.is_told = fed != NO_ERRORS
        seen = {**os.environ, **marks, "LD_PRELOAD": f"{room}/refuse.so", "REFUSED_CALL": str(number)}
        seen.update(fed[1] if isinstance(fed, tuple) else {})
        how = {"cwd": place.path, "stdout": subprocess.PIPE, "timeout": LONGEST, "env": seen, **streams_of(fed)}
        ran = subprocess.run([program, *words.split()], check=False, **how)
        self.status, self.out, self.err = ran.returncode, ran.stdout, ran.stderr or b""
        self.is_refused, self.threads = os.path.exists(marks["REFUSED_MARK"]), length_of(marks["THREADS_MARK"])
        self.made = place.take()


def published(ran, given, outputs):
    """The outputs that have other bytes than before, and what stands there besides and didn't before."""
    return {it for it, text in ran.made.items() if text != given.get(it) and (it in outputs or it not in given)}


def is_right(whole, ran, given, outputs):
    """Whether a run of which a call was refused did the same as one with enough memory, or ended for want of it."""
    if (ran.status, ran.out, ran.err, ran.made) == (whole.status, whole.out, whole.err, whole.made):
        return True
    refused = REFUSED if ran.is_told else b""
    warned = ran.err.removesuffix(refused)
    new = published(ran, given, outputs)
    return (
        ran.status == 3
        and set(given) <= set(ran.made)
        and ran.err.endswith(refused)
        and whole.err.startswith(warned)
        and whole.out.startswith(ran.out)
        and new == set(list(outputs)[: len(new)])
        and all(text in (whole.made.get(name), given.get(name)) for name, text in ran.made.items())
    )


def wrong_in(whole, given, fed, outputs):
    """What a run with enough memory does otherwise than the job says, if there is anything."""
    new = published(whole, given, outputs)
    if new != set(outputs) or not set(given) <= set(whole.made):
        return f"published {sorted(new)}, and left {sorted(whole.made)}"
    if isinstance(fed, tuple) and whole.err != fed[2]:
        return f"told {whole.err!r}"
    if isinstance(fed, tuple) and whole.threads < int(fed[1].get("FEWEST_THREADS", 0)):
        return f"started {whole.threads} threads"
    for name, text in outputs.items():
        if text is not None and whole.made[name] != text:
            return f"{name} holds {whole.made[name]!r}"
    return None


def try_job(room, program, words, fed, outputs):
    """Returns how many calls were refused, one a run, and the first that ended otherwise, if there is one."""
    place = Place(f"{room}/files", words, outputs)
    whole, number = Ran(room, program, place, words, fed, 0), 0
    wrong = wrong_in(whole, place.given, fed, outputs)
    while wrong is None:
        try:
            ran = Ran(room, program, place, words, fed, number + 1)
        except subprocess.TimeoutExpired:
            return number, f"call {number + 1}: no end within {LONGEST} s"
        if not is_right(whole, ran, place.given, outputs):
            new = sorted(published(ran, place.given, outputs))
            wrong = f"call {number + 1}: status {ran.status}, {ran.err!r}, {new}"
        elif not ran.is_refused:
            break
        else:
            number += 1
    return number, wrong


def main():
    if sys.argv[2:] not in ([], ["--all-ends"]) or not os.access("".join(sys.argv[1:2]), os.X_OK):
        print("tests/memory.py PROGRAM [--all-ends]: the built program", file=sys.stderr)
        return 2
    program, failed = os.path.realpath(sys.argv[1]), 0
    with tempfile.TemporaryDirectory() as room:
        with open(f"{room}/refuse.c", "w", encoding="utf-8") as it:
            it.write(SHIM)
        words = ["cc", "-O1", "-shared", "-fPIC", "-o", f"{room}/refuse.so", f"{room}/refuse.c", "-ldl"]
        if subprocess.run(words, check=False).returncode:
            print("tests/memory.py needs a C compiler and a C library with __libc_malloc", file=sys.stderr)
            return 2
        for name, words, fed, outputs in JOBS:
            begin = time.monotonic()
            number, wrong = try_job(room, program, words, fed, outputs)
            failed += wrong is not None
            said = f"{number} allocations refused in turn, {time.monotonic() - begin:.1f} s"
            print(f"FAILED: {name}: {wrong}" if wrong else f"as it is to be: {name}, {said}", flush=True)
    print(f"tried {len(JOBS)}, failed {failed}")
    return 1 if failed else 0


if __name__ == "__main__":
    sys.exit(main())
