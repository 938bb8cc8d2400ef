#!/usr/bin/env python3
"""Runs jobs by GDAL's commands and by the program in turn, and prints how they compare:
bench/run.py FOLDER PROGRAM [--times N] [--words 'WORD ..'] [JOB..]

FOLDER is the one that bench/data.py made, PROGRAM the built program, and the words of --words stand behind each of the
program's own, as '--blocks 4096'. Of N runs of each (3 where none is named) the least wall time and the least processor
time count, and the greatest peak of memory. The ratios are program to GDAL: below 1 the program takes less. The last
column says whether both made the same pixels, or printed the same; '-' where the texts differ by design.

The machine has to be idle, and the first run of a job brings its files into memory. With no JOB all are run."""
import os
import shutil
import subprocess
import sys
import time

RAW, GRID, CELL, TILE = (["-of", it] for it in ("EHdr", "AAIGrid", "DTED", "SRTMHGT"))
WINDOW = ["-srcwin", "1000", "2000", "1500", "1500"]
PLACES = ["-projwin", "-95", "85", "-85", "75"]

# the words of each job, and what is given on standard input; {} is a folder for the output
JOBS = {
    "report": (["gdalinfo", "wide.bil"], None),
    "report-grid": (["gdalinfo", "grid.asc"], None),
    "raw-bsq": (["gdal_translate", "-q", *RAW, "wide.bil", "{}/out.bsq"], None),
    "raw-window": (["gdal_translate", "-q", *RAW, *WINDOW, "wide.bil", "{}/out.bil"], None),
    "raw-places": (["gdal_translate", "-q", *RAW, *PLACES, "wide.bil", "{}/out.bil"], None),
    "raw-tenth": (["gdal_translate", "-q", *RAW, "-outsize", "10%", "10%", "wide.bil", "{}/out.bil"], None),
    "tile-grid": (["gdal_translate", "-q", *GRID, "N45E008.hgt", "{}/out.asc"], None),
    "tile-cell": (["gdal_translate", "-q", *CELL, "N45E008.hgt", "{}/out.dt2"], None),
    "grid-raw": (["gdal_translate", "-q", *RAW, "grid.asc", "{}/out.bil"], None),
    "cell1-raw": (["gdal_translate", "-q", *RAW, "cell1.dt1", "{}/out.bil"], None),
    "cell2-raw": (["gdal_translate", "-q", *RAW, "cell2.dt2", "{}/out.bil"], None),
    "cell2-tile": (["gdal_translate", "-q", *TILE, "cell2.dt2", "{}/N45E008.hgt"], None),
    "four-raw": (["gdal_translate", "-q", *RAW, "four.vrt", "{}/out.bil"], None),
    "hundred-raw": (["gdal_translate", "-q", *RAW, "hundred.vrt", "{}/out.bil"], None),
    "thousand-raw": (["gdal_translate", "-q", *RAW, "thousand.vrt", "{}/out.bil"], None),
    "nested-raw": (["gdal_translate", "-q", *RAW, "nested4.vrt", "{}/out.bil"], None),
    "parts-raw": (["gdal_translate", "-q", *RAW, "parts.vrt", "{}/out.bil"], None),
    "build-four": (["gdalbuildvrt", "-q", "{}/out.vrt", *(f"N4{y}E00{x}.hgt" for y in "54" for x in "89")], None),
    "build-thousand": (["gdalbuildvrt", "-q", "-input_file_list", "thousand.txt", "{}/out.vrt"], None),
    "points-rows": (["gdallocationinfo", "-valonly", "plain.bil"], "plain.rows"),
    "points-jumps": (["gdallocationinfo", "-valonly", "plain.bil"], "plain.jumps"),
    "mosaic-rows": (["gdallocationinfo", "-valonly", "hundred.vrt"], "hundred.rows"),
    "mosaic-jumps": (["gdallocationinfo", "-valonly", "hundred.vrt"], "hundred.jumps"),
}


class Side:
    """What the runs of one side took, and the folder of its outputs."""

    def __init__(self, name, room):
        self.out, self.wall, self.busy, self.peak, self.status = f"{room}/{name}", 1e9, 1e9, 0, 0

    def run(self, words, points):
        shutil.rmtree(self.out, ignore_errors=True)
        os.makedirs(self.out)
        with open(points or os.devnull) as given, open(f"{self.out}/printed", "wb") as taken:
            began = time.perf_counter()
            child = subprocess.Popen(words, stdin=given, stdout=taken, stderr=subprocess.STDOUT)
            _, status, used = os.wait4(child.pid, 0)
            self.wall = min(self.wall, time.perf_counter() - began)
        child.returncode = status
        self.status = self.status or status
        self.busy = min(self.busy, used.ru_utime + used.ru_stime)
        self.peak = max(self.peak, used.ru_maxrss)

    def result(self, words):
        """Returns the bytes that are compared: the pixels of an output as raw data, or what was printed."""
        made = next((it for it in words if it.startswith("{}/")), None)
        if made is None:
            with open(f"{self.out}/printed", "rb") as it:
                return it.read()
        raw = ["gdal_translate", "-q", "-of", "EHdr", made.replace("{}", self.out), f"{self.out}/pixels.bil"]
        subprocess.run(raw, stderr=subprocess.DEVNULL)
        with open(f"{self.out}/pixels.bil", "rb") as it:
            return it.read()


def compare(name, program, room, times, more):
    words, points = JOBS[name]
    gdal, ours = Side("gdal", room), Side("ours", room)
    for _ in range(times):
        gdal.run([it.replace("{}", gdal.out) for it in words], points)
        ours.run([program, *(it.replace("{}", ours.out) for it in words), *more], points)
    if ours.status or gdal.status:
        with open(f"{(ours if ours.status else gdal).out}/printed", errors="replace") as it:
            return f"{name:16} {'the program' if ours.status else 'GDAL'} failed: {it.readline().strip()}"
    same = "-" if words[0] == "gdalinfo" else "same" if gdal.result(words) == ours.result(words) else "DIFFERS"
    ratios = f"{ours.wall / gdal.wall:8.2f} {ours.busy / gdal.busy:10.2f} {ours.peak / gdal.peak:8.2f}"
    return f"{name:16} {gdal.wall:8.3f} s {ours.wall:8.3f} s {ratios} {same:>8}"


def value_of(flag, words, otherwise):
    if flag not in words:
        return otherwise
    at = words.index(flag)
    value = words[at + 1]
    del words[at : at + 2]
    return value


def main(words):
    times, more = int(value_of("--times", words, "3")), value_of("--words", words, "").split()
    if len(words) < 2 or any(it not in JOBS for it in words[2:]):
        sys.exit(f"bench/run.py FOLDER PROGRAM [--times N] [--words 'WORD ..'] [JOB..]; jobs: {' '.join(JOBS)}")
    program = os.path.realpath(words[1])
    os.chdir(words[0])
    print(f"{'job':16} {'GDAL':>10} {'program':>10} {'time':>8} {'processor':>10} {'memory':>8} {'result':>8}")
    for name in words[2:] or JOBS:
        print(compare(name, program, f"{os.getcwd()}/out", times, more), flush=True)
    shutil.rmtree("out", ignore_errors=True)


if __name__ == "__main__":
    main(sys.argv[1:])
