#!/usr/bin/env python3
"""Runs jobs with one worker and with several in turn, and prints how they compare:
bench/workers.py FOLDER PROGRAM [--times N] [--counts 2,4] [JOB..]

FOLDER is the one that bench/data.py made, PROGRAM the built program, and the jobs are the translations and the
points of bench/run.py, done by the program alone. Of N runs of each (9 where none is named) the least wall time counts.
A row has that of one worker, and the others as ratios to it: below 1 more workers take less. The last column says
whether all printed and published the same bytes.

The machine has to be idle; put FOLDER into memory (/dev/shm) to leave the disk out. With no JOB all are run."""
import os
import shutil
import sys

sys.dont_write_bytecode = True

from run import JOBS, Side, value_of


def bytes_of(side):
    """What a run printed and published: the bytes of each file in its folder, by name."""
    found = {}
    for name in os.listdir(side.out):
        with open(f"{side.out}/{name}", "rb") as it:
            found[name] = it.read()
    return found


def compare(name, program, room, times, counts):
    """A row: the least time of one worker, and what part of it each other number of workers takes."""
    words, points = JOBS[name]
    sides = {count: Side("out", f"{room}/{count}") for count in [1, *counts]}
    for _ in range(times):
        for count, side in sides.items():
            side.run([program, *(it.replace("{}", side.out) for it in words), "--workers", str(count)], points)
    if any(side.status for side in sides.values()):
        return f"{name:16} failed"
    first = sides[1]
    wanted = bytes_of(first)
    ratios = " ".join(f"{sides[count].wall / first.wall:8.2f}" for count in counts)
    result = "same" if all(bytes_of(side) == wanted for side in sides.values()) else "DIFFERS"
    return f"{name:16} {first.wall * 1000:8.1f} ms {ratios} {result:>8}"


def main(words):
    times = int(value_of("--times", words, "9"))
    counts = [int(it) for it in value_of("--counts", words, "2,4").split(",")]
    jobs = [name for name, (job, _) in JOBS.items() if job[0] in ("gdal_translate", "gdallocationinfo")]
    if len(words) < 2 or any(it not in jobs for it in words[2:]):
        sys.exit(f"bench/workers.py FOLDER PROGRAM [--times N] [--counts 2,4] [JOB..]; jobs: {' '.join(jobs)}")
    program = os.path.realpath(words[1])
    os.chdir(words[0])
    print(f"{'job':16} {'1 worker':>11} {' '.join(f'{count:>8}' for count in counts)} {'bytes':>8}")
    for name in words[2:] or jobs:
        print(compare(name, program, f"{os.getcwd()}/out", times, counts), flush=True)
    shutil.rmtree("out", ignore_errors=True)


if __name__ == "__main__":
    main(sys.argv[1:])
