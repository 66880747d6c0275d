#!/usr/bin/env python3
"""Times scripts whose lines stand in eight lanes beside the same lines in one.

    bench/lanes.py                    a sparse array whose columns have 64 tiles, read as often in eight lanes as in one
    bench/lanes.py --before FILE      also times the same lines in one lane on a build without threads
    bench/lanes.py --program FILE     another build of the program

The store is a folder in memory, where the machine has that. Reads have a condition that no cell meets, so that they fetch, decode and test all cells and print none. Numbers are medians of five runs: seconds on
the wall, and of all processors together. The last lines are of the same scripts on one processor alone: there a lane that waits takes time from the one that works, so what eight lanes take more than one is what waiting costs.
"""
import argparse
import json
import os
import resource
import statistics
import subprocess
import sys
import tempfile
import time

import play
from sparse import MEMORY

LANES = 8
READS = 32
CELLS = 64_000
CAPACITY = 1_000
WRITES = 4_000
RUNS = 5
NEVER = "v < 0"


def script(commands):
    return "".join(json.dumps(it, separators=(",", ":")) + "\n" for it in commands).encode()


def run(program, store, text, one_processor=False):
    """Seconds on the wall and of processors that a script takes, with what it printed."""
    words = ["taskset", "-c", "0"] if one_processor else []
    used, began = resource.getrusage(resource.RUSAGE_CHILDREN), time.monotonic()
    ran = subprocess.run([*words, program, store, "play"], input=text, capture_output=True)
    wall, now = time.monotonic() - began, resource.getrusage(resource.RUSAGE_CHILDREN)
    if ran.returncode != 0:
        sys.exit("status %d: %s" % (ran.returncode, ran.stdout[:200].decode()))
    return wall, now.ru_utime + now.ru_stime - used.ru_utime - used.ru_stime, ran.stdout


def array(program, store):
    dims = [{"name": "x", "type": "int64", "domain": [0, CELLS - 1], "extent": CELLS}]
    create = {"cmd": "create", "at": 0, "kind": "sparse", "capacity": CAPACITY, "dims": dims, "attrs": [{"name": "v", "type": "int64"}, {"name": "w", "type": "int32"}]}
    places = [x * 7919 % CELLS for x in range(CELLS)]
    write = {"cmd": "write", "at": 1, "cols": {"x": places, "v": [x * x for x in places], "w": [x % 1000 for x in places]}}
    run(program, store, script([create, write]))


def reads(lanes):
    return script([{"cmd": "read", "at": 9, "lane": number % lanes, "where": NEVER} for number in range(READS)])


def small_writes():
    """Many writes of one cell in one lane, and a read."""
    dims = [{"name": "x", "type": "int64", "domain": [0, 9], "extent": 10}]
    create = {"cmd": "create", "at": 0, "kind": "sparse", "dims": dims, "attrs": [{"name": "v", "type": "int64"}]}
    return script([create, *({"cmd": "write", "at": at, "cols": {"x": [at % 10], "v": [at]}} for at in range(1, WRITES)), {"cmd": "read", "at": WRITES}])


def median(program, store, text, one_processor=False):
    runs = [run(program, store, text, one_processor)[:2] for _ in range(RUNS)]
    return statistics.median(wall for wall, _ in runs), statistics.median(used for _, used in runs)


def told(name, took):
    print("%s\t%.3f s on the wall\t%.3f s of processors" % (name, *took))


def main():
    parser = argparse.ArgumentParser(description=__doc__, formatter_class=argparse.RawDescriptionHelpFormatter)
    parser.add_argument("--program", default=play.PROGRAM)
    parser.add_argument("--before")
    chosen = parser.parse_args()
    with tempfile.TemporaryDirectory(dir=MEMORY) as folder:
        store = os.path.join(folder, "store")
        array(chosen.program, store)
        one, eight = (median(chosen.program, store, reads(lanes)) for lanes in (1, LANES))
        told("%d reads in one lane" % READS, one)
        told("%d reads in %d lanes" % (READS, LANES), eight)
        print("eight lanes have %.2f times the throughput of one on %d processors" % (one[0] / eight[0], os.cpu_count()))
        now = median(chosen.program, "-", small_writes())
        told("%d writes and a read in one lane" % (WRITES - 1), now)
        if chosen.before:
            before = median(chosen.before, "-", small_writes())
            told("the same on the build before", before)
            print("one lane takes %.2f times as long" % (now[1] / before[1]))
        alone, beside = (median(chosen.program, store, reads(lanes), one_processor=True) for lanes in (1, LANES))
        told("%d reads in one lane on one processor" % READS, alone)
        told("%d reads in %d lanes on one processor" % (READS, LANES), beside)
        print("eight lanes on one processor take %.2f times as long as one lane" % (beside[0] / alone[0]))


if __name__ == "__main__":
    main()
