#!/usr/bin/env python3
"""Times a dense array in space tiles beside HDF5 (h5py) and zarr, over the same numbers in one run: writes, reads of all cells, and reads of small windows.

    bench/dense.py                    2,000 by 2,000 cells in tiles of 100 by 100
    bench/dense.py --side N           so many cells a side, a multiple of 200
    bench/dense.py --program FILE     another build of the program

The cells are int32. Four writes have a quarter each, since a write and a read have 2^20 cells at most. All stores are a folder or a file in memory, where
the machine has that, in chunks of the same shape and uncompressed. Numbers are milliseconds of processors, medians of five runs. A peer that python does
not have is left out; Debian's are `python3-h5py` and `python3-zarr`, for its own `/usr/bin/python3`.

JSON and text are left out. What the writes take is what their script takes, less what the same script takes where each write is stopped before its first
call. Reads have a condition that no cell meets, so that they fetch and test all cells and print none. A window is read in a process that makes a hundred
such reads, each of another window, less one that makes a single one.

Where there is `rustc`, the last line is `bench/scatter.rs`: plain Rust copies the tiles of a read of all from memory, and their rows into place.
"""
import argparse
import os
import random
import shutil
import statistics
import subprocess
import sys
import tempfile
import time

import play
from sparse import MEMORY, RUNS, bytes_of, program_ms

CHUNK = 100
WINDOW = 200
WINDOWS = 100
NEVER = "v < 0"


def quarters(side):
    half = side // 2
    return [(r, c, half) for r in (0, half) for c in (0, half)]


def number(side, r, c):
    """The number at a row and a column: none is below 0."""
    return (side * r + c) * 7919 % 2_000_000_011


def windows(side):
    made = random.Random(3)
    return [(made.randrange(side - WINDOW), made.randrange(side - WINDOW)) for _ in range(WINDOWS)]


def box(r, c, edge):
    return {"r": [r, r + edge - 1], "c": [c, c + edge - 1]}


def of_program(program, side, folder):
    dims = [{"name": name, "type": "int32", "domain": [0, side - 1], "extent": CHUNK} for name in ("r", "c")]
    create = {"cmd": "create", "at": 0, "kind": "dense", "dims": dims, "attrs": [{"name": "v", "type": "int32"}]}
    writes = [{"cmd": "write", "at": 1, "box": box(r, c, edge), "cols": {"v": [number(side, x, y) for x in range(r, r + edge) for y in range(c, c + edge)]}} for r, c, edge in quarters(side)]
    store = os.path.join(folder, "store%d" % time.monotonic_ns())
    stopped = program_ms(program, store + "-stopped", [create, *({**write, "stop": 0} for write in writes)])[0]
    wrote = program_ms(program, store, [create, *writes])[0] - stopped
    read = [{"cmd": "read", "at": 9, "box": box(*quarter), "where": NEVER} for quarter in quarters(side)]
    whole = program_ms(program, store, read)[0]
    some = [{"cmd": "read", "at": 9, "box": box(r, c, WINDOW), "where": NEVER} for r, c in windows(side)]
    one = program_ms(program, store, some[:1])[0]
    many = program_ms(program, store, some)[0]
    shown = program_ms(program, store, [{"cmd": "read", "at": 9, "box": box(side - 1, side - 2, 1), "fields": ["v"]}])[1]
    if shown.split(b"\n")[1] != str(number(side, side - 1, side - 2)).encode():
        sys.exit("another number came: %s" % shown.decode())
    return {"write": wrote, "read of all": whole, "read of a window": (many - one) / (len(some) - 1)}, bytes_of(store)


def of_arrays(side, cells, opened, path):
    """Of a library whose arrays are sliced: what `opened` gives for a mode is the array, and what closes it."""
    took = {}
    before = time.process_time()
    array, close = opened("w")
    for r, c, edge in quarters(side):
        array[r : r + edge, c : c + edge] = cells[r : r + edge, c : c + edge]
    close()
    took["write"] = (time.process_time() - before) * 1000
    before = time.process_time()
    array, close = opened("r")
    for r, c, edge in quarters(side):
        if (array[r : r + edge, c : c + edge] < 0).any():
            sys.exit("a number below 0 came")
    close()
    took["read of all"] = (time.process_time() - before) * 1000
    array, close = opened("r")
    before = time.process_time()
    for r, c in windows(side):
        if (array[r : r + WINDOW, c : c + WINDOW] < 0).any():
            sys.exit("a number below 0 came")
    took["read of a window"] = (time.process_time() - before) * 1000 / WINDOWS
    close()
    return took, bytes_of(path)


def peers(side, folder):
    """The libraries that python has, each with what it took and how many bytes it left."""
    try:
        import numpy
    except ImportError:
        return
    cells = numpy.array([[number(side, r, c) for c in range(side)] for r in range(side)], dtype="int32")
    try:
        import h5py

        path = os.path.join(folder, "h5%d" % time.monotonic_ns())

        def opened(mode):
            file = h5py.File(path, mode)
            made = file.create_dataset("v", (side, side), dtype="int32", chunks=(CHUNK, CHUNK)) if mode == "w" else file["v"]
            return made, file.close

        yield "h5py", *of_arrays(side, cells, opened, path)
    except ImportError:
        pass
    try:
        import zarr

        path = os.path.join(folder, "zarr%d" % time.monotonic_ns())
        yield "zarr", *of_arrays(side, cells, lambda mode: (zarr.open(path, mode=mode, shape=(side, side), chunks=(CHUNK, CHUNK), dtype="int32", compressor=None), lambda: None), path)
    except ImportError:
        pass


def scatter_ms(side, folder):
    """How long plain Rust takes to copy the tiles of a read of all, and their rows into place."""
    program = os.path.join(folder, "scatter")
    subprocess.run(["rustc", "--edition", "2021", "-O", "-o", program, os.path.join(play.TOP, "bench", "scatter.rs")], check=True)
    return float(subprocess.run([program, str(side // 2)], capture_output=True, check=True, text=True).stdout.split("\t")[0])


def main():
    parser = argparse.ArgumentParser(description=__doc__, formatter_class=argparse.RawDescriptionHelpFormatter)
    parser.add_argument("--program", default=play.PROGRAM)
    parser.add_argument("--side", type=int, default=2000)
    parser.add_argument("--runs", type=int, default=RUNS)
    chosen = parser.parse_args()
    found = {}
    for _ in range(chosen.runs):
        with tempfile.TemporaryDirectory(dir=MEMORY) as folder:
            for name, took, size in [("tilestore", *of_program(chosen.program, chosen.side, folder)), *peers(chosen.side, folder)]:
                found.setdefault(name, []).append({**took, "bytes a cell": size / chosen.side**2})
    names = list(found)
    print("%d by %d cells\t%s" % (chosen.side, chosen.side, "\t".join(names)))
    for stage in found["tilestore"][0]:
        medians = [statistics.median(run[stage] for run in found[name]) for name in names]
        times = "".join("\t(%.1f times %s)" % (medians[0] / other, name) for name, other in zip(names[1:], medians[1:]))
        print("%s\t%s%s" % (stage, "\t".join("%.2f" % it for it in medians), times))
    if shutil.which("rustc"):
        with tempfile.TemporaryDirectory() as folder:
            print("read of all, copied and put into place by plain Rust\t%.2f" % scatter_ms(chosen.side, folder))


if __name__ == "__main__":
    main()
