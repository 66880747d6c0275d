#!/usr/bin/env python3
"""Times sparse fragments in tiles beside SQLite, over the same rows in one run: a bulk write, a read of all cells and reads of a small box.

    bench/sparse.py                   a million cells
    bench/sparse.py --cells N         so many
    bench/sparse.py --capacity N      in tiles of so many cells, in place of a thousand
    bench/sparse.py --program FILE    another build of the program

The cells have two dimensions of int32 and three attributes: an int64, an int16 that may be null, and a short text. Both stores are a folder or a
file in memory, where the machine has that. Numbers are milliseconds of processors, medians of five runs.

JSON and text are left out. What a write takes is what its script takes, less what the same script takes where the write is stopped before its first
call: that reads the JSON and lays nothing. A read of all has a condition that no cell meets, so that it fetches and tests all and prints none. SQLite
does the same in its own loop, which gives no row away; what it takes where python gets all rows stands in a line of its own, beside our read that
prints them. A box of a thousandth of the cells is read in a process that makes two hundred such reads, each of another box, less one that makes
a single one; these print their rows. SQLite has the index of its primary key, over both dimensions, and works through python's module, on rows that
python holds already.
"""
import argparse
import json
import os
import random
import resource
import sqlite3
import statistics
import subprocess
import sys
import tempfile
import time

import play

SIDE = 20_000
RUNS = 5
BOXES = 200
MEMORY = "/dev/shm" if os.access("/dev/shm", os.W_OK) else None
NEVER = "count = 1 and note = 'none has this'"


def rows_of(cells):
    """So many rows at places of their own, in an order that no store has."""
    made = random.Random(7)
    places = made.sample(range(SIDE * SIDE), cells)
    return [(place // SIDE, place % SIDE, i * 1_000_003, None if i % 10 == 0 else i % 30_000, "n%d" % (i % 1000)) for i, place in enumerate(places)]


def create_line(capacity):
    dims = [{"name": name, "type": "int32", "domain": [0, SIDE - 1], "extent": 1000} for name in ("x", "y")]
    attrs = [{"name": "sum", "type": "int64"}, {"name": "count", "type": "int16", "nullable": True}, {"name": "note", "type": "text"}]
    return {"cmd": "create", "at": 0, "kind": "sparse", "capacity": capacity, "dims": dims, "attrs": attrs}


def write_line(rows, **more):
    names = ("x", "y", "sum", "count", "note")
    return {"cmd": "write", "at": 1, "cols": dict(zip(names, map(list, zip(*rows)))), **more}


def boxes_of(cells, count):
    """Boxes that have a thousandth of the places each."""
    made = random.Random(11)
    edge = int(SIDE / 1000**0.5)
    for _ in range(count):
        low = made.randrange(SIDE - edge), made.randrange(SIDE - edge)
        yield low, (low[0] + edge - 1, low[1] + edge - 1)


def read_line(low, high):
    return {"cmd": "read", "at": 9, "box": {"x": [low[0], high[0]], "y": [low[1], high[1]]}}


def program_ms(program, store, lines):
    """How many milliseconds of processors the program takes over a store for a script, and what it prints."""
    before = resource.getrusage(resource.RUSAGE_CHILDREN)
    done = subprocess.run([program, store, "play"], input=play.text_of(lines), capture_output=True)
    after = resource.getrusage(resource.RUSAGE_CHILDREN)
    if done.returncode != 0 or b"refused" in done.stdout:
        sys.exit("status %d: %s" % (done.returncode, done.stdout[:200].decode()))
    return (after.ru_utime - before.ru_utime + after.ru_stime - before.ru_stime) * 1000, done.stdout


def of_program(program, capacity, rows, boxes, folder):
    create = create_line(capacity)
    store = os.path.join(folder, "store%d" % time.monotonic_ns())
    stopped = program_ms(program, store + "-stopped", [create, write_line(rows, stop=0)])[0]
    write = program_ms(program, store, [create, write_line(rows)])[0] - stopped
    tested = program_ms(program, store, [{"cmd": "read", "at": 9, "where": NEVER}])[0]
    printed = program_ms(program, store, [{"cmd": "read", "at": 9}])[0]
    one = program_ms(program, store, [read_line(*boxes[0])])[0]
    many, shown = program_ms(program, store, [read_line(*box) for box in boxes])
    took = {"write": write, "read of all, none shown": tested, "read of all, all shown": printed, "read of a box": (many - one) / (len(boxes) - 1)}
    return took, store, shown


def of_sqlite(rows, boxes, folder):
    file = os.path.join(folder, "sqlite%d" % time.monotonic_ns())
    took, found = {}, []
    base = sqlite3.connect(file)
    before = time.process_time()
    base.execute("create table cells (x integer, y integer, sum integer not null, count integer, note text not null, primary key (x, y)) without rowid")
    base.executemany("insert into cells values (?, ?, ?, ?, ?)", rows)
    base.commit()
    took["write"] = (time.process_time() - before) * 1000
    base.close()
    base = sqlite3.connect(file)
    before = time.process_time()
    if base.execute("select * from cells where +%s" % NEVER).fetchall():
        sys.exit("SQLite has such a row")
    took["read of all, none shown"] = (time.process_time() - before) * 1000
    before = time.process_time()
    if len(base.execute("select * from cells order by x, y").fetchall()) != len(rows):
        sys.exit("SQLite has other rows")
    took["read of all, all shown"] = (time.process_time() - before) * 1000
    before = time.process_time()
    for low, high in boxes:
        found += base.execute("select * from cells where x between ? and ? and y between ? and ? order by x, y", (low[0], high[0], low[1], high[1])).fetchall()
    took["read of a box"] = (time.process_time() - before) * 1000 / len(boxes)
    base.close()
    return took, file, found


def bytes_of(path):
    """The bytes of a file, or of all files of a folder."""
    if os.path.isfile(path):
        return os.path.getsize(path)
    return sum(os.path.getsize(os.path.join(top, name)) for top, _, names in os.walk(path) for name in names)


def main():
    parser = argparse.ArgumentParser(description=__doc__, formatter_class=argparse.RawDescriptionHelpFormatter)
    parser.add_argument("--program", default=play.PROGRAM)
    parser.add_argument("--cells", type=int, default=1_000_000)
    parser.add_argument("--capacity", type=int, default=1000)
    parser.add_argument("--runs", type=int, default=RUNS)
    chosen = parser.parse_args()
    rows, boxes = rows_of(chosen.cells), list(boxes_of(chosen.cells, BOXES))
    ours, theirs, sizes = [], [], {}
    for _ in range(chosen.runs):
        with tempfile.TemporaryDirectory(dir=MEMORY) as folder:
            took, store, shown = of_program(chosen.program, chosen.capacity, rows, boxes, folder)
            ours.append(took)
            took, file, found = of_sqlite(rows, boxes, folder)
            theirs.append(took)
            sizes = {"tilestore": bytes_of(store), "SQLite": bytes_of(file)}
            cells = sum(line.count(b"\t") == 4 and b"\tread\t" not in line for line in shown.splitlines())
            if cells != len(found):
                sys.exit("%d cells beside %d of SQLite" % (cells, len(found)))
    print("%d cells\ttilestore\tSQLite\ttimes" % chosen.cells)
    for name in ours[0]:
        own, other = (statistics.median(it[name] for it in runs) for runs in (ours, theirs))
        print("%s, ms\t%.1f\t%.1f\t%.2f" % (name, own, other, own / other))
    print("bytes a cell\t%.1f\t%.1f\t%.2f" % (sizes["tilestore"] / chosen.cells, sizes["SQLite"] / chosen.cells, sizes["tilestore"] / sizes["SQLite"]))
    text = sum(len(row[4]) for row in rows) / chosen.cells
    print("widths of the columns, uncompressed: %.1f bytes a cell (4, 4, 8, 2 and 1 whether it is null, 8 and %.1f of text)" % (27 + text, text))


if __name__ == "__main__":
    main()
