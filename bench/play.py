#!/usr/bin/env python3
"""Times scripts through `./tilestore - play`: many writes of one cell, one write of many cells, reads with a condition,
many deletes, long conditions, dense arrays that are written and read whole, consolidations, one large text, and very many attributes.

    bench/play.py                   times all
    bench/play.py WORD..            times what has one of these names: writes cells conditions deletes parses squares merges text attributes
    bench/play.py --program FILE    times another build of the program

Each script runs five times; it prints the medians in milliseconds, and how they grow with the size.
"""
import argparse
import json
import os
import statistics
import subprocess
import sys
import time

TOP = os.path.dirname(os.path.dirname(os.path.abspath(__file__)))
WRAPPER = os.path.join(TOP, "tilestore")
PROGRAM = os.path.join(TOP, "crates", "tilestore", "out", "tilestore")
WRITES = (500, 1000, 2000, 4000)
CELLS = (1000, 10000, 100000)
SIDE = 1000
STRIDE = 611953
RUNS = 5
READS = 5
THREE_TERMS = "height >= 0 and kind < 256 and name != ''"
DELETES = 200
DELETED_CELLS = 10000
NODES = 1000
PARSES = 500
SIDES = (500, 1000)
MERGED = (16, 32, 64)
MERGED_CELLS = 10000
SMALL = 1000
TEXT_BYTES = 30_000_000
ATTRIBUTES = (40_000, 400_000)


def create(dims, attrs, kind="sparse"):
    return {"cmd": "create", "at": 0, "kind": kind, "dims": dims, "attrs": attrs}


def dim(name, high, extent):
    return {"name": name, "type": "int64", "domain": [0, high], "extent": extent}


def attr(name, kind):
    return {"name": name, "type": kind}


def text_of(commands):
    return "".join(json.dumps(c, separators=(",", ":")) + "\n" for c in commands).encode()


def many_writes(count):
    """A create, so many writes of one cell each to ten places in turn, and a read: the script, and the rows read."""
    commands = [create([dim("x", 9, 10)], [attr("v", "int64")])]
    for i in range(1, count + 1):
        commands.append({"cmd": "write", "at": i, "cols": {"x": [i % 10], "v": [i]}})
    commands.append({"cmd": "read", "at": count})
    return text_of(commands), 10


def written(count):
    """A create, and one write of so many scattered cells."""
    places = [i * STRIDE % (SIDE * SIDE) for i in range(count)]
    columns = {
        "x": [place // SIDE for place in places],
        "y": [place % SIDE for place in places],
        "height": list(range(count)),
        "kind": [i % 256 for i in range(count)],
        "name": ["cell %d" % i for i in range(count)],
    }
    dims = [dim("x", SIDE - 1, 100), dim("y", SIDE - 1, 100)]
    attrs = [attr("height", "int64"), attr("kind", "uint8"), attr("name", "text")]
    return [create(dims, attrs), {"cmd": "write", "at": 1, "cols": columns}]


def one_write(count):
    """A create, one write of so many scattered cells, and a read of all of them: the script, and the rows read."""
    return text_of(written(count) + [{"cmd": "read", "at": 9}]), count


def many_deletes(count, cells):
    """A create, one write of so many cells, so many deletes that erase a cell each, and a read: the script, and the rows read."""
    commands = [create([dim("x", cells - 1, 100)], [attr("v", "int64")])]
    commands.append({"cmd": "write", "at": 1, "cols": {"x": list(range(cells)), "v": list(range(cells))}})
    for i in range(count):
        commands.append({"cmd": "delete", "at": i + 2, "where": "v = %d" % (i * 7)})
    commands.append({"cmd": "read", "at": count + 2})
    return text_of(commands), cells - count


def long_conditions(nodes):
    """A create, and so many reads of no cell, each with a condition of so many nodes: the script, and the rows read."""
    tests = " and ".join("v = %d" % i for i in range(nodes - 1))
    read = {"cmd": "read", "at": 9, "where": tests}
    return text_of([create([dim("x", 9, 10)], [attr("v", "int64")])] + [read] * PARSES), 0


def dense(side):
    """A create of a square of one space tile, one write of all its cells, and a read of them: the script, and the rows read."""
    dims = [dim("x", side - 1, side), dim("y", side - 1, side)]
    commands = [create(dims, [attr("v", "int32")], "dense")]
    commands.append({"cmd": "write", "at": 1, "cols": {"v": list(range(side * side))}})
    commands.append({"cmd": "read", "at": 9})
    return text_of(commands), side * side


def fragments(count, cells):
    """A create, and so many writes of so many cells each, no two at one place."""
    commands = [create([dim("x", count * cells - 1, 1000)], [attr("v", "int64")])]
    for i in range(count):
        places = list(range(i, count * cells, count))
        commands.append({"cmd": "write", "at": i + 1, "cols": {"x": places, "v": places}})
    return commands


def in_one(places):
    """A create, and one write of the cells at these places."""
    cells = len(places)
    return [create([dim("x", cells - 1, 1000)], [attr("v", "int64")]), {"cmd": "write", "at": 1, "cols": {"x": places, "v": places}}]


def milliseconds(data, rows):
    start = time.perf_counter()
    done = subprocess.run([PROGRAM, "-", "play"], input=data, capture_output=True)
    took = (time.perf_counter() - start) * 1000
    if done.returncode != 0:
        sys.exit("status %d: %s" % (done.returncode, done.stderr.decode()))
    if rows is not None and b"\tread\tok\t%d\t0\n" % rows not in done.stdout:
        sys.exit("not the %d rows that are wanted: %s" % (rows, done.stdout[:400].decode()))
    return took


def median(data, rows):
    return statistics.median(milliseconds(data, rows) for _ in range(RUNS))


def table(title, sizes, script):
    print("%s\tmedian ms\tgrowth" % title)
    before = None
    for size in sizes:
        data, rows = script(size)
        now = median(data, rows)
        growth = "" if before is None else "%.2f" % (now / before)
        print("%d\t%.1f\t%s" % (size, now, growth), flush=True)
        before = now


def conditions_of_reads(cells):
    """How long a read of so many cells takes without a condition, and with three terms that all cells match."""
    commands = written(cells)
    alone = median(text_of(commands), None)
    took = []
    for more in ({}, {"where": THREE_TERMS}):
        reads = [dict({"cmd": "read", "at": 9}, **more)] * READS
        took.append((median(text_of(commands + reads), cells) - alone) / READS)
    print("a read of %d cells\t%.1f\twith three terms\t%.1f\ttimes %.2f" % (cells, took[0], took[1], took[1] / took[0]))
    print("wanted: at most 2 times", flush=True)


def deletes(count, cells):
    print("%d deletes over %d cells\t%.1f" % (count, cells, median(*many_deletes(count, cells))))
    print("wanted: below 2000 ms", flush=True)


def parses(nodes):
    """How much longer a read takes whose condition has so many nodes than one whose condition has one node."""
    more = (median(*long_conditions(nodes)) - median(*long_conditions(2))) / PARSES
    print("a condition of %d nodes\t%.3f" % (nodes, more))
    print("wanted: below 1 ms", flush=True)


def squares(sides):
    """How long dense squares take that are written in one write and read whole, and how the time grows from the first to the last."""
    took = [median(*dense(side)) for side in sides]
    for side, ms in zip(sides, took):
        print("a dense array of %d by %d\t%.1f" % (side, side, ms))
    print("times %.2f" % (took[-1] / took[0]))
    print("wanted: below 3000 ms for %d by %d, at most 5 times the %d by %d" % (sides[-1], sides[-1], sides[0], sides[0]), flush=True)


def merges(counts, cells):
    """How long a consolidation takes of fragments of so many cells each, beside one write of all their cells: in the order in which the fragments have them, and in ascending order, which takes no sorting."""
    print("fragments of %d cells\tconsolidated in ms\tgrowth\twritten at once in ms\ttimes\tascending in ms\ttimes" % cells)
    before = None
    for count in counts:
        written = fragments(count, cells)
        merge = {"cmd": "consolidate", "at": count + 1}
        own = median(text_of(written + [merge]), None) - median(text_of(written), None)
        places = [place for write in written[1:] for place in write["cols"]["x"]]
        same, ascending = one_write_ms(places), one_write_ms(sorted(places))
        growth = "" if before is None else "%.2f" % (own / before)
        print("%d\t%.1f\t%s\t%.1f\t%.2f\t%.1f\t%.2f" % (count, own, growth, same, own / same, ascending, own / ascending), flush=True)
        before = own
    print("wanted: at most 2 times one write of the same cells in the same order")


def one_write_ms(places):
    once = in_one(places)
    return median(text_of(once), None) - median(text_of(once[:1]), None)


def reads_of_small(count):
    """How long a read takes over so many fragments of one cell each, before and after a consolidation of all of them."""
    written = fragments(count, 1)
    merge = {"cmd": "consolidate", "at": count + 1, "max": count}
    read = {"cmd": "read", "at": count + 2}
    took = []
    for commands in (written, written + [merge]):
        alone = median(text_of(commands), None)
        took.append((median(text_of(commands + [read] * READS), count) - alone) / READS)
    print("a read of %d fragments\t%.2f\tafter a consolidation of them\t%.2f\ttimes %.2f" % (count, took[0], took[1], took[0] / took[1]), flush=True)


def large_text(size):
    """How long a read of one cell takes whose value is a text of so many bytes, and its write."""
    made = [create([dim("x", 9, 10)], [attr("v", "text")])]
    write = {"cmd": "write", "at": 1, "cols": {"x": [5], "v": ["delgoust" * (size // 8)]}}
    read = {"cmd": "read", "at": 9}
    alone, written, shown = median(text_of(made), None), median(text_of(made + [write]), None), median(text_of(made + [write, read]), 1)
    print("a text of %d bytes: its write\t%.1f\tits read\t%.1f" % (size, written - alone, shown - written), flush=True)


def many_attributes(count):
    """How long a create with so many attributes takes, which is refused."""
    attributes = [attr("a%d" % i, "int8") for i in range(count)]
    data = text_of([create([dim("x", 9, 10)], attributes)])
    print("a create of %d attributes, refused\t%.1f" % (count, median(data, None)))
    print("wanted: below 100 ms for %d" % ATTRIBUTES[0], flush=True)


def tables_of_cells():
    table("cells", CELLS, one_write)
    print("wanted: growth of at most 13 from one size to the next, below 2000 ms for 100000 cells", flush=True)


MEASURES = {
    "writes": lambda: table("writes", WRITES, many_writes),
    "cells": tables_of_cells,
    "conditions": lambda: conditions_of_reads(CELLS[-1]),
    "deletes": lambda: deletes(DELETES, DELETED_CELLS),
    "parses": lambda: parses(NODES),
    "squares": lambda: squares(SIDES),
    "merges": lambda: (merges(MERGED, MERGED_CELLS), reads_of_small(SMALL)),
    "text": lambda: large_text(TEXT_BYTES),
    "attributes": lambda: [many_attributes(count) for count in ATTRIBUTES],
}


def main():
    global PROGRAM
    parser = argparse.ArgumentParser(description=__doc__, formatter_class=argparse.RawDescriptionHelpFormatter)
    parser.add_argument("--program", default=PROGRAM)
    parser.add_argument("names", nargs="*", metavar="WORD")
    chosen = parser.parse_args()
    unknown = set(chosen.names) - set(MEASURES)
    if unknown:
        parser.error("there is no measure named %s" % ", ".join(sorted(unknown)))
    if chosen.program == PROGRAM:
        # The wrapper looks whether it has to build, which would be timed with each script.
        subprocess.run([WRAPPER, "-", "play"], input=b"", check=True)
    PROGRAM = chosen.program
    for name, measure in MEASURES.items():
        if not chosen.names or name in chosen.names:
            measure()


if __name__ == "__main__":
    main()
