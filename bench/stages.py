#!/usr/bin/env python3
"""Times the stages of a script apart: of the built program, of plain Rust and of SQLite, over the same cells in one run.

    bench/stages.py                   both cases
    bench/stages.py WORD..            those with one of these names: sparse dense
    bench/stages.py --program FILE    another build of the program

`sparse` writes 100,000 scattered cells of two dimensions and three attributes, one of them a text, and reads all of
them. `dense` writes and reads an array of 1,000 by 1,000 of int32. The numbers are milliseconds of processors, medians
of five runs.

The program's stages are told by `perf`: each sample counts for the stage of the innermost function that belongs to
one. Those that belong to none are mostly moves of memory, whose caller `perf` cannot see: they stand under `moves`.
Laying counts the ordering of a write's cells, and answering the merging and the selecting. `bench/plain.rs`, which rustc compiles, times its own. SQLite works in memory, through python's module, which reads
the JSON and prints the rows. h5py is timed for the dense array where python has it.
"""
import argparse
import json
import os
import resource
import statistics
import subprocess
import sys
import tempfile
import time

import play

CELLS = 100_000
SIDE = 1000
RUNS = 5
# A stage is that of the innermost function whose name has one of its words; the first that fits counts.
STAGES = (
    ("printing", ("ts_query::", "ts_top::ends", "ts_top::top::print_all", "ts_top::items")),
    ("encoding", ("PlainPieces::parts", "PlainPiecesPieces::parts", "ts_plain::writing", "SparsePieces::parts", "SparsePiecesPieces::parts", "DensePieces::parts", "DensePiecesPieces::parts", "ts_sparse::", "ts_dense::", "ts_piece::", "ts_column::objects", "ts_column::encode")),
    ("decoding", ("PlainPieces::fetch", "PlainPiecesPieces::fetch", "ts_plain::reading", "ts_plain::pieces", "ts_schema::wants", "ts_sparse_read::", "ts_dense_read::", "ts_fetch::", "ts_footer::", "ts_column::")),
    ("answering", ("ts_reader::answers", "ts_reader::newest", "ts_reader::slots", "ts_reader::vals", "ts_reader::sides", "ts_reader::shown", "ts_select::", "ts_match::")),
    ("laying", ("ts_writer::", "ts_model::places")),
    ("storing", ("ts_store::", "MemStore")),
    ("input", ("ts_script::", "serde_json::", "json::", "ts_top::top::prepare", "ts_top::runner::job_of")),
)
ROWS = ("input", "laying", "encoding", "storing", "decoding", "answering", "printing", "moves")
# The stages of `bench/plain.rs` that count for one of these.
PLAIN = {"ordering": "laying", "merging": "answering"}


def script_of(case):
    """The script of a case, and how many rows its read has."""
    return play.one_write(CELLS) if case == "sparse" else play.dense(SIDE)


def processor_ms(words, data):
    """How many milliseconds of processors a program takes over this input, and what it prints on both streams."""
    before = resource.getrusage(resource.RUSAGE_CHILDREN)
    done = subprocess.run(words, input=data, capture_output=True)
    after = resource.getrusage(resource.RUSAGE_CHILDREN)
    if done.returncode != 0:
        sys.exit("status %d of %s: %s" % (done.returncode, words[0], done.stderr.decode()))
    return (after.ru_utime - before.ru_utime + after.ru_stime - before.ru_stime) * 1000, done


def stage_of(frames):
    for frame in frames:
        for stage, words in STAGES:
            if any(word in frame for word in words):
                return stage
    return "moves"


def samples_of(program, data, folder):
    """How many samples of a run fall into each stage."""
    file = os.path.join(folder, "perf.data")
    words = ["perf", "record", "-q", "-e", "cpu-clock", "-F", "1999", "-g", "-o", file, program, "-", "play"]
    subprocess.run(words, input=data, stdout=subprocess.DEVNULL, stderr=subprocess.DEVNULL, check=True)
    shown = subprocess.run(["perf", "script", "-i", file, "-F", "ip,sym"], capture_output=True, check=True).stdout.decode()
    counts = dict.fromkeys(ROWS, 0)
    for sample in shown.split("\n\n"):
        frames = [line.strip() for line in sample.splitlines() if line.strip()]
        if frames:
            counts[stage_of(frames)] += 1
    return counts


def of_program(program, data, folder):
    took = statistics.median(processor_ms([program, "-", "play"], data)[0] for _ in range(RUNS))
    counts = samples_of(program, data, folder)
    every = sum(counts.values())
    return {row: took * counts[row] / every for row in ROWS}


def of_plain(plain, data):
    runs = []
    for _ in range(RUNS):
        stages = dict.fromkeys(ROWS, 0.0)
        for line in processor_ms([plain], data)[1].stderr.decode().splitlines():
            name, took = line.split("\t")
            stages[PLAIN.get(name, name)] += float(took)
        runs.append(stages)
    return {row: statistics.median(run[row] for run in runs) for row in ROWS}


class Clock:
    """Adds up the milliseconds of processors of stages."""

    def __init__(self):
        self.stages = dict.fromkeys(ROWS, 0.0)
        self.before = time.process_time()

    def end(self, stage):
        now = time.process_time()
        self.stages[stage] += (now - self.before) * 1000
        self.before = time.process_time()


def sqlite_run(data):
    import sqlite3

    clock = Clock()
    create, write, _ = [json.loads(line) for line in data.decode().splitlines()]
    clock.end("input")
    dims = [it["name"] for it in create["dims"]]
    attrs = [it["name"] for it in create["attrs"]]
    columns = [write["cols"].get(name) for name in dims + attrs]
    if create["kind"] == "dense":
        side = create["dims"][1]["domain"][1] + 1
        count = len(columns[-1])
        columns[0] = [cell // side for cell in range(count)]
        columns[1] = [cell % side for cell in range(count)]
    clock.end("laying")
    base = sqlite3.connect(":memory:")
    base.execute("create table cells (%s, primary key (%s)) without rowid" % (", ".join(dims + attrs), ", ".join(dims)))
    base.executemany("insert into cells values (%s)" % ", ".join("?" * len(columns)), zip(*columns))
    base.commit()
    clock.end("storing")
    rows = base.execute("select * from cells order by %s" % ", ".join(dims)).fetchall()
    clock.end("answering")
    "\n".join("\t".join(map(str, row)) for row in rows)
    clock.end("printing")
    return clock.stages


def h5py_run(data):
    import h5py
    import numpy

    clock = Clock()
    create, write, _ = [json.loads(line) for line in data.decode().splitlines()]
    clock.end("input")
    side = create["dims"][1]["domain"][1] + 1
    values = numpy.array(write["cols"]["v"], dtype="int32").reshape(side, side)
    clock.end("laying")
    with h5py.File("memory", "w", driver="core", backing_store=False) as file:
        held = file.create_dataset("v", data=values)
        clock.end("storing")
        read = held[...]
        clock.end("answering")
    "\n".join("%d\t%d\t%d" % (x, y, value) for x, row in enumerate(read) for y, value in enumerate(row))
    clock.end("printing")
    return clock.stages


def median_of(run, data):
    runs = [run(data) for _ in range(RUNS)]
    return {row: statistics.median(it[row] for it in runs) for row in ROWS}


def has_h5py():
    try:
        import h5py  # noqa: F401
    except ImportError:
        return False
    return True


def show(case, peers):
    print("%s\t%s" % (case, "\t".join(name for name, _ in peers)))
    for row in ROWS:
        print("%s\t%s" % (row, "\t".join("%.0f" % stages[row] for _, stages in peers)))
    print("whole\t%s" % "\t".join("%.0f" % sum(stages.values()) for _, stages in peers), flush=True)


def main():
    parser = argparse.ArgumentParser(description=__doc__, formatter_class=argparse.RawDescriptionHelpFormatter)
    parser.add_argument("--program", default=play.PROGRAM)
    parser.add_argument("names", nargs="*", metavar="WORD")
    chosen = parser.parse_args()
    for case in ("sparse", "dense"):
        if chosen.names and case not in chosen.names:
            continue
        data, _ = script_of(case)
        with tempfile.TemporaryDirectory() as folder:
            plain = os.path.join(folder, "plain")
            subprocess.run(["rustc", "--edition", "2021", "-O", "-o", plain, os.path.join(play.TOP, "bench", "plain.rs")], check=True)
            peers = [("tilestore", of_program(chosen.program, data, folder)), ("plain Rust", of_plain(plain, data)), ("SQLite", median_of(sqlite_run, data))]
            if case == "dense" and has_h5py():
                peers.append(("h5py", median_of(h5py_run, data)))
            show(case, peers)


if __name__ == "__main__":
    main()
